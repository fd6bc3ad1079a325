"""Tests of the tools that people use: text to sheet and back, refusals explained, tables, pictures, wrong inputs."""

import os
import random
import re
import shutil
import struct
import sys
import tempfile
import xml.dom.minidom
from collections import Counter
from pathlib import Path

import air_samples
import desk_samples
import native
import reading
import samples
from harness import EXAMPLES, SHEET, example_answers, example_sheets, need, printed_by_program, test
from jobsheet import answer as planner
from jobsheet import binary, channels, desk, picture, show, spacing, text
from jobsheet.answer import Answer
from jobsheet.columns import width
from native import DESK_ARCHIVE, ROOT, run
from spare_samples import answered

COMMANDS = ("make", "show", "why", "plan", "counts", "picture", "dimacs", "from-dimacs", "heaviest", "chart")


@test("examples/README.md says what the planner answers")
def _(_):
    rows = example_answers()
    for name, answer, row in rows:
        data = (EXAMPLES / name).read_bytes()
        printed = printed_by_program(data)
        need(reading.printed(data) == printed, f"{name}: the program says {printed[:30]!r}, and not the reading")
        if binary.is_festival(data):
            need("`refused 3`" in row and printed == "refused 3\n", f"{name}: the program says {printed[:30]!r}")
            told = planner.plan(binary.decode(data))
            printed = f"{told.verdict} {told.number}\n"
        need(printed.splitlines()[0] == answer, f"{name}: the planner says {printed[:30]!r}")
    listed = {name for name, _, _ in rows}
    there = {str(path.relative_to(EXAMPLES)) for path in example_sheets()}
    need(listed == there, f"not in the table or not there: {sorted(listed ^ there)}")


@test("tools/sheet on every example")
def _(_):
    with tempfile.TemporaryDirectory() as folder:
        out = Path(folder) / "out"
        for name, answer, row in example_answers():
            sheet, source = EXAMPLES / name, (EXAMPLES / name).with_suffix(".txt")
            refused = answer.startswith("refused")
            why = run([SHEET, "why", sheet])
            need(why.stdout.decode().startswith(answer if refused else "accepted"), f"why {name}: {why.stdout[:60]!r}")
            if source.exists():
                made = run([SHEET, "make", source, "-o", out])
                need((made.returncode == 0) != refused, f"make {source.name}: status {made.returncode}")
                complaint = re.search(r"line \d+: expected .*", made.stderr.decode())
                need(complaint and complaint.group() in row if refused else out.read_bytes() == sheet.read_bytes(), f"make {source.name}")
            if refused:
                need(run([SHEET, "plan", sheet]).returncode == 1, f"plan {name}")
                continue
            shown = run([SHEET, "show", sheet])
            made = run([SHEET, "make", "-"], input=shown.stdout)
            need(made.stdout == sheet.read_bytes(), f"make of show {name}")
            for job in (sheet, source):
                planned = run([SHEET, "plan", job])
                need((planned.returncode == 0) == answer.startswith("found"), f"plan {job.name}: status {planned.returncode}")
                drawn = run([SHEET, "picture", job, "-o", out])
                need(drawn.returncode == planned.returncode, f"picture {job.name}: {drawn.stderr.decode()[:200]}")
                xml.dom.minidom.parse(str(out))


@test("tools/sheet plan prints the program's plan with names")
def _(_):
    for name in ("theatre", "edges"):
        table = run([SHEET, "plan", EXAMPLES / f"{name}.txt"]).stdout.decode()
        job = text.parse((EXAMPLES / f"{name}.txt").read_text(encoding="utf-8"))
        plan = printed_by_program((EXAMPLES / f"{name}.sheet").read_bytes()).splitlines()[1:]
        for link, line in enumerate(plan):
            khz = int(line.split()[1])
            wide = rf" +{job.sheet.widths[link]}" if job.sheet.widths else ""
            row = rf"^ *{link}  {re.escape(job.names[link])} +{khz // 1000}\.{khz % 1000:03}{wide} +\d+(\.5)? +[A-Z].*, \d+(\.5)? kHz "
            need(re.search(row, table, re.MULTILINE), f"{name}: no row for link {link} in the table")


@test("docs/TEXT.md and the pictures show the theatre, the club stage and the town square as they are")
def _(_):
    page = (ROOT / "docs" / "TEXT.md").read_text(encoding="utf-8")
    for name in ("theatre", "edges", "on-air"):
        job = EXAMPLES / f"{name}.txt"
        need(job.read_text(encoding="utf-8") in page, f"docs/TEXT.md does not hold examples/{name}.txt")
        plan, every = (run(["env", "COLUMNS=120", SHEET, "plan", job, *more]).stdout.decode() for more in ([], ["--spare"]))
        need(plan in page, f"docs/TEXT.md does not hold the plan of {name}")
        need(name != "edges" or every[len(plan):].strip() in page, f"docs/TEXT.md does not hold the spare spacing of {name}")
        drawn = run([SHEET, "picture", job, "-o", "-"]).stdout
        need(drawn == (EXAMPLES / f"{name}.svg").read_bytes(), f"tools/sheet picture draws another examples/{name}.svg")


@test("docs/FORMAT.md shows its two sheets byte by byte")
def _(_):
    page = (ROOT / "docs" / "FORMAT.md").read_text(encoding="utf-8")
    lists = [[500_000, 500_400], [500_000, 500_300]]
    wanted = [binary.Sheet(lists, [binary.Rule(0, 1, binary.SPACING, 400)]), binary.Sheet(lists, [binary.Rule(0, 1, binary.SPACING, 360)], [30, 50])]
    shown = page.split("| offset | bytes (hexadecimal) | meaning |")[1:]
    need(len(shown) == len(wanted), f"{len(shown)} tables of bytes")
    for table, sheet in zip(shown, wanted):
        data = b""
        for offset, digits in re.findall(r"^\| (\d+) \| ([0-9a-f ]+) \|", table.split("\n## ")[0], re.MULTILINE):
            need(int(offset) == len(data), f"offset {offset} after {len(data)} bytes")
            data += bytes.fromhex(digits)
        need(data == binary.encode(sheet), f"form {sheet.form()}: other bytes")
        need(printed_by_program(data) == "found 3\n0 500400\n1 500000\n", f"form {sheet.form()}: {printed_by_program(data)!r}")
        need(planner.plan(sheet, [24]) == Answer("none", 0, []), f"form {sheet.form()}: a plan with channel 24 on air")


@test("the club stage needs its widths: the plan between centres breaks the spacing between edges")
def _(_):
    whole = (EXAMPLES / "edges.txt").read_text(encoding="utf-8")
    job, centres = text.parse(whole), text.parse(re.sub(r"(?m)^width .*\n", "", whole))
    need(binary.encode(centres.sheet)[:4] == b"\x01\0\0\0", "without width lines the form is not 1")
    plans = [[int(line.split()[1]) for line in printed_by_program(binary.encode(sheet)).splitlines()[1:]] for sheet in (job.sheet, centres.sheet)]
    need([spacing.keeps_rules(job.sheet, plan) for plan in plans] == [True, False], f"{plans}")
    need(spacing.keeps_rules(centres.sheet, plans[1]), f"{plans[1]}")


@test("every command has --help")
def _(_):
    commands = [[SHEET, "--help"], [ROOT / "bench" / "run", "--help"], [ROOT / "tests" / "outside", "--help"], ["sh", EXAMPLES / "build", "--help"]]
    commands += [[SHEET, name, "--help"] for name in COMMANDS] + [["sh", ROOT / "guvtemi", "--help"]]
    for command in commands:
        done = run(command)
        need(done.returncode == 0 and len(done.stdout) > 60, f"{command}: status {done.returncode}")


@test("guvtemi plans every example as the program does, and a wrong argument gets a sentence")
def _(_):
    run(["sh", ROOT / "guvtemi", example_sheets()[0]])  # the first call may build
    for sheet in example_sheets():
        done = run(["sh", ROOT / "guvtemi", sheet])
        need(done.stdout.decode() == printed_by_program(sheet.read_bytes()) and not done.stderr, f"{sheet.name}: {done.stdout[:40]!r}")
    for arguments in ([], ["no-such-file"], [str(EXAMPLES)], ["a", "b"]):
        done = run(["sh", ROOT / "guvtemi", *arguments])
        need(done.returncode == 2 and done.stderr and not done.stdout, f"{arguments}: status {done.returncode}")


@test("guvtemi builds again when the sources have changed")
def _(_):
    with tempfile.TemporaryDirectory() as folder:
        root, tools = Path(folder) / "root", Path(folder) / "tools"
        source, added = root / "crates" / "plan" / "src" / "main.rt", root / "crates" / "plan" / "specs" / "Added.antt"
        for path in (source.parent, added.parent, tools):
            path.mkdir(parents=True)
        for path in (root / "crates.txt", root / "a.sheet", source):
            path.write_text("plan:\n")
        shutil.copy(ROOT / "guvtemi", root)
        (tools / "rt").write_text('#!/bin/sh\n[ "$*" = run ] || exit 3\necho "rt: chose --jobs 2 for plan" >&2\n[ -e ../../broken ] && exit 1\n'
                                  "mkdir -p out\nprintf '#!/bin/sh\\necho planned\\n' >out/plan\nchmod +x out/plan\n"
                                  'echo "rt: running out/plan; to give it other input, run that file yourself" >&2\nout/plan\n')
        (tools / "rt").chmod(0o755)

        def told(with_rt=True):
            """Whether it built, and its status."""
            path = f"{tools}:/usr/bin:/bin" if with_rt else "/usr/bin:/bin"
            done = run(["env", f"PATH={path}", "sh", root / "guvtemi", root / "a.sheet"])
            need((done.stdout == b"planned\n") == (done.returncode == 0), f"printed {done.stdout!r} with status {done.returncode}")
            need(b"running" not in done.stderr, done.stderr.decode())
            return b"guvtemi: proving plan" in done.stderr, done.returncode

        steps = [("not built", lambda: None, True), ("built", lambda: None, False), ("a touched file", source.touch, False),
                 ("a changed file", lambda: source.write_text("fn"), True), ("a new file", lambda: added.write_text("x"), True),
                 ("no change", lambda: None, False), ("a removed file", added.unlink, True)]
        for name, change, builds in steps:
            change()
            need(told() == (builds, 0), f"{name}: {'not ' * builds}built")
        if not shutil.which("rt", path="/usr/bin:/bin"):
            source.write_text("other")
            need(told(with_rt=False) == (False, 1), "the old program ran for changed sources")
        (root / "broken").touch()
        need(told() == (True, 1) and told() == (True, 1), "the old program ran for sources that are not proved")


@test("wrong and missing inputs get a sentence, never a traceback")
def _(_):
    with tempfile.TemporaryDirectory() as folder:
        made = {"empty": b"", "noise": bytes(range(256)), "latin": "job Café\nlink A 500.1\n".encode("latin-1"), "words": b"hello there\n",
                "short": b"\x01\0\0\0", "text": b"job x\nlink A 500.1\n"}
        files = {name: Path(folder) / name for name in made}
        for name, data in made.items():
            files[name].write_bytes(data)
        (Path(folder) / "deep").mkdir()
        inputs = [*files.values(), Path(folder) / "missing", Path(folder), Path(folder) / "x\0y"]
        cases = [[name, path] for name in COMMANDS[:7] for path in inputs if "\0" not in str(path)]
        cases += [["from-dimacs", *two] for path in inputs[:-1] for two in ((path, files["text"]), (files["text"], path), (path,), ("-", "-"))]
        cases += [[], ["unknown"], ["make"], ["make", files["text"], "-o", Path(folder) / "deep"], ["picture", files["text"], "-o", Path(folder) / "no" / "where"],
                  ["dimacs", files["text"], "-o", Path(folder) / "no" / "where"], ["dimacs", files["text"], "-o", "-"], ["dimacs", "-"]]
        cases += [[name, files["text"], "--air", given] for name in ("plan", "counts", "picture", "why")
                  for given in ("20", "x", "41-38", "256", "-1", "38,38")]
        cases += [["counts", files["text"], "--limit", given] for given in ("", "0", "x", "-1", "1.5", "1000000001", "9" * 30)]
        cases += [["picture", files["text"], "--limit", "5"], ["plan", files["text"], "--limit", "5"], ["counts", files["text"], "--spare"]]
        cases += [["plan", files["text"], "--air"], ["plan", files["text"], "--air", ""], ["make", files["text"], "--air", "38"]]
        for case in cases:
            done = run([SHEET, *case], cwd=folder, input=b"")
            said = (done.stdout + done.stderr).decode(errors="replace")
            need("Traceback" not in said and said.strip(), f"{case}: {said[-300:]}")
            good = case[:1] in (["make"], ["plan"], ["counts"], ["picture"], ["dimacs"]) and case[1:] == [files["text"]]
            need((done.returncode == 0) == good, f"{case}: status {done.returncode}")


@test("tools/sheet dimacs and from-dimacs on every example")
def _(_):
    with tempfile.TemporaryDirectory() as folder:
        name, refused = Path(folder) / "a graph", 0
        graph, parts, back = (Path(f"{name}.{ending}") for ending in ("col", "parts", "sheet"))
        for sheet in example_sheets():
            data, source = sheet.read_bytes(), sheet.with_suffix(".txt")
            accepted = reading.refusal(data) == 0
            for job in [sheet] + [source] * (accepted and source.exists()):
                done = run([SHEET, "dimacs", job, "-o", name])
                need(done.returncode == (0 if accepted else 1), f"dimacs {job.name}: {done.stderr.decode()[:200]}")
                if not accepted:
                    said = done.stderr.decode()
                    need(f"is refused {reading.refusal(data)}:" in said and not done.stdout, f"dimacs {job.name}: {said[:80]!r}")
                    continue
                texts = graph.read_bytes(), parts.read_bytes()
                need(texts == reading.texts_of(reading.Sheet(data)), f"dimacs {job.name}: other texts")
                back.unlink(missing_ok=True)
                done = run([SHEET, "from-dimacs", graph, parts])
                cause, wanted = reading.import_cause(*texts, desk.ENOUGH_SHEET_BYTES)
                need(done.returncode == (1 if cause else 0), f"from-dimacs {job.name}: {done.stderr.decode()[:200]}")
                if cause:
                    refused += 1
                    need(f"refused {cause}: " in done.stderr.decode() and not back.exists(), f"from-dimacs {job.name}: {done.stderr[:80]!r}")
                    continue
                need(back.read_bytes() == wanted, f"from-dimacs {job.name}: another sheet")
                first, second = (printed_by_program(one).splitlines()[0] for one in (data, wanted))
                need(first == second, f"{job.name}: {first}, then {second}")
        need(refused, "no example gave more than 8,192 pairs")


@test("tools/sheet dimacs and from-dimacs: standard input, and what is not written over")
def _(_):
    with tempfile.TemporaryDirectory() as folder:
        (Path(folder) / "a.sheet").write_bytes((EXAMPLES / "theatre.sheet").read_bytes())
        graph, counts = reading.texts_of(reading.Sheet((EXAMPLES / "theatre.sheet").read_bytes()))
        done = run([SHEET, "dimacs", "-", "-o", "b"], input=(EXAMPLES / "theatre.txt").read_bytes(), cwd=folder)
        need(done.returncode == 0 and (Path(folder) / "b.col").read_bytes() == graph, f"dimacs -: {done.stderr.decode()[:200]}")
        wanted = reading.import_cause(graph, counts, desk.ENOUGH_SHEET_BYTES)[1]
        need(run([SHEET, "from-dimacs", "-", "b.parts"], input=graph, cwd=folder).stdout == wanted, "from-dimacs - PARTS")
        need(run([SHEET, "from-dimacs", "b.col", "-", "-o", "-"], input=counts, cwd=folder).stdout == wanted, "from-dimacs GRAPH -")
        done = run([SHEET, "dimacs", "a.sheet"], cwd=folder)
        need(done.returncode == 0 and (Path(folder) / "a.parts").read_bytes() == counts, "dimacs beside its sheet")
        for more, status in (([], 2), (["-o", "a.col"], 2), (["-o", "a.sheet"], 0), ([], 0)):
            done = run([SHEET, "from-dimacs", "a.col", "a.parts", *more], cwd=folder)
            need(done.returncode == status, f"from-dimacs a.col a.parts {more}: status {done.returncode}")
        need((Path(folder) / "a.sheet").read_bytes() == wanted and (Path(folder) / "a.col").read_bytes() == graph, "what was written")


@test("tools/sheet from-dimacs names a line of every malformed text")
def _(args):
    rng = random.Random(args.seed + 7)
    texts = [(graph, counts) for _, graph, counts in (*desk_samples.malformed_texts(), *desk_samples.bad_edge_texts())]
    texts += [call.read for _ in range(args.cases) for call in desk_samples.random_calls(rng) if call.function == desk_samples.IMPORT]
    faults = 0
    for graph, counts in texts:
        place = desk.malformed(graph, counts)
        need((place is not None) == (reading.import_cause(graph, counts, 0)[0] == 13), f"{place}: {graph[:200]}, {counts[:200]}")
        if place:
            faults += 1
            number, line, expected, there = place
            text_of = (graph, counts)[number]
            need(expected and text_of.split(b"\n")[line - 1] == there, f"{place}: {text_of[:200]}")
    with tempfile.TemporaryDirectory() as folder:
        for graph, counts in texts[::max(len(texts) // 40, 1)]:
            (Path(folder) / "a.col").write_bytes(graph)
            (Path(folder) / "a.parts").write_bytes(counts)
            done = run([SHEET, "from-dimacs", "a.col", "a.parts", "-o", "a.sheet"], cwd=folder)
            said, cause = done.stderr.decode(errors="replace"), reading.import_cause(graph, counts, desk.ENOUGH_SHEET_BYTES)[0]
            need(done.returncode == (1 if cause else 0) and "Traceback" not in said and (not cause or f"refused {cause}: " in said), f"{said[-300:]}")
            need(cause != 13 or re.search(r"a\.(col|parts), line \d+: expected ", said), f"{said[-300:]}")
    return f"{faults:,} of {len(texts):,} texts malformed"


@test("tools/sheet dimacs builds the desk library where it is missing or older")
def _(_):
    with tempfile.TemporaryDirectory() as folder:
        root, rt = Path(folder) / "root", Path(folder) / "bin" / "rt"
        shutil.copytree(ROOT / "tools", root / "tools", ignore=shutil.ignore_patterns("__pycache__"))
        rt.parent.mkdir()
        archive, shared = root / "crates" / "desk" / "out" / "libdesk.a", root / "target" / "desk" / "libdesk.so"
        archive.parent.parent.mkdir(parents=True)

        def told(script=None):
            """Status and standard error, with a command rt that does this; without a script there is none."""
            if script:
                rt.write_text(f'#!/bin/sh\n[ "$*" = lib ] || exit 3\n{script}\n')
                rt.chmod(0o755)
            path = f"{rt.parent}:/usr/bin:/bin" if script else "/usr/bin:/bin"
            command = [root / "tools" / "sheet", "dimacs", EXAMPLES / "theatre.sheet", "-o", Path(folder) / "out"]
            done = run(["env", f"PATH={path}", sys.executable, *command])
            return done.returncode, done.stderr.decode()

        if not shutil.which("rt", path="/usr/bin:/bin"):
            status, said = told()
            need(status == 2 and f"'rt lib' in {root}/crates/desk" in said, f"without rt: status {status}, {said[:200]}")
        status, said = told("echo 'rt: desk refused'; exit 1")
        need(status == 2 and "was not built" in said, f"rt that fails: status {status}, {said[:200]}")
        status, said = told(f"echo 'rt: chose --jobs 2 for desk'; mkdir -p out; cp '{DESK_ARCHIVE}' out")
        need(status == 0 and "proving and building" in said and "tools/sheet: proving desk" in said, f"not built: status {status}, {said[:200]}")
        made = shared.stat().st_mtime_ns
        need(told("exit 1") == (0, "") and shared.stat().st_mtime_ns == made, "built again without need")
        os.utime(archive, ns=(made + 10**9, made + 10**9))
        need(told("exit 1") == (0, "") and shared.stat().st_mtime_ns != made, "an older shared object was kept")


@test("make and show are inverse on random sheets; a sheet of form 3 that form 2 holds comes back in form 2, and show says so")
def _(args):
    rng, forms = random.Random(args.seed + 2), Counter()
    for number in range(args.cases):
        sheet = samples.wide_sheet(rng) if number % 40 == 0 else samples.random_sheet(rng, 9, 6)
        data = binary.encode(sheet)
        need(reading.refusal(data) == 0, "a sheet that the reading refuses")
        need(binary.encode(binary.decode(data)) == data, "encode and decode differ")
        shown, said = show.show(binary.decode(data), "a sheet"), "# a sheet of form 3; form 2 holds it too, and 'tools/sheet make' writes form 2\n"
        wanted = samples.changed(data, ("I", 0, 2)) if data[0] == 3 else data
        need(binary.encode(text.parse(shown).sheet) == wanted, f"make of show differs:\n{shown[:400]}")
        need((said in shown) == (data[0] == 3), f"form {data[0]}: {shown[:200]}")
        need(show.show(text.parse(shown).sheet, "a sheet") == shown.replace(said, ""), "show of make differs")
        need(("\nwidth " in shown) == (data[0] != 1), f"form {data[0]}:\n{shown[:400]}")
        forms[data[0]] += 1
    need(all(forms[form] for form in (1, 2, 3)), f"not every form arose: {forms}")
    return f"{args.cases:,} sheets, {forms[2]:,} of form 2, {forms[3]:,} of form 3"


WIDTHS_HEAD = "job x\nlink A 500.0\nlink B 500.5\nlink C 501.0\n"


@test("width: for links and for all, and show writes the lines back")
def _(_):
    for lines, widths, shown in (
            ("", None, ""), ("width 200 all", [200] * 3, "width 200 all\n"), ("width 200 A B\nwidth 0.4 C", [200, 200, 400], "width 200 all\nwidth 400 link2\n"),
            ("width 20MHz C\nwidth 1 all", [1, 1, 20_000], "width 1 all\nwidth 20000 link2\n"),
            ("width 3 A\nwidth 2 B\nwidth 1 C", [3, 2, 1], "width 1 link2\nwidth 2 link1\nwidth 3 link0\n"),
            ("width 7 all\nwidth 9 B C", [7, 9, 9], "width 9 all\nwidth 7 link0\n"),
            ("width 7 A B C\nwidth 9 all", [7] * 3, "width 7 all\n")):
        made = text.parse(WIDTHS_HEAD + lines).sheet
        need(made.widths == widths, f"{lines}: {made.widths}")
        data = binary.encode(made)
        need((data[0], len(data)) == ((1, 64) if widths is None else (2, 76)), f"{lines}: form {data[0]}, {len(data)} bytes")
        need(reading.refusal(data) == 0 and reading.Sheet(data).widths == (widths or []), f"{lines}: the reading's widths differ")
        told = show.show(made, "x")
        need("".join(re.findall(r"(?m)^width .*\n", told)) == shown, f"{lines}: {told}")
        need(text.parse(told).sheet == made, f"make of show differs: {told}")


@test("width: every fault has its line")
def _(_):
    faults = {"width": (5, "expected a width after width"), "width 200": (5, "expected the names of links, or all, after width 200, found none"),
              "width 0 all": (5, "expected a width of 1 to 20,000 kHz, found 0"), "width 20001 A": (5, "expected a width of 1 to 20,000 kHz, found 20001"),
              "width 20.001 all": (5, "expected a width of 1 to 20,000 kHz, found 20.001"), "width 0.0125 A": (5, "expected a width in whole kHz"),
              "width A 200": (5, "expected a width such as 0.2 (MHz) or 200 (kHz), found A"), "width 200 A D": (5, "expected the name of a link, found D"),
              "width 200 A A": (5, "expected different links, found A twice"), "width 200 all A": (5, "expected the name of a link, found all"),
              "width 200 A B C\nwidth 200 B": (6, "expected one width for B, found a second one beside line 5"),
              "width 1 all\nwidth 2 all": (6, "expected one line 'width WIDTH all', found a second one beside line 5"),
              "width 200 A\nwidth 300 C": (3, "expected a width for B, as line 5 gives other links one")}
    for lines, (line, words) in faults.items():
        try:
            text.parse(WIDTHS_HEAD + lines)
            need(False, f"{lines}: read")
        except text.TextError as error:
            need([number for number, _ in error.faults] == [line] and words in error.faults[0][1], f"{lines}: {error}")


@test("why: cause 16 with its link and byte, and the fault that comes first")
def _(_):
    data = (EXAMPLES / "edges.sheet").read_bytes()
    for link, width in ((0, 0), (5, 20_001), (8, 2**32 - 1)):
        said = run([SHEET, "why", "-"], input=samples.changed(data, ("I", 44 + 8 * link, width))).stdout.decode()
        need(said == f"refused 16: a width out of range\n  where    link {link}, width, byte {44 + 8 * link}\n  there    {width:,} kHz\n"
             "  allowed  1 to 20,000 kHz\n", said)
    for name, cause, data in samples.form_sheets():
        fault = binary.fault_of(data)
        need((fault.number if fault else 0) == cause, f"{name}: {fault}, wanted {cause}")


@test("free lists every pair, differ gives no rule, and show tells them apart")
def _(_):
    head = "job x\nlink A 500.0 500.4\nlink B 500.0 500.4\nlink C 500.4\n"
    every = [(0, 0), (0, 1), (1, 0), (1, 1)]
    for lines, rules in (("", {}), ("differ A B C", {}), ("free A B", {(0, 1): every}), ("free C A", {(0, 2): [(0, 0), (1, 0)]}),
                         ("apart 400 all\nfree A B\ndiffer B C", {(0, 1): every, (0, 2): []}),
                         ("pairs A B 500.0/500.0 500.0/500.4 500.4/500.0 500.4/500.4", {(0, 1): every})):
        made = text.parse(head + lines).sheet
        need({(rule.a, rule.b): rule.pairs for rule in made.rules} == rules, f"{lines}: {made.rules}")
        shown = show.show(made, "x")
        need(text.parse(shown).sheet == made, f"make of show differs: {shown}")
        need(("\nfree link0 link1\n" in shown) == ((0, 1) in rules) and "\npairs " not in shown, f"{lines}: {shown}")
    shown = show.show(text.parse(head + "link D 500.8\napart 400 all\ndiffer A B").sheet, "x")
    need("\napart 400 all\ndiffer link0 link1\n" in shown, shown)


@test("free and differ: a second line on two links, and more pairs than a sheet holds")
def _(_):
    lists = "".join(f"link L{link} " + " ".join(str(500_000 + 25 * i) for i in range(64)) + "\n" for link in range(3))
    faults = {"free L0 L1\npairs L0 L1 500.0/500.0": (6, "found a second one beside line 5"),
              "pairs L0 L1 500.0/500.0\nfree L0 L1": (6, "found a second one beside line 5"),
              "differ L0 L1\nfree L1 L0": (6, "found a second one beside line 5"),
              "free L0": (5, "expected the names of two or more links after free, found L0"),
              "differ": (5, "expected the names of two or more links after differ, found none"),
              "free L0 L1 L2": (5, "expected at most 8,192 allowed pairs in all, found 12,288, all by free"),
              "free L0 L1\npairs L0 L2 500.0/500.0\nfree L1 L2": (7, "found 8,193, 8,192 of them by free")}
    for lines, (line, words) in faults.items():
        try:
            text.parse("job x\n" + lists + lines)
            need(False, f"{lines}: read")
        except text.TextError as error:
            need([number for number, _ in error.faults] == [line] and words in error.faults[0][1], f"{lines}: {error}")
    need(text.parse("job x\n" + lists + "free L0 L1\nfree L1 L2").sheet.pairs() == 8192, "8,192 pairs by free")


@test("the tools' check of a plan says what the reading says")
def _(args):
    rng = random.Random(args.seed + 8)
    seen = Counter()
    for _ in range(args.cases):
        sheet = samples.random_sheet(rng)
        cells = samples.check_cells(rng, sheet)
        wanted = reading.console_check(binary.encode(sheet), struct.pack(f"<{len(cells)}I", *cells)) == reading.YES
        need(spacing.keeps_rules(sheet, cells) == wanted, f"{sheet}, {cells}: wanted {wanted}")
        seen[sheet.form(), wanted] += 1
    need(len(seen) == 6, f"{seen}")  # three forms, both answers
    for allowed, sheet in samples.edge_sheets():
        need(spacing.keeps_rules(sheet, [listed[0] for listed in sheet.links]) == allowed, f"{sheet}: wanted {allowed}")
    for _ in range(args.cases // 2):
        sheet = air_samples.air_sheet(rng)
        cells, listed = samples.check_cells(rng, sheet), air_samples.good_channels(rng, sheet)
        said = [reading.check_job(binary.encode(sheet), on_air, struct.pack(f"<{len(cells)}I", *cells)) == reading.YES for on_air in (listed, b"")]
        need(spacing.keeps_rules(sheet, cells, listed) == said[0], f"{sheet}, {cells}, channels {list(listed)}: wanted {said[0]}")
        seen["struck"] += said == [False, True]
    need(seen["struck"], "no plan failed for its struck frequencies alone")
    return f"{sum(seen[form, True] for form in (1, 2, 3)):,} of {args.cases:,} plans keep the rules"


@test("tables and pictures: links without a rule count, free links do not")
def _(_):
    for lines, told in (("", "24.5  B, 25 kHz apart (no rule: another frequency)"), ("free A B", "399.5  C, 400 kHz apart (no rule: another frequency)"),
                        ("free A B C", "-  no link to keep apart from"), ("apart 25 A B", "0    B, 25 kHz apart (at least 25 kHz)")):
        job = text.parse("job x\nlink A 500.0\nlink B 500.025\nlink C 500.4\n" + lines)
        answer = answered(job.sheet, [500_000, 500_025, 500_400], 4)
        head, row = spacing.table(job.sheet, job.names, answer).splitlines()[:2]
        need(head == "link  name        MHz  kHz spare  tightest pair", head)
        need(row.split() == f"0 A 500.000 {told}".split() and row.endswith(told), f"{lines}: {row}")
        labels_apart(picture.svg(job, answer))
        need(("tightest pair" in picture.svg(job, answer)) == (lines != "free A B C"), f"{lines}: the tightest pair")
    job = text.parse("job x\nlink A 500.0\nlink B 500.0\nlink C 500.4\nfree A B")
    row = spacing.table(job.sheet, job.names, answered(job.sheet, [500_000, 500_000, 500_400], 4)).splitlines()[2]
    need(row == "   1  B       500.000      399.5  C, 400 kHz apart (no rule: another frequency); shares its carrier with A", row)


@test("tables of form 2: distances from edge to edge, in half kHz, with overlaps; an exact distance is between centres")
def _(_):
    edge, no_rule = "from edge to edge", "no rule: another frequency"
    for lines, wide, spare, told, pair in (
            ("width 200 all\napart 200 all", (200, 200), "0", f"200 kHz {edge} (at least 200 kHz)", f"0 kHz to spare (200 kHz {edge}, at least 200 kHz)"),
            ("width 200 B\nwidth 25 A\napart 200 all", (25, 200), "87.5", f"287.5 kHz {edge} (at least 200 kHz)",
             f"87.5 kHz to spare (287.5 kHz {edge}, at least 200 kHz)"),
            ("width 200 all\nexactly 400 A B", (200, 200), "0", f"200 kHz {edge} (just 400 kHz between centres)",
             f"0 kHz to spare (200 kHz {edge}, just 400 kHz between centres)"),
            ("width 401 A\nwidth 400 B", (401, 400), "399.5", f"overlapping, 400 kHz between centres ({no_rule})",
             f"399.5 kHz to spare (overlapping, 400 kHz between centres, {no_rule})"),
            ("width 400 A B", (400, 400), "399.5", f"0 kHz {edge} ({no_rule})", f"399.5 kHz to spare (0 kHz {edge}, {no_rule})"),
            ("width 800 A B\nexactly 400 A B", (800, 800), "0", "overlapping, 400 kHz between centres (just 400 kHz between centres)",
             "0 kHz to spare (overlapping, 400 kHz between centres, just 400 kHz between centres)"),
            ("width 800 A B\nfree A B", (800, 800), "-", None, None)):
        job = text.parse("job x\nlink A 500.0\nlink B 500.4\n" + lines)
        answer = answered(job.sheet, [500_000, 500_400], 3)
        found = spacing.table(job.sheet, job.names, answer).splitlines()
        need(found[0] == "link  name        MHz  kHz wide  kHz spare  tightest pair", found[0])
        for row, number, name, other, khz in ((found[1], 0, "A", "B", "500.000"), (found[2], 1, "B", "A", "500.400")):
            ending = f"{other}, {told}" if told else f"no link to keep apart from; overlaps {other}"
            need(row == f"   {number}  {name}       {khz}  {wide[number]:8}  {spare:>9}  {ending}", f"{lines}: {row}")
        need(found[3:] == (["", f"tightest pair: A and B, {pair}"] if pair else []), f"{lines}: {found}")
        labels_apart(picture.svg(job, answer))
        need(pair is None or f"tightest pair: A and B, {pair}" in picture.svg(job, answer), f"{lines}: the tightest pair of the picture")
    job = text.parse("job x\nlink A 500.0\nlink B 500.1\nlink C 500.3\nlink D 500.1\nwidth 500 all\nfree B D")
    row = spacing.table(job.sheet, job.names, answered(job.sheet, [500_000, 500_100, 500_300, 500_100], 5)).splitlines()[2]
    need(row == "   1  B       500.100       500       99.5  A, overlapping, 100 kHz between centres (no rule: another frequency); "
         "shares its carrier with D; overlaps C", row)


@test("pictures of form 2: every carrier as wide as it is")
def _(args):
    rng = random.Random(args.seed + 9)
    for _ in range(max(args.cases // 100, 20)):
        sheet = samples.wide_sheet(rng)
        sheet.widths = [rng.choice((1, 25, 200, 6000, 20_000)) for _ in sheet.links]
        names = [f"link{link}" for link in range(len(sheet.links))]
        plan = [rng.choice(listed) for listed in sheet.links]
        drawn = picture.svg(text.Job("job", names, sheet, []), answered(sheet, plan))
        bars = drawn_bars(drawn)
        need(sorted(bars) == sorted([f"link {link}" for link in range(len(plan))] + names), "not every carrier is drawn, above and in its lane")
        widest = sheet.widths.index(max(sheet.widths))
        scale = bars[f"link {widest}"][1] / sheet.widths[widest]
        for link, khz in enumerate(sheet.widths):
            for x, wide, told in (bars[f"link {link}"], bars[names[link]]):
                need(told.endswith(f" MHz, {khz:,} kHz wide"), told)
                need(abs(wide - scale * khz) < 0.2 and x >= 0 and x + wide <= 1200, f"link {link}, {khz} kHz: {x}, {wide}")
    job = text.parse("job x\nlink A 500.0\nlink B 502.0\nwidth 1000 A\nwidth 25 B")
    (low, wide, _), (high, narrow, _) = (drawn_bars(picture.svg(job, answered(job.sheet, [500_000, 502_000])))[name] for name in "AB")
    apart = high + narrow / 2 - low - wide / 2
    need(abs(2 * wide - apart) < 0.5 and abs(80 * narrow - apart) < 5, f"{wide} and {narrow} wide, {apart} between centres")
    theatre = text.parse((EXAMPLES / "theatre.txt").read_text(encoding="utf-8"))
    drawn = picture.svg(theatre, answered(theatre.sheet, [listed[0] for listed in theatre.sheet.links]))
    need(drawn.count("<rect") == 1 and "as wide" not in drawn, "a picture of form 1 has bars")


def drawn_bars(svg):
    """The bars of a picture by what their tooltips begin with, `link N` above the axis and the name in a lane: (x, width, tooltip)."""
    found = {}
    for rect in xml.dom.minidom.parseString(svg).getElementsByTagName("rect")[1:]:
        told = rect.firstChild.firstChild.data
        found[re.split("[,:]", told)[0]] = float(rect.getAttribute("x")), float(rect.getAttribute("width")), told
    return found


# ---- Television channels on air

AIR_HEAD = "job x\nlink A 470.0 478.0 606.5\nlink B 477.999 486.0 607.5\n"


@test("air: channels and stretches in any order, on several lines, and every fault has its line")
def _(_):
    for lines, wanted in (("", []), ("air 38", [38]), ("air 48 21", [21, 48]), ("air 38-41 21", [21, 38, 39, 40, 41]), ("air 21,38-39", [21, 38, 39]),
                          ("air 30\napart 400 all\nair 25-26 # the hill", [25, 26, 30]), ("air 21-48", list(range(21, 49))), ("air 22-22", [22])):
        job = text.parse(AIR_HEAD + lines)
        need(job.channels == wanted and text.parse(AIR_HEAD + "\n".join(line for line in lines.split("\n") if "air" not in line)).sheet == job.sheet,
             f"{lines}: {job.channels}")
        need(channels.from_words(channels.words_of(channels.written(wanted))) == wanted if wanted else True, f"{lines}: {channels.written(wanted)}")
    faults = {"air": (4, "expected channels such as 21,38-41, found none after air"), "air 20": (4, "expected channels from 21 to 48, found 20"),
              "air 49": (4, "expected channels from 21 to 48, found 49"), "air 38\nair 47-50": (5, "expected channels from 21 to 48, found 47-50"),
              "air 41-38": (4, "expected a stretch that rises, such as 38-41, found 41-38"), "air 606.5": (4, "such as 38-41, found 606.5"),
              "air A": (4, "expected a channel such as 38 or a stretch such as 38-41, found A"), "air -38": (4, "found -38"), "air 38-": (4, "found 38-"),
              "air 38 38": (4, "expected each channel once, found 38 twice"), "air 30 25-31": (4, "found 30 twice"),
              "air 38\nair 37-39": (5, "expected each channel once, found 38 a second time, beside line 4"), "air 38\nAir 39": (5, "did you mean air?")}
    for lines, (line, words) in faults.items():
        try:
            text.parse(AIR_HEAD + lines)
            need(False, f"{lines}: read")
        except text.TextError as error:
            need([number for number, _ in error.faults] == [line] and words in error.faults[0][1], f"{lines}: {error}")


@test("the tools' channels have the edges of the reading's")
def _(_):
    for khz in sorted({edge + step for edge in (*air_samples.LOWS, 694_000) for step in (-1, 0, 1)}):
        over = [channel for channel in air_samples.ALL if reading.covers(channel, khz)]
        need(channels.taker(air_samples.ALL, khz) == (over[0] if over else None), f"{khz} kHz: {channels.taker(air_samples.ALL, khz)}, wanted {over}")


@test("tools/sheet plan with channels on air: the desk's plan, what they take, and links left empty")
def _(args):
    rng, seen = random.Random(args.seed + 24), Counter()
    for _ in range(max(args.cases // 30, 60)):
        sheet = air_samples.air_sheet(rng)
        on_air = list(air_samples.good_channels(rng, sheet))
        answer = planner.plan(sheet, on_air)
        wanted = reading.planned(reading.Job(binary.encode(sheet), on_air), 7, 0, 1_000_000, b"")
        need((answer.verdict, answer.number, answer.khz) == (planner.VERDICTS[wanted[0]], *wanted[1:]), f"{answer}, wanted {wanted}: {sheet}, {on_air}")
        names = [f"L{link}" for link in range(len(sheet.links))]
        empty = [name for name, listed in zip(names, sheet.links) if all(any(reading.covers(c, khz) for c in on_air) for khz in listed)]
        lines = channels.left_empty(sheet, names, on_air)
        need([line.split()[0] for line in lines] == empty and (not empty or (answer.verdict, answer.number) == ("none", 0)), f"{lines}: {sheet}, {on_air}")
        seen[answer.verdict, bool(empty)] += 1
    need(seen["found", False] and seen["none", True], f"{dict(seen)}")
    for lines, given, status, told in (
            ("air 21", [], 0, "x: plan found in 3 nodes\non air: channel 21; it takes 2 of 6 frequencies, from 2 of 2 links\n\nlink "),
            ("", ["--air", "21"], 0, "on air: channel 21; it takes 2 of 6 frequencies, from 2 of 2 links\n"),
            ("air 21", ["--air", "22,21"], 0, "on air: channels 21-22; they take 3 of 6 frequencies, from 2 of 2 links\n"),
            ("", ["--air", "48"], 0, "on air: channel 48; it takes no frequency of this job\n"),
            ("air 38 21-22", [], 1, "x: no plan exists (0 nodes): no choice of one frequency per link keeps every rule\n"
             "on air: channels 21-22, 38; they take 5 of 6 frequencies, from 2 of 2 links\n"
             "A is left without a frequency: channels 21-22, 38 take all 3 of its frequencies.\n"
             "Give that link a frequency that no channel on air takes, or plan without it.\n"),
            ("link C 600.0\nair 37 38 21-23", [], 1, "C is left without a frequency: channel 37 takes its one frequency.\n"
             "Give these links a frequency that no channel on air takes, or plan without them.\n"),
            ("air 21-23\napart 2.0 A B", [], 1, "Give a link more frequencies that no channel on air takes, loosen a rule")):
        done = run([SHEET, "plan", "-", *given], input=(AIR_HEAD + lines).encode())
        said = done.stdout.decode()
        need(done.returncode == status and told in said, f"{given}, {lines!r}: status {done.returncode}, {said}{done.stderr.decode()}")
    said = run([SHEET, "plan", EXAMPLES / "on-air.txt", "--air", "32,34"]).stdout.decode().splitlines()[2:]
    need("\n".join(f"    {line}" for line in said) in (ROOT / "docs" / "TEXT.md").read_text(encoding="utf-8"), f"docs/TEXT.md does not hold {said}")
    need("on air" not in run([SHEET, "plan", EXAMPLES / "theatre.txt"]).stdout.decode(), "words on channels where there are none")


@test("channels are no part of a sheet or a graph: make and dimacs say so, and --air plans the sheet as the text")
def _(_):
    with tempfile.TemporaryDirectory() as folder:
        for text_lines, noted in (("air 21 38-39\n", True), ("", False)):
            (Path(folder) / "a.txt").write_text(AIR_HEAD + text_lines)
            made = run([SHEET, "make", "a.txt"], cwd=folder)
            data = (Path(folder) / "a.sheet").read_bytes()
            need(data == binary.encode(text.parse(AIR_HEAD).sheet), "make: another sheet")
            note = "note: a.txt: channels 21, 38-39 on air are not part of the sheet; plan it with --air 21,38-39\n"
            need(made.stderr.decode() == (note if noted else ""), f"make: {made.stderr.decode()}")
            done = run([SHEET, "dimacs", "a.txt"], cwd=folder)
            need(("on air are not part of the graph" in done.stderr.decode()) == noted, f"dimacs: {done.stderr.decode()}")
            need((Path(folder) / "a.col").read_bytes() == reading.texts_of(reading.Sheet(data))[0], "dimacs: another graph")
    air = ["--air", channels.written(text.parse((EXAMPLES / "on-air.txt").read_text(encoding="utf-8")).channels)]
    of_text, of_sheet = (run([SHEET, "plan", EXAMPLES / name, *more]).stdout.decode() for name, more in (("on-air.txt", []), ("on-air.sheet", air)))
    need(of_text.splitlines()[1] == of_sheet.splitlines()[1] and re.findall(r" \d+\.\d{3} ", of_text) == re.findall(r" \d+\.\d{3} ", of_sheet),
         "the sheet with --air has another plan than the text")
    need("\nair " not in run([SHEET, "show", EXAMPLES / "on-air.sheet"]).stdout.decode(), "show knows channels")


@test("the town square needs its channels: the plan without them uses frequencies that they take")
def _(_):
    job = text.parse((EXAMPLES / "on-air.txt").read_text(encoding="utf-8"))
    without = [int(line.split()[1]) for line in printed_by_program((EXAMPLES / "on-air.sheet").read_bytes()).splitlines()[1:]]
    need(spacing.keeps_rules(job.sheet, without) and not spacing.keeps_rules(job.sheet, without, job.channels), f"{without}")


@test("--air: a wrong channel gets a sentence")
def _(_):
    for given, words in (("20", "expected channels from 21 to 48, found 20"), ("38,49", "found 49"), ("41-38", "such as 38-41, found 41-38"),
                         ("38,38", "expected each channel once, found 38 twice"), ("x", "found x"), (",", "found none")):
        for name in ("plan", "picture"):
            done = run([SHEET, name, EXAMPLES / "on-air.txt", "--air", given])
            said = done.stderr.decode()
            need(done.returncode == 2 and words in said and said.startswith(f"tools/sheet: --air {given}: ") and not done.stdout, f"{name} {given}: {said}")


@test("why: cause 17 with its entry, after the causes of the sheet; the desk's check says the same")
def _(args):
    good = EXAMPLES / "on-air.sheet"
    for given, entry, there, allowed in (("20", 0, 20, "21 to 48"), ("21,49", 1, 49, "21 to 48"), ("38-41,40", 4, 40, "42 to 48: above 41, the entry before it"),
                                         ("38,38", 1, 38, "39 to 48: above 38, the entry before it"), ("0", 0, 0, "21 to 48"), ("21,255,20", 1, 255, "21 to 48"),
                                         ("48,47", 1, 47, "nothing more: 48, the entry before it, is the last channel"), ("48 48", 1, 48, "nothing more: 48")):
        done = run([SHEET, "why", good, "--air", given])
        need(done.returncode == 1 and done.stdout.decode().startswith(
            f"refused 17: the channel list is out of range or order\n  where    channel list, entry {entry}, byte {entry}\n  there    {there}\n"
            f"  allowed  {allowed}"), f"{given}: {done.stdout.decode()}")
    for given in ("24,27-28", "21-48"):
        said = run([SHEET, "why", good, "--air", given]).stdout.decode()
        need(said.startswith("accepted: 11 links") and f"on air: channels {given.replace(',', ', ')}; they take " in said, f"{given}: {said}")
    for sheet in sorted((EXAMPLES / "refused").glob("*.sheet")):
        said = run([SHEET, "why", sheet, "--air", "20"]).stdout.decode()
        need(said.startswith(f"refused {sheet.stem}: "), f"{sheet.name} with channel 20: {said}")
    rng, data = random.Random(args.seed + 25), good.read_bytes()
    lists = [*air_samples.BAD_LISTS.values(), b"", air_samples.ALL]
    lists += [air_samples.any_channels(rng, binary.decode(data)) for _ in range(args.cases)]
    calls = [air_samples.check_call(data, listed, bytes(44)) for listed in lists]
    program = native.build("tests/desk_driver.c", "desk-driver", ["-O2", "-DGUARD=64"], DESK_ARCHIVE)
    refused = 0
    for listed, (returned, _, _) in zip(lists, native.desk_answers(program, calls)):
        fault = channels.fault_of(listed)
        need((17 if fault else 0) == returned, f"why says {fault}, the desk {returned}, for {list(listed)[:60]}")
        need(fault is None or (listed[fault.offset] == int(fault.there) and not channels.fault_of(listed[:fault.offset])), f"{fault}: {list(listed)[:60]}")
        refused += fault is not None
    return f"{refused:,} of {len(lists):,} lists refused"


@test("a plan on a struck frequency is not handed out, nor one of a library that does not know channels")
def _(_):
    sheet, kept = text.parse(AIR_HEAD).sheet, (desk.ready, desk.plan)
    try:
        desk.ready = lambda: None
        for plan, good in (([606_500, 486_000], True), ([470_000, 486_000], False), ([606_500, 477_999], False), ([606_501, 486_000], False)):
            desk.plan = lambda *_, plan=plan: (100, 3, plan)
            try:
                need(planner.plan(sheet, [21]).khz == plan and good, f"{plan} was handed out")
            except planner.NoAnswer as error:
                need(not good and "do not tune by it" in str(error), f"{plan}: {error}")
    finally:
        desk.ready, desk.plan = kept
    with tempfile.TemporaryDirectory() as folder:
        root = Path(folder) / "root"
        shutil.copytree(ROOT / "tools", root / "tools", ignore=shutil.ignore_patterns("__pycache__"))
        (root / "docs").mkdir()
        shutil.copy(ROOT / "docs" / "CHART.md", root / "docs")
        (root / "crates" / "desk" / "out").mkdir(parents=True)
        source, object_file = Path(folder) / "old.c", Path(folder) / "old.o"
        source.write_text("unsigned long long guvtemi_export(void) { return 0; }\n")
        run(["gcc", "-fPIC", "-c", "-o", object_file, source])
        run(["ar", "rcs", root / "crates" / "desk" / "out" / "libdesk.a", object_file])
        done = run([root / "tools" / "sheet", "plan", EXAMPLES / "on-air.txt"])
        need(done.returncode == 2 and "is from before guvtemi_plan_job" in done.stderr.decode(), f"an older library: {done.stderr.decode()[:300]}")


@test("pictures: channels on air are shaded where they are, and the frequencies that they take crossed out")
def _(args):
    rng = random.Random(args.seed + 26)
    for _ in range(max(args.cases // 60, 20)):
        sheet = samples.wide_sheet(rng) if rng.random() < 0.3 else air_samples.air_sheet(rng)
        on_air = list(air_samples.good_channels(rng, sheet))
        names = [f"link{link}" for link in range(len(sheet.links))]
        answer = answered(sheet, [rng.choice(listed) for listed in sheet.links]) if rng.random() < 0.7 else Answer("none", 0, [])
        drawn = picture.svg(text.Job("job", names, sheet, [], on_air), answer)
        labels_apart(drawn)
        taken = [khz for listed in sheet.links for khz in listed if any(reading.covers(c, khz) for c in on_air)]
        need(drawn.count('class="struck"') == len(taken) and drawn.count('class="candidate"') == sheet.frequencies() - len(taken), f"{on_air}: {sheet}")
        places = [(float(node.getAttribute("x")), float(node.getAttribute("width"))) for node in of_class(drawn, "rect", "air")]
        need(all(x >= 0 and x + wide <= 1200 and wide > 0 for x, wide in places), f"{places}")
        crosses = {float(node.getAttribute("points").split()[2].split(",")[0]) for node in of_class(drawn, "polyline", "struck")}
        strokes = {float(node.getAttribute("points").split()[0].split(",")[0]) for node in of_class(drawn, "polyline", "candidate")}
        need(all(any(x - 0.11 <= cross <= x + wide + 0.11 for x, wide in places) for cross in crosses), f"a cross outside the shade: {on_air}, {sheet}")
        need(all(not any(x + 0.11 < stroke < x + wide - 0.11 for x, wide in places) for stroke in strokes), f"a stroke in the shade: {on_air}, {sheet}")
        need(("on air" in drawn) == bool(on_air), "words on channels")
    drawn = picture.svg(text.parse((EXAMPLES / "on-air.txt").read_text(encoding="utf-8")), Answer("none", 0, []))
    strip = [node.firstChild.firstChild.data for node in of_class(drawn, "rect", "air-strip")]
    need(strip[:2] == ["channel 24 on air, 494.000 to 502.000 MHz", "channel 27 on air, 518.000 to 526.000 MHz"] and len(strip) == 5, f"{strip}")
    numbers = [node.firstChild.data for node in of_class(drawn, "text", "air-text")]
    need(numbers[1:] == ["24", "27", "28", "33", "43"], f"{numbers}")


def of_class(svg, tag, kind):
    """The shapes of a picture of this kind."""
    return [node for node in xml.dom.minidom.parseString(svg).getElementsByTagName(tag) if node.getAttribute("class") == kind]


@test("why gives the planner's number for damaged sheets")
def _(args):
    rng = random.Random(args.seed + 3)
    driver = native.build("tests/driver.c", "driver", ["-O2"])
    seen, inputs = Counter(), [data for _, data in samples.limit_sheets()]
    while len(inputs) < args.cases:
        sheet = samples.wide_sheet(rng) if rng.random() < 0.02 else samples.random_sheet(rng, 9, 6)
        inputs.append(samples.damaged(rng, binary.encode(sheet)))
    # The check needs no search: with no cells it answers the refusal, or 10.
    for data, (returned, _, _) in zip(inputs, native.answers(driver, [samples.Call(data) for data in inputs])):
        fault = binary.fault_of(data)
        need((fault.number if fault else 10) == returned, f"why says {fault}, the planner {returned}, for {data.hex()[:400]}")
        if fault:
            need(fault.place and fault.there and fault.allowed and 0 <= fault.offset <= max(len(data), 40), f"{fault}")
        seen[returned] += 1
    for data in inputs[:60] + inputs[-40:]:
        said, told = run([SHEET, "why", "-"], input=data).stdout.decode(), printed_by_program(data)
        if binary.is_festival(data):
            need(told == "refused 3\n" and "answer 3 to every sheet of form 3" in said, f"why says {said!r}, the program {told[:30]!r}")
            continue
        need("form 3:" not in said, f"why says {said!r}")
        need(told.startswith("refused") == said.startswith("refused"), f"why says {said[:30]!r}, the program {told[:30]!r}")
        need(not told.startswith("refused") or said.startswith(told.strip() + ":"), f"why says {said[:30]!r}, the program {told[:30]!r}")
    of_sheets = [number for number in binary.CAUSES if number != 17]
    need(all(seen[number] for number in of_sheets), f"not every number arose: {dict(seen)}")
    return f"{len(inputs):,} sheets; " + ", ".join(f"{number}: {seen[number]}" for number in of_sheets)


@test("damaged texts are read or get a line number")
def _(args):
    rng = random.Random(args.seed + 4)
    whole = [(EXAMPLES / name).read_text(encoding="utf-8") for name in ("theatre.txt", "edges.txt", "on-air.txt")]
    read = 0
    for number in range(args.cases):
        lines = whole[number % 3].splitlines()
        for _ in range(rng.choice((1, 1, 3))):
            at = rng.randrange(len(lines))
            words = lines[at].split(" ") or [""]
            words[rng.randrange(len(words))] = rng.choice(("", '"', "#", "all", "link", "width", "free", "differ", "air", "0", "1e9", "500,1", "500.4MHz",
                                                           "kHz", "Romeo", "-1", "9" * 30, "ä/ö", "1/2", "38", "20-22", "21-20"))
            lines[at] = " ".join(words)
        try:
            job = text.parse("\n".join(lines))
            need(reading.refusal(binary.encode(job.sheet)) == 0, "a text gave a sheet that is refused")
            need(not reading.channels_wrong(job.channels), "a text gave a channel list that is refused")
            read += 1
        except text.TextError as error:
            need(error.faults and all(line >= 1 and sentence.startswith("expected") for line, sentence in error.faults), f"{error}")
    return f"{read:,} of {args.cases:,} read"


@test("pictures are well-formed and their labels do not overlap")
def _(args):
    rng = random.Random(args.seed + 5)
    for _ in range(max(args.cases // 30, 20)):
        sheet = samples.wide_sheet(rng) if rng.random() < 0.5 else samples.random_sheet(rng, 20, 6)
        names = [f'A & <b> "{link}"' if rng.random() < 0.1 else f"link{link}" * rng.choice((1, 1, 6)) for link in range(len(sheet.links))]
        plan = [rng.choice(listed) for listed in sheet.links]
        answer = answered(sheet, plan) if rng.random() < 0.8 else Answer("none", 1, [])
        on_air = air_samples.good_channels(rng, sheet) if rng.random() < 0.5 else b""
        labels_apart(picture.svg(text.Job("job & <name>", names, sheet, [], list(on_air)), answer))


def labels_apart(svg):
    """Holds the text boxes of a picture apart and inside it, by the width of a fixed-width font."""
    boxes, drawn = [], xml.dom.minidom.parseString(svg)
    wide, tall = (float(drawn.documentElement.getAttribute(side)) for side in ("width", "height"))
    for node in drawn.getElementsByTagName("text"):
        size = 17 if node.getAttribute("class") == "title" else 11
        long, high = 0.602 * size * width(node.firstChild.data), 0.7 * size
        turned = re.match(r"translate\(([-\d.]+) ([-\d.]+)\)", node.getAttribute("transform"))
        if turned:
            x, y = map(float, turned.groups())
            boxes.append((x - high, y - long, x, y))
        else:
            x, y = float(node.getAttribute("x")), float(node.getAttribute("y"))
            x -= {"start": 0, "middle": long / 2, "end": long}[node.getAttribute("text-anchor")]
            boxes.append((x, y - high, x + long, y))
    for index, (left, top, right, bottom) in enumerate(boxes):
        need(left >= 0 and right <= wide and top >= 0 and bottom <= tall, f"a label leaves the picture: {left:.0f} to {right:.0f}, {top:.0f} to {bottom:.0f}")
        for left2, top2, right2, bottom2 in boxes[:index]:
            need(right <= left2 or right2 <= left or bottom <= top2 or bottom2 <= top, "two labels overlap")
