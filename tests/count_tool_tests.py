"""Tests of what the tools show of the counts of plans: the desk's call, the table with its bars, the picture."""

import random
import re
import shutil
import tempfile
from collections import Counter
from pathlib import Path

import air_samples
import reading
import samples
from harness import EXAMPLES, SHEET, need, test
from jobsheet import answer as planner
from jobsheet import counts, desk, picture, text
from jobsheet.answer import Answer
from jobsheet.binary import encode
from jobsheet.columns import width
from native import ROOT, run
from spare_samples import answered
from tool_tests import labels_apart, of_class

FREE = "job Free links\n" + "".join(f"link L{link} {500 + link}.1 {500 + link}.2 {500 + link}.3\n" for link in range(12))
ROW = re.compile(r"^( +\d+  \S.*?|  {4,}) +(\d+\.\d{3})  +([\d,]+)  +(-|<0\.1%|>99\.9%|\d+\.\d%|100%)  (.*)$")


def by_link(sheet, listed):
    """Counts by vertex as those of each link."""
    every = iter(listed)
    return [[next(every) for _ in link] for link in sheet.links]


def counted(sheet, on_air=b""):
    """An answer with the reading's counts and first plan."""
    number, nodes, khz, listed = reading.counted(reading.Job(encode(sheet), on_air), 0, 0, 10**9, b"")
    if number != reading.FOUND:
        return Answer("none", nodes, [], counts=by_link(sheet, listed))
    answer = answered(sheet, khz, nodes, on_air)
    answer.counts = by_link(sheet, listed)
    return answer


@test("the tools' call for counts gives the reading's numbers, plans, none and stopped")
def _(args):
    rng, seen = random.Random(args.seed + 61), Counter()
    for _ in range(max(args.cases // 30, 60)):
        sheet, limit = air_samples.air_sheet(rng), rng.choice((1, 10, 2_000, 2_000))
        on_air = list(air_samples.good_channels(rng, sheet))
        answer = planner.count(sheet, on_air, limit)
        number, nodes, khz, listed = reading.counted(reading.Job(encode(sheet), on_air), planner.COUNT_FILTER, 0, limit, b"")
        wanted = planner.VERDICTS[number], nodes, khz, [] if number == reading.STOPPED else by_link(sheet, listed)
        need((answer.verdict, answer.number, answer.khz, answer.counts) == wanted, f"{answer}, wanted {wanted}: {sheet}, {on_air}")
        need(number == reading.STOPPED or counts.plans(answer) == sum(listed[:len(sheet.links[0])]), f"the number of plans: {sheet}")
        seen[answer.verdict] += 1
    need(len(seen) == 3, f"{dict(seen)}")
    return ", ".join(f"{verdict}: {count}" for verdict, count in sorted(seen.items()))


def rows_of(said):
    """(MHz, count, share, bar or mark) of each row of a table."""
    return [row.groups()[1:] for row in map(ROW.match, said.splitlines()) if row]


@test("tools/sheet counts: a row for each frequency, with dead and struck ones marked, within a line's columns")
def _(args):
    m1 = "job M1\nlink A 500.0 500.4\nlink B 500.0 500.3\napart 400 all\n"
    for job, more, first, rows, last in (
            (m1, [], "M1: 1 plan in a tree of 3 nodes",
             [("500.000", "0", "-", "dead: in no plan"), ("500.400", "1", "100%", "#" * 50), ("500.000", "1", "100%", "#" * 50),
              ("500.300", "0", "-", "dead: in no plan")], "2 of 4 frequencies in no plan; 2 in every plan"),
            ("job One\nlink A 470.0 500.0\nlink B 500.4 600.0\napart 400 all\nair 21", [], "One: 2 plans in a tree of 4 nodes",
             [("470.000", "0", "-", "on air: channel 21"), ("500.000", "2", "100%", "#" * 50), ("500.400", "1", "50.0%", "#" * 25),
              ("600.000", "1", "50.0%", "#" * 25)], "1 of 4 frequencies in no plan (1 on air, 0 dead); 1 in every plan"),
            ("job Air\nlink A 470.0 500.0\nlink B 500.4 600.0\napart 400 all", ["--air", "24"], "Air: 1 plan in a tree of 3 nodes",
             [("470.000", "1", "100%", "#" * 50), ("500.000", "0", "-", "on air: channel 24"), ("500.400", "0", "-", "on air: channel 24"),
              ("600.000", "1", "100%", "#" * 50)], "2 of 4 frequencies in no plan (2 on air, 0 dead); 2 in every plan")):
        done = run(["env", "COLUMNS=120", SHEET, "counts", "-", *more], input=job.encode())
        said = done.stdout.decode()
        need(done.returncode == 0 and said.splitlines()[0] == first and said.splitlines()[-1] == last, f"{said}{done.stderr.decode()}")
        need(rows_of(said) == rows, f"{rows_of(said)}, wanted {rows}")
    said = run([SHEET, "counts", "-"], input=FREE.encode()).stdout.decode()
    need(said.startswith("Free links: 531,441 plans in a tree of 797,161 nodes\n") and len(rows_of(said)) == 36, said[:200])
    need({(count, part) for _, count, part, _ in rows_of(said)} == {("177,147", "33.3%")}, f"{rows_of(said)[:3]}")
    for name in ("edges", "on-air"):
        for columns in (68, 80, 100, 300):
            said = run(["env", f"COLUMNS={columns}", SHEET, "counts", EXAMPLES / f"{name}.txt"]).stdout.decode()
            table = said[said.index("\nlink ") + 1:]
            widest = max(map(width, table.splitlines()))
            need(widest <= columns, f"{name}: {widest} columns of {columns}")
            need(len({width(line[:line.index("MHz" if "MHz" in line else row[1])]) + (3 if "MHz" in line else 7) for line in table.splitlines()
                      for row in [ROW.match(line) and ROW.match(line).groups()] if row or "MHz" in line}) == 1, f"{name}: MHz out of line")
    rng = random.Random(args.seed + 62)
    for _ in range(max(args.cases // 30, 40)):
        sheet, columns = air_samples.air_sheet(rng), rng.choice((72, 80, 120, 200))
        on_air = air_samples.good_channels(rng, sheet)
        job = text.Job("job", [f"{'Ä語'[link % 2] * rng.choice((1, 3, 30))}{link}" for link in range(len(sheet.links))], sheet, [], list(on_air))
        answer = counted(sheet, on_air)
        if answer.verdict != "found":
            continue
        lines = counts.table(job, answer, columns).splitlines()
        need(len(lines) == sheet.frequencies() + 3 and max(map(width, lines[:-1])) <= columns, f"{max(map(width, lines))} of {columns} columns")
        struck = sum(bool(any(reading.covers(channel, khz) for channel in on_air)) for link in sheet.links for khz in link)
        need(sum("on air: channel " in line for line in lines) == struck, f"{struck} struck: {lines}")
        need(sum(line.endswith("dead: in no plan") for line in lines) == sum(count == 0 for link in answer.counts for count in link) - struck, f"{lines}")


@test("counts: bars and shares say none only of no plan, and all only of every plan")
def _(args):
    rng = random.Random(args.seed + 63)
    for _ in range(2_000):
        total = rng.choice((1, 2, 3, 7, 1_000, 10**6, 10**9))
        count, room = rng.choice((0, 1, total - 1, total, rng.randint(0, total))), rng.choice((1, 10, 50))
        drawn, part, number = counts.bar(count, total, room), counts.share(count, total), counts.shade(count, total)
        need(len(drawn) <= room and (len(drawn) > 0) == (count > 0) and abs(len(drawn.rstrip(".")) - room * count / total) <= 0.5, f"{count} of {total}: {drawn}")
        need(len(part) <= 6 and (part == "-") == (count == 0) and (part == "100%") == (count == total > 0), f"{count} of {total}: {part}")
        need((number == 0) == (count == 0) and (number == len(counts.SHADES) + 1) == (count == total > 0), f"{count} of {total}: shade {number}")
    need([counts.share(*one) for one in ((1, 3), (1, 2000), (1999, 2000), (1, 1000), (999, 1000))] == ["33.3%", "<0.1%", ">99.9%", "0.1%", "99.9%"], "shares")
    need([counts.shade(count, 100) for count in (0, 1, 5, 6, 20, 21, 50, 51, 99, 100)] == [0, 1, 1, 2, 2, 3, 3, 4, 4, 5], "shades")


@test("tools/sheet counts: stopped, no plan, links left empty, refusals and wrong limits")
def _(_):
    for more, status, told in (([], 0, "531,441 plans in a tree of 797,161 nodes"), (["--limit", "797161"], 0, "531,441 plans"),
                               (["--limit", "797,161"], 0, "531,441 plans"),
                               (["--limit", "797160"], 1, "Free links: stopped at 797,160 nodes: the tree is larger than this limit, "
                                "and no frequency has a count\nAllow more nodes with --limit, up to 1,000,000,000, or count parts of the job"),
                               (["--limit", "1"], 1, "stopped at 1 node: ")):
        done = run([SHEET, "counts", "-", *more], input=FREE.encode())
        said = done.stdout.decode()
        need(done.returncode == status and told in said and ("link  name" in said) == (status == 0), f"{more}: {said[:300]}{done.stderr.decode()}")
    for job, told in (((EXAMPLES / "no-plan.txt").read_bytes(), "no plan exists ("),
                      (b"job x\nlink A 470.0\nlink B 500.0\nair 21", "A is left without a frequency")):
        done = run([SHEET, "counts", "-"], input=job)
        need(done.returncode == 1 and told in done.stdout.decode() and "link  name" not in done.stdout.decode(), f"{done.stdout.decode()}")
    for sheet in sorted((EXAMPLES / "refused").glob("*.sheet")):
        done = run([SHEET, "counts", sheet])
        need(done.returncode == 1 and f"is refused {sheet.stem}: " in done.stderr.decode() and not done.stdout, f"{sheet.name}: {done.stderr.decode()[:200]}")
    for given in ("0", "1000000001", "x", "-1", "1.5", ""):
        done = run([SHEET, "counts", EXAMPLES / "edges.txt", "--limit", given])
        need(done.returncode == 2 and b"a number of nodes from 1 to 1,000,000,000" in done.stderr or given == "-1", f"{given}: {done.stderr.decode()[-200:]}")
    of_text, of_sheet = (rows_of(run([SHEET, "counts", EXAMPLES / f"edges.{ending}"]).stdout.decode()) for ending in ("txt", "sheet"))
    need(of_text == of_sheet and len(of_text) == 46, "a text and its sheet have other counts")


@test("counts that cannot be right are not handed out, nor those of a library that does not count")
def _(_):
    sheet, kept = samples.M1, (desk.ready, desk.count, desk.spares)
    try:
        desk.ready, desk.spares = lambda: None, lambda *_: (100, [[0, 0], [0, 0]])
        for number, khz, listed, good in ((100, [500_400, 500_000], [[0, 1], [1, 0]], True), (100, [500_400, 500_000], [[0, 1], [1, 1]], False),
                                          (100, [500_400, 500_000], [[0, 0], [0, 0]], False), (101, [0, 0], [[0, 1], [1, 0]], False),
                                          (102, [0, 0], [[0, 1], [1, 0]], False), (100, [500_000, 500_000], [[0, 1], [1, 0]], False)):
            desk.count = lambda *_, told=(number, 3, khz, listed): told
            try:
                need(planner.count(sheet).counts == listed and good, f"{number}, {listed} was handed out")
            except planner.NoAnswer as error:
                need(not good and ("do not go by them" in str(error) or "do not tune by it" in str(error)), f"{listed}: {error}")
    finally:
        desk.ready, desk.count, desk.spares = kept
    with tempfile.TemporaryDirectory() as folder:
        root = Path(folder) / "root"
        shutil.copytree(ROOT / "tools", root / "tools", ignore=shutil.ignore_patterns("__pycache__"))
        (root / "crates" / "desk" / "out").mkdir(parents=True)
        source, object_file = Path(folder) / "old.c", Path(folder) / "old.o"
        source.write_text("unsigned long long guvtemi_plan_job(void) { return 0; }\n")
        run(["gcc", "-fPIC", "-c", "-o", object_file, source])
        run(["ar", "rcs", root / "crates" / "desk" / "out" / "libdesk.a", object_file])
        done = run([root / "tools" / "sheet", "counts", EXAMPLES / "edges.txt"])
        need(done.returncode == 2 and "is from before guvtemi_count_job" in done.stderr.decode(), f"an older library: {done.stderr.decode()[:300]}")


@test("docs/TEXT.md, docs/FORMAT.md and examples/ show counts as they are")
def _(_):
    page = (ROOT / "docs" / "TEXT.md").read_text(encoding="utf-8")
    said = run(["env", "COLUMNS=120", SHEET, "counts", EXAMPLES / "edges.txt"]).stdout.decode()
    shown = [block for block in re.findall(r"```text\n(.*?)```", page, re.DOTALL) if "share  of all plans" in block]
    need(len(shown) == 1, f"docs/TEXT.md shows {len(shown)} tables of counts")
    begins, ends = shown[0].split("..\n")
    need(said.startswith(begins) and said.endswith(ends), f"docs/TEXT.md shows other counts than\n{said}")
    drawn = run([SHEET, "picture", EXAMPLES / "edges.txt", "--counts", "-o", "-"]).stdout
    need(drawn == (EXAMPLES / "edges-counts.svg").read_bytes(), "tools/sheet picture --counts draws another examples/edges-counts.svg")
    words = " ".join((EXAMPLES / "README.md").read_text(encoding="utf-8").split())
    plans = [run([SHEET, "counts", EXAMPLES / f"{name}.txt"]).stdout.decode().split(": ")[1].split()[0] for name in ("edges", "on-air")]
    need("The club stage has {} plans, the town square with its channels on air {} ".format(*plans) in words, f"examples/README.md: {plans}")
    page = (ROOT / "docs" / "FORMAT.md").read_text(encoding="utf-8").split("## The counts of plans")[1]
    rows = re.findall(r"^\| (\d+) \| ([0-9a-f ]{23}) \| link (\d), (\d+) \| (\d+) \|$", page, re.MULTILINE)
    _, _, counted_bytes = reading.count_job(encode(samples.M1), b"", 7, 0, 1_000, b"", 8, 32)
    need(bytes.fromhex("".join(row[1] for row in rows)) == counted_bytes, f"docs/FORMAT.md: {rows}")
    wanted = [(0, 500_000, 0), (8, 500_400, 1), (16, 500_000, 1), (24, 500_300, 0)]
    need([(int(offset), int(khz), int(count)) for offset, _, _, khz, count in rows] == wanted, f"{rows}")
    sizes = [reading.counted(reading.Sheet(encode(samples.M1)), filters, 0, 1_000, b"")[1] for filters in range(8)]
    need(", ".join(map(str, sizes)) + " under filters 0 to 7" in page, f"docs/FORMAT.md: nodes {sizes}")


def shades_of(drawn):
    """How many frequencies a picture has of each shade, the legend's left out."""
    return [len(of_class(drawn, "circle", "dead")) - 1] + [len(of_class(drawn, "polyline", f"shade-{number}")) - 1 for number in range(1, 6)]


@test("pictures with counts: each frequency in its shade with its number, dead ones hollow, struck ones crossed out, a legend")
def _(args):
    rng, seen = random.Random(args.seed + 64), Counter()
    for _ in range(max(args.cases // 30, 80)):
        sheet = air_samples.air_sheet(rng, rng.choice((6, 40)), rng.choice((1, 2, 5)))
        if reading.assignments(reading.Sheet(encode(sheet))) > 3_000:
            continue
        on_air = air_samples.good_channels(rng, sheet) if rng.random() < 0.6 else b""
        answer = counted(sheet, on_air)
        job = text.Job("job", [f"link{link}" for link in range(len(sheet.links))], sheet, [], list(on_air))
        drawn = picture.svg(job, answer)
        labels_apart(drawn)
        total, wanted, struck = counts.plans(answer), [0] * 6, 0
        for listed, numbers in zip(sheet.links, answer.counts):
            for khz, count in zip(listed, numbers):
                taken = any(reading.covers(channel, khz) for channel in on_air)
                struck += taken
                wanted[counts.shade(count, total)] += not taken
        need(shades_of(drawn) == wanted and drawn.count('class="struck"') == struck, f"{shades_of(drawn)}, wanted {wanted}: {sheet}, {on_air}")
        need(drawn.count('class="candidate"') == 0 and "plans that use a frequency:" in drawn and counts.said(answer).split(":")[0] in drawn, "words")
        seen[answer.verdict, bool(struck)] += 1
        plain = picture.svg(job, Answer(answer.verdict, answer.number, answer.khz, answer.spares))
        need("shade-" not in plain and "dead" not in plain, "a picture without counts has shades")
    need(seen["found", True] and seen["found", False] and seen["none", True], f"{dict(seen)}")
    with tempfile.TemporaryDirectory() as folder:
        out = Path(folder) / "out.svg"
        done = run([SHEET, "picture", EXAMPLES / "edges.txt", "--counts", "-o", out])
        told = (done.stdout + done.stderr).decode()
        need(done.returncode == 0 and told == f"wrote {out}: 4,232 plans in a tree of 14,772 nodes\n", told)
        drawn = out.read_text(encoding="utf-8")
        need(shades_of(drawn) == [3, 0, 32, 8, 0, 3], f"{shades_of(drawn)}")
        need("Singer can tune to 606.500 MHz, in 808 of 4,232 plans (19.1%)" in drawn and "Talkback can tune to 620.550 MHz, in no plan" in drawn, "tooltips")
        out.unlink()
        done = run([SHEET, "picture", EXAMPLES / "edges.txt", "--counts", "--limit", "14771", "-o", out])
        told = done.stderr.decode()
        need(done.returncode == 1 and not out.exists() and "stopped at 14,771 nodes" in told and "Nothing is drawn" in told, told)
        done = run([SHEET, "picture", EXAMPLES / "no-plan.txt", "--counts", "-o", out])
        need(done.returncode == 1 and shades_of(out.read_text(encoding="utf-8"))[1:] == [0] * 5, f"no plan: {done.stderr.decode()}")
        done = run([SHEET, "picture", EXAMPLES / "edges.txt", "--limit", "5", "-o", out])
        need(done.returncode == 2 and "--limit goes with --counts" in done.stderr.decode(), f"{done.stderr.decode()}")
