"""Tests of what the tools do with form 3: the form chosen by size, its faults, planning through the desk, tables and pictures of many links, the
festival of examples/, what the documents say of the forms."""

import itertools
import random
import re
import struct
import tempfile
import xml.dom.minidom
from pathlib import Path

import festival_samples
import reading
import samples
from harness import EXAMPLES, PROGRAM, SHEET, need, printed_by_program, test
from jobsheet import answer as planner
from jobsheet import binary, desk, picture, show, spacing, text
from jobsheet.answer import Answer
from jobsheet.binary import SPACING, Rule, Sheet, encode
from native import ROOT, run
from spacing_tests import free_links, printed_cells
from spare_samples import answered
from tool_tests import labels_apart

FESTIVAL = EXAMPLES / "festival.txt"
TOLD = """form 3: the desk's calls and the console's check take this form, and 'tools/sheet plan' plans it with the desk's;
the console's planning call and the program ./guvtemi answer 3 to every sheet of form 3
"""


def lines_of(links, each=1, more=""):
    """A text of so many links with so many frequencies each."""
    listed = [" ".join(f"{500_000 + 25 * (each * link + place)}" for place in range(each)) for link in range(links)]
    return "job x\n" + "".join(f"link L{link} {khz}\n" for link, khz in enumerate(listed)) + more


@test("the form of a text is chosen by widths and size")
def _(_):
    for links, each, more, form in (
            (64, 1, "", 1), (64, 8, "", 1), (1, 512, "", 1), (64, 1, "width 200 all", 2), (64, 8, "width 200 all", 2), (1, 512, "width 1 L0", 2),
            (65, 1, "width 200 all", 3), (1, 513, "width 1 L0", 3), (128, 8, "width 200 all", 3), (2, 512, "width 1 all", 3),
            (65, 8, "width 1 all", 3),
            (128, 1, "width 1 all\nwidth 2 L127", 3), (128, 1, "width 1 all\napart 5 " + " ".join(f"L{link}" for link in range(64)), 3)):
        made = text.parse(lines_of(links, each, more)).sheet
        data = encode(made)
        need((data[0], made.form(), reading.refusal(data)) == (form, form, 0), f"{links} x {each}: form {data[0]}, {reading.refusal(data)}")
        need(len(reading.Sheet(data).widths) == (links if form != 1 else 0), f"{links} x {each}: widths")
        shown = show.show(binary.decode(data), "x")
        need(encode(text.parse(shown).sheet) == data and text.parse(shown).sheet == binary.decode(data), f"{links} x {each}: make of show differs")
        need("form 3" not in shown, f"{links} x {each}: {shown[:200]}")


@test("large texts: every fault has its line and says what to do")
def _(_):
    widths = "; give every link a width (width WIDTH all) for up to 128 links and 1,024 frequencies"
    every = " ".join(f"L{link}" for link in range(65))
    for lines, faults in (
            (lines_of(65), [(66, f"expected at most 64 links in a job without widths, found one more: L64{widths}")]),
            (lines_of(100), [(66, f"expected at most 64 links in a job without widths, found one more: L64{widths}")]),
            (lines_of(1, 513), [(2, f"expected at most 512 frequencies in a job without widths, found 513 up to here{widths}")]),
            (lines_of(60, 10), [(53, f"expected at most 512 frequencies in a job without widths, found 520 up to here{widths}")]),
            (lines_of(65, 1, "width 200 L0"), [(3, "expected a width for L1, as line 67 gives other links one")]),
            (lines_of(129, 1, "width 200 all"), [(130, "expected at most 128 links, found one more: L128")]),
            (lines_of(129), [(130, "expected at most 128 links, found one more: L128")]),
            (lines_of(1, 1_025, "width 200 all"), [(2, "expected at most 1,024 frequencies in all, found 1,025 up to here")]),
            (lines_of(128, 9, "width 1 all"), [(115, "expected at most 1,024 frequencies in all, found 1,026 up to here")]),
            (lines_of(65, 1, "width 1 all\napart 5 all"), [(68, "expected at most 2,016 rules in all, found 2,080, as apart .. all makes one for")]),
            (lines_of(65, 1, f"width 1 all\napart 5 {every}"), [(68, "expected at most 2,016 rules in all, found 2,080; leave links that do not")]),
            (lines_of(66, 1, f"width 1 all\nexactly 25 L64 L65\napart 5 {every[:-4]}\napart 7 L0 L64"), [(70, "found 2,018; leave links")]),
            (lines_of(128, 1, "width 1 all\ndiffer L0 L1\napart 5 all"), [(132, "found 8,127, as apart .. all")]),
            (lines_of(65, 1, "apart 5 all"), [(66, "in a job without widths"), (67, "expected at most 2,016 rules in all, found 2,080")])):
        try:
            text.parse(lines)
            need(False, f"{lines[:60]}..{lines[-60:]}: read")
        except text.TextError as error:
            told = [(line, words in sentence) for (line, sentence), (_, words) in zip(error.faults, faults)]
            need(len(error.faults) == len(faults) and told == [(line, True) for line, _ in faults], f"{lines[-60:]}: {error}")
    need(len(text.parse(lines_of(64, 1, "apart 5 all")).sheet.rules) == 2_016, "every two of 64 links")


@test("make and show are inverse on large sheets, and why says the reading's cause of every sheet of form 3")
def _(args):
    rng = random.Random(args.seed + 80)
    sheets = [encode(festival_samples.large_sheet(rng)) for _ in range(20)] + [data for _, data in festival_samples.accepted_sheets()]
    for data in sheets:
        need(encode(binary.decode(data)) == data, "encode and decode differ")
        shown = show.show(binary.decode(data), "x")
        need(encode(text.parse(shown).sheet) == data and "form 3" not in shown, f"make of show differs:\n{shown[:300]}")
    inputs = [data for _, _, data in festival_samples.limit_sheets()]
    inputs += [samples.damaged(rng, rng.choice(sheets)) for _ in range(max(args.cases // 5, 200))]
    for data in inputs:
        fault = binary.fault_of(data)
        need((fault.number if fault else 0) == reading.refusal(data), f"why says {fault}, the reading {reading.refusal(data)}: {data.hex()[:200]}")
        need(binary.is_festival(data) == reading.console_refuses(data), f"refused by the console: {data.hex()[:100]}")


@test("why: limits by the form, and what the console and the program answer to form 3")
def _(_):
    good = encode(Sheet(samples.NARROW.links, samples.NARROW.rules, samples.NARROW.widths, True))
    for data, status, said in (
            (good, 0, f"accepted: 2 links, 4 frequencies, 1 rule, 1 pair, 30 to 50 kHz wide\n{TOLD}"),
            (samples.changed(good, ("I", 0, 2)), 0, "accepted: 2 links, 4 frequencies, 1 rule, 1 pair, 30 to 50 kHz wide\n"),
            (samples.changed(good, ("I", 0, 4)), 1, "refused 1: under 40 bytes, or a form other than 1, 2 or 3\n  where    header, form, byte 0\n"
             "  there    4\n  allowed  1, 2 or 3\n"),
            (samples.changed(good, ("I", 4, 129)), 1, "refused 2: no link, or more than the form holds\n  where    header, number of links, byte 4\n"
             "  there    129\n  allowed  1 to 128 in form 3\n"),
            (samples.changed(good, ("I", 0, 2), ("I", 4, 65)), 1, "refused 2: no link, or more than the form holds\n"
             "  where    header, number of links, byte 4\n  there    65\n  allowed  1 to 64 in form 2\n"),
            (samples.changed(good, ("I", 8, 1_025)), 1, "refused 3: frequencies, rules or pairs beyond their limits\n"
             f"  where    header, number of frequencies, byte 8\n  there    1,025\n  allowed  1 to 1,024 in form 3\n{TOLD}"),
            (samples.changed(good, ("I", 44, 0)), 1, f"refused 16: a width out of range\n  where    link 0, width, byte 44\n  there    0 kHz\n"
             f"  allowed  1 to 20,000 kHz\n{TOLD}")):
        done = run([SHEET, "why", "-"], input=data)
        need(done.returncode == status and done.stdout.decode() == said, f"{done.stdout.decode()}, wanted {said}")


@test("tools/sheet plan, counts, picture and dimacs take form 3 through the desk, also where no channel is on air and without the program")
def _(args):
    rng, kept = random.Random(args.seed + 81), planner.PROGRAM
    try:
        planner.PROGRAM = PROGRAM.with_name("no such program")
        for _ in range(40):
            sheet, _ = festival_samples.form_2_sheet(rng)
            sheet.festival = True
            data = encode(sheet)
            number, nodes, khz = reading.planned(reading.Sheet(data), 7, 0, 1_000_000, b"")
            answer = planner.plan(sheet)
            need((answer.verdict, answer.number, answer.khz) == (planner.VERDICTS[number], nodes, khz), f"{answer}, wanted {number}, {nodes}")
        for _, data in festival_samples.accepted_sheets()[2:6]:
            number, nodes, khz = reading.planned(reading.Sheet(data), 7, 0, 1_000_000, b"")
            answer = planner.plan(binary.decode(data))
            need((answer.verdict, answer.number, answer.khz) == (planner.VERDICTS[number], nodes, khz), f"{answer.verdict} in {answer.number} nodes")
            need(planner.count(binary.decode(data), (), 10).verdict in ("none", "stopped"), "counting")
            need(desk.export(data) == (0, *reading.texts_of(reading.Sheet(data))), "other texts")
    finally:
        planner.PROGRAM = kept
    one = encode(Sheet([list(range(500_000, 501_024))], [], [200]))
    answer = planner.count(binary.decode(one))
    need((answer.verdict, answer.number, answer.counts) == ("found", 1_025, [[1] * 1_024]), f"1,024 frequencies: {answer.verdict}, {answer.number}")


# ---- Many links in tables and pictures

@test("tables and pictures of 65 to 128 links: numbers in line, labels apart and inside, every carrier and frequency drawn")
def _(args):
    rng = random.Random(args.seed + 82)
    for count in (64, 65, 96, 100, 101, 127, 128):
        links = [sorted(rng.sample(range(470_000, 694_000, 25), rng.choice((1, 4, 8)))) for _ in range(count)]
        sheet = Sheet(links, [Rule(a, a + 1, SPACING, 25) for a in range(count - 1)], [rng.choice((25, 200)) for _ in links])
        names = [f"{'Länge' * rng.choice((0, 1, 5))}{link}" for link in range(count)]
        answer = answered(sheet, [rng.choice(listed) for listed in links])
        for on_air in ([], [21, 30, 31, 48]):
            drawn = picture.svg(text.Job("A festival", names, sheet, [], on_air), answer)
            labels_apart(drawn)
            wide = int(re.search(r'<svg [^>]*width="(\d+)"', drawn).group(1))
            need(wide == 1200 if count == 64 else 1200 <= wide <= 2000, f"{count} links: {wide} pixels wide")
            strokes = drawn.count('class="candidate"') + drawn.count('class="struck"')
            need((drawn.count("<circle"), strokes) == (count, sheet.frequencies()), f"{count} links: {strokes} frequencies")
            inside(drawn, wide)
        labels_apart(picture.svg(text.Job("A festival", names, sheet, []), Answer("none", 0, [])))
        table = spacing.spare_table(sheet, names, answer, 120).splitlines()
        need(max(map(len, table)) <= 120, f"{count} links: {max(map(len, table))} columns")
        cells, _ = printed_cells(table)
        for a, b in itertools.product(range(count), repeat=2):
            half = answer.spares[a][b]
            wanted = "-" if a == b else "free" if {(a, b), (b, a)} & free_links(sheet) else f"{'-' * (half < 0)}{abs(half) // 2}" + ".5" * (half % 2)
            need(cells[a, b] == wanted, f"{count} links, {a} and {b}: {cells[a, b]}, wanted {wanted}")
        rows = [line for line in spacing.table(sheet, names, answer).splitlines() if re.match(r" *\d+  ", line)]
        need([int(row.split()[0]) for row in rows] == list(range(count)), f"{count} links: the plan's rows")


def inside(drawn, wide):
    """Holds every line and circle of a picture inside its width."""
    document = xml.dom.minidom.parseString(drawn)
    places = [float(point.split(",")[0]) for line in document.getElementsByTagName("polyline") for point in line.getAttribute("points").split()]
    places += [float(circle.getAttribute("cx")) for circle in document.getElementsByTagName("circle")]
    need(0 <= min(places) and max(places) <= wide, f"from {min(places)} to {max(places)} of {wide}")


# ---- The festival of examples/ and the documents

def festival():
    """The job, and the answer to it by the reading."""
    job = text.parse(FESTIVAL.read_text(encoding="utf-8"))
    _, nodes, khz = reading.planned(reading.Sheet(encode(job.sheet)), 7, 0, 1_000_000, b"")
    return job, answered(job.sheet, khz, nodes)


@test("the festival: a text of form 3 with a plan in a few hundred nodes; sheet and picture are those of the text")
def _(_):
    job, answer = festival()
    data = (EXAMPLES / "festival.sheet").read_bytes()
    need(encode(job.sheet) == data and data[0] == 3 and reading.refusal(data) == 0, "examples/festival.sheet is another sheet")
    need(len(job.names) == 96 and answer.number <= 300 and spacing.keeps_rules(job.sheet, answer.khz), f"{answer.number} nodes")
    need(all(470_000 <= khz < 694_000 for listed in job.sheet.links for khz in listed), "a frequency outside 470 to 694 MHz")
    need(not encode(job.sheet)[:4] == b"\2\0\0\0" and not job.sheet.fits(2), "form 2 holds it")
    drawn = picture.svg(job, answer)
    need(drawn.encode() == (EXAMPLES / "festival.svg").read_bytes(), "examples/festival.svg is another picture")
    labels_apart(drawn)
    need(f"`found {answer.number}` of the desk" in (EXAMPLES / "README.md").read_text(encoding="utf-8"), f"examples/README.md: {answer.number} nodes")
    return f"{answer.number} nodes"


@test("tools/sheet on the festival: plan, picture, spare table and graph by the desk, refused 3 by the program")
def _(_):
    job, answer = festival()
    done = run([SHEET, "plan", FESTIVAL])
    wanted = f"{job.name}: plan found in {answer.number} nodes\n\n{spacing.table(job.sheet, job.names, answer)}\n"
    need(done.returncode == 0 and done.stdout.decode() == wanted and not done.stderr, f"{done.stdout.decode()[:300]}{done.stderr.decode()}")
    need(run([SHEET, "picture", FESTIVAL, "-o", "-"]).stdout == (EXAMPLES / "festival.svg").read_bytes(), "another picture")
    spare = run(["env", "COLUMNS=100", SHEET, "plan", FESTIVAL, "--spare"]).stdout.decode()
    need(spare == f"{wanted}\n{spacing.spare_table(job.sheet, job.names, answer, 100)}\n", "another table of every two links")
    data = (EXAMPLES / "festival.sheet").read_bytes()
    need(printed_by_program(data) == "refused 3\n", f"the program says {printed_by_program(data)!r}")
    done = run([SHEET, "counts", FESTIVAL, "--limit", "1000"])
    need(done.returncode == 1 and "stopped at 1,000 nodes" in done.stdout.decode(), f"{done.stdout.decode()[:300]}{done.stderr.decode()}")
    struck = run([SHEET, "plan", FESTIVAL, "--air", "22,40"]).stdout.decode()
    number, nodes, _ = reading.planned(reading.Job(data, bytes((22, 40))), 7, 0, 1_000_000, b"")
    need(number == reading.FOUND and struck.startswith(f"{job.name}: plan found in {nodes} nodes\non air: channels 22, 40; they take "), struck[:200])
    with tempfile.TemporaryDirectory() as folder:
        done = run([SHEET, "dimacs", FESTIVAL, "-o", Path(folder) / "a"])
        graph, counts = reading.texts_of(reading.Sheet(data))
        written = [(Path(folder) / f"a.{ending}").read_bytes() for ending in ("col", "parts")]
        need(done.returncode == 0 and written == [graph, counts], "other texts")
        done = run([SHEET, "from-dimacs", "a.col", "a.parts"], cwd=folder)
        need(done.returncode == 1 and "refused 13: " in done.stderr.decode() and "a.parts, line 52: expected counts that sum to at most 512" in
             done.stderr.decode(), f"from-dimacs: {done.stderr.decode()}")


@test("docs/TEXT.md shows the festival as it is")
def _(_):
    page = (ROOT / "docs" / "TEXT.md").read_text(encoding="utf-8").split("## A festival with 96 links")[1].split("\n## ")[0]
    rules, plan = re.findall(r"```text\n(.*?)```", page, re.DOTALL)
    lines = FESTIVAL.read_text(encoding="utf-8").splitlines()
    start = next(number for number, line in enumerate(lines) if line.startswith("width "))
    need(len(rules.splitlines()) == len(lines) - start, "docs/TEXT.md shows more or fewer lines")
    for shown, line in zip(rules.splitlines(), lines[start:]):
        parts = shown.split(" .. ")
        need(line.startswith(parts[0]) and line.endswith(parts[-1]), f"docs/TEXT.md shows {shown!r} for {line!r}")
    job, answer = festival()
    begins, ends = plan.split("..\n")
    whole = f"{job.name}: plan found in {answer.number} nodes\n\n{spacing.table(job.sheet, job.names, answer)}\n"
    need(whole.startswith(begins) and whole.endswith(ends), f"docs/TEXT.md shows another plan than\n{whole[:400]}")
    told = f"{len(job.names)} links with {job.sheet.frequencies()} frequencies on six stages"
    need(told in page, f"docs/TEXT.md does not say {told}")


@test("docs/FORMAT.md and README.md state the limits of each form as the reading has them")
def _(_):
    page = (ROOT / "docs" / "FORMAT.md").read_text(encoding="utf-8").split("## The three forms")[1].split("\n## ")[0]
    rows = [[cell.strip() for cell in line.strip("|").split("|")] for line in page.splitlines() if re.match(r"\| \d ", line)]
    need(len(rows) == len(reading.FORMS), f"{len(rows)} forms")
    for form, links, frequencies, rules, pairs, row_bytes, spaced, words, largest in rows:
        most = reading.FORMS[int(form)]
        need((links, frequencies, words) == tuple(f"{number:,}" for number in (most.links, most.frequencies, most.words)), f"form {form}: {rows}")
        need((rules, pairs) == ("2,016", "8,192") and row_bytes.startswith(f"{most.row_bytes} bytes"), f"form {form}: {rows}")
        need(("width" in row_bytes, spaced) == ((False, "between centres") if form == "1" else (True, "between edges")), f"form {form}: {rows}")
        need(largest == f"{40 + most.row_bytes * most.links + 4 * most.frequencies + 12 * 2_016 + 4 * 8_192:,} bytes", f"form {form}: {largest}")
    causes = (ROOT / "README.md").read_text(encoding="utf-8")
    for words in ("| 1 | under 40 bytes, or a form other than 1, 2 or 3 |", "| 2 | no link, or more than 64, in form 3 more than 128 |",
                  "| at most 512, in form 3 1,024, then 2,016 and 8,192;", "| 11 | fewer than 8,192 work words, for form 3 fewer than 32,768 |",
                  f"{8 * reading.FORMS[3].frequencies:,} are always enough |"):
        need(words in causes, f"README.md does not say {words}")
