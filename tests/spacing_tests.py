"""Tests of what the tools show of the spare spacing: the desk's call, the tightest pair, the table of every two links, the picture."""

import itertools
import random
import re
import shutil
import struct
import tempfile
from pathlib import Path

import air_samples
import reading
import samples
from harness import EXAMPLES, PROGRAM, SHEET, need, test
from jobsheet import answer as planner
from jobsheet import desk, picture, spacing, text
from jobsheet.answer import Answer
from jobsheet.binary import SPACING, Rule, Sheet, encode
from jobsheet.columns import by_point, kilohertz
from native import ROOT, run
from spare_samples import LEAST, M1_WIDE, MOST, answered
from tool_tests import labels_apart, of_class

JOBS = ("theatre", "hall", "edges", "on-air")


@test("the tools' call of the spare spacing gives the reading's numbers, for plans and for others")
def _(args):
    rng, numbers = random.Random(args.seed + 35), set()
    for _ in range(max(args.cases // 10, 100)):
        sheet = samples.wide_sheet(rng) if rng.random() < 0.05 else rng.choice((samples.random_sheet, air_samples.air_sheet))(rng)
        on_air, khz = air_samples.any_channels(rng, sheet), samples.check_cells(rng, sheet)
        number, rows = desk.spares(encode(sheet), on_air, khz)
        wanted, table = reading.spares(encode(sheet), on_air, struct.pack(f"<{len(khz)}I", *khz), 4 * len(khz) ** 2)
        wanted_rows = [list(row) for row in struct.iter_unpack(f"<{len(khz)}i", table)]
        need(number == wanted and rows == wanted_rows, f"{number}, wanted {wanted}: {sheet}, {khz}, channels {list(on_air)}")
        numbers.add((number, any(table)))
    need({(0, True), (0, False), (17, False), (100, True)} <= numbers, f"{numbers}")


def example(name):
    """An example's job, and the answer to it by the reading."""
    job = text.parse((EXAMPLES / f"{name}.txt").read_text(encoding="utf-8"))
    channels = bytes(job.channels)
    _, nodes, khz = reading.planned(reading.Job(encode(job.sheet), channels), 7, 0, 1_000_000, b"")
    return job, answered(job.sheet, khz, nodes, channels)


def free_links(sheet):
    """The two links of each rule that lists every pair."""
    return {(rule.a, rule.b) for rule in sheet.rules if len(rule.pairs) == len(sheet.links[rule.a]) * len(sheet.links[rule.b])}


def counted(sheet, answer):
    """By two links that are not free, the lower first: their spare spacing and how far apart their edges are, both in half kHz."""
    widths = sheet.widths or [0] * len(sheet.links)
    pairs = [pair for pair in itertools.combinations(range(len(answer.khz)), 2) if pair not in free_links(sheet)]
    return {(a, b): (answer.spares[a][b], 2 * abs(answer.khz[a] - answer.khz[b]) - widths[a] - widths[b]) for a, b in pairs}


@test("tools/sheet plan names for each link the pair with the least spare spacing")
def _(_):
    for name in JOBS:
        lines = run([SHEET, "plan", EXAMPLES / f"{name}.txt"]).stdout.decode().splitlines()
        job, answer = example(name)
        pairs, rows = counted(job.sheet, answer), [line for line in lines if re.match(r" *\d+  ", line)]
        need(len(rows) == len(job.names), f"{name}: {len(rows)} rows")
        for link, row in enumerate(rows):
            told, other = re.search(r" \d+\.\d{3} +(?:\d+ +)?([\d.]+) +(\S[^,]*), [\d.]+ kHz (?:apart|from edge to edge) \(", row).groups()
            least = min(spare for two, (spare, _) in pairs.items() if link in two)
            need(float(told) * 2 == least == answer.spares[link][job.names.index(other)], f"{name}: {row}, least {least} half kHz")
        first, second, told = re.fullmatch(r"tightest pair: (.*) and (.*), ([\d.]+) kHz to spare \(.*\)", lines[-1]).groups()
        pair = job.names.index(first), job.names.index(second)
        need(float(told) * 2 == pairs[pair][0] == min(spare for spare, _ in pairs.values()), f"{name}: {lines[-1]}")


@test("the tightest pair has the least spare spacing, not the least distance; of several the nearest, then the lowest links")
def _(_):
    head = "job x\nlink A 500.0\nlink B 500.3\nlink C 501.0\nlink D 501.7 502.9\n"
    for lines, pair, told in (
            ("", "A and B", "299.5 kHz to spare (300 kHz apart, no rule: another frequency)"),
            ("apart 100 A B\napart 650 B C", "B and C", "50 kHz to spare (700 kHz apart, at least 650 kHz)"),
            ("apart 100 A B\napart 500 B C\napart 500 C D", "A and B", "200 kHz to spare (300 kHz apart, at least 100 kHz)"),
            ("free A B\napart 500 B C\napart 500 C D", "B and C", "200 kHz to spare (700 kHz apart, at least 500 kHz)"),
            ("exactly 300 A B", "A and B", "0 kHz to spare (300 kHz apart, just 300 kHz)"),
            ("apart 700 C D\nexactly 1000 A C", "C and D", "0 kHz to spare (700 kHz apart, at least 700 kHz)"),
            ("pairs A D 500.0/501.7", "A and D", "0 kHz to spare (1700 kHz apart, a listed pair)"),
            ("link E 501.7 600.0\npairs D E 501.7/501.7", "D and E", "0 kHz to spare (0 kHz apart, a listed pair)"),
            ("link E 501.7\nfree D E", "A and B", "299.5 kHz to spare (300 kHz apart, no rule: another frequency)"),
            ("width 100 all\napart 600 B C\nwidth 101 A", "B and C", "0 kHz to spare (600 kHz from edge to edge, at least 600 kHz)"),
            ("width 100 all\napart 100 A B\nwidth 101 A", "A and B", "99.5 kHz to spare (199.5 kHz from edge to edge, at least 100 kHz)"),
            ("width 700 all", "A and B", "299.5 kHz to spare (overlapping, 300 kHz between centres, no rule: another frequency)")):
        job = text.parse(head + lines)
        answer = answered(job.sheet, [500_000, 500_300, 501_000, 501_700, 501_700][:len(job.names)])
        last, drawn = spacing.table(job.sheet, job.names, answer).splitlines()[-1], picture.svg(job, answer)
        need(last == f"tightest pair: {pair}, {told}", f"{lines}: {last}")
        need(f">{last}</text>" in drawn and f">{told.split(' (')[0]}</text>" in drawn, f"{lines}: the picture")
    job = text.parse("job x\nlink A 500.0\n")
    answer = answered(job.sheet, [500_000])
    need(spacing.table(job.sheet, ["A"], answer).splitlines()[1:] == ["   0  A       500.000          -  no link to keep apart from"], "a link alone")
    need(spacing.spare_table(job.sheet, ["A"], answer, 120) == "spare spacing: one link has no pair", "a link alone, every two links")
    need("spare" not in picture.svg(job, answer), "a link alone, the picture")


@test("docs/FORMAT.md shows the tables of four pairs as the call writes them, and the ends of the range")
def _(_):
    page = (ROOT / "docs" / "FORMAT.md").read_text(encoding="utf-8")
    shown = re.findall(r"^\| (\d{6}) \| (\d{6}) \| −(\d+) \| ([0-9a-f ]+) \|$", page, re.MULTILINE)
    need(len(shown) == 4, f"{len(shown)} pairs")
    for first, second, spare, digits in shown:
        _, table = desk.spares(encode(M1_WIDE), b"", [int(first), int(second)])
        need(table == [[0, -int(spare)], [-int(spare), 0]], f"{first}, {second}: {table}")
        need(bytes.fromhex(digits) == struct.pack("<4i", *table[0], *table[1]), f"{first}, {second}: {digits}")
    need(f"between −{-LEAST:,} (" in page and f" and {MOST:,} (" in page, "the ends of the range")


# ---- The table of every two links

def printed_cells(lines):
    """By two links the cell that the lines of a table print for them, and every name beside it."""
    cells, names, block = {}, {}, []
    for line in lines:
        if re.fullmatch(r" +\d+(?: +\d+)*", line):
            block = list(map(int, line.split()))
        elif re.match(r" *\d+  ", line):
            words = line.split()
            link, names[int(words[0])] = int(words[0]), " ".join(words[1:-len(block)])
            cells.update({(link, other): word for other, word in zip(block, words[-len(block):])})
    return cells, names


@test("tools/sheet plan --spare prints every pair as the call gives it, within the columns of a line")
def _(_):
    for name, columns in itertools.product(JOBS, (50, 80, 120, 200)):
        command = [SHEET, "plan", EXAMPLES / f"{name}.txt"]
        whole, plan = (run(["env", f"COLUMNS={columns}", *command, *more]).stdout.decode() for more in (["--spare"], []))
        need(whole.startswith(f"{plan}\nspare spacing of every two links, in kHz\n\n"), f"{name}: {whole[:300]}")
        lines = whole[len(plan):].splitlines()
        need(max(map(len, lines)) <= columns and max(map(len, lines)) > min(columns - 12, 100), f"{name}: {max(map(len, lines))} of {columns} columns")
        job, answer = example(name)
        cells, names = printed_cells(lines)
        need([names[link] for link in range(len(names))] == job.names, f"{name}: {names}")
        free = free_links(job.sheet)
        for a, b in itertools.product(range(len(names)), repeat=2):
            half = answer.spares[a][b]
            wanted = "-" if a == b else "free" if {(a, b), (b, a)} & free else f"{half // 2}" + ".5" * (half % 2)
            need(cells.pop((a, b)) == wanted, f"{name}, links {a} and {b}: wanted {wanted}")
        need(not cells, f"{name}: {cells}")
    done = run([SHEET, "plan", EXAMPLES / "no-plan.txt", "--spare"])
    need(done.returncode == 1 and "spare" not in done.stdout.decode(), f"without a plan: {done.stdout.decode()}")


@test("the table of every two links: long names are cut, numbers stand below each other at the point")
def _(_):
    need([kilohertz(half) for half in (0, 1, -1, 3, -3, -880, 19_999_995)] == ["0", "0.5", "-0.5", "1.5", "-1.5", "-440", "9999997.5"], "kHz of halves")
    need(by_point(["0", "1787.5", "-", "free"]) == ["   0  ", "1787.5", "   -  ", "free  "], "with halves")
    need(by_point(["0", "free", "-25"]) == ["   0", "free", " -25"], "without halves")
    names = ["x" * 40, "Ä" * 30, "日本" * 10, "B"]
    sheet = Sheet([[500_000], [500_100], [500_300], [500_700]], [Rule(0, 1, SPACING, 50)])
    found = spacing.spare_table(sheet, names, answered(sheet, [500_000, 500_100, 500_300, 500_700]), 120).splitlines()
    need(found[2:4] == [" " * 37 + "0         1         2         3", " " * 30 + "xxxxxxx…  ÄÄÄÄÄÄÄ…   日本日…         B"], f"{found}")
    need([line[4:28] for line in found[4:6]] == ["x" * 23 + "…", "Ä" * 23 + "…"], f"{found}")
    need(found[5].endswith(" 50         -       199.5     599.5"), f"{found}")


@test("pictures mark the pair with the least spare spacing and say it")
def _(args):
    rng, marked = random.Random(args.seed + 36), 0
    for _ in range(max(args.cases // 30, 40)):
        sheet = samples.wide_sheet(rng) if rng.random() < 0.2 else samples.random_sheet(rng, 12, 6)
        names = [f"L{link}" for link in range(len(sheet.links))]
        answer = answered(sheet, [rng.choice(listed) for listed in sheet.links])
        drawn, pairs = picture.svg(text.Job("job", names, sheet, []), answer), counted(sheet, answer)
        labels_apart(drawn)
        red = [node.firstChild.data for node in of_class(drawn, "text", "worst-text")]
        if not pairs:
            need(not red and "least spare" not in drawn, f"{red}: {sheet}")
            continue
        (spare, _), (a, b) = min((pairs[pair], pair) for pair in pairs)
        need(red[0].startswith(f"tightest pair: L{a} and L{b}, {kilohertz(spare)} kHz to spare ("), f"{red[0]}, wanted links {a} and {b}: {sheet}")
        need(red[3] == f"{kilohertz(spare)} kHz to spare" and red[4:] == [f"{link:2} L{link}" for link in (a, b)], f"{red}: {sheet}")
        need({label.split()[0] for label in red[1:3]} == {f"L{a}", f"L{b}"}, f"{red}: {sheet}")
        need("red: the least spare spacing" in drawn, "the legend")
        marked += 1
    need(marked > 20, f"{marked} pictures with a pair")


@test("a plan that breaks a rule is not handed out, and the links that clash are named; nor one of a library from before the call")
def _(_):
    job, kept = text.parse("job x\nlink A 500.0 500.1\nlink B 500.4\nlink C 500.1\napart 400 A B\nexactly 300 B C\ndiffer A C"), planner.ask
    try:
        for plan, clash in (([500_000, 500_400, 500_100], None), ([500_000, 500_400, 500_200], "rules of this sheet: do"),
                            ([500_100, 500_400, 500_100], "(links 0 and 1: -100 kHz to spare, links 0 and 2: -0.5 kHz to spare)")):
            planner.ask = lambda _, plan=plan: Answer("found", 4, plan)
            try:
                need(planner.plan(job.sheet) == answered(job.sheet, plan, 4) and clash is None, f"{plan} was handed out")
            except planner.NoAnswer as error:
                need(clash is not None and clash in str(error) and "do not tune by it" in str(error), f"{plan}: {error}")
    finally:
        planner.ask = kept
    with tempfile.TemporaryDirectory() as folder:
        root, source, made = Path(folder) / "root", Path(folder) / "old.c", Path(folder) / "old.o"
        shutil.copytree(ROOT / "tools", root / "tools", ignore=shutil.ignore_patterns("__pycache__"))
        for crate in ("desk", "plan"):
            (root / "crates" / crate / "out").mkdir(parents=True)
        shutil.copy(PROGRAM, root / "crates" / "plan" / "out")
        source.write_text("unsigned long long guvtemi_export(void) { return 0; }\n")
        run(["gcc", "-fPIC", "-c", "-o", made, source])
        run(["ar", "rcs", root / "crates" / "desk" / "out" / "libdesk.a", made])
        for command in (["plan"], ["picture", "-o", "-"]):
            done = run([root / "tools" / "sheet", *command, EXAMPLES / "theatre.txt"])
            need(done.returncode == 2 and "is from before guvtemi_spares" in done.stderr.decode() and not done.stdout, f"{done.stderr.decode()[:300]}")
