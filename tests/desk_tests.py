"""Tests of the desk library: every call against the reading, what a round trip keeps, channels on air; those of the spare spacing
alone are in spare_tests.py, those of the heaviest job in heaviest_tests.py, those of counting in count_tests.py."""

import random
from collections import Counter

import air_samples
import count_samples
import desk_samples
import native
import reading
import samples
import spare_samples
from desk_samples import (CHECK, COUNT, EXPORT, HEAVIEST, IMPORT, MOST_COUNT_BYTES, MOST_GRAPH_BYTES, MOST_NARROW_COUNT_BYTES, MOST_NARROW_GRAPH_BYTES,
                          PLAN, SPARES, DeskCall)
from harness import EXAMPLES, need, test
from jobsheet.binary import LISTED, SPACING, Rule, Sheet, encode
from native import DESK_ARCHIVE, SANITIZE

GUARDED = ["-O2", "-DGUARD=64"]
NAMES = {EXPORT: "export", IMPORT: "import", PLAN: "plan", CHECK: "check", SPARES: "spares", HEAVIEST: "heaviest", COUNT: "count"}
READINGS = {EXPORT: reading.desk_export, IMPORT: reading.desk_import, SPARES: reading.spares}  # of the slices read, and the lengths of those written


def driver(name="desk-driver", flags=GUARDED):
    return native.build("tests/desk_driver.c", name, flags, DESK_ARCHIVE)


def wanted(call):
    """What the reading says of a call: the number returned, and the slices written afterwards."""
    if call.function == CHECK:
        return reading.check_job(*call.read), []
    room = map(len, call.written)
    if call.function == HEAVIEST:
        returned, *after = reading.desk_heaviest(*call.setting[:2], *room)
    elif call.function in (PLAN, COUNT):
        data, channels, classes = call.read
        run = reading.plan_job if call.function == PLAN else reading.count_job
        returned, *after = run(data, channels, *call.setting, classes, *room)
    else:
        returned, *after = READINGS[call.function](*call.read, *room)
    return returned, after


def cause_of(call, returned):
    """The cause, or the number of an answer."""
    return returned >> {EXPORT: 48, CHECK: 0, SPARES: 0}.get(call.function, 32)


def compare(calls, found):
    """Holds answers to the reading; how often each number came back, with the call's name."""
    seen = Counter()
    for call, (returned, changed, after) in zip(calls, found):
        need(not changed, f"a call changed what it must leave: {str(call)[:600]}")
        number, slices = wanted(call)
        need(returned == number and after == slices, f"returned {returned:#x}, wanted {number:#x}, outputs "
             f"{'as wanted' if after == slices else 'differ'}: {str(call)[:600]}")
        seen[NAMES[call.function], cause_of(call, returned)] += 1
    return seen


def told(seen):
    return f"{sum(seen.values()):,} calls; " + ", ".join(f"{name} {cause}: {count}" for (name, cause), count in sorted(seen.items()))


@test("export and import against the reading: random and damaged sheets and texts")
def _(args):
    rng = random.Random(args.seed + 10)
    seen = Counter()
    for _ in range(0, args.cases, 500):
        calls = [call for _ in range(500) for call in desk_samples.random_calls(rng)]
        seen += compare(calls, native.desk_answers(driver(), calls))
    missing = [cause for cause in [("export", c) for c in (*range(9), 15, 16)] + [("import", c) for c in (0, 13, 14, 15)] if not seen[cause]]
    need(not missing, f"no call gave {missing}")
    return told(seen)


@test("import against the reading: every fault of a text")
def _(args):
    rng = random.Random(args.seed + 11)
    named = list(desk_samples.fault_calls(rng))
    found = native.desk_answers(driver(), [call for _, _, call in named])
    for (name, cause, call), (returned, _, _) in zip(named, found):
        need(returned == cause << 32, f"{name}: returned {returned:#x}, wanted cause {cause}")
    return told(compare([call for _, _, call in named], found))


@test("import against the reading: limits, and the shape of a bench graph")
def _(args):
    rng = random.Random(args.seed + 12)
    seen = Counter()
    for graphs in (desk_samples.limit_graphs(), desk_samples.bench_graphs(rng)):
        named = list(desk_samples.graph_calls(rng, graphs))
        found = native.desk_answers(driver(), [call for _, _, call in named])
        for (name, cause, call), (returned, _, _) in zip(named, found):
            need(returned >> 32 == cause, f"{name}: cause {returned >> 32}, wanted {cause}")
        seen += compare([call for _, _, call in named], found)
    return told(seen)


@test("export against the reading: sheets at their limits, and the longest texts")
def _(args):
    calls = list(desk_samples.limit_exports(random.Random(args.seed + 13)))
    found = native.desk_answers(driver(), calls)
    lengths = [(returned % 2**32, (returned >> 32) % 2**16) for returned, _, _ in found]
    need((max(graph for graph, _ in lengths), max(counts for _, counts in lengths)) == (MOST_NARROW_GRAPH_BYTES, MOST_NARROW_COUNT_BYTES),
         "no call wrote a text of the largest size of forms 1 and 2")
    return told(compare(calls, found))


@test("export: links without a rule are joined where their frequencies differ, listed ones as listed")
def _(_):
    two, every = [[500_000, 500_400], [500_000, 500_400]], [(0, 0), (0, 1), (1, 0), (1, 1)]
    wanted_edges = [(samples.UNRULED, []), (Sheet(two, []), ["e 1 4", "e 2 3"]),
                    (Sheet(two, [Rule(0, 1, LISTED, 0, every)]), ["e 1 3", "e 1 4", "e 2 3", "e 2 4"])]
    calls = [DeskCall(EXPORT, [encode(sheet)], [bytes(100), bytes(10)]) for sheet, _ in wanted_edges]
    for (sheet, edges), (_, _, (graph, _)) in zip(wanted_edges, native.desk_answers(driver(), calls)):
        lines = graph.rstrip(b"\0").decode().splitlines()
        need(lines == [f"p edge {sheet.frequencies()} {len(edges)}", *edges], f"{sheet}: {lines}")


@test("export: widths count in forms 2 and 3, cause 16 is in its place, and what comes back is of form 1")
def _(_):
    lists, rules = [[500_000, 500_400], [500_000, 500_300]], [Rule(0, 1, SPACING, 300)]
    cases = [(None, False, ["e 1 4", "e 2 3"])]
    cases += [(*case[:1], festival, case[1]) for case in (([30, 50], ["e 2 3"]), ([100, 100], ["e 2 3"]), ([100, 101], [])) for festival in (False, True)]
    for widths, festival, edges in cases:
        data = encode(Sheet(lists, rules, widths, festival))
        (_, _, (graph, _)), = native.desk_answers(driver(), [DeskCall(EXPORT, [data], [bytes(100), bytes(10)])])
        lines = graph.rstrip(b"\0").decode().splitlines()
        need(lines == [f"p edge 4 {len(edges)}", *edges], f"widths {widths}: {lines}")
        back, = trips([data])
        need(back[:4] == b"\x01\0\0\0", f"widths {widths}: import writes the form {back[:4]}")
    sheets = list(samples.form_sheets())
    calls = [DeskCall(EXPORT, [data], [b"\xee" * 100, b"\xee" * 10]) for _, _, data in sheets]
    found = native.desk_answers(driver(), calls)
    for (name, cause, _), (returned, _, _) in zip(sheets, found):
        need(returned >> 48 == cause, f"{name}: export says {returned >> 48}, wanted {cause}")
    return told(compare(calls, found))


# ---- Export, then import

def trips(sheets):
    """For each sheet the one that importing its export gives, or None where import says 15, or 13 to what form 1 does not hold."""
    room = [MOST_GRAPH_BYTES if reading.Sheet(data).n > 512 else MOST_NARROW_GRAPH_BYTES if reading.Sheet(data).n > 60 else 20_000 for data in sheets]
    exports = [DeskCall(EXPORT, [data], [bytes(most), bytes(MOST_COUNT_BYTES)]) for data, most in zip(sheets, room)]
    imports = []
    for returned, _, (graph, counts) in native.desk_answers(driver(), exports):
        need(returned >> 48 == 0, f"export refuses an accepted sheet with {returned >> 48}")
        imports.append(DeskCall(IMPORT, [graph[:returned % 2**32], counts[:(returned >> 32) % 2**16]], [bytes(desk_samples.ENOUGH_SHEET_BYTES)]))
    for before, (returned, _, (data,)) in zip(sheets, native.desk_answers(driver(), imports)):
        held = reading.Sheet(before).k <= 64 and reading.Sheet(before).n <= 512
        need(returned >> 32 in ((0, 15) if held else (13,)), f"import refuses an exported pair with {returned >> 32}")
        yield data[:returned % 2**32] if returned >> 32 == 0 else None


@test("export then import: verdict and nodes stay, under choices 0 and 1 and every filter")
def _(args):
    rng = random.Random(args.seed + 14)
    sheets = [path.read_bytes() for path in sorted(EXAMPLES.glob("*.sheet"))] + [encode(sheet) for sheet in samples.telling_sheets()]
    sheets += [data for _, data in samples.limit_sheets() if reading.refusal(data) == 0]
    sheets += [encode(samples.wide_sheet(rng) if rng.random() < 0.1 else samples.random_sheet(rng)) for _ in range(max(args.cases // 10, 50))]
    firsts, seconds = [], []
    pairs = [(data, back) for start in range(0, len(sheets), 50) for data, back in zip(sheets[start:start + 50], trips(sheets[start:start + 50])) if back]
    for data, back in pairs:
        need(reading.refusal(back) == 0 and reading.Sheet(back).graph() == reading.Sheet(data).graph(), "the imported sheet has another graph")
        limit = rng.choice((1, 3, 10, 1000)) if reading.Sheet(data).n > 60 or rng.random() < 0.3 else 1_000_000
        for filters in range(8):
            for choice in range(2):
                firsts.append(air_samples.plan_call(rng, data, b"", filters, choice, limit))
                seconds.append(air_samples.plan_call(rng, back, b"", filters, choice, limit))
    seen = Counter()
    for call, (first, _, _), (second, _, _) in zip(firsts, native.desk_answers(driver(), firsts), native.desk_answers(driver(), seconds)):
        need(first == second, f"{first >> 32} in {first % 2**32} nodes, then {second >> 32} in {second % 2**32}: {str(call)[:400]}")
        seen[first >> 32, call.read[0][0]] += 1
    verdicts = [(number, form) for number in (reading.FOUND, reading.NONE, reading.STOPPED) for form in (1, 2, 3)]
    need(all(seen[one] for one in verdicts), f"not every verdict arose in every form: {dict(seen)}")
    return f"{len(pairs)} of {len(sheets)} sheets imported, {len(firsts):,} runs twice"


# ---- Channels on air

def compare_named(named):
    """Holds named calls to the number that is wanted of each, and to the reading."""
    named = list(named)
    calls = [call for _, _, call in named]
    found = native.desk_answers(driver(), calls)
    for (name, number, call), (returned, _, _) in zip(named, found):
        need(returned == number, f"{name}: returned {returned:#x}, wanted {number:#x}: {str(call)[:400]}")
    return compare(calls, found)


@test("plan and check with channels against the reading: random and damaged sheets and lists")
def _(args):
    rng, seen = random.Random(args.seed + 16), Counter()
    for _ in range(0, args.cases, 500):
        calls = [air_samples.random_job_call(rng) for _ in range(500)]
        seen += compare(calls, native.desk_answers(driver(), calls))
    numbers = [("plan", n) for n in (*range(1, 11), 12, 16, 17, 100, 101, 102)] + [("check", n) for n in (0, 10, 16, 17, 100)]
    missing = [number for number in numbers if not seen[number]]
    need(not missing, f"no call gave {missing}")
    return told(seen)


@test("plan and check with channels: the edges of all 28 channels")
def _(args):
    return told(compare_named(air_samples.edge_calls(random.Random(args.seed + 17))))


@test("plan and check with channels: 17 in its place, for every list out of range or order")
def _(args):
    return told(compare_named(air_samples.order_calls(random.Random(args.seed + 18))))


@test("plan with channels: links and classes left empty, classes of struck vertices")
def _(args):
    seen = compare_named(air_samples.empty_calls(random.Random(args.seed + 19)))
    job = reading.Job(encode(air_samples.CROWDED), b"\x16")
    classes = reading.greedy(job, job.graph())
    need({classes[v] for v in range(7)} == {0, 1, 2}, f"the greedy classes of the sheet with a link left empty: {classes}")
    return told(seen)


@test("plan with channels: sheets on which a slip shows, moved over a channel edge, limits around the tree's size")
def _(args):
    calls = list(air_samples.telling_job_calls(random.Random(args.seed + 21)))
    return told(compare(calls, native.desk_answers(driver(), calls)))


@test("plan and check with channels: sheets at their limits")
def _(args):
    calls = list(air_samples.limit_job_calls(random.Random(args.seed + 22)))
    return told(compare(calls, native.desk_answers(driver(), calls)))


@test("an empty list is no list: the desk's two calls answer as the console's, but for planning form 3, which only the desk does")
def _(args):
    rng = random.Random(args.seed + 23)
    console = native.build("tests/driver.c", "driver", ["-O2"])
    calls = [samples.random_call(rng, air_samples.air_sheet(rng) if rng.random() < 0.5 else None) for _ in range(max(args.cases // 2, 200))]
    calls += [*samples.limit_calls(), *list(samples.telling_calls())[::5]]
    jobs = [air_samples.with_channels(rng, call, b"") for call in calls]
    festivals = 0
    for call, (first, _, cells), (second, changed, after) in zip(calls, native.answers(console, calls), native.desk_answers(driver(), jobs)):
        if call.filters is not None and reading.console_refuses(call.sheet):
            need(first == 3 << 32 and not any(cells) and not changed, f"the console returns {first:#x} to form 3: {str(call)[:400]}")
            festivals += second >> 32 >= 100
            continue
        need(first == second and not changed and after in ([], [cells]), f"the console returns {first:#x}, the desk {second:#x}: {str(call)[:400]}")
    need(festivals, "no sheet of form 3 was planned by the desk")
    return f"{len(calls):,} calls twice, {festivals} of form 3 planned by the desk alone"


# ---- Under memory checkers

def checked_calls(args):
    """Random calls, every fault, and one of each larger kind."""
    rng = random.Random(args.seed + 15)
    calls = [call for _ in range(100) for call in desk_samples.random_calls(rng)]
    calls += [call for _, _, call in desk_samples.fault_calls(rng)][::3]
    calls += [call for _, _, call in desk_samples.graph_calls(rng, desk_samples.limit_graphs())][::2]
    calls += [call for _, _, call in desk_samples.graph_calls(rng, list(desk_samples.bench_graphs(rng))[2:3])]
    calls += [air_samples.random_job_call(rng) for _ in range(150)] + list(air_samples.limit_job_calls(rng))[::9]
    calls += [call for _, _, call in [*air_samples.edge_calls(rng), *air_samples.order_calls(rng), *air_samples.empty_calls(rng)]][::5]
    calls += [spare_samples.random_spares_call(rng) for _ in range(150)] + list(spare_samples.limit_spares_calls(rng))[::5]
    calls += [call for *_, call in [*spare_samples.length_calls(rng), *spare_samples.order_calls(rng), *spare_samples.known_calls(rng)]][::9]
    calls += [DeskCall(HEAVIEST, [], [b"\xee" * room], (k, m, 0)) for k, m in ((1, 1), (3, 2), (2, 256), (64, 8), (64, 2**26))
              for room in (desk_samples.ENOUGH_SHEET_BYTES, desk_samples.ENOUGH_SHEET_BYTES - 1, 0)]
    calls += [count_samples.random_count_call(rng) for _ in range(150)] + list(count_samples.limit_count_calls(rng))[::9]
    calls += [call for *_, call in [*count_samples.length_calls(rng), *count_samples.order_calls(rng), *count_samples.known_calls(rng)]][::9]
    return calls + list(desk_samples.limit_exports(rng))[::4]


@test("the desk's calls: no complaint of valgrind")
def _(args):
    calls = checked_calls(args)
    return told(compare(calls, native.desk_answers(driver("desk-driver-valgrind", ["-g"]), calls, native.valgrind)))


@test("the desk's calls: no complaint of the address and behaviour sanitizers")
def _(args):
    calls = checked_calls(args)
    return told(compare(calls, native.desk_answers(driver("desk-driver-sanitized", [*SANITIZE, "-DGUARD=64"]), calls)))
