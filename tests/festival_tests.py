"""Tests of form 3 in the libraries and in the reading: its limits, what the console refuses, every call of the desk, and that a run of form 2 stays
the same in form 3."""

import random
import struct
from collections import Counter

import count_samples
import festival_samples
import native
import reading
import samples
from air_samples import any_channels, check_call, good_channels, plan_call
from count_samples import ENOUGH_COUNT_BYTES, count_call
from desk_samples import MOST_COUNT_BYTES, MOST_GRAPH_BYTES, export_call
from desk_tests import compare, compare_named, driver, told
from festival_samples import as_festival
from harness import need, printed_by_program, test
from jobsheet.binary import Sheet, encode
from library_tests import compare as compare_console
from library_tests import header_number
from native import SANITIZE
from spare_samples import LEAST, MOST, MOST_TABLE_BYTES, spares_call


# ---- The reading itself

@test("the reading of form 3: each limit, one past it, and each fault in its place")
def _(_):
    sheets = list(festival_samples.limit_sheets())
    for name, cause, data in sheets:
        need(reading.refusal(data) == cause, f"{name}: {reading.refusal(data)}, wanted {cause}")
    need(max(len(data) for _, cause, data in sheets if cause == 0) == festival_samples.SHEET_BYTES, "the length of the largest sheet")
    return f"{len(sheets)} sheets"


@test("the reading: a run of form 2 stays the same in form 3, answer, nodes, cells, counts and texts")
def _(args):
    rng, seen = random.Random(args.seed + 70), Counter()
    for _ in range(max(args.cases // 5, 200)):
        sheet, data = festival_samples.form_2_sheet(rng)
        setting = rng.randrange(8), rng.choice((0, 0, 1)), rng.choice((1, 3, 20, 1_000))
        room = 4 * len(sheet.links), 8 * sheet.frequencies()
        first, second = (reading.count_job(one, b"", *setting, b"", *room) for one in (data, as_festival(data)))
        need(first == second, f"{first[0]:#x}, then {second[0]:#x}: {sheet}")
        need(reading.texts_of(reading.Sheet(data)) == reading.texts_of(reading.Sheet(as_festival(data))), f"another graph: {sheet}")
        seen[first[0] >> 32] += 1
    need(all(seen[number] for number in (reading.FOUND, reading.NONE, reading.STOPPED)), f"{dict(seen)}")
    return f"{sum(seen.values()):,} runs twice"


# ---- The headers

@test("the headers' limits of form 3 are those of the largest sheet, texts, table and counts")
def _(_):
    links, frequencies, sheet_bytes = festival_samples.LINKS, festival_samples.FREQUENCIES, festival_samples.SHEET_BYTES
    wanted = {"guvtemi.h": {"MOST_CHECK_LINKS": links, "MOST_CHECK_SHEET_BYTES": sheet_bytes},
              "guvtemi_desk.h": {"MOST_JOB_LINKS": links, "MOST_JOB_FREQUENCIES": frequencies, "MOST_JOB_SHEET_BYTES": sheet_bytes,
                                 "MOST_GRAPH_BYTES": MOST_GRAPH_BYTES, "MOST_COUNT_BYTES": MOST_COUNT_BYTES, "MOST_TABLE_BYTES": MOST_TABLE_BYTES,
                                 "ENOUGH_PLAN_COUNT_BYTES": ENOUGH_COUNT_BYTES}}
    for header, numbers in wanted.items():
        for name, number in numbers.items():
            found = header_number(header, f"GUVTEMI_{name}")
            need(found == number, f"{name} is {found}, wanted {number}")
    sizes = [tuple(map(len, reading.texts_of(reading.Sheet(encode(Sheet(count_samples.all_different(counts), [], [1] * 128))))))
             for counts in (festival_samples.LONGEST_GRAPH, festival_samples.LONGEST_COUNTS)]
    need((sizes[0][0], sizes[1][1]) == (MOST_GRAPH_BYTES, MOST_COUNT_BYTES), f"the longest texts: {sizes}")


# ---- The console

@test("the console's planning call and the program answer 3 to every form 3 sheet that passes 1 and 2, whatever follows; the check takes it")
def _(args):
    console = native.build("tests/driver.c", "driver", ["-O2"])
    sheets = list(festival_samples.refused_by_console(args.seed + 71))
    good = encode(Sheet(samples.NARROW.links, samples.NARROW.rules, samples.NARROW.widths, True))
    calls = [samples.Call(data, 7, 0, 1_000, b"", b"\xee" * 512) for _, data in sheets]
    for filters, choice, limit, room in ((8, 0, 1, 8), (0, 3, 1, 8), (0, 0, 0, 8), (0, 0, 1, 7), (0, 2, 1, 8), (7, 0, 1, 0)):
        calls.append(samples.Call(good, filters, choice, limit, b"", b"\xee" * room))
    found = native.answers(console, calls)
    for call, (returned, _, cells) in zip(calls, found):
        need(returned == 3 << 32 and not any(cells), f"returned {returned:#x}: {str(call)[:300]}")
    compare_console(calls, found)
    for name, data in sheets[::3]:
        need(printed_by_program(data) == "refused 3\n", f"{name}: the program says {printed_by_program(data)!r}")
    for name, cause, data in (("no link", 2, changed_links(good, 0)), ("129 links", 2, changed_links(good, 129)), ("39 bytes", 1, good[:39]),
                              ("8 bytes", 1, good[:8])):
        (returned, _, _), (checked, _, _) = native.answers(console, [samples.Call(data, 7, 0, 1, b"", bytes(8)), samples.Call(data, cells=bytes(8))])
        need((returned >> 32, checked) == (cause, cause), f"{name}: planning {returned:#x}, the check {checked}")
        need(printed_by_program(data) == f"refused {cause}\n", f"{name}: the program says {printed_by_program(data)!r}")
    checks = [samples.Call(*call.read[:1], cells=call.read[2]) for call in festival_samples.check_calls(random.Random(args.seed + 72))
              if not call.written and not call.read[1]]
    seen = compare_console(checks, native.answers(console, checks))
    need(all(seen[f"check {number}"] for number in (0, 10)), f"{dict(seen)}")
    plan = struct.pack("<2I", 500_400, 500_000)
    (checked, _, _), = native.answers(console, [samples.Call(good, cells=plan)])
    need(checked == reading.YES, f"the check says {checked} to a plan")
    return f"{len(calls)} plans, {len(checks)} checks"


def changed_links(data, k):
    return samples.changed(data, ("I", 4, k))


# ---- The desk

@test("planning and counting of form 3 against the reading: sheets at its limits and large ones")
def _(args):
    calls = list(festival_samples.plan_calls(random.Random(args.seed + 73)))
    seen = compare(calls, native.desk_answers(driver(), calls))
    wanted = [(name, number) for name in ("plan", "count") for number in (2, 3, 4, 5, 6, 7, 8, 12, 16, 17, 100, 101, 102)]
    need(all(seen[one] for one in wanted), f"no call gave {[one for one in wanted if not seen[one]]}")
    return told(seen)


@test("planning and counting of form 3: large jobs with known answers, the lengths of cells, counts and classes")
def _(args):
    named = list(festival_samples.known_calls(random.Random(args.seed + 74)))
    return told(compare_named(named))


@test("check and spares of form 3 against the reading: sheets at its limits and large ones, 128 links at the ends of the range")
def _(args):
    calls = list(festival_samples.check_calls(random.Random(args.seed + 75)))
    found = native.desk_answers(driver(), calls)
    numbers = {number for _, _, after in found for table in after for number, in struct.iter_unpack("<i", table[:len(table) // 4 * 4])}
    need((min(numbers), max(numbers)) == (LEAST, MOST), f"from {min(numbers)} to {max(numbers)}")
    return told(compare(calls, found))


@test("export of form 3 against the reading: sheets at its limits, the longest texts; import refuses such texts with 13")
def _(args):
    rng = random.Random(args.seed + 76)
    calls, lengths, seen = list(festival_samples.export_calls(rng)), [], Counter()
    for start in range(0, len(calls), 10):
        found = native.desk_answers(driver(), calls[start:start + 10])
        lengths += [(returned % 2**32, (returned >> 32) % 2**16) for returned, _, _ in found]
        seen += compare(calls[start:start + 10], found)
    longest = max(graph for graph, _ in lengths), max(counts for _, counts in lengths)
    need(longest == (MOST_GRAPH_BYTES, MOST_COUNT_BYTES), f"the longest texts: {longest}")
    imports = list(festival_samples.import_calls(rng))
    found = native.desk_answers(driver(), imports)
    need(all(returned == 13 << 32 for returned, _, _ in found), f"{[hex(returned) for returned, _, _ in found]}")
    return told(seen + compare(imports, found))


@test("a run of form 2 stays the same in form 3: answer, nodes, cells, counts, check, spare spacing and texts of the desk's calls")
def _(args):
    rng, seen = random.Random(args.seed + 77), Counter()
    for _ in range(0, args.cases, 250):
        pairs = []
        for _ in range(250):
            sheet, data = festival_samples.form_2_sheet(rng)
            channels = good_channels(rng, sheet) if rng.random() < 0.7 else any_channels(rng, sheet)
            choice = rng.randrange(3)
            setting = rng.randrange(8), choice, rng.choice((1, 3, 20, 1_000)), samples.classes_for(rng, sheet, b"") if choice == 2 else b""
            khz, links = samples.check_cells(rng, sheet), len(sheet.links)
            cells = struct.pack(f"<{links}I", *khz)
            makers = (lambda one: plan_call(rng, one, channels, *setting, 4 * links + 2), lambda one: count_call(rng, one, channels, *setting),
                      lambda one: check_call(one, channels, cells), lambda one: spares_call(rng, one, channels, cells, 4 * links * links + 1),
                      lambda one: export_call(rng, one, 20_000, 177))
            make = rng.choice(makers)
            pairs.append((make(data), make(as_festival(data))))
        first, second = (native.desk_answers(driver(), calls) for calls in zip(*pairs))
        for (call, _), (number, changed, after), other in zip(pairs, first, second):
            need((number, changed, after) == other, f"{number:#x}, then {other[0]:#x} with form 3: {str(call)[:400]}")
        seen += compare([call for call, _ in pairs], first)
    wanted = [*(("plan", number) for number in (12, 17, 100, 101, 102)), *(("count", number) for number in (12, 100, 101, 102)),
              ("check", 0), ("check", 100), ("spares", 0), ("spares", 100), ("export", 0)]
    need(all(seen[one] for one in wanted), f"no call gave {[one for one in wanted if not seen[one]]}")
    return told(seen)


# ---- Under memory checkers

def checked_calls(args):
    """Some calls of each kind."""
    rng = random.Random(args.seed + 78)
    calls = list(festival_samples.plan_calls(rng))[::5] + list(festival_samples.check_calls(rng))[::5]
    calls += [call for *_, call in festival_samples.known_calls(rng)][::3]
    return calls + list(festival_samples.export_calls(rng))[::9] + list(festival_samples.import_calls(rng))[::4]


@test("the desk's calls on form 3: no complaint of valgrind")
def _(args):
    calls = checked_calls(args)
    return told(compare(calls, native.desk_answers(driver("desk-driver-valgrind", ["-g"]), calls, native.valgrind)))


@test("the desk's calls on form 3: no complaint of the address and behaviour sanitizers")
def _(args):
    calls = checked_calls(args)
    return told(compare(calls, native.desk_answers(driver("desk-driver-sanitized", [*SANITIZE, "-DGUARD=64"]), calls)))
