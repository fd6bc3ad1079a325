"""Inputs of form 3 beyond what forms 1 and 2 hold: sheets at its limits and one past them, large random sheets, calls of every function on them.
Small sheets of form 3 come from samples.py with those of the other forms."""

import random
import struct

import reading
import samples
from air_samples import check_call, plan_call
from count_samples import ENOUGH_COUNT_BYTES, count_call
from desk_samples import ENOUGH_SHEET_BYTES, MOST_COUNT_BYTES, MOST_GRAPH_BYTES, all_different, export_call, import_call, joined, texts
from jobsheet.binary import EXACT, LISTED, SPACING, Rule, Sheet, encode
from samples import changed
from spare_samples import MOST_TABLE_BYTES, spares_call

LINKS, FREQUENCIES, RULES, PAIRS, SHEET_BYTES = 128, 1_024, 2_016, 8_192, 62_120
EVERY = [(a, b) for a in range(LINKS) for b in range(a + 1, LINKS)]
SPREAD = EVERY[::4][:RULES]  # so many pairs of links, from all over the sheet
EIGHTS = [[500_000 + 400 * (8 * link + place) for place in range(8)] for link in range(LINKS)]
WIDTHS = [(200, 1, 399, 800)[link % 4] for link in range(LINKS)]
HALVES = [list(range(1, 513)), list(range(257, 769))]
LAYERS = bytes(link for link in range(LINKS) for _ in range(8))
# Counts of the longest texts.
LONGEST_GRAPH, LONGEST_COUNTS = [10] + [8] * 8 + [9] * 2 + [8] * 113 + [7] * 4, [10] * 99 + [1] * 29


def fullest():
    """The largest sheet: as many links, frequencies, rules and pairs as there can be."""
    rules = [Rule(a, b, LISTED, 0, [(place, place) for place in range(5 if number < 128 else 4)]) for number, (a, b) in enumerate(SPREAD)]
    return Sheet(EIGHTS, rules, [1, 20_000] * 64)


def limit_sheets():
    """Sheets at each limit of form 3, one past it, and large ones with a fault at their end: (name, cause, 0 where there is none, bytes)."""
    whole = encode(Sheet(EIGHTS, [Rule(a, b, SPACING, 400) for a, b in SPREAD], WIDTHS))
    largest = encode(fullest())
    shared = [sorted(500_000 + 25 * ((7 * link + 3 * place) % 200) for place in range(8)) for link in range(LINKS)]
    pairs = [(p, q) for p in range(512) for q in range(512)]
    at_rules, at_pairs = struct.unpack_from("<2I", largest, 28)
    yield "128 links, 1,024 frequencies, 2,016 rules", 0, whole
    yield "the largest sheet", 0, largest
    yield "65 links", 0, encode(Sheet([[khz] for khz in range(1, 66)], [], [1] * 65))
    yield "513 frequencies", 0, encode(Sheet([list(range(1, 514))], [], [1]))
    yield "128 links of one frequency", 0, encode(Sheet([[9_999_872 + link] for link in range(LINKS)], [], [20_000] * LINKS))
    yield "128 links on one frequency, no rule", 0, encode(Sheet([[9_999_999]] * LINKS, [], [1] * LINKS))
    yield "128 links of 8 of the same 200 frequencies, no rule", 0, encode(Sheet(shared, [], WIDTHS))
    yield "1,024 frequencies of one link", 0, encode(Sheet([list(range(1, 1_025))], [], [200]))
    yield "two links of 512 frequencies, half of them the same, no rule", 0, encode(Sheet(HALVES, [], [1, 1]))
    yield "1,023 frequencies and 1", 0, encode(Sheet([list(range(1, 1_024)), [512]], [Rule(0, 1, SPACING, 500)], [1, 2]))
    yield "8,192 pairs in one rule", 0, encode(Sheet(HALVES, [Rule(0, 1, LISTED, 0, pairs[::32])], [1, 1]))
    yield "129 links", 2, encode(Sheet([[khz] for khz in range(1, 130)], [], [1] * 129))
    yield "129 links and 1,025 frequencies", 2, encode(Sheet([*EIGHTS, [1]], [], [1] * 129))
    yield "1,025 frequencies", 3, encode(Sheet([*EIGHTS[:-1], [1, *EIGHTS[-1]]], [], WIDTHS))
    yield "1,025 frequencies of one link", 3, encode(Sheet([list(range(1, 1_026))], [], [200]))
    yield "2,017 rules", 3, encode(Sheet(EIGHTS, [Rule(a, b, SPACING, 1) for a, b in EVERY[:RULES + 1]], WIDTHS))
    yield "every two of 128 links ruled", 3, encode(Sheet(EIGHTS, [Rule(a, b, SPACING, 1) for a, b in EVERY], WIDTHS))
    yield "8,193 pairs", 3, encode(Sheet(HALVES, [Rule(0, 1, LISTED, 0, pairs[:PAIRS + 1])], [1, 1]))
    for form, links, frequencies in ((1, 2, 3), (2, 2, 3)):
        yield f"128 links with form {form} in the header", links, changed(whole, ("I", 0, form))
        yield f"1,024 frequencies with form {form} in the header", frequencies, changed(encode(Sheet(HALVES, [], [1, 1])), ("I", 0, form))
    yield "the offsets of rows of 4 bytes", 4, changed(whole, ("I", 24, 40 + 4 * LINKS))
    yield "the last byte missing", 4, largest[:-1]
    yield "a byte more than the largest sheet", 4, largest + b"\0"
    yield "the last link row, first frequency", 5, changed(largest, ("H", 40 + 8 * 127, 1_015))
    yield "the last link row, count", 5, changed(largest, ("H", 40 + 8 * 127 + 2, 9))
    yield "link row 64, first frequency as if counted from link 64", 5, changed(largest, ("H", 40 + 8 * 64, 0))
    yield "the last width", 16, changed(largest, ("I", 40 + 8 * 127 + 4, 20_001))
    yield "the width of link 64", 16, changed(largest, ("I", 40 + 8 * 64 + 4, 0))
    yield "16 before 6: the last width and frequency", 16, changed(largest, ("I", 40 + 8 * 127 + 4, 0), ("I", at_rules - 4, 0))
    yield "the last frequency", 6, changed(largest, ("I", at_rules - 4, 10_000_000))
    yield "frequency 513 not rising", 6, changed(largest, ("I", 40 + 8 * LINKS + 4 * 513, 1))
    yield "the last rule, link b is 128", 7, changed(largest, ("H", at_pairs - 12 + 2, 128))
    yield "the last rule, its pairs", 7, changed(largest, ("I", at_pairs - 4, 0))
    yield "the last pair", 8, changed(largest, ("H", len(largest) - 2, 8))


def accepted_sheets():
    return [(name, data) for name, cause, data in limit_sheets() if cause == 0]


def large_sheet(rng):
    """A sheet that forms 1 and 2 do not hold, with rules of every kind between some of its links."""
    count = rng.choice((1, 3, 20, 65, 80, 128))
    sizes = [1] * count
    for _ in range(rng.randint(513, FREQUENCIES) - count if count < 65 else rng.choice((0, 60, 400, FREQUENCIES - count))):
        sizes[rng.randrange(count)] += 1
    low, step = rng.choice((1, 470_000, 9_900_000)), rng.choice((1, 25))
    links = [sorted(rng.sample(range(low, low + 1_400 * step, step), size)) for size in sizes]
    pairs_left, rules = PAIRS, []
    ruled = [(a, b) for a in range(count) for b in range(a + 1, count)]
    for a, b in sorted(rng.sample(ruled, min(len(ruled), rng.choice((5, 200, RULES))))):
        kind = rng.choice((SPACING, SPACING, SPACING, EXACT, LISTED))
        every = sizes[a] * sizes[b]
        if kind != LISTED:
            rules.append(Rule(a, b, kind, rng.choice((1, 5, 25, 400) if kind == SPACING else (25, 50))))
        elif pairs_left:
            chosen = sorted(rng.sample(range(every), min(every, pairs_left, rng.randint(1, every))))
            pairs_left -= len(chosen)
            rules.append(Rule(a, b, LISTED, 0, [divmod(place, sizes[b]) for place in chosen]))
    return Sheet(links, rules, [rng.choice((1, 25, 200)) for _ in links])


# ---- Calls of the desk

def plan_calls(rng):
    """Planning and counting of sheets at the limits and large ones, with few nodes: the reading is slow."""
    for _, cause, data in limit_sheets():
        settings = ((7, 0, 2),) if cause else ((0, 0, 150), (7, 0, 2), (3, 1, 130), (5, 2, 2))
        for filters, choice, limit in settings:
            classes = rng.choice((LAYERS, LAYERS[:-1], LAYERS + b"\0", LAYERS[:-1] + b"\x80", bytes(FREQUENCIES))) if choice == 2 else b""
            channels = rng.choice((b"", b"", b"\x18", b"\x14"))
            yield plan_call(rng, data, channels, filters, choice, limit, classes, rng.choice((512, 512, 515)))
            yield count_call(rng, data, channels, filters, choice, limit, classes, 512, rng.choice((ENOUGH_COUNT_BYTES, ENOUGH_COUNT_BYTES + 9)))
    for _ in range(12):
        data = encode(large_sheet(rng))
        yield plan_call(rng, data, rng.choice((b"", b"\x15")), rng.randrange(8), rng.randrange(2), rng.choice((1, 3, 10)))
        yield count_call(rng, data, b"", rng.randrange(8), 0, rng.choice((1, 3, 10)))


def known_calls(rng):
    """Large jobs whose answer is known, at limits around the tree's size, with just enough room and too little: (name, number, call)."""
    found, stopped = 100 << 32, 102 << 32
    singles, one = encode(Sheet(all_different([1] * LINKS), [], [1] * LINKS)), encode(Sheet(all_different([FREQUENCIES]), [], [1]))
    crowd, eights = encode(Sheet([[7]] * LINKS, [], [1] * LINKS)), encode(Sheet(all_different([8] * LINKS), [], WIDTHS))
    for filters in (0, 7):
        for limit in (128, 129, 130):
            number = found + 129 if limit >= 129 else stopped + limit
            yield f"128 links of one frequency, limit {limit}", number, plan_call(rng, singles, b"", filters, 0, limit)
            yield f"their plan counted, limit {limit}", number, count_call(rng, singles, b"", filters, 0, limit)
        yield "1,024 frequencies, planned", found + 2, plan_call(rng, one, b"", filters, 0, 2)
        yield "1,024 frequencies, counted", found + 1_025, count_call(rng, one, b"", filters, 0, 1_025)
        yield "1,024 frequencies, counted with one node less", stopped + 1_024, count_call(rng, one, b"", filters, 0, 1_024)
        yield "128 x 8 free", found + 129, plan_call(rng, eights, b"", filters & 1, 0, 129)
        yield "128 x 8 free, the caller's layers", found + 129, plan_call(rng, eights, b"", filters & 1, 2, 129, LAYERS)
    yield "one frequency for 128 links, pre-filter", 101 << 32, plan_call(rng, crowd, b"", 1)
    yield "one frequency for 128 links, no filter", (101 << 32) + 2, plan_call(rng, crowd, b"", 0)
    for name, listed in (("1,023 classes", LAYERS[:-1]), ("1,025 classes", LAYERS + b"\0"), ("class 128", LAYERS[:-1] + b"\x80"),
                         ("no class", b""), ("one class", bytes(FREQUENCIES)), ("512 classes", LAYERS[:512])):
        yield f"12: {name}", 12 << 32, plan_call(rng, eights, b"", 0, 2, 129, listed)
    for room, number in ((512, found + 129), (515, found + 129), (511, 10 << 32), (256, 10 << 32), (0, 10 << 32)):
        yield f"{room} bytes for the cells of 128 links", number, plan_call(rng, eights, b"", 0, cells_len=room)
    for room, number in ((8_192, found + 1_025), (8_191, 19 << 32), (4_096, 19 << 32), (0, 19 << 32)):
        yield f"{room} bytes for the counts of 1,024 frequencies", number, count_call(rng, one, b"", 0, counts_len=room)


def check_calls(rng):
    """Checks and spare spacing of the sheets at the limits and of large ones: the first, the last and any frequencies of the lists."""
    sheets = [data for _, _, data in limit_sheets()] + [encode(large_sheet(rng)) for _ in range(12)]
    for data in sheets:
        accepted = reading.refusal(data) == 0
        sheet = reading.Sheet(data) if accepted else None
        lists = [sheet.khz[first:first + count] for first, count in sheet.rows] if accepted else [[1]] * LINKS
        for place in (0, -1, None):
            cells = b"".join(struct.pack("<I", rng.choice(listed) if place is None else listed[place]) for listed in lists)
            cells = rng.choice((cells, cells, cells + b"\1\2\3", cells[:-1]))
            channels = rng.choice((b"", b"", b"\x18", b"\x31"))
            yield check_call(data, channels, cells)
            yield spares_call(rng, data, channels, cells, rng.choice((MOST_TABLE_BYTES, 4 * len(lists) ** 2, 4 * len(lists) ** 2 - 1)))
    ends, widest = [[1, 9_999_999]] * LINKS, [20_000] * LINKS
    for rules in ([], [Rule(a, b, SPACING, 9_999_999) for a, b in SPREAD], [Rule(a, b, EXACT, 1 + 9_999_998 * (b % 2)) for a, b in SPREAD]):
        for khz in ((1, 1), (9_999_999, 1)):
            yield spares_call(rng, encode(Sheet(ends, rules, widest)), b"", struct.pack("<128I", *khz * 64), MOST_TABLE_BYTES)


def export_calls(rng):
    """Exports of the sheets at the limits, of the longest texts and of large sheets: room enough, just enough and one byte less."""
    sheets = [data for _, data in accepted_sheets()] + [encode(large_sheet(rng)) for _ in range(4)]
    sheets += [encode(Sheet(all_different(sizes), [], [1] * LINKS)) for sizes in (LONGEST_GRAPH, LONGEST_COUNTS)]
    for data in sheets:
        graph, counts = map(len, reading.texts_of(reading.Sheet(data)))
        for room in ((graph, counts), rng.choice(((graph - 1, counts), (graph, counts - 1), (0, counts), (MOST_GRAPH_BYTES, MOST_COUNT_BYTES)))):
            yield export_call(rng, data, *room)
    for _, cause, data in limit_sheets():
        if cause:
            yield export_call(rng, data, 1_000, MOST_COUNT_BYTES)


def import_calls(rng):
    """Texts beyond 64 links or 512 frequencies, which only form 3 would hold: import refuses them with 13."""
    for sizes in ([1] * 65, [1] * 128, [8] * 128, [513], [256, 257], [1_024], [512, 512], [1] * 129, [1_025]):
        for edges in ([], joined(sizes)[:3]):
            yield import_call(rng, *texts(sizes, edges), ENOUGH_SHEET_BYTES)


# ---- Form 2 as form 3

def as_festival(data):
    """The bytes of a sheet with form 3 in the header."""
    return changed(data, ("I", 0, 3))


def form_2_sheet(rng):
    """The bytes of a sheet that is accepted in form 2."""
    sheet = samples.wide_sheet(rng) if rng.random() < 0.02 else samples.random_sheet(rng)
    sheet.widths = sheet.widths or [rng.choice((1, 2, 5, 200)) for _ in sheet.links]
    sheet.festival = False
    return sheet, encode(sheet)


def refused_by_console(seed):
    """Bytes of form 3 that pass causes 1 and 2, whatever follows: (name, bytes)."""
    rng = random.Random(seed)
    for k in (1, 2, 63, 64, 65, 127, 128):
        head = struct.pack("<2I", 3, k)
        yield f"{k} links, zeros", head + bytes(32)
        yield f"{k} links, ones", head + b"\xff" * 32
        yield f"{k} links, 40 bytes of noise", head + bytes(rng.randrange(256) for _ in range(32))
        yield f"{k} links, much noise", head + bytes(rng.randrange(256) for _ in range(rng.randint(33, 3_000)))
    yield from ((name, data) for name, _, data in limit_sheets() if data[0] == 3 and struct.unpack_from("<I", data, 4)[0] <= LINKS)
    yield from ((name, data) for name, cause, data in samples.form_sheets() if data[:4] == b"\3\0\0\0" and cause not in (1, 2))
