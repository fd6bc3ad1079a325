"""Inputs for the tests: random sheets, sheets at their limits, damaged sheets, and calls of the console library."""

import random
import struct
from dataclasses import dataclass

import reading
from jobsheet.binary import EXACT, LISTED, SPACING, Rule, Sheet, encode

M1 = Sheet([[500_000, 500_400], [500_000, 500_300]], [Rule(0, 1, SPACING, 400)])
UNRULED = Sheet([[500_000], [500_000]], [])  # the rule-less sheet of the scope: no plan
# Document 000, Example 1 and Example 3.
EXAMPLE_1 = Sheet([[1, 3, 5], [1, 2, 3], [5, 6], [1, 2, 3]],
                  [Rule(0, 1, LISTED, 0, [(0, 0), (0, 1), (1, 2), (2, 2)]), Rule(0, 2, LISTED, 0, [(0, 0), (1, 1)]), Rule(0, 3, LISTED, 0, [(0, 0)]),
                   Rule(1, 2, LISTED, 0, [(0, 0), (1, 0), (1, 1), (2, 1)]), Rule(1, 3, LISTED, 0, [(0, 0)]),
                   Rule(2, 3, LISTED, 0, [(0, 0), (1, 1), (1, 2)])])
EXAMPLE_3 = Sheet([[1, 2], [1, 2, 3], [1]],
                  [Rule(0, 1, LISTED, 0, [(0, 0), (1, 0), (1, 1), (1, 2)]), Rule(0, 2, LISTED, 0, [(0, 0)]), Rule(1, 2, LISTED, 0, [(1, 0)])])
EDGES = (0, 1, 2, 3, 4, 39, 40, 63, 64, 65, 127, 128, 129, 255, 256, 511, 512, 513, 1023, 1024, 1025, 2016, 2017, 8192, 8193, 32767, 32768, 65535)
WIDE_EDGES = EDGES + (20_000, 20_001, 65536, 9_999_999, 10_000_000, 2**31 - 1, 2**31, 2**32 - 1)


def random_sheet(rng, most_links=6, most_frequencies=5):
    """A small sheet with rules of every kind and close frequencies; links without a rule often share some of theirs."""
    top, unruled = rng.choice((9, 9, 14, 40)), rng.choice((0.15, 0.15, 0.15, 0.5, 1))
    links = [sorted(rng.sample(range(1, top), rng.randint(1, most_frequencies))) for _ in range(rng.randint(1, most_links))]
    rules = []
    for a in range(len(links)):
        for b in range(a + 1, len(links)):
            kind = 0 if rng.random() < unruled else rng.choice((SPACING, SPACING, EXACT, LISTED, LISTED))
            if kind in (SPACING, EXACT):
                rules.append(Rule(a, b, kind, rng.randint(1, 4)))
            elif kind == LISTED:
                pairs = _random_pairs(rng, links[a], links[b])
                if pairs:
                    rules.append(Rule(a, b, LISTED, 0, pairs))
    return Sheet(links, rules, *random_form(rng, len(links), (1, 2, 3, 5, 5, 9, 20_000)))


def random_form(rng, count, tops):
    """A width for each link, up to one of these tops, or None, so that the sheet is of form 1; and whether one with widths is of form 3."""
    top = rng.choice(tops)
    if rng.random() < 0.4:
        return None, False
    return [rng.choice((rng.randint(1, top), top)) for _ in range(count)], rng.random() < 0.4


def _random_pairs(rng, first, second):
    """Pairs of a kind 3 rule. Those of equal frequencies are listed like others, all, not at all, or alone; now and then all pairs are."""
    unequal, equal = rng.choice(((0.65, 0.65), (0.65, 0.65), (0.65, 1), (0.65, 0), (1, 1), (1, 0), (0, 1)))
    return [(p, q) for p, f in enumerate(first) for q, g in enumerate(second) if rng.random() < (equal if f == g else unequal)]


def wide_sheet(rng):
    """A sheet of any size that is accepted, with frequencies from the whole range; on a raster, links share many."""
    links, raster = [], rng.choice((1, 25))
    left = 512
    for _ in range(rng.randint(1, 64)):
        count = min(rng.choice((1, 1, 2, 3, 8, 20)), left)
        if count == 0:
            break
        low = rng.choice((1, 500_000, 9_999_000))
        links.append(sorted(rng.sample(range(low, min(low + 1000, 10_000_000), raster), count)))
        left -= count
    rules, pairs_left = [], 8192
    for a in range(len(links)):
        for b in range(a + 1, len(links)):
            kind = rng.choice((0, SPACING, SPACING, EXACT, LISTED))
            if kind in (SPACING, EXACT):
                rules.append(Rule(a, b, kind, rng.choice((1, 400, 9_999_999, rng.randint(1, 9_999_999)))))
            elif kind == LISTED:
                pairs = [(p, q) for p in range(len(links[a])) for q in range(len(links[b])) if rng.random() < 0.3][:pairs_left]
                pairs_left -= len(pairs)
                if pairs:
                    rules.append(Rule(a, b, LISTED, 0, pairs))
    return Sheet(links, rules, *random_form(rng, len(links), (1, 25, 200, 20_000)))


def limit_sheets():
    """Sheets at each limit of forms 1 and 2, and one past it: (name, bytes). Those of form 3 are in festival_samples.py."""
    every = [(a, b) for a in range(64) for b in range(a + 1, 64)]
    eights = [[500_000 + 400 * (8 * a + i) for i in range(8)] for a in range(64)]
    half = [list(range(1, 257)), list(range(1000, 1256))]
    widths = [(200, 1, 399, 800)[a % 4] for a in range(64)]
    fullest = [Rule(a, b, LISTED, 0, [(p, p) for p in range(5 if number < 128 else 4)]) for number, (a, b) in enumerate(every)]
    shared = [sorted(500_000 + 25 * ((7 * a + 3 * i) % 40) for i in range(8)) for a in range(64)]
    pairs = [(p, q) for p in range(256) for q in range(256)]
    return [
        ("64 links, 512 frequencies, 2,016 rules", encode(Sheet(eights, [Rule(a, b, SPACING, 400) for a, b in every]))),
        ("2,016 rules of kind 3", encode(Sheet(eights, [Rule(a, b, LISTED, 0, [(p, p) for p in range(4)]) for a, b in every]))),
        ("the largest sheet of form 1", encode(Sheet(eights, fullest))),
        ("the largest sheet of form 2", encode(Sheet(eights, fullest, [1, 20_000] * 32))),
        ("64 links, 512 frequencies, 2,016 rules, form 2", encode(Sheet(eights, [Rule(a, b, SPACING, 400) for a, b in every], widths))),
        ("8,192 pairs in one rule", encode(Sheet(half, [Rule(0, 1, LISTED, 0, pairs[::8])]))),
        ("8,193 pairs", encode(Sheet(half, [Rule(0, 1, LISTED, 0, pairs[:8193])]))),
        ("512 frequencies of one link", encode(Sheet([list(range(1, 513))], []))),
        ("513 frequencies", encode(Sheet([list(range(1, 514))], []))),
        ("64 links of one frequency", encode(Sheet([[9_999_936 + link] for link in range(64)], []))),
        ("64 links on one frequency, no rule", encode(Sheet([[9_999_999]] * 64, []))),
        ("64 links on one frequency, listed", encode(Sheet([[9_999_999]] * 64, [Rule(a, b, LISTED, 0, [(0, 0)]) for a, b in every]))),
        ("64 links of 8 of the same 40 frequencies, no rule", encode(Sheet(shared, []))),
        ("two links of 256 frequencies, half of them the same, no rule", encode(Sheet([list(range(1, 257)), list(range(129, 385))], []))),
        ("65 links", encode(Sheet([[1]] * 65, []))),
        ("65 links, form 2", changed(encode(Sheet([[1]] * 65, [], [1] * 65)), ("I", 0, 2))),
        ("513 frequencies, form 2", changed(encode(Sheet([list(range(1, 514))], [], [1])), ("I", 0, 2))),
        ("2,017 rules", encode(Sheet(eights, [Rule(a, b, SPACING, 1) for a, b in every] + [Rule(0, 1, SPACING, 1)]))),
        ("the whole range", encode(Sheet([[1, 9_999_999], [1, 9_999_999]], [Rule(0, 1, SPACING, 9_999_998)]))),
        ("one past the range", encode(Sheet([[1, 9_999_999], [1, 9_999_999]], [Rule(0, 1, SPACING, 9_999_999)]))),
        ("counts that sum to 65,536 and more", _with_counts([65535, 1, 2])),
        ("no bytes", b""), ("40 zeros", bytes(40)), ("40 ones", b"\xff" * 40), ("only a header", struct.pack("<10I", 1, 1, 1, 0, 0, 40, 44, 48, 48, 48)),
        *((name, data) for name, _, data in form_sheets()),
    ]


# Two links of form 2: their rows at bytes 40 and 48, widths at 44 and 52, frequencies from 56 on, the rule at 72, its pair at 84.
NARROW = Sheet([[500_000, 500_400], [500_000, 500_300]], [Rule(0, 1, LISTED, 0, [(1, 0)])], [30, 50])


def form_sheets():
    """Small sheets around the three forms and cause 16: (name, cause, 0 where there is none, bytes)."""
    one = encode(Sheet(NARROW.links, NARROW.rules))
    for form, cause in ((0, 1), (2, 4), (3, 4), (4, 1), (2**16 + 1, 1), (2**31 + 1, 1)):
        yield f"form 1 with form {form} in the header", cause, changed(one, ("I", 0, form))
    for form in (2, 3):
        for name, cause, data in _wide_row_sheets(form, encode(Sheet(NARROW.links, NARROW.rules, NARROW.widths, form == 3)), one):
            yield f"form {form}: {name}", cause, data


def _wide_row_sheets(form, good, one):
    """Small sheets of a form with widths, made from a good one, and from the same job in form 1."""
    low, high = ("I", 44, 0), ("I", 52, 20_001)
    for width, cause in ((0, 16), (1, 0), (20_000, 0), (20_001, 16), (20_300, 16), (2**16, 16), (2**16 + 1, 16), (2**31, 16), (2**32 - 1, 16)):
        for link in range(2):
            yield f"link {link} {width} kHz wide", cause, changed(good, ("I", 44 + 8 * link, width))
    yield "both widths wrong", 16, changed(good, low, high)
    for name, fault in (("a first frequency", ("H", 48, 1)), ("a count of 0", ("H", 50, 0)), ("the sum", ("H", 50, 3)), ("an earlier count", ("H", 42, 1))):
        yield f"5 before 16: {name}", 5, changed(good, low, fault)
    for cause, fault in ((6, ("I", 56, 0)), (6, ("I", 68, 1)), (7, ("H", 76, 4)), (7, ("I", 80, 1)), (8, ("H", 84, 2))):
        yield f"{cause} alone", cause, changed(good, fault)
        yield f"16 before {cause}", 16, changed(good, high, fault)
    yield "1 before 16", 1, changed(good, low, ("I", 0, 4))
    yield "4 before 16", 4, changed(good, low, ("I", 24, 48))
    for other, cause in ((0, 1), (1, 4), (5 - form, 0), (4, 1), (2**16 + form, 1), (2**31 + form, 1), (form << 8, 1)):
        yield f"with form {other} in the header", cause, changed(good, ("I", 0, other))
    for links, cause in ((0, 2), (64, 4), (65, 4 if form == 3 else 2), (128, 4 if form == 3 else 2), (129, 2), (2**16 + 2, 2), (2**32 - 1, 2)):
        yield f"{links} links in the header", cause, changed(good, ("I", 4, links))
    for frequencies, cause in ((0, 3), (512, 4), (513, 4 if form == 3 else 3), (1024, 4 if form == 3 else 3), (1025, 3), (2**16 + 4, 3)):
        yield f"{frequencies} frequencies in the header", cause, changed(good, ("I", 8, frequencies))
    for at, name, most in ((12, "rules", 2016), (16, "pairs", 8192)):
        for number, cause in ((most, 4), (most + 1, 3)):
            yield f"{number} {name} in the header", cause, changed(good, ("I", at, number))
    yield "2 before 3", 2, changed(good, ("I", 4, 129), ("I", 8, 0))
    yield "1 before 2", 1, changed(good, ("I", 0, 4), ("I", 4, 0))
    yield "39 bytes", 1, good[:39]
    yield "only a header", 4, good[:40]
    yield "rows of 4 bytes and the offsets of 8", 4, good[:40] + one[40:]
    yield "rows of 4 bytes, the offsets and the length of 8", 5, good[:40] + one[40:] + bytes(8)
    yield "the last byte missing", 4, good[:-1]
    yield "one link, only its row", 4, struct.pack("<10I2HI", form, 1, 1, 0, 0, 40, 48, 52, 52, 52, 0, 1, 200)
    yield "one link, one frequency", 0, struct.pack("<10I2H2I", form, 1, 1, 0, 0, 40, 48, 52, 52, 52, 0, 1, 20_000, 9_999_999)


def changed(data, *changes):
    """Bytes with other numbers: (H or I, offset, number)."""
    data = bytearray(data)
    for layout, at, number in changes:
        struct.pack_into("<" + layout, data, at, number)
    return bytes(data)


def edge_sheets():
    """Two links of one frequency each around the rules of form 2: (whether they go together, sheet)."""
    spaced = [  # (allowed, difference, value, widths): twice the difference against twice the value plus both widths
        (True, 400, 360, (30, 50)), (False, 399, 360, (30, 50)), (False, 400, 361, (30, 50)), (False, 400, 360, (31, 50)),
        (False, 400, 360, (30, 51)), (True, 400, 359, (30, 51)), (True, 400, 359, (30, 52)), (False, 400, 359, (30, 53)),
        (True, 2, 1, (1, 1)), (False, 1, 1, (1, 1)), (False, 2, 1, (1, 2)), (False, 0, 1, (1, 1)),
        (True, 20_001, 1, (20_000, 20_000)), (False, 20_000, 1, (20_000, 20_000)), (True, 20_001, 1, (19_999, 20_000)),
        (True, 20_000, 1, (19_999, 19_999)), (False, 20_000, 1, (19_999, 20_000)),
        (True, 9_999_998, 9_979_998, (20_000, 20_000)), (False, 9_999_998, 9_979_999, (20_000, 20_000)),
        (False, 9_999_998, 9_999_998, (1, 1)), (False, 9_999_998, 9_999_999, (20_000, 20_000)),
    ]
    for allowed, apart, value, widths in spaced:
        for links in ([[1], [1 + apart]], [[1 + apart], [1]]):
            yield allowed, Sheet(links, [Rule(0, 1, SPACING, value)], list(widths))
    yield True, Sheet([[1], [401]], [Rule(0, 1, SPACING, 400)])
    for apart in (399, 400, 401, 440):  # kind 2 is between centres
        yield apart == 400, Sheet([[1], [1 + apart]], [Rule(0, 1, EXACT, 400)], [30, 50])
    for apart in (0, 1):  # no rule, and a listed pair
        yield apart == 1, Sheet([[500], [500 + apart]], [], [20_000, 20_000])
        yield True, Sheet([[500], [500 + apart]], [Rule(0, 1, LISTED, 0, [(0, 0)])], [20_000, 20_000])


def _with_counts(counts):
    """A sheet whose link rows would be right if sums were kept in 16 bits."""
    data = bytearray(encode(Sheet([[1], [1], [1, 2]], [])))
    first = 0
    for link, count in enumerate(counts):
        struct.pack_into("<HH", data, 40 + 4 * link, first % 65536, count)
        first += count
    return bytes(data)


def damaged(rng, data):
    """Bytes with one or a few faults, aimed at each section in turn."""
    data = bytearray(data)
    for _ in range(rng.choice((1, 1, 1, 2, 4))):
        if len(data) < 44:
            break
        rng.choice((_byte, _field, _field, _row, _row, _row, _width if data[0] in (2, 3) else _row, _cut))(rng, data)
    return bytes(data)


def _byte(rng, data):
    data[rng.randrange(len(data))] = rng.choice((0, 1, 2, 3, 255, rng.randrange(256)))


def _field(rng, data):
    at = 4 * rng.randrange(10)
    old, = struct.unpack_from("<I", data, at)
    struct.pack_into("<I", data, at, rng.choice((rng.choice(WIDE_EDGES), (old + rng.choice((-4, -1, 1, 4))) % 2**32)))


def _row(rng, data):
    """A number of a link row, a frequency, a rule row or a pair row, changed or exchanged with the next one."""
    k, n, q, t = (min(count, limit) for count, limit in zip(struct.unpack_from("<4I", data, 4), (128, 1024, 2016, 8192)))
    links = (40, 8, k, "HHI") if data[0] in (2, 3) else (40, 4, k, "HH")
    end = 40 + links[1] * k
    starts = [links, (end, 4, n, "I"), (end + 4 * n, 12, q, "HHHHI"), (end + 4 * n + 12 * q, 4, t, "HH")]
    start, size, count, layout = rng.choice([section for section in starts if section[2]] or [(40, 4, 1, "HH")])
    at = start + size * rng.randrange(count)
    if at + 2 * size <= len(data) and rng.random() < 0.25:
        data[at:at + size], data[at + size:at + 2 * size] = data[at + size:at + 2 * size], data[at:at + size]
        return
    if at + size > len(data):
        return
    row = list(struct.unpack_from("<" + layout, data, at))
    field = rng.randrange(len(row))
    wide = layout[field] == "I"
    row[field] = rng.choice((rng.choice(WIDE_EDGES if wide else EDGES), (row[field] + rng.choice((-1, 1, 2))) % (2**32 if wide else 2**16)))
    struct.pack_into("<" + layout, data, at, *row)


def _width(rng, data):
    """A width of form 2 or 3 in or out of range."""
    at = 44 + 8 * rng.randrange(min(data[4], 128) or 1)
    if at + 4 <= len(data):
        struct.pack_into("<I", data, at, rng.choice((0, 1, 20_000, 20_001, 20_001, 2**16, 2**32 - 1)))


def _cut(rng, data):
    if rng.random() < 0.5:
        del data[rng.randrange(len(data)):]
    else:
        data += bytes(rng.randrange(256) for _ in range(rng.randint(1, 8)))


@dataclass
class Call:
    """One call of the console library: planning where `filters` is a number, checking where it is None."""
    sheet: bytes
    filters: int = None
    choice: int = 0
    limit: int = 1
    classes: bytes = b""
    cells: bytes = b""


def classes_for(rng, sheet, channels=b""):
    """A class list for choice 2: the layers renamed, or independent sets at random; now and then one that is no partition.
    With channels a struck vertex goes with every other, so that sets are independent which are not without."""
    k = len(sheet.links)
    names = rng.sample(range(k), k)
    listed = [names[link] for link, frequencies in enumerate(sheet.links) for _ in frequencies]
    if rng.random() < 0.6 and len(listed) < 60:
        row = reading.Job(encode(sheet), channels).graph()
        for v in rng.sample(range(len(listed)), len(listed)):
            fitting = [c for c in range(k) if not any(row[v] >> u & 1 and listed[u] == c for u in range(len(listed)))]
            listed[v] = rng.choice(fitting)
    elif rng.random() < 0.1:
        listed[rng.randrange(len(listed))] = rng.randrange(k)
    if rng.random() < 0.05:
        listed[rng.randrange(len(listed))] = rng.choice((k, 255))
    if rng.random() < 0.05:
        listed = listed[:-1] if rng.random() < 0.5 else listed + [0]
    return bytes(listed)


def random_call(rng, sheet=None, channels=b""):
    """A call on a small sheet, a wide one or a damaged one, or on the sheet given, with settings in and out of range."""
    sheet = sheet or (wide_sheet(rng) if rng.random() < 0.01 else random_sheet(rng))
    data = encode(sheet)
    if rng.random() < 0.25:
        data = damaged(rng, data)
    k = len(sheet.links)
    cells_len = rng.choice((4 * k,) * 5 + (4 * k + 1, 4 * k + 3, 4 * k + 64, 256, 1000, 4 * k - 1, 4 * k - 4, 0, 3))
    if rng.random() < 0.35:
        return _check_call(rng, sheet, data, cells_len)
    cells = bytes(rng.randrange(256) for _ in range(cells_len))
    filters = rng.randrange(8) if rng.random() < 0.97 else rng.choice((8, 9, 255, 2**31, 2**32 - 1))
    choice = rng.randrange(3) if rng.random() < 0.97 else rng.choice((3, 4, 255, 2**32 - 1))
    limit = rng.choice((1, 2, 3, 5, 8, 20, 1000, 1000, 100_000, 1_000_000_000))
    if rng.random() < 0.03:
        limit = rng.choice((0, 1_000_000_001, 2**32 - 1))
    classes = classes_for(rng, sheet, channels) if choice == 2 or rng.random() < 0.2 else b""
    if frequencies_of(sheet) > 60:
        limit = min(limit, 200) if limit else limit
    return Call(data, filters, choice, limit, classes, cells)


def frequencies_of(sheet):
    return sum(len(listed) for listed in sheet.links)


def check_cells(rng, sheet):
    """A frequency of each list, mostly one that goes with those before it, now and then one of another link or a wrong number."""
    chosen, rules = [], {(rule.a, rule.b): rule for rule in sheet.rules}
    for link, listed in enumerate(sheet.links):
        fitting = [khz for khz in listed if all(allows(sheet, rules.get((a, link)), chosen[a], khz) for a in range(link))]
        chosen.append(rng.choice(fitting if fitting and rng.random() < 0.95 else listed))
    if rng.random() < 0.15:
        chosen[rng.randrange(len(chosen))] = rng.choice(chosen)
    if rng.random() < 0.1:
        chosen[rng.randrange(len(chosen))] = rng.choice((0, 1, 2**32 - 1, rng.randrange(12)))
    return chosen


def _check_call(rng, sheet, data, cells_len):
    chosen = check_cells(rng, sheet)
    cells = struct.pack(f"<{len(chosen)}I", *chosen) + bytes(rng.randrange(256) for _ in range(1000))
    return Call(data, cells=cells[:cells_len])


def allows(sheet, rule, other, khz):
    """Whether two links allow the first one's frequency `other` with the second one's `khz`; the rule is None where they have none."""
    if rule is None:
        return other != khz
    if rule.kind == LISTED:
        return (sheet.links[rule.a].index(other), sheet.links[rule.b].index(khz)) in rule.pairs if other in sheet.links[rule.a] else False
    if rule.kind == EXACT:
        return abs(other - khz) == rule.value
    widths = sheet.widths[rule.a] + sheet.widths[rule.b] if sheet.widths else 0
    return 2 * abs(other - khz) >= 2 * rule.value + widths


def limit_calls():
    """Calls on the sheets at their limits, under every filter number and choice, with few nodes."""
    rng = random.Random(8)
    for _, data in limit_sheets():
        yield Call(data, cells=bytes(256))
        for filters, choice, limit in ((0, 0, 200), (7, 0, 100), (6, 1, 70), (1, 1, 3), (4, 2, 66), (8, 0, 1), (0, 3, 1), (0, 0, 0), (0, 0, 10**9 + 1)):
            cells = bytes(rng.randrange(256) for _ in range(rng.choice((256, 259, 255, 4))))
            yield Call(data, filters, choice, limit, bytes(512), cells)


def telling_sheets():
    """Small sheets on which a slip shows: the scope's sheets with known results and some more."""
    listed = lambda rules: [Rule(a, b, LISTED, 0, pairs) for a, b, pairs in rules]  # noqa: E731
    return [
        M1,
        Sheet([[500_000], [500_100]], [Rule(0, 1, SPACING, 400)]),
        Sheet([[500_000], [500_100]], [Rule(0, 1, SPACING, 100)]),
        UNRULED,
        Sheet([[500_000]], []),
        # One carrier where it is listed, where all but it is, and where three links have two frequencies and no rule.
        Sheet([[500_000], [500_000]], listed([(0, 1, [(0, 0)])])),
        Sheet([[1, 2], [1, 2]], listed([(0, 1, [(0, 0), (1, 1)])])), Sheet([[1, 2], [1, 2]], listed([(0, 1, [(0, 1), (1, 0)])])),
        Sheet([[1, 2]] * 3, []), Sheet([[1, 2]] * 3, [Rule(0, 1, SPACING, 1)] + listed([(1, 2, [(0, 0), (0, 1), (1, 0), (1, 1)])])),
        EXAMPLE_1, EXAMPLE_3,
        # An exact distance downwards and upwards.
        Sheet([[4], [1, 7]], [Rule(0, 1, EXACT, 3)]), Sheet([[4], [7]], [Rule(0, 1, EXACT, 3)]), Sheet([[4], [1]], [Rule(0, 1, EXACT, 3)]),
        # A trial that succeeds and whose strikes must not stay.
        Sheet([[1, 2, 3], [1, 2]], listed([(0, 1, [(2, 0), (2, 1)])])),
        # More than k greedy classes: the layers are used.
        Sheet([[1, 2, 3]] * 3, listed([(0, 1, [(1, 0), (1, 2), (2, 1), (2, 2)]), (0, 2, [(0, 0), (0, 1), (1, 1), (2, 0), (2, 1), (2, 2)]),
                                       (1, 2, [(p, q) for p in range(3) for q in range(3)])])),
        # The first sheet with widths: its spacing just met, missed by half a kHz, met by one pair, by two, by none.
        *(Sheet([[500_000, 500_400], [500_000, 500_300]], [Rule(0, 1, SPACING, value)], [30, width])
          for value, width in ((360, 50), (360, 51), (300, 50), (260, 50), (400, 50))),
        *(Sheet([[1, 4, 7], [2, 5, 8], [3, 6, 9]], [Rule(0, 1, SPACING, 1), Rule(0, 2, SPACING, 2), Rule(1, 2, EXACT, 1)], [1, 2, 3], festival)
          for festival in (False, True)),
        # The pre-filter empties a greedy class, and no layer.
        Sheet([[1, 2, 4], [2, 5], [2]], listed([(0, 1, [(0, 0), (1, 0), (1, 1)])]) + [Rule(0, 2, SPACING, 1), Rule(1, 2, SPACING, 1)]),
    ]


def telling_calls():
    """Each telling sheet under every filter number and choice, with limits around the size of its tree."""
    rng = random.Random(9)
    for sheet in telling_sheets():
        data = encode(sheet)
        for filters in range(8):
            for choice in range(3):
                classes = classes_for(rng, sheet) if choice == 2 else b""
                cells = bytes([7]) * (4 * len(sheet.links) + 3)
                size = reading.plan_job(data, b"", filters, choice, 1_000_000_000, classes, len(cells))[0] % 2**32
                for limit in sorted({1, max(size - 1, 1), max(size, 1), size + 1, 1_000_000}):
                    yield Call(data, filters, choice, limit, classes, cells)
