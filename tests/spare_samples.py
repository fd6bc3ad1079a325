"""Inputs for the spare spacing: pairs and tables worked out by hand, calls of guvtemi_spares, and plans with the reading's table."""

import struct

import air_samples
import reading
import samples
from desk_samples import SPARES, DeskCall, filled
from jobsheet.answer import Answer
from jobsheet.binary import EXACT, LISTED, SPACING, Rule, Sheet, encode
from samples import M1

LEAST, MOST = -20_039_998, 19_999_995  # half kHz of any two frequencies, links and rules
MOST_TABLE_BYTES = 65_536
M1_WIDE = Sheet(M1.links, M1.rules, [30, 50])
# Four links, each on the first frequency of its list: kinds 1, 2, 3 and no rule, in form 2.
MIXED = Sheet([[100, 200], [130, 300], [130, 140], [125]],
              [Rule(0, 1, SPACING, 20), Rule(0, 2, EXACT, 30), Rule(1, 2, LISTED, 0, [(0, 0), (1, 1)]), Rule(2, 3, EXACT, 6)], [3, 4, 5, 6])


# ---- Worked out by hand

def _apart(apart, rule=None, widths=None):
    """A link of one frequency on either side: the higher one second, then first."""
    for links in ([[1], [1 + apart]], [[1 + apart], [1]]):
        yield Sheet(links, [rule] if rule else [], widths)


def known_pairs():
    """Two links of one frequency each: (their spare spacing in half kHz, sheet)."""
    spaced = [  # (spare, difference, value, widths)
        (0, 400, 400, None), (-2, 399, 400, None), (2, 401, 400, None), (-800, 0, 400, None), (1_200, 1_000, 400, None),
        (-2, 0, 1, None), (-19_999_998, 0, 9_999_999, None), (-2, 9_999_998, 9_999_999, None), (19_999_994, 9_999_998, 1, None),
        (0, 400, 360, [30, 50]), (1, 400, 360, [30, 49]), (-1, 400, 360, [31, 50]), (0, 400, 359, [30, 52]), (-1, 400, 359, [30, 53]),
        (-80, 400, 400, [30, 50]), (-880, 0, 400, [30, 50]), (-4, 0, 1, [1, 1]), (LEAST, 0, 9_999_999, [20_000, 20_000]),
        (-40_002, 9_999_998, 9_999_999, [20_000, 20_000]), (19_959_994, 9_999_998, 1, [20_000, 20_000]), (19_999_992, 9_999_998, 1, [1, 1]),
    ]
    for spare, apart, value, widths in spaced:
        yield from ((spare, sheet) for sheet in _apart(apart, Rule(0, 1, SPACING, value), widths))
    exact = [(0, 400, 400), (-2, 399, 400), (-2, 401, 400), (-800, 0, 400), (-1_200, 1_000, 400), (-19_999_998, 0, 9_999_999),
             (-19_999_994, 9_999_998, 1), (0, 9_999_998, 9_999_998)]
    for widths in (None, [30, 51], [20_000, 20_000]):  # they matter to kind 1 alone
        for spare, apart, value in exact:
            yield from ((spare, sheet) for sheet in _apart(apart, Rule(0, 1, EXACT, value), widths))
        for spare, apart in ((-1, 0), (1, 1), (799, 400), (MOST, 9_999_998)):
            yield from ((spare, sheet) for sheet in _apart(apart, None, widths))
        for apart in (0, 1, 9_999_998):
            yield from ((0, sheet) for sheet in _apart(apart, Rule(0, 1, LISTED, 0, [(0, 0)]), widths))
        yield -1, Sheet([[5], [5, 9]], [Rule(0, 1, LISTED, 0, [(0, 1)])], widths)


def known_tables():
    """Cells beside a sheet and channels: (name, number, the table row by row, (sheet, channels, cells))."""
    def case(name, number, numbers, sheet, khz, channels=b""):
        return name, number, numbers, (encode(sheet), channels, struct.pack(f"<{len(khz)}I", *khz))

    for spare, khz in ((-880, (500_000, 500_000)), (-280, (500_000, 500_300)), (-80, (500_400, 500_000)), (-680, (500_400, 500_300))):
        yield case(f"M1 with widths 30 and 50 on {khz}", 0, [0, spare, spare, 0], M1_WIDE, khz)
        centres = spare + 80
        yield case(f"M1 on {khz}", 100 if centres >= 0 else 0, [0, centres, centres, 0], M1, khz)
    # 2(30 - 20) - 7, -2|30 - 30|, 2 * 25 - 1; listed, 2 * 5 - 1; -2|5 - 6|
    yield case("every kind", 0, [0, 13, 0, 49, 13, 0, 0, 9, 0, 0, 0, -2, 49, 9, -2, 0], MIXED, (100, 130, 130, 125))
    yield case("a pair that is not listed", 0, [0, 13, -20, 49, 13, 0, -1, 9, -20, -1, 0, -18, 49, 9, -18, 0], MIXED, (100, 130, 140, 125))
    kept = Sheet(MIXED.links, MIXED.rules[:3] + [Rule(2, 3, EXACT, 5)], MIXED.widths)
    for name, more in (("every kind, every rule kept", ()), ("more cells than links", (2**32 - 1, 7))):
        yield case(name, 100, [0, 13, 0, 49, 13, 0, 0, 9, 0, 0, 0, 0, 49, 9, 0, 0], kept, (100, 130, 130, 125, *more))
    yield case("one link", 100, [0], Sheet([[7]], []), (7,))
    for khz in ((0, 130, 130, 125), (101, 130, 130, 125), (130, 100, 130, 125), (100, 130, 130, 2**32 - 1), (100, 130, 130, 0)):
        yield case(f"not in its list: {khz}", 0, [0] * 16, kept, khz)
    yield case("one link, not in its list", 0, [0], Sheet([[7]], []), (8,))
    struck = Sheet([[470_000, 500_000], [500_400, 600_000]], [Rule(0, 1, SPACING, 400)])  # channels 21, 24; 24, 37
    for channels, near, far in ((b"", 100, 100), (b"\x15", 100, 0), (b"\x18", 0, 0), (b"\x25", 100, 100), (air_samples.ALL, 0, 0)):
        yield case(f"just met, channels {list(channels)}", near, [0, 0, 0, 0], struck, (500_000, 500_400), channels)
        yield case(f"far apart, channels {list(channels)}", far, [0, 60_000, 60_000, 0], struck, (470_000, 500_400), channels)
    yield case("struck and not in its list", 0, [0] * 4, struck, (470_000, 500_401), b"\x15")
    unruled = Sheet([[1], [9_999_999]], [], [20_000, 20_000])
    yield case("the most of the range", 100, [0, MOST, MOST, 0], unruled, (1, 9_999_999))
    worst = Sheet([[9_999_999], [9_999_999]], [Rule(0, 1, SPACING, 9_999_999)], [20_000, 20_000])
    yield case("the least of the range", 0, [0, LEAST, LEAST, 0], worst, (9_999_999, 9_999_999))


# ---- Calls

def spares_call(rng, data, channels, cells, table_len):
    return DeskCall(SPARES, [data, channels, cells], [filled(rng, table_len)])


def known_calls(rng):
    """The tables worked out by hand with just enough room and with more: (name, number, the table's bytes, call)."""
    for name, number, numbers, read in known_tables():
        table = struct.pack(f"<{len(numbers)}i", *numbers)
        for more in (0, 1, 2, 3, 4, 50, MOST_TABLE_BYTES - len(table)):
            yield f"{name}, {more} bytes more", number, table + bytes(more), spares_call(rng, *read, len(table) + more)


def random_spares_call(rng):
    """A call on a small sheet, a wide one or a damaged one; cells and channels good and bad, tables too short, just right and longer."""
    sheet = samples.wide_sheet(rng) if rng.random() < 0.03 else rng.choice((samples.random_sheet, air_samples.air_sheet))(rng)
    data, k = encode(sheet), len(sheet.links)
    if rng.random() < 0.25:
        data = samples.damaged(rng, data)
    khz = samples.check_cells(rng, sheet) if rng.random() < 0.5 else [rng.choice(listed) for listed in sheet.links]
    cells = struct.pack(f"<{k}I", *khz) + filled(rng, 64)
    cells = cells[:rng.choice((4 * k,) * 20 + (4 * k + 1, 4 * k + 3, 4 * k + 64, 4 * k - 1, 4 * k - 4, 0))]
    places = 4 * k * k
    room = rng.choice((places,) * 15 + (places + 1, places + 2, places + 3, places + 4, places + 77, MOST_TABLE_BYTES, places - 1, places - 4,
                                       rng.randrange(places), 0))
    return spares_call(rng, data, air_samples.any_channels(rng, sheet), cells, room)


def length_calls(rng):
    """Tables of every length around that of k x k places, for plans and for cells that are none: (name, number, call)."""
    for k in (1, 2, 3, 8, 64, 128):
        sheet = Sheet([[500_000 + 400 * link] for link in range(k)], [Rule(a, a + 1, SPACING, 300) for a in range(k - 1)], [100] * k)
        good = struct.pack(f"<{k}I", *(listed[0] for listed in sheet.links))
        enough = 4 * k * k
        for room in sorted({0, 1, 3, 4, *range(max(enough - 5, 0), enough + 9), 2 * enough, MOST_TABLE_BYTES, MOST_TABLE_BYTES + 5}):
            for name, number, cells in (("a plan", 100, good), ("no plan", 0, bytes(4 * k)), ("too few cells", 10, good[:-1])):
                yield f"{k} links, {name}, {room} bytes", number if room >= enough else 10, spares_call(rng, encode(sheet), b"", cells, room)


def order_calls(rng):
    """Every refusal in its place: (name, number, call). 10 is of cells and of the table, after the sheet's causes and before 17."""
    data, good = encode(M1_WIDE), struct.pack("<2I", 500_400, 500_000)
    sheets = [(0, data)] + [(cause, wrong) for _, cause, wrong in samples.form_sheets() if cause]
    sheets += [(1, b""), (2, samples.changed(data, ("I", 4, 65))), (3, samples.changed(data, ("I", 8, 513)))]
    for cause, sheet in sheets:
        for channels in (b"", b"\x15", b"\x14", b"\x16\x15"):
            for cells in (good, good + good, good[:7], b""):
                for room in (16, 19, 15, 0):
                    number = cause or (10 if len(cells) < 8 or room < 16 else 17 if channels in (b"\x14", b"\x16\x15") else 0)
                    name = f"cause {cause}, channels {list(channels)}, {len(cells)} and {room} bytes"
                    yield name, number, spares_call(rng, sheet, channels, cells, room)
    for name, channels in air_samples.BAD_LISTS.items():
        yield f"17, {name}", 17, spares_call(rng, data, channels, good, 16)


def limit_spares_calls(rng):
    """Sheets at their limits, accepted or not: the first, the last and any frequencies of the lists; 64 links at the ends of the range."""
    for _, data in samples.limit_sheets():
        for place in (0, -1, None):
            cells = b"".join(struct.pack("<I", rng.choice(listed) if place is None else listed[place]) for listed in lists_of(data))
            channels = rng.choice((b"", air_samples.ALL, b"\x18", b"\x31"))
            room = rng.choice((MOST_TABLE_BYTES, MOST_TABLE_BYTES, 4 * (len(cells) // 4) ** 2, MOST_TABLE_BYTES - 1))
            yield spares_call(rng, data, channels, cells, room)
    every = [(a, b) for a in range(64) for b in range(a + 1, 64)]
    links, widest = [[1, 9_999_999]] * 64, [20_000] * 64
    for sheet in (Sheet(links, [], widest), Sheet(links, [Rule(a, b, SPACING, 9_999_999) for a, b in every], widest),
                  Sheet(links, [Rule(a, b, EXACT, 1 + 9_999_998 * (b % 2)) for a, b in every])):
        for khz in ((1, 1), (9_999_999, 1), (9_999_999, 9_999_999)):
            yield spares_call(rng, encode(sheet), b"", struct.pack("<64I", *khz * 32), MOST_TABLE_BYTES)


def lists_of(data):
    """The lists of an accepted sheet; 64 lists of one number of any other."""
    if reading.refusal(data):
        return [[500_000]] * 64
    sheet = reading.Sheet(data)
    return [sheet.khz[first:first + count] for first, count in sheet.rows]


# ---- For the tools

def answered(sheet, khz, nodes=1, channels=b""):
    """An answer with this plan, a frequency of each list whether or not it keeps the rules; its spare spacing is the reading's."""
    links = len(khz)
    _, table = reading.spares(encode(sheet), channels, struct.pack(f"<{links}I", *khz), 4 * links * links)
    return Answer("found", nodes, list(khz), [list(row) for row in struct.iter_unpack(f"<{links}i", table)])
