"""Inputs for the desk's planning and checking: sheets around the channel edges, channel lists good and bad, and calls with both."""

import struct

import reading
import samples
from desk_samples import CHECK, PLAN, DeskCall, filled
from jobsheet.binary import LISTED, SPACING, Rule, Sheet, encode

ALL = bytes(range(21, 49))
LOWS = [470_000 + 8_000 * number for number in range(28)]
CORNERS = (469_999, 470_000, 477_999, 478_000, 685_999, 686_000, 693_999, 694_000)
BAD_LISTS = {
    "20": b"\x14", "49": b"\x31", "0": b"\0", "255": b"\xff", "20 before good ones": b"\x14\x15\x16", "49 after good ones": b"\x2f\x30\x31",
    "equal neighbours": b"\x15\x15", "equal at the end": ALL + b"\x30", "falling": b"\x16\x15", "falling at the end": ALL + b"\x15",
    "all falling": ALL[::-1], "0 at the end": ALL + b"\0", "255 at the end": ALL + b"\xff", "twice all": ALL * 2, "21 plus 256 in two bytes": b"\x15\x01",
    "digits": b"21", "300 zeros": bytes(300), "100,000 times 21": b"\x15" * 100_000, "all, then 70,000 times 48": ALL + b"\x30" * 70_000,
}


def air_sheet(rng, most_links=6, most_frequencies=5):
    """A small sheet whose frequencies lie around channel edges: moved to one edge, or drawn out over many channels."""
    sheet = samples.random_sheet(rng, most_links, most_frequencies)
    step = rng.choice((1, 1, 2_000, 4_000, 4_000, 8_000))
    base = rng.choice(LOWS + [694_000, 470_000, 470_000]) - step * rng.choice((0, 3, 5, 9)) - rng.choice((0, 0, 1))
    links = [[base + step * khz for khz in listed] for listed in sheet.links]
    rules = [rule if rule.kind == LISTED else Rule(rule.a, rule.b, rule.kind, step * rule.value) for rule in sheet.rules]
    return Sheet(links, rules, sheet.widths, sheet.festival)


def channels_near(sheet):
    """The channels that cover a frequency of a sheet."""
    return [channel for channel in ALL if any(reading.covers(channel, khz) for listed in sheet.links for khz in listed)]


def good_channels(rng, sheet):
    """A channel list that is accepted: empty, one or several, mostly of those that take frequencies of the sheet, or all."""
    near = channels_near(sheet)
    some = rng.sample(near, rng.randint(min(len(near), 1), (len(near) + 1) // 2))
    kind = rng.randrange(12)
    if kind < 7:
        return bytes(sorted(some))
    if kind < 9:
        return bytes(sorted({*some, rng.choice(ALL)}))
    return (b"", bytes(sorted(rng.sample(ALL, rng.randint(1, 27)))), rng.choice((ALL, bytes(near))))[kind - 9]


def any_channels(rng, sheet):
    """A channel list, now and then one that is out of range or order."""
    listed = good_channels(rng, sheet)
    if rng.random() < 0.88:
        return listed
    at = rng.randint(0, len(listed))
    damaged = listed[:at] + bytes([rng.choice((0, 20, 21, 48, 49, 255, rng.randrange(256)))]) + listed[at:]
    return rng.choice((damaged, damaged, listed[::-1], listed * 2, rng.choice(list(BAD_LISTS.values())[:16])))


def plan_call(rng, data, channels, filters=7, choice=0, limit=1_000_000, classes=b"", cells_len=512):
    return DeskCall(PLAN, [data, channels, classes], [filled(rng, cells_len)], (filters, choice, limit))


def check_call(data, channels, cells):
    return DeskCall(CHECK, [data, channels, cells], [])


def with_channels(rng, call, channels):
    """A call of the console library as one of the desk's."""
    if call.filters is None:
        return check_call(call.sheet, channels, call.cells)
    return DeskCall(PLAN, [call.sheet, channels, call.classes], [call.cells], (call.filters, call.choice, call.limit))


def random_job_call(rng):
    """A call on a small sheet, a wide one or a damaged one, with settings and channels in and out of range."""
    sheet = samples.wide_sheet(rng) if rng.random() < 0.01 else air_sheet(rng)
    channels = any_channels(rng, sheet)
    call = samples.random_call(rng, sheet, b"" if reading.channels_wrong(channels) else channels)
    return with_channels(rng, call, channels)


# ---- Named cases: (name, the number wanted, with the nodes of planning, call)

def edge_calls(rng):
    """One link of one frequency at each edge of every channel, with that channel on air, with every other, with none and with all."""
    places = {khz for low in LOWS for khz in (low - 1, low, low + 1, low + 7_999)} | {*CORNERS, 1, 9_999_999}
    for khz in sorted(places):
        data, over = encode(Sheet([[khz]], [])), [c for c in ALL if LOWS[c - 21] <= khz <= LOWS[c - 21] + 7_999]
        for channels in (b"", bytes(over), bytes(c for c in ALL if c not in over), ALL):
            struck = any(c in over for c in channels)
            wanted = (101 << 32) if struck else (100 << 32) + 2
            yield f"{khz} kHz, channels {list(channels)}", wanted, plan_call(rng, data, channels, cells_len=4)
            yield f"{khz} kHz checked, channels {list(channels)}", 0 if struck else 100, check_call(data, channels, struct.pack("<I", khz))


def order_calls(rng):
    """17 in its place among the causes, for every bad list."""
    sheet = encode(Sheet([[500_000, 600_000], [500_000, 600_000]], [Rule(0, 1, SPACING, 400)]))
    plan = struct.pack("<2I", 500_000, 600_000)
    for name, channels in BAD_LISTS.items():
        for cause, data in ((1, b""), (2, samples.changed(sheet, ("I", 4, 65))), (5, samples.changed(sheet, ("H", 42, 0))),
                            (6, samples.changed(sheet, ("I", 48, 0))), (7, samples.changed(sheet, ("H", 68, 4)))):
            yield f"{cause} before 17, {name}", cause << 32, plan_call(rng, data, channels)
            yield f"{cause} before 17 in the check, {name}", cause, check_call(data, channels, plan)
        for setting in ({"filters": 8}, {"choice": 3}, {"limit": 0}, {"limit": 10**9 + 1}):
            yield f"9 before 17, {name}", 9 << 32, plan_call(rng, sheet, channels, **setting)
        for room in (7, 4, 0):
            yield f"10 before 17, {name}", 10 << 32, plan_call(rng, sheet, channels, cells_len=room)
            yield f"10 before 17 in the check, {name}", 10, check_call(sheet, channels, plan[:room])
        for choice in range(3):
            yield f"17 alone or before 12, {name}", 17 << 32, plan_call(rng, sheet, channels, choice=choice, cells_len=8)
        yield f"17 before 12, a class too high, {name}", 17 << 32, plan_call(rng, sheet, channels, choice=2, classes=b"\0\0\1\2", cells_len=8)
        yield f"17 in the check, {name}", 17, check_call(sheet, channels, plan)
        yield f"17 in the check of no plan, {name}", 17, check_call(sheet, channels, bytes(8))


# Three links. The last one's frequency is in channel 22; those of the others make three greedy classes, in none of which it is.
CROWDED = Sheet([[500_000, 500_001, 500_002, 500_003], [500_004, 500_005, 500_006], [478_000]],
                [Rule(0, 1, LISTED, 0, [(0, 1), (0, 2), (1, 0), (1, 1), (2, 0), (3, 0)])])


def empty_calls(rng):
    """Links and classes left empty, and the class bytes of struck vertices, under every filter number."""
    two = encode(Sheet([[478_000, 500_000], [600_000, 610_000]], []))         # channels 22, 24; 37, 38
    left = encode(Sheet([[478_000], [600_000, 610_000]], []))
    barred = encode(Sheet([[478_000, 500_000], [600_000, 610_000]], [Rule(0, 1, SPACING, 9_999_999)]))
    crowded = encode(CROWDED)
    none, found = 101 << 32, (100 << 32) + 3
    for filters in range(8):
        for choice in range(2):
            yield f"a link left empty, choice {choice}", none, plan_call(rng, left, b"\x16", filters, choice)
            yield f"every frequency struck, choice {choice}", none, plan_call(rng, two, ALL, filters, choice)
            yield f"a link left empty, limit 1, choice {choice}", none, plan_call(rng, left, b"\x16", filters, choice, 1)
        yield "a link left empty, every class has a vertex", none, plan_call(rng, left, b"\x16", filters, 2, classes=b"\1\0\1")
        yield "a link left empty, every greedy class has a vertex", none, plan_call(rng, crowded, b"\x16", filters, 1)
        yield "a class of struck vertices only", none, plan_call(rng, left, b"\x16", filters, 2, classes=b"\0\1\1")
        yield "a class of struck vertices only, no link empty", none, plan_call(rng, barred, b"\x16", filters, 2, classes=b"\0\1\1\1")
        yield "adjacent vertices beside a class of struck ones", 12 << 32, plan_call(rng, two, b"\x16", filters, 2, classes=b"\0\1\1\1")
        yield "a struck vertex with class k - 1", found, plan_call(rng, two, b"\x16", filters, 2, classes=b"\1\0\1\1")
        yield "a struck vertex with class k", 12 << 32, plan_call(rng, two, b"\x16", filters, 2, classes=b"\2\0\1\1")
        yield "a struck vertex with class 255", 12 << 32, plan_call(rng, two, b"\x16", filters, 2, classes=b"\xff\0\1\1")
        yield "adjacent without the strike, k - 1", 12 << 32, plan_call(rng, two, b"", filters, 2, classes=b"\1\0\1\1")
        yield "a list without the struck vertex", 12 << 32, plan_call(rng, two, b"\x16", filters, 2, classes=b"\0\1\1")
        yield "a list one too long", 12 << 32, plan_call(rng, two, b"\x16", filters, 2, classes=b"\1\0\1\1\0")
        yield "12 where a link is left empty", 12 << 32, plan_call(rng, left, b"\x16", filters, 2, classes=b"\2\0\1")
    yield "a struck frequency checked", 0, check_call(two, b"\x16", struct.pack("<2I", 478_000, 600_000))
    yield "another one checked", 100, check_call(two, b"\x16", struct.pack("<2I", 500_000, 600_000))
    yield "both struck", 0, check_call(two, b"\x16\x25", struct.pack("<2I", 478_000, 600_000))
    yield "a frequency of no list", 0, check_call(two, b"\x16", struct.pack("<2I", 478_001, 600_000))


def limit_job_calls(rng):
    """Calls on the sheets at their limits with channels, and a hall of 512 frequencies over all channels."""
    for call in samples.limit_calls():
        yield with_channels(rng, call, rng.choice((b"", ALL, b"\x18", bytes(range(24, 49)), bytes(range(21, 49, 2)), b"\x14")))
    hall = [[470_000 + 437 * (8 * link + place) for place in range(8)] for link in range(64)]
    data = encode(Sheet(hall, [Rule(a, b, SPACING, 400) for a in range(64) for b in range(a + 1, 64)]))
    for channels in (b"", b"\x15", b"\x30", bytes(range(22, 49)), ALL, b"\x15\x30", bytes(range(21, 49, 3))):
        for filters, choice, limit in ((0, 0, 300), (7, 0, 100), (1, 1, 70), (6, 1, 70), (7, 2, 66)):
            layers = bytes(link for link in range(64) for _ in range(8))
            yield plan_call(rng, data, channels, filters, choice, limit, layers, 259)
        yield check_call(data, channels, struct.pack("<64I", *(listed[7] for listed in hall)))


def telling_job_calls(rng):
    """Sheets on which a slip shows, moved over a channel edge, under every filter number and choice, limits around the tree's size."""
    for sheet in samples.telling_sheets():
        lowest = min(khz for listed in sheet.links for khz in listed)
        highest = max(khz for listed in sheet.links for khz in listed)
        for split in (lowest, (lowest + highest + 1) // 2, highest):
            moved = Sheet([[khz + 478_000 - split for khz in listed] for listed in sheet.links], sheet.rules, sheet.widths,
                          sheet.festival)
            data = encode(moved)
            for channels in (b"\x15", b"\x16"):
                for filters in range(8):
                    for choice in range(3):
                        classes = samples.classes_for(rng, moved, channels) if choice == 2 else b""
                        room = 4 * len(moved.links) + 3
                        size = reading.plan_job(data, channels, filters, choice, 10**9, classes, room)[0] % 2**32
                        for limit in sorted({max(size - 1, 1), max(size, 1)}):
                            yield plan_call(rng, data, channels, filters, choice, limit, classes, room)
