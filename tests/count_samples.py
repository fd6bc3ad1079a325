"""Inputs for the counts of plans: jobs whose counts are worked out by hand, and calls of guvtemi_count_job."""

import math
import struct

import air_samples
import reading
import samples
from desk_samples import COUNT, PLAN, DeskCall, all_different, filled
from jobsheet.binary import SPACING, Rule, Sheet, encode

ENOUGH_COUNT_BYTES = 8_192
AIR = Sheet([[470_000, 500_000], [500_400, 600_000]], [Rule(0, 1, SPACING, 400)])  # channels 21, 24; 24, 37
FEW_NODES = 3_000  # of a job with many assignments: the reading is slow


def count_call(rng, data, channels=b"", filters=7, choice=0, limit=1_000_000, classes=b"", cells_len=512, counts_len=ENOUGH_COUNT_BYTES):
    return DeskCall(COUNT, [data, channels, classes], [filled(rng, cells_len), filled(rng, counts_len)], (filters, choice, limit))


def counting(rng, call, counts_len):
    """A call of planning as one of counting."""
    return DeskCall(COUNT, call.read, [*call.written, filled(rng, counts_len)], call.setting)


def frequencies(data):
    """What a sheet's header says of its frequencies, in range or not; 4 where there is no header."""
    return min(struct.unpack_from("<I", data, 8)[0], 1_100) if len(data) >= 12 else 4


# ---- Worked out by hand

def known_counts():
    """(name, sheet, channels, the nodes under filters 0 to 7 and choice 0, the counts)."""
    def free(k, m):
        """k links of m different frequencies: every assignment is a plan, and no filter strikes anything."""
        return f"{k} x {m} free", Sheet(all_different([m] * k), []), b"", [sum(m**depth for depth in range(k + 1))] * 8, [m**(k - 1)] * (k * m)

    yield "M1", samples.M1, b"", [4, 3, 4, 3, 3, 3, 3, 3], [0, 1, 1, 0]
    yield "Example 1", samples.EXAMPLE_1, b"", [8, 5, 8, 5, 5, 5, 5, 5], [1, 0, 0, 1, 0, 0, 1, 0, 1, 0, 0]
    yield "one frequency twice, no rule", samples.UNRULED, b"", [2, 0, 1, 0, 1, 0, 1, 0], [0, 0]
    yield "M1, every frequency struck", samples.M1, b"\x18", [0] * 8, [0] * 4
    yield "two frequencies twice, no rule", Sheet([[1, 2], [1, 2]], []), b"", [5] * 8, [1] * 4
    yield "no channel", AIR, b"", [7] * 8, [2, 2, 2, 2]
    yield "a frequency struck", AIR, b"\x15", [4] * 8, [0, 2, 1, 1]
    yield "a frequency of each link struck", AIR, b"\x18", [3] * 8, [1, 0, 0, 1]
    yield "a link left empty", AIR, b"\x18\x25", [0] * 8, [0] * 4
    for size in ((1, 1), (1, 512), (2, 2), (3, 2), (2, 40), (64, 1), (5, 5)):
        yield free(*size)


def known_calls(rng):
    """These under every filter, at limits around the size, with just enough room and with more: (name, number, the counts' bytes, call)."""
    for name, sheet, channels, sizes, counts in known_counts():
        data, n = encode(sheet), len(counts)
        for filters, size in enumerate(sizes):
            number = 100 if any(counts) else 101
            for limit in {max(size - 1, 1), max(size, 1), size + 1, 1_000_000_000}:
                stopped = limit < size
                room = 8 * n + rng.choice((0, 0, 1, 7, 8, 100))
                wanted = struct.pack(f"<{n}Q", *counts if not stopped else [0] * n)
                yield (f"{name}, filter {filters}, limit {limit}", ((102 << 32) + limit) if stopped else (number << 32) + size, wanted + bytes(room - 8 * n),
                       count_call(rng, data, channels, filters, 0, limit, counts_len=room))


# ---- Calls

def any_room(rng, n):
    """Bytes of room for n counts: enough, longer, too short."""
    return max(rng.choice((8 * n,) * 15 + (8 * n + 1, 8 * n + 7, 8 * n + 8, 8 * n + 99, ENOUGH_COUNT_BYTES, 8 * n - 1, 8 * n - 8, 8, 7, 0)), 0)


def random_count_call(rng):
    """A call on a small sheet, a wide one or a damaged one, with settings, channels and room in and out of range."""
    call = None
    while call is None or call.function != PLAN:
        call = air_samples.random_job_call(rng)
    call = counting(rng, call, any_room(rng, frequencies(call.read[0])))
    filters, choice, limit = call.setting
    if reading.refusal(call.read[0]) == 0 and reading.assignments(reading.Sheet(call.read[0])) > FEW_NODES and 0 < limit <= 1_000_000_000:
        call.setting = filters, choice, min(limit, FEW_NODES)
    return call


def size_calls(rng, sheets):
    """Jobs (sheet, channels) under every filter and choice, at limits around the size of the longer tree."""
    for sheet, channels in sheets:
        data, job = encode(sheet), reading.Job(encode(sheet), channels)
        for choice in range(3):
            classes = samples.classes_for(rng, sheet, channels) if choice == 2 else b""
            for filters in range(8):
                size = reading.counted(job, filters, choice, 1_000_000_000, classes)[1]
                for limit in sorted({1, max(size - 1, 1), max(size, 1), size + 1}):
                    yield count_call(rng, data, channels, filters, choice, limit, classes, 4 * job.k + 3, 8 * job.n + rng.choice((0, 5)))


def telling_jobs():
    """Sheets on which a slip shows, as they are and moved over a channel edge."""
    for sheet in samples.telling_sheets():
        yield sheet, b""
        listed = [khz for link in sheet.links for khz in link]
        split = (min(listed) + max(listed) + 1) // 2
        moved = Sheet([[khz + 478_000 - split for khz in link] for link in sheet.links], sheet.rules, sheet.widths, sheet.festival)
        yield from ((moved, channels) for channels in (b"\x15", b"\x16"))


def small_jobs(rng, most):
    """Random jobs with channels on air, and few assignments."""
    while most:
        sheet = air_samples.air_sheet(rng, 5, 4)
        if math.prod(map(len, sheet.links)) <= 300:
            yield sheet, air_samples.good_channels(rng, sheet)
            most -= 1


def length_calls(rng):
    """Room of every length around n counts, for runs that end with and without a plan, or are stopped: (name, number, call)."""
    jobs = [("M1", samples.M1, b"", 3), ("Example 1", samples.EXAMPLE_1, b"", 5), ("Example 3", samples.EXAMPLE_3, b"", None),
            ("a frequency struck", AIR, b"\x15", 4),
            ("512 frequencies", Sheet([list(range(1, 513))], []), b"", 513), ("64 links", Sheet(all_different([1] * 64), []), b"", 65),
            ("1,024 frequencies", Sheet([list(range(1, 1025))], [], [1]), b"", 1025)]
    for name, sheet, channels, size in jobs:
        data, enough = encode(sheet), 8 * sheet.frequencies()
        for room in sorted({0, 1, 7, 8, *range(max(enough - 9, 0), enough + 10), 2 * enough, ENOUGH_COUNT_BYTES, ENOUGH_COUNT_BYTES + 5}):
            for limit in (1_000_000, 1):
                ended = (100 << 32) + size if size else (101 << 32) + reading.counted(reading.Sheet(data), 7, 0, limit, b"")[1]
                number = 19 << 32 if room < enough else ended if limit > 1 or not size else (102 << 32) + 1
                yield f"{name}, {room} bytes, limit {limit}", number, count_call(rng, data, channels, limit=limit, counts_len=room)


def order_calls(rng):
    """Every refusal in its place, 19 the last: (name, number, call)."""
    data = encode(samples.NARROW)  # form 2, two links of two frequencies each, the pair (1, 0)
    sheets = [(0, data), (1, b""), (2, samples.changed(data, ("I", 4, 65))), (3, samples.changed(data, ("I", 8, 513))), (4, data[:-1]),
              (5, samples.changed(data, ("H", 42, 0))), (16, samples.changed(data, ("I", 44, 0))), (6, samples.changed(data, ("I", 56, 0))),
              (7, samples.changed(data, ("H", 76, 4))), (8, samples.changed(data, ("H", 84, 2)))]
    settings = [(0, {}), (9, {"filters": 8}), (9, {"choice": 3}), (9, {"limit": 0}), (9, {"limit": 1_000_000_001})]
    lists = [(0, b""), (17, b"\x14"), (17, b"\x16\x15")]
    classes = [(0, 0, b""), (0, 2, b"\0\0\1\1"), (12, 2, b"\0\0\1"), (12, 2, b"\0\0\1\2"), (12, 2, b"\0\1\1\1"), (12, 2, b"")]
    for cause, sheet in sheets:
        for nine, setting in settings:
            for ten, cells_len in ((0, 8), (10, 7), (10, 0)):
                for seventeen, channels in lists:
                    for twelve, choice, listed in classes:
                        for nineteen, room in ((0, 32), (19, 31), (19, 0)):
                            number = cause or nine or ten or seventeen or twelve or nineteen
                            if number and sum(map(bool, (cause, nine, ten, seventeen, twelve, nineteen))) <= 2:
                                more = {"choice": choice, "classes": listed, **setting}
                                yield (f"{number} first, {room} bytes", number << 32,
                                       count_call(rng, sheet, channels, cells_len=cells_len, counts_len=room, **more))


def limit_count_calls(rng):
    """Sheets at their limits, accepted or not, with few nodes, channels and room of every kind."""
    for call in samples.limit_calls():
        if call.filters is not None:
            channels = rng.choice((b"", b"", air_samples.ALL, b"\x18", b"\x14"))
            n = frequencies(call.sheet)
            yield counting(rng, air_samples.with_channels(rng, call, channels), rng.choice((ENOUGH_COUNT_BYTES, ENOUGH_COUNT_BYTES + 9, 8 * n, 8 * n, 8 * n - 1)))


def large_counts():
    """Jobs with many plans: (name, sheet, nodes, the count of each frequency), whatever filter and partition by links."""
    for k, m in ((20, 2), (12, 3), (6, 10), (2, 256)):
        yield f"{k} x {m} free", Sheet(all_different([m] * k), []), sum(m**depth for depth in range(k + 1)), m**(k - 1)
    shared = Sheet([list(range(1, 9))] * 8, [])  # all different: the plans are the orders of eight frequencies
    yield "8 x 8, each frequency once", shared, sum(math.perm(8, depth) for depth in range(9)), math.factorial(7)
