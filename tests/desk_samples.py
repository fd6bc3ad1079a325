"""Inputs for the desk library: calls of export and import on random, damaged and extreme sheets and texts; calls of planning
and checking with channels on air are in air_samples.py, those of the spare spacing in spare_samples.py, those for a heaviest job
in heaviest_tests.py, those that count plans in count_samples.py."""

import re
from dataclasses import dataclass

import reading
import samples
from jobsheet.binary import LISTED, Rule, Sheet, encode

EXPORT, IMPORT, PLAN, CHECK, SPARES, HEAVIEST, COUNT = range(7)
MOST_GRAPH_BYTES, MOST_COUNT_BYTES, ENOUGH_SHEET_BYTES = 5_117_642, 355, 65_536
MOST_NARROW_GRAPH_BYTES, MOST_NARROW_COUNT_BYTES = 1_235_834, 177  # of forms 1 and 2
EIGHTS = [8] * 64
LONGEST_GRAPH, LONGEST_COUNTS = [9] + [8] * 12 + [7] + [8] * 50, [10] * 49 + [1] * 14 + [8]  # counts of the longest texts of forms 1 and 2
ODD_NUMBERS = ("0", "00", "01", "", "-1", "+1", "1.0", "1e1", "0x1", " 1", "1 ", "513", "65", "9" * 18, "9" * 19, "9" * 5000)


@dataclass
class DeskCall:
    """One call of the desk library: the slices that it reads, what those that it writes hold before, and its numbers: filter, choice and limit
    of planning and counting, or k and m of a heaviest job."""
    function: int
    read: list
    written: list
    setting: tuple = (0, 0, 0)


def filled(rng, length):
    """Bytes that are not zero."""
    return bytes(rng.choices(range(1, 256), k=length)) if length < 5000 else b"\xee" * length


def export_call(rng, data, *room):
    """A call of export; without room given, the outputs are long enough, too short by one, longer or empty."""
    if not room:
        lengths = tuple(map(len, reading.texts_of(reading.Sheet(data)))) if reading.refusal(data) == 0 else (20, 5)
        room = [max(length + rng.choice((0, 0, 0, 0, 1, 7, 100)), 0) for length in lengths]
        if rng.random() < 0.25:
            short = rng.randrange(2)
            room[short] = rng.choice((lengths[short] - 1, lengths[short] - 1, lengths[short] // 2, 0))
    return DeskCall(EXPORT, [data], [filled(rng, length) for length in room])


def import_call(rng, graph, counts, room=None):
    """A call of import; without room given, the output is long enough, too short by one, longer or empty."""
    if room is None:
        length = len(reading.import_cause(graph, counts, ENOUGH_SHEET_BYTES)[1]) or 100
        room = max(length + rng.choice((0, 0, 0, 0, 0, 1, 7, 100, -1, -length)), 0)
    return DeskCall(IMPORT, [graph, counts], [filled(rng, room)])


# ---- Graphs and their texts

def random_graph(rng, most_links=5, most_count=5):
    """Counts and edges: two links are joined by all pairs, by none, or by some."""
    sizes = [rng.randint(1, most_count) for _ in range(rng.randint(1, most_links))]
    first = [sum(sizes[:link]) + 1 for link in range(len(sizes))]
    edges = []
    for a in range(len(sizes)):
        for b in range(a + 1, len(sizes)):
            share = rng.choice((0, 1, 0.5, 0.9))
            edges += [(first[a] + p, first[b] + s) for p in range(sizes[a]) for s in range(sizes[b]) if rng.random() < share]
    return sizes, edges


def texts(sizes, edges):
    """The two texts of counts and edges as they stand."""
    lines = [f"p edge {sum(sizes)} {len(edges)}"] + [f"e {u} {v}" for u, v in edges]
    return "".join(f"{line}\n" for line in lines).encode(), "".join(f"{size}\n" for size in sizes).encode()


def mixed(rng, edges):
    """The edges in any order, some turned round."""
    return [(v, u) if rng.random() < 0.5 else (u, v) for u, v in rng.sample(edges, len(edges))]


def bad_edge(rng, sizes, edges):
    """The edges with one more that is inside a link or repeated, either way round."""
    link = rng.randrange(len(sizes))
    inside = [sum(sizes[:link]) + 1 + rng.randrange(sizes[link]) for _ in range(2)]
    twice = rng.choice(edges) if edges and rng.random() < 0.7 else inside
    more = [twice[::-1] if rng.random() < 0.5 else twice]
    at = rng.randint(0, len(edges))
    return edges[:at] + more + edges[at:]


def damaged_text(rng, data):
    """A text with one fault: a byte, a number or a line changed, put in or taken out."""
    return rng.choice((_byte, _number, _number, _line))(rng, data)


def _byte(rng, data):
    at = rng.randrange(len(data) + 1)
    new = bytes([rng.choice(b"0123456789 \n\r\t+-epc#\0\xff")])
    return data[:at] + rng.choice((new, new, b"")) + data[at + rng.randrange(2):]


def _number(rng, data):
    places = list(re.finditer(rb"[0-9]+", data))
    if not places:
        return data
    place = rng.choice(places)
    old = int(place.group()[:18])
    beside = [str(max(old + step, 0)) for step in (-1, 1, 2**16, 2**32, 2**63, 2**64, 10 * 2**64)]
    new = rng.choice((rng.choice(ODD_NUMBERS), rng.choice(beside)))
    return data[:place.start()] + new.encode() + data[place.end():]


def _line(rng, data):
    lines = data.splitlines(keepends=True) or [b""]
    at = rng.randrange(len(lines))
    new = rng.choice((b"", b"\n", b"c a comment\n", b"e 1 2\n", b"p edge 1 0\n", b"p col 1 0\n", b"1\n",
                      lines[at] * 2, b" " + lines[at], lines[rng.randrange(len(lines))]))
    return b"".join(lines[:at] + [new] + lines[at + 1:])


def random_calls(rng):
    """An export of a small sheet, a wide one or a damaged one; an import of a small graph, good or bad."""
    data = encode(samples.wide_sheet(rng) if rng.random() < 0.01 else samples.random_sheet(rng))
    yield export_call(rng, samples.damaged(rng, data) if rng.random() < 0.3 else data)
    sizes, edges = random_graph(rng)
    edges = mixed(rng, edges) if rng.random() < 0.7 else edges
    if rng.random() < 0.15:
        edges = bad_edge(rng, sizes, edges)
    graph, counts = texts(sizes, edges)
    for _ in range(rng.choice((0, 0, 0, 1, 1, 2))):
        graph, counts = rng.choice(((damaged_text(rng, graph), counts), (graph, damaged_text(rng, counts))))
    yield import_call(rng, graph, counts)


# ---- Every fault of a text

GRAPH, COUNTS = b"p edge 4 2\ne 1 3\ne 4 2\n", b"2\n2\n"

WRONG_GRAPHS = {
    "no last newline": GRAPH[:-1], "empty": b"", "a newline alone": b"\n", "no p line": b"e 1 3\ne 2 4\n",
    "p line last": b"e 1 3\ne 4 2\np edge 4 2\n", "no line end in the p line": b"p edge 4 0", "second p line": b"p edge 4 2\n" + GRAPH,
    "p line again": GRAPH + b"p edge 4 2\n", "only p": b"p\n", "no m": b"p edge 4\n", "three numbers": b"p edge 4 2 0\ne 1 3\ne 4 2\n",
    "comment first": b"c words\n" + GRAPH, "comment last": GRAPH + b"c words\n", "blank line first": b"\n" + GRAPH,
    "blank line last": GRAPH + b"\n", "a zero after it": GRAPH + b"\0", "a byte after it": GRAPH + b"e", "a blank after it": GRAPH + b" ",
    "byte order mark": b"\xef\xbb\xbf" + GRAPH,
}

# What is wrong with a graph text, what stands in GRAPH and what in its place.
SWAPS = {
    "CR": (b"\n", b"\r\n"), "CR alone": (b"\n", b"\r"), "tab": (b"e 1", b"e\t1"), "two blanks": (b"1 3", b"1  3"),
    "two blanks after e": (b"e 1", b"e  1"), "blank before e": (b"e 1", b" e 1"), "blank at the end": (b"1 3", b"1 3 "),
    "plus": (b"1 3", b"+1 3"), "minus": (b"1 3", b"-1 3"), "leading zero": (b"1 3", b"01 3"), "leading zero of m": (b"4 2\n", b"4 02\n"),
    "leading zero of n": (b"edge 4", b"edge 04"), "p col": (b"p edge", b"p col"), "p edges": (b"p edge", b"p edges"),
    "P EDGE": (b"p edge", b"P EDGE"), "E": (b"e 1", b"E 1"), "a for e": (b"e 1", b"a 1"), "no blank after e": (b"e 1", b"e1"),
    "one number": (b"e 1 3", b"e 1"), "edge of three": (b"e 1 3", b"e 1 3 4"), "no number": (b"e 1 3", b"e"), "point": (b"1 3", b"1.0 3"),
    "hexadecimal": (b"1 3", b"0x1 3"), "zero byte": (b"1 3", b"1\x003"), "colon for a digit": (b"1 3", b"1 :"), "slash": (b"1 3", b"/ 3"),
    "vertex 0": (b"1 3", b"0 3"), "second vertex 0": (b"1 3", b"1 0"), "vertex above n": (b"1 3", b"1 5"),
    "first vertex above n": (b"1 3", b"5 3"), "n above the sum": (b"edge 4", b"edge 5"), "n below the sum": (b"edge 4", b"edge 3"),
    "n 0": (b"edge 4", b"edge 0"), "m too large": (b"4 2\n", b"4 3\n"), "m too small": (b"4 2\n", b"4 1\n"), "m 0": (b"4 2\n", b"4 0\n"),
    "a long number": (b"edge 4", b"edge " + b"9" * 5000),
}

WRONG_COUNTS = {
    "no last newline": b"2\n2", "empty": b"", "a newline alone": b"\n", "blank line": b"2\n\n2\n", "blank line first": b"\n2\n2\n",
    "blank line last": b"2\n2\n\n", "CR": b"2\r\n2\r\n", "tab": b"2\t\n2\n", "blank": b"2 \n2\n", "blank first": b" 2\n2\n",
    "plus": b"+2\n2\n", "minus": b"-2\n2\n", "leading zero": b"02\n2\n", "two in a line": b"2 2\n", "comment": b"c\n2\n2\n",
    "a zero after it": b"2\n2\n\0", "a byte after it": b"2\n2\nx", "letter": b"2\nb\n", "count 0": b"2\n0\n2\n",
    "last count 0": b"2\n2\n0\n", "sum too small": b"2\n1\n", "sum too large": b"2\n3\n", "one more": b"2\n2\n1\n",
    "sum that wraps": b"2\n%d\n4\n" % (2**64 - 2), "sum that wraps in 32 bits": b"2\n%d\n4\n" % (2**32 - 2),
    "a count beyond 2^64": b"2\n%d\n" % (2**64 + 2), "a count beyond 2^32": b"2\n%d\n" % (2**32 + 2),
    "a long number": b"2\n2\n" + b"9" * 5000 + b"\n",
}


def malformed_texts():
    """Texts that are refused with 13: (what is wrong, graph text, count text)."""
    swaps = {**SWAPS, **wrapping_swaps()}
    yield from ((f"graph: {name}", wrong, COUNTS) for name, wrong in WRONG_GRAPHS.items())
    yield from ((f"graph: {name}", GRAPH.replace(*swap), COUNTS) for name, swap in swaps.items())
    yield from ((f"counts: {name}", GRAPH, wrong) for name, wrong in WRONG_COUNTS.items())
    yield ("65 counts", *texts([1] * 65, []))
    yield ("65 counts and edges", *texts([1] * 65, [(1, 65)]))
    yield ("sum 513", *texts([8] * 63 + [9], []))
    yield ("one count of 513", *texts([513], []))
    yield ("70,000 counts", *texts([1] * 70_000, []))
    yield ("13 before 14: no last newline", b"p edge 4 1\ne 1 2", COUNTS)
    yield ("13 before 14: a bad line after a repeated edge", b"p edge 4 3\ne 1 3\ne 3 1\ne 5 1\n", COUNTS)
    yield ("13 before 14: m counts a repeated edge once", b"p edge 4 1\ne 1 3\ne 1 3\n", COUNTS)
    yield ("13 before 14: a bad count", b"p edge 4 1\ne 1 1\n", b"2\n2\n0\n")


def wrapping_swaps():
    """Numbers that would be right if they were kept in so many values."""
    swaps = {}
    for values in (2**8, 2**16, 2**32, 2**63, 2**64, 2**128, 10**20, 10 * 2**64):
        swaps[f"n beyond {values}"] = b"edge 4", b"edge %d" % (4 + values)
        swaps[f"m beyond {values}"] = b"4 2\n", b"4 %d\n" % (2 + values)
        swaps[f"u beyond {values}"] = b"1 3", b"%d 3" % (1 + values)
        swaps[f"v beyond {values}"] = b"1 3", b"1 %d" % (3 + values)
    return swaps


def bad_edge_texts():
    """Texts that are refused with 14: (what is wrong, graph text, count text)."""
    wrong = {"inside a link": [(1, 2)], "inside, turned": [(2, 1)], "inside the last link": [(1, 3), (4, 3)], "a loop": [(1, 1)],
             "the last loop": [(4, 4)], "repeated": [(1, 3), (1, 3)], "repeated later": [(1, 3), (2, 4), (1, 3)],
             "turned": [(1, 3), (3, 1)], "turned first": [(3, 1), (2, 4), (1, 3)],
             "all pairs and one again": [(1, 3), (1, 4), (2, 3), (2, 4), (4, 2)]}
    for name, edges in wrong.items():
        yield (name, *texts([2, 2], edges))
    sizes, edges = pairs_of(8193)
    yield ("14 before 15", *texts(sizes, edges + [edges[0][::-1]]))


def fault_calls(rng):
    """Each fault with room for a sheet, with a short output and with none: (name, cause, call)."""
    for cause, faults in ((13, malformed_texts()), (14, bad_edge_texts())):
        for name, graph, counts in faults:
            for room in (ENOUGH_SHEET_BYTES, 100, 7, 0):
                yield f"{name}, {room} bytes", cause, import_call(rng, graph, counts, room)


# ---- Limits and the shape of a bench graph

def joined(sizes, missing=()):
    """All edges between links but those missing."""
    link = [number for number, size in enumerate(sizes) for _ in range(size)]
    missing = set(missing)
    return [(u, v) for u in range(1, len(link) + 1) for v in range(u + 1, len(link) + 1) if link[u - 1] != link[v - 1] and (u, v) not in missing]


def pairs_of(wanted):
    """64 links of 8 with so many pairs of kind 3, up to 63 a rule: 63 pairs, and what is left in the last rule."""
    left, missing = wanted, []
    for a in range(64):
        for b in range(a + 1, 64):
            if left:
                here = min(left, 63)
                left -= here
                missing += [(8 * a + 1 + x // 8, 8 * b + 1 + x % 8) for x in range(here, 64)]
    return EIGHTS, joined(EIGHTS, missing)


def bench_graphs(rng):
    """Graphs of hundreds of vertices and over 100,000 edges: (name, cause, counts, edges)."""
    every = joined(EIGHTS)
    yield "64 x 8, all 129,024 edges", 0, EIGHTS, every
    yield "64 x 8, edges missing everywhere", 15, EIGHTS, [edge for edge in every if rng.random() < 0.98]
    few = set(rng.sample([(a, b) for a in range(64) for b in range(a + 1, 64)], 110))
    yield "64 x 8, edges missing between few links", 0, EIGHTS, [(u, v) for u, v in every if ((u - 1) // 8, (v - 1) // 8) not in few or rng.random() < 0.7]
    yield "the longest graph text", 0, LONGEST_GRAPH, joined(LONGEST_GRAPH)
    yield "8,192 pairs", 0, *pairs_of(8192)
    yield "8,193 pairs", 15, *pairs_of(8193)


def limit_graphs():
    """Graphs at the limits of the two texts: (name, cause, counts, edges)."""
    halves = [(u, v) for u in range(1, 257) for v in range(257, 513)]
    yield "one vertex", 0, [1], []
    yield "512 vertices in a link", 0, [512], []
    yield "64 links of one vertex, no edge", 0, [1] * 64, []
    yield "64 links of one vertex, every edge", 0, [1] * 64, joined([1] * 64)
    yield "the longest count text", 0, LONGEST_COUNTS, []
    yield "two halves, all 65,536 pairs", 0, [256, 256], halves
    yield "two halves, 65,535 pairs", 15, [256, 256], halves[:-1]
    yield "two halves, 8,192 pairs", 0, [256, 256], halves[3:3 + 8 * 8192:8]
    yield "two halves, 8,193 pairs", 15, [256, 256], halves[3:3 + 7 * 8193:7]
    yield "one pair", 0, [256, 256], halves[-1:]
    yield "511 and 1", 0, [511, 1], [(u, 512) for u in range(1, 512, 2)]
    yield "64 x 8, no edge", 0, EIGHTS, []
    same = [(u, v) for u, v in joined(EIGHTS) if u % 8 == v % 8]
    fours, fifths = [edge for edge in same if edge[0] % 8 < 4], [edge for edge in same if edge[0] % 8 == 4]
    yield "2,016 rules and 8,192 pairs, the largest sheet", 0, EIGHTS, fours + fifths[:128]


def graph_calls(rng, graphs):
    """Imports of graphs, their edges mixed, with room enough, just enough and one byte less: (name, cause, call)."""
    for name, cause, sizes, edges in graphs:
        graph, counts = texts(sizes, mixed(rng, edges))
        yield name, cause, import_call(rng, graph, counts, ENOUGH_SHEET_BYTES)
        if cause == 0:
            length = len(reading.import_cause(graph, counts, ENOUGH_SHEET_BYTES)[1])
            yield f"{name}, just enough room", 0, import_call(rng, graph, counts, length)
            yield f"{name}, a byte too few", 15, import_call(rng, graph, counts, length - 1)


def all_different(sizes):
    """Lists of these sizes in which no two links share a frequency: without a rule, all their pairs are joined."""
    return [list(range(sum(sizes[:link]) + 1, sum(sizes[:link + 1]) + 1)) for link in range(len(sizes))]


def limit_exports(rng):
    """Exports of sheets of forms 1 and 2 at their limits and of their largest texts, with room enough, just enough and one byte less."""
    sheets = [data for _, data in samples.limit_sheets()]
    sheets += [encode(Sheet(all_different(sizes), [])) for sizes in (EIGHTS, LONGEST_GRAPH, LONGEST_COUNTS)]
    sheets += [encode(Sheet([[5, 6], [5]], [Rule(0, 1, LISTED, 0, [(1, 0)])]))]
    for data in sheets:
        yield export_call(rng, data, MOST_NARROW_GRAPH_BYTES if len(data) > 1_000 else 20_000, MOST_NARROW_COUNT_BYTES)
        yield export_call(rng, data, 0, 0)
        if reading.refusal(data) == 0:
            graph, counts = map(len, reading.texts_of(reading.Sheet(data)))
            for room in ((graph, counts), (graph - 1, counts), (graph, counts - 1), (graph, 0), (0, counts)):
                yield export_call(rng, data, *room)
