"""The proved calls of include/guvtemi_desk.h: planning with channels on air, counting the plans, the spare spacing of a plan, a sheet's graph as
DIMACS text (docs/DIMACS.md) and back, the heaviest job."""

import ctypes
import itertools
import os
import re
import shutil
import struct
import subprocess
import sys
from pathlib import Path

ROOT = Path(__file__).resolve().parents[2]
ARCHIVE = ROOT / "crates" / "desk" / "out" / "libdesk.a"
SHARED = ROOT / "target" / "desk" / "libdesk.so"
MOST_GRAPH_BYTES, MOST_COUNT_BYTES, ENOUGH_SHEET_BYTES = 5_117_642, 355, 65_536

SLICE = [ctypes.c_void_p, ctypes.c_size_t]

CAUSES = {
    13: "a text is malformed, or beyond 64 links or 512 frequencies",
    14: "an edge inside a link, or repeated, either way round",
    15: "more than 8,192 pairs between links that are joined by some pairs and not by all",
    18: "no links, more than 64, no frequencies, or more than 512 in all",
}

ADVICE = {
    13: "docs/DIMACS.md defines both texts.",
    14: "Two frequencies of one link are never joined; write each edge once.",
    15: "Join more links by all pairs or by none.",
    18: "Give 1 to 64 links, and frequencies for each so that links times frequencies is at most 512.",
}

NUMBER = rb"(0|[1-9][0-9]*)"
COUNT_LINE, HEAD_LINE, EDGE_LINE = (re.compile(form.replace(b"N", NUMBER)) for form in (b"N", b"p edge N N", b"e N N"))


class NoAnswer(Exception):
    """The proved code could not be asked, or what it said cannot be used; the text says what to do."""


def ready():
    """Makes the library, where it is missing."""
    _library()


def plan(sheet, channels, links, setting):
    """(number, nodes, the kHz of so many links) of the bytes of a sheet and of a channel list, under a setting (filter, choice, limit)."""
    cells = ctypes.create_string_buffer(4 * links)
    function = _function("guvtemi_plan_job", SLICE * 2 + [ctypes.c_uint32] * 3 + SLICE * 2)
    returned = function(sheet, len(sheet), channels, len(channels), *setting, None, 0, cells, len(cells))
    return returned >> 32, returned % 2**32, list(struct.unpack(f"<{links}I", cells.raw))


def count(sheet, channels, sizes, setting):
    """(number, nodes, the kHz of each link, the counts of each link's frequencies) of such bytes, whose links have so many frequencies each, under
    such a setting."""
    cells, counts = ctypes.create_string_buffer(4 * len(sizes)), ctypes.create_string_buffer(8 * sum(sizes))
    function = _function("guvtemi_count_job", SLICE * 2 + [ctypes.c_uint32] * 3 + SLICE * 3)
    returned = function(sheet, len(sheet), channels, len(channels), *setting, None, 0, cells, len(cells), counts, len(counts))
    every = iter(struct.unpack(f"<{sum(sizes)}Q", counts.raw))
    return (returned >> 32, returned % 2**32, list(struct.unpack(f"<{len(sizes)}I", cells.raw)),
            [list(itertools.islice(every, size)) for size in sizes])


def spares(sheet, channels, khz):
    """(the check's number, the spare spacing of every two links in half kHz, a row for each link) of the bytes of a sheet and of a channel list
    and of a frequency for each link."""
    links = len(khz)
    cells, table = struct.pack(f"<{links}I", *khz), ctypes.create_string_buffer(4 * links * links)
    function = _function("guvtemi_spares", SLICE * 4)
    number = function(sheet, len(sheet), channels, len(channels), cells, len(cells), table, len(table))
    return number, [list(row) for row in struct.iter_unpack(f"<{links}i", table.raw)]


def export(sheet):
    """(cause, graph text, count text) of the bytes of a sheet."""
    graph, counts = ctypes.create_string_buffer(MOST_GRAPH_BYTES), ctypes.create_string_buffer(MOST_COUNT_BYTES)
    returned = _function("guvtemi_export", SLICE * 3)(sheet, len(sheet), graph, len(graph), counts, len(counts))
    return returned >> 48, graph.raw[:returned % 2**32], counts.raw[:(returned >> 32) % 2**16]


def import_texts(graph, counts):
    """(cause, the bytes of a sheet) of two texts."""
    sheet = ctypes.create_string_buffer(ENOUGH_SHEET_BYTES)
    returned = _function("guvtemi_import", SLICE * 3)(graph, len(graph), counts, len(counts), sheet, len(sheet))
    return returned >> 32, sheet.raw[:returned % 2**32]


def heaviest(links, each):
    """(cause, the bytes of a sheet) of the heaviest job of so many links with so many frequencies each; numbers of 32 bits."""
    sheet = ctypes.create_string_buffer(ENOUGH_SHEET_BYTES)
    returned = _function("guvtemi_heaviest", [ctypes.c_uint32] * 2 + SLICE)(links, each, sheet, len(sheet))
    return returned >> 32, sheet.raw[:returned % 2**32]


def heaviest_nodes(links, each):
    """How many nodes that job takes under filter 0 and choice 0."""
    return 1 + sum(each**depth for depth in range(links))


# ---- The shared object

def _function(name, arguments):
    function = getattr(_library(), name, None)
    if function is None:
        raise NoAnswer(f"the desk library {ARCHIVE} is from before {name}. Build it again with 'rt lib' in {ROOT}/crates/desk.")
    function.restype = ctypes.c_uint64
    function.argtypes = arguments
    return function


def _library():
    """The shared object of the archive, made where it is missing or older."""
    if not ARCHIVE.exists():
        _prove()
    try:
        if not SHARED.exists() or SHARED.stat().st_mtime < ARCHIVE.stat().st_mtime:
            _link()
        return ctypes.CDLL(str(SHARED))
    except OSError as error:
        raise NoAnswer(f"the library {SHARED} cannot be used ({error}). Remove it and run this again.") from None


def _prove():
    if not shutil.which("rt"):
        raise NoAnswer(f"the desk library is not built. Build it with 'rt lib' in {ROOT}/crates/desk (this needs the Rattle kit).")
    print("tools/sheet: the desk library is not built yet; proving and building it, which takes long the first time", file=sys.stderr, flush=True)
    with subprocess.Popen(["rt", "lib"], cwd=ROOT / "crates" / "desk", stdin=subprocess.DEVNULL, stdout=subprocess.PIPE, stderr=subprocess.STDOUT,
                          text=True, errors="replace") as rt:
        for line in rt.stdout:
            if line.startswith("rt: "):
                print(f"tools/sheet: {re.sub(r'^chose --jobs [0-9]+ for', 'proving', line[4:])}", end="", file=sys.stderr, flush=True)
    if rt.returncode or not ARCHIVE.exists():
        raise NoAnswer(f"the desk library was not built: 'rt lib' in {ROOT}/crates/desk says why.")


def _link():
    compiler = os.environ.get("CC") or "gcc"
    if not shutil.which(compiler):
        raise NoAnswer(f"there is no C compiler {compiler}. Install gcc, or name another one: CC=clang tools/sheet ..")
    SHARED.parent.mkdir(parents=True, exist_ok=True)
    made = SHARED.with_suffix(f".{os.getpid()}")  # two calls at once do not see half a file
    done = subprocess.run([compiler, "-shared", "-o", str(made), "-Wl,--whole-archive", str(ARCHIVE), "-Wl,--no-whole-archive"],
                          stdout=subprocess.PIPE, stderr=subprocess.STDOUT, check=False)
    if done.returncode:
        raise NoAnswer(f"{compiler} makes no shared object of {ARCHIVE}: {done.stdout.decode(errors='replace').strip()[:300]}")
    made.replace(SHARED)


# ---- Where a text is malformed

def malformed(graph, counts):
    """Where cause 13 lies: (0 the graph text or 1 the count text, the line's number, what was expected, the line), or None."""
    return _bad_count(counts) or _bad_edge(graph, sum(map(int, counts.split())))


def _bad_count(counts):
    total = 0
    for number, line, ended in _lines(counts):
        size = _numbers(COUNT_LINE, line)
        if not ended or not size or size[0] < 1:
            return 1, number, _expected("a number from 1 on", ended), line
        total += size[0]
        if number > 64:
            return 1, number, "at most 64 lines", line
        if total > 512:
            return 1, number, "counts that sum to at most 512", line
    return None


def _bad_edge(graph, n):
    lines = _lines(graph)
    for number, line, ended in lines:
        if not ended or not _numbers(EDGE_LINE if number > 1 else HEAD_LINE, line):
            return 0, number, _expected("'e u v'" if number > 1 else "'p edge n m'", ended), line
    edges, head = len(lines) - 1, lines[0][1]
    if _numbers(HEAD_LINE, head) != [n, edges]:
        return 0, 1, f"'p edge {n} {edges}', by the sum of the counts and the number of lines that follow", head
    for number, line, _ in lines[1:]:
        if not all(1 <= vertex <= n for vertex in _numbers(EDGE_LINE, line)):
            return 0, number, f"vertices from 1 to {n}, the sum of the counts", line
    return None


def _numbers(form, line):
    """The numbers of a line of this form, or None; one of 19 digits or more is told as 10^18, which is beyond every limit."""
    found = form.fullmatch(line)
    return found and [int(digits) if len(digits) < 19 else 10**18 for digits in found.groups()]


def _expected(what, ended):
    return what if ended else f"{what} and a newline"


def _lines(text):
    """(number, line, whether a newline ends it) of each line; an empty text has one, without its end."""
    *lines, rest = text.split(b"\n")
    ended = [(number, line, True) for number, line in enumerate(lines, 1)]
    return ended + [(len(lines) + 1, rest, False)] if rest or not lines else ended
