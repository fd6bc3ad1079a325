"""Tests of the heaviest job: guvtemi_heaviest against the reading, the size of its tree, trees of other sheets beside it, tools/sheet heaviest."""

import random
import struct
import tempfile
from pathlib import Path

import native
import reading
import samples
from air_samples import plan_call
from desk_samples import ENOUGH_SHEET_BYTES, HEAVIEST, DeskCall
from desk_tests import compare, driver, told
from harness import SHEET, need, test
from jobsheet.binary import EXACT, LISTED, SPACING, Rule, Sheet, decode, encode
from library_tests import header_number
from native import run

MOST = 2**32 - 1
ALLOWED = [(k, m) for k in range(1, 65) for m in range(1, 512 // k + 1)]
BORDERS = [(k, 512 // k) for k in (1, 2, 3, 5, 7, 31, 33, 63, 64)]
# Sizes out of range: zeros, one past each limit, and products that 8, 16, 32 or 64 bits would wrap
WRONG = [(0, 0), (0, 1), (1, 0), (0, MOST), (MOST, 0), (65, 1), (65, 7), (66, 7), (128, 4), (512, 1), (1, 513), (2, 257), (3, 171), (27, 19),
         (64, 9), (63, 9), (16, 16 * 2 + 1), (256, 1), (2, 2**31), (2, 2**31 + 1), (4, 2**30), (64, 2**26), (64, 2**26 + 8), (32, 2**27 + 1),
         (1, MOST), (MOST, 1), (MOST, MOST), (2**16, 2**16), (64, MOST), (3, 1431655766)]


def heaviest_call(k, m, room=ENOUGH_SHEET_BYTES):
    return DeskCall(HEAVIEST, [], [b"\xee" * room], (k, m, 0))


def refused_calls():
    """Each size out of range, and a few in range, in buffers that are long enough, too short by one, shorter or empty."""
    for k, m in [*WRONG, (1, 1), (3, 2), (64, 8)]:
        for room in (ENOUGH_SHEET_BYTES, ENOUGH_SHEET_BYTES + 9, ENOUGH_SHEET_BYTES - 1, 100, 1, 0):
            if (k, m) in WRONG or room < ENOUGH_SHEET_BYTES:
                yield heaviest_call(k, m, room)


def written_calls(rng):
    """Small sizes, the borders and some others, in buffers just long enough and longer."""
    sizes = [(k, m) for k, m in ALLOWED if k * m <= 24] + BORDERS + rng.sample(ALLOWED, 25)
    return [heaviest_call(k, m, ENOUGH_SHEET_BYTES + rng.choice((0, 1, 999))) for k, m in sizes]


@test("heaviest against the reading: small sizes, the borders and others; every refusal, in buffers of every kind")
def _(args):
    calls = [*written_calls(random.Random(args.seed + 40)), *refused_calls()]
    found = native.desk_answers(driver(), calls)
    need(all(returned >> 32 == 18 and not any(buffer) for (returned, _, (buffer,)), call in zip(found, calls) if call.setting[:2] in WRONG),
         "a size out of range is not refused with 18")
    need(header_number("guvtemi_desk.h", "GUVTEMI_ENOUGH_SHEET_BYTES") == ENOUGH_SHEET_BYTES, "GUVTEMI_ENOUGH_SHEET_BYTES")
    need(header_number("guvtemi_desk.h", "GUVTEMI_BAD_SIZES") == 18, "GUVTEMI_BAD_SIZES")
    return told(compare(calls, found))


def written(sizes):
    """The sheets that the call writes."""
    found = native.desk_answers(driver(), [heaviest_call(k, m) for k, m in sizes])
    return [buffer[:returned % 2**32] for returned, _, (buffer,) in found]


@test("heaviest: every size is accepted, with k links of m frequencies; the tree has just the size, at limits around it, or is stopped")
def _(args):
    rng = random.Random(args.seed + 41)
    sheets = dict(zip(ALLOWED, written(ALLOWED)))
    for (k, m), data in sheets.items():
        need(reading.refusal(data) == 0 and [len(listed) for listed in decode(data).links] == [m] * k, f"{k} x {m}: the sheet")
    calls, answers = [], []
    for (k, m), data in sheets.items():
        size = reading.heaviest_nodes(k, m)
        for limit in (size, size + 1, size - 1) if size <= 20_000 else (1, 1000):
            calls.append(plan_call(rng, data, b"", 0, 0, limit))
            answers.append((100, size) if size <= limit else (102, limit))
    for call, wanted, (returned, _, (cells,)) in zip(calls, answers, native.desk_answers(driver(), calls)):
        need((returned >> 32, returned % 2**32) == wanted, f"{(returned >> 32, returned % 2**32)}, wanted {wanted}: {str(call)[:300]}")
        k, m = (fields := struct.unpack_from("<3I", call.read[0]))[1], fields[2] // fields[1]
        plan = [1] if k == 1 else [m * (link + 1) for link in range(k)]
        need(list(struct.unpack(f"<{len(cells) // 4}I", cells))[:k] == (plan if wanted[0] == 100 else [0] * k), f"{k} x {m}: the plan")
    need((reading.heaviest_nodes(3, 2), reading.heaviest_nodes(4, 2), reading.heaviest_nodes(3, 3)) == (8, 16, 14), "the small sizes")
    return f"{len(sheets):,} sheets, {len(calls):,} runs"


def even_sheet(rng):
    """A small sheet of k links with m frequencies each, of either form, with rules that leave much or little."""
    k, m = rng.randint(1, 5), rng.randint(1, 4)
    links = [sorted(rng.sample(range(1, rng.choice((6, 12, 60))), m)) for _ in range(k)]
    rules, share = [], rng.choice((0.3, 0.6, 0.9))
    for a in range(k):
        for b in range(a + 1, k):
            kind = rng.choice((0, SPACING, EXACT, LISTED, LISTED, LISTED))
            pairs = [(p, s) for p in range(m) for s in range(m) if rng.random() < share]
            if kind == LISTED and pairs:
                rules.append(Rule(a, b, LISTED, 0, pairs))
            elif kind in (SPACING, EXACT):
                rules.append(Rule(a, b, kind, rng.randint(1, 5)))
    return k, m, Sheet(links, rules, *samples.random_form(rng, k, (1, 3, 9)))


@test("no sheet of k links with m frequencies each has a larger tree, under any filter number")
def _(args):
    rng = random.Random(args.seed + 42)
    sheets = [even_sheet(rng) for _ in range(max(args.cases, 500))]
    calls = [plan_call(rng, encode(sheet), b"", rng.choice((0, 0, 0, *range(8))), 0, 10**9) for *_, sheet in sheets]
    reached = 0
    for (k, m, sheet), (returned, _, _) in zip(sheets, native.desk_answers(driver(), calls)):
        need(returned % 2**32 <= reading.heaviest_nodes(k, m), f"{returned % 2**32} nodes: {sheet}")
        reached += returned % 2**32 == reading.heaviest_nodes(k, m)
    need(reached, "no other sheet has a tree of that size")
    return f"{len(sheets):,} sheets, {reached} of them with a tree of that size"


@test("tools/sheet heaviest: the sheet, its name, refusals, what is not written over")
def _(_):
    with tempfile.TemporaryDirectory() as name:
        folder = Path(name)
        for k, m in ((1, 1), (3, 2), (64, 8)):
            done = run([SHEET, "heaviest", k, m], cwd=folder)
            sheet = folder / f"heaviest-{k}x{m}.sheet"
            need(done.returncode == 0 and sheet.read_bytes() == reading.heaviest_sheet(k, m), f"{k} {m}: {done.stderr.decode()[:200]}")
            need(run([SHEET, "heaviest", k, m, "-o", "-"], cwd=folder).stdout == sheet.read_bytes(), f"{k} {m} to standard output")
        need(b" 14 nodes " in run([SHEET, "heaviest", "3", "3"], cwd=folder).stdout, "3 3: the size")
        need(b"over 10^56 nodes" in run([SHEET, "heaviest", "64", "8"], cwd=folder).stdout, "64 8: the size")
        (folder / "heaviest-2x2.sheet").write_bytes(b"mine")
        need(run([SHEET, "heaviest", "2", "2"], cwd=folder).returncode == 2 and (folder / "heaviest-2x2.sheet").read_bytes() == b"mine", "written over")
        for k, m in (("0", "1"), ("65", "1"), ("2", "257"), ("1", "9" * 50), (str(2**32 + 1), "1"), ("2", str(2**31))):
            done = run([SHEET, "heaviest", k, m], cwd=folder)
            need(done.returncode == 1 and b"refused 18: " in done.stderr, f"{k} {m}: {done.returncode} {done.stderr[:80]!r}")
        for words in ((), ("3",), ("x", "1"), ("-1", "2"), ("1.5", "2"), ("3", "2", "1")):
            done = run([SHEET, "heaviest", *words], cwd=folder)
            need(done.returncode == 2 and b"Traceback" not in done.stderr, f"{words}: {done.returncode}")
        need(sorted(path.name for path in folder.iterdir()) == sorted(f"heaviest-{size}.sheet" for size in ("1x1", "2x2", "3x2", "3x3", "64x8")), "files")
