"""Tests of the desk's spare spacing, guvtemi_spares, and of the header's reading of its table."""

import random
import struct
from collections import Counter

import native
import reading
import spare_samples
from air_samples import check_call, plan_call
from desk_tests import compare, compare_named, driver, told
from harness import EXAMPLES, need, test
from jobsheet.binary import Sheet, encode
from library_tests import header_number
from native import BUILD, ROOT, WARNINGS, run


@test("spares against the reading: random and damaged sheets, cells, channels and tables")
def _(args):
    rng, seen, tables = random.Random(args.seed + 28), Counter(), Counter()
    for _ in range(0, args.cases, 500):
        calls = [spare_samples.random_spares_call(rng) for _ in range(500)]
        found = native.desk_answers(driver(), calls)
        seen += compare(calls, found)
        tables += Counter((returned, any(table)) for returned, _, (table,) in found)
    missing = [number for number in (*range(9), 10, 16, 17, 100) if not seen["spares", number]]
    need(not missing, f"no call gave {missing}")
    need(tables[0, True] and tables[0, False] and tables[100, True], f"{dict(tables)}")
    return f"{told(seen)}; no with a table: {tables[0, True]}"


@test("spares: tables worked out by hand, the ends of the range among them, with just enough room and with more")
def _(args):
    named = list(spare_samples.known_calls(random.Random(args.seed + 29)))
    found = native.desk_answers(driver(), [call for *_, call in named])
    for (name, number, table, _), (returned, _, (after,)) in zip(named, found):
        need(returned == number and after == table, f"{name}: returned {returned}, wanted {number}; {after[:64].hex()}, wanted {table[:64].hex()}")
    return told(compare([call for *_, call in named], found))


@test("spares: tables of every length around k x k places")
def _(args):
    return told(compare_named(spare_samples.length_calls(random.Random(args.seed + 30))))


@test("spares: every refusal in its place, 10 for cells and for the table")
def _(args):
    return told(compare_named(spare_samples.order_calls(random.Random(args.seed + 31))))


@test("spares: sheets at their limits, and 64 links at the ends of the range")
def _(args):
    calls = list(spare_samples.limit_spares_calls(random.Random(args.seed + 32)))
    found = native.desk_answers(driver(), calls)
    numbers = {number for _, _, (table,) in found for number, in struct.iter_unpack("<i", table[:len(table) // 4 * 4])}
    need((min(numbers), max(numbers)) == (spare_samples.LEAST, spare_samples.MOST), f"from {min(numbers)} to {max(numbers)}")
    return told(compare(calls, found))


@test("spares answers as the check does, and says zero or more of every two links of a plan")
def _(args):
    rng = random.Random(args.seed + 33)
    calls = [spare_samples.random_spares_call(rng) for _ in range(max(args.cases // 3, 300))]
    for call in calls:
        call.written[0] = bytes(spare_samples.MOST_TABLE_BYTES)
    checks = [check_call(*call.read) for call in calls]
    for call, (first, *_), (second, *_) in zip(calls, native.desk_answers(driver(), calls), native.desk_answers(driver(), checks)):
        need(first == second, f"spares {first}, check {second}: {str(call)[:400]}")
    planned = [plan_call(rng, *call.read[:2], limit=200) for call in calls]
    planned += [plan_call(rng, path.read_bytes(), b"") for path in sorted(EXAMPLES.glob("*.sheet"))]
    plans = [(call, cells) for call, (returned, _, (cells,)) in zip(planned, native.desk_answers(driver(), planned)) if returned >> 32 == reading.FOUND]
    asked = [spare_samples.spares_call(rng, *call.read[:2], cells, spare_samples.MOST_TABLE_BYTES) for call, cells in plans]
    for call, (returned, _, (table,)) in zip(asked, native.desk_answers(driver(), asked)):
        numbers = struct.unpack(f"<{len(table) // 4}i", table)
        need(returned == reading.YES and min(numbers) == 0, f"{returned}, least {min(numbers)}: {str(call)[:400]}")
    need(len(asked) > 20, f"{len(asked)} plans")
    return f"{len(calls):,} calls, {len(asked)} plans"


READER = """
#include "guvtemi_desk.h"
#include <stdio.h>

int main(void)
{
    static uint8_t table[GUVTEMI_MOST_TABLE_BYTES];
    size_t k = (size_t)getchar();
    if (fread(table, 4, k * k, stdin) != k * k)
        return 2;
    for (size_t a = 0; a < k; a++)
        for (size_t b = 0; b < k; b++)
            printf("%ld\\n", (long)guvtemi_spare(table, k, a, b));
    return 0;
}
"""


@test("the header's guvtemi_spare reads every place of a table, in C and C++; its table bytes are those of 128 links")
def _(args):
    rng = random.Random(args.seed + 34)
    BUILD.mkdir(parents=True, exist_ok=True)
    edges = [0, 1, -1, 255, -256, 65_536, spare_samples.LEAST, spare_samples.MOST, 2**31 - 1, -2**31, -2**31 + 1]
    for compiler, kind in (("gcc", "c"), ("g++", "c++")):
        program = BUILD / f"reader-{kind}"
        done = run([compiler, *WARNINGS, "-O2", "-I", ROOT / "include", "-x", kind, "-o", program, "-"], input=READER.encode())
        need(done.returncode == 0, f"{compiler}: {done.stderr.decode()[:400]}")
        for k in (1, 2, 5, 64, 128):
            numbers = [rng.choice((rng.choice(edges), rng.randrange(-2**31, 2**31))) for _ in range(k * k)]
            printed = run([program], input=bytes([k]) + struct.pack(f"<{k * k}i", *numbers)).stdout.decode().split()
            need(printed == list(map(str, numbers)), f"{compiler}, {k} links: {printed[:9]}, wanted {numbers[:9]}")
    need(header_number("guvtemi_desk.h", "GUVTEMI_MOST_TABLE_BYTES") == spare_samples.MOST_TABLE_BYTES, "GUVTEMI_MOST_TABLE_BYTES")
    data = encode(Sheet([[1]] * 128, [], [200] * 128))
    calls = [spare_samples.spares_call(rng, data, b"", struct.pack("<I", 1) * 128, spare_samples.MOST_TABLE_BYTES - less) for less in range(2)]
    need([returned for returned, *_ in native.desk_answers(driver(), calls)] == [0, 10], "128 links do not need just so many bytes")
