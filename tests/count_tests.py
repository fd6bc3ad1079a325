"""Tests of counting, guvtemi_count_job: against the reading, known counts, what holds of every counts, and the header's reading of them."""

import itertools
import random
import struct
from collections import Counter

import air_samples
import count_samples
import native
import reading
import samples
from air_samples import plan_call
from count_samples import ENOUGH_COUNT_BYTES, count_call
from desk_tests import compare, compare_named, driver, told
from harness import EXAMPLES, need, test
from jobsheet.binary import Sheet, decode, encode
from library_tests import header_number
from native import BUILD, ROOT, WARNINGS, run
from reading_tests import kept


def numbers_of(counts):
    """The counts in their bytes."""
    return list(struct.unpack(f"<{len(counts) // 8}Q", counts[:len(counts) // 8 * 8]))


@test("count against the reading: random and damaged sheets, settings, channels and room")
def _(args):
    rng, seen = random.Random(args.seed + 50), Counter()
    for _ in range(0, args.cases, 500):
        calls = [count_samples.random_count_call(rng) for _ in range(500)]
        seen += compare(calls, native.desk_answers(driver(), calls))
    missing = [number for number in (*range(1, 11), 12, 16, 17, 19, 100, 101, 102) if not seen["count", number]]
    need(not missing, f"no call gave {missing}")
    return told(seen)


@test("count: jobs worked out by hand, M1 and Example 1 among them, under every filter, at limits around the longer tree's size")
def _(args):
    named = list(count_samples.known_calls(random.Random(args.seed + 51)))
    found = native.desk_answers(driver(), [call for *_, call in named])
    for (name, number, counts, _), (returned, _, (_, after)) in zip(named, found):
        need(returned == number and after == counts, f"{name}: {returned >> 32} in {returned % 2**32} nodes, wanted {number >> 32} in {number % 2**32}; "
             f"counts {numbers_of(after)[:20]}, wanted {numbers_of(counts)[:20]}")
    return told(compare([call for *_, call in named], found))


@test("count: sheets on which a slip shows and random jobs with channels, every filter and choice, limits around the longer tree's size")
def _(args):
    rng = random.Random(args.seed + 52)
    jobs = [*count_samples.telling_jobs(), *count_samples.small_jobs(rng, max(args.cases // 60, 20))]
    calls = list(count_samples.size_calls(rng, jobs))
    return told(compare(calls, native.desk_answers(driver(), calls)))


@test("count: room of every length around n counts")
def _(args):
    return told(compare_named(count_samples.length_calls(random.Random(args.seed + 53))))


@test("count: every refusal in its place, 19 after all others")
def _(args):
    return told(compare_named(count_samples.order_calls(random.Random(args.seed + 54))))


@test("count: sheets at their limits")
def _(args):
    calls = list(count_samples.limit_count_calls(random.Random(args.seed + 55)))
    return told(compare(calls, native.desk_answers(driver(), calls)))


@test("count: many plans; each count and the size of the tree as worked out, and stopped at one node less")
def _(args):
    rng, most = random.Random(args.seed + 56), 0
    for name, sheet, size, count in count_samples.large_counts():
        data, n, k = encode(sheet), sheet.frequencies(), len(sheet.links)
        settings = [(filters, limit) for filters in (0, 2, 7) for limit in (size, size - 1)] if size < 500_000 else [(0, size), (0, size - 1)]
        calls = [count_call(rng, data, b"", filters, 0, limit) for filters, limit in settings]
        for (filters, limit), (returned, changed, (cells, counts)) in zip(settings, native.desk_answers(driver(), calls)):
            ended = limit == size
            need(returned == ((100 if ended else 102) << 32) + limit and not changed, f"{name}, filter {filters}, limit {limit}: {returned:#x}")
            need(numbers_of(counts) == ([count] * n if ended else [0] * n) + [0] * (ENOUGH_COUNT_BYTES // 8 - n), f"{name}, filter {filters}: other counts")
            need(any(cells[:4 * k]) == ended and not any(cells[4 * k:]), f"{name}, filter {filters}: cells {cells.hex()}")
        most = max(most, count)
    return f"counts up to {most:,}"


@test("count: verdict and plan are planning's, a link's counts sum to the number of plans, and all filters and partitions count the same")
def _(args):
    rng, seen = random.Random(args.seed + 57), Counter()
    jobs = [(encode(sheet), channels) for sheet, channels in count_samples.telling_jobs()]
    jobs += [(encode(air_samples.air_sheet(rng)), b"") for _ in range(max(args.cases // 30, 60))]
    jobs += [(data, air_samples.good_channels(rng, decode(data))) for data, _ in jobs]
    runs = []
    for data, channels in jobs:
        classes = samples.classes_for(rng, decode(data), channels)
        runs += [(data, channels, filters, choice, 1_000_000, classes) for choice in range(3) for filters in range(8)]
    found = native.desk_answers(driver(), [count_call(rng, *one) for one in runs])
    plain = native.desk_answers(driver(), [plan_call(rng, *one) for one in runs])
    every = {}
    for (data, channels, *_), (returned, _, (cells, counts)), (first, _, (plan,)) in zip(runs, found, plain):
        sheet, number, listed = decode(data), returned >> 32, numbers_of(counts)
        need(number == first >> 32 and cells == plan and (number != 101 or returned == first) and returned >= first,
             f"count says {returned:#x}, plan {first:#x}: {sheet}, {channels}")
        seen[number] += 1
        if number == 12:
            continue
        ends = list(itertools.accumulate(map(len, sheet.links), initial=0))
        sums = {sum(listed[start:end]) for start, end in zip(ends, ends[1:])}
        need(len(sums) == 1 and not any(listed[ends[-1]:]) and (number == 100) == any(sums), f"{number}, sums {sums}: {sheet}, {channels}, {listed[:40]}")
        need(every.setdefault((data, channels), listed) == listed, f"filters or partitions count otherwise: {sheet}, {channels}")
        seen["more plans than one"] += max(sums) > 1
    need(all(seen[number] for number in (12, 100, 101, "more plans than one")), f"{dict(seen)}")
    return f"{len(jobs)} jobs, {len(runs):,} runs twice"


@test("count: the examples' plans under several filters, within a limit")
def _(args):
    rng, seen = random.Random(args.seed + 58), {}
    for name, channels in (("edges", b""), ("no-plan", b""), ("on-air", bytes((24, 27, 28, 33, 43))), ("theatre", b"")):
        data = (EXAMPLES / f"{name}.sheet").read_bytes()
        calls = [count_call(rng, data, channels, filters, 0, 2_000_000) for filters in (0, 2, 7)]
        found = [(returned >> 32, counts) for returned, _, (_, counts) in native.desk_answers(driver(), calls)]
        ended = {counts for number, counts in found if number != reading.STOPPED}
        need(len(ended) <= 1 and all(not any(counts) for number, counts in found if number != reading.FOUND), f"{name}: {[number for number, _ in found]}")
        seen[name] = [sum(numbers_of(counts)[:len(decode(data).links[0])]) if number != reading.STOPPED else "stopped" for number, counts in found]
    return "; ".join(f"{name}: {', '.join(f'{one:,}' if one != 'stopped' else one for one in plans)}" for name, plans in seen.items())


# ---- The reading itself

@test("the reading's counts: the tree's are those of plain enumeration, under every filter and partition; its longer tree falls with the filters")
def _(args):
    rng, seen = random.Random(args.seed + 59), Counter()
    for sheet, channels in [*count_samples.telling_jobs(), *count_samples.small_jobs(rng, max(args.cases // 20, 100))]:
        job, listed = reading.Job(encode(sheet), channels), samples.classes_for(rng, sheet, channels)
        wanted, plans = reading.counts_of(job), reading.plans_of(job)
        need(list(map(tuple, plans)) == kept(job, channels), f"{len(plans)} plans: {sheet}, {channels}")
        for choice in range(3):
            sizes = {}
            for filters in range(8):
                number, size, plan, counts = reading.counted(job, filters, choice, 10**9, listed)
                if number == 12:
                    break
                first = reading.planned(job, filters, choice, 10**9, listed)
                need((counts, number, plan) == (wanted, first[0], first[2]), f"{number}, {plan}, {counts}, wanted {first}, {wanted}: {sheet}")
                need((number == reading.FOUND) == bool(plans), f"{number} with {len(plans)} plans: {sheet}")
                need(size == first[1] if not plans else size >= max(first[1], len(plans) + 1), f"{size} nodes, {first[1]} to the first plan: {sheet}")
                need(all(size <= sizes[less] for less in range(filters) if less & filters == less), f"filter {filters} enlarges the tree: {sheet}, {channels}")
                for limit in {max(size - 1, 1), max(size, 1)}:
                    stopped = reading.counted(job, filters, choice, limit, listed)
                    need(stopped == ((reading.STOPPED, limit, [], [0] * job.n) if size > limit else (number, size, plan, counts)), f"limit {limit}: {sheet}")
                sizes[filters] = size
                seen[number, choice] += 1
    need(all(seen[number, choice] for number in (reading.FOUND, reading.NONE) for choice in range(3)), f"{dict(seen)}")
    for name, sheet, channels, sizes, counts in count_samples.known_counts():
        job = reading.Job(encode(sheet), channels)
        found = [reading.counted(job, filters, 0, 10**9, b"") for filters in range(8)]
        need([size for _, size, _, _ in found] == sizes, f"{name}: nodes {[size for _, size, _, _ in found]}")
        need(all(one == counts for *_, one in found) and reading.counts_of(job) == counts, f"{name}: other counts")
    return f"{sum(seen.values()):,} runs"


# ---- The header

READER = """
#include "guvtemi_desk.h"
#include <stdio.h>

int main(void)
{
    static uint8_t counts[GUVTEMI_ENOUGH_PLAN_COUNT_BYTES];
    size_t n = fread(counts, 8, sizeof counts / 8, stdin);
    for (size_t v = 0; v < n; v++)
        printf("%llu\\n", (unsigned long long)guvtemi_plans(counts, v));
    return 0;
}
"""


@test("the header's guvtemi_plans reads every count, in C and C++; its room is that of 1,024 frequencies")
def _(args):
    rng = random.Random(args.seed + 60)
    BUILD.mkdir(parents=True, exist_ok=True)
    edges = [0, 1, 255, 256, 2**31, 2**32 - 1, 2**32, 2**63 - 1, 2**63, 2**64 - 1]
    for compiler, kind in (("gcc", "c"), ("g++", "c++")):
        program = BUILD / f"plans-{kind}"
        done = run([compiler, *WARNINGS, "-Wno-long-long", "-O2", "-I", ROOT / "include", "-x", kind, "-o", program, "-"], input=READER.encode())
        need(done.returncode == 0, f"{compiler}: {done.stderr.decode()[:400]}")
        for n in (1, 4, 512, 1_024):
            numbers = [rng.choice((rng.choice(edges), rng.randrange(2**64))) for _ in range(n)]
            printed = run([program], input=struct.pack(f"<{n}Q", *numbers)).stdout.decode().split()
            need(printed == list(map(str, numbers)), f"{compiler}, {n} counts: {printed[:9]}, wanted {numbers[:9]}")
    need(header_number("guvtemi_desk.h", "GUVTEMI_ENOUGH_PLAN_COUNT_BYTES") == ENOUGH_COUNT_BYTES, "GUVTEMI_ENOUGH_PLAN_COUNT_BYTES")
    need(header_number("guvtemi_desk.h", "GUVTEMI_FEW_COUNTS") == 19, "GUVTEMI_FEW_COUNTS")
    data = encode(Sheet([list(range(1, 1_025))], [], [200]))
    calls = [count_call(rng, data, counts_len=ENOUGH_COUNT_BYTES - less) for less in range(2)]
    need([returned >> 32 for returned, *_ in native.desk_answers(driver(), calls)] == [100, 19], "1,024 frequencies do not need just so many bytes")
