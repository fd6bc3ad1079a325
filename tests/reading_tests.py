"""Tests of the reading itself: spare spacing worked out by hand, jobs with channels on air against plain enumeration. They need no library."""

import itertools
import random
import struct
from collections import Counter

import air_samples
import reading
import samples
import spare_samples
from harness import need, test
from jobsheet.binary import encode


def kept(job, channels):
    """Every assignment that keeps the rules and uses no frequency of a channel, as vertices in link order."""
    lists = [[v for v in range(first, first + count) if not any(reading.covers(c, job.khz[v]) for c in channels)] for first, count in job.rows]
    return [plan for plan in itertools.product(*lists) if all(job.spare(u, v) >= 0 for u, v in itertools.combinations(plan, 2))]


def classes_of(job, choice, listed):
    """The class of each vertex, None for a struck one, and whether some link or class is left empty."""
    live = [v for v in range(job.n) if not job.struck >> v & 1]
    cls = listed if choice == 2 else reading.greedy(job, job.graph()) if choice == 1 else job.layer
    cls = [cls[v] if v in live else None for v in range(job.n)]
    return cls, any({kind[v] for v in live} != set(range(job.k)) for kind in (cls, job.layer))


@test("the reading of jobs with channels: verdict, first plan and limits against plain enumeration, trees that fall with the filters")
def _(args):
    rng, seen = random.Random(args.seed + 20), Counter()
    for _ in range(max(args.cases // 5, 200)):
        sheet = air_samples.air_sheet(rng, 4, 4)
        channels = air_samples.good_channels(rng, sheet)
        data = encode(sheet)
        job, listed = reading.Job(data, channels), samples.classes_for(rng, sheet, channels)
        plans = kept(job, channels)
        for choice in range(3):
            sizes = {}
            for filters in range(8):
                number, size, found = reading.planned(job, filters, choice, 10**9, listed)
                if number == 12:
                    seen[12] += 1
                    break
                cls, empty = classes_of(job, choice, listed)
                by_class = [[job.khz[v] for v in plan] for plan in sorted(plans, key=lambda plan: [v for _, v in sorted((cls[v], v) for v in plan)])]
                need((number, found) == ((reading.FOUND, by_class[0]) if plans else (reading.NONE, [])), f"{number}, {found}, {channels}: {sheet}")
                need(not empty or (number, size) == (reading.NONE, 0), f"a link or class left empty: {number}, {size} nodes, {channels}: {sheet}")
                need(size or not plans, f"a plan in 0 nodes, {channels}: {sheet}")
                need(all(size <= sizes[less] for less in range(filters) if less & filters == less), f"filter {filters} enlarges the tree, {channels}: {sheet}")
                for limit in {max(size - 1, 1), max(size, 1)}:
                    stopped = reading.planned(job, filters, choice, limit, listed)
                    need(stopped == ((reading.STOPPED, limit, []) if size > limit else (number, size, found)), f"limit {limit}: {stopped}, {sheet}")
                sizes[filters] = size
                seen[number, choice, "empty" if empty else "struck" if job.struck else "whole"] += 1
        for plan in itertools.product(*([job.khz[v] for v in range(first, first + count)] for first, count in job.rows)):
            said = reading.check_job(data, channels, struct.pack(f"<{job.k}I", *plan))
            wanted = any(list(plan) == [job.khz[v] for v in one] for one in plans)
            need(said == (reading.YES if wanted else reading.NO), f"the check says {said} to {plan}, {channels}: {sheet}")
    arose = [seen[reading.FOUND, choice, state] and seen[reading.NONE, choice, state] for choice in (0, 2) for state in ("struck", "whole")]
    need(all(arose) and seen[reading.FOUND, 1, "struck"] and all(seen[reading.NONE, choice, "empty"] for choice in range(3)) and seen[12], f"{dict(seen)}")
    return f"{sum(seen.values()):,} runs, {sum(count for key, count in seen.items() if key != 12 and key[2] == 'struck'):,} with struck frequencies"


# ---- Spare spacing

@test("the reading's spare spacing: pairs worked out by hand")
def _(_):
    pairs = list(spare_samples.known_pairs())
    for wanted, sheet in pairs:
        found = reading.Sheet(encode(sheet))
        need(found.spare(0, 1) == found.spare(1, 0) == wanted, f"{found.spare(0, 1)}, wanted {wanted}: {sheet}")
    low, high = min(wanted for wanted, _ in pairs), max(wanted for wanted, _ in pairs)
    need((low, high) == (spare_samples.LEAST, spare_samples.MOST), f"from {low} to {high}")
    return f"{len(pairs)} pairs, {low:,} to {high:,} half kHz"


@test("the reading's tables: worked out by hand")
def _(_):
    tables = list(spare_samples.known_tables())
    for name, number, numbers, (data, channels, cells) in tables:
        room = 4 * len(numbers) + 7
        found = reading.spares(data, channels, cells, room)
        need(found == (number, struct.pack(f"<{len(numbers)}i", *numbers) + bytes(7)), f"{name}: {found}, wanted {number}, {numbers}")
    return f"{len(tables)} tables"


@test("the reading's spare spacing: zero or more just where the rules allow the pair, within its range")
def _(args):
    rng, seen = random.Random(args.seed + 27), Counter()
    for _ in range(max(args.cases // 3, 300)):
        sheet = samples.wide_sheet(rng) if rng.random() < 0.02 else samples.random_sheet(rng)
        found, rules = reading.Sheet(encode(sheet)), {(rule.a, rule.b): rule for rule in sheet.rules}
        pairs = list(itertools.combinations(range(found.n), 2))
        for u, v in rng.sample(pairs, min(len(pairs), 100)):
            a, b = found.layer[u], found.layer[v]
            if a != b:
                rule, spare = rules.get((a, b)), found.spare(u, v)
                allowed = samples.allows(sheet, rule, found.khz[u], found.khz[v])
                need((spare >= 0) == allowed and spare_samples.LEAST <= spare <= spare_samples.MOST, f"{spare} half kHz, {allowed}: {sheet}, {u}, {v}")
                seen[rule.kind if rule else 0, sheet.form(), allowed] += 1
    need(len(seen) == 24, f"{dict(seen)}")  # no rule and three kinds, three forms, both answers
    return f"{sum(seen.values()):,} pairs"
