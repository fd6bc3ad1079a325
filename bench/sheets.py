"""Sheets to measure with, each made from a fixed seed."""

import itertools
import math
import random
from dataclasses import dataclass

from jobsheet import desk
from jobsheet.binary import EXACT, LISTED, MOST_KHZ, MOST_RULES, SPACING, Rule, Sheet, decode

RASTER = 25  # kHz


@dataclass
class Sample:
    """A sheet with the family it belongs to."""
    family: str
    name: str
    sheet: Sheet


def spaced(seed, links, frequencies, band, density, value):
    """Random lists in a band of so many kHz; a kind 1 rule of this value for each two links with this likelihood."""
    rng = random.Random(seed)
    lists = [sorted(600_000 + RASTER * slot for slot in rng.sample(range(band // RASTER), frequencies)) for _ in range(links)]
    rules = [Rule(a, b, SPACING, value) for a in range(links) for b in range(a + 1, links) if rng.random() < density]
    return Sheet(lists, rules)


def edged(seed, links, frequencies, band, density, value):
    """The same in form 2, or 3 where the sheet is too large for 2: links 25 to 375 kHz wide, this value between edges."""
    sheet, rng = spaced(seed, links, frequencies, band, density, value), random.Random(seed)
    return Sheet(sheet.links, sheet.rules, [rng.choice((25, 200, 375)) for _ in sheet.links])


def tables(seed, links, frequencies, density, allowed):
    """A kind 3 rule of so many random pairs for each two links with this likelihood."""
    rng = random.Random(seed)
    lists = [sorted(600_000 + RASTER * slot for slot in rng.sample(range(400), frequencies)) for _ in range(links)]
    every = [(p, q) for p in range(frequencies) for q in range(frequencies)]
    rules = [Rule(a, b, LISTED, 0, sorted(rng.sample(every, allowed)))
             for a in range(links) for b in range(a + 1, links) if rng.random() < density]
    return Sheet(lists, rules)


def theatre(seed):
    """16 links: twelve body packs and a handheld in channel 38, two ear monitors and a talkback elsewhere."""
    rng = random.Random(seed)
    pack, ears = range(606_500, 613_501, RASTER), range(823_000, 832_001, RASTER)
    lists = [sorted(rng.sample(pack, 7)) for _ in range(13)] + [sorted(rng.sample(ears, 6)) for _ in range(3)]
    rules = [Rule(a, b, SPACING, 250) for a in range(13) for b in range(a + 1, 13)]
    rules += [Rule(a, b, SPACING, 1000) for a, b in ((13, 14), (14, 15))]
    rules.append(Rule(13, 15, EXACT, abs(lists[13][2] - lists[15][3]) or RASTER))
    return Sheet(lists, sorted(rules, key=lambda rule: (rule.a, rule.b)))


def festival(seed):
    """96 links on six stages in a row, 16 a stage: ten body packs, four ear monitors, a talkback and its return 3,000 kHz above. Any two links of
    one stage are spaced, and, less far, any two of neighbouring stages."""
    rng = random.Random(seed)
    packs, ears, talk = range(606_000, 618_001, RASTER), range(823_000, 829_501, RASTER), range(863_000, 865_001, RASTER)
    lists, rules = [], []
    for _ in range(6):
        lists += [sorted(rng.sample(band, 10)) for band in [packs] * 10 + [ears] * 4 + [talk]]
        lists.append([khz + 3000 for khz in lists[-1]])
    for a, b in itertools.combinations(range(len(lists)), 2):
        stages = b // 16 - a // 16
        if stages == 0 and a % 16 == 14:
            rules.append(Rule(a, b, EXACT, 3000))
        elif stages < 2:
            rules.append(Rule(a, b, SPACING, 100 if stages else 300))
    return Sheet(lists, rules, ([200] * 10 + [375] * 4 + [25] * 2) * 6)


def crowded(links, frequencies):
    """More links than frequencies, all in one room: no plan."""
    lists = [[606_500 + 500 * i for i in range(frequencies)] for _ in range(links)]
    return Sheet(lists, [Rule(a, b, SPACING, 400) for a in range(links) for b in range(a + 1, links)])


def heaviest(links, frequencies):
    """The heaviest job of so many links with so many frequencies each, as the proved call writes it."""
    cause, data = desk.heaviest(links, frequencies)
    if cause:
        raise ValueError(f"{links} x {frequencies}: refused {cause}")
    return decode(data)


def document_example_1():
    """Document 000, Example 1."""
    pairs = {(0, 1): [(0, 0), (0, 1), (1, 2), (2, 2)], (0, 2): [(0, 0), (1, 1)], (0, 3): [(0, 0)],
             (1, 2): [(0, 0), (1, 0), (1, 1), (2, 1)], (1, 3): [(0, 0)], (2, 3): [(0, 0), (1, 1), (1, 2)]}
    return Sheet([[1, 3, 5], [1, 2, 3], [5, 6], [1, 2, 3]], [Rule(a, b, LISTED, 0, listed) for (a, b), listed in pairs.items()])


def document_example_3():
    """Document 000, Example 3."""
    pairs = {(0, 1): [(0, 0), (1, 0), (1, 1), (1, 2)], (0, 2): [(0, 0)], (1, 2): [(1, 0)]}
    return Sheet([[1, 2], [1, 2, 3], [1]], [Rule(a, b, LISTED, 0, listed) for (a, b), listed in pairs.items()])


def samples(quick=False):
    """Every sheet that bench/run measures. Near the edge, about half of the sheets of such numbers have a plan."""
    most = 1 if quick else 4
    found = [Sample("document 000", "Example 1", document_example_1()), Sample("document 000", "Example 3", document_example_3())]
    found += [Sample("theatre", f"16 links, seed {seed}", theatre(seed)) for seed in range(1, 1 + min(most, 2))]
    found += [Sample("64 × 8 loose", f"seed {seed}", spaced(seed, 64, 8, 10_000, 0.3, 500)) for seed in range(1, 1 + min(most, 2))]
    found += [Sample("64 × 8 near the edge", f"seed {seed}", spaced(seed, 64, 8, 10_000, 0.05, 3200)) for seed in range(1, 1 + most)]
    found += [Sample("64 × 8 near the edge, form 2", f"seed {seed}", edged(seed, 64, 8, 10_000, 0.05, 3000)) for seed in range(1, 1 + min(most, 2))]
    found += [Sample("128 × 8 near the edge, form 3", f"seed {seed}", edged(seed, 128, 8, 10_000, 0.025, 2700)) for seed in range(1, 1 + min(most, 2))]
    found += [Sample("festival, form 3", f"96 × 10, seed {seed}", festival(seed)) for seed in range(1, 1 + min(most, 3))]
    found += [Sample("2 × 512 near the edge, form 3", f"seed {seed}", edged(seed, 2, 512, 100_000, 1, 99_600)) for seed in range(2, 2 + min(most, 2))]
    found += [Sample("16 × 64 near the edge, form 3", f"seed {seed}", edged(seed, 16, 64, 25_000, 0.3, 8000)) for seed in range(1, 1 + min(most, 2))]
    found += [Sample("20 × 25 near the edge", f"seed {seed}", spaced(seed, 20, 25, 10_000, 0.3, 2950)) for seed in range(1, 1 + most)]
    for links, density, allowed in ((20, 0.4, 39), (25, 0.32, 39), (30, 0.27, 39)):
        found += [Sample("tables near the edge", f"{links} × 8, seed {seed}", tables(seed, links, 8, density, allowed))
                  for seed in range(1, 1 + min(most, 2))]
    found += [Sample("no plan", f"{links} links, {links - 1} frequencies", crowded(links, links - 1)) for links in ((8,) if quick else (8, 9))]
    sizes = ((8, 6),) if quick else ((8, 6), (3, 170), (64, 8))
    return found + [Sample("heaviest", f"{links} × {frequencies}", heaviest(links, frequencies)) for links, frequencies in sizes]


def building_samples(quick=False):
    """The sheets on which building is measured: the first of each family, two without a rule whose links share many frequencies, and one of form 3
    with as many rules as can be."""
    first = {}
    for sample in samples(quick):
        first.setdefault(sample.family, sample)
    return [*first.values(), Sample("no rule", "64 × 8 of 40 frequencies", spaced(1, 64, 8, 1000, 0, 1)),
            Sample("no rule", "2 × 256 of 400 frequencies", spaced(1, 2, 256, 10_000, 0, 1)),
            Sample("most rules, form 3", f"128 × 8, {MOST_RULES:,} rules", most_rules(1, 128, 8))]


def most_rules(seed, links, frequencies):
    """Random lists and widths, and as many rules as a sheet can have."""
    bare = edged(seed, links, frequencies, 10_000, 0, 1)
    return Sheet(bare.links, [Rule(a, b, SPACING, 500) for a, b in drawn(seed, bare.links, MOST_RULES)], bare.widths)


def apart(seed, links=64, frequencies=8):
    """Random lists in which no two links share a frequency."""
    rng = random.Random(seed)
    slots = rng.sample(range(4000), links * frequencies)
    return [sorted(600_000 + RASTER * slot for slot in slots[frequencies * link:frequencies * (link + 1)]) for link in range(links)]


def drawn(seed, lists, most):
    """So many of the links' pairs, drawn at random and rising."""
    every = list(itertools.combinations(range(len(lists)), 2))
    return sorted(random.Random(seed).sample(every, most))


@dataclass
class CountSample:
    """A job with many plans, how many, the nodes of the tree in which they are counted, and a job without a plan whose tree is much the same."""
    name: str
    sheet: Sheet
    plans: int
    nodes: int
    barred: Sheet
    filters: tuple


def every_other(sizes):
    """Links of so many frequencies, any two of which go together, and a last one whose one frequency goes with every other frequency of the link
    before it: under filter 0 every other leaf is a plan. In the job without a plan one more link bars that last frequency: its tree has the same
    nodes, and a plan's node is closed instead."""
    first = [sum(sizes[:link]) + 1 for link in range(len(sizes))]
    lists = [list(range(start, start + size)) for start, size in zip(first, sizes)] + [[sum(sizes) + 1]]
    last = len(sizes)
    rules = [Rule(last - 1, last, LISTED, 0, [(p, 0) for p in range(0, sizes[-1], 2)])]
    barred = Sheet(lists + [[sum(sizes) + 2]], rules + [Rule(last, last + 1, SPACING, MOST_KHZ)])
    plans = math.prod(sizes) * ((sizes[-1] + 1) // 2) // sizes[-1]
    nodes = 1 + sum(math.prod(sizes[:depth]) for depth in range(1, last + 1)) + plans
    name = f"{last + 1} links, {max(sizes)} frequencies each" + (f", {sizes.count(1)} links of one" if 1 in sizes else "") + ", every other leaf a plan"
    return CountSample(name, Sheet(lists, rules), plans, nodes, barred, (0,))


def orders(links):
    """So many links with as many frequencies, the same for all: the plans are their orders. With one link more there is none."""
    listed = list(range(1, links + 1))
    nodes = sum(math.perm(links, depth) for depth in range(links + 1))
    return CountSample(f"{links} links on {links} frequencies, all different", Sheet([listed] * links, []), math.factorial(links), nodes,
                       Sheet([listed] * (links + 1), []), (0, 2, 7))


def count_samples():
    """The jobs on which counting is measured, about 10,000,000 nodes each: few links, many, as many as can be, and under filters."""
    return [every_other([14] * 6), every_other([2] * 22), every_other([1] * 40 + [2] * 22), orders(10)]


def text_samples():
    """The sheets whose texts bench/run writes and reads: every edge of 64 × 8, some links' pairs listed, most links joined by none."""
    lists = apart(1)
    every = [(p, q) for p in range(8) for q in range(8)]
    rng = random.Random(2)
    listed = [Rule(a, b, LISTED, 0, sorted(rng.sample(every, 50))) for a, b in drawn(3, lists, 160)]
    far = [Rule(a, b, SPACING, MOST_KHZ) for a, b in drawn(4, lists, 1800)]
    return [Sample("64 × 8", "no rule", Sheet(lists, [])), Sample("64 × 8", "8,000 listed pairs in 160 rules", Sheet(lists, listed)),
            Sample("64 × 8", "1,800 of 2,016 pairs of links joined by none", Sheet(lists, far))]
