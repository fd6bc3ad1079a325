"""The spacing between the links of a plan: how far apart they are, how much of that is spare, and both as tables."""

import itertools
from dataclasses import dataclass

from . import channels as air
from .binary import EXACT, SPACING
from .columns import by_point, cut, kilohertz, left, right, width
from .text import mhz

LEAST_COLUMN, LONGEST_NAME = 8, 24  # columns of a name above the table of every two links, and beside it, where it is cut


@dataclass
class Spacing:
    """Two links, how far apart their frequencies are, their rule, None where they have none, whether they are free, the sum of their widths, None
    in form 1, and their spare spacing in half kHz, as the desk says it."""
    links: tuple
    apart: int
    rule: object
    free: bool
    widths: int = None
    spare: int = None

    def gap(self):
        """Twice the kHz from edge to edge, below 0 where the two overlap; in form 1 twice those between the frequencies."""
        return 2 * self.apart - (self.widths or 0)

    def asked(self):
        if self.rule is None:
            return "no rule: another frequency"
        if self.rule.kind == SPACING:
            return f"at least {self.rule.value} kHz"
        centres = " between centres" if self.widths else ""
        return f"just {self.rule.value} kHz{centres}" if self.rule.kind == EXACT else "a listed pair"

    def distance(self):
        """How far apart the two are, in words."""
        if self.gap() < 0:
            return f"overlapping, {self.apart} kHz between centres"
        return f"{kilohertz(self.gap())} kHz {'from edge to edge' if self.widths else 'apart'}"

    def told(self, names):
        """The spare spacing of the two links, in words."""
        first, second = (names[link] for link in self.links)
        return f"{first} and {second}, {kilohertz(self.spare)} kHz to spare ({self.distance()}, {self.asked()})"


def spacings(sheet, khz, spares=None):
    """The spacing of every two links of a plan, with the spare spacing where it is given."""
    rules = {(rule.a, rule.b): rule for rule in sheet.rules}
    found = []
    for a, b in itertools.combinations(range(len(khz)), 2):
        rule = rules.get((a, b))
        found.append(Spacing((a, b), abs(khz[a] - khz[b]), rule, bool(rule and sheet.is_free(rule)),
                             sheet.widths and sheet.widths[a] + sheet.widths[b], spares and spares[a][b]))
    return found


def tightest(found):
    """The two links with the least spare spacing, free ones apart; of several the nearest, then those with the lower numbers. None without any."""
    return min((near for near in found if not near.free), key=lambda near: (near.spare, near.gap(), near.links), default=None)


def keeps_rules(sheet, khz, channels=()):
    """Whether each frequency is in its link's list and in no channel on air, every rule allows its two, and links without a rule differ."""
    if len(khz) != len(sheet.links) or any(f not in listed for f, listed in zip(khz, sheet.links)):
        return False
    if any(air.taker(channels, f) is not None for f in khz):
        return False
    position = [listed.index(f) for f, listed in zip(khz, sheet.links)]
    for near in spacings(sheet, khz):
        rule, (a, b) = near.rule, near.links
        if rule is None:
            allowed = near.apart > 0
        elif rule.kind == SPACING:
            allowed = near.gap() >= 2 * rule.value
        elif rule.kind == EXACT:
            allowed = near.apart == rule.value
        else:
            allowed = (position[a], position[b]) in rule.pairs
        if not allowed:
            return False
    return True


def clashes(spares):
    """The links whose spare spacing is below zero, in words; nothing where there are none."""
    return ", ".join(f"links {a} and {b}: {kilohertz(spares[a][b])} kHz to spare"
                     for a, b in itertools.combinations(range(len(spares)), 2) if spares[a][b] < 0)


# ---- Tables

def table(sheet, names, answer):
    """The plan line by line: link number, name, MHz, the width where there are widths, the spare spacing of the link's tightest pair and with
    whom, and who shares its carrier."""
    found = spacings(sheet, answer.khz, answer.spares)
    mine = [[near for near in found if link in near.links] for link in range(len(names))]
    worst = [tightest(every) for every in mine]
    spare = by_point([kilohertz(near.spare) if near else "-" for near in worst])
    wide, edges = max([width(name) for name in names] + [4]), sheet.widths is not None
    rows = [f"link  {left('name', wide)}        MHz  {'kHz wide  ' * edges}kHz spare  tightest pair"]
    for link, (name, khz) in enumerate(zip(names, answer.khz)):
        column = f"{sheet.widths[link]:8}  " if edges else ""
        rows.append(f"{link:4}  {left(name, wide)}  {mhz(khz):>9}  {column}{spare[link]:>9}  {_beside(mine[link], worst[link], names, link)}")
    if any(worst):
        rows += ["", f"tightest pair: {tightest(found).told(names)}"]
    return "\n".join(rows)


def _beside(mine, worst, names, link):
    """The other link of the tightest pair, who shares the carrier, and whom else it overlaps."""
    def other(near):
        return names[sum(near.links) - link]

    told = f"{other(worst)}, {worst.distance()} ({worst.asked()})" if worst else "no link to keep apart from"
    shared = [other(near) for near in mine if near.apart == 0]
    overlapped = [other(near) for near in mine if near.gap() < 0 < near.apart and near is not worst]
    told += f"; shares its carrier with {', '.join(shared)}" if shared else ""
    return told + (f"; overlaps {', '.join(overlapped)}" if overlapped else "")


def spare_table(sheet, names, answer, columns):
    """The spare spacing of every two links in kHz: a row and a column for each link, in blocks of as many columns as a line has room for."""
    if len(names) == 1:
        return "spare spacing: one link has no pair"
    links, free = range(len(names)), {(rule.a, rule.b) for rule in sheet.rules if sheet.is_free(rule)}
    texts = ["-" if a == b else "free" if (min(a, b), max(a, b)) in free else kilohertz(answer.spares[a][b]) for a in links for b in links]
    cells = by_point(texts)
    rowed = [cut(name, LONGEST_NAME) for name in names]
    wide, named, digits = max(len(cells[0]), LEAST_COLUMN) + 2, max(map(width, rowed)), max(len(f"{links[-1]}"), 2)
    beside = digits + 2 + named
    most = max((columns - beside) // wide, 1)
    rows = ["spare spacing of every two links, in kHz"]
    for start in range(0, len(names), most):
        block = links[start:start + most]
        rows += ["", " " * beside + "".join(right(f"{link}", wide) for link in block),
                 " " * beside + "".join(right(cut(names[link], wide - 2), wide) for link in block)]
        rows += [f"{link:{digits}}  {left(rowed[link], named)}" + "".join(right(cells[len(names) * link + other], wide) for other in block)
                 for link in links]
    return "\n".join(row.rstrip() for row in rows)
