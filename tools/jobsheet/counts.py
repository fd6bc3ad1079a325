"""How many plans use each frequency of a job: as a table with bars, and as shades for a picture."""

from . import channels as air
from .answer import said as planned
from .columns import cut, left, right, width
from .text import mhz

LONGEST_NAME, SHORTEST_NAME = 24, 8  # columns of a name, where it is cut
LONGEST_BAR, SHORTEST_BAR = 50, 20   # columns of a bar for all plans
SHADES = ((0.05, "up to 5%"), (0.2, "up to 20%"), (0.5, "up to 50%"), (1, "more"))  # of the plans; below them none, above them all


def plans(answer):
    """The number of plans: the counts of any link sum to it."""
    return sum(answer.counts[0])


def said(answer):
    """The answer of a run that counts, in a sentence."""
    nodes = f"{answer.number:,} node{'s' * (answer.number != 1)}"
    if answer.verdict == "found":
        return f"{plans(answer):,} plan{'s' * (plans(answer) != 1)} in a tree of {nodes}"
    if answer.verdict == "stopped":
        return f"stopped at {nodes}: the tree is larger than this limit, and no frequency has a count"
    return planned(answer)


STOPPED_ADVICE = """Allow more nodes with --limit, up to 1,000,000,000, or count parts of the job one by one. A link
whose frequency is settled makes the tree smaller: give it that one frequency alone.
'tools/sheet plan' looks for one plan, which takes far fewer nodes."""


def share(count, total):
    """A share of all plans, in words of up to six columns."""
    if count in (0, total):
        return "100%" if count else "-"
    hundredths = 100 * count / total
    return "<0.1%" if hundredths < 0.1 else ">99.9%" if hundredths > 99.9 else f"{hundredths:.1f}%"


def bar(count, total, room):
    """A bar as long as the share, of so many columns for all plans; a point where the share is under half a column."""
    return "#" * int(room * count / total + 0.5) or "." * (count > 0)


def table(job, answer, columns):
    """Link by link each frequency, the number of plans that use it, their share of all plans in words and as a bar; what is in no plan is marked."""
    total = plans(answer)
    wide = max(width("plans"), *(len(f"{count:,}") for listed in answer.counts for count in listed))
    fixed = 4 + 2 + 2 + 9 + 2 + wide + 2 + 6 + 2
    named = min(max([width(name) for name in job.names] + [4]), max(min(LONGEST_NAME, columns - fixed - SHORTEST_BAR), SHORTEST_NAME))
    room = max(min(LONGEST_BAR, columns - fixed - named), 1)
    rows = [f"link  {left('name', named)}        MHz  {right('plans', wide)}   share  of all plans"]
    for link, (name, listed, counts) in enumerate(zip(job.names, job.sheet.links, answer.counts)):
        head = f"{link:4}  {left(cut(name, named), named)}"
        for khz, count in zip(listed, counts):
            told = bar(count, total, room) if count else mark(job, khz)
            rows.append(f"{head}  {mhz(khz):>9}  {right(f'{count:,}', wide)}  {share(count, total):>6}  {told}")
            head = " " * (6 + named)
    return "\n".join([*rows, "", summary(job, answer)])


def mark(job, khz):
    """Why a frequency is in no plan: a channel takes it, or the rules leave it none."""
    channel = air.taker(job.channels, khz)
    return "dead: in no plan" if channel is None else f"on air: channel {channel}"


def summary(job, answer):
    """How many frequencies are in no plan, and in every one."""
    total, every = plans(answer), [count for listed in answer.counts for count in listed]
    taken, unused, settled = sum(map(len, air.struck(job.sheet, job.channels))), every.count(0), every.count(total)
    on_air = f" ({taken} on air, {unused - taken} dead)" if taken else ""
    return f"{unused} of {len(every)} frequencies in no plan{on_air}; {settled} in every plan"


def shade(count, total):
    """The number of a frequency's shade: 0 in no plan, then as SHADES has them, the last in every plan."""
    if count in (0, total):
        return len(SHADES) + 1 if count else 0
    return next(number for number, (most, _) in enumerate(SHADES, 1) if count <= most * total)
