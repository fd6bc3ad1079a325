"""How the time of the heaviest job grows with its links and their frequencies: the sizes measured, the table, and the drawing."""

from dataclasses import dataclass
from math import ceil, log10
from xml.sax.saxutils import escape

from jobsheet.desk import heaviest_nodes as nodes

MOST_NODES = 20_000_000
BY_FREQUENCIES = (2, 3, 4, 5, 6, 8, 12)  # links: a line each, against the frequencies of a link
BY_LINKS = (2, 3, 4, 6, 10, 20, 64)      # frequencies of a link: a line each, against the links
LADDER = (1, 2, 3, 4, 6, 8, 11, 16, 23, 32, 45, 64, 90, 128, 181, 256)

WIDE, HIGH, TOP, BOTTOM = 1080, 520, 104, 458
PANELS = ((76, 500), (590, 1030))        # left and right edges in pixels
FASTEST = -6                             # the lowest power of ten, in seconds

STYLE = """
text { font-family: 'DejaVu Sans Mono', Menlo, Consolas, monospace; font-size: 12px; fill: #222 }
.title { font-size: 17px; font-weight: bold }
.quiet { fill: #666 }
.axis { stroke: #444; stroke-width: 1.2; fill: none }
.grid { stroke: #e6e9ec }
.line { fill: none; stroke-width: 1.8 }
.label { font-weight: bold }
"""
COLOURS = ("#1f4e79", "#c0281c", "#3a7d34", "#8a5a00", "#6b3fa0", "#00757f", "#a3386c")


def sizes():
    """(links, frequencies of each) of every run, the smallest first."""
    found = {(links, each) for links in BY_FREQUENCIES for each in _frequencies(links)}
    found |= {(links, each) for each in BY_LINKS for links in _links(each)}
    return sorted(found, key=lambda size: nodes(*size))


def _frequencies(links):
    return [each for each in (*LADDER, 512 // links) if links * each <= 512 and nodes(links, each) <= MOST_NODES]


def _links(each):
    return [links for links in range(1, 65) if links * each <= 512 and nodes(links, each) <= MOST_NODES]


@dataclass
class Run:
    """A run to the end of the tree: its job, and the seconds of the plain program and of the library."""
    links: int
    each: int
    plain: float
    library: float


def rows(runs):
    """The largest run of each number of links, as the cells of a table."""
    largest = {}
    for run in runs:
        if run.links not in largest or run.each > largest[run.links].each:
            largest[run.links] = run
    for run in (largest[links] for links in sorted(largest)):
        size = nodes(run.links, run.each)
        yield [str(run.links), str(run.each), f"{size:,}", f"{1000 * run.plain:,.3f}", f"{1000 * run.library:,.3f}", f"{1e9 * run.library / size:.0f}",
               f"×{run.plain / run.library:.2f}"]


HEADS = ["links", "frequencies each", "nodes", "plain, ms", "library, ms", "library, ns a node", "ratio"]


def svg(runs, told):
    """The library's times against the frequencies of a link, and against the links; `told` names the machine."""
    times = {(run.links, run.each): run.library for run in runs}
    slowest = ceil(log10(max(times.values())))
    left = [(links, [(each, times[links, each]) for each in sorted(set(_frequencies(links)))]) for links in BY_FREQUENCIES]
    right = [(each, [(links, times[links, each]) for links in _links(each)]) for each in BY_LINKS]
    shapes = [_text(PANELS[0][0], 30, "The heaviest job: time to the end of its tree", "title"),
              _text(PANELS[0][0], 52, f"filter 0, choice 0, up to {MOST_NODES:,} nodes; the library's processor time. {told}", "quiet")]
    shapes += _panel(PANELS[0], ("frequencies of each link", "a line for each number of links"), left, [1, 2, 4, 8, 16, 32, 64, 128, 256], log10, slowest)
    shapes += _panel(PANELS[1], ("links", "a line for each number of frequencies"), right, [1, 5, 10, 15, 20, 25], float, slowest)
    return (f'<svg xmlns="http://www.w3.org/2000/svg" viewBox="0 0 {WIDE} {HIGH}" width="{WIDE}" height="{HIGH}">\n<style>{STYLE}</style>\n'
            f'<rect width="{WIDE}" height="{HIGH}" fill="#fff"/>\n' + "\n".join(shapes) + "\n</svg>\n")


def _panel(edges, names, lines, ticks, scale, slowest):
    """A panel: time upwards by powers of ten, the lines with their numbers above their ends."""
    left, right = edges

    def x(value):
        return left + (right - left) * (scale(value) - scale(ticks[0])) / (scale(ticks[-1]) - scale(ticks[0]))

    def y(seconds):
        return BOTTOM - (BOTTOM - TOP) * (log10(seconds) - FASTEST) / (slowest - FASTEST)

    shapes = [_text(left, TOP - 12, names[1], "quiet")]
    for power in range(FASTEST, slowest + 1):
        shapes.append(f'<path class="grid" d="M{left} {y(10.0**power):.1f}H{right}"/>')
        shapes.append(_text(left - 8, y(10.0**power) + 4, _seconds(power), "quiet", "end"))
    for value in ticks:
        shapes.append(f'<path class="grid" d="M{x(value):.1f} {TOP}V{BOTTOM}"/>')
        shapes.append(_text(x(value), BOTTOM + 18, str(value), "quiet", "middle"))
    shapes.append(f'<path class="axis" d="M{left} {TOP}V{BOTTOM}H{right}"/>')
    shapes.append(_text((left + right) / 2, BOTTOM + 40, names[0], "", "middle"))
    for (number, points), colour in zip(lines, COLOURS):
        path = " ".join(f"{x(value):.1f},{y(seconds):.1f}" for value, seconds in points)
        shapes.append(f'<polyline class="line" stroke="{colour}" points="{path}"/>')
        shapes += [f'<circle cx="{x(value):.1f}" cy="{y(seconds):.1f}" r="2.4" fill="{colour}"/>' for value, seconds in points]
        end, last = points[-1]
        shapes.append(f'<text class="label" x="{x(end):.1f}" y="{y(last) - 8:.1f}" text-anchor="middle" style="fill:{colour}">{number}</text>')
    return shapes


def _seconds(power):
    return {0: "1 s", 1: "10 s"}.get(power) or (f"{10**(power + 3)} ms" if power >= -3 else f"{10**(power + 6)} µs")


def _text(x, y, words, kind="", anchor="start"):
    return f'<text class="{kind}" x="{x:.1f}" y="{y:.1f}" text-anchor="{anchor}">{escape(words)}</text>'
