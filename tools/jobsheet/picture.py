"""The band as an SVG: carriers on a frequency axis, where the sheet has widths as wide as they are, and below them a lane per link with its candidate
frequencies; the television channels on air are shaded, and the frequencies that they take crossed out."""

import math
from xml.sax.saxutils import escape

from . import channels as air
from . import chart
from . import counts as tally
from .answer import said
from .axis import Axis, spread
from .columns import cut, kilohertz, width
from .spacing import spacings, tightest
from .text import mhz

WIDE = 1200            # of the picture, in pixels; more where the labels of many links need it
RIGHT = 36             # margin
CHARACTER = 6.7        # of the fixed-width font at size 11
LABEL_STEP = 13        # between two upright labels
EDGE = 6               # from the left end of the axis to the first label
LONGEST_NAME = 20      # columns; a longer name is cut, its tooltip has it whole
LEADER, STEM = 34, 70  # heights: from a label to its carrier, and of a carrier

STYLE = """
text { font-family: 'DejaVu Sans Mono', Menlo, Consolas, monospace; font-size: 11px; fill: #222 }
.title { font-size: 17px; font-weight: bold }
.quiet { fill: #666 }
.axis { stroke: #444; stroke-width: 1.2; fill: none }
.grid { stroke: #eef0f2 }
.lane { stroke: #e3e7eb }
.candidate { stroke: #aab7c4; stroke-width: 1.4 }
.leader { stroke: #9db4ca; fill: none }
.carrier { stroke: #1f4e79; stroke-width: 2 }
.dot { fill: #1f4e79 }
.worst-leader { stroke: #dd8f88; fill: none }
.worst { stroke: #c0281c; stroke-width: 2; fill: none }
.worst-dot { fill: #c0281c }
.worst-text { fill: #c0281c }
"""

# More of it with widths.
WIDTH_STYLE = """.centre { stroke-width: 1 }
.band { fill: #1f4e79; fill-opacity: 0.5 }
.worst-band { fill: #c0281c; fill-opacity: 0.5 }
"""

# More of it with counts; the shades are those of jobsheet/counts.py, the first in no plan, the last in every one.
COUNT_STYLE = """.dead { stroke: #9aa5b1; fill: white }
.shade-1 { stroke: #bcd4ea; stroke-width: 3 }
.shade-2 { stroke: #86b0d6; stroke-width: 3 }
.shade-3 { stroke: #4a86bd; stroke-width: 3 }
.shade-4 { stroke: #1f4e79; stroke-width: 3 }
.shade-5 { stroke: #0a1c2e; stroke-width: 5 }
"""

# More of it with channels on air.
AIR_STYLE = """.air { fill: #fbf0d9 }
.air-strip { fill: #f0d195; stroke: #fffaf0 }
.air-text { fill: #7a5200 }
.struck { stroke: #c08a2b; stroke-width: 1.2; fill: none }
"""


def svg(job, answer):
    """The picture of a job and the planner's answer; without a plan it shows the candidates alone."""
    return _Picture(job, answer).text()


class _Picture:
    def __init__(self, job, answer):
        self.job, self.answer, self.sheet = job, answer, job.sheet
        self.plan = answer.khz if answer.verdict == "found" else []
        self.names = [cut(name, LONGEST_NAME) for name in job.names]
        self.worst = tightest(spacings(self.sheet, self.plan, answer.spares))
        self.worst_links = self.worst.links if self.worst else ()
        left = 24 + CHARACTER * max(10, 4 + max(width(name) for name in self.names))
        self.wide = max(WIDE, math.ceil(left + EDGE + LABEL_STEP * (len(self.names) - 1) + RIGHT))
        self.edges = self.sheet.widths is not None
        self.axis = Axis([self._stretch(link, khz) for link, listed in enumerate(self.sheet.links) for khz in listed], left, self.wide - RIGHT)
        self.channels = job.channels
        self.plans = tally.plans(answer) if answer.counts else None
        self.behind, self.shapes = [], []

    def _stretch(self, link, khz):
        """The edges in kHz of a link's carrier on this frequency."""
        half = self.sheet.widths[link] / 2 if self.edges else 0
        return khz - half, khz + half

    def text(self):
        y = self._heading(30)
        if self.plan:
            y = self._labels(y)
        self.top = y - STEM if self.plan else y
        y = self._scale(y)
        if self.channels:
            y = self._strip(y)
        if self.worst:
            y = self._bracket(y)
        height = self._lanes(y)
        return "\n".join([
            f'<svg xmlns="http://www.w3.org/2000/svg" width="{self.wide}" height="{height:.0f}" viewBox="0 0 {self.wide} {height:.0f}">',
            f"<title>{escape(self.job.name)}</title>",
            f"<style>{STYLE}{WIDTH_STYLE if self.edges else ''}{COUNT_STYLE if self.answer.counts else ''}{AIR_STYLE if self.channels else ''}</style>",
            f'<rect width="{self.wide}" height="{height:.0f}" fill="white"/>', *self.behind, *self.shapes, "</svg>", ""])

    def _write(self, x, y, words, kind="", anchor="start", more=""):
        self.shapes.append(f'<text x="{x:.1f}" y="{y:.1f}" class="{kind}" text-anchor="{anchor}"{more}>{escape(words)}</text>')

    def _line(self, points, kind, told=""):
        joined = " ".join(f"{x:.1f},{y:.1f}" for x, y in points)
        inner = f"<title>{escape(told)}</title>" if told else ""
        self.shapes.append(f'<polyline points="{joined}" class="{kind}">{inner}</polyline>')

    def _band(self, link, y, high, told):
        """A link's carrier of the plan as wide as it is."""
        left, right = map(self.axis.x, self._stretch(link, self.plan[link]))
        kind = "worst-band" if link in self.worst_links else "band"
        self.shapes.append(f'<rect x="{left:.1f}" y="{y:.1f}" width="{right - left:.1f}" height="{high}" class="{kind}">'
                           f"<title>{escape(told)}, {self.sheet.widths[link]:,} kHz wide</title></rect>")

    def _heading(self, y):
        most = int((self.wide - 60) / CHARACTER)
        self._write(24, y, cut(self.job.name, most * 11 // 17), "title")
        told = tally.said(self.answer) if self.answer.counts else said(self.answer)
        self._write(24, y + 21, cut(f"{self.sheet.counted()}: {told}", most))
        if self.channels:
            y += 18
            self._write(24, y + 21, cut(air.told(self.sheet, self.channels), most), "air-text")
        if self.worst:
            self._write(24, y + 39, cut(f"tightest pair: {self.worst.told(self.job.names)}", most), "worst-text")
        return y + 56

    def _labels(self, y):
        """Upright labels side by side, each with a leader to its carrier on the axis."""
        order = sorted(range(len(self.plan)), key=lambda link: (self.plan[link], link))
        words = {link: f"{self.names[link]} {mhz(self.plan[link])}" for link in order}
        bottom = y + CHARACTER * max(width(word) for word in words.values())
        places = spread([self.axis.x(self.plan[link]) for link in order], LABEL_STEP, self.axis.left + EDGE, self.axis.right)
        # The worst pair comes last, so that nothing is drawn over it.
        for link, place in sorted(zip(order, places), key=lambda item: item[0] in self.worst_links):
            x = self.axis.x(self.plan[link])
            worst = link in self.worst_links
            self._write(0, 0, words[link], "worst-text" if worst else "",
                        more=f' transform="translate({place + 4:.1f} {bottom:.1f}) rotate(-90)"')
            self._line([(place, bottom + 4), (x, bottom + LEADER)], "worst-leader" if worst else "leader")
            told = f"link {link}, {self.job.names[link]}, {mhz(self.plan[link])} MHz"
            if self.edges:
                self._band(link, bottom + LEADER, STEM, told)
            kind = ("worst" if worst else "carrier") + " centre" * self.edges
            self._line([(x, bottom + LEADER), (x, bottom + LEADER + STEM)], kind, told)
        return bottom + LEADER + STEM

    def _scale(self, y):
        for left, right in self.axis.runs():
            self._line([(left, y), (right, y)], "axis")
        for x in self.axis.breaks():
            self._line([(x - 5, y + 5), (x - 1, y - 5)], "axis")
            self._line([(x + 1, y + 5), (x + 5, y - 5)], "axis")
        for x, label in self.axis.ticks():
            self._line([(x, y), (x, y + 5)], "axis")
            self._write(x, y + 18, label, anchor="middle")
        self._write(16, y + 18, "MHz", "quiet")
        return y + 34

    def _strip(self, y):
        """The numbers of the channels on air below the axis; where they are too narrow, those of channels that adjoin together."""
        y -= 6
        self._write(16, y + 10, "TV", "quiet")
        for first, last in air.runs(self.channels):
            seen = [(channel, place) for channel in range(first, last + 1) for place in self.axis.seen(*chart.edges(channel))]
            for channel, (left, right) in seen:
                low, high = map(mhz, chart.edges(channel))
                self.shapes.append(f'<rect x="{left:.1f}" y="{y}" width="{right - left:.1f}" height="13" class="air-strip">'
                                   f"<title>channel {channel} on air, {low} to {high} MHz</title></rect>")
            each = [(f"{channel}", place) for channel, place in seen]
            whole = [(air.written(range(first, last + 1)), place) for place in self.axis.seen(chart.edges(first)[0], chart.edges(last)[1])]
            for words, (left, right) in each if all(map(_fits, each)) else filter(_fits, whole):
                self._write((left + right) / 2, y + 10, words, "air-text", "middle")
        return y + 25

    def _shade(self, bottom):
        """Behind carriers and lanes, the channels on air."""
        for channel in self.channels:
            for left, right in self.axis.seen(*chart.edges(channel)):
                self.behind.append(f'<rect x="{left:.1f}" y="{self.top:.1f}" width="{right - left:.1f}" height="{bottom - self.top:.1f}" class="air"/>')

    def _bracket(self, y):
        """The worst pair below the axis, between the edges that face each other, with its spare spacing."""
        lows, highs = zip(*(self._stretch(link, self.plan[link]) for link in self.worst_links))
        ends = sorted(map(self.axis.x, (max(lows), min(highs))))
        words = f"{kilohertz(self.worst.spare)} kHz to spare"
        half = CHARACTER * len(words) / 2
        middle = min(max(sum(ends) / 2, self.axis.left + half), self.axis.right - half)
        self._line([(ends[0], y - 8), (ends[0], y), (ends[1], y), (ends[1], y - 8)], "worst")
        self._write(middle, y + 14, words, "worst-text", "middle")
        return y + 26

    def _lanes(self, y):
        count = len(self.sheet.links)
        step = 17 if count <= 32 else 14
        bottom = y + step * count
        self._shade(bottom)
        for x, _ in self.axis.ticks():
            self._line([(x, y), (x, bottom)], "grid")
        for link, listed in enumerate(self.sheet.links):
            middle = y + step * (link + 0.5)
            worst = link in self.worst_links
            self._write(self.axis.left - 12, middle + 4, f"{link:2} {self.names[link]}", "worst-text" if worst else "", "end")
            for left, right in self.axis.runs():
                self._line([(left, middle), (right, middle)], "lane")
            for place, khz in enumerate(listed):
                x, told = self.axis.x(khz), f"{self.job.names[link]} can tune to {mhz(khz)} MHz"
                channel = air.taker(self.channels, khz)
                if channel is None and self.answer.counts:
                    self._shaded(x, middle, self.answer.counts[link][place], told)
                elif channel is None:
                    self._line([(x, middle - 4), (x, middle + 4)], "candidate", told)
                else:
                    cross = [(x - 3, middle - 3), (x + 3, middle + 3), (x, middle), (x - 3, middle + 3), (x + 3, middle - 3)]
                    self._line(cross, "struck", f"{told}, which channel {channel} takes")
            if self.plan:
                if self.edges:
                    self._band(link, middle - 4, 8, f"{self.job.names[link]}: {mhz(self.plan[link])} MHz")
                kind = "worst-dot" if worst else "dot"
                self.shapes.append(f'<circle cx="{self.axis.x(self.plan[link]):.1f}" cy="{middle:.1f}" r="4" class="{kind}">'
                                   f"<title>{escape(self.job.names[link])}: {mhz(self.plan[link])} MHz</title></circle>")
        end = self._scale(bottom + 6)
        told = ["strokes: the frequencies that a link can tune to" if self.answer.counts else "grey strokes: the frequencies that a link can tune to"]
        told += ["dots: the plan"] if self.plan else []
        told += ["bars: its carriers as wide as they are"] if self.plan and self.edges else []
        told += ["red: the least spare spacing"] if self.worst else []
        self._write(self.axis.left, end + 4, "; ".join(told), "quiet")
        if self.channels:
            end += 16
            self._write(self.axis.left, end + 4, "shaded: television channels on air; crosses: the frequencies that they take", "quiet")
        if self.answer.counts:
            end = self._legend(end + 18)
        return end + 20

    def _shaded(self, x, middle, count, told):
        """A frequency by the plans that use it: hollow where there are none, else a stroke, the darker the more."""
        number = tally.shade(count, self.plans)
        if number == 0:
            self.shapes.append(f'<circle cx="{x:.1f}" cy="{middle:.1f}" r="2.6" class="dead"><title>{escape(told)}, in no plan</title></circle>')
        else:
            of = f"{count:,} of {self.plans:,} plan{'s' * (self.plans != 1)} ({tally.share(count, self.plans)})"
            self._line([(x, middle - 6), (x, middle + 6)], f"shade-{number}", f"{told}, in {of}")

    def _legend(self, y):
        """The shades with what they mean."""
        x, words = self.axis.left, "plans that use a frequency:"
        self._write(x, y + 4, words, "quiet")
        x += CHARACTER * (len(words) + 2)
        for number, word in enumerate(("none", *(word for _, word in tally.SHADES), "all")):
            if number == 0:
                self.shapes.append(f'<circle cx="{x:.1f}" cy="{y:.1f}" r="2.6" class="dead"/>')
            else:
                self._line([(x, y - 6), (x, y + 6)], f"shade-{number}")
            self._write(x + 8, y + 4, word, "quiet")
            x += 8 + CHARACTER * (len(word) + 3)
        return y


def _fits(label):
    """Whether words stand in their place along the axis."""
    words, (left, right) = label
    return CHARACTER * len(words) + 2 <= right - left
