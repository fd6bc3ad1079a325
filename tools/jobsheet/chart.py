"""The chart of television channels: the tools read it from docs/CHART.md, whose table is made from that of crates/channels/src/chart.rt."""

import functools
import re
from pathlib import Path

ROOT = Path(__file__).resolve().parents[2]
PAGE, CODE = ROOT / "docs" / "CHART.md", ROOT / "crates" / "channels" / "src" / "chart.rt"
FIRST, LAST = 21, 48
COUNT = LAST - FIRST + 1
WIDE_KHZ = 8_000  # how far a channel reaches from its lower edge; only a table that is made needs it

HEAD = "| channel | first kHz | last kHz |\n|---|---|---|\n"
KHZ = r"([0-9]{1,3}(?:,[0-9]{3}){0,2})"
CODE_TABLE = re.compile(r"^const LOWER_EDGES: \[u32; [0-9]+\] = \[([^\]]*)\];", re.MULTILINE)
NUMBER = re.compile(r"[0-9]{1,9}")
REMAKE = "Write the table again with 'tools/sheet chart --remake'."


class NoChart(Exception):
    """A chart that cannot be read or made; the text says what to do."""


def edges(channel):
    """The first kHz of a channel, and the first beyond it."""
    return on_page()[channel]


@functools.cache
def on_page():
    """The edges of each channel, as docs/CHART.md has them."""
    return read(_text(PAGE))


def read(page):
    """The edges of each channel in the text of a page: the first kHz, and the first beyond it."""
    before, rows, _ = _parts(page)
    found, beyond = {}, 0
    for line, row in enumerate(rows, (before + HEAD).count("\n") + 1):
        channel = FIRST + len(found)
        if channel > LAST:
            raise _wrong(line, f"no row after that of channel {LAST}", repr(row[:60]))
        numbers = re.fullmatch(rf"\| {channel} \| {KHZ} \| {KHZ} \|", row)
        if not numbers:
            raise _wrong(line, f"'| {channel} | first kHz | last kHz |'", repr(row[:60]))
        low, last = (int(digits.replace(",", "")) for digits in numbers.groups())
        if low < beyond:
            raise _wrong(line, f"a first kHz above {beyond - 1:,}, the last of channel {channel - 1}", f"{low:,}")
        if last < low:
            raise _wrong(line, f"a last kHz from {low:,} on", f"{last:,}")
        beyond = last + 1
        found[channel] = low, beyond
    if len(found) < COUNT:
        raise NoChart(f"{PAGE}: expected {COUNT} rows, channels {FIRST} to {LAST}, found {len(found)}. {REMAKE}")
    return found


def in_code(source):
    """The lower edges of the channels in the text of the code's file."""
    found = CODE_TABLE.search(re.sub("//.*", "", source))
    words = found.group(1).replace(",", " ").split() if found else []
    if len(words) != COUNT or not all(map(NUMBER.fullmatch, words)):
        there = repr(" ".join(words)[:60]) if found else "none"
        raise NoChart(f"{CODE}: expected a table LOWER_EDGES of {COUNT} numbers, found {there}. {_again(CODE)}")
    return [int(word) for word in words]


def table(lower_edges):
    """The table of the page, of the channels' lower edges."""
    return HEAD + "".join(f"| {channel} | {low:,} | {low + WIDE_KHZ - 1:,} |\n" for channel, low in enumerate(lower_edges, FIRST))


def remake():
    """Writes the table of docs/CHART.md again, from the code's."""
    before, _, after = _parts(_text(PAGE))
    page = before + table(in_code(_text(CODE))) + "\n".join(after)
    try:
        PAGE.write_text(page, encoding="utf-8")
    except OSError as error:
        raise NoChart(f"{PAGE} cannot be written ({error.strerror}). Allow that and run this again.") from None


def _parts(page):
    """What is before the table of a page, the lines of its rows up to a blank line, and the lines after them."""
    before, head, rest = page.partition(HEAD)
    if not head:
        raise NoChart(f"{PAGE}: expected a table with the head {HEAD.splitlines()[0]}, found none. {_again(PAGE)}")
    lines = rest.split("\n")
    end = lines.index("") if "" in lines else len(lines)
    return before, lines[:end], lines[end:]


def _wrong(line, expected, there):
    return NoChart(f"{PAGE}, line {line}: expected {expected}, found {there}. {REMAKE}")


def _again(path):
    return f"Take the file from the repository again, with 'git checkout {path.relative_to(ROOT)}' in {ROOT}."


def _text(path):
    try:
        return path.read_text(encoding="utf-8")
    except FileNotFoundError:
        raise NoChart(f"there is no file {path}. {_again(path)}") from None
    except (OSError, ValueError) as error:
        raise NoChart(f"{path} cannot be read ({getattr(error, 'strerror', None) or error}). {_again(path)}") from None
