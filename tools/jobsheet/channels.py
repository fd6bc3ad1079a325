"""Television channels on air: which frequencies they take, how people write them, and the first fault of a channel list."""

import re

from .binary import Fault
from .chart import FIRST, LAST, edges

WORD = re.compile(r"([0-9]{1,9})(?:-([0-9]{1,9}))?")


class BadChannel(Exception):
    """What was expected of a channel, and what was found."""


def taker(channels, khz):
    """The channel that takes a frequency, or None."""
    return next((channel for channel in channels if edges(channel)[0] <= khz < edges(channel)[1]), None)


def stretch(word):
    """The first and the last number of a word such as 38 or 38-41."""
    found = WORD.fullmatch(word)
    if not found:
        raise BadChannel(f"expected a channel such as 38 or a stretch such as 38-41, found {word}")
    first, last = int(found.group(1)), int(found.group(2) or found.group(1))
    if first > last:
        raise BadChannel(f"expected a stretch that rises, such as {last}-{first}, found {word}")
    return first, last


def named(word):
    """The channels of a word."""
    first, last = stretch(word)
    if first < FIRST or last > LAST:
        raise BadChannel(f"expected channels from {FIRST} to {LAST}, found {word}")
    return range(first, last + 1)


def words_of(given):
    """The words of a list that people give, such as 21,38-41; blanks do as well as commas."""
    return [word for word in re.split(r"[,\s]+", given) if word]


def from_words(words):
    """The channels of such words, rising; they stand in any order, and each is named once."""
    listed = set()
    if not words:
        raise BadChannel("expected channels such as 21,38-41, found none")
    for word in words:
        for channel in named(word):
            if channel in listed:
                raise BadChannel(f"expected each channel once, found {channel} twice")
            listed.add(channel)
    return sorted(listed)


def as_given(words):
    """The numbers of such words as they stand, in or out of range and order: a byte each."""
    listed = []
    for word in words:
        first, last = stretch(word)
        if last > 255:
            raise BadChannel(f"expected numbers from 0 to 255, a byte each, found {word}")
        listed += range(first, last + 1)
    return bytes(listed)


def fault_of(listed):
    """The first fault of a channel list, or None where the planner accepts it."""
    for entry, channel in enumerate(listed):
        place = f"channel list, entry {entry}"
        if not FIRST <= channel <= LAST:
            return Fault(17, place, entry, f"{channel}", f"{FIRST} to {LAST}")
        if entry and channel <= listed[entry - 1]:
            return Fault(17, place, entry, f"{channel}", f"{listed[entry - 1] + 1} to {LAST}: above {listed[entry - 1]}, the entry before it"
                         if listed[entry - 1] < LAST else f"nothing more: {LAST}, the entry before it, is the last channel")
    return None


def runs(channels):
    """Channels that adjoin, as (first, last)."""
    found = []
    for channel in sorted(channels):
        if found and found[-1][1] == channel - 1:
            found[-1] = found[-1][0], channel
        else:
            found.append((channel, channel))
    return found


def written(channels, between=","):
    """The channels as people write them."""
    return between.join(f"{first}" if first == last else f"{first}-{last}" for first, last in runs(channels))


def called(channels):
    """The channels in a sentence."""
    return f"channel{'s' * (len(channels) > 1)} {written(channels, ', ')}"


def struck(sheet, channels):
    """The frequencies that the channels take, by link."""
    return [[khz for khz in listed if taker(channels, khz) is not None] for listed in sheet.links]


def told(sheet, channels):
    """What is on air, and what it takes of a job."""
    taken = struck(sheet, channels)
    links, frequencies = sum(map(bool, taken)), sum(map(len, taken))
    they = "they take" if len(channels) > 1 else "it takes"
    if not frequencies:
        return f"on air: {called(channels)}; {they} no frequency of this job"
    return (f"on air: {called(channels)}; {they} {frequencies} of {sheet.frequencies()} frequencies, "
            f"from {links} of {len(sheet.links)} link{'s' * (len(sheet.links) > 1)}")


def left_empty(sheet, names, channels):
    """A line for each link that is left without a frequency: which channels take them."""
    lines = []
    for name, listed, taken in zip(names, sheet.links, struck(sheet, channels)):
        if len(taken) == len(listed):
            takers = sorted({taker(channels, khz) for khz in taken})
            every = {1: "its one frequency", 2: "both its frequencies"}.get(len(listed), f"all {len(listed)} of its frequencies")
            lines.append(f"{name} is left without a frequency: {called(takers)} take{'s' * (len(takers) == 1)} {every}.")
    return lines
