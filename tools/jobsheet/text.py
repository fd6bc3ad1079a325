"""Reading the text form of a job sheet (docs/TEXT.md)."""

import difflib
import itertools
import re
from dataclasses import dataclass, field
from fractions import Fraction

from . import channels
from .binary import EXACT, FORMS, LISTED, MOST_KHZ, MOST_PAIRS, MOST_RULES, MOST_WIDTH, SPACING, Rule, Sheet

NUMBER = re.compile(r"([0-9]{1,18}(?:\.[0-9]{1,18})?)(khz|mhz)?", re.IGNORECASE)
NARROW, LARGEST = FORMS[1], FORMS[3]  # what a job without widths holds, and one with them
WORDS = ("job", "link", "width", "apart", "exactly", "pairs", "free", "differ", "air")


@dataclass
class Job:
    """A sheet with what only the text form has: the job's name, a name for each link and the channels on air, rising."""
    name: str
    names: list
    sheet: Sheet
    notes: list
    channels: list = field(default_factory=list)


class TextError(Exception):
    """Faults of a text; `faults` holds (line number, sentence)."""

    def __init__(self, faults):
        super().__init__("; ".join(f"line {line}: {sentence}" for line, sentence in faults))
        self.faults = faults


class _Expected(Exception):
    """What one line should have held."""


def parse(text):
    """The job that a text describes; raises TextError with every line that is wrong."""
    return _Reader(text.removeprefix("\ufeff")).job()


def mhz(khz):
    """A frequency as people write it: MHz with three decimals."""
    return f"{khz // 1000}.{khz % 1000:03d}"


def _split(line):
    """The words of a line up to a comment. A word in double quotes may hold blanks; '#' begins a comment only before a word."""
    words, rest = [], line.strip()
    while rest and not rest.startswith("#"):
        if rest.startswith('"'):
            end = rest.find('"', 1)
            if end < 0:
                raise _Expected('expected a closing " for the name that begins with ' + rest[:20])
            word, rest = rest[1:end], rest[end + 1:]
            if rest and not rest[0].isspace():
                raise _Expected(f'expected a blank after "{word}"')
        else:
            word, rest = (rest.split(None, 1) + [""])[:2]
        words.append(word)
        rest = rest.lstrip()
    return words


def _khz(word, what="a frequency", such="500.400 (MHz) or 500400 (kHz)", most=MOST_KHZ):
    """The kHz of a number: with a point in MHz, without one in kHz, or in the unit written right after it."""
    found = NUMBER.fullmatch(word)
    if not found:
        hint = " with a decimal point, no comma" if "," in word else ""
        raise _Expected(f"expected {what} such as {such}{hint}, found {word}")
    digits, unit = found.group(1), (found.group(2) or "").lower()
    khz = Fraction(digits) * (1000 if unit == "mhz" or (not unit and "." in digits) else 1)
    if not 1 <= khz <= most:
        raise _Expected(f"expected {what} of 1 to {most:,} kHz, found {word}")
    if khz.denominator != 1:
        raise _Expected(f"expected {what} in whole kHz, found {word}, which is {float(khz):.10g} kHz")
    return int(khz)


def _distance(word):
    return _khz(word, "a distance", "0.4 (MHz) or 400 (kHz)")


def _width(word):
    return _khz(word, "a width", "0.2 (MHz) or 200 (kHz)", MOST_WIDTH)


class _Reader:
    """The lines of one text, read in two passes: links first, so that rules may stand anywhere."""

    def __init__(self, text):
        self.text = text
        self.faults, self.notes = [], []
        self.job_name = None
        self.names, self.links, self.link_lines = [], [], []
        self.rule_lines = []
        self.rules, self.named_at = {}, {}  # by two links: their rule; the line and the word that names them first
        self.seen_pairs = set()
        self.pairs_at = []  # (line, word, pairs) of each line that lists pairs
        self.default = None
        self.widths, self.width_default = {}, None  # each a width with its line; by link, and of `width .. all`
        self.width_line = None  # the first line that gives a width
        self.air = {}  # by channel on air: the line that names it

    def job(self):
        last = 0
        for number, line in enumerate(re.split("\r\n|\n|\r", self.text.rstrip()), 1):
            self._try(number, self._first_pass, line)
            last = number
        for number, words in self.rule_lines:
            self._try(number, self._rule, words)
        if not self.faults:
            self._whole(last)
        if self.faults:
            raise TextError(sorted(self.faults))
        sheet = Sheet(self.links, self._all_rules(), self._all_widths())
        sheet.festival = sheet.form() == 3
        return Job(self.job_name, self.names, sheet, self.notes, sorted(self.air))

    def _all_widths(self):
        """The width of each link of a text without faults; None where no line gives one."""
        if not self.width_line:
            return None
        return [self.widths.get(link, self.width_default)[0] for link in range(len(self.links))]

    def _all_rules(self):
        """The rules of a text without faults, rising by their links: those of its lines, of `free`, and of `apart .. all`."""
        for (a, b), (_, word) in self.named_at.items():
            if word == "free":
                every = itertools.product(range(len(self.links[a])), range(len(self.links[b])))
                self.rules[a, b] = Rule(a, b, LISTED, 0, list(every))
        for a, b in itertools.combinations(range(len(self.links)), 2):
            if self.default and (a, b) not in self.named_at:
                self.rules[a, b] = Rule(a, b, SPACING, self.default[0])
        for rule in self.rules.values():
            rule.pairs.sort()
        return [self.rules[pair] for pair in sorted(self.rules)]

    def _try(self, number, step, line):
        try:
            step(number, line)
        except _Expected as expected:
            self.faults.append((number, str(expected)))

    def _first_pass(self, number, line):
        words = _split(line)
        if not words:
            return
        word = words[0]
        if word not in WORDS:
            near = difflib.get_close_matches(word.lower(), WORDS, 1)
            hint = f"; did you mean {near[0]}?" if near else ""
            raise _Expected(f"expected a line that begins with {', '.join(WORDS[:-1])} or {WORDS[-1]}, found {word}{hint}")
        if word != "job" and self.job_name is None:
            self.job_name = ""
            raise _Expected(f"expected the line 'job NAME' before every other line, found {word}")
        if word == "job":
            self._job(words)
        elif word == "link":
            self._link(number, words)
        else:
            self.rule_lines.append((number, words))

    def _job(self, words):
        if self.job_name:
            raise _Expected("expected one job line, found a second one")
        self.job_name = " ".join(words[1:])
        if not self.job_name:
            self.job_name = "unnamed"
            raise _Expected("expected a name after job")

    def _link(self, number, words):
        if len(words) < 2:
            raise _Expected("expected a name after link")
        name, listed = words[1], {}
        if not name or name == "all":
            raise _Expected(f'expected a name other than "{name}"')
        if name in self.names:
            earlier = self.link_lines[self.names.index(name)]
            raise _Expected(f"expected a new name, found {name}, which is the link of line {earlier}")
        self.names.append(name)
        self.links.append([])
        self.link_lines.append(number)
        if len(self.links) == LARGEST.links + 1:
            raise _Expected(f"expected at most {LARGEST.links} links, found one more: {name}")
        if len(words) == 2:
            raise _Expected(f"expected at least one frequency after {name}")
        for word in words[2:]:
            if word.lower() in ("khz", "mhz"):
                raise _Expected(f"expected the unit right after its number, as in 500.4MHz, found {word} by itself")
            khz = _khz(word)
            if khz in listed:
                raise _Expected(f"expected each frequency once, found {word} and {listed[khz]}")
            if word.isdigit() and khz < 10_000:
                self.notes.append((number, f"{word} is read as {word} kHz; for MHz write {word}.0"))
            listed[khz] = word
        self.links[-1] = sorted(listed)
        before = sum(len(other) for other in self.links[:-1])
        if before <= LARGEST.frequencies < before + len(listed):
            raise _Expected(f"expected at most {LARGEST.frequencies:,} frequencies in all, found {before + len(listed):,} up to here")

    def _rule(self, number, words):
        word = words[0]
        if word == "width":
            self._give_width(number, words)
        elif word == "air":
            self._on_air(number, words)
        elif word == "apart" and words[2:] == ["all"]:
            self._default(number, words)
        elif word in ("apart", "exactly"):
            if len(words) < 2:
                raise _Expected(f"expected a distance after {word}, such as 0.4 (MHz) or 400 (kHz)")
            value = _distance(words[1])
            kind = SPACING if word == "apart" else EXACT
            for a, b in self._groups(word, words[2:]):
                self._name(number, word, a, b)
                self.rules[a, b] = Rule(a, b, kind, value)
        elif word in ("free", "differ"):
            for a, b in self._groups(word, words[1:]):
                self._name(number, word, a, b)
                if word == "free":
                    self.pairs_at.append((number, word, len(self.links[a]) * len(self.links[b])))
        else:
            self._pairs(number, words)

    def _default(self, number, words):
        value = _distance(words[1])
        if self.default:
            raise _Expected(f"expected one line 'apart DISTANCE all', found a second one beside line {self.default[1]}")
        self.default = (value, number)

    def _give_width(self, number, words):
        if len(words) < 2:
            raise _Expected("expected a width after width, such as 0.2 (MHz) or 200 (kHz)")
        given, names = (_width(words[1]), number), words[2:]
        if not names:
            raise _Expected(f"expected the names of links, or all, after width {words[1]}, found none")
        self.width_line = self.width_line or number
        if names == ["all"]:
            if self.width_default:
                raise _Expected(f"expected one line 'width WIDTH all', found a second one beside line {self.width_default[1]}")
            self.width_default = given
            return
        for link in self._different(names):
            _, line = self.widths.setdefault(link, given)
            if line != number:
                raise _Expected(f"expected one width for {self.names[link]}, found a second one beside line {line}")

    def _on_air(self, number, words):
        try:
            listed = channels.from_words(channels.words_of(" ".join(words[1:])))
        except channels.BadChannel as bad:
            raise _Expected(f"{bad} after air" if len(words) < 2 else str(bad)) from None
        for channel in listed:
            if channel in self.air:
                raise _Expected(f"expected each channel once, found {channel} a second time, beside line {self.air[channel]}")
            self.air[channel] = number

    def _groups(self, word, names):
        """Every two of the named links, as (lower, higher)."""
        if len(names) < 2 or (word == "exactly" and len(names) > 2):
            wanted = "the names of two links" if word == "exactly" else "the names of two or more links"
            either = ", or all," if word == "apart" else ""
            distance = " and the distance" if word in ("apart", "exactly") else ""
            raise _Expected(f"expected {wanted}{either} after {word}{distance}, found {' '.join(names) or 'none'}")
        links = self._different(names)
        return [tuple(sorted((a, b))) for i, a in enumerate(links) for b in links[i + 1:]]

    def _different(self, names):
        """The links of these names, none of them twice."""
        links = [self._known(name) for name in names]
        for index, link in enumerate(links):
            if link in links[:index]:
                raise _Expected(f"expected different links, found {names[index]} twice")
        return links

    def _known(self, name):
        if name in self.names:
            return self.names.index(name)
        near = difflib.get_close_matches(name, self.names, 1)
        hint = f"; did you mean {near[0]}?" if near else ""
        raise _Expected(f"expected the name of a link, found {name}{hint}")

    def _name(self, number, word, a, b):
        """Notes that a line names two links; a second line on them is wrong, but for more pairs."""
        line, earlier = self.named_at.setdefault((a, b), (number, word))
        if line != number and not word == earlier == "pairs":
            raise _Expected(f"expected one rule for {self.names[a]} and {self.names[b]}, found a second one beside line {line}")

    def _pairs(self, number, words):
        if len(words) < 4:
            raise _Expected("expected two links and at least one pair after pairs, such as: pairs A B 500.0/500.4")
        (a, b), = self._groups("pairs", words[1:3])
        if not self.links[a] or not self.links[b]:
            return  # the link's own line is wrong and is reported
        turned = self._known(words[1]) == b
        self._name(number, "pairs", a, b)
        rule = self.rules.setdefault((a, b), Rule(a, b, LISTED))
        self.pairs_at.append((number, "pairs", len(words) - 3))
        for word in words[3:]:
            sides = word.split("/")
            if len(sides) != 2:
                raise _Expected(f"expected a pair of frequencies such as 500.0/500.4, found {word}")
            pair = [self._position(name, side) for name, side in zip(words[1:3], sides)]
            pair = tuple(reversed(pair)) if turned else tuple(pair)
            if (a, b, pair) in self.seen_pairs:
                raise _Expected(f"expected each pair once, found {word} a second time")
            self.seen_pairs.add((a, b, pair))
            rule.pairs.append(pair)

    def _position(self, name, word):
        listed = self.links[self._known(name)]
        khz = _khz(word)
        if khz not in listed:
            raise _Expected(f"expected a frequency of {name} ({', '.join(mhz(f) for f in listed[:8])}"
                            f"{', ..' if len(listed) > 8 else ''}), found {word}")
        return listed.index(khz)

    def _whole(self, last):
        """What no single line shows."""
        if self.job_name is None:
            self.faults.append((1, "expected the line 'job NAME', found nothing but comments and blank lines"))
        elif not self.links:
            self.faults.append((max(last, 1), "expected at least one line 'link NAME FREQUENCY ..', found the end of the text"))
        if sum(pairs for _, _, pairs in self.pairs_at) > MOST_PAIRS:
            self.faults.append(self._too_many_pairs())
        if self._rules_needed() > MOST_RULES:
            self.faults.append(self._too_many_rules())
        without = [link for link in range(len(self.links)) if link not in self.widths]
        if self.width_line and not self.width_default and without:
            self.faults.append(self._no_width(without[0]))
        if not self.width_line:
            self.faults += self._too_large_without_widths()

    def _too_large_without_widths(self):
        """The line with which a job without widths becomes too large for form 1, and what to do."""
        upto = list(itertools.accumulate(map(len, self.links)))
        give = f"; give every link a width (width WIDTH all) for up to {LARGEST.links} links and {LARGEST.frequencies:,} frequencies"
        for link, line in enumerate(self.link_lines):
            if link == NARROW.links:
                return [(line, f"expected at most {NARROW.links} links in a job without widths, found one more: {self.names[link]}{give}")]
            if upto[link] > NARROW.frequencies:
                return [(line, f"expected at most {NARROW.frequencies} frequencies in a job without widths, found {upto[link]:,} up to here{give}")]
        return []

    def _rules_needed(self):
        """How many rules the lines make, those of `apart .. all` too."""
        named = sum(word != "differ" for _, word in self.named_at.values())
        return named + (len(self.links) * (len(self.links) - 1) // 2 - len(self.named_at) if self.default else 0)

    def _too_many_rules(self):
        """The line with which the rules become too many, how many all lines need, and what to do."""
        told = f"expected at most {MOST_RULES:,} rules in all, found {self._rules_needed():,}"
        if self.default:
            return self.default[1], (f"{told}, as apart .. all makes one for every two links that no other line names; write apart with the names of "
                                     "links that disturb each other, such as those of one stage, and leave the others without a rule")
        lines = sorted(line for line, word in self.named_at.values() if word != "differ")
        return lines[MOST_RULES], f"{told}; leave links that do not disturb each other without a rule"

    def _no_width(self, link):
        """The line of a link without a width, where others have one, and what to do."""
        name = self.names[link]
        return self.link_lines[link], (f"expected a width for {name}, as line {self.width_line} gives other links one; write width WIDTH {name}, "
                                       "or width WIDTH all for every link that no other width line names")

    def _too_many_pairs(self):
        """The line with which the pairs become too many, how many all lines need, and what to do."""
        listed = sum(pairs for _, word, pairs in self.pairs_at if word == "pairs")
        free = sum(pairs for _, word, pairs in self.pairs_at if word == "free")
        upto = itertools.accumulate(pairs for _, _, pairs in self.pairs_at)
        line = next(number for (number, _, _), sofar in zip(self.pairs_at, upto) if sofar > MOST_PAIRS)
        told = f"expected at most {MOST_PAIRS:,} allowed pairs in all, found {listed + free:,}"
        if not free:
            return line, f"{told}; list fewer pairs, or write apart or exactly for some of these links"
        return line, (f"{told}, {f'{free:,} of them' if listed else 'all'} by free, which allows every pair of two links' frequencies; write differ "
                      "for links that share no frequency or need not share a carrier, or give links that are free fewer frequencies")
