"""The binary job sheet (docs/FORMAT.md): writing one, reading one, and the first fault of one that is refused."""

import struct
from dataclasses import dataclass, field
from typing import NamedTuple



class Form(NamedTuple):
    """What a form of sheet holds at most, and the bytes of its link row."""
    links: int
    frequencies: int
    row_bytes: int


FORMS = {1: Form(64, 512, 4), 2: Form(64, 512, 8), 3: Form(128, 1024, 8)}
MOST_RULES, MOST_PAIRS, MOST_KHZ, MOST_WIDTH = 2016, 8192, 9_999_999, 20_000
HEADER = 40

SPACING, EXACT, LISTED = 1, 2, 3

CAUSES = {  # in the order tested
    1: "under 40 bytes, or a form other than 1, 2 or 3",
    2: "no link, or more than the form holds",
    3: "frequencies, rules or pairs beyond their limits",
    4: "an offset or the length is wrong",
    5: "a link row, or the sum of the counts",
    16: "a width out of range",
    6: "a frequency out of range, or not rising",
    7: "a rule row, or the sum of the pairs",
    8: "a pair row",
    17: "the channel list is out of range or order",  # not of a sheet: it is lent beside one
}


@dataclass
class Rule:
    """A rule of links a < b. Kinds 1 and 2 have a value in kHz; kind 3 has pairs of positions in the two lists."""
    a: int
    b: int
    kind: int
    value: int = 0
    pairs: list = field(default_factory=list)


@dataclass
class Sheet:
    """One job: for each link its frequencies in kHz, rising; rules rising by (a, b). Links without a rule have to differ.
    Widths, in kHz by link, make it a sheet of form 2, or of form 3 where form 2 does not hold it or `festival` says so."""
    links: list
    rules: list
    widths: list = None
    festival: bool = False

    def form(self):
        if self.widths is None:
            return 1
        return 3 if self.festival or not self.fits(2) else 2

    def fits(self, form):
        """Whether a form holds so many links and frequencies."""
        return len(self.links) <= FORMS[form].links and self.frequencies() <= FORMS[form].frequencies

    def frequencies(self):
        return sum(len(listed) for listed in self.links)

    def pairs(self):
        return sum(len(rule.pairs) for rule in self.rules)

    def is_free(self, rule):
        """Whether a rule lists every pair of its links' frequencies, so that they may share a carrier."""
        return rule.kind == LISTED and len(rule.pairs) == len(self.links[rule.a]) * len(self.links[rule.b])

    def counted(self):
        """Its size in words."""
        sizes = ((len(self.links), "link", "links"), (self.frequencies(), "frequency", "frequencies"),
                 (len(self.rules), "rule", "rules"), (self.pairs(), "pair", "pairs"))
        return ", ".join(f"{count} {one if count == 1 else more}" for count, one, more in sizes) + self._counted_widths()

    def _counted_widths(self):
        if self.widths is None:
            return ""
        least, most = min(self.widths), max(self.widths)
        return f", {least:,} kHz wide" if least == most else f", {least:,} to {most:,} kHz wide"


@dataclass
class Fault:
    """Why a sheet or a channel list is refused: the number, the field or row, its byte offset, what is there and what is allowed."""
    number: int
    place: str
    offset: int
    there: str
    allowed: str


class Refused(Exception):
    """A sheet that the planner refuses; `fault` says why."""

    def __init__(self, fault):
        super().__init__(f"refused {fault.number}")
        self.fault = fault


def encode(sheet):
    """The bytes of a sheet."""
    form, k, n, q, t = sheet.form(), len(sheet.links), sheet.frequencies(), len(sheet.rules), sheet.pairs()
    offsets = [HEADER]
    for size in (FORMS[form].row_bytes * k, 4 * n, 12 * q, 4 * t):
        offsets.append(offsets[-1] + size)
    parts = [struct.pack("<10I", form, k, n, q, t, *offsets)]
    first = 0
    for link, listed in enumerate(sheet.links):
        parts.append(struct.pack("<HH", first, len(listed)))
        if sheet.widths:
            parts.append(struct.pack("<I", sheet.widths[link]))
        first += len(listed)
    for listed in sheet.links:
        parts.append(struct.pack(f"<{len(listed)}I", *listed))
    first = 0
    for rule in sheet.rules:
        value = first if rule.kind == LISTED else rule.value
        parts.append(struct.pack("<HHHHI", rule.a, rule.b, rule.kind, len(rule.pairs), value))
        first += len(rule.pairs)
    for rule in sheet.rules:
        for pair in rule.pairs:
            parts.append(struct.pack("<HH", *pair))
    return b"".join(parts)


def decode(data):
    """The sheet that the bytes hold; raises Refused with the first fault in the order of the causes."""
    form, k, n, q, t = _header(data)
    size = FORMS[form].row_bytes
    at_frequencies = HEADER + size * k
    at_rules = at_frequencies + 4 * n
    at_pairs = at_rules + 12 * q
    counts = _link_rows(data, size, k, n)
    widths = _widths(data, size, k) if form != 1 else None
    links = _frequencies(data, counts, at_frequencies)
    rules, starts = _rule_rows(data, k, q, t, at_rules)
    _pair_rows(data, links, rules, starts, at_pairs)
    return Sheet(links, rules, widths, form == 3)


def is_festival(data):
    """Whether bytes are of form 3 and pass causes 1 and 2: the console's planning call and the program refuse all of these with 3."""
    if len(data) < HEADER:
        return False
    form, k = struct.unpack_from("<2I", data)
    return form == 3 and 1 <= k <= FORMS[3].links


def fault_of(data):
    """The first fault of the bytes, or None where the planner accepts them."""
    try:
        decode(data)
    except Refused as refused:
        return refused.fault
    return None


def _refuse(number, place, offset, there, allowed):
    raise Refused(Fault(number, place, offset, there, allowed))


def _header(data):
    if len(data) < HEADER:
        _refuse(1, "the file as a whole", 0, f"{len(data)} bytes", "at least the 40 bytes of the header")
    form, k, n, q, t, *offsets = struct.unpack_from("<10I", data)
    if form not in FORMS:
        _refuse(1, "header, form", 0, f"{form:,}", "1, 2 or 3")
    most = FORMS[form]
    if not 1 <= k <= most.links:
        _refuse(2, "header, number of links", 4, f"{k:,}", f"1 to {most.links} in form {form}")
    if not 1 <= n <= most.frequencies:
        _refuse(3, "header, number of frequencies", 8, f"{n:,}", f"1 to {most.frequencies:,} in form {form}")
    if q > MOST_RULES:
        _refuse(3, "header, number of rules", 12, f"{q:,}", f"0 to {MOST_RULES:,}")
    if t > MOST_PAIRS:
        _refuse(3, "header, number of pairs", 16, f"{t:,}", f"0 to {MOST_PAIRS:,}")
    wanted = HEADER
    sections = (("offset of the link section", 0), ("offset of the frequency section", most.row_bytes * k),
                ("offset of the rule section", 4 * n), ("offset of the pair section", 12 * q),
                ("length of the sheet", 4 * t))
    for index, (name, before) in enumerate(sections):
        wanted += before
        if offsets[index] != wanted:
            _refuse(4, f"header, {name}", 20 + 4 * index, f"{offsets[index]:,}",
                    f"{wanted:,}, by form {form} ({most.row_bytes} bytes a link row), {k} links, {n} frequencies, {q} rules and {t} pairs")
    if len(data) != wanted:
        _refuse(4, "the file as a whole", min(len(data), wanted), f"{len(data):,} bytes",
                f"{wanted:,} bytes, as the length at byte 36 says")
    return form, k, n, q, t


def _link_rows(data, size, k, n):
    counts, total = [], 0
    for link in range(k):
        row = HEADER + size * link
        first, count = struct.unpack_from("<HH", data, row)
        if first != total:
            _refuse(5, f"link {link}, first frequency", row, f"{first:,}",
                    f"{total:,}, the sum of the earlier counts")
        if count < 1:
            _refuse(5, f"link {link}, count", row + 2, "0", "at least 1: a link needs a frequency")
        counts.append(count)
        total += count
    if total != n:
        _refuse(5, f"link {k - 1}, count (the last link row)", HEADER + size * (k - 1) + 2, f"the counts sum to {total:,}",
                f"{n}, the number of frequencies in the header (byte 8)")
    return counts


def _widths(data, size, k):
    widths = []
    for link in range(k):
        offset = HEADER + size * link + 4
        width, = struct.unpack_from("<I", data, offset)
        if not 1 <= width <= MOST_WIDTH:
            _refuse(16, f"link {link}, width", offset, f"{width:,} kHz", f"1 to {MOST_WIDTH:,} kHz")
        widths.append(width)
    return widths


def _frequencies(data, counts, at):
    links, index = [], 0
    for link, count in enumerate(counts):
        listed = []
        for position in range(count):
            offset = at + 4 * index
            khz, = struct.unpack_from("<I", data, offset)
            place = f"link {link}, frequency {position} of its list (frequency {index} of the sheet)"
            if not 1 <= khz <= MOST_KHZ:
                _refuse(6, place, offset, f"{khz:,} kHz", f"1 to {MOST_KHZ:,} kHz")
            if listed and khz <= listed[-1]:
                _refuse(6, place, offset, f"{khz:,} kHz",
                        f"more than {listed[-1]:,} kHz, the frequency before it: a list rises strictly")
            listed.append(khz)
            index += 1
        links.append(listed)
    return links


def _rule_rows(data, k, q, t, at):
    rules, starts, before, total = [], [], None, 0
    for index in range(q):
        row = at + 12 * index
        a, b, kind, count, value = struct.unpack_from("<HHHHI", data, row)
        name = f"rule {index} (links {a} and {b})"
        if not b < k:
            _refuse(7, f"{name}, link b", row + 2, f"{b:,}", f"below {k}, the number of links")
        if not a < b:
            _refuse(7, f"{name}, link a", row, f"{a:,}", f"below link b, which is {b}")
        if before is not None and (a, b) <= before:
            _refuse(7, f"{name}, links", row, f"({a}, {b})",
                    f"after ({before[0]}, {before[1]}), the links of rule {index - 1}: rows rise strictly by (a, b)")
        if kind not in (SPACING, EXACT, LISTED):
            _refuse(7, f"{name}, kind", row + 4, f"{kind:,}", "1, 2 or 3")
        if kind == LISTED:
            if count < 1:
                _refuse(7, f"{name}, count", row + 6, "0", "at least 1 for kind 3")
            if value != total:
                _refuse(7, f"{name}, value", row + 8, f"{value:,}",
                        f"{total:,}, the sum of the earlier kind 3 counts")
        else:
            if count != 0:
                _refuse(7, f"{name}, count", row + 6, f"{count:,}", f"0 for kind {kind}")
            if not 1 <= value <= MOST_KHZ:
                _refuse(7, f"{name}, value", row + 8, f"{value:,} kHz", f"1 to {MOST_KHZ:,} kHz for kind {kind}")
        rules.append(Rule(a, b, kind, 0 if kind == LISTED else value))
        starts.append((total, count))
        total += count
        before = (a, b)
    if total != t:
        _refuse(7, "the rule rows together, sum of the kind 3 counts", at, f"{total:,}",
                f"{t:,}, the number of pairs in the header (byte 16)")
    return rules, starts


def _pair_rows(data, links, rules, starts, at):
    for index, (rule, (start, count)) in enumerate(zip(rules, starts)):
        for number in range(count):
            row = at + 4 * (start + number)
            pair = struct.unpack_from("<HH", data, row)
            name = f"pair {start + number} (pair {number} of rule {index}, links {rule.a} and {rule.b})"
            for side, link in enumerate((rule.a, rule.b)):
                if pair[side] >= len(links[link]):
                    _refuse(8, f"{name}, position in the list of link {link}", row + 2 * side, f"{pair[side]:,}",
                            f"0 to {len(links[link]) - 1}, the positions in its list")
            if rule.pairs and pair <= rule.pairs[-1]:
                _refuse(8, f"{name}, positions", row, f"({pair[0]}, {pair[1]})",
                        f"after {rule.pairs[-1]}, the pair before it: the rows of a rule rise strictly")
            rule.pairs.append(pair)
