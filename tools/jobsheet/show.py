"""Printing a sheet in the text form, with link0, link1, .. for the names that a sheet does not hold."""

from .binary import EXACT, LISTED, SPACING
from .text import mhz

PAIRS_A_LINE = 6


def show(sheet, job):
    """The text of a sheet under a job's name without quotes. Reading it gives the same sheet, byte for byte; of a sheet of form 3 that form 2 holds
    it gives that of form 2."""
    names = [f"link{link}" for link in range(len(sheet.links))]
    units = "distances in kHz" if sheet.form() == 1 else "widths and distances in kHz; 'apart' is from edge to edge"
    lines = [f'job "{job}"',
             f"# {sheet.counted()}; frequencies in MHz, {units}"]
    lines += ["# a sheet of form 3; form 2 holds it too, and 'tools/sheet make' writes form 2", ""] if sheet.form() == 3 and sheet.fits(2) else [""]
    for name, listed in zip(names, sheet.links):
        lines.append(f"link {name} " + " ".join(mhz(khz) for khz in listed))
    if sheet.widths:
        lines += ["", *_widths(sheet, names)]
    if sheet.rules:
        lines.append("")
    lines += _spacings(sheet, names)
    lines += _grouped("free", {(rule.a, rule.b) for rule in sheet.rules if sheet.is_free(rule)}, names)
    for rule in sheet.rules:
        if rule.kind == EXACT:
            lines.append(f"exactly {rule.value} {names[rule.a]} {names[rule.b]}")
    for rule in sheet.rules:
        if rule.kind == LISTED and not sheet.is_free(rule):
            lines += _listed(sheet, rule, names)
    return "\n".join(lines) + "\n"


def _widths(sheet, names):
    """The lines of the widths: the commonest for all links where that names fewer, the others with their links."""
    named = {}
    for name, width in zip(names, sheet.widths):
        named.setdefault(width, []).append(name)
    common = max(named, key=lambda width: (len(named[width]), -width))
    if len(named) == 1 or len(named[common]) > 1:
        del named[common]
        yield f"width {common} all"
    for width in sorted(named):
        yield f"width {width} " + " ".join(named[width])


def _listed(sheet, rule, names):
    pairs = [f"{mhz(sheet.links[rule.a][p])}/{mhz(sheet.links[rule.b][q])}" for p, q in rule.pairs]
    for start in range(0, len(pairs), PAIRS_A_LINE):
        yield f"pairs {names[rule.a]} {names[rule.b]} " + " ".join(pairs[start:start + PAIRS_A_LINE])


def _spacings(sheet, names):
    """The lines of kind 1: the commonest value for all links where that is shorter, the others by groups of links."""
    k = len(sheet.links)
    ruled = {(rule.a, rule.b) for rule in sheet.rules}
    unruled = {(a, b) for a in range(k) for b in range(a + 1, k)} - ruled
    by_value = {}
    for rule in sheet.rules:
        if rule.kind == SPACING:
            by_value.setdefault(rule.value, set()).add((rule.a, rule.b))
    if not by_value:
        return
    common = max(by_value, key=lambda value: (len(by_value[value]), -value))
    if len(by_value[common]) > 2 * len(unruled):
        del by_value[common]
        yield f"apart {common} all"
        yield from _grouped("differ", unruled, names)
    for value in sorted(by_value):
        yield from _grouped(f"apart {value}", by_value[value], names)


def _grouped(words, pairs, names):
    """Lines that begin with these words and name groups of links: together just these pairs, each pair in one group."""
    left = set(pairs)
    while left:
        group = list(min(left))
        for link in sorted({b for _, b in left}):
            if link > group[-1] and all((other, link) in left for other in group):
                group.append(link)
        left -= {(a, b) for i, a in enumerate(group) for b in group[i + 1:]}
        yield f"{words} " + " ".join(names[link] for link in group)
