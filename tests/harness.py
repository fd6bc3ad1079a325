"""What every test shares: the list of tests, a way to fail, the built program, the answers that examples/README.md states."""

import re

from native import ROOT, Failed, run

PROGRAM = ROOT / "crates" / "plan" / "out" / "plan"
SHEET = ROOT / "tools" / "sheet"
EXAMPLES = ROOT / "examples"
TESTS = []


def test(name):
    """Marks a function as a test; it raises Failed, or returns a few words on what it saw."""
    def add(function):
        TESTS.append((name, function))
        return function
    return add


def need(condition, sentence):
    if not condition:
        raise Failed(sentence)


def printed_by_program(data):
    return run([PROGRAM], input=data).stdout.decode("ascii", "replace")


def example_sheets():
    return sorted(EXAMPLES.rglob("*.sheet"))


def example_answers():
    """The tables of examples/README.md: sheet file, what the planner answers, and the whole row."""
    page = (EXAMPLES / "README.md").read_text(encoding="utf-8")
    rows = [(sheet, answer, row) for row, sheet, answer in re.findall(r"^(\| `([^`]+\.sheet)` \|.*?\| `([a-z]+ \d+)`.*)$", page, re.MULTILINE)]
    need(len(rows) >= 13, f"examples/README.md lists {len(rows)} sheets with answers")
    return rows
