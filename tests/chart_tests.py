"""Tests of the chart of television channels: docs/CHART.md beside the code's table and beside the built library, pages that cannot be read,
tools/sheet chart. That the tools' edges are those of the reading is tried in tool_tests.py."""

import random
import re
import shutil
import struct
import tempfile
from pathlib import Path

import native
from air_samples import check_call, plan_call
from desk_tests import driver
from harness import EXAMPLES, SHEET, need, test
from jobsheet import chart
from jobsheet.binary import Sheet, encode
from native import ROOT, run

PAGE, CODE = Path("docs/CHART.md"), Path("crates/channels/src/chart.rt")


def text_of(path):
    return (ROOT / path).read_bytes().decode()


def rows(page):
    """The channels of a page with their first and last kHz, read apart from the tools."""
    found = re.findall(r"^\| (\d\d) \| (\d{3}),(\d{3}) \| (\d{3}),(\d{3}) \|$", page, re.MULTILINE)
    return [(int(channel), int(low + low_khz), int(last + last_khz)) for channel, low, low_khz, last, last_khz in found]


def is_made(page, code):
    """Whether the lines of tables on a page are, byte for byte, the table made from the code's numbers."""
    return "".join(line for line in page.splitlines(True) if line.startswith("|")) == chart.table(chart.in_code(code))


def raised(text, start):
    """For each number of a text from a place on: the text with that number one higher."""
    for number in re.finditer(r"\d+", text[start:]):
        first, last = start + number.start(), start + number.end()
        yield f"{text[:first]}{int(number.group()) + 1:0{last - first}}{text[last:]}"


@test("docs/CHART.md: its table is made from the code's numbers, and a change of any number of either shows")
def _(_):
    page, code = text_of(PAGE), text_of(CODE)
    need(is_made(page, code), "the table is not made from the code's numbers: 'tools/sheet chart --remake' makes it again")
    entries = re.findall(r"^    (\d+), // (\d\d)$", code, re.MULTILINE)
    need(rows(page) == [(int(channel), int(low), int(low) + 7_999) for low, channel in entries], f"{rows(page)}, in the code {entries}")
    need([channel for channel, *_ in rows(page)] == list(range(21, 49)), f"{rows(page)}")
    need(chart.on_page() == {channel: (low, last + 1) for channel, low, last in rows(page)}, f"the tools read {chart.on_page()}")
    pages = list(raised(page, page.index("|---|")))
    table, end = code.index("    470000"), code.index("];")
    codes = [f"{one}{code[end:]}" for one in raised(re.sub(r" // \d\d$", "", code[:end], flags=re.MULTILINE), table)]
    need((len(pages), len(codes)) == (28 * 5, 28), f"{len(pages)} numbers on the page, {len(codes)} in the code")
    for number, changed in enumerate(pages):
        need(not is_made(changed, code), f"number {number} of the page can be changed")
    for number, changed in enumerate(codes):
        need(not is_made(page, changed), f"entry {number} of the code can be changed")
    return f"{len(pages) + len(codes)} numbers changed one by one"


@test("docs/CHART.md: the built library strikes the first and the last kHz of every channel, and not the ones beside them")
def _(args):
    rng, calls, wanted = random.Random(args.seed + 60), [], []
    for channel, low, last in rows(text_of(PAGE)):
        for khz, struck in ((low - 1, False), (low, True), (last, True), (last + 1, False)):
            data, on_air = encode(Sheet([[khz]], [])), bytes([channel])
            calls += [check_call(data, on_air, struct.pack("<I", khz)), plan_call(rng, data, on_air, cells_len=4)]
            wanted += [(channel, khz, 0), (channel, khz, 101 << 32)] if struck else [(channel, khz, 100), (channel, khz, (100 << 32) + 2)]
    need(len(calls) == 28 * 8, f"{len(calls)} calls")
    for (channel, khz, number), (returned, _, _) in zip(wanted, native.desk_answers(driver(), calls)):
        need(returned == number, f"channel {channel} on air, {khz} kHz: the library returns {returned:#x}, the page wants {number:#x}")
    return f"{len(calls)} calls"


# ---- Pages that cannot be read

def copied(folder):
    """A copy of the tools, of the page and of the code's table."""
    shutil.copytree(ROOT / "tools", Path(folder) / "tools", ignore=shutil.ignore_patterns("__pycache__"))
    for path in (PAGE, CODE):
        (Path(folder) / path).parent.mkdir(parents=True)
        shutil.copy(ROOT / path, Path(folder) / path)
    return Path(folder)


# By what is wrong with the page: a pattern in it, what stands there instead, and words of the message.
DAMAGES = {
    "nothing": (r"(?s).*", "", "expected a table with the head | channel | first kHz | last kHz |, found none"),
    "another head": (r"first kHz", "from kHz", "expected a table with the head"),
    "no line below the head": (r"\|---.*\n", "", "expected a table with the head"),
    "no row": (r"(\|---.*\n)(.+\n)+", r"\1", "expected 28 rows, channels 21 to 48, found 0"),
    "no first row": (r"\| 21 .*\n", "", "expected '| 21 | first kHz | last kHz |', found '| 22 | 478,000 | 485,999 |'"),
    "no middle row": (r"\| 38 .*\n", "", "expected '| 38 | first kHz | last kHz |', found '| 39 |"),
    "no last row": (r"\| 48 .*\n", "", "expected 28 rows, channels 21 to 48, found 27"),
    "a row more": (r"(\| )48( .*\n)", r"\g<0>| 49 | 694,000 | 701,999 |\n", "expected no row after that of channel 48, found '| 49 |"),
    "a row twice": (r"\| 30 .*\n", r"\g<0>\g<0>", "expected '| 31 | first kHz | last kHz |', found '| 30 |"),
    "two rows swapped": (r"(\| 30 .*\n)(\| 31 .*\n)", r"\2\1", "expected '| 30 | first kHz | last kHz |', found '| 31 |"),
    "a blank line": (r"\| 30 ", r"\n\g<0>", "expected 28 rows, channels 21 to 48, found 9"),
    "a column less": (r"606,000 \| ", "", "expected '| 38 | first kHz | last kHz |', found '| 38 | 613,999 |'"),
    "a letter": (r"606,000", "6O6,000", "found '| 38 | 6O6,000 | 613,999 |'"),
    "a point": (r"606,000", "606.000", "found '| 38 | 606.000 | 613,999 |'"),
    "no commas": (r"613,999", "613999", "found '| 38 | 606,000 | 613999 |'"),
    "a sign": (r"606,000", "-606,000", "found '| 38 | -606,000 | 613,999 |'"),
    "no number": (r"606,000", "", "found '| 38 |  | 613,999 |'"),
    "5,000 digits": (r"606,000", "9" * 5000, "found '| 38 | 99999"),
    "last below first": (r"613,999", "605,999", "expected a last kHz from 606,000 on, found 605,999"),
    "within the channel before": (r"606,000", "605,999", "expected a first kHz above 605,999, the last of channel 37, found 605,999"),
}
TAKE_AGAIN = ("nothing", "another head", "no line below the head")  # what --remake cannot mend
NEED_CHART = (["chart"], ["chart", "38"], ["plan", EXAMPLES / "on-air.txt"], ["picture", EXAMPLES / "on-air.txt", "-o", "-"],
              ["counts", EXAMPLES / "theatre.sheet", "--air", "21"], ["why", EXAMPLES / "theatre.sheet", "--air", "38"])


def told(root, *command):
    """Status, output and message of a command of copied tools, which builds nothing."""
    done = run(["env", "PATH=/usr/bin:/bin", root / "tools" / "sheet", *command], cwd=root)
    return done.returncode, done.stdout.decode(), done.stderr.decode()


def refuses(root, words, commands=NEED_CHART):
    """Holds commands that need the chart to a message with these words."""
    for command in commands:
        status, printed, said = told(root, *command)
        need(status == 2 and not printed and said.startswith("tools/sheet: ") and said.count("\n") == 1 and all(word in said for word in words),
             f"{command[0]}: status {status}, {printed[:100]}{said[-400:]}; wanted {words}")


@test("docs/CHART.md: a page that is damaged or missing ends what needs it with what is wrong and what to do")
def _(_):
    page = text_of(PAGE)
    with tempfile.TemporaryDirectory() as folder:
        root = copied(folder)
        for number, (name, (pattern, instead, words)) in enumerate(DAMAGES.items()):
            damaged = re.sub(pattern, instead, page, count=1)
            need(damaged != page, f"{name}: the page is as it was")
            (root / PAGE).write_text(damaged, encoding="utf-8")
            do = "git checkout docs/CHART.md" if name in TAKE_AGAIN else "tools/sheet chart --remake"
            refuses(root, [str(root / PAGE), words, do], [NEED_CHART[0], NEED_CHART[1 + number % 5]])
            at = re.search(r", line (\d+): .*, found '(.*)'\. ", told(root, "chart")[2])
            need(not at or damaged.split("\n")[int(at[1]) - 1].startswith(at[2]), f"{name}: another line, {at and at[0]}")
        (root / PAGE).write_bytes(page.encode().replace(b"606,000", b"606,\xff00"))
        refuses(root, [f"{PAGE} cannot be read", "git checkout docs/CHART.md"])
        (root / PAGE).unlink()
        refuses(root, ["there is no file", str(root / PAGE), "git checkout docs/CHART.md"])
        for name, ending, *more in (("make", "txt", "-o", "out"), ("show", "sheet"), ("why", "sheet")):
            need(told(root, name, EXAMPLES / f"on-air.{ending}", *more)[0] == 0, f"{name} needs the page")
        (root / PAGE).mkdir()
        refuses(root, [f"{PAGE} cannot be read", "git checkout docs/CHART.md"])
    return f"{len(DAMAGES) + 3} pages"


# ---- tools/sheet chart

@test("tools/sheet chart prints the page in MHz: all channels, or those named")
def _(_):
    head, lines = "channel  from MHz  up to MHz", {}
    for channel, low, last in rows(text_of(PAGE)):
        lines[channel] = f"     {channel}   {low / 1000:.3f}    {(last + 1) / 1000:.3f}"
    for given, listed in (([], range(21, 49)), (["38,42-43"], (38, 42, 43)), (["42-43 38"], (38, 42, 43)), (["43", "38,", "42"], (38, 42, 43)),
                          (["48"], (48,)), (["21-48"], range(21, 49))):
        done = run([SHEET, "chart", *given])
        need(done.stdout.decode().splitlines() == [head, *(lines[channel] for channel in listed)] and not done.stderr and done.returncode == 0,
             f"{given}: {done.stdout.decode()}{done.stderr.decode()}")
    shown = run([SHEET, "chart", "38,42-43"]).stdout.decode()
    need(f"```text\n{shown}```\n" in text_of(Path("docs/TEXT.md")), "docs/TEXT.md does not hold what 'tools/sheet chart 38,42-43' prints")
    for given, words in ((["20"], "expected channels from 21 to 48, found 20"), (["38", "49"], "found 49"), (["43-42"], "such as 42-43, found 43-42"),
                         (["38", "38"], "expected each channel once, found 38 twice"), (["x"], "found x"), ([""], "found none")):
        done = run([SHEET, "chart", *given])
        need(done.returncode == 2 and done.stderr.decode().startswith(f"tools/sheet: chart {' '.join(given)}: expected ") and not done.stdout
             and words in done.stderr.decode(), f"{given}: {done.stderr.decode()}")


@test("the tools go by the page: what it says of a channel decides, in the chart and in what a channel takes")
def _(_):
    with tempfile.TemporaryDirectory() as folder:
        root = copied(folder)
        (root / "job").write_bytes(encode(Sheet([[494_000], [501_999]], [])))
        for low, last, takes in (("494,000", "501,999", "2 of 2 frequencies, from 2 of 2"), ("494,001", "501,999", "1 of 2 frequencies, from 1 of 2"),
                                 ("494,000", "501,998", "1 of 2 frequencies, from 1 of 2"), ("494,001", "501,998", "no frequency of this job")):
            page = re.sub(r"(?m)^\| 24 .*", f"| 24 | {low} | {last} |", text_of(PAGE))
            (root / PAGE).write_text(page, encoding="utf-8")
            beyond = int(last.replace(",", "")) + 1
            need(told(root, "chart", "24")[1].endswith(f"     24   {low.replace(',', '.')}    {beyond / 1000:.3f}\n"), f"{low} to {last}: the chart")
            said = told(root, "why", "job", "--air", "24")[1]
            need(f"on air: channel 24; it takes {takes}" in said, f"{low} to {last}: {said}")


@test("tools/sheet chart --remake makes the table again from the code's, and leaves the rest of the page")
def _(_):
    page, code = text_of(PAGE), text_of(CODE)
    with tempfile.TemporaryDirectory() as folder:
        root = copied(folder)

        def remade(before, source=code):
            """Status, message and the page afterwards, of a page and the code's file."""
            (root / PAGE).write_bytes(before.encode())
            (root / CODE).write_bytes(source.encode())
            status, printed, said = told(root, "chart", "--remake")
            need((status == 0) == printed.startswith(f"wrote {root / PAGE}: ") == (not said), f"status {status}, {printed}{said}")
            return status, said, (root / PAGE).read_bytes().decode()

        for before in (page, page + "\nMore words.\n", page.rstrip("\n")):
            need(remade(before) == (0, "", before if before.endswith("\n") else page), "another page of the same numbers")
        after = page.replace("| 48 | 686,000 | 693,999 |", "| 48 | 686,001 | 694,000 |")
        need(remade(page, code.replace("686000", "686001")) == (0, "", after) and after != page, "the page does not follow the code")
        for name, (pattern, instead, _) in DAMAGES.items():
            damaged = re.sub(pattern, instead, page, count=1)
            status, said, after = remade(damaged)
            if name in TAKE_AGAIN:
                need(status == 2 and "git checkout docs/CHART.md" in said and after == damaged, f"{name}: status {status}, {said}")
            elif name != "a blank line":  # which ends the table: the rows after it are left
                need(after == page, f"{name}: not mended")
        for source in ("", code.replace("470000", "47000O"), code.replace("    478000, // 22\n", ""), code.replace("470000,", "470000, 470000,"),
                       code.replace("LOWER_EDGES:", "LOWER:"), code.replace("470000", "9" * 5000), code.replace("const LOWER", "// const LOWER")):
            status, said, after = remade(page, source)
            need(status == 2 and "expected a table LOWER_EDGES of 28 numbers, found " in said and "git checkout crates/channels/src/chart.rt" in said
                 and "Traceback" not in said and after == page, f"status {status}, {said}")
        (root / CODE).unlink()
        refuses(root, ["there is no file", str(root / CODE)], [["chart", "--remake"]])
        refuses(root, ["--remake writes the rows of all channels"], [["chart", "--remake", "38"]])
        need((root / PAGE).read_bytes().decode() == page, "a refused --remake wrote the page")
