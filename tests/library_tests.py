"""Tests of the libraries: the headers against the archives, the C example, the console's two functions against the reading of the scope."""

import random
import re
import struct
from collections import Counter

import native
import reading
import samples
from harness import EXAMPLES, PROGRAM, example_sheets, need, printed_by_program, test
from jobsheet.binary import LISTED, Rule, Sheet, encode
from native import ARCHIVE, DESK_ARCHIVE, ROOT, SANITIZE, WARNINGS, run

HEADERS = {"guvtemi.h": (ARCHIVE, {"guvtemi_plan", "guvtemi_check"}),
           "guvtemi_desk.h": (DESK_ARCHIVE, {"guvtemi_export", "guvtemi_import", "guvtemi_plan_job", "guvtemi_check_job", "guvtemi_spares",
                                             "guvtemi_heaviest", "guvtemi_count_job"})}


# ---- The libraries and the headers

@test("the archives and the program are there")
def _(_):
    for path, made_by in ((ARCHIVE, "rt lib"), (DESK_ARCHIVE, "rt lib"), (PROGRAM, "rt run </dev/null")):
        need(path.exists(), f"{path.relative_to(ROOT)} is missing: '{made_by}' in {path.parent.parent.relative_to(ROOT)} writes it")


@test("headers: each and both compile alone as C99, C11 and C++17")
def _(_):
    for compiler, kind, standard in (("gcc", "c", "c99"), ("gcc", "c", "c11"), ("g++", "c++", "c++17")):
        for names in (["guvtemi.h"], ["guvtemi_desk.h"], list(HEADERS)):
            lines = "".join(f'#include "{name}"\n' for name in names)
            done = run([compiler, f"-std={standard}", *WARNINGS, "-fsyntax-only", "-I", ROOT / "include", "-x", kind, "-"], input=lines.encode())
            need(done.returncode == 0, f"{standard}, {names}: {done.stderr.decode().splitlines()[:2]}")


@test("headers against archives: the same functions")
def _(_):
    for name, (archive, wanted) in HEADERS.items():
        header = (ROOT / "include" / name).read_text(encoding="utf-8")
        declared = set(re.findall(r"^uint64_t (guvtemi_\w+)\(", header, re.MULTILINE))
        symbols = run(["nm", "-g", "--defined-only", archive]).stdout.decode()
        defined = set(re.findall(r" T (guvtemi_\w+)$", symbols, re.MULTILINE))
        need(declared == defined == wanted, f"{name}: declared {sorted(declared)}, defined {sorted(defined)}")


@test("C example: the program's answer to every example")
def _(_):
    console = native.build("examples/console.c", "console")
    for sheet in example_sheets():
        done = run([console, sheet])
        need(done.stdout.decode() == printed_by_program(sheet.read_bytes()), f"{sheet.name}: {done.stdout[:40]!r}")
        need(done.returncode == (0 if done.stdout.startswith(b"found") else 1), f"{sheet.name}: status {done.returncode}")


@test("C example: no complaint of the address and behaviour sanitizers")
def _(_):
    console = native.build("examples/console.c", "console-sanitized", SANITIZE)
    for sheet in example_sheets():
        done = run([console, sheet])
        need(done.returncode in (0, 1) and not done.stderr, f"{sheet.name}: {done.stderr.decode(errors='replace')[:400]}")


@test("C example: no complaint of valgrind")
def _(_):
    console = native.build("examples/console.c", "console")
    for sheet in example_sheets():
        native.valgrind([console, sheet])


@test("C example: a wrong argument gets a sentence")
def _(_):
    console = native.build("examples/console.c", "console")
    for arguments in ([], ["no-such-file"], [str(EXAMPLES)], ["a", "b"]):
        done = run([console, *arguments])
        need(done.returncode == 2 and done.stderr, f"{arguments}: status {done.returncode}")
    need(run([console, "--help"]).returncode == 0, "--help")


@test("examples/build builds and plans the theatre")
def _(_):
    done = run(["sh", EXAMPLES / "build"])
    need(done.stdout.decode() == printed_by_program((EXAMPLES / "theatre.sheet").read_bytes()), done.stderr.decode()[:300])


# ---- The two functions against the reading of the scope

def compare(calls, found):
    """Holds answers to the reading; how often each number came back."""
    seen = Counter()
    for call, (returned, changed, cells) in zip(calls, found):
        need(not changed, f"a call changed what it must leave: {call}")
        if call.filters is None:
            wanted, after = reading.console_check(call.sheet, call.cells), call.cells
            seen[f"check {returned}"] += 1
        else:
            wanted, after = reading.console_plan(call.sheet, call.filters, call.choice, call.limit, call.classes, len(call.cells))
            seen[returned >> 32] += 1
        need(returned == wanted and cells == after,
             f"returned {returned >> 32} and {returned % 2**32}, wanted {wanted >> 32} and {wanted % 2**32}, cells "
             f"{'as wanted' if cells == after else 'differ'}: {call}")
    return seen


@test("both functions against the reading: random and damaged calls")
def _(args):
    rng = random.Random(args.seed)
    driver = native.build("tests/driver.c", "driver", ["-O2"])
    seen = Counter()
    for _ in range(0, args.cases, 500):
        calls = [samples.random_call(rng) for _ in range(500)]
        seen += compare(calls, native.answers(driver, calls))
    wanted = (*range(1, 11), 12, 16, 100, 101, 102, "check 0", "check 10", "check 16", "check 100")
    missing = [number for number in wanted if not seen[number]]
    need(not missing, f"no call gave {missing}")
    return f"{sum(seen.values()):,} calls, every number"


@test("both functions against the reading: sheets at their limits")
def _(_):
    driver = native.build("tests/driver.c", "driver", ["-O2"])
    calls = list(samples.limit_calls())
    return f"{sum(compare(calls, native.answers(driver, calls)).values())} calls"


@test("planning against the reading: sheets on which a slip shows, limits around the tree's size")
def _(_):
    driver = native.build("tests/driver.c", "driver", ["-O2"])
    calls = list(samples.telling_calls())
    return f"{sum(compare(calls, native.answers(driver, calls)).values()):,} calls"


@test("two packs on one carrier: no plan without a rule, a plan where the pair is listed; the check says the same")
def _(_):
    driver = native.build("tests/driver.c", "driver", ["-O2"])
    listed = Sheet(samples.UNRULED.links, [Rule(0, 1, LISTED, 0, [(0, 0)])])
    nodes = (2, 0, 1, 0, 1, 0, 1, 0)  # of filters 0 to 7 under choice 0; choice 1 makes one class
    calls, wanted = [], []
    for filters in range(8):
        for choice in range(2):
            calls += [samples.Call(encode(sheet), filters, choice, 1_000_000, b"", bytes(8)) for sheet in (samples.UNRULED, listed)]
            wanted += [(101 << 32) + (0 if choice else nodes[filters]), (100 << 32) + 3]
    same = struct.pack("<2I", 500_000, 500_000)
    calls += [samples.Call(encode(sheet), cells=same) for sheet in (samples.UNRULED, listed)]
    wanted += [reading.NO, reading.YES]
    found = native.answers(driver, calls)
    for call, number, (returned, _, _) in zip(calls, wanted, found):
        need(returned == number, f"returned {returned >> 32} and {returned % 2**32}, wanted {number >> 32} and {number % 2**32}: {call}")
    compare(calls, found)
    printed = printed_by_program(encode(samples.UNRULED))
    need(printed == "none 0\n", f"the program says {printed!r}")


@test("the three forms and cause 16: each number in its place, in both functions and the program, which plan no form 3")
def _(_):
    driver = native.build("tests/driver.c", "driver", ["-O2"])
    sheets = list(samples.form_sheets())
    calls = [call for _, _, data in sheets for call in (samples.Call(data), samples.Call(data, 7, 0, 1, b"", bytes(8)))]
    found = native.answers(driver, calls)
    for index, (name, cause, data) in enumerate(sheets):
        checked, planned = found[2 * index][0], found[2 * index + 1][0]
        need(checked == (cause or 10), f"{name}: the check says {checked}, wanted {cause or 10}")
        refused = 3 if data[:4] == b"\3\0\0\0" and cause not in (1, 2) else cause
        need(planned == refused << 32 if refused else planned >> 32 >= 100, f"{name}: planning says {planned >> 32}, wanted {refused or 'a verdict'}")
        need(not refused or printed_by_program(data) == f"refused {refused}\n", f"{name}: the program says {printed_by_program(data)!r}")
    compare(calls, found)
    need(max(len(data) for _, data in samples.limit_sheets() if reading.refusal(data) == 0) == header_number("guvtemi.h", "GUVTEMI_MOST_SHEET_BYTES"),
         "GUVTEMI_MOST_SHEET_BYTES is not the length of the largest sheet of forms 1 and 2")
    return f"{len(sheets)} sheets"


def header_number(header, name):
    """A number that a header defines."""
    return int(re.search(rf"\b{name} = (\d+)", (ROOT / "include" / header).read_text(encoding="utf-8")).group(1))


@test("spacing between edges: met and missed by half a kHz; kind 2, listed pairs and links without a rule stay on centres")
def _(_):
    driver = native.build("tests/driver.c", "driver", ["-O2"])
    calls, wanted = [], []
    for allowed, sheet in samples.edge_sheets():
        data, cells = encode(sheet), struct.pack("<2I", sheet.links[0][0], sheet.links[1][0])
        calls += [samples.Call(data, 0, 0, 1_000_000, b"", bytes(8)), samples.Call(data, cells=cells)]
        wanted += [(100 << 32) + 3 if allowed else (101 << 32) + 2, reading.YES if allowed else reading.NO]
    found = native.answers(driver, calls)
    for call, number, (returned, _, _) in zip(calls, wanted, found):
        need(returned == number, f"returned {returned >> 32} and {returned % 2**32}, wanted {number >> 32} and {number % 2**32}: {call}")
    compare(calls, found)
    return f"{len(calls)} calls"


@test("both functions: no complaint of valgrind")
def _(args):
    rng = random.Random(args.seed + 1)
    driver = native.build("tests/driver.c", "driver-valgrind", ["-g"])
    calls = [samples.random_call(rng) for _ in range(150)] + list(samples.limit_calls())[::7]
    return f"{sum(compare(calls, native.answers(driver, calls, native.valgrind)).values())} calls"


# ---- The plain program of bench/

@test("the plain C++ program against the reading")
def _(args):
    rng = random.Random(args.seed + 6)
    plain = native.BUILD / "plain"
    done = run(["g++", "-std=c++20", "-O2", "-Wall", "-Wextra", "-o", plain, ROOT / "bench" / "plain.cpp"])
    need(done.returncode == 0 and not done.stderr, f"g++: {done.stderr.decode(errors='replace')[:400]}")
    words = {reading.FOUND: "found", reading.NONE: "none", reading.STOPPED: "stopped"}
    sheet_file, class_file = native.BUILD / "sheet", native.BUILD / "classes"
    runs = 0
    while runs < max(args.cases // 10, 50):
        sheet = samples.random_sheet(rng)
        data, classes = encode(sheet), samples.classes_for(rng, sheet)
        filters, choice, limit = rng.randrange(8), rng.randrange(3), rng.choice((1, 3, 10, 1_000_000))
        number, nodes, plan = reading.planned(reading.Sheet(data), filters, choice, limit, classes)
        if number == 12:
            continue
        sheet_file.write_bytes(data)
        class_file.write_bytes(classes)
        told = run([plain, sheet_file, str(filters), str(choice), str(limit), "0", class_file]).stdout.decode().split()
        need(told == [words[number], str(nodes), *map(str, plan)], f"{told}, wanted {number}, {nodes}, {plan}: {sheet}")
        runs += 1
    return f"{runs} runs"
