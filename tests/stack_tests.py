"""Tests of the stack that a call takes, against the KiB that the headers name."""

import re
from pathlib import Path

import native
from harness import need, test
from jobsheet.binary import LISTED, Rule, Sheet, encode
from native import ARCHIVE, BUILD, DESK_ARCHIVE, ROOT, run

SIZES = ((64, 8, False), (128, 8, True), (2, 512, True), (16, 64, True))  # links, frequencies of each, form 3
OTHERS = ("check", "check_job", "import", "heaviest")  # of which the header has one number


def named():
    """The KiB that the two headers name, by function."""
    console = (ROOT / "include" / "guvtemi.h").read_text(encoding="utf-8")
    desk = re.sub(r"\s+", " ", (ROOT / "include" / "guvtemi_desk.h").read_text(encoding="utf-8"))
    plan = re.search(r"guvtemi_plan takes up to (\d+) KiB of stack", console)
    calls = re.search(r"guvtemi_plan_job takes up to (\d+) KiB of stack, one of guvtemi_count_job up to (\d+), of guvtemi_export up to (\d+) and "
                      r"of guvtemi_spares up to (\d+), for every form; the others take up to (\d+)", desk)
    need(plan and calls, "the headers do not name the stack of their calls")
    numbers = dict(zip(("plan", "plan_job", "count_job", "export", "spares"), map(int, plan.groups() + calls.groups()[:-1])))
    return numbers | {name: int(calls.group(5)) for name in OTHERS}


def tried(links, each, festival):
    """A sheet in which every vertex of the last link but one is tried: only its last goes with one of the last link, the last."""
    lists = [[470_000 + 100 * (link * each + i) for i in range(each)] for link in range(links)]
    return encode(Sheet(lists, [Rule(links - 2, links - 1, LISTED, 0, [(each - 1, each - 1)])], [200] * links if festival else None))


def taken(program, function, path, filters=0, choice=0):
    done = run([program, function, path, filters, choice, 3_000 if filters & 4 else 20_000])
    need(done.returncode == 0, f"stack {function} {path.name}: status {done.returncode} {done.stderr.decode(errors='replace')[:200]}")
    return int(done.stdout) / 1024


@test("the stack of each call is within what the headers name, for every form, filter and choices 0 and 1")
def _(_):
    program = native.build("tests/stack.c", "stack", ["-pthread", "-Wl,--undefined=guvtemi_plan", ARCHIVE], DESK_ARCHIVE)  # both archives
    most = dict.fromkeys(named(), 0.0)
    sizes = BUILD / "stack.sizes"
    sizes.write_bytes(bytes((64, 8)))
    for links, each, festival in SIZES:
        path = Path(BUILD / f"stack-{links}-{each}.sheet")
        path.write_bytes(tried(links, each, festival))
        for function in most:
            settings = [(filters, choice) for filters in range(8) for choice in (0, 1)] if function in ("plan", "plan_job", "count_job") else [(0, 0)]
            for filters, choice in settings:
                most[function] = max(most[function], taken(program, function, sizes if function == "heaviest" else path, filters, choice))
    for function, kib in named().items():
        need(most[function] <= kib, f"guvtemi_{function} took {most[function]:.1f} KiB, the header says {kib}")
    need(most["plan_job"] > 256 and most["plan"] > 64, f"less than the work words: {most}")
    return ", ".join(f"{function} {kib:.0f}" for function, kib in most.items())
