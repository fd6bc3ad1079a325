"""Building C programs against the two libraries, and calling their functions through tests/driver.c and tests/desk_driver.c."""

import shutil
import struct
import subprocess
from pathlib import Path

ROOT = Path(__file__).resolve().parent.parent
ARCHIVE = ROOT / "crates" / "console" / "out" / "libconsole.a"
DESK_ARCHIVE = ROOT / "crates" / "desk" / "out" / "libdesk.a"
BUILD = ROOT / "target" / "outside"
WARNINGS = ["-Wall", "-Wextra", "-Werror", "-pedantic"]
SANITIZE = ["-g", "-fsanitize=address,undefined", "-fno-sanitize-recover=all"]


class Failed(Exception):
    """A test that does not hold; the text says how."""


class LeftOut(Exception):
    """A test that cannot be made here; the text says what it needs."""


def run(command, **more):
    """A finished process; its output as bytes."""
    try:
        return subprocess.run([str(word) for word in command], stdout=subprocess.PIPE, stderr=subprocess.PIPE, check=False, **more)
    except FileNotFoundError:
        raise Failed(f"{command[0]} is not installed") from None


def build(source, name, flags=(), archive=ARCHIVE):
    """Compiles a C file with the headers and an archive; the program's path."""
    BUILD.mkdir(parents=True, exist_ok=True)
    program = BUILD / name
    done = run(["gcc", "-std=c11", "-O1", *WARNINGS, *flags, "-I", ROOT / "include", "-o", program, ROOT / source, archive])
    if done.returncode:
        raise Failed(f"gcc on {source}: {done.stderr.decode(errors='replace').strip()[:500]}")
    return program


def valgrind(command, **more):
    """A run under valgrind; fails on a complaint."""
    if not shutil.which("valgrind"):
        raise LeftOut("valgrind is not installed (Debian: apt-get install valgrind)")
    done = run(["valgrind", "-q", "--error-exitcode=99", "--leak-check=full", *command], **more)
    if done.returncode == 99 or done.stderr:
        raise Failed(f"valgrind: {done.stderr.decode(errors='replace').strip()[:500] or 'a complaint'}")
    return done


def answers(driver, calls, under=run):
    """For each call (the number returned, whether something else changed, the cells afterwards)."""
    records = []
    for call in calls:
        head = (1, 0, 0, 0) if call.filters is None else (0, call.filters, call.choice, call.limit)
        records.append(struct.pack("<7I", *head, len(call.sheet), len(call.classes), len(call.cells)))
        records += [call.sheet, call.classes, call.cells]
    return [(returned, changed, cells) for returned, changed, (cells,) in _told(driver, records, [[call.cells] for call in calls], under)]


def desk_answers(driver, calls, under=run):
    """For each call (the number returned, whether something else changed, the slices that it writes afterwards)."""
    records = []
    for call in calls:
        slices = [*call.read, *call.written]
        lengths = [len(one) for one in slices] + [0] * (5 - len(slices))
        records += [struct.pack("<9I", call.function, *call.setting, *lengths), *slices]
    return _told(driver, records, [call.written for call in calls], under)


def _told(driver, records, written, under):
    """What a driver answers to records: for each the number returned, whether something else changed, the slices written."""
    done = under([driver], input=b"".join(records))
    if done.returncode or done.stderr:
        raise Failed(f"the driver ended with status {done.returncode}: {done.stderr.decode(errors='replace').strip()[:500]}")
    found, at = [], 0
    for slices in written:
        returned, changed = struct.unpack_from("<QI", done.stdout, at)
        at += 12
        after = []
        for before in slices:
            after.append(done.stdout[at:at + len(before)])
            at += len(before)
        found.append((returned, changed != 0, after))
    return found
