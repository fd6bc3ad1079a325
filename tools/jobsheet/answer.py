"""The planner's answer to a job: running the proved program, or the desk's calls for planning and counting; the verdict in words."""

import subprocess
import sys
import threading
from dataclasses import dataclass, field
from pathlib import Path

from . import channels as air
from . import desk
from .binary import encode
from .desk import NoAnswer
from .spacing import clashes, keeps_rules

ROOT = Path(__file__).resolve().parents[2]
PROGRAM = ROOT / "crates" / "plan" / "out" / "plan"
BUILD_PLAN, BUILD_DESK = "'rt run </dev/null' in crates/plan", "'rt lib' in crates/desk"
PATIENCE = 3  # seconds before a word that planning goes on
SETTING = (7, 0, 1_000_000)  # filter, choice and limit, as the program has them
COUNT_LIMIT, MOST_NODES = 100_000_000, 1_000_000_000
COUNT_FILTER = 3  # most of a run that counts is below plans, where more filters take time and strike little
VERDICTS = {100: "found", 101: "none", 102: "stopped"}
YES = 100  # of the check


@dataclass
class Answer:
    """verdict is found, none, stopped or refused; number its nodes, or the refusal; khz the plan in link order; spares its spare spacing in half
    kHz, a row for each link; counts, of a run that counts and was not stopped, the plans that use each frequency, a list for each link."""
    verdict: str
    number: int
    khz: list
    spares: list = field(default_factory=list)
    counts: list = field(default_factory=list)


def ask(data):
    """What the proved program answers to the bytes of a sheet."""
    if not PROGRAM.exists():
        raise NoAnswer(f"the planner is not built. Build it with {BUILD_PLAN} of {ROOT} (this needs the Rattle kit); "
                       "'./guvtemi FILE' there does the same and plans FILE.")
    try:
        process = subprocess.Popen([str(PROGRAM)], stdin=subprocess.PIPE, stdout=subprocess.PIPE, stderr=subprocess.DEVNULL)
    except OSError as error:
        raise NoAnswer(f"the planner {PROGRAM} does not start ({error.strerror}). Build it again with {BUILD_PLAN}.") from None
    with process:
        try:
            printed, _ = process.communicate(data, timeout=PATIENCE)
        except subprocess.TimeoutExpired:
            _go_on("planning, up to 1,000,000 nodes: a tight job can take minutes")
            printed, _ = process.communicate()
    answer = _read(printed.decode("ascii", "replace"))
    if answer is None:
        ended = f"ended with status {process.returncode}" if process.returncode else "ended"
        raise NoAnswer(f"the planner {PROGRAM} {ended} and printed {printed[:60]!r}, which is no answer. "
                       f"Build it again with {BUILD_PLAN}.")
    return answer


def _go_on(words):
    print(f"{words} (Ctrl-C gives up) ..", file=sys.stderr, flush=True)


def ask_desk(data, links, channels):
    """What the desk's planning call answers to the bytes of a sheet with so many links, with these channels on air."""
    number, nodes, khz = _patiently(lambda: desk.plan(data, bytes(channels), links, SETTING),
                                    f"planning, up to {SETTING[2]:,} nodes: a tight job can take minutes")
    return _told(number, nodes, khz)


def _told(number, nodes, khz, counts=()):
    """What a call of the desk says."""
    if number not in VERDICTS:
        return Answer("refused", number, [])
    return Answer(VERDICTS[number], nodes, khz if number == 100 else [], counts=list(counts) if number != 102 else [])


def _patiently(call, words):
    """What a call of the desk gives; these words are said where it takes long."""
    told = []
    desk.ready()

    def run():
        try:
            told.append(call())
        except NoAnswer as error:
            told.append(error)

    # Beside this thread, so that Ctrl-C is heard.
    thread = threading.Thread(target=run, daemon=True)
    thread.start()
    thread.join(PATIENCE)
    if thread.is_alive():
        _go_on(words)
        thread.join()
    if not told or isinstance(told[0], NoAnswer):
        raise told[0] if told else NoAnswer(f"the desk's call gave no answer. Build it again with {BUILD_DESK}.")
    return told[0]


def _read(printed):
    lines = printed.splitlines()
    words = lines[0].split(" ") if lines else []
    if len(words) != 2 or words[0] not in ("found", "none", "stopped", "refused") or not words[1].isdigit():
        return None
    khz = []
    for link, line in enumerate(lines[1:]):
        cells = line.split(" ")
        if len(cells) != 2 or cells[0] != str(link) or not cells[1].isdigit():
            return None
        khz.append(int(cells[1]))
    if (words[0] == "found") != bool(khz):
        return None
    return Answer(words[0], int(words[1]), khz)


def plan(sheet, channels=()):
    """The answer to an accepted sheet with these channels on air: the program's, or the desk's where there are channels or the form is 3, which the
    program does not plan."""
    by_desk = bool(channels) or sheet.form() == 3
    answer = ask_desk(encode(sheet), len(sheet.links), channels) if by_desk else ask(encode(sheet))
    return _held(sheet, channels, answer, BUILD_DESK if by_desk else BUILD_PLAN)


def count(sheet, channels=(), limit=COUNT_LIMIT):
    """The answer of the desk's counting call to an accepted sheet with these channels on air."""
    sizes = [len(listed) for listed in sheet.links]
    number, nodes, khz, counts = _patiently(lambda: desk.count(encode(sheet), bytes(channels), sizes, (COUNT_FILTER, 0, limit)),
                                            f"counting, up to {limit:,} nodes: this can take minutes")
    if len({sum(listed) for listed in counts}) > 1 or (number == 100) != any(counts[0]):
        raise NoAnswer("the counts of the links sum to different numbers of plans: do not go by them. Build the library again with "
                       f"{BUILD_DESK}.")
    return _held(sheet, channels, _told(number, nodes, khz, counts), BUILD_DESK)


def _held(sheet, channels, answer, build):
    """The answer, not refused. A plan is held to the rules twice more before anybody tunes by it: by the desk, which gives its spare spacing, and
    here."""
    if answer.verdict == "refused":
        raise NoAnswer(f"the planner refuses this sheet with number {answer.number}, and this command accepts it: "
                       "one of the two is wrong. Please report it with the sheet.")
    if answer.verdict == "found":
        number, answer.spares = desk.spares(encode(sheet), bytes(channels), answer.khz)
        if number != YES or not keeps_rules(sheet, answer.khz, channels):
            clash = clashes(answer.spares)
            raise NoAnswer(f"the planner's plan does not keep the rules of this sheet{f' ({clash})' if clash else ''}: do not tune by it. "
                           f"Build the planner again with {build}.")
    return answer


def said(answer):
    """The verdict in a sentence."""
    nodes = f"{answer.number:,} node{'' if answer.number == 1 else 's'}"
    if answer.verdict == "found":
        return f"plan found in {nodes}"
    if answer.verdict == "none":
        return f"no plan exists ({nodes}): no choice of one frequency per link keeps every rule"
    return f"stopped at {nodes} without an answer: there may be a plan or none"


def advice(job, answer):
    """What to do without a plan; links that the channels on air leave empty come first."""
    empty = air.left_empty(job.sheet, job.names, job.channels)
    if empty:
        them = "that link" if len(empty) == 1 else "these links"
        return "\n".join([*empty, f"Give {them} a frequency that no channel on air takes, or plan without {'it' if len(empty) == 1 else 'them'}."])
    parts = ", or plan parts of the job one by one" if answer.verdict == "stopped" else ""
    clear = " that no channel on air takes" if job.channels else ""
    return f"Give a link more frequencies{clear}, loosen a rule{parts or ', or free two links that may share a carrier'}."
