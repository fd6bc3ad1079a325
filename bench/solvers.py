"""Sheets in the words of other solvers, and one run of each: CaDiCaL, toulbar2, Gecode through MiniZinc."""

import itertools
import os
import resource
import shutil
import signal
import subprocess
from dataclasses import dataclass

from jobsheet.binary import EXACT, LISTED, SPACING


@dataclass
class Run:
    """verdict is found, none, late where the time was over, or failed; seconds is the whole process's processor time."""
    verdict: str
    seconds: float


def _children():
    """The processor time of every process that was started here and has ended."""
    used = resource.getrusage(resource.RUSAGE_CHILDREN)
    return used.ru_utime + used.ru_stime


def timed(command, seconds):
    """(what a command printed, its status, its processor time); None for the status where the time was over."""
    start = _children()
    process = subprocess.Popen(command, stdout=subprocess.PIPE, stderr=subprocess.STDOUT, preexec_fn=os.setsid)
    try:
        printed, _ = process.communicate(timeout=seconds)
    except subprocess.TimeoutExpired:
        os.killpg(process.pid, signal.SIGKILL)  # the command and what it started
        process.communicate()
        return "", None, _children() - start
    return printed.decode("utf-8", "replace"), process.returncode, _children() - start


def allowed(sheet, rule):
    """The test of a rule on positions in the lists of its links."""
    first, second, listed, least = sheet.links[rule.a], sheet.links[rule.b], set(rule.pairs), least_apart(sheet, rule)
    if rule.kind == SPACING:
        return lambda p, q: abs(first[p] - second[q]) >= least
    if rule.kind == EXACT:
        return lambda p, q: abs(first[p] - second[q]) == rule.value
    return lambda p, q: (p, q) in listed


def least_apart(sheet, rule):
    """The least whole number of kHz between two frequencies that keeps a spacing: in form 2 half the widths come on top."""
    return rule.value + (sheet.widths[rule.a] + sheet.widths[rule.b] + 1) // 2 if sheet.widths else rule.value


def unruled(sheet):
    """Every two links without a rule that share a frequency: they have to differ."""
    ruled = {(rule.a, rule.b) for rule in sheet.rules}
    lists = [set(listed) for listed in sheet.links]
    return [(a, b) for a, b in itertools.combinations(range(len(lists)), 2) if (a, b) not in ruled and lists[a] & lists[b]]


def forbidden(sheet):
    """(a, b, the pairs of positions that are not allowed) for each rule, and for links without one where they share a frequency."""
    for rule in sheet.rules:
        test = allowed(sheet, rule)
        every = itertools.product(range(len(sheet.links[rule.a])), range(len(sheet.links[rule.b])))
        yield rule.a, rule.b, [(p, q) for p, q in every if not test(p, q)]
    for a, b in unruled(sheet):
        yield a, b, [(p, sheet.links[b].index(khz)) for p, khz in enumerate(sheet.links[a]) if khz in sheet.links[b]]


class Cadical:
    """Direct encoding: a variable for each frequency of a link; one at least and one at most; a clause for each pair not allowed."""
    name, program = "CaDiCaL", "cadical"

    def write(self, sheet, path):
        clauses, start = [], [1]
        for listed in sheet.links:
            numbers = range(start[-1], start[-1] + len(listed))
            clauses.append(list(numbers))
            clauses += [[-u, -v] for u in numbers for v in numbers if u < v]
            start.append(numbers.stop)
        for a, b, pairs in forbidden(sheet):
            clauses += [[-(start[a] + p), -(start[b] + q)] for p, q in pairs]
        path = path.with_suffix(".cnf")
        with open(path, "w", encoding="ascii") as file:
            file.write(f"p cnf {start[-1] - 1} {len(clauses)}\n")
            file.writelines(" ".join(map(str, clause)) + " 0\n" for clause in clauses)
        return path

    def run(self, path, seconds):
        _, status, took = timed(["cadical", "-q", "-n", str(path)], seconds)
        return Run({10: "found", 20: "none"}.get(status, "late" if status is None else "failed"), took)


class Toulbar2:
    """A variable for each link, a hard cost function for each rule and for links that have to differ, an upper bound of 1: a solution costs 0."""
    name, program = "toulbar2", "toulbar2"

    def write(self, sheet, path):
        sizes, functions = [len(listed) for listed in sheet.links], list(forbidden(sheet))
        path = path.with_suffix(".wcsp")
        with open(path, "w", encoding="ascii") as file:
            file.write(f"sheet {len(sizes)} {max(sizes)} {len(functions)} 1\n" + " ".join(map(str, sizes)) + "\n")
            for a, b, pairs in functions:
                file.write(f"2 {a} {b} 0 {len(pairs)}\n")
                file.writelines(f"{p} {q} 1\n" for p, q in pairs)
        return path

    def run(self, path, seconds):
        printed, status, took = timed(["toulbar2", str(path)], seconds)
        if status is None:
            return Run("late", took)
        if "No solution" in printed:
            return Run("none", took)
        return Run("found" if "Optimum: 0" in printed else "failed", took)


class Gecode:
    """A MiniZinc model of the kHz of each link; MiniZinc flattens it beforehand, and Gecode's run is timed."""
    name, program = "Gecode", "minizinc"

    def write(self, sheet, path):
        lines = ['include "table.mzn";']
        for link, listed in enumerate(sheet.links):
            lines.append(f"var {{{', '.join(map(str, listed))}}}: f{link};")
        for rule in sheet.rules:
            if rule.kind == LISTED:
                rows = " | ".join(f"{sheet.links[rule.a][p]}, {sheet.links[rule.b][q]}" for p, q in rule.pairs)
                lines.append(f"constraint table([f{rule.a}, f{rule.b}], [| {rows} |]);")
            else:
                asked = f">= {least_apart(sheet, rule)}" if rule.kind == SPACING else f"= {rule.value}"
                lines.append(f"constraint abs(f{rule.a} - f{rule.b}) {asked};")
        lines += [f"constraint f{a} != f{b};" for a, b in unruled(sheet)]
        lines.append("solve satisfy;")
        model, flat = path.with_suffix(".mzn"), path.with_suffix(".fzn")
        model.write_text("\n".join(lines) + "\n", encoding="ascii")
        flat.unlink(missing_ok=True)
        subprocess.run(["minizinc", "-c", "--solver", "gecode", "--fzn", str(flat), "--no-output-ozn", str(model)],
                       stdout=subprocess.DEVNULL, stderr=subprocess.DEVNULL, check=False)
        return flat

    def run(self, path, seconds):
        if not path.exists():
            return Run("failed", 0)
        printed, status, took = timed(["fzn-gecode", str(path)], seconds)
        if status is None:
            return Run("late", took)
        if "=====UNSATISFIABLE=====" in printed:
            return Run("none", took)
        return Run("found" if "----------" in printed else "failed", took)


SOLVERS = (Cadical(), Toulbar2(), Gecode())


def is_installed(solver):
    return all(shutil.which(program) for program in ([solver.program, "fzn-gecode"] if solver.name == "Gecode" else [solver.program]))


def version(solver):
    """A solver's version in a word, or its name alone."""
    package = {"cadical": "cadical", "toulbar2": "toulbar2", "minizinc": "flatzinc"}[solver.program]
    query = shutil.which("dpkg-query")
    if query:
        asked = subprocess.run([query, "-W", "-f", "${Version}", package], capture_output=True, text=True, check=False)
        if asked.returncode == 0 and asked.stdout:
            return f"{solver.name} {asked.stdout}"
    return solver.name
