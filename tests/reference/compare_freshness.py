"""Compares what check leaves unknown with what it is to spend conflicts.

Run as: python3 compare_freshness.py PROGRAM [--cases N] [--seed S]

Each case is a small log and formula made by chance, and a number of conflicts
from one to three. The status is 4 just where the program leaves a value unknown,
which it has to do of some case at least. Where it does, the lines of its
section have to spend just these conflicts: as many Learn lines, each fresh,
used and over atoms that stand in clauses of rules, which freshness.py tests.
The first difference is printed with its files, and the end is 1.
"""

import os
import random
import subprocess
import sys
import tempfile
from collections import Counter
from pathlib import Path

sys.dont_write_bytecode = True  # leaves no compiled files beside the sources

import derivations
import formats
import freshness
import invent
import logs
import reports
from tables import read_log_arguments

CONFLICTS = (1, 2, 3)
CASES_WITH_UNKNOWN = 200  # among so many checks some value is left unknown
UNKNOWN = 4  # the status where a value is left unknown
PATIENCE = 60  # seconds that one run may take


def done_by(program, formula_text, log_text, conflicts):
    """A run of check for a formula, a log and a number of conflicts."""
    with tempfile.TemporaryDirectory() as folder:
        for name, text in (("formula", formula_text), ("log", log_text)):
            Path(folder, name).write_bytes(text)
        words = [program, "check", "--conflicts", str(conflicts), "formula", "log"]
        return subprocess.run(words, cwd=folder, capture_output=True, timeout=PATIENCE)


def unknown_sections(report):
    """The values that a report leaves unknown, with the lines of their sections."""
    if isinstance(report, reports.Verdicts):
        for value, section in ((True, report.on_true), (False, report.on_false)):
            if isinstance(section, reports.Unknown):
                yield value, section.lines


def complaint(formula_text, log_text, done, conflicts):
    """What is wrong with the report of check, or nothing; and how many values it leaves unknown."""
    log, formula = logs.read_log(log_text), formats.read_formula(formula_text)
    report = reports.read_report(done.stdout)
    if isinstance(report, derivations.SyntaxFault):
        return f"no report: {done.stdout[:80]!r}", 0
    left = list(unknown_sections(report))
    if (done.returncode == UNKNOWN) != bool(left):
        return f"status {done.returncode}, and {len(left)} values left unknown", len(left)
    for value, lines in left:
        problem = derivations.problem_of(log, formula, value)
        found = freshness.complaint(problem, freshness.rules_of(problem), lines, conflicts)
        if found:
            return found, len(left)
    return "", len(left)


def main():
    """Compares, and ends with 0 where there is no difference and with 1 where there is one."""
    arguments = read_log_arguments("compare what check leaves unknown", 1000, "checks")
    program = os.path.abspath(arguments.program)
    count = Counter()
    for number in range(arguments.cases):
        draw = random.Random(f"{arguments.seed} {number}")
        log_text, formula_text, _ = invent.some_problem(draw)
        conflicts = draw.choice(CONFLICTS)
        done = done_by(program, formula_text, log_text, conflicts)
        found, left = complaint(formula_text, log_text, done, conflicts)
        if found:
            print(f"difference: check {number} of seed {arguments.seed}, {conflicts} conflicts: {found}")
            print(f"formula: {formula_text!r}\nlog: {log_text!r}\noutput: {done.stdout!r}")
            sys.exit(1)
        count["unknown" if left else "decided"] += 1
    if arguments.cases >= CASES_WITH_UNKNOWN and not count["unknown"]:
        sys.exit(f"difference: of {arguments.cases} checks none left a value unknown")
    print(f"{arguments.cases} checks, no difference: {count['decided']} decided, {count['unknown']} unknown")


if __name__ == "__main__":
    sys.path.insert(0, str(Path(__file__).resolve().parents[1]))
    import ends

    ends.run(main)
