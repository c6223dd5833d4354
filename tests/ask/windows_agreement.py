#!/usr/bin/env python3
"""Compares what windows of a log tell with what the program tells of the whole, on generated logs of hundreds of rows.

Run as: tests/ask/windows_agreement.py [--cases N] [--seed N] [--rows LEAST MOST] [--family NAME ..] [--seconds S]

Each log and formula is asked whole, and by windows of 30 to 200 rows. No verdict may differ; each timing that windows
show has to be one of the log, with the value, as the program's replay says. The end is 1 where something differs.
"""

import argparse
import random
import subprocess
import sys
import tempfile
import time
from collections import Counter
from pathlib import Path
from typing import NamedTuple

sys.dont_write_bytecode = True  # leaves no compiled files beside the sources

import common  # sets the path
import long_logs
from tables import number_of_cases

from ask.formulas import read_formula
from ask.program import Program, find_program
from ask.windows.answer import SECONDS_OF_WINDOW
from ask.windows.asking import UNDECIDED, Setting, Whole
from ask.windows.bounds import Contradiction
from ask.windows.longlog import read_long_log
from ask.windows.shape import shape_of
from ask.windows.timings import truth_of
from ask.windows.verdict import verdict_of_slices

STATUSES = {0: (True, False), 1: (False, True), 2: (True, True)}


class Case(NamedTuple):
    """A log, a formula, and of how many rows the slices and windows are."""

    log: str
    formula: str
    family: str
    size: int
    most: int


def case_of(seed, families, rows):
    """The case of a seed."""
    draw = random.Random(seed)
    family = draw.choice(families)
    run = long_logs.FAMILIES[family](draw, draw.randint(*rows))
    log = long_logs.text_of(run)
    read = read_long_log(log.encode())
    times = [event.time for event in run.events]
    formula = long_logs.some_formula(draw, run, lambda promise: number_met(read, times, promise, 100 * run.spacing))
    return Case(log, formula, family, draw.choice((8, 16, 30, 60)), draw.choice((30, 60, 120, 200)))


def number_met(log, times, promise, most):
    """About the least number in place of `?` with which a promise is met in a timing, or a number by chance."""
    low, high = 1, most
    while low < high:
        middle = (low + high) // 2
        shape = shape_of(read_formula(f"G {promise.replace('?', str(middle))}"))
        if 0 not in evaluated(log, times, shape):
            high = middle
        else:
            low = middle + 1
    return low if low < most else most // 20


def evaluated(log, times, shape):
    """The truth of what a formula asks of every position, at each one of a timing."""
    return truth_of(log, shape, times).values


def whole_answer(program, case, seconds):
    """What the program says of the whole log: whether it can be true and false, or None where that is too much for it."""
    with tempfile.TemporaryDirectory() as folder:
        Path(folder, "f").write_text(case.formula)
        Path(folder, "l").write_text(case.log)
        words = [program, "check", str(Path(folder, "f")), str(Path(folder, "l"))]
        try:
            status = subprocess.run(words, stdout=subprocess.DEVNULL, timeout=seconds).returncode
        except subprocess.TimeoutExpired:
            return None
    return STATUSES.get(status) or (status if status not in UNDECIDED else None)


def windows_answer(program, case):
    """What windows say: whether it can be true and false, and what of their timings isn't so."""
    log = read_long_log(case.log.encode())
    shape = shape_of(read_formula(case.formula))
    try:
        whole = Whole(log, shape)
    except Contradiction:
        return 3, "", 0
    setting = Setting(Program(program), seconds=SECONDS_OF_WINDOW, most=case.most, size=case.size)
    verdict = verdict_of_slices(whole, setting)
    wrong = [value for value, times in verdict.timings.items() if replayed(program, case, times) != value]
    said = f"the timings for {wrong} are none" if wrong else ""
    return (verdict.can_be[True], verdict.can_be[False]), said, verdict.findings.asker.runs


def replayed(program, case, times):
    """The value of the formula in a timing as the program says, None where it's no timing."""
    with tempfile.TemporaryDirectory() as folder:
        for name, text in (("f", case.formula), ("l", case.log), ("t", "".join(f"{time}\n" for time in times))):
            Path(folder, name).write_text(text)
        words = [program, "replay", *(str(Path(folder, name)) for name in "flt")]
        return {0: True, 1: False}.get(subprocess.run(words, stdout=subprocess.DEVNULL).returncode)


def compared(said, right):
    """How what windows say compares with what is right: the same, less of it, or different."""
    if right is None:
        return "not asked whole"
    if said == right:
        return "same"
    if not isinstance(said, tuple) or not isinstance(right, tuple):
        return "DIFFERENT"
    if any(one is not None and one != other for one, other in zip(said, right)):
        return "DIFFERENT"
    return "not known"


def counts_words(counts):
    """How many cases had which outcome."""
    return ", ".join(f"{counts[key]} {key}" for key in sorted(counts))


def main():
    """Prints a line for each case that differs or isn't known, and the counts."""
    parser = argparse.ArgumentParser(description=__doc__.splitlines()[0])
    parser.add_argument("--cases", type=number_of_cases, default=100, metavar="N")
    parser.add_argument("--seed", type=int, default=60, metavar="N")
    parser.add_argument("--rows", type=int, nargs=2, default=(100, 300), metavar="N")
    parser.add_argument("--family", nargs="+", choices=list(long_logs.FAMILIES), default=list(long_logs.FAMILIES))
    parser.add_argument("--seconds", type=float, default=60.0, metavar="S", help="of the program for the whole log")
    parser.add_argument("--keep", metavar="FOLDER", help="where cases that differ are written")
    arguments = parser.parse_args()
    program, counts = find_program(None), Counter()
    for place in range(arguments.cases):
        seed = f"{arguments.seed} {place}"
        case = case_of(seed, arguments.family, arguments.rows)
        began = time.monotonic()
        said, wrong, runs = windows_answer(program, case)
        middle = time.monotonic()
        right = whole_answer(program, case, arguments.seconds)
        ended = time.monotonic()
        outcome = "DIFFERENT" if wrong else compared(said, right)
        counts[outcome] += 1
        counts["verdict " + str(right)] += 1
        if outcome != "same":
            rows = case.log.count("\n")
            print(
                f"case {place} of seed {arguments.seed}: {outcome}: {said}, and whole {right} {wrong} ({case.family}, "
                f"{rows} lines, {runs} runs in {middle - began:.1f} s, whole {ended - middle:.1f} s): {case.formula}",
                flush=True,
            )
            if outcome == "DIFFERENT" and arguments.keep:
                Path(arguments.keep).mkdir(exist_ok=True)
                Path(arguments.keep, f"{arguments.seed}-{place}.csv").write_text(case.log)
                Path(arguments.keep, f"{arguments.seed}-{place}.formula").write_text(case.formula)
        if place % 50 == 49:
            print(f"{place + 1} cases: {counts_words(counts)}", flush=True)
    print(counts_words(counts), flush=True)
    return 1 if counts["DIFFERENT"] else 0


if __name__ == "__main__":
    sys.path.insert(0, str(Path(__file__).resolve().parents[1]))
    import ends

    ends.run(main)
