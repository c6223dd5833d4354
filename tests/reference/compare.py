"""Compares a built program with the reference, on fixed and on random cases.

Run as: python3 compare.py PROGRAM [--cases N] [--seed S] [--only KIND] [--second SHARE] [--third SHARE]

Each report that check writes is audited and trimmed by the program too, as it
is and broken, what is trimmed is audited and trimmed again, and each of its
witnesses is replayed.

It stops at the first difference, prints that case in full and ends with 1.
"""

import argparse
import os
import random
import re
import subprocess
import sys
import tempfile
from pathlib import Path
from typing import NamedTuple

sys.dont_write_bytecode = True  # leaves no compiled files beside the sources

import cases
import check_cases
import generate
import generate_logs
import invent_reports
import judge
import pulse_cases
import second_cases
import third_cases
from tables import number_of_cases, read_with_versions

PATIENCE = 60  # seconds that one run of the program may take

KINDS = {**generate.KINDS, **invent_reports.KINDS}
SHARES = {"times": 10, "order": 15, "replay": 40, "check": 15, "audit": 15, "trim": 5, "words": 5}


class Outcome(NamedTuple):
    status: int  # None where the program came to no end
    output: bytes
    errors: bytes


def run_program(program, folder, words, files):
    """Runs the program on real files, of which - is the standard input."""
    named = {name: data for name, data in files.items() if name != "-"}
    for name, data in named.items():
        with open(os.path.join(folder, name), "wb") as file:
            file.write(data)
    given = files.get("-", b"")
    try:
        done = subprocess.run(
            [program, *words], cwd=folder, input=given, capture_output=True, timeout=PATIENCE
        )
    except subprocess.TimeoutExpired:
        return Outcome(None, b"", b"stopped by the comparison, as it came to no end")
    finally:
        for name in named:
            os.unlink(os.path.join(folder, name))
    return Outcome(done.returncode, done.stdout, done.stderr)


def fixed_complaint(case, outcome):
    """What is wrong with the answer to a fixed case, or nothing."""
    if outcome.status == case.status and is_expected(case, outcome.output):
        return ""
    return "another answer is written out by hand"


def is_expected(case, output):
    """Whether an output is one of those that are written out by hand."""
    if case.pattern is not None:
        return bool(re.fullmatch(case.pattern, output))
    return output in case.outputs


def fixed_expectation(case):
    """The answers to a fixed case that are written out by hand."""
    if case.pattern is not None:
        return f"status {case.status}, output like {case.pattern!r}"
    outputs = " or ".join(repr(output) for output in case.outputs)
    return f"status {case.status}, output {outputs}"


def print_difference(title, case, wanted, outcome, complaint):
    """Prints a case in full, with what was expected and what came."""
    print(f"difference: {title}: {complaint}")
    print(f"words = {case.words!r}")
    print("files = {")
    for name, data in case.files.items():
        print(f"    {name!r}: {data!r},")
    print("}")
    print(f"expected: {wanted}")
    print(f"came: status {outcome.status}, output {outcome.output!r}")
    if outcome.errors:
        print(f"standard error: {outcome.errors!r}")


class Comparison:
    """The cases that a program has answered rightly, up to the first difference."""

    def __init__(self, program, folder, seed):
        self.program = program
        self.folder = folder
        self.seed = seed
        self.on_reports = 0  # cases on reports that the program wrote

    def is_right(self, title, case, by_hand=False):
        """Whether the program answers a case rightly, and what follows from its answer."""
        outcome = self.outcome(title, case, by_hand)
        if outcome is None:
            return False
        draw = random.Random(f"{self.seed} {title}")
        for what, following in invent_reports.follow_ups(draw, case, outcome.output):
            self.on_reports += 1
            is_known = isinstance(following, cases.Case)
            if self.outcome(f"{what} of {title}", following, is_known) is None:
                return False
        return True

    def outcome(self, title, case, by_hand):
        """The outcome of a case where it is right, or None; a difference is printed."""
        outcome = run_program(self.program, self.folder, case.words, case.files)
        complaint = fixed_complaint(case, outcome) if by_hand else ""
        wanted = fixed_expectation(case) if complaint else ""
        complaint = complaint or judge.complaint(
            case.words, case.files, outcome.output, outcome.status
        )
        if not complaint and outcome.errors:
            complaint = "something is written to the standard error"
        if not complaint:
            return outcome
        wanted = wanted or judge.expectation(case.words, case.files)
        print_difference(title, case, wanted, outcome, complaint)
        return None


def is_kind(case, only):
    """Whether a fixed case is of the only kind that is wanted, if there is one."""
    kind = case.words[0] if case.words else "times"
    if case.status == 64:
        kind = "words"
    return only is None or kind == only


def fixed_cases():
    """The fixed cases, those on logs of versions 2 and 3 among them where there may be such logs."""
    modules = [cases, check_cases]
    if generate_logs.second_share:
        modules += [second_cases, pulse_cases]
    if generate_logs.third_share:
        modules.append(third_cases)
    return [case for module in modules for case in module.fixed_cases()]


def random_case(draw, only=None):
    """A case of some command, or of the only one that is wanted."""
    kinds = list(SHARES)
    kind = only or draw.choices(kinds, weights=[SHARES[kind] for kind in kinds])[0]
    return KINDS[kind](draw)


def compare_all(program, count, seed, only):
    """Whether the program answers all fixed and count random cases rightly."""
    draw = random.Random(seed)
    with tempfile.TemporaryDirectory() as folder:
        comparison = Comparison(program, folder, seed)
        for case in fixed_cases():
            title = f"fixed case, {case.title}"
            if is_kind(case, only) and not comparison.is_right(title, case, by_hand=True):
                return False
        for place in range(count):
            title = f"random case {place} of seed {seed}"
            if not comparison.is_right(title, random_case(draw, only)):
                return False
    if comparison.on_reports:
        print(f"{comparison.on_reports} cases on reports that check wrote")
    return True


def read_arguments():
    """The program and the options of the command line."""
    parser = argparse.ArgumentParser(description="compare a built skewcheck with the reference")
    parser.add_argument("program")
    parser.add_argument("--cases", type=number_of_cases, default=3000, help="number of random cases")
    parser.add_argument("--seed", type=int, default=1)
    parser.add_argument("--only", choices=list(KINDS), help="take cases of one kind alone")
    return read_with_versions(parser)


def main():
    """Compares, and ends with 0 where there is no difference and with 1 where there is one."""
    arguments = read_arguments()
    program = os.path.abspath(arguments.program)
    if not compare_all(program, arguments.cases, arguments.seed, arguments.only):
        sys.exit(1)
    print(f"{arguments.cases} cases, no difference")


if __name__ == "__main__":
    sys.path.insert(0, str(Path(__file__).resolve().parents[1]))
    import ends

    ends.run(main)
