"""Runs the unittest cases of a folder, and says at the end what was left out and how many passed.

Run as: python3 tests/unittests.py FOLDER [--side-by-side] [WORDS..], where WORDS are those of `unittest discover`, as
-k NAME. With --side-by-side each file of cases has a process of its own, and all run at once. Each case that was left out
has a line `left out: CASE: REASON`, and the last line is `N passed, M failed`. The end is 0 where none failed and at
least one was run or left out.
"""

import argparse
import re
import subprocess
import sys
import unittest
from pathlib import Path
from typing import NamedTuple

sys.dont_write_bytecode = True  # leaves no compiled files beside the sources

from heeding import heed_signals

BESIDE = "--side-by-side"
WRONG_WORDS = 64
PART = "--part"  # one of the processes of those: its cases need not be any
CLOSING = re.compile(r"^(\d+) passed, (\d+) failed$", re.M)


class Counts(NamedTuple):
    """How many cases passed, failed and were left out."""

    passed: int
    failed: int
    left_out: int


def case_of(test):
    """The case that a result speaks of, which may be a part of one (`subTest`)."""
    return getattr(test, "test_case", test)


def run(folder, words):
    """Runs the cases of a folder, and tells of those that are left out."""
    heed_signals()
    done = unittest.main(None, argv=["unittest", "discover", "-s", folder, *words], exit=False).result
    for test, reason in done.skipped:
        print(f"left out: {folder}, {case_of(test).id()}: {reason}")
    wrong = {case_of(test).id() for test, _ in [*done.failures, *done.errors]}
    wrong |= {test.id() for test in done.unexpectedSuccesses}
    skipped = {case_of(test).id() for test, _ in done.skipped} - wrong
    return Counts(max(0, done.testsRun - len(wrong) - len(skipped)), len(wrong), len(skipped))


def part_of(folder, file, words):
    """A process that runs the cases of one file."""
    command = [sys.executable, __file__, folder, PART, "-p", file.name, *words]
    return subprocess.Popen(command, stdout=subprocess.PIPE, stderr=subprocess.STDOUT, text=True)


def run_beside(folder, words):
    """Runs the cases of each file of a folder in a process of its own, all at once."""
    parts = [(file, part_of(folder, file, words)) for file in sorted(Path(folder).glob("test_*.py"))]
    passed = failed = left_out = 0
    for file, process in parts:
        said = process.communicate()[0]
        print(f"{file}\n{said}", end="", flush=True)
        if process.returncode == WRONG_WORDS:
            sys.exit(WRONG_WORDS)
        closing = CLOSING.findall(said)
        numbers = map(int, closing[-1]) if closing and process.returncode in (0, 1) else (0, 1)
        passed, failed = (sum(pair) for pair in zip((passed, failed), numbers))
        left_out += len(re.findall("^left out: ", said, re.M))
    return Counts(passed, failed, left_out)


def read_arguments():
    """The folder, and the words behind it."""
    parser = argparse.ArgumentParser(description="run the unittest cases of a folder")
    parser.add_argument("folder")
    parser.add_argument("words", nargs=argparse.REMAINDER, help="--side-by-side, and words of unittest discover")
    arguments = parser.parse_args()
    if not Path(arguments.folder).is_dir():
        parser.error(f"{arguments.folder} is no folder")
    return arguments


def main():
    """Runs the cases, prints the closing line, and gives the status."""
    arguments = read_arguments()
    folder, words = arguments.folder, arguments.words
    is_beside, is_part = words[:1] == [BESIDE], words[:1] == [PART]
    counts = run_beside(folder, words[1:]) if is_beside else run(folder, words[int(is_part) :])
    failed = counts.failed or int(not is_part and counts == (0, 0, 0))
    print(f"{counts.passed} passed, {failed} failed")
    return 1 if failed else 0


if __name__ == "__main__":
    import ends

    ends.run(main)
