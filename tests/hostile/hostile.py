"""Runs a built program on hostile files: at every limit, beyond it, cut, broken, and made to take long.

Run as: python3 hostile.py PROGRAM [--only KIND] [--longest]

KIND is words, log, json, formula, times, report, best or size; ask for runs of the companion, and scripts for those of
the scripts in examples/ and of the second checker. With --longest the two reports of a gibibyte are run too, which ask for
some gibibytes of memory. Each case has a status and a first line that the formats ask for, or for a
search some statuses of which each may be right. What `check` writes is audited too, what `json` writes is compared as
a whole, and what `tolerance` and `span` write of few rows is judged by tests/reference. A run that has taken
20 seconds of processor time is stopped, which only a search may. A row of the table is
a case, or all copies of one file that are broken alike, with the most that one of them took. What took
more than 2 seconds or 500 MB is marked with a `!`. Every difference is printed, and the end is 1 then.
"""

import argparse
import json
import os
import signal
import subprocess
import sys
import tempfile
from itertools import groupby
from pathlib import Path
from typing import NamedTuple

sys.dont_write_bytecode = True  # leaves no compiled files beside the sources

HERE = Path(__file__).resolve().parent
sys.path.insert(0, str(HERE.parent / "reference"))

import ask_cases
import best_limits
import cuts
import formula_limits
import json_limits
import json_shapes
import json_strings
import judge
import log_limits
import report_limits
import script_cases
import script_runs
import second_limits
import sizes
import third_limits
import word_limits
from case import Blank

SECONDS = 20  # of processor time that one run may take
STOPPED = -signal.SIGXCPU  # the status of a run that was stopped since it took longer
LONG = 2  # seconds from which on a run is marked
LARGE = 500_000_000  # bytes from which on a run is marked
MEBIBYTE = 1024 * 1024
SHOWN = 48  # bytes of a first line that the table shows
OF_SCRIPTS = {"ask": ask_cases, "scripts": script_cases}  # the runs of scripts, by their kinds


class Outcome(NamedTuple):
    """What a run came to and what it took."""

    status: int  # negative where a signal ended it
    line: bytes  # the first line of what it wrote
    seconds: float  # of processor time
    bytes: int  # the most that was resident


class Runner:
    """Runs the program in a folder of its own."""

    def __init__(self, program, folder):
        self.program = program
        self.folder = Path(folder)
        self.output = Path(folder, "written")
        launcher = [sys.executable, "-I", "-S", str(HERE / "launcher.py")]
        pipe = subprocess.PIPE
        self.launcher = subprocess.Popen(launcher, stdin=pipe, stdout=pipe, text=True)

    def outcome(self, words, files):
        """What the program does with words and files."""
        for name, data in files.items():
            with open(self.folder / name, "wb") as file:
                if isinstance(data, Blank):
                    file.truncate(data.size)
                else:
                    file.write(data)
        taken = self.taken(words)
        with open(self.output, "rb") as file:
            line = file.readline(1000).removesuffix(b"\n")
        for name in files:
            os.unlink(self.folder / name)
        return Outcome(taken["status"], line, taken["seconds"], taken["bytes"])

    def taken(self, words):
        """The launcher's answer to a run of the program."""
        run = {"words": [self.program, *words], "folder": str(self.folder), "output": str(self.output),
               "seconds": SECONDS}
        print(json.dumps(run), file=self.launcher.stdin, flush=True)
        return json.loads(self.launcher.stdout.readline())

    def ended(self):
        """Ends the launcher."""
        self.launcher.stdin.close()
        self.launcher.wait()


def complaint(case, outcome):
    """What is wrong with the outcome of a case, or nothing. How long a search takes isn't promised, and what it holds is."""
    if case.most is not None and outcome.bytes > case.most * case.size():
        return f"it takes {outcome.bytes} bytes, more than {case.most} times the file's {case.size()}"
    if case.is_search and outcome.status == STOPPED:
        return ""
    wanted = " or ".join(str(status) for status in case.statuses)
    if outcome.status not in case.statuses:
        return f"status {outcome.status}, not {wanted}, with {outcome.line[:200]!r}"
    if case.line is not None and outcome.line != case.line:
        return f"it writes {outcome.line[:200]!r}, not {case.line[:200]!r}"
    if case.seconds is not None and outcome.seconds > case.seconds:
        return f"it takes {outcome.seconds:.3f} seconds, more than {case.seconds}"
    return ""


def written_complaint(runner, case, status):
    """What is wrong with all that was written, or nothing. What is written of the greatest sizes is a report."""
    if case.kind == "size":
        return audit_complaint(runner, case) if 0 <= status < 64 else ""
    if case.judged:
        return judge.complaint(case.words, case.files, runner.output.read_bytes(), status)
    if case.text is not None and runner.output.read_bytes() != case.text:
        return "it writes something else than it should"
    return ""


def audit_complaint(runner, case):
    """What is wrong with the audit of what `check` has written, with as many conflicts as that had, or nothing."""
    report = runner.output.read_bytes()
    words = ["audit", *case.words[1:], "r"]
    outcome = runner.outcome(words, {**case.files, "r": report})
    is_right = (outcome.status, outcome.line) == (0, b"accepted")
    return "" if is_right else f"its audit ends with {outcome.status} and {outcome.line!r}"


def shown_file(case):
    """How the hostile file of a case begins, as complaints tell it."""
    data = list(case.files.values())[-1] if case.size() is not None else b""
    return f", of a file {data[:400]!r}" if data and not isinstance(data, Blank) else ""


def row_of(group, outcomes):
    """The row of the table for cases that are broken alike."""
    seconds = max(outcome.seconds for outcome in outcomes)
    most = max(outcome.bytes for outcome in outcomes)
    sizes = [case.size() for case in group if case.size() is not None]
    statuses = sorted({outcome.status for outcome in outcomes} - {STOPPED})
    statuses += ["stopped"] * any(outcome.status == STOPPED for outcome in outcomes)
    title = group[0].title if len(group) == 1 else f"{group[0].title}: {len(group)} files"
    lines = {outcome.line for outcome in outcomes}
    line = lines.pop().decode("latin-1") if len(lines) == 1 else f"{len(lines)} different lines"
    mark = "!" if seconds > LONG or most > LARGE else ""
    return [group[0].kind, title, str(max(sizes)) if sizes else "-", " ".join(map(str, statuses)), line[:SHOWN],
            f"{seconds:.3f}", f"{most / MEBIBYTE:.0f}", mark]


def print_row(row):
    kind, title, size, statuses, line, seconds, memory, mark = row
    print(f"{kind:8}{title[:64]:66}{size:>11}  {statuses:10}{line:50}{seconds:>8}{memory:>6} {mark}", flush=True)


def all_cases(with_longest):
    """All cases, kind by kind."""
    modules = (word_limits, cuts, log_limits, second_limits, third_limits, json_limits, json_shapes, json_strings,
               formula_limits, report_limits, best_limits, sizes)
    for some in modules:
        yield from some.cases()
    if with_longest:
        yield from report_limits.longest()


def run_all(runner, cases):
    """Runs the cases, prints the table, and returns the number of cases and the complaints."""
    count, found = 0, []
    for _, group in groupby(cases, lambda case: (case.kind, case.title)):
        group, outcomes = list(group), []
        for case in group:
            outcome = runner.outcome(case.words, case.files)
            wrong = complaint(case, outcome) or written_complaint(runner, case, outcome.status)
            if wrong:
                found.append(f"{case.kind}: {case.title}: {wrong}{shown_file(case)}")
            outcomes.append(outcome)
        count += len(group)
        print_row(row_of(group, outcomes))
    return count, found


def main():
    """Prints the table and what differs, and ends with 0 where nothing does and with 1 else."""
    parser = argparse.ArgumentParser(description="run skewcheck on hostile files")
    parser.add_argument("program")
    kinds = ("words", "log", "json", "formula", "times", "report", "best", "size", *OF_SCRIPTS)
    parser.add_argument("--only", metavar="KIND", choices=kinds, help=", ".join(kinds))
    parser.add_argument("--longest", action="store_true", help="run the reports of a gibibyte too")
    arguments = parser.parse_args()
    program = os.path.abspath(arguments.program)
    is_right = arguments.only in OF_SCRIPTS or run_files(program, arguments)
    if arguments.only in (None, *OF_SCRIPTS):
        is_right = run_scripts(program, arguments.only) and is_right
    sys.exit(0 if is_right else 1)


def run_files(program, arguments):
    """Runs the program on hostile files, prints the table, and says whether there is no difference."""
    cases = [case for case in all_cases(arguments.longest) if arguments.only in (None, case.kind)]
    print_row(["kind", "case", "bytes", "status", "first line", "seconds", "MiB", ""])
    with tempfile.TemporaryDirectory() as folder:
        runner = Runner(program, folder)
        count, found = run_all(runner, cases)
        runner.ended()
    for line in found:
        print(f"tests/hostile: {line}")
    print(f"{count} hostile files, {len(found)} differences" if found else f"{count} hostile files, no difference")
    return not found


def run_scripts(program, kind):
    """Runs the companion and the scripts, prints a table, and says whether there is no failure."""
    runs = [run for kind_of, module in OF_SCRIPTS.items() if kind in (None, kind_of) for run in module.cases()]
    count, found = script_runs.run_all(runs, program)
    for line in found:
        print(f"tests/hostile: {line}")
    print(f"{count} hostile runs of scripts, {len(found) or 'no'} failure{'s' * (len(found) > 1)}")
    return not found


if __name__ == "__main__":
    sys.path.insert(0, str(Path(__file__).resolve().parents[1]))
    import ends
    import heeding

    heeding.heed_signals()
    ends.run(main)
