"""Times `check`, `audit` and `trim` on logs of more and more rows.

Run as: python3 benches/check.py [PROGRAM] [--patience SECONDS] [--only FAMILY..] [--rows N..] [--goals] [--fallbacks]

PROGRAM is the built program of this folder where none is given; it is built
where it isn't there. The families stand in `families.py`. Each has logs of the
sizes below and of those that it has goals for, or of those of `--rows`, as far
as they are in its range, and up to the first run of check that takes longer
than the patience, 60 seconds where none is given: that run is stopped. With
`--goals` the sizes are those with goals alone. Seconds are those of processor
time, of one run, the start of the process included; memory is looked at every
five milliseconds. Behind what was measured stands the goal, and a `!` where it
is missed. The conflicts are the clauses that the report's derivations learn: a
value that has a timing shows none. The clauses are those of the problem that
the formula is true, which `logic_table` tells where the gate or `rt run` has
built it. `audit` and `trim` take the report; what trim leaves is audited too.
Behind the seconds of audit stands their ratio to those of check. With
`--fallbacks` check runs once more, under `gdb`, which counts how often the
whole table of rules is encoded for its two values: that is what `check` does
where the part that a value asks for comes to nothing.

The last line counts the goals, and the end is 1 where one is missed.
"""

import argparse
import os
import re
import resource
import shutil
import subprocess
import sys
import tempfile
import time
from pathlib import Path
from typing import NamedTuple

sys.dont_write_bytecode = True  # leaves no compiled files beside the sources

ROOT = Path(__file__).resolve().parent.parent
sys.path.insert(0, str(ROOT / "tests" / "reference"))

import formats
import logs
from families import FAMILIES
from size import size_of

ROWS = (16, 32, 48, 64, 128, 256, 512, 1024)
TOO_LARGE = 67  # the status where a log has too many rows for its formula
SHORTEST_SEEN = 0.05  # seconds that a run takes at least whose memory is told
MEBIBYTE = 1024 * 1024
COLUMNS = "{:<22} {:>4} {:>8} {:>8} {:>9} {:>6} {:>8} {:>5} {:>5} {:>8} {:>9} {:>9} {:>8} {:>6} {:>9} {:>8}"
HEADS = (
    *("check", "rows", "size", "clauses", "seconds", "goal", "MiB", "goal", "whole"),
    *("status", "conflicts", "bytes", "audit", "ratio", "trimmed", "trim"),
)
CLAUSE_TABLE = ROOT / "crates/logic_table/out/logic_table"
WHOLE_TABLE = "mtl_encode::encoding::encode_by"  # the function that encodes the whole table of rules
UNKNOWN = "-"


# Runs


class Taken(NamedTuple):
    """What a run took and wrote."""

    status: int  # negative where it was stopped
    seconds: float  # of processor time
    memory: int  # the most that was resident when it was looked at, in bytes
    output: bytes


def taken(words, folder, patience, errors=None):
    """Runs a program in a folder, and stops it after so many seconds of processor time; its errors may go elsewhere."""

    def limit():
        resource.setrlimit(resource.RLIMIT_CPU, (patience, patience))

    output = Path(folder, "output")
    with open(output, "wb") as file:
        process = subprocess.Popen(
            words, cwd=folder, stdin=subprocess.DEVNULL, stdout=file, stderr=errors, preexec_fn=limit
        )
    memory, ended = 0, 0
    while not ended:
        memory = max(memory, high_water(process.pid))
        time.sleep(0.005)
        ended, code, used = os.wait4(process.pid, os.WNOHANG)
    process.returncode = os.waitstatus_to_exitcode(code)
    seconds = used.ru_utime + used.ru_stime
    return Taken(process.returncode, seconds, memory, output.read_bytes())


def high_water(process_id):
    """The most memory that a process has had resident so far, in bytes; 0 where it has ended."""
    for line in Path(f"/proc/{process_id}/status").read_text().splitlines():
        name, *words = line.split()
        if name == "VmHWM:":
            return 1024 * int(words[0])
    return 0


# How often the whole table of rules is encoded


def debugged(name, commands, folder, patience):
    """What `gdb` says to some commands on a program."""
    words = ["gdb", "-nx", "-batch", *(word for command in commands for word in ("-ex", command)), name]
    return taken(words, folder, patience, subprocess.DEVNULL).output.decode(errors="replace")


def why_uncounted(name, folder, patience):
    """Why it can't be counted how often a program encodes the whole table, or nothing."""
    if not shutil.which("gdb"):
        return "there is no gdb"
    if "is at " not in debugged(name, [f"info address {WHOLE_TABLE}"], folder, patience):
        return f"the program names no {WHOLE_TABLE}"
    if "exited" not in debugged(name, ["run >/dev/null 2>&1"], folder, patience):
        return "gdb may not run it"
    return ""


def whole_tables(name, folder, patience):
    """How often check encodes the whole table of rules, or - where it comes to no end."""
    commands = [f"break {WHOLE_TABLE}", "ignore 1 1000000", "run check f l >/dev/null", "info breakpoints"]
    said = debugged(name, commands, folder, patience)
    hits = re.search(r"already hit (\d+) time", said)
    if "exited" not in said:
        return UNKNOWN
    return int(hits[1]) if hits else 0


# The table


class Asked(NamedTuple):
    """How the table is made."""

    name: str  # of the program
    folder: str
    patience: int
    counts: bool  # how often the whole table of rules is encoded


def clauses_of(log, formula):
    """How many clauses the problem has, or - where that can't be told."""
    if not CLAUSE_TABLE.exists():
        return UNKNOWN
    lines = ["[problems]", "=" + formula, *("|" + line for line in log.splitlines()), "+", "!"]
    done = subprocess.run([CLAUSE_TABLE], input="\n".join(lines) + "\n", capture_output=True, text=True)
    counts = [line.split()[1] for line in done.stdout.splitlines() if line.startswith("clauses ")]
    return counts[0] if counts else UNKNOWN


def on_report(checked, asked):
    """What the last columns say of a report: its conflicts and bytes, its audit, and what trim leaves of it."""
    report = checked.output
    audited = accepted(report, asked)
    trimmed = taken([asked.name, "trim", "r"], asked.folder, asked.patience)
    accepted(trimmed.output, asked)
    ratio = f"{audited.seconds / checked.seconds:.2f}" if checked.seconds else UNKNOWN
    audit = [f"{audited.seconds:.3f}", ratio]
    return [conflicts(report), len(report), *audit, len(trimmed.output), f"{trimmed.seconds:.3f}"]


def accepted(report, asked):
    """The audit of a report, which has to be accepted and stays in the folder."""
    Path(asked.folder, "r").write_bytes(report)
    audited = taken([asked.name, "audit", "f", "l", "r"], asked.folder, asked.patience)
    if audited.status != 0:
        print(f"{asked.folder}: a report isn't accepted", file=sys.stderr)
        sys.exit(1)
    return audited


def rows_of_table(family, numbers, asked):
    """The rows of the table for a family, each with which goals it meets, up to a run that is stopped or refused."""
    for rows in numbers:
        log, formula = family.log(rows), family.formula(rows)
        for file, text in (("f", formula), ("l", log)):
            Path(asked.folder, file).write_text(text)
        checked = taken([asked.name, "check", "f", "l"], asked.folder, asked.patience)
        size = size_of(formats.read_formula(formula.encode()), logs.read_log(log.encode()))
        measured, outcomes = against_goal(checked, family.goal(rows), asked.patience)
        row = [family.title, rows, size, clauses_of(log, formula), *measured]
        if checked.status < 0 or checked.status == TOO_LARGE:
            status = "stopped" if checked.status < 0 else checked.status
            yield [*row, UNKNOWN, status, *[""] * 6], outcomes
            return
        whole = whole_tables(asked.name, asked.folder, asked.patience) if asked.counts else UNKNOWN
        yield [*row, whole, checked.status, *on_report(checked, asked)], outcomes


def against_goal(checked, goal, patience):
    """The columns of seconds and memory with their goals, and for each of these whether it is met."""
    was_stopped = checked.status < 0
    seconds = f"over {patience}" if was_stopped else f"{checked.seconds:.3f}"
    memory = f"{checked.memory / MEBIBYTE:.1f}" if checked.seconds >= SHORTEST_SEEN else UNKNOWN
    if goal is None:
        return [seconds, "", memory, ""], []
    outcomes = [not was_stopped and checked.status != TOO_LARGE and checked.seconds <= goal.seconds]
    marks = [f"{goal.seconds}{mark(outcomes[0])}", ""]
    if goal.memory is not None:
        outcomes.append(checked.memory <= goal.memory * MEBIBYTE)
        marks[1] = f"{goal.memory}{mark(outcomes[1])}"
    return [seconds, marks[0], memory, marks[1]], outcomes


def mark(is_met):
    """What stands behind a goal."""
    return "  " if is_met else " !"


def conflicts(report):
    """How many clauses the derivations of a report learn."""
    return report.count(b"\nlearn ")


def numbers_of_rows(family, arguments):
    """The sizes of a family's logs: those that were asked for, or the usual ones and those with goals, in its range."""
    with_goals = {goal.rows for goal in family.goals}
    usual = with_goals if arguments.goals else with_goals.union(ROWS)
    numbers = [rows for rows in arguments.rows or sorted(usual) if family.least <= rows <= family.most]
    return numbers if numbers or arguments.rows or arguments.goals else [family.most]


def built_program():
    """The built program of this folder, which is built where it isn't there."""
    name = ROOT / "crates/skewcheck/out/skewcheck"
    if not name.exists():
        subprocess.run([ROOT / "skewcheck", "--"], stdin=subprocess.DEVNULL, stdout=subprocess.DEVNULL)
    return str(name)


def parser_for(description, patience=60):
    """A parser of the options that the benches of families share."""
    parser = argparse.ArgumentParser(description=description)
    parser.add_argument("program", nargs="?", help="the built program of this folder by default")
    parser.add_argument("--patience", type=int, default=patience, help="seconds after which to stop")
    titles = [family.title for family in FAMILIES]
    parser.add_argument("--only", nargs="+", metavar="FAMILY", choices=titles, help=f"of {', '.join(titles)}")
    return parser


def read_arguments():
    """The options of the command line."""
    parser = parser_for("time check, audit and trim on logs of growing length")
    parser.add_argument("--rows", type=int, nargs="+", help="take logs of these sizes alone")
    parser.add_argument("--goals", action="store_true", help="take logs of the sizes that have goals alone")
    parser.add_argument("--fallbacks", action="store_true", help="count how often the whole table of rules is encoded")
    return parser.parse_args()


def counts_tables(arguments, name, folder):
    """Whether to count how often the whole table is encoded; it is said where that was asked for and can't be done."""
    reason = why_uncounted(name, folder, arguments.patience) if arguments.fallbacks else ""
    if reason:
        print(f"whole tables aren't counted: {reason}", flush=True)
    return arguments.fallbacks and not reason


def main():
    """Prints the table, and gives 1 where a goal is missed."""
    arguments = read_arguments()
    name = os.path.abspath(arguments.program or built_program())
    outcomes = []
    with tempfile.TemporaryDirectory() as folder:
        asked = Asked(name, folder, arguments.patience, counts_tables(arguments, name, folder))
        print(COLUMNS.format(*HEADS))
        for family in FAMILIES:
            if arguments.only is None or family.title in arguments.only:
                for row, met in rows_of_table(family, numbers_of_rows(family, arguments), asked):
                    print(COLUMNS.format(*row).rstrip(), flush=True)
                    outcomes += met
    missed = outcomes.count(False)
    print(f"{len(outcomes) - missed} goals met, {missed} missed")
    return 1 if missed else 0


if __name__ == "__main__":
    sys.path.insert(0, str(Path(__file__).resolve().parents[1] / "tests"))
    import ends

    ends.run(main)
