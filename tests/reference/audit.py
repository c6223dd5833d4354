"""The second audit as a command: its words, its files, and how a run of it ends.

Run as: python3 audit.py FORMULA LOG REPORT [--conflicts N]

FORMULA, LOG and REPORT are files, and N is the number of conflicts that an unknown section must have spent,
200000 where it isn't given. The answer is one line: `accepted` with what the report claims, or the first place
that doesn't hold, as reports.py says. Where nothing can be judged, one line on the standard error says why.
"""

import argparse
import os
import sys
from enum import IntEnum

sys.dont_write_bytecode = True  # leaves no compiled files beside the sources

import derivations
import formats
import logs
import reports


class End(IntEnum):
    """The statuses with which a run ends."""

    ACCEPTED = 0
    REFUSED = 5
    WORDS = 64  # they are no such command
    FORMULA = 65  # it is faulty, or has a host that the log lacks
    LOG = 66
    BROKEN = 70  # out of memory, or a fault of the checker itself
    UNREAD = 74
    UNWRITTEN = 75
    INTERRUPTED = 130


class Unjudged(Exception):
    """Why nothing can be judged, in words, and the status that says so."""

    def __init__(self, end, words):
        super().__init__(end, words)
        self.end = end
        self.words = words


# Words


class Parser(argparse.ArgumentParser):
    """A parser of words that refuses wrong ones in one line."""

    def error(self, message):
        raise Unjudged(End.WORDS, f"{message}; the words are {self.prog} FORMULA LOG REPORT [--conflicts N]")


def read_arguments(words):
    """The files and the number of conflicts that the words name."""
    parser = Parser(description="audit a report of skewcheck", allow_abbrev=False)
    for name in ("formula", "log", "report"):
        parser.add_argument(name, metavar=name.upper())
    parser.add_argument("--conflicts", metavar="N", default=str(reports.CONFLICTS), help="a number from 1 to 1000000")
    arguments = parser.parse_args(words)
    if reports.conflicts_number(arguments.conflicts) is None:
        parser.error("the conflicts aren't a number from 1 to 1000000")
    if "-" in (arguments.formula, arguments.log, arguments.report):
        parser.error("- names no file, and the standard input isn't read")
    return arguments


# Files


def read_file(name):
    """The bytes of a file."""
    try:
        return derivations.read_file(name)
    except (OSError, ValueError) as error:
        raise Unjudged(End.UNREAD, f"{name} can't be read: {getattr(error, 'strerror', None) or error}") from None


def read_question(formula_name, log_name):
    """The formula and the log of two files, both without fault."""
    formula = formats.read_formula(read_file(formula_name))
    if isinstance(formula, formats.FormulaFault):
        raise Unjudged(End.FORMULA, derivations.what_is_wrong(formula, None))
    log = logs.read_log(read_file(log_name))
    wrong = derivations.what_is_wrong(formula, log)
    if wrong:
        raise Unjudged(End.LOG if isinstance(log, logs.LogFault) else End.FORMULA, wrong)
    return formula, log


# The answer

CLAIMED = {reports.Witness: "has a timing", reports.Refuted: "is excluded", reports.Unknown: "is left unknown"}


def claims(report):
    """What an accepted report claims, in words; what is excluded stands first."""
    if isinstance(report, reports.Inconsistent):
        return "no timing is admissible"
    sections = [("true", report.on_true), ("false", report.on_false)]
    sections.sort(key=lambda pair: not isinstance(pair[1], reports.Refuted))
    return ", ".join(f"{value} {CLAIMED[type(section)]}" for value, section in sections)


def judged(arguments):
    """How the files of the command are judged: the status and the line."""
    formula, log = read_question(arguments.formula, arguments.log)
    report = reports.read_report(read_file(arguments.report))
    line = reports.line_on(log, formula, reports.conflicts_number(arguments.conflicts), report)
    if line == reports.ACCEPTED:
        return End.ACCEPTED, f"{line}: {claims(report)}"
    return End.REFUSED, line


def write(line):
    """Writes a line to the standard output."""
    try:
        if sys.stdout is None:
            raise OSError("it is closed")
        print(line, flush=True)
    except OSError as error:
        if sys.stdout is not None:
            os.dup2(os.open(os.devnull, os.O_WRONLY), sys.stdout.fileno())  # Python writes what is left at its end
        raise Unjudged(End.UNWRITTEN, f"the answer can't be written: {error}") from None


def told(end, words):
    """Says in one line why there is no answer, and gives the status."""
    if sys.stderr is not None:
        shown = "".join(c if c.isprintable() else ascii(c)[1:-1] for c in words)
        print(f"{os.path.basename(sys.argv[0])}: {shown}", file=sys.stderr)
    return int(end)


def main(words):
    """Prints the line on a report, and gives the status."""
    try:
        end, line = judged(read_arguments(words))
        write(line)
        return int(end)
    except Unjudged as refusal:
        return told(refusal.end, refusal.words)
    except KeyboardInterrupt:
        return told(End.INTERRUPTED, "interrupted")
    except (MemoryError, RecursionError):
        return told(End.BROKEN, "this is more than the memory holds")
    except Exception as error:
        return told(End.BROKEN, f"a fault of the checker itself: {error!r}")


if __name__ == "__main__":
    sys.exit(main(sys.argv[1:]))
