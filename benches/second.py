"""Has the second checker judge reports of `check`, and times it.

Run as: python3 benches/second.py [PROGRAM] [--patience SECONDS] [--only FAMILY..] [--rows N..] [--cases N] [--seed S]

PROGRAM is the built program of this folder where none is given. The families stand in `families.py`, the checker in
`tests/reference/audit.py`. Each family has logs of 64 and 256 rows, or of those of `--rows`; for a size that it doesn't
have the nearest one is taken. Seconds are those of processor time, the start of a process included, and a run that
takes longer than the patience, 600 seconds where none is given, is stopped. The lines are those of the report.

With `--cases` the logs are small ones of version 3 that are made by chance from a seed, so many reports,
and one row has the sums. The end is 1 where a report isn't accepted.
"""

import collections
import random
import sys
import tempfile
from pathlib import Path
from typing import NamedTuple

sys.dont_write_bytecode = True  # leaves no compiled files beside the sources

import beside
import check
import generate_logs
import logs
from families import FAMILIES
from tables import number_of_cases

ROWS = (64, 256)
AUDIT = check.ROOT / "tests" / "reference" / "audit.py"
ACCEPTED = "accepted: "
REPORTED = range(5)  # the statuses of check that come with a report
COLUMNS = "{:<22} {:>4} {:>8} {:>9} {:>8} {:>8} {:>7}  {}"
HEADS = ("report", "rows", "lines", "bytes", "check", "second", "MiB", "answer")


class Judged(NamedTuple):
    """A report, and what the second checker says of it."""

    report: bytes
    checked: check.Taken
    audited: check.Taken

    def answer(self):
        """What the second checker says, or that it came to no end."""
        return self.audited.output.decode().strip() if self.audited.status >= 0 else beside.STOPPED

    def is_accepted(self):
        """Whether it is accepted."""
        return self.audited.status == 0 and self.answer().startswith(ACCEPTED)


def judged(formula, log, asked):
    """The report on a formula and a log, as the second checker judges it; None where check writes none."""
    for file, data in (("f", formula), ("l", log)):
        Path(asked.folder, file).write_bytes(data)
    checked = check.taken([asked.name, "check", "f", "l"], asked.folder, asked.patience)
    if checked.status not in REPORTED:
        return None
    Path(asked.folder, "r").write_bytes(checked.output)
    audited = check.taken([sys.executable, str(AUDIT), "f", "l", "r"], asked.folder, asked.patience)
    return Judged(checked.output, checked, audited)


def row_of(title, rows, found):
    """The row of some reports; the memory is the most of them, and the answers are told with how often they came."""
    lines, size = (sum(each.report.count(b"\n") for each in found), sum(len(each.report) for each in found))
    seconds = (sum(each.checked.seconds for each in found), sum(each.audited.seconds for each in found))
    memory = max((each.audited.memory for each in found), default=0) / check.MEBIBYTE
    answers = collections.Counter(each.answer() for each in found)
    said = "; ".join(answer if count == 1 else f"{count} {answer}" for answer, count in answers.most_common())
    return COLUMNS.format(title, rows, lines, size, *(f"{each:.3f}" for each in seconds), f"{memory:.1f}", said)


def of_families(arguments, asked):
    """Prints a row for the report of each family and size, and gives all reports."""
    for family in FAMILIES:
        if arguments.only is None or family.title in arguments.only:
            for rows in beside.sizes_of(family, arguments.rows):
                one = judged(family.formula(rows).encode(), family.log(rows).encode(), asked)
                if one is None:
                    print(f"{family.title}, {rows} rows: check writes no report", flush=True)
                    continue
                print(row_of(family.title, rows, [one]), flush=True)
                yield one


def made_by_chance(arguments, asked):
    """Prints a row for so many reports on logs of version 3, and gives them."""
    generate_logs.third_share = 1
    draw = random.Random(arguments.seed)
    found, rows = [], 0
    while len(found) < arguments.cases:
        formula, log = beside.some_question(draw)
        read = logs.read_log(log)
        if isinstance(read, logs.LogFault) or logs.version_of(read) != 3:
            continue
        one = judged(formula, log, asked)
        if one is not None:
            found.append(one)
            rows += len(read.rows)
            if not one.is_accepted():
                print(f"{one.answer()}\n{formula.decode()}\n{log.decode()}{one.report.decode()}", flush=True)
    print(row_of("version 3, by chance", rows, found))
    return found


def read_arguments():
    """The options of the command line."""
    parser = check.parser_for("have the second checker judge reports of check", 600)
    parser.add_argument("--rows", type=int, nargs="+", default=ROWS, help="take logs of these sizes")
    parser.add_argument("--cases", type=number_of_cases, help="take so many small logs of version 3 instead")
    parser.add_argument("--seed", type=int, default=1, help="from which these are made")
    return parser.parse_args()


def main():
    """Prints the table, and gives 1 where a report isn't accepted."""
    arguments = read_arguments()
    name = str(Path(arguments.program or check.built_program()).resolve())
    with tempfile.TemporaryDirectory() as folder:
        asked = check.Asked(name, folder, arguments.patience, False)
        print(COLUMNS.format(*HEADS).rstrip(), flush=True)
        found = list((made_by_chance if arguments.cases else of_families)(arguments, asked))
    accepted = sum(one.is_accepted() for one in found)
    print(f"{len(found)} reports, {accepted} accepted")
    return 0 if accepted == len(found) else 1


if __name__ == "__main__":
    sys.path.insert(0, str(Path(__file__).resolve().parents[1] / "tests"))
    import ends

    ends.run(main)
