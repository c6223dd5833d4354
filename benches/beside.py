"""Times `check` beside z3, which answers the same questions.

Run as: python3 benches/beside.py [PROGRAM] [--patience SECONDS] [--only FAMILY..] [--rows N..] [--cases N] [--seed S]

PROGRAM is the built program of this folder where none is given. The families stand in `families.py`, and what z3 is
asked in `z3.py`. Each family has logs of 24, 64 and 256 rows, or of those of `--rows`; for a size that it doesn't have
the nearest one is taken. Of each log one run of the program is timed, and then one run of z3 for each truth value,
whose seconds are added. All are seconds of processor time, the start of the process included. A run that takes longer
than the patience, 60 seconds where none is given, is stopped, and larger logs of its family are left out.

What it takes to write a question for z3 isn't counted. A row has the mark `stamps` where stamps and skews alone decide
the formula, so that z3 is asked nothing of it.

A ratio is the program's time by that of z3, each of which counts as 0.03 seconds at least, what it takes to start a
solver. One that was stopped counts as it was then. The last lines tell the geometric mean and the greatest ratio.

With `--cases` nothing is timed: both answer so many small questions that are made by chance from a seed. The end is 1
where their verdicts differ.
"""

import math
import random
import shutil
import sys
import tempfile
from pathlib import Path
from typing import NamedTuple

sys.dont_write_bytecode = True  # leaves no compiled files beside the sources

import check
import generate
import generate_logs
import logs
import program as reading
import z3
from families import FAMILIES
from tables import number_of_cases

ROWS = (24, 64, 256)
START = 0.03  # seconds that it takes to start a solver
COLUMNS = "{:<22} {:>4} {:>9} {:>9} {:>9} {:>8}  {}"
HEADS = ("check", "rows", "program", "z3", "ratio", "verdict", "")
STATUSES = {0: "true", 1: "false", 2: "either", 3: "inconsistent", 4: z3.NO_VERDICT}  # of check, with the verdicts
ANSWERS = ("sat", "unsat", z3.NO_VERDICT)  # of z3
STOPPED = "stopped"  # what a run says that was stopped
SIGNAL = "signal"  # and one that a signal ended before, with its number


# Answers


class Took(NamedTuple):
    """What one side took for a question, and whether it was stopped."""

    seconds: float
    was_stopped: bool

    def shown(self):
        """The seconds, in a column."""
        return f"over {self.seconds:.0f}" if self.was_stopped else f"{self.seconds:.3f}"


class Answers(NamedTuple):
    """What the program and z3 say of one question, and what each took."""

    program: Took
    solver: Took
    verdict: str  # of the program
    said: tuple  # of z3, on true and on false
    is_decided: bool  # by stamps and skews, so that z3 isn't asked of the formula


def answers_to(formula, log, name, folder, patience):
    """The answers to a question, one side after the other."""
    for file, data in (("f", formula), ("l", log)):
        Path(folder, file).write_bytes(data)
    checked = check.taken([name, "check", "f", "l"], folder, patience)
    question = z3.question_of(formula, log)
    texts = [question.text(value) for value in z3.VALUES]
    runs = [solved(text, folder, patience) for text in texts]
    solver = Took(sum(run.seconds for run in runs), any(was_stopped(run, patience) for run in runs))
    said = tuple(said_by(run, patience) for run in runs)
    program = Took(checked.seconds, was_stopped(checked, patience))
    return Answers(program, solver, verdict_of(checked, patience), said, all(map(z3.is_decided, texts)))


def solved(text, folder, patience):
    """One run of z3."""
    Path(folder, "q").write_text(text)
    return check.taken(["z3", "q"], folder, patience)


def said_by(run, patience):
    """What a run of z3 says: its answer, that it was stopped after the patience, or the signal that ended it before."""
    if run.status >= 0:
        return run.output.decode().strip()
    return STOPPED if was_stopped(run, patience) else f"{SIGNAL} {-run.status}"


def verdict_of(run, patience):
    """The verdict that a run of check gives, an unknown one where it was cut off or stopped; else how it failed."""
    if run.status < 0:
        return z3.NO_VERDICT if was_stopped(run, patience) else f"{SIGNAL} {-run.status}"
    return STATUSES.get(run.status, f"status {run.status}")


def was_stopped(run, patience):
    """Whether a run was stopped after the patience."""
    return run.status < 0 and run.seconds > patience - 1


def agree(verdict, said):
    """Whether nothing that z3 says is against a verdict; a refusal or a failure of either side always is."""
    if verdict == z3.NO_VERDICT:
        return all(answer in (STOPPED, *ANSWERS) for answer in said)
    expected = next((answers for answers, other in z3.VERDICTS.items() if other == verdict), None)
    return expected is not None and all(answer in (STOPPED, right) for answer, right in zip(said, expected))


# Ratios


def counted(seconds):
    """The seconds that count, which are those of a start at least."""
    return max(seconds, START)


def ratio_of(answers):
    """The program's time by that of z3."""
    return counted(answers.program.seconds) / counted(answers.solver.seconds)


def shown_ratio(answers):
    """The ratio in a column, with a sign where one side was stopped, so that it is less or more."""
    if answers.program.was_stopped and answers.solver.was_stopped:
        return "-"
    sign = ">" if answers.program.was_stopped else "<" if answers.solver.was_stopped else ""
    return f"{sign}{ratio_of(answers):.3f}"


def geometric_mean(ratios):
    """The geometric mean of numbers above 0."""
    return math.exp(math.fsum(map(math.log, ratios)) / len(ratios))


# The table


def sizes_of(family, rows):
    """The sizes of a family's logs: those that were asked for, or what is nearest to them in its range."""
    return sorted({min(max(count, family.least), family.most) for count in rows})


def table(arguments, program, folder):
    """Prints a row for each question, and gives their names with the answers."""
    print(COLUMNS.format(*HEADS).rstrip())
    found = []
    for family in FAMILIES:
        if arguments.only is None or family.title in arguments.only:
            for rows in sizes_of(family, arguments.rows):
                question = family.formula(rows).encode(), family.log(rows).encode()
                answers = answers_to(*question, program, folder, arguments.patience)
                found.append((f"{family.title}, {rows} rows", answers))
                print(row_of(family, rows, answers), flush=True)
                if answers.program.was_stopped or answers.solver.was_stopped:
                    break
    return found


def row_of(family, rows, answers):
    """The row of a question."""
    mark = "stamps" if answers.is_decided else ""
    if not agree(answers.verdict, answers.said):
        mark = f"z3 says {' and '.join(answers.said)}"
    took = [side.shown() for side in (answers.program, answers.solver)]
    return COLUMNS.format(family.title, rows, *took, shown_ratio(answers), answers.verdict, mark).rstrip()


def closing(found):
    """The lines behind the table."""
    ratios = [ratio_of(answers) for _, answers in found]
    asked = [ratio for ratio, (_, answers) in zip(ratios, found) if not answers.is_decided]
    worst = max(range(len(found)), key=ratios.__getitem__)
    stopped = [sum(side(answers).was_stopped for _, answers in found) for side in (lambda a: a.program, lambda a: a.solver)]
    differing = sum(not agree(answers.verdict, answers.said) for _, answers in found)
    yield f"{len(found)} questions; the program was stopped at {stopped[0]} of them, and z3 at {stopped[1]}"
    yield f"geometric mean of the ratios {geometric_mean(ratios):.3f}, the greatest {ratios[worst]:.3f} ({found[worst][0]})"
    if asked:
        yield f"geometric mean of the {len(asked)} that stamps don't decide {geometric_mean(asked):.3f}"
    yield f"{differing} of {len(found)} verdicts differ"


# Questions made by chance


def some_question(draw):
    """A small formula and a log, as files."""
    log = generate_logs.some_log(draw)
    tree = generate.some_tree(draw, log, draw.choice((0, 1, 1, 2, 2, 3, 3, 4, 5)))
    return b" ".join(generate.tokens_of(draw, tree)), logs.log_text(log)


def is_refused(formula, log):
    """Whether the formats have check refuse a formula and a log."""
    return isinstance(reading.answer(["check", "f", "l"], {"f": formula, "l": log}), reading.Exact)


def compared(arguments, program, folder):
    """Asks questions that check takes, and says of how many; prints the first on which the verdicts differ, and gives 1."""
    draw = random.Random(arguments.seed)
    judged = 0
    while judged < arguments.cases:
        formula, log = some_question(draw)
        if is_refused(formula, log):
            continue
        answers = answers_to(formula, log, program, folder, arguments.patience)
        judged += answers.verdict != z3.NO_VERDICT
        if not agree(answers.verdict, answers.said):
            print(f"check says {answers.verdict}, and z3 {' and '.join(answers.said)}")
            print(f"{formula.decode()}\n{log.decode()}", end="")
            return 1
    print(f"{judged} cases, no difference")
    return 0


def read_arguments():
    """The options of the command line."""
    parser = check.parser_for("time check beside z3")
    parser.add_argument("--rows", type=int, nargs="+", default=ROWS, help="take logs of these sizes")
    parser.add_argument("--cases", type=number_of_cases, help="compare verdicts on so many small questions instead")
    parser.add_argument("--seed", type=int, default=1, help="from which these are made")
    return parser.parse_args()


def main():
    """Prints the table, and gives 1 where verdicts differ."""
    arguments = read_arguments()
    if not shutil.which("z3"):
        sys.exit("there is no z3")
    program = str(Path(arguments.program or check.built_program()).resolve())
    with tempfile.TemporaryDirectory() as folder:
        if arguments.cases:
            return compared(arguments, program, folder)
        found = table(arguments, program, folder)
    print("\n".join(closing(found)))
    return 0 if all(agree(answers.verdict, answers.said) for _, answers in found) else 1


if __name__ == "__main__":
    sys.path.insert(0, str(Path(__file__).resolve().parents[1] / "tests"))
    import ends

    ends.run(main)
