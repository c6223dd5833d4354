"""A formula and a log that something is asked of, and the runs of the program that answer it."""

from __future__ import annotations

from dataclasses import dataclass
from typing import List, Optional, Sequence, Tuple

from ask.encoding import refuse_marks
from ask.formulas import Tree, read_formula
from ask.logs import BEGINS_AS_LOG, Log, read_log
from ask.program import NOT_THERE, Program, Run
from ask.refusals import refusal
from ask.reports import Best, Report, Step, Unreadable, read_best, read_report, verdict_of
from ask.texts import CANNOT_READ, LIMITS, TOO_LONG, Source, Trouble, is_existing_file, read_source
from ask.units import scale_of_source, scaled
from ask.words import TYPED, counted, shortened
from ask.written import as_written

REFUSED = 65  # the status where a text is no formula
UNKNOWN_WORDS = 64  # the status of the program where it doesn't know a command
VERDICTS = {0: "true", 1: "false", 2: "either", 3: "no timing", 4: "unknown"}


@dataclass
class Question:
    """A formula and a log, with the program that is asked."""

    program: Program
    formula: Source
    log_source: Source
    options: Sequence[str] = ()

    def check(self, text: Optional[str] = None, options: Optional[Sequence[str]] = None) -> Run:
        """Runs `check` on the formula, or on another text in its place."""
        formula = self.formula if text is None else Source(f"'{text}'", text.encode())
        return with_report(self.program.run("check", [formula, self.log_source], self.options if options is None else options))

    def replay(self, text: str, times: Sequence[int]) -> Run:
        """Runs `replay` of a text on a timing."""
        sources = [Source(f"'{text}'", text.encode()), self.log_source, times_source(times)]
        run = self.program.run("replay", sources)
        if run.status in (0, 1) and run.output != (b"false\n" if run.status else b"true\n"):
            raise unreadable("answer", run)
        return run

    def is_true(self, text: str, times: Sequence[int]) -> bool:
        """Whether a text is true on an admissible timing, as `replay` says."""
        run = self.replay(text, times)
        if run.status not in (0, 1):
            raise refusal(run, Source(text, text.encode()), self.log_source)
        return run.status == 0


def times_source(times: Sequence[int]) -> Source:
    """A file of times."""
    return Source("TIMES", "".join(f"{time}\n" for time in times).encode())


def formula_source(word: str) -> Source:
    """A formula by the name of its file, or its text."""
    if word == "-" or is_existing_file(word):
        return refuse_marks(read_source(word, "formula"), REFUSED)
    if not word.strip():
        raise Trouble(REFUSED, "the formula is empty")
    if "/" in word or word.endswith((".formula", ".txt")):
        raise Trouble(CANNOT_READ, f"{word} is no file, and no formula either")
    data = word.encode("utf-8", "surrogateescape")
    if len(data) > LIMITS["formula"].most:
        raise Trouble(TOO_LONG, LIMITS["formula"].words)
    return refuse_marks(Source(TYPED, data), REFUSED)


def sources_of(formula: str, log: str, unit: Optional[str], kind: str = "log") -> Tuple[Source, Source]:
    """A formula as it is written and the file of a log, with its unit where that is known."""
    first = formula_source(formula)
    try:
        return first, log_source(log, unit, kind)
    except Trouble as trouble:
        is_turned = BEGINS_AS_LOG.match(first.data)
        hint = f", and {first.name} is a log: the formula stands before the log" if is_turned else ""
        raise Trouble(trouble.status, trouble.message + hint) from None


def log_source(log: str, unit: Optional[str], kind: str = "log") -> Source:
    """The file of a log, with its unit where the words or the notes beside it tell one."""
    return scaled(read_source(log, kind), log, unit)


def text_of_source(formula: Source) -> str:
    """The text of a formula."""
    return formula.data.decode("utf-8", "replace")


def shown_formula(formula: Source) -> str:
    """A formula as it was written on one line, the beginning of it where it is long."""
    return shortened(" ".join(text_of_source(as_written(formula)).split()), 300)


def accepted_log(source: Source) -> Log:
    """The log of a file that the program has accepted."""
    log = read_log(source.data)
    if not isinstance(log, Log):
        raise Trouble(NOT_THERE, f"the program accepts {source.name}, and ask can't read it")
    log.scale = scale_of_source(source)
    return log


def log_with_rows(program: Program, source: Source) -> Log:
    """The log of a file, or the trouble of the program's refusal of it."""
    log = read_log(source.data)
    if isinstance(log, Log):
        log.scale = scale_of_source(source)
        return log
    raise refusal(program.run("times", [source]), None, source)


def accepted_tree(formula: Source) -> Tree:
    """The tree of a formula that the program has accepted."""
    tree = read_formula(text_of_source(formula))
    if tree is None:
        raise Trouble(NOT_THERE, f"the program accepts {as_written(formula).name}, and ask can't read it")
    return tree


def report_of_run(run: Run) -> Report:
    """The report that a run wrote."""
    try:
        return read_report(run.output)
    except Unreadable:
        raise unreadable("report", run) from None


def has_true_witness(run: Run) -> bool:
    """Whether a run of `check` found a timing in which the formula is true."""
    return b"\ntrue witness\n" in run.output


def with_report(run: Run) -> Run:
    """A run of `check`, which with a verdict has to have written the report of it."""
    if run.status in VERDICTS and verdict_of(run.output) != run.status:
        raise unreadable("report", run)
    return run


def step_of_run(run: Run) -> Step:
    """The bound that the times of a run of `replay` break."""
    kind, number = run.line().split(" ")[2:4]
    return Step(kind, (int(number),))


def unreadable(what: str, run: Run) -> Trouble:
    """The trouble that a run has a status of the program and didn't write what the program writes with it."""
    return Trouble(NOT_THERE, f"what the program wrote is no {what} that ask can read, at: {run.words}")


def best_of_run(run: Run, question: Question, log: Log, value: str) -> Best:
    """What a run of `span` or `tolerance` found, or the trouble that its refusal is."""
    command = run.words.split(" ")[0]
    if run.status == UNKNOWN_WORDS:
        raise Trouble(NOT_THERE, (
            f"{question.program.path} has no command `{command}`: it is older than ask. ./skewcheck builds a new one, "
            f"which is taken where neither --program nor SKEWCHECK names another"
        ))
    if run.status not in (0, 1, 3, 4):
        raise refusal(run, question.formula, question.log_source)
    try:
        best: Optional[Best] = read_best(run.output, len(log.rows), command, value)
    except Unreadable:
        best = None
    if best is None or best.status() != run.status:
        raise unreadable("answer", run)
    return best


def answered(run: Run, question: Question) -> Run:
    """A run of `check` with an answer, or the trouble that its refusal is."""
    if run.status not in VERDICTS:
        raise refusal(run, question.formula, question.log_source)
    return run


def run_lines(runs: Sequence[Run]) -> List[str]:
    """The runs so far, a line each."""
    return ["", f"{counted(len(runs), 'run')} of the program:", *(f"  {run.words} -> {run.status}" for run in runs)]


def run_facts(runs: Sequence[Run]) -> List[dict]:
    """The runs so far, for programs."""
    return [{"words": run.words, "status": run.status} for run in runs]
