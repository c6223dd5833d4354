"""Formulas that are asked of one log, a line of a table each."""

from __future__ import annotations

import argparse
from typing import Any, Dict, List, NamedTuple, Optional, Sequence

from ask.cautions import (
    Caution, caution_facts, cautions_of, cautions_of_names, cautions_without_runs, values_of_status, wants_runs,
)
from ask.ends import OutOfTime
from ask.logs import Fault, Log
from ask.program import STOPPED, Program, Stopped
from ask.question import VERDICTS, Question, accepted_tree, has_true_witness, log_with_rows, report_of_run
from ask.refusals import refusal
from ask.reports import Step
from ask.texts import Source
from ask.windows.answer import Progress, setting_of, verdict_words as words_of_windows
from ask.windows.asking import Whole
from ask.windows.bounds import Contradiction
from ask.windows.cautions import cautions_of_long_log
from ask.windows.longlog import LongLog
from ask.windows.opening import LongQuestion, formula_on_hosts, long_log_of, long_log_refusal
from ask.windows.shape import Shape, shape_of
from ask.windows.verdict import verdict_of_slices
from ask.words import no_timing_words, verdict_words

SHOWN = {**VERDICTS, STOPPED: "stopped"}


class Line(NamedTuple):
    """A line of a table: its name, its formula, its status, its warnings, and a walk if no timing is."""

    name: str
    formula: str
    status: int
    warnings: Sequence[Caution] = ()
    walk: Optional[Sequence[Step]] = None
    sentence: str = ""

    def facts(self) -> Dict[str, Any]:
        """The line for programs."""
        verdict = SHOWN[self.status]
        warnings = caution_facts(self.warnings)
        return {
            "name": self.name, "formula": self.formula, "status": self.status, "verdict": verdict, "warnings": warnings,
        }


class Table:
    """A log, and how the program is asked of it for each formula."""

    def __init__(self, program: Program, source: Source, options: Sequence[str], arguments: argparse.Namespace):
        self.program, self.source, self.options, self.arguments = program, source, options, arguments
        self.is_warned_by_runs = wants_runs(arguments)  # whether all kinds of warnings are asked for

    def log(self) -> Log:
        """The log."""
        raise NotImplementedError

    def line(self, name: str, formula: Source, shown: str) -> Line:
        """The line of a formula, which is shown by a text."""
        raise NotImplementedError


class ShortTable(Table):
    """A log that the program takes."""

    def __init__(self, program: Program, source: Source, options: Sequence[str], arguments: argparse.Namespace):
        super().__init__(program, source, options, arguments)
        self.read = log_with_rows(program, source)

    def log(self) -> Log:
        return self.read

    def line(self, name: str, formula: Source, shown: str) -> Line:
        try:
            return self.line_in_time(name, formula, shown)
        except (Stopped, OutOfTime):
            self.program.begin_telling()
            return Line(name, shown, STOPPED, sentence=stopped_words(shown, self.source))

    def line_in_time(self, name: str, formula: Source, shown: str) -> Line:
        """The same where the time suffices."""
        question = Question(self.program, formula, self.source, self.options)
        run = question.check()
        if run.status not in VERDICTS:
            raise refusal(run, formula, self.source)
        report = report_of_run(run)
        said = verdict_words(run.status, shown, self.source.name, has_true_witness(run), self.options)
        if run.status == 3:
            return Line(name, shown, 3, (), report.walk, said)
        tree = accepted_tree(formula)
        if self.is_warned_by_runs:
            warnings = cautions_of(question, self.read, tree, values_of_status(run.status))
        else:
            warnings = list(cautions_of_names(question, self.read, tree))
        return Line(name, shown, run.status, warnings, sentence=said)


class LongTable(Table):
    """A long log, of which windows are asked."""

    def __init__(
        self, program: Program, source: Source, options: Sequence[str], arguments: argparse.Namespace, log: LongLog
    ):
        super().__init__(program, source, options, arguments)
        self.read = log
        self.whole: Optional[Whole] = None

    def log(self) -> Log:
        return self.read

    def line(self, name: str, formula: Source, shown: str) -> Line:
        try:
            return self.line_in_time(name, formula, shown)
        except (Stopped, OutOfTime):
            return Line(name, shown, STOPPED, sentence=stopped_words(shown, self.source))

    def line_in_time(self, name: str, formula: Source, shown: str) -> Line:
        """The same where the time suffices."""
        tree = accepted_tree(formula_on_hosts(self.program, formula, self.source, self.read).formula)
        asked = LongQuestion(self.program, formula, self.source, self.read, tree, self.options)
        try:
            self.take_shape(shape_of(tree))
        except Contradiction as contradiction:
            return Line(name, shown, 3, (), contradiction.walk, no_timing_words(self.source.name))
        assert self.whole
        progress = Progress(not self.arguments.quiet)
        setting = setting_of(asked, self.arguments, progress)
        try:
            verdict = verdict_of_slices(self.whole, setting)
        finally:
            progress.end()
        if self.is_warned_by_runs:
            warnings = cautions_of_long_log(asked, self.whole, setting, verdict)
        else:
            warnings = cautions_without_runs(formula, self.read, tree)
        said = words_of_windows(verdict, shown, self.source.name)
        return Line(name, shown, verdict.status(), warnings, sentence=said)

    def take_shape(self, shape: Shape) -> None:
        """Has a formula be asked of the log, whose bounds are found once."""
        if self.whole is None:
            self.whole = Whole(self.read, shape)
        else:
            self.whole.take_shape(shape)


def stopped_words(formula: str, source: Source) -> str:
    """That a formula was stopped."""
    return f"Stopped: {formula} took longer on {source.name} than --seconds allows."


def table_of(program: Program, source: Source, options: Sequence[str], arguments: argparse.Namespace) -> Table:
    """How a log is asked, or the refusal of it."""
    long = long_log_of(source, arguments.windows)
    if isinstance(long, Fault):
        raise long_log_refusal(long, source)
    if long is None:
        return ShortTable(program, source, options, arguments)
    return LongTable(program, source, options, arguments, long)


def walk_of(lines: Sequence[Line]) -> Optional[Sequence[Step]]:
    """The walk that excludes every timing, where a line has one."""
    return next((line.walk for line in lines if line.walk is not None), None)


def warning_lines(lines: Sequence[Line]) -> List[str]:
    """A line for each warning."""
    return [f"Warning: {line.name}: {warning.sentence}." for line in lines for warning in line.warnings]
