"""`ask deadline`: the least number in place of `?` with which a formula is true by every timing."""

from __future__ import annotations

import argparse
from typing import Any, Dict, List, Optional, Tuple, Union

from ask.cautions import (
    Caution, add_strict_words, cautions_wanted, cautions_without_runs, unasked_in_time, values_of_status, wants_runs,
    with_cautions,
)
from ask.commands.check import refuse_wrong_conflicts
from ask.ends import OutOfTime
from ask.formulas import Tree, grows_truer, is_higher, read_formula, stray_mark, subtrees, with_number
from ask.logs import Fault, Log
from ask.macros import add_formula_words, formula_answer, written_out
from ask.program import STOPPED, Run, Stopped, program_of
from ask.question import (
    REFUSED, Question, accepted_log, answered, has_true_witness, run_facts, run_lines, shown_formula, sources_of,
    text_of_source,
)
from ask.refusals import file_hint
from ask.texts import Source, Trouble, place_of
from ask.units import add_unit_words, scale_of_source, unit_facts
from ask.windows.answer import Progress, setting_of
from ask.windows.asking import Setting, Whole
from ask.windows.bounds import Contradiction
from ask.windows.cautions import cautions_of_long_log
from ask.windows.least_number import Numbers, Undecided
from ask.windows.longlog import LongLog
from ask.windows.opening import LongQuestion, add_window_words, long_log_of, question_of
from ask.windows.shape import Shape, shape_of
from ask.windows.verdict import verdict_of_slices
from ask.words import USAGE, Answer, bold
from ask.written import as_written, place_written, with_number_in

MOST_NUMBER = 10**18  # in an interval
MOST_LEVELS = 200  # of a formula that the program takes
SAID = {
    0: "true by every timing", 1: "false by every timing", 2: "true by some timings and false by others",
    4: "false by some timing",
}
OPEN = "true by some timing, and whether it can be false wasn't found"  # the other answer with 4


def add_words(commands: "argparse._SubParsersAction[argparse.ArgumentParser]", common: argparse.ArgumentParser) -> None:
    """Adds the words of the command."""
    words = commands.add_parser(
        "deadline", parents=[common], allow_abbrev=False, help="the least number in place of `?` that a log shows",
        description="The least number in place of `?` with which the formula is true by every timing, by check of one "
        "number after another; of a formula that is harder to meet with a greater number, the greatest; or that any "
        "number will do. The status is 0 where some number will do, 1 where none will, 3 without a timing, and 4 where "
        "a check left a value unknown.",
    )
    words.add_argument(
        "formula", metavar="FORMULA-WITH-?", help="a file, or the formula itself, as 'G (a.req -> F[0,?] b.ack)'",
    )
    words.add_argument("log", metavar="LOG")
    words.add_argument("--conflicts", metavar="N", help="of the search for each value, as for the program")
    add_strict_words(words)
    add_unit_words(words)
    add_formula_words(words)
    words.add_argument("--runs", action="store_true", help="name all runs of the program")
    add_window_words(words, has_folder=False)
    words.set_defaults(do=do)


class Unknown(Exception):
    """A check left open whether the formula can be false."""

    def __init__(self, number: int):
        super().__init__(number)
        self.number = number


def do(arguments: argparse.Namespace) -> Answer:
    """The answer of the command."""
    refuse_wrong_conflicts(arguments.conflicts)
    options = ["--conflicts", arguments.conflicts] if arguments.conflicts else []
    asked, source = sources_of(arguments.formula, arguments.log, arguments.unit, "long log")
    template = written_out(asked, source)
    if arguments.formula_alone:
        return formula_answer(template)
    program = program_of(arguments)
    question = Question(program, template, source, options)
    tree = tree_of(template)
    log = long_log_of(source, arguments.windows)
    search = Search(question, tree, arguments) if log is None else LongSearch(question, tree, arguments, log)
    answer = search.answer()
    answer.facts.update(unit_facts(search.scale), runs=run_facts(program.runs))
    if arguments.runs:
        answer.lines += run_lines(program.runs)
    return answer


def tree_of(template: Source) -> Optional[Tree]:
    """The tree of a formula with `?`, or None where it is no formula or too high, which the program then says."""
    text = text_of_source(template)
    if "?" not in text:
        wanted = "write it in place of the number that is asked for, as F[0,?]"
        raise Trouble(USAGE, f"the formula has no `?`: {wanted}{file_hint(as_written(template))}")
    tree = read_formula(text)
    stray = None if tree else stray_mark(text)
    if stray is not None:
        written, start = place_written(template, len(text[:stray].encode()))
        place = place_of(written.data, start)
        raise Trouble(REFUSED, (
            f"{written.name}, line {place.line}, column {place.column}: this `?` is no bound of an interval. It "
            f"stands in place of a whole number, as in F[0,?]{file_hint(written)}"
        ))
    return None if tree and is_higher(tree, MOST_LEVELS) else tree


def is_rising(tree: Optional[Tree]) -> bool:
    """Whether a greater number makes the formula true of more timings; all `?` have to agree on it."""
    directions = set(grows_truer(tree)) if tree else {True}
    if len(directions) != 1:
        raise Trouble(USAGE, (
            "a greater number in place of `?` makes this formula easier to meet at one place and harder at another, "
            "so there is no least one to look for: ask for the parts one by one"
        ))
    return directions.pop()


def range_of(tree: Optional[Tree]) -> Tuple[int, int]:
    """The numbers with which no interval of the formula ends before it begins."""
    intervals = [part.interval for part in subtrees(tree)] if tree else []
    least = max((int(low) for low, high in intervals if high == "?" and low != "?"), default=0)
    most = min((int(high) for low, high in intervals if low == "?" and high not in ("?", "inf")), default=MOST_NUMBER)
    if least > most:
        raise Trouble(USAGE, f"no number fits in place of `?`: it would be at least {least} and at most {most}")
    return least, most


class Search:
    """The bisection of a question whose formula has `?`.

    From `last` on no number that fits changes what the formula says: no two rows are so far apart by any timing.
    """

    def __init__(self, question: Question, tree: Optional[Tree], arguments: argparse.Namespace):
        self.question, self.tree, self.arguments, self.rises = question, tree, arguments, is_rising(tree)
        self.least, self.most = range_of(tree)
        self.last = self.least
        self.scale = scale_of_source(question.log_source)
        self.runs: Dict[int, Run] = {}

    def run_at(self, number: int) -> Run:
        """The check with a number in place of `?`."""
        if number not in self.runs:
            formula = with_number_in(self.question.formula, number)
            run = self.question.check(text_of_source(formula))
            self.runs[number] = answered(run, Question(self.question.program, formula, self.question.log_source))
        return self.runs[number]

    def is_met(self, number: int) -> bool:
        """Whether the formula with a number is true by every timing."""
        status = self.run_at(number).status
        if status == 4 and has_true_witness(self.runs[number]):
            raise Unknown(number)
        return status == 0

    def answer(self) -> Answer:
        """Which numbers will do, with the checks that show it."""
        try:
            if self.run_at(self.least).status == 3:
                said = f"No timing: {self.question.log_source.name} admits none, so there is nothing to ask."
                return Answer(3, [bold(said)], self.facts(said, None, None))
            log = accepted_log(self.question.log_source)
            self.last = max(self.least, min(self.most, greatest_distance(log) + 1))
            answer, number = self.answer_at_edge()
        except (Stopped, OutOfTime):
            raise self.stopped(*self.known()) from None
        except Unknown as unknown:
            answer, number = self.unknown(unknown.number), unknown.number
        tree = self.tree and with_number(self.tree, number)
        values = values_of_status(self.run_at(number).status)
        return with_cautions(
            answer, cautions_wanted(self.arguments, self.question, log, tree, values), self.arguments,
        )

    def answer_at_edge(self) -> Tuple[Answer, int]:
        """The answer, and the number whose check it is about."""
        easiest, hardest = (self.last, self.least) if self.rises else (self.least, self.last)
        if not self.is_met(easiest):
            return self.none(easiest), easiest
        if self.is_met(hardest):
            return self.any_number(hardest), hardest
        number = self.edge(easiest, hardest)
        return self.found(number), number

    def edge(self, met: int, failed: int) -> int:
        """The number that is met beside one that isn't, between a number that is met and one that isn't."""
        while abs(met - failed) > 1:
            middle = (met + failed) // 2
            if self.is_met(middle):
                met = middle
            else:
                failed = middle
        return met

    def known(self) -> Tuple[Optional[int], Optional[int]]:
        """Of the numbers that were tried the last one that will do, and the first one that won't."""
        met = [number for number, run in self.runs.items() if run.status == 0]
        failed = [number for number, run in self.runs.items() if run.status != 0]
        of_met, of_failed = (min, max) if self.rises else (max, min)
        return of_met(met, default=None), of_failed(failed, default=None)

    def stopped(self, met: Optional[int], failed: Optional[int]) -> Trouble:
        """That the time was over, with what is known of numbers that will do and that won't."""
        known = [f"with {self.scale.span(met)} it is true by every timing"] * (met is not None)
        known += [f"with {self.scale.span(failed)} it isn't true by every timing"] * (failed is not None)
        return Trouble(STOPPED, "; ".join([f"stopped after {self.arguments.seconds:g} seconds", *known]))

    def found(self, number: int) -> Answer:
        """The answer where a number is the last one that will do."""
        beyond = number - 1 if self.rises else number + 1
        which = "least" if self.rises else "greatest"
        said = f"{self.scale.span(number)} is the {which} number with which {self.asked()} is true by every timing."
        lines = [bold(said), self.line_of(number), self.line_of(beyond)]
        least, greatest = (number, self.greatest_that_fits()) if self.rises else (self.least, number)
        facts = self.facts(said, number, which, number, beyond)
        return Answer(0, lines, {**facts, "least": least, "greatest": greatest})

    def any_number(self, number: int) -> Answer:
        """The answer where every number that fits will do, as the check with the hardest to meet shows."""
        greatest = self.greatest_that_fits()
        least = self.scale.span(self.least)
        span = "Any number" if self.least == 0 else f"Any number from {least} on"
        ends = f"{least} is the least" if self.rises else "there is no greatest one"
        if greatest is not None:
            span = f"Any number from {self.scale.spans(self.least, greatest)}"
            ends = "with others an interval would end before it begins"
        elif self.rises and self.least == 0:
            span = "Any number, 0 included,"
        said = f"{span} will do: {self.asked()} is true by every timing with each of them, and {ends}."
        lines = [bold(said), self.line_of(number)]
        lines += [self.end_of_log()] * (not self.rises and number < self.most)
        told = self.least if self.rises else greatest
        facts = self.facts(said, told, "any", number)
        return Answer(0, lines, {**facts, "least": self.least, "greatest": greatest})

    def none(self, number: int) -> Answer:
        """The answer where no number will do, as the check with the easiest to meet shows."""
        said = f"None: {self.asked()} isn't true by every timing with any number in place of `?`."
        lines = [bold(said), self.line_of(number)]
        if self.rises and number < self.most:
            lines.append(self.end_of_log())
        elif self.rises:
            lines.append("  With a greater number an interval would end before it begins.")
        elif self.least:
            lines.append("  With a smaller number an interval would end before it begins.")
        return Answer(1, lines, self.facts(said, None, None, number))

    def unknown(self, number: int) -> Answer:
        """The answer where a check left open whether the formula can be false."""
        said = f"Unknown: with {self.scale.span(number)} it wasn't found within the conflicts whether it can be false."
        facts = self.facts(said, None, None, number)
        return Answer(4, [bold(said), self.line_of(number, OPEN)], {**facts, "unknown_at": number})

    def asked(self) -> str:
        """The formula with `?`, as sentences show it."""
        return shown_formula(self.question.formula)

    def greatest_that_fits(self) -> Optional[int]:
        """The greatest number with which no interval ends before it begins, None where there is none."""
        return None if self.most == MOST_NUMBER else self.most

    def line_of(self, number: int, said: str = "") -> str:
        """What the check with a number said, in these words or in those of its status."""
        run = self.run_at(number)
        return f"  {self.scale.span(number)}: {said or SAID[run.status]} [{run.words}]"

    def end_of_log(self) -> str:
        """Why no number beyond the last one that was tried changes anything."""
        last = self.scale.span(self.last)
        return f"  A greater number changes nothing: by no timing are two rows of the log {last} apart, or more."

    def facts(self, sentence: str, number: Optional[int], which: Optional[str], *shown: int) -> Dict[str, Any]:
        """The answer for programs, with the statuses of the checks that show it."""
        statuses = {str(other): self.run_at(other).status for other in shown}
        return {
            "sentence": sentence, "number": number, "which": which, "least": None, "greatest": None,
            "statuses": statuses, "warnings": [],
        }


class LongSearch(Search):
    """The same on a long log, by windows: with a number that won't do only that is known, by some timing."""

    def __init__(
        self, question: Question, tree: Optional[Tree], arguments: argparse.Namespace, log: Union[LongLog, Fault]
    ):
        super().__init__(question, tree, arguments)
        self.at_least = self.question_at(self.least, log)

    def run_at(self, number: int) -> Run:
        """What windows said with a number."""
        return self.runs[number]

    def answer(self) -> Answer:
        """Which numbers will do."""
        try:
            whole = Whole(self.at_least.log, shape_of(self.at_least.tree))
        except Contradiction:
            said = f"No timing: {self.at_least.source.name} admits none, so there is nothing to ask."
            return Answer(3, [bold(said)], self.facts(said, None, None))
        self.last = max(self.least, min(self.most, max(whole.times.greatest) - min(whole.times.least) + 1))
        progress = Progress(not self.arguments.quiet)
        setting = setting_of(self.at_least, self.arguments, progress)
        numbers = Numbers(whole, setting, self.shape_at, self.rises)
        try:
            try:
                answer, number = self.answer_at(numbers)
            except (Stopped, OutOfTime):
                raise self.stopped(None, numbers.failed) from None
            except Undecided as undecided:
                answer, number = self.unknown(undecided.number), undecided.number
            cautions = self.cautions_at(number, whole, setting)
        finally:
            progress.end()
        return with_cautions(answer, cautions, self.arguments)

    def cautions_at(self, number: int, whole: Whole, setting: Setting) -> List[Caution]:
        """The warnings on the formula with a number: those that windows tell too, where the words want them."""
        tree = self.tree and with_number(self.tree, number)
        told = cautions_without_runs(self.question.formula, self.at_least.log, tree)
        if not (tree and wants_runs(self.arguments)):
            return told
        try:
            asked = self.question_at(number, self.at_least.log)
            whole.take_shape(shape_of(asked.tree))
            return cautions_of_long_log(asked, whole, setting, verdict_of_slices(whole, setting))
        except (Stopped, OutOfTime):
            return [*told, unasked_in_time()]

    def answer_at(self, numbers: Numbers) -> Tuple[Answer, int]:
        """The answer at the edge, and the number that it is about."""
        met, failed = numbers.edge(self.least, self.last)
        for number, status in ((met, 0), (failed, 4)):
            if number is not None:
                self.take_status(number, status)
        if met is None:
            assert failed is not None
            return self.none(failed), failed
        if failed is None:
            return self.any_number(met), met
        return self.found(met), met

    def unknown(self, number: int) -> Answer:
        """The answer where windows with a number left open whether they can be false."""
        self.take_status(number, 4)
        said = f"Unknown: with {self.scale.span(number)} windows didn't tell whether it can be false."
        return Answer(4, [bold(said)], {**self.facts(said, None, None, number), "unknown_at": number})

    def take_status(self, number: int, status: int) -> None:
        """Takes the status that windows with a number show."""
        self.runs[number] = Run(f"check of windows with {number}", status, b"")

    def question_at(self, number: int, log: Union[LongLog, Fault]) -> LongQuestion:
        """The question with a number in place of `?`."""
        formula, question = with_number_in(self.question.formula, number), self.question
        return question_of(question.program, formula, question.log_source, log, question.options)

    def shape_at(self, number: int) -> Shape:
        """What is asked of windows with a number."""
        assert self.tree
        return shape_of(with_number(self.tree, number))


def greatest_distance(log: Log) -> int:
    """A distance that no two rows of the log exceed by any timing."""
    first = min(row.stamp - row.skew for row in log.rows)
    last = max(row.stamp + row.skew for row in log.rows)
    return last - first
