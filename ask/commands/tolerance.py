"""`ask tolerance`: how much greater all skews have to be for a formula to be possible, or how small to decide it."""

from __future__ import annotations

import argparse
import functools
from dataclasses import replace
from typing import Any, Dict, List, Optional

from ask.cautions import add_strict_words, cautions_wanted, with_cautions
from ask.commands.check import refuse_wrong_conflicts
from ask.decide import decide_answer
from ask.grounds import ground_facts, ground_lines
from ask.logs import MOST_SKEW, Log, number, records_of
from ask.macros import add_formula_words, formula_answer, written_out
from ask.nearer import brought_nearer
from ask.program import program_of
from ask.question import (
    Question, accepted_tree, best_of_run, log_with_rows, run_facts, run_lines, shown_formula, sources_of,
)
from ask.reports import Best
from ask.texts import Source, Trouble
from ask.units import add_unit_words, scale_of_source, unit_facts
from ask.windows.opening import number_of_jobs
from ask.words import USAGE, Answer, bold, counted, most_words, table, walk_facts, walk_words

MOST_ROWS_SHOWN = 40


def add_words(commands: "argparse._SubParsersAction[argparse.ArgumentParser]", common: argparse.ArgumentParser) -> None:
    """Adds the words of the command."""
    words = commands.add_parser(
        "tolerance", parents=[common], allow_abbrev=False,
        help="how far off clocks would be for a formula to hold, or how near for a log to decide it",
        description="The least number by which all skews of the log have to be greater for some timing to give the "
        "formula the value, with that timing and the bounds that exclude it with one less. The status is 0 where there "
        "is such a number, 1 where there is none up to MAX, 3 where even then there is no timing, and 4 where it wasn't "
        "found within the conflicts. With --decide, and without VALUE, the other way round: for the skew of each host "
        "alone, and for all together, the greatest number with which the log decides the formula, where each skew that "
        "is greater is that number instead. The status is 0 where there is such a number or the log decides it already, "
        "1 where there is none, 3 where the log admits no timing, and 4 where a number wasn't found within the conflicts.",
    )
    value = words.add_argument("value", metavar="VALUE", help="true or false: what the formula is to be; not with --decide")
    formula = words.add_argument("formula", metavar="FORMULA", help="a file, or the formula itself")
    log = words.add_argument("log", metavar="LOG")
    words.add_argument(
        "--decide", action=functools.partial(Decide, value, formula, log), default=False,
        help="how small skews have to be for the log to decide the formula: `tolerance --decide FORMULA LOG`",
    )
    words.add_argument(
        "--up-to", dest="most", metavar="MAX",
        help="the greatest number that is tried, else 10^18; with --decide, where the log decides the formula already, "
        "of how much greater skews may be, else the greatest skew",
    )
    words.add_argument("--keep", metavar="FOLDER", help="with --decide, keep the formula and the log of each check in a folder")
    words.add_argument(
        "--jobs", type=number_of_jobs, metavar="N", help="with --decide, runs of the program at a time; else one a core",
    )
    words.add_argument("--conflicts", metavar="N", help="of each search, as for the program")
    add_strict_words(words)
    add_unit_words(words)
    add_formula_words(words)
    words.add_argument("--all", action="store_true", help="show all rows, and all bounds; not with --decide")
    words.add_argument("--runs", action="store_true", help="name all runs of the program")
    words.set_defaults(do=do)


class Decide(argparse.Action):
    """Has the words be a formula and a log, though these are taken for the value and the formula."""

    def __init__(self, value: argparse.Action, formula: argparse.Action, log: argparse.Action, **named: Any):
        super().__init__(nargs=0, **named)
        self.value, self.formula, self.log = value, formula, log

    def __call__(self, parser: Any, namespace: argparse.Namespace, values: Any, option: Optional[str] = None) -> None:
        setattr(namespace, self.dest, True)
        self.value.metavar, self.formula.metavar, self.log.required = self.formula.metavar, self.log.metavar, False


def settle_words(arguments: argparse.Namespace) -> None:
    """Has each word be what it is for, and refuses those that don't go together."""
    if not arguments.decide:
        odd = next((option for option in ("keep", "jobs") if getattr(arguments, option) is not None), None)
        if odd:
            raise Trouble(USAGE, f"--{odd} is for --decide")
        if arguments.value not in ("true", "false"):
            raise Trouble(USAGE, f"VALUE is true or false, and not {arguments.value!r}; without one --decide asks for both")
        return
    if arguments.log is not None:
        raise Trouble(USAGE, "--decide asks for both values: beside it stand FORMULA and LOG alone")
    if arguments.all:
        raise Trouble(USAGE, "--all is for a VALUE: --decide shows no timing")
    arguments.value, arguments.formula, arguments.log = None, arguments.value, arguments.formula


def do(arguments: argparse.Namespace) -> Answer:
    """The answer of the command."""
    settle_words(arguments)
    refuse_wrong_conflicts(arguments.conflicts)
    most = most_of(arguments.most)
    options = ["--conflicts", arguments.conflicts] if arguments.conflicts else []
    asked, source = sources_of(arguments.formula, arguments.log, arguments.unit)
    formula = written_out(asked, source)
    if arguments.formula_alone:
        return formula_answer(formula)
    program = program_of(arguments)
    question = Question(program, formula, source, options)
    if arguments.decide:
        return decide_answer(question, None if arguments.most is None else most, arguments)
    return tolerance_answer(question, most, arguments)


def tolerance_answer(question: Question, most: int, arguments: argparse.Namespace) -> Answer:
    """How much greater all skews have to be, at least and up to a number."""
    program, options = question.program, question.options
    log = log_with_rows(program, question.log_source)
    words = [*options, arguments.value, str(most)]
    run = program.run("tolerance", [question.formula, question.log_source], words)
    try:
        best = best_of_run(run, question, log, arguments.value)
    except Trouble as trouble:
        more = f"; the size is that with all skews {most_words(log.scale, most)} greater, and a smaller --up-to may make it smaller"
        raise Trouble(trouble.status, trouble.message + more * run.line().startswith("refused size")) from None
    tolerance = Tolerance(question, log, arguments.value, most, arguments.all)
    answer = tolerance.answer(run.status, best)
    if run.status != 3:
        tree = accepted_tree(question.formula)
        wide = replace(question, log_source=widened_source(question.log_source, best.number or 0))
        with_cautions(answer, cautions_wanted(arguments, wide, log, tree, tolerance.values_told(run.status)), arguments)
    answer.facts.update(unit_facts(log.scale), runs=run_facts(program.runs))
    if arguments.runs:
        answer.lines += run_lines(program.runs)
    return answer


def most_of(text: Optional[str]) -> int:
    """The greatest number to be tried."""
    if text is None:
        return MOST_SKEW
    found = number(text, MOST_SKEW)
    if found is None:
        raise Trouble(USAGE, f"--up-to is a number from 0 to 10^18, and not {text!r}")
    return found


class Tolerance:
    """A formula and a log, and what is said of the least widening of its skews."""

    def __init__(self, question: Question, log: Log, value: str, most: int, is_all: bool):
        self.question, self.log, self.value, self.most, self.is_all = question, log, value, most, is_all
        self.facts: Dict[str, Any] = {"value": value, "most": most, "warnings": []}

    def answer(self, status: int, best: Best) -> Answer:
        """The answer: a sentence, the timing, and why less isn't enough."""
        formula, name = shown_formula(self.question.formula), self.question.log_source.name
        if best.number is not None:
            return self.found(best, best.number, f"{formula} {{}} {self.value}")
        more = f"with all skews of {name} {most_words(self.log.scale, self.most)} greater"
        said = {
            1: f"Never: even {more} {formula} can't be {self.value}.",
            3: f"No timing: even {more} the log admits none, since these bounds contradict each other.",
            4: f"Unknown: it wasn't found within the conflicts how much greater the skews of {name} have to be.",
        }[status]
        lines = [bold(said)]
        wide = widened(self.log, self.most)
        if best.walk is not None:
            lines += walk_words(wide, best.walk)
            self.facts["contradiction"] = walk_facts(wide, best.walk)
        elif status == 1 and best.why:
            lines += ["The derivation rests on", *ground_lines(wide, best.why, self.is_all)]
            self.facts["rests_on"] = ground_facts(wide, best.why)
        self.facts.update(sentence=said, least=None)
        return Answer(status, lines, self.facts)

    def values_told(self, status: int) -> List[bool]:
        """The value that the answer is about: the one that is possible, or the other one where it can't be."""
        return {0: [self.value == "true"], 1: [self.value == "false"]}.get(status, [])

    def found(self, best: Best, least: int, what: str) -> Answer:
        """The answer where there is a number."""
        name, can = self.question.log_source.name, what.format("can be")
        span = self.log.scale.span
        less = "as they are" if least == 1 else f"where they are {span(least - 1)} greater"
        said = f"{can} where all skews of {name} are {span(least)} greater, and not {less}."
        if least == 0:
            said = f"{can} with the skews that {name} has: no stamp has to be off by more."
        question = replace(self.question, log_source=widened_source(self.question.log_source, least))
        nearer = brought_nearer(question, self.log, best.times, self.value == "true")
        best.times = nearer.times
        by = "found by tolerance, and brought nearer to the stamps by replay"
        lines = [bold(said), "", f"A timing in which it is {self.value} ({by}):", *self.rows(best.times)]
        lines += [f"  {nearer.remark}"] * bool(nearer.remark)
        self.facts.update(sentence=said, least=least, times=best.times)
        if best.why:
            wide = widened(self.log, least - 1)
            self.facts["rests_on"] = ground_facts(wide, best.why)
            skews = "With the skews as they are" if least == 1 else f"With skews {span(least - 1)} greater"
            lines += ["", f"{skews} it can't be {self.value}, since", *ground_lines(wide, best.why, self.is_all)]
        return Answer(0, lines, self.facts)

    def rows(self, times: List[int]) -> List[str]:
        """The rows of a timing, with how far each is beyond its skew; of a long log those that are shifted."""
        rows, scale = [], self.log.scale
        for event, (row, time) in enumerate(zip(self.log.rows, times)):
            shift = time - row.stamp
            beyond = f"{scale.span(abs(shift) - row.skew)} beyond its skew" if abs(shift) > row.skew else ""
            if shift or self.is_all or len(times) <= MOST_ROWS_SHOWN:
                cells = [str(row.line), self.log.host_of(event), f"{row.kind} {row.name}", scale.moment(row.stamp)]
                rows.append([*cells, scale.shift(shift), scale.moment(time), beyond])
        shown = rows if self.is_all else rows[:MOST_ROWS_SHOWN]
        lines = table(["line", "host", "row", "stamp", "shift", "time", ""], shown, left=(1, 2, 6))
        rest = len(times) - len(shown)
        return lines + ([f"  {counted(rest, 'row')} left out; --all shows all"] if rest else [])


def widened_source(source: Source, amount: int) -> Source:
    """The file of a log with all skews greater by an amount, which the program refuses where a skew is above 10^18.

    The errors of clocks stay.
    """
    records = [record.fields for record in records_of(source.data)]
    for fields in records:
        if fields[0] in ("host", "resync"):
            fields[2] = str(int(fields[2]) + amount)
    text = "".join(",".join(fields) + "\n" for fields in records)
    more = scale_of_source(source).span(amount)
    return Source(f"'{source.name}, skews {more} greater'" if amount else source.name, text.encode())


def widened(log: Log, amount: int) -> Log:
    """The log with all skews greater by an amount."""
    return replace(log, rows=[row._replace(skew=row.skew + amount) for row in log.rows])
