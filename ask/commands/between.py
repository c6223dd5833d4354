"""`ask between`: the least and the greatest delay from one row to another, with the bounds that show each."""

from __future__ import annotations

import argparse
from typing import Any, Dict, List

from ask.cautions import add_strict_words, with_cautions
from ask.grounds import ground_facts, ground_lines
from ask.logs import Log
from ask.program import NOT_THERE, program_of
from ask.question import Question, best_of_run, log_source, log_with_rows, run_facts, run_lines
from ask.reports import Best
from ask.rows import RULE, row_of
from ask.texts import Source, Trouble
from ask.units import Scale, add_unit_words, unit_facts
from ask.words import USAGE, Answer, bold, row_words, walk_facts, walk_words

ANY = Source("'true'", b"true")  # a formula that every timing has


def add_words(commands: "argparse._SubParsersAction[argparse.ArgumentParser]", common: argparse.ArgumentParser) -> None:
    """Adds the words of the command."""
    words = commands.add_parser(
        "between", parents=[common], allow_abbrev=False, help="the least and the greatest delay between two rows",
        description="The least and the greatest delay from the first row to the second over all admissible timings, "
        "with a timing that has it and the bounds that allow no other. A row is a number from 0 as the program counts "
        "them (4), a line of the file (line:7), or a host and a name (web.asked) that one row alone has. The status is "
        "0 where there is a timing, 3 where there is none, and 4 where it wasn't found.",
    )
    words.add_argument("log", metavar="LOG")
    words.add_argument("first", metavar="ROW", help=RULE)
    words.add_argument("second", metavar="ROW", help="in the same way")
    add_strict_words(words)
    add_unit_words(words)
    words.add_argument("--all", action="store_true", help="show all bounds that an end rests on")
    words.add_argument("--runs", action="store_true", help="name all runs of the program")
    words.set_defaults(do=do)


def do(arguments: argparse.Namespace) -> Answer:
    """The answer of the command."""
    program = program_of(arguments)
    question = Question(program, ANY, log_source(arguments.log, arguments.unit))
    log = log_with_rows(program, question.log_source)
    first, second = row_of(log, arguments.first), row_of(log, arguments.second)
    if first == second:
        raise Trouble(USAGE, f"both are {row_words(log, first)}: a delay is between two rows")
    answer = with_cautions(Between(question, log, first, second, arguments.all).answer(), [], arguments)
    answer.facts.update(unit_facts(log.scale), runs=run_facts(program.runs))
    if arguments.runs:
        answer.lines += run_lines(program.runs)
    return answer


class Between:
    """Two rows of a log, and what is asked of them."""

    def __init__(self, question: Question, log: Log, first: int, second: int, is_all: bool):
        self.question, self.log, self.is_all = question, log, is_all
        self.first, self.second = first, second
        self.facts: Dict[str, Any] = {
            "first": {"row": first, "line": log.rows[first].line},
            "second": {"row": second, "line": log.rows[second].line},
        }

    def answer(self) -> Answer:
        """The greatest delay of the second row after the first, and of the first after the second."""
        greatest = self.span(self.first, self.second)
        if greatest.walk is not None:
            return self.contradiction(greatest)
        least = self.span(self.second, self.first)
        if greatest.number is None or least.number is None:
            said = "Unknown: the program didn't find the delay within its conflicts."
            return Answer(4, [bold(said)], {**self.facts, "sentence": said})
        return self.found(greatest, greatest.number, least, -least.number)

    def span(self, start: int, end: int) -> Best:
        """The greatest delay of one row after another, as the program's `span` has it."""
        run = self.question.program.run("span", [ANY, self.question.log_source], ["true", str(start), str(end)])
        best = best_of_run(run, self.question, self.log, "true")
        if run.status == 1:
            raise Trouble(NOT_THERE, f"the program says that no timing makes `true` true, at: {run.words}")
        return best

    def contradiction(self, best: Best) -> Answer:
        """The answer of a log without a timing."""
        walk = best.walk or []
        name = self.question.log_source.name
        said = f"No timing: {name} admits none, since these bounds contradict each other."
        self.facts.update(sentence=said, contradiction=walk_facts(self.log, walk))
        return Answer(3, [bold(said), *walk_words(self.log, walk)], self.facts)

    def found(self, greatest: Best, most: int, least: Best, fewest: int) -> Answer:
        """The answer with both ends."""
        first, second = (row_words(self.log, event) for event in (self.first, self.second))
        name = self.question.log_source.name
        sentence = f"{second} is {range_words(self.log.scale, fewest, most)} {first}, by the timings that {name} admits."
        stamped = self.log.rows[self.second].stamp - self.log.rows[self.first].stamp
        self.facts.update(least=fewest, greatest=most, sentence=sentence, as_stamped=stamped, ends={})
        lines = [bold(sentence), f"By the stamps it is {delay_words(self.log.scale, stamped)}."]
        lines += self.end_lines("greatest", greatest, most) + self.end_lines("least", least, fewest)
        return Answer(0, lines, self.facts)

    def end_lines(self, which: str, best: Best, delay: int) -> List[str]:
        """A timing that has an end, and the bounds that allow nothing beyond it."""
        start, end = (self.first, self.second) if which == "greatest" else (self.second, self.first)
        run = f"span true {start} {end} 'true' {self.question.log_source.name}"
        scale, ends = self.log.scale, (self.first, self.second)
        rows = [f"line {self.log.rows[event].line} at {scale.moment(best.times[event])}" for event in ends]
        facts, grounds = [], []
        if best.why:
            facts, grounds = ground_facts(self.log, best.why), ground_lines(self.log, best.why, self.is_all)
        self.facts["ends"][which] = {"times": best.times, "run": run, "rests_on": facts}
        extreme = {"greatest": "latest", "least": "earliest"}[which]
        head = f"At the {extreme} {delay_words(scale, delay)}, as with {' and '.join(rows)} [{run}], since"
        return ["", head, *grounds]


def delay_words(scale: Scale, delay: int) -> str:
    """A delay as `5 after`; what it is after stands behind it."""
    if delay == 0:
        return "at the same instant"
    return f"{scale.span(abs(delay))} {'after' if delay > 0 else 'before'}"


def range_words(scale: Scale, least: int, most: int) -> str:
    """From which delay to which the second row comes, before the name of the first one."""
    if least == most:
        return "at the same instant as" if most == 0 else f"{'always ' + delay_words(scale, most)}"
    if least > 0:
        return f"{scale.spans(least, most)} after"
    if most < 0:
        return f"{scale.spans(-most, -least)} before"
    if least == 0:
        return f"at the same instant as, or up to {scale.span(most)} after,"
    if most == 0:
        return f"up to {scale.span(-least)} before, or at the same instant as,"
    return f"from {scale.span(-least)} before to {scale.span(most)} after"
