"""With which smaller skews a log decides a formula: those of one host alone, and those of all hosts together."""

from __future__ import annotations

import argparse
import sys
import time
from pathlib import Path
from typing import Any, Dict, List, NamedTuple, Optional, Sequence, Tuple

from ask.cautions import cautions_wanted, values_of_status, with_cautions
from ask.halving import EITHER, FALSE, NO_TIMING, TRUE, UNKNOWN, Halving, Outcome, halvings_of
from ask.logs import Log, records_of
from ask.program import PATIENCE, STOPPED, Run, Stopped, words_shown
from ask.question import (
    VERDICTS, Question, accepted_tree, answered, best_of_run, log_with_rows, report_of_run, run_facts, run_lines,
    shown_formula, text_of_source, unreadable, with_report,
)
from ask.texts import Source, make_empty_folder, say, write_text
from ask.units import Scale, scale_of_source, unit_facts, write_with_notes
from ask.windows.pool import Done, Job, Pool, cores
from ask.words import TYPED, Answer, bold, counted, most_words, no_timing_words, walk_facts, walk_words

TOO_LARGE = "refused size"  # how the program's refusal of a question for its size begins
SAID = {
    TRUE: "true by every timing", FALSE: "false by every timing", EITHER: "true by some timings and false by others",
    NO_TIMING: "no timing", UNKNOWN: "not found within the conflicts",
}
CLOCKS_STAY = "The errors of clock records stay as they are."
ALL_HOSTS = "all-hosts"  # in the names of files, where it is the name of no host


class Narrower:
    """Makes logs in which some skews are smaller, and keeps them in a folder where one is named."""

    def __init__(self, source: Source, log: Log, folder: Optional[str]):
        self.source, self.log, self.folder = source, log, folder
        self.scale = scale_of_source(source)
        self.records = [record.fields for record in records_of(source.data)]

    def source_of(self, host: Optional[int], most: int) -> Source:
        """The file of the log with no skew of a host, or of all, above a number; the errors of clocks stay."""
        name = None if host is None else self.log.hosts[host].name
        text = "".join(f"{','.join(narrowed(fields, name, most))}\n" for fields in self.records)
        span = self.scale.span(most)
        whose = "all skews" if name is None else f"skew of {name}"
        shown = f"'{self.source.name}, {whose} at most {span}'"
        if self.folder is not None:
            shown = str(Path(self.folder, f"{name or ALL_HOSTS}_at_most_{most}.csv"))
            self.keep(shown, text)
        return Source(shown, text.encode())

    def keep(self, name: str, text: str) -> None:
        """Writes a log, with its unit beside it where that is known."""
        if self.scale.unit is None:
            write_text(name, text)
        else:
            write_with_notes(name, text, self.scale)


def narrowed(fields: List[str], host: Optional[str], most: int) -> List[str]:
    """A record whose skew, if it has one of the host, or of any, is at most a number."""
    kind, name, *rest = fields
    if kind not in ("host", "resync") or host not in (None, name):
        return fields
    skew, gap = rest
    return [kind, name, str(min(int(skew), most)), gap]


class Progress:
    """How many runs there were, which is told on a terminal."""

    def __init__(self, is_wanted: bool):
        self.is_wanted = is_wanted and sys.stderr.isatty()
        self.told = self.began = time.monotonic()

    def tell(self, count: int) -> None:
        """Tells it, but not more than once a second."""
        now = time.monotonic()
        if self.is_wanted and now - self.told >= PATIENCE:
            self.told = now
            say(f"ask: {counted(count, 'run')} by now", "\r")

    def end(self) -> None:
        """Leaves the line."""
        if self.told > self.began:
            say("")


def numbers_wanted(halvings: Sequence[Halving]) -> List[Tuple[Halving, int]]:
    """The number that has to be tried next of each skew of which something isn't known yet."""
    wanted = [(halving, halving.wanted()) for halving in halvings]
    return [(halving, number) for halving, number in wanted if number is not None]


class Asking:
    """Asks the program of logs with smaller skews, several at a time."""

    def __init__(self, question: Question, narrower: Narrower, formula: Source, jobs: int):
        self.question, self.narrower, self.formula, self.jobs = question, narrower, formula, jobs
        self.progress = Progress(not question.program.is_quiet)

    def settle(self, halvings: Sequence[Halving]) -> None:
        """Tries numbers until nothing more is wanted."""
        wanted = numbers_wanted(halvings)
        try:
            while wanted:
                sources = [self.narrower.source_of(halving.host, number) for halving, number in wanted]
                for (halving, number), run in zip(wanted, self.checks(sources)):
                    halving.runs[number] = run
                wanted = numbers_wanted(halvings)
        finally:
            self.progress.end()

    def checks(self, sources: Sequence[Source]) -> List[Run]:
        """The checks of logs, in the order of these."""
        program, options = self.question.program, self.question.options
        jobs = [Job(place, ["check", *options], [self.formula.data, one.data]) for place, one in enumerate(sources)]
        pool: Pool[int] = Pool(program, self.jobs)
        ended: Dict[int, Done[int]] = {}
        for done in pool.run(jobs):
            ended[done.key] = done
            self.progress.tell(len(program.runs) + len(ended))
        found = []
        for place, source in enumerate(sources):
            words = words_shown("check", options, [self.formula, source])
            run = with_report(Run(words, ended[place].status, ended[place].output))
            found.append(answered(run, Question(program, self.question.formula, source))._replace(output=b""))
        program.runs += found
        return found


# Words


class Said(NamedTuple):
    """What is said of one skew: a sentence, and the checks that show it."""

    sentence: str
    checks: List[str]


class Sayer:
    """Says what was found, in the unit of the log."""

    def __init__(self, log: Log):
        self.log = log
        self.scale: Scale = log.scale

    def said(self, halving: Halving) -> Said:
        """What was found of one skew."""
        words = {Outcome.DECIDED: self.decided, Outcome.NEVER: self.never, Outcome.UNKNOWN: self.unknown}
        checks = [self.check(number, halving.runs[number]) for number in halving.numbers_shown()]
        return Said(f"{words[halving.outcome()](halving)}.", checks)

    def check(self, number: int, run: Run) -> str:
        """What the check with a number says."""
        return f"  {self.scale.span(number)}: {SAID[run.status]} [{run.words}]"

    def name_of(self, halving: Halving) -> Optional[str]:
        """The host whose skew was tried, None for all."""
        return None if halving.host is None else self.log.hosts[halving.host].name

    def skew(self, halving: Halving) -> str:
        """The skew that was tried."""
        return "all skews" if halving.host is None else f"the skew of {self.name_of(halving)} alone"

    def as_it_is(self, halving: Halving) -> str:
        """How great it is in the log."""
        if halving.host is None:
            return f"(the greatest is {self.scale.span(halving.skews[-1])})"
        ends = dict.fromkeys((halving.skews[0], halving.skews[-1]))
        return f"(it is {' to '.join(self.scale.span(end) for end in ends)})"

    def below(self, halving: Halving) -> str:
        """From which number down the log admits no timing, if from any."""
        least = halving.least()
        return f", and below {self.scale.span(least)} no timing is admissible" if least else ""

    def decided(self, halving: Halving) -> str:
        """That the verdict is decided up to a number."""
        most = self.scale.span(halving.greatest_or(0))
        with_it = f"With {self.skew(halving)} at most {most} {self.as_it_is(halving)}"
        return f"{with_it} it is {halving.verdict()}{self.below(halving)}"

    def never(self, halving: Halving) -> str:
        """That it is decided with no number."""
        if not halving.skews:
            return f"No row is of {self.name_of(halving)}, so that its skew changes nothing"
        if halving.skews[-1] == 0:
            return f"The skew of {self.name_of(halving)} is 0 already"
        with_it = f"ith {self.skew(halving)} at most {self.scale.span(halving.least())} {self.as_it_is(halving)}"
        if halving.least() == 0:
            return f"Not even w{with_it} is it decided"
        return f"W{with_it} it isn't decided yet{self.below(halving)}"

    def unknown(self, halving: Halving) -> str:
        """What is known where it isn't known up to which number the verdict is decided."""
        greatest, either = halving.greatest(), halving.either()
        known, where = [], ""
        if greatest is not None:
            known.append(f"with at most {self.scale.span(greatest)} it is {halving.verdict()}, ")
            where = "above that "
        if either is not None:
            known.append(f"with {self.scale.span(either)} it isn't decided, ")
            where = "between them " if known[1:] else "below that "
        joint = "and " if known else ""
        shown = f"{self.skew(halving)} {self.as_it_is(halving)}" if halving.skews else self.skew(halving)
        left = f"{joint}{where}it wasn't found within the conflicts"
        return f"Unknown for {shown}: {''.join(known)}{left}{self.below(halving)}"

    def facts(self, halving: Halving) -> Dict[str, Any]:
        """The same for programs."""
        return {
            "host": self.name_of(halving),
            "skew": max(halving.skews, default=0), "answer": halving.outcome().value, "greatest": halving.greatest(),
            "verdict": halving.verdict(), "either_at": halving.either(), "least": halving.least(),
            "statuses": {str(number): halving.runs[number].status for number in halving.numbers_shown()},
            "sentence": self.said(halving).sentence,
        }


# The answer


def decide_answer(question: Question, most: Optional[int], arguments: argparse.Namespace) -> Answer:
    """With which smaller skews the verdict is decided, or that it is with those that there are.

    Then it is asked by how much these may be greater, up to a number that is stated, or up to the greatest skew, since
    with wide skews that may take long.
    """
    program = question.program
    log = log_with_rows(program, question.log_source)
    first = answered(question.check(named_text(question.formula)), question)
    deciding = Deciding(question, log, first)
    if first.status == NO_TIMING:
        answer = deciding.contradiction()
    else:
        is_decided = first.status in (TRUE, FALSE)
        widest = max(1, *(row.skew for row in log.rows)) if most is None else most
        answer = deciding.already(widest) if is_decided else deciding.found(arguments.keep, arguments.jobs or cores())
        tree, values = accepted_tree(question.formula), values_of_status(first.status)
        with_cautions(answer, cautions_wanted(arguments, question, log, tree, values), arguments)
    answer.facts.update(unit_facts(log.scale), runs=run_facts(program.runs))
    if arguments.runs:
        answer.lines += run_lines(program.runs)
    return answer


def named_text(formula: Source) -> Optional[str]:
    """The text by which runs name a formula that stands in the words themselves."""
    return " ".join(text_of_source(formula).split()) if formula.name == TYPED else None


def shown_source(formula: Source) -> Source:
    """A formula with the name that runs give it."""
    text = named_text(formula)
    return formula if text is None else Source(f"'{text}'", formula.data)


def kept_formula(formula: Source, folder: str) -> Source:
    """The formula of the program in a folder that is made for it and for logs, or is empty."""
    make_empty_folder(Path(folder), "--keep")
    name = str(Path(folder, "formula"))
    write_text(name, text_of_source(formula))
    return Source(name, formula.data)


def keeping_words(folder: Optional[str]) -> str:
    """Where the logs of the checks are."""
    if folder is None:
        return "--keep FOLDER keeps the formula and these logs, with which each check can be repeated."
    return f"The formula and the log of each check are in {folder}."


class Deciding:
    """A formula and a log as they are, with the check of them, and what is said of smaller skews."""

    def __init__(self, question: Question, log: Log, first: Run):
        self.question, self.log, self.first = question, log, first
        self.formula, self.name = shown_formula(question.formula), question.log_source.name
        self.facts: Dict[str, Any] = {"verdict": VERDICTS[first.status], "lines": [], "warnings": []}

    def answer(self, status: int, sentence: str, lines: Sequence[str]) -> Answer:
        """An answer that begins with a sentence."""
        self.facts["sentence"] = sentence
        return Answer(status, [bold(sentence), *lines], self.facts)

    def contradiction(self) -> Answer:
        """The answer of a log that admits no timing with the skews as they are, nor with smaller ones."""
        walk = report_of_run(self.first).walk or []
        self.facts["contradiction"] = walk_facts(self.log, walk)
        return self.answer(NO_TIMING, no_timing_words(self.name), walk_words(self.log, walk))

    def already(self, most: int) -> Answer:
        """The answer where the verdict is decided as it is: how much greater skews may be, as `tolerance` says."""
        value, other = VERDICTS[self.first.status], VERDICTS[1 - self.first.status]
        sentence = (
            f"{value.capitalize()} already: {self.formula} is {value} by every timing that {self.name} admits, so that no "
            f"skew has to be smaller."
        )
        return self.answer(0, sentence, [self.wider(other, most)])

    def wider(self, other: str, most: int) -> str:
        """By how much all skews have to be greater for the other value to be possible."""
        formula = shown_source(self.question.formula)
        words = [*self.question.options, other, str(most)]
        self.facts.update(wider=None, wider_status=STOPPED, most=most)
        try:
            run = self.question.program.run("tolerance", [formula, self.question.log_source], words)
        except Stopped:
            return "How much greater skews may be wasn't found in time; a smaller --up-to takes less."
        self.facts["wider_status"] = run.status
        if run.line().startswith(TOO_LARGE):
            return f"With much greater skews it is too large to ask; a smaller --up-to may do. [{run.words}]"
        least = best_of_run(run, self.question, self.log, other).number
        if run.status == NO_TIMING:
            raise unreadable("answer", run)
        self.facts["wider"] = least
        return f"{self.wider_words(run.status, other, least or 0, most)} [{run.words}]"

    def wider_words(self, status: int, other: str, least: int, most: int) -> str:
        """The same in a sentence, by the status of `tolerance`."""
        span = self.log.scale.span
        less = "as they are" if least == 1 else f"where they are {span(least - 1)} greater"
        return {
            0: f"It can be {other} where all skews are {span(least)} greater, and not {less}.",
            1: f"Even with all skews {most_words(self.log.scale, most)} greater it can't be {other}.",
            4: f"How much greater skews have to be for it to be {other} wasn't found within the conflicts.",
        }[status]

    def found(self, folder: Optional[str], jobs: int) -> Answer:
        """The answer where smaller skews are tried, so many runs at a time, of logs that a folder may keep."""
        formula = shown_source(self.question.formula) if folder is None else kept_formula(self.question.formula, folder)
        halvings = halvings_of(self.log, self.first)
        Asking(self.question, Narrower(self.question.log_source, self.log, folder), formula, jobs).settle(halvings)
        sayer = Sayer(self.log)
        lines: List[str] = []
        for halving in halvings:
            said = sayer.said(halving)
            lines += [said.sentence, *said.checks]
        lines += [*[CLOCKS_STAY] * bool(self.log.clocks), keeping_words(folder)]
        self.facts["lines"] = [sayer.facts(halving) for halving in halvings]
        self.facts.update({} if folder is None else {"folder": folder})
        outcomes = {halving.outcome() for halving in halvings}
        status = UNKNOWN if Outcome.UNKNOWN in outcomes else 0 if Outcome.DECIDED in outcomes else 1
        return self.answer(status, self.sentence_of_all(status), lines)

    def sentence_of_all(self, status: int) -> str:
        """What was found of all skews, by the status of the answer."""
        return {
            0: f"{self.formula} is decided where skews of {self.name} are smaller, and not as they are.",
            1: f"Never: with no smaller skew of one host alone, nor with all of them smaller, does {self.name} decide "
               f"{self.formula}.",
            UNKNOWN: f"Unknown: how small each skew has to be for {self.name} to decide {self.formula} wasn't found within "
                     f"the conflicts.",
        }[status]
