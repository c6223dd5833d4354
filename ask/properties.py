"""Files of properties: named formulas, a line each, that are asked of one log as a suite of tests is."""

from __future__ import annotations

import argparse
import functools
import re
import time
from collections import Counter
from typing import Any, Dict, List, NamedTuple, Optional, Sequence

from ask.cautions import caution_facts, strict_status
from ask.encoding import refuse_marks
from ask.junit import Case, write_junit
from ask.lines import Line, Table, table_of, walk_of
from ask.macros import formulas_answer, written_out
from ask.program import STOPPED, program_of
from ask.question import REFUSED, log_source, run_facts, run_lines
from ask.refusals import WRONG_FORMULA
from ask.texts import TOO_LONG, Source, Trouble, line_starts, read_source, shown_text
from ask.units import unit_facts
from ask.words import USAGE, Answer, bold, counted, no_timing_words, shortened, table, walk_facts, walk_words
from ask.written import part_of

LEAST_REFUSAL = 64
OF_FORMULAS = (WRONG_FORMULA, TOO_LONG)  # the statuses of refusals that are of one formula
ORDER = (3, 1, 2, 4, 0)  # of answers: the first that a property has is the status of the whole, unless one is refused
SHOWN = {0: "holds", 1: "fails", 2: "either", 3: "no timing", 4: "unknown", STOPPED: "stopped"}
REFUSAL = "refused"
NAME = re.compile(r"\w[\w .,/'+-]{0,199}")
FOR_ONE = {"report": "--report", "keep": "--keep", "as_found": "--as-found", "all": "--all"}


class Property(NamedTuple):
    """A property: its name, its formula as it is written, and its line of the file."""

    name: str
    formula: Source
    line: int


class Finding(NamedTuple):
    """What was found of a property: the line of the table or the trouble that its refusal is, and how long it took."""

    wanted: Property
    line: Optional[Line]
    refusal: Optional[Trouble]
    seconds: float

    def status(self) -> int:
        """The status of `check`, or that of the refusal."""
        return self.line.status if self.line else self.refusal.status if self.refusal else 0

    def verdict(self) -> str:
        """It in a word."""
        return SHOWN[self.line.status] if self.line else REFUSAL

    def sentence(self) -> str:
        """It in a sentence: the answer, or why there is none."""
        return self.line.sentence if self.line else self.refusal.message if self.refusal else ""

    def warnings(self) -> List[str]:
        """The warnings, a sentence each."""
        return [warning.sentence for warning in self.line.warnings] if self.line else []

    def facts(self) -> Dict[str, Any]:
        """It for programs."""
        return {
            "name": self.wanted.name, "line": self.wanted.line, "formula": text_of(self.wanted), "status": self.status(),
            "verdict": self.verdict(), "sentence": self.sentence(),
            "warnings": caution_facts(self.line.warnings if self.line else ()),
        }


class NameProperties(argparse.Action):
    """Takes the file of properties, with which the one further word is the log, though it is taken for the formula."""

    def __init__(self, formula: argparse.Action, log: argparse.Action, **named: Any):
        super().__init__(**named)
        self.formula, self.log = formula, log

    def __call__(self, parser: Any, namespace: argparse.Namespace, values: Any, option: Optional[str] = None) -> None:
        setattr(namespace, self.dest, values)
        self.formula.metavar, self.log.required = self.log.metavar, False


def add_properties_words(words: argparse.ArgumentParser, formula: argparse.Action, log: argparse.Action) -> None:
    """Adds the options on files of properties to a command of a formula and a log."""
    words.add_argument(
        "--properties", metavar="FILE", action=functools.partial(NameProperties, formula, log),
        help="check all formulas of a file, a line `NAME: FORMULA` each, in place of FORMULA: `check --properties FILE LOG`",
    )
    words.add_argument("--junit", metavar="FILE", help="with --properties, write them as tests in JUnit XML too")


def text_of(wanted: Property) -> str:
    """The formula of a property as text."""
    return " ".join(wanted.formula.data.decode("utf-8", "replace").split())


# Files


def read_properties(name: str) -> List[Property]:
    """The properties of a file."""
    source = refuse_marks(read_source(name), REFUSED)
    found: Dict[str, Property] = {}
    starts = line_starts(source.data)
    for number, (start, end) in enumerate(zip(starts, [*starts[1:], len(source.data)]), start=1):
        text = source.data[start:end].partition(b"#")[0]
        if text.strip():
            wanted = property_of(source, number, start, text)
            if wanted.name in found:
                raise wrong_line(source, number, f"{wanted.name} is the name of line {found[wanted.name].line} too")
            found[wanted.name] = wanted
    if not found:
        raise Trouble(REFUSED, f"{source.name} has no property: it has lines NAME: FORMULA")
    return list(found.values())


def property_of(source: Source, number: int, start: int, line: bytes) -> Property:
    """The property of a line without its comment, from a byte of the file on."""
    before, colon, formula = line.partition(b":")
    name = before.decode("utf-8", "replace").strip()
    if not colon or not NAME.fullmatch(name):
        shown = shortened(shown_text(name.encode()))
        raise wrong_line(source, number, (
            f"a line is NAME: FORMULA, and {shown!r} is no name: it begins with a letter or digit, and has letters, "
            f"digits, blanks and _ . , / ' + - in it, 200 at most"
        ))
    if not formula.strip():
        raise wrong_line(source, number, f"{name} has no formula behind its colon")
    blanks = len(formula) - len(formula.lstrip())
    return Property(name, part_of(source, start + len(before) + 1 + blanks, formula.strip()), number)


def wrong_line(source: Source, number: int, why: str) -> Trouble:
    """The trouble that a line of a file of properties is none."""
    return Trouble(REFUSED, f"{source.name}, line {number}: {why}")


# Answers


def properties_answer(arguments: argparse.Namespace, options: Sequence[str]) -> Answer:
    """The answer to all properties of a file."""
    log = log_named(arguments)
    properties = read_properties(arguments.properties)
    source = log_source(log, arguments.unit, "long log")
    if arguments.formula_alone:
        return formulas_answer({one.name: written_out(one.formula, source) for one in properties}, is_named=True)
    asked = table_of(program_of(arguments), source, options, arguments)
    findings = [found(one, asked) for one in properties]
    answer = Suite(arguments, asked, findings).answer()
    if arguments.junit is not None:
        write_junit(arguments.junit, arguments.properties, source.name, [case_of(one, arguments) for one in findings])
    return answer


def log_named(arguments: argparse.Namespace) -> str:
    """The log that the words name, which have no formula beside the file of properties."""
    if arguments.log is not None:
        raise Trouble(USAGE, "--properties names the formulas: beside it stands the log alone")
    odd = next((option for key, option in FOR_ONE.items() if getattr(arguments, key)), None)
    if odd:
        raise Trouble(USAGE, f"{odd} is for one formula, and --properties names a file of them")
    if arguments.junit == "-":
        raise Trouble(USAGE, "--junit names a file, since the standard output has the answer")
    return str(arguments.formula)


def found(wanted: Property, asked: Table) -> Finding:
    """What a log says of a property."""
    began = time.monotonic()
    line, refusal = None, None
    try:
        line = asked.line(wanted.name, written_out(wanted.formula, asked.source), text_of(wanted))
    except Trouble as trouble:
        if trouble.status not in OF_FORMULAS:
            raise
        refusal = trouble
    return Finding(wanted, line, refusal, time.monotonic() - began)


def status_of(findings: Sequence[Finding]) -> int:
    """The status of the whole, as that of many logs: the greatest refusal, else the first of the answers in their order."""
    statuses = {one.status() for one in findings}
    refused = [status for status in statuses if status >= LEAST_REFUSAL]
    return max(refused) if refused else next(status for status in ORDER if status in statuses)


class Suite:
    """What was found of all properties, and what is said of it."""

    def __init__(self, arguments: argparse.Namespace, asked: Table, findings: Sequence[Finding]):
        self.arguments, self.asked, self.findings = arguments, asked, findings

    def answer(self) -> Answer:
        """The table, and below it why properties don't hold."""
        runs = self.asked.program.runs
        warnings = [warning for one in self.findings if one.line for warning in one.line.warnings]
        lines = [*self.contradiction(), *self.table(), bold(self.counts_words()), *self.reasons()]
        lines += [f"Warning: {one.wanted.name}: {warning}." for one in self.findings for warning in one.warnings()]
        lines += run_lines(runs) if self.arguments.runs else []
        return Answer(strict_status(self.arguments, warnings, status_of(self.findings)), lines, self.facts())

    def facts(self) -> Dict[str, Any]:
        """The same for programs."""
        log, walk = self.asked.log(), walk_of(self.lines())
        facts: Dict[str, Any] = {
            "properties": self.arguments.properties, "log": self.asked.source.name, "sentence": self.counts_words(),
            "lines": [one.facts() for one in self.findings], "counts": dict(self.counts()),
        }
        if walk is not None:
            facts["contradiction"] = walk_facts(log, walk)
        return {**facts, **unit_facts(log.scale), "runs": run_facts(self.asked.program.runs)}

    def lines(self) -> List[Line]:
        """The lines of the properties that have an answer."""
        return [one.line for one in self.findings if one.line]

    def contradiction(self) -> List[str]:
        """The bounds that contradict each other, where they do."""
        walk = walk_of(self.lines())
        name = self.asked.source.name
        return [] if walk is None else [bold(no_timing_words(name)), *walk_words(self.asked.log(), walk), ""]

    def table(self) -> List[str]:
        """A line for each property."""
        rows = [[one.wanted.name, one.verdict(), str(one.status()), text_of(one.wanted)] for one in self.findings]
        return table(["property", "verdict", "status", "formula"], rows, left=(0, 1, 3))

    def counts(self) -> "Counter[str]":
        """How often each verdict is there, in the order of the table's statuses."""
        verdicts = [one.verdict() for one in sorted(self.findings, key=Finding.status)]
        return Counter(verdicts)

    def counts_words(self) -> str:
        """The same in a sentence."""
        counts = ", ".join(f"{count} {verdict}" for verdict, count in self.counts().items())
        return f"{counted(len(self.findings), 'property', 'properties')}: {counts}."

    def reasons(self) -> List[str]:
        """Why each property is refused that is; what it is otherwise is in the table."""
        return [f"Refused: {one.wanted.name}: {one.sentence()}" for one in self.findings if one.refusal]


def case_of(one: Finding, arguments: argparse.Namespace) -> Case:
    """A property as a test: it passes, fails, or ends with an error, where nothing tells whether it holds."""
    kinds = {0: "", 1: "failure", 2: "failure"}
    warnings = one.line.warnings if one.line else ()
    is_warned = strict_status(arguments, warnings, 0) != 0
    kind, verdict = kinds.get(one.status(), "error"), one.verdict()
    if not kind and is_warned:
        kind, verdict = "error", "warning"
    return Case(one.wanted.name, one.seconds, kind, verdict, one.sentence(), one.warnings())
