"""Warnings: what makes a verdict say less than whoever asked may think."""

from __future__ import annotations

import argparse
from typing import Any, Dict, Iterator, List, NamedTuple, Optional, Sequence, Tuple

from ask.ends import OutOfTime
from ask.formulas import Tree, beyond_the_end, parts_written, propositions, subtrees, text_of
from ask.logs import Log
from ask.program import Run, Stopped
from ask.question import VERDICTS, Question, text_of_source
from ask.texts import Source, place_of
from ask.words import Answer, lines_words, listed, shortened, yellow
from ask.written import place_written

MOST_PARTS = 4000  # of a formula that is made of another one
BY_THE_LOG = ("unset", "no-proposition")  # the kinds that are told without a run
KINDS = (*BY_THE_LOG, "never", "end", "unasked")
WARNED = 65  # the status where --strict makes an error of a warning


class Caution(NamedTuple):
    """A warning: its kind, its sentence, and the run that shows it, where one does."""

    kind: str
    sentence: str
    run: Optional[str] = None


def add_strict_words(words: argparse.ArgumentParser) -> None:
    """Adds the options that make an error of a warning."""
    words.add_argument("--strict", action="store_true", help="end with 65 where there is a warning")
    words.add_argument(
        "--strict-for", action="append", choices=KINDS, default=[], help="the same for one kind of warning",
    )


def strict_status(arguments: argparse.Namespace, cautions: Sequence[Caution], status: int) -> int:
    """The status of an answer, or that of a warning which the words make an error of."""
    is_warned = any(arguments.strict or caution.kind in arguments.strict_for for caution in cautions)
    return WARNED if is_warned else status


def wants_runs(arguments: argparse.Namespace) -> bool:
    """Whether the words make an error of a warning that only a run of the program can tell."""
    return bool(arguments.strict or set(arguments.strict_for) - set(BY_THE_LOG))


def caution_facts(cautions: Sequence[Caution]) -> List[Dict[str, Any]]:
    """The warnings for programs."""
    return [caution._asdict() for caution in cautions]


def caution_lines(cautions: Sequence[Caution]) -> List[str]:
    """A line for each warning."""
    runs = [f" [{caution.run}]" if caution.run else "" for caution in cautions]
    return [yellow(f"Warning ({c.kind}): {c.sentence}.{run}") for c, run in zip(cautions, runs)]


def with_cautions(answer: Answer, cautions: Sequence[Caution], arguments: argparse.Namespace) -> Answer:
    """An answer with its warnings right below the sentence that it begins with, and the status that they give it."""
    answer.lines[1:1] = caution_lines(cautions)
    answer.facts["warnings"] = caution_facts(cautions)
    answer.status = strict_status(arguments, cautions, answer.status)
    return answer


def cautions_of_names(question: Question, log: Log, tree: Tree) -> Iterator[Caution]:
    """The propositions that no row sets or pulses, and that `check` finds to be false throughout.

    Of a log that admits no timing, as one whose skews `tolerance` widens may be, it is said by the log alone.
    """
    for host, part in never_set(log, tree):
        run = run_of(question, f"F {text_of(part)}")
        if run and run.status == 3:
            yield caution_of_name(question.formula, log, host, part)
        elif run is None or run.status != 1:
            yield unasked(f"whether {text_of(part)} is ever true", run)
        else:
            yield caution_of_name(question.formula, log, host, part, run.words)


def cautions_without_runs(formula: Source, log: Log, tree: Optional[Tree]) -> List[Caution]:
    """The propositions that no row sets or pulses by the log alone; `?` may stand for numbers of the formula."""
    return [caution_of_name(formula, log, host, part) for host, part in never_set(log, tree)] if tree else []


def never_set(log: Log, tree: Tree) -> Iterator[Tuple[int, Tree]]:
    """The propositions that no row sets or pulses, each with the number of its host."""
    for part in propositions(tree):
        host = log.host_numbered(part.host)
        if host is not None and part.name not in log.set_names(host):
            yield host, part


def caution_of_name(formula: Source, log: Log, host: int, part: Tree, run: Optional[str] = None) -> Caution:
    """The warning of a proposition that no row sets or pulses."""
    written, start = place_written(formula, len(text_of_source(formula)[: part.start].encode()))
    name, place = part.name, place_of(written.data, start)
    where = f"{text_of(part)} (line {place.line}, column {place.column})"
    others = [
        event for event, row in enumerate(log.rows) if row.name == name and row.kind in ("note", "send", "recv")
    ]
    if others:
        what = "note" if log.rows[others[0]].kind == "note" else "message"
        return Caution("no-proposition", (
            f"{where} is false throughout: {name} is the name of a {what} ({lines_words(log, others)}), "
            f"and only rows of the kinds set, clear and pulse make propositions"
        ), run)
    names = log.set_names(host)
    named = log.hosts[host].name
    verb, verbs = ("set", "sets") if log.version == 1 else ("set or pulse", "sets or pulses")
    has = f"Rows of {named} {verb} {listed(names)}" if names else f"No row of {named} {verbs} anything"
    return Caution("unset", f"{where} is false throughout: no row {verbs} it. {has}", run)


def cautions_of_implications(question: Question, tree: Tree) -> Iterator[Caution]:
    """The implications whose left side is never true, as `check` of it shows."""
    implications = {text_of(part.parts[0]): text_of(part) for part in subtrees(tree) if part.form == "->"}
    for left, whole in implications.items():
        run = run_of(question, f"F ({left})")
        if run is None or run.status not in VERDICTS or b"\ntrue unknown " in run.output:
            yield unasked(f"whether {shortened(left, 120)} is ever true", run)
        elif run.status == 1:
            what = f"{shortened(left, 120)} is never true by any timing"
            yield Caution("never", f"{what}, so {shortened(whole, 120)} is true for nothing", run.words)


def run_of(question: Question, text: str) -> Optional[Run]:
    """The check of a text, or None where it took too long."""
    try:
        return question.check(text)
    except Stopped:
        return None


def unasked(what: str, run: Optional[Run]) -> Caution:
    """The warning that something couldn't be found out."""
    why = "that run was stopped"
    if run is not None:
        why = "it wasn't found within the conflicts" if run.status in VERDICTS else f"the program says {run.line()!r}"
    return Caution("unasked", f"{what} isn't known: {why}", run.words if run else None)


def unasked_in_time() -> Caution:
    """The warning that the time was over before all warnings were asked for."""
    return Caution("unasked", "whether the formula is true for nothing isn't known: that was stopped")


def wanting_words(word: str) -> str:
    """What is asked of a value that the formula may have only since no rows come after the last one."""
    return f"whether the formula is {word} only for want of rows after the last one"


def caution_of_the_end(word: str, line: int, run: Optional[str]) -> Caution:
    """The warning that the formula has a value only since no rows come after the last one, at a line."""
    return Caution("end", (
        f"the formula is {word} only for want of rows after the last one (line {line}): an F, G or U looks beyond it, and "
        f"if what comes there counted for the other value, the formula couldn't be {word}. Later rows might change it"
    ), run)


def cautions_of_the_end(question: Question, log: Log, tree: Tree, values: Sequence[bool]) -> Iterator[Caution]:
    """Of the values that the formula has those that it has only since no rows come after the last one."""
    for value in values:
        status_of_other = 1 if value else 0
        word = str(value).lower()
        changed = beyond_the_end(tree, wanted=not value)
        if parts_written(changed) > MOST_PARTS:
            yield Caution("unasked", f"{wanting_words(word)} isn't known: the formula that asks it is too long")
            continue
        text = text_of(changed)
        if text == text_of(tree):
            continue
        run = run_of(question, text)
        if run is None or run.status not in VERDICTS or f"\n{word} unknown ".encode() in run.output:
            yield unasked(wanting_words(word), run)
        elif run.status == status_of_other:
            yield caution_of_the_end(word, log.rows[-1].line, run.words)


def cautions_of(question: Question, log: Log, tree: Tree, values: Sequence[bool]) -> List[Caution]:
    """All warnings of a formula that has these values on a log."""
    return [
        *cautions_of_names(question, log, tree),
        *cautions_of_implications(question, tree),
        *cautions_of_the_end(question, log, tree, values),
    ]


def cautions_wanted(
    arguments: argparse.Namespace, question: Question, log: Log, tree: Optional[Tree], values: Sequence[bool],
) -> List[Caution]:
    """The warnings by the log alone, or all of them where the words make an error of one that wants a run."""
    if tree and wants_runs(arguments):
        return cautions_in_time(question, log, tree, values)
    return cautions_without_runs(question.formula, log, tree)


def cautions_in_time(question: Question, log: Log, tree: Tree, values: Sequence[bool]) -> List[Caution]:
    """All warnings, as far as there is time to find them."""
    try:
        return cautions_of(question, log, tree, values)
    except (Stopped, OutOfTime):
        question.program.begin_telling()
        return [*cautions_without_runs(question.formula, log, tree), unasked_in_time()]


def values_of_status(status: int) -> List[bool]:
    """The values that a formula has by the status of `check`, where it tells both."""
    return {0: [True], 1: [False], 2: [False, True]}.get(status, [])
