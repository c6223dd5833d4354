"""Warnings on a formula and a long log: what makes the verdict of its windows say less than it seems to."""

from __future__ import annotations

from typing import Iterator, List, Union

from ask.cautions import MOST_PARTS, Caution, caution_of_the_end, cautions_without_runs, run_of, unasked, wanting_words
from ask.formulas import beyond_the_end, made, parts_written, subtrees, text_of
from ask.program import Run, Stopped
from ask.question import VERDICTS, accepted_tree
from ask.texts import Trouble
from ask.words import shortened
from ask.windows.asking import Findings, Said, Setting, Whole
from ask.windows.opening import LongQuestion
from ask.windows.shape import Shape, shape_of
from ask.windows.shown import ShownWindow
from ask.windows.timings import truth_of
from ask.windows.verdict import Verdict

MOST_AT_THE_END = 8  # windows at the end of the log that are asked about it


def cautions_of_long_log(asked: LongQuestion, whole: Whole, setting: Setting, verdict: Verdict) -> List[Caution]:
    """All warnings of a verdict of windows."""
    return [
        *cautions_without_runs(asked.formula, asked.log, asked.tree),
        *cautions_of_implications(asked, whole, setting),
        *cautions_of_the_end(asked, whole, verdict),
    ]


def cautions_of_implications(asked: LongQuestion, whole: Whole, setting: Setting) -> Iterator[Caution]:
    """The implications whose left side is never true; most are in one timing, and windows tell of the others."""
    implications = {text_of(part.parts[0]): part for part in subtrees(asked.tree) if part.form == "->"}
    near = whole.near()
    for left, implication in implications.items():
        try:
            shape = shape_of(made("F", implication.parts[0]))
        except Trouble:
            yield Caution("unasked", f"whether {shortened(left, 120)} is ever true isn't known: windows can't answer it")
            continue
        if 0 in truth_of(asked.log, shape, near).values:
            continue
        possible = can_be_true(whole, shape, setting)
        if possible is None:
            yield Caution("unasked", f"whether {shortened(left, 120)} is ever true isn't known: windows didn't tell")
        elif not possible:
            what = f"{shortened(left, 120)} is never true by any timing"
            so = f"so {shortened(text_of(implication), 120)} is true for nothing"
            yield Caution("never", f"{what}, {so}", f"check of windows of 'F ({shortened(left, 120)})'")


def can_be_true(whole: Whole, shape: Shape, setting: Setting) -> "bool | None":
    """Whether a formula `F psi` is true by some timing, as windows tell it."""
    before = whole.shape
    try:
        whole.take_shape(shape)
        findings = Findings(whole, setting)
        findings.ask(whole.slices(setting), lambda found: found.failing is not None)
        return findings.can_fail()
    except Stopped:
        return None
    finally:
        whole.take_shape(before)


def cautions_of_the_end(asked: LongQuestion, whole: Whole, verdict: Verdict) -> Iterator[Caution]:
    """The value that the formula has only in windows at the end of the log, and there for want of later rows."""
    may = [said for said in verdict.findings.answers if said.can_fail]
    value = whole.shape.is_dual  # the value that one window gives the whole
    if not verdict.can_be[value] or not may or not all(is_at_end(whole, said) for said in may):
        return
    word = str(value).lower()
    told: List[Union[Run, Caution]] = []
    for said in may[:MOST_AT_THE_END]:
        found = told_of_the_end(ShownWindow(asked, whole.window(said.part, said.ranges)), value)
        if found is None:
            return
        told.append(found)
    if len(may) > MOST_AT_THE_END:
        told.append(Caution("unasked", f"{wanting_words(word)} isn't known: that would take more than {MOST_AT_THE_END} windows"))
    run = told[0].words if isinstance(told[0], Run) else None
    unknown = next((one for one in told if isinstance(one, Caution)), None)
    yield unknown or caution_of_the_end(word, asked.log.rows.line[-1], run)


def told_of_the_end(shown: ShownWindow, value: bool) -> Union[Run, Caution, None]:
    """The run by which a window has a value only for want of later rows, or that it isn't known; None where it isn't so."""
    word, tree = str(value).lower(), accepted_tree(shown.question.formula)
    changed = beyond_the_end(tree, wanted=not value)
    if parts_written(changed) > MOST_PARTS:
        return Caution("unasked", f"{wanting_words(word)} isn't known: the formula that asks it is too long")
    if text_of(changed) == text_of(tree):
        return None
    run = run_of(shown.question, text_of(changed))
    if run is None or run.status not in VERDICTS or f"\n{word} unknown ".encode() in run.output:
        return unasked(wanting_words(word), run)
    return run if run.status == (1 if value else 0) else None


def is_at_end(whole: Whole, said: Said) -> bool:
    """Whether a window has all rows that can be behind it."""
    return all(end == len(events) for (_, end), events in zip(said.ranges, whole.log.of))
