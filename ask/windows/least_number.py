"""The least or the greatest number in place of `?` with which windows can't be false, in about one pass over them.

A window is asked with the number that all windows before it need. Where that isn't enough for it, what it needs is
found by halving, in its slice alone, and is asked of the windows behind it from there on. So with slices in any order
few of them are halved.
"""

from __future__ import annotations

import random
from typing import Callable, List, NamedTuple, Optional, Sequence

from ask.windows.asking import Findings, Setting, Whole
from ask.windows.cuts import Slice
from ask.windows.shape import Shape

SEED = 1


class Undecided(Exception):
    """With a number windows didn't tell whether the formula can fail."""

    def __init__(self, number: int):
        super().__init__(number)
        self.number = number


class Edge(NamedTuple):
    """The last number that will do, and the first one beyond that won't; None where there is none."""

    met: Optional[int]
    failed: Optional[int]


class Numbers:
    """Asks the slices of a long log with numbers in place of `?`."""

    def __init__(self, whole: Whole, setting: Setting, shape_at: Callable[[int], Shape], rises: bool):
        self.whole, self.setting, self.shape_at, self.rises = whole, setting, shape_at, rises
        self.failed: Optional[int] = None  # of the numbers that won't do the one nearest to those that will, as far as is known

    def edge(self, least: int, most: int) -> Edge:
        """The number beside which others don't do, among those from least to most."""
        self.whole.take_shape(self.shape_at(least))
        slices = self.whole.slices(self.setting)
        random.Random(SEED).shuffle(slices)
        if self.rises:
            return self.swept(slices, least, most, least)
        number = self.first_failing(slices, least, most)
        if number is None:
            return Edge(most, None)
        return Edge(None, least) if number == least else self.swept(slices, least, most, number)

    def swept(self, slices: Sequence[Slice], least: int, most: int, number: int) -> Edge:
        """The edge by one pass over slices, with a number to begin with."""
        failed: Optional[int] = None
        left = list(slices)
        while True:
            failing, left = self.first_of(left, number)
            if failing is None:
                return Edge(number, failed)
            found = self.edge_of(failing, least, most, number)
            if found.met is None:
                return found
            number, failed = found.met, found.failed

    def first_of(self, slices: List[Slice], number: int) -> "tuple[Optional[Slice], List[Slice]]":
        """A slice that fails with a number, with those that may fail with a number that it needs; else None."""
        self.whole.take_shape(self.shape_at(number))
        findings = Findings(self.whole, self.setting)
        findings.ask(slices, lambda found: found.failing is not None)
        if findings.failing is None:
            if findings.can_fail() is None:
                raise Undecided(number)
            return None, []
        assert findings.failing_said
        known = number if self.failed is None else self.failed
        self.failed = max(known, number) if self.rises else min(known, number)
        place = findings.failing_said.part
        done = {said.part for said in findings.answers if said.can_fail is False}
        failing = next(part for part in slices if part.first <= place.first and place.last <= part.last)
        return failing, [part for part in slices if part not in done]

    def fails(self, part: Slice, number: int) -> bool:
        """Whether a slice fails with a number."""
        return self.first_of([part], number)[0] is not None

    def edge_of(self, part: Slice, least: int, most: int, number: int) -> Edge:
        """The edge of a slice that fails with a number: nothing is met where all numbers fail."""
        step, failed = 1, number
        while True:
            tried = min(most, failed + step) if self.rises else max(least, failed - step)
            if tried == failed:
                return Edge(None, failed)
            if not self.fails(part, tried):
                return self.halved(part, tried, failed)
            failed, step = tried, step * 2

    def halved(self, part: Slice, met: int, failed: int) -> Edge:
        """The edge of a slice between a number that is met and one that isn't."""
        while abs(met - failed) > 1:
            middle = (met + failed) // 2
            if self.fails(part, middle):
                failed = middle
            else:
                met = middle
        return Edge(met, failed)

    def first_failing(self, slices: List[Slice], least: int, most: int) -> Optional[int]:
        """A number that isn't met, of numbers that grow fast; None where all are met."""
        number, step = least, 1
        while self.first_of(slices, number)[0] is None:
            if number == most:
                return None
            number, step = min(most, number + step), step * 2
        return number
