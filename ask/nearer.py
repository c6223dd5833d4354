"""Brings a timing nearer to the stamps: a shift stays only where the value needs it, as `replay` says."""

from __future__ import annotations

from typing import List, NamedTuple, Sequence, Set

from ask.ends import OutOfTime
from ask.logs import Log
from ask.program import Stopped
from ask.question import Question, text_of_source

MOST_RUNS = 300  # of replay for one timing
MOST_OFFSETS = 8  # that are tried of one clock
LEFT = "shifts may be left that nothing needs"


class Nearer(NamedTuple):
    """A timing that was brought nearer to the stamps, and a sentence where that didn't come to its end."""

    times: List[int]
    remark: str = ""


def brought_nearer(question: Question, log: Log, times: Sequence[int], value: bool) -> Nearer:
    """A timing with the value in which no row that is shifted and reads no clock can go back to its stamp by itself.

    Groups of shifts are taken back, all at first and then halves of what is left, and what `replay` says of the
    timing decides whether they stay so. As long as that takes any back, it is done once more with those that are
    left, since what one row needed may be gone with another. Rows that read one clock go back together, and where they
    can't, they are put by one offset, as near to their stamps as the value allows.
    """
    search = Search(question, log.stamps(), list(times), value)
    clocks = log.clock_rows()
    try:
        search.takes_back_each(clocks)
        while search.takes_back(range(len(times))):
            pass
        for rows in clocks:
            search.steadies(rows)
        reading = {event for rows in clocks for event in rows}
        while reading and search.takes_back([event for event in range(len(times)) if event not in reading]):
            pass
    except OutOfRuns:
        return Nearer(search.times, f"bringing it nearer to the stamps was ended after {MOST_RUNS} runs: {LEFT}")
    except (Stopped, OutOfTime):
        question.program.begin_telling()
        return Nearer(search.times, f"bringing it nearer to the stamps was ended, since it took too long: {LEFT}")
    return Nearer(search.times)


class OutOfRuns(Exception):
    """The runs for one timing are spent."""


class Search:
    """A timing whose shifts are taken back one group after another."""

    def __init__(self, question: Question, stamps: Sequence[int], times: List[int], value: bool):
        self.question, self.stamps, self.times = question, stamps, times
        self.text = text_of_source(question.formula)
        self.wanted = 0 if value else 1
        self.runs = 0

    def takes_back(self, rows: Sequence[int]) -> bool:
        """Takes back what it can of all shifts of rows, then of halves and so on; whether it took back some and left some."""
        shifted = [event for event in rows if self.times[event] != self.stamps[event]]
        before, size = len(shifted), len(shifted)
        while shifted and size:
            groups = [shifted[start : start + size] for start in range(0, len(shifted), size)]
            shifted = [event for group in groups if not self.is_taken_back(group) for event in group]
            size //= 2
        return 0 < len(shifted) < before

    def takes_back_each(self, groups: Sequence[Sequence[int]]) -> None:
        """Takes back whole groups of shifts, one after another."""
        for group in groups:
            if self.shifts(group) != {0}:
                self.is_taken_back(group)

    def steadies(self, rows: Sequence[int]) -> None:
        """Puts rows by one offset, a shift of one of them, and then by the one nearest to 0 that halving finds."""
        shifts = sorted(self.shifts(rows), key=abs)
        if shifts == [0]:
            return
        far = next((shift for shift in shifts[:MOST_OFFSETS] if len(shifts) == 1 or self.is_put(rows, shift)), None)
        near = 0
        while far is not None and abs(far - near) > 1:
            middle = (near + far) // 2
            near, far = (near, middle) if self.is_put(rows, middle) else (middle, far)

    def shifts(self, rows: Sequence[int]) -> Set[int]:
        """The different amounts by which rows are shifted."""
        return {self.times[event] - self.stamps[event] for event in rows}

    def is_taken_back(self, group: Sequence[int]) -> bool:
        """Takes back the shifts of rows where the timing keeps its value without them."""
        return self.is_put(group, 0)

    def is_put(self, group: Sequence[int], shift: int) -> bool:
        """Shifts rows by an amount where the timing keeps its value so."""
        if self.runs == MOST_RUNS:
            raise OutOfRuns
        self.runs += 1
        tried = list(self.times)
        for event in group:
            tried[event] = self.stamps[event] + shift
        if self.question.replay(self.text, tried).status != self.wanted:
            return False
        self.times = tried
        return True
