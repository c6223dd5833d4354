"""Looks for one timing of a whole log in which what has to be true at every position is.

A timing near the stamps is repaired where it fails: rows about the place are moved, all others stay, and a window of
the rows that can see a moved one says whether it can hold there.
"""

from __future__ import annotations

from array import array
from bisect import bisect_left
from typing import Dict, Iterator, List, NamedTuple, Optional, Sequence

from ask.logs import MOST_ROWS
from ask.windows.asking import Asker, Said, Whole
from ask.windows.cuts import Ranges, Slice, size_of
from ask.windows.loose import Offsets
from ask.windows.timings import holds, keeps, room, truth_of
from ask.windows.truth import Evaluator
from ask.windows.window import Window

MOST_MOVED = 600  # rows of a repair
MOST_GROWN = 12  # times that a repair grows


class Repair(NamedTuple):
    """A place at which a timing fails, how far about it rows may move, and whether they are all rows of the log."""

    moment: int
    reach: int
    least: Dict[int, int]
    greatest: Dict[int, int]
    window: Window
    is_all: bool


class Joint:
    """A timing under repair."""

    def __init__(self, whole: Whole, asker: Asker):
        self.whole, self.asker = whole, asker
        self.excluding: Optional[Said] = None
        self.left: List[int] = []  # the moments at which the timing still fails

    def timing(self) -> Optional[array]:
        """A timing that holds at every position, or None where none was found."""
        self.times, self.left = self.best(self.candidates())
        self.offsets = Offsets(self.whole.bounds.readings, self.times)
        self.reach: Dict[int, int] = {}  # how often the repair of a place has grown
        while self.left:
            repairs = self.repairs()
            if not repairs:
                return None
            by_slice = {repair.window.slice: repair for repair in repairs}
            for said in self.asker.said(repair.window for repair in repairs):
                if not self.take(by_slice[said.part], said):
                    return None
        return self.times if holds(self.whole.bounds, self.whole.shape, self.times) else None

    def candidates(self) -> Iterator[Sequence[int]]:
        """Timings to begin with."""
        times = self.whole.times
        yield self.whole.near()
        yield self.whole.bounds.near([(least + greatest) // 2 for least, greatest in zip(*times)], times)
        yield times.least
        yield times.greatest

    def best(self, candidates: Iterator[Sequence[int]]) -> "tuple[array, List[int]]":
        """The timing that fails at the fewest moments, and these."""
        found: "Optional[tuple[array, List[int]]]" = None
        for times in candidates:
            wrong = truth_of(self.whole.log, self.whole.shape, times).false_at()
            if found is None or len(wrong) < len(found[1]):
                found = array("q", times), wrong
            if not wrong:
                break
        assert found
        return found

    # Repairs

    def repairs(self) -> List[Repair]:
        """Repairs at places that have nothing to do with each other; none where one place can't be repaired."""
        found: List[Repair] = []
        ends: Optional[int] = None
        for moment in self.left:
            if ends is not None and moment <= ends:
                continue
            repair = self.repair(moment)
            if repair is None:
                if self.is_excluded(moment) or not found:
                    return []
                continue
            seen = self.whole.glazier.seen(repair.window.slice)
            if ends is None or seen.first > ends:
                found.append(repair)
                ends = seen.last
        return found

    def repair(self, moment: int) -> Optional[Repair]:
        """The repair of a place as far as it has grown, or None where it would be too large."""
        past, future = self.whole.shape.horizon
        grown = self.reach.get(moment, 0)
        if grown > MOST_GROWN:
            return None
        reach = self.width(moment) * (2**grown - 1)
        moved = self.whole.glazier.events_in(self.whole.extent.ranges(moment - past - reach, moment + future + reach))
        if len(moved) > MOST_MOVED:
            return None
        least, greatest = room(self.whole.bounds, self.times, self.offsets, moved)
        part = Slice(min(least.values()) - future, max(greatest.values()) + past)
        ranges = self.ranges_now(self.whole.glazier.seen(part))
        if size_of(ranges) >= MOST_ROWS - 2:
            return None
        held = {event: self.times[event] for event in self.whole.glazier.events_in(ranges)}
        window = self.whole.glazier.window(part, ranges, {**held, **least}, {**held, **greatest})
        return Repair(moment, reach, least, greatest, window, len(moved) == len(self.times))

    def width(self, moment: int) -> int:
        """By how much the repair of a place grows at first."""
        past, future = self.whole.shape.horizon
        times = self.whole.times
        events = self.whole.glazier.events_in(self.whole.extent.ranges(moment, moment))
        return max(1, past + future, *(times.greatest[event] - times.least[event] for event in events))

    def ranges_now(self, part: Slice) -> Ranges:
        """The rows of each host that are in a stretch of time as the timing is now."""
        found = []
        for events in self.whole.log.of:
            start = self.first_from(events, part.first)
            found.append((start, max(start, self.first_from(events, part.last + 1))))
        return found

    def first_from(self, events: Sequence[int], moment: int) -> int:
        """The place of the first of a host's rows that isn't before a moment."""
        low, high = 0, len(events)
        while low < high:
            middle = (low + high) // 2
            if self.times[events[middle]] < moment:
                low = middle + 1
            else:
                high = middle
        return low

    def take(self, repair: Repair, said: Said) -> bool:
        """Takes what the window of a repair says; whether there is anything left to try."""
        moved = self.moved(repair, said)
        if moved is not None and keeps(self.whole.bounds, self.times, self.offsets, moved):
            for event, time in moved.items():
                self.times[event] = time
            self.offsets.take(moved)
            first, last = repair.window.slice
            del self.left[bisect_left(self.left, first) : bisect_left(self.left, last + 1)]
            return True
        if repair.is_all and said.can_hold is False:
            self.excluding = said
            return False
        # A wider repair of all rows would be the same one.
        self.reach[repair.moment] = MOST_GROWN + 1 if repair.is_all else self.reach.get(repair.moment, 0) + 1
        return True

    def moved(self, repair: Repair, said: Said) -> Optional[Dict[int, int]]:
        """The new times of the rows of a repair, where the formula holds in all of its slice with them."""
        if said.held is None:
            return None
        moved = {
            event: min(max(said.held[event], low), repair.greatest[event]) for event, low in repair.least.items()
        }
        times = {event: moved.get(event, self.times[event]) for event in repair.window.events}
        is_set = {(host, name) for host, name, _ in self.whole.glazier.set_before(repair.window.ranges)}
        truth = Evaluator(self.whole.log, repair.window.events, times, is_set).truth(self.whole.shape.body)
        return None if truth.is_false_within(*repair.window.slice) else moved

    # Exclusion

    def is_excluded(self, moment: int) -> bool:
        """Whether the widest windows about a place show that no timing holds there."""
        for part in self.wide(moment):
            for said in self.asker.said([self.whole.window(part)]):
                if said.can_hold is False:
                    self.excluding = said
                    return True
        return False

    def wide(self, moment: int) -> Iterator[Slice]:
        """Slices about a place, wider and wider, as far as their windows aren't too large."""
        reach, width = 0, self.width(moment)
        first, last = min(self.whole.times.least), max(self.whole.times.greatest)
        while True:
            reach = 2 * reach + width
            part = Slice(max(first, moment - reach), min(last, moment + reach))
            if self.whole.window(part).size() >= MOST_ROWS - 2:
                return
            yield part
            if part == (first, last):
                return
