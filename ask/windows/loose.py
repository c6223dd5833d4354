"""The bounds of a long log that no pass in the order of its rows settles: they go back, or to and from a clock."""

from __future__ import annotations

from array import array
from heapq import heappop, heappush
from typing import Callable, Container, Dict, Iterable, Iterator, List, NamedTuple, Optional, Sequence, Set, Tuple

from ask.reports import Step
from ask.windows.longlog import NONE, Links, LongLog

FAR = 10**30  # beyond each offset that a clock can have


class Loose:
    """Greatest latencies and bound records, each as `t_target >= t_source + distance`."""

    def __init__(self, log: LongLog):
        late = log.latencies()
        self.source = array("i", (receive for _, receive, _ in late))
        self.target = array("i", (send for send, _, _ in late))
        self.distance: List[int] = [-most for _, _, most in late]
        self.count_late = len(late)
        for extra in log.extras:
            self.source.append(extra.later)
            self.target.append(extra.earlier)
            self.distance.append(-extra.most)
        count = len(log.rows) if self.source else 0
        self.by_source, self.by_target = Links(count, self.source), Links(count, self.target)

    def __len__(self) -> int:
        return len(self.source)

    def step(self, number: int) -> Step:
        """A bound as reports name it."""
        if number < self.count_late:
            return Step("late", (self.source[number],))
        return Step("extra", (number - self.count_late,))

    def numbers_from(self, event: int) -> Iterator[int]:
        """The bounds by which a row has others be late, by their numbers."""
        return self.by_source.of(event) if self.source else iter(())

    def out_of(self, event: int) -> Iterator[Tuple[int, int]]:
        """The rows that come behind a row by them, and by how much at least, mostly less than 0."""
        return ((self.target[number], self.distance[number]) for number in self.numbers_from(event))

    def into(self, event: int) -> Iterator[Tuple[int, int]]:
        """The rows that a row comes behind by them, and by how much at least."""
        numbers = self.by_target.of(event) if self.source else ()
        return ((self.source[number], self.distance[number]) for number in numbers)

    def broken(self, times: Sequence[int], first: int, last: int) -> Optional[Step]:
        """The first of some of them, by their numbers, that times don't keep, or None."""
        for number in range(first, last):
            if times[self.target[number]] < times[self.source[number]] + self.distance[number]:
                return self.step(number)
        return None


class Ends(NamedTuple):
    """The offsets that a clock can have by some of its rows: from the least to the greatest."""

    least: int = -FAR
    greatest: int = FAR

    def with_row(self, time_low: int, time_high: int, reading: "Reading") -> "Ends":
        """The same with a row whose time is in a range."""
        least = max(self.least, time_low - reading.high)
        return Ends(least, min(self.greatest, time_high - reading.low))


class Reading(NamedTuple):
    """A row that reads a clock: its time less the clock's offset is from low to high."""

    clock: int
    low: int
    high: int


class Readings:
    """The rows of a long log that read clocks, as columns."""

    def __init__(self, log: LongLog):
        self.event, self.clock = array("i"), array("i")
        self.low, self.high = array("q"), array("q")
        for event, clock, low, high in log.rows.readings():
            self.event.append(event)
            self.clock.append(clock)
            self.low.append(low)
            self.high.append(high)
        self.count = len(log.clocks)
        self.place = array("i", [NONE]) * (len(log.rows) if self.event else 0)  # of each row among these
        for place, event in enumerate(self.event):
            self.place[event] = place
        self.by_clock = Links(self.count, self.clock)

    def __len__(self) -> int:
        return len(self.event)

    def of(self, event: int) -> Optional[Reading]:
        """The reading of a row, where it reads a clock."""
        place = self.place[event] if self.event else NONE
        return None if place == NONE else Reading(self.clock[place], self.low[place], self.high[place])

    def rows(self) -> Iterator[Tuple[int, int, int, int]]:
        """The rows with their clocks, lows and highs."""
        return zip(self.event, self.clock, self.low, self.high)

    def rows_of(self, clock: int) -> Iterator[Tuple[int, int, int]]:
        """The rows of a clock with their lows and highs."""
        return ((self.event[place], self.low[place], self.high[place]) for place in self.by_clock.of(clock))

    def broken(self, times: Sequence[int]) -> Optional[Step]:
        """The first row whose reading of a clock doesn't agree with those before it, with the bound of it, or None."""
        ends = [Ends() for _ in range(self.count)]
        for event, clock, low, high in self.rows():
            time, before = times[event], ends[clock]
            if before.least > time - low:
                return Step("under", (event,))
            if time - high > before.greatest:
                return Step("over", (event,))
            ends[clock] = before.with_row(time, time, Reading(clock, low, high))
        return None


class Offsets:
    """The offsets that clocks can have by the rows that read them in a timing, whose rows may be moved."""

    def __init__(self, readings: Readings, times: Sequence[int]):
        self.readings, self.times = readings, times
        self.known: Dict[int, Tuple[Ranking, Ranking]] = {}  # of each clock that was asked for: by least and greatest offsets

    def rankings(self, clock: int) -> "Tuple[Ranking, Ranking]":
        """The rows of a clock by the least offset that each allows it, from the greatest down, and by the greatest one."""
        if clock not in self.known:
            events = [event for event, _, _ in self.readings.rows_of(clock)]
            self.known[clock] = Ranking(events, self.least_negated), Ranking(events, self.greatest)
        return self.known[clock]

    def least_negated(self, event: int) -> int:
        """The least offset that a row allows its clock, negated."""
        return self.readings.high[self.readings.place[event]] - self.times[event]

    def greatest(self, event: int) -> int:
        """The greatest offset that a row allows its clock."""
        return self.times[event] - self.readings.low[self.readings.place[event]]

    def without(self, moved: Dict[int, int]) -> Dict[int, Ends]:
        """For each clock that some rows read the offsets that its other rows leave it."""
        clocks = {reading.clock for reading in map(self.readings.of, moved) if reading}
        return {clock: self.ends_of(clock, moved) for clock in clocks}

    def ends_of(self, clock: int, moved: Dict[int, int]) -> Ends:
        """The offsets that the rows of a clock leave it that aren't moved."""
        least, greatest = (ranking.first(moved) for ranking in self.rankings(clock))
        return Ends(-FAR if least is None else -least, FAR if greatest is None else greatest)

    def take(self, moved: Iterable[int]) -> None:
        """Takes it that the timing has rows at other times."""
        for event in moved:
            reading = self.readings.of(event)
            for ranking in self.known.get(reading.clock, ()) if reading else ():
                ranking.change(event)


class Ranking:
    """Rows by a number that each has in a timing, the least first; rows that are moved get others.

    Those whose numbers were changed are kept apart, so that the order of all others stays.
    """

    def __init__(self, events: Sequence[int], number_of: Callable[[int], int]):
        self.number_of = number_of
        self.order = array("i", sorted(events, key=number_of))
        self.start = 0  # before which there are only changed ones
        self.changed: Set[int] = set()
        self.heap: List[Tuple[int, int]] = []  # the numbers that changed ones have, or had before, and these

    def change(self, event: int) -> None:
        """Takes another number of a row."""
        self.changed.add(event)
        heappush(self.heap, (self.number_of(event), event))

    def first(self, left_out: Container[int]) -> Optional[int]:
        """The least number of a row, but for some rows; None where there is no other."""
        numbers = (self.first_unchanged(left_out), self.first_changed(left_out))
        return min((number for number in numbers if number is not None), default=None)

    def first_unchanged(self, left_out: Container[int]) -> Optional[int]:
        """The same of those whose numbers were never changed."""
        while self.start < len(self.order) and self.order[self.start] in self.changed:
            self.start += 1
        events = (self.order[place] for place in range(self.start, len(self.order)))
        event = next((event for event in events if event not in self.changed and event not in left_out), None)
        return None if event is None else self.number_of(event)

    def first_changed(self, left_out: Container[int]) -> Optional[int]:
        """The same of the others."""
        passed = self.passed(left_out)
        found = self.heap[0][0] if self.heap else None
        for one in passed:
            heappush(self.heap, one)
        return found

    def passed(self, left_out: Container[int]) -> List[Tuple[int, int]]:
        """Takes away what stands before the first number of the others; what of it is still so."""
        passed = []
        while self.heap and (self.is_old(*self.heap[0]) or self.heap[0][1] in left_out):
            one = heappop(self.heap)
            if not self.is_old(*one):
                passed.append(one)
        return passed

    def is_old(self, number: int, event: int) -> bool:
        """Whether a row has another number by now."""
        return self.number_of(event) != number
