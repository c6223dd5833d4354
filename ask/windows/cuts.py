"""Slices of true time that together cover all positions of a log, and the rows that can be in a stretch of it."""

from __future__ import annotations

from array import array
from bisect import bisect_left, bisect_right
from typing import Iterator, List, NamedTuple, Optional, Sequence, Tuple

from ask.windows.bounds import Times
from ask.windows.shape import Horizon

SAMPLES = 64  # places at which rows are counted, to choose how many rows a slice has
LEAST_ROWS, MOST_ROWS_OF_SLICE = 16, 192
MOST_LEFT = 0.75  # of the rows of a window, in those of its halves, where it is worth while to cut it


class Slice(NamedTuple):
    """The moments of true time from one to another, both of them in it."""

    first: int
    last: int


Ranges = List[Tuple[int, int]]  # for each host the first of its rows, by place, and the one behind the last


class Extent:
    """Where in true time some rows of each host can be. Rows of a host are in their order, by both times."""

    def __init__(self, of: Sequence[array], times: Times):
        self.least = [array("q", (times.least[event] for event in events)) for events in of]
        self.greatest = [array("q", (times.greatest[event] for event in events)) for events in of]

    def ranges(self, first: int, last: int) -> Ranges:
        """The rows of each host that can be at a moment from first to last; those before it can't, nor those behind."""
        found = []
        for least, greatest in zip(self.least, self.greatest):
            start = bisect_left(greatest, first)
            found.append((start, max(start, bisect_right(least, last))))
        return found

    def size(self, first: int, last: int) -> int:
        """How many rows can be at a moment from first to last."""
        return size_of(self.ranges(first, last))

    def middles(self, first: int, last: int) -> Iterator[int]:
        """Of each row that can be at a moment from first to last, the middle of its times."""
        for least, greatest, (start, end) in zip(self.least, self.greatest, self.ranges(first, last)):
            yield from ((least[place] + greatest[place]) // 2 for place in range(start, end))


def size_of(ranges: Ranges) -> int:
    """How many rows ranges have."""
    return sum(end - start for start, end in ranges)


def slices_of(
    extent: Extent, times: Times, horizon: Horizon, most: int, size: Optional[int] = None
) -> Iterator[Slice]:
    """Slices that cover all moments at which a row of the log can be, each of whose windows has so many rows at most.

    They have about so many rows of their own, and are cut between rows that are far from each other.
    """
    first, end = min(times.least), max(times.greatest) + 1
    middles = sorted(extent.middles(first, end))
    size = rows_of_slice(extent, middles, horizon) if size is None else size
    for cut in [*cuts(middles, size), end]:
        cut = min(cut, end)
        if cut > first:
            yield from parts(extent, Slice(first, cut - 1), horizon, most)
            first = cut


def within(slices: Sequence[Slice], wanted: Sequence[Slice]) -> List[Slice]:
    """The parts of slices that lie in others; both cover moments in their order."""
    found, place = [], 0
    for whole in wanted:
        while slices[place].last < whole.first:
            place += 1
        other = place
        while other < len(slices) and slices[other].first <= whole.last:
            found.append(Slice(max(slices[other].first, whole.first), min(slices[other].last, whole.last)))
            other += 1
    return found


def rows_of_slice(extent: Extent, middles: Sequence[int], horizon: Horizon) -> int:
    """How many rows a slice has: about as many as its window has beside them, since these are asked twice."""
    places = middles[:: max(1, len(middles) // SAMPLES)] or [0]
    beside = sum(extent.size(moment - horizon.past, moment + horizon.future) for moment in places) // len(places)
    return max(LEAST_ROWS, min(beside, MOST_ROWS_OF_SLICE))


def cuts(middles: Sequence[int], size: int) -> Iterator[int]:
    """Moments about so many rows apart, each in the widest stretch without one that is near."""
    place, count = size, len(middles)
    while place < count:
        near = range(place, min(place + max(1, size // 2), count))
        best = max(near, key=lambda one: middles[one] - middles[one - 1])
        yield (middles[best] + middles[best - 1]) // 2 + 1
        place = best + size


def parts(extent: Extent, whole: Slice, horizon: Horizon, most: int) -> Iterator[Slice]:
    """A slice, or parts of it whose windows have so many rows at most, as far as cutting makes them smaller."""
    waiting = [whole]
    while waiting:
        part = waiting.pop()
        size = extent.size(part.first - horizon.past, part.last + horizon.future)
        halves = halves_of(extent, part) if size > most else []
        sizes = [extent.size(half.first - horizon.past, half.last + horizon.future) for half in halves]
        if sizes and max(sizes) <= size * MOST_LEFT:
            waiting += reversed(halves)
        else:
            yield part


def halves_of(extent: Extent, whole: Slice) -> List[Slice]:
    """Two slices in place of one, cut amid the rows that can be in it; none where it is one moment."""
    if whole.first == whole.last:
        return []
    middles = sorted(extent.middles(*whole))
    middle = middles[len(middles) // 2] if middles else (whole.first + whole.last) // 2
    middle = max(whole.first, min(middle, whole.last - 1))
    return [Slice(whole.first, middle), Slice(middle + 1, whole.last)]
