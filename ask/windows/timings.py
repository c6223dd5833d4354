"""Timings of a whole log that are made of those of its windows, and what makes sure that they show a value."""

from __future__ import annotations

from array import array
from collections import deque
from typing import Deque, Dict, List, Sequence

from ask.windows.bounds import Bounds, Times
from ask.windows.cuts import Slice
from ask.windows.longlog import LongLog
from ask.windows.loose import Ends, Offsets
from ask.windows.shape import Shape
from ask.windows.truth import Evaluator, Truth


def truth_of(log: LongLog, shape: Shape, times: Sequence[int]) -> Truth:
    """Whether what has to be true at every position is true at each one of a timing."""
    return Evaluator(log, range(len(log.rows)), times).truth(shape.body)


def fails(bounds: Bounds, shape: Shape, times: Sequence[int], part: Slice) -> bool:
    """Whether times are a timing that the log admits, in which the formula fails at a moment of a slice."""
    return bounds.broken(times) is None and truth_of(bounds.log, shape, times).is_false_within(*part)


def holds(bounds: Bounds, shape: Shape, times: Sequence[int]) -> bool:
    """Whether times are a timing that the log admits, in which the formula fails nowhere."""
    return bounds.broken(times) is None and 0 not in truth_of(bounds.log, shape, times).values


def clamped(times: Dict[int, int], whole: Times) -> Dict[int, int]:
    """Times of some rows, each put between the least and the greatest one that the whole log allows.

    Of two timings the later times of all rows are one too, and so are the earlier ones; so the bounds between the
    rows hold as before.
    """
    return {event: min(max(time, whole.least[event]), whole.greatest[event]) for event, time in times.items()}


def with_moved(bounds: Bounds, timing: Sequence[int], moved: Dict[int, int]) -> array:
    """A timing with some rows at other times; rows behind and before them make room, as far as they have to."""
    found = array("q", timing)
    for event, time in moved.items():
        found[event] = time
    waiting = deque(moved)
    while waiting:
        event = waiting.popleft()
        for other, least in bounds.behind(event):
            if other not in moved and found[other] < found[event] + least:
                found[other] = found[event] + least
                waiting.append(other)
    waiting = deque(moved)
    while waiting:
        event = waiting.popleft()
        for other, least in bounds.before(event):
            if other not in moved and found[other] > found[event] - least:
                found[other] = found[event] - least
                waiting.append(other)
    return found


def room(
    bounds: Bounds, times: Sequence[int], offsets: Offsets, moved: Sequence[int]
) -> "tuple[Dict[int, int], Dict[int, int]]":
    """The least and the greatest times of rows where all others stay as they are in a timing."""
    least = {event: bounds.low[event] for event in moved}
    greatest = {event: bounds.high[event] for event in moved}
    for event in moved:
        for other, distance in bounds.all_before(event):
            if other not in least:
                least[event] = max(least[event], times[other] + distance)
        for other, distance in bounds.all_behind(event):
            if other not in least:
                greatest[event] = min(greatest[event], times[other] - distance)
    narrow(bounds, least, greatest, offsets.without(least))
    return least, greatest


def narrow(bounds: Bounds, least: Dict[int, int], greatest: Dict[int, int], ends: Dict[int, Ends]) -> None:
    """Raises least times and lowers greatest ones until the bounds between these rows, and clocks, hold of both."""
    rising, falling = deque(least), deque(greatest)
    while rising or falling or is_narrowed_by_clocks(bounds, least, greatest, ends, rising, falling):
        while rising:
            event = rising.popleft()
            for other, distance in bounds.all_behind(event):
                if other in least and least[other] < least[event] + distance:
                    least[other] = least[event] + distance
                    rising.append(other)
        while falling:
            event = falling.popleft()
            for other, distance in bounds.all_before(event):
                if other in greatest and greatest[other] > greatest[event] - distance:
                    greatest[other] = greatest[event] - distance
                    falling.append(other)


def is_narrowed_by_clocks(
    bounds: Bounds, least: Dict[int, int], greatest: Dict[int, int], ends: Dict[int, Ends], rising: Deque[int],
    falling: Deque[int],
) -> bool:
    """Raises and lowers times to what the clocks of the rows allow, and has those rows wait; whether there are any."""
    read = [(event, reading) for event, reading in ((event, bounds.readings.of(event)) for event in least) if reading]
    for event, reading in read:
        ends[reading.clock] = ends[reading.clock].with_row(least[event], greatest[event], reading)
    for event, reading in read:
        low, high = ends[reading.clock].least + reading.low, ends[reading.clock].greatest + reading.high
        if low > least[event]:
            least[event] = low
            rising.append(event)
        if high < greatest[event]:
            greatest[event] = high
            falling.append(event)
    return bool(rising or falling)


def keeps(bounds: Bounds, times: Sequence[int], offsets: Offsets, moved: Dict[int, int]) -> bool:
    """Whether a timing stays one where these rows are moved."""

    def time(event: int) -> int:
        return moved[event] if event in moved else times[event]

    for event, moment in moved.items():
        if not bounds.low[event] <= moment <= bounds.high[event]:
            return False
        if any(moment < time(other) + least for other, least in bounds.all_before(event)):
            return False
        if any(time(other) < moment + least for other, least in bounds.all_behind(event)):
            return False
    return has_offsets(bounds, offsets, moved)


def has_offsets(bounds: Bounds, offsets: Offsets, moved: Dict[int, int]) -> bool:
    """Whether each clock that these rows read has an offset where they are moved."""
    ends = offsets.without(moved)
    for event, moment in moved.items():
        reading = bounds.readings.of(event)
        if reading:
            ends[reading.clock] = ends[reading.clock].with_row(moment, moment, reading)
    return all(one.least <= one.greatest for one in ends.values())


def shifted(log: LongLog, times: Sequence[int]) -> List[int]:
    """The rows that aren't at their stamps."""
    return [event for event, (time, stamp) in enumerate(zip(times, log.rows.stamp)) if time != stamp]
