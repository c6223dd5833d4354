"""The window of a slice: the rows that its positions can have to do with, as a short log with a formula of its own.

A row that reads a clock keeps its stamp, since what a clock shows of two rows is the distance of their stamps. Its
least and greatest times are then said by a bound between it and the first row, where a skew alone doesn't say them.
"""

from __future__ import annotations

from array import array
from bisect import bisect_left
from typing import Dict, Iterator, List, NamedTuple, Optional, Sequence, Tuple, Union

from ask.logs import COLUMNS, FIRST_FIELDS, MOST_HOSTS, MOST_ROWS, MOST_SKEW, MOST_STAMP, ROW_KINDS, Row
from ask.windows.cuts import Ranges, Slice
from ask.windows.longlog import CLEAR, NONE, NOTE, RECV, SET, LongLog
from ask.windows.shape import Shape

ANCHOR = "anchor"
Span = Tuple[int, int]  # the least and the greatest time of a row
Moments = Union[Sequence[int], Dict[int, int]]  # a time for each row, by its number


class Carried(NamedTuple):
    """A proposition that is true before a window: the row that set it, and the moment at which the window sets it."""

    event: int
    moment: int


class Bounded(NamedTuple):
    """A bound record of a window: its rows by their places there, its number, and the record of the log that it is.

    That is NONE of a bound between a row and the first one of the window, which says a least or a greatest time.
    """

    later: int
    earlier: int
    most: int
    number: int


class Window(NamedTuple):
    """A window: its rows, those that are carried in, the moment of its first position, and its two texts.

    The rows of its log are the anchor, then those that are carried in, then its rows in their order.
    """

    slice: Slice
    ranges: Ranges
    events: List[int]
    carried: List[Carried]
    base: int
    bounded: List[Bounded]
    log: bytes
    formula: bytes
    is_in_range: bool  # whether its stamps and skews are such that a log may have

    def times(self, witness: Sequence[int]) -> Dict[int, int]:
        """The times of the rows of the log in a timing of the window."""
        return dict(zip(self.events, witness[1 + len(self.carried) :]))

    def size(self) -> int:
        """How many rows of the log it has."""
        return len(self.events)

    def is_short(self) -> bool:
        """Whether a log may have its rows, and its numbers those that a log and a formula may have."""
        rows = 1 + len(self.carried) + len(self.events)
        is_near = self.base >= -MOST_STAMP and self.slice.last - self.base <= MOST_SKEW
        return rows <= MOST_ROWS and is_near and self.is_in_range


class Glazier:
    """Makes windows of some rows of a log for a formula."""

    def __init__(self, log: LongLog, shape: Shape, of: Sequence[array], own_low: Sequence[int]):
        self.log, self.shape, self.of, self.own_low = log, shape, of, own_low
        hosts = [(log.host_numbered(host), name) for host, name in shape.propositions]
        self.propositions = [(host, name) for host, name in hosts if host is not None]
        self.changes = {key: self.changes_of(*key) for key in self.propositions}

    def changes_of(self, host: int, name: str) -> List[int]:
        """The rows that change a proposition, by their places among those of the host."""
        rows, number = self.log.rows, self.log.rows.number_of.get(name, -1)
        return [
            place for place, event in enumerate(self.of[host])
            if rows.name[event] == number and rows.kind[event] in (SET, CLEAR)
        ]

    def seen(self, part: Slice) -> Slice:
        """The stretch of time that the formula sees from a slice."""
        return Slice(part.first - self.shape.horizon.past, part.last + self.shape.horizon.future)

    def events_in(self, ranges: Ranges) -> List[int]:
        """The rows of ranges in the order of the log."""
        return sorted(event for events, (start, end) in zip(self.of, ranges) for event in events[start:end])

    def set_before(self, ranges: Ranges) -> List[Tuple[int, str, int]]:
        """The propositions that are true before the ranges: the host, the name, and the row that set each."""
        found = []
        for host, name in self.propositions:
            changes = self.changes[host, name]
            count = bisect_left(changes, ranges[host][0])
            event = self.of[host][changes[count - 1]] if count else None
            if event is not None and self.log.rows.kind[event] == SET:
                found.append((host, name, event))
        return found

    def window(self, part: Slice, ranges: Ranges, least: Moments, greatest: Moments) -> Window:
        """The window of a slice with these rows, each of which is from its least to its greatest time."""
        seen, events = self.seen(part), self.events_in(ranges)
        rows = {event: self.log.rows[event] for event in events}
        spans = {event: self.span(rows[event], event, least[event], greatest[event], seen) for event in events}
        carried = [Carried(event, seen.first - 1) for _, _, event in self.set_before(ranges)]
        for number, (event, moment) in enumerate(carried):
            start, end = ranges[self.log.rows.host[event]]
            if start < end:  # a row that is carried in isn't behind the first one of its host
                moment = min(moment, spans[self.of[self.log.rows.host[event]][start]][0])
            carried[number] = Carried(event, moment)
        base = min([seen.first - 1, *(low for low, _ in spans.values()), *(moment for _, moment in carried)])
        places = {event: place for place, event in enumerate(events, start=1 + len(carried))}
        bounded = [*self.ends_bounded(rows, spans, places, base), *self.rows_bounded(places)]
        lines = [*self.lines(rows, spans, carried, base), *(f"bound,{b.later},{b.earlier},{b.most}" for b in bounded)]
        is_third = bool(bounded) or any(row.clock is not None for row in rows.values())
        text = "\n".join([",".join((FIRST_FIELDS[3 if is_third else 2], *COLUMNS)), *lines]) + "\n"
        formula = self.shape.window_text(part.first - base, part.last - base) + "\n"
        is_in_range = all(is_sayable(*placed(rows[event], span)) for event, span in spans.items())
        return Window(part, ranges, events, carried, base, bounded, text.encode(), formula.encode(), is_in_range)

    def ends_bounded(
        self, rows: Dict[int, Row], spans: Dict[int, Span], places: Dict[int, int], base: int
    ) -> Iterator[Bounded]:
        """The bounds of rows and the first one that say the times which a stamp and a skew don't."""
        for event, (low, high) in spans.items():
            stamp, skew = placed(rows[event], (low, high))
            if stamp + skew > high:
                yield Bounded(places[event], 0, high - base, NONE)
            if stamp - skew < low:
                yield Bounded(0, places[event], base - low, NONE)

    def rows_bounded(self, places: Dict[int, int]) -> Iterator[Bounded]:
        """The bound records between rows of the window, in the order of the log."""
        numbers = sorted(number for event in places for number in self.log.extras_after(event))
        for number in numbers:
            extra = self.log.extras[number]
            if extra.earlier in places:
                yield Bounded(places[extra.later], places[extra.earlier], extra.most, number)

    def span(self, row: Row, event: int, low: int, high: int, seen: Slice) -> Span:
        """The times of a row as its log says them; by a stamp and a skew alone an odd number of units is one more.

        It is more where that changes the least: away from the slice, or to the side that other rows bound.
        """
        if row.clock is not None or (high - low) % 2 == 0:
            return low, high
        is_downward = high < seen.first or low <= seen.last and low > self.own_low[event]
        return (low - 1, high) if is_downward else (low, high + 1)

    def lines(
        self, rows: Dict[int, Row], spans: Dict[int, Span], carried: Sequence[Carried], base: int
    ) -> Iterator[str]:
        """The lines of a window's log under its header, but for those of bounds between rows."""
        hosts = self.log.hosts
        used = sorted({row.host for row in rows.values()} | {host for host, _ in self.propositions})
        has_own_host = len(used) < MOST_HOSTS
        anchor = self.anchor() if has_own_host else hosts[used[0]].name
        if has_own_host:
            yield f"host,{anchor},0,0"
        for host in used:
            yield f"host,{hosts[host].name},0,0"
        for host in used:
            least, most = hosts[host].least, hosts[host].most
            if (least, most) != (1, None):
                yield f"latency,{hosts[host].name},{least},{'inf' if most is None else most}"
        yield f"note,{anchor},{base},{ANCHOR}"
        for event, moment in carried:
            row = self.log.rows[event]
            yield f"set,{hosts[row.host].name},{moment},{row.name}"
        yield from self.lines_of_rows(rows, spans)

    def lines_of_rows(self, rows: Dict[int, Row], spans: Dict[int, Span]) -> Iterator[str]:
        """The lines of the rows, each behind those that say what holds of it."""
        limits_now: Dict[int, Tuple[int, int]] = {}
        clocks_now: Dict[int, Tuple[Optional[int], int]] = {}
        for event, row in rows.items():
            host = self.log.hosts[row.host].name
            stamp, skew = placed(row, spans[event])
            limits = (skew, row.gap if row.host in limits_now else 0)
            if limits_now.get(row.host, (0, 0)) != limits:
                yield f"resync,{host},{limits[0]},{limits[1]}"
            limits_now[row.host] = limits
            reading = (row.clock, row.error)
            if row.clock is not None and clocks_now.get(row.host) != reading:
                clocks_now[row.host] = reading
                yield f"clock,{host},{row.error},{self.log.clocks[row.clock]}"
            is_cut_off = row.kind == ROW_KINDS[RECV] and self.log.sender[event] not in rows
            yield f"{ROW_KINDS[NOTE] if is_cut_off else row.kind},{host},{stamp},{row.name}"

    def anchor(self) -> str:
        """A name that no host of the log has."""
        names = {host.name for host in self.log.hosts}
        others = (f"{ANCHOR}_{number}" for number in range(len(names)))
        return next(name for name in (ANCHOR, *others) if name not in names)


def placed(row: Row, span: Span) -> Tuple[int, int]:
    """The stamp and the skew that a row has in a window where its times are these."""
    low, high = span
    if row.clock is None:
        return (low + high) // 2, (high - low) // 2
    return row.stamp, max(abs(high - row.stamp), abs(row.stamp - low))


def is_sayable(stamp: int, skew: int) -> bool:
    """Whether a log may have a stamp and a skew."""
    return -MOST_STAMP <= stamp <= MOST_STAMP and skew <= MOST_SKEW
