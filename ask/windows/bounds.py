"""The least and the greatest time of each row of a whole log, in passes over its rows (Bellman 1958).

A bound is `t_start - t_end <= most`, so from the zero moment walks of bounds tell how early each row can be, and back
to it how late. Rows are in the order of what happens before what, but for greatest latencies and bound records, which
may go back, and for clocks, whose offsets are to and from all rows that read them.
"""

from __future__ import annotations

from array import array
from heapq import heapify, heappop, heappush
from typing import Dict, Iterator, List, NamedTuple, Optional, Sequence, Tuple

from ask.reports import Step
from ask.windows.longlog import NONE, LongLog
from ask.windows.loose import FAR, Loose, Readings


class Contradiction(Exception):
    """A log admits no timing: a closed walk of bounds of negative sum."""

    def __init__(self, walk: List[Step]):
        super().__init__(f"{len(walk)} bounds")
        self.walk = walk


class Times(NamedTuple):
    """The least and the greatest time of each row, both of which are timings that the log admits."""

    least: array
    greatest: array


class Bounds:
    """The bounds of a long log between its rows, in the order in which a pass goes through them."""

    def __init__(self, log: LongLog):
        self.log = log
        self.low, self.high = log.low(), log.high()
        self.gaps = log.rows.gaps()
        least = [host.least for host in log.hosts]
        self.delay = array("q", (least[host] for host in log.rows.host))  # of a message to a row, at least
        self.loose, self.readings = Loose(log), Readings(log)
        self.order = self.ordered()

    # The order

    def ordered(self) -> array:
        """The rows, each behind those that are directly before it."""
        log, count = self.log, len(self.log.rows)
        missing = bytearray((before != NONE) + (send != NONE) for before, send in zip(log.earlier, log.sender))
        later, receiver, receiver_before = log.later, log.receiver, log.receiver_before
        order = array("i")
        waiting = [event for event in range(count - 1, -1, -1) if not missing[event]]
        while waiting:
            event = waiting.pop()
            order.append(event)
            found = receiver[event]
            while found != NONE:
                missing[found] -= 1
                if not missing[found]:
                    waiting.append(found)
                found = receiver_before[found]
            found = later[event]
            if found != NONE:
                missing[found] -= 1
                if not missing[found]:
                    waiting.append(found)
        if len(order) < count:
            raise Contradiction(self.cycle(missing))
        return order

    def cycle(self, missing: bytearray) -> List[Step]:
        """A cycle of rows each of which is directly before the next, where some rows can't be put in order."""
        event = next(event for event, count in enumerate(missing) if count)
        seen: Dict[int, int] = {}
        path: List[Step] = []
        while event not in seen:
            seen[event] = len(path)
            kind, before = next(step for step in self.into(event) if missing[step[1]])
            path.append(Step(kind, (event,)))
            event = before
        return path[seen[event] :][::-1]

    def into(self, event: int) -> Iterator[Tuple[str, int]]:
        """The bounds by which a row can't be before another, each with that row."""
        if self.log.earlier[event] != NONE:
            yield "rise", self.log.earlier[event]
        if self.log.sender[event] != NONE:
            yield "message", self.log.sender[event]

    def before(self, event: int) -> Iterator[Tuple[int, int]]:
        """The rows that a row comes behind, and by how much at least."""
        if self.log.earlier[event] != NONE:
            yield self.log.earlier[event], self.gaps[event]
        if self.log.sender[event] != NONE:
            yield self.log.sender[event], self.delay[event]

    def behind(self, event: int) -> Iterator[Tuple[int, int]]:
        """The rows that come behind a row, and by how much at least."""
        return ((other, least) for _, other, least in self.out_of(event))

    def out_of(self, event: int) -> Iterator[Tuple[str, int, int]]:
        """The same, each with the kind of the bound."""
        later = self.log.later[event]
        if later != NONE:
            yield "rise", later, self.gaps[later]
        for receive in self.log.receivers(event):
            yield "message", receive, self.delay[receive]

    def all_before(self, event: int) -> Iterator[Tuple[int, int]]:
        """The same as before, also by bounds that go back."""
        yield from self.before(event)
        yield from self.loose.into(event)

    def all_behind(self, event: int) -> Iterator[Tuple[int, int]]:
        """The same as behind, also by bounds that go back."""
        yield from self.behind(event)
        yield from self.loose.out_of(event)

    # Times

    def times(self) -> Times:
        """The least and the greatest time of each row, or a contradiction."""
        least = self.least(self.low, self.high)
        return Times(least, self.greatest(self.high))

    def least(self, low: Sequence[int], high: Sequence[int]) -> array:
        """The least time of each row where rows are in these ranges, or the contradiction that there is none."""
        found = array("q", low)
        earlier, sender, gaps, delay = self.log.earlier, self.log.sender, self.gaps, self.delay
        for event in self.order:
            time = found[event]
            before = earlier[event]
            if before != NONE and found[before] + gaps[event] > time:
                time = found[before] + gaps[event]
            send = sender[event]
            if send != NONE and found[send] + delay[event] > time:
                time = found[send] + delay[event]
            if time > high[event]:
                raise Contradiction(self.walk_to(found, event, time))
            found[event] = time
        if len(self.loose) or len(self.readings):
            Raising(self, found, high).settle()
        return found

    def walk_to(self, found: Sequence[int], event: int, time: int) -> List[Step]:
        """The walk from the zero moment that tells that a row isn't before a time, and back by its latest one."""
        walk = [Step("high", (event,))]
        while True:
            step = next(
                ((kind, other) for (kind, other), (_, least) in zip(self.into(event), self.before(event))
                 if found[other] + least == time), None,
            )
            if step is None:
                return [Step("low", (event,)), *walk[::-1]]
            walk.append(Step(step[0], (event,)))
            event, time = step[1], found[step[1]]

    def greatest(self, high: Sequence[int]) -> array:
        """The greatest time of each row, where some timing is admissible."""
        found = array("q", high)
        earlier, sender, gaps, delay = self.log.earlier, self.log.sender, self.gaps, self.delay
        for event in reversed(self.order):
            time = found[event]
            before = earlier[event]
            if before != NONE and time - gaps[event] < found[before]:
                found[before] = time - gaps[event]
            send = sender[event]
            if send != NONE and time - delay[event] < found[send]:
                found[send] = time - delay[event]
        if len(self.loose) or len(self.readings):
            Lowering(self, found).settle()
        return found

    # Timings

    def broken(self, times: Sequence[int]) -> Optional[Step]:
        """The first bound, row by row, that times don't keep, or None."""
        log, low, high, gaps, delay = self.log, self.low, self.high, self.gaps, self.delay
        columns = zip(times, low, high, log.earlier, log.sender)
        for event, (time, least, greatest, before, send) in enumerate(columns):
            if time < least:
                return Step("low", (event,))
            if time > greatest:
                return Step("high", (event,))
            if before != NONE and time < times[before] + gaps[event]:
                return Step("rise", (event,))
            if send != NONE and time < times[send] + delay[event]:
                return Step("message", (event,))
        loose, late = self.loose, self.loose.count_late
        return loose.broken(times, 0, late) or self.readings.broken(times) or loose.broken(times, late, len(loose))

    def near(self, wanted: Sequence[int], times: Times) -> array:
        """A timing of the log that is near to wanted times: each put where the log allows it, and later ones behind."""
        low = array("q", map(min, map(max, wanted, times.least), times.greatest))
        return self.least(low, times.greatest)  # which isn't above the greatest times, since they are a timing too

    def with_rows_at(self, fixed: Dict[int, int], times: Times) -> array:
        """The least timing of the log in which some rows are at these times, or the contradiction."""
        low, high = array("q", times.least), array("q", times.greatest)
        for event, time in fixed.items():
            low[event] = high[event] = time
        return self.least(low, high)


class Agenda:
    """Rows and clocks whose times or offsets were changed, that with the greatest number first, and each once in a pass.

    The number is by how much a row is off its stamp, so that between rows which bounds tie to each other with room at
    the stamps no change comes behind another one that is further off: they are settled in one pass (Dijkstra 1959).
    Others take a further pass for each bound on their way that the stamps break, and so not more than passes over all
    would (Dinitz and Itzik 2017). Clocks are numbered behind the rows.
    """

    def __init__(self, count: int):
        self.heap: List[Tuple[int, int]] = []
        self.later: List[Tuple[int, int]] = []  # that were changed once more
        self.is_done = bytearray(count)  # in this pass

    def put(self, node: int, number: int) -> None:
        """Has a row or a clock wait."""
        if self.is_done[node]:
            self.later.append((-number, node))
        else:
            heappush(self.heap, (-number, node))

    def __iter__(self) -> Iterator[int]:
        """Those that wait, as long as there are any; more may come meanwhile."""
        while self.heap or self.later:
            if not self.heap:
                self.begin_pass()
            _, node = heappop(self.heap)
            if not self.is_done[node]:
                self.is_done[node] = 1
                yield node

    def begin_pass(self) -> None:
        """Begins the next pass."""
        self.heap, self.later = self.later, []
        heapify(self.heap)
        self.is_done = bytearray(len(self.is_done))


class Lowering:
    """Greatest times that are lowered until the bounds that go back, and those of clocks, hold of them too."""

    def __init__(self, bounds: Bounds, found: array):
        self.bounds, self.found, self.stamps = bounds, found, bounds.log.rows.stamp
        self.offsets = [FAR] * bounds.readings.count
        self.agenda = Agenda(len(found) + bounds.readings.count)

    def settle(self) -> None:
        """Lowers greatest times of a log that admits a timing."""
        found, loose = self.found, self.bounds.loose
        for source, target, distance in zip(loose.source, loose.target, loose.distance):
            if found[target] - distance < found[source]:
                self.agenda.put(target, self.stamps[target] - found[target])
        for event in self.bounds.readings.event:
            self.lower_clock_of(event)
        for node in self.agenda:
            if node < len(found):
                self.lower_before(node)
                self.lower_clock_of(node)
            else:
                self.lower_rows_of(node - len(found))

    def lower_before(self, event: int) -> None:
        """Lowers what comes before a row."""
        time = self.found[event]
        for other, least in self.bounds.all_before(event):
            if time - least < self.found[other]:
                self.put(other, time - least)

    def lower_clock_of(self, event: int) -> None:
        """Lowers the greatest offset of the clock that a row reads to what the row allows."""
        reading = self.bounds.readings.of(event)
        if reading and self.found[event] - reading.low < self.offsets[reading.clock]:
            self.offsets[reading.clock] = self.found[event] - reading.low
            self.agenda.put(len(self.found) + reading.clock, -self.offsets[reading.clock])

    def lower_rows_of(self, clock: int) -> None:
        """Lowers the rows of a clock that are later than its offset allows."""
        offset = self.offsets[clock]
        for event, _, high in self.bounds.readings.rows_of(clock):
            if offset + high < self.found[event]:
                self.put(event, offset + high)

    def put(self, event: int, time: int) -> None:
        """Lowers a row to a time that is earlier than its own."""
        self.found[event] = time
        self.agenda.put(event, self.stamps[event] - time)


class Raising:
    """Least times that are raised until the bounds that go back, and those of clocks, hold of them too.

    What raised a row or an offset last is kept, so that a closed walk of negative sum is seen (Cherkassky and
    Goldberg 1999). Clocks are numbered behind the rows.
    """

    def __init__(self, bounds: Bounds, found: array, high: Sequence[int]):
        self.bounds, self.found, self.high, self.stamps = bounds, found, high, bounds.log.rows.stamp
        self.agenda = Agenda(len(found) + bounds.readings.count)
        self.before = array("q", found)  # as the pass over the rows left them
        self.raised_by: Dict[int, Tuple[Step, int]] = {}
        self.offsets = [-FAR] * bounds.readings.count
        self.left = len(found)  # steps until a closed walk is looked for

    def settle(self) -> None:
        """Raises least times, or finds the contradiction."""
        found, loose = self.found, self.bounds.loose
        for source, target, distance in zip(loose.source, loose.target, loose.distance):
            if found[source] + distance > found[target]:
                self.agenda.put(source, found[source] - self.stamps[source])
        for event in self.bounds.readings.event:
            self.raise_clock_of(event)
        for node in self.agenda:
            if node < len(found):
                self.raise_behind(node)
                self.raise_clock_of(node)
            else:
                self.raise_rows_of(node - len(found))

    def raise_behind(self, event: int) -> None:
        """Raises what comes behind a row."""
        found, loose = self.found, self.bounds.loose
        for number in loose.numbers_from(event):
            target, distance = loose.target[number], loose.distance[number]
            if found[event] + distance > found[target]:
                self.put(target, found[event] + distance, (loose.step(number), event))
        for kind, other, least in self.bounds.out_of(event):
            if found[event] + least > found[other]:
                self.put(other, found[event] + least, (Step(kind, (other,)), event))

    def raise_clock_of(self, event: int) -> None:
        """Raises the offset of the clock that a row reads to what the row asks of it."""
        reading = self.bounds.readings.of(event)
        if reading and self.found[event] - reading.high > self.offsets[reading.clock]:
            self.offsets[reading.clock] = self.found[event] - reading.high
            self.raised_by[len(self.found) + reading.clock] = (Step("over", (event,)), event)
            self.agenda.put(len(self.found) + reading.clock, self.offsets[reading.clock])

    def raise_rows_of(self, clock: int) -> None:
        """Raises rows to what the offset of their clock asks."""
        offset = self.offsets[clock]
        for event, low, _ in self.bounds.readings.rows_of(clock):
            if offset + low > self.found[event]:
                self.put(event, offset + low, (Step("under", (event,)), len(self.found) + clock))
            self.count_step()

    def put(self, event: int, time: int, by: Tuple[Step, int]) -> None:
        """Raises a row to a time that is later than its own."""
        self.raised_by[event] = by
        if time > self.high[event]:
            raise Contradiction(self.walk(event))
        self.found[event] = time
        self.agenda.put(event, time - self.stamps[event])
        self.count_step()

    def count_step(self) -> None:
        """Counts a step, and looks for a closed walk after as many as there are rows."""
        self.left -= 1
        if self.left == 0:
            self.left = len(self.found)
            self.look_for_cycle()

    def look_for_cycle(self) -> None:
        """Raises the contradiction where rows raise each other round and round."""
        known: Dict[int, int] = {}
        for start in self.raised_by:
            event = start
            while event in self.raised_by and event not in known:
                known[event] = start
                event = self.raised_by[event][1]
            if event in self.raised_by and known[event] == start:
                raise Contradiction(self.walk(event))

    def walk(self, event: int) -> List[Step]:
        """The walk by which a row was raised: to where it begins, or until it is closed."""
        walk: List[Step] = []
        seen: Dict[int, int] = {}
        first = event
        while event in self.raised_by and event not in seen:
            seen[event] = len(walk)
            step, event = self.raised_by[event]
            walk.append(step)
        if event in seen:
            return walk[seen[event] :][::-1]
        begun = self.bounds.walk_to(self.before, event, self.before[event])
        return [*begun[:-1], *walk[::-1], Step("high", (first,))]
