"""Truth of a formula at every position of a timing, in passes over the positions: no search, and no program."""

from __future__ import annotations

from bisect import bisect_left
from operator import and_, or_
from typing import Dict, Iterable, List, NamedTuple, Optional, Sequence, Tuple, Union

from ask.formulas import Tree
from ask.windows.longlog import CLEAR, PULSE, SET, LongLog

FORWARD = ("F", "G", "U")
FLIP = bytes([1, 0]) + bytes(range(2, 256))


class Truth(NamedTuple):
    """The positions of a timing, rising, and whether a formula is true at each."""

    positions: List[int]
    values: bytearray

    def false_at(self) -> List[int]:
        """The moments at which the formula is false."""
        return [moment for moment, value in zip(self.positions, self.values) if not value]

    def is_false_within(self, first: int, last: int) -> bool:
        """Whether it is false at some position from one moment to another."""
        return 0 in self.values[bisect_left(self.positions, first) : bisect_left(self.positions, last + 1)]


class Evaluator:
    """A timing of some rows of a log, with the truth of formulas at its positions as it is found.

    The rows are in the order of the log, and of each host they are on end. What was set before them is told.
    """

    def __init__(
        self, log: LongLog, events: Sequence[int], times: Union[Dict[int, int], Sequence[int]],
        is_set: Iterable[Tuple[int, str]] = (),
    ):
        self.log, self.events, self.times = log, events, times
        self.positions = sorted({times[event] for event in events})
        self.place = {moment: place for place, moment in enumerate(self.positions)}
        self.is_set = set(is_set)
        self.known: Dict[int, bytearray] = {}
        self.changes: Dict[Tuple[int, int], List[int]] = {}  # the rows of a proposition, by host and name

    def truth(self, tree: Tree) -> Truth:
        """The truth of a formula at all positions."""
        self.find_changes(tree)
        return Truth(self.positions, self.values(tree))

    def find_changes(self, tree: Tree) -> None:
        """Finds the rows that change or pulse the propositions of a formula."""
        rows = self.log.rows
        names: Dict[Tuple[int, int], List[int]] = {}
        waiting = [tree]
        while waiting:
            part = waiting.pop()
            host, name = self.log.host_numbered(part.host), rows.number_of.get(part.name)
            if part.form == "prop" and host is not None and name is not None:
                names[host, name] = []
            waiting += part.parts
        for event in self.events:
            if rows.kind[event] in (SET, CLEAR, PULSE):
                found = names.get((rows.host[event], rows.name[event]))
                if found is not None:
                    found.append(event)
        self.changes.update(names)

    def values(self, tree: Tree) -> bytearray:
        """The truth of a part at each position."""
        if id(tree) not in self.known:
            self.known[id(tree)] = self.found(tree)
        return self.known[id(tree)]

    def found(self, tree: Tree) -> bytearray:
        """The same where it isn't known yet."""
        form, count = tree.form, len(self.positions)
        if form in ("true", "false"):
            return bytearray([form == "true"]) * count
        if form == "prop":
            return self.states(tree)
        parts = [self.values(part) for part in tree.parts]
        if form == "!":
            return flipped(parts[0])
        if form == "&":
            return bytearray(map(and_, *parts))
        if form == "|":
            return bytearray(map(or_, *parts))
        if form == "->":
            return bytearray(map(or_, flipped(parts[0]), parts[1]))
        low, high = (int(bound) for bound in tree.interval)
        if form in ("G", "H"):
            return flipped(self.witnessed(form, low, high, None, flipped(parts[0])))
        return self.witnessed(form, low, high, parts[0] if form in ("U", "S") else None, parts[-1])

    def states(self, tree: Tree) -> bytearray:
        """The state of a proposition at each position: its pulses there, else its last change up to there."""
        host, name = self.log.host_numbered(tree.host), self.log.rows.number_of.get(tree.name)
        now, since, values = (host, tree.name) in self.is_set, 0, bytearray()
        pulses: List[int] = []
        for event in self.changes.get((host, name), ()) if host is not None and name is not None else ():
            place = self.place[self.times[event]]
            if self.log.rows.kind[event] == PULSE:
                pulses.append(place)
                continue
            values += bytes([now]) * (place - since)
            now, since = self.log.rows.kind[event] == SET, place
        values += bytes([now]) * (len(self.positions) - since)
        for place in pulses:
            values[place] = 1
        return values

    def witnessed(self, form: str, low: int, high: int, left: Optional[bytearray], right: bytearray) -> bytearray:
        """Where there is a witness at a distance from low to high, up to which the left side is true.

        The nearest witness is as good as any, since the left side has to be true up to it alone.
        """
        moments = self.positions
        if form not in FORWARD:  # time is turned round
            moments = [-moment for moment in reversed(moments)]
            left, right = None if left is None else left[::-1], right[::-1]
        count = len(moments)
        witness, stop = next_places(right, 1), next_places(left, 0) if left is not None else None
        values, reach = bytearray(count), 0
        for place, moment in enumerate(moments):
            while reach < count and moments[reach] < moment + low:
                reach += 1
            found = witness[max(reach, place)]
            if found < count and moments[found] <= moment + high and (stop is None or stop[place] >= found):
                values[place] = 1
        return values if form in FORWARD else values[::-1]


def flipped(values: bytearray) -> bytearray:
    """The values of a negation."""
    return values.translate(FLIP)


def next_places(values: Sequence[int], wanted: int) -> List[int]:
    """For each place, and the one behind the last, the next place from there on with a value; the end where none is."""
    found, places = len(values), [len(values)] * (len(values) + 1)
    for place in range(len(values) - 1, -1, -1):
        if values[place] == wanted:
            found = place
        places[place] = found
    return places
