"""Stretches of true time in which a proposition of a formula can be true.

Where a formula can be false only at an instant at which one of its propositions is true, it can't be anywhere else, in
any timing: no window has to be asked of what lies between its spells.
"""

from __future__ import annotations

from array import array
from bisect import bisect_left
from typing import Iterable, Iterator, Optional

from ask.windows.bounds import Times
from ask.windows.cuts import Slice
from ask.windows.guard import is_false_in_spells
from ask.windows.longlog import CLEAR, PULSE, SET, LongLog
from ask.windows.shape import Shape


class Spells:
    """Stretches of true time, rising, none of which meets another."""

    def __init__(self, stretches: Iterable[Slice]):
        self.first, self.last = array("q"), array("q")
        for stretch in sorted(stretches):
            if self.last and stretch.first <= self.last[-1]:
                self.last[-1] = max(self.last[-1], stretch.last)
            else:
                self.first.append(stretch.first)
                self.last.append(stretch.last)

    def meet(self, part: Slice) -> bool:
        """Whether a moment of a slice is in a spell."""
        place = bisect_left(self.last, part.first)
        return place < len(self.first) and self.first[place] <= part.last


def spells_of(log: LongLog, shape: Shape, times: Times) -> Optional[Spells]:
    """The spells of what has to be true everywhere, where it can be false in these alone; else None."""
    if not is_false_in_spells(shape.body):
        return None
    hosts = [(log.host_numbered(host), log.rows.number_of.get(name)) for host, name in shape.propositions]
    keys = [(host, name) for host, name in hosts if host is not None and name is not None]
    return Spells(stretch for host, name in keys for stretch in stretches_of(log, host, name, times))


def stretches_of(log: LongLog, host: int, name: int, times: Times) -> Iterator[Slice]:
    """Where a proposition of a host can be true: at its pulses, and from each row that sets it to the next that clears it."""
    rows, since = log.rows, None
    for event in log.of[host]:
        if rows.name[event] != name:
            continue
        if rows.kind[event] == PULSE:
            yield Slice(times.least[event], times.greatest[event])
        elif rows.kind[event] == SET and since is None:
            since = times.least[event]
        elif rows.kind[event] == CLEAR and since is not None:
            yield Slice(since, times.greatest[event])
            since = None
    if since is not None:
        yield Slice(since, max(times.greatest))
