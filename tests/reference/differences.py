"""How far apart two rows of a log may be, over all its admissible timings.

The differences of two rows' times range from a least to a greatest number. Rises, messages, the greatest latencies and
extras tie a row to another one, what rows read of a clock ties them to its offset, and else both are tied to the zero
moment. So the most that one row may be above another is told by the ways from the one to the other along these bounds,
which may go through clocks, and by the latest time of the one and the earliest of the other.
"""

import sys
from typing import NamedTuple

sys.dont_write_bytecode = True  # leaves no compiled files beside the sources

import reference

NO_WAY = float("inf")


class Differences(NamedTuple):
    """How much later each row is than each other one, at least and at most."""

    most: list  # for two rows the most that the first one's time is above the second one's

    def greatest(self, e, f):
        """The greatest time of row f less that of row e."""
        return self.most[f][e]

    def least(self, e, f):
        """The least time of row f less that of row e."""
        return -self.most[e][f]


def differences_of(log):
    """The differences of a log, or None where no timing is admissible."""
    ways = ways_between(log)
    if ways is None:
        return None
    skews = [reference.skew_of(log, event) for event in range(len(log.rows))]
    lows = [row.local - skew for row, skew in zip(log.rows, skews)]
    highs = [row.local + skew for row, skew in zip(log.rows, skews)]
    latest = [min(way + high for way, high in zip(ways_on, highs)) for ways_on in ways]
    earliest = [max(low - ways_on[f] for low, ways_on in zip(lows, ways)) for f in range(len(ways))]
    if any(first > last for first, last in zip(earliest, latest)):
        return None
    return Differences([
        [min(way, last - first) for way, first in zip(ways_on, earliest)]
        for ways_on, last in zip(ways, latest)
    ])


def ways_between(log):
    """For two rows the least sum of a way of steps from the first to the second; None where a circle's is negative.

    The steps are the bounds between rows and clocks. They are taken from the last one on, since most of them go to
    later rows, and again until no way gets shorter. Of the ways to and from clocks nothing is told.
    """
    steps = [bound for bound in reference.bounds(log) if None not in (bound.start, bound.end)]
    nodes = range(len(log.rows) + len(log.clocks))
    ways = [[0 if start == end else NO_WAY for end in nodes] for start in nodes]
    is_settled = False
    while not is_settled:
        is_settled = True
        for step in reversed(steps):
            known = ways[step.start]
            shorter = [min(way, step.most + on) for way, on in zip(known, ways[step.end])]
            if shorter[step.start] < 0:
                return None
            if shorter != known:
                ways[step.start], is_settled = shorter, False
    rows = len(log.rows)
    return [ways_on[:rows] for ways_on in ways[:rows]]
