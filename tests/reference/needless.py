"""Which rules a problem has: those that have a clause, without the ones that no admissible timing needs.

What is needless is told by the least and the greatest differences of two rows' times. Where no timing is
admissible, nothing is.
"""

import sys

sys.dont_write_bytecode = True  # leaves no compiled files beside the sources

from differences import differences_of
from instances import instances


def kept(problem):
    """The rules of a problem, each with its clause."""
    differences = differences_of(problem.log)
    return [
        instance
        for instance in instances(problem)
        if not is_needless(problem, differences, instance.hint.number, instance.hint.arguments)
    ]


def is_needless(problem, differences, number, arguments):
    """Whether an instance of a rule that has a clause is left out."""
    if differences is None:
        return False
    if number == 9:
        e, x = arguments
        return differences.least(e, x) >= 0
    if number in (10, 24):
        (e,) = arguments
        return is_never_first(differences, e)
    if number in (*range(12, 17), *range(18, 24), 28):
        k, i, *others = arguments
        return Reach(problem, differences, k).is_needless(number, i, *others)
    return False


def is_never_first(differences, e):
    """Whether in each timing some event is earlier."""
    return any(differences.greatest(e, x) < 0 for x in range(len(differences.most)))


class Reach:
    """An until or a since, and how far ahead of an event, or behind it, others are."""

    def __init__(self, problem, differences, k):
        kind, (self.low, self.high), left, _ = problem.nodes[k]
        self.is_until = kind == "until"
        self.is_free = problem.nodes[left][0] == "true"
        self.differences = differences

    def nearest(self, i, j):
        """The least distance of j from i, in the direction in which the node looks."""
        return self.differences.least(i, j) if self.is_until else self.differences.least(j, i)

    def farthest(self, i, j):
        """The greatest distance of j from i, in that direction."""
        return self.differences.greatest(i, j) if self.is_until else self.differences.greatest(j, i)

    def is_dead(self, i, j):
        """Whether j is never in the interval from i."""
        return self.farthest(i, j) < self.low or (self.high is not None and self.nearest(i, j) > self.high)

    def is_needless(self, number, i, j, m=None):
        """Whether an instance of a rule from 12 on is left out; in the rules 22 and 23 the second event is m."""
        if number == 12:
            near = self.nearest(i, j) >= self.low
            return near or self.is_dead(i, j) and self.farthest(i, j) >= self.low
        if number == 13:
            return self.farthest(i, j) <= self.high or self.farthest(i, j) < self.low
        if number in (14, 18, 28):
            return self.is_dead(i, j)
        if number in (15, 16, 20):
            return self.is_free or self.is_dead(i, j)
        if number == 19:
            aside = self.farthest(i, m) < 0 or self.nearest(j, m) >= 0
            return aside or self.is_free or self.is_dead(i, j)
        if number == 21:
            return self.farthest(j, m) < 0 or self.is_free or self.is_dead(i, j)
        if number == 22:
            return self.is_free or self.nearest(i, j) >= 0
        return self.is_free
