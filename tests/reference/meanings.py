"""What the literals of derivations say of a timing, by the meaning of formulas.

With it the checker of derivations is tested: what a right line says must hold in
each admissible timing that gives the value. Such timings are listed by going
through all, so the logs must be tiny.
"""

import reference

WINDOWS_MOST = 4000  # ways to give each row a time of its window that are gone through


def values(log, formula):
    """The values of a formula in all admissible timings of a log, which has few."""
    found = set()
    for times in admissible_timings(log):
        found.add(reference.truth(log, times, formula))
        if len(found) == 2:
            break
    return found


def values_where_few(log, formula):
    """The values of a formula, or None where the log may have too many timings to go through."""
    windows = 1
    for event in range(len(log.rows)):
        windows *= 2 * reference.skew_of(log, event) + 1
    return values(log, formula) if windows <= WINDOWS_MOST else None


def admissible_timings(log):
    """All admissible timings of a log."""
    readings = reference.readings_of(log)
    bounds = [[] for _ in log.rows]  # by the last row of each
    for bound in reference.bounds(log):
        bounds[last_row(bound)].append(bound)

    def longer(times):
        """The admissible timings that begin with these times of the first rows."""
        if len(times) == len(log.rows):
            yield times
            return
        row = log.rows[len(times)]
        skew = reference.skew_of(log, len(times))
        for time in range(row.local - skew, row.local + skew + 1):
            following = [*times, time]
            if not any(reference.is_broken(log, readings, bound, following) for bound in bounds[len(times)]):
                yield from longer(following)

    yield from longer([])


def last_row(bound):
    """The last row of those that a bound is of. What a row reads of a clock is compared with the rows before it."""
    if bound.kind in (b"under", b"over"):
        return bound.event
    return max(bound.start or 0, bound.end or 0)


class World:
    """A timing, with the truth of each node of a problem at each position."""

    def __init__(self, problem, times):
        self.problem = problem
        self.times = times
        self.instants = reference.positions(times)
        self.truths = []  # for each node the truth at each position
        for node in problem.nodes:
            places = range(len(self.instants))
            self.truths.append([self.node_truth(node, place) for place in places])

    def node_truth(self, node, place):
        """The truth of a node at a position, from that of the nodes below it."""
        kind = node[0]
        if kind == "true":
            return True
        if kind == "prop":
            instant = self.instants[place]
            return reference.state(self.problem.log, self.times, instant, *node[1:])
        if kind == "not":
            return not self.truths[node[1]][place]
        if kind == "and":
            return self.truths[node[1]][place] and self.truths[node[2]][place]
        interval, left, right = node[1:]
        return any(
            self.truths[right][other]
            and self.is_in(interval, self.distance(kind, place, other))
            and self.is_free(kind, left, self.instants[place], self.instants[other])
            for other in range(len(self.instants))
        )

    def distance(self, kind, place, other):
        """How far a position is ahead of another for an until, or behind it for a since."""
        difference = self.instants[other] - self.instants[place]
        return difference if kind == "until" else -difference

    def is_in(self, interval, distance):
        """Whether a distance lies in an interval."""
        low, high = interval
        return low <= distance and (high is None or distance <= high)

    def is_free(self, kind, left, start, end):
        """Whether the left side is true from one instant on the way to the other, end left out."""
        for instant, true in zip(self.instants, self.truths[left]):
            on_the_way = start <= instant < end if kind == "until" else end < instant <= start
            if on_the_way and not true:
                return False
        return True

    def place(self, event):
        """The position of an event."""
        return self.instants.index(self.times[event])

    def holds(self, literal):
        """Whether a literal holds in the timing."""
        return self.atom_holds(*literal.atom) == literal.positive

    def atom_holds(self, kind, *numbers):
        """Whether an atom holds in the timing."""
        times = self.times
        if kind == "order":
            e, f, bound = numbers
            return times[e] - times[f] <= bound
        if kind == "first":
            return times[numbers[0]] == min(times)
        if kind == "same":
            e, x = numbers
            return times[e] == times[x]
        if kind == "node":
            return self.truths[numbers[0]][self.place(numbers[1])]
        k, i, j = numbers
        form, interval, left, right = self.problem.nodes[k]
        is_free = self.is_free(form, left, times[i], times[j])
        if kind == "span":
            return is_free
        distance = self.distance(form, self.place(i), self.place(j))
        if kind == "wit":
            return is_free and self.is_in(interval, distance) and self.truths[right][self.place(j)]
        return is_free and distance >= 0 and not self.truths[left][self.place(j)]

    def clause_holds(self, clause):
        """Whether one of the literals of a clause holds in the timing."""
        return any(self.holds(literal) for literal in clause)

    def gives_value(self):
        """Whether the formula has the value that the problem seeks."""
        return self.truths[-1][0] == self.problem.value
