"""The meaning of logs, formulas and timings, in the most direct way.

Truth is found by recursion over positions, and happened-before is a
transitive closure. The texts are read by logs.py and formats.py.
"""

import itertools
from typing import NamedTuple, Optional

# Bounds


class Bound(NamedTuple):
    """The bound t_start - t_end <= most.

    An end that is None is the zero moment, and one from the number of rows on
    is a clock, whose time is its offset: clock k stands k behind the rows.
    """

    kind: bytes
    event: int  # of an extra its number
    start: Optional[int]
    end: Optional[int]
    most: int


def bounds(log):
    """The bounds of a log in their order."""
    found = []
    readings = readings_of(log)
    for event, row in enumerate(log.rows):
        skew, gap = skew_of(log, event), gap_of(log, event)
        found.append(Bound(b"low", event, None, event, skew - row.local))
        found.append(Bound(b"high", event, event, None, row.local + skew))
        previous = row_before(log, event)
        if previous is not None:
            found.append(Bound(b"rise", event, previous, event, -gap))
        if row.act == b"recv":
            host, send = log.hosts[row.host], send_of(log, event)
            found.append(Bound(b"message", event, send, event, -host.least))
            if host.most is not None:
                found.append(Bound(b"late", event, event, send, host.most))
        reading = readings[event]
        if reading is not None:
            clock = len(log.rows) + reading.clock
            found.append(Bound(b"under", event, clock, event, reading.error - row.local))
            found.append(Bound(b"over", event, event, clock, row.local + reading.error))
    for number, extra in enumerate(log.extras):
        found.append(Bound(b"extra", number, *extra))
    return found


def skew_of(log, event):
    """By how much the local time of a row may be off."""
    return setting_of(log, event).skew


def gap_of(log, event):
    """How long after the row before it on its host a row comes at least."""
    return setting_of(log, event).gap


def setting_of(log, event):
    """What tells the skew and the gap of a row: the last resync of its host before it, or the host."""
    return last_before(log, log.resyncs, event) or log.hosts[log.rows[event].host]


def readings_of(log):
    """For each row what tells the clock that it reads, and its error: the last reading of its host before it, or None."""
    return [last_before(log, log.readings, event) for event in range(len(log.rows))]


def last_before(log, items, event):
    """The last of the resyncs or the readings that is of a row's host and stands before the row, or None."""
    host = log.rows[event].host
    return next((item for item in reversed(items) if item.host == host and item.place <= event), None)


def row_before(log, event):
    """The last earlier row of the same host, or None."""
    earlier = [other for other in range(event) if log.rows[other].host == log.rows[event].host]
    return earlier[-1] if earlier else None


def send_of(log, event):
    """The row that sends the message which the row of the event receives."""
    for other, row in enumerate(log.rows):
        if row.act == b"send" and row.name == log.rows[event].name:
            return other
    raise ValueError("a message that is received but not sent")


def holds(bound, times):
    """Whether times of the rows, and behind them offsets of the clocks if the bound is of a clock, keep a bound."""
    start = 0 if bound.start is None else times[bound.start]
    end = 0 if bound.end is None else times[bound.end]
    return start - end <= bound.most


def first_broken(log, times):
    """The first bound that the times of the rows break, or None."""
    readings = readings_of(log)
    return next((bound for bound in bounds(log) if is_broken(log, readings, bound, times)), None)


def is_broken(log, readings, bound, times):
    """Whether the times of the rows break a bound; the readings are those of the rows.

    What a row reads of a clock is broken where a row before it reads the same
    clock and no offset is right for both: of `under` where the earlier row is
    too far ahead of its stamp beside this one, and of `over` where this one is.
    """
    if bound.kind not in (b"under", b"over"):
        return not holds(bound, times)
    row = bound.event
    sign = 1 if bound.kind == b"under" else -1
    return any(
        sign * (ahead(log, times, other) - ahead(log, times, row)) > readings[other].error + readings[row].error
        for other in range(row)
        if is_of_one_clock(readings, other, row)
    )


def ahead(log, times, event):
    """By how much a row's time is ahead of its stamp."""
    return times[event] - log.rows[event].local


def is_of_one_clock(readings, first, second):
    """Whether two rows read one clock."""
    pair = readings[first], readings[second]
    return None not in pair and pair[0].clock == pair[1].clock


def admissible(log, times):
    """Whether the times keep skews, gaps and latencies, row by row, the extras, and what rows read of clocks."""
    for event, row in enumerate(log.rows):
        if abs(times[event] - row.local) > skew_of(log, event):
            return False
        previous = row_before(log, event)
        if previous is not None and times[event] - times[previous] < gap_of(log, event):
            return False
        if row.act == b"recv" and not keeps_latency(log, times, event):
            return False
    if not all(times[first] - times[second] <= most for first, second, most in log.extras):
        return False
    return keeps_clocks(log, times)


def keeps_clocks(log, times):
    """Whether any two rows that read one clock are ahead of their stamps alike, but for what both readings may be off.

    Then there is an offset for each clock that is right for all that rows read of it: how far a row may be ahead of its
    stamp by its own reading is an interval, and intervals that meet by pairs have a number in common.
    """
    readings = readings_of(log)
    return all(
        ahead(log, times, first) - ahead(log, times, second) <= readings[first].error + readings[second].error
        for first, second in itertools.permutations(range(len(log.rows)), 2)
        if is_of_one_clock(readings, first, second)
    )


def keeps_latency(log, times, event):
    """Whether the message that a row receives takes as long as messages to its host take."""
    host = log.hosts[log.rows[event].host]
    took = times[event] - times[send_of(log, event)]
    return host.least <= took and (host.most is None or took <= host.most)


# Truth


def positions(times):
    """The rising list of the distinct times."""
    return sorted(set(times))


def state(log, times, instant, host, name):
    """Whether a proposition of a host is true at an instant: by a pulse there, or by its last change."""
    value = False
    for row, time in zip(log.rows, times):
        if log.hosts[row.host].name == host and row.name == name and time <= instant:
            if row.act == b"pulse" and time == instant:
                return True
            if row.act in (b"set", b"clear"):
                value = row.act == b"set"
    return value


def truth(log, times, tree):
    """Whether a formula is true at the first position of a timing."""
    instants = positions(times)
    known = {}

    def at(node, place):
        key = (id(node), place)
        if key not in known:
            known[key] = value(node, place)
        return known[key]

    def value(node, place):
        form = node.form
        if form == "true":
            return True
        if form == "false":
            return False
        if form == "prop":
            return state(log, times, instants[place], node.host, node.name)
        if form == "!":
            return not at(node.children[0], place)
        if form in ("F", "G", "O", "H"):
            inner = [at(node.children[0], other) for other in asked(node, place)]
            return any(inner) if form in ("F", "O") else all(inner)
        left, right = node.children
        if form == "&":
            return at(left, place) and at(right, place)
        if form == "|":
            return at(left, place) or at(right, place)
        if form == "->":
            return not at(left, place) or at(right, place)
        for other in asked(node, place):
            if at(right, other) and all(at(left, between) for between in way(form, place, other)):
                return True
        return False

    def asked(node, place):
        """The positions whose distance from the place lies in the node's interval."""
        low, high = node.interval
        forward = node.form in ("F", "G", "U")
        others = range(place, len(instants)) if forward else range(place + 1)
        for other in others:
            distance = abs(instants[other] - instants[place])
            if low <= distance and (high is None or distance <= high):
                yield other

    def way(form, place, other):
        """The positions at which the left side must be true for a witness at the other."""
        return range(place, other) if form == "U" else range(other + 1, place + 1)

    return at(tree, 0)


# Happened-before


def directly_before(log):
    """The pairs of successive rows of a host, and of sends and their receives."""
    pairs = set()
    for event, row in enumerate(log.rows):
        previous = row_before(log, event)
        if previous is not None:
            pairs.add((previous, event))
        if row.act == b"recv":
            pairs.add((send_of(log, event), event))
    return pairs


def earlier(log):
    """For each row the rows that happen before it, as the bits of a number."""
    found = [0] * len(log.rows)
    for first, second in directly_before(log):
        found[second] |= 1 << first
    for middle in range(len(found)):
        for event in range(len(found)):
            if found[event] >> middle & 1:
                found[event] |= found[middle]
    return found


def vector_clocks(log):
    """Per row the number of each host's rows that are it or happen before it.

    None where some row happens before itself.
    """
    before = earlier(log)
    if any(rows >> event & 1 for event, rows in enumerate(before)):
        return None
    hosts = range(len(log.hosts))
    of_host = [sum(1 << event for event, row in enumerate(log.rows) if row.host == host) for host in hosts]
    return [
        [((rows | 1 << event) & of_host[host]).bit_count() for host in hosts]
        for event, rows in enumerate(before)
    ]
