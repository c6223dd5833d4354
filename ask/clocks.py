"""What a time service says of a clock: lines of chronyd and ntpd on steps, chrony's tracking log, chronyc's report."""

from __future__ import annotations

import heapq
import math
import re
from bisect import bisect_left, bisect_right
from dataclasses import dataclass, field
from fractions import Fraction
from itertools import accumulate
from typing import Dict, Iterable, List, NamedTuple, Sequence, Tuple

from ask.events import WRONG, read_stamp
from ask.making import Line, Making, moment_in
from ask.stamps import MONTHS, UNITS, Stamp, duration_in_units, stamp_of
from ask.texts import LINE_END, Source, Trouble, data_of, read_source
from ask.words import USAGE, counted, shortened

STEPPED = re.compile(
    r"(?:was stepped by|clock_step|time reset) ([+-]?)(\d{1,9}(?:\.\d{1,9})?) ?(?:seconds|s)\b", re.ASCII
)
SYSLOG = re.compile(r"(?:(\d\d?) ([A-Z][a-z]{2})|([A-Z][a-z]{2}) +(\d\d?)) (\d\d:\d\d:\d\d)\b", re.ASCII)
TRACKING_FIELDS = 14
DAY = 86400
REPORTED = ("System time", "Root delay", "Root dispersion")  # the lines of chronyc's report that make its error
SECONDS = re.compile(r"([+-]?\d{1,9}(?:\.\d{1,18})?) seconds\b", re.ASCII)


class ClockStep(NamedTuple):
    """A step of a clock: up to and from which stamp on rows may be before and after it, and how far it went."""

    first: int
    last: int
    size: int


class Update(NamedTuple):
    """An update of a clock: its second, and the greatest error of the clock since the update before."""

    moment: int
    error: int


@dataclass
class Clock:
    """What is told of a clock, in units, of which a second has so many."""

    second: int
    steps: List[ClockStep] = field(default_factory=list)
    updates: List[Update] = field(default_factory=list)
    reported: int = 0  # the greatest error by a report of chronyc

    def errors(self, lines: Sequence[Line]) -> List[int]:
        """By how much the stamp of each row of a host, in their order, may be off beside the skew."""
        steps, passed, found = Steps(self.steps), 0, []
        sizes = [step.size for step in steps.all] + [0]
        tracked = self.tracked_errors(lines)
        for line in lines:
            while passed < len(steps.all) and line.stamp > steps.all[passed].last:
                passed += 1
            moment = line.known_at()
            before = passed if moment == line.stamp else steps.passed_by(moment)
            # The size of the step that comes next, 0 where no more comes; of those that may be next, the greatest.
            end = max(before, steps.begun_by(moment))
            found.append(max(sizes[before : end + 1]) + max(tracked.get(moment, 0), self.reported))
        return found

    def tracked_errors(self, lines: Sequence[Line]) -> Dict[int, int]:
        """The greatest error at each moment at which rows read the clock, by the tracking log, where there is one.

        A stamp in the second of an update may be before it and after it.
        """
        if not self.updates:
            return {}
        spans = sorted(
            (before.moment, update.moment + self.second, update.error)
            for before, update in zip(self.updates, self.updates[1:])
        )
        found: Dict[int, int] = {}
        open_spans: List[Tuple[int, int]] = []  # those that have begun: their errors, the greatest first, and their ends
        begun = 0
        for moment in sorted({line.known_at() for line in lines}):
            while begun < len(spans) and spans[begun][0] <= moment:
                heapq.heappush(open_spans, (-spans[begun][2], spans[begun][1]))
                begun += 1
            while open_spans and open_spans[0][1] <= moment:
                heapq.heappop(open_spans)
            if open_spans:
                found[moment] = -open_spans[0][0]
        outside = next((line for line in lines if line.known_at() not in found), None)
        if outside:
            words = f"the stamp {outside.known_at()} isn't between two updates of the tracking log"
            raise Trouble(WRONG, f"{outside.where}: {words}")
        return found


# Steps


class Steps:
    """The steps of a clock in their order, of which is asked what they are at a moment."""

    def __init__(self, steps: Iterable[ClockStep]):
        self.all = sorted(steps)
        self.firsts = [step.first for step in self.all]
        self.lasts = list(accumulate((step.last for step in self.all), max))  # the greatest one up to each
        self.sums = [0, *accumulate(step.size for step in self.all)]

    def passed_by(self, moment: int) -> int:
        """How many are surely before a moment."""
        return bisect_left(self.lasts, moment)

    def begun_by(self, moment: int) -> int:
        """How many may be before a moment."""
        return bisect_right(self.firsts, moment)

    def doubt(self, passed: int, moment: int) -> int:
        """How far those go together that may be before a moment, but for so many that are passed."""
        return self.sums[max(passed, self.begun_by(moment))] - self.sums[passed]


def steps_told(making: Making, telling: str) -> List[ClockStep]:
    """The step that `STAMP,D` tells."""
    text, comma, size_text = telling.rpartition(",")
    size = duration_in_units(size_text.lstrip("+-"), making.unit)
    if not comma or size is None:
        raise Trouble(USAGE, f"--step {telling}: it is STAMP,D, as 2023-11-14T22:13:28Z,31.2ms")
    stamp = read_stamp(text, "--step")
    moment = moment_in(making, stamp)
    is_exact = bool(stamp.digits) or making.is_whole and stamp.kind == "whole"
    room = 0 if is_exact else 10 ** UNITS[making.unit or "s"]
    return [ClockStep(moment - room, moment + room + size, size)]


def steps_of_file(making: Making, name: str) -> List[ClockStep]:
    """The steps that lines of chronyd or ntpd tell, none of a part without rows; their moments are known to the second."""
    source = read_source(name)
    if not making.lines:
        return []
    second = 10 ** UNITS[making.unit or "s"]
    steps = []
    for number, line in enumerate(lines_of(source), start=1):
        found = STEPPED.search(line)
        if not found:
            continue
        where = f"{source.name}, line {number}"
        moment = moment_in(making, moment_of_line(making, line, where))
        size = duration_in_units(found.group(2) + "s", making.unit) or 0
        steps.append(ClockStep(moment - second, moment + second + size, size))
        making.notes.append(f"{where}: a step of the clock by {found.group(2)} s, at {moment}")
    if not steps:
        making.notes.append(f"{source.name} tells of no step of a clock")
    return steps


def lines_of(source: Source) -> List[str]:
    """The lines of a file, as an editor counts them."""
    return [line.decode("utf-8", "replace") for line in LINE_END.split(data_of(source))]


def moment_of_line(making: Making, line: str, where: str) -> Stamp:
    """The moment at the beginning of a line; where it has no year, the year that is nearest to the rows."""
    text = line.strip()
    for length in (1, 2):
        stamp = stamp_of(" ".join(text.split(" ")[:length]))
        if stamp and stamp.kind == "iso":
            return stamp
    found = SYSLOG.match(text)
    if not found or (found.group(2) or found.group(3)) not in MONTHS:
        examples = "2023-11-14T22:13:28Z or Nov 14 22:13:28"
        raise Trouble(WRONG, f"{where}: it begins with no time that is known, as {examples}")
    day, month = found.group(1) or found.group(4), MONTHS.index(found.group(2) or found.group(3)) + 1
    middle = making.lines[len(making.lines) // 2].stamp // 10 ** UNITS[making.unit or "s"]
    year = 1970 + middle // (365 * DAY + DAY // 4)
    stamps = [stamp_of(f"{y:04}-{month:02}-{int(day):02}T{found.group(5)}Z") for y in (year - 1, year, year + 1)]
    known = [stamp for stamp in stamps if stamp]
    if not known:
        raise Trouble(WRONG, f"{where}: there is no such day")
    making.notes.append(f"{where}: its time without a year and a zone is taken as UTC, in the year nearest to the rows")
    return min(known, key=lambda stamp: abs(stamp.seconds - middle))


# Tracking


class Tracked(NamedTuple):
    """What a file tells of the errors of a clock: the updates of a tracking log, or the error of a report."""

    updates: List[Update]
    reported: int = 0


def tracking_of_file(making: Making, name: str) -> Tracked:
    """What a file tells that is a tracking log of chrony, or what `chronyc tracking` wrote."""
    source = read_source(name)
    lines = lines_of(source)
    report = {key.strip(): value.strip() for key, colon, value in (line.partition(" : ") for line in lines) if colon}
    if set(REPORTED) <= set(report):
        return Tracked([], reported_error(report, making, source.name))
    return Tracked(updates_of_lines(making, lines, source.name))


def updates_of_lines(making: Making, lines: Sequence[str], name: str) -> List[Update]:
    """The updates of a tracking log of chrony, whose titles and rules are left out."""
    updates = []
    for number, line in enumerate(lines, start=1):
        fields = line.split()
        if len(fields) != TRACKING_FIELDS or not fields[0][:1].isdigit():
            continue
        where = f"{name}, line {number}"
        moment = moment_in(making, read_stamp(f"{fields[0]}T{fields[1]}Z", where))
        updates.append(Update(moment, error_of(fields[-1], making, where)))
    if len(updates) < 2:
        raise Trouble(WRONG, (
            f"{name} is no tracking log of chrony, with {counted(len(updates), 'update')}, and nothing that `chronyc "
            "tracking` wrote"
        ))
    return updates


def reported_error(report: Dict[str, str], making: Making, name: str) -> int:
    """The greatest error of a clock by a report of `chronyc tracking`, in units, rounded up.

    By chrony's manual it is the offset of the system's time, half of the root delay and the root dispersion.
    """
    if report.get("Leap status") == "Not synchronised":
        raise Trouble(WRONG, f"{name}: the clock isn't synchronised, so that nothing is known of its error")
    texts = []
    for key in REPORTED:
        found = SECONDS.match(report[key])
        if not found:
            raise Trouble(WRONG, f"{name}: {key} is {report[key]!r}, and no number of seconds")
        texts.append(found.group(1))
    offset, delay, dispersion = (Fraction(text) for text in texts)
    error = math.ceil((abs(offset) + delay / 2 + dispersion) * 10 ** UNITS[making.unit or "s"])
    moment = shortened(report.get("Ref time (UTC)", "not told"))
    making.notes.append(
        f"{name}: the clock was off by up to {error} at the moment of this report, whose reference time is {moment}: "
        "rows of other moments may be off by more"
    )
    return error


def error_of(text: str, making: Making, where: str) -> int:
    """The greatest error of a line in units, as `2.944e-02` of seconds, rounded up."""
    found = re.fullmatch(r"(\d{1,9})(?:\.(\d{1,18}))?(?:e([+-]\d{1,2}))?", text, re.ASCII)
    if not found:
        raise Trouble(WRONG, f"{where}: the greatest error {shortened(text)!r} is no number")
    whole, digits, power = found.group(1), found.group(2) or "", int(found.group(3) or 0)
    shift = UNITS[making.unit or "s"] + power - len(digits)
    number = int(whole + digits)
    return number * 10**shift if shift >= 0 else -(-number // 10**-shift)
