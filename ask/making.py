"""A log in the making: its rows with their stamps in whole units, and the window that is cut of them."""

from __future__ import annotations

import argparse
from collections import Counter
from dataclasses import dataclass, field
from typing import Dict, List, NamedTuple, Optional, Sequence, Tuple

from ask.events import WRONG, Event, FileClock, Limits, read_stamp
from ask.logs import MOST_STAMP
from ask.stamps import UNIT_WORDS, Stamp, finest_unit, in_units, loses_digits
from ask.texts import Trouble
from ask.words import USAGE, counted, listed


@dataclass
class Line:
    """A row of the log to be, with what its file says of its clock, and then its skew and gap in units.

    Rows of one number are of one event, and a row that is carried in is of none. What is read of a clock is the name of
    that clock and the error of the reading; the clock of a machine was read at a moment, which may be another row's.
    """

    host: str
    stamp: int
    kind: str
    name: str
    id: str
    where: str = ""
    limits: Optional[Limits] = None
    is_carried: bool = False
    skew: int = 0
    gap: int = 0
    number: int = -1
    machine: str = ""
    duration: str = ""
    begun: Optional[int] = None
    read_at: Optional[int] = None  # None where the stamp itself was read
    file_clock: Optional[FileClock] = None
    clock: str = ""
    error: int = 0

    def known_at(self) -> int:
        """The stamp, or the moment before it at which the clock was read of which it is computed."""
        return self.stamp if self.read_at is None else min(self.stamp, self.read_at)


class Tie(NamedTuple):
    """That all rows of one event are at most so much after those of another, by the numbers of the events."""

    later: int
    earlier: int
    most: int


@dataclass
class Making:
    """A log in the making, and what is said of it."""

    lines: List[Line]
    unit: Optional[str]  # None where nobody named it
    is_whole: bool  # whether the stamps were units already
    notes: List[str] = field(default_factory=list)
    warnings: List[str] = field(default_factory=list)  # what may be otherwise than whoever asks thinks
    cut: Dict[str, int] = field(default_factory=dict)  # how many stamps of each host lost digits below a unit
    idle: Dict[str, Limits] = field(default_factory=dict)  # hosts without rows that stay, with what their file says
    spellings: Dict[str, str] = field(default_factory=dict)  # hosts that were taken as another one
    named: Dict[str, List[str]] = field(default_factory=dict)  # the hosts that a word names beside those of that name
    shown: Dict[str, str] = field(default_factory=dict)  # hosts of parts, each with its name in its part
    ties: List[Tie] = field(default_factory=list)  # in their order
    places_of_ties: Dict[int, List[int]] = field(default_factory=dict)  # what ties_by_later found

    def hosts(self) -> List[str]:
        """The hosts in the order of their first rows, by their names in the files, and those without rows."""
        return list(dict.fromkeys([*(line.host for line in self.lines), *self.idle]))

    def host_named(self, word: str) -> Optional[str]:
        """The host that a word names, or None."""
        host = self.spellings.get(word, word)
        return host if host in self.hosts() else None

    def name_of(self, host: str) -> str:
        """The name of a host by the files, or in its part."""
        return self.shown.get(host, host)

    def words_for_hosts(self) -> List[str]:
        """What hosts can be named by."""
        return [word for word in dict.fromkeys([*self.named, *self.hosts()]) if word not in self.shown]

    def hosts_named(self, word: str) -> List[str]:
        """The hosts that a word names: several, where it names what they are of."""
        if word in self.named:
            return self.named[word]
        host = self.host_named(word)
        return [] if host is None else [host]

    def ties_by_later(self) -> Dict[int, List[int]]:
        """The places of ties by the number of their later event."""
        if len(self.places_of_ties) == 0:
            for place, tie in enumerate(self.ties):
                self.places_of_ties.setdefault(tie.later, []).append(place)
        return self.places_of_ties

    def machines(self) -> Dict[str, List[str]]:
        """The hosts of each machine."""
        found: Dict[str, List[str]] = {}
        for machine, host in dict.fromkeys((line.machine, line.host) for line in self.lines if not line.is_carried):
            found.setdefault(machine, []).append(host)
        return found


def making_of(events: Sequence[Event], wanted: Optional[str]) -> Making:
    """The rows of events with their stamps in whole units."""
    stamps = [event.stamp for event in events]
    is_whole = are_whole(events)
    unit = wanted if wanted or is_whole else finest_unit(stamps)
    making = Making([], unit, is_whole)
    for event in events:
        moment = event.stamp.seconds if is_whole else in_units(event.stamp, unit or "s")
        if abs(moment) > MOST_STAMP:
            raise Trouble(
                WRONG,
                f"{event.where}: the stamp {event.text} is {moment} in units, and at most 4*10^18: choose a "
                "coarser --unit",
            )
        read_at = None if event.read_at is None else in_units(event.read_at, unit or "s")
        making.lines.append(Line(
            event.host, moment, event.kind, event.name, event.id, event.where, event.limits, number=event.number,
            machine=event.machine, duration=event.duration, begun=event.begun, read_at=read_at, file_clock=event.clock,
        ))
    if is_whole:
        making.notes.append(
            f"unit: {UNIT_WORDS[unit]}, as --unit says" if unit else "unit: that of the stamps, which are whole numbers"
        )
        return making
    since = "since 1970-01-01T00:00:00Z" if any(s.kind == "iso" for s in stamps) else "of the seconds in the file"
    making.notes.append(f"unit: {UNIT_WORDS[unit or 's']} {since}")
    making.cut = Counter(event.host for event in events if loses_digits(event.stamp, unit or "s"))
    bare = sum(not stamp.has_zone for stamp in stamps)
    if bare:
        making.notes.append(f"{counted(bare, 'stamp')} without a zone {'is' if bare == 1 else 'are'} taken as UTC")
    return making


def are_whole(events: Sequence[Event]) -> bool:
    """Whether all stamps are whole numbers, which are units already; beside decimals they are seconds."""
    kinds = {event.stamp.kind for event in events}
    if "iso" in kinds and len(kinds) > 1:
        odd = next(event for event in events if event.stamp.kind != "iso")
        raise Trouble(WRONG, f"{odd.where}: the stamp {odd.text} is a plain number, and others are ISO 8601 times")
    return kinds <= {"whole"}


def moment_in(making: Making, stamp: Stamp) -> int:
    """A moment in the units of the rows."""
    return stamp.seconds if making.is_whole and stamp.kind == "whole" else in_units(stamp, making.unit or "s")


# Windows


def cut_window(making: Making, arguments: argparse.Namespace) -> None:
    """Leaves out the rows outside the window, and carries in what they have set."""
    only = set(arguments.only)
    begin, end = (limit_of(text, making) for text in (arguments.begin, arguments.end))
    is_kept = [
        (not only or line.id in only)
        and (begin is None or line.stamp >= begin)
        and (end is None or line.stamp <= end)
        for line in making.lines
    ]
    left_out = is_kept.count(False)
    known = {line.id for line in making.lines}
    missing = [id_ for id_ in arguments.only if id_ not in known]
    if missing and not arguments.part:
        raise Trouble(WRONG, f"no row has the id {listed(missing)}")
    if missing:
        making.notes.append(f"no row of this part has the id {listed(missing)}")
    carried = carried_in(making.lines, is_kept, begin) if begin is not None or arguments.carry else []
    making.lines = carried + [line for line, kept in zip(making.lines, is_kept) if kept]
    if left_out:
        making.notes.append(f"{counted(left_out, 'row')} outside the window left out")
    if begin is not None or end is not None:
        making.notes.append(
            "rows near the edge of a window by time may have happened on its other side, within their skew"
        )


def limit_of(text: Optional[str], making: Making) -> Optional[int]:
    """An end of the window in units."""
    if text is None:
        return None
    stamp = read_stamp(text, "the window")
    if making.is_whole and stamp.kind != "whole":
        raise Trouble(USAGE, f"the window's {text} is no whole number, as the stamps are")
    return moment_in(making, stamp)


def carried_in(lines: Sequence[Line], is_kept: Sequence[bool], begin: Optional[int]) -> List[Line]:
    """A `set` row for each proposition that was true before its host's first row of the window."""
    firsts: Dict[str, Line] = {}
    for line, kept in zip(lines, is_kept):
        if kept:
            firsts.setdefault(line.host, line)
    state: Dict[Tuple[str, str], Line] = {}
    begun = set()
    for line, kept in zip(lines, is_kept):
        begun |= {line.host} if kept else set()
        is_before = begin is None or line.stamp < begin
        if line.kind in ("set", "clear") and line.host not in begun and is_before:
            state[line.host, line.name] = line
    carried = []
    for (host, name), last in state.items():
        first = firsts.get(host)
        stamp = begin if begin is not None else first.stamp if first else None
        if last.kind == "set" and stamp is not None:
            limits = (first or last).limits
            carried.append(Line(host, stamp, "set", name, "", last.where, limits, is_carried=True))
    return carried


def spread_carried(making: Making) -> None:
    """Puts the rows that are carried in a gap apart, before the first row of their host."""
    gaps: Dict[str, int] = {}
    for line in reversed(making.lines):
        if line.is_carried:
            gaps[line.host] = gaps.get(line.host, 0) + line.gap
            line.stamp -= gaps[line.host]
    for line in making.lines:
        if line.is_carried:
            making.notes.append(
                f"carried in: {line.host} {line.name} was set before the window, and is a `set` row at {line.stamp}"
            )


# Messages


def settle_messages(making: Making, is_part: bool) -> None:
    """Refuses a message that is sent twice, and makes a note of a receive that nothing sends unless it may come."""
    sent: Dict[str, Line] = {}
    for line in making.lines:
        if line.kind == "send":
            before = sent.setdefault(line.name, line)
            if before is not line:
                raise Trouble(
                    WRONG,
                    f"{line.where}: the message {line.name} is sent before, at {before.where}: give each message a "
                    "name of its own, as by an id in it",
                )
    for line in making.lines:
        if line.kind == "recv" and line.name not in sent and not is_part:
            line.kind = "note"
            making.notes.append(f"the receive of {line.name} by {line.host} is a note, since no row sends it")
