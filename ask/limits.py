"""How far the stamps of each host may be off, how far apart its rows are, and how long messages to it took."""

from __future__ import annotations

import argparse
from dataclasses import dataclass
from typing import Callable, Dict, Iterator, List, NamedTuple, Optional, Sequence, Tuple

from ask.clocks import Clock, ClockStep, Tracked, steps_of_file, steps_told, tracking_of_file
from ask.events import WRONG, Found, Latency, Limits, name_map
from ask.logs import MOST_HOSTS, MOST_SKEW, NO_HOST_NAMES
from ask.making import Line, Making
from ask.spelling import spelling_warnings
from ask.stamps import UNITS, duration_in_units
from ask.texts import Trouble
from ask.words import USAGE, counted, listed, shortened

FEWER = "fewer timings are admissible than by that file"
Span = Tuple[int, Optional[int]]  # the least and the greatest latency, None where there is no greatest


class LimitWords(NamedTuple):
    """The words on clocks and messages, each as `[HOST=]..`."""

    skew: Sequence[str]
    gap: Sequence[str]
    latency: Sequence[str]
    step: Sequence[str]
    clock: Sequence[str]
    tracking: Sequence[str]
    clock_error: Sequence[str] = ()


def limit_words_of(arguments: argparse.Namespace) -> LimitWords:
    """What the words say of clocks and messages."""
    return LimitWords(
        arguments.skew, arguments.gap, arguments.latency, arguments.step, arguments.clock, arguments.tracking,
        arguments.clock_error,
    )


@dataclass
class LogHost:
    """A host of the log to be: its name, and how long messages to it took, where that is told."""

    name: str
    latency: Optional[Span] = None


def by_host(
    words: Sequence[str], option: str, making: Making, others: Sequence[str] = ()
) -> Iterator[Tuple[Optional[str], str]]:
    """The host of each word, or another name that it may have, None where it is for all, and what is said of it.

    A word that names several hosts stands for each of them, and comes before those that name fewer.
    """
    found: List[Tuple[List[Optional[str]], str]] = []
    for word in words:
        spelled, equals, text = word.rpartition("=")
        hosts: List[Optional[str]] = [*making.hosts_named(spelled)] if equals else [None]
        if not hosts and spelled in others:
            hosts = [spelled]
        if not hosts:
            known = listed([shortened(name) for name in dict.fromkeys([*making.words_for_hosts(), *others])])
            raise Trouble(USAGE, f"{option} {word}: there is no host {spelled}. The hosts: {known}")
        found.append((hosts, text))
    for hosts, text in sorted(found, key=lambda one: -len(one[0])):
        yield from ((host, text) for host in hosts)


Told = Dict[Optional[str], int]  # what an option says of hosts, and of all others under None


# Skews and gaps


def settle_limits(making: Making, words: LimitWords, clocks: Dict[str, Clock]) -> Dict[str, Tuple[int, int]]:
    """Gives each row its skew and its gap, and tells those of the hosts without rows."""
    skews = durations(words.skew, "--skew", making)
    gaps = durations(words.gap, "--gap", making, is_down=True)
    for line in making.lines:
        line.skew, line.gap = limits_of(line.host, line.limits, making, skews, gaps)
    idle = {host: limits_of(host, limits, making, skews, gaps) for host, limits in making.idle.items()}
    warn_of_narrowed(making, skews, gaps)
    by_hosts: Dict[str, List[Line]] = {}
    for line in making.lines:
        by_hosts.setdefault(line.host, []).append(line)
    for host, clock in clocks.items():
        lines = [line for line in by_hosts.get(host, ()) if not line.is_carried]
        for line, error in zip(lines, clock.errors(lines)):
            line.skew += error
        for line in by_hosts.get(host, ()):
            if line.is_carried and lines:
                line.skew = lines[0].skew
    note_cut_digits(making)
    if any(skew > MOST_SKEW for skew in [line.skew for line in making.lines] + [skew for skew, _ in idle.values()]):
        raise Trouble(WRONG, "a skew is above 10^18 in units: choose a coarser --unit")
    note_stamps_that_go_back(making)
    return idle


def limits_of(host: str, limits: Optional[Limits], making: Making, skews: Told, gaps: Told) -> Tuple[int, int]:
    """The skew and the gap of rows of a host: those of the words, else those of their file."""
    of_file: Tuple[Optional[int], int] = limits_in_units(limits, making) if limits else (None, 0)
    skew = skews.get(host, skews.get(None, of_file[0]))
    if skew is None:
        raise Trouble(USAGE, (
            f"how far may the stamps of {making.name_of(host)} be off? Say it by --skew {making.name_of(host)}=D, or by "
            "--skew D for all hosts"
        ))
    return skew + (1 if making.cut.get(host) else 0), gaps.get(host, gaps.get(None, of_file[1]))


def warn_of_narrowed(making: Making, skews: Told, gaps: Told) -> None:
    """Tells of each host of which the words allow less than its file, with the first place where they do."""
    warned = set()
    for host, limits in [(line.host, line.limits) for line in making.lines] + list(making.idle.items()):
        if not limits:
            continue
        skew, gap = limits_in_units(limits, making)
        told_skew, told_gap = skews.get(host, skews.get(None, skew)), gaps.get(host, gaps.get(None, gap))
        for what, told, of_file, is_less in (
            ("skew", told_skew, skew, told_skew < skew), ("gap", told_gap, gap, told_gap > gap),
        ):
            if is_less and (host, what) not in warned:
                warned.add((host, what))
                said = f"the {what} of {shortened(host)} is {told}, and {limits.where} says {of_file}"
                making.warnings.append(f"--{what}: {said}: {FEWER}")


def note_cut_digits(making: Making) -> None:
    """Tells of the hosts whose stamps lost digits, which a skew that is one unit greater covers."""
    counts: Dict[str, int] = {}
    for host in making.hosts():
        counts[making.name_of(host)] = counts.get(making.name_of(host), 0) + making.cut.get(host, 0)
    for name, count in counts.items():
        if count:
            stamps = f"{counted(count, 'stamp')} of {shortened(name)}"
            making.notes.append(
                f"digits below a unit are cut off in {stamps}: each skew of it is 1 unit greater for that"
            )


def note_stamps_that_go_back(making: Making) -> None:
    """Tells the first row of each host that is further before an earlier one than their skews are together."""
    latest: Dict[str, Line] = {}
    told = set()
    for line in making.lines:
        before = latest.setdefault(line.host, line)
        if line.stamp + line.skew < before.stamp - before.skew and line.host not in told:
            told.add(line.host)
            making.notes.append(
                f"{line.where}: the stamp is {before.stamp - line.stamp} before that of {before.where}, and both skews "
                f"are {line.skew + before.skew}: are the rows of {line.host} in the order of their events?"
            )
        if line.stamp - line.skew > before.stamp - before.skew:
            latest[line.host] = line


def durations(
    words: Sequence[str], option: str, making: Making, is_down: bool = False, others: Sequence[str] = ()
) -> Told:
    """The durations that an option gives to hosts, and to all others under None, rounded up or down."""

    def duration_told(text: str) -> int:
        """The duration that a text is."""
        duration = duration_in_units(text, making.unit, is_down)
        if duration is None or duration > MOST_SKEW:
            raise Trouble(USAGE, f"{option} {text}: it is {duration_rule(making.unit)}")
        return duration

    refuse_contradictions(words, option, duration_told)
    return {host: duration_told(text) for host, text in by_host(words, option, making, others)}


def refuse_contradictions(words: Sequence[str], option: str, read: Callable[[str], object]) -> None:
    """Refuses words that say two things of the same hosts."""
    told: Dict[str, str] = {}
    for word in words:
        name, _, text = word.rpartition("=")
        before = told.setdefault(name, text)
        if read(before) != read(text):
            whom = shortened(name) if name else "all hosts"
            raise Trouble(USAGE, f"{option} {word}: {option} says {before} of {whom} already")


def duration_rule(unit: Optional[str]) -> str:
    """What a duration looks like."""
    more = ", since the unit of the stamps isn't named" if unit is None else f", or a duration as 5{unit}"
    return f"a number of units up to 10^18{more}"


def in_file(text: str, making: Making, is_down: bool = False) -> Optional[int]:
    """A duration of a file: in units, or in seconds as its stamps are."""
    has_unit = making.is_whole or text[-1:] == "s"
    return duration_in_units(text if has_unit else text + "s", making.unit, is_down)


def limits_in_units(limits: Limits, making: Making) -> Tuple[int, int]:
    """The skew and the gap that a file gives, in units; the skew is rounded up, the gap down."""
    skew, gap = in_file(limits.skew, making), in_file(limits.gap, making, is_down=True)
    if skew is None or gap is None:
        raise Trouble(WRONG, f"{limits.where}: the skew {limits.skew!r} or the gap {limits.gap!r} is no duration")
    return skew, gap


def clocks_of(making: Making, words: LimitWords) -> Dict[str, Clock]:
    """What the words tell of the clock of each host."""
    if making.unit is None and (words.step or words.clock or words.tracking):
        raise Trouble(USAGE, "the unit of the stamps isn't named, so no clock can be followed: say it by --unit")
    hosts = making.hosts()
    clocks: Dict[str, Clock] = {}

    def clocks_named(host: Optional[str]) -> List[Clock]:
        """The clock of a host, or those of all."""
        names = [host] if host is not None else hosts
        return [clocks.setdefault(name, Clock(10 ** UNITS[making.unit or "s"])) for name in names]

    for option, texts, read in (("--step", words.step, steps_told), ("--clock", words.clock, steps_of_file)):
        steps: Dict[str, List[ClockStep]] = {}  # of each text, which is read once though it is for several hosts
        for host, text in by_host(texts, option, making):
            steps[text] = steps[text] if text in steps else read(making, text)
            for clock in clocks_named(host):
                clock.steps += steps[text]
    files: Dict[str, Tracked] = {}
    for host, text in by_host(words.tracking, "--tracking", making):
        tracked = files[text] = files[text] if text in files else tracking_of_file(making, text)
        for clock in clocks_named(host):
            clock.updates += tracked.updates
            clock.reported = max(clock.reported, tracked.reported)
    return clocks


# Hosts


def hosts_of(making: Making, found: Found, words: LimitWords, most: int = MOST_HOSTS) -> Dict[str, LogHost]:
    """The hosts in the order of their first rows, by their names in the files; more than so many are refused."""
    names = making.hosts()
    if len(names) > most:
        fewer = "choose by --trace and --service, or" if making.named else "cut a window by --only or"
        raise Trouble(WRONG, f"{counted(len(names), 'host')}; at most 64: {fewer} by --from and --to")
    mapped = name_map([making.name_of(name) for name in names], NO_HOST_NAMES)
    refuse_contradictions(words.latency, "--latency", lambda text: latency_told(text, making))
    told = {host: latency_told(text, making) for host, text in by_host(words.latency, "--latency", making)}
    hosts = {}
    for name in names:
        of_file = latency_in_units(found.latencies[name], making) if name in found.latencies else None
        latency = told.get(name, told.get(None, of_file))
        if of_file and latency and is_narrower(latency, of_file):
            told_words = f"messages to {shortened(name)} take {latency_words(latency)}"
            of_file_words = f"{found.latencies[name].where} says {latency_words(of_file)}"
            making.warnings.append(f"--latency: {told_words}, and {of_file_words}: {FEWER}")
        hosts[name] = LogHost(mapped[making.name_of(name)], latency)
    making.warnings += spelling_warnings("hosts", list(mapped), mapped)
    shown = dict.fromkeys(map(making.name_of, names))
    making.notes += [f"host: {shortened(name)!r} is {mapped[name]}" for name in shown if name != mapped[name]]
    return hosts


def is_narrower(latency: Span, other: Span) -> bool:
    """Whether a latency excludes some that another one allows."""
    return latency[0] > other[0] or latency[1] is not None and (other[1] is None or latency[1] < other[1])


def latency_words(latency: Span) -> str:
    """A latency in words."""
    return f"{latency[0]} to {'inf' if latency[1] is None else latency[1]}"


def latency_told(text: str, making: Making) -> Span:
    """The latency that `LEAST,GREATEST` is; the least is rounded down, the greatest up."""
    least_text, comma, most_text = text.partition(",")
    least = duration_in_units(least_text, making.unit, is_down=True)
    most = None if most_text == "inf" else duration_in_units(most_text, making.unit)
    if not comma or least is None or (most is None and most_text != "inf"):
        raise Trouble(USAGE, (
            f"--latency {text}: it is LEAST,GREATEST, each {duration_rule(making.unit)}; GREATEST may be inf"
        ))
    return checked_latency(least, most, f"--latency {text}", USAGE)


def latency_in_units(latency: Latency, making: Making) -> Span:
    """The latency that a file gives, in units."""
    least = in_file(latency.least, making, is_down=True)
    most = None if latency.most == "inf" else in_file(latency.most, making)
    if least is None or (most is None and latency.most != "inf"):
        shown = f"the latency {latency.least!r} to {latency.most!r}"
        raise Trouble(WRONG, f"{latency.where}: {shown} is none: it is two durations, or one and inf")
    return checked_latency(least, most, latency.where, WRONG)


def checked_latency(least: int, most: Optional[int], where: str, status: int) -> Span:
    """A latency from at least one unit on, which every message takes."""
    least = max(1, least)
    if max(least, most or 0) > MOST_SKEW or most is not None and most < least:
        raise Trouble(status, f"{where}: the least latency is above the greatest, {most}, or one is above 10^18")
    return least, most
