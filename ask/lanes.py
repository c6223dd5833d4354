"""The hosts of spans: one for each process, and more where spans of one name overlap; and what they are called."""

from __future__ import annotations

import heapq
from collections import Counter
from typing import Dict, Iterable, List, NamedTuple, Optional, Sequence, Set, Tuple

from ask.spans import Id, Process, Span

Identity = Tuple[str, ...]


class Lane(NamedTuple):
    """A host: the trace that it is of, where each has its own, its process, and its number among the hosts of that."""

    trace: str
    process: Identity
    number: int


class Hosts(NamedTuple):
    """The host of each span by its key, what each is shown as where that is another name, and which ones words name.

    Each host has a machine.
    """

    of_spans: Dict[Id, str]
    shown: Dict[str, str]
    named: Dict[str, List[str]]
    machines: Dict[str, str]


class Room:
    """The hosts of a process as spans of one name take them, in the order in which they begin."""

    def __init__(self) -> None:
        self.ends: List[Tuple[int, int]] = []  # when spans end, and on which host each is
        self.taken: Set[int] = set()
        self.left: List[int] = []  # hosts whose span has ended; some of them are taken again
        self.used: Set[int] = set()
        self.unused = 0  # the least one that never was taken

    def take(self, began: int, ended: int, wanted: Optional[int]) -> int:
        """The host of the next span: the wanted one where it is free, else the first that is."""
        while self.ends and self.ends[0][0] < began:
            host = heapq.heappop(self.ends)[1]
            self.taken.discard(host)
            heapq.heappush(self.left, host)
        host = self.first_free() if wanted is None or wanted in self.taken else wanted
        self.taken.add(host)
        self.used.add(host)
        heapq.heappush(self.ends, (ended, host))
        return host

    def first_free(self) -> int:
        """The first host that no span has."""
        while self.left and self.left[0] in self.taken:
            heapq.heappop(self.left)
        while self.unused in self.used:
            self.unused += 1
        return min(self.left[0], self.unused) if self.left else self.unused


class Nests:
    """The hosts of a process as spans take them that aren't open together, but for those within their parents."""

    def __init__(self) -> None:
        self.room = Room()
        self.open: Dict[int, List[Span]] = {}  # on each host, those that are within one another
        self.names: Dict[int, Set[str]] = {}

    def take(self, span: Span, wanted: Optional[int]) -> int:
        """The host of the next span: that of its parent where it is within that, and else the first one without spans."""
        if wanted is not None and self.is_within(span, wanted):
            host = wanted
        else:
            host = self.room.take(span.began, span.last(), None)
            self.open[host], self.names[host] = [], set()
        self.open[host].append(span)
        self.names[host].add(span.name)
        return host

    def is_within(self, span: Span, host: int) -> bool:
        """Whether the innermost span that is open on a host is the parent, and lasts as long; none has the same name."""
        spans = self.open[host]
        while spans and spans[-1].last() < span.began:
            self.names[host].discard(spans.pop().name)
        if not spans or span.name in self.names[host]:
            return False
        return spans[-1].key() == (span.trace, span.parent) and span.last() <= spans[-1].last()


def lanes_of(spans: Sequence[Span], is_by_trace: bool, is_apart: bool = False) -> Dict[Id, Lane]:
    """The host of each span, which stand behind their parents: that of its parent where they are of one process.

    Where a span of the same name is open there, it is the first one without; where all are to be apart, any span.
    """
    rooms: Dict[Tuple[str, Identity, str], Room] = {}
    nests: Dict[Tuple[str, Identity], Nests] = {}
    found: Dict[Id, Lane] = {}
    for span in sorted(spans, key=lambda span: span.began):
        trace, process = span.trace if is_by_trace else "", span.process.identity()
        above = found.get((span.trace, span.parent))
        wanted = above.number if above and above.process == process else None
        if is_apart:
            number = nests.setdefault((trace, process), Nests()).take(span, wanted)
        else:
            number = rooms.setdefault((trace, process, span.name), Room()).take(span.began, span.last(), wanted)
        found[span.key()] = Lane(trace, process, number)
    return found


# Names


def hosts_of_spans(
    spans: Sequence[Span], everything: Iterable[Span], is_by_trace: bool, is_apart: bool, machine_keys: Sequence[str],
) -> Hosts:
    """The hosts of spans that were chosen of all, and stand behind their parents, with their names and machines.

    Words and clocks name a process by what tells it from all processes, whichever spans are chosen.
    """
    lanes = lanes_of(spans, is_by_trace, is_apart)
    processes = {span.process.identity(): span.process for span in everything}
    labels = labels_of(processes.values())
    names = names_of_lanes(lanes.values(), processes)
    keys = {lane: f"{lane.trace}/{name}" if is_by_trace else name for lane, name in names.items()}
    named: Dict[str, Dict[str, None]] = {}
    for lane, key in keys.items():
        for word in (processes[lane.process].service, labels[lane.process], names[lane], key):
            named.setdefault(word, {})[key] = None
    machines = machines_of(processes, labels, machine_keys)
    return Hosts(
        {id_: keys[lane] for id_, lane in lanes.items()},
        {key: names[lane] for lane, key in keys.items()} if is_by_trace else {},
        {word: list(hosts) for word, hosts in named.items()},
        {key: machines[lane.process] for lane, key in keys.items()},
    )


def labels_of(processes: Iterable[Process]) -> Dict[Identity, str]:
    """A name for each process: its service, and which one of it where there are several."""
    all_of_them = list(processes)
    counts = Counter(process.service for process in all_of_them)
    found: Dict[Identity, str] = {}
    names = Given()
    for process in all_of_them:
        is_alone = counts[process.service] == 1 or not process.instance()
        found[process.identity()] = names.give(process.service if is_alone else f"{process.service}_{process.instance()}")
    return found


def names_of_lanes(lanes: Iterable[Lane], processes: Dict[Identity, Process]) -> Dict[Lane, str]:
    """The names of hosts: those of their processes, as far as each trace has several, with a number from the second on."""
    by_trace: Dict[str, List[Lane]] = {}
    for lane in dict.fromkeys(lanes):
        by_trace.setdefault(lane.trace, []).append(lane)
    found: Dict[Lane, str] = {}
    for group in by_trace.values():
        labels = labels_of(processes[identity] for identity in dict.fromkeys(lane.process for lane in group))
        names = Given(labels.values())
        for lane in sorted(group, key=lambda lane: lane.number):
            label = labels[lane.process]
            found[lane] = label if lane.number == 0 else names.give(f"{label}_{lane.number + 1}")
    return found


class Given:
    """Names that were given, of which no two are the same."""

    def __init__(self, names: Iterable[str] = ()):
        self.names = set(names)
        self.numbers: Dict[str, int] = {}

    def give(self, name: str) -> str:
        """A name, with a number behind it where it was given before."""
        found = name
        while found in self.names:
            self.numbers[name] = self.numbers.get(name, 1) + 1
            found = f"{name}_{self.numbers[name]}"
        self.names.add(found)
        return found


def machines_of(processes: Dict[Identity, Process], labels: Dict[Identity, str], keys: Sequence[str]) -> Dict[Identity, str]:
    """The machine of each process: by the keys that are named, else as it is told, else one that no other process has."""
    told = {identity: process.told_under(keys) if keys else process.machine() for identity, process in processes.items()}
    names = Given(told.values())
    return {identity: name or names.give(labels[identity]) for identity, name in told.items()}
