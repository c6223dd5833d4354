"""Spans of traces, whichever form their file has: what one tells, and what all of them have to keep."""

from __future__ import annotations

from dataclasses import dataclass, field, replace
from typing import Dict, Iterator, List, NamedTuple, Optional, Sequence, Tuple

from ask.events import WRONG
from ask.spelling import kept_spellings
from ask.texts import Trouble
from ask.words import counted, listed, shortened

CLIENT, SERVER, PRODUCER, CONSUMER, INTERNAL, UNTOLD = "client", "server", "producer", "consumer", "internal", ""
KINDS = (CLIENT, SERVER, PRODUCER, CONSUMER, INTERNAL)
MACHINE_KEYS = ("host.id", "host.name", "hostname")  # of which the first that is told names the machine
INSTANCE_KEYS = (  # the first that is told names the process where its service has several
    "service.instance.id", "k8s.pod.name", "container.id", "client-uuid", "host.name", "hostname", "host.id", "ipv4", "ipv6",
    "ip",
)
NO_MACHINES = ("localhost",)  # what every machine may call itself
FAILED = "failed"  # what a span with the status of an error pulses at its end
SERVICE, SPACE = "service.name", "service.namespace"
Id = Tuple[str, str]  # of a trace and of a span of it


class Process(NamedTuple):
    """The process that made a span: its service, and what else is told of it."""

    service: str
    attributes: Dict[str, str]

    def instance(self) -> str:
        """What tells it from other processes of its service, or nothing."""
        return next((self.attributes[key] for key in INSTANCE_KEYS if self.attributes.get(key)), "")

    def machine(self) -> str:
        """The machine on which it runs, or nothing where that isn't told."""
        told = (self.attributes[key] for key in MACHINE_KEYS if self.attributes.get(key))
        return next((name for name in told if name not in NO_MACHINES), "")

    def told_under(self, keys: Sequence[str]) -> str:
        """What is told under keys, joined."""
        return "_".join(self.attributes.get(key, "") for key in keys)

    def identity(self) -> Tuple[str, ...]:
        """What two spans of one process have in common, and two of different ones haven't, as far as is told."""
        return (self.service, *(self.attributes.get(key, "") for key in (SPACE, *INSTANCE_KEYS)))


class Moment(NamedTuple):
    """What happened within a span, and when, in nanoseconds."""

    at: int
    name: str


@dataclass
class Span:
    """A span: its times are in nanoseconds since 1970, and one without an end is a moment."""

    trace: str
    id: str
    parent: str  # its id, or nothing
    name: str
    kind: str
    process: Process
    began: int
    ended: Optional[int]
    where: str
    is_failed: bool = False
    moments: Sequence[Moment] = ()
    links: Sequence[Id] = ()
    is_behind: bool = False  # whether its parent doesn't wait for it

    def key(self) -> Id:
        """What no two spans have in common."""
        return self.trace, self.id

    def last(self) -> int:
        """When it ended, or was, where it is a moment."""
        return self.began if self.ended is None else self.ended

    def words(self) -> str:
        """The span as messages name it."""
        return f"{shortened(self.name)!r} ({self.trace}/{self.id})"


@dataclass
class Spans:
    """The spans of files, and what is said of the files."""

    spans: List[Span] = field(default_factory=list)
    notes: List[str] = field(default_factory=list)
    warnings: List[str] = field(default_factory=list)


# What spans have to keep


def checked(span: Span) -> Span:
    """A span that doesn't end before it begins."""
    if span.ended is not None and span.ended < span.began:
        raise Trouble(WRONG, (
            f"{span.where}: the span {span.words()} ends {span.began - span.ended} nanoseconds before it begins"
        ))
    return span


def take_once(found: Spans) -> None:
    """Leaves out spans that are told again with all that they say, as by an exporter that sends twice what may be lost."""
    first: Dict[Id, Span] = {}
    kept = []
    for span in found.spans:
        before = first.setdefault(span.key(), span)
        if before is span or replace(before, where=span.where) != span:
            kept.append(span)
    if len(kept) < len(found.spans):
        found.notes.append(f"{counted(len(found.spans) - len(kept), 'span')} told again, word for word, and taken once")
    found.spans = kept


def by_ids(spans: Sequence[Span]) -> Dict[Id, Span]:
    """The spans by their ids, no two of which are the same."""
    found: Dict[Id, Span] = {}
    for span in spans:
        before = found.setdefault(span.key(), span)
        if before is not span:
            raise Trouble(WRONG, f"{span.where}: the span {span.words()} has the id of {before.words()} at {before.where}")
    return found


def refuse_cycles(known: Dict[Id, Span]) -> None:
    """Refuses spans that are above themselves."""
    is_passed: Dict[Id, bool] = {}
    for first in known.values():
        way: List[Span] = []
        span: Optional[Span] = first
        while span is not None and span.key() not in is_passed:
            is_passed[span.key()] = False
            way.append(span)
            span = parent_of(span, known)
        if span is not None and not is_passed[span.key()]:
            turn = way[[one.key() for one in way].index(span.key()) :]
            shown = listed([one.words() for one in turn])
            raise Trouble(WRONG, (
                f"{span.where}: the trace {span.trace} has a cycle of parents, each the parent of the one before, and the "
                f"first that of the last: {shown}"
            ))
        is_passed.update((one.key(), True) for one in way)


def parent_of(span: Span, known: Dict[Id, Span]) -> Optional[Span]:
    """The parent of a span, where it has one that is known."""
    return known.get((span.trace, span.parent)) if span.parent else None


# Choices


class Choice(NamedTuple):
    """The traces and the services that are asked about; all, where none is named."""

    traces: Sequence[str]
    services: Sequence[str]

    def has(self, span: Span) -> bool:
        """Whether a span is among them."""
        is_of_trace = not self.traces or span.trace in self.traces
        return is_of_trace and (not self.services or span.process.service in self.services)


def chosen(spans: Sequence[Span], choice: Choice) -> List[Span]:
    """The spans of a choice; a trace or a service that no span has is refused."""
    for option, wanted, there in (
        ("--trace", choice.traces, dict.fromkeys(span.trace for span in spans)),
        ("--service", choice.services, dict.fromkeys(span.process.service for span in spans)),
    ):
        for name in wanted:
            if name not in there:
                known = listed([shortened(one) for one in there]) or "none"
                raise Trouble(WRONG, f"{option} {name}: no span of the files is of it. There are: {known}")
    return [span for span in spans if choice.has(span)]


def take_spans_as_one(found: Spans, machine_keys: Sequence[str] = ()) -> Dict[str, str]:
    """Takes what differs in the case of letters alone as one: services, what tells processes apart, names of rows.

    Told are the services that are taken as another one.
    """
    services = kept_spellings(span.process.service for span in found.spans)
    names = kept_spellings(name for span in found.spans for name in names_of(span))
    told = {
        key: kept_spellings(span.process.attributes.get(key, "") for span in found.spans)
        for key in dict.fromkeys((SPACE, *INSTANCE_KEYS, *machine_keys))
    }
    for span in found.spans:
        service, attributes = span.process
        changed = {key: told[key].get(value, value) for key, value in attributes.items() if key in told}
        span.process = Process(services.get(service, service), {**attributes, **changed})
        span.name = names.get(span.name, span.name)
        span.moments = [moment._replace(name=names.get(moment.name, moment.name)) for moment in span.moments]
    found.notes += [
        f"{what}: {name!r} is taken as {kept!r}"
        for what, table in (("service", services), *told.items(), ("name", names))
        for name, kept in table.items() if name != kept
    ]
    return services


def names_of(span: Span) -> Iterator[str]:
    """The names that a span gives to rows."""
    yield span.name
    if span.is_failed:
        yield FAILED
    yield from (moment.name for moment in span.moments)
