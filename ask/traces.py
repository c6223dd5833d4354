"""Traces as events: spans set what they are called and clear it, and what one causes in another process is a message."""

from __future__ import annotations

from typing import Callable, Dict, Iterator, List, NamedTuple, Sequence, Tuple

from ask.events import WRONG, Event, Found, Known, joined_parts
from ask.jaeger import read_jaeger
from ask.lanes import Hosts, hosts_of_spans
from ask.messages import Messages, messages_of, walked
from ask.otlp import read_otlp
from ask.paths import wide_id
from ask.spans import (
    FAILED, INSTANCE_KEYS, MACHINE_KEYS, Choice, Id, Span, Spans, by_ids, chosen, parent_of, refuse_cycles,
    take_once, take_spans_as_one,
)
from ask.stamps import Stamp, iso_moment
from ask.texts import Source, Trouble
from ask.words import counted, listed, shortened
from ask.zipkin import read_zipkin

READERS: Dict[str, Callable[[Source, Spans], None]] = {"otlp": read_otlp, "jaeger": read_jaeger, "zipkin": read_zipkin}
SECOND = 10**9  # nanoseconds
Row = Tuple[str, str]  # its kind and its name


class TraceWords(NamedTuple):
    """What the words say of traces: their form, which are asked about, and what is made of them."""

    form: str
    choice: Choice
    machine: Sequence[str] = ()
    is_by_trace: bool = False  # whether each trace has hosts of its own
    is_steady: bool = False  # whether the duration of a span is measured by a clock that nothing sets
    is_same_name: bool = False
    is_apart: bool = False  # whether spans that are open at once are on hosts of their own, whatever their names


def choice_of(traces: Sequence[str], services: Sequence[str]) -> Choice:
    """The choice that words are."""
    return Choice([wide_id(trace) for trace in traces], services)


def events_of_traces(sources: Sequence[Source], words: TraceWords) -> Found:
    """What files of traces have, as events in the order of their stamps."""
    read = Spans()
    for source in sources:
        READERS[words.form](source, read)
    take_once(read)
    services = take_spans_as_one(read, words.machine) if words.is_same_name else {}
    everything = by_ids(read.spans)
    refuse_cycles(everything)
    spans = chosen(read.spans, words.choice._replace(services=[services.get(name, name) for name in words.choice.services]))
    refuse_untold_machines(spans, words.machine)
    refuse_joined_machines(spans, words.machine)
    found = events_of(spans, everything, read, words)
    found.named.update((name, found.named[kept]) for name, kept in services.items() if kept in found.named)
    return found


def events_of(spans: Sequence[Span], everything: Dict[Id, Span], read: Spans, words: TraceWords) -> Found:
    """The events of spans that were chosen of all."""
    known = {span.key(): span for span in spans}
    walk = list(walked(spans, known))
    ordered = [span for is_end, span in walk if not is_end]
    hosts = hosts_of_spans(ordered, in_order(everything), words.is_by_trace, words.is_apart, words.machine)
    messages = messages_of(ordered, known, words.is_by_trace)
    points = sorted(points_of(walk, messages), key=lambda point: point.at)
    found = Found(notes=read.notes, warnings=read.warnings, named=hosts.named, shown=hosts.shown)
    found.events = list(numbered(points, hosts, words.is_steady))
    found.unit = unit_of(points)
    found.notes += [
        *notes_of_choice(spans, read.spans), *notes_of_parents(spans, known, everything), *notes_of_moments(spans),
        *messages.notes, *notes_of_hosts(spans, hosts),
    ]
    return found


def in_order(everything: Dict[Id, Span]) -> Iterator[Span]:
    """All spans, each behind its parent."""
    return (span for is_end, span in walked(list(everything.values()), everything) if not is_end)


def unit_of(points: "Sequence[PointOfSpan]") -> str:
    """The unit of a log: microseconds, since messages may be faster than milliseconds, or nanoseconds, to keep all digits."""
    return "us" if all(point.at % 1000 == 0 for point in points) else "ns"


def refuse_untold_machines(spans: Sequence[Span], keys: Sequence[str]) -> None:
    """Refuses spans whose process tells nothing under a key that names the machine."""
    for span in spans:
        for key in keys:
            if not span.process.attributes.get(key):
                told = listed([shortened(name) for name in span.process.attributes]) or "nothing"
                raise Trouble(WRONG, f"{span.where}: --machine {key}: its process tells no {key}. It tells: {told}")


def refuse_joined_machines(spans: Sequence[Span], keys: Sequence[str]) -> None:
    """Refuses spans of two machines whose names would be one where they are joined."""
    known: Known = {}
    for span in spans:
        joined_parts([span.process.attributes.get(key, "") for key in keys], keys, span.where, known)


# Events


class PointOfSpan(NamedTuple):
    """What happens at one moment of a span: its rows; whether it is the begin or the end of it."""

    at: int
    span: Span
    rows: List[Row]
    is_begin: bool = False
    is_end: bool = False


def points_of(walk: Sequence[Tuple[bool, Span]], messages: Messages) -> Iterator[PointOfSpan]:
    """The points of spans: begins, ends, and what happens within them."""
    for is_end, span in walk:
        if not is_end:
            own = [("set", span.name)] if span.ended is not None else [("pulse", span.name), *failure(span)]
            yield PointOfSpan(span.began, span, rows_at((span.key(), False), own, messages), is_begin=True)
            for moment in span.moments:
                yield PointOfSpan(moment.at, span, [("pulse", moment.name)])
        elif span.ended is not None:
            own = [("clear", span.name), *failure(span)]
            yield PointOfSpan(span.ended, span, rows_at((span.key(), True), own, messages), is_end=True)


def failure(span: Span) -> List[Row]:
    """The row of a span with the status of an error."""
    return [("pulse", FAILED)] if span.is_failed else []


def rows_at(point: Tuple[Id, bool], own: Sequence[Row], messages: Messages) -> List[Row]:
    """The rows of a point: what is received, its own, and what is sent."""
    received = [("recv", name) for name in messages.received.get(point, ())]
    return [*received, *own, *(("send", name) for name in messages.sent.get(point, ()))]


def numbered(points: Sequence[PointOfSpan], hosts: Hosts, is_steady: bool) -> Iterator[Event]:
    """The events of points, a number for each point; where durations are measured, an end has that of its span."""
    begins = {point.span.key(): number for number, point in enumerate(points) if point.is_begin}
    for number, point in enumerate(points):
        span, host = point.span, hosts.of_spans[point.span.key()]
        for kind, name in point.rows:
            event = Event(
                host, stamp_at(point.at), f"{point.at} nanoseconds", kind, name, span.trace, span.where, None, span.name,
                number, hosts.machines[host],
            )
            if is_steady and point.is_end:
                duration = f"{point.at - span.began}ns"
                event = event._replace(duration=duration, begun=begins[span.key()], read_at=stamp_at(span.began))
            yield event


def stamp_at(nanoseconds: int) -> Stamp:
    """The moment so many nanoseconds after the beginning of 1970."""
    seconds, rest = divmod(nanoseconds, SECOND)
    return iso_moment(seconds, f"{rest:09}".rstrip("0"))


# Notes


def notes_of_choice(spans: Sequence[Span], everything: Sequence[Span]) -> Iterator[str]:
    """How many spans weren't chosen."""
    if len(spans) < len(everything):
        yield f"{counted(len(everything) - len(spans), 'span')} of other traces or services left out"


def notes_of_parents(spans: Sequence[Span], known: Dict[Id, Span], everything: Dict[Id, Span]) -> Iterator[str]:
    """Which spans have a parent that isn't there, and how many one that wasn't chosen."""
    orphans = [span for span in spans if span.parent and parent_of(span, known) is None]
    lost = [span for span in orphans if parent_of(span, everything) is None]
    if lost:
        named = listed([span.words() for span in lost])
        yield f"the parent of {counted(len(lost), 'span')} isn't in the files, so that no message to it is known: {named}"
    if len(orphans) > len(lost):
        yield f"{counted(len(orphans) - len(lost), 'span')} whose parent is left out, and the messages from it"


def notes_of_moments(spans: Sequence[Span]) -> Iterator[str]:
    """How many spans are moments."""
    count = sum(span.ended is None for span in spans)
    if count:
        yield f"{counted(count, 'span')} without a duration {'is a pulse' if count == 1 else 'are pulses'}"


def notes_of_hosts(spans: Sequence[Span], hosts: Hosts) -> Iterator[str]:
    """Which services have several hosts, and of which nothing is told that would tell their processes apart."""
    by_service: Dict[str, Dict[str, None]] = {}
    untold: Dict[str, None] = {}
    for span in spans:
        host = hosts.of_spans[span.key()]
        by_service.setdefault(span.process.service, {})[hosts.shown.get(host, host)] = None
        if not span.process.instance():
            untold[span.process.service] = None
    for service, names in by_service.items():
        if len(names) > 1:
            yield f"the spans of {shortened(service)} are on the hosts {listed([shortened(name) for name in names])}"
    if untold:
        named = listed([shortened(service) for service in untold])
        keys = ", ".join(INSTANCE_KEYS[:2] + MACHINE_KEYS[1:2])
        yield f"taken as one process each, since no span tells more of it ({keys}): {named}"
