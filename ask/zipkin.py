"""Spans in JSON of Zipkin's version 2: a list of spans, or of traces that are such lists."""

from __future__ import annotations

from typing import Dict, Iterator, List, Sequence

from ask.paths import SPAN_DIGITS, TRACE_DIGITS, Part, hex_id, texts_of, whole_file
from ask.spans import CLIENT, KINDS, SERVER, UNTOLD, Id, Moment, Process, Span, Spans, checked
from ask.texts import Source

UNIT, NANOSECONDS = "microseconds", 1000
TRACE_ID = f"the id of a trace, at most {TRACE_DIGITS} hexadecimal digits"
SPAN_ID = f"the id of a span, at most {SPAN_DIGITS} hexadecimal digits"
ADDRESSES = ("ipv4", "ipv6")
OF_OTHERS = ("hostname", "ip", "client-uuid")  # tags that tell of a process in other forms, and here of anything
OF_SERVER = "_server"  # behind an id that a client and its server share, in that of the server's span


def read_zipkin(source: Source, found: Spans) -> None:
    """Adds the spans of a file."""
    whole = whole_file(source)
    if not isinstance(whole.value, list):
        raise whole.wrong("a list of spans, as the API of Zipkin gives them")
    parts = list(parts_of(whole))
    spans = [span_of(part) for part in parts]
    part_shared(spans, [is_true(part.under("shared")) or span.kind == SERVER for span, part in zip(spans, parts)])
    found.spans += spans


def parts_of(whole: Part) -> Iterator[Part]:
    """The spans of a list, or of lists in it."""
    for item in whole.each():
        if isinstance(item.value, list):
            yield from item.each()
        else:
            yield item


def span_of(part: Part) -> Span:
    """A span; one without a duration is a moment."""
    tags = texts_of(part.under("tags"))
    began, duration = part.under("timestamp").moment(UNIT, NANOSECONDS), part.under("duration")
    lasted = duration.number(f"a whole number of {UNIT}") * NANOSECONDS if duration.is_there() else None
    parent = part.under("parentId")
    name = part.under("name")
    return checked(Span(
        hex_id(part.under("traceId"), TRACE_DIGITS, TRACE_ID),
        hex_id(part.under("id"), SPAN_DIGITS, SPAN_ID),
        hex_id(parent, SPAN_DIGITS, SPAN_ID) if parent.is_there() else "",
        name.text("the name of the span") if name.is_there() else "unknown",
        kind_of(part.under("kind")), process_of(part, tags), began, None if lasted is None else began + lasted,
        part.where(), tags.get("error", "false").lower() != "false",
        [moment_of(one) for one in part.under("annotations").each()],
    ))


def kind_of(part: Part) -> str:
    """The kind of a span."""
    if not part.is_there():
        return UNTOLD
    kind = part.value.lower() if isinstance(part.value, str) else ""
    if kind not in KINDS:
        raise part.wrong("CLIENT, SERVER, PRODUCER or CONSUMER")
    return kind


def process_of(part: Part, tags: Dict[str, str]) -> Process:
    """The process of a span: that of its local endpoint, with the tags of the span."""
    endpoint = part.under("localEndpoint")
    if endpoint.value is None:
        raise endpoint.wrong("an object with serviceName")
    addresses = {key: endpoint.under(key).text("an address") for key in ADDRESSES if endpoint.under(key).is_there()}
    told = {key: value for key, value in tags.items() if key not in OF_OTHERS}
    return Process(endpoint.under("serviceName").text("the name of a service"), {**told, **addresses})


def moment_of(annotation: Part) -> Moment:
    """An annotation."""
    at = annotation.under("timestamp").moment(UNIT, NANOSECONDS)
    return Moment(at, annotation.under("value").text("what the annotation says"))


def is_true(part: Part) -> bool:
    """Whether a value is true; none is false."""
    if part.value not in (None, True, False):
        raise part.wrong("true or false")
    return part.value is True


# Ids that a client and a server share


def part_shared(spans: List[Span], is_of_server: Sequence[bool]) -> None:
    """Gives the spans of servers that have the id of their client's span ids of their own, below the client's span.

    What has that id as its parent is below the server's span, but for spans of the client's process.
    """
    clients: Dict[Id, Span] = {span.key(): span for span in spans if span.kind == CLIENT}
    servers = [span for span, is_so in zip(spans, is_of_server) if is_so and span.key() in clients and span.kind != CLIENT]
    halves: Dict[Id, Span] = {span.key(): span for span in servers}
    for span in spans:
        above = (span.trace, span.parent)
        if above in halves and not is_of_client(span, clients[above], halves[above]):
            span.parent += OF_SERVER
    for span in servers:
        span.parent, span.id = span.id, span.id + OF_SERVER


def is_of_client(span: Span, client: Span, server: Span) -> bool:
    """Whether a span below a shared id is of the client's process."""
    own = span.process.identity()
    return own == client.process.identity() != server.process.identity()
