"""Spans in JSON of the query API of Jaeger, which is also what its pages save."""

from __future__ import annotations

from typing import Dict, Iterator, List, NamedTuple, Optional, Tuple

from ask.paths import TRACE_DIGITS, SPAN_DIGITS, Part, hex_id, scalar_text, whole_file
from ask.spans import KINDS, UNTOLD, Id, Moment, Process, Span, Spans, checked
from ask.texts import Source
from ask.words import counted

UNIT, NANOSECONDS = "microseconds", 1000
CHILD, BEHIND = "CHILD_OF", "FOLLOWS_FROM"
MOVED = "timestamps were adjusted"  # in the warning of a span whose stamps the query service has moved
TRACE_ID = f"the id of a trace, at most {TRACE_DIGITS} hexadecimal digits"
SPAN_ID = f"the id of a span, at most {SPAN_DIGITS} hexadecimal digits"


class Reference(NamedTuple):
    """A reference of a span to another one, and of which type it is."""

    type: str
    to: Id


def read_jaeger(source: Source, found: Spans) -> None:
    """Adds the spans of a file: traces under `data`, each with its spans and processes."""
    whole = whole_file(source)
    if not isinstance(whole.value, dict) or not isinstance(whole.value.get("data"), list):
        raise whole.wrong("an object with data, a list of traces, as the query API of Jaeger gives it")
    moved = 0
    for trace in whole.under("data").each():
        processes = processes_of(trace.under("processes"))
        for part in trace.under("spans").each():
            found.spans.append(span_of(part, processes))
            moved += any(MOVED in warning for warning in warnings_of(part))
    if moved:
        found.warnings.append(
            f"{source.name}: {counted(moved, 'span')} of which Jaeger says that it has moved the stamps, to hide what the "
            "clocks are apart: ask its query API with raw=true"
        )


def processes_of(part: Part) -> Dict[str, Process]:
    """The processes of a trace by their ids."""
    if part.value is None:
        return {}
    if not isinstance(part.value, dict):
        raise part.wrong("an object with a process for each id, as p1")
    return {key: process_of(part.under(key)) for key in part.value}


def process_of(part: Part) -> Process:
    """A process."""
    return Process(part.under("serviceName").text("the name of a service"), tags_of(part.under("tags")))


def tags_of(part: Part) -> Dict[str, str]:
    """The tags of a list of keys and values, as texts."""
    found: Dict[str, str] = {}
    for tag in part.each():
        key, text = tag.under("key").text("the key of a tag"), scalar_text(tag.under("value").value)
        if text is not None:
            found[key] = text
    return found


# Spans


def span_of(part: Part, processes: Dict[str, Process]) -> Span:
    """A span."""
    trace = hex_id(part.under("traceID"), TRACE_DIGITS, TRACE_ID)
    tags = tags_of(part.under("tags"))
    began = part.under("startTime").moment(UNIT, NANOSECONDS)
    duration = part.under("duration").number(f"a whole number of {UNIT}") * NANOSECONDS
    parent, others = parent_and_links(trace, list(references_of(part, trace)))
    return checked(Span(
        trace, hex_id(part.under("spanID"), SPAN_DIGITS, SPAN_ID), parent.to[1] if parent else "",
        part.under("operationName").text("the name of the span"), kind_of(tags), process_of_span(part, processes),
        began, began + duration, part.where(), is_error(tags),
        [moment_of(log) for log in part.under("logs").each()], others, parent is not None and parent.type == BEHIND,
    ))


def process_of_span(part: Part, processes: Dict[str, Process]) -> Process:
    """The process of a span, which is named, or stands in it."""
    if part.under("process").is_there():
        return process_of(part.under("process"))
    named = part.under("processID")
    if not isinstance(named.value, str) or named.value not in processes:
        raise named.wrong("the id of one of the trace's processes")
    return processes[named.value]


def references_of(part: Part, trace: str) -> Iterator[Reference]:
    """The references of a span, of which an older form has the parent alone."""
    for reference in part.under("references").each():
        type_ = reference.under("refType")
        if type_.value not in (CHILD, BEHIND):
            raise type_.wrong(f"{CHILD} or {BEHIND}")
        yield Reference(type_.value, (
            hex_id(reference.under("traceID"), TRACE_DIGITS, TRACE_ID),
            hex_id(reference.under("spanID"), SPAN_DIGITS, SPAN_ID),
        ))
    if part.under("parentSpanID").is_there() and not part.under("references").value:
        yield Reference(CHILD, (trace, hex_id(part.under("parentSpanID"), SPAN_DIGITS, SPAN_ID)))


def parent_and_links(trace: str, references: List[Reference]) -> Tuple[Optional[Reference], List[Id]]:
    """The parent, which is the first span of the same trace whose child it is, else that it follows; and the others."""
    own = [reference for reference in references if reference.to[0] == trace]
    parent = next((one for one in own if one.type == CHILD), next(iter(own), None))
    return parent, [one.to for one in references if one is not parent]


def kind_of(tags: Dict[str, str]) -> str:
    """The kind of a span by its tags."""
    kind = tags.get("span.kind", "").lower()
    return kind if kind in KINDS else UNTOLD


def is_error(tags: Dict[str, str]) -> bool:
    """Whether the tags of a span say that it failed."""
    return tags.get("error", "").lower() == "true" or tags.get("otel.status_code", "").upper() == "ERROR"


def moment_of(log: Part) -> Moment:
    """A log within a span, by its field `event`, else `message`."""
    fields = tags_of(log.under("fields"))
    name = fields.get("event") or fields.get("message") or "log"
    return Moment(log.under("timestamp").moment(UNIT, NANOSECONDS), name)


def warnings_of(part: Part) -> List[str]:
    """The warnings of a span."""
    return [warning.value for warning in part.under("warnings").each() if isinstance(warning.value, str)]
