"""Spans in OTLP JSON, as the file exporter of the OpenTelemetry collector writes it."""

from __future__ import annotations

import base64
import binascii
import re
from typing import Any, Dict, Iterator, Optional

from ask.events import WRONG
from ask.paths import Part, hex_id, lines_or_whole, scalar_text
from ask.spans import (
    CLIENT, CONSUMER, INTERNAL, PRODUCER, SERVER, SERVICE, UNTOLD, Id, Moment, Process, Span, Spans, checked,
)
from ask.texts import Source, Trouble
from ask.words import counted, shortened

LISTS = ("resourceSpans", "resourceLogs", "resourceMetrics", "resourceProfiles")
SCOPES = ("scopeSpans", "instrumentationLibrarySpans")  # the second is of versions before 0.15
KINDS = (UNTOLD, INTERNAL, SERVER, CLIENT, PRODUCER, CONSUMER)  # by their numbers
KIND_NAMES = {f"SPAN_KIND_{(kind or 'unspecified').upper()}": kind for kind in KINDS}
KNOWN_KINDS = {**{str(number): kind for number, kind in enumerate(KINDS)}, **KIND_NAMES}
STATUSES = {  # whether each is that of an error
    "0": False, "1": False, "2": True, "STATUS_CODE_UNSET": False, "STATUS_CODE_OK": False, "STATUS_CODE_ERROR": True,
}
VALUES = ("stringValue", "intValue", "boolValue", "doubleValue", "bytesValue")
BASE64 = re.compile(r"[A-Za-z0-9+/_-]+={0,2}", re.ASCII)
UNIT, NANOSECONDS = "nanoseconds", 1


def read_otlp(source: Source, found: Spans) -> None:
    """Adds the spans of a file: objects with `resourceSpans`, one a line, or one for the whole file."""
    others = 0
    for part in lines_or_whole(source):
        if not isinstance(part.value, dict) or not any(name in part.value for name in LISTS):
            raise part.wrong("an object with resourceSpans, as the file exporter of the collector writes one a line")
        others += LISTS[0] not in part.value
        for resource in part.under(LISTS[0]).each():
            found.spans += spans_of_resource(resource)
    if others:
        found.notes.append(f"{source.name}: {counted(others, 'object')} with logs, metrics or profiles left out")


def spans_of_resource(resource: Part) -> Iterator[Span]:
    """The spans of one process."""
    process: Optional[Process] = None
    for name in SCOPES:
        for scope in resource.under(name).each():
            for span in scope.under("spans").each():
                process = process or process_of(resource.under("resource"))
                yield span_of(span, process)


def process_of(resource: Part) -> Process:
    """The process that a resource describes."""
    attributes = attributes_of(resource.under("attributes")) if resource.is_there() else {}
    service = attributes.get(SERVICE, "")
    if not service.strip():
        expected = f"a resource with the attribute {SERVICE}, a text, which names the host"
        raise Trouble(WRONG, f"{resource.where()}: there is no {SERVICE}, and it has to be {expected}")
    return Process(service, attributes)


def attributes_of(part: Part) -> Dict[str, str]:
    """The attributes of a list of keys and values, as texts."""
    found: Dict[str, str] = {}
    for item in part.each():
        key, value = item.under("key").text("the key of an attribute"), item.under("value")
        text = scalar_text(value_of(value)) if value.is_there() else None
        if text is not None and found.setdefault(key, text) != text:
            raise Trouble(WRONG, f"{item.where()}: the attribute {shortened(key)} has another value before: which is meant?")
    return found


def value_of(value: Part) -> Any:
    """The value of an attribute, which stands under the name of its type; of one that is no list and no object."""
    return next((value.under(name).value for name in VALUES if value.under(name).value is not None), None)


# Spans


def span_of(part: Part, process: Process) -> Span:
    """A span."""
    return checked(Span(
        id_of(part.under("traceId"), 16, "trace"),
        id_of(part.under("spanId"), 8, "span"),
        parent_id(part.under("parentSpanId")),
        part.under("name").text("the name of the span"),
        kind_of(part.under("kind")),
        process,
        part.under("startTimeUnixNano").moment(UNIT, NANOSECONDS),
        part.under("endTimeUnixNano").moment(UNIT, NANOSECONDS),
        part.where(),
        is_error(part.under("status")),
        [moment_of(event) for event in part.under("events").each()],
        [link_of(link) for link in part.under("links").each()],
    ))


def id_of(part: Part, size: int, what: str) -> str:
    """The id of so many bytes, in hexadecimal digits, as OTLP has it, or in base64, as JSON of protobuf has it."""
    expected = f"the id of a {what}: {2 * size} hexadecimal digits, or {size} bytes in base64"
    text = part.text(expected)
    if len(text) == 2 * size:
        return hex_id(part, 2 * size, expected)
    found = bytes_of(text)
    if found is None or len(found) != size:
        raise part.wrong(expected)
    return hex_id(part._replace(value=found.hex()), 2 * size, expected)


def bytes_of(text: str) -> Optional[bytes]:
    """The bytes of a text in base64, of either alphabet, or None."""
    if not BASE64.fullmatch(text):
        return None
    letters = text.rstrip("=").replace("-", "+").replace("_", "/")
    try:
        return base64.b64decode(letters + "=" * (-len(letters) % 4), validate=True)
    except (ValueError, binascii.Error):
        return None


def parent_id(part: Part) -> str:
    """The id of the parent, or nothing, which zeros may stand for too."""
    is_none = not part.is_there() or isinstance(part.value, str) and not part.value.strip("0")
    return "" if is_none else id_of(part, 8, "span")


def kind_of(part: Part) -> str:
    """The kind of a span, by its number or its name."""
    if not part.is_there():
        return UNTOLD
    if not isinstance(part.value, str) or part.value not in KNOWN_KINDS:
        raise part.wrong(f"a number from 0 to {len(KINDS) - 1} or one of {', '.join(KIND_NAMES)}")
    return KNOWN_KINDS[part.value]


def is_error(status: Part) -> bool:
    """Whether a status is that of an error."""
    code = status.under("code") if status.is_there() else status
    if not code.is_there():
        return False
    if not isinstance(code.value, str) or code.value not in STATUSES:
        raise code.wrong(f"one of {', '.join(STATUSES)}")
    return STATUSES[code.value]


def moment_of(event: Part) -> Moment:
    """An event within a span."""
    return Moment(event.under("timeUnixNano").moment(UNIT, NANOSECONDS), event.under("name").text("the name of the event"))


def link_of(link: Part) -> Id:
    """The span to which a link leads."""
    return id_of(link.under("traceId"), 16, "trace"), id_of(link.under("spanId"), 8, "span")
