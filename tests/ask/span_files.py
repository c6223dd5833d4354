"""Requests through three services whose clocks are apart, written as OTLP, Jaeger's and Zipkin's JSON have spans.

Each writer keeps to the published form by itself: the JSON mapping of opentelemetry-proto (trace.proto), the JSON of
Jaeger's query API (model/json of Jaeger), and version 2 of Zipkin's API (zipkin2-api.yaml). Times are in microseconds.
"""

import json
from typing import NamedTuple

START = 1_700_000_000_000_000
OFFSETS = {"front": 0, "shop": 3000, "pay": -2500}  # by how much each clock is ahead of the true time
NUMBERS = {"internal": 1, "server": 2, "client": 3, "producer": 4, "consumer": 5}


class One(NamedTuple):
    """A span by the clock of its service."""

    trace: str
    id: str
    parent: str
    service: str
    name: str
    kind: str
    began: int
    ended: int
    is_failed: bool = False
    events: tuple = ()  # of moments and names


def spans_of_request(number, lasts, at, is_failed=False):
    """The spans of a request that the front answers after so long: it asks the shop, which asks for the payment.

    By the true time each service takes a tenth longer than the one behind it, messages take at least 100, and behind
    its answer the payment still handles the mail that the shop has put into a queue.
    """
    trace = f"{number + 1:032x}"
    front, order, asked, paid, queued, mailed = (f"{number * 16 + place + 1:016x}" for place in range(6))
    inner = lasts * 8 // 10
    charge = inner * 8 // 10

    def span(id_, parent, service, name, kind, begin, length, *more):
        began = at + begin + OFFSETS[service]
        return One(trace, id_, parent, service, name, kind, began, began + length, *more)

    yield span(front, "", "front", "get /cart", "server", 0, lasts)
    yield span(order, front, "front", "post /order", "client", lasts // 20, lasts * 9 // 10)
    yield span(asked, order, "shop", "post /order", "server", lasts // 10, inner)
    yield span(paid, asked, "pay", "post /charge", "server", lasts // 10 + inner // 10, charge, is_failed,
               ((at + lasts // 10 + inner // 5 + OFFSETS["pay"], "asked bank"),))
    yield span(queued, asked, "shop", "mail", "producer", lasts // 10 + inner * 19 // 20, 40)
    yield span(mailed, queued, "pay", "mail", "consumer", lasts + 700, 900)


def requests(lengths, apart, failed=()):
    """The spans of requests that last so long and begin so far apart."""
    return [
        span for number, lasts in enumerate(lengths)
        for span in spans_of_request(number, lasts, START + number * apart, number in failed)
    ]


# Writers


def otlp(spans, batch=60):
    """Lines of OTLP JSON, each with the spans of all services in a batch."""
    lines = []
    for start in range(0, len(spans), batch):
        part = spans[start : start + batch]
        resources = [
            {
                "resource": {"attributes": [
                    {"key": "service.name", "value": {"stringValue": service}},
                    {"key": "host.name", "value": {"stringValue": f"{service}-host"}},
                    {"key": "process.pid", "value": {"intValue": "4711"}},
                ], "droppedAttributesCount": 0},
                "scopeSpans": [{
                    "scope": {"name": "lib", "version": "1.0"}, "spans": [otlp_span(span) for span in part if span.service == service],
                    "schemaUrl": "https://opentelemetry.io/schemas/1.21.0",
                }],
                "schemaUrl": "",
            }
            for service in dict.fromkeys(span.service for span in part)
        ]
        lines.append(json.dumps({"resourceSpans": resources}) + "\n")
    return "".join(lines)


def otlp_span(span):
    return {
        "traceId": span.trace, "spanId": span.id, "traceState": "", "parentSpanId": span.parent, "flags": 256, "name": span.name,
        "kind": NUMBERS[span.kind], "startTimeUnixNano": f"{span.began}000", "endTimeUnixNano": f"{span.ended}000",
        "attributes": [{"key": "n", "value": {"doubleValue": 0.5}}, {"key": "l", "value": {"arrayValue": {"values": [{"boolValue": True}]}}}],
        "events": [{"timeUnixNano": f"{at}000", "name": name, "attributes": []} for at, name in span.events],
        "links": [], "status": {"code": 2, "message": "no money"} if span.is_failed else {},
    }


def jaeger(spans):
    """The answer of Jaeger's query API."""
    traces = []
    for trace in dict.fromkeys(span.trace for span in spans):
        own = [span for span in spans if span.trace == trace]
        names = {service: f"p{number}" for number, service in enumerate(dict.fromkeys(span.service for span in own), start=1)}
        traces.append({
            "traceID": trace.lstrip("0"), "spans": [jaeger_span(span, names) for span in own],
            "processes": {
                id_: {"serviceName": service, "tags": [{"key": "host.name", "type": "string", "value": f"{service}-host"}]}
                for service, id_ in names.items()
            },
            "warnings": None,
        })
    return json.dumps({"data": traces, "total": 0, "limit": 0, "offset": 0, "errors": None}, indent=1)


def jaeger_span(span, names):
    references = [{"refType": "CHILD_OF", "traceID": span.trace.lstrip("0"), "spanID": span.parent}] if span.parent else []
    return {
        "traceID": span.trace.lstrip("0"), "spanID": span.id, "flags": 1, "operationName": span.name, "references": references,
        "startTime": span.began, "duration": span.ended - span.began,
        "tags": [
            {"key": "span.kind", "type": "string", "value": span.kind}, {"key": "http.status_code", "type": "int64", "value": 200},
            *([{"key": "error", "type": "bool", "value": True}] if span.is_failed else []),
        ],
        "logs": [{"timestamp": at, "fields": [{"key": "event", "type": "string", "value": name}]} for at, name in span.events],
        "processID": names[span.service], "warnings": None,
    }


def zipkin(spans):
    """A list of Zipkin's spans."""
    return json.dumps([
        {
            "traceId": span.trace, "id": span.id, **({"parentId": span.parent} if span.parent else {}), "name": span.name,
            "kind": span.kind.upper(), "timestamp": span.began, "duration": span.ended - span.began,
            "localEndpoint": {"serviceName": span.service, "ipv4": f"192.0.2.{list(OFFSETS).index(span.service) + 1}", "port": 80},
            "annotations": [{"timestamp": at, "value": name} for at, name in span.events],
            "tags": {"host.name": f"{span.service}-host", **({"error": "no money"} if span.is_failed else {})},
        }
        for span in spans
    ])


FORMS = {"otlp": otlp, "jaeger": jaeger, "zipkin": zipkin}
