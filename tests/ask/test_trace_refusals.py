"""Files of traces that are refused: where what is wrong stands, and what was expected. Nothing is written of them."""

import copy
import json
import re
import tempfile
import unittest
from pathlib import Path

import span_files
from common import asked

SPANS = span_files.requests([60_000], 1)
GONE = object()  # in place of a value that isn't there


def changed(found, way, value):
    """A copy of a JSON value with another value at the end of a way of keys and places."""
    found = copy.deepcopy(found)
    at = found
    for step in way[:-1]:
        at = at[step]
    if value is GONE:
        del at[way[-1]]
    else:
        at[way[-1]] = value
    return found


def path_of(way):
    """A way as messages name it."""
    return "".join(f"[{step}]" if isinstance(step, int) else f".{step}" for step in way).removeprefix(".")


SPAN = ("resourceSpans", 1, "scopeSpans", 0, "spans", 0)
SHOP = ("resourceSpans", 1, "resource", "attributes")
TIME, HEX = "a whole number of nanoseconds since 1970", "hexadecimal digits"
# What is changed in the file, the value there, and what is expected there.
OTLP = (
    (("resourceSpans",), {"a": 1}, "a JSON list"), (("resourceSpans", 1), "x", "a JSON object"), ((*SPAN[:4],), [], ""),
    ((*SPAN[:3],), "x", "a JSON list"), (SPAN, None, "a JSON object"), (SPAN, [], "a JSON object"),
    ((*SPAN, "startTimeUnixNano"), "x", TIME), ((*SPAN, "startTimeUnixNano"), GONE, TIME), ((*SPAN, "startTimeUnixNano"), "0", TIME),
    ((*SPAN, "startTimeUnixNano"), -1, TIME), ((*SPAN, "startTimeUnixNano"), 1.5e18, TIME), ((*SPAN, "startTimeUnixNano"), True, TIME),
    ((*SPAN, "endTimeUnixNano"), "", TIME), ((*SPAN, "endTimeUnixNano"), {}, TIME), ((*SPAN, "endTimeUnixNano"), "1" * 21, TIME),
    ((*SPAN, "traceId"), "abc", "32 hexadecimal digits, or 16 bytes in base64"), ((*SPAN, "traceId"), GONE, HEX), ((*SPAN, "traceId"), "0" * 32, "not all of them 0"),
    ((*SPAN, "traceId"), "g" * 32, HEX), ((*SPAN, "traceId"), 5, HEX), ((*SPAN, "traceId"), "AAAAAAAAAAAAAAAAAAAAAA==", "not all of them 0"),
    ((*SPAN, "spanId"), "0" * 16, "not all of them 0"), ((*SPAN, "spanId"), "é" * 16, "16 hexadecimal digits, or 8 bytes in base64"),
    ((*SPAN, "parentSpanId"), "xyz", HEX), ((*SPAN, "parentSpanId"), ["a"], HEX),
    ((*SPAN, "name"), "", "the name of the span"), ((*SPAN, "name"), GONE, "the name of the span"), ((*SPAN, "name"), ["a"], "the name of the span"),
    ((*SPAN, "kind"), 6, "a number from 0 to 5 or one of SPAN_KIND_UNSPECIFIED"), ((*SPAN, "kind"), "SERVER", "SPAN_KIND_SERVER"), ((*SPAN, "kind"), True, "SPAN_KIND"),
    ((*SPAN, "status"), {"code": 3}, "STATUS_CODE_ERROR"), ((*SPAN, "status"), "x", "a JSON object"), ((*SPAN, "status"), {"code": []}, "STATUS_CODE_ERROR"),
    ((*SPAN, "events"), {}, "a JSON list"), ((*SPAN, "events"), [{"name": "x"}], TIME), ((*SPAN, "events"), [{"timeUnixNano": "5"}], "the name of the event"),
    ((*SPAN, "links"), [{}], HEX), ((*SPAN, "links"), [{"traceId": "1" * 32}], HEX), ((*SPAN, "links"), "x", "a JSON list"),
    (SHOP, [], "a resource with the attribute service.name"), (SHOP, "x", "a JSON list"), (SHOP, [{"value": {}}], "the key of an attribute"),
    ((*SHOP, 0, "value"), {"stringValue": " "}, "service.name"), ((*SHOP, 0, "value"), "shop", "a JSON object"), (SHOP[:3], GONE, "service.name"),
)
# The places that are named instead of those that were changed.
ELSEWHERE = {
    ((*SPAN, "status"), 0): (*SPAN, "status", "code"), ((*SPAN, "status"), 2): (*SPAN, "status", "code"),
    ((*SPAN, "events"), 1): (*SPAN, "events", 0, "timeUnixNano"), ((*SPAN, "events"), 2): (*SPAN, "events", 0, "name"),
    ((*SPAN, "links"), 0): (*SPAN, "links", 0, "traceId"), ((*SPAN, "links"), 1): (*SPAN, "links", 0, "spanId"),
    (SHOP, 0): SHOP[:3], (SHOP, 2): (*SHOP, 0, "key"), ((*SHOP, 0, "value"), 0): SHOP[:3],
}
J_SPAN, J_PROCESS = ("data", 0, "spans", 2), ("data", 0, "processes", "p2")
MICROS = "a whole number of microseconds"
JAEGER = (
    (("data",), {}, "an object with data, a list of traces"), (("data", 0), [], "a JSON object"), (("data", 0, "spans"), "x", "a JSON list"),
    (("data", 0, "processes"), [], "an object with a process for each id"), (J_PROCESS, "x", "a JSON object"), ((*J_PROCESS, "serviceName"), "", "the name of a service"),
    ((*J_PROCESS, "tags"), {}, "a JSON list"), ((*J_PROCESS, "tags"), [{"value": 1}], "the key of a tag"),
    ((*J_SPAN, "traceID"), "x", "at most 32 hexadecimal digits"), ((*J_SPAN, "spanID"), "1" * 17, "at most 16 hexadecimal digits"), ((*J_SPAN, "spanID"), "0", "not all of them 0"),
    ((*J_SPAN, "operationName"), None, "the name of the span"), ((*J_SPAN, "startTime"), "x", MICROS), ((*J_SPAN, "startTime"), GONE, MICROS),
    ((*J_SPAN, "duration"), -5, MICROS), ((*J_SPAN, "duration"), 1.5, MICROS), ((*J_SPAN, "duration"), GONE, MICROS),
    ((*J_SPAN, "processID"), "p9", "the id of one of the trace's processes"), ((*J_SPAN, "processID"), [], "the id of one of the trace's processes"),
    ((*J_SPAN, "references", 0, "refType"), "PARENT", "CHILD_OF or FOLLOWS_FROM"), ((*J_SPAN, "references", 0, "spanID"), "", HEX), ((*J_SPAN, "references", 0, "traceID"), GONE, HEX),
    ((*J_SPAN, "tags"), {}, "a JSON list"), ((*J_SPAN, "tags", 0), 5, "a JSON object"), ((*J_SPAN, "logs"), "x", "a JSON list"), ((*J_SPAN, "warnings"), "x", "a JSON list"),
)
Z_SPAN = (2,)
ZIPKIN = (
    (Z_SPAN, "x", "a JSON object"), ((2, "traceId"), "", HEX), ((2, "traceId"), "1" * 33, "at most 32 hexadecimal digits"), ((2, "id"), GONE, HEX), ((2, "id"), "-1", HEX),
    ((2, "parentId"), "x", HEX), ((2, "name"), 5.5, ""), ((2, "name"), [], "the name of the span"), ((2, "kind"), "server!", "CLIENT, SERVER, PRODUCER or CONSUMER"), ((2, "kind"), 2, "CLIENT"),
    ((2, "timestamp"), GONE, MICROS), ((2, "timestamp"), 0, MICROS), ((2, "timestamp"), "x", MICROS), ((2, "duration"), "x", MICROS), ((2, "duration"), -1, MICROS),
    ((2, "localEndpoint"), GONE, "an object with serviceName"), ((2, "localEndpoint"), "shop", "a JSON object"), ((2, "localEndpoint", "serviceName"), "", "the name of a service"),
    ((2, "localEndpoint", "ipv4"), ["x"], "an address"), ((2, "annotations"), "x", "a JSON list"), ((2, "annotations"), [{"value": "a"}], MICROS),
    ((2, "annotations"), [{"timestamp": 5}], "what the annotation says"), ((2, "tags"), [], "a JSON object"), ((2, "shared"), "yes", "true or false"),
)
LEADING = {"annotations": {0: ("annotations",), 1: ("annotations", 0, "timestamp"), 2: ("annotations", 0, "value")}}


class Refusing(unittest.TestCase):
    def said_of(self, form, text):
        """What is said of a text that is refused, of which neither command writes anything."""
        with tempfile.TemporaryDirectory() as folder:
            Path(folder, "f.json").write_bytes(text if isinstance(text, bytes) else text.encode("utf-8", "surrogatepass"))
            ended, log, said = asked(["log", f"--{form}", "f.json", "--skew", "5", "--notes", "notes"], folder)
            self.assertEqual((ended, log), (66, ""), said)
            split = asked(["split", f"--{form}", "f.json", "--by", "trace", "--into", "parts", "--skew", "5", "--notes", "notes"], folder)
            self.assertEqual(split, (66, "", said))
            self.assertEqual([path.name for path in Path(folder).iterdir()], ["f.json"])
        self.assertEqual(said.count("\n"), 1, said)
        return said


class Alone(Refusing):
    """Values that aren't as they have to be, each by itself."""

    def table(self, form, found, cases, place_of):
        """Asserts that each change is refused, with its path and what is expected."""
        counts = {}
        for way, value, expected in cases:
            number = counts[way] = counts.get(way, -1) + 1
            if not expected:
                continue
            with self.subTest(path=path_of(way), value=value):
                said = self.said_of(form, json.dumps(changed(found, way, value)))
                where = path_of(place_of(way, number))
                self.assertTrue(said.startswith(f"ask: f.json, {where}: it " if where else "ask: f.json: it ") or f"f.json, {where}: there is no" in said, said)
                self.assertIn(expected, said)

    def test_otlp(self):
        found = json.loads(span_files.otlp(SPANS))
        self.table("otlp", found, OTLP, lambda way, number: ELSEWHERE.get((way, number), way))

    def test_jaeger(self):
        found = json.loads(span_files.jaeger(SPANS))
        self.table("jaeger", found, JAEGER, lambda way, number: {
            ("data",): (), (*J_PROCESS, "tags"): (*J_PROCESS, "tags", *([0, "key"] if number else [])),
        }.get(way, way))

    def test_zipkin(self):
        found = json.loads(span_files.zipkin(SPANS))
        self.table("zipkin", found, ZIPKIN, lambda way, number: (*way[:1], *LEADING.get(way[-1], {}).get(number, way[1:])))

    def test_lines_are_told(self):
        text = span_files.otlp(SPANS, batch=3)
        lines = text.splitlines(True)
        wrong = changed(json.loads(lines[1]), ("resourceSpans", 0, "scopeSpans", 0, "spans", 0, "startTimeUnixNano"), "soon")
        said = self.said_of("otlp", lines[0] + json.dumps(wrong))
        self.assertEqual(said, (
            'ask: f.json, line 2, resourceSpans[0].scopeSpans[0].spans[0].startTimeUnixNano: it is "soon", and has to be a whole number of '
            "nanoseconds since 1970\n"
        ))
        self.assertIn("f.json, line 2: this is no JSON object on one line", self.said_of("otlp", lines[0] + "{"))
        self.assertIn("f.json, line 2: it is", self.said_of("otlp", lines[0] + '{"spans": []}'))

    def test_keys_that_stand_twice(self):
        for form, key, path in (
            ("otlp", "spanId", "resourceSpans[0].scopeSpans[0].spans[0].spanId"), ("otlp", "resourceSpans", "resourceSpans"),
            ("jaeger", "startTime", "data[0].spans[0].startTime"), ("jaeger", "data", "data"), ("zipkin", "traceId", "[0].traceId"),
        ):
            text = getattr(span_files, form)(SPANS)
            found = re.search(rf'"{key}": ?', text)
            twice = f'{text[: found.end()]}"other", {text[found.start() :]}'
            self.assertIn(f"{path}: this key has 2 values in one object: which is meant?", self.said_of(form, twice), form)
            json.loads(twice)

    def test_an_attribute_that_stands_twice(self):
        found = json.loads(span_files.otlp(SPANS))
        attributes = found["resourceSpans"][1]["resource"]["attributes"]
        attributes.append(attributes[0])
        with tempfile.TemporaryDirectory() as folder:
            Path(folder, "f.json").write_text(json.dumps(found))
            self.assertEqual(asked(["log", "--otlp", "f.json", "--skew", "5", "--quiet"], folder)[0], 0)
        attributes[-1] = {**attributes[0], "value": {"stringValue": "another"}}
        said = self.said_of("otlp", json.dumps(found))
        where = f"resourceSpans[1].resource.attributes[{len(attributes) - 1}]"
        self.assertIn(f"f.json, {where}: the attribute service.name has another value before: which is meant?", said)

    def test_other_files(self):
        deep = '{"resourceSpans": ' + "[" * 100_000
        for form, text, part in (
            ("otlp", "", "it is no JSON"), ("otlp", "[]", "resourceSpans"), ("otlp", "{}", "an object with resourceSpans"), ("otlp", "5", "resourceSpans"), ("otlp", deep, "f.json"),
            ("otlp", span_files.otlp(SPANS)[:-20], "it is no JSON"), ("otlp", span_files.jaeger(SPANS), "an object with resourceSpans"), ("otlp", "\0", "f.json"),
            ("otlp", span_files.otlp(SPANS).encode("utf-16"), "UTF-16"), ("otlp", '{"resourceSpans": []}', "there is no row in f.json"), ("otlp", b"\xff\xfe\xfd", "f.json"),
            ("jaeger", span_files.otlp(SPANS), "an object with data"), ("jaeger", "[]", "an object with data"), ("jaeger", '{"data": []}', "there is no row"), ("jaeger", "{", "it is no JSON"),
            ("zipkin", span_files.jaeger(SPANS), "a list of spans"), ("zipkin", "[]", "there is no row"), ("zipkin", "[[]]", "there is no row"), ("zipkin", "[1]", "f.json, [0]: it is"),
            ("zipkin", "[NaN]", "f.json, [0]: it is NaN"), ("zipkin", "[" * 100_000, "f.json"),
        ):
            with self.subTest(form=form, part=part):
                self.assertIn(part, self.said_of(form, text))


class Together(Refusing):
    """Spans that are right by themselves, and not beside each other."""

    def of(self, *spans):
        """What is said of spans."""
        told = [self.said_of(form, write(list(spans))) for form, write in span_files.FORMS.items()]
        return told

    @staticmethod
    def span(number, parent="", began=100, ended=200, trace=1, name="work", service="front"):
        return span_files.One(f"{trace:032x}", f"{number:016x}", parent and f"{parent:016x}", service, name, "internal", span_files.START + began, span_files.START + ended)

    def test_cycles(self):
        for said in self.of(self.span(1, 3, name="a b"), self.span(2, 1, name="c"), self.span(3, 2, name="d"), self.span(4, 3), self.span(5)):
            self.assertIn("the trace 0000000000000001 has a cycle of parents", said)
            for name, number in (("a b", 1), ("c", 2), ("d", 3)):
                self.assertIn(f"'{name}' (0000000000000001/{number:016x})", said)
            self.assertNotIn("'work'", said)
        for said in self.of(self.span(7, 7)):
            self.assertIn("has a cycle of parents", said)
        told = self.of(self.span(1, 3, trace=1), self.span(2, 1, trace=1), self.span(3, 2, trace=2), self.span(9, began=5, ended=1))
        for said, wanted in zip(told, ("'work' (0000000000000001/0000000000000009) ends 4000 nanoseconds before it begins", "duration: it is \"-4\"", "duration: it is \"-4\"")):
            self.assertIn(wanted, said)

    def test_ids_twice(self):
        for said, where in zip(self.of(self.span(1, name="one"), self.span(2), self.span(1, name="other")), (
            "resourceSpans[0].scopeSpans[0].spans[{}]", "data[0].spans[{}]", "[{}]",
        )):
            self.assertIn(f"f.json, {where.format(2)}: the span 'other' (0000000000000001/0000000000000001) has the id of 'one'", said)
            self.assertIn(f"at f.json, {where.format(0)}", said)

    def test_what_a_name_has_isnt_acted_on(self):
        for said in self.of(self.span(1, 1, name="\x1b[31m\u202e" + "x" * 500)):
            self.assertIn("'\\x1b[31m\\u202e", said)
            self.assertLess(len(said), 600)

    def test_stamps_that_are_too_great(self):
        text = span_files.otlp([self.span(1)]).replace(f'"{span_files.START + 200}000"', '"9999999999999999999"')
        self.assertIn("at most 4*10^18", self.said_of("otlp", text.replace(f'"{span_files.START + 100}000"', '"9999999999999999998"')))


if __name__ == "__main__":
    unittest.main()
