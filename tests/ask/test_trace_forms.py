"""Traces in the three forms: what each may look like, one log of all three, and verdicts that are planned."""

import base64
import json
import tempfile
import unittest
from pathlib import Path

import span_files
from common import ROOT, asked, status_of

# As the specifications show them: examples/trace.json of opentelemetry-proto, and the example of zipkin2-api.yaml.
PUBLISHED_OTLP = """{"resourceSpans": [{"resource": {"attributes": [{"key": "service.name", "value": {"stringValue": "my.service"}}]},
"scopeSpans": [{"scope": {"name": "my.library", "version": "1.0.0", "attributes": [{"key": "my.scope.attribute", "value":
{"stringValue": "some scope attribute"}}]}, "spans": [{"traceId": "5B8EFFF798038103D269B633813FC60C", "spanId":
"EEE19B7EC3C1B174", "parentSpanId": "EEE19B7EC3C1B173", "name": "I'm a server span", "startTimeUnixNano":
"1544712660000000000", "endTimeUnixNano": "1544712661000000000", "kind": 2, "attributes": [{"key": "my.span.attr",
"value": {"stringValue": "some value"}}]}]}]}]}"""
PUBLISHED_ZIPKIN = """[{"id": "352bff9a74ca9ad2", "traceId": "5af7183fb1d4cf5f", "parentId": "6b221d5bc9e6496c", "name":
"get /api", "timestamp": 1556604172355737, "duration": 1431, "kind": "SERVER", "localEndpoint": {"serviceName": "backend",
"ipv4": "192.168.99.1", "port": 3306}, "remoteEndpoint": {"ipv4": "172.19.0.2", "port": 58648}, "tags": {"http.method":
"GET", "http.path": "/api"}}]"""
LIMIT = 150_000
REQUESTS = 200
SLOW, NEAR = 76, 119  # the numbers of a request that takes too long, and of one that is too near to tell
FAILED = (12, 139)
LENGTHS = [60_000 + number * 7919 % 40_000 for number in range(REQUESTS)]
LENGTHS[SLOW], LENGTHS[NEAR] = 300_000, 148_000
WITHIN = f"G (front.get__cart -> F[0,{LIMIT}] !front.get__cart)"


def made(form, text, *words, status=0):
    """The log that is made of a text, and what is said beside."""
    data = text if isinstance(text, bytes) else text.encode()
    ended, log, said = asked(["log", f"--{form}", "-", "--skew", "5ms", *words], text=data)
    assert ended == status, said
    return log, said


def rows(log):
    """The rows of a log without their stamps."""
    parts = [line.split(",") for line in log.splitlines()]
    return [f"{kind} {host} {name}" for kind, host, _, name in parts if kind in ("set", "clear", "send", "recv", "pulse")]


class Otlp(unittest.TestCase):
    SPANS = span_files.requests([60_000], 1)

    def test_what_is_published(self):
        log, said = made("otlp", PUBLISHED_OTLP)
        self.assertEqual(log.splitlines()[1:], [
            "host,my_service,5000,0", "set,my_service,1544712660000000,i_m_a_server_span", "clear,my_service,1544712661000000,i_m_a_server_span",
        ])
        self.assertIn("the parent of 1 span isn't in the files", said)

    def test_lines_and_whole_files(self):
        text = span_files.otlp(self.SPANS, batch=3)
        log = made("otlp", text)[0]
        objects = [json.loads(line) for line in text.splitlines()]
        whole = {"resourceSpans": [resource for one in objects for resource in one["resourceSpans"]]}
        for other in (
            json.dumps(whole), json.dumps(whole, indent=2), "\ufeff" + text, text.replace("\n", "\r\n\r\n"), text.replace("\n", "\r"),
            text + '{"resourceLogs": []}\n',
        ):
            self.assertEqual(made("otlp", other)[0], log)
        self.assertIn("1 object with logs, metrics or profiles left out", made("otlp", text + '{"resourceLogs": []}\n')[1])

    def test_several_files(self):
        lines = span_files.otlp(self.SPANS, batch=3).splitlines(True)
        with tempfile.TemporaryDirectory() as folder:
            for place, line in enumerate(lines):
                Path(folder, str(place)).write_text(line)
            names = [str(place) for place in range(len(lines))]
            self.assertEqual(asked(["log", "--otlp", *names, "--skew", "5ms"], folder)[1], made("otlp", "".join(lines))[0])

    def test_other_spellings(self):
        text = span_files.otlp(self.SPANS)
        log = made("otlp", text)[0]
        found = json.loads(text)
        spans = [span for one in found["resourceSpans"] for span in one["scopeSpans"][0]["spans"]]
        in_base64 = json.loads(text)
        for span in (span for one in in_base64["resourceSpans"] for span in one["scopeSpans"][0]["spans"]):
            for place, key in enumerate(("traceId", "spanId", "parentSpanId")):
                letters = base64.b64encode(bytes.fromhex(span[key])).decode()
                span[key] = letters.rstrip("=") if place == 1 else letters
        self.assertEqual(made("otlp", json.dumps(in_base64))[0], log)
        for span in spans:
            span["kind"] = f"SPAN_KIND_{list(span_files.NUMBERS)[span['kind'] - 1].upper()}"
            span["traceId"], span["spanId"] = span["traceId"].upper(), span["spanId"].upper()
            span["parentSpanId"] = span["parentSpanId"] or "0000000000000000"
            span["startTimeUnixNano"], span["endTimeUnixNano"] = int(span["startTimeUnixNano"]), int(span["endTimeUnixNano"])
            del span["events"][:], span["links"], span["attributes"]
            span["status"] = {"code": "STATUS_CODE_OK"}
        for resource in found["resourceSpans"]:
            resource["instrumentationLibrarySpans"] = [{"instrumentationLibrary": {}, "spans": one["spans"]} for one in resource.pop("scopeSpans")]
        without = "".join(line + "\n" for line in log.splitlines() if not line.startswith("pulse")).replace("skewlog2", "kind")
        self.assertEqual(made("otlp", json.dumps(found))[0], without)

    def test_an_id_in_base64_may_have_the_signs_of_urls(self):
        span = {**span_files.otlp_span(self.SPANS[0]), "traceId": base64.urlsafe_b64encode(b"\xff" * 16).decode(), "spanId": "//////////8"}
        text = json.dumps({"resourceSpans": [{"resource": {"attributes": [{"key": "service.name", "value": {"stringValue": "a"}}]}, "scopeSpans": [{"spans": [span]}]}]})
        self.assertEqual(rows(made("otlp", text, "--trace", "f" * 32)[0]), ["set a get__cart", "clear a get__cart"])


class Jaeger(unittest.TestCase):
    SPANS = span_files.requests([60_000], 1)

    def setUp(self):
        self.found = json.loads(span_files.jaeger(self.SPANS))
        self.spans = self.found["data"][0]["spans"]
        self.log = made("jaeger", json.dumps(self.found))[0]

    def made(self, *words):
        return made("jaeger", json.dumps(self.found), *words)

    def test_parents_in_other_places(self):
        for span in self.spans:
            span["parentSpanID"] = span["references"][0]["spanID"] if span["references"] else ""
            span["references"] = []
        self.assertEqual(self.made()[0], self.log)

    def test_processes_and_short_ids(self):
        trace = self.found["data"][0]
        for span in self.spans:
            span["process"] = trace["processes"][span.pop("processID")]
            span["spanID"] = span["spanID"].lstrip("0").upper()
        del trace["processes"]
        self.assertEqual(self.made()[0], self.log)

    def test_what_follows_isnt_waited_for(self):
        self.spans[2]["references"][0]["refType"] = "FOLLOWS_FROM"
        self.assertEqual(rows(self.made()[0]), [row for row in rows(self.log) if not row.endswith("s0000000000000003_back")])

    def test_other_references_are_links(self):
        own = self.spans[2]["references"][0]
        self.spans[2]["references"] = [
            {"refType": "FOLLOWS_FROM", "traceID": "1", "spanID": "1"}, own, {"refType": "CHILD_OF", "traceID": "ff", "spanID": "1"},
        ]
        log, said = self.made()
        added = ["send front s0000000000000003_link_1", "recv shop s0000000000000003_link_1"]
        self.assertEqual(sorted(rows(log)), sorted([*rows(self.log), *added]))
        self.assertIn("1 link to spans that aren't in the log left out", said)

    def test_errors_and_names_of_logs(self):
        self.spans[0]["tags"].append({"key": "error", "value": "true"})
        self.spans[0]["logs"] = [
            {"timestamp": self.spans[0]["startTime"] + 1, "fields": fields}
            for fields in ([{"key": "message", "value": "hello"}], [{"key": "x", "value": 1}], [{"key": "event", "value": "it"}, {"key": "message", "value": "no"}])
        ]
        added = ["pulse front hello", "pulse front log", "pulse front it", "pulse front failed"]
        self.assertEqual(sorted(rows(self.made()[0])), sorted([*rows(self.log), *added]))

    def test_stamps_that_were_moved(self):
        self.spans[2]["warnings"] = ["This span's timestamps were adjusted by 2.5ms"]
        log, said = self.made()
        self.assertEqual(log, self.log)
        self.assertIn("warning: the standard input: 1 span of which Jaeger says that it has moved the stamps", said)


class Zipkin(unittest.TestCase):
    @staticmethod
    def span(id_, parent, service, began, ended, kind=None, **more):
        times = {"timestamp": 1_700_000_000_000_000 + began, **({"duration": ended - began} if ended is not None else {})}
        return {"traceId": "a", "id": id_, **({"parentId": parent} if parent else {}), "name": f"n{began}", **times,
                **({"kind": kind} if kind else {}), "localEndpoint": {"serviceName": service}, **more}

    def rows(self, *spans):
        return rows(made("zipkin", json.dumps(spans))[0])

    def test_what_is_published(self):
        self.assertEqual(made("zipkin", PUBLISHED_ZIPKIN)[0].splitlines()[1:], [
            "host,backend,5000,0", "set,backend,1556604172355737,get__api", "clear,backend,1556604172357168,get__api",
        ])

    def test_lists_of_lists(self):
        text = span_files.zipkin(span_files.requests([60_000, 70_000], 1000))
        spans = json.loads(text)
        self.assertEqual(made("zipkin", json.dumps([spans[:6], spans[6:]]))[0], made("zipkin", text)[0])

    def test_ids_that_client_and_server_share(self):
        client, inner = self.span("2", "1", "web", 10, 90, "CLIENT"), self.span("3", "2", "app", 30, 40)
        for server in (self.span("2", "1", "app", 20, 80, "SERVER", shared=True), self.span("2", "1", "app", 20, 80, "SERVER")):
            found = self.rows(self.span("1", None, "web", 0, 100, "SERVER"), client, server, inner, self.span("4", "2", "db", 50, 60), self.span("5", "2", "web", 70, 71))
            short = [row.replace("s0000000000000002_server", "s2").replace("s0000000000000004", "s4") for row in found]
            self.assertEqual(short, [
                "set web n0", "set web n10", "send web s2_go", "recv app s2_go", "set app n20", "send app s4_go", "set app n30", "clear app n30",
                "recv db s4_go", "set db n50", "clear db n50", "set web n70", "clear web n70", "clear app n20", "send app s2_back",
                "recv web s2_back", "clear web n10", "clear web n0",
            ])

    def test_a_server_whose_client_is_elsewhere(self):
        found = self.rows(self.span("1", None, "web", 0, 100, "SERVER"), self.span("2", "1", "app", 20, 80, "SERVER", shared=True))
        self.assertEqual(found, [
            "set web n0", "send web s0000000000000002_go", "recv app s0000000000000002_go", "set app n20", "clear app n20", "clear web n0",
        ])

    def test_without_a_duration_a_span_is_a_pulse(self):
        text = json.dumps([self.span("1", None, "web", 0, 100, "PRODUCER"), self.span("2", "1", "app", 20, None, "CONSUMER", tags={"error": ""})])
        log, said = made("zipkin", text)
        self.assertEqual(rows(log), ["set web n0", "send web s0000000000000002_go", "recv app s0000000000000002_go", "pulse app n20", "pulse app failed", "clear web n0"])
        self.assertIn("1 span without a duration is a pulse", said)

    def test_processes_by_their_addresses(self):
        spans = [self.span("1", None, "web", 0, 100), self.span("2", None, "web", 20, 30)]
        spans[0]["localEndpoint"]["ipv4"], spans[1]["localEndpoint"]["ipv6"] = "192.0.2.1", "2001:db8::1"
        self.assertEqual({row.split()[1] for row in self.rows(*spans)}, {"web_192_0_2_1", "web_2001_db8__1"})


class Unnamed(unittest.TestCase):
    def test_files_whose_form_isnt_named(self):
        spans = span_files.requests([60_000], 1)
        for form, text in (
            ("otlp", span_files.otlp(spans)), ("zipkin", span_files.zipkin(spans)), ("jaeger", json.dumps(json.loads(span_files.jaeger(spans)))),
        ):
            ended, log, said = asked(["log", "-", "--skew", "5"], text=text.encode())
            self.assertEqual((ended, log), (66, ""))
            self.assertIn(f"These are spans of traces: --{form} reads them", said)


class RoundTrip(unittest.TestCase):
    """200 requests of which what is true was planned: the clocks of the services are 5.5 milliseconds apart, and messages are faster."""

    @classmethod
    def setUpClass(cls):
        room = tempfile.TemporaryDirectory()
        cls.addClassCleanup(room.cleanup)
        cls.room = Path(room.name)
        cls.spans = span_files.requests(LENGTHS, 50_000, FAILED)
        for form, write in span_files.FORMS.items():
            (cls.room / form).write_text(write(cls.spans))

    def split(self, form, into, *words):
        """The logs of the traces of a form, by their names."""
        ended, _, said = asked(["split", f"--{form}", form, "--by", "trace", "--into", into, "--skew", "5ms", *words, "--notes", "notes"], self.room)
        self.assertEqual(ended, 0, said)
        return {path.name: path.read_text() for path in sorted((self.room / into).glob("*.csv"))}

    def test_the_three_logs_are_one(self):
        for words in ((), ("--steady-spans", "1us", "--clock-error", "10us"), ("--service", "pay"), ("--trace", "4d", "--unit", "ms")):
            logs = [asked(["log", f"--{form}", form, "--skew", "5ms", *words], self.room) for form in span_files.FORMS]
            self.assertEqual([ended for ended, _, _ in logs], [0, 0, 0])
            self.assertEqual({log for _, log, _ in logs}, {logs[0][1]}, words)
        parts = [self.split(form, f"parts_{form}") for form in span_files.FORMS]
        self.assertEqual(len(parts[0]), REQUESTS)
        self.assertTrue(parts[0] == parts[1] == parts[2])

    def verdict(self, log, formula=WITHIN):
        return asked(["check", formula, str(log), "--quiet"], self.room)[0]

    def test_verdicts_of_traces(self):
        # By a skew of 5 milliseconds a request may have taken 10 more or less than by its stamps: of the one of 148
        # the log can't tell. Its duration was measured to a microsecond, and with that it does.
        self.split("otlp", "plain")
        self.split("jaeger", "steady", "--steady-spans", "1us")
        for number, plain, steady in ((0, 0, 0), (FAILED[0], 0, 0), (SLOW, 1, 1), (NEAR, 2, 0), (REQUESTS - 1, 0, 0)):
            name = f"{number + 1:016x}.csv"
            self.assertEqual((self.verdict(Path("plain", name)), self.verdict(Path("steady", name))), (plain, steady), name)

    def test_deadlines(self):
        for number in (0, SLOW):
            for words, more in (((), 10_000), (("--steady-spans", "3us"), 3)):
                log = asked(["log", "--zipkin", "zipkin", "--trace", f"{number + 1:x}", "--skew", "5ms", *words], self.room)[1]
                (self.room / "one.csv").write_text(log)
                least = asked(["deadline", "G (front.get__cart -> F[0,?] !front.get__cart)", "one.csv"], self.room)[1]
                self.assertEqual(least.split(" ")[0], str(LENGTHS[number] + more))

    def test_messages_tell_what_stamps_dont(self):
        # By the stamps the payment begins before the shop has asked for it. That can't be, whatever the skew is.
        log = self.room / "first.csv"
        words = ["log", "--otlp", "otlp", "--trace", "1", "--skew", "1s", "--steady-spans", "1us"]
        log.write_text(asked(words, self.room)[1])
        self.assertEqual(self.verdict(log, "G (pay.post__charge -> shop.post__order)"), 2)  # nobody waits for the charge's end
        self.assertEqual(self.verdict(log, "!(!shop.post__order U pay.post__charge)"), 0)
        self.assertEqual(self.verdict(log, "G (shop.post__order -> front.post__order)"), 0)
        self.assertEqual(self.verdict(log, "!(!shop.mail U pay.mail)"), 0)

    def test_failures(self):
        log = self.room / "failed.csv"
        for number, status in ((FAILED[0], 0), (FAILED[0] + 1, 1)):
            log.write_text(asked(["log", "--jaeger", "jaeger", "--trace", f"{number + 1:x}", "--skew", "5ms"], self.room)[1])
            self.assertEqual(self.verdict(log, "F pay.failed"), status)

    def test_a_log_of_all_is_asked_by_windows(self):
        log = self.room / "all.csv"
        log.write_text(asked(["log", "--otlp", "otlp", "--skew", "5ms"], self.room)[1])
        self.assertEqual(self.verdict(log, "G (front.post__order -> F[0,320000] !front.post__order)"), 0)

    def test_what_was_so_is_a_timing_of_each_log(self):
        words = ("--steady-spans", "1us", "--clock-error", "1us")
        for name, text in list(self.split("zipkin", "true", *words).items())[:: REQUESTS // 20]:
            times = []
            for line in text.splitlines():
                kind, host, stamp, _ = line.split(",")
                if kind in ("set", "clear", "send", "recv", "pulse"):
                    times.append(int(stamp) - span_files.OFFSETS[host.partition("_")[0]])
            (self.room / "times").write_text("".join(f"{time}\n" for time in times))
            self.assertEqual(status_of(["replay", str(ROOT / "examples" / "true.formula"), str(self.room / "true" / name), str(self.room / "times")]), 0, name)


if __name__ == "__main__":
    unittest.main()
