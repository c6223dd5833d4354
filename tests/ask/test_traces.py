"""`ask log` and `ask split` of traces: the logs of small ones, worked out by hand."""

import json
import random
import tempfile
import unittest
from hashlib import sha256
from pathlib import Path

from common import asked, status_of

HEAD = "kind,host,time,name\n"
SECOND = "skewlog2,host,time,name\n"
THIRD = "skewlog3,host,time,name\n"
BASE = 1_700_000_000_000_000  # microseconds


def trace_id(number):
    return f"{number:032x}"


def span_id(number):
    return f"{number:016x}"


def span(number, began, ended, name="work", parent=0, kind=0, trace=1, **more):
    """A span in OTLP JSON, whose times are microseconds behind the base."""
    return {
        "traceId": trace_id(trace), "spanId": span_id(number), "parentSpanId": span_id(parent) if parent else "", "name": name,
        "kind": kind, "startTimeUnixNano": f"{BASE + began}000", "endTimeUnixNano": f"{BASE + ended}000", **more,
    }


def event(at, name):
    """An event within a span."""
    return {"timeUnixNano": f"{BASE + at}000", "name": name}


def link(number, trace=1):
    """A link to a span."""
    return {"traceId": trace_id(trace), "spanId": span_id(number)}


def of(service, *spans, **attributes):
    """The spans of a process, as an object of OTLP JSON has them."""
    told = {"service.name": service, **{key.replace("__", "."): value for key, value in attributes.items()}}
    return {
        "resource": {"attributes": [{"key": key, "value": {"stringValue": value}} for key, value in told.items()]},
        "scopeSpans": [{"spans": list(spans)}],
    }


def otlp(*resources):
    """A line of OTLP JSON."""
    return json.dumps({"resourceSpans": resources}) + "\n"


def clocks_of(log):
    """The clocks that the records of a log name."""
    return [line.split(",")[3] for line in log.splitlines() if line.startswith("clock,")]


ERROR = {"status": {"code": 2}}
SERVER, CLIENT, PRODUCER, CONSUMER = 2, 3, 4, 5


class Traces(unittest.TestCase):
    def setUp(self):
        room = tempfile.TemporaryDirectory()
        self.addCleanup(room.cleanup)
        self.room = room.name

    def made(self, text, *words, status=0, form="otlp"):
        """The log that is made of a text, its notes, and what is said beside; stamps count from the base."""
        Path(self.room, "spans").write_text(text)
        Path(self.room, "notes").unlink(missing_ok=True)
        ended, log, said = asked(["log", f"--{form}", "spans", *words, "--notes", "notes"], self.room)
        self.assertEqual(ended, status, said)
        self.assertNotIn("Traceback", said)
        if status == 0:
            self.assertIn(status_of(["times", "-"], log.encode()), (0, 3), log)
        return log.replace(str(BASE)[:-3], ""), Path(self.room, "notes").read_text() if status == 0 else "", said

    def rows(self, *resources, words=("--skew", "5")):
        """The rows of a log, each as its kind, host, the end of its stamp and name."""
        log = self.made(otlp(*resources), *words)[0]
        return [line for line in log.splitlines() if line.split(",")[0] in ("set", "clear", "send", "recv", "note", "pulse")]

    def hosts(self, *resources, words=("--skew", "5")):
        """The hosts of a log by their names."""
        log = self.made(otlp(*resources), *words)[0]
        return [line.split(",")[1] for line in log.splitlines() if line.startswith("host,")]

    def refused(self, text, words, status, *parts):
        """Asserts that words are refused, with these parts in the message, and that no log is written."""
        log, _, said = self.made(text, *words, status=status)
        self.assertEqual(log, "")
        for part in parts:
            self.assertIn(part, said)


class Spans(Traces):
    def test_a_span_sets_its_name_and_clears_it(self):
        log, notes, said = self.made(otlp(of("shop", span(1, 100, 350, "GET /cart"))), "--skew", "5us")
        self.assertEqual((log, said), (HEAD + "host,shop,5,0\nset,shop,100,get__cart\nclear,shop,350,get__cart\n", ""))
        self.assertIn("unit: microseconds since 1970-01-01T00:00:00Z\n", notes)
        self.assertIn("name: 'GET /cart' is get__cart\n", notes)

    def test_children_of_one_process_are_no_messages(self):
        rows = self.rows(of("shop", span(2, 100, 350, "inner", parent=1), span(1, 100, 350, "outer"), span(3, 350, 350, "last", parent=1)))
        # At one stamp what is within another span is within it in the log too.
        self.assertEqual(rows, [
            "set,shop,100,outer", "set,shop,100,inner", "clear,shop,350,inner", "set,shop,350,last", "clear,shop,350,last",
            "clear,shop,350,outer",
        ])

    def test_events_are_pulses_and_an_error_is_one(self):
        rows = self.rows(of("shop", span(1, 100, 350, events=[event(350, "retry"), event(120, "Cache miss")], **ERROR)))
        self.assertEqual(rows, [
            "set,shop,100,work", "pulse,shop,120,cache_miss", "pulse,shop,350,retry", "clear,shop,350,work", "pulse,shop,350,failed",
        ])

    def test_units(self):
        fine = otlp(of("shop", {**span(1, 100, 350), "endTimeUnixNano": f"{BASE + 350}001"}))
        self.assertIn("set,shop,100000,work\nclear,shop,350001,work\n", self.made(fine, "--skew", "5us")[0])
        log, notes, _ = self.made(fine, "--skew", "5us", "--unit", "us")
        self.assertEqual(log, HEAD + "host,shop,6,0\nset,shop,100,work\nclear,shop,350,work\n")
        self.assertIn("digits below a unit are cut off in 1 stamp of shop", notes)
        # Messages may be faster than a millisecond, so that no coarser unit is chosen.
        self.assertIn(f"set,shop,{BASE},work\n", asked(["log", "--otlp", "-", "--skew", "5"], text=otlp(of("shop", span(1, 0, 1000))).encode())[1])

    def test_skews_are_asked_for(self):
        self.refused(otlp(of("shop", span(1, 100, 350))), [], 64, "how far may the stamps of shop be off? Say it by --skew shop=D")


class Messages(Traces):
    def rows_of(self, kind, child_kind, ended=300, **more):
        """The rows of a span and its child in another service, which ends at a moment."""
        rows = self.rows(
            of("shop", span(1, 100, 350, "ask", kind=kind, **more)), of("pay", span(2, 200, ended, "pay", parent=1, kind=child_kind)),
        )
        return [row.replace(span_id(2), "2") for row in rows]

    GO = ["set,shop,100,ask", "send,shop,100,s2_go", "recv,pay,200,s2_go", "set,pay,200,pay"]
    NO_WAY_BACK = [*GO, "clear,pay,300,pay", "clear,shop,350,ask"]
    BACK = [*GO, "clear,pay,300,pay", "send,pay,300,s2_back", "recv,shop,350,s2_back", "clear,shop,350,ask"]

    def test_a_client_and_a_server(self):
        self.assertEqual(self.rows_of(CLIENT, SERVER), self.BACK)
        self.assertEqual(self.rows_of("SPAN_KIND_CLIENT", "SPAN_KIND_SERVER"), self.BACK)
        late = [*self.GO, "recv,shop,350,s2_back", "clear,shop,350,ask", "clear,pay,400,pay", "send,pay,400,s2_back"]
        self.assertEqual(self.rows_of(CLIENT, SERVER, ended=400), late)

    def test_a_client_that_failed_may_have_given_up(self):
        self.assertEqual(self.rows_of(CLIENT, SERVER, **ERROR), [*self.NO_WAY_BACK, "pulse,shop,350,failed"])
        log, notes, _ = self.made(otlp(
            of("shop", span(1, 100, 350, kind=CLIENT, **ERROR)), of("pay", span(2, 200, 300, parent=1, kind=SERVER)),
        ), "--skew", "5")
        self.assertIn("1 answer to spans that failed left out, since their client may have given up before\n", notes)

    def test_kinds_that_arent_told(self):
        for kinds in ((0, 0), (CLIENT, 0), (0, SERVER)):
            self.assertEqual(self.rows_of(*kinds), self.BACK)
            self.assertEqual(self.rows_of(*kinds, ended=400), [*self.GO, "clear,shop,350,ask", "clear,pay,400,pay"])

    def test_no_way_back(self):
        for kinds in ((PRODUCER, CONSUMER), (1, SERVER), (CLIENT, 1), (PRODUCER, 0), (SERVER, SERVER), (CLIENT, CONSUMER)):
            self.assertEqual(self.rows_of(*kinds), self.NO_WAY_BACK, kinds)

    def test_several_children(self):
        rows = self.rows(
            of("shop", span(1, 100, 350)), of("pay", span(2, 200, 300, parent=1)), of("mail", span(3, 210, 290, parent=1)),
        )
        self.assertEqual([row.split(",")[0] + row[-4:] for row in rows if row.split(",")[1] == "shop"],
                         ["setwork", "send2_go", "send3_go", "recvback", "recvback", "clearwork"])

    def test_links(self):
        resources = (
            of("shop", span(1, 100, 150, "put", kind=PRODUCER), span(2, 160, 190, "put", kind=PRODUCER)),
            of("mail", span(3, 300, 400, "batch", kind=CONSUMER, trace=2, links=[link(1), link(2), link(1), link(9)]),
               span(4, 410, 420, "more", trace=2, links=[link(3, trace=2)])),
        )
        names = [f"s{span_id(3)}_link_{place}" for place in (1, 2)]
        self.assertEqual(self.rows(*resources), [
            "set,shop,100,put", f"send,shop,100,{names[0]}", "clear,shop,150,put", "set,shop,160,put", f"send,shop,160,{names[1]}",
            "clear,shop,190,put", f"recv,mail,300,{names[0]}", f"recv,mail,300,{names[1]}", "set,mail,300,batch", "clear,mail,400,batch",
            "set,mail,410,more", "clear,mail,420,more",
        ])
        self.assertIn("1 link to spans that aren't in the log left out\n", self.made(otlp(*resources), "--skew", "5")[1])

    def test_a_link_to_what_began_later(self):
        rows = self.rows(
            of("shop", span(1, 100, 400, links=[link(2)])), of("mail", span(2, 200, 300, links=[link(1), link(2)])),
        )
        names = {f"s{span_id(1)}_link_1": "late", f"s{span_id(2)}_link_1": "early"}
        self.assertEqual([",".join([*row.split(",")[:3], names.get(row.split(",")[3], "work")]) for row in rows], [
            "set,shop,100,work", "send,shop,100,early", "recv,mail,200,early", "set,mail,200,work", "send,mail,200,late",
            "clear,mail,300,work", "recv,shop,400,late", "clear,shop,400,work",
        ])

    def test_spans_that_are_told_twice(self):
        resources = [of("shop", span(1, 100, 200, kind=CLIENT)), of("pay", span(2, 120, 180, parent=1, kind=SERVER, events=[event(130, "hit")]))]
        log, notes, _ = self.made(otlp(*resources), "--skew", "5")
        self.assertNotIn("word for word", notes)
        again, notes, _ = self.made(otlp(*resources) + otlp(*resources[1:]), "--skew", "5")
        self.assertEqual(again, log)
        self.assertIn("1 span told again, word for word, and taken once\n", notes)
        other = [of("pay", span(2, 120, 181, parent=1, kind=SERVER, events=[event(130, "hit")]))]
        self.refused(otlp(*resources) + otlp(*other), ["--skew", "5"], 66, "has the id of 'work'")

    def test_ids_that_several_traces_have(self):
        resources = [
            item for trace in (1, 2)
            for item in (of("a", span(1, 100 * trace, 100 * trace + 50, trace=trace)), of("b", span(2, 100 * trace + 10, 100 * trace + 20, parent=1, trace=trace)))
        ]
        sent = [row.split(",")[3] for row in self.rows(*resources) if row.startswith("send")]
        self.assertEqual(sent, [f"s{span_id(2)}_{place}" for place in ("1_go", "1_back", "2_go", "2_back")])

    def test_parents_that_arent_there(self):
        text = otlp(of("shop", span(1, 100, 350, "a b", parent=9), span(2, 110, 120, parent=1)), of("pay", span(3, 130, 140, parent=1)))
        log, notes, _ = self.made(text, "--skew", "5")
        said = f"the parent of 1 span isn't in the files, so that no message to it is known: 'a b' ({span_id(1)}/{span_id(1)})\n"
        self.assertIn(said, notes)
        log, notes, _ = self.made(text, "--skew", "5", "--service", "pay")
        self.assertEqual(log, HEAD + "host,pay,5,0\nset,pay,130,work\nclear,pay,140,work\n")
        self.assertIn("2 spans of other traces or services left out\n1 span whose parent is left out, and the messages from it\n", notes)


class Hosts(Traces):
    def test_spans_of_one_name_that_overlap(self):
        rows = self.rows(of(
            "shop", span(1, 100, 200, "ask"), span(2, 150, 250, "ask", trace=2), span(3, 160, 170, "pay", parent=2, trace=2),
            span(4, 200, 260, "ask", trace=3), span(5, 201, 205, "ask", parent=4, trace=3), span(6, 210, 220, "pay", parent=4, trace=3),
        ))
        self.assertEqual([row.rpartition(",")[0] for row in rows if row.startswith("set")], [
            "set,shop,100", "set,shop_2,150", "set,shop_2,160", "set,shop_3,200", "set,shop,201", "set,shop_3,210",
        ])

    def test_spans_that_are_open_at_once(self):
        spans = of(
            "shop", span(1, 100, 300, "ask"), span(2, 110, 200, "charge", parent=1), span(3, 120, 210, "reserve", parent=1), span(4, 130, 140, "sql", parent=3),
            span(5, 220, 310, "mail", parent=1), span(6, 220, 230, "ask", parent=1), span(7, 305, 320, "clean"), span(8, 220, 225, "sql", parent=6),
        )
        for words, numbers in (((), "shop shop shop shop shop_2 shop_2 shop shop"), (("--apart",), "shop shop shop_2 shop_2 shop_2 shop_2 shop_3 shop")):
            rows = self.rows(spans, words=("--skew", "5", *words))
            found = [row.rpartition(",")[0].split(",")[1] for row in rows if row.startswith("set")]
            self.assertEqual(found, numbers.split(), words)

    def test_a_host_that_is_called_so_already(self):
        self.assertEqual(self.hosts(of("shop", span(1, 100, 200), span(2, 150, 250)), of("shop_2", span(3, 300, 310))), ["shop", "shop_2_2", "shop_2"])

    def test_processes_of_a_service(self):
        for key in ("service__instance__id", "host__name", "k8s__pod__name"):
            resources = (of("shop", span(1, 100, 110), **{key: "A-1"}), of("shop", span(2, 105, 115), **{key: "b"}), of("pay", span(3, 120, 130), **{key: "A-1"}))
            self.assertEqual(self.hosts(*resources), ["shop_a_1", "shop_b", "pay"])
        told = of("shop", span(1, 100, 110), service__instance__id="x", host__name="h")
        self.assertEqual(self.hosts(told, of("shop", span(2, 105, 115), service__instance__id="x", host__name="i")), ["shop_x", "shop_x_2"])
        self.assertEqual(self.hosts(told, of("shop", span(2, 105, 115))), ["shop_x", "shop"])

    def test_a_service_that_calls_itself_elsewhere(self):
        rows = self.rows(of("shop", span(1, 100, 200), host__name="a"), of("shop", span(2, 110, 120, parent=1), host__name="b"))
        self.assertIn(f"recv,shop_b,110,s{span_id(2)}_go", rows)

    def test_what_isnt_told_of_a_process(self):
        notes = self.made(otlp(of("shop", span(1, 100, 110)), of("pay", span(2, 100, 110), host__name="a")), "--skew", "5")[1]
        self.assertIn("taken as one process each, since no span tells more of it (service.instance.id, k8s.pod.name, host.name): shop\n", notes)

    def test_skews_of_a_service_are_those_of_its_hosts(self):
        resources = (
            of("shop", span(1, 100, 200), span(2, 150, 250), host__name="a"), of("shop", span(3, 300, 310), host__name="b"), of("pay", span(4, 320, 330)),
        )
        for words, skews in (
            (["--skew", "shop=7", "--skew", "5"], [7, 7, 7, 5]), (["--skew", "shop_a_2=9", "--skew", "shop=7", "--skew", "pay=1"], [7, 9, 7, 1]),
            (["--skew", "shop_a=8", "--skew", "5"], [8, 8, 5, 5]),
        ):
            log = self.made(otlp(*resources), *words)[0]
            hosts = [line.split(",")[1:3] for line in log.splitlines() if line.startswith("host,")]
            self.assertEqual(hosts, [[host, str(skew)] for host, skew in zip(("shop_a", "shop_a_2", "shop_b", "pay"), skews)], words)
        self.refused(otlp(*resources), ["--skew", "5", "--skew", "bank=1"], 64, "there is no host bank. The hosts: shop, shop_a, shop_b, pay, shop_a_2")

    def test_more_hosts_than_there_may_be(self):
        text = otlp(of("shop", *(span(number, 100, 200) for number in range(1, 66))))
        self.refused(text, ["--skew", "5"], 66, "65 hosts; at most 64: choose by --trace and --service, or by --from and --to")


class Clocks(Traces):
    def clocks(self, *resources, words=()):
        """Which clock each host reads, and with which error."""
        log = self.made(otlp(*resources), "--skew", "50", "--clock-error", "2", *words)[0]
        return [tuple(line.split(",")[1:]) for line in log.splitlines() if line.startswith("clock,")]

    def test_hosts_of_one_machine_read_one_clock(self):
        one, other = of("shop", span(1, 100, 200), span(2, 150, 160), host__name="m"), of("pay", span(3, 300, 310), host__name="m")
        self.assertEqual(self.clocks(one, other), [("shop", "2", "m"), ("shop_2", "2", "m"), ("pay", "2", "m")])
        other = of("pay", span(3, 300, 310), host__name="m", host__id="i")
        self.assertEqual(self.clocks(one, other), [("shop", "2", "m"), ("shop_2", "2", "m"), ("pay", "2", "i")])

    def test_machines_that_arent_told_are_apart(self):
        self.assertEqual(self.clocks(of("m", span(1, 100, 200)), of("pay", span(3, 300, 310), host__name="m")), [("m", "2", "m_2"), ("pay", "2", "m")])
        local = [of(name, span(place, 100, 200), host__name="localhost") for place, name in ((1, "shop"), (2, "pay"))]
        self.assertEqual(self.clocks(*local), [("shop", "2", "shop"), ("pay", "2", "pay")])

    def test_machines_by_another_key(self):
        resources = (of("shop", span(1, 100, 200), k8s__node__name="n"), of("pay", span(2, 300, 310), k8s__node__name="n"))
        self.assertEqual(self.clocks(*resources, words=("--machine", "k8s.node.name")), [("shop", "2", "n"), ("pay", "2", "n")])
        self.refused(otlp(*resources), ["--skew", "5", "--machine", "rack"], 66, "resourceSpans[0].scopeSpans[0].spans[0]: --machine rack: its process tells no rack")

    def test_machines_whose_joined_names_would_be_one(self):
        resources = (of("shop", span(1, 100, 200), rack="a", node="b_c"), of("pay", span(2, 300, 310), rack="a_b", node="c"))
        said = "resourceSpans[1].scopeSpans[0].spans[0]: joined with _, 'a', 'b_c' and 'a_b', 'c' are both 'a_b_c', and would be one under rack, node"
        self.refused(otlp(*resources), ["--skew", "5", "--machine", "rack,node"], 66, said)
        one = of("pay", span(2, 300, 310), rack="a", node="b_c")
        self.assertEqual(self.clocks(resources[0], one, words=("--machine", "rack,node")), [("shop", "2", "a_b_c"), ("pay", "2", "a_b_c")])

    def test_durations(self):
        log = self.made(otlp(of("shop", span(1, 100, 350, **ERROR))), "--skew", "5", "--steady-spans", "3us")[0]
        self.assertEqual(log, THIRD + (
            "host,shop,5,0\nset,shop,100,work\nclear,shop,350,work\npulse,shop,350,failed\n"
            "bound,1,0,253\nbound,2,0,253\nbound,0,1,-247\nbound,0,2,-247\n"
        ))
        log = self.made(otlp(of("shop", span(1, 100, 2350))), "--skew", "5", "--steady-spans", "0", "--unit", "ms")[0]
        self.assertIn("bound,1,0,3\nbound,0,1,-2\n", log)
        self.refused(otlp(of("shop", span(1, 100, 350))), ["--skew", "5", "--steady-spans", "x"], 64, "--steady-spans x: the error is a number of units")

    def test_an_end_is_by_the_clock_of_its_begin(self):
        # The clock was stepped by 30 at 200: the outer span began before, and so its end is computed from a stamp of
        # before, while the inner one is all behind.
        resources = of("shop", span(1, 100, 900, "outer"), span(2, 400, 500, "inner", parent=1))
        words = ("--skew", "50", "--clock-error", "2", "--step", "2023-11-14T22:13:20.000200Z,30us")
        steady = self.made(otlp(resources), *words, "--steady-spans", "1")[0].splitlines()
        self.assertEqual(steady[1:12], [
            "host,shop,80,0", "clock,shop,2,shop", "set,shop,100,outer", "resync,shop,50,0", "clock,shop,2,shop_2", "set,shop,400,inner",
            "clock,shop,3,shop_2", "clear,shop,500,inner", "resync,shop,80,0", "clock,shop,3,shop", "clear,shop,900,outer",
        ])
        unknown = self.made(otlp(resources), *words)[0].splitlines()
        self.assertEqual([line for line in unknown if line.startswith("clock,")], ["clock,shop,2,shop", "clock,shop,2,shop_2"])


class Choices(Traces):
    TEXT = otlp(
        of("shop", span(1, 100, 200, "ask"), span(3, 300, 400, "ask", trace=2)), of("pay", span(2, 120, 180, "pay", parent=1), span(4, 320, 380, "pay", parent=3, trace=2)),
    )

    def test_traces(self):
        for spelled in (trace_id(2), "2", "0002"):
            log, notes, _ = self.made(self.TEXT, "--skew", "5", "--trace", spelled)
            self.assertEqual([line.split(",")[2] for line in log.splitlines()[3:]], ["300", "300", "320", "320", "380", "380", "400", "400"])
            self.assertIn("2 spans of other traces or services left out\n", notes)
        self.assertEqual(self.made(self.TEXT, "--skew", "5", "--trace", "1", "--trace", "2")[0], self.made(self.TEXT, "--skew", "5")[0])
        self.refused(self.TEXT, ["--skew", "5", "--trace", "abc"], 66, "--trace 0000000000000abc: no span of the files is of it", span_id(1))

    def test_services(self):
        self.assertEqual(self.made(self.TEXT, "--skew", "5", "--service", "pay", "--trace", "1")[0], HEAD + "host,pay,5,0\nset,pay,120,pay\nclear,pay,180,pay\n")
        self.refused(self.TEXT, ["--skew", "5", "--service", "bank"], 66, "--service bank: no span of the files is of it. There are: shop, pay")

    def test_windows(self):
        log, notes, _ = self.made(self.TEXT, "--skew", "5", "--from", "2023-11-14T22:13:20.000150Z", "--to", "2023-11-14T22:13:20.000320Z")
        self.assertEqual(log, HEAD + (
            f"host,shop,5,0\nhost,pay,5,0\nset,shop,150,ask\nset,pay,150,pay\nclear,pay,180,pay\nsend,pay,180,s{span_id(2)}_back\n"
            f"recv,shop,200,s{span_id(2)}_back\nclear,shop,200,ask\nset,shop,300,ask\nsend,shop,300,s{span_id(4)}_go\n"
            f"recv,pay,320,s{span_id(4)}_go\nset,pay,320,pay\n"
        ))
        self.assertIn("carried in: shop ask was set before the window", notes)

    def test_names_in_other_letters(self):
        text = otlp(of("Shop", span(1, 100, 200, "Ask")), of("shop", span(2, 150, 250, "ask", events=[event(160, "ASK")])))
        log, _, said = self.made(text, "--skew", "5")
        self.assertIn("the hosts 'shop' and 'Shop' differ in the case of letters alone", said)
        log, notes, said = self.made(text, "--skew", "5", "--same-name")
        self.assertEqual((said, [line.split(",")[1] for line in log.splitlines() if line.startswith("set,")]), ("", ["shop", "shop_2"]))
        self.assertIn("service: 'Shop' is taken as 'shop'\n", notes)
        for word in ("shop", "Shop"):
            self.assertEqual(self.made(text, "--skew", f"{word}=5", "--same-name", "--service", word)[0], log)
        self.refused(text, ["--skew", "SHOP=5", "--same-name"], 64, "there is no host SHOP")

    def test_machines_and_instances_in_other_letters(self):
        text = otlp(*(of("shop", span(number, 100 * number, 100 * number + 50), host__name=name, rack=rack, k8s__pod__name=pod)
                      for number, name, pod, rack in ((1, "Web-01", "a", "East"), (2, "web-01", "A", "east"))), of("pay", span(3, 300, 350), host__name="WEB-01", rack="east"))
        log, _, said = self.made(text, "--skew", "5", "--clock-error", "1")
        self.assertIn("differ in the case of letters alone, and are kept apart as shop_a and shop_a_2", said)
        self.assertEqual(sorted(set(clocks_of(log))), ["web_01", "web_01_2", "web_01_3"])
        log, notes, said = self.made(text, "--skew", "5", "--clock-error", "1", "--same-name")
        self.assertEqual(([line for line in log.splitlines() if line.startswith("host,")], said), (["host,shop,5,0", "host,pay,5,0"], ""))
        self.assertEqual(set(clocks_of(log)), {"web_01"})
        self.assertIn("host.name: 'web-01' is taken as 'Web-01'\n", notes)
        self.assertIn("k8s.pod.name: 'A' is taken as 'a'\n", notes)
        self.assertEqual(set(clocks_of(self.made(text, "--skew", "5", "--clock-error", "1", "--same-name", "--machine", "rack")[0])), {"east"})

    def test_words(self):
        for words, part in (
            (["--row", "a=set:b"], "--row isn't for traces"), (["--host", "service"], "--host isn't for traces"), (["--only", "1"], "--only isn't for traces"),
            (["--duration", "took"], "--duration isn't for traces"), (["--access", "combined"], "--access isn't for traces"), (["--pulses"], "--pulses isn't"),
            (["--jaeger"], "--otlp and --jaeger: all files of a run have one form"), (["--time", "t"], "--time isn't for traces"),
        ):
            self.refused(self.TEXT, ["--skew", "5", *words], 64, part)
        for words in (["--trace", "1"], ["--service", "a"], ["--steady-spans", "1"], ["--apart"]):
            ended, log, said = asked(["log", "-", "--skew", "5", *words], text=b"time,host,name\n1,a,b\n")
            self.assertEqual((ended, log), (64, ""))
            self.assertIn(f"{words[0]} is for traces: --otlp, --jaeger or --zipkin says what form they have", said)


class Parts(Traces):
    TEXT = otlp(
        of("shop", span(1, 100, 200, "Ask"), host__name="a"), of("shop", span(3, 150, 400, "Ask", trace=2), span(5, 160, 170, "Ask", trace=2), host__name="b"),
        of("pay", span(2, 120, 180, "Pay", parent=1), span(4, 320, 380, "Pay", parent=3, trace=2, links=[link(1)]), host__name="a"),
        of("bank", span(6, 330, 340, parent=4, trace=2), host__name="b"),
    )

    def split(self, *words, text=TEXT):
        Path(self.room, "spans").write_text(text)
        ended, written, said = asked(["split", "--otlp", "spans", "--by", "trace", "--into", "parts", *words], self.room)
        parts = Path(self.room, "parts")
        return ended, {path.stem: path.read_text() for path in parts.glob("*.csv")} if parts.is_dir() else {}, said

    def test_each_log_has_its_unit_beside_it(self):
        ended, parts, said = self.split("--skew", "5")
        self.assertEqual((ended, len(parts)), (0, 2), said)
        for name, text in parts.items():
            notes = json.loads(Path(self.room, "parts", f"{name}.csv.notes").read_text())
            self.assertEqual(notes, {
                "unit": "us", "epoch": "1970-01-01T00:00:00Z", "zone": "Z", "sha256": sha256(text.encode()).hexdigest(),
            })

    def test_each_trace_has_hosts_of_its_own(self):
        ended, parts, said = self.split("--skew", "5", "--skew", "bank=9", "--skew", "shop_2=7")
        self.assertEqual((ended, sorted(parts)), (0, [span_id(1), span_id(2)]), said)
        hosts = {name: [line.split(",")[1:3] for line in text.splitlines() if line.startswith("host,")] for name, text in parts.items()}
        self.assertEqual(hosts[span_id(1)], [["shop", "5"], ["pay", "5"]])
        self.assertEqual(hosts[span_id(2)], [["shop", "5"], ["shop_2", "7"], ["pay", "5"], ["bank", "9"]])
        self.assertIn("1 link to spans that aren't in the log left out", said)

    def test_processes_are_named_by_words(self):
        ended, parts, said = self.split("--skew", "5", "--skew", "shop_a=8")
        self.assertEqual(ended, 0, said)
        self.assertEqual([text.splitlines()[1] for _, text in sorted(parts.items())], ["host,shop,8,0", "host,shop,5,0"])

    def test_a_part_is_the_log_of_its_trace(self):
        words = ["--skew", "5", "--steady-spans", "1", "--clock-error", "2", "--service", "shop", "--service", "pay"]
        ended, parts, said = self.split(*words)
        self.assertEqual(ended, 0, said)
        for name, text in parts.items():
            self.assertEqual(asked(["log", "--otlp", "spans", "--trace", name, *words], self.room)[1], text)

    def test_a_part_has_the_names_and_clocks_of_all_processes(self):
        text = otlp(*(of("shop", span(number, 100, 200, trace=number), service__instance__id=name) for number, name in ((1, "a"), (2, "b"))))
        words = ["--skew", "5", "--skew", "shop_b=8", "--clock-error", "1", "--clock-error", "shop_b=2"]
        ended, parts, said = self.split(*words, text=text)
        self.assertEqual(ended, 0, said)
        parts = [text for _, text in sorted(parts.items())]
        self.assertEqual([text.splitlines()[1:3] for text in parts], [["host,shop,5,0", "clock,shop,1,shop_a"], ["host,shop,8,0", "clock,shop,2,shop_b"]])
        self.assertEqual(asked(["log", "--otlp", "spans", "--trace", "2", *words], self.room)[1], parts[1])

    def test_words(self):
        ended, _, said = self.split("--skew", "5", "--by", "name")
        self.assertEqual((ended, "traces are split --by trace" in said), (64, True))
        ended, parts, said = self.split("--skew", "shop=5")
        self.assertEqual((ended, parts), (64, {}))
        self.assertIn("how far may the stamps of pay be off? Say it by --skew pay=D", said)
        ended, parts, said = self.split("--skew", "5", "--skew", "x=1")
        self.assertIn("there is no host x. The hosts: shop, shop_a, pay, shop_b, bank, shop_2", said)

    def test_a_file_of_a_clock_is_read_once(self):
        Path(self.room, "spans").write_text(self.TEXT)
        step = b"2023-11-14T22:13:28Z app chronyd[612]: System clock was stepped by 0.000500 seconds\n"
        ended, _, said = asked(["split", "--otlp", "spans", "--by", "trace", "--into", "p", "--skew", "5", "--clock", "shop=-"], self.room, text=step)
        self.assertEqual(ended, 0, said)
        self.assertIn("host,shop,505,0\n", Path(self.room, "p", f"{span_id(2)}.csv").read_text())


class Truth(Traces):
    """Spans of which is known when they were: that is among the timings of the log, whatever the options are."""

    def spans_of(self, chance, services):
        """Spans by the true time, each as its number, parent, service, kind, begin, end and links."""
        found = [(1, 0, chance.choice(services), SERVER, 0, chance.randint(500, 900), [])]
        for number in range(2, chance.randint(3, 14)):
            parent, _, service, kind, began, ended, _ = chance.choice(found)
            own = {CLIENT: SERVER, PRODUCER: CONSUMER}.get(kind) or chance.choice((0, 1, SERVER, CLIENT, PRODUCER))
            start = chance.randint(began + 1, max(began + 1, ended - 2))
            most = ended - 1 if kind in (0, CLIENT) and own in (0, SERVER) else ended + 200
            if start > most:
                continue
            links = [one[0] for one in chance.sample(found, min(2, len(found))) if one[4] < start and chance.random() < 0.3]
            found.append((number, parent, chance.choice(services), own, start, chance.randint(start, most), links))
        return found

    def test_it_is_admitted(self):
        for seed in range(60):
            chance = random.Random(seed)
            offsets = {service: chance.randint(-40, 40) for service in ("a", "b", "c")}
            spans = self.spans_of(chance, list(offsets))
            text = otlp(*(
                of(service, span(number, began + offsets[service], ended + offsets[service], chance.choice("xyz"), parent, kind, links=[link(one) for one in links]))
                for number, parent, service, kind, began, ended, links in spans
            ))
            words = chance.sample(["--apart", "--steady-spans=1", "--clock-error=1"], chance.randint(0, 3))
            log = asked(["log", "--otlp", "-", "--skew", "40", *words], text=text.encode())[1]
            rows = [line.split(",") for line in log.splitlines() if line.split(",")[0] in ("set", "clear", "send", "recv", "pulse")]
            Path(self.room, "log").write_text(log)
            Path(self.room, "times").write_text("".join(f"{int(row[2]) - offsets[row[1][0]]}\n" for row in rows))
            Path(self.room, "true").write_text("true\n")
            self.assertEqual(status_of(["replay", *(str(Path(self.room, name)) for name in ("true", "log", "times"))]), 0, f"seed {seed}: {words}")


if __name__ == "__main__":
    unittest.main()
