"""`ask log` with clocks that keep their offsets, and with how long requests took: logs of version 3."""

import tempfile
import unittest
import unittest.mock
from pathlib import Path

from common import asked

FIRST, SECOND, THIRD = (f"{first},host,time,name\n" for first in ("kind", "skewlog2", "skewlog3"))
LINES = "1700000010.252 0.252 one\n1700000010.310 0.190 two\n1700000010.420 0.060 one\n"
ACCESS = ["--access", "$msec $request_time $id", "--skew", "5ms"]


def event(second, thread, name, **fields):
    """A line of JSON of a thread of the host a, some seconds into a day."""
    more = "".join(f', "{key}": "{value}"' for key, value in fields.items())
    return f'{{"time": "2023-11-14T22:13:{second}Z", "host": "a", "thread": {thread}, "name": "{name}"{more}}}\n'


SPANS = (
    event("20.000", 1, "got", id="x") + event("20.100", 2, "got", id="y") + event("20.250", 1, "done", id="x", took="0.2495")
    + event("20.400", 2, "done", id="y", took="300ms") + event("21.000", 1, "got", id="x") + event("21.500", 1, "done", id="x", took="0.5")
)
THREADS = ["--host", "host,thread", "--unit", "ms", "--skew", "5"]


class Made(unittest.TestCase):
    def setUp(self):
        room = tempfile.TemporaryDirectory()
        self.addCleanup(room.cleanup)
        self.room = Path(room.name)

    def made(self, text, *words, status=0):
        """The log that is made of a text, or what is said where there is none."""
        (self.room / "l").write_text(text)
        ended, log, said = asked(["log", "l", *words], self.room)
        self.assertEqual(ended, status, said)
        self.assertNotIn("Traceback", said)
        self.said = said
        return said if status else log

    def bounds(self, text, *words):
        """The bound records of the log."""
        return [line[6:] for line in self.made(text, *words).splitlines() if line.startswith("bound,")]

    def clocks(self, text, *words):
        """The clock that each row of the log reads, with the error, None where it reads none."""
        now, found = {}, []
        for line in self.made(text, *words).splitlines()[1:]:
            kind, host, third, name = line.split(",")
            if kind == "clock":
                now[host] = f"{name} {third}"
            elif kind not in ("host", "resync", "latency", "bound"):
                found.append(now.get(host))
        return found

    def refused(self, text, words, status, *parts):
        said = self.made(text, *words, status=status)
        for part in parts:
            self.assertIn(part, said)


class Durations(Made):
    def test_of_access_lines(self):
        log = self.made(LINES, *ACCESS, "--duration", "request_time±1ms")
        self.assertEqual(log, THIRD + (
            "host,web_1,5,0\nhost,web_2,5,0\nset,web_1,1700000010000,asked\nclear,web_1,1700000010252,asked\nset,web_2,1700000010120,asked\n"
            "clear,web_2,1700000010310,asked\nset,web_1,1700000010360,asked\nclear,web_1,1700000010420,asked\n"
            "bound,1,0,253\nbound,0,1,-251\nbound,3,2,191\nbound,2,3,-189\nbound,5,4,61\nbound,4,5,-59\n"
        ))

    def test_how_the_error_is_written(self):
        wanted = self.bounds(LINES, *ACCESS, "--duration", "request_time±1ms")
        for text in ("request_time+-1ms", "request_time±1", "request_time ± 0.5ms", "request_time+-0.001s"):
            self.assertEqual(self.bounds(LINES, *ACCESS, "--duration", text), wanted, text)
        self.assertEqual(self.bounds(LINES, *ACCESS, "--duration", "request_time")[:2], ["1,0,252", "0,1,-252"])

    def test_numbers_of_json_with_a_power(self):
        lines = '{"time": 1.000000, "host": "a", "name": "go", "id": 1}\n{"time": 1.000060, "host": "a", "name": "end", "id": 1, "took": %s}\n'
        for took in ("5.2e-05", "5.2E-5", "0.000052", '"52us"', '"5.2e+1us"'):
            self.assertEqual(self.bounds(lines % took, "--skew", "5us", "--unit", "us", "--duration", "took"), ["1,0,52", "0,1,-52"], took)

    def test_durations_are_rounded_to_both_sides(self):
        words = ["--access", "%{usec}t %D", "--skew", "5ms", "--unit", "ms", "--duration"]
        self.assertEqual(self.bounds("1700000010000000 1500\n", *words, "D"), ["1,0,2", "0,1,-1"])
        self.assertEqual(self.bounds("1700000010000000 1500\n", *words, "D±100us"), ["1,0,3", "0,1,0"])
        self.assertEqual(self.bounds("1700000010000000 1000\n", *words, "D±3ms"), ["1,0,4", "0,1,2"])

    def test_each_row_of_an_event(self):
        words = [*ACCESS, "--duration", "request_time", "--row", "begin=set:asked", "--row", "end=clear:asked,pulse:done"]
        self.assertEqual(self.bounds("1.5 0.5 x\n", *words), ["1,0,500", "2,0,500", "0,1,-500", "0,2,-500"])

    def test_of_rows_with_an_id(self):
        # The request of x comes twice, each time with the first row of x since the one before as its begin.
        self.assertEqual(self.bounds(SPANS, *THREADS, "--duration", "took±1ms"), [
            "2,0,251", "0,2,-248", "3,1,301", "1,3,-299", "5,4,501", "4,5,-499",
        ])

    def test_of_a_table(self):
        table = "time,host,name,id,took\n10,a,got,x,\n17,a,done,x,6\n20,b,other,x,\n"
        self.assertEqual(self.bounds(table, "--skew", "2", "--duration", "took±1"), ["1,0,7", "0,1,-5"])

    def test_windows(self):
        words = [*THREADS, "--duration", "took"]
        self.assertEqual(self.bounds(SPANS, *words, "--only", "y"), ["1,0,300", "0,1,-300"])
        self.assertEqual(self.bounds(SPANS, *words, "--from", "2023-11-14T22:13:20.050Z"), ["2,0,300", "0,2,-300", "4,3,500", "3,4,-500"])
        self.assertIn("1 duration left out, since the row of the begin is\n", self.said)

    def test_refusals(self):
        for words, status, part in (
            (["±1"], 64, "it is FIELD or FIELD±D"), (["took±"], 64, "it is FIELD or FIELD±D"), ([""], 64, "it is FIELD or FIELD±D"),
            (["took±x"], 64, "--duration took±x: behind ± it is a number of units up to 10^18, or a duration as 5ms"), (["took±-1"], 64, "behind ± it is"),
            (["lasted"], 66, "--duration lasted: no event of the files has this field"), (["name"], 66, "line 1: name is 'got', which is no duration"),
            (["took", "--id", "other"], 66, "line 3: by took its request began 0.2495 before, and without an id of the row"),
        ):
            self.refused(SPANS, [*THREADS, "--duration", *words], status, part)
        self.refused(SPANS.split("\n", 1)[1], [*THREADS, "--duration", "took"], 66, "line 2: by took its request began 0.2495 before, and no row of x stands before it on a_1")
        self.assertEqual(len(self.bounds(SPANS.split("\n", 1)[1], *THREADS, "--duration", "took", "--from", "2023-11-14T22:13:20.3Z")), 2)
        for words, status, part in (
            (["took"], 64, "--duration: the format has no took. It has: msec, request_time, id"), (["id"], 66, "line 1: id is 'one', which is no duration"),
        ):
            self.refused(LINES, [*ACCESS, "--duration", *words], status, part)
        self.refused(SPANS.replace("300ms", "-1"), [*THREADS, "--duration", "took"], 66, "line 4: took is '-1', which is no duration")

    def test_a_duration_that_stamps_exclude(self):
        self.made(SPANS.replace('"0.5"', '"0.4"'), *THREADS, "--duration", "took")
        self.assertEqual(self.said.count("warning"), 1)
        self.assertIn("line 6: by its bound it is at most 400 after l, line 5, and by the stamps 500, which both skews don't make up for", self.said)
        self.made(SPANS.replace('"0.5"', '"0.491"'), *THREADS, "--duration", "took")
        self.assertNotIn("warning", self.said)

    def test_parts(self):
        (self.room / "l").write_text(SPANS)
        ended, _, said = asked(["split", "l", "--by", "id", "--into", "p", *THREADS, "--duration", "took", "--clock-error", "1"], self.room)
        self.assertEqual(ended, 0, said)
        self.assertEqual((self.room / "p" / "x.csv").read_text(), THIRD + (
            "host,a_1,5,0\nclock,a_1,1,a\nnote,a_1,1700000000000,got\nnote,a_1,1700000000250,done\nnote,a_1,1700000001000,got\n"
            "note,a_1,1700000001500,done\nbound,1,0,250\nbound,0,1,-249\nbound,3,2,500\nbound,2,3,-500\n"
        ))
        self.assertTrue((self.room / "p" / "y.csv").read_text().endswith("bound,1,0,300\nbound,0,1,-300\n"))


class Clocks(Made):
    def test_one_clock_a_machine(self):
        self.assertEqual(self.clocks(SPANS, *THREADS, "--clock-error", "1ms"), ["a 1"] * 6)
        self.assertIn("clock: a is read by a_1, a_2\n", self.said)
        self.assertTrue(self.made(SPANS, *THREADS, "--clock-error", "1").startswith(THIRD))
        self.assertEqual(self.clocks(LINES, *ACCESS, "--clock-error", "2ms"), ["web 2"] * 6)
        self.assertIn("clock: web is read by web_1, web_2\n", self.said)

    def test_machines_that_are_told(self):
        self.assertEqual(self.clocks(SPANS, *THREADS, "--clock-error", "1", "--machine", "host,thread"), ["a_1 1", "a_2 1", "a_1 1", "a_2 1", "a_1 1", "a_1 1"])
        text = event("20.5", 1, "x", region="r") + event("20.6", 2, "x", region="r")
        self.assertEqual(self.clocks(text, "--host", "region,host,thread", "--skew", "1", "--clock-error", "1"), ["r_a 1"] * 2)
        self.assertEqual(self.clocks(text, "--host", "thread", "--machine", "host", "--skew", "1", "--clock-error", "1"), ["a 1"] * 2)
        self.refused(text, ["--skew", "1", "--clock-error", "1", "--machine", "rack"], 66, "there is no 'rack'")

    def test_errors_of_some(self):
        found = self.clocks(SPANS, *THREADS, "--clock-error", "a=3", "--clock-error", "a_2=1")
        self.assertEqual(found, ["a 3", "a 1", "a 3", "a 1", "a 3", "a 3"])
        self.assertEqual(self.clocks(SPANS, *THREADS, "--clock-error", "a_2=1"), [None, "a 1", None, "a 1", None, None])

    def test_a_single_host(self):
        text = FIRST + "host,a,5,1\nhost,b,5,0\nset,a,10,p\nset,b,11,q\nset,a,12,p\n"
        self.assertEqual(self.made(text, "--clock-error", "0"), THIRD + "host,a,5,1\nhost,b,5,0\nclock,a,0,a\nset,a,10,p\nclock,b,0,b\nset,b,11,q\nset,a,12,p\n")

    def test_a_stamp_that_lost_digits(self):
        self.assertEqual(self.clocks(event("20.5", 1, "x") + event("20.0005", 2, "x"), *THREADS, "--clock-error", "2"), ["a 2", "a 3"])

    def test_a_stamp_that_is_computed(self):
        words = [*ACCESS, "--clock-error", "2", "--duration", "request_time±1ms"]
        self.assertEqual(self.clocks("1.5 0.5 x\n", *words), ["web 3", "web 2"])
        self.assertEqual(self.clocks("1000000 500\n", "--access", "%{usec}t %D", "--skew", "5", "--clock-error", "2", "--duration", "D±1"), ["web 2", "web 3"])

    def test_steps(self):
        text = "".join(event(second, thread, "x") for second, thread in (("20", 1), ("27.5", 1), ("27.6", 2), ("29.5", 2), ("29.6", 1), ("29.7", 2)))
        words = [*THREADS, "--clock-error", "1", "--step", "2023-11-14T22:13:28Z,40ms"]
        self.assertEqual(self.clocks(text, *words), ["a 1", "a 41", "a 41", "a_2 1", "a_2 1", "a_2 1"])
        self.assertEqual(self.made(text, *words).count("resync,"), 2)
        # One clock is stepped, whichever of its hosts is named.
        words[-1] = f"a_1={words[-1]}"
        self.assertEqual(self.clocks(text, *words), ["a 1", "a 41", "a 41", "a_2 1", "a_2 1", "a_2 1"])

    def test_two_steps(self):
        text = "".join(event(second, 1, "x") for second in ("10", "20", "30"))
        words = [*THREADS, "--clock-error", "1", "--step", "2023-11-14T22:13:15Z,40ms", "--step", "2023-11-14T22:13:25Z,-7ms"]
        self.assertEqual(self.clocks(text, *words), ["a 1", "a_2 1", "a_3 1"])
        near = "".join(event(second, 1, "x") for second in ("14.5", "15.5"))
        words[-1] = "2023-11-14T22:13:15.2Z,7ms"
        self.assertEqual(self.clocks(near, *words), ["a 41", "a 48"])

    def test_a_begin_reads_the_clock_of_its_end(self):
        words = [*ACCESS, "--unit", "ms", "--clock-error", "1", "--step", "1970-01-01T00:00:10Z,5ms"]
        self.assertEqual(self.clocks("20.0 15.0 x\n", *words), ["web 1"] * 2)
        self.assertEqual(self.clocks("5.0 1.0 x\n20.0 14.0 x\n", *words), ["web 1", "web 1", "web_2 1", "web_2 1"])

    def test_names_of_clocks(self):
        text = "".join(f'{{"time": {second}, "host": "{host}", "name": "x"}}\n' for second, host in ((1, "web"), (2, "web_2"), (3, "Web"), (30, "web")))
        words = ["--skew", "1", "--unit", "s", "--clock-error", "1", "--step", "web=10,2"]
        self.assertEqual(self.clocks(text, *words), ["web 1", "web_2 1", "web_3 1", "web_2_2 1"])

    def test_carried_rows_read_no_clock(self):
        text = FIRST + "host,a,5,1\nset,a,10,p\nnote,a,20,x\n"
        self.assertEqual(self.made(text, "--clock-error", "0", "--from", "15"), THIRD + "host,a,5,1\nset,a,14,p\nclock,a,0,a\nnote,a,20,x\n")

    def test_refusals(self):
        for words, status, part in (
            (["x"], 64, "--clock-error x: it is a number of units up to 10^18"), (["b=1"], 64, "there is no host b. The hosts: a_1, a_2, a"), (["-1"], 64, "it is a number"),
            (["1000000000000000000", "--step", "2023-11-14T22:13:20Z,1"], 66, "line 1: the error of its clock is above 10^18"),
        ):
            self.refused(SPANS, [*THREADS, "--clock-error", *words], status, part)
        text = "".join(f"host,h{number},1,0\n" for number in range(3)) + "note,h0,1,x\nnote,h1,1,x\nnote,h2,1,x\n"
        with unittest.mock.patch("ask.readings.MOST_CLOCKS", 2):
            self.refused(FIRST + text, ["--clock-error", "1"], 66, "3 clocks; at most 1,024")


class LogsOfVersion3(Made):
    TEXT = THIRD + (
        "host,a,9,1\nhost,b,9,0\nlatency,b,2,50\nset,a,1,p\nclock,a,1,m\nsend,a,10,x\nclock,b,2,m\nrecv,b,15,x\nresync,a,4,1\nclock,a,0,n\n"
        "set,a,20,q\nbound,1,2,-2\nbound,3,0,30\n"
    )

    def test_they_stay_what_they_are(self):
        self.assertEqual(self.made(self.TEXT), self.TEXT)

    def test_the_version_is_that_of_what_is_said(self):
        self.assertEqual(self.made(THIRD + "host,a,9,1\nset,a,1,p\n"), FIRST + "host,a,9,1\nset,a,1,p\n")
        self.assertEqual(self.made(THIRD + "host,a,9,1\npulse,a,1,p\n"), SECOND + "host,a,9,1\npulse,a,1,p\n")
        self.assertEqual(self.made(THIRD + "host,a,9,1\nclock,a,0,m\npulse,a,1,p\nclock,a,0,m\n"), THIRD + "host,a,9,1\nclock,a,0,m\npulse,a,1,p\n")

    def test_windows_renumber_rows(self):
        log = self.made(self.TEXT, "--from", "5")
        self.assertTrue(log.endswith("set,a,20,q\nbound,1,2,-2\n"))
        self.assertIn("1 bound record of rows that are left out\n", self.said)
        self.assertTrue(self.made(self.TEXT, "--from", "15").endswith("set,a,20,q\n"))

    def test_joined(self):
        (self.room / "other").write_text(THIRD + "host,c,1,0\nnote,c,1,x\nclock,c,3,m\nnote,c,2,x\nbound,1,0,5\n")
        log = self.made(self.TEXT, "other")
        self.assertTrue(log.endswith("note,c,1,x\nclock,c,3,m\nnote,c,2,x\nbound,1,2,-2\nbound,3,0,30\nbound,5,4,5\n"))

    def test_rows_without_a_clock_behind_some_with_one(self):
        (self.room / "other").write_text(FIRST + "host,a,9,1\nnote,a,30,x\n")
        self.assertTrue(self.made(self.TEXT.replace("resync,a,4,1\n", ""), "other").splitlines()[-4:-2] == ["clock,a,1000000000000000000,n", "note,a,30,x"])

    def test_options_and_their_warnings(self):
        self.assertEqual(self.clocks(self.TEXT, "--clock-error", "3"), ["a 3", "m 3", "m 3", "n 3"])
        self.assertNotIn("warning", self.said)
        self.assertEqual(self.clocks(self.TEXT, "--clock-error", "a=0"), ["a 0", "m 0", "m 2", "n 0"])
        self.assertIn("warning: --clock-error: the error of m is 0, and l, line 6 says 1: fewer timings are admissible than by that file\n", self.said)

    def test_resyncs_of_a_file_end_clocks(self):
        text = SECOND + "host,a,9,1\nset,a,1,p\nresync,a,4,1\nset,a,10,p\nset,a,11,p\n"
        self.assertEqual(self.clocks(text, "--clock-error", "0"), ["a 0", "a_2 0", "a_2 0"])

    def test_records_that_are_refused(self):
        for text, part in (
            ("host,a,1,0\nclock,b,0,m\nset,a,1,p\n", "line 3: no host 'b' is declared before this clock"), ("host,a,1,0\nclock,a,x,m\nset,a,1,p\n", "line 3: the error 'x' is no duration"),
            ("host,a,1,0\nset,a,1,p\nbound,0,1,5\n", "line 4: this bound is between the rows 0 and 1, which aren't two rows of its file: it has 1"),
            ("host,a,1,0\nset,a,1,p\nset,a,1,p\nbound,0,0,5\n", "the rows 0 and 0"), ("host,a,1,0\nset,a,1,p\nset,a,1,p\nbound,0,1,x\n", "line 5: the distance 'x' of this bound"),
            ("host,a,1,0\nset,a,1,p\nset,a,1,p\nbound,0,-1,5\n", "line 5: '-1' is no number of a row"),
        ):
            self.refused(THIRD + text, [], 66, part)

    def test_other_units(self):
        text = THIRD + "host,a,0.005,0\nclock,a,0.0015,m\nset,a,1.5,p\nset,a,2.25,p\nbound,1,0,0.7505\nbound,0,1,-0.7505\n"
        self.assertEqual(self.made(text, "--unit", "ms"), THIRD + (
            "host,a,5,0\nclock,a,2,m\nset,a,1500,p\nset,a,2250,p\nbound,1,0,751\nbound,0,1,-750\n"
        ))


if __name__ == "__main__":
    unittest.main()
