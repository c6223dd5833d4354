"""`ask log`: logs of version 2, access lines, and what a time service says of a clock."""

import tempfile
import unittest
from pathlib import Path

from common import asked, status_of

COMBINED = '192.0.2.7 - - [14/Nov/2023:22:13:30 +0000] "GET /a \\"x\\" HTTP/1.1" 200 512 "-" "curl [8]"'
HEAD = "kind,host,time,name\n"
SECOND = "skewlog2,host,time,name\n"
EVENTS = (
    '{"time": "2023-11-14T22:13:20Z", "host": "a", "name": "x"}\n{"time": "2023-11-14T22:13:27.5Z", "host": "a", "name": "x"}\n'
    '{"time": "2023-11-14T22:13:29.5Z", "host": "a", "name": "x"}\n{"time": "2023-11-14T22:13:40Z", "host": "a", "name": "x"}\n'
)


class Making(unittest.TestCase):
    def made(self, text, *words, status=0):
        """The log that is made of a text, without its first line, or what is said where there is none."""
        ended, log, said = asked(["log", "-", *words], text=text.encode())
        self.assertEqual(ended, status, said)
        self.assertNotIn("Traceback", said)
        return said if status else log

    def refused(self, text, words, status, *parts):
        said = self.made(text, *words, status=status)
        for part in parts:
            self.assertIn(part, said)

    def skews(self, text, *words):
        """The skew of each row of a log that is made."""
        found, skew = [], None
        for line in self.made(text, *words).splitlines()[1:]:
            kind, _, third, _ = line.split(",")
            if kind in ("host", "resync"):
                skew = int(third)
            elif kind != "latency":
                found.append(skew)
        return found


class SecondVersion(Making):
    def test_logs_of_version_2_stay_what_they_are(self):
        text = SECOND + "host,a,5,1\nhost,b,5,1\nlatency,b,3,8\nsend,a,10,m\nresync,a,2,0\npulse,a,12,p\nrecv,b,20,m\n"
        self.assertEqual(self.made(text), text)

    def test_version_1_where_nothing_needs_the_second(self):
        self.assertEqual(self.made(SECOND + "host,a,5,1\nset,a,1,p\nresync,a,5,1\nnote,a,2,n\n"), HEAD + "host,a,5,1\nset,a,1,p\nnote,a,2,n\n")

    def test_logs_in_json(self):
        for text in ('{"hosts": [], "events": []}\n', '{\n "events": [],\n "hosts": []\n}', '{"hosts": [{"name": "a"}], "ev'):
            self.refused(text, ["--skew", "1"], 66, "a log in JSON", "skewcheck json FILE")

    def test_latencies(self):
        text = '{"time": 0.5, "host": "a", "name": "m", "kind": "send"}\n{"time": 0.6, "host": "b", "name": "m", "kind": "recv"}\n'
        for said, latency in (("1.5ms,2.5ms", "1,3"), ("0,inf", "1,inf"), ("3,3", "3,3")):
            log = self.made(text, "--skew", "1", "--unit", "ms", "--latency", f"b={said}")
            self.assertIn(f"\nlatency,b,{latency}\n", log)
            self.assertTrue(log.startswith("skewlog2,"))
        for said in ("3", "3,2", "x,2", "c=1,2", "b=1,2,3", "b=-1,2"):
            self.refused(text, ["--skew", "1", "--latency", said], 64, "latency")

    def test_what_files_say_of_hosts(self):
        for text, part in (
            ("host,a,1,1\nhost,a,2,1\nset,a,1,p\n", "declared at the standard input, line 2"), ("resync,a,1,1\nset,a,1,p\n", "line 2: no host 'a'"),
            ("host,a,1,1\nlatency,a,5,3\nset,a,1,p\n", "line 3: the least latency"), ("host,a,1,1\nlatency,a,x,3\nset,a,1,p\n", "line 3"),
            ("host,a,x,1\nset,a,1,p\n", "line 2: the skew 'x'"), ("host,a,1,1\nput,a,1,p\n", "line 3: there is no kind 'put'"),
            ("host,a,1,1\nsend,a,1,m\nsend,a,2,m\n", "line 4: the message m is sent before, at the standard input, line 3"),
        ):
            self.refused(SECOND + text, [], 66, part)

    def test_events_that_are_moments(self):
        log = self.made(EVENTS, "--skew", "5ms", "--unit", "ms", "--pulses")
        self.assertEqual([line.split(",")[0] for line in log.splitlines()], ["skewlog2", "host"] + ["pulse"] * 4)
        self.assertIn("pulse,a,1700000000000,hit\n", self.made(EVENTS, "--skew", "5", "--unit", "ms", "--row", "x=pulse:hit"))

    def test_parts_that_are_joined(self):
        text = HEAD + "host,b,1,0\nrecv,b,20,m\n"
        self.assertEqual(self.made(text, "--part"), text)
        with tempfile.TemporaryDirectory() as folder:
            Path(folder, "part").write_text(self.made(text, "--part"))
            Path(folder, "none").write_text(self.made(text, "--part", "--only", "nothing"))
            Path(folder, "other").write_text(HEAD + "host,a,2,0\nsend,a,15,m\n")
            ended, log, said = asked(["log", "other", "none", "part"], folder)
            self.assertEqual((ended, log), (0, HEAD + "host,a,2,0\nhost,b,1,0\nsend,a,15,m\nrecv,b,20,m\n"), said)

    def test_the_program_reads_what_is_made(self):
        log = self.made(EVENTS, "--skew", "2", "--unit", "ms", "--latency", "1,9", "--step", "2023-11-14T22:13:28Z,40ms")
        self.assertEqual(status_of(["times", "-"], log.encode()), 0)


class AccessLines(Making):
    def test_times_of_nginx(self):
        text = f"{COMBINED} 0.252 1700000010.300 ab\n\n{COMBINED} 0.100 1700000010.500 cd\r\n"
        log = self.made(text, "--access", "combined $request_time $msec $id", "--skew", "5ms", "--row", "end=clear:asked,note:s{status}_{id}")
        self.assertEqual(log, HEAD + (
            "host,web_1,5,0\nset,web_1,1700000010048,asked\nclear,web_1,1700000010300,asked\nnote,web_1,1700000010300,s200_ab\n"
            "set,web_1,1700000010400,asked\nclear,web_1,1700000010500,asked\nnote,web_1,1700000010500,s200_cd\n"
        ))

    def test_times_of_apache_are_of_the_beginning(self):
        log = self.made(f"{COMBINED} 252001\n", "--access", "apache %D", "--skew", "1s", "--as", "front")
        self.assertEqual(log, HEAD + (
            "host,front_1,1000000,0\nset,front_1,1700000010000000,asked\nclear,front_1,1700000010252001,asked\n"
        ))

    def test_requests_at_once_are_on_hosts_of_their_own(self):
        lines = "".join(f"{end} {took} r{place}\n" for place, (end, took) in enumerate([("9.0", "5.0"), ("6.0", "1.0"), ("12.0", "1.0")]))
        log = self.made(lines, "--access", "$msec $request_time $id", "--skew", "1", "--row", "begin=note:{id}", "--row", "end=note:{id}")
        self.assertEqual(log, HEAD + (
            "host,web_1,1,0\nhost,web_2,1,0\nnote,web_1,4000,r0\nnote,web_1,9000,r0\nnote,web_2,5000,r1\nnote,web_2,6000,r1\n"
            "note,web_1,11000,r2\nnote,web_1,12000,r2\n"
        ))

    def test_files_of_one_server_share_its_hosts(self):
        with tempfile.TemporaryDirectory() as folder:
            Path(folder, "old").write_text("9.0 5.0\n")
            Path(folder, "new").write_text("10.0 5.5\n12.0 1.0\n")
            ended, log, said = asked(["log", "new", "old", "--access", "$msec $request_time", "--skew", "1", "--unit", "s"], folder)
        self.assertEqual([line.split(",")[1:3] for line in log.splitlines()[3:]], [
            ["web_1", "4"], ["web_1", "9"], ["web_2", "4"], ["web_2", "10"], ["web_1", "11"], ["web_1", "12"],
        ], said)

    def test_without_a_duration_a_request_is_a_moment(self):
        self.assertEqual(self.made(f"{COMBINED}\n", "--access", "combined", "--skew", "1"), HEAD + "host,web_1,1,0\nnote,web_1,1700000010,asked\n")

    def test_moments(self):
        for form, line, stamp in (
            ("$msec", "1700000010.003", "1700000010003"), ("$time_iso8601", "2023-11-14T22:13:30+00:00", "1700000010"),
            ("[$time_local]", "[14/Nov/2023:23:13:30 +0100]", "1700000010"), ("%t", "[14/Nov/2023:22:13:30 +0000]", "1700000010"),
            ("%{msec}t", "1700000010003", "1700000010003"), ("%{end:usec}t", "1700000010003001", "1700000010003001"),
            ("%{sec}t %h", "1700000010 -", "1700000010"), ("${msec}|$host", "1700000010.5|x", "1700000010500"),
            ("%{sec}t.%{usec_frac}t", "1700000010.003001", "1700000010003001"), ("%{end:sec}t %{end:msec_frac}t", "1700000010 003", "1700000010003"),
            ("%t %{msec_frac}t", "[14/Nov/2023:22:13:30 +0000] 250", "1700000010250"), ("%{begin:sec}t %{end:usec_frac}t", "1700000010 003001", "1700000010"),
            (r"%t\t\"%r\"", '[14/Nov/2023:22:13:30 +0000]\t"GET / HTTP/1.1"', "1700000010"), (r"'$msec\'", "'1700000010.5'", "1700000010500"),
            ("%{sec}t %!200,304{Referer}i %404>s", "1700000010 - -", "1700000010"),
        ):
            self.assertIn(f",{stamp},asked\n", self.made(line + "\n", "--access", form, "--skew", "1"), form)

    def test_variables_that_would_have_one_key(self):
        line, words = "1700000010 200 404 a b c\n", ["--skew", "1", "--access", "%{sec}t %<s %>s %{X}i %{X}o %{X}o"]
        for key, name in (("<s", "200"), (">s", "404"), ("i:x", "a"), ("o:x", "c")):
            self.assertIn(f",n{name}\n" if name.isdigit() else f",{name}\n", self.made(line, *words, "--row", f"end=note:{{{key}}}", "--row", f"begin=note:{{{key}}}"))
        self.refused(line, [*words, "--row", "begin=note:{s}"], 66, "there is no 's'. It has: t:sec, <s, >s, i:x, o:x")
        for form, key in (("%{sec}t %>s %{X}i", "s"), ("%{sec}t %s %{X}i", "x"), ("%{sec}t $status ${status}", "status")):
            self.made("1700000010 200 200\n", "--skew", "1", "--access", form, "--row", f"begin=note:n{{{key}}}")

    def test_lines_and_formats_that_are_none(self):
        for text, form, status, part in (
            ("x\n", "$msec $request_time", 66, "line 1: it isn't of the format"), ("x 0.1\n", "$msec $request_time", 66, "msec is 'x'"),
            ("1.0 -\n", "$msec $request_time", 66, "request_time is '-'"), ("1.0\n", "msec", 64, "no variable"), ("1.0\n", "$host", 64, "no moment"),
            ("[31/Feb/2023:22:13:30 +0000]\n", "%t", 66, "no time"), ("\n", "$msec", 66, "no row"), ("1.0\n", "", 64, "no variable"),
            ("\xff\xfe\0\n", "$msec", 66, "line 1"), ("1700000010 03\n", "%{sec}t %{msec_frac}t", 66, "t:msec_frac is '03', and not 3 digits of a second"),
        ):
            self.refused(text, ["--access", form, "--skew", "1"], status, part)
        self.refused("1.0\n", ["--access", "$msec", "--skew", "1", "--time", "t"], 64, "has as moments: msec")
        self.refused("1.0\n", ["--access", "$msec", "--skew", "1", "--only", "x"], 64, "has no id")
        self.refused("1.0\n", ["--access", "$msec", "--skew", "1", "--row", "end=note:{id}"], 66, "no 'id'")


class Clocks(Making):
    def clocked(self, file, *words):
        """The skews where a file tells of the clock."""
        with tempfile.TemporaryDirectory() as folder:
            Path(folder, "clock").write_text(file)
            return self.skews(EVENTS, "--skew", "2", "--unit", "ms", *words, str(Path(folder, "clock")))

    def test_steps(self):
        for line in (
            "2023-11-14T22:13:28Z app chronyd[612]: System clock was stepped by 0.031211 seconds", "2023-11-14T23:13:28+01:00 x chronyd: System clock was stepped by -0.031211 seconds",
            "14 Nov 22:13:28 ntpd[588]: 0.0.0.0 c61c 0c clock_step +0.031211 s", "Nov 14 22:13:28 app ntpd[588]: time reset +0.031211 s",
        ):
            self.assertEqual(self.clocked(f"other lines\n{line}\n", "--clock"), [34, 34, 2, 2], line)

    def test_two_steps(self):
        # Rows within a second of a step may be before it or after it, and have the greater of the two sizes.
        words = ["--step", "2023-11-14T22:13:20Z,9", "--step", "a=2023-11-14T22:13:28Z,40ms"]
        self.assertEqual(self.skews(EVENTS, "--skew", "2", "--unit", "ms", *words), [42, 42, 2, 2])
        self.assertEqual(self.skews(EVENTS, "--skew", "2", "--unit", "ms", "--step", "2023-11-14T22:13:29Z,40ms"), [42, 42, 42, 2])

    def test_tracking(self):
        form = "2023-11-14 22:13:{} 192.0.2.7 3 3.917 0.079 -3.121e-02 N  1 1.902e-04 -3.018e-02 1.611e-03 4.002e-04 {}\n"
        file = "===\n   Date (UTC) Time\n" + "".join(form.format(*part) for part in (("10", "1e-3"), ("25", "3.168e-02"), ("29", "2"), ("45", "1.0e-03")))
        self.assertEqual(self.clocked(file, "--tracking"), [34, 2002, 2002, 3])
        for wrong in ("", file[:200], file.replace("3.168e-02", "x")):
            self.assertIn("clock", self.refusal(wrong, "--tracking"))
        self.assertIn("isn't between two updates", self.refusal(file.replace(":45", ":30"), "--tracking"))

    def refusal(self, file, *words):
        with tempfile.TemporaryDirectory() as folder:
            Path(folder, "clock").write_text(file)
            return self.made(EVENTS, "--skew", "2", "--unit", "ms", *words, str(Path(folder, "clock")), status=66)

    def test_words(self):
        for words, part in (
            (["--step", "x"], "STAMP,D"), (["--step", "2023-11-14T22:13:28Z"], "STAMP,D"), (["--step", "b=2023-11-14T22:13:28Z,1"], "no host b"),
        ):
            self.refused(EVENTS, ["--skew", "2", *words], 64, part)
        self.refused(EVENTS, ["--skew", "2", "--step", "x,1"], 66, "'x'")
        self.refused(HEAD + "host,a,1,1\nset,a,1,p\n", ["--step", "1,1"], 64, "--unit")
        self.refused(EVENTS, ["--skew", "2", "--clock", "missing"], 74, "missing")
        self.assertIn("begins with no time", self.refusal("clock_step +0.031211 s\n", "--clock"))

    def test_a_part_without_rows(self):
        with tempfile.TemporaryDirectory() as folder:
            Path(folder, "clock").write_text("Nov 14 22:13:28 h chronyd[1]: System clock was stepped by 0.5 seconds\n")
            words = ["--part", "--skew", "2", "--unit", "ms", "--clock", str(Path(folder, "clock"))]
            self.assertEqual(self.made("time,host,name\n", *words), HEAD)
            self.assertEqual(self.made(EVENTS, *words, "--from", "2024-01-01T00:00:00Z"), HEAD)

    def test_lines_as_an_editor_counts_them(self):
        self.assertIn("clock, line 3: it begins with no time", self.refusal("a\x0cb\x1c\u2028\r\nc\x85\nclock_step +0.5 s\n", "--clock"))


class Parts(unittest.TestCase):
    """`ask split`: a log for each value of a key."""

    TABLE = (
        "time,host,event,kind,request\n1,a,up,set,\n2,a,go,send,x\n3,b,go,recv,x\n4,a,work,set,y\n5,a,up,clear,\n6,b,end,note,y\n"
        "7,a,end,note,x\n8,a,late,note,x/y\n9,b,go,recv,y\n"
    )

    def split(self, *words):
        with tempfile.TemporaryDirectory() as folder:
            Path(folder, "t").write_text(self.TABLE)
            ended, text, said = asked(["split", "t", "--by", "request", "--into", "p", "--name", "event", "--skew", "1", *words], folder)
            parts = Path(folder, "p")
            return ended, {path.name: path.read_text() for path in parts.glob("*.csv")} if parts.is_dir() else {}, said

    def test_what_was_set_before_is_carried_in(self):
        ended, parts, said = self.split()
        self.assertEqual(ended, 0, said)
        head = "kind,host,time,name\n"
        self.assertEqual(parts["x.csv"], head + "host,a,1,0\nhost,b,1,0\nset,a,2,up\nsend,a,2,go\nrecv,b,3,go\nnote,a,7,end\n")
        self.assertEqual(parts["y.csv"], head + "host,a,1,0\nhost,b,1,0\nset,a,4,up\nset,a,4,work\nnote,b,6,end\nnote,b,9,go\n")
        other = next(text for name, text in parts.items() if name.startswith("x_y-"))
        self.assertEqual(other, head + "host,a,1,0\nset,a,8,work\nnote,a,8,late\n")
        self.assertIn("2 rows without a value left out", said)

    def test_refusals(self):
        self.assertEqual(self.split("--by", "nothing")[0], 66)
        with tempfile.TemporaryDirectory() as folder:
            Path(folder, "t").write_text(self.TABLE)
            for into, status in ((".", 73), ("t", 73), ("t/x", 73)):
                ended, _, said = asked(["split", "t", "--by", "request", "--into", into, "--name", "event", "--skew", "1"], folder)
                self.assertEqual(ended, status, said)


if __name__ == "__main__":
    unittest.main()
