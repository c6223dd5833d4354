"""What is wrong is said in plain words, with its status, and never by a traceback."""

import json
import os
import random
import tempfile
import unittest
from pathlib import Path
from unittest import mock

from common import PULSED, ROOT, asked, asked_apart, time_over_with

HEAD = "kind,host,time,name\nhost,a,2,1\n"
EXAMPLES = ROOT / "examples"
INTERVALS = (
    "[0;60]", "[0..60]", "[0,60)", "(0,60]", "{0,60}", "[0:60]", "[0-60]", "[0 60]", "[0,60[", "]0,60]", "[60]", "[<=60]", "<=60",
    " [0 , 60)", " 60",
)


class Words(unittest.TestCase):
    def told(self, words, status, *parts, **environment):
        """Asserts that words end with a status and a message with these parts."""
        ended, _, said = asked(words, EXAMPLES, **environment)
        self.assertEqual(ended, status, f"{words}: {said}")
        self.assertNotIn("Traceback", said)
        for part in parts:
            self.assertIn(part, said)

    def test_no_command(self):
        for words in ([], ["what"], ["check"], ["check", "a.p"], ["check", "a.p", "set.csv", "--seconds", "0"],
                      ["check", "a.p", "set.csv", "--conflicts", "0"], ["deadline", "F[0,5] a.p", "set.csv"],
                      ["each", "F a.{7}", "set.csv", "--over", ".*"], ["each", "F a.{}", "set.csv", "--over", "("],
                      ["each", "F a.{}", "set.csv", "--over", "nothing"], ["each", "F a.p", "set.csv", "--over", ".*"], ["log", "set.csv", "--skew", "x"],
                      ["log", "set.csv", "--row", "x"], ["draw", "set.csv", "--report", "x", "--times", "y"],
                      ["deadline", "F[0,?] a.p & G[0,?] a.p", "set.csv"], ["check", "-", "-"], ["log", "-", "-"],
                      ["deadline", "F[9,?] a.p & F[?,3] a.p", "set.csv"], ["check", "a.p", "set.csv", "--nothing"]):
            self.told(words, 64, "usage:")

    def test_help(self):
        for words in (["--help"], ["check", "--help"], ["deadline", "--help"], ["each", "--help"], ["log", "--help"], ["draw", "--help"]):
            ended, text, _ = asked(words)
            self.assertEqual(ended, 0)
            self.assertIn("usage:", text)

    def test_files_that_cannot_be_read(self):
        self.told(["check", "a.p", "missing.csv"], 74, "missing.csv", "No such file")
        self.told(["check", "a.p", "."], 74, "Is a directory")
        self.told(["check", "missing.formula", "set.csv"], 74, "missing.formula")
        for name in ("missing.f", "missing.ltl2", "missing-1.f", "F.f", "a.p.f", "missing", "b.p"):
            self.told(["check", name, "set.csv"], 65, f"There is no file {name}, so this was read as a formula")
        self.told(["deadline", "missing.f", "set.csv"], 64, "There is no file missing.f, so this was read as a formula")
        self.told(["each", "missing.f", "set.csv", "--over", ".*"], 64, "There is no file missing.f")
        for formula in ("F b.p", "!b.p", "a.p&b.p", "(b.p)", "a.p|b.p"):
            self.assertNotIn("There is no file", asked(["check", formula, "set.csv"], EXAMPLES)[2])
        self.told(["draw", "set.csv", "--report", "missing.report"], 74, "missing.report")
        self.told(["log", "set.csv", "--notes", "missing/notes"], 75, "missing/notes")

    def test_programs_that_are_none(self):
        self.told(["check", "a.p", "set.csv", "--program", "missing"], 72, "missing")
        self.told(["check", "a.p", "set.csv"], 72, "SKEWCHECK", SKEWCHECK="missing")
        self.told(["check", "a.p", "set.csv", "--program", "/bin/true"], 72)
        self.told(["check", "a.p", "set.csv", "--program", "/bin/false"], 72)
        self.told(["draw", "set.csv", "--program", "/bin/false"], 72)
        self.told(["check", "a.p", "set.csv", "--program", "set.csv"], 72)

    def test_reports_of_others(self):
        self.told(["draw", "answered.csv", "--report", "checkout_within_5000.report"], 5, "7 rows", "has 2")
        self.told(["draw", "answered.csv", "--report", "answered_within_8.report", "--formula", "within_9.formula"], 5, "refused false")
        self.told(["draw", "answered.csv", "--report", "answered.csv"], 5, "no report")
        self.told(["draw", "apart.csv", "--report", "answered_within_8.report"], 5, "isn't a report on this log")
        self.told(["draw", "answered.csv", "--times", "overlap.times"], 68, "line 3")

    def test_numbers_of_many_digits(self):
        self.told(["deadline", f"F[{'9' * 5000},?] a.p", "set.csv"], 65, "10^18")
        self.told(["check", f"F[0,{'9' * 5000}] a.p", "set.csv"], 65, "10^18")

    def test_refusals_as_json(self):
        ended, text, _ = asked(["check", "a.p", "missing.csv", "--json"])
        self.assertEqual((ended, json.loads(text)["status"]), (74, 74))

    def test_warnings_may_be_errors(self):
        words = ["check", "heartbeat.formula", "heartbeat_notes.csv"]
        self.told([*words, "--strict-for", "end"], 0)
        self.told([*words, "--strict-for", "never"], 65)

    def test_long_runs_are_stopped(self):
        with tempfile.TemporaryDirectory() as folder:
            slow = Path(folder, "slow")
            slow.write_text("#!/bin/sh\nexec sleep 20\n")
            slow.chmod(0o755)
            for words, part in (
                (["check", "a.p", "set.csv"], "--seconds"), (["draw", "set.csv"], "--seconds"),
                (["deadline", "F[0,?] a.p", "set.csv"], "stopped after 0.3 seconds"),
            ):
                self.told([*words, "--program", str(slow), "--seconds", "0.3"], 124, part)

    def test_what_few_conflicts_found_is_shown(self):
        with tempfile.TemporaryDirectory() as folder:
            slow, mark = Path(folder, "slow"), Path(folder, "mark")
            slow.write_text(
                f'#!/bin/sh\ncase "$*" in *conflicts*|replay*) exec {os.environ["SKEWCHECK"]} "$@";; esac\n: >{mark}\nexec sleep 60\n'
            )
            slow.chmod(0o755)
            with time_over_with(mark):
                ended, text, _ = asked(["check", "within_8.formula", "answered.csv", "--program", str(slow), "--seconds", "100"], EXAMPLES)
        self.assertEqual(ended, 2)
        self.assertIn("stopped after 100 seconds", text)

    def test_what_could_not_be_asked_is_said(self):
        with tempfile.TemporaryDirectory() as folder:
            slow, mark = Path(folder, "slow"), Path(folder, "mark")
            slow.write_text(
                f'#!/bin/sh\nif [ "$1" = check ] && head -c 1 "$2" | grep -q F; then : >{mark}; exec sleep 60; fi\n'
                f'exec {os.environ["SKEWCHECK"]} "$@"\n'
            )
            slow.chmod(0o755)
            with time_over_with(mark):
                ended, text, _ = asked(["check", "within_9.formula", "answered.csv", "--program", str(slow), "--seconds", "100"], EXAMPLES)
        self.assertEqual(ended, 0)
        self.assertIn("Warning (unasked): whether a.req is ever true isn't known: that run was stopped.", text)

    def test_as_a_process_of_its_own(self):
        self.assertEqual(asked_apart(["check"])[0], 64)
        ended, _, said = asked_apart(["check", b"a.p", b"\xff.csv"])
        self.assertEqual((ended, "Traceback" in said, "No such file" in said), (74, False, True))
        ended, text, said = asked_apart(["check", "-", "examples/answered.csv"], text=b"G (a.req -> F[0,9] b.ack)")
        self.assertEqual((ended, text[:5], said), (0, "True:", ""))


class Refusals(unittest.TestCase):
    def refused(self, formula, log, status, *parts):
        """Asserts that a formula on a log is refused with these parts in the message."""
        with tempfile.TemporaryDirectory() as folder:
            Path(folder, "f").write_bytes(formula if isinstance(formula, bytes) else formula.encode())
            Path(folder, "l").write_bytes(log if isinstance(log, bytes) else log.encode())
            ended, _, said = asked(["check", "f", "l"], folder)
        self.assertEqual(ended, status, said)
        self.assertNotIn("Traceback", said)
        for part in parts:
            self.assertIn(part, said)

    def test_formulas(self):
        log = HEAD + "set,a,1,p\n"
        for formula, parts in (
            ("a.p #", ["f, line 1, column 5", "nothing of the language"]), ("a.p &\r\n b.q", ["line 2, column 2", "no host b", "a"]),
            ("a.p\n& (a.p", ["line 2, column 7", "ends too early"]), ("F[5,3] a.p", ["column 2", "above the second"]),
            ("F[01,3] a.p", ["column 3", "leading zero"]), ("", ["empty"]), ("!" * 200 + "a.p", ["200 levels"]),
            ("a.p a.p", ["column 5", "a whole formula ends"]), ("a." + "p" * 33, ["at most 32"]), (b"\xff\xfe", ["column 1"]),
            ("F[0,?] a.p", ["column 5", "ask deadline"]), ("a.p => a.p", ["column 5", "->"]), ("a.p && a.p", ["one &"]),
            ("a.p || a.p", ["one |"]), ("G (Fa.p & Fab.p)", ["no host ab", "F before it is an operator"]),
            ("a.p AND a.p", ["column 5", "a conjunction is &"]), ("a.p OR a.p", ["a disjunction is |"]), ("NOT a.p", ["a negation is !"]),
            ("Web.asked", ["column 1", "names are in small letters"]), ("a.P", ["names are in small letters"]),
            ("F[0,50 a.p", ["column 8", "has no ]"]), ("F[0,inf", ["ends too early"]),
            ("always (a.p)", ["after always", "HOST.NAME"]), ("F (p)", ["column 5", "after p", "HOST.NAME"]),
            ("F(0,60) a.p", ["column 3", "an interval is [0,60]"]), ("a.p U(2,inf) a.p", ["an interval is [2,inf]"]),
            *((f"F{interval} a.p", ["an interval is [0,60]"]) for interval in INTERVALS),
        ):
            self.refused(formula, log, 65, *parts)

    def test_logs(self):
        for text, parts in (
            ("", ["is empty"]), ("x\n", ["first line", "kind,host,time,name"]), (HEAD, ["no row"]),
            (HEAD + "put,a,1,p\n", ["line 3, column 1", "no kind 'put'", "set, clear"]), (HEAD + "set,c,1,p\n", ["column 5", "'c'", "hosts: a"]),
            (HEAD + "set,a,1.5,p\n", ["column 7", "'1.5'", "ask log"]), (HEAD + "set,a,1,P\n", ["column 9", "'P'"]),
            (HEAD + "set,a,1\n", ["four fields", "has 3"]), (HEAD + "host,b,-1,0\n", ["the skew '-1'"]), (HEAD + "host,b,1,x\n", ["the gap 'x'"]),
            (HEAD + "host,a,1,0\n", ["declared twice"]), (HEAD + "recv,a,1,m\n", ["m is received", "note"]),
            (HEAD + "send,a,1,m\nsend,a,2,m\n", ["line 4", "sent twice"]), (HEAD + "host,true,1,1\n", ["'true' is no host"]),
            (HEAD + "".join(f"host,h{n},1,0\n" for n in range(70)), ["71 hosts; at most 64"]),
            (HEAD + "pulse,a,1,p\n", ["line 3", "no kind 'pulse'", "skewlog2,host,time,name allows it"]), (HEAD + "resync,a,1,1\n", ["skewlog2"]),
            ("skewlog2,host,time,name\nhost,a,1,1\nlatency,a,5,3\n", ["greatest latency", "column 13"]),
            (HEAD + "set,b,1,p\nhost,b,1,0\n", ["line 3", "declared further down"]),
            ('{"hosts": [], "events": []}', ["a log in JSON", "skewcheck json"]), ('{"hosts": [], "ev', ["a log in JSON"]), ('{"kind": "set"}\n', ["This is JSON", "ask log"]),
            ("kind,host,time,name\n".encode("utf-16"), ["UTF-16"]), ("kind;host;time;name\n", ["commas"]),
            ("\ufeff\r\nkind,host,time,name\r\n\r\nhost,a,2,1\r\nset,a,1o,p\r\n", ["line 5, column 7", "'1o'"]),
        ):
            self.refused("a.p", text, 66, *parts)

    def test_kinds_that_an_older_program_refuses(self):
        with tempfile.TemporaryDirectory() as folder:
            older = Path(folder, "older")
            older.write_text("#!/bin/sh\necho refused log 3 at record 3\nexit 66\n")
            older.chmod(0o755)
            with mock.patch.dict(os.environ, SKEWCHECK=str(older)):
                self.refused("a.p", PULSED, 66, "line 3, column 1", "doesn't know the kind pulse", "older than ask")

    def test_sizes(self):
        rows = HEAD + "".join(f"note,a,{3 * n},n\n" for n in range(1000))
        self.refused("F a.p & F F a.p & F F F a.p & F F F F a.p & F F F F F a.p", rows, 67, "1,000 rows", "4,194,304")
        self.refused("a.p", HEAD + "set,a,1,p\n" * 120_000, 67, "more than 1,024 rows", "ask log --help")
        self.refused("a.p", HEAD + "set,a,1,p\n" * 1025, 67, "more than 1,024 rows")
        with tempfile.TemporaryDirectory() as folder:
            Path(folder, "l").write_text(HEAD + "set,a,1,p\n" * 1300)
            ended, _, said = asked(["between", "l", "0", "1"], folder)
            self.assertEqual((ended, "1,300 rows; at most 1,024" in said), (66, True), said)

    def test_bytes_by_chance(self):
        draw = random.Random(38)
        example = (EXAMPLES / "checkout.csv").read_bytes()
        with tempfile.TemporaryDirectory() as folder:
            for place in range(24):
                broken = bytearray(example)
                for _ in range(draw.randint(1, 4)):
                    broken[draw.randrange(len(broken))] = draw.randrange(256)
                data = bytes(broken) if place % 4 else os.urandom(draw.randint(0, 3000))
                Path(folder, "l").write_bytes(data)
                for words in (["check", "G (web.asked -> F[0,9] pay.done)", "l"], ["draw", "l"], ["log", "l", "--skew", "5"]):
                    ended, _, said = asked(words, folder)
                    self.assertNotIn("Traceback", said, data)
                    self.assertIn(ended, (0, 1, 2, 3, 64, 65, 66), said)


class Logs(unittest.TestCase):
    def made(self, text, *words):
        """How a log is made of a text."""
        return asked(["log", "-", *words], text=text.encode())

    def test_lines_of_json_that_are_none(self):
        for text, part in (
            ('{"time": 1', "line 1: this is no JSON"), ('{"time": 1}\n', "there is no 'host'"), ('{"host": "a"}\n[1]\n', "line 1: there is no 'time'"),
            ('{"time": 1, "host": "a", "name": "x"}\n[1]\n', "line 2: this is no JSON object"), ("{" * 100_000, "no JSON"),
            ('{"time": "x", "host": "a", "name": "x"}', "'x' is no whole number"), ('{"time": 1, "host": "a", "name": "x", "kind": "y"}', "no kind 'y'"),
        ):
            ended, _, said = self.made(text, "--skew", "5")
            self.assertEqual(ended, 66, said)
            self.assertIn(part, said)
            self.assertNotIn("Traceback", said)

    def test_a_host_without_a_skew(self):
        ended, _, said = self.made('{"time": 1, "host": "a", "name": "x"}')
        self.assertEqual(ended, 64)
        self.assertIn("--skew a=D", said)

    def test_windows(self):
        text = HEAD.replace(",2,1", ",2,3") + "set,a,10,up\nsend,a,20,m\nnote,a,30,n\nclear,a,40,up\n"
        ended, log, said = self.made(text, "--from", "25")
        self.assertEqual(ended, 0)
        self.assertEqual(log, "kind,host,time,name\nhost,a,2,3\nset,a,22,up\nnote,a,30,n\nclear,a,40,up\n")
        self.assertIn("carried in: a up", said)

    def test_receives_without_a_send(self):
        text = HEAD + "send,a,20,m\nrecv,a,30,m\n"
        ended, log, said = self.made(text, "--from", "25")
        self.assertEqual((ended, log), (0, "kind,host,time,name\nhost,a,2,1\nnote,a,30,m\n"))
        self.assertIn("is a note", said)

    def test_more_rows_than_the_program_takes(self):
        text = HEAD + "".join(f"note,a,{n},n\n" for n in range(1300))
        ended, log, said = self.made(text)
        self.assertEqual((ended, log), (0, text))
        self.assertIn("1,300 rows, and the program takes 1,024", said)


if __name__ == "__main__":
    unittest.main()
