"""What commands say of logs of version 3, and of what a log would tell if its clocks kept their offsets."""

import json
import tempfile
import unittest
from pathlib import Path

from common import asked, time_over_with

from ask.logs import read_log
from ask.nearer import brought_nearer
from ask.program import Run, find_program
from ask.steady import resolution, steady_source
from ask.texts import Source

from schema import complaint

FIRST, THIRD = "kind,host,time,name\n", "skewlog3,host,time,name\n"
ROWS = "set,a,10,req\nset,a,15,ack\n"
ONE = THIRD + "host,a,100,0\nclock,a,0,a\n" + ROWS
TWO = THIRD + "host,a,100,0\nhost,b,100,0\nclock,a,1,m\nclock,b,1,m\nset,a,10,p\nset,b,13,q\n"
BOUND = THIRD + "host,a,100,0\n" + ROWS + "bound,1,0,6\nbound,0,1,-4\n"
NONE = THIRD + "host,a,100,0\nhost,b,100,0\nclock,a,0,m\nclock,b,0,m\nsend,a,10,x\nrecv,b,10,x\n"


class Asked(unittest.TestCase):
    def setUp(self):
        room = tempfile.TemporaryDirectory()
        self.addCleanup(room.cleanup)
        self.room = Path(room.name)

    def ask(self, log, command, *words, status=0, **environment):
        """What a command says of a log that is named l in its words."""
        (self.room / "l").write_text(log)
        ended, text, said = asked([command, *words], self.room, **environment)
        self.assertEqual(ended, status, said + text)
        self.said = said
        return text

    def facts(self, log, command, *words, status=0):
        """The same for programs, as the page on JSON has it."""
        facts = json.loads(self.ask(log, command, *words, "--json", status=status))
        self.assertEqual(complaint(command, facts), "")
        return facts


class Check(Asked):
    def test_verdicts(self):
        for log, formula, status in (
            (ONE, "G (a.req -> F[0,5] a.ack)", 0), (ONE, "G (a.req -> F[0,4] a.ack)", 1), (ONE.replace("clock,a,0,a\n", ""), "G (a.req -> F[0,5] a.ack)", 2),
            (ONE.replace("clock,a,0", "clock,a,1"), "G (a.req -> F[0,7] a.ack)", 0), (ONE.replace("clock,a,0", "clock,a,1"), "G (a.req -> F[0,6] a.ack)", 2),
            (TWO, "G (a.p -> F[0,5] b.q)", 0), (TWO, "G (a.p -> F[0,4] b.q)", 2), (NONE, "a.p", 3),
            (BOUND, "G (a.req -> F[0,6] a.ack)", 0), (BOUND, "G (a.req -> F[0,5] a.ack)", 2), (BOUND, "G (a.req -> F[0,3] a.ack)", 1),
        ):
            self.ask(log, "check", formula, "l", status=status)

    def test_what_rests_on_a_clock(self):
        text = self.ask(TWO, "check", "G (a.p -> F[0,5] b.q)", "l")
        self.assertIn("b set q (line 7) can't be more than 5 after a set p (line 6): they are by one clock, m, off by at most 1", text)
        facts = self.facts(TWO, "check", "G (a.p -> F[0,5] b.q)", "l")
        self.assertIn("over 1 under 0", [ground["bound"] for ground in facts["rests_on"]])

    def test_what_rests_on_a_bound(self):
        text = self.ask(BOUND, "check", "G (a.req -> F[0,6] a.ack)", "l")
        self.assertIn("a set ack (line 4) can't be more than 6 after a set req (line 3): the bound of line 5", text)

    def test_contradictions(self):
        text = self.ask(NONE, "check", "a.p", "l", status=3)
        self.assertIn("b recv x (line 7) can't be after a send x (line 6): they are by one clock, m, without an error\n", text)
        self.assertIn("Together they ask for 1 more than there is.", text)
        text = self.ask(BOUND.replace("0,1,-4", "0,1,-7"), "check", "a.req", "l", status=3)
        self.assertIn("a set req (line 3) can't be less than 7 before a set ack (line 4): the bound of line 6\n", text)

    def test_timings_by_one_offset(self):
        log = THIRD + "host,a,50,0\nhost,b,1,0\nclock,a,0,m\nset,a,100,p\nset,a,110,q\nset,b,130,r\n"
        text = self.ask(log, "check", "G (a.p -> F[0,10] b.r)", "l", status=2)
        self.assertRegex(text, r"true: rows by the clock m are shifted by \+(19|2\d|3\d|4\d|50), by one offset, without an error")
        self.assertNotIn("a skew is a range", text)
        facts = self.facts(log, "check", "G (a.p -> F[0,10] b.r)", "l", status=2)
        self.assertEqual(facts["timings"]["true"][1] - facts["timings"]["true"][0], 10)

    def test_refusals(self):
        for log, part in (
            ("host,a,1,0\nbound,0,0,5\nnote,a,1,x\n", "l, line 3, column 9: both rows are row 0"), ("host,a,1,0\nbound,0,1,5\nnote,a,1,x\n", "the log has no row 1"),
            ("host,a,1,0\nclock,a,x,m\nnote,a,1,x\n", "l, line 3, column 9: the error 'x'"),
        ):
            self.ask(THIRD + log, "check", "true", "l", status=66)
            self.assertIn(part, self.said)


class OtherCommands(Asked):
    def test_between(self):
        text = self.ask(ONE.replace("clock,a,0", "clock,a,1"), "between", "l", "0", "1")
        self.assertIn("a set ack (line 5) is 3 to 7 after a set req (line 4)", text)
        self.assertIn("can't be more than 7 after a set req (line 4): they are by one clock, a, off by at most 1", text)
        facts = self.facts(BOUND, "between", "l", "0", "1")
        self.assertEqual((facts["least"], facts["greatest"]), (4, 6))
        self.assertEqual([ground["bound"] for ground in facts["ends"]["greatest"]["rests_on"]], ["extra 0"])
        self.facts(NONE, "between", "l", "0", "1", status=3)

    def test_deadline(self):
        self.assertEqual(self.facts(TWO, "deadline", "G (a.p -> F[0,?] b.q)", "l")["number"], 5)
        self.assertEqual(self.facts(BOUND, "deadline", "G (a.req -> F[0,?] a.ack)", "l")["number"], 6)
        self.assertEqual(self.facts(BOUND, "deadline", "G (a.req -> F[0,?] a.ack)", "l", "--windows")["number"], 6)

    def test_tolerance(self):
        # Errors aren't widened with the skews: however great these are, the clock lets the rows be 6 to 14 apart.
        log = THIRD + "host,a,0,0\nhost,b,0,0\nclock,a,2,m\nclock,b,2,m\nset,a,10,p\nset,b,20,q\n"
        self.assertEqual(self.facts(log, "tolerance", "false", "G (a.p -> F[0,13] b.q)", "l", "--up-to", "100")["least"], 2)
        self.assertEqual(self.facts(log, "tolerance", "false", "G (a.p -> F[0,14] b.q)", "l", "--up-to", "100", status=1)["least"], None)

    def test_each(self):
        text = self.ask(BOUND, "each", "F[0,6] {1}.{2}", "l", "--over", r"(\w+)\.(\w+)", status=0)
        self.assertIn("2 formulas: 2 true.", text)
        self.facts(NONE, "each", "F {1}.{2}", "l", "--over", r"(\w+)\.(\w+)", status=3)

    def test_by_windows(self):
        for log, formula, status in (
            (TWO, "G (a.p -> F[0,5] b.q)", 0), (TWO, "G (a.p -> F[0,4] b.q)", 2), (ONE, "G (a.req -> F[0,4] a.ack)", 1), (NONE, "G a.p", 3),
            (BOUND, "G (a.req -> F[0,6] a.ack)", 0), (BOUND, "G (a.req -> F[0,5] a.ack)", 2),
        ):
            facts = self.facts(log, "check", formula, "l", "--windows", status=status)
            self.assertEqual(facts["check_status"], status)

    def test_windows_that_are_kept(self):
        self.ask(TWO, "check", "G (a.p -> F[0,4] b.q)", "l", "--keep", "kept", status=2)
        self.assertEqual(asked(["audit", "kept"], self.room)[0], 0)

    def test_grounds_of_a_window(self):
        text = self.ask(ONE, "check", "G (a.req -> F[0,4] a.ack)", "l", "--windows", status=1)
        self.assertIn("they are by one clock, a, without an error", text)
        self.assertNotIn("anchor", text)


class Pictures(Asked):
    def test_one_offset(self):
        (self.room / "t").write_text("30\n35\n")
        picture = self.ask(ONE, "draw", "l", "--times", "t", "--svg")
        self.assertIn(">clock a +20</text>", picture)
        self.assertIn("line 4: by the clock a with the offset +20 it is 30, without an error", picture)
        self.assertEqual(picture.count('class="reading l"'), 2)
        self.assertIn(">clock a 0</text>", self.ask(ONE, "draw", "l", "--svg"))

    def test_times_that_no_offset_has(self):
        (self.room / "t").write_text("30\n36\n")
        picture = self.ask(ONE, "draw", "l", "--times", "t", "--svg")
        self.assertIn("No admissible timing: a set ack (line 5) can&#x27;t be more than 5 after a set req (line 4): they are by one clock, a, without an error", picture)
        self.assertEqual((picture.count('class="reading l"'), ">clock a</text>" in picture), (0, True))

    def test_a_contradiction(self):
        picture = self.ask(NONE, "draw", "l", "--svg")
        self.assertEqual(picture.count('class="step c"'), 2)
        self.assertIn("they are by one clock, m, without an error: 0", picture)
        self.assertIn("The bounds add up to -1", picture)

    def test_logs_without_clocks_are_drawn_as_before(self):
        self.assertNotIn("reading", self.ask(FIRST + "host,a,1,0\n" + ROWS, "draw", "l", "--svg"))


class Steady(Asked):
    LOG = FIRST + "host,a,100,0\n" + ROWS

    def test_what_steady_clocks_tell(self):
        for most, status, word in ((7, 0, "it is true"), (2, 1, "it is false")):
            formula = f"G (a.req -> F[0,{most}] a.ack)"
            facts = self.facts(self.LOG, "check", formula, "l", status=2)["steady"]
            run = f"check '{formula}' 'l, with clocks steady within 1'"
            assumed = "The log doesn't say so: one clock a host was assumed, from which no stamp is off by more than 1."
            self.assertEqual(facts, {
                "error": 1, "verdict": word.split()[-1], "run": run, "sentence": f"With clocks that are steady within 1 {word}. [{run}] {assumed}",
            })
        text = self.ask(self.LOG, "check", "G (a.req -> F[0,5] a.ack)", "l", status=2)
        self.assertIn("Clocks that are steady within 1 wouldn't tell either. [check 'G (a.req -> F[0,5] a.ack)' 'l, with clocks steady within 1']\n", text)

    def test_when_it_is_asked(self):
        either = "G (a.req -> F[0,7] a.ack)"
        self.assertNotIn("steady", self.ask(self.LOG, "check", "F a.req", "l"))
        self.assertNotIn("steady", self.ask(ONE.replace("clock,a,0", "clock,a,2"), "check", either, "l", status=2))
        self.assertNotIn("steady", self.ask(FIRST + "host,a,9,0\nhost,b,9,0\nset,a,1,p\nset,b,3,q\n", "check", "G (a.p -> F[0,3] b.q)", "l", status=2))
        self.assertIn("steady", self.ask(BOUND.replace("bound,1,0,6", "bound,1,0,90"), "check", either, "l", status=2))
        self.assertEqual(self.ask(self.LOG, "check", either, "l", "--quiet", status=2), "")

    def test_no_run_where_it_is_quiet(self):
        told = self.room / "told"
        wrapped = self.room / "wrapped"
        wrapped.write_text(f'#!/bin/sh\nfor word; do cat "$word" 2>/dev/null; done >>{told}\nexec {find_program(None)} "$@"\n')
        wrapped.chmod(0o755)
        for more, is_asked in (["--quiet"], False), ([], True):
            self.ask(self.LOG, "check", "G (a.req -> F[0,7] a.ack)", "l", "--program", str(wrapped), *more, status=2)
            self.assertEqual("clock_1" in told.read_text(), is_asked)

    def test_a_program_that_knows_no_clocks(self):
        old = self.room / "old"
        old.write_text(f'#!/bin/sh\nif grep -q skewlog3 "$3"; then echo refused log 1 at record 1; exit 66; fi\nexec {find_program(None)} "$@"\n')
        old.chmod(0o755)
        facts = self.facts(self.LOG, "check", "G (a.req -> F[0,7] a.ack)", "l", "--program", str(old), status=2)
        self.assertNotIn("steady", facts)
        self.ask(ONE, "check", "G (a.req -> F[0,7] a.ack)", "l", "--program", str(old), status=66)
        self.assertIn("the program doesn't know logs of version 3: it is older than ask", self.said)

    def test_one_that_takes_too_long(self):
        slow = self.room / "slow"
        mark = self.room / "mark"
        slow.write_text(f'#!/bin/sh\nif grep -q skewlog3 "$3"; then : >{mark}; sleep 60; fi\nexec {find_program(None)} "$@"\n')
        slow.chmod(0o755)
        with time_over_with(mark):
            facts = self.facts(self.LOG, "check", "G (a.req -> F[0,7] a.ack)", "l", "--program", str(slow), "--seconds", "100", status=2)
        self.assertEqual(facts["steady"], {
            "error": 1, "verdict": None, "run": None, "sentence": "Whether clocks that are steady within 1 would tell wasn't found in time.",
        })

    def test_the_error_that_is_tried(self):
        for stamps, power in (([10, 15], 1), ([1000, 2500], 100), ([0, 0], 1), ([0, 30], 10), ([-200, 1700000000000000], 100), ([7], 1)):
            self.assertEqual(resolution(stamps), power)
        log = FIRST + "host,a,9000,0\nset,a,1000,req\nset,a,3000,ack\n"
        self.assertEqual(self.facts(log, "check", "G (a.req -> F[0,5000] a.ack)", "l", status=2)["steady"]["error"], 1000)

    def test_the_log_that_is_asked(self):
        text = FIRST + "host,a,9,0\nhost,b,9,1\nset,a,1,p\nresync,a,4,0\nset,a,2,p\n"
        self.assertEqual(steady_source(Source("l", text.encode()), 2), (
            "'l, with clocks steady within 2'",
            (THIRD + "host,a,9,0\nclock,a,2,clock_1\nhost,b,9,1\nclock,b,2,clock_2\nset,a,1,p\nresync,a,4,0\nclock,a,2,clock_3\nset,a,2,p\n").encode(),
        ))
        many = FIRST + "host,a,9,0\n" + "resync,a,4,0\n" * 1024
        self.assertIsNone(steady_source(Source("l", many.encode()), 2))


class Fake:
    """A question of which replay says that a timing has the value where its rows by a clock agree and are late enough."""

    def __init__(self, late):
        self.late = late
        self.formula = Source("f", b"true")

    def replay(self, text, times):
        is_there = times[1] - times[0] == 10 and times[0] >= self.late
        return Run("replay", 0 if is_there else 6 if times[1] - times[0] != 10 else 1, b"")


class Nearer(unittest.TestCase):
    LOG = read_log((THIRD + "host,a,50,0\nclock,a,0,m\nset,a,100,p\nset,a,110,q\nset,a,300,r\n").encode())

    def test_rows_of_a_clock_go_back_together(self):
        self.assertEqual(brought_nearer(Fake(0), self.LOG, [140, 150, 340], True).times, [100, 110, 300])

    def test_the_least_offset_that_is_left(self):
        self.assertEqual(brought_nearer(Fake(107), self.LOG, [140, 150, 340], True).times, [107, 117, 307])


if __name__ == "__main__":
    unittest.main()
