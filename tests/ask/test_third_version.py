"""Logs of version 3: how they are read, what is wrong with one in words, and how bounds of clocks and rows are told."""

import random
import unittest
from unittest import mock

import common  # sets the path
import clock_logs

from ask.grounds import bounds_used, ground_facts, ground_lines
from ask.logs import Bound, Extra, Fault, bound_of, read_log
from ask.offsets import Offset, offsets_of
from ask.question import BEGINS_AS_LOG
from ask.refusals import log_refusal
from ask.reports import Line, Section, Step, read_report, steps_of
from ask.texts import LOG_BEGINS, Source
from ask.walks import bound_between, broken_ground, grounds_of
from ask.windows.longlog import read_long_log
from ask.words import broken_words, step_words, walk_facts, walk_words

HEAD = b"skewlog3,host,time,name\n"
WEB = HEAD + (
    b"host,web,100,0\nhost,app,100,0\nclock,web,1,m\nclock,app,2,m\nset,web,1000,asked\nset,app,1247,done\n"
    b"bound,1,0,300\nbound,0,1,-200\n"
)
FAULTS = (
    (b"host,a,5,0\nclock,b,0,m\n", 6, 3), (b"host,a,5,0\nclock,a,-1,m\n", 7, 3), (b"host,a,5,0\nclock,a,1000000000000000001,m\n", 7, 3),
    (b"host,a,5,0\nclock,a,1,M\n", 8, 3), (b"host,a,5,0\nclock,a,1\n", 2, 3), (b"host,a,1,0\nbound,0,0,5\nnote,a,1,x\n", 18, 3),
    (b"host,a,1,0\nbound,0,1,5\nnote,a,1,x\n", 20, 3), (b"host,a,1,0\nbound,0,-1,5\nnote,a,1,x\n", 7, 3), (b"host,a,1,0\nbound,x,-1,5\nnote,a,1,x\n", 7, 3),
    (b"host,a,1,0\nbound,4294967296,0,5\nnote,a,1,x\n", 7, 3), (b"host,a,1,0\nbound,1,0,100000000000000000001\nnote,a,1,x\n", 7, 3),
    (b"host,a,1,0\nbound,1,0,-0\nnote,a,1,x\n", 7, 3),
    (b"host,a,1,0\nnote,a,1,x\nrecv,a,2,m\nbound,0,9,5\n", 10, 4), (b"host,a,1,0\nbound,0,9,5\n", 11, None), (b"host,a,1,0\nclock,a,1,m\n", 11, None),
    (b"host,a,1,0\nnote,a,1,x\nnote,a,1,x\nbound,0,1,5\nbound,1,2,5\nbound,3,0,5\n", 20, 6),
    (b"kind,host,time,name\n", 3, 2),
)


def fault_of(data):
    """The fault of a log, as a short and as a long one."""
    found = read_log(data)
    long = read_long_log(data)
    assert (found if isinstance(found, Fault) else None) == (long if isinstance(long, Fault) else None), data
    return found if isinstance(found, Fault) else None


class Reading(unittest.TestCase):
    def test_what_rows_read(self):
        log = read_log(HEAD + b"host,a,5,0\nhost,b,5,0\nset,a,1,p\nclock,a,2,m\nset,a,2,p\nclock,b,1,m\nresync,a,9,1\nset,a,3,p\nclock,a,0,n\nset,b,4,p\nset,a,5,p\n")
        self.assertEqual([(row.clock, row.error) for row in log.rows], [(None, 0), (0, 2), (0, 2), (0, 1), (1, 0)])
        self.assertEqual([(row.skew, row.gap) for row in log.rows], [(5, 0), (5, 0), (9, 1), (5, 0), (9, 1)])
        self.assertEqual((log.version, log.clocks, log.clock_rows()), (3, ["m", "n"], [[1, 2, 3], [4]]))

    def test_bound_records_may_stand_anywhere(self):
        log = read_log(HEAD + b"bound,1,0,-7\nhost,a,5,0\nset,a,1,p\nbound,0,1,9\nset,a,2,p\n")
        self.assertEqual(log.extras, [Extra(1, 0, -7, 2), Extra(0, 1, 9, 5)])

    def test_bounds(self):
        log = read_log(WEB)
        self.assertEqual([bound_of(log, kind, 1) for kind in ("under", "over", "extra")], [Bound(2, 1, -1245), Bound(1, 2, 1249), Bound(0, 1, -200)])
        self.assertEqual([bound_of(log, *named) for named in (("extra", 2), ("under", 2))], [None, None])
        plain = read_log(HEAD + b"host,a,5,0\nset,a,1,p\n")
        self.assertEqual([bound_of(plain, kind, 0) for kind in ("under", "over", "extra")], [None] * 3)

    def test_faults(self):
        for text, number, record in FAULTS:
            self.assertEqual(fault_of(HEAD + text), (number, record), text)
        self.assertEqual(fault_of(b"skewlog2,host,time,name\nhost,a,5,0\nclock,a,0,m\nnote,a,10,x\n"), (3, 3))
        self.assertEqual(fault_of(b"kind,host,time,name\nhost,a,5,0\nbound,0,1,m\nnote,a,10,x\n"), (3, 3))
        self.assertEqual(fault_of(b"skewlog4,host,time,name\n"), (1, 1))

    def test_too_many_clocks(self):
        clocks = b"".join(b"clock,a,0,c%d\n" % number for number in range(1025))
        self.assertEqual(fault_of(HEAD + b"host,a,5,0\n" + clocks), (17, 1027))
        again = b"".join(b"clock,a,0,c%d\n" % (number % 1024) for number in range(3000))
        self.assertIsNone(fault_of(HEAD + b"host,a,5,0\n" + again + b"note,a,1,x\n"))

    def test_too_many_bounds(self):
        with mock.patch("ask.logs.MOST_EXTRAS", 3):
            self.assertEqual(fault_of(HEAD + b"bound,1,0,5\n" * 4), (19, 5))
            self.assertEqual(fault_of(HEAD + b"bound,1,0,5\n" * 3), (11, None))

    def test_long_logs_are_read_alike(self):
        for seed in range(100):
            text = clock_logs.some_log(random.Random(seed))[0].encode()
            short, long = read_log(text), read_long_log(text)
            self.assertEqual((list(long.rows), long.clocks, long.extras, long.clock_rows()), (short.rows, short.clocks, short.extras, short.clock_rows()))

    def test_how_logs_begin(self):
        for head in (b"kind,host", b"skewlog2,host", b"skewlog3,host"):
            self.assertTrue(LOG_BEGINS.match(head) and BEGINS_AS_LOG.match(head + b","))


class Refusals(unittest.TestCase):
    def said(self, text, words):
        return log_refusal(["refused", "log", *words.split()], Source("l", text))

    def test_faults_in_words(self):
        host = HEAD + b"host,a,5,0\n"
        for text, words, said in (
            (host + b"clock,a,1,m\n", "17 at record 3", "l, line 3, column 11: 1,024 clocks are named before this one, m, and that is the most: cut a window"),
            (host + b"bound,7,7,5\n", "18 at record 3", "l, line 3, column 9: both rows are row 7: a bound is between two rows"),
            (host + b"bound,1,0,5\n", "19 at record 3", "l, line 3, column 1: 1,048,575 bound records stand before this one, and that is the most: cut a window"),
            (host + b"bound,0,9,5\nnote,a,1,x\n", "20 at record 3", "l, line 3, column 9: the log has no row 9: rows are numbered from 0 to 0, in the order of the file"),
            (host + b"bound,3,0,5\nnote,a,1,x\n", "20 at record 3", "l, line 3, column 7: the log has no row 3: rows are numbered from 0 to 0, in the order of the file"),
            (host + b"clock,a,-1,m\n", "7 at record 3", "l, line 3, column 9: the error '-1' is no whole number from 0 to 10^18, without a sign or a leading zero"),
            (host + b"bound,x,0,5\n", "7 at record 3", "l, line 3, column 7: the row 'x' is no number of a row: a whole number from 0, without a leading zero"),
            (host + b"bound,0,-1,5\n", "7 at record 3", "l, line 3, column 9: the row '-1' is no number of a row: a whole number from 0, without a leading zero"),
            (host + b"bound,0,1,5.0\n", "7 at record 3", "l, line 3, column 11: the distance '5.0' is no whole number up to 10^20, with - where it is negative"),
            (host + b"clock,a,1,M\n", "8 at record 3", "l, line 3, column 11: 'M' is no name: a small letter, then small letters, digits and _, 32 characters at most. `ask log` maps names"),
            (host + b"clock,c,1,m\n", "6 at record 3", "l, line 3, column 7: no host 'c' is declared before this. The hosts: a"),
            (b"skewlog2,host,time,name\nclock,a,1,m\n", "3 at record 2", "l, line 2, column 1: there is no kind 'clock'. The kinds: host, resync, latency, set, clear, send, recv, note, pulse. "
             "The first line skewlog3,host,time,name allows it"),
            (b"kind,host,time,name\npulse,a,1,m\n", "3 at record 2", "l, line 2, column 1: there is no kind 'pulse'. The kinds: host, set, clear, send, recv, note. "
             "The first line skewlog2,host,time,name allows it"),
            (host, "1 at record 1", "l, line 1, column 1: the program doesn't know logs of version 3: it is older than ask (./skewcheck builds one)"),
            (b"skewlog4,host,time,name\n", "1 at record 1", "l, line 1, column 1: the first line has to be kind,host,time,name, skewlog2,host,time,name or "
             "skewlog3,host,time,name, and is skewlog4,host,time,name"),
        ):
            self.assertEqual(self.said(text, words), said)


class Words(unittest.TestCase):
    def setUp(self):
        self.log = read_log(WEB)

    def test_single_bounds(self):
        for step, said in (
            (Step("under", (0,)), "web set asked (line 6) can't be before 999 by the clock m: its stamp is 1000, off by at most 1"),
            (Step("over", (1,)), "app set done (line 7) can't be after 1249 by the clock m: its stamp is 1247, off by at most 2"),
            (Step("extra", (0,)), "app set done (line 7) can't be more than 300 after web set asked (line 6): the bound of line 8"),
            (Step("extra", (1,)), "web set asked (line 6) can't be less than 200 before app set done (line 7): the bound of line 9"),
        ):
            self.assertEqual(step_words(self.log, step), said)
        same = read_log(WEB.replace(b",300\n", b",0\n"))
        self.assertEqual(step_words(same, Step("extra", (0,))), "app set done (line 7) can't be after web set asked (line 6): the bound of line 8")

    def test_two_through_a_clock_are_one(self):
        over, under = Step("over", (1,)), Step("under", (0,))
        low = Step("low", (1,))
        for walk in ([over, under, low], [under, low, over], [low, over, under]):
            self.assertEqual([set(grounds_of(walk))], [{(over, under), (low,)}])
        self.assertEqual(bound_between(self.log, (over, under)), Bound(1, 0, 250))
        self.assertEqual(grounds_of([]), [])
        said = "app set done (line 7) can't be more than 250 after web set asked (line 6): they are by one clock, m, off by at most 2 and 1"
        self.assertEqual(walk_facts(self.log, [over, under]), [said])

    def test_errors(self):
        for error, said in ((b"1", "off by at most 1"), (b"0", "off by at most 0 and 1")):
            log = read_log(WEB.replace(b"clock,app,2", b"clock,app," + error))
            self.assertTrue(walk_facts(log, [Step("over", (1,)), Step("under", (0,))])[0].endswith(f"they are by one clock, m, {said}"))
        log = read_log(WEB.replace(b"clock,app,2", b"clock,app,0").replace(b"clock,web,1", b"clock,web,0"))
        self.assertTrue(walk_facts(log, [Step("over", (1,)), Step("under", (0,))])[0].endswith("they are by one clock, m, without an error"))

    def test_a_contradiction(self):
        text = HEAD + b"host,a,100,0\nhost,b,100,0\nclock,a,0,m\nclock,b,0,m\nsend,a,10,x\nrecv,b,10,x\n"
        walk = steps_of("over 1 under 0 message 1".split())
        self.assertEqual(walk_words(read_log(text), walk), [
            "  b recv x (line 7) can't be after a send x (line 6): they are by one clock, m, without an error",
            "  b recv x (line 7) can't be less than 1 after a send x (line 6): message x",
            "Together they ask for 1 more than there is.",
        ])

    def test_what_times_break(self):
        over, under = Step("over", (1,)), Step("under", (1,))
        self.assertEqual(broken_ground(self.log, over, [1000, 1251]), (over, Step("under", (0,))))
        self.assertEqual(broken_ground(self.log, under, [1000, 1243]), (Step("over", (0,)), under))
        self.assertEqual(broken_words(self.log, under, [1000, 1243]), (
            "web set asked (line 6) can't be less than 244 before app set done (line 7): they are by one clock, m, off by at most 1 and 2"
        ))
        self.assertEqual(broken_ground(self.log, Step("extra", (0,)), [0, 0]), (Step("extra", (0,)),))

    def test_what_a_derivation_rests_on(self):
        lines = [
            Line(steps_of("over 1 under 0 order 0 1 -251".split()), []), Line(steps_of("extra 0 order 0 1 -301".split()), []),
            Line(steps_of("extra 2 low 0 high 1".split()), []), Line([], [1, 2, 3]),
        ]
        section = Section("refuted", [], lines)
        self.assertEqual([(ground, uses) for ground, uses in bounds_used(self.log, section)], [
            ((Step("extra", (0,)),), 1), ((Step("over", (1,)), Step("under", (0,))), 1), ((Step("low", (0,)),), 1), ((Step("high", (1,)),), 1),
        ])
        facts = ground_facts(self.log, section)
        self.assertEqual([fact["bound"] for fact in facts], ["extra 0", "over 1 under 0", "low 0", "high 1"])
        self.assertIn("they are by one clock", ground_lines(self.log, section, True)[1])

    def test_reports_with_these_steps(self):
        report = read_report(b"skewcheck 1\nevents 2\ntrue witness\n1\n2\nfalse refuted 2\ncycle 3 over 1 under 0 order 0 1 -251\ncycle 1 extra 12\nend\n")
        self.assertEqual([step.kind for line in report.sections[False].lines for step in line.steps], ["over", "under", "order", "extra"])


class Offsets(unittest.TestCase):
    def test_offsets_of_times(self):
        log = read_log(WEB)
        self.assertEqual(offsets_of(log, [1000, 1247]), {0: Offset(-1, 1)})
        self.assertEqual(offsets_of(log, [1010, 1260]), {0: Offset(11, 11)})
        self.assertEqual(offsets_of(log, [1010, 1270]), {})
        self.assertEqual([Offset(*ends).middle() for ends in ((-1, 1), (3, 6), (-6, -3), (0, 9))], [0, 4, -5, 0])


if __name__ == "__main__":
    unittest.main()
