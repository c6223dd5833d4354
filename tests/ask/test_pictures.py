"""Pictures are well-formed, have each row, message and state, and mark what decides a formula."""

import json
import re
import unittest
import xml.etree.ElementTree as trees

from common import ROOT, asked

from ask.explain import Moment, Span
from ask.focus import Focus, focus_of
from ask.logs import read_log
from ask.panels import Panel, opening_of, stretches
from ask.picture import picture
from ask.plot import ticks
from ask.program import Program, find_program
from ask.question import Question, accepted_tree
from ask.texts import Source, width_of, wrapped

LATE = b"""kind,host,time,name
host,web,0,0
host,app,0,0
set,web,100,asked
set,app,130,done
clear,web,150,asked
clear,app,160,done
set,web,200,asked
clear,web,210,asked
set,app,290,done
"""


def drawn(*words):
    """The picture that words make."""
    ended, text, said = asked(["draw", *words, "--svg"], ROOT / "examples")
    assert ended == 0, said
    return trees.fromstring(text)


def of_class(picture, name):
    """The parts of a picture that have a class."""
    return [part for part in picture.iter() if name in part.get("class", "").split()]


def focus_on(formula, value, data=LATE):
    """What a picture marks of the stamps of a log, by which a formula has a value."""
    log, source = read_log(data), Source("formula", formula.encode())
    question = Question(Program(find_program(None)), source, Source("log", data))
    return focus_of(question, log, accepted_tree(source), log.stamps(), value)


class Pictures(unittest.TestCase):
    def test_parts(self):
        drawing = drawn("checkout.csv", "--report", "checkout_within_5000.report")
        self.assertEqual(len(of_class(drawing, "row")), 2 * 7)
        self.assertEqual(len(of_class(drawing, "skew")), 2 * 7)
        self.assertEqual(len(of_class(drawing, "message")), 2 * 2)
        self.assertEqual(len(of_class(drawing, "w")), 2 * 2)
        self.assertIn("line 4: set,web,1700000000000000,asked", "".join(drawing.itertext()))

    def test_loop(self):
        drawing = drawn("circle.csv")
        self.assertEqual(len(of_class(drawing, "step")), 4)
        self.assertIn("The bounds add up to -2", "".join(drawing.itertext()))

    def test_pages_ask_for_no_other_file(self):
        _, page, _ = asked(["draw", "examples/answered.csv"])
        without_names = page.replace("http://www.w3.org/2000/svg", "")
        for word in ("http:", "https:", "src=", "href=", "@import"):
            self.assertNotIn(word, without_names)

    def test_stretches(self):
        log = read_log(b"kind,host,time,name\nhost,a,9,0\nset,a,1,p\nclear,a,5,p\nset,a,5,q\nset,a,7,p\nclear,a,7,p\n")
        times = log.stamps()
        positions = sorted(set(times))
        self.assertEqual(stretches(log, times, positions, 0, "p"), [(1, 5)])
        self.assertEqual(stretches(log, times, positions, 0, "q"), [(5, None)])

    def test_pulses_have_marks_of_their_own(self):
        log = read_log(b"skewlog2,host,time,name\nhost,a,9,0\npulse,a,1,p\nset,a,5,q\nset,a,7,q\npulse,a,7,p\n")
        self.assertEqual(stretches(log, log.stamps(), [1, 5, 7], 0, "p"), [])
        drawing = trees.fromstring(picture(log, [Panel("by the stamps", log.stamps())]))
        self.assertEqual(len(of_class(drawing, "pulse")), 2)
        self.assertIn("a.p is true at 7, by the pulse of line 6", "".join(drawing.itertext()))

    def test_pulses_within_a_stretch(self):
        log = read_log(b"skewlog2,host,time,name\nhost,a,9,0\nset,a,1,p\npulse,a,5,p\nclear,a,7,p\npulse,a,9,p\n")
        self.assertEqual(stretches(log, log.stamps(), [1, 5, 7, 9], 0, "p"), [(1, 7)])

    def test_labels_and_titles_have_room(self):
        drawing = drawn("../tests/ask/logs/cut.csv", "--formula", "G (web.asked -> F[0,260] app.done)")
        shown = [text for text in of_class(drawing, "label") if "off" not in text.get("class")]
        self.assertGreater(len(shown), 20)
        self.assertLess(len(shown), len(of_class(drawing, "label")))
        formula = "G (web.asked -> " + " | ".join(f"F[0,{bound}] app.done" for bound in range(100, 140)) + ")"
        for title in of_class(drawn("../tests/ask/logs/cut.csv", "--formula", formula), "title"):
            self.assertLessEqual(len(title.text), 145)

    def test_ticks(self):
        self.assertEqual(ticks(8, 17), list(range(8, 18)))
        self.assertEqual(ticks(0, 95), list(range(0, 96, 10)))


class Marks(unittest.TestCase):
    def test_moments(self):
        cases = (
            ("G (web.asked -> F[0,50] app.done)", False, [Moment(200, False)], [Span(200, 250)]),
            ("G (web.asked -> F[0,90] app.done)", True, [], []),
            ("F (web.asked & app.done)", True, [Moment(130, True)], []),
            ("!F (web.asked & app.done)", False, [Moment(130, True)], []),
            ("F (web.done)", False, [], []),
            ("F[0,20] app.done", False, [], [Span(100, 120)]),
            ("F app.done & F !app.done", True, [Moment(130, True), Moment(100, True)], []),
            ("G !app.done | F[150,inf] app.done", True, [Moment(290, True)], []),
            ("web.asked", True, [Moment(100, True)], []),
            ("web.asked U app.done", True, [Moment(130, True)], []),
            ("app.done U web.none", False, [Moment(100, False)], []),
            ("true", True, [], []),
            ("G (app.done -> O[0,40] web.asked)", False, [Moment(290, False)], [Span(250, 290)]),
        )
        for formula, value, moments, spans in cases:
            with self.subTest(formula=formula):
                focus = focus_on(formula, value)
                self.assertEqual(list(focus.moments), moments)
                self.assertEqual(list(focus.spans), spans)

    def test_rows(self):
        focus = focus_on("G (web.asked -> F[0,50] app.done)", False)
        self.assertEqual(focus.rows, {4, 6})  # the request that waits, and the answer that is late

    def test_where_there_is_no_moment_that_is_said(self):
        said = "No single moment makes it true, so none is marked."
        self.assertEqual(focus_on("G (web.asked -> F[0,90] app.done)", True).lines()[-1], said)
        self.assertNotIn(said, focus_on("F app.done", True).lines())
        self.assertEqual(focus_on("true", True).lines(), [])

    def test_a_value_of_each_kind(self):
        drawing = drawn("lease.csv", "--formula", "lease.formula")
        self.assertEqual(len(of_class(drawing, "moment")), 1)
        self.assertEqual([flag.text for flag in of_class(drawing, "flag")], ["fails at 204"])
        self.assertEqual(len(of_class(drawing, "named")), 2)
        words = "".join(drawing.itertext())
        self.assertIn("Why it is true there:", words)
        self.assertIn("No single moment makes it true, so none is marked.", words)
        self.assertIn("b.holds is true at 204 (line 6: b set holds), since line 6.", words)

    def test_a_timing_of_a_file(self):
        drawing = drawn("lease.csv", "--times", "overlap.times", "--formula", "lease.formula")
        self.assertEqual(len(of_class(drawing, "moment")), 1)
        self.assertEqual(len(of_class(drawn("lease.csv", "--times", "overlap.times"), "moment")), 0)

    def test_a_report(self):
        words = ("answered.csv", "--report", "answered_within_8.report")
        self.assertEqual(len(of_class(drawn(*words), "moment")), 0)  # without the formula nothing can be asked
        self.assertEqual(len(of_class(drawn(*words, "--formula", "within_8.formula"), "moment")), 1)

    def test_sentences_are_those_of_check(self):
        for log, formula in (("lease.csv", "lease.formula"), ("answered.csv", "within_8.formula"), ("heartbeat.csv", "heartbeat.formula")):
            _, text, _ = asked(["check", formula, log, "--json"], ROOT / "examples")
            words = "".join(drawn(log, "--formula", formula).itertext())
            for sentence in [reason for reasons in json.loads(text)["reasons"].values() for reason in reasons]:
                self.assertIn(f"{sentence}.", words)

    def test_openings(self):
        text = "kind,host,time,name\nhost,a,0,0\n" + "".join(f"note,a,{10 * row},n\n" for row in range(1000))
        log = read_log(text.encode())

        def opening(rows, *moments, spans=()):
            focus = Focus(False, ("so",), tuple(Moment(moment, False) for moment in moments), frozenset(rows), spans)
            return opening_of(log, Panel("", log.stamps(), focus=focus))

        self.assertEqual(opening({500}, 5000), Span(4960, 5040))
        self.assertEqual(opening({500, 510}, 5000), Span(4960, 5140))
        self.assertEqual(opening({3, 500}, 5000), Span(4960, 5040))  # the other row is too far away
        self.assertEqual(opening({500}, 5000, spans=(Span(5000, 5065),)), Span(4960, 5100))
        self.assertEqual(opening({0}, 0), Span(0, 40))
        self.assertEqual(opening({100, 900}, 1000, 9000), Span(960, 1040))  # the first of both
        self.assertIsNone(opening({5}))
        self.assertIsNone(opening_of(log, Panel("", log.stamps())))


class Pages(unittest.TestCase):
    def test_facts_end_no_script(self):
        _, page, _ = asked(["draw", "examples/lease.csv", "--formula", "examples/lease.formula"])
        facts = re.search(r'<script type="application/json" id="facts">(.*?)</script>', page, re.S).group(1)
        self.assertNotIn("<", facts)
        self.assertEqual([row["line"] for row in json.loads(facts)["rows"]], [4, 5, 6, 7])

    def test_lines_are_wrapped(self):
        cases = (
            ("one two three", 7, ["one two", "three"]), ("", 5, [""]), ("abcdefghij", 4, ["abcd", "efgh", "ij"]),
            ("ab cdefghij", 4, ["ab c", "defg", "hij"]), ("a\tb", 80, ["a\\tb"]), ("\u4e2d\u6587\u4e2d", 4, ["\u4e2d\u6587", "\u4e2d"]),
        )
        for text, most, lines in cases:
            with self.subTest(text=text):
                self.assertEqual(wrapped(text, most), lines)
        for most in range(1, 30):
            self.assertTrue(all(width_of(line) <= most for line in wrapped("G (web.asked -> F[0,260] app.done) " * 4, most)))


if __name__ == "__main__":
    unittest.main()
