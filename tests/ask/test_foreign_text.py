"""Text of others: nothing in it acts on a terminal, a page or a picture, and none of it takes long to read."""

import json
import os
import random
import subprocess
import sys
import tempfile
import unittest
from html.parser import HTMLParser
from pathlib import Path
from xml.dom import minidom

from common import PATIENCE, ROOT, asked

from ask import logs
from ask.access import Request, format_of, on_hosts
from ask.clocks import Clock, ClockStep, Steps, Update
from ask.events import Cuts, filled, name_map
from ask.formulas import read_formula
from ask.making import Line
from ask.page import page_of
from ask.panels import Panel
from ask.picture import picture
from ask.refusals import shown_place
from ask.reports import verdict_of
from ask.stamps import iso_moment
from ask.texts import escaped, escaped_json, markup, place_of, width_of
from ask.words import table

EXAMPLES = ROOT / "examples"
CONTROLS = [chr(code) for code in [*range(1, 32), 127]]
MOST_SECONDS = 5  # of processor time, which beside other work is up to twice what it is alone


class Page(HTMLParser):
    """The text of the title and of each heading of a page, and how many panels it has."""

    def __init__(self):
        super().__init__()
        self.panels, self.scripts, self.titles, self.open = 0, 0, [], ""

    def handle_starttag(self, tag, attrs):
        self.panels += tag == "svg" and ("class", "panel") in attrs
        self.scripts += tag == "script"
        self.open = tag
        self.titles += [""] * self.is_heading()

    def handle_data(self, text):
        if self.is_heading():
            self.titles[-1] += text

    def handle_endtag(self, tag):
        self.open = ""

    def is_heading(self):
        """Whether a title of the page or of a panel is open, and not one within a picture."""
        return self.open in ("h1", "h2") or self.open == "title" and not self.panels


class Escapes(unittest.TestCase):
    def test_what_is_escaped(self):
        for text, wanted in (
            ("a.p", "a.p"), ("é 中 ", "é 中 "), ("\x1b[31m", "\\x1b[31m"), ("\t\n\r", "\\t\\n\\r"), ("\0\x7f\x9b", "\\x00\\x7f\\x9b"),
            ("\u202e\u2066\u200f", "\\u202e\\u2066\\u200f"), ("\u2028\u2029\ufeff", "\\u2028\\u2029\\ufeff"), ("\udcff", "\\xff"),
            ("\ud800", "\\ud800"), ("\U000e0041", "\\U000e0041"), ("\ufffe\uffff\ufffd", "\\ufffe\\uffff\ufffd"),
        ):
            self.assertEqual(escaped(text), wanted)

    def test_json_keeps_its_values(self):
        for text in ("\x1b\x7f\x9b", "\u202e\u2028", "\udcff", "\U000e0041", "a\nb"):
            shown = escaped_json(json.dumps({"a": text}, indent=2, ensure_ascii=False))
            self.assertEqual(json.loads(shown), {"a": text})
            self.assertNotRegex(shown, "[\x7f-\x9f\u2028-\u202e\ud800-\udfff]")

    def test_width(self):
        for text, wide in (("abc", 3), ("中", 2), ("e\u0301", 1), ("", 0)):
            self.assertEqual(width_of(text), wide)

    def test_columns(self):
        rows = [["\u691c\u67fb", "1"], ["ab", "22"], ["e\u0301\x07", "3"]]
        self.assertEqual(table(["name", "n"], rows, left=(0,)), ["  name    n", "  \u691c\u67fb    1", "  ab     22", "  e\u0301\x07   3"])

    def test_markup(self):
        self.assertEqual(markup("<a>&\"]]>\x01\n"), "&lt;a&gt;&amp;&quot;]]&gt;\\x01\n")


class Carets(unittest.TestCase):
    def test_the_sign_stands_below_the_place(self):
        for data, offset, wanted in (
            (b"a.p #", 4, "  a.p #\n      ^"), (b"\x1b[1m #", 5, "  \\x1b[1m #\n          ^"), ("中 #".encode(), 4, "  中 #\n     ^"),
            (b"x\ny\r\n\tz", 6, "   z\n   ^"), (b"\xef\xbb\xbf#", 3, "  #\n  ^"), (b"\xff#", 1, "  \ufffd#\n   ^"),
            ("\u202e#".encode(), 3, "  \\u202e#\n        ^"), (b"", 0, "  \n  ^"), (b"a\n", 2, "  \n  ^"),
        ):
            self.assertEqual(shown_place(data, offset), wanted, data)

    def test_places(self):
        for data, offset, wanted in (
            (b"a\nb", 2, (2, 1)), (b"a\r\nb", 3, (2, 1)), (b"\r\r\n\n", 4, (4, 1)), (b"\xef\xbb\xbfa", 3, (1, 1)),
            (b"ab", 1, (1, 2)),
        ):
            self.assertEqual(place_of(data, offset), wanted)


class Shown(unittest.TestCase):
    """Foreign text in what ask writes."""

    def run_apart(self, words, folder):
        """How ask ends as a process of its own, and all bytes that it wrote."""
        done = subprocess.run(
            [sys.executable, "-B", str(ROOT / "ask" / "ask"), *words], cwd=folder, capture_output=True, timeout=PATIENCE, stdin=subprocess.DEVNULL,
        )
        return done.returncode, done.stdout + done.stderr

    def test_names_of_files(self):
        text = (EXAMPLES / "lease.csv").read_bytes()
        with tempfile.TemporaryDirectory() as folder:
            for name in (*CONTROLS[::8], "\u202e", "\x9b", b"\xff".decode("utf-8", "surrogateescape")):
                Path(folder, name).write_bytes(text)
                for words, status in (
                    (["check", "F a.holds", name], 0), (["check", "F a.holds", name, "--json"], 0), (["draw", name], 0),
                    (["log", name + "x"], 74),
                ):
                    ended, written = self.run_apart(words, folder)
                    self.assertEqual(ended, status, written)
                    self.assertNotRegex(written.decode(), "[\x00-\x09\x0b-\x1f\x7f-\x9f\u202e]")

    def test_within_files(self):
        table = "time,host,name\n1,\x1b[31mh,\u202en\n2,h\x07,n\x7f\n"
        keys = '{"time":1,"\\u001b[2J":"a","name":"n"}\n'
        with tempfile.TemporaryDirectory() as folder:
            Path(folder, "t").write_text(table)
            Path(folder, "j").write_text(keys)
            Path(folder, "a").write_bytes(b"\x1b]0;x\x07\xff\n")
            Path(folder, "f").write_bytes(b"F \x1b[2J")
            for words, status in (
                (["log", "t", "--skew", "1"], 0), (["log", "j"], 66), (["log", "a", "--access", "$msec"], 66), (["log", "t"], 64),
                (["check", "f", str(EXAMPLES / "lease.csv")], 65), (["check", "F\x1b[2J", str(EXAMPLES / "lease.csv")], 65),
                (["log", "t", "--skew", "\x1b[2J=5"], 64), (["what\x1b[2J"], 64), (["check", "a.p", "t", "--\x1b[2J"], 64),
            ):
                ended, written = self.run_apart(words, folder)
                self.assertEqual(ended, status, written)
                self.assertNotRegex(written.decode(), "[\x00-\x09\x0b-\x1f\x7f-\x9f\u202e]")

    def test_notes_are_a_line_each(self):
        with tempfile.TemporaryDirectory() as folder:
            Path(folder, "j").write_text('{"time":1,"host":"a\\nask: b","name":"n","kind":"recv"}\n')
            ended, _, said = asked(["log", "j", "--skew", "1"], folder)
        self.assertEqual((ended, said.count("\n")), (0, 3), said)
        self.assertIn(r"the receive of n by a\nask: b is a note", said)


class Pictures(unittest.TestCase):
    NAMES = (*CONTROLS, "<", "&", "]]>", "<\u0338script>", "@SECTIONS@", "@TITLE@", "\"'", "-->", "\u202e", "\x85", "\udcfe", "</title><script>alert(1)<")

    def test_pictures_are_xml_and_pages_have_one(self):
        log = logs.read_log((EXAMPLES / "lease.csv").read_bytes())
        for name in [name for name in self.NAMES if name != "\n"]:
            svg = picture(log, [Panel(name, log.stamps())], name)
            elements = minidom.parseString(svg.encode()).getElementsByTagName("text")
            self.assertEqual([element.firstChild.data for element in elements[:2]], [escaped(name)] * 2)
            page = Page()
            page.feed(page_of(name, log, [Panel(name, log.stamps())]))
            self.assertEqual((page.panels, page.scripts, page.titles), (1, 2, [escaped(name)] * 3))

    def test_names_of_files(self):
        text = (EXAMPLES / "lease.csv").read_bytes()
        with tempfile.TemporaryDirectory() as folder:
            for name in ("a\x01", "@SECTIONS@", "]]><&", "\udcfe"):
                Path(folder, name).write_bytes(text)
                ended, svg, said = asked(["draw", name, "--svg"], folder)
                self.assertEqual((ended, said), (0, ""))
                self.assertEqual(minidom.parseString(svg).getElementsByTagName("text")[0].firstChild.data, escaped(name))
                ended, html, _ = asked(["draw", name], folder)
                titles = html.count(f"<title>{markup(name)}</title>")
                self.assertEqual((ended, html.count('<svg class="panel"'), titles), (0, 1, 1))

    def test_a_page_is_put_together_in_one_pass(self):
        log = logs.read_log((EXAMPLES / "lease.csv").read_bytes())
        page = page_of("@SECTIONS@ @TITLE@", log, [Panel("@TITLE@ @FACTS@", log.stamps())])
        counts = [page.count(text) for text in ("<title>@SECTIONS@ @TITLE@</title>", "<h2>@TITLE@ @FACTS@</h2>", '<svg class="panel"')]
        self.assertEqual(counts, [1, 1, 1])


class Records(unittest.TestCase):
    """Records as the reader of the program takes them, worked out by hand."""

    def test_quotes(self):
        for text, wanted in (
            (b'a,"b"\n', [["a", "b"]]), (b'a,"b""c"d,e', [["a", 'b"cd', "e"]]), (b'a"b,c\n', [['a"b', "c"]]),
            (b'"a\nb",c\nd', [["a\nb", "c"], ["d"]]),
            (b'"a', [["a"]]), (b'"', [[""]]), (b'"",""', [["", ""]]), (b'""""', [['"']]), (b'a,"', [["a", ""]]), (b'"a"b"c",d', [['ab"c"', "d"]]),
            (b'"a",', [["a", ""]]), (b'\n\n"a"\r\n\r"b"', [["a"], ["b"]]), (b'"\xff"', [["\\xff"]]), (b'a, "b"', [["a", ' "b"']]),
        ):
            self.assertEqual([record.fields for record in logs.records_of(text)], wanted, text)

    def test_lines_and_fields(self):
        data = b'\xef\xbb\xbf\n"a\r\nb",c,"d"\r\re,f\n"g",h'
        records = logs.records_of(data)
        self.assertEqual([record.line for record in records], [2, 5, 6])
        self.assertEqual([logs.field_start(data, records[0], number) for number in range(4)], [4, 11, 13, None])
        self.assertEqual([logs.field_start(data, records[1], number) for number in (0, 1, 2)], [18, 20, None])


class Linear(unittest.TestCase):
    """What took long once, at sizes at which it would take minutes."""

    def took(self, words, **files):
        """How ask ends, within the processor time that it may take."""
        with tempfile.TemporaryDirectory() as folder:
            for name, data in files.items():
                Path(folder, name).write_bytes(data)
            before = os.times()
            ended, text, said = asked(words, folder)
            after = os.times()
        self.assertLess(after.user + after.system - before.user - before.system, MOST_SECONDS)
        return ended, text, said

    def test_a_quote_in_a_long_log(self):
        rows = b"".join(b"set,a,%d,p\n" % row for row in range(60_000))
        for quoted, status in ((b'set,a,0,"p"\n', 67), (b'set,a,"0,p\n', 66)):
            ended, _, _ = self.took(["check", "a.p", "l"], l=b"kind,host,time,name\nhost,a,0,0\n" + quoted + rows)
            self.assertEqual(ended, status)

    def test_blanks_in_a_formula(self):
        for formula in (b"F" + b" " * 65_000 + b"[0,5) a.p", b"a.p & G" + b"\n" * 65_000 + b"#", b"F " * 32_000, b"F [ 0 " * 10_000):
            ended, _, _ = self.took(["check", "f", str(EXAMPLES / "set.csv")], f=formula)
            self.assertEqual(ended, 65)

    def test_formulas_of_many_propositions(self):
        log = b"skewlog2,host,time,name\nhost,a,0,0\n" + b"".join(b"pulse,a,%d,p_%d\n" % (row, row) for row in range(20_000))
        for formula in ("each{p in a.*: F p}", "each{p in a.*: once{q in a.* but a.p_1: F p & q}}", "at most one of a.*"):
            ended, _, said = self.took(["check", formula, "l", "--formula"], l=log)
            self.assertEqual((ended, "name fewer" in said), (67, True), said)

    def test_deep_formulas(self):
        for sign in ("!", "G ", "("):
            ended, _, said = self.took(["deadline", "f", str(EXAMPLES / "set.csv")], f=(sign * 20_000 + "F[0,?] a.p").encode())
            self.assertEqual(ended, 65, said)

    def test_requests_at_once(self):
        lines = b"".join(b"1700000999.%03d 999.000 r%d\n" % (row % 1000, row) for row in range(20_000))
        ended, _, said = self.took(["log", "a", "--access", "$msec $request_time $request_id", "--skew", "5ms"], a=lines)
        self.assertEqual((ended, "20,000 hosts; at most 64" in said), (66, True), said)

    def test_clocks_of_many_resyncs(self):
        rows = b"".join(b"resync,a,%d,0\nset,a,%d,p\n" % (row % 2, row) for row in range(40_000))
        ended, _, said = self.took(["log", "l", "--clock-error", "1"], l=b"skewlog2,host,time,name\nhost,a,0,0\n" + rows)
        self.assertEqual((ended, "40,000 clocks; at most 1,024" in said), (66, True), said)

    def test_long_names_and_numbers(self):
        for line, status in (
            (b'{"time":1,"host":"a","name":"%s"}' % (b"N" * 1_000_000), 0), (b'{"time":%s,"host":"a","name":"n"}' % (b"9" * 1_000_000), 66),
            (b'{"time":1,"host":"a","name":"%s"}' % (b"{" * 1_000_000), 0), (b'{"a":' * 400 + b"1" + b"}" * 400, 66), (b"[" * 1_000_000, 66),
        ):
            ended, _, said = self.took(["log", "j", "--skew", "5"], j=line)
            self.assertEqual((ended, len(said) < 9000), (status, True))

    def test_objects_that_nest_too_deep_are_refused_by_name(self):
        ended, _, said = self.took(["log", "j"], j=b'{"a":' * 101 + b"1" + b"}" * 101)
        self.assertEqual((ended, said), (66, "ask: j, line 1: it nests deeper than 100 levels\n"))


class Names(unittest.TestCase):
    def test_names_that_truncate_alike(self):
        names = [f"{'X' * 20}{number:05}{'y' * 20}" for number in range(20_000)]
        before = os.times()
        mapped = name_map(names)
        after = os.times()
        self.assertLess(after.user + after.system - before.user - before.system, MOST_SECONDS)
        self.assertEqual(len(set(mapped.values())), len(names))
        self.assertTrue(all(logs.is_name(name) for name in mapped.values()))

    def test_numbers_behind_names(self):
        self.assertEqual(name_map(["A", "a", "a_2", "A ", "á"]), {"a": "a", "a_2": "a_2", "A": "a_3", "A ": "a_", "á": "n_"})

    def test_fields_in_braces(self):
        fields = {"k": "value", "": "empty"}
        for pattern, wanted in (("r{k}_x", "rvalue_x"), ("{k:.3}", "val"), ("{{}k}", "{k}"), ("{}", "empty"), ("no", "no"), ("}{k}", "}value")):
            self.assertEqual(filled(pattern, fields, "here", Cuts()), wanted)


class Requests(unittest.TestCase):
    def test_the_first_host_that_is_free(self):
        spans = ((0, 9), (1, 2), (2, 4), (3, 5), (5, 6), (10, 11))
        requests = [Request(iso_moment(a, ""), iso_moment(b, ""), (), {}, str(place)) for place, (a, b) in enumerate(spans)]
        # The third begins where the second ends, at which both are; the fourth finds the second's host free.
        self.assertEqual([host for host, _ in on_hosts(requests, "w")], ["w_1", "w_2", "w_3", "w_2", "w_3", "w_1"])

    def test_variables_with_nothing_between_them(self):
        form = format_of("$a$b$c x")
        self.assertEqual(form.pattern.fullmatch("12 x").groups(), ("12", "", ""))
        form = format_of("[$a] $scheme://$host$uri")
        self.assertEqual(form.pattern.fullmatch("[1] http://h/u").groups(), ("1", "http", "h/u", ""))


class Clocks(unittest.TestCase):
    def test_steps_and_updates(self):
        clock = Clock(10, [ClockStep(100, 120, 7), ClockStep(110, 130, 9)], [Update(0, 1), Update(50, 2), Update(100, 5), Update(200, 3)])
        lines = [Line("a", stamp, "note", "n", "") for stamp in (40, 55, 105, 115, 125, 140)]
        # By the updates: 2 up to 60, since 50 and a second; 5 from 50 up to 110; 3 from 100 on. By the steps: 7 before
        # the first, 9 where either may be next, 9 before the second, 0 behind both.
        self.assertEqual(clock.errors(lines), [2 + 7, 5 + 7, 5 + 9, 3 + 9, 3 + 9, 3 + 0])

    def test_steps_that_are_looked_up(self):
        draw = random.Random(64)
        for _ in range(200):
            firsts = [draw.randint(0, 90) for _ in range(draw.randint(0, 9))]
            steps = Steps(ClockStep(first, first + draw.randint(0, 30), draw.randint(0, 5)) for first in firsts)
            for moment in range(-1, 125, 3):
                passed = next((place for place, step in enumerate(steps.all) if moment <= step.last), len(firsts))
                self.assertEqual(steps.passed_by(moment), passed)
                after = draw.randint(0, len(firsts))
                self.assertEqual(steps.doubt(after, moment), sum(s.size for s in steps.all[after:] if s.first <= moment))


class Heights(unittest.TestCase):
    def test_formulas_that_are_too_high_have_no_tree(self):
        for sign in ("!", "G "):
            self.assertIsNotNone(read_formula(sign * 199 + "a.p"))
            self.assertIsNone(read_formula(sign * 200 + "a.p"))
        self.assertIsNotNone(read_formula("(" * 30_000 + "a.p" + ")" * 30_000))

    def test_statuses_of_reports(self):
        for name, status in (
            ("answered_within_9", 0), ("answered_within_8", 2), ("answered_within_5", 2), ("checkout_within_5000", 2),
            ("apart_either", 0), ("apart_either_after_1", 4), ("message_both", 3),
        ):
            self.assertEqual(verdict_of((EXAMPLES / f"{name}.report").read_bytes()), status, name)
        for text in (b"", b"skewcheck 1\n", b"true\n", b"skewcheck 1\nevents 1\nend\n", b"skewcheck 1\nevents 1\ntrue refuted 1\nfalse refuted 1\nend\n"):
            self.assertIsNone(verdict_of(text))


if __name__ == "__main__":
    unittest.main()
