"""Files of properties: what the table, the status, the JUnit file and the JSON say of each kind of answer."""

import itertools
import json
import tempfile
import unittest
import xml.etree.ElementTree as trees
from pathlib import Path

from common import ROOT, asked, time_over_with
from schema import complaint

from ask.junit import Case, junit_text
from ask.program import find_program
from ask.properties import Finding, Property, status_of
from ask.texts import Source, Trouble

EXAMPLES = ROOT / "examples"
SUITE = "../tests/ask/logs/suite.properties"
WORDS = ["check", "--properties", SUITE, "apart.csv", "--conflicts", "1"]
VERDICTS = (
    ("p at some time", "holds", 0), ("p before q", "unknown", 4), ("at one instant", "either", 2), ("never both, whenever", "unknown", 4),
    ("no q", "fails", 1), ("a comma too many", "refused", 65), ("another host", "refused", 65), ("misspelt", "holds", 0),
)
KINDS = {"holds": "", "fails": "failure", "either": "failure", "unknown": "error", "refused": "error", "no timing": "error", "stopped": "error"}


class Room(unittest.TestCase):
    def setUp(self):
        room = tempfile.TemporaryDirectory()
        self.addCleanup(room.cleanup)
        self.room = Path(room.name)

    def suite(self, text):
        """A file of properties."""
        path = self.room / "suite"
        path.write_bytes(text if isinstance(text, bytes) else text.encode())
        return str(path)

    def asked_of(self, text, log="answered.csv", *more):
        """How the properties of a text ended on a log."""
        return asked(["check", "--properties", self.suite(text), log, *more], EXAMPLES)


class Answers(Room):
    def test_each_kind(self):
        status, text, said = asked(WORDS, EXAMPLES)
        self.assertEqual((status, said), (65, ""))
        lines = text.split("\n")
        self.assertEqual([tuple(line[2:24].rstrip().split("  ")) for line in lines[1:9]], [(name,) for name, *_ in VERDICTS])
        self.assertEqual([line[24:40].split() for line in lines[1:9]], [[verdict, str(status)] for _, verdict, status in VERDICTS])
        self.assertEqual(lines[9], "8 properties: 2 holds, 1 fails, 1 either, 2 unknown, 2 refused.")
        self.assertIn("Refused: a comma too many: ../tests/ask/logs/suite.properties, line 8, column 25: something else", text)
        self.assertIn("Warning: misspelt: a.pp (line 10, column 14) is false throughout", text)

    def test_in_json(self):
        status, text, _ = asked([*WORDS, "--json"], EXAMPLES)
        facts = json.loads(text)
        self.assertEqual((status, complaint("check --properties", facts)), (65, ""))
        self.assertEqual([(line["name"], line["verdict"], line["status"]) for line in facts["lines"]], list(VERDICTS))
        self.assertEqual([line["line"] for line in facts["lines"]], [2, 3, 4, 6, 7, 8, 9, 10])
        self.assertEqual(facts["counts"], {"holds": 2, "fails": 1, "either": 1, "unknown": 2, "refused": 2})
        self.assertEqual(facts["lines"][4]["sentence"], "False: G !b.q is false by every timing that apart.csv admits.")

    def test_the_worst_status_decides(self):
        statuses = (0, 4, 2, 1, 3, 65, 67, 124)  # each is worse than those before it
        for first, second in itertools.product(statuses, repeat=2):
            worst = statuses[max(statuses.index(first), statuses.index(second))]
            self.assertEqual(status_of([finding(0), finding(first), finding(second)]), worst, (first, second))

    def test_statuses_of_files(self):
        for text, status in (
            ("a: F a.req", 0), ("a: F a.req\nb: F[0,5] b.ack", 2), ("a: F[0,5] b.ack\nb: G a.req", 2), ("a: F[0,5] b.ack\nb: G b.req", 1),
            ("a: F c.p\nb: G b.req", 65), ("a: " + "! " * 300 + "a.req", 65), ("a: " + (EXAMPLES / "nodes_513.formula").read_text().replace("\n", " "), 67),
        ):
            self.assertEqual(self.asked_of(text, "answered.csv", "--quiet")[0], status, text[:60])

    def test_a_log_without_a_timing(self):
        status, text, _ = self.asked_of("a: F a.m\nb: true", "received_first.csv", "--junit", str(self.room / "j"))
        self.assertEqual(status, 3)
        self.assertTrue(text.startswith("No timing: received_first.csv admits none, since these bounds contradict each other.\n"))
        self.assertIn("2 properties: 2 no timing.", text)
        self.assertEqual([kind for _, kind, *_ in cases(self.room / "j")], ["error", "error"])

    def test_a_log_that_is_none(self):
        status, text, said = self.asked_of("a: true", "p.formula")
        self.assertEqual((status, text), (66, ""))
        self.assertIn("p.formula, line 1", said)

    def test_by_windows(self):
        for words in (["--windows"], []):
            status, text, _ = self.asked_of("a: G (a.req -> F[0,9] b.ack)\nb: G (a.req -> F[0,8] b.ack)\nc: F c.p", "answered.csv", *words)
            self.assertEqual(status, 65)
            self.assertIn("3 properties: 1 holds, 1 either, 1 refused.", text)

    def test_one_that_takes_too_long(self):
        slow = self.room / "slow"
        mark = self.room / "mark"
        slow.write_text(f'#!/bin/sh\ngrep -q S "$2" && : >{mark} && sleep 60\nexec {find_program(None)} "$@"\n')
        slow.chmod(0o755)
        words = ["--program", str(slow), "--seconds", "100", "--junit", str(self.room / "j")]
        with time_over_with(mark):
            status, text, _ = self.asked_of("a: F a.req\nb: a.req S a.req", "answered.csv", *words)
        self.assertEqual(status, 124)
        self.assertIn("2 properties: 1 holds, 1 stopped.", text)
        self.assertEqual([(kind, verdict) for _, kind, verdict, *_ in cases(self.room / "j")], [("", ""), ("error", "stopped")])

    def test_strict(self):
        text = "a: F a.req\nb: G !a.aksed"
        for words, status, kinds in (
            ([], 0, ["", ""]), (["--strict"], 65, ["", "error"]), (["--strict-for", "unset"], 65, ["", "error"]), (["--strict-for", "never"], 0, ["", ""]),
        ):
            junit = self.room / "j"
            self.assertEqual(self.asked_of(text, "answered.csv", "--junit", str(junit), *words)[0], status, words)
            self.assertEqual([kind for _, kind, *_ in cases(junit)], kinds, words)

    def test_runs_and_quiet(self):
        self.assertIn("runs of the program:", self.asked_of("a: F a.req\nb: true", "answered.csv", "--runs")[1])
        self.assertEqual(self.asked_of("a: F a.req", "answered.csv", "--quiet"), (0, "", ""))

    def test_the_formulas_alone_are_such_a_file(self):
        status, text, _ = self.asked_of("a: each{h in a, b: F h.req} # both\nlate: F[0,5ms] b.ack", "answered.csv", "--formula", "--unit", "us")
        self.assertEqual((status, text), (0, "a: F a.req & F b.req\nlate: F[0,5000] b.ack\n"))
        self.assertEqual(self.asked_of(text, "answered.csv", "--formula")[1], text)


def finding(status):
    """A finding with a status."""
    from ask.lines import Line

    wanted = Property("a", Source("f", b"true"), 1)
    is_refused = status in (65, 67)
    return Finding(wanted, None if is_refused else Line("a", "true", status), Trouble(status, "no") if is_refused else None, 0.0)


class Files(Room):
    def test_what_is_read(self):
        for text, names in (
            ("a: true\r\nb:true\rc : true", ["a", "b", "c"]), ("# a: true\n\n  \n b 1: true # b: false\n", ["b 1"]),
            ("9's über-all, a/b.c_d+e: true", ["9's über-all, a/b.c_d+e"]), ("a: each{h in a: h.p}", ["a"]),
        ):
            status, written, said = self.asked_of(text, "answered.csv", "--json")
            self.assertLess(status, 4, said)
            self.assertEqual([line["name"] for line in json.loads(written)["lines"]], names)

    def test_what_is_refused(self):
        for text, said in (
            ("", "suite has no property: it has lines NAME: FORMULA"), ("# nothing\n", "has no property"), ("\nG a.req", "line 2: a line is NAME: FORMULA, and 'G a.req' is no name"),
            ("each{h in a: h.p}", "line 1: a line is NAME: FORMULA, and 'each{h in a' is no name"), (": true", "line 1: a line is NAME: FORMULA, and '' is no name"),
            ("a:\n", "line 1: a has no formula behind its colon"), ("a: # true\n", "a has no formula"), ("a: true\nb: true\na: false", "line 3: a is the name of line 1 too"),
            (b"\xff\xfea\x00", "UTF-16"), ("\ufeffa: true\n", "byte order mark"), ("a" * 201 + ": true", "is no name"),
        ):
            status, written, told = self.asked_of(text)
            self.assertEqual((status, written), (65, ""), text)
            self.assertIn(said, told)

    def test_words(self):
        suite = self.suite("a: true")
        for words, status, said in (
            (["check", "true", "answered.csv", "--properties", suite], 64, "beside it stands the log alone"),
            (["check", "--properties", suite], 64, "required: LOG"), (["check", "true"], 64, "required: LOG"),
            (["check", "true", "answered.csv", "--junit", "x"], 64, "--junit is for --properties"),
            (["check", "answered.csv", "--properties", suite, "--report", "x"], 64, "--report is for one formula"),
            (["check", "answered.csv", "--properties", suite, "--keep", "x"], 64, "--keep is for one formula"),
            (["check", "answered.csv", "--properties", suite, "--all"], 64, "--all is for one formula"),
            (["check", "answered.csv", "--properties", suite, "--as-found"], 64, "--as-found is for one formula"),
            (["check", "answered.csv", "--properties", suite, "--junit", "-"], 64, "--junit names a file"),
            (["check", "answered.csv", "--properties", suite, "--junit", "missing/x"], 75, "missing/x can't be written"),
            (["check", "answered.csv", "--properties", "missing"], 74, "missing can't be read"),
            (["check", "-", "--properties", "-"], 64, "which can be read once"),
        ):
            ended, _, told = asked(words, EXAMPLES)
            self.assertEqual(ended, status, words)
            self.assertIn(said, told)
        for words in (["check", "answered.csv", "--properties", suite], ["check", "--properties", suite, "--strict", "answered.csv"]):
            self.assertEqual(asked(words, EXAMPLES)[0], 0, words)
        self.assertEqual(asked(["check", "answered.csv", "--properties", "-"], EXAMPLES, b"a: true")[0], 0)


def cases(path):
    """The tests of a JUnit file: the name, the kind of what is wrong, its word, its message and its text."""
    suites = trees.parse(path).getroot()
    assert (suites.tag, [suite.tag for suite in suites]) == ("testsuites", ["testsuite"])
    found = []
    for case in suites[0]:
        wrong = [part for part in case if part.tag != "system-out"]
        assert case.tag == "testcase" and len(wrong) < 2 and float(case.get("time")) >= 0
        kind, verdict = (wrong[0].tag, wrong[0].get("type")) if wrong else ("", "")
        message, text = (wrong[0].get("message"), wrong[0].text) if wrong else ("", "")
        found.append((case.get("name"), kind, verdict, message, text))
    return found


class JUnit(Room):
    def test_each_kind(self):
        path = self.room / "tests.xml"
        self.assertEqual(asked([*WORDS, "--junit", str(path)], EXAMPLES)[0], 65)
        found = cases(path)
        self.assertEqual([(name, kind) for name, kind, *_ in found], [(name, KINDS[verdict]) for name, verdict, _ in VERDICTS])
        self.assertEqual([verdict for *_, verdict, _, _ in found if verdict], [verdict for _, verdict, _ in VERDICTS if KINDS[verdict]])
        suite = trees.parse(path).getroot()[0]
        self.assertEqual([suite.get(key) for key in ("name", "tests", "failures", "errors", "skipped")], ["apart.csv", "8", "2", "4", "0"])
        self.assertEqual({case.get("classname") for case in suite}, {"suite"})
        messages = {name: message for name, _, _, message, _ in found}
        self.assertEqual(messages["no q"], "False: G !b.q is false by every timing that apart.csv admits.")
        self.assertTrue(messages["p before q"].startswith("Unknown: !b.q U a.p can be "))
        refused = next(text for name, *_, text in found if name == "a comma too many")
        self.assertEqual(refused.split("\n")[1:], ["  a comma too many: F (a.p, b.q)", " " * 26 + "^"])
        warned = next(case for case in suite if case.get("name") == "misspelt")
        self.assertTrue(warned.find("system-out").text.startswith("Warning: a.pp (line 10, column 14) is false throughout"))

    def test_foreign_letters(self):
        text = junit_text("a\x1b<.x", 'l"\x00&', [Case("n<&>\x07", 0.0, "error", "refused", "s\x00\ud800\n\x1b[31m", ["w\x01"])])
        suite = trees.fromstring(text.encode())[0]
        self.assertEqual((suite.get("name"), suite[0].get("name")), ('l"\\x00&', "n<&>\\x07"))
        self.assertEqual(suite[0][0].text, "s\\x00\\ud800\n\\x1b[31m")


if __name__ == "__main__":
    unittest.main()
