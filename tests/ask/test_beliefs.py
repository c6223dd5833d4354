"""Where whoever asks could believe what isn't so: strict words, deadlines without an end, logs that admit no timing."""

import json
import subprocess
import tempfile
import unittest
from pathlib import Path

from common import PATIENCE, ROOT, asked

from ask.program import find_program

EXAMPLES = ROOT / "examples"
MISSPELT = "G (web.aksed -> F[0,5000] pay.done)"


def ended(*words, folder=EXAMPLES):
    """The status with which words end."""
    return asked(list(words), folder)[0]


class Strict(unittest.TestCase):
    def test_each_command_takes_the_words(self):
        deadline = ["deadline", "G (web.aksed -> F[0,?] pay.done)", "checkout.csv"]
        tolerance = ["tolerance", "false", MISSPELT, "checkout.csv"]
        each = ["each", "F web.{}", "checkout.csv", "--over", "shown"]
        draw = ["draw", "checkout.csv", "--formula", MISSPELT]
        check = ["check", MISSPELT, "checkout.csv"]
        for words, status, kinds in (
            (check, 0, ("unset", "never")), (deadline, 0, ("unset", "never")), (tolerance, 1, ("unset", "never")),
            (each, 1, ("no-proposition", "end")), (draw, 0, ("unset", "never")),
        ):
            self.assertEqual(ended(*words), status, words)
            self.assertEqual(ended(*words, "--strict"), 65, words)
            for kind in ("unset", "no-proposition", "never", "end", "unasked"):
                self.assertEqual(ended(*words, "--strict-for", kind), 65 if kind in kinds else status, (words, kind))
            self.assertEqual(ended(*words, "--strict-for", "what"), 64, words)

    def test_what_is_right_keeps_its_status(self):
        for words, status in (
            (["check", "within_8000.formula", "checkout.csv"], 0), (["deadline", "G (web.asked -> F[0,?] pay.done)", "checkout.csv"], 0),
            (["tolerance", "false", "within_9.formula", "answered.csv"], 0), (["each", "F[0,5] {1}.{2}", "answered.csv", "--over", r"(\w+)\.(\w+)"], 2),
            (["between", "checkout.csv", "0", "3"], 0), (["between", "circle.csv", "0", "1"], 3), (["draw", "checkout.csv"], 0),
            (["deadline", "F[0,?] a.x", "received_first.csv"], 3), (["each", "F a.{}", "received_first.csv", "--over", ".*"], 3),
        ):
            self.assertEqual(ended(*words, "--strict"), status, words)
        self.assertEqual(ended("deadline", "F[0,?] c.x", "answered.csv", "--strict"), 65)

    def test_an_end_that_a_log_has_is_warned_of(self):
        # That req holds up to 5 after the end is so only since no row comes later: with rows it might be cleared.
        for words in (["deadline", "G[0,?] a.req"], ["draw", "--formula", "G[0,20] a.req"], ["tolerance", "true", "G[0,20] a.req"]):
            self.assertEqual(ended(*words, "answered.csv", "--strict-for", "end"), 65, words)
        self.assertEqual(ended("each", "G[0,20] a.{}", "answered.csv", "--over", "req", "--strict-for", "end"), 65)

    def test_a_log_that_only_greater_skews_let_have_a_timing(self):
        # In impossible.csv m is received 5 before it was sent, by clocks that are off by 2: with 3 it fits.
        for formula, status in (("G (a.req -> F[0,100] b.ack)", 1), ("G (a.rqe -> F[0,100] b.ack)", 65)):
            words = ["tolerance", "false", formula, "requests/impossible.csv", "--up-to", "2", "--strict", "--json"]
            found, text, _ = asked(words, EXAMPLES)
            self.assertEqual((found, "conflicts" in text), (status, False))
        self.assertEqual([warning["kind"] for warning in json.loads(text)["warnings"]], ["unset"])

    def test_what_the_program_is_asked(self):
        text = asked(["deadline", "G (web.aksed -> F[0,?] pay.done)", "checkout.csv", "--json", "--strict"], EXAMPLES)[1]
        warnings = json.loads(text)["warnings"]
        self.assertEqual([warning["kind"] for warning in warnings], ["unset", "never"])
        self.assertEqual(warnings[1]["run"], "check 'F (web.aksed)' checkout.csv")
        self.assertIn("web.aksed (line 1, column 4)", warnings[0]["sentence"])


class Reports(unittest.TestCase):
    def kept(self, words, status):
        """The report that check keeps, or None."""
        with tempfile.TemporaryDirectory() as folder:
            report = Path(folder, "report")
            self.assertEqual(ended("check", *words, "--report", str(report)), status)
            return report.read_bytes() if report.exists() else None

    def test_the_report_of_the_program_is_kept(self):
        for words, status in (
            (["within_9.formula", "answered.csv"], 0), (["within_8.formula", "answered.csv"], 2), (["p.formula", "received_first.csv"], 3),
        ):
            done = subprocess.run([find_program(None), "check", *words], cwd=EXAMPLES, capture_output=True, timeout=PATIENCE)
            self.assertEqual((self.kept(words, status), done.returncode), (done.stdout, status))
        self.assertIsNotNone(self.kept([MISSPELT, "checkout.csv", "--strict"], 65))

    def test_a_refused_question_leaves_none(self):
        self.assertIsNone(self.kept(["c.p", "answered.csv"], 65))
        self.assertIsNone(self.kept(["a.req", "p.formula"], 66))
        self.assertEqual(ended("check", "a.req", "answered.csv", "--report", "missing/report"), 75)
        self.assertEqual(ended("check", "a.req", "answered.csv", "--report", "-"), 64)


class Deadlines(unittest.TestCase):
    def test_sentences(self):
        # In answered.csv req is set at 8 to 12 and ack at 13 to 17: at most 9 apart, and at least 1.
        for template, status, sentence in (
            ("G[0,?] a.req", 0, "Any number will do: {} is true by every timing with each of them, and there is no greatest one."),
            ("G[5,?] a.req", 0, "Any number from 5 on will do: {} is true by every timing with each of them, and there is no greatest one."),
            ("G[?,inf] b.ack", 0, "1 is the least number with which {} is true by every timing."),
            ("F[0,?] a.req", 0, "Any number, 0 included, will do: {} is true by every timing with each of them, and 0 is the least."),
            ("F[0,?] b.ack", 0, "9 is the least number with which {} is true by every timing."),
            ("F[?,9] a.req", 0, "1 is the greatest number with which {} is true by every timing."),
            ("F[?,9] b.ack", 0, "1 is the greatest number with which {} is true by every timing."),
            ("F[?,8] b.ack", 1, "None: {} isn't true by every timing with any number in place of `?`."),
            ("G[?,9] a.req", 0, "Any number from 0 to 9 will do: {} is true by every timing with each of them, and with others an interval would end before it begins."),
            ("F[20,?] b.ack", 1, "None: {} isn't true by every timing with any number in place of `?`."),
            ("G[20,?] b.ack", 0, "Any number from 20 on will do: {} is true by every timing with each of them, and there is no greatest one."),
            ("F (b.ack & O[0,?] (a.req & !b.ack))", 0, "9 is the least number with which {} is true by every timing."),
            ("F (b.ack & H[0,?] b.ack)", 0, "0 is the greatest number with which {} is true by every timing."),
            ("a.req U[0,?] b.ack", 0, "9 is the least number with which {} is true by every timing."),
            ("F (a.req S[?,inf] !b.ack)", 0, "1 is the greatest number with which {} is true by every timing."),
            ("!F[0,?] !a.req", 0, "Any number will do: {} is true by every timing with each of them, and there is no greatest one."),
        ):
            status_found, text, said = asked(["deadline", template, "answered.csv"], EXAMPLES)
            self.assertEqual((status_found, text.splitlines()[0]), (status, sentence.format(template)), said)

    def test_a_check_that_leaves_a_value_open(self):
        # Of either value a check may tell alone that some timing has it: whether it can be false, or true, is open then.
        for found, status, said in (
            ("true witness\n1\n2\nfalse unknown 0", 4, "true by some timing, and whether it can be false wasn't found"),
            ("true unknown 0\nfalse witness\n1\n2", 1, "false by some timing"),
        ):
            status_found, text = self.answer_of_reports(found, "F[0,?] a.req")
            self.assertEqual((status_found, text.splitlines()[1]), (status, f"  10: {said} [check 'F[0,10] a.req' answered.csv]"))

    def answer_of_reports(self, found, template):
        """The status and the lines for people where each check ends with 4 and a report of these sections."""
        with tempfile.TemporaryDirectory() as folder:
            program = Path(folder, "program")
            program.write_text(f"#!/bin/sh\nprintf 'skewcheck 1\\nevents 2\\n'\necho '{found}\nend'\nexit 4\n")
            program.chmod(0o755)
            return asked(["deadline", template, "answered.csv", "--program", str(program)], EXAMPLES)[:2]

    def test_numbers_above_every_distance(self):
        with tempfile.TemporaryDirectory() as folder:
            Path(folder, "l").write_text(f"kind,host,time,name\nhost,a,0,0\nset,a,-{4 * 10**18},p\nset,a,{4 * 10**18},q\n")
            text = asked(["deadline", "G[0,?] a.p", "l", "--json"], folder)[1]
            facts = json.loads(text)
            self.assertEqual([facts[key] for key in ("which", "number", "least", "greatest")], ["any", None, 0, None])
            self.assertEqual(facts["statuses"], {str(10**18): 0})
            self.assertEqual(ended("deadline", "F[0,?] a.q", "l", folder=folder), 1)  # 8*10^18 apart, and no interval says so

    def test_marks_that_are_no_bounds(self):
        for template in ("a.req?", "F[0,1?] a.req", "F[0,?]?", "? a.req", "F[0,?] a.r?q", "F[?] a.req", "F(0,?) a.req", "F[0,??] a.req"):
            status, _, said = asked(["deadline", template, "answered.csv"], EXAMPLES)
            self.assertEqual(status, 65, template)
            self.assertIn(f"column {template.replace('F[0,?]', '------').index('?') + 1}: this `?` is no bound of an interval", said)
        for template, words in (("!" * 5000 + "F[0,?] a.req", "200 levels"), ("F[0,?] a.", "ends too early"), ("F[0,?] (a.req", "ends too early")):
            self.assertIn(words, asked(["deadline", template, "answered.csv"], EXAMPLES)[2])


class NoTiming(unittest.TestCase):
    def test_each_says_that_there_is_none(self):
        for formula in ("F a.{}", "F a.x & a.{}", "G (a.y -> a.{})"):
            status, text, _ = asked(["each", formula, "received_first.csv", "--over", ".*"], EXAMPLES)
            self.assertEqual(status, 3)
            self.assertTrue(text.startswith("No timing: received_first.csv admits none, since these bounds contradict each other.\n"))
            self.assertIn("Together they ask for 1 more than there is.\n", text)
            self.assertIn("1 formula: 1 no timing.\n", text)
            self.assertNotIn("Warning", text)
            self.assertNotIn("conflicts", text)

    def test_each_as_json(self):
        text = asked(["each", "F a.{}", "circle.csv", "--over", ".*", "--json"], EXAMPLES)[1]
        facts = json.loads(text)
        self.assertEqual({line["verdict"] for line in facts["lines"]} | {facts["status"]}, {"no timing", 3})
        self.assertEqual(len(facts["contradiction"]), 4)


if __name__ == "__main__":
    unittest.main()
