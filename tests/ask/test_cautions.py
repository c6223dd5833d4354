"""A proposition that no row sets is warned of by each command that takes a formula, by the log alone."""

import json
import unittest

from common import ROOT, asked

EXAMPLES = ROOT / "examples"
ASKED = ("unset", "web.aksed (line 1, column 4) is false throughout: no row sets it. Rows of web set asked")
DONE = ("unset", "pay.doen (line 1, column 24) is false throughout: no row sets it. Rows of pay set done")
SHOWN = ("no-proposition", "web.shown (line 1, column 4) is false throughout: shown is the name of a note (line 10), "
         "and only rows of the kinds set, clear and pulse make propositions")


class Cautions(unittest.TestCase):
    def test_what_is_warned_of(self):
        for words, status, wanted in (
            (["deadline", "G (web.aksed -> F[0,?] pay.done)"], 0, [ASKED]),
            (["deadline", "G (web.asked -> F[0,?] pay.doen)"], 1, [DONE]),
            (["deadline", "G (web.aksed -> F[0,?] pay.doen)"], 0, [ASKED, DONE]),
            (["deadline", "G (web.shown -> F[0,?] pay.done)"], 0, [SHOWN]),
            (["deadline", "G (web.asked -> F[0,?] pay.done)"], 0, []),
            (["tolerance", "false", "G (web.aksed -> F[0,5000] pay.done)"], 1, [ASKED]),
            (["tolerance", "true", "G (web.aksed -> F[0,8] pay.doen)"], 0, [ASKED, DONE]),
            (["tolerance", "false", "G (web.asked -> F[0,8000] pay.done)"], 0, []),
            (["draw", "--formula", "G (web.aksed -> F[0,5] pay.done)"], 0, [ASKED]),
            (["draw", "--formula", "F web.asked"], 0, []),
            (["draw"], 0, []),
        ):
            with self.subTest(words=words):
                self.compare([*words, "checkout.csv"], status, wanted)

    def compare(self, words, status, wanted):
        """Asserts how words end, and what is warned of, for people and for programs."""
        ended, text, said = asked([*words, "--json"], EXAMPLES)
        facts = json.loads(text)
        self.assertEqual(ended, status, said)
        self.assertEqual([(warning["kind"], warning["sentence"]) for warning in facts["warnings"]], wanted)
        self.assertFalse([run for run in facts["runs"] if run["words"].startswith("check 'F ")])
        _, text, said = asked(words, EXAMPLES)
        shown = said if words[0] == "draw" else text
        for kind, sentence in wanted:
            self.assertIn(f"Warning ({kind}): {sentence}.\n", shown)

    def test_check_names_the_run_that_shows_it(self):
        _, text, _ = asked(["check", "G (web.aksed -> F[0,5] pay.done)", "checkout.csv"], EXAMPLES)
        self.assertIn(f"Warning (unset): {ASKED[1]}. [check 'F web.aksed' checkout.csv]\n", text)

    def test_a_value_for_want_of_later_rows(self):
        # The formula has no interval of its own: its F goes on to the end of the log.
        _, text, _ = asked(["check", "F web.done", "checkout.csv"], EXAMPLES)
        self.assertIn((
            "Warning (end): the formula is false only for want of rows after the last one (line 10): an F, G or U looks beyond "
            "it, and if what comes there counted for the other value, the formula couldn't be false. Later rows might change it"
        ), text)

    def test_no_timing_has_no_warning(self):
        for words in (["deadline", "F[0,?] a.x"], ["tolerance", "true", "F a.x"], ["check", "F a.x"]):
            ended, text, said = asked([*words, "received_first.csv"], EXAMPLES)
            self.assertEqual((ended, "Warning" in text), (3, False), said)


if __name__ == "__main__":
    unittest.main()
