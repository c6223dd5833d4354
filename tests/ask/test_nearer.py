"""Shifts are taken back until none is left that can go, and where the runs for that are spent it is said."""

import json
import unittest
from unittest import mock

from common import ROOT, asked

from ask.logs import read_log
from ask.nearer import Nearer, brought_nearer
from ask.program import Program, find_program
from ask.question import Question
from ask.texts import Source

EXAMPLES = ROOT / "examples"
LOG = (
    b"kind,host,time,name\nhost,a,5,1\nhost,b,5,1\nhost,c,0,1\n"
    b"note,a,10,n\nnote,a,11,n\nnote,a,12,n\nset,b,20,p\nset,c,24,q\n"
)
ENDED = "bringing it nearer to the stamps was ended after 2 runs: shifts may be left that nothing needs"


class NearerTimings(unittest.TestCase):
    def test_rows_that_go_back_one_after_another(self):
        # The last note has to go back before those that are before it, and the row of b has to stay where it is.
        question = Question(Program(find_program(None)), Source("f", b"F (c.q & !b.p)"), Source("l", LOG))
        found = brought_nearer(question, read_log(LOG), [5, 6, 7, 25, 24], True)
        self.assertEqual(found, Nearer([10, 11, 12, 25, 24]))

    def test_the_end_of_the_runs_is_said(self):
        with mock.patch("ask.nearer.MOST_RUNS", 2):
            _, text, _ = asked(["check", "within_7999.formula", "checkout.csv"], EXAMPLES)
            self.assertIn(f"\n  {ENDED}\n", text)
            _, text, _ = asked(["check", "within_7999.formula", "checkout.csv", "--json"], EXAMPLES)
            self.assertIn(ENDED, json.loads(text)["remarks"])
            _, text, _ = asked(["tolerance", "false", "lease.formula", "lease_stamps.csv"], EXAMPLES)
            self.assertIn(f"\n  {ENDED}\n", text)
            _, _, said = asked(["draw", "checkout.csv", "--formula", "within_7999.formula"], EXAMPLES)
            self.assertEqual(said, f"ask: {ENDED}\n")
            _, text, _ = asked(["check", "within_7999.formula", "checkout.csv", "--as-found"], EXAMPLES)
            self.assertNotIn("was ended", text)


if __name__ == "__main__":
    unittest.main()
