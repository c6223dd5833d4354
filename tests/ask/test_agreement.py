"""A few questions of agreement.py of each command, or as many as CASES in the environment says."""

import random
import unittest
from collections import Counter

import agreement
from common import cases_asked

CASES = cases_asked(12)
SEED = 38


class Agreement(unittest.TestCase):
    def test_answers_are_so(self):
        for command in agreement.COMPLAINTS:
            with self.subTest(command=command):
                self.assertEqual(list(agreement.differences(command, CASES, SEED)), [])

    def test_what_a_deadline_has_to_be(self):
        # By hand: of the numbers 0 to 9 and 10^18 those that will do, and what is to be said.
        far = agreement.MOST_NUMBER
        tried = [*range(10), far]
        for good, most, which, number, least, greatest in (
            (tried, far, "any", None, 0, None), (tried[:-1], 9, "any", None, 0, 9), (tried[4:], far, "least", 4, 4, None),
            (tried[:3], far, "greatest", 2, 0, 2),
        ):
            right = agreement.deadline_facts(tried if most == far else tried[:-1], good, most)
            said = (right["which"], right.get("number"), right["least"], right["greatest"])
            self.assertEqual(said, (which, number, least, greatest))
        self.assertEqual(agreement.deadline_facts(tried, [], far)["status"], 1)

    def test_what_deadlines_are_asked_for(self):
        rights = [agreement.deadline_right(*agreement.deadline_question(random.Random(f"{SEED} deadline {place}"))) for place in range(CASES)]
        counts = Counter(right.get("which", right["status"]) for right in rights)
        self.assertGreaterEqual(min(counts["least"], counts["greatest"]), CASES // 6, counts)

    def test_which_deadlines_are_refused(self):
        for template, is_mixed in (
            (b"F[0,?] a.p", False), (b"G[0,?] a.p", False), (b"F[0,?] G[0,?] a.p", True), (b"F[0,?] !G[0,?] a.p", False),
            (b"F[?,9] a.p & F[0,?] a.q", True), (b"F[?,9] a.p & H[ 0 , ? ] a.q", False), (b"F[0,?] a.p -> G[0,?] a.q", False),
            (b"F[0,?] a.p -> O[3,?] a.q", True), (b"a.p U[0,?] F[?,inf] a.q", True), (b"a.p S[?,5] (G[1,4] a.q -> a.p)", False),
        ):
            self.assertEqual(agreement.is_mixed(template), is_mixed, template)

    def test_which_numbers_fit(self):
        for template, least, most in (
            (b"F[0,?] a.p", 0, agreement.MOST_NUMBER), (b"F[ 5 , ? ] a.p", 5, agreement.MOST_NUMBER), (b"F[1,2] G[?,9] a.p", 0, 9),
            (b"G[?,inf] F[3,4] a.p", 0, agreement.MOST_NUMBER),
        ):
            self.assertEqual(agreement.fitting(template), (least, most), template)


if __name__ == "__main__":
    unittest.main()
