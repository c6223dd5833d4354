"""The cases of tests/hostile: each field of a case has what it is for, since a run compares only what it finds there."""

import os
import sys
import unittest
from numbers import Real
from pathlib import Path

sys.dont_write_bytecode = True  # leaves no compiled files beside the sources
sys.path.insert(0, str(Path(__file__).resolve().parents[1] / "hostile"))

import hostile
from case import Case

KINDS = {
    "kind": str, "title": str, "words": list, "files": dict, "statuses": tuple, "line": (bytes, type(None)),
    "most": (int, type(None)), "seconds": (Real, type(None)), "text": (bytes, type(None)), "judged": bool, "is_search": bool,
}


class Runner:
    """Stands in for what runs the program: it has written a report, and each audit of it is accepted."""

    def __init__(self):
        self.output = Path(os.devnull)

    def outcome(self, words, files):
        self.asked = words
        return hostile.Outcome(0, b"accepted", 0.0, 0)


class Cases(unittest.TestCase):
    def test_fields(self):
        count = 0
        for case in hostile.all_cases(with_longest=False):
            count += 1
            wrong = [name for name, value in case._asdict().items() if not isinstance(value, KINDS[name])]
            self.assertEqual((wrong, all(isinstance(status, int) for status in case.statuses)), ([], True), case.title)
            self.assertLess(case.seconds or 0, hostile.SECONDS, case.title)  # a longer run is stopped
        self.assertGreater(count, 20_000)

    def test_searches_that_are_stopped(self):
        files = {"l": b"l", "f": b"four"}
        search = Case("size", "", ["check", "f", "l"], files, (0,), b"skewcheck 1", most=100, is_search=True)
        for case, status, held, said in (
            (search, hostile.STOPPED, 400, ""), (search, hostile.STOPPED, 401, "it takes 401 bytes"),
            (search, 1, 400, "status 1, not 0"), (search._replace(is_search=False), hostile.STOPPED, 400, f"status {hostile.STOPPED}, not 0"),
        ):
            with self.subTest(status=status, held=held):
                found = hostile.complaint(case, hostile.Outcome(status, b"", 20.0, held))
                self.assertEqual(found[: len(said) or None], said)

    def test_audits_have_the_conflicts_of_the_check(self):
        words = [case.words for case in hostile.sizes.cases()]
        self.assertEqual({tuple(some) for some in words}, {("check", "--conflicts", "1", "f", "l"), ("check", "f", "l")})
        for some in words[0], ["check", "f", "l"]:
            runner = Runner()
            self.assertEqual(hostile.audit_complaint(runner, Case("size", "", some, {}, (0,), None)), "")
            self.assertEqual(runner.asked, ["audit", *some[1:], "r"])


if __name__ == "__main__":
    unittest.main()
