"""benches/second.py: which reports count as accepted, and the rows of its table."""

import sys
import unittest
from unittest import mock

from room import ROOT

sys.dont_write_bytecode = True  # leaves no compiled files beside the sources
sys.path.insert(0, str(ROOT / "benches"))

import check
import second
from check import Taken

REPORT = b"skewcheck 1\nevents 1\ntrue witness\n8\nfalse refuted 0\nend\n"
SAYS = "accepted: false is excluded, true has a timing"


def judged(status, says, seconds=1.0):
    """A report of which the second checker says so."""
    return second.Judged(REPORT, Taken(0, 0.25, 0, REPORT), Taken(status, seconds, 2 * check.MEBIBYTE, says.encode() + b"\n"))


class Reports(unittest.TestCase):
    def test_which_are_accepted(self):
        for status, says, is_accepted in (
            (0, SAYS, True), (5, "refused true at line 3", False), (0, "", False), (-9, SAYS, False), (70, "", False),
        ):
            with self.subTest(status=status, says=says):
                self.assertEqual(judged(status, says).is_accepted(), is_accepted)

    def test_row_of_one(self):
        row = second.row_of("leases", 1, [judged(0, SAYS)])
        self.assertEqual(row.split(maxsplit=7), ["leases", "1", "6", "56", "0.250", "1.000", "2.0", SAYS])

    def test_row_of_some(self):
        found = [judged(5, "refused events at line 0", 0.5), judged(0, SAYS, 2), judged(0, SAYS, 3), judged(-9, SAYS, 600)]
        row = second.row_of("by chance", 4, found)
        said = f"2 {SAYS}; refused events at line 0; stopped"
        self.assertEqual(row.split(maxsplit=8), ["by", "chance", "4", "24", "224", "1.000", "605.500", "2.0", said])

    def test_none_where_check_writes_no_report(self):
        asked = check.Asked("program", "folder", 60, False)
        for status in (66, 67, -9):
            with mock.patch.object(check, "taken", return_value=Taken(status, 0.0, 0, b"")), mock.patch.object(second, "Path"):
                self.assertIsNone(second.judged(b"true", b"", asked))


if __name__ == "__main__":
    unittest.main()
