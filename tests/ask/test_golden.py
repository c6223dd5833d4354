"""The runs of golden/runs.txt write what is kept there. With KEEP=1 in the environment they are kept anew."""

import os
import shlex
import unittest
from pathlib import Path

from common import ROOT, asked

GOLDEN = Path(__file__).resolve().parent / "golden"


def runs():
    """The words, the status and the file of each run."""
    for line in (GOLDEN / "runs.txt").read_text().splitlines():
        if line and not line.startswith("#"):
            words, status, name = line.rsplit(" | ", 2)
            yield shlex.split(words), int(status), GOLDEN / name


class Golden(unittest.TestCase):
    def test_runs(self):
        for words, status, kept in runs():
            with self.subTest(words=" ".join(words)):
                ended, text, said = asked(words, ROOT / "examples")
                self.assertEqual(ended, status, said)
                if os.environ.get("KEEP"):
                    kept.write_text(text)
                self.assertEqual(text, kept.read_text())


if __name__ == "__main__":
    unittest.main()
