"""A folder of a test's own: a repository in `top`, commands that stand in for others in `bin`, and `tmp`."""

import os
import tempfile
import unittest
from pathlib import Path

ROOT = Path(__file__).resolve().parents[2]
PATIENCE = 30


class WithRoom(unittest.TestCase):
    def setUp(self):
        room = tempfile.TemporaryDirectory()
        self.addCleanup(room.cleanup)
        self.room = Path(room.name)
        self.top = self.room / "top"
        self.tmp = self.room / "tmp"
        for folder in (self.top, self.tmp, self.room / "bin"):
            folder.mkdir()
        path = f"{self.room}/bin:{os.environ['PATH']}"
        self.environment = {**os.environ, "PATH": path, "TMPDIR": str(self.tmp), "CALLS": str(self.room / "calls")}
