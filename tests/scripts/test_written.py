"""Files of docs that scripts write from the code are as these scripts write them."""

import subprocess
import sys
import unittest

from room import PATIENCE, ROOT

WRITTEN = {
    "docs/clauses.txt": ("tests/clauses/print", "--promised"),
    "docs/wrong-bodies.txt": ("tests/wrong/run", "--list"),
}


class Written(unittest.TestCase):
    def test_files(self):
        for name, (script, *words) in WRITTEN.items():
            with self.subTest(name=name):
                done = subprocess.run(
                    [sys.executable, ROOT / script, *words], stdin=subprocess.DEVNULL, capture_output=True, text=True,
                    timeout=PATIENCE, check=True,
                )
                stands = (ROOT / name).read_text() == done.stdout
                self.assertTrue(stands, f"{name} isn't what {script} writes: {' '.join([script, *words])} > {name}")


if __name__ == "__main__":
    unittest.main()
