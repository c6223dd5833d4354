"""The commands of pages with ask write what stands below them, and pictures are what the commands draw."""

import os
import re
import subprocess
import sys
import unittest

from common import PATIENCE, ROOT

from ask.program import find_program

PAGES = ("README.md", "docs/asking.md", "docs/real-logs.md")


def shown_commands(page):
    """The commands with ask of the shell blocks of a page, each with what stands below it."""
    for block in re.findall(r"^```sh\n(.*?)^```$", (ROOT / page).read_text(), re.M | re.S):
        for part in re.split(r"^\$ ", block, flags=re.M)[1:]:
            command, _, below = part.partition("\n")
            if "./ask/ask" in command:
                yield command, below


class Pages(unittest.TestCase):
    def test_commands(self):
        for command, below in [shown for page in PAGES for shown in shown_commands(page)]:
            with self.subTest(command=command):
                shown, _, kept = command.partition(" > ") if command.endswith(".svg") else (command, "", "")
                done = subprocess.run(
                    ["bash", "-c", shown.replace("./ask/ask", f"{sys.executable} -B ask/ask")], cwd=ROOT, text=True,
                    stdin=subprocess.DEVNULL, stdout=subprocess.PIPE, timeout=PATIENCE,
                    env={**os.environ, "COLUMNS": "80", "SKEWCHECK": find_program(None)},
                )
                self.assertEqual(done.stdout, (ROOT / kept).read_text() if kept else below)


if __name__ == "__main__":
    unittest.main()
