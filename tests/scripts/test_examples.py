"""tests/examples: which commands of pages count as refused, and that pages without commands or links are found; the words of
examples/join_logs.py."""

import io
import sys
import tempfile
import unittest
from contextlib import redirect_stdout
from pathlib import Path
from unittest import mock

from room import ROOT

sys.dont_write_bytecode = True  # leaves no compiled files beside the sources
sys.path[:0] = [str(ROOT / "tests" / "examples"), str(ROOT / "examples")]

import examples
import join_logs


def differences(commands):
    """What differs where the pages show these commands, each with what stands below it."""
    with tempfile.TemporaryDirectory() as folder:
        page = Path(folder, "page.md")
        page.write_text("".join(f"```sh\n$ {command}\n{below}```\n" for command, below in commands))
        with mock.patch.object(examples, "pages", return_value=[page]), redirect_stdout(io.StringIO()):
            return list(examples.differences_of_pages("/bin/false"))


class Pages(unittest.TestCase):
    def test_commands(self):
        """Of which one that is misspelt is found also where nothing is shown."""
        for command, below, said in (
            ("cat /dev/null", "", None), ("cat /dev/null; exit 6", "", None), ("cat /dev/null; echo 7", "8\n", "it writes '7\\n', not '8\\n'"),
            ("cat /dev/null; exit 64", "", "it ends with 64"), ("cat /dev/null; kill -9 $$", "", "it ends with -9"),
            ("cat /dev/null; no_such_command", "", "it ends with 127"), ("cat /dev/null; echo no >&2; exit 65", "", "it ends with 65"),
            ("{ cat /dev/null; echo no >&2; exit 65; } 2>&1", "no\n", None), ("cat /dev/null; echo refused words; exit 64", "refused words\n", None),
        ):
            with self.subTest(command=command):
                found = differences([(command, below)])
                self.assertEqual(len(found), int(said is not None), found)
                self.assertIn(said or "", "".join(found))

    def test_no_commands(self):
        self.assertEqual(differences([]), ["no page shows a command that is run"])
        self.assertEqual(differences([("true", "")]), ["no page shows a command that is run"])

    def test_no_links(self):
        with mock.patch.object(examples, "pages", return_value=[]), mock.patch.object(Path, "read_text", return_value=""):
            self.assertEqual(list(examples.differences_of_links()), ["the pages have 0 links"])


class Joining(unittest.TestCase):
    def test_latencies(self):
        for words in (["--latency", "b,5,9"], ["--latency", "b=5,9"]):
            self.assertEqual(join_logs.words_of(["l", *words, "m,n"]), ["log", "l", "--latency", "b=5,9", "m,n"])
        for word in ("--latency=b,5,9", "--latency=b=5,9"):
            self.assertEqual(join_logs.words_of(["l", word]), ["log", "l", "--latency=b=5,9"])
        self.assertEqual(join_logs.words_of(["l,m,n", "--latency"]), ["log", "l,m,n", "--latency"])


if __name__ == "__main__":
    unittest.main()
