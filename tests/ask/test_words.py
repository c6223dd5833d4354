"""The words that all commands have: quiet answers, versions, progress; and files in other encodings."""

import contextlib
import io
import json
import os
import shutil
import subprocess
import tempfile
import unittest
from pathlib import Path

from common import ROOT, asked, asked_apart

from ask.main import main
from ask.program import find_program
from ask.version import Origin, origin_of

EXAMPLES = ROOT / "examples"
COMMANDS = (
    (["check", "within_8.formula", "answered.csv"], 2), (["deadline", "G (a.req -> F[0,?] b.ack)", "answered.csv"], 0),
    (["between", "answered.csv", "0", "1"], 0), (["tolerance", "false", "within_9.formula", "answered.csv"], 0),
    (["each", "F a.{}", "answered.csv", "--over", ".*"], 1), (["log", "cleared_and_pulsed.csv", "--skew", "1"], 0), (["draw", "answered.csv"], 0),
)


class Terminal(io.StringIO):
    """A stream that says it is a terminal, and makes a file, where one is named, as soon as something is written."""

    def __init__(self, mark=None):
        super().__init__()
        self.mark = mark

    def isatty(self):
        return True

    def write(self, text):
        if self.mark is not None:
            self.mark.touch()
        return super().write(text)


class Quiet(unittest.TestCase):
    def test_the_status_alone(self):
        for words, status in COMMANDS:
            self.assertEqual(asked([*words, "--quiet"], EXAMPLES), (status, "", ""), words)
            self.assertEqual(asked([*words, "--quiet", "--json"], EXAMPLES), (status, "", ""), words)
        status, text, said = asked(["check", "a.aksed", "answered.csv", "--quiet", "--strict"], EXAMPLES)
        self.assertEqual((status, text, said.count("\n")), (65, "", 1))
        self.assertTrue(said.startswith("ask: warning: a.aksed (line 1, column 1) is false throughout"), said)
        self.assertEqual(asked(["--version", "--quiet"]), (0, "", ""))

    def test_refusals_are_told(self):
        for words, status, part in (
            (["check", "c.p", "answered.csv"], 65, "no host c"), (["check", "a.req", "missing.csv"], 74, "missing.csv"), (["log", "set.csv", "--x"], 64, "--x"),
            (["draw", "p.formula"], 66, "p.formula"), (["check", "a.p", "set.csv", "--program", "missing"], 72, "missing"),
        ):
            for more in ([], ["--json"]):
                ended, text, said = asked([*words, *more, "--quiet"], EXAMPLES)
                self.assertEqual((ended, text), (status, ""))
                self.assertIn(part, said)

    def test_files_that_are_named_are_written(self):
        with tempfile.TemporaryDirectory() as folder:
            notes, report = Path(folder, "notes"), Path(folder, "report")
            self.assertEqual(asked(["log", "set.csv", "--quiet", "--notes", str(notes)], EXAMPLES), (0, "", ""))
            self.assertEqual(asked(["check", "within_9.formula", "answered.csv", "--quiet", "--report", str(report)], EXAMPLES), (0, "", ""))
            self.assertEqual((notes.exists(), report.exists()), (True, True))


class Progress(unittest.TestCase):
    def setUp(self):
        room = tempfile.TemporaryDirectory()
        self.addCleanup(room.cleanup)
        self.room = Path(room.name)

    def told(self, stream, wait, *words):
        """What is said on a stream of errors while a run takes as long as a wait of the shell."""
        slow = self.room / "slow"
        slow.write_text(f'#!/bin/sh\n{wait}\nexec {find_program(None)} "$@"\n')
        slow.chmod(0o755)
        with contextlib.redirect_stdout(io.StringIO()), contextlib.redirect_stderr(stream):
            status = main(["draw", str(EXAMPLES / "circle.csv"), "--program", str(slow), *words])
        self.assertEqual(status, 0)
        return stream.getvalue()

    def test_on_a_terminal_alone(self):
        mark = self.room / "told"
        self.assertRegex(self.told(Terminal(mark), f"until [ -e {mark} ]; do sleep 0.05; done"), "ask: [1-9][0-9]* s: times")
        self.assertEqual(self.told(io.StringIO(), "sleep 1.3"), "")
        self.assertEqual(self.told(Terminal(mark), "sleep 1.3", "--quiet"), "")


class Version(unittest.TestCase):
    def setUp(self):
        room = tempfile.TemporaryDirectory()
        self.addCleanup(room.cleanup)
        self.room = Path(room.name)

    def installed(self, text):
        """A program as ./install puts it below a prefix, with what it says of its version."""
        program = self.room / "bin" / "skewcheck"
        version = self.room / "share" / "doc" / "skewcheck" / "version"
        for path in (program, version):
            path.parent.mkdir(parents=True, exist_ok=True)
        shutil.copy("/bin/true", program)
        version.write_text(text)
        return program

    def test_of_an_installed_program(self):
        program = self.installed("commit 0123abc\nkit rattle-kit-1 logic 2\n")
        self.assertEqual(origin_of(program), Origin("0123abc", "rattle-kit-1 logic 2"))
        ended, text, _ = asked(["--version", "--program", str(program)])
        self.assertEqual((ended, text.splitlines()[1]), (0, f"skewcheck: {program}: commit 0123abc, kit rattle-kit-1 logic 2"))
        self.assertEqual(origin_of(self.installed("commit 0123abc, with changes\n")), Origin("0123abc, with changes"))
        self.assertEqual(origin_of(self.installed("")).words(), "its commit and kit aren't known")
        released = origin_of(self.installed("commit 0123abc\nkit rattle-kit-1 logic 2\nrelease 1.0\n"))
        self.assertEqual(released.words(), "release 1.0, commit 0123abc, kit rattle-kit-1 logic 2")

    def test_ask_installed_beside_it(self):
        program = self.installed("commit 0123abc\nkit rattle-kit-1 logic 2\n")
        shutil.copytree(ROOT / "ask", self.room / "share" / "skewcheck" / "ask")
        own = self.room / "share" / "skewcheck" / "ask" / "ask"
        done = subprocess.run([own, "--version"], capture_output=True, text=True, env={**os.environ, "SKEWCHECK": str(program)})
        self.assertEqual(done.stdout, f"ask: commit 0123abc, kit rattle-kit-1 logic 2\nskewcheck: {program}: commit 0123abc, kit rattle-kit-1 logic 2\n")

    def test_of_a_repository(self):
        (self.room / "docs").mkdir()
        (self.room / "docs" / "proved.md").write_text("# What is proved\n\nProved with `rattle-kit-7 logic 8`.\n")
        program = self.room / "crates" / "skewcheck" / "out" / "skewcheck"
        self.assertEqual(origin_of(program), Origin(None, "rattle-kit-7 logic 8", True))
        named = ["-c", "user.name=n", "-c", "user.email=e"]
        for words in (["init", "-q"], ["add", "-A"], [*named, "commit", "-q", "-m", "first"]):
            subprocess.run(["git", "-C", self.room, *words], check=True, capture_output=True)
        commit = subprocess.run(["git", "-C", self.room, "rev-parse", "HEAD"], check=True, capture_output=True, text=True).stdout.strip()
        self.assertEqual(origin_of(program), Origin(commit, "rattle-kit-7 logic 8", True))
        for tag, release in (("vague", None), ("v2-draft", None), ("v1.0", "1.0")):
            subprocess.run(["git", "-C", self.room, "tag", tag], check=True, capture_output=True)
            self.assertEqual(origin_of(program), Origin(commit, "rattle-kit-7 logic 8", True, release), tag)
            subprocess.run(["git", "-C", self.room, "tag", "-d", tag], check=True, capture_output=True)
        subprocess.run(["git", "-C", self.room, "tag", "v1.0"], check=True, capture_output=True)
        (self.room / "docs" / "proved.md").write_text("")
        self.assertEqual(origin_of(program), Origin(f"{commit}, with changes", None, True))

    def test_words(self):
        facts = json.loads(asked(["--version", "--json"])[1])
        self.assertEqual((facts["status"], facts["program"]["path"]), (0, find_program(None)))
        kit = (ROOT / "docs" / "proved.md").read_text().split("Proved with `")[1].split("`")[0]
        self.assertEqual((facts["ask"]["kit"], facts["ask"]["is_repository"]), (kit, True))
        text = asked(["--version"])[1]
        for words in (["check", "--version"], ["--version", "--seconds", "3"]):
            self.assertEqual(asked(words), (0, text, ""))
        ended, text, _ = asked(["--version", "--program", "missing"])
        self.assertEqual((ended, "missing, which --program names" in text.splitlines()[1]), (0, True))
        self.assertIn("log, which --program names", asked(["check", "--version", "--program", "log"], EXAMPLES)[1])
        for words in (["--version", "x"], ["--version", "check"], ["--version", "--", "x"], ["--vers"], ["--version", "--svg"], ["what", "--version"]):
            self.assertEqual(asked(words)[0], 64, words)
        ended, text, _ = asked(["log", "set.csv", "--name", "--version"], EXAMPLES)
        self.assertEqual((ended, text), (64, ""))


class Encodings(unittest.TestCase):
    def setUp(self):
        room = tempfile.TemporaryDirectory()
        self.addCleanup(room.cleanup)
        self.room = Path(room.name)

    def refused(self, words, status, message):
        ended, text, said = asked(words, self.room)
        self.assertEqual((ended, text, said), (status, "", f"ask: {message}\n"))

    def test_formulas(self):
        (self.room / "l").write_bytes((EXAMPLES / "answered.csv").read_bytes())
        wide = "f, line 1, column 1: it is in {}, and has to be in UTF-8 or ASCII"
        for data, message in (
            (b"\xef\xbb\xbfF[0,?] a.req", "f, line 1, column 1: it begins with a byte order mark, the bytes EF BB BF: the formula has to be saved as UTF-8 without one"),
            ("F[0,?] a.req".encode("utf-16"), wide.format("UTF-16")), (b"\xfe\xff" + "F[0,?] a.req".encode("utf-16-be"), wide.format("UTF-16")),
            ("F[0,?] a.req".encode("utf-16-le"), wide.format("UTF-16")), ("F[0,?] a.req".encode("utf-16-be"), wide.format("UTF-16")),
            ("F[0,?] a.req".encode("utf-32"), wide.format("UTF-32")),
        ):
            (self.room / "f").write_bytes(data)
            for words in (["check", "f", "l"], ["deadline", "f", "l"], ["tolerance", "true", "f", "l"], ["each", "f", "l", "--over", ".*"],
                          ["draw", "l", "--formula", "f"]):
                self.refused(words, 65, message)
        ended, _, said = asked(["check", "\ufeffa.req", "l"], self.room)
        self.assertEqual((ended, "the formula, line 1, column 1: it begins with a byte order mark" in said), (65, True))

    def test_logs(self):
        (self.room / "f").write_text("a.req")
        text = (EXAMPLES / "answered.csv").read_text()
        for encoding in ("utf-16", "utf-16-le", "utf-16-be"):
            (self.room / "l").write_bytes(text.encode(encoding))
            for words in (["check", "f", "l"], ["between", "l", "0", "1"], ["each", "F a.{}", "l", "--over", ".*"], ["draw", "l"], ["log", "l"],
                          ["log", "l", "--access", "$msec"]):
                self.refused(words, 66, "l, line 1, column 1: it is in UTF-16, and has to be in UTF-8 or ASCII")
        self.assertEqual(asked(["check", "a.", "l"], self.room)[0], 65)  # the formula is refused first
        (self.room / "l").write_bytes(b"\xef\xbb\xbf" + text.encode())
        self.assertEqual([asked(words, self.room)[0] for words in (["check", "f", "l"], ["log", "l"])], [0, 0])

    def test_what_only_looks_so(self):
        for data in (b"a.req\0", b"\0\0\0\0", b"\0a\0\0", b"kind\0,\0", b""):
            (self.room / "l").write_bytes(data)
            ended, _, said = asked(["draw", "l"], self.room)
            self.assertEqual((ended, "UTF-16" in said), (66, False), data)


class Empty(unittest.TestCase):
    def test_a_formula_that_is_empty(self):
        for words in (["check", "", "set.csv"], ["draw", "set.csv", "--formula", ""], ["draw", "set.csv", "--formula", " \n"], ["deadline", "", "set.csv"],
                      ["tolerance", "true", " ", "set.csv"], ["each", "", "set.csv", "--over", ".*"]):
            self.assertEqual(asked(words, EXAMPLES), (65, "", "ask: the formula is empty\n"), words)

    def test_files_without_a_name(self):
        for words, status in ((["draw", "set.csv", "--times", ""], 74), (["draw", "set.csv", "--report", ""], 74), (["log", "set.csv", "--notes", ""], 75),
                              (["check", "a.p", "set.csv", "--report", ""], 75), (["check", "a.p", ""], 74)):
            self.assertEqual(asked(words, EXAMPLES)[0], status, words)


class Lines(unittest.TestCase):
    def test_wrong_words_are_told_in_a_line_and_where_help_is(self):
        for words, lines in (
            (["check", "a.p"], ["ask: the following arguments are required: LOG", "usage: ask check --help says how"]),
            ([], ["ask: the following arguments are required: COMMAND", "usage: ask --help says how"]),
            (["check", "a.p", "set.csv", "--nothing"], ["ask: unrecognized arguments: --nothing", "usage: ask check --help says how"]),
        ):
            ended, text, said = asked_apart(words)
            self.assertEqual((ended, text, said.splitlines()), (64, "", lines))


if __name__ == "__main__":
    unittest.main()
