"""The commands that are installed, without the repository: skewask, skewcheck-audit, their manual pages, and the pages."""

import os
import re
import shutil
import subprocess
import sys
import tempfile
import unittest
from pathlib import Path

from common import ABOUT, PATIENCE, PROGRAM, ROOT, WithRoom, as_nobody, template, tree

sys.path[:0] = [str(ROOT), str(ROOT / "tests" / "examples")]

from ask.main import parser
from examples import is_refused, shown_commands

EXAMPLES = ROOT / "examples"
CHECKER = ROOT / "tests" / "reference" / "reports.py"
INSTEAD = (("python3 tests/reference/reports.py", "skewcheck-audit"), ("./ask/ask", "skewask"), ("./skewcheck", "skewcheck"))
LEFT_OUT = ("tests/", "> docs/", "notes.py")  # what is in commands of pages that need the repository, or many rows and seconds
ELSEWHERE = "many-logs.md"  # the page whose commands another test runs


def run(words, path=None, folder=EXAMPLES, text=b"", **environment):
    """How a command ended, without what the tests have in their environment."""
    kept = {name: value for name, value in os.environ.items() if name != "SKEWCHECK"}
    kept["PATH"] = f"{path}:{kept['PATH']}" if path else kept["PATH"]
    return subprocess.run(
        words, cwd=folder, env={**kept, "COLUMNS": "80", **environment}, input=text, capture_output=True, timeout=PATIENCE,
    )


class Installed(unittest.TestCase):
    """Cases on one installing for all."""

    def setUp(self):
        self.prefix = template()
        self.bin = self.prefix / "bin"
        self.about = self.prefix / ABOUT

    def test_for_another_user(self):
        """Another user, who can write nowhere, runs all three, and nothing is left."""
        before = as_nobody(self)
        files = ["lease.formula", "lease.csv"]
        python = shutil.which("python3", path="/usr/bin:/bin")
        if not python:
            self.skipTest("python3 of the package python3 isn't where each user finds it")
        earlier = tree(self.prefix)
        for words, said in (
            (["skewcheck", "demo", "7"], "demo 7\nhosts 6 rows 24\nvalues true\n"),
            (["skewask", "check", *files], "Either: G !(a.holds & b.holds) is true by some timings"),
            (["skewcheck-audit", *files, "lease.report"], "accepted: true has a timing, false has a timing\n"),
        ):
            done = run([*before, self.bin / words[0], *words[1:]], folder=self.about / "examples", PATH="/usr/bin:/bin")
            self.assertTrue(done.stdout.decode().startswith(said), done)
        self.assertEqual(tree(self.prefix), earlier)

    def test_commands_of_pages(self):
        """What the pages show is what their commands print in the folder of the pages, by the names that are installed."""
        count = 0
        earlier = tree(self.prefix)
        for page in [self.about / "README.md", *sorted((self.about / "docs").glob("*.md"))]:
            if page.name == ELSEWHERE:
                continue
            for command, shown in shown_commands(page):
                if any(word in command for word in LEFT_OUT) or "jq " in command and not shutil.which("jq"):
                    continue
                for old, new in INSTEAD:
                    command = command.replace(old, new)
                done = run(["bash", "-c", command], self.bin, self.about)
                self.assertEqual(done.stdout.decode().replace("skewask: ", "ask: "), shown, f"{page.name}: {command}")
                self.assertFalse(is_refused(command, shown, done.returncode), f"{page.name}: {command}")
                count += 1
        self.assertGreater(count, 80)
        self.assertEqual(tree(self.prefix), earlier)

    def test_links_of_pages(self):
        """Each link from a page leads to a file that is installed, or into a part of the repository that isn't."""
        links = 0
        for page in [*self.about.glob("*.md"), *(self.about / "docs").glob("*.md")]:
            for link in re.findall(r"\]\(([^)#\s]+)", page.read_text()):
                links += 1
                if "://" in link or (page.parent / link).is_file():
                    continue
                there = os.path.relpath((page.parent / link).resolve(), self.about)
                self.assertRegex(there, r"^(crates|tests|ask|faults|benches)/", f"{page.name}: {link}")
        self.assertGreater(links, 100)

    def test_other_words_for_commands(self):
        """Where ask tells a command to type, it tells the one that is installed."""
        texts = {path: path.read_text() for path in (self.prefix / "share" / "skewcheck" / "ask").rglob("*.py")}
        self.assertGreater(len(texts), 50)
        for path, text in texts.items():
            self.assertIsNone(re.search(r"(?<![a-z])ask (check|deadline|between|tolerance|each|log|draw)\b", text), path)
        for words, status, said in (
            (["check"], 64, "usage: skewask check"), (["check", "a.p => a.p", "set.csv"], 65, "->"),
            (["check", "F[0,?] a.p", "set.csv"], 65, "skewask deadline"), (["each", "a.p", "set.csv", "--over", "("], 64, "skewask each --help"),
        ):
            done = run([self.bin / "skewask", *words])
            self.assertEqual((done.returncode, said in done.stderr.decode()), (status, True), done.stderr)

    def test_examples_that_use_ask(self):
        for name, log in (("from_jsonl.py", "app_events.jsonl"), ("from_nginx.py", "nginx_access.log")):
            words = [sys.executable, f"examples/{name}", f"examples/{log}", "--skew", "5"]
            here, there = run(words, folder=ROOT), run(words, folder=self.about)
            self.assertEqual((there.returncode, there.stdout), (0, here.stdout), there.stderr)
        self.assertEqual([name for name in tree(self.prefix) if name.endswith(".pyc")], [])

    def test_many_logs_finds_the_program_that_is_installed(self):
        """Also where no skewcheck is in the path."""
        if not shutil.which("parallel", path="/usr/bin:/bin"):
            self.skipTest("for want of the package parallel")
        with tempfile.TemporaryDirectory() as folder:
            words = [sys.executable, "examples/many_logs.py", "examples/requests", "examples/within_5.formula", "--to", f"{folder}/to"]
            done = run(words, folder=self.about, PATH="/usr/bin:/bin")
            self.assertEqual((done.returncode, done.stderr), (66, b""))
            self.assertEqual(done.stdout.split(b"\n")[1].split(), b"within_5.formula 1 1 1 1 0 1".split())


class FindingTheProgram(WithRoom):
    """Which program skewask and ./ask/ask run: each here prints its name in place of an answer."""

    def setUp(self):
        super().setUp()
        self.bin = self.prefix / "bin"
        for part in ("bin", "share/skewcheck"):
            shutil.copytree(template() / part, self.prefix / part)
        for name in ("beside", "path", "named"):
            self.program(self.room / name / "skewcheck", name)
        shutil.copy(self.room / "beside" / "skewcheck", self.bin / "skewcheck")

    def program(self, path, name):
        """A program that ends with a status that no answer has, after its name was written to a file."""
        path.parent.mkdir(exist_ok=True)
        path.write_text(f"#!/bin/sh\necho {name} >>'{self.room}/ran'\nexit 77\n")
        path.chmod(0o755)

    def ran(self, words, path="/usr/bin:/bin", **environment):
        """Which program was run, and what was said."""
        (self.room / "ran").write_text("")
        kept = {"PATH": f"{os.path.dirname(sys.executable)}:{path}", **environment}
        done = subprocess.run([*words, "check", "a.p", "set.csv"], cwd=EXAMPLES, env=kept, capture_output=True, text=True)
        return (self.room / "ran").read_text().split("\n")[0], done

    def assertRan(self, name, words, **environment):
        ran, done = self.ran(words, **environment)
        self.assertEqual((ran, done.returncode >= 64), (name, True), done.stderr)

    def assertMissing(self, said, words, **environment):
        """One line says what isn't there and what to do."""
        ran, done = self.ran(words, **environment)
        self.assertEqual((ran, done.returncode, done.stdout, len(done.stderr.splitlines())), ("", 72, "", 1), done.stderr)
        for part in said:
            self.assertIn(part, done.stderr)

    def test_beside_itself(self):
        self.assertRan("beside", [self.bin / "skewask"], path=f"{self.room}/path:/usr/bin:/bin")
        (self.room / "link").symlink_to(self.bin / "skewask")
        (self.room / "second").symlink_to("link")
        self.assertRan("beside", [self.room / "second"])
        self.assertRan("beside", ["skewask"], path=f"{self.bin}:/usr/bin:/bin")
        self.assertRan("beside", [sys.executable, self.bin / "skewask"])

    def test_named(self):
        named = str(self.room / "named" / "skewcheck")
        self.assertRan("named", [self.bin / "skewask"], SKEWCHECK=named)
        (self.bin / "skewcheck").unlink()
        self.assertRan("named", [self.bin / "skewask"], SKEWCHECK=named, path=f"{self.room}/path:/usr/bin:/bin")

    def test_in_the_path(self):
        (self.bin / "skewcheck").chmod(0o644)
        self.assertRan("path", [self.bin / "skewask"], path=f"{self.room}/path:/usr/bin:/bin")
        (self.bin / "skewcheck").unlink()
        self.assertRan("path", [self.bin / "skewask"], path=f"{self.room}/path:/usr/bin:/bin")

    def test_nowhere(self):
        (self.bin / "skewcheck").unlink()
        self.assertMissing([f"there is no {self.bin}/skewcheck", "no skewcheck in the path", "install skewcheck again"], [self.bin / "skewask"])
        self.assertMissing(["SKEWCHECK in the environment names", "name another one"], [self.bin / "skewask"], SKEWCHECK="nothing")

    def test_in_a_repository(self):
        """The built one before that of the path, and where there is neither, what to do."""
        clone = self.room / "clone"
        shutil.copytree(ROOT / "ask", clone / "ask")
        built = clone / "crates" / "skewcheck" / "out" / "skewcheck"
        built.parent.mkdir(parents=True)
        self.program(built, "built")
        ask = [clone / "ask" / "ask"]
        self.assertRan("built", ask, path=f"{self.room}/path:/usr/bin:/bin")
        self.assertRan("named", ask, SKEWCHECK=str(self.room / "named" / "skewcheck"))
        built.unlink()
        self.assertRan("path", ask, path=f"{self.room}/path:/usr/bin:/bin")
        self.assertMissing([f"there is no {built}", f"run {clone}/skewcheck once", "--program FILE"], ask)

    def test_a_command_alone(self):
        """A command that was copied away from its files says in one line what it lacks."""
        for name in ("skewask", "skewcheck-audit"):
            shutil.copy(self.bin / name, self.room / name)
            done = run([sys.executable, self.room / name, "check"])
            self.assertEqual((done.returncode, done.stdout, len(done.stderr.splitlines())), (72, b"", 1), done.stderr)
            self.assertIn(f"{name}: No module named", done.stderr.decode())

    def test_a_prefix_of_links(self):
        """Where the folder of the modules or that of the commands is a link, each finds the other and the program."""
        other = self.room / "other"
        shutil.move(self.prefix / "share", other)
        (self.prefix / "share").symlink_to(other)
        self.assertRan("beside", [self.bin / "skewask"])
        shutil.move(self.bin, self.room / "commands")
        self.bin.symlink_to("../commands")
        self.assertRan("beside", [self.bin / "skewask"])
        self.assertRan("beside", ["skewask"], path=f"{self.bin}:/usr/bin:/bin")
        done = run([self.bin / "skewcheck-audit", "--help"])
        self.assertEqual((done.returncode, done.stderr), (0, b""))


class SecondChecker(unittest.TestCase):
    """The words, the refusals and the answers of the second checker; what is installed is the same."""

    def setUp(self):
        room = tempfile.TemporaryDirectory()
        self.addCleanup(room.cleanup)
        self.room = Path(room.name)

    def audited(self, *words, **more):
        done = run([sys.executable, CHECKER, *words], **more)
        self.assertNotIn(b"Traceback", done.stderr)
        return done

    def assertAnswered(self, words, line, status=0):
        done = self.audited(*words)
        self.assertEqual((done.stdout.decode(), done.stderr, done.returncode), (line + "\n", b"", status))

    def assertUnjudged(self, words, status, said, **more):
        done = self.audited(*words, **more)
        self.assertEqual((done.returncode, done.stdout), (status, b""), done.stderr)
        self.assertEqual(len(done.stderr.splitlines()), 1, done.stderr)
        self.assertIn(said, done.stderr.decode())

    def test_what_was_accepted(self):
        log = ["answered.csv"]
        self.assertAnswered(["within_9.formula", *log, "answered_within_9.report"], "accepted: false is excluded, true has a timing")
        self.assertAnswered(["within_8.formula", *log, "answered_within_8.report"], "accepted: true has a timing, false has a timing")
        self.assertAnswered(["p.formula", "twice_apart.csv", "twice_apart_p.report"], "accepted: no timing is admissible")
        (self.room / "f").write_text("F a.p")
        (self.room / "l").write_text("kind,host,time,name\nhost,a,0,0\nset,a,10,p\n")
        (self.room / "r").write_text("skewcheck 1\nevents 1\ntrue witness\n10\nfalse unknown 1\nlearn 1 +first 0 1 rule 11\nend\n")
        files = [str(self.room / name) for name in "flr"]
        self.assertAnswered([*files, "--conflicts", "1"], "accepted: true has a timing, false is left unknown")
        self.assertAnswered(["--conflicts=1", *files], "accepted: true has a timing, false is left unknown")
        self.assertAnswered(files, "refused false at line 0", 5)

    def test_what_was_refused(self):
        self.assertAnswered(["within_9.formula", "answered.csv", "answered_within_8.report"], "refused false at line 0", 5)
        self.assertAnswered(["within_9.formula", "answered.csv", "answered.csv"], "refused report at line 1", 5)
        self.assertAnswered(["within_9.formula", "answered.csv", "one_true.report"], "refused events at line 0", 5)

    def test_first_word_is_that_of_the_program(self):
        """The program writes `accepted` alone where this one begins with it, and the same line else."""
        for report in ("answered_within_9.report", "answered_within_8.report", "one_true.report", "end_missing.report"):
            files = ["within_9.formula", "answered.csv", report]
            second, first = self.audited(*files), run([PROGRAM, "audit", *files])
            self.assertEqual(second.stdout.split(b": ")[0].strip(), first.stdout.strip(), report)
            self.assertEqual(second.returncode, first.returncode, report)

    def test_words(self):
        files = ["within_9.formula", "answered.csv", "answered_within_9.report"]
        self.assertUnjudged([], 64, "are required")
        self.assertUnjudged(files[:2], 64, "REPORT")
        self.assertUnjudged([*files, "more"], 64, "more")
        self.assertUnjudged([*files, "--conf", "7"], 64, "--conf")
        for number in ("0", "1000001", "-1", "1.5", "", "x", "\udcff", "٣"):
            self.assertUnjudged([*files, f"--conflicts={number}"], 64, "from 1 to 1000000")
        self.assertUnjudged([*files, "--conflicts"], 64, "--conflicts")
        for place in range(3):
            self.assertUnjudged([*files[:place], "-", *files[place + 1 :]], 64, "- names no file", text=b"true")
        self.assertEqual(self.audited("--help").returncode, 0)

    def test_files(self):
        files = ["within_9.formula", "answered.csv", "answered_within_9.report"]
        for place in range(3):
            for name, reason in (
                (".", "Is a directory"), ("nowhere", "No such file"), ("n" * 300, "too long"), ("a\nb", "a\\nb can't be read"), ("", "No such file"),
            ):
                self.assertUnjudged([*files[:place], name, *files[place + 1 :]], 74, reason)
        self.assertUnjudged([os.fsencode("\udcff\x1b"), *files[1:]], 74, "\\udcff\\x1b can't be read")

    def test_faulty_formulas_and_logs(self):
        files = ["within_9.formula", "answered.csv", "answered_within_9.report"]
        self.assertUnjudged(["answered.csv", *files[1:]], 65, "formula fault 2 at byte 4")
        self.assertUnjudged([files[0], "within_9.formula", files[2]], 66, "log fault 1 at record 1")
        (self.room / "f").write_text("F c.p")
        self.assertUnjudged([self.room / "f", *files[1:]], 65, "the host c of the formula, at byte 2, isn't in the log")
        (self.room / "f").write_bytes(b"(" * 30_000)
        self.assertUnjudged([self.room / "f", *files[1:]], 65, "formula fault 2 at byte 30000")
        (self.room / "f").write_bytes(b"!" * 30_000 + b"true")
        self.assertUnjudged([self.room / "f", *files[1:]], 65, "formula fault 5 at byte 0")

    def test_outputs_that_take_nothing(self):
        words = [sys.executable, CHECKER, "within_9.formula", "answered.csv", "answered_within_9.report"]
        for script in ('exec "$@" >/dev/full', 'exec "$@" >&-', '"$@" | true; exit "${PIPESTATUS[0]}"'):
            done = run(["bash", "-c", script, "bash", *words])
            if done.returncode != 0 or "true" not in script:  # true may have taken the line
                self.assertEqual(done.returncode, 75, script)
            self.assertLessEqual(len(done.stderr.splitlines()), 1, done.stderr)
        self.assertEqual(run(["bash", "-c", 'exec "$@" 2>&-', "bash", *words[:-1], "nowhere"]).returncode, 74)

    def test_little_memory(self):
        """More than the memory holds ends with 70 in one line."""
        (self.room / "r").write_bytes(b"skewcheck 1\nevents 2\ntrue refuted 4000000\n" + b"learn 0 1 rule 11\n" * 4_000_000)
        script = 'ulimit -v 300000; exec "$@"'
        words = [sys.executable, CHECKER, "within_9.formula", "answered.csv", self.room / "r"]
        done = run(["bash", "-c", script, "bash", *words])
        self.assertEqual((done.returncode, done.stdout), (70, b""), done.stderr)
        self.assertEqual(len(done.stderr.splitlines()), 1, done.stderr)


class Manuals(unittest.TestCase):
    def options_of(self, page):
        """The options that a manual page names."""
        return set(re.findall(r"--[a-z-]+", (ROOT / "docs" / page).read_text().replace("\\-", "-")))

    def test_skewask(self):
        """Each command and option that there is, and no other."""
        words = parser()
        commands = next(action.choices for action in words._actions if action.choices)
        actions = [action for parser in (words, *commands.values()) for action in parser._actions]
        options = {option for action in actions for option in action.option_strings}
        text = (ROOT / "docs" / "skewask.1").read_text()
        self.assertEqual(re.findall(r"^\.TP\n\\fB([a-z]+)\\fR \\fI", text, re.M), list(commands))
        self.assertEqual(self.options_of("skewask.1"), {option for option in options if option.startswith("--")})

    def test_skewcheck_audit(self):
        """The options of the words that --help tells, and all statuses."""
        said = run([sys.executable, CHECKER, "--help"]).stdout.decode()
        self.assertEqual(self.options_of("skewcheck-audit.1"), set(re.findall(r"--[a-z-]+", said)))
        text = (ROOT / "docs" / "skewcheck-audit.1").read_text()
        self.assertIn(".I FORMULA LOG REPORT", text)
        source = (ROOT / "tests" / "reference" / "audit.py").read_text()
        self.assertEqual(re.findall(r"^\.B (\d+)$", text, re.M), re.findall(r"^    [A-Z]+ = (\d+)", source, re.M))

    def test_they_are_manual_pages(self):
        if not shutil.which("man"):
            self.skipTest("for want of the package man-db")
        for name in ("skewcheck", "skewask", "skewcheck-audit"):
            done = run(["man", "--warnings", "-E", "UTF-8", "-l", "-Tutf8", ROOT / "docs" / f"{name}.1"])
            self.assertEqual((done.returncode, done.stderr), (0, b""), name)
            self.assertIn(name.encode(), done.stdout)


if __name__ == "__main__":
    unittest.main()
