"""Installing, removing and packing, each in a folder of its own; completions and the manual; the step of docs/installing.md."""

import os
import re
import shutil
import subprocess
import tarfile
import unittest

from common import (
    ABOUT, BASH, COMMANDS, FISH, LIST, PAGES, PATIENCE, PROGRAM, ROOT, ZSH, WithRoom, expected, installed, names_origin, needs_commit, source_names, tree,
)

FILES = ("FORMULA", "LOG", "REPORT", "TIMES", "FILE")  # operands that are names of files


def commands():
    """The words of each command, by the table of docs/usage.md."""
    page = (ROOT / "docs" / "usage.md").read_text()
    table = page[page.index("| Command |") :].split("\n\n")[0]
    return [words.split() for words in re.findall(r"^\| `([^`]*)` \|", table, re.M)]


def operands_of(words):
    """The operands among the words of a command, without the option and its number."""
    return [word for word in words if word.isupper() and "]" not in word]


class Installing(WithRoom):
    def test_files(self):
        names = sorted(str(self.prefix / name) for name in [*expected(), LIST, f"{ABOUT}/made"])
        self.assertEqual(sorted(self.put().stdout.splitlines()), names)
        self.assertEqual([name for name in names if not os.path.isfile(name)], [])
        self.assertEqual(len([path for path in self.prefix.rglob("*") if path.is_file()]), len(names))
        done = subprocess.run([self.prefix / "bin" / "skewcheck", "demo", "7"], capture_output=True, text=True)
        self.assertEqual(done.stdout, "demo 7\nhosts 6 rows 24\nvalues true\n")

    def test_twice_and_away(self):
        self.put()
        self.put()
        self.assertEqual(installed("--prefix", self.prefix, "--remove").returncode, 0)
        self.assertEqual(tree(self.room), [])

    def test_nobody_reads_what_is_printed(self):
        script = '"$1" --prefix "$2" | true; "$1" --prefix "$2" --remove | true'
        subprocess.run(["bash", "-c", script, "bash", ROOT / "install", self.room / "a b" / "c"], stderr=subprocess.PIPE)
        self.assertEqual(tree(self.room), [])

    def test_what_was_there_stays(self):
        for name in ("bin/other", "share/man/man1/other.1"):
            (self.prefix / name).parent.mkdir(parents=True)
            (self.prefix / name).write_text("kept")
        (self.prefix / "share" / "zsh").mkdir()
        before = tree(self.prefix)
        self.put()
        installed("--prefix", self.prefix, "--remove")
        self.assertEqual(tree(self.prefix), before)

    def test_home(self):
        done = installed(HOME=str(self.room))
        self.assertEqual(done.returncode, 0, done.stderr)
        self.assertTrue((self.room / ".local" / "bin" / "skewcheck").exists())
        self.assertEqual(installed("--remove", HOME=str(self.room)).returncode, 0)
        self.assertEqual(tree(self.room), [])


class Refusals(WithRoom):
    def test_words(self):
        self.assertRefused(["--prefx", self.prefix], 64, "--prefx is no option")
        self.assertRefused(["--prefix"], 64, "--prefix wants a name")
        self.assertRefused(["--dist", self.room / "d.tar", "--remove"], 64, "stands alone")
        self.assertRefused(["here"], 64, "here is no option")

    def test_help_changes_nothing(self):
        """Whether its line can be written or not."""
        for turns in ("", ">/dev/full", "| true"):
            done = subprocess.run(
                ["bash", "-c", f'"$1" --help {turns}', "bash", ROOT / "install"], env={**os.environ, "HOME": str(self.room)}, capture_output=True,
            )
            self.assertEqual((done.returncode, done.stderr, tree(self.room)), (0, b"", []), turns)

    def test_no_program(self):
        self.assertRefused(["--prefix", self.prefix], 66, "isn't there", SKEWCHECK=str(self.room / "nothing"))
        self.assertRefused(["--dist", self.room / "d.tar"], 66, "isn't there", SKEWCHECK=str(self.room / "nothing"))

    def test_a_program_older_than_its_sources(self):
        top = self.room / "tree"
        sources, out = (top / "crates" / "skewcheck" / name for name in ("src", "out"))
        for folder in (sources, out):
            folder.mkdir(parents=True)
        for name in ("install", "crates.txt"):
            shutil.copy(ROOT / name, top)
        for name in ("main.rt", "other.rt"):
            (sources / name).write_text("")
        shutil.copy(PROGRAM, out / "skewcheck")
        environment = {name: value for name, value in os.environ.items() if name != "SKEWCHECK"}
        for change, named in (
            ((sources / "main.rt").touch, sources / "main.rt"), ((sources / "other.rt").unlink, sources), ((top / "crates.txt").touch, top / "crates.txt"),
        ):
            for path in top.rglob("*"):
                os.utime(path, (0, 0))
            change()
            before = tree(self.room)
            done = subprocess.run([top / "install", "--prefix", self.prefix], env=environment, capture_output=True, text=True)
            self.assertEqual((done.returncode, tree(self.room)), (66, before))
            self.assertIn(f"the program is older than {named};", done.stderr)

    def test_a_prefix_that_takes_nothing(self):
        (self.room / "file").write_text("")
        self.assertRefused(["--prefix", self.room / "file"], 73, "can't be written")
        (self.room / "half").mkdir()
        (self.room / "half" / "bin").write_text("")
        self.assertRefused(["--prefix", self.room / "half"], 73, "bin/skewcheck can't be written")
        (self.prefix / "share" / "zsh" / "site-functions" / "_skewcheck").mkdir(parents=True)
        self.assertRefused(["--prefix", self.prefix], 73, "_skewcheck can't be written")
        if os.geteuid() != 0:
            self.prefix.chmod(0o555)
            self.addCleanup(self.prefix.chmod, 0o755)
            self.assertRefused(["--prefix", self.prefix], 73, "can't be written")

    def test_nothing_to_remove(self):
        self.assertRefused(["--prefix", self.prefix, "--remove"], 66, "put there by install")

    def test_no_place_for_a_package(self):
        self.assertRefused(["--dist", self.room / "nowhere" / "d.tar"], 73, "can't be written")
        self.assertRefused(["--dist", self.room], 73, "can't be written")


class WithoutGit(WithRoom):
    """What is put of files that are no clone of the repository."""

    def setUp(self):
        super().setUp()
        self.top = self.room / "top"
        for name in source_names():
            (self.top / name).parent.mkdir(parents=True, exist_ok=True)
            shutil.copy(ROOT / name, self.top / name)
        shutil.copytree(ROOT / "tests" / "reference", self.top / "tests" / "reference")
        for name in ("install", *PAGES):
            shutil.copy(ROOT / name, self.top / name)

    def test_in_a_repository_of_something_else(self):
        """Neither its commit nor its tag is that of what is put."""
        named = ("git", "-C", self.room, "-c", "user.name=n", "-c", "user.email=e")
        for words in ((*named, "init", "-q"), (*named, "commit", "-q", "--allow-empty", "-m", "other"), (*named, "tag", "v3.1")):
            subprocess.run(words, check=True, capture_output=True)
        done = installed("--prefix", self.prefix, script=self.top / "install")
        self.assertEqual((done.returncode, done.stderr), (0, ""))
        self.assertEqual((self.prefix / ABOUT / "version").exists(), False)
        if names_origin():
            done = installed("--dist", self.room / "x.tar", script=self.top / "install")
            self.assertEqual((done.returncode, done.stderr), (66, f"install: git names no commit of {self.top}, so there is none to pack\n"))


class Packing(WithRoom):
    def setUp(self):
        super().setUp()
        needs_commit(self)

    def pack(self, name):
        done = installed("--dist", self.room / name)
        self.assertEqual(done.returncode, 0, done.stderr)
        return self.room / name

    def test_same_bytes(self):
        self.assertEqual(self.pack("a.tar").read_bytes(), self.pack("b.tar").read_bytes())
        self.assertEqual(tree(self.room), ["a.tar", "b.tar"])

    def test_unpacked(self):
        self.put()
        other = self.room / "other"
        other.mkdir()
        with tarfile.open(self.pack("a.tar")) as archive:
            archive.extractall(other)
        for name in expected():
            self.assertEqual((other / name).read_bytes(), (self.prefix / name).read_bytes(), name)
        self.assertEqual([name for name in COMMANDS if not os.access(other / name, os.X_OK)], [])
        sums = subprocess.run(["sha256sum", "--quiet", "-c", f"{ABOUT}/sha256sums"], cwd=other, capture_output=True)
        self.assertEqual((sums.returncode, sums.stdout), (0, b""))
        version = (other / ABOUT / "version").read_text().splitlines()
        commit = subprocess.run(["git", "rev-parse", "HEAD"], cwd=ROOT, capture_output=True, text=True).stdout.strip()
        kit = subprocess.run(["rt", "version"], capture_output=True, text=True).stdout.strip()
        self.assertEqual([version[0].split(",")[0], version[1]], [f"commit {commit}", f"kit {kit}"])
        self.assertEqual(installed("--prefix", other, "--remove").returncode, 0)
        self.assertEqual([path for path in other.rglob("*") if path.is_file()], [])


class Completions(WithRoom):
    def completed(self, shell, *words):
        """What a shell offers for the last word."""
        place = self.prefix / (BASH if shell == "bash" else FISH)
        if shell == "bash":
            script = f'. {place}; COMP_WORDS=("$@"); COMP_CWORD=$(($# - 1)); _skewcheck; printf "%s\\n" "${{COMPREPLY[@]}}"'
            run = ["bash", "-c", script, "bash", *words]
        else:
            run = ["fish", "--no-config", "-c", f'source {place}; complete --do-complete "{" ".join(words)}"']
        done = subprocess.run(run, cwd=self.room, stdout=subprocess.PIPE, text=True, timeout=PATIENCE)
        return sorted(line.split("\t")[0] for line in done.stdout.splitlines() if line)

    def offers(self, shell):
        """What is offered is the table's commands, the option, and files for operands that are names of them."""
        self.put()
        (self.room / "log_1.csv").write_text("")
        self.assertEqual(self.completed(shell, "skewcheck", ""), sorted(words[0] for words in commands()))
        self.assertEqual(self.completed(shell, "skewcheck", "ch"), ["check"])
        for name, *rest in commands():
            operands = operands_of(rest)
            for place, operand in enumerate(operands):
                known = ["true" if other == "VALUE" else "1" for other in operands[:place]]
                offered = self.completed(shell, "skewcheck", name, *known, "log_")
                if operand in FILES:
                    self.assertEqual(offered, ["log_1.csv"], (name, operand))
            takes = self.completed(shell, "skewcheck", name, "--c")
            self.assertEqual(takes, ["--conflicts"] if "[--conflicts" in rest else [], name)

    def test_bash(self):
        self.offers("bash")
        self.assertEqual(self.completed("bash", "skewcheck", "check", "--conflicts", ""), [])
        self.assertEqual(self.completed("bash", "skewcheck", "check", "--conflicts", "=", "7", "log_"), ["log_1.csv"])
        self.assertEqual(self.completed("bash", "skewcheck", "demo", "log_"), [])

    def test_fish(self):
        if not shutil.which("fish"):
            self.skipTest("for want of the package fish")
        self.offers("fish")

    def test_zsh(self):
        if not shutil.which("zsh"):
            self.skipTest("for want of the package zsh")
        self.put()
        done = subprocess.run(["zsh", "-n", self.prefix / ZSH], capture_output=True, text=True)
        self.assertEqual((done.returncode, done.stderr), (0, ""))
        text = (self.prefix / ZSH).read_text()
        self.assertEqual(re.findall(r"^  '?([a-z]+)[:)]", text, re.M), 2 * [words[0] for words in commands()])


class Pages(WithRoom):
    def test_table_is_that_of_the_program(self):
        known = {"VALUE": "true", "E": "0", "F": "1"}
        for name, *rest in commands():
            operands = operands_of(rest)
            words = ["nothing" if word in FILES else known.get(word, "7") for word in operands]
            with self.subTest(command=name):
                self.assertNotEqual(self.status([name, *words]), 64)
                self.assertEqual(self.status([name, *words, "7"]), 64)

    def status(self, words):
        return subprocess.run([PROGRAM, *words], cwd=self.room, capture_output=True, timeout=PATIENCE).returncode

    def test_manual_has_each_command(self):
        manual = (ROOT / "docs" / "skewcheck.1").read_text()
        readme = (ROOT / "README.md").read_text()
        for words in commands():
            self.assertIn(f"\\fB{words[0]}\\fR", manual)
            self.assertIn(f"| `{' '.join(words)}` |", readme)

    def test_step(self):
        page = (ROOT / "docs" / "installing.md").read_text()
        step = re.search(r"## In a job of continuous integration.*?```sh\n(.*?)```", page, re.S)[1]
        self.put()
        asking = self.prefix / "bin" / "skewask"
        if not asking.exists():
            asking.write_text(f'#!/bin/sh\nexec "{ROOT}/ask/ask" "$@"\n')
            asking.chmod(0o755)
        environment = {**os.environ, "PATH": f"{self.prefix}/bin:{os.environ['PATH']}"}
        within_5 = (ROOT / "examples" / "within_5.formula").read_text()
        for log, formula, status, said in (
            ("requests/met.csv", within_5, 0, "met, whatever the true times were\naccepted\n"),
            ("requests/late.csv", within_5, 1, "not met"),
            ("requests/unclear.csv", within_5, 1, "the log doesn't tell"),
            ("requests/impossible.csv", within_5, 1, "no timing is admissible"),
            ("requests/faulty.csv", within_5, 1, "no answer, status 66"),
            ("requests/met.csv", "G (a.rqe -> F[0,5] b.ack)", 1, "less was asked than was meant"),
            ("requests/met.csv", "G (a.req -> F[0,5] c.ack)", 1, "the formula is refused"),
        ):
            shutil.copy(ROOT / "examples" / log, self.room / "events.csv")
            (self.room / "deadline.formula").write_text(formula)
            (self.room / "report").unlink(missing_ok=True)
            done = subprocess.run(["sh", "-e", "-c", step], cwd=self.room, env=environment, stdout=subprocess.PIPE, text=True)
            self.assertEqual(done.returncode, status, log)
            self.assertIn(said, done.stdout)
            self.assertEqual((self.room / "report").exists(), "faulty" not in log and "c.ack" not in formula, formula)


if __name__ == "__main__":
    unittest.main()
