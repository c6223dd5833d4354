"""./test in a small repository of its own, with checks and commands that stand in for the real ones."""

import os
import shutil
import subprocess
import unittest

from room import PATIENCE, ROOT, WithRoom

CHECKS = ("names", "examples", "edge", "reference", "ask", "many_logs", "install", "scripts")


class WithRepository(WithRoom):
    def setUp(self):
        super().setUp()
        (self.top / "crates" / "skewcheck" / "out").mkdir(parents=True)
        shutil.copy(ROOT / "test", self.top)
        self.write(self.top / "crates" / "skewcheck" / "out" / "skewcheck", "")
        for name in CHECKS:
            (self.top / "tests" / name).mkdir(parents=True)
            self.check(name, "echo 2 passed, 0 failed")
        self.command("rt", 'echo "rt $*" >>"$CALLS"; echo 41 passed, 0 failed')
        self.command("apt-get", 'echo "apt-get $*" >>"$CALLS"')
        self.environment["CI"] = ""
        self.environment.pop("SKEWCHECK", None)

    def write(self, path, script):
        """Writes a script that can be run."""
        path.write_text(f"#!/bin/sh\n{script}\n")
        path.chmod(0o755)

    def check(self, name, script):
        """What a check does."""
        self.write(self.top / "tests" / name / "run", script)

    def command(self, name, script):
        """What a command does."""
        self.write(self.room / "bin" / name, script)

    def outcome(self, *words, **environment):
        """How a run of ./test ended: its status and its lines."""
        done = subprocess.run(
            [self.top / "test", *words], stdin=subprocess.DEVNULL, stdout=subprocess.PIPE, stderr=subprocess.STDOUT, text=True,
            timeout=PATIENCE, env={**self.environment, **environment},
        )
        self.assertEqual(os.listdir(self.tmp), [])
        return done.returncode, done.stdout.splitlines()

    def calls(self):
        """The commands that were called, with their words."""
        path = self.room / "calls"
        return path.read_text().splitlines() if path.exists() else []


class Counting(WithRepository):
    def test_all(self):
        status, lines = self.outcome()
        self.assertEqual((status, lines[-1], self.calls()), (0, "57 passed, 0 failed", ["rt ci"]))
        self.assertEqual([line for line in lines if line.startswith("== ")], ["== rt ci", *(f"== tests/{name}" for name in CHECKS)])

    def test_quick(self):
        status, lines = self.outcome("--quick")
        self.assertEqual((status, lines[-1], self.calls()), (0, "16 passed, 0 failed", []))

    def test_failures_are_counted_and_named(self):
        self.check("ask", "echo 5 passed, 3 failed; exit 1")
        status, lines = self.outcome("--quick")
        self.assertEqual((status, lines[-2:]), (1, ["failed: tests/ask", "19 passed, 3 failed"]))

    def test_no_check_passes_without_a_word(self):
        for script in (
            "exit 0", "echo 4 passed, 0 failed; exit 3", "kill -9 $$", "echo 0 passed, 0 failed", "echo 4 passed, 0 failed; echo more",
            "echo 4 passed, 0 failed of 9", "echo left out: a case: a reason",
        ):
            self.check("install", script)
            status, lines = self.outcome("--quick")
            self.assertEqual(status, 1, script)
            self.assertRegex(lines[-1], "^1[48] passed, 1 failed$")
            self.assertIn("failed: tests/install", lines)

    def test_a_check_that_is_not_there(self):
        (self.top / "tests" / "install" / "run").unlink()
        status, lines = self.outcome("--quick")
        self.assertEqual((status, lines[-1]), (1, "14 passed, 1 failed"))

    def test_a_check_that_leaves_all_out(self):
        self.check("install", "echo 'left out: tests/install: a reason'; echo 0 passed, 0 failed")
        status, lines = self.outcome("--quick")
        self.assertEqual((status, lines[-1]), (0, "14 passed, 0 failed"))

    def test_a_gate_that_fails(self):
        self.command("rt", "echo 40 passed, 1 failed; exit 1")
        status, lines = self.outcome()
        self.assertEqual((status, lines[-1]), (1, "40 passed, 1 failed"))
        self.assertIn(f"left out: {' '.join(CHECKS)}: the gate failed", lines)

    def test_a_gate_that_leaves_no_program(self):
        """It passed, but what it says of can't be checked."""
        self.command("rt", f"rm -r '{self.top}/crates/skewcheck/out'; echo 41 passed, 0 failed")
        status, lines = self.outcome()
        self.assertEqual((status, lines[-2:]), (1, ["failed: rt ci", "41 passed, 1 failed"]))
        self.assertIn(f"left out: {' '.join(CHECKS)}: the gate failed", lines)

    def test_which_program_is_checked(self):
        """The one that the gate has built, and without the gate the one that the environment names, from where it is named."""
        self.check("names", 'echo "checks $SKEWCHECK"; echo 1 passed, 0 failed')
        self.write(self.room / "other", "")
        self.assertIn("checks ", self.outcome(SKEWCHECK=str(self.room / "other"))[1])
        done = subprocess.run(
            [self.top / "test", "--quick"], cwd=self.room, stdin=subprocess.DEVNULL, capture_output=True, text=True, timeout=PATIENCE,
            env={**self.environment, "SKEWCHECK": "other"},
        )
        self.assertIn(f"checks {self.room}/other\n", done.stdout)

    def test_a_program_that_passed_is_taken_as_built(self):
        self.outcome()
        self.assertTrue((self.top / "crates" / "skewcheck" / "out" / "built").exists())


class LeftOut(WithRepository):
    def setUp(self):
        super().setUp()
        self.check("ask", "echo 'left out: tests/ask, a page: for want of the package chromium'; echo 7 passed, 0 failed")

    def test_is_said(self):
        status, lines = self.outcome("--quick")
        self.assertEqual((status, lines[-1]), (0, "21 passed, 0 failed"))
        self.assertEqual(lines[lines.index("== left out") + 1], "left out: tests/ask, a page: for want of the package chromium")

    def test_is_a_failure_where_packages_could_be_installed(self):
        status, lines = self.outcome("--quick", CI="true")
        self.assertEqual((status, lines[-1]), (1, "21 passed, 1 failed"))

    def test_packages_are_installed(self):
        bare = self.room / "bare"
        bare.mkdir()
        wanted = ("bash", "sh", "id", "cat", "grep", "tail", "tee", "wc", "nproc", "mktemp", "rm", "touch", "dirname", "readlink", "timeout", "env")
        for name in wanted:
            (bare / name).symlink_to(shutil.which(name))
        if os.geteuid() != 0:
            self.command("sudo", 'shift; exec "$@"')
        status, lines = self.outcome("--quick", CI="true", PATH=f"{self.room}/bin:{bare}")
        self.assertEqual(self.calls()[0], "apt-get -q update")
        self.assertRegex(self.calls()[1], "^apt-get -q install -y --no-install-recommends python3 jq parallel ")


class Refusals(WithRepository):
    def test_words(self):
        for words in (["--slow"], ["--quick", "--quick"], ["ask"], [""]):
            self.assertEqual(self.outcome(*words), (64, ["test: the words are ./test [--quick]"]))

    def test_help_runs_nothing(self):
        """Whether its line can be written or not."""
        for turns in ("", ">/dev/full"):
            done = subprocess.run(
                ["bash", "-c", f'"$1" --help {turns}', "bash", self.top / "test"], env=self.environment, stdout=subprocess.PIPE,
                stderr=subprocess.DEVNULL, text=True, timeout=PATIENCE,
            )
            self.assertEqual((done.stdout, self.calls()), ("" if turns else "./test [--quick]\n", []))

    def test_no_program(self):
        (self.top / "crates" / "skewcheck" / "out" / "skewcheck").unlink()
        status, lines = self.outcome("--quick")
        self.assertEqual((status, len(lines)), (72, 1))
        self.assertIn("./skewcheck demo 7 proves and builds it", lines[0])

    def test_no_rt(self):
        (self.room / "bin" / "rt").unlink()
        path = ":".join(part for part in self.environment["PATH"].split(":") if not os.path.exists(f"{part}/rt"))
        status, lines = self.outcome(PATH=path)
        self.assertEqual((status, lines[-1]), (1, "0 passed, 1 failed"))
        self.assertIn("test: the Rattle kit's command rt isn't there: docs/development.md says where it comes from", lines)


if __name__ == "__main__":
    unittest.main()
