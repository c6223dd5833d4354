"""How the scripts of the tests and benches end: each ending by tests/ends.py, and each script with wrong words."""

import os
import shlex
import signal
import subprocess
import sys
import tempfile
import unittest
from pathlib import Path

ROOT = Path(__file__).resolve().parents[2]
PATIENCE = 60
HEAD = f"import sys\nsys.path.insert(0, {str(ROOT / 'tests')!r})\nimport ends\n"

SIGNALLED = """
import signal, subprocess, unittest

class Case(unittest.TestCase):
    def test(self):
        for number in (signal.SIGHUP, signal.SIGINT, signal.SIGQUIT, signal.SIGTERM):
            process = subprocess.Popen(["sleep", "50"])
            process.send_signal(number)
            self.assertEqual(process.wait(10), -number)
"""

DYING = """
import atexit, os, unittest

atexit.register(os.kill, os.getpid(), 9)

class Case(unittest.TestCase):
    def test(self):
        pass
"""

# Each script with words that are wrong for it: an option that it hasn't, and where it has operands, none of them.
UNKNOWN = ["--no-such-option"]
COMPARISONS = sorted(path.name for path in (ROOT / "tests" / "reference").glob("compare*.py") if path.stem != "compare_best")
WITH_OPERANDS = [
    "benches/inputs.py", "benches/keep.py", "benches/z3.py", "tests/examples/examples.py", "tests/hostile/hostile.py",
    "tests/hostile/limits.py", "tests/hostile/timed.py", "tests/unittests.py",
    *(f"tests/reference/{name}" for name in ("demo_log.py", "derivations.py", "freshness.py", *COMPARISONS)),
]
WITHOUT = [
    "benches/beside.py", "benches/check.py", "benches/proofs.py", "benches/second.py", "tests/ask/agreement.py",
    "tests/ask/windows_agreement.py", "tests/clauses/figures", "tests/clauses/print", "tests/clauses/unreached",
    "tests/hostile/launcher.py", "tests/wrong/run",
    *(f"tests/reference/{name}" for name in ("check_freshness.py", "long")),
    *(f"tests/reference/selfcheck{name}.py" for name in ("", "_best", "_reports")),
]
OF_CASES = [
    "benches/beside.py", "benches/second.py", "tests/ask/agreement.py", "tests/ask/windows_agreement.py",
    *(f"tests/reference/{name}" for name in ("check_freshness.py", "long", "selfcheck_best.py", *COMPARISONS)),
]  # which take a number of cases
OTHERS = {"ask/main.py", "tests/reference/audit.py", "tests/reference/reports.py"}  # which end by themselves


def environment(**more):
    """The environment of a run, without what asks for tracebacks."""
    kept = {name: value for name, value in os.environ.items() if name != "TRACEBACK"}
    return {**kept, "PYTHONDONTWRITEBYTECODE": "1", **more}


class Endings(unittest.TestCase):
    """A script in a temporary folder, with each of the endings."""

    def setUp(self):
        room = tempfile.TemporaryDirectory()
        self.addCleanup(room.cleanup)
        self.room = Path(room.name)
        self.script = self.room / "some.py"

    def outcome(self, main, output=subprocess.PIPE, before=None, **more):
        """The status of a script with such a `main`, what it wrote, and what it said."""
        lines = "".join(f"    {line}\n" for line in main.splitlines())
        self.script.write_text(f"{HEAD}def main():\n{lines}ends.run(main)\n")
        done = subprocess.run([sys.executable, "some.py"], cwd=self.room, stdin=subprocess.DEVNULL, stdout=output, text=True,
                              stderr=subprocess.PIPE, timeout=PATIENCE, preexec_fn=before, env=environment(**more))
        return done.returncode, done.stdout, done.stderr

    def test_statuses_that_main_gives(self):
        self.assertEqual(self.outcome("print('done')"), (0, "done\n", ""))
        self.assertEqual(self.outcome("return 0"), (0, "", ""))
        self.assertEqual(self.outcome("print('a difference')\nreturn 1"), (1, "a difference\n", ""))
        self.assertEqual(self.outcome("return 2"), (2, "", ""))

    def test_statuses_of_exits(self):
        self.assertEqual(self.outcome("sys.exit()"), (0, "", ""))
        self.assertEqual(self.outcome("sys.exit(0)"), (0, "", ""))
        self.assertEqual(self.outcome("print('a difference')\nsys.exit(1)"), (1, "a difference\n", ""))
        self.assertEqual(self.outcome("sys.exit(73)"), (73, "", ""))

    def test_exit_with_a_text(self):
        self.assertEqual(self.outcome("sys.exit('no check was\\nseen')"), (66, "", "some.py: no check was seen\n"))

    def test_wrong_words(self):
        parser = "import argparse\nparser = argparse.ArgumentParser()\nparser.add_argument('file')\nparser.parse_args()"
        status, written, said = self.outcome(parser)
        self.assertEqual((status, written), (64, ""))
        self.assertEqual(said.splitlines()[-1], "some.py: error: the following arguments are required: file")

    def test_file_that_cannot_be_read(self):
        said = "some.py: lacking: No such file or directory\n"
        self.assertEqual(self.outcome("open('lacking')"), (74, "", said))
        self.assertEqual(self.outcome("open('.')"), (74, "", "some.py: .: Is a directory\n"))
        start = "import subprocess\nsubprocess.run(['./lacking'])"
        self.assertEqual(self.outcome(start), (74, "", said.replace("lacking", "./lacking")))

    def test_output_that_nobody_reads(self):
        long = "sys.stdout.write('w' * 1_000_000)"
        for main in ("print('word')", "print('word', flush=True)", long, "print('w')\nreturn 1"):
            reader, writer = os.pipe()
            os.close(reader)
            said = "some.py: the standard output can't be written: Broken pipe\n"
            with self.subTest(main), open(writer, "wb") as output:
                self.assertEqual(self.outcome(main, output), (75, None, said))

    def test_output_without_room(self):
        said = "some.py: the standard output can't be written: No space left on device\n"
        for main in ("print('word')", "sys.stdout.write('w' * 1_000_000)"):
            with self.subTest(main), open("/dev/full", "wb") as output:
                self.assertEqual(self.outcome(main, output), (75, None, said))

    def test_closed_output(self):
        said = "some.py: the standard output is closed\n"
        self.assertEqual(self.outcome("print('word')", before=lambda: os.close(1)), (75, "", said))

    def test_pipe_of_another_that_breaks(self):
        main = "import os\nreader, writer = os.pipe()\nos.close(reader)\nos.write(writer, b'w')"
        said = "some.py: BrokenPipeError: [Errno 32] Broken pipe (some.py, line 8)\n"
        self.assertEqual(self.outcome(main), (70, "", said.replace("(some.py", f"({self.script}")))

    def test_interrupt(self):
        said = "some.py: interrupted\n"
        self.assertEqual(self.outcome("raise KeyboardInterrupt"), (130, "", said))
        main = "import os, signal\nprint('before', flush=True)\nos.kill(os.getpid(), signal.SIGINT)\nsignal.pause()"
        self.assertEqual(self.outcome(main), (130, "before\n", said))

    def test_interrupt_from_outside(self):
        main = "def main():\n    print('on', flush=True)\n    time.sleep(60)\n"
        self.script.write_text(f"{HEAD}import time\n{main}ends.run(main)\n")
        pipe = subprocess.PIPE
        with subprocess.Popen([sys.executable, "some.py"], cwd=self.room, stdout=pipe, stderr=pipe, text=True) as process:
            self.assertEqual(process.stdout.readline(), "on\n")
            process.send_signal(signal.SIGINT)
            self.assertEqual(process.communicate(timeout=PATIENCE), ("", "some.py: interrupted\n"))
        self.assertEqual(process.returncode, 130)

    def test_any_other_exception(self):
        where = f"({self.script}, line 5)"
        said = f"some.py: ValueError: no number {where}\n"
        self.assertEqual(self.outcome("raise ValueError('no\\nnumber')"), (70, "", said))
        self.assertEqual(self.outcome("assert False"), (70, "", f"some.py: AssertionError {where}\n"))
        self.assertEqual(self.outcome("return 1 // 0")[0], 70)

    def test_traceback_that_is_asked_for(self):
        status, _, said = self.outcome("raise ValueError('no number')", TRACEBACK="1")
        lines = said.splitlines()
        self.assertEqual((status, lines[0]), (70, "Traceback (most recent call last):"))
        self.assertEqual(lines[-1], f"some.py: ValueError: no number ({self.script}, line 5)")
        self.assertNotIn("Traceback", self.outcome("raise ValueError('no number')", TRACEBACK="0")[2])

    def test_closed_standard_error(self):
        self.assertEqual(self.outcome("raise ValueError('no number')", before=lambda: os.close(2)), (70, "", ""))


class Scripts(unittest.TestCase):
    """Each script of the repository that isn't for users."""

    def outcome(self, name, *words):
        """How a script ends that is run from elsewhere."""
        with tempfile.TemporaryDirectory() as folder:
            return subprocess.run([sys.executable, str(ROOT / name), *words], cwd=folder, stdin=subprocess.DEVNULL,
                                  capture_output=True, text=True, timeout=PATIENCE, env=environment())

    def refuses(self, name, *words, said=""):
        """Tests that words are refused by a usage text and at most one line, in which something is said."""
        with self.subTest(name, words=words):
            done = self.outcome(name, *words)
            self.assertEqual((done.returncode, done.stdout), (64, ""), done.stderr)
            self.assertNotIn("Traceback", done.stderr)
            lines = [line for line in done.stderr.splitlines() if not line.startswith(("usage: ", "  "))]
            self.assertLessEqual(len(lines), 1, done.stderr)
            self.assertIn(said, "".join(lines))
            self.assertRegex(done.stderr, "^usage: ")

    def test_unknown_options(self):
        for name in [*WITHOUT, *WITH_OPERANDS]:
            self.refuses(name, *UNKNOWN)

    def test_missing_operands(self):
        for name in WITH_OPERANDS:
            self.refuses(name)

    def test_words_that_are_out_of_range(self):
        self.refuses("benches/inputs.py", "system", "4", "sideways")
        self.refuses("benches/inputs.py", "problem", "4", "many")
        self.refuses("tests/reference/demo_log.py", "first")
        self.refuses("tests/reference/freshness.py", "f", "l", "true", "-1", "d")
        self.refuses("tests/reference/long", "--only", "nothing")
        self.refuses("tests/unittests.py", "no_such_folder")
        self.refuses("tests/wrong/run", "no_such_crate")
        self.refuses("tests/hostile/timed.py", "file")

    def test_no_script_takes_no_case(self):
        for name in OF_CASES:
            program = ["/no/program"] if name in WITH_OPERANDS else []
            self.refuses(name, *program, "--cases", "0", said="--cases: 0 is below 1")
        for number in ("-1", "many", "1.5"):
            self.refuses("tests/reference/compare.py", "/no/program", "--cases", number, said=f"{number}")

    def test_each_number_of_cases_is_read_alike(self):
        for folder in ("benches", "tests/ask", "tests/hostile", "tests/reference"):
            for path in (ROOT / folder).glob("*"):
                lines = path.read_text(errors="replace").splitlines() if path.is_file() else []
                wrong = [line for line in lines if 'add_argument("--cases"' in line and "type=number_of_cases" not in line]
                self.assertEqual(wrong, [], path)

    def test_wrong_words_for_cases_side_by_side(self):
        done = self.outcome("tests/unittests.py", str(ROOT / "tests" / "names"), "--side-by-side", *UNKNOWN)
        self.assertEqual((done.returncode, done.stderr), (64, ""))

    def test_a_part_that_dies_behind_its_closing_line(self):
        with tempfile.TemporaryDirectory() as folder:
            Path(folder, "test_part.py").write_text(DYING)
            done = self.outcome("tests/unittests.py", folder, "--side-by-side")
        self.assertEqual((done.returncode, done.stdout.splitlines()[-2:]), (1, ["1 passed, 0 failed", "0 passed, 1 failed"]))

    def test_cases_heed_signals_that_are_ignored(self):
        """What `nohup`, or a shell in the background, has its commands ignore ends a program that a case begins."""
        with tempfile.TemporaryDirectory() as folder:
            Path(folder, "test_signals.py").write_text(SIGNALLED)
            words = ["sh", "-c", 'trap "" HUP INT QUIT TERM; exec "$@"', "", sys.executable, str(ROOT / "tests" / "unittests.py"), folder]
            done = subprocess.run(words, capture_output=True, text=True, timeout=PATIENCE)
        self.assertEqual((done.returncode, done.stdout), (0, "1 passed, 0 failed\n"), done.stderr)

    def test_files_that_are_not_there(self):
        lacking = "No such file or directory"
        for name, *words in (
            ("tests/reference/derivations.py", "f", "l", "true", "d"),
            ("tests/reference/freshness.py", "f", "l", "true", "1", "d"),
            ("tests/hostile/timed.py", "f", "lacking.py"),
        ):
            with self.subTest(name):
                done = self.outcome(name, *words)
                file = "lacking.py" if "timed" in name else "f"
                self.assertEqual((done.returncode, done.stdout), (74, ""))
                self.assertEqual(done.stderr, f"{name}: {file}: {lacking}\n")

    def test_program_that_is_not_there(self):
        for name in ("compare.py", "compare_systems.py", "compare_span.py"):
            with self.subTest(name):
                done = self.outcome(f"tests/reference/{name}", "/no/program", "--cases", "1")
                self.assertEqual(done.returncode, 74)
                self.assertEqual(done.stderr, f"tests/reference/{name}: /no/program: No such file or directory\n")

    def test_a_named_program_that_is_not_there(self):
        for name in ("tests/ask/run", "tests/edge/run", "tests/install/run"):
            with self.subTest(name):
                done = subprocess.run(
                    [ROOT / name], stdin=subprocess.DEVNULL, capture_output=True, text=True, timeout=PATIENCE,
                    env=environment(SKEWCHECK="/no/program"),
                )
                self.assertEqual((done.returncode, done.stdout), (72, ""))
                self.assertEqual(done.stderr, f"{name[:-4]}: /no/program isn't there\n")

    def test_a_program_is_named_from_where_the_script_is_run(self):
        with tempfile.TemporaryDirectory() as folder:
            folder = Path(folder).resolve()
            for name, script in (("tests/edge", "tests/edge/run"), ("allocations.sh", "faults/allocations.sh")):
                done = subprocess.run(
                    [ROOT / script], cwd=folder, stdin=subprocess.DEVNULL, capture_output=True, text=True, timeout=PATIENCE,
                    env=environment(SKEWCHECK="program"),
                )
                self.assertEqual((done.returncode, done.stderr), (72, f"{name}: {folder}/program isn't there\n"))

    def test_inputs_that_are_not_right(self):
        with tempfile.TemporaryDirectory() as folder:
            for file, text in (("f", "a.p &"), ("l", "kind,host,time,name\n"), ("d", "")):
                Path(folder, file).write_text(text)
            paths = [str(Path(folder, file)) for file in "fl"]
            for name, words in (("derivations.py", ["true", "d"]), ("freshness.py", ["true", "1", "d"])):
                with self.subTest(name):
                    done = self.outcome(f"tests/reference/{name}", *paths, *words)
                    self.assertEqual((done.returncode, done.stdout), (66, ""))
                    self.assertRegex(done.stderr, rf"^tests/reference/{name}: formula fault [0-9]+ at byte [0-9]+\n$")

    def test_timed_hands_on_how_a_script_ends(self):
        with tempfile.TemporaryDirectory() as folder:
            script, taken = Path(folder, "some.py"), Path(folder, "taken")
            for text, status, said in (
                ("import sys\nsys.exit(2)", 2, ""), ("raise SystemExit('a finding')", 1, "a finding\n"),
                ("import sys\nprint(sys.path[0] + sys.argv[1])", 0, ""),
            ):
                script.write_text(text)
                done = self.outcome("tests/hostile/timed.py", str(taken), str(script), "/word")
                self.assertEqual((done.returncode, done.stderr), (status, said))
                self.assertGreater(float(taken.read_text()), 0)
            self.assertEqual(done.stdout, f"{Path(folder).resolve()}/word\n")
            script.write_text("print(1 // 0)")
            done = self.outcome("tests/hostile/timed.py", str(taken), str(script))
            self.assertEqual(done.returncode, 1)
            self.assertIn("Traceback", done.stderr)

    def test_launcher_answers_runs(self):
        run = '{"words": ["/bin/false"], "folder": "/", "output": "/dev/null", "seconds": 5}\n'
        launcher = [sys.executable, "-I", "-S", str(ROOT / "tests" / "hostile" / "launcher.py")]
        done = subprocess.run(launcher, input=run, capture_output=True, text=True, timeout=PATIENCE)
        self.assertEqual((done.returncode, done.stderr), (0, ""))
        self.assertRegex(done.stdout, r'^\{"status": 1, "seconds": [0-9.e-]+, "bytes": [0-9]+\}\n$')

    def test_clauses_into_a_pipe_that_is_closed(self):
        name = shlex.quote(str(ROOT / "tests" / "clauses" / "print"))
        script = f"{name} | head -n 1; echo ${{PIPESTATUS[0]}}"
        done = subprocess.run(["bash", "-c", script], capture_output=True, text=True, timeout=PATIENCE, env=environment())
        lines = done.stdout.splitlines()
        self.assertEqual(lines[1:], ["75"])
        self.assertEqual(done.stderr, "tests/clauses/print: the standard output can't be written: Broken pipe\n")

    def test_all_scripts_are_tried(self):
        """Every script with a block of its own is on the list, but those of users, those that stand alone and tests."""
        tried = {*WITHOUT, *WITH_OPERANDS}
        found = set()
        for folder in ("benches", "tests"):
            for path in (ROOT / folder).rglob("*"):
                if path.is_file() and not path.name.startswith("test_") and path.suffix in ("", ".py"):
                    if '\nif __name__ == "__main__":\n' in path.read_text(errors="replace"):
                        found.add(str(path.relative_to(ROOT)))
        self.assertEqual(found - OTHERS, tried)


if __name__ == "__main__":
    unittest.main()
