"""Names with any bytes, logs that are no files, folders of others, programs that are none, signals and full devices."""

import os
import shutil
import signal
import socket
import subprocess
import sys
import tempfile
import time
import unittest
from pathlib import Path

ROOT = Path(__file__).resolve().parent.parent.parent
sys.path[:0] = [str(ROOT / "examples"), str(ROOT / "tests")]
heeded = signal.getsignal(signal.SIGINT)

import many_logs
from gone import left_of

signal.signal(signal.SIGINT, heeded)  # which the script turns
SCRIPT = ROOT / "examples" / "many_logs.py"
LOGS = ROOT / "examples" / "requests"
FORMULA = ROOT / "examples" / "within_5.formula"
PROGRAM = os.environ["SKEWCHECK"]
PATIENCE = 60
MET = (LOGS / "met.csv").read_bytes()  # of which the formula is true
# Names with how `statuses` has them.
NAMES = {
    b"a\nb.csv": r"a\nb.csv", b"-x.csv": "-x.csv", b"--to.csv": "--to.csv", b"'q\".csv": "'q\".csv", b"\xff.csv": r"\xff.csv", b"a\\nb.csv": r"a\\nb.csv",
    b"$(touch x).csv": "$(touch x).csv", b"a\tb.csv": r"a\tb.csv", b"\x1b[31m.csv": r"\x1b[31m.csv", b"\xe2\x80\xae.csv": r"\u202e.csv", b" .csv": " .csv",
    b"{}.csv": "{}.csv", b"*.csv": "*.csv", b"x" * 251 + b".csv": "x" * 251 + ".csv", b".csv": ".csv", "é 中.csv".encode(): "é 中.csv",
}


class WithRoom(unittest.TestCase):
    def setUp(self):
        room = tempfile.TemporaryDirectory()
        self.addCleanup(room.cleanup)
        self.room = Path(room.name)
        self.logs, self.to = self.room / "logs", self.room / "to"
        self.logs.mkdir()
        (self.logs / "met.csv").write_bytes(MET)

    def asked(self, words, turns="", program=PROGRAM):
        """How a run of the script ended, its streams turned by the shell, or with a variable of its environment."""
        before, turns = (turns, "") if "=" in turns else ("", turns)
        return subprocess.run(
            ["bash", "-c", f'{before} exec "$@" {turns}', "bash", sys.executable, "-B", SCRIPT, *words, "--program", program], stdin=subprocess.DEVNULL,
            capture_output=True, timeout=PATIENCE, cwd=self.room,
        )

    def words(self, *more):
        return [self.logs, FORMULA, "--to", self.to, *more]

    def statuses(self, to=None):
        """The lines of the file of statuses, by the names of logs."""
        lines = os.fsencode(to or self.to)
        with open(os.path.join(lines, b"statuses"), encoding="utf-8") as file:
            fields = [line.rstrip("\n").split("\t") for line in file]
        return {log: int(status) for status, _, log in fields}

    def program(self, text):
        """A program of a shell script."""
        path = self.room / "program"
        path.write_text(f"#!/bin/bash\n{text}\n")
        path.chmod(0o755)
        return path


class Names(WithRoom):
    def test_names_of_logs(self):
        for name in NAMES:
            with open(os.path.join(os.fsencode(self.logs), name), "wb") as file:
                file.write(MET)
        done = self.asked(self.words())
        self.assertEqual((done.returncode, done.stderr), (0, b""))
        self.assertEqual(self.statuses(), {"met.csv": 0, **{shown: 0 for shown in NAMES.values()}})
        reports = os.listdir(os.path.join(os.fsencode(self.to), b"reports", b"within_5.formula"))
        self.assertEqual({name[:-7] for name in reports if len(name) < 239}, {b"met.csv", *(name for name in NAMES if len(name) < 249)})
        self.assertEqual(len(reports), 1 + len(NAMES))
        self.assertEqual(sorted(os.listdir(self.room)), ["logs", "to"])
        done = self.asked(self.words("--jobs", "1"))  # nothing is asked again
        self.assertEqual((done.returncode, len((self.to / "jobs").read_text().splitlines())), (0, 3))

    def test_names_of_formulas_and_folders(self):
        for name in (b"-f\xfe\n'\".formula", b"{}$(touch x)", b"\x1b[2J", b"n" * 250):
            formula, to = (os.path.join(os.fsencode(self.room), start + name) for start in (b"", b"to"))
            shutil.copy(os.fsencode(FORMULA), formula)
            done = self.asked([self.logs, formula, "--to", to])
            self.assertEqual((done.returncode, done.stderr), (0, b""), name)
            self.assertNotRegex(done.stdout.decode(), "[\x00-\x09\x0b-\x1f\x7f]")
            self.assertEqual(self.statuses(to), {"met.csv": 0})

    def test_names_of_programs(self):
        for name in ("a b", "{}", "{.}'$(touch x)", "q\"`touch x`\n"):
            folder = self.room / name
            folder.mkdir()
            shutil.copy(PROGRAM, folder / "skewcheck")
            done = self.asked([self.logs, FORMULA, "--to", self.room / f"to {len(name)}"], program=folder / "skewcheck")
            self.assertEqual((done.returncode, done.stderr), (0, b""), name)
        self.assertFalse((self.room / "x").exists())

    def test_names_are_asked_about_too(self):
        self.assertEqual(self.asked(self.words()).returncode, 0)
        (self.logs / "met.csv").rename(self.logs / "other.csv")
        done = self.asked(self.words())
        self.assertEqual((done.returncode, b"has answers of other logs" in done.stderr), (64, True))


class LogsThatAreNone(WithRoom):
    def test_each_is_refused_by_name_and_the_others_are_asked(self):
        os.mkfifo(self.logs / "fifo.csv")
        (self.logs / "folder.csv").mkdir()
        (self.logs / "nothing.csv").symlink_to("/nowhere")
        (self.logs / "zero.csv").symlink_to("/dev/zero")
        with socket.socket(socket.AF_UNIX) as end:
            end.bind(str(self.logs / "socket.csv"))
        done = self.asked(self.words())
        odd = ("fifo.csv", "folder.csv", "nothing.csv", "socket.csv", "zero.csv")
        self.assertEqual((done.returncode, self.statuses()), (74, {"met.csv": 0, **{name: 74 for name in odd}}))
        said = done.stderr.decode().splitlines()
        self.assertEqual([line.partition(" can't be read: ")[0] for line in said], [f"many_logs: {self.logs / name}" for name in odd])
        self.assertEqual(done.stdout.split(b"\n")[1].split(), b"within_5.formula 1 0 0 0 0 5".split())

    def test_none_at_all(self):
        (self.logs / "met.csv").unlink()
        os.mkfifo(self.logs / "fifo.csv")
        done = self.asked(self.words())
        self.assertEqual((done.returncode, self.statuses()), (74, {"fifo.csv": 74}))

    def test_logs_that_are_too_long(self):
        (self.logs / "long.csv").write_bytes(b"\n" * 1_048_577)
        self.assertEqual((self.asked(self.words()).returncode, self.statuses()), (67, {"met.csv": 0, "long.csv": 67}))


class Folders(WithRoom):
    def refused(self, status, part, words=None):
        """Asserts a refusal in one line that changes nothing."""
        before = {path: path.is_file() and path.read_bytes() for path in self.room.rglob("*")}
        done = self.asked(words or self.words())
        self.assertEqual((done.returncode, done.stdout, done.stderr.count(b"\n")), (status, b"", 1), done.stderr)
        self.assertIn(part, done.stderr.decode())
        self.assertEqual({path: path.is_file() and path.read_bytes() for path in self.room.rglob("*")}, before)

    def test_a_folder_of_somebody_else(self):
        (self.to / "answers").mkdir(parents=True)
        (self.to / "answers" / "own").write_text("precious")
        self.refused(73, "no mark of answers")
        (self.to / "many_logs.mark").write_text("something else")
        self.refused(73, "no mark of answers")
        (self.to / "many_logs.mark").unlink()
        (self.to / "many_logs.mark").symlink_to("/dev/null")
        self.refused(73, "no mark of answers")

    def test_folders_that_can_not_be(self):
        (self.room / "file").write_text("")
        self.refused(73, "can't be made", [self.logs, FORMULA, "--to", self.room / "file" / "to"])
        self.refused(74, "is no folder", [self.logs, FORMULA, "--to", self.room / "file"])

    def test_an_empty_folder_is_taken(self):
        self.to.mkdir()
        self.assertEqual(self.asked(self.words()).returncode, 0)

    def test_what_others_put_there_stays(self):
        self.assertEqual(self.asked(self.words()).returncode, 0)
        others = [self.to / "answers" / name for name in ("own", "00001.tar.bak", "00002.tar", "00009.tar.err")] + [self.to / "own"]
        for path in others:
            path.write_text("precious")
        jobs = self.to / "jobs"
        jobs.write_text(jobs.read_text().splitlines()[0] + "\n")  # as where the power failed
        self.assertEqual(self.asked(self.words()).returncode, 0)
        self.assertEqual([path.read_text() for path in others], ["precious"] * 5)
        self.assertEqual(len(jobs.read_text().splitlines()), 2)

    def test_answers_that_are_broken(self):
        self.assertEqual(self.asked(self.words()).returncode, 0)
        for data in (b"", b"no archive", b"\0" * 10_240):
            (self.to / "answers" / "00001.tar").write_bytes(data)
            done = self.asked(self.words())  # which asks again
            self.assertEqual((done.returncode, done.stderr, self.statuses()), (0, b"", {"met.csv": 0}))
        (self.to / "answers" / "00001.tar").unlink()
        self.assertEqual((self.asked(self.words()).returncode, self.statuses()), (0, {"met.csv": 0}))

    def test_a_folder_in_use(self):
        """Two runs at once would take each other's answers away."""
        wait = f"touch '{self.room}/begun'; for i in {{1..1200}}; do [ -e '{self.room}/go' ] || sleep 0.05; done; exec '{PROGRAM}' \"$@\""
        program = self.program(wait)
        first = subprocess.Popen([sys.executable, "-B", SCRIPT, *self.words("--program", program)], stdout=subprocess.DEVNULL)
        until = time.monotonic() + PATIENCE
        while not (self.room / "begun").exists() and time.monotonic() < until:
            time.sleep(0.02)
        done = self.asked(self.words(), program=program)
        (self.room / "go").write_text("")
        self.assertEqual((done.returncode, done.stderr), (73, f"many_logs: {self.to} is in use by another run\n".encode()))
        self.assertEqual((first.wait(PATIENCE), self.statuses()), (0, {"met.csv": 0}))

    def test_a_folder_that_can_not_be_read(self):
        """It isn't told as one without logs."""
        python = shutil.which("python3", path="/usr/bin:/bin")
        if not python or os.geteuid() == 0 and not shutil.which("setpriv"):
            self.skipTest("another user needs python3 in /usr/bin, and setpriv of the package util-linux")
        self.logs.chmod(0o300)
        self.room.chmod(0o755)
        before = ["setpriv", "--reuid=65534", "--regid=65534", "--clear-groups"] if os.geteuid() == 0 else []
        done = subprocess.run(
            [*before, python, "-B", SCRIPT, self.logs, FORMULA, "--to", self.to, "--program", "/bin/true"], stdin=subprocess.DEVNULL,
            capture_output=True, timeout=PATIENCE,
        )
        self.assertEqual((done.returncode, done.stderr.decode()), (74, f"many_logs: {self.logs}: Permission denied\n"))

    def test_the_folder_that_is_named_by_dots(self):
        """Its answers are beside it all the same."""
        for number, name in enumerate((".", "..", "./", "../logs/.")):
            inner = self.logs if name != ".." else self.logs / "inner"
            inner.mkdir(exist_ok=True)
            done = subprocess.run(
                [sys.executable, "-B", SCRIPT, name, FORMULA, "--program", PROGRAM], cwd=inner, stdin=subprocess.DEVNULL, capture_output=True,
                timeout=PATIENCE,
            )
            self.assertEqual((done.returncode, (self.room / "logs.answers" / "statuses").is_file()), (0, True), name)
            shutil.rmtree(self.room / "logs.answers")
            if inner != self.logs:
                inner.rmdir()
        self.assertEqual(sorted(os.listdir(self.room)), ["logs"])


class Ends(WithRoom):
    def test_streams(self):
        for number, turns in enumerate((">/dev/full", ">&-", "<&- >&- 2>&-")):
            done = self.asked([self.logs, FORMULA, "--to", self.room / str(number)], turns)
            self.assertEqual((done.returncode, done.stderr.count(b"\n")), (75, 0 if "2>" in turns else 1), done.stderr)
        for number, turns in enumerate(("2>&-", "2>/dev/full", "<&-"), 7):
            self.assertEqual(self.asked([self.logs, FORMULA, "--to", self.room / str(number)], turns).returncode, 0)
        self.assertEqual(self.asked(["--help"], ">/dev/full").returncode, 75)

    def test_programs_that_are_none(self):
        for number, (text, status) in enumerate((
            ("exit 0", 72), ("exit 1", 72), ("exit 5", 72), ("echo true; exit 0", 72), ("kill -9 $$", 137), ("exit 66", 66),
            ("printf 'skewcheck 1\\nevents 2\\ntrue witness\\n1\\n2\\nfalse witness\\n1\\n2\\nend\\n'; exit 0", 72),
        )):
            done = self.asked([self.logs, FORMULA, "--to", self.room / str(number)], program=self.program(text))
            self.assertEqual(done.returncode, status, text)
            self.assertEqual(b"isn't what check writes" in done.stderr, status == 72)

    def test_words(self):
        for words in (["--seconds", "nan"], ["--seconds", "-1"], ["--seconds", "0"], ["--conflicts", "0"], ["--conflicts", "9" * 5000], ["--jobs", "x"],
                      ["--bundle", "9" * 5000], ["--bundle", "x"], [b"\xff\n"]):
            done = self.asked([self.logs, FORMULA, "--to", self.to, *words])
            self.assertEqual((done.returncode, done.stderr.count(b"\n")), (74 if words == [b"\xff\n"] else 64, 1), words)
            self.assertFalse(self.to.exists())

    def test_answers_that_can_not_be_kept_are_asked_for_again(self):
        """Where a report can't be written, or its status, as on a full device."""
        for text in ("exit 75", "rm -r answers", "rm -r answers; mkdir -p answers/1/1.status"):
            program = self.program(f"{text}; exec '{PROGRAM}' \"$@\"")
            done = self.asked(self.words(), program=program)
            self.assertEqual((done.returncode, self.statuses()), (125, {"met.csv": 125}), text)
            self.assertNotEqual(done.stderr, b"")
            self.program(f"exec '{PROGRAM}' \"$@\"")
            done = self.asked(self.words(), program=program)
            self.assertEqual((done.returncode, done.stderr, self.statuses()), (0, b"", {"met.csv": 0}), text)
            shutil.rmtree(self.to)

    def test_jobs_whose_answers_are_lost(self):
        """As where the power fails behind a job: it is told, and asked again."""
        parallel = self.room / "bin" / "parallel"
        parallel.parent.mkdir()
        parallel.write_text(f'#!/bin/sh\n{shutil.which("parallel")} "$@"\nrm answers/*.tar\n')
        parallel.chmod(0o755)
        done = self.asked(self.words(), f"PATH='{self.room}/bin:{os.environ['PATH']}'")
        self.assertEqual((done.returncode, self.statuses()), (125, {"met.csv": 125}))
        self.assertEqual(done.stderr.decode(), f"many_logs: {self.to}/answers/00001.tar lacks answers, which the same words ask for again\n")
        self.assertEqual((self.asked(self.words()).returncode, self.statuses()), (0, {"met.csv": 0}))

    def test_shells_of_other_machines(self):
        """A job is for each shell that reads what `sh` reads."""
        bundle = self.room / "bundle"
        bundle.write_bytes(many_logs.bundle([many_logs.Question(1, 1, FORMULA.read_bytes(), MET, False)]))
        job = many_logs.JOB.format(program=PROGRAM, command=f"'{PROGRAM}' check", unwritten=75).replace("{}", str(bundle))
        for shell in filter(shutil.which, ("sh", "bash", "dash", "zsh", "ksh", "mksh")):
            done = subprocess.run([shell, "-c", job], capture_output=True, timeout=PATIENCE, env={**os.environ, "TMPDIR": str(self.room)})
            self.assertEqual((done.returncode, done.stderr), (0, b""), shell)
            (self.room / "answers").write_bytes(done.stdout)
            found = {kind: data for _, kind, data in many_logs.answers_in(self.room / "answers")}
            self.assertEqual((found["status"], many_logs.verdict_of(found["report"])), (b"0\n", 0), shell)
            self.assertEqual(sorted(os.listdir(self.room)), ["answers", "bundle", "logs"], shell)

    def test_a_program_that_is_none_by_its_own_status(self):
        done = self.asked(self.words(), program=self.program("exit 72"))
        self.assertEqual((done.returncode, done.stderr), (72, b""))

    def test_hardly_any_time(self):
        done = self.asked(self.words("--seconds", "0.0000001"), program=self.program("exec sleep 9"))
        self.assertEqual(done.returncode, 124)

    def test_signals_end_the_jobs(self):
        for words in ((), ("--seconds", "40")):
            with self.subTest(words=words):
                self.signals_end_the_jobs(*words)

    def signals_end_the_jobs(self, *words):
        stubborn = f"trap '' TERM INT HUP; sleep 50 & echo $$ $! >'{self.room}/new'; mv '{self.room}/new' '{self.room}/begun'; sleep 50; sleep 50"
        for number in (signal.SIGINT, signal.SIGTERM, signal.SIGHUP):
            run = subprocess.Popen(
                [sys.executable, "-B", SCRIPT, *self.words("--program", self.program(stubborn), *words)], stderr=subprocess.PIPE,
                stdin=subprocess.DEVNULL, env={**os.environ, "TMPDIR": str(self.room)},
                preexec_fn=lambda: signal.signal(signal.SIGINT, signal.SIG_DFL),
            )
            until = time.monotonic() + PATIENCE
            while not (self.room / "begun").exists() and time.monotonic() < until:
                time.sleep(0.02)
            run.send_signal(number)
            _, said = run.communicate(timeout=PATIENCE)
            self.assertEqual((run.returncode, said.count(b"\n")), (128 + number, 1), said)
            self.assertIn(b"broken off; the same words go on from here", said)
            self.assertEqual(left_of((self.room / "begun").read_text().split()), [])
            (self.room / "begun").unlink()
            self.assertEqual([name for name in os.listdir(self.room) if name.startswith("tmp.")], [])
            shutil.rmtree(self.to)


if __name__ == "__main__":
    unittest.main()
