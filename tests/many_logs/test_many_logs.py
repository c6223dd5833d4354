"""Many logs by examples/many_logs.py: the page, reports, going on, refusals, and another machine through ssh."""

import os
import re
import resource
import shutil
import signal
import subprocess
import sys
import tempfile
import time
import unittest
from pathlib import Path

ROOT = Path(__file__).resolve().parent.parent.parent
SCRIPT = ROOT / "examples" / "many_logs.py"
LOGS = ROOT / "examples" / "requests"
FORMULAS = [ROOT / "examples" / name for name in ("within_5.formula", "within_9.formula")]
PROGRAM = os.environ["SKEWCHECK"]
PATIENCE = 60
COUNTS = """\
formula           true  false  either  no timing  unknown  none
within_5.formula     1      1       1          1        0     1
within_9.formula     2      1       0          1        0     1
"""
GREAT = """\
import io, sys, tarfile, tracemalloc
from pathlib import Path
from types import SimpleNamespace
sys.path.insert(0, sys.argv[1])
import many_logs
top = Path(sys.argv[2])
(top / "answers").mkdir(parents=True)
asked = [(1, log) for log in range(1, 9)]
with tarfile.open(top / "answers" / "00001.tar", "w") as archive:
    for formula, log in asked:
        for kind, data in (("report", bytes(1 << 22)), ("status", b"2")):
            entry = tarfile.TarInfo(f"./{formula}/{log}.{kind}")
            entry.size = len(data)
            if log > 1 or kind == "report":
                archive.addfile(entry, io.BytesIO(data))
done = ["1", ":", "0", "0", "0", "0", "0", "0", ""]
(top / "jobs").write_text("title\\n" + "\\t".join(done) + "\\n")
questions = SimpleNamespace(
    top=top, bundles={"00001.tar": asked}, statuses=dict.fromkeys(asked, 125), written={},
    name_of=lambda formula, log: ("f", f"{log}.csv"),
)
many_logs.tell = lambda words: None
tracemalloc.start()
many_logs.collect(questions)
print(tracemalloc.get_traced_memory()[1], *questions.statuses.values())
"""
GATHERED = """\
import sys, tracemalloc
sys.path.insert(0, sys.argv[1])
import many_logs
tracemalloc.start()
many_logs.Questions(many_logs.options_of(sys.argv[2:]), "check")
print(tracemalloc.get_traced_memory()[1])
"""


def asked(words, **environment):
    """How a run of the script ended."""
    return subprocess.run(
        [sys.executable, "-B", SCRIPT, *words], stdin=subprocess.DEVNULL, capture_output=True, text=True, timeout=PATIENCE,
        env={**os.environ, **environment},
    )


def reports_of(folder):
    """The reports of a folder of answers by their names."""
    reports = Path(folder) / "reports"
    return {str(path.relative_to(reports)): path.read_bytes() for path in reports.rglob("*.report")}


def reports_by_hand():
    """What the program writes of each question, without parallel."""
    questions = [(formula, log) for formula in FORMULAS for log in LOGS.glob("*.csv")]
    runs = {f"{formula.name}/{log.name}.report": [PROGRAM, "check", formula, log] for formula, log in questions}
    return {name: subprocess.run(words, capture_output=True).stdout for name, words in runs.items()}


class WithRoom(unittest.TestCase):
    def setUp(self):
        room = tempfile.TemporaryDirectory()
        self.addCleanup(room.cleanup)
        self.room = Path(room.name)
        self.to = self.room / "answers"

    def words(self, *more, logs=LOGS):
        return [logs, *FORMULAS, "--to", self.to, "--program", PROGRAM, *more]


class Answers(WithRoom):
    def test_page(self):
        page = (ROOT / "docs" / "many-logs.md").read_text()
        block = re.search(r"^```sh\n(.*?)^```$", page, re.M | re.S)[1]
        commands = [part.partition("\n") for part in re.split(r"^\$ ", block, flags=re.M)[1:]]
        self.assertGreater(len(commands), 3)
        places = {"./skewcheck": PROGRAM, "/tmp/answers": str(self.to)}
        for command, _, below in commands:
            command = re.sub("|".join(map(re.escape, places)), lambda match: places[match[0]], command)
            command = command.replace("--to", f"--program {PROGRAM} --to")
            with self.subTest(command=command):
                done = subprocess.run(["bash", "-c", command], cwd=ROOT, stdout=subprocess.PIPE, text=True, timeout=PATIENCE)
                self.assertEqual((done.stdout, done.returncode), (below, 0))

    def test_reports(self):
        done = asked(self.words("--bundle", "3"))
        self.assertEqual((done.returncode, done.stdout), (66, COUNTS))
        self.assertEqual(reports_of(self.to), reports_by_hand())

    def test_what_is_no_log_is_left_out(self):
        logs = self.room / "logs"
        shutil.copytree(LOGS, logs)
        (logs / "saga.json").write_text("[]\n")
        (logs / "older").mkdir()
        done = asked(self.words(logs=logs))
        self.assertEqual((done.returncode, done.stdout), (66, COUNTS))
        self.assertIn(f"left out of {logs}, being no NAME.csv: 2\n", done.stderr)

    def test_whole_status_of_answers(self):
        logs = self.room / "logs"
        for status, name in ((0, "met"), (2, "unclear"), (1, "late"), (3, "impossible")):
            logs.mkdir(exist_ok=True)
            shutil.copy(LOGS / f"{name}.csv", logs)
            done = asked([logs, FORMULAS[0], "--to", self.room / name, "--program", PROGRAM])
            self.assertEqual(done.returncode, status, name)

    def test_a_question_that_takes_too_long(self):
        done = asked(self.words("--program", self.slow(), "--seconds", "0.1"))
        self.assertEqual(done.returncode, 124, done.stderr)

    def slow(self):
        program = self.room / "slow"
        program.write_text("#!/bin/sh\nexec sleep 9\n")
        program.chmod(0o755)
        return program


class WordsOfAsk(WithRoom):
    """Formulas that are written out for each log."""

    # The leaders of `two` come one after the other, those of `both` at once; `other` has no n0, and `faulty` no skew.
    LOGS = {
        "two": "host,n0,1,0\nhost,n1,1,0\nset,n0,10,leader\nclear,n0,20,leader\nset,n1,30,leader\n",
        "both": "host,n0,1,0\nhost,n1,1,0\nset,n0,10,leader\nset,n1,30,leader\n",
        "three": "host,n0,1,0\nhost,n1,1,0\nhost,n2,1,0\nset,n0,10,leader\nset,n1,30,leader\nset,n2,31,leader\n",
        "other": "host,web,1,0\nset,web,10,leader\n", "faulty": "host,web\n",
    }

    def setUp(self):
        super().setUp()
        self.logs = self.room / "logs"
        self.logs.mkdir()
        for name, text in self.LOGS.items():
            (self.logs / f"{name}.csv").write_text(f"kind,host,time,name\n{text}")

    def formula(self, text):
        """A formula in a file."""
        path = self.room / "asked.formula"
        path.write_text(text)
        return path

    def statuses(self, *words):
        """The statuses by the names of logs, with what was said."""
        done = asked([self.logs, *words, "--to", self.to, "--program", PROGRAM])
        fields = [line.split("\t") for line in (self.to / "statuses").read_text().splitlines()]
        statuses = {log[:-4]: int(status) for status, _, log in fields}
        self.assertEqual(done.returncode, max(statuses.values()))
        return statuses, done.stderr

    def test_each_log_has_its_own_formula(self):
        statuses, said = self.statuses(self.formula("G at most one of n*.leader"))
        self.assertEqual(statuses, {"two": 0, "both": 1, "three": 1, "other": 65, "faulty": 66})
        self.assertIn("many_logs: other.csv: asked.formula, line 1, column 18: no proposition that a row sets or pulses matches n*.leader.", said)
        self.assertIn("many_logs: faulty.csv, line 2, column 1: a record has four fields", said)
        kept = {path.name: path.read_text() for path in self.to.rglob("*.csv.formula")}
        pair, third = "G !(n0.leader & n1.leader)", "G (!(n0.leader & n1.leader) & !((n0.leader | n1.leader) & n2.leader))"
        self.assertEqual(kept, {"two.csv.formula": pair, "both.csv.formula": pair, "three.csv.formula": third})
        for name in kept:
            formula = self.to / "reports" / "asked.formula" / name
            words = ["audit", formula, self.logs / formula.stem, formula.with_suffix(".report")]
            self.assertEqual(subprocess.run([PROGRAM, *words], capture_output=True).stdout, b"accepted\n", name)
        self.assertEqual(self.statuses(self.formula("G at most one of n*.leader"), "--jobs", "1")[0], statuses)  # goes on

    def test_beside_a_formula_of_the_program(self):
        formula = self.formula("G at most one of n*.leader")
        done = asked([self.logs, formula, FORMULAS[0], "--to", self.to, "--program", PROGRAM, "--bundle", "2"])
        self.assertEqual(done.stdout.splitlines()[1:], ["asked.formula        1      2       0          0        0     2",
                                                        "within_5.formula     0      0       0          0        0     5"])
        self.assertEqual({path.name for path in self.to.rglob("*.formula") if path.is_file()}, {f"{name}.csv.formula" for name in ("two", "both", "three")})

    def test_units(self):
        formula = self.formula("F[0,0.02s] n1.leader")
        statuses, said = self.statuses(formula)
        self.assertEqual(set(statuses.values()), {65})
        self.assertIn("two.csv.notes, which ask log -o writes, doesn't say it: --unit states it", said)
        shutil.rmtree(self.to)
        self.assertEqual(self.statuses(formula, "--unit", "ms")[0], {"two": 2, "both": 2, "three": 2, "other": 65, "faulty": 66})
        shutil.rmtree(self.to)
        (self.logs / "two.csv.notes").write_text('{"unit": "us"}\n')
        self.assertEqual(self.statuses(formula)[0]["two"], 0)  # within 20,000 of them

    def test_many_refusals(self):
        for place in range(20):
            shutil.copy(self.logs / "other.csv", self.logs / f"other_{place}.csv")
        _, said = self.statuses(self.formula("G at most one of n*.leader"))
        self.assertEqual(len(said.splitlines()), 11)
        self.assertIn("many_logs: 12 questions more are refused so\n", said)

    def test_logs_that_are_too_long(self):
        (self.logs / "two.csv").write_text("\n" * 1_048_577)
        statuses, said = self.statuses(self.formula("G at most one of n*.leader"))
        self.assertEqual(statuses["two"], 67)
        self.assertIn("two.csv: the log is longer than 1,048,576 bytes", said)


class GoingOn(WithRoom):
    def test_what_is_done_is_not_asked_again(self):
        words = self.words("--bundle", "1", "--jobs", "1")
        self.assertEqual(asked(words).returncode, 66)
        jobs = (self.to / "jobs").read_text().splitlines()
        (self.to / "jobs").write_text("\n".join(jobs[:-3]) + "\n")  # as where the power failed
        done = asked(words)
        self.assertEqual((done.returncode, done.stdout), (66, COUNTS))
        self.assertEqual((self.to / "jobs").read_text().splitlines()[: len(jobs) - 3], jobs[:-3])
        self.assertEqual(reports_of(self.to), reports_by_hand())

    def test_broken_off(self):
        slow = self.room / "slow"
        waits = f"while [ -e {self.room}/first ] && [ ! -e {self.room}/go ]; do sleep 0.05; done; : >{self.room}/first"
        slow.write_text(f'#!/bin/sh\n{waits}\nexec "{PROGRAM}" "$@"\n')  # only the first one ends before it is let go
        slow.chmod(0o755)
        words = [LOGS, FORMULAS[0], "--to", self.to, "--program", slow, "--bundle", "1", "--jobs", "1"]
        run = subprocess.Popen(
            [sys.executable, "-B", SCRIPT, *words], stderr=subprocess.PIPE, text=True, start_new_session=True,
            preexec_fn=lambda: signal.signal(signal.SIGINT, signal.SIG_DFL),  # which a shell's background job ignores
        )
        ends = time.monotonic() + PATIENCE
        while time.monotonic() < ends and not ((self.to / "jobs").exists() and len((self.to / "jobs").read_text().splitlines()) > 1):
            time.sleep(0.05)
        os.killpg(run.pid, signal.SIGINT)
        _, said = run.communicate(timeout=PATIENCE)
        self.assertEqual(run.returncode, 130, said)
        (self.room / "go").touch()
        done = asked(words)
        self.assertEqual((done.returncode, done.stdout.splitlines()[1].split()[1:]), (66, ["1", "1", "1", "1", "0", "1"]))

    def test_no_room_for_what_is_done(self):
        words = self.words("--bundle", "1")
        self.assertEqual(asked(words).returncode, 66)
        before = {path: path.read_bytes() for path in self.to.iterdir() if path.is_file()}
        done = subprocess.run(
            [sys.executable, "-B", SCRIPT, *words], stdin=subprocess.DEVNULL, capture_output=True, text=True, timeout=PATIENCE,
            preexec_fn=lambda: resource.setrlimit(resource.RLIMIT_FSIZE, (100, 100)),
        )
        self.assertEqual((done.returncode, done.stderr), (75, f"many_logs: {self.to}/jobs can't be written: File too large\n"))
        self.assertEqual({path: path.read_bytes() for path in self.to.iterdir() if path.is_file()}, before)

    def test_great_reports_are_not_held_all_at_once(self):
        done = subprocess.run(
            [sys.executable, "-B", "-c", GREAT, SCRIPT.parent, self.to], stdin=subprocess.DEVNULL, capture_output=True, text=True,
            timeout=PATIENCE,
        )
        self.assertEqual((done.returncode, done.stderr), (0, ""))
        peak, *statuses = map(int, done.stdout.split())
        self.assertEqual(statuses, [125] + 7 * [72])  # none has a status of its report, and the first none at all
        self.assertLess(peak, 3 << 22)  # of eight reports of 4 MB
        self.assertEqual({path.stat().st_size for path in (self.to / "reports" / "f").iterdir()}, {1 << 22})

    def great_logs(self):
        """A folder of eight logs of a megabyte each."""
        logs = self.room / "logs"
        logs.mkdir()
        for name in "abcdefgh":
            head, row = f"kind,host,time,name\nhost,{name},0,0\n", f"note,{name},1,x\n"
            (logs / f"{name}.csv").write_text(head + 1_000_000 * "\n" + row)
        return logs

    def test_great_logs_are_not_held_all_at_once(self):
        words = [self.great_logs(), *FORMULAS, FORMULAS[0].with_name("not_q.formula"), "--bundle", "1", "--to", self.to]
        done = subprocess.run(
            [sys.executable, "-B", "-c", GATHERED, SCRIPT.parent, *words], stdin=subprocess.DEVNULL, capture_output=True,
            text=True, timeout=PATIENCE,
        )
        self.assertEqual((done.returncode, done.stderr), (0, ""))
        self.assertLess(int(done.stdout), 18_000_000)  # of 24 bundles with a log of a megabyte each
        sizes = [path.stat().st_size for path in self.to.glob("questions-*/*.tar")]
        self.assertEqual((len(sizes), min(sizes) > 1_000_000), (24, True))

    def test_no_room_for_what_is_asked(self):
        words = self.words("--bundle", "1", logs=self.great_logs())
        for most in (0, 4096):
            done = subprocess.run(
                [sys.executable, "-B", SCRIPT, *words], stdin=subprocess.DEVNULL, capture_output=True, text=True,
                timeout=PATIENCE, preexec_fn=lambda: resource.setrlimit(resource.RLIMIT_FSIZE, (most, most)),
            )
            self.assertEqual((done.returncode, done.stdout), (75, ""), done.stderr)
            self.assertTrue(done.stderr.startswith("many_logs: what is asked can't be kept in a temporary file: "), done.stderr)
            self.assertFalse(self.to.exists())

    def test_a_machine_that_failed(self):
        missing = asked(self.words("--machines", ":", "--program", self.room / "nothing"))
        self.assertEqual(missing.returncode, 125)
        self.assertIn("isn't there", missing.stderr)


class Refusals(WithRoom):
    def assertRefused(self, words, status, said, **environment):
        before = sorted(self.room.rglob("*"))
        done = asked(words, **environment)
        self.assertEqual(done.returncode, status, done.stderr)
        self.assertIn(said, done.stderr)
        self.assertNotIn("Traceback", done.stderr)
        self.assertEqual(sorted(self.room.rglob("*")), before)

    def test_words(self):
        self.assertRefused([LOGS], 64, "FORMULA")
        self.assertRefused(self.words("--fast"), 64, "--fast")
        self.assertRefused(self.words("--bundle", "0"), 64, "bundle")
        for jobs in ("0", "000", "0%", "four", "4x", "1.5", "1000000000"):
            said = f"argument --jobs: a number of jobs is as 4, +1 or 50%, and not {jobs!r}"
            self.assertRefused(self.words("--jobs", jobs), 64, said)
        self.assertRefused(self.words(FORMULAS[0]), 64, "one name")

    def test_files(self):
        (self.room / "empty").mkdir()
        self.assertRefused(self.words(logs=self.room / "nothing"), 74, "is no folder")
        self.assertRefused(self.words(logs=self.room / "empty"), 74, "no file NAME.csv")
        self.assertRefused([LOGS, self.room / "f", "--to", self.to, "--program", PROGRAM], 74, str(self.room / "f"))
        (self.room / "file").write_text("")
        self.assertRefused([LOGS, FORMULAS[0], "--to", self.room / "file", "--program", PROGRAM], 74, str(self.room / "file"))

    def test_what_is_not_there(self):
        self.assertRefused(self.words(), 72, "parallel", PATH="/nonexistent")
        self.assertRefused(self.words("--program", self.room / "nothing"), 72, "nothing isn't there")

    def test_answers_to_other_questions(self):
        asked(self.words())
        self.assertRefused(self.words("--conflicts", "7"), 64, "other logs, formulas or options")
        self.assertRefused([LOGS, FORMULAS[0], "--to", self.to, "--program", PROGRAM], 64, "other logs, formulas or options")


class AnotherMachine(WithRoom):
    """This machine, through a server of ssh on a port of its own."""

    def setUp(self):
        super().setUp()
        server = shutil.which("sshd", path=os.environ["PATH"] + ":/usr/sbin")
        for name, package in (("ssh", "openssh-client"), ("ssh-keygen", "openssh-client"), ("rsync", "rsync")):
            if not shutil.which(name) or not server:
                self.skipTest(f"for want of the package {package if server else 'openssh-server'}")
        for name in ("key", "host"):
            subprocess.run(["ssh-keygen", "-q", "-t", "ed25519", "-N", "", "-f", self.room / name], check=True)
        port = 20000 + os.getpid() % 20000
        (self.room / "settings").write_text(
            f"Port {port}\nListenAddress 127.0.0.1\nHostKey {self.room}/host\nAuthorizedKeysFile {self.room}/key.pub\n"
            f"PidFile none\nStrictModes no\nUsePAM no\nPermitRootLogin yes\n"
        )
        os.makedirs("/run/sshd", exist_ok=True) if os.geteuid() == 0 else None
        self.server = subprocess.Popen([server, "-D", "-f", self.room / "settings"], stderr=subprocess.DEVNULL)
        self.addCleanup(lambda: (self.server.terminate(), self.server.wait()))
        self.ssh = self.room / "ssh"
        self.ssh.write_text(
            f'#!/bin/sh\nexec ssh -p {port} -i {self.room}/key -o StrictHostKeyChecking=no -o BatchMode=yes '
            f'-o UserKnownHostsFile=/dev/null -o LogLevel=ERROR "$@"\n'
        )
        self.ssh.chmod(0o755)
        for _ in range(50):
            if subprocess.run([self.ssh, "127.0.0.1", "true"], stderr=subprocess.DEVNULL).returncode == 0:
                return
            time.sleep(0.1)
        self.skipTest("no ssh to this machine")

    def test_reports(self):
        home = set(os.listdir(Path.home()))
        done = asked(self.words("--machines", "1/127.0.0.1,1/:", "--bundle", "2"), PARALLEL_SSH=str(self.ssh))
        self.assertEqual((done.returncode, done.stdout), (66, COUNTS), done.stderr)
        self.assertEqual(reports_of(self.to), reports_by_hand())
        hosts = {line.split("\t")[1] for line in (self.to / "jobs").read_text().splitlines()[1:]}
        self.assertIn("127.0.0.1", hosts)
        self.assertEqual(set(os.listdir(Path.home())) - {".parallel", ".ssh"}, home - {".parallel", ".ssh"})


if __name__ == "__main__":
    unittest.main()
