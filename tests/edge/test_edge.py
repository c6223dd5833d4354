"""The program at its edge: statuses, names, files, streams, signals, and memory that runs out."""

import fcntl
import os
import re
import signal
import subprocess
import tempfile
import termios
import time
import unittest
from pathlib import Path

from rows import ANSWERED, HEADER, NAMES, STATUSES, WORDS

ROOT = Path(__file__).resolve().parent.parent.parent
PROGRAM = os.environ["SKEWCHECK"]
PATIENCE = 60  # seconds that one run may take
NOBODY = 65_534  # the number of a user who owns no file here
SET_PIPE_SIZE = 1031  # the fcntl F_SETPIPE_SZ, which Python names from 3.10 on
SMALL_PIPE = 4096  # bytes, the least that a pipe can hold
TIMES = b"8\n13\n"  # the answer of `times` to ANSWERED
OF_SCRIPT = 72  # the status of ./skewcheck alone
NO_MEMORY, NOT_READ, NOT_WRITTEN = 70, 74, 75
# Requests and answers in turn, of which an answer to `check` has 100,000 bytes and more.
MANY = HEADER + "host,a,2,1\nhost,b,2,1\n" + "".join(
    f"{'clear' if place % 2 else 'set'},a,{100 * place},p\nnote,b,{100 * place + 50},x\n" for place in range(512)
)
OFTEN = "G F[0,250] a.p"


class Rooms(unittest.TestCase):
    """Cases with a folder of their own, in which the program runs."""

    def setUp(self):
        room = tempfile.TemporaryDirectory()
        self.addCleanup(room.cleanup)
        self.room = Path(room.name).resolve()

    def put(self, files):
        """Writes files by their names."""
        for name, text in files.items():
            (self.room / name).write_text(text)

    def run_program(self, words, text=b"", **streams):
        """How the program ended: its status, and what it wrote on the standard output and beside that."""
        given = {} if "stdin" in streams else {"input": text}
        done = subprocess.run(
            [PROGRAM, *words], cwd=self.room, timeout=PATIENCE,
            **{"stdout": subprocess.PIPE, "stderr": subprocess.PIPE, **given, **streams},
        )
        return done.returncode, done.stdout, done.stderr

    def started(self, words, **streams):
        """The program under way, which is ended with the case."""
        process = subprocess.Popen([PROGRAM, *words], cwd=self.room, **streams)
        self.addCleanup(self.end, process)
        return process

    @staticmethod
    def end(process):
        """Ends a process that goes on, and leaves its streams."""
        if process.poll() is None:
            process.kill()
        process.wait()
        for stream in (process.stdin, process.stdout):
            if stream is not None and not stream.closed:
                stream.close()

    def pipe(self):
        """The two ends of a pipe, which are closed with the case."""
        ends = os.pipe()
        for one in ends:
            self.addCleanup(self.close, one)
        return ends

    @staticmethod
    def close(descriptor):
        """Closes what may be closed already."""
        try:
            os.close(descriptor)
        except OSError:
            pass


class Table(Rooms):
    def test_statuses(self):
        self.run_rows(STATUSES)

    def test_words(self):
        self.run_rows(WORDS)

    def test_names(self):
        self.run_rows(NAMES)

    def run_rows(self, rows):
        """Runs each row in an empty folder, and asserts how it ends and that no file is changed or made."""
        for row in rows:
            with self.subTest(words=row.words, input=row.input), tempfile.TemporaryDirectory() as folder:
                self.room = Path(folder).resolve()
                self.put(row.all_files())
                before = self.state()
                words = row.words.replace("FOLDER", str(self.room)).split(" ")
                status, written, said = self.run_program(words, row.input.encode())
                line = written.split(b"\n")[0].decode() if written else None
                self.assertEqual((status, line, said), (row.status, row.line, b""))
                self.assertEqual(self.state(), before)

    def state(self):
        """The files of the folder, with their bytes and when each was changed."""
        return {path.name: (path.read_bytes(), path.stat().st_mtime_ns) for path in self.room.iterdir()}

    def test_each_status_of_the_page_has_a_run(self):
        page = (ROOT / "docs" / "usage.md").read_text()
        table = page.partition("\n## Statuses\n")[2].partition("\n\n```")[0]
        stated = {int(status) for status in re.findall(r"^\| ([0-9]+) \| ", table, re.M)}
        of_rows = {row.status for row in STATUSES}
        of_cases = {NO_MEMORY, 71, NOT_WRITTEN}  # Memory, Words and Output below
        self.assertEqual(of_rows | of_cases | {OF_SCRIPT}, stated)
        self.assertFalse(of_rows & (of_cases | {OF_SCRIPT}))


class Words(Rooms):
    def test_no_word_is_the_log_of_the_standard_input(self):
        self.assertEqual(self.run_program([], ANSWERED.encode()), (0, TIMES, b""))
        self.assertEqual(self.run_program([]), (66, b"refused log 1 at record 1\n", b""))

    def test_words_that_are_not_utf_8(self):
        self.put({"true": "true", "l.csv": ANSWERED})
        with open(os.path.join(os.fsencode(self.room), b"\xff"), "wb") as file:
            file.write(ANSWERED.encode())
        for words in ([b"\xff"], [b"times", b"\xff"], [b"check", b"true", b"l.csv", b"\xc3"], [b"times", b"--", b"l\xed\xa0\x80"]):
            self.assertEqual(self.run_program(words), (71, b"", b""), words)


class Files(Rooms):
    def test_a_file_without_permission(self):
        self.put({"l.csv": ANSWERED})
        self.room.chmod(0o755)
        if os.geteuid() != 0:
            (self.room / "l.csv").chmod(0)
            self.assertEqual(self.run_program(["times", "l.csv"]), (NOT_READ, b"", b""))
            return
        other = {"user": NOBODY, "group": NOBODY, "extra_groups": []}  # since root may read all
        try:
            self.assertEqual(self.run_program(["times", "l.csv"], **other), (0, TIMES, b""))
        except PermissionError:
            self.skipTest("root may read all files, and no other user may run the program")
        (self.room / "l.csv").chmod(0)
        self.assertEqual(self.run_program(["times", "l.csv"], **other), (NOT_READ, b"", b""))

    def test_files_that_can_not_be_written_are_read(self):
        self.put({"l.csv": ANSWERED})
        (self.room / "l.csv").chmod(0o444)
        self.room.chmod(0o555)
        self.addCleanup(self.room.chmod, 0o755)
        self.assertEqual(self.run_program(["times", "l.csv"]), (0, TIMES, b""))

    def test_links(self):
        self.put({"l.csv": ANSWERED})
        for name, to in (("link", "l.csv"), ("round", "round"), ("nowhere", "missing"), ("folder", ".")):
            (self.room / name).symlink_to(to)
        wanted = {"link": (0, TIMES), "round": (NOT_READ, b""), "nowhere": (NOT_READ, b""), "folder": (NOT_READ, b"")}
        self.assertEqual({name: self.run_program(["times", name])[:2] for name in wanted}, wanted)

    def test_a_pipe_with_a_name(self):
        os.mkfifo(self.room / "pipe")
        process = self.started(["times", "pipe"], stdout=subprocess.PIPE)
        (self.room / "pipe").write_text(ANSWERED)  # waits until the program has opened it
        self.assertEqual((process.communicate(timeout=PATIENCE)[0], process.returncode), (TIMES, 0))

    def test_a_file_that_the_program_is_asked_for_twice(self):
        self.put({"true": "true", "both": "true\n", "l.csv": ANSWERED})
        self.assertEqual(self.run_program(["check", "both", "both"])[:2], (66, b"refused log 1 at record 1\n"))


class Input(Rooms):
    def test_a_closed_input(self):
        self.put({"true": "true", "l.csv": ANSWERED})
        for words, status, line in (
            (["times", "-"], NOT_READ, b""), (["check", "true", "-"], NOT_READ, b""), (["check", "-", "l.csv"], NOT_READ, b""), ([], NOT_READ, b""),
            (["times", "l.csv"], 0, TIMES), (["-"], 64, b"refused words\n"),
        ):
            done = subprocess.run(
                ["bash", "-c", 'exec "$@" <&-', "bash", PROGRAM, *words], cwd=self.room, capture_output=True, timeout=PATIENCE,
            )
            self.assertEqual((done.returncode, done.stdout, done.stderr), (status, line, b""), words)

    def test_an_input_that_can_not_be_read(self):
        for name, flags in (("folder", os.O_RDONLY | os.O_DIRECTORY), ("file", os.O_WRONLY | os.O_CREAT)):
            descriptor = os.open(self.room if name == "folder" else self.room / name, flags)
            self.addCleanup(os.close, descriptor)
            self.assertEqual(self.run_program(["times", "-"], stdin=descriptor), (NOT_READ, b"", b""), name)

    def test_an_input_that_is_not_to_wait(self):
        reader, writer = self.pipe()
        os.set_blocking(reader, False)
        self.assertEqual(self.run_program(["times", "-"], stdin=reader), (NOT_READ, b"", b""))
        os.write(writer, ANSWERED.encode())
        self.assertEqual(self.run_program(["times", "-"], stdin=reader), (NOT_READ, b"", b""))  # it isn't known to end
        os.write(writer, ANSWERED.encode())
        os.close(writer)
        self.assertEqual(self.run_program(["times", "-"], stdin=reader), (0, TIMES, b""))

    def test_an_input_that_comes_by_single_bytes(self):
        process = self.started(["times", "-"], stdin=subprocess.PIPE, stdout=subprocess.PIPE, bufsize=0)
        for place in range(len(ANSWERED)):
            process.stdin.write(ANSWERED[place : place + 1].encode())
        process.stdin.close()
        self.assertEqual((process.stdout.read(), process.wait(PATIENCE)), (TIMES, 0))


class Signals(Rooms):
    def reading(self):
        """The program while it waits for the rest of the standard input."""
        process = self.started(["times", "-"], stdin=subprocess.PIPE, stdout=subprocess.PIPE, bufsize=0)
        process.stdin.write(HEADER.encode())
        self.until_it_waits(process)
        return process

    def until_it_waits(self, process):
        """Waits until the program has taken what it was given, and sleeps."""
        ends = time.monotonic() + PATIENCE
        while time.monotonic() < ends:
            state = Path("/proc", str(process.pid), "stat").read_text().rpartition(")")[2].split()[0]
            left = fcntl.ioctl(process.stdin.fileno(), termios.FIONREAD, b"\0" * 4)
            if state == "S" and left == b"\0" * 4:
                return
            time.sleep(0.005)
        self.fail("the program doesn't read")

    def test_signals_end_it_and_nothing_is_written(self):
        for number in (signal.SIGTERM, signal.SIGINT, signal.SIGHUP):
            process = self.reading()
            process.send_signal(number)
            self.assertEqual((process.wait(PATIENCE), process.stdout.read()), (-number, b""))

    def test_what_stops_and_goes_on(self):
        process = self.reading()
        for part in (ANSWERED[len(HEADER) : 40], ANSWERED[40:]):
            process.send_signal(signal.SIGSTOP)
            process.stdin.write(part.encode())
            process.send_signal(signal.SIGCONT)
        process.stdin.close()
        self.assertEqual((process.stdout.read(), process.wait(PATIENCE)), (TIMES, 0))


class Output(Rooms):
    def setUp(self):
        super().setUp()
        self.put({"l.csv": ANSWERED, "many.csv": MANY, "often": OFTEN, "true": "true"})

    def whole(self):
        """The status of a long answer, and the answer."""
        status, written, _ = self.run_program(["check", "often", "many.csv"])
        self.assertEqual((status, len(written) > 100_000), (1, True))
        return status, written

    def writing(self):
        """The program that writes a long answer into a pipe which holds little of it, so that most writes are short, and
        what reads there."""
        reader, writer = os.pipe()
        file = open(reader, "rb")
        self.addCleanup(file.close)
        fcntl.fcntl(reader, SET_PIPE_SIZE, SMALL_PIPE)
        try:
            return self.started(["check", "often", "many.csv"], stdout=writer), file
        finally:
            os.close(writer)

    def test_outputs_that_fail(self):
        for words in ([], ["times", "l.csv"], ["check", "true", "l.csv"], ["check", "often", "many.csv"], ["what"], ["demo", "7"]):
            for turns in (">&-", ">/dev/full", "<&- >&-", ">&- 2>&-"):
                done = subprocess.run(
                    ["bash", "-c", f'exec "$@" {turns}', "bash", PROGRAM, *words], cwd=self.room, input=ANSWERED.encode(),
                    stdout=subprocess.PIPE, stderr=subprocess.PIPE, timeout=PATIENCE,
                )
                reads_closed_input = not words and "<&-" in turns
                status = NOT_READ if reads_closed_input else NOT_WRITTEN
                self.assertEqual((done.returncode, done.stdout, done.stderr), (status, b"", b""), (words, turns))

    def test_what_can_not_be_read_is_told_by_its_status_on_outputs_that_fail(self):
        done = subprocess.run(["bash", "-c", 'exec "$@" >&-', "bash", PROGRAM, "times", "missing"], cwd=self.room, timeout=PATIENCE)
        self.assertEqual(done.returncode, NOT_READ)

    def test_an_output_that_can_not_be_written(self):
        with open(self.room / "l.csv", "rb") as file:
            self.assertEqual(self.run_program(["times", "l.csv"], stdout=file)[0], NOT_WRITTEN)

    def test_a_pipe_that_nobody_reads(self):
        for words in (["times", "l.csv"], ["what"]):
            reader, writer = self.pipe()
            os.close(reader)
            self.assertEqual(self.run_program(words, stdout=writer)[::2], (NOT_WRITTEN, b""))

    def test_a_reader_that_leaves(self):
        _, written = self.whole()
        process, reader = self.writing()
        self.assertEqual(reader.read(100), written[:100])
        reader.close()
        self.assertEqual(process.wait(PATIENCE), NOT_WRITTEN)

    def test_a_slow_reader_gets_all_of_it(self):
        status, written = self.whole()
        process, reader = self.writing()
        parts = []
        while not parts or parts[-1]:
            parts.append(os.read(reader.fileno(), 997))
            time.sleep(0.001)
        self.assertEqual((b"".join(parts) == written, process.wait(PATIENCE)), (True, status))

    def test_a_pipe_that_is_not_to_wait(self):
        _, written = self.whole()
        reader, writer = self.pipe()
        os.set_blocking(writer, False)
        self.assertEqual(self.run_program(["times", "l.csv"], stdout=writer)[::2], (0, b""))
        self.assertEqual(os.read(reader, 100), TIMES)
        self.assertEqual(self.run_program(["check", "often", "many.csv"], stdout=writer)[::2], (NOT_WRITTEN, b""))
        got = os.read(reader, len(written))
        self.assertEqual((written.startswith(got), len(got) < len(written)), (True, True))

    def test_the_standard_error_is_of_no_use_to_it(self):
        for turns in ("2>&-", "2>/dev/full"):
            done = subprocess.run(
                ["bash", "-c", f'exec "$@" {turns}', "bash", PROGRAM, "times", "l.csv"], cwd=self.room, stdout=subprocess.PIPE, timeout=PATIENCE,
            )
            self.assertEqual((done.returncode, done.stdout), (0, TIMES))


class Memory(Rooms):
    def test_memory_that_runs_out(self):
        self.put({"many.csv": MANY, "often": OFTEN})
        for kilobytes in (4_500, 6_000):
            done = subprocess.run(
                ["bash", "-c", f'ulimit -v {kilobytes}; exec "$@"', "bash", PROGRAM, "check", "often", "many.csv"], cwd=self.room, capture_output=True,
                timeout=PATIENCE,
            )
            self.assertEqual((done.returncode, done.stdout, done.stderr), (NO_MEMORY, b"", b""))


if __name__ == "__main__":
    unittest.main()
