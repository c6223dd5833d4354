"""How ask ends: on streams that are closed or full, on signals, when its time is over, and on files without an end."""

import json
import os
import re
import resource
import signal
import subprocess
import sys
import tempfile
import time
import unittest
from pathlib import Path
from unittest import mock

from common import PATIENCE, ROOT, asked, facts_of_text
from gone import left_of
import schema

from ask import ends, main, texts
from ask.program import Stopped
from ask.texts import Trouble, make_empty_folder

ASK = [sys.executable, "-B", str(ROOT / "ask" / "ask")]
EXAMPLES = ROOT / "examples"
LEASE = ["check", "lease.formula", "lease.csv"]
SLOW = "#!/bin/bash\necho $$ >begun.new\nmv begun.new begun\nexec sleep 50\n"
COUNTED = "#!/bin/bash\necho begun >>count\nexec sleep 50\n"
STUBBORN = "#!/bin/bash\ntrap '' TERM INT HUP\nsleep 50 &\necho $$ $! >begun.new\nmv begun.new begun\nsleep 50\nsleep 50\n"


def turned(words, turns):
    """The status of ask with its streams turned by the shell, and what it said where that can be read."""
    done = subprocess.run(
        ["bash", "-c", f'exec "$@" {turns}', "bash", *ASK, *words], cwd=EXAMPLES, capture_output=True, timeout=PATIENCE,
        stdin=subprocess.DEVNULL,
    )
    return done.returncode, done.stderr.decode()


class Streams(unittest.TestCase):
    def test_an_output_that_fails_is_75(self):
        for words in (LEASE, [*LEASE, "--json"], ["draw", "lease.csv"], ["log", "lease.csv", "--json"], ["--help"], ["check", "--help"]):
            for turns in (">&-", ">/dev/full", "<&- >&-"):
                with self.subTest(words=words, turns=turns):
                    status, said = turned(words, turns)
                    self.assertEqual((status, said.count("\n")), (75, 1), said)
                    self.assertIn("the standard output can't be written", said)

    def test_a_pipe_that_nobody_reads_is_75(self):
        for words in (LEASE, ["--help"]):
            reader, writer = os.pipe()
            os.close(reader)
            done = subprocess.run([*ASK, *words], cwd=EXAMPLES, stdout=writer, stderr=subprocess.PIPE, timeout=PATIENCE)
            os.close(writer)
            self.assertEqual((done.returncode, done.stderr), (75, b"ask: the standard output can't be written: Broken pipe\n"))

    def test_a_refusal_that_fails_is_75_in_json_alone(self):
        self.assertEqual(turned(["check", "lease.formula", "nothing", "--json"], ">/dev/full")[0], 75)
        self.assertEqual(turned(["check", "lease.formula", "nothing"], ">/dev/full")[0], 74)

    def test_a_closed_input_and_a_closed_error_change_no_answer(self):
        for turns in ("<&-", "2>&-", "2>/dev/full", "<&- 2>&-"):
            self.assertEqual(turned(LEASE, turns)[0], 2, turns)

    def test_an_output_that_is_full_in_its_midst_is_75(self):
        for unbuffered in ("", "1"):
            with self.subTest(unbuffered), tempfile.TemporaryDirectory() as folder, open(Path(folder, "log"), "wb") as output:
                done = self.made_within(4096, folder, stdout=output, env={**os.environ, "PYTHONUNBUFFERED": unbuffered})
                self.assertEqual((done.returncode, done.stderr), (75, b"ask: the standard output can't be written: File too large\n"))

    def test_a_file_stays_where_another_can_not_be_written(self):
        with tempfile.TemporaryDirectory() as folder:
            log = Path(folder, "log")
            log.write_text("before")
            log.chmod(0o640)
            done = self.made_within(4096, folder, "-o", "log")
            self.assertEqual((done.returncode, done.stderr), (75, b"ask: log can't be written: File too large\n"))
            self.assertEqual((log.read_text(), sorted(os.listdir(folder))), ("before", ["events", "log"]))
            self.assertEqual(self.made_within(10**6, folder, "-o", "log").returncode, 0)
            self.assertEqual((log.stat().st_mode & 0o777, log.read_text().count("\n")), (0o640, 902))
            self.assertEqual(sorted(os.listdir(folder)), ["events", "log", "log.notes"])

    def test_a_file_under_two_names_stays_one(self):
        with tempfile.TemporaryDirectory() as folder:
            Path(folder, "log").write_text("before")
            os.link(Path(folder, "log"), Path(folder, "other"))
            os.symlink("log", Path(folder, "link"))
            self.assertEqual(self.made_within(10**6, folder, "-o", "link").returncode, 0)
            self.assertEqual(Path(folder, "other").read_text().count("\n"), 902)
            self.assertTrue(Path(folder, "link").is_symlink())

    def test_a_bar_is_no_file_to_write(self):
        with tempfile.TemporaryDirectory() as folder:
            Path(folder, "events").write_text("time,host,request,name\n1,a,q,x\n")
            for words, option in (
                (["log", "events", "--skew", "1", "--notes", "-"], "--notes"), (["split", "events", "--skew", "1", "--by", "request", "--into", "-"], "--into"),
                (["split", "events", "--skew", "1", "--by", "request", "--into", "parts", "--notes", "-"], "--notes"),
                (["check", "a.p", "l", "--report", "-"], "--report"), (["check", "a.p", "l", "--keep", "-"], "--keep"), (["check", "-", "l", "--report", "-"], "--report"),
            ):
                ended, text, said = asked(words, folder)
                self.assertEqual((ended, text, os.listdir(folder)), (64, "", ["events"]))
                self.assertIn(f"{option} -: `-` is the standard input, and nothing is written to that. Something of that name is ./-\n", said)
            self.assertEqual(asked(["log", "events", "--skew", "1", "--notes", "./-"], folder)[0], 0)
            self.assertIn("unit: ", Path(folder, "-").read_text())

    def test_a_file_of_events_is_named_once(self):
        with tempfile.TemporaryDirectory() as folder:
            Path(folder, "events").write_text("time,host,request,name\n1,a,q,x\n")
            os.symlink("events", Path(folder, "link"))
            for files in (["events", "events"], ["events", "./events"], ["link", "events"]):
                for words in (["log", *files, "--skew", "1"], ["split", *files, "--skew", "1", "--by", "request", "--into", "parts"]):
                    ended, text, said = asked(words, folder)
                    self.assertEqual((ended, text, sorted(os.listdir(folder))), (64, "", ["events", "link"]))
                    self.assertIn(f"ask: {files[1]} is the file {files[0]} once more: each event would be there twice\n", said)
            self.assertEqual(asked(["log", os.devnull, os.devnull, "--part"], folder)[0], 66)

    def test_what_is_read_is_not_written(self):
        with tempfile.TemporaryDirectory() as folder:
            texts_of = {"events": "time,host,request,name\n1,a,q,x\n", "l": "kind,host,time,name\nhost,a,0,0\nset,a,1,p\n", "f": "F a.p", "p": "one: F a.p\n", "clock": ""}
            for name, text in texts_of.items():
                Path(folder, name).write_text(text)
            os.symlink("events", Path(folder, "link"))
            for words, option in (
                (["log", "events", "--skew", "1", "--notes", "events"], "--notes events"), (["log", "events", "--skew", "1", "--notes", "link"], "--notes link"),
                (["log", "events", "--skew", "1", "--unit", "s", "--clock", "a=clock", "--notes", "./clock"], "--notes ./clock"),
                (["split", "l", "events", "--skew", "1", "--by", "request", "--into", "parts", "--notes", "l"], "--notes l"),
                (["check", "f", "l", "--report", "l"], "--report l"), (["check", "f", "l", "--report", "f"], "--report f"),
                (["check", "--properties", "p", "l", "--junit", "p"], "--junit p"), (["check", "--properties", "p", "l", "--junit", "l"], "--junit l"),
            ):
                ended, text, said = asked(words, folder)
                self.assertEqual((ended, text), (64, ""), said)
                self.assertIn(f"{option}: this file is read too, and would be lost\n", said)
                self.assertEqual({name: Path(folder, name).read_text() for name in texts_of}, texts_of)
            self.assertEqual(asked(["log", os.devnull, "--part", "--notes", os.devnull], folder)[0], 66)
            self.assertEqual(asked(["log", "l", "-o", "l", "--quiet"], folder)[0], 0)

    def test_what_a_killed_run_has_left_is_in_no_way(self):
        with tempfile.TemporaryDirectory() as folder:
            Path(folder, ".ask-12-34.new").write_text("half")
            make_empty_folder(Path(folder), "--into")
            Path(folder, ".ask-12.new").write_text("another's")
            with self.assertRaises(Trouble):
                make_empty_folder(Path(folder), "--into")

    def test_streams_that_are_named_as_files(self):
        with tempfile.TemporaryDirectory() as folder:
            for name, turns in (("/dev/stdout", "| cat"), ("/dev/stderr", "2>&1 | cat"), ("/dev/fd/7", "7>&1 | cat"), ("/dev/stdout", "> kept")):
                with self.subTest(name, turns=turns):
                    Path(folder, "events").write_text('{"time": 1, "host": "a", "name": "x"}\n')
                    done = subprocess.run(
                        ["bash", "-o", "pipefail", "-c", f'"$@" {turns}; status=$?; [ ! -e kept ] || cat kept; exit $status', "bash", *ASK, "log", "events",
                         "--skew", "1", "--notes", os.devnull, "--output", name, "--quiet"],
                        cwd=folder, capture_output=True, timeout=PATIENCE,
                    )
                    self.assertEqual((done.returncode, done.stdout[-10:]), (0, b"note,a,1,x\n"[-10:]), done)

    def made_within(self, most, folder, *words, **streams):
        """How `ask log` of 900 events ended where no file may have more bytes."""
        events = "".join(f'{{"time": {number}, "host": "a", "name": "x"}}\n' for number in range(900))
        Path(folder, "events").write_text(events)
        return subprocess.run(
            [*ASK, "log", "events", "--skew", "1", "--notes", os.devnull, *words], cwd=folder, stderr=subprocess.PIPE, timeout=PATIENCE,
            preexec_fn=lambda: resource.setrlimit(resource.RLIMIT_FSIZE, (most, most)), **{"stdout": subprocess.DEVNULL, **streams},
        )

    def test_a_closed_input_can_not_be_read(self):
        status, said = turned(["check", "-", "lease.csv"], "<&-")
        self.assertEqual((status, said), (74, "ask: the standard input can't be read: Bad file descriptor\n"))


class Signals(unittest.TestCase):
    def setUp(self):
        room = tempfile.TemporaryDirectory()
        self.addCleanup(room.cleanup)
        self.room = Path(room.name)

    def program(self, text):
        """A program of a shell script."""
        path = self.room / "program"
        path.write_text(text)
        path.chmod(0o755)
        return str(path)

    def begun(self, process):
        """The processes that the program is, once it has begun."""
        until = time.monotonic() + PATIENCE
        while not (self.room / "begun").exists() and time.monotonic() < until and process.poll() is None:
            time.sleep(0.02)
        return [int(number) for number in (self.room / "begun").read_text().split()]

    def test_a_signal_ends_the_program_with_its_children(self):
        for text in (SLOW, STUBBORN):
            for number in (signal.SIGINT, signal.SIGTERM, signal.SIGHUP):
                with self.subTest(text=text, number=number):
                    words = ["check", "a.p", str(EXAMPLES / "set.csv"), "--program", self.program(text)]
                    process = subprocess.Popen(
                        [*ASK, *words], cwd=self.room, stdout=subprocess.PIPE, stderr=subprocess.PIPE,
                        preexec_fn=lambda: signal.signal(signal.SIGINT, signal.SIG_DFL),
                    )
                    numbers = self.begun(process)
                    process.send_signal(number)
                    _, said = process.communicate(timeout=PATIENCE)
                    words = "interrupted" if number == signal.SIGINT else f"ended by {number.name}"
                    self.assertEqual((process.returncode, said.decode()), (128 + number, f"ask: {words}\n"))
                    self.assertEqual(left_of(numbers), [])
                    (self.room / "begun").unlink()

    def test_the_end_of_the_time_ends_the_program_with_its_children(self):
        program = self.program(STUBBORN)
        for words in (
            ["tolerance", "true", "a.p"], ["deadline", "F[0,?] a.p"], ["deadline", "--windows", "G (a.p -> F[0,?] !a.p)"],
            ["check", "--windows", "G !a.p"],
        ):
            done = subprocess.run(
                [*ASK, *words, str(EXAMPLES / "set.csv"), "--program", program, "--seconds", "3"], cwd=self.room,
                capture_output=True, timeout=PATIENCE,
            )
            self.assertEqual((done.returncode, done.stderr.count(b"\n")), (124, 1), done.stderr)
            self.assertEqual(left_of(self.begun(mock.Mock(**{"poll.return_value": None}))), [])
            (self.room / "begun").unlink()

    def test_a_picture_without_time_for_all(self):
        for end in (Stopped, ends.OutOfTime):
            with mock.patch("ask.question.Question.replay", side_effect=end):
                ended, text, said = asked(["draw", "set.csv", "--seconds", "60", "--json"], EXAMPLES)
            self.assertEqual(ended, 0, said)
            self.assertIn("wasn't found in time", json.loads(text)["panels"][0]["title"])

    def test_a_picture_for_which_no_time_is_left(self):
        drawn = ["draw", "lease.csv", "--formula", "lease.formula"]
        for words, part, known in (
            (drawn, "page_of", "by check it is either"), ([*drawn, "--svg"], "picture", "by check it is either"),
            (drawn, "report_of_run", "by check it is either"),
            ([*drawn, "--report", "lease.report"], "page_of", "by lease.report, which audit accepts, it is either"),
            ([*drawn, "--times", "lease.times"], "page_of", "by the timing of lease.times the formula is true"),
        ):
            for end in (Stopped, ends.OutOfTime):
                with mock.patch(f"ask.commands.draw.{part}", side_effect=end):
                    ended, text, said = asked([*words, "--seconds", "60"], EXAMPLES)
                told = f"ask: stopped after 60 seconds, before the picture was done; {known}\n"
                self.assertEqual((ended, text, said), (124, "", told), part)

    def test_warnings_for_which_no_time_is_left(self):
        for end in (Stopped, ends.OutOfTime):
            for words in (["draw", "lease.csv", "--formula", "F a.x"], ["deadline", "F[0,?] (a.x | true)", "lease.csv"]):
                with mock.patch("ask.cautions.cautions_of", side_effect=end):
                    ended, text, said = asked([*words, "--seconds", "60", "--json", "--strict-for", "end"], EXAMPLES)
                facts = facts_of_text(text)
                self.assertEqual((ended, schema.complaint(words[0], facts)), (0, ""), said)
                self.assertEqual([warning["kind"] for warning in facts["warnings"]], ["unset", "unasked"])

    def test_a_verdict_for_which_more_no_time_is_left(self):
        either, refuted = ["lease.formula", "lease.csv"], ["within_8000.formula", "checkout.csv"]
        for words, status, parts in (
            (either, 2, ("report_of_run", "steady_answer", "Question.replay", "brought_nearer", "Reading.cells", "cautions_of")),
            (refuted, 0, ("report_of_run", "ground_facts", "ground_lines", "Reading.rows_shown", "cautions_of")),
            (["F a.p", "received_first.csv"], 3, ("report_of_run", "walk_facts", "Question.replay")),
        ):
            for part in parts:
                for end in (Stopped, ends.OutOfTime):
                    with self.subTest(words=words, part=part, end=end):
                        self.check_what_is_told(words, status, part, end)

    def check_what_is_told(self, words, status, part, end):
        """Asserts that the verdict is told where the time is over in a part of what is said of it."""
        with mock.patch(f"ask.cautions.{part}" if part == "cautions_of" else f"ask.commands.check.{part}", side_effect=end):
            ended, text, said = asked(["check", *words, "--json", "--seconds", "60"], EXAMPLES)
            with_lines = asked(["check", *words, "--seconds", "60"], EXAMPLES)
        facts = facts_of_text(text)
        self.assertEqual((ended, facts["check_status"], schema.complaint("check", facts)), (status, status, ""), said)
        self.assertEqual("rests_on" in facts, status in (0, 1))
        self.assertEqual("contradiction" in facts, status == 3)
        kinds, is_warning = [warning["kind"] for warning in facts["warnings"]], part == "cautions_of"
        self.assertEqual((kinds, len(facts["notes"])), (["unasked"], 0) if is_warning else ([], 1))
        self.assertEqual(with_lines[0], status)
        self.assertTrue(with_lines[1].startswith(facts["sentence"]), with_lines)
        for note in facts["notes"]:
            self.assertIn(f"\n\n{note}\n", with_lines[1])

    def test_timings_and_reasons_for_which_no_time_is_left(self):
        for part, remark in (
            ("ask.nearer.Search.takes_back", "bringing it nearer"), ("ask.explain.explained", "why the formula is"),
        ):
            for end in (Stopped, ends.OutOfTime):
                with mock.patch(part, side_effect=end):
                    ended, text, said = asked([*LEASE, "--json", "--seconds", "60"], EXAMPLES)
                facts = facts_of_text(text)
                self.assertEqual((ended, facts["notes"], schema.complaint("check", facts)), (2, [], ""), said)
                self.assertEqual([len(times) for times in facts["timings"].values()], [4, 4])
                self.assertIn(remark, facts["remarks"][0])

    def test_lines_for_which_no_time_is_left(self):
        words = ["each", "F {}", "lease.csv", "--over", r"\w+\.holds", "--json", "--seconds", "60"]
        for end in (Stopped, ends.OutOfTime):
            with mock.patch("ask.lines.cautions_of_names", side_effect=end):
                ended, text, said = asked(words, EXAMPLES)
            self.assertEqual((ended, [line["status"] for line in facts_of_text(text)["lines"]]), (124, [124, 124]), said)

    def test_what_a_deadline_knows(self):
        for formula, known in (
            ("G (a.req -> F[0,?] b.ack)", "with 9 it is true by every timing; with 8 it isn't true by every timing"),
            ("G (a.req -> F[?,9] b.ack)", "with 0 it is true by every timing; with 1 it isn't true by every timing"),
        ):
            with mock.patch("ask.commands.deadline.Search.found", side_effect=Stopped):
                ended, _, said = asked(["deadline", formula, "answered.csv", "--seconds", "60"], EXAMPLES)
            self.assertEqual((ended, said), (124, f"ask: stopped after 60 seconds; {known}\n"))

    def test_what_a_deadline_knows_as_soon_as_it_knows_it(self):
        words = ["deadline", "G (a.req -> F[0,?] b.ack)", "answered.csv", "--seconds", "60"]
        for part, known in (
            ("Search.run_at", ""), ("accepted_log", "; with 0 it isn't true by every timing"),
            ("greatest_distance", "; with 0 it isn't true by every timing"), ("Search.edge", (
                "; with 10 it is true by every timing; with 0 it isn't true by every timing"
            )),
        ):
            for end in (Stopped, ends.OutOfTime):
                with mock.patch(f"ask.commands.deadline.{part}", side_effect=end):
                    ended, _, said = asked(words, EXAMPLES)
                self.assertEqual((ended, said), (124, f"ask: stopped after 60 seconds{known}\n"), part)

    def test_time_bounds_what_ask_reads(self):
        os.mkfifo(self.room / "fifo")
        writer = os.open(self.room / "fifo", os.O_RDWR)  # which never writes
        self.addCleanup(os.close, writer)
        for words in (["check", "a.p", "fifo"], ["log", "fifo"], ["between", "fifo", "0", "1"]):
            ended, _, said = asked([*words, "--seconds", "0.3"], self.room)
            self.assertEqual((ended, said), (124, "ask: stopped, since it took longer than --seconds allows\n"))

    def test_time_bounds_what_ask_works_out(self):
        pattern = "(a|a)*b.*|(p|p)*x"
        (self.room / "l").write_text("kind,host,time,name\nhost,a,0,0\nset,a,1,%s\n" % ("p" * 32))
        ended, _, said = asked(["each", "F a.{}", "l", "--over", pattern, "--seconds", "0.5"], self.room)
        self.assertEqual((ended, said), (124, "ask: stopped, since it took longer than --seconds allows\n"))

    def test_all_formulas_share_the_time(self):
        rows = "".join(f"set,a,{row},p{row}\n" for row in range(40))
        (self.room / "l").write_text("kind,host,time,name\nhost,a,0,0\n" + rows)
        count = self.room / "count"
        words = ["each", "F a.{}", "l", "--over", "p.*", "--seconds", "2", "--program", self.program(COUNTED)]
        with mock.patch("ask.program.MOST_TO_TELL", PATIENCE):
            ended, text, _ = asked(words, self.room)
        self.assertEqual((ended, len(re.findall("stopped +124", text))), (124, 40))
        self.assertEqual(count.read_text(), "begun\n")  # the first one took all of it


class Files(unittest.TestCase):
    def test_a_fifo_without_a_writer_is_refused(self):
        with tempfile.TemporaryDirectory() as folder, mock.patch.object(texts, "WRITER_PATIENCE", 0.2):
            os.mkfifo(Path(folder, "fifo"))
            ended, _, said = asked(["check", "a.p", "fifo"], folder)
            self.assertEqual((ended, "a FIFO to which nobody has written" in said), (74, True))
            ended, _, said = asked(["log", str(EXAMPLES / "set.csv"), "--notes", "fifo"], folder)
            self.assertEqual((ended, "fifo can't be written" in said), (75, True))

    def test_a_fifo_with_a_writer_is_read(self):
        with tempfile.TemporaryDirectory() as folder:
            os.mkfifo(Path(folder, "fifo"))
            writer = subprocess.Popen(["bash", "-c", 'sleep 0.3; cat "$1" >"$2"', "bash", EXAMPLES / "lease.csv", Path(folder, "fifo")])
            with mock.patch.object(texts, "WRITER_PATIENCE", PATIENCE):
                ended, _, said = asked(["check", str(EXAMPLES / "lease.formula"), "fifo"], folder)
            self.assertEqual((ended, said, writer.wait()), (2, "", 0))

    def test_pipes_are_read(self):
        done = subprocess.run(
            ["bash", "-c", '"$@" check <(cat lease.formula) <(cat lease.csv)', "bash", *ASK], cwd=EXAMPLES, capture_output=True,
            timeout=PATIENCE,
        )
        self.assertEqual((done.returncode, done.stderr), (2, b""))

    def test_files_without_an_end_are_refused(self):
        for words, part in (
            (["check", "a.p", "/dev/zero"], "the log is longer than 1,048,576 bytes"), (["between", "/dev/zero", "0", "1"], "the log is longer"),
            (["check", "/dev/zero", "lease.csv"], "the formula is longer than 65,536 bytes"),
            (["draw", "lease.csv", "--times", "/dev/zero"], "the file of times is longer than 65,536 bytes"),
            (["draw", "lease.csv", "--report", "/dev/zero"], "the report is longer than"), (["log", "/dev/zero"], "the file is longer than"),
        ):
            ended, _, said = asked(words, EXAMPLES)
            self.assertEqual((ended, part in said), (67, True), said)

    def test_a_formula_in_the_words_that_is_too_long(self):
        ended, _, said = asked(["check", "a.p" + " " * 65_534, "set.csv"], EXAMPLES)
        self.assertEqual((ended, "the formula is longer than 65,536 bytes" in said), (67, True), said)


class Programs(unittest.TestCase):
    """A status of the program counts with what it writes alone."""

    def answered(self, text, words):
        """The status with which ask ends on a program of a shell script."""
        return self.told(text, words)[0]

    def told(self, text, words):
        """How it ends there."""
        with tempfile.TemporaryDirectory() as folder:
            program = Path(folder, "program")
            program.write_text(f"#!/bin/sh\n{text}\n")
            program.chmod(0o755)
            return asked([*words, "--program", str(program)], EXAMPLES)

    def test_a_program_without_a_name(self):
        ended, _, said = asked(["check", "a.p", "lease.csv", "--program", ""], ROOT / "examples")
        self.assertEqual((ended, said), (72, "ask: '', which --program names, isn't a program that can be run: name another one, or none\n"))

    def test_a_status_without_a_report(self):
        for words in (
            LEASE, ["deadline", "F[0,?] a.holds", "lease.csv"], ["between", "lease.csv", "0", "1"], ["tolerance", "true", "lease.formula", "lease.csv"],
            ["each", "F a.{}", "lease.csv", "--over", ".*"], ["draw", "lease.csv"],
        ):
            for text in ("exit 0", "exit 1", "exit 2", "exit 4", "echo true", "printf 'skewcheck 1\\nevents 4\\nend\\n'; exit 1"):
                self.assertEqual(self.answered(text, words), 72, (words, text))

    def test_a_status_of_another_report(self):
        for status in (0, 1, 3, 4):
            self.assertEqual(self.answered(f"cat lease.report; exit {status}", LEASE), 72, status)

    def test_more_than_can_be_kept(self):
        with mock.patch("ask.program.MOST_OUTPUT", 1 << 20):
            ended, _, said = self.told("yes", LEASE)
        self.assertEqual((ended, said.partition(" bytes, ")[2]), (72, (
            "which is the most that ask reads, at: check lease.formula lease.csv. Ask about a window of the log (ask log --help), "
            "or give it fewer --conflicts\n"
        )))

    def test_a_signal_that_ends_the_program(self):
        ended, _, said = self.told("kill -9 $$", LEASE)
        self.assertEqual((ended, said.partition(" was ")[2]), (72, (
            "ended by signal 9, at: check lease.formula lease.csv. Where that was for want of memory, ask about a window of the "
            "log (ask log --help)\n"
        )))


class Faults(unittest.TestCase):
    """What ask didn't foresee is one line and the status 70."""

    def test_an_error_of_ask(self):
        for error in (KeyError("x"), ZeroDivisionError("y"), UnicodeDecodeError("utf-8", b"\xff", 0, 1, "z"), AssertionError()):
            with mock.patch.object(main, "refuse_second_input", side_effect=error):
                ended, text, said = asked(LEASE, EXAMPLES)
            self.assertEqual((ended, text, said.count("\n")), (70, "", 1), said)
            self.assertIn(type(error).__name__, said)
            self.assertNotIn("Traceback", said)

    def test_too_much(self):
        for error in (MemoryError(), RecursionError()):
            with mock.patch.object(main, "refuse_second_input", side_effect=error):
                ended, text, said = asked([*LEASE, "--json"], EXAMPLES)
            self.assertEqual((ended, json.loads(text)["status"], said.count("\n")), (70, 70, 1))

    def test_what_is_held_is_not_broken_off(self):
        steps = []
        with self.assertRaises(ends.OutOfTime):
            with ends.uninterrupted():
                ends.raise_end(ends.OutOfTime())
                steps.append("done")
        self.assertEqual(steps, ["done"])
        with self.assertRaises(ends.OutOfTime):
            with ends.uninterrupted():
                ends.raise_end(ends.OutOfTime())
                raise KeyError


if __name__ == "__main__":
    unittest.main()
