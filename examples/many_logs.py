#!/usr/bin/env python3
"""Asks formulas of each log of a folder, on all cores and on several machines, by GNU parallel.

Run as: python3 many_logs.py [options] LOGS FORMULA..

Each NAME.csv of the folder LOGS is checked for each formula. Questions go out in bundles, one job of
parallel each; its joblog says what is done, so that a run that was broken off goes on where it was.
The folder of answers has a report for each question, a line for each status, and what was asked. A formula in
the words of ask, as `each{h in n*: ..}`, is written out for each log, and what it becomes lies beside the report. A folder
that isn't empty has to have this script's mark, and of the files in it those alone are removed that the script
has named itself.
At the end stands a table, and the status is that of the whole: the greatest one from 64 on that some
question has, 125 being a question without an answer; else the first of 3, 1, 2, 4 and 0.
"""

import argparse
import fcntl
import io
import os
import re
import shutil
import signal
import stat
import subprocess
import sys
import tarfile
import tempfile
from collections import Counter
from hashlib import sha256
from pathlib import Path
from shlex import quote
from typing import NamedTuple

if signal.getsignal(signal.SIGINT) is signal.default_int_handler:
    signal.signal(signal.SIGINT, signal.SIG_DFL)  # until there is something that an interrupt could leave behind
sys.dont_write_bytecode = True  # leaves no compiled files beside the sources
sys.path.insert(0, str(Path(__file__).resolve().parent.parent))

from ask.ends import refuse_as, run_script, uninterrupted
from ask.logs import number
from ask.macros import has_words, written_out
from ask.program import BUILT, IS_SOURCE, REMEDY, ROOT
from ask.reports import verdict_of
from ask.texts import (
    CANNOT_READ, CANNOT_WRITE, LIMITS, TOO_LONG, Source, Trouble, escaped, has_files, read_file, reason_of, replace_file, say,
    width_of, write_output,
)
from ask.units import UNITS, scaled

OWN = BUILT if IS_SOURCE else ROOT.parent.parent / "bin" / "skewcheck"  # the program of this folder
WORDS = {0: "true", 1: "false", 2: "either", 3: "no timing", 4: "unknown"}
ORDER = (3, 1, 2, 4, 0)  # of answers: the first that some question has is the status of the whole
TROUBLES = 10  # lines of them that are told, and refusals of formulas
REFUSED = 64  # the least status that is no answer
WRONG_WORDS, UNAVAILABLE, NO_ROOM, NOT_ASKED = 64, 72, 73, 125
MOST_TO_END = 10  # seconds that parallel has to end its jobs
MOST_HELD = 1 << 22  # bytes of bundles that are held in memory
LEAST_TIME = 0.001  # seconds of a question that has a limit, since 0 is none for timeout
MARK, MARK_TEXT = "many_logs.mark", b"This folder has answers of examples/many_logs.py.\n"
MOST_NAME = 255  # bytes of the name of a file
ANSWER = re.compile(r"(?:\./)?([0-9]+)/([0-9]+)\.(report|status)")

# A job: unpacks a bundle in a folder of its own, asks its questions, and writes the reports as an archive. It fails where
# it can't keep an answer. A question that `timeout` runs has a group of its own, which ends with the job. On another machine
# the shell may be one in which `status` can't be set, as zsh.
JOB = """\
brace=$(printf '\\173')
command -v -- {program} >/dev/null || {{ printf "many_logs: %s isn't there\\n" {program} >&2; exit 72; }}
room=$(mktemp -d) || exit 74
trap 'rm -rf "$room"' EXIT
run=
trap 'kill -s KILL -- "-$run" 2>/dev/null; exit 130' HUP INT TERM
tar -C "$room" -xf {{}} && cd "$room" && mkdir answers || exit 74
while IFS='\t' read -r formula log ending; do
  mkdir -p "answers/$formula" || exit 74
  {command} "formulas/$formula$ending" "logs/$log" >"answers/$formula/$log.report" </dev/null &
  run=$!
  wait "$run"
  end=$?
  [ "$end" -ne {unwritten} ] || {{ printf "many_logs: a report can't be written in %s\\n" "${{TMPDIR:-/tmp}}" >&2; exit 74; }}
  echo "$end" >"answers/$formula/$log.status" || exit 74
done <questions
tar -C answers -cf - .
"""


def tell(words):
    """Says something that doesn't end the script."""
    say(f"many_logs: {words}")


# Files


def files_of(options):
    """The logs and the formulas by their names."""
    folder = Path(options.logs)
    if not folder.is_dir():
        raise Trouble(CANNOT_READ, f"{shown(folder)} is no folder")
    found = sorted(folder.iterdir())
    logs = {path.name: path for path in found if path.name.endswith(".csv")}
    formulas = {}
    for path in map(Path, options.formulas):
        if path.name in formulas:
            raise Trouble(WRONG_WORDS, f"two formulas have one name: {shown(path.name)}")
        formulas[path.name] = path
    if not logs:
        raise Trouble(CANNOT_READ, f"{shown(folder)} has no file NAME.csv")
    known = {*logs, *(f"{name}.notes" for name in logs)}  # and what `ask` keeps beside a log
    others = sum(path.name not in known for path in found)
    if others:
        tell(f"left out of {shown(folder)}, being no NAME.csv: {others}")
    return logs, formulas


def shown(name):
    """A name as it is shown, on one line, so that no two are shown alike."""
    return escaped(str(name).replace("\\", "\\\\"))


def bytes_of(path, kind):
    """The bytes of a file, of one that is too long as many as show that it is."""
    try:
        return read_file(path, LIMITS[kind].most + 1)
    except (OSError, ValueError) as error:
        raise Trouble(CANNOT_READ, f"{shown(path)} can't be read: {reason_of(error)}") from None


def log_of(path):
    """The bytes of a log, or None where it is no file that can be read, which is said."""
    try:
        if not stat.S_ISREG(os.stat(path).st_mode):  # the others may have no end, or wait for somebody
            raise Trouble(CANNOT_READ, f"{shown(path)} can't be read: it is no regular file")
        return bytes_of(path, "log")
    except OSError as error:
        tell(f"{shown(path)} can't be read: {reason_of(error)}")
    except Trouble as trouble:
        tell(trouble.message)
    return None


def write(path, data):
    """Writes a file, whole or not at all, and the folders that it lies in."""
    try:
        path.parent.mkdir(parents=True, exist_ok=True)
        replace_file(str(path), data)
    except OSError as error:
        raise Trouble(CANNOT_WRITE, f"{shown(path)} can't be written: {reason_of(error)}") from None


# Questions


class Question(NamedTuple):
    """A formula and a log, each by its number from 1 and by its bytes."""

    formula: int
    log: int
    text: bytes
    data: bytes
    is_written_out: bool  # for this log alone

    def ending(self):
        """What stands in a bundle behind the number of the formula, so that each log has its own."""
        return f"-{self.log}" if self.is_written_out else ""

    def line(self):
        """The question as a job reads it."""
        return "\t".join([str(self.formula), str(self.log), *[self.ending()] * self.is_written_out]) + "\n"


def bundle(questions):
    """An archive of some questions with their files, the same bytes each time. A file is named by its number."""
    parts = {"questions": "".join(question.line() for question in questions).encode()}
    for question in questions:
        parts[f"formulas/{question.formula}{question.ending()}"] = question.text
        parts[f"logs/{question.log}"] = question.data
    whole = io.BytesIO()
    with tarfile.open(fileobj=whole, mode="w") as archive:
        for name, data in parts.items():
            entry = tarfile.TarInfo(name)
            entry.size = len(data)
            archive.addfile(entry, io.BytesIO(data))
    return whole.getvalue()


class Spool:
    """Bundles one after another, in a file without a name where they are many, since they may be more than memory holds."""

    def __init__(self):
        self.sizes, self.digests = [], []
        self.file = tempfile.SpooledTemporaryFile(MOST_HELD)

    def add(self, data):
        """Adds a bundle."""
        try:
            self.file.write(data)
        except OSError as error:
            raise unkept(error) from None
        self.sizes.append(len(data))
        self.digests.append(sha256(data).digest())

    def bundles(self):
        """All of them, one after another, after which the file is closed."""
        with self.file:
            try:
                self.file.seek(0)  # which writes what waits to be written
            except OSError as error:
                raise unkept(error) from None
            for size in self.sizes:
                yield self.file.read(size)


def unkept(error):
    """The trouble that there is no room for bundles."""
    return Trouble(CANNOT_WRITE, f"what is asked can't be kept in a temporary file: {reason_of(error)}")


class Gathering:
    """The bundles of the questions that can be asked, what is asked in each, the statuses of all questions, and why those
    are refused that can't be."""

    def __init__(self, options, logs, formulas):
        self.sources = [Source(shown(name), bytes_of(path, "formula")) for name, path in formulas.items()]
        self.unit, self.size = options.unit, options.bundle
        self.statuses, self.written, self.refusals = {}, {}, []
        self.spool, self.asked, self.waiting = Spool(), [], []
        for log, path in enumerate(logs.values(), 1):
            data = log_of(path)
            for formula in range(1, len(self.sources) + 1):
                self.take(formula, log, path, data)
        self.close_bundle()

    def take(self, formula, log, path, data):
        """Takes the question of a formula and a log, whose bytes are None where it can't be read."""
        if data is None:
            self.statuses[formula, log] = CANNOT_READ
            return
        source = self.sources[formula - 1]
        try:
            text = self.written_for(source, path, data)
        except Trouble as trouble:
            self.statuses[formula, log] = trouble.status
            self.refusals.append(refusal_words(shown(path.name), trouble))
            return
        if text is not source:
            self.written[formula, log] = text.data
        self.statuses[formula, log] = NOT_ASKED
        self.waiting.append(Question(formula, log, text.data, data, text is not source))
        if len(self.waiting) == self.size:
            self.close_bundle()

    def close_bundle(self):
        """Makes a bundle of the questions that wait for one, if there are any."""
        if self.waiting:
            self.spool.add(bundle(self.waiting))
            self.asked.append([(question.formula, question.log) for question in self.waiting])
            self.waiting = []

    def written_for(self, formula, path, data):
        """A formula as the program takes it, written out for a log where it has words of ask."""
        if not has_words(formula):
            return formula
        if len(data) > LIMITS["log"].most:
            raise Trouble(TOO_LONG, LIMITS["log"].words)
        return written_out(formula, scaled(Source(shown(path.name), data), str(path), self.unit))

    def tell_refusals(self):
        """Says why questions aren't asked, of the first of them."""
        for refusal in self.refusals[:TROUBLES]:
            tell(refusal)
        if len(self.refusals) > TROUBLES:
            tell(f"{len(self.refusals) - TROUBLES} questions more are refused so")


def refusal_words(log, trouble):
    """Why a formula isn't asked of a log, on one line, with the name of the log."""
    said = trouble.message.splitlines()[0]
    return said if said.startswith(log) else f"{log}: {said}"


def refuse_folder(folder):
    """Refuses a folder of answers that is somebody else's."""
    if not os.path.lexists(folder):
        return
    if not folder.is_dir():
        raise Trouble(CANNOT_READ, f"{shown(folder)} is no folder")
    mark = folder / MARK
    is_own = mark.is_file() and not mark.is_symlink() and read_file(mark, len(MARK_TEXT) + 1) == MARK_TEXT
    if not is_own and has_files(folder):
        words = "isn't empty, and it has no mark of answers; name another folder by --to"
        raise Trouble(NO_ROOM, f"{shown(folder)} {words}")


def make_folder(folder):
    """Makes the folder of answers, with its mark, and takes it for this run; gives what holds it until the script ends."""
    try:
        folder.mkdir(parents=True, exist_ok=True)
    except OSError as error:
        raise Trouble(NO_ROOM, f"{shown(folder)} can't be made: {reason_of(error)}") from None
    held = os.open(folder, os.O_RDONLY | os.O_DIRECTORY)
    try:
        fcntl.flock(held, fcntl.LOCK_EX | fcntl.LOCK_NB)
    except BlockingIOError:
        raise Trouble(NO_ROOM, f"{shown(folder)} is in use by another run") from None
    except OSError:
        pass  # where the system has no such locks
    write(folder / MARK, MARK_TEXT)
    return held


class Questions:
    """What is asked: the names of logs and formulas, the status of each question, and the bundles in their folder, each
    with its questions."""

    def __init__(self, options, command):
        refuse_folder(Path(options.to))
        logs, formulas = files_of(options)
        self.logs, self.formulas = list(logs), list(formulas)
        gathered = Gathering(options, logs, formulas)
        self.statuses, self.written = gathered.statuses, gathered.written
        names = [os.fsencode(name) for name in [command, *self.logs, "", *self.formulas]]
        digest = sha256(b"\0".join([*names, *gathered.spool.digests])).hexdigest()
        self.top = Path(options.to)
        self.folder = self.top / f"questions-{digest[:12]}"
        self.bundles = {f"{number:05}.tar": asked for number, asked in enumerate(gathered.asked, 1)}
        self.write(gathered.spool.bundles())
        gathered.tell_refusals()

    def write(self, bundles):
        """Writes the bundles into a folder named by what is asked."""
        if any(other != self.folder for other in self.top.glob("questions-????????????")):
            words = "has answers of other logs, formulas or options; name another folder by --to"
            raise Trouble(WRONG_WORDS, f"{shown(self.top)} {words}")
        self.held = make_folder(self.top)
        if not self.folder.exists():
            room = self.folder.with_suffix(".new")
            for name, data in zip(self.bundles, bundles):
                write(room / name, data)
            room.mkdir(exist_ok=True)
            room.rename(self.folder)

    def name_of(self, formula, log):
        """The names of the formula and the log of a question."""
        return self.formulas[formula - 1], self.logs[log - 1]


# Jobs


def jobs_done(questions):
    """The jobs of the joblog that didn't fail, by the names of their bundles, each with its line."""
    log = questions.top / "jobs"
    lines = log.read_bytes().splitlines()[1:] if log.exists() else []
    fields = ((line.split(b"\t"), line) for line in lines)
    done = {f"{int(parts[0]):05}.tar": line for parts, line in fields if parts[6:8] == [b"0", b"0"] and parts[0].isdigit()}
    return {name: line for name, line in done.items() if name in questions.bundles}


def clear_undone(questions):
    """Leaves in the joblog the jobs that are done and whose answers are whole, and of the answers theirs, since parallel
    passes over all others.

    What parallel writes of a bundle has its name, so nothing else is removed.
    """
    jobs, answers = questions.top / "jobs", questions.top / "answers"
    done = jobs_done(questions)
    done = {name: line for name, line in done.items() if given_in(answers / name).is_whole(questions.bundles[name])}
    if jobs.exists():
        title = jobs.read_bytes().splitlines()[:1]
        write(jobs, b"".join(line + b"\n" for line in [*title, *done.values()]))
    answers.mkdir(exist_ok=True)
    for name in questions.bundles:
        for ending in ("", ".err", ".seq"):
            if name not in done and (answers / (name + ending)).is_file():
                (answers / (name + ending)).unlink()


def ask(options, command, questions):
    """Has parallel run the jobs of the bundles that aren't done."""
    clear_undone(questions)
    words = ["parallel", "--will-cite", "--joblog", "jobs", "--resume", "--results", "answers/{/}", "--jobs", options.jobs]
    words += ["--termseq", "TERM,300,KILL,50"]
    words += ["--sshlogin", options.machines, "--transferfile", "{}", "--cleanup"] if options.machines else []
    words += ["--bar"] if sys.stderr.isatty() else []
    bundles = "".join(f"{questions.folder.name}/{name}\n" for name in questions.bundles)
    job = JOB.format(program=in_job(options.program), command=command, unwritten=CANNOT_WRITE)
    run_parallel([*words, job], questions.top, bundles.encode())


def in_job(word):
    """A word in the shell of a job. In braces parallel would see something to be replaced."""
    return quote(word).replace("{", "'\"$brace\"'")


def run_parallel(words, folder, text):
    """Runs parallel, and ends it with its jobs where something ends the script."""
    process = None
    try:
        with uninterrupted():
            process = subprocess.Popen(
                words, cwd=folder, stdin=subprocess.PIPE, stdout=subprocess.DEVNULL, start_new_session=True,
                env={**os.environ, "PARALLEL_SHELL": "/bin/sh"},
            )
        process.communicate(text)
    except BaseException:
        with uninterrupted():
            if process is not None:
                end_parallel(process)
        raise


def end_parallel(process):
    """Ends parallel: told once it waits for its jobs, told twice it ends them, and then it is ended by force."""
    for number, seconds in ((signal.SIGTERM, 0.2), (signal.SIGTERM, MOST_TO_END), (signal.SIGKILL, MOST_TO_END)):
        if process.poll() is None:
            os.killpg(process.pid, number)
        try:
            process.wait(seconds)
        except subprocess.TimeoutExpired:
            pass


def troubles(questions):
    """What the jobs said on their standard error, each line once."""
    paths = [questions.top / "answers" / f"{name}.err" for name in questions.bundles]
    lines = (line for path in paths if path.is_file() for line in path.read_text(errors="replace").splitlines())
    return list(dict.fromkeys(lines))


# Answers


def answers_in(path):
    """What a job gave, one after another, as far as its archive can be read: the numbers of the question, which of the two
    it is, and its bytes. Reports may be great, and no two of them are held at once."""
    try:
        with tarfile.open(path) as archive:
            for entry in archive:
                match = ANSWER.fullmatch(entry.name)
                if entry.isfile() and match:
                    yield (int(match[1]), int(match[2])), match[3], archive.extractfile(entry).read()
    except (OSError, EOFError, ValueError, tarfile.TarError):
        pass  # is_whole tells what lacks


class Given(NamedTuple):
    """Of which questions a job gave a report, and the statuses that it gave."""

    reports: set
    statuses: dict

    def is_whole(self, asked):
        """Whether there is a report and a status of each question that was asked."""
        return all(self.statuses.get(question, b"").isdigit() and question in self.reports for question in asked)


def given_in(path):
    """What a job gave, but for the reports themselves."""
    given = Given(set(), {})
    for question, kind, data in answers_in(path):
        if kind == "status":
            given.statuses[question] = data.strip()
        else:
            given.reports.add(question)
        del data  # before the next one is read
    return given


def collect(questions):
    """Writes the reports of the jobs that are done, and the status of each question."""
    count = sum(collect_job(questions, name) for name in jobs_done(questions))
    if count:
        tell(f"questions with status 72, since what the program wrote isn't what check writes with its status: {count}")
    lines = []
    for (formula, log), status in questions.statuses.items():
        formula_name, log_name = questions.name_of(formula, log)
        lines.append(f"{status}\t{shown(formula_name)}\t{shown(log_name)}\n")
    write(questions.top / "statuses", "".join(lines).encode())


def collect_job(questions, name):
    """The same of one job; of how many questions the program wrote no report with its status."""
    path, count = questions.top / "answers" / name, 0
    given = given_in(path)
    if not given.is_whole(questions.bundles[name]):
        tell(f"{shown(path)} lacks answers, which the same words ask for again")
    for question, kind, report in answers_in(path):
        if kind == "report" and question in questions.statuses:
            count += take_report(questions, question, report, given.statuses.get(question, b""))
        del report
    return count


def take_report(questions, question, report, status):
    """Writes a report, and takes the status of its question; whether that isn't the one that the run had."""
    formula_name, log_name = questions.name_of(*question)
    reports = questions.top / "reports" / formula_name
    write(reports / name_beside(log_name, "report"), report)
    if question in questions.written:
        write(reports / name_beside(log_name, "formula"), questions.written[question])
    questions.statuses[question] = status_of_answer(status, report)
    return questions.statuses[question] == UNAVAILABLE and int(status[:4]) != UNAVAILABLE


def name_beside(log, kind):
    """The name of the report on a log, or of its formula: that of the log and the kind, cut where it would be too long."""
    ending = b"." + kind.encode()
    name = os.fsencode(log) + ending
    if len(name) > MOST_NAME:
        name = name[: MOST_NAME - 40] + b"-" + sha256(name).hexdigest()[:16].encode() + ending
    return os.fsdecode(name)


def status_of_answer(text, report):
    """The status of a question: that of its run, where the run was one of skewcheck."""
    if not text.isdigit():
        return NOT_ASKED
    status = int(text[:4])
    return status if REFUSED <= status <= 255 or verdict_of(report) == status else UNAVAILABLE


def table(questions):
    """How many logs have which answer, a line for each formula."""
    heads = ["formula", *WORDS.values(), "none"]
    rows = []
    for number, name in enumerate(questions.formulas, 1):
        counts = Counter(status for (formula, _), status in questions.statuses.items() if formula == number)
        none = sum(counts.values()) - sum(counts[status] for status in WORDS)
        rows.append([shown(name), *(str(counts[status]) for status in WORDS), str(none)])
    widths = [max(map(width_of, column)) for column in zip(heads, *rows)]
    for row in [heads, *rows]:
        first = row[0] + " " * (widths[0] - width_of(row[0]))
        yield "  ".join([first, *(cell.rjust(width) for cell, width in zip(row[1:], widths[1:]))])


def status_of(statuses):
    """The status of the whole: the greatest one that is no answer, or else the first of ORDER."""
    found = set(statuses.values())
    return max((status for status in found if status >= REFUSED), default=None) or next(s for s in ORDER if s in found)


# Words


class Parser(argparse.ArgumentParser):
    """A parser whose refusals have a status that no answer has."""

    def error(self, message):
        raise Trouble(WRONG_WORDS, f"{escaped(message)} (--help says the words)")

    def print_help(self, file=None):
        write_output(self.format_help())


def number_of_seconds(text):
    """A number of seconds above 0."""
    try:
        value = float(text)
    except ValueError:
        value = 0.0
    if not 0 < value < 10**7:
        raise argparse.ArgumentTypeError(f"a number of seconds is above 0, and not {text!r}")
    return value


def number_of_conflicts(text):
    """A number of conflicts that check takes."""
    value = number(text, 10**6)
    if not value:
        raise argparse.ArgumentTypeError(f"a number of conflicts is from 1 to 1,000,000, and not {text!r}")
    return value


def number_of_jobs(text):
    """A number of jobs, or a share of the cores."""
    if not re.fullmatch(r"[+-][0-9]{1,6}%?|0*[1-9][0-9]{0,5}%?", text, re.ASCII):
        raise argparse.ArgumentTypeError(f"a number of jobs is as 4, +1 or 50%, and not {text!r}")
    return text


def name_of_folder(folder):
    """The name of a folder, as it was given unless that has none of its own at its end."""
    return os.path.abspath(folder) if os.path.basename(folder.rstrip("/")) in ("", ".", "..") else folder.rstrip("/")


def options_of(words):
    """What is asked for."""
    parser = Parser(prog="many_logs.py", description="ask formulas of each log of a folder", allow_abbrev=False)
    parser.add_argument("logs", metavar="LOGS", help="the folder of the logs, each a file NAME.csv")
    parser.add_argument(
        "formulas", metavar="FORMULA", nargs="+", help="files, also in the words of ask (docs/asking.md#formulas)",
    )
    parser.add_argument("--to", metavar="FOLDER", help="where the answers go (LOGS.answers)")
    parser.add_argument(
        "--jobs", metavar="N", type=number_of_jobs, default="100%", help="jobs at a time on each machine (one a core)",
    )
    parser.add_argument("--machines", metavar="LIST", help="other machines, as parallel's --sshlogin takes them; : is this one")
    parser.add_argument("--program", metavar="FILE", help="skewcheck on each machine (that of the path, else the built one)")
    parser.add_argument("--conflicts", metavar="N", type=number_of_conflicts, help="as of check")
    parser.add_argument(
        "--seconds", metavar="S", type=number_of_seconds, help="stop a question that takes longer; its status is 124",
    )
    parser.add_argument(
        "--unit", choices=list(UNITS), help="of logs without LOG.notes, for intervals with units, as F[0,250ms]",
    )
    parser.add_argument("--bundle", metavar="N", type=int, default=16, help="questions of one job (16)")
    options = parser.parse_intermixed_args(words)
    if options.bundle < 1:
        parser.error("a bundle has at least one question")
    if any("\0" in word for word in words):
        parser.error("a word has a NUL byte")
    options.to = options.to or name_of_folder(options.logs) + ".answers"
    options.program = options.program or ("skewcheck" if shutil.which("skewcheck") or options.machines else str(OWN))
    if "/" in options.program and not options.machines:
        options.program = os.path.abspath(options.program)  # a job runs in a folder of its own
    return options


def main():
    """Asks, prints the table, and gives the status of the whole."""
    try:
        options = options_of(sys.argv[1:])
    except SystemExit as end:  # the words ask for help
        return int(end.code or 0)
    command = f"{in_job(options.program)} check" + (f" --conflicts {options.conflicts}" if options.conflicts else "")
    command = f"timeout -k 5 {max(options.seconds, LEAST_TIME):f} {command}" if options.seconds else command
    if not shutil.which("parallel"):
        raise Trouble(UNAVAILABLE, "GNU parallel isn't there (Debian's package parallel)")
    if not options.machines and not shutil.which(options.program):
        remedy = f", and no skewcheck is in the path: {REMEDY}" if options.program == str(OWN) else ""
        raise Trouble(UNAVAILABLE, f"{shown(options.program)} isn't there{remedy}")
    questions = Questions(options, command)
    ask(options, command, questions)
    collect(questions)
    for line in troubles(questions)[:TROUBLES]:
        say(line)
    write_output("".join(f"{line}\n" for line in table(questions)))
    return status_of(questions.statuses)


def refuse(status, message):
    """Says what the script can't do, and after an interrupt that nothing is lost; gives the status."""
    is_end = 128 < status < 160
    return refuse_as("many_logs")(status, f"{message}: broken off; the same words go on from here" if is_end else message)


if __name__ == "__main__":
    run_script(main, refuse)
