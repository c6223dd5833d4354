"""Runs the companion and the scripts on hostile words, files, streams and signals, and says what is wrong with each run.

Whatever is asked of a script, these are faults: a traceback, a status that it doesn't have, a status below 64 where the
output couldn't be written, the status 1 without a verdict, a byte that acts on a terminal, a picture that is no XML, a
run that has no end, what it started and left, and more than 2 seconds of its own processor time.
"""

import os
import re
import signal
import socket
import subprocess
import sys
import tempfile
import time
from concurrent.futures import ThreadPoolExecutor
from enum import Enum
from html.parser import HTMLParser
from itertools import groupby
from pathlib import Path
from typing import NamedTuple, Optional
from xml.etree import ElementTree

HERE = Path(__file__).resolve().parent
ROOT = HERE.parent.parent
PROGRAM = "the program"  # stands among words for its path
PATIENCE = 60  # seconds that a run may take until it counts as one without an end
MOST_SECONDS = 2  # of processor time of the script itself, whatever it is given
MOST_TO_END = 8  # seconds from a signal to the end
ANSWERS = set(range(7))  # statuses that come with an answer
TROUBLES = {*range(64, 76), 124, 125, 129, 130, 143}
# What acts on a terminal, and what is no text: only newlines may be there.
ACTING = re.compile("[\x00-\x09\x0b-\x1f\x7f-\x9f\u061c\u200e\u200f\u2028-\u202e\u2066-\u2069\ud800-\udfff]")
VERDICT = re.compile(
    rb'^(False: |None: |Never: |.*\bfalse\b.*\n.*formula|formula +true +false)|"verdict": "false"|"number": null|"least": null'
    rb'|"lines": \[',
    re.M,
)


class Odd(Enum):
    """What may stand in place of a file."""

    FOLDER = "a folder"
    FIFO = "a FIFO that nobody writes to"
    SOCKET = "a socket"
    DANGLING = "a link to nothing"
    LOOP = "a link to itself"
    ZERO = "a link to /dev/zero"
    NULL = "a link to /dev/null"
    FULL = "a link to /dev/full"


class Run(NamedTuple):
    """A script with its words, files and streams, and what has to come of it."""

    kind: str  # ask or scripts
    title: str
    script: str  # its path in the repository
    words: list  # str or bytes
    files: dict  # bytes or Odd by name
    statuses: tuple = ()  # each of them is right; where there is none, each that the scripts have
    given: Optional[bytes] = None  # what the standard input has; nothing can be read from it where it is None
    output: str = ""  # how the shell turns the standard output: `>&-`, `>/dev/full`, or `gone`, a pipe that nobody reads
    errors: str = ""  # the same of the standard error
    stub: Optional[str] = None  # a shell script in place of the program
    signal: Optional[int] = None  # what is sent once the stub has begun
    is_light: bool = True  # whether its own processor time is bounded


class Ended(NamedTuple):
    """How a run ended."""

    status: int
    output: bytes
    errors: bytes
    cpu: Optional[float]  # None where the script was ended before it could say it
    seconds: float
    left: tuple  # the processes of the stub that go on


def make(folder, name, data):
    """Makes a file, or what stands in place of one."""
    path = os.path.join(os.fsencode(folder), os.fsencode(name))
    os.makedirs(os.path.dirname(path), exist_ok=True)
    links = {Odd.DANGLING: "/nowhere/at/all", Odd.LOOP: path, Odd.ZERO: "/dev/zero", Odd.NULL: "/dev/null", Odd.FULL: "/dev/full"}
    if data is Odd.FOLDER:
        os.mkdir(path)
    elif data is Odd.FIFO:
        os.mkfifo(path)
    elif data is Odd.SOCKET:
        with socket.socket(socket.AF_UNIX) as end:
            end.bind(path)
    elif data in links:
        os.symlink(links[data], path)
    else:
        with open(path, "wb") as file:
            file.write(data)


def done(run, program):
    """How a run ends, in a folder of its own."""
    with tempfile.TemporaryDirectory() as room:
        folder = Path(room, "in")
        folder.mkdir()
        for name, data in run.files.items():
            make(folder, name, data)
        if run.stub is not None:
            program = str(Path(room, "stub"))
            make(room, "stub", f"#!/bin/bash\n{run.stub}".encode())
            os.chmod(program, 0o755)
        return finished(run, Path(room), folder, {**os.environ, "SKEWCHECK": program, "BEGUN": str(Path(room, "begun"))})


def finished(run, room, folder, environment):
    """How the process of a run ends."""
    turned = " ".join(part for part in ("<&-" * (run.given is None), run.output.replace("gone", ""), run.errors) if part)
    words = ["bash", "-c", f'exec "$@" {turned}', "bash", sys.executable, str(HERE / "timed.py"), str(room / "cpu")]
    words += [str(ROOT / run.script), *(environment["SKEWCHECK"] if word is PROGRAM else word for word in run.words)]
    (room / "given").write_bytes(run.given or b"")
    reader, writer = os.pipe()
    os.close(reader)
    began = time.monotonic()
    with open(room / "given", "rb") as given, open(room / "out", "wb") as out, open(room / "err", "wb") as err:
        process = subprocess.Popen(
            words, cwd=folder, env=environment, stdin=given, stdout=writer if run.output == "gone" else out, stderr=err,
            start_new_session=True,
        )
        os.close(writer)
        try:
            began = begun(run, room, process) or began
            process.wait(MOST_TO_END if run.signal else PATIENCE)
        except subprocess.TimeoutExpired:
            pass
        status = process.poll()
        if status is None:
            os.killpg(process.pid, signal.SIGKILL)
            process.wait()
    cpu = (room / "cpu").read_text() if (room / "cpu").exists() else ""
    seconds = time.monotonic() - began
    return Ended(
        -99 if status is None else status, (room / "out").read_bytes(), (room / "err").read_bytes(),
        float(cpu) if cpu else None, seconds, left(room / "begun"),
    )


def begun(run, room, process):
    """Sends the signal of a run once its stub has begun; the moment of that, or None where there is no signal."""
    if run.signal is None:
        return None
    ends = time.monotonic() + PATIENCE
    while time.monotonic() < ends and process.poll() is None and not (room / "begun").exists():
        time.sleep(0.02)
    process.send_signal(run.signal)
    return time.monotonic()


def left(marks):
    """The processes of a stub that go on, which are ended then."""
    found = []
    for number in marks.read_text().split() if marks.exists() else []:
        try:
            if "Z" not in Path("/proc", number, "stat").read_text().rpartition(")")[2].split()[0]:
                found.append(number)
                os.kill(int(number), signal.SIGKILL)
        except OSError:
            pass
    return tuple(found)


# What is wrong


def complaint(run, ended):
    """What is wrong with a run, or nothing."""
    for test in (status_complaint, output_complaint, time_complaint):
        wrong = test(run, ended)
        if wrong:
            return f"{wrong}; it says {ended.errors[:300]!r}"
    return ""


def status_complaint(run, ended):
    """What is wrong with the status."""
    if ended.status == -99:
        return f"it hasn't ended after {ended.seconds:.0f} seconds"
    if run.statuses and ended.status not in run.statuses:
        return f"status {ended.status}, not {' or '.join(map(str, run.statuses))}"
    if not run.statuses and ended.status not in ANSWERS | TROUBLES:
        return f"status {ended.status}, which no script has"
    if run.output and ended.status in ANSWERS:
        return f"status {ended.status}, and the output can't be written"
    if ended.status == 1 and not run.output and not VERDICT.search(ended.output):
        return f"status 1 without a verdict, with {ended.output[:200]!r}"
    if ended.status >= 64 and not run.errors and not (ended.errors + ended.output).strip():
        return f"status {ended.status}, and nothing is said"
    return ""


def output_complaint(run, ended):
    """What is wrong with what was written."""
    for name, written in (("output", ended.output), ("standard error", ended.errors)):
        if b"Traceback" in written or b"Exception ignored" in written or b"an error of the script itself" in written:
            return f"a traceback: {written[-400:]!r}"
        try:
            acting = ACTING.search(written.decode())
        except UnicodeDecodeError as error:
            return f"its {name} is no text: {error}"
        if acting:
            return f"its {name} has {acting.group()!r} at {acting.start()}"
    if run.script == "ask/ask" and run.words[:1] == ["draw"] and ended.status == 0 and "--json" not in run.words:
        return picture_complaint(ended.output.decode(), "--svg" in run.words)
    return ""


PICTURE = re.compile(r"<svg\b.*?</svg>", re.S)
OF_A_PAGE = {"svg": 0, "script": 2, "header": 1}  # beside its pictures


def picture_complaint(text, is_svg):
    """What is wrong with a picture, or the page of one."""
    try:
        for picture in [text] if is_svg else PICTURE.findall(text):
            ElementTree.fromstring(picture)
    except ElementTree.ParseError as error:
        return f"the picture is no XML: {error}"
    if is_svg:
        return ""
    page = Page()
    page.feed(text)
    is_right = {**page.counts, "svg": 0} == OF_A_PAGE and page.counts["svg"] == len(PICTURE.findall(text)) > 0
    return "" if is_right else f"the page has {page.counts}"


class Page(HTMLParser):
    """How often a page has its elements."""

    def __init__(self):
        super().__init__()
        self.counts = {"svg": 0, "script": 0, "header": 0}

    def handle_starttag(self, tag, attrs):
        if tag in self.counts:
            self.counts[tag] += 1


def time_complaint(run, ended):
    """What is wrong with the time that it took, and with what goes on."""
    if ended.left:
        return f"the processes {', '.join(ended.left)} go on"
    if run.is_light and ended.cpu is not None and ended.cpu > MOST_SECONDS:
        return f"it takes {ended.cpu:.2f} seconds of processor time"
    return ""


# All runs


def run_all(runs, program):
    """Does the runs side by side, prints a line for those of one kind and title, and returns their number and complaints."""
    found, count = [], 0
    with ThreadPoolExecutor(os.cpu_count()) as pool:
        ends = pool.map(lambda run: (run, done(run, program)), runs)
        for (kind, title), group in groupby(ends, lambda pair: (pair[0].kind, pair[0].title.partition(":")[0])):
            group = list(group)
            wrong = [(run, complaint(run, ended)) for run, ended in group]
            found += [f"{kind}: {run.title}: {words}, of {shown(run)}" for run, words in wrong if words]
            count += len(group)
            statuses = " ".join(map(str, sorted({ended.status for _, ended in group})))
            most = max((ended.cpu or 0 for _, ended in group), default=0)
            print(f"{kind:8}{title[:56]:58}{len(group):>6} runs  {most:>7.3f} s  {statuses}", flush=True)
    return count, found


def shown(run):
    """The words of a run as complaints tell them."""
    return f"{run.script} {' '.join(repr(word)[:120] for word in run.words)} {run.output} {run.errors}"
