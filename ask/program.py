"""Runs the program: hands it the bytes that were read, and keeps a list of what was asked."""

from __future__ import annotations

import argparse
import os
import selectors
import shutil
import signal
import subprocess
import sys
import tempfile
import time
from contextlib import ExitStack, suppress
from dataclasses import dataclass, field
from pathlib import Path
from typing import IO, List, NamedTuple, Optional, Sequence, Tuple

from ask.ends import limit_time, uninterrupted
from ask.texts import Source, Trouble, escaped, say

ROOT = Path(__file__).resolve().parent.parent
BUILT = ROOT / "crates" / "skewcheck" / "out" / "skewcheck"
IS_SOURCE = BUILT.parent.parent.is_dir()  # whether this is the repository, and not what ./install puts elsewhere
REMEDY = f"run {ROOT / 'skewcheck'} once, which proves and builds it" if IS_SOURCE else "install skewcheck again"
NOT_THERE = 72  # the status where there is no program, which is also that of ./skewcheck
STOPPED = 124  # the status where a run took longer than --seconds allows, which is also that of timeout
MOST_SHOWN = 400  # letters of the words of a run
PATIENCE = 1.0  # seconds after which a run is spoken of
MOST_TO_TELL = 1.0  # seconds in which what was found has to be told, when those of --seconds are over
MOST_TO_END = 0.3  # seconds that a run has to end by itself, when it is told to
MOST_OUTPUT = 1 << 28  # bytes that a run may write


class Run(NamedTuple):
    """What was asked of the program, how it ended, and what it wrote."""

    words: str
    status: int
    output: bytes

    def line(self) -> str:
        """The first line that was written."""
        return self.output.split(b"\n", 1)[0].decode("utf-8", "replace")


class Stopped(Exception):
    """A run took longer than it may, or there was no time left for it."""


@dataclass
class Program:
    """The program, how long all runs may take together, and the runs so far.

    The first run may take all of that, and each further one half of what is left, so that there is always time for
    what comes behind it.
    """

    path: str
    seconds: Optional[float] = None
    runs: List[Run] = field(default_factory=list)
    is_quiet: bool = False

    def __post_init__(self) -> None:
        self.begin()

    def begin(self) -> None:
        """Has the time begin, also once more."""
        self.ends = None if self.seconds is None else time.monotonic() + self.seconds
        self.is_first = True

    def time_for_run(self) -> Optional[float]:
        """The seconds that the next run may take, None where there is no limit."""
        if self.ends is None:
            return None
        left = self.ends - time.monotonic()
        if left <= 0:
            raise Stopped
        limit_time(left + MOST_TO_TELL)
        part, self.is_first = left if self.is_first else left / 2, False
        return part

    def begin_telling(self) -> None:
        """Has the time begin that it takes to tell what was found, behind what is left of the whole."""
        if self.ends is not None:
            limit_time(max(0.0, self.ends - time.monotonic()) + MOST_TO_TELL)

    def run(self, command: str, sources: Sequence[Source], options: Sequence[str] = ()) -> Run:
        """Runs a command on files whose bytes are handed over as they were read."""
        shown = words_whole(command, options, sources)
        seconds = self.time_for_run()
        with ExitStack() as stack:
            files = [stack.enter_context(handed(source.data)) for source in sources]
            words = [self.path, command, *options, *(f"/dev/fd/{file.fileno()}" for file in files)]
            numbers = [file.fileno() for file in files]
            status, output = finish(words, numbers, shown, seconds, not self.is_quiet)
        if status < 0:
            raise ended_by_signal(self.path, -status, f", at: {shown}", "ask about a window of the log (ask log --help)")
        run = Run(words_shown(command, options, sources), status, output)
        self.runs.append(run)
        return run


def words_whole(command: str, options: Sequence[str], sources: Sequence[Source]) -> str:
    """The words of a run on files, by the names of these."""
    return escaped(" ".join(" ".join([command, *options, *(source.name for source in sources)]).split()))


def words_shown(command: str, options: Sequence[str], sources: Sequence[Source]) -> str:
    """The same as answers show them: their beginning where they are long."""
    shown = words_whole(command, options, sources)
    return shown if len(shown) <= MOST_SHOWN else shown[: MOST_SHOWN - 2] + ".."


def finish(
    words: List[str], descriptors: List[int], shown: str, seconds: Optional[float], is_told: bool
) -> Tuple[int, bytes]:
    """Starts words, waits for their end, and tells of long runs on a terminal, where that is wanted."""
    watch: Optional[Watch] = None
    try:
        with uninterrupted():
            watch = Watch(started(words, descriptors), shown, seconds, is_told and sys.stderr.isatty())
        return watch.end()
    except BaseException:
        with uninterrupted():
            if watch is not None:
                watch.kill()
        raise
    finally:
        if watch is not None:
            watch.close()


def started(words: List[str], descriptors: List[int]) -> "subprocess.Popen[bytes]":
    """A run that has been started, in a group of its own, so that it can be ended with all that it starts."""
    try:
        return subprocess.Popen(
            words, stdin=subprocess.DEVNULL, stdout=subprocess.PIPE, pass_fds=descriptors, start_new_session=True,
        )
    except (OSError, ValueError) as error:
        told = f"{escaped(words[0])} can't be run: {error.args[-1]}; name another one by --program FILE"
        raise Trouble(NOT_THERE, told) from None


class Watch:
    """A run under way: since when, until when at most, and when it is told next how long it takes."""

    def __init__(self, process: "subprocess.Popen[bytes]", shown: str, seconds: Optional[float], is_told: bool):
        self.process, self.shown, self.is_told = process, shown, is_told
        self.began = time.monotonic()
        self.ends = None if seconds is None else self.began + seconds
        self.tells = self.began + PATIENCE

    def end(self) -> Tuple[int, bytes]:
        """The status of the run and all that it wrote, once it has ended."""
        output = self.output()
        while self.process.poll() is None:
            with suppress(subprocess.TimeoutExpired):
                self.process.wait(self.patience())
        return self.process.returncode, output

    def output(self) -> bytes:
        """All that the run writes. Whoever holds its output still when it has ended isn't waited for."""
        assert self.process.stdout
        written = bytearray()
        with selectors.DefaultSelector() as selector:
            selector.register(self.process.stdout, selectors.EVENT_READ)
            while True:
                if selector.select(self.patience()):
                    part = os.read(self.process.stdout.fileno(), 1 << 20)
                    written += part
                    if len(written) > MOST_OUTPUT:
                        raise writes_too_much(f", at: {self.shown}")
                    if not part:
                        return bytes(written)
                elif self.process.poll() is not None:
                    return bytes(written)

    def patience(self) -> float:
        """The seconds to wait before the run is looked at again; one that takes too long is stopped here."""
        now = time.monotonic()
        if self.ends is not None and now >= self.ends:
            raise Stopped
        if now >= self.tells:
            if self.is_told:
                tell(self.shown, now - self.began)
            self.tells = now + PATIENCE
        return max(0.001, min(self.tells, self.tells if self.ends is None else self.ends) - now)

    def kill(self) -> None:
        """Ends the run with all that it has started, by force where it doesn't end by itself."""
        for number in (signal.SIGTERM, signal.SIGKILL):
            with suppress(OSError):
                os.killpg(self.process.pid, number)
            with suppress(subprocess.TimeoutExpired):
                self.process.wait(MOST_TO_END)

    def close(self) -> None:
        """Leaves the run, and the line on a terminal that tells of it."""
        assert self.process.stdout
        self.process.stdout.close()
        if self.is_told and time.monotonic() - self.began >= PATIENCE:
            say("")


def ended_by_signal(path: str, number: int, at: str, remedy: str) -> Trouble:
    """The trouble that a signal ended a run, as one does for want of memory, and what to do then."""
    why = f"Where that was for want of memory, {remedy}"
    return Trouble(NOT_THERE, f"{escaped(path)} was ended by signal {number}{at}. {why}")


def writes_too_much(at: str = "") -> Trouble:
    """The trouble that a run writes more than is kept of one."""
    told = f"the program writes more than {MOST_OUTPUT:,} bytes, which is the most that ask reads{at}"
    return Trouble(NOT_THERE, f"{told}. Ask about a window of the log (ask log --help), or give it fewer --conflicts")


def tell(shown: str, taken: float) -> None:
    """Says on the terminal how long a run has taken."""
    short = shown if len(shown) <= 60 else shown[:57] + ".."
    say(f"ask: {taken:.0f} s: {short}", "\r")


def handed(data: bytes) -> IO[bytes]:
    """An unnamed file with these bytes, which a run can read by its number."""
    has_memory = hasattr(os, "memfd_create")
    file: IO[bytes] = os.fdopen(os.memfd_create("skewcheck"), "w+b") if has_memory else tempfile.TemporaryFile()
    file.write(data)
    file.flush()
    file.seek(0)
    return file


def find_program(named: Optional[str]) -> str:
    """The program that was named, that of the environment, the one that belongs to ask, or the one in the path."""
    told = os.environ.get("SKEWCHECK") or None if named is None else named
    if told is not None and not is_program(told):
        by = "SKEWCHECK in the environment" if named is None else "--program"
        raise Trouble(NOT_THERE, f"{told or repr(told)}, which {by} names, isn't a program that can be run: name another one, or none")
    own = own_program()
    found = told or (own if is_program(own) else shutil.which("skewcheck"))
    if not found:
        raise Trouble(NOT_THERE, f"there is no {own}, and no skewcheck in the path: {REMEDY}, or name one by --program FILE")
    return os.path.abspath(found)


def is_program(path: str) -> bool:
    """Whether there is a file of that name that can be run."""
    return os.path.isfile(path) and os.access(path, os.X_OK)


def own_program() -> str:
    """The program that ./skewcheck built, or where ask is installed the one beside its command."""
    return str(BUILT if IS_SOURCE else Path(sys.argv[0]).resolve().parent / "skewcheck")


def program_of(arguments: argparse.Namespace) -> Program:
    """The program that words ask for, with what they say of its runs."""
    return Program(find_program(arguments.program), arguments.seconds, is_quiet=arguments.quiet)
