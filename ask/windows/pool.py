"""Runs of the program side by side, as many at a time as there are cores."""

from __future__ import annotations

import os
import selectors
import subprocess
import time
from contextlib import suppress
from dataclasses import dataclass, field, replace
from typing import Dict, Generic, Iterable, Iterator, List, Optional, Sequence, TypeVar

from ask.ends import uninterrupted
from ask.program import MOST_OUTPUT, STOPPED, Program, Stopped, ended_by_signal, handed, started, writes_too_much

MOST_TO_WAIT = 0.5  # seconds after which runs are looked at again
Key = TypeVar("Key")


@dataclass(frozen=True)
class Job(Generic[Key]):
    """A run that is wanted: what it is about, the words of the program, and the files behind them."""

    key: Key
    words: Sequence[str]
    files: Sequence[bytes]


@dataclass(frozen=True)
class Done(Generic[Key]):
    """A run that has ended: what it is about, its status, and what it wrote."""

    key: Key
    status: int
    output: bytes


@dataclass
class Running(Generic[Key]):
    """A run under way."""

    key: Key
    process: "subprocess.Popen[bytes]"
    ends: Optional[float]
    written: bytearray = field(default_factory=bytearray)

    def close(self) -> None:
        """Leaves what the run writes to."""
        assert self.process.stdout
        self.process.stdout.close()


class Pool(Generic[Key]):
    """The runs of a program, so many at a time, each of which may take so many seconds."""

    def __init__(self, program: Program, jobs: int, seconds: Optional[float] = None):
        self.program, self.jobs, self.seconds = program, jobs, seconds
        self.running: Dict[int, Running[Key]] = {}  # by the number of what each writes to
        self.selector = selectors.DefaultSelector()

    def run(self, jobs: Iterable[Job[Key]]) -> Iterator[Done[Key]]:
        """The ends of runs, each as soon as it is there; a run that takes too long ends with 124."""
        self.program.time_for_run()  # so that there is time to tell what was found, when the time of all runs is over
        waiting = iter(jobs)
        is_more = True
        try:
            while is_more or self.running:
                while is_more and len(self.running) < self.jobs:
                    job = next(waiting, None)
                    is_more = job is not None
                    if job is not None:
                        self.start(job)
                yield from self.ended()
        finally:
            with uninterrupted():
                for run in self.running.values():
                    kill(run.process)
                    run.close()
                self.running.clear()
                self.selector.close()

    def start(self, job: Job[Key]) -> None:
        """Starts a run."""
        files = [handed(data) for data in job.files]
        try:
            numbers = [file.fileno() for file in files]
            words = [self.program.path, *job.words, *(f"/dev/fd/{number}" for number in numbers)]
            with uninterrupted():
                process = started(words, numbers)
                assert process.stdout
                ends = None if self.seconds is None else time.monotonic() + self.seconds
                self.running[process.stdout.fileno()] = Running(job.key, process, ends)
                self.selector.register(process.stdout, selectors.EVENT_READ)
        finally:
            for file in files:
                file.close()

    def ended(self) -> List[Done[Key]]:
        """The runs that have ended by now, of which one is waited for, but not for long."""
        if not self.running:
            return []
        found = []
        for key, _ in self.selector.select(MOST_TO_WAIT):
            run = self.running[key.fd]
            part = os.read(key.fd, 1 << 20)
            run.written += part
            if len(run.written) > MOST_OUTPUT:
                raise writes_too_much()
            if not part:
                found.append(self.end(key.fd))
        now = time.monotonic()
        if self.program.ends is not None and now >= self.program.ends:
            raise Stopped
        for number, run in list(self.running.items()):
            if run.ends is not None and now >= run.ends:
                kill(run.process)
                found.append(replace(self.leave(number), status=STOPPED))
        return found

    def end(self, number: int) -> Done[Key]:
        """The end of a run that writes nothing more."""
        self.running[number].process.wait()
        done = self.leave(number)
        if done.status < 0:
            raise ended_by_signal(self.program.path, -done.status, "", "have fewer runs at a time (--jobs)")
        return done

    def leave(self, number: int) -> Done[Key]:
        """Leaves a run that has ended."""
        run = self.running.pop(number)
        self.selector.unregister(number)
        run.close()
        return Done(run.key, run.process.returncode, bytes(run.written))


def kill(process: "subprocess.Popen[bytes]") -> None:
    """Ends a run with all that it has started."""
    with suppress(OSError):
        os.killpg(process.pid, 9)
    with suppress(subprocess.TimeoutExpired):
        process.wait(1)


def cores() -> int:
    """How many runs there may be at a time."""
    return len(os.sched_getaffinity(0)) if hasattr(os, "sched_getaffinity") else os.cpu_count() or 1
