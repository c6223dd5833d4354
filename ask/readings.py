"""Which clock each row of a log in the making reads: one a machine, and another one from each step of it on."""

from __future__ import annotations

from collections import Counter
from dataclasses import dataclass, field
from typing import Dict, Optional, Set, Tuple

from ask.clocks import Clock, Steps
from ask.events import WRONG, Limits, name_map
from ask.limits import FEWER, Told, in_file
from ask.logs import MOST_CLOCKS, MOST_SKEW
from ask.making import Line, Making
from ask.texts import Trouble
from ask.words import counted, listed, shortened

Key = Tuple[str, int, str, int]  # a machine, the steps before, and where resyncs of a file tell more, the host and how many

NO_STEPS = Steps(())


@dataclass
class Host:
    """A host as far as its rows were gone through: the steps and resyncs that are passed."""

    steps: Steps
    passed: int = 0
    resyncs: int = 0
    limits: Optional[Limits] = None
    clocks: Set[str] = field(default_factory=set)

    def pass_to(self, line: Line) -> int:
        """Goes on to the next row of the host, and tells how many steps were passed when it read its clock."""
        steps = self.steps.all
        while self.passed < len(steps) and moment_of(line) > steps[self.passed].last:
            self.passed += 1
        if self.limits is not None and line.limits is not None and line.limits is not self.limits:
            self.resyncs += 1
        self.limits = line.limits
        return self.passed if line.known_at() == line.stamp else self.steps.passed_by(line.known_at())

    def doubt(self, line: Line, passed: int) -> int:
        """How far the clock may have been stepped already or not yet, where a row is near to steps that aren't passed."""
        return self.steps.doubt(passed, moment_of(line))


def moment_of(line: Line) -> int:
    """The stamp at which the clock of a row was read."""
    return line.stamp if line.read_at is None else line.read_at


def settle_readings(making: Making, errors: Told, clocks: Dict[str, Clock], error_of_duration: int) -> None:
    """Gives each row the clock that it reads and the error of the reading, where words or its file tell one.

    Rows near to a step may have been before it or behind it: they read the clock of before with an error that is
    greater by the step. A row whose stamp was computed has the error of the duration too.
    """
    steps = steps_of_machines(making, clocks)
    hosts: Dict[str, Host] = {}
    names: Dict[Key, str] = {}
    counts: Dict[str, int] = Counter()
    for line in making.lines:
        if line.is_carried:
            continue
        error = error_told(line, errors, making)
        host = hosts.setdefault(line.host, Host(steps.get(line.machine, NO_STEPS)))
        passed = host.pass_to(line)
        if error is None:
            continue
        of_file = line.file_clock
        resyncs = () if of_file else (line.host, host.resyncs)
        key = (of_file.name if of_file else line.machine, passed, *(resyncs if host.resyncs and resyncs else ("", 0)))
        if key not in names:
            counts[key[0]] += 1
            names[key] = key[0] if counts[key[0]] == 1 else f"{key[0]}\0{counts[key[0]]}"  # the clocks of a machine are numbered
        line.clock = names[key]
        more = error_of_duration if line.read_at is not None else 0
        line.error = error + host.doubt(line, passed) + more + (1 if making.cut.get(line.host) else 0)
        if line.error > MOST_SKEW:
            raise Trouble(WRONG, f"{line.where}: the error of its clock is above 10^18 in units: choose a coarser --unit")
        host.clocks.add(line.clock)
    warn_of_narrowed_errors(making, errors)
    take_names(making, hosts)


def steps_of_machines(making: Making, clocks: Dict[str, Clock]) -> Dict[str, Steps]:
    """The steps of each machine: those that are told of any of its hosts."""
    return {
        machine: Steps({step for host in hosts if host in clocks for step in clocks[host].steps})
        for machine, hosts in making.machines().items()
    }


def error_told(line: Line, errors: Told, making: Making) -> Optional[int]:
    """The error of a row's clock by the words, else by its file, None where neither tells one."""
    told = errors.get(line.host, errors.get(line.machine, errors.get(None)))
    return error_of_file(line, making) if told is None else told


def error_of_file(line: Line, making: Making) -> Optional[int]:
    """The error of a row's clock that its file tells, in units, or None."""
    if line.file_clock is None:
        return None
    error = in_file(line.file_clock.error, making)
    if error is None:
        raise Trouble(WRONG, f"{line.file_clock.where}: the error {shortened(line.file_clock.error)!r} is no duration")
    return error


def warn_of_narrowed_errors(making: Making, errors: Told) -> None:
    """Tells of each clock of a file to which the words give a smaller error, with the first place where they do."""
    warned = set()
    for line in making.lines:
        of_file = error_of_file(line, making)
        told = error_told(line, errors, making)
        if of_file is not None and told is not None and told < of_file and line.file_clock:
            name, where = line.file_clock.name, line.file_clock.where
            if name not in warned:
                warned.add(name)
                making.warnings.append(f"--clock-error: the error of {name} is {told}, and {where} says {of_file}: {FEWER}")


def take_names(making: Making, hosts: Dict[str, Host]) -> None:
    """Gives the clocks names of the log, and tells which hosts read each."""
    clocks = list(dict.fromkeys(line.clock for line in making.lines if line.clock))
    if len(clocks) > MOST_CLOCKS:
        raise Trouble(WRONG, f"{counted(len(clocks), 'clock')}; at most 1,024: cut a window by --only or by --from and --to")
    mapped = name_map(clocks)
    for line in making.lines:
        line.clock = mapped.get(line.clock, "")
    for clock in clocks:
        readers = dict.fromkeys(making.name_of(name) for name, host in hosts.items() if clock in host.clocks)
        making.notes.append(f"clock: {mapped[clock]} is read by {listed([shortened(name) for name in readers])}")
