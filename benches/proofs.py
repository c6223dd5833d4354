"""Tells what proofs take, while `rt ci` or `./skewcheck` runs beside it.

Run as: python3 benches/proofs.py [--modules N] [--idle SECONDS]

Each second it looks at the checks that run on the machine, whoever began them:
at their crates, at the seconds of the processor that they have taken, and at
the modules that they have written. Once none has run for so many seconds, or at
an interrupt, it prints the seconds of each crate, with those in which it was
under way, counted from the first check, and how many processes checked it; and
then the dearest modules, N of them. A module is told by its crate and function:
`Lts` is a function's control flow, `Proof` its goals, `Answers` what was
written for them. A process has the seconds of those that it began and that ended
before it; what one of them that is a check itself had is taken off, so that no
second counts twice. What a module took is what its process took from the module
before it, so that one of a second or less says little; and the modules of a
crate that is checked by several processes at once aren't all seen.
"""

import argparse
import bisect
import os
import signal
import sys
import tempfile
import time
from pathlib import Path
from typing import NamedTuple

sys.dont_write_bytecode = True  # leaves no compiled files beside the sources

TICK = os.sysconf("SC_CLK_TCK")
ROOMS = "rattle-logic-built-locked-{}-0"  # where a process writes its modules, below the folder of temporary files
ENDING = ".oantt"


class Key(NamedTuple):
    """A process, told from a later one of the same number."""

    number: int
    start: int


class Check:
    """What was seen of a process that checks a crate."""

    def __init__(self, crate, parent):
        self.crate = crate
        self.parent = parent  # the number of the process that began it
        self.times = []  # when it was looked at,
        self.taken = []  # and the processor's seconds that it had taken then
        self.modules = {}  # when each was written, by its name

    def taken_at(self, moment):
        """The processor's seconds taken at a moment, between two looks in proportion."""
        place = bisect.bisect_left(self.times, moment)
        if place == 0:
            return self.taken[0]
        if place == len(self.times):
            return self.taken[-1]
        before, after = self.times[place - 1], self.times[place]
        share = (moment - before) / (after - before)
        return self.taken[place - 1] + share * (self.taken[place] - self.taken[place - 1])

    def costs(self):
        """What each module took that isn't the first one, with its name."""
        written = sorted((moment, name) for name, moment in self.modules.items())
        taken = [self.taken_at(moment) for moment, _ in written]
        return [(taken[i] - taken[i - 1], written[i][1]) for i in range(1, len(written))]


def crate_of(process):
    """The crate that a process checks, or None where it is no check."""
    words = (process / "cmdline").read_bytes().decode(errors="replace").split("\0")
    if not words[0].endswith("rattle") or "--crate-name" not in words:
        return None
    return words[words.index("--crate-name") + 1]


def look(checks):
    """Takes in what runs now, and says whether a check does."""
    is_busy = False
    for process in Path("/proc").iterdir():
        if not process.name.isdigit():
            continue
        try:
            crate = crate_of(process)
            if crate is None:
                continue
            fields = (process / "stat").read_text().rpartition(") ")[2].split()
            key = Key(int(process.name), int(fields[19]))
            check = checks.setdefault(key, Check(crate, int(fields[1])))
            check.times.append(time.time())
            check.taken.append(sum(map(int, fields[11:15])) / TICK)
            take_in_modules(key.number, check)
            is_busy = True
        except (OSError, IndexError):
            pass  # it has just ended
    return is_busy


def take_in_modules(number, check):
    """Takes in the modules that a process has written since the last look."""
    room = Path(tempfile.gettempdir(), ROOMS.format(number))
    if not room.is_dir():
        return
    with os.scandir(room) as entries:
        for entry in entries:
            if entry.name.endswith(ENDING) and entry.name not in check.modules:
                check.modules[entry.name] = entry.stat().st_mtime


def watch(checks, idle):
    """Looks each second, until no check has run for so long."""
    last = None  # when a check was seen last
    try:
        while last is None or time.time() - last < idle:
            if look(checks):
                last = time.time()
            time.sleep(1)
    except KeyboardInterrupt:
        pass


def own_seconds(checks):
    """The processor's seconds of each process, without those that other checks had which it began, by its key."""
    own = {key: check.taken[-1] for key, check in checks.items()}
    for check in checks.values():
        for key, other in checks.items():
            has_taken_over = key.number == check.parent and other.times[0] <= check.times[0] and check.times[-1] < other.times[-1]
            if has_taken_over:
                own[key] = max(0.0, own[key] - check.taken[-1])
    return own


def print_crates(found):
    """Prints the seconds of each crate, in the order in which their checks began."""
    checks, own = found.values(), own_seconds(found)
    seconds = {id(check): own[key] for key, check in found.items()}
    first = min(check.times[0] for check in checks)
    crates = {}
    for check in sorted(checks, key=lambda check: check.times[0]):
        crates.setdefault(check.crate, []).append(check)
    print("{:<20} {:>9} {:>7} {:>7} {:>10}".format("crate", "processor", "from", "to", "processes"))
    for crate, parts in crates.items():
        begun = parts[0].times[0] - first
        ended = max(check.times[-1] for check in parts) - first
        taken = sum(seconds[id(check)] for check in parts)
        print(f"{crate:<20} {taken:>9.0f} {begun:>7.0f} {ended:>7.0f} {len(parts):>10}")
    print(f"{'all':<20} {sum(seconds.values()):>9.0f}")


def print_modules(checks, most):
    """Prints what took longest, the dearest first."""
    costs = sorted((cost for check in checks for cost in check.costs()), reverse=True)
    print(f"\n{'seconds':>7} module")
    for seconds, name in costs[:most]:
        print(f"{seconds:>7.1f} {name.removeprefix('Rattle-').removesuffix(ENDING)}")


def main():
    """Watches, and prints the tables."""
    parser = argparse.ArgumentParser(description="tell what proofs take, while rt ci runs")
    parser.add_argument("--modules", type=int, default=30, help="how many modules to print")
    parser.add_argument("--idle", type=int, default=60, help="seconds without a check after which to end")
    arguments = parser.parse_args()
    for number in (signal.SIGINT, signal.SIGTERM):  # a shell's script has the first one ignored behind &
        signal.signal(number, signal.default_int_handler)
    checks = {}
    watch(checks, arguments.idle)
    if not checks:
        sys.exit("no check was seen")
    print_crates(checks)
    print_modules(checks.values(), arguments.modules)


if __name__ == "__main__":
    sys.path.insert(0, str(Path(__file__).resolve().parents[1] / "tests"))
    import ends

    ends.run(main)
