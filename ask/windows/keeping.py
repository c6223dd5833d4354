"""A folder with the windows of a long log, their formulas and reports, and what they say of the whole.

A run that was broken off goes on where it was, and `ask audit` tests all of it without a search.
"""

from __future__ import annotations

import json
import os
from array import array
from hashlib import sha256
from pathlib import Path
from typing import Any, Dict, Iterator, List, NamedTuple, Optional, Sequence, Tuple

from ask.reports import verdict_of
from ask.texts import CANNOT_READ, CANNOT_WRITE, NO_ROOM, Trouble, escaped, has_files, read_file, reason_of, replace_file
from ask.words import USAGE
from ask.windows.asking import Keep, Said, View, Whole
from ask.windows.cuts import Ranges, Slice
from ask.windows.verdict import Verdict
from ask.windows.window import Window

MARK, MARK_TEXT = "windows.mark", b"This folder has windows of a long log, by ask check --keep.\n"
QUESTION, INDEX, VERDICT = "question.json", "index", "verdict.json"
EMPTY = "-"  # in place of the name of a window, where no row can be in a slice
OF_PULSES = "pulses"  # in place of the rows of a window that has those alone that the formula sees
IDLE = "idle"  # in place of the rows of a window, where none was asked, since the formula can't fail in the slice
MOST_SMALL = 1 << 20  # bytes of a small file
MOST_INDEX = 1 << 32


class Entry(NamedTuple):
    """A line of the index: a slice, the status of its window, the window's name, and which rows it has.

    Those may be more than the slice wants, where it was widened, or the pulses alone that the formula sees.
    """

    part: Slice
    status: int
    name: str
    ranges: Optional[Ranges]
    is_of_pulses: bool = False
    is_idle: bool = False


def name_of(window: Window) -> str:
    """The name of a window, which tells it from all others."""
    return sha256(sha256(window.formula).digest() + sha256(window.log).digest()).hexdigest()[:24]


def shown(path: Path) -> str:
    """The name of a file as it is shown."""
    return escaped(str(path))


class Folder(Keep):
    """A folder of windows."""

    def __init__(self, name: str):
        self.top = Path(name)

    # Files

    def path(self, name: str, ending: str) -> Path:
        """A file of a window."""
        return self.top / "windows" / name[:2] / f"{name}.{ending}"

    def write(self, path: Path, data: bytes) -> None:
        """Writes a file, whole or not at all."""
        try:
            path.parent.mkdir(parents=True, exist_ok=True)
            replace_file(str(path), data)
        except OSError as error:
            raise Trouble(CANNOT_WRITE, f"{shown(path)} can't be written: {reason_of(error)}") from None

    def read(self, path: Path, most: int = MOST_SMALL) -> bytes:
        """Reads a file."""
        try:
            return read_file(path, most)
        except (OSError, ValueError) as error:
            raise Trouble(CANNOT_READ, f"{shown(path)} can't be read: {reason_of(error)}") from None

    def write_facts(self, name: str, facts: Dict[str, Any]) -> None:
        """Writes facts as JSON."""
        self.write(self.top / name, (json.dumps(facts, indent=2) + "\n").encode())

    def read_facts(self, name: str) -> Dict[str, Any]:
        """Reads facts in JSON."""
        try:
            facts = json.loads(self.read(self.top / name))
        except ValueError:
            facts = None
        if not isinstance(facts, dict):
            raise Trouble(CANNOT_READ, f"{shown(self.top / name)} isn't what ask check --keep wrote")
        return facts

    # Beginning

    def begin(self, facts: Dict[str, Any]) -> None:
        """Makes the folder for a question, or goes on in one of the same question."""
        if os.path.lexists(self.top) and not self.top.is_dir():
            raise Trouble(NO_ROOM, f"{shown(self.top)} is no folder")
        if self.top.is_dir() and has_files(self.top):
            self.refuse_other(facts)
            return
        try:
            self.top.mkdir(parents=True, exist_ok=True)
        except OSError as error:
            raise Trouble(NO_ROOM, f"{shown(self.top)} can't be made: {reason_of(error)}") from None
        self.write(self.top / MARK, MARK_TEXT)
        self.write_facts(QUESTION, facts)

    def refuse_other(self, facts: Dict[str, Any]) -> None:
        """Refuses a folder that is somebody else's, or of another question."""
        if not self.has_mark():
            why = "isn't empty, and has no mark of windows"
            raise Trouble(NO_ROOM, f"{shown(self.top)} {why}: name another folder by --keep")
        told = self.read_facts(QUESTION) if (self.top / QUESTION).exists() else None
        if told is None:
            self.write_facts(QUESTION, facts)
        elif any(told.get(key) != facts[key] for key in ("formula", "digest", "options")):
            why = "has windows of another log, formula or option"
            raise Trouble(USAGE, f"{shown(self.top)} {why}: name another folder by --keep")

    def has_mark(self) -> bool:
        """Whether the folder has the mark."""
        mark = self.top / MARK
        return mark.is_file() and not mark.is_symlink() and read_file(mark, len(MARK_TEXT) + 1) == MARK_TEXT

    # Windows

    def answer_of(self, window: Window) -> Optional[Tuple[int, bytes]]:
        path = self.path(name_of(window), "report")
        if not path.is_file():
            return None
        report = self.read(path, MOST_INDEX)
        status = verdict_of(report)
        return None if status is None else (status, report)

    def take(self, window: Window, status: int, report: bytes) -> None:
        if verdict_of(report) != status:
            return
        name = name_of(window)
        self.write(self.path(name, "csv"), window.log)
        self.write(self.path(name, "formula"), window.formula)
        self.write(self.path(name, "report"), report)

    def has_files_of(self, window: Window) -> bool:
        """Whether the log and the formula that are kept of a window are its own."""
        kept = [self.read(self.path(name_of(window), ending), MOST_INDEX) for ending in ("csv", "formula")]
        return kept == [window.log, window.formula]

    def report_of(self, name: str) -> bytes:
        """The report of a window."""
        return self.read(self.path(name, "report"), MOST_INDEX)

    # The end

    def write_index(self, whole: Whole, answers: Sequence[Said]) -> None:
        """Writes what windows said of their slices, which are in order, and between them where no row can be."""
        lines, next_first = [], min(whole.times.least)
        view = whole.pulses()
        for said in answers:
            if next_first < said.part.first:
                lines.append(f"{next_first}\t{said.part.first - 1}\t0\t{EMPTY}\t\n")
            lines.append(self.line(view if view and said.is_of_pulses else whole, said))
            next_first = said.part.last + 1
        if next_first <= max(whole.times.greatest):
            lines.append(f"{next_first}\t{max(whole.times.greatest)}\t0\t{EMPTY}\t\n")
        self.write(self.top / INDEX, "".join(lines).encode())

    def line(self, whole: View, said: Said) -> str:
        """The line of a slice."""
        if said.is_idle:
            return f"{said.part.first}\t{said.part.last}\t{said.status}\t{EMPTY}\t{IDLE}\n"
        if said.is_of_pulses:
            return f"{said.part.first}\t{said.part.last}\t{said.status}\t{name_of(whole.window(said.part))}\t{OF_PULSES}\n"
        is_wider = said.ranges != whole.ranges_of(said.part)
        name = name_of(whole.window(said.part, said.ranges))
        ranges = " ".join(f"{start}-{end}" for start, end in said.ranges) if is_wider else ""
        return f"{said.part.first}\t{said.part.last}\t{said.status}\t{name}\t{ranges}\n"

    def write_verdict(self, whole: Whole, verdict: Verdict) -> None:
        """Writes the verdict with what shows it."""
        for value in (True, False):
            times = verdict.timings.get(value)
            if times is not None:
                self.write_times(value, times)
        excluding = verdict.excluding
        self.write_facts(VERDICT, {
            "status": verdict.status(),
            "can_be": {str(value).lower(): known for value, known in verdict.can_be.items()},
            "excluding": None if excluding is None else self.line(whole, excluding).rstrip("\n"),
        })

    def index(self) -> Iterator[Entry]:
        """The lines of the index."""
        path = self.top / INDEX
        for number, line in enumerate(self.read(path, MOST_INDEX).decode("ascii", "replace").splitlines(), 1):
            try:
                yield entry_of(line)
            except ValueError:
                why = f"line {number}, isn't what ask check --keep wrote"
                raise Trouble(CANNOT_READ, f"{shown(path)}, {why}") from None

    def write_times(self, value: bool, times: Sequence[int]) -> None:
        """Writes a timing of the whole log."""
        self.write(self.times_path(value), "".join(f"{time}\n" for time in times).encode())

    def read_times(self, value: bool) -> Optional[array]:
        """The timing of the whole log for a value, or None where there is none."""
        path = self.times_path(value)
        if not path.is_file():
            return None
        try:
            return array("q", map(int, self.read(path, MOST_INDEX).split()))
        except (ValueError, OverflowError):
            raise Trouble(CANNOT_READ, f"{shown(path)} isn't what ask check --keep wrote") from None

    def times_path(self, value: bool) -> Path:
        """The file of a timing."""
        return self.top / f"{str(value).lower()}.times"


def entry_of(line: str) -> Entry:
    """The entry that a line of the index is."""
    first, last, status, name, ranges = line.split("\t")
    if ranges in (OF_PULSES, IDLE):
        return Entry(Slice(int(first), int(last)), int(status), name, None, ranges == OF_PULSES, ranges == IDLE)
    pairs = [tuple(map(int, pair.split("-"))) for pair in ranges.split()]
    return Entry(Slice(int(first), int(last)), int(status), name, [(start, end) for start, end in pairs] or None)


def question_facts(formula: str, log: str, data: bytes, options: Sequence[str]) -> Dict[str, Any]:
    """What a folder is about."""
    return {
        "formula": formula, "log": os.path.abspath(log), "digest": sha256(data).hexdigest(), "options": list(options),
    }


def covers(entries: List[Entry], first: int, last: int) -> bool:
    """Whether the slices of an index follow each other without a gap, from a moment on to another."""
    if not entries or entries[0].part.first > first or entries[-1].part.last < last:
        return False
    return all(one.part.last + 1 == other.part.first for one, other in zip(entries, entries[1:]))
