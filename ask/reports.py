"""Reads reports of the program: the timing or the derivation of each value, or the bounds that exclude timings."""

from __future__ import annotations

import re
from dataclasses import dataclass, field
from typing import Dict, List, NamedTuple, Optional, Tuple

SECTION = re.compile(rb"^(true|false) (witness|refuted|unknown)\b", re.M)
STATUSES = {(b"witness", b"refuted"): 0, (b"refuted", b"witness"): 1, (b"witness", b"witness"): 2}
BOUNDS = ("low", "high", "rise", "message", "late", "under", "over", "extra")
STEP_WORDS = {**{kind: 2 for kind in BOUNDS}, "order": 4}


class Step(NamedTuple):
    """A step of a walk: a bound of the log by kind and number, or `order` with two rows and a number.

    The number is that of a row, and of an `extra` that of a bound record.
    """

    kind: str
    numbers: Tuple[int, ...]


class Line(NamedTuple):
    """A line of a derivation: the steps of a cycle, or the numbers of the lines from 1 that a learned clause needs."""

    steps: List[Step]
    needs: List[int]


@dataclass
class Section:
    """What a report says of a value: a witness with its times, or a derivation that refutes it or was cut off."""

    kind: str  # witness, refuted or unknown
    times: List[int] = field(default_factory=list)
    lines: List[Line] = field(default_factory=list)


@dataclass
class Report:
    """A report: its number of rows, and the walk that excludes every timing or a section for each value."""

    events: int
    walk: Optional[List[Step]] = None
    sections: Dict[bool, Section] = field(default_factory=dict)


class Unreadable(Exception):
    """The text is no report that this module can read."""


def read_report(data: bytes) -> Report:
    """The report that bytes are; what it claims is for the program's audit to judge."""
    try:
        return report_of(data.decode("ascii").split("\n"))
    except (ValueError, IndexError, KeyError):
        raise Unreadable from None


def verdict_of(data: bytes) -> Optional[int]:
    """The status that `check` has with a report, by the heads of its sections; None where it is none."""
    if not data.startswith(b"skewcheck 1\nevents ") or not data.endswith(b"\nend\n"):
        return None
    heads = tuple(kind for _, kind in SECTION.findall(data))
    if b"unknown" in heads and len(heads) == 2:
        return 4
    if not heads:
        return 3 if b"\ninconsistent " in data else None
    return STATUSES.get(heads)


def report_of(lines: List[str]) -> Report:
    """The report of lines, the last of which is empty."""
    if lines[0] != "skewcheck 1" or lines[-2:] != ["end", ""]:
        raise ValueError("no report")
    report = Report(number_after(lines[1], "events"))
    word, *rest = lines[2].split(" ")
    if word == "inconsistent":
        count = int(rest[0])
        report.walk = [steps_of(line.split(" "))[0] for line in lines[3 : 3 + count]]
        return report
    place = 2
    for value in (True, False):
        section, place = section_at(lines, place, "true" if value else "false", report.events)
        report.sections[value] = section
    if lines[place] != "end":
        raise ValueError("no end")
    return report


def section_at(lines: List[str], place: int, wanted: str, events: int) -> Tuple[Section, int]:
    """The section of a word that begins at a line, and the line after it."""
    word, kind, *rest = lines[place].split(" ")
    if word != wanted or kind not in ("witness", "refuted", "unknown"):
        raise ValueError(lines[place])
    if kind == "witness":
        end = place + 1 + events
        times = [int(line) for line in lines[place + 1 : end]]
        if len(times) != events:
            raise ValueError("too few times")
        return Section(kind, times), end
    count = int(rest[0])
    end = place + 1 + count
    return Section(kind, [], [line_of(line.split(" ")) for line in lines[place + 1 : end]]), end


def line_of(words: List[str]) -> Line:
    """The line of a derivation that words are."""
    if words[0] == "cycle":
        return Line(steps_of(words[2:]), [])
    return Line([], [int(number) for word, number in zip(words, words[1:]) if word == "line"])


def number_after(line: str, word: str) -> int:
    """The number of a line that has one word before it."""
    first, text = line.split(" ")
    if first != word:
        raise ValueError(line)
    return int(text)


def steps_of(words: List[str]) -> List[Step]:
    """The steps that words are."""
    steps, place = [], 0
    while place < len(words):
        end = place + STEP_WORDS[words[place]]
        steps.append(Step(words[place], tuple(int(word) for word in words[place + 1 : end])))
        place = end
    return steps


@dataclass
class Best:
    """An answer of `span` or `tolerance`: the best number, a timing that has it, and why no other is better.

    Where there is no number, it is a walk that excludes every timing, or a derivation that excludes the value or was
    cut off.
    """

    number: Optional[int] = None
    times: List[int] = field(default_factory=list)
    why: Optional[Section] = None
    walk: Optional[List[Step]] = None

    def status(self) -> int:
        """The status that the program has with it."""
        if self.number is not None:
            return 0
        if self.walk is not None:
            return 3
        return 1 if self.why and self.why.kind == "refuted" else 4


def read_best(data: bytes, events: int, command: str, value: str) -> Best:
    """The answer of a command that bytes are, with a section of the value and one on what is beyond or below."""
    try:
        return best_of(data.decode("ascii").split("\n"), events, command, value)
    except (ValueError, IndexError, KeyError):
        raise Unreadable from None


def best_of(lines: List[str], events: int, command: str, value: str) -> Best:
    """The answer of lines, the last of which is empty."""
    word, *rest = lines[0].split(" ")
    if word == "inconsistent":
        return Best(walk=[steps_of(line.split(" "))[0] for line in lines[1 : 1 + int(rest[0])]])
    if word != command or lines[-2:] != ["end", ""]:
        raise ValueError(lines[0])
    section, place = section_at(lines, 1, value, events)
    if section.kind != "witness":
        return Best(why=section)
    best = Best(int(rest[0]), section.times)
    if command == "span" or best.number:
        best.why, place = section_at(lines, place, {"span": "beyond", "tolerance": "below"}[command], events)
        if best.why.kind != "refuted":
            raise ValueError(best.why.kind)
    if lines[place] != "end":
        raise ValueError(lines[place])
    return best


def distances(section: Section) -> Dict[int, int]:
    """The lines of a derivation that its last one needs, by their numbers, and over how many lines it needs them."""
    found = {len(section.lines): 0} if section.lines else {}
    waiting = list(found)
    for number in waiting:
        for needed in section.lines[number - 1].needs:
            if 0 < needed < number and needed not in found:
                found[needed] = found[number] + 1
                waiting.append(needed)
    return found
