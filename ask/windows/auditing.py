"""Tests what a folder of windows says of a long log, without a search.

The bounds of the whole log are found anew, and from them each window; its report is judged by the program's `audit`,
and each timing of the whole log by the evaluator.
"""

from __future__ import annotations

from typing import Dict, Iterator, List, Optional, Sequence, Tuple

from ask.program import Program
from ask.reports import Unreadable, read_report, verdict_of
from ask.texts import Trouble
from ask.windows.asking import VALUES, View, Whole
from ask.windows.keeping import EMPTY, VERDICT, Entry, Folder, covers, entry_of, name_of
from ask.windows.pool import Job, Pool
from ask.windows.timings import truth_of

ACCEPTED = 0
UNKNOWN = 4


class Fault(Exception):
    """The first thing of a folder that isn't so."""


class Audit:
    """An audit of a folder, of a log with some timing."""

    def __init__(self, whole: Whole, folder: Folder, program: Program, options: Sequence[str], jobs: int):
        self.whole, self.folder, self.program, self.options, self.jobs = whole, folder, program, options, jobs
        self.windows = 0

    def can_be(self) -> Dict[bool, Optional[bool]]:
        """What the folder shows of each value, or the first fault."""
        facts = self.folder.read_facts(VERDICT)
        entries = list(self.folder.index())
        if not covers(entries, min(self.whole.times.least), max(self.whole.times.greatest)):
            raise Fault("the slices of the index don't cover the log")
        excluding = facts.get("excluding")
        more = [self.excluding_entry(excluding)] if excluding is not None else []
        said = self.reports([*entries, *more])
        fail = self.whole.shape.is_dual
        failing, holding = self.timing(fail), self.timing(not fail)
        can_fail = True if failing else False if all(said[entry.name][fail] is False for entry in entries) else None
        excluded = any(said[entry.name][not fail] is False for entry in [*entries, *more])
        can_hold = True if holding or can_fail is False else False if excluded else None
        found = {fail: True if can_hold is False else can_fail, not fail: can_hold}
        told = facts.get("can_be", {})
        if not isinstance(told, dict):
            raise Fault(f"{VERDICT} doesn't say which values there can be")
        for value, known in found.items():
            if told.get(str(value).lower()) not in (None, known):
                raise Fault(f"the folder doesn't show what it says of {str(value).lower()}")
        return found

    def excluding_entry(self, line: object) -> Entry:
        """The window that alone excludes a value."""
        try:
            return entry_of(str(line))
        except ValueError:
            raise Fault(f"{VERDICT} names no window that excludes a value") from None

    # Windows

    def reports(self, entries: List[Entry]) -> Dict[str, Dict[bool, Optional[bool]]]:
        """What the report of each window says of each value, where the program accepts it."""
        fail = self.whole.shape.is_dual
        found: Dict[str, Dict[bool, Optional[bool]]] = {EMPTY: {fail: False, not fail: True}}
        pool: Pool[Tuple[Entry, bytes]] = Pool(self.program, self.jobs)
        for done in pool.run(self.jobs_of(entries, found)):
            entry, report = done.key
            where = f"the report of the window from {entry.part.first} to {entry.part.last}"
            if done.status != ACCEPTED:
                raise Fault(f"{where} isn't accepted: {done.output[:80].decode('ascii', 'replace').strip()}")
            found[entry.name] = self.values(report, where)
            self.windows += 1
        return found

    def jobs_of(
        self, entries: List[Entry], found: Dict[str, Dict[bool, Optional[bool]]]
    ) -> Iterator[Job[Tuple[Entry, bytes]]]:
        """The audits of windows; of one that wasn't decided nothing is known."""
        pulses = self.whole.pulses()
        for entry in entries:
            where = f"the window from {entry.part.first} to {entry.part.last}"
            if entry.is_of_pulses and pulses is None:
                raise Fault(f"{where} has pulses alone, and the formula sees other rows")
            view: View = pulses if entry.is_of_pulses and pulses else self.whole
            if entry.is_idle and not self.whole.is_idle(entry.part):
                raise Fault(f"{where} isn't there, and the formula may fail in it")
            if entry.name == EMPTY:
                if not entry.is_idle and not view.is_empty(entry.part):
                    raise Fault(f"{where} isn't there, and rows can be in it")
                continue
            window = view.window(entry.part, self.checked_ranges(entry, where))
            if name_of(window) != entry.name:
                raise Fault(f"{where} isn't the one that the log has")
            if entry.status not in (*VALUES, UNKNOWN):
                found[entry.name] = {True: None, False: None}
                continue
            try:
                report = self.folder.report_of(entry.name)
                is_kept = self.folder.has_files_of(window)
            except Trouble as trouble:
                raise Fault(trouble.message) from None
            if not is_kept:
                raise Fault(f"the log or the formula that is kept of {where} is another")
            if verdict_of(report) != entry.status:
                raise Fault(f"the report of {where} has another status than the index says")
            yield Job((entry, report), ["audit", *self.options], [window.formula, window.log, report])

    def checked_ranges(self, entry: Entry, where: str) -> "Optional[List[Tuple[int, int]]]":
        """The ranges of a window that was widened, which have at least the rows that its slice wants."""
        if entry.ranges is None:
            return None
        wanted = self.whole.ranges_of(entry.part)
        fits = len(wanted) == len(entry.ranges) and all(
            0 <= start <= first and last <= end <= len(events)
            for (start, end), (first, last), events in zip(entry.ranges, wanted, self.whole.log.of)
        )
        if not fits:
            raise Fault(f"{where} has fewer rows than it has to")
        return entry.ranges

    def values(self, report: bytes, where: str) -> Dict[bool, Optional[bool]]:
        """What a report says of each value."""
        try:
            sections = read_report(report).sections
        except Unreadable:
            raise Fault(f"{where} is none that ask can read") from None
        if len(sections) != 2:
            raise Fault(f"{where} admits no timing, and the log does")
        return {value: {"witness": True, "refuted": False}.get(one.kind) for value, one in sections.items()}

    # Timings

    def timing(self, value: bool) -> bool:
        """Whether there is a timing of the whole log in which the formula has a value; one without it is a fault."""
        times = self.folder.read_times(value)
        if times is None:
            return False
        word = str(value).lower()
        if len(times) != len(self.whole.log.rows):
            raise Fault(f"{word}.times doesn't have a time for each row")
        broken = self.whole.bounds.broken(times)
        if broken is not None:
            raise Fault(f"{word}.times is no timing of the log: {broken.kind} {broken.numbers[0]}")
        has_failed = 0 in truth_of(self.whole.log, self.whole.shape, times).values
        if has_failed != (value == self.whole.shape.is_dual):
            raise Fault(f"in {word}.times the formula isn't {word}")
        return True
