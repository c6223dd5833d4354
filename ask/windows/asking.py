"""Asks the program of windows, side by side, and finds what all of them say of the whole log."""

from __future__ import annotations

from array import array
from dataclasses import dataclass
from typing import Callable, Dict, Iterable, Iterator, List, NamedTuple, Optional, Sequence, Set, Tuple

from ask.logs import MOST_ROWS
from ask.program import NOT_THERE, STOPPED, Program
from ask.reports import Unreadable, read_report, verdict_of
from ask.texts import Trouble
from ask.windows.bounds import Bounds, Contradiction, Times
from ask.windows.cuts import Extent, Ranges, Slice, halves_of, size_of, slices_of, within
from ask.windows.guard import pulses_seen
from ask.windows.longlog import LongLog
from ask.windows.pool import Job, Pool
from ask.windows.shape import Shape
from ask.windows.spells import spells_of
from ask.windows.timings import clamped, fails, with_moved
from ask.windows.truth import Evaluator, Truth
from ask.windows.window import Glazier, Window

MOST_OF_SLICE = 400  # rows of a window, where a slice can be cut so that it has no more
TOO_LARGE = 67  # the status where the program has no room for a window
UNDECIDED = (4, TOO_LARGE, 70, STOPPED)  # statuses where a smaller window may be decided
MOST_CARRIED = 50  # false timings that are carried to the whole log in vain, until no more are
MOST_WIDENED = 6  # times that one window is widened
MOST_CUT = 5  # times that one slice is halved, where its window isn't decided
VALUES = {0: (True, False), 1: (False, True), 2: (True, True)}  # of a status, whether true and false are possible


class Said(NamedTuple):
    """What was found of the window of a slice.

    It may fail or not, and it may hold throughout or not, as far as that is known; `times` are a timing in which it
    fails, and `held` one in which it doesn't.
    """

    part: Slice
    ranges: Ranges
    status: int
    size: int
    can_fail: Optional[bool]
    can_hold: Optional[bool]
    times: Optional[Dict[int, int]] = None
    held: Optional[Dict[int, int]] = None
    report: bytes = b""  # where it can't hold
    moment: Optional[int] = None  # at which it fails in that timing
    is_of_pulses: bool = False  # whether the window has the rows alone that the formula sees
    is_idle: bool = False  # whether no window was asked, since the formula can't fail in the slice


@dataclass
class Setting:
    """How windows are asked: the program, how many at a time and for how long, and who is told how far it is."""

    program: Program
    options: Sequence[str] = ()
    jobs: int = 1
    seconds: Optional[float] = None  # of one window
    most: int = MOST_OF_SLICE
    size: Optional[int] = None  # rows of a slice, where that isn't left to choose
    told: Callable[[int, int], None] = lambda done, count: None
    keep: "Optional[Keep]" = None


class Keep:
    """Where answers are kept, so that none is asked for twice."""

    def answer_of(self, window: Window) -> Optional[Tuple[int, bytes]]:
        """The status and the report of a window, where they are known."""
        raise NotImplementedError

    def take(self, window: Window, status: int, report: bytes) -> None:
        """Keeps an answer."""
        raise NotImplementedError


class View:
    """Some rows of a long log, or all of them, of which windows are made for a formula."""

    def __init__(self, log: LongLog, shape: Shape, bounds: Bounds, times: Times, of: Sequence[array]):
        self.log, self.shape, self.bounds, self.times, self.of = log, shape, bounds, times, of
        self.extent = Extent(of, times)
        self.glazier = Glazier(log, shape, of, bounds.low)

    def ranges_of(self, part: Slice) -> Ranges:
        """The rows that can be where the formula sees from a slice."""
        return self.extent.ranges(*self.glazier.seen(part))

    def window(self, part: Slice, ranges: Optional[Ranges] = None) -> Window:
        """The window of a slice."""
        found = self.ranges_of(part) if ranges is None else ranges
        return self.glazier.window(part, found, self.times.least, self.times.greatest)

    def is_empty(self, part: Slice) -> bool:
        """Whether none of the rows can be in a slice."""
        return self.extent.size(*part) == 0

    def slices(self, setting: Setting) -> List[Slice]:
        """The slices of the log."""
        return list(slices_of(self.extent, self.times, self.shape.horizon, setting.most, setting.size))


class Whole(View):
    """A long log and a formula, with the bounds of the whole log.

    A log that admits no timing is a Contradiction.
    """

    def __init__(self, log: LongLog, shape: Shape):
        bounds = Bounds(log)
        super().__init__(log, shape, bounds, bounds.times(), log.of)
        self.nearest: Optional[array] = None
        self.spells = spells_of(log, shape, self.times)

    def take_shape(self, shape: Shape) -> None:
        """Has another formula be asked of the log."""
        self.shape = shape
        self.glazier = Glazier(self.log, shape, self.of, self.bounds.low)
        self.spells = spells_of(self.log, shape, self.times)

    def is_idle(self, part: Slice) -> bool:
        """Whether the formula can't fail in a slice, since none of its propositions can be true there."""
        return self.spells is not None and not self.spells.meet(part)

    def near(self) -> array:
        """A timing of the log that is near to the stamps."""
        if self.nearest is None:
            self.nearest = self.bounds.near(self.log.rows.stamp, self.times)
        return self.nearest

    def pulses(self) -> Optional[View]:
        """The rows that the formula sees, where it is one of pulses that sees no others."""
        of = pulses_seen(self.log, self.shape)
        return None if of is None else View(self.log, self.shape, self.bounds, self.times, of)


class Asker:
    """Asks windows of a long log."""

    def __init__(self, whole: View, setting: Setting):
        self.whole, self.setting = whole, setting
        self.runs = 0
        self.largest = 0

    def said(self, windows: Iterable[Window]) -> Iterator[Said]:
        """What the program says of windows, in their order."""
        found: Dict[int, Said] = {}  # what is known before that of a window before it
        place = 0
        pool: Pool[Tuple[int, Window]] = Pool(self.setting.program, self.setting.jobs, self.setting.seconds)
        for done in pool.run(self.jobs(windows, found)):
            self.runs += 1
            number, window = done.key
            if self.setting.keep:
                self.setting.keep.take(window, done.status, done.output)
            found[number] = self.read(window, done.status, done.output)
            while place in found:
                yield found.pop(place)
                place += 1
        yield from (found[number] for number in sorted(found))

    def jobs(self, windows: Iterable[Window], found: Dict[int, Said]) -> Iterator[Job[Tuple[int, Window]]]:
        """The runs that windows need; what is known without one is put where it is looked for."""
        for number, window in enumerate(windows):
            self.largest = max(self.largest, window.size())
            known = self.setting.keep.answer_of(window) if self.setting.keep else None
            if not window.is_short():
                found[number] = Said(window.slice, window.ranges, TOO_LARGE, window.size(), None, None)
            elif known is not None:
                found[number] = self.read(window, *known)
            else:
                yield Job((number, window), ["check", *self.setting.options], [window.formula, window.log])

    def read(self, window: Window, status: int, output: bytes) -> Said:
        """What a report says of a window."""
        part, ranges, size = window.slice, window.ranges, window.size()
        if status in (TOO_LARGE, 70, STOPPED):
            return Said(part, ranges, status, size, None, None)
        if status not in (*VALUES, 4) or verdict_of(output) != status:
            line = output.split(b"\n", 1)[0].decode("utf-8", "replace")
            raise Trouble(NOT_THERE, (
                f"the program answered with status {status} and {line[:80]!r} to the window from {part.first} to "
                f"{part.last}, which ask doesn't know"
            ))
        if status == 0 and not self.whole.shape.is_dual or status == 1 and self.whole.shape.is_dual:
            return Said(part, ranges, status, size, False, True)
        try:
            sections = read_report(output).sections
        except Unreadable:
            raise Trouble(NOT_THERE, f"what the program wrote of the window from {part.first} is no report") from None
        found = {value: {"witness": True, "refuted": False}.get(one.kind) for value, one in sections.items()}
        times = {value: window.times(one.times) for value, one in sections.items() if one.kind == "witness"}
        fail = self.whole.shape.is_dual  # the value that the window has where the body fails in it
        report = output if found[not fail] is False else b""
        return Said(part, ranges, status, size, found[fail], found[not fail], times.get(fail), times.get(not fail), report)


class Findings:
    """What the windows of all slices say of the whole log."""

    def __init__(self, whole: Whole, setting: Setting):
        self.whole, self.setting = whole, setting
        self.asker = Asker(whole, setting)
        self.answers: List[Said] = []  # of the slices that together cover the log
        self.excluding: Optional[Said] = None  # of a window that can't hold throughout
        self.failing: Optional[array] = None  # a timing of the whole in which the formula fails
        self.failing_said: Optional[Said] = None  # the window that it fails in
        self.doubtful: List[Said] = []  # windows that may fail, but not as far as is known in a timing of the whole
        self.unknown: List[Said] = []  # windows that weren't decided
        self.vain = 0

    def can_fail(self) -> Optional[bool]:
        """Whether the formula fails somewhere in some timing of the whole, as far as that is known."""
        if self.failing is not None or self.excluding is not None:
            return True
        return None if self.doubtful or self.unknown else False

    def ask(self, slices: Sequence[Slice], stops: Callable[["Findings"], bool] = lambda findings: False) -> None:
        """Asks the windows of slices, and halves of those that aren't decided, until nothing more is to be known."""
        waiting = self.not_idle([part for part in slices if not self.whole.is_empty(part)])
        count = len(self.answers) + len(waiting)
        for cuts in range(MOST_CUT, -1, -1):
            undecided: List[Slice] = []
            for said in self.asker.said(self.whole.window(part) for part in waiting):
                halves = self.halves(said) if cuts and said.status in UNDECIDED and said.can_fail is None else []
                if halves:
                    undecided += self.not_idle([part for part in halves if not self.whole.is_empty(part)])
                else:
                    self.take(said)
                self.setting.told(len(self.answers), count + len(undecided))
                if stops(self):
                    return
            waiting = undecided
            count += len(undecided)
        self.widen(stops)

    def ask_pulses(self, setting: Setting) -> List[Slice]:
        """The slices that may fail, by windows of the rows that the formula sees, where it sees pulses alone."""
        view = self.whole.pulses()
        if view is None:
            return self.whole.slices(setting)
        slices = view.slices(setting)
        left: List[Slice] = []
        asker = Asker(view, setting)
        asker.runs, asker.largest = self.asker.runs, self.asker.largest
        for said in asker.said(view.window(part) for part in self.not_idle(slices)):
            if said.can_fail is False:
                self.answers.append(said._replace(is_of_pulses=True))
            else:
                left.append(said.part)
            setting.told(len(self.answers), len(slices))
        self.asker.runs, self.asker.largest = asker.runs, asker.largest
        return within(self.whole.slices(setting), left)

    def not_idle(self, slices: Sequence[Slice]) -> List[Slice]:
        """Those of some slices in which the formula may fail; the others are answered."""
        idle = [self.whole.is_idle(part) for part in slices]
        self.answers += [Said(part, [], 0, 0, False, True, is_idle=True) for part, is_idle in zip(slices, idle) if is_idle]
        return [part for part, is_idle in zip(slices, idle) if not is_idle]

    def halves(self, said: Said) -> List[Slice]:
        """The halves of a slice whose window wasn't decided; none where they would have as many rows and are too large."""
        halves = halves_of(self.whole.extent, said.part)
        sizes = [size_of(self.whole.ranges_of(half)) for half in halves]
        return [] if said.status == TOO_LARGE and min(sizes, default=said.size) >= said.size else halves

    def take(self, said: Said) -> None:
        """Takes what a window says."""
        said = said._replace(moment=self.moment_of(said))
        self.answers.append(said._replace(times=None, held=None, report=b""))
        if said.can_hold is False and self.excluding is None:
            self.excluding = said
        if said.can_fail is None:
            self.unknown.append(said)
        elif said.can_fail and self.failing is None and not self.carried(said):
            self.doubtful.append(said)

    def carried(self, said: Said) -> bool:
        """Carries a timing in which a window fails to the whole log; whether it fails there too."""
        if self.vain >= MOST_CARRIED:
            return False
        times = self.timing_of(said)
        if times is None:
            self.vain += 1
            return False
        self.failing, self.failing_said, self.doubtful = times, said, []
        return True

    def timing_of(self, said: Said) -> Optional[array]:
        """A timing of the whole log that is that of a window where it can be, and in which the formula fails."""
        whole = self.whole
        assert said.times is not None
        moved = clamped(said.times, whole.times)
        if moved != said.times and not self.fails_locally(said, moved):
            return None
        timing = with_moved(whole.bounds, whole.near(), moved)
        if fails(whole.bounds, whole.shape, timing, said.part):
            return timing
        try:
            timing = whole.bounds.with_rows_at(moved, whole.times)
        except Contradiction:
            return None
        return timing if fails(whole.bounds, whole.shape, timing, said.part) else None

    def moment_of(self, said: Said) -> Optional[int]:
        """The first moment of a slice at which the formula fails in the timing of its window."""
        if said.times is None:
            return None
        truth = self.truth_in(said, said.times)
        return next((moment for moment in truth.false_at() if said.part.first <= moment <= said.part.last), None)

    def fails_locally(self, said: Said, times: Dict[int, int]) -> bool:
        """Whether the formula fails in a slice where the rows of its window are at these times."""
        return self.truth_in(said, times).is_false_within(*said.part)

    def truth_in(self, said: Said, times: Dict[int, int]) -> Truth:
        """The truth of the formula in a window where its rows are at these times."""
        is_set = {(host, name) for host, name, _ in self.whole.glazier.set_before(said.ranges)}
        return Evaluator(self.whole.log, sorted(times), times, is_set).truth(self.whole.shape.body)

    # Wider windows

    def widen(self, stops: Callable[["Findings"], bool]) -> None:
        """Asks windows that may fail once more, with the rows by which their timing isn't one of the whole."""
        for _ in range(MOST_WIDENED):
            if self.failing is not None or self.excluding is not None or not self.doubtful or stops(self):
                return
            doubtful, self.doubtful = self.doubtful, []
            wider, left = [], []
            for number, said in enumerate(doubtful):
                ranges = self.wider(said) if number < MOST_CARRIED else None
                if ranges is None:
                    left.append(said)
                else:
                    wider.append(self.whole.window(said.part, ranges))
            for said in self.asker.said(wider):
                self.retake(said)
            if self.failing is None:
                self.doubtful += left

    def retake(self, said: Said) -> None:
        """Takes what a wider window says of a slice that is known to be doubtful."""
        said = said._replace(moment=self.moment_of(said))
        if said.can_hold is False and self.excluding is None:
            self.excluding = said
        if said.can_fail is None:
            self.unknown.append(said)
        elif said.can_fail and self.failing is None and not self.carried(said):
            self.doubtful.append(said)
        place = next(place for place, one in enumerate(self.answers) if one.part == said.part)
        self.answers[place] = said._replace(times=None, held=None, report=b"")

    def wider(self, said: Said) -> Optional[Ranges]:
        """The ranges of a window with the rows of a contradiction with its timing; None where that is no more."""
        assert said.times is not None
        try:
            self.whole.bounds.with_rows_at(clamped(said.times, self.whole.times), self.whole.times)
            return None
        except Contradiction as contradiction:
            walk = contradiction.walk
        ranges = list(said.ranges)
        log = self.whole.log
        events: Set[int] = {event for step in walk for event in log.rows_of(step.kind, step.numbers[0])}
        for event in events | {send for send in (log.sender[event] for event in events) if send >= 0}:
            host, place = log.rows.host[event], log.place[event]
            start, end = ranges[host]
            ranges[host] = (min(start, place), max(end, place + 1))
        return None if ranges == said.ranges or size_of(ranges) >= MOST_ROWS else ranges
