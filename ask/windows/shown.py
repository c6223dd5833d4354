"""A window as people are shown it: its rows with their lines and stamps of the long log, and its bounds in sentences."""

from __future__ import annotations

from dataclasses import replace
from typing import Any, Dict, List, Optional, Sequence

from ask.grounds import MOST_BOUNDS_SHOWN, bounds_used
from ask.logs import Extra, Log, Row, read_log
from ask.program import NOT_THERE
from ask.question import Question
from ask.reports import Section, Step
from ask.texts import Source, Trouble
from ask.walks import Ground
from ask.words import counted, ground_words, row_words
from ask.windows.longlog import NONE
from ask.windows.opening import LongQuestion
from ask.windows.window import Bounded, Window

NO_LINE = 0  # of the row that is before all others of a window


class ShownWindow:
    """A window of a long log as a short log, with a question of its own."""

    def __init__(self, asked: LongQuestion, window: Window):
        self.asked, self.window = asked, window
        log = read_log(window.log)
        if not isinstance(log, Log):
            raise Trouble(NOT_THERE, f"the window from {window.slice.first} is no log that ask can read")
        self.bounded = log  # with the bounds that the window has
        self.log = replace(
            log, rows=[self.row(place, row) for place, row in enumerate(log.rows)],
            extras=[self.with_line(extra, bounded) for extra, bounded in zip(log.extras, window.bounded)],
            scale=asked.log.scale,
        )
        self.question = Question(
            asked.program, Source(asked.formula.name, window.formula), Source(self.name(), window.log), asked.options,
        )

    def row(self, place: int, row: Row) -> Row:
        """A row with what the long log says of it."""
        event = self.event(place)
        return row._replace(line=NO_LINE) if event is None else self.original(event, row)

    def original(self, event: int, row: Row) -> Row:
        """The stamp, skew, gap and line that a row has in the long log."""
        whole = self.asked.log.rows[event]
        return row._replace(stamp=whole.stamp, skew=whole.skew, gap=whole.gap, line=whole.line, kind=whole.kind)

    def with_line(self, extra: Extra, bounded: Bounded) -> Extra:
        """A bound record with the line that it has in the long log."""
        is_of_log = bounded.number != NONE
        return extra._replace(line=self.asked.log.extras[bounded.number].line if is_of_log else NO_LINE)

    def event(self, place: int) -> "int | None":
        """The row of the long log that a row of the window stands for, or None for the first one."""
        carried = [event for event, _ in self.window.carried]
        return None if place == 0 else [*carried, *self.window.events][place - 1]

    def first_row(self) -> int:
        """The first row of the window that isn't before all others."""
        return 1 + len(self.window.carried)

    def name(self) -> str:
        """The window by the lines of its rows."""
        return f"the window of {lines_of(self.asked, self.window.events)}"

    def stamps(self) -> List[int]:
        """The stamps of the rows, each put where the whole log allows it, and the moments of those carried in."""
        low = [row.stamp - row.skew for row in self.bounded.rows]
        high = [row.stamp + row.skew for row in self.bounded.rows]
        for bounded in self.window.bounded:
            if bounded.number == NONE and bounded.earlier == 0:
                high[bounded.later] = self.window.base + bounded.most
            elif bounded.number == NONE:
                low[bounded.earlier] = self.window.base - bounded.most
        return [min(max(row.stamp, least), most) for row, least, most in zip(self.log.rows, low, high)]

    # Bounds

    def sentence(self, ground: Ground) -> str:
        """What a ground of the window says."""
        step = ground[0]
        event = step.numbers[0]
        end = self.end_bounded(step)
        if end is not None:
            return self.end_words(end)
        if step.kind == "extra" or len(ground) > 1:
            return ground_words(self.log, ground)
        row, own = self.bounded.rows[event], self.log.rows[event]
        before = self.bounded.row_before(event) if step.kind == "rise" else None
        if event < self.first_row() or before is not None and before < self.first_row():
            return f"the window begins before {row_words(self.log, self.first_row())}"
        if step.kind == "low" and row.stamp - row.skew != own.stamp - own.skew:
            return f"{row_words(self.log, event)} can't be before {self.log.scale.moment(row.stamp - row.skew)}: so the whole log has it"
        if step.kind == "high" and row.stamp + row.skew != own.stamp + own.skew:
            return f"{row_words(self.log, event)} can't be after {self.log.scale.moment(row.stamp + row.skew)}: so the whole log has it"
        return ground_words(self.log, ground)

    def end_bounded(self, step: Step) -> Optional[Bounded]:
        """The bound record of the window that says a least or a greatest time, where a step is one."""
        bounded = self.window.bounded[step.numbers[0]] if step.kind == "extra" else None
        return bounded if bounded is not None and bounded.number == NONE else None

    def end_words(self, bounded: Bounded) -> str:
        """What a bound record says that tells a least or a greatest time."""
        base, is_greatest = self.window.base, bounded.earlier == 0
        moment = self.log.scale.moment
        far = f"after {moment(base + bounded.most)}" if is_greatest else f"before {moment(base - bounded.most)}"
        name = row_words(self.log, bounded.later if is_greatest else bounded.earlier)
        return f"{name} can't be {far}: so the whole log has it"

    def ground_lines(self, section: Section, is_all: bool) -> List[str]:
        """A line for each bound that a derivation of the window rests on."""
        counts: Dict[str, int] = {}
        for ground, uses in bounds_used(self.bounded, section):
            sentence = self.sentence(ground)
            counts[sentence] = counts.get(sentence, 0) + uses
        used = list(counts.items())
        shown = used if is_all else used[:MOST_BOUNDS_SHOWN]
        lines = [f"  {sentence}{f' ({uses}x)' if uses > 1 else ''}" for sentence, uses in shown]
        more = [f"  and {counted(len(used) - len(shown), 'bound')} more; --all shows all"]
        return lines + more * (len(shown) < len(used))

    def ground_facts(self, section: Section) -> List[Dict[str, Any]]:
        """The same for programs; a bound is named by the row, or the bound record, of the long log."""
        return [
            {"bound": " ".join(map(self.name_of_step, ground)), "uses": uses, "sentence": self.sentence(ground)}
            for ground, uses in bounds_used(self.bounded, section)
        ]

    def name_of_step(self, step: Step) -> str:
        """A bound of the window as one of the long log."""
        end = self.end_bounded(step)
        if end is not None:
            return f"high {self.event(end.later)}" if end.earlier == 0 else f"low {self.event(end.earlier)}"
        if step.kind == "extra":
            return f"extra {self.window.bounded[step.numbers[0]].number}"
        event = self.event(step.numbers[0])
        return f"{step.kind} {'anchor' if event is None else event}"


def lines_of(asked: LongQuestion, events: Sequence[int]) -> str:
    """The lines of the file between which rows stand."""
    lines = [asked.log.rows.line[event] for event in events]
    if not lines:
        return "no line"
    return f"line {lines[0]}" if len(lines) == 1 else f"lines {min(lines)} to {max(lines)}"
