"""A panel of a picture: a timing with a lane a host, rows with their skews, messages, states, and what is marked of it.

A contradiction is a loop of bounds. Heights count from the top of the panel, and in a lane from the top of that, so that
a script in a page can move lanes.
"""

from __future__ import annotations

from bisect import bisect_left, bisect_right
from dataclasses import dataclass, field
from typing import Callable, Dict, Iterator, List, NamedTuple, Optional, Sequence, Set, Tuple

from ask.explain import Span
from ask.focus import Focus, flag_words
from ask.logs import Log, is_set_at, proposition_names
from ask.offsets import Offset, offsets_of
from ask.plot import (
    AXIS, BEYOND, COLOURS, LABEL_LEVELS, LANE, LEFT, LETTER, MIDDLE, MOST_CLEAR_POSITIONS, MOST_STRIPS, PLOT, RIGHT,
    STRIP, Box, Canvas, Scale, curve, data, draw_axis, mark,
)
from ask.reports import Step
from ask.texts import markup
from ask.walks import bound_between, grounds_of
from ask.words import error_words, ground_words, shortened

EDGE = 12  # within which figures begin at their row
FLAGS = 20  # the height above the lanes in which the moments that are marked are named
LOOP = 26  # the height above the lanes of a loop of bounds, where the time itself stands
TIME_ITSELF = 10  # the height of that
MOST_NAME = 12  # letters of the name of a host that have room beside its lane
MOST_LIMITS = 19  # letters of what stands below it
READING = ' stroke="#7a5195" stroke-width="3" stroke-opacity=".6"'
DIAMOND = "M0 -6 L5 0 L0 6 L-5 0 z"  # the mark of a pulse
BOLD_LETTER = 7.4  # the width of a letter of a figure of a loop
ASIDE = ((0, 0), (0, -14), (0, 14), (8, 24), (0, -28), (0, 30))  # where such a figure may stand, from the middle of its arrow
FEW_ROWS = 60  # that a page may open with
CONTEXT = 4  # rows before and behind what is marked that it opens with


class Panel(NamedTuple):
    """A timing to be drawn, under a title; of an inconsistent log the stamps, with the walk that shows it."""

    title: str
    times: Sequence[int]
    walk: Sequence[Step] = ()
    focus: Optional[Focus] = None

    def named(self) -> Set[int]:
        """The rows that are marked."""
        return set(self.focus.rows) if self.focus else set()

    def loop_rows(self, log: Log) -> Set[int]:
        """The rows of the loop of a contradiction."""
        bounds = [bound_between(log, ground) for ground in grounds_of(self.walk)]
        return {end for bound in bounds if bound for end in (bound.start, bound.end) if end is not None}


class Lane(NamedTuple):
    """Where a host is drawn: its top, its height, and its propositions from top to bottom."""

    top: int
    height: int
    names: List[str]

    def middle(self) -> int:
        """The height of its rows."""
        return self.top + MIDDLE


class Place(NamedTuple):
    """Where the label of a row stands: at which level, and whether it is left of the row."""

    level: int
    is_left: bool


class Bend(NamedTuple):
    """A bound of a loop: its ends as data, the path of its arrow, where its figure would stand, and its words."""

    ends: str
    path: str
    x: float
    y: float
    figure: str
    title: str


class Stretch(NamedTuple):
    """From which position on a proposition is set, and from which on it isn't again; None where it stays so."""

    begin: int
    end: Optional[int]


def scale_of(log: Log, panels: Sequence[Panel]) -> Scale:
    """A scale that has all rows, their skews and the timings; a skew beyond all stamps is cut at a fifth of them."""
    moments = log.stamps() + [time for panel in panels for time in panel.times]
    low, high = min(moments), max(moments)
    room = max(high - low, 4) // 4 + 1
    firsts = [max(row.stamp - row.skew, low - room) for row in log.rows]
    lasts = [min(row.stamp + row.skew, high + room) for row in log.rows]
    first, last = min(firsts + [low]), max(lasts + [high])
    return Scale(first, last) if last - first > 1 else Scale(first - 2, last + 2)


def opening_of(log: Log, panel: Panel) -> Optional[Span]:
    """What a page shows of a panel at first: what is marked, with some rows about it; nothing where nothing is marked.

    Where there are many rows between what is marked, it is the moments alone, or the first of them.
    """
    focus, times = panel.focus, sorted(panel.times)
    decisive = [moment.time for moment in focus.moments] if focus else []
    if not decisive and not panel.walk:
        return None
    rows = [panel.times[event] for event in panel.named() | panel.loop_rows(log)]
    ends = [end for span in focus.spans for end in span if end is not None] if focus else []
    for marked in ([*decisive, *rows, *ends], [*decisive, *ends], decisive, decisive[:1] or rows[:1]):
        if marked and rows_between(times, min(marked), max(marked)) <= FEW_ROWS:
            break
    before, behind = bisect_left(times, min(marked)) - CONTEXT, bisect_right(times, max(marked)) + CONTEXT - 1
    return Span(
        min(times[max(before, 0)], *marked), max(times[min(behind, len(times) - 1)], *marked),
    )


def rows_between(times: Sequence[int], first: int, last: int) -> int:
    """How many of some times, in their order, are from a first to a last one."""
    return bisect_right(times, last) - bisect_left(times, first)


@dataclass
class PanelDrawing:
    """A panel as it is drawn."""

    log: Log
    panel: Panel
    scale: Scale
    number: int
    canvas: Canvas = field(default_factory=Canvas)

    def __post_init__(self) -> None:
        self.lanes, self.bottom = lanes_of(self.log, self.first_top())
        self.offsets = {} if self.panel.walk else offsets_of(self.log, self.panel.times)
        self.positions = sorted(set(self.panel.times))
        self.colours = colours_of(self.log)
        self.words: List[Box] = []  # where words stand that figures of a loop may not lie on
        self.rows_of_hosts: List[List[int]] = [[] for _ in self.log.hosts]
        for event, row in enumerate(self.log.rows):
            self.rows_of_hosts[row.host].append(event)

    def first_top(self) -> int:
        """The height at which the lanes begin."""
        if self.panel.walk:
            return LOOP
        return FLAGS if self.panel.focus and self.panel.focus.moments else 4

    def height(self) -> int:
        return self.bottom + 6 + AXIS

    def drawn(self) -> List[str]:
        """The parts of the panel."""
        for place in range(len(self.lanes)):
            self.draw_ground(place)
        clip = f"plot{self.number}"
        self.canvas.parts.append(
            f'<clipPath id="{clip}"><rect class="clip" x="{LEFT - 12}" width="{PLOT + 12 + RIGHT}" '
            f'height="{self.height()}"/></clipPath><g clip-path="url(#{clip})"><g class="moving">'
        )
        self.draw_spans()
        self.draw_positions()
        self.draw_moments()
        for place in range(len(self.lanes)):
            self.in_lane(place, self.draw_states)
        self.draw_messages()
        self.draw_loop()
        for place in range(len(self.lanes)):
            self.in_lane(place, self.draw_rows)
        self.draw_figures()
        self.canvas.parts.append("</g></g>")
        draw_axis(self.canvas, self.scale, self.bottom + 6, self.log.scale)
        return self.canvas.parts

    # What goes through all lanes

    def draw_spans(self) -> None:
        """The moments of which a sentence says that something holds throughout, or nowhere."""
        focus = self.panel.focus
        for span in focus.spans if focus else ():
            first = self.scale.first if span.first is None else max(span.first, self.scale.first)
            last = self.scale.last if span.last is None else min(span.last, self.scale.last)
            if first > last:
                continue
            a, b = self.scale.at(first), self.scale.at(last)
            self.canvas.parts.append(
                f'<rect class="span {focus.kind()} w" {data(a=a, b=b)} x="{LEFT + a:g}" y="{self.lanes[0].top - 4}" '
                f'width="{max(b - a, 2):g}" height="{self.bottom + 4 - self.lanes[0].top}">'
                f"<title>{markup(self.span_words(span))}</title></rect>"
            )

    def span_words(self, span: Span) -> str:
        moment = self.log.scale.moment
        begin = "the first row" if span.first is None else moment(span.first)
        return f"what the formula asks about: from {begin} to {'the last row' if span.last is None else moment(span.last)}"

    def draw_positions(self) -> None:
        """A line through all lanes at each moment at which there is a row."""
        places = [self.scale.at(moment) for moment in self.positions]
        kind = "position" if len(places) <= MOST_CLEAR_POSITIONS else "position faint"
        path = "".join(f"M{LEFT + place:g} {self.lanes[0].top - 4}V{self.bottom}" for place in places)
        shown = " ".join(f"{place:.12g}" for place in places)
        self.canvas.parts.append(f'<path class="{kind}" data-places="{shown}" d="{path}"/>')

    def draw_moments(self) -> None:
        """The moments that decide the formula: a line through all lanes, and what is so there above them."""
        focus, free = self.panel.focus, float("-inf")
        for moment in focus.moments if focus else ():
            at, words = self.scale.at(moment.time), flag_words(moment, self.log.scale)
            wide = LETTER * len(words)
            is_left = at + wide > PLOT + RIGHT
            begin = at - wide if is_left else at
            off = " off" if begin < free else ""
            free = free if off else begin + wide + 12
            flag = (
                f'<text class="flag{off}" data-wide="{wide:g}" x="{-6 if is_left else 6}" y="11" '
                f'text-anchor="{"end" if is_left else "start"}">{markup(words)}</text>'
            )
            line = f'<line y1="2" y2="{self.bottom}"/>'
            shown = mark(at, 0, f"{line}{flag}<title>{markup(words)}</title>")
            self.canvas.parts.append(f'<g class="moment {focus.kind()}">{shown}</g>')

    def draw_messages(self) -> None:
        """An arrow for each message that is received."""
        log, times, sends = self.log, self.panel.times, self.log.sends()
        for event, row in enumerate(log.rows):
            send = sends.get(row.name)
            if row.kind != "recv" or send is None:
                continue
            hosts = (log.rows[send].host, row.host)
            ends_words = f"{log.host_of(send)} line {log.rows[send].line} to {log.host_of(event)} line {row.line}"
            takes = log.scale.span(times[event] - times[send])
            self.canvas.line(
                "message", (self.scale.at(times[send]), self.scale.at(times[event])),
                (self.lanes[hosts[0]].middle(), self.lanes[hosts[1]].middle()),
                f"message {row.name}: {ends_words}, takes {takes}",
                f' data-from="{hosts[0]}" data-to="{hosts[1]}" marker-end="url(#head)"',
            )

    def draw_loop(self) -> None:
        """The loop of a contradiction: an arrow for each bound; the zero moment is the time itself, above the lanes."""
        if any(step.kind in ("low", "high") for step in self.panel.walk):
            box = '<rect x="-5" y="-5" width="10" height="10" fill="#c00"/>'
            words = "the time itself"
            at, height = self.point_of(None)
            self.words.append(Box(LEFT + at - 9 - BOLD_LETTER * len(words), height - 8, LEFT + at + 5, height + 8))
            shown = mark(at, height, f'{box}<text class="number" x="-9" y="4" text-anchor="end">{words}</text>')
            self.canvas.parts.append(f'<g class="clock">{shown}</g>')
        for bend in self.bends():
            self.canvas.parts.append(
                f'<path class="step c" {bend.ends} d="{bend.path}" marker-end="url(#redhead)">'
                f"<title>{markup(bend.title)}</title></path>"
            )

    def draw_figures(self) -> None:
        """The number of each bound of a loop and what it allows, each where it lies on no other words, or unseen."""
        for bend in self.bends():
            wide = BOLD_LETTER * len(bend.figure)
            box = Box(bend.x, bend.y - 11, bend.x + wide, bend.y + 3)
            tried = [box.moved(across, down) for across, down in (*ASIDE, (-wide - 8, 0), (-wide - 8, -14), (-wide - 8, 14))]
            free = next((one for one in tried if not any(one.is_over(other) for other in self.words)), None)
            self.words += [free] if free else []
            at, off = free or box, "" if free else " off"
            self.canvas.parts.append(
                f'<text class="number m{off}" {bend.ends} x="{at.left:g}" y="{at.bottom - 3:g}">{bend.figure}</text>'
            )

    def bends(self) -> Iterator[Bend]:
        """The bounds of a loop as bent arrows."""
        for number, ground in enumerate(grounds_of(self.panel.walk), start=1):
            bound = bound_between(self.log, ground)
            if bound is None:
                continue
            (a, y), (b, z) = self.point_of(bound.start), self.point_of(bound.end)
            most = self.log.scale.span(bound.most)
            hosts = [-1 if end is None else self.log.rows[end].host for end in (bound.start, bound.end)]
            path, (x, height) = curve(LEFT + a, y, LEFT + b, z)
            ends = f'{data(a=a, b=b)} data-from="{hosts[0]}" data-to="{hosts[1]}"'
            yield Bend(ends, path, x, height, f"{number}: {most}", f"{number}. {ground_words(self.log, ground)}: {most}")

    def point_of(self, event: Optional[int]) -> Tuple[float, float]:
        """Where a row stands, or the zero moment."""
        if event is None:
            return PLOT / 5, TIME_ITSELF
        return self.scale.at(self.panel.times[event]), self.lanes[self.log.rows[event].host].middle()

    # What is in a lane

    def in_lane(self, place: int, draw: Callable[[int], None]) -> None:
        """Draws a part of a lane, within which heights count from its top."""
        self.canvas.parts.append(f'<g data-lane="{place}" transform="translate(0,{self.lanes[place].top})">')
        draw(place)
        self.canvas.parts.append("</g>")

    def draw_ground(self, place: int) -> None:
        """The ground of a lane, with the names at its left."""
        lane, host = self.lanes[place], self.log.hosts[place]
        self.canvas.parts.append(
            f'<g class="head" data-lane="{place}" transform="translate(0,{lane.top})">'
            f'<rect class="lane" width="100%" height="{lane.height}"/>'
        )
        limits = ground_of_lane(self.log, place, self.offsets)
        self.canvas.text(12, 20, shortened(host.name, MOST_NAME), "host")
        for line, words in enumerate(limits):
            self.canvas.text(12, 34 + 13 * line, shortened(words, MOST_LIMITS), "small")
        for strip, name in enumerate(lane.names):
            self.canvas.text(LEFT - 16, strip_top(strip) + 9, shortened(name, 16), "small", "end")
        self.canvas.parts.append(f"<title>{markup(', '.join([host.name, *limits]))}</title></g>")

    def draw_states(self, place: int) -> None:
        """The stretches in which each proposition of a host is set, and the pulses, at whose instants it is true."""
        for strip, name in enumerate(self.lanes[place].names):
            shown = f"{self.log.hosts[place].name}.{name}"
            for stretch in stretches(self.log, self.panel.times, self.positions, place, name):
                self.draw_stretch(stretch, shown, strip_top(strip), self.colours[name])
            for event in self.rows_of_hosts[place]:
                if (self.log.rows[event].kind, self.log.rows[event].name) == ("pulse", name):
                    self.draw_pulse(event, shown, strip_top(strip), self.colours[name])

    def draw_stretch(self, stretch: Stretch, shown: str, top: int, colour: str) -> None:
        moment = self.log.scale.moment
        a = self.scale.at(stretch.begin)
        b = PLOT + BEYOND if stretch.end is None else self.scale.at(stretch.end)
        words = f"{shown} is true from {moment(stretch.begin)}"
        words += "" if stretch.end is None else f" up to {moment(stretch.end)}, where it isn't set any more"
        self.canvas.parts.append(
            f'<rect class="w" {data(a=a, b=b)} x="{LEFT + a:g}" y="{top}" width="{max(b - a, 2):g}" '
            f'height="{STRIP - 4}" rx="2" fill="{colour}"><title>{markup(words)}</title></rect>'
        )

    def draw_pulse(self, event: int, shown: str, top: int, colour: str) -> None:
        time = self.panel.times[event]
        words = f"{shown} is true at {self.log.scale.moment(time)}, by the pulse of line {self.log.rows[event].line}"
        diamond = f'<path class="pulse" d="{DIAMOND}" fill="{colour}"/><title>{markup(words)}</title>'
        self.canvas.parts.append(mark(self.scale.at(time), top + (STRIP - 4) / 2, diamond))

    def draw_rows(self, place: int) -> None:
        """The rows of a host, with what they read; the skews lie below all marks, and rows that are named above them."""
        rows, scale = self.rows_of_hosts[place], self.scale
        for event in rows:
            self.draw_reading(event)
        for event in rows:
            row = self.log.rows[event]
            ends = (scale.at(max(row.stamp - row.skew, scale.first)), scale.at(min(row.stamp + row.skew, scale.last)))
            self.canvas.line("skew", ends, (MIDDLE, MIDDLE), row_title(self.log, self.panel, event), f' data-of="{event}"')
        named = self.panel.named()
        places = self.label_places(rows, named)
        has_room = self.shift_rooms(rows)
        for event in sorted(rows, key=lambda event: event in named):
            self.draw_row(event, places.get(event), has_room[event])

    def draw_row(self, event: int, place: Optional[Place], has_room: bool) -> None:
        """A row at its time, with its label and its shift."""
        row, time, unit = self.log.rows[event], self.panel.times[event], self.log.scale
        at, stamp, shift = self.scale.at(time), self.scale.at(row.stamp), time - row.stamp
        if shift:
            self.canvas.line("moved", (stamp, at), (MIDDLE, MIDDLE))
            self.canvas.parts.append(mark(stamp, MIDDLE, '<circle class="stamp" r="2.6"/>'))
        focus = self.panel.focus
        ring, kind = "", ""
        if focus and event in focus.rows:
            is_decisive = any(moment.time == time for moment in focus.moments)
            ring, kind = '<circle class="ring" r="8"/>' * is_decisive, f"named {focus.kind()}"
        dot = f'<path class="row" d="{DIAMOND}"/>' if row.kind == "pulse" else '<circle class="row" r="4"/>'
        parts = f"{ring}{dot}<title>{markup(row_title(self.log, self.panel, event))}</title>{self.label(event, place)}"
        if shift:
            anchor = "middle" if at > EDGE else "start"  # the names begin left of the plot
            off = "" if has_room else " off"
            parts += f'<text class="shift{off}" x="0" y="15" text-anchor="{anchor}">{unit.shift(shift)}</text>'
        self.canvas.parts.append(mark(at, MIDDLE, parts, kind, f' data-row="{event}"'))

    def label(self, event: int, place: Optional[Place]) -> str:
        """The kind and the name of a row, unseen where there is no room."""
        shown = place or Place(0, False)
        words = label_words(self.log, event)
        if place:
            self.words.append(self.label_box(event, place))
        return (
            f'<text class="label{"" if place else " off"}" data-wide="{LETTER * len(words):g}" '
            f'x="{3 if shown.is_left else -3}" y="{-8 - 11 * shown.level}" '
            f'text-anchor="{"end" if shown.is_left else "start"}">{markup(words)}</text>'
        )

    def label_box(self, event: int, place: Place) -> Box:
        """Where the label of a row stands in the panel."""
        wide = LETTER * len(label_words(self.log, event))
        at = LEFT + self.scale.at(self.panel.times[event])
        begin = at + 3 - wide if place.is_left else at - 3
        bottom = self.lanes[self.log.rows[event].host].middle() - 6 - 11 * place.level
        return Box(begin, bottom - 12, begin + wide, bottom)

    def label_places(self, rows: Sequence[int], named: Set[int]) -> Dict[int, Place]:
        """Where the labels of the rows of a lane have room; rows that are named take it first."""
        found: Dict[int, Place] = {}
        taken: List[List[Tuple[float, float]]] = [[] for _ in range(LABEL_LEVELS)]
        for event in sorted(rows, key=lambda event: (event not in named, self.panel.times[event])):
            at, wide = self.scale.at(self.panel.times[event]), LETTER * len(label_words(self.log, event))
            is_left = at + wide > PLOT + RIGHT
            begin = at + 3 - wide if is_left else at - 3
            for level, boxes in enumerate(taken):
                place = bisect_left(boxes, (begin, 0.0))
                is_free_before = place == 0 or boxes[place - 1][1] <= begin
                if is_free_before and (place == len(boxes) or begin + wide + 7 <= boxes[place][0]):
                    boxes.insert(place, (begin, begin + wide + 7))
                    found[event] = Place(level, is_left)
                    break
        return found

    def shift_rooms(self, rows: Sequence[int]) -> Dict[int, bool]:
        """Whether the figure of each row's shift has room beside those of its lane before it."""
        free, rooms = -100.0, dict.fromkeys(rows, False)
        for event in sorted(rows, key=lambda event: self.panel.times[event]):
            time, stamp = self.panel.times[event], self.log.rows[event].stamp
            half = LETTER * len(self.log.scale.shift(time - stamp)) / 2
            at = self.scale.at(time)
            if time != stamp and at - half >= free:
                rooms[event] = True
                free = at + half + 3
        return rooms

    def draw_reading(self, event: int) -> None:
        """Where the clock that a row reads has it, by one offset for all rows of the clock, and how far that may be off."""
        row, scale = self.log.rows[event], self.scale
        if row.clock not in self.offsets:
            return
        shown = row.stamp + self.offsets[row.clock].middle()
        ends = (scale.at(max(shown - row.error, scale.first)), scale.at(min(shown + row.error, scale.last)))
        offset = f"the clock {self.log.clocks[row.clock]} with the offset {offset_words(self.log, self.offsets, row.clock)}"
        title = f"line {row.line}: by {offset} it is {self.log.scale.moment(shown)}, {error_words(self.log, [row.error])}"
        self.canvas.line("reading", ends, (MIDDLE, MIDDLE), title, READING)
        self.canvas.parts.append(mark(scale.at(shown), MIDDLE, f'<path class="reading" d="M0 -7 V7"{READING}/>'))


# Lanes


def lanes_of(log: Log, top: int) -> Tuple[List[Lane], int]:
    """The lanes of all hosts from a height on, and the height below them."""
    lanes = []
    for place in range(len(log.hosts)):
        names = proposition_names(log, place)[:MOST_STRIPS]
        height = LANE + STRIP * len(names)
        lanes.append(Lane(top, height, names))
        top += height + 6
    return lanes, top


def strip_top(strip: int) -> int:
    """Where a proposition stands in its lane."""
    return LANE + STRIP * strip - 4


def limits_words(log: Log, host: int) -> List[str]:
    """The skew and the gap of a host's rows, from the least to the greatest where a resync changes them."""
    skews = sorted({row.skew for row in log.rows if row.host == host} or {log.hosts[host].skew})
    gaps = sorted({row.gap for row in log.rows if row.host == host} or {log.hosts[host].gap})
    span, spans = log.scale.span, log.scale.spans
    shown = [span(found[0]) if len(found) == 1 else spans(found[0], found[-1]) for found in (skews, gaps)]
    return [f"skew {shown[0]}", f"gap {shown[1]}"]


def ground_of_lane(log: Log, host: int, offsets: Dict[int, Offset]) -> List[str]:
    """What stands below the name of a host, on two lines."""
    limits, clocks = limits_words(log, host), clock_words(log, host, offsets)
    return [", ".join(limits), *clocks] if clocks else limits


def clock_words(log: Log, host: int, offsets: Dict[int, Offset]) -> List[str]:
    """The clocks that a host's rows read, each with its offset in the timing that is shown."""
    clocks = dict.fromkeys(row.clock for row in log.rows if row.host == host and row.clock is not None)
    shown = [f"{shortened(log.clocks[clock], 12)} {offset_words(log, offsets, clock)}".rstrip() for clock in clocks]
    if not shown:
        return []
    return [f"clock {shown[0]}{', ..' if len(shown) > 1 else ''}"]


def offset_words(log: Log, offsets: Dict[int, Offset], clock: int) -> str:
    """The offset of a clock in a timing, nothing where there is none."""
    return log.scale.shift(offsets[clock].middle()) if clock in offsets else ""


def colours_of(log: Log) -> Dict[str, str]:
    """The colour of each name of a proposition; those of one name have one."""
    names = dict.fromkeys(name for host in range(len(log.hosts)) for name in proposition_names(log, host))
    return {name: COLOURS[place % len(COLOURS)] for place, name in enumerate(names)}


def stretches(log: Log, times: Sequence[int], positions: Sequence[int], host: int, name: str) -> List[Stretch]:
    """The stretches of positions in which a proposition is set."""
    found: List[Stretch] = []
    was = False
    rows = [event for event, row in enumerate(log.rows) if row.host == host and row.name == name]
    relevant = {times[event] for event in rows}
    for moment in positions:
        if moment not in relevant:
            continue
        now = is_set_at(log, times, moment, host, name)
        if now and not was:
            found.append(Stretch(moment, None))
        if was and not now:
            found[-1] = Stretch(found[-1].begin, moment)
        was = now
    return found


# Rows


def label_words(log: Log, event: int) -> str:
    """What stands at a row."""
    return f"{log.rows[event].kind} {log.rows[event].name}"


def row_title(log: Log, panel: Panel, event: int) -> str:
    """What is shown where the pointer is on a row: its line of the file, and its times."""
    row, time, scale = log.rows[event], panel.times[event], log.scale
    title = f"line {row.line}: {row.kind},{log.host_of(event)},{row.stamp},{row.name}"
    title += f"\nstamp {scale.moment(row.stamp)}" if scale.epoch is not None else ""
    ends = f"{scale.moment(row.stamp - row.skew)} to {scale.moment(row.stamp + row.skew)}"
    title += f"\nskew {scale.span(row.skew)}: {ends}"
    if row.clock is not None:
        title += f"\nclock {log.clocks[row.clock]}, error {scale.span(row.error)}"
    return title + (f"\ntime {scale.moment(time)}, shift {scale.shift(time - row.stamp)}" if time != row.stamp else "")
