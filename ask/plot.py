"""What pictures are drawn with: a scale along the time axis, a canvas, marks, bent arrows and an axis.

Distances along the axis carry their ends as data, in units of the plot, so that a script in a page can zoom without
drawing anew.
"""

from __future__ import annotations

import math
from dataclasses import dataclass, field
from typing import List, NamedTuple, Sequence, Tuple

from ask.stamps import UNITS
from ask.texts import markup
from ask.units import Scale as Unit

LEFT = 120  # where the plot begins
PLOT = 980  # its width
RIGHT = 40
LANE = 58  # the height of a lane without its propositions
STRIP = 13  # the height of a proposition
AXIS = 46
MIDDLE = 36  # from the top of a lane to its rows
LABEL_LEVELS = 3
LETTER = 6.3  # the width of a letter of a label
MOST_STRIPS = 8
MOST_CLEAR_POSITIONS = 120
BEYOND = 24  # how far a state that stays is drawn beyond the plot
COLOURS = ("#0072b2", "#d55e00", "#009e73", "#cc79a7", "#b8860b", "#56b4e9", "#7a5195", "#666666")

STYLE = """
text { font: 12px system-ui, sans-serif; fill: #222; }
.title { font-weight: 600; font-size: 14px; }
.host { font-weight: 600; }
.small { font-size: 11px; fill: #555; }
.label { font-size: 11px; }
.shift { font-size: 10px; fill: #8a1c1c; }
.label, .shift { paint-order: stroke; stroke: #f6f7f9; stroke-width: 3px; }
.lane { fill: #f6f7f9; }
.position { stroke: #c9ced6; stroke-width: 1; }
.faint { stroke-opacity: .35; }
.skew { stroke: #9aa4b2; stroke-width: 5; stroke-opacity: .38; }
.moved { stroke: #8a1c1c; stroke-width: 1; stroke-dasharray: 2 2; }
.stamp { fill: #fff; stroke: #8a1c1c; }
.row { fill: #222; }
.pulse { stroke: #fff; stroke-width: 1; }
.message { stroke: #44546a; stroke-width: 1.3; fill: none; }
.step { stroke: #c00; stroke-width: 2; fill: none; }
.number { fill: #c00; font-weight: 700; paint-order: stroke; stroke: #fff; stroke-width: 3px; }
.axis { stroke: #888; }
.moment line { stroke-width: 2; }
.ring { fill: none; stroke-width: 1.5; }
.flag { font-weight: 600; }
.span { fill-opacity: .09; }
.fails line { stroke: #b3261e; }
.holds line { stroke: #00704a; }
.fails .row, .fails .flag, .span.fails { fill: #b3261e; }
.holds .row, .holds .flag, .span.holds { fill: #00704a; }
.fails .ring { stroke: #b3261e; }
.holds .ring { stroke: #00704a; }
.why { font-weight: 600; font-size: 12px; }
.why.fails { fill: #b3261e; }
.why.holds { fill: #00704a; }
.off { visibility: hidden; }
"""


@dataclass
class Scale:
    """Where moments stand in the plot."""

    first: int
    last: int

    def at(self, moment: int) -> float:
        """The distance of a moment from the plot's left, of the width PLOT."""
        return PLOT * (moment - self.first) / max(1, self.last - self.first)


@dataclass
class Canvas:
    """The parts of a picture, from top to bottom."""

    parts: List[str] = field(default_factory=list)
    height: int = 0

    def text(self, x: float, y: float, words: str, kind: str = "", anchor: str = "start") -> None:
        self.parts.append(f'<text class="{kind}" x="{x:g}" y="{y:g}" text-anchor="{anchor}">{markup(words)}</text>')

    def lines(self, x: float, lines: Sequence[str], kind: str, step: int) -> None:
        """Lines of text below what is there, so far from one another."""
        for line in lines:
            self.height += step
            self.text(x, self.height, line, kind)

    def line(
        self, kind: str, ends: Tuple[float, float], heights: Tuple[float, float], title: str = "", more: str = ""
    ) -> None:
        """A line between two moments of the plot."""
        hover = f"<title>{markup(title)}</title>" if title else ""
        self.parts.append(
            f'<line class="{kind} l" {data(a=ends[0], b=ends[1])} x1="{LEFT + ends[0]:g}" '
            f'x2="{LEFT + ends[1]:g}" y1="{heights[0]:g}" y2="{heights[1]:g}"{more}>{hover}</line>'
        )


class Box(NamedTuple):
    """Where words stand."""

    left: float
    top: float
    right: float
    bottom: float

    def is_over(self, other: Box) -> bool:
        """Whether two have a place in common."""
        is_beside = self.right <= other.left or other.right <= self.left
        return not is_beside and self.top < other.bottom and other.top < self.bottom

    def moved(self, across: float, down: float) -> Box:
        return Box(self.left + across, self.top + down, self.right + across, self.bottom + down)


def data(**places: float) -> str:
    """Places in the plot as data, with digits enough for the greatest zoom."""
    return " ".join(f'data-{name}="{place:.12g}"' for name, place in places.items())


def mark(at: float, height: float, parts: str, kind: str = "", more: str = "") -> str:
    """Parts at a moment, which keep their size."""
    move = f"translate({LEFT + at:g},{height:g})"
    kinds = f"x {kind}" if kind else "x"
    return f'<g class="{kinds}" {data(x=at, y=height)}{more} transform="{move}">{parts}</g>'


def curve(a: float, y: float, b: float, z: float) -> Tuple[str, Tuple[float, float]]:
    """A path between two points that is bent to its left, and the place of its label."""
    length = math.hypot(b - a, z - y)
    if length < 2:
        return f"M{a:g} {y:g} C{a - 30:g} {y - 40:g} {a + 30:g} {y - 40:g} {a:g} {y:g}", (a + 20, y - 22)
    bend = min(34, 12 + length / 8)
    across, down = (a + b) / 2 + bend * (z - y) / length, (y + z) / 2 - bend * (b - a) / length
    label = (0.36 * a + 0.48 * across + 0.16 * b + 4, 0.36 * y + 0.48 * down + 0.16 * z)
    return f"M{a:g} {y:g} Q{across:g} {down:g} {b:g} {z:g}", label


# The axis


def draw_axis(canvas: Canvas, scale: Scale, height: float, unit: Unit) -> None:
    """The axis with its ticks, in the unit of the log where it is known; large moments are counted from the first."""
    base = scale.first if max(abs(scale.first), abs(scale.last)) >= 10**7 else 0
    words = [f"in {unit.unit}"] * bool(unit.unit) + [f"counted from {unit.moment(base)}"] * bool(base)
    canvas.parts.append(f'<g class="below" transform="translate(0,{height:g})">')
    canvas.parts.append(f'<line class="axis" x1="{LEFT}" x2="{LEFT + PLOT}"/>')
    if words:
        canvas.text(LEFT, 32, ", ".join(words), "small")
    canvas.parts.append(
        f'<g class="ticks" data-base="{base}" data-offset="{scale.first - base}" '
        f'data-span="{scale.last - scale.first}"{dates(unit)}>'
    )
    for moment in ticks(scale.first, scale.last):
        canvas.parts.append(
            f'<g transform="translate({LEFT + scale.at(moment):g},0)"><line class="axis" y2="4"/>'
            f'<text class="small" y="16" text-anchor="middle">{moment - base}</text></g>'
        )
    canvas.parts.append("</g></g>")


def dates(unit: Unit) -> str:
    """How a script in a page makes dates of moments, where that can be."""
    if unit.unit is None or unit.epoch is None:
        return ""
    return (
        f' data-digits="{UNITS[unit.unit]}" data-epoch="{unit.epoch}" data-ahead="{unit.ahead()}" '
        f'data-zone="{markup(unit.zone or "Z")}"'
    )


def ticks(first: int, last: int) -> List[int]:
    """Round moments from the first to the last, about ten."""
    steps = (factor * 10**power for power in range(22) for factor in (1, 2, 5))
    step = next(step for step in steps if (last - first) // step <= 10)
    base = first if max(abs(first), abs(last)) >= 10**7 else 0
    begin = base + -(-(first - base) // step) * step
    return list(range(begin, last + 1, step))
