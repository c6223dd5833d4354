"""Pictures of logs: panels below one another, each with its title, why the formula has its value there, and its loop."""

from __future__ import annotations

from dataclasses import dataclass
from typing import List, Optional, Sequence

from ask.explain import Span
from ask.logs import Log
from ask.panels import Panel, PanelDrawing, opening_of, scale_of
from ask.plot import LEFT, PLOT, RIGHT, STYLE, Canvas
from ask.texts import wrapped
from ask.walks import bound_between, grounds_of
from ask.words import ground_words

WIDTH = LEFT + PLOT + RIGHT
MOST_OF_TITLE = 145  # columns on a line of a picture
MOST_OF_SMALL = 180
HEADS = (
    '<defs><marker id="head" viewBox="0 0 8 8" refX="8" refY="4" markerWidth="7" markerHeight="7" orient="auto">'
    '<path d="M0 0 L8 4 L0 8 z" fill="#44546a"/></marker>'
    '<marker id="redhead" viewBox="0 0 8 8" refX="8" refY="4" markerWidth="5" markerHeight="5" orient="auto">'
    '<path d="M0 0 L8 4 L0 8 z" fill="#c00"/></marker></defs>'
)  # of arrows


@dataclass
class Section:
    """A panel of a page: its picture without words around it, and the moments between which it is shown at first."""

    panel: Panel
    drawing: PanelDrawing
    opening: Optional[Span]

    def picture(self) -> str:
        """The picture of the panel, with what a script in the page needs to draw it anew."""
        drawing = self.drawing
        size = f'width="{WIDTH}" height="{drawing.height()}" viewBox="0 0 {WIDTH} {drawing.height()}"'
        heights = " ".join(str(lane.height) for lane in drawing.lanes)
        lanes = f'data-top="{drawing.first_top()}" data-heights="{heights}"'
        parts = "\n".join(drawing.drawn())
        return f'<svg class="panel" xmlns="http://www.w3.org/2000/svg" {size} {lanes}>\n{parts}\n</svg>'


def sections_of(log: Log, panels: Sequence[Panel]) -> List[Section]:
    """The panels of a page."""
    scale = scale_of(log, panels)
    return [
        Section(panel, PanelDrawing(log, panel, scale, number), opening_of(log, panel))
        for number, panel in enumerate(panels)
    ]


def picture(log: Log, panels: Sequence[Panel], heading: str = "") -> str:
    """The picture of a log on its own, with a panel for each timing."""
    scale = scale_of(log, panels)
    canvas = Canvas(height=4)
    if heading:
        canvas.lines(12, wrapped(heading, MOST_OF_TITLE), "title", 18)
        canvas.height += 6
    for number, panel in enumerate(panels):
        draw_heading(canvas, panel)
        drawing = PanelDrawing(log, panel, scale, number)
        canvas.parts += [f'<g transform="translate(0,{canvas.height})">', *drawing.drawn(), "</g>"]
        canvas.height += drawing.height()
        for line in loop_lines(log, panel):
            canvas.lines(LEFT, wrapped(line, MOST_OF_SMALL - 20), "small", 17)
        canvas.height += 12 if panel.walk else 0
    height = canvas.height + 12
    return "\n".join([
        f'<svg xmlns="http://www.w3.org/2000/svg" width="{WIDTH}" height="{height}" viewBox="0 0 {WIDTH} {height}">',
        f"<style>{STYLE}</style>",
        HEADS,
        '<rect class="paper" width="100%" height="100%" fill="#fff"/>',
        *canvas.parts,
        "</svg>",
    ])


def draw_heading(canvas: Canvas, panel: Panel) -> None:
    """The title of a panel, and why the formula has its value there."""
    canvas.height += 6
    canvas.lines(12, wrapped(panel.title, MOST_OF_TITLE), "title", 18)
    if panel.focus and panel.focus.sentences:
        canvas.lines(12, [panel.focus.heading()], f"why {panel.focus.kind()}", 17)
        for line in panel.focus.lines():
            canvas.lines(12, wrapped(line, MOST_OF_SMALL), "small", 15)
    canvas.height += 10


def loop_lines(log: Log, panel: Panel) -> List[str]:
    """The bounds of the loop of a contradiction, by their numbers, and what they add up to."""
    grounds = grounds_of(panel.walk)
    bounds = [bound_between(log, ground) for ground in grounds]
    lines = [
        f"{number}. {ground_words(log, ground)}: {log.scale.span(bound.most) if bound else ''}"
        for number, (ground, bound) in enumerate(zip(grounds, bounds), start=1)
    ]
    if lines:
        total = log.scale.span(sum(bound.most for bound in bounds if bound))
        lines.append(f"The bounds add up to {total}, and a loop that can be met has no negative sum.")
    return lines
