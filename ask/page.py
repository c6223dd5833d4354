"""Pages with a picture: one file, which needs no network, and which can be read without its script too."""

from __future__ import annotations

import json
import re
from typing import Any, Dict, List, Optional, Sequence

from ask.logs import Log
from ask.pages.labels import LABELS
from ask.pages.lanes import LANES
from ask.pages.parts import PARTS
from ask.pages.pointer import POINTER
from ask.pages.rows import ROWS
from ask.pages.strip import STRIP
from ask.pages.style import STYLE
from ask.pages.view import VIEW
from ask.panels import TIME_ITSELF, Panel
from ask.picture import HEADS, Section, loop_lines, sections_of
from ask.plot import AXIS, LABEL_LEVELS, LEFT, LETTER, MIDDLE, PLOT, RIGHT
from ask.plot import STYLE as STYLE_OF_PICTURE
from ask.texts import markup

PAGE = """<!doctype html>
<html lang="en">
<meta charset="utf-8">
<meta name="viewport" content="width=device-width, initial-scale=1">
<title>@TITLE@</title>
<style>@STYLE@</style>
<svg id="heads" width="0" height="0" aria-hidden="true">@HEADS@</svg>
<header><h1>@TITLE@</h1></header>
<div id="tools" class="scripted-only" hidden>
<div id="buttons">
<button type="button" data-act="out" aria-label="zoom out">&minus;</button>
<button type="button" data-act="in" aria-label="zoom in">+</button>
<button type="button" data-act="whole">Whole</button>
@MARKED@<details id="lanes"><summary>Lanes</summary>
<div><ol></ol><button type="button" id="every">Show all</button></div></details>
<details id="keys"><summary>Keys</summary><div><dl>
<dt>wheel, + and -</dt><dd>zoom; over the names at the left the wheel scrolls</dd>
<dt>dragging, &larr; and &rarr;</dt><dd>move; in the strip too, whose ends zoom</dd>
<dt>0, double click</dt><dd>the whole log</dd>
<dt>m</dt><dd>what is marked, the next where there are several</dd>
<dt>/</dt><dd>search; Enter goes on to the next row, Shift and Enter back, Escape ends it</dd>
<dt>n and p</dt><dd>the next row that was found, and the one before</dd>
<dt>&uarr;, &darr;, Enter</dt><dd>in the list: another row, and show it</dd>
<dt>names at the left</dt><dd>dragging moves a lane, &times; hides it</dd>
</dl></div></details>
</div>
<div id="strip" role="img" aria-label="the whole log, and what of it is shown">
<svg></svg><div class="window"></div><svg></svg>
</div>
</div>
<main>
<div id="panels">
@SECTIONS@
</div>
<details id="side" class="scripted-only" open hidden><summary>Rows</summary>
<label for="search">Search lines, hosts, kinds, names and stamps</label>
<input id="search" type="search" autocomplete="off" spellcheck="false">
<p id="count" aria-live="polite"></p>
<ol id="rows" role="listbox" aria-label="rows" tabindex="0"></ol>
</details>
</main>
<div id="tip"></div>
<script type="application/json" id="facts">@FACTS@</script>
<script>
"use strict";
@SCRIPT@
</script>
</html>"""

SCRIPT = "\n".join(part.strip() for part in (VIEW, PARTS, LABELS, STRIP, LANES, ROWS, POINTER))
MARKED = '<button type="button" data-act="marked">What is marked</button>\n'
MOST_SENTENCES = 4  # that a caption shows at once


def page_of(title: str, log: Log, panels: Sequence[Panel]) -> str:
    """The page that shows a picture of a log."""
    sections = sections_of(log, panels)
    has_marks = any(section.opening for section in sections)
    parts = {
        "@TITLE@": markup(title),
        "@STYLE@": STYLE_OF_PICTURE + STYLE,
        "@HEADS@": HEADS,
        "@MARKED@": MARKED if has_marks else "",
        "@SECTIONS@": "\n".join(section_markup(log, section) for section in sections),
        "@FACTS@": in_script(facts_of(log, sections)),
        "@SCRIPT@": SCRIPT,
    }
    return re.sub("|".join(parts), lambda found: parts[found.group()], PAGE)


def in_script(facts: Dict[str, Any]) -> str:
    """Facts as JSON in which nothing ends the script that it stands in."""
    return json.dumps(facts, separators=(",", ":")).replace("<", "\\u003c")


# Sections


def section_markup(log: Log, section: Section) -> str:
    """A panel under its title, with why the formula has its value there, and what a contradiction is made of."""
    loop = loop_lines(log, section.panel)
    shown = listed(loop, "loop") if loop else ""
    caption = f'<div class="caption"><h2>{markup(section.panel.title)}</h2>{why(section)}</div>'
    return "\n".join(["<section>", caption, section.picture(), f"{shown}</section>"])


def why(section: Section) -> str:
    """Why the formula has its value in a panel, and a button that shows the moment."""
    focus = section.panel.focus
    if not focus or not focus.sentences:
        return ""
    heading = f'<p class="why {focus.kind()}">{markup(focus.heading())}</p>'
    lines = focus.lines()
    words = listed(lines[:MOST_SENTENCES], "")
    rest = lines[MOST_SENTENCES:]
    if rest:
        words += f"<details><summary>{len(rest)} more</summary>{listed(rest, '')}</details>"
    number = f'data-panel="{section.drawing.number}"'
    button = f'<button type="button" class="scripted-only" {number} hidden>Show the moment</button>'
    return heading + words + (button if section.opening else "")


def listed(lines: Sequence[str], kind: str) -> str:
    """Lines as a list."""
    return f'<ul class="{kind}">' + "".join(f"<li>{markup(line)}</li>" for line in lines) + "</ul>"


# What the script knows


def facts_of(log: Log, sections: Sequence[Section]) -> Dict[str, Any]:
    """What the script of a page needs beside the pictures: sizes, hosts, rows, and what is marked."""
    scale = sections[0].drawing.scale
    openings = [opening_facts(section) for section in sections]
    return {
        "left": LEFT, "plot": PLOT, "right": RIGHT, "levels": LABEL_LEVELS, "letter": LETTER, "middle": MIDDLE,
        "clock": TIME_ITSELF, "below": AXIS + 6, "span": float(scale.last - scale.first),
        "hosts": [host.name for host in log.hosts],
        "rows": [
            {"line": row.line, "host": row.host, "kind": row.kind, "name": row.name, "stamp": log.scale.moment(row.stamp)}
            for row in log.rows
        ],
        "openings": openings,
        "first": first_shown(sections),
        "moments": [moment_facts(section) for section in sections],
    }


def opening_facts(section: Section) -> Optional[List[float]]:
    """The places between which a panel is shown at first, or nothing where that is all of it."""
    if not section.opening:
        return None
    scale = section.drawing.scale
    return [scale.at(end) for end in section.opening if end is not None]


def first_shown(sections: Sequence[Section]) -> int:
    """The panel whose marks the page opens with: one in which the formula fails rather than one in which it holds."""
    marked = [number for number, section in enumerate(sections) if section.opening]
    failing = [number for number in marked if sections[number].panel.focus and not sections[number].panel.focus.value]
    return (failing or marked or [0])[0]


def moment_facts(section: Section) -> List[Dict[str, Any]]:
    """The moments of a panel that are marked, for the strip above."""
    focus, scale = section.panel.focus, section.drawing.scale
    return [{"x": scale.at(moment.time), "kind": focus.kind()} for moment in focus.moments] if focus else []
