"""A second trimming of derivations and reports.

The needed lines of a derivation are its last one and each line that a hint of
a needed Learn line names. Trimming keeps these in their order, and gives each
hint that names a line the new number of that line. A report is trimmed by
trimming its refuted sections; it can't be where one of them has no line, or a
hint that names no earlier line.
"""

from derivations import Learn, LineHint
from reports import Inconsistent, Place, Refuted


def named_lines(line):
    """The numbers, from 1, of the lines that a line names."""
    if not isinstance(line, Learn):
        return []
    return [hint.line for hint in line.hints if isinstance(hint, LineHint)]


def untrimmed_line(lines):
    """The first line with a hint that names no earlier one, 0 where there is no line, or None."""
    if not lines:
        return 0
    for number, line in enumerate(lines, 1):
        if any(not 0 < named < number for named in named_lines(line)):
            return number
    return None


def needed_lines(lines):
    """The numbers of the needed lines, in order, of lines that can be trimmed."""
    needed, left = set(), [len(lines)]
    while left:
        number = left.pop()
        if number not in needed:
            needed.add(number)
            left += named_lines(lines[number - 1])
    return sorted(needed)


def renumbered(line, places):
    """A line whose hints name lines by their new numbers."""
    if not isinstance(line, Learn):
        return line
    hints = [LineHint(places[h.line]) if isinstance(h, LineHint) else h for h in line.hints]
    return Learn(line.literals, hints)


def trimmed_lines(lines):
    """The needed lines of lines that can be trimmed, renumbered."""
    needed = needed_lines(lines)
    places = {number: place for place, number in enumerate(needed, 1)}
    return [renumbered(lines[number - 1], places) for number in needed]


def untrimmed_place(report):
    """The first section that can't be trimmed, with its line, or None."""
    if isinstance(report, Inconsistent):
        return None
    for part, section in (("true", report.on_true), ("false", report.on_false)):
        if isinstance(section, Refuted):
            line = untrimmed_line(section.lines)
            if line is not None:
                return Place(part, line)
    return None


def trimmed_section(section):
    """A section with the needed lines alone where it is refuted."""
    return Refuted(trimmed_lines(section.lines)) if isinstance(section, Refuted) else section


def trimmed_report(report):
    """A report that can be trimmed, with its refuted sections trimmed."""
    if isinstance(report, Inconsistent):
        return report
    return report._replace(
        on_true=trimmed_section(report.on_true), on_false=trimmed_section(report.on_false)
    )
