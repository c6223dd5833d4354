"""A second reading and a second audit of reports.

Run as: python3 reports.py FORMULA LOG REPORT [--conflicts N]

FORMULA, LOG and REPORT are files. N is the number of conflicts that an unknown
section must have spent, 200000 where it isn't given. The answer is one line.
`accepted`: each claim of the report holds. `refused report at line L`: line L
is the first with which no report goes on. `refused PART at line K`: that part
of the report is the first that doesn't hold. The command itself, with all its
ends, is audit.py.

A report claims of the admissible timings of the log: that there is none, by a
closed walk of bounds whose sum is negative; or of true and of false, that some
timing gives the formula that value, by the timing, or that none does, by a
derivation. Of a value that is unknown it claims nothing, and shows that the
search has spent its conflicts.

The module reads from top to bottom: reports, their texts, the test of each
part, the verdict. Lines of derivations are those of derivations.py; timings,
bounds and truth those of reference.py. It searches for nothing.
"""

import sys
from typing import NamedTuple, Union

sys.dont_write_bytecode = True  # leaves no compiled files beside the sources

import derivations
import formats
import reference
from derivations import Learn, NotInGrammar, SyntaxFault, Words

TITLE = b"skewcheck 1"
CONFLICTS = 200_000  # the number where none is given
CONFLICTS_MOST = 1_000_000
ACCEPTED = "accepted"


# Reports


class Witness(NamedTuple):
    """Some admissible timing gives the value: this one."""

    times: list


class Refuted(NamedTuple):
    """No admissible timing gives the value: these lines refute it."""

    lines: list


class Unknown(NamedTuple):
    """The value is left open: these lines are what the search has learned."""

    lines: list


Section = Union[Witness, Refuted, Unknown]


class Inconsistent(NamedTuple):
    """No timing is admissible: these bounds of the log can't all hold."""

    events: int
    steps: list


class Verdicts(NamedTuple):
    events: int
    on_true: Section
    on_false: Section


Report = Union[Inconsistent, Verdicts]


# Reports from texts


class Lines:
    """The lines of a text from first to last. Each ends with a newline."""

    def __init__(self, data):
        *self.left, self.rest = data.split(b"\n")
        self.left.reverse()
        self.taken = 0

    def take(self):
        """The next line. A last one without its newline is none."""
        self.taken += 1
        if not self.left:
            raise NotInGrammar
        return self.left.pop()

    def words(self):
        """The words of the next line."""
        return Words(self.take())

    def listed(self, count, read):
        """The next lines, that many, each read by the function from its words."""
        return [read_whole(self.words(), read) for _ in range(count)]


def read_report(data):
    """The report that the bytes spell, or the SyntaxFault of the first faulty line.

    Whether a line can follow is known from the lines before it alone, and all
    that can follow can be gone on with, so the first line that the reader
    doesn't take is the first with which no report begins.
    """
    lines = Lines(data)
    try:
        report = read_parts(lines)
        if lines.left or lines.rest:
            lines.take()
            raise NotInGrammar
        return report
    except NotInGrammar:
        return SyntaxFault(lines.taken)


def read_parts(lines):
    """The report that the lines begin with, up to its end."""
    if lines.take() != TITLE:
        raise NotInGrammar
    events = read_whole(lines.words(), lambda words: read_count(words, b"events"))
    words = lines.words()
    if words.left[-1] == b"inconsistent":
        count = read_whole(words, lambda words: read_count(words, b"inconsistent"))
        report = Inconsistent(events, lines.listed(count, read_bound_step))
    else:
        on_true = read_section(lines, words, b"true", events)
        on_false = read_section(lines, lines.words(), b"false", events)
        report = Verdicts(events, on_true, on_false)
    if lines.take() != b"end":
        raise NotInGrammar
    return report


def read_section(lines, words, value, events):
    """The section on a value: its first line is that of the words, the lines follow."""
    if words.take() != value:
        raise NotInGrammar
    form = words.take()
    if form == b"witness":
        words.end()
        return Witness(lines.listed(events, read_time))
    if form not in (b"refuted", b"unknown"):
        raise NotInGrammar
    count = read_whole(words, Words.number)
    shown = lines.listed(count, derivations.read_line)
    return Refuted(shown) if form == b"refuted" else Unknown(shown)


def read_whole(words, read):
    """What the function reads from words of which none is left then."""
    found = read(words)
    words.end()
    return found


def read_count(words, name):
    """The number after the word that names it."""
    if words.take() != name:
        raise NotInGrammar
    return words.number()


def read_time(words):
    """The next word, a time."""
    time = formats.signed_number(words.take(), formats.TIME_GREATEST)
    if time is None:
        raise NotInGrammar
    return time


def read_bound_step(words):
    """The next step, which is a bound of a log."""
    step = derivations.read_step(words)
    if step.kind not in derivations.LOG_STEPS:
        raise NotInGrammar
    return step


# Texts of reports


def report_text(report):
    """The text of a report."""
    head = b"%s\nevents %d\n" % (TITLE, report.events)
    return head + b"".join(part_texts(report)) + b"end\n"


def part_texts(report):
    """The texts of what stands between the first two lines of a report and its end."""
    if isinstance(report, Inconsistent):
        steps = [b" ".join(derivations.step_words(step)) for step in report.steps]
        return [b"inconsistent %d\n" % len(steps), *[step + b"\n" for step in steps]]
    return [section_text(b"true", report.on_true), section_text(b"false", report.on_false)]


def section_text(value, section):
    """The text of the section on a value."""
    if isinstance(section, Witness):
        return b"%s witness\n" % value + b"".join(b"%d\n" % time for time in section.times)
    form = b"refuted" if isinstance(section, Refuted) else b"unknown"
    head = b"%s %s %d\n" % (value, form, len(section.lines))
    return head + derivations.text_of(section.lines)


# The test of each part


class Place(NamedTuple):
    """A part of a report, and the number of a line or step in it, or 0."""

    part: str
    line: int


def first_faulty_place(log, formula, conflicts, report):
    """The first place at which a report doesn't hold, or None."""
    if report.events != len(log.rows):
        return Place("events", 0)
    if isinstance(report, Inconsistent):
        step = faulty_step(log, report.steps)
        return None if step is None else Place("inconsistent", step)
    for part, value, section in (("true", True, report.on_true), ("false", False, report.on_false)):
        line = faulty_line(log, formula, value, conflicts, section)
        if line is not None:
            return Place(part, line)
    return None


def faulty_step(log, steps):
    """The number of the step at which a closed walk of negative sum fails, or None.

    This is the first step that is no bound of the log or doesn't begin where
    the one before ends. Where the walk isn't closed or its sum isn't negative,
    it is the last one, and 0 where there is no step.
    """
    walk = []
    for place, bound in enumerate(walk_of(log, steps), start=1):
        if bound is None or walk and walk[-1].end != bound.start:
            return place
        walk.append(bound)
    if walk and walk[-1].end == walk[0].start and sum(bound.most for bound in walk) < 0:
        return None
    return len(steps)


def walk_of(log, steps):
    """The bounds of the log that steps are, None for a step that is no bound."""
    known = {(bound.kind, bound.event): bound for bound in reference.bounds(log)}
    return [known.get((step.kind, step.numbers[0])) for step in steps]


def faulty_line(log, formula, value, conflicts, section):
    """The number of the derivation's line at which a section fails, or None.

    It is 0 where the section fails as a whole.
    """
    if isinstance(section, Witness):
        return None if is_witness(log, formula, value, section.times) else 0
    problem = derivations.problem_of(log, formula, value)
    wrong = derivations.first_wrong(problem, section.lines)
    if wrong is not None:
        return wrong
    ends_empty = derivations.ends_empty(section.lines)
    if isinstance(section, Refuted):
        return None if ends_empty else 0
    has_spent = learned(section.lines) == conflicts
    return None if has_spent and not ends_empty else 0


def is_witness(log, formula, value, times):
    """Whether the log admits a timing and the formula has the value on it."""
    if reference.first_broken(log, times) is not None:
        return False
    return reference.truth(log, times, formula) == value


def learned(lines):
    """The number of Learn lines."""
    return sum(1 for line in lines if isinstance(line, Learn))


# The verdict


def audit(log, formula, conflicts, data):
    """The line that says whether the bytes are a report that is accepted."""
    return line_on(log, formula, conflicts, read_report(data))


def line_on(log, formula, conflicts, report):
    """The line on a report as it was read."""
    if isinstance(report, SyntaxFault):
        return f"refused report at line {report.line}"
    place = first_faulty_place(log, formula, conflicts, report)
    return ACCEPTED if place is None else f"refused {place.part} at line {place.line}"


def conflicts_number(text):
    """The number of conflicts that a word spells, or None."""
    return formats.number(text.encode(errors="replace"), CONFLICTS_MOST) or None


if __name__ == "__main__":
    import audit as command  # which reads this module by its name

    sys.exit(command.main(sys.argv[1:]))
