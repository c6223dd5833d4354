"""A second reading of what `tolerance` and `span` write, and of what makes it right.

`tolerance` tells the least number by which all skews of a log have to be
greater for some timing to give a formula a value. `span` tells the greatest
time from one row to another over the timings that give it. Both show a timing
that has the number, and lines that refute the value one step further: on the
log widened by one less, or on the log with the extra bound that the time is one
more. Where there is no number they show that the log has no timing, that no
timing gives the value, or what a search has learned until its conflicts were
spent.

The module reads from top to bottom: what is asked, answers, their texts, what
each of them has to show, and the numbers by going through all timings. Timings
and truth are those of reference.py, lines those of derivations.py, what spends
conflicts that of freshness.py. It searches for nothing.
"""

import sys
from typing import NamedTuple, Optional, Union

sys.dont_write_bytecode = True  # leaves no compiled files beside the sources

import derivations
import formats
import freshness
import meanings
import reference
import reports
from derivations import NotInGrammar
from differences import differences_of
from logs import Extra, Log, widened, with_extra
from reports import Refuted, Unknown, Witness

MAX_GREATEST = 10**18
EVENT_GREATEST = 2**32 - 1
DISTANCE_GREATEST = 10**19  # no two times that an answer may hold are as far apart
ATOMS_FEW = 13  # 3 to the number of more atoms is above any number of conflicts
WIDENINGS_MOST = 6  # below the least one that are gone through


# What is asked


class Widening(NamedTuple):
    """What `tolerance` is asked: the least widening up to a number with which some timing gives the value."""

    value: bool
    most: int

    word = b"tolerance"
    further = b"below"

    def events(self):
        """The rows that are asked for."""
        return ()

    def changed(self, log, number):
        """The log with all skews greater by a number."""
        return widened(log, number)

    def whole(self, log):
        """The log that has the most timings: the one with the greatest widening."""
        return widened(log, self.most)

    def is_in_range(self, number):
        """Whether an answer may have a number."""
        return 0 <= number <= self.most

    def has_number(self, number, _times):
        """Whether a timing that is admissible for the changed log shows the number."""
        return self.is_in_range(number)

    def next_better(self, number):
        """The number that is one step better, or None where there is none."""
        return number - 1 if number else None


class Distance(NamedTuple):
    """What `span` is asked: the greatest time from one row to another over the timings that give the value."""

    value: bool
    start: int
    end: int

    word = b"span"
    further = b"beyond"

    def events(self):
        """The rows that are asked for."""
        return self.start, self.end

    def changed(self, log, number):
        """The log with the bound that the time from the one row to the other is a number or more."""
        return with_extra(log, Extra(self.start, self.end, -number))

    def whole(self, log):
        """The log that has the most timings: the log itself."""
        return log

    def is_in_range(self, _number):
        """Whether an answer may have a number, which any may have that can be written."""
        return True

    def has_number(self, number, times):
        """Whether in a timing that is admissible for the changed log the time is just the number."""
        return times[self.end] - times[self.start] == number

    def next_better(self, number):
        """The number that is one step better."""
        return number + 1


Asked = Union[Widening, Distance]

VALUES = {"true": True, "false": False}


def asked_of(command, operands):
    """What the operands of a command ask, or None where they are no command; the formula and the log come last."""
    *told, _, _ = operands
    numbers = [formats.number(word.encode("utf-8", "surrogateescape"), MAX_GREATEST) for word in told[1:]]
    if told[0] not in VALUES or None in numbers:
        return None
    asked = (Widening if command == "tolerance" else Distance)(VALUES[told[0]], *numbers)
    if isinstance(asked, Distance) and (asked.start == asked.end or max(numbers) > EVENT_GREATEST):
        return None
    return asked


def value_word(asked):
    """The value that is asked for, as a word."""
    return b"true" if asked.value else b"false"


# Answers


class Best(NamedTuple):
    """The number, a timing that has it, and why no number is better; nothing is shown where none could be."""

    number: int
    times: list
    further: Optional[list]  # lines


class Never(NamedTuple):
    """No timing gives the value: these lines refute it."""

    lines: list


class Shut(NamedTuple):
    """No timing is admissible: these bounds of the log can't all hold."""

    steps: list


class Open(NamedTuple):
    """The search for a value on a log has spent its conflicts: the number of that log, and what was learned."""

    number: Optional[int]  # None for the log that nothing was asked of yet
    lines: list


Answer = Union[Best, Never, Shut, Open]


def status_of(answer):
    """The status that belongs to an answer."""
    return {Best: 0, Never: 1, Shut: 3, Open: 4}[type(answer)]


# Answers from texts, and texts of answers


def read_answer(asked, events, data):
    """The answer that the bytes spell, or the SyntaxFault of the first line that the reader doesn't take."""
    lines = reports.Lines(data)
    try:
        answer = read_parts(asked, events, lines)
        if lines.left or lines.rest:
            lines.take()
            raise NotInGrammar
        return answer
    except NotInGrammar:
        return derivations.SyntaxFault(lines.taken)


def read_parts(asked, events, lines):
    """The answer that the lines begin with."""
    words = lines.words()
    if words.left[-1] == b"inconsistent":
        count = reports.read_whole(words, lambda words: reports.read_count(words, b"inconsistent"))
        return Shut(lines.listed(count, reports.read_bound_step))
    if words.take() != asked.word:
        raise NotInGrammar
    found = read_found(asked, words)
    section = reports.read_section(lines, lines.words(), value_word(asked), events)
    answer = answer_of(found, section, lines, asked, events)
    if lines.take() != b"end":
        raise NotInGrammar
    return answer


def read_found(asked, words):
    """What the first line says after the command's word: that there is none, what is unknown, or a number."""
    word = words.take()
    number = None
    if word == b"unknown":
        if isinstance(asked, Widening) or words.left:
            number = read_number(asked, words.take())
        kind = Open
    else:
        kind = Never if word == b"none" else Best
        number = None if word == b"none" else read_number(asked, word)
    words.end()
    return kind, number


def read_number(asked, word):
    """A number that is told; only a distance has a sign."""
    if isinstance(asked, Widening):
        found = formats.number(word, MAX_GREATEST)
    else:
        found = formats.signed_number(word, DISTANCE_GREATEST)
    if found is None:
        raise NotInGrammar
    return found


def answer_of(found, section, lines, asked, events):
    """The answer with a first line and a section on the value; what is shown further is read."""
    kind, number = found
    if type(section) is not {Best: Witness, Never: Refuted, Open: Unknown}[kind]:
        raise NotInGrammar
    if kind is Never:
        return Never(section.lines)
    if kind is Open:
        return Open(number, section.lines)
    if asked.next_better(number) is None:
        return Best(number, section.times, None)
    further = reports.read_section(lines, lines.words(), asked.further, events)
    if not isinstance(further, Refuted):
        raise NotInGrammar
    return Best(number, section.times, further.lines)


def answer_text(asked, answer):
    """The text of an answer."""
    if isinstance(answer, Shut):
        steps = [b" ".join(derivations.step_words(step)) + b"\n" for step in answer.steps]
        return b"inconsistent %d\n" % len(steps) + b"".join(steps)
    sections = [reports.section_text(value_word(asked), section_of(answer))]
    if isinstance(answer, Best) and answer.further is not None:
        sections.append(reports.section_text(asked.further, Refuted(answer.further)))
    return b"%s %s\n" % (asked.word, b" ".join(told_words(answer))) + b"".join(sections) + b"end\n"


def section_of(answer):
    """The section on the value in the text of an answer."""
    if isinstance(answer, Best):
        return Witness(answer.times)
    return Refuted(answer.lines) if isinstance(answer, Never) else Unknown(answer.lines)


def told_words(answer):
    """The words after the command's in the first line of an answer."""
    if isinstance(answer, Never):
        return [b"none"]
    number = [] if answer.number is None else [b"%d" % answer.number]
    return number if isinstance(answer, Best) else [b"unknown", *number]


# What each answer has to show


class Question(NamedTuple):
    """What is asked of a log and a formula, and the conflicts that each search may take."""

    asked: Asked
    log: Log
    formula: formats.Tree
    conflicts: int

    def problem(self, log):
        """The problem to give the formula the value by a timing of a log."""
        return derivations.problem_of(log, self.formula, self.asked.value)

    def refutes(self, log, lines):
        """Whether lines refute the value on a log."""
        return derivations.verdict(self.problem(log), lines) == "refutes"


def unshown(question, answer):
    """What an answer fails to show, or nothing where it shows all that it claims."""
    asked = question.asked
    whole = asked.whole(question.log)
    if isinstance(answer, Shut):
        step = reports.faulty_step(whole, answer.steps)
        return "" if step is None else f"the steps fail at step {step}"
    if differences_of(whole) is None:
        return "no timing is admissible, and that isn't said"
    if isinstance(answer, Best):
        return unshown_best(question, answer)
    if isinstance(answer, Never):
        return "" if question.refutes(whole, answer.lines) else "the lines don't refute the value"
    return unshown_open(question, answer)


def unshown_best(question, answer):
    """What an answer with a number fails to show, or nothing."""
    asked, log = question.asked, question.log
    if not asked.is_in_range(answer.number):
        return "the number is out of range"
    if not reports.is_witness(asked.changed(log, answer.number), question.formula, asked.value, answer.times):
        return "the timing isn't admissible, or doesn't give the value"
    if not asked.has_number(answer.number, answer.times):
        return "the timing has another number"
    better = asked.next_better(answer.number)
    if better is not None and not question.refutes(asked.changed(log, better), answer.further):
        return f"the lines don't refute the value with {better}"
    return ""


def unshown_open(question, answer):
    """What an answer that leaves the number open fails to show, or nothing."""
    asked, log = question.asked, question.log
    if answer.number is not None:
        if not asked.is_in_range(answer.number):
            return "the number is out of range"
        log = asked.changed(log, answer.number)
        if differences_of(log) is None:
            return f"no timing is admissible with {answer.number}"
    problem = question.problem(log)
    rules = freshness.rules_of(problem)
    if len(rules.atoms) < ATOMS_FEW and question.conflicts >= 3 ** len(rules.atoms):
        return "so few atoms can't take so many conflicts"
    return freshness.complaint(problem, rules, answer.lines, question.conflicts)


# The numbers by going through all timings


def untrue(question, answer):
    """Which claim of an answer isn't true, where the timings are few enough to go through; else nothing."""
    if isinstance(answer, Open):
        return ""
    if isinstance(question.asked, Widening):
        return untrue_widening(question, answer)
    return untrue_distance(question, answer)


def values_on(question, number):
    """The values on the log widened by a number; None where its timings are too many."""
    return meanings.values_where_few(widened(question.log, number), question.formula)


def untrue_widening(question, answer):
    """Which claim on the least widening isn't true, or nothing."""
    value, most = question.asked
    if not isinstance(answer, Best):
        values = values_on(question, most)
        if values is None:
            return ""
        if isinstance(answer, Shut):
            return "some timing is admissible" if values else ""
        return f"the value is possible with {most}" if value in values else ""
    values = values_on(question, answer.number)
    if values is not None and value not in values:
        return f"the value isn't possible with {answer.number}"
    for number in range(max(0, answer.number - WIDENINGS_MOST), answer.number):
        if value in (values_on(question, number) or ()):
            return f"the value is possible with {number}"
    return ""


def untrue_distance(question, answer):
    """Which claim on the greatest distance isn't true, or nothing."""
    if meanings.values_where_few(question.log, question.formula) is None:
        return ""
    value, start, end = question.asked
    timings = list(meanings.admissible_timings(question.log))
    found = [
        times[end] - times[start] for times in timings if reference.truth(question.log, times, question.formula) == value
    ]
    if isinstance(answer, Shut):
        return "some timing is admissible" if timings else ""
    if isinstance(answer, Never):
        return "some timing gives the value" if found else ""
    greatest = max(found, default=None)
    return "" if answer.number == greatest else f"the greatest distance is {greatest}"


def complaint(question, output, status):
    """What is wrong with what a command wrote, or nothing."""
    answer = read_answer(question.asked, len(question.log.rows), output)
    if isinstance(answer, derivations.SyntaxFault):
        return f"no answer begins with the lines up to line {answer.line}"
    if status != status_of(answer):
        return f"the status of this answer is {status_of(answer)}"
    return untrue(question, answer) or unshown(question, answer)
