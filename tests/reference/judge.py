"""Says whether what the program wrote is a right answer.

Most answers leave no choice and are compared byte for byte. A timing, and a
list of steps or events that shows that there is none, may be any right one:
these are checked by adding up. A report is audited, and where a log has few
timings, all of them are gone through.
"""

import best_answers
import derivations
import formats
import meanings
import program
import reference
import reports
from reports import Inconsistent, Refuted, SyntaxFault, Unknown, Witness


def complaint(words, files, output, status):
    """What is wrong with an answer, or nothing where it is right."""
    wanted = program.answer(words, files)
    if isinstance(wanted, program.Exact):
        right = (status, output) == wanted
        return "" if right else "another status or other bytes are expected"
    if wanted.command == "check":
        return report_complaint(wanted, output, status)
    if wanted.asked is not None:
        return best_answers.complaint(question_of(wanted), output, status)
    if wanted.command == "order":
        return cycle_complaint(wanted.log, output, status)
    return times_complaint(wanted.log, output, status)


def question_of(wanted):
    """What is asked of a log and a formula where the best number is wanted."""
    return best_answers.Question(wanted.asked, wanted.log, wanted.formula, wanted.conflicts)


def expectation(words, files):
    """The right answer in words, for a reader."""
    wanted = program.answer(words, files)
    if isinstance(wanted, program.Exact):
        return f"status {wanted.status}, output {wanted.output!r}"
    if wanted.command == "check":
        return "a right report and its status, " + values_in_words(wanted.log, wanted.formula)
    if wanted.asked is not None:
        return f"a right answer and its status to {wanted.asked}"
    if wanted.command == "order":
        return "status 3, a cycle of events that are each directly before the next"
    return "status 0 and an admissible timing, or status 3 and bounds that can't all hold"


def lines_of(output):
    """The lines of an output, or None where its last line isn't ended."""
    *lines, last = output.split(b"\n")
    return None if last else lines


def whole_number(text):
    """A number of any size that an answer may hold, or None."""
    return formats.number(text, 10**40)


def times_complaint(log, output, status):
    """What is wrong with an answer of times, or nothing."""
    lines = lines_of(output)
    if lines is None:
        return "the last line has no newline"
    if status == 0:
        return timing_complaint(log, lines)
    if status == 3:
        return steps_complaint(log, lines)
    return "the status is neither 0 nor 3"


def timing_complaint(log, lines):
    """What is wrong with the lines of a timing, or nothing."""
    times = [formats.signed_number(line, 10**40) for line in lines]
    if None in times:
        return f"line {times.index(None) + 1} isn't a signed number"
    if len(times) != len(log.rows):
        return f"there are {len(times)} times for {len(log.rows)} events"
    broken = reference.first_broken(log, times)
    if broken:
        return f"the timing breaks {broken.kind.decode()} {broken.event}"
    if not reference.admissible(log, times):
        return "the timing isn't admissible"
    return ""


def counted_lines(lines, word):
    """The lines after a first line of a word and their number, or None."""
    first, *rest = lines or [b""]
    given, blank, count = first.partition(b" ")
    if given != word or not blank or whole_number(count) != len(rest):
        return None
    return rest or None


def steps_complaint(log, lines):
    """What is wrong with the steps that show that no timing is admissible, or nothing."""
    texts = counted_lines(lines, b"inconsistent")
    if texts is None:
        return "the first line doesn't count the steps"
    known = {b"%s %d" % (bound.kind, bound.event): bound for bound in reference.bounds(log)}
    for text in texts:
        if text not in known:
            return f"{text!r} is no bound of the log"
    steps = [known[text] for text in texts]
    for step, following in zip(steps, steps[1:] + steps[:1]):
        if step.end != following.start:
            return "the steps are no closed walk"
    if sum(step.most for step in steps) >= 0:
        return "the sum of the steps isn't negative"
    return twice_complaint(steps)


def twice_complaint(steps):
    """What is wrong with a walk that comes to a node twice, or nothing."""
    return "the walk visits a node twice" if len({step.start for step in steps}) < len(steps) else ""


def cycle_complaint(log, output, status):
    """What is wrong with a cycle of events, or nothing."""
    if status != 3:
        return "an event happens before itself, and the status isn't 3"
    lines = lines_of(output)
    texts = counted_lines(lines, b"cycle") if lines is not None else None
    if texts is None:
        return "the first line doesn't count the events"
    events = [whole_number(text) for text in texts]
    if any(event is None or event >= len(log.rows) for event in events):
        return "a line isn't an event of the log"
    if len(set(events)) < len(events):
        return "an event stands twice"
    pairs = reference.directly_before(log)
    for pair in zip(events, events[1:] + events[:1]):
        if pair not in pairs:
            return f"event {pair[0]} isn't directly before event {pair[1]}"
    return ""


# Reports


def report_complaint(wanted, output, status):
    """What is wrong with an answer of check, or nothing."""
    report = reports.read_report(output)
    if isinstance(report, SyntaxFault):
        return f"no report begins with the lines up to line {report.line}"
    values = meanings.values_where_few(wanted.log, wanted.formula)
    claimed = "" if values is None else claims_complaint(values, report)
    if claimed:
        return claimed
    place = reports.first_faulty_place(wanted.log, wanted.formula, wanted.conflicts, report)
    if place is not None:
        return f"the report fails in its part {place.part} at line {place.line}"
    if status != status_of(report):
        return f"the status of this report is {status_of(report)}"
    if isinstance(report, Inconsistent):
        return twice_complaint(reports.walk_of(wanted.log, report.steps))
    return verdicts_complaint(wanted.conflicts, report)


def status_of(report):
    """The status that belongs to a report with a witness or a walk."""
    if isinstance(report, Inconsistent):
        return 3
    if isinstance(report.on_true, Unknown) or isinstance(report.on_false, Unknown):
        return 4
    if isinstance(report.on_false, Witness):
        return 2 if isinstance(report.on_true, Witness) else 1
    return 0


def verdicts_complaint(conflicts, report):
    """What check may not write although an audit accepts it, or nothing."""
    sections = (report.on_true, report.on_false)
    if not any(isinstance(section, Witness) for section in sections):
        return "no section is a witness"
    for section in sections:
        if isinstance(section, Refuted) and conflicts_of(section.lines) >= conflicts:
            return "a refuted section has as many Learn lines as there may be conflicts"
        if not isinstance(section, Witness) and len(section.lines) > 2 * conflicts:
            return "a section has more than twice as many lines as there may be conflicts"
    return ""


def conflicts_of(lines):
    """The number of Learn lines that aren't empty."""
    return reports.learned([line for line in lines if derivations.clause_of_line(line)])


def values_in_words(log, formula):
    """The values of a formula, for a reader."""
    values = meanings.values_where_few(log, formula)
    if values is None:
        return "the timings are too many to go through"
    if not values:
        return "no timing is admissible"
    return "the values are " + " and ".join(str(value).lower() for value in sorted(values))


def claims_complaint(values, report):
    """Which claim of a report isn't true, or nothing; the values are those in all timings."""
    if isinstance(report, Inconsistent):
        return "some timing is admissible" if values else ""
    for value, section in ((True, report.on_true), (False, report.on_false)):
        if isinstance(section, Witness) and value not in values:
            return f"the value {value} is claimed, and no timing gives it"
        if isinstance(section, Refuted) and value in values:
            return f"the value {value} is excluded, and some timing gives it"
    return ""
