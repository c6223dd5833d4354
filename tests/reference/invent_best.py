"""Makes cases of tolerance and span: right answers by going through timings and by a search of its own, and wrong ones."""

import derivations
import invent
import invent_reports
import logs
import meanings
import reference
import reports
import spend
from best_answers import Best, Distance, Never, Open, Question, Shut, Widening, answer_text
from derivations import Cycle
from generate import Case, drop_file
from generate_logs import chance
from reports import Refuted

WIDENINGS = (0, 1, 1, 2, 2, 3, 3, 4, 7, 30, 10**18)  # the greatest that are asked for
SPREADS = (10, 1000, 10**9, 10**15, 10**17)


# Questions


def some_question(draw, command):
    """What is asked of a small log, whose clocks are mostly better where skews are to grow, and of a formula."""
    question = invent_reports.some_question(draw)
    while command == "span" and len(question.log.rows) < 2:
        question = invent_reports.some_question(draw)
    if command == "tolerance" and chance(draw, 0.6):
        question = question._replace(log=steadied(question.log))
    if chance(draw, 0.15):
        question = question._replace(log=spread(question.log, draw.choice(SPREADS)))
    return question, some_asked(draw, command, question.log)


def some_asked(draw, command, log):
    """What is asked of a log."""
    value = chance(draw, 0.5)
    if command == "tolerance":
        return Widening(value, draw.choice(WIDENINGS))
    return Distance(value, *draw.sample(range(len(log.rows)), 2))


def steadied(log):
    """The log whose clocks are never off."""
    hosts, resyncs = ([each._replace(skew=0) for each in given] for given in (log.hosts, log.resyncs))
    return log._replace(hosts=hosts, resyncs=resyncs)


def spread(log, factor):
    """The log whose rows are further apart by a factor, from its first row on, as far as a file can tell; and the bounds
    between them are wider by it."""
    base = log.rows[0].local
    rows = [row._replace(local=base + (row.local - base) * factor) for row in log.rows]
    near = [row if abs(row.local) <= logs.LOCAL_GREATEST else row._replace(local=base) for row in rows]
    wide = [extra._replace(most=extra.most * factor) for extra in log.extras]
    extras = [extra for extra in wide if abs(extra.most) <= logs.APART_GREATEST]
    return log._replace(rows=near, extras=extras)


# Cases


def words_of_asked(command, asked):
    """The words of a command before its files."""
    value = "true" if asked.value else "false"
    return [command, value, *(str(number) for number in asked[1:])]


def best_case(draw, command):
    """A case of a command, seldom with few conflicts, a fault of a file, or a row that there isn't."""
    question, asked = some_question(draw, command)
    conflicts = draw.choice((1, 1, 2, 3, 1000, *[reports.CONFLICTS] * 12))
    if command == "span" and chance(draw, 0.03):
        asked = asked._replace(end=len(question.log.rows) + draw.choice((0, 1, 7)))
    files = invent_reports.small_files(draw, question)
    drop_file(draw, files)
    command, *told = words_of_asked(command, asked)
    return Case(invent_reports.words_of(draw, command, invent_reports.option_of(draw, conflicts), [*told, "f", "l"]), files)


# Right answers


def own_answer(draw, question, patience=2000):
    """A right answer, or None where the search gives up; the timings of the log must be few."""
    whole = question.asked.whole(question.log)
    steps = invent.find_negative_walk(invent.bound_edges(whole))
    if steps:
        return Shut(steps)
    if isinstance(question.asked, Widening):
        found = least_widening(question)
    else:
        found = greatest_distance(question)
    if found is None:
        lines = refutation(draw, question.problem(whole), patience)
        return lines and Never(lines)
    number, times = found
    better = question.asked.next_better(number)
    if better is None:
        return Best(number, times, None)
    lines = refutation(draw, question.problem(question.asked.changed(question.log, better)), patience)
    return lines and Best(number, times, lines)


def giving_timings(question, log):
    """The admissible timings of a log that give the formula the value."""
    for times in meanings.admissible_timings(log):
        if reference.truth(log, times, question.formula) == question.asked.value:
            yield times


def least_widening(question):
    """The least widening with which some timing gives the value, and such a timing; None where there is none."""
    for number in range(question.asked.most + 1):
        times = next(giving_timings(question, logs.widened(question.log, number)), None)
        if times is not None:
            return number, times
    return None


def greatest_distance(question):
    """The greatest distance in a timing that gives the value, and such a timing; None where there is none."""
    _, start, end = question.asked
    found = [(times[end] - times[start], times) for times in giving_timings(question, question.log)]
    return max(found, default=None)


def refutation(draw, problem, patience):
    """Lines that refute a value, or None where the search gives up."""
    section = invent_reports.decided(draw, problem, patience)
    return section.lines if isinstance(section, Refuted) else None


def open_answer(question, number):
    """An answer that leaves the number open, by a search on the log of a number; None where it ends before."""
    log = question.log if number is None else question.asked.changed(question.log, number)
    if invent.find_negative_walk(invent.bound_edges(log)):
        return None
    try:
        return Open(number, spend.Spender(question.problem(log)).spend(question.conflicts))
    except (spend.Model, spend.Refuted):
        return None


# Wrong answers


def wrong_answers(draw, question, answer):
    """Answers that are wrong whatever lines they show, each with what is wrong; the given one is right."""
    if isinstance(answer, Best):
        yield from wrong_numbers(draw, question, answer)
    if isinstance(answer, Never):
        times = next(meanings.admissible_timings(question.asked.whole(question.log)))
        yield "a number where there is none", best_of(question, 0, times, answer.lines)
        yield "the last line left out", Never(answer.lines[:-1])
        yield "steps where timings are admissible", Shut(some_steps(draw, question))
        yield "lines that refute, as what is open", Open(0, answer.lines)
    if isinstance(answer, Shut):
        yield "a walk that isn't closed", Shut(answer.steps[:-1])
        yield "a refuted value where no timing is admissible", Never([Cycle(answer.steps)])
        yield "a timing where none is admissible", best_of(question, 0, [0] * len(question.log.rows), [Cycle(answer.steps)])
    if isinstance(answer, Open):
        yield "a line too few", answer._replace(lines=answer.lines[:-1])
        yield "a line twice", answer._replace(lines=[*answer.lines, answer.lines[-1]])
        yield "lines that don't refute", Never(answer.lines)


def wrong_numbers(draw, question, answer):
    """Wrong answers in place of one that has a number."""
    asked, log = question.asked, question.log
    lines = answer.further or []
    for number in {answer.number + 1, answer.number + 2, answer.number - 1, answer.number * 2 + 3, asked[1] + 1}:
        if number != answer.number and (number >= 0 or isinstance(asked, Distance)):
            yield "another number", best_of(question, number, answer.times, lines)
    yield "no number", Never(lines)
    yield "steps where timings are admissible", Shut(some_steps(draw, question))
    yield "lines that refute, as what is open", Open(answer.number, lines)
    if answer.further:
        yield "the last line left out", answer._replace(further=answer.further[:-1])
        yield "no lines", answer._replace(further=[])
    for times in other_timings(draw, question, asked.changed(log, answer.number)):
        yield "a timing that doesn't show the number", answer._replace(times=times)


def best_of(question, number, times, lines):
    """The answer with a number that shows as much as is asked of it."""
    return Best(number, times, None if question.asked.next_better(number) is None else lines)


def other_timings(draw, question, log):
    """Some timing of a log that doesn't give the value, and one that isn't admissible."""
    timings = list(meanings.admissible_timings(log))
    others = [times for times in timings if reference.truth(log, times, question.formula) != question.asked.value]
    if others:
        yield draw.choice(others)
    first, *rest = draw.choice(timings)
    yield [first + 2 * reference.skew_of(log, 0) + 1, *rest]


def some_steps(draw, question):
    """Some bounds of the log."""
    return [edge.step for edge in draw.sample(invent.bound_edges(question.log), 2)]


def broken_texts(draw, question, answer):
    """Texts of an answer after an edit of a line, of its derivation or of its order; some are still right."""
    right = answer_text(question.asked, answer)
    for _ in range(6):
        yield draw.choice(invent_reports.TEXT_EDITS)(draw, right)
    lines = answer.further if isinstance(answer, Best) else getattr(answer, "lines", None)
    for _ in range(6 if lines else 0):
        edited = derivations.read_lines(invent_reports.edits.broken_text(draw, question.problem(question.log), lines))
        if isinstance(edited, list):
            part = "further" if isinstance(answer, Best) else "lines"
            yield answer_text(question.asked, answer._replace(**{part: edited}))


def question_of(draw, command, conflicts):
    """A question whose timings are few, with so many conflicts."""
    while True:
        small, asked = some_question(draw, command)
        if meanings.values_where_few(asked.whole(small.log), small.formula()) is not None:
            return Question(asked, small.log, small.formula(), conflicts)
