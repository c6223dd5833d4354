"""Checks what the reference says of reports and words against other ways, without the program.

Run as: python3 selfcheck_reports.py [--seed S]
"""

import argparse
import collections
import itertools
import random
import re
import sys
from pathlib import Path

sys.dont_write_bytecode = True  # leaves no compiled files beside the sources

import check_cases
import derivations
import formats
import generate_logs
import invent
import invent_reports
import judge
import logs
import meanings
import program
import pulse_cases
import reference
import reports
import second_cases
import third_cases
from derivations import Step
from invent_reports import Question
from reports import Inconsistent, Refuted, SyntaxFault, Unknown, Verdicts, Witness
from selfcheck import check

ROWS_MANY = 64  # rows of a log from which on no report is made here


# Fixed cases


def check_fixed_cases(draw):
    """The answers written out by hand are right by the judge, and a few others aren't.

    Where any right report will do, one is made by the search of invent.py.
    """
    count = 0
    for case in itertools.chain(
        check_cases.fixed_cases(), second_cases.checks(), second_cases.audits(), pulse_cases.fixed_cases(),
        third_cases.checks(), third_cases.audits(),
    ):
        outputs = case.outputs if case.pattern is None else own_outputs(draw, case)
        for output in outputs:
            found = judge.complaint(case.words, case.files, output, case.status)
            check(not found, case, output, found)
            for status, other in ((case.status ^ 1, output), (case.status, output + b"\n")):
                check(judge.complaint(case.words, case.files, other, status), case, other)
            count += 1
    print(f"{count} answers of check, audit and trim by hand")


def own_outputs(draw, case):
    """A right report for a fixed case, made here; none where it takes too long.

    None either where few conflicts are allowed: the search here may need more.
    """
    wanted = program.answer(case.words, case.files)
    check(isinstance(wanted, program.Judged), case, wanted)
    if len(wanted.log.rows) >= ROWS_MANY or wanted.conflicts < 5:
        return []
    formula_name = program.command_of(case.words).operands[0]
    question = Question(wanted.log, case.files[formula_name])
    report = invent_reports.whole_report(draw, question, wanted.conflicts)
    output = reports.report_text(report)
    check(re.fullmatch(case.pattern, output), case, output)
    return [output]


# Faulty formulas and logs


def check_faults():
    """What is said of faulty formulas and logs, which there is no report on."""
    host = b"kind,host,time,name\nhost,a,1,0\n"
    row = host + b"set,a,1,p\n"
    for formula, log, wanted in (
        (b"a.p", row, None),
        (b"true", row, None),
        (b"a.p &", row, "formula fault 2 at byte 5"),
        (b"a.p &", host, "formula fault 2 at byte 5"),
        (b"b.p", host, "log fault 11"),
        (b"b.p", row + b"set,a,1.5,p\n", "log fault 7 at record 4"),
        (b"F a.p & b.q & c.r", row, "the host b of the formula, at byte 8, isn't in the log"),
    ):
        found = derivations.what_is_wrong(formats.read_formula(formula), logs.read_log(log))
        check(found == wanted, formula, log, found, wanted)


# Words


def check_words():
    """The commands that short lists of words are, by another reading."""
    alphabet = ["f", "-", "--", "-x", "", "5", "0", "--conflicts", "--conflicts=7", "--conflicts="]
    commands = 0
    for name in ("check", "order"):
        for count in range(6):
            for rest in itertools.product(alphabet, repeat=count):
                wanted, found = command_by_roles(name, rest), program.command_of([name, *rest])
                check(wanted == found, name, rest, wanted, found)
                commands += found is not None
    check(program.command_of([]) == program.command_of(["times", "-"]))
    print(f"{commands} lists of words that are commands")


def command_by_roles(name, words):
    """The command of the words after a name, by the role of each word; or None."""
    roles = []
    for place, word in enumerate(words):
        if "--" in words[:place]:
            roles.append("operand")
        elif roles and roles[-1] == "option before its value":
            roles.append("value")
        elif word == "--":
            roles.append("dashes")
        elif word == "--conflicts":
            roles.append("option before its value")
        elif word == "--conflicts=7":
            roles.append("option with its value")
        elif word in ("-x", "--conflicts="):
            return None
        else:
            roles.append("operand")
    values = [word for word, role in zip(words, roles) if role == "value"]
    operands = [word for word, role in zip(words, roles) if role == "operand"]
    options = [role for role in roles if role.startswith("option")]
    if roles[-1:] == ["option before its value"] or any(value != "5" for value in values):
        return None
    if "" in operands or (name, len(operands), len(options)) not in (
        ("check", 2, 0), ("check", 2, 1), ("order", 1, 0)
    ):
        return None
    conflicts = 200_000 if not options else 5 if values else 7
    return program.Command(name, operands, conflicts)


# Texts


def all_reports():
    """All reports that some lines spell, each as its lines."""
    for events in (0, 1):
        head = [b"skewcheck 1", b"events %d" % events]
        times = [b"7"] * events
        yield [*head, b"inconsistent 0", b"end"]
        yield [*head, b"inconsistent 1", b"low 0", b"end"]
        on_true = (
            [b"true witness", *times], [b"true refuted 0"], [b"true unknown 1", b"learn 0 0"]
        )
        on_false = (
            [b"false witness", *times], [b"false refuted 1", b"learn 0 0"], [b"false unknown 0"]
        )
        for true_section, false_section in itertools.product(on_true, on_false):
            yield [*head, *true_section, *false_section, b"end"]


def check_places():
    """The first faulty lines of texts that begin well, from a list of all beginnings."""
    whole = {tuple(report) for report in all_reports()}
    starts = {report[:length] for report in whole for length in range(len(report) + 1)}
    known = sorted({line for report in whole for line in report})
    loose = [*known, b"", b"end ", b"order 0 1 2", b"events 00", b"true witness 1", b"-0"]
    count = 0
    for start in starts:
        for more in itertools.chain([()], *(itertools.product(loose, repeat=n) for n in (1, 2))):
            lines = start + more
            wanted = next((n for n in range(1, len(lines) + 1) if lines[:n] not in starts), None)
            is_whole = lines in whole
            ended = b"".join(line + b"\n" for line in lines)
            check(place_of(ended) == (wanted or (None if is_whole else len(lines) + 1)), ended)
            if lines and lines[-1]:
                check(place_of(ended[:-1]) == min(wanted or len(lines), len(lines)), ended[:-1])
            count += 2
    print(f"{count} texts of lines, of them {len(whole)} reports")


def place_of(text):
    """The first faulty line of a text, or None where it is a report."""
    report = reports.read_report(text)
    return report.line if isinstance(report, SyntaxFault) else None


# Audits


def check_audits(draw):
    """Right reports are accepted, and of right and broken ones only such as claim what is true."""
    answers = collections.Counter()
    while sum(answers.values()) < 1500:
        question = invent_reports.some_question(draw)
        formula = question.formula()
        values = meanings.values(question.log, formula)
        report, conflicts = invent_reports.right_report(draw, question)
        text = reports.report_text(report)
        check(reports.read_report(text) == report, text)
        line = reports.audit(question.log, formula, conflicts, text)
        check(line == "accepted", question, conflicts, text, line)
        texts = [invent_reports.broken_text(draw, question, report) for _ in range(12)]
        for other in [text, *texts]:
            line = reports.audit(question.log, formula, conflicts, other)
            answers[" ".join(line.split()[:2])] += 1
            read = reports.read_report(other)
            if isinstance(read, SyntaxFault):
                check(line == f"refused report at line {read.line}", other, line)
                continue
            check(reports.report_text(read) == other, other)
            claimed = judge.claims_complaint(values, read)
            check(line != "accepted" or not claimed, question, other, claimed)
            check_refusal(question, conflicts, read, line)
    print("audits: " + ", ".join(f"{answers[line]} {line}" for line in sorted(answers)))


def check_refusal(question, conflicts, report, line):
    """The line on a report is the first that its parts, judged one by one, give."""
    wanted = "accepted"
    for part, place in reversed(list(faulty_parts(question, conflicts, report))):
        wanted = f"refused {part} at line {place}"
    check(line == wanted, question, conflicts, report, line, wanted)


def faulty_parts(question, conflicts, report):
    """All parts of a report that fail, each with its place."""
    events = len(question.log.rows)
    if report.events != events:
        yield "events", 0
    elif isinstance(report, Inconsistent):
        place = step_by_beginnings(question.log, report.steps)
        if place is not None:
            yield "inconsistent", place
    else:
        for value, section in ((True, report.on_true), (False, report.on_false)):
            problem = question.problem(value)
            place = section_place(problem, conflicts, section)
            if place is not None:
                yield str(value).lower(), place


def section_place(problem, conflicts, section):
    """The place at which a section fails, from the verdict on the text of its lines; or None."""
    if isinstance(section, Witness):
        times = section.times
        is_right = times in meanings.admissible_timings(problem.log)
        return None if is_right and meanings.World(problem, times).gives_value() else 0
    text = derivations.text_of(section.lines)
    verdict = derivations.answer(problem, text)
    if verdict.startswith("wrong "):
        return int(verdict.removeprefix("wrong "))
    if isinstance(section, Refuted):
        return None if verdict == "refutes" else 0
    count = sum(line.startswith(b"learn ") for line in text.splitlines())
    return None if verdict == "derives" and count == conflicts else 0


def step_by_beginnings(log, steps):
    """The place at which a closed walk of negative sum fails, or None."""
    ends = {(bound.kind, (bound.event,)): bound for bound in reference.bounds(log)}

    def is_walk(part):
        if any(tuple(step) not in ends for step in part):
            return False
        bounds = [ends[tuple(step)] for step in part]
        return all(one.end == other.start for one, other in zip(bounds, bounds[1:]))

    for length in range(1, len(steps) + 1):
        if not is_walk(steps[:length]):
            return length
    is_closed = bool(steps) and is_walk([*steps, steps[0]])
    total = sum(ends[tuple(step)].most for step in steps)
    return None if is_closed and total < 0 else len(steps)


def check_walks(draw):
    """The places of faulty steps in walks by chance over the bounds of logs, most of them shut."""
    places = collections.Counter()
    while sum(places.values()) < 6000:
        log = invent_reports.some_question(draw).log
        known = [edge.step for edge in invent.bound_edges(log)]
        loose = [*known, *(Step(kind, (0,)) for kind in (b"rise", b"under", b"over", b"extra")), Step(b"low", (len(log.rows),))]
        right = invent.find_negative_walk(invent.bound_edges(log))
        for length in (0, 1, 2, 2, 3, 4):
            steps = draw.choices(loose, k=length)
            if right and draw.random() < 0.7:
                place = draw.randrange(len(right))
                steps = (right[place:] + right[:place]) * 2 + steps
                steps = steps[: draw.choice((len(right), len(right), 2 * len(right), len(steps)))]
            found = reports.faulty_step(log, steps)
            check(found == step_by_beginnings(log, steps), log, steps, found)
            places["right" if found is None else "wrong"] += 1
    print(f"walks: {places['right']} right, {places['wrong']} wrong")


# The judge of check


def check_claims():
    """Of which values each section says what is true, by hand."""
    neither, true, false, both = set(), {True}, {False}, {True, False}
    sound = [
        (Inconsistent(1, []), [neither]),
        (Verdicts(1, Witness([]), Refuted([])), [true]),
        (Verdicts(1, Refuted([]), Witness([])), [false]),
        (Verdicts(1, Witness([]), Witness([])), [both]),
        (Verdicts(1, Refuted([]), Refuted([])), [neither]),
        (Verdicts(1, Witness([]), Unknown([])), [true, both]),
        (Verdicts(1, Unknown([]), Witness([])), [false, both]),
        (Verdicts(1, Refuted([]), Unknown([])), [neither, false]),
        (Verdicts(1, Unknown([]), Refuted([])), [neither, true]),
        (Verdicts(1, Unknown([]), Unknown([])), [neither, true, false, both]),
    ]
    for report, fitting in sound:
        for values in (neither, true, false, both):
            found = judge.claims_complaint(values, report)
            check((found == "") == (values in fitting), report, values, found)


def check_judge(draw):
    """Reports that check may write are judged right, and others wrong."""
    statuses = collections.Counter()
    while sum(statuses.values()) < 150:
        question = invent_reports.some_question(draw)
        conflicts = draw.choice((1, 2, 3, 5, 200_000))
        report = invent_reports.whole_report(draw, question, conflicts)
        if has_many_lines(report, conflicts):
            continue
        wanted = program.Judged("check", question.log, question.formula(), conflicts)
        status = judge.status_of(report)
        check(not complaint(wanted, report, status), wanted, report)
        for other in {0, 1, 2, 3, 4, 5, 70} - {status}:
            check(complaint(wanted, report, other), wanted, report, other)
        statuses[status] += 1
        if isinstance(report, Inconsistent):
            check_shut(wanted, report)
        else:
            check_verdicts(draw, question, wanted, report)
    print("reports of check: " + ", ".join(f"{statuses[n]} with {n}" for n in sorted(statuses)))


def has_many_lines(report, conflicts):
    """Whether a section has more than twice as many lines as there may be conflicts."""
    if isinstance(report, Inconsistent):
        return False
    sections = [section for section in (report.on_true, report.on_false) if not isinstance(section, Witness)]
    return any(len(section.lines) > 2 * conflicts for section in sections)


def complaint(wanted, report, status):
    """What the judge says of a report with a status."""
    return judge.report_complaint(wanted, reports.report_text(report), status)


def check_cycles():
    """A cycle of events is judged right where each is directly before the next, and none stands twice."""
    log = logs.read_log(b"kind,host,time,name\nhost,a,0,0\nhost,b,0,0\nrecv,a,1,m\nsend,a,2,n\nrecv,b,1,n\nsend,b,2,m\n")
    for events, is_right in (
        ((0, 1, 2, 3), True), ((2, 3, 0, 1), True), ((0, 1, 2), False), ((1, 0, 3, 2), False), ((0, 1, 2, 4), False),
        ((0, 1, 2, 3, 0, 1, 2, 3), False), ((), False),
    ):
        output = b"cycle %d\n" % len(events) + b"".join(b"%d\n" % event for event in events)
        found = judge.cycle_complaint(log, output, 3)
        check(bool(found) != is_right, events, found)
        check(judge.cycle_complaint(log, output, 0), events)


def check_shut(wanted, report):
    """Both values refuted aren't what check may write of a log that admits no timing, nor a walk that goes round twice."""
    twice = report._replace(steps=[*report.steps, *report.steps])
    check(reports.first_faulty_place(wanted.log, wanted.formula, wanted.conflicts, twice) is None, wanted, twice)
    check("twice" in complaint(wanted, twice, 3), wanted, twice)
    refuted = Refuted([derivations.Cycle(report.steps)])
    both = Verdicts(report.events, refuted, refuted)
    check(reports.first_faulty_place(wanted.log, wanted.formula, wanted.conflicts, both) is None, wanted, both)
    for status in range(5):
        check(complaint(wanted, both, status), wanted, both)
        check(complaint(wanted, report._replace(steps=[]), status), wanted)


def check_verdicts(draw, question, wanted, report):
    """Sections that claim less, other values, or another number of conflicts are judged wrong."""
    conflicts = wanted.conflicts
    left_open = [
        invent_reports.left_open(draw, question.problem(value), min(conflicts, 5))
        for value in (True, False)
    ]
    few = wanted._replace(conflicts=min(conflicts, 5))
    neither = Verdicts(report.events, *left_open)
    check(reports.first_faulty_place(few.log, few.formula, few.conflicts, neither) is None, few, neither)
    check(complaint(few, neither, 4), few, neither)
    for value, part in ((True, "on_true"), (False, "on_false")):
        section = getattr(report, part)
        if isinstance(section, Witness):
            refuted = report._replace(**{part: Refuted([])})
            found = complaint(wanted, refuted, judge.status_of(refuted))
            check("some timing gives it" in found, wanted, refuted, found)
            continue
        exchanged = report._replace(on_true=report.on_false, on_false=report.on_true)
        check(complaint(wanted, exchanged, judge.status_of(exchanged)), wanted, exchanged)
        form = Unknown if isinstance(section, Refuted) else Refuted
        other = report._replace(**{part: form(section.lines)})
        check(complaint(wanted, other, judge.status_of(other)), wanted, other)
        learned = judge.conflicts_of(section.lines)
        for count in {learned, learned + 1} - {0}:
            found = complaint(wanted._replace(conflicts=count), report, judge.status_of(report))
            is_right = (count > learned) == isinstance(section, Refuted) and len(section.lines) <= 2 * count
            check(bool(found) != is_right, wanted, report, count, found)


def main():
    """Runs all checks."""
    parser = argparse.ArgumentParser(description="check the reference's reading of reports")
    parser.add_argument("--seed", type=int, default=1)
    draw = random.Random(parser.parse_args().seed)
    generate_logs.second_share = generate_logs.third_share = 0.4
    check_fixed_cases(draw)
    check_faults()
    check_words()
    check_places()
    check_walks(draw)
    check_claims()
    check_audits(draw)
    check_judge(draw)
    check_cycles()
    print("all checks hold")


if __name__ == "__main__":
    sys.path.insert(0, str(Path(__file__).resolve().parents[1]))
    import ends

    ends.run(main)
