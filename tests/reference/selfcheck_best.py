"""Checks the second reading of tolerance and span against other ways, without the program.

Run as: python3 selfcheck_best.py [--seed S] [--cases N]
"""

import argparse
import collections
import random
import re
import sys
from pathlib import Path

sys.dont_write_bytecode = True  # leaves no compiled files beside the sources

import best_answers
import best_cases
import derivations
import generate_logs
import invent_best
import judge
import meanings
import program
from best_answers import Best, Open, Shut, Widening, answer_text, read_answer, status_of
from selfcheck import check, check_differences
from tables import number_of_cases

COMMANDS = ("tolerance", "span")
ROWS_MANY = 10  # rows of a log from which on no answer is made here


def check_fixed_cases(draw):
    """The answers written out by hand are right by the judge, and others aren't; where any will do, one is made here."""
    count = 0
    for case in best_cases.fixed_cases():
        wanted = program.answer(case.words, case.files)
        for output in case.outputs if case.pattern is None else made_outputs(draw, case, wanted):
            found = judge.complaint(case.words, case.files, output, case.status)
            check(not found, case, output, found)
            for status, other in ((case.status ^ 1, output), (case.status, output + b"\n")):
                check(judge.complaint(case.words, case.files, other, status), case, other)
            count += 1
    print(f"{count} answers of tolerance and span by hand")


def made_outputs(draw, case, wanted):
    """An answer made here to a case with a pattern; none where the timings are too many."""
    check(isinstance(wanted, program.Judged), case, wanted)
    question = judge.question_of(wanted)
    if len(question.log.rows) >= ROWS_MANY:
        return []
    if meanings.values_where_few(question.asked.whole(question.log), question.formula) is None:
        return []
    answer = invent_best.own_answer(draw, question)
    if case.status == 4:
        answer = invent_best.open_answer(question, 0 if isinstance(question.asked, Widening) else None)
    output = answer_text(question.asked, answer)
    check(re.fullmatch(case.pattern, output), case, output)
    return [output]


def check_widenings(question):
    """The widenings with which the value is possible go upward without a break; and differences grow as timings do."""
    value, most = question.asked
    possible = []
    for number in range(most + 1):
        log = question.asked.changed(question.log, number)
        possible.append(value in meanings.values(log, question.formula))
    check(possible == sorted(possible), question, possible)


def check_changed(question, answer):
    """The differences of the log with an extra bound, or widened, are those of its timings."""
    if isinstance(answer, Best):
        log = question.asked.changed(question.log, answer.number)
        check_differences(log, list(meanings.admissible_timings(log)))


def check_right(question, answer):
    """A right answer reads back, and nothing is found to be wrong with it."""
    text = answer_text(question.asked, answer)
    check(read_answer(question.asked, len(question.log.rows), text) == answer, question, text)
    found = best_answers.complaint(question, text, status_of(answer))
    check(not found, question, text, found)
    for status in {0, 1, 2, 3, 4, 5} - {status_of(answer)}:
        check(best_answers.complaint(question, text, status), question, text, status)


def check_wrong(draw, question, answer, counts):
    """Each wrong answer is found wrong, by what it shows alone and by the timings alone where it claims what isn't so."""
    for what, wrong in invent_best.wrong_answers(draw, question, answer):
        text = answer_text(question.asked, wrong)
        check(best_answers.complaint(question, text, status_of(wrong)), question, what, text)
        check(best_answers.unshown(question, wrong), question, what, text)
        if what in ("another number", "no number", "a number where there is none"):
            check(best_answers.untrue(question, wrong), question, what, text)
        counts[what] += 1
    other = question._replace(asked=question.asked._replace(value=not question.asked.value))
    check(best_answers.complaint(other, answer_text(question.asked, answer), status_of(answer)) or isinstance(answer, Shut),
          question, answer)


def check_broken(draw, question, answer, counts):
    """What is accepted of edited texts claims what all timings say, whatever was edited."""
    for text in invent_best.broken_texts(draw, question, answer):
        read = read_answer(question.asked, len(question.log.rows), text)
        if isinstance(read, derivations.SyntaxFault):
            counts["texts that are none"] += 1
            continue
        check(answer_text(question.asked, read) == text, text)
        accepted = not best_answers.unshown(question, read)
        counts["edited and accepted" if accepted else "edited and refused"] += 1
        if accepted and not isinstance(read, Open):
            check(type(read) is type(answer), question, text)
            check(getattr(read, "number", None) == getattr(answer, "number", None), question, text)


def check_answers(draw, command, cases):
    """Right answers are accepted, and wrong ones refused."""
    kinds, counts = collections.Counter(), collections.Counter()
    while sum(kinds.values()) < cases:
        question = invent_best.question_of(draw, command, draw.choice((1, 1, 2, 200_000)))
        if isinstance(question.asked, Widening):
            check_widenings(question)
        open_at = draw.randint(0, question.asked.most) if isinstance(question.asked, Widening) else None
        answers = [invent_best.own_answer(draw, question)]
        if question.conflicts < 10:
            answers.append(invent_best.open_answer(question, open_at))
        for answer in answers:
            if answer is None:
                kinds["given up"] += 1
                continue
            kinds[type(answer).__name__] += 1
            check_changed(question, answer)
            check_right(question, answer)
            check_wrong(draw, question, answer, counts)
            if not isinstance(answer, Open):
                check_broken(draw, question, answer, counts)
    print(f"{command}: " + ", ".join(f"{kinds[kind]} {kind}" for kind in sorted(kinds)))
    for what in sorted(counts):
        print(f"  {counts[what]} {what}")


def main():
    """Runs all checks."""
    parser = argparse.ArgumentParser(description="check the reading of tolerance and span without the programs")
    parser.add_argument("--seed", type=int, default=1)
    parser.add_argument("--cases", type=number_of_cases, default=300, help="number of answers of each command")
    arguments = parser.parse_args()
    generate_logs.second_share = generate_logs.third_share = 0.5
    draw = random.Random(arguments.seed)
    check_fixed_cases(draw)
    for command in COMMANDS:
        check_answers(draw, command, arguments.cases)
    print("all checks hold")


if __name__ == "__main__":
    sys.path.insert(0, str(Path(__file__).resolve().parents[1]))
    import ends

    ends.run(main)
