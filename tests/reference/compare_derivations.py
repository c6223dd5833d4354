"""Compares the built program logic_table with the second checker of derivations.

Run as: python3 compare_derivations.py PROGRAM [--cases N] [--seed S]

The program answers tables of derivations, a section of what it takes. They hold the derivations whose
answers are written out by hand, and N that are made by chance, of which most
are broken by an edit. The first difference is printed as a table of its own,
ready to copy, and the end is 1.
"""

import os
import random
import sys
from pathlib import Path
from typing import NamedTuple

sys.dont_write_bytecode = True  # leaves no compiled files beside the sources

import derivation_cases
import derivations
import edits
import generate_logs
import invent
import pulse_cases
import second_cases
import third_cases
from tables import answer_lines, print_table, read_log_arguments, table_of

SECTION = "derivations"  # of the tables
TABLE_MOST = 250_000  # bytes of one table, well below what the program takes
EDITS = 20  # broken derivations for each right one


class Question(NamedTuple):
    title: str
    head: bytes  # the formula, the log and the value as the table has them
    lines: bytes  # the text of a derivation
    answer: str

    def table(self):
        """The lines of a table after those of the head."""
        *ended, rest = self.lines.split(b"\n")
        last = b"/%s\n" % rest if rest else b""
        return b"".join(b">%s\n" % line for line in ended) + last + b"?%s\n" % self.title.encode()


def head_of(log, formula, value):
    """The lines of a table that begin a case."""
    lines = [b"=" + formula, *[b"|" + line for line in log.splitlines()]]
    return b"".join(line + b"\n" for line in lines) + (b"+\n" if value else b"")


def fixed_questions():
    """The derivations with answers that are written out by hand."""
    known = [*derivation_cases.fixed_cases()]
    if generate_logs.second_share:
        known += [*second_cases.fixed_derivations(), *pulse_cases.fixed_derivations()]
    if generate_logs.third_share:
        known += third_cases.fixed_derivations()
    for place, case in enumerate(known):
        head = head_of(case.log, case.formula, case.value)
        yield Question(f"fixed case {place}", head, case.lines, case.answer)


def random_questions(seed, count):
    """Derivations by chance, some right and most of them broken."""
    asked, place = 0, 0
    while asked < count:
        draw = random.Random(f"{seed} {place}")
        log, formula, problem = invent.some_problem(draw)
        right = invent.right_lines(invent.Search(draw, problem))
        texts = [derivations.text_of(right)]
        while len(texts) < min(EDITS + 1, count - asked):
            texts.append(edits.broken_text(draw, problem, right))
        head = head_of(log, formula, problem.value)
        for number, text in enumerate(texts):
            title = f"derivation {number} of problem {place} of seed {seed}"
            yield Question(title, head, text, derivations.answer(problem, text))
        asked += len(texts)
        place += 1


def tables(questions):
    """The questions in tables: each the bytes, and the questions that it asks."""
    table, asked, head, size = [], [], None, 0
    for question in questions:
        lines = question.table()
        if asked and size + len(question.head) + len(lines) > TABLE_MOST:
            yield b"".join(table), asked
            table, asked, head, size = [], [], None, 0
        if question.head != head:
            table.append(question.head)
            size += len(question.head)
            head = question.head
        table.append(lines)
        size += len(lines)
        asked.append(question)
    if asked:
        yield b"".join(table), asked


def answers_of(program, table):
    """The answers of the program to a table, of which there may be too few."""
    lines = answer_lines(program, table_of(SECTION, table))
    return [line for line in lines if line[:1] not in ("=", "?")]


def compare_all(program, questions):
    """How many questions the program answers alike, or None; the first difference is printed."""
    count = 0
    for table, asked in tables(questions):
        found = answers_of(program, table)
        for question, answer in zip(asked, found + ["nothing"] * len(asked)):
            if answer != question.answer:
                print_difference(question, answer)
                return None
        if len(found) != len(asked):
            print(f"{len(found)} answers to {len(asked)} questions")
            return None
        count += len(asked)
    return count


def print_difference(question, answer):
    """Prints a question as a table of its own, with both answers."""
    print(f"difference: {question.title}: {question.answer} is expected, and {answer} came")
    print_table(table_of(SECTION, question.head + question.table()))


def main():
    """Compares, and ends with 0 where there is no difference and with 1 where there is one."""
    arguments = read_log_arguments("compare logic_table with the second checker", 4000, "random derivations")
    program = os.path.abspath(arguments.program)
    questions = [*fixed_questions(), *random_questions(arguments.seed, arguments.cases)]
    count = compare_all(program, questions)
    if count is None:
        sys.exit(1)
    print(f"{count} derivations, no difference")


if __name__ == "__main__":
    sys.path.insert(0, str(Path(__file__).resolve().parents[1]))
    import ends

    ends.run(main)
