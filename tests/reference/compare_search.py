"""Compares the built program logic_table with what all admissible timings give.

Run as: python3 compare_search.py PROGRAM [--cases N] [--seed S]

The program searches the problems of tables, a section of what it takes: small logs and formulas made by
chance, each with both values. A value that the formula has in some admissible
timing has to be found, and any other one refuted; of a log without timings
the program has to say so. Some searches have a budget of one to three
conflicts, which they may spend. The first difference is printed as a table of
its own, ready to copy, and the end is 1.
"""

import itertools
import os
import random
import sys
from collections import Counter
from pathlib import Path
from typing import NamedTuple, Optional

sys.dont_write_bytecode = True  # leaves no compiled files beside the sources

import formats
import invent
import meanings
from compare_derivations import head_of
from compare_problems import answers_of
from generate_logs import chance
from tables import end_if_rare, print_table, read_log_arguments, table_of

SECTION = "searches"  # of the tables
SEARCHES_A_TABLE = 20
SHARE_OPEN = 0.6  # of the formulas, at least, have both values in timings of their log
SHARE_SMALL = 0.3  # of the searches have one of these budgets
SMALL_BUDGETS = (1, 2, 3)
SHARES = {"model": 0.05, "refuted": 0.01, "inconsistent": 0.005, "spent": 0.0005}  # of the answers, at least


class Question(NamedTuple):
    title: str
    head: bytes  # the formula, the log and the value as the table has them
    value: bool
    values: set  # the formula's values in the log's admissible timings
    budget: Optional[int]  # where it isn't the program's own

    def table(self):
        """The lines of a table that ask the question."""
        budget = b"" if self.budget is None else b"<%d\n" % self.budget
        return self.head + budget + b"?%s\n" % self.title.encode()

    def allowed(self):
        """The answers that are right."""
        if not self.values:
            return ["inconsistent"]
        found = "model" if self.value in self.values else "refuted"
        return [found] if self.budget is None else [found, f"spent {self.budget}"]


def questions(seed, count):
    """Searches by chance, for both values of each formula."""
    for number in range(count):
        place, value = number // 2, number % 2 == 1
        if not value:
            draw = random.Random(f"{seed} {place}")
            log_text, formula_text, values = small_problem(draw)
        budget = draw.choice(SMALL_BUDGETS) if chance(draw, SHARE_SMALL) else None
        title = f"search {number} of seed {seed}"
        yield Question(title, head_of(log_text, formula_text, value), value, values, budget)


def small_problem(draw):
    """The texts of a log and a formula, and the formula's values.

    Mostly the formula is true in some admissible timings of the log and false in others.
    """
    is_open = chance(draw, SHARE_OPEN)
    while True:
        log_text, formula_text, problem = invent.some_problem(draw)
        values = meanings.values(problem.log, formats.read_formula(formula_text))
        if not is_open or len(values) == 2:
            return log_text, formula_text, values


def compare_all(program, asked):
    """How often each answer came, or None; the first difference is printed."""
    count = Counter()
    asked = iter(asked)
    while some := list(itertools.islice(asked, SEARCHES_A_TABLE)):
        answers = answers_of(program, SECTION, b"".join(question.table() for question in some))
        for question in some:
            answer = " ".join(answers.get(question.title, ["nothing"]))
            if answer not in question.allowed():
                print_difference(question, answer)
                return None
            count[answer.split()[0]] += 1
    return count


def print_difference(question, answer):
    """Prints a question as a table of its own, with the answer that came."""
    print(f"difference: {question.title}: {answer}, not {' or '.join(question.allowed())}")
    print_table(table_of(SECTION, question.table()))


def main():
    """Compares, and ends with 0 where there is no difference and with 1 where there is one."""
    arguments = read_log_arguments("compare logic_table with all timings", 400, "searches")
    program = os.path.abspath(arguments.program)
    count = compare_all(program, questions(arguments.seed, arguments.cases))
    if count is None:
        sys.exit(1)
    end_if_rare(count, SHARES, arguments.cases)
    shares = ", ".join(f"{count[word]} {word}" for word in sorted(count))
    print(f"{sum(count.values())} searches, no difference: {shares}")


if __name__ == "__main__":
    sys.path.insert(0, str(Path(__file__).resolve().parents[1]))
    import ends

    ends.run(main)
