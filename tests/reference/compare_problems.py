"""Compares the built program logic_table with a plain listing and with brute force.

Run as: python3 compare_problems.py PROGRAM [--cases N] [--seed S]

The program prints the problems of tables, a section of what it takes: small logs and formulas made by
chance, each with both values. A problem must have the clause of each rule that
has one and isn't needless, in a list of all rules; its edges must be those of the log's bounds;
and its clauses must be satisfiable in just the admissible timings that give
the formula the value. The first difference is printed as a table of its own,
ready to copy, and the end is 1.
"""

import itertools
import os
import random
import sys
from collections import Counter
from pathlib import Path
from typing import NamedTuple

sys.dont_write_bytecode = True  # leaves no compiled files beside the sources

import formats
import invent
import meanings
import needless
import reference
from compare_derivations import head_of
from derivations import Literal, Problem
from generate_logs import chance
from tables import answer_lines, print_table, read_log_arguments, table_of

SECTION = "problems"  # of the tables
PROBLEMS_A_TABLE = 20
ROWS_MOST = 4
NODES_MOST = 6
TIMINGS_MOST = 16  # admissible timings of one log that are gone through
SHARE_OPEN = 0.6  # of the formulas, at least, have both values in timings of their log
RULE_ARGUMENTS_PRINTED = 4


# Questions


class Question(NamedTuple):
    title: str
    head: bytes  # the formula, the log and the value as the table has them
    problem: Problem
    clauses: dict  # the clause of each rule that is kept
    truths: list  # admissible timings, each with the truth of the formula in it

    def table(self):
        """The lines of a table that ask the question."""
        return self.head + b"?%s\n" % self.title.encode()


def questions(seed, count):
    """Problems by chance, with both values of each formula."""
    for number in range(count):
        place, value = number // 2, number % 2 == 1
        if not value:
            draw = random.Random(f"{seed} {place}")
            log_text, formula_text, problem, truths = tiny_problem(draw)
        title = f"problem {number} of seed {seed}"
        head = head_of(log_text, formula_text, value)
        sought = problem._replace(value=value)
        yield Question(title, head, sought, listed_clauses(sought), truths)


def tiny_problem(draw):
    """The texts of a log and a formula, the problem, and timings with the formula's truth.

    Mostly the formula is true in some admissible timings of the log and false in others.
    """
    is_open = chance(draw, SHARE_OPEN)
    while True:
        log_text, formula_text, problem = invent.some_problem(draw)
        if len(problem.log.rows) > ROWS_MOST or len(problem.nodes) > NODES_MOST:
            continue
        truths = truths_of(problem.log, formats.read_formula(formula_text))
        if not truths:
            continue  # a problem is that of a log with some timing
        if is_open and len({truth for _, truth in truths}) < 2:
            continue
        if len(truths) > TIMINGS_MOST:
            truths = draw.sample(truths, TIMINGS_MOST)
        return log_text, formula_text, problem, truths


def truths_of(log, formula):
    """The admissible timings of a log, each with the formula's truth in it."""
    return [
        (times, reference.truth(log, times, formula)) for times in meanings.admissible_timings(log)
    ]


def listed_clauses(problem):
    """The clause of each rule that is kept, by the rule's number and four arguments."""
    found = {}
    for clause, (number, arguments) in needless.kept(problem):
        unused = (0,) * (RULE_ARGUMENTS_PRINTED - len(arguments))
        found[(number, *arguments, *unused)] = list(clause)
    return found


# Answers


class Printed(NamedTuple):
    """A problem as the program prints it."""

    nodes: list  # of numbers, which should be just one
    edges: list  # of starts, ends and bounds
    rules: list  # of numbers with four arguments
    clauses: list  # for each rule the variables with their signs
    atoms: list  # for each variable its atom

    def literals(self, clause):
        """The literals of a clause, read through the atoms."""
        return [Literal(self.atoms[variable], positive) for variable, positive in clause]


def read_printed(lines):
    """The problem that the lines print; a ValueError or an IndexError where they print none."""
    printed = Printed([], [], [], [], [])
    for line in lines:
        word, *rest = line.split(" ")
        if word[:1] in ("+", "-"):
            printed.clauses[-1].append((variable_of(word), word[:1] == "+"))
        elif word == "rule":
            printed.rules.append(tuple(map(int, rest)))
            printed.clauses.append([])
        elif word == "nodes":
            printed.nodes.append(int(*rest))
        elif word == "edge":
            printed.edges.append(tuple(map(int, rest)))
        elif word == "atom":
            printed.atoms.append((rest[0], *map(int, rest[1:])))
        else:
            raise ValueError
    return printed


def variable_of(word):
    """The variable behind a sign."""
    if not word[1:].isdigit():
        raise ValueError
    return int(word[1:])


def answers_of(program, section, table):
    """The lines of each answer of the program to a section, by the name of the question."""
    answers, lines = {}, []
    for line in answer_lines(program, table_of(section, table)):
        if line[:1] == "?":
            lines = answers.setdefault(line[1:], [])
        elif line[:1] != "=":
            lines.append(line)
    return answers


# Differences. Each of these functions gives a sentence on the first difference, or None.


def difference(question, lines):
    """What is wrong with the lines of an answer."""
    if lines is None:
        return "nothing came"
    try:
        printed = read_printed(lines)
    except (ValueError, IndexError, TypeError):
        return "the answer can't be read"
    tests = (rules_difference, clauses_difference, atoms_difference, edges_difference,
             truths_difference)
    for test in tests:
        found = test(question, printed)
        if found:
            return found
    return None


def rules_difference(question, printed):
    """Whether the rules are those that are kept, each once."""
    there = Counter(printed.rules)
    for rule in sorted(question.clauses.keys() | there.keys()):
        wanted = 1 if rule in question.clauses else 0
        if there[rule] != wanted:
            return f"rule {words(rule)} is there {there[rule]} times, not {wanted}"
    return None


def clauses_difference(question, printed):
    """Whether each clause is that of its rule, in the rule's order."""
    for rule, clause in zip(printed.rules, printed.clauses):
        if any(variable >= len(printed.atoms) for variable, _ in clause):
            return f"rule {words(rule)} has a variable without an atom"
        literals, wanted = printed.literals(clause), question.clauses[rule]
        if literals != wanted:
            return f"rule {words(rule)} has {spelled(literals)}, not {spelled(wanted)}"
    return None


def atoms_difference(question, printed):
    """Whether the atoms are apart, and each in some clause."""
    used = {variable for clause in printed.clauses for variable, _ in clause}
    for variable, atom in enumerate(printed.atoms):
        if variable not in used:
            return f"atom {words(atom)} is in no clause"
        if printed.atoms.index(atom) < variable:
            return f"atom {words(atom)} is there twice"
    return None


def edges_difference(question, printed):
    """Whether the edges are those of the log's bounds, and the nodes the zero moment, rows and clocks."""
    log = question.problem.log
    nodes = 1 + len(log.rows) + len(log.clocks)
    if printed.nodes != [nodes]:
        return f"there are {words(printed.nodes)} nodes, not {nodes}"
    wanted = [
        (node_of(bound.start), node_of(bound.end), bound.most) for bound in reference.bounds(log)
    ]
    for edge, other in itertools.zip_longest(printed.edges, wanted):
        if edge != other:
            return f"edge {words(edge or [])} is there, where {words(other or [])} should be"
    return None


def node_of(end):
    """The node of an end of a bound: of an event or a clock, or of the zero moment."""
    return 0 if end is None else end + 1


def truths_difference(question, printed):
    """Whether the clauses are satisfiable in just the timings that give the value."""
    clauses = [
        [variable + 1 if positive else -variable - 1 for variable, positive in clause]
        for clause in printed.clauses
    ]
    search = Search(clauses, splits(printed.atoms))
    for times, truth in question.truths:
        found = search.is_satisfiable(known_literals(printed.atoms, times))
        if found != (truth == question.problem.value):
            how = "satisfiable" if found else "not satisfiable"
            return f"the clauses are {how} at {times}, where the formula is {truth}"
    return None


def words(numbers):
    """The parts of a rule, an atom or an edge, with blanks between."""
    return " ".join(map(str, numbers))


def spelled(clause):
    """The literals of a clause as words."""
    return "[" + ", ".join("-+"[positive] + words(atom) for atom, positive in clause) + "]"


# Brute force. A literal is one more than its variable, negated where it is denied.


def known_literals(atoms, times):
    """The literals of the order atoms that are true in a timing."""
    found = []
    for literal, (kind, *numbers) in enumerate(atoms, start=1):
        if kind == "order":
            e, f, bound = numbers
            found.append(literal if times[e] - times[f] <= bound else -literal)
    return found


def splits(atoms):
    """The literals in the order in which the search assumes them.

    Denied spans come first, those of the lower nodes before others: what they
    say is known from the order atoms, so a wrong one breaks a clause at once.
    """
    places = sorted(
        range(len(atoms)), key=lambda place: (atoms[place][0] != "span", atoms[place][1])
    )
    return [-place - 1 for place in places]


class Search:
    """A search for truth values that make a literal of each clause true."""

    def __init__(self, clauses, order):
        self.clauses = clauses
        self.order = order
        self.clauses_with = {}  # the clauses that have a literal
        for clause in clauses:
            for literal in clause:
                self.clauses_with.setdefault(literal, []).append(clause)
        self.assumed = []
        self.true = set()  # what is assumed

    def is_satisfiable(self, literals):
        """Whether some truth values satisfy all clauses and these literals."""
        alone = [clause[0] for clause in self.clauses if len(clause) == 1]
        return all(self.clauses) and self.can_have([*alone, *literals], 0)

    def can_have(self, literals, place):
        """Whether these can be added to what is assumed, and values found from the place on."""
        length = len(self.assumed)
        found = self.assume(literals) and self.can_split(place)
        self.true.difference_update(self.assumed[length:])
        del self.assumed[length:]
        return found

    def can_split(self, place):
        """Whether values can be found for the rest of the literals, from the place on."""
        for after, literal in enumerate(self.order[place:], start=place + 1):
            if literal not in self.true and -literal not in self.true:
                return self.can_have([literal], after) or self.can_have([-literal], after)
        return True

    def assume(self, literals):
        """Assumes literals and what follows from single clauses; False where one is broken."""
        waiting = list(literals)
        while waiting:
            literal = waiting.pop()
            if literal in self.true:
                continue
            if -literal in self.true:
                return False
            self.true.add(literal)
            self.assumed.append(literal)
            for clause in self.clauses_with.get(-literal, ()):
                left = [other for other in clause if -other not in self.true]
                if not left:
                    return False
                if len(left) == 1:
                    waiting.append(left[0])
        return True


# The comparison


def compare_all(program, asked):
    """How many questions the program answers rightly, or None; the first difference is printed."""
    count = 0
    asked = iter(asked)
    while some := list(itertools.islice(asked, PROBLEMS_A_TABLE)):
        answers = answers_of(program, SECTION, b"".join(question.table() for question in some))
        for question in some:
            found = difference(question, answers.get(question.title))
            if found:
                print_difference(question, found)
                return None
            count += 1
    return count


def print_difference(question, found):
    """Prints a question as a table of its own, with what is wrong."""
    print(f"difference: {question.title}: {found}")
    print_table(table_of(SECTION, question.table()))


def main():
    """Compares, and ends with 0 where there is no difference and with 1 where there is one."""
    arguments = read_log_arguments("compare logic_table with a plain listing", 400, "problems")
    program = os.path.abspath(arguments.program)
    count = compare_all(program, questions(arguments.seed, arguments.cases))
    if count is None:
        sys.exit(1)
    print(f"{count} problems, no difference")


if __name__ == "__main__":
    sys.path.insert(0, str(Path(__file__).resolve().parents[1]))
    import ends

    ends.run(main)
