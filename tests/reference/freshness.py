"""Says of a derivation that spends conflicts whether each of them was worth one.

Run as: python3 freshness.py FORMULA LOG VALUE CONFLICTS DERIVATION

FORMULA, LOG and DERIVATION are files, VALUE is true or false, and CONFLICTS a
number. The answer is one line. `spends`: all lines are right, none has an empty
clause, as many as the conflicts are Learn lines, and each of these is fresh and
used, over atoms that stand in clauses of rules. Anything else is what fails
first, as `line 3 isn't fresh`.

A Learn line is fresh where unit propagation, from the negations of all its
literals but the first, reaches neither a false clause nor the first literal.
The propagation goes over the clauses of the problem's rules, which are the
ones that needless.py keeps, of the rules that hints up to and with the line
name, and of the earlier Learn lines; those of Cycle lines aren't among them. A
line is used where each of its literals stands in the clause of one of its
hints, and what each hint but the last makes true stands negated in the clause
of a later one. The atoms are those of all rules that have a clause, the
needless ones too.

Propagation goes over all clauses again and again, so the module is slow.
"""

import argparse
import sys
from pathlib import Path
from typing import NamedTuple

sys.dont_write_bytecode = True  # leaves no compiled files beside the sources

import derivations
import formats
import logs
from derivations import Learn, Rule, negation
from instances import instances
from needless import kept


class Rules(NamedTuple):
    """What the lines of a problem are judged by."""

    clauses: list  # of the rules that are kept
    atoms: set  # that stand in clauses of any rules


def rules_of(problem):
    """The rules of a problem."""
    clauses = [list(instance.literals) for instance in kept(problem)]
    return Rules(clauses, atoms_of(instance.literals for instance in instances(problem)))


def atoms_of(clauses):
    """The atoms that stand in clauses."""
    return {literal.atom for clause in clauses for literal in clause}


def propagate(clauses, assumed):
    """All literals that unit propagation reaches, or None where it reaches a false clause."""
    held = set(assumed)
    while True:
        before = len(held)
        for clause in clauses:
            left = [literal for literal in clause if negation(literal) not in held]
            if not left:
                return None
            if len(left) == 1:
                held.add(left[0])
        if len(held) == before:
            return held


def is_new(clauses, literals):
    """Whether propagation over the clauses doesn't give what the literals say."""
    if not literals:
        return False
    first, *others = literals
    reached = propagate(clauses, [negation(literal) for literal in others])
    return reached is not None and first not in reached


def learnt_before(lines, place):
    """The clauses of the Learn lines before the one at a place that counts from 1."""
    return [line.literals for line in lines[: place - 1] if isinstance(line, Learn)]


def named_before(problem, lines, place):
    """The clauses of the rules that hints of the lines up to the one at a place name, which are right."""
    hints = [hint for line in lines[:place] if isinstance(line, Learn) for hint in line.hints]
    return [derivations.clause_of(problem, hint) for hint in hints if isinstance(hint, Rule)]


def is_fresh(problem, rules, lines, place):
    """Whether the Learn line at a place is fresh."""
    named = named_before(problem, lines, place)
    return is_new([*rules.clauses, *named, *learnt_before(lines, place)], lines[place - 1].literals)


def made_true(literals, clauses):
    """What each of the clauses but the last makes true, where they refute the literals' negations."""
    assumed = {negation(literal) for literal in literals}
    found = []
    for clause in clauses[:-1]:
        found += [literal for literal in clause if negation(literal) not in assumed]
        assumed.add(found[-1])
    return found


def is_used(problem, lines, place):
    """Whether the Learn line at a place, which is right, is the resolvent of its hints."""
    earlier = [derivations.clause_of_line(line) for line in lines[: place - 1]]
    line = lines[place - 1]
    clauses = [derivations.hint_clause(problem, hint, earlier) for hint in line.hints]
    spent = [
        any(negation(literal) in clause for clause in clauses[number:])
        for number, literal in enumerate(made_true(line.literals, clauses), start=1)
    ]
    standing = [any(literal in clause for clause in clauses) for literal in line.literals]
    return all(spent) and all(standing)


def complaint(problem, rules, lines, conflicts):
    """What keeps the lines from spending so many conflicts, or nothing; the rules are the problem's."""
    found = derivations.verdict(problem, lines)
    if found != "derives":
        return found
    places = [place for place, line in enumerate(lines, start=1) if isinstance(line, Learn)]
    if len(places) != conflicts:
        return f"{len(places)} Learn lines"
    for place in places:
        if not is_fresh(problem, rules, lines, place):
            return f"line {place} isn't fresh"
        if not is_used(problem, lines, place):
            return f"line {place} isn't used"
        if not atoms_of([lines[place - 1].literals]) <= rules.atoms:
            return f"line {place} has an atom of no rule"
    return ""


def read_arguments():
    """The files, the value and the conflicts of the command line."""
    parser = argparse.ArgumentParser(description="say whether each conflict of a derivation was worth one")
    for name in ("formula", "log"):
        parser.add_argument(name)
    parser.add_argument("value", choices=("true", "false"))
    parser.add_argument("conflicts", type=int)
    parser.add_argument("derivation")
    arguments = parser.parse_args()
    if arguments.conflicts < 0:
        parser.error("the conflicts are a number below 0")
    return arguments


def main():
    """Prints what is said of the files that the words name."""
    arguments = read_arguments()
    formula, log = derivations.read_inputs(arguments.formula, arguments.log)
    lines = derivations.read_lines(derivations.read_file(arguments.derivation))
    if isinstance(lines, derivations.SyntaxFault):
        sys.exit(f"line {lines.line} isn't in the grammar")
    problem = derivations.problem_of(log, formula, arguments.value == "true")
    print(complaint(problem, rules_of(problem), lines, arguments.conflicts) or "spends")


if __name__ == "__main__":
    sys.path.insert(0, str(Path(__file__).resolve().parents[1]))
    import ends

    ends.run(main)
