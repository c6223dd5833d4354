"""Checks freshness.py against cases by hand, and on lines of a search and broken ones.

Run as: python3 check_freshness.py [--cases N] [--seed S]
"""

import argparse
import random
import sys
from collections import Counter
from pathlib import Path

sys.dont_write_bytecode = True  # leaves no compiled files beside the sources

import derivations
import formats
import freshness
import generate_logs
import invent
import logs
import spend
from derivations import Learn, LineHint, Literal
from instances import instances
from tables import number_of_cases

ALONE = b"kind,host,time,name\nhost,a,0,0\nnote,a,10,n\n"
PAIR = b"kind,host,time,name\nhost,a,5,0\nhost,b,5,0\nset,a,10,p\nset,b,10,q\n"
EITHER = b"(a.p & b.q) | !(a.p & b.q)"
TWO_APART = b"kind,host,time,name\nhost,a,0,0\nset,a,10,p\nnote,a,12,n\n"

# Of PAIR and EITHER: the nodes are 0 a.p, 1 b.q, 2 And(0,1), 3 Not 2, 4 Not 3, 5 And(3,4), 6 Not 5.
# Where event 0 is the first, the root is false at it, so 5 is true, and with it 3 and 4; but 4 denies 3.
NOT_FIRST = b"learn 1 -first 0 5 rule 24 0 rule 5 6 0 rule 6 5 0 rule 7 5 0 rule 4 4 0\n"
WALK = b"cycle 2 order 0 1 7 order 1 0 -9\n"

# A log, a formula, lines and conflicts, all with the value false, and what is said of them.
BY_HAND = (
    (PAIR, EITHER, NOT_FIRST, 1, ""),
    (PAIR, EITHER, NOT_FIRST, 2, "1 Learn lines"),
    # Rule 3 already gives the literal.
    (ALONE, b"true", b"learn 1 +node 0 0 1 rule 3 0 0\n", 1, "line 1 isn't fresh"),
    # The first line already gives it.
    (PAIR, EITHER, NOT_FIRST + b"learn 1 -first 0 1 line 1\n", 2, "line 2 isn't fresh"),
    # Without the first event, another one is first: that is propagated.
    (PAIR, EITHER, NOT_FIRST + b"learn 1 +first 1 2 line 1 rule 11\n", 2, "line 2 isn't fresh"),
    # The second literal stands in no hint: event 1 sets b.q, so it is false already, or without it the first is given.
    (PAIR, EITHER, NOT_FIRST.replace(b"learn 1 -first 0", b"learn 2 -first 0 +first 1"), 1, "line 1 isn't fresh"),
    (PAIR, EITHER, NOT_FIRST.replace(b"learn 1 -first 0", b"learn 2 -first 0 -node 1 1"), 1, "line 1 isn't used"),
    # Nothing asks for what the first hint gives: neither event is later than itself by rule 9.
    (PAIR, EITHER, NOT_FIRST.replace(b" 5 rule 24", b" 6 rule 9 0 1 rule 24"), 1, "line 1 isn't used"),
    # A walk over bounds that no rule names says something new, but of no atom of the problem.
    (PAIR, EITHER, WALK + b"learn 2 order 1 0 -8 order 0 1 8 1 line 1\n", 1, "line 2 has an atom of no rule"),
    (PAIR, EITHER, b"learn 0 1 rule 11\n", 0, "wrong 1"),
    # Event 0 is always before event 1, so rule 9 for them is needless; but a hint that names it brings it back.
    (TWO_APART, b"a.p", b"learn 2 -first 0 order 0 1 0 1 rule 9 0 1\n", 1, "line 1 isn't fresh"),
    # They are never 9 apart: the constraint stands in needless rules alone, 13 and 28, and may be learnt.
    (TWO_APART, b"F[5,9] a.p", b"cycle 3 low 0 order 0 1 -10 high 1\nlearn 1 order 1 0 9 1 line 1\n", 1, ""),
)


def check(holds, *about):
    """Ends with 1 where something doesn't hold."""
    if not holds:
        print("doesn't hold:", *about)
        sys.exit(1)


def check_by_hand():
    """The cases by hand."""
    for log, formula, text, conflicts, wanted in BY_HAND:
        problem = derivations.problem_of(logs.read_log(log), formats.read_formula(formula), False)
        rules = freshness.rules_of(problem)
        found = freshness.complaint(problem, rules, derivations.read_lines(text), conflicts)
        check(found == wanted, text, found, wanted)
    print(f"{len(BY_HAND)} cases by hand")


def spent_lines(problem, conflicts):
    """The lines of a search that spends so many conflicts, or the name of what it found instead."""
    try:
        return spend.Spender(problem).spend(conflicts)
    except (spend.Model, spend.Refuted) as found:
        return type(found).__name__


def broken(draw, rules, lines):
    """Lines that don't spend what they learn, each with what is wrong with them."""
    places = [place for place, line in enumerate(lines) if isinstance(line, Learn)]
    place = draw.choice(places)
    line = lines[place]
    yield "a line again", [*lines, line]
    yield "a line from itself", [*lines, Learn(line.literals, [LineHint(place + 1)])]
    atoms = rules.atoms - freshness.atoms_of([line.literals])
    if atoms:
        more = Literal(draw.choice(sorted(atoms)), draw.random() < 0.5)
        weaker = Learn([*line.literals, more], line.hints)
        yield "a weaker line", [*lines[:place], weaker, *lines[place + 1 :]]
        yield "a line weakened", [*lines, Learn(weaker.literals, [LineHint(place + 1)])]


def rule_line(draw, problem):
    """A line that learns the clause of a rule."""
    clause = draw.choice(list(instances(problem)))
    return Learn(list(clause.literals), [clause.hint])


def check_apart(lines):
    """No two Learn lines have the same set of literals."""
    sets = [frozenset(line.literals) for line in lines if isinstance(line, Learn)]
    check(len(set(sets)) == len(sets), lines)


def check_searches(draw, cases):
    """Lines of a search spend what it spent, and broken ones don't."""
    count = Counter()
    while count["spent"] < cases:
        *_, problem = invent.some_problem(draw)
        conflicts = draw.choice((1, 1, 2, 3, 5, 8))
        lines = spent_lines(problem, conflicts)
        if isinstance(lines, str):
            count[lines] += 1
            continue
        rules = freshness.rules_of(problem)
        found = freshness.complaint(problem, rules, lines, conflicts)
        check(not found, problem, lines, found)
        check_apart(lines)
        count["spent"] += 1
        for what, others in [*broken(draw, rules, lines), ("a rule", [rule_line(draw, problem)])]:
            learnt = sum(isinstance(line, Learn) for line in others)
            found = freshness.complaint(problem, rules, others, learnt)
            check(found, problem, what, others)
            count[what + ": " + " ".join(word for word in found.split() if not word.isdecimal())] += 1
    for what in sorted(count):
        print(f"{count[what]} {what}")


def main():
    """Runs all checks."""
    parser = argparse.ArgumentParser(description="check freshness.py without the programs")
    parser.add_argument("--cases", type=number_of_cases, default=1000, help="number of searches that spend")
    parser.add_argument("--seed", type=int, default=1)
    arguments = parser.parse_args()
    generate_logs.second_share = generate_logs.third_share = 0.4
    check_by_hand()
    check_searches(random.Random(arguments.seed), arguments.cases)
    print("all checks hold")


if __name__ == "__main__":
    sys.path.insert(0, str(Path(__file__).resolve().parents[1]))
    import ends

    ends.run(main)
