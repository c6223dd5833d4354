"""Spends conflicts on a problem, one after another, by the plainest of searches.

It propagates over all clauses again and again, decides the first atom that has
no value, and learns from a conflict the clause of its first unique implication
point (Marques-Silva and Sakallah 1996). A walk of negative sum among the order
literals is a Cycle line, and a clause. Lines that the search writes have to be
fresh and used, which is what they are made for: with them the reading in
freshness.py is tested.
"""

import invent
from derivations import Cycle, Learn, Literal, LineHint, clause_of_line, negation
from instances import Clause, instances
from invent import find_negative_walk


class Model(Exception):
    """All atoms have a value, and nothing is in conflict."""


class Refuted(Exception):
    """A clause is false where nothing was decided."""


class Spender:
    """The literals in the order in which they were assigned, with their levels and reasons."""

    def __init__(self, problem):
        self.lines = []
        self.clauses = list(instances(problem))
        self.atoms = sorted({literal.atom for clause in self.clauses for literal in clause.literals})
        self.trail = []
        self.levels = {}  # of each literal of the trail
        self.reasons = {}
        self.problem = problem

    def level(self):
        """The present level: how many literals were decided."""
        return sum(reason is None for reason in self.reasons.values())

    def assign(self, literal, reason):
        """Puts a literal on the trail; without a reason it opens a level."""
        self.reasons[literal] = reason
        self.levels[literal] = self.level()
        self.trail.append(literal)

    def add(self, line):
        """Writes a line, and gives its clause."""
        self.lines.append(line)
        clause = Clause(tuple(clause_of_line(line)), LineHint(len(self.lines)))
        self.clauses.append(clause)
        return clause

    def forced(self):
        """A clause that is false or that leaves one literal, with what it leaves; None where none does."""
        for clause in self.clauses:
            left = [literal for literal in clause.literals if negation(literal) not in self.levels]
            if not left or len(left) == 1 and left[0] not in self.levels:
                return clause, left
        return None

    def edges(self):
        """The edges of the bounds and of the order literals of the trail."""
        return invent.Search.edges(self)

    def conflict(self):
        """Assigns what follows, and gives a clause that is false, if there comes one.

        Walks are looked for at each literal, so that the levels below never hold one.
        """
        while True:
            steps = find_negative_walk(self.edges())
            if steps:
                return self.add(Cycle(steps))
            found = self.forced()
            if not found:
                return None
            clause, left = found
            if not left:
                return clause
            self.assign(left[0], clause)

    def descend(self):
        """A clause that is false, after as many decisions as it takes."""
        while not (found := self.conflict()):
            atom = next((atom for atom in self.atoms if self.value(atom) is None), None)
            if atom is None:
                raise Model
            self.assign(Literal(atom, False), None)
        return found

    def value(self, atom):
        """The value of an atom, if it has one."""
        for value in (True, False):
            if Literal(atom, value) in self.levels:
                return value
        return None

    def learn(self, conflict):
        """Writes the line of the first unique implication point, and goes back to its second level."""
        present = self.level()
        marked = {negation(literal) for literal in conflict.literals}
        hints = [conflict.hint]
        for literal in reversed(self.trail):
            if literal not in marked:
                continue
            here = sum(self.levels[other] == present for other in marked)
            if self.levels[literal] == 0 or self.levels[literal] == present and here > 1:
                reason = self.reasons[literal]
                hints.append(reason.hint)
                marked.remove(literal)
                marked |= {negation(other) for other in reason.literals if other != literal}
        by_level = sorted(marked, key=lambda literal: -self.levels[literal])
        self.add(Learn([negation(literal) for literal in by_level], hints[::-1]))
        self.back_to(self.levels[by_level[1]] if len(by_level) > 1 else 0)

    def back_to(self, level):
        """Undoes all higher levels."""
        for literal in [other for other in self.trail if self.levels[other] > level]:
            self.trail.remove(literal)
            del self.levels[literal], self.reasons[literal]

    def spend(self, conflicts):
        """The lines after so many conflicts. Model or Refuted where it doesn't come so far."""
        for _ in range(conflicts):
            found = self.descend()
            if self.level() == 0:
                raise Refuted
            self.learn(found)
        return self.lines
