"""Makes small problems, right derivations for them, and broken ones.

A right derivation is found by a search of its own: unit propagation over the
clauses of rules, walks of negative sum among the bounds and the order literals
that are assumed, and lines that are learned from conflicts. Whether a line is
right is never asked here.
"""

from typing import NamedTuple, Optional

import derivations
import formats
import generate
import generate_logs
import logs
import reference
from derivations import Cycle, Learn, LineHint, Literal, Rule, Step, negation
from generate_logs import chance
from instances import Clause, instances
from logs import Log, Row

ROWS_MOST = 5
NODES_MOST = 8


class Case(NamedTuple):
    log: bytes
    formula: bytes
    value: bool
    lines: bytes  # the text of a derivation


# Problems


def small_log(draw):
    """A log of one to five rows with small bounds, seldom without an admissible timing."""
    log = generate_logs.some_log(draw)
    hosts = [small_setting(draw, host) for host in log.hosts]
    count = draw.choice((1, 2, 2, 3, 3, 3, 4, 4, ROWS_MOST))
    rows = [without_message(draw, row) for row in log.rows[:count]]
    if len(rows) > 1 and chance(draw, 0.8 if generate_logs.second_share and logs.version_of(log) > 1 else 0.4):
        send, receive = draw.sample(range(len(rows)), 2)
        rows[send] = Row(rows[send].host, rows[send].local, b"send", b"m")
        rows[receive] = Row(rows[receive].host, rows[receive].local, b"recv", b"m")
    rows = drawn_near(draw, rows)
    resyncs, readings = [
        [item._replace(place=min(item.place, len(rows))) for item in items] for items in (log.resyncs, log.readings)
    ]
    resyncs = [small_setting(draw, resync) for resync in resyncs]
    readings = [reading._replace(error=draw.choice((0, 0, 0, 1, 2))) for reading in readings]
    extras = generate_logs.some_extras(draw, [row.local for row in rows]) if log.extras else []
    return Log(hosts, rows, resyncs, extras, log.clocks, readings)


def small_setting(draw, setting):
    """The host or the resync, with a small skew and gap."""
    return setting._replace(skew=draw.choice((0, 0, 1, 1, 2)), gap=setting.gap % 3)


def without_message(draw, row):
    """The row, made a change of a proposition where it is a message, and mostly where a note."""
    if row.act in (b"set", b"clear", b"pulse") or row.act == b"note" and chance(draw, 0.4):
        return row
    return Row(row.host, row.local, draw.choice((b"set", b"clear")), draw.choice((b"p", b"q")))


def drawn_near(draw, rows):
    """The rows with local times that mostly rise by little, from the first row's on."""
    moment = rows[0].local
    found = []
    for row in rows:
        found.append(Row(row.host, moment, row.act, row.name))
        moment += draw.choice((-1, 0, 0, 1, 1, 1, 2, 3))
    return found


def small_tree(draw, log):
    """A tree with one to eight nodes over the hosts of a log."""
    while True:
        tree = generate.some_tree(draw, log, draw.choice((0, 1, 1, 2, 2, 3, 4)))
        if chance(draw, 0.1):
            tree = generate.two_sided(draw, draw.choice(("&", "|", "U", "S")), tree, tree)
        if generate.node_count(draw, tree) <= NODES_MOST:
            return tree


def some_problem(draw):
    """The texts of a log and a formula, and the problem to give it a value."""
    log = small_log(draw)
    formula_text = b" ".join(generate.tokens_of(draw, small_tree(draw, log)))
    value = chance(draw, 0.5)
    problem = derivations.problem_of(log, formats.read_formula(formula_text), value)
    return logs.log_text(log), formula_text, problem


# Right derivations


class Edge(NamedTuple):
    """A step with where it starts and ends, the zero moment being None and a clock behind the rows, and with its bound."""

    start: Optional[int]
    end: Optional[int]
    bound: int
    step: Step


def order_edge(e, f, bound):
    """The edge of an order step."""
    return Edge(e, f, bound, Step(b"order", (e, f, bound)))


def bound_edges(log):
    """The edges of the bounds of a log."""
    return [
        Edge(bound.start, bound.end, bound.most, Step(bound.kind, (bound.event,)))
        for bound in reference.bounds(log)
    ]


class Satisfied(Exception):
    """The search came to values of all atoms that break no clause and no bound."""


class Spent(Exception):
    """The search came to the end of its patience."""


class Search:
    """A search for values of the atoms that meet all clauses and bounds.

    It keeps the literals assumed so far in their order, each with the clause
    that forces it, or None for one that was decided. What it learns on the way
    is kept as lines.
    """

    def __init__(self, draw, problem, patience=60):
        self.draw = draw
        self.problem = problem
        self.patience = patience  # conflicts that are left before the search gives up
        self.lines = []
        self.clauses = []
        self.clauses_with = {}  # the clauses that have a literal
        self.trail = []
        self.reasons = {}  # of each literal of the trail
        self.denied = set()  # the negations of the trail
        self.seen = 0  # literals of the trail whose consequences are drawn
        for clause in instances(problem):
            self.add(clause)
        self.atoms = sorted({literal.atom for literal in self.clauses_with})
        draw.shuffle(self.atoms)
        if chance(draw, 0.7):
            self.atoms.sort(key=lambda atom: atom[0] != "order")

    def add(self, clause):
        """Keeps a clause."""
        self.clauses.append(clause)
        for literal in clause.literals:
            self.clauses_with.setdefault(literal, []).append(clause)

    def add_line(self, line):
        """Writes a line, and keeps and gives its clause."""
        self.lines.append(line)
        clause = Clause(tuple(derivations.clause_of_line(line)), LineHint(len(self.lines)))
        self.add(clause)
        return clause

    # Assumptions

    def assume(self, literal, reason):
        """Puts a literal on the trail."""
        self.trail.append(literal)
        self.reasons[literal] = reason
        self.denied.add(negation(literal))

    def back_to(self, length):
        """Takes all literals from the trail but the first ones."""
        for literal in self.trail[length:]:
            del self.reasons[literal]
            self.denied.remove(negation(literal))
        del self.trail[length:]
        self.seen = min(self.seen, length)

    def consequences(self):
        """Draws all consequences of the trail. Gives a clause that is false, or None."""
        suspects = self.clauses if not self.trail else []
        while True:
            for clause in suspects:
                left = [literal for literal in clause.literals if literal not in self.denied]
                if not left:
                    return clause
                if len(left) == 1 and left[0] not in self.reasons:
                    self.assume(left[0], clause)
            if self.seen == len(self.trail):
                return self.negative_walk()
            suspects = self.clauses_with.get(negation(self.trail[self.seen]), [])
            self.seen += 1

    def negative_walk(self):
        """The clause of a new Cycle line, or None where bounds and order literals can hold."""
        steps = find_negative_walk(self.edges())
        return self.add_line(Cycle(steps)) if steps else None

    def edges(self):
        """The edges of the bounds and of the order literals that are assumed."""
        found = bound_edges(self.problem.log)
        for literal in self.trail:
            if literal.atom[0] == "order":
                _, e, f, bound = literal.atom
                opposite = order_edge(f, e, -bound - 1)
                found.append(order_edge(e, f, bound) if literal.positive else opposite)
        return found

    # Learning

    def resolved(self, conflict, share):
        """The literals and hints of what follows from a conflict and the reasons before it.

        That share of the literals with a reason, drawn by chance, is replaced by the reasons.
        """
        literals = list(conflict.literals)
        hints = [conflict.hint]
        for assumed in reversed(self.trail):
            reason = self.reasons[assumed]
            if reason and negation(assumed) in literals and chance(self.draw, share):
                literals.remove(negation(assumed))
                for literal in reason.literals:
                    if literal != assumed and literal not in literals:
                        literals.append(literal)
                hints.append(reason.hint)
        return literals, hints[::-1]

    def learn(self, conflict, share=1.0):
        """The clause that follows from a conflict, with the line that says so if it needs one."""
        literals, hints = self.resolved(conflict, share)
        if len(hints) == 1 and chance(self.draw, 0.9):
            return conflict
        if chance(self.draw, 0.3):
            self.draw.shuffle(literals)
        return self.add_line(Learn(literals, hints))

    # The search

    def refute(self):
        """A clause of denied decisions that follows; Satisfied or Spent where none is found."""
        while True:
            conflict = self.consequences()
            if conflict:
                self.patience -= 1
                if conflict.literals and chance(self.draw, 0.2):
                    conflict = self.learn(conflict, share=0.5)
                return self.learn(conflict) if conflict.literals else conflict
            if self.patience <= 0:
                raise Spent
            decided = self.decision()
            length = len(self.trail)
            self.assume(decided, None)
            found = self.refute()
            self.back_to(length)
            if negation(decided) not in found.literals:
                return found
            self.assume(negation(decided), found)

    def decision(self):
        """A literal whose atom has no value yet."""
        for atom in self.atoms:
            literal = Literal(atom, chance(self.draw, 0.5))
            if literal not in self.reasons and literal not in self.denied:
                return literal
        raise Satisfied

    def timing(self):
        """A timing that meets the bounds and the order literals that are assumed."""
        numbers = settled(self.edges())
        return [numbers[event] - numbers[None] for event in range(len(self.problem.log.rows))]

    # Lines that don't belong to a refutation

    def add_lemma(self):
        """Decides some literals by chance, and writes a line on something that follows."""
        for _ in range(self.draw.randint(0, 4)):
            conflict = self.consequences()
            if conflict:
                break
            try:
                self.assume(self.draw.choice((self.decision(), self.free_decision())), None)
            except Satisfied:
                break
        else:
            conflict = self.consequences()
        if conflict and conflict.literals:
            self.learn(conflict, self.draw.choice((0.5, 1.0)))
        elif not conflict:
            self.add_consequence()
        self.back_to(0)

    def free_decision(self):
        """A literal drawn by chance from all whose atoms have no value yet."""
        valued = {literal.atom for literal in self.reasons}
        open_atoms = [atom for atom in self.atoms if atom not in valued]
        if not open_atoms:
            raise Satisfied
        return Literal(self.draw.choice(open_atoms), chance(self.draw, 0.5))

    def add_consequence(self):
        """Writes a line on one of the literals that were forced, if there is one."""
        forced = [reason for reason in self.reasons.values() if reason]
        if forced:
            literals, hints = self.resolved(self.draw.choice(forced), self.draw.choice((0.5, 1.0)))
            self.add_line(Learn(literals, hints))

    def add_free_walk(self):
        """Writes a line on a walk by chance, whose last step makes the sum just negative."""
        edges = self.edges()
        walk = [self.draw.choice(edges)]
        while len(walk) < 2 or chance(self.draw, 0.4):
            place = walk[-1].end
            onward = [edge for edge in edges if edge.start == place] + self.free_edges(place)
            walk.append(self.draw.choice(onward))
        start, end = walk[-1].end, walk[0].start
        missing = -1 - sum(edge.bound for edge in walk)
        if start != end and self.are_rows(start, end) and is_spelled_both_ways(missing):
            walk.append(order_edge(start, end, missing))
        elif start != end or missing < 0:
            return
        self.add_line(Cycle([edge.step for edge in walk]))

    def are_rows(self, *ends):
        """Whether ends of edges are rows: neither the zero moment nor clocks."""
        return all(end is not None and end < len(self.problem.log.rows) for end in ends)

    def free_edges(self, start):
        """The edges of some order steps of any bound from an event."""
        if not self.are_rows(start):
            return []
        least, greatest = -derivations.BOUND_GREATEST, derivations.BOUND_GREATEST - 1
        bounds = [self.draw.randint(-3, 3), greatest, least, self.draw.randint(least, greatest)]
        return [
            order_edge(start, end, bound)
            for end in range(len(self.problem.log.rows))
            for bound in bounds[: self.draw.choice((1, 1, 1, 4))]
            if end != start
        ]

    def add_rule(self):
        """Writes a line that learns the clause of a rule."""
        rules = [clause for clause in self.clauses if isinstance(clause.hint, Rule)]
        number = self.draw.choice(sorted({clause.hint.number for clause in rules}))
        clause = self.draw.choice([clause for clause in rules if clause.hint.number == number])
        self.add_line(Learn(list(clause.literals), [clause.hint]))

    def add_copy(self):
        """Writes an earlier line's clause again, sometimes with one more literal."""
        if not self.lines:
            return
        place = self.draw.randint(1, len(self.lines))
        literals = list(derivations.clause_of_line(self.lines[place - 1]))
        if chance(self.draw, 0.4):
            literals.append(Literal(self.draw.choice(self.atoms), chance(self.draw, 0.5)))
        atoms = [literal.atom for literal in literals]
        if literals and len(set(atoms)) == len(atoms):
            self.add_line(Learn(literals, [LineHint(place)]))


def is_spelled_both_ways(bound):
    """Whether an order literal with the bound, and its negation too, have a spelling."""
    return -derivations.BOUND_GREATEST <= bound < derivations.BOUND_GREATEST


def find_negative_walk(edges):
    """The steps of a closed walk of negative sum, or None."""
    found = settled(edges)
    return found if isinstance(found, list) else None


def settled(edges):
    """Numbers of all ends that meet the edges, or the steps of a closed walk of negative sum.

    This is the way of Bellman and Ford.
    """
    numbers = {end: 0 for edge in edges for end in (edge.start, edge.end)}
    last = {}  # the edge by which an end came to its number
    for _ in range(len(numbers)):
        lowered = []
        for edge in edges:
            number = numbers[edge.end] + edge.bound
            if number < numbers[edge.start]:
                numbers[edge.start] = number
                last[edge.start] = edge
                lowered.append(edge.start)
        if not lowered:
            return numbers
    return walk_from(last, lowered[-1])


def walk_from(last, place):
    """The steps of the closed walk to which the last edges lead from a node."""
    visited = []
    while place not in visited:
        visited.append(place)
        place = last[place].end
    return [last[node].step for node in visited[visited.index(place) :]]


def right_lines(search):
    """The lines of a right derivation, which refutes where the search comes so far."""
    extras = (search.add_lemma, search.add_free_walk, search.add_rule, search.add_copy)
    for _ in range(search.draw.choice((0, 0, 1, 2, 3, 5))):
        extra = search.draw.choice(extras)
        extra()
        if search.lines and not derivations.clause_of_line(search.lines[-1]):
            return search.lines
    try:
        search.refute()
    except (Satisfied, Spent):
        search.back_to(0)
        search.add_lemma()
    return search.lines
