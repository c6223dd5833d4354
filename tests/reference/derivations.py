"""A second checker of derivations: it reads their text and says what they show.

Run as: python3 derivations.py FORMULA LOG VALUE DERIVATION [--widened N] [--extra E F C]

FORMULA, LOG and DERIVATION are files, and VALUE is true or false. With N all
skews of the log are greater by N, and with E, F and C it has the extra bound
t_E - t_F <= C. The answer is one line. `refutes`: each line is right and the
last one has an empty clause, so the formula has the value in no admissible
timing. `derives`: each line is right, but no clause is empty. `wrong N`: line N
is the first that isn't right, or the line before it has an empty clause
already. `syntax N`: line N is the first that isn't in the grammar of lines.

The module reads from top to bottom: literals, the grammar of lines, their
texts, the clause of each rule, the test of a line, the verdict. It goes over
lines and hints one after another and searches for nothing.
"""

import argparse
import itertools
import sys
from enum import Enum
from pathlib import Path
from typing import NamedTuple, Union

sys.dont_write_bytecode = True  # leaves no compiled files beside the sources

import formats
import logs
import reference
from formats import number, signed_number
from logs import Log

NUMBER_GREATEST = 2**32 - 1
BOUND_GREATEST = 10**21
RULE_GREATEST = 255


# Literals


class Literal(NamedTuple):
    """An atom and whether it is asserted or denied.

    The atoms, and what they say of a timing t; tree k is that of node k.
    ("order", e, f, c)  t_e - t_f <= c; e is below f
    ("node", k, e)      tree k is true at the time of event e
    ("first", e)        no event is earlier than e
    ("span", k, i, j)   the left side of tree k is true on the whole way from i to j
    ("wit", k, i, j)    event j makes tree k, an until or since, true at event i
    ("gap", k, i, m)    event m ends the way from i on which the left side of tree k is true
    ("same", e, x)      t_e = t_x; e is below x
    """

    atom: tuple
    positive: bool


# What a rule lists: a literal, or a constant that is known from the events alone.
Part = Union[Literal, bool]


def order(e, f, c) -> Part:
    """That t_e - t_f <= c. Of one event alone this is the constant 0 <= c.

    As times are whole numbers, t_e - t_f <= c is the denial of t_f - t_e <= -c - 1.
    The atom is the one of the two that has its smaller event first.
    """
    if e == f:
        return 0 <= c
    if e < f:
        return Literal(("order", e, f, c), True)
    return Literal(("order", f, e, -c - 1), False)


def negation(part: Part) -> Part:
    """The same literal with the other sense, or the other constant."""
    if isinstance(part, bool):
        return not part
    return Literal(part.atom, not part.positive)


def le(e, x) -> Part:
    """That event e isn't later than event x."""
    return order(e, x, 0)


def node(k, e):
    """That tree k is true at event e."""
    return Literal(("node", k, e), True)


def first(e):
    """That no event is earlier than e."""
    return Literal(("first", e), True)


def span(k, i, j):
    """That the left side of tree k is true on the whole way from i to j."""
    return Literal(("span", k, i, j), True)


def wit(k, i, j):
    """That event j is a witness of tree k at event i."""
    return Literal(("wit", k, i, j), True)


def gap(k, i, m):
    """That the left side of tree k fails at m, and before m nowhere on the way from i."""
    return Literal(("gap", k, i, m), True)


def same(e, x) -> Part:
    """That the events e and x are at one instant. Of one event alone this is always so."""
    return e == x or Literal(("same", min(e, x), max(e, x)), True)


# Lines


class Step(NamedTuple):
    """A step of a walk: a bound of the log by its kind and number, or an order step E F C."""

    kind: bytes
    numbers: tuple


class Cycle(NamedTuple):
    steps: list


class LineHint(NamedTuple):
    line: int  # lines count from 1


class Rule(NamedTuple):
    number: int
    arguments: tuple


class Learn(NamedTuple):
    literals: list
    hints: list  # of LineHint and Rule


class SyntaxFault(NamedTuple):
    line: int


# The arguments of each rule: k is a node, e x i j m are events, s is a change row, u is a pulse row.
RULE_ARGUMENTS = {
    1: "ke", 2: "kes", 3: "ke", 4: "ke", 5: "ke", 6: "ke", 7: "ke", 8: "ke",
    9: "ex", 10: "e", 11: "", 12: "kij", 13: "kij", 14: "kij", 15: "kij", 16: "kij",
    17: "ki", 18: "kij", 19: "kijm", 20: "kij", 21: "kijm", 22: "kim", 23: "kim", 24: "e",
    25: "ex", 26: "ex", 27: "keu", 28: "kij",
}

# The literals that are written with a sign, each with the count of its numbers.
SIGNED_ATOMS = {b"node": 2, b"first": 1, b"same": 2, b"wit": 3, b"span": 3, b"gap": 3}
LOG_STEPS = (b"low", b"high", b"rise", b"message", b"late", b"under", b"over", b"extra")


class NotInGrammar(Exception):
    """A line that the grammar doesn't have."""


class Words:
    """The words of a line, which single blanks separate, from left to right."""

    def __init__(self, line):
        self.left = line.split(b" ")
        self.left.reverse()

    def take(self):
        """The next word."""
        if not self.left:
            raise NotInGrammar
        return self.left.pop()

    def number(self, greatest=NUMBER_GREATEST):
        """The next word, a number up to the greatest."""
        value = number(self.take(), greatest)
        if value is None:
            raise NotInGrammar
        return value

    def numbers(self, count):
        """The next words, that many numbers."""
        return tuple(self.number() for _ in range(count))

    def order(self):
        """The events and the bound of an order constraint, whose first word is taken."""
        e, f = self.numbers(2)
        c = signed_number(self.take(), BOUND_GREATEST)
        if e == f or c is None:
            raise NotInGrammar
        return e, f, c

    def listed(self, read):
        """A count and then that many items, each read by the function."""
        return [read(self) for _ in range(self.number())]

    def end(self):
        """Nothing, as the line must end here."""
        if self.left:
            raise NotInGrammar


def read_lines(data):
    """The lines of a derivation, or the SyntaxFault of the first that isn't in the grammar."""
    *ended, rest = data.split(b"\n")
    lines = []
    for place, text in enumerate(ended, start=1):
        try:
            lines.append(read_line(Words(text)))
        except NotInGrammar:
            return SyntaxFault(place)
    return SyntaxFault(len(ended) + 1) if rest else lines


def read_line(words):
    """The line that the words spell."""
    form = words.take()
    if form == b"cycle":
        line = Cycle(words.listed(read_step))
    elif form == b"learn":
        line = Learn(words.listed(read_literal), words.listed(read_hint))
        atoms = [literal.atom for literal in line.literals]
        if len(set(atoms)) < len(atoms):
            raise NotInGrammar
    else:
        raise NotInGrammar
    words.end()
    return line


def read_step(words):
    """The next step."""
    kind = words.take()
    if kind == b"order":
        return Step(kind, words.order())
    if kind in LOG_STEPS:
        return Step(kind, words.numbers(1))
    raise NotInGrammar


def read_literal(words):
    """The next literal."""
    word = words.take()
    if word == b"order":
        return order(*words.order())
    sign, kind = word[:1], word[1:]
    if sign not in (b"+", b"-") or kind not in SIGNED_ATOMS:
        raise NotInGrammar
    atom = (kind.decode(), *words.numbers(SIGNED_ATOMS[kind]))
    if kind == b"same" and atom[1] >= atom[2]:
        raise NotInGrammar
    return Literal(atom, sign == b"+")


def read_hint(words):
    """The next hint."""
    kind = words.take()
    if kind == b"line":
        return LineHint(words.number())
    if kind != b"rule":
        raise NotInGrammar
    rule = words.number(RULE_GREATEST)
    return Rule(rule, words.numbers(len(RULE_ARGUMENTS.get(rule, ""))))


# Texts of lines


def text_of(lines):
    """The text of a derivation."""
    return b"".join(b" ".join(words_of(line)) + b"\n" for line in lines)


def words_of(line):
    """The words of a line."""
    if isinstance(line, Cycle):
        return [b"cycle", b"%d" % len(line.steps), *itertools.chain(*map(step_words, line.steps))]
    literals = itertools.chain(*map(literal_words, line.literals))
    hints = itertools.chain(*map(hint_words, line.hints))
    return [b"learn", b"%d" % len(line.literals), *literals, b"%d" % len(line.hints), *hints]


def step_words(step):
    """The words of a step."""
    return [step.kind, *spelled(step.numbers)]


def literal_words(literal):
    """The words of a literal. An order literal that is denied is spelled as its opposite."""
    kind, *numbers = literal.atom
    if kind != "order":
        return [b"-+"[literal.positive :][:1] + kind.encode(), *spelled(numbers)]
    e, f, bound = numbers
    return [b"order", *spelled(numbers if literal.positive else (f, e, -bound - 1))]


def hint_words(hint):
    """The words of a hint."""
    if isinstance(hint, LineHint):
        return [b"line", *spelled(hint)]
    return [b"rule", *spelled((hint.number, *hint.arguments))]


def spelled(numbers):
    """The numbers as words."""
    return [b"%d" % value for value in numbers]


# The clauses of rules


class Problem(NamedTuple):
    """A log, a formula and the value of it that is sought."""

    log: Log
    bounds: dict  # the bounds of the log by kind and number
    nodes: list  # the nodes of the formula, of which the root is the last
    value: bool


def problem_of(log, formula, value):
    """The problem whether some admissible timing gives the value."""
    bounds = {(bound.kind, bound.event): bound for bound in reference.bounds(log)}
    return Problem(log, bounds, formats.core_nodes(formula), value)


class RuleFault(Enum):
    """Why a rule with its arguments has no clause."""

    NO_RULE = "no rule"
    RANGE = "range"
    KIND = "kind"
    TRIVIAL = "trivial"


# The kinds of node of which each rule asks one.
RULE_KINDS = {
    **dict.fromkeys((1, 2, 27), ("prop",)),
    3: ("true",),
    **dict.fromkeys((4, 5), ("not",)),
    **dict.fromkeys((6, 7, 8), ("and",)),
    **dict.fromkeys((*range(12, 24), 28), ("until", "since")),
}


def clause_of(problem, rule):
    """The literals of a rule's clause, or the RuleFault that is tested first."""
    fault = argument_fault(problem, rule)
    if fault:
        return fault
    literals = []
    for part in rule_parts(problem, rule):
        if part is False:
            continue
        if part is True or negation(part) in literals:
            return RuleFault.TRIVIAL
        if part not in literals:
            literals.append(part)
    return literals


def argument_fault(problem, rule):
    """The first fault of a rule's number and arguments, or None."""
    if rule.number not in RULE_ARGUMENTS:
        return RuleFault.NO_RULE
    given = dict(zip(RULE_ARGUMENTS[rule.number], rule.arguments))
    for letter, value in given.items():
        there = problem.nodes if letter == "k" else problem.log.rows
        if letter not in "su" and value >= len(there):
            return RuleFault.RANGE
    if rule.number in RULE_KINDS and problem.nodes[given["k"]][0] not in RULE_KINDS[rule.number]:
        return RuleFault.KIND
    if rule.number == 28 and problem.nodes[problem.nodes[given["k"]][2]][0] != "true":
        return RuleFault.KIND
    if rule.number == 26 and given["e"] >= given["x"]:
        return RuleFault.KIND
    if rule.number == 2 and given["s"] >= len(change_rows(problem, given["k"])):
        return RuleFault.RANGE
    if rule.number == 27 and given["u"] >= len(pulse_rows(problem, given["k"])):
        return RuleFault.RANGE
    if rule.number == 13 and problem.nodes[given["k"]][1][1] is None:
        return RuleFault.NO_RULE
    if rule.number in (25, 26) and not any(is_pulse(problem, given[letter]) for letter in "ex"):
        return RuleFault.NO_RULE
    return None


def rule_parts(problem, rule):
    """What the rule lists, in its order. Its arguments are without fault."""
    if rule.number in (1, 2, 27):
        return proposition_parts(problem, rule.number, *rule.arguments)
    if rule.number in (25, 26):
        return instant_parts(rule.number, *rule.arguments)
    if rule.number in range(3, 9):
        return connective_parts(problem, rule.number, *rule.arguments)
    if rule.number in (9, 10, 11, 24):
        return first_parts(problem, rule.number, *rule.arguments)
    k, *events = rule.arguments
    timed = Timed(k, *problem.nodes[k])
    if rule.number in (*range(12, 19), 28):
        return witness_parts(problem, rule.number, timed, *events)
    if rule.number in (19, 20, 21):
        return span_parts(problem, rule.number, timed, *events)
    return gap_parts(rule.number, timed, *events)


def change_rows(problem, k):
    """The rows that set or clear the proposition of node k, in log order."""
    return [*rows_of(problem, k, (b"set", b"clear"))]


def pulse_rows(problem, k):
    """The rows at whose instant the proposition of node k is true, whatever it is besides, in log order."""
    return [*rows_of(problem, k, (b"pulse",))]


def rows_of(problem, k, acts):
    """The rows of some acts on the proposition of node k, in log order."""
    _, host, name = problem.nodes[k]
    for event, row in enumerate(problem.log.rows):
        if row.act in acts and problem.log.hosts[row.host].name == host and row.name == name:
            yield event


def is_pulse(problem, event):
    """Whether an event is a pulse row."""
    return problem.log.rows[event].act == b"pulse"


def proposition_parts(problem, rule, k, e, place=0):
    """Rules 1, 2 and 27: what a proposition is at e, by its change rows and pulse rows."""
    rows, pulses = change_rows(problem, k), [same(row, e) for row in pulse_rows(problem, k)]
    if rule == 1:
        return [negation(node(k, e)), *[le(row, e) for row in rows[:1]], *pulses]
    if rule == 27:
        return [negation(pulses[place]), node(k, e)]
    before_next = [negation(le(rows[place], e)), *[le(row, e) for row in rows[place + 1 : place + 2]]]
    if problem.log.rows[rows[place]].act == b"set":
        return [*before_next, node(k, e)]
    return [*before_next, negation(node(k, e)), *pulses]


def instant_parts(rule, e, x):
    """Rules 25 and 26: events are at one instant where neither is later than the other."""
    if rule == 25:
        return [negation(same(e, x)), le(e, x)]
    return [same(e, x), negation(le(e, x)), negation(le(x, e))]


def connective_parts(problem, rule, k, e):
    """Rules 3 to 8: what true, a negation and a conjunction are at e."""
    whole = node(k, e)
    parts = [node(child, e) for child in problem.nodes[k][1:]]
    if rule == 3:
        return [whole]
    if rule == 4:
        return [negation(whole), negation(parts[0])]
    if rule == 5:
        return [whole, parts[0]]
    if rule == 6:
        return [negation(whole), parts[0]]
    if rule == 7:
        return [negation(whole), parts[1]]
    return [whole, negation(parts[0]), negation(parts[1])]


def first_parts(problem, rule, e=0, x=0):
    """Rules 9 to 11: which events are first. Rule 24: the value that is sought at these."""
    events = range(len(problem.log.rows))
    if rule == 9:
        return [negation(first(e)), le(e, x)]
    if rule == 10:
        return [first(e), *[negation(le(e, other)) for other in events if other != e]]
    if rule == 11:
        return [first(event) for event in events]
    root = node(len(problem.nodes) - 1, e)
    return [negation(first(e)), root if problem.value else negation(root)]


class Timed(NamedTuple):
    """An until, which looks forward from an event, or a since, which looks back."""

    number: int
    kind: str
    interval: tuple  # its ends, of which the second may be None
    left: int
    right: int

    def near(self, i, j) -> Part:
        """That j is at least as far from i as the interval's low end."""
        low = self.interval[0]
        return order(i, j, -low) if self.kind == "until" else order(j, i, -low)

    def far(self, i, j) -> Part:
        """That j is at most as far from i as the interval's high end."""
        high = self.interval[1]
        return order(j, i, high) if self.kind == "until" else order(i, j, high)

    def onward(self, i, m) -> Part:
        """That m isn't behind i in the direction in which the tree looks."""
        return le(i, m) if self.kind == "until" else le(m, i)


def witness_parts(problem, rule, timed, i, j=0):
    """Rules 12 to 18 and 28: what a witness is, and that a tree is true where it has one."""
    k = timed.number
    if rule == 12:
        return [negation(wit(k, i, j)), timed.near(i, j)]
    if rule == 13:
        return [negation(wit(k, i, j)), timed.far(i, j)]
    if rule == 14:
        return [negation(wit(k, i, j)), node(timed.right, j)]
    if rule == 15:
        return [negation(wit(k, i, j)), span(k, i, j)]
    if rule in (16, 28):
        within = [timed.near(i, j)] + ([] if timed.interval[1] is None else [timed.far(i, j)])
        asked = [*within, node(timed.right, j), *([span(k, i, j)] if rule == 16 else [])]
        return [wit(k, i, j), *[negation(part) for part in asked]]
    if rule == 17:
        events = range(len(problem.log.rows))
        return [negation(node(k, i)), *[wit(k, i, event) for event in events]]
    return [node(k, i), negation(wit(k, i, j))]


def span_parts(problem, rule, timed, i, j, m=0):
    """Rules 19 to 21: the way from i to j is free exactly where no gap is on it."""
    k = timed.number
    if rule == 19:
        on_the_way = [negation(timed.onward(i, m)), timed.onward(j, m)]
        return [negation(span(k, i, j)), *on_the_way, node(timed.left, m)]
    if rule == 20:
        events = range(len(problem.log.rows))
        return [span(k, i, j), *[gap(k, i, event) for event in events]]
    return [negation(gap(k, i, m)), negation(timed.onward(j, m)), span(k, i, j)]


def gap_parts(rule, timed, i, m):
    """Rules 22 and 23: a gap isn't behind i, and the left side is false at it."""
    denied = negation(gap(timed.number, i, m))
    if rule == 22:
        return [denied, timed.onward(i, m)]
    return [denied, negation(node(timed.left, m))]


# The test of a line


def clause_of_line(line):
    """The clause of a line: what it learns, or that not all order steps of its walk hold."""
    if isinstance(line, Learn):
        return line.literals
    clause = []
    for step in line.steps:
        if step.kind == b"order" and negation(order(*step.numbers)) not in clause:
            clause.append(negation(order(*step.numbers)))
    return clause


def is_right(problem, line, earlier):
    """Whether a line is right after lines with the earlier clauses."""
    if isinstance(line, Cycle):
        return is_conflict(problem, line.steps)
    if not all(in_range(problem, literal) for literal in line.literals):
        return False
    clauses = [hint_clause(problem, hint, earlier) for hint in line.hints]
    return None not in clauses and hints_refute(line.literals, clauses)


def is_conflict(problem, steps):
    """Whether the steps are a closed walk whose bounds add up to less than nothing."""
    walk = [ends_and_bound(problem, step) for step in steps]
    if not walk or None in walk:
        return False
    for (_, end, _), (start, _, _) in zip(walk, walk[1:] + walk[:1]):
        if end != start:
            return False
    return sum(bound for _, _, bound in walk) < 0


def ends_and_bound(problem, step):
    """Where a step starts, where it ends, and its bound; None for a step that there isn't.

    The zero moment, at which some bounds of the log start or end, is None too,
    and a clock is a number above those of the rows. An order step is one between
    two rows.
    """
    if step.kind == b"order":
        e, f, c = step.numbers
        return (e, f, c) if max(e, f) < len(problem.log.rows) else None
    bound = problem.bounds.get((step.kind, step.numbers[0]))
    return bound and (bound.start, bound.end, bound.most)


def in_range(problem, literal):
    """Whether a literal names events and nodes that there are, and an until or since if it must."""
    kind, *numbers = literal.atom
    if kind == "order":
        events = numbers[:2]
    elif kind in ("first", "same"):
        events = numbers
    else:
        k, *events = numbers
        if k >= len(problem.nodes):
            return False
        if kind != "node" and problem.nodes[k][0] not in ("until", "since"):
            return False
    return all(event < len(problem.log.rows) for event in events)


def hint_clause(problem, hint, earlier):
    """The clause that a hint names, or None where there is none."""
    if isinstance(hint, LineHint):
        return earlier[hint.line - 1] if 1 <= hint.line <= len(earlier) else None
    clause = clause_of(problem, hint)
    return None if isinstance(clause, RuleFault) else clause


def hints_refute(literals, clauses):
    """Whether the clauses, one after another, show that one of the literals holds.

    All of the literals are assumed false. Each clause but the last leaves just
    one literal that may be true, which is then assumed; the last leaves none.
    """
    assumed = {negation(literal) for literal in literals}
    for place, clause in enumerate(clauses):
        left = [literal for literal in clause if negation(literal) not in assumed]
        if place == len(clauses) - 1:
            return not left
        if len(left) != 1 or left[0] in assumed:
            return False
        assumed.add(left[0])
    return False


# The verdict


def first_wrong(problem, lines):
    """The number of the first line that isn't right or follows an empty clause, or None."""
    clauses = []
    for place, line in enumerate(lines, start=1):
        after_empty = place > 1 and not clauses[-1]
        if after_empty or not is_right(problem, line, clauses):
            return place
        clauses.append(clause_of_line(line))
    return None


def ends_empty(lines):
    """Whether there is a last line and its clause is empty."""
    return bool(lines) and not clause_of_line(lines[-1])


def verdict(problem, lines):
    """What the lines show: refutes, derives, or wrong and the first line that is wrong."""
    place = first_wrong(problem, lines)
    if place is not None:
        return f"wrong {place}"
    return "refutes" if ends_empty(lines) else "derives"


def answer(problem, data):
    """The verdict on the lines that the bytes spell, or syntax and the first faulty line."""
    lines = read_lines(data)
    if isinstance(lines, SyntaxFault):
        return f"syntax {lines.line}"
    return verdict(problem, lines)


def read_file(name):
    """The bytes of a file."""
    with open(name, "rb") as file:
        return file.read()


def read_inputs(formula_name, log_name):
    """The formula and the log of two files; without them there is nothing to judge."""
    formula = formats.read_formula(read_file(formula_name))
    log = logs.read_log(read_file(log_name))
    wrong = what_is_wrong(formula, log)
    if wrong:
        sys.exit(wrong)
    return formula, log


def what_is_wrong(formula, log):
    """The fault of a formula or a log, each as it was read, or None."""
    if isinstance(formula, formats.FormulaFault):
        return f"formula fault {formula.number} at byte {formula.byte}"
    if isinstance(log, logs.LogFault):
        return f"log fault {log.number}" + ("" if log.record is None else f" at record {log.record}")
    byte = formats.unknown_host(formula, log)
    for leaf in formats.propositions(formula):
        if leaf.byte == byte:
            return f"the host {leaf.host.decode()} of the formula, at byte {byte}, isn't in the log"
    return None


def read_arguments():
    """The files, the value and the options of the command line."""
    parser = argparse.ArgumentParser(description="check a derivation")
    for name in ("formula", "log"):
        parser.add_argument(name)
    parser.add_argument("value", choices=("true", "false"))
    parser.add_argument("derivation")
    parser.add_argument("--widened", type=int, default=0, metavar="N", help="all skews are greater by N")
    parser.add_argument("--extra", type=int, nargs=3, metavar=("E", "F", "C"), help="t_E - t_F is at most C")
    return parser.parse_args()


def main():
    """Prints the answer to the files of the command line."""
    arguments = read_arguments()
    formula, log = read_inputs(arguments.formula, arguments.log)
    log = logs.widened(log, arguments.widened)
    if arguments.extra:
        log = logs.with_extra(log, logs.Extra(*arguments.extra))
    print(answer(problem_of(log, formula, arguments.value == "true"), read_file(arguments.derivation)))


if __name__ == "__main__":
    sys.path.insert(0, str(Path(__file__).resolve().parents[1]))
    import ends

    ends.run(main)
