"""The question of `check`, put to the solver z3.

Run as: python3 benches/z3.py FORMULA LOG [--text VALUE]

FORMULA and LOG are files. What is printed is `true`, `false`, `either` or `inconsistent`, as z3 answers the questions
whether the formula can be true and whether it can be false. With `--text` it is the question for a value, in SMT-LIB 2.

It is written as a careful user of a solver would write it from `docs/definitions.md`: an integer for each row and each
clock, the bounds of the log as differences, and a Boolean for each part of the formula and each row, which says whether
the part is true at the instant of the row. How two rows stand to each other is left out where their stamps and skews
alone decide it, and so is what nothing asks for. All times are told from a zero moment: z3 is slower by far where a time
by itself is compared with a number. `beside.py` times the answers.
"""

import argparse
import shutil
import subprocess
import sys
from pathlib import Path

sys.dont_write_bytecode = True  # leaves no compiled files beside the sources

ROOT = Path(__file__).resolve().parent.parent
sys.path.insert(0, str(ROOT / "tests" / "reference"))

import derivations
import formats
import logs
import reference

VALUES = ("true", "false")
FUTURE = ("F", "G", "U")
VERDICTS = {("sat", "unsat"): "true", ("unsat", "sat"): "false", ("sat", "sat"): "either", ("unsat", "unsat"): "inconsistent"}
NO_VERDICT = "unknown"


# Terms, of which `true` and `false` are left out wherever that can be seen


def negated(term):
    """The negation of a term."""
    if term in VALUES:
        return "false" if term == "true" else "true"
    return term[5:-1] if term.startswith("(not ") else f"(not {term})"


def joined(sign, neutral, terms):
    """The terms by `and` or `or`, up to the first one that decides."""
    parts = []
    for term in terms:
        if term == negated(neutral):
            return term
        if term != neutral:
            parts.append(term)
    if len(parts) < 2:
        return parts[0] if parts else neutral
    return f"({sign} {' '.join(parts)})"


def every(terms):
    """The conjunction of terms."""
    return joined("and", "true", terms)


def some(terms):
    """The disjunction of terms."""
    return joined("or", "false", terms)


def number(value):
    """A whole number."""
    return f"(- {-value})" if value < 0 else str(value)


def difference(first, second, most):
    """One time less another is at most a number."""
    return f"(<= (- {first} {second}) {number(most)})"


# The question


class Question:
    """What is said of the timings of a log and the truth of a formula."""

    def __init__(self, log, formula):
        self.log = log
        self.formula = formula
        self.rows = range(len(log.rows))
        skews = [reference.skew_of(log, row) for row in self.rows]
        self.least = [row.local - skew for row, skew in zip(log.rows, skews)]
        self.greatest = [row.local + skew for row, skew in zip(log.rows, skews)]
        self.parts = {}  # the number of each part of the formula, by what it says
        self.numbers = {}  # and by its tree
        self.terms = {}  # the term for each part and row, by their numbers
        moments = [None, *range(len(log.rows) + len(log.clocks))]
        self.lines = [f"(declare-const {self.time(moment)} Int)" for moment in moments]
        for bound in reference.bounds(log):
            self.lines.append(f"(assert {difference(self.time(bound.start), self.time(bound.end), bound.most)})")

    def text(self, value):
        """Whether the formula can have the value, in SMT-LIB 2."""
        asked = some(every((self.is_first(row), self.has(row, value))) for row in self.rows)
        return "\n".join(["(set-logic QF_IDL)", *self.lines, f"(assert {asked})", "(check-sat)", ""])

    def has(self, row, value):
        """The formula has the value at a row, of which nothing is said where the row is never first."""
        if self.is_first(row) == "false":
            return "false"
        term = self.truth(self.formula, row)
        return term if value == "true" else negated(term)

    # Times

    def time(self, moment):
        """The zero moment, the time of a row, or the offset of a clock, which stand behind the rows."""
        if moment is None:
            return "zero"
        return f"t{moment}" if moment < len(self.log.rows) else f"o{moment - len(self.log.rows)}"

    def at_most(self, first, second, most):
        """The time of a row is at most so much above that of another one."""
        if first == second:
            return "true" if most >= 0 else "false"
        if self.greatest[first] - self.least[second] <= most:
            return "true"
        if self.least[first] - self.greatest[second] > most:
            return "false"
        return difference(self.time(first), self.time(second), most)

    def not_after(self, first, second):
        """A row isn't later than another one."""
        return self.at_most(first, second, 0)

    def is_first(self, row):
        """No row is earlier."""
        return every(self.not_after(row, other) for other in self.rows)

    # Truth at a row

    def truth(self, tree, row):
        """The formula is true at the instant of a row."""
        key = self.part(tree), row
        if key not in self.terms:
            self.terms[key] = self.named(key, self.meaning(tree, row))
        return self.terms[key]

    def part(self, tree):
        """The number of a part of the formula; parts that say the same are one."""
        if tree not in self.numbers:
            says = tree.form, tree.interval, tree.host, tree.name, *map(self.part, tree.children)
            self.numbers[tree] = self.parts.setdefault(says, len(self.parts))
        return self.numbers[tree]

    def named(self, key, term):
        """A Boolean that is a term, or the term where it is a sign or two."""
        if term in VALUES or term.count("(") < 2 and term.startswith(("b", "(not b")):
            return term
        name = "b{}_{}".format(*key)
        self.lines.append(f"(declare-const {name} Bool)")
        self.lines.append(f"(assert (= {name} {term}))")
        return name

    def meaning(self, tree, row):
        """What it says that the formula is true at a row."""
        form, children = tree.form, tree.children
        if form in VALUES:
            return form
        if form == "prop":
            return self.state(tree, row)
        if form == "!":
            return negated(self.truth(children[0], row))
        if form in ("&", "|", "->"):
            left, right = (self.truth(child, row) for child in children)
            return every((left, right)) if form == "&" else some((negated(left) if form == "->" else left, right))
        if form in ("G", "H"):
            return every(some((negated(near), self.truth(children[0], other))) for other, near in self.reached(tree, row))
        return some(self.witness(tree, row, other, near) for other, near in self.reached(tree, row))

    def state(self, tree, row):
        """A proposition is true at a row: it is pulsed at that instant, or set and not cleared since."""
        acts = [other for other in self.rows if self.is_of(other, tree)]
        pulses = [other for other in acts if self.log.rows[other].act == b"pulse"]
        changes = [other for other in acts if self.log.rows[other].act in (b"set", b"clear")]
        spans = [every(self.within(span, row)) for span in self.spans(changes)]
        return some([every((self.not_after(other, row), self.not_after(row, other))) for other in pulses] + spans)

    def is_of(self, row, tree):
        """Whether a row is of the host and the name of a proposition."""
        row = self.log.rows[row]
        return self.log.hosts[row.host].name == tree.host and row.name == tree.name

    def spans(self, changes):
        """From which row to which one changes leave a proposition true; the second is None where nothing clears it."""
        start = None
        for row in changes:
            is_set = self.log.rows[row].act == b"set"
            if is_set and start is None:
                start = row
            elif not is_set and start is not None:
                yield start, row
                start = None
        if start is not None:
            yield start, None

    def within(self, span, row):
        """A row is in a span: rows of one host don't fall, so the end is that of the last change."""
        start, end = span
        yield self.not_after(start, row)
        if end is not None:
            yield negated(self.not_after(end, row))

    # Until, since, and what they are short for

    def reached(self, tree, row):
        """The rows that may be in the interval of an operator, each with what says that it is."""
        low, high = tree.interval
        for other in self.rows:
            early, late = (row, other) if tree.form in FUTURE else (other, row)
            near = every((self.at_most(early, late, -low), "true" if high is None else self.at_most(late, early, high)))
            if near != "false":
                yield other, near

    def witness(self, tree, row, other, near):
        """Another row shows that the operator holds at a row."""
        right = self.truth(tree.children[-1], other)
        if tree.form not in ("U", "S") or right == "false":
            return every((near, right))
        return every((near, right, *(self.bridge(tree, row, other, between) for between in self.rows)))

    def bridge(self, tree, row, other, between):
        """The left side is true at a row, if that is between."""
        if tree.form == "U":
            outside = some((negated(self.not_after(row, between)), self.not_after(other, between)))
        else:
            outside = some((self.not_after(between, other), negated(self.not_after(between, row))))
        return "true" if outside == "true" else some((outside, self.truth(tree.children[0], between)))


# Answers


def question_of(formula, log):
    """The question about the bytes of a formula and a log; a text where one of them is faulty."""
    tree = formats.read_formula(formula)
    read = logs.read_log(log) if isinstance(tree, formats.Tree) else None
    wrong = derivations.what_is_wrong(tree, read)
    if wrong:
        sys.exit(wrong)
    return Question(read, tree)


def is_decided(text):
    """Whether a question asks no more than whether the log admits a timing, or not even that."""
    return text.splitlines()[-2] in [f"(assert {value})" for value in VALUES]


def verdict_of(answers):
    """What z3's answers on true and false come to."""
    return VERDICTS.get(tuple(answers), NO_VERDICT)


def answer(text):
    """What z3 answers to a question."""
    return subprocess.run(["z3", "-in"], input=text, capture_output=True, text=True).stdout.strip()


def read_arguments():
    """The words of the command line."""
    parser = argparse.ArgumentParser(description="put the question of check to the solver z3")
    parser.add_argument("formula")
    parser.add_argument("log")
    parser.add_argument("--text", choices=VALUES, metavar="VALUE", help="print the question for true or false")
    return parser.parse_args()


def main():
    """Prints the verdict or the question."""
    arguments = read_arguments()
    question = question_of(*(Path(name).read_bytes() for name in (arguments.formula, arguments.log)))
    if arguments.text:
        print(question.text(arguments.text), end="")
    elif shutil.which("z3"):
        print(verdict_of(answer(question.text(value)) for value in VALUES))
    else:
        sys.exit("there is no z3")


if __name__ == "__main__":
    sys.path.insert(0, str(ROOT / "tests"))
    import ends

    ends.run(main)
