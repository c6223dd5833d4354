"""Reads formulas as trees with their places in the text, and makes further formulas of them.

A text that the program refuses needn't have a tree here; what is wrong with it is for the program to say.
"""

from __future__ import annotations

import re
from dataclasses import dataclass, replace
from typing import Dict, Iterator, List, NamedTuple, Optional, Tuple

TOKEN = re.compile(r"([0-9]+|\?)|([a-z][a-z0-9_]*)|(->|[()\[\],.!&|USFGOH])")
INTERVAL = re.compile(r"[FGOHUS][ \t\r\n]*\[[ \t\r\n]*([0-9]+|\?)[ \t\r\n]*,[ \t\r\n]*([0-9]+|\?|inf)[ \t\r\n]*\]")
BLANKS = " \t\r\n"
TIGHTNESS = {"->": 1, "|": 2, "&": 3, "U": 4, "S": 4}
PREFIX = 5  # how tightly `!`, F, G, O and H bind
RIGHTWARD = ("->", "U", "S")
TIMED = ("F", "G", "O", "H", "U", "S")
NO_BOUND = ("0", "inf")
MOST_DIGITS = 19  # of a number that the program accepts
MOST_LEVELS = 200  # of a formula that the program accepts


class Token(NamedTuple):
    """A token and the characters at which it begins and ends."""

    kind: str  # "number", "word", or the sign itself
    text: str
    start: int
    end: int


@dataclass(frozen=True)
class Tree:
    """A formula: a form, its parts, and the characters of the text at which it begins and ends.

    The forms are true, false, prop and the signs of the operators. The bounds of an interval are kept as they
    are written, so that `?` may stand for one.
    """

    form: str
    parts: Tuple["Tree", ...]
    start: int
    end: int
    interval: Tuple[str, str] = NO_BOUND
    host: str = ""
    name: str = ""


class Operator(NamedTuple):
    """An operator that waits for its right side, or an open parenthesis."""

    sign: str
    interval: Tuple[str, str]
    start: int


def tokens_of(text: str) -> Optional[List[Token]]:
    """The tokens of a text, or None where it has something else."""
    tokens, place = [], 0
    while place < len(text):
        if text[place] in BLANKS:
            place += 1
            continue
        found = TOKEN.match(text, place)
        if not found:
            return None
        if found.group(1) and len(found.group(1)) > MOST_DIGITS:
            return None
        kind = "number" if found.group(1) else "word" if found.group(2) else found.group()
        tokens.append(Token(kind, found.group(), place, found.end()))
        place = found.end()
    return tokens


class Parser:
    """Reads tokens with a stack of operators, so that no depth of parentheses is too much."""

    def __init__(self, tokens: List[Token]):
        self.tokens = tokens
        self.place = 0
        self.operands: List[Tree] = []
        self.heights: List[int] = []  # of the operands, in levels
        self.operators: List[Operator] = []

    def tree(self) -> Optional[Tree]:
        """The tree of all tokens, or None where they are no formula."""
        try:
            self.operand()
            while self.place < len(self.tokens):
                self.operator_or_close()
            while self.operators:
                self.reduce()
        except (IndexError, ValueError):
            return None
        return self.operands[0] if len(self.operands) == 1 else None

    def take(self) -> Token:
        self.place += 1
        return self.tokens[self.place - 1]

    def expect(self, kind: str) -> Token:
        token = self.take()
        if token.kind != kind:
            raise ValueError(token.text)
        return token

    def operand(self) -> None:
        """Takes prefixes and open parentheses up to an atom, and the atom."""
        while True:
            token = self.take()
            if token.kind in ("(", "!"):
                self.operators.append(Operator(token.kind, NO_BOUND, token.start))
            elif token.kind in ("F", "G", "O", "H"):
                self.operators.append(Operator(token.kind, self.interval(), token.start))
            else:
                self.push(self.atom(token), 1)
                return

    def push(self, tree: Tree, height: int) -> None:
        """Has a formula wait for what takes it; one that is higher than the program accepts is none."""
        if height > MOST_LEVELS:
            raise ValueError("too high")
        self.operands.append(tree)
        self.heights.append(height)

    def atom(self, token: Token) -> Tree:
        if token.kind != "word":
            raise ValueError(token.text)
        if token.text in ("true", "false"):
            return Tree(token.text, (), token.start, token.end)
        self.expect(".")
        name = self.expect("word")
        return Tree("prop", (), token.start, name.end, host=token.text, name=name.text)

    def interval(self) -> Tuple[str, str]:
        """The interval at this place, `[0,inf]` where there is none."""
        if self.place >= len(self.tokens) or self.tokens[self.place].kind != "[":
            return NO_BOUND
        self.take()
        low = self.expect("number").text
        self.expect(",")
        high = self.take()
        if high.kind != "number" and high.text != "inf":
            raise ValueError(high.text)
        self.expect("]")
        return low, high.text

    def operator_or_close(self) -> None:
        """Takes an operator between two formulas with what follows, or a closing parenthesis."""
        token = self.take()
        if token.kind == ")":
            while self.operators[-1].sign != "(":
                self.reduce()
            opened = self.operators.pop()
            inner = self.operands.pop()
            self.operands.append(widened(inner, opened.start, token.end))
            return
        if token.kind not in TIGHTNESS:
            raise ValueError(token.text)
        while self.operators and self.binds_first(self.operators[-1].sign, token.kind):
            self.reduce()
        interval = self.interval() if token.kind in TIMED else NO_BOUND
        self.operators.append(Operator(token.kind, interval, token.start))
        self.operand()

    @staticmethod
    def binds_first(waiting: str, sign: str) -> bool:
        """Whether a waiting operator takes its right side before the operator that comes."""
        if waiting == "(":
            return False
        tightness = TIGHTNESS.get(waiting, PREFIX)
        return tightness > TIGHTNESS[sign] or tightness == TIGHTNESS[sign] and sign not in RIGHTWARD

    def reduce(self) -> None:
        """Gives the last waiting operator its parts."""
        operator = self.operators.pop()
        if operator.sign == "(":
            raise ValueError("(")
        right, height = self.operands.pop(), self.heights.pop() + 1
        if operator.sign not in TIGHTNESS:
            self.push(Tree(operator.sign, (right,), operator.start, right.end, operator.interval), height)
            return
        left, height = self.operands.pop(), max(height, self.heights.pop() + 1)
        self.push(Tree(operator.sign, (left, right), left.start, right.end, operator.interval), height)


def widened(tree: Tree, start: int, end: int) -> Tree:
    """A tree whose text has the parentheses about it."""
    return Tree(tree.form, tree.parts, start, end, tree.interval, tree.host, tree.name)


def read_formula(text: str) -> Optional[Tree]:
    """The tree of a text, or None where it is no formula."""
    tokens = tokens_of(text)
    return Parser(tokens).tree() if tokens else None


def subtrees(tree: Tree) -> Iterator[Tree]:
    """A tree and all of its parts, from left to right."""
    waiting = [tree]
    while waiting:
        part = waiting.pop()
        yield part
        waiting += reversed(part.parts)


def is_higher(tree: Tree, most: int) -> bool:
    """Whether a tree has more levels than so many."""
    waiting = [(tree, 1)]
    while waiting:
        part, height = waiting.pop()
        if height > most:
            return True
        waiting += [(inner, height + 1) for inner in part.parts]
    return False


def propositions(tree: Tree) -> List[Tree]:
    """The propositions of a tree, each host and name once, at its first place."""
    found: Dict[Tuple[str, str], Tree] = {}
    for part in subtrees(tree):
        if part.form == "prop":
            found.setdefault((part.host, part.name), part)
    return list(found.values())


# Texts


def text_of(tree: Tree) -> str:
    """A text of the tree, with no more parentheses than it needs to be read at a glance."""
    if tree.form == "prop":
        return f"{tree.host}.{tree.name}"
    if not tree.parts:
        return tree.form
    sign = tree.form + interval_text(tree.interval) if tree.form in TIMED else tree.form
    if len(tree.parts) == 1:
        return ("!" if tree.form == "!" else sign + " ") + enclosed(tree.parts[0])
    is_chain = tree.form in ("&", "|") and tree.parts[0].form == tree.form  # which is read from the left
    left = text_of(tree.parts[0]) if is_chain else enclosed(tree.parts[0])
    return f"{left} {sign} {enclosed(tree.parts[1])}"


def chained(tree: Tree) -> List[Tree]:
    """The parts that a chain of `&`, or one of `|`, joins, from left to right."""
    return [inner for part in tree.parts for inner in (chained(part) if part.form == tree.form else [part])]


def parts_written(tree: Tree) -> int:
    """How many parts the text of a tree has, where equal parts may be one in memory."""
    counts: Dict[int, int] = {}

    def count(part: Tree) -> int:
        if id(part) not in counts:
            counts[id(part)] = 1 + sum(count(inner) for inner in part.parts)
        return counts[id(part)]

    return count(tree)


def different_parts(tree: Tree) -> int:
    """How many different parts a formula has in terms of `true`, propositions, `!`, `&`, `U` and `S` (docs/formula.md)."""
    numbers: Dict[Tuple[object, ...], int] = {}

    def number(*key: object) -> int:
        return numbers.setdefault(key, len(numbers))

    def number_of(part: Tree) -> int:
        if part.form == "prop":
            return number("prop", part.host, part.name)
        if part.form in ("true", "false"):
            return number("true") if part.form == "true" else number("!", number("true"))
        inner = [number_of(one) for one in part.parts]
        if part.form in ("|", "->"):
            left = number("!", inner[0]) if part.form == "|" else inner[0]
            return number("!", number("&", left, number("!", inner[1])))
        if part.form in ("F", "O", "G", "H"):
            sign = "U" if part.form in ("F", "G") else "S"
            some = number("!", inner[0]) if part.form in ("G", "H") else inner[0]
            found = number(sign, part.interval, number("true"), some)
            return number("!", found) if part.form in ("G", "H") else found
        return number(part.form, part.interval, *inner)

    number_of(tree)
    return len(numbers)


def enclosed(tree: Tree) -> str:
    """The text of a tree as a part: in parentheses where it has two parts of its own."""
    return f"({text_of(tree)})" if len(tree.parts) == 2 else text_of(tree)


def interval_text(interval: Tuple[str, str]) -> str:
    """An interval as it is written, nothing where it has no bounds."""
    return "" if interval == NO_BOUND else f"[{interval[0]},{interval[1]}]"


# Further formulas


TRUE = Tree("true", (), 0, 0)
FALSE = Tree("false", (), 0, 0)


def made(form: str, *parts: Tree, interval: Tuple[str, str] = NO_BOUND) -> Tree:
    """A tree that stands in no text."""
    return Tree(form, parts, 0, 0, interval)


def beyond_the_end(tree: Tree, wanted: bool) -> Tree:
    """The formula with each interval that reaches beyond the last row in favour of a value.

    With wanted true, an `F` or `U` whose interval isn't over at the last row counts as true, and a `G` that
    stands for its opposite as false, since later rows might have made it so; with wanted false it is the other
    way round, but for a `G` without an upper bound, which speaks of the rows that there are.
    """
    if not tree.parts:
        return tree
    turned = [wanted != (tree.form == "!" or tree.form == "->" and place == 0) for place in range(len(tree.parts))]
    parts = [beyond_the_end(part, way) for part, way in zip(tree.parts, turned)]
    same = made(tree.form, *parts, interval=tree.interval)
    high = tree.interval[1]
    is_over = FALSE if high == "inf" else made("F", TRUE, interval=(high, "inf"))
    if tree.form == "F" and wanted:
        return TRUE if high == "inf" else made("|", same, made("!", is_over))
    if tree.form == "U" and wanted:
        still = made("G", parts[0])
        return made("|", same, still if high == "inf" else made("&", still, made("!", is_over)))
    if tree.form == "G" and not wanted and high != "inf":
        return made("&", same, is_over)
    return same


def with_number(tree: Tree, number: int) -> Tree:
    """The tree with a number in place of each `?`, its places those of the text with `?`."""
    interval = tuple(str(number) if bound == "?" else bound for bound in tree.interval)
    parts = tuple(with_number(part, number) for part in tree.parts)
    return replace(tree, interval=interval, parts=parts)


def stray_mark(text: str) -> Optional[int]:
    """The place of the first `?` of a text that is no bound of an interval, or None."""
    rest = INTERVAL.sub(lambda found: " " * len(found.group()), text)
    return rest.index("?") if "?" in rest else None


def grows_truer(tree: Tree, is_positive: bool = True) -> List[bool]:
    """For each `?` of a tree, whether a greater number makes the whole formula true of more timings."""
    if tree.form == "!":
        return grows_truer(tree.parts[0], not is_positive)
    if tree.form == "->":
        return grows_truer(tree.parts[0], not is_positive) + grows_truer(tree.parts[1], is_positive)
    directions = []
    if tree.form in TIMED:
        is_some = tree.form in ("F", "O", "U", "S")
        widens_upward = is_some == is_positive
        directions += [not widens_upward] * (tree.interval[0] == "?")
        directions += [widens_upward] * (tree.interval[1] == "?")
    for part in tree.parts:
        directions += grows_truer(part, is_positive)
    return directions
