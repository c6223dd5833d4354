"""The formulas that windows can answer: `G phi`, conjunctions of such, and `F phi`, where phi has bounded operators."""

from __future__ import annotations

from functools import reduce
from typing import List, NamedTuple, Optional, Tuple

from ask.formulas import NO_BOUND, TIMED, Tree, made, propositions, text_of
from ask.logs import MOST_SKEW
from ask.texts import LIMITS, TOO_LONG, Trouble
from ask.words import shortened

PAST = ("O", "H", "S")


class Horizon(NamedTuple):
    """How far from a position a formula sees, back and forward."""

    past: int
    future: int


class Shape(NamedTuple):
    """A formula as windows answer it: what has to be true at every position, and whether it was asked the other way.

    A formula `F psi` is the dual: it is false exactly where `!psi` is true at every position.
    """

    body: Tree
    is_dual: bool
    horizon: Horizon
    propositions: Tuple[Tuple[str, str], ...]

    def window_text(self, first: int, last: int) -> str:
        """The formula with the positions at these distances from the first one in place of all."""
        sign, body = ("F", negated(self.body)) if self.is_dual else ("G", self.body)
        return text_of(made(sign, body, interval=(str(first), str(last))))


def shape_of(tree: Tree) -> Shape:
    """The shape of a formula, or the refusal of one that windows can't answer."""
    for is_dual in (False, True):
        parts = always_parts(tree, not is_dual)
        if parts is not None:
            body = reduce(lambda left, right: made("&", left, right), parts) if parts else made("true")
            found = tuple((part.host, part.name) for part in propositions(body))
            return refuse_long(Shape(body, is_dual, horizon_of(body), found))
    raise Trouble(TOO_LONG, (
        f"{shortened(text_of(tree), 120)} can't be asked of a log of more than 1,024 rows: windows of it answer `G` of "
        f"something, several of these joined by &, and `F` of something, without an interval. {hint(tree)}"
    ))


def refuse_long(shape: Shape) -> Shape:
    """Refuses a formula whose text in a window would be longer than a formula may be."""
    if len(shape.window_text(MOST_SKEW, MOST_SKEW)) >= LIMITS["formula"].most:
        raise Trouble(TOO_LONG, LIMITS["formula"].words)
    return shape


def hint(tree: Tree) -> str:
    """What could be asked in place of a formula that windows can't answer."""
    if tree.form in ("&", "|", "->", "!"):
        return "Ask for its parts one by one: of `f & g` both have to be true by every timing, of `f | g` one is enough"
    if tree.form in ("U", "S"):
        return "In place of `f U g` ask G (begin -> (f U[0,b] g)) with a bound b, and a row that begins it"
    if tree.form in TIMED and tree.interval != NO_BOUND:
        return "An interval at the top counts from the first row: leave it out, or ask a window of the log (ask log --help)"
    return "At the first row alone it is asked of a window of the log (ask log --help)"


def always_parts(tree: Tree, is_positive: bool) -> Optional[List[Tree]]:
    """What has to be true at every position for a formula, or for its negation, to be true; None where it's no such."""
    if tree.form == "!":
        return always_parts(tree.parts[0], not is_positive)
    joined = joined_parts(tree, is_positive)
    if joined:
        found = [always_parts(part, sign) for part, sign in joined]
        return None if any(parts is None for parts in found) else [one for parts in found for one in parts or ()]
    if is_always(tree, is_positive):
        return body_parts(tree.parts[0], is_positive)
    return [] if tree.form == ("true" if is_positive else "false") else None


def body_parts(tree: Tree, is_positive: bool) -> List[Tree]:
    """The parts of what has to be true at every position, where `G` within `G` says the same once more."""
    if tree.form == "!":
        return body_parts(tree.parts[0], not is_positive)
    joined = joined_parts(tree, is_positive)
    if joined:
        return [one for part, sign in joined for one in body_parts(part, sign)]
    if is_always(tree, is_positive):
        return body_parts(tree.parts[0], is_positive)
    refuse_unbounded(tree)
    return [tree if is_positive else negated(tree)]


def joined_parts(tree: Tree, is_positive: bool) -> List[Tuple[Tree, bool]]:
    """The two parts that are both true exactly where a formula, or its negation, is; none where it's no such form."""
    if tree.form == "&" and is_positive or tree.form == "|" and not is_positive:
        return [(part, is_positive) for part in tree.parts]
    if tree.form == "->" and not is_positive:
        return [(tree.parts[0], True), (tree.parts[1], False)]
    return []


def is_always(tree: Tree, is_positive: bool) -> bool:
    """Whether a formula is `G`, or its negation that of `F`, at all positions."""
    return tree.form == ("G" if is_positive else "F") and tree.interval == NO_BOUND


def negated(tree: Tree) -> Tree:
    """The negation of a formula."""
    return tree.parts[0] if tree.form == "!" else made("!", tree)


def refuse_unbounded(tree: Tree) -> None:
    """Refuses an operator without an upper bound within what has to be true at every position."""
    waiting = [tree]
    while waiting:
        part = waiting.pop()
        if part.form in TIMED and part.interval[1] == "inf":
            low = part.interval[0]
            raise Trouble(TOO_LONG, (
                f"{shortened(text_of(part), 120)} has no upper bound, so no window of the log is enough for it: give "
                f"it one, as {part.form}[{low},{int(low) + 1000}], or ask a window of the log (ask log --help)"
            ))
        waiting += part.parts


def horizon_of(tree: Tree) -> Horizon:
    """How far a formula with bounded operators sees."""
    found = [horizon_of(part) for part in tree.parts]
    past, future = (max((inner[way] for inner in found), default=0) for way in (0, 1))
    if tree.form not in TIMED:
        return Horizon(past, future)
    most = int(tree.interval[1])
    return Horizon(past + most, future) if tree.form in PAST else Horizon(past, future + most)
