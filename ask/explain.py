"""Where on a timing a formula holds or fails: each step is asked of the program by `replay`."""

from __future__ import annotations

from dataclasses import dataclass
from itertools import islice
from typing import Callable, Iterator, List, NamedTuple, Optional, Sequence, Set, Tuple

from ask.formulas import NO_BOUND, Tree, chained, enclosed, interval_text, propositions, text_of
from ask.logs import Log, change_rows, pulse_rows
from ask.question import Question
from ask.units import Scale
from ask.words import lines_words, shortened

DEEPEST = 5  # operators of time within one another that are explained
MOST_SENTENCES = 12
MOST_OF_ALL = 200  # sentences where all are wanted


class Moment(NamedTuple):
    """A moment at which the outermost part of a formula is decided, and whether what is looked for holds there."""

    time: int
    value: bool


class Span(NamedTuple):
    """The moments from a first to a last one; None where there is no first or no last one."""

    first: Optional[int]
    last: Optional[int]


@dataclass
class Timing:
    """An admissible timing of a question, with the runs that ask for truth at its positions."""

    question: Question
    log: Log
    times: Sequence[int]
    where: str = "the log"  # what has the rows

    def __post_init__(self) -> None:
        self.positions = sorted(set(self.times))
        self.named: Set[int] = set()  # the rows that sentences have named
        self.moments: List[Moment] = []  # that decide the formula, or the parts of its outermost chain
        self.spans: List[Span] = []  # of which sentences say that a part holds throughout, or nowhere

    def holds(self, text: str, place: int) -> bool:
        """Whether a text is true at a position."""
        distance = self.positions[place] - self.positions[0]
        return self.question.is_true(f"F[{distance},{distance}] ({text})" if place else text, self.times)

    def place_words(self, place: int) -> str:
        """A position as sentences name it."""
        moment = self.positions[place]
        events = [event for event, time in enumerate(self.times) if time == moment]
        self.named.update(events)
        rows = [self.log.rows[event] for event in events]
        shown = [f"{self.log.host_of(event)} {row.kind} {row.name}" for event, row in zip(events, rows)]
        more = ", .." if len(shown) > 4 else ""
        return f"at {self.log.scale.moment(moment)} ({lines_words(self.log, events)}: {', '.join(shown[:4])}{more})"

    def least_place(self, place: int, is_there: Callable[[int], bool], is_forward: bool) -> int:
        """The nearest position from a place on, forward or back, up to which something is there; it is somewhere."""
        distances = range(0, len(self.positions) - place if is_forward else place + 1)
        low, high = 0, len(distances) - 1
        while low < high:
            middle = (low + high) // 2
            if is_there(place + middle if is_forward else place - middle):
                high = middle
            else:
                low = middle + 1
        return place + low if is_forward else place - low


def reasons_of(timing: Timing, tree: Tree, value: bool, is_all: bool) -> List[str]:
    """All that is said of why a formula has its value, with the propositions that are lost at an instant."""
    return explained(timing, tree, value, is_all) + vanished_words(timing, tree)


def left_out_words(value: bool) -> str:
    """That it isn't shown why a formula has its value, where a run that would tell it doesn't."""
    return f"why the formula is {str(value).lower()} isn't shown: a run was refused, failed, or took too long"


def explained(timing: Timing, tree: Tree, value: bool, is_all: bool) -> List[str]:
    """Sentences on why a formula has its value at the first position of a timing."""
    most = MOST_OF_ALL if is_all else MOST_SENTENCES
    sentences = list(islice(each_once(steps(timing, tree, 0, value, 0)), most + 1))
    if len(sentences) <= most:
        return sentences
    return [*sentences[:most], "More is to be said of further parts" + ("" if is_all else "; --all says it")]


def each_once(sentences: Iterator[str]) -> Iterator[str]:
    """Sentences without those that were there before."""
    said: Set[str] = set()
    for sentence in sentences:
        if sentence not in said:
            said.add(sentence)
            yield sentence


def steps(timing: Timing, tree: Tree, place: int, value: bool, depth: int) -> Iterator[str]:
    """Sentences on why a part has its value at a position."""
    if depth >= DEEPEST:
        return
    if tree.form == "prop":
        keep_moment(timing, place, value, depth)
        yield from state_words(timing, tree, place, value)
    elif not tree.parts:
        return
    elif tree.form == "!":
        yield from steps(timing, tree.parts[0], place, not value, depth)
    elif tree.form in ("&", "|"):
        yield from steps_of_chain(timing, tree, place, value, depth)
    elif tree.form == "->":
        yield from steps_of_implication(timing, tree, place, value, depth)
    elif is_some(tree, value):
        yield from steps_of_some(timing, tree, place, depth)
    elif tree.form in ("F", "O", "G", "H"):
        yield from steps_of_all(timing, tree, place, value)
    else:
        yield from steps_of_until(timing, tree, place, value, depth)


def keep_moment(timing: Timing, place: int, value: bool, depth: int) -> None:
    """Keeps the moment of a position that decides a part, unless that stands within another operator of time."""
    moment = Moment(timing.positions[place], value)
    if depth == 0 and moment not in timing.moments:
        timing.moments.append(moment)


def is_some(tree: Tree, value: bool) -> bool:
    """Whether one position gives a formula its value: an `F` or `O` that holds, or a `G` or `H` that fails."""
    return tree.form in ("F", "O") and value or tree.form in ("G", "H") and not value


def state_words(timing: Timing, tree: Tree, place: int, value: bool) -> List[str]:
    """That a proposition has its value, and since which row, or by which pulse."""
    host = timing.log.host_numbered(tree.host) or 0
    moment = timing.positions[place]
    changes = [e for e in change_rows(timing.log, host, tree.name) if timing.times[e] <= moment]
    pulses = pulse_rows(timing.log, timing.times, moment, host, tree.name)
    is_set = bool(changes) and timing.log.rows[changes[-1]].kind == "set"
    timing.named.update(pulses if pulses and not is_set else changes[-1:])
    since = f"since {lines_words(timing.log, changes[-1:])}" if changes else "as no row before has set it"
    if pulses and not is_set:
        since = f"by the pulse of {lines_words(timing.log, pulses)}"
    return [f"{tree.host}.{tree.name} is {str(value).lower()} {timing.place_words(place)}, {since}"]


def steps_of_chain(timing: Timing, tree: Tree, place: int, value: bool, depth: int) -> Iterator[str]:
    """Sentences on a chain of `&` or `|`: on the part that alone gives it its value, or on all of them."""
    part, part_value = counting_part(timing, tree, place, value)
    if part is tree:
        for joined in chained(tree):
            yield from steps(timing, joined, place, value, depth)
        return
    names_itself = place and is_some(part, part_value)
    if not is_literal(part) and not names_itself:
        yield f"{shown(part)} {verb(part_value)} {timing.place_words(place)}"
    yield from steps(timing, part, place, part_value, depth)


def counting_part(timing: Timing, tree: Tree, place: int, value: bool) -> Tuple[Tree, bool]:
    """The first part that makes a chain of `&` fail or one of `|` hold, and its value; else the formula as it is."""
    if tree.form == "!":
        part, part_value = counting_part(timing, tree.parts[0], place, not value)
        return (tree, value) if part is tree.parts[0] else (part, part_value)
    if tree.form not in ("&", "|") or value != (tree.form == "|"):
        return tree, value
    parts = chained(tree)
    low, high = 0, len(parts) - 1
    while low < high:
        middle = (low + high) // 2
        beginning = f" {tree.form} ".join(enclosed(part) for part in parts[: middle + 1])
        if timing.holds(beginning, place) == value:
            high = middle
        else:
            low = middle + 1
    return counting_part(timing, parts[low], place, value)


def is_literal(tree: Tree) -> bool:
    """Whether a formula is a proposition or a constant, or the negation of one."""
    return not tree.parts or tree.form == "!" and is_literal(tree.parts[0])


def verb(value: bool) -> str:
    return "holds" if value else "fails"


def at_place(timing: Timing, tree: Tree, place: int, value: bool) -> Tuple[str, Tree, bool]:
    """That a formula has a value at a position, and the part to go on with, with its value.

    It is said of the part that alone makes it so. A proposition isn't named yet: that is for its own sentence.
    """
    part, part_value = counting_part(timing, tree, place, value)
    named, its_value = (tree, value) if is_literal(part) else (part, part_value)
    return f"{shown(named)} {verb(its_value)} {timing.place_words(place)}", part, part_value


def steps_of_implication(timing: Timing, tree: Tree, place: int, value: bool, depth: int) -> Iterator[str]:
    """Sentences on an implication: on both sides where it fails, and on the one that lets it hold."""
    left, right = tree.parts
    if not value:
        yield from steps(timing, left, place, True, depth)
        yield from steps(timing, right, place, False, depth)
    elif timing.holds(text_of(left), place):
        yield from steps(timing, right, place, True, depth)
    else:
        yield from steps(timing, left, place, False, depth)


def shown(tree: Tree) -> str:
    """A formula as sentences have it, the beginning of it where it is long."""
    return shortened(text_of(tree), 120)


def is_forward(tree: Tree) -> bool:
    """Whether a form looks at later positions."""
    return tree.form in ("F", "G", "U")


def steps_of_some(timing: Timing, tree: Tree, place: int, depth: int) -> Iterator[str]:
    """Sentences on the nearest position at which an `F` or `O` has its witness, or a `G` or `H` fails."""
    child = tree.parts[0]
    value = tree.form in ("F", "O")
    sign = "F" if is_forward(tree) else "O"
    wanted = text_of(child) if value else f"!({text_of(child)})"
    found = nearest(timing, sign, tree.interval[0], wanted, place)
    if found is None:
        return
    keep_moment(timing, found, value, depth)
    line, part, part_value = at_place(timing, child, found, value)
    if place:
        away = f", {distance_words(timing, place, found)}" if found != place else ""
        line = f"{shown(tree)} {verb(value)} {timing.place_words(place)}, as {line}{away}"
    yield line
    yield from steps(timing, part, found, part_value, depth + 1)


def nearest(timing: Timing, sign: str, low: str, wanted: str, place: int) -> Optional[int]:
    """The position nearest to a place, at least a distance away, at which a text is true, or None."""
    forward = sign == "F"
    here = timing.positions[place]
    if not timing.holds(f"{sign}[{low},inf] ({wanted})", place):
        return None

    def is_there(other: int) -> bool:
        distance = abs(timing.positions[other] - here)
        return distance >= int(low) and timing.holds(f"{sign}[{low},{distance}] ({wanted})", place)

    return timing.least_place(place, is_there, forward)


def steps_of_all(timing: Timing, tree: Tree, place: int, value: bool) -> List[str]:
    """Sentences on a `G` or `H` that holds throughout, or an `F` or `O` without a witness, with what comes nearest."""
    child = text_of(tree.parts[0])
    sign = "F" if is_forward(tree) else "O"
    interval = interval_text(tree.interval)
    scale = timing.log.scale
    where = f"{interval_words(tree, scale)} {scale.moment(timing.positions[place])}"
    if interval:
        timing.spans.append(span_of(tree, timing.positions[place]))
    if value:
        return [f"{shown(tree.parts[0])} holds at each position {where}"]
    line = f"{shown(tree.parts[0])} holds at no position {where}"
    if not interval:
        return [line]
    found = nearest(timing, sign, tree.interval[0], child, place)
    if found is None:
        way = "later" if sign == "F" else "earlier"
        return [f"{line}, nor {way} in {timing.where}{last_words(timing, child, sign, place)}"]
    return [f"{line}: next it holds {timing.place_words(found)}, {distance_words(timing, place, found)}"]


def span_of(tree: Tree, moment: int) -> Span:
    """The moments of which an interval speaks, counted from one."""
    low, high = int(tree.interval[0]), None if tree.interval[1] == "inf" else int(tree.interval[1])
    if is_forward(tree):
        return Span(moment + low, None if high is None else moment + high)
    return Span(None if high is None else moment - high, moment - low)


def last_words(timing: Timing, child: str, sign: str, place: int) -> str:
    """When a text that isn't true from a position on was true before, or before it and is true after."""
    found = nearest(timing, "O" if sign == "F" else "F", "0", child, place)
    if found is None:
        return ""
    which = "last" if sign == "F" else "next"
    return f"; {which} it holds {timing.place_words(found)}, {distance_words(timing, place, found)}"


def distance_words(timing: Timing, place: int, other: int) -> str:
    """How far another position is from one."""
    distance = timing.positions[other] - timing.positions[place]
    if distance == 0:
        return "the same instant"
    return f"{timing.log.scale.span(abs(distance))} {'earlier' if distance < 0 else 'later'}"


def interval_words(tree: Tree, scale: Scale) -> str:
    """Which positions an interval speaks of, before the moment that it is counted from."""
    low, high = tree.interval
    way = "after" if is_forward(tree) else "before"
    if (low, high) == NO_BOUND:
        return "from" if is_forward(tree) else "up to"
    least = scale.span(int(low))
    return f"{least} or more {way}" if high == "inf" else f"{least} to {scale.span(int(high))} {way}"


def steps_of_until(timing: Timing, tree: Tree, place: int, value: bool, depth: int) -> Iterator[str]:
    """Sentences on an until or a since."""
    left, right = tree.parts
    sign = "F" if is_forward(tree) else "O"
    if value:
        here = timing.positions[place]

        def is_there(other: int) -> bool:
            distance = abs(timing.positions[other] - here)
            low = tree.interval[0]
            text = f"({text_of(left)}) {tree.form}[{low},{distance}] ({text_of(right)})"
            return distance >= int(low) and timing.holds(text, place)

        found = timing.least_place(place, is_there, is_forward(tree))
        keep_moment(timing, found, True, depth)
        way = "before" if sign == "F" else "after"
        yield f"{shown(right)} holds {timing.place_words(found)}, and {shown(left)} at each position {way} that"
        return
    failing = nearest(timing, sign, "0", f"!({text_of(left)})", place)
    if failing is not None:
        keep_moment(timing, failing, False, depth)
        line, part, part_value = at_place(timing, left, failing, False)
        yield line
        yield from steps(timing, part, failing, part_value, depth + 1)
    found_right = nearest(timing, sign, tree.interval[0], text_of(right), place)
    if found_right is None:
        scale = timing.log.scale
        yield f"{shown(right)} holds at no position {interval_words(tree, scale)} {scale.moment(timing.positions[place])}"
    else:
        away = distance_words(timing, place, found_right)
        yield f"{shown(right)} first holds {timing.place_words(found_right)}, {away}"


def vanished_words(timing: Timing, tree: Tree) -> List[str]:
    """The propositions of a formula whose `set` and `clear` are at one instant, so that they are never true there."""
    lines = []
    for part in propositions(tree):
        changes = change_rows(timing.log, timing.log.host_numbered(part.host) or 0, part.name)
        for first, second in zip(changes, changes[1:]):
            is_lost = timing.log.rows[first].kind == "set" and timing.log.rows[second].kind == "clear"
            if is_lost and timing.times[first] == timing.times[second]:
                place = timing.positions.index(timing.times[first])
                if not timing.holds(f"{part.host}.{part.name}", place):
                    lines.append(
                        f"{lines_words(timing.log, [first, second])} set and clear {part.host}.{part.name} at one "
                        f"instant, {timing.log.scale.moment(timing.times[first])}, where the later row counts: it isn't true there "
                        f"(gap {timing.log.scale.span(timing.log.rows[second].gap)})"
                    )
    return lines
