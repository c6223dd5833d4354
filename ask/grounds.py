"""What a derivation rests on: the bounds of the log that it uses, in sentences."""

from __future__ import annotations

from collections import Counter
from typing import Any, Dict, List, Sequence, Tuple

from ask.logs import Log, bound_of
from ask.reports import Section, Step, distances
from ask.walks import Ground, grounds_of, is_of_log, name_of_ground
from ask.words import counted, ground_words

MOST_BOUNDS_SHOWN = 25
NO_NUMBER = float("inf")  # what is left over where a cycle has no number of the formula


def ground_lines(log: Log, section: Section, is_all: bool) -> List[str]:
    """A line for each bound, the first of them unless all are wanted."""
    used = bounds_used(log, section)
    shown = used if is_all else used[:MOST_BOUNDS_SHOWN]
    lines = [f"  {ground_words(log, ground)}{f' ({uses}x)' if uses > 1 else ''}" for ground, uses in shown]
    if len(shown) < len(used):
        lines.append(f"  and {counted(len(used) - len(shown), 'bound')} more; --all shows all")
    return lines


def ground_facts(log: Log, section: Section) -> List[Dict[str, Any]]:
    """The same for programs."""
    return [
        {"bound": name_of_ground(ground), "uses": uses, "sentence": ground_words(log, ground)}
        for ground, uses in bounds_used(log, section)
    ]


def bounds_used(log: Log, section: Section) -> List[Tuple[Ground, int]]:
    """The bounds of the log that a derivation rests on, each with how many of its cycles use it.

    First are those that leave the least over of a number of the formula, and then those that the last line needs
    over the fewest others. Cycles that it doesn't need don't count, nor does a bound that is assumed beside the log.
    """
    ranks: Dict[Ground, Tuple[float, int]] = {}
    uses: Dict[Ground, int] = Counter()
    for number, distance in distances(section).items():
        steps = section.lines[number - 1].steps
        rank = (left_over(log, steps), distance)
        for ground in {ground for ground in grounds_of(steps) if is_of_log(log, ground)}:
            ranks[ground] = min(rank, ranks.get(ground, rank))
            uses[ground] += 1
    return sorted(uses.items(), key=lambda item: (ranks[item[0]], -item[1], [(s.numbers, s.kind) for s in item[0]]))


def left_over(log: Log, steps: Sequence[Step]) -> float:
    """By how much a number of the formula could be nearer to what a cycle allows and still contradict it.

    A cycle has such a number where it orders two rows by more than which of them is first.
    """
    orders = [step.numbers[2] for step in steps if step.kind == "order"]
    if all(order in (0, -1) for order in orders):
        return NO_NUMBER
    bounds = [bound_of(log, step.kind, step.numbers[0]) for step in steps if step.kind != "order"]
    return -sum(orders) - sum(bound.most for bound in bounds if bound) - 1
