"""Bounds of a closed walk as people are told of them: two through a clock are one bound between the rows that read it."""

from __future__ import annotations

from typing import List, Optional, Sequence, Tuple

from ask.logs import Bound, Log, bound_of
from ask.reports import Step

Ground = Tuple[Step, ...]  # one bound of the log, or an `over` and an `under` of rows that read one clock


def grounds_of(steps: Sequence[Step]) -> List[Ground]:
    """The steps of a closed walk, with the two that go to a clock and from it on as one."""
    is_turned = bool(steps) and steps[0].kind == "under"
    found: List[Ground] = []
    for step in [*steps[is_turned:], *steps[:is_turned]]:
        if step.kind == "under" and found and found[-1][0].kind == "over" and len(found[-1]) == 1:
            found[-1] = (*found[-1], step)
        else:
            found.append((step,))
    return found


def name_of_ground(ground: Ground) -> str:
    """The bounds of a ground as reports name them."""
    return " ".join(f"{step.kind} {step.numbers[0]}" for step in ground)


def is_of_log(log: Log, ground: Ground) -> bool:
    """Whether a ground is of the log itself, and not an order of rows, or a bound that is assumed beside the log."""
    step = ground[0]
    return step.kind != "order" and (step.kind != "extra" or step.numbers[0] < len(log.extras))


def bound_between(log: Log, ground: Ground) -> Optional[Bound]:
    """The bound between the ends of a ground, or None where the log has none such."""
    bounds = [bound_of(log, step.kind, step.numbers[0]) for step in ground]
    known = [bound for bound in bounds if bound]
    if len(known) < len(bounds):
        return None
    return Bound(known[0].start, known[-1].end, sum(bound.most for bound in known))


def broken_ground(log: Log, step: Step, times: Sequence[int]) -> Ground:
    """The ground of the first bound that times break: of a clock with the first earlier row that reads it otherwise."""
    if step.kind not in ("under", "over"):
        return (step,)
    event = step.numbers[0]
    row = log.rows[event]
    for other in range(event):
        before = log.rows[other]
        apart = (times[event] - row.stamp) - (times[other] - before.stamp)
        if before.clock == row.clock and (apart if step.kind == "over" else -apart) > row.error + before.error:
            late, early = (event, other) if step.kind == "over" else (other, event)
            return Step("over", (late,)), Step("under", (early,))
    return (step,)
