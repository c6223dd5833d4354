"""Formulas of pulses that no position without one of them can decide, and the rows of a log that they see.

At an instant without a pulse of the formula a guarded part has one value, whatever is there. So positions that other
rows make change nothing, and windows may leave these rows out: with fewer rows and bounds a window has more timings,
and what it can't be the whole log can't be either.

A spell of a formula is a stretch of true time in which one of its propositions is true, as at the instant of a pulse.
"""

from __future__ import annotations

from array import array
from typing import List, Optional

from ask.formulas import Tree
from ask.windows.longlog import CLEAR, PULSE, SET, LongLog
from ask.windows.shape import Shape


def pulses_seen(log: LongLog, shape: Shape) -> Optional[List[array]]:
    """For each host the rows that pulse a proposition of a formula, where it sees no others; else None."""
    rows = log.rows
    hosts = [(log.host_numbered(host), rows.number_of.get(name)) for host, name in shape.propositions]
    keys = {(host, name) for host, name in hosts if host is not None and name is not None}
    if not is_guarded(shape.body) or not is_false_in_spells(shape.body):
        return None
    found = [array("i") for _ in log.hosts]
    for event, key in enumerate(zip(rows.host, rows.name)):
        if key in keys:
            if rows.kind[event] == PULSE:
                found[key[0]].append(event)
            elif rows.kind[event] in (SET, CLEAR):
                return None
    return found


def is_guarded(tree: Tree) -> bool:
    """Whether the truth of a formula at a pulse of it is the same without the positions that have none."""
    if not all(is_guarded(part) for part in tree.parts):
        return False
    if tree.form in ("F", "O"):
        return is_true_in_spells(tree.parts[0])
    if tree.form in ("G", "H"):
        return is_false_in_spells(tree.parts[0])
    if tree.form in ("U", "S"):
        return is_false_in_spells(tree.parts[0]) and is_true_in_spells(tree.parts[1])
    return True


def is_true_in_spells(tree: Tree) -> bool:
    """Whether a formula can be true only at an instant at which one of its propositions is, as at a pulse of it."""
    if tree.form == "&":
        return any(map(is_true_in_spells, tree.parts))
    if tree.form == "|":
        return all(map(is_true_in_spells, tree.parts))
    if tree.form == "->":
        return is_false_in_spells(tree.parts[0]) and is_true_in_spells(tree.parts[1])
    if tree.form == "!":
        return is_false_in_spells(tree.parts[0])
    return tree.form in ("prop", "false")


def is_false_in_spells(tree: Tree) -> bool:
    """Whether a formula can be false only at an instant at which one of its propositions is true."""
    if tree.form == "&":
        return all(map(is_false_in_spells, tree.parts))
    if tree.form == "|":
        return any(map(is_false_in_spells, tree.parts))
    if tree.form == "->":
        return is_true_in_spells(tree.parts[0]) or is_false_in_spells(tree.parts[1])
    if tree.form == "!":
        return is_true_in_spells(tree.parts[0])
    return tree.form == "true"
