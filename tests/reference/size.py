"""How large the problem of a formula and a log is.

For each until and since the size counts the pairs of rows and, unless the left side is `true`, for each row the pairs
whose distance may lie in the interval. Where no timing is admissible the size is 0.
"""

import sys

sys.dont_write_bytecode = True  # leaves no compiled files beside the sources

import derivations
from differences import differences_of
from needless import Reach


def size_of(formula, log):
    """The size of a formula and a log."""
    differences = differences_of(log)
    if differences is None:
        return 0
    problem = derivations.problem_of(log, formula, True)
    reaches = [k for k, node in enumerate(problem.nodes) if node[0] in ("until", "since")]
    return sum(reach_size(Reach(problem, differences, k), len(log.rows)) for k in reaches)


def reach_size(reach, rows):
    """The size of an until or a since over so many rows."""
    return rows**2 + (0 if reach.is_free else rows * live_pairs(reach, rows))


def live_pairs(reach, rows):
    """How many pairs of rows have a distance in the interval in some timing."""
    return sum(not reach.is_dead(i, j) for i in range(rows) for j in range(rows))
