"""All rules of a problem that have a clause, those that no timing needs among them."""

import itertools
from typing import NamedTuple

import derivations
from derivations import Rule, RuleFault


class Clause(NamedTuple):
    literals: tuple
    hint: object  # what names the clause in a line


def instances(problem):
    """All rules that have a clause, each with its clause."""
    events = range(len(problem.log.rows))
    for rule, letters in derivations.RULE_ARGUMENTS.items():
        kinds = derivations.RULE_KINDS.get(rule, ())
        nodes = [k for k, node in enumerate(problem.nodes) if node[0] in kinds]
        ranges = [nodes if letter == "k" else events for letter in letters]
        for arguments in itertools.product(*ranges):
            clause = derivations.clause_of(problem, Rule(rule, arguments))
            if not isinstance(clause, RuleFault):
                yield Clause(tuple(clause), Rule(rule, arguments))
