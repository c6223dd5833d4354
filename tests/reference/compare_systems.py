"""Adds up what the built program logic_table finds of systems of differences.

Run as: python3 compare_systems.py PROGRAM [--cases N] [--seed S]

The program solves systems made by chance. Where it finds numbers, there must be
one for each node, and they must meet each edge; where it finds a cycle, its
edges must be a closed walk of negative sum that visits no node twice. So no
system can be answered the other way. Cycles of several sizes have to come up.
The first answer that doesn't add up is printed as a table of its own, ready to
copy, and the end is 1.
"""

import random
import subprocess
import sys
from collections import Counter
from pathlib import Path
from typing import NamedTuple

sys.dont_write_bytecode = True  # leaves no compiled files beside the sources

from tables import print_table, read_arguments

PATIENCE = 120  # seconds that one run of the program may take
SYSTEMS_A_TABLE = 200
NODES_MOST = 6
EDGES_MOST = 13
BOUND_LEAST, BOUND_MOST = -3, 4
SIZES_ASKED = range(5)  # of cycles, where 0 stands for numbers
CASES_ENOUGH = 2000  # as many cases as these sizes need to come up


class Edge(NamedTuple):
    """The number of the start less that of the end is at most the bound."""

    start: int
    end: int
    bound: int


class System(NamedTuple):
    nodes: int
    edges: list

    def question(self):
        """The line of the table that asks for the outcome."""
        edges = "".join(f"; {edge.start} {edge.end} {edge.bound}" for edge in self.edges)
        return f"?{self.nodes}{edges}"


def systems(seed, count):
    """Systems by chance."""
    for number in range(count):
        draw = random.Random(f"{seed} {number}")
        nodes = draw.randint(1, NODES_MOST)
        edges = [some_edge(draw, nodes) for _ in range(draw.randint(0, EDGES_MOST))]
        yield System(nodes, edges)


def some_edge(draw, nodes):
    """An edge between two of so many nodes, which may be one."""
    bound = draw.randint(BOUND_LEAST, BOUND_MOST)
    return Edge(draw.randrange(nodes), draw.randrange(nodes), bound)


def are_met(system, numbers):
    """Whether there is a number for each node, and they meet each edge."""
    return len(numbers) == system.nodes and all(
        numbers[edge.start] - numbers[edge.end] <= edge.bound for edge in system.edges
    )


def is_negative_cycle(system, places):
    """Whether the edges at these places are a closed walk of negative sum, no node twice."""
    if not places or max(places) >= len(system.edges):
        return False
    walk = [system.edges[place] for place in places]
    starts = [edge.start for edge in walk]
    ends = [edge.end for edge in walk]
    return (
        ends == starts[1:] + starts[:1]
        and len(set(starts)) == len(starts)
        and sum(edge.bound for edge in walk) < 0
    )


def adds_up(system, answer):
    """Whether an answer is an outcome of the system."""
    word, *rest = answer.split(" ")
    numbers = [int(number) for number in rest]
    if word == "numbers":
        return are_met(system, numbers)
    return word == "cycle" and is_negative_cycle(system, numbers)


def size_of(answer):
    """How many edges the cycle of an answer has, and 0 where it has numbers."""
    word, *rest = answer.split(" ")
    return len(rest) if word == "cycle" else 0


def table_of(asked):
    """The table that asks for the outcomes of systems."""
    return "[systems]\n" + "".join(system.question() + "\n" for system in asked)


def answers_to(program, asked):
    """The program's answers, one a system."""
    run = subprocess.run(
        [program], input=table_of(asked), capture_output=True, text=True, timeout=PATIENCE
    )
    lines = run.stdout.splitlines()
    expected = ["[systems]"] + [system.question() for system in asked]
    if run.returncode != 0 or lines[:1] + lines[1::2] != expected or len(lines) % 2 != 1:
        raise ValueError("the program didn't answer each system")
    return lines[2::2]


def main():
    arguments = read_arguments(__doc__.splitlines()[0], CASES_ENOUGH, "systems")
    asked = list(systems(arguments.seed, arguments.cases))
    sizes = Counter()
    for at in range(0, len(asked), SYSTEMS_A_TABLE):
        part = asked[at : at + SYSTEMS_A_TABLE]
        for system, answer in zip(part, answers_to(arguments.program, part)):
            if not adds_up(system, answer):
                print_table(table_of([system]))
                print(f"answered: {answer}")
                return 1
            sizes[size_of(answer)] += 1
    if arguments.cases >= CASES_ENOUGH and not all(sizes[size] for size in SIZES_ASKED):
        print(f"sizes of cycles that came up: {dict(sizes)}")
        return 1
    print(f"{len(asked)} systems, each answer adds up")
    return 0


if __name__ == "__main__":
    sys.path.insert(0, str(Path(__file__).resolve().parents[1]))
    import ends

    ends.run(main)
