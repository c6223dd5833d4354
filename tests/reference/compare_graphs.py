"""Adds up what the built program logic_table does to graphs.

Run as: python3 compare_graphs.py PROGRAM [--cases N] [--seed S]

Edges are pushed and popped by chance. After each step the numbers must meet all
held edges, node 0 having 0. An edge that the numbers met must be kept, one that
is refused must close a walk of negative sum over the held edges that visits no
node twice, and after either, and after a pop, each number must be as before. An
edge that is kept has numbers that meet it, so no edge can be told the other
way. Some bounds are at the limit. The first answer that doesn't add up is
printed as a table of its own, ready to copy, and the end is 1.
"""

import random
import subprocess
import sys
from collections import Counter
from pathlib import Path
from typing import NamedTuple

sys.dont_write_bytecode = True  # leaves no compiled files beside the sources

from compare_systems import Edge, System, are_met, is_negative_cycle
from tables import print_table, read_arguments

PATIENCE = 120  # seconds that one run of the program may take
GRAPHS_A_TABLE = 200
NODES_MOST = 8
ROOM = 40
STEPS_MOST = 80
BOUND_LEAST, BOUND_MOST = -4, 6
BOUND_LIMIT = 2**90
SIZES_ASKED = range(5)  # of cycles, where 0 stands for numbers that were moved
CASES_ENOUGH = 1000  # as many cases as these sizes need to come up


class Steps(NamedTuple):
    """Edges to push, and numbers of edges to which the held ones are popped."""

    nodes: int
    steps: list

    def question(self):
        """The line of the table that asks for what the steps do."""
        return f"?{self.nodes} {ROOM}" + "".join("; " + words_of(step) for step in self.steps)


def words_of(step):
    """A step as a table has it."""
    if isinstance(step, Edge):
        return f"{step.start} {step.end} {step.bound}"
    return f"pop {step}"


def graphs(seed, count):
    """Steps by chance."""
    for number in range(count):
        draw = random.Random(f"{seed} {number}")
        nodes = draw.randint(1, NODES_MOST)
        yield Steps(nodes, some_steps(draw, nodes))


def some_steps(draw, nodes):
    """Edges to push while there is room, and now and then a pop."""
    steps, held = [], []
    for _ in range(draw.randint(1, STEPS_MOST)):
        if len(held) == ROOM or draw.random() < 0.2:
            steps.append(draw.randint(0, len(held)))
            del held[steps[-1] :]
        else:
            steps.append(some_edge(draw, nodes))
            if is_possible(nodes, held + [steps[-1]]):
                held.append(steps[-1])
    return steps


def is_possible(nodes, edges):
    """Whether numbers meet all edges: those that are missed are met one after another, so often as there are nodes."""
    numbers = [0] * nodes
    for _ in range(nodes):
        for edge in edges:
            numbers[edge.start] = min(numbers[edge.start], numbers[edge.end] + edge.bound)
    return all(numbers[edge.start] - numbers[edge.end] <= edge.bound for edge in edges)


def some_edge(draw, nodes):
    """An edge between two of so many nodes, which may be one."""
    bound = draw.randint(BOUND_LEAST, BOUND_MOST)
    if draw.random() < 0.1:
        bound = draw.choice([-1, 1]) * (BOUND_LIMIT - draw.randint(0, 2))
    return Edge(draw.randrange(nodes), draw.randrange(nodes), bound)


def answered(program, asked):
    """The program's answers, the lines of each."""
    table = "[graphs]\n" + "".join(one.question() + "\n" for one in asked)
    run = subprocess.run(
        [program], input=table, capture_output=True, text=True, timeout=PATIENCE
    )
    parts = run.stdout.split("\n?")
    if run.returncode != 0 or len(parts) != len(asked) + 1:
        raise ValueError("the program didn't answer each graph")
    return [part.splitlines()[1:] for part in parts[1:]]


def adds_up(graph, lines, sizes):
    """Whether the answers to the steps of a graph add up."""
    held, before = [], [0] * graph.nodes
    for step, line, told in zip(graph.steps, lines[::2], lines[1::2]):
        word, *rest = line.split(" ")
        name, *texts = told.split(" ")
        numbers = [int(text) for text in texts]
        if name != "numbers" or not isinstance(step, Edge):
            if word != "popped" or numbers != before or step > len(held):
                return False
            del held[step:]
        elif word == "kept":
            was_met = are_met(System(graph.nodes, [step]), before)
            if was_met and numbers != before:
                return False
            sizes[0] += not was_met
            held.append(step)
        else:
            walk = [int(text) for text in rest]
            if numbers != before or not is_negative_cycle(System(graph.nodes, held + [step]), walk):
                return False
            sizes[len(walk)] += 1
        if numbers[0] != 0 or not are_met(System(graph.nodes, held), numbers):
            return False
        before = numbers
    edges = [f"edge {edge.start} {edge.end} {edge.bound}" for edge in held]
    return lines[2 * len(graph.steps) :] == edges


def main():
    arguments = read_arguments(__doc__.splitlines()[0], CASES_ENOUGH, "graphs")
    asked = list(graphs(arguments.seed, arguments.cases))
    sizes = Counter()
    for at in range(0, len(asked), GRAPHS_A_TABLE):
        part = asked[at : at + GRAPHS_A_TABLE]
        for graph, lines in zip(part, answered(arguments.program, part)):
            if not adds_up(graph, lines, sizes):
                print_table("[graphs]\n" + graph.question() + "\n")
                print("\n".join(lines))
                return 1
    if arguments.cases >= CASES_ENOUGH and not all(sizes[size] for size in SIZES_ASKED):
        print(f"sizes of cycles that came up: {dict(sizes)}")
        return 1
    print(f"{len(asked)} graphs, each answer adds up")
    return 0


if __name__ == "__main__":
    sys.path.insert(0, str(Path(__file__).resolve().parents[1]))
    import ends

    ends.run(main)
