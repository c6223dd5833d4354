"""Writes what `benches/times.sh` has the programs answer.

Run as: python3 benches/inputs.py system ROWS KIND
        python3 benches/inputs.py problem ROWS COUNT
        python3 benches/inputs.py derivation LEARNS FOLDER

`system` writes a table for `logic_table`, whose question is a system shaped like
the bounds of a log of so many rows: KIND is `possible`, `impossible`, `crowded`
or `backward`. `problem` writes one that asks for the size, the clauses and the
atoms of a log of so many rows and so many formulas `F[0,n] h0.p` that untils
join. `derivation` writes a log, a formula and two reports into a folder: in
`report` a derivation of so many Learn lines says nothing of one value, and
`events.report` says of as long a derivation that the log has a row less.
"""

import argparse
import sys
from pathlib import Path

sys.dont_write_bytecode = True  # leaves no compiled files beside the sources

# Systems

KINDS = ("possible", "impossible", "crowded", "backward")
HOSTS = 16  # that take turns
SKEW = 1_000  # how far a clock may be off


def draw(state):
    """The next of a row of numbers that look random."""
    return (state * 6_364_136_223_846_793_005 + 1_442_695_040_888_963_407) % 2**64


def spread(rows):
    """The edges of rows at random times that rise, with up to three messages a row between near rows."""
    state, local = 1, 0
    for row in range(rows):
        state = draw(state)
        local += state >> 59
        node = row + 1
        yield 0, node, SKEW - local
        yield node, 0, local + SKEW
        if row >= HOSTS:
            yield node - HOSTS, node, -1
        for _ in range(3):
            state = draw(state)
            back = state >> 57
            if 0 < back <= row:
                yield node - back, node, -1


def crowded(rows):
    """The edges of rows of one host, all at the time 0 and 2 apart."""
    for row in rows:
        yield 0, row + 1, SKEW
        yield row + 1, 0, SKEW
        yield row, row + 1, -2


def edges(rows, kind):
    """The edges of a kind of system: with `impossible` a message goes from the last row to the first,
    and with `backward` the last row comes first, which takes as many passes as there are rows."""
    if kind == "possible":
        return spread(rows)
    if kind == "impossible":
        return [*spread(rows), (rows, 1, -1)]
    return crowded(range(1, rows) if kind == "crowded" else reversed(range(1, rows)))


def system(rows, kind):
    """The table of a system."""
    parts = [str(rows + 1), *("%d %d %d" % edge for edge in edges(rows, kind))]
    return "[systems]\n?" + "; ".join(parts) + "\n"


# Problems and derivations


def log(rows):
    """Rows in turn on four hosts, which set and clear a proposition each."""
    yield "kind,host,time,name"
    yield from (f"host,h{host},500,1" for host in range(4))
    for row in range(rows):
        yield f"{'set' if row % 8 < 4 else 'clear'},h{row % 4},{100 * row},p"


GROUP = 16  # formulas are joined in one pair of parentheses


def joined(count):
    """So many formulas that untils join."""
    groups = [range(n, min(n + GROUP, count)) for n in range(0, count, GROUP)]
    return " U ".join("(" + " U ".join(f"F[0,{n}] h0.p" for n in group) + ")" for group in groups)


def problem(rows, count):
    """The table of a problem."""
    lines = ["[problems]", "=" + joined(count), *("|" + line for line in log(rows)), "+", "*", "!"]
    return "\n".join(lines) + "\n"


EVENTS = 48  # rows of the derivation's log
NEGATIONS = 120  # of the derivation's formula, above its until
UNTIL = 2  # the node of the until
TOPS = NEGATIONS - 9  # nodes that are at least ten above the until
HIGH_TOPS = NEGATIONS - 99  # and at least a hundred
FIRST = TOPS * EVENTS  # lines that others cite
STRIDES = (1, 5, 7, 11)  # by which a chain comes to each event once


def by_rules(place, event):
    """A node makes the tenth one below it true, by the rules of ten negations."""
    low = UNTIL + place % TOPS
    hints = [f"rule {4 + below % 2} {low + 10 - below} {event}" for below in range(10)]
    return learn([f"-node {low + 10} {event}", f"+node {low} {event}"], hints)


def by_lines(place, event):
    """A node makes the hundredth one below it true, by ten lines about the nodes between."""
    place %= HIGH_TOPS
    low = UNTIL + place
    hints = [f"line {(place + 10 * (9 - below)) * EVENTS + event + 1}" for below in range(10)]
    return learn([f"-node {low + 100} {event}", f"+node {low} {event}"], hints)


def by_witnesses(event, first):
    """Where the until is true at an event, its right side is true at one of nine events, or one of the
    other events is the witness."""
    events = [(first + step) % EVENTS for step in range(EVENTS)]
    rights = [f"+node 1 {j}" for j in events[:9]]
    witnesses = [f"+wit {UNTIL} {event} {j}" for j in events[9:]]
    hints = [f"rule 14 {UNTIL} {event} {j}" for j in events[:9]] + [f"rule 17 {UNTIL} {event}"]
    return learn([f"-node {UNTIL} {event}", *rights, *witnesses], hints)


def link(stride, event, place):
    """The event at a place of the chain that begins at an event."""
    return (event + STRIDES[stride] * place) % EVENTS


def cycle(stride, event, place):
    """A chain's first event isn't after its next one but some, if it isn't after the one before, and that
    isn't after it."""
    second, third = link(stride, event, place + 1), link(stride, event, place + 2)
    return (
        f"cycle 3 order {event} {second} 0 order {second} {third} 0 order {third} {event} -1"
    )


def by_cycles(stride, event):
    """A chain's first event isn't after its eleventh next one, by ten cycles."""
    links = [link(stride, event, place) for place in range(12)]
    steps = [f"order {next} {here} -1" for here, next in zip(links, links[1:])]
    before = FIRST + 10 * (stride * EVENTS + event)
    hints = [f"line {before + place + 1}" for place in range(10)]
    return learn([f"order {event} {links[-1]} 0", *steps], hints)


def learn(literals, hints):
    """A Learn line."""
    return " ".join(["learn", str(len(literals)), *literals, str(len(hints)), *hints])


def one_of(number):
    """A Learn line of one of four kinds in turn."""
    turn = number // 4
    event = turn % EVENTS
    kinds = (
        lambda: by_rules(turn, event),
        lambda: by_lines(turn, event),
        lambda: by_witnesses(event, turn // EVENTS),
        lambda: by_cycles(turn % len(STRIDES), event),
    )
    return kinds[number % 4]()


def derivation(learns):
    """The lines of a derivation with so many Learn lines."""
    lines = [by_rules(place, event) for place in range(TOPS) for event in range(EVENTS)]
    for stride in range(len(STRIDES)):
        for event in range(EVENTS):
            lines += [cycle(stride, event, place) for place in range(10)]
    return lines + [one_of(number) for number in range(learns - FIRST)]


def report(events, lines):
    """A report: nothing is known of one value, and the other one is there where all clocks are right."""
    head = ["skewcheck 1", f"events {events}", f"true unknown {len(lines)}"]
    times = [str(100 * row) for row in range(events)]
    return "\n".join([*head, *lines, "false witness", *times, "end"]) + "\n"


def write_derivation(learns, folder):
    """The files of a derivation."""
    lines = derivation(learns)
    Path(folder, "log").write_text("\n".join(log(EVENTS)) + "\n")
    Path(folder, "formula").write_text("!" * NEGATIONS + "(h0.p U[0,40] h1.p)")
    Path(folder, "report").write_text(report(EVENTS, lines))
    Path(folder, "events.report").write_text(report(EVENTS - 1, lines))


def read_arguments():
    """The words of the command line."""
    parser = argparse.ArgumentParser(description="write what benches/times.sh has the programs answer")
    inputs = parser.add_subparsers(dest="what", metavar="system|problem|derivation", required=True)
    of_system = inputs.add_parser("system")
    of_system.add_argument("rows", type=int)
    of_system.add_argument("kind", choices=KINDS)
    of_problem = inputs.add_parser("problem")
    of_problem.add_argument("rows", type=int)
    of_problem.add_argument("count", type=int)
    of_derivation = inputs.add_parser("derivation")
    of_derivation.add_argument("learns", type=int)
    of_derivation.add_argument("folder")
    return parser.parse_args()


def main():
    """Writes what the words say."""
    arguments = read_arguments()
    if arguments.what == "system":
        sys.stdout.write(system(arguments.rows, arguments.kind))
    elif arguments.what == "problem":
        sys.stdout.write(problem(arguments.rows, arguments.count))
    else:
        write_derivation(arguments.learns, arguments.folder)


if __name__ == "__main__":
    sys.path.insert(0, str(Path(__file__).resolve().parents[1] / "tests"))
    import ends

    ends.run(main)
