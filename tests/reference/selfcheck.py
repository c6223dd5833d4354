"""Checks the reference against slower or different ways, without the program.

Run as: python3 selfcheck.py [--seed S]
"""

import argparse
import collections
import csv
import functools
import io
import itertools
import random
import sys
from pathlib import Path

sys.dont_write_bytecode = True  # leaves no compiled files beside the sources

import cases
import derivation_cases
import derivations
import differences
import edits
import formats
import generate
import generate_logs
import invent
import judge
import logs
import meanings
import pulse_cases
import reference
import second_cases
import third_cases
from instances import instances


def check(right, *what):
    """Ends with 1 where something isn't right, and names it."""
    if not right:
        print(f"not right: {what!r}", file=sys.stderr)
        sys.exit(1)


def check_fixed_cases():
    """The answers written out by hand are right by the judge, and no others of a few."""
    for case in [*cases.fixed_cases(), *second_cases.fixed_cases(), *third_cases.fixed_cases()]:
        for output in case.outputs:
            found = judge.complaint(case.words, case.files, output, case.status)
            check(not found, case, output, found)
            for status, other in ((case.status ^ 1, output), (case.status, output + b"\n")):
                check(judge.complaint(case.words, case.files, other, status), case, other)


TRIED_MOST = 100  # the greatest error of a reading of which all offsets that it leaves are gone through

# The grammar as productions; what isn't a key is a token.
GRAMMAR = {
    "implies": [["or"], ["or", "->", "implies"]],
    "or": [["and"], ["or", "|", "and"]],
    "and": [["until"], ["and", "&", "until"]],
    "until": [["unary"], ["unary", "U", "interval", "until"]],
    "unary": [["!", "unary"], ["F", "interval", "unary"], ["atom"]],
    "atom": [["true"], ["a", ".", "word"], ["(", "implies", ")"]],
    "word": [["a"], ["true"], ["inf"]],
    "interval": [[], ["[", "1", ",", "1", "]"], ["[", "1", ",", "inf", "]"]],
}
TOKENS = ["a", "true", "inf", "1", "(", ")", "[", "]", ",", ".", "!", "&", "|", "->", "U", "F"]


def joined(firsts, lasts, longest):
    """All lists of a first and a last part that aren't too long."""
    short_enough = [[last for last in lasts if len(last) <= room] for room in range(longest + 1)]
    return {first + last for first in firsts for last in short_enough[longest - len(first)]}


def grown(words, starts, longest):
    """The words and the beginnings of words after one more use of every production.

    Each symbol of the grammar derives some word, so a beginning of a part is a
    beginning of the whole.
    """
    new_words, new_starts = {}, {}
    for symbol, productions in GRAMMAR.items():
        new_words[symbol], new_starts[symbol] = set(), {()}
        for production in productions:
            done = {()}
            for part in production:
                new_starts[symbol] |= joined(done, starts.get(part, {(), (part,)}), longest)
                done = joined(done, words.get(part, {(part,)}), longest)
            new_words[symbol] |= done
    return new_words, new_starts


def words_and_starts(longest):
    """All formulas, and all beginnings of formulas, of at most that many tokens."""
    words = {symbol: set() for symbol in GRAMMAR}
    starts = {symbol: set() for symbol in GRAMMAR}
    while True:
        following = grown(words, starts, longest)
        if following == (words, starts):
            return words["implies"], starts["implies"]
        words, starts = following


def fault_by_lists(tokens, formulas, starts):
    """The grammar fault of tokens with one blank between, from the lists of beginnings."""
    if not tokens:
        return 7, 0
    for place in range(len(tokens)):
        if tokens[: place + 1] not in starts:
            byte = sum(len(token) + 1 for token in tokens[:place])
            return (6 if tokens[:place] in formulas else 2), byte
    return None if tokens in formulas else (2, len(" ".join(tokens)))


def fault_by_reference(tokens):
    """The fault of tokens with one blank between, or None."""
    found = formats.read_formula(" ".join(tokens).encode())
    return tuple(found) if isinstance(found, formats.FormulaFault) else None


def check_places():
    """The places of faults in all short token lists, and in longer ones that begin well."""
    formulas, starts = words_and_starts(7)
    short = (tokens for count in range(6) for tokens in itertools.product(TOKENS, repeat=count))
    longer = (start + (token,) for start in starts if 5 <= len(start) < 7 for token in TOKENS)
    count = 0
    for tokens in itertools.chain(short, longer):
        wanted, found = fault_by_lists(tokens, formulas, starts), fault_by_reference(tokens)
        check(wanted == found, tokens, wanted, found)
        count += 1
    print(f"{count} token lists, of them {len(formulas)} formulas")
    return formulas


def trees_by_spans(tokens):
    """All trees that the grammar gives to tokens, each rule tried at every place."""

    @functools.cache
    def implies(start, end):
        return either(start, end) + between("->", either, implies, start, end)

    @functools.cache
    def either(start, end):
        return both(start, end) + between("|", either, both, start, end)

    @functools.cache
    def both(start, end):
        return until(start, end) + between("&", both, until, start, end)

    @functools.cache
    def until(start, end):
        found = unary(start, end)
        for form in ("U", "S"):
            for place in range(start, end):
                if tokens[place] == form:
                    for interval, after in intervals(place + 1):
                        sides = itertools.product(unary(start, place), until(after, end))
                        found = found + [(form, interval, *pair) for pair in sides]
        return found

    @functools.cache
    def unary(start, end):
        found = atom(start, end)
        if start < end and tokens[start] == "!":
            found = found + [("!", None, inner) for inner in unary(start + 1, end)]
        if start < end and tokens[start] in ("F", "G", "O", "H"):
            for interval, after in intervals(start + 1):
                found = found + [(tokens[start], interval, inner) for inner in unary(after, end)]
        return found

    @functools.cache
    def atom(start, end):
        part = tokens[start:end]
        if len(part) == 1 and part[0] in ("true", "false"):
            return [(part[0], None)]
        if len(part) == 3 and part[1] == ".":
            return [("prop", part[0], part[2])]
        if len(part) > 2 and part[0] == "(" and part[-1] == ")":
            return implies(start + 1, end - 1)
        return []

    def between(form, left_side, right_side, start, end):
        return [
            (form, None, left, right)
            for place in range(start, end)
            if tokens[place] == form
            for left in left_side(start, place)
            for right in right_side(place + 1, end)
        ]

    def intervals(place):
        found = [((0, None), place)]
        if place + 4 < len(tokens) and tokens[place] == "[":
            low, high = tokens[place + 1], tokens[place + 3]
            found.append(((int(low), None if high == "inf" else int(high)), place + 5))
        return found

    return implies(0, len(tokens))


def plain(tree):
    """A tree of the reference as a tuple."""
    if tree.form == "prop":
        return "prop", tree.host.decode(), tree.name.decode()
    return (tree.form, tree.interval, *(plain(child) for child in tree.children))


def planned(tree):
    """A tree of the generator as the same tuple."""
    if tree[0] == "prop":
        return "prop", tree[1].decode(), tree[2].decode()
    timed = tree[0] in formats.TIMED
    children = tree[2:] if timed else tree[1:]
    return (tree[0], tree[1] if timed else None, *(planned(child) for child in children))


def check_trees(draw, formulas):
    """The trees of all short formulas and of random longer ones."""
    for tokens in formulas:
        found = plain(formats.read_formula(" ".join(tokens).encode()))
        check(trees_by_spans(tokens) == [found], tokens, found)
    for _ in range(1500):
        log = generate_logs.some_log(draw)
        tree = generate.some_tree(draw, log, draw.randint(0, 6))
        tokens = generate.tokens_of(draw, tree)
        found = plain(formats.read_formula(generate.formula_text(draw, tokens)))
        check(found == planned(tree), tokens, found)
        if len(tokens) <= 40:
            spelled = tuple(token.decode() for token in tokens)
            check(trees_by_spans(spelled) == [found], tokens, found)


def core(tree):
    """The core of a tree as nested tuples."""
    children = [core(child) for child in tree.children]
    form, interval = tree.form, tree.interval
    if form == "prop":
        return "prop", tree.host, tree.name
    table = {
        "true": lambda: ("true",),
        "false": lambda: ("not", ("true",)),
        "!": lambda f: ("not", f),
        "&": lambda f, g: ("and", f, g),
        "|": lambda f, g: ("not", ("and", ("not", f), ("not", g))),
        "->": lambda f, g: ("not", ("and", f, ("not", g))),
        "U": lambda f, g: ("until", interval, f, g),
        "S": lambda f, g: ("since", interval, f, g),
        "F": lambda f: ("until", interval, ("true",), f),
        "G": lambda f: ("not", ("until", interval, ("true",), ("not", f))),
        "O": lambda f: ("since", interval, ("true",), f),
        "H": lambda f: ("not", ("since", interval, ("true",), ("not", f))),
    }
    return table[form](*children)


def subtrees(node):
    """The set of all subtrees of a core."""
    found = {node}
    for part in node[1:]:
        if isinstance(part, tuple) and isinstance(part[0], str):
            found |= subtrees(part)
    return found


def core_truth(log, times, node, place):
    """The truth of a core at a position, without any memory."""
    instants = reference.positions(times)
    kind = node[0]
    if kind == "true":
        return True
    if kind == "prop":
        rows = [
            (time, row.act)
            for row, time in zip(log.rows, times)
            if time <= instants[place] and (log.hosts[row.host].name, row.name) == node[1:]
        ]
        changes = [act for _, act in rows if act in (b"set", b"clear")]
        return changes[-1:] == [b"set"] or (instants[place], b"pulse") in rows
    if kind == "not":
        return not core_truth(log, times, node[1], place)
    if kind == "and":
        return all(core_truth(log, times, part, place) for part in node[1:])
    (low, high), left, right = node[1:]
    forward = kind == "until"
    way = range(place, len(instants)) if forward else range(place, -1, -1)
    for other in way:
        distance = abs(instants[other] - instants[place])
        near_enough = high is None or distance <= high
        if low <= distance and near_enough and core_truth(log, times, right, other):
            return True
        if not core_truth(log, times, left, other):
            return False
    return False


def check_truth(draw):
    """Truth and node counts against the core of the formula."""
    values = []
    for _ in range(3000):
        log = generate_logs.some_log(draw)
        planned_tree = generate.some_tree(draw, log, draw.randint(0, 5))
        text = generate.formula_text(draw, generate.tokens_of(draw, planned_tree))
        tree = formats.read_formula(text)
        times = generate.near_times(draw, log)
        nested = core(tree)
        check(len(formats.core_nodes(tree)) == len(subtrees(nested)), text)
        values.append(reference.truth(log, times, tree))
        check(values[-1] == core_truth(log, times, nested, 0), text, log, times)
    print(f"{len(values)} truth values, of them {sum(values)} true")
    text = b"G (a.req -> F[0,5] b.ack)"
    numbered = [
        ("true",), ("prop", b"a", b"req"), ("prop", b"b", b"ack"), ("until", (0, 5), 0, 2),
        ("not", 3), ("and", 1, 4), ("not", 5), ("not", 6), ("until", (0, None), 0, 7), ("not", 8),
    ]
    check(formats.core_nodes(formats.read_formula(text)) == numbered, text)


def check_records(draw):
    """Records against the reader of Python's library, on random bytes without order marks."""
    pieces = [b'"', b'""', b",", b"\n", b"\r", b"\r\n", b"a", b" "]
    for _ in range(20000):
        data = b"".join(draw.choices(pieces, k=draw.randint(0, 14)))
        lines = io.StringIO(data.decode(), newline="")
        wanted = [[field.encode() for field in record] for record in csv.reader(lines) if record]
        check(logs.csv_records(data) == wanted, data, wanted)


def check_log_texts(draw):
    """The text of a log reads back as the log, is of the first version that it can be of, and no spelling changes it."""
    versions = collections.Counter()
    for _ in range(3000):
        log = generate_logs.some_log(draw)
        if not messages_fit(log):
            continue
        text = logs.log_text(log)
        check(logs.read_log(text) == log, log, text)
        records = generate_logs.records_of(draw, log)
        found = logs.read_log(generate_logs.log_text(draw, records))
        version = logs.HEADERS.index(text.partition(b"\n")[0].split(b",")) + 1
        if logs.HEADERS.index(records[0]) + 1 < version:
            check(found.number == 3, records)
        else:
            check(same_by_names(found, log), log, records)
        for number, header in enumerate(logs.HEADERS, start=1):
            other = b",".join(header) + text[text.index(b"\n") :]
            check((logs.read_log(other) == log) == (number >= version), text, header)
        versions[version] += 1
    print("texts: " + ", ".join(f"{versions[version]} of version {version}" for version in sorted(versions)))


def check_many_bounds():
    """As many bounds between rows as a log may have, which no file of a log has room for, and one more."""
    head = [logs.THIRD_HEADER, [b"host", b"a", b"1", b"0"]]
    bounds = [[b"bound", b"1", b"0", b"5"]] * (logs.BOUND_LIMIT + 1)
    check(logs.log_of_records([*head, *bounds]) == logs.LogFault(19, len(head) + len(bounds)))
    log = logs.log_of_records([*head, *[[b"note", b"a", b"1", b"n"]] * 2, bounds[0]])
    log.extras.extend(log.extras * (logs.BOUND_LIMIT - 1))
    for odd, fault in (
        ("bound,0,1,5", 19), ("bound,0,x,5", 7), ("bound,0,0,5", 18), ("bound,7,7,5", 18), ("bound,0,7,5", 19), ("note,a,5,n", 0),
    ):
        found = logs.record_fault(log, [logs.THIRD_HEADER, odd.encode().split(b",")], 2)
        check(found == fault, odd, found)


def same_by_names(first, second):
    """Whether two logs say the same, whatever the order of their hosts."""
    return by_names(first) == by_names(second)


def by_names(log):
    """The hosts of a log by name, its rows, resyncs and readings with the names of their hosts, and all else as it is."""
    rows, resyncs, readings = [
        [item._replace(host=log.hosts[item.host].name) for item in items]
        for items in (log.rows, log.resyncs, log.readings)
    ]
    return sorted(log.hosts), rows, resyncs, log.extras, log.clocks, readings


def cycle_of_bounds(log):
    """Bounds that form a closed walk of negative sum and visit no node twice, or none.

    All walks without a second visit are tried, from every node.
    """
    edges = reference.bounds(log)

    def longer(walk, visited):
        for edge in edges:
            if edge.start == walk[-1].end:
                if edge.end == walk[0].start and sum(step.most for step in walk) + edge.most < 0:
                    return [*walk, edge]
                if edge.end not in visited:
                    found = longer([*walk, edge], visited | {edge.end})
                    if found:
                        return found
        return None

    for edge in edges:
        found = longer([edge], {edge.start, edge.end})
        if found:
            return found
    return None


def messages_fit(log):
    """Whether each message is sent once at most, and sent if it is received."""
    sent = logs.sent_names(log)
    received = [row.name for row in log.rows if row.act == b"recv"]
    return len(set(sent)) == len(sent) and set(received) <= set(sent)


def check_times(draw):
    """Timings and shut-out logs: one of the two is always there, and the judge knows it."""
    shut = 0
    for _ in range(600):
        log = generate_logs.some_log(draw)
        if not messages_fit(log):
            continue
        near = generate.near_times(draw, log)
        times = generate.relaxed_times(draw, log)
        for given in (near, times, generate.nudged_times(draw, log)):
            check_timing(draw, log, given)
        steps = cycle_of_bounds(log)
        check(reference.admissible(log, times) == (steps is None), log, times, steps)
        written = b"".join(b"%d\n" % time for time in times)
        check((judge.times_complaint(log, written, 0) == "") == (steps is None), log, written)
        if steps:
            shut += 1
            check_steps(log, [b"%s %d\n" % (step.kind, step.event) for step in steps])
    print(f"{shut} logs without a timing")


def check_timing(draw, log, times):
    """A timing is admissible exactly where it breaks no bound, and exactly where it keeps them with some offsets of the
    clocks; and whatever is left out of a log, or made less exact, excludes no timing."""
    is_admissible = reference.admissible(log, times)
    check((reference.first_broken(log, times) is None) == is_admissible, log, times)
    offsets = offsets_of(log, times)
    check((offsets is not None) == reference.keeps_clocks(log, times), log, times, offsets)
    if offsets is not None:
        kept = all(reference.holds(bound, [*times, *offsets]) for bound in reference.bounds(log))
        check(kept == is_admissible, log, times, offsets)
    readings = list(log.readings)
    if readings:
        place = draw.randrange(len(readings))
        readings[place] = readings[place]._replace(error=readings[place].error + draw.choice((1, 5)))
    for other in (
        log._replace(clocks=[], readings=[]), log._replace(extras=[]), log._replace(readings=readings),
        log._replace(clocks=[], readings=[], extras=[]), logs.widened(log, 1),
    ):
        check(reference.admissible(other, times) or not is_admissible, log, other, times)


def offsets_of(log, times):
    """An offset for each clock that is right for all that rows read of it, found by going through whole numbers; or None."""
    found = []
    for clock in range(len(log.clocks)):
        read = [
            (reference.ahead(log, times, event), reading.error)
            for event, reading in enumerate(reference.readings_of(log))
            if reading is not None and reading.clock == clock
        ]
        right = (offset for offset in tried(read) if all(abs(ahead - offset) <= error for ahead, error in read))
        offset = next(right, None)
        if offset is None:
            return None
        found.append(offset)
    return found


def tried(read):
    """The offsets that are tried for a clock: all whole numbers that are right for the most exact of what rows read, or
    where these are many, the least ones that each reading leaves."""
    ahead, error = min(read, key=lambda pair: pair[1], default=(0, 0))
    if error <= TRIED_MOST:
        return range(ahead - error, ahead + error + 1)
    return [ahead - error for ahead, error in read]


def check_steps(log, lines):
    """A right list of steps is accepted from any of its steps, and worse ones aren't."""
    for place in range(len(lines)):
        turned = lines[place:] + lines[:place]
        first = b"inconsistent %d\n" % len(lines)
        check(judge.times_complaint(log, first + b"".join(turned), 3) == "", log, lines)
        check(judge.times_complaint(log, first + b"".join(turned[1:]), 3), log, lines)
        fewer = b"inconsistent %d\n" % (len(lines) - 1) + b"".join(turned[1:])
        check(judge.times_complaint(log, fewer, 3), log, lines)
        twice = b"inconsistent %d\n" % (2 * len(lines)) + b"".join(turned * 2)
        check(judge.times_complaint(log, twice, 3), log, lines)


def reached(log, event):
    """The events that happen before an event, by going back from it."""
    pairs = reference.directly_before(log)
    found, open_events = set(), [event]
    while open_events:
        last = open_events.pop()
        for first, second in pairs:
            if second == last and first not in found:
                found.add(first)
                open_events.append(first)
    return found


def check_order(draw):
    """Happened-before against a search backwards."""
    cyclic = 0
    for _ in range(2000):
        log = generate_logs.wild_log(draw)
        if not messages_fit(log):
            continue
        for event, before in enumerate(reference.earlier(log)):
            wanted = {other for other in range(len(log.rows)) if before >> other & 1}
            check(reached(log, event) == wanted, log, event)
        cyclic += reference.vector_clocks(log) is None
    print(f"{cyclic} logs with a cycle")


def problem_of(case):
    """The problem of a fixed derivation or rule."""
    formula = formats.read_formula(case.formula)
    return derivations.problem_of(logs.read_log(case.log), formula, case.value)


def clause_text(clause):
    """The literals of a clause as a line spells them, or the name of a fault."""
    if isinstance(clause, derivations.RuleFault):
        return clause.name
    words = [word for literal in clause for word in derivations.literal_words(literal)]
    return b" ".join(words).decode()


def check_fixed_derivations():
    """The second checker gives the answers and clauses that are written out by hand."""
    count = 0
    for case in itertools.chain(
        derivation_cases.fixed_cases(), second_cases.fixed_derivations(), pulse_cases.fixed_derivations(),
        third_cases.fixed_derivations(),
    ):
        found = derivations.answer(problem_of(case), case.lines)
        check(found == case.answer, case, found)
        count += 1
    for case in [*derivation_cases.fixed_rules(), *pulse_cases.fixed_rules()]:
        number, *arguments = map(int, case.rule.split())
        rule = derivations.Rule(number, tuple(arguments))
        found = clause_text(derivations.clause_of(problem_of(case), rule))
        check(found == case.clause, case, found)
        count += 1
    print(f"{count} derivations and rules by hand")


def worlds_of(problem, most=400):
    """The admissible timings as worlds, or None where there are too many to go through."""
    timings = list(itertools.islice(meanings.admissible_timings(problem.log), most + 1))
    if len(timings) > most:
        return None
    return [meanings.World(problem, times) for times in timings]


def check_worlds(problem, tree, worlds):
    """The worlds are admissible timings with the truth values of the reference."""
    for world in worlds:
        check(reference.admissible(problem.log, world.times), problem.log, world.times)
        check(offsets_of(problem.log, world.times) is not None, problem.log, world.times)
        wanted = reference.truth(problem.log, world.times, tree) == problem.value
        check(world.gives_value() == wanted, problem, world.times)


def check_differences(log, timings):
    """The differences of a log are those of its timings, which are all."""
    found = differences.differences_of(log)
    check((found is None) == (not timings), log)
    for e, f in itertools.product(range(len(log.rows)), repeat=2) if timings else ():
        apart = {times[f] - times[e] for times in timings}
        check(found.least(e, f) == min(apart) and found.greatest(e, f) == max(apart), log, e, f)


def check_rules(problem, worlds):
    """The clause of each rule holds in each of the worlds."""
    for clause in instances(problem):
        for world in worlds:
            check(world.clause_holds(clause.literals), problem, world.times, clause)


def right_clauses(problem, text):
    """The clauses of the lines before the first that isn't right."""
    lines = derivations.read_lines(text)
    clauses = []
    for line in lines if isinstance(lines, list) else []:
        if not derivations.is_right(problem, line, clauses):
            break
        clauses.append(derivations.clause_of_line(line))
    return clauses


def check_derivations(draw):
    """What the second checker accepts is true, and what the search finds is accepted."""
    answers = collections.Counter()
    while sum(answers.values()) < 5000:
        _, formula_text, problem = invent.some_problem(draw)
        worlds = worlds_of(problem)
        if worlds is None:
            continue
        check_worlds(problem, formats.read_formula(formula_text), worlds)
        check_differences(problem.log, [world.times for world in worlds])
        worlds = [world for world in worlds if world.gives_value()]
        check_rules(problem, draw.sample(worlds, min(len(worlds), 6)))
        search = invent.Search(draw, problem, patience=100)
        lines = invent.right_lines(search)
        text = derivations.text_of(lines)
        found = derivations.answer(problem, text)
        gave_up = found == "derives" and search.patience <= 0
        check(found == ("derives" if worlds else "refutes") or gave_up, problem, text, found)
        check(derivations.text_of(derivations.read_lines(text)) == text, text)
        clauses = set()
        for text in [text, *(edits.broken_text(draw, problem, lines) for _ in range(20))]:
            found = derivations.answer(problem, text)
            answers[found.split()[0]] += 1
            check(found != "refutes" or not worlds, problem, text)
            clauses.update(map(tuple, right_clauses(problem, text)))
        for clause in clauses:
            for world in worlds:
                check(world.clause_holds(clause), problem, world.times, clause)
    print("derivations: " + ", ".join(f"{answers[word]} {word}" for word in sorted(answers)))


def main():
    """Runs all checks."""
    parser = argparse.ArgumentParser(description="check the reference against other ways")
    parser.add_argument("--seed", type=int, default=1)
    draw = random.Random(parser.parse_args().seed)
    generate_logs.second_share = generate_logs.third_share = 0.5
    check_fixed_cases()
    check_many_bounds()
    check_fixed_derivations()
    check_derivations(draw)
    check_trees(draw, check_places())
    check_truth(draw)
    check_records(draw)
    check_log_texts(draw)
    check_times(draw)
    check_order(draw)
    print("all checks hold")


if __name__ == "__main__":
    sys.path.insert(0, str(Path(__file__).resolve().parents[1]))
    import ends

    ends.run(main)
