#!/usr/bin/env python3
"""Compares the answers of ask on generated questions with what is enumerated, and with the program.

Run as: tests/ask/agreement.py [--cases N] [--of COMMAND ..] [--seed N]

Each of deadline, between, tolerance, tolerance --decide and each is asked N questions of small logs, and what it answers
has to be so by all timings of the log, which the reference in tests/reference goes through. `ask check` is asked N questions of
generated files, some of them broken, and has to end with the status of the program. The end is 1 where one differs.
"""

import argparse
import random
import re
import sys
import tempfile
from pathlib import Path
from typing import NamedTuple, Optional

sys.dont_write_bytecode = True  # leaves no compiled files beside the sources

from common import asked, facts_of_text, status_of
import formats
import generate
import invent_reports
import logs
import meanings
import reference
from tables import number_of_cases

TIMINGS_MOST = 250  # ways to give each row a time of its window that are gone through for a question
DEADLINE_EDGE_SHARE = 0.9  # of questions with no least and no greatest number, in place of which another one is drawn
DECIDE_TIMINGS_MOST = 1000  # the same where skews are made smaller
DECIDE_OPEN_SHARE = 0.97  # of logs that decide the formula or have no timing, in place of which another one is drawn
WIDEST = 2  # by which skews are widened
INTERVAL = re.compile(rb"\[([ \t\r\n]*)([0-9]+)([ \t\r\n]*,[ \t\r\n]*)([0-9]+|inf)([ \t\r\n]*\])")
MARKED = re.compile(rb"\[[ \t\r\n]*([0-9]+|\?)[ \t\r\n]*,[ \t\r\n]*([0-9]+|inf|\?)[ \t\r\n]*\]")
PROPOSITION = re.compile(rb"(?<![a-z0-9_])([a-z][a-z0-9_]*)[ \t\r\n]*\.[ \t\r\n]*([a-z][a-z0-9_]*)")
PLACES = b"{1}.{2}"
MOST_NUMBER = 10**18


class Timings(NamedTuple):
    """A small log with all timings that it admits."""

    log: logs.Log
    all: list

    def values(self, text):
        """The values of a formula over all timings."""
        tree = formats.read_formula(text)
        return {reference.truth(self.log, times, tree) for times in self.all}

    def is_always_true(self, text):
        """Whether a formula is true by every timing."""
        tree = formats.read_formula(text)
        return all(reference.truth(self.log, times, tree) for times in self.all)


def small_question(draw, widening=0):
    """A log and the text of a formula, such that the log has few timings also where its skews are greater."""
    while True:
        question = invent_reports.small_question(draw)
        ways = 1
        for event in range(len(question.log.rows)):
            ways *= 2 * (reference.skew_of(question.log, event) + widening) + 1
        if ways <= TIMINGS_MOST:
            return question.log, question.formula_text


def answer_of(folder, words, formula, log):
    """How ask ends on a formula and a log, and its facts."""
    Path(folder, "f").write_bytes(formula)
    Path(folder, "l").write_bytes(logs.log_text(log))
    ended, text, _ = asked([*words, "--json"], folder)
    return ended, facts_of_text(text)


# deadline


def with_marks(draw, formula):
    """A formula with `?` in place of a number of an interval, seldom of several, or None where it has none."""
    found = list(INTERVAL.finditer(formula))
    if not found:
        return None
    count = min(len(found), draw.choice((1, 1, 1, 2)))
    for one in sorted(draw.sample(found, count), key=lambda match: -match.start()):
        group = draw.choice((2, 4))
        formula = formula[: one.start(group)] + b"?" + formula[one.end(group) :]
    return formula


def fitting(template):
    """The least and the greatest number with which no interval with `?` ends before it begins."""
    ends = [match.groups() for match in MARKED.finditer(template) if b"?" in match.groups()]
    least = max((int(low) for low, _ in ends if low != b"?"), default=0)
    return least, min((int(high) for low, high in ends if low == b"?" and high != b"inf"), default=MOST_NUMBER)


def is_mixed(template):
    """Whether a greater number makes the formula easier to meet at one `?`, and harder at another."""
    far = b"%d" % MOST_NUMBER
    tree = formats.read_formula(MARKED.sub(lambda found: marked_interval(found, far), template))
    return len(set(directions(tree, True))) > 1


def marked_interval(found, far):
    """An interval with a number that no interval without `?` has then, in a place that tells which bound it is."""
    low, high = found.groups()
    return b"[%b,inf]" % far if low == b"?" else b"[0,%b]" % far if high == b"?" else b"[0,0]"


def directions(tree, is_positive):
    """For each `?` of a formula whether a greater number makes it easier to meet."""
    if tree.interval and MOST_NUMBER in tree.interval:
        is_wider = tree.interval[1] == MOST_NUMBER
        yield (is_wider == (tree.form in "FOUS")) == is_positive
    for place, child in enumerate(tree.children):
        is_turned = tree.form == "!" or tree.form == "->" and place == 0
        yield from directions(child, is_positive != is_turned)


def numbers_tried(timings, least, most):
    """Numbers from the least one that fits to beyond every distance of rows, and the greatest one that fits."""
    local = [row.local for row in timings.log.rows]
    skews = [reference.skew_of(timings.log, event) for event in range(len(local))]
    far = max(local) - min(local) + 2 * max(skews) + 2
    near = range(least, min(most, max(least, far) + 2) + 1)
    return sorted({*near, most})


def deadline_question(draw):
    """A log and a formula with `?`, which mostly has a number beyond which others won't do."""
    log, template = marked_question(draw)
    while draw.random() < DEADLINE_EDGE_SHARE and deadline_right(log, template).get("which") in (None, "any"):
        log, template = marked_question(draw)
    return log, template


def marked_question(draw):
    """A log and a formula with `?`."""
    while True:
        log, formula = small_question(draw)
        template = with_marks(draw, formula)
        if template is not None:
            return log, template


def deadline_right(log, template):
    """What `ask deadline` has to answer."""
    least, most = fitting(template)
    if is_mixed(template) or least > most:
        return {"status": 64}
    timings = Timings(log, list(meanings.admissible_timings(log)))
    if not timings.all:
        return {"status": 3}
    tried = numbers_tried(timings, least, most)
    good = [number for number in tried if timings.is_always_true(template.replace(b"?", b"%d" % number))]
    return deadline_facts(tried, good, most)


def deadline_complaint(draw, folder):
    """What `ask deadline` says that isn't so, or nothing."""
    log, template = deadline_question(draw)
    right = deadline_right(log, template)
    ended, facts = answer_of(folder, ["deadline", "f", "l"], template, log)
    said, words = {key: facts.get(key) for key in right}, facts.get("sentence", "")
    if (ended, said) != (right["status"], right) or not words.startswith(deadline_words(right)):
        return f"{template!r}: {ended}, {said}, {words!r}, and right is {right}"
    return ""


def deadline_facts(tried, good, most):
    """What `ask deadline` has to answer where these of the numbers that were tried will do."""
    if not good:
        return {"status": 1, "number": None, "which": None, "least": None, "greatest": None}
    greatest = None if good[-1] == most == MOST_NUMBER else good[-1]
    if good == tried:
        which, number = "any", None
    elif good[0] > tried[0]:
        which, number = "least", good[0]
    else:
        which, number = "greatest", good[-1]
    right = {"status": 0, "which": which, "least": good[0], "greatest": greatest}
    return right if which == "any" else {**right, "number": number}


def deadline_words(right):
    """How the sentence has to begin."""
    if right["status"]:
        return {1: "None: ", 3: "No timing: ", 64: ""}[right["status"]]
    if right["which"] != "any":
        return f"{right['number']} is the {right['which']} number with which "
    if right["greatest"] is not None:
        return f"Any number from {right['least']} to {right['greatest']} will do: "
    return f"Any number from {right['least']} on will do: " if right["least"] else "Any number"


# The others


def between_complaint(draw, folder):
    """What `ask between` says that isn't so, or nothing."""
    log, formula = small_question(draw)
    while len(log.rows) < 2:
        log, formula = small_question(draw)
    first, second = draw.sample(range(len(log.rows)), 2)
    ended, facts = answer_of(folder, ["between", "l", str(first), str(second)], formula, log)
    delays = [times[second] - times[first] for times in meanings.admissible_timings(log)]
    right = (0, min(delays), max(delays)) if delays else (3, None, None)
    said = (ended, facts.get("least"), facts.get("greatest"))
    return "" if said == right else f"rows {first} and {second}: {said}, and right is {right}"


def tolerance_complaint(draw, folder):
    """What `ask tolerance` says that isn't so, or nothing."""
    log, formula = small_question(draw, WIDEST)
    value, most = draw.choice(("true", "false")), draw.randint(0, WIDEST)
    ended, facts = answer_of(folder, ["tolerance", value, "f", "l", "--up-to", str(most)], formula, log)
    found = [Timings(wide, list(meanings.admissible_timings(wide))) for wide in widenings(log, most)]
    least = next((number for number, timings in enumerate(found) if (value == "true") in timings.values(formula)), None)
    right = (0 if least is not None else 1 if found[-1].all else 3, least)
    said = (ended, facts.get("least"))
    return "" if said == right else f"{value} {formula!r} up to {most}: {said}, and right is {right}"


def widenings(log, most):
    """The log with its skews greater by 0, 1 and so on."""
    return [logs.widened(log, number) for number in range(most + 1)]


# tolerance --decide


class Narrowest(NamedTuple):
    """What has to be said of a skew: the greatest number with which the verdict is decided, and the least with a timing."""

    answer: str
    greatest: Optional[int]
    verdict: Optional[str]
    least: int


class Deciding(NamedTuple):
    """What has to be said of all skews, by the names of hosts, and None for all of them; nothing where none is tried."""

    status: int
    lines: dict


def decide_question(draw):
    """A log with some greater skews that still has few timings, and a formula, which it seldom decides."""
    log, formula = wider_question(draw)
    while draw.random() < DECIDE_OPEN_SHARE and status_on(log, formula) != 2:
        log, formula = wider_question(draw)
    return log, formula


def wider_question(draw):
    """A log with some greater skews that still has few timings, and the text of a formula."""
    while True:
        log, formula = small_question(draw)
        hosts, resyncs = (
            [each._replace(skew=draw.choice((0, 1, 2, 3, 5, 8))) for each in given] for given in (log.hosts, log.resyncs)
        )
        log = log._replace(hosts=hosts, resyncs=resyncs)
        ways = 1
        for event in range(len(log.rows)):
            ways *= 2 * reference.skew_of(log, event) + 1
        if ways <= DECIDE_TIMINGS_MOST:
            return log, formula


def narrowed(log, host, most):
    """The log with no skew of a host, or of all where that is None, above a number."""
    hosts, resyncs = (
        [each._replace(skew=min(each.skew, most)) if host in (None, number) else each for number, each in given]
        for given in (enumerate(log.hosts), ((resync.host, resync) for resync in log.resyncs))
    )
    return log._replace(hosts=hosts, resyncs=resyncs)


def decide_facts(log, formula):
    """What `ask tolerance --decide` has to say, by trying every number of every skew."""
    status = status_on(log, formula)
    if status != 2:
        return Deciding(3 if status == 3 else 0, {})
    lines = {}
    for host in [*range(len(log.hosts)), None]:
        name = None if host is None else log.hosts[host].name.decode()
        skews = [reference.skew_of(log, event) for event, row in enumerate(log.rows) if host in (None, row.host)]
        lines[name] = narrowest([status_on(narrowed(log, host, most), formula) for most in range(max(skews, default=0) + 1)])
    return Deciding(0 if any(line.answer == "decided" for line in lines.values()) else 1, lines)


def narrowest(statuses):
    """What has to be said of a skew by the statuses of check with each number from 0 on."""
    decided = [most for most, status in enumerate(statuses) if status in (0, 1)]
    least = next(most for most, status in enumerate(statuses) if status != 3)
    if not decided:
        return Narrowest("never", None, None, least)
    return Narrowest("decided", decided[-1], ("true", "false")[statuses[decided[-1]]], least)


def status_on(log, formula):
    """The status that check has on a log."""
    timings = Timings(log, list(meanings.admissible_timings(log)))
    return status_of_values(timings, formula)


def decide_said(folder, log, formula):
    """The same of what `ask tolerance --decide` says."""
    ended, facts = answer_of(folder, ["tolerance", "--decide", "f", "l"], formula, log)
    lines = facts.get("lines", [])
    return Deciding(ended, {line["host"]: Narrowest(*(line[key] for key in Narrowest._fields)) for line in lines})


def decide_complaint(draw, folder):
    """What `ask tolerance --decide` says that isn't so, or nothing."""
    log, formula = decide_question(draw)
    said, right = decide_said(folder, log, formula), decide_facts(log, formula)
    return "" if said == right else f"{formula!r}: {said}, and right is {right}"


# The others


def each_complaint(draw, folder):
    """What `ask each` says that isn't so, or nothing."""
    log, formula = small_question(draw)
    template = PROPOSITION.sub(PLACES, formula, count=1)
    if PLACES not in template:
        template = b"F " + PLACES
    ended, facts = answer_of(folder, ["each", "f", "l", "--over", r"(\w+)\.(\w+)"], template, log)
    timings = Timings(log, list(meanings.admissible_timings(log)))
    names = dict.fromkeys(log.hosts[row.host].name + b"." + row.name for row in log.rows)
    right = {name.decode(): status_of_values(timings, template.replace(PLACES, name)) for name in names}
    verdicts = {0: "true", 1: "false", 2: "either", 3: "no timing"}
    said = {line["name"]: line["status"] for line in facts.get("lines", [])}
    whole = next((status for status in (3, 1, 2, 0) if status in right.values()), None)
    words_are_right = all(line["verdict"] == verdicts.get(line["status"]) for line in facts.get("lines", []))
    has_walk = ("contradiction" in facts) == (whole == 3)
    if (said, ended) != (right, whole) or not words_are_right or not has_walk:
        return f"{template!r}: {ended}, {said}, and right is {whole}, {right}"
    return ""


def status_of_values(timings, text):
    """The status of `check` of a formula by all timings."""
    values = timings.values(text)
    return 3 if not values else 2 if len(values) == 2 else 0 if True in values else 1


def check_complaint(draw, folder):
    """Where `ask check` ends otherwise than the program, or nothing."""
    log = generate.some_log(draw)
    formula, text = generate.formula_file(draw, log), generate.log_file(draw, log, 0.1)
    Path(folder, "f").write_bytes(formula)
    Path(folder, "l").write_bytes(text)
    words = ["check", "f", "l", *draw.choice((["--as-found"], ["--quiet"], ["--json"], []))]
    ended, written, said = asked(words, folder)
    right = status_of(["check", str(Path(folder, "f")), str(Path(folder, "l"))])
    if ended != right or "--quiet" in words and written or (ended >= 64) != bool(said):
        return f"{words} of {formula[:200]!r} and {text[:400]!r}: {ended}, {said!r}, and the program {right}"
    return ""


COMPLAINTS = {
    "check": check_complaint, "deadline": deadline_complaint, "between": between_complaint,
    "tolerance": tolerance_complaint, "decide": decide_complaint, "each": each_complaint,
}


def differences(command, cases, seed):
    """What a command says that isn't so in so many cases, as lines with the number of the case."""
    with tempfile.TemporaryDirectory() as folder:
        for place in range(cases):
            found = COMPLAINTS[command](random.Random(f"{seed} {command} {place}"), folder)
            if found:
                log = Path(folder, "l").read_text(errors="replace")
                yield f"{command}, case {place} of seed {seed}: {found}\n{log}"


def main():
    """Prints what differs, and ends with 0 where nothing does."""
    parser = argparse.ArgumentParser(description=__doc__.splitlines()[0])
    parser.add_argument("--cases", type=number_of_cases, default=100, metavar="N", help="questions of each command")
    parser.add_argument("--of", nargs="+", choices=list(COMPLAINTS), default=list(COMPLAINTS), metavar="COMMAND")
    parser.add_argument("--seed", type=int, default=38, metavar="N")
    arguments = parser.parse_args()
    count = 0
    for command in arguments.of:
        found = list(differences(command, arguments.cases, arguments.seed))
        count += len(found)
        print("\n".join([*found, f"{command}: {arguments.cases} questions, {len(found)} answered otherwise"]), flush=True)
    return 1 if count else 0


if __name__ == "__main__":
    sys.path.insert(0, str(Path(__file__).resolve().parents[1]))
    import ends

    ends.run(main)
