"""What the comparisons of tolerance and of span share: cases, and how the program's answers to them are judged."""

import os
import random
import sys
import tempfile
from collections import Counter

sys.dont_write_bytecode = True  # leaves no compiled files beside the sources

import best_cases
import generate_logs
import invent_best
from compare import Comparison
from generate import Case
from generate_logs import chance
from tables import end_if_rare, read_log_arguments

ODD_WORDS = (
    "true false True FALSE 0 1 2 00 01 -1 -0 +1 1e3 1.0 4294967295 4294967296 1000000000000000000 1000000000000000001 "
    "99999999999999999999 f l - -- -x --conflicts --conflicts=5 --conflicts=0 none check tolerance span"
).split(" ") + [""]
ANSWERS = {0: "with a number", 1: "without one", 3: "without a timing", 4: "unknown"}  # by their status
REFUSED = "refused"
SHARES = {"with a number": 0.04, "without one": 0.01, "without a timing": 0.01, "unknown": 0.001, REFUSED: 0.01}


def edited(draw, case):
    """The case with one of its words exchanged, dropped, doubled or added, most often so that it is no command."""
    words = list(case.words)
    place = draw.randrange(1, len(words))
    how = draw.randrange(5)
    if how == 0:
        del words[place]
    elif how == 1:
        words.insert(place, draw.choice(words))
    elif how == 2:
        words.insert(place, draw.choice(ODD_WORDS))
    else:
        words[place] = draw.choice(ODD_WORDS)
    return Case(words, case.files)


def random_case(draw, command):
    """A case of a command, seldom with other words than are right."""
    case = invent_best.best_case(draw, command)
    return edited(draw, case) if chance(draw, 0.1) else case


class Best(Comparison):
    """A comparison that counts the answers, and those to cases made by chance apart."""

    def __init__(self, program, folder, seed):
        super().__init__(program, folder, seed)
        self.answers = Counter()
        self.by_chance = Counter()

    def outcome(self, title, case, by_hand):
        """The outcome of a case where it is right, or None; a difference is printed."""
        found = super().outcome(title, case, by_hand)
        if found is not None:
            self.told(found.status, by_hand)
        return found

    def told(self, status, by_hand):
        """Counts an answer by its status."""
        answer = ANSWERS.get(status, REFUSED)
        self.answers[answer] += 1
        self.by_chance[answer] += not by_hand


def of_command(cases, command):
    """Those of some cases that are of a command."""
    return [case for case in cases if case.words[0].lower() == command]


def compare_all(comparison, command, count, seed):
    """Whether the program answers all fixed and count random cases rightly."""
    for case in of_command(best_cases.fixed_cases(), command):
        if generate_logs.may_be(case.files.get("l", b"")) and not comparison.is_right(case.title, case, by_hand=True):
            return False
    for place in range(count):
        draw = random.Random(f"{command} {seed} {place}")
        if not comparison.is_right(f"{command} {place} of seed {seed}", random_case(draw, command)):
            return False
    return True


def main(command):
    """Compares the answers of a command, and ends with 0 where there is no difference and with 1 where there is one."""
    arguments = read_log_arguments(f"compare the answers of {command}", 300, "random cases")
    with tempfile.TemporaryDirectory() as folder:
        comparison = Best(os.path.abspath(arguments.program), folder, arguments.seed)
        if not compare_all(comparison, command, arguments.cases, arguments.seed):
            sys.exit(1)
    end_if_rare(comparison.by_chance, SHARES, arguments.cases)
    told = [f"{comparison.answers[answer]} {answer}" for answer in SHARES]
    print(f"{sum(comparison.answers.values())} cases of {command}, no difference: {', '.join(told)}")
