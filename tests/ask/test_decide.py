"""`ask tolerance --decide`: the greatest skew of each host alone, and of all, with which a log decides a formula."""

import json
import random
import tempfile
import unittest
from collections import Counter
from pathlib import Path
from unittest import mock

import agreement
from common import ROOT, asked, facts_of_text, status_of, time_over_with
from test_words import Terminal

from ask.decide import Progress
from ask.halving import Halving, Outcome
from ask.logs import read_log
from ask.program import Program, Run, Stopped, find_program, started
from ask.windows.pool import Job, Pool

EXAMPLES = ROOT / "examples"
CASES = 150
SEED = 38
FIRST, SECOND, THIRD = (f"{word},host,time,name\n" for word in ("kind", "skewlog2", "skewlog3"))
# In DISTANT q comes 106 + y - (100 + x) after p, where x and y are the shifts of the two rows.
DISTANT = f"{FIRST}host,a,5,0\nhost,b,5,0\nset,a,100,p\nset,b,106,q\n"
# The rows of a are apart by 100 and their two shifts: by the host's skew and by that of the resync.
RESYNCED = f"{SECOND}host,a,9,0\nset,a,100,p\nresync,a,4,0\nset,a,200,q\n"
# The skew of the host's record is of no row.
REPLACED = f"{SECOND}host,a,50,0\nresync,a,9,0\nset,a,100,p\nresync,a,4,0\nset,a,200,q\nresync,a,70,0\n"
# The rows of a and b are shifted by one offset, and c has the true time.
CLOCKED = (
    f"{THIRD}host,a,5,0\nhost,b,5,0\nhost,c,0,0\nclock,a,0,m\nclock,b,0,m\nset,c,100,p\nset,b,105,q\nset,a,105,r\n"
)
# p is at most 99 - 95 = 4 before q, by the message at least 1: from 90 + y to 100 + x it takes x and y that allow that.
LATE = f"{FIRST}host,a,5,0\nhost,b,9,0\nset,a,100,p\nsend,a,100,m\nrecv,b,90,m\nset,b,90,q\n"
# The same, and two hosts more whose rows are 103 + y - (100 + x) apart.
BESIDE = f"{FIRST}host,a,5,0\nhost,b,9,0\nhost,c,5,0\nhost,d,5,0\nset,a,100,p\nsend,a,100,m\nrecv,b,90,m\nset,b,90,q\nset,c,100,p\nset,d,103,q\n"
BY_HAND = (
    # the log, the formula, the status, and for each host and all together: the greatest number, the verdict, the least
    ("LEASE", "G !(a.holds & b.holds)", 0, {"a": (2, "true", 0), "b": (2, "true", 0), None: (3, "true", 0)}),
    (DISTANT, "G (a.p -> F[0,8] b.q)", 0, {"a": None, "b": None, None: (1, "true", 0)}),
    (DISTANT, "G (a.p -> F[0,10] b.q)", 0, {"a": None, "b": None, None: (2, "true", 0)}),
    (DISTANT, "G (a.p -> F[0,5] b.q)", 0, {"a": None, "b": None, None: (0, "false", 0)}),
    (DISTANT, "G (a.p -> F[0,6] b.q)", 0, {"a": None, "b": None, None: (0, "true", 0)}),
    (DISTANT, "G (a.p -> F[0,13] b.q)", 0, {"a": (2, "true", 0), "b": (2, "true", 0), None: (3, "true", 0)}),
    (DISTANT, "G (b.q -> O[3,9] a.p)", 0, {"a": None, "b": None, None: (1, "true", 0)}),
    (RESYNCED, "G (a.p -> F[0,105] a.q)", 0, {"a": (2, "true", 0), None: (2, "true", 0)}),
    (RESYNCED, "G (a.p -> F[0,110] a.q)", 0, {"a": (6, "true", 0), None: (6, "true", 0)}),
    (REPLACED, "G (a.p -> F[0,110] a.q)", 0, {"a": (6, "true", 0), None: (6, "true", 0)}),
    (CLOCKED, "G (c.p -> F[0,7] b.q)", 0, {"a": (2, "true", 0), "b": (2, "true", 0), "c": None, None: (2, "true", 0)}),
    (CLOCKED, "F[0,3] a.r", 0, {"a": (1, "false", 0), "b": (1, "false", 0), "c": None, None: (1, "false", 0)}),
    (LATE, "G (a.p -> F[0,2] b.q)", 0, {"a": (3, "true", 2), "b": (7, "true", 6), None: (7, "true", 6)}),
    (BESIDE, "G (c.p -> F[0,2] d.q)", 1, {"a": (None, 2), "b": (None, 6), "c": None, "d": None, None: (None, 6)}),
)


def expected(found):
    """The answer, the greatest number, the verdict and the least number of what a table says of a skew."""
    if found is None:
        return ("never", None, None, 0)
    if len(found) == 2:
        return ("never", None, None, found[1])
    return ("decided", *found)


def told(facts):
    """The same of an answer, for each host and for all together."""
    return {line["host"]: tuple(line[key] for key in ("answer", "greatest", "verdict", "least")) for line in facts["lines"]}


class Rooms(unittest.TestCase):
    """Cases that have a folder for logs."""

    def setUp(self):
        room = tempfile.TemporaryDirectory()
        self.addCleanup(room.cleanup)
        self.room = Path(room.name)

    def put(self, name, text):
        """Writes a file, and gives its name."""
        (self.room / name).write_text(text)
        return name

    def program(self, text):
        """A program of a shell script."""
        path = self.room / "program"
        path.write_text(f"#!/bin/sh\n{text}")
        path.chmod(0o755)
        return str(path)

    def decided(self, words, status, folder=None):
        """What is said for people, with the status asserted."""
        ended, text, said = asked(["tolerance", "--decide", *words], folder or self.room)
        self.assertEqual(ended, status, said)
        return text

    def facts(self, words, status, folder=None):
        """The same for programs."""
        return facts_of_text(self.decided([*words, "--json"], status, folder))


class ByHand(Rooms):
    def test_numbers(self):
        for text, formula, status, wanted in BY_HAND:
            with self.subTest(text=text, formula=formula):
                log = self.put("l", (EXAMPLES / "lease.csv").read_text() if text == "LEASE" else text)
                facts = self.facts([formula, log], status)
                self.assertEqual(told(facts), {host: expected(found) for host, found in wanted.items()})

    def test_the_skew_that_is_told_is_that_of_rows(self):
        for text in (RESYNCED, REPLACED):
            said = self.decided(["G (a.p -> F[0,111] a.q)", self.put("l", text)], 0)
            self.assertIn("With the skew of a alone at most 7 (it is 4 to 9) it is true.\n", said)
            self.assertIn("With all skews at most 7 (the greatest is 9) it is true.\n", said)

    def test_sentences(self):
        empty = DISTANT.replace("host,b", "host,none,7,0\nhost,b")
        for text, formula, status, parts in (
            (DISTANT, "G (a.p -> F[0,13] b.q)", 0, (
                "G (a.p -> F[0,13] b.q) is decided where skews of l are smaller, and not as they are.\n",
                "With the skew of a alone at most 2 (it is 5) it is true.\n  2: true by every timing [check 'G (a.p -> F[0,13] b.q)' 'l, skew of a at most 2']\n"
                "  3: true by some timings and false by others [check 'G (a.p -> F[0,13] b.q)' 'l, skew of a at most 3']\n",
                "With all skews at most 3 (the greatest is 5) it is true.\n", "--keep FOLDER keeps",
            )),
            (DISTANT, "G (b.q -> O[3,9] a.p)", 0, ("Not even with the skew of a alone at most 0 (it is 5) is it decided.\n",)),
            (empty, "G (a.p -> F[0,13] b.q)", 0, ("No row is of none, so that its skew changes nothing.\n",)),
            (CLOCKED, "F[0,3] a.r", 0, ("The skew of c is 0 already.\n", "it is false.\n", "The errors of clock records stay as they are.\n")),
            (LATE, "G (a.p -> F[0,2] b.q)", 0, (
                "With the skew of b alone at most 7 (it is 9) it is true, and below 6 no timing is admissible.\n",
                "  5: no timing [check 'G (a.p -> F[0,2] b.q)' 'l, skew of b at most 5']\n",
            )),
            (BESIDE, "G (c.p -> F[0,2] d.q)", 1, (
                "Never: with no smaller skew of one host alone, nor with all of them smaller, does l decide G (c.p -> F[0,2] d.q).\n",
                "With the skew of a alone at most 2 (it is 5) it isn't decided yet, and below 2 no timing is admissible.\n",
            )),
        ):
            said = self.decided([formula, self.put("l", text)], status)
            for part in parts:
                self.assertIn(part, said)

    def test_what_is_decided_already(self):
        for formula, words, least, status, sentence in (
            ("within_9.formula", [], 1, 0, "It can be false where all skews are 1 greater, and not as they are."),
            ("within_0.formula", [], 1, 0, "It can be true where all skews are 1 greater, and not as they are."),
            ("G (a.req -> F[0,21] b.ack)", [], None, 1, "Even with all skews 2 greater it can't be false."),
            ("G (a.req -> F[0,21] b.ack)", ["--up-to", "6"], None, 1, "Even with all skews 6 greater it can't be false."),
            ("G (a.req -> F[0,21] b.ack)", ["--up-to", "9"], 7, 0, "It can be false where all skews are 7 greater, and not where they are 6 greater."),
            ("true", ["--up-to", str(10**18)], None, 1, "Even with all skews 10^18 greater it can't be false."),
        ):
            facts = self.facts([formula, "answered.csv", *words], 0, EXAMPLES)
            self.assertEqual((facts["wider"], facts["wider_status"], facts["lines"]), (least, status, []))
            text = self.decided([formula, "answered.csv", *words], 0, EXAMPLES).splitlines()
            self.assertIn(" already: ", text[0])
            self.assertEqual(text[1].partition(" [tolerance ")[0], sentence)

    def test_what_is_too_large_where_skews_are_greater(self):
        notes = "".join(f"note,a,{10 * place},n\n" for place in range(200))
        log = self.put("l", f"{FIRST}host,a,0,0\n{notes}")
        words = ["a.p U[0,2] a.q", log, "--up-to", str(10**18)]
        self.assertIn("With much greater skews it is too large to ask", self.decided(words, 0))
        self.assertEqual(self.facts(words, 0)["wider_status"], 67)
        facts = self.facts(["a.p U[0,2] a.q", log], 0)
        self.assertEqual((facts["wider_status"], facts["most"]), (1, 1))

    def test_no_timing(self):
        facts = self.facts(["p.formula", "received_first.csv"], 3, EXAMPLES)
        self.assertEqual((facts["verdict"], len(facts["contradiction"]), facts["lines"]), ("no timing", 2, []))

    def test_great_numbers(self):
        # p and q are 10 apart and their shifts: with skews of 10^18 the least number with which they may be 12 apart is 1.
        log = self.put("l", f"{FIRST}host,a,{10**18},0\nhost,b,0,0\nset,b,10,q\nset,a,20,p\n")
        facts = self.facts(["G (b.q -> F[0,12] a.p)", log], 0)
        self.assertEqual(told(facts)["a"], ("decided", 2, "true", 0))
        self.assertLess(len(facts["runs"]), 130)


class Searching(unittest.TestCase):
    """The halving alone, on what a program would say."""

    def settled(self, statuses):
        """A halving after all that it wants was said, and how many numbers it wanted."""
        halving = Halving(0, [len(statuses) - 1], {len(statuses) - 1: Run("", statuses[-1], b"")})
        count = 0
        number = halving.wanted()
        while number is not None:
            self.assertNotIn(number, halving.runs)
            halving.runs[number] = Run("", statuses[number], b"")
            count += 1
            number = halving.wanted()
        return halving, count

    def test_all_that_there_can_be(self):
        for skew in range(14):
            for least in range(skew + 1):
                for greatest in range(least - 1, skew):
                    statuses = [3] * least + [1] * (greatest + 1 - least) + [2] * (skew - greatest)
                    halving, count = self.settled(statuses)
                    found = None if greatest < least else greatest
                    outcome = Outcome.NEVER if found is None else Outcome.DECIDED
                    self.assertEqual((halving.outcome(), halving.greatest(), halving.least()), (outcome, found, least), statuses)
                    self.assertEqual(halving.either(), max(greatest + 1, least))
                    self.assertLessEqual(count, 2 * skew.bit_length() + 1, statuses)

    def test_what_is_unknown_is_never_told_as_decided(self):
        draw = random.Random(SEED)
        outcomes = Counter()
        for _ in range(3000):
            skew = draw.randint(0, 40)
            least = draw.randint(0, skew)
            greatest = draw.randint(least - 1, skew - 1) if least < skew else least - 1
            statuses = [3] * least + [0] * (greatest + 1 - least) + [2] * (skew - greatest)
            share = draw.choice((0.1, 0.5, 0.9, 1))
            left = [4 if status != 3 and draw.random() < share else status for status in statuses]
            halving, count = self.settled(left)
            self.assertEqual(halving.least(), least, left)
            self.assertIn(halving.greatest(), [None, *(number for number, status in enumerate(left) if status == 0)])
            self.assertIn(halving.either(), [None, *(number for number, status in enumerate(left) if status == 2)])
            if halving.outcome() is Outcome.DECIDED:
                self.assertEqual((halving.greatest(), halving.either()), (greatest, greatest + 1), left)
            elif halving.outcome() is Outcome.NEVER:
                self.assertEqual((greatest, halving.either()), (least - 1, least), left)
            else:
                self.assertTrue(halving.tried(4), left)
            outcomes[halving.outcome()] += 1
        self.assertTrue(all(outcomes[outcome] > 100 for outcome in Outcome), outcomes)


class Unknown(Rooms):
    def test_a_budget_that_is_too_small(self):
        facts = self.facts(["either.formula", "apart.csv", "--conflicts", "1"], 4, EXAMPLES)
        self.assertEqual(facts["verdict"], "unknown")
        self.assertEqual({line["answer"] for line in facts["lines"]}, {"unknown"})
        self.assertEqual({line["verdict"] for line in facts["lines"]}, {None})
        self.assertEqual(self.facts(["either.formula", "apart.csv"], 0, EXAMPLES)["verdict"], "true")

    def test_what_is_known_is_told(self):
        # A program that finds the log decided up to the first number, open from the second on, and else knows nothing.
        for up_to, from_on, said, greatest, either in (
            (3, 9, "Unknown for the skew of a alone (it is 12): with at most 3 it is true, with 9 it isn't decided, and between them it wasn't found within the conflicts.", 3, 9),
            (-1, 9, "Unknown for the skew of a alone (it is 12): with 9 it isn't decided, and below that it wasn't found within the conflicts.", None, 9),
            (3, 99, "Unknown for the skew of a alone (it is 12): with at most 3 it is true, and above that it wasn't found within the conflicts.", 3, None),
            (-1, 99, "Unknown for the skew of a alone (it is 12): it wasn't found within the conflicts.", None, None),
        ):
            log = self.put("l", DISTANT.replace("host,a,5", "host,a,12"))
            report = "printf 'skewcheck 1\\nevents 2\\ntrue %s\\nfalse %s\\nend\\n'"
            program = self.program(f"""skew=$(sed -n 's/^host,a,\\([0-9]*\\),.*/\\1/p' "$3")
if [ "$skew" -le {up_to} ]; then {report} 'witness
1
2' 'refuted 0'; exit 0; fi
if [ "$skew" -ge {from_on} ]; then {report} 'witness
1
2' 'witness
1
2'; exit 2; fi
{report} 'witness
1
2' 'unknown 0'; exit 4
""")
            words = ["G (a.p -> F[0,8] b.q)", log, "--program", program]
            self.assertIn(said, self.decided(words, 4).splitlines())
            facts = self.facts(words, 4)
            line = next(line for line in facts["lines"] if line["host"] == "a")
            self.assertEqual((line["answer"], line["greatest"], line["either_at"]), ("unknown", greatest, either))


class Kept(Rooms):
    def test_each_check_can_be_repeated(self):
        for place, formula in enumerate(("lease.formula", "G at most one of *.holds")):
            folder = self.room / str(place)
            facts = self.facts([formula, "lease.csv", "--keep", str(folder)], 0, EXAMPLES)
            self.assertEqual(facts["folder"], str(folder))
            for run in facts["runs"][1:]:
                self.assertIn(str(folder), run["words"])
                self.assertEqual(status_of(run["words"].split()), run["status"], run["words"])
                self.assertEqual(asked(run["words"].split())[0], run["status"])
            names = {Path(run["words"].split()[2]).name for run in facts["runs"][1:]}
            self.assertEqual({path.name for path in folder.iterdir()}, {"formula", *names})

    def test_only_the_skews_of_the_host_are_smaller(self):
        folder = self.room / "kept"
        log = f"{THIRD}host,all,9,1\nhost,b,8,0\nclock,all,6,m\nset,all,100,p\nresync,all,4,2\nset,all,200,q\nset,b,215,r\n"
        self.facts(["G (all.p -> F[0,125] b.r)", self.put("l", log), "--keep", str(folder)], 0)
        for name, wanted in (
            ("all_at_most_0", log.replace("all,9,1", "all,0,1").replace("all,4,2", "all,0,2")), ("b_at_most_4", log.replace("b,8,0", "b,4,0")),
            ("all-hosts_at_most_4", log.replace("all,9,1", "all,4,1").replace("b,8,0", "b,4,0")),
        ):
            self.assertEqual((folder / f"{name}.csv").read_text(), wanted)

    def test_units_are_kept(self):
        checkout = str(ROOT / "tests" / "ask" / "logs" / "checkout_us.csv")
        self.decided(["G (web.asked -> F[0,7.999ms] pay.done)", checkout, "--keep", "kept"], 0)
        said = asked(["tolerance", "--decide", "G (web.asked -> F[0,7.9ms] pay.done)", "kept/web_at_most_1999.csv"], self.room)[1]
        self.assertIn("With the skew of web alone at most 1.9 ms (it is 1.999 ms) it is true.\n", said)

    def test_folders_that_are_refused(self):
        (self.room / "full").mkdir()
        self.put("full/file", "")
        for name, part in (("full", "isn't empty: name another folder by --keep"), ("full/file/below", "can't be made")):
            ended, _, said = asked(["tolerance", "--decide", "lease.formula", "lease.csv", "--keep", str(self.room / name)], EXAMPLES)
            self.assertEqual((ended, part in said), (73, True), said)

    def test_what_is_refused_or_decided_leaves_no_folder(self):
        for formula, status in (("c.p", 65), ("G (a.req -> F[0,9] b.ack)", 0)):
            self.assertEqual(asked(["tolerance", "--decide", formula, "answered.csv", "--keep", str(self.room / "kept")], EXAMPLES)[0], status)
            self.assertFalse((self.room / "kept").exists())


class Words(Rooms):
    def test_words_that_do_not_go_together(self):
        for words, part in (
            (["--decide", "true", "lease.formula", "lease.csv"], "beside it stand FORMULA and LOG alone"),
            (["--decide", "lease.formula", "lease.csv", "--all"], "--all is for a VALUE"),
            (["true", "lease.formula", "lease.csv", "--keep", "x"], "--keep is for --decide"), (["true", "lease.formula", "lease.csv", "--jobs", "1"], "--jobs is for --decide"),
            (["either", "lease.formula", "lease.csv"], "VALUE is true or false, and not 'either'"), (["--decide", "lease.formula"], "LOG"),
            (["--decide"], "FORMULA, LOG"), (["lease.formula", "lease.csv"], "LOG"), (["--decide", "lease.formula", "lease.csv", "--up-to", "x"], "--up-to"),
            (["--decide", "lease.formula", "lease.csv", "--conflicts", "0"], "--conflicts"), (["--decide", "lease.formula", "lease.csv", "--jobs", "0"], "--jobs: it is a number from 1 to 1,024, and not '0'"),
            (["--decide", "-", "-"], "`-` is the standard input"), (["--decide", "a.p", "b.p", "--decide", "lease.csv"], "alone"),
        ):
            ended, text, said = asked(["tolerance", *words], EXAMPLES)
            self.assertEqual((ended, text), (64, ""), words)
            self.assertIn(part, said)

    def test_the_option_stands_anywhere(self):
        wanted = self.decided(["lease.formula", "lease.csv"], 0, EXAMPLES)
        for words in (["lease.formula", "--decide", "lease.csv"], ["lease.formula", "lease.csv", "--decide"], ["--jobs", "1", "lease.formula", "--decide", "lease.csv"]):
            self.assertEqual(asked(["tolerance", *words], EXAMPLES), (0, wanted, ""))

    def test_the_standard_input(self):
        text = (EXAMPLES / "lease.csv").read_bytes()
        self.assertEqual(asked(["tolerance", "--decide", "lease.formula", "-", "--quiet"], EXAMPLES, text), (0, "", ""))

    def test_refusals(self):
        for words, status, part in (
            (["c.p", "lease.csv"], 65, "no host c"), (["a.", "lease.csv"], 65, "ends too early"), (["", "lease.csv"], 65, "the formula is empty"),
            (["lease.formula", "lease.formula"], 66, "line 1"), (["lease.csv", "lease.formula"], 66, "the first line has to be"),
            (["lease.formula", "missing.csv"], 74, "missing.csv"), (["lease.formula", "lease.csv", "--program", "x"], 72, "x"),
            (["G (a.holds -> F[0,5ms] b.holds)", "lease.csv"], 65, "in which unit"),
        ):
            ended, text, said = asked(["tolerance", "--decide", *words], EXAMPLES)
            self.assertEqual((ended, text), (status, ""), said)
            self.assertIn(part, said)

    def test_warnings(self):
        misspelt = "G (a.hodls -> F[0,1] b.holds)"
        for more, status in (([], 0), (["--strict"], 65), (["--strict-for", "unset"], 65), (["--strict-for", "end"], 0)):
            said = self.decided([misspelt, "lease.csv", *more], status, EXAMPLES)
            self.assertIn("Warning (unset): a.hodls (line 1, column 4) is false throughout", said)
        facts = self.facts(["G[0,20] a.req", "answered.csv", "--strict-for", "end"], 65, EXAMPLES)
        self.assertEqual([warning["kind"] for warning in facts["warnings"]], ["end"])

    def test_units(self):
        said = self.decided(["G (a.holds -> !b.holds)", "lease.csv", "--unit", "ms"], 0, EXAMPLES)
        self.assertIn("With the skew of a alone at most 2 ms (it is 5 ms) it is true.\n  2 ms: true by every timing", said)
        self.assertEqual(self.facts(["lease.formula", "lease.csv", "--unit", "ms"], 0, EXAMPLES)["unit"], "ms")

    def test_macros(self):
        plain, macro = (self.facts([text, "lease.csv"], 0, EXAMPLES) for text in ("G !(a.holds & b.holds)", "G at most one of *.holds"))
        self.assertEqual(told(plain), told(macro))
        self.assertIn("G at most one of *.holds is decided", macro["sentence"])
        self.assertEqual(asked(["tolerance", "--decide", "G at most one of *.holds", "lease.csv", "--formula"], EXAMPLES), (0, "G !(a.holds & b.holds)\n", ""))

    def test_the_runs_are_named(self):
        said = self.decided(["lease.formula", "lease.csv", "--runs"], 0, EXAMPLES)
        runs = self.facts(["lease.formula", "lease.csv"], 0, EXAMPLES)["runs"]
        self.assertIn(f"\n{len(runs)} runs of the program:\n  check lease.formula lease.csv -> 2\n", said)
        self.assertEqual(len(runs), 1 + 3 + 3 + 4)  # of each skew 0, 2 and 3, and of all 0, 2, 3 and 4

    def test_the_same_with_any_number_of_jobs(self):
        one, other = (self.decided(["lease.formula", "lease.csv", "--runs", "--jobs", jobs], 0, EXAMPLES) for jobs in ("1", "3"))
        self.assertEqual(one, other)


class Programs(Rooms):
    def test_programs_that_answer_otherwise(self):
        for script, status, part in (
            ("exit 64", 72, "status 64"), ("echo x; exit 2", 72, "no report that ask can read"), ("exit 70", 70, "memory ran out"),
        ):
            ended, text, said = asked(["tolerance", "--decide", "lease.formula", "lease.csv", "--program", self.program(script)], EXAMPLES)
            self.assertEqual((ended, text, part in said), (status, "", True), said)

    def test_a_later_check_that_fails(self):
        for script, status, part in (("exit 70", 70, "memory ran out"), ("exit 0", 72, "no report"), (
            "kill -9 $$", 72, "was ended by signal 9. Where that was for want of memory, have fewer runs at a time (--jobs)",
        )):
            program = self.program(f'if grep -q "^host,a,5," "$3" && grep -q "^host,b,5," "$3"; then exec {find_program(None)} "$@"; fi\n{script}\n')
            ended, text, said = asked(["tolerance", "--decide", "lease.formula", "lease.csv", "--program", program], EXAMPLES)
            self.assertEqual((ended, text, part in said), (status, "", True), said)

    def test_time_that_is_over(self):
        first = f'if grep -q "^host,a,5," "$3" && grep -q "^host,b,5," "$3"; then exec {find_program(None)} "$@"; fi\n'
        for before in ("", first):
            program = self.program(f"{before}exec sleep 20\n")
            words = ["tolerance", "--decide", "lease.formula", "lease.csv", "--seconds", "0.5", "--program", program]
            ended, text, said = asked(words, EXAMPLES)
            self.assertEqual((ended, text), (124, ""))
            self.assertIn("a run took longer than --seconds allows", said)

    def test_time_that_is_over_behind_the_verdict(self):
        mark = self.room / "mark"
        program = self.program(f'if [ "$1" = check ]; then exec {find_program(None)} "$@"; fi\n: >{mark}\nexec sleep 60\n')
        words = ["true", "answered.csv", "--seconds", "100", "--program", program]
        with time_over_with(mark):
            said = self.decided(words, 0, EXAMPLES)
            facts = self.facts(words, 0, EXAMPLES)
        self.assertIn("True already: true is true", said)
        self.assertIn("How much greater skews may be wasn't found in time", said)
        self.assertEqual((facts["wider"], facts["wider_status"]), (None, 124))

    def test_a_pool_ends_what_takes_too_long(self):
        pool = Pool(Program(self.program("exec sleep 20\n")), 2, 0.2)
        self.assertEqual([(done.key, done.status) for done in pool.run([Job("slow", [], [])])], [("slow", 124)])

    def test_a_pool_that_is_stopped_leaves_nothing_open(self):
        runs = []

        def starting(words, numbers):
            runs.append(started(words, numbers))
            return runs[-1]

        pool = Pool(Program(self.program("exec sleep 20\n"), seconds=0.2), 2)
        with mock.patch("ask.windows.pool.started", starting), self.assertRaises(Stopped):
            list(pool.run([Job("slow", [], []), Job("slow too", [], [])]))
        self.assertEqual([(run.poll(), run.stdout.closed) for run in runs], [(-9, True)] * 2)

    def test_progress_is_told_on_a_terminal_alone(self):
        with mock.patch("sys.stderr", Terminal()) as said:
            for is_wanted in (True, False):
                progress = Progress(is_wanted)
                progress.told -= 2
                progress.began -= 2
                progress.tell(7)
                progress.end()
        self.assertEqual(said.getvalue(), "ask: 7 runs by now\r\n")


class Enumerated(unittest.TestCase):
    def test_against_every_skew_tried_one_by_one(self):
        versions, kinds = Counter(), Counter()
        with tempfile.TemporaryDirectory() as folder:
            for place in range(CASES):
                draw = random.Random(f"{SEED} {place}")
                log, formula = agreement.decide_question(draw)
                right = agreement.decide_facts(log, formula)
                self.assertEqual(agreement.decide_said(folder, log, formula), right, (place, formula, Path(folder, "l").read_text()))
                versions[read_log(Path(folder, "l").read_bytes()).version] += 1
                kinds.update(["already" if right.status == 0 and not right.lines else right.status])
                kinds.update((line.answer, line.least > 0) for line in right.lines.values())
        self.assertTrue(all(versions[version] >= 10 for version in (1, 2, 3)), versions)
        wanted = ("already", 0, 1, 3, ("decided", False), ("decided", True), ("never", False), ("never", True))
        self.assertTrue(all(kinds[kind] for kind in wanted), kinds)


if __name__ == "__main__":
    unittest.main()
