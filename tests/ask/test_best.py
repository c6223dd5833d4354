"""`ask between` and `ask tolerance`: what they make of the program's `span` and `tolerance`."""

import random
import tempfile
import unittest
from collections import Counter
from pathlib import Path

from common import ROOT, asked, facts_of_text
import generate
import logs
import reference

EXAMPLES = ROOT / "examples"
CASES = 24


def facts_of(words, status, folder=EXAMPLES):
    """What words answer, as facts."""
    ended, text, said = asked([*words, "--json"], folder)
    assert ended == status, f"{words}: {ended}, {said}"
    return facts_of_text(text)


class Between(unittest.TestCase):
    def test_values_by_hand(self):
        for words, least, greatest in (
            (["answered.csv", "0", "1"], 1, 9), (["answered.csv", "1", "0"], -9, -1), (["together.csv", "0", "1"], 0, 0),
            (["checkout.csv", "0", "3"], 1, 8000), (["checkout.csv", "0", "5"], 5000, 13000), (["ping.csv", "0", "3"], 5, 57),
            (["no_ping.csv", "0", "3"], 1, 61), (["lease.csv", "set:a.holds", "clear:a.holds"], 90, 110),
        ):
            facts = facts_of(["between", *words], 0)
            self.assertEqual((facts["least"], facts["greatest"]), (least, greatest), words)

    def test_ways_to_name_a_row(self):
        first = facts_of(["between", "checkout.csv", "0", "3"], 0)
        for words in (["line:4", "line:7"], ["web.asked", "pay.done"], ["0", "pay.done"], ["line:4", "3"]):
            self.assertEqual(facts_of(["between", "checkout.csv", *words], 0)["sentence"], first["sentence"])

    def test_rows_that_are_none(self):
        for log, row, part in (
            ("checkout.csv", "7", "numbered from 0 to 6"), ("checkout.csv", "line:3", "4 to 10"), ("checkout.csv", "line:x", "4 to 10"),
            ("checkout.csv", "web.done", "asked, m1, m2, shown"), ("checkout.csv", "app.done", "web, pay"),
            ("checkout.csv", "done", "HOST.NAME"), ("checkout.csv", "9" * 5000, "numbered from 0"), ("checkout.csv", "-1", "usage"),
            ("checkout.csv", "3", "both are"), ("lease.csv", "a.holds", "line:4 (set), line:5 (clear)"), ("checkout.csv", "", "names no row"), ("lease.csv", "on:a.holds", "the kinds are set"),
            ("lease.csv", "note:a.holds", "no note row of a"),
        ):
            ended, _, said = asked(["between", log, row, "3"], EXAMPLES)
            self.assertEqual(ended, 64, said)
            self.assertIn(part, said)

    def test_ends_rest_on_bounds_of_the_log(self):
        ends = facts_of(["between", "checkout.csv", "0", "3"], 0)["ends"]
        self.assertEqual({step["bound"] for step in ends["greatest"]["rests_on"]}, {"low 0", "high 3"})
        self.assertEqual({step["bound"] for step in ends["least"]["rests_on"]}, {"rise 1", "message 2", "rise 3"})

    def test_the_runs_are_named(self):
        _, text, _ = asked(["between", "answered.csv", "0", "1", "--runs"], EXAMPLES)
        self.assertIn("2 runs of the program:\n  span true 0 1 'true' answered.csv -> 0\n  span true 1 0 'true' answered.csv -> 0\n", text)

    def test_contradictions_and_refusals(self):
        self.assertEqual(len(facts_of(["between", "circle.csv", "0", "1"], 3)["contradiction"]), 4)
        with tempfile.TemporaryDirectory() as folder:
            Path(folder, "l").write_text("kind,host,time,name\nset,a,1,p\n")
            self.assertIn("line 2", facts_of(["between", "l", "0", "1"], 66, folder)["refusal"])

    def test_generated_logs(self):
        draw, counts = random.Random(38), Counter()
        with tempfile.TemporaryDirectory() as folder:
            while sum(counts.values()) < CASES:
                data = generate.log_file(draw, generate.some_log(draw), 0)
                log = logs.read_log(data)
                if isinstance(log, logs.LogFault) or len(log.rows) < 2:
                    continue
                Path(folder, "l").write_bytes(data)
                first, second = draw.sample(range(len(log.rows)), 2)
                ended, text, said = asked(["between", "l", str(first), str(second), "--json"], folder)
                self.assertIn(ended, (0, 3), said)
                counts[ended] += 1
                if ended == 0:
                    self.check_ends(facts_of_text(text), log, first, second)
        self.assertGreaterEqual(counts[0], CASES // 2, counts)
        self.assertGreaterEqual(counts[3], CASES // 12, counts)

    def check_ends(self, facts, log, first, second):
        """Asserts that the timings of both ends are admissible and have the delays."""
        for which in ("least", "greatest"):
            times = facts["ends"][which]["times"]
            self.assertTrue(reference.admissible(log, times))
            self.assertEqual(times[second] - times[first], facts[which])
        stamped = [row.local for row in log.rows]
        if reference.admissible(log, stamped):
            self.assertTrue(facts["least"] <= stamped[second] - stamped[first] <= facts["greatest"])


class Tolerance(unittest.TestCase):
    def least(self, *words, status=0):
        return facts_of(["tolerance", *words], status)["least"]

    def test_values_by_hand(self):
        far = "G (a.req -> F[0,21] b.ack)"
        self.assertEqual(self.least("false", "within_9.formula", "answered.csv", "--up-to", "5"), 1)
        self.assertEqual(self.least("true", "within_5.formula", "answered.csv", "--up-to", "5"), 0)
        self.assertEqual(self.least("false", far, "answered.csv"), 7)
        self.assertIsNone(self.least("false", far, "answered.csv", "--up-to", "5", status=1))
        self.assertIsNone(self.least("true", "p.formula", "received_first.csv", status=3))

    def test_words(self):
        for words in (["--up-to", "-1"], ["--up-to", "1" * 30], ["--up-to", "01"], ["--conflicts", "0"], ["--up-to", "x"]):
            ended, _, said = asked(["tolerance", "true", "p.formula", "set.csv", *words], EXAMPLES)
            self.assertEqual(ended, 64, said)
        for words in (["p.formula", "set.csv"], ["either", "p.formula", "set.csv"], ["True", "p.formula", "set.csv"]):
            ended, _, said = asked(["tolerance", *words], EXAMPLES)
            self.assertEqual(ended, 64, said)

    def test_refusals(self):
        ended, _, said = asked(["tolerance", "true", "c.p", "answered.csv"], EXAMPLES)
        self.assertEqual((ended, "no host c" in said), (65, True), said)

    def test_sizes(self):
        with tempfile.TemporaryDirectory() as folder:
            notes = "".join(f"note,a,{10 * place},n\n" for place in range(200))
            Path(folder, "l").write_text(f"kind,host,time,name\nhost,a,0,0\n{notes}")
            ended, _, said = asked(["tolerance", "true", "a.p U[0,2] a.q", "l"], folder)
            self.assertEqual((ended, "a smaller --up-to" in said), (67, True), said)
            self.assertIsNone(self.least("true", "a.p U[0,2] a.q", str(Path(folder, "l")), "--up-to", "0", status=1))


class Programs(unittest.TestCase):
    def test_programs_without_the_commands_and_with_answers_that_are_none(self):
        with tempfile.TemporaryDirectory() as folder:
            program = Path(folder, "program")
            for script, part in (
                ("exit 64", "has no command `span`"), ("echo span 5", "no answer that ask can read"),
                ("printf 'span 5\\ntrue witness\\n1\\n2\\nend\\n'", "no answer"), ("printf 'span x\\n'", "no answer"),
                ("echo inconsistent; exit 3", "no answer"), ("exit 7", "status 7"),
                ("printf 'span none\\ntrue refuted 0\\nend\\n'; exit 1", "no timing makes"), ("printf 'span none\\ntrue refuted 0\\nend\\n'", "no answer"),
            ):
                program.write_text(f"#!/bin/sh\n{script}\n")
                program.chmod(0o755)
                ended, _, said = asked(["between", "answered.csv", "0", "1", "--program", str(program)], EXAMPLES)
                self.assertEqual(ended, 72, said)
                self.assertIn(part, said)
                self.assertNotIn("Traceback", said)
            program.write_text("#!/bin/sh\necho refused event 1; exit 69\n")
            ended, _, said = asked(["between", "answered.csv", "0", "1", "--program", str(program)], EXAMPLES)
            self.assertEqual((ended, "no row 1" in said), (69, True), said)
            program.write_text("#!/bin/sh\nprintf 'span unknown\\ntrue unknown 0\\nend\\n'; exit 4\n")
            self.assertEqual(asked(["between", "answered.csv", "0", "1", "--program", str(program)], EXAMPLES)[0], 4)
            program.write_text("#!/bin/sh\nexit 64\n")
            ended, _, said = asked(["tolerance", "true", "a.req", "answered.csv", "--program", str(program)], EXAMPLES)
            self.assertEqual((ended, "has no command `tolerance`" in said), (72, True), said)


if __name__ == "__main__":
    unittest.main()
