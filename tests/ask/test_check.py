"""`ask check` on generated formulas and logs: what it says is the program's, and so it is by the reference."""

import random
import subprocess
import tempfile
import unittest
from pathlib import Path

from common import PATIENCE, PULSED, asked, facts_of_text
import formats
import generate
import logs
import reference

from ask.program import find_program

CASES = 100


def generated():
    """Formulas and logs by chance, of which a share is broken."""
    draw = random.Random(38)
    for _ in range(CASES):
        log = generate.some_log(draw)
        yield generate.formula_file(draw, log), generate.log_file(draw, log, 0.1)


class AgainstProgramAndReference(unittest.TestCase):
    def test_generated_cases(self):
        seen = set()
        with tempfile.TemporaryDirectory() as folder:
            for formula, log in generated():
                Path(folder, "f").write_bytes(formula)
                Path(folder, "l").write_bytes(log)
                with self.subTest(formula=formula[:200], log=log[:400]):
                    seen.add(self.compare(folder, formula, log))
        self.assertLessEqual({0, 1, 2, 3, 65, 66}, seen)

    def compare(self, folder, formula, log):
        """Asserts that what is said of a formula and a log is so; the status."""
        done = subprocess.run([find_program(None), "check", "f", "l"], cwd=folder, capture_output=True, timeout=PATIENCE)
        status, text, said = asked(["check", "f", "l", "--json"], folder)
        self.assertEqual(status, done.returncode, said)
        self.assertNotEqual(text, "")
        facts = facts_of_text(text)
        self.assertEqual("refusal" in facts, status >= 64)
        if status < 3:
            self.check_values(facts, formats.read_formula(formula), logs.read_log(log), status)
        return status

    def check_values(self, facts, tree, log, status):
        """Asserts that timings are admissible and give their values, and that the stamps have the one that is told."""
        expected = {0: {"true"}, 1: {"false"}, 2: {"true", "false"}}[status]
        self.assertEqual(set(facts["timings"]), expected)
        stamps = [row.local for row in log.rows]
        alone = [event for event, reading in enumerate(reference.readings_of(log)) if reading is None]
        for word, times in facts["timings"].items():
            self.assertTrue(reference.admissible(log, times))
            self.assertEqual(reference.truth(log, times, tree), word == "true")
            for event in alone:
                back = [*times[:event], stamps[event], *times[event + 1 :]]
                is_free = reference.admissible(log, back) and reference.truth(log, back, tree) == (word == "true")
                self.assertFalse(back != times and is_free, f"row {event} could be at its stamp")
        told = facts["as_stamped"]["value"]
        if told is None:
            broken = reference.first_broken(log, stamps)
            self.assertEqual(facts["as_stamped"]["broken"], f"{broken.kind.decode()} {broken.event}")
        else:
            self.assertEqual(reference.truth(log, stamps, tree), told == "true")


class Pulses(unittest.TestCase):
    def asked_of(self, formula, rows, *words):
        with tempfile.TemporaryDirectory() as folder:
            Path(folder, "l").write_bytes(PULSED.replace(b"pulse,a,10,p\n", b"") + rows)
            return asked([*words, formula, "l"] if words == ("check",) else [*words, "l"], folder)

    def test_a_pulse_is_true_at_its_instant_alone(self):
        ended, text, _ = self.asked_of("a.p", b"pulse,a,10,p\nnote,a,11,n\n", "check")
        self.assertEqual(ended, 0)
        self.assertIn("a.p is true at 10 (line 3: a pulse p), by the pulse of line 3.", text)
        self.assertEqual(self.asked_of("F[1,1] a.p", b"pulse,a,10,p\nnote,a,11,n\n", "check")[0], 1)

    def test_a_pulse_and_a_clear_at_one_instant(self):
        for rows in (b"clear,a,10,p\npulse,a,10,p\n", b"pulse,a,10,p\nclear,a,10,p\n"):
            self.assertEqual(self.asked_of("a.p", rows, "check")[0], 0)

    def test_pictures(self):
        ended, text, said = self.asked_of("", b"pulse,a,10,p\n", "draw", "--svg")
        self.assertEqual((ended, text.count('class="pulse"')), (0, 1), said)


if __name__ == "__main__":
    unittest.main()
