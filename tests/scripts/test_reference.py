"""tests/reference/run with scripts that stand in for the comparisons and checks, and what compare_problems.py says of
answers."""

import contextlib
import io
import os
import shutil
import signal
import subprocess
import sys
import time
import unittest
from collections import Counter
from pathlib import Path
from unittest import mock

from room import PATIENCE, ROOT, WithRoom

sys.dont_write_bytecode = True  # leaves no compiled files beside the sources
sys.path.insert(0, str(ROOT / "tests" / "reference"))

import compare_best
import compare_json
import compare_mutated
import compare_problems
import compare_search
import reference
import tables

OF_PROGRAM = ("compare", "compare_freshness", "compare_json", "compare_mutated", "compare_tolerance", "compare_span")
OF_TABLES = ("texts", "derivations", "problems", "search", "systems", "graphs")
CHECKS = ("selfcheck", "check_freshness", "selfcheck_reports", "selfcheck_best")


class Run(WithRoom):
    def setUp(self):
        super().setUp()
        self.folder = self.top / "tests" / "reference"
        self.folder.mkdir(parents=True)
        shutil.copy(ROOT / "tests" / "common.sh", self.top / "tests")
        shutil.copy(ROOT / "tests" / "reference" / "run", self.folder)
        for name in OF_PROGRAM:
            self.script(name, "print('7 cases, no difference: 1 unknown')")
        for name in CHECKS:
            self.script(name, "print('all checks hold')")
        for name in OF_TABLES:
            ending = "each answer adds up" if name in ("systems", "graphs") else "no difference"
            self.script(f"compare_{name}", f"print('7 {name}, {ending}')")
        for name in ("text_table", "logic_table"):
            out = self.top / "crates" / name / "out"
            out.mkdir(parents=True)
            shutil.copy("/bin/true", out / name)
        self.environment["SKEWCHECK"] = "/bin/true"

    def script(self, name, text):
        """What a comparison or a check does."""
        (self.folder / f"{name}.py").write_text(text + "\n")

    def begun(self, *words):
        """A run that has begun."""
        return subprocess.Popen(
            [self.folder / "run", *words], stdin=subprocess.DEVNULL, stdout=subprocess.PIPE, stderr=subprocess.STDOUT, text=True,
            env=self.environment,
        )

    def outcome(self, *words):
        """How a run ended: its status and its lines."""
        run = self.begun(*words)
        lines = run.communicate(timeout=PATIENCE)[0].splitlines()
        self.assertEqual(os.listdir(self.tmp), [])
        return run.returncode, lines

    def test_all_are_counted(self):
        status, lines = self.outcome()
        self.assertEqual((status, lines[-1]), (0, "16 passed, 0 failed"))
        self.assertEqual(lines.count("all checks hold"), len(CHECKS))

    def test_words_go_to_the_first(self):
        self.script("compare", "import sys; print(sys.argv[2:], 'no difference')")
        self.assertEqual(self.outcome("--cases", "5")[1][0], "['--cases', '5'] no difference")

    def test_checks_that_fail(self):
        for name in CHECKS:
            self.script(name, "import sys; print('all checks hold'); sys.exit(1)")
        status, lines = self.outcome()
        self.assertEqual((status, lines[-1]), (1, "12 passed, 4 failed"))

    def test_none_passes_without_a_word(self):
        names = ("compare", "compare_graphs", "selfcheck", "selfcheck_best")
        for text in ("", "print('no difference'); print('a difference')"):
            for name in names:
                self.script(name, text)
            status, lines = self.outcome()
            self.assertEqual((status, lines[-1]), (1, "12 passed, 4 failed"))
            said = [line.split()[1] for line in lines if line.startswith("tests/reference: ")]
            self.assertEqual(sorted(said), sorted(names))

    def test_tables_that_are_not_built_are_left_out(self):
        (self.top / "crates" / "logic_table" / "out" / "logic_table").unlink()
        status, lines = self.outcome()
        self.assertEqual((status, lines[-1]), (0, "11 passed, 0 failed"))
        self.assertEqual(sum(line.startswith("left out: tests/reference, ") for line in lines), 5)

    def test_checks_end_with_the_run(self):
        mark = self.room / "mark"
        self.script("selfcheck", f"import os, time; open({str(mark)!r}, 'w').write(str(os.getpid())); time.sleep(60)")
        self.script("compare", "import time; time.sleep(3); print('no difference')")
        run = self.begun()
        until = time.monotonic() + PATIENCE
        while not (mark.exists() and mark.read_text()) and time.monotonic() < until:
            time.sleep(0.05)
        run.send_signal(signal.SIGTERM)
        run.communicate(timeout=PATIENCE)
        self.assertEqual((run.returncode, os.listdir(self.tmp)), (143, []))
        self.assertTrue(has_ended(int(mark.read_text())))


def answer_to(question, atoms):
    """The lines of a right answer to a question, with its atoms in this order."""
    log = question.problem.log
    lines = [f"nodes {1 + len(log.rows) + len(log.clocks)}"]
    for bound in reference.bounds(log):
        start, end = (compare_problems.node_of(node) for node in (bound.start, bound.end))
        lines.append(f"edge {start} {end} {bound.most}")
    for rule, clause in question.clauses.items():
        lines.append("rule " + compare_problems.words(rule))
        lines += [f"{'-+'[literal.positive]}{atoms.index(literal.atom)}" for literal in clause]
    return lines + ["atom " + compare_problems.words(atom) for atom in atoms]


class Problems(unittest.TestCase):
    def test_atoms_in_any_order(self):
        for question in compare_problems.questions(1, 6):
            atoms = sorted({literal.atom for clause in question.clauses.values() for literal in clause})
            for order in (atoms, atoms[::-1]):
                self.assertIsNone(compare_problems.difference(question, answer_to(question, order)))
            for order in ([*atoms, atoms[0]], [*atoms, ("order", 9, 9, 9)]):
                self.assertRegex(compare_problems.difference(question, answer_to(question, order)), "^atom ")


class Floors(unittest.TestCase):
    """Comparisons without a difference in which some answer came too seldom."""

    def ended(self, main, *words):
        """The status of a comparison by these words, and its last line."""
        said = io.StringIO()
        with contextlib.redirect_stdout(said), mock.patch("sys.argv", ["compare", "/bin/true", *words]):
            try:
                status = main() or 0
            except SystemExit as end:
                status = end.code
        return status, said.getvalue().splitlines()[-1]

    def test_shares(self):
        for cases, number, is_rare in ((1000, 9, True), (1000, 10, False), (99, 0, False), (100, 0, True), (199, 1, False)):
            status, said = self.ended(lambda: print(tables.end_if_rare(Counter(few=number), {"few": 0.01}, cases)))
            with self.subTest(cases=cases, number=number):
                line = f"of {cases} random cases {number} came to 'few', and {cases // 100} is the least"
                self.assertEqual((status, said), (1, line) if is_rare else (0, "None"))

    def test_enough_and_too_few(self):
        for compared in (compare_json, compare_search):
            enough = Counter({answer: 5 + int(1000 * share) for answer, share in compared.SHARES.items()})
            with mock.patch.object(compared, "compare_all", lambda *_: enough):
                self.assertEqual(self.ended(compared.main, "--cases", "1000")[0], 0)
            with mock.patch.object(compared, "compare_all", lambda *_: Counter(dict.fromkeys(enough, 1))):
                self.assertEqual(self.ended(compared.main, "--cases", "1000")[0], 1)

    def test_best_answers_by_hand_are_not_counted(self):
        for answered, status in (((True,), 1), ((False,), 1), ((True, False), 1), ((False, False), 0)):
            def compared(comparison, *_):
                for by_hand in answered:
                    for found in (0, 1, 3, 64):
                        comparison.told(found, by_hand)
                return True
            with self.subTest(answered=answered), mock.patch.object(compare_best, "compare_all", compared):
                shares = dict.fromkeys(compare_best.SHARES, 0.02) | {"unknown": 0}
                with mock.patch.object(compare_best, "SHARES", shares):
                    self.assertEqual(self.ended(lambda: compare_best.main("span"), "--cases", "100")[0], status)

    def test_mutated_reports(self):
        with mock.patch.object(compare_mutated.Audits, "complaint", return_value=""):
            self.assertEqual(self.ended(compare_mutated.main, "--cases", "24")[0], 1)
            with mock.patch.object(compare_mutated, "SHARES", {}):
                self.assertEqual(self.ended(compare_mutated.main, "--cases", "24")[0], 0)


def has_ended(number):
    """Whether a process ends within the patience."""
    until = time.monotonic() + PATIENCE
    while time.monotonic() < until:
        try:
            state = Path(f"/proc/{number}/stat").read_text().rpartition(") ")[2][:1]
        except OSError:
            return True
        if state == "Z":
            return True
        time.sleep(0.05)
    return False


if __name__ == "__main__":
    unittest.main()
