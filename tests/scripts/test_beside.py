"""benches/beside.py and z3.py: ratios, sizes and verdicts, and what z3 is asked of small logs. No z3 is needed."""

import io
import sys
import unittest
from contextlib import redirect_stdout
from unittest import mock

from room import ROOT

sys.dont_write_bytecode = True  # leaves no compiled files beside the sources
sys.path.insert(0, str(ROOT / "benches"))

import beside
import z3
from beside import Answers, Took
from families import FAMILIES

HEAD = b"kind,host,time,name\nhost,a,2,1\nhost,b,2,1\n"
THIRD = b"skewlog3,host,time,name\nhost,a,2,1\nhost,b,2,1\n"


def answers(program, solver, verdict="true", said=("sat", "unsat"), stopped=(False, False), is_decided=False):
    """The answers to a question that took so many seconds."""
    return Answers(Took(program, stopped[0]), Took(solver, stopped[1]), verdict, said, is_decided)


def lines_of(log, formula, value="true"):
    """What the question for a value says beyond the skews."""
    text = z3.question_of(formula, log).text(value)
    return [line for line in text.splitlines() if line.startswith("(assert") and "zero" not in line]


class Ratios(unittest.TestCase):
    def test_short_times_count_as_a_start(self):
        for program, solver, ratio in ((0.3, 0.1, 3), (0.003, 0.3, 0.1), (0.6, 0.01, 20), (0.001, 0.02, 1)):
            with self.subTest(program=program, solver=solver):
                self.assertAlmostEqual(beside.ratio_of(answers(program, solver)), ratio)

    def test_columns(self):
        for stopped, column in (
            ((False, False), "0.500"), ((True, False), ">0.500"), ((False, True), "<0.500"), ((True, True), "-"),
        ):
            self.assertEqual(beside.shown_ratio(answers(1, 2, stopped=stopped)), column)
        self.assertEqual([Took(0.1234, False).shown(), Took(60.04, True).shown()], ["0.123", "over 60"])

    def test_geometric_mean(self):
        self.assertAlmostEqual(beside.geometric_mean([0.1, 10, 8]), 2)
        self.assertAlmostEqual(beside.geometric_mean([0.25]), 0.25)

    def test_closing_lines(self):
        found = [
            ("leases, 24 rows", answers(0.003, 0.24, is_decided=True)),
            ("jobs, 16 rows", answers(8, 1)),
            ("pulses, 24 rows", answers(0.06, 60, "either", (beside.STOPPED, "sat"), (False, True))),
        ]
        self.assertEqual(list(beside.closing(found)), [
            "3 questions; the program was stopped at 0 of them, and z3 at 1",
            "geometric mean of the ratios 0.100, the greatest 8.000 (jobs, 16 rows)",
            "geometric mean of the 2 that stamps don't decide 0.089",
            "0 of 3 verdicts differ",
        ])


class Verdicts(unittest.TestCase):
    def test_pairs(self):
        for said, verdict in (
            (("sat", "unsat"), "true"), (("unsat", "sat"), "false"), (("sat", "sat"), "either"),
            (("unsat", "unsat"), "inconsistent"), (("sat", "unknown"), "unknown"), (("sat", beside.STOPPED), "unknown"),
        ):
            self.assertEqual(z3.verdict_of(said), verdict)

    def test_agreement(self):
        self.assertTrue(beside.agree("true", ("sat", "unsat")))
        self.assertFalse(beside.agree("true", ("sat", "sat")))
        self.assertTrue(beside.agree("true", (beside.STOPPED, "unsat")))
        self.assertFalse(beside.agree("either", (beside.STOPPED, "unsat")))
        self.assertFalse(beside.agree("either", ("sat", '(error "line 1")')))
        self.assertTrue(beside.agree("unknown", ("sat", "unsat")))
        self.assertFalse(beside.agree("unknown", ("sat", '(error "line 1")')))
        self.assertFalse(beside.agree("true", ("sat", "signal 11")))
        for verdict in ("status 70", "signal 11"):
            self.assertFalse(beside.agree(verdict, ("sat", "unsat")))

    def test_what_a_run_says(self):
        for status, seconds, said in ((0, 2, "sat"), (-9, 59.9, beside.STOPPED), (-24, 60.1, beside.STOPPED), (-9, 20, "signal 9")):
            self.assertEqual(beside.said_by(beside.check.Taken(status, seconds, 0, b"sat\n"), 60), said)

    def test_statuses(self):
        for status, seconds, verdict in (
            (0, 2, "true"), (1, 2, "false"), (2, 2, "either"), (3, 2, "inconsistent"), (4, 2, "unknown"), (-9, 60, "unknown"),
            (64, 2, "status 64"), (70, 60, "status 70"), (-11, 2, "signal 11"),
        ):
            self.assertEqual(beside.verdict_of(beside.check.Taken(status, seconds, 0, b""), 60), verdict)

    def test_marks_of_a_row(self):
        for said, is_decided, mark in (
            (("sat", "unsat"), False, ""), (("sat", "unsat"), True, "stamps"), (("sat", "sat"), True, "z3 says sat and sat"),
            (("sat", beside.STOPPED), False, ""), (("sat", "signal 9"), False, "z3 says sat and signal 9"),
        ):
            row = beside.row_of(FAMILIES[0], 24, answers(0.3, 0.1, "true", said, is_decided=is_decided))
            self.assertEqual(row.split(), f"request and response 24 0.300 0.100 3.000 true {mark}".split())


class Tables(unittest.TestCase):
    def test_sizes_are_in_the_range_of_a_family(self):
        families = {family.title: family for family in FAMILIES}
        for title, sizes in (
            ("leases", [24, 64, 256]), ("jobs", [16]), ("wide pipeline", [50]), ("wide until", [24, 64, 200]),
            ("heartbeats of four", [44, 64, 256]),
        ):
            self.assertEqual(beside.sizes_of(families[title], (24, 64, 256)), sizes)

    def test_a_family_ends_where_one_side_is_stopped(self):
        arguments = mock.Mock(only=["leases", "audits"], rows=(8, 16, 32), patience=60)
        came = [answers(0.1, 0.1), answers(0.1, 60, stopped=(False, True)), answers(60, 0.1, stopped=(True, False))]
        with mock.patch.object(beside, "answers_to", side_effect=came), redirect_stdout(io.StringIO()):
            found = beside.table(arguments, "program", "folder")
        self.assertEqual([name for name, _ in found], ["leases, 8 rows", "leases, 16 rows", "audits, 8 rows"])


class Questions(unittest.TestCase):
    def test_terms(self):
        self.assertEqual(z3.negated("true"), "false")
        self.assertEqual(z3.negated(z3.negated("b")), "b")
        self.assertEqual(z3.every(["true", "a", "b"]), "(and a b)")
        self.assertEqual(z3.every(["a", "false"]), "false")
        self.assertEqual(z3.some(["false", "a"]), "a")
        self.assertEqual([z3.some([]), z3.every([])], ["false", "true"])
        self.assertEqual(z3.difference("t1", "t0", -5), "(<= (- t1 t0) (- 5))")

    def test_bounds_of_a_log(self):
        log = THIRD + b"latency,b,3,9\nclock,a,1,m\nsend,a,10,x\nrecv,b,20,x\nbound,1,0,8\n"
        text = z3.question_of(b"true", log).text("true").splitlines()
        self.assertEqual(text[1:4] + text[4:5], [f"(declare-const {name} Int)" for name in ("zero", "t0", "t1", "o0")])
        self.assertEqual(text[5:-2], [f"(assert (<= (- {first} {second}) {most}))" for first, second, most in (
            ("zero", "t0", "(- 8)"), ("t0", "zero", 12), ("o0", "t0", "(- 9)"), ("t0", "o0", 11),
            ("zero", "t1", "(- 18)"), ("t1", "zero", 22), ("t0", "t1", "(- 3)"), ("t1", "t0", 9), ("t1", "t0", 8),
        )])
        self.assertEqual(text[-2:], ["(assert true)", "(check-sat)"])

    def test_what_stamps_decide_is_left_out(self):
        log = HEAD + b"set,a,10,p\nset,b,90,q\n"
        for formula, value, asked in (
            (b"a.p", "true", "true"), (b"b.q", "true", "false"), (b"F[0,9] b.q", "true", "false"), (b"F b.q", "false", "false"),
        ):
            with self.subTest(formula=formula):
                self.assertEqual(lines_of(log, formula, value)[-1], f"(assert {asked})")
                self.assertTrue(z3.is_decided(z3.question_of(formula, log).text(value)))

    def test_a_distance(self):
        near = "(<= (- t1 t0) 9)"
        lines = lines_of(HEAD + b"set,a,10,p\nset,b,19,q\n", b"F[0,9] b.q", "false")
        self.assertEqual(lines, [f"(assert (= b1_0 {near}))", "(assert (not b1_0))"])
        self.assertFalse(z3.is_decided("\n".join([*lines, "(check-sat)"])))

    def test_the_first_row_may_be_either(self):
        lines = lines_of(HEAD + b"set,a,10,p\nset,b,11,q\n", b"b.q")
        first, second = "(<= (- t0 t1) 0)", "(<= (- t1 t0) 0)"
        self.assertEqual(lines, [f"(assert (= b0_0 {second}))", f"(assert (or (and {first} b0_0) {second}))"])

    def test_a_pulse_and_a_span(self):
        log = b"skewlog2,host,time,name\nhost,a,2,1\nhost,b,2,1\nset,a,10,p\nclear,a,20,p\npulse,a,30,p\nnote,b,21,x\n"
        question = z3.question_of(b"a.p", log)
        states = [question.truth(question.formula, row) for row in question.rows]
        self.assertEqual(states, ["true", "false", "true", "b0_3"])
        self.assertEqual(question.lines[-1], "(assert (= b0_3 (not (<= (- t1 t3) 0))))")

    def test_an_until_asks_for_its_left_side_before_its_witness(self):
        lines = lines_of(HEAD + b"set,a,10,p\nset,b,20,q\nclear,a,21,p\n", b"a.p U b.q")
        set_first, cleared_first = "(<= (- t1 t2) 0)", "(<= (- t2 t1) 0)"
        self.assertEqual(lines, [
            "(assert (<= (- t0 t2) (- 1)))",
            f"(assert (= b1_2 {set_first}))",
            f"(assert (= b0_1 (not {cleared_first})))",
            f"(assert (= b2_0 (or {set_first} (and b1_2 (or {cleared_first} b0_1)))))",
            "(assert b2_0)",
        ])


if __name__ == "__main__":
    unittest.main()
