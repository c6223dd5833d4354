"""Why a formula has its value: the part of a chain that counts is named, whatever its length, and each sentence is so."""

import tempfile
import unittest
from itertools import combinations
from pathlib import Path
from unittest import mock

from common import asked, facts_of_text

from ask.program import Stopped
from ask.texts import Trouble

LOG = (
    "kind,host,time,name\nhost,a,0,1\nhost,b,0,1\n"
    "set,a,10,p\nset,b,20,q\nclear,a,30,p\nset,a,40,r\n"
)
AT = {10: "at 10 (line 4: a set p)", 20: "at 20 (line 5: b set q)", 30: "at 30 (line 6: a clear p)", 40: "at 40 (line 7: a set r)"}


def reasons(formula, *words, log=LOG):
    """What is said of why a formula has the value that it has by all timings of a log."""
    with tempfile.TemporaryDirectory() as folder:
        Path(folder, "l").write_text(log)
        _, text, said = asked(["check", formula, "l", *words], folder)
    assert "\nWhy it is " in text, said
    lines = text.split("there [replay]:\n", 1)[1].split("\n\n", 1)[0].splitlines()
    return [line[2:].rstrip(".") for line in lines]


class Chains(unittest.TestCase):
    def test_the_part_that_counts_is_named(self):
        for formula, sentences in (
            ("G (!(a.p & a.r) & !(b.q & a.r) & !(a.p & b.q))", [
                f"!(a.p & b.q) fails {AT[20]}", f"a.p is true {AT[20]}, since line 4", f"b.q is true {AT[20]}, since line 5",
            ]),
            ("G !(a.p & a.r | a.p & b.q | false)", [
                f"a.p & b.q holds {AT[20]}", f"a.p is true {AT[20]}, since line 4", f"b.q is true {AT[20]}, since line 5",
            ]),
            ("F (a.r & a.p | !!(a.r & b.q))", [
                f"!!(a.r & b.q) holds {AT[40]}", f"a.r is true {AT[40]}, since line 7", f"b.q is true {AT[40]}, since line 5",
            ]),
            ("a.p & G a.p & G true", [f"G a.p fails {AT[10]}", f"a.p fails {AT[30]}", f"a.p is false {AT[30]}, since line 6"]),
            ("F (a.p & F[0,5] a.r) | F (b.q & a.p)", [
                f"F (b.q & a.p) holds {AT[10]}", f"b.q & a.p holds {AT[20]}", f"b.q is true {AT[20]}, since line 5",
                f"a.p is true {AT[20]}, since line 4",
            ]),
            ("G (b.q -> true & F[0,5] a.p & a.p)", [
                f"b.q -> (true & F[0,5] a.p & a.p) fails {AT[30]}", f"b.q is true {AT[30]}, since line 5",
                f"F[0,5] a.p fails {AT[30]}",
                "a.p holds at no position 0 to 5 after 30, nor later in the log; last it holds at 20 (line 5: b set q), 10 earlier",
            ]),
            ("(a.p & a.p & a.p) U a.r", [
                f"a.p & a.p & a.p fails {AT[30]}", f"a.p is false {AT[30]}, since line 6", f"a.r first holds {AT[40]}, 30 later",
            ]),
            ("a.p & !a.r", [f"a.p is true {AT[10]}, since line 4", f"a.r is false {AT[10]}, as no row before has set it"]),
        ):
            with self.subTest(formula=formula):
                self.assertEqual(reasons(formula), sentences)

    def test_long_chains_of_pairs(self):
        hosts = [f"n{number}" for number in range(9)]
        log = "kind,host,time,name\n" + "".join(f"host,{host},0,1\n" for host in hosts) + "set,n6,5,up\nset,n8,9,up\n"
        pairs = " & ".join(f"!({one}.up & {other}.up)" for one, other in combinations(hosts, 2))
        self.assertEqual(reasons(f"G ({pairs})", log=log), [
            "!(n6.up & n8.up) fails at 9 (line 12: n8 set up)", "n6.up is true at 9 (line 12: n8 set up), since line 11",
            "n8.up is true at 9 (line 12: n8 set up), since line 12",
        ])

    def test_more_than_is_shown(self):
        formula = f"!({' | '.join(f'a.x{number}' for number in range(19))})"
        sentences = reasons(formula)
        self.assertEqual(len(sentences), 13)
        self.assertEqual(sentences[-1], "More is to be said of further parts; --all says it")
        self.assertEqual(len(reasons(formula, "--all")), 19)

    def test_deep_formulas(self):
        formula = "a.p"
        for level in range(95):
            formula = f"!(a.r | {formula})" if level % 2 else f"!(true & {formula})"
        self.assertIn(f"a.p is true {AT[10]}, since line 4", reasons(formula))


class Runs(unittest.TestCase):
    def test_reasons_that_no_run_tells(self):
        remark = "why the formula is false isn't shown: a run was refused, failed, or took too long"
        for end in (Trouble(72, "the program was ended by signal 9"), Stopped()):
            for words in (["check"], ["check", "--windows"]):
                with self.subTest(words=words, end=end), tempfile.TemporaryDirectory() as folder:
                    Path(folder, "l").write_text(LOG)
                    words = [*words, "G (a.p -> F[0,5] b.q)", "l"]
                    with mock.patch("ask.explain.reasons_of", side_effect=end):
                        (ended, text, _), facts = asked(words, folder), facts_of_text(asked([*words, "--json"], folder)[1])
                    self.assertEqual((ended, text.count(f"\n  {remark}\n"), "Why it is" in text), (1, 1, False), text)
                    self.assertEqual(facts["remarks"].count(remark), 1)


if __name__ == "__main__":
    unittest.main()
