"""Formulas in more words than the program has, with what they become worked out by hand, and what is refused of them."""

import contextlib
import random
import tempfile
import time
import unittest
from pathlib import Path

from common import ROOT, asked

from ask.formulas import different_parts, read_formula, text_of
from ask.macros import written_out
from ask.texts import Source, Trouble
from ask.units import Scale, ScaledSource
from ask.written import place_written, with_number_in

EXAMPLES = ROOT / "examples"
LEADERS = "../tests/ask/logs/leaders.csv"
LOG = Source("log.csv", b"""kind,host,time,name
host,n0,0,0
host,n1,0,0
host,n2,0,0
host,web,0,0
host,pay,0,0
set,n0,1,leader
set,pay,2,q_1
clear,pay,3,q_1
set,web,4,q_2
set,pay,5,q_2
clear,pay,6,gone
note,pay,7,noted
""")
GOOD = (
    # at most one
    ("at most one of n0.x, n1.x", "!(n0.x & n1.x)"),
    ("at most one of a.x, b.x, c.x, a.x", None),  # the log has no host a
    ("at most one of n0.x, n1.x, n2.x", "!(n0.x & n1.x) & !((n0.x | n1.x) & n2.x)"),
    ("G at most one of n0.x, n1.x, n2.x", "G (!(n0.x & n1.x) & !((n0.x | n1.x) & n2.x))"),
    ("at most one of n0.x, n1.x, n0.x", "!(n0.x & n1.x)"),
    ("at \n most  one\tof n0 . x,n1.x", "!(n0.x & n1.x)"),
    ("G at most one of pay.q_*, n0.leader & web.up", "G (!(pay.q_1 & pay.q_2) & !((pay.q_1 | pay.q_2) & n0.leader)) & web.up"),
    ("at.most -> one.of", "at.most -> one.of"),
    # hosts
    ("once{h in n*: h.leader}", "n0.leader | n1.leader | n2.leader"),
    ("each{h in n?: h.leader}", "n0.leader & n1.leader & n2.leader"),
    ("each { h in web , n0:G (h.asked -> F[0,9] pay.done) }", "G (web.asked -> F[0,9] pay.done) & G (n0.asked -> F[0,9] pay.done)"),
    ("each{h in n0, n1: h.a -> h.b}", "(n0.a -> n0.b) & (n1.a -> n1.b)"),
    ("each{h in n0, n1: (h.a -> h.b)}", "(n0.a -> n0.b) & (n1.a -> n1.b)"),
    ("each{h in n0, n1: (h.a) | (h.b)}", "((n0.a) | (n0.b)) & ((n1.a) | (n1.b))"),
    ("once{h in n0: h.a | h.b} & web.up", "(n0.a | n0.b) & web.up"),
    ("once{h in n0: h.a | h.b}", "n0.a | n0.b"),
    ("!once{h in n0, n1: h.a}", "!(n0.a | n1.a)"),
    ("each{h in n0, n1: h.a U h.b} U web.up", "((n0.a U n0.b) & (n1.a U n1.b)) U web.up"),
    ("(once{h in n0, n1: h.a})", "((n0.a | n1.a))"),
    ("once{h in n*, n0: h.a} -> once{h in n0: h.b}", "(n0.a | n1.a | n2.a) -> n0.b"),
    ("once{each in n0: each.once}", "n0.once"),
    ("once{h in n*: web.h}", "web.h | web.h | web.h"),
    # propositions
    ("each{p in pay.q_*: F p}", "F pay.q_1 & F pay.q_2"),
    ("once{p in *.q_2: p}", "web.q_2 | pay.q_2"),
    ("each{p in pay.q_*: web.p -> F p & p.up}", "(web.q_1 -> F pay.q_1 & pay.up) & (web.q_2 -> F pay.q_2 & pay.up)"),
    ("once{p in pay.* but pay.q_1: p}", "pay.q_2"),
    ("at most one of web.up, pay.*", "!(web.up & pay.q_1) & !((web.up | pay.q_1) & pay.q_2)"),
    # within one another
    ("each{h in n0, n1: once{k in n* but h: h.a & k.b}}", "((n0.a & n1.b) | (n0.a & n2.b)) & ((n1.a & n0.b) | (n1.a & n2.b))"),
    ("once{h in web, pay: each{p in h.q_*: p}}", "web.q_2 | (pay.q_1 & pay.q_2)"),
    ("once{h in n0, n1: at most one of h.a, h.b}", "!(n0.a & n0.b) | !(n1.a & n1.b)"),
    ("each{p in pay.q_*: at most one of p, web.p}", "!(pay.q_1 & web.q_1) & !(pay.q_2 & web.q_2)"),
    ("each{h in n0: each{k in h: k.a}}", "n0.a"),
    # left as they are
    ("G  (n0.a ->\n F[0,9] n1.b)", "G  (n0.a ->\n F[0,9] n1.b)"),
    ("", ""),
)
BAD = (
    ("once{h in q*: h.x}", 11, "no host of log.csv matches q*. Its hosts: n0, n1, n2, web, pay"),
    ("once{h in q: h.x}", 11, "the log has no host q. Its hosts: n0, n1, n2, web, pay"),
    ("once{h in n*, q: h.x}", 15, "the log has no host q."),
    ("once{h in n* but q: h.x}", 18, "the log has no host q."),
    ("once{h in n0 but n*: h.x}", 11, "nothing of n0 is left in this range"),
    ("once{p in pay.x*: p}", 11, "no proposition that a row sets or pulses matches pay.x*. There are: n0.leader, web.q_2, pay.q_1, pay.q_2"),
    ("once{p in pay.gone: p}", 11, "no proposition that a row sets or pulses matches pay.gone."),
    ("once{h in n*, q*: h.x}", 15, "no host of log.csv matches q*. Its hosts:"),
    ("once{p in q.*: p}", 11, "the log has no host q."),
    ("once{h in n0, pay.q_1: h.x}", 15, "hosts and propositions don't stand in one range"),
    ("at most one of n0.x, q.x", 22, "the log has no host q."),
    ("at most one of n0.x, n*.y*", 22, "no proposition that a row sets or pulses matches n*.y*."),
    ("at most one of n0.x", 1, "at most one of n0.x says nothing: it is one proposition"),
    ("at most one of n*.leader", 1, "at most one of n0.leader says nothing: it is one proposition"),
    ("at most one of n0.x, n1", 22, "n1 is no proposition HOST.NAME, nor a pattern as n*.leader"),
    ("at most one of n0.x,", 21, "a proposition HOST.NAME is expected here"),
    ("at most one of (n0.x), n1.x", 16, "a proposition HOST.NAME is expected here"),
    ("once{h in n*: h.x} & h.y", 22, "the variable h stands for nothing outside the braces of its each or once"),
    ("h.y & once{h in n*: h.x}", 1, "the variable h stands for nothing outside"),
    ("once{p in pay.*: p} & p", 23, "the variable p stands for nothing outside"),
    ("once{h in n*: h.x} & once{k in h: k.y}", 32, "the variable h stands for nothing outside"),
    ("once{h in n*: h.x} & at most one of h.x, h.y", 37, "the variable h stands for nothing outside"),
    ("once{web in n*: web.x}", 6, "the variable web hides what there is: web is a host of log.csv. Take another name for it"),
    ("once{q_1 in pay.*: q_1}", 6, "the variable q_1 hides what there is: q_1 is a proposition's name in log.csv."),
    ("once{h in n*: once{h in n*: h.x}}", 20, "the variable h hides what there is: h is the variable of an outer each or once."),
    ("once{true in n*: true}", 6, "the variable true hides what there is: true is a word of the language."),
    ("once{h in n*: h}", 15, "h is a host here, and a proposition of it is h.NAME"),
    ("once{h in n*: h.x", 5, "this brace of once isn't closed"),
    ("once{h in n*: }", 15, "there is no formula in the braces of this once"),
    ("once{h n*: h.x}", 1, "this is no quantifier: it is each{h in HOSTS: ..} or once{h in HOSTS: ..}"),
    ("each{}", 1, "this is no quantifier"),
    ("once{h in n* h.x}", 14, "a colon and a formula are expected here"),
    ("once{h in : h.x}", 11, "a host or a proposition, or a pattern of them, is expected here"),
    ("once{h in n0 but: h.x}", 17, "a host or a proposition, or a pattern of them, is expected here"),
)
UNITS = (
    ("F[0,250ms] n0.x", "ms", "F[0,250] n0.x"), ("G[0,1.5s] n0.x", "ms", "G[0,1500] n0.x"), ("F[250 ms , 1s] n0.x", "us", "F[250000 , 1000000] n0.x"),
    ("n0.x U[1s,inf] n1.x", "s", "n0.x U[1,inf] n1.x"), ("F[0,?] n0.x & F[?,2s] n1.x", "ms", "F[0,?] n0.x & F[?,2000] n1.x"),
    ("O[7,1.50ms] n0.x", "us", "O[7,1500] n0.x"), ("H[0s,0ms] n0.x", "s", "H[0,0] n0.x"), ("n0.x S[1\u00b5s,2\u03bcs] n1.x", "ns", "n0.x S[1000,2000] n1.x"),
    ("once{h in n0, n1: F[0,1s] h.x}", "ms", "F[0,1000] n0.x | F[0,1000] n1.x"),
)
NO_UNITS = (
    ("F[0,250ms] n0.x", None, 5, "250ms in which unit of the log? log.csv.notes, which ask log -o writes, doesn't say it: --unit states it"),
    ("F[1.5ms,9s] n0.x", "ms", 3, "1.5ms is no whole number of milliseconds, which the log is in"),
    ("F[0,250ms] n0.x", "s", 5, "250ms is no whole number of seconds, which the log is in"),
    ("F[0,5min] n0.x", "ms", 5, "there is no unit min. The units: s, ms, us, ns"),
    ("F[0,1.5] n0.x", "ms", 5, "1.5 is no whole number: a unit stands behind it, as in 1.5s"),
)


def formula(text):
    """A formula in words."""
    return Source("the formula", text.encode())


def in_unit(unit):
    """The log with a unit."""
    log = ScaledSource(*LOG)
    log.scale = Scale(unit)
    return log


class Texts(unittest.TestCase):
    def refusal(self, text, log=LOG):
        """The first line of the refusal of a text."""
        with self.assertRaises(Trouble, msg=text) as refused:
            written_out(formula(text), log)
        return refused.exception

    def test_good_ones(self):
        for text, expanded in GOOD:
            with self.subTest(text=text):
                if expanded is None:
                    self.assertIn("the log has no host", self.refusal(text).message)
                    continue
                found = written_out(formula(text), LOG)
                self.assertEqual(found.data.decode(), expanded)
                self.assertTrue(not text or read_formula(expanded))

    def test_plain_ones_are_left_alone(self):
        for text in ("G (n0.a -> F[0,9] n1.b)", "x.y #", "F[0,?] a.p", "each.once & at.most", ""):
            plain = formula(text)
            self.assertIs(written_out(plain, Source("no log", b"")), plain)

    def test_bad_ones(self):
        for text, column, said in BAD:
            with self.subTest(text=text):
                trouble = self.refusal(text)
                self.assertEqual(trouble.status, 65)
                first, shown, sign = trouble.message.split("\n")
                self.assertTrue(first.startswith(f"the formula, line 1, column {column}: {said}"), first)
                self.assertEqual((shown, sign), (f"  {text}", " " * (column + 1) + "^"))

    def test_units(self):
        for text, unit, expanded in UNITS:
            self.assertEqual(written_out(formula(text), in_unit(unit)).data.decode(), expanded, text)
        for text, unit, column, said in NO_UNITS:
            self.assertEqual(self.refusal(text, in_unit(unit)).message.split("\n")[0], f"the formula, line 1, column {column}: {said}", text)

    def test_a_log_that_is_none_is_refused_as_one(self):
        for data in (b"", b"kind,host,time,name\nset,a,1,p\n"):
            self.assertEqual(self.refusal("once{h in *: h.p}", Source("none", data)).status, 66)


class Generated(unittest.TestCase):
    """Texts by chance, each made together with the formula that it stands for."""

    HOSTS, NAMES = ("n0", "n1", "n2", "web", "pay"), ("pay.q_1", "pay.q_2", "web.q_2", "n0.leader")

    def text(self, draw, depth, variables):
        """A text, and a function from the hosts and propositions of its variables to the formula."""
        choice = draw.randrange(9) if depth else draw.randrange(3)
        if choice < 3:
            return self.atom(draw, variables)
        if choice < 5:
            return self.joined(draw, depth, variables)
        if choice == 5:
            sign = draw.choice(("!", "G ", "F[0,5] ", "O "))
            text, make = self.text(draw, depth - 1, variables)
            return f"{sign}({text})", lambda bound: f"{sign}({make(bound)})"
        return self.at_most(draw, variables) if choice == 6 else self.quantified(draw, depth, variables)

    def atom(self, draw, variables):
        kind, name = draw.choice([*variables.items(), ("", "")]) if variables else ("", "")
        if not kind:
            text = draw.choice(("true", "n0.a", "web.b", "n1 . c"))
            return text, lambda bound: text
        if name == "host":
            return f"{kind}.a", lambda bound: f"{bound[kind]}.a"
        form = draw.randrange(3)
        return (kind, f"web.{kind}", f"{kind}.up")[form], lambda bound: (
            bound[kind], f"web.{bound[kind].split('.')[1]}", f"{bound[kind].split('.')[0]}.up"
        )[form]

    def joined(self, draw, depth, variables):
        sign = draw.choice(("&", "|", "->", "U[1,3]", "S"))
        (left, make_left), (right, make_right) = (self.text(draw, depth - 1, variables) for _ in range(2))
        return f"({left}) {sign} ({right})", lambda bound: f"({make_left(bound)}) {sign} ({make_right(bound)})"

    def at_most(self, draw, variables):
        atoms = {text: make for text, make in (self.atom(draw, variables) for _ in range(6)) if text != "true"}
        atoms = {**atoms, "n2.y": lambda bound: "n2.y", "n2.z": lambda bound: "n2.z"}

        def make(bound):
            found = list(dict.fromkeys(one(bound).replace(" ", "") for one in atoms.values()))
            return " & ".join(f"!(({' | '.join(found[:place])}) & {one})" for place, one in enumerate(found) if place)

        return f"(at most one of {', '.join(atoms)})", make

    def quantified(self, draw, depth, variables):
        quantifier, kind = draw.choice((("each", "&"), ("once", "|"))), draw.choice(("host", "proposition"))
        variable = f"v{len(variables)}"
        pattern, values = draw.choice(
            (("n*", self.HOSTS[:3]), ("web, n?", ("web", "n0", "n1", "n2")), ("* but n*", ("web", "pay")), ("pay", ("pay",)))
            if kind == "host" else
            (("pay.q_*", ("pay.q_1", "pay.q_2")), ("*.q_2", ("web.q_2", "pay.q_2")), ("*.* but *.q_*", ("n0.leader",)))
        )
        text, make = self.text(draw, depth - 1, {**variables, variable: kind})
        return f"{quantifier[0]}{{{variable} in {pattern}: {text}}}", lambda bound: (
            f" {quantifier[1]} ".join(f"({make({**bound, variable: value})})" for value in values)
        )

    def test_agreement(self):
        draw, count = random.Random(81), 0
        while count < 400:
            text, make = self.text(draw, 3, {})
            found = written_out(formula(text), LOG).data.decode()
            if len(found) > 4000:
                continue
            count += 1
            self.assertEqual(text_of(read_formula(found)), text_of(read_formula(make({}))), text)


class Limits(unittest.TestCase):
    def log(self, hosts):
        lines = [f"host,n{number},0,0" for number in range(hosts)] + [f"set,n{number},{number},p" for number in range(hosts)]
        return Source("many.csv", "\n".join(["kind,host,time,name", *lines, ""]).encode())

    def trouble(self, text, hosts):
        with self.assertRaises(Trouble) as refused:
            written_out(formula(text), self.log(hosts))
        return refused.exception.status, refused.exception.message.split("\n")[0]

    def test_too_many_parts(self):
        self.assertEqual(self.trouble("true & G !once{h in n*: once{k in n* but h: h.p & k.p}}", 20), (67, (
            "the formula, line 1, column 11: with once over 20 hosts the formula has 1,922 different parts, and the limit is 512: "
            "name fewer, or ask for it in parts"
        )))

    def test_too_many_propositions(self):
        rows = "".join(f"set,a,{row},p_{row}\n" for row in range(100_000))
        log = Source("long.csv", f"kind,host,time,name\nhost,a,0,0\n{rows}".encode())
        with self.assertRaises(Trouble) as refused:
            written_out(formula("G at most one of a.p_*"), log)
        said = "with at most one of 100,000 propositions the formula has more than 512 different parts"
        self.assertEqual((refused.exception.status, said in refused.exception.message), (67, True))

    def test_too_long(self):
        status, said = self.trouble("each{h in n*: each{k in n*: each{l in n*: each{m in n*: h.p & k.p & l.p & m.p}}}}", 64)
        self.assertEqual(status, 67)
        self.assertIn("with each over 64 hosts the formula is longer than 65,536 bytes, which is the limit: name fewer", said)

    def test_no_text_takes_long(self):
        """Texts of the greatest length, each of which is written out or refused in far less than a second."""
        long = 65_000
        began = time.process_time()
        for text in (
            "[" * long, "{F[0" + " " * long, "{" + "F[0 " * (long // 4), "{" + "at " * (long // 3), "each{" * (long // 5), "{" + "a " * (long // 2),
            "each" + " " * long, f"each{{h in {'*' * long}: h.p}}", "at most one of " + "n0.p, " * (long // 6), "{" * long, "}" * long,
            " & ".join(["once{h in n*: h.p}"] * 3000), "each{h in n*: each{k in n*: each{l in n*: p}}}",
        ):
            with contextlib.suppress(Trouble):
                written_out(formula(text), self.log(64))
        self.assertLess(time.process_time() - began, 30)

    def test_within_one_another(self):
        text = "n0.p"
        for number in range(17):
            text = f"each{{v{number} in n0: {text}}}"
        self.assertIn("at most 16 each and once stand within one another", self.trouble(text, 1)[1])

    def test_all_hosts_of_a_log(self):
        """As many as a log can have stay below the limits of parts and of levels."""
        for text in ("G at most one of n*.p", "F once{h in n*: h.p}", "G each{h in n*: h.p -> F[0,5] n0.p}"):
            self.assertLessEqual(different_parts(read_formula(written_out(formula(text), self.log(64)).data.decode())), 512, text)

    def test_parts_are_counted_as_the_program_counts_them(self):
        for count in (512, 513):
            self.assertEqual(different_parts(read_formula((EXAMPLES / f"nodes_{count}.formula").read_text())), count)


class Places(unittest.TestCase):
    def test_each_part_has_the_place_that_was_written(self):
        text = "F[0,1s] n0.a & once{h in n0, n1: G (h.b -> web.c)}"
        found = written_out(formula(text), in_unit("ms"))
        expanded = found.data.decode()
        for part, place in (("F[", 0), ("1000", 4), ("n0.a", 8), ("n1.b", 36), ("web.c", 43), ("G (n1", 33)):
            self.assertEqual(place_written(found, expanded.rindex(part)), (formula(text), place), part)
        self.assertEqual(place_written(found, len(expanded)), (formula(text), len(text)))

    def test_places_behind_bytes_that_are_no_text(self):
        data = b"\xff & once{h in n0: F h.b} & \xfe"
        found = written_out(Source("f", data), LOG)
        self.assertEqual(found.data, b"\xff & F n0.b & \xfe")
        for part, place in ((b"n0", 20), (b"\xfe", 27)):
            self.assertEqual(place_written(found, found.data.rindex(part))[1], place, part)
        with self.assertRaises(Trouble) as refused:
            written_out(Source("f", b"\xff & each{h in z: F h.b}"), LOG)
        self.assertIn("f, line 1, column 15: the log has no host z", refused.exception.message)

    def test_numbers_keep_places(self):
        text = "once{h in n0, n1: F[?,?] h.b}"
        found = with_number_in(written_out(formula(text), LOG), 12345)
        self.assertEqual(found.data.decode(), "F[12345,12345] n0.b | F[12345,12345] n1.b")
        self.assertEqual(place_written(found, found.data.index(b"n1.b"))[1], text.index("h.b"))

    def test_what_the_program_refuses_has_the_place_that_was_written(self):
        for text, status, said in (
            ("each{h in n*: G (h.leader -> F[0,9] q.x)}", 65, "the formula, line 1, column 37: the log has no host q."),
            ("each{h in n*: G (h.leader ->)}", 65, "the formula, line 1, column 29: something else is expected here"),
            ("each{h in n*: h.leader} }", 65, "the formula, line 1, column 25: here begins nothing of the language"),
            ("some{h in n*: h.leader}", 65, "column 5: here begins nothing of the language: braces are those of each{h in HOSTS: ..}"),
            ("each{h in n*: F[9,3] h.leader}", 65, "column 16: the first number of an interval can't be above the second"),
        ):
            ended, _, told = asked(["check", text, LEADERS], EXAMPLES)
            self.assertEqual(ended, status, text)
            self.assertIn(said, told)

    def test_warnings_have_the_place_that_was_written(self):
        _, text, _ = asked(["check", "each{h in n*: G !h.laeder}", LEADERS], EXAMPLES)
        self.assertIn("Warning (unset): n3.laeder (line 1, column 18) is false throughout", text)
        _, text, _ = asked(["check", "G at most one of n0.leader, n2.laeder", LEADERS], EXAMPLES)
        self.assertIn("Warning (unset): n2.laeder (line 1, column 29) is false throughout", text)
        _, text, _ = asked(["deadline", "each{h in n0, n1:\n F[0,?] h.laeder}", LEADERS], EXAMPLES)
        self.assertIn("Warning (unset): n1.laeder (line 2, column 9) is false throughout", text)


class Asked(unittest.TestCase):
    def same(self, one, other):
        """Two texts are true of the same timings of a log."""
        words = f"G ((({one}) -> ({other})) & (({other}) -> ({one})))"
        self.assertEqual(asked(["check", words, LEADERS, "--quiet"], EXAMPLES), (0, "", ""), words)

    def test_they_say_what_they_stand_for(self):
        hosts = [f"n{number}" for number in range(5)]
        pairs = " & ".join(f"!({h}.leader & {k}.leader)" for place, h in enumerate(hosts) for k in hosts[:place])
        self.same("at most one of n*.leader", pairs)
        self.same("each{h in n*: each{k in n* but h: !(h.leader & k.leader)}}", pairs)
        self.same("once{h in n*: h.leader}", " | ".join(f"{host}.leader" for host in hosts))
        self.same("once{h in n*: each{k in n* but h: !k.leader}}", "at most one of n*.leader")

    def test_every_command_that_takes_a_formula(self):
        text, plain = "F once{h in n0, n1: h.leader}", "F (n0.leader | n1.leader)"
        for words, more in (
            (["check"], []), (["check", "--windows"], []), (["tolerance", "false"], ["--up-to", "9"]), (["deadline"], []),
        ):
            asking, asking_plain = ((one.replace("F ", "F[0,?] ") if "deadline" in words else one) for one in (text, plain))
            status, found, said = asked([*words, asking, LEADERS, *more], EXAMPLES)
            self.assertLess(status, 64, said)
            self.assertEqual((status, found.split("\n")[0].replace(asking, asking_plain)),
                             (lambda done: (done[0], done[1].split("\n")[0]))(asked([*words, asking_plain, LEADERS, *more], EXAMPLES)))
        status, found, _ = asked(["draw", LEADERS, "--formula", text, "--json"], EXAMPLES)
        self.assertEqual((status, "the formula is true" in found), (0, True))
        status, found, _ = asked(["each", "F once{h in {1}0, {1}1: h.leader}", LEADERS, "--over", r"(n)2\.leader"], EXAMPLES)
        self.assertIn("F once{h in n0, n1: h.leader}", found)
        self.assertEqual(status, 0)

    def test_the_formula_alone(self):
        for words, text in (
            (["check", "G at most one of n0.x, n1.x", LEADERS], "G !(n0.x & n1.x)"), (["check", "G  n0.x\n", LEADERS], "G n0.x"),
            (["deadline", "each{h in n0, n1: F[0,?] h.x}", LEADERS], "F[0,?] n0.x & F[0,?] n1.x"),
            (["tolerance", "true", "F[0,1s] n0.x", LEADERS, "--unit", "us"], "F[0,1000000] n0.x"),
            (["each", "once{h in n0, n1: h.{}}", LEADERS, "--over", "leader|beat_1"], "n0.leader | n1.leader\nn0.beat_1 | n1.beat_1"),
        ):
            self.assertEqual(asked([*words, "--formula"], EXAMPLES), (0, f"{text}\n", ""), words)
        self.assertEqual(asked(["check", "G at most one of n0.x, n1.x", LEADERS, "--formula"], EXAMPLES, SKEWCHECK="missing")[0], 0)
        self.assertEqual(asked(["check", "once{h in q: h.x}", LEADERS, "--formula"], EXAMPLES)[0], 65)

    def test_what_is_kept_is_the_formula_of_the_program(self):
        with tempfile.TemporaryDirectory() as folder:
            kept = str(Path(folder, "kept"))
            self.assertEqual(asked(["check", "G at most one of n*.leader", LEADERS, "--keep", kept], EXAMPLES)[0], 1)
            status, text, said = asked(["audit", kept], EXAMPLES)
            self.assertEqual((status, "!((n0.leader | n2.leader) & n4.leader)" in text), (0, True), said)


if __name__ == "__main__":
    unittest.main()
