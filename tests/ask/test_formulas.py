"""The companion's reader of formulas, held against tests/reference on generated ones, and what it makes of them."""

import random
import unittest

import common  # sets the path
import formats
import generate

from ask.formulas import beyond_the_end, grows_truer, parts_written, propositions, read_formula, text_of


def shape_of_reference(tree):
    """A tree of the reference as nested tuples."""
    if tree.form == "prop":
        return tree.host.decode(), tree.name.decode()
    interval = tree.interval and (str(tree.interval[0]), "inf" if tree.interval[1] is None else str(tree.interval[1]))
    return (tree.form, interval or ("0", "inf"), *map(shape_of_reference, tree.children))


def shape(tree):
    """A tree of the companion in the same form."""
    if tree.form == "prop":
        return tree.host, tree.name
    return (tree.form, tree.interval, *map(shape, tree.parts))


def generated():
    """Formulas by chance, as the reference reads them."""
    draw = random.Random(38)
    for _ in range(600):
        data = generate.formula_file(draw, generate.some_log(draw))
        tree = formats.read_formula(data)
        if not isinstance(tree, formats.FormulaFault):
            yield data.decode(), tree


class AgainstReference(unittest.TestCase):
    def test_trees(self):
        count = 0
        for text, tree in generated():
            count += 1
            self.assertEqual(shape(read_formula(text)), shape_of_reference(tree), text)
        self.assertGreater(count, 200)

    def test_texts_are_read_as_what_they_are_of(self):
        for text, tree in generated():
            again = text_of(read_formula(text))
            self.assertEqual(shape_of_reference(formats.read_formula(again.encode())), shape_of_reference(tree), again)


class Readings(unittest.TestCase):
    def test_deep_parentheses(self):
        self.assertEqual(shape(read_formula("(" * 30_000 + "a.p" + ")" * 30_000)), ("a", "p"))

    def test_no_formulas(self):
        for text in ("", "a.", "a.p b.q", "(a.p", "a.p)", "F[1 a.p", "->", "a.p #", "! ", "F[1,2,3] a.p", "()"):
            self.assertIsNone(read_formula(text), text)

    def test_places(self):
        found = propositions(read_formula("G (a.p -> F b . q & a.p)"))
        self.assertEqual([(tree.host, tree.name, tree.start) for tree in found], [("a", "p", 3), ("b", "q", 12)])

    def test_beyond_the_end(self):
        for text, wanted, made in (
            ("G (a.p -> F[0,5] b.q)", True, "G (a.p -> (F[0,5] b.q | !F[5,inf] true))"),
            ("G (a.p -> F b.q)", True, "G (a.p -> true)"),
            ("G (a.p -> F[0,5] b.q)", False, "G (a.p -> F[0,5] b.q)"),
            ("G (a.p -> G[0,5] b.q)", False, "G (a.p -> (G[0,5] b.q & F[5,inf] true))"),
            ("!G[1,5] a.p", True, "!(G[1,5] a.p & F[5,inf] true)"),
            ("a.p U[0,3] b.q", True, "(a.p U[0,3] b.q) | (G a.p & !F[3,inf] true)"),
            ("O[0,5] a.p", True, "O[0,5] a.p"),
        ):
            self.assertEqual(text_of(beyond_the_end(read_formula(text), wanted)), made)

    def test_untils_in_untils_are_counted_before_they_are_written(self):
        text = "a.p"
        for _ in range(150):
            text = f"(({text}) U[0,3] b.q)"
        self.assertGreater(parts_written(beyond_the_end(read_formula(text), True)), 2**100)

    def test_where_a_greater_number_helps(self):
        for text, directions in (
            ("F[0,?] a.p", [True]), ("G[0,?] a.p", [False]), ("!F[0,?] a.p", [False]), ("F[?,9] a.p", [False]),
            ("F[0,?] a.p -> b.q", [False]), ("b.q -> F[0,?] a.p", [True]), ("G[?,9] a.p", [True]), ("H[0,?] F[0,?] a.p", [False, True]),
        ):
            self.assertEqual(grows_truer(read_formula(text)), directions, text)


if __name__ == "__main__":
    unittest.main()
