"""The names of the pages and of crates.txt, and that what isn't there is found."""

import re
import unittest
from fnmatch import fnmatchcase

import names
import repository

LOOKER = names.Looker(repository.names(), names.outside())
PROVED = repository.ROOT / "docs" / "proved.md"  # a page on code and definitions
ASKING = repository.ROOT / "docs" / "asking.md"


class Pages(unittest.TestCase):
    """Each page names what is there."""


def case_of(page):
    """The case of a page."""

    def case(self):
        self.assertEqual(LOOKER.lacks(page), [])

    return case


for page in names.pages():
    setattr(Pages, f"test_{page.relative_to(repository.ROOT)}", case_of(page))


class Lists(unittest.TestCase):
    """What is looked at isn't empty, and nothing is listed that isn't needed."""

    def test_pages_name_things(self):
        pages = names.pages()
        self.assertEqual({page for page in (repository.ROOT / "docs").iterdir() if page.suffix == ".md"} - {*pages}, set())
        self.assertGreater(len(pages), 20)
        for page in pages:
            self.assertNotEqual([span for _, line in names.prose_of(page) for span in re.findall(names.SPAN, line)], [], page)

    def test_blocks_are_closed(self):
        """What stands behind one that isn't would be overlooked."""
        for page in names.pages():
            marks = [line for line in page.read_text().splitlines() if line.startswith("```")]
            self.assertEqual({mark for mark in marks[1::2]} - {"```"}, set(), page)
            self.assertEqual(len(marks) % 2, 0, page)

    def test_names_are_found(self):
        known = LOOKER.names
        for kind in (known.defined, known.scripted, known.owned, known.data, known.paths):
            self.assertGreater(len(kind), 1000)
        self.assertGreater(len(known.options), 100)

    def test_names_from_elsewhere_are_on_pages(self):
        text = "\n".join(line for page in names.pages() for _, line in names.prose_of(page))
        words = {word for span in re.findall(names.SPAN, text) for word in re.split(r"[\s:()=]+", span)}
        self.assertEqual([name for name in names.outside() if not any(fnmatchcase(word, name) for word in words)], [])


class Libraries(unittest.TestCase):
    """Crates name the libraries that crates.txt gives them."""

    def test_no_crate_has_a_library_that_it_does_not_name(self):
        listed = (repository.ROOT / "crates.txt").read_text()
        self.assertEqual(list(repository.needless(listed)), [])
        self.assertGreater(sum(len(given) for _, given in repository.libraries(listed)), 200)

    def test_a_library_that_is_not_named_is_found(self):
        self.assertEqual(list(repository.needless("# a crate\nneg_cycle: mt_list mt_model\n")), ["neg_cycle: mt_model"])


class Lacks(unittest.TestCase):
    """What a line names and that isn't there is found, and nothing else of it."""

    def test_what_is_there(self):
        for line in (
            "`search` of `cdcl_core` and `Graph::push`", "`outcome`, `possible` of `run`", "`axiom_rules/specs/Clauses.antt`",
            "`takes_cycle` (`proof_check/conflict.rt`)", "`crates/NAME/must-fail/*.edit`", "`tests/reference/run`", "`BTreeSet`",
        ):
            self.assertEqual(LOOKER.lacks_of_line(line, PROVED), [], line)
        self.assertEqual(LOOKER.lacks_of_line("`--strict`, `ask check` and `web`, by `cautions.py`", ASKING), [])

    def test_what_is_not(self):
        for line, lacking in (
            ("`is_conflikt` decides", ["`is_conflikt`"]),
            ("`Graph::shove`", ["`Graph::shove`"]),
            ("`found`, `outcome` of `push_within`", ["`found` of `push_within`", "`outcome` of `push_within`"]),
            ("in `axiom_rules/specs/Klauses.antt`", ["`axiom_rules/specs/Klauses.antt`"]),
            ("`takes_cycle` (`proof_check/judge.rt`)", ["`takes_cycle` in `proof_check/judge.rt`"]),
            ("`run check --strickt`", ["`--strickt`"]),
            ("`clause_of` and `hints_refuse`", ["`hints_refuse`"]),
        ):
            self.assertEqual(LOOKER.lacks_of_line(line, PROVED), lacking)

    def test_what_only_a_script_defines_is_nothing_of_the_crates(self):
        self.assertEqual(LOOKER.lacks_of_line("`is_conflict`", PROVED), ["`is_conflict`"])
        self.assertEqual(LOOKER.lacks_of_line("`is_conflict`", ASKING), [])


if __name__ == "__main__":
    unittest.main()
