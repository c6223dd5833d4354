"""Pages stay short, and say first for whom they are."""

import re
import unittest

from room import ROOT

MOST_OF_README = 1_200  # words
MOST_OF_A_PAGE = 4_000
MOST_OF_ALL = 40_000  # as wc -w counts, so with bars of tables
PAGES = [ROOT / "README.md", *sorted((ROOT / "docs").glob("*.md"))]
READERS = re.compile(r"For (a|an|who|the|everybody)\b|for everybody")


def words_of(page):
    """How many words a page has: what stands between blanks and has a letter or a digit, so no bars of tables."""
    return len(re.findall(r"\S*\w\S*", page.read_text()))


class Lengths(unittest.TestCase):
    def test_pages(self):
        for page in PAGES:
            most = MOST_OF_README if page.name == "README.md" and page.parent == ROOT else MOST_OF_A_PAGE
            with self.subTest(page=page.name):
                self.assertLessEqual(words_of(page), most)

    def test_all_together(self):
        self.assertLessEqual(sum(len(page.read_text().split()) for page in PAGES), MOST_OF_ALL)

    def test_first_paragraphs(self):
        for page in PAGES:
            with self.subTest(page=page.name):
                first = page.read_text().split("\n\n")[1]
                self.assertRegex(first, READERS)


if __name__ == "__main__":
    unittest.main()
