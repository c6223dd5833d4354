"""Which functions, crates, files, clauses and options a page names in code style that the repository hasn't.

A name is what stands between two backquotes and is one word, a path, a word of the command line that begins with two
dashes, or words joined by `::`. A word has to be defined by a crate, a script or a kit's crate that crates.txt lists, be
the name of a file, be a word of the logs and texts that the repository has, or stand in outside.txt beside this file,
which lists what comes from elsewhere. On the pages of CRATES, which speak of code and definitions, scripts and texts
don't count for names as functions, types and clauses have them. There `a`, `b` of `f` also says that f has clauses,
methods or fields a and b, and `f` (`crate/file.rt`) that this file defines f.
"""

import re
from fnmatch import fnmatchcase
from pathlib import Path
from typing import Iterator, List

from repository import ROOT, Names

CRATES = {"auditing.md", "proved.md", "definitions.md", "crates.md", "DECISIONS.md", "derivations.md", "search.md"}
SPAN = r"(?<!`)`([^`\n]+)`(?!`)"
WORD = re.compile(r"[A-Za-z_]\w*(?:::[A-Za-z_]\w*)*(?:\(\))?")
PATH = re.compile(r"\.?[\w.*-]+(?:/[\w.*-]+)+/?|[\w*-]+\.(?:rt|antt|py|sh|md|edit|txt|svg|csv|formula|report|times|answer|json|jsonl)")
OWNED = re.compile(r"(`[^`\n]+`(?:(?:, | and )`[^`\n]+`)*) of (`[^`\n]+`(?: and `[^`\n]+`)*)")
PLACED = re.compile(r"`([\w:]+)` \(`([\w/]+\.(?:rt|antt|py))`\)")
OPTION = re.compile(r"--[a-z][a-z-]*")


def pages() -> List[Path]:
    """The pages of the repository."""
    tops = [ROOT / name for name in ("README.md", "CONTRIBUTING.md", "CHANGELOG.md")]
    return [*tops, *sorted((ROOT / "docs").glob("*.md")), *sorted((ROOT / "tests").glob("*/README.md"))]


def prose_of(page: Path) -> Iterator["tuple[int, str]"]:
    """The lines of a page outside its blocks, with their numbers."""
    in_block = False
    for number, line in enumerate(page.read_text().splitlines(), 1):
        if line.startswith("```"):
            in_block = not in_block
        elif not in_block:
            yield number, line


def outside() -> "set[str]":
    """The names that come from elsewhere."""
    lines = (Path(__file__).parent / "outside.txt").read_text().splitlines()
    return {word for line in lines for word in line.partition("#")[0].split()}


class Looker:
    """Looks names up in what a repository has."""

    def __init__(self, names: Names, others: "set[str]"):
        self.names = names
        self.others = others
        self.files = {path.rsplit("/", 1)[-1] for path in names.paths}
        self.files |= {name.split(".")[0] for name in self.files}

    def has_word(self, word: str, is_of_crates: bool) -> bool:
        """Whether there is something of this name."""
        if word in self.names.defined or word in self.others or word in self.files:
            return True
        is_plain = re.fullmatch(r"[a-z]+[0-9]?", word) is not None
        return (is_plain or not is_of_crates) and (word in self.names.scripted or word in self.names.data)

    def has_path(self, path: str, page: Path) -> bool:
        """Whether there is a file of this path, from the top, from the page's folder, or from a folder anywhere."""
        path = re.sub(r"\b[A-Z][A-Z_]+\b", "*", re.sub(r"^(\.\.?/)+", "", path.strip("/")))
        places = [path, f"*/{path}", f"{page.parent.relative_to(ROOT)}/{path}"]
        crate, _, rest = path.partition("/")
        if rest and crate in self.names.owned:
            places.append(f"crates/{crate}/*/{rest}")  # the pages leave out src and specs
        if any(fnmatchcase(path, other) for other in self.others):
            return True
        return any(fnmatchcase(known, place) for known in self.names.paths for place in places)

    def lacks_of_span(self, span: str, page: Path) -> Iterator[str]:
        """The names of a span that there aren't."""
        if WORD.fullmatch(span):
            words = span.removesuffix("()").split("::")
            lacking = [word for word in words if not self.has_word(word, page.name in CRATES)]
            if lacking or len(words) == 2 and not self.is_owned(words[1], words[0]):
                yield f"`{span}`"
            return
        for word in span.split():
            if PATH.fullmatch(word) and (word.split("/")[0] in self.names.paths or word == span) and not self.has_path(word, page):
                yield f"`{word}`"
            option = word.partition("=")[0]
            if OPTION.fullmatch(option) and option not in self.names.options and option not in self.others:
                yield f"`{option}`"

    def is_owned(self, name: str, owner: str) -> bool:
        """Whether something has a part of this name, or nothing is known of its parts."""
        return owner not in self.names.owned or name in self.names.owned[owner]

    def lacks_of_owners(self, line: str) -> Iterator[str]:
        """The names `a` of what is said as `a` of `f`, where f has no such part."""
        for parts, owners in OWNED.findall(line):
            known = [owner for owner in re.findall(SPAN, owners) if owner in self.names.owned]
            for name in re.findall(SPAN, parts):
                if WORD.fullmatch(name) and known and not any(self.is_owned(name, owner) for owner in known):
                    yield f"`{name}` of {owners}"

    def lacks_of_places(self, line: str) -> Iterator[str]:
        """The names `f` of what is said as `f` (`crate/file.rt`), where the file doesn't define f."""
        for name, path in PLACED.findall(line):
            shape = f"*/{path.replace('/', '*/')}"  # the pages leave out src and specs
            texts = [(ROOT / known).read_text() for known in self.names.paths if fnmatchcase(known, shape)]
            defining = rf"\b(?:fn|def|struct|enum|const|record|abbrev|data|pub) (?:pub )?{name.split('::')[-1]}\b"
            if not any(re.search(defining, text) for text in texts):
                yield f"`{name}` in `{path}`"

    def lacks_of_line(self, line: str, page: Path) -> List[str]:
        """All that a line of a page names and that there isn't."""
        found = [lack for span in re.findall(SPAN, line) for lack in self.lacks_of_span(span, page)]
        if page.name in CRATES:
            found += [*self.lacks_of_owners(line), *self.lacks_of_places(line)]
        return list(dict.fromkeys(found))

    def lacks(self, page: Path) -> List[str]:
        """All that a page names and that there isn't, with the lines."""
        return [f"line {number}: there is no {what}" for number, line in prose_of(page) for what in self.lacks_of_line(line, page)]
