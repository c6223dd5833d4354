"""The sources of crates as texts: brackets, comments, blocks, and the functions with what stands in them."""

from __future__ import annotations

import re
import sys
from collections.abc import Iterator
from pathlib import Path
from typing import NamedTuple

TOP = Path(__file__).resolve().parents[2]
CLOSING = {"(": ")", "[": "]", "{": "}", "<": ">"}

COMMENT_OR_LITERAL = re.compile(r"""//[^\n]*|/\*.*?\*/|"(?:\\.|[^"\\])*"|'(?:\\[^u]|\\u\{\w+\}|[^'\\])'""", re.S)
BLOCK = re.compile(r"^(?:pub )?(?:impl|trait)\b[^{;]*(?=\{)", re.M)
HEAD = re.compile(r"(?P<public>\bpub(?:\([^)]*\))? )?(?:const )?(?:unsafe )?\bfn (?P<name>\w+)")
AFTER_HEAD = re.compile(r"\b(?:requires|ensures|ghost)\b|[\[{;]")
TEST_MODULE = re.compile(r"#\[cfg\(test\)\]\s*mod (\w+)\s*([;{])")
TEST_MARK = re.compile(r"#\[test\]\s*$")
GATE = {"answer_table", "logic_table", "outside_tests", "table_case", "text_table"}  # crates that serve the gate alone


class Function(NamedTuple):
    """A function with a body, by its crate, its file, its lines from 1, and what it belongs to."""

    crate: str
    file: Path
    first: int
    last: int
    owner: str  # the type or trait of which it is a method, or nothing
    trait: str  # the trait whose method it is by an impl, or nothing
    name: str
    is_public: bool
    head: str  # without clauses
    clauses: tuple[str, ...]
    body: str

    def path(self) -> str:
        """Its name with its crate, and with its type where it is a method."""
        return "::".join(part for part in (self.crate, self.owner, self.name) if part)

    def lines(self) -> int:
        """How many lines it has, with its contract."""
        return self.last - self.first + 1

    def parameters(self) -> list[str]:
        """Its parameters, `self` among them."""
        begin = parameters_at(self.head, HEAD.search(self.head).end())
        inside = self.head[begin + 1 : end_of(self.head, begin) - 1]
        while opening := re.search(r"[(\[{]|(?<![-=])<", inside):
            inside = inside[: opening.start()] + inside[end_of(inside, opening.start()) :]
        return [part.strip() for part in inside.split(",") if part.strip()]


def crate_folders(top: Path) -> list[Path]:
    """The folders of the crates of a repository, by their names."""
    return [folder for folder in sorted((top / "crates").iterdir()) if (folder / "src").is_dir()]


def plain(text: str) -> str:
    """A text in one line."""
    return " ".join(text.split())


def end_of(text: str, at: int) -> int:
    """The place after the bracket that closes the one at a place. An arrow closes nothing."""
    depth, opening, closing = 0, text[at], CLOSING[text[at]]
    for place in range(at, len(text)):
        if text[place] == opening:
            depth += 1
        elif text[place] == closing and not (closing == ">" and text[place - 1] in "-="):
            depth -= 1
        if depth == 0:
            return place + 1
    sys.exit("a bracket is never closed")


def blanked(text: str) -> str:
    """A text of the same lines and columns with blanks for comments, and `_` for what literals hold."""

    def blank(found: re.Match[str]) -> str:
        if found[0].startswith("/"):
            return re.sub(r"[^\n]", " ", found[0])
        return found[0][0] + re.sub(r"[^\n]", "_", found[0][1:-1]) + found[0][-1]

    return COMMENT_OR_LITERAL.sub(blank, text)


def without_generics(text: str) -> str:
    """A text without what stands in angle brackets."""
    kept, at = "", 0
    while (opening := text.find("<", at)) >= 0:
        kept, at = kept + text[at:opening], end_of(text, opening)
    return kept + text[at:]


def impl_of(head: str) -> tuple[str, str]:
    """What a block's functions belong to: a type or trait, and the trait that the type meets by them, or nothing."""
    words = without_generics(plain(head).split(" where ")[0]).removeprefix("pub ").split()
    if words[0] == "impl" and "for" in words:
        return words[words.index("for") + 1].split("::")[-1], words[1].split("::")[-1]
    return words[1].rstrip(":").split("::")[-1], ""


def parameters_at(text: str, at: int) -> int:
    """Where the parameters of a function begin, whose name ends at a place."""
    behind = re.compile(r"\s*").match(text, at).end()
    return text.index("(", end_of(text, behind) if text[behind] == "<" else behind)


def parts_of(text: str, at: int) -> tuple[str, tuple[str, ...], int]:
    """The head of a function that begins at a place, its clauses, and where its body begins.

    A method that a trait only declares has no body, which then begins nowhere, at -1.
    """
    begin, head, clauses = at, "", []
    at = end_of(text, parameters_at(text, HEAD.match(text, at).end()))
    while found := AFTER_HEAD.search(text, at):
        if found[0] == "[":
            at = end_of(text, found.start())
            continue
        head = head or plain(text[begin : found.start()])
        if found[0] in "{;":
            return head, tuple(clauses), found.start() if found[0] == "{" else -1
        at = end_of(text, text.index("{", found.end()))
        clauses.append(plain(text[found.start() : at]))
    sys.exit("a function has no end")


def test_modules(file: Path, text: str) -> tuple[list[tuple[int, int]], list[Path]]:
    """The parts of a file that are built for tests alone, and the files that are."""
    folder = file.parent if file.name in ("lib.rt", "main.rt") else file.with_suffix("")
    parts, files = [], []
    for found in TEST_MODULE.finditer(text):
        if found[2] == "{":
            parts.append((found.start(), end_of(text, found.end() - 1)))
        else:
            files.append(folder / f"{found[1]}.rt")
    return parts, files


def functions_of_file(crate: str, file: Path, text: str, left_out: list[tuple[int, int]]) -> Iterator[Function]:
    """The functions of a blanked text with bodies, but for tests and for those within the parts that are left out."""
    blocks = [(found.start(), end_of(text, found.end()), impl_of(found[0])) for found in BLOCK.finditer(text)]
    for found in HEAD.finditer(text):
        at = found.start()
        if TEST_MARK.search(text, 0, at) or any(begin <= at < end for begin, end in left_out):
            continue
        head, clauses, body = parts_of(text, at)
        if body < 0:
            continue
        end = end_of(text, body)
        owner, trait = next((of for begin, closing, of in blocks if begin <= at < closing), ("", ""))
        lines = text.count("\n", 0, at) + 1, text.count("\n", 0, end) + 1
        yield Function(crate, file, *lines, owner, trait, found["name"], found["public"] is not None, head, clauses,
                       text[body + 1 : end - 1])


class Crate:
    """The files of a crate's code, blanked, and their functions, without tests."""

    def __init__(self, folder: Path) -> None:
        texts = {file: blanked(file.read_text()) for file in sorted((folder / "src").rglob("*.rt"))}
        tests = {file: test_modules(file, text) for file, text in texts.items()}
        left_out = {file for _, files in tests.values() for file in files}
        self.name = folder.name
        self.root = folder / "src" / "lib.rt"
        self.texts = {file: text for file, text in texts.items() if file not in left_out}
        self.functions = [
            function
            for file, text in self.texts.items()
            for function in functions_of_file(folder.name, file, text, tests[file][0])
        ]
