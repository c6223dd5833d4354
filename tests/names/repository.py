"""The names that the repository has: what its code, definitions and scripts define, its files, and the words of its data."""

import re
import subprocess
from dataclasses import dataclass, field
from pathlib import Path
from typing import Dict, Iterator, Set

ROOT = Path(__file__).resolve().parents[2]
OPENING = re.compile(r"[{}]")


@dataclass
class Names:
    """What is named in a repository."""

    defined: Set[str] = field(default_factory=set)  # by crates: functions, types, variants, fields, clauses, definitions
    scripted: Set[str] = field(default_factory=set)  # by scripts: functions, classes, constants, fields
    owned: Dict[str, Set[str]] = field(default_factory=dict)  # of a function, type or crate what it has by name
    data: Set[str] = field(default_factory=set)  # words of texts and of examples
    paths: Set[str] = field(default_factory=set)  # files and folders, from the top
    options: Set[str] = field(default_factory=set)  # words of commands that begin with two dashes

    def give(self, owner: str, name: str) -> None:
        """Notes that something has a name of its own."""
        self.defined.add(name)
        self.owned.setdefault(owner, set()).add(name)


def without_comments(text: str) -> str:
    return re.sub(r"^\s*//.*$|\s//[^\n\"]*$", "", text, flags=re.M)


def end_of_block(text: str, at: int) -> int:
    """The place behind the brace that closes the one at a place."""
    depth = 0
    for found in OPENING.finditer(text, at):
        depth += 1 if found[0] == "{" else -1
        if depth == 0:
            return found.end()
    return len(text)


# Code


def take_code(names: Names, crate: str, text: str) -> None:
    """Takes the names that a file of code defines."""
    text = without_comments(text)
    for owner, start, end in blocks_of(text):
        take_functions(names, crate, text[start:end], owner)
    for kind, name in re.findall(r"\b(struct|enum|trait|type|mod|const|static|macro_rules!)\s+(\w+)", text):
        names.give(crate, name)
    for name in re.findall(r"\bpub use [\w:]+ as (\w+);", text):
        names.give(crate, name)
    for kind, name, start, end in shapes_of(text):
        part = r"^\s*(\w+)\s*(?:[({,=]|$)" if kind == "enum" else r"^\s*(?:pub(?:\(\w+\))? )?(?:ghost )?(\w+):"
        for member in re.findall(part, text[start + 1 : end - 1], re.M):
            names.give(name, member)
    names.data.update(word for quoted in re.findall(r'"((?:[^"\\]|\\.)*)"', text) for word in re.findall(r"\w+", quoted))


def blocks_of(text: str) -> Iterator["tuple[str, int, int]"]:
    """The impls and traits of a file with the type or trait that each is of, and what stands outside them."""
    at = 0
    for found in re.finditer(r"^(?:pub )?(?:unsafe )?(?:impl|trait)\b([^{;]*)(?=\{)", text, re.M):
        if found.start() < at:
            continue
        yield "", at, found.start()
        at = end_of_block(text, found.end())
        plain = re.sub(r"<[^<>]*(?:<[^<>]*>)?[^<>]*>", "", found[1].split(" where ")[0])
        yield re.findall(r"\w+", plain)[-1], found.end(), at
    yield "", at, len(text)


def shapes_of(text: str) -> Iterator["tuple[str, str, int, int]"]:
    """The structs and enums of a file, each with the place of its block."""
    for found in re.finditer(r"\b(struct|enum) (\w+)[^;{(]*(?=\{)", text):
        yield found[1], found[2], found.end(), end_of_block(text, found.end())


def take_functions(names: Names, crate: str, text: str, owner: str) -> None:
    """Takes the functions of a block, each with the labels of its clauses."""
    heads = list(re.finditer(r"\bfn (\w+)", text))
    for head, following in zip(heads, [*heads[1:], None]):
        names.give(crate, head[1])
        if owner:
            names.give(owner, head[1])
        clauses = text[head.end() : following.start() if following else len(text)]
        for label in re.findall(r"\b(?:requires|ensures|ghost)\*?\s+(\w+)\s*(?:=\s*)?\{", clauses):
            for bearer in (head[1], owner, f"{owner}::{head[1]}") if owner else (head[1],):
                names.give(bearer, label)


# Definitions and proofs


def take_definitions(names: Names, crate: str, text: str) -> None:
    """Takes the names that a file of definitions or lemmas defines."""
    text = re.sub(r"^\s*--.*$", "", text, flags=re.M)
    for name in re.findall(r"^\s*(?:(?:abbrev|record|data|pub) )+([A-Za-z_][\w'-]*)", text, re.M):
        names.give(crate, name)
    for name in re.findall(r"^([A-Za-z_][\w'-]*) :", text, re.M):
        names.give(crate, name)


# Scripts


def take_script(names: Names, text: str) -> None:
    """Takes the names that a script of Python or of a shell defines."""
    for shape in (r"^\s*(?:def|class) (\w+)", r"^(\w+)\b.*= ", r"^\s+(\w+): ", r"^(\w+)\(\) \{", r"[\w)]\.add_argument\(\"(\w+)\""):
        names.scripted.update(re.findall(shape, text, re.M))
    names.data.update(word for quoted in re.findall(r"[\"']([^\"'\n]*)[\"']", text) for word in re.findall(r"\w+", quoted))
    names.options.update(re.findall(r"(?<![\w-])(--[a-z][a-z-]*)", text))


# All of it


def files() -> Iterator[Path]:
    """The files of the repository, but for what is built."""
    listed = subprocess.run(
        ["git", "ls-files", "--cached", "--others", "--exclude-standard", "-z"], cwd=ROOT, capture_output=True, check=True,
    )
    for name in listed.stdout.decode().split("\0"):
        if name and (ROOT / name).is_file():
            yield Path(name)


def take_file(names: Names, path: Path) -> None:
    """Takes the names that a file has, by what kind of file it is."""
    names.paths.update(str(part) for part in (path, *path.parents) if part.name)
    if path.suffix in (".svg", ".md") or path.parts[0] == "docs" or path.parts[:2] == ("tests", "names"):
        return  # pages name things, and so do the cases of what they lack
    text = (ROOT / path).read_text(errors="replace")
    crate = path.parts[1] if path.parts[0] == "crates" and len(path.parts) > 2 else ""
    if path.suffix == ".rt":
        take_code(names, crate, text)
    elif path.suffix == ".antt":
        take_definitions(names, crate, text)
    elif path.suffix in (".py", ".sh") or text.startswith("#!"):
        take_script(names, text)
    elif path.parts[0] in ("examples", "tests") or path.name in ("stdin", "stdout"):
        names.data.update(re.findall(r"\w+", text))


def names() -> Names:
    """The names of the repository."""
    found = Names()
    for line in (ROOT / "crates.txt").read_text().splitlines():
        if line[:1].isalpha():
            found.defined.update(re.findall(r"\w+", line))
    for path in files():
        take_file(found, path)
    return found


def libraries(listed: str) -> Iterator["tuple[str, list[str]]"]:
    """The crates of lines as those of crates.txt, each with its libraries."""
    for line in listed.splitlines():
        crate, _, given = line.partition(":")
        if crate[:1].isalpha():
            yield crate, given.split()


def needless(listed: str) -> Iterator[str]:
    """The libraries that lines as those of crates.txt give a crate whose files don't name them."""
    for crate, given in libraries(listed):
        folder = ROOT / "crates" / crate
        texts = [path.read_text() for part in ("src", "specs", "proofs") for path in (folder / part).rglob("*.*")]
        named = {word for text in texts for word in re.findall(r"\w+", text)}
        for library in given:
            if library not in named:
                yield f"{crate}: {library}"
