"""What ask and the program that it runs were made of: a release, a commit and a kit, where they are known."""

from __future__ import annotations

import argparse
import re
import subprocess
from pathlib import Path
from typing import Any, Dict, NamedTuple, Optional

from ask.program import find_program
from ask.texts import Trouble
from ask.words import Answer

INSTALLED = Path("share", "doc", "skewcheck", "version")  # below a prefix, with the lines `commit ..` and `kit ..`, and `release ..` of one
PROVED = Path("docs", "proved.md")  # of a repository
KIT = re.compile(r"^Proved with `([^`]+)`", re.M)
RELEASE = re.compile(r"v([0-9]+(?:\.[0-9]+)*)")  # a tag
PATIENCE = 10  # seconds that git may take


class Origin(NamedTuple):
    """The commit, the kit and the release of a file, None where they aren't known; of a repository those of its present commit."""

    commit: Optional[str] = None
    kit: Optional[str] = None
    is_repository: bool = False
    release: Optional[str] = None

    def words(self) -> str:
        """What it is, in words."""
        if not self.commit and not self.kit:
            return "its commit and kit aren't known"
        commit = f"commit {self.commit or 'not known'}"
        release = f"release {self.release}, " if self.release else ""
        return f"{release}{'of a repository at ' * self.is_repository}{commit}, kit {self.kit or 'not known'}"


def answer_of_version(arguments: argparse.Namespace) -> Answer:
    """What ask and the program that it would run were made of."""
    own = origin_of(Path(__file__))
    lines, facts = [f"ask: {own.words()}"], {"ask": own._asdict(), "program": None}
    try:
        path = find_program(arguments.program)
    except Trouble as trouble:
        return Answer(0, [*lines, f"skewcheck: {trouble.message.splitlines()[0]}"], facts)
    found = origin_of(Path(path))
    program: Dict[str, Any] = {"path": path, **found._asdict()}
    return Answer(0, [*lines, f"skewcheck: {path}: {found.words()}"], {**facts, "program": program})


def origin_of(file: Path) -> Origin:
    """The origin of a file below a prefix or in a repository, whichever is nearer."""
    for folder in file.resolve().parents:
        if (folder / INSTALLED).is_file():
            return installed_origin(folder / INSTALLED)
        if (folder / PROVED).is_file():
            return repository_origin(folder)
    return Origin()


def installed_origin(file: Path) -> Origin:
    """The origin that a file of an installation states."""
    lines = text_of(file).splitlines()
    told = dict(line.split(" ", 1) for line in lines if " " in line)
    return Origin(told.get("commit"), told.get("kit"), release=told.get("release"))


def repository_origin(folder: Path) -> Origin:
    """The commit at which a repository is, and the kit by which its page says that it was proved."""
    found = KIT.search(text_of(folder / PROVED))
    commit = git(folder, "rev-parse", "HEAD")
    kit = found.group(1) if found else None
    if commit and git(folder, "status", "--porcelain", "--untracked-files=no"):
        return Origin(f"{commit}, with changes", kit, is_repository=True)
    release = RELEASE.fullmatch(git(folder, "describe", "--tags", "--exact-match", "--match", "v[0-9]*"))
    return Origin(commit or None, kit, is_repository=True, release=release.group(1) if release else None)


def text_of(file: Path) -> str:
    """The text of a file, nothing where it can't be read."""
    try:
        return file.read_text(encoding="utf-8", errors="replace")
    except OSError:
        return ""


def git(folder: Path, *words: str) -> str:
    """What git answers in a folder, nothing where it doesn't."""
    try:
        done = subprocess.run(
            ["git", "-C", str(folder), *words], stdin=subprocess.DEVNULL, stdout=subprocess.PIPE,
            stderr=subprocess.DEVNULL, timeout=PATIENCE, check=True,
        )
    except (OSError, subprocess.SubprocessError):
        return ""
    return done.stdout.decode("utf-8", "replace").strip()
