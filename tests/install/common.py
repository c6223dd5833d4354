"""What the tests of ./install have in common: how it is run, what it puts, and a folder for each case."""

import atexit
import os
import shutil
import subprocess
import tempfile
import unittest
from pathlib import Path

ROOT = Path(__file__).resolve().parent.parent.parent
PROGRAM = os.environ["SKEWCHECK"]
PATIENCE = 120  # seconds that one run may take
NOBODY = 65534  # the number of a user that owns nothing
COMMANDS = ["bin/skewcheck", "bin/skewask", "bin/skewcheck-audit"]
MANUALS = [f"share/man/man1/{name}.1" for name in ("skewcheck", "skewask", "skewcheck-audit")]
BASH = "share/bash-completion/completions/skewcheck"
ZSH = "share/zsh/site-functions/_skewcheck"
FISH = "share/fish/vendor_completions.d/skewcheck.fish"
PARTS = "share/skewcheck"
ABOUT = "share/doc/skewcheck"
LIST = f"{ABOUT}/sha256sums"
CHECKER = ("audit", "derivations", "formats", "logs", "reference", "reports")
TEMPLATE = []  # the one prefix, once it is there
PAGES = ("README.md", "CHANGELOG.md", "CONTRIBUTING.md")


def source_names():
    """The files of the repository of which some are put: those that git has, or all where this is no clone."""
    folders = ("ask", "docs", "examples")
    done = subprocess.run(["git", "ls-files", "-z", "--", *folders], cwd=ROOT, capture_output=True, text=True)
    if done.returncode == 0 and done.stdout:
        return [name for name in done.stdout.split("\0") if name and (ROOT / name).is_file()]
    return [str(path.relative_to(ROOT)) for folder in folders for path in (ROOT / folder).rglob("*") if path.is_file()]


def names_origin():
    """Whether git and rt say what the program was made of."""
    return shutil.which("rt") is not None and (ROOT / ".git").exists()


def expected():
    """The files that are put, but for the two lists of what was put."""
    names = source_names()
    return sorted([
        *[f"{ABOUT}/version"] * names_origin(),
        *COMMANDS, *MANUALS, BASH, ZSH, FISH, *[f"{PARTS}/audit/{name}.py" for name in CHECKER],
        *[f"{PARTS}/{name}" for name in names if name.startswith("ask/") and name.endswith(".py")],
        *[f"{ABOUT}/{name}" for name in names if name.startswith("docs/") and name.endswith((".md", ".svg", ".txt"))],
        *[f"{ABOUT}/{name}" for name in names if name.startswith("examples/") and not name.endswith(".pyc")],
        *[f"{ABOUT}/{name}" for name in PAGES],
    ])


def installed(*words, before=(), cwd=None, script=ROOT / "install", **environment):
    """How a run of ./install ended, with words before its own as of a command that runs it for another user."""
    return subprocess.run(
        [*before, script, *words], stdin=subprocess.DEVNULL, capture_output=True, text=True, timeout=PATIENCE,
        env={**os.environ, **environment}, cwd=cwd,
    )


def template():
    """A prefix with all that is installed, which cases read and copy: one for all of them."""
    if not TEMPLATE:
        room = tempfile.mkdtemp()
        atexit.register(shutil.rmtree, room)
        os.chmod(room, 0o755)
        done = installed("--prefix", Path(room) / "prefix")
        assert done.returncode == 0, done.stderr
        TEMPLATE.append(Path(room) / "prefix")
    return TEMPLATE[0]


def tree(folder):
    """All that stands below a folder."""
    return sorted(str(path.relative_to(folder)) for path in Path(folder).rglob("*"))


def contents(folder):
    """All that stands below a folder, with what is in it: the bytes of files and the ends of links."""
    found = {}
    for path in Path(folder).rglob("*"):
        name = str(path.relative_to(folder))
        if path.is_symlink():
            found[name] = os.readlink(path)
        else:
            found[name] = path.read_bytes() if path.is_file() else None
    return found


def as_nobody(case):
    """The words before a command that another user is to run; the case is skipped where that can't be."""
    if os.geteuid() != 0 or not shutil.which("setpriv"):
        case.skipTest("another user needs root, and setpriv of the package util-linux")
    return ["setpriv", f"--reuid={NOBODY}", f"--regid={NOBODY}", "--clear-groups"]


class WithRoom(unittest.TestCase):
    """A case with a folder of its own, and a prefix in it that isn't there yet."""

    def setUp(self):
        room = tempfile.TemporaryDirectory()
        self.addCleanup(room.cleanup)
        self.room = Path(room.name)
        self.prefix = self.room / "prefix"

    def put(self, *words, **environment):
        done = installed("--prefix", self.prefix, *words, **environment)
        self.assertEqual(done.returncode, 0, done.stderr)
        return done

    def assertRefused(self, words, status, said, **environment):
        """A run with these words is refused in one line, and leaves all as it was."""
        before = contents(self.room)
        done = installed(*words, **environment)
        self.assertEqual(done.returncode, status, done.stderr)
        self.assertIn(said, done.stderr)
        self.assertEqual(len(done.stderr.splitlines()), 1, done.stderr)
        self.assertEqual((done.stdout, contents(self.room)), ("", before))


def needs_commit(case):
    """Skips a case that packs where there is nothing to name."""
    if not names_origin():
        case.skipTest("there is no rt, or no commit, here")
