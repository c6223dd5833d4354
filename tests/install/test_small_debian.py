"""The archive and the package on a machine without the repository: a small Debian, made for the run by debootstrap.

Where that can't be had, the archive is tried in a folder with no more than Python and what it needs.
"""

import atexit
import os
import shutil
import signal
import subprocess
import sys
import sysconfig
import tarfile
import tempfile
import unittest
from pathlib import Path

from common import ABOUT, NOBODY, PATIENCE, PROGRAM, ROOT, WithRoom, expected, installed, needs_commit, tree

SUITE = "bookworm"
LONGEST = 240  # seconds that are waited for the small Debian when the other cases are done
ITS_OWN = ("var", "tmp", "proc", "sys", "dev", "run")  # folders in which apt keeps what it knows, or the system what it has


class Debian:
    """A small Debian in a folder, which is made while other cases run, and goes at the end."""

    def __init__(self):
        self.folder = self.making = None

    def begin(self):
        """Begins to make it, where that is possible."""
        if os.geteuid() == 0 and shutil.which("debootstrap") and shutil.which("rt"):
            self.folder = tempfile.mkdtemp()
            atexit.register(self.end)
            signal.signal(signal.SIGTERM, lambda *_: sys.exit(143))  # which goes by way of atexit
            self.making = subprocess.Popen(
                ["debootstrap", "--variant=minbase", "--include=python3", SUITE, f"{self.folder}/root"],
                stdin=subprocess.DEVNULL, stdout=subprocess.PIPE, stderr=subprocess.STDOUT, start_new_session=True,
            )

    def end(self):
        """Ends the making, and removes the folder."""
        if self.making.poll() is None:
            os.killpg(self.making.pid, 15)
        self.making.communicate()
        shutil.rmtree(self.folder, ignore_errors=True)

    def root(self):
        """Its folder, or why there is none."""
        if self.making is None:
            raise unittest.SkipTest("a small Debian needs root, and debootstrap of the package debootstrap")
        try:
            said, _ = self.making.communicate(timeout=LONGEST)
        except subprocess.TimeoutExpired:
            raise unittest.SkipTest(f"debootstrap, of the package debootstrap, took longer than {LONGEST} seconds") from None
        if self.making.returncode != 0:
            last = said.decode().strip().split("\n")[-1]
            raise unittest.SkipTest(f"debootstrap, of the package debootstrap, got no Debian from its mirror: {last}")
        return Path(self.folder, "root")


DEBIAN = Debian()


def load_tests(loader, tests, pattern):
    """Begins to make the small Debian when cases are collected, so that it is there when its turn comes."""
    DEBIAN.begin()
    return tests


def libraries_of(path):
    """The shared libraries that a program or a library needs."""
    said = subprocess.run(["ldd", path], stdout=subprocess.PIPE, stderr=subprocess.DEVNULL, text=True).stdout
    return {word for word in said.split() if word.startswith("/") and os.path.isfile(word)}


def bare_root(room):
    """A folder with Python, env, the shell, and the libraries that these and the program need."""
    root = room / "root"
    python, modules = Path(sys._base_executable).resolve(), Path(sysconfig.get_path("stdlib"))
    programs = [python, Path("/usr/bin/env"), Path("/bin/sh").resolve()]
    needed = set().union(*map(libraries_of, [*programs, PROGRAM, *modules.glob("lib-dynload/*.so")]))
    for path in [*programs, *map(Path, needed)]:
        (root / path.relative_to("/")).parent.mkdir(parents=True, exist_ok=True)
        shutil.copy(path, root / path.relative_to("/"))
    shutil.copytree(
        modules, root / modules.relative_to("/"), ignore=shutil.ignore_patterns("test", "site-packages", "dist-packages", "__pycache__"),
    )
    for link, target in (("usr/bin/python3", python), ("bin/sh", Path("/bin/sh").resolve()), ("dev/fd", "/proc/self/fd")):
        (root / link).parent.mkdir(parents=True, exist_ok=True)
        if not (root / link).is_symlink() and not (root / link).exists():
            (root / link).symlink_to(target)
    (root / "dev" / "null").write_text("")
    (root / "dev" / "null").chmod(0o666)
    (root / "proc").mkdir()
    return root


def state(root):
    """All that stands on a machine, but for what apt and the system keep: names, modes, and sizes or ends of links."""
    found = {}
    for top in root.iterdir():
        for path in [] if top.name in ITS_OWN else [top, *top.rglob("*")]:
            kind = os.readlink(path) if path.is_symlink() else path.stat().st_size if path.is_file() else ""
            found[str(path.relative_to(root))] = (path.lstat().st_mode, kind)
    return found


class OnAMachine(WithRoom):
    def setUp(self):
        super().setUp()
        needs_commit(self)

    def run_on(self, root, *words, user=NOBODY, folder="/"):
        """How a command ended on a machine, for a user that isn't root unless it is named."""
        outside, inside = 'mount -t proc proc "$0/proc" && exec chroot "$@"', 'cd "$0" && exec "$@"'
        return subprocess.run(
            ["unshare", "--mount", "sh", "-c", outside, root, f"--userspec={user}:{user}", root, "sh", "-c", inside, folder, *words],
            stdin=subprocess.DEVNULL, capture_output=True, text=True, timeout=PATIENCE,
            env={"PATH": "/usr/local/bin:/usr/sbin:/usr/bin:/sbin:/bin", "DEBIAN_FRONTEND": "noninteractive"},
        )

    def assertWorks(self, root, about):
        """All three commands answer on installed examples, for a user that isn't root, and leave nothing."""
        before = state(root)
        files = ["within_9.formula", "answered.csv"]
        for words, said in (
            (["skewcheck", "demo", "7"], "demo 7\nhosts 6 rows 24\nvalues true\n"),
            (["skewcheck", "audit", *files, "answered_within_9.report"], "accepted\n"),
            (["skewask", "check", *files], "True: G (a.req -> F[0,9] b.ack) is true by every timing that answered.csv admits.\n"),
            (["skewcheck-audit", *files, "answered_within_9.report"], "accepted: false is excluded, true has a timing\n"),
        ):
            done = self.run_on(root, *words, folder=f"/{about}/examples")
            self.assertEqual((done.returncode, done.stdout[: len(said)]), (0, said), done.stderr)
        self.assertEqual(state(root), before)

    def any_root(self):
        """The small Debian, or where there is none the bare folder."""
        if os.geteuid() != 0:
            self.skipTest("another root needs root")
        try:
            return DEBIAN.root()
        except unittest.SkipTest as reason:
            print(f"tests/install: the archive is tried without Debian, since {reason}")
            return bare_root(self.room)

    def test_archive(self):
        root = self.any_root()
        before = state(root)
        self.assertEqual(installed("--dist", self.room / "x.tar").returncode, 0)
        (root / "usr" / "local").mkdir(exist_ok=True)
        with tarfile.open(self.room / "x.tar") as archive:
            archive.extractall(root / "usr" / "local")
        self.assertWorks(root, f"usr/local/{ABOUT}")
        self.assertEqual(installed("--prefix", root / "usr" / "local", "--remove").returncode, 0)
        after = state(root)
        self.assertEqual([name for name in after if name not in before and not (root / name).is_dir()], [])
        self.assertEqual({name: after.get(name) for name in before}, before)

    def package(self, root):
        """The package, where the machine sees it."""
        self.assertEqual(installed("--deb", root / "skewcheck.deb").returncode, 0)
        self.addCleanup((root / "skewcheck.deb").unlink)

    def assertTaken(self, root, put, away):
        """A command puts the package, which works, and another takes it away, after which all is as before."""
        before = state(root)
        done = self.run_on(root, *put, user=0)
        self.assertEqual(done.returncode, 0, done.stdout + done.stderr)
        missing = [name for name in expected() if name.startswith(("bin/", "share/skewcheck/", ABOUT)) and not (root / "usr" / name).is_file()]
        self.assertEqual(missing, [])
        self.assertEqual(self.run_on(root, "dpkg", "--verify", "skewcheck").stdout, "")
        self.assertWorks(root, f"usr/{ABOUT}")
        done = self.run_on(root, *away, user=0)
        self.assertEqual(done.returncode, 0, done.stdout + done.stderr)
        self.assertEqual(state(root), before)
        self.assertNotEqual(self.run_on(root, "dpkg", "-s", "skewcheck").returncode, 0)

    def test_package(self):
        root = DEBIAN.root()
        self.package(root)
        self.assertTaken(root, ["apt-get", "install", "-y", "./skewcheck.deb"], ["apt-get", "remove", "-y", "skewcheck"])
        self.assertTaken(root, ["dpkg", "-i", "/skewcheck.deb"], ["dpkg", "-r", "skewcheck"])


class Package(WithRoom):
    """What is in the package, which needs no other machine."""

    @classmethod
    def setUpClass(cls):
        if not shutil.which("dpkg-deb"):
            raise unittest.SkipTest("there is no dpkg-deb, of the package dpkg, here")
        folder = tempfile.TemporaryDirectory()
        cls.addClassCleanup(folder.cleanup)
        cls.deb = Path(folder.name, "skewcheck.deb")

    def setUp(self):
        super().setUp()
        needs_commit(self)
        if not self.deb.exists():
            done = installed("--deb", self.deb)
            self.assertEqual((done.returncode, done.stdout), (0, f"{self.deb}\n"), done.stderr)

    def field(self, name):
        return subprocess.run(["dpkg-deb", "-f", self.deb, name], stdout=subprocess.PIPE, text=True, check=True).stdout.strip()

    def test_same_bytes(self):
        other = self.room / "other.deb"
        odd = {"SOURCE_DATE_EPOCH": "7", "TZ": "Asia/Tokyo", "LC_ALL": "C.UTF-8", "GZIP": "--rsyncable", "DPKG_DEB_COMPRESSOR_LEVEL": "1"}
        done = installed("--deb", other, "--dist", self.room / "x.tar", **odd)
        self.assertEqual((done.returncode, done.stderr), (0, ""))
        self.assertEqual(other.read_bytes(), self.deb.read_bytes())
        self.assertTrue(tarfile.is_tarfile(self.room / "x.tar"))
        self.assertEqual(tree(self.room), ["other.deb", "x.tar"])

    def test_fields(self):
        self.assertEqual(
            [self.field(name) for name in ("Package", "Architecture", "Maintainer", "Depends", "Suggests")],
            ["skewcheck", "amd64", "Tavgnir <skewcheck@tavgnir.invalid>", "libc6 (>= 2.34), python3 (>= 3.9)", "parallel, jq"],
        )
        self.assertRegex(self.field("Version"), r"^[0-9]+(\.[0-9]+)*(\+git[0-9]{14}\.[0-9a-f]{12}(\+changed)?)?$")
        self.assertGreater(int(self.field("Installed-Size")), Path(PROGRAM).stat().st_size // 1024)

    def test_versions_rise(self):
        """A release has its number, and what comes after it the time of its commit as well: that of the next second is
        greater, whatever its hash, and the next release is greater than all of these."""
        clone = self.room / "clone"
        named = ("git", "-C", clone, "-c", "user.name=n", "-c", "user.email=e")
        for words in (
            ("git", "clone", "-q", "--shared", ROOT, clone),
            (*named, "commit", "-q", "--allow-empty", "-m", "a release"), (*named, "tag", "v7.1"),
        ):
            subprocess.run(words, check=True, capture_output=True)
        made = [self.version_of(clone)]
        for word in ("once", "more"):
            subprocess.run((*named, "commit", "-q", "--allow-empty", "-m", word), check=True, capture_output=True)
            subprocess.run((*named, "tag", f"v7.2-{word}"), check=True, capture_output=True)  # which is no release
            made.append(self.version_of(clone))
        self.assertEqual(made[0], ("7.1", "release 7.1"))
        for version, last in made[1:]:
            self.assertRegex(version, r"^7\.1\+git[0-9]{14}\.[0-9a-f]{12}$")
            self.assertNotIn("release", last)
        later = f"7.1+git{int(made[1][0][7:21]) + 1}.000000000000"
        for less, more in (("0+git20301231235959.ffffffffffff", made[0][0]), (made[0][0], made[1][0]), (made[1][0], later), (later, "7.2")):
            self.assertEqual(subprocess.run(["dpkg", "--compare-versions", less, "lt", more]).returncode, 0, (less, more))

    def version_of(self, clone):
        """The version of the package that a clone makes, and the line behind those of its commit and its kit."""
        deb = self.room / "clone.deb"
        done = subprocess.run([clone / "install", "--deb", deb], capture_output=True, text=True, env={**os.environ, "SKEWCHECK": PROGRAM})
        self.assertEqual(done.returncode, 0, done.stderr)
        subprocess.run(["dpkg-deb", "-x", deb, self.room / "taken"], check=True)
        lines = (self.room / "taken" / "usr" / ABOUT / "version").read_text().splitlines()
        version = subprocess.run(["dpkg-deb", "-f", deb, "Version"], stdout=subprocess.PIPE, text=True, check=True).stdout.strip()
        return version, lines[2]

    def test_files(self):
        other = self.room / "other"
        subprocess.run(["dpkg-deb", "-x", self.deb, other], check=True)
        subprocess.run(["dpkg-deb", "-e", self.deb, self.room / "control"], check=True)
        sums = subprocess.run(["md5sum", "--quiet", "-c", self.room / "control" / "md5sums"], cwd=other, capture_output=True)
        self.assertEqual((sums.returncode, sums.stdout), (0, b""))
        listed = sorted(line.split("  ")[1] for line in (self.room / "control" / "md5sums").read_text().splitlines())
        self.assertEqual(listed, [name for name in tree(other) if (other / name).is_file()])
        self.assertEqual(sorted(os.listdir(self.room / "control")), ["control", "md5sums"])
        for name in ("skewcheck", "skewask", "skewcheck-audit"):
            packed = other / "usr" / "share" / "man" / "man1" / f"{name}.1.gz"
            self.assertEqual(packed.read_bytes()[3:8], bytes(5), "neither a name nor a time is in it")
        for name in ("skewask", "skewcheck-audit"):
            self.assertTrue((other / "usr" / "bin" / name).read_text().startswith("#!/usr/bin/python3\n"))
        for name in ("copyright", "changelog.gz", "version", "README.md", "docs/usage.md", "examples/lease.csv"):
            self.assertTrue((other / "usr" / ABOUT / name).is_file(), name)
        self.assertTrue((other / "usr" / "share" / "zsh" / "vendor-completions" / "_skewcheck").is_file())

    def test_owners_and_modes(self):
        said = subprocess.run(["dpkg-deb", "-c", self.deb], stdout=subprocess.PIPE, text=True, check=True).stdout
        self.assertEqual({tuple(line.split()[:2]) for line in said.splitlines()}, {
            ("drwxr-xr-x", "root/root"), ("-rw-r--r--", "root/root"), ("-rwxr-xr-x", "root/root"),
        })


if __name__ == "__main__":
    unittest.main()
