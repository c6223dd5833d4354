"""Installing where others can write, where something fails on the way, and by names that are more than names."""

import os
import re
import shutil
import subprocess
import tarfile
import unittest
from pathlib import Path

from common import ABOUT, COMMANDS, LIST, PARTS, PROGRAM, ROOT, WithRoom, as_nobody, contents, expected, installed, names_origin, needs_commit, template, tree

PAGE = os.sysconf("SC_PAGE_SIZE")  # of whole ones a file of a small device takes


class Names(WithRoom):
    def test_prefixes_that_are_no_names(self):
        self.assertRefused(["--prefix", f"{self.room}/a\nb"], 64, "control bytes")
        self.assertRefused(["--prefix", f"{self.room}/a\x1b[31m"], 64, "control bytes")
        self.assertRefused(["--prefix", f"{self.room}/a\x7f", "--remove"], 64, "control bytes")
        self.assertRefused(["--prefix", ""], 64, "--prefix wants a name")
        self.assertRefused(["--prefix="], 64, "--prefix wants a name")
        self.assertRefused(["--prefix", "--remove"], 64, "--prefix wants a name")

    def test_home(self):
        without = {name: value for name, value in os.environ.items() if name != "HOME"}
        done = subprocess.run([ROOT / "install"], env=without, capture_output=True, text=True)
        self.assertEqual((done.returncode, done.stdout), (64, ""))
        self.assertEqual(done.stderr, "install: there is no HOME, so --prefix has to be named\n")
        self.assertRefused([], 64, "there is no HOME", HOME="")
        self.assertRefused([], 64, "control bytes", HOME=f"{self.room}/a\tb")

    def test_relative_prefix(self):
        (self.room / "a").mkdir()
        self.assertEqual(installed("--prefix", "../b", cwd=self.room / "a").returncode, 0)
        self.assertEqual([name for name in expected() if not (self.room / "b" / name).is_file()], [])
        self.assertEqual(installed("--prefix=b/../b/.", "--remove", cwd=self.room).returncode, 0)
        self.assertEqual(tree(self.room), ["a"])

    def test_a_folder_that_is_gone(self):
        script = 'mkdir "$1/gone" && cd "$1/gone" && rmdir "$1/gone" && exec "$2" --prefix here'
        done = subprocess.run(["bash", "-c", script, "bash", self.room, ROOT / "install"], capture_output=True, text=True)
        self.assertEqual((done.returncode, done.stdout), (64, ""))
        self.assertEqual(done.stderr.splitlines()[-1], "install: no whole name of the prefix can be had")

    def test_names_that_begin_with_a_dash(self):
        self.assertEqual(installed("--prefix", "-p", cwd=self.room).returncode, 0)
        self.assertTrue((self.room / "-p" / "bin" / "skewcheck").is_file())
        self.assertEqual(installed("--prefix", "-p", "--remove", cwd=self.room).returncode, 0)
        self.assertEqual(tree(self.room), [])

    def test_blanks_and_stars(self):
        odd = self.room / "a  b * $(touch c) 'd' \"e\" \\f ü & %s ]"
        self.assertEqual(installed("--prefix", odd).returncode, 0)
        self.assertEqual(sorted(name for name in tree(odd) if (odd / name).is_file()), sorted([*expected(), LIST, f"{ABOUT}/made"]))
        self.assertEqual(installed("--prefix", odd, "--remove").returncode, 0)
        self.assertEqual(tree(self.room), [])


class NamesOfPackages(WithRoom):
    def setUp(self):
        super().setUp()
        needs_commit(self)

    def test_names_that_tools_could_misread(self):
        for name in ("host:x.tar", "-rf", ".a b*"):
            done = installed("--dist", name, cwd=self.room)
            self.assertEqual((done.returncode, done.stdout), (0, f"{self.room}/{name}\n"), done.stderr)
            with tarfile.open(self.room / name) as archive:
                self.assertIn("bin/skewcheck", archive.getnames())
        self.assertEqual(tree(self.room), sorted(["host:x.tar", "-rf", ".a b*"]))

    def test_names_that_are_none(self):
        self.assertRefused(["--dist", "-"], 64, "- is no name of a file")
        self.assertRefused(["--dist", f"{self.room}/x/"], 64, "is no name of a file")
        self.assertRefused(["--deb", ""], 64, "--deb wants a name")
        self.assertRefused(["--deb"], 64, "--deb wants a name")
        self.assertRefused(["--dist", "--deb", self.room / "x.deb"], 64, "--dist wants a name")
        self.assertRefused(["--dist", f"{self.room}/a\nb"], 64, "control bytes")
        self.assertRefused(["--dist", self.room / "x", "--deb", f"{self.room}/./x"], 64, "name one file")
        self.assertRefused(["--deb", self.room / "x.deb", "--prefix", self.prefix], 64, "stands alone")

    def test_places_that_take_no_file(self):
        (self.room / "folder").mkdir()
        os.mkfifo(self.room / "pipe")
        for name in ("folder", "pipe", "nowhere/x.tar", ".."):
            self.assertRefused(["--dist", self.room / name], 73, "can't be written")
        self.assertRefused(["--dist", "/dev/null"], 73, "/dev/null can't be written")

    def test_at_the_top(self):
        place = Path(f"/.skewcheck-test-{os.getpid()}.tar")
        if not os.access("/", os.W_OK):
            self.skipTest("only root writes into the folder at the top")
        self.addCleanup(place.unlink, missing_ok=True)
        done = installed("--dist", place)
        self.assertEqual((done.returncode, done.stdout, done.stderr), (0, f"{place}\n", ""))
        self.assertTrue(tarfile.is_tarfile(place))
        self.assertEqual([name for name in os.listdir("/") if name.startswith(".skewcheck.")], [])

    def test_a_link_is_replaced_and_not_followed(self):
        (self.room / "precious").write_text("kept")
        (self.room / "x.tar").symlink_to("precious")
        self.assertEqual(installed("--dist", self.room / "x.tar").returncode, 0)
        self.assertEqual((self.room / "precious").read_text(), "kept")
        self.assertTrue(tarfile.is_tarfile(self.room / "x.tar") and not (self.room / "x.tar").is_symlink())
        self.assertEqual(tree(self.room), ["precious", "x.tar"])

    def test_no_dpkg(self):
        tools = self.room / "tools"
        tools.mkdir()
        for folder in os.environ["PATH"].split(":"):
            for name in os.listdir(folder) if os.path.isdir(folder) else ():
                if name != "dpkg-deb" and not (tools / name).is_symlink():
                    (tools / name).symlink_to(os.path.join(folder, name))
        self.assertRefused(["--deb", self.room / "x.deb"], 72, "which the package dpkg has", PATH=str(tools))


class Planted(WithRoom):
    def setUp(self):
        super().setUp()
        self.precious = self.room / "precious"
        self.precious.write_text("kept")

    def assertPut(self):
        """All is there and as it should be, and nothing but this."""
        self.assertEqual((self.prefix / "bin" / "skewcheck").read_bytes(), Path(PROGRAM).read_bytes())
        self.assertEqual([name for name in expected() if (self.prefix / name).is_symlink()], [])
        self.assertEqual(self.precious.read_text(), "kept")
        sums = subprocess.run(["sha256sum", "--quiet", "-c", LIST], cwd=self.prefix, capture_output=True)
        self.assertEqual((sums.returncode, sums.stdout), (0, b""))

    def test_links_beside_the_files(self):
        (self.prefix / "bin").mkdir(parents=True)
        for name in ("skewcheck.new", "skewask.new", ".skewcheck"):
            (self.prefix / "bin" / name).symlink_to(self.precious)
        self.put()
        self.assertPut()

    def test_links_in_place_of_the_files(self):
        for name in [*COMMANDS, LIST, f"{ABOUT}/made", f"{PARTS}/ask/main.py"]:
            (self.prefix / name).parent.mkdir(parents=True, exist_ok=True)
            (self.prefix / name).symlink_to(self.precious)
        self.put()
        self.assertPut()

    def test_a_link_to_a_folder_in_place_of_a_file(self):
        (self.room / "elsewhere").mkdir()
        (self.prefix / "bin").mkdir(parents=True)
        (self.prefix / "bin" / "skewask").symlink_to(self.room / "elsewhere")
        self.put()
        self.assertPut()
        self.assertEqual(tree(self.room / "elsewhere"), [])

    def test_another_users_link_in_place_of_a_folder(self):
        before = as_nobody(self)
        self.room.chmod(0o755)
        self.prefix.mkdir()
        self.prefix.chmod(0o777)
        (self.room / "elsewhere").mkdir()
        subprocess.run([*before, "ln", "-s", self.room / "elsewhere", self.prefix / "share"], check=True)
        self.assertRefused(["--prefix", self.prefix], 73, "share is a link that another user made")

    def test_own_link_in_place_of_a_folder(self):
        (self.room / "elsewhere").mkdir()
        self.prefix.mkdir()
        (self.prefix / "share").symlink_to(self.room / "elsewhere")
        self.put()
        self.assertPut()
        put = contents(self.room / "elsewhere")
        done = installed("--prefix", self.prefix, "--remove")
        self.assertEqual(done.returncode, 0)
        self.assertIn("leads out of the prefix, so what was put there stays", done.stderr)
        self.assertEqual((contents(self.room / "elsewhere"), tree(self.prefix)), (put, ["share"]))

    def test_a_link_that_stays_inside(self):
        (self.prefix / "local" / "man").mkdir(parents=True)
        (self.prefix / "share").mkdir()
        (self.prefix / "share" / "man").symlink_to("../local/man")
        before = tree(self.prefix)
        self.put()
        self.assertTrue((self.prefix / "local" / "man" / "man1" / "skewask.1").is_file())
        self.assertEqual(installed("--prefix", self.prefix, "--remove").returncode, 0)
        self.assertEqual([name for name in tree(self.prefix) if name not in [*before, "local/man/man1"]], [])


class ForgedLists(WithRoom):
    """What is removed when what the lists name was never put."""

    def setUp(self):
        super().setUp()
        self.put()
        for name in ("outside", "outside/empty", "prefix/mine", "prefix/share/others"):
            (self.room / name).mkdir()
        (self.room / "outside" / "file").write_text("kept")
        (self.prefix / "bin" / "other").write_text("kept")
        (self.prefix / "into").symlink_to(self.room / "outside")

    def remove(self):
        """Takes away what install put, after which all else is there."""
        done = installed("--prefix", self.prefix, "--remove")
        self.assertEqual(done.returncode, 0, done.stderr)
        self.assertEqual(
            tree(self.room), ["outside", "outside/empty", "outside/file", "prefix", "prefix/bin", "prefix/bin/other",
                              "prefix/into", "prefix/mine", "prefix/share", "prefix/share/others"],
        )
        return done

    def test_folders(self):
        with open(self.prefix / ABOUT / "made", "a") as made:
            for name in (
                f"{self.room}/outside/empty", f"{self.prefix}/../outside/empty", f"{self.prefix}/into/empty", "outside/empty",
                "../outside/empty", f"{self.prefix}/mine", f"{self.prefix}/share/others", f"{self.prefix}/bin/../../outside/empty",
                "", "/", ".", "-p", "*", f"{self.prefix}//mine", f"{self.room}",
            ):
                made.write(name + "\n")
        self.remove()

    def test_files(self):
        """The sums are right, but the names aren't those that install puts."""
        done = subprocess.run(["sha256sum"], input=b"kept", stdout=subprocess.PIPE, check=True)
        kept = done.stdout.decode().split()[0]
        with open(self.prefix / LIST, "a") as listed:
            for name in (
                f"{self.room}/outside/file", "../outside/file", "bin/../../outside/file", "into/file", "bin/other",
                f"{ABOUT}/../../../../outside/file", "/etc/hostname", "", "share/skewcheck/../../bin/other",
            ):
                listed.write(f"{kept}  {name}\n")
            listed.write("no line of a list\n")
        self.remove()

    def test_a_link_in_the_path(self):
        shutil.rmtree(self.prefix / PARTS)
        (self.room / "outside" / "ask").mkdir()
        shutil.copy(ROOT / "ask" / "__init__.py", self.room / "outside" / "ask" / "__init__.py")
        (self.prefix / PARTS).symlink_to(self.room / "outside")
        done = installed("--prefix", self.prefix, "--remove")
        self.assertEqual(done.returncode, 0)
        self.assertIn("leads out of the prefix", done.stderr)
        self.assertTrue((self.room / "outside" / "ask" / "__init__.py").is_file())
        self.assertEqual((self.room / "outside" / "file").read_text(), "kept")


class Removing(WithRoom):
    def test_files_of_an_older_version(self):
        """What an older list names goes, by --remove and when a newer version is put."""
        for again in (False, True):
            self.put()
            old = self.prefix / PARTS / "old" / "module.py"
            old.parent.mkdir()
            old.write_text("was put\n")
            with open(self.prefix / LIST, "a") as listed:
                listed.write(subprocess.run(
                    ["sha256sum", f"{PARTS}/old/module.py"], cwd=self.prefix, stdout=subprocess.PIPE, text=True, check=True,
                ).stdout)
            if again:
                self.put()
                self.assertFalse(old.exists())
            self.assertEqual(installed("--prefix", self.prefix, "--remove").returncode, 0)
            self.assertEqual(tree(self.room), [])

    def test_what_was_put_before_there_were_lists(self):
        folders = ["", "bin", "share", "share/man", "share/man/man1", "share/doc", ABOUT]
        for folder in folders:
            (self.prefix / folder).mkdir(exist_ok=True)
        for name in ("bin/skewcheck", "share/man/man1/skewcheck.1"):
            (self.prefix / name).write_text("older")
        (self.prefix / "bin" / "skewask").write_text("somebody's own")
        (self.prefix / ABOUT / "made").write_text("".join(f"{self.prefix}/{folder}\n" for folder in folders[1:]))
        self.assertEqual(installed("--prefix", self.prefix, "--remove").returncode, 0)
        self.assertEqual(tree(self.room), ["prefix", "prefix/bin", "prefix/bin/skewask"])

    def test_changed_and_added_files_stay(self):
        self.put()
        (self.prefix / ABOUT / "examples" / "lease.csv").write_text("my own log\n")
        (self.prefix / ABOUT / "notes").write_text("mine\n")
        done = installed("--prefix", self.prefix, "--remove")
        self.assertEqual(done.returncode, 0)
        self.assertEqual(done.stderr, f"install: {self.prefix}/{ABOUT}/examples/lease.csv was changed since it was put there, and stays\n")
        files = [name for name in tree(self.prefix) if (self.prefix / name).is_file()]
        self.assertEqual(files, [f"{ABOUT}/examples/lease.csv", f"{ABOUT}/notes"])

    def test_a_folder_that_can_not_be_changed(self):
        before = as_nobody(self)
        self.room.chmod(0o755)
        self.put()
        self.assertRefused(["--prefix", self.prefix, "--remove"], 73, "can't be changed", before=before)

    def test_files_that_can_not_be_removed(self):
        """They stay with their list, so that they can be removed later."""
        before = as_nobody(self)
        self.room.chmod(0o755)
        self.put()
        for folder in (self.prefix, *(path for path in self.prefix.rglob("*") if path.is_dir())):
            folder.chmod(0o1777)
        self.assertRefused(["--prefix", self.prefix, "--remove"], 73, "can't be removed", before=before)
        self.assertEqual(installed("--prefix", self.prefix, "--remove").returncode, 0)
        self.assertEqual(tree(self.room), [])

    def with_tool(self, name, what):
        """How a run of --remove ended in which each call of a tool does something else first, in a group of its own."""
        tools = self.room / "tools"
        tools.mkdir(exist_ok=True)
        (tools / name).write_text(f"#!/bin/bash\n{what}\nexec {shutil.which(name)} \"$@\"\n")
        (tools / name).chmod(0o755)
        done = subprocess.run(
            [ROOT / "install", "--prefix", self.prefix, "--remove"], capture_output=True, text=True, start_new_session=True,
            env={**os.environ, "PATH": f"{tools}:{os.environ['PATH']}"},
        )
        shutil.rmtree(tools)
        return done

    def test_signals(self):
        """An interrupt of a terminal, which is for all processes, comes before the first removal, or changes nothing."""
        self.put()
        before = contents(self.room)
        done = self.with_tool("sha256sum", "kill -INT 0")
        self.assertEqual((done.returncode, done.stdout), (130, ""))
        self.assertEqual(done.stderr, "install: interrupted, and nothing was changed\n")
        self.assertEqual(contents(self.room), before)
        done = self.with_tool("rm", "kill -INT 0")
        self.assertEqual((done.returncode, done.stderr, tree(self.room)), (0, "", []))

    def test_files_that_can_not_be_read(self):
        """Whether they were changed can't be told, and all stays."""
        self.put()
        before = contents(self.room)
        done = self.with_tool("sha256sum", "exit 1")
        self.assertEqual((done.returncode, done.stdout, len(done.stderr.splitlines())), (73, "", 1))
        self.assertIn("can't be read", done.stderr)
        self.assertEqual(contents(self.room), before)


class Failing(WithRoom):
    """Runs that fail or are interrupted on the way, after which all is as before."""

    def setUp(self):
        super().setUp()
        self.tools = self.room / "tools"
        self.tools.mkdir()

    def tool(self, name, place, what):
        """Has the call of a tool with that number, from 0, do something else first."""
        (self.tools / name).write_text(f"""#!/bin/bash
calls=$(cat '{self.tools}/{name}.calls' 2>/dev/null || echo 0)
echo $((calls + 1)) >'{self.tools}/{name}.calls'
if [ "$calls" = {place} ]; then {what}; fi
exec {shutil.which(name)} "$@"
""")
        (self.tools / name).chmod(0o755)

    def calls(self):
        """How often a whole run calls each tool."""
        for name in ("cp", "mv"):
            self.tool(name, "none", ":")
        self.assertEqual(self.run_with_tools().returncode, 0)
        shutil.rmtree(self.prefix)
        return {name: int((self.tools / f"{name}.calls").read_text()) for name in ("cp", "mv")}

    def run_with_tools(self):
        return installed("--prefix", self.prefix, PATH=f"{self.tools}:{os.environ['PATH']}")

    def put_older(self):
        """Has another version below the prefix, which lacks a file and has a link in place of one."""
        shutil.copytree(template(), self.prefix)
        (self.prefix / "bin" / "skewcheck").write_text("older")
        (self.prefix / "bin" / "skewask").unlink()
        (self.prefix / "share" / "man" / "man1" / "skewcheck.1").unlink()
        (self.prefix / "share" / "man" / "man1" / "skewcheck.1").symlink_to("older.1")

    def assertTakenBack(self, tool, place, what, status, said, is_older_there):
        """After a run that fails the prefix is as it was: not there, or with the older version."""
        with self.subTest(tool=tool, place=place, is_older_there=is_older_there):
            if is_older_there:
                self.put_older()
            before = contents(self.prefix)
            self.tool(tool, place, what)
            (self.tools / f"{tool}.calls").unlink(missing_ok=True)
            done = self.run_with_tools()
            (self.tools / tool).unlink()
            self.assertEqual((done.returncode, done.stdout), (status, ""), done.stderr)
            self.assertRegex(done.stderr, f"^install: .*{said}\n$")
            self.assertEqual((contents(self.prefix), self.prefix.exists()), (before, is_older_there))
        shutil.rmtree(self.prefix, ignore_errors=True)

    def test_signals(self):
        """While files are copied, kept and moved, on nothing and on an older version."""
        calls = self.calls()
        for tool, place, signal, status, is_older_there in (
            ("cp", 0, "TERM", 143, False), ("cp", calls["cp"] - 1, "INT", 130, True), ("mkdir", 9, "HUP", 129, False),
            ("ln", 3, "TERM", 143, True), ("mv", calls["mv"] // 2, "TERM", 143, False), ("mv", calls["mv"] - 1, "QUIT", 131, True),
        ):
            said = "interrupted, and nothing was changed"
            self.assertTakenBack(tool, place, f"kill -{signal} $PPID", status, said, is_older_there)

    def test_a_tool_that_fails(self):
        calls = self.calls()
        for tool, place, is_older_there in (
            ("cp", calls["cp"] - 1, False), ("mv", calls["mv"] // 2, True), ("mv", calls["mv"] - 1, False), ("mkdir", 9, False),
        ):
            self.assertTakenBack(tool, place, "exit 1", 73, "can't be (written|made).*", is_older_there)

    def later_calls(self, tool, place, what, later):
        """Has the call of a tool with that number do something else first, and each later one something else too."""
        self.tool(tool, place, f'{what}; elif [ "$calls" -gt {place} ]; then {later}')
        (self.tools / f"{tool}.calls").unlink(missing_ok=True)

    def test_a_second_signal(self):
        """An interrupt of a terminal is for all processes, and those that put files back go on."""
        calls = self.calls()
        self.put_older()
        before = contents(self.prefix)
        self.later_calls("mv", calls["mv"] - 1, "kill -INT $PPID", "kill -INT $PPID $$")
        done = self.run_with_tools()
        self.assertEqual((done.returncode, done.stdout), (130, ""))
        self.assertEqual(done.stderr, "install: interrupted, and nothing was changed\n")
        self.assertEqual(contents(self.prefix), before)

    def test_what_can_not_be_put_back_is_kept(self):
        calls = self.calls()
        self.put_older()
        before = contents(self.prefix)
        self.later_calls("mv", calls["mv"] - 1, "kill -TERM $PPID", "exit 1")
        done = self.run_with_tools()
        self.assertEqual((done.returncode, done.stdout), (143, ""))
        told = re.findall(r"^install: (.*) can't be put back, and is kept as (.*)$", done.stderr, re.M)
        self.assertEqual(len(told), len(done.stderr.splitlines()) - 1)
        for name, kept in told:
            shutil.move(kept, name)
        self.assertIn(str(self.prefix / "bin" / "skewcheck"), dict(told))
        after = contents(self.prefix)
        self.assertEqual({name: after[name] for name in before}, before)

    def test_no_links_between_files(self):
        """Where the system has no second links to a file, older ones are kept as copies."""
        self.put_older()
        self.tool("ln", 0, "exit 1")
        self.assertEqual(self.run_with_tools().returncode, 0)
        self.assertEqual((self.prefix / "bin" / "skewcheck").read_bytes(), Path(PROGRAM).read_bytes())
        self.assertEqual([name for name in tree(self.prefix) if ".skewcheck." in name], [])

    def device(self, share):
        """A folder that takes a share of what is put, in tenths."""
        if os.geteuid() != 0:
            self.skipTest("a small device needs root")
        device = self.room / f"device {share}"
        device.mkdir()
        pages = sum(-(-path.stat().st_size // PAGE) for path in template().rglob("*"))
        size = pages * PAGE * share // 10
        if subprocess.run(["mount", "-t", "tmpfs", "-o", f"size={size}", "tmpfs", device], capture_output=True).returncode != 0:
            self.skipTest("a small device can't be mounted here")
        self.addCleanup(subprocess.run, ["umount", device])
        return device

    def test_no_room_for_temporary_files(self):
        """One line says so, whatever couldn't be made."""
        small, larger = self.device(2), self.device(14)
        self.assertRefused(["--prefix", self.prefix], 73, "the files can't be made in", TMPDIR=str(small))
        if not names_origin():
            return
        self.assertRefused(["--dist", self.room / "x.tar"], 73, "the files can't be made in", TMPDIR=str(small))
        self.assertRefused(["--dist", self.room / "x.tar"], 73, "no archive can be made in", TMPDIR=str(larger))
        self.assertRefused(["--dist", self.room / "x.tar", "--deb", self.room / "x.deb"], 73, "can be made in", TMPDIR=str(larger))

    def test_a_full_device(self):
        device = self.device(7)
        (device / "bin").mkdir()
        (device / "bin" / "skewcheck").write_text("older")
        self.assertRefused(["--prefix", device], 73, "can't be written")

    def test_a_folder_of_another_user(self):
        before = as_nobody(self)
        self.room.chmod(0o755)
        self.prefix.mkdir()
        os.chown(self.prefix, 65534, 65534)
        (self.prefix / "share").mkdir()
        (self.prefix / "share" / "zsh").mkdir()
        os.chown(self.prefix / "share", 65534, 65534)
        self.assertRefused(["--prefix", self.prefix], 73, "share/zsh/site-functions/_skewcheck can't be written", before=before)

    def test_folders_for_temporary_files(self):
        self.assertRefused(["--prefix", self.prefix], 73, "no temporary folder can be made", TMPDIR=f"{self.room}/nowhere")
        before = as_nobody(self)
        self.room.chmod(0o755)
        (self.room / "closed").mkdir(mode=0o755)
        self.assertRefused(
            ["--prefix", self.prefix], 73, "no temporary folder can be made", before=before, TMPDIR=f"{self.room}/closed",
        )

    def test_odd_surroundings(self):
        """Nothing of the environment is needed but a path, and what is in it changes nothing."""
        words = [ROOT / "install", "--prefix", self.prefix]
        odd = {
            "PATH": "/usr/bin:/bin", "SKEWCHECK": PROGRAM, "GIT_DIR": "/nowhere", "CDPATH": "/", "TAR_OPTIONS": "--help",
            "POSIXLY_CORRECT": "1", "IFS": "/",
        }
        done = subprocess.run(words, env=odd, capture_output=True, text=True, preexec_fn=lambda: os.umask(0o777))
        self.assertEqual((done.returncode, done.stderr), (0, ""))
        modes = {oct((self.prefix / name).stat().st_mode & 0o7777) for name in tree(self.prefix) if (self.prefix / name).is_dir()}
        self.assertEqual(modes, {"0o755"})
        names = {*expected(), LIST, f"{ABOUT}/made"} - {f"{ABOUT}/version"}  # there is no rt in this path
        modes = {name: (self.prefix / name).stat().st_mode & 0o7777 for name in names}
        runs = [*COMMANDS, f"{ABOUT}/examples/many_logs.py"]
        self.assertEqual({name for name, mode in modes.items() if mode == 0o755}, set(runs))
        self.assertEqual({mode for name, mode in modes.items() if name not in runs}, {0o644})

    def test_a_closed_output(self):
        """Nobody has to read the names, and streams may be closed."""
        for words, script in (([], 'exec "$@" >&-'), (["--remove"], 'exec "$@" <&- >&- 2>&-')):
            done = subprocess.run(["bash", "-c", script, "bash", ROOT / "install", "--prefix", self.prefix, *words], capture_output=True)
            self.assertEqual((done.returncode, done.stderr), (0, b""))
        self.assertFalse(self.prefix.exists())

    def test_missing_tools(self):
        (self.tools / "bash").symlink_to(shutil.which("bash"))
        (self.tools / "env").symlink_to(shutil.which("env"))
        self.assertRefused(["--prefix", self.prefix], 72, "isn't there", PATH=str(self.tools))


if __name__ == "__main__":
    unittest.main()
