"""./skewcheck in a small repository of its own, with a command that stands in for rt."""

import os
import pty
import re
import shutil
import signal
import subprocess
import time
import unittest

from room import PATIENCE, ROOT, WithRoom

# Proves the crates of the folder that it is run in: a line each, with other lines before. It has KEEPS where the kit keeps
# proofs, FAILS where a crate isn't proved, and WAITS where it goes on until it is ended. As rt it takes no names of crates
# in continuous integration.
RT = """\
#!/bin/bash
case $1 in
  help) [ -z "$KEEPS" ] || echo '  rt ci NAME..   the same for these crates' ; exit ;;
  ci) shift; [ -z "$1" ] || [ "$CI" != true ] || exit 2 ;;
  *) exit 2 ;;
esac
echo "$*" >>"$CALLS"
touch "$TMPDIR/rt-left"
for name in $(sed 's/:.*//' crates.txt); do
  echo "== $name"
  echo "fn $name::first: proved"
  if [ "$name" = "$FAILS" ]; then
    echo "fn $name::second: not proved"
    echo "rt: $name NOT PROVED"
    exit 1
  fi
  echo "rt: $name proved"
done
[ -z "$WAITS" ] || exec sleep 60
mkdir -p crates/skewcheck/out
printf '#!/bin/sh\\necho "asked $*"\\nexit 3\\n' >crates/skewcheck/out/skewcheck
chmod +x crates/skewcheck/out/skewcheck
"""


class WithRepository(WithRoom):
    def setUp(self):
        super().setUp()
        shutil.copy(ROOT / "skewcheck", self.top)
        (self.top / "HANDLES").write_text("Handles allowed: none.\n")
        (self.top / "crates.txt").write_text("# lower ones first\nlow:\nhigh: low\nskewcheck: high csv\nbeside: low\n")
        for name in ("low", "high", "skewcheck", "beside"):
            (self.top / "crates" / name / "src").mkdir(parents=True)
            (self.top / "crates" / name / "src" / "lib.rt").write_text("")
        (self.room / "bin" / "rt").write_text(RT)
        (self.room / "bin" / "rt").chmod(0o755)

    def asked(self, *words, **environment):
        """How a run of ./skewcheck ended."""
        return subprocess.run(
            [self.top / "skewcheck", *words], stdin=subprocess.DEVNULL, capture_output=True, text=True, timeout=PATIENCE,
            env={**self.environment, **environment},
        )

    def calls(self):
        """What rt was called with."""
        return sorted((self.room / "calls").read_text().split("\n")[:-1])

    def assertNothingLeft(self):
        self.assertEqual(os.listdir(self.tmp), [])
        built = self.top / "crates" / "skewcheck" / "out"
        self.assertEqual(os.listdir(built) if built.exists() else [], [])


class Building(WithRepository):
    def test_answer_comes_at_the_end_of_the_build(self):
        done = self.asked("demo", "7")
        self.assertEqual((done.returncode, done.stdout), (3, "asked demo 7\n"), done.stderr)
        self.assertEqual(os.listdir(self.tmp), [])
        self.assertEqual(self.calls(), [""])

    def test_a_line_a_crate(self):
        said = self.asked("demo", "7").stderr.splitlines()
        lines = [line for line in said if "is proved, " in line]
        self.assertEqual([line.split(", ")[1] for line in lines], ["1 of 3", "2 of 3", "3 of 3"])
        self.assertEqual({line.split()[1] for line in lines}, {"low", "high", "skewcheck"})
        self.assertTrue(all(re.fullmatch(r"skewcheck: \w+ is proved, \d of 3, 0 min", line) for line in lines), lines)
        self.assertNotIn("first", "".join(said))

    def test_once(self):
        self.asked("demo", "7")
        done = self.asked("times", "-")
        self.assertEqual((done.returncode, done.stdout, done.stderr), (3, "asked times -\n", ""))
        self.assertEqual(self.calls(), [""])

    def test_again_after_a_change(self):
        self.asked("demo", "7")
        later = time.time() + 5
        os.utime(self.top / "crates" / "beside" / "src" / "lib.rt", (later, later))
        self.assertEqual(self.asked("demo", "7").stderr, "")
        os.utime(self.top / "crates" / "low" / "src" / "lib.rt", (later, later))
        self.assertIn("is proved", self.asked("demo", "7").stderr)
        self.assertEqual(self.calls(), ["", ""])

    def test_some_crates_have_a_run_of_their_own_where_proofs_are_kept(self):
        done = self.asked("demo", "7", KEEPS="1")
        self.assertEqual((done.returncode, done.stdout), (3, "asked demo 7\n"), done.stderr)
        self.assertEqual(self.calls(), ["", "formula_arena", "mt_port analyze"])
        self.assertEqual(sum("is proved, " in line for line in done.stderr.splitlines()), 3)

    def test_in_continuous_integration(self):
        done = self.asked("demo", "7", KEEPS="1", CI="true")
        self.assertEqual((done.returncode, done.stdout), (3, "asked demo 7\n"), done.stderr)

    def test_a_terminal_has_one_line(self):
        ours, theirs = pty.openpty()
        process = subprocess.Popen(
            [self.top / "skewcheck", "demo", "7"], stdin=subprocess.DEVNULL, stdout=subprocess.PIPE, stderr=theirs,
            env={**self.environment, "WAITS": "1"},
        )
        os.close(theirs)
        said = b""
        while b"3 of 3 crates proved" not in said:
            said += os.read(ours, 4096)
        process.send_signal(signal.SIGINT)
        process.communicate(timeout=PATIENCE)
        os.close(ours)
        self.assertEqual(process.returncode, 130)
        self.assertRegex(said.decode(), r"\r\x1b\[Kskewcheck: 3 of 3 crates proved, 0 min")
        self.assertNothingLeft()


    def test_what_shows_how_far_it_is_ends_with_it(self):
        """Also where it is killed, which it can't foresee."""
        process = subprocess.Popen(
            [self.top / "skewcheck", "demo", "7"], stdin=subprocess.DEVNULL, stdout=subprocess.DEVNULL, stderr=subprocess.PIPE, text=True,
            env={**self.environment, "WAITS": "1"}, start_new_session=True,
        )
        for line in process.stderr:
            if "3 of 3" in line:
                break
        process.kill()
        process.wait(PATIENCE)
        try:
            self.assertEqual(process.communicate(timeout=PATIENCE), (None, ""))  # which comes once nobody else has the stream
        finally:
            os.killpg(process.pid, signal.SIGKILL)


class Trouble(WithRepository):
    def test_a_crate_that_is_not_proved(self):
        done = self.asked("demo", "7", FAILS="high")
        self.assertEqual((done.returncode, done.stdout), (72, ""))
        self.assertIn("fn high::second: not proved\nrt: high NOT PROVED\n", done.stderr)
        self.assertNotIn("fn low::first", done.stderr)
        self.assertEqual(done.stderr.splitlines()[-1], "skewcheck: the program could not be proved and built")
        self.assertNothingLeft()

    def test_no_rt(self):
        (self.room / "bin" / "rt").unlink()
        bare = self.room / "bare"
        bare.mkdir()
        for name in ("bash", "awk", "sed", "find", "readlink", "dirname", "env"):
            (bare / name).symlink_to(shutil.which(name))
        done = self.asked("demo", "7", PATH=str(bare))
        self.assertEqual((done.returncode, done.stdout), (72, ""))
        self.assertIn("the Rattle kit's command rt isn't there", done.stderr)
        self.assertNothingLeft()
        self.environment["PATH"] = str(bare)
        self.put_older()
        self.assertIn("skewcheck: the program isn't built, or is older than a source, and the Rattle", self.asked("demo", "7").stderr)

    def put_older(self):
        """A program that was built before a source was changed."""
        out = self.top / "crates" / "skewcheck" / "out"
        out.mkdir(exist_ok=True)
        for name in ("skewcheck", "built"):
            (out / name).write_text("#!/bin/sh\necho older\n")
            (out / name).chmod(0o755)
            os.utime(out / name, (0, 0))

    def test_a_folder_that_takes_no_program(self):
        """That is said before half an hour of proving."""
        out = self.top / "crates" / "skewcheck" / "out"
        out.write_text("")
        done = self.asked("demo", "7")
        self.assertEqual((done.returncode, done.stdout, out.read_text()), (72, "", ""))
        self.assertIn(f"skewcheck: the program can't be put into {out}, which can't be written\n", done.stderr)
        self.assertFalse((self.room / "calls").exists())

    def test_a_program_that_a_later_run_put_there_stays(self):
        out = self.top / "crates" / "skewcheck" / "out"
        self.put_older()
        later = f"echo 'echo later' >'{out}/skewcheck'; touch -d '1 hour' '{out}/built'\n"
        (self.room / "bin" / "rt").write_text(RT + later)
        done = self.asked("demo", "7")
        self.assertEqual((done.returncode, done.stdout), (0, "later\n"), done.stderr)
        self.assertEqual(os.listdir(self.tmp), [])

    def test_a_program_that_can_not_be_put_leaves_the_older_one(self):
        self.put_older()
        out = self.top / "crates" / "skewcheck" / "out"
        (self.room / "bin" / "mv").write_text("#!/bin/sh\nexit 1\n")
        (self.room / "bin" / "mv").chmod(0o755)
        done = self.asked("demo", "7")
        self.assertEqual((done.returncode, done.stdout, sorted(os.listdir(out))), (72, "", ["built", "skewcheck"]))
        self.assertEqual((out / "skewcheck").read_text(), "#!/bin/sh\necho older\n")
        self.assertEqual(os.listdir(self.tmp), [])

    def test_a_relative_folder_for_temporary_files(self):
        done = subprocess.run(
            [self.top / "skewcheck", "demo", "7"], cwd=self.room, stdin=subprocess.DEVNULL, capture_output=True, text=True, timeout=PATIENCE,
            env={**self.environment, "TMPDIR": "tmp"},
        )
        self.assertEqual((done.returncode, done.stdout, os.listdir(self.tmp)), (3, "asked demo 7\n", []), done.stderr)

    def test_no_room(self):
        done = self.asked("demo", "7", TMPDIR=str(self.room / "nowhere"))
        self.assertEqual((done.returncode, done.stdout), (72, ""))
        self.assertNothingLeft()

    def test_what_another_run_puts_stays(self):
        out = self.top / "crates" / "skewcheck" / "out"
        out.mkdir()
        (out / "skewcheck.new.1").write_text("")
        self.assertEqual(self.asked("demo", "7", FAILS="high").returncode, 72)
        self.assertEqual(os.listdir(out), ["skewcheck.new.1"])
        self.assertEqual(self.asked("demo", "7").returncode, 3)
        self.assertEqual(sorted(os.listdir(out)), ["built", "skewcheck", "skewcheck.new.1"])

    def test_signals_leave_nothing(self):
        for number in (signal.SIGTERM, signal.SIGHUP, signal.SIGINT, signal.SIGQUIT):
            process = subprocess.Popen(
                [self.top / "skewcheck", "demo", "7"], stdin=subprocess.DEVNULL, stdout=subprocess.PIPE, stderr=subprocess.PIPE,
                text=True, env={**self.environment, "WAITS": "1", "KEEPS": "1"},
                preexec_fn=lambda: signal.signal(signal.SIGINT, signal.default_int_handler),
            )
            for line in process.stderr:
                if "3 of 3" in line:
                    break
            process.send_signal(number)
            written, said = process.communicate(timeout=PATIENCE)
            self.assertEqual((process.returncode, written), (128 + number, ""))
            self.assertIn("interrupted", said)
            self.assertNothingLeft()


if __name__ == "__main__":
    unittest.main()
