"""What the tests of the companion have in common: its folder, the reference, and how it is run."""

import contextlib
import io
import json
import os
import re
import subprocess
import sys
from pathlib import Path
from unittest import mock

ROOT = Path(__file__).resolve().parent.parent.parent
sys.path[:0] = [str(ROOT), str(ROOT / "tests" / "reference"), str(ROOT / "tests")]
PATIENCE = 60  # seconds that one run may take

from ask.main import main
from ask.program import Stopped, Watch, find_program
from tables import number_of_cases

PULSED = b"skewlog2,host,time,name\nhost,a,0,0\npulse,a,10,p\n"


def facts_of_text(text):
    """The facts of an answer in JSON, with whole numbers also where they stand as strings, since they are great."""
    return with_numbers(json.loads(text))


def with_numbers(value):
    """A value with the great whole numbers that are strings as numbers."""
    if isinstance(value, dict):
        return {key: with_numbers(inner) for key, inner in value.items()}
    if isinstance(value, list):
        return [with_numbers(inner) for inner in value]
    is_great = isinstance(value, str) and re.fullmatch(r"-?[0-9]{16,}", value) and abs(int(value)) > 2**53
    return int(value) if is_great else value


def status_of(words, text=b""):
    """The status with which the program ends."""
    return subprocess.run([find_program(None), *words], input=text, capture_output=True, timeout=PATIENCE).returncode


def cases_asked(usual):
    """So many cases as CASES in the environment asks for, or the usual number."""
    return number_of_cases(os.environ.get("CASES", str(usual)))


@contextlib.contextmanager
def standing_in(folder):
    """Has a folder as the one in which names are looked up."""
    before = os.getcwd()
    os.chdir(folder)
    try:
        yield
    finally:
        os.chdir(before)


@contextlib.contextmanager
def time_over_with(mark):
    """Has the time of a run be over once it has made a file, which is taken away then; the others have all time."""
    right = Watch.patience

    def patience(watch):
        if mark.exists():
            mark.unlink()
            raise Stopped
        return min(0.05, right(watch))

    with mock.patch.object(Watch, "patience", patience):
        yield


def planted(owner, name, wrong):
    """Has something wrong in place of what is right, of which it is made."""
    return mock.patch.object(owner, name, wrong(getattr(owner, name)))


def asked(words, folder=ROOT, text=b"", **environment):
    """How ask with these words ended: its status, what it wrote, and what it said beside that."""
    written, said = io.StringIO(), io.StringIO()
    given = io.TextIOWrapper(io.BytesIO(text))
    with standing_in(folder), mock.patch.dict(os.environ, {"COLUMNS": "80", **environment}), mock.patch("sys.stdin", given):
        with contextlib.redirect_stdout(written), contextlib.redirect_stderr(said):
            try:
                status = main(words)
            except SystemExit as end:
                status = end.code
    return status, written.getvalue(), said.getvalue()


def asked_apart(words, folder=ROOT, text=b"", **environment):
    """The same of `./ask/ask` as a process of its own."""
    done = subprocess.run(
        [sys.executable, "-B", str(ROOT / "ask" / "ask"), *words], cwd=folder, input=text, capture_output=True,
        timeout=PATIENCE, env={**os.environ, "COLUMNS": "80", **environment},
    )
    return done.returncode, done.stdout.decode(), done.stderr.decode()
