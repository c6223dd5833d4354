"""How the scripts of the tests and benches end, so that status 1 comes with a finding alone.

A difference or a failed check is status 1, which a script gives by itself: its `main` returns it, or calls `sys.exit`
with it. What a script can't do is one line on the standard error, which begins with the script's name, and a status from
64 on:

    64   wrong words, where argparse alone ends with 2
    66   an input that isn't right, which is what `sys.exit` with a text stands for
    70   any other exception, with its type, its message, and the file and line where it came up
    74   a file that can't be opened or read, or a program that can't be started
    75   the standard output can't be written
    130  an interrupt

With TRACEBACK=1 in the environment, status 70 comes with the whole traceback too.

A script's last lines find this module by a path from its own file, and have `run` call its `main`. The modules of the
second checker in tests/reference stand without this one. It imports little, since launcher.py of tests/hostile has to
stay small.
"""

from __future__ import annotations

import contextlib
import io
import os
import sys
from collections.abc import Callable

TOP = os.path.dirname(os.path.dirname(os.path.realpath(__file__)))
WRONG_WORDS = 64
WRONG_INPUT = 66
OWN_FAULT = 70
CANNOT_READ = 74
CANNOT_WRITE = 75
INTERRUPTED = 130
WRONG_FOR_ARGPARSE = 2  # the status with which argparse ends where words are wrong


class Output(io.TextIOWrapper):
    """The standard output, which remembers why it couldn't be written."""

    fault: OSError | None = None

    def write(self, text: str) -> int:
        """Writes a text."""
        try:
            return super().write(text)
        except OSError as error:
            self.fault = error
            raise

    def flush(self) -> None:
        """Writes what it still holds."""
        try:
            super().flush()
        except OSError as error:
            self.fault = error
            raise


def run(main: Callable[[], int | None]) -> None:
    """Does the work of a script, whose status is that of `main`, and ends the process."""
    if sys.stdout is None:
        sys.exit(said(CANNOT_WRITE, "the standard output is closed"))
    output = watched_output()
    status, words = end_of(main)
    with contextlib.suppress(OSError):
        output.flush()
    if output.fault is not None:
        os.dup2(os.open(os.devnull, os.O_WRONLY), output.fileno())  # takes what is still held at the process's end
        status, words = CANNOT_WRITE, f"the standard output can't be written: {output.fault.strerror}"
    sys.exit(said(status, words))


def go_on(ready: Callable[[], int | None]) -> None:
    """Does what has to be done before something else ends the process, and ends it where that can't be done."""
    status = said(*end_of(ready))
    if status:
        sys.exit(status)


def watched_output() -> Output:
    """Puts an output that remembers its fault in the place of the standard output, for the same text."""
    text = sys.stdout
    way = {"line_buffering": text.line_buffering, "write_through": text.write_through}
    sys.stdout = Output(text.buffer, text.encoding, text.errors, **way)
    return sys.stdout


def end_of(work: Callable[[], int | None]) -> tuple[int, str]:
    """The status of some work, and what is to be said where it can't be done."""
    try:
        return work() or 0, ""
    except SystemExit as end:
        return end_of_exit(end)
    except KeyboardInterrupt:
        return INTERRUPTED, "interrupted"
    except Exception as error:
        if isinstance(error, OSError) and error.filename is not None:
            return CANNOT_READ, f"{error.filename}: {error.strerror}"
        return OWN_FAULT, fault_words(error)


def end_of_exit(end: SystemExit) -> tuple[int, str]:
    """What a call of `sys.exit` comes to, of argparse's too, which has said by itself what is wrong."""
    if isinstance(end.code, str):
        return WRONG_INPUT, end.code
    return WRONG_WORDS if end.code == WRONG_FOR_ARGPARSE else end.code or 0, ""


def fault_words(error: Exception) -> str:
    """What is said of an exception that a script didn't foresee; the traceback is printed before where that is asked for."""
    import traceback  # which is large, and seldom needed

    if os.environ.get("TRACEBACK") == "1" and sys.stderr is not None:
        traceback.print_exception(type(error), error, error.__traceback__)
    place = traceback.extract_tb(error.__traceback__)[-1]
    what = f"{type(error).__name__}: {error}" if str(error) else type(error).__name__
    return f"{what} ({short_name(place.filename)}, line {place.lineno})"


def short_name(path: str) -> str:
    """The name of a file of the repository from its top on, or the whole name of another one."""
    whole = os.path.realpath(path)
    return os.path.relpath(whole, TOP) if whole.startswith(TOP + os.sep) else path


def said(status: int, words: str) -> int:
    """Says on the standard error in one line, by the script's name, what it can't do, and gives the status."""
    if words and sys.stderr is not None:
        line = " ".join(f"{short_name(sys.argv[0])}: {words}".split())
        with contextlib.suppress(OSError):  # there is nobody else to tell
            print(line, file=sys.stderr, flush=True)
    return status
