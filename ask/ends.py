"""How a script ends: closed streams, signals, time that is over and errors, each with one line and a status from 64 on."""

from __future__ import annotations

import contextlib
import io
import os
import signal
import sys
import threading
import traceback
from typing import Any, Callable, Iterator, NoReturn, Optional

from ask.texts import CANNOT_READ, Trouble, reason_of, say, write_output

SIGNALS = (signal.SIGINT, signal.SIGTERM, signal.SIGHUP)
OWN_FAULT = 70  # the status where memory runs out, or the script itself is wrong
OUT_OF_TIME = 124


class Signalled(BaseException):
    """A signal that ends the script."""

    def __init__(self, number: int):
        super().__init__(number)
        self.number = number


class OutOfTime(BaseException):
    """The time of the whole is over."""


class Waiting:
    """What came while nothing may be interrupted, and is raised behind that."""

    is_held = False
    end: Optional[BaseException] = None


def raise_end(end: BaseException) -> None:
    """Raises an end, now or where nothing is held any more."""
    if Waiting.is_held:
        Waiting.end = end
    else:
        raise end


@contextlib.contextmanager
def uninterrupted() -> Iterator[None]:
    """A stretch that signals and the end of the time don't break off."""
    before, Waiting.is_held = Waiting.is_held, True
    try:
        yield
    finally:
        Waiting.is_held = before
        if Waiting.end is not None and not before:
            end, Waiting.end = Waiting.end, None
            raise end


# Streams and signals


def open_standard_streams() -> None:
    """Opens the standard streams that are closed, so that no file gets their numbers.

    What was closed stays of no use: nothing can be read from the input, a write to the output fails, and what is said
    on the standard error is lost.
    """
    for number, way in enumerate((os.O_WRONLY, os.O_RDONLY, os.O_WRONLY)):
        try:
            os.fstat(number)
        except OSError:
            os.set_inheritable(os.open(os.devnull, way), True)  # takes the least free number, which is this one
    sys.stdin = sys.stdin or open(0, encoding="utf-8", closefd=False)
    sys.stdout = sys.stdout or open(1, "w", encoding="utf-8", closefd=False)
    sys.stderr = sys.stderr or open(2, "w", encoding="utf-8", closefd=False)
    for name, number in (("stdout", 1), ("stderr", 2)):
        stream = getattr(sys, name)
        if isinstance(getattr(stream, "buffer", None), io.RawIOBase):  # by PYTHONUNBUFFERED: what one call doesn't write would be lost
            setattr(sys, name, open(number, "w", encoding=stream.encoding, closefd=False))
    for stream in (sys.stdout, sys.stderr):
        stream.reconfigure(errors="backslashreplace")  # names of files may have any bytes


def end_on_signals() -> None:
    """Has signals end the script by what `ended` makes of them; those that are ignored from outside stay so."""
    for number in SIGNALS:
        if signal.getsignal(number) != signal.SIG_IGN:
            signal.signal(number, take_signal)


def take_signal(number: int, _frame: Any) -> None:
    """The first signal ends the script, and what comes behind it doesn't break off how it ends."""
    for other in SIGNALS:
        signal.signal(other, signal.SIG_IGN)
    raise_end(Signalled(number))


# Time


def limit_time(seconds: float) -> None:
    """Ends the script where it takes longer from now on. Signals are for the main thread alone."""
    if threading.current_thread() is threading.main_thread():
        signal.signal(signal.SIGALRM, take_alarm)
        signal.setitimer(signal.ITIMER_REAL, max(seconds, 0.001))


def take_alarm(_number: int, _frame: Any) -> None:
    """The time is over."""
    raise_end(OutOfTime())


def unlimit_time() -> None:
    """Takes the limit of the time away."""
    if threading.current_thread() is threading.main_thread():
        signal.setitimer(signal.ITIMER_REAL, 0)


# Ends


def ended(work: Callable[[], int], refuse: Callable[[int, str], int]) -> int:
    """The status of work that has come to its end; where it hasn't, what `refuse` gives for a status and a line."""
    try:
        try:
            status = work()
            write_output("")
            return status
        finally:
            unlimit_time()
    except Trouble as trouble:
        return refuse(trouble.status, trouble.message)
    except OutOfTime:
        return refuse(OUT_OF_TIME, "stopped, since it took longer than --seconds allows")
    except Signalled as end:
        words = "interrupted" if end.number == signal.SIGINT else f"ended by {signal.Signals(end.number).name}"
        return refuse(128 + end.number, words)
    except KeyboardInterrupt:
        return refuse(128 + signal.SIGINT, "interrupted")
    except (MemoryError, RecursionError):
        return refuse(OWN_FAULT, "this is more than the memory of the script holds")
    except OSError as error:
        name = f"{error.filename}: " if isinstance(error.filename, str) else ""
        return refuse(CANNOT_READ, f"{name}{reason_of(error)}")
    except Exception as error:
        return refuse(OWN_FAULT, fault_words(error))


def fault_words(error: Exception) -> str:
    """What is said of an error that the script didn't foresee, and where it was."""
    place = traceback.extract_tb(error.__traceback__)[-1]
    where = f"{os.path.basename(place.filename)}, line {place.lineno}"
    return f"an error of the script itself, which its makers want to know of: {type(error).__name__}: {error} ({where})"


def run_script(work: Callable[[], int], refuse: Callable[[int, str], int]) -> NoReturn:
    """Does the work of a script as a process of its own, and ends it."""
    open_standard_streams()
    end_on_signals()
    try:
        status = ended(work, refuse)
    except Signalled as end:  # which came when all was done
        status = 128 + end.number
    for number in SIGNALS:
        signal.signal(number, signal.SIG_IGN)
    sys.exit(status)


def refuse_as(name: str) -> Callable[[int, str], int]:
    """What says on the standard error, by the name of a script, what it can't do."""

    def refuse(status: int, message: str) -> int:
        say(f"{name}: {message}")
        return status

    return refuse
