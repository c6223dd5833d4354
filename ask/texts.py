"""Files as they are read and written, places in them as an editor counts them, and foreign text as it is shown."""

from __future__ import annotations

import contextlib
import os
import re
import select
import stat
import sys
import time
import unicodedata
from bisect import bisect_right
from functools import lru_cache
from html import escape
from pathlib import Path
from typing import IO, List, NamedTuple, Optional, Union

LINE_END = re.compile(rb"\r\n|\n|\r")
BYTE_ORDER_MARK = b"\xef\xbb\xbf"
WRITER_PATIENCE = 5.0  # seconds in which somebody has to begin to write to a FIFO
CANNOT_READ, CANNOT_WRITE, TOO_LONG = 74, 75, 67  # statuses
NO_ROOM = 73  # the status where a folder can't be made, or isn't empty
LEFT_OVER = re.compile(r"\.ask-[0-9]+-[0-9]+\.new")  # the name of a file that is written and hasn't its place yet
MOST_SAID = 4000  # letters of one line on the standard error


class Trouble(Exception):
    """What ends a command: the message for whoever gave the command, and the status."""

    def __init__(self, status: int, message: str):
        super().__init__(message)
        self.status = status
        self.message = message


class Source(NamedTuple):
    """The bytes of a file, with the name that messages give it."""

    name: str
    data: bytes


def data_of(source: Source) -> bytes:
    """The bytes of a file without a byte order mark."""
    return source.data[len(BYTE_ORDER_MARK) :] if source.data.startswith(BYTE_ORDER_MARK) else source.data


class Place(NamedTuple):
    """A line and a column of a text, both from 1; a column is a character."""

    line: int
    column: int


# Foreign text

# Control characters, what turns the direction of a line or ends one, what can't be seen, and what no text can have.
UNSAFE = re.compile(
    r"[\x00-\x1f\x7f-\x9f\u061c\u200e\u200f\u2028-\u202e\u2066-\u2069\ufeff\ufff9-\ufffc\ufffe\uffff"
    r"\ud800-\udfff\U000e0000-\U000e007f]"
)
SHORT_ESCAPES = {"\t": "\\t", "\n": "\\n", "\r": "\\r"}


def escape_of(found: "re.Match[str]") -> str:
    """How a letter that isn't shown is written; a byte of a name that is no text, as that byte."""
    letter = found.group()
    code = ord(letter)
    if 0xDC80 <= code <= 0xDCFF:
        code -= 0xDC00
    if code < 0x100:
        return SHORT_ESCAPES.get(letter, f"\\x{code:02x}")
    return f"\\u{code:04x}" if code < 0x10000 else f"\\U{code:08x}"


def escaped(text: str) -> str:
    """Foreign text as a terminal, a page or a picture may show it: on one line, and nothing in it acts on them."""
    return UNSAFE.sub(escape_of, text)


def escaped_lines(text: str) -> str:
    """The same of lines, whose ends stay."""
    return "\n".join(map(escaped, text.split("\n")))


def escaped_json(text: str) -> str:
    """A text of JSON in which no letter acts on a terminal; the value that it is stays the same."""
    return "\n".join(UNSAFE.sub(json_escape_of, line) for line in text.split("\n"))


def json_escape_of(found: "re.Match[str]") -> str:
    """How JSON writes a letter that isn't shown: one or two halves of 16 bits."""
    halves = found.group().encode("utf-16-be", "surrogatepass")
    return "".join(f"\\u{halves[place]:02x}{halves[place + 1]:02x}" for place in range(0, len(halves), 2))


def markup(text: str) -> str:
    """Foreign text within a page or a picture, in which the ends of lines stay."""
    return escape(escaped_lines(text))


def width_of(text: str) -> int:
    """How many columns of a terminal a text takes that has been escaped."""
    return sum(
        0 if unicodedata.category(letter) in ("Mn", "Me", "Cf") else
        2 if unicodedata.east_asian_width(letter) in "WF" else 1
        for letter in text
    )


# What is said


def say(text: str, end: str = "\n") -> None:
    """Says something on the standard error, or nothing where that can't be written."""
    half = MOST_SAID // 2
    lines = (line if len(line) <= MOST_SAID else f"{line[:half]} .. {line[-half:]}" for line in text.split("\n"))
    try:
        print(escaped_lines("\n".join(lines)), end=end, file=sys.stderr, flush=True)
    except (OSError, ValueError):
        leave(sys.stderr)


def write_output(text: str) -> None:
    """Writes to the standard output, all of it, or refuses."""
    try:
        sys.stdout.write(text)
        sys.stdout.flush()
    except (OSError, ValueError) as error:
        leave(sys.stdout)
        raise Trouble(CANNOT_WRITE, f"the standard output can't be written: {reason_of(error)}") from None


def leave(stream: IO[str]) -> None:
    """Turns a standard stream that can't be written away, so that nothing fails once more when it is closed."""
    with contextlib.suppress(OSError, ValueError), open(os.devnull, "wb") as null:
        os.dup2(null.fileno(), stream.fileno())


def reason_of(error: Exception) -> str:
    """Why a file can't be read or written."""
    return getattr(error, "strerror", None) or str(error)


# Files


class Limit(NamedTuple):
    """The greatest length of a file, and what is said of a longer one."""

    most: int
    words: str


LIMITS = {
    "log": Limit(
        1_048_576, "the log is longer than 1,048,576 bytes, which is the limit: cut a window of it (ask log --help)",
    ),
    "long log": Limit(1 << 31, "the log is longer than 2,147,483,648 bytes, which is the most that ask reads: cut it before"),
    "formula": Limit(65_536, "the formula is longer than 65,536 bytes, which is the limit"),
    "times": Limit(65_536, "the file of times is longer than 65,536 bytes, which is the limit"),
    "report": Limit(1 << 26, "the report is longer than 67,108,864 bytes, which is the most that ask reads"),
    "file": Limit(1 << 28, "the file is longer than 268,435,456 bytes, which is the most that ask reads: cut it before"),
}


LOG_BEGINS = re.compile(rb"(?:\xef\xbb\xbf)?[\r\n]*\"?(?:kind|skewlog[23])\"?,\"?host")


def read_source(name: str, kind: str = "file") -> Source:
    """The file of that name, or the standard input where it is `-`; one that is longer than its kind is refused.

    A long log may be longer than a log where it begins as one.
    """
    shown = "the standard input" if name == "-" else escaped(name)
    is_long = kind == "long log"
    limit = LIMITS["log" if is_long else kind]
    rest = LIMITS[kind].most - limit.most
    try:
        if name == "-":
            data = read_beginning(sys.stdin.buffer, limit.most + 1, rest)
        else:
            data = read_file(name, limit.most + 1, rest)
        if is_long and LOG_BEGINS.match(data):
            limit = LIMITS[kind]
    except (OSError, ValueError) as error:
        raise Trouble(CANNOT_READ, f"{shown} can't be read: {reason_of(error)}") from None
    if len(data) > limit.most:
        raise Trouble(TOO_LONG, f"{limit.words} ({shown})")
    return Source(shown, data)


def read_beginning(file: IO[bytes], most: int, rest: int) -> bytes:
    """The first bytes of a file, at most so many, and so many more where they begin as a log."""
    data = file.read(most)
    return data + file.read(rest) if rest and len(data) == most and LOG_BEGINS.match(data) else data


def read_file(name: Union[str, "os.PathLike[str]"], most: int, rest: int = 0) -> bytes:
    """The first bytes of a file, at most so many, and the rest of a long log; of a FIFO, once somebody writes to it."""
    descriptor = os.open(name, os.O_RDONLY | os.O_NONBLOCK | os.O_NOCTTY)
    try:
        is_fifo = stat.S_ISFIFO(os.fstat(descriptor).st_mode)
        if is_fifo and os.path.lexists(os.path.realpath(name)):  # a pipe has no name, and needs no waiting
            wait_for_writer(descriptor)
        os.set_blocking(descriptor, True)
        with open(descriptor, "rb", closefd=False) as file:
            return read_beginning(file, most, rest)
    finally:
        os.close(descriptor)


def wait_for_writer(descriptor: int) -> None:
    """Waits until somebody writes to a FIFO, or has written."""
    poll = select.poll()
    poll.register(descriptor, select.POLLIN)
    ends = time.monotonic() + WRITER_PATIENCE
    while not poll.poll(20):
        try:
            os.read(descriptor, 1)
        except BlockingIOError:
            return  # somebody has opened it and may take any time
        if time.monotonic() > ends:
            raise OSError(f"it is a FIFO to which nobody has written for {WRITER_PATIENCE:g} seconds")


def write_text(name: str, text: str) -> None:
    """Writes a file that the command names: whole, or what was there stays, unless it can't be replaced as a file."""
    data = text.encode("utf-8", "backslashreplace")
    try:
        place = os.path.realpath(name)
        if is_replaceable(name, place):
            replace_file(place, data)
        else:
            with open(name, "wb", opener=open_to_write) as file:
                file.write(data)
    except (OSError, ValueError) as error:
        raise Trouble(CANNOT_WRITE, f"{escaped(name)} can't be written: {reason_of(error)}") from None


def is_replaceable(name: str, place: str) -> bool:
    """Whether a name leads to no file, or to one that nobody misses: a regular one of one's own, under no other name.

    What stands in /dev and /proc is a stream that somebody has open, as of `--notes /dev/stderr` and `>(..)`.
    """
    if os.path.abspath(name).startswith(("/dev/", "/proc/")) or not os.access(os.path.dirname(place), os.W_OK | os.X_OK):
        return False
    try:
        found = os.stat(name)
    except FileNotFoundError:
        return True
    is_own = found.st_uid == os.geteuid() and found.st_nlink == 1
    return stat.S_ISREG(found.st_mode) and is_own and os.access(place, os.W_OK)


def replace_file(place: str, data: bytes) -> None:
    """Puts a file with these bytes in place of one, or of none, and leaves nothing else behind."""
    found = os.lstat(place) if os.path.lexists(place) else None
    mode = stat.S_IMODE(found.st_mode) if found and stat.S_ISREG(found.st_mode) else None
    new = os.path.join(os.path.dirname(place), f".ask-{os.getpid()}-{time.time_ns()}.new")
    try:
        with open(new, "xb") as file:
            file.write(data)
            if mode is not None:
                os.fchmod(file.fileno(), mode)
        os.replace(new, place)
    except BaseException:
        with contextlib.suppress(OSError):
            os.unlink(new)
        raise


def open_to_write(name: str, flags: int) -> int:
    """Opens a file to be written; a FIFO that nobody reads is refused, and not waited for."""
    descriptor = os.open(name, flags | os.O_NONBLOCK | os.O_NOCTTY, 0o666)
    os.set_blocking(descriptor, True)
    return descriptor


def has_files(folder: Path) -> bool:
    """Whether a folder has something in it, but for what a killed run may have left of a file."""
    return not all(LEFT_OVER.fullmatch(path.name) for path in folder.iterdir())


def make_empty_folder(folder: Path, option: str) -> None:
    """Makes a folder that an option names, or takes one that is empty, but for what a killed run may have left of a file."""
    try:
        folder.mkdir(parents=True, exist_ok=True)
        is_empty = not has_files(folder)
    except (OSError, ValueError) as error:
        raise Trouble(NO_ROOM, f"{escaped(str(folder))} can't be made: {reason_of(error)}") from None
    if not is_empty:
        raise Trouble(NO_ROOM, f"{escaped(str(folder))} isn't empty: name another folder by {option}")


def is_existing_file(name: str) -> bool:
    """Whether there is something of that name."""
    try:
        return os.path.lexists(name)
    except (OSError, ValueError):
        return False


# Places


@lru_cache(maxsize=4)
def line_starts(data: bytes) -> List[int]:
    """The bytes at which the lines of a text begin. A byte order mark at the beginning is none of the first one."""
    first = len(BYTE_ORDER_MARK) if data.startswith(BYTE_ORDER_MARK) else 0
    return [first, *(found.end() for found in LINE_END.finditer(data))]


def place_of(data: bytes, offset: int) -> Place:
    """The place of the byte at an offset. A byte order mark at the beginning has no column."""
    starts = line_starts(data)
    line = max(1, bisect_right(starts, offset))
    return Place(line, len(data[starts[line - 1] : offset].decode("utf-8", "replace")) + 1)


def shown_text(data: bytes, most: Optional[int] = None) -> str:
    """Bytes as a message shows them, on one line; the first of them where there are many."""
    return "".join(c if c.isprintable() else " " for c in data[:most].decode("utf-8", "backslashreplace")).strip()


def wrapped(text: str, most: int) -> List[str]:
    """The lines of a text of which none takes more columns, broken at blanks, and within words that are longer."""
    lines, line = [], ""
    for word in escaped(text).split(" "):
        while width_of(word) > most:
            room = most - width_of(line) - 1 if line else most
            if room < max(most // 4, 1):
                lines.append(line)
                line, room = "", most
            head = beginning(word, room)
            lines.append(f"{line} {head}" if line else head)
            line, word = "", word[len(head):]
        if line and width_of(line) + 1 + width_of(word) > most:
            lines.append(line)
            line = word
        else:
            line = f"{line} {word}" if line else word
    return [*lines, line] if line or not lines else lines


def beginning(word: str, most: int) -> str:
    """As many letters from the beginning of a word as so many columns have room for, and one at least."""
    count = 1
    while count < len(word) and width_of(word[: count + 1]) <= most:
        count += 1
    return word[:count]
