"""What a case of a hostile file is, and the files that many cases share."""

from typing import NamedTuple, Optional

HEADER = b"kind,host,time,name\n"
TWO_ROWS = HEADER + b"host,a,2,1\nhost,b,2,1\nset,a,10,req\nset,b,15,ack\n"
ONE_ROW = HEADER + b"host,a,0,0\nnote,a,10,n\n"
TRUE = b"true"


class Blank(NamedTuple):
    """A file of so many NUL bytes, which take no room on the disk."""

    size: int


class Case(NamedTuple):
    """Words with their files, and what has to come of them."""

    kind: str  # what is hostile: words, log, json, formula, times, report, best or size
    title: str
    words: list
    files: dict  # bytes or a Blank by name; the file that is hostile stands last
    statuses: tuple  # each of them is right
    line: Optional[bytes]  # the first line, or None where several may be right
    most: Optional[int] = None  # the most memory that it may take, in lengths of the hostile file
    seconds: Optional[int] = None  # the most processor time that it may take, less than that after which each run is stopped
    text: Optional[bytes] = None  # all that has to be written, or None where the first line is enough
    judged: bool = False  # whether tests/reference judges all that is written
    is_search: bool = False  # whether it may take long, and be stopped; what memory it may take holds then too

    def size(self):
        """The bytes of the hostile file, or None where no file is hostile or it is none of these."""
        if self.kind == "words" or not self.files:
            return None
        last = list(self.files.values())[-1]
        return last.size if isinstance(last, Blank) else len(last)


def log_of(*records):
    """The text of a log with the header and these records, a line each."""
    return HEADER + b"".join(record + b"\n" for record in records)


def order(title, log, status, line):
    """A log that `order` is asked about: it is read, and nothing else is looked at."""
    return Case("log", title, ["order", "l"], {"l": log}, (status,), line)


def times(title, log, status, line=None):
    """A log that `times` is asked about."""
    return Case("log", title, ["times", "l"], {"l": log}, (status,), line)


def replay(title, formula, status, line, log=ONE_ROW, given=b"10\n"):
    """A formula that `replay` is asked about."""
    files = {"l": log, "t": given, "f": formula}
    return Case("formula", title, ["replay", "f", "l", "t"], files, (status,), line)


def timing(title, given, status, line, log=ONE_ROW):
    """A file of times that `replay` is asked about."""
    files = {"f": TRUE, "l": log, "t": given}
    return Case("times", title, ["replay", "f", "l", "t"], files, (status,), line)


def audit(title, report, status, line, formula=TRUE, log=ONE_ROW, option=(), most=None, seconds=None):
    """A report that `audit` is asked about."""
    files = {"f": formula, "l": log, "r": report}
    return Case("report", title, ["audit", *option, "f", "l", "r"], files, (status,), line, most, seconds)


def trim(title, report, status, line, most=None, seconds=None):
    """A report that `trim` is asked about."""
    return Case("report", title, ["trim", "r"], {"r": report}, (status,), line, most, seconds)
