"""Runs on logs of the most rows, and of one more, each with its status and the first line of what it writes.

What stands below the first line is judged by tests/reference.
"""

from pathlib import Path
from typing import NamedTuple

import notes

EXAMPLES = Path(__file__).resolve().parent.parent.parent / "examples"
ROWS = 1_024
EXACT = notes.log(ROWS).encode()  # row N is at N
CLOSE = notes.log(ROWS, 512).encode()  # the rows fit, with 1 to spare
TOO_CLOSE = notes.log(ROWS, 511).encode()
TOO_MANY = notes.log(ROWS + 1).encode()
TIMES = b"".join(b"%d\n" % row for row in range(ROWS))


class Run(NamedTuple):
    title: str
    words: list
    files: dict
    status: int
    first_line: bytes  # None where several may be right


def run(title, words, status, first_line, **files):
    """A run of the program on files named by one letter each; formulas are those of the examples."""
    given = {name: example(data) if isinstance(data, str) else data for name, data in files.items()}
    return Run(title, words.split(), given, status, first_line)


def example(name):
    """The bytes of an example."""
    return (EXAMPLES / name).read_bytes()


def walk(steps):
    """The report that the rows of a log don't fit: the first isn't before the clock's earliest time, each other one
    is 1 after the one before, and so the last is later than the clock can say."""
    rises = b"".join(b"rise %d\n" % row for row in range(1, ROWS))
    head = b"skewcheck 1\nevents %d\ninconsistent %d\n" % (ROWS, steps)
    return head + b"low 0\n" + rises + b"high %d\nend\n" % (ROWS - 1)


def cases():
    """All runs."""
    yield run("times of 1,024 rows", "times l", 0, b"0", l=EXACT)
    yield run("times of 1,024 rows that just fit", "times l", 0, None, l=CLOSE)
    yield run("times of rows that don't", "times l", 3, b"inconsistent 1025", l=TOO_CLOSE)
    yield run("times of 1,025 rows", "times l", 66, b"refused log 13 at record 1027", l=TOO_MANY)
    yield run("order of 1,024 rows", "order l", 0, b"0: 1", l=EXACT)
    yield run("order of 1,025 rows", "order l", 66, b"refused log 13 at record 1027", l=TOO_MANY)
    five = {"f": "sometime_five.formula"}
    yield run("replay of 1,024 rows", "replay f l t", 1, b"false", l=EXACT, t=TIMES, **five)
    yield run("replay of a row too late", "replay f l t", 6, b"not admissible high 1023", l=EXACT,
              t=TIMES.replace(b"1023", b"1024"), **five)
    yield run("check above the size", "check f l", 67, b"refused size 5242880", l=EXACT, **five)
    yield run("check above the size by one", "check f l", 67, b"refused size 5236736", l=EXACT, f="until_3.formula")
    yield run("check of 1,025 rows", "check f l", 66, b"refused log 13 at record 1027", l=TOO_MANY, **five)
    yield run("check of rows that don't fit, whose size is 0", "check f l", 3, b"skewcheck 1", l=TOO_CLOSE, **five)
    yield run("audit of the same", "audit f l r", 0, b"accepted", l=TOO_CLOSE, r=walk(1025), **five)
    yield run("audit by a row less", "audit f l r", 5, b"refused inconsistent at line 2", l=TOO_CLOSE,
              r=walk(1024).replace(b"rise 1\n", b""), **five)
    yield run("audit above the size", "audit f l r", 67, b"refused size 5242880", l=EXACT, r=walk(1025), **five)
