#!/usr/bin/env python3
"""Prints a log of so many rows without effect, of one host, each 1 after the one before.

Run as: python3 examples/notes.py ROWS [SKEW]

With SKEW all rows stand at the time 0, and the clock may be off by so much: the rows fit where twice the skew is at
least one less than their number. ROWS is up to 1,000,000, and SKEW up to 10^18.
"""

import sys
from pathlib import Path
from typing import Optional, Sequence

sys.dont_write_bytecode = True  # leaves no compiled files beside the sources
sys.path.insert(0, str(Path(__file__).resolve().parent.parent))

from ask.ends import refuse_as, run_script
from ask.logs import MOST_SKEW, number
from ask.texts import Trouble, write_output

MOST_NOTES = 1_000_000
WRONG_WORDS = 64


def log(rows: int, skew: Optional[int] = None) -> str:
    """The text of the log."""
    head = f"kind,host,time,name\nhost,a,{skew or 0},1\n"
    return head + "".join(f"note,a,{row if skew is None else 0},n\n" for row in range(rows))


def main(words: Sequence[str]) -> int:
    """Prints the log of the words."""
    numbers = [number(word, most) for word, most in zip(words, (MOST_NOTES, MOST_SKEW))]
    if not 1 <= len(words) <= 2 or None in numbers:
        raise Trouble(
            WRONG_WORDS, "usage: python3 notes.py ROWS [SKEW], whole numbers up to 1,000,000 and up to 10^18",
        )
    write_output(log(*numbers))
    return 0


if __name__ == "__main__":
    run_script(lambda: main(sys.argv[1:]), refuse_as("notes"))
