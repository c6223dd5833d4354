"""Joins logs of skewcheck whose hosts differ into one, on the standard output, as `ask log` does.

Run as: python3 join_logs.py LOG.. [--latency HOST,LEAST,GREATEST]..

The rows of each log keep their order, and a resync its place among them. A receive whose message is sent in none of
the logs becomes a note of the same name, since its send was cut away. A send that nobody receives is a row as any
other. With --latency, which may be given again, the messages to HOST took from LEAST to GREATEST, which may be `inf`.
The log is of the least version that has what it says. `./ask/ask log --help` has what else there is.
"""

import sys
from pathlib import Path
from typing import List, Sequence

sys.dont_write_bytecode = True  # leaves no compiled files beside the sources
sys.path.insert(0, str(Path(__file__).resolve().parent.parent))

from ask.main import run


def words_of(given: Sequence[str]) -> List[str]:
    """The words of `ask log`, in which the host of a latency stands before a sign `=`."""
    words = ["log", *given]
    for place, word in enumerate(words):
        if word.startswith("--latency="):
            words[place] = "--latency=" + with_sign(word.partition("=")[2])
        elif words[max(0, place - 1)] == "--latency":
            words[place] = with_sign(word)
    return words


def with_sign(latency: str) -> str:
    """A latency with a sign `=` behind its host, which it may have already."""
    return latency if "=" in latency else latency.replace(",", "=", 1)


if __name__ == "__main__":
    run(words_of(sys.argv[1:]))
