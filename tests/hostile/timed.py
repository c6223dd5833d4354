"""Runs a script as if it were the program of this process, and says what it took.

Run as: python3 timed.py FILE SCRIPT WORD..

At its end the seconds of processor time that this process took, without the programs that it ran, are in FILE. The
process ends as the script ends, whatever that is. Where no script can be run, it ends with a status from 64 on.
"""

import atexit
import os
import runpy
import sys
from pathlib import Path

sys.dont_write_bytecode = True  # leaves no compiled files beside the sources

WRONG_WORDS = 64


def write(name):
    """Writes what this process took."""
    times = os.times()
    Path(name).write_text(f"{times.user + times.system}")


def ready():
    """Makes the process that of the script, or says by a status that it can't be."""
    if len(sys.argv) < 3 or sys.argv[1].startswith("-"):
        print("usage: timed.py FILE SCRIPT WORD..", file=sys.stderr)
        return WRONG_WORDS
    for name, way in zip(sys.argv[1:3], ("wb", "rb")):
        open(name, way).close()  # which refuses a name that can't be opened
    atexit.register(write, sys.argv[1])
    del sys.argv[0:2]
    sys.path[0] = str(Path(sys.argv[0]).resolve().parent)
    return 0


if __name__ == "__main__":
    sys.path.append(str(Path(__file__).resolve().parents[1]))
    import ends

    del sys.path[-1]
    ends.go_on(ready)
    runpy.run_path(sys.argv[0], run_name="__main__")
