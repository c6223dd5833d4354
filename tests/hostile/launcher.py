"""Starts programs for hostile.py, and says what each of them took.

Run as: python3 -I -S launcher.py

Each line of the standard input is a run in JSON: words, folder, output and seconds, the most
processor time that it may take. Each line that is written answers one: the
status, or minus the signal that ended it; seconds of processor time; and the most memory that was resident.

The system counts what was resident before a program's own code began, so the memory that is told is
never less than what this small process has itself, and that is why it is a process apart.
"""

import json
import os
import resource
import sys

sys.dont_write_bytecode = True  # leaves no compiled files beside the sources

WRONG_WORDS = 64


def started(run):
    """The number of the process that runs the words of a run."""
    number = os.fork()
    if number:
        return number
    try:
        resource.setrlimit(resource.RLIMIT_CPU, (run["seconds"], run["seconds"] + 5))
        os.chdir(run["folder"])
        os.dup2(os.open(os.devnull, os.O_RDONLY), 0)
        os.dup2(os.open(run["output"], os.O_WRONLY | os.O_CREAT | os.O_TRUNC, 0o600), 1)
        os.execv(run["words"][0], run["words"])
    finally:
        os._exit(127)


def main():
    """Answers the runs of the standard input, one after another."""
    if sys.argv[1:]:
        print("usage: python3 -I -S launcher.py", file=sys.stderr)
        return WRONG_WORDS
    for line in sys.stdin:
        _, code, used = os.wait4(started(json.loads(line)), 0)
        answer = {
            "status": os.waitstatus_to_exitcode(code),
            "seconds": used.ru_utime + used.ru_stime,
            "bytes": 1024 * used.ru_maxrss,
        }
        print(json.dumps(answer), flush=True)
    return 0


if __name__ == "__main__":
    sys.path.insert(0, os.path.dirname(os.path.dirname(os.path.realpath(__file__))))  # pathlib would take memory
    import ends

    ends.run(main)
