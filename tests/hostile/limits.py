"""Runs a built program under limits on its memory and its stack, and with inputs and outputs that fail.

Run as: python3 limits.py PROGRAM [--only KIND]

KIND is stack, memory or edge. With a limit on the stack, which falls in steps of 4 KiB from 512 down to the first
answer that is wrong, each answer down to 96, or to 192 where JSON nests deep, has to be the one without a limit. With a
limit on the address space, which rises in such steps from less than a program needs to start, it has to be the one
without a limit, or a status that says that memory was lacking, with nothing written. Where JSON nests deep a signal may
end the program too, with nothing written, since the stack has to grow then: the table tells how often. What doesn't
start is told by a run with a word that is refused at once.
A row of the table is a command with its files, with the least limit at which the answer was right and the number of
runs. Every difference is printed, and the end is 1 then.
"""

import argparse
import os
import resource
import signal
import socket
import subprocess
import sys
import tempfile
from pathlib import Path
from typing import NamedTuple

sys.dont_write_bytecode = True  # leaves no compiled files beside the sources

from case import TRUE, TWO_ROWS
from json_texts import RIGHT as LOG_IN_JSON
from limit_commands import LEAST_STACK, commands, filled_memory
from report_limits import RIGHT as REPORT

KIBIBYTE = 1024
STEP = 4  # KiB, a page
MOST_STACK = 512  # KiB of stack
LEAST_MEMORY = 3000  # KiB of address space, less than it takes to start
BEYOND = 256  # KiB that are tried beyond the first right answer
NO_MEMORY = (70, 71)  # what the program says where memory is lacking, 71 for its words
WRONG_WORDS = 64
READ_FAILED, WRITE_FAILED = 74, 75


class Outcome(NamedTuple):
    """What a run came to."""

    status: int  # negative where a signal ended it
    output: bytes


class Runner:
    """Runs the program in a folder of its own."""

    def __init__(self, program, folder):
        self.program = program
        self.folder = Path(folder)

    def write(self, files):
        """Writes the files of a command."""
        for name, data in files.items():
            (self.folder / name).write_bytes(data)

    def outcome(self, words, before=None, source=subprocess.DEVNULL, output=subprocess.PIPE):
        """What the program does with words. Its process does what is wanted before."""
        run = subprocess.run([self.program, *words], cwd=self.folder, stdin=source, stdout=output,
                             stderr=subprocess.DEVNULL, preexec_fn=before, check=False)
        return Outcome(run.returncode, run.stdout or b"")

    def limited(self, words, limit, kibibytes):
        """The same under a limit of so many KiB."""
        return self.outcome(words, lambda: resource.setrlimit(limit, (kibibytes * KIBIBYTE, kibibytes * KIBIBYTE)))

    def report(self, words, files):
        """The report that `check` writes."""
        self.write(files)
        return self.outcome(words).output

    def starts(self, kibibytes):
        """Whether the program starts in so much memory."""
        words = ["no command"]
        return self.limited(words, resource.RLIMIT_AS, kibibytes).status in (WRONG_WORDS, *NO_MEMORY)


def complaint(command, outcome, limit):
    """What a run came to that isn't right."""
    return f"{command.title}: status {outcome.status} and {len(outcome.output)} bytes with {limit}"


def print_row(title, least, count, note=""):
    print(f"{title:54}{least:>14}{count:>8}  {note}".rstrip(), flush=True)


def stack_differences(runner):
    """Answers that differ with a limit on the stack, and the number of runs."""
    count, found = 0, []
    for command in commands(runner.report):
        runner.write(command.files)
        right = runner.outcome(command.words)
        kibibytes = MOST_STACK
        outcome = right
        while kibibytes >= command.least_stack or outcome == right:
            outcome = runner.limited(command.words, resource.RLIMIT_STACK, kibibytes)
            if outcome == right:
                least = kibibytes
            elif kibibytes >= command.least_stack:
                found.append(complaint(command, outcome, f"{kibibytes} KiB of stack"))
            kibibytes -= STEP
        count += (MOST_STACK - kibibytes) // STEP
        print_row(command.title, f"{least} KiB", (MOST_STACK - kibibytes) // STEP)
    return count, found


def memory_differences(runner):
    """Answers that are wrong with a limit on the address space, and the number of runs."""
    count, found = 0, []
    for command in (*commands(runner.report), *filled_memory()):
        runner.write(command.files)
        right = runner.outcome(command.words)
        kibibytes, first_right, signals = LEAST_MEMORY, None, 0
        while first_right is None or kibibytes < first_right + BEYOND:
            outcome = runner.limited(command.words, resource.RLIMIT_AS, kibibytes)
            count += 1
            if outcome == right:
                first_right = first_right or kibibytes
            elif not lacks_memory(runner, outcome, kibibytes):
                if lacks_stack(command, outcome):
                    signals += 1
                else:
                    found.append(complaint(command, outcome, f"{kibibytes} KiB of memory"))
            kibibytes += STEP
        note = f"{signals} by a signal" if signals else ""
        print_row(command.title, f"{first_right} KiB", (kibibytes - LEAST_MEMORY) // STEP, note)
    return count, found


def lacks_stack(command, outcome):
    """Whether a signal ended a program whose stack may have had no room to grow, and nothing was written."""
    return command.least_stack > LEAST_STACK and outcome == Outcome(-signal.SIGSEGV, b"")


def lacks_memory(runner, outcome, kibibytes):
    """Whether the program said that memory was lacking and wrote nothing, or couldn't start."""
    if outcome.output:
        return False
    return outcome.status in NO_MEMORY or not runner.starts(kibibytes)


def filled_pipe():
    """The ends of a pipe that has no more room, where a write would block and fails in place of that."""
    reader, writer = os.pipe()
    os.set_blocking(writer, False)
    fill(lambda: os.write(writer, bytes(4096)))
    return reader, writer


def filled_socket():
    """The same of two sockets."""
    reader, writer = socket.socketpair()
    writer.setblocking(False)
    fill(lambda: writer.send(bytes(4096)))
    return reader.detach(), writer.detach()


def fill(write):
    """Writes until nothing more is taken."""
    try:
        while True:
            write()
    except BlockingIOError:
        pass


def closed_pipe():
    """A pipe that nobody reads."""
    reader, writer = os.pipe()
    os.close(reader)
    return None, writer


def full_device():
    """A device without room."""
    return None, os.open("/dev/full", os.O_WRONLY)


def silent_pipe():
    """A pipe into which nothing is written yet, where a read would block and fails in place of that."""
    reader, writer = os.pipe()
    os.set_blocking(reader, False)
    return reader, writer


def silent_socket():
    """The same of two sockets."""
    reader, writer = socket.socketpair()
    reader.setblocking(False)
    return reader.detach(), writer.detach()


# Commands whose inputs and outputs fail, with what they are asked of; the file that is the input comes last.
EDGES = (
    ["times", "l"], ["tolerance", "true", "5", "f", "l"], ["span", "true", "0", "1", "f", "l"], ["trim", "r"], ["json", "j"],
)


def edge_differences(runner):
    """Answers that differ where an input or an output fails, and the number of runs."""
    runner.write({"f": TRUE, "l": TWO_ROWS, "r": REPORT, "j": LOG_IN_JSON})
    count, found = 0, []
    for words in EDGES:
        for title, wanted, status in edge_outcomes(runner, words):
            count += 1
            print_row(f"{words[0]}, {title}", f"status {status}", 1)
            if status != wanted:
                found.append(f"{words[0]}, {title}: status {status}, not {wanted}")
    return count, found


def edge_outcomes(runner, words):
    """What fails, the status that is right then, and the status of a command."""
    return (
        ("a pipe that nobody reads", WRITE_FAILED, status_to(runner, words, closed_pipe)),
        ("a device without room", WRITE_FAILED, status_to(runner, words, full_device)),
        ("a full pipe that doesn't wait", WRITE_FAILED, status_to(runner, words, filled_pipe)),
        ("a full socket that doesn't wait", WRITE_FAILED, status_to(runner, words, filled_socket)),
        ("an empty pipe that doesn't wait", READ_FAILED, status_from(runner, words, silent_pipe)),
        ("an empty socket that doesn't wait", READ_FAILED, status_from(runner, words, silent_socket)),
        ("a file that may not grow", -signal.SIGXFSZ, status_at_file_limit(runner, words, limit_files)),
        ("the same, SIGXFSZ ignored", WRITE_FAILED, status_at_file_limit(runner, words, limit_files_unheard)),
    )


def status_to(runner, words, made):
    """The status where the output is the second of two ends."""
    reader, writer = made()
    status = runner.outcome(words, output=writer).status
    close(reader, writer)
    return status


def status_from(runner, words, made):
    """The status where the last file is the standard input, and that the first of two ends."""
    reader, writer = made()
    status = runner.outcome([*words[:-1], "-"], source=reader).status
    close(reader, writer)
    return status


def status_at_file_limit(runner, words, before):
    """The status where the output is a file that may not grow."""
    with open(runner.folder / "written", "wb") as output:
        return runner.outcome(words, before, output=output).status


def limit_files():
    """Lets no file grow: a write to one ends the program by a signal."""
    resource.setrlimit(resource.RLIMIT_FSIZE, (0, 0))


def limit_files_unheard():
    """The same where the signal is ignored, so that the write fails."""
    signal.signal(signal.SIGXFSZ, signal.SIG_IGN)
    limit_files()


def close(*ends):
    """Closes the ends that there are."""
    for end in ends:
        if end is not None:
            os.close(end)


KINDS = {"stack": stack_differences, "memory": memory_differences, "edge": edge_differences}


def main():
    """Prints the table and what differs, and ends with 0 where nothing does and with 1 else."""
    parser = argparse.ArgumentParser(description="run skewcheck under limits")
    parser.add_argument("program")
    parser.add_argument("--only", metavar="KIND", choices=list(KINDS), help="stack, memory or edge")
    arguments = parser.parse_args()
    count, found = 0, []
    with tempfile.TemporaryDirectory() as folder:
        runner = Runner(os.path.abspath(arguments.program), folder)
        for kind, differences in KINDS.items():
            if arguments.only in (None, kind):
                print_row(kind, "least right" if kind != "edge" else "", "runs")
                more, wrong = differences(runner)
                count, found = count + more, found + wrong
    for line in found:
        print(f"tests/hostile: {line}")
    print(f"{count} runs under limits, {f'{len(found)} differences' if found else 'no difference'}")
    sys.exit(1 if found else 0)


if __name__ == "__main__":
    sys.path.insert(0, str(Path(__file__).resolve().parents[1]))
    import ends

    ends.run(main)
