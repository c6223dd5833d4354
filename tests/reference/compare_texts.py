"""Compares the built program text_table with the reading of logs, and with the one text of a log.

Run as: python3 compare_texts.py PROGRAM [--cases N] [--seed S] [--second SHARE] [--third SHARE]

The program reads files of logs made by chance, many of them broken, and writes
the text of each log that it read. The first difference is printed as a table of
its own, ready to copy, and the end is 1.
"""

import os
import random
import sys
from pathlib import Path
from typing import NamedTuple

sys.dont_write_bytecode = True  # leaves no compiled files beside the sources

import generate_logs
import logs
from generate_logs import chance
from tables import answer_lines, print_table, read_log_arguments

HEADING = b"[logs\n"  # of the tables
FILES_A_TABLE = 20
SHARE_BROKEN = 0.4
PLAIN = b"abcdefghijklmnopqrstuvwxyzABCDEFGHIJKLMNOPQRSTUVWXYZ0123456789_-,"


class Question(NamedTuple):
    title: str
    data: bytes  # of the file

    def lines(self):
        """The lines of a table that have the file read, and the log written where it is one."""
        is_log = isinstance(logs.read_log(self.data), logs.Log)
        return b"+empty\n=read %s\n" % encoded(self.data) + (b"?write\n" if is_log else b"")

    def answer(self):
        """What the program must answer: the text of the log, / being its newline, or the fault."""
        found = logs.read_log(self.data)
        if isinstance(found, logs.Log):
            return logs.log_text(found).replace(b"\n", b"/").decode()
        place = "" if found.record is None else f" at record {found.record}"
        return f"fault {found.number}{place}"


def encoded(data):
    """The bytes as a table has them: those that aren't plain by their numbers."""
    return b"".join(bytes([byte]) if byte in PLAIN else b"%%%02X" % byte for byte in data)


def questions(seed, count):
    """Files of logs made by chance, many of them broken."""
    for number in range(count):
        draw = random.Random(f"{seed} {number}")
        log = generate_logs.crowded_log(draw) if chance(draw, 0.01) else generate_logs.some_log(draw)
        yield Question(f"log {number} of seed {seed}", generate_logs.log_file(draw, log, SHARE_BROKEN))


def table_of(asked):
    """The table of questions."""
    return HEADING + b"".join(question.lines() for question in asked)


def answers(program, asked):
    """What the program answers to questions: the last answer to each file, without the words of a fault."""
    found = []
    for line in answer_lines(program, table_of(asked)):
        if line.startswith("=read"):
            found.append("nothing")
        elif line.startswith("  "):
            answer = line.removeprefix("  ")
            found[-1] = answer.split(":")[0] if answer.startswith("fault ") else answer
    return found


def is_right(program, asked):
    """Whether the program answers questions rightly; the first difference is printed."""
    for question, answer in zip(asked, answers(program, asked) + ["nothing"] * len(asked)):
        if answer != question.answer():
            print(f"difference: {question.title}: {question.answer()} is expected, and {answer} came")
            print_table(table_of([question]))
            return False
    return True


def main():
    """Compares, and ends with 0 where there is no difference and with 1 where there is one."""
    arguments = read_log_arguments("compare text_table with the reading of logs", 2000, "logs")
    program = os.path.abspath(arguments.program)
    asked = list(questions(arguments.seed, arguments.cases))
    for place in range(0, len(asked), FILES_A_TABLE):
        if not is_right(program, asked[place : place + FILES_A_TABLE]):
            sys.exit(1)
    print(f"{arguments.cases} logs, no difference")


if __name__ == "__main__":
    sys.path.insert(0, str(Path(__file__).resolve().parents[1]))
    import ends

    ends.run(main)
