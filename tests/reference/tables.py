"""What comparisons share: how a table is answered and printed, the words of the command line, and what has to come up."""

import argparse
import subprocess
import sys

import generate_logs

PATIENCE = 120  # seconds that one run of the program may take


def table_of(section, lines):
    """A table of one section, which has these lines."""
    return b"[%s]\n" % section.encode() + lines


def answer_lines(program, table):
    """What the program answers to a table, of which there may be too few lines."""
    done = subprocess.run([program], input=table, capture_output=True, timeout=PATIENCE)
    if done.returncode or done.stderr:
        print(f"the program ended with {done.returncode} and wrote {done.stderr!r}")
    *answers, _ = done.stdout.decode(errors="replace").split("\n")
    return [line for line in answers if line[:1] != "["]


def print_table(table):
    """Prints a table, ready to copy."""
    print("table = (")
    for line in table.splitlines(keepends=True):
        print(f"    {line!r}")
    print(")", flush=True)


def end_if_rare(counts, shares, cases):
    """Ends with 1 where of so many cases fewer came to some answer than its share of them, which is far less than random
    cases have: a tenth or below."""
    for answer, share in shares.items():
        least = int(share * cases)
        if counts[answer] < least:
            print(f"of {cases} random cases {counts[answer]} came to {answer!r}, and {least} is the least")
            sys.exit(1)


def number_of_cases(text):
    """So many cases as a word of the command line says: one at least, since of none each comparison is right."""
    number = int(text)
    if number < 1:
        raise argparse.ArgumentTypeError(f"{number} is below 1")
    return number


def arguments_of(description, cases, what):
    """What reads the program and the options; cases is the default number of what is named."""
    parser = argparse.ArgumentParser(description=description)
    parser.add_argument("program")
    parser.add_argument("--cases", type=number_of_cases, default=cases, help=f"number of {what}")
    parser.add_argument("--seed", type=int, default=1)
    return parser


def read_arguments(description, cases, what):
    """The program and the options of the command line, of a comparison without logs."""
    return arguments_of(description, cases, what).parse_args()


def read_log_arguments(description, cases, what):
    """The same of a comparison over logs, which has two options more: the shares of logs that may be of a version."""
    return read_with_versions(arguments_of(description, cases, what))


def read_with_versions(parser):
    """What a parser reads of the command line, with the shares of logs that may be of version 2 and 3, which are set."""
    for option, share, version in (("second", generate_logs.second_share, 2), ("third", generate_logs.third_share, 3)):
        what = f"share of logs that may be of version {version}"
        parser.add_argument(f"--{option}", type=float, metavar="SHARE", default=share, help=what)
    arguments = parser.parse_args()
    generate_logs.second_share, generate_logs.third_share = arguments.second, arguments.third
    return arguments
