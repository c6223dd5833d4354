"""The commands of ask, their words, and how each ends."""

from __future__ import annotations

import argparse
import functools
import gc
import os
import sys
from typing import Any, Dict, Iterator, List, NoReturn, Sequence

from ask.cautions import WARNED
from ask.commands import audit, between, check, deadline, draw, each, log, split, tolerance
from ask.ends import ended, limit_time, run_script
from ask.program import STOPPED, Stopped
from ask.texts import Trouble, say, write_output
from ask.version import answer_of_version
from ask.words import USAGE, Answer, print_answer, print_facts

COMMANDS = (check, deadline, between, tolerance, each, log, split, draw, audit)

STATUSES = """\
statuses:
  0 to 6      those of the program (docs/usage.md): of check 0 is true, 1 false, 2 either, 3 no timing,
              4 not found within the conflicts
  64          the words are no command of ask
  65 to 75    the program's refusals and failures, and those of ask; 65 also a warning with --strict or --strict-for
  70          memory runs out, or ask has an error
  72          the program isn't there, or has no such command
  74, 75      a file can't be read, or written, nor can the standard output
  124         it took longer than --seconds
  129 to 143  a signal ended it: 128 and its number
"""


class Parser(argparse.ArgumentParser):
    """A parser that ends with the status of wrong words, since 2 is an answer."""

    def error(self, message: str) -> NoReturn:
        raise Trouble(USAGE, message)

    def print_help(self, file: object = None) -> None:
        write_output(self.format_help())


def seconds(text: str) -> float:
    """A number of seconds above 0."""
    try:
        value = float(text)
    except ValueError:
        value = 0.0
    if not 0 < value < 10**7:
        raise argparse.ArgumentTypeError(f"it is a number of seconds above 0 and below 10,000,000, and not {text!r}")
    return value


def common_words() -> argparse.ArgumentParser:
    """The options that every command has."""
    words = argparse.ArgumentParser(add_help=False)
    words.add_argument("--json", action="store_true", help="write the answer as JSON (docs/asking-json.md)")
    words.add_argument("--quiet", action="store_true", help="write nothing but refusals: the status is the answer")
    words.add_argument(
        "--program", metavar="FILE", help="the program; else SKEWCHECK of the environment, the built or installed one, or that of the path",
    )
    words.add_argument("--seconds", type=seconds, metavar="S", help="stop where all of it takes longer (check tries 100 conflicts then)")
    return words


def parser() -> Parser:
    """The parser of all words."""
    words = Parser(
        prog="ask", description="Asks skewcheck of formulas and logs, and answers in words, tables and pictures.",
        epilog=STATUSES, formatter_class=argparse.RawDescriptionHelpFormatter, allow_abbrev=False,
    )
    words.add_argument("--version", action="store_true", help="say what ask and the program were made of")
    commands = words.add_subparsers(dest="command", metavar="COMMAND", parser_class=Parser)
    commands.required = True
    for command in COMMANDS:
        command.add_words(commands, common_words())
    return words


def main(words: Sequence[str]) -> int:
    """Does what the words say, and gives the status."""
    return ended(functools.partial(finished, words), functools.partial(refused, words))


def refused(words: Sequence[str], status: int, message: str) -> int:
    """Says why there is no answer, and gives the status."""
    say(f"ask: {message}")
    if status == USAGE:
        named = "".join(f"{word} " for word in words[:1] if word in names())
        say(f"usage: ask {named}--help says how")
    if "--json" in words and "--quiet" not in words:
        try:
            print_facts({"status": status, "refusal": message})
        except Trouble as trouble:
            return trouble.status
    return status


def finished(words: Sequence[str]) -> int:
    """The status of a command that came to its end."""
    try:
        arguments = parsed(words)
    except SystemExit as end:  # the words ask for help
        return int(end.code or 0)
    refuse_standard_output(arguments)
    refuse_lost_input(arguments)
    refuse_second_input(arguments)
    refuse_file_named_twice(arguments)
    if arguments.seconds:
        limit_time(arguments.seconds)
    try:
        answer: Answer = arguments.do(arguments)
    except Stopped:
        raise Trouble(STOPPED, "stopped, since a run took longer than --seconds allows") from None
    if not arguments.quiet:
        print_answer(answer, arguments.json)
    elif answer.status == WARNED:
        for sentence in warnings_in(answer.facts):
            say(f"ask: warning: {sentence}")
    return answer.status


def warnings_in(facts: Dict[str, Any]) -> Iterator[str]:
    """The sentences of the warnings of an answer, with the names of those that are of a line."""
    yield from (warning["sentence"] for warning in facts.get("warnings", []))
    for line in facts.get("lines", []):
        yield from (f"{line['name']}: {warning['sentence']}" for warning in line["warnings"])


def names() -> List[str]:
    """The names of the commands."""
    return [command.__name__.rpartition(".")[2] for command in COMMANDS]


def asks_for_version(words: Sequence[str]) -> bool:
    """Whether `--version` stands first, or right behind a command, `--json` or `--quiet`."""
    before = list(words[: words.index("--version")]) if "--version" in words else [""]
    return before in [[name] for name in names()] or set(before) <= {"--json", "--quiet"}


def parsed(words: Sequence[str]) -> argparse.Namespace:
    """What the words say, which may be that the version is asked for."""
    if not asks_for_version(words):
        return parser().parse_args(list(words))
    alone = Parser(prog="ask --version", parents=[common_words()], allow_abbrev=False, add_help=False)
    alone.add_argument("--version", action="store_true")
    alone.set_defaults(do=answer_of_version)
    return alone.parse_args(list(words[1:] if words[0] in names() else words))


def run(words: Sequence[str]) -> NoReturn:
    """Does what the words say, as a process of its own."""
    gc.disable()  # nearly all that is made of a file lives to the end
    run_script(functools.partial(finished, words), functools.partial(refused, words))


def is_input(word: object) -> bool:
    """Whether a word names the standard input, by itself or for a host."""
    return isinstance(word, str) and (word == "-" or word.endswith("=-"))


def files_written(arguments: argparse.Namespace) -> Dict[str, str]:
    """The files beside the answer that words name to be written, by their options."""
    report = ("report",) if getattr(arguments, "command", "") == "check" else ()
    named = {f"--{key}": getattr(arguments, key, None) for key in ("notes", "junit", *report)}
    return {option: name for option, name in named.items() if name}


def folders_written(arguments: argparse.Namespace) -> Dict[str, str]:
    """The folders that words name to be written, by their options."""
    named = {f"--{key}": getattr(arguments, key, None) for key in ("keep", "into")}
    return {option: name for option, name in named.items() if name}


def refuse_standard_output(arguments: argparse.Namespace) -> None:
    """Refuses `-` as the name of what is written, since it would be a file or a folder of that name."""
    for option, name in {**files_written(arguments), **folders_written(arguments)}.items():
        if name == "-" and option != "--junit":  # which says so itself
            raise Trouble(USAGE, f"{option} -: `-` is the standard input, and nothing is written to that. Something of that name is ./-")


def refuse_lost_input(arguments: argparse.Namespace) -> None:
    """Refuses a file to be written that is read too, since what it says would be lost."""
    words: List[str] = []
    for key in ("files", "formula", "log", "properties", "clock", "tracking"):
        value = getattr(arguments, key, None)
        words += [word for word in (value if isinstance(value, list) else [value]) if isinstance(word, str)]
    read = {os.path.realpath(name) for word in words for name in (word, word.rpartition("=")[2]) if os.path.isfile(name)}
    for option, name in files_written(arguments).items():
        if os.path.isfile(name) and os.path.realpath(name) in read:
            raise Trouble(USAGE, f"{option} {name}: this file is read too, and would be lost")


def refuse_second_input(arguments: argparse.Namespace) -> None:
    """Refuses words that name the standard input more than once."""
    named: List[str] = []
    for value in vars(arguments).values():
        named += [word for word in (value if isinstance(value, list) else [value]) if is_input(word)]
    if len(named) > 1:
        raise Trouble(USAGE, "`-` is the standard input, which can be read once")


def refuse_file_named_twice(arguments: argparse.Namespace) -> None:
    """Refuses words that name one file of events twice, since each event would be there twice."""
    first: Dict[str, str] = {}
    for name in filter(os.path.isfile, getattr(arguments, "files", None) or []):
        place = os.path.realpath(name)
        if place in first:
            raise Trouble(USAGE, f"{name} is the file {first[place]} once more: each event would be there twice")
        first[place] = name


if __name__ == "__main__":
    run(sys.argv[1:])
