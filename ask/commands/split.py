"""`ask split`: a log for each value of a field, as for each request, in a folder that examples/many_logs.py asks."""

from __future__ import annotations

import argparse
import re
from dataclasses import replace
from hashlib import sha256
from pathlib import Path
from typing import Dict, List

from ask.commands.log import (
    add_words_on_clocks, add_words_on_events, add_words_on_traces, found_in_files, log_text, making_of_files, mapped_names,
    settle_clocks_and_bounds, tell, traces_of,
)
from ask.events import WRONG
from ask.limits import LogHost, hosts_of, limit_words_of
from ask.logs import MOST_HOSTS, MOST_ROWS
from ask.making import Line, Making, settle_messages, spread_carried
from ask.stamps import UNITS
from ask.texts import Trouble, escaped, make_empty_folder, write_text
from ask.units import Scale, scale_of_making, write_with_notes
from ask.words import USAGE, Answer, counted, listed, shortened

TRACE = "trace"  # the key of the parts of traces
MOST_NAME = 200  # letters of a value in the name of a file
UNSAFE = re.compile(r"[^A-Za-z0-9_.-]")


def add_words(commands: "argparse._SubParsersAction[argparse.ArgumentParser]", common: argparse.ArgumentParser) -> None:
    """Adds the words of the command."""
    words = commands.add_parser(
        "split", parents=[common], allow_abbrev=False, help="make a log of each request or trace",
        description="Makes a log for each value of a field, as for each request, of the files that `ask log` takes, with "
        "what the hosts had set before its first row carried in; of traces a log for each, which is the one that `ask log "
        "--trace` makes, in the unit of all of them. The logs lie in a folder, each a file VALUE.csv, that "
        "examples/many_logs.py asks. The program isn't needed.",
    )
    words.add_argument("files", nargs="+", metavar="FILE")
    words.add_argument("--by", required=True, metavar="KEY", help="the key whose values tell the parts, `trace` of traces")
    words.add_argument("--into", required=True, metavar="FOLDER", help="where the logs go; it is made, or empty")
    words.add_argument("--unit", choices=list(UNITS), help="of the logs; else the coarsest that keeps all digits")
    words.add_argument("--notes", metavar="NOTES", help="the file for what was changed")
    add_words_on_events(words.add_argument_group("what an event is, and what it becomes"), has_id=False)
    add_words_on_traces(words.add_argument_group("spans of traces (docs/real-logs.md)"))
    add_words_on_clocks(words.add_argument_group("clocks and messages; without a HOST it is for all hosts"))
    words.set_defaults(do=do, only=[], id="id")


def do(arguments: argparse.Namespace) -> Answer:
    """The answer of the command."""
    if traces_of(arguments) is not None and arguments.by != TRACE:
        raise Trouble(USAGE, f"--by {arguments.by}: traces are split --by {TRACE}")
    arguments.id = arguments.by
    found = found_in_files(arguments)
    if not found.events:
        raise Trouble(WRONG, f"there is no row in {listed(arguments.files)}")
    making = making_of_files(arguments, found)
    words = limit_words_of(arguments)
    settle_clocks_and_bounds(making, found, arguments, words, making.lines)
    hosts = hosts_of(making, found, words, len(making.hosts()))
    parts = parts_of(making)
    if not parts:
        raise Trouble(WRONG, f"no event has a value of {arguments.by}")
    logs = logs_of(making, parts, hosts)
    scale = scale_of_making(making.unit, making.is_whole, (event.stamp for event in found.events), arguments.files)
    write_logs(Path(arguments.into), logs, scale)
    warnings = [f"warning: {warning}" for warning in making.warnings]
    if arguments.notes is not None:
        write_text(arguments.notes, "".join(f"{escaped(note)}\n" for note in [*warnings, *making.notes]))
    elif not arguments.json and not arguments.quiet:
        tell([*warnings, *making.notes])
    sentence = f"{counted(len(logs), 'log')} in {arguments.into}."
    return Answer(0, [sentence], {
        "sentence": sentence, "folder": arguments.into, "logs": list(logs), "warnings": making.warnings,
        "notes": making.notes,
    })


def parts_of(making: Making) -> Dict[str, List[Line]]:
    """The rows of each part in their order, those before them that are carried in."""
    parts: Dict[str, List[Line]] = {}
    carried: Dict[str, List[Line]] = {}
    begun = set()
    is_set: Dict[str, Dict[str, Line]] = {}  # what is set on each host by now
    left_out = 0
    for line in making.lines:
        if line.id:
            parts.setdefault(line.id, []).append(line)
            if (line.id, line.host) not in begun:
                begun.add((line.id, line.host))
                before = is_set.get(line.host, {}).values()
                carried.setdefault(line.id, []).extend(carried_to(line, one) for one in before)
        else:
            left_out += 1
        if line.kind == "set":
            is_set.setdefault(line.host, {})[line.name] = line
        elif line.kind == "clear":
            is_set.get(line.host, {}).pop(line.name, None)
    if left_out:
        making.notes.append(f"{counted(left_out, 'row')} without a value left out")
    return {name: carried[name] + lines for name, lines in parts.items()}


def carried_to(first: Line, before: Line) -> Line:
    """A row that sets what was set before, in front of the first row of its host in a part."""
    return replace(
        first, kind="set", name=before.name, is_carried=True, where=before.where, number=-1, duration="", begun=None, clock="",
    )


def logs_of(making: Making, parts: Dict[str, List[Line]], hosts: Dict[str, LogHost]) -> Dict[str, str]:
    """The text of the log of each part, by the name of its file."""
    mapped = mapped_names(making)
    logs: Dict[str, str] = {}
    long: List[str] = []
    notes = 0
    for value, lines in parts.items():
        part = Making(
            [replace(line) for line in lines], making.unit, making.is_whole, ties=making.ties,
            places_of_ties=making.ties_by_later(),
        )
        if len(part.hosts()) > MOST_HOSTS:
            raise Trouble(WRONG, f"the part {shortened(value)} has {counted(len(part.hosts()), 'host')}; at most 64")
        settle_messages(part, False)
        spread_carried(part)
        notes += len(part.notes)
        long += [value] * (len(part.lines) > MOST_ROWS)
        own = {name: hosts[name] for name in part.hosts()}
        logs[file_name(value, logs)] = "".join(f"{line}\n" for line in log_text(part, own, {}, mapped))
    if notes:
        said = "carried in, or notes in place of receives that no row of the part sends"
        making.notes.append(f"{counted(notes, 'row')} of parts {said}")
    if long:
        named = listed([shortened(value) for value in long])
        making.notes.append(f"more than 1,024 rows, which `ask check` asks by windows: {named}")
    return logs


def file_name(value: str, taken: Dict[str, str]) -> str:
    """The name of the file of a part, which no other one has."""
    name = UNSAFE.sub("_", value)[:MOST_NAME].lstrip(".-") or "_"
    if name != value or f"{name}.csv" in taken:
        name = f"{name}-{sha256(value.encode('utf-8', 'surrogatepass')).hexdigest()[:12]}"
    return f"{name}.csv"


def write_logs(folder: Path, logs: Dict[str, str], scale: Scale) -> None:
    """Writes logs into a folder that is made for them, or empty, each with notes on its unit beside it."""
    make_empty_folder(folder, "--into")
    for name, text in logs.items():
        write_with_notes(str(folder / name), text, scale)
