"""`ask log`: a log of other logs, of tables, lines of JSON and access lines, with a window of them."""

from __future__ import annotations

import argparse
from typing import Dict, List, Optional, Sequence, Tuple

from ask.access import AccessWords, access_events, format_of
from ask.encoding import refuse_wide
from ask.events import WRONG, Found, Keys, Rows, name_map, read_events
from ask.limits import LimitWords, LogHost, clocks_of, durations, hosts_of, limit_words_of, settle_limits
from ask.logs import COLUMNS, FIRST_FIELDS, MOST_ROWS, MOST_SKEW, ROW_KINDS
from ask.making import Line, Making, cut_window, making_of, settle_messages, spread_carried
from ask.readings import settle_readings
from ask.spelling import Spellings, spelling_warnings, take_as_one
from ask.stamps import UNITS
from ask.texts import Source, Trouble, escaped, read_source, say, write_text
from ask.ties import bound_lines, error_of, measured_of, ties_of_durations, ties_of_files, warn_of_durations
from ask.traces import TraceWords, choice_of, events_of_traces
from ask.units import output_words, refuse_wrong_output, scale_of_making, write_with_notes
from ask.words import USAGE, Answer, counted, listed, shortened


def add_words(commands: "argparse._SubParsersAction[argparse.ArgumentParser]", common: argparse.ArgumentParser) -> None:
    """Adds the words of the command."""
    words = commands.add_parser(
        "log", parents=[common], allow_abbrev=False,
        help="make a log of tables, lines of JSON, access lines or traces, or cut a window",
        description="Writes one log made of files: logs of the program, which are joined; tables of comma-separated "
        "fields with their names in the first line; files with a JSON object a line; with --access the lines of "
        "a web server; and with --otlp, --jaeger or --zipkin the spans of traces. Stamps may be whole units, decimal "
        "seconds or ISO 8601; names that aren't names are mapped. The log is of the least version that has what it says. "
        "What was changed is said on the standard error, or in the file of --notes. The program isn't needed.",
    )
    words.add_argument("files", nargs="+", metavar="FILE")
    words.add_argument("--unit", choices=list(UNITS), help="of the log; else the coarsest that keeps all digits")
    words.add_argument(
        "--notes",
        metavar="NOTES",
        help="the file for what was changed: the unit, the maps of names, what was carried in",
    )
    words.add_argument(
        "-o", "--output", metavar="LOG", help="write the log there, and its unit and zone in LOG.notes, by which answers say them",
    )
    words.add_argument(
        "--part",
        action="store_true",
        help=(
            "the log is joined with others later: receives whose send is elsewhere stay, hosts without rows too, and "
            "there may be no row"
        ),
    )
    add_words_on_events(words.add_argument_group("what an event is, and what it becomes"))
    add_words_on_traces(words.add_argument_group("spans of traces (docs/real-logs.md)"))
    add_words_on_clocks(words.add_argument_group("clocks and messages; without a HOST it is for all hosts"))
    add_words_on_windows(words.add_argument_group("which rows are kept"))
    words.set_defaults(do=do)


def add_words_on_events(words: argparse._ArgumentGroup, has_id: bool = True) -> None:
    """Adds the words on what an event is, and what it becomes, with or without its id."""
    words.add_argument(
        "--host", default="host", metavar="KEY[,KEY]", help="the key of the host; several are joined with _",
    )
    for key in ("name", "kind", *["id"] * has_id):
        words.add_argument(f"--{key}", default=key, metavar="KEY", help=f"the key of the {key}; else {key}")
    words.add_argument("--time", metavar="KEY", help="the key of the time; else time, or the finest of --access")
    words.add_argument(
        "--access",
        metavar="FORMAT",
        help=(
            "the files are access lines in this log_format of nginx or LogFormat of Apache; `combined` and `apache` "
            "stand for the combined ones, as in 'combined $request_time'. A request is the two events `begin` and "
            "`end`, which are set:asked and clear:asked unless --row says more; requests at once are on hosts of "
            "their own"
        ),
    )
    words.add_argument(
        "--as",
        dest="as_host",
        default="web",
        metavar="NAME",
        help="with --access, the hosts are NAME_1, NAME_2 and so on; else web_1, web_2",
    )
    words.add_argument(
        "--row",
        action="append",
        default=[],
        metavar="EVENT=KIND:NAME[,..]",
        help=(
            "the rows that an event becomes, by its name; {KEY} in NAME is a field, and {KEY:.12} its first 12 "
            "letters. Other events without a kind become notes"
        ),
    )
    words.add_argument(
        "--same-name",
        action="store_true",
        help="names that differ in the case of letters alone are one, of hosts and of what happened",
    )
    words.add_argument(
        "--pulses",
        action="store_true",
        help="events without a kind become pulses, propositions that are true at one instant",
    )


def add_words_on_traces(words: argparse._ArgumentGroup) -> None:
    """Adds the words on traces."""
    for form, what in (
        ("otlp", "OTLP JSON, as the file exporter of the OpenTelemetry collector writes it. A span sets its name on the host "
         "of its service and clears it, and is a message to that of its child in another process"),
        ("jaeger", "JSON of the query API of Jaeger"),
        ("zipkin", "JSON of Zipkin's version 2"),
    ):
        words.add_argument(
            f"--{form}", dest="traces", action="append_const", const=form, help=f"the files are traces in {what}",
        )
    words.add_argument("--trace", action="append", default=[], metavar="ID", help="of this trace alone; may be given again")
    words.add_argument(
        "--service", action="append", default=[], metavar="NAME", help="of this service alone; may be given again",
    )
    words.add_argument(
        "--apart",
        action="store_true",
        help=(
            "spans of one process that are open at once are on hosts of their own, but for those within their parents; "
            "else only those of one name"
        ),
    )
    words.add_argument(
        "--steady-spans",
        metavar="ERROR",
        help="the duration of a span is measured by a clock that nothing sets, and off by at most ERROR",
    )


def add_words_on_clocks(words: argparse._ArgumentGroup) -> None:
    """Adds the words on clocks and messages."""
    for option, metavar, what in (
        ("--skew", "[HOST=]D", "how far each stamp may be off, as 5ms or, in units, 5, whatever the file says"),
        ("--gap", "[HOST=]D", "the least distance of two rows on end; else 0"),
        ("--latency", "[HOST=]LEAST,GREATEST", "how long messages to it took; GREATEST may be inf"),
        ("--step", "[HOST=]STAMP,D", "the clock was stepped by D at STAMP: rows before it may be off by D more"),
        ("--clock", "[HOST=]FILE", "the same by the lines of chronyd or ntpd on steps in a file"),
        ("--tracking", "[HOST=]FILE", "a tracking log of chrony, or what `chronyc tracking` wrote: its greatest errors "
         "are added to the skew"),
        ("--clock-error", "[HOST=]D", "the clock of each machine keeps its offset, and a stamp is off by at most D from "
         "what it shows; behind a step it is another clock. HOST may be a machine too"),
    ):
        words.add_argument(option, action="append", default=[], metavar=metavar, help=what)
    words.add_argument(
        "--machine",
        metavar="KEY[,KEY]",
        help="the key of the machine, all hosts of which read one clock; else of several keys of --host all but the last",
    )
    words.add_argument(
        "--duration",
        metavar="FIELD[±D]",
        help=(
            "the field that says how long ago the request of a row began, by a clock that nothing sets, and by how much "
            "that may be off; ± may be written +-. The request began with the first row of its id on the host, or the "
            "begin of the access line"
        ),
    )


def add_words_on_windows(words: argparse._ArgumentGroup) -> None:
    """Adds the words on which rows are kept."""
    words.add_argument(
        "--only", action="append", default=[], metavar="ID", help="keep rows with this id alone; may be given again",
    )
    words.add_argument(
        "--from",
        dest="begin",
        metavar="STAMP",
        help="leave out rows with earlier stamps; what they set is carried in",
    )
    words.add_argument("--to", dest="end", metavar="STAMP", help="leave out rows with later stamps")
    words.add_argument("--carry", action="store_true", help="with --only, carry in what left-out rows before it set")


def do(arguments: argparse.Namespace) -> Answer:
    """The answer of the command."""
    refuse_wrong_output(arguments.output, arguments.notes)
    found = found_in_files(arguments)
    if not found.events and not arguments.part:
        raise Trouble(WRONG, f"there is no row in {listed(arguments.files)}")
    making = making_of_files(arguments, found)
    lines = making.lines
    cut_window(making, arguments)
    if not making.lines and not arguments.part:
        raise Trouble(WRONG, "no row is left in the window")
    note_many(making)
    settle_messages(making, arguments.part)
    settle_idle_hosts(making, found, arguments.part)
    words = limit_words_of(arguments)
    idle = settle_clocks_and_bounds(making, found, arguments, words, lines)
    spread_carried(making)
    hosts = hosts_of(making, found, words)
    text = log_text(making, hosts, idle, mapped_names(making))
    warnings = [f"warning: {warning}" for warning in making.warnings]
    if arguments.notes is not None:
        write_text(arguments.notes, "".join(f"{escaped(note)}\n" for note in [*warnings, *making.notes]))
    if not arguments.json and not arguments.quiet:
        tell(warnings if arguments.notes is not None else [*warnings, *making.notes])
    facts = {"log": "".join(f"{line}\n" for line in text), "warnings": making.warnings, "notes": making.notes}
    if arguments.output is None:
        return Answer(0, text, facts)
    scale = scale_of_making(making.unit, making.is_whole, (event.stamp for event in found.events), arguments.files)
    sentence = output_words(arguments.output, write_with_notes(arguments.output, str(facts["log"]), scale), scale)
    return Answer(0, [sentence], {**facts, "sentence": sentence})


def settle_clocks_and_bounds(
    making: Making, found: Found, arguments: argparse.Namespace, words: LimitWords, lines: Sequence[Line]
) -> Dict[str, Tuple[int, int]]:
    """Gives the rows of the window their limits, clocks and bounds, of all rows that there are.

    The limits of hosts without rows are told.
    """
    clocks = clocks_of(making, words)
    idle = settle_limits(making, words, clocks)
    measured = measured_of(arguments.duration, arguments.steady_spans)
    errors = durations(words.clock_error, "--clock-error", making, others=list(making.machines()))
    settle_readings(making, errors, clocks, error_of(measured, making) if measured else 0)
    making.ties += ties_of_files(making, found.bounds)
    if measured:
        making.ties += ties_of_durations(making, lines, measured)
    warn_of_durations(making)
    return idle


def making_of_files(arguments: argparse.Namespace, found: Found) -> Making:
    """The log to be made of what the files have, with what was taken as one host and what is to be warned of."""
    is_asked = arguments.same_name and traces_of(arguments) is None  # of traces that is done with their spans
    spellings = take_as_one(found) if is_asked else Spellings({}, {})
    making = making_of(found.events, arguments.unit or found.unit)
    making.spellings, making.named, making.shown = spellings.hosts, found.named, found.shown
    making.notes += found.notes + spellings.notes()
    making.warnings += found.warnings + found.cuts.warnings() + warnings_of_rows(arguments, found)
    return making


def warnings_of_rows(arguments: argparse.Namespace, found: Found) -> List[str]:
    """A warning for each event of --row that the files don't have."""
    names = list(dict.fromkeys(event.event for event in found.events))
    missing = [event for event in row_table(arguments.row) if names and event not in names]
    known = listed([shortened(name) for name in names])
    return [f"--row {event}: no event of the files has this name. They have: {known}" for event in missing]


def settle_idle_hosts(making: Making, found: Found, is_part: bool) -> None:
    """Keeps the hosts of a part that are declared and have no row, and makes a note of those of a log."""
    hosts = making.hosts()
    idle = {host: limits for host, limits in found.hosts.items() if host not in hosts}
    if is_part:
        making.idle = idle
    elif idle:
        making.notes.append(f"left out, since no row is of them: the hosts {listed([shortened(host) for host in idle])}")


def found_in_files(arguments: argparse.Namespace) -> Found:
    """What the files have, in their order, or of traces in that of their stamps."""
    if traces_of(arguments) is not None:
        return found_in_traces(arguments)
    found, rows = Found(), row_table(arguments.row)
    without_kind = "pulse" if arguments.pulses else "note"
    measured = measured_of(arguments.duration)
    field = measured.field if measured else ""
    if arguments.access is not None:
        form = format_of(arguments.access)
        words = AccessWords(arguments.time, arguments.id, arguments.only, rows, arguments.as_host, without_kind, field)
        found.events = access_events([input_file(name) for name in arguments.files], form, words, found.cuts)
        return found
    keys = Keys(
        tuple(arguments.host.split(",")), arguments.time or "time", arguments.name, arguments.kind, arguments.id,
        without_kind, tuple(arguments.machine.split(",")) if arguments.machine is not None else (), field,
    )
    for name in arguments.files:
        read_events(input_file(name), keys, rows, found)
    return found


def traces_of(arguments: argparse.Namespace) -> Optional[str]:
    """The form of the traces that the files have, or None where words don't speak of traces; both is refused."""
    forms = list(dict.fromkeys(arguments.traces or ()))
    if not forms:
        wrong = next((option for option, value in words_on_traces(arguments) if value), None)
        if wrong:
            raise Trouble(USAGE, f"{wrong} is for traces: --otlp, --jaeger or --zipkin says what form they have")
        return None
    if len(forms) > 1:
        raise Trouble(USAGE, f"--{forms[0]} and --{forms[1]}: all files of a run have one form")
    wrong = next((option for option, value, usual in words_on_others(arguments) if value != usual), None)
    if wrong:
        raise Trouble(USAGE, f"{wrong} isn't for traces, whose spans tell that themselves: --trace and --service choose")
    return forms[0]


def words_on_traces(arguments: argparse.Namespace) -> List[Tuple[str, object]]:
    """The options that are for traces alone, and what they say."""
    return [
        ("--trace", arguments.trace), ("--service", arguments.service), ("--apart", arguments.apart),
        ("--steady-spans", arguments.steady_spans is not None),
    ]


def words_on_others(arguments: argparse.Namespace) -> List[Tuple[str, object, object]]:
    """The options that aren't for traces, what they say, and what they say where they aren't given."""
    given = vars(arguments)
    return [
        ("--host", arguments.host, "host"), ("--name", arguments.name, "name"), ("--kind", arguments.kind, "kind"),
        ("--id", given.get("by") or arguments.id, given.get("by") or "id"), ("--time", arguments.time, None),
        ("--access", arguments.access, None), ("--as", arguments.as_host, "web"), ("--row", arguments.row, []),
        ("--pulses", arguments.pulses, False), ("--duration", arguments.duration, None), ("--only", arguments.only, []),
    ]


def found_in_traces(arguments: argparse.Namespace) -> Found:
    """What the files have of traces."""
    machine = tuple(arguments.machine.split(",")) if arguments.machine is not None else ()
    return events_of_traces([input_file(name) for name in arguments.files], TraceWords(
        traces_of(arguments) or "", choice_of(arguments.trace, arguments.service), machine, "by" in vars(arguments),
        arguments.steady_spans is not None, arguments.same_name, arguments.apart,
    ))


def input_file(name: str) -> Source:
    """A file of events in an encoding that is read."""
    return refuse_wide(read_source(name), WRONG)


def note_many(making: Making) -> None:
    """Tells of more rows than the program takes, which windows are asked of."""
    if len(making.lines) > MOST_ROWS:
        making.notes.append(
            f"{counted(len(making.lines), 'row')}, and the program takes 1,024: `ask check`, `each` and `deadline` ask by "
            "windows (docs/real-logs.md)"
        )


def tell(notes: Sequence[str]) -> None:
    """Says on the standard error what was changed."""
    for note in notes:
        say(f"ask: {escaped(note)}")


def row_table(words: Sequence[str]) -> Rows:
    """The table that --row gives."""
    rows: Rows = {}
    for word in words:
        event, equals, rest = word.partition("=")
        parts = [tuple(part.split(":", 1)) for part in rest.split(",")]
        if not equals or any(len(part) != 2 or part[0] not in ROW_KINDS or not part[1] for part in parts):
            raise Trouble(
                USAGE, f"--row {word}: it is EVENT=KIND:NAME[,KIND:NAME], with a KIND of {', '.join(ROW_KINDS)}",
            )
        if event in rows:
            raise Trouble(USAGE, f"--row {word}: {event} has a --row already: all rows of an event stand in one")
        if not event.strip():
            raise Trouble(USAGE, f"--row {word}: it names no event")
        rows[event] = [(part[0], part[1]) for part in parts]
    return rows


# The log


def mapped_names(making: Making) -> Dict[str, str]:
    """The names of the log for those of the files."""
    mapped = name_map([line.name for line in making.lines])
    making.warnings += spelling_warnings("names", [line.name for line in making.lines], mapped)
    making.notes += [f"name: {shortened(name)!r} is {short}" for name, short in mapped.items() if name != short]
    return mapped


def log_text(
    making: Making, hosts: Dict[str, LogHost], idle: Dict[str, Tuple[int, int]], mapped: Dict[str, str]
) -> List[str]:
    """The lines of the log, of the least version that has what it says."""
    known: Dict[str, Tuple[int, int]] = {}  # the skew and the gap of each host from here on
    read: Dict[str, Tuple[str, int]] = {}  # the clock of each host from here on, and the error of a reading
    heads, body = [], []
    for line in making.lines:
        host, limits = hosts[line.host].name, (line.skew, line.gap)
        if line.host not in known:
            heads.append(f"host,{host},{line.skew},{line.gap}")
        elif known[line.host] != limits:
            body.append(f"resync,{host},{line.skew},{line.gap}")
        known[line.host] = limits
        reading = reading_of(line, read.get(line.host))
        if reading and read.get(line.host) != reading:
            body.append(f"clock,{host},{reading[1]},{reading[0]}")
            read[line.host] = reading
        body.append(f"{line.kind},{host},{line.stamp},{mapped[line.name]}")
    heads += [f"host,{hosts[name].name},{skew},{gap}" for name, (skew, gap) in idle.items()]
    told = [(host.name, host.latency) for host in hosts.values() if host.latency]
    latencies = [f"latency,{name},{least},{'inf' if most is None else most}" for name, (least, most) in told]
    bounds = bound_lines(making, making.lines)
    is_second = bool(latencies) or any(text.startswith(("resync,", "pulse,")) for text in body)
    version = 3 if bounds or read else 2 if is_second else 1
    return [",".join((FIRST_FIELDS[version], *COLUMNS)), *heads, *latencies, *body, *bounds]


def reading_of(line: Line, before: Optional[Tuple[str, int]]) -> Optional[Tuple[str, int]]:
    """The clock that a row reads and the error of that, None where it reads none.

    Behind rows that read one it reads theirs, with an error by which that says nothing.
    """
    if line.clock:
        return line.clock, line.error
    return before and (before[0], MOST_SKEW)
