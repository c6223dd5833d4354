"""Events of files to be made into a log: tables of comma-separated fields, and lines of JSON."""

from __future__ import annotations

import json
import re
from dataclasses import dataclass, field
from typing import Any, Dict, Iterator, List, NamedTuple, Optional, Sequence, Set, Tuple

from ask.logs import (
    FIRST_FIELDS, HEADERS, MOST_ROW_NUMBER, NAME, OF_THIRD, ROW_KINDS, is_log_in_json, number as number_of, records_in,
)
from ask.refusals import log_in_json_words
from ask.stamps import UNIT_WORDS, Stamp, stamp_fault, stamp_of
from ask.texts import LOG_BEGINS, Source, Trouble, data_of
from ask.units import Scale, refuse_two_units, scale_kept
from ask.words import USAGE, counted, listed, shortened

WRONG = 66  # the status where a file can't be made into a log
MOST_NAME = 32
MOST_LEVELS = 100  # of objects within one another
SAME_BEGINNING = 24  # letters of a name, by which the numbers behind names are counted
CUT = re.compile(r"(.*):\.(\d{1,3})", re.S)  # a field of which only the beginning is taken
Known = Dict[Tuple[Sequence[str], str], List[str]]  # keys and what is joined under them, with the parts that it is made of
BRACED = re.compile(r"(\{\{\})|\{([^}]*)\}|(\{)")  # an opening brace itself, a field, and one that isn't closed


@dataclass(frozen=True)
class Keys:
    """Under which keys, or in which columns, an event has its parts, and what one without a kind becomes."""

    host: Tuple[str, ...]
    time: str
    name: str
    kind: str
    id: str
    without_kind: str = "note"
    machine: Tuple[str, ...] = ()  # of the clock that hosts share, where that is told
    duration: str = ""  # of how long ago the request of a row began

    def keys_of_machine(self) -> Tuple[str, ...]:
        """The keys of the machine: those that are told, else those of the host without the last of several."""
        return self.machine or self.host[:-1] or self.host


@dataclass
class Limits:
    """How far stamps may be off and how far apart rows are at least, as a file has it."""

    skew: str
    gap: str
    where: str


@dataclass
class Latency:
    """How long messages took at least and at most, as a file has it."""

    least: str
    most: str
    where: str


@dataclass
class FileClock:
    """The clock that a host reads from a place on and how far a reading may be off, as a file has it."""

    name: str
    error: str
    where: str


class FileBound(NamedTuple):
    """That the event of one number is at most so much after that of another, as a file has it."""

    later: int
    earlier: int
    most: str
    where: str


class Event(NamedTuple):
    """A row to be: names and the stamp as the file has them, where it stands, and what the file says of its clock.

    Rows of one number are of one event. An event with a duration ends a request, which began at the one whose number
    is `begun`, where that is known. A stamp that is computed tells of which moment the clock was read.
    """

    host: str
    stamp: Stamp
    text: str  # of the stamp
    kind: str
    name: str
    id: str
    where: str
    limits: Optional[Limits] = None
    event: str = ""  # the name of what it is a row of
    number: int = -1
    machine: str = ""
    duration: str = ""
    begun: Optional[int] = None
    read_at: Optional[Stamp] = None
    clock: Optional[FileClock] = None


class Cuts:
    """What was cut off of fields, and those of which several became one."""

    def __init__(self) -> None:
        self.first: Dict[Tuple[str, int, str], str] = {}
        self.several: Dict[Tuple[str, int], Tuple[str, str]] = {}

    def beginning(self, key: str, letters: int, value: str) -> str:
        """The first letters of a field."""
        cut = value[:letters]
        first = self.first.setdefault((key, letters, cut), value)
        if first != value:
            self.several.setdefault((key, letters), (first, value))
        return cut

    def warnings(self) -> List[str]:
        """What is said of each field of which several values became one."""
        return [
            f"{{{key}:.{letters}}} is the same for {shortened(first)!r} and {shortened(other)!r}, so that rows of both have "
            f"one name; more letters tell them apart"
            for (key, letters), (first, other) in self.several.items()
        ]


@dataclass
class Found:
    """What files have: events in their order, the hosts that are declared, and how long messages to them took.

    Of a host that several files declare it is the declaration of one that has rows of it, where one has.
    """

    events: List[Event] = field(default_factory=list)
    hosts: Dict[str, Limits] = field(default_factory=dict)
    latencies: Dict[str, Latency] = field(default_factory=dict)
    bounds: List[FileBound] = field(default_factory=list)
    count: int = 0  # of events, each of which may be several rows
    seen: Set[str] = field(default_factory=set)  # hosts with rows in the files before
    unit: Optional[str] = None  # of the log, where the words name none
    notes: List[str] = field(default_factory=list)
    warnings: List[str] = field(default_factory=list)
    cuts: Cuts = field(default_factory=Cuts)
    named: Dict[str, List[str]] = field(default_factory=dict)  # the hosts that a word names beside those of that name
    shown: Dict[str, str] = field(default_factory=dict)  # hosts of parts, each with its name in its part
    parts: Known = field(default_factory=dict)
    scales: Dict[str, Scale] = field(default_factory=dict)  # what the notes beside logs say of their units


class Several(List[Any]):
    """The values of a key that stands several times in one object, or of columns of one name, where they differ."""


Fields = Dict[str, Any]  # texts, and of keys with different values those
Rows = Dict[str, List[Tuple[str, str]]]


# Files


def fields_of_file(source: Source, keys: Keys) -> Iterator[Tuple[Fields, str]]:
    """The fields of each event of a file, and where it stands."""
    data = data_of(source)
    if is_log_in_json(data):
        raise Trouble(WRONG, log_in_json_words(source))
    if data.lstrip()[:1] == b"{":
        yield from fields_of_json(source, data)
    elif data.lstrip()[:1] == b"[":
        yield from fields_of_array(source, data)
    else:
        yield from fields_of_table(source, keys)


def fields_of_json(source: Source, data: bytes) -> Iterator[Tuple[Fields, str]]:
    """The fields of lines of JSON, one object a line."""
    text = json_text(data).replace("\r\n", "\n").replace("\r", "\n")
    for number, line in enumerate(text.split("\n"), start=1):
        if not line.strip():
            continue
        where = f"{source.name}, line {number}"
        yield fields_of_object(read_json(line, f"{where}: this is no JSON object on one line"), where), where


def fields_of_array(source: Source, data: bytes) -> Iterator[Tuple[Fields, str]]:
    """The fields of the objects of one JSON array."""
    found = read_json(json_text(data), f"{source.name}: it begins as a JSON array and is none")
    for number, item in enumerate(found, start=1):
        where = f"{source.name}, item {number}"
        yield fields_of_object(item, where), where


def json_text(data: bytes) -> str:
    """The text of a JSON file; bytes that are none are kept apart from all others."""
    return data.decode("utf-8", "surrogateescape")


def object_of(pairs: Sequence[Tuple[str, Any]]) -> Dict[str, Any]:
    """The values of keys, all of them where one key has different ones."""
    found = dict(pairs)
    if len(found) < len(pairs):
        values: Dict[str, List[Any]] = {}
        for key, value in pairs:
            values.setdefault(key, []).append(value)
        found.update((key, Several(those)) for key, those in values.items() if any(value != those[0] for value in those))
    return found


DECODER = json.JSONDecoder(parse_float=str, parse_int=str, object_pairs_hook=object_of)


def read_json(text: str, complaint: str) -> Any:
    """The value of a text, its numbers with all digits as they are written."""
    try:
        return DECODER.decode(text)
    except (ValueError, RecursionError) as error:
        raise Trouble(WRONG, f"{complaint}: {error}") from None


def fields_of_object(found: Any, where: str) -> Fields:
    """The fields of a JSON object."""
    if not isinstance(found, dict):
        raise Trouble(WRONG, f"{where}: this is no JSON object, as {{\"time\": ..}}")
    try:
        return object_of(list(flat(found)))
    except RecursionError:
        raise Trouble(WRONG, f"{where}: it nests deeper than {MOST_LEVELS} levels") from None


def flat(found: Dict[str, Any], before: str = "", level: int = 1) -> Iterator[Tuple[str, Any]]:
    """The fields of an object, and with points in their names those of objects within it."""
    if level > MOST_LEVELS:
        raise RecursionError
    for key, value in found.items():
        if isinstance(value, dict):
            yield from flat(value, f"{before}{key}.", level + 1)
        elif isinstance(value, (str, Several)):
            yield before + key, value
        elif value is not None:
            yield before + key, json.dumps(value)


def fields_of_table(source: Source, keys: Keys) -> Iterator[Tuple[Fields, str]]:
    """The fields of a table by the names of its first line; a log of the program is such a table."""
    records = records_in(source.data)
    first = next(records, None)
    if first is None:
        raise Trouble(WRONG, f"{source.name} is empty: there is no line with the names of columns")
    heads = [head.strip() for head in first.fields]
    if heads[:1] in ([FIRST_FIELDS[2]], [FIRST_FIELDS[3]]) or tuple(heads) in HEADERS:
        heads[0] = keys.kind
    for record in records:
        where = f"{source.name}, line {record.line}"
        if len(record.fields) != len(heads):
            raise Trouble(WRONG, f"{where}: it has {counted(len(record.fields), 'field')}, and the first line {len(heads)}")
        yield object_of([*zip(heads, [part.strip() for part in record.fields])]), where


# Events


def read_events(source: Source, keys: Keys, rows: Rows, found: Found) -> None:
    """Adds the events of a file, in its order, and what it says of hosts."""
    if LOG_BEGINS.match(source.data):
        found.scales[source.name] = scale_kept(source.name, source.data)
        refuse_two_units(found.scales)
    limits: Dict[str, Limits] = {}
    declared: Dict[str, Limits] = {}
    clocks: Dict[str, FileClock] = {}
    bounds: List[FileBound] = []
    start, first_number = len(found.events), found.count
    for fields, where in fields_of_file(source, keys):
        kind = part_or(fields, keys.kind, where, "")
        if kind in OF_THIRD:
            name, first, second = (part(fields, key, where) for key in (keys.host[0], keys.time, keys.name))
            if kind == "bound":
                bounds.append(FileBound(row_number(name, where), row_number(first, where), second, where))
                continue
            if kind == "clock":
                if name not in limits:
                    raise Trouble(WRONG, f"{where}: no host {name!r} is declared before this clock")
                clocks[name] = FileClock(second, first, where)
                continue
            if kind == "latency":
                declare(found.latencies, name, Latency(first, second, where), "latency")
                continue
            if kind == "host":
                declare(declared, name, Limits(first, second, where), "skew or gap")
                found.hosts.setdefault(name, declared[name])
            elif name not in limits:
                raise Trouble(WRONG, f"{where}: no host {name!r} is declared before this resync")
            limits[name] = Limits(first, second, where)
            continue
        host = joined(fields, keys.host, where, found.parts)
        text, name = part(fields, keys.time, where), part(fields, keys.name, where)
        stamp, id_ = read_stamp(text, where), part_or(fields, keys.id, where, "")
        if host in declared and host in found.seen:
            declare(found.hosts, host, declared[host], "skew or gap")
        elif host in declared:
            found.hosts[host] = declared[host]
        machine = joined(fields, keys.keys_of_machine(), where, found.parts)
        duration = part_or(fields, keys.duration, where, "").strip() if keys.duration else ""
        for kind, pattern in rows_of(fields, name, keys, rows, where):
            shown = filled(pattern, fields, where, found.cuts)
            found.events.append(Event(
                host, stamp, text, kind, shown, id_, where, limits.get(host), name, found.count, machine, duration,
                clock=clocks.get(host),
            ))
        found.count += 1
    refuse_seconds_beside(found)
    found.seen.update(event.host for event in found.events[start:])
    found.bounds += [of_numbers(bound, first_number, found.count) for bound in bounds]


def refuse_seconds_beside(found: Found) -> None:
    """Refuses stamps in decimal seconds beside a log whose notes say a smaller unit, since its numbers would be seconds too."""
    finer = next(((name, scale.unit) for name, scale in found.scales.items() if scale.unit not in (None, "s")), None)
    odd = next((event for event in found.events if event.stamp.kind == "decimal"), None) if finer else None
    if finer and odd:
        said = f"the stamp {odd.text} is in seconds, and {finer[0]} in {UNIT_WORDS[finer[1] or 's']}, by the notes beside it"
        raise Trouble(WRONG, f"{odd.where}: {said}")


def row_number(text: str, where: str) -> int:
    """The number of a row of its file that a bound record has."""
    found = number_of(text, MOST_ROW_NUMBER)
    if found is None:
        raise Trouble(WRONG, f"{where}: {shortened(text)!r} is no number of a row, which is a whole number from 0")
    return found


def of_numbers(bound: FileBound, first: int, end: int) -> FileBound:
    """A bound between rows of a file, by the numbers that they have among all events."""
    later, earlier = first + bound.later, first + bound.earlier
    if max(later, earlier) >= end or later == earlier:
        said = f"the rows {bound.later} and {bound.earlier}, which aren't two rows of its file: it has {end - first}"
        raise Trouble(WRONG, f"{bound.where}: this bound is between {said}, numbered from 0")
    return bound._replace(later=later, earlier=earlier)


def declare(known: Dict[str, Any], name: str, said: Any, what: str) -> None:
    """Keeps what a file says of a host; two files may say the same alone."""
    before = known.setdefault(name, said)
    if vars(before) != {**vars(said), "where": before.where}:
        raise Trouble(WRONG, f"{said.where}: the host {name} is declared at {before.where} with another {what}")


def part(fields: Fields, key: str, where: str) -> str:
    """The field under a key."""
    if key not in fields:
        has = shortened(listed([shortened(name) for name in list(fields)[:13]]), 120) or "nothing"
        form = form_of_traces(fields)
        raise Trouble(WRONG, f"{where}: there is no {key!r}. It has: {has}. " + (
            f"These are spans of traces: {form} reads them" if form else
            "--host, --time and --name say which keys these are, and --access what the lines of a web server look like"
        ))
    found = fields[key]
    if isinstance(found, Several):
        two = (found[0], next(value for value in found if value != found[0]))
        shown = " and as ".join(shortened(json.dumps(value, ensure_ascii=False)) for value in two)
        raise Trouble(WRONG, f"{where}: {key!r} stands there {counted(len(found), 'time')}, as {shown}: which is meant?")
    return str(found)


def joined(fields: Fields, keys: Sequence[str], where: str, known: Known) -> str:
    """The fields under keys, joined."""
    return joined_parts([part(fields, key, where) for key in keys], keys, where, known)


def joined_parts(parts: List[str], keys: Sequence[str], where: str, known: Known) -> str:
    """Parts under keys, joined; where others make the same, they are refused, since both would be one host or machine."""
    text = "_".join(parts)
    if len(parts) > 1 and known.setdefault((keys, text), parts) != parts:
        shown = " and ".join(", ".join(shortened(repr(one)) for one in those) for those in (known[keys, text], parts))
        raise Trouble(WRONG, f"{where}: joined with _, {shown} are both {shortened(text)!r}, and would be one under {listed(keys)}")
    return text


def part_or(fields: Fields, key: str, where: str, other: str) -> str:
    """The field under a key, or another text where there is none."""
    return part(fields, key, where) if key in fields else other


def form_of_traces(fields: Fields) -> Optional[str]:
    """The option for the form of traces of which fields are, if they are of one."""
    if "resourceSpans" in fields:
        return "--otlp"
    if '"traceID"' in fields.get("data", "")[:1000]:
        return "--jaeger"
    return "--zipkin" if {"traceId", "localEndpoint.serviceName"} <= set(fields) else None


def read_stamp(text: str, where: str) -> Stamp:
    """The stamp that a text is."""
    stamp = stamp_of(text)
    if stamp is None:
        raise Trouble(WRONG, f"{where}: the stamp {shortened(text)!r} {stamp_fault(text)}")
    return stamp


def rows_of(fields: Fields, name: str, keys: Keys, rows: Rows, where: str) -> List[Tuple[str, str]]:
    """The kinds and names of the rows that an event becomes; a note, where nothing else is said of it."""
    if name in rows:
        return rows[name]
    kind = part_or(fields, keys.kind, where, keys.without_kind)
    if kind not in ROW_KINDS:
        known = ", ".join(OF_THIRD + ROW_KINDS)
        hint = f"--kind says under which key it stands, else {keys.kind}"
        raise Trouble(WRONG, f"{where}: there is no kind {shortened(kind)!r}. The kinds: {known}. {hint}")
    return [(kind, name.replace("{", "{{}"))]


def filled(pattern: str, fields: Fields, where: str, cuts: Cuts) -> str:
    """A pattern with the fields that it names in braces in their places, of `{KEY:.12}` the first 12 letters."""
    if "{" not in pattern:
        return pattern

    def field_of(found: "re.Match[str]") -> str:
        """What stands in place of braces."""
        if found.group(1):
            return "{"
        if found.group(3):
            raise Trouble(USAGE, f"{shortened(pattern)!r} has a brace that isn't closed")
        cut = CUT.fullmatch(found.group(2))
        if cut is None:
            return part(fields, found.group(2), where)
        return cuts.beginning(cut.group(1), int(cut.group(2)), part(fields, cut.group(1), where))

    return BRACED.sub(field_of, pattern)


# Names


def name_map(names: Sequence[str], forbidden: Sequence[str] = ()) -> Dict[str, str]:
    """For each name a name of the log; those that are names already keep theirs, and no two become one."""
    distinct = list(dict.fromkeys(names))
    mapped = {name: name for name in distinct if NAME.fullmatch(name) and name not in forbidden}
    taken = set(mapped.values()) | set(forbidden)
    numbers: Dict[str, int] = {}
    for name in distinct:
        if name not in mapped:
            mapped[name] = free_name(plain_name(name), taken, numbers)
            taken.add(mapped[name])
    return mapped


NO_LETTER = re.compile(r"[^a-z0-9]")


def plain_name(name: str) -> str:
    """A text in small letters, digits and underscores, a letter first; a long one keeps its beginning and its end."""
    text = NO_LETTER.sub("_", name.lower())
    text = text if text[:1].isalpha() else "n" + text
    return text if len(text) <= MOST_NAME else f"{text[:16]}_{text[-15:]}"


def free_name(name: str, taken: "set[str]", numbers: Dict[str, int]) -> str:
    """A name, with a number behind it where it is taken: the least one that no name of the same beginning has had."""
    found, beginning = name, name[:SAME_BEGINNING]
    while found in taken:
        numbers[beginning] = numbers.get(beginning, 1) + 1
        ending = f"_{numbers[beginning]}"
        found = name[: MOST_NAME - len(ending)] + ending
    return found
