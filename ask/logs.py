"""Reads logs: records with their places, hosts and rows, and the bounds that a log sets on a timing.

Versions 1 to 3 are read. Whether a log is accepted is for the program to say: what is wrong with one is told
here only with what the words of a refusal need.
"""

from __future__ import annotations

import json
import re
from dataclasses import dataclass, field
from typing import Dict, Iterable, Iterator, List, NamedTuple, Optional, Sequence, Tuple, Union

from ask.texts import BYTE_ORDER_MARK, LINE_END
from ask.units import BARE, Scale

MOST_HOSTS = 64
MOST_ROWS = 1024
MOST_SKEW = 10**18
MOST_STAMP = 4 * 10**18
MOST_CLOCKS = 1024
MOST_EXTRAS = 1_048_575
MOST_EXTRA = 10**20  # the magnitude of the number of a bound record
MOST_ROW_NUMBER = 2**32 - 1
NAME = re.compile(r"[a-z][a-z0-9_]{0,31}")
NO_HOST_NAMES = ("true", "false", "inf")
COLUMNS = ("host", "time", "name")
BEGINS_AS_LOG = re.compile(rb"\W*(kind|skewlog[23]),host,")
FIRST_FIELDS = {1: "kind", 2: "skewlog2", 3: "skewlog3"}  # of the header of each version
HEADERS: Dict[Tuple[str, ...], int] = {(first,) + COLUMNS: version for version, first in FIRST_FIELDS.items()}
ROW_KINDS = ("set", "clear", "send", "recv", "note", "pulse")
OF_SECOND = ("host", "resync", "latency")
OF_THIRD = OF_SECOND + ("clock", "bound")
KINDS = {1: ("host",) + ROW_KINDS[:-1], 2: OF_SECOND + ROW_KINDS, 3: OF_THIRD + ROW_KINDS}


class Record(NamedTuple):
    """A record of a file: its fields, and the line and the byte at which it begins."""

    fields: List[str]
    line: int
    start: int


class Fault(NamedTuple):
    """The fault of a log by its number in the program's refusals, and its record from 1, where it has one."""

    number: int
    record: Optional[int]


@dataclass
class Host:
    """A host with the skew and gap of its record, and how long messages to it took."""

    name: str
    skew: int
    gap: int
    least: int = 1
    most: Optional[int] = None


class Terms(NamedTuple):
    """What holds of a row: its skew and gap, and the clock that it reads, if any, with the error of the reading."""

    skew: int
    gap: int
    clock: Optional[int] = None
    error: int = 0


class Row(NamedTuple):
    """A row, with what holds of it (see Terms) and the line of the file at which it stands."""

    host: int
    stamp: int
    kind: str
    name: str
    skew: int
    gap: int
    line: int
    clock: Optional[int] = None
    error: int = 0


class Extra(NamedTuple):
    """A bound record: the true time of one row is at most so much after that of another; and its line of the file."""

    later: int
    earlier: int
    most: int
    line: int


@dataclass
class Log:
    """The hosts, rows, clocks and bounds between rows of a file."""

    version: int = 1
    hosts: List[Host] = field(default_factory=list)
    rows: List[Row] = field(default_factory=list)
    clocks: List[str] = field(default_factory=list)
    extras: List[Extra] = field(default_factory=list)
    before: List[Optional[int]] = field(default_factory=list, repr=False, compare=False)  # what rows_before found
    sent_by: Dict[int, Dict[str, int]] = field(default_factory=dict, repr=False, compare=False)  # what sends found
    scale: Scale = field(default=BARE, repr=False, compare=False)  # the unit, which no log itself has

    def host_of(self, event: int) -> str:
        """The name of the host of a row."""
        return self.hosts[self.rows[event].host].name

    def host_numbered(self, name: str) -> Optional[int]:
        """The number of the host of that name, or None."""
        return next((place for place, host in enumerate(self.hosts) if host.name == name), None)

    def set_names(self, host: int) -> List[str]:
        """The names that rows of a host set or pulse, each once."""
        return list(dict.fromkeys(row.name for row in self.rows if row.host == host and row.kind in ("set", "pulse")))

    def stamps(self) -> List[int]:
        """The stamps of all rows."""
        return [row.stamp for row in self.rows]

    def clock_rows(self) -> List[List[int]]:
        """For each clock the rows that read it."""
        found: List[List[int]] = [[] for _ in self.clocks]
        for event, row in enumerate(self.rows if self.clocks else ()):
            if row.clock is not None:
                found[row.clock].append(event)
        return found

    def sends(self) -> Dict[str, int]:
        """The row that sends each message."""
        rows = len(self.rows)
        if rows not in self.sent_by:
            self.sent_by = {rows: {row.name: event for event, row in enumerate(self.rows) if row.kind == "send"}}
        return self.sent_by[rows]

    def send_of(self, event: int) -> Optional[int]:
        """The row that sends what a row receives, or None where it receives nothing."""
        row = self.rows[event]
        return self.sends().get(row.name) if row.kind == "recv" else None

    def row_before(self, event: int) -> Optional[int]:
        """The last earlier row of the host of a row, or None."""
        return self.rows_before()[event]

    def rows_before(self) -> List[Optional[int]]:
        """For each row the last earlier one of its host."""
        if len(self.before) != len(self.rows):
            last: Dict[int, int] = {}
            self.before = []
            for event, row in enumerate(self.rows):
                self.before.append(last.get(row.host))
                last[row.host] = event
        return self.before


# Records


def records_of(data: bytes) -> List[Record]:
    """The records of a text of comma-separated fields, as the program's reader takes them."""
    return list(records_in(data))


def records_in(data: bytes) -> Iterator[Record]:
    """The same, one after another.

    A quote opens a quoted field as its first byte alone, and what follows the closing one is added as it is.
    Blank lines are no records, and a byte order mark at the beginning is left out.
    """
    start = len(BYTE_ORDER_MARK) if data.startswith(BYTE_ORDER_MARK) else 0
    return quoted_records(data, start) if b'"' in data else plain_records(data, start)


PLAIN_LINE = re.compile(rb"[^\r\n]+")
BLANK_LINES = re.compile(rb"[\r\n]*")
END_OF_LINE = re.compile(rb"[\r\n]|\Z")
MOST_PLAIN = 1 << 20  # bytes of a line that is looked at as a whole
PLAIN_FIELDS = re.compile(rb'(?:"[^",]*"(?=,|\Z)|[^",]*)(?:,(?:"[^",]*"(?=,|\Z)|[^",]*))*')  # with nothing odd in quotes
FIELD = re.compile(rb'(?:"([^"]*(?:""[^"]*)*)(?:"|\Z))?([^,\r\n]*)')  # what is in quotes, and what is behind that


def plain_records(data: bytes, start: int) -> Iterator[Record]:
    """The records of a text without quotes: its lines that aren't blank."""
    line, seen = 1, start
    for found in PLAIN_LINE.finditer(data, start):
        begin = found.start()
        line += 1 if begin == seen + 1 else lines_between(data, seen, begin)
        seen = found.end()
        yield Record(shown_field(found.group()).split(","), line, begin)


def lines_between(data: bytes, start: int, end: int) -> int:
    """How many lines end between two places."""
    return len(LINE_END.findall(data[start:end]))


def quoted_records(data: bytes, start: int) -> Iterator[Record]:
    """The records of a text with quotes."""
    line, seen = 1, start
    while True:
        start += len(BLANK_LINES.match(data, start)[0])
        if start >= len(data):
            return
        line += 1 if start == seen + 1 else lines_between(data, seen, start)
        fields, seen = fields_of_record(data, start)
        yield Record(fields, line, start)
        if data.count(b"\n", start, seen) or data.count(b"\r", start, seen):  # in quotes
            line += lines_between(data, start, seen)
        start = seen


def fields_of_record(data: bytes, start: int) -> Tuple[List[str], int]:
    """The fields of the record that begins at a byte, and the byte at which it ends."""
    fields: List[str] = []
    stop = END_OF_LINE.search(data, start).start()
    is_short, quotes = stop - start <= MOST_PLAIN, data.count(b'"', start, stop)
    if is_short and quotes % 2 == 0 and (quotes == 0 or PLAIN_FIELDS.fullmatch(data, start, stop)):
        return shown_field(data[start:stop].replace(b'"', b"")).split(","), stop
    while True:
        if data.startswith(b'"', start):
            found = FIELD.match(data, start)
            quoted, rest = found.groups()
            end = found.end()
            if b'"' in quoted:
                quoted = quoted.replace(b'""', b'"')
            fields.append(shown_field(quoted + rest))
        else:  # all fields before the next one in quotes are taken at once
            stop = stop if stop >= start else END_OF_LINE.search(data, start).start()
            next_quoted = data.find(b',"', start, stop)
            end = stop if next_quoted < 0 else next_quoted
            fields += shown_field(data[start:end]).split(",")
        if not data.startswith(b",", end):
            return fields, end
        start = end + 1


def field_start(data: bytes, record: Record, number: int) -> Optional[int]:
    """The byte at which a field of a record begins, or None where it has fewer."""
    start = record.start
    for _ in range(number):
        start = FIELD.match(data, start).end()
        if data[start : start + 1] != b",":
            return None
        start += 1
    return start


def shown_field(part: bytes) -> str:
    """A field as text; bytes that are none are kept apart from all others."""
    return part.decode("utf-8", "backslashreplace")


# Numbers and names


def is_log_in_json(data: bytes) -> bool:
    """Whether bytes are an object in JSON with hosts and events, of which the program's `json` makes a log.

    One that was cut or is broken otherwise counts too: what is wrong with it is for `json` to say.
    """
    text = data.decode("utf-8", "replace")
    try:
        found = json.loads(text, parse_int=str, parse_float=str)  # a number may have any number of digits
    except (ValueError, RecursionError):
        return bool(re.match(r'\s*\{\s*"(hosts|events)"\s*:\s*\[', text))
    return isinstance(found, dict) and {"hosts", "events"} <= found.keys()


def number(text: str, most: int) -> Optional[int]:
    """The number without sign or leading zero that a text is, up to most, or None."""
    if len(text) > len(str(most)) or not re.fullmatch(r"0|[1-9][0-9]*", text, re.ASCII):
        return None
    return int(text) if int(text) <= most else None


def signed_number(text: str, most: int) -> Optional[int]:
    """The number that a text is, with `-` where it is negative, or None."""
    if not text.startswith("-"):
        return number(text, most)
    found = number(text[1:], most)
    return -found if found else None


def is_name(text: str) -> bool:
    """Whether a text is a name of the log."""
    return NAME.fullmatch(text) is not None


# Logs


class Reader:
    """A log as far as it was read, with what its next records are tested against."""

    most_rows = MOST_ROWS

    def __init__(self, version: int):
        self.log = Log(version)
        self.numbers: Dict[str, int] = {}
        self.sent: Dict[str, int] = {}
        self.terms: List[Terms] = []  # what holds of the rows of each host from here on
        self.told_latency: List[bool] = []
        self.clocks: Dict[str, int] = {}

    def take(self, record: Record) -> int:
        """Takes a record, or gives the number of its fault, 0 where there is none."""
        if len(record.fields) != 4:
            return 2
        kind = record.fields[0]
        if kind not in KINDS[self.log.version]:
            return 3
        if kind == "host":
            return self.take_host(record)
        if kind == "resync":
            return self.take_resync(record)
        if kind == "latency":
            return self.take_latency(record)
        if kind == "clock":
            return self.take_clock(record)
        if kind == "bound":
            return self.take_bound(record)
        return self.take_row(record)

    def take_host(self, record: Record) -> int:
        _, name, skew_text, gap_text = record.fields
        if not is_name(name) or name in NO_HOST_NAMES:
            return 4
        if name in self.numbers:
            return 5
        if len(self.log.hosts) >= MOST_HOSTS:
            return 12
        skew, gap = number(skew_text, MOST_SKEW), number(gap_text, MOST_SKEW)
        if skew is None or gap is None:
            return 7
        self.numbers[name] = len(self.log.hosts)
        self.log.hosts.append(Host(name, skew, gap))
        self.terms.append(Terms(skew, gap))
        self.told_latency.append(False)
        return 0

    def take_resync(self, record: Record) -> int:
        _, name, skew_text, gap_text = record.fields
        if name not in self.numbers:
            return 6
        skew, gap = number(skew_text, MOST_SKEW), number(gap_text, MOST_SKEW)
        if skew is None or gap is None:
            return 7
        host = self.numbers[name]
        self.terms[host] = self.terms[host]._replace(skew=skew, gap=gap)
        return 0

    def take_latency(self, record: Record) -> int:
        _, name, least_text, most_text = record.fields
        if name not in self.numbers:
            return 6
        host = self.numbers[name]
        if self.told_latency[host]:
            return 15
        least = number(least_text, MOST_SKEW)
        most = None if most_text == "inf" else number(most_text, MOST_SKEW)
        if not least or (most is None and most_text != "inf"):
            return 7
        if most is not None and most < least:
            return 16
        self.log.hosts[host].least, self.log.hosts[host].most = least, most
        self.told_latency[host] = True
        return 0

    def take_clock(self, record: Record) -> int:
        _, name, error_text, clock = record.fields
        if name not in self.numbers:
            return 6
        error = number(error_text, MOST_SKEW)
        if error is None:
            return 7
        if not is_name(clock):
            return 8
        if clock not in self.clocks:
            if len(self.clocks) >= MOST_CLOCKS:
                return 17
            self.clocks[clock] = len(self.clocks)
            self.log.clocks.append(clock)
        host = self.numbers[name]
        self.terms[host] = self.terms[host]._replace(clock=self.clocks[clock], error=error)
        return 0

    def take_bound(self, record: Record) -> int:
        _, later_text, earlier_text, most_text = record.fields
        later, earlier = number(later_text, MOST_ROW_NUMBER), number(earlier_text, MOST_ROW_NUMBER)
        most = signed_number(most_text, MOST_EXTRA)
        if later is None or earlier is None or most is None:
            return 7
        if later == earlier:
            return 18
        if len(self.log.extras) >= MOST_EXTRAS:
            return 19
        self.log.extras.append(Extra(later, earlier, most, record.line))
        return 0

    def take_row(self, record: Record) -> int:
        kind, host_name, stamp_text, name = record.fields
        if host_name not in self.numbers:
            return 6
        stamp = signed_number(stamp_text, MOST_STAMP)
        if stamp is None:
            return 7
        if not is_name(name):
            return 8
        if kind == "send" and name in self.sent:
            return 9
        if len(self.log.rows) >= self.most_rows:
            return 13
        if kind == "send":
            self.sent[name] = len(self.log.rows)
        host = self.numbers[host_name]
        skew, gap, *reading = self.terms[host]
        self.log.rows.append(Row(host, stamp, kind, name, skew, gap, record.line, *reading))
        return 0


def read_log(data: bytes) -> Union[Log, Fault]:
    """The log that bytes are, or its fault."""
    records = records_in(data)
    header = next(records, None)
    version = HEADERS.get(tuple(header.fields)) if header else None
    if version is None:
        return Fault(1, 1)
    reader = Reader(version)
    places: List[int] = []
    for place, record in enumerate(records, start=2):
        fault = reader.take(record)
        if fault:
            return Fault(fault, place)
        if len(places) < len(reader.log.rows):
            places.append(place)
    for place, row in zip(places, reader.log.rows):
        if row.kind == "recv" and row.name not in reader.sent:
            return Fault(10, place)
    return fault_of_whole(reader.log, data) or reader.log


def fault_of_whole(log: Log, data: bytes) -> Optional[Fault]:
    """The fault that only the whole file tells: it has no row, or not the one that a bound record names."""
    count = len(log.rows)
    if not count:
        return Fault(11, None)
    is_beyond = (max(extra.later, extra.earlier) >= count for extra in log.extras)
    wrong = next((number for number, is_wrong in enumerate(is_beyond) if is_wrong), None)
    return None if wrong is None else Fault(20, record_numbered(data, ("bound",), wrong))


def record_numbered(data: bytes, kinds: Sequence[str], wanted: int) -> int:
    """The number of the record of a file that is the one of some kinds with a number, from 0."""
    count = -1
    for place, record in enumerate(records_in(data), start=1):
        count += record.fields[0] in kinds
        if count == wanted:
            return place
    raise IndexError(wanted)


def rows_in(data: bytes) -> int:
    """How many records of a file are rows, whatever else is wrong with it."""
    return sum(record.fields[0] in ROW_KINDS for record in records_in(data))


def declared_hosts(records: Iterable[Record]) -> List[str]:
    """The names of the hosts that records declare, whatever else is wrong with them."""
    return [record.fields[1] for record in records if record.fields[0] == "host" and len(record.fields) > 1]


# Bounds


class Bound(NamedTuple):
    """The bound `t_start - t_end <= most`.

    An end that is None is the zero moment, whose time is 0. From the number of rows on ends are the clocks, in their
    order, whose times are their offsets.
    """

    start: Optional[int]
    end: Optional[int]
    most: int


def bound_of(log: Log, kind: str, event: int) -> Optional[Bound]:
    """The bound that a report names by kind and row, or number, or None where the log has none such."""
    if kind == "extra":
        return Bound(*log.extras[event][:3]) if 0 <= event < len(log.extras) else None
    if not 0 <= event < len(log.rows):
        return None
    row = log.rows[event]
    if kind in ("under", "over"):
        return reading_bound(row, kind, event, len(log.rows))
    if kind == "low":
        return Bound(None, event, row.skew - row.stamp)
    if kind == "high":
        return Bound(event, None, row.stamp + row.skew)
    if kind == "rise":
        before = log.row_before(event)
        return None if before is None else Bound(before, event, -row.gap)
    send = log.send_of(event)
    host = log.hosts[row.host]
    if kind == "message" and send is not None:
        return Bound(send, event, -host.least)
    if kind == "late" and send is not None and host.most is not None:
        return Bound(event, send, host.most)
    return None


def reading_bound(row: Row, kind: str, event: int, count: int) -> Optional[Bound]:
    """The bound of a row and the clock that it reads: it isn't before, or not after, what the reading allows."""
    if row.clock is None:
        return None
    if kind == "under":
        return Bound(count + row.clock, event, row.error - row.stamp)
    return Bound(event, count + row.clock, row.stamp + row.error)


# States


def change_rows(log: Log, host: int, name: str) -> List[int]:
    """The rows that set or clear a proposition, in their order."""
    return [
        event
        for event, row in enumerate(log.rows)
        if row.host == host and row.name == name and row.kind in ("set", "clear")
    ]


def pulse_rows(log: Log, times: Sequence[int], moment: int, host: int, name: str) -> List[int]:
    """The rows that pulse a proposition at a moment."""
    return [
        event
        for event, row in enumerate(log.rows)
        if times[event] == moment and (row.kind, row.host, row.name) == ("pulse", host, name)
    ]


def is_set_at(log: Log, times: Sequence[int], moment: int, host: int, name: str) -> bool:
    """Whether the last change of a proposition up to a moment is a `set`."""
    past = [event for event in change_rows(log, host, name) if times[event] <= moment]
    return bool(past) and log.rows[past[-1]].kind == "set"


def state_at(log: Log, times: Sequence[int], moment: int, host: int, name: str) -> bool:
    """Whether a proposition is true at a moment: it is pulsed or set there."""
    return bool(pulse_rows(log, times, moment, host, name)) or is_set_at(log, times, moment, host, name)


def proposition_names(log: Log, host: int) -> List[str]:
    """The names that rows of a host set, clear or pulse, each once."""
    kinds = ("set", "clear", "pulse")
    return list(dict.fromkeys(row.name for row in log.rows if row.host == host and row.kind in kinds))
