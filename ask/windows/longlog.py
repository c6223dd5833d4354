"""Logs of any number of rows, kept as columns and read in one pass."""

from __future__ import annotations

from array import array
from typing import Dict, Iterable, Iterator, List, Optional, Sequence, Tuple, Union, overload

from ask.logs import (
    HEADERS, ROW_KINDS, Fault, Log, Reader, Record, Row, Terms, fault_of_whole, record_numbered, records_in,
)

CODES = {kind: code for code, kind in enumerate(ROW_KINDS)}
SET, CLEAR, SEND, RECV, NOTE, PULSE = (CODES[kind] for kind in ("set", "clear", "send", "recv", "note", "pulse"))
NONE = -1  # in place of the number of a row, where there is none
MOST_LONG_ROWS = 2**31 - 1
SHORT_STAMP = 18  # digits of a stamp that is surely in its range


class Rows(Sequence[Row]):
    """Rows as columns, an entry of each for a row."""

    def __init__(self) -> None:
        self.host, self.stamp, self.kind = array("B"), array("q"), bytearray()
        self.name, self.term, self.line = array("I"), array("I"), array("I")
        self.names: List[str] = []  # of which the column has the places
        self.number_of: Dict[str, int] = {}
        self.terms: List[Terms] = []  # of which the column has the places
        self.term_of: Dict[Terms, int] = {}

    def __len__(self) -> int:
        return len(self.stamp)

    @overload
    def __getitem__(self, event: int) -> Row: ...

    @overload
    def __getitem__(self, event: slice) -> List[Row]: ...

    def __getitem__(self, event: Union[int, slice]) -> Union[Row, List[Row]]:
        if isinstance(event, slice):
            return [self[place] for place in range(*event.indices(len(self)))]
        kind, name = ROW_KINDS[self.kind[event]], self.names[self.name[event]]
        skew, gap, *reading = self.terms[self.term[event]]
        return Row(self.host[event], self.stamp[event], kind, name, skew, gap, self.line[event], *reading)

    def append(self, row: Row) -> None:
        """Adds a row."""
        number = self.number_of.setdefault(row.name, len(self.names))
        if number == len(self.names):
            self.names.append(row.name)
        term = self.term_numbered(Terms(row.skew, row.gap, row.clock, row.error))
        self.add(row.host, row.stamp, CODES[row.kind], number, term, row.line)

    def term_numbered(self, terms: Terms) -> int:
        """The place of what holds of a row, which is kept."""
        number = self.term_of.setdefault(terms, len(self.terms))
        if number == len(self.terms):
            self.terms.append(terms)
        return number

    def add(self, host: int, stamp: int, code: int, name: int, term: int, line: int) -> None:
        """Adds a row whose name and terms have places."""
        self.host.append(host)
        self.stamp.append(stamp)
        self.kind.append(code)
        self.name.append(name)
        self.term.append(term)
        self.line.append(line)

    def skews(self) -> Iterator[int]:
        """The skew of each row."""
        skews = [terms.skew for terms in self.terms]
        return (skews[term] for term in self.term)

    def gaps(self) -> array:
        """The gap of each row."""
        gaps = [terms.gap for terms in self.terms]
        return array("q", (gaps[term] for term in self.term))

    def readings(self) -> Iterator[Tuple[int, int, int, int]]:
        """The rows that read a clock, each with the clock, and the stamp less and more the error of the reading."""
        if all(terms.clock is None for terms in self.terms):
            return
        for event, (stamp, term) in enumerate(zip(self.stamp, self.term)):
            terms = self.terms[term]
            if terms.clock is not None:
                yield event, terms.clock, stamp - terms.error, stamp + terms.error


class Links:
    """Numbers by the rows that they belong to: of each row the last one, and from each number the one before it."""

    def __init__(self, count: int, rows: Iterable[int]):
        self.last, self.before = array("i", [NONE]) * count, array("i")
        for number, row in enumerate(rows):
            self.before.append(self.last[row])
            self.last[row] = number

    def of(self, row: int) -> Iterator[int]:
        """The numbers of a row."""
        found = self.last[row]
        while found != NONE:
            yield found
            found = self.before[found]


class LongLog(Log):
    """A log of any number of rows, with the rows that its rows have to do with."""

    rows: Rows  # type: ignore[assignment]

    def __init__(self, version: int):
        super().__init__(version)
        self.rows = Rows()
        self.true_names: List[Dict[int, None]] = []  # what set_names found

    def settle(self) -> None:
        """Finds what the rows have to do with each other, when all of them are there."""
        count = len(self.rows)
        self.of: List[array] = [array("i") for _ in self.hosts]  # the rows of each host
        self.place = array("i", bytes(4 * count))  # of each row among those of its host
        for event, host in enumerate(self.rows.host):
            events = self.of[host]
            self.place[event] = len(events)
            events.append(event)
        self.earlier, self.later = (array("i", [NONE]) * count for _ in range(2))  # the next rows of the host
        for events in self.of:
            for first, second in zip(events, events[1:]):
                self.earlier[second], self.later[first] = first, second
        self.settle_messages(count)
        self.extras_of = Links(count, (extra.later for extra in self.extras)) if self.extras else None

    def settle_messages(self, count: int) -> None:
        """Finds the send of each receive, and of each send its last receive, from each of which the one before it."""
        kind, name = self.rows.kind, self.rows.name
        self.sender, self.receiver, self.receiver_before = (array("i", [NONE]) * count for _ in range(3))
        sends = {name[event]: event for event in range(count) if kind[event] == SEND}
        for event in range(count):
            if kind[event] == RECV:
                send = sends.get(name[event], NONE)
                self.sender[event] = send
                if send != NONE:
                    self.receiver_before[event] = self.receiver[send]
                    self.receiver[send] = event

    def stamps(self) -> Sequence[int]:  # type: ignore[override]
        return self.rows.stamp

    def send_of(self, event: int) -> Optional[int]:
        send = self.sender[event]
        return None if send == NONE else send

    def row_before(self, event: int) -> Optional[int]:
        before = self.earlier[event]
        return None if before == NONE else before

    def receivers(self, event: int) -> Iterator[int]:
        """The rows that receive what a row sends."""
        found = self.receiver[event]
        while found != NONE:
            yield found
            found = self.receiver_before[found]

    def extras_after(self, event: int) -> Iterator[int]:
        """The bound records by which a row is at most so much after another, by their numbers."""
        return self.extras_of.of(event) if self.extras_of else iter(())

    def rows_of(self, kind: str, number: int) -> Tuple[int, ...]:
        """The rows that a bound of a report names by its kind and number."""
        return self.extras[number][:2] if kind == "extra" else (number,)

    def low(self) -> array:
        """For each row the least time that its own stamp allows."""
        return array("q", (stamp - skew for stamp, skew in zip(self.rows.stamp, self.rows.skews())))

    def high(self) -> array:
        """For each row the greatest time that its own stamp allows."""
        return array("q", (stamp + skew for stamp, skew in zip(self.rows.stamp, self.rows.skews())))

    def latencies(self) -> List[Tuple[int, int, int]]:
        """The messages that have a greatest latency: the send, the receive, and that latency."""
        most = [host.most for host in self.hosts]
        if not any(greatest is not None for greatest in most):
            return []
        return [
            (send, event, most[host])
            for event, (host, send) in enumerate(zip(self.rows.host, self.sender))
            if send != NONE and most[host] is not None
        ]

    def set_names(self, host: int) -> List[str]:
        if not self.true_names:
            self.true_names = [{} for _ in self.hosts]
            for place, code, name in zip(self.rows.host, self.rows.kind, self.rows.name):
                if code in (SET, PULSE):
                    self.true_names[place][name] = None
        return [self.rows.names[name] for name in self.true_names[host]]


class LongReader(Reader):
    """A long log as far as it was read."""

    most_rows = MOST_LONG_ROWS

    def __init__(self, version: int):
        super().__init__(version)
        self.log: LongLog = LongLog(version)
        self.codes = {kind: code for kind, code in CODES.items() if kind != "send" and (version > 1 or kind != "pulse")}

    def take(self, record: Record) -> int:
        """Takes a record as the reader of short logs does; most rows are seen to be right at a glance."""
        if len(record.fields) == 4:
            kind, host_name, stamp, name = record.fields
            code, host = self.codes.get(kind), self.numbers.get(host_name)
            number = self.log.rows.number_of.get(name)
            if code is not None and host is not None and number is not None and is_short_stamp(stamp):
                term = self.log.rows.term_numbered(self.terms[host])
                self.log.rows.add(host, int(stamp), code, number, term, record.line)
                return 0
        return super().take(record)


def is_short_stamp(text: str) -> bool:
    """Whether a text is surely a stamp: a few digits without a leading zero."""
    return len(text) <= SHORT_STAMP and text.isdigit() and text.isascii() and (text[0] != "0" or text == "0")


def read_long_log(data: bytes) -> Union[LongLog, Fault]:
    """The log of any number of rows that bytes are, or its fault, which is the one that a short log would have."""
    records = records_in(data)
    header = next(records, None)
    version = HEADERS.get(tuple(header.fields)) if header else None
    if version is None:
        return Fault(1, 1)
    reader = LongReader(version)
    for place, record in enumerate(records, start=2):
        fault = reader.take(record)
        if fault:
            return Fault(fault, place)
    return fault_of_messages(reader, data) or fault_of_whole(reader.log, data) or settled(reader.log)


def fault_of_messages(reader: LongReader, data: bytes) -> Optional[Fault]:
    """The fault that a message is received which no row sends."""
    rows = reader.log.rows
    sent = {rows.number_of[name] for name in reader.sent}
    unmatched = next((e for e, code in enumerate(rows.kind) if code == RECV and rows.name[e] not in sent), None)
    return None if unmatched is None else Fault(10, record_numbered(data, ROW_KINDS, unmatched))


def settled(log: LongLog) -> LongLog:
    """A log all of whose rows are there."""
    log.settle()
    return log
