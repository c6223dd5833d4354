"""A slow, plain reading of log files of all three versions, and the one text of a log.

Each version has a header of its own, and may hold what the one before may hold.
Version 2 adds a resync, which gives a host another skew and gap from there on, a
latency, which says how long the messages to a host take, and a pulse. Version 3
adds a clock, which says that the stamps of a host are from there on readings of
a clock with one offset, and a bound, which says by how much at most one row is
later than another. The log that is read doesn't tell which version its file was
of.
"""

from typing import NamedTuple, Optional

from formats import is_name, number, signed_number

LOG_LIMIT = 1_048_576
HOST_LIMIT = 64
ROW_LIMIT = 1_024
CLOCK_LIMIT = 1_024
BOUND_LIMIT = 1_048_575

SKEW_GREATEST = 10**18
LATENCY_GREATEST = 10**18
LOCAL_GREATEST = 4 * 10**18
ERROR_GREATEST = 10**18
APART_GREATEST = 10**20  # of what a bound says of two rows, whatever its sign
ROW_GREATEST = 2**32 - 1  # that a bound may name; whether the log has it is another question


# Logs


class Host(NamedTuple):
    name: bytes
    skew: int
    gap: int
    least: int = 1  # what a message to the host takes at least
    most: Optional[int] = None  # and at most; None where it may take any time


class Row(NamedTuple):
    host: int  # the number of its host
    local: int
    act: bytes  # set, clear, send, recv, note or pulse
    name: bytes


class Resync(NamedTuple):
    """From here on a host has another skew and gap."""

    place: int  # the number of rows before it
    host: int
    skew: int
    gap: int


class Extra(NamedTuple):
    """A bound between rows: the time of one row less that of another is at most a number."""

    first: int
    second: int
    most: int


class Reading(NamedTuple):
    """From here on the stamps of a host are readings of a clock, each off by at most an error from what it shows."""

    place: int  # the number of rows before it
    host: int
    error: int
    clock: int  # the number of its clock


class Log(NamedTuple):
    hosts: list
    rows: list
    resyncs: list
    extras: list  # the bounds between rows
    clocks: list  # the names of clocks, in the order in which they are first read
    readings: list


class LogFault(NamedTuple):
    number: int
    record: Optional[int]  # None where the fault lies in no record


def log_of_rows(hosts, rows):
    """The log of hosts and rows, without anything more."""
    return Log(hosts, rows, [], [], [], [])


def host_number(log, name):
    """The number of the host with that name, or None."""
    for place, host in enumerate(log.hosts):
        if host.name == name:
            return place
    return None


def sent_names(log):
    """The messages that the rows of the log send."""
    return [row.name for row in log.rows if row.act == b"send"]


def widened(log, more):
    """The log with all skews, of hosts and of resyncs, greater by a number."""
    hosts, resyncs = ([each._replace(skew=each.skew + more) for each in given] for given in (log.hosts, log.resyncs))
    return log._replace(hosts=hosts, resyncs=resyncs)


def with_extra(log, extra):
    """The log with one bound more."""
    return log._replace(extras=[*log.extras, extra])


# Records

# The headers of versions 1, 2 and 3, which differ in their first field.
HEADERS = [[word, b"host", b"time", b"name"] for word in (b"kind", b"skewlog2", b"skewlog3")]
HEADER, SECOND_HEADER, THIRD_HEADER = HEADERS

EVENT_KINDS = (b"set", b"clear", b"send", b"recv", b"note", b"pulse")
FIRST_KINDS = (b"host", b"set", b"clear", b"send", b"recv", b"note")
SECOND_KINDS = (b"host", b"resync", b"latency", *EVENT_KINDS)
THIRD_KINDS = (*SECOND_KINDS, b"clock", b"bound")
KINDS = (FIRST_KINDS, SECOND_KINDS, THIRD_KINDS)
KEPT_WORDS = (b"true", b"false", b"inf")
LINE_ENDS = b"\r\n"


def csv_records(data):
    """The records of a comma-separated text, each a list of its fields.

    A quote opens a quoted field only as the first byte of the field. In it two
    quotes stand for one, and a single quote closes it; what then follows up to
    the comma or the line's end is added as it is. Commas and line ends inside
    quotes are plain bytes. Empty lines give no record. At the end of the text
    an open record is complete, whether quotes are closed or not.
    """
    if data.startswith(b"\xef\xbb\xbf"):
        data = data[3:]
    records, record, field = [], [], bytearray()
    place = "line start"
    for byte in data:
        if place == "line start":
            if byte in LINE_ENDS:
                continue
            place = "field start"
        if place == "field start" and byte == ord('"'):
            place = "quoted"
        elif place == "quoted" and byte == ord('"'):
            place = "after quote"
        elif place == "quoted":
            field.append(byte)
        elif place == "after quote" and byte == ord('"'):
            field.append(byte)
            place = "quoted"
        elif byte == ord(","):
            record.append(bytes(field))
            field.clear()
            place = "field start"
        elif byte in LINE_ENDS:
            record.append(bytes(field))
            field.clear()
            records.append(record)
            record = []
            place = "line start"
        else:
            field.append(byte)
            place = "unquoted"
    if place != "line start":
        record.append(bytes(field))
        records.append(record)
    return records


# Logs from records


def read_log(data):
    """The log that the bytes spell, or its LogFault."""
    return log_of_records(csv_records(data))


def log_of_records(records):
    """The log that records list, or its LogFault."""
    if not records or records[0] not in HEADERS:
        return LogFault(1, 1)
    log = log_of_rows([], [])
    for place, record in enumerate(records[1:], start=2):
        fault = record_fault(log, records, place)
        if fault:
            return LogFault(fault, place)
        add_record(log, record)
    return fault_of_whole(log, records) or log


def fault_of_whole(log, records):
    """The LogFault of records of which none is faulty by itself, or None; the log is what they say.

    First each received message has to be sent, then there has to be a row, and
    then each bound has to name rows that there are.
    """
    sent = set(sent_names(log))
    for place, record in enumerate(records, start=1):
        if record[0] == b"recv" and record[3] not in sent:
            return LogFault(10, place)
    if not log.rows:
        return LogFault(11, None)
    for place, record in enumerate(records, start=1):
        if record[0] == b"bound" and max(int(record[1]), int(record[2])) >= len(log.rows):
            return LogFault(20, place)
    return None


def record_fault(log, records, place):
    """The number of the first test that the record of a place fails, or 0; the log is that of the records before."""
    record = records[place - 1]
    if len(record) != 4:
        return 2
    kind = record[0]
    if kind not in KINDS[HEADERS.index(records[0])]:
        return 3
    if kind == b"latency":
        return latency_fault(log, records[1 : place - 1], record)
    return FAULTS_BY_KIND.get(kind, event_fault)(log, record)


def host_fault(log, record):
    """The number of the first test that a host record fails, or 0."""
    _, name, skew, gap = record
    if not is_name(name) or name in KEPT_WORDS:
        return 4
    if host_number(log, name) is not None:
        return 5
    if len(log.hosts) >= HOST_LIMIT:
        return 12
    if number(skew, SKEW_GREATEST) is None or number(gap, SKEW_GREATEST) is None:
        return 7
    return 0


def resync_fault(log, record):
    """The number of the first test that a resync record fails, or 0."""
    _, host, skew, gap = record
    if host_number(log, host) is None:
        return 6
    if number(skew, SKEW_GREATEST) is None or number(gap, SKEW_GREATEST) is None:
        return 7
    return 0


def latency_fault(log, before, record):
    """The number of the first test that a latency record fails after the records before it, or 0."""
    _, host, least, most = record
    if host_number(log, host) is None:
        return 6
    if any(other[:2] == [b"latency", host] for other in before):
        return 15
    if not number(least, LATENCY_GREATEST):
        return 7  # it isn't a number, or it is 0
    if most == b"inf":
        return 0
    if number(most, LATENCY_GREATEST) is None:
        return 7
    return 16 if int(most) < int(least) else 0


def clock_fault(log, record):
    """The number of the first test that a clock record fails, or 0."""
    _, host, error, name = record
    if host_number(log, host) is None:
        return 6
    if number(error, ERROR_GREATEST) is None:
        return 7
    if not is_name(name):
        return 8
    if name not in log.clocks and len(log.clocks) >= CLOCK_LIMIT:
        return 17
    return 0


def bound_fault(log, record):
    """The number of the first test that a bound record fails, or 0. Whether the log has its rows is known at the end."""
    _, later, earlier, most = record
    if number(later, ROW_GREATEST) is None or number(earlier, ROW_GREATEST) is None:
        return 7
    if signed_number(most, APART_GREATEST) is None:
        return 7
    if later == earlier:
        return 18
    return 19 if len(log.extras) >= BOUND_LIMIT else 0


def event_fault(log, record):
    """The number of the first test that an event record fails, or 0."""
    kind, host, local, name = record
    if host_number(log, host) is None:
        return 6
    if signed_number(local, LOCAL_GREATEST) is None:
        return 7
    if not is_name(name):
        return 8
    if kind == b"send" and name in sent_names(log):
        return 9
    if len(log.rows) >= ROW_LIMIT:
        return 13
    return 0


FAULTS_BY_KIND = {b"host": host_fault, b"resync": resync_fault, b"clock": clock_fault, b"bound": bound_fault}


def add_record(log, record):
    """Adds what a record without fault says to the log of the records before it."""
    kind, second, third, fourth = record
    host = host_number(log, second)
    if kind == b"host":
        log.hosts.append(Host(second, int(third), int(fourth)))
    elif kind == b"resync":
        log.resyncs.append(Resync(len(log.rows), host, int(third), int(fourth)))
    elif kind == b"latency":
        most = None if fourth == b"inf" else int(fourth)
        log.hosts[host] = log.hosts[host]._replace(least=int(third), most=most)
    elif kind == b"clock":
        log.readings.append(Reading(len(log.rows), host, int(third), clock_number(log.clocks, fourth)))
    elif kind == b"bound":
        log.extras.append(Extra(int(second), int(third), int(fourth)))
    else:
        log.rows.append(Row(host, int(third), kind, fourth))


def clock_number(clocks, name):
    """The number of the clock with that name, which is added where it is new."""
    if name not in clocks:
        clocks.append(name)
    return clocks.index(name)


# The text of a log


def log_text(log):
    """The one text of a log: that of the first version that can say all."""
    return b"".join(b",".join(record) + b"\n" for record in records_of(log))


def records_of(log):
    """The records of the text of a log, the header among them."""
    hosts = [host_record(host) for host in log.hosts]
    latencies = [latency_record(host) for host in log.hosts if has_latency(host)]
    return [HEADERS[version_of(log) - 1], *hosts, *latencies, *event_records(log)]


def version_of(log):
    """The first version that can say all of a log."""
    if log.readings or log.extras:
        return 3
    has_pulse = any(row.act == b"pulse" for row in log.rows)
    return 2 if has_pulse or log.resyncs or any(map(has_latency, log.hosts)) else 1


def has_latency(host):
    """Whether more is said of the messages to a host than that they take at least 1."""
    return (host.least, host.most) != (1, None)


def host_record(host):
    """The record that declares a host."""
    return [b"host", host.name, b"%d" % host.skew, b"%d" % host.gap]


def latency_record(host):
    """The record of what messages to a host take."""
    most = b"inf" if host.most is None else b"%d" % host.most
    return [b"latency", host.name, b"%d" % host.least, most]


def event_records(log):
    """The records behind those of hosts: rows, with each resync and reading directly before the row that its place
    names, or last, and then the bounds between rows. At one place the resyncs come first."""
    for place in range(len(log.rows) + 1):
        for resync in placed(log.resyncs, place):
            yield [b"resync", log.hosts[resync.host].name, b"%d" % resync.skew, b"%d" % resync.gap]
        for reading in placed(log.readings, place):
            yield [b"clock", log.hosts[reading.host].name, b"%d" % reading.error, log.clocks[reading.clock]]
        for row in log.rows[place : place + 1]:
            yield [row.act, log.hosts[row.host].name, b"%d" % row.local, row.name]
    for extra in log.extras:
        yield [b"bound", *(b"%d" % number for number in extra)]


def placed(items, place):
    """Those of the resyncs or the readings that have a place."""
    return [item for item in items if item.place == place]
