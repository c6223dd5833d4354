"""Random logs and their files, many of them broken.

Every function takes a source of chance, random.Random, first. A log may have
what only version 2 can say, and what only version 3 can, in the shares of cases
that are set below.
"""

from typing import NamedTuple

import logs
from logs import Extra, Host, Reading, Resync, Row

HOST_NAMES = [b"a", b"b", b"c", b"web", b"h_1", b"u2", b"truer", b"inf0", b"h" * 32]
EVENT_NAMES = [b"p", b"p", b"p", b"q", b"q", b"r", b"true", b"inf", b"x_1", b"n" * 32]
CLOCK_NAMES = [b"m", b"m", b"m", b"m", b"a", b"p", b"true", b"inf", b"k_1", b"c" * 32]
BASES = [0, 0, 3, 10, 10, -5, 100, 1_700_000_000_000_000, 4 * 10**18 - 60, 60 - 4 * 10**18]
EVENT_KINDS = [b"set", b"set", b"set", b"clear", b"clear", b"note", b"send", b"recv"]
GREATEST = 10**18
HUGE_NUMBER = b"9" * 5000

# The shares of logs that may be of version 2, and of version 3, which the words of a comparison may set.
second_share = 0.4
third_share = 0.4


def chance(draw, share):
    """True in that share of the calls."""
    return draw.random() < share


def is_second(draw):
    """Whether something is of version 2."""
    return second_share > 0 and chance(draw, second_share)


def is_third(draw):
    """Whether something is of version 3."""
    return third_share > 0 and chance(draw, third_share)


def versions():
    """The versions of which logs may be."""
    return [1, *[2] * (second_share > 0), *[3] * (third_share > 0)]


def may_be(text):
    """Whether there may be logs of the version of a log's text, which may be none."""
    header = text.partition(b"\n")[0].split(b",")
    return header not in logs.HEADERS or logs.HEADERS.index(header) + 1 in versions()


# Logs


def some_hosts(draw):
    """One to three hosts."""
    names = draw.sample(HOST_NAMES, draw.randint(1, 3))
    return [Host(name, draw.randint(0, 6), draw.randint(0, 3)) for name in names]


def some_log(draw):
    """A log of a few rows, more often than not with an admissible timing."""
    return steady_log(draw) if chance(draw, 0.75) else wild_log(draw)


def steady_log(draw):
    """A log whose local times, latencies and bounds come from a timing that keeps its bounds."""
    hosts = some_hosts(draw)
    names = some_names(draw)
    second, clocks = is_second(draw), Clocks(draw)
    kinds = EVENT_KINDS + [b"send", b"recv", b"recv", b"recv"] * 2 if second and chance(draw, 0.6) else EVENT_KINDS
    moment = draw.choice(BASES)
    settings = list(hosts)  # what tells the skew and the gap of each host from here on
    moments, sent, delays, items = {}, [], {}, []
    for _ in range(draw.choice((1, 2, 3, 4, 4, 5, 5, 6, 6, 7, 7))):
        for resync in some_resyncs(draw, hosts) if second else ():
            settings[resync.host] = resync
            items.append(resync)
        items += clocks.some_readings(hosts)
        host = draw.randrange(len(hosts))
        moment += draw.randint(0, 3)
        if host in moments:
            moment = max(moment, moments[host][-1] + settings[host].gap)
        moments.setdefault(host, []).append(moment)
        act, name = steady_act(draw, kinds, names, sent, moment)
        if act == b"recv":
            delays.setdefault(host, []).append(moment - dict(sent)[name])
        if second and act in (b"set", b"clear") and chance(draw, 0.4):
            act = b"pulse"
        items.append(Row(host, clocks.local(host, moment, settings[host].skew), act, name))
    items += clocks.some_readings(hosts)
    if second:
        hosts = [with_latency(draw, host, delays.get(place, [])) for place, host in enumerate(hosts)]
        items += [some_resync(draw, hosts) for _ in range(draw.choice((0, 0, 1)))]
    log = log_of(hosts, merged(draw, items) if chance(draw, 0.6) else items)
    return with_extras(draw, log, [moments[row.host].pop(0) for row in log.rows]) if clocks.is_third else log


class Named(NamedTuple):
    """A reading of which the clock's name is told, and its place and the clock's number aren't yet."""

    host: int
    error: int
    name: bytes


class Clocks:
    """The clocks that the rows of a log read, if it may be of version 3, with their offsets.

    Several hosts may read one clock, and a host may turn to another one, or
    tell another error. A reading may have no row behind it.
    """

    def __init__(self, draw):
        self.draw = draw
        self.is_third = is_third(draw)
        self.names = draw.sample(CLOCK_NAMES, 2)
        self.offsets = {name: draw.randint(-3, 3) for name in self.names}
        self.read = {}  # what the next row of each host reads
        self.share = draw.choice((0, 0.2, 0.5, 0.8)) if self.is_third else 0

    def some_readings(self, hosts):
        """Readings of some hosts, mostly of such as read no clock yet."""
        found = []
        for host in range(len(hosts)):
            if chance(self.draw, self.share / 4 if host in self.read else self.share):
                self.read[host] = Named(host, some_error(self.draw), self.draw.choice(self.names))
                found.append(self.read[host])
        return found

    def local(self, host, moment, skew):
        """The stamp of a row of a host at a moment, which keeps the skew, and what it reads where both can be."""
        least, most = moment - skew, moment + skew
        if host in self.read:
            reading = self.read[host]
            shown = moment - self.offsets[reading.name]
            least = min(max(least, shown - reading.error), most)
            most = max(min(most, shown + reading.error), least)
        return self.draw.randint(least, most)


def some_error(draw):
    """The error of a reading, mostly small."""
    return draw.choice((0, 0, 0, 1, 1, 2, 3, 10, GREATEST))


def with_extras(draw, log, times):
    """The log with some bounds between rows, most of which the times keep."""
    log.extras.extend(some_extras(draw, times))
    return log


def some_extras(draw, times):
    """Bounds between rows, most of which the times keep, and often one both ways."""
    found = []
    for _ in range(draw.choice((0, 0, 1, 1, 2, 3)) if len(times) > 1 else 0):
        first, second = draw.sample(range(len(times)), 2)
        apart = times[first] - times[second]
        found.append(Extra(first, second, apart + draw.choice((0, 0, 0, 1, 2, 5, -1))))
        if chance(draw, 0.4):
            found.append(Extra(second, first, draw.choice((0, 0, 1, 3, -1)) - apart))
        if chance(draw, 0.1):
            found.append(Extra(first, second, draw.choice((0, -1, 10**18, logs.APART_GREATEST, -logs.APART_GREATEST))))
    return found


def some_resyncs(draw, hosts):
    """No resync, mostly, or some on end."""
    while chance(draw, 0.2):
        yield some_resync(draw, hosts)


def some_resync(draw, hosts):
    """A resync of some host, whose place isn't told yet."""
    return Resync(0, draw.randrange(len(hosts)), draw.randint(0, 6), draw.randint(0, 3))


def with_latency(draw, host, delays):
    """The host, often with a latency, which the delays mostly keep."""
    if chance(draw, 0.4):
        return host
    aside = draw.choice((0, 0, 0, 0, 1))
    least = max(1, min(delays, default=1) - draw.choice((0, 0, 1, 2)) + aside)
    most = max([least, *delays]) + draw.choice((0, 0, 1, 2, 5))
    return host._replace(least=least, most=draw.choice((most, most, most, None)))


def log_of(hosts, items):
    """The log of hosts, and of rows, resyncs and readings in their order."""
    log = logs.log_of_rows(hosts, [])
    for item in items:
        if isinstance(item, Row):
            log.rows.append(item)
        elif isinstance(item, Named):
            clock = logs.clock_number(log.clocks, item.name)
            log.readings.append(Reading(len(log.rows), item.host, item.error, clock))
        else:
            log.resyncs.append(item._replace(place=len(log.rows)))
    return log


def some_names(draw):
    """The few names that the rows of a log set and clear."""
    return draw.choices(EVENT_NAMES, k=draw.choice((1, 1, 2, 3)))


def steady_act(draw, kinds, names, sent, moment):
    """An act of some kind and its name; a receive is later than its send, which is added to those sent."""
    act = draw.choice(kinds)
    if act == b"recv":
        earlier = [name for name, sending in sent if sending < moment]
        return (act, draw.choice(earlier)) if earlier else (b"note", b"n")
    if act == b"send":
        sent.append((b"m%d" % len(sent), moment))
        return act, sent[-1][0]
    return act, draw.choice(names)


def merged(draw, items):
    """The rows, resyncs and readings in another order that keeps the order of each host's."""
    queues = {}
    for item in items:
        queues.setdefault(item.host, []).append(item)
    order = [item.host for item in items]
    draw.shuffle(order)
    return [queues[host].pop(0) for host in order]


def wild_log(draw, share_of_messages=0.5):
    """A log with any acts in any order and local times close together."""
    hosts = some_hosts(draw)
    base = draw.choice(BASES)
    kinds = [draw.choice(EVENT_KINDS) for _ in range(draw.randint(1, 7))]
    if chance(draw, share_of_messages):
        kinds = draw.choices((b"send", b"recv", b"recv", b"set"), k=draw.randint(3, 7))
    names = some_names(draw)
    sent = [b"m%d" % place for place in range(kinds.count(b"send"))]
    unsent = list(sent)
    draw.shuffle(unsent)
    rows = []
    for kind in kinds:
        host = draw.randrange(len(hosts))
        base += draw.randint(0, 3)
        local = base + draw.randint(-3, 3)
        kind, name = wild_act(draw, kind, names, sent, unsent)
        rows.append(Row(host, local, kind, name))
    second, third = is_second(draw), is_third(draw)
    items = [wild_pulse(draw, row) for row in rows] if second else list(rows)
    if second:
        put_in(draw, items, lambda: some_resync(draw, hosts))
        delays = [draw.randint(1, 6) for _ in range(draw.randint(0, 2))]
        hosts = [with_latency(draw, host, delays) for host in hosts]
    if third:
        put_in(draw, items, lambda: wild_reading(draw, hosts))
    log = log_of(hosts, items)
    return with_extras(draw, log, [row.local for row in rows]) if third else log


def put_in(draw, items, some):
    """Puts some new items, one or two on end, anywhere among the others."""
    for _ in range(draw.choice((0, 1, 1, 2, 3))):
        place = draw.randint(0, len(items))
        items[place:place] = [some() for _ in range(draw.choice((1, 1, 2)))]


def wild_reading(draw, hosts):
    """A reading of some host."""
    return Named(draw.randrange(len(hosts)), some_error(draw), draw.choice(CLOCK_NAMES))


def wild_pulse(draw, row):
    """The row, often as a pulse where it is a change."""
    is_changed = row.act in (b"set", b"clear") and chance(draw, 0.4)
    return row._replace(act=b"pulse") if is_changed else row


def wild_act(draw, kind, names, sent, unsent):
    """The kind and a name for it; seldom a message that is sent twice or never."""
    if kind == b"send":
        name = unsent.pop()
        return kind, draw.choice(sent) if chance(draw, 0.03) else name
    if kind == b"recv":
        if chance(draw, 0.04):
            return kind, b"lost"
        return (kind, draw.choice(sent)) if sent else (b"note", b"n")
    return kind, draw.choice(names)


def crowded_log(draw):
    """A log with as many hosts and rows as are allowed, or one more."""
    hosts = [Host(b"h%d" % place, 1, 0) for place in range(draw.choice((1, 3, 63, 64, 65)))]
    rows = [
        Row(draw.randrange(len(hosts)), place, b"note", b"n")
        for place in range(draw.choice((1, 5, 63, 64, 65, 1023, 1024, 1025)))
    ]
    second, third = is_second(draw), is_third(draw)
    if second:
        hosts = [with_latency(draw, host, []) for host in hosts]
    items = [*rows, *[some_resync(draw, hosts) for _ in range(draw.choice((1, 100, 1025)) if second else 0)]]
    clocks = draw.choice((1, 5, 1023, 1024, 1025)) if third else 0
    items += [Named(draw.randrange(len(hosts)), some_error(draw), b"c%d" % clock) for clock in range(clocks)]
    log = log_of(hosts, draw.sample(items, len(items)))
    if third and len(rows) > 1:
        ends = [draw.sample(range(len(rows)), 2) for _ in range(draw.choice((1, 100, 5000)))]
        log.extras.extend(Extra(first, second, draw.randint(-1, 2000)) for first, second in ends)
    return log


def records_of(draw, log):
    """The records of a log; a host may stand as late as before its first use, its latency anywhere behind it, a reading
    before resyncs of its place, and a bound between rows anywhere."""
    header, *records = logs.records_of(log)
    if chance(draw, 0.8):
        return [list(some_header(draw, header)), *records]
    records = list(logs.event_records(log))
    exchange_settings(draw, records)
    for host in reversed(log.hosts):
        uses = [at for at, record in enumerate(records) if record[1] == host.name]
        place = draw.randint(0, uses[0] if uses else len(records))
        if logs.has_latency(host) or header != logs.HEADER and chance(draw, 0.2):
            records.insert(draw.randint(place, len(records)), logs.latency_record(host))
        records.insert(place, logs.host_record(host))
    return [list(some_header(draw, header)), *with_bounds_anywhere(draw, records)]


def exchange_settings(draw, records):
    """Puts some readings before the resyncs that stand directly before them, which says the same."""
    for place in range(1, len(records)):
        pair = records[place - 1 : place + 1]
        if [record[0] for record in pair] == [b"resync", b"clock"] and chance(draw, 0.6):
            records[place - 1 : place + 1] = reversed(pair)


def with_bounds_anywhere(draw, records):
    """The records with those of bounds between rows, in their order, anywhere."""
    others = [record for record in records if record[0] != b"bound"]
    bounds = [record for record in records if record[0] == b"bound"]
    places = sorted(draw.randint(0, len(others)) for _ in bounds)
    for place, record in reversed(list(zip(places, bounds))):
        others.insert(place, record)
    return others


def some_header(draw, header):
    """The header, and seldom another one."""
    if len(versions()) == 1 or chance(draw, 0.9):
        return header
    return logs.HEADERS[draw.choice(versions()) - 1]


def log_text(draw, records):
    """The bytes of the records, mostly plain, sometimes with other line ends and quotes."""
    mixed = [b"\n", b"\r\n", b"\r", b"\n\n"]
    ends = draw.choice([[b"\n"]] * 16 + [[b"\r\n"]] * 2 + [[b"\r"], mixed])
    quoting = 0.3 if chance(draw, 0.1) else 0
    pieces = [b"\xef\xbb\xbf"] if chance(draw, 0.03) else []
    for record in records:
        pieces.append(b",".join(spelled(draw, field, quoting) for field in record))
        pieces.append(draw.choice(ends))
    if chance(draw, 0.05):
        pieces.insert(draw.randint(0, len(pieces)), draw.choice((b"\n", b"\r\n", b"\n\n\r")))
    if pieces and chance(draw, 0.1):
        pieces.pop()
    return b"".join(pieces)


def spelled(draw, field, quoting):
    """The field, which a share of the fields has in quotes."""
    if isinstance(field, Spelled) or not chance(draw, quoting):
        return bytes(field)
    return b'"' + field.replace(b'"', b'""') + b'"'


def broken_records(draw, records):
    """The records after one edit of a record."""
    records = [list(record) for record in records]
    edits = [change_width, change_header, repeat_record, move_record]
    if any(record[0] in (b"latency", b"resync") for record in records):
        edits += [break_second] * 10
    if any(record[0] in (b"clock", b"bound") for record in records):
        edits += [break_third] * 10
    edit = draw.choice([change_field] * 5 + [change_quotes] * 2 + edits)
    edit(draw, records)
    return records


def change_field(draw, records):
    """Puts something else into one field, or into some fields of one record."""
    record = draw.choice(records[1:])
    for place in draw.sample(range(4), draw.choice((1, 1, 1, 2, 3))):
        record[place] = draw.choice(odd_fields(draw, record, place))


def odd_fields(draw, record, place):
    """What may be put into a field of a record."""
    kinds = [b"put", b"Set", b"", b"host", b"set", b"recv", b"send", b"kind", b" set",
             b"resync", b"latency", b"pulse", b"inf", b"clock", b"bound"]
    names = [b"", b"P", b"_p", b"1p", b"p-q", b"p ", b"true", b"false", b"inf", b"zz", b"m0",
             b"h" * 32, b"h" * 33, b"\xc3\xa9", b"a", b"b"]
    is_of_host = record[0] in (b"host", b"resync", b"latency")  # and has two numbers
    greatest = GREATEST if is_of_host else 4 * GREATEST
    limits = [b"%d" % (sign * (greatest + more)) for sign in (1, -1) for more in (0, 0, 1)]
    numbers = limits if chance(draw, 0.3) else odd_numbers()
    if place == 3:
        return numbers if is_of_host and chance(draw, 0.7) else names
    return (kinds, names, numbers)[place]


def change_quotes(draw, records):
    """Puts quotes, and what only quotes can hold, around or into a field."""
    record = draw.choice(records)
    place = draw.randrange(len(record))
    field = record[place]
    middle = draw.randint(0, len(field))
    first, last = field[:middle], field[middle:]
    record[place] = Spelled(draw.choice((
        b'"' + field, field + b'"', first + b'"' + last, b'"' + first + b'"' + last,
        b'"' + first + b'""' + last + b'"', b'"' + first + b'"' + last + b'"', b'"' + field + b'" ',
        b' "' + field + b'"', b'"' + first + b"," + last + b'"', b'"' + first + b"\n" + last + b'"',
        b'"' + first + b"\r\n" + last + b'"', b'""' + field, b'"' + first + b'""""' + last + b'"',
    )))


class Spelled(bytes):
    """A field that is written as it is, without quotes around it."""


def odd_numbers():
    """Spellings of numbers in and out of form and range."""
    limits = [10**18, 4 * 10**18, 10**19]
    limits += [limit + 1 for limit in limits] + [2**63, 2**64, 2**127, 2**128]
    spelled = [b"%d" % limit for limit in limits] + [b"-%d" % limit for limit in limits]
    spelled += b"- 0 00 01 -0 -01 +1 --1 1.0 1e3 0x1 1_0 -5 5 x".split()
    return spelled + [b"", b"1 ", b" 1", b"1\xc2\xb2", b"9" * 40, HUGE_NUMBER]


def change_width(draw, records):
    """Drops or adds fields of one record."""
    record = draw.choice(records)
    for _ in range(draw.choice((1, 1, 2))):
        if record and chance(draw, 0.6):
            record.pop(draw.randrange(len(record)))
        else:
            record.insert(draw.randint(0, len(record)), draw.choice((b"", b"p", b"1")))


def change_header(draw, records):
    """Changes, drops or doubles the header."""
    choice = draw.randrange(4)
    if choice == 0:
        records.pop(0)
    elif choice == 1:
        records.insert(0, list(records[0]))
    elif choice == 2:
        words = (b"", b"Kind", b"name", b"time ", b"host", b"Skewlog2", b"skewlog1", b"skewlog4")
        records[0][draw.randrange(4)] = draw.choice(words)
    else:
        del records[draw.randint(0, 2) :]


def break_second(draw, records):
    """Breaks a latency or a resync: its host, its numbers or their order, or it stands twice or too early."""
    kinds = [kind for kind in (b"latency", b"latency", b"resync") if any(record[0] == kind for record in records)]
    kind = draw.choice(kinds)
    place = draw.choice([place for place, record in enumerate(records) if record[0] == kind])
    record = records[place]
    choice = draw.randrange(7)
    if choice == 0:
        record[1] = draw.choice((b"zz", b"", b"A", b"true"))
    elif choice == 1:
        record[2:] = reversed(record[2:])
    elif choice in (2, 3):
        change_bound(draw, record)
    elif choice == 4:
        records.insert(draw.randint(place + 1, len(records)), list(record))
        if chance(draw, 0.5):
            change_bound(draw, draw.choice((record, records[place + 1])))
    elif choice == 5:
        record[0] = draw.choice((b"latency", b"resync", b"host", b"set", b"pulse"))
    else:
        records.insert(draw.randint(1, place), records.pop(place))


def break_third(draw, records):
    """Breaks a clock or a bound: its host, its rows, its numbers or its name, or it is another kind or stands too early."""
    place = draw.choice([place for place, record in enumerate(records) if record[0] in (b"clock", b"bound")])
    record = records[place]
    choice = draw.randrange(6)
    if choice < 2:
        field = draw.choice((1, 2, 3))
        record[field] = draw.choice(odd_fields_of_third(draw, records, record, field))
    elif choice == 2:
        first, second = draw.sample((1, 2, 3), 2)
        record[first], record[second] = record[second], record[first]
    elif choice == 3:
        record[2] = record[1]
    elif choice == 4:
        record[0] = draw.choice((b"clock", b"bound", b"resync", b"latency", b"set", b"Clock", b"bounds"))
    else:
        records.insert(draw.randint(1, place), records.pop(place))


def odd_fields_of_third(draw, records, record, place):
    """What may be put into a field of a clock or a bound."""
    names = [b"zz", b"", b"A", b"true", b"h" * 32, b"h" * 33, b"m ", b"_m", b"a"]
    if record[0] == b"clock" and place != 2:
        return names
    rows = sum(other[0] in logs.EVENT_KINDS for other in records if other)
    if record[0] == b"bound" and place < 3 and chance(draw, 0.6):
        return [b"%d" % max(0, rows + more) for more in (-2, -1, 0, 0, 1)]
    limits = [logs.ERROR_GREATEST, logs.ROW_GREATEST, logs.APART_GREATEST]
    numbers = [b"%d" % (limit + more) for limit in limits for more in (-1, 0, 0, 1)]
    return numbers + [b"-%d" % (logs.APART_GREATEST + more) for more in (0, 1)] + odd_numbers()


def change_bound(draw, record):
    """Puts another number, or something else, into one of the last two fields of a record."""
    others = (b"0", b"0", b"1", b"2", b"inf", b"Inf", b"-1", b"", b"%d" % GREATEST, b"%d" % (GREATEST + 1))
    record[draw.choice((2, 3))] = draw.choice(others)


def repeat_record(draw, records):
    """Writes one record again somewhere behind it."""
    place = draw.randrange(1, len(records))
    records.insert(draw.randint(place + 1, len(records)), list(records[place]))


def move_record(draw, records):
    """Moves one record to another place."""
    record = records.pop(draw.randrange(len(records)))
    records.insert(draw.randint(0, len(records)), record)


def broken_bytes(draw, text, others):
    """The text after one or two edits of single bytes; the others are bytes to put in."""
    for _ in range(draw.choice((1, 1, 2))):
        place = draw.randint(0, max(0, len(text) - 1))
        choice = draw.randrange(5)
        other = draw.choice(others) if chance(draw, 0.9) else bytes([draw.randrange(256)])
        if choice == 0:
            text = text[:place] + text[place + 1 :]
        elif choice == 1:
            text = text[:place] + text[place : place + 1] * 2 + text[place + 1 :]
        elif choice == 2:
            text = text[:place] + other + text[place + 1 :]
        elif choice == 3:
            text = text[:place] + other + text[place:]
        else:
            text = swapped(text, place)
        if chance(draw, 0.05):
            text = text[: draw.randint(0, len(text))]
    return text


def swapped(text, place):
    """The text with the bytes at a place and after it exchanged."""
    return text[:place] + text[place : place + 2][::-1] + text[place + 2 :]


def log_file(draw, log, share_broken):
    """The bytes of a log, of which a share is broken."""
    records = records_of(draw, log)
    broken = chance(draw, share_broken)
    if broken and chance(draw, 0.6):
        return log_text(draw, broken_records(draw, records))
    text = log_text(draw, records)
    if not broken:
        return text
    others = [b'"', b'"', b'""', b",", b"\n", b"\r", b"\r\n", b"\n\n"]
    return broken_bytes(draw, text, others + [b"-", b"0", b"1", b"a", b" ", b"\0"])
