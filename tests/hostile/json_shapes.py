"""Logs in JSON whose objects have other keys or kinds than they should, with what has to be answered."""

from json_texts import (
    BOUND, CLOCK, ENTRIES, HOST, LENGTH, NOTE, RESYNC, RIGHT, SHAPE, SYNTAX, TEXT, array_of, changed, log_of, object_of, refused,
    text_of, with_entry, written,
)
from log_limits import LOCAL, MOST, fault

NO_ROW = b"refused log 11"
# A value at a key that has the shape, and the fault that the log has by it.
FAULTS = {
    (HOST, b"name"): (b'"A"', fault(4, 2)), (HOST, b"skew"): (b"-1", fault(7, 2)),
    (HOST, b"gap"): (b"%d" % (MOST + 1), fault(7, 2)), (HOST, b"latency"): (b"[0,60]", fault(7, 3)),
    (RESYNC, b"host"): (b'"b"', fault(6, 4)), (RESYNC, b"skew"): (b"-1", fault(7, 4)), (RESYNC, b"gap"): (b"-1", fault(7, 4)),
    (NOTE, b"kind"): (b'"put"', fault(3, 5)), (NOTE, b"host"): (b'"b"', fault(6, 5)),
    (NOTE, b"time"): (b"%d" % (LOCAL + 1), fault(7, 5)), (NOTE, b"name"): (b'"N"', fault(8, 5)),
    (CLOCK, b"host"): (b'"b"', fault(6, 5)), (CLOCK, b"error"): (b"-1", fault(7, 5)), (CLOCK, b"clock"): (b'"M"', fault(8, 5)),
    (BOUND, b"later"): (b"0", fault(18, 8)), (BOUND, b"earlier"): (b"2", fault(20, 8)),
}


def keys():
    """Keys of entries that are written otherwise, missing, or more than there should be."""
    for title, members, _ in ENTRIES:
        for key, _ in members:
            if key != b"latency":
                yield refused(f"{title} without a key", with_entry(members, changed(members, key, None)), SHAPE)
            for other in (key.upper(), key + b" ", b" " + key, key + b"\\u0000", key + b"\\\\", key[:-1], b""):
                renamed = tuple((other if own == key else own, text) for own, text in members)
                yield refused(f"{title} with a key that is written otherwise", with_entry(members, renamed), SHAPE)
        escaped = tuple((b"".join(b"\\u%04x" % byte for byte in own), text) for own, text in members)
        yield written(f"{title} with its keys in escapes", with_entry(members, escaped), text_of(members))
        yield written(f"{title} with its keys from behind", with_entry(members, members[::-1]), text_of(members))
        for key in (b"zone", b"", b"hosts", b"names", b"\\ud83d\\ude00", b"a" * 1_000_000):
            more = (key, b"null")
            yield refused(f"{title} with a key more", with_entry(members, (*members, more)), SHAPE)
            yield refused(f"{title} with a key more", with_entry(members, (more, *members)), SHAPE)
    for entry in (b"[]", b"null", b'"a"', b"0", b"{}", b"[{}]"):
        yield refused("an entry of hosts of another shape", b'{"hosts":[%s],"events":%s}' % (entry, array_of([NOTE])), SHAPE)
        yield refused("an entry of events of another shape", b'{"hosts":%s,"events":[%s]}' % (array_of([HOST]), entry), SHAPE)


def keys_twice():
    """Keys of entries that come twice, with what is faulty in the first and in the last."""
    for title, members, _ in ENTRIES:
        for key, right in members:
            faults = [(b"{}", SHAPE), (b"null", SHAPE), (b"02", SYNTAX), (b'"\\ud83d"', SYNTAX), (b'"\xff"', SYNTAX)]
            if (members, key) in FAULTS:
                faults.append(FAULTS[members, key])
            for faulty, line in faults:
                first = with_entry(members, with_both(members, key, faulty, right))
                last = with_entry(members, with_both(members, key, right, faulty))
                name = f"{title} with {key.decode()} twice"
                if line == SYNTAX:
                    yield refused(f"{name}, the first no JSON", first, line)
                else:
                    yield written(f"{name}, the first faulty", first, text_of(members))
                yield refused(f"{name}, the last faulty", last, line)


def with_both(members, key, first, last):
    """The members with a key twice: first in its place, and once more at the end."""
    return (*changed(members, key, first), (key, last))


def kinds():
    """Kinds of events, and the keys that belong to them."""
    for kind in (b"set", b"clear", b"send", b"pulse"):
        log = with_entry(NOTE, changed(NOTE, b"kind", b'"%s"' % kind))
        yield written(f"an event of the kind {kind.decode()}", log, TEXT.replace(b"note,", kind + b","))
    for kind, line in (
        (b"recv", fault(10, 5)), (b"put", fault(3, 5)), (b"", fault(3, 5)), (b"Note", fault(3, 5)), (b"note ", fault(3, 5)),
        (b"note\\u0000", fault(3, 5)), (b"kind", fault(3, 5)), (b"skewlog3", fault(3, 5)), (b"a" * 1_000_000, fault(3, 5)),
        (b"host", SHAPE), (b"latency", SHAPE), (b"resync", SHAPE), (b"clock", SHAPE), (b"bound", SHAPE),
    ):
        title = "a million letters" if len(kind) > 100 else repr(kind.decode())
        yield refused(f"an event of the kind {title}", with_entry(NOTE, changed(NOTE, b"kind", b'"%s"' % kind)), line)
    for title, members, own in (("a resync", RESYNC, b"resync"), ("a clock", CLOCK, b"clock"), ("a bound", BOUND, b"bound")):
        for kind in {b"note", b"set", b"host", b"latency", b"resync", b"clock", b"bound", b"put", b"", own.title()} - {own}:
            log = with_entry(members, changed(members, b"kind", b'"%s"' % kind))
            yield refused(f"{title} of another kind", log, SHAPE)
    for more in ((b"skew", b"1"), (b"gap", b"1"), (b"latency", b"[5,60]")):
        yield refused("a row with a key of others", with_entry(NOTE, (*NOTE, more)), SHAPE)
    for more in ((b"time", b"1"), (b"name", b'"n"'), (b"latency", b"[5,60]")):
        for title, members in (("a resync", RESYNC), ("a clock", CLOCK), ("a bound", BOUND)):
            yield refused(f"{title} with a key of others", with_entry(members, (*members, more)), SHAPE)


def keys_of_logs():
    """Keys of the whole."""
    hosts, events = (b"hosts", array_of([HOST])), (b"events", array_of([RESYNC, NOTE]))
    no_hosts, no_events = (b"hosts", b"[]"), (b"events", b"[]")
    for members, line in (
        ([hosts], SHAPE), ([events], SHAPE), ([], SHAPE), ([hosts, (b"Events", events[1])], SHAPE),
        ([hosts, events, (b"", b"0")], SHAPE),
        ([(b"version", b"2"), hosts, events], SHAPE), ([(b"hosts", b"{}"), events], SHAPE),
        ([(b"hosts", b"null"), events], SHAPE),
        ([hosts, (b"events", b"null")], SHAPE), ([hosts, (b"events", object_of(NOTE))], SHAPE),
        ([hosts, (b"events", b'"[]"')], SHAPE),
        ([no_hosts, no_events], NO_ROW), ([hosts, no_events], NO_ROW), ([no_hosts, events], fault(6, 2)),
        ([hosts, events, no_events], NO_ROW), ([hosts, events, no_hosts], fault(6, 2)),
        ([hosts, events, (b"hosts", b"0")], SHAPE),
        ([(b"hosts", array_of([HOST, HOST])), events], fault(5, 4)), ([hosts, (b"events", array_of([RESYNC]))], NO_ROW),
    ):
        yield refused(f"a log with the keys {' '.join(key.decode() for key, _ in members)}", object_of(members), line)
    yield written("keys twice, the last ones right", object_of([(b"events", b"0"), (b"hosts", b"0"), hosts, events]), TEXT)
    yield written("events before hosts", object_of([events, hosts]), TEXT)


def many_keys():
    """Keys that come as often as a file has room for, with the most memory that it may take, in its lengths."""
    count = (LENGTH - 1) // len(b'"":0,')
    yield refused(f"one key {count:,} times", b"{" + b",".join([b'"":0'] * count) + b"}", SHAPE, most=4)
    own = b'"hosts":[],'
    count = (LENGTH - len(RIGHT)) // len(own)
    yield written(f"hosts {count:,} times, and a log", b"{" + own * count + RIGHT[1:], TEXT, most=4)
    yield refused(f"a log, and hosts {count:,} times", RIGHT[:-1] + b"," + (own * count)[:-1] + b"}", fault(6, 2), most=4)
    for title, members, own in (("a host", HOST, b'"skew":-1,'), ("a row", NOTE, b'"time":"",')):
        count = (LENGTH - len(RIGHT)) // len(own)
        log = RIGHT.replace(object_of(members), b"{" + own * count + object_of(members)[1:])
        yield written(f"{title} with one key {count:,} times", log, TEXT, most=4)
    others = [b'"%x":0' % number for number in range(420_000)]
    yield refused("420,000 keys, each another one", b"{" + b",".join(others) + b"}", SHAPE, most=20)


def orders_of_faults():
    """Faults of which the first in the order of tests counts."""
    late = changed(NOTE, b"name", b"0")
    odd_host = changed(HOST, b"name", b'"A"')
    yield refused("a faulty host, and a row without its shape", log_of([odd_host], [late]), SHAPE)
    yield refused("a row without its shape, and no end", log_of([HOST], [late])[:-1], SYNTAX)
    yield refused("no shape at all, and no end", b"[", SYNTAX)
    yield refused("a faulty host, and a faulty row", log_of([odd_host], [changed(NOTE, b"time", b"-9223372036854775808")]),
                  fault(4, 2))
    yield refused("a faulty row, and a row of no host",
                  log_of([HOST], [changed(NOTE, b"name", b'""'), changed(NOTE, b"host", b'""')]),
                  fault(8, 4))
    receive = changed(NOTE, b"kind", b'"recv"')
    yield refused("a receive without a send, and a faulty row", log_of([HOST], [receive, changed(NOTE, b"name", b'""')]),
                  fault(8, 5))
    yield refused("a host twice, the second with a faulty skew", log_of([HOST, changed(HOST, b"skew", b"-1")], [NOTE]),
                  fault(5, 4))
    yield refused("two faulty skews", log_of([changed(HOST, b"skew", b"-1"), changed(HOST, b"name", b'"B"')], [NOTE]),
                  fault(7, 2))


def cases():
    """All cases of keys and kinds of logs in JSON."""
    for some in (keys, keys_twice, kinds, keys_of_logs, many_keys, orders_of_faults):
        yield from some()
