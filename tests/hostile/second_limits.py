"""Logs of version 2 at the limits of resyncs, latencies and pulses and beyond them, and ones that would take long."""

from case import Case, audit, order, times
from log_limits import LENGTH, LOCAL, MOST, ROWS, fault, shown

HEADER = b"skewlog2,host,time,name\n"
HOST = b"host,a,0,0"
NOTE = b"note,a,0,n"
TWO_HOSTS = (b"host,a,1000,0", b"host,b,0,0")


def log_of(*records):
    """The text of a log of version 2 with these records, a line each."""
    return HEADER + b"".join(record + b"\n" for record in records)


def numbers():
    """Skews and gaps of resyncs, ends of latencies, and local times of pulses."""
    odd = (b"%d" % (MOST + 1), b"%d" % 2**64, b"%d" % 2**128, b"9" * 1000, b"-1", b"-0", b"+1", b"00", b"", b" 1", b"1.0")
    for value in (b"0", b"%d" % MOST):
        yield order(f"skew of a resync {shown(value)}", log_of(HOST, b"resync,a,%s,0" % value, NOTE), 0, b"0: 1")
        yield order(f"gap of a resync {shown(value)}", log_of(HOST, b"resync,a,0,%s" % value, NOTE), 0, b"0: 1")
    for value in (*odd, b"inf"):
        yield order(f"skew of a resync {shown(value)}", log_of(HOST, b"resync,a,%s,0" % value, NOTE), 66, fault(7, 3))
        yield order(f"gap of a resync {shown(value)}", log_of(HOST, b"resync,a,0,%s" % value, NOTE), 66, fault(7, 3))
    for value in (b"1", b"%d" % MOST):
        yield order(f"least latency {shown(value)}", log_of(HOST, b"latency,a,%s,inf" % value, NOTE), 0, b"0: 1")
        yield order(f"greatest latency {shown(value)}", log_of(HOST, b"latency,a,1,%s" % value, NOTE), 0, b"0: 1")
    for value in (*odd, b"0", b"inf"):
        yield order(f"least latency {shown(value)}", log_of(HOST, b"latency,a,%s,inf" % value, NOTE), 66, fault(7, 3))
    for value in odd:
        yield order(f"greatest latency {shown(value)}", log_of(HOST, b"latency,a,1,%s" % value, NOTE), 66, fault(7, 3))
    for value in (b"infinity", b"Inf", b"inf "):
        yield order(f"greatest latency {shown(value)}", log_of(HOST, b"latency,a,1,%s" % value, NOTE), 66, fault(7, 3))
    yield order("greatest latency 0", log_of(HOST, b"latency,a,1,0", NOTE), 66, fault(16, 3))
    for value, status, line in (
        (b"%d" % LOCAL, 0, b"0: 1"), (b"-%d" % LOCAL, 0, b"0: 1"), (b"%d" % (LOCAL + 1), 66, fault(7, 3)),
        (b"%d" % 2**64, 66, fault(7, 3)), (b"-0", 66, fault(7, 3)), (b"", 66, fault(7, 3)),
    ):
        yield order(f"local time of a pulse {shown(value)}", log_of(HOST, b"pulse,a,%s,p" % value), status, line)


def odd_records():
    """Headers, kinds and hosts that aren't what they should be."""
    for kind in (b"resync,a,0,0", b"latency,a,1,2", b"pulse,a,0,p"):
        name = kind.partition(b",")[0].decode()
        first = b"kind,host,time,name\n" + HOST + b"\n" + kind + b"\n" + NOTE + b"\n"
        yield order(f"{name} in version 1", first, 66, fault(3, 3))
        yield order(f"{name} before its host", log_of(kind, HOST, NOTE), 66, fault(6, 2))
        yield order(f"{name} with three fields", log_of(HOST, kind.rpartition(b",")[0], NOTE), 66, fault(2, 3))
        yield order(f"{name} in capitals", log_of(HOST, kind.upper(), NOTE), 66, fault(3, 3))
    for header in (b"skewlog4,host,time,name", b"skewlog2,host,time", b"skewlog2,host,time,name,", b"Skewlog2,host,time,name"):
        yield order(f"header {header.decode()}", header + b"\n" + HOST + b"\n" + NOTE + b"\n", 66, fault(1, 1))
    yield order("a name of a pulse that is none", log_of(HOST, b"pulse,a,0,P"), 66, fault(8, 3))
    yield order("a latency after its rows", log_of(HOST, NOTE, b"latency,a,1,2"), 0, b"0: 1")
    yield order("a latency twice", log_of(HOST, b"latency,a,1,2", b"latency,a,0,x", NOTE), 66, fault(15, 4))
    yield order("a resync and no row", log_of(HOST, b"resync,a,0,0"), 66, b"refused log 11")


def many():
    """Files full of resyncs and pulses."""
    resyncs = (LENGTH - 60_000) // len(b"resync,b,1,0\n")
    record = b"resync,b,1,0\n"
    rows = b"".join(b"note,a,%d,n\n" % row for row in range(ROWS))
    late = HEADER + b"\n".join(TWO_HOSTS) + b"\n" + record * resyncs + rows
    files = {"f": b"true", "l": late}
    yield order("1,024 rows after resyncs of another host", late, 0, b"0: 1 0")
    yield times("1,024 rows after resyncs of another host, times", late, 0)
    yield Case("log", "1,024 rows after resyncs of another host, check", ["check", "f", "l"], files, (0,), b"skewcheck 1")
    given = b"".join(b"%d\n" % row for row in range(ROWS))
    yield Case("log", "1,024 rows after resyncs of another host, replay", ["replay", "f", "l", "t"],
               {"f": b"true", "t": given, "l": late}, (0,), b"true")
    pulses = log_of(HOST, *[b"pulse,a,0,p"] * ROWS)
    yield order("1,024 pulses at one instant", pulses, 0, b"0: 1")
    yield order("1,025 pulses", log_of(HOST, *[b"pulse,a,0,p"] * (ROWS + 1)), 66, fault(13, ROWS + 3))
    yield Case("log", "1,024 pulses at one instant, check", ["check", "f", "l"], {"f": b"F a.p", "l": pulses}, (0,), b"skewcheck 1")


def long_walks():
    """Reports whose steps are bounds of a log with many resyncs or many rows."""
    resyncs = (LENGTH - 1_000) // len(b"resync,b,1,0\n")
    log = log_of(*TWO_HOSTS, b"set,a,10,p") + b"resync,b,1,0\n" * resyncs
    steps = 200_000
    walk = b"low 0\nhigh 0\n" * (steps // 2)
    report = b"skewcheck 1\nevents 1\ninconsistent %d\n%send\n" % (steps, walk)
    line = b"refused inconsistent at line %d" % steps
    yield audit("200,000 steps on a log with 80,000 resyncs", report, 5, line, log=log)
    cycle = b"cycle %d%s\n" % (steps, b" low 0 high 0" * (steps // 2))
    report = b"skewcheck 1\nevents 1\ntrue witness\n10\nfalse refuted 1\n%send\n" % cycle
    yield audit("a cycle of 200,000 steps on such a log", report, 5, b"refused false at line 1", log=log)
    rows = [b"send,a,0,m"] + [b"note,a,0,n"] * (ROWS - 2) + [b"recv,a,0,m"]
    last = ROWS - 1
    walk = b"message %d\nhigh %d\nlow 0\n" % (last, last)
    steps = 300_000
    report = b"skewcheck 1\nevents %d\ninconsistent %d\n%send\n" % (ROWS, steps, walk * (steps // 3))
    yield audit("300,000 steps, a third of them a message's", report, 5, b"refused inconsistent at line %d" % steps,
                log=log_of(b"host,a,1000,0", *rows))


def cases():
    """All cases of logs of version 2."""
    for some in (numbers, odd_records, many, long_walks):
        yield from some()
