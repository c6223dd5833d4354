"""Logs of version 3 at the limits of clocks and bounds between rows and beyond them, and ones that would take long.

A log may have 1,048,575 bounds between rows, for which no file has room: the longest has 87,000.
"""

from case import TRUE, Case, audit, order, times
from log_limits import LENGTH, LOCAL, MOST, ROWS, fault, shown

HEADER = b"skewlog3,host,time,name\n"
HOST = b"host,a,0,0"
NOTE = b"note,a,0,n"
APART = 10**20  # the greatest magnitude of what a bound says
CLOCKS = 1_024
TWO_HOSTS = (b"host,a,1000,0", b"host,b,0,0")
ODD = (b"%d" % 2**128, b"9" * 1000, b"9" * 1_000_000, b"-0", b"+1", b"00", b"", b" 1", b"1.0", b"1e3", b"inf", b"0x1")


def log_of(*records):
    """The text of a log of version 3 with these records, a line each."""
    return HEADER + b"".join(record + b"\n" for record in records)


def check(title, log, status, formula=TRUE):
    """A log that `check` is asked about."""
    return Case("log", f"{title}, check", ["check", "f", "l"], {"f": formula, "l": log}, (status,), b"skewcheck 1")


def replay(title, log, given, status=0, line=b"true"):
    """A log that `replay` is asked about, with times."""
    files = {"f": TRUE, "t": given, "l": log}
    return Case("log", f"{title}, replay", ["replay", "f", "l", "t"], files, (status,), line)


def filled(head, record, rest=b""):
    """The longest file of a head, one record again and again, and a rest; and the number of these records."""
    count = (LENGTH - len(head) - len(rest)) // len(record)
    return head + record * count + rest, count


def numbers():
    """Errors of readings, and the rows and the number of a bound."""
    for value in (b"0", b"1", b"%d" % MOST):
        yield order(f"error {shown(value)}", log_of(HOST, b"clock,a,%s,m" % value, NOTE), 0, b"0: 1")
    for value in (*ODD, b"%d" % (MOST + 1), b"%d" % 2**64, b"-1"):
        yield order(f"error {shown(value)}", log_of(HOST, b"clock,a,%s,m" % value, NOTE), 66, fault(7, 3))
    for value in (b"0", b"%d" % APART, b"-%d" % APART, b"%d" % 2**64, b"-%d" % 2**64, b"%d" % 2**66):
        yield order(f"number of a bound {shown(value)}", log_of(HOST, NOTE, NOTE, b"bound,1,0,%s" % value), 0, b"0: 1")
    for value in (*ODD, b"%d" % (APART + 1), b"-%d" % (APART + 1), b"%d" % 2**67, b"-%d" % 2**127, b"--1", b"-"):
        log = log_of(HOST, NOTE, NOTE, b"bound,1,0,%s" % value)
        yield order(f"number of a bound {shown(value)}", log, 66, fault(7, 5))
    for value, number in (
        *((odd, 7) for odd in (*ODD, b"-1", b"%d" % 2**32, b"%d" % 2**64)), (b"2", 20), (b"%d" % (2**32 - 1), 20),
        (b"%d" % 2**31, 20),
    ):
        for title, record in (("later", b"bound,%s,0,5" % value), ("earlier", b"bound,0,%s,5" % value)):
            yield order(f"{title} row {shown(value)}", log_of(HOST, NOTE, NOTE, record), 66, fault(number, 5))
    for value in (b"0", b"1", b"%d" % (2**32 - 1)):
        log = log_of(HOST, NOTE, NOTE, b"bound,%s,%s,5" % (value, value))
        yield order(f"twice row {shown(value)}", log, 66, fault(18, 5))


def names():
    """Lengths and bytes of names of clocks."""
    for length, status, line in ((1, 0, b"0: 1"), (32, 0, b"0: 1"), (33, 66, fault(8, 3)), (0, 66, fault(8, 3)),
                                 (1_000_000, 66, fault(8, 3))):
        yield order(f"clock's name of {length} bytes", log_of(HOST, b"clock,a,0," + b"m" * length, NOTE), status, line)
    for name in (b"true", b"false", b"inf", b"a", b"clock", b"m_1"):
        yield order(f"clock's name {name.decode()}", log_of(HOST, b"clock,a,0," + name, NOTE), 0, b"0: 1")
    for name in (b"M", b"1m", b"_m", b"m-k", b"m k", b"m\0", b"\xc3\xa9", b"m\xff"):
        yield order(f"clock's name {name!r}", log_of(HOST, b"clock,a,0," + name, NOTE), 66, fault(8, 3))


def odd_records():
    """Headers and kinds that aren't what they should be, and records at odd places."""
    for kind in (b"clock,a,0,m", b"bound,0,1,5"):
        name = kind.partition(b",")[0].decode()
        for version, header in ((1, b"kind"), (2, b"skewlog2")):
            log = log_of(HOST, kind, NOTE, NOTE).replace(b"skewlog3", header)
            yield order(f"{name} in version {version}", log, 66, fault(3, 3))
        for width in (kind.rpartition(b",")[0], kind + b",", kind + b",0"):
            yield order(f"{name} of another width", log_of(HOST, width, NOTE, NOTE), 66, fault(2, 3))
        yield order(f"{name} in capitals", log_of(HOST, kind.upper(), NOTE, NOTE), 66, fault(3, 3))
        yield order(f"{name} and no row", log_of(HOST, kind), 66, b"refused log 11")
    for header in (b"skewlog4,host,time,name", b"skewlog3,host,time", b"skewlog3,host,time,name,",
                   b"Skewlog3,host,time,name"):
        yield order(f"header {header.decode()}", header + b"\n" + HOST + b"\n" + NOTE + b"\n", 66, fault(1, 1))
    yield order("a clock before its host", log_of(b"clock,a,0,m", HOST, NOTE), 66, fault(6, 2))
    yield order("a bound before all others", log_of(b"bound,0,1,5", HOST, NOTE, NOTE), 0, b"0: 1")
    yield order("two bounds without a row", log_of(HOST, NOTE, b"bound,0,1,5", b"bound,0,2,5"), 66, fault(20, 4))
    yield order("a bound without a row, and a receive without a send", log_of(HOST, b"bound,0,9,5", b"recv,a,0,m"), 66,
                fault(10, 4))


def many_clocks():
    """Files full of clocks."""
    clocks = [b"clock,a,0,c%d" % clock for clock in range(CLOCKS + 1)]
    yield order("1,024 clocks", log_of(HOST, *clocks[:CLOCKS], NOTE), 0, b"0: 1")
    yield times("1,024 clocks, times", log_of(HOST, *clocks[:CLOCKS], NOTE), 0, b"0")
    yield order("1,024 clocks, each named twice", log_of(HOST, *clocks[:CLOCKS] * 2, NOTE), 0, b"0: 1")
    yield order("1,025 clocks", log_of(HOST, *clocks, NOTE), 66, fault(17, CLOCKS + 3))
    yield order("1,025 clocks, and a faulty row", log_of(HOST, *clocks, b"note"), 66, fault(17, CLOCKS + 3))
    full = log_of(HOST, *[b"clock,a,0,c%d" % clock for clock in range(60_000)])
    yield order("1 MiB of clocks", full, 66, fault(17, CLOCKS + 3))
    turns = [record for row in range(ROWS) for record in (clocks[row], b"note,a,%d,n" % row)]
    yield times("1,024 rows, each by a clock of its own", log_of(b"host,a,5,1", *turns), 0)
    turns = [record for row in range(ROWS) for record in (clocks[row % 2], b"note,a,%d,n" % row)]
    yield times("1,024 rows by two clocks in turn", log_of(b"host,a,5,1", *turns), 0)
    rows = b"".join(b"note,a,%d,n\n" % row for row in range(ROWS))
    late, count = filled(log_of(*TWO_HOSTS), b"clock,b,0,m\n", rows)
    given = b"".join(b"%d\n" % row for row in range(ROWS))
    title = f"1,024 rows after {count:,} readings of another host"
    yield order(title, late, 0, b"0: 1 0")
    yield times(f"{title}, times", late, 0)
    yield check(title, late, 0)
    yield replay(title, late, given)


def one_clock():
    """1,024 rows that read one clock, any two of which are compared."""
    rows = [b"note,a,%d,n" % row for row in range(ROWS)]
    for error in (0, MOST):
        log = log_of(b"host,a,1000,1", b"clock,a,%d,m" % error, *rows)
        title = f"1,024 rows by one clock, error {error}"
        yield times(title, log, 0)
        yield check(title, log, 1, b"F a.p")
        late = (0, b"true") if error else (6, b"not admissible over 1023")
        for last, answer in ((1023, (0, b"true")), (1024, late)):
            given = b"".join(b"%d\n" % row for row in [*range(ROWS - 1), last])
            yield replay(f"{title}, the last row at {last}", log, given, *answer)
    falling = [b"note,a,%d,n" % -row for row in range(ROWS)]
    yield times("1,024 rows that fall by one clock", log_of(b"host,a,%d,0" % MOST, b"clock,a,0,m", *falling), 3)
    yield times("1,024 rows that fall by a clock that may be off",
                log_of(b"host,a,%d,0" % MOST, b"clock,a,512,m", *falling), 0)
    hosts = [b"host,h%d,%d,0" % (host, MOST) for host in range(64)]
    read = [b"clock,h%d,0,m" % host for host in range(64)]
    ends = [b"note,h%d,%d,n" % (host, LOCAL if host % 2 else -LOCAL) for host in range(64)]
    yield times("64 hosts at both ends by one clock", log_of(*hosts, *read, *ends), 0)
    steady = b"".join(b"note,a,%d,n\n" % row for row in range(ROWS))
    tied, count = filled(log_of(b"host,a,%d,1" % MOST), b"clock,a,0,m\n", steady)
    yield times(f"1,024 rows after {count:,} readings of one clock", tied, 0)


def many_bounds():
    """Files full of bounds between rows, and bounds that the solver goes over again and again."""
    rows = (b"note,a,0,n", b"note,a,5,n")
    full, count = filled(log_of(b"host,a,9,0", *rows), b"bound,1,0,7\n")
    yield order(f"{count:,} bounds", full, 0, b"0: 1")
    yield times(f"{count:,} bounds, times", full, 0)
    yield check(f"{count:,} bounds", full, 0)
    yield replay(f"{count:,} bounds", full, b"0\n5\n")
    yield replay(f"{count:,} bounds that are all broken", full, b"0\n8\n", 6, b"not admissible extra 0")
    first, count = filled(HEADER, b"bound,1,0,7\n", b"host,a,9,0\nnote,a,0,n\n")
    yield order(f"{count:,} bounds before one row", first, 66, fault(20, 2))
    last, count = filled(log_of(b"host,a,9,0", *rows), b"bound,1,0,7\n", b"bound,0,2,7\n")
    yield order(f"{count:,} bounds before one without its row", last, 66, fault(20, count + 5))
    full, count = filled(log_of(b"host,a,0,0", *rows), b"bound,1,0,4\n")
    yield times(f"{count:,} bounds that can't hold", full, 3, b"inconsistent 3")
    hosts = [b"host,h%d,%d,0" % (host, MOST) for host in range(64)]
    chain = [b"note,h%d,0,n" % (row % 64) for row in range(ROWS)]
    for step in (1, 16):
        bounds = [b"bound,%d,%d,-1" % (row, row + step) for row in reversed(range(ROWS - step))]
        title = f"a chain of {len(bounds):,} bounds, each row {step} before the next"
        yield times(title, log_of(*hosts, *chain, *bounds), 0)
    ring = [b"bound,%d,%d,-1" % ((row + 1) % 64, row) for row in range(64)]
    yield times("64 bounds in a ring", log_of(*hosts, *chain[:64], *ring), 3, b"inconsistent 64")
    far = log_of(b"host,a,%d,0" % MOST, b"note,a,%d,n" % -LOCAL, b"note,a,%d,n" % LOCAL, b"bound,1,0,%d" % APART,
                 b"bound,0,1,-%d" % (10 * MOST))
    yield times("a bound that leaves one timing at both ends", far, 0, b"-%d" % (5 * MOST))


def long_walks():
    """Reports whose steps go through a clock, or are bounds between rows, again and again."""
    log = log_of(HOST, b"clock,a,0,m", b"note,a,10,n")
    full, _ = filled(log_of(b"host,a,9,0", b"note,a,10,n", b"note,a,10,n"), b"bound,1,0,0\n", b"bound,0,1,0\n")
    last = full.count(b"bound") - 1
    steps = 200_000
    for title, both, where in (
        ("through a clock", (b"under 0", b"over 0"), log), ("over bounds", (b"extra 0", b"extra %d" % last), full),
    ):
        events = b"%d" % where.count(b"note")
        walk = b"\n".join(both * (steps // 2)) + b"\n"
        report = b"skewcheck 1\nevents %s\ninconsistent %d\n%send\n" % (events, steps, walk)
        line = b"refused inconsistent at line %d" % steps
        yield audit(f"200,000 steps {title}", report, 5, line, log=where)
        cycle = b"cycle %d %s\n" % (steps, b" ".join(both * (steps // 2)))
        witness = b"10\n" * int(events)
        report = b"skewcheck 1\nevents %s\ntrue witness\n%sfalse refuted 1\n%send\n" % (events, witness, cycle)
        yield audit(f"a cycle of 200,000 steps {title}", report, 5, b"refused false at line 1", log=where)


def cases():
    """All cases of logs of version 3."""
    for some in (numbers, names, odd_records, many_clocks, one_clock, many_bounds, long_walks):
        yield from some()
