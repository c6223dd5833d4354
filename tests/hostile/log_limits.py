"""Logs at the limits and beyond them, and odd ones, with what has to be answered."""

from case import HEADER, Case, log_of, order, times

MOST = 10**18  # of a skew or a gap
LOCAL = 4 * 10**18  # the greatest magnitude of a local time
LENGTH = 1_048_576
ROWS = 1_024
HOST = b"host,a,0,0"
NOTE = b"note,a,0,n"


def fault(number, record):
    """The line of a log's fault."""
    return b"refused log %d at record %d" % (number, record)


def numbers():
    """Skews, gaps and local times."""
    for name, place in ((b"skew", 0), (b"gap", 1)):
        title = name.decode()
        for value, status, line in (
            (b"%d" % MOST, 0, b"0: 1"),
            (b"%d" % (MOST + 1), 66, fault(7, 2)),
            (b"1" + b"0" * 30, 66, fault(7, 2)),
            (b"%d" % 2**64, 66, fault(7, 2)),
            (b"%d" % 2**128, 66, fault(7, 2)),
            (b"9" * 1000, 66, fault(7, 2)),
            (b"-1", 66, fault(7, 2)),
            (b"-0", 66, fault(7, 2)),
            (b"+1", 66, fault(7, 2)),
            (b"00", 66, fault(7, 2)),
            (b"", 66, fault(7, 2)),
            (b" 1", 66, fault(7, 2)),
            (b"1.0", 66, fault(7, 2)),
            (b"1e3", 66, fault(7, 2)),
        ):
            fields = [b"0", b"0"]
            fields[place] = value
            log = log_of(b"host,a," + b",".join(fields), NOTE)
            yield order(f"{title} {shown(value)}", log, status, line)
    for value, status, line in (
        (b"%d" % LOCAL, 0, b"0: 1"),
        (b"-%d" % LOCAL, 0, b"0: 1"),
        (b"%d" % (LOCAL + 1), 66, fault(7, 3)),
        (b"-%d" % (LOCAL + 1), 66, fault(7, 3)),
        (b"%d" % 2**63, 66, fault(7, 3)),
        (b"%d" % 2**64, 66, fault(7, 3)),
        (b"%d" % 2**128, 66, fault(7, 3)),
        (b"-%d" % 2**127, 66, fault(7, 3)),
        (b"9" * 1_000_000, 66, fault(7, 3)),
        (b"-0", 66, fault(7, 3)),
        (b"--1", 66, fault(7, 3)),
        (b"-", 66, fault(7, 3)),
        (b"0x10", 66, fault(7, 3)),
    ):
        log = log_of(HOST, b"note,a," + value + b",n")
        yield order(f"local time {shown(value)}", log, status, line)


def shown(value):
    """A field as titles show it."""
    if len(value) > 45:
        return f"{value[:1].decode()} {len(value)} times"
    return value.decode() or "without a digit"


def names():
    """Lengths and bytes of names."""
    for length, status, host_line, row_line in (
        (32, 0, b"0: 1", b"0: 1"), (33, 66, fault(4, 2), fault(8, 3)), (0, 66, fault(4, 2), fault(8, 3)),
        (1_000_000, 66, fault(4, 2), fault(8, 3)),
    ):
        name = b"a" * length
        log = log_of(b"host," + name + b",0,0", b"note," + name[:33] + b",0,n")
        yield order(f"host's name of {length} bytes", log, status, host_line)
        yield order(f"row's name of {length} bytes", log_of(HOST, b"note,a,0," + name), status, row_line)
    for name in (b"true", b"false", b"inf", b"A", b"1a", b"_a", b"a-b", b"a b", b"a\0", b"\xc3\xa9", b"a\xff"):
        log = log_of(b"host,%s,0,0" % name, NOTE)
        yield order(f"host's name {name!r}", log, 66, fault(4, 2))
    yield order("row's name 'inf'", log_of(HOST, b"note,a,0,inf"), 0, b"0: 1")
    yield order("row's name with a NUL", log_of(HOST, b"note,a,0,n\0"), 66, fault(8, 3))


def counts():
    """Numbers of hosts and rows, equal names, and messages."""
    hosts = [b"host,h%d,0,0" % host for host in range(65)]
    yield order("64 hosts", log_of(*hosts[:64], b"note,h0,0,n"), 0, b"0: 1" + b" 0" * 63)
    yield order("65 hosts", log_of(*hosts, b"note,h0,0,n"), 66, fault(12, 66))
    rows = [b"note,a,%d,n" % row for row in range(ROWS + 1)]
    yield order("1,024 rows", log_of(HOST, *rows[:ROWS]), 0, b"0: 1")
    yield order("1,025 rows", log_of(HOST, *rows), 66, fault(13, ROWS + 3))
    yield order("1,024 equal rows", log_of(HOST, *[NOTE] * ROWS), 0, b"0: 1")
    yield order("64 hosts with 16 rows each", log_of(*hosts[:64], *[b"note,h%d,0,n" % (row % 64) for row in range(ROWS)]),
                0, b"0: 1" + b" 0" * 63)
    yield order("1 MiB of rows", log_of(HOST, *[NOTE] * 95_000), 66, fault(13, ROWS + 3))
    yield order("1 MiB of one host", log_of(*[HOST] * 95_000), 66, fault(5, 3))
    yield order("1 MiB of hosts", log_of(*[b"host,h%d,0,0" % host for host in range(65_000)]), 66, fault(12, 66))
    yield order("a message sent twice", log_of(HOST, *[b"send,a,0,m"] * 2), 66, fault(9, 4))
    yield order("1,023 receives of one message", log_of(HOST, b"send,a,0,m", *[b"recv,a,0,m"] * (ROWS - 1)), 0, b"0: 1")
    yield order("1,024 receives of no message", log_of(HOST, *[b"recv,a,0,m"] * ROWS), 66, fault(10, 3))
    messages = [b"%s,a,0,m%d" % (kind, number) for kind in (b"recv", b"send") for number in range(ROWS // 2)]
    yield order("512 messages that are received before they are sent", log_of(HOST, *messages), 3, b"cycle 513")
    yield order("no rows", log_of(*hosts[:64]), 66, b"refused log 11")


def lengths():
    """Files at their longest, and one byte more."""
    log = log_of(HOST, NOTE)
    blank = b"\n" * (LENGTH - len(log))
    yield order("blank lines up to the longest file", log + blank, 0, b"0: 1")
    yield order("one byte more", log + blank + b"\n", 67, b"refused length log")
    yield Case("log", "a file without an end", ["order", "/dev/zero"], {}, (67,), b"refused length log")
    yield order("one line of 1 MiB", b"a" * LENGTH, 66, fault(1, 1))
    yield order("1 MiB of commas", b"," * LENGTH, 66, fault(1, 1))
    yield order("1 MiB of quotes", b'"' * LENGTH, 66, fault(1, 1))
    yield order("1 MiB of NUL bytes", b"\0" * LENGTH, 66, fault(1, 1))
    yield order("1 MiB of newlines", b"\n" * LENGTH, 66, fault(1, 1))
    rest = LENGTH - len(HEADER) - 1
    yield order("the header and a field of 1 MiB", HEADER + b"a" * rest, 66, fault(2, 2))
    yield order("the header and 1 MiB of commas", HEADER + b"," * rest, 66, fault(2, 2))
    quoted = b'"' + b"a" * (rest - 2) + b'"'
    yield order("the header and a quoted field of 1 MiB", HEADER + quoted, 66, fault(2, 2))


def odd_bytes():
    """Files whose lines are odd."""
    plain = log_of(HOST, NOTE)
    yield order("empty file", b"", 66, fault(1, 1))
    yield order("one NUL", b"\0", 66, fault(1, 1))
    yield order("the header without its newline", HEADER[:-1], 66, b"refused log 11")
    yield order("no newline at the end", plain[:-1], 0, b"0: 1")
    yield order("lines that end with CRLF", plain.replace(b"\n", b"\r\n"), 0, b"0: 1")
    yield order("all fields in quotes", b'"kind","host","time","name"\n"host","a","0","0"\n"note","a","0","n"\n', 0, b"0: 1")
    yield order("a header in capitals", plain.upper(), 66, fault(1, 1))
    yield order("two bytes a letter", plain.decode().encode("utf-16-le"), 66, fault(1, 1))
    yield order("blanks after commas", plain.replace(b",", b", "), 66, fault(1, 1))
    yield order("semicolons for commas", plain.replace(b",", b";"), 66, fault(1, 1))
    yield order("tabs for commas", plain.replace(b",", b"\t"), 66, fault(1, 1))
    yield order("three fields", log_of(HOST, b"note,a,0"), 66, fault(2, 3))
    yield order("five fields", log_of(HOST, b"note,a,0,n,"), 66, fault(2, 3))
    yield order("an unknown kind", log_of(HOST, b"Note,a,0,n"), 66, fault(3, 3))
    yield order("a row before its host", log_of(NOTE, HOST), 66, fault(6, 2))
    yield order("bytes above 127 in a field", log_of(HOST, b"note,a,0,\xff\xfe"), 66, fault(8, 3))


def bounds():
    """Logs at the limits of numbers, and ones that the solver goes over again and again."""
    wide = b"host,%s," + b"%d,%d" % (MOST, MOST)
    far = [b"note,a,%d,n" % (-LOCAL if row % 2 else LOCAL) for row in range(ROWS)]
    yield times("local times from end to end", log_of(wide % b"a", *far), 3)
    near = [b"note,a,%d,n" % (-LOCAL + row * MOST) for row in range(9)]
    yield times("the greatest gaps, which fit", log_of(wide % b"a", *near), 0)
    hosts = [b"host,h%d,%d,0" % (host, MOST) for host in range(64)]
    ends = [b"note,h%d,%d,n" % (host, LOCAL if host % 2 else -LOCAL) for host in range(64)]
    yield times("64 clocks at both ends", log_of(*hosts, *ends), 0)
    for skew, status in ((15, 3), (16, 0)):
        hosts = [b"host,h%d,%d,0" % (host, skew) for host in range(32)]
        title = f"31 messages in rows that stand the wrong way round, skew {skew}"
        yield times(title, log_of(*hosts, *backward_rows()), status)
    for skew, status in ((255, 3), (256, 0)):
        hosts = [b"host,h%d,%d,0" % (host, skew) for host in range(64)]
        title = f"511 messages round and round, skew {skew}"
        yield times(title, log_of(*hosts, *rows_of_rounds()), status)
    yield times("1,024 rows in too short a time", log_of(b"host,a,511,1", *[NOTE] * ROWS), 3)
    yield times("1,024 rows in just enough time", log_of(b"host,a,512,1", *[NOTE] * ROWS), 0)
    ring = log_of(b"host,a,%d,0" % MOST, b"recv,a,0,m", b"send,a,0,m")
    yield times("a receive before its send on one host", ring, 3)


def backward_rows():
    """Rows of 32 hosts at 0, each of which sends on once it has received; the last host stands first."""
    for host in reversed(range(32)):
        if host > 0:
            yield b"recv,h%d,0,m%d" % (host, host - 1)
        if host < 31:
            yield b"send,h%d,0,m%d" % (host, host)


def rows_of_rounds():
    """Rows of 64 hosts at 0, host by host. What one has received it sends on to the host that stands before it, and
    the first one to the last one, eight times round."""
    for host in range(64):
        for hop in range(63 - host, 512, 64):
            if hop > 0:
                yield b"recv,h%d,0,m%d" % (host, hop - 1)
            if hop < 511:
                yield b"send,h%d,0,m%d" % (host, hop)


def cases():
    """All cases of logs."""
    for some in (numbers, names, counts, lengths, odd_bytes, bounds):
        yield from some()
