"""Texts of the greatest lengths that are made to take long: logs, formulas, tables, lines of JSON and access lines.

Each is a name and bytes. A log has up to 1 MiB, a formula up to 64 KiB, as the program allows.
"""

MIB = 1_048_576
FORMULA = 65_536
HEADER = b"kind,host,time,name\n"
HOST = HEADER + b"host,a,2,1\n"
SECOND = b"skewlog2,host,time,name\n"
ACCESS = b"1700000000.000 0.010 r1\n"


def filled(part, size=MIB, before=b"", behind=b""):
    """A part again and again between two others, up to a size."""
    room = size - len(before) - len(behind)
    return before + (part * (room // len(part) + 1))[:room] + behind


def logs():
    """Logs that are long, most of them faulty."""
    for byte in (b"\n", b"\r", b"\r\n", b",", b'"', b"\0", b"\xff", b" ", b"\t", b"a", b"9", b"-", b"{", b"[", b"\xe2\x80\xae", b"\\"):
        yield f"1 MiB of {byte!r}", filled(byte)
        yield f"1 MiB of {byte!r} behind a head", filled(byte, before=HOST)
        yield f"1 MiB of {byte!r} behind a quote", filled(byte, before=HOST + b'set,a,1,"')
    for place in (0, 4, len(HEADER), len(HOST), len(HOST) + 4):
        text = HOST + b"".join(b"set,a,%d,p%d\n" % (row, row % 7) for row in range(8000))
        yield f"8,000 rows with a quote at {place}", text[:place] + b'"' + text[place:]
    yield "60,000 rows with a quote", HOST + b'set,a,1,"p"\n' + b"set,a,2,p\n" * 60_000
    yield "rows whose names are all quoted", filled(b'set,a,1,"p"\n', before=HOST)
    yield "rows whose quotes are doubled", filled(b'"a""b"x,', before=HOST)
    yield "a quoted field a line", filled(b'"\n"x\n', before=HOST)
    yield "fields in quotes and fields without", filled(b'"",a,', before=HOST)
    yield "records of one letter", filled(b"a\n")
    yield "records of one letter behind a row of no host", filled(b"a\n", before=HOST + b"set,b,1,p\n")
    yield "records of a quote", filled(b'"\n')
    yield "104,000 rows", filled(b"set,a,1,p\n", before=HOST)
    yield "resyncs", filled(b"resync,a,1,1\n", before=SECOND + b"host,a,1,1\n", behind=b"set,a,1,p\n")
    yield "hosts", HEADER + b"".join(b"host,h%d,1,1\n" % host for host in range(60_000))
    yield "a name of a million letters", filled(b"x", before=HOST + b"set,a,1,")
    yield "a stamp of a million digits", filled(b"9", before=HOST + b"set,a,", behind=b",p\n")
    yield "a host of a million letters", filled(b"x", before=HEADER + b"host,", behind=b",1,1\n")
    yield "a kind of a million letters", filled(b"x", before=HOST, behind=b",a,1,p\n")
    yield "messages that nobody receives", HOST + b"".join(b"send,a,%d,m%d\n" % (row, row) for row in range(1000))
    hosts = b"".join(b"host,h%d,5,0\n" % host for host in range(64))
    rows = b"".join(b"set,h%d,%d,p%d\n" % (row % 64, row, row // 64) for row in range(1024))
    yield "64 hosts with 16 names each", HEADER + hosts + rows
    yield "1,024 rows of one name", HOST + b"".join(b"%s,a,%d,p\n" % (b"clear" if row % 2 else b"set", 3 * row) for row in range(1024))
    yield "1,024 pulses", SECOND + b"host,a,0,0\n" + b"".join(b"pulse,a,%d,p\n" % row for row in range(1024))


def formulas():
    """Formulas that are long, most of them faulty."""
    for part in (b"!", b"(", b")", b" ", b"\t", b"\n", b"\r", b"9", b"a", b"F", b"G ", b"F\n", b"F[", b"[", b".", b"?", b"->", b"&", b"|",
                 b"\0", b"\xff", b"_", b"<", b"F [ 0 ", b"F<=", b"a.p", b"a.p ", b"\xe2\x80\xae", b"F         "):
        yield f"64 KiB of {part!r}", filled(part, FORMULA)
        yield f"64 KiB of {part!r} behind a formula", filled(part, FORMULA, before=b"a.p ")
        yield f"64 KiB of {part!r} before a formula", filled(part, FORMULA, behind=b" a.p #")
    for sign in (b"&", b"|", b"->", b"U", b"S"):
        yield f"a chain of {sign!r}", filled(b"a.p " + sign + b" ", FORMULA - 3)[: -len(b"a.p " + sign)] + b"a.p"
        yield f"a chain of {sign!r} without an end", filled(b"a.p " + sign + b" ", FORMULA)
    yield "blanks in an interval", filled(b" ", FORMULA, before=b"F", behind=b"[0,5) a.p")
    yield "blanks behind an operator", filled(b" ", FORMULA, before=b"a.p & F", behind=b"#")
    yield "blanks behind a word", filled(b" ", FORMULA, before=b"always", behind=b"#")
    yield "digits in an interval", filled(b"9", FORMULA, before=b"F[0,", behind=b"] a.p")
    yield "parentheses", b"(" * 32_000 + b"a.p" + b")" * 32_000
    yield "parentheses without an end", b"(" * 32_000 + b"a.p"
    yield "newlines and names that no row sets", b"\n" * 60_000 + b" & ".join(b"a.q%d" % name for name in range(100))
    yield "a wide formula", balanced(8, b"a.p")


def balanced(levels, text):
    """A formula in which each conjunction has two equal sides."""
    return text if levels == 0 else b"(%s & %s)" % ((balanced(levels - 1, text),) * 2)


def tables():
    """Files that `ask log` makes a log of, or refuses."""
    yield from logs()
    head = b"time,host,kind,name\n"
    yield "names that truncate alike", head + b"".join(
        b"%d,a,note,%s%06d%s\n" % (row, b"x" * 16, row, b"y" * 30) for row in range(15_000)
    )
    yield "names that truncate alike, twice", head + b"".join(
        b"%d,a,note,%s%s%03d%s\n" % (row, b"x" * 16, b"z" * 5 * (row % 2), row // 2 % 1000, b"y" * 12) for row in range(15_000)
    )
    yield "1,000 names that are one", head + b"".join(b"%d,a,note,N%s\n" % (row, b"." * (row % 500)) for row in range(1000))
    yield "a name of a million letters in a table", filled(b"X", before=head + b"1,a,note,", behind=b"\n")
    yield "a name of a million braces", filled(b"{", before=head + b"1,a,note,", behind=b"\n")
    yield "100,000 columns", b",".join(b"c%d" % place for place in range(100_000)) + b"\n" + b"," * 99_999
    yield "hosts by chance", head + b"".join(b"%d,h%d,note,n\n" % (row, row) for row in range(50_000))
    stamps = b"".join(b"2023-11-14T22:13:%02d.%09dZ,a,note,n\n" % (row % 60, row) for row in range(20_000))
    yield "20,000 ISO stamps", head + stamps
    yield "a stamp of blanks", filled(b" ", before=head + b"2023-11-14T22:13:30", behind=b"x,a,note,n\n")
    yield "a stamp of digits", filled(b"1", before=head, behind=b",a,note,n\n")


def lines_of_json():
    """Lines of JSON, and arrays."""
    for part in (b"[", b"{", b'{"a":', b"[1,", b'"', b"{}\n", b"1", b"-", b"\\", b'{"time":1,"host":"a","name":"n"}\n', b" "):
        yield f"1 MiB of {part!r}", filled(part, before=b'{"time":' if part == b"1" else b"")
        yield f"an array of 1 MiB of {part!r}", filled(part, before=b"[")
    line = b'{"time":%s,"host":"%s","name":"%s"}\n'
    yield "a number of a million digits", line % (b"9" * 1_000_000, b"a", b"n")
    yield "a number with a million digits behind the point", line % (b"1." + b"9" * 1_000_000, b"a", b"n")
    yield "a number with a great exponent", line % (b"1e999999999", b"a", b"n")
    yield "a host of a million letters", line % (b"1", b"H" * 1_000_000, b"n")
    yield "a name of a million letters", line % (b"1", b"a", b"N" * 1_000_000)
    yield "a name of a million escapes", line % (b"1", b"a", b"\\u0000" * 170_000)
    yield "100,000 keys", b"{" + b",".join(b'"k%d":1' % key for key in range(80_000)) + b"}"
    yield "100,000 times one key", b"{" + b",".join(b'"k":%d' % key for key in range(80_000)) + b"}"
    for depth in (90, 120, 400, 900, 5000):
        yield f"{depth} objects in one another", b'{"a":' * depth + b"1" + b"}" * depth
        yield f"{depth} arrays in one another", b'{"a":' + b"[" * depth + b"1" + b"]" * depth + b"}"
        key = b"k" * (900_000 // depth)
        yield f"{depth} long keys in one another", b"".join(b'{"b":1,"%s":' % key for _ in range(depth)) + b"1" + b"}" * depth
    yield "a log in JSON that is cut", filled(b'{"kind":"set"},', before=b'{"hosts": [], "events": [')


def access_lines():
    """Lines of a web server in the format `$msec $request_time $request_id`."""
    for byte in (b" ", b"1", b'"', b"\0", b".", b"a", b"\\", b"\xff"):
        yield f"1 MiB of {byte!r}", filled(byte)
        yield f"1 MiB of {byte!r} behind a moment", filled(byte, before=b"1700000000.000 ")
        yield f"lines of {byte!r}", filled(ACCESS + byte + b"\n")
    yield "40,000 requests", filled(ACCESS)[: -(MIB % len(ACCESS))]
    yield "10,000 requests at once", b"".join(b"1700000999.%03d 999.000 r%d\n" % (row % 1000, row) for row in range(10_000))


FORMAT_OF_BLANKS = "$msec $request_time $request_id"
FORMATS = (FORMAT_OF_BLANKS, "$msec$request_time$request_id$a$b$c", 'combined "$request_time" $msec', "apache %D", "[$msec] [$a] [$b] $c$d")


def time_services():
    """Files of chronyd, ntpd and of chrony's tracking."""
    step = b"2023-11-14T22:13:30Z chronyd[1]: System clock was stepped by 0.5 seconds\n"
    yield "clock", "steps", filled(step)[: -(MIB % len(step))]
    yield "clock", "a line of a million steps", filled(b"was stepped by 1 seconds ")
    yield "clock", "blanks", filled(b" ", behind=b"was stepped by 1 seconds\n")
    yield "clock", "a number of a million digits", filled(b"9", before=b"was stepped by ", behind=b" seconds\n")
    yield "clock", "newlines", filled(b"\n")
    columns = b" ".join([b"1.0"] * 11)
    line = b"2023-11-14 22:%02d:%02d " + columns + b" 2.944e-02\n"
    yield "tracking", "updates", b"".join(line % (row // 60 % 60, row % 60) for row in range(16_000))
    yield "tracking", "an error of a million digits", line % (1, 1) + filled(b"9", before=(line % (1, 2))[: -len(b"2.944e-02\n")])
    yield "tracking", "words", filled(b"1 ")
