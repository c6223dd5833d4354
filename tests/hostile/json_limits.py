"""Logs in JSON with numbers, depths, counts and lengths at the limits and beyond them, with what has to be answered."""

from typing import NamedTuple

from case import HEADER, Case
from json_texts import (
    BOUND, CLOCK, HOST, LENGTH, NOTE, RESYNC, RIGHT, SHAPE, SYNTAX, TEXT, THIRD_TEXT, changed, log_of, nested, object_of, refused,
    text_of, with_entry, written,
)
from log_limits import LENGTH as LOG_LENGTH
from log_limits import LOCAL, MOST, ROWS, fault
from second_limits import HEADER as SECOND_HEADER

LEVELS = 127  # of arrays and objects in one another


class Place(NamedTuple):
    """A place of a number in a log, and in the text that is written of it."""

    title: str
    members: tuple  # of the object that has it
    key: bytes
    value: bytes  # at the key, with the number
    record: int  # in which the number stands
    own: bytes  # the text of that record
    text: bytes  # the same with the number
    least: int
    greatest: int

    def log(self, number):
        """The log with a number at this place."""
        return with_entry(self.members, changed(self.members, self.key, self.value % number))

    def log_text(self, number):
        """What is written of it."""
        return text_of(self.members).replace(self.own, self.text % number)


PLACES = (
    Place("skew", HOST, b"skew", b"%s", 2, b"host,a,2,1", b"host,a,%s,1", 0, MOST),
    Place("gap", HOST, b"gap", b"%s", 2, b"host,a,2,1", b"host,a,2,%s", 0, MOST),
    Place("least latency", HOST, b"latency", b"[%%s,%d]" % MOST, 3, b"latency,a,5,60", b"latency,a,%%s,%d" % MOST, 1, MOST),
    Place("greatest latency", HOST, b"latency", b"[1,%s]", 3, b"latency,a,5,60", b"latency,a,1,%s", 1, MOST),
    Place("skew of a resync", RESYNC, b"skew", b"%s", 4, b"resync,a,3,4", b"resync,a,%s,4", 0, MOST),
    Place("gap of a resync", RESYNC, b"gap", b"%s", 4, b"resync,a,3,4", b"resync,a,3,%s", 0, MOST),
    Place("local time", NOTE, b"time", b"%s", 5, b"note,a,10,n", b"note,a,%s,n", -LOCAL, LOCAL),
    Place("error", CLOCK, b"error", b"%s", 5, b"clock,a,1,m", b"clock,a,%s,m", 0, MOST),
    # What a bound says may be greater than any whole number of 64 bits.
    Place("number of a bound", BOUND, b"most", b"%s", 8, b"bound,1,0,5", b"bound,1,0,%s", -(2**63), 2**64 - 1),
)
# Whole numbers of 64 bits, with their sign or without.
WHOLE = (-(2**63), -LOCAL - 1, -1, 0, 1, MOST, MOST + 1, LOCAL, LOCAL + 1, 2**63 - 1, 2**63, 2**64 - 1)
FLOATS = (
    *(b"%d" % number for number in (2**64, 2**64 + 1, -(2**63) - 1, 2**128, 2**128 + 2, -(2**128), 10**30)),
    b"9" * 308, b"1" + b"0" * 308, b"-0", b"-0.0", b"0.0", b"2.0", b"0.5", b"2e0", b"2E0", b"20e-1", b"1e18", b"1E+18",
    b"1e308",
    b"1e-400", b"0e999", b"0e9999999999999999999999", b"1e-9999999999999999999999", b"2." + b"0" * 1_000_000,
)
OTHERS = (b'"2"', b'""', b"true", b"false", b"[]", b"[2]", b"{}", b'{"2":2}')
NO_JSON = (
    b"9" * 309, b"9" * 400, b"-" + b"9" * 400, b"9" * 1_000_000, b"1e309", b"-1e309", b"1e999", b"1e9999999999999999999999",
    b"9" * 400 + b".0", b"00", b"02", b"-02", b"+2", b".5", b"2.", b"-", b"--2", b"2e", b"2e+", b"2e1.0", b"0x10", b"2_000",
    b"2 000", b"NaN", b"nan", b"Infinity", b"-Infinity", b"inf", b"None", b"nul", b"True", b"", b"'2'",
)


def numbers():
    """Numbers at each place where a log has one, floats, other values, and what is no JSON."""
    for place in PLACES:
        for number in WHOLE:
            title = f"{place.title} {number}"
            if place.least <= number <= place.greatest:
                yield written(title, place.log(b"%d" % number), place.log_text(b"%d" % number))
            else:
                # A greatest latency of 0 is a number in range, below the least one.
                number_of_fault = 16 if (place.title, number) == ("greatest latency", 0) else 7
                yield refused(title, place.log(b"%d" % number), fault(number_of_fault, place.record))
        for title, texts, line in (("a float", FLOATS, SHAPE), ("no number", OTHERS, SHAPE), ("no JSON", NO_JSON, SYNTAX)):
            for text in texts:
                yield refused(f"{place.title}, {title}", place.log(text), line)
        if place.title == "greatest latency":  # with the least one 1 it says no more than none
            yield written("greatest latency null", place.log(b"null"), TEXT.replace(b"latency,a,5,60\n", b""))
        else:
            yield refused(f"{place.title} null", place.log(b"null"), SHAPE)


def rows_of_bounds():
    """Numbers of rows that bounds name: those of two rows, and others."""
    for key, same in ((b"later", 0), (b"earlier", 1)):
        for number in (*WHOLE, 2, 2**32 - 1, 2**32):
            log = with_entry(BOUND, changed(BOUND, key, b"%d" % number))
            title = f"{key.decode()} row {number}"
            if number in (0, 1) and number != same:
                yield written(title, log, THIRD_TEXT)
            else:
                is_row_number = 0 <= number < 2**32
                yield refused(title, log, fault(18 if number == same else 20 if is_row_number else 7, 8))
        for text in (*FLOATS, *OTHERS, b"null"):
            yield refused(f"{key.decode()} row, no whole number", with_entry(BOUND, changed(BOUND, key, text)), SHAPE)


def latencies():
    """What stands in place of the two numbers of a latency."""
    for text in (b"[]", b"[5]", b"[5,60,60]", b"[5,60,null]", b"[[5,60]]", b"[null,60]", b"[null,null]",
                 b'{"least":5,"greatest":60}', b"5", b"null", b'"5,60"', b'[5,"inf"]', b"[5,60.0]"):
        yield refused("a latency of another shape", with_entry(HOST, changed(HOST, b"latency", text)), SHAPE)
    for text, line in ((b"[60,5]", fault(16, 3)), (b"[0,0]", fault(7, 3)), (b"[-1,null]", fault(7, 3)),
                       (b"[5,-1]", fault(7, 3))):
        yield refused(f"a latency {text.decode()}", with_entry(HOST, changed(HOST, b"latency", text)), line)
    for text, record in ((b"[5,5]", b"latency,a,5,5"), (b"[5,null]", b"latency,a,5,inf"), (b"[ 5 , 60 ]", b"latency,a,5,60")):
        log = with_entry(HOST, changed(HOST, b"latency", text))
        yield written(f"a latency {text.decode()}", log, TEXT.replace(b"latency,a,5,60", record))
    many = b"[" + b",".join([b"5"] * 1_000_000) + b"]"
    yield refused("a latency of a million numbers", with_entry(HOST, changed(HOST, b"latency", many)), SHAPE)


def nesting():
    """Arrays and objects in one another, at the greatest depth, one deeper, and as deep as a file allows."""
    for title, front, back in (
        ("arrays", b"[", b"]"), ("objects", b'{"a":', b"}"), ("arrays behind a number", b"[1,", b"]"),
        ("objects behind a member", b'{"b":1,"a":', b"}"),
    ):
        for depth, line in ((LEVELS, SHAPE), (LEVELS + 1, SYNTAX), (1_000, SYNTAX), (100_000, SYNTAX)):
            yield refused(f"{title}, {depth} deep", nested(front, back, depth, b"1"), line)
        yield refused(f"{title}, 127 deep and not closed", front * LEVELS + b"1", SYNTAX)
        yield refused(f"{title}, 127 deep and closed once more", nested(front, back, LEVELS, b"1") + back, SYNTAX)
        yield refused(f"4 MiB of {title} that aren't closed", (front * LENGTH)[:LENGTH], SYNTAX)
        most = (LENGTH - 1) // (len(front) + len(back))
        yield refused(f"4 MiB of {title}", nested(front, back, most, b"1"), SYNTAX)
    yield refused("arrays and objects in turn, 127 deep", b"[" + nested(b'{"a":[', b"]}", LEVELS // 2) + b"]", SHAPE)
    yield refused("arrays and objects in turn, 128 deep", nested(b'{"a":[', b"]}", LEVELS // 2 + 1), SYNTAX)
    for signs in (b"]", b"}", b"[[", b"{{", b"[{", b"{[", b"[]", b"{}", b"][", b'{"":['):
        yield refused(f"4 MiB of {signs.decode()}", signs * (LENGTH // len(signs)), SYNTAX)
    yield from nesting_in_logs()


def nesting_in_logs():
    """The same in a log, which has an object, an array and an object around the values of a row."""
    for title, front, back in (("arrays", b"[", b"]"), ("objects", b'{"a":', b"}")):
        first = f"{title} in a value that another one hides"
        hidden = b'{"hosts":%s,' + RIGHT[1:]
        yield written(f"{first}, at 127", hidden % nested(front, back, LEVELS - 1, b"1"), TEXT)
        yield refused(f"{first}, at 128", hidden % nested(front, back, LEVELS, b"1"), SYNTAX)
        for depth, line in ((LEVELS, SHAPE), (LEVELS + 1, SYNTAX)):
            named = changed(NOTE, b"name", nested(front, back, depth - 3, b"1"))
            yield refused(f"{title} in place of a row's name, at {depth}", with_entry(NOTE, named), line)


def counts():
    """Numbers of hosts and events, and the record at which there is one too many."""
    hosts = [changed(HOST, b"name", b'"h%d"' % host) for host in range(65)]
    plain = [changed(host, b"latency", None) for host in hosts]
    first = changed(NOTE, b"host", b'"h0"')
    declared = b"".join(b"host,h%d,2,1\n" % host for host in range(64))
    delays = b"".join(b"latency,h%d,5,60\n" % host for host in range(64))
    yield written("64 hosts with latencies", log_of(hosts[:64], [first]), SECOND_HEADER + declared + delays + b"note,h0,10,n\n")
    yield refused("65 hosts with latencies", log_of(hosts, [first]), fault(12, 130))
    yield written("64 hosts without latencies", log_of(plain[:64], [first]), HEADER + declared + b"note,h0,10,n\n")
    yield refused("65 hosts without latencies", log_of(plain, [first]), fault(12, 66))
    both = b"resync,a,3,4\nnote,a,10,n\n"
    yield written("1,024 rows", log_of([HOST], [NOTE] * ROWS), TEXT.replace(both, b"note,a,10,n\n" * ROWS))
    yield refused("1,025 rows", log_of([HOST], [NOTE] * (ROWS + 1)), fault(13, ROWS + 4))
    yield written("1,024 rows with a resync before each", log_of([HOST], [RESYNC, NOTE] * ROWS),
                  TEXT.replace(both, both * ROWS))
    yield refused("1,025 rows with a resync before each", log_of([HOST], [RESYNC, NOTE] * (ROWS + 1)), fault(13, 2 * ROWS + 5))
    yield refused("85,000 rows", log_of([HOST], [NOTE] * 85_000), fault(13, ROWS + 4))
    yield refused("1,025 rows, the last without its shape", log_of([HOST], [NOTE] * ROWS + [()]), SHAPE)
    yield refused("110,000 times one host", log_of([changed(HOST, b"latency", None)] * 110_000, [NOTE]), fault(5, 3))
    yield refused("a message sent twice", log_of([HOST], [changed(NOTE, b"kind", b'"send"')] * 2), fault(9, 5))
    yield from counts_of_third()


def counts_of_third():
    """Numbers of clocks and of bounds between rows."""
    clocks = [changed(CLOCK, b"clock", b'"c%d"' % clock) for clock in range(1025)]
    head, row = THIRD_TEXT.partition(b"resync")[0], b"note,a,10,n\n"
    read = b"".join(b"clock,a,1,c%d\n" % clock for clock in range(1024))
    yield written("1,024 clocks", log_of([HOST], [*clocks[:1024], NOTE]), head + read + row)
    yield refused("1,025 clocks", log_of([HOST], [*clocks, NOTE]), fault(17, 1028))
    yield refused("1,025 clocks, the last faulty too", log_of([HOST], [*clocks[:1024], changed(clocks[1024], b"host", b'"b"')]),
                  fault(6, 1028))
    own = object_of(BOUND) + b","
    whole = log_of([HOST], [BOUND, NOTE, NOTE])
    count = (LENGTH - len(whole)) // len(own)
    text = head + row * 2 + b"bound,1,0,5\n" * (count + 1)
    yield written(f"{count + 1:,} bounds", whole.replace(own, own * (count + 1)), text)


def lengths():
    """Files at their longest, and one byte more."""
    blanks = LENGTH - len(RIGHT)
    too_long = b"refused length json"
    yield written("blanks up to the longest file", RIGHT + b" " * blanks, TEXT)
    yield written("newlines before it up to the longest file", b"\n" * blanks + RIGHT, TEXT)
    for title, data in (("blanks", RIGHT + b" " * (blanks + 1)), ("digits", b"1" * (LENGTH + 1)),
                        ("arrays", b"[" * (LENGTH + 1))):
        yield Case("json", f"{title}, one byte more than may be", ["json", "j"], {"j": data}, (67,), too_long)
    yield Case("json", "a file without an end", ["json", "/dev/zero"], {}, (67,), too_long)
    for title, data, line in (
        ("digits", b"1" * LENGTH, SYNTAX), ("zeros", b"0" * LENGTH, SYNTAX), ("a fraction", b"0." + b"1" * (LENGTH - 2), SHAPE),
        ("an exponent", b"1e" + b"0" * (LENGTH - 3) + b"1", SHAPE), ("minus signs", b"-" * LENGTH, SYNTAX),
        ("a string", b'"' + b"a" * (LENGTH - 2) + b'"', SHAPE),
        ("a string that isn't closed", b'"' + b"a" * (LENGTH - 1), SYNTAX),
        ("escapes", b'"' + b"\\u0061" * ((LENGTH - 2) // 6) + b'"', SHAPE), ("quotes", b'"' * LENGTH, SYNTAX),
        ("backslashes", b'"' + b"\\" * (LENGTH - 2) + b'"', SHAPE), ("commas", b"," * LENGTH, SYNTAX),
        ("colons", b":" * LENGTH, SYNTAX),
        ("pairs of halves", b'"' + b"\\ud83d\\ude00" * ((LENGTH - 2) // 12) + b'"', SHAPE), ("blanks", b" " * LENGTH, SYNTAX),
        ("NUL bytes", b"\0" * LENGTH, SYNTAX), ("bytes 255", b"\xff" * LENGTH, SYNTAX),
        ("nulls", b"null" * (LENGTH // 4), SYNTAX),
        ("slashes", b"/" * LENGTH, SYNTAX),
    ):
        yield refused(f"4 MiB of {title}", data, line)
    named = changed(NOTE, b"name", b'"n' + b"a" * blanks + b'"')
    yield refused("a row's name up to the longest file", with_entry(NOTE, named), fault(8, 5))
    yield from many_resyncs()


def many_resyncs():
    """As many resyncs as a file has room for, which make a text that is longer than a log may be."""
    own = object_of(RESYNC) + b","
    count = (LENGTH - len(RIGHT)) // len(own)
    text = TEXT.replace(b"resync,a,3,4\n", b"resync,a,3,4\n" * (count + 1))
    yield written(f"{count + 1:,} resyncs", RIGHT.replace(own, own * (count + 1)), text)
    assert len(text) > LOG_LENGTH
    yield Case("json", "the log that is written of them", ["order", "l"], {"l": text}, (67,), b"refused length log")


def wide_values():
    """Many values beside one another, each file with the most memory that it may take, in its lengths."""
    deep = LEVELS - 1
    for title, item, most in (
        ("empty arrays", b"[]", 20), ("numbers", b"7", 20), ("floats", b"0.1", 20), ("nulls", b"null", 20),
        ("objects with a member", b'{"":0}', 140), ("arrays that nest 126 deep", nested(b"[", b"]", deep), 80),
        ("objects that nest 126 deep", nested(b'{"":', b"}", deep, b"0"), 180),
    ):
        count = (LENGTH - 2) // (len(item) + 1)
        yield refused(f"{count:,} {title}", b"[" + b",".join([item] * count) + b"]", SHAPE, most)


def cases():
    """All cases of numbers, depths, counts and lengths of logs in JSON."""
    for some in (numbers, rows_of_bounds, latencies, nesting, counts, lengths, wide_values):
        yield from some()
