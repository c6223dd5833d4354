"""Formulas and files of times at the limits and beyond them, and odd ones, with what has to be answered."""

from case import ONE_ROW, Case, log_of, replay, timing

LENGTH = 65_536  # of a formula and of a file of times
MOST = 10**18  # of an interval's bound
TIME = 10**19  # the greatest magnitude of a time
HEIGHT = 200


def fault(number, byte):
    """The line of a formula's fault."""
    return b"refused formula %d at byte %d" % (number, byte)


def repeated(text):
    """A text again and again, up to the longest file."""
    return (text * LENGTH)[:LENGTH]


def one_text():
    """The longest files of one sign, word or byte, each with its fault."""
    for sign in (b"(", b"!", b"F", b"G", b"O", b"H"):
        yield text_of(sign, fault(2, LENGTH))
    for sign in (b")", b"[", b"]", b",", b".", b"&", b"|", b"->", b"U", b"S"):
        yield text_of(sign, fault(2, 0))
    for byte in (b"-", b">", b"_", b"a", b"X", b"<", b"=", b"~", b"'", b'"', b"\\", b"#", b"\0", b"\x7f",
                 b"\x80", b"\xff", b"\x0b", b"\x0c", b"\xc2\xac"):
        yield text_of(byte, fault(1, 0))
    for digit in (b"0", b"1", b"9"):
        yield text_of(digit, fault(3, 0))
    for blank in (b" ", b"\t", b"\r", b"\n", b"\r\n"):
        yield text_of(blank, fault(7, 0))
    yield text_of(b"(!", fault(2, LENGTH))
    yield text_of(b"F[", fault(2, 2))
    yield text_of(b"true ", fault(6, 5))
    yield text_of(b"true", fault(1, 0))
    yield text_of(b"!U", fault(2, 1))
    yield text_of(b"()", fault(2, 1))
    yield text_of(b"a.", fault(6, 3))
    yield text_of(b"F[0,1]", fault(2, LENGTH))
    yield text_of(b"F[1,0]", fault(2, LENGTH))


def text_of(text, line):
    """A file of one text again and again, of 65,536 bytes."""
    return replay(f"65,536 bytes of {text!r}", repeated(text), 65, line)


def lengths():
    """Files at their longest, and one byte more."""
    blank = b" " * (LENGTH - 4)
    yield replay("blanks up to the longest file", b"true" + blank, 0, b"true")
    yield replay("one byte more", b"true " + blank, 67, b"refused length formula")
    yield Case("formula", "a file without an end", ["replay", "/dev/zero", "l", "t"], {"l": ONE_ROW, "t": b""},
               (67,), b"refused length formula")
    depth = (LENGTH - 4) // 2
    deep = b"(" * depth + b"true" + b")" * depth
    yield replay("32,766 parentheses", deep, 0, b"true")
    yield replay("one of them not closed", deep[:-1], 65, fault(2, LENGTH - 1))
    yield replay("one of them not opened", deep[1:], 65, fault(6, LENGTH - 2))
    yield replay("32,765 parentheses and a sign", b"!" + deep[1:-1] + b" ", 1, b"false")
    yield replay("parentheses, and U in the innermost", b"(" * 30_000 + b"U", 65, fault(2, 30_000))


def heights():
    """Chains of the greatest height, and one higher."""
    for sign in (b"!", b"F", b"G", b"O", b"H", b"F[0,1]"):
        high = sign * (HEIGHT - 1) + b"true"
        yield replay(f"height 200 of {sign!r}", high, *at_height(sign))
        yield replay(f"height 201 of {sign!r}", sign + high, 65, fault(5, 0))
        most = (LENGTH - 4) // len(sign)
        yield replay(f"{most} of {sign!r}", sign * most + b"true", 65, fault(5, 0))
    for sign in (b"U", b"S", b"&", b"|", b"->"):
        between = b" " + sign + b" "
        yield replay(f"height 200 of {sign!r}", between.join([b"a.p"] * HEIGHT), *at_height(sign))
        yield replay(f"height 201 of {sign!r}", between.join([b"a.p"] * (HEIGHT + 1)), 65, fault(5, 0))
        most = (LENGTH + len(sign)) // (3 + len(sign))
        yield replay(f"{most} leaves joined by {sign!r}", sign.join([b"a.p"] * most), 65, fault(5, 0))
    yield replay("two faults: too high, and an empty interval behind", b"!" * 300 + b"F[1,0] true", 65, fault(4, 301))
    yield replay("a number out of form behind another fault", b"&& F[01,2] true", 65, fault(3, 5))


def at_height(sign):
    """Status and line of 199 signs. Of G, H, | and -> each gives three distinct parts, which are too many."""
    if sign in (b"G", b"H", b"|", b"->"):
        return 67, b"refused nodes above 512"
    return (1, b"false") if sign in (b"!", b"U", b"S", b"&") else (0, b"true")


def words_and_numbers():
    """Words and the bounds of intervals at their limits."""
    for length, status in ((32, 0), (33, 65)):
        name = b"a" * length
        log = log_of(b"host," + name[:32] + b",0,0", b"set," + name[:32] + b",0," + name[:32])
        accepted = status == 0
        yield replay(f"a host of {length} bytes", name + b".p | true", status, b"true" if accepted else fault(1, 0), log, b"0\n")
        host = name[:32]
        yield replay(f"a name of {length} bytes", host + b"." + name, status, b"true" if accepted else fault(1, 33), log, b"0\n")
    yield replay("names that are kept words", b"a.true | a.false | a.inf | true", 0, b"true")
    yield replay("a host that is a kept word", b"inf.p", 65, fault(2, 0))
    for number, status, line in (
        (b"%d" % MOST, 0, b"true"), (b"%d" % (MOST + 1), 65, fault(3, 4)), (b"%d" % 2**64, 65, fault(3, 4)),
        (b"1" + b"0" * 30, 65, fault(3, 4)), (b"%d" % 2**128, 65, fault(3, 4)), (b"00", 65, fault(3, 4)),
        (b"9" * 60_000, 65, fault(3, 4)), (b"-1", 65, fault(1, 4)), (b"+1", 65, fault(1, 4)), (b"inf", 0, b"true"),
    ):
        title = number.decode() if len(number) < 40 else f"{len(number)} digits"
        yield replay(f"an upper bound {title}", b"F[0," + number + b"] true", status, line)
    yield replay("both bounds at 10^18", b"F[%d,%d] true" % (MOST, MOST), 1, b"false")
    yield replay("bounds that are crossed by one", b"F[%d,%d] true" % (MOST, MOST - 1), 65, fault(4, 1))
    yield replay("a lower bound inf", b"F[inf,inf] true", 65, fault(2, 2))
    yield replay("a fraction", b"F[0,1.5] true", 65, fault(2, 5))


def odd_bytes():
    """Texts whose bytes are odd."""
    yield replay("empty file", b"", 65, fault(7, 0))
    yield replay("lines that end with CRLF", b"true\r\n&\r\ntrue\r\n", 0, b"true")
    yield replay("a NUL at the end", b"true\0", 65, fault(1, 4))
    yield replay("a NUL in the middle", b"a.p\0& a.q", 65, fault(1, 3))
    yield replay("a byte order mark", b"\xef\xbb\xbftrue", 65, fault(1, 0))
    yield replay("a sign of another alphabet", "¬a.p".encode(), 65, fault(1, 0))
    yield replay("a minus without its point", b"a.p - a.q", 65, fault(1, 4))
    yield replay("-> taken apart", b"a.p - > a.q", 65, fault(1, 4))
    yield replay("two signs", b"a.p && a.q", 65, fault(2, 5))
    yield replay("capitals", b"A.p", 65, fault(1, 0))
    yield replay("an unknown host", b"true & zz.p & yy.q", 65, fault(8, 7))
    many = b"(" + b"|".join([b"b.p"] * 100) + b")&" + b"(" + b"|".join([b"c.p"] * 100) + b")"
    yield replay("200 unknown hosts", many, 65, fault(8, 1))


def nodes():
    """Formulas of the most distinct parts, and of one more."""
    parts = joined([b"a.p%d" % number for number in range(256)])  # 256 propositions, 255 conjunctions
    yield replay("512 distinct parts", b"!" + parts, 0, b"true")
    yield replay("513 distinct parts", b"!!" + parts, 67, b"refused nodes above 512")
    yield replay("8,192 equal propositions", joined([b"a.p"] * 8_192), 1, b"false")
    distinct = joined([b"a.p%d" % number for number in range(6_000)])
    yield replay("6,000 distinct propositions", distinct, 67, b"refused nodes above 512")
    untils = joined([b"F[0,%d]a.p" % number for number in range(3_500)])
    rows = log_of(b"host,a,0,1", *[b"note,a,%d,n" % row for row in range(1024)])
    given = b"".join(b"%d\n" % row for row in range(1024))
    most = joined([b"F[%d,%d](a.p S a.p)" % (number, number) for number in range(253)])  # 509 distinct parts
    yield replay("254 untils and sinces over 1,024 rows", most, 1, b"false", rows, given)
    yield replay("3,500 distinct intervals", untils, 67, b"refused nodes above 512")


def joined(parts):
    """The conjunction of parts as a tree of the least height."""
    if len(parts) == 1:
        return parts[0]
    half = len(parts) // 2
    return b"(" + joined(parts[:half]) + b"&" + joined(parts[half:]) + b")"


def files_of_times():
    """Files of times at their limits."""
    wide = log_of(b"host,a,%d,0" % MOST, b"note,a,%d,n" % (4 * MOST))
    high, low = b"not admissible high 0", b"not admissible low 0"
    first = b"refused times 1 at line 1"
    for given, status, line in (
        (b"%d" % (5 * MOST), 0, b"true"), (b"%d" % (3 * MOST), 0, b"true"),
        (b"%d" % (5 * MOST + 1), 6, high), (b"%d" % (3 * MOST - 1), 6, low),
        (b"%d" % TIME, 6, high), (b"-%d" % TIME, 6, low), (b"%d" % (TIME + 1), 68, first),
        (b"-%d" % (TIME + 1), 68, first), (b"%d" % (5 * MOST + 2**64), 68, first),
        (b"%d" % 2**128, 68, first), (b"1" + b"0" * 30, 68, first), (b"-0", 68, first), (b"+1", 68, first),
        (b"01", 68, first), (b"", 68, first), (b" 1", 68, first), (b"1 ", 68, first), (b"1\0", 68, first),
        (b"\xff", 68, first), (b"1\r\r", 68, first), (b"%d\r" % (5 * MOST), 0, b"true"),
    ):
        title = given.decode("latin-1").encode("unicode_escape").decode()
        yield timing(f"a time {title}", given + b"\n", status, line, wide)
    yield timing("no newline at the end", b"10", 0, b"true")
    yield timing("empty file", b"", 68, b"refused times 2 at line 1")
    yield timing("one time too many", b"10\n11\n", 68, b"refused times 2 at line 2")
    yield timing("an empty line too many", b"10\n\n", 68, b"refused times 2 at line 2")
    yield timing("a carriage return too many", b"10\n\r", 68, b"refused times 2 at line 2")
    yield timing("65,536 bytes of one digit", b"1" * LENGTH, 68, first)
    yield timing("65,536 newlines", b"\n" * LENGTH, 68, first)
    yield timing("32,768 times", b"1\n" * (LENGTH // 2), 68, b"refused times 2 at line 2")
    yield timing("one byte above the longest file", b"\n" * (LENGTH + 1), 67, b"refused length times")
    yield Case("times", "a file without an end", ["replay", "f", "l", "/dev/zero"], {"f": b"true", "l": ONE_ROW},
               (67,), b"refused length times")
    rows = log_of(b"host,a,0,0", *[b"note,a,0,n"] * 1024)
    yield timing("1,024 times at the greatest magnitude", b"%d\n" % TIME * 1024, 6, high, rows)
    yield timing("1,023 times for 1,024 rows", b"0\n" * 1023, 68, b"refused times 2 at line 1024", rows)


def cases():
    """All cases of formulas and of files of times."""
    for some in (one_text, lengths, heights, words_and_numbers, odd_bytes, nodes, files_of_times):
        yield from some()
