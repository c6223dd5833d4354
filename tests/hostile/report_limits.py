"""Reports at the limits and beyond them, with what has to be answered.

Most are about the formula true on a log of one row, whose values are told by one line each: of true by the
time of the row, of false by a derivation.
"""

from itertools import combinations

from case import TWO_ROWS, Blank, audit, log_of, trim

LENGTH = 1_073_741_824
MEBIBYTE = 1_048_576
LONGEST = 10  # seconds of a judgement that is linear, twice what was measured, where a checker that isn't takes 20 to 60
NUMBER = 2**32  # the least number that a report can't have
COEFFICIENT = 10**21  # the greatest magnitude of an order's number
TIME = 10**19
TITLE = b"skewcheck 1\n"
EMPTY_CLAUSE = b"learn 0 3 rule 3 0 0 rule 11 rule 24 0\n"
ACCEPTED = b"accepted"
HEADER_2 = b"skewlog2,host,time,name\n"
ROWS = log_of(b"host,a,0,1", *[b"note,a,%d,n" % time for time in range(1024)])


def report_of(*lines, count=None, events=b"1", time=b"10"):
    """A report with a witness of true and these lines against false; more lines can be announced."""
    number = len(lines) if count is None else count
    head = TITLE + b"events %s\ntrue witness\n%s\nfalse refuted %d\n" % (events, time, number)
    return head + b"".join(line + b"\n" for line in lines) + b"end\n"


def at(part, line):
    """The line of a refusal."""
    return b"refused %s at line %d" % (part, line)


RIGHT = report_of(EMPTY_CLAUSE[:-1])


def numbers_of_lists():
    """Numbers that say how many of something follow, and numbers of rows."""
    for value, line in (
        (b"0", at(b"report", 4)), (b"2", at(b"report", 5)), (b"4294967295", at(b"report", 5)),
        (b"4294967296", at(b"report", 2)), (b"4294967297", at(b"report", 2)),
        (b"18446744073709551617", at(b"report", 2)), (b"1" + b"0" * 30, at(b"report", 2)),
        (b"9" * MEBIBYTE, at(b"report", 2)), (b"01", at(b"report", 2)), (b"-1", at(b"report", 2)),
        (b"+1", at(b"report", 2)), (b"", at(b"report", 2)),
    ):
        yield audit(f"events {shown(value)}", report_of(EMPTY_CLAUSE[:-1], events=value), 5, line)
    for value, line in (
        (4294967295, at(b"report", 7)), (4294967296, at(b"report", 5)), (4294967297, at(b"report", 5)),
        (2**64 + 1, at(b"report", 5)), (10**30, at(b"report", 5)), (2, at(b"report", 7)), (0, at(b"report", 6)),
    ):
        report = report_of(EMPTY_CLAUSE[:-1], count=value)
        yield audit(f"lines of a derivation {value}", report, 5, line)
    for value, line in (
        (1, at(b"inconsistent", 1)), (0, at(b"report", 4)), (2, at(b"report", 5)), (4294967295, at(b"report", 5)),
        (4294967296, at(b"report", 3)), (2**64 + 1, at(b"report", 3)), (10**30, at(b"report", 3)),
    ):
        report = TITLE + b"events 1\ninconsistent %d\nlow 0\nend\n" % value
        yield audit(f"bounds of a walk {value}", report, 5, line)
    yield audit("no bound", TITLE + b"events 1\ninconsistent 0\nend\n", 5, at(b"inconsistent", 0))
    yield audit("a walk for 4294967295 rows", TITLE + b"events 4294967295\ninconsistent 0\nend\n", 5, at(b"events", 0))


def shown(value):
    """A word as titles show it."""
    return value.decode() if len(value) < 40 else f"of {len(value)} digits"


def numbers_in_lines():
    """Numbers in the lines of a derivation."""
    syntax, wrong = at(b"report", 6), at(b"false", 1)
    past = (NUMBER, NUMBER + 1, 2**64, 2**64 + 1, 10**30)
    for line, is_syntax in (
        *[(b"learn 0 1 line %d" % value, False) for value in (0, 1, NUMBER - 1)],
        *[(b"learn 0 1 line %d" % value, True) for value in past],
        *[(b"learn 0 1 rule %d" % value, False) for value in (0, 255)],
        *[(b"learn 0 1 rule %d" % value, True) for value in (256, 256 + 11, NUMBER + 11, 10**30)],
        (b"learn 0 1 rule 3 0 %d" % (NUMBER - 1), False), (b"learn 0 1 rule 3 0 %d" % NUMBER, True),
        (b"learn 0 1 rule 3 %d 0" % (NUMBER - 1), False), (b"learn 0 1 rule 3 %d 0" % 2**64, True),
        (b"learn 0 1 rule 11 0", True), (b"learn 0 1 rule 3 0", True),
        (b"learn 1 +first %d 1 rule 11" % (NUMBER - 1), False), (b"learn 1 +first %d 1 rule 11" % NUMBER, True),
        *[(b"learn %d 1 rule 11" % value, True) for value in (1, NUMBER - 1, *past)],
        *[(b"learn 0 %d rule 11" % value, True) for value in (0, 2, NUMBER - 1, *past)],
        *[(b"learn 1 order 0 1 %d 1 rule 11" % (sign * COEFFICIENT), False) for sign in (1, -1)],
        *[(b"learn 1 order 0 1 %d 1 rule 11" % (sign * (COEFFICIENT + 1)), True) for sign in (1, -1)],
        *[(b"learn 1 order 0 1 %s 1 rule 11" % text, True) for text in (b"-0", b"+1", b"01", b"9" * MEBIBYTE)],
        (b"learn 1 order 0 0 1 1 rule 11", True), (b"learn 2 +first 0 -first 0 1 rule 11", True),
        *[(b"cycle 1 low %d" % value, False) for value in (0, 1, NUMBER - 1)],
        *[(b"cycle 1 low %d" % value, True) for value in past],
        *[(b"cycle %d low 0" % value, True) for value in (0, 2, NUMBER - 1, *past)],
        (b"cycle 0", False), (b"learn 0 0", False),
        (b"cycle 1 order 0 1 %d" % COEFFICIENT, False), (b"cycle 1 order 0 1 %d" % (COEFFICIENT + 1), True),
    ):
        title = line.decode() if len(line) < 60 else f"a number of {len(line) - 30} digits and more"
        yield audit(title, report_of(line), 5, syntax if is_syntax else wrong)


def times_of_witnesses():
    """Times of a witness."""
    for value, line in (
        (b"%d" % TIME, at(b"true", 0)), (b"-%d" % TIME, at(b"true", 0)), (b"%d" % (TIME + 1), at(b"report", 4)),
        (b"-%d" % (TIME + 1), at(b"report", 4)), (b"%d" % (2**64 + 10), at(b"report", 4)),
        (b"%d" % (2**128 + 10), at(b"report", 4)), (b"1" + b"0" * 30, at(b"report", 4)), (b"-0", at(b"report", 4)),
        (b"010", at(b"report", 4)), (b" 10", at(b"report", 4)), (b"10 ", at(b"report", 4)),
        (b"10\r", at(b"report", 4)), (b"1" * MEBIBYTE, at(b"report", 4)),
    ):
        report = report_of(EMPTY_CLAUSE[:-1], time=value)
        title = value.decode().encode("unicode_escape").decode() if len(value) < 42 else f"{len(value)} digits"
        yield audit(f"a time {title}", report, 5, line)


def long_lists():
    """Lines and lists of a mebibyte and more, some of them right."""
    wrong = at(b"false", 1)
    hints = MEBIBYTE // len(b" rule 3 0 0")
    yield audit("1 MiB of equal hints", report_of(b"learn 0 %d" % hints + b" rule 3 0 0" * hints), 5, wrong)
    hints = MEBIBYTE // len(b" line 1")
    yield audit("1 MiB of hints at one line", report_of(b"learn 0 %d" % hints + b" line 1" * hints), 5, wrong)
    short = b"learn 0 %d" % (hints + 1) + b" line 1" * hints
    yield audit("1 MiB of hints, one less than is said", report_of(short), 5, at(b"report", 6))
    above = b"".join(b" order 0 1 %d" % number for number in range(60_000))
    first = b"cycle 3 low 1 order 1 0 0 high 0"
    last = b"learn 0 5 line 1 rule 9 1 0 rule 11 rule 24 0 rule 2 0 0 0"
    many = b"learn 60001 order 0 1 -1" + above + b" 1 line 1"
    right = TITLE + b"events 2\ntrue witness\n10\n15\nfalse refuted 3\n" + b"\n".join((first, many, last)) + b"\nend\n"
    either = {"formula": b"a.req", "log": TWO_ROWS}
    yield audit("a right line of 60,001 literals", right, 0, ACCEPTED, **either)
    twice = right.replace(b"learn 60001", b"learn 60002").replace(b" 1 line 1", b" order 0 1 -1 1 line 1")
    yield audit("the same with its first literal twice", twice, 5, at(b"report", 8), **either)
    turns = 60_000
    walk = b"cycle %d low 1 order 1 0 0 high 0" % (3 + 2 * turns) + b" low 0 high 0" * turns
    zero = TWO_ROWS.replace(b",2,1\n", b",0,1\n")
    long_walk = right.replace(first, walk).replace(b"refuted 3", b"refuted 2").replace(many + b"\n", b"")
    yield audit("a right walk of 120,003 steps", long_walk, 0, ACCEPTED, b"a.req", zero)
    open_walk = long_walk.replace(walk, walk.replace(b"cycle 120003", b"cycle 120004") + b" low 0")
    yield audit("the same, not closed", open_walk, 5, wrong, b"a.req", zero)
    repeated = [b"learn 1 +first 0 1 rule 11"] * 40_000
    yield audit("1 MiB of one right line", report_of(*repeated, EMPTY_CLAUSE[:-1]), 0, ACCEPTED)
    chain = [repeated[0], *[b"learn 1 +first 0 1 line %d" % line for line in range(1, 40_000)]]
    yield audit("40,000 lines, each by the one before", report_of(*chain, EMPTY_CLAUSE[:-1]), 0, ACCEPTED)
    yield audit("1 MiB of empty clauses", report_of(*[EMPTY_CLAUSE[:-1]] * 27_000), 5, at(b"false", 2))
    bounds = b"low 0\nhigh 0\n" * 80_000
    walk = TITLE + b"events 1\ninconsistent 160000\n" + bounds + b"end\n"
    yield audit("1 MiB of bounds of a walk that has no negative sum", walk, 5, at(b"inconsistent", 160_000))


def many_lines():
    """Reports of 16 MiB and more in many lines, each of which takes at most six times its length in memory."""
    size, wrong, most = 16 * MEBIBYTE, at(b"false", 1), 6
    right = b"learn 1 +first 0 1 rule 11"
    number = size // (len(right) + 1)
    yield audit("16 MiB of one right line", report_of(*[right] * number, EMPTY_CLAUSE[:-1]), 0, ACCEPTED, most=most)
    faulty = report_of(*[right] * number, b"learn")
    yield audit("the same, its last line faulty", faulty, 5, at(b"report", 6 + number), most=most)
    chain = [right, *[b"learn 1 +first 0 1 line %d" % line for line in range(1, number)]]
    yield audit("16 MiB of lines, each by the one before", report_of(*chain, EMPTY_CLAUSE[:-1]), 0, ACCEPTED, most=most)
    yield audit("16 MiB of walks of no step", report_of(*[b"cycle 0"] * (size // 8)), 5, wrong, most=most)
    yield audit("16 MiB of lines without hints", report_of(*[b"learn 0 0"] * (size // 10)), 5, wrong, most=most)
    hints = b"learn 1 +first 0 1000" + b" line 1" * 1000
    yield audit("lines of 1,000 hints", report_of(right, *[hints] * (size // len(hints))), 5, at(b"false", 2), most=most)
    walk = b"cycle 3 low 1 order 1 0 0 high 0"
    head = TITLE + b"events 2\ntrue witness\n10\n15\nfalse refuted %d\n"
    number = size // (len(walk) + 1)
    walks = head % number + (walk + b"\n") * number + b"end\n"
    yield audit("16 MiB of a right walk", walks, 5, at(b"false", 0), b"a.req", TWO_ROWS, most=most)
    short = b" +first 0 +first 1" + b"".join(b" order 0 1 %d" % bound for bound in range(-1, 10))
    clause = b"learn 13" + short + b" 1 line 1\n"
    number = size // len(clause)
    clauses = head % (number + 1) + walk + b"\n" + clause * number + b"end\n"
    yield audit("16 MiB of a right line of short literals", clauses, 5, at(b"false", 0), b"a.req", TWO_ROWS, most=most)
    count = size // 2
    times = TITLE + b"events %d\ntrue witness\n" % count + b"0\n" * count + b"false refuted 1\n" + EMPTY_CLAUSE + b"end\n"
    yield audit("16 MiB of times of a witness", times, 5, at(b"events", 0), most=most)


def many_lines_to_trim():
    """Reports of 16 MiB in many lines to be trimmed, each of which takes at most six times its length in memory."""
    size, first, most = 16 * MEBIBYTE, TITLE[:-1], 6
    right = b"learn 1 +first 0 1 rule 11"
    number = size // (len(right) + 1)
    yield trim("16 MiB of which the last line is needed", report_of(*[right] * number, EMPTY_CLAUSE[:-1]), 0, first, most)
    chain = [right, *[b"learn 1 +first 0 1 line %d" % line for line in range(1, number)]]
    yield trim("16 MiB of which every line is needed", report_of(*chain), 0, first, most)
    forward = report_of(*chain, b"learn 0 1 line %d" % (number + 1))
    yield trim("the same, and the last line names itself", forward, 5, at(b"false", number + 1), most)
    walk = b"cycle 3 low 1 order 1 0 0 high 0"
    yield trim("16 MiB of walks to trim", report_of(*[walk] * (size // (len(walk) + 1))), 0, first, most)
    hints = b"learn 1 +first 0 1000" + b" line 1" * 1000
    yield trim("lines of 1,000 hints to trim", report_of(right, *[hints] * (size // len(hints))), 0, first, most)
    yield trim("a refuted section without a line", report_of(), 5, at(b"false", 0))


def one_line_lists():
    """What one line of 16 MiB may list, whether the line is right, and the line."""
    size = 16 * MEBIBYTE
    pairs = size // 25
    yield "steps low 0", False, b"cycle %d" % (size // 6) + b" low 0" * (size // 6)
    yield "two order steps in turn", True, b"cycle %d" % (2 * pairs) + b" order 0 1 0 order 1 0 -1" * pairs
    orders = b"".join(b" order 0 1 %d order 1 0 %d" % (number, -number - 1) for number in range(pairs // 2))
    yield "distinct order steps", True, b"cycle %d" % (2 * (pairs // 2)) + orders
    atoms = b"".join(b" +first %d" % event for event in range(size // 15))
    yield "literals of events that there aren't", False, b"learn %d" % (size // 15) + atoms + b" 1 rule 11"
    atoms = b"".join(b" order 0 1 %d" % number for number in range(size // 17))
    right = b"learn %d +first 0 +first 1" % (size // 17 + 2) + atoms
    yield "literals", True, right + b" 1 rule 11"
    yield "the same, and a hint that isn't", False, right + b" 1 line 1"
    yield "hints of a rule", False, b"learn 0 %d" % (size // 8) + b" rule 11" * (size // 8)
    yield "hints of a line", False, b"learn 0 %d" % (size // 7) + b" line 1" * (size // 7)


def one_line():
    """Reports that are one line of 16 MiB, or one walk, for each of which at most six times its length is asked."""
    most = 6
    head = TITLE + b"events 2\ntrue witness\n10\n15\nfalse refuted 1\n"
    for what, right, line in one_line_lists():
        report = head + line + b"\nend\n"
        place = at(b"false", 0 if right else 1)
        yield audit(f"16 MiB of one line, {what}", report, 5, place, b"a.req", TWO_ROWS, most=most)
        trimmed = (5, at(b"false", 1)) if b" line 1" in line else (0, TITLE[:-1])
        yield trim(f"one line, {what}, to trim", report, *trimmed, most)
    count = 16 * MEBIBYTE // 6
    walk = TITLE + b"events 2\ninconsistent %d\n" % count + b"low 0\n" * count + b"end\n"
    yield audit("16 MiB of bounds low 0", walk, 5, at(b"inconsistent", 2), b"a.req", TWO_ROWS, most=most)
    yield trim("16 MiB of bounds low 0, to trim", walk, 0, TITLE[:-1], most)


def giving_hints():
    """One line of 17 MiB whose hints each give another literal, for which at most six times its length is asked."""
    rows = range(1_000)
    log = log_of(b"host,a,0,0", *[b"%s,a,%d,p" % (b"set" if time % 2 else b"clear", time) for time in rows])
    times = b"\n".join(b"%d" % time for time in rows)
    literals = b"".join(b" +first %d" % row for row in rows) + b"".join(b" +node 1 %d" % row for row in rows)
    number = len(rows) ** 2
    for order, step in (("in their order", 1), ("in another order", 618_033)):
        places = (step * place % number for place in range(number))
        hints = b"".join(b" rule 14 2 %d %d" % divmod(place, len(rows)) for place in places)
        line = b"learn %d%s %d%s rule 11" % (2 * len(rows), literals, number + 1, hints)
        report = report_of(line, events=b"%d" % len(rows), time=times)
        title = f"17 MiB of one line, hints that each give another literal, {order}"
        yield audit(title, report, 5, at(b"false", 0), b"F[0,1] a.p", log, most=6)


def naming_many_literals():
    """Reports whose hints name clauses with some hundred million literals, more than ten for each byte."""
    for title, hinted in (("spans without a gap", spans()), ("pulses", pulses()), ("long lines", long_lines())):
        formula, log, report = hinted
        size = f"{len(report) / MEBIBYTE:.1f} MiB"
        yield audit(f"{size} of hints to clauses of {title}", report, 5, at(b"false", 0), formula, log, seconds=LONGEST)
        yield trim(f"{size} of hints to clauses of {title}, to trim", report, 0, TITLE[:-1], most=6, seconds=LONGEST)


def spans():
    """A line on 1,024 rows that denies the gaps from some events on, and gives each span from there."""
    rows, starts = range(1_024), range(145)
    log = log_of(b"host,a,0,0", *[b"%s,a,%d,p" % (b"set" if time % 2 else b"clear", time) for time in rows])
    gaps = b"".join(b" +gap 2 %d %d" % (start, row) for start in starts for row in rows)
    hints = b"".join(b" rule 20 2 %d %d" % (start, row) for start in starts for row in rows)
    number = len(starts) * len(rows)
    line = b"learn %d +node 0 0%s %d%s rule 3 0 0" % (number + 1, gaps, number + 1, hints)
    times = b"\n".join(b"%d" % time for time in rows)
    return b"F[0,1] a.p", log, report_of(line, events=b"%d" % len(rows), time=times)


def pulses():
    """A line on 512 changes and 512 pulses that denies that the first rows are at the instant of a pulse, and gives from
    the last change on that each change is after them."""
    half, rows = 512, range(340)
    changes = [b"clear,a,%d,p" % time for time in range(half)]
    log = HEADER_2 + b"host,a,0,0\n" + b"".join(
        record + b"\n" for record in (*changes, *[b"pulse,a,%d,p" % time for time in range(half, 2 * half)]))
    literals = b"".join(
        b" -node 1 %d" % row + b"".join(b" +same %d %d" % (row, pulse) for pulse in range(half, 2 * half)) for row in rows)
    hints = [b" rule 2 1 %d %d" % (row, change) for row in rows for change in range(half - 1, row, -1)]
    number = len(rows) * (half + 1) + 1
    line = b"learn %d +node 0 0%s %d%s rule 3 0 0" % (number, literals, len(hints) + 1, b"".join(hints))
    times = b"\n".join(b"%d" % time for time in range(2 * half))
    return b"F a.p", log, report_of(line, events=b"%d" % (2 * half), time=times)


def long_lines(width=700, turns=400):
    """Lines on two rows with as many literals as there are of them, and then one line again and again that cites each."""
    orders = b"".join(b" order 0 1 %d" % number for number in range(width))
    first = b"cycle 3 low 1 order 1 0 0 high 0"
    many = [b"learn %d order 0 1 %d order 0 1 -1%s 1 line 1" % (width + 2, 1_000 + number, orders) for number in range(width)]
    cited = b"".join(b" line %d" % (number + 2) for number in range(width))
    citing = b"learn %d order 0 1 -1%s %d%s line 1" % (width + 1, orders, width + 1, cited)
    lines = [first, *many, *[citing] * turns]
    report = TITLE + b"events 2\ntrue witness\n10\n15\nfalse refuted %d\n" % len(lines) + b"\n".join(lines) + b"\nend\n"
    return b"a.req", TWO_ROWS, report


def distinct_lists():
    """A walk of distinct steps, and lines of distinct literals that would share a hash."""
    pairs = 33_000
    steps = b"".join(b" order 0 1 %d order 1 0 %d" % (number, -number - 1) for number in range(pairs))
    report = TITLE + b"events 2\ntrue witness\n10\n15\nfalse refuted 1\ncycle %d" % (2 * pairs) + steps + b"\nend\n"
    yield audit("a right walk of 66,000 distinct steps", report, 5, at(b"false", 0), b"a.req", TWO_ROWS)
    for count in (32_000, 128_000):
        literals = colliding(count, ((0, event) for event in range(1, count)))
        line = b"learn %d %s 1 rule 11" % (count, b" ".join(literals))
        yield audit(f"{count:,} literals whose atoms would share a hash", report_of(line), 5, at(b"false", 1))
        literals = colliding(count, combinations(range(1024), 2))
        line = b"learn %d %s 1 rule 11" % (count, b" ".join(literals))
        report = report_of(line, events=b"1024", time=b"\n".join(b"%d" % time for time in range(1024)))
        title = f"{count:,} such literals about the rows of a log"
        yield audit(title, report, 5, at(b"false", 1), log=ROWS)


def colliding(count, pairs):
    """Order literals of pairs of events whose atoms would have one hash in the standard tables, whose hash has a
    fixed seed. Nothing hashes the literals of a report now: a line that is slow for its length shows that something
    does.

    The last bytes that are hashed are the bound's, eight by eight, and the first eight are joined by xor with
    what comes from the bytes before: where the two are alike, the product is 0 whatever the other eight are.
    """
    found = []
    for first, second in pairs:
        state = mixed(mixed(mixed(0x243F6A8885A308D3, 0, 8), first, 4), second, 4)
        below = (state + 16) % 2**64
        bounds = (high * 2**64 + below for high in range(-54, 54))
        found += [b"order %d %d %d" % (first, second, bound) for bound in bounds if abs(bound) <= COEFFICIENT]
        if len(found) >= count:
            break
    return found[:count]


def mixed(state, number, size):
    """The state of the hash after a number of four or eight bytes."""
    read = number * (2**32 + 1) if size == 4 else number
    product = (state ^ read) * (0x9E3779B97F4A7C15 ^ 2 * size)
    return product % 2**64 ^ product >> 64


def odd_bytes():
    """Reports whose bytes are odd, and what isn't one at all."""
    yield audit("a right report", RIGHT, 0, ACCEPTED)
    yield audit("empty file", b"", 5, at(b"report", 1))
    yield audit("no newline at the end", RIGHT[:-1], 5, at(b"report", 7))
    yield audit("a newline too many", RIGHT + b"\n", 5, at(b"report", 8))
    yield audit("two reports", RIGHT * 2, 5, at(b"report", 8))
    yield audit("1 MiB behind the end", RIGHT + b"a" * MEBIBYTE, 5, at(b"report", 8))
    yield audit("lines that end with CRLF", RIGHT.replace(b"\n", b"\r\n"), 5, at(b"report", 1))
    yield audit("a byte order mark", b"\xef\xbb\xbf" + RIGHT, 5, at(b"report", 1))
    for byte in (b"a", b"\0", b" ", b"\n", b"\xff"):
        yield audit(f"1 MiB of {byte!r}", byte * MEBIBYTE, 5, at(b"report", 1))
    yield audit("a first line of 1 MiB", b"skewcheck 1" + b" " * MEBIBYTE + RIGHT[11:], 5, at(b"report", 1))
    yield audit("1 MiB of blanks in a line", RIGHT.replace(b"rule 11", b"rule" + b" " * MEBIBYTE + b"11"), 5,
                at(b"report", 6))
    for byte in (b"\0", b"\x80", b"\xff", b"\t", b"\r", b"\x0b", b"\xc2\xa0"):
        yield audit(f"{byte!r} for a blank", RIGHT.replace(b"rule 11", b"rule" + byte + b"11"), 5, at(b"report", 6))


def longest():
    """Files at their longest, and one byte more."""
    yield audit("1 GiB of NUL bytes", Blank(LENGTH), 5, at(b"report", 1))
    yield audit("one byte more", Blank(LENGTH + 1), 67, b"refused length report")


def cases():
    """All cases of reports but those of a gibibyte."""
    for some in (numbers_of_lists, numbers_in_lines, times_of_witnesses, long_lists, many_lines, many_lines_to_trim,
                 one_line, giving_hints, naming_many_literals, distinct_lists, odd_bytes):
        yield from some()
