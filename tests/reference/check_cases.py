"""Cases of check and audit whose answers are written out by hand.

Of a report the kinds of its sections are written, and of a witness its times
where only one timing is right; derivations may be any right ones.
"""

from cases import (
    Case,
    EARLY_RECEIVE,
    EQUAL_TIMES,
    HEADER,
    MICROSECONDS,
    NO_SKEW,
    ONE_NOTE,
    ONE_SET,
    ORDERED,
    RECEIVED_FIRST,
    REQUEST,
    SET_AND_CLEAR,
    SINCE_THREE,
    TOO_NARROW,
    UNORDERED,
    UNTIL_FIVE,
    WIDE_CLOCK,
    conjunction,
    doubled,
    log_of,
)

ANSWERED = b"G (a.req -> F[0,5] b.ack)"
DONE = b"G (web.asked -> F[0,%d] pay.done)"
EITHER = b"(a.p & b.q) | !(a.p & b.q)"
APART = log_of("host,a,5,0", "host,b,5,0", "set,a,10,p", "set,b,10,q")
FOUR_TIMED = b"F a.p & F[0,1] a.p & F[0,2] a.p & F[0,3] a.p"
FIVE_TIMED = FOUR_TIMED + b" & F[0,4] a.p"



def notes(rows):
    """A log of one host with so many rows without effect, each one after the one before."""
    return log_of("host,a,0,1", *(f"note,a,{place},n" for place in range(rows)))


FULL_HOST = notes(1024)
OVERFULL_HOST = notes(1025)
# A host that sets p and clears it in turns: it is never false for longer than 1, but at the end.
IN_TURNS = log_of("host,a,0,1", *(f"{('set', 'clear')[place % 2]},a,{place},p" for place in range(100)))

WITNESS, REFUTED, UNKNOWN = "witness", "refuted", "unknown"
STATUSES = {(WITNESS, REFUTED): 0, (REFUTED, WITNESS): 1, (WITNESS, WITNESS): 2,
            (WITNESS, UNKNOWN): 4, (UNKNOWN, WITNESS): 4}


# Patterns of reports


def report_pattern(events, on_true, on_false):
    """The pattern of a report with these sections."""
    sections = b"true %s\nfalse %s\n" % (section_pattern(events, on_true),
                                          section_pattern(events, on_false))
    return b"skewcheck 1\nevents %d\n" % events + sections + b"end\n"


def section_pattern(events, section):
    """The pattern of a section after its value: of some kind, or of the times of a witness."""
    line = rb"(?:cycle|learn) [^\n]*"
    if section == WITNESS:
        return rb"witness(?:\n-?\d+){%d}" % events
    if section == REFUTED:
        return rb"refuted \d+(?:\n%s)+" % line
    if section == UNKNOWN:
        return rb"unknown \d+(?:\n%s)+" % line
    return b"\n".join([b"witness", *(b"%d" % time for time in section)])


def inconsistent(events, *steps):
    """The reports that no timing is admissible, by a walk that may begin anywhere."""
    head = f"skewcheck 1\nevents {events}\ninconsistent {len(steps)}\n"
    turned = (steps[place:] + steps[:place] for place in range(len(steps)))
    return tuple((head + "\n".join(turn) + "\nend\n").encode() for turn in turned)


# Checks


def check(title, formula, log, status, outputs=(), pattern=None, options=()):
    """A check of two files."""
    words = ["check", *options, "f", "l"]
    return Case(title, words, {"f": formula, "l": log}, status, outputs, pattern)


def verdicts():
    """Checks that end with a report on both values."""
    yes, no, both = (WITNESS, REFUTED), (REFUTED, WITNESS), (WITNESS, WITNESS)
    one_set = ONE_SET.replace(b"p", b"x")
    table = [
        ("an answer within five or not", ANSWERED, REQUEST, both),
        ("nine is the greatest distance", b"G (a.req -> F[0,9] b.ack)", REQUEST, yes),
        ("one is the least distance", b"G (a.req -> F[0,0] b.ack)", REQUEST, no),
        ("one timing alone has nine", b"G (a.req -> F[0,8] b.ack)", REQUEST, (WITNESS, (8, 17))),
        ("one timing alone has one", b"F[2,9] b.ack", REQUEST, (WITNESS, (12, 13))),
        ("two hosts at one instant", b"a.p & b.q", EQUAL_TIMES, ((10, 10), REFUTED)),
        ("the other host counts there", b"!b.q", EQUAL_TIMES, (REFUTED, (10, 10))),
        ("the later row of an instant", b"a.p", SET_AND_CLEAR, (REFUTED, (10, 10))),
        ("a message keeps the order", b"G (b.q -> a.p)", ORDERED, yes),
        ("without one the order may turn", b"G (b.q -> a.p)", UNORDERED, both),
        ("left of until ends at its witness", b"a.p U[0,5] b.q", UNTIL_FIVE, ((0, 5, 5), REFUTED)),
        ("the witness of until is too far", b"a.p U[0,4] b.q", UNTIL_FIVE, (REFUTED, (0, 5, 5))),
        ("since with its witness at three", b"F (b.q S[2,3] a.p)", SINCE_THREE,
         ((0, 1, 1, 3), REFUTED)),
        ("since without a witness", b"F (b.q S[4,5] a.p)", SINCE_THREE, (REFUTED, (0, 1, 1, 3))),
        ("true on a wide clock", b"true", WIDE_CLOCK, yes),
        ("false on a wide clock", b"false", WIDE_CLOCK, no),
        ("either both or not both", EITHER, APART, yes),
        ("eight milliseconds", DONE % 8000, MICROSECONDS, yes),
        ("eight milliseconds by less", DONE % 7999, MICROSECONDS, both),
        ("five milliseconds", DONE % 5000, MICROSECONDS, both),
        ("height two hundred", b"!" * 199 + b"true", ONE_NOTE, (REFUTED, (10,))),
        ("many occurrences of few nodes", doubled(9), ONE_SET, ((10,), REFUTED)),
        ("exactly 512 nodes", b"!" + conjunction(0, 256), ONE_SET, ((10,), REFUTED)),
        ("a proposition without rows", b"a.p", one_set, (REFUTED, (10,))),
        ("a host without rows", b"b.p", log_of("host,a,0,0", "host,b,9,0", "set,a,10,p"),
         (REFUTED, (10,))),
        ("64 rows", b"F a.p", notes(64), (REFUTED, tuple(range(64)))),
        ("64 rows and two untils", b"F a.p & F[0,1] a.p", notes(64), (REFUTED, tuple(range(64)))),
        ("65 rows", b"F a.p", notes(65), (REFUTED, tuple(range(65)))),
        ("100 rows", b"G F[0,1] a.p", IN_TURNS, (REFUTED, tuple(range(100)))),
    ]
    for title, formula, log, sections in table:
        kinds = tuple(part if part in (WITNESS, REFUTED) else WITNESS for part in sections)
        pattern = report_pattern(rows_of(log), *sections)
        yield check(title, formula, log, STATUSES[kinds], pattern=pattern)
    # In the only timings at which 7999 isn't enough the request is early and the answer late.
    late = rb"false witness\n1699999999998000\n(?:\d+\n){2}1700000000006000\n(?:\d+\n){3}end\n"
    yield check("as far apart as can be", DONE % 7999, MICROSECONDS, 2,
                pattern=rb"(?:[^\n]*\n){10}" + late)


def rows_of(log):
    """The number of rows of a log that is plainly written."""
    records = log.splitlines()[1:]
    return sum(1 for record in records if not record.startswith(b"host,"))


def budgets():
    """Checks with a number of conflicts."""
    for number in ("1", "2", "1000000"):
        options = ("--conflicts", number)
        pattern = report_pattern(1, (10,), REFUTED)
        yield check("refuted without a conflict", b"true", ONE_NOTE, 0, (), pattern, options)
    one_line = (rb"skewcheck 1\nevents 2\ntrue witness\n-?\d+\n-?\d+\nfalse unknown \d+\n"
                rb"(?:cycle [^\n]*\n)*learn [^\n]*\n(?:cycle [^\n]*\n)*end\n")
    yield check("one conflict is too few", EITHER, APART, 4, (), one_line, ("--conflicts", "1"))


def shut_logs():
    """Checks of logs that admit no timing."""
    crossed = inconsistent(2, "high 1", "low 0", "message 1")
    table = [
        ("a gap that doesn't fit", b"a.p", TOO_NARROW,
         inconsistent(2, "high 1", "low 0", "rise 1")),
        ("whatever is asked", b"!G a.p | true", TOO_NARROW,
         inconsistent(2, "high 1", "low 0", "rise 1")),
        ("a receive that is too early", b"a.p", EARLY_RECEIVE, crossed),
        ("too early for the other host too", b"b.q & false", EARLY_RECEIVE, crossed),
        ("received first", b"a.p", RECEIVED_FIRST, inconsistent(2, "rise 1", "message 0")),
    ]
    for title, formula, log, outputs in table:
        yield check(title, formula, log, 3, outputs)


# Audits

OF_TRUE = b"""skewcheck 1
events 1
true witness
10
false refuted 1
learn 0 3 rule 3 0 0 rule 11 rule 24 0
end
"""
WHOLE = b"learn 0 3 rule 3 0 0 rule 11 rule 24 0"
FACT = b"learn 1 +node 0 0 1 rule 3 0 0"


def audit(title, formula, log, report, line, options=()):
    """An audit of three files, which ends with the line."""
    words = ["audit", *options, "f", "l", "r"]
    files = {"f": formula, "l": log, "r": report}
    return Case(title, words, files, 0 if line == "accepted" else 5, (line.encode() + b"\n",))


def changed(*changes):
    """The report on true with lines put in the place of some, each given by its number."""
    lines = OF_TRUE.splitlines(keepends=True)
    for number, text in changes:
        lines[number - 1] = text
    return b"".join(lines)


def audits_of_true():
    """Reports on the formula true and a log of one note at 10."""
    two = b"%s\n%s\n" % (FACT, WHOLE)
    table = [
        ("a right report", changed(), "accepted"),
        ("a hint less", changed((6, b"learn 0 2 rule 3 0 0 rule 11\n")),
         "refused false at line 1"),
        ("a witness too late", changed((4, b"11\n")), "refused true at line 0"),
        ("a witness too early", changed((4, b"9\n")), "refused true at line 0"),
        ("a walk whose sum is nothing", changed((6, b"cycle 2 high 0 low 0\n")),
         "refused false at line 1"),
        ("a right line that isn't empty", changed((6, FACT + b"\n")), "refused false at line 0"),
        ("no line", changed((5, b"false refuted 0\n"), (6, b"")), "refused false at line 0"),
        ("two lines", changed((5, b"false refuted 2\n"), (6, two)), "accepted"),
        ("a line after the empty one", changed((5, b"false refuted 2\n"),
                                               (6, WHOLE + b"\n" + FACT + b"\n")),
         "refused false at line 2"),
        ("the second line is wrong", changed((5, b"false refuted 2\n"),
                                             (6, FACT + b"\nlearn 0 1 line 1\n")),
         "refused false at line 2"),
        ("the witness of another value", changed((5, b"false witness\n"), (6, b"10\n")),
         "refused false at line 0"),
        ("the other value is refuted", changed((3, b"true refuted 1\n"), (4, WHOLE + b"\n")),
         "refused true at line 1"),
        ("both parts are wrong", changed((4, b"11\n"), (6, b"learn 0 0\n")),
         "refused true at line 0"),
        ("no event", changed((2, b"events 0\n"), (4, b"")), "refused events at line 0"),
        ("two events", changed((2, b"events 2\n"), (4, b"10\n10\n")), "refused events at line 0"),
        ("events before a wrong part", changed((2, b"events 0\n"), (4, b""), (6, b"cycle 0\n")),
         "refused events at line 0"),
        ("no timing, it says", b"skewcheck 1\nevents 1\ninconsistent 2\nhigh 0\nlow 0\nend\n",
         "refused inconsistent at line 2"),
    ]
    for title, report, line in table:
        yield audit(title, b"true", ONE_NOTE, report, line)


def audits_of_unknown():
    """Reports with a value that is left open."""
    unknown = changed((5, b"false unknown 1\n"), (6, FACT + b"\n"))
    twice = changed((5, b"false unknown 2\n"), (6, FACT + b"\n" + FACT + b"\n"))
    neither = changed((3, b"true unknown 1\n"), (4, FACT + b"\n"), (5, b"false unknown 1\n"),
                      (6, FACT + b"\n"))
    table = [
        ("one line for one conflict", unknown, "1", "accepted"),
        ("one line for two", unknown, "2", "refused false at line 0"),
        ("one line for the default", unknown, None, "refused false at line 0"),
        ("two lines for one", twice, "1", "refused false at line 0"),
        ("two lines for two", twice, "2", "accepted"),
        ("both are left open", neither, "1", "accepted"),
        ("the first one fails first", neither, "2", "refused true at line 0"),
        ("a line that is empty", changed((5, b"false unknown 1\n")), "1",
         "refused false at line 0"),
        ("no line", changed((5, b"false unknown 0\n"), (6, b"")), "1", "refused false at line 0"),
        ("a wrong line before the count",
         changed((5, b"false unknown 2\n"), (6, FACT + b"\nlearn 0 0\n")), "1",
         "refused false at line 2"),
        ("as many refuted lines as may be",
         changed((5, b"false refuted 2\n"), (6, FACT + b"\n" + WHOLE + b"\n")), "1", "accepted"),
    ]
    for title, report, number, line in table:
        options = () if number is None else ("--conflicts", number)
        yield audit(title, b"true", ONE_NOTE, report, line, options)
    walk = (b"skewcheck 1\nevents 2\ntrue witness\n10\n15\nfalse unknown 2\n"
            b"cycle 3 high 0 low 1 order 1 0 0\nlearn 1 +node 0 0 1 rule 3 0 0\nend\n")
    for number, line in (("1", "accepted"), ("2", "refused false at line 0")):
        yield audit("a walk is no conflict", ANSWERED, REQUEST, walk, line,
                    ("--conflicts=" + number,))


def audits_of_shut_logs():
    """Reports on a log whose second row can't be one later than its first."""
    table = [
        (("high 1", "low 0", "rise 1"), "accepted"),
        (("low 0", "rise 1", "high 1"), "accepted"),
        (("rise 1", "high 1", "low 0") * 2, "accepted"),
        ((), "refused inconsistent at line 0"),
        (("high 1",), "refused inconsistent at line 1"),
        (("high 1", "low 0"), "refused inconsistent at line 2"),
        (("high 1", "low 1"), "refused inconsistent at line 2"),
        (("high 1", "rise 1", "low 0"), "refused inconsistent at line 2"),
        (("low 0", "high 1", "rise 1"), "refused inconsistent at line 2"),
        (("high 1", "low 0", "rise 0"), "refused inconsistent at line 3"),
        (("high 1", "low 0", "message 1"), "refused inconsistent at line 3"),
        (("high 2", "low 0", "rise 1"), "refused inconsistent at line 1"),
        (("extra 0", "high 1", "low 0", "rise 1"), "refused inconsistent at line 1"),
        (("high 1", "low 0", "rise 1", "high 1"), "refused inconsistent at line 4"),
        (("high 1", "low 0", "rise 1", "extra 4294967295"), "refused inconsistent at line 4"),
    ]
    for steps, line in table:
        report = inconsistent(2, *steps)[0] if steps else EMPTY_WALK
        yield audit("a walk of %d steps" % len(steps), b"a.p", TOO_NARROW, report, line)
    steps = b"cycle 3 high 1 low 0 rise 1\n"
    both = b"skewcheck 1\nevents 2\ntrue refuted 1\n%sfalse refuted 1\n%send\n" % (steps, steps)
    yield audit("both values are refuted", b"a.p", TOO_NARROW, both, "accepted")
    wrong = both.replace(b"events 2", b"events 3")
    yield audit("for another log", b"a.p", TOO_NARROW, wrong, "refused events at line 0")


EMPTY_WALK = b"skewcheck 1\nevents 2\ninconsistent 0\nend\n"


def audits_of_many_rows():
    """Reports on F a.p and logs of notes: a.p is never true, so no row has a witness."""
    events = range(64)
    lines = [no_witness(row, 64) for row in events]
    not_first = b" ".join(b"line %d rule 24 %d" % (row + 1, row) for row in events)
    right = refuted_by([*lines, b"learn 0 129 " + not_first + b" rule 11\n"], 64)
    yield audit("64 rows", b"F a.p", notes(64), right, "accepted")
    wrong = right.replace(b"rule 24 63 rule 11", b"rule 24 62 rule 11")
    yield audit("64 rows, one hint wrong", b"F a.p", notes(64), wrong, "refused true at line 65")
    later = range(1, 1024)
    before = [b"cycle 3 low %d order %d 0 -1 high 0\n" % (row, row) for row in later]
    is_first = b" ".join(b"line %d" % row for row in later) + b" rule 10 0 rule 24 0 line 1024\n"
    right = refuted_by([*before, no_witness(0, 1024), b"learn 0 1026 " + is_first], 1024)
    yield audit("1,024 rows", b"F a.p", FULL_HOST, right, "accepted")
    wrong = right.replace(b"line 1023 rule 10 0", b"line 1022 rule 10 0")
    yield audit("1,024 rows, one hint wrong", b"F a.p", FULL_HOST, wrong, "refused true at line 1025")
    wrong = right.replace(b"order 1023 0 -1", b"order 1024 0 -1")
    yield audit("1,024 rows, one row too many", b"F a.p", FULL_HOST, wrong, "refused true at line 1023")


def no_witness(row, rows):
    """The line that the eventually of node 2 isn't true at a row, since none of the rows is a witness."""
    hints = b" ".join(b"rule 1 1 %d rule 14 2 %d %d" % (other, row, other) for other in range(rows))
    return b"learn 1 -node 2 %d %d %s rule 17 2 %d\n" % (row, 2 * rows + 1, hints, row)


def refuted_by(lines, rows):
    """The report on a log of notes that these lines refute true, and of false that the notes' times give it."""
    times = b"".join(b"%d\n" % time for time in range(rows))
    head = b"skewcheck 1\nevents %d\ntrue refuted %d\n" % (rows, len(lines))
    return head + b"".join(lines) + b"false witness\n" + times + b"end\n"


def faulty_texts():
    """Texts that are no report, each with its first faulty line."""
    head = b"skewcheck 1\nevents 1\n"
    table = [
        (b"", 1), (b"\n", 1), (b"skewcheck 1", 1), (b"skewcheck 1\n", 2), (b"skewcheck 2\n", 1),
        (b"skewcheck\n", 1), (b"Skewcheck 1\n", 1), (b"skewcheck  1\n", 1), (b"skewcheck 1 \n", 1),
        (b"skewcheck 1\r\n", 1), (b"\xef\xbb\xbf" + OF_TRUE, 1), (b"skewcheck 1\nevents 1", 2),
        (b"skewcheck 1\nevents\n", 2), (b"skewcheck 1\nevents 01\n", 2),
        (b"skewcheck 1\nevents -1\n", 2), (b"skewcheck 1\nevents 1 1\n", 2),
        (b"skewcheck 1\nevents 4294967296\n", 2), (b"skewcheck 1\nevents 4294967295\n", 3),
        (b"skewcheck 1\nevent 1\n", 2), (b"skewcheck 1\ntrue witness\n", 2),
        (head, 3), (head + b"end\n", 3), (head + b"\n", 3), (head + b"false witness\n10\n", 3),
        (head + b"true\n", 3), (head + b"true witness 1\n", 3), (head + b"true proved 0\n", 3),
        (head + b"true refuted\n", 3), (head + b"true refuted 00\n", 3),
        (head + b"true refuted 4294967296\n", 3), (head + b"true refuted 4294967295\n", 4),
        (head + b"true unknown 1 1\n", 3), (head + b"True witness\n", 3),
        (head + b"inconsistent\n", 3), (head + b"inconsistent 4294967296\n", 3),
        (head + b"inconsistent 4294967295\n", 4), (head + b"inconsistent 0\n", 4),
        (head + b"inconsistent 0\nlow 0\n", 4), (head + b"inconsistent 1\nend\n", 4),
        (head + b"inconsistent 1\norder 0 1 -1\n", 4), (head + b"inconsistent 1\nlow 00\n", 4),
        (head + b"inconsistent 1\nlow 4294967296\n", 4), (head + b"inconsistent 1\nlow\n", 4),
        (head + b"inconsistent 1\nlow 0 0\n", 4), (head + b"inconsistent 2\nlow 0\nend\n", 5),
        (head + b"inconsistent 1\nlow 0\ntrue witness\n", 5),
        (changed((2, b"events 2\n")), 5), (changed((4, b"")), 4), (changed((4, b"10\n10\n")), 5),
        (changed((4, b"10 \n")), 4), (changed((4, b"+10\n")), 4), (changed((4, b"-0\n")), 4),
        (changed((4, b"010\n")), 4), (changed((4, b"10\r\n")), 4),
        (changed((4, b"10000000000000000001\n")), 4), (changed((4, b"-10000000000000000001\n")), 4),
        (changed((5, b"true refuted 1\n")), 5), (changed((5, b"")), 5),
        (changed((5, b"false refuted 2\n")), 7), (changed((5, b"false refuted 0\n")), 6),
        (changed((5, b"false witness\n")), 6), (changed((5, b"inconsistent 1\n")), 5),
        (changed((6, b"learn 0\n")), 6), (changed((6, b"cycle 1 low\n")), 6),
        (changed((6, b"learn 2 +first 0 -first 0 1 rule 11\n")), 6),
        (changed((6, b"learn 0 1 rule 256\n")), 6), (changed((6, b"low 0\n")), 6),
        (changed((7, b"")), 7), (changed((7, b"end")), 7), (changed((7, b"end \n")), 7),
        (changed((7, b"end\r\n")), 7), (changed((7, b"END\n")), 7), (changed((7, b"end\n\n")), 8),
        (changed((7, b"end\nend\n")), 8), (changed((7, b"end\n ")), 8),
        (changed((7, b"end\nskewcheck 1")), 8),
    ]
    for report, line in table:
        yield audit(f"line {line} is faulty", b"true", ONE_NOTE, report,
                    f"refused report at line {line}")
    greatest = [(b"10000000000000000000\n", "true"), (b"-10000000000000000000\n", "true")]
    for text, part in greatest:
        yield audit("the greatest time", b"true", ONE_NOTE, changed((4, text)),
                    f"refused {part} at line 0")


# Words, limits and files


def trims():
    """Reports that are trimmed, that have nothing to trim, and that can't be."""
    shown, empty = FACT, b"learn 0 3 line 1 rule 11 rule 24 0"
    first = b"learn 1 +first 0 1 rule 11"
    loose = (first, shown, b"learn 0 3 line 2 rule 11 rule 24 0")
    table = [
        ("a line that nothing names", (shown, WHOLE), OF_TRUE),
        ("the first line of three isn't needed", loose, of_false(shown, empty)),
        ("lines behind one another", (shown, empty), of_false(shown, empty)),
        ("a line behind the empty one", (WHOLE, shown), of_false(shown)),
    ]
    for title, lines, short in table:
        yield trim(title, of_false(*lines), 0, short)
        yield trim("twice", short, 0, short)
        yield audit("the trimmed report", b"true", ONE_NOTE, short,
                    "accepted" if short != of_false(shown) else "refused false at line 0")
    untrimmed = [
        (b"learn 0 1 line 1", 1), (b"learn 0 1 line 0", 1), (b"learn 0 1 line 2", 1),
        (shown + b"\nlearn 0 2 line 1 line 3\n" + WHOLE, 2),
        (b"cycle 1 high 0\n" + shown + b"\nlearn 0 1 line 3", 3),
    ]
    for text, line in untrimmed:
        report = of_false(*text.split(b"\n"))
        yield trim("a hint that names no earlier line", report, 5, b"refused false at line %d\n" % line)
        unknown = report.replace(b"refuted", b"unknown")
        yield trim("an unknown section isn't touched", unknown, 0, unknown)
    none = changed((5, b"false refuted 0\n"), (6, b""))
    yield trim("no line", none, 5, b"refused false at line 0\n")
    both = changed((3, b"true refuted 1\n"), (4, b"learn 0 1 line 7\n"), (5, b"false refuted 0\n"),
                   (6, b""))
    yield trim("the true section is told first", both, 5, b"refused true at line 1\n")
    kept = changed((5, b"false unknown 2\n"), (6, shown + b"\n" + shown + b"\n"))
    yield trim("an unknown section isn't touched", kept, 0, kept)
    walk = b"skewcheck 1\nevents 1\ninconsistent 2\nhigh 0\nlow 0\nend\n"
    yield trim("a walk isn't touched", walk, 0, walk)
    yield trim("no report", OF_TRUE[:-1], 5, b"refused report at line 7\n")
    yield Case("a report that isn't there", ["trim", "r"], {"f": OF_TRUE}, 74, (b"",))
    yield Case("from the input", ["trim", "-"], {"-": OF_TRUE}, 0, (OF_TRUE,))
    yield Case("a name that looks like an option", ["trim", "--", "-x"], {"-x": OF_TRUE}, 0, (OF_TRUE,))
    for line in ("trim", "trim r r", "trim -x", "trim --conflicts 5 r", "trim r --conflicts=5"):
        yield Case("no command", line.split(), {"r": OF_TRUE}, 64, (b"refused words\n",))


def trim(title, report, status, output):
    """A trim of a report."""
    return Case(title, ["trim", "r"], {"r": report}, status, (output,))


def of_false(*lines):
    """The report on true with these lines in the section for false."""
    text = b"".join(line + b"\n" for line in lines)
    return changed((5, b"false refuted %d\n" % len(lines)), (6, text))


def words():
    """Lists of words with numbers of conflicts, and files on the standard input."""
    files = {"f": b"a.req", "l": NO_SKEW, "r": report_of_request()}
    pattern = report_pattern(2, (10, 15), REFUTED)
    checks = [
        "check f l", "check f l --conflicts 5", "check --conflicts=5 f l",
        "check f --conflicts=1000000 l", "check f --conflicts 1 l", "check --conflicts 5 -- f l",
        "check f -- l", "check -- f l", "check f l --",
    ]
    for line in checks:
        yield Case(line, line.split(), files, 0, (), pattern)
    audits = [
        "audit f l r", "audit --conflicts 5 f l r", "audit f l r --conflicts=5",
        "audit f --conflicts 7 l -- r", "audit -- f l r",
    ]
    for line in audits:
        yield Case(line, line.split(), files, 0, (b"accepted\n",))
    refused = [
        "check", "check f", "check f l r", "check -f l", "check f l --conflicts",
        "check f l --conflicts=", "check --conflicts f l", "check f l --conflicts -- 5",
        "check f l --conflicts 05", "check f l --conflicts=+5", "check f l --conflicts=-5",
        "check --conflicts -5 f l", "check --conflicts=5 f l --conflicts=5",
        "check --conflicts=5 --conflicts 5 f l", "check --conflicts=0 f l",
        "check --conflicts=1000001 f l", "check --conflict=5 f l", "check --conflictsx f l",
        "check --Conflicts=5 f l", "check --conflicts=5=5 f l", "check --conflicts - f l",
        "check -- --conflicts=5 f l", "check f l -- --conflicts 5", "--conflicts 5 check f l",
        "audit f l", "audit f l r r", "audit f l r --conflicts 0", "audit f l --conflicts r",
        "audit f l r --conflicts=1000001", "order --conflicts=5 l", "times l --conflicts=5",
        "replay --conflicts 5 f l t", "replay f l t --conflicts=5",
    ]
    for line in refused:
        yield Case("no command", line.split(), files, 64, (b"refused words\n",))
    for refused_words in (["check", "", "l"], ["audit", "f", "l", ""], ["check", "f", "l", ""]):
        yield Case("no command", refused_words, files, 64, (b"refused words\n",))
    dashed = {"--conflicts": b"a.req", "--": NO_SKEW, "--conflicts=5": report_of_request()}
    yield Case("names that look like options", ["check", "--", "--conflicts", "--"], dashed, 0, (),
               pattern)
    yield Case("names that look like options",
               ["audit", "--conflicts=9", "--", "--conflicts", "--", "--conflicts=5"], dashed, 0,
               (b"accepted\n",))
    yield from inputs(files, pattern)


def report_of_request():
    """A report on the formula a.req and the log of a request without skew."""
    return (b"skewcheck 1\nevents 2\ntrue witness\n10\n15\nfalse refuted 3\n"
            b"cycle 3 high 0 low 1 order 1 0 -1\n"
            b"learn 1 +first 0 2 line 1 rule 10 0\n"
            b"learn 0 3 line 2 rule 24 0 rule 2 0 0 0\nend\n")


def inputs(files, pattern):
    """Checks and audits with a file on the standard input, or with one that is missing."""
    formula, log, report = files["f"], files["l"], files["r"]
    yield Case("formula from the input", ["check", "-", "l"], {"-": formula, "l": log}, 0, (),
               pattern)
    yield Case("log from the input", ["check", "f", "-"], {"f": formula, "-": log}, 0, (), pattern)
    yield Case("report from the input", ["audit", "f", "l", "-"],
               {"f": formula, "l": log, "-": report}, 0, (b"accepted\n",))
    absent = [
        (["check", "-", "-"], {"-": formula}), (["audit", "f", "-", "-"], {"f": formula, "-": log}),
        (["check", "f", "l"], {"l": log}), (["check", "f", "l"], {"f": formula}),
        (["audit", "f", "l", "r"], {"f": formula, "l": log}), (["audit", "f", "l", "."], files),
        (["audit", "f", "l", "r"], {"l": log, "r": report}),
    ]
    for command, held in absent:
        yield Case("a file that can't be read", command, held, 74, (b"",))


def orders_of_tests():
    """Faults of which the first in the order of tests counts, each for check and for audit."""
    fine = {"f": b"true", "l": ONE_NOTE, "r": OF_TRUE}
    wide = b"!!" + conjunction(0, 256)
    other_host = log_of("host,b,0,0", "note,b,1,n")
    long_formula, long_log = b" " * 65537, HEADER + b"\n" * 1048576
    table = [
        ({"f": long_formula, "l": b""}, 67, b"refused length formula\n"),
        ({"f": b"true &", "l": long_log}, 65, b"refused formula 2 at byte 6\n"),
        ({"f": b"true &", "l": None}, 65, b"refused formula 2 at byte 6\n"),
        ({"f": b"c.p", "l": long_log}, 67, b"refused length log\n"),
        ({"f": b"c.p", "l": b""}, 66, b"refused log 1 at record 1\n"),
        ({"f": b"c.p", "l": HEADER}, 66, b"refused log 11\n"),
        ({"f": b"c.p", "l": REQUEST}, 65, b"refused formula 8 at byte 0\n"),
        ({"f": wide, "l": other_host}, 65, b"refused formula 8 at byte 10\n"),
        ({"f": wide, "l": ONE_SET}, 67, b"refused nodes above 512\n"),
        ({"f": FIVE_TIMED, "l": OVERFULL_HOST}, 66, b"refused log 13 at record 1027\n"),
        ({"f": b"F (%s)" % wide, "l": FULL_HOST}, 67, b"refused nodes above 512\n"),
        ({"f": FIVE_TIMED, "l": FULL_HOST}, 67, b"refused size 5242880\n"),
        ({"f": b"a.p U[0,3] a.q", "l": FULL_HOST}, 67, b"refused size 5236736\n"),
        # Each of 1,024 rows has itself and those before it in reach of a since, 524,800 pairs in all.
        ({"f": b"a.p S G a.p", "l": FULL_HOST}, 67, b"refused size 539492352\n"),
        ({"f": b"O H O H O a.p", "l": FULL_HOST}, 67, b"refused size 5242880\n"),
        ({"f": b"(F a.p | a.p U a.q) & F a.p", "l": FULL_HOST}, 67, b"refused size 539492352\n"),
    ]
    for changes, status, output in table:
        held = {name: data for name, data in {**fine, **changes}.items() if data is not None}
        title = output.decode().strip()
        yield Case(title, ["check", "f", "l"], held, status, (output,))
        yield Case(title, ["audit", "f", "l", "r"], held, status, (output,))
    for changes, status, output in (
        ({"f": b"c.p", "r": None}, 65, b"refused formula 8 at byte 0\n"),
        ({"f": wide, "l": ONE_SET, "r": None}, 67, b"refused nodes above 512\n"),
        ({"f": wide, "l": ONE_SET, "r": b"x\n"}, 67, b"refused nodes above 512\n"),
        ({"f": FIVE_TIMED, "l": FULL_HOST, "r": None}, 74, b""),
        ({"f": FIVE_TIMED, "l": FULL_HOST, "r": OF_TRUE + b"x\n"}, 5,
         b"refused report at line 8\n"),
        ({"r": OF_TRUE.replace(b"events 1", b"events 01")}, 5, b"refused report at line 2\n"),
        # The greatest size, and one that is nearly as great: these are judged.
        ({"f": FOUR_TIMED, "l": FULL_HOST}, 5, b"refused events at line 0\n"),
        ({"f": b"a.p U[0,2] a.q", "l": FULL_HOST}, 5, b"refused events at line 0\n"),
    ):
        held = {name: data for name, data in {**fine, **changes}.items() if data is not None}
        yield Case("before the report", ["audit", "f", "l", "r"], held, status, (output,))


def fixed_cases():
    """All cases of this module."""
    groups = (
        verdicts, budgets, shut_logs, audits_of_true, audits_of_unknown, audits_of_shut_logs,
        audits_of_many_rows, faulty_texts, trims, words, orders_of_tests,
    )
    return [case for group in groups for case in group()]
