"""Cases of tolerance and span whose answers are written out by hand.

Of an answer the first line is written, and the times where only one timing is
right; derivations may be any right ones.
"""

import logs
from cases import (
    Case,
    EQUAL_TIMES,
    HEADER,
    MICROSECONDS,
    NO_SKEW,
    ONE_NOTE,
    ONE_SET,
    ORDERED,
    RECEIVED_FIRST,
    REQUEST,
    TOO_NARROW,
    conjunction,
    log_of,
    turns,
)
from check_cases import ANSWERED, APART, DONE, EITHER, OVERFULL_HOST, REFUTED, UNKNOWN, section_pattern
from pulse_cases import pulse_log
from second_cases import LATE, resynced
from third_cases import CROSSED, NEAR, STEADY, TIED, TORN, deadline, third_log

GREATEST = 10**18


def far_apart(distance):
    """A set of p by a, and so much later a set of q by b, the times as near to zero as may be; no clock is off."""
    early = -(distance // 2)
    return log_of("host,a,0,0", "host,b,0,0", f"set,a,{early},p", f"set,b,{early + distance},q")


def sparse(rows):
    """A log of one host whose clock is never off, with so many rows without effect, each 10 after the one before."""
    return log_of("host,a,0,0", *(f"note,a,{10 * place},n" for place in range(rows)))


def widest_log():
    """Two rows as far apart as a file can tell them, by clocks that may be off as far as it can tell."""
    return log_of(f"host,a,{GREATEST},0", f"host,b,{GREATEST},0", f"note,a,{-4 * GREATEST},n", f"note,b,{4 * GREATEST},n")


AT_ONCE = b"a.p & b.q"
TURNED_OVER = pulse_log("pulse,a,10,p").replace(b"host,a,0,0\n", b"host,a,0,0\nhost,b,0,0\n") + b"note,b,13,n\n"
LATER_CLOCK = resynced("set,a,10,x", "resync,a,5,0", "set,a,20,y")
# A request and its answer 5 later, by skews of 0 that a widening makes greater.
READ = third_log("host,a,0,0", "clock,a,0,a", "set,a,10,req", "set,a,15,ack")
READ_NEAR = READ.replace(b"clock,a,0", b"clock,a,1")
BOUND = third_log("host,a,0,0", "set,a,10,req", "set,a,15,ack", "bound,1,0,6")
SPARSE = sparse(200)
# Of 210 rows each has itself and those after it in reach of an until, 22,155 pairs in all.
CROWD = sparse(210)
FAR_UNTIL = b"a.p U a.q"


# Patterns of answers


def best_pattern(command, number, value, events, times=None):
    """The pattern of an answer with a number, and with these times where there are any."""
    witness = section_pattern(events, "witness" if times is None else times)
    further = b"" if command == "tolerance" and number == 0 else further_pattern(command)
    return b"%s %d\n%s %s\n%send\n" % (command.encode(), number, value.encode(), witness, further)


def further_pattern(command):
    """The pattern of what an answer shows to be impossible one step further."""
    word = b"below" if command == "tolerance" else b"beyond"
    return b"%s %s\n" % (word, section_pattern(0, REFUTED))


def other_pattern(command, told, value, kind):
    """The pattern of an answer that has no number, with the pattern of what is told in its place."""
    return b"%s %s\n%s %s\nend\n" % (command.encode(), told, value.encode(), section_pattern(0, kind))


# Cases


def asked(words, formula, log, *options):
    """The words and the files of a command: those before its files, a formula, a log and the options."""
    return [*words.split(), *options, "f", "l"], {"f": formula, "l": log}


def best(words, formula, log, number, times=None):
    """A case that has a number."""
    command, value, *_ = words.split()
    pattern = best_pattern(command, number, value, len(logs.read_log(log).rows), times)
    return Case(f"{words} is {number}", *asked(words, formula, log), 0, (), pattern)


def never(words, formula, log):
    """A case in which no timing gives the value."""
    command, value, *_ = words.split()
    return Case(f"{words} is none", *asked(words, formula, log), 1, (), other_pattern(command, b"none", value, REFUTED))


def shut(words, formula, log, *steps):
    """A case in which no timing is admissible, by a walk that may begin anywhere."""
    outputs = turns(f"inconsistent {len(steps)}", *steps)
    return Case(f"{words} of a log without timings", *asked(words, formula, log), 3, outputs)


def left_open(words, told, formula, log):
    """A case in which one conflict isn't enough."""
    command, value, *_ = words.split()
    pattern = other_pattern(command, told, value, UNKNOWN)
    return Case(f"{words} is unknown", *asked(words, formula, log, "--conflicts=1"), 4, (), pattern)


def tolerances():
    """Least widenings."""
    nine, far = b"G (a.req -> F[0,9] b.ack)", b"G (a.req -> F[0,21] b.ack)"
    both_set = b"a.req & b.ack"
    yield best("tolerance false 5", nine, REQUEST, 1)
    yield best("tolerance false 1", nine, REQUEST, 1)
    yield never("tolerance false 0", nine, REQUEST)
    yield never("tolerance false 5", far, REQUEST)
    yield best("tolerance false 7", far, REQUEST, 7)
    yield best("tolerance true 5", ANSWERED, REQUEST, 0)
    yield best("tolerance true 0", ANSWERED, REQUEST, 0)
    yield best("tolerance true 5", b"a.p", TOO_NARROW, 1)
    yield shut("tolerance true 0", b"a.p", TOO_NARROW, "high 1", "low 0", "rise 1")
    yield never("tolerance false 1", b"F a.p", TOO_NARROW)
    yield best("tolerance true 10", both_set, NO_SKEW, 3)
    yield best("tolerance true 3", both_set, NO_SKEW, 3)
    yield never("tolerance true 2", both_set, NO_SKEW)
    yield best(f"tolerance true {GREATEST}", both_set, NO_SKEW, 3)
    yield best("tolerance true 0", AT_ONCE, EQUAL_TIMES, 0, (10, 10))
    yield never(f"tolerance false {GREATEST}", b"true", ONE_NOTE)
    yield best(f"tolerance false {GREATEST}", b"G (b.q -> a.p)", EQUAL_TIMES, 1)
    yield never("tolerance false 50", b"G (b.q -> a.p)", ORDERED)
    yield shut(f"tolerance true {GREATEST}", b"true", RECEIVED_FIRST, "message 0", "rise 1")


def wide_tolerances():
    """Least widenings of logs whose rows are far apart."""
    half = GREATEST // 2
    yield best(f"tolerance true {GREATEST}", AT_ONCE, far_apart(GREATEST), half, (0, 0))
    yield never(f"tolerance true {half - 1}", AT_ONCE, far_apart(GREATEST))
    yield best(f"tolerance true {GREATEST}", AT_ONCE, far_apart(GREATEST + 1), half + 1)
    yield best(f"tolerance true {GREATEST}", AT_ONCE, far_apart(2 * GREATEST), GREATEST, (0, 0))
    yield never(f"tolerance true {GREATEST}", AT_ONCE, far_apart(2 * GREATEST + 1))


def second_tolerances():
    """Least widenings of logs of version 2."""
    # The resync's skew grows too: the time between the rows is at most 15, and 2 more for each step.
    yield best("tolerance true 9", b"F[17,inf] a.y", LATER_CLOCK, 1, (9, 26))
    yield best("tolerance true 9", b"F[18,inf] a.y", LATER_CLOCK, 2)
    yield best("tolerance true 9", b"true", LATE, 4)
    yield shut("tolerance true 3", b"true", LATE, "low 1", "late 1", "high 0")
    yield best("tolerance true 9", b"F[1,inf] a.p", TURNED_OVER, 2, (12, 11))
    yield best("tolerance true 9", b"F[4,inf] a.p", TURNED_OVER, 4)
    yield never("tolerance true 3", b"F[4,inf] a.p", TURNED_OVER)


def third_tolerances():
    """Least widenings of logs of version 3: skews alone grow, and neither errors nor bounds between rows do."""
    yield best("tolerance true 9", deadline(5), READ, 0, (10, 15))
    yield never("tolerance false 9", deadline(5), READ)
    yield never(f"tolerance false {GREATEST}", deadline(5), READ)
    yield best("tolerance false 9", deadline(5), READ_NEAR, 1)
    yield best("tolerance false 9", deadline(6), READ_NEAR, 1, (9, 16))
    yield never("tolerance false 9", deadline(7), READ_NEAR)
    yield best("tolerance false 9", deadline(5), BOUND, 1)
    yield never("tolerance false 9", deadline(6), BOUND)
    yield best("tolerance true 9", b"true", BOUND.replace(b"0,6", b"0,4"), 1)
    yield shut("tolerance true 0", b"true", BOUND.replace(b"0,6", b"0,4"), "extra 0", "high 0", "low 1")
    yield shut(f"tolerance true {GREATEST}", b"true", TORN, "extra 0", "extra 1")
    yield shut("tolerance true 0", b"true", CROSSED, "over 1", "under 0", "message 1")


def spans():
    """Greatest distances."""
    yield best("span true 0 1", ANSWERED, REQUEST, 5)
    yield best("span false 0 1", ANSWERED, REQUEST, 9, (8, 17))
    yield best("span true 1 0", ANSWERED, REQUEST, -1, (12, 13))
    yield best("span false 1 0", ANSWERED, REQUEST, -6)
    yield never("span true 0 1", b"G (a.req -> F[0,0] b.ack)", REQUEST)
    yield best("span false 0 1", b"G (a.req -> F[0,0] b.ack)", REQUEST, 9, (8, 17))
    yield best("span true 0 1", b"true", NO_SKEW, 5, (10, 15))
    yield best("span true 1 0", b"true", NO_SKEW, -5, (10, 15))
    yield never("span false 1 0", b"true", NO_SKEW)
    yield best("span true 0 1", b"true", log_of("host,a,0,0", "set,a,10,p", "clear,a,10,p"), 0, (10, 10))
    yield shut("span true 0 1", b"true", TOO_NARROW, "high 1", "low 0", "rise 1")
    yield shut("span false 1 0", b"true", TOO_NARROW, "high 1", "low 0", "rise 1")
    yield best("span true 0 3", DONE % 8000, MICROSECONDS, 8000)
    yield best("span true 0 3", DONE % 7999, MICROSECONDS, 7999)
    yield best("span false 0 3", DONE % 7999, MICROSECONDS, 8000)
    yield best("span true 0 1", b"true", widest_log(), 10 * GREATEST, (-5 * GREATEST, 5 * GREATEST))
    yield best("span true 1 0", b"true", widest_log(), -6 * GREATEST, (-3 * GREATEST, 3 * GREATEST))


def second_spans():
    """Greatest distances in logs of version 2."""
    yield best("span true 0 1", b"true", LATER_CLOCK, 15, (10, 25))
    yield best("span true 0 1", b"!F[12,inf] a.y", LATER_CLOCK, 11, (10, 21))
    yield best("span true 0 1", b"true", LATE.replace(b"latency,b,1,3", b"latency,b,1,11"), 11)
    yield best("span true 1 0", b"true", LATE.replace(b"latency,b,1,3", b"latency,b,1,11"), -10, (15, 25))
    yield shut("span true 0 1", b"true", LATE, "low 1", "late 1", "high 0")


def third_spans():
    """Greatest distances in logs of version 3."""
    yield best("span true 0 1", b"true", STEADY, 5)
    yield best("span true 1 0", b"true", STEADY, -5)
    yield best("span true 0 1", b"true", NEAR, 7)
    yield best("span true 1 0", b"true", NEAR, -3)
    yield best("span false 0 1", deadline(6), NEAR, 7)
    yield never("span false 0 1", deadline(7), NEAR)
    yield best("span true 0 1", b"true", TIED, 6)
    yield best("span true 1 0", b"true", TIED, -4)
    yield best("span true 0 1", deadline(5), TIED, 5)
    yield best("span true 0 1", b"true", READ, 5, (10, 15))
    yield shut("span true 0 1", b"true", TORN, "extra 0", "extra 1")
    yield shut("span true 1 0", b"true", CROSSED, "over 1", "under 0", "message 1")


def left_unknown():
    """What one conflict leaves open. Each search has a timing, and needs conflicts to see that none gives the value."""
    yield left_open("tolerance false 0", b"unknown 0", EITHER, APART)
    yield left_open("tolerance false 9", rb"unknown \d", EITHER, APART)
    yield left_open("span false 0 1", rb"unknown(?: -?\d+)?", EITHER, APART)


def words():
    """Lists of words, of which most are no command."""
    files = {"f": b"a.req", "l": NO_SKEW}
    right = best_pattern("tolerance", 0, "true", 2, (10, 15))
    for line in (
        "tolerance true 0 f l", "tolerance true 1000000000000000000 f l", "tolerance --conflicts 5 true 0 f l",
        "tolerance true --conflicts=5 0 f l", "tolerance true 0 f l --conflicts 1000000", "tolerance true 0 -- f l",
        "tolerance -- true 0 f l", "tolerance true 0 f l --",
    ):
        yield Case(line, line.split(), files, 0, (), right)
    right = best_pattern("span", 5, "true", 2, (10, 15))
    for line in (
        "span true 0 1 f l", "span --conflicts 5 true 0 1 f l", "span true 0 --conflicts=5 1 f l", "span true -- 0 1 f l",
        "span true 0 1 f l --conflicts=1",
    ):
        yield Case(line, line.split(), files, 0, (), right)
    for line in (*refused_tolerances(), *refused_spans()):
        yield Case(f"no command, {line}", line.split(" "), files, 64, (b"refused words\n",))


def refused_tolerances():
    """Words that are no command `tolerance`."""
    yield from ("tolerance", "tolerance true 0 f", "tolerance true 0 f l l", "tolerance 0 f l", "tolerance true f l")
    yield from (f"tolerance {value} 0 f l" for value in ("True", "TRUE", "1", "either", "", "true?", "-true", "truefalse"))
    numbers = ("1000000000000000001", "9999999999999999999999", "-1", "-0", "+1", "00", "01", "1e3", "1.0", "x", "", "0x1")
    yield from (f"tolerance true {number} f l" for number in numbers)
    yield from ("tolerance 0 true f l", "tolerance f l true 0", "tolerance true 0  l", "tolerance true 0 f ")
    yield "Tolerance true 0 f l"
    yield from refused_options("tolerance true 0 f l")


def refused_spans():
    """Words that are no command `span`."""
    yield from ("span", "span true 0 1 f", "span true 0 1 f l l", "span 0 1 f l", "span true 0 f l", "span f l true 0 1")
    yield from (f"span {value} 0 1 f l" for value in ("False", "0", "", "both"))
    for number in ("4294967296", "18446744073709551616", f"{GREATEST}", "-1", "-0", "+1", "00", "01", "x", "", "1.0"):
        yield f"span true {number} 1 f l"
        yield f"span true 1 {number} f l"
    yield from ("span true 0 0 f l", "span false 1 1 f l", "span true 4294967295 4294967295 f l", "span true 7 7 none none")
    yield from refused_options("span true 0 1 f l")


def refused_options(line):
    """Words of a command with an option that there isn't, or that isn't right."""
    numbers = ("", "=0", "=1000001", "=05", "=5 --conflicts=5", " -5")
    return (f"{line} {option}" for option in [*(f"--conflicts{number}" for number in numbers), "--most=5", "-x"])


def orders_of_tests():
    """Faults of which the first in the order of tests counts."""
    fine = {"f": b"true", "l": NO_SKEW}
    wide = b"!!" + conjunction(0, 256)
    long_formula, long_log = b" " * 65537, HEADER + b"\n" * 1048576
    both = [
        ({"f": None}, 74, b""), ({"l": None}, 74, b""),
        ({"f": long_formula, "l": b""}, 67, b"refused length formula\n"),
        ({"f": b"true &", "l": long_log}, 65, b"refused formula 2 at byte 6\n"),
        ({"f": b"true &", "l": None}, 65, b"refused formula 2 at byte 6\n"),
        ({"f": b"c.p", "l": long_log}, 67, b"refused length log\n"),
        ({"f": b"c.p", "l": b""}, 66, b"refused log 1 at record 1\n"),
        ({"f": b"c.p", "l": HEADER}, 66, b"refused log 11\n"),
        ({"l": log_of(f"host,a,{GREATEST + 1},0", "note,a,1,n")}, 66, b"refused log 7 at record 2\n"),
        ({"f": FAR_UNTIL, "l": OVERFULL_HOST}, 66, b"refused log 13 at record 1027\n"),
        ({"f": b"c.p"}, 65, b"refused formula 8 at byte 0\n"),
        ({"f": b"!!" + conjunction(0, 256).replace(b"a.", b"c.")}, 65, b"refused formula 8 at byte 10\n"),
        ({"f": wide}, 67, b"refused nodes above 512\n"),
        ({"f": b"F (%s)" % wide, "l": CROWD}, 67, b"refused nodes above 512\n"),
        ({"f": FAR_UNTIL, "l": CROWD}, 67, b"refused size 4696650\n"),
    ]
    for changes, status, output in both:
        for words in ("tolerance true 3", "span true 0 1"):
            yield refusal(words, {**fine, **changes}, status, output)
    yield from orders_of_events(fine, wide)
    # With skews of 1000 each two rows can be at one instant, and with skews of 0 none can.
    size = {"f": b"a.p U[0,2] a.q", "l": SPARSE}
    yield refusal("tolerance true 1000", size, 67, b"refused size 8040000\n")
    yield never("tolerance true 0", size["f"], SPARSE)


def orders_of_events(fine, wide):
    """Rows that there aren't, before and after what else is refused."""
    table = [
        ("0 2", {}, 69, b"refused event 2\n"), ("2 0", {}, 69, b"refused event 2\n"),
        ("3 2", {}, 69, b"refused event 3\n"), ("2 3", {}, 69, b"refused event 2\n"),
        ("0 4294967295", {}, 69, b"refused event 4294967295\n"), ("4294967295 0", {}, 69, b"refused event 4294967295\n"),
        ("0 1", {"f": b"a.req", "l": ONE_SET}, 69, b"refused event 1\n"),
        ("0 2", {"f": wide}, 67, b"refused nodes above 512\n"),
        ("0 2", {"f": b"c.p"}, 65, b"refused formula 8 at byte 0\n"),
        ("0 2", {"l": b""}, 66, b"refused log 1 at record 1\n"),
        ("0 2", {"l": None}, 74, b""),
        ("0 2", {"l": TOO_NARROW}, 69, b"refused event 2\n"),
        ("0 210", {"f": FAR_UNTIL, "l": CROWD}, 69, b"refused event 210\n"),
        ("210 0", {"f": FAR_UNTIL, "l": CROWD}, 69, b"refused event 210\n"),
        ("209 0", {"f": FAR_UNTIL, "l": CROWD}, 67, b"refused size 4696650\n"),
    ]
    for events, changes, status, output in table:
        yield refusal(f"span true {events}", {**fine, **changes}, status, output)


def refusal(words, files, status, output):
    """A case that is refused, with the files that are there."""
    held = {name: data for name, data in files.items() if data is not None}
    return Case(f"{words}, {output.decode().strip() or 'no file'}", [*words.split(), "f", "l"], held, status, (output,))


def fixed_cases():
    """All cases of this module."""
    groups = (tolerances, wide_tolerances, second_tolerances, third_tolerances, spans, second_spans, third_spans,
              left_unknown, words, orders_of_tests)
    return [case for group in groups for case in group()]
