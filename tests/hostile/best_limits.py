"""Logs and formulas for `tolerance` and `span` at the limits and beyond them, and ones that take long.

A skew may be 10^18 and a widening too, so with both a row is off by up to 2 * 10^18, and its time up to 6 * 10^18 from
zero. With the few rows of most cases tests/reference judges all that is written.
"""

from case import ONE_ROW, TRUE, TWO_ROWS, Case, log_of
from formula_limits import HEIGHT, joined
from log_limits import LENGTH as LOG_LENGTH
from log_limits import LOCAL, MOST, ROWS, rows_of_rounds
from second_limits import log_of as second_log_of
from sizes import at_once, many, quiet, turns
from third_limits import APART
from third_limits import log_of as third_log_of

BOTH = b"a.p & b.p"
# True whatever its propositions are, which takes a conflict to see where it is open which of two rows is the first.
EITHER = b"(a.p & b.p) | !(a.p & b.p)"
# Of two rows that set p once: the one is 10^18 after the other, whichever is the first.
LATER = b"F[%d,%d] b.p" % (MOST, MOST)
FOUND, NONE, SHUT, UNKNOWN = 0, 1, 3, 4
ANSWERED = (FOUND, NONE, UNKNOWN)


def case(words, title, formula, log, status, line=None, judged=True):
    """A formula and a log of few rows that `tolerance` or `span` is asked about."""
    files = {"f": formula, "l": log}
    return Case("best", f"{words}: {title}", [*words.split(), "f", "l"], files, (status,), line, judged=judged)


def long(words, title, formula, log, statuses, line=None):
    """The same of many rows."""
    files = {"f": formula, "l": log}
    return Case("best", f"{words}: {title}", [*words.split(), "f", "l"], files, statuses, line, is_search=True)


def cut_off(words, title, formula, log, statuses, line=None):
    """The same with one conflict for each search."""
    return long(f"{words} --conflicts=1", title, formula, log, statuses, line)


def pair(first, second, skew=MOST):
    """A log of two hosts, of which each sets p once, by clocks that may be off by a skew."""
    hosts = [b"host,%s,%d,0" % (host, skew) for host in (b"a", b"b")]
    return log_of(*hosts, b"set,a,%d,p" % first, b"set,b,%d,p" % second)


def far_widenings():
    """Least widenings at the greatest skew, by which rows come to one instant, or to a distance."""
    most = f"tolerance true {MOST}"
    for distance, found in ((2 * MOST, 0), (2 * MOST + 1, 1), (2 * MOST + 2, 1), (4 * MOST - 1, MOST), (4 * MOST, MOST)):
        for first in (-LOCAL, -distance // 2, LOCAL - distance):
            log = pair(first, first + distance)
            yield case(most, f"rows {distance} apart, from {first}", BOTH, log, FOUND, b"tolerance %d" % found)
    for first in (-LOCAL, -2 * MOST, LOCAL - 4 * MOST - 1):
        yield case(most, f"rows 4 * 10^18 + 1 apart, from {first}", BOTH, pair(first, first + 4 * MOST + 1), NONE,
                   b"tolerance none")
    yield case(most, "rows at both ends", BOTH, pair(-LOCAL, LOCAL), NONE, b"tolerance none")
    yield case(f"tolerance true {MOST - 1}", "rows 4 * 10^18 apart", BOTH, pair(-LOCAL, 0), NONE, b"tolerance none")
    yield case("tolerance true 0", "rows 2 * 10^18 apart", BOTH, pair(0, 2 * MOST), FOUND, b"tolerance 0")
    for distance, status, line in (
        (5 * MOST, FOUND, b"tolerance %d" % MOST), (5 * MOST - 1, FOUND, b"tolerance %d" % MOST),
        (5 * MOST + 1, NONE, b"tolerance none"),
        (4 * MOST, FOUND, b"tolerance %d" % (MOST // 2)), (3 * MOST, FOUND, b"tolerance 0"), (-3 * MOST, FOUND, b"tolerance 0"),
        (-3 * MOST - 1, FOUND, b"tolerance 1"), (-5 * MOST, FOUND, b"tolerance %d" % MOST),
        (-5 * MOST - 1, NONE, b"tolerance none"),
    ):
        first = -distance // 2
        yield case(most, f"rows {distance} apart of which one has to be 10^18 after the other", LATER,
                   pair(first, first + distance), status, line)
    zero = log_of(b"host,a,0,0", b"host,b,0,0", b"set,a,0,p", b"set,b,0,p")
    yield case(f"tolerance false {MOST}", "a value that no widening gives", b"true", zero, NONE, b"tolerance none")
    yield case(most, "rows of one instant that have to be 10^18 apart", LATER, zero, FOUND, b"tolerance %d" % (MOST // 2))


def far_bounds():
    """Widenings against the greatest gaps and latencies, up to logs that none makes admissible."""
    most = f"tolerance true {MOST}"
    for rows, status, line in (
        (3, FOUND, b"tolerance 0"), (4, FOUND, b"tolerance %d" % (MOST // 2)), (5, FOUND, b"tolerance %d" % MOST),
        (6, SHUT, b"inconsistent 7"),
    ):
        for local in (-LOCAL, 0, LOCAL):
            log = log_of(b"host,a,%d,%d" % (MOST, MOST), *[b"note,a,%d,n" % local] * rows)
            yield case(most, f"{rows} rows at {local} with the greatest gap", TRUE, log, status, line)
    zero = log_of(b"host,a,0,%d" % MOST, *[b"note,a,0,n"] * 2)
    yield case(f"tolerance true {MOST // 2}", "two rows at once with the greatest gap", TRUE, zero, FOUND,
               b"tolerance %d" % (MOST // 2))
    yield case(f"tolerance true {MOST // 2 - 1}", "the same, and one less", TRUE, zero, SHUT, b"inconsistent 3")
    for least, distance, status, line in (
        (MOST, 3 * MOST, FOUND, b"tolerance %d" % MOST), (MOST, 3 * MOST + 1, SHUT, b"inconsistent 3"),
        (MOST, MOST, FOUND, b"tolerance 0"),
        (1, 4 * MOST - 1, FOUND, b"tolerance %d" % MOST), (1, 4 * MOST, SHUT, b"inconsistent 3"),
        (MOST, 2 * LOCAL, SHUT, b"inconsistent 3"),
    ):
        first = distance // 2
        hosts = (b"host,a,%d,0" % MOST, b"host,b,%d,0" % MOST, b"latency,b,%d,inf" % least)
        log = second_log_of(*hosts, b"send,a,%d,m" % first, b"recv,b,%d,m" % (first - distance))
        yield case(most, f"a receive {distance} before its send, which took {least} or more", TRUE, log, status, line)
    for greatest, distance, status, line in (
        (1, 4 * MOST + 1, FOUND, b"tolerance %d" % MOST), (1, 4 * MOST + 2, SHUT, b"inconsistent 3"),
        (MOST, 5 * MOST, FOUND, b"tolerance %d" % MOST), (MOST, 5 * MOST + 1, SHUT, b"inconsistent 3"),
        (MOST, 3 * MOST, FOUND, b"tolerance 0"),
    ):
        hosts = (b"host,a,%d,0" % MOST, b"host,b,%d,0" % MOST, b"latency,b,1,%d" % greatest)
        log = second_log_of(*hosts, b"send,a,%d,m" % -LOCAL, b"recv,b,%d,m" % (distance - LOCAL))
        yield case(most, f"a receive {distance} after its send, which took {greatest} or less", TRUE, log, status, line)
    ring = log_of(b"host,a,%d,0" % MOST, b"recv,a,0,m", b"send,a,0,m")
    yield case(most, "a receive before its send on one host", TRUE, ring, SHUT, b"inconsistent 2")
    yield case("span true 0 1", "a receive before its send on one host", TRUE, ring, SHUT, b"inconsistent 2")


def far_distances():
    """Greatest distances where times are at the limits."""
    for first, second, skew, line in (
        (-LOCAL, LOCAL, MOST, b"span 10000000000000000000"), (LOCAL, -LOCAL, MOST, b"span -6000000000000000000"),
        (LOCAL, LOCAL, MOST, b"span 2000000000000000000"), (-LOCAL, -LOCAL, MOST, b"span 2000000000000000000"),
        (-LOCAL, LOCAL, 0, b"span 8000000000000000000"), (LOCAL, -LOCAL, 0, b"span -8000000000000000000"),
        (-LOCAL, LOCAL, 2**62 - LOCAL, b"span 9223372036854775808"), (0, 0, 0, b"span 0"),
    ):
        yield case("span true 0 1", f"rows at {first} and {second}, skew {skew}", TRUE, pair(first, second, skew), FOUND, line)
    near = log_of(b"host,a,%d,%d" % (MOST, MOST), *[b"note,a,%d,n" % (-LOCAL + row * MOST) for row in range(9)])
    yield case("span true 0 8", "nine rows with the greatest gaps", TRUE, near, FOUND, b"span 10000000000000000000")
    yield case("span true 8 0", "nine rows with the greatest gaps", TRUE, near, FOUND, b"span -8000000000000000000")
    yield case("span false 0 8", "nine rows with the greatest gaps", TRUE, near, NONE, b"span none")
    for value, first, second, status, line in (
        ("true", -LOCAL, LOCAL, NONE, b"span none"), ("false", -LOCAL, LOCAL, FOUND, b"span 10000000000000000000"),
        ("true", 0, 0, FOUND, b"span 1000000000000000000"), ("false", 0, 0, FOUND, b"span 2000000000000000000"),
        ("false", 0, -MOST, FOUND, b"span 999999999999999999"), ("true", 0, -MOST, FOUND, b"span 1000000000000000000"),
        ("false", 0, 3 * MOST, FOUND, b"span 5000000000000000000"), ("true", 0, 3 * MOST, FOUND, b"span 1000000000000000000"),
    ):
        yield case(f"span {value} 0 1", f"rows at {first} and {second}, 10^18 apart or not", LATER, pair(first, second), status,
                   line)
    late = second_log_of(b"host,a,%d,0" % MOST, b"host,b,%d,0" % MOST, b"latency,b,%d,%d" % (MOST, MOST),
                         b"send,a,%d,m" % -LOCAL, b"recv,b,%d,m" % (2 * MOST - LOCAL))
    yield case("span true 0 1", "a message that took 10^18", TRUE, late, FOUND, b"span 1000000000000000000")
    yield case("span true 1 0", "a message that took 10^18", TRUE, late, FOUND, b"span -1000000000000000000")


def resyncs():
    """Resyncs at the limits: their skews grow as those of hosts do."""
    most = f"tolerance true {MOST}"
    for before, after, distance, found in (
        (0, MOST, 3 * MOST, MOST), (MOST, 0, 3 * MOST, MOST), (MOST, MOST, 4 * MOST, MOST), (0, 0, 2 * MOST, MOST),
        (0, MOST, MOST, 0), (0, MOST, MOST + 1, 1),
    ):
        hosts = (b"host,a,%d,0" % before, b"host,b,0,0", b"resync,b,%d,0" % after)
        log = second_log_of(*hosts, b"set,a,%d,p" % -LOCAL, b"set,b,%d,p" % (distance - LOCAL), b"resync,a,0,%d" % MOST)
        title = f"rows {distance} apart, skew {before} and from a resync {after}"
        yield case(most, title, BOTH, log, FOUND, b"tolerance %d" % found)
        if distance > before + after:
            yield case(f"tolerance true {found - 1}", title, BOTH, log, NONE, b"tolerance none")
        yield case("span true 0 1", title, TRUE, log, FOUND, b"span %d" % (distance + before + after))


def few_rows():
    """Logs of no row and of one, and formulas at their limits."""
    nothing = log_of(b"host,a,0,0")
    for words in (f"tolerance true {MOST}", "span true 0 1"):
        yield case(words, "no row", TRUE, nothing, 66, b"refused log 11")
        yield case(words, "resyncs and no row", TRUE, second_log_of(b"host,a,0,0", b"resync,a,1,1"), 66, b"refused log 11")
        yield case(words, "a skew above the greatest", TRUE, pair(0, 0, MOST + 1), 66, b"refused log 7 at record 2")
        yield case(words, "a host that isn't in the log", b"true & c.p", TWO_ROWS, 65, b"refused formula 8 at byte 7")
        high = b"!" * (HEIGHT - 1) + b"true"
        yield case(words, "height 201", b"!" + high, TWO_ROWS, 65, b"refused formula 5 at byte 0")
        parts = joined([b"a.p%d" % number for number in range(256)])
        yield case(words, "513 distinct parts", b"!!" + parts, TWO_ROWS, 67, b"refused nodes above 512")
        yield case(words, "a formula one byte too long", TRUE + b" " * 65_533, TWO_ROWS, 67, b"refused length formula")
        yield case(words, "a log one byte too long", TRUE, TWO_ROWS + b"\n" * (LOG_LENGTH + 1 - len(TWO_ROWS)), 67,
                   b"refused length log")
        best = b"tolerance 0" if words.startswith("tolerance") else b"span 9"
        yield case(words, "height 200", b"F" * (HEIGHT - 1) + b" true", TWO_ROWS, FOUND, best, judged=False)
        yield case(words, "512 distinct parts", b"!" + parts, TWO_ROWS, FOUND, best, judged=False)
    yield case(f"tolerance true {MOST}", "one row", TRUE, ONE_ROW, FOUND, b"tolerance 0")
    yield case(f"tolerance false {MOST}", "one row", TRUE, ONE_ROW, NONE, b"tolerance none")
    yield case("tolerance true 0", "one row that has to come again", b"F[1,inf] true", ONE_ROW, NONE, b"tolerance none")
    for words in ("span true 0 1", "span true 1 0", "span false 1 4294967295"):
        yield case(words, "one row", TRUE, ONE_ROW, 69, b"refused event 1")


def greatest_sizes():
    """Logs and formulas of the greatest size, and of the next greater one, which is counted with the widening."""
    for words, rows, count, line in (
        ("tolerance false 0", ROWS, 4, b"tolerance unknown 0"), ("span false 0 1023", ROWS, 4, b"span unknown"),
        (f"tolerance false {MOST}", 512, 16, None), ("span false 511 0", 512, 16, b"span unknown"),
    ):
        never = EITHER + b" | (a.z & " + many(count) + b")"
        yield cut_off(words, f"{rows:,} rows, {count} untils, never false", never, turns(rows, 1000), (UNKNOWN,), line)
    yield cut_off(f"tolerance true {MOST}", "1,024 rows, 4 untils", many(4), turns(ROWS, 1000), ANSWERED)
    for words in (f"tolerance true {MOST}", "span true 0 1"):
        yield cut_off(words, "1,024 rows, 5 untils", many(5), turns(ROWS, 1000), (67,), b"refused size 5242880")
    until = b"!a.p U b.p"
    yield cut_off("tolerance true 0", "160 rows in reach of one until", until, turns(160, 10_000, 0), ANSWERED)
    yield cut_off(f"tolerance true {MOST}", "160 rows, with the widening in reach of one", until, turns(160, 0, 0), ANSWERED)
    wide = b"refused size %d" % (161**2 + 161**3)
    near = b"!a.p U[0,19] b.p"  # without a widening each row alone is in its reach
    yield cut_off(f"tolerance true {MOST}", "161 rows, with the widening in reach of one", near, turns(161, 0, 0), (67,), wide)
    yield cut_off("tolerance true 0", "161 rows, each alone in reach", near, turns(161, 0, 0), ANSWERED)
    yield cut_off("span true 0 160", "161 rows, each alone in reach", near, turns(161, 0, 0), ANSWERED)
    yield cut_off("span true 0 160", "161 rows in reach of one until", until, turns(161, 10_000, 0), (67,), wide)


def many_rows():
    """Many rows whose order a widening leaves open, logs that no widening makes admissible, and many resyncs."""
    for words in (f"tolerance true {MOST}", f"tolerance false {MOST}", "span true 0 63", "span false 63 0"):
        for sign in (b"F", b"G"):
            yield cut_off(words, f"64 rows at once, {sign.decode()}", sign + b" (h0.p & h1.p)", at_once(64), ANSWERED)
        yield cut_off(words, "64 rows in turns", b"G (a.p -> F[0,40] b.p)", turns(64, 0), ANSWERED)
    short = log_of(b"host,a,0,%d" % MOST, *[b"note,a,0,n"] * ROWS)
    for words in (f"tolerance true {MOST}", "span true 0 1023"):
        yield long(words, "1,024 rows in too short a time, 250 untils", many(250), short, (SHUT,))
    rounds = log_of(*[b"host,h%d,0,0" % host for host in range(64)], *rows_of_rounds())
    yield long(f"tolerance true {MOST}", "511 messages round and round", TRUE, rounds, (FOUND,), b"tolerance 256")
    yield long("tolerance true 255", "511 messages round and round", TRUE, rounds, (SHUT,))
    record = b"resync,b,1,0\n"
    rows = b"".join(b"note,a,%d,n\n" % row for row in range(ROWS))
    head = second_log_of(b"host,a,1000,1", b"host,b,0,0")
    count = (LOG_LENGTH - len(head) - len(rows)) // len(record)
    late = head + record * count + rows
    title = f"{count:,} resyncs and 1,024 rows"
    yield long(f"tolerance true {MOST}", title, TRUE, late, (FOUND,), b"tolerance 0")
    yield long(f"tolerance false {MOST}", title, TRUE, late, (NONE,), b"tolerance none")
    yield long("span true 0 1023", title, TRUE, late, (FOUND,), b"span 3023")
    yield long("span true 1023 0", title, TRUE, late, (FOUND,), b"span -1023")
    quick = quiet(ROWS)
    yield long("span true 0 1023", "1,024 quiet rows, U[0,2]", b"a.p U[0,2] a.q", quick, (NONE,), b"span none")
    yield long("span false 0 1023", "1,024 quiet rows, U[0,2]", b"a.p U[0,2] a.q", quick, (FOUND,), b"span 1023")


def readings():
    """Rows that read one clock, at both ends, whose distance the errors leave open; a widening leaves it as it is."""
    hosts = [b"host,%s,%d,0" % (host, MOST) for host in (b"a", b"b")]
    for error in (0, 1, MOST // 2, MOST - 1, MOST):
        read = [b"clock,%s,%d,m" % (host, error) for host in (b"a", b"b")]
        log = third_log_of(*hosts, *read, b"set,a,%d,p" % -LOCAL, b"set,b,%d,p" % LOCAL)
        title = f"rows at both ends by one clock, error {error}"
        yield case("span true 0 1", title, TRUE, log, FOUND, b"span %d" % (2 * LOCAL + 2 * error))
        yield case("span true 1 0", title, TRUE, log, FOUND, b"span %d" % (2 * error - 2 * LOCAL))
        yield case(f"tolerance true {MOST}", title, TRUE, log, FOUND, b"tolerance 0")
        yield case(f"tolerance true {MOST}", f"{title}, at once", BOTH, log, NONE, b"tolerance none")


def bounds_between_rows():
    """Rows at both ends with a bound between them, up to the greatest."""
    hosts = [b"host,%s,%d,0" % (host, MOST) for host in (b"a", b"b")]
    for most, line in ((APART, 10 * MOST), (10 * MOST + 1, 10 * MOST), (10 * MOST, 10 * MOST), (10 * MOST - 1, 10 * MOST - 1),
                       (6 * MOST, 6 * MOST)):
        log = third_log_of(*hosts, b"set,a,%d,p" % -LOCAL, b"set,b,%d,p" % LOCAL, b"bound,1,0,%d" % most)
        yield case("span true 0 1", f"rows at both ends, at most {most} apart", TRUE, log, FOUND, b"span %d" % line)
        yield case("span true 1 0", f"rows at both ends, at most {most} apart", TRUE, log, FOUND, b"span %d" % (-6 * MOST))
    for most, found in ((6 * MOST, 0), (6 * MOST - 1, 1), (6 * MOST - 2, 1), (4 * MOST, MOST), (4 * MOST - 1, None)):
        log = third_log_of(*hosts, b"set,a,%d,p" % -LOCAL, b"set,b,%d,p" % LOCAL, b"bound,1,0,%d" % most)
        status, line = (SHUT, b"inconsistent 3") if found is None else (FOUND, b"tolerance %d" % found)
        yield case(f"tolerance true {MOST}", f"rows at both ends, at most {most} apart", TRUE, log, status, line)
    log = third_log_of(*hosts, b"set,a,0,p", b"set,b,0,p", b"bound,0,1,-%d" % APART)
    yield case(f"tolerance true {MOST}", "the least bound", TRUE, log, SHUT, b"inconsistent 3")
    yield case("span true 0 1", "the least bound", TRUE, log, SHUT, b"inconsistent 3")


def cases():
    """All cases of `tolerance` and `span`."""
    for some in (far_widenings, far_bounds, far_distances, resyncs, readings, bounds_between_rows, few_rows, greatest_sizes, many_rows):
        yield from some()
