"""Logs and formulas of the greatest size that `check` takes, and of the next greater one.

The size counts the square of the rows for each until and since, and the rows times the pairs of rows in reach where the
left side isn't true. One conflict is all that the search may spend, so a value may be left unknown.
"""

from case import Case, log_of
from formula_limits import joined

ANSWERED = (0, 1, 2, 4)
HOSTS = (b"a", b"b")


def quiet(rows):
    """Rows of one host without effect, one after another."""
    return log_of(b"host,a,0,1", *[b"note,a,%d,n" % row for row in range(rows)])


def turns(rows, skew, gap=1):
    """Two hosts that set and clear p in turns, each row twenty after the one before."""
    hosts = [b"host,%s,%d,%d" % (host, skew, gap) for host in HOSTS]
    return log_of(*hosts, *[
        b"%s,%s,%d,p" % ((b"set", b"clear")[row % 2], HOSTS[row // 2 % 2], 20 * row) for row in range(rows)
    ])


def at_once(rows):
    """Hosts with one row each, all at the same local time, by clocks that may be off by much."""
    names = [b"h%d" % row for row in range(rows)]
    return log_of(*[b"host,%s,1000,0" % name for name in names], *[b"set,%s,0,p" % name for name in names])


def two_at_once(skew):
    """64 hosts with two rows each, all at the same local time, by clocks that may be off by a skew."""
    names = [b"h%d" % host for host in range(64)]
    rows = [b"%s,%s,0,p" % (act, name) for act in (b"set", b"clear") for name in names]
    return log_of(*[b"host,%s,%d,0" % (name, skew) for name in names], *rows)


def many(count, form=b"F[%d,%d]a.p"):
    """So many different untils or sinces, joined."""
    return joined([form % (number, number) for number in range(count)])


def read(log, error=0):
    """The log with all of its hosts reading one clock."""
    head, hosts, rows = log.partition(b"host,a")
    first = min(rows.find(b"\n%s," % kind) for kind in (b"set", b"note") if b"\n%s," % kind in rows) + 1
    readings = b"".join(b"clock,%s,%d,m\n" % (host, error) for host in HOSTS if b"host,%s," % host in log)
    return b"skewlog3,host,time,name\n" + hosts + rows[:first] + readings + rows[first:]


def case(title, formula, log, statuses=ANSWERED, line=b"skewcheck 1"):
    """A formula and a log that `check` is asked about, with one conflict for each value."""
    words = ["check", "--conflicts", "1", "f", "l"]
    return Case("size", title, words, {"l": log, "f": formula}, statuses, line, is_search=True)


def cases():
    """All cases of great sizes."""
    yield from one_of_64_rows()
    yield from most_rows()
    yield from by_one_clock()
    yield from pulses_beside_clears()
    yield from fewer_rows()
    yield far_untils()


def one_of_64_rows():
    """One until or since over 64 rows."""
    for sign in (b"F", b"G", b"O", b"H"):
        title = sign.decode()
        yield case(f"64 quiet rows, {title}", sign + b" a.p", quiet(64))
        yield case(f"64 rows in turns, skew 5, {title}", sign + b" (a.p & b.p)", turns(64, 5))
        yield case(f"64 rows in turns, skew 1000, {title}", sign + b" (a.p & b.p)", turns(64, 1000))
        yield case(f"64 rows at once, {title}", sign + b" (h0.p & h1.p)", at_once(64))
    for sign in (b"U", b"S", b"U[0,100]", b"S[100,200]"):
        between = b" " + sign + b" "
        title = sign.decode()
        yield case(f"64 rows in turns, skew 5, {title}", b"!a.p" + between + b"b.p", turns(64, 5))
        yield case(f"64 rows in turns, skew 1000, {title}", b"!a.p" + between + b"b.p", turns(64, 1000))
        yield case(f"64 rows at once, {title}", b"!h0.p" + between + b"h1.p", at_once(64))


def most_rows():
    """1,024 rows, with the greatest size and with less."""
    four = many(4)  # 4 * 1,024^2
    yield case("1,024 quiet rows, 4 untils", four, quiet(1024))
    yield case("1,024 rows in turns, skew 1000, 4 untils", four, turns(1024, 1000))
    yield case("1,024 quiet rows, U[0,2]", b"a.p U[0,2] a.q", quiet(1024))  # 3,069 pairs
    yield case("1,024 rows in turns, skew 5, S[0,40]", b"!a.p S[0,40] b.p", turns(1024, 5))
    yield case("1,024 rows in turns, skew 5, F[0,40]", b"F[0,40] a.p", turns(1024, 5))
    close = log_of(b"host,a,511,1", *[b"note,a,0,n"] * 1024)
    yield case("1,024 rows that don't fit, of any size", many(250), close, (3,))


def by_one_clock():
    """Rows that read one clock, so that their distances are known, or nearly so."""
    wide = turns(1024, 1000)
    yield case("1,024 rows in turns by one clock, skew 1000, 4 untils", many(4), read(wide))
    yield case("1,024 rows in turns by one clock, skew 1000, S[0,40]", b"!a.p S[0,40] b.p", read(wide))  # 3,069 pairs
    yield case("1,024 rows in turns by one clock, error 9, S[0,20]", b"!a.p S[0,20] b.p", read(wide, 9))  # 2,047 pairs
    line = b"refused size %d" % (1024**2 + 1024 * 4_090)
    yield case("1,024 rows in turns by one clock, S[0,60]", b"!a.p S[0,60] b.p", read(wide), (67,), line)
    yield case("160 rows in turns by one clock, error 10000, U", b"!a.p U b.p", read(turns(160, 10_000, 0), 10_000))
    yield case("64 rows in turns by one clock, error 5, U", b"!a.p U b.p", read(turns(64, 1000), 5))


def pulses_beside_clears():
    """512 clears and 512 pulses of one proposition: what a clear made of it names all pulses, for each row and clear.

    Where all rows may change places the search may take longer than a run may, and be stopped: then memory alone is told.
    """
    rows = [b"clear,a,%d,p\n" % row for row in range(512)] + [b"pulse,a,%d,p\n" % (512 + row) for row in range(512)]
    joint = joined([b"F[0,%d] a.p" % number for number in range(1, 5)])
    for skew, formula, seconds, memory in ((0, b"a.p", 10, 300), (100_000, b"a.p", None, 1_024), (100_000, joint, None, 2_048)):
        log = b"skewlog2,host,time,name\nhost,a,%d,0\n" % skew + b"".join(rows)
        title = f"512 clears and 512 pulses, skew {skew}, {formula.decode()}"
        most = memory * 1_048_576 // len(formula)
        files = {"l": log, "f": formula}
        yield Case("size", title, ["check", "f", "l"], files, ANSWERED, b"skewcheck 1", most, seconds, is_search=skew > 0)


def fewer_rows():
    """Fewer rows, with the greatest size, with just less, and with more."""
    yield case("512 rows, 16 untils", many(16), turns(512, 100))
    yield case("128 quiet rows, 255 untils", many(255), quiet(128))
    yield case("160 rows in turns, skew 10000, U", b"!a.p U b.p", turns(160, 10_000, 0))  # each pair may be in reach
    yield case("32 rows, 8 untils", many(8), turns(32, 100))
    yield case("16 rows, 64 untils", many(64), turns(16, 100))
    yield case("16 rows, 64 sinces", b"F[0,0](" + many(63, b"O[%d,%d]b.p") + b")", turns(16, 100))
    yield case("10 rows, 255 untils", many(255), turns(10, 100))  # 511 distinct parts
    yield case("1 row, 255 untils", many(255), quiet(1))
    for count in (199, 200):
        chain = b" U ".join([b"a.p"] * count)
        yield case(f"1 row, a chain of {count - 1} untils", chain, quiet(1))
    chain = b" U ".join([b"(!a.p)"] * 198)
    yield case("10 rows, a chain of 197 untils", chain, turns(10, 100))
    yield case("27 rows, a chain of 197 untils", chain, turns(27, 10_000))
    for count, rows in ((5, 1024), (17, 512), (65, 255)):
        line = b"refused size %d" % (count * rows**2)
        yield case(f"{rows:,} rows, {count} untils", many(count), quiet(rows), (67,), line)
    for title, formula, pairs in (("U[0,3]", b"a.p U[0,3] a.q", 4_090), ("S", b"a.p S a.q", 524_800)):
        line = b"refused size %d" % (1024**2 + 1024 * pairs)
        yield case(f"1,024 rows, {title}", formula, quiet(1024), (67,), line)
    line = b"refused size %d" % (161**2 + 161**3)
    yield case("161 rows in turns, skew 10000, U", b"!a.p U b.p", turns(161, 10_000, 0), (67,), line)
    yield case("64 rows, 1 until in 5,000 places", joined([b"F b.p"] * 5_000), turns(64, 5))


def far_untils():
    """128 rows in any order, with the greatest size, whose bounds are numbers by the ten thousand: it holds most memory."""
    formula = joined([b"F[%d,%d] h0.p" % (100_000 + number, 200_000 + number) for number in range(253)])
    words = ["check", "--conflicts", "1", "f", "l"]
    most = 4_608 * 1_048_576 // len(formula)
    files = {"l": two_at_once(1_000_000_000), "f": formula}
    return Case("size", "128 rows at once, 253 untils with great bounds", words, files, ANSWERED, b"skewcheck 1", most, is_search=True)
