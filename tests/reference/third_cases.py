"""Cases on logs of version 3 whose answers are written out by hand."""

from cases import Case, replay, turns
from check_cases import REFUTED, WITNESS, audit, check, inconsistent, report_pattern
from derivation_cases import Case as Derivation
from derivation_cases import lines_text

GREATEST = 10**18
APART = 10**20  # the greatest magnitude of what a bound says
CLOCKS = 1024  # as many as a log may name


def third_log(*records):
    """The text of a log of version 3 with these records, one on each line."""
    return b"skewlog3,host,time,name\n" + b"".join(record.encode() + b"\n" for record in records)


def answered(*records):
    """A request and its answer 5 later, by a clock that may be off by 100, with these records before them."""
    return third_log("host,a,100,0", *records, "set,a,10,req", "set,a,15,ack")


def shared(first, second):
    """Two hosts that read one clock, with a row of each."""
    return third_log("host,a,100,0", "host,b,100,0", "clock,a,0,m", "clock,b,0,m", first, second)


STEADY = answered("clock,a,0,a")
NEAR = answered("clock,a,1,a")
WITHOUT = answered()
CROSSED = shared("send,a,10,x", "recv,b,10,x")
TWO_CLOCKS = third_log("host,a,5,0", "clock,a,0,one", "note,a,10,x", "clock,a,0,two", "note,a,20,y")
ONE_CLOCK = TWO_CLOCKS.replace(b"two", b"one")
TIED = answered() + b"bound,1,0,6\nbound,0,1,-4\n"
TORN = TIED.replace(b"bound,0,1,-4", b"bound,0,1,-7")


def deadline(most):
    """That each request has its answer by then."""
    return b"G (a.req -> F[0,%d] a.ack)" % most


def log_faults():
    """Logs with a fault, each for the commands that take a log."""
    for log, fault, record in (*header_faults(), *clock_faults(), *bound_faults()):
        place = "" if record is None else f" at record {record}"
        line = f"refused log {fault}{place}\n".encode()
        title = f"version 3, {line.decode().strip()}"
        for command in ("times", "order"):
            yield Case(title, [command, "l"], {"l": log}, 66, (line,))
        yield replay(title, b"true", log, b"10\n", 66, line)


def header_faults():
    """Logs whose header is none or is of a version that lacks a kind."""
    clock, bound = "clock,a,0,m", "bound,0,1,5"
    for word in (b"kind", b"skewlog2"):
        for record in (clock, bound, "clock,a", "bound,x,x,x"):
            log = third_log("host,a,5,0", record, "note,a,10,x").replace(b"skewlog3", word)
            yield log, 2 if record == "clock,a" else 3, 3
    for header in (b"skewlog4,host,time,name", b"Skewlog3,host,time,name", b"skewlog3,host,time", b"skewlog3,host,time,name,",
                   b"skewlog3,host,clock,name", b"skewlog03,host,time,name", b"clock,host,time,name"):
        yield header + b"\nhost,a,5,0\nnote,a,10,x\n", 1, 1
    yield third_log("skewlog3,host,time,name"), 3, 2
    yield third_log("kind,host,time,name"), 3, 2
    yield third_log("host,a,5,0", "Clock,a,0,m"), 3, 3
    yield third_log("host,a,5,0", "bounds,0,1,5"), 3, 3
    yield third_log("host,a,5,0", "reading,a,0,m"), 3, 3


def clock_faults():
    """Logs with a faulty clock: its host, its error, its name, their number."""
    host = "host,a,5,0"
    clocks = tuple(f"clock,a,0,c{place}" for place in range(CLOCKS))
    for record, fault in (
        ("clock,a,0", 2), ("clock,a,0,m,m", 2), ("clock,b,0,m", 6), ("clock,A,x,M", 6), ("clock,,0,m", 6),
        ("clock,a,-1,m", 7), ("clock,a,-0,m", 7), ("clock,a,01,m", 7), ("clock,a,+1,m", 7), ("clock,a,,m", 7),
        ("clock,a,inf,m", 7), ("clock,a,x,M", 7), (f"clock,a,{GREATEST + 1},m", 7), ("clock,a,1,M", 8), ("clock,a,1,", 8),
        ("clock,a,1,1m", 8), ("clock,a,1,_m", 8), (f"clock,a,1,{'m' * 33}", 8),
    ):
        yield third_log(host, record), fault, 3
        yield third_log(host, record, "note,a,10,x"), fault, 3
    yield third_log("clock,a,0,m", host), 6, 2
    yield third_log(host, "clock,a,0,m"), 11, None
    yield third_log(host, *clocks, "clock,a,0,one_more"), 17, CLOCKS + 3
    yield third_log(host, *clocks, "clock,a,x,one_more"), 7, CLOCKS + 3
    yield third_log(host, *clocks, "clock,a,0,One_more"), 8, CLOCKS + 3
    yield third_log(host, *clocks, *clocks, "clock,b,0,one_more"), 6, 2 * CLOCKS + 3
    yield third_log(host, *clocks, *clocks, "clock,a,0,one_more"), 17, 2 * CLOCKS + 3


def bound_faults():
    """Logs with a faulty bound: its rows, its number, rows that there aren't."""
    host, row = "host,a,1,0", "note,a,1,x"
    for record, fault in (
        ("bound,0,1", 2), ("bound,0,1,5,", 2), ("bound,x,1,5", 7), ("bound,0,x,5", 7), ("bound,0,1,x", 7),
        ("bound,-1,0,5", 7), ("bound,0,-1,5", 7), ("bound,-0,1,5", 7), ("bound,00,1,5", 7), ("bound,0,01,5", 7),
        ("bound,4294967296,0,5", 7), ("bound,0,4294967296,5", 7), ("bound,0,1,-0", 7), ("bound,0,1,+5", 7), ("bound,0,1,", 7),
        ("bound,0,1,05", 7), (f"bound,0,1,{APART + 1}", 7), (f"bound,0,1,-{APART + 1}", 7), ("bound,0,0,x", 7),
        ("bound,x,x,5", 7), ("bound,0,0,5", 18), ("bound,9,9,5", 18), ("bound,4294967295,4294967295,5", 18),
    ):
        yield third_log(host, record, row, row), fault, 3
    for record in ("bound,0,1,5", "bound,1,0,5", "bound,0,4294967295,5", "bound,0,9,5"):
        yield third_log(host, record, row), 20, 3
        yield third_log(host, row, record), 20, 4
    yield third_log(record, host, row), 20, 2
    yield third_log(host, row, row, "bound,0,1,5", "bound,2,0,5", "bound,3,0,5"), 20, 6
    # What is tested of the whole comes after each record, and rows come last.
    yield third_log(host, "bound,0,9,5", "note,a,1,X"), 8, 4
    yield third_log(host, "bound,0,9,5", "bound,0,0,5", row), 18, 4
    yield third_log(host, row, "recv,a,2,m", "bound,0,9,5"), 10, 4
    yield third_log(host, "bound,0,9,5", row, "recv,a,2,m"), 10, 5
    yield third_log(host, "bound,0,9,5"), 11, None


def timings():
    """Logs for times, with one timing or with steps that shut all out."""
    table = [
        ("a message by one clock", CROSSED, 3, turns("inconsistent 3", "over 1", "under 0", "message 1")),
        ("bounds that can't both hold", TORN, 3, turns("inconsistent 2", "extra 0", "extra 1")),
        ("a gap by one clock", third_log("host,a,9,5", "clock,a,0,m", "note,a,10,x", "note,a,12,y"),
         3, turns("inconsistent 3", "over 1", "under 0", "rise 1")),
        ("a late message by one clock", shared("send,a,10,x", "recv,b,20,x").replace(b"clock,a", b"latency,b,1,3\nclock,a"),
         3, turns("inconsistent 3", "late 1", "over 0", "under 1")),
        ("a bound and two skews", third_log("host,a,5,0", "note,a,10,x", "note,a,30,y", "bound,1,0,9"),
         3, turns("inconsistent 3", "low 1", "extra 0", "high 0")),
        ("the clock of a host that is never off", third_log("host,a,5,0", "host,b,0,0", "clock,a,0,m", "clock,b,0,m",
                                                           "note,a,10,x", "note,b,12,y"), 0, (b"10\n12\n",)),
        ("the greatest error", third_log("host,a,0,0", f"clock,a,{GREATEST},m", "note,a,10,x", "note,a,12,y"),
         0, (b"10\n12\n",)),
        ("a bound that leaves one timing", third_log("host,a,5,0", "host,b,0,0", "note,a,10,x", "note,b,12,y", "bound,1,0,-3"),
         0, (b"15\n12\n",)),
        ("the greatest bound", third_log("host,a,0,0", f"bound,1,0,{APART}", "note,a,10,x", "note,a,12,y"),
         0, (b"10\n12\n",)),
        ("the least bound", third_log("host,a,0,5", f"bound,0,1,-{APART}", "note,a,10,x", "note,a,12,y"),
         3, turns("inconsistent 3", "high 1", "low 0", "extra 0")),
        ("1,024 clocks", third_log("host,a,0,0", *(f"clock,a,0,c{place}" for place in range(CLOCKS)), "clock,a,0,c7",
                                   "note,a,10,x"), 0, (b"10\n",)),
        ("a clock with the name of a host", third_log("host,a,0,0", "clock,a,0,a", "note,a,10,a"), 0, (b"10\n",)),
        ("a clock with a kept word", third_log("host,a,0,0", "clock,a,0,true", "note,a,10,x"), 0, (b"10\n",)),
        ("a clock behind the rows", third_log("host,a,0,0", "note,a,10,x", "clock,a,0,m"), 0, (b"10\n",)),
        ("a bound before the hosts", third_log("bound,1,0,5", "host,a,0,0", "note,a,10,x", "note,a,12,y"), 0, (b"10\n12\n",)),
        ("version 3 without any of its kinds", third_log("host,a,0,0", "note,a,10,x"), 0, (b"10\n",)),
        ("version 3 with those of version 2",
         third_log("host,a,9,0", "latency,a,1,5", "clock,a,0,m", "resync,a,0,0", "pulse,a,10,p", "send,a,11,x", "recv,a,13,x"),
         0, (b"10\n11\n13\n",)),
    ]
    for title, log, status, outputs in table:
        yield Case(title, ["times", "l"], {"l": log}, status, outputs)
    yield Case("the order by one clock", ["order", "l"], {"l": CROSSED}, 0, (b"0: 1 0\n1: 1 1\n",))
    yield Case("the order against a bound", ["order", "l"], {"l": TORN}, 0, (b"0: 1\n1: 2\n",))


def admissions():
    """Replays of true, which end with it or with the first bound that is broken."""
    later_error = third_log("host,a,9,0", "clock,a,0,m", "note,a,10,x", "clock,a,2,m", "note,a,20,y", "note,a,30,z")
    far = third_log("host,a,9,0", "host,b,9,0", "clock,b,1,m", "note,b,10,x", "note,a,10,y", "clock,a,1,m", "note,a,10,z")
    both = third_log("host,a,9,0", "resync,a,1,3", "clock,a,0,m", "note,a,10,x", "note,a,14,y")
    order = third_log("host,a,9,5", "clock,a,0,m", "note,a,10,x", "note,a,20,y", "bound,1,0,10")
    back = third_log("host,a,9,0", "clock,a,0,m", "note,a,10,x", "clock,a,0,k", "note,a,20,y", "clock,a,0,m", "note,a,30,z")
    table = [
        (STEADY, "10 15", "true"), (STEADY, "110 115", "true"), (STEADY, "10 16", "not admissible over 1"),
        (STEADY, "10 14", "not admissible under 1"), (STEADY, "111 115", "not admissible high 0"),
        (WITHOUT, "10 15", "true"), (WITHOUT, "10 100", "true"),
        (NEAR, "10 17", "true"), (NEAR, "10 18", "not admissible over 1"), (NEAR, "20 22", "not admissible under 1"),
        (NEAR, "20 23", "true"),
        (TWO_CLOCKS, "10 25", "true"), (ONE_CLOCK, "10 25", "not admissible over 1"), (ONE_CLOCK, "12 22", "true"),
        (later_error, "10 22 28", "true"), (later_error, "10 23 30", "not admissible over 1"),
        (later_error, "12 20 28", "not admissible under 2"), (later_error, "12 20 34", "true"),
        (later_error, "10 18 34", "not admissible over 2"),
        (far, "10 5 12", "true"), (far, "10 10 13", "not admissible over 2"), (far, "13 1 10", "not admissible under 2"),
        (both, "11 15", "true"), (both, "10 13", "not admissible under 1"), (both, "11 13", "not admissible rise 1"),
        (both, "12 16", "not admissible high 0"),
        (order, "10 20", "true"), (order, "10 21", "not admissible over 1"), (order, "1 29", "not admissible over 1"),
        (order, "19 20", "not admissible rise 1"), (order, "19 24", "not admissible under 1"),
        (back, "11 25 31", "true"), (back, "11 25 32", "not admissible over 2"), (back, "11 25 30", "not admissible under 2"),
        (CROSSED, "10 10", "not admissible message 1"), (CROSSED, "10 11", "not admissible over 1"),
        (TIED, "10 15", "true"), (TIED, "10 16", "true"), (TIED, "10 17", "not admissible extra 0"),
        (TIED, "10 14", "true"), (TIED, "10 13", "not admissible extra 1"), (TIED, "15 10", "not admissible rise 1"),
        (TORN, "10 16", "not admissible extra 1"), (TORN, "10 17", "not admissible extra 0"),
    ]
    for log, times, answer in table:
        status = 0 if answer == "true" else 6
        text = "".join(time + "\n" for time in times.split()).encode()
        yield replay(f"version 3, {answer}", b"true", log, text, status, answer.encode() + b"\n")


def checks():
    """Checks whose answers rest on a clock or on a bound between rows."""
    true, false, both = (WITNESS, REFUTED), (REFUTED, WITNESS), (WITNESS, WITNESS)
    apart = third_log("host,a,100,0", "host,b,100,0", "clock,a,1,m", "clock,b,1,m", "set,a,10,p", "set,b,13,q")
    by_first = WITHOUT.replace(b"skewlog3", b"kind")
    table = [
        ("5 by a steady clock", deadline(5), STEADY, true), ("4 by a steady clock", deadline(4), STEADY, false),
        ("5 by no clock", deadline(5), WITHOUT, both), ("5 by no clock, version 1", deadline(5), by_first, both),
        ("7 by a clock off by 1", deadline(7), NEAR, true), ("6 by a clock off by 1", deadline(6), NEAR, both),
        ("5 between hosts", b"G (a.p -> F[0,5] b.q)", apart, true), ("4 between hosts", b"G (a.p -> F[0,4] b.q)", apart, both),
        ("6 by a bound", deadline(6), TIED, true), ("5 by a bound", deadline(5), TIED, both),
        ("3 by a bound", deadline(3), TIED, false),
        ("by clocks of their own", b"G (a.p -> F[0,5] b.q)", apart.replace(b"clock,b,1,m", b"clock,b,1,k"), both),
    ]
    for title, formula, log, sections in table:
        status = {true: 0, false: 1, both: 2}[sections]
        yield check(title, formula, log, status, (), report_pattern(2, *sections))
    yield check("a message by one clock", b"true", CROSSED, 3, inconsistent(2, "over 1", "under 0", "message 1"))
    yield check("bounds that can't both hold", b"true", TORN, 3, inconsistent(2, "extra 0", "extra 1"))


def audits():
    """Audits of the steps that shut out all timings, of which some go through a clock."""
    crossed = ("over 1", "under 0", "message 1")
    table = [
        (CROSSED, crossed, "accepted"), (CROSSED, crossed * 2, "accepted"),
        (CROSSED, ("message 1", "over 1", "under 0"), "accepted"),
        (CROSSED, ("under 0", "message 1", "over 1"), "accepted"),
        (CROSSED, ("under 0", "over 1", "message 1"), "refused inconsistent at line 2"),
        (CROSSED, ("over 1", "over 0", "message 1"), "refused inconsistent at line 2"),
        (CROSSED, ("over 1", "under 1", "message 1"), "refused inconsistent at line 3"),
        (CROSSED, ("over 0", "under 0"), "refused inconsistent at line 2"),
        (CROSSED, ("over 2", "under 0", "message 1"), "refused inconsistent at line 1"),
        (CROSSED, ("over 4294967295",), "refused inconsistent at line 1"),
        (CROSSED.replace(b"clock,b,0,m", b"clock,b,0,k"), crossed, "refused inconsistent at line 2"),
        (CROSSED.replace(b"clock,b,0,m", b"clock,b,1,m"), crossed, "refused inconsistent at line 3"),
        (CROSSED.replace(b"clock,b,0,m\n", b""), crossed, "refused inconsistent at line 1"),
        (CROSSED.replace(b"clock,a,0,m\n", b""), crossed, "refused inconsistent at line 2"),
        (CROSSED, ("over 01", "under 0", "message 1"), "refused report at line 4"),
        (CROSSED, ("over", "under 0", "message 1"), "refused report at line 4"),
        (CROSSED, ("over 1", "under 0 0", "message 1"), "refused report at line 5"),
        (CROSSED, ("over 1", "Under 0", "message 1"), "refused report at line 5"),
        (TORN, ("extra 0", "extra 1"), "accepted"), (TORN, ("extra 1", "extra 0"), "accepted"),
        (TORN, ("extra 0", "extra 2"), "refused inconsistent at line 2"),
        (TORN, ("extra 0", "extra 0"), "refused inconsistent at line 2"),
        (TIED, ("extra 0", "extra 1"), "refused inconsistent at line 2"),
        (TIED, ("extra 0", "low 0"), "refused inconsistent at line 2"),
        (WITHOUT, ("extra 0", "extra 1"), "refused inconsistent at line 1"),
    ]
    for log, steps, line in table:
        lines = "".join(step + "\n" for step in steps)
        report = f"skewcheck 1\nevents 2\ninconsistent {len(steps)}\n{lines}end\n".encode()
        yield audit(f"version 3, {line}", b"true", log, report, line)


JSON_HOST = b'{"name":"a","skew":9,"gap":0}'
JSON_ROW = b'{"kind":"note","host":"a","time":1,"name":"n"}'
JSON_CLOCK = b'{"kind":"clock","host":"a","error":1,"clock":"m"}'
JSON_BOUND = b'{"kind":"bound","later":1,"earlier":0,"most":-5}'
JSON_RESYNC = b'{"kind":"resync","host":"a","skew":1,"gap":2}'


def json_files():
    """Logs in JSON, with the text that is written of each, or its fault."""
    host, row, clock, bound = b"host,a,9,0\n", b"note,a,1,n\n", b"clock,a,1,m\n", b"bound,1,0,-5\n"
    head, shape = b"skewlog3,host,time,name\n" + host, b"refused json 2\n"
    table = [
        ([JSON_CLOCK, JSON_ROW], head + clock + row), ([JSON_ROW, JSON_CLOCK], head + row + clock),
        ([JSON_BOUND, JSON_ROW, JSON_ROW], head + row + row + bound),
        ([JSON_ROW, JSON_BOUND, JSON_CLOCK, JSON_ROW], head + row + clock + row + bound),
        ([JSON_CLOCK, JSON_RESYNC, JSON_ROW], head + b"resync,a,1,2\n" + clock + row),
        ([JSON_RESYNC, JSON_ROW], b"skewlog2,host,time,name\n" + host + b"resync,a,1,2\n" + row),
        ([JSON_ROW], b"kind,host,time,name\n" + host + row),
        ([JSON_ROW, JSON_BOUND], b"refused log 20 at record 4\n"),
        ([JSON_BOUND], b"refused log 11\n"), ([JSON_CLOCK], b"refused log 11\n"),
        ([JSON_BOUND.replace(b"1", b"0"), JSON_ROW], b"refused log 18 at record 3\n"),
        ([JSON_CLOCK.replace(b"1", b"-1"), JSON_ROW], b"refused log 7 at record 3\n"),
        ([JSON_CLOCK.replace(b"m", b"M"), JSON_ROW], b"refused log 8 at record 3\n"),
        ([JSON_CLOCK.replace(b'"a"', b'"b"'), JSON_ROW], b"refused log 6 at record 3\n"),
        ([JSON_CLOCK.replace(b"1", b"1.0"), JSON_ROW], shape), ([JSON_CLOCK.replace(b"1", b'"1"'), JSON_ROW], shape),
        ([JSON_CLOCK.replace(b'"m"', b"1"), JSON_ROW], shape), ([JSON_CLOCK.replace(b'"error"', b'"time"'), JSON_ROW], shape),
        ([JSON_CLOCK.replace(b'"clock",', b'"note",'), JSON_ROW], shape), ([JSON_ROW.replace(b"note", b"clock")], shape),
        ([JSON_ROW.replace(b"note", b"bound")], shape), ([JSON_BOUND.replace(b"-5", b"%d" % 2**64), JSON_ROW, JSON_ROW], shape),
        ([JSON_BOUND.replace(b'"later"', b'"last"'), JSON_ROW, JSON_ROW], shape),
        ([JSON_BOUND.replace(b"bound", b"clock"), JSON_ROW, JSON_ROW], shape),
    ]
    for events, output in table:
        data = b'{"hosts":[%s],"events":[%s]}' % (JSON_HOST, b",".join(events))
        status = 66 if output.startswith(b"refused") else 0
        yield Case(f"version 3 in JSON, {output[:30]!r}", ["json", "j"], {"j": data}, status, (output,))


def fixed_cases():
    """All cases of this module on the program."""
    return [case for group in (log_faults, timings, admissions, checks, audits, json_files) for case in group()]


DERIVATIONS = [
    (CROSSED, "cycle 3 over 1 under 0 message 1", "refutes"),
    (CROSSED, "cycle 3 under 0 message 1 over 1", "refutes"),
    (CROSSED, "cycle 3 under 0 over 1 message 1", "wrong 1"),
    (TORN, "cycle 2 extra 0 extra 1", "refutes"),
    (TIED, "cycle 2 extra 0 extra 1", "wrong 1"),
    (TIED, "cycle 2 extra 0 order 0 1 -7", "derives"),
    (TIED, "cycle 2 extra 0 order 0 1 -6", "wrong 1"),
    (TIED, "cycle 2 extra 1 order 1 0 3", "derives"),
    (TIED, "cycle 2 extra 1 order 1 0 4", "wrong 1"),
    (TIED, "cycle 2 extra 2 order 1 0 3", "wrong 1"),
    (TIED, "cycle 2 extra 1 order 1 0 3; learn 1 order 0 1 -4 1 line 1", "derives"),
    (STEADY, "cycle 3 over 1 under 0 order 0 1 -6", "derives"),
    (STEADY, "cycle 3 order 0 1 -6 over 1 under 0", "derives"),
    (STEADY, "cycle 3 over 1 under 0 order 0 1 -5", "wrong 1"),
    (STEADY, "cycle 3 over 0 under 1 order 1 0 4", "derives"),
    (STEADY, "cycle 3 over 0 under 1 order 1 0 5", "wrong 1"),
    (STEADY, "cycle 3 under 0 over 1 order 0 1 -6", "wrong 1"),
    (STEADY, "cycle 3 over 1 under 0 order 0 1 -6; learn 1 order 1 0 5 1 line 1", "derives"),
    (STEADY, "cycle 3 over 1 under 0 order 0 1 -6; learn 1 order 1 0 4 1 line 1", "wrong 2"),
    (NEAR, "cycle 3 over 1 under 0 order 0 1 -8", "derives"),
    (NEAR, "cycle 3 over 1 under 0 order 0 1 -7", "wrong 1"),
    (WITHOUT, "cycle 3 over 1 under 0 order 0 1 -6", "wrong 1"),
    (STEADY, "cycle 2 over 0 under 0", "wrong 1"),
    (STEADY, "cycle 1 under 0", "wrong 1"),
    (STEADY, "cycle 2 over 0 over 0", "wrong 1"),
    (STEADY, "cycle 2 over 2 under 2", "wrong 1"),
    # A clock is no event: an order step between a row and the node behind the rows is none.
    (STEADY, "cycle 2 over 0 order 2 0 -11", "wrong 1"),
    (STEADY, "cycle 2 order 2 0 -11 over 0", "wrong 1"),
    (TWO_CLOCKS, "cycle 3 over 1 under 0 order 0 1 -16", "wrong 1"),
    (ONE_CLOCK, "cycle 3 over 1 under 0 order 0 1 -16", "derives"),
    (STEADY, "cycle 1 under", "syntax 1"),
    (STEADY, "cycle 1 under 0 0", "syntax 1"),
    (STEADY, "cycle 1 Under 0", "syntax 1"),
    (STEADY, "cycle 1 over -1", "syntax 1"),
    (STEADY, "cycle 1 over 4294967296", "syntax 1"),
    (STEADY, "under 0", "syntax 1"),
    (STEADY, "learn 1 under 0 1 rule 11", "syntax 1"),
]


def fixed_derivations():
    """All derivations of this module."""
    for log, lines, answer in DERIVATIONS:
        yield Derivation(log, b"true", True, lines_text(lines), answer)
