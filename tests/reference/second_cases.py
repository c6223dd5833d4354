"""Cases on logs of version 2 whose answers are written out by hand."""

from cases import Case, replay, turns
from check_cases import REFUTED, WITNESS, audit, check, inconsistent, report_pattern
from derivation_cases import Case as Derivation
from derivation_cases import lines_text

GREATEST = 10**18


def second_log(*records):
    """The text of a log of version 2 with these records, one on each line."""
    return b"skewlog2,host,time,name\n" + b"".join(record.encode() + b"\n" for record in records)


def message(latency, *more):
    """A message from a to b by clocks that may be off by 5, with a latency and perhaps more records before the rows."""
    return second_log("host,a,5,0", "host,b,5,0", latency, *more, "send,a,10,m", "recv,b,30,m")


def resynced(*records):
    """A log of the host a, whose clock is never off until a resync says so, with these records."""
    return second_log("host,a,0,0", *records)


LATE = message("latency,b,1,3")
IN_TIME = message("latency,b,1,10")
LATER = resynced("note,a,10,x", "resync,a,5,0", "note,a,20,y")
SLOW = second_log("host,a,0,0", "host,b,0,0", "latency,b,3,inf", "send,a,10,m", "recv,b,12,m")
APART = resynced("note,a,10,x", "resync,a,0,5", "note,a,12,y")


def log_faults():
    """Logs with a fault, each for the commands that take a log."""
    hosts = ("host,a,2,1", "host,b,2,1")
    notes = tuple(f"note,a,{place},n" for place in range(1024))
    resyncs = tuple(f"resync,a,{place},0" for place in range(1500))
    table = [
        # Version 1 has none of the further kinds, and there is no third header.
        (b"kind,host,time,name\nhost,a,2,1\nresync,a,1,0\nset,a,10,p\n", 3, 3),
        (b"kind,host,time,name\nhost,a,2,1\nlatency,a,1,inf\nset,a,10,p\n", 3, 3),
        (b"kind,host,time,name\nhost,a,2,1\npulse,a,10,p\n", 3, 3),
        (b"skewlog2,host,time\nhost,a,2,1\n", 1, 1),
        (b"skewlog2,host,time,name,\nhost,a,2,1\n", 1, 1),
        (b"skewlog1,host,time,name\nhost,a,2,1\n", 1, 1),
        (b"skewlog,host,time,name\nhost,a,2,1\n", 1, 1),
        (b"Skewlog2,host,time,name\nhost,a,2,1\n", 1, 1),
        (b"skewlog2,host,local,name\nhost,a,2,1\n", 1, 1),
        (b"host,a,2,1\nskewlog2,host,time,name\n", 1, 1),
        (second_log("kind,host,time,name"), 3, 2),
        (second_log("skewlog2,host,time,name"), 3, 2),
        (b"kind,host,time,name\nskewlog2,host,time,name\n", 3, 2),
        (second_log(*hosts, "Resync,a,1,0"), 3, 4),
        (second_log(*hosts, "latencies,a,1,2"), 3, 4),
        # Resync: its host, its skew, its gap
        (second_log(*hosts, "resync,a,1"), 2, 4),
        (second_log(*hosts, "resync,a,1,0,0"), 2, 4),
        (second_log("resync,a,1,0", *hosts), 6, 2),
        (second_log(*hosts, "resync,c,x,x"), 6, 4),
        (second_log(*hosts, "resync,A,1,0"), 6, 4),
        (second_log(*hosts, "resync,a,-1,0"), 7, 4),
        (second_log(*hosts, "resync,a,01,0"), 7, 4),
        (second_log(*hosts, "resync,a,inf,0"), 7, 4),
        (second_log(*hosts, "resync,a,1,x"), 7, 4),
        (second_log(*hosts, "resync,a,1,"), 7, 4),
        (second_log(*hosts, f"resync,a,{GREATEST + 1},0"), 7, 4),
        (second_log(*hosts, f"resync,a,0,{GREATEST + 1}"), 7, 4),
        # Latency: its host, that it is the first one, its least, its greatest, their order
        (second_log(*hosts, "latency,b,1"), 2, 4),
        (second_log("host,a,2,1", "latency,b,1,2", "host,b,2,1"), 6, 3),
        (second_log(*hosts, "latency,c,0,x"), 6, 4),
        (second_log(*hosts, "latency,b,1,inf", "latency,b,1,3"), 15, 5),
        (second_log(*hosts, "latency,b,1,3", "latency,b,1,3"), 15, 5),
        (second_log(*hosts, "latency,b,1,3", "note,a,1,n", "latency,a,1,3", "latency,b,0,x"), 15, 7),
        (second_log(*hosts, "latency,b,0,3"), 7, 4),
        (second_log(*hosts, "latency,b,0,x"), 7, 4),
        (second_log(*hosts, "latency,b,x,3"), 7, 4),
        (second_log(*hosts, "latency,b,-1,3"), 7, 4),
        (second_log(*hosts, "latency,b,inf,3"), 7, 4),
        (second_log(*hosts, "latency,b,inf,inf"), 7, 4),
        (second_log(*hosts, "latency,b,5,03"), 7, 4),
        (second_log(*hosts, "latency,b,5,"), 7, 4),
        (second_log(*hosts, "latency,b,5,Inf"), 7, 4),
        (second_log(*hosts, f"latency,b,{GREATEST + 1},inf"), 7, 4),
        (second_log(*hosts, f"latency,b,1,{GREATEST + 1}"), 7, 4),
        (second_log(*hosts, "latency,b,5,3"), 16, 4),
        (second_log(*hosts, "latency,b,1,0"), 16, 4),
        (second_log(*hosts, f"latency,b,{GREATEST},{GREATEST - 1}"), 16, 4),
        # What stands for no row, and what counts among the records
        (second_log(*hosts, "resync,a,1,0", "latency,b,1,3"), 11, None),
        (second_log(*hosts, "resync,a,1,0", "latency,b,1,3", "recv,a,1,m"), 10, 6),
        (second_log(*hosts, "recv,b,1,m", "resync,a,x,0"), 7, 5),
        (second_log(*hosts, *notes, *resyncs, "note,a,1,n"), 13, 2528),
        (second_log(*hosts, "inf,1,2,3"), 3, 4),
    ]
    for log, fault, record in table:
        place = "" if record is None else f" at record {record}"
        line = f"refused log {fault}{place}\n".encode()
        title = f"version 2, {line.decode().strip()}"
        for command in ("times", "order"):
            yield Case(title, [command, "l"], {"l": log}, 66, (line,))
        yield replay(title, b"true", log, b"10\n", 66, line)


def timings():
    """Logs for times, with one timing or with steps that shut all out."""
    greatest = second_log("host,a,0,0", "host,b,0,0", f"latency,b,{GREATEST},{GREATEST}",
                          "send,a,0,m", f"recv,b,{GREATEST},m")
    table = [
        ("a message that comes too late", LATE, 3, turns("inconsistent 3", "low 1", "late 1", "high 0")),
        ("just in time", IN_TIME, 0, (b"15\n25\n",)),
        ("a message that takes longer", SLOW, 3, turns("inconsistent 3", "high 1", "low 0", "message 1")),
        ("the gap of a resync", APART, 3, turns("inconsistent 3", "high 1", "low 0", "rise 1")),
        ("the greatest latency", greatest, 0, (b"0\n%d\n" % GREATEST,)),
        ("a latency at the end", second_log("host,a,5,0", "host,b,5,0", "send,a,10,m", "recv,b,30,m", "latency,b,1,10"),
         0, (b"15\n25\n",)),
        ("a receive before its send in the file",
         second_log("host,a,5,0", "host,b,5,0", "latency,b,1,3", "recv,b,30,m", "send,a,10,m"),
         3, turns("inconsistent 3", "low 0", "late 0", "high 1")),
        ("version 2 without any of its kinds", second_log("host,a,0,0", "note,a,10,n"), 0, (b"10\n",)),
        ("many resyncs at one place", resynced(*(f"resync,a,{skew},0" for skew in range(999, -1, -1)), "note,a,10,n"),
         0, (b"10\n",)),
    ]
    for title, log, status, outputs in table:
        yield Case(title, ["times", "l"], {"l": log}, status, outputs)
    clocks = (b"0: 1 0\n1: 1 1\n",)
    yield Case("the order of a message that is late", ["order", "l"], {"l": LATE}, 0, clocks)
    yield Case("the order where no timing is", ["order", "l"], {"l": APART}, 0, (b"0: 1\n1: 2\n",))


def admissions():
    """Replays of true, which end with it or with the first bound that is broken."""
    first = resynced("resync,a,5,0", "note,a,10,x")
    last = resynced("note,a,10,x", "resync,a,5,0")
    between = resynced("note,a,10,x", "note,a,20,y", "resync,a,5,0", "note,a,30,z")
    twice = resynced("resync,a,5,0", "resync,a,2,0", "note,a,10,x")
    other = second_log("host,a,0,0", "host,b,0,0", "resync,b,5,0", "note,a,10,x")
    later_host = second_log("host,a,0,0", "note,a,10,x", "resync,a,5,0", "host,b,0,0", "note,b,10,y", "note,a,10,z")
    wider = second_log("host,a,5,0", "note,a,10,x", "resync,a,5,4", "note,a,10,y", "note,a,10,z")
    closer = second_log("host,a,5,4", "note,a,10,x", "resync,a,5,0", "note,a,10,y")
    of_sender = second_log("host,a,0,0", "host,b,5,0", "latency,a,5,6", "send,a,10,m", "recv,b,14,m")
    both = second_log("host,a,9,0", "host,b,9,0", "latency,a,2,3", "latency,b,4,5",
                      "send,a,10,m", "recv,b,14,m", "send,b,14,k", "recv,a,16,k")
    back = second_log("host,a,9,0", "latency,a,2,3", "send,a,10,m", "recv,a,12,m", "note,a,12,n")
    table = [
        (LATER, "10 25", "true"), (LATER, "10 15", "true"),
        (LATER, "10 26", "not admissible high 1"), (LATER, "10 14", "not admissible low 1"),
        (LATER, "11 20", "not admissible high 0"),
        (first, "5", "true"), (first, "15", "true"), (first, "4", "not admissible low 0"),
        (last, "10", "true"), (last, "11", "not admissible high 0"),
        (between, "10 20 35", "true"), (between, "10 21 30", "not admissible high 1"),
        (twice, "12", "true"), (twice, "13", "not admissible high 0"),
        (other, "10", "true"), (other, "9", "not admissible low 0"),
        (later_host, "10 10 15", "true"), (later_host, "10 11 15", "not admissible high 1"),
        (wider, "6 10 14", "true"), (wider, "6 9 13", "not admissible rise 1"),
        (wider, "6 10 13", "not admissible rise 2"),
        (closer, "10 10", "true"), (closer, "10 9", "not admissible rise 1"),
        (IN_TIME, "15 25", "true"), (IN_TIME, "14 25", "not admissible late 1"),
        (IN_TIME, "15 36", "not admissible high 1"), (IN_TIME, "4 25", "not admissible low 0"),
        (of_sender, "10 11", "true"), (of_sender, "10 10", "not admissible message 1"),
        (both, "10 14 14 16", "true"), (both, "10 15 15 18", "true"),
        (both, "10 13 14 16", "not admissible message 1"), (both, "10 16 16 18", "not admissible late 1"),
        (both, "10 14 14 15", "not admissible message 3"), (both, "10 14 14 18", "not admissible late 3"),
        (both, "10 16 14 18", "not admissible late 1"), (both, "10 14 13 16", "not admissible rise 2"),
        (back, "10 12 12", "true"), (back, "10 11 12", "not admissible message 1"),
        (back, "10 14 12", "not admissible late 1"), (back, "10 9 12", "not admissible rise 1"),
    ]
    for log, times, answer in table:
        status = 0 if answer == "true" else 6
        text = "".join(time + "\n" for time in times.split()).encode()
        yield replay(f"version 2, {answer}", b"true", log, text, status, answer.encode() + b"\n")


def checks():
    """Checks whose answers rest on a resync or a latency."""
    sent = ("send,a,10,m", "recv,b,13,m", "set,b,13,q")
    hosts = ("host,a,5,0", "host,b,0,0")
    changes = ("set,a,10,p", "resync,a,{},0", "clear,a,12,p")
    alone, both = (WITNESS, REFUTED), (WITNESS, WITNESS)
    table = [
        ("a message in at most 3", b"F[0,3] b.q", second_log(*hosts, "latency,b,1,3", *sent), alone),
        ("a message in any time", b"F[0,3] b.q", second_log(*hosts, *sent), both),
        ("a message in at least 3", b"F[3,inf] b.q", second_log(*hosts, "latency,b,3,inf", *sent), alone),
        ("a message in at least 2", b"F[3,inf] b.q", second_log(*hosts, "latency,b,2,inf", *sent), both),
        ("cleared 2 later", b"F[2,2] !a.p", resynced(*changes).replace(b"{}", b"0"), alone),
        ("cleared about 2 later", b"F[2,2] !a.p", resynced(*changes).replace(b"{}", b"1"), both),
    ]
    for title, formula, log, sections in table:
        rows = sum(log.count(kind) for kind in (b"\nset", b"\nclear", b"\nsend", b"\nrecv"))
        status = 0 if sections == alone else 2
        yield check(title, formula, log, status, (), report_pattern(rows, *sections))
    yield check("too late for any value", b"true", LATE, 3, inconsistent(2, "low 1", "late 1", "high 0"))


def audits():
    """Audits of the steps that shut out all timings, of which one is late."""
    crossed = ("low 1", "late 1", "high 0")
    table = [
        (LATE, crossed, "accepted"),
        (LATE, crossed * 2, "accepted"),
        (LATE, ("late 1", "high 0", "low 1"), "accepted"),
        (LATE, ("high 0", "late 1", "low 1"), "refused inconsistent at line 2"),
        (LATE, ("low 1", "late 0", "high 0"), "refused inconsistent at line 2"),
        (LATE, ("low 1", "late 4294967295", "high 0"), "refused inconsistent at line 2"),
        (IN_TIME, crossed, "refused inconsistent at line 3"),
        (message("latency,b,1,inf"), crossed, "refused inconsistent at line 2"),
        (message("latency,a,1,3"), crossed, "refused inconsistent at line 2"),
        (LATE, ("low 1", "late 01", "high 0"), "refused report at line 5"),
        (LATE, ("low 1", "late", "high 0"), "refused report at line 5"),
        (LATE, ("low 1", "late 1 1", "high 0"), "refused report at line 5"),
        (LATE, ("low 1", "late 4294967296", "high 0"), "refused report at line 5"),
        (SLOW, ("high 1", "low 0", "message 1"), "accepted"),
        (message("latency,b,3,inf"), ("high 1", "low 0", "message 1"), "refused inconsistent at line 3"),
        (APART, ("high 1", "low 0", "rise 1"), "accepted"),
        (resynced("note,a,10,x", "note,a,12,y", "resync,a,0,5"), ("high 1", "low 0", "rise 1"),
         "refused inconsistent at line 3"),
    ]
    for log, steps, line in table:
        lines = "".join(step + "\n" for step in steps)
        report = f"skewcheck 1\nevents 2\ninconsistent {len(steps)}\n{lines}end\n".encode()
        yield audit(f"version 2, {line}", b"true", log, report, line)


def fixed_cases():
    """All cases of this module on the program."""
    return [case for group in (log_faults, timings, admissions, checks, audits) for case in group()]


DERIVATIONS = [
    (LATE, "cycle 3 low 1 late 1 high 0", "refutes"),
    (LATE, "cycle 3 late 1 high 0 low 1", "refutes"),
    (LATE, "cycle 3 high 0 late 1 low 1", "wrong 1"),
    (LATE, "cycle 3 low 1 late 0 high 0", "wrong 1"),
    (LATE, "cycle 1 late 1", "wrong 1"),
    (LATE, "cycle 2 late 1 message 1", "wrong 1"),
    (LATE, "cycle 2 late 1 order 0 1 -4", "derives"),
    (LATE, "cycle 2 late 1 order 0 1 -3", "wrong 1"),
    (LATE, "cycle 2 order 1 0 0 message 1", "derives"),
    (LATE, "cycle 1 late", "syntax 1"),
    (LATE, "cycle 1 late 1 1", "syntax 1"),
    (LATE, "cycle 1 Late 1", "syntax 1"),
    (LATE, "late 1", "syntax 1"),
    (IN_TIME, "cycle 3 low 1 late 1 high 0", "wrong 1"),
    (IN_TIME, "cycle 2 late 1 order 0 1 -11", "derives"),
    (IN_TIME, "cycle 2 late 1 order 0 1 -10", "wrong 1"),
    (SLOW, "cycle 3 high 1 low 0 message 1", "refutes"),
    (SLOW, "cycle 2 order 1 0 2 message 1", "derives"),
    (SLOW, "cycle 2 order 1 0 3 message 1", "wrong 1"),
    (SLOW, "cycle 2 late 1 order 0 1 -4", "wrong 1"),
    (APART, "cycle 3 high 1 low 0 rise 1", "refutes"),
    (LATER, "cycle 2 high 1 low 1", "wrong 1"),
    (LATER, "cycle 3 high 0 low 1 order 1 0 4", "derives"),
    (LATER, "cycle 3 high 0 low 1 order 1 0 5", "wrong 1"),
]


def fixed_derivations():
    """All derivations of this module."""
    for log, lines, answer in DERIVATIONS:
        yield Derivation(log, b"true", True, lines_text(lines), answer)
