"""Cases whose answers are written out by hand. They run before the generated ones."""

from typing import NamedTuple, Optional


class Case(NamedTuple):
    title: str
    words: list
    files: dict  # the bytes by name; the name - is the standard input
    status: int
    outputs: tuple  # the outputs of which each is right
    pattern: Optional[bytes] = None  # what the output must match where there may be many


HEADER = b"kind,host,time,name\n"


def log_of(*records):
    """The text of a log with the header and these records, one on each line."""
    return HEADER + b"".join(record.encode() + b"\n" for record in records)


def turns(first, *lines):
    """The outputs of a first line and the lines in cyclic order from any of them."""
    turned = (lines[place:] + lines[:place] for place in range(len(lines)))
    return tuple("".join(line + "\n" for line in (first, *turn)).encode() for turn in turned)


REQUEST = log_of("host,a,2,1", "host,b,2,1", "set,a,10,req", "set,b,15,ack")
ONE_NOTE = log_of("host,a,0,0", "note,a,10,n")
ONE_SET = log_of("host,a,0,0", "set,a,10,p")
EQUAL_TIMES = log_of("host,a,0,0", "host,b,0,0", "set,a,10,p", "set,b,10,q")
SET_AND_CLEAR = log_of("host,a,0,0", "set,a,10,p", "clear,a,10,p")
TOO_NARROW = log_of("host,a,0,1", "set,a,10,p", "clear,a,10,p")
EARLY_RECEIVE = log_of("host,a,1,0", "host,b,1,0", "send,a,20,m", "recv,b,10,m")
ORDERED = log_of(
    "host,a,3,0", "host,b,3,0", "set,a,10,p", "send,a,10,m", "recv,b,10,m", "set,b,10,q"
)
UNORDERED = log_of("host,a,3,0", "host,b,3,0", "set,a,10,p", "set,b,10,q")
UNTIL_FIVE = log_of("host,a,0,0", "host,b,0,0", "set,a,0,p", "clear,a,5,p", "set,b,5,q")
SINCE_THREE = log_of(
    "host,a,0,0", "host,b,0,0", "set,a,0,p", "clear,a,1,p", "set,b,1,q", "note,b,3,n"
)
NEVER_SET = log_of("host,a,0,0", "host,b,0,0", "set,a,0,p", "clear,a,1,p", "note,b,2,n")
SET_LATER = log_of("host,a,0,0", "host,b,0,0", "set,a,0,p", "set,b,1,q", "note,b,2,n")
SET_BETWEEN = log_of("host,a,0,0", "note,a,0,n", "set,a,1,z", "clear,a,2,z")
WIDE_CLOCK = log_of("host,a,1000,0", "note,a,1700000000000000000,n")
NO_SKEW = log_of("host,a,0,1", "host,b,0,1", "set,a,10,req", "set,b,15,ack")
RECEIVED_FIRST = log_of("host,a,9,0", "recv,a,1,m", "send,a,2,m")
MICROSECONDS = log_of(
    "host,web,2000,0",
    "host,pay,2000,0",
    "set,web,1700000000000000,asked",
    "send,web,1700000000000100,m1",
    "recv,pay,1700000000001500,m1",
    "set,pay,1700000000004000,done",
    "send,pay,1700000000004100,m2",
    "recv,web,1700000000009000,m2",
    "note,web,1700000000009100,shown",
)
MICROSECONDS_AS_READ = (
    b"1700000000000000\n1700000000000100\n1700000000001500\n1700000000004000\n"
    b"1700000000004100\n1700000000009000\n1700000000009100\n"
)
MICROSECONDS_APART = (
    b"1699999999998000\n1699999999998100\n1700000000001500\n1700000000006000\n"
    b"1700000000006000\n1700000000009000\n1700000000009100\n"
)


def doubled(depth):
    """A proposition under a depth of conjunctions of one formula with itself."""
    text = b"a.p"
    for _ in range(depth):
        text = b"(" + text + b" & " + text + b")"
    return text


def conjunction(first, count):
    """The conjunction of count numbered propositions as a full tree."""
    if count == 1:
        return b"a.x%d" % first
    half = count // 2
    last = conjunction(first + half, count - half)
    return b"(" + conjunction(first, half) + b" & " + last + b")"


def replay(title, formula, log, times, status, output):
    """A replay from three files."""
    files = {"f": formula, "l": log, "t": times}
    return Case(title, ["replay", "f", "l", "t"], files, status, (output,))


def truths():
    """Replays that end with a truth value or a broken bound."""
    answered = b"G (a.req -> F[0,5] b.ack)"
    yes, no = (0, b"true\n"), (1, b"false\n")
    table = [
        ("an answer after five", answered, REQUEST, b"10\n15\n", yes),
        ("an answer after nine is late", answered, REQUEST, b"8\n17\n", no),
        ("nine is allowed", b"G (a.req -> F[0,9] b.ack)", REQUEST, b"8\n17\n", yes),
        ("nine where eight is allowed", b"G (a.req -> F[0,8] b.ack)", REQUEST, b"8\n17\n", no),
        ("eight where eight is allowed", b"G (a.req -> F[0,8] b.ack)", REQUEST, b"9\n17\n", yes),
        ("one is more than nothing", b"G (a.req -> F[0,0] b.ack)", REQUEST, b"12\n13\n", no),
        ("two hosts at one instant", b"a.p & b.q", EQUAL_TIMES, b"10\n10\n", yes),
        ("the other host counts at that instant", b"!b.q", EQUAL_TIMES, b"10\n10\n", no),
        ("the later row of an instant decides", b"a.p", SET_AND_CLEAR, b"10\n10\n", no),
        ("a message keeps the order", b"G (b.q -> a.p)", ORDERED, b"10\n10\n11\n11\n", yes),
        ("without one the order may turn", b"G (b.q -> a.p)", UNORDERED, b"13\n7\n", no),
        ("and may stay", b"G (b.q -> a.p)", UNORDERED, b"7\n13\n", yes),
        ("left of until ends at its witness", b"a.p U[0,5] b.q", UNTIL_FIVE, b"0\n5\n5\n", yes),
        ("the witness of until is too far", b"a.p U[0,4] b.q", UNTIL_FIVE, b"0\n5\n5\n", no),
        ("since with its witness at three",
         b"F (b.q S[2,3] a.p)", SINCE_THREE, b"0\n1\n1\n3\n", yes),
        ("since without a witness", b"F (b.q S[4,5] a.p)", SINCE_THREE, b"0\n1\n1\n3\n", no),
        ("since asks its left side at its own position", b"F (b.q S[1,3] a.p)", NEVER_SET,
         b"0\n1\n2\n", no),
        ("until asks its left side at its own position", b"b.q U[1,3] a.p", SET_LATER,
         b"0\n1\n2\n", no),
        ("since with its own position as witness", b"F[1,1] (false S a.p)", SET_LATER,
         b"0\n1\n2\n", yes),
        ("since with a witness that is kept away", b"F[2,2] (false S[1,2] a.p)", SET_LATER,
         b"0\n1\n2\n", no),
        ("the low end of a wide clock", b"true", WIDE_CLOCK, b"1699999999999999000\n", yes),
        ("the high end of a wide clock", b"true", WIDE_CLOCK, b"1700000000000001000\n", yes),
        ("one above the high end", b"true", WIDE_CLOCK, b"1700000000000001001\n",
         (6, b"not admissible high 0\n")),
        ("below the low end", b"a.req", REQUEST, b"7\n15\n", (6, b"not admissible low 0\n")),
        ("a message at one instant", b"a.p", ORDERED, b"10\n10\n10\n10\n",
         (6, b"not admissible message 2\n")),
        ("a gap too small", b"a.p", TOO_NARROW, b"10\n10\n", (6, b"not admissible rise 1\n")),
        ("either both or not both", b"(a.p & b.q) | !(a.p & b.q)", EQUAL_TIMES, b"10\n10\n", yes),
        ("eight milliseconds by eight", b"G (web.asked -> F[0,8000] pay.done)",
         MICROSECONDS, MICROSECONDS_APART, yes),
        ("eight milliseconds by less", b"G (web.asked -> F[0,7999] pay.done)",
         MICROSECONDS, MICROSECONDS_APART, no),
        ("microseconds as they were read", b"G (web.asked -> F[0,5000] pay.done)",
         MICROSECONDS, MICROSECONDS_AS_READ, yes),
        ("height two hundred", b"!" * 199 + b"true", ONE_NOTE, b"10\n", no),
        ("many occurrences of few nodes", doubled(9), ONE_SET, b"10\n", yes),
        ("exactly 512 nodes", b"!" + conjunction(0, 256), ONE_SET, b"10\n", yes),
        ("513 nodes", b"!!" + conjunction(0, 256), ONE_SET, b"10\n",
         (67, b"refused nodes above 512\n")),
        ("deep parentheses", b"(" * 32000 + b"a.p" + b")" * 32000, ONE_SET, b"10\n", yes),
    ]
    for title, formula, log, times, (status, output) in table:
        yield replay(title, formula, log, times, status, output)


def groupings():
    """Formulas whose value shows how operators group without parentheses."""
    yes, no = (0, b"true\n"), (1, b"false\n")
    single = [
        (b"false -> false -> false", yes),
        (b"true | true & false", yes),
        (b"false & false | true", yes),
        (b"true | false -> false", no),
        (b"!false & false", no),
        (b"!true U true", yes),
        (b"!!!true", no),
        (b"false & true U true", no),
    ]
    later = [
        (b"true U[1,1] true S[1,1] true", SET_LATER, yes),
        (b"true S a.p U[2,2] true", NEVER_SET, no),
        (b"a.p U false U b.q", SET_LATER, yes),
        (b"F[2,2] (true S false S a.z)", SET_BETWEEN, yes),
        (b"true U b.q & !b.q", SET_LATER, yes),
        (b"F b.q & !b.q", SET_LATER, yes),
        (b"!b.q U[1,1] b.q", SET_LATER, yes),
        (b"FGa.p", SET_LATER, yes),
        (b"a.pUb.q", SET_LATER, yes),
        (b"trueU[1,1]trueSa.p", SET_LATER, yes),
    ]
    for formula, (status, output) in single:
        yield replay(formula.decode(), formula, ONE_NOTE, b"10\n", status, output)
    for formula, log, (status, output) in later:
        yield replay(formula.decode(), formula, log, b"0\n1\n2\n", status, output)
    # Grouped to the left these have 512 nodes, and more when grouped to the right.
    both = b"(a.x0 & a.x1 & a.x2) & (a.x0 & a.x1) & " + conjunction(3, 253)
    either = b"(a.x0 | a.x1 | a.x2) & (a.x0 | a.x1) & " + conjunction(3, 250)
    for formula in (both, either):
        yield replay("grouped to the left", formula, ONE_SET, b"10\n", *no)
        yield replay("one node more", b"!(" + formula + b")", ONE_SET, b"10\n", 67,
                     b"refused nodes above 512\n")


def formula_faults():
    """Texts that are no formula of the log of a request and its answer."""
    table = [
        (b"", 7, 0),
        (b" \t\r\n ", 7, 0),
        (b"a.p # b.q", 1, 4),
        (b"a.p &", 2, 5),
        (b"F[01,3] a.p", 3, 2),
        (b"F[0,1000000000000000001] a.p", 3, 4),
        (b"F[5,3] a.p", 4, 1),
        (b"!" * 200 + b"true", 5, 0),
        (b"a.p b.q", 6, 4),
        (b"c.p", 8, 0),
        (b"a.p & " + b"w" * 33 + b".p", 1, 6),
        (b"a.p)", 6, 3),
        (b"(a.p b.q", 2, 5),
        (b"(" * 65536, 2, 65536),
        (b"true.p", 6, 4),
        (b"inf.p", 2, 0),
        (b"F[5,3] F[3,1] a.p", 4, 1),
        (b"F[3,5] F[3,1] a.p", 4, 8),
        (b"!" * 200 + b"F[5,3] a.p", 4, 201),
        (b"F[5,3] a.p a.p", 6, 11),
        (b"F[5,3] a.p &", 2, 12),
        (b"c.p & F[5,3] a.p", 4, 7),
        (b"a.req | b.ack & c.p U d.p", 8, 16),
    ]
    for formula, fault, byte in table:
        line = b"refused formula %d at byte %d\n" % (fault, byte)
        yield replay(f"formula fault {fault} at {byte}", formula, REQUEST, b"10\n15\n", 65, line)


def log_faults():
    """Logs with a fault, each for both commands that take a log alone."""
    start = ("host,a,2,1",)
    hosts = tuple(f"host,h{place},0,0" for place in range(65))
    notes = tuple(f"note,a,{place},n" for place in range(1025))
    table = [
        (b"", b"refused log 1 at record 1\n"),
        (HEADER, b"refused log 11\n"),
        (b"kind,host,time\nhost,a,2,1\n", b"refused log 1 at record 1\n"),
        (log_of(*start, "set,a,10"), b"refused log 2 at record 3\n"),
        (log_of(*start, "put,a,10,p"), b"refused log 3 at record 3\n"),
        (log_of(*start, "host,true,0,0"), b"refused log 4 at record 3\n"),
        (log_of(*start, "host,false,0,0"), b"refused log 4 at record 3\n"),
        (log_of(*start, "host,inf,0,0"), b"refused log 4 at record 3\n"),
        (log_of(*start, "host,a,0,0"), b"refused log 5 at record 3\n"),
        (log_of(*start, "set,c,10,p"), b"refused log 6 at record 3\n"),
        (log_of(*start, "set,a,010,p"), b"refused log 7 at record 3\n"),
        (log_of(*start, "set,a,-0,p"), b"refused log 7 at record 3\n"),
        (log_of(*start, "set,a,4000000000000000001,p"), b"refused log 7 at record 3\n"),
        (log_of(*start, "set,a,10,P"), b"refused log 8 at record 3\n"),
        (log_of(*start, "send,a,1,m", "send,a,2,m"), b"refused log 9 at record 4\n"),
        (log_of(*start, "recv,a,1,m"), b"refused log 10 at record 3\n"),
        (log_of(*hosts), b"refused log 12 at record 66\n"),
        (log_of("host,a,0,1", *notes), b"refused log 13 at record 1027\n"),
        # Of several faults of one record the first in order counts.
        (log_of(*start, "put,c,010"), b"refused log 2 at record 3\n"),
        (log_of(*start, "put,c,010,P"), b"refused log 3 at record 3\n"),
        (log_of(*start, "host,A,x,x"), b"refused log 4 at record 3\n"),
        (log_of(*start, "host,a,x,x"), b"refused log 5 at record 3\n"),
        (log_of(*start, "host,b,0,-1"), b"refused log 7 at record 3\n"),
        (log_of(*start, "set,c,010,P"), b"refused log 6 at record 3\n"),
        (log_of(*start, "set,a,010,P"), b"refused log 7 at record 3\n"),
        (log_of(*start, "send,a,1,m", "send,a,x,m"), b"refused log 7 at record 4\n"),
        (log_of(*hosts[:64], "host,A,x,x"), b"refused log 4 at record 66\n"),
        (log_of(*hosts[:64], "host,h7,x,x"), b"refused log 5 at record 66\n"),
        (log_of(*hosts[:64], "host,h64,x,x"), b"refused log 12 at record 66\n"),
        (log_of(*start, *notes[:1024], "note,a,x,n"), b"refused log 7 at record 1027\n"),
        (log_of(*start, *notes[:1024], "note,a,1,N"), b"refused log 8 at record 1027\n"),
        (log_of(*start, "send,a,1,m", *notes[:1023], "send,a,1,m"), b"refused log 9 at record 1027\n"),
        # A record that is faulty counts before a message that is never sent.
        (log_of(*start, "recv,a,1,m", "set,a,10,P"), b"refused log 8 at record 4\n"),
        (log_of(*start, "note,a,1,n", "recv,a,1,k", "recv,a,1,m"), b"refused log 10 at record 4\n"),
        (log_of("host,a,1000000000000000001,0"), b"refused log 7 at record 2\n"),
        (log_of("host,a,0,1000000000000000001"), b"refused log 7 at record 2\n"),
        (log_of(*start, "set,a,-4000000000000000001,p"), b"refused log 7 at record 3\n"),
    ]
    for log, line in table:
        title = line.decode().strip()
        for command in ("times", "order"):
            yield Case(title, [command, "l"], {"l": log}, 66, (line,))
        yield replay(title, b"true", log, b"10\n", 66, line)


def times_faults():
    """Times files with a fault beside the log of a request and its answer."""
    table = [
        (b"10\n", 2, 2),
        (b"10\nx\n", 1, 2),
        (b"10\n15\n16\n", 2, 3),
        (b"", 2, 1),
        (b"\n10\n15\n", 1, 1),
        (b"10\n15\n\n", 2, 3),
        (b"10\n15\r", 1, 2),
        (b"10\n-0\n", 1, 2),
        (b"10\n10000000000000000001\n", 1, 2),
    ]
    for times, fault, line in table:
        output = b"refused times %d at line %d\n" % (fault, line)
        yield replay(f"times fault {fault} at {line}", b"a.req", REQUEST, times, 68, output)


def timings():
    """Logs for times, with one timing or with steps that shut all out."""
    unended = NO_SKEW[:-1]
    steps = turns("inconsistent 3", "high 1", "low 0", "rise 1")
    crossed = turns("inconsistent 3", "high 1", "low 0", "message 1")
    quoted = log_of("host,a,0,0", '"set",a,-4000000000000000000,p')
    far = log_of("host,a,0,1000000000000000000", "host,b,1000000000000000000,0",
                 "set,a,-4000000000000000000,p", "set,a,4000000000000000000,p")
    return [
        Case("from the input", ["times", "-"], {"-": NO_SKEW}, 0, (b"10\n15\n",)),
        Case("no last newline", ["times", "-"], {"-": unended}, 0, (b"10\n15\n",)),
        Case("no words", [], {"-": NO_SKEW}, 0, (b"10\n15\n",)),
        Case("from a file", ["times", "l"], {"l": NO_SKEW}, 0, (b"10\n15\n",)),
        Case("a gap that doesn't fit", ["times", "l"], {"l": TOO_NARROW}, 3, steps),
        Case("a receive that is too early", ["times", "l"], {"l": EARLY_RECEIVE}, 3, crossed),
        Case("quotes", ["times", "l"], {"l": quoted}, 0, (b"-4000000000000000000\n",)),
        Case("greatest numbers", ["times", "l"], {"l": far}, 0,
             (b"-4000000000000000000\n4000000000000000000\n",)),
    ]


def spellings():
    """Logs with quotes, blank lines and other line ends; each answer is that of times."""
    fine = (0, b"10\n")
    header_fault = (66, b"refused log 1 at record 1\n")
    width_fault = (66, b"refused log 2 at record 3\n")
    name_fault = (66, b"refused log 8 at record 3\n")
    second_name = b"host,a,0,0\nset,a,10,"
    table = [
        ("all in quotes",
         b'"kind","host","time","name"\n"host","a","0","0"\n"set","a","10","p"\n', fine),
        ("carriage returns and newlines", ONE_SET.replace(b"\n", b"\r\n"), fine),
        ("carriage returns", ONE_SET.replace(b"\n", b"\r"), fine),
        ("blank lines", b"\n\r\n" + ONE_SET.replace(b"\n", b"\n\n\r\r\n"), fine),
        ("blank lines are no records", HEADER + b"\n\n" + second_name + b"P\n", name_fault),
        ("a byte order mark", b"\xef\xbb\xbf" + ONE_SET, fine),
        ("two byte order marks", b"\xef\xbb\xbf" * 2 + ONE_SET, header_fault),
        ("a byte order mark alone", b"\xef\xbb\xbf", header_fault),
        ("a blank before a field", HEADER + second_name + b" p\n", name_fault),
        ("a comma in quotes", HEADER + second_name + b'"p,q"\n', name_fault),
        ("a newline in quotes", HEADER + second_name + b'"p\nq"\n', name_fault),
        ("two quotes for one", HEADER + second_name + b'"p"",q"\n', name_fault),
        ("a quote in a plain field", HEADER + second_name + b'p"q\n', name_fault),
        ("more after the last quote", HEADER + second_name + b'"p"q\n', fine),
        ("quotes that aren't closed", HEADER + second_name + b'"p', fine),
        ("quotes that aren't closed on the line", HEADER + second_name + b'"p\n', name_fault),
        ("empty quotes are a record", HEADER + b"host,a,0,0\n" + b'""\n', width_fault),
        ("a comma at the end", ONE_SET[:-1] + b",", width_fault),
        ("a zero byte", ONE_SET[:-1] + b"\0\n", name_fault),
    ]
    for title, log, (status, output) in table:
        yield Case(title, ["times", "l"], {"l": log}, status, (output,))


def orders():
    """Logs for order, with clocks or with a cycle."""
    clocks = b"0: 1 0\n1: 2 0\n2: 2 1\n3: 2 2\n"
    cycle = turns("cycle 2", "0", "1")
    quoted = log_of("host,a,2,1", '"set",a,-4000000000000000000,p')
    return [
        Case("a message between two hosts", ["order", "l"], {"l": ORDERED}, 0, (clocks,)),
        Case("received first", ["order", "l"], {"l": RECEIVED_FIRST}, 3, cycle),
        Case("quotes", ["order", "l"], {"l": quoted}, 0, (b"0: 1\n",)),
        Case("clocks without a timing", ["order", "l"], {"l": TOO_NARROW}, 0, (b"0: 1\n1: 2\n",)),
    ]


def words():
    """Lists of words, most of them no command."""
    refused = [
        ["times"], ["times", "--conflicts", "5", "l"], ["times", "l", "l"], ["times", ""],
        ["times", "-x"], ["times", "--"], ["times", "--", "l", "--"], ["look", "l"],
        ["--", "times", "l"], ["-"], [""], ["Times", "l"], ["--help"], ["--version"],
        ["order"], ["order", "--x=1", "l"],
        ["replay", "f", "l"], ["replay", "f", "l", "t", "t"], ["replay", "f", "", "t"],
        ["replay", "-f", "l", "t"], ["check", "f"], ["check", "--conflicts", "0", "f", "l"],
        ["check", "--conflicts", "1000001", "f", "l"],
        ["check", "--conflicts", "5", "--conflicts", "5", "f", "l"],
        ["demo"], ["demo", "007"], ["demo", "00"], ["demo", "-1"], ["demo", "+7"], ["demo", "7 "],
        ["demo", ""], ["demo", "0x7"], ["demo", "1e3"], ["demo", "7", "7"], ["demo", "--", "-7"],
        ["demo", "18446744073709551616"], ["demo", "184467440737095516150"],
        ["demo", "--conflicts", "5", "7"], ["demo", "--conflicts=5", "7"], ["demo", "--seed", "7"],
    ]
    files = {"l": NO_SKEW, "f": b"a.req", "t": b"10\n15\n"}
    for command in refused:
        yield Case("no command", command, files, 64, (b"refused words\n",))
    taken = [
        ["replay", "f", "l", "--", "t"],
        ["replay", "--", "f", "l", "t"],
        ["replay", "f", "l", "t", "--"],
    ]
    for command in taken:
        yield Case("two dashes end the options", command, files, 0, (b"true\n",))
    dashed = {"-x": NO_SKEW, "--": NO_SKEW, "-": NO_SKEW}
    for name in dashed:
        yield Case("a name after two dashes", ["times", "--", name], dashed, 0, (b"10\n15\n",))
    yield Case("a demo", ["demo", "7"], {}, 0, (b"demo 7\nhosts 6 rows 24\nvalues true\n",))
    yield Case("no such file", ["times", "l"], {}, 74, (b"",))
    yield Case("a folder", ["order", "."], {}, 74, (b"",))


def limits():
    """Lengths at their limits and above, and which of two faults comes first."""
    blank = b" " * 65536
    wide = b"!!" + conjunction(0, 256)
    full = {"f": b"a.req", "l": REQUEST, "t": b"10\n15\n"}
    many_blank_lines = HEADER + b"host,a,0,0\nnote,a,10,n\n"
    many_blank_lines += b"\n" * (1048576 - len(many_blank_lines))
    table = [
        ("a formula of full length", {"f": b"a.req" + blank[5:]}, 0, b"true\n"),
        ("a formula too long", {"f": b"a.req" + blank[4:]}, 67, b"refused length formula\n"),
        ("blanks too long", {"f": blank + b" "}, 67, b"refused length formula\n"),
        ("times of full length", {"t": b"10\n" + b"9" * 65533}, 68, b"refused times 1 at line 2\n"),
        ("times too long", {"t": b"10\n" + b"9" * 65534}, 67, b"refused length times\n"),
        ("a log of full length", {"f": b"true", "l": many_blank_lines, "t": b"10\n"}, 0, b"true\n"),
        ("a log too long", {"l": many_blank_lines + b"\n"}, 67, b"refused length log\n"),
        ("formula text before log length", {"f": b"a.req &", "l": many_blank_lines + b"\n"},
         65, b"refused formula 2 at byte 7\n"),
        ("formula length before log text", {"f": blank + b" ", "l": b""},
         67, b"refused length formula\n"),
        ("log text before unknown host", {"f": b"c.p", "l": b""},
         66, b"refused log 1 at record 1\n"),
        ("unknown host before nodes", {"f": wide, "l": log_of("host,b,0,0", "note,b,1,n")},
         65, b"refused formula 8 at byte %d\n" % wide.index(b"a")),
        ("nodes before times length", {"f": wide, "t": b"1" * 65537},
         67, b"refused nodes above 512\n"),
        ("nodes before times text", {"f": wide, "t": b"x\n"}, 67, b"refused nodes above 512\n"),
        ("times text before bounds", {"t": b"7\nx\n"}, 68, b"refused times 1 at line 2\n"),
        ("a wrong line before the count", {"t": b"x\n"}, 68, b"refused times 1 at line 1\n"),
    ]
    for title, changed, status, output in table:
        yield Case(title, ["replay", "f", "l", "t"], {**full, **changed}, status, (output,))
    for command in ("times", "order"):
        files = {"l": many_blank_lines + b"\n"}
        yield Case("a log too long", [command, "l"], files, 67, (b"refused length log\n",))
    yield from missing(full, wide)


def missing(full, wide):
    """Replays with a file that is missing, or with the input asked for twice."""
    refused = b"refused formula 2 at byte 7\n"
    table = [
        ("no formula", {"f": None, "l": b""}, "f l t", 74, b""),
        ("no log", {"l": None}, "f l t", 74, b""),
        ("no times", {"t": None}, "f l t", 74, b""),
        ("formula text before a missing log", {"f": b"a.req &", "l": None}, "f l t", 65, refused),
        ("unknown host before missing times", {"f": b"c.p", "t": None}, "f l t", 65,
         b"refused formula 8 at byte 0\n"),
        ("nodes before missing times", {"f": wide, "t": None}, "f l t", 67,
         b"refused nodes above 512\n"),
        ("formula from the input", {"-": b"a.req"}, "- l t", 0, b"true\n"),
        ("log from the input", {"-": REQUEST}, "f - t", 0, b"true\n"),
        ("times from the input", {"-": b"10\n15\n"}, "f l -", 0, b"true\n"),
        ("the input twice", {"-": b"a.req"}, "- - t", 74, b""),
        ("the input twice after a fault", {"-": b"a.req &"}, "- - t", 65, refused),
    ]
    for title, changed, names, status, output in table:
        files = {name: data for name, data in {**full, **changed}.items() if data is not None}
        yield Case(title, ["replay", *names.split()], files, status, (output,))


def fixed_cases():
    """All cases of this module."""
    groups = (
        truths, groupings, formula_faults, log_faults, times_faults,
        timings, spellings, orders, words, limits,
    )
    return [case for group in groups for case in group()]
