"""Files of the examples cut at every byte, and with each byte replaced.

Which line of a cut report is the first faulty one follows from the cut alone: all whole lines before it
begin a report, and the next one is missing or has no newline. What a replaced byte makes faulty is its own
line. What is to be answered to cut logs, logs in JSON, formulas and times is told by the reading of the formats in
tests/reference.
"""

from pathlib import Path

import program
from case import Case, audit, log_of
from json_texts import BOUND, CLOCK, HOST, NOTE
from json_texts import log_of as json_of
from third_limits import log_of as third_log_of

EXAMPLES = Path(__file__).resolve().parent.parent.parent / "examples"
REPORTS = (
    ("answered_within_9.report", "within_9.formula", "answered.csv"),
    ("handover.report", "lease.formula", "handover.csv"),
    ("message_both.report", "both.formula", "message.csv"),
)
# A log of version 3, and one in JSON.
READ = third_log_of(b"host,a,9,0", b"clock,a,10,m", b"set,a,10,p", b"bound,1,0,-5", b"resync,a,3,0", b"note,a,15,n")
READ_IN_JSON = json_of([HOST], [CLOCK, NOTE, NOTE, BOUND])
SIGNS = b"G[0,inf] (a.req -> !(true U[1,20] (b.ack | false)) & O (H[0,3] !a.req) S F a.req)"


def example(name):
    """The bytes of an example."""
    return (EXAMPLES / name).read_bytes()


def faulty_line(number):
    return b"refused report at line %d" % number


def of_reports():
    """Reports cut at every byte, and with each byte replaced by one that no report has."""
    for name, formula, log in REPORTS:
        text = example(name)
        for place in range(len(text)):
            line = faulty_line(text.count(b"\n", 0, place) + 1)
            yield audit(f"{name} cut at each byte", text[:place], 5, line, example(formula), example(log))
        for byte in (b"\0", b"\xff"):
            for place in range(len(text)):
                line = faulty_line(text.count(b"\n", 0, place) + 1)
                broken = text[:place] + byte + text[place + 1 :]
                title = f"{name} with {byte!r} at each byte"
                yield audit(title, broken, 5, line, example(formula), example(log))


def by_reference(kind, title, words, files):
    """A case whose answer the reference tells."""
    answer = program.answer(words, files)
    line = answer.output.partition(b"\n")[0] if answer.output else None
    return Case(kind, title, words, files, (answer.status,), line, text=answer.output)


def broken_copies(text, others=(b"\0", b"\xff", b"\r", b'"', b" ", b"0")):
    """A file cut at every byte, with each byte replaced by others, and with each byte twice; each with a title."""
    for place in range(len(text)):
        yield "cut at each byte", text[:place]
    for byte in others:
        for place in range(len(text)):
            yield f"with {byte!r} at each byte", text[:place] + byte + text[place + 1 :]
    for place in range(len(text)):
        yield "with each byte twice", text[:place] + text[place : place + 1] + text[place:]


def of_logs():
    """Broken copies of logs."""
    files = [(name, example(name)) for name in ("relay.csv", "checkout.csv", "timeout.csv")]
    for name, data in (*files, ("a log of version 3", READ)):
        for title, log in broken_copies(data):
            yield by_reference("log", f"{name} {title}", ["order", "l"], {"l": log})


def of_json():
    """Broken copies of logs in JSON."""
    files = [(name, example(name)) for name in ("answered.json", "delayed.json")]
    for name, data in (*files, ("a log of version 3 in JSON", READ_IN_JSON)):
        for title, log in broken_copies(data, (b"\0", b"\xff", b'"', b"{", b"]", b"7", b" ")):
            yield by_reference("json", f"{name} {title}", ["json", "j"], {"j": log})


def of_formulas():
    """Broken copies of a formula that has each sign."""
    log = log_of(b"host,a,2,1", b"host,b,2,1", b"set,a,10,req", b"set,b,15,ack")
    for title, formula in broken_copies(SIGNS):
        files = {"l": log, "t": b"10\n15\n", "f": formula}
        yield by_reference("formula", f"each sign, {title}", ["replay", "f", "l", "t"], files)


def of_times():
    """Broken copies of a file of times."""
    for title, given in broken_copies(example("early.times")):
        files = {"f": example("deadline.formula"), "l": example("skewed.csv"), "t": given}
        yield by_reference("times", f"early.times {title}", ["replay", "f", "l", "t"], files)


def cases():
    """All broken copies."""
    for some in (of_reports, of_logs, of_json, of_formulas, of_times):
        yield from some()
