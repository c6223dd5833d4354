"""Logs in JSON, put together from the keys and values of their objects, and the cases on them."""

from case import Case
from second_limits import HEADER
from third_limits import HEADER as THIRD_HEADER

LENGTH = 4_194_304
SYNTAX = b"refused json 1"
SHAPE = b"refused json 2"

# The objects of a log, as their keys with the texts of their values, and what is written of that log.
HOST = ((b"name", b'"a"'), (b"skew", b"2"), (b"gap", b"1"), (b"latency", b"[5,60]"))
RESYNC = ((b"kind", b'"resync"'), (b"host", b'"a"'), (b"skew", b"3"), (b"gap", b"4"))
NOTE = ((b"kind", b'"note"'), (b"host", b'"a"'), (b"time", b"10"), (b"name", b'"n"'))
TEXT = HEADER + b"host,a,2,1\nlatency,a,5,60\nresync,a,3,4\nnote,a,10,n\n"
# The same of a log of version 3, which has a clock before two rows and a bound between them.
CLOCK = ((b"kind", b'"clock"'), (b"host", b'"a"'), (b"error", b"1"), (b"clock", b'"m"'))
BOUND = ((b"kind", b'"bound"'), (b"later", b"1"), (b"earlier", b"0"), (b"most", b"5"))
THIRD_TEXT = THIRD_HEADER + (
    b"host,a,2,1\nlatency,a,5,60\nresync,a,3,4\nclock,a,1,m\nnote,a,10,n\nnote,a,10,n\nbound,1,0,5\n"
)
SECOND_EVENTS, THIRD_EVENTS = (RESYNC, NOTE), (RESYNC, CLOCK, NOTE, NOTE, BOUND)
# Each with a name and the record that it is; a host's latency is one more.
ENTRIES = (("a host", HOST, 2), ("a resync", RESYNC, 4), ("a row", NOTE, 5), ("a clock", CLOCK, 5), ("a bound", BOUND, 8))


def object_of(members):
    """The text of an object of these members."""
    return b"{" + b",".join(b'"%s":%s' % member for member in members) + b"}"


def array_of(entries):
    """The text of an array of objects."""
    return b"[" + b",".join(map(object_of, entries)) + b"]"


def log_of(hosts, events):
    """The text of a log with these hosts and events."""
    return b'{"hosts":%s,"events":%s}' % (array_of(hosts), array_of(events))


RIGHT = log_of([HOST], [RESYNC, NOTE])


def changed(members, key, value):
    """The members with another value at a key, or without the key where there is none."""
    pairs = ((own, value if own == key else text) for own, text in members)
    return tuple((own, text) for own, text in pairs if text is not None)


def with_entry(members, entry):
    """The log with an entry in place of one of its own, which is of version 3 where no other log has such an entry."""
    hosts = [entry if members is HOST else HOST]
    events = SECOND_EVENTS if members in (HOST, *SECOND_EVENTS) else THIRD_EVENTS
    return log_of(hosts, [entry if members is event else event for event in events])


def text_of(members):
    """What is written of the log that has an entry."""
    return TEXT if members in (HOST, *SECOND_EVENTS) else THIRD_TEXT


def nested(front, back, depth, inside=b""):
    """A value in so many arrays or objects, each of which begins and ends so."""
    return front * depth + inside + back * depth


def refused(title, data, line, most=None):
    """A file that `json` refuses."""
    return Case("json", title, ["json", "j"], {"j": data}, (66,), line, most=most)


def written(title, data, text, most=None):
    """A file that is a log, with the text that is written of it."""
    return Case("json", title, ["json", "j"], {"j": data}, (0,), text.partition(b"\n")[0], most=most, text=text)
