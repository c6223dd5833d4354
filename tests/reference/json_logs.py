"""A plain reading of logs in JSON, by Python's json.

What a text is as JSON is not quite the same for Python's json and for the
program. Python takes `NaN` and `Infinity`, numbers too large for a float, an
escape of half a pair, any depth and whole numbers of any size. The program
refuses the first four, has 127 levels, and takes a whole number that no 64
bits hold, and -0, for a float. In both the last value of a key counts.
"""

import json
import math
import sys
from typing import NamedTuple, Union

import logs

JSON_LIMIT = 4_194_304
LEVELS = 127  # of arrays and objects in one another
WHOLE_LENGTH = 20  # of the longest whole numbers of 64 bits, with their sign

SYNTAX = 1
SHAPE = 2


class JsonFault(NamedTuple):
    number: int  # SYNTAX or SHAPE


class Refused(Exception):
    """The file is no log, for this JsonFault."""


class Members(NamedTuple):
    """An object with each of its members, also those whose key comes again."""

    pairs: list


Value = Union[None, bool, int, float, str, list, Members]

sys.setrecursionlimit(20_000)


# Values


def value_of(data):
    """The value that bytes are, or None with the word that says so: a pair of whether it is one, and the value."""
    try:
        value = json.loads(
            data.decode("utf-8"), object_pairs_hook=Members, parse_int=whole_or_float, parse_float=finite,
            parse_constant=finite,
        )
    except (ValueError, RecursionError):
        return False, None
    return (False, None) if has_half_pair(value) or depth(value) > LEVELS else (True, value)


def whole_or_float(text):
    """A number without point and exponent: a whole one where 64 bits hold it, with or without a sign."""
    if len(text) <= WHOLE_LENGTH and text != "-0" and -(2**63) <= int(text) < 2**64:
        return int(text)
    return finite(text)


def finite(text):
    """The float of a text, which has to be finite."""
    number = float(text)
    if not math.isfinite(number):
        raise ValueError(text)
    return number


def parts_of(value):
    """The values right in a value, and the keys."""
    if isinstance(value, Members):
        for key, member in value.pairs:
            yield key
            yield member
    elif isinstance(value, list):
        yield from value


def has_half_pair(value):
    """Whether some string has an escape of one half of a pair."""
    if isinstance(value, str):
        return any(0xD800 <= ord(character) < 0xE000 for character in value)
    return any(map(has_half_pair, parts_of(value)))


def depth(value):
    """How deep arrays and objects nest."""
    if isinstance(value, (list, Members)):
        return 1 + max(map(depth, parts_of(value)), default=0)
    return 0


# The shape


def members_of(value, *choices):
    """The members of an object, which has exactly the keys of one of the choices."""
    if not isinstance(value, Members):
        raise Refused(SHAPE)
    members = dict(value.pairs)
    if set(members) not in map(set, choices):
        raise Refused(SHAPE)
    return members


def whole(value):
    """The number, in decimal, which has to be whole."""
    if type(value) is not int:
        raise Refused(SHAPE)
    return b"%d" % value


def text(value):
    """The bytes of a string."""
    if not isinstance(value, str):
        raise Refused(SHAPE)
    return value.encode()


def items(value):
    """The items of an array."""
    if not isinstance(value, list):
        raise Refused(SHAPE)
    return value


HOST = ("name", "skew", "gap")
ROW = ("host", "time", "name")
# The keys of entries of events that aren't rows, by their kinds: each in the order of the fields of its record.
EVENTS = {
    b"resync": ("host", "skew", "gap"),
    b"clock": ("host", "error", "clock"),
    b"bound": ("later", "earlier", "most"),
}
TEXTS = ("host", "name", "clock")  # the keys of strings; the others have whole numbers


def host_records(entry):
    """The records of an entry of hosts."""
    host = members_of(entry, HOST, (*HOST, "latency"))
    name = text(host["name"])
    yield [b"host", name, whole(host["skew"]), whole(host["gap"])]
    if "latency" in host:
        latency = items(host["latency"])
        if len(latency) != 2:
            raise Refused(SHAPE)
        least, most = latency
        yield [b"latency", name, whole(least), b"inf" if most is None else whole(most)]


def event_record(entry):
    """The record of an entry of events."""
    event = members_of(entry, *(("kind", *keys) for keys in (ROW, *EVENTS.values())))
    kind = text(event["kind"])
    keys = EVENTS.get(kind, ROW)
    if kind in (b"host", b"latency") or set(event) != {"kind", *keys}:
        raise Refused(SHAPE)
    return [kind, *(text(event[key]) if key in TEXTS else whole(event[key]) for key in keys)]


def records_of(value):
    """The records that a value stands for, with the header of version 3 where that has to be."""
    log = members_of(value, ("hosts", "events"))
    hosts = [record for entry in items(log["hosts"]) for record in host_records(entry)]
    events = list(map(event_record, items(log["events"])))
    is_third = any(event[0] in (b"clock", b"bound") for event in events)
    return [logs.THIRD_HEADER if is_third else logs.SECOND_HEADER, *hosts, *events]


# The log


def read_json(data):
    """The log that bytes are, its LogFault, or their JsonFault."""
    is_value, value = value_of(data)
    if not is_value:
        return JsonFault(SYNTAX)
    try:
        records = records_of(value)
    except Refused as refused:
        return JsonFault(*refused.args)
    return logs.log_of_records(records)
