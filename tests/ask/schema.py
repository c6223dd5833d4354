"""The keys and types of answers in JSON by the lists of docs/asking-json.md, and what of an answer isn't so."""

import re

from common import ROOT

PAGE = ROOT / "docs" / "asking-json.md"
ITEM = re.compile(r"^- (\w+) \(((?:\"[^\"]*\"|[^,)])+)(?:, (.+?))?\)(?:: .*)?$")  # a key, its type, and when it is there
MOST_EXACT = 2**53
WORDS = {  # what the types are that stand for some words
    "unit": ("s", "ms", "us", "ns"),
    "verdict": ("true", "false", "either", "no timing", "unknown"),
}


def tables():
    """For each heading of the page its keys, each with its type and whether it is always there."""
    found, heading = {}, ""
    for line in PAGE.read_text().splitlines():
        if line.startswith("#"):
            heading = line.lstrip("# ")
        item = ITEM.match(line)
        if item:
            key, kind, there = item.groups()
            found.setdefault(heading, {})[key] = (kind, there is None)
    return found


TABLES = tables()


def table_of(words):
    """The name of the list that the answer to words has."""
    name = words.split()[0] if words else ""
    if "--formula" in words and name != "draw":
        return "--formula"
    option = next((option for option in (" --properties", " --decide") if option in words), "")
    return f"{name}{option}"


def complaint(name, value, place=""):
    """The first place at which a value isn't of the list of a name, or nothing."""
    if not isinstance(value, dict):
        return f"{place}: no object {name}"
    if name not in TABLES:
        return f"{place}: {PAGE.name} has no table {name}"
    table = TABLES[name]
    missing = [key for key, (_, is_always) in table.items() if is_always and key not in value]
    strange = [key for key in value if key not in table]
    if missing or strange:
        return f"{place} {name}: without {missing}, and with {strange}"
    found = (complaint_of_type(table[key][0], inner, f"{place}.{key}") for key, inner in value.items())
    return next((said for said in found if said), "")


def complaint_of_type(kind, value, place):
    """The first place at which a value isn't of a type, or nothing."""
    said = [complaint_of_one(one, value, place) for one in kind.split(" or ")]
    return "" if "" in said else said[0]


def complaint_of_one(kind, value, place):
    """The first place at which a value isn't of a type that isn't one of several, or nothing."""
    if kind.startswith("list of "):
        inner = enumerate(value) if isinstance(value, list) else None
    elif kind.startswith("map to "):
        inner = value.items() if isinstance(value, dict) else None
    elif kind in TABLES:
        return complaint(kind, value, place)
    else:
        return "" if is_simple(kind, value) else f"{place}: {value!r} is no {kind}"
    if inner is None:
        return f"{place}: {value!r} is no {kind}"
    rest = kind.split(" ", 2)[2]
    return next((said for key, one in inner if (said := complaint_of_type(rest, one, f"{place}.{key}"))), "")


def is_simple(kind, value):
    """Whether a value is of a type without parts."""
    if kind == "integer":
        return is_integer(value)
    if kind in WORDS:
        return value in WORDS[kind]
    if kind.startswith('"'):
        return value == kind.strip('"')
    known = {"text": lambda: isinstance(value, str), "flag": lambda: isinstance(value, bool), "null": lambda: value is None}
    return known[kind]()


def is_integer(value):
    """Whether a value is a whole number as the page says: a number up to 2^53, and a string of digits above."""
    if isinstance(value, bool):
        return False
    if isinstance(value, int):
        return abs(value) <= MOST_EXACT
    return isinstance(value, str) and bool(re.fullmatch(r"-?[1-9][0-9]*", value)) and abs(int(value)) > MOST_EXACT
