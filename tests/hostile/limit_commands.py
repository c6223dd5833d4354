"""The commands that limits.py runs under limits, with their files."""

from typing import NamedTuple

from case import TWO_ROWS
from json_limits import LEVELS
from json_texts import NOTE, RESYNC, RIGHT, array_of, nested
from report_limits import report_of

LEAST_STACK = 96  # KiB of stack, at which an answer has to be right
NESTED_STACK = 192  # KiB, the same where JSON nests deep
HEIGHT = 200  # the greatest of a formula
SHORT_LINES = 20_000
DEEP = 1_000_000  # arrays in one another
SMALL_OBJECTS = 1_500
SMALL_ROWS = 500


class Command(NamedTuple):
    """Words that the program is run with, and the files that they name."""

    title: str
    words: list
    files: dict
    least_stack: int = LEAST_STACK  # KiB


def chain(sign):
    """A formula of the greatest height: 199 signs one inside the other."""
    return sign * (HEIGHT - 1) + b"a.req"


def left_chain(sign):
    """The same of a sign with two sides, the left one growing."""
    formula = b"a.req"
    for _ in range(HEIGHT - 1):
        formula = b"(" + formula + sign + b"b.ack)"
    return formula


FORMULAS = {"!": chain(b"!"), "F": chain(b"F "), "G": chain(b"G "), "U": left_chain(b" U "), "->": left_chain(b" -> ")}


def commands(with_report):
    """The commands on files of two rows and formulas of the greatest height; reports are those of `check`."""
    for sign, formula in FORMULAS.items():
        files = {"f": formula, "l": TWO_ROWS, "t": b"10\n15\n"}
        search = ["check", "--conflicts", "50", "f", "l"]
        yield Command(f"check, height 200 of {sign}", search, files)
        yield Command(f"replay, height 200 of {sign}", ["replay", "f", "l", "t"], files)
        files["r"] = with_report(search, files)
        yield Command(f"audit, height 200 of {sign}", ["audit", "f", "l", "r"], files)
        yield Command(f"trim, height 200 of {sign}", ["trim", "r"], files)
        for asked in (["tolerance", "true", "5"], ["span", "false", "0", "1"]):
            yield Command(f"{asked[0]}, height 200 of {sign}", [*asked, "--conflicts", "50", "f", "l"], files)
    yield Command("order", ["order", "l"], {"l": TWO_ROWS})
    yield Command("times", ["times", "l"], {"l": TWO_ROWS})
    yield Command("demo", ["demo", "7"], {})
    yield Command("json", ["json", "j"], {"j": RIGHT})
    for title, data in nested_files():
        yield Command(f"json of {title}", ["json", "j"], {"j": data}, NESTED_STACK)


def nested_files():
    """Files of JSON whose arrays and objects nest as deep as they may, and deeper."""
    arrays, objects = (b"[", b"]"), (b'{"a":', b"}")
    yield f"arrays {LEVELS} deep", nested(*arrays, LEVELS)
    yield f"objects {LEVELS} deep", nested(*objects, LEVELS, b"1")
    yield f"both in turn {LEVELS} deep", nested(b'[{"a":', b"}]", LEVELS // 2, b"[1]")
    yield f"a log that hides arrays {LEVELS} deep", b'{"hosts":' + nested(*arrays, LEVELS - 1) + b"," + RIGHT[1:]
    yield f"arrays {DEEP:,} deep", nested(*arrays, DEEP)
    yield f"arrays {DEEP:,} deep, not closed", b"[" * DEEP
    yield f"objects {DEEP // 10:,} deep", nested(*objects, DEEP // 10, b"1")


def filled_memory():
    """Commands on files that fill the memory before they are all read, or before the formula is taken up."""
    report = report_of(*[b"learn 0 0"] * SHORT_LINES, events=b"2", time=b"10\n15")
    files = {"f": chain(b"F "), "l": TWO_ROWS, "r": report}
    yield Command(f"audit of {SHORT_LINES} short lines, height 200 of F", ["audit", "f", "l", "r"], files)
    yield Command(f"trim of {SHORT_LINES} short lines", ["trim", "r"], files)
    objects = b"[" + b",".join([b'{"":0}'] * SMALL_OBJECTS) + b"]"
    yield Command(f"json of {SMALL_OBJECTS:,} objects", ["json", "j"], {"j": objects})
    pair = array_of([RESYNC, NOTE])[1:-1]
    log = RIGHT.replace(pair, b",".join([pair] * SMALL_ROWS))
    yield Command(f"json of {SMALL_ROWS} rows and as many resyncs", ["json", "j"], {"j": log})
