"""Compares the built program with the reading of logs in JSON.

Run as: python3 compare_json.py PROGRAM [--cases N] [--seed S] [--second SHARE] [--third SHARE]

The program is given fixed files, and logs made by chance as JSON, many of them
with one change: of a value in it, of a key, or of the text. What it writes is
compared with json_logs.py, and what `check` writes of that text with what it
writes of the log's file. The first difference is printed, and the end is 1.
"""

import copy
import json
import os
import random
import subprocess
import sys
import tempfile
from collections import Counter
from pathlib import Path
from typing import NamedTuple

sys.dont_write_bytecode = True  # leaves no compiled files beside the sources

import generate
import generate_logs
import json_logs
import logs
import program as answers
from generate_logs import chance
from tables import PATIENCE, end_if_rare, read_log_arguments

SHARE_BROKEN = 0.6
SHARE_CHECKED = 0.2  # of the logs that are right
# Of the files made by chance, at least.
SHARES = {"the log": 0.03, "another log": 0.005, "no log": 0.007, "no JSON": 0.04, "a check": 0.007}


class Case(NamedTuple):
    title: str
    data: bytes  # of the JSON file
    log: logs.Log = None  # the log that it is, where nothing was changed


# Logs as JSON


def host_value(host):
    """A host as an object."""
    value = {"name": host.name.decode(), "skew": host.skew, "gap": host.gap}
    if logs.has_latency(host):
        value["latency"] = [host.least, host.most]
    return value


def event_value(record):
    """The record of an event as an object."""
    kind, *fields = record
    value = {"kind": kind.decode()}
    for key, field in zip(json_logs.EVENTS.get(kind, json_logs.ROW), fields):
        value[key] = field.decode() if key in json_logs.TEXTS else int(field)
    return value


def value_of(draw, log):
    """A log as an object; the bounds between rows stand behind the rows, or anywhere."""
    records = list(logs.event_records(log))
    if chance(draw, 0.5):
        records = generate_logs.with_bounds_anywhere(draw, records)
    return {"hosts": list(map(host_value, log.hosts)), "events": list(map(event_value, records))}


def spelled(draw, value):
    """A value as bytes, with blanks or without."""
    layout = draw.choice(({}, {"indent": 1}, {"separators": (",", ":")}, {"ensure_ascii": False}))
    return json.dumps(value, **layout).encode()


# Changes

ODD_NUMBERS = [0, -1, 1, 10**18, 10**18 + 1, 4 * 10**18, -4 * 10**18 - 1, 2**63 - 1, 2**63, 2**64 - 1, 2**64, -(2**63),
               -(2**63) - 1, 10**400, 1.0, 1.5, 1e3, -0.0]
ODD_TEXTS = ["", "a", "b", "p", "host", "latency", "resync", "clock", "bound", "set", "pulse", "Set", "inf", "true",
             "h" * 33, "\u00e9", "a,b", 'a"', "a\nb", "\0", "zz", "m0"]
ODD_VALUES = [*ODD_NUMBERS, *ODD_TEXTS, None, True, False, [], {}, [1], [1, 2], [1, None], [None, 1], [0, None], [1, 2, 3],
              ["1", None], {"name": "a"}]


ODD_KEYS = ("zone", "latency", "name", "time", "skew", "clock", "error", "most", "")


def containers_in(value):
    """The arrays and objects in a value, itself among them."""
    if isinstance(value, (list, dict)):
        yield value
        for part in value.values() if isinstance(value, dict) else value:
            yield from containers_in(part)


def change_value(draw, value):
    """Puts something else at one place of an array or object, takes it out, or adds something."""
    container = draw.choice([part for part in containers_in(value) if part])
    places = list(container) if isinstance(container, dict) else range(len(container))
    place = draw.choice(list(places))
    how = draw.randrange(4)
    if how == 0:
        del container[place]
    elif how == 1 and isinstance(container, dict):
        container[draw.choice(ODD_KEYS)] = draw.choice(ODD_VALUES)
    elif how == 1:
        container.insert(place, copy.deepcopy(draw.choice([container[place], draw.choice(ODD_VALUES)])))
    else:
        container[place] = draw.choice(ODD_VALUES)


ODD_BYTES = [b"", b" ", b"\t", b"\x00", b"\x1f", b"\xff", b"\xc3", b"\xc3\xa9", b"\xef\xbb\xbf", b",", b":", b"{", b"}", b"[",
             b"]", b'"', b"\\", b"\\u0061", b"\\ud800", b"\\ud83d\\ude00", b"\\/", b"\\x", b"0", b"-", b"-0", b".5", b"e1",
             b"1E400", b"null", b"NaN", b"Infinity", b"//", b"'", b"\x0b", b"\xe2\x80\xa8"]


def change_text(draw, data):
    """Puts other bytes for some bytes of a text."""
    place = draw.randint(0, len(data))
    end = min(len(data), place + draw.choice((0, 0, 1, 1, 2, 5)))
    return data[:place] + draw.choice(ODD_BYTES) + data[end:]


KEYS = ("hosts", "events", "name", "skew", "gap", "kind", "time", "host", "latency", "clock", "error", "later", "earlier",
        "most")


def repeat_key(draw, data):
    """Has a member of some object stand again before it, with a value of its own."""
    places = [place for place in range(len(data)) if data[place : place + 1] == b"{"]
    place = draw.choice(places) + 1
    key = draw.choice(KEYS)
    again = json.dumps({key: draw.choice(ODD_VALUES)}).encode()[1:-1]
    return data[:place] + again + b"," + data[place:]


def broken(draw, log):
    """A log as JSON after one change."""
    value = value_of(draw, log)
    how = draw.randrange(10)
    if how < 5:
        change_value(draw, value)
        return spelled(draw, value)
    data = spelled(draw, value)
    return repeat_key(draw, data) if how < 7 else change_text(draw, data)


# Cases

ONE = b'{"hosts":[{"name":"a","skew":%s,"gap":0}],"events":[{"kind":"note","host":"a","time":1,"name":"%s"}]}'


def fixed_cases():
    """Files by hand, each a thing of its own."""
    for number in (b"0", b"-0", b"1.0", b"1e0", b"01", b"+1", b"18446744073709551615", b"18446744073709551616", b"9" * 400,
                   b"1e999", b"null", b'"0"', b"true"):
        yield Case("a number", ONE % (number, b"n"))
    for name in (b"\\u006e", b"\\n", b"\\ud83d\\ude00", b"\\ud83d", b"\\ude00", b"\\", b"\xff", b"\xc3\xa9", b"\x7f", b"\x01"):
        yield Case("a name", ONE % (b"0", name))
    right = ONE % (b"0", b"n")
    for before, after in ((b"\xef\xbb\xbf", b""), (b" \t\r\n", b" \n"), (b"", b"x"), (b"", b"{}"), (b"\x0c", b""), (b"", b"\x00")):
        yield Case("around it", before + right + after)
    for levels in (125, 126, 127, 128, 129, 900):
        yield Case("levels", b"[" * levels + b"]" * levels)
        yield Case("levels of a member", right.replace(b'"n"', b"[" * (levels - 3) + b"]" * (levels - 3)))
        yield Case("levels that another value hides", b'{"hosts":' + b"[" * levels + b"]" * levels + b"," + right[1:])
    yield from fixed_third() if generate_logs.third_share else ()
    for data in (b"", b"{", b"[]", b"{}", b"null", b"1", b'"a"', b'{"hosts":[],"events":[]}', b'{"hosts":[],"events":[],"more":0}',
                 b'{"hosts":[]}', b'{"hosts":{},"events":[]}', b'{"hosts":[[]],"events":[]}', b'{"Hosts":[],"events":[]}'):
        yield Case("a whole file", data)


CLOCK = b'{"kind":"clock","host":"a","error":1,"clock":"m"}'
BOUND = b'{"kind":"bound","later":0,"earlier":1,"most":5}'


def fixed_third():
    """Files by hand with clocks and bounds between rows."""
    row = b'{"kind":"note","host":"a","time":1,"name":"n"}'
    whole = b'{"hosts":[{"name":"a","skew":9,"gap":0}],"events":[%s]}'
    for title, entries in (
        ("a clock", [CLOCK, row]), ("a clock behind the rows", [row, CLOCK]), ("a bound", [BOUND, row, row]),
        ("a bound behind the rows", [row, row, BOUND]), ("a bound between the rows", [row, BOUND, CLOCK, row]),
        ("a bound without its row", [row, BOUND]), ("a clock and no row", [CLOCK]), ("a bound and no row", [BOUND]),
        ("entries are no rows", [CLOCK, row, BOUND.replace(b"1", b"2"), row]),
    ):
        yield Case(title, whole % b",".join(entries))
    for before, after in (
        (b'"m"', b"1"), (b'"m"', b"null"), (b'"m"', b'"M"'), (b'"m"', b'""'), (b'"a"', b'"b"'), (b'"a"', b"1"), (b"1", b"-1"),
        (b"1", b'"1"'), (b"1", b"1.0"), (b"1", b"null"), (b"1", b"1000000000000000001"), (b'"clock":', b'"name":'),
        (b'"error":', b'"time":'), (b'"kind":"clock"', b'"kind":"note"'), (b'"kind":"clock"', b'"kind":"bound"'),
        (b'"kind":"clock"', b'"kind":"host"'), (b"}", b',"time":1}'), (b"}", b',"skew":1}'),
    ):
        yield Case("an odd clock", whole % b",".join([CLOCK.replace(before, after), row]))
    for before, after in (
        (b"5", b"-5"), (b"5", b"-0"), (b"5", b"5.0"), (b"5", b"5e0"), (b"5", b'"5"'), (b"5", b"null"), (b"5", b"9223372036854775808"),
        (b"5", b"18446744073709551615"), (b"5", b"18446744073709551616"), (b"5", b"-9223372036854775808"),
        (b"5", b"-9223372036854775809"), (b"5", b"100000000000000000000"), (b"1", b"0"), (b"1", b"2"), (b"1", b"-1"),
        (b"1", b"4294967295"), (b"1", b"4294967296"), (b"1", b'"1"'), (b"0", b"1"), (b"0", b"1.0"), (b'"later"', b'"Later"'),
        (b'"most":5', b'"least":5'), (b',"most":5', b""), (b"}", b',"host":"a"}'), (b'"kind":"bound"', b'"kind":"clock"'),
        (b'"kind":"bound"', b'"kind":"resync"'), (b'"kind":"bound"', b'"kind":"note"'),
    ):
        yield Case("an odd bound", whole % b",".join([row, row, BOUND.replace(before, after)]))
    for kind in (b"clock", b"bound", b"resync", b"latency"):
        yield Case("a row of another kind", whole % row.replace(b"note", kind))


def random_case(seed, number):
    """A log made by chance as JSON, and mostly one change of it."""
    draw = random.Random(f"{seed} {number}")
    log = generate_logs.crowded_log(draw) if chance(draw, 0.01) else generate_logs.some_log(draw)
    title = f"case {number} of seed {seed}"
    if chance(draw, SHARE_BROKEN):
        return Case(title, broken(draw, log))
    return Case(title, spelled(draw, value_of(draw, log)), log)


# Comparisons


def outcome(program, words, files):
    """The status of the program on files in a folder, and what it writes."""
    with tempfile.TemporaryDirectory() as folder:
        for name, data in files.items():
            Path(folder, name).write_bytes(data)
        done = subprocess.run([program, *words], cwd=folder, stdin=subprocess.DEVNULL, capture_output=True, timeout=PATIENCE)
    return answers.Exact(done.returncode, done.stdout)


def complaint(program, case):
    """What is wrong with what the program does with a file, or None."""
    due = answers.answer(["json", "j"], {"j": case.data})
    found = outcome(program, ["json", "j"], {"j": case.data})
    if found != due:
        return f"{due} is expected, and {found} came"
    if case.log is not None and found.status == 0 and found.output != logs.log_text(case.log):
        return f"another log came: {found.output!r}"
    return None


def checks_differ(program, seed, case, text):
    """Whether check writes something else of a text than of the log's file."""
    draw = random.Random(f"{seed} {case.title}")
    formula, by_hand = generate.formula_file(draw, case.log), generate_logs.log_text(draw, logs.records_of(case.log))
    words = ["check", "--conflicts", "50", "f", "l"]
    return outcome(program, words, {"f": formula, "l": text}) != outcome(program, words, {"f": formula, "l": by_hand})


def read_of(case):
    """What a file is by the reference: the log that it was made of, another one, or none."""
    found = json_logs.read_json(case.data)
    if isinstance(found, logs.Log):
        return "another log" if case.log is None else "the log"
    return "no JSON" if isinstance(found, json_logs.JsonFault) else "no log"


def compare_all(program, seed, cases):
    """How many cases came to what, the number of checks among them, or None; the first difference is printed."""
    chosen, counts = random.Random(seed), Counter()
    for case in cases:
        found, what = complaint(program, case), read_of(case)
        counts[what] += 1
        if found is None and what == "the log" and chance(chosen, SHARE_CHECKED):
            counts["a check"] += 1
            if checks_differ(program, seed, case, logs.log_text(case.log)):
                found = "check writes something else of the log's text"
        if found is not None:
            print(f"difference: {case.title}: {found}\nfile = {case.data!r}")
            return None
    return counts


def main():
    """Compares, and ends with 0 where there is no difference and with 1 where there is one."""
    arguments = read_log_arguments("compare the reading of logs in JSON", 400, "files")
    program = os.path.abspath(arguments.program)
    fixed = list(fixed_cases())
    random_cases = (random_case(arguments.seed, number) for number in range(arguments.cases))
    if compare_all(program, arguments.seed, fixed) is None:
        sys.exit(1)
    counts = compare_all(program, arguments.seed, random_cases)
    if counts is None:
        sys.exit(1)
    end_if_rare(counts, SHARES, arguments.cases)
    print(f"{len(fixed) + arguments.cases} files of JSON and {counts['a check']} checks, no difference")


if __name__ == "__main__":
    sys.path.insert(0, str(Path(__file__).resolve().parents[1]))
    import ends

    ends.run(main)
