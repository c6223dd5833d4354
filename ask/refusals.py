"""Refusals of the program in words: what is wrong, where, and what may have been meant."""

from __future__ import annotations

import re
from itertools import islice
from typing import List, Optional, Sequence

from ask.encoding import wide_words
from ask.logs import (
    BEGINS_AS_LOG, COLUMNS, FIRST_FIELDS, HEADERS, KINDS, MOST_CLOCKS, MOST_EXTRAS, MOST_ROW_NUMBER,
    Record, declared_hosts, field_start, is_log_in_json, number as number_of, records_in, rows_in,
)
from ask.program import NOT_THERE, Run
from ask.texts import LIMITS, Source, Trouble, escaped, place_of, shown_text, width_of
from ask.words import TYPED, counted, grouped, listed, shortened
from ask.written import place_written


WRONG_FORMULA = 65  # the status where a text is no formula


def refusal(run: Run, formula: Optional[Source], log: Optional[Source]) -> Trouble:
    """The trouble that a refusal of the program is, in words."""
    words = run.line().split(" ")
    kind = words[1] if len(words) > 1 and words[0] == "refused" else ""
    if kind == "formula" and formula:
        return Trouble(run.status, formula_refusal(words, formula, log))
    if kind == "log" and log:
        return Trouble(run.status, log_refusal(words, log))
    if kind == "length":
        return Trouble(run.status, LIMITS[words[-1]].words if words[-1] in LIMITS else run.line())
    if kind == "nodes":
        return Trouble(
            run.status, "the formula has more than 512 different parts, which is the limit: ask for it in parts",
        )
    if kind == "times":
        too_many = "is where the times end too early or go on too long, since there is one a row"
        what = {"1": "is no whole number", "2": too_many}
        return Trouble(run.status, f"the file of times: line {words[-1]} {what.get(words[2], 'is wrong')}")
    if kind == "size":
        return Trouble(run.status, size_refusal(int(words[-1]), log))
    if kind == "event":
        return Trouble(run.status, f"the log has no row {words[-1]}, at: {run.words}")
    known = {70: "memory ran out", 74: "the program couldn't read a file", 75: "the program couldn't write"}
    if run.status in known:
        return Trouble(run.status, f"{known[run.status]}, at: {run.words}")
    said = f" and {shown_text(run.output[:80])!r}" if run.output else ""
    return Trouble(
        NOT_THERE, f"the program answered with status {run.status}{said}, which ask doesn't know, at: {run.words}",
    )


def size_refusal(size: int, log: Optional[Source]) -> str:
    """What to do where a formula and a log are too large together."""
    rows = rows_in(log.data) if log else 0
    return (
        f"the formula on a log of {counted(rows, 'row')} has the size {grouped(size)}, and the limit is 4,194,304. "
        f"Each F, G, O, H, U and S counts with the square of the rows: cut a window (ask log --help), leave out "
        f"rows that the formula and the messages don't need, or ask for the parts of the formula one by one"
    )


FORMULA_FAULTS = {
    "1": "here begins nothing of the language",
    "2": "something else is expected here",
    "3": "a number has no leading zero and is at most 10^18",
    "4": "the first number of an interval can't be above the second",
    "5": "the formula is higher than 200 levels, which is the limit",
    "6": "a whole formula ends before this, and nothing can go on here: is an operator missing?",
    "7": "the formula is empty",
}


def faulty_formula(formula: Source, offset: int, said: str) -> Trouble:
    """The trouble that something of a formula is wrong, at a byte of its text."""
    source, start = place_written(formula, offset)
    place = place_of(source.data, start)
    where = f"{source.name}, line {place.line}, column {place.column}"
    return Trouble(WRONG_FORMULA, f"{where}: {said}\n{shown_place(source.data, start)}")


def formula_refusal(words: Sequence[str], asked: Source, log: Optional[Source]) -> str:
    """What is wrong with a formula, and where; of one that was written in other words the place is one of these."""
    number = words[2]
    formula, offset = place_written(asked, int(words[-1]))
    place = place_of(formula.data, offset)
    where = f"{formula.name}, line {place.line}, column {place.column}"
    rest = formula.data[offset:]
    if number == "8":
        host = re.match(rb"[a-z0-9_]*", rest)
        hosts = declared_hosts(records_in(log.data)) if log else []
        name = host.group().decode() if host else ""
        before = formula.data[:offset][-1:].decode("ascii", "replace")
        hint = f". {before} before it is an operator; names are in small letters" if re.match("[A-Z]", before) else ""
        known = f"Its hosts: {listed(hosts) or 'none'}{hint}{file_hint(formula)}"
        return f"{where}: the log has no host {shortened(name)}. {known}"
    said = FORMULA_FAULTS.get(number, " ".join(words))
    if BEGINS_AS_LOG.match(formula.data):
        return f"{formula.name} is a log; the formula stands before the log"
    if number == "1" and re.match(rb"[a-z][a-z0-9_]{32,}", rest):
        said = "a name has at most 32 characters"
    if number == "2" and not rest.strip():
        said = "the formula ends too early"
    said += interval_hint(formula.data, offset) or spelling_hint(number, formula.data[:offset], rest)
    said += file_hint(formula)
    return f"{where}: {said}\n{shown_place(formula.data, offset)}"


def shown_place(data: bytes, offset: int) -> str:
    """What stands about a place of a text, on one line, and below it a sign that points to the place."""
    column = place_of(data, offset).column
    start = offset - len(before_on_line(data[:offset]))
    end = re.compile(rb"[\r\n]").search(data, offset)
    line = data[start : end.start() if end else len(data)].decode("utf-8", "replace").lstrip("\ufeff")
    first = max(0, column - 60)
    before, behind = (
        escaped(part.replace("\t", " ")) for part in (line[first : column - 1], line[column - 1 : first + 100])
    )
    return f"  {before}{behind}\n  {' ' * width_of(before)}^"


def before_on_line(data: bytes) -> bytes:
    """What stands on the last line of a text."""
    return data[max(data.rfind(b"\n"), data.rfind(b"\r")) + 1 :]


def file_hint(formula: Source) -> str:
    """That there is no such file, where a formula in the words looks like the name of one."""
    word = shown_text(formula.data, 1000)
    if formula.name != TYPED or re.search(r"[\s()\[\]!&|<>=]", word):
        return ""
    return f". There is no file {shortened(word)}, so this was read as a formula"


# An operator with numbers behind it, in any brackets or none, as intervals are written elsewhere.
# There are few blanks at each place, so that no text takes long.
INTERVAL = re.compile(
    rb"[FGOHUS]\s{0,9}[\[({\]]?\s{0,9}(?:<=?\s{0,9})?(?:([0-9]+|\?)\s{0,9}(?:[,;:-]|\.\.|\s)\s{0,9})?([0-9]+|inf|\?)"
    rb"\s{0,9}[\])}\[]?"
)
RIGHT_INTERVAL = re.compile(rb"[FGOHUS]\s*\[\s*([0-9]+|\?)\s*,\s*([0-9]+|inf|\?)\s*\]")


def interval_hint(data: bytes, offset: int) -> str:
    """How an interval is written, where the place of a fault is in one that is written otherwise."""
    for found in INTERVAL.finditer(data):
        if found.start() < offset < found.end() and not RIGHT_INTERVAL.fullmatch(found.group()):
            low, high = (shortened((number or b"0").decode(), 20) for number in found.groups())
            return f": an interval is [{low},{high}]"
    return ""


OTHER_SPELLINGS = {
    "?": "a ? is found by ask deadline", "=": "an implication is ->", "&": "a conjunction is one &",
    "|": "a disjunction is one |", "{": "braces are those of each{h in HOSTS: ..} and once{h in HOSTS: ..}",
}


OTHER_WORDS = {b"AND": "a conjunction is &", b"OR": "a disjunction is |", b"NOT": "a negation is !", b"IMPLIES": "an implication is ->"}
OPEN_INTERVAL = re.compile(rb"[FGOHUS]\s*\[\s*(?:[0-9]+|\?)\s*,\s*(?:[0-9]+|inf|\?)\s*\Z")


def spelling_hint(number: str, before: bytes, rest: bytes) -> str:
    """What else the words may be meant to be where they are refused."""
    sign = rest[:1].decode("ascii", "replace")
    if sign in OTHER_SPELLINGS and (number == "1" or number == "2" and before.endswith(rest[:1])):
        return f": {OTHER_SPELLINGS[sign]}"
    great = re.match(rb"[A-Z]+", rest)
    if number == "1" and great:
        begun = before[-1:] if before[-1:].isupper() else b""  # as of OR, whose O is an operator
        return f": {OTHER_WORDS.get(begun + great.group(), 'names are in small letters')}"
    if number == "2" and OPEN_INTERVAL.search(before[-100:]):
        return ": the interval has no ]"
    word = re.search(rb"(?<![a-z0-9_.])([a-z][a-z0-9_]*)\Z", before.rstrip(b" \t\r\n"))
    if number == "2" and word and word.group(1) not in (b"true", b"false"):
        name = shortened(word.group(1).decode())
        return f" after {name}: a proposition is HOST.NAME, and the operators are ! & | -> F G O H U S"
    return ""


def log_refusal(words: Sequence[str], log: Source) -> str:
    """What is wrong with a log, and where."""
    number = words[2]
    if number == "11":
        return f"{log.name} has no row: only its header and hosts"
    place = int(words[-1])
    records = records_up_to(log.data, place)
    if not records:
        return f"{log.name} is empty: the first line has to be kind,host,time,name"
    wide = wide_words(log)
    if number == "1" and wide:
        return wide
    if number == "1" and is_log_in_json(log.data):
        return log_in_json_words(log)
    record = records[-1]
    said, wrong = log_fault_words(number, record, records, log.data)
    start = field_start(log.data, record, wrong)
    column = 1 if start is None else place_of(log.data, start).column
    return f"{log.name}, line {record.line}, column {column}: {said}"


def records_up_to(data: bytes, place: int) -> List[Record]:
    """The record of a number, and before it the header and the hosts that are declared above it."""
    return [
        record for number, record in enumerate(islice(records_in(data), place), start=1)
        if number in (1, place) or record.fields[0] == "host"
    ]


def header_hint(line: str) -> str:
    """What a first line that is no header may come of."""
    if "\0" in line:
        return ". It has NUL bytes: the file has to be in UTF-8 or ASCII"
    if line.lstrip("\ufeff \t")[:1] in ("{", "["):
        return ". This is JSON: ask log makes a log of lines of JSON, an event each"
    return ". Its fields are to be separated by commas" if re.search("[;\t|]", line) else ""


def log_in_json_words(log: Source) -> str:
    """What is to be done with a log in JSON."""
    return (
        f"{log.name} is a log in JSON, which the program's command json reads: `./skewcheck json FILE` writes it as "
        f"a log that can be asked of"
    )


def is_declared(data: bytes, name: str) -> bool:
    """Whether a host is declared anywhere in a log."""
    return re.search(rb'(?:^|[\r\n])"?host"?,"?%s"?,' % re.escape(name.encode()), data) is not None


def log_fault_words(number: str, record: Record, records: Sequence[Record], data: bytes) -> "tuple[str, int]":
    """What is wrong with a record, which is the last of these, and with which of its fields."""
    fields = record.fields + [""] * 4
    version = HEADERS.get(tuple(records[0].fields), 1)
    kinds = ", ".join(KINDS[version])
    if number == "1":
        return header_words(record), 0
    if number == "2":
        return f"a record has four fields, and this one has {len(record.fields)}", 0
    if number == "3":
        if fields[0] in KINDS[version]:
            return f"the program doesn't know the kind {fields[0]}: it is {OLDER}", 0
        allowing = next((other for other in KINDS if fields[0] in KINDS[other]), None)
        hint = f". The first line {header_of(allowing)} allows it" if allowing else ""
        return f"there is no kind {shortened(fields[0])!r}. The kinds: {kinds}{hint}", 0
    if number == "4":
        return f"{shortened(fields[1])!r} is no host's name: {name_rule()}, and none is named true, false or inf", 1
    if number == "5":
        return f"the host {shortened(fields[1])} is declared twice", 1
    if number == "6":
        hosts = declared_hosts(records)
        is_later = is_declared(data, fields[1])
        later = " It is declared further down, and has to be before its first row." if is_later else ""
        known = listed(hosts) or "none"
        return f"no host {shortened(fields[1])!r} is declared before this.{later} The hosts: {known}", 1
    if number == "7":
        return number_fault_words(fields)
    if number == "8":
        return f"{shortened(fields[3])!r} is no name: {name_rule()}. `ask log` maps names", 3
    if number == "9":
        return f"the message {fields[3]} is sent twice: give each message a name of its own", 3
    if number == "10":
        return (
            f"the message {fields[3]} is received, and no row of the file sends it. Where its `send` was cut away, "
            f"make this a `note`, as `ask log` does"
        ), 3
    if number == "15":
        return f"the host {fields[1]} has a latency already", 1
    if number == "16":
        return f"the greatest latency, {shortened(fields[3])}, is below the least, {shortened(fields[2])}", 3
    if number == "12":
        count = len(declared_hosts(records_in(data)))
        return f"{counted(count, 'host')}; at most 64: leave out hosts that the formula and the messages don't need", 0
    if number == "13":
        return f"{counted(rows_in(data), 'row')}; at most 1,024: cut a window (ask log --help, docs/real-logs.md)", 0
    return fault_words_of_third(number, fields, data)


OLDER = "older than ask (./skewcheck builds one)"


def header_of(version: int) -> str:
    """The first line of a log of a version."""
    return ",".join((FIRST_FIELDS[version], *COLUMNS))


def header_words(record: Record) -> str:
    """What is wrong with a first record that the program takes for no header."""
    version = HEADERS.get(tuple(record.fields))
    if version:
        return f"the program doesn't know logs of version {version}: it is {OLDER}"
    line = ",".join(record.fields[:100])[:1000]
    first, *others, last = map(header_of, FIRST_FIELDS)
    wanted = f"{', '.join([first, *others])} or {last}"
    return f"the first line has to be {wanted}, and is {shortened(shown_text(line.encode()))}{header_hint(line)}"


def fault_words_of_third(number: str, fields: Sequence[str], data: bytes) -> "tuple[str, int]":
    """What is wrong with a record on clocks or on bounds between rows, and with which of its fields."""
    if number == "17":
        return f"{grouped(MOST_CLOCKS)} clocks are named before this one, {fields[3]}, and that is the most: cut a window", 3
    if number == "18":
        return f"both rows are row {fields[1]}: a bound is between two rows", 2
    if number == "19":
        return f"{grouped(MOST_EXTRAS)} bound records stand before this one, and that is the most: cut a window", 0
    if number == "20":
        rows = rows_in(data)
        wrong = next((place for place in (1, 2) if int(fields[place]) >= rows), 1)
        return f"the log has no row {fields[wrong]}: rows are numbered from 0 to {rows - 1}, in the order of the file", wrong
    return f"fault {number}", 0


def name_rule() -> str:
    return "a small letter, then small letters, digits and _, 32 characters at most"


def number_fault_words(fields: Sequence[str]) -> "tuple[str, int]":
    """Which number of a record is none."""
    if fields[0] == "clock":
        return f"the error {shortened(fields[2])!r} is no whole number from 0 to 10^18, without a sign or a leading zero", 2
    if fields[0] == "bound":
        return bound_number_words(fields)
    if fields[0] in ("host", "resync", "latency"):
        names = ("least latency", "greatest latency") if fields[0] == "latency" else ("skew", "gap")
        wrong = 2 if number_of(fields[2], 10**18) is None or (fields[0], fields[2]) == ("latency", "0") else 3
        ends = "1 to 10^18" if fields[0] == "latency" else "0 to 10^18"
        what = f"{names[wrong - 2]} {shortened(fields[wrong])!r}"
        return f"the {what} is no whole number from {ends}, without a sign or a leading zero", wrong
    hint = ""
    if re.search(r"\d[.T:]\d|\d-\d", fields[2]):
        hint = ". `ask log` makes whole units of decimal seconds and ISO 8601 stamps"
    return f"the stamp {shortened(fields[2])!r} is no whole number up to 4*10^18, with - where it is negative{hint}", 2


def bound_number_words(fields: Sequence[str]) -> "tuple[str, int]":
    """Which number of a bound record is none."""
    wrong = next((place for place in (1, 2) if number_of(fields[place], MOST_ROW_NUMBER) is None), None)
    if wrong:
        return f"the row {shortened(fields[wrong])!r} is no number of a row: a whole number from 0, without a leading zero", wrong
    return f"the distance {shortened(fields[3])!r} is no whole number up to 10^20, with - where it is negative", 3
