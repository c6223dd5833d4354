"""Rows as words name them: by number, by the line of the file, or by host and name."""

from __future__ import annotations

import re

from ask.logs import Log
from ask.texts import Trouble
from ask.words import USAGE, listed, row_words, shortened

MOST_WORD = 100  # letters; a host and a name have fewer
KINDS = ("set", "clear", "pulse", "send", "recv", "note")
RULE = "a number from 0, line:N, or HOST.NAME where one row fits, as set:HOST.NAME where one of a kind does"


def row_of(log: Log, word: str) -> int:
    """The row that a word names."""
    if re.fullmatch(r"[0-9]+", word):
        return row_numbered(log, word)
    if word.startswith("line:") and len(word) <= MOST_WORD:
        return row_at_line(log, word)
    if "." in word and len(word) <= MOST_WORD:
        return row_named(log, word)
    raise Trouble(USAGE, f"{shortened(word)!r} names no row: it is {RULE}")


def row_numbered(log: Log, word: str) -> int:
    """The row of a number from 0, as the program counts them."""
    if len(word) > 9 or int(word) >= len(log.rows):
        last = f"{len(log.rows) - 1} ({row_words(log, len(log.rows) - 1)})"
        numbers = f"they are numbered from 0 to {last}. A line of the file is line:N"
        raise Trouble(USAGE, f"{shortened(word)} is no row: {numbers}")
    return int(word)


def row_at_line(log: Log, word: str) -> int:
    """The row at a line of the file."""
    lines = [row.line for row in log.rows]
    found = [event for event, line in enumerate(lines) if word[5:] == str(line)]
    if not found:
        raise Trouble(USAGE, f"{word}: no row is at that line. They are at the lines {lines[0]} to {lines[-1]}")
    return found[0]


def row_named(log: Log, word: str) -> int:
    """The one row of a host that has a name, of a kind where one stands before it."""
    kind, _, rest = word.rpartition(":")
    if kind and kind not in KINDS:
        raise Trouble(USAGE, f"{shortened(word)!r} names no row: it is {RULE}, and the kinds are {listed(KINDS)}")
    host, _, name = rest.partition(".")
    number = log.host_numbered(host)
    if number is None:
        raise Trouble(USAGE, f"{word}: the log has no host {host!r}. Its hosts: {listed([h.name for h in log.hosts])}")
    names = list(dict.fromkeys(row.name for row in log.rows if row.host == number))
    found = [
        event for event, row in enumerate(log.rows)
        if row.host == number and row.name == name and kind in ("", row.kind)
    ]
    if not found:
        what = f"{kind} row" if kind else "row"
        raise Trouble(USAGE, f"{word}: no {what} of {host} is named {name!r}. Its names: {listed(names) or 'none'}")
    if len(found) > 1:
        fitting = listed([f"line:{log.rows[event].line} ({log.rows[event].kind})" for event in found])
        raise Trouble(USAGE, f"{word}: {len(found)} rows fit. Say which: {fitting}")
    return found[0]
