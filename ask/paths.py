"""Values within JSON files with the paths at which they stand, and what is said of those that aren't as they have to be."""

from __future__ import annotations

import json
import re
from typing import Any, Dict, Iterator, NamedTuple, Optional

from ask.events import WRONG, Several, json_text, read_json
from ask.texts import Source, Trouble, data_of
from ask.words import shortened

DIGITS = re.compile(r"[0-9]{1,20}", re.ASCII)
HEX = re.compile(r"[0-9a-fA-F]{1,32}", re.ASCII)
SPAN_DIGITS = 16  # of the id of a span, and of the shorter one of the two kinds of ids of traces
TRACE_DIGITS = 32


class Part(NamedTuple):
    """A value of a JSON file, the file with the line where that is told, and the path of the value.

    Numbers are texts with all their digits, and nothing stands for what isn't there.
    """

    value: Any
    file: str
    path: str = ""

    def where(self) -> str:
        """Where it stands, as messages name it."""
        return f"{self.file}, {self.path}" if self.path else self.file

    def wrong(self, expected: str) -> Trouble:
        """That it isn't what was expected."""
        if self.value is None:
            return Trouble(WRONG, f"{self.where()}: it isn't there, and has to be {expected}")
        return Trouble(WRONG, f"{self.where()}: it is {shown_value(self.value)}, and has to be {expected}")

    def under(self, key: str) -> "Part":
        """What stands under a key of an object."""
        if not isinstance(self.value, dict):
            raise self.wrong("a JSON object")
        found = Part(self.value.get(key), self.file, f"{self.path}.{key}" if self.path else key)
        if isinstance(found.value, Several):
            raise Trouble(WRONG, f"{found.where()}: this key has {len(found.value)} values in one object: which is meant?")
        return found

    def each(self) -> Iterator["Part"]:
        """The items of a list, none where there is no list."""
        if self.value is not None and not isinstance(self.value, list):
            raise self.wrong("a JSON list")
        for place, item in enumerate(self.value or ()):
            yield Part(item, self.file, f"{self.path}[{place}]")

    def text(self, expected: str) -> str:
        """A text that isn't empty."""
        if not isinstance(self.value, str) or not self.value.strip():
            raise self.wrong(expected)
        return self.value

    def number(self, expected: str) -> int:
        """A whole number without a sign, as a number or as a text."""
        if not isinstance(self.value, str) or not DIGITS.fullmatch(self.value):
            raise self.wrong(expected)
        return int(self.value)

    def moment(self, unit: str, nanoseconds: int) -> int:
        """A moment in nanoseconds, of a number of units since 1970 with so many nanoseconds each; 0 is none."""
        expected = f"a whole number of {unit} since 1970"
        found = self.number(expected) * nanoseconds
        if found == 0:
            raise self.wrong(expected)
        return found

    def is_there(self) -> bool:
        """Whether there is a value, and no empty text."""
        return self.value not in (None, "")


def shown_value(value: Any) -> str:
    """The beginning of a value, as messages show it."""
    try:
        return shortened(json.dumps(value, ensure_ascii=False)[:1000])
    except RecursionError:
        return f"a {'list' if isinstance(value, list) else 'JSON object'} of many levels"


def scalar_text(value: Any) -> Optional[str]:
    """The value of an attribute as a text, as it is or in JSON; None of a list, an object or nothing."""
    if value is None or isinstance(value, (list, dict)):
        return None
    return value if isinstance(value, str) else json.dumps(value)


def texts_of(part: Part) -> Dict[str, str]:
    """The values of an object that can be taken as texts."""
    if part.value is not None and not isinstance(part.value, dict):
        raise part.wrong("a JSON object")
    texts = ((key, scalar_text(part.under(key).value)) for key in part.value or {})
    return {key: text for key, text in texts if text is not None}


# Ids


def hex_id(part: Part, most: int, expected: str) -> str:
    """An id in hexadecimal digits, with zeros before it so that it has 16 or 32."""
    text = part.text(expected)
    if not HEX.fullmatch(text) or len(text) > most:
        raise part.wrong(expected)
    found = wide_id(text)
    if not found.strip("0"):
        raise part.wrong(f"{expected}, not all of them 0")
    return found


def wide_id(text: str) -> str:
    """An id in small digits: 16, or 32 where it needs more, whatever zeros were before it."""
    digits = text.lower().lstrip("0")
    return digits.rjust(SPAN_DIGITS if len(digits) <= SPAN_DIGITS else TRACE_DIGITS, "0")


# Files


def whole_file(source: Source) -> Part:
    """The value that a file is."""
    text = json_text(data_of(source))
    return Part(read_json(text, f"{source.name}: it is no JSON"), source.name)


def lines_or_whole(source: Source) -> Iterator[Part]:
    """The values of a file with one a line, or the one that it is as a whole."""
    text = json_text(data_of(source))
    lines = [(number, line) for number, line in enumerate(re.split(r"\r\n|\n|\r", text), start=1) if line.strip()]
    if len(lines) < 2 or not is_value(lines[0][1]):
        yield whole_file(source)
        return
    for number, line in lines:
        where = f"{source.name}, line {number}"
        yield Part(read_json(line, f"{where}: this is no JSON object on one line"), where)


def is_value(line: str) -> bool:
    """Whether a line is a JSON value by itself."""
    try:
        json.loads(line)
    except (ValueError, RecursionError):
        return False
    return True
