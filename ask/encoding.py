"""Files that aren't in ASCII or UTF-8: byte order marks, UTF-16 and UTF-32."""

from __future__ import annotations

import codecs
from typing import Optional

from ask.texts import BYTE_ORDER_MARK, Source, Trouble

SAMPLE = 64  # bytes of a text without a mark that are looked at
MARKS = (  # the longer ones first, since two of them begin alike
    (codecs.BOM_UTF32_LE, "UTF-32"), (codecs.BOM_UTF32_BE, "UTF-32"),
    (codecs.BOM_UTF16_LE, "UTF-16"), (codecs.BOM_UTF16_BE, "UTF-16"),
)


def wide_encoding(data: bytes) -> Optional[str]:
    """The name of the encoding of bytes that are in UTF-16 or UTF-32, or None."""
    for mark, name in MARKS:
        if data.startswith(mark):
            return name
    sample = data[:SAMPLE]
    halves = (sample[0::2], sample[1::2])
    is_wide = any(half and not half.strip(b"\0") and b"\0" not in other for half, other in (halves, halves[::-1]))
    return "UTF-16" if is_wide else None


def wide_words(source: Source) -> Optional[str]:
    """That a file is in UTF-16 or UTF-32, where it is."""
    name = wide_encoding(source.data)
    return name and f"{source.name}, line 1, column 1: it is in {name}, and has to be in UTF-8 or ASCII"


def refuse_wide(source: Source, status: int) -> Source:
    """A file, where it isn't in UTF-16 or UTF-32."""
    words = wide_words(source)
    if words:
        raise Trouble(status, words)
    return source


def refuse_marks(source: Source, status: int) -> Source:
    """A formula, where it has no byte order mark, which the program takes for no sign of the language."""
    if source.data.startswith(BYTE_ORDER_MARK):
        raise Trouble(status, (
            f"{source.name}, line 1, column 1: it begins with a byte order mark, the bytes EF BB BF: the formula has "
            "to be saved as UTF-8 without one"
        ))
    return refuse_wide(source, status)
