"""A formula of the program that was written in other words, with the places of its parts in these."""

from __future__ import annotations

from bisect import bisect_right
from itertools import accumulate
from typing import List, NamedTuple, Sequence, Tuple

from ask.texts import Source


class Piece(NamedTuple):
    """A part of a formula, and the character of the text as it was written for which it stands."""

    text: str
    start: int


class Written(Source):
    """A formula of the program that stands for another text; it is named by its own text, with which runs are told."""

    source: Source  # as it was written
    pieces: Sequence[Piece]
    ends: Sequence[int]  # of the pieces, in bytes


class Part(Source):
    """A formula that stands in a file, from a byte of it on."""

    whole: Source
    start: int


def part_of(whole: Source, start: int, data: bytes) -> Part:
    """The formula that some bytes of a file are."""
    found = Part(whole.name, data)
    found.whole, found.start = whole, start
    return found


def written(source: Source, pieces: Sequence[Piece]) -> Written:
    """The formula of these pieces."""
    text = text_of_pieces(pieces)
    made = Written(f"'{' '.join(text.split())}'", text.encode("utf-8", "surrogateescape"))
    made.source, made.pieces = source, pieces
    made.ends = list(accumulate(bytes_of(piece.text) for piece in pieces))
    return made


def bytes_of(text: str) -> int:
    """How many bytes a text has, of which some may be none of a letter."""
    return len(text.encode("utf-8", "surrogateescape"))


def text_of_pieces(pieces: Sequence[Piece]) -> str:
    """The text of pieces."""
    return "".join(piece.text for piece in pieces)


def as_written(formula: Source) -> Source:
    """A formula as it was written."""
    return formula.source if isinstance(formula, Written) else formula


def place_written(formula: Source, offset: int) -> Tuple[Source, int]:
    """The text that was written, and the byte of it for which the byte of a formula at an offset stands."""
    if isinstance(formula, Written):
        return place_written(formula.source, offset_written(formula, offset))
    return (formula.whole, formula.start + offset) if isinstance(formula, Part) else (formula, offset)


def offset_written(formula: Written, offset: int) -> int:
    """The byte of the text that was written for which the byte of a formula at an offset stands."""
    source = formula.source
    if offset >= len(formula.data):
        return len(source.data)
    number = bisect_right(formula.ends, offset)
    piece = formula.pieces[number]
    text = source.data.decode("utf-8", "surrogateescape")
    within = offset - (formula.ends[number - 1] if number else 0)
    start = bytes_of(text[: piece.start])
    return start + within if text.startswith(piece.text, piece.start) else start


def with_number_in(formula: Source, number: int) -> Source:
    """A formula with a number in place of each `?`."""
    if isinstance(formula, Written):
        return written(formula.source, [part for piece in formula.pieces for part in numbered(piece, number)])
    text = " ".join(formula.data.decode("utf-8", "replace").replace("?", str(number)).split())
    return Source(formula.name, text.encode())


def numbered(piece: Piece, number: int) -> List[Piece]:
    """The pieces of one with a number in place of each `?`."""
    found, start = [], piece.start
    for place, part in enumerate(piece.text.split("?")):
        if place:
            found.append(Piece(str(number), start - 1))
        found.append(Piece(part, start))
        start += len(part) + 1
    return [part for part in found if part.text]
