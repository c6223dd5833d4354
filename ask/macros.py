"""Formulas in more words than the program has: hosts and propositions in braces, `at most one of`, intervals with units.

They are written out as a formula of the program. A text without such words is left as it is.
"""

from __future__ import annotations

import argparse
import re
from fnmatch import fnmatchcase
from typing import Dict, List, NamedTuple, NoReturn, Optional, Sequence, Tuple

from ask.formulas import Tree, different_parts, read_formula
from ask.logs import Fault, is_name, read_log, records_in
from ask.refusals import faulty_formula, log_refusal
from ask.stamps import UNIT_WORDS, UNITS
from ask.texts import LIMITS, TOO_LONG, Source, Trouble
from ask.units import Scale, notes_name, scale_of_source
from ask.words import Answer, counted, grouped, listed, shortened
from ask.written import Piece, bytes_of, text_of_pieces, written

WRONG_LOG = 66
TOO_MANY_ROWS = 13  # the fault of a log that windows are asked of
MOST_PARTS = 512  # different ones of a formula that the program takes
MOST_IN_CHAIN = 32  # formulas that are joined without parentheses, since each makes the whole higher
MOST_WITHIN = 16  # quantifiers
SIGNS = {"each": "&", "once": "|"}
NO_VARIABLES = ("true", "false", "inf", "in", "but")
BLANKS = r"[ \t\r\n]*"
WORD = re.compile(r"[a-z][a-z0-9_]*")
DIGITS = re.compile(r"[0-9]+")
OPENING = re.compile(rf"(each|once){BLANKS}\{{")
VARIABLE = re.compile(rf"{BLANKS}([a-z][a-z0-9_]*)[ \t\r\n]+in(?![a-z0-9_])")
VARIABLES = re.compile(rf"(?<![a-z0-9_])(?:each|once){BLANKS}\{{{VARIABLE.pattern}")
AT_MOST = re.compile(r"at[ \t\r\n]+most[ \t\r\n]+one[ \t\r\n]+of(?![a-z0-9_])")
PATTERN = re.compile(rf"{BLANKS}([a-z0-9_*?]+)(?:{BLANKS}\.{BLANKS}([a-z0-9_*?]+))?{BLANKS}")
PROPOSITION = re.compile(rf"([a-z][a-z0-9_]*)({BLANKS}\.{BLANKS})([a-z][a-z0-9_]*)")
BUT = re.compile(r"but(?![a-z0-9_*?.])")
BOUND = r"([0-9]+(?:\.[0-9]+)?)(?:[ \t]{0,9}([a-z\u00b5\u03bc]+))?|inf|\?"
INTERVAL = re.compile(rf"\[{BLANKS}({BOUND}){BLANKS},{BLANKS}({BOUND}){BLANKS}\]")
MICRO = ("\u00b5s", "\u03bcs")
HAS_WORDS = re.compile(rf"[{{}}]|(?<![a-z0-9_]){AT_MOST.pattern}|\[[^\[\]]{{0,200}}[0-9][ \t]{{0,9}}[.a-z\u00b5\u03bc]")
FORM = "it is each{h in HOSTS: ..} or once{h in HOSTS: ..}, with hosts as web or n*, or propositions as app.q_*"


class Value(NamedTuple):
    """What a variable stands for: a host, or a proposition of one."""

    host: str
    name: str = ""

    def text(self) -> str:
        """It as formulas have it."""
        return f"{self.host}.{self.name}" if self.name else self.host


class Place(NamedTuple):
    """A host or a proposition of a range, or a pattern of them, with its place in the text."""

    host: str
    name: Optional[str]
    start: int

    def text(self) -> str:
        """It as it is written."""
        return self.host if self.name is None else f"{self.host}.{self.name}"


Bound = Dict[str, Value]


def stood_for(host: str, name: str, bound: Bound) -> Tuple[str, str]:
    """A host and a name with those of variables in their places: of a proposition both are to be had."""
    value, of_name = bound.get(host), bound.get(name)
    return value.host if value else host, of_name.name if of_name and of_name.name else name


def place_of_range(found: "re.Match[str]", bound: Bound) -> Place:
    """What a word of a range names, with what variables stand for in place of them."""
    host, name = found.groups()
    if name is not None:
        return Place(*stood_for(host, name, bound), found.start(1))
    value = bound.get(host)
    return Place(value.host, value.name or None, found.start(1)) if value else Place(host, None, found.start(1))


class Names:
    """The hosts of a log, and the propositions that its rows set or pulse, in their order."""

    def __init__(self, source: Source):
        fault = read_log(source.data)
        if isinstance(fault, Fault) and fault.number != TOO_MANY_ROWS:
            place = [] if fault.record is None else ["at", "record", str(fault.record)]
            raise Trouble(WRONG_LOG, log_refusal(["refused", "log", str(fault.number), *place], source))
        hosts: Dict[str, Dict[str, None]] = {}
        for record in records_in(source.data):
            kind, host, *_, name = [*record.fields, "", "", ""][:4]
            if kind == "host":
                hosts.setdefault(host, {})
            elif kind in ("set", "pulse") and is_name(name):
                hosts.setdefault(host, {})[name] = None
        self.log, self.hosts = source.name, list(hosts)
        self.propositions = [Value(host, name) for host, names in hosts.items() for name in names]

    def has_name(self, name: str) -> bool:
        """Whether a proposition has a name."""
        return any(value.name == name for value in self.propositions)


def has_words(formula: Source) -> bool:
    """Whether a formula has words that the program doesn't know, so that it depends on the log what it becomes."""
    return HAS_WORDS.search(formula.data.decode("utf-8", "replace")) is not None


def written_out(formula: Source, log: Source) -> Source:
    """A formula as the program takes it, of the hosts, the propositions and the unit that a log has."""
    if not has_words(formula):
        return formula
    text = formula.data.decode("utf-8", "surrogateescape")
    writer = Writer(formula, text, log)
    pieces = without_outer_parentheses(writer.written_out(), text)
    found = written(formula, pieces)
    if text_of_pieces(pieces) == text:
        return formula
    writer.refuse_many_parts(text_of_pieces(pieces))
    return found


def without_outer_parentheses(pieces: List[Piece], text: str) -> List[Piece]:
    """Pieces without parentheses about all of them that the text hasn't."""
    kept = trimmed(pieces)
    if len(kept) < 3 or (kept[0].text, kept[-1].text) != ("(", ")") or text.lstrip().startswith("("):
        return pieces
    tree = read_formula(text_of_pieces(kept[1:-1]))
    return kept[1:-1] if tree is not None else pieces


class Writer:
    """Writes a text out, from left to right."""

    def __init__(self, formula: Source, text: str, log: Source):
        self.formula, self.text, self.log = formula, text, log
        self.scale: Scale = scale_of_source(log)
        self.variables = {found.group(1) for found in VARIABLES.finditer(text)}
        self.named: Optional[Names] = None
        self.largest: Tuple[int, int, str] = (0, 0, "")  # the length, the place and the words of what became longest

    def names(self) -> Names:
        """The hosts and propositions of the log."""
        self.named = self.named or Names(self.log)
        return self.named

    def refuse(self, start: int, said: str) -> NoReturn:
        """Refuses the text, with a place of it."""
        raise faulty_formula(self.formula, bytes_of(self.text[:start]), said)

    def refuse_size(self, start: int, said: str) -> NoReturn:
        """Refuses what becomes too large."""
        trouble = faulty_formula(self.formula, bytes_of(self.text[:start]), said)
        raise Trouble(TOO_LONG, trouble.message)

    def refuse_many_parts(self, text: str) -> None:
        """Refuses a formula with more parts than the program takes, at what became longest of it."""
        tree = read_formula(text)
        count = different_parts(tree) if tree else 0
        _, start, words = self.largest
        if count > MOST_PARTS and words:
            self.refuse_size(start, (
                f"with {words} the formula has {grouped(count)} different parts, and the limit is 512: name fewer, or ask "
                f"for it in parts"
            ))

    def take_largest(self, pieces: Sequence[Piece], start: int, words: str) -> List[Piece]:
        """Pieces that something became, unless they are longer than a formula may be."""
        self.take_length(length_of(pieces), start, words)
        return list(pieces)

    def take_length(self, length: int, start: int, words: str) -> None:
        """The same of pieces of so many letters."""
        self.largest = max(self.largest, (length, start, words), key=lambda found: found[0])
        self.refuse_long(length)

    def refuse_long(self, length: int) -> None:
        """Refuses a text that is longer than a formula may be, at what became longest of it."""
        _, start, words = self.largest
        if length > LIMITS["formula"].most and words:
            self.refuse_size(start, f"with {words} the formula is longer than 65,536 bytes, which is the limit: name fewer")

    # The text

    def written_out(self) -> List[Piece]:
        """The pieces of the whole text."""
        return self.part(0, {}, is_whole=True)[0]

    def part(self, place: int, bound: Bound, is_whole: bool = False) -> Tuple[List[Piece], int]:
        """The pieces from a place to the end of the text, or to the closing brace, and the place of that."""
        pieces: List[Piece] = []
        length = 0
        while place < len(self.text) and (is_whole or self.text[place] != "}"):
            found, place = self.next_pieces(place, bound)
            pieces += found
            length += length_of(found)
            self.refuse_long(length)
        return pieces, place

    def next_pieces(self, place: int, bound: Bound) -> Tuple[List[Piece], int]:
        """The pieces of what stands at a place, and the place behind it."""
        opening, at_most = OPENING.match(self.text, place), AT_MOST.match(self.text, place)
        if opening:
            return self.quantified(opening, bound)
        if at_most:
            return self.at_most_one(at_most, bound)
        word = WORD.match(self.text, place)
        if word:
            return self.named_pieces(place, word.group(), bound)
        interval = INTERVAL.match(self.text, place)
        if interval:
            return self.interval(interval), interval.end()
        digits = DIGITS.match(self.text, place)
        end = digits.end() if digits else place + 1
        return [Piece(self.text[place:end], place)], end

    # Names

    def named_pieces(self, place: int, word: str, bound: Bound) -> Tuple[List[Piece], int]:
        """A proposition or a word, with what variables stand for in place of them."""
        found = PROPOSITION.match(self.text, place)
        if not found:
            return [Piece(self.alone(place, word, bound), place)], place + len(word)
        self.refuse_outside(place, found.group(1), bound)
        host, name = stood_for(found.group(1), found.group(3), bound)
        return [Piece(host, place), Piece(found.group(2), found.start(2)), Piece(name, found.start(3))], found.end()

    def alone(self, place: int, word: str, bound: Bound) -> str:
        """A word that is no part of a proposition: one of the language, or a variable that stands for a proposition."""
        self.refuse_outside(place, word, bound)
        if word in bound and not bound[word].name:
            self.refuse(place, f"{word} is a host here, and a proposition of it is {word}.NAME")
        return bound[word].text() if word in bound else word

    def refuse_outside(self, place: int, word: str, bound: Bound) -> None:
        """Refuses a variable that stands outside the braces which it is of."""
        if word in self.variables and word not in bound and word not in self.names().hosts:
            self.refuse(place, f"the variable {word} stands for nothing outside the braces of its each or once")

    # Ranges

    def quantified(self, opening: "re.Match[str]", bound: Bound) -> Tuple[List[Piece], int]:
        """What `each` or `once` becomes: its formula for each value of its variable."""
        if len(bound) >= MOST_WITHIN:
            self.refuse(opening.start(), f"at most {MOST_WITHIN} each and once stand within one another")
        variable, values, place = self.header(opening, bound)
        quantifier, start = opening.group(1), opening.start()
        words = f"{quantifier} over {counted(len(values), self.kind_of(values))}"
        parts: List[List[Piece]] = []
        length, end = 0, place
        for value in values:
            pieces, end = self.part(place, {**bound, variable: value})
            if end == len(self.text):
                self.refuse(opening.end() - 1, f"this brace of {quantifier} isn't closed")
            parts.append(enclosed(trimmed(pieces), start))
            length += length_of(parts[-1])
            self.take_length(length, start, words)
        if not parts[0]:
            self.refuse(end, f"there is no formula in the braces of this {quantifier}")
        pieces = joined(parts, SIGNS[quantifier], start)
        if len(parts) > 1:
            pieces = [Piece("(", start), *pieces, Piece(")", end)]
        return self.take_largest(pieces, start, words), end + 1

    @staticmethod
    def kind_of(values: Sequence[Value]) -> str:
        """What values are, as sentences name one."""
        return "proposition" if values[0].name else "host"

    def header(self, opening: "re.Match[str]", bound: Bound) -> Tuple[str, List[Value], int]:
        """The variable of a quantifier, its values, and the place behind the colon."""
        found = VARIABLE.match(self.text, opening.end())
        if not found:
            self.refuse(opening.start(), f"this is no quantifier: {FORM}")
        variable, start = found.group(1), found.start(1)
        wanted, place = self.patterns(found.end(), bound)
        but = BUT.match(self.text, place)
        unwanted: List[Place] = []
        if but:
            unwanted, place = self.patterns(but.end(), bound)
        if self.text[place : place + 1] != ":":
            self.refuse(place, f"a colon and a formula are expected here: {FORM}")
        kept = self.values(wanted, unwanted, bound)
        self.refuse_hiding(variable, start, bound, kept)
        return variable, kept, place + 1

    def refuse_hiding(self, variable: str, start: int, bound: Bound, values: Sequence[Value]) -> None:
        """Refuses a variable whose name is taken."""
        taken = {
            "is a word of the language": variable in NO_VARIABLES,
            "is the variable of an outer each or once": variable in bound,
            f"is a host of {self.names().log}": variable in self.names().hosts,
            f"is a proposition's name in {self.names().log}": bool(values[0].name) and self.names().has_name(variable),
        }
        why = next((why for why, is_taken in taken.items() if is_taken), None)
        if why:
            self.refuse(start, f"the variable {variable} hides what there is: {variable} {why}. Take another name for it")

    def patterns(self, place: int, bound: Bound) -> Tuple[List[Place], int]:
        """Hosts and propositions with commas between them, and the place behind them."""
        found: List[Place] = []
        while True:
            match = PATTERN.match(self.text, place)
            if not match:
                said = "a host or a proposition, or a pattern of them, is expected here"
                self.refuse(behind_blanks(self.text, place), f"{said}: {FORM}")
            self.refuse_outside(match.start(1), match.group(1), bound)
            found.append(place_of_range(match, bound))
            place = match.end()
            if self.text[place : place + 1] != ",":
                return found, place
            place += 1

    def values(self, wanted: Sequence[Place], unwanted: Sequence[Place], bound: Bound) -> List[Value]:
        """What patterns match but others don't, each once."""
        odd = next((one for one in [*wanted, *unwanted] if (one.name is None) != (wanted[0].name is None)), None)
        if odd:
            self.refuse(odd.start, "hosts and propositions don't stand in one range")
        without = {value for one in unwanted for value in self.matching(one)}
        kept = [value for one in wanted for value in self.matched(one) if value not in without]
        if not kept:
            self.refuse(wanted[0].start, f"nothing of {listed([one.text() for one in wanted])} is left in this range")
        return list(dict.fromkeys(kept))

    def matched(self, wanted: Place) -> List[Value]:
        """The same of a pattern that has to match something."""
        return self.matching(wanted) or self.refuse_empty(wanted)

    def matching(self, wanted: Place) -> List[Value]:
        """The hosts or propositions of the log that a pattern matches; a host without a pattern has to be there."""
        names = self.names()
        if not re.search(r"[*?]", wanted.host) and wanted.host not in names.hosts:
            known = listed(names.hosts) or "none"
            self.refuse(wanted.start, f"the log has no host {shortened(wanted.host)}. Its hosts: {known}")
        if wanted.name is None:
            return [Value(host) for host in names.hosts if fnmatchcase(host, wanted.host)]
        return [
            value for value in names.propositions
            if fnmatchcase(value.host, wanted.host) and fnmatchcase(value.name, wanted.name)
        ]

    def refuse_empty(self, wanted: Place) -> NoReturn:
        """Refuses a pattern that matches nothing."""
        names, shown = self.names(), shortened(wanted.text())
        if wanted.name is None:
            self.refuse(wanted.start, f"no host of {names.log} matches {shown}. Its hosts: {listed(names.hosts) or 'none'}")
        known = listed([value.text() for value in names.propositions]) or "none"
        self.refuse(wanted.start, f"no proposition that a row sets or pulses matches {shown}. There are: {known}")

    # At most one

    def at_most_one(self, found: "re.Match[str]", bound: Bound) -> Tuple[List[Piece], int]:
        """What `at most one of` becomes: each proposition isn't true beside one of those before it."""
        wanted, end = self.listed_propositions(found.end(), bound)
        places: Dict[Value, int] = {}
        for one in wanted:
            for value in self.values_of_item(one):
                places.setdefault(value, one.start)
        start, words = found.start(), f"at most one of {counted(len(places), 'proposition')}"
        items = [Piece(value.text(), place) for value, place in places.items()]
        if len(items) < 2:
            said = "says nothing: it is one proposition. Commas stand between several"
            self.refuse(start, f"at most one of {items[0].text} {said}")
        if len(items) > MOST_PARTS:
            self.refuse_size(start, f"with {words} the formula has more than 512 different parts, which is the limit: name fewer")
        parts = [
            [Piece("!(", start), *one_of(items[:count], start), Piece(" & ", start), item, Piece(")", start)]
            for count, item in enumerate(items) if count
        ]
        pieces = joined(parts, "&", start)
        if len(parts) > 1:
            pieces = [Piece("(", start), *pieces, Piece(")", start)]
        return self.take_largest(pieces, start, words), end

    def listed_propositions(self, place: int, bound: Bound) -> Tuple[List[Place], int]:
        """The propositions of a list, or patterns of them, and the place behind the last one."""
        wanted: List[Place] = []
        while True:
            match = PATTERN.match(self.text, place)
            if not match:
                self.refuse(behind_blanks(self.text, place), "a proposition HOST.NAME is expected here, or a pattern as n*.leader")
            self.refuse_outside(match.start(1), match.group(1), bound)
            wanted.append(place_of_range(match, bound))
            if wanted[-1].name is None:
                self.refuse(match.start(1), f"{match.group(1)} is no proposition HOST.NAME, nor a pattern as n*.leader")
            if self.text[match.end() : match.end() + 1] != ",":
                return wanted, match.start() + len(match.group().rstrip())
            place = match.end() + 1

    def values_of_item(self, wanted: Place) -> List[Value]:
        """The propositions of an item: itself, or what a pattern matches."""
        if not re.search(r"[*?]", wanted.text()):
            self.matching(wanted)
            return [Value(wanted.host, wanted.name or "")]
        return self.matched(wanted)

    # Units

    def interval(self, found: "re.Match[str]") -> List[Piece]:
        """An interval with its bounds in the unit of the log."""
        pieces, place = [], found.start()
        for group in (1, 4):
            number, unit = found.group(group + 1), found.group(group + 2)
            if number is not None and (unit or "." in number):
                start, end = found.span(group)
                pieces += [Piece(self.text[place:start], place), Piece(self.in_units(number, unit or "", start), start)]
                place = end
        return [*pieces, Piece(self.text[place : found.end()], place)]

    def in_units(self, number: str, suffix: str, start: int) -> str:
        """A bound in the unit of the log, or the refusal of it."""
        shown = f"{number}{suffix}"
        if not suffix:
            self.refuse(start, f"{number} is no whole number: a unit stands behind it, as in {number}s")
        unit = "us" if suffix in MICRO else suffix
        if unit not in UNITS:
            self.refuse(start, f"there is no unit {shortened(suffix)}. The units: {', '.join(UNITS)}")
        if self.scale.unit is None:
            where = f"{notes_name(self.log.name)}, which ask log -o writes, doesn't say it"
            self.refuse(start, f"{shown} in which unit of the log? {where}: --unit states it")
        whole, _, digits = number.partition(".")
        power = UNITS[self.scale.unit] - UNITS[unit] - len(digits)
        value, rest = int(whole + digits) * 10 ** max(power, 0), 0
        if power < 0:
            value, rest = divmod(value, 10**-power)
        if rest:
            self.refuse(start, f"{shown} is no whole number of {UNIT_WORDS[self.scale.unit]}, which the log is in")
        return str(value)


def length_of(pieces: Sequence[Piece]) -> int:
    """How many letters pieces have."""
    return sum(len(piece.text) for piece in pieces)


def behind_blanks(text: str, place: int) -> int:
    """The place from one on at which no blank stands."""
    return len(text) - len(text[place:].lstrip(" \t\r\n"))


def one_of(items: Sequence[Piece], start: int) -> List[Piece]:
    """That one of the propositions is true."""
    chain = joined([[item] for item in items], "|", start, most=len(items))
    return [Piece("(", start), *chain, Piece(")", start)] if len(items) > 1 else chain


def trimmed(pieces: Sequence[Piece]) -> List[Piece]:
    """Pieces without the blanks before and behind them."""
    kept = list(pieces)
    while kept and not kept[0].text.strip():
        kept.pop(0)
    while kept and not kept[-1].text.strip():
        kept.pop()
    return kept


def enclosed(pieces: List[Piece], start: int) -> List[Piece]:
    """Pieces as a part of a formula: in parentheses where they have two parts of their own, or are no formula."""
    tree = read_formula(text_of_pieces(pieces)) if pieces else None
    if not pieces or tree is not None and is_closed(tree):
        return pieces
    return [Piece("(", start), *pieces, Piece(")", start)]


def is_closed(tree: Tree) -> bool:
    """Whether the text of a tree is one part, or stands in parentheses."""
    return len(tree.parts) < 2 or tree.start < tree.parts[0].start


def joined(parts: Sequence[List[Piece]], sign: str, start: int, most: int = MOST_IN_CHAIN) -> List[Piece]:
    """Formulas with a sign between them, groups of them in parentheses where they are more than so many."""
    if len(parts) > most:
        size = -(-len(parts) // MOST_IN_CHAIN)
        groups = [joined(parts[place : place + size], sign, start) for place in range(0, len(parts), size)]
        parts = [[Piece("(", start), *group, Piece(")", start)] if size > 1 else group for group in groups]
    pieces = list(parts[0])
    for part in parts[1:]:
        pieces += [Piece(f" {sign} ", start), *part]
    return pieces


# Words


def add_formula_words(words: argparse.ArgumentParser) -> None:
    """Adds the option that has the formula told and nothing asked."""
    words.add_argument(
        "--formula", dest="formula_alone", action="store_true",
        help="write the formula that it becomes for the program, and do nothing else (docs/asking.md#formulas)",
    )


def formula_answer(formula: Source) -> Answer:
    """The answer that tells the formula that a text becomes."""
    text = shown_line(formula)
    return Answer(0, [text], {"formula": text})


def formulas_answer(formulas: Dict[str, Source], is_named: bool) -> Answer:
    """The answer that tells several of them, a line each; with their names they are a file of properties."""
    texts = {name: shown_line(formula) for name, formula in formulas.items()}
    lines = [f"{name}: {text}" if is_named else text for name, text in texts.items()]
    return Answer(0, lines, {"formulas": texts})


def shown_line(formula: Source) -> str:
    """The text of a formula on one line."""
    return " ".join(formula.data.decode("utf-8", "replace").split())
