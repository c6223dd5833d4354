"""Bounds between rows of a log in the making: those of its files, and by how long requests took."""

from __future__ import annotations

from typing import Dict, Iterable, Iterator, List, NamedTuple, Optional, Sequence, Tuple

from ask.events import WRONG, FileBound
from ask.limits import duration_rule, in_file
from ask.logs import MOST_EXTRA, MOST_EXTRAS, MOST_SKEW
from ask.making import Line, Making, Tie
from ask.stamps import duration_in_units
from ask.texts import Trouble
from ask.words import USAGE, counted, grouped, shortened

SIGNS = ("\u00b1", "+-")  # before the error of a duration
STEADY = "--steady-spans"


class Measured(NamedTuple):
    """The field of how long ago the request of a row began, and by how much that may be off, as the words have it.

    Of spans there is no such field, since each has its duration.
    """

    field: str
    error: str

    def words(self) -> str:
        """The option that says so."""
        return f"--duration {self.field}\u00b1{self.error}" if self.field else f"{STEADY} {self.error}"

    def name(self) -> str:
        """What has the duration."""
        return self.field or "the span"


def measured_of(text: Optional[str], of_spans: Optional[str] = None) -> Optional[Measured]:
    """What `FIELD±D` says, whose D may be left out, or the error of the durations of spans."""
    if of_spans is not None:
        return Measured("", of_spans)
    if text is None:
        return None
    sign = next((sign for sign in SIGNS if sign in text), None)
    field, _, error = text.rpartition(sign) if sign else (text, "", "0")
    if not field.strip() or not error.strip():
        raise Trouble(USAGE, f"--duration {text}: it is FIELD or FIELD±D, which may be written FIELD+-D, as request_time±1ms")
    return Measured(field.strip(), error.strip())


def error_of(measured: Measured, making: Making) -> int:
    """By how much a duration may be off, in units, rounded up."""
    error = duration_in_units(measured.error, making.unit)
    if error is None or error > MOST_SKEW:
        behind = "behind ± it" if measured.field else "the error"
        raise Trouble(USAGE, f"{measured.words()}: {behind} is {duration_rule(making.unit)}")
    return error


# Durations


def begins_of(lines: Sequence[Line]) -> Dict[int, int]:
    """For each event with a duration the one with which its request began, by their numbers.

    That is told, or it is the first event of the same id on the same host behind the request of that id before. An
    event that is the first one is its own begin, so that there is none.
    """
    found: Dict[int, int] = {}
    first: Dict[Tuple[str, str], int] = {}
    last = -1
    for line in lines:
        if line.number == last:
            continue
        last = line.number
        key = (line.host, line.id)
        begun = first.setdefault(key, line.number)
        if line.duration:
            found[line.number] = begun if line.begun is None else line.begun
            del first[key]
    return found


def ties_of_durations(making: Making, lines: Sequence[Line], measured: Measured) -> Iterator[Tie]:
    """The bounds by the durations of rows in the window, of all rows that there are."""
    error, begins = error_of(measured, making), begins_of(lines)
    if not begins:
        raise Trouble(WRONG, f"--duration {measured.field}: no event of the files has this field" if measured.field else (
            f"{STEADY}: no span of the files has an end"
        ))
    kept = {line.number for line in making.lines}
    ends = {line.number: line for line in making.lines if line.duration}
    left_out = 0
    for number, line in ends.items():
        least, most = span_of(line, making, measured)
        refuse_unknown_begin(line, begins[number], measured)
        if begins[number] in kept:
            yield Tie(number, begins[number], most + error)
            yield Tie(begins[number], number, error - least)
        else:
            left_out += 1
    if left_out:
        making.notes.append(f"{counted(left_out, 'duration')} left out, since the row of the begin is")


def span_of(line: Line, making: Making, measured: Measured) -> Tuple[int, int]:
    """The duration of a row in units, rounded down and up."""
    least, most = (in_file(line.duration, making, is_down) for is_down in (True, False))
    if least is None or most is None or most > MOST_SKEW:
        raise Trouble(WRONG, f"{line.where}: {measured.name()} is {shortened(line.duration)!r}, which is no duration")
    return least, most


def refuse_unknown_begin(line: Line, begun: int, measured: Measured) -> None:
    """Refuses a duration of a row of whose request it isn't known with which row it began."""
    said = f"{line.where}: by {measured.field} its request began {shortened(line.duration)} before"
    if line.begun is None and not line.id:
        raise Trouble(WRONG, (
            f"{said}, and without an id of the row it isn't known with which row that was: --id says under which key it is"
        ))
    if begun == line.number:
        raise Trouble(WRONG, (
            f"{said}, and no row of {shortened(line.id)} stands before it on {shortened(line.host)}: the first row of a "
            "request is its begin. Where the log begins amid requests, leave these rows out by --from or --only"
        ))


# Those of files


def ties_of_files(making: Making, bounds: Sequence[FileBound]) -> Iterator[Tie]:
    """The bounds that files have."""
    kept = {line.number for line in making.lines}
    left_out = 0
    for bound in bounds:
        most = signed_duration(bound.most, making)
        if most is None or abs(most) > MOST_EXTRA:
            raise Trouble(WRONG, f"{bound.where}: the distance {shortened(bound.most)!r} of this bound is no duration")
        if {bound.later, bound.earlier} <= kept:
            yield Tie(bound.later, bound.earlier, most)
        else:
            left_out += 1
    if left_out:
        making.notes.append(f"{counted(left_out, 'bound record')} of rows that are left out")


def signed_duration(text: str, making: Making) -> Optional[int]:
    """A distance of a file, in units, rounded up; with `-` where it is negative."""
    if not text.startswith("-"):
        return in_file(text, making)
    found = in_file(text[1:], making, is_down=True)
    return None if found is None else -found


# Records


def bound_lines(making: Making, lines: Sequence[Line]) -> List[str]:
    """The bound records of a log with these rows, for each row of the one event and of the other."""
    places: Dict[int, List[int]] = {}
    for place, line in enumerate(lines):
        if line.number >= 0:
            places.setdefault(line.number, []).append(place)
    found = [
        f"bound,{later},{earlier},{tie.most}"
        for tie in ties_within(making, places)
        for later in places[tie.later] for earlier in places[tie.earlier]
    ]
    if len(found) > MOST_EXTRAS:
        raise Trouble(WRONG, f"{counted(len(found), 'bound record')}; at most {grouped(MOST_EXTRAS)}: cut a window")
    return found


def ties_within(making: Making, numbers: Iterable[int]) -> Iterator[Tie]:
    """The bounds between events of these numbers, in their order."""
    by_later = making.ties_by_later()
    places = sorted(place for number in numbers for place in by_later.get(number, ()))
    return (making.ties[place] for place in places if making.ties[place].earlier in numbers)


def warn_of_durations(making: Making) -> None:
    """Tells of bounds that rows can't keep within their skews, whatever else is so: of the first one, and how many."""
    lines = {line.number: line for line in making.lines if line.number >= 0}
    wrong = [tie for tie in making.ties if is_beyond_skews(lines[tie.later], lines[tie.earlier], tie.most)]
    if wrong:
        later, earlier = lines[wrong[0].later], lines[wrong[0].earlier]
        making.warnings.append(
            f"{later.where}: by its bound it is at most {wrong[0].most} after {earlier.where}, and by the stamps "
            f"{later.stamp - earlier.stamp}, which both skews don't make up for: no timing is admissible "
            f"({counted(len(wrong), 'such bound')})"
        )


def is_beyond_skews(later: Line, earlier: Line, most: int) -> bool:
    """Whether two rows can't be as near as a bound says, by their skews alone."""
    return (later.stamp - later.skew) - (earlier.stamp + earlier.skew) > most
