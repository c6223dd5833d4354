"""The unit of a log's time: the notes beside the log that keep it, and how spans and moments are said in it."""

from __future__ import annotations

import argparse
import json
import os
import re
from dataclasses import dataclass, replace
from datetime import date
from hashlib import sha256
from typing import Any, Dict, Iterable, Mapping, NamedTuple, Optional, Sequence

from ask.stamps import UNIT_WORDS, UNITS, Stamp, in_units, stamp_of, zone_parts
from ask.texts import CANNOT_WRITE, LIMITS, Source, Trouble, escaped, read_file, reason_of, write_text

WRONG_NOTES = 66  # the status where notes aren't what they should be
WRONG_WORDS = 64
MOST_NOTES = 65_536  # bytes
UNIX = "1970-01-01T00:00:00Z"
DAY = 86_400
LAST_DAY = date.max.toordinal()
ZONE = re.compile(r"[Zz]|[+-][0-9:]+")


@dataclass(frozen=True)
class Scale:
    """The unit of a log, where it is known, the moment at which its time is 0, in units, and the zone of its source."""

    unit: Optional[str] = None
    epoch: Optional[int] = None
    zone: Optional[str] = None

    def span(self, number: int) -> str:
        """A distance of moments, in the greatest unit of which it is one or more; 0 needs none."""
        if self.unit is None or number == 0:
            return str(number)
        digits = UNITS[self.unit]
        fitting = (unit for unit, less in UNITS.items() if less <= digits and abs(number) >= 10 ** (digits - less))
        unit = next(fitting, self.unit)
        places = digits - UNITS[unit]
        whole, rest = divmod(abs(number), 10**places)
        behind = str(rest).rjust(places, "0").rstrip("0") if rest else ""
        return f"{'-' if number < 0 else ''}{whole}{'.' * bool(behind)}{behind} {unit}"

    def shift(self, number: int) -> str:
        """A shift with its sign."""
        return f"+{self.span(number)}" if number > 0 else self.span(number)

    def spans(self, least: int, most: int) -> str:
        """A range of distances."""
        return f"{self.span(least)} to {self.span(most)}"

    def ahead(self) -> int:
        """By how many seconds the zone is ahead of UTC."""
        hours, minutes = zone_parts(self.zone)
        return (3600 * hours + 60 * minutes) * (-1 if (self.zone or "")[:1] == "-" else 1)

    def moment(self, number: int) -> str:
        """A moment: an ISO 8601 time in the zone of the source where it is known when the time of the log is 0."""
        if self.unit is None or self.epoch is None:
            return str(number)
        digits = UNITS[self.unit]
        seconds, rest = divmod(self.epoch + number + self.ahead() * 10**digits, 10**digits)
        days, of_day = divmod(seconds, DAY)
        ordinal = date(1970, 1, 1).toordinal() + days
        if not 0 < ordinal <= LAST_DAY:
            return str(number)
        clock = f"{of_day // 3600:02}:{of_day // 60 % 60:02}:{of_day % 60:02}"
        behind = f".{rest:0{digits}}" if digits else ""
        return f"{date.fromordinal(ordinal).isoformat()}T{clock}{behind}{self.zone or 'Z'}"


BARE = Scale()


class Notes(NamedTuple):
    """What is kept beside a log: its unit, and the digest of the log that this was written for, where it is told."""

    scale: Scale
    digest: Optional[str] = None


class ScaledSource(Source):
    """The file of a log whose unit may be known."""

    scale: Scale = BARE


def scale_of_source(source: Source) -> Scale:
    """The unit of the file of a log, as far as it is known."""
    return source.scale if isinstance(source, ScaledSource) else BARE


def scaled(source: Source, log: str, unit: Optional[str]) -> Source:
    """The file of a log with its unit: that of the words, or of the notes beside it; as it is where neither tells one."""
    scale = scale_of(log, source.data, unit)
    if scale.unit is None:
        return source
    found = ScaledSource(*source)
    found.scale = scale
    return found


def scale_of(log: str, data: bytes, unit: Optional[str]) -> Scale:
    """The unit of a log by the words, or by the notes beside it."""
    name = notes_name(log)
    kept = read_notes(name) if log != "-" else None
    if kept is None or kept.scale.unit is None:
        return Scale(unit)
    if not is_of(kept, data):
        if unit is not None:
            return Scale(unit)
        raise wrong_notes(name, f"they were written for another log than {escaped(log)} is now. --unit states its unit")
    if unit not in (None, kept.scale.unit):
        raise Trouble(WRONG_WORDS, f"--unit {unit}: {escaped(name)} says {UNIT_WORDS[kept.scale.unit]}")
    return kept.scale


def is_of(notes: Notes, data: bytes) -> bool:
    """Whether notes are of a log with these bytes, as far as they tell."""
    return notes.digest in (None, digest_of(data))


def digest_of(data: bytes) -> str:
    """The digest by which notes name a log."""
    return sha256(data).hexdigest()


# Notes


def notes_name(log: str) -> str:
    """The name of the notes beside a log."""
    return f"{log}.notes"


def read_notes(name: str) -> Optional[Notes]:
    """What notes say, or None where there is no such file, or one that is something else."""
    facts = facts_of_notes(name)
    if facts is None:
        return None
    unit, epoch, zone, digest = (facts.get(key) for key in ("unit", "epoch", "zone", "sha256"))
    if unit is None:
        return Notes(BARE)
    if not isinstance(unit, str) or unit not in UNITS:
        raise wrong_notes(name, f"there is no unit {unit!r}. The units: {', '.join(UNITS)}")
    if zone is not None and not is_zone(zone):
        raise wrong_notes(name, f"{zone!r} is no zone, as +01:00")
    return Notes(Scale(unit, epoch_in_units(name, epoch, unit), zone), digest)


def facts_of_notes(name: str) -> Optional[Dict[str, Any]]:
    """The object that notes are, or None where there is no such file, or one that is no object."""
    try:
        data = read_file(name, MOST_NOTES + 1) if os.path.isfile(name) else b""
    except (OSError, ValueError) as error:
        raise Trouble(WRONG_NOTES, f"{escaped(name)} can't be read: {reason_of(error)}") from None
    if not data.lstrip().startswith(b"{"):
        return None
    try:
        found = json.loads(data[:MOST_NOTES])
    except (ValueError, RecursionError):
        raise wrong_notes(name, "they aren't JSON") from None
    if "unit" not in found:
        raise wrong_notes(name, "they have no unit")
    return dict(found)


def wrong_notes(name: str, why: str) -> Trouble:
    """The trouble that notes aren't what `ask log` writes."""
    return Trouble(WRONG_NOTES, f"{escaped(name)}, the notes on the unit of the log: {why}")


def is_zone(zone: Any) -> bool:
    """Whether something is a zone."""
    return isinstance(zone, str) and ZONE.fullmatch(zone) is not None and stamp_of(f"1970-01-01T00:00:00{zone}") is not None


def epoch_in_units(name: str, epoch: Any, unit: str) -> Optional[int]:
    """The moment of notes at which the time of the log is 0, in units since 1970."""
    if epoch is None:
        return None
    stamp = stamp_of(epoch) if isinstance(epoch, str) else None
    if stamp is None or stamp.kind != "iso":
        raise wrong_notes(name, f"the epoch {epoch!r} is no ISO 8601 time")
    return in_units(stamp, unit)


def notes_text(scale: Scale, data: bytes) -> str:
    """The notes that say the unit of a log, or that it isn't known."""
    epoch = None if scale.epoch is None else Scale(scale.unit, scale.epoch).moment(0)
    facts = {"unit": scale.unit, "epoch": UNIX if scale.epoch == 0 else epoch, "zone": scale.zone}
    return json.dumps({**facts, "sha256": digest_of(data)}) + "\n"


def write_with_notes(name: str, text: str, scale: Scale) -> str:
    """Writes a log and the notes beside it, and gives the name of these; nothing where the log is no file of its own."""
    beside = notes_name(name)
    if os.path.exists(name) and not os.path.isfile(name):
        write_text(name, text)
        return ""
    if os.path.lexists(beside) and (not os.path.isfile(beside) or facts_of_notes(beside) is None):
        raise Trouble(CANNOT_WRITE, f"{escaped(beside)} is there already, and isn't the notes on the unit of a log")
    write_text(name, text)
    write_text(beside, notes_text(scale, text.encode()))
    return beside


def refuse_wrong_output(output: Optional[str], notes: Optional[str]) -> None:
    """Refuses a log that is to be written where it can't have notes beside it."""
    if output == "-":
        raise Trouble(WRONG_WORDS, "-o names a file: without it the log goes to the standard output")
    if output is not None and notes is not None and os.path.abspath(notes) in map(os.path.abspath, (output, notes_name(output))):
        raise Trouble(WRONG_WORDS, f"--notes {escaped(notes)}: -o {escaped(output)} writes this file itself")


def output_words(name: str, beside: str, scale: Scale) -> str:
    """That a log was written, with its notes."""
    if not beside:
        return f"The log is in {name}."
    unit = UNIT_WORDS[scale.unit] if scale.unit else "not known: --unit states it"
    zone = f", and the zone {scale.zone}" if scale.zone else ""
    return f"The log is in {name}, and {beside} says its unit, {unit}{zone}."


def scale_of_making(unit: Optional[str], is_whole: bool, stamps: Iterable[Stamp], files: Sequence[str]) -> Scale:
    """The unit of a log that is made, the moment at which its time is 0, and the zone that all stamps have."""
    if is_whole:
        kept = {name: scale_kept(name) for name in files}
        refuse_other_unit(unit, kept)
        joint = scale_of_all(list(kept.values()))
        return joint if unit in (None, joint.unit) else Scale(unit)
    zones, is_dated = set(), False
    for stamp in stamps:
        is_dated |= stamp.kind == "iso"
        zones.add(stamp.zone)
    spelt = {extended(zone) for zone in zones}
    return Scale(unit or "s", 0, spelt.pop() if len(spelt) == 1 else "Z") if is_dated else Scale(unit or "s")


def extended(zone: str) -> str:
    """A zone in the long form of ISO 8601."""
    if zone in ("", "z", "Z"):
        return "Z"
    hours, minutes = zone_parts(zone)
    return f"{zone[0]}{hours:02}:{minutes:02}"


def scale_of_all(scales: Sequence[Scale]) -> Scale:
    """The unit and the epoch on which all agree, with their zone, or UTC where they have several."""
    first = next(iter(scales), BARE)
    if any((scale.unit, scale.epoch) != (first.unit, first.epoch) for scale in scales):
        return BARE
    return first if all(scale == first for scale in scales) else replace(first, zone="Z")


def scale_kept(name: str, data: Optional[bytes] = None) -> Scale:
    """The unit that the notes beside a file say, as far as they are of it, whose bytes may be at hand."""
    kept = read_notes(notes_name(name)) if name != "-" else None
    if kept is None:
        return BARE
    if kept.digest is not None and not is_of(kept, read_file(name, LIMITS["long log"].most) if data is None else data):
        return BARE
    return kept.scale


def refuse_other_unit(unit: Optional[str], kept: Mapping[str, Scale]) -> None:
    """Refuses a unit of the words where the notes of a file say another one."""
    for name, scale in kept.items():
        if unit and scale.unit and scale.unit != unit:
            raise Trouble(WRONG_WORDS, f"--unit {unit}: {escaped(notes_name(name))} says {UNIT_WORDS[scale.unit]}")


def refuse_two_units(kept: Mapping[str, Scale]) -> None:
    """Refuses logs to be joined whose notes say different units or beginnings of time, since the numbers of one are others."""
    told = {name: scale for name, scale in kept.items() if scale.unit is not None}
    first = next(iter(told), "")
    for name, scale in told.items():
        if scale.unit != told[first].unit:
            said = f"{name} is in {UNIT_WORDS[scale.unit or 's']} and {first} in {UNIT_WORDS[told[first].unit or 's']}"
            raise Trouble(WRONG_NOTES, f"{said}, by the notes beside them: logs that are joined have one unit")
        if None not in (scale.epoch, told[first].epoch) and scale.epoch != told[first].epoch:
            raise Trouble(WRONG_NOTES, f"{name} and {first} count from different moments, by the notes beside them")


# Words


def add_unit_words(words: argparse.ArgumentParser) -> None:
    """Adds the option that states the unit of a log."""
    words.add_argument(
        "--unit", choices=list(UNITS), help="of the log, where no LOG.notes says it: answers and intervals have units then",
    )


def unit_facts(scale: Scale) -> Dict[str, Any]:
    """The unit for programs, where it is known."""
    return {"unit": scale.unit} if scale.unit else {}
