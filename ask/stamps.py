"""Stamps and durations as services write them, in whole units."""

from __future__ import annotations

import re
from datetime import date
from sys import intern
from typing import NamedTuple, Optional, Sequence, Tuple

UNITS = {"s": 0, "ms": 3, "us": 6, "ns": 9}  # the digits behind the point of a second
MOST_ZONE_HOURS = 23
MONTHS = ("Jan", "Feb", "Mar", "Apr", "May", "Jun", "Jul", "Aug", "Sep", "Oct", "Nov", "Dec")
UNIT_WORDS = {"s": "seconds", "ms": "milliseconds", "us": "microseconds", "ns": "nanoseconds"}
ISO = re.compile(
    r"(\d{4})-(\d\d)-(\d\d)[Tt ](\d\d):(\d\d)(?::(\d\d)(?:[.,](\d{1,30}))?)?\s*([Zz]|[+-]\d\d(?::?\d\d)?)?", re.ASCII
)
BASIC = re.compile(
    r"(\d{4})(\d\d)(\d\d)[Tt](\d\d)(\d\d)(?:(\d\d)(?:[.,](\d{1,30}))?)?([Zz]|[+-]\d\d(?::?\d\d)?)?", re.ASCII
)
DECIMAL = re.compile(r"(-?)(\d{1,20})(?:\.(\d{1,30}))?", re.ASCII)
DURATION = re.compile(r"(\d{1,20})(?:\.(\d{1,30}))?(?:[eE]([+-]?\d{1,2}))?(s|ms|us|ns)?", re.ASCII)


class Stamp(NamedTuple):
    """A moment: seconds since 1970 with the digits behind the point, or a number that may be whole units."""

    kind: str  # iso, decimal or whole
    seconds: int
    digits: str
    has_zone: bool = True
    zone: str = ""  # as it is written, where it is


def stamp_of(text: str) -> Optional[Stamp]:
    """The stamp that a text is, or None."""
    text = text.strip()
    if len(text) <= 20 and text.isascii() and text.isdigit():
        return Stamp("whole", int(text), "")
    iso = iso_match(text)
    if iso:
        return None if iso_fault(iso) else iso_stamp(iso)
    found = DECIMAL.fullmatch(text)
    if not found:
        return None
    sign, whole, digits = found.groups()
    if digits is None:
        return Stamp("whole", int(sign + whole), "")
    if not sign:
        return Stamp("decimal", int(whole), digits)
    # Digits count upward from the whole second below.
    rest = 10 ** len(digits) - int(digits)
    if rest == 10 ** len(digits):
        return Stamp("decimal", -int(whole), digits)
    return Stamp("decimal", -int(whole) - 1, str(rest).rjust(len(digits), "0"))


def stamp_fault(text: str) -> str:
    """Why a text is no stamp, as a sentence goes on behind it."""
    found = iso_match(text.strip())
    return found and iso_fault(found) or "is no whole number, no number of seconds and no ISO 8601 time"


def iso_match(text: str) -> "Optional[re.Match[str]]":
    """The parts of a text that has the form of an ISO 8601 time, the extended or the basic one."""
    return ISO.fullmatch(text) or BASIC.fullmatch(text)


def iso_fault(found: "re.Match[str]") -> str:
    """Which part of a text in the form of an ISO 8601 time is none, or nothing."""
    year, month, day, hour, minute = (int(found.group(place)) for place in range(1, 6))
    try:
        date(year, month, day)
    except ValueError:
        return "has a day that there isn't"
    last = 60 if minute % 15 == 14 else 59  # of the seconds: a leap second ends an hour of UTC
    if hour > 23 or minute > 59 or int(found.group(6) or 0) > last:
        return "has a time of day that there isn't"
    hours, minutes = zone_parts(found.group(8))
    return f"has the zone {found.group(8)}, which there isn't" if hours > MOST_ZONE_HOURS or minutes > 59 else ""


def iso_stamp(found: "re.Match[str]") -> Stamp:
    """The stamp of an ISO 8601 text without a fault."""
    year, month, day, hour, minute = (int(found.group(place)) for place in range(1, 6))
    second = int(found.group(6) or 0)
    days = (date(year, month, day) - date(1970, 1, 1)).days
    zone = found.group(8)
    hours, minutes = zone_parts(zone)
    ahead = (3600 * hours + 60 * minutes) * (-1 if zone and zone[0] == "-" else 1)
    seconds = 86400 * days + 3600 * hour + 60 * minute + second - ahead
    return Stamp("iso", seconds, found.group(7) or "", zone is not None, intern(zone or ""))


def zone_parts(zone: Optional[str]) -> Tuple[int, int]:
    """The hours and the minutes by which a zone is off UTC, to either side."""
    if zone is None or zone in "Zz":
        return 0, 0
    digits = zone[1:].replace(":", "")
    return int(digits[:2]), int(digits[2:] or 0)


def iso_moment(seconds: int, digits: str) -> Stamp:
    """The moment so many seconds after the beginning of 1970, with the digits behind the point."""
    return Stamp("iso", seconds, digits)


def later(stamp: Stamp, duration: Stamp, times: int) -> Stamp:
    """A moment so many durations later, with all digits."""
    size = max(len(stamp.digits), len(duration.digits))
    parts = [part.seconds * 10**size + int(part.digits.ljust(size, "0") or 0) for part in (stamp, duration)]
    seconds, digits = divmod(parts[0] + times * parts[1], 10**size)
    return Stamp(stamp.kind, seconds, str(digits).rjust(size, "0") if size else "", stamp.has_zone, stamp.zone)


def finest_unit(stamps: Sequence[Stamp]) -> str:
    """The coarsest unit that keeps all digits, nanoseconds where there are more."""
    most = max((len(stamp.digits) for stamp in stamps), default=0)
    return next((unit for unit, digits in UNITS.items() if digits >= most), "ns")


def in_units(stamp: Stamp, unit: str) -> int:
    """A moment in whole units since 1970; what is below a unit is cut off."""
    digits = UNITS[unit]
    return stamp.seconds * 10**digits + int((stamp.digits + "0" * digits)[:digits] or 0)


def loses_digits(stamp: Stamp, unit: str) -> bool:
    """Whether a moment has digits below a unit."""
    return bool(stamp.digits[UNITS[unit] :].strip("0"))


def duration_in_units(text: str, unit: Optional[str], is_down: bool = False) -> Optional[int]:
    """A duration as `5ms` or `5.2e-05s`, or in units where it has none, rounded up, or down; None where it is none."""
    found = DURATION.fullmatch(text.strip())
    if not found:
        return None
    whole, digits, exponent, suffix = found.groups()
    if suffix and unit is None:
        return None
    shift = UNITS[unit] - UNITS[suffix] if suffix and unit else 0
    number = int(whole + (digits or ""))
    power = shift - len(digits or "") + int(exponent or 0)
    if power >= 0:
        return number * 10**power
    return number // 10**-power if is_down else -(-number // 10**-power)
