"""Access lines of nginx and Apache as events: each request begins, and ends."""

from __future__ import annotations

import heapq
import re
from typing import Callable, Dict, Iterator, List, NamedTuple, Optional, Pattern, Sequence, Set, Tuple

from ask.events import WRONG, Cuts, Event, Fields, Rows, filled
from ask.stamps import MONTHS, Stamp, iso_moment, later, stamp_of
from ask.texts import Source, Trouble, data_of
from ask.words import USAGE, listed, shortened

FORMATS = {
    "combined": (
        '$remote_addr - $remote_user [$time_local] "$request" $status $body_bytes_sent "$http_referer" '
        '"$http_user_agent"'
    ),
    "apache": '%h %l %u %t "%r" %>s %b "%{Referer}i" "%{User-agent}i"',
}
STATUSES = r"(?:!?\d{3}(?:,\d{3})*)?"  # for which Apache shows a field
VARIABLE = re.compile(rf"\$(?:\{{([a-z0-9_]+)\}}|([a-z][a-z0-9_]*))|%{STATUSES}([<>]?)(?:\{{([^}}]*)\}})?([a-zA-Z])")
ESCAPED = re.compile(r"\\([\\\"'t])")  # as configurations have it within quotes
NAMED_BY_BRACES = "ieonC"  # of Apache's letters those whose braces name what is shown
LOCAL = re.compile(r"(\d\d)/([A-Z][a-z]{2})/(\d{4}):(\d\d):(\d\d):(\d\d) ([+-]\d{4})", re.ASCII)
NUMBER = re.compile(r"(\d{1,18})(?:\.(\d{1,9}))?", re.ASCII)
BOTH: Rows = {"begin": [("set", "asked")], "end": [("clear", "asked")]}


# Formats


class Format(NamedTuple):
    """What a line looks like: its pattern, the keys of its fields, and the text that says so."""

    pattern: Pattern[str]
    keys: List[str]
    text: str


def format_of(text: str) -> Format:
    """The format that a log_format of nginx or a LogFormat of Apache is."""
    first, blank, rest = ESCAPED.sub(lambda found: "\t" if found.group(1) == "t" else found.group(1), text).partition(" ")
    whole = FORMATS.get(first, first) + blank + rest
    found = list(VARIABLE.finditer(whole))
    if not found:
        raise Trouble(USAGE, f"--access {text}: it has no variable, as $msec of nginx or %t of Apache")
    pattern, keys, place = "", keys_of(found), 0
    ends = [match.end() for match in found]
    for number, (match, key) in enumerate(zip(found, keys)):
        pattern += re.escape(whole[place : match.start()])
        # Of variables with nothing between them the first has all letters, since no line tells where they part.
        is_behind_another = number > 0 and place == match.start()
        place = match.end()
        last = next(end for end in ends[number:] if not VARIABLE.match(whole, end))
        letters = "" if is_behind_another else letters_before(whole[last : last + 1])
        pattern += r"\[([^\]]*)\]" if key == "t" else f"({letters})"
    return Format(re.compile(pattern + re.escape(whole[place:])), keys, text)


def keys_of(found: "Sequence[re.Match[str]]") -> List[str]:
    """The keys of variables; where different ones would have the same, each has all that tells them apart."""
    whole = [whole_key(match) for match in found]
    meant: Dict[str, Set[str]] = {}
    for match, key in zip(found, whole):
        meant.setdefault(key_of(match), set()).add(key)
    return [key_of(match) if len(meant[key_of(match)]) == 1 else key for match, key in zip(found, whole)]


def key_of(match: "re.Match[str]") -> str:
    """The key of a variable: its name in nginx, and in Apache its letter, or what its braces name."""
    braced, plain, _, inner, letter = match.groups()
    if braced or plain:
        return braced or plain
    if inner is None:
        return letter
    return inner.lower() if letter in NAMED_BY_BRACES else f"{letter}:{inner}"


def whole_key(match: "re.Match[str]") -> str:
    """The same with the sign and the letter of Apache, as `>s` and `o:location`."""
    sign, inner, letter = match.groups()[2:]
    is_named = inner is not None and letter in NAMED_BY_BRACES
    return f"{sign or ''}{f'{letter}:' * is_named}{key_of(match)}"


def letters_before(end: str) -> str:
    """The letters of a field that ends at a sign; a quoted one may have signs behind a backslash."""
    if end == '"':
        return r'(?:[^"\\]|\\.)*'
    return f"[^{re.escape(end)}]*" if end else ".*"


# Moments


def local_time(text: str) -> Optional[Stamp]:
    """The moment that `14/Nov/2023:22:13:30 +0000` is."""
    found = LOCAL.fullmatch(text)
    if not found or found.group(2) not in MONTHS:
        return None
    day, month, year, hour, minute, second, zone = found.groups()
    return stamp_of(f"{year}-{MONTHS.index(month) + 1:02}-{day}T{hour}:{minute}:{second}{zone}")


def iso_time(text: str) -> Optional[Stamp]:
    """The moment that an ISO 8601 time is."""
    stamp = stamp_of(text)
    return stamp if stamp and stamp.kind == "iso" else None


def seconds(text: str, power: int = 0) -> Optional[Stamp]:
    """The moment or the duration that a number is, in seconds of which it counts the 10^power-th part."""
    found = NUMBER.fullmatch(text)
    if not found:
        return None
    digits = found.group(1).rjust(power + 1, "0")
    whole, rest = (digits[:-power], digits[-power:]) if power else (digits, "")
    return iso_moment(int(whole), rest + (found.group(2) or ""))


Reading = Callable[[str], Optional[Stamp]]


def in_parts(power: int) -> Reading:
    """The reading of a number that counts parts of a second."""
    return lambda text: seconds(text, power)


# The moments that a line may have, the finest first: how each is read, and whether the request ends with it.
MOMENTS: Dict[str, Tuple[Reading, bool]] = {
    "msec": (seconds, True),
    "t:end:usec": (in_parts(6), True), "t:usec": (in_parts(6), False), "t:begin:usec": (in_parts(6), False),
    "t:end:msec": (in_parts(3), True), "t:msec": (in_parts(3), False), "t:begin:msec": (in_parts(3), False),
    "time_iso8601": (iso_time, True),
    "time_local": (local_time, True),
    "t:end:sec": (seconds, True), "t:sec": (seconds, False), "t:begin:sec": (seconds, False),
    "t": (local_time, False),
}
# Of Apache's moments in whole seconds with what the keys of the digits behind these begin.
WHOLE_SECONDS: Dict[str, Tuple[str, ...]] = {
    "t": ("t:", "t:begin:"), "t:sec": ("t:", "t:begin:"), "t:begin:sec": ("t:", "t:begin:"), "t:end:sec": ("t:end:",),
}
FRACTIONS = {"usec_frac": 6, "msec_frac": 3}  # with what these keys end, and how many digits there are
# How long a request took, the finest first.
DURATIONS: Dict[str, Reading] = {
    "D": in_parts(6), "T:us": in_parts(6), "T:ms": in_parts(3), "request_time": seconds, "T:s": seconds, "T": seconds,
}


# Requests


class Request(NamedTuple):
    """A request: when it began and ended, which of the two is known, the fields of its line, and where it stands."""

    began: Stamp
    ended: Stamp
    known: Tuple[str, ...]
    fields: Fields
    where: str
    read_at: Optional[Stamp] = None  # the moment of the line
    lasted: str = ""  # in seconds, where --duration names the field


def requests_of(source: Source, form: Format, words: AccessWords) -> Iterator[Request]:
    """The requests of a file, one a line."""
    moment = moment_key(form, words.time)
    took = words.duration or next((key for key in DURATIONS if key in form.keys), None)
    read, is_end = MOMENTS[moment]
    for number, line in enumerate(data_of(source).decode("utf-8", "backslashreplace").split("\n"), start=1):
        line = line.rstrip("\r")
        if not line.strip():
            continue
        where = f"{source.name}, line {number}"
        match = form.pattern.fullmatch(line)
        if not match:
            raise Trouble(WRONG, f"{where}: {mismatch_words(form, line)}")
        fields = dict(zip(form.keys, match.groups()))
        at = with_fraction(read_by(read, fields, moment, where), fields, moment, where)
        if took is None:
            yield Request(at, at, ("end",) if is_end else ("begin",), fields, where, at)
            continue
        lasted = read_by(DURATIONS.get(took, seconds), fields, took, where, "duration")
        began, ended = (later(at, lasted, -1), at) if is_end else (at, later(at, lasted, 1))
        yield Request(began, ended, ("begin", "end"), fields, where, at, seconds_text(lasted) if words.duration else "")


def seconds_text(duration: Stamp) -> str:
    """A duration as a number of seconds."""
    return f"{duration.seconds}.{duration.digits}s" if duration.digits else f"{duration.seconds}s"


def mismatch_words(form: Format, line: str) -> str:
    """How a line isn't of a format."""
    begins = form.pattern.match(line)
    if begins and begins.end():
        rest = shortened(line[begins.end() :].strip(), 80)
        return f"behind the format {form.text} it goes on with {rest}: name that too, as in 'combined $request_time'"
    return f"it isn't of the format {form.text}: {shortened(line, 120)}"


def moment_key(form: Format, wanted: Optional[str]) -> str:
    """The key of a line's moment: the wanted one, or the finest that the format has."""
    found = [key for key in MOMENTS if key in form.keys]
    if wanted and wanted not in found:
        raise Trouble(USAGE, f"--time {wanted}: the format {form.text} has as moments: {listed(found) or 'none'}")
    if not found:
        raise Trouble(USAGE, f"the format {form.text} has no moment, as $msec, $time_local or %t")
    return wanted or found[0]


def read_by(reading: Reading, fields: Fields, key: str, where: str, what: str = "time") -> Stamp:
    """The moment or the duration under a key."""
    found = reading(fields[key])
    if found is None:
        raise Trouble(WRONG, f"{where}: {key} is {shortened(fields[key])!r}, which is no {what}")
    return found


def with_fraction(at: Stamp, fields: Fields, moment: str, where: str) -> Stamp:
    """A moment in whole seconds with the digits that its line has of it under another key, where there are some."""
    for end, digits in FRACTIONS.items():
        for key in (begin + end for begin in WHOLE_SECONDS.get(moment, ())):
            if key in fields:
                if not re.fullmatch(rf"[0-9]{{{digits}}}", fields[key]):
                    raise Trouble(WRONG, f"{where}: {key} is {shortened(fields[key])!r}, and not {digits} digits of a second")
                return at._replace(digits=fields[key])
    return at


class AccessWords(NamedTuple):
    """What the words say of access lines: the keys of the moment and the id, the ids to keep, rows, and the host."""

    time: Optional[str]
    id: str
    only: Sequence[str]
    rows: Rows
    host: str
    without_kind: str
    duration: str = ""


def access_events(sources: Sequence[Source], form: Format, words: AccessWords, cuts: Cuts) -> List[Event]:
    """The events of the requests of files, on hosts on which no two requests are at once."""
    if words.duration and words.duration not in form.keys:
        raise Trouble(USAGE, f"--duration: the format has no {words.duration}. It has: {listed(form.keys)}")
    if words.only and words.id not in form.keys:
        known = listed(form.keys)
        raise Trouble(USAGE, f"--only: the format has no {words.id}; say by --id which field is the id: {known}")
    requests = [request for source in sources for request in requests_of(source, form, words)]
    only = set(words.only)
    kept = [request for request in requests if not only or request.fields[words.id] in only]
    on_their_hosts = enumerate(on_hosts(kept, words.host))
    return [event for number, (host, request) in on_their_hosts for event in events_of(number, host, request, words, cuts)]


def events_of(number: int, host: str, request: Request, words: AccessWords, cuts: Cuts) -> Iterator[Event]:
    """The events of a request: it begins and ends, or is one moment where it isn't known how long it took."""
    id_, begin = request.fields.get(words.id, ""), 2 * number
    for name, stamp, place in (("begin", request.began, begin), ("end", request.ended, begin + 1)):
        if name in request.known:
            default = BOTH[name] if len(request.known) == 2 else [(words.without_kind, "asked")]
            for kind, pattern in words.rows.get(name, default):
                shown = filled(pattern, request.fields, request.where, cuts)
                event = Event(host, stamp, f"of the {name}", kind, shown, id_, request.where, None, name, place, words.host)
                if request.read_at is not None and stamp != request.read_at:
                    event = event._replace(read_at=request.read_at)
                if name == "end" and request.lasted:
                    event = event._replace(duration=request.lasted, begun=begin)
                yield event


def on_hosts(requests: Sequence[Request], name: str) -> Iterator[Tuple[str, Request]]:
    """The requests in the order of their beginnings, each with the first host that has none at the same time."""
    busy: List[Tuple[Tuple[int, str], int]] = []  # the ends of requests with the places that they have
    free: List[int] = []
    spans = [(order(request.began), order(request.ended), number) for number, request in enumerate(requests)]
    for began, ended, number in sorted(spans):
        while busy and busy[0][0] < began:
            heapq.heappush(free, heapq.heappop(busy)[1])
        place = heapq.heappop(free) if free else len(busy)
        heapq.heappush(busy, (ended, place))
        yield f"{name}_{place + 1}", requests[number]


def order(stamp: Stamp) -> Tuple[int, str]:
    """What moments are sorted by."""
    return stamp.seconds, stamp.digits.ljust(30, "0")
