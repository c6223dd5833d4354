"""Messages between spans: to children in other processes, back from them, and to spans with links."""

from __future__ import annotations

from dataclasses import dataclass, field
from typing import Dict, Iterator, List, NamedTuple, Optional, Sequence, Tuple

from ask.spans import CLIENT, SERVER, UNTOLD, Id, Span, parent_of
from ask.words import counted

Point = Tuple[Id, bool]  # the begin of a span, or its end


class Message(NamedTuple):
    """A message: its name, and at which points of spans it is sent and received."""

    name: str
    sent: Point
    received: Point


@dataclass
class Messages:
    """The messages of spans by their points, and what is said of those that there aren't."""

    sent: Dict[Point, List[str]] = field(default_factory=dict)
    received: Dict[Point, List[str]] = field(default_factory=dict)
    notes: List[str] = field(default_factory=list)
    lost: int = 0  # links to what isn't there
    given_up: int = 0  # answers that their clients may not have waited for

    def add(self, message: Message) -> None:
        """Adds a message."""
        self.sent.setdefault(message.sent, []).append(message.name)
        self.received.setdefault(message.received, []).append(message.name)


def messages_of(spans: Sequence[Span], known: Dict[Id, Span], is_by_trace: bool) -> Messages:
    """The messages between spans, in their order, of which these are known."""
    found, names = Messages(), names_of(spans)
    for span in spans:
        parent = parent_of(span, known)
        if parent is not None and is_elsewhere(span, parent):
            add_child(found, span, parent, names[span.key()])
        for place, link in enumerate(dict.fromkeys(span.links), start=1):
            add_link(found, span, known.get(link), f"{names[span.key()]}_link_{place}", is_by_trace)
    if found.lost:
        found.notes.append(f"{counted(found.lost, 'link')} to spans that aren't in the log left out")
    if found.given_up:
        found.notes.append(
            f"{counted(found.given_up, 'answer')} to spans that failed left out, since their client may have given up before"
        )
    return found


def add_child(found: Messages, span: Span, parent: Span, name: str) -> None:
    """Adds the message from a parent in another process, and the one back."""
    found.add(Message(f"{name}_go", (parent.key(), False), (span.key(), False)))
    if answers(span, parent) and parent.is_failed:
        found.given_up += 1
    elif answers(span, parent):
        found.add(Message(f"{name}_back", (span.key(), True), (parent.key(), True)))


def add_link(found: Messages, span: Span, linked: Optional[Span], name: str, is_by_trace: bool) -> None:
    """Adds the message from a linked span in another process, which began before the link was made.

    That was at the begin of the span, unless by the stamps the linked one began later: then it was before its end.
    """
    if linked is None or is_by_trace and linked.trace != span.trace:
        found.lost += 1
    elif is_elsewhere(span, linked):
        is_late = linked.began > span.began and span.ended is not None
        found.add(Message(name, (linked.key(), False), (span.key(), is_late)))


def names_of(spans: Sequence[Span]) -> Dict[Id, str]:
    """The beginning of the names of each span's messages: its id, with the number of its trace where several have it."""
    traces: Dict[str, int] = {}
    counts: Dict[str, int] = {}
    for span in spans:
        traces.setdefault(span.trace, len(traces) + 1)
        counts[span.id] = counts.get(span.id, 0) + 1
    return {
        span.key(): f"s{span.id}" if counts[span.id] == 1 else f"s{span.id}_{traces[span.trace]}" for span in spans
    }


def is_elsewhere(span: Span, other: Span) -> bool:
    """Whether spans are of different processes."""
    return span.process.identity() != other.process.identity()


def answers(span: Span, parent: Span) -> bool:
    """Whether a span sends something back to its parent in another process, behind its end and before that of the parent.

    A server does to its client. Where a kind isn't told it may, and does if by the stamps it ends before its parent.
    """
    if span.ended is None or parent.ended is None or span.is_behind:
        return False
    if (parent.kind, span.kind) == (CLIENT, SERVER):
        return True
    return parent.kind in (CLIENT, UNTOLD) and span.kind in (SERVER, UNTOLD) and span.ended <= parent.ended


def walked(spans: Sequence[Span], known: Dict[Id, Span]) -> Iterator[Tuple[bool, Span]]:
    """The begin and the end of each span, those of its children between them; spans that begin earlier come first."""
    children: Dict[Id, List[Span]] = {}
    first: List[Span] = []
    for span in sorted(spans, key=lambda span: (span.began, span.last())):
        parent = parent_of(span, known)
        (first if parent is None else children.setdefault(parent.key(), [])).append(span)
    ahead = [(False, span) for span in reversed(first)]
    while ahead:
        is_end, span = ahead.pop()
        yield is_end, span
        if not is_end:
            ahead.append((True, span))
            ahead += [(False, child) for child in reversed(children.get(span.key(), []))]
