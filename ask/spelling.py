"""Names that differ in the case of letters alone, as `Web-01` and `web-01`, which may or may not be meant as one."""

from __future__ import annotations

from typing import Dict, Iterable, List, NamedTuple

from ask.events import Found, declare
from ask.logs import is_name


def spelled_alike(names: Iterable[str]) -> List[List[str]]:
    """The groups of different names that differ in the case of letters alone, in the order of their first names."""
    groups: Dict[str, List[str]] = {}
    for name in dict.fromkeys(names):
        groups.setdefault(name.casefold(), []).append(name)
    return [group for group in groups.values() if len(group) > 1]


def kept_spellings(names: Iterable[str]) -> Dict[str, str]:
    """For each name that another one differs from so the name that stands for them: one of the log, else the first."""
    kept = {}
    for group in spelled_alike(names):
        first = next((name for name in group if is_name(name)), group[0])
        kept.update((name, first) for name in group)
    return kept


class Spellings(NamedTuple):
    """The names of hosts and of rows that were taken as another one, each with that one."""

    hosts: Dict[str, str]
    names: Dict[str, str]

    def notes(self) -> List[str]:
        """A note for each name that was taken as another one."""
        kinds = (("host", self.hosts), ("name", self.names))
        return [
            f"{kind}: {name!r} is taken as {kept!r}"
            for kind, table in kinds for name, kept in table.items() if name != kept
        ]


def take_as_one(found: Found) -> Spellings:
    """Takes names as one that differ so, of hosts, of their machines and of rows."""
    hosts = kept_spellings([*(event.host for event in found.events), *found.hosts, *found.latencies])
    machines = kept_spellings(event.machine for event in found.events)
    names = kept_spellings(event.name for event in found.events)
    found.events = [
        event._replace(
            host=hosts.get(event.host, event.host), machine=machines.get(event.machine, event.machine),
            name=names.get(event.name, event.name),
        )
        for event in found.events
    ]
    for told, what in ((found.hosts, "skew or gap"), (found.latencies, "latency")):
        said = list(told.items())
        told.clear()
        for host, limits in said:
            declare(told, hosts.get(host, host), limits, what)
    return Spellings(hosts, names)


def spelling_warnings(what: str, names: Iterable[str], mapped: Dict[str, str]) -> List[str]:
    """A warning for each group of names that are kept apart, with the names of the log that they have."""
    return [
        f"the {what} {' and '.join(map(repr, group))} differ in the case of letters alone, and are kept apart as "
        f"{' and '.join(mapped[name] for name in group)}: --same-name takes them as one"
        for group in spelled_alike(names)
    ]
