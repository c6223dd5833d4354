"""The halving by which the greatest skew is found with which a log decides a formula, of one host alone or of all."""

from __future__ import annotations

from dataclasses import dataclass
from enum import Enum
from typing import Dict, Iterator, List, Optional, Tuple

from ask.logs import Log
from ask.program import Run
from ask.question import VERDICTS

TRUE, FALSE, EITHER, NO_TIMING, UNKNOWN = range(5)  # statuses of check


class Outcome(Enum):
    """What was found of one skew: a number with which the verdict is decided, that there is none, or not which."""

    DECIDED = "decided"
    NEVER = "never"
    UNKNOWN = "unknown"


@dataclass
class Halving:
    """The numbers that were tried as the greatest skew, of one host alone or of all, with the checks of each.

    A smaller skew excludes timings and adds none. So from the greatest number down both values are possible at first,
    then one of them, and then there is no timing; the second may be missing, and so may the third. Where a check left
    a value unknown, it is one of the first two.
    """

    host: Optional[int]  # None for all hosts
    skews: List[int]  # those of its rows, each once and in order
    runs: Dict[int, Run]

    def wanted(self) -> Optional[int]:
        """The number that has to be tried next, or None where no other one tells more."""
        if 0 not in self.runs:
            return 0
        return next(((below + above) // 2 for below, above in self.gaps() if above - below > 1), None)

    def gaps(self) -> Iterator[Tuple[int, int]]:
        """The numbers between which something changes, with all between them not tried yet."""
        least, beside, either = self.least(), self.beside(), self.either()
        yield max(self.tried(NO_TIMING), default=least - 1), least
        yield self.greatest_or(least - 1), beside
        if either is not None:
            yield max((number for number in self.tried(UNKNOWN) if beside <= number < either), default=either - 1), either

    def tried(self, *statuses: int) -> List[int]:
        """The numbers whose checks have one of these statuses."""
        return [number for number, run in self.runs.items() if run.status in statuses]

    def least(self) -> int:
        """The least number that was tried with which there is a timing."""
        return min(self.tried(TRUE, FALSE, EITHER, UNKNOWN))

    def greatest(self) -> Optional[int]:
        """The greatest number that was tried with which the verdict is decided."""
        return max(self.tried(TRUE, FALSE), default=None)

    def greatest_or(self, other: int) -> int:
        """The same, or another number where there is none."""
        found = self.greatest()
        return other if found is None else found

    def beside(self) -> int:
        """The least number above those, with which the verdict isn't decided, or left unknown."""
        above = self.greatest_or(-1)
        return min(number for number in self.tried(EITHER, UNKNOWN) if number > above)

    def either(self) -> Optional[int]:
        """The least number with which both values are known to be possible."""
        return min(self.tried(EITHER), default=None)

    def outcome(self) -> Outcome:
        """What was found, once nothing more is wanted."""
        if self.runs[self.beside()].status == UNKNOWN:
            return Outcome.UNKNOWN
        return Outcome.NEVER if self.greatest() is None else Outcome.DECIDED

    def numbers_shown(self) -> List[int]:
        """The numbers whose checks show what was found."""
        excluded = self.least() - 1
        shown = [self.greatest(), self.beside(), self.either(), excluded if excluded >= 0 else None]
        return [number for number in dict.fromkeys(shown) if number is not None]

    def verdict(self) -> Optional[str]:
        """The value that the formula has where it is decided."""
        greatest = self.greatest()
        return None if greatest is None else VERDICTS[self.runs[greatest].status]


def halvings_of(log: Log, first: Run) -> List[Halving]:
    """What is to be found of each host alone and of all together; as they are, all skews have the same check."""
    of_hosts: List[Optional[int]] = [*range(len(log.hosts)), None]
    found = []
    for host in of_hosts:
        skews = sorted({row.skew for row in log.rows if host in (None, row.host)})
        found.append(Halving(host, skews, {max(skews, default=0): first}))
    return found
