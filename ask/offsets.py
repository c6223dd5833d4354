"""The offsets that clocks can have in a timing: by how much the true time is ahead of what a clock shows."""

from __future__ import annotations

from typing import Dict, NamedTuple, Sequence

from ask.logs import Log


class Offset(NamedTuple):
    """The least and the greatest offset of a clock with which all its readings are as near as they have to be."""

    least: int
    greatest: int

    def middle(self) -> int:
        """The offset that is shown: 0 where that is one, else the one nearest to the middle of all."""
        return 0 if self.least <= 0 <= self.greatest else (self.least + self.greatest) // 2


def offsets_of(log: Log, times: Sequence[int]) -> Dict[int, Offset]:
    """The offsets of the clocks in times of all rows; none of a clock whose readings don't agree on one."""
    found: Dict[int, Offset] = {}
    for row, time in zip(log.rows, times) if log.clocks else ():
        if row.clock is not None:
            least, greatest = time - row.stamp - row.error, time - row.stamp + row.error
            before = found.get(row.clock, Offset(least, greatest))
            found[row.clock] = Offset(max(before.least, least), min(before.greatest, greatest))
    return {clock: offset for clock, offset in found.items() if offset.least <= offset.greatest}
