"""What windows tell of a formula on a whole log: whether it can be true, and whether it can be false."""

from __future__ import annotations

from array import array
from dataclasses import dataclass, field
from typing import Dict, List, Optional

from ask.ends import OWN_FAULT
from ask.texts import Trouble
from ask.windows.asking import Findings, Said, Setting, Whole
from ask.windows.joint import Joint
from ask.windows.timings import holds

STATUSES = {(True, False): 0, (False, True): 1, (True, True): 2}


@dataclass
class Verdict:
    """Whether a formula can be true and false, as far as that is known, with a timing for each value that it can have.

    `excluding` is a window that can't have a value, where one window alone shows it; `in_the_way` are the windows
    that leave something open.
    """

    can_be: Dict[bool, Optional[bool]]
    timings: Dict[bool, array]
    findings: Findings
    excluding: Optional[Said] = None
    in_the_way: List[Said] = field(default_factory=list)
    left: List[int] = field(default_factory=list)  # moments at which the best timing that was found isn't as wanted

    def status(self) -> int:
        """The status, which is that of `check` of a short log."""
        return STATUSES.get((self.can_be[True], self.can_be[False]), 4)  # type: ignore[arg-type]


def verdict_of_slices(whole: Whole, setting: Setting) -> Verdict:
    """The verdict on a whole log, by the windows of all its slices."""
    findings = Findings(whole, setting)
    findings.ask(findings.ask_pulses(setting))
    findings.answers.sort(key=lambda said: said.part)
    return verdict_of_findings(whole, findings)


def refuse_contrary(whole: Whole, has_to_hold: bool) -> None:
    """Refuses what windows tell of every timing where it isn't so of one that is near to the stamps.

    That would be an error here or in the program: it is one more test, which costs a pass over the rows.
    """
    if holds(whole.bounds, whole.shape, whole.near()) != has_to_hold:
        raise Trouble(OWN_FAULT, "windows tell of every timing what isn't so of the one near the stamps: please tell the makers")


def verdict_of_findings(whole: Whole, findings: Findings) -> Verdict:
    """The verdict that the windows of all slices tell, where need be with a timing that is looked for."""
    can_fail, excluding = findings.can_fail(), findings.excluding
    can_hold: Optional[bool] = None
    holding: Optional[array] = None
    left: List[int] = []
    if excluding is not None:
        can_hold = False
        refuse_contrary(whole, False)
    elif can_fail is False:
        can_hold, holding = True, whole.near()
        refuse_contrary(whole, True)
    else:
        joint = Joint(whole, findings.asker)
        holding = joint.timing()
        excluding, left = joint.excluding, joint.left
        can_hold = True if holding is not None else False if excluding is not None else None
    failing = whole.near() if can_hold is False else findings.failing
    hold = not whole.shape.is_dual  # the value that the formula has where the body holds throughout
    timings = {value: times for value, times in ((hold, holding), (not hold, failing)) if times is not None}
    in_the_way = findings.doubtful + findings.unknown if can_fail is None and can_hold is not False else []
    can_be = {hold: can_hold, not hold: True if can_hold is False else can_fail}
    return Verdict(can_be, timings, findings, excluding, in_the_way, left)
