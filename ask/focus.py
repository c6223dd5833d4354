"""What a picture marks of a timing: the moment and the rows that give a formula its value, and the sentences on them."""

from __future__ import annotations

from dataclasses import dataclass
from typing import FrozenSet, List, Optional, Sequence, Tuple

from ask.ends import OutOfTime
from ask.explain import Moment, Span, Timing, reasons_of
from ask.formulas import Tree
from ask.logs import Log
from ask.program import Stopped
from ask.question import Question
from ask.texts import Trouble
from ask.units import Scale


@dataclass(frozen=True)
class Focus:
    """Why a formula has its value in a timing: the sentences that `check` says, and what of the picture they speak of."""

    value: bool
    sentences: Tuple[str, ...]
    moments: Tuple[Moment, ...] = ()
    rows: FrozenSet[int] = frozenset()  # that the sentences name
    spans: Tuple[Span, ...] = ()  # in which a part holds throughout, or nowhere

    def heading(self) -> str:
        return f"Why it is {word_of(self.value)} there:"

    def kind(self) -> str:
        """The class of its marks."""
        return "holds" if self.value else "fails"

    def lines(self) -> List[str]:
        """The sentences, and that there is no moment to mark where they name none that decides."""
        lines = [f"{sentence}." for sentence in self.sentences]
        if lines and not self.moments:
            lines.append(f"No single moment makes it {word_of(self.value)}, so none is marked.")
        return lines


def word_of(value: bool) -> str:
    return "true" if value else "false"


def flag_words(moment: Moment, scale: Scale) -> str:
    """What stands at the line through all lanes."""
    return f"{'holds' if moment.value else 'fails'} at {scale.moment(moment.time)}"


def focus_of(question: Question, log: Log, tree: Tree, times: Sequence[int], value: bool) -> Optional[Focus]:
    """What to mark of an admissible timing, or nothing where a run that would tell it doesn't."""
    timing = Timing(question, log, times)
    try:
        sentences = reasons_of(timing, tree, value, is_all=False)
    except (Trouble, Stopped, OutOfTime):
        question.program.begin_telling()
        return None
    return Focus(value, tuple(sentences), tuple(timing.moments), frozenset(timing.named), tuple(timing.spans))
