"""What a log that doesn't tell would tell if the clocks of its hosts kept their offsets: the program is asked of such a log."""

from __future__ import annotations

from typing import Any, Dict, List, NamedTuple, Optional

from ask.logs import COLUMNS, FIRST_FIELDS, MOST_CLOCKS, MOST_SKEW, Log, records_of
from ask.program import Stopped
from ask.question import VERDICTS, Question, text_of_source
from ask.texts import LIMITS, Source
from ask.units import BARE, Scale, scale_of_source
from ask.words import TYPED

EITHER, NO_TIMING, UNKNOWN = 2, 3, 4  # statuses of check
THIRD = 3  # the version that has clocks


class Steady(NamedTuple):
    """What was found with steady clocks: the error of a reading that was assumed, and how check ended, if it did."""

    error: int
    status: Optional[int]
    words: str  # of the run
    scale: Scale = BARE

    def sentence(self) -> str:
        """The finding in a sentence, with what was assumed where it tells something."""
        clocks = f"clocks that are steady within {self.scale.span(self.error)}"
        if self.status in (None, UNKNOWN):
            where = "within the conflicts" if self.status else "in time"
            return f"Whether {clocks} would tell wasn't found {where}.{self.run_words()}"
        if self.status == EITHER:
            return f"{clocks.capitalize()} wouldn't tell either.{self.run_words()}"
        if self.status == NO_TIMING:
            return f"With {clocks} no timing is admissible: they weren't so steady.{self.run_words()}"
        assumed = f"one clock a host was assumed, from which no stamp is off by more than {self.scale.span(self.error)}"
        return f"With {clocks} it is {VERDICTS[self.status]}.{self.run_words()} The log doesn't say so: {assumed}."

    def run_words(self) -> str:
        """The run in brackets, where one told something."""
        return f" [{self.words}]" if self.words else ""

    def facts(self) -> Dict[str, Any]:
        """The same for programs."""
        verdict = None if self.status is None else VERDICTS[self.status]
        return {"error": self.error, "verdict": verdict, "sentence": self.sentence(), "run": self.words or None}


def steady_answer(question: Question, log: Log) -> Optional[Steady]:
    """What the program says where each host has a steady clock; None where that is no question or it can't tell."""
    if log.clocks or not has_host_of_several_rows(log):
        return None
    error = min(resolution(log.stamps()), MOST_SKEW)
    source = steady_source(question.log_source, error)
    if source is None:
        return None
    text = text_of_source(question.formula) if question.formula.name == TYPED else None
    try:
        run = Question(question.program, question.formula, source, question.options).check(text)
    except Stopped:
        return Steady(error, None, "", log.scale)
    return Steady(error, run.status, run.words, log.scale) if run.status in VERDICTS else None


def has_host_of_several_rows(log: Log) -> bool:
    """Whether a clock of a host would be read more than once."""
    return any(before is not None for before in log.rows_before())


def resolution(stamps: List[int]) -> int:
    """The greatest power of ten of which all stamps are multiples, at least 1: how fine they are by their looks."""
    power = 1
    while any(stamps) and all(stamp % (10 * power) == 0 for stamp in stamps):
        power *= 10
    return power


def steady_source(source: Source, error: int) -> Optional[Source]:
    """The file of a log with a clock for each host, and a new one from each resync on; None where they are too many."""
    records = [record.fields for record in records_of(source.data)]
    lines, clocks = [",".join((FIRST_FIELDS[THIRD], *COLUMNS))], 0
    for fields in records[1:]:
        lines.append(",".join(fields))
        if fields[0] in ("host", "resync"):
            clocks += 1
            lines.append(f"clock,{fields[1]},{error},clock_{clocks}")
    text = "".join(f"{line}\n" for line in lines).encode()
    is_fit = clocks <= MOST_CLOCKS and len(text) <= LIMITS["log"].most
    within = scale_of_source(source).span(error)
    return Source(f"'{source.name}, with clocks steady within {within}'", text) if is_fit else None
