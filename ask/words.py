"""What is said: rows, bounds and walks in sentences, tables, and answers for people and programs."""

from __future__ import annotations

import json
import os
import sys
from dataclasses import dataclass, field
from typing import Any, Dict, List, Optional, Sequence

from ask.logs import MOST_SKEW, Bound, Log, Row, bound_of
from ask.reports import Step
from ask.texts import escaped, escaped_json, escaped_lines, width_of, write_output
from ask.units import Scale
from ask.walks import Ground, bound_between, broken_ground, grounds_of

USAGE = 64  # the status of words that are no command
MOST_EXACT = 2**53  # the magnitude up to which all whole numbers are floats of 64 bits
TYPED = "the formula"  # the name of a formula that is in the words themselves


@dataclass
class Answer:
    """An answer: its status, its lines for people, and the same facts for programs."""

    status: int
    lines: List[str] = field(default_factory=list)
    facts: Dict[str, Any] = field(default_factory=dict)


def print_answer(answer: Answer, is_json: bool) -> None:
    """Writes an answer to the standard output, or refuses where that can't be."""
    if is_json:
        print_facts({"status": answer.status, **answer.facts})
    else:
        lines = (line if isinstance(line, Coloured) else escaped_lines(line) for line in answer.lines)
        write_output("\n".join(lines) + "\n")


def print_facts(facts: Dict[str, Any]) -> None:
    """Writes facts as JSON to the standard output, or refuses where that can't be."""
    text = json.dumps(with_exact_numbers(facts), indent=2, ensure_ascii=not writes_all_letters())
    write_output(escaped_json(text) + "\n")


def writes_all_letters() -> bool:
    """Whether the standard output is in UTF-8, as JSON is; elsewhere JSON is written in ASCII."""
    return (sys.stdout.encoding or "utf-8").lower().replace("_", "-") in ("utf-8", "utf8")


def with_exact_numbers(value: Any) -> Any:
    """A value with the whole numbers as strings that a reader of JSON may take for others, as it reads floats."""
    if isinstance(value, dict):
        return {key: with_exact_numbers(inner) for key, inner in value.items()}
    if isinstance(value, (list, tuple)):
        return [with_exact_numbers(inner) for inner in value]
    return str(value) if isinstance(value, int) and abs(value) > MOST_EXACT else value


# Looks


class Coloured(str):
    """A line with colours of its own, in which all else is escaped."""


def is_coloured() -> bool:
    """Whether the output is a terminal that shows colours."""
    return sys.stdout.isatty() and "NO_COLOR" not in os.environ and os.environ.get("TERM") != "dumb"


def bold(text: str) -> str:
    return coloured("1", text)


def yellow(text: str) -> str:
    return coloured("33", text)


def coloured(colour: str, text: str) -> str:
    """A line in a colour, where the output shows colours."""
    return Coloured(f"\x1b[{colour}m{escaped_lines(text)}\x1b[0m") if is_coloured() else text


def grouped(number: int) -> str:
    """A number with commas between its thousands."""
    return f"{number:,}"


def counted(count: int, one: str, many: str = "") -> str:
    """A count with its noun."""
    return f"{grouped(count)} {one if count == 1 else many or one + 's'}"


def most_words(scale: Scale, most: int) -> str:
    """The greatest skew that was tried, in short."""
    return "10^18" if most == MOST_SKEW else scale.span(most)


def listed(words: Sequence[str], most: int = 12) -> str:
    """Words with commas between them, no more than so many."""
    shown = ", ".join(words[:most])
    return f"{shown} and {len(words) - most} more" if len(words) > most else shown


def signed(number: int) -> str:
    """A shift with its sign."""
    return f"{number:+d}" if number else "0"


def shortened(text: str, most: int = 60) -> str:
    """The beginning of a long text."""
    return text if len(text) <= most else text[: most - 2] + ".."


def table(heads: Sequence[str], rows: Sequence[Sequence[str]], left: Sequence[int] = ()) -> List[str]:
    """Lines of columns under their heads; columns are set to the right but for those named."""
    widths = [max(width_of(escaped(cell)) for cell in column) for column in zip(heads, *rows)]
    lines = []
    for cells in [heads, *rows]:
        padded = []
        for place, (cell, width) in enumerate(zip(cells, widths)):
            blanks = " " * (width - width_of(escaped(cell)))
            padded.append(cell + blanks if place in left else blanks + cell)
        lines.append(("  " + "  ".join(padded)).rstrip())
    return lines


# Rows, bounds and walks


def decided_words(status: int, formula: str, log: str) -> Optional[str]:
    """The verdict in a sentence, where it is one of 0, 1 and 2: by all timings, by none, by some."""
    verdicts = {
        0: f"True: {formula} is true by every timing that {log} admits.",
        1: f"False: {formula} is false by every timing that {log} admits.",
        2: f"Either: {formula} is true by some timings that {log} admits and false by others. The log doesn't tell.",
    }
    return verdicts.get(status)


def no_timing_words(log: str) -> str:
    """That a log admits no timing, before the bounds that show it."""
    return f"No timing: {log} admits none, since these bounds contradict each other."


def untold_words(seconds: float) -> str:
    """That the time was over before all was worked out that is said of a verdict."""
    return f"It was stopped after {seconds:g} seconds, before more of the verdict was worked out."


def verdict_words(status: int, formula: str, log: str, is_true_found: bool, options: Sequence[str]) -> str:
    """The verdict of a report in a sentence; of one that leaves a value unknown whether it has a timing for true."""
    told = decided_words(status, formula, log)
    if told is not None:
        return told
    if status == 3:
        return no_timing_words(log)
    found, other = ("true", "false") if is_true_found else ("false", "true")
    limit = grouped(int(options[1])) if options else "200,000"
    return f"Unknown: {formula} can be {found}, and whether it can be {other} wasn't found within {limit} conflicts."


def row_words(log: Log, event: int) -> str:
    """A row as sentences name it, as `pay recv m1 (line 6)`."""
    row = log.rows[event]
    return f"{log.host_of(event)} {row.kind} {row.name} (line {row.line})"


def lines_words(log: Log, events: Sequence[int]) -> str:
    """The lines of the file at which rows stand."""
    lines = [str(log.rows[event].line) for event in events]
    return f"line {lines[0]}" if len(lines) == 1 else f"lines {listed(lines)}"


def step_words(log: Log, step: Step) -> str:
    """What a bound of the log says, as a sentence without its full stop."""
    event = step.numbers[0]
    bound = bound_of(log, step.kind, event)
    if bound is None:
        return " ".join([step.kind, *(str(number) for number in step.numbers)])
    if step.kind == "extra":
        return f"{after_words(log, bound)}: the bound of line {log.extras[event].line}"
    row = log.rows[event]
    name = row_words(log, event)
    if step.kind in ("under", "over"):
        return f"{name} {reading_words(log, row, step.kind)}"
    scale = log.scale
    by = f"its stamp is {scale.moment(row.stamp)} and the skew of {log.host_of(event)} {scale.span(row.skew)}"
    if step.kind == "low":
        return f"{name} can't be before {scale.moment(-bound.most)}: {by}"
    if step.kind == "high":
        return f"{name} can't be after {scale.moment(bound.most)}: {by}"
    if step.kind == "late":
        return f"{name} can't be more than {scale.span(bound.most)} after {row_words(log, bound.end or 0)}: message {row.name}"
    earlier = row_words(log, bound.start or 0)
    if step.kind == "message":
        return f"{name} can't be less than {scale.span(-bound.most)} after {earlier}: message {row.name}"
    if bound.most == 0:
        return f"{name} can't be before {earlier}: rows of one host are in the order of the file"
    return f"{name} can't be less than {scale.span(-bound.most)} after {earlier}: the gap of {log.host_of(event)}"


def after_words(log: Log, bound: Bound) -> str:
    """That one row can't be more than so much after another."""
    later, earlier = (row_words(log, end or 0) for end in (bound.start, bound.end))
    if bound.most > 0:
        return f"{later} can't be more than {log.scale.span(bound.most)} after {earlier}"
    if bound.most == 0:
        return f"{later} can't be after {earlier}"
    return f"{later} can't be less than {log.scale.span(-bound.most)} before {earlier}"


def reading_words(log: Log, row: Row, kind: str) -> str:
    """What the clock that a row reads says of its time."""
    clock = log.clocks[row.clock or 0]
    moment = log.scale.moment
    far = f"before {moment(row.stamp - row.error)}" if kind == "under" else f"after {moment(row.stamp + row.error)}"
    return f"can't be {far} by the clock {clock}: its stamp is {moment(row.stamp)}, {error_words(log, [row.error])}"


def error_words(log: Log, errors: Sequence[int]) -> str:
    """How far readings of a clock may be off from what it shows."""
    each = " and ".join(log.scale.span(error) for error in dict.fromkeys(errors))
    return f"off by at most {each}" if any(errors) else "without an error"


def ground_words(log: Log, ground: Ground) -> str:
    """What a ground says, as a sentence without its full stop."""
    bound = bound_between(log, ground)
    if len(ground) == 1 or bound is None:
        return " and ".join(step_words(log, step) for step in ground)
    rows = [log.rows[step.numbers[0]] for step in ground]
    by = f"they are by one clock, {log.clocks[rows[0].clock or 0]}, {error_words(log, [row.error for row in rows])}"
    return f"{after_words(log, bound)}: {by}"


def broken_words(log: Log, step: Step, times: Sequence[int]) -> str:
    """What the first bound says that times break."""
    return ground_words(log, broken_ground(log, step, times))


def walk_words(log: Log, walk: Sequence[Step]) -> List[str]:
    """The bounds of a closed walk, and by how much they contradict each other."""
    lines = [f"  {sentence}" for sentence in walk_facts(log, walk)]
    bounds = [bound_of(log, step.kind, step.numbers[0]) for step in walk]
    if all(bounds):
        excess = -sum(bound.most for bound in bounds if bound)
        lines.append(f"Together they ask for {log.scale.span(excess)} more than there is.")
    return lines


def walk_facts(log: Log, walk: Sequence[Step]) -> List[str]:
    """The bounds of a closed walk, for programs."""
    return [ground_words(log, ground) for ground in grounds_of(walk)]
