"""What the whole program must answer to words and files.

The tests stand in their order, and the first one that fails decides. Most
answers leave no choice; what is asked of the others is left to judge.py.
"""

from typing import NamedTuple, Optional

import best_answers
import formats
import json_logs
import reference
import reports
import trimming
from formats import (
    FORMULA_LIMIT,
    FormulaFault,
    NODE_LIMIT,
    REPORT_LIMIT,
    SIZE_LIMIT,
    TIMES_LIMIT,
    TimesFault,
    Tree,
    core_nodes,
    read_formula,
    read_times,
    unknown_host,
)
from logs import LOG_LIMIT, Log, LogFault, log_text, read_log
from size import size_of

# The commands of the program, each with its number of operands: files, a seed, or what is asked of a formula and a log.
COMMANDS = {
    "times": 1, "replay": 3, "order": 1, "check": 2, "audit": 3, "trim": 1, "json": 1, "demo": 1, "tolerance": 4, "span": 5,
}
# Those that tell the best number with which a formula has a value.
BEST = ("tolerance", "span")
# Those that take the option on conflicts.
SEARCHES = ("check", "audit", *BEST)
OPTION = "--conflicts"
# The greatest seed of a demo.
MAX_SEED = 2**64 - 1


class Exact(NamedTuple):
    """An answer that leaves no choice."""

    status: int
    output: bytes


class Judged(NamedTuple):
    """An answer of which several may be right: the command and what it is asked of."""

    command: str
    log: Log
    formula: Optional[Tree] = None
    conflicts: Optional[int] = None
    asked: Optional[best_answers.Asked] = None


class Refusal(Exception):
    """The first test that fails, as its status and line."""

    def __init__(self, status, line=""):
        super().__init__(status, line)
        self.answer = Exact(status, line.encode() + b"\n" if line else b"")


class Files:
    """The files of a run. The name - is the standard input, which can be opened once."""

    def __init__(self, held):
        self.held = held
        self.input_taken = False

    def read(self, name, limit, what):
        """The bytes of a file, or the Refusal of one that is missing or too long."""
        if name == "-":
            if self.input_taken:
                raise Refusal(74)
            self.input_taken = True
            data = self.held.get("-", b"")
        elif name in self.held:
            data = self.held[name]
        else:
            raise Refusal(74)
        if len(data) > limit:
            raise Refusal(67, f"refused length {what}")
        return data


# Words


class Command(NamedTuple):
    name: str
    operands: list  # the names of its files, with what is asked before them, or the seed of a demo
    conflicts: int


def command_of(words):
    """The command of a list of words, or None."""
    name, *rest = words or ["times", "-"]
    if name not in COMMANDS:
        return None
    end = rest.index("--") if "--" in rest else len(rest)
    operands, values = operands_and_values(rest[:end])
    operands += rest[end + 1 :]
    numbers = [reports.conflicts_number(value) for value in values]
    allowed = 1 if name in SEARCHES else 0
    if len(numbers) > allowed or None in numbers or not are_operands(name, operands):
        return None
    return Command(name, operands, *(numbers or [reports.CONFLICTS]))


def are_operands(name, operands):
    """Whether operands are those of a command."""
    if len(operands) != COMMANDS[name] or "" in operands:
        return False
    if name == "demo":
        return is_seed(operands[0])
    return name not in BEST or best_answers.asked_of(name, operands) is not None


def is_seed(word):
    """Whether a word is a number up to the greatest seed, without a sign or a leading zero."""
    return formats.number(word.encode(), MAX_SEED) is not None


def operands_and_values(words):
    """The operands among words before two dashes, and the values of options.

    The value of an option that isn't there counts as one that is no number.
    """
    operands, values = [], []
    left = iter(words)
    for word in left:
        if word == OPTION:
            values.append(next(left, ""))
        elif word.startswith(OPTION + "="):
            values.append(word.removeprefix(OPTION + "="))
        elif word.startswith("-") and word != "-":
            values.append("")
        else:
            operands.append(word)
    return operands, values


# Answers


def answer(words, held):
    """What the program must answer to words and files: Exact or Judged."""
    command = command_of(words)
    try:
        if command is None:
            raise Refusal(64, "refused words")
        if command.name == "demo":
            return demo_answer(*command.operands)
        files = Files(held)
        if command.name in ("times", "order"):
            log = log_from(files, *command.operands)
            return order_answer(log) if command.name == "order" else Judged("times", log)
        if command.name == "replay":
            return replay_answer(files, *command.operands)
        if command.name == "trim":
            return trim_answer(files, *command.operands)
        if command.name == "json":
            return json_answer(files, *command.operands)
        if command.name == "check":
            return check_answer(files, command.conflicts, *command.operands)
        if command.name in BEST:
            asked = best_answers.asked_of(command.name, command.operands)
            return best_answer(files, command, asked)
        return audit_answer(files, command.conflicts, *command.operands)
    except Refusal as refusal:
        return refusal.answer


def formula_from(files, name):
    """The formula of a file, or its Refusal."""
    formula = read_formula(files.read(name, FORMULA_LIMIT, "formula"))
    if isinstance(formula, FormulaFault):
        raise Refusal(65, f"refused formula {formula.number} at byte {formula.byte}")
    return formula


def log_from(files, name):
    """The log of a file, or its Refusal."""
    return log_or_refusal(read_log(files.read(name, LOG_LIMIT, "log")))


def log_or_refusal(log):
    """The log, or the Refusal of its fault."""
    if isinstance(log, LogFault):
        place = "" if log.record is None else f" at record {log.record}"
        raise Refusal(66, f"refused log {log.number}{place}")
    return log


def formula_and_log_from(files, formula_name, log_name):
    """The formula and the log of two files, which fit together, or the first Refusal."""
    formula = formula_from(files, formula_name)
    log = log_from(files, log_name)
    byte = unknown_host(formula, log)
    if byte is not None:
        raise Refusal(65, f"refused formula 8 at byte {byte}")
    if len(core_nodes(formula)) > NODE_LIMIT:
        raise Refusal(67, f"refused nodes above {NODE_LIMIT}")
    return formula, log


def times_from(files, name, events):
    """The times of a file, or its Refusal."""
    times = read_times(files.read(name, TIMES_LIMIT, "times"), events)
    if isinstance(times, TimesFault):
        raise Refusal(68, f"refused times {times.number} at line {times.line}")
    return times


def report_from(files, name):
    """The report of a file, or its Refusal."""
    report = reports.read_report(files.read(name, REPORT_LIMIT, "report"))
    if isinstance(report, reports.SyntaxFault):
        raise Refusal(5, f"refused report at line {report.line}")
    return report


def refuse_too_large(formula, log):
    """Raises the Refusal of a size above the limit."""
    found = size_of(formula, log)
    if found > SIZE_LIMIT:
        raise Refusal(67, f"refused size {found}")


def replay_answer(files, formula_name, log_name, times_name):
    """The answer of a replay; its tests raise their Refusals in their order."""
    formula, log = formula_and_log_from(files, formula_name, log_name)
    times = times_from(files, times_name, len(log.rows))
    broken = reference.first_broken(log, times)
    if broken:
        return Exact(6, b"not admissible %s %d\n" % (broken.kind, broken.event))
    if reference.truth(log, times, formula):
        return Exact(0, b"true\n")
    return Exact(1, b"false\n")


def order_answer(log):
    """The clocks of a log, or the demand for a cycle."""
    found = reference.vector_clocks(log)
    if found is None:
        return Judged("order", log)
    lines = [
        f"{event}: " + " ".join(str(count) for count in counts) + "\n"
        for event, counts in enumerate(found)
    ]
    return Exact(0, "".join(lines).encode())


def check_answer(files, conflicts, formula_name, log_name):
    """The demand for a report; the tests raise their Refusals in their order."""
    formula, log = formula_and_log_from(files, formula_name, log_name)
    refuse_too_large(formula, log)
    return Judged("check", log, formula, conflicts)


def best_answer(files, command, asked):
    """The demand for the best number; the tests raise their Refusals in their order."""
    formula, log = formula_and_log_from(files, *command.operands[-2:])
    for event in asked.events():
        if event >= len(log.rows):
            raise Refusal(69, f"refused event {event}")
    refuse_too_large(formula, asked.whole(log))
    return Judged(command.name, log, formula, command.conflicts, asked)


def audit_answer(files, conflicts, formula_name, log_name, report_name):
    """The answer of an audit; its tests raise their Refusals in their order."""
    formula, log = formula_and_log_from(files, formula_name, log_name)
    report = report_from(files, report_name)
    refuse_too_large(formula, log)
    place = reports.first_faulty_place(log, formula, conflicts, report)
    if place is not None:
        raise Refusal(5, f"refused {place.part} at line {place.line}")
    return Exact(0, b"accepted\n")


def trim_answer(files, report_name):
    """The text of the trimmed report, or the Refusal of the first section that can't be trimmed."""
    report = report_from(files, report_name)
    place = trimming.untrimmed_place(report)
    if place is not None:
        raise Refusal(5, f"refused {place.part} at line {place.line}")
    return Exact(0, reports.report_text(trimming.trimmed_report(report)))


def json_answer(files, name):
    """The text of the log that a JSON file is, or its Refusal."""
    found = json_logs.read_json(files.read(name, json_logs.JSON_LIMIT, "json"))
    if isinstance(found, json_logs.JsonFault):
        raise Refusal(66, f"refused json {found.number}")
    return Exact(0, log_text(log_or_refusal(found)))


def demo_answer(seed):
    """The summary of a demo, whose formula is true by every timing whatever the seed."""
    return Exact(0, f"demo {seed}\nhosts 6 rows 24\nvalues true\n".encode())
