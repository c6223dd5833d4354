"""`ask each`: one formula for each name of a log that matches, in one table, with one status."""

from __future__ import annotations

import argparse
import re
from collections import Counter
from typing import Any, Dict, List, Pattern, Sequence, Tuple

from ask.cautions import add_strict_words, strict_status
from ask.commands.check import refuse_wrong_conflicts
from ask.lines import SHOWN, Line, table_of, walk_of, warning_lines
from ask.logs import Log
from ask.macros import add_formula_words, formulas_answer, shown_line, written_out
from ask.program import STOPPED, program_of
from ask.question import run_facts, shown_formula, sources_of, text_of_source
from ask.refusals import file_hint
from ask.texts import Source, Trouble
from ask.units import add_unit_words, unit_facts
from ask.windows.opening import add_window_words
from ask.words import USAGE, Answer, bold, counted, no_timing_words, table, walk_facts, walk_words
from ask.written import as_written

# Which status the table has: the first of these that a line has.
ORDER = (3, 1, 2, 4, STOPPED, 0)
PLACE = re.compile(r"\{(\d{0,3})\}")  # of the name or a group of it in a template


def add_words(commands: "argparse._SubParsersAction[argparse.ArgumentParser]", common: argparse.ArgumentParser) -> None:
    """Adds the words of the command."""
    words = commands.add_parser(
        "each", parents=[common], allow_abbrev=False, help="one formula for each matching name, in one table",
        description="Checks a formula for each name of the log that a regular expression matches as a whole. In "
        "the template {} stands for the name that matches, and {1}, {2} and so on for the expression's groups. An "
        "expression with \\. in it is matched with HOST.NAME, any other with names alone. The status is the first of "
        "3, 1, 2, 4, 124 and 0 that a formula has, or that of a refusal. A log without a timing is told with the "
        "bounds that contradict each other.",
    )
    words.add_argument(
        "template",
        metavar="TEMPLATE",
        help="a file, or the formula itself, as 'G ({1}.{2}_asked -> F[0,260] app.{2}_done)'",
    )
    words.add_argument("log", metavar="LOG")
    words.add_argument("--over", metavar="REGEX", required=True, help="the names, as '(\\w+)\\.(\\w+)_asked'")
    words.add_argument("--conflicts", metavar="N", help="of the search for each value, as for the program")
    add_strict_words(words)
    add_unit_words(words)
    add_formula_words(words)
    add_window_words(words, has_folder=False)
    words.set_defaults(do=do)


def do(arguments: argparse.Namespace) -> Answer:
    """The answer of the command."""
    refuse_wrong_conflicts(arguments.conflicts)
    options = ["--conflicts", arguments.conflicts] if arguments.conflicts else []
    program = program_of(arguments)
    template, source = sources_of(arguments.template, arguments.log, arguments.unit, "long log")
    if not re.search(PLACE, text_of_source(template)):
        said = f"{shown_formula(template)} has no {{}} for the names: each of them would have this formula"
        raise Trouble(USAGE, said + file_hint(template))
    pattern = pattern_of(arguments.over)
    table_asked = table_of(program, source, options, arguments)
    matches = matching(table_asked.log(), pattern)
    if not matches:
        raise Trouble(USAGE, f"{arguments.over} matches no name of {source.name} as a whole")
    formulas = {name: formula_for(template, source, name, groups) for name, groups in matches.items()}
    if arguments.formula_alone:
        return formulas_answer(formulas, is_named=False)
    lines = [table_asked.line(name, formula, shown_line(as_written(formula))) for name, formula in formulas.items()]
    status = next(status for status in ORDER if any(line.status == status for line in lines))
    facts: Dict[str, Any] = {"lines": [line.facts() for line in lines]}
    walk, text, log = walk_of(lines), shown(lines), table_asked.log()
    if walk is not None:
        text = [bold(no_timing_words(source.name)), *walk_words(log, walk), "", *text]
        facts["contradiction"] = walk_facts(log, walk)
    warnings = [warning for line in lines for warning in line.warnings]
    facts.update(unit_facts(log.scale), runs=run_facts(program.runs))
    return Answer(strict_status(arguments, warnings, status), text, facts)


def formula_for(template: Source, log: Source, name: str, groups: Sequence[str]) -> Source:
    """The formula of a name that matches, as the program takes it."""
    text = " ".join(filled(text_of_source(template), name, groups).split())
    return written_out(Source(f"the formula for {name}", text.encode("utf-8", "surrogateescape")), log)


def pattern_of(text: str) -> Pattern:
    """The regular expression that a word is."""
    try:
        return re.compile(text)
    except (re.error, OverflowError, RecursionError) as error:
        raise Trouble(USAGE, f"--over {text} is no regular expression: {error}") from None


def matching(log: Log, pattern: Pattern) -> Dict[str, Tuple[str, ...]]:
    """The names that match, each with the groups."""
    has_host = "\\." in pattern.pattern
    names = [f"{log.host_of(event)}.{row.name}" if has_host else row.name for event, row in enumerate(log.rows)]
    found = {}
    for name in dict.fromkeys(names):
        match = pattern.fullmatch(name)
        if match:
            found[name] = tuple(group or "" for group in match.groups())
    return found


def filled(template: str, name: str, groups: Sequence[str]) -> str:
    """A template with the name and the groups of a match in their places."""

    def place(match: "re.Match[str]") -> str:
        number = int(match.group(1) or 0)
        if number > len(groups):
            raise Trouble(USAGE, f"the template has {match.group()}, and --over has {counted(len(groups), 'group')}")
        return name if number == 0 else groups[number - 1]

    return re.sub(PLACE, place, template)


def shown(lines: Sequence[Line]) -> List[str]:
    """The table, how often each verdict is there, and the warnings."""
    rows = [[line.name, SHOWN[line.status], str(line.status), line.formula] for line in lines]
    statuses = Counter(line.status for line in lines)
    counts = [f"{statuses[status]} {SHOWN[status]}" for status in sorted(statuses)]
    text = table(["name", "verdict", "status", "formula"], rows, left=(0, 1, 3))
    text.append(bold(f"{counted(len(lines), 'formula')}: {', '.join(counts)}."))
    return text + warning_lines(lines)
