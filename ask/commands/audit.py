"""`ask audit`: tests a folder of windows of a long log, without a search."""

from __future__ import annotations

import argparse
from hashlib import sha256
from typing import Any, Dict, Optional

from ask.formulas import read_formula
from ask.program import Program, program_of
from ask.question import VERDICTS, run_facts, shown_formula
from ask.texts import CANNOT_READ, Source, Trouble, read_source
from ask.words import Answer, bold, counted
from ask.windows.asking import Whole
from ask.windows.auditing import Audit, Fault
from ask.windows.bounds import Contradiction
from ask.windows.keeping import QUESTION, VERDICT, Folder
from ask.windows.opening import LongQuestion, long_question, number_of_jobs
from ask.windows.pool import cores
from ask.windows.shape import shape_of
from ask.windows.verdict import STATUSES

REFUSED = 5  # the status where something isn't so, which is also that of the program's audit
NO_TIMING = 3


def add_words(commands: "argparse._SubParsersAction[argparse.ArgumentParser]", common: argparse.ArgumentParser) -> None:
    """Adds the words of the command."""
    words = commands.add_parser(
        "audit", parents=[common], allow_abbrev=False, help="test a folder of ask check --keep, without a search",
        description="Tests what a folder of ask check --keep says of a long log, without a search: that the slices "
        "cover the log, that each window is the one that the log has, each report by the program's audit, and each "
        "timing of the whole log. The status is 0 where all of it is so, and else 5.",
    )
    words.add_argument("folder", metavar="FOLDER")
    words.add_argument("--log", metavar="LOG", help="the log, where it isn't at its place any more")
    words.add_argument("--jobs", type=number_of_jobs, metavar="N", help="runs of the program at a time; else one a core")
    words.set_defaults(do=do)


def do(arguments: argparse.Namespace) -> Answer:
    """The answer of the command."""
    program = program_of(arguments)
    folder = Folder(arguments.folder)
    if not folder.has_mark():
        raise Trouble(CANNOT_READ, f"{arguments.folder} is no folder of ask check --keep")
    told = folder.read_facts(QUESTION)
    try:
        return audited(arguments, program, folder, told)
    except Fault as fault:
        sentence = f"Refused: {fault}."
        return Answer(REFUSED, [bold(sentence)], facts_of(arguments, sentence, None, 0, program))


def audited(arguments: argparse.Namespace, program: Program, folder: Folder, told: Dict[str, Any]) -> Answer:
    """The answer, or the first fault."""
    source = read_source(arguments.log or str(told.get("log")), "long log")
    if sha256(source.data).hexdigest() != told.get("digest"):
        raise Fault(f"{source.name} isn't the log that was asked")
    formula = Source("the formula", str(told.get("formula")).encode())
    if read_formula(str(told.get("formula"))) is None:
        raise Fault("the folder has no formula")
    options = told.get("options", [])
    if not isinstance(options, list):
        raise Fault("the folder has no options")
    asked = long_question(program, formula, source, [str(word) for word in options], True)
    assert asked
    count, can_be = shown_by(asked, folder, arguments)
    status = NO_TIMING if can_be is None else STATUSES.get((can_be[True], can_be[False]), 4)
    if status != folder.read_facts(VERDICT).get("status"):
        raise Fault("the folder shows another verdict than it says")
    sentence = (
        f"Accepted: what {arguments.folder} says of {shown_formula(formula)} and {source.name} is so, "
        f"by {counted(count, 'window')}: {VERDICTS[status]}."
    )
    return Answer(0, [bold(sentence)], facts_of(arguments, sentence, VERDICTS[status], count, program))


def shown_by(
    asked: LongQuestion, folder: Folder, arguments: argparse.Namespace
) -> "tuple[int, Optional[Dict[bool, Optional[bool]]]]":
    """How many windows were judged, and what the folder shows of each value; None where no timing is admissible."""
    try:
        whole = Whole(asked.log, shape_of(asked.tree))
    except Contradiction:
        return 0, None
    audit = Audit(whole, folder, asked.program, asked.options, arguments.jobs or cores())
    can_be = audit.can_be()
    return audit.windows, can_be


def facts_of(
    arguments: argparse.Namespace, sentence: str, verdict: Optional[str], windows: int, program: Program
) -> Dict[str, Any]:
    """The answer for programs."""
    return {
        "sentence": sentence, "verdict": verdict, "folder": arguments.folder, "windows": windows,
        "runs": run_facts(program.runs),
    }
