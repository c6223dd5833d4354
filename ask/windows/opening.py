"""Opens a question on a long log: reads the log, and has the program judge the formula on a log with the same hosts."""

from __future__ import annotations

import argparse
from typing import List, NamedTuple, Optional, Sequence, Union

from ask.formulas import Tree
from ask.logs import MOST_ROWS, Fault, number
from ask.program import Program
from ask.question import VERDICTS, Question, accepted_tree
from ask.refusals import log_refusal, refusal
from ask.texts import LIMITS, Source, Trouble
from ask.units import scale_of_source
from ask.windows.longlog import LongLog, read_long_log

WRONG_LOG = 66  # the status of the program where a file is no log
NO_HOSTS = b"kind,host,time,name\nhost,a,0,0\nnote,a,0,a\n"
UNKNOWN_HOST = "8"  # the fault of a formula with a host that the log doesn't have
MOST_JOBS = 1024  # runs at a time


class LongQuestion(NamedTuple):
    """A formula that the program accepts, and a log of any number of rows."""

    program: Program
    formula: Source
    source: Source
    log: LongLog
    tree: Tree
    options: Sequence[str]


def add_window_words(words: argparse.ArgumentParser, has_folder: bool = True) -> None:
    """Adds the options on long logs, of which one keeps windows in a folder."""
    group = words.add_argument_group("long logs, of more than 1,024 rows, which are asked by windows (docs/real-logs.md)")
    group.add_argument("--windows", action="store_true", help="ask by windows though the log is short")
    if has_folder:
        said = "keep windows and reports, and go on where a run was broken off; ask audit tests it"
        group.add_argument("--keep", metavar="FOLDER", help=said)
    group.add_argument("--jobs", type=number_of_jobs, metavar="N", help="runs of the program at a time; else one a core")


def number_of_jobs(text: str) -> int:
    """A number of jobs."""
    value = number(text, MOST_JOBS)
    if not value:
        raise argparse.ArgumentTypeError(f"it is a number from 1 to {MOST_JOBS:,}, and not {text!r}")
    return value


def may_be_long(source: Source) -> bool:
    """Whether a log may have more rows than the program takes, or is longer than it takes."""
    return len(source.data) > LIMITS["log"].most or source.data.count(b"\n") + source.data.count(b"\r") > MOST_ROWS


def long_question(
    program: Program, formula: Source, source: Source, options: Sequence[str], is_wanted: bool
) -> Optional[LongQuestion]:
    """The question on a log that is asked by windows, or its refusal; None where the log is one for the program."""
    log = long_log_of(source, is_wanted)
    return None if log is None else question_of(program, formula, source, log, options)


def question_of(
    program: Program, formula: Source, source: Source, log: Union[LongLog, Fault], options: Sequence[str]
) -> LongQuestion:
    """The question on a long log, or its refusal: what is wrong with the formula comes first."""
    probe = formula_on_hosts(program, formula, source, log)
    if isinstance(log, Fault):
        raise long_log_refusal(log, source)
    return LongQuestion(program, formula, source, log, accepted_tree(probe.formula), options)


def long_log_refusal(fault: Fault, source: Source) -> Trouble:
    """The refusal of a file that is no long log, in the words of short ones."""
    place = [] if fault.record is None else ["at", "record", str(fault.record)]
    return Trouble(WRONG_LOG, log_refusal(["refused", "log", str(fault.number), *place], source))


def long_log_of(source: Source, is_wanted: bool) -> Union[LongLog, Fault, None]:
    """The long log of a file or its fault, or None where it is short and windows aren't wanted."""
    if not is_wanted and not may_be_long(source):
        return None
    log = read_long_log(source.data)
    if isinstance(log, LongLog):
        log.scale = scale_of_source(source)
    is_short = isinstance(log, LongLog) and len(log.rows) <= MOST_ROWS and len(source.data) <= LIMITS["log"].most
    return None if is_short and not is_wanted else log


def formula_on_hosts(program: Program, formula: Source, source: Source, log: Union[LongLog, Fault]) -> Question:
    """The question of a formula on a log with the hosts of a long one and one row, or the refusal of the formula."""
    data = NO_HOSTS if isinstance(log, Fault) else hosts_text(log)
    question = Question(program, formula, Source(f"the hosts of {source.name}", data))
    run = question.check()
    if run.status not in VERDICTS and not (isinstance(log, Fault) and is_of_hosts(run.line().split(" "))):
        raise refusal(run, formula, Source(source.name, data))
    return question


def is_of_hosts(words: List[str]) -> bool:
    """Whether a refusal says that the log doesn't have a host."""
    return words[:2] == ["refused", "formula"] and words[2:3] == [UNKNOWN_HOST]


def hosts_text(log: LongLog) -> bytes:
    """A log with the hosts of another one and one row."""
    hosts = "".join(f"host,{host.name},0,0\n" for host in log.hosts)
    return f"kind,host,time,name\n{hosts}note,{log.hosts[0].name},0,a\n".encode()
