"""`ask check`: the verdict in a sentence, warnings, the timings side by side, and what a refutation rests on."""

from __future__ import annotations

import argparse
from typing import Any, Dict, List, Optional, Sequence, Set, Tuple

from ask import explain
from ask.cautions import (
    Caution, add_strict_words, caution_facts, caution_lines, cautions_in_time, strict_status, values_of_status,
)
from ask.ends import OutOfTime, unlimit_time
from ask.grounds import ground_facts, ground_lines
from ask.macros import add_formula_words, formula_answer, written_out
from ask.nearer import brought_nearer
from ask.program import STOPPED, Run, Stopped, program_of
from ask.properties import add_properties_words, properties_answer
from ask.question import (
    VERDICTS, Question, accepted_log, accepted_tree, answered, has_true_witness, report_of_run, run_facts, run_lines,
    shown_formula, sources_of, step_of_run, text_of_source,
)
from ask.reports import Report, Section
from ask.steady import EITHER, steady_answer
from ask.texts import Trouble, write_text
from ask.units import add_unit_words, unit_facts
from ask.windows.answer import long_answer
from ask.windows.opening import add_window_words, long_question
from ask.words import (
    USAGE, Answer, bold, broken_words, counted, error_words, untold_words, table, verdict_words, walk_facts, walk_words,
)

FEW_CONFLICTS = 100  # what is tried where a run was stopped
MOST_ROWS_SHOWN = 40
SPREAD_NOTE = "a skew is a range for each row by itself, and no offset of the clock"


def add_words(commands: "argparse._SubParsersAction[argparse.ArgumentParser]", common: argparse.ArgumentParser) -> None:
    """Adds the words of the command."""
    words = commands.add_parser(
        "check", parents=[common], allow_abbrev=False, help="the verdict on a formula and a log, in words",
        description="The verdict on a formula and a log in a sentence, warnings, the timings that show it, and why.",
    )
    formula = words.add_argument("formula", metavar="FORMULA", help="a file, or the formula itself; not with --properties")
    log = words.add_argument("log", metavar="LOG")
    add_properties_words(words, formula, log)
    add_unit_words(words)
    add_formula_words(words)
    words.add_argument("--conflicts", metavar="N", help="of the search for each value, as for the program")
    add_strict_words(words)
    words.add_argument(
        "--report", metavar="FILE", help="keep the report of the program's check, which skewcheck audit takes",
    )
    words.add_argument(
        "--as-found", action="store_true", help="show the program's own timings, not brought nearer to the stamps",
    )
    words.add_argument(
        "--all", action="store_true", help="show all rows, all reasons, and all bounds that a refutation rests on",
    )
    words.add_argument("--runs", action="store_true", help="name all runs of the program")
    add_window_words(words)
    words.set_defaults(do=do)


def do(arguments: argparse.Namespace) -> Answer:
    """The answer of the command."""
    options = ["--conflicts", arguments.conflicts] if arguments.conflicts else []
    if arguments.properties is not None:
        refuse_wrong_conflicts(arguments.conflicts)
        return properties_answer(arguments, options)
    if arguments.junit is not None:
        raise Trouble(USAGE, "--junit is for --properties")
    asked, source = sources_of(arguments.formula, arguments.log, arguments.unit, "long log")
    formula = written_out(asked, source)
    if arguments.formula_alone:
        return formula_answer(formula)
    program = program_of(arguments)
    question = Question(program, formula, source, options)
    refuse_wrong_conflicts(arguments.conflicts)
    if arguments.report == "-":
        raise Trouble(USAGE, "--report names a file, since the standard output has the answer")
    is_by_windows = arguments.windows or arguments.keep is not None
    long = long_question(program, question.formula, question.log_source, options, is_by_windows)
    if long is not None:
        if arguments.report is not None:
            raise Trouble(USAGE, "--report is for one run of the program: --keep FOLDER keeps the reports of windows")
        return long_answer(long, arguments)
    notes: List[str] = []
    try:
        run = answered(question.check(), question)
    except Stopped:
        run = with_few_conflicts(question, notes)
    answer = Reading(question, run, notes, arguments).answer()
    if arguments.report is not None:
        write_text(arguments.report, run.output.decode("ascii"))
    return answer


def refuse_wrong_conflicts(text: Optional[str]) -> None:
    """Refuses a number of conflicts that the program doesn't take."""
    if text is not None and not (
        text.isascii() and text.isdigit() and 1 <= int(text[:8]) <= 10**6 and text[0] != "0"
    ):
        raise Trouble(USAGE, f"--conflicts is a number from 1 to 1,000,000, and not {text!r}")


def with_few_conflicts(question: Question, notes: List[str]) -> Run:
    """What a search with few conflicts found, where the whole one was stopped."""
    question.options = ["--conflicts", str(FEW_CONFLICTS)]
    seconds = question.program.seconds
    question.program.begin()
    notes.append(f"The check was stopped after {seconds:g} seconds. This is what {FEW_CONFLICTS} conflicts found; "
                 f"--seconds and --conflicts set other limits.")
    try:
        return answered(question.check(), question)
    except Stopped:
        raise Trouble(STOPPED, (
            f"the check took longer than {seconds:g} seconds and was stopped, and so was one with {FEW_CONFLICTS} "
            f"conflicts. Give it more --seconds, or ask about a window of the log (ask log --help)"
        )) from None


class Reading:
    """A run of `check`, and what is said of it."""

    def __init__(self, question: Question, run: Run, notes: List[str], arguments: argparse.Namespace):
        self.question, self.run, self.notes, self.arguments = question, run, notes, arguments
        self.log = accepted_log(question.log_source)
        self.tree = accepted_tree(question.formula)
        self.report = Report(len(self.log.rows))  # until it is read
        self.remarks: List[str] = []  # on the timings
        self.lines: List[str] = []
        self.facts: Dict[str, Any] = {}

    def answer(self) -> Answer:
        """The answer: its sections one after another."""
        self.say_verdict()
        status, values = self.run.status, values_of_status(self.run.status)
        warnings = [] if status == 3 else cautions_in_time(self.question, self.log, self.tree, values)
        self.say_warnings(warnings)
        self.say_what_there_is_time_for()
        self.say_runs()
        return Answer(strict_status(self.arguments, warnings, status), self.lines, self.facts)

    def say_what_there_is_time_for(self) -> None:
        """What is to be said of the verdict, until the time is over."""
        for say_section in (
            self.read_report, self.say_contradiction, self.say_stamps, self.say_steady, self.say_shown, self.say_grounds,
        ):
            said = len(self.lines)
            try:
                say_section()
            except (Stopped, OutOfTime):
                unlimit_time()  # what is known is told
                del self.lines[said:]
                self.say_stopped()
                return

    def read_report(self) -> None:
        """Reads what the run wrote."""
        self.report = report_of_run(self.run)

    # The verdict

    def say_verdict(self) -> None:
        formula, log = shown_formula(self.question.formula), self.question.log_source.name
        sentence = verdict_words(self.run.status, formula, log, has_true_witness(self.run), self.question.options)
        self.lines += [*self.notes, bold(sentence)]
        self.facts.update(verdict=VERDICTS[self.run.status], check_status=self.run.status, sentence=sentence)
        self.facts.update(formula=formula, log=log, notes=self.notes, **unit_facts(self.log.scale))

    def say_warnings(self, warnings: Sequence[Caution]) -> None:
        self.facts["warnings"] = caution_facts(warnings)
        self.lines += caution_lines(warnings)

    def say_stamps(self) -> None:
        """The value on the stamps as they are written, or the first bound that they break."""
        stamps = self.log.stamps()
        run = self.question.replay(text_of_source(self.question.formula), stamps)
        if run.status in (0, 1):
            word = "true" if run.status == 0 else "false"
            self.facts["as_stamped"] = {"value": word}
            self.lines.append(f"With every row at its stamp it is {word}. [replay]")
        elif run.status == 6:
            step = step_of_run(run)
            broken = broken_words(self.log, step, stamps)
            self.facts["as_stamped"] = {"value": None, "broken": f"{step.kind} {step.numbers[0]}", "sentence": broken}
            self.lines.append(f"The stamps themselves are no admissible timing: {broken}. [replay]")

    def say_steady(self) -> None:
        """What it would be with steady clocks, where the log doesn't tell and declares none."""
        if self.run.status != EITHER or self.arguments.quiet:
            return
        steady = steady_answer(self.question, self.log)
        if steady:
            self.facts["steady"] = steady.facts()
            self.lines.append(steady.sentence())

    # Timings

    def say_shown(self) -> None:
        """The timings, and why the formula has its values in them."""
        timings = self.timings()
        reasons, named = self.reasons(timings)
        self.say_timings(timings, named)
        self.say_reasons(reasons)

    def found(self) -> Dict[bool, List[int]]:
        """The timings that the report has."""
        return {value: section.times for value, section in self.report.sections.items() if section.kind == "witness"}

    def timings(self) -> Dict[bool, List[int]]:
        """The same, brought nearer to the stamps unless they are wanted as found."""
        found = self.found()
        if self.arguments.as_found:
            return found
        nearer = {value: brought_nearer(self.question, self.log, times, value) for value, times in found.items()}
        self.remarks += dict.fromkeys(timing.remark for timing in nearer.values() if timing.remark)
        return {value: timing.times for value, timing in nearer.items()}

    def say_timings(self, timings: Dict[bool, List[int]], named: Set[int]) -> None:
        """The timings side by side, a line a row."""
        self.facts["timings"] = timing_facts(timings)
        self.facts["remarks"] = self.remarks
        if not timings:
            return
        shown = self.rows_shown(timings, named)
        heads = ["line", "host", "row", "stamp"]
        for value in timings:
            heads += ["shift", f"{'true' if value else 'false'} at"]
        heads.append("")
        rows = [self.cells(event, timings) for event in shown]
        by = "found by check" + ("" if self.arguments.as_found else ", and brought nearer to the stamps by replay")
        one = f"A timing that makes it {'true' if True in timings else 'false'}"
        title = "Timings that make it true and false" if len(timings) == 2 else one
        self.lines += ["", f"{title} ({by}):", *table(heads, rows, left=(1, 2, len(heads) - 1))]
        if len(shown) < len(self.log.rows):
            rest = len(self.log.rows) - len(shown)
            self.lines.append(f"  {counted(rest, 'row')} left out; --all shows all")
        if any("both" in row[-1] for row in rows):
            self.lines.append("  both: a row that isn't at its stamp in either timing")
        self.remarks += self.spreads(timings) + self.offsets(timings)
        self.lines += [f"  {remark}" for remark in self.remarks]

    def cells(self, event: int, timings: Dict[bool, List[int]]) -> List[str]:
        """The line of a row in the table of timings."""
        row = self.log.rows[event]
        scale = self.log.scale
        cells = [str(row.line), self.log.host_of(event), f"{row.kind} {row.name}", scale.moment(row.stamp)]
        shifts = [times[event] - row.stamp for times in timings.values()]
        for shift in shifts:
            cells += [scale.shift(shift), scale.moment(row.stamp + shift)]
        return cells + ["both" if len(shifts) == 2 and all(shifts) else ""]

    def rows_shown(self, timings: Dict[bool, List[int]], named: Set[int]) -> List[int]:
        """All rows of a short log; of a long one those that the reasons name, and then those that are shifted."""
        events = range(len(self.log.rows))
        if self.arguments.all or len(events) <= MOST_ROWS_SHOWN:
            return list(events)
        stamps = self.log.stamps()
        shifted = [event for event in events if any(times[event] != stamps[event] for times in timings.values())]
        return sorted([*named, *(event for event in shifted if event not in named)][:MOST_ROWS_SHOWN])

    def spreads(self, timings: Dict[bool, List[int]]) -> List[str]:
        """That rows of one host are shifted by different amounts, which an offset couldn't do."""
        for times in timings.values():
            for number, host in enumerate(self.log.hosts):
                rows = [event for event, row in enumerate(self.log.rows) if row.host == number and row.clock is None]
                shifts = self.shifts(times, rows)
                if len(set(shifts)) > 1:
                    amounts = f"{self.log.scale.shift(min(shifts))} to {self.log.scale.shift(max(shifts))}"
                    return [f"rows of {host.name} are shifted by different amounts, {amounts}: {SPREAD_NOTE}"]
        return []

    def offsets(self, timings: Dict[bool, List[int]]) -> List[str]:
        """By how much the rows of each clock are shifted, which has one offset."""
        found = []
        for value, times in timings.items():
            for clock, rows in zip(self.log.clocks, self.log.clock_rows()):
                shifts = self.shifts(times, rows)
                if any(shifts):
                    shift = self.log.scale.shift
                    amounts = shift(min(shifts)) + (f" to {shift(max(shifts))}" if len(set(shifts)) > 1 else "")
                    off = error_words(self.log, [max(self.log.rows[event].error for event in rows)])
                    found.append(f"{str(value).lower()}: rows by the clock {clock} are shifted by {amounts}, by one offset, {off}")
        return found

    def shifts(self, times: List[int], events: Sequence[int]) -> List[int]:
        """By how much rows are shifted."""
        return [times[event] - self.log.rows[event].stamp for event in events]

    # Reasons

    def reasons(self, timings: Dict[bool, List[int]]) -> Tuple[Dict[str, List[str]], Set[int]]:
        """Where on each timing the formula gets its value, and the rows that are named by it."""
        reasons: Dict[str, List[str]] = {}
        named: Set[int] = set()
        for value, times in timings.items():
            timing = explain.Timing(self.question, self.log, times)
            try:
                reasons[str(value).lower()] = explain.reasons_of(timing, self.tree, value, self.arguments.all)
            except (Trouble, Stopped, OutOfTime):
                self.question.program.begin_telling()
                self.remarks.append(explain.left_out_words(value))
                continue  # the table stands without it
            named |= timing.named
        return reasons, named

    def say_reasons(self, reasons: Dict[str, List[str]]) -> None:
        self.facts["reasons"] = reasons
        for word, lines in reasons.items():
            if lines:
                self.lines += ["", f"Why it is {word} there [replay]:", *(f"  {line}." for line in lines)]

    # Grounds

    def say_contradiction(self) -> None:
        """The bounds that exclude every timing."""
        if self.report.walk is not None:
            self.lines += walk_words(self.log, self.report.walk)
            self.facts["contradiction"] = walk_facts(self.log, self.report.walk)

    def say_grounds(self) -> None:
        """What a refutation rests on."""
        for value, section in self.report.sections.items():
            if section.kind == "refuted":
                self.say_refutation(value, section)

    def say_refutation(self, value: bool, section: Section) -> None:
        word = "true" if value else "false"
        self.facts["rests_on"] = ground_facts(self.log, section)
        grounds = ground_lines(self.log, section, self.arguments.all)
        if not grounds:
            self.lines += ["", f"It can't be {word} whatever the times: the derivation rests on no bound of the log."]
            return
        self.lines += ["", f"Why it can't be {word}: the derivation, of {counted(len(section.lines), 'line')}, rests on"]
        self.lines += grounds

    def say_stopped(self) -> None:
        """That the time was over, and that what isn't told wasn't worked out."""
        nothing: Dict[str, Any] = {"timings": timing_facts(self.found()), "remarks": self.remarks, "reasons": {}}
        if self.run.status in (0, 1):
            nothing["rests_on"] = []
        if self.run.status == 3:
            nothing["contradiction"] = []
        self.facts.update((key, value) for key, value in nothing.items() if key not in self.facts)
        note = untold_words(self.arguments.seconds)
        self.notes.append(note)
        self.lines += ["", note]

    def say_runs(self) -> None:
        runs = self.question.program.runs
        self.facts["runs"] = run_facts(runs)
        if self.arguments.runs:
            self.lines += run_lines(runs)


def timing_facts(timings: Dict[bool, List[int]]) -> Dict[str, List[int]]:
    """Timings for programs."""
    return {str(value).lower(): times for value, times in timings.items()}
