"""`ask draw`: a log as a picture, by its stamps, by the timings of a report, or by a timing."""

from __future__ import annotations

import argparse
from typing import List, Optional, Sequence

from ask.cautions import Caution, add_strict_words, caution_facts, caution_lines, cautions_wanted, strict_status
from ask.ends import OutOfTime
from ask.explain import left_out_words
from ask.focus import Focus, focus_of
from ask.logs import Log
from ask.macros import written_out
from ask.nearer import Nearer, brought_nearer
from ask.page import page_of
from ask.panels import Panel
from ask.picture import picture
from ask.program import NOT_THERE, STOPPED, Run, Stopped, program_of
from ask.question import (
    VERDICTS, Question, accepted_log, accepted_tree, answered, formula_source, log_source, report_of_run, run_facts,
    shown_formula, step_of_run, unreadable,
)
from ask.refusals import refusal
from ask.reports import Report, Step, Unreadable, read_report, steps_of, verdict_of
from ask.texts import Source, Trouble, read_source, say
from ask.units import add_unit_words, unit_facts
from ask.words import Answer, broken_words, counted

ANY = Source("true", b"true")  # a formula that every timing has, where only the timing is asked about
REJECTED = 5  # the status of a report that doesn't hold


def add_words(commands: "argparse._SubParsersAction[argparse.ArgumentParser]", common: argparse.ArgumentParser) -> None:
    """Adds the words of the command."""
    words = commands.add_parser(
        "draw", parents=[common], allow_abbrev=False, help="a log as a picture",
        description="Writes a page with a picture of a log: by the timings that a report has, or that check finds for "
        "--formula; by a timing; else by its stamps. A log without a timing is shown with the bounds that exclude it.",
    )
    words.add_argument("log", metavar="LOG")
    which = words.add_mutually_exclusive_group()
    which.add_argument("--report", metavar="FILE", help="a report of check")
    which.add_argument("--times", metavar="FILE", help="a file of times, as the program's times writes them")
    words.add_argument("--formula", metavar="FORMULA", help="a file, or the formula itself")
    add_strict_words(words)
    add_unit_words(words)
    words.add_argument("--svg", action="store_true", help="write the picture alone, without a page")
    words.add_argument(
        "--as-found",
        action="store_true",
        help="show the timings of check as they are, not brought nearer to the stamps",
    )
    words.set_defaults(do=do)


def do(arguments: argparse.Namespace) -> Answer:
    """The answer of the command."""
    program = program_of(arguments)
    asked = formula_source(arguments.formula) if arguments.formula is not None else None
    source = log_source(arguments.log, arguments.unit)
    formula = written_out(asked, source) if asked else None
    drawing = Drawing(Question(program, formula or ANY, source), formula)
    try:
        return drawing.answer(arguments)
    except (Stopped, OutOfTime):
        if not drawing.known:
            raise
        known = f"stopped after {arguments.seconds:g} seconds, before the picture was done; {drawing.known}"
        raise Trouble(STOPPED, known) from None


class Drawing:
    """A log to be drawn, and what is asked of it."""

    def __init__(self, question: Question, formula: Optional[Source]):
        self.question, self.formula = question, formula
        self.remarks: List[str] = []  # on timings and reasons
        self.values: List[bool] = []  # that the formula has in the panels
        self.has_timing = True
        self.known = ""  # what the program has said of the formula

    def answer(self, arguments: argparse.Namespace) -> Answer:
        """The picture with its warnings."""
        panels = self.panels(arguments)
        log = self.log()
        cautions = self.cautions(arguments)
        heading = self.question.log_source.name + (f": {shown_formula(self.formula)}" if self.formula else "")
        text = picture(log, panels, heading) if arguments.svg else page_of(heading, log, panels)
        if not arguments.json and not arguments.quiet:
            for line in [*caution_lines(cautions), *dict.fromkeys(self.remarks)]:
                say(f"ask: {line}")
        titles = [{"title": panel.title, "times": list(panel.times)} for panel in panels]
        facts = {
            "panels": titles, "picture": text, "remarks": list(dict.fromkeys(self.remarks)),
            "warnings": caution_facts(cautions), **unit_facts(log.scale), "runs": run_facts(self.question.program.runs),
        }
        return Answer(strict_status(arguments, cautions, 0), [text], facts)

    def panels(self, arguments: argparse.Namespace) -> List[Panel]:
        """The panels that the words want."""
        if arguments.times is not None:
            return self.panels_of_times(read_source(arguments.times, "times"))
        if arguments.report is not None:
            return self.panels_of_report(read_source(arguments.report, "report"))
        return self.panels_of_check(arguments.as_found) if self.formula else self.panels_of_stamps()

    def cautions(self, arguments: argparse.Namespace) -> List[Caution]:
        """The warnings of the formula, where there is one and the log has a timing."""
        if not self.formula or not self.has_timing:
            return []
        return cautions_wanted(arguments, self.question, self.log(), accepted_tree(self.formula), self.values)

    def log(self) -> Log:
        return accepted_log(self.question.log_source)

    def run(self, command: str, sources: Sequence[Source]) -> Run:
        return self.question.program.run(command, sources)

    def refused(self, run: Run) -> Trouble:
        return refusal(run, self.question.formula, self.question.log_source)

    def panels_of_stamps(self) -> List[Panel]:
        """The stamps, or a contradiction of a log that has no timing."""
        run = self.run("times", [self.question.log_source])
        if run.status == 3:
            lines = run.output.decode("ascii").splitlines()[1:]
            return [self.contradiction([steps_of(line.split(" "))[0] for line in lines])]
        if run.status != 0:
            raise self.refused(run)
        stamps = self.log().stamps()
        if len(run.output.split(b"\n")) != len(stamps) + 1:
            raise unreadable("timing", run)
        return [Panel(f"By the stamps{self.broken_by(stamps)}", stamps)]

    def broken_by(self, stamps: Sequence[int]) -> str:
        """Whether the stamps are an admissible timing, where they aren't, or it isn't known."""
        try:
            run = self.question.replay("true", stamps)
        except (Stopped, OutOfTime):
            return ", of which it wasn't found in time whether they are an admissible timing"
        return f", which are no admissible timing: {self.broken(run, stamps)}" if run.status != 0 else ""

    def broken(self, run: Run, times: Sequence[int]) -> str:
        """The bound that a timing breaks."""
        return broken_words(self.log(), step_of_run(run), times)

    def contradiction(self, walk: Sequence[Step]) -> Panel:
        self.has_timing = False
        return Panel("No timing is admissible: these bounds contradict each other", self.log().stamps(), walk)

    def panels_of_times(self, times: Source) -> List[Panel]:
        """A timing of a file, as `replay` judges it."""
        run = self.run("replay", [self.question.formula, self.question.log_source, times])
        if run.status not in (0, 1, 6):
            raise self.refused(run)
        numbers = [int(line) for line in times.data.decode("ascii").split("\n") if line.strip()]
        if run.status == 6:
            return [Panel(f"No admissible timing: {self.broken(run, numbers)}", numbers)]
        self.known = f"by the timing of {times.name} the formula is {run.line()}" if self.formula else ""
        title = f"The timing of {times.name}"
        if not self.formula:
            return [Panel(title, numbers)]
        return [Panel(f"{title}, where the formula is {run.line()}", numbers, focus=self.focus(numbers, run.status == 0))]

    def panels_of_report(self, source: Source) -> List[Panel]:
        """The timings of a report that the program accepts; without a formula, those that are admissible."""
        run = self.run("audit", [self.question.formula, self.question.log_source, source])
        verdict = verdict_of(source.data) if self.formula and run.status == 0 else None
        self.known = "" if verdict is None else f"by {source.name}, which audit accepts, it is {VERDICTS[verdict]}"
        report = self.report(source, run)
        if self.formula and run.status != 0:
            raise Trouble(run.status, (
                f"{source.name} isn't a report on this formula and log: the program says {run.line()!r}. It is of "
                f"another formula or log, or was made with --conflicts and left a value unknown"
            ))
        if report.walk is not None and run.status != 0:
            raise Trouble(run.status, f"{source.name} isn't a report on this log: the program says {run.line()!r}")
        if not self.formula:
            self.refuse_inadmissible(source, report)
        return self.panels_of_sections(report, None)

    def report(self, source: Source, run: Run) -> Report:
        """The report of a file, or the trouble with it."""
        if run.status not in (0, REJECTED):
            raise self.refused(run)
        words = run.line().split(" ")
        if words[:2] == ["refused", "report"]:
            raise Trouble(run.status, f"{source.name} is no report, or not a whole one: line {words[-1]} is wrong")
        try:
            report = read_report(source.data)
        except Unreadable:
            raise Trouble(NOT_THERE, f"the program reads {source.name}, and ask can't") from None
        rows = len(self.log().rows)
        if words[:2] == ["refused", "events"]:
            raise Trouble(
                run.status,
                f"{source.name} is a report on a log of {counted(report.events, 'row')}, and "
                f"{self.question.log_source.name} has {rows}",
            )
        return report

    def refuse_inadmissible(self, source: Source, report: Report) -> None:
        """Refuses timings that the log doesn't admit."""
        for value, section in report.sections.items():
            if section.kind == "witness":
                run = self.question.replay("true", section.times)
                if run.status == 6:
                    raise Trouble(
                        REJECTED,
                        f"{source.name} isn't a report on this log: its timing for {str(value).lower()} isn't "
                        f"admissible, since {self.broken(run, section.times)}",
                    )

    def panels_of_check(self, as_found: bool) -> List[Panel]:
        """The timings that `check` finds."""
        run = answered(self.question.check(), self.question)
        self.known = f"by check it is {VERDICTS[run.status]}"
        return self.panels_of_sections(report_of_run(run), None if as_found else self.question)

    def panels_of_sections(self, report: Report, nearer: Optional[Question]) -> List[Panel]:
        """A panel for each timing of a report, or one for the walk of a log without any."""
        if report.walk is not None:
            return [self.contradiction(report.walk)]
        panels = []
        for value, section in report.sections.items():
            if section.kind == "witness":
                timing = Nearer(section.times)
                if nearer:
                    timing = brought_nearer(nearer, self.log(), section.times, value)
                self.remarks += [timing.remark] * bool(timing.remark)
                self.values.append(value)
                panels.append(Panel(self.title(report, value), timing.times, focus=self.focus(timing.times, value)))
        return panels or [Panel("By the stamps", self.log().stamps())]

    def focus(self, times: Sequence[int], value: bool) -> Optional[Focus]:
        """What gives the formula its value in a timing; nothing where none is asked about."""
        if not self.formula:
            return None
        focus = focus_of(self.question, self.log(), accepted_tree(self.formula), times, value)
        if focus is None:
            self.remarks.append(left_out_words(value))
        return focus

    def title(self, report: Report, value: bool) -> str:
        """What a timing of a report shows; without a formula that is the report's own word."""
        word = str(value).lower()
        if not self.formula:
            return f"An admissible timing in which, the report says, its formula is {word}"
        return f"A timing in which the formula is {word}{self.other_words(report, value)}"

    @staticmethod
    def other_words(report: Report, value: bool) -> str:
        """What the report says of the other value, where it has no timing."""
        other = report.sections[not value].kind
        word = str(not value).lower()
        said = {"refuted": f"; by no timing is it {word}", "unknown": f"; whether it can be {word} isn't known"}
        return said.get(other, "")
