"""The answer to `ask check` of a long log: what windows tell, in the words of short logs."""

from __future__ import annotations

import argparse
import sys
import time
from array import array
from typing import Any, Dict, List, Optional, Sequence, Set, Tuple

from ask import explain
from ask.cautions import Caution, caution_facts, caution_lines, cautions_without_runs, strict_status, unasked_in_time
from ask.ends import OutOfTime, limit_time
from ask.nearer import brought_nearer
from ask.program import MOST_TO_TELL, STOPPED, Stopped
from ask.question import VERDICTS, accepted_tree, run_facts, run_lines, shown_formula, text_of_source
from ask.reports import read_report
from ask.texts import Trouble, say
from ask.units import unit_facts
from ask.words import (
    USAGE, Answer, bold, broken_words, counted, decided_words, grouped, listed, untold_words, table, walk_facts, walk_words,
)
from ask.windows.asking import Keep, Said, Setting, Whole
from ask.windows.bounds import Contradiction
from ask.windows.cautions import cautions_of_long_log
from ask.windows.keeping import VERDICT, Folder, question_facts
from ask.windows.opening import LongQuestion
from ask.windows.pool import cores
from ask.windows.shape import shape_of
from ask.windows.shown import ShownWindow, lines_of
from ask.windows.timings import shifted, truth_of
from ask.windows.verdict import Verdict, verdict_of_slices

MOST_ROWS_SHOWN = 40
MOST_WINDOWS_SHOWN = 12
SECONDS_OF_WINDOW = 60.0  # after which its slice is halved
BY_ASK = "worked out"  # by whom, where no run of the program says so


class Progress:
    """Tells on a terminal how many windows are done, and how long the others may take."""

    def __init__(self, is_wanted: bool):
        self.is_wanted = is_wanted and sys.stderr.isatty()
        self.began = self.told = time.monotonic()
        self.done = self.count = 0

    def words(self) -> str:
        """How many windows are done."""
        return f"with {grouped(self.done)} of {counted(self.count, 'window')} done"

    def tell(self, done: int, count: int) -> None:
        """Tells it, but not more than once a second."""
        now = time.monotonic()
        self.done, self.count = done, count
        if self.is_wanted and done and now - self.told >= 1:
            self.told = now
            left = (now - self.began) * (count - done) / done
            say(f"ask: {grouped(done)} of {counted(count, 'window')}, {left:.0f} s left   ", "\r")

    def end(self) -> None:
        """Leaves the line."""
        if self.is_wanted and self.told > self.began:
            say("")


def setting_of(
    asked: LongQuestion, arguments: argparse.Namespace, progress: Progress, keep: Optional[Keep] = None
) -> Setting:
    """How windows are asked, as the words say it."""
    return Setting(
        asked.program, asked.options, arguments.jobs or cores(), SECONDS_OF_WINDOW, told=progress.tell, keep=keep,
    )


def long_answer(asked: LongQuestion, arguments: argparse.Namespace) -> Answer:
    """The answer on a long log."""
    shape = shape_of(asked.tree)
    reading = LongReading(asked, arguments)
    folder = folder_of(asked, arguments)
    try:
        whole = Whole(asked.log, shape)
    except Contradiction as contradiction:
        if folder:
            folder.write_facts(VERDICT, {"status": 3})
        return reading.contradicted(contradiction)
    progress = Progress(not arguments.quiet)
    setting = setting_of(asked, arguments, progress, folder)
    try:
        verdict = verdict_of_slices(whole, setting)
    except (Stopped, OutOfTime):
        more = "; the same words go on from here" if folder else "; with --keep FOLDER the same words would go on"
        raise Trouble(STOPPED, f"stopped after {arguments.seconds:g} seconds, {progress.words()}{more}") from None
    finally:
        progress.end()
    answer = reading.answer(whole, setting, verdict)
    if folder:
        folder.write_index(whole, verdict.findings.answers)
        folder.write_verdict(whole, verdict)
    return answer


def folder_of(asked: LongQuestion, arguments: argparse.Namespace) -> Optional[Folder]:
    """The folder that keeps windows, where the words name one."""
    if arguments.keep is None:
        return None
    if arguments.log == "-":
        raise Trouble(USAGE, "--keep needs the log as a file, since ask audit reads it again")
    folder = Folder(arguments.keep)
    text = text_of_source(asked.formula)
    folder.begin(question_facts(text, arguments.log, asked.source.data, asked.options))
    return folder


class LongReading:
    """The verdict of windows, and what is said of it."""

    def __init__(self, asked: LongQuestion, arguments: argparse.Namespace):
        self.asked, self.arguments = asked, arguments
        self.formula, self.name = shown_formula(asked.formula), asked.source.name
        self.lines: List[str] = []
        self.facts: Dict[str, Any] = {"formula": self.formula, "log": self.name, "notes": [], **unit_facts(asked.log.scale)}
        self.remarks: List[str] = []

    def contradicted(self, contradiction: Contradiction) -> Answer:
        """The answer where the log admits no timing."""
        log, walk = self.asked.log, contradiction.walk
        sentence = f"No timing: {self.name} admits none, since these bounds contradict each other."
        self.lines = [bold(sentence), *walk_words(log, walk)]
        self.facts.update(
            verdict=VERDICTS[3], check_status=3, sentence=sentence, warnings=[], timings={}, remarks=[], reasons={},
            contradiction=walk_facts(log, walk),
        )
        self.say_runs()
        return Answer(3, self.lines, self.facts)

    def answer(self, whole: Whole, setting: Setting, verdict: Verdict) -> Answer:
        """The answer: its sections one after another."""
        self.whole, self.setting, self.verdict = whole, setting, verdict
        self.say_verdict()
        warnings = self.warnings()
        self.say_warnings(warnings)
        self.say_what_there_is_time_for()
        self.say_runs()
        return Answer(strict_status(self.arguments, warnings, verdict.status()), self.lines, self.facts)

    def say_what_there_is_time_for(self) -> None:
        """What is to be said of the verdict, until the time is over."""
        for say_section in (self.say_stamps, self.say_windows, self.say_failing, self.say_grounds):
            said = len(self.lines)
            try:
                say_section()
            except (Stopped, OutOfTime):
                del self.lines[said:]
                self.say_stopped()
                return

    # The verdict

    def say_verdict(self) -> None:
        status = self.verdict.status()
        sentence = verdict_words(self.verdict, self.formula, self.name)
        self.lines.append(bold(sentence))
        names = {True: "yes", False: "no", None: "unknown"}
        can_be = {str(value).lower(): names[known] for value, known in self.verdict.can_be.items()}
        self.facts.update(verdict=VERDICTS[status], check_status=status, sentence=sentence, can_be=can_be)

    def warnings(self) -> List[Caution]:
        """The warnings, as far as there is time to find them."""
        try:
            return cautions_of_long_log(self.asked, self.whole, self.setting, self.verdict)
        except (Stopped, OutOfTime):
            limit_time(MOST_TO_TELL)
            return [*cautions_without_runs(self.asked.formula, self.asked.log, self.asked.tree), unasked_in_time()]

    def say_warnings(self, warnings: Sequence[Caution]) -> None:
        self.facts["warnings"] = caution_facts(warnings)
        self.lines += caution_lines(warnings)

    def say_stamps(self) -> None:
        """The value on the stamps as they are written, or the first bound that they break."""
        stamps = self.asked.log.rows.stamp
        broken = self.whole.bounds.broken(stamps)
        if broken is None:
            has_failed = 0 in truth_of(self.asked.log, self.whole.shape, stamps).values
            word = str(has_failed == self.whole.shape.is_dual).lower()
            self.facts["as_stamped"] = {"value": word}
            self.lines.append(f"With every row at its stamp it is {word}. [{BY_ASK}]")
            return
        said = broken_words(self.asked.log, broken, stamps)
        named = f"{broken.kind} {broken.numbers[0]}"
        self.facts["as_stamped"] = {"value": None, "broken": named, "sentence": said}
        self.lines.append(f"The stamps themselves are no admissible timing: {said}. [{BY_ASK}]")

    # Windows

    def say_windows(self) -> None:
        """How many windows were asked, and which of them can have the value that not all have."""
        findings = self.verdict.findings
        answers, asker = findings.answers, findings.asker
        word = str(self.whole.shape.is_dual).lower()  # the value that one window gives the whole
        may = [said for said in answers if said.can_fail]
        rows, idle = counted(len(self.asked.log.rows), "row"), sum(said.is_idle for said in answers)
        told = f"{counted(asker.runs, 'run')} of the program told of"
        self.lines += ["", (
            f"The log has {rows}. {counted(len(answers), 'window')} of at most {counted(asker.largest, 'row')} "
            f"{'covers' if len(answers) == 1 else 'cover'} it; "
            + (f"in {grouped(idle)} nothing of the formula can be true, and {told} the others." if idle else f"{told} them.")
        )]
        self.say_those(f"It is {word} by every timing in", [said for said in may if said.can_hold is False])
        self.say_those(f"It can be {word} in", [said for said in may if said.can_hold is not False])
        if self.verdict.in_the_way:
            way = self.verdict.in_the_way
            self.lines.append(f"{counted(len(way), 'window')} left open whether it can be {word}:")
            self.lines += [f"  {self.window_words(said)}: {self.open_words(said)}" for said in way[:MOST_WINDOWS_SHOWN]]
        if self.verdict.left:
            moments = listed([self.asked.log.scale.moment(moment) for moment in self.verdict.left])
            self.lines.append(f"The best timing that was found is still otherwise at {moments}.")
        self.facts["windows"] = {
            "rows": len(self.asked.log.rows), "count": len(answers), "most_rows": asker.largest, "runs": asker.runs,
            "can_be": [self.window_facts(said) for said in may],
            "in_the_way": [self.window_facts(said) for said in self.verdict.in_the_way],
            "left": self.verdict.left,
        }

    def say_those(self, words: str, those: Sequence[Said]) -> None:
        """The windows of which something is so, the first of them by their moments."""
        if those:
            more = len(those) - MOST_WINDOWS_SHOWN
            self.lines.append(f"{words} {grouped(len(those))} of them:")
            self.lines += [f"  {self.window_words(said)}" for said in those[:MOST_WINDOWS_SHOWN]]
            self.lines += [f"  and {counted(more, 'window')} more"] * (more > 0)

    def window_words(self, said: Said) -> str:
        """A window by the moments of its slice and its lines."""
        events = self.whole.glazier.events_in(self.whole.extent.ranges(*said.part))
        moment = self.asked.log.scale.moment
        at = f", as at {moment(said.moment)}" if said.moment is not None else ""
        return f"{moment(said.part.first)} to {moment(said.part.last)} ({lines_of(self.asked, events)}){at}"

    def open_words(self, said: Said) -> str:
        """Why a window leaves something open."""
        if said.can_fail:
            return "its timing isn't one of the whole log, as far as was looked"
        if said.status == 4:
            return "not found within the conflicts"
        return {124: "it took too long", 70: "memory ran out"}.get(said.status, "too many rows are near each other")

    def window_facts(self, said: Said) -> Dict[str, Any]:
        """The same for programs."""
        events = self.whole.glazier.events_in(self.whole.extent.ranges(*said.part))
        lines = [self.asked.log.rows.line[event] for event in events]
        return {
            "first": said.part.first, "last": said.part.last, "status": said.status, "rows": said.size,
            "first_line": min(lines), "last_line": max(lines), "moment": said.moment,
        }

    # Timings

    def say_failing(self) -> None:
        """The timing that one window has shown, with why it is so, beside the one for the other value."""
        timings = dict(self.verdict.timings)
        said, word = self.verdict.findings.failing_said, self.whole.shape.is_dual
        if self.verdict.excluding is not None:
            said = self.of_timing(self.verdict.excluding, timings[word])
        reasons: Dict[str, List[str]] = {}
        named: Set[int] = set()
        shown: Optional[ShownWindow] = None
        if said is not None and word in timings:
            shown = ShownWindow(self.asked, self.whole.window(said.part, said.ranges))
            timings[word], witness = self.nearer(shown, said, timings[word])
            reasons, named = self.reasons(shown, witness, word)
        self.facts["timings"] = {str(value).lower(): list(times) for value, times in sorted(timings.items())[::-1]}
        self.facts["remarks"] = self.remarks
        if shown is not None:
            self.say_rows(shown, timings, named)
        for value, times in timings.items():
            count = len(shifted(self.asked.log, times))
            rows = counted(count, "row") if count else "no row"
            verb, word = "is" if count < 2 else "are", str(value).lower()
            self.lines.append(f"  In the timing that makes it {word} {rows} of the log {verb} shifted.")
        self.lines += [f"  {remark}" for remark in self.remarks]
        self.facts["reasons"] = reasons
        for text, lines in reasons.items():
            if lines:
                self.lines += ["", f"Why it is {text} there [replay of the window]:", *(f"  {line}." for line in lines)]

    def of_timing(self, said: Said, timing: array) -> Said:
        """A window with the times that its rows have in a timing of the whole log."""
        window = self.whole.window(said.part, said.ranges)
        return said._replace(times={event: timing[event] for event in window.events})

    def nearer(self, shown: ShownWindow, said: Said, timing: array) -> Tuple[array, List[int]]:
        """The timing nearer to the stamps where its window allows it, and that of the window."""
        assert said.times is not None
        window = shown.window
        before = [window.base, *(moment for _, moment in window.carried)]
        witness = [*before, *(said.times[event] for event in window.events)]
        if not self.arguments.as_found:
            near = brought_nearer(shown.question, Stamped(shown), witness, self.whole.shape.is_dual)
            moved = said._replace(times=window.times(near.times))
            found = self.verdict.findings.timing_of(moved)
            if found is not None:
                self.remarks += [near.remark] if near.remark else []
                timing = found
        return timing, [*before, *(timing[event] for event in window.events)]

    def reasons(self, shown: ShownWindow, witness: List[int], value: bool) -> Tuple[Dict[str, List[str]], Set[int]]:
        """Where in its window the formula gets its value, and the rows of the long log that are named by it."""
        tree = accepted_tree(shown.question.formula)
        is_at_end = all(end == len(events) for (_, end), events in zip(shown.window.ranges, self.asked.log.of))
        timing = explain.Timing(shown.question, shown.log, witness, "the log" if is_at_end else "the window")
        try:
            why = explain.reasons_of(timing, tree, value, self.arguments.all)
        except (Trouble, Stopped):
            self.remarks.append(explain.left_out_words(value))
            return {}, set()
        named = {event for event in map(shown.event, timing.named) if event is not None}
        return {str(value).lower(): why}, named

    def say_rows(self, shown: ShownWindow, timings: Dict[bool, array], named: Set[int]) -> None:
        """The rows of a window that reasons name or that are shifted, a line each."""
        log = self.asked.log
        inside = sorted(set(shown.window.events) | named)
        moved = [event for event in inside if any(times[event] != log.rows.stamp[event] for times in timings.values())]
        events = sorted([*named, *(event for event in moved if event not in named)][:MOST_ROWS_SHOWN])
        heads = ["line", "host", "row", "stamp"]
        for value in timings:
            heads += ["shift", f"{'true' if value else 'false'} at"]
        rows = []
        for event in events:
            row = log.rows[event]
            cells = [str(row.line), log.host_of(event), f"{row.kind} {row.name}", log.scale.moment(row.stamp)]
            for times in timings.values():
                cells += [log.scale.shift(times[event] - row.stamp), log.scale.moment(times[event])]
            rows.append(cells)
        what = "Timings that make it true and false" if len(timings) == 2 else (
            f"A timing that makes it {str(next(iter(timings))).lower()}"
        )
        self.lines += ["", f"{what}, at {shown.name()}:", *table(heads, rows, left=(1, 2))]
        left_out = len(set(inside) - set(events))
        if left_out:
            self.lines.append(f"  {counted(left_out, 'row')} of the window left out, as are those outside it")

    # Grounds

    def say_grounds(self) -> None:
        """What excludes a value: the derivation of one window, or those of all."""
        hold = not self.whole.shape.is_dual
        if self.verdict.excluding is not None and self.verdict.excluding.report:
            said = self.verdict.excluding
            shown = ShownWindow(self.asked, self.whole.window(said.part, said.ranges))
            section = read_report(said.report).sections[hold]
            self.facts["rests_on"] = shown.ground_facts(section)
            grounds = shown.ground_lines(section, self.arguments.all)
            lines = counted(len(section.lines), "line")
            word = str(hold).lower()
            where = f"at {shown.name()}, and so at none of the whole log: the derivation, of {lines}, rests on"
            self.lines += ["", f"Why it can't be {word}: it can't be {word} {where}", *grounds]
        elif self.verdict.can_be[not hold] is False:
            word = str(not hold).lower()
            self.facts["rests_on"] = []
            asked = " that was asked" if any(said.is_idle for said in self.verdict.findings.answers) else ""
            self.lines += ["", f"Why it can't be {word}: it can't in any of these windows, by a derivation for each{asked}."]

    def say_stopped(self) -> None:
        """That the time was over, and that what isn't told wasn't worked out."""
        if "windows" not in self.facts:
            self.say_windows()
        for key, nothing in (("timings", {}), ("remarks", self.remarks), ("reasons", {})):
            self.facts.setdefault(key, nothing)
        if False in self.verdict.can_be.values():
            self.facts.setdefault("rests_on", [])
        note = untold_words(self.arguments.seconds)
        self.facts["notes"] = [note]
        self.lines += ["", note]

    def say_runs(self) -> None:
        runs = self.asked.program.runs
        self.facts["runs"] = run_facts(runs)
        if self.arguments.runs:
            self.lines += run_lines(runs)


class Stamped:
    """What a timing is brought nearer to: the stamps of the rows of a window."""

    def __init__(self, shown: ShownWindow):
        self.shown = shown

    def stamps(self) -> List[int]:
        """The stamps."""
        return self.shown.stamps()

    def clock_rows(self) -> List[List[int]]:
        """For each clock the rows that read it."""
        return self.shown.bounded.clock_rows()


def verdict_words(verdict: Verdict, formula: str, log: str) -> str:
    """The verdict in a sentence."""
    told = decided_words(verdict.status(), formula, log)
    if told is not None:
        return told
    for value, other in ((True, False), (False, True)):
        if verdict.can_be[value]:
            word, missing = str(value).lower(), str(other).lower()
            return (
                f"{word.capitalize()} is possible; {missing} isn't known: {formula} is {word} by some timings that {log} "
                f"admits, and windows didn't tell whether it can be {missing}."
            )
    return f"Unknown: windows of {log} didn't tell whether {formula} can be true, nor whether it can be false."
