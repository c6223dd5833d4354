"""Makes cases of check and audit: right reports by a search of its own, and broken ones.

The reports that the program itself writes are broken in the same ways.
"""

from typing import NamedTuple

import cases
import derivations
import edits
import formats
import generate
import generate_logs
import invent
import judge
import logs
import meanings
import program
import reports
import trimming
from derivations import Cycle, Step
from generate import Case
from generate_logs import chance
from invent import Satisfied, Search, Spent
from logs import Host
from reports import Inconsistent, Refuted, SyntaxFault, Unknown, Verdicts, Witness

SHARE_OPEN = 0.4  # of the questions, at least, have both values in timings of their log
BROKEN_COPIES = 4  # audits of broken copies of each report that check writes
SECTIONS = ("on_true", "on_false")


# Questions


class Question(NamedTuple):
    log: logs.Log
    formula_text: bytes

    def formula(self):
        """The tree of the formula."""
        return formats.read_formula(self.formula_text)

    def problem(self, value):
        """The problem to give the formula a value."""
        return derivations.problem_of(self.log, self.formula(), value)


def some_question(draw):
    """A small question; often both values have timings, and sometimes no timing is admissible."""
    is_open = chance(draw, SHARE_OPEN)
    while True:
        question = small_question(draw)
        if not is_open or meanings.values(question.log, question.formula()) == {True, False}:
            return question


def small_question(draw):
    """A log of a few rows with small skews, and a formula with a few operators."""
    log = invent.small_log(draw)
    if chance(draw, 0.1):
        log = log._replace(hosts=[host._replace(skew=0, gap=host.gap + 3) for host in log.hosts])
    if chance(draw, 0.15):
        unused = [name for name in generate_logs.HOST_NAMES if logs.host_number(log, name) is None]
        log.hosts.append(Host(draw.choice(unused), draw.randint(0, 3), draw.randint(0, 3)))
    tree = invent.small_tree(draw, log)
    if chance(draw, 0.4):
        tree = generate.one_sided(draw, draw.choice("FG"), tree)
    return Question(log, generate.formula_text(draw, generate.tokens_of(draw, tree)))


def wide_question(draw):
    """A log with some more rows and greater skews, and a formula with some more operators."""
    log = generate_logs.some_log(draw)
    tree = generate.some_tree(draw, log, draw.choice((1, 2, 3, 4, 5, 6)))
    return Question(log, generate.formula_text(draw, generate.tokens_of(draw, tree)))


def small_files(draw, question):
    """The files of a question, seldom with a fault."""
    files = {"f": question.formula_text, "l": generate_logs.log_file(draw, question.log, 0.04)}
    if chance(draw, 0.04):
        files["f"] = generate.formula_file(draw, question.log)
    return files


def option_of(draw, conflicts):
    """The words that state a number of conflicts; none for the default, most times."""
    if conflicts == reports.CONFLICTS and chance(draw, 0.8):
        return []
    return draw.choice((["--conflicts", str(conflicts)], [f"--conflicts={conflicts}"]))


def words_of(draw, command, option, names):
    """The words of a command, with the option at any place."""
    words = list(names)
    place = draw.randint(0, len(words))
    return [command, *words[:place], *option, *words[place:]]


# Right reports


def right_report(draw, question, patience=60):
    """A report that an audit accepts, and its number of conflicts. Not every value is decided."""
    log = question.log
    conflicts = draw.choice((1, 1, 2, 3))
    steps = invent.find_negative_walk(invent.bound_edges(log))
    if steps and chance(draw, 0.7):
        return Inconsistent(len(log.rows), steps), conflicts
    sections = []
    for value in (True, False):
        section = decided(draw, question.problem(value), patience)
        if section is None or chance(draw, 0.15):
            section = left_open(draw, question.problem(value), conflicts)
        sections.append(section)
    if not any(isinstance(section, Unknown) for section in sections) and chance(draw, 0.5):
        conflicts = reports.CONFLICTS
    return Verdicts(len(log.rows), *sections), conflicts


def whole_report(draw, question, conflicts, patience=5000):
    """A report that check may write; the patience must be enough for the search."""
    log = question.log
    steps = invent.find_negative_walk(invent.bound_edges(log))
    if steps:
        return Inconsistent(len(log.rows), steps)
    sections = []
    for value in (True, False):
        section = decided(draw, question.problem(value), patience)
        if isinstance(section, Refuted) and judge.conflicts_of(section.lines) >= conflicts:
            section = left_open(draw, question.problem(value), conflicts)
        sections.append(section)
    return Verdicts(len(log.rows), *sections)


def decided(draw, problem, patience):
    """The section on the value of a problem, or None where the search gives up."""
    search = Search(draw, problem, patience)
    try:
        search.refute()
    except Satisfied:
        return Witness(search.timing())
    except Spent:
        return None
    return Refuted(search.lines)


def left_open(draw, problem, conflicts):
    """A section that leaves the value open, with that many Learn lines."""
    extras = (Search.add_lemma, Search.add_free_walk, Search.add_rule, Search.add_copy)
    search = Search(draw, problem)
    while reports.learned(search.lines) < conflicts:
        extra = draw.choice(extras)
        extra(search)
        if derivations.ends_empty(search.lines):
            search, extras = Search(draw, problem), (Search.add_rule,)
    while reports.learned(search.lines) > conflicts:
        search.lines.pop()
    return Unknown(search.lines)


# Edits of reports


def broken_text(draw, question, report):
    """The text of a report after an edit, which seldom leaves it as it was."""
    right = reports.report_text(report)
    text = right
    for _ in range(5):
        if chance(draw, 0.45):
            edit = draw.choice(TEXT_EDITS)
            text = edit(draw, right)
        else:
            edit = draw.choice(WALK_EDITS if isinstance(report, Inconsistent) else VERDICT_EDITS)
            text = reports.report_text(edit(draw, question, report))
        if text != right:
            break
    return text


def change_events(draw, question, report):
    """Another number of events, mostly with as many times in each witness."""
    events = draw.choice((report.events - 1, report.events + 1, report.events + 1, 0, 2**32 - 1))
    changed = report._replace(events=max(0, events))
    if isinstance(report, Inconsistent) or events > 100 or chance(draw, 0.2):
        return changed
    for part in SECTIONS:
        section = getattr(changed, part)
        if isinstance(section, Witness):
            times = [*section.times, 0][: changed.events]
            changed = changed._replace(**{part: Witness(times)})
    return changed


def some_section(draw, report):
    """A section of a report on both values, and its name."""
    part = draw.choice(SECTIONS)
    return part, getattr(report, part)


def change_section(draw, question, report):
    """Changes the times or the lines of a section."""
    part, section = some_section(draw, report)
    if isinstance(section, Witness):
        return report._replace(**{part: Witness(changed_times(draw, section.times))})
    lines = [edits.opened(line) for line in section.lines]
    edit = draw.choice(edits.LINE_EDITS)
    edit(draw, question.problem(part == "on_true"), lines)
    return report._replace(**{part: type(section)(lines)})


def changed_times(draw, times):
    """The times with one of them moved, exchanged, added or dropped."""
    times = list(times) or [0]
    place = draw.randrange(len(times))
    choice = draw.random()
    if choice < 0.6:
        times[place] += draw.choice((-1, 1, -1, 1, -2, 2, 100))
    elif choice < 0.7:
        times[place] = draw.choice((1, -1)) * (10**19 + draw.choice((-1, 0, 0, 1)))
    elif choice < 0.8:
        edits.exchange_items(draw, times, None)
    elif choice < 0.9:
        edits.repeat_item(draw, times, None)
    else:
        del times[place]
    return times


def change_steps(draw, question, report):
    """Changes the steps of a walk, or puts sections in its place."""
    if chance(draw, 0.15):
        refuted = Refuted([Cycle(report.steps)])
        return Verdicts(report.events, refuted, refuted)
    walk = Cycle(list(report.steps))
    edit = draw.choice((edits.edit_steps, edits.edit_steps, edits.change_step))
    edit(draw, question.problem(True), [walk])
    return report._replace(steps=walk.steps)


def change_form(draw, question, report):
    """Gives a section another form: unknown for refuted, or the one for the other."""
    part, section = some_section(draw, report)
    if isinstance(section, Witness):
        form = draw.choice((Refuted, Unknown))
        other = form([])
    else:
        other = (Unknown if isinstance(section, Refuted) else Refuted)(section.lines)
    return report._replace(**{part: other})


def exchange_sections(draw, question, report):
    """Exchanges the sections, or writes one of them for both values."""
    choice = draw.randrange(4)
    if choice == 0:
        return report._replace(on_true=report.on_false)
    if choice == 1:
        return report._replace(on_false=report.on_true)
    return report._replace(on_true=report.on_false, on_false=report.on_true)


def say_inconsistent(draw, question, report):
    """Says that no timing is admissible, by some bounds of the log."""
    bounds = [Step(edge.step.kind, edge.step.numbers) for edge in invent.bound_edges(question.log)]
    steps = draw.choices(bounds, k=draw.choice((0, 1, 2, 2, 3)))
    return Inconsistent(report.events, steps)


VERDICT_EDITS = (
    change_events, change_form, change_form, exchange_sections, say_inconsistent,
    *[change_section] * 10,
)
WALK_EDITS = (change_events, say_inconsistent, *[change_steps] * 13)


def edit_line(draw, text):
    """Misspells a line, or the end of one."""
    return edits.edited_text(draw, text)


def edit_order(draw, text):
    """Drops, repeats, exchanges or adds lines, or cuts the text."""
    lines = text.splitlines(keepends=True)
    place = draw.randrange(len(lines))
    choice = draw.randrange(6)
    if choice == 0:
        del lines[place]
    elif choice == 1:
        lines.insert(place, lines[place])
    elif choice == 2:
        edits.exchange_items(draw, lines, None)
    elif choice == 3:
        lines.insert(draw.randint(0, len(lines)), draw.choice(LOOSE_LINES))
    elif choice == 4:
        del lines[place:]
    else:
        lines.append(draw.choice(LOOSE_LINES))
    return b"".join(lines)


LOOSE_LINES = [line + b"\n" for line in (
    b"skewcheck 1", b"events 1", b"inconsistent 1", b"true witness", b"false witness",
    b"true refuted 1", b"false unknown 1", b"end", b"10", b"low 0", b"learn 0 0", b"cycle 0", b"",
)]


def lose_newline(draw, text):
    """Drops the last newline, and seldom some bytes more."""
    return text[: -draw.choice((1, 1, 2, 5))]


TEXT_EDITS = (edit_line, edit_line, edit_line, edit_order, edit_order, lose_newline)


# Cases


def check_case(draw):
    """A case of check: with few conflicts, or of a small question with any number."""
    if chance(draw, 0.25):
        question, conflicts = wide_question(draw), draw.randint(1, 5)
    else:
        question = some_question(draw)
        conflicts = draw.choice((1, 1, 2, 3, 4, 5, 1000, 1_000_000, *[reports.CONFLICTS] * 4))
    files = small_files(draw, question)
    generate.drop_file(draw, files)
    return Case(words_of(draw, "check", option_of(draw, conflicts), "fl"), files)


def audit_case(draw):
    """A case of audit, with a report that mostly is broken."""
    question = some_question(draw)
    report, conflicts = right_report(draw, question)
    files = small_files(draw, question)
    files["r"] = reports.report_text(report)
    if chance(draw, 0.75):
        files["r"] = broken_text(draw, question, report)
    elif chance(draw, 0.3):
        conflicts += draw.choice((-1, 1, 1))
    generate.drop_file(draw, files)
    return Case(words_of(draw, "audit", option_of(draw, max(1, conflicts)), "flr"), files)


def follow_ups(draw, case, output):
    """Cases on what check wrote, each with a title.

    The program accepts the report, and gives the formula each value on that
    value's witness; both are known beforehand. Broken copies are audited too.
    """
    wanted = program.answer(case.words, case.files)
    report = reports.read_report(output)
    is_check = isinstance(wanted, program.Judged) and wanted.command == "check"
    if not is_check or isinstance(report, SyntaxFault):
        return
    formula, log = (case.files[name] for name in program.command_of(case.words).operands)
    files = {"f": formula, "l": log}
    audited = ["audit", f"--conflicts={wanted.conflicts}", "f", "l", "r"]
    right = cases.Case("accepted", audited, {**files, "r": output}, 0, (b"accepted\n",))
    yield "the audit", right
    yield "the trim", Case(["trim", "r"], {"r": output})
    short = reports.report_text(trimming.trimmed_report(report))
    yield "the audit of the trimmed", right._replace(files={**files, "r": short})
    yield "the trim of the trimmed", cases.Case("short", ["trim", "r"], {"r": short}, 0, (short,))
    for value, part in zip((True, False), SECTIONS):
        section = getattr(report, part, None)
        if isinstance(section, Witness):
            times = b"".join(b"%d\n" % time for time in section.times)
            said = b"true\n" if value else b"false\n"
            yield f"the replay of the {value} witness", cases.Case(
                "replayed", ["replay", "f", "l", "t"], {**files, "t": times}, 1 - value, (said,)
            )
    question = Question(wanted.log, formula)
    for place in range(BROKEN_COPIES):
        broken = {**files, "r": broken_text(draw, question, report)}
        yield f"the audit of broken copy {place}", Case(audited, broken)
        yield f"the trim of broken copy {place}", Case(["trim", "r"], {"r": broken["r"]})


def trim_case(draw):
    """A case of trim, with a report that mostly is broken."""
    case = audit_case(draw)
    files = {name: data for name, data in case.files.items() if name == "r"}
    return Case(["trim", "r"], files)


KINDS = {"check": check_case, "audit": audit_case, "trim": trim_case}
