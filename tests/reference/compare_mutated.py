"""Has the built program audit mutated reports, and looks whether what it accepts is true.

Run as: python3 compare_mutated.py PROGRAM [--cases N] [--seed S] [--second SHARE] [--third SHARE]

Each of N reports (2000 by default) is one that `check` or the search of invent.py
made of a small question, mutated: its parts and lines by invent_reports.py, its
bytes, two reports put together, or whole and given to a question that is changed
by a little. The program's answer is compared with that of reports.py. A report that is
accepted is read once more, and each of its claims is compared with all admissible
timings, which are few: so this asks nothing of either checker. The first
difference is printed with its files, and the end is 1.
"""

import collections
import itertools
import os
import random
import sys
import tempfile
from pathlib import Path

sys.dont_write_bytecode = True  # leaves no compiled files beside the sources

import compare
import generate
import generate_logs
import invent
import invent_reports
import judge
import logs
import meanings
import reports
import tables
from generate_logs import chance
from invent_reports import Question

MUTANTS = 12  # of the reports on one question
SHARES = {"accepted": 0.01, "refused report": 0.05, "refused events": 0.001, "refused inconsistent": 0.001,
          "refused true": 0.003, "refused false": 0.003}  # of the endings, at least


def some_question(draw):
    """A small question whose log has few timings, and the values that these give."""
    while True:
        question = invent_reports.some_question(draw)
        values = meanings.values_where_few(question.log, question.formula())
        if values is not None:
            return question, values


def neighbour(draw, question):
    """The question with another skew, gap, error, bound between rows, time or formula, on as many events."""
    log = question.log
    choice = draw.randrange(6)
    if choice == 5 and (log.readings or log.extras):
        readings = [move_one(draw, reading, "error") for reading in log.readings]
        extras = [extra._replace(most=extra.most + draw.choice((-1, 0, 1))) for extra in log.extras]
        return question._replace(log=log._replace(readings=readings, extras=extras))
    if choice == 0:
        hosts = [move_one(draw, host, "skew") for host in log.hosts]
        return question._replace(log=log._replace(hosts=hosts))
    if choice == 1:
        hosts = [move_one(draw, host, "gap") for host in log.hosts]
        return question._replace(log=log._replace(hosts=hosts))
    if choice == 2:
        rows = [row._replace(local=row.local + draw.choice((-1, 0, 1))) for row in log.rows]
        return question._replace(log=log._replace(rows=rows))
    tree = invent.small_tree(draw, log)
    if choice == 3:
        tree = generate.one_sided(draw, draw.choice("FG"), tree)
    return Question(log, generate.formula_text(draw, generate.tokens_of(draw, tree)))


def move_one(draw, host, name):
    """The host or the reading with one of its numbers moved by one or not at all."""
    return host._replace(**{name: max(0, getattr(host, name) + draw.choice((-1, 0, 1)))})


def changed_bytes(draw, text):
    """The text with a few bytes put in the place of others, dropped, added or moved."""
    text = bytearray(text)
    for _ in range(draw.choice((1, 1, 2, 4))):
        place = draw.randrange(len(text))
        choice = draw.randrange(5)
        if choice == 0:
            text[place] = draw.choice(b"0123456789 \n+-")
        elif choice == 1:
            text[place] ^= 1 << draw.randrange(8)
        elif choice == 2:
            del text[place : place + draw.choice((1, 1, 3, 20))]
        elif choice == 3:
            text[place:place] = text[place : place + draw.choice((1, 5, 30))]
        else:
            other = draw.randrange(len(text))
            text[place], text[other] = text[other], text[place]
        if not text:
            return b"\n"
    return bytes(text)


def spliced(draw, text, other):
    """The head of one text and the tail of another, or lines of both by turns."""
    one, two = text.splitlines(keepends=True), other.splitlines(keepends=True)
    if chance(draw, 0.6):
        return b"".join(one[: draw.randint(0, len(one))] + two[draw.randint(0, len(two)) :])
    pairs = itertools.zip_longest(one, two, fillvalue=b"")
    return b"".join(draw.choice(pair) for pair in pairs)


def mutant(draw, question, texts):
    """One of the texts, mutated."""
    text = draw.choice(texts)
    choice = draw.random()
    if choice < 0.15:
        return changed_bytes(draw, text)
    if choice < 0.3:
        return spliced(draw, text, draw.choice(texts))
    if choice < 0.4:
        return text
    for _ in range(draw.choice((1, 1, 1, 2, 3))):
        report = reports.read_report(text)
        if isinstance(report, reports.SyntaxFault):
            break
        text = invent_reports.broken_text(draw, question, report)
    return text


class Audits:
    """The audits of a program, and how each ended."""

    def __init__(self, program, folder):
        self.program = program
        self.folder = folder
        self.endings = collections.Counter()

    def run(self, words, files):
        """What the program makes of words on these files."""
        return compare.run_program(self.program, self.folder, words, files)

    def report_of(self, files, conflicts):
        """The report that check writes."""
        return self.run(["check", f"--conflicts={conflicts}", "f", "l"], files).output

    def complaint(self, question, values, conflicts, files):
        """What is wrong with the answer to an audit, or nothing."""
        outcome = self.run(["audit", f"--conflicts={conflicts}", "f", "l", "r"], files)
        wanted = reports.audit(question.log, question.formula(), conflicts, files["r"])
        said = wanted.encode() + b"\n"
        if outcome.output != said or outcome.status != (0 if wanted == "accepted" else 5):
            return f"the second checker says {wanted!r}, the program {outcome!r}"
        self.endings[" ".join(wanted.split()[:2])] += 1
        if wanted != "accepted":
            return ""
        report = reports.read_report(files["r"])
        if isinstance(report, reports.SyntaxFault):
            return "no report was accepted"
        return judge.claims_complaint(values, report) or witnesses_complaint(question, report)


def witnesses_complaint(question, report):
    """Which witness of an accepted report isn't one of the timings with its value, or nothing."""
    if isinstance(report, reports.Inconsistent):
        return ""
    for value, section in ((True, report.on_true), (False, report.on_false)):
        if not isinstance(section, reports.Witness):
            continue
        if section.times not in meanings.admissible_timings(question.log):
            return f"the witness of {value} isn't admissible"
        if not meanings.World(question.problem(value), section.times).gives_value():
            return f"the witness of {value} doesn't give it"
    return ""


def texts_on(draw, audits, question, files, conflicts):
    """Reports on a question: the program's, and one by another search."""
    texts = [audits.report_of(files, conflicts)]
    if chance(draw, 0.5):
        texts.append(reports.report_text(invent_reports.right_report(draw, question)[0]))
    return [text for text in texts if text.startswith(b"skewcheck")]


def compare_all(program, count, seed):
    """Whether all mutants are judged alike, and no accepted one claims what isn't true."""
    draw = random.Random(seed)
    with tempfile.TemporaryDirectory() as folder:
        audits = Audits(program, folder)
        done = 0
        while done < count:
            question, values = some_question(draw)
            conflicts = draw.choice((1, 2, 3, 200_000))
            files = {"f": question.formula_text, "l": logs.log_text(question.log)}
            texts = texts_on(draw, audits, question, files, conflicts)
            other = neighbour(draw, question)
            near = {"f": other.formula_text, "l": logs.log_text(other.log)}
            texts += texts_on(draw, audits, other, near, conflicts)
            for _ in range(MUTANTS if texts else 0):
                files["r"] = mutant(draw, question, texts)
                complaint = audits.complaint(question, values, conflicts, files)
                if complaint:
                    print(f"difference in case {done} of seed {seed}: {complaint}\nfiles = {files!r}")
                    return False
                done += 1
    print(", ".join(f"{number} {ending}" for ending, number in sorted(audits.endings.items())))
    tables.end_if_rare(audits.endings, SHARES, count)
    return True


def main():
    """Compares, and ends with 0 where there is no difference and with 1 where there is one."""
    arguments = tables.read_log_arguments(__doc__.splitlines()[0], 2000, "mutated reports")
    if not compare_all(os.path.abspath(arguments.program), arguments.cases, arguments.seed):
        sys.exit(1)
    print(f"{arguments.cases} mutated reports, no difference")


if __name__ == "__main__":
    sys.path.insert(0, str(Path(__file__).resolve().parents[1]))
    import ends

    ends.run(main)
