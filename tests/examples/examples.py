"""Runs a built program on the examples, and as the pages show it.

Run as: python3 examples.py PROGRAM [--write]

examples/runs.txt lists the runs of check, audit, trim, json, tolerance and span. Each
report that check writes there has to be the one that is kept, and is audited with the
same files: by the program, and by the second audit in tests/reference, which judges the
answers of tolerance and span too. Then the runs of many_rows.py have to end as it
says. Then each command of README.md and docs/ that a block of shell shows, and that
the program, cat or python3 is in, has to write what stands below it, and to end below
64 where no refusal is shown (those with jq are left out where there is none), each clause that a block of text quotes has to stand in
the code, and each link has to lead to a file, and to a heading of it where it names
one. What the tables of refusals show has to be refused so, and the picture of the
crates has to be that of crates.txt. Every difference is printed. The last line says
how many of these checks passed, and the end is 1 where one failed. With --write the
reports that differ and the picture are kept anew.
"""

import argparse
import os
import re
import shlex
import shutil
import subprocess
import sys
import tempfile
from pathlib import Path
from typing import NamedTuple

sys.dont_write_bytecode = True  # leaves no compiled files beside the sources

ROOT = Path(__file__).resolve().parent.parent.parent
EXAMPLES = ROOT / "examples"
sys.path[:0] = [str(ROOT / "tests" / "reference"), str(EXAMPLES)]

import crates_picture
import judge
import many_rows
import program as answers
import refusals

PATIENCE = 60  # seconds that one run may take
SHOWN = ("./skewcheck ", "cat ", "python3 ")  # what is in the commands of pages that are run
ELSEWHERE = ("many-logs.md",)  # pages whose commands another test runs
REFUSED = 64  # the least status that is no answer
LEAST_LINKS = 100  # of all pages, so that they aren't overlooked


class Run(NamedTuple):
    """A run in the folder of examples, with what it must write and its status."""

    words: list
    status: int
    output: bytes
    report: str  # the name of the file that holds the output, or nothing


class Outcome(NamedTuple):
    status: int  # None where the program came to no end
    output: bytes


# Runs


def listed_runs():
    """The runs of runs.txt: words, status, and a file of the folder or a line that is written."""
    for line in (EXAMPLES / "runs.txt").read_text().splitlines():
        if not line or line.startswith("#"):
            continue
        words, status, output = (part.strip() for part in line.split("|"))
        kept = EXAMPLES / output
        is_file = output.endswith((".report", ".answer"))
        text = kept.read_bytes() if is_file and kept.exists() else output.encode() + b"\n"
        yield Run(words.split(), int(status), text, output if is_file else "")


def outcome_of(program, words, folder=EXAMPLES):
    """What the program writes in a folder, and its status."""
    try:
        done = subprocess.run(
            [program, *words], cwd=folder, stdin=subprocess.DEVNULL, capture_output=True,
            timeout=PATIENCE,
        )
    except subprocess.TimeoutExpired:
        return Outcome(None, b"")
    return Outcome(done.returncode, done.stdout)


def differences_of_runs(program, is_written):
    """What differs in the listed runs, as lines."""
    runs = list(listed_runs())
    if not runs:
        yield "runs.txt lists no run"
    for run in runs:
        title = " ".join(run.words)
        outcome = outcome_of(program, run.words)
        if outcome.status != run.status:
            yield f"{title}: status {outcome.status}, not {run.status}"
        elif outcome.output != run.output and run.report and is_written:
            (EXAMPLES / run.report).write_bytes(outcome.output)
        elif outcome.output != run.output:
            yield f"{title}: it writes {outcome.output!r}, not {run.report or run.output!r}"
        if run.report and run.words[0] == "check":
            yield from differences_of_audits(program, run)
        if run.words[0] in answers.BEST and (found := judge.complaint(run.words, files_of_examples(), *outcome[::-1])):
            yield f"{title}: by the second reading {found}"


def differences_of_audits(program, run):
    """What differs where a report that check has written is audited, as lines."""
    words = ["audit", *run.words[1:], run.report]
    title = " ".join(words)
    outcome = outcome_of(program, words)
    if outcome != (0, b"accepted\n"):
        yield f"{title}: status {outcome.status}, {outcome.output!r}"
    if answers.answer(words, files_of_examples()) != answers.Exact(0, b"accepted\n"):
        yield f"{title}: the second audit refuses it"


def files_of_examples():
    """The files of the folder of examples by their names."""
    return {path.name: path.read_bytes() for path in EXAMPLES.iterdir() if path.is_file()}


# Logs of the most rows


def differences_of_many_rows(program):
    """What differs in the runs on logs of the most rows and one more, as lines."""
    with tempfile.TemporaryDirectory() as folder:
        for case in many_rows.cases():
            for name, text in case.files.items():
                Path(folder, name).write_bytes(text)
            outcome = outcome_of(program, case.words, folder)
            first_line = outcome.output.split(b"\n")[0]
            if outcome.status != case.status or case.first_line not in (None, first_line):
                yield f"{case.title}: status {outcome.status}, {outcome.output[:80]!r}"
            elif complaint := judge.complaint(case.words, case.files, outcome.output, outcome.status):
                yield f"{case.title}: {complaint}"


# Pages


def shown_commands(page):
    """The commands of the shell blocks of a page, each with what stands below it."""
    in_block, command, below = False, None, []
    for line in page.read_text().splitlines():
        starts = in_block and line.startswith("$ ")
        ends = in_block and line == "```"
        if command is not None and (starts or ends):
            yield command, "".join(below)
            command = None
        if starts:
            command, below = line.removeprefix("$ "), []
        elif in_block:
            below.append(line + "\n")
        in_block = line == "```sh" or in_block and not ends


def pages():
    """README.md and the pages of docs."""
    return [ROOT / "README.md", *sorted((ROOT / "docs").glob("*.md"))]


def commands_to_run():
    """The commands of the pages that are run here, each with its page and what stands below it."""
    for page in pages():
        for command, shown in shown_commands(page):
            if page.name not in ELSEWHERE and any(word in command for word in SHOWN):
                yield page, command, shown


def is_left_out(command):
    """Whether a command of a page needs what isn't here, which is told."""
    if "jq " not in command or shutil.which("jq"):
        return False
    print(f"left out: tests/examples, {command}: for want of the package jq")
    return True


def is_refused(command, shown, status):
    """Whether a command of a page ended with no answer, and the page shows neither a refusal nor its standard error."""
    return not 0 <= status < REFUSED and "2>&1" not in command and not shown.startswith("refused ")


def differences_of_pages(program):
    """What differs between the pages and what the program writes, as lines."""
    commands = list(commands_to_run())
    if not commands:
        yield "no page shows a command that is run"
    for page, command, shown in commands:
        if is_left_out(command):
            continue
        done = subprocess.run(
            ["bash", "-c", command.replace("./skewcheck", shlex.quote(program))], cwd=ROOT,
            stdin=subprocess.DEVNULL, capture_output=True, text=True, timeout=PATIENCE,
        )
        if done.stdout != shown:
            yield f"{page.name}: {command}: it writes {done.stdout!r}, not {shown!r}"
        elif is_refused(command, shown, done.returncode):
            yield f"{page.name}: {command}: it ends with {done.returncode}, which isn't shown"


# Clauses


def quoted_clauses(page):
    """The clauses of the text blocks of a page that begin with one."""
    for block in re.findall(r"^```text\n(ensures .*?)\n```$", page.read_text(), re.M | re.S):
        yield from re.split(r"\n(?=ensures )", block)


def differences_of_clauses():
    """The quoted clauses that don't stand in the code, blanks apart, as lines."""
    sources = sorted((ROOT / "crates").glob("*/src/**/*.rt"))
    code = " ".join(word for source in sources for word in source.read_text().split())
    quoted = [(page, clause) for page in pages() for clause in quoted_clauses(page)]
    if not quoted:
        yield "no page quotes a clause"
    for page, clause in quoted:
        if " ".join(clause.split()) not in code:
            yield f"{page.name}: no function has the clause {clause}"


# Refusals


def first_line(program, words, data):
    """The first line that the program writes, with these bytes as its standard input."""
    done = subprocess.run([program, *words], input=data, cwd=EXAMPLES, capture_output=True, timeout=PATIENCE)
    return done.stdout.decode().split("\n")[0]


def differences_of_refusals(program):
    """What is refused otherwise than the tables of pages say, as lines."""
    yield from refusals.differences_of_logs(lambda log: first_line(program, ["times", "-"], log))
    yield from refusals.differences_of_formulas(lambda text: first_line(program, ["check", "-", "request.csv"], text))


# Links


def anchors(page):
    """The names by which a link leads to a heading of a page."""
    for heading in re.findall(r"^#+ (.*)$", page.read_text(), re.M):
        yield re.sub(r"[^\w -]", "", heading.lower()).replace(" ", "-")


def differences_of_links():
    """The links of the pages that lead nowhere, as lines."""
    count = 0
    for page in [*pages(), ROOT / "CONTRIBUTING.md", ROOT / "CHANGELOG.md"]:
        for link in re.findall(r"\]\(([^)\s]+)\)", page.read_text()):
            count += 1
            name, _, anchor = link.partition("#")
            target = page.parent / name if name else page
            if "://" not in link and (not target.exists() or anchor and anchor not in anchors(target)):
                yield f"{page.name}: the link {link} leads nowhere"
    if count < LEAST_LINKS:
        yield f"the pages have {count} links"


def checks(program, is_written):
    """Each check with its name and the differences that it finds."""
    yield "runs", differences_of_runs(program, is_written)
    yield "pages", differences_of_pages(program)
    yield "many rows", differences_of_many_rows(program)
    yield "clauses", differences_of_clauses()
    yield "links", differences_of_links()
    yield "picture of the crates", crates_picture.differences(is_written)
    yield "refusals", differences_of_refusals(program)


def main():
    """Prints the differences, and ends with 0 where there is none and with 1 where there is one."""
    parser = argparse.ArgumentParser(description="run skewcheck on its examples")
    parser.add_argument("program")
    parser.add_argument("--write", action="store_true", help="keep the reports that differ and the picture anew")
    arguments = parser.parse_args()
    passed, failed = 0, 0
    for name, differences in checks(os.path.abspath(arguments.program), arguments.write):
        lines = list(differences)
        for line in lines:
            print(f"tests/examples, {name}: {line}")
        passed, failed = passed + (not lines), failed + bool(lines)
    print(f"{passed} passed, {failed} failed")
    sys.exit(1 if failed else 0)


if __name__ == "__main__":
    sys.path.insert(0, str(Path(__file__).resolve().parents[1]))
    import ends

    ends.run(main)
