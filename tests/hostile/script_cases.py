"""Runs of the scripts in examples/ and of the second checker: on closed streams, odd files, names, words and signals."""

import shutil
import signal
import sys

from ask_cases import FILES, MARKS, ODD_FILES, ODD_LETTERS, REPORT, SLEEPING, STUBBORN, WORDS, turned_streams
from case import TWO_ROWS
from script_runs import PROGRAM, ROOT, Odd, Run

MANY, NOTES, JSONL, NGINX, JOIN = (
    f"examples/{name}.py" for name in ("many_logs", "notes", "from_jsonl", "from_nginx", "join_logs")
)
CHECKER = "tests/reference/reports.py"
EVENT = b'{"time":"2023-11-14T22:13:30.003Z","service":"s","thread":"t","event":"done","request":"r"}\n'
SCRIPT_FILES = {**FILES, "j": EVENT, "logs/x.csv": TWO_ROWS, "logs/y.csv": TWO_ROWS}
# Words with which each script does what it is for, which of them are names of files, and the status.
BASES = {
    MANY: (["logs", "f", "--to", "to"], (1,), 2),
    NOTES: (["3", "2"], (), 0),
    JSONL: (["j", "--skew", "5"], (0,), 0),
    NGINX: (["a", "--skew", "5ms"], (0,), 0),
    JOIN: (["l", "l"], (0,), 0),
    CHECKER: (["f", "l", "r"], (0, 1, 2), 0),
}
REMOTE = [MANY] if shutil.which("parallel") else []


def case(title, script, words, statuses=(), files=None, **more):
    """A run of a script on the files that all have, and some of its own."""
    words = [*words, "--program", PROGRAM] if script == MANY and words else words
    return Run("scripts", title, script, words, {**SCRIPT_FILES, **(files or {})}, tuple(statuses), **more)


def scripts():
    """The scripts that can be run here, each with its words."""
    return {script: base for script, base in BASES.items() if script != MANY or REMOTE}


def streams():
    """Streams of each script that are closed, full, or that nobody reads."""
    for script, (words, _, status) in scripts().items():
        yield case(f"as it should be: {script}", script, words, (status,))
        if script != CHECKER:
            yield from turned_streams("scripts", script, {script: words}, SCRIPT_FILES)
            for output in (">&-", ">/dev/full", "gone"):
                yield case(f"streams of help: {script} {output}", script, ["--help"], (75,) if script != NOTES else (64,), output=output)


def odd_files():
    """Each odd file in each place of a file."""
    for script, (words, places, _) in scripts().items():
        for place in places:
            for what, data in ODD_FILES.items():
                files = {name: text for name, text in SCRIPT_FILES.items() if name != words[place]}
                if data is not None:
                    files[words[place]] = data
                if script == CHECKER and data in (Odd.ZERO, Odd.FIFO, Odd.FULL):
                    continue  # it reads what it is told to, to the end
                yield Run("scripts", f"odd files for {script}: {what}", script, words, files, is_light=script != CHECKER)


def odd_names():
    """Names of logs and formulas with any letters."""
    for letter in [*ODD_LETTERS, *MARKS, b"\n", b"'q'", b"-", b" ", b"*", b"x" * 250]:
        letter = letter.replace(b"/", b"_")
        if REMOTE:
            files = {b"odd/" + letter + b".csv": TWO_ROWS, b"odd/-" + letter[:200] + b".csv": TWO_ROWS, b"-f" + letter[:200]: FILES["f"]}
            words = [b"odd", b"./-f" + letter[:200], "--to", b"to" + letter[:200]]
            yield case(f"names with {letter[:20]!r}:", MANY, words, (2,), files)
        for script, start in ((JSONL, b"j"), (NGINX, b"a"), (JOIN, b"l")):
            name = start + letter
            words = [name, *scripts()[script][0][1:]] if script != JOIN else [name]
            yield case(f"names with {letter[:20]!r}:", script, words, (0,), {name: SCRIPT_FILES[start.decode()]})


def folders():
    """Folders of logs and of answers that are odd, and logs that are no files."""
    if not REMOTE:
        return
    for odd in Odd:
        yield case(f"a log that is none: {odd.value}", MANY, ["logs", "f", "--to", "to"], (74,), {"logs/z.csv": odd})
        yield case(f"a folder of logs that is none: {odd.value}", MANY, ["odd", "f", "--to", "to"], (74,), {"odd": odd})
        statuses = (2,) if odd is Odd.FOLDER else (73, 74)
        yield case(f"a folder of answers that is none: {odd.value}", MANY, ["logs", "f", "--to", "odd"], statuses, {"odd": odd})
    yield case("a folder of answers that is somebody's:", MANY, ["logs", "f", "--to", "to"], (73,), {"to/own": b"x"})
    yield case("a folder of answers with another's mark:", MANY, ["logs", "f", "--to", "to"], (73,), {"to/many_logs.mark": b"x"})
    yield case("a folder of answers in a file:", MANY, ["logs", "f", "--to", "f/to"], (73,))
    for data, status in ((b"", 66), (b"\n" * 1_048_577, 67), (b"\xff", 66)):
        yield case("logs that are refused:", MANY, ["logs", "f", "--to", "to"], (status,), {"logs/z.csv": data})
    for stub, statuses in (
        ("exit 0", (72,)), ("exit 1", (72,)), ("exit 7", (72,)), ("exit 99", (99,)), ("echo true", (72,)), ("kill -9 $$", (137,)),
        ("printf 'skewcheck 1\\nevents 2\\nend\\n'; exit 1", (72,)),
    ):
        yield case(f"programs that are none: {stub[:20]}", MANY, ["logs", "f", "--to", "to"], statuses, stub=stub)


NUMBERS = ("0", "1", "-1", "+1", "01", "1.5", "1e3", "9" * 5000, "1000001", "\u0661", "", " 1", "1 ", "x", "\u202e1", b"\xff", "--", "-", "1000000")


def odd_words():
    """Words that are odd, behind those of each script and in place of its names."""
    for script, (words, _, _) in scripts().items():
        for word in WORDS[:: 3 if script == MANY else 1]:
            if script != CHECKER:
                yield case(f"words behind those of {script}: {word[:20]!r}", script, [*words, word])
        for count in range(len(words)):
            yield case(f"too few words for {script}:", script, words[:count])
    for number in NUMBERS:
        yield case(f"numbers for {NOTES}: {number[:9]!r}", NOTES, [number])
        yield case(f"numbers for {NOTES}: {number[:9]!r}", NOTES, ["2", number], output=">/dev/full")
        for option in ("--bundle", "--conflicts", "--seconds", "--jobs") if REMOTE else ():
            yield case(f"numbers for {MANY}: {number[:9]!r}", MANY, ["logs", "f", "--to", "to", option, number])


def signals():
    """Signals in the middle of a run of the program."""
    for number in (signal.SIGINT, signal.SIGTERM, signal.SIGHUP):
        for stub in (SLEEPING, STUBBORN):
            for words in (["logs", "f", "--to", "to"], ["logs", "f", "--to", "to", "--bundle", "1", "--jobs", "1"]) if REMOTE else ():
                yield case(f"signals of {MANY}: {number}", MANY, words, (128 + number,), stub=stub, signal=number)


def checker():
    """What the second checker answers to words and files."""
    for words, status in (
        ([], 64), (["f"], 64), (["f", "l"], 64), (["f", "l", "r", "x"], 64), (["--x", "f", "l", "r"], 64), (["f", "l", "r", "--conflicts", "0"], 64),
        (["f", "l", "r", "--conflicts", "x"], 64), (["-", "l", "r"], 64), (["f", "-", "r"], 64), (["f", "l", "-"], 64), (["nothing", "l", "r"], 74),
        (["f", "nothing", "r"], 74), (["f", "l", "nothing"], 74), (["f", "l", "."], 74), (["l", "l", "r"], 65), (["f", "f", "r"], 66), (["f", "l", "l"], 5),
        (["f", "l", "r"], 0),
    ):
        yield case(f"the second checker: {words}", CHECKER, words, (status,))
    for place in range(0, len(REPORT), 3):
        yield case("the second checker on a cut report:", CHECKER, ["f", "l", "r"], (5,), {"r": REPORT[:place]})

def cases():
    """All runs of scripts."""
    for some in (streams, odd_files, odd_names, folders, odd_words, signals, checker):
        yield from some()
