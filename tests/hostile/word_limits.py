"""Words at their limits and beyond them, and names of files that can't be read, with what has to be answered."""

from case import ONE_ROW, TRUE, TWO_ROWS, Case
from json_texts import RIGHT as LOG_IN_JSON
from log_limits import ROWS, log_of
from report_limits import RIGHT as REPORT
from report_limits import TITLE
from second_limits import HEADER as SECOND_HEADER

FILES = {
    "l": ONE_ROW, "two": TWO_ROWS, "most": log_of(b"host,a,0,1", *[b"note,a,%d,n" % row for row in range(ROWS)]), "f": TRUE,
    "j": LOG_IN_JSON, "r": REPORT,
}
REFUSED = b"refused words"
DIGITS = "9" * 100_000


def case(title, words, status, line=b""):
    """A case on words."""
    return Case("words", title, words, FILES, (status,), line)


def conflicts():
    """Numbers of conflicts."""
    for number, status in (
        ("1", 0), ("1000000", 0), ("1000001", 64), ("0", 64), ("01", 64), ("+1", 64), ("-1", 64), ("-0", 64), ("", 64),
        ("1.0", 64), ("1e3", 64), (" 1", 64), ("4294967297", 64), ("18446744073709551617", 64), (DIGITS, 64),
    ):
        title = shown(number)
        line = b"skewcheck 1" if status == 0 else REFUSED
        yield case(f"--conflicts={title}", ["check", f"--conflicts={number}", "f", "l"], status, line)
        yield case(f"--conflicts {title}", ["check", "--conflicts", number, "f", "l"], status, line)
    once = ["--conflicts=1"]
    yield case("--conflicts twice", ["check", *once, *once, "f", "l"], 64, REFUSED)
    yield case("--conflicts behind --", ["check", "f", "l", "--", *once], 64, REFUSED)
    yield case("--conflicts for times", ["times", *once, "l"], 64, REFUSED)
    yield case("--conflicts without a number", ["check", "f", "l", "--conflicts"], 64, REFUSED)


def shown(number):
    """A number as titles show it."""
    return number if len(number) < 45 else f"of {len(number):,} digits"


def lists():
    """Lists of words."""
    for words in (
        ["check"], ["check", "f"], ["check", "f", "l", "l"], ["check", "", "l"], [""], ["Check", "f", "l"],
        ["check", "-v", "f", "l"], ["check", "--help"], ["--help"], ["--version"], ["check", "--conflict=1", "f", "l"],
        ["times"], ["times", "--"], ["order", "l", "l"], ["check ", "f", "l"],
    ):
        yield case(f"words {words}", words, 64, REFUSED)
    yield case("a word of 100,000 bytes", ["a" * 100_000], 64, REFUSED)
    yield case("10,000 words", ["check", *["f"] * 10_000], 64, REFUSED)
    yield case("10,000 words that are options", ["check", *["--conflicts=1"] * 10_000, "f", "l"], 64, REFUSED)
    yield case("a word that isn't UTF-8", ["check", "\udcff", "l"], 71)
    yield case("names behind --", ["check", "--", "f", "l"], 0, b"skewcheck 1")


def files():
    """Files that can't be read."""
    yield case("a file that isn't there", ["check", "f", "none"], 74)
    yield case("a folder", ["check", "f", "."], 74)
    yield case("a name of 5,000 bytes", ["check", "f", "l" * 5_000], 74)
    yield case("the standard input twice, empty the first time", ["replay", "f", "-", "-"], 66,
               b"refused log 1 at record 1")
    yield case("the standard input, which is empty, as a log", ["times", "-"], 66, b"refused log 1 at record 1")
    yield case("the standard input, which is empty, as a formula", ["check", "-", "l"], 65, b"refused formula 7 at byte 0")


# Words that are no whole numbers, whatever the limit.
NO_NUMBERS = ("01", "00", "+1", "+0", "-1", "-0", "", "1.0", "1e3", " 1", "1 ", "0x1", "1_0", "x", "inf", "-", "\u0661", DIGITS)
NO_VALUES = ("True", "TRUE", "False", "1", "0", "", "t", "yes", "either", "true ", " true", "true\n", "truefalse", "-true", "-",
             "true" * 25_000)
MOST = 10**18  # of a widening
EVENTS = 2**32  # the least number that no row may have


def tolerances():
    """Words of `tolerance`."""
    for number in (0, 1, 10**9, MOST):
        yield case(f"tolerance true {number}", ["tolerance", "true", str(number), "f", "l"], 0, b"tolerance 0")
        yield case(f"tolerance false {number}", ["tolerance", "false", str(number), "f", "l"], 1, b"tolerance none")
    beyond = (MOST + 1, 2**63, 2**64, 2**64 + 1, 2**128, 2**128 + 1, 10**30)
    for number in (*map(str, beyond), *NO_NUMBERS):
        yield case(f"tolerance true {shown(number)}", ["tolerance", "true", number, "f", "l"], 64, REFUSED)
        yield case(f"tolerance -- true {shown(number)}", ["tolerance", "--", "true", number, "f", "l"], 64, REFUSED)
    for value in NO_VALUES:
        yield case(f"tolerance {shown(value)!r}", ["tolerance", value, "0", "f", "l"], 64, REFUSED)
    yield from options(["tolerance", "true", "0", "f", "l"], b"tolerance 0")
    for words in (["0", "true", "f", "l"], ["f", "l", "true", "0"], ["true", "0", "", "l"], ["true", "0", "f", ""]):
        yield case(f"tolerance {words}", ["tolerance", *words], 64, REFUSED)


def spans():
    """Words of `span`. By the clocks of the log of two rows the second is up to 9 after the first, and at least 1."""
    for events, log, status, line in (
        ((0, 1), "two", 0, b"span 9"), ((1, 0), "two", 0, b"span -1"),
        ((0, ROWS - 1), "most", 0, b"span 1023"), ((ROWS - 1, 0), "most", 0, b"span -1023"),
        ((0, ROWS), "most", 69, b"refused event 1024"), ((ROWS, 0), "most", 69, b"refused event 1024"),
        ((0, 2), "two", 69, b"refused event 2"), ((2, 0), "two", 69, b"refused event 2"),
        ((3, 2), "two", 69, b"refused event 3"), ((2, 3), "two", 69, b"refused event 2"),
        ((0, 1), "l", 69, b"refused event 1"), ((1, 0), "l", 69, b"refused event 1"),
        ((0, EVENTS - 1), "two", 69, b"refused event 4294967295"), ((EVENTS - 1, 0), "two", 69, b"refused event 4294967295"),
        ((EVENTS - 1, EVENTS - 2), "two", 69, b"refused event 4294967295"),
    ):
        first, second = map(str, events)
        yield case(f"span true {first} {second}", ["span", "true", first, second, "f", log], status, line)
    yield case("span false 0 1", ["span", "false", "0", "1", "f", "two"], 1, b"span none")
    # Cut to 32 or 64 bits each of these would be a row.
    for number in (*map(str, (EVENTS, EVENTS + 1, 2**64, 2**64 + 1, 2**128 + 1, MOST)), *NO_NUMBERS):
        yield case(f"span true {shown(number)} 0", ["span", "true", number, "0", "f", "two"], 64, REFUSED)
        yield case(f"span true 0 {shown(number)}", ["span", "true", "0", number, "f", "two"], 64, REFUSED)
    for number in ("0", "1", "2", str(EVENTS - 1)):
        yield case(f"span true {number} {number}", ["span", "true", number, number, "f", "two"], 64, REFUSED)
    for value in NO_VALUES:
        yield case(f"span {shown(value)!r}", ["span", value, "0", "1", "f", "two"], 64, REFUSED)
    yield from options(["span", "true", "0", "1", "f", "two"], b"span 9")
    for words in (["0", "1", "true", "f", "two"], ["f", "two", "true", "0", "1"], ["true", "0", "1", "", "two"]):
        yield case(f"span {words}", ["span", *words], 64, REFUSED)


def options(words, line):
    """A command with the option at each place, with other options, and with too few and too many words."""
    name = words[0]
    for place in range(1, len(words) + 1):
        for option in (["--conflicts=5"], ["--conflicts", "5"]):
            yield case(f"{name} with {' '.join(option)} before word {place}", [*words[:place], *option, *words[place:]], 0,
                       line)
        for option in (["--conflicts"], ["--conflicts="], ["--conflicts=0"], ["--conflicts=05"], ["--conflicts=5"] * 2, ["-v"],
                       ["--help"],
                       ["--most=5"], ["--Conflicts=5"], ["--conflict=5"], ["--conflicts", "--", "5"], ["--conflicts", "-5"]):
            title = f"{name} with {' '.join(option)} before word {place}"
            yield case(title, [*words[:place], *option, *words[place:]], 64, REFUSED)
        yield case(f"{name} with -- before word {place}", [*words[:place], "--", *words[place:]], 0, line)
        yield case(f"{name} with -- twice before word {place}", [*words[:place], "--", "--", *words[place:]], 64, REFUSED)
        yield case(f"{name} of {place - 1} operands", words[:place], *((0, line) if place == len(words) else (64, REFUSED)))
    yield case(f"--conflicts=5 before {name}", ["--conflicts=5", *words], 64, REFUSED)
    yield case(f"{name} and one word more", [*words, "l"], 64, REFUSED)
    yield case(f"{name} and 10,000 words more", [*words, *["l"] * 10_000], 64, REFUSED)
    yield case(f"{name} with a capital", [name.capitalize(), *words[1:]], 64, REFUSED)
    yield case(f"{name} and --conflicts behind --", [*words, "--", "--conflicts=5"], 64, REFUSED)
    yield case(f"{name} and a word that isn't UTF-8", [*words[:-1], "\udcff"], 71)


def readers_of_one_file():
    """Words of `json` and `trim`, which have one name and no option."""
    for name, file, line, status, of_nothing in (
        ("json", "j", SECOND_HEADER[:-1], 66, b"refused json 1"), ("trim", "r", TITLE[:-1], 5, b"refused report at line 1"),
    ):
        for words in ([file], ["--", file], [file, "--"]):
            yield case(f"{name} {' '.join(words)}", [name, *words], 0, line)
        for words in (
            [], ["--"], [""], [file, file], [file, "l"], ["-", "-"], ["--", file, "--"], ["--conflicts=5", file],
            ["--conflicts", "5", file],
            [file, "--conflicts=5"], [file, "--conflicts"], ["-v", file], ["--help"], ["--version"], ["--", "-v", file],
            [file] * 10_000,
        ):
            yield case(f"{name} {' '.join(words)[:40]}", [name, *words], 64, REFUSED)
        yield case(f"{name} with a capital", [name.capitalize(), file], 64, REFUSED)
        yield case(f"{name} of a name with a dash", [name, "--", "-v"], 74)
        yield case(f"{name} of a file that isn't there", [name, "none"], 74)
        yield case(f"{name} of a folder", [name, "."], 74)
        yield case(f"{name} of the standard input, which is empty", [name, "-"], status, of_nothing)
        yield case(f"{name} of a word that isn't UTF-8", [name, "\udcff"], 71)


def orders_of_reading():
    """Files that aren't there and inputs that are empty, of which the first in the order of tests counts."""
    for command in (["tolerance", "true", "5"], ["span", "true", "0", "7"]):
        name = command[0]
        for files_named, status, line in (
            (["none", "none"], 74, b""), (["f", "none"], 74, b""), (["none", "l"], 74, b""), (["f", "."], 74, b""),
            (["-", "l"], 65, b"refused formula 7 at byte 0"), (["-", "-"], 65, b"refused formula 7 at byte 0"),
            (["f", "-"], 66, b"refused log 1 at record 1"), (["l", "f"], 65, b"refused formula 2 at byte 4"),
        ):
            yield case(f"{name} of the files {' '.join(files_named)}", [*command, *files_named], status, line)
    yield case("tolerance with a faulty number, and no file", ["tolerance", "true", "x", "none", "none"], 64, REFUSED)
    yield case("span of one row twice, and no file", ["span", "true", "7", "7", "none", "none"], 64, REFUSED)


def cases():
    """All cases of words."""
    for some in (conflicts, lists, files, tolerances, spans, readers_of_one_file, orders_of_reading):
        yield from some()
