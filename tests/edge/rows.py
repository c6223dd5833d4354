"""The runs of the program as a table: the words of each, the files that they name, its status, and its first line."""

from dataclasses import dataclass, field
from typing import Dict, Optional

HEADER = "kind,host,time,name\n"
ANSWERED = f"{HEADER}host,a,2,1\nhost,b,2,1\nset,a,10,req\nset,b,15,ack\n"  # ack is 1 to 9 after req
RECEIVED_FIRST = f"{HEADER}host,a,2,1\nrecv,a,10,m\nsend,a,10,m\n"  # which no times admit
APART = f"{HEADER}host,a,5,0\nhost,b,5,0\nset,a,10,p\nset,b,10,q\n"
MANY_ROWS = HEADER + "host,a,0,1\n" + "".join(f"note,a,{10 * place},x\n" for place in range(1024))
JSON = '{"hosts":[{"name":"a","skew":2,"gap":1}],"events":[{"kind":"set","host":"a","time":10,"name":"req"}]}'
# Each of five operators counts the square of the rows: 5 * 1,024^2.
FIVE = "F a.p & F a.q & F a.r & F a.s & F a.t"
REPORT = """\
skewcheck 1
events 2
true witness
10
15
false unknown 0
end
"""

# The files that words may name.
FILES = {
    "l.csv": ANSWERED, "shut.csv": RECEIVED_FIRST, "apart.csv": APART, "rows.csv": MANY_ROWS, "empty": "", "l.json": JSON, "list.json": "[]",
    "long.csv": "\n" * 1_048_577, "long.formula": " " * 65_537,
    "within_9": "G (a.req -> F[0,9] b.ack)", "within_5": "G (a.req -> F[0,5] b.ack)", "within_0": "G (a.req -> F[0,0] b.ack)",
    "true": "true", "never": "F a.nothing", "either": "(a.p & b.q) | !(a.p & b.q)", "broken": "G (a.req", "of_c": "F c.p", "five": FIVE,
    "stamps": "10\n15\n", "early": "1\n15\n", "words": "ten\n15\n", "report": REPORT,
}


@dataclass(frozen=True)
class Row:
    """A run of the program: its words, with one blank between two of them, what it can read, and how it ends.

    FOLDER in a word is the folder in which it runs. There are the files of FILES that are among the words, and further
    ones by their names. The first line is None where nothing is written.
    """

    words: str
    status: int
    line: Optional[str]
    input: str = ""
    files: Dict[str, str] = field(default_factory=dict)

    def all_files(self) -> Dict[str, str]:
        """The files that there are when it runs."""
        named = {word: FILES[word] for word in self.words.split(" ") if word in FILES}
        return {**named, **self.files}


# A run of each status that docs/usage.md has, but for 72, which is that of the script ./skewcheck alone.
STATUSES = (
    Row("check within_9 l.csv", 0, "skewcheck 1"), Row("check within_0 l.csv", 1, "skewcheck 1"), Row("check within_5 l.csv", 2, "skewcheck 1"),
    Row("check true shut.csv", 3, "skewcheck 1"), Row("check --conflicts 1 either apart.csv", 4, "skewcheck 1"),
    Row("check --conflicts=1 either apart.csv", 4, "skewcheck 1"), Row("demo 7", 0, "demo 7"),
    Row("audit within_9 l.csv -", 5, "refused report at line 1", "accepted\n"), Row("audit within_9 l.csv report", 5, "refused false at line 0"),
    Row("trim l.csv", 5, "refused report at line 1"), Row("times l.csv", 0, "8"), Row("times shut.csv", 3, "inconsistent 2"),
    Row("replay within_9 l.csv stamps", 0, "true"), Row("replay within_0 l.csv stamps", 1, "false"),
    Row("replay true l.csv early", 6, "not admissible low 0"), Row("replay true l.csv words", 68, "refused times 1 at line 1"),
    Row("order l.csv", 0, "0: 1 0"), Row("order shut.csv", 3, "cycle 2"), Row("json l.json", 0, "kind,host,time,name"),
    Row("tolerance false 9 within_9 l.csv", 0, "tolerance 1"), Row("tolerance false 9 true l.csv", 1, "tolerance none"),
    Row("tolerance true 9 true shut.csv", 3, "inconsistent 2"), Row("tolerance --conflicts 1 false 0 either apart.csv", 4, "tolerance unknown 0"),
    Row("span true 0 1 true l.csv", 0, "span 9"), Row("span true 1 0 true l.csv", 0, "span -1"), Row("span true 0 1 never l.csv", 1, "span none"),
    Row("span true 0 1 true shut.csv", 3, "inconsistent 2"), Row("span --conflicts 1 false 0 1 either apart.csv", 4, "span unknown"),
    Row("chekc within_9 l.csv", 64, "refused words"), Row("check broken l.csv", 65, "refused formula 2 at byte 8"),
    Row("check of_c l.csv", 65, "refused formula 8 at byte 2"), Row("check empty l.csv", 65, "refused formula 7 at byte 0"),
    Row("check true empty", 66, "refused log 1 at record 1"), Row("json l.csv", 66, "refused json 1"), Row("json list.json", 66, "refused json 2"),
    Row("check long.formula l.csv", 67, "refused length formula"), Row("times long.csv", 67, "refused length log"),
    Row("check five rows.csv", 67, "refused size 5242880"), Row("span true 0 9 true l.csv", 69, "refused event 9"),
    Row("check missing l.csv", 74, None),
)

# Words that are no command, and what stands in place of words.
WORDS = (
    Row("check", 64, "refused words"), Row("check true", 64, "refused words"), Row("check true l.csv l.csv", 64, "refused words"),
    Row("check --conflicts 0 true l.csv", 64, "refused words"), Row("check --conflicts 1000001 true l.csv", 64, "refused words"),
    Row("check true l.csv --strict", 64, "refused words"), Row("times --help", 64, "refused words"), Row("--version", 64, "refused words"),
    Row("-", 64, "refused words"), Row("CHECK true l.csv", 64, "refused words"), Row("demo x", 64, "refused words"), Row("demo 01", 64, "refused words"),
    Row("tolerance either 9 true l.csv", 64, "refused words"), Row("check  l.csv", 64, "refused words"), Row("times ", 64, "refused words"),
    Row("times --", 64, "refused words"), Row("times -- l.csv", 0, "8"), Row("times -- -", 0, "8", ANSWERED),
)

# The name `-`, absolute names, and names that are those of no file.
NAMES = (
    Row("times -", 0, "8", ANSWERED), Row("times -", 0, "8", ANSWERED, {"-": RECEIVED_FIRST}),
    Row("times ./-", 3, "inconsistent 2", ANSWERED, {"-": RECEIVED_FIRST}), Row("check - l.csv", 0, "skewcheck 1", "true", {"-": "broken"}),
    Row("check - -", 74, None, "true"), Row("audit - l.csv -", 74, None, "true"),
    Row("times missing", 74, None), Row("times l.csv/", 74, None), Row("times l.csv/x", 74, None), Row("times .", 74, None), Row("check . l.csv", 74, None),
    Row("check true .", 74, None), Row("replay true l.csv .", 74, None), Row("times /dev/null", 66, "refused log 1 at record 1"),
    Row("times " + "x" * 256, 74, None), Row("times a\nb", 0, "8", files={"a\nb": ANSWERED}), Row("times \u00e9\u4e2d", 0, "8", files={"\u00e9\u4e2d": ANSWERED}),
    Row("check ./within_9 ./l.csv", 0, "skewcheck 1", files={"within_9": FILES["within_9"], "l.csv": ANSWERED}),
    Row("check FOLDER/within_9 FOLDER/l.csv", 0, "skewcheck 1", files={"within_9": FILES["within_9"], "l.csv": ANSWERED}),
    Row("times FOLDER/missing", 74, None), Row("times FOLDER", 74, None),
)
