"""Runs of the companion: on closed streams, odd files, odd names and bytes, odd words, signals, and long texts."""

import signal

import long_texts
from case import HEADER, TWO_ROWS
from script_runs import Odd, Run

ASK = "ask/ask"
FORMULA = b"G (a.req -> F[0,5] b.ack)"
ROWS = b'{"time": 10, "host": "a", "name": "x"}\n{"time": 12, "host": "b", "name": "y"}\n'
TIMES = b"10\n15\n"
REPORT = b"skewcheck 1\nevents 2\ntrue witness\n8\n13\nfalse witness\n8\n14\nend\n"
SPAN_OF_OTLP = (
    b'{"resourceSpans":[{"resource":{"attributes":[{"key":"service.name","value":{"stringValue":"a"}}]},"scopeSpans":[{"spans":'
    b'[{"traceId":"0af7651916cd43dd8448eb211c80319c","spanId":"00f067aa0ba902b7","name":"x","kind":2,"startTimeUnixNano":'
    b'"1700000000000000000","endTimeUnixNano":"1700000000500000000","events":[{"timeUnixNano":1700000000100000000,"name":"e"}]}]}]}]}\n'
)
SPAN_OF_JAEGER = (
    b'{"data":[{"traceID":"1","spans":[{"traceID":"1","spanID":"2","operationName":"x","references":[],"startTime":1700000000000000,'
    b'"duration":500,"tags":[],"logs":[],"processID":"p1"}],"processes":{"p1":{"serviceName":"a","tags":[]}}}]}\n'
)
SPAN_OF_ZIPKIN = b'[{"traceId":"1","id":"2","name":"x","timestamp":1700000000000000,"duration":500,"localEndpoint":{"serviceName":"a"}}]\n'
FILES = {
    "o": SPAN_OF_OTLP, "g": SPAN_OF_JAEGER, "z": SPAN_OF_ZIPKIN,
    "f": FORMULA, "l": TWO_ROWS, "t": TIMES, "r": REPORT, "j": ROWS, "d": b"G (a.req -> F[0,?] b.ack)", "e": b"F {1}.{2}",
    "a": b"1700000000.000 0.010 r1\n1700000000.100 0.010 r2\n", "c": b"2023-11-14T22:13:28Z chronyd[1]: System clock was stepped by 0.5 s\n",
    "s": b"time,host,name\n2023-11-14T22:13:30.003Z,a,n\n",
}
FORMAT = long_texts.FORMAT_OF_BLANKS
OVER = ["--over", r"(\w+)\.(\w+)"]
# Words that end with an answer, and which of them are names of files.
BASES = {
    "check": (["check", "f", "l"], (1, 2)),
    "check --json": (["check", "f", "l", "--json", "--runs"], (1, 2)),
    "deadline": (["deadline", "d", "l"], (1, 2)),
    "between": (["between", "l", "0", "1"], (1,)),
    "tolerance": (["tolerance", "true", "f", "l"], (2, 3)),
    "each": (["each", "e", "l", *OVER], (1, 2)),
    "log": (["log", "l"], (1,)),
    "log of JSON": (["log", "j", "--skew", "5", "--notes", "notes"], (1, 5)),
    "log of access lines": (["log", "a", "--access", FORMAT, "--skew", "5ms"], (1,)),
    "log with steps": (["log", "s", "--skew", "5ms", "--clock", "c"], (1, 5)),
    "log of OTLP": (["log", "o", "--otlp", "--skew", "5ms"], (1,)),
    "log of Jaeger": (["log", "g", "--jaeger", "--skew", "5ms", "--steady-spans", "1us"], (1,)),
    "log of Zipkin": (["log", "z", "--zipkin", "--skew", "5ms"], (1,)),
    "draw": (["draw", "l"], (1,)),
    "draw --svg": (["draw", "l", "--formula", "f", "--svg"], (1, 3)),
    "draw --times": (["draw", "l", "--times", "t", "--svg"], (1, 3)),
    "draw --report": (["draw", "l", "--report", "r"], (1, 3)),
}
CONTROLS = [bytes([code]) for code in [*range(1, 32), 127]]
ODD_LETTERS = [*CONTROLS, *(sign.encode() for sign in "\x80\x9b\u200e\u200f\u202a\u202e\u2028\u2029\u2066\u2069\ufeff"), b"\xff", b"\xc3"]
MARKS = [b"<", b"&", b"]]>", b"</script>", b"</title>", b"@SVG@", b"@TITLE@", b"'", b'"', b"\\", b"$(touch x)", b"%s", b"{}", b"-->", b"<![CDATA["]


def case(title, words, statuses=(), files=None, **more):
    """A run of ask on the files that all have, and some of its own."""
    return Run("ask", title, ASK, words, {**FILES, **(files or {})}, tuple(statuses), **more)


def turned_streams(kind, script, bases, files):
    """Streams that are closed, full, or that nobody reads, in each combination."""
    for name, words in bases.items():
        for output in ("", ">&-", ">/dev/full", "gone"):
            for errors in ("", "2>&-", "2>/dev/full"):
                for given in (b"", None):
                    if output or errors or given is None:
                        yield Run(kind, f"streams of {name}: {output} {errors}", script, words, files,
                                  (75,) if output else (), given, output, errors)


def streams():
    """Streams of each command, of its help, and of what it refuses."""
    bases = {name: words for name, (words, _) in BASES.items()}
    yield from turned_streams("ask", ASK, bases, FILES)
    for words in (["--help"], ["check", "--help"], ["log", "--help"]):
        for output in (">&-", ">/dev/full", "gone"):
            yield case(f"streams of help: {output}", words, (75,), output=output)
    for words, status in ((["what"], 64), (["check", "f", "nothing"], 74), (["check", "f f", "l"], 65)):
        for errors in ("2>&-", "2>/dev/full"):
            yield case(f"streams of refusals: {errors}", words, (status,), errors=errors)
            yield case(f"streams of refusals in JSON: {errors}", [*words, "--json"], (64, 65, 74), errors=errors)
    yield case("the standard input: closed", ["check", "-", "l"], (74,))
    yield case("the standard input: empty", ["check", "-", "l"], (65,), given=b"")
    yield case("the standard input: a formula", ["check", "-", "l"], (2,), given=FORMULA)
    yield case("the standard input: twice", ["check", "-", "-"], (64,), given=FORMULA)


ODD_FILES = {
    **{odd.value: odd for odd in Odd},
    "nothing there": None, "empty": b"", "a newline": b"\n", "a NUL": b"\0", "a byte order mark": b"\xef\xbb\xbf", "two of them": b"\xef\xbb\xbf" * 2,
    "UTF-16": HEADER.decode().encode("utf-16"), "no UTF-8": b"\xff\xfe\xfd", "a head alone": HEADER, "an ELF file": b"\x7fELF\2\1\1" + b"\0" * 50,
    "65,536 bytes": b" " * 65_536, "65,537 bytes": b" " * 65_537, "1,048,576 bytes": b"\n" * 1_048_576, "1,048,577 bytes": b"\n" * 1_048_577,
    "2 MiB of letters": b"a" * 2_097_152, "a brace": b"{", "a bracket": b"[", "null": b"null", "a number": b"7", "a quote": b'"',
}


def odd_files():
    """Each odd file in each place of a file, and files as other systems write them."""
    for name, (words, places) in BASES.items():
        for place in places if name not in ("check --json", "draw --svg") else ():
            for what, data in ODD_FILES.items():
                files = {**FILES}
                files.pop(words[place], None)
                if data is not None:
                    files[words[place]] = data
                yield Run("ask", f"odd files for {name}: {what}", ASK, words, files)
            yield case(f"odd names for {name}: too long", [*words[:place], "n" * 300, *words[place + 1 :]])
            yield case(f"odd names for {name}: empty", [*words[:place], "", *words[place + 1 :]])
        for change in (b"\r\n", b"\r"):
            files = {key: data.replace(b"\n", change) for key, data in FILES.items() if key not in "tr"}
            yield case(f"other ends of lines for {name}: {change!r}", words, (0, 2), files)
        marked = {key: b"\xef\xbb\xbf" + data for key, data in FILES.items() if key in "ljacsogz"}
        yield case(f"a byte order mark for {name}:", words, (0, 2), marked)


def odd_names():
    """Names of files with letters that aren't shown, and marks of pages and pictures."""
    for letter in [*ODD_LETTERS, *MARKS]:
        if b"/" in letter:
            letter = letter.replace(b"/", b"_")
        log, formula, times, report = (start + letter + b"x" for start in (b"l", b"f", b"t", b"r"))
        files = {log: TWO_ROWS, formula: FORMULA, times: TIMES, report: REPORT, b"j" + letter: ROWS}
        for words, statuses in (
            (["check", formula, log, *["--json"] * (letter[0] % 2)], (2,)), (["check", b"no" + letter, log], ()),
            (["draw", log], (0,)), (["draw", log, "--svg"], (0,)), (["draw", log, "--times", times, "--formula", formula, "--svg"], (0,)),
            (["draw", log, "--report", report], (0,)), (["log", b"j" + letter, "--skew", "5", "--notes", b"n" + letter], (0,)),
        ):
            yield case(f"names with {letter!r}:", words, statuses, files)


def odd_bytes():
    """Letters that aren't shown within formulas, logs, tables, lines of JSON and access lines."""
    for number, letter in enumerate([*ODD_LETTERS, *MARKS[:4]]):
        text = letter.decode("utf-8", "replace")
        in_json = "".join(f"\\u{ord(sign):04x}" for sign in text).encode()
        runs = (
            ("a formula", ["check", "f", "l"], {"f": b"G (a.req " + letter + b" b.ack)"}),
            ("the words", ["check", b"G a.req" + letter + b"x", "l"], {}),
            ("a template", ["each", "e", "l", *OVER], {"e": b"F {} & " + letter + b" a.req"}),
            ("a name", ["check", "f", "l"], {"l": TWO_ROWS + b"set,a,20,p" + letter + b"\n"}),
            ("a host", ["draw", "l"], {"l": TWO_ROWS + b"set,a" + letter + b",20,p\n"}),
            ("a kind", ["between", "l", "0", "1"], {"l": TWO_ROWS + b"s" + letter + b"t,a,20,p\n"}),
            ("a head", ["check", "f", "l"], {"l": letter + TWO_ROWS}),
            ("a table", ["log", "l", "--skew", "5"], {"l": b"time,host,name,x" + letter + b"\n1,h" + letter + b"h,n" + letter + b"m,1\n"}),
            ("a head of a table", ["log", "l", "--skew", "5"], {"l": b"time,host,na" + letter + b"me\n1,h,n\n"}),
            ("JSON", ["log", "j", "--skew", "5"], {"j": b'{"time":1,"host":"h' + in_json + b'","name":"' + in_json + b'"}\n'}),
            ("a key of JSON", ["log", "j", "--skew", "5"], {"j": b'{"time":1,"ho' + in_json + b'st":"h","name":"n"}\n'}),
            ("OTLP", ["log", "o", "--otlp", "--skew", "5"], {"o": SPAN_OF_OTLP.replace(b'"x"', b'"' + in_json + b'"').replace(b'"a"', b'"h' + in_json + b'"')}),
            ("a kind of OTLP", ["log", "o", "--otlp", "--skew", "5"], {"o": SPAN_OF_OTLP.replace(b'"kind":2', b'"kind":"' + in_json + b'"')}),
            ("bytes of JSON", ["log", "j", "--skew", "5"], {"j": b'{"time":1,"host":"h' + letter + b'","name":"n"}\n'}),
            ("an access line", ["log", "a", "--access", FORMAT, "--skew", "5ms"], {"a": b"1700000000.000 0.0" + letter + b"10 r1\n"}),
            ("an id of an access line", ["log", "a", "--access", FORMAT, "--skew", "5ms", "--row", "begin=note:r{request_id}"],
             {"a": b"1700000000.000 0.010 r" + letter + b"1\n"}),
            ("times", ["draw", "l", "--times", "t"], {"t": b"10" + letter + b"\n15\n"}),
            ("a report", ["draw", "l", "--report", "r"], {"r": REPORT[:30] + letter + REPORT[30:]}),
        )
        for what, words, files in runs[number % 2 :: 2]:
            yield case(f"bytes in {what}: {letter!r}", words, (), files)


WORDS = (
    "", " ", "-", "--", "---", "-x", "--x", "--json=1", "--seconds", "--seconds=0", "--seconds=nan", "--seconds=inf",
    "--seconds=-1", "--seconds=1e400", "--seconds=0.001", "--conflicts", "--conflicts=0", "--conflicts=1000001",
    "--conflicts=" + "9" * 5000, "--conflicts=\u0661", "--program=", "--program=/", "--program=/nowhere",
    "--program=/bin/true", "--program=/bin/false", "--program=/bin/cat", "--program=/dev/null", "--help=1",
    "--version=1", "--over=", "--over=(", "--over=(((", "--over=.*", "--over=(?P<n>", "--over=a{99999999}",
    "--over=\\", "--up-to", "--up-to=-1", "--up-to=" + "9" * 5000, "--times=nowhere", "--report=nowhere",
    "--formula=", "--formula=F", "--notes=/nowhere/n", "--notes=/dev/full", "--notes=.", "--skew=", "--skew=x=5",
    "--skew=" + "9" * 5000, "--gap=-1", "--latency=1", "--latency=5,1", "--latency=9,inf", "--step=1", "--step=,",
    "--step=x,y", "--clock=nowhere", "--tracking=nowhere", "--from=x", "--to=", "--only=nothing", "--unit=h",
    "--access=", "--access=$", "--access=$msec", "--access=%", "--access=$a$b$c$d", "--row=", "--row=x=y:z",
    "--row=begin=set:{", "--row=x=note:{{}", "--host=", "--time=", "--name=", "--as=", b"\xff", b"--x=\xff",
    "\x1b[31m", "\u202e", "a.p", "0", "1", "line:2", "line:x", "a.req", "9" * 5000, "-1", "l", "f", ".", "/",
    "/dev/null", "=", "a=", "=-", "x" * 100_000, "true", "false",
)


def odd_words():
    """Words that are odd, behind those of each command and in place of its names."""
    names = ("check", "deadline", "between", "tolerance", "each", "log of JSON", "log of access lines", "draw")
    for number, word in enumerate(WORDS):
        for name in names[number % 2 :: 2]:
            words, places = BASES[name]
            yield case(f"words behind {name}: {word[:20]!r}", [*words, word])
            if name in ("check", "between", "log of JSON"):
                replaced = [word if place == places[-1] else other for place, other in enumerate(words)]
                yield case(f"words in place of a name of {name}: {word[:20]!r}", replaced)
    for words in ([], ["what"], [""], ["--"], ["check"], ["--json"], ["-h", "x"], [b"\xff"], ["check"] * 1000, ["log", *["l"] * 2000]):
        yield case(f"words alone: {words[:2]}", words, given=b"")


SLEEPING = 'echo $$ >"$BEGUN.new"; mv "$BEGUN.new" "$BEGUN"; exec sleep 55'
STUBBORN = "trap '' TERM INT HUP; sleep 55 & echo $$ $! >\"$BEGUN.new\"; mv \"$BEGUN.new\" \"$BEGUN\"; sleep 55; sleep 55"


def signals():
    """Signals in the middle of a run of the program, which may not want to end, and time that is over."""
    for name in ("check", "check --json", "deadline", "between", "tolerance", "each", "draw"):
        words = BASES[name][0]
        for stub in (SLEEPING, STUBBORN):
            for number in (signal.SIGINT, signal.SIGTERM, signal.SIGHUP):
                yield case(f"signals of {name}: {number}", words, (128 + number,), stub=stub, signal=number)
            yield case(f"time for {name}:", [*words, "--seconds", "0.4"], (124,), stub=stub)
    for stub, statuses in (
        ("exit 1", (72,)), ("exit 0", (72,)), ("echo true; exit 0", (72,)), ("kill -9 $$", (72,)), ("exit 99", ()), ("yes", (72,)),
        ("printf 'skewcheck 1\\nevents 2\\nend\\n'; exit 1", (72,)), ("printf '\\x1b[31m\\n'; exit 65", ()), ("echo refused; exit 66", ()),
        ("printf 'refused log 7\\n'; exit 66", ()), ("printf 'refused formula 1 at byte 99999\\n'; exit 65", ()),
    ):
        for name in ("check", "deadline", "between", "tolerance", "each", "draw", "draw --svg"):
            yield case(f"programs that are none for {name}: {stub[:30]}", BASES[name][0], statuses, stub=stub)


def long_logs():
    """Logs that are made to take long, for what reads them."""
    for title, log in long_texts.logs():
        for words in (["check", "f", "l"], ["between", "l", "0", "1"], ["draw", "l"]):
            yield case(f"long logs for {words[0]}: {title}", [*words, "--seconds", "6"], (), {"l": log})
    for title, table in (*long_texts.tables(), *long_texts.lines_of_json()):
        yield case(f"long files for log: {title}", ["log", "l", "--skew", "5", "--json"], (), {"l": table})
    for title, lines in long_texts.access_lines():
        for form in long_texts.FORMATS:
            yield case(f"long access lines: {title}", ["log", "l", "--skew", "5", "--access", form], (), {"l": lines})
    rows = b"time,host,name\n" + b"".join(b"2023-11-14T22:%02d:%02d.%03dZ,a,n\n" % (row // 60 % 60, row % 60, row) for row in range(1000))
    for option, title, text in long_texts.time_services():
        yield case(f"long files of clocks: {title}", ["log", "s", "--skew", "5ms", f"--{option}", "c"], (), {"s": rows, "c": text})


def long_formulas():
    """Formulas that are made to take long."""
    for title, formula in long_texts.formulas():
        formula = formula.replace(b"a.p", b"a.req")[: long_texts.FORMULA]
        yield case(f"long formulas for check: {title}", ["check", "f", "l"], (), {"f": formula})
        for command, more in (("deadline", b" & F[0,?] a.req"), ("each", b" & {}")):
            words = [command, "f", "l", *(OVER if command == "each" else [])]
            yield case(f"long formulas for {command}: {title}", words, (), {"f": formula[: -len(more)] + more})


def cases():
    """All runs of the companion."""
    for some in (streams, odd_files, odd_names, odd_bytes, odd_words, signals, long_logs, long_formulas):
        yield from some()
