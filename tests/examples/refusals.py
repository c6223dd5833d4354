"""The tables of refusals in docs/log-format.md and docs/formula.md: each record or text that they show is refused so."""

import re
from pathlib import Path

DOCS = Path(__file__).resolve().parent.parent.parent / "docs"
HEADERS = {1: "kind,host,time,name", 2: "skewlog2,host,time,name", 3: "skewlog3,host,time,name"}
SINCE = {"resync": 2, "latency": 2, "pulse": 2, "clock": 3, "bound": 3}  # kinds of records, by the version that began them


def faults():
    """The number of each fault of logs, with the cell of what has it."""
    table = (DOCS / "log-format.md").read_text().split("| Fault | In words |")[1].split("\n\n")[0]
    return re.findall(r"^\| (\d+)[^|]*\|[^|]*\| (.*) \|$", table, re.M)


def logs_of(cell):
    """The logs of a cell: the records in it, each below a header and a host, or the first lines that it names."""
    if "first line" in cell:
        yield from (line + "\n" for line in re.findall(r"`([^`]*)`", cell))
        return
    version = None
    for part in re.split(r"[;,] (?=in version|`)", cell):
        stated = re.match(r"in version (\d)", part)
        version = int(stated[1]) if stated else version
        records = re.findall(r"`([^`]*,[^`]*)`", part)
        if records:
            kinds = [record.split(",")[0] for record in records]
            known = version or max(SINCE.get(kind, 1) for kind in kinds)
            yield "\n".join([HEADERS[known], "host,a,2,1", *reversed(records)]) + "\n"


def differences_of_logs(answer):
    """The logs that are refused by another fault, or by none, as lines; answer tells what times writes of a log."""
    count = 0
    for fault, cell in faults():
        for log in logs_of(cell):
            count += 1
            line = answer(log.encode())
            if not re.match(rf"refused log {fault}( |$)", line):
                yield f"log-format.md: fault {fault}: {log!r} is answered by {line!r}"
    if count < 20:
        yield f"log-format.md: its table of faults shows {count} logs"


def formulas():
    """The texts that docs/formula.md shows, each with the line that refuses it."""
    row = r"^\| `(refused formula \d at byte) (\w+)` \|.*\| `([^`]*)`(?:.*, at (\d+))? \|$"
    for line, place, text, shown in re.findall(row, (DOCS / "formula.md").read_text(), re.M):
        yield text, f"{line} {shown or place}"


def differences_of_formulas(answer):
    """The texts that are refused otherwise, as lines; answer tells what check writes of a formula."""
    shown = list(formulas())
    for text, wanted in shown:
        line = answer(text.encode())
        if line != wanted:
            yield f"formula.md: {text!r} is answered by {line!r}, not {wanted!r}"
    if len(shown) < 6:
        yield f"formula.md: its table of refusals shows {len(shown)} texts"
