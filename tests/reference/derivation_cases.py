"""Derivations and rules whose answers are written out by hand."""

from typing import NamedTuple

from cases import ONE_NOTE, REQUEST, SINCE_THREE, TOO_NARROW, log_of


class Case(NamedTuple):
    log: bytes
    formula: bytes
    value: bool
    lines: bytes
    answer: str


class RuleCase(NamedTuple):
    log: bytes
    formula: bytes
    value: bool
    rule: str
    clause: str  # its literals as in a line, or the name of the fault


ANSWERED = b"G (a.req -> F[0,5] b.ack)"
WHOLE = "learn 0 3 rule 3 0 0 rule 11 rule 24 0"
FACT = "learn 1 +node 0 0 1 rule 3 0 0"

# Of the formula true, the value false, and a log of one event.
OF_TRUE = [
    ("", "derives"),
    (WHOLE, "refutes"),
    ("learn 0 2 rule 3 0 0 rule 11", "wrong 1"),
    ("cycle 2 high 0 low 0", "wrong 1"),
    (FACT, "derives"),
    (f"{FACT}; learn 0 3 line 1 rule 11 rule 24 0", "refutes"),
    # The order of hints, and hints that give nothing new
    ("learn 0 3 rule 11 rule 3 0 0 rule 24 0", "refutes"),
    ("learn 0 3 rule 11 rule 24 0 rule 3 0 0", "refutes"),
    ("learn 0 3 rule 24 0 rule 11 rule 3 0 0", "wrong 1"),
    ("learn 0 4 rule 3 0 0 rule 3 0 0 rule 11 rule 24 0", "wrong 1"),
    ("learn 0 4 rule 3 0 0 rule 11 rule 24 0 rule 24 0", "wrong 1"),
    ("learn 1 +node 0 0 2 rule 3 0 0 rule 3 0 0", "wrong 1"),
    ("learn 0 1 rule 11", "wrong 1"),
    ("learn 0 0", "wrong 1"),
    ("learn 1 +node 0 0 0", "wrong 1"),
    # What is learned
    ("learn 1 -node 0 0 1 rule 3 0 0", "wrong 1"),
    ("learn 1 -node 0 0 2 rule 11 rule 24 0", "derives"),
    ("learn 1 -first 0 2 rule 3 0 0 rule 24 0", "derives"),
    ("learn 2 +first 0 +node 0 0 1 rule 3 0 0", "derives"),
    ("learn 2 +node 0 0 -first 0 1 rule 11", "wrong 1"),
    ("learn 2 +first 0 -node 0 0 3 rule 11 rule 24 0 rule 3 0 0", "wrong 1"),
    # Numbers out of range
    ("learn 1 +first 1 3 rule 3 0 0 rule 11 rule 24 0", "wrong 1"),
    ("learn 2 +node 0 0 -node 1 0 1 rule 3 0 0", "wrong 1"),
    ("learn 2 +node 0 0 -node 0 1 1 rule 3 0 0", "wrong 1"),
    ("learn 2 +node 0 0 order 0 1 0 1 rule 3 0 0", "wrong 1"),
    ("learn 2 +node 0 0 +wit 0 0 0 1 rule 3 0 0", "wrong 1"),
    ("learn 2 +node 0 0 +span 0 0 0 1 rule 3 0 0", "wrong 1"),
    ("learn 2 +node 0 0 +gap 0 0 0 1 rule 3 0 0", "wrong 1"),
    ("learn 0 3 rule 3 0 1 rule 11 rule 24 0", "wrong 1"),
    ("learn 0 3 rule 0 rule 11 rule 24 0", "wrong 1"),
    ("learn 0 3 rule 29 rule 11 rule 24 0", "wrong 1"),
    ("learn 0 3 rule 255 rule 11 rule 24 0", "wrong 1"),
    ("learn 0 3 rule 9 0 0 rule 11 rule 24 0", "wrong 1"),
    # Lines that hints name
    ("learn 0 3 line 0 rule 11 rule 24 0", "wrong 1"),
    ("learn 0 3 line 1 rule 11 rule 24 0", "wrong 1"),
    (f"learn 0 3 line 2 rule 11 rule 24 0; {FACT}", "wrong 1"),
    (f"{FACT}; learn 0 3 line 4294967295 rule 11 rule 24 0", "wrong 2"),
    (f"{FACT}; learn 0 4 line 1 line 1 rule 11 rule 24 0", "wrong 2"),
    (f"{FACT}; learn 1 +node 0 0 1 line 1", "derives"),
    # Empty clauses before the end
    (f"{WHOLE}; {FACT}", "wrong 2"),
    (f"{WHOLE}; {WHOLE}", "wrong 2"),
    (f"{FACT}; {WHOLE}; cycle 0", "wrong 3"),
    ("learn 0 1 rule 3 0 0; learn 0 0", "wrong 1"),
    # Walks over bounds of the log alone
    ("cycle 0", "wrong 1"),
    ("cycle 1 high 0", "wrong 1"),
    ("cycle 2 low 0 high 0", "wrong 1"),
    ("cycle 1 rise 0", "wrong 1"),
    ("cycle 1 extra 0", "wrong 1"),
    ("cycle 2 high 1 low 1", "wrong 1"),
    ("cycle 2 order 0 1 -1 order 1 0 -1", "wrong 1"),
]

# Of log A: event 0 is from 8 to 12, event 1 from 13 to 17. The value is true.
OF_REQUEST = [
    ("cycle 3 high 0 low 1 order 1 0 0", "derives"),
    ("cycle 3 order 1 0 0 high 0 low 1", "derives"),
    ("cycle 3 low 1 order 1 0 0 high 0", "derives"),
    ("cycle 3 high 0 order 1 0 0 low 1", "wrong 1"),
    ("cycle 3 high 0 low 1 order 1 0 1", "wrong 1"),
    ("cycle 2 high 0 low 1", "wrong 1"),
    ("cycle 2 low 1 order 1 0 0", "wrong 1"),
    ("cycle 3 high 0 low 1 order 1 0 0; learn 1 order 0 1 -1 1 line 1", "derives"),
    ("cycle 3 high 0 low 1 order 1 0 0; learn 1 order 0 1 0 1 line 1", "wrong 2"),
    ("cycle 3 high 0 low 1 order 1 0 0; learn 1 order 1 0 0 1 line 1", "wrong 2"),
    ("cycle 2 order 0 1 5 order 1 0 -6", "derives"),
    ("cycle 2 order 0 1 5 order 1 0 -5", "wrong 1"),
    ("cycle 2 order 0 1 5 order 1 0 -6; learn 1 order 0 1 5 1 line 1", "wrong 2"),
    ("cycle 2 order 0 1 5 order 1 0 -7; "
     "learn 2 order 1 0 -6 order 0 1 6 1 line 1", "derives"),
    ("cycle 2 order 0 1 5 order 1 0 -7; "
     "learn 2 order 1 0 -6 order 0 1 5 1 line 1", "syntax 2"),
    ("cycle 2 order 0 1 5 order 1 0 -7; "
     "learn 2 order 1 0 -6 order 0 1 7 1 line 1", "wrong 2"),
    ("cycle 4 order 0 1 0 order 1 0 -1 order 0 1 0 order 1 0 -1", "derives"),
    ("cycle 4 order 0 1 0 order 1 0 -2 order 0 1 0 order 1 0 -2; "
     "learn 2 order 1 0 -1 order 0 1 1 1 line 1", "derives"),
    ("cycle 2 order 0 1 -1000000000000000000000 order 1 0 999999999999999999999", "derives"),
    ("cycle 2 order 0 1 -1000000000000000000000 order 1 0 1000000000000000000000", "wrong 1"),
    ("cycle 2 order 0 1 1000000000000000000001 order 1 0 0", "syntax 1"),
    ("cycle 2 order 0 1 -1000000000000000000001 order 1 0 0", "syntax 1"),
    ("cycle 1 message 1", "wrong 1"),
    ("learn 2 order 0 1 0 -first 0 1 rule 9 0 1", "derives"),
    ("learn 2 order 1 0 -1 +first 0 1 rule 10 0", "derives"),
    ("learn 2 order 0 1 -1 +first 0 1 rule 10 0", "wrong 1"),
]

# Texts of the formula true, the value false and one event that no list of lines has.
FAULTY = [
    ("\n", 1), ("learn 0 0", 1), ("learn 0 0\nlearn 0 0", 2), ("learn 0 0\n\n", 2),
    ("learn  0 0\n", 1), (" learn 0 0\n", 1), ("learn 0 0 \n", 1), ("learn 0 0\r\n", 1),
    ("learn\t0 0\n", 1), ("Learn 0 0\n", 1), ("cycle\n", 1), ("cycle 1\n", 1), ("cycle 00\n", 1),
    ("cycle 0 low 0\n", 1), ("cycle 4294967295 low 0\n", 1), ("cycle 4294967296 low 0\n", 1),
    ("learn 4294967295 +first 0 0\n", 1), ("learn 0 4294967295 rule 11\n", 1),
    ("learn 00 0\n", 1), ("learn -0 0\n", 1), ("learn +0 0\n", 1), ("learn 0\n", 1),
    ("learn 1 first 0 1 rule 11\n", 1), ("learn 1 + first 0 1 rule 11\n", 1),
    ("learn 1 +order 0 1 0 1 rule 11\n", 1), ("learn 1 +first 0 0 1 rule 11\n", 1),
    ("learn 1 +first 4294967296 1 rule 11\n", 1), ("learn 1 +first -1 1 rule 11\n", 1),
    ("learn 2 +first 0 +first 0 1 rule 11\n", 1), ("learn 2 +first 0 -first 0 1 rule 11\n", 1),
    ("learn 2 order 0 1 4 order 1 0 -5 1 rule 11\n", 1), ("learn 1 order 0 0 0 1 rule 11\n", 1),
    ("learn 1 order 0 1 -0 1 rule 11\n", 1), ("learn 1 order 0 1 01 1 rule 11\n", 1),
    ("learn 1 order 1 0 1000000000000000000001 1 rule 11\n", 1),
    ("cycle 2 order 0 0 -1 order 0 0 -1\n", 1), ("cycle 1 lows 0\n", 1), ("cycle 1 low 01\n", 1),
    ("learn 0 1 rule 256\n", 1), ("learn 0 1 rule 29 0\n", 1), ("learn 0 1 rule 11 0\n", 1),
    ("learn 0 1 rule 3 0\n", 1), ("learn 0 1 line\n", 1), ("learn 0 1 line 4294967296\n", 1),
    ("learn 0 1 line 01\n", 1), ("learn 0 1 hint 1\n", 1),
    ("learn 0 1 rule 11\nlearn 0 1 rule 11\ncycle 1 low\nlearn\n", 3),
]

# The clauses and faults of rules of the formula true, the value false and one event.
RULES_OF_TRUE = [
    ("3 0 0", "+node 0 0"), ("11", "+first 0"), ("24 0", "-first 0 -node 0 0"),
    ("9 0 0", "TRIVIAL"), ("4 0 0", "KIND"), ("3 1 0", "RANGE"), ("29", "NO_RULE"),
    ("10 0", "+first 0"), ("10 1", "RANGE"), ("24 1", "RANGE"), ("0", "NO_RULE"),
]

# The nodes of the formula over log A: 0 true, 1 a.req, 2 b.ack, 3 F[0,5] b.ack, 4 not 3,
# 5 both 1 and 4, 6 not 5, 7 not 6, 8 F 7, 9 not 8. The value is true.
RULES_OF_REQUEST = [
    ("1 1 0", "TRIVIAL"), ("1 1 1", "-node 1 1 order 0 1 0"), ("1 2 0", "-node 2 0 order 1 0 0"),
    ("2 1 1 0", "order 1 0 -1 +node 1 1"), ("2 1 0 0", "+node 1 0"), ("2 1 0 1", "RANGE"),
    ("2 3 0 9", "KIND"), ("2 10 0 0", "RANGE"), ("3 0 1", "+node 0 1"), ("3 1 0", "KIND"),
    ("4 4 1", "-node 4 1 -node 3 1"), ("5 4 1", "+node 4 1 +node 3 1"),
    ("6 5 0", "-node 5 0 +node 1 0"), ("7 5 0", "-node 5 0 +node 4 0"),
    ("8 5 0", "+node 5 0 -node 1 0 -node 4 0"), ("8 4 0", "KIND"), ("6 4 2", "RANGE"),
    ("9 0 1", "-first 0 order 0 1 0"), ("10 0", "+first 0 order 1 0 -1"),
    ("11", "+first 0 +first 1"), ("12 3 0 1", "-wit 3 0 1 order 0 1 0"), ("12 3 0 0", "TRIVIAL"),
    ("12 4 0 0", "KIND"), ("13 3 0 1", "-wit 3 0 1 order 1 0 5"), ("13 8 0 1", "NO_RULE"),
    ("13 8 0 2", "RANGE"), ("13 7 0 1", "KIND"), ("13 3 0 0", "TRIVIAL"),
    ("14 3 0 1", "-wit 3 0 1 +node 2 1"), ("15 3 0 1", "-wit 3 0 1 +span 3 0 1"),
    ("16 3 0 1", "+wit 3 0 1 order 1 0 -1 order 0 1 -6 -node 2 1 -span 3 0 1"),
    ("16 3 0 0", "+wit 3 0 0 -node 2 0 -span 3 0 0"),
    ("16 8 0 1", "+wit 8 0 1 order 1 0 -1 -node 7 1 -span 8 0 1"),
    ("17 3 0", "-node 3 0 +wit 3 0 0 +wit 3 0 1"), ("18 3 0 1", "+node 3 0 -wit 3 0 1"),
    ("19 3 0 1 0", "-span 3 0 1 order 1 0 0 +node 0 0"), ("19 3 0 0 1", "TRIVIAL"),
    ("19 3 0 1 1", "TRIVIAL"), ("19 3 0 1 2", "RANGE"),
    ("20 3 0 1", "+span 3 0 1 +gap 3 0 0 +gap 3 0 1"),
    ("21 3 0 1 0", "-gap 3 0 0 order 0 1 -1 +span 3 0 1"),
    ("21 3 0 1 1", "-gap 3 0 1 +span 3 0 1"), ("22 3 0 1", "-gap 3 0 1 order 0 1 0"),
    ("22 3 0 0", "TRIVIAL"), ("23 3 0 1", "-gap 3 0 1 -node 0 1"),
    ("24 0", "-first 0 +node 9 0"),
]

# Event 0 sets a.p, event 1 clears it, event 2 sets b.q, event 3 is a note.
# The nodes are 0 a.p, 1 b.q, 2 a.p S[2,3] b.q. The value is false.
RULES_OF_SINCE = [
    ("1 0 3", "-node 0 3 order 0 3 0"), ("2 0 3 0", "order 3 0 -1 order 1 3 0 +node 0 3"),
    ("2 0 3 1", "order 3 1 -1 -node 0 3"), ("2 0 1 0", "TRIVIAL"),
    ("2 0 0 0", "order 1 0 0 +node 0 0"), ("2 0 1 1", "-node 0 1"),
    ("12 2 1 0", "-wit 2 1 0 order 0 1 -2"), ("12 2 0 0", "-wit 2 0 0"),
    ("13 2 1 0", "-wit 2 1 0 order 1 0 3"), ("13 2 0 0", "TRIVIAL"),
    ("14 2 1 0", "-wit 2 1 0 +node 1 0"),
    ("16 2 1 0", "+wit 2 1 0 order 1 0 1 order 0 1 -4 -node 1 0 -span 2 1 0"),
    ("16 2 0 0", "TRIVIAL"), ("19 2 1 0 2", "-span 2 1 0 order 1 2 -1 order 2 0 0 +node 0 2"),
    ("19 2 1 1 0", "TRIVIAL"), ("19 2 1 0 0", "TRIVIAL"),
    ("19 2 1 0 1", "-span 2 1 0 order 1 0 0 +node 0 1"),
    ("21 2 1 0 2", "-gap 2 1 2 order 0 2 -1 +span 2 1 0"),
    ("22 2 1 0", "-gap 2 1 0 order 0 1 0"), ("23 2 1 0", "-gap 2 1 0 -node 0 0"),
    ("24 3", "-first 3 -node 2 3"),
]

RULES_OF_ONE_OPERAND = [("8 1 0", "+node 1 0 -node 0 0"), ("7 1 0", "-node 1 0 +node 0 0")]
RULES_WITHOUT_CHANGE = [("1 0 0", "-node 0 0"), ("2 0 0 0", "RANGE")]


def lines_text(lines):
    """The text of lines that stand in one word, separated by semicolons."""
    return b"".join(line.encode() + b"\n" for line in lines.split("; ") if line)


def fixed_cases():
    """All derivations of this module."""
    for lines, answer in OF_TRUE:
        yield Case(ONE_NOTE, b"true", False, lines_text(lines), answer)
    for lines, answer in OF_REQUEST:
        yield Case(REQUEST, ANSWERED, True, lines_text(lines), answer)
    for text, line in FAULTY:
        yield Case(ONE_NOTE, b"true", False, text.encode(), f"syntax {line}")
    steps = b"cycle 3 high 1 low 0 rise 1\n"
    yield Case(TOO_NARROW, b"a.p", True, steps, "refutes")
    yield Case(TOO_NARROW, b"a.p", False, steps, "refutes")
    yield Case(ONE_NOTE, b"true", True, lines_text(WHOLE), "wrong 1")


def fixed_rules():
    """All rules of this module."""
    other = log_of("host,a,0,0", "note,a,1,n")
    groups = [
        (ONE_NOTE, b"true", False, RULES_OF_TRUE),
        (REQUEST, ANSWERED, True, RULES_OF_REQUEST),
        (SINCE_THREE, b"a.p S[2,3] b.q", False, RULES_OF_SINCE),
        (ONE_NOTE, b"a.p & a.p", True, RULES_OF_ONE_OPERAND),
        (other, b"a.p", True, RULES_WITHOUT_CHANGE),
    ]
    for log, formula, value, rules in groups:
        for rule, clause in rules:
            yield RuleCase(log, formula, value, rule, clause)
