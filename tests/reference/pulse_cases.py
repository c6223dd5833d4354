"""Cases on pulses whose answers are written out by hand."""

from cases import log_of
from check_cases import REFUTED, check, report_pattern
from derivation_cases import Case as Derivation
from derivation_cases import RuleCase, lines_text


def pulse_log(*records):
    """The text of a log of one host whose clock is never off, with these records."""
    return log_of("host,a,0,0", *records).replace(b"kind", b"skewlog2", 1)


ONE = pulse_log("pulse,a,10,p", "note,a,11,n")
CLEARED = pulse_log("clear,a,10,p", "pulse,a,10,p")
CLEARED_AFTER = pulse_log("pulse,a,10,p", "clear,a,10,p")
MIXED = pulse_log("set,a,10,p", "pulse,a,11,p", "clear,a,12,p", "pulse,a,13,p", "note,a,14,n")

RULES_OF_MIXED = [
    ("1 0 4", "-node 0 4 order 0 4 0 +same 1 4 +same 3 4"), ("1 0 1", "TRIVIAL"), ("1 0 0", "TRIVIAL"),
    ("2 0 4 0", "order 4 0 -1 order 2 4 0 +node 0 4"), ("2 0 3 1", "TRIVIAL"), ("2 0 1 1", "TRIVIAL"),
    ("2 0 4 1", "order 4 2 -1 -node 0 4 +same 1 4 +same 3 4"), ("2 0 4 2", "RANGE"),
    ("25 1 4", "-same 1 4 order 1 4 0"), ("25 4 1", "-same 1 4 order 4 1 0"), ("25 1 1", "TRIVIAL"),
    ("25 0 4", "NO_RULE"), ("25 0 0", "NO_RULE"), ("25 1 5", "RANGE"), ("25 5 1", "RANGE"),
    ("26 1 4", "+same 1 4 order 4 1 -1 order 1 4 -1"), ("26 0 3", "+same 0 3 order 3 0 -1 order 0 3 -1"),
    ("26 4 1", "KIND"), ("26 1 1", "KIND"), ("26 0 0", "KIND"), ("26 0 4", "NO_RULE"), ("26 4 5", "RANGE"),
    ("27 0 4 0", "-same 1 4 +node 0 4"), ("27 0 0 1", "-same 0 3 +node 0 0"), ("27 0 1 0", "+node 0 1"),
    ("27 0 4 2", "RANGE"), ("27 1 4 0", "RANGE"), ("27 0 5 0", "RANGE"),
]
RULES_OF_ONE = [("1 0 1", "-node 0 1 +same 0 1"), ("2 0 1 0", "RANGE"), ("27 0 1 0", "-same 0 1 +node 0 1")]
RULES_OF_TRUE = [("27 0 0 0", "KIND"), ("27 0 0 7", "KIND"), ("25 0 1", "-same 0 1 order 0 1 0")]

# Of the log of one pulse, the formula a.p and the value false.
DERIVATIONS = [
    ("learn 1 +node 0 0 1 rule 27 0 0 0", "derives"),
    ("learn 2 -same 0 1 +node 0 1 1 rule 27 0 1 0", "derives"),
    ("cycle 3 high 0 low 1 order 1 0 0; learn 1 -same 0 1 2 rule 25 1 0 line 1", "derives"),
    ("cycle 3 high 0 low 1 order 1 0 0; learn 1 +same 0 1 2 rule 25 1 0 line 1", "wrong 2"),
    ("learn 1 -same 1 2 1 rule 11", "wrong 1"),
    ("learn 1 +same 0 0 1 rule 11", "syntax 1"),
    ("learn 1 +same 1 0 1 rule 11", "syntax 1"),
    ("learn 1 same 0 1 1 rule 11", "syntax 1"),
    ("learn 1 +same 0 1 rule 11", "syntax 1"),
    ("learn 0 1 rule 25 0", "syntax 1"),
    ("learn 0 1 rule 27 0 0", "syntax 1"),
]


def fixed_cases():
    """All cases of this module on the program."""
    alone, never = ((10, 10), REFUTED), (REFUTED, (10, 11))
    table = [
        ("a pulse at its instant", b"a.p", ONE, 0, ((10, 11), REFUTED)),
        ("no pulse at another one", b"F[1,1] a.p", ONE, 1, never),
        ("a pulse after a clear", b"a.p", CLEARED, 0, alone),
        ("a pulse before a clear", b"a.p", CLEARED_AFTER, 0, alone),
    ]
    for title, formula, log, status, sections in table:
        yield check(title, formula, log, status, (), report_pattern(2, *sections))


def fixed_derivations():
    """All derivations of this module."""
    for lines, answer in DERIVATIONS:
        yield Derivation(ONE, b"a.p", False, lines_text(lines), answer)


def fixed_rules():
    """All rules of this module."""
    groups = [(MIXED, b"a.p", RULES_OF_MIXED), (ONE, b"a.p", RULES_OF_ONE), (ONE, b"true", RULES_OF_TRUE)]
    for log, formula, rules in groups:
        for rule, clause in rules:
            yield RuleCase(log, formula, True, rule, clause)
