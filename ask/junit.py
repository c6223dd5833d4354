"""Tests as JUnit XML, which pipelines read.

There is no test that is skipped: whether a property holds that isn't known was asked and not found out, and a pipeline
that shows it as skipped would show it as one that nothing is wrong with.
"""

from __future__ import annotations

from pathlib import PurePath
from typing import NamedTuple, Sequence
from xml.etree import ElementTree

from ask.texts import escaped_lines, write_text


class Case(NamedTuple):
    """A test: its name, how long it took, and the kind and word of what is wrong, with a sentence and warnings."""

    name: str
    seconds: float
    kind: str  # failure, error, or nothing where it passes
    verdict: str
    sentence: str
    warnings: Sequence[str]


def write_junit(name: str, properties: str, log: str, cases: Sequence[Case]) -> None:
    """Writes a file of tests."""
    write_text(name, junit_text(properties, log, cases))


def junit_text(properties: str, log: str, cases: Sequence[Case]) -> str:
    """The text of a file with one suite: the properties of a file on a log."""
    suites = ElementTree.Element("testsuites")
    suite = ElementTree.SubElement(suites, "testsuite", {
        "name": clean(log), "tests": str(len(cases)), "failures": counted_of(cases, "failure"),
        "errors": counted_of(cases, "error"), "skipped": "0", "time": f"{sum(case.seconds for case in cases):.3f}",
    })
    for case in cases:
        add_case(suite, clean(PurePath(properties).stem), case)
    ElementTree.indent(suites)
    return f"<?xml version='1.0' encoding='utf-8'?>\n{ElementTree.tostring(suites, encoding='unicode')}\n"


def counted_of(cases: Sequence[Case], kind: str) -> str:
    """How many tests are of a kind."""
    return str(sum(case.kind == kind for case in cases))


def add_case(suite: ElementTree.Element, group: str, case: Case) -> None:
    """Adds a test to a suite."""
    words = {"classname": group, "name": clean(case.name), "time": f"{case.seconds:.3f}"}
    element = ElementTree.SubElement(suite, "testcase", words)
    warnings = "".join(f"Warning: {clean(warning)}.\n" for warning in case.warnings)
    if case.kind:
        first, *rest = clean(case.sentence).split("\n")
        if case.verdict == "warning":
            first, rest = clean(case.warnings[0]), [first]
        wrong = ElementTree.SubElement(element, case.kind, {"type": case.verdict, "message": first})
        wrong.text = "\n".join([first, *rest])
    if warnings:
        ElementTree.SubElement(element, "system-out").text = warnings


def clean(text: str) -> str:
    """Foreign text without letters that XML can't have."""
    return escaped_lines(text)
