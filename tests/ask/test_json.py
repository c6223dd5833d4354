"""Answers in JSON have the keys and types that docs/asking-json.md states, refusals too."""

import functools
import json
import tempfile
import unittest
from pathlib import Path

from common import ROOT, asked, asked_apart
from schema import TABLES, complaint, complaint_of_type, table_of

EXAMPLES = ROOT / "examples"
FAR = 4 * 10**18
SUITE, SUITE_OF_A = "../tests/ask/logs/suite.properties", "../tests/ask/logs/suite_of_a.properties"
ANSWERED = (
    (0, "check within_9.formula answered.csv"), (1, "check within_0.formula answered.csv"), (2, "check within_8.formula answered.csv"),
    (3, "check p.formula received_first.csv"), (4, "check --conflicts 1 either.formula apart.csv"), (65, "check a.aksed answered.csv --strict"),
    (0, "check within_8000.formula checkout.csv"), (1, "check heartbeat.formula heartbeat.csv"),
    (2, "check within_7999.formula checkout.csv --as-found"), (2, "check within_8.formula answered.csv --windows"),
    (0, "deadline F[0,?]a.req answered.csv"), (0, "deadline G(a.req->F[0,?]b.ack) answered.csv"), (0, "deadline G[0,?]a.req answered.csv"),
    (1, "deadline G(b.ack->F[1,?]a.req) answered.csv"), (3, "deadline F[0,?]a.p twice_apart.csv"), (0, "deadline F[?,9]a.req answered.csv"),
    (0, "deadline G[?,9]a.req answered.csv"), (65, "deadline F[0,?]a.p|F[0,?]a.req answered.csv --strict"),
    (0, "between ping.csv 0 3"), (3, "between circle.csv 0 1"), (0, "between checkout.csv 3 0"),
    (0, "tolerance false within_9.formula answered.csv"), (0, "tolerance true within_5.formula answered.csv"),
    (1, "tolerance false lease.formula handover_stamps.csv --up-to 1000"), (3, "tolerance true p.formula received_first.csv"),
    (4, "tolerance false either.formula apart.csv --up-to 0 --conflicts 1"),
    (0, "tolerance --decide lease.formula lease.csv --unit ms"), (0, "tolerance --decide within_9.formula answered.csv"),
    (0, "tolerance --decide within_9.formula answered.csv --up-to 0"), (3, "tolerance --decide p.formula received_first.csv"),
    (4, "tolerance --decide either.formula apart.csv --conflicts 1"), (65, "tolerance --decide G(a.hodls->F[0,1]b.holds) lease.csv --strict"),
    (2, r"each F[0,5]{1}.{2} answered.csv --over (\w+)\.(\w+)"), (3, "each Fa.{} received_first.csv --over .*"),
    (0, "log answered.csv"), (0, "log app_events.jsonl --host service --name event --skew 5"),
    (0, "draw answered.csv"), (0, "draw circle.csv --svg"), (0, "draw lease.csv --formula lease.formula"),
    (65, "draw lease.csv --formula a.hodls --strict"), (0, "draw lease.csv --times overlap.times --formula lease.formula"),
    (0, "check true answered.csv --unit us"), (0, "deadline F[0,?]a.req answered.csv --unit ms"), (0, "between ping.csv 0 3 --unit s"),
    (0, "tolerance true within_5.formula answered.csv --unit ns"), (2, r"each F[0,5]{1}.{2} answered.csv --over (\w+)\.(\w+) --unit ms"),
    (0, "draw lease.csv --unit s"), (65, f"check apart.csv --properties {SUITE} --conflicts 1"),
    (3, f"check received_first.csv --properties {SUITE_OF_A} --unit ms"), (0, "check at.most answered.csv --formula"),
    (0, "each Fa.{} answered.csv --over .* --formula"), (0, "log answered.csv -o /dev/null"), (0, "--version"),
)
REFUSED = (
    (64, ""), (64, "what"), (64, "check"), (64, "check a.p set.csv --nothing"), (64, "check a.p set.csv --seconds x"),
    (64, "tolerance either a.p set.csv"), (64, "tolerance --decide true a.p set.csv"), (73, "tolerance --decide lease.formula lease.csv --keep ."),
    (64, "deadline F[0,5]a.p set.csv"), (64, "each F{} set.csv"), (64, "log"), (64, "--version x"),
    (74, "audit ."), (65, "check a. set.csv"), (65, "check c.p set.csv"), (65, "deadline a.p? set.csv"), (65, "draw set.csv --formula a."),
    (66, "check a.p p.formula"), (66, "log p.formula"), (68, "draw answered.csv --times overlap.times"), (72, "check a.p set.csv --program x"),
    (74, "check a.p missing.csv"), (75, "log set.csv --notes missing/x"), (75, "check a.p set.csv --report missing/x"),
)


@functools.lru_cache(maxsize=None)
def asked_once(words, folder):
    """How ask ended with words, which are asked no second time."""
    return asked([*words.split(), "--json"], folder)


class AgainstThePage(unittest.TestCase):
    def answer(self, words, status, folder=EXAMPLES):
        """What words answer in JSON, which is one object with their status."""
        ended, text, said = asked_once(words, folder)
        self.assertEqual(ended, status, f"{words}: {said}")
        facts = json.loads(text)
        self.assertEqual(facts["status"], status)
        return facts

    def test_answers(self):
        for status, words in ANSWERED:
            with self.subTest(words=words):
                self.assertEqual(complaint(table_of(words), self.answer(words, status)), "")

    def test_refusals(self):
        for status, words in REFUSED:
            with self.subTest(words=words):
                self.assertEqual(complaint("refusal", self.answer(words, status)), "")

    def test_each_key_of_the_page_is_in_some_answer(self):
        seen = {name: set() for name in TABLES}
        for status, words in ANSWERED + REFUSED:
            facts = self.answer(words, status)
            seen["refusal" if "refusal" in facts else table_of(words)] |= set(facts)
        for name in (
            "check", "check --properties", "--formula", "between", "tolerance", "each", "log", "draw", "--version", "refusal",
        ):
            self.assertEqual(set(TABLES[name]) - seen[name], set(), name)
        self.assertEqual(set(TABLES["deadline"]) - seen["deadline"], {"unknown_at"})
        self.assertEqual(set(TABLES["tolerance --decide"]) - seen["tolerance --decide"], {"folder"})

    def test_great_numbers_are_strings(self):
        log = f"kind,host,time,name\nhost,a,2,0\nset,a,-{FAR},p\nset,a,9007199254740992,q\nset,a,9007199254740993,r\nset,a,{FAR},s\n"
        with tempfile.TemporaryDirectory() as folder:
            Path(folder, "l").write_text(log)
            facts = self.answer("between l 0 3", 0, folder)
            self.assertEqual(complaint("between", facts), "")
            self.assertEqual(facts["greatest"], str(2 * FAR + 4))
            timing = self.answer("draw l", 0, folder)["panels"][0]["times"]
            self.assertEqual(timing, [f"-{FAR}", 9007199254740992, "9007199254740993", str(FAR)])

    def test_a_deadline_that_is_unknown(self):
        with tempfile.TemporaryDirectory() as folder:
            program = Path(folder, "program")
            program.write_text("#!/bin/sh\nprintf 'skewcheck 1\\nevents 2\\ntrue witness\\n1\\n2\\nfalse unknown 0\\nend\\n'; exit 4\n")
            program.chmod(0o755)
            facts = self.answer(f"deadline F[0,?]a.req answered.csv --program {program}", 4)
        self.assertEqual((complaint("deadline", facts), facts["unknown_at"]), ("", 10))

    def test_an_output_in_another_encoding(self):
        with tempfile.TemporaryDirectory() as folder:
            Path(folder, "\u00e9\u4e2d.csv").write_text("kind,host,time,name\nhost,a,0,0\nset,a,1,p\n")
            for encoding in ("utf-8", "ascii", "latin-1"):
                status, text, said = asked_apart(["check", "F a.p", "\u00e9\u4e2d.csv", "--json"], folder, PYTHONIOENCODING=encoding)
                self.assertEqual((status, json.loads(text)["log"], "\u00e9" in text), (0, "\u00e9\u4e2d.csv", encoding == "utf-8"), said)

    def test_what_the_schema_refuses(self):
        for kind, value in (
            ("integer", True), ("integer", 2**53 + 1), ("integer", "5"), ("integer", 1.0), ("text", 5), ('"a" or "b"', "c"), ("list of text", ["a", 1]),
            ("map to integer", {"a": "x"}), ("integer or null", "x"), ("Row", {"row": 1}), ("Row", {"row": 1, "line": 2, "more": 3}), ("Row", []),
        ):
            self.assertNotEqual(complaint_of_type(kind, value, ""), "", (kind, value))
        for kind, value in (("integer", -(2**53)), ("integer", str(2**53 + 1)), ("list of Row", [{"row": 1, "line": 2}]), ("text or null", None)):
            self.assertEqual(complaint_of_type(kind, value, ""), "", (kind, value))


if __name__ == "__main__":
    unittest.main()
