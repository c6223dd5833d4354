"""What a refutation rests on: the bounds that its end needs, those first that make a number of the formula."""

import json
import subprocess
import tempfile
import unittest
from pathlib import Path

from common import PATIENCE, ROOT, asked

from ask.grounds import bounds_used
from ask.logs import Log, read_log
from ask.program import find_program
from ask.reports import Section, line_of, read_report
from ask.walks import name_of_ground

EXAMPLES = ROOT / "examples"
LOG = b"kind,host,time,name\nhost,a,2,1\nhost,b,2,1\nset,a,10,req\nset,b,15,ack\nclear,b,30,ack\n"


def used(*lines):
    """The bounds of a derivation with such lines, in words."""
    section = Section("refuted", [], [line_of(line.split(" ")) for line in lines])
    return [f"{name_of_ground(ground)} {uses}x" for ground, uses in bounds_used(read_log(LOG), section)]


class Order(unittest.TestCase):
    def test_what_the_last_line_needs(self):
        for lines, bounds in (
            (["cycle 2 high 0 low 0"], ["high 0 1x", "low 0 1x"]),
            (["cycle 2 high 0 low 0", "cycle 1 rise 2"], ["rise 2 1x"]),
            (["cycle 2 high 0 low 0", "cycle 1 rise 2", "learn 0 2 rule 11 line 1"], ["high 0 1x", "low 0 1x"]),
            (["cycle 1 high 0", "cycle 1 low 0", "learn 1 +first 0 2 line 1 line 2", "cycle 1 rise 2", "learn 0 2 line 3 line 4"],
             ["rise 2 1x", "high 0 1x", "low 0 1x"]),
            (["cycle 2 low 0 high 1", "cycle 2 low 0 high 2", "learn 0 2 line 1 line 2"], ["low 0 2x", "high 1 1x", "high 2 1x"]),
            ([], []),
        ):
            self.assertEqual(used(*lines), bounds, lines)

    def test_the_bounds_that_make_a_number_are_first(self):
        # The answer comes at most 17 - 8 = 9 after the request, and is cleared at most 32 - 8 = 24 after it.
        for answered, cleared, bounds in (
            (10, 40, ["low 0 2x", "high 1 1x", "high 2 1x", "rise 2 1x"]),
            (20, 25, ["low 0 2x", "high 2 1x", "high 1 1x", "rise 2 1x"]),
        ):
            cycles = [f"cycle 3 low 0 order 0 1 -{answered} high 1", f"cycle 3 low 0 order 0 2 -{cleared} high 2"]
            self.assertEqual(used("cycle 1 rise 2", *cycles, "learn 0 3 line 1 line 2 line 3"), bounds)


class Examples(unittest.TestCase):
    def test_the_pair_that_makes_the_number(self):
        for formula, log, pair in (
            ("within_9", "answered", ["low 0", "high 1"]), ("within_8000", "checkout", ["high 3", "low 0"]),
        ):
            _, text, _ = asked(["check", f"{formula}.formula", f"{log}.csv", "--json"], EXAMPLES)
            self.assertEqual([bound["bound"] for bound in json.loads(text)["rests_on"]][:2], pair)

    def test_a_trimmed_report_rests_on_the_same(self):
        count = 0
        for path in EXAMPLES.glob("*.report"):
            done = subprocess.run([find_program(None), "trim", str(path)], capture_output=True, timeout=PATIENCE)
            if done.returncode != 0:
                continue
            whole, trimmed = read_report(path.read_bytes()), read_report(done.stdout)
            for value, section in whole.sections.items():
                if section.kind == "refuted":
                    count += 1
                    found = [dict(bounds_used(Log(), each)) for each in (section, trimmed.sections[value])]
                    self.assertEqual(found[0], found[1], path)
        self.assertGreater(count, 10)

    def test_up_to_25_are_shown(self):
        for rows, more in ((25, "\n"), (26, "\n  and 1 bound more; --all shows all\n")):
            with tempfile.TemporaryDirectory() as folder:
                text = "".join(f"set,a,{10 * row},x{row}\n" for row in range(rows))
                Path(folder, "l").write_text(f"kind,host,time,name\nhost,a,0,1\n{text}")
                _, text, _ = asked(["check", "G !a.y", "l"], folder)
            self.assertTrue(text.endswith(f"the skew of a 0{more}"), text)
            self.assertEqual(text.split("rests on\n")[1].count("the skew") + text.count("the gap of a"), 25)


if __name__ == "__main__":
    unittest.main()
