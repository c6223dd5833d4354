"""tests/clauses in a small repository of its own: what is unreached, how two states' clauses differ, and the figures."""

import shutil
import subprocess
import sys
import unittest

from room import PATIENCE, ROOT, WithRoom

LOW = """//! Numbers.
mod laws;
mod numbers;
pub use laws::halves_are_even;
pub use numbers::{Number, half, twice};
"""

NUMBERS = """//! Numbers that are doubled and halved: `fn only_in_a_comment() {}`.

use std::fmt;

pub struct Number(u32);

impl Number {
    /// Its value.
    pub fn value(&self) -> u32
        ensures value { result ≡ self.now }
    {
        self.0
    }

    pub fn unread(&self) -> &'static str {
        "value(helper())"
    }
}

impl fmt::Display for Number {
    fn fmt<W: fmt::Write>(&self, f: &mut fmt::Formatter<W>) -> fmt::Result {
        write!(f, "{}", shown(self.0))
    }
}

fn shown(value: u32) -> u32 {
    value
}

/// The double.
pub fn twice(x: u32) -> u32
    requires small { x < 10 }
    ensures double { result ≡ x + x }
{
    helper(x, |y| y + x)
}

fn helper<F: Fn(u32) -> u32>(x: u32, f: F) -> u32 {
    f(x)
}

pub fn half(x: u32) -> [u32; 2] {
    rest(&[0; 2][..place(x)])
}

fn place(x: u32) -> usize {
    x as usize
}

fn rest(xs: &[u32]) -> [u32; 2] {
    [0; 2]
}

#[cfg(test)]
mod tests {
    fn in_a_test() {
        rest(&[])
    }
}
"""

LAWS = """//! Laws.

/// Halves are even.
pub fn halves_are_even()
    ensures { Even half }
{
}
"""

MAIN = """//! The program.

use low::{Number, twice};

fn main(rt: HostRuntime) {
    println!(rt; "{}", twice(Number::new(1).value()));
}
"""


class WithCrates(WithRoom):
    """A library `low`, the program `skewcheck` over it, and a gate's program, with the scripts."""

    def setUp(self):
        super().setUp()
        (self.top / "tests").mkdir()
        shutil.copy(ROOT / "tests" / "ends.py", self.top / "tests")
        shutil.copytree(ROOT / "tests" / "clauses", self.top / "tests" / "clauses")
        self.promise("low::half")
        self.write("crates/low/src/lib.rt", LOW)
        self.write("crates/low/src/numbers.rt", NUMBERS)
        self.write("crates/low/src/laws.rt", LAWS)
        self.write("crates/skewcheck/src/main.rt", MAIN)
        self.write("crates/text_table/src/main.rt", "use low::half;\nfn main() {\n    half(2);\n}\n")

    def write(self, name, text, top=None):
        """Writes a file of the repository, or of another state of it."""
        path = (top or self.top) / name
        path.parent.mkdir(parents=True, exist_ok=True)
        path.write_text(text)

    def promise(self, *paths):
        """What the stated surface is."""
        (self.top / "tests" / "clauses" / "surface.txt").write_text("".join(f"{path}\n" for path in paths))

    def outcome(self, script, *words):
        """How a script ended: its status, its lines, and what it said."""
        done = subprocess.run([sys.executable, self.top / "tests" / "clauses" / script, *words], stdin=subprocess.DEVNULL,
                              capture_output=True, text=True, timeout=PATIENCE, env=self.environment)
        return done.returncode, done.stdout.splitlines(), done.stderr


class Unreached(WithCrates):
    def test_method_that_nothing_calls(self):
        listed = ["crates/low/src/numbers.rt:15-17: low::Number::unread", "1 unreached, 3 lines"]
        self.assertEqual(self.outcome("unreached"), (1, listed, ""))

    def test_nothing_is_unreached(self):
        self.promise("low::half", "low::Number::unread")
        self.assertEqual(self.outcome("unreached"), (0, ["0 unreached, 0 lines"], ""))

    def test_what_the_surface_alone_leads_to(self):
        status, lines, _ = self.outcome("unreached", "--without-surface")
        self.assertEqual(status, 1)
        self.assertEqual([line.split(": ")[-1] for line in lines[:-1]],
                         ["low::Number::unread", "low::half", "low::place", "low::rest"])
        self.assertEqual(lines[-1], "4 unreached, 12 lines")

    def test_what_the_gate_calls_counts_for_nothing(self):
        self.promise()
        self.assertEqual(self.outcome("unreached")[1][-1], "4 unreached, 12 lines")

    def test_from_a_law_with_a_body(self):
        self.promise()
        self.write("crates/low/src/laws.rt", LAWS.replace("{\n}", "{\n    let _ = half(2);\n}").replace(
            "/// Halves", "use crate::numbers::half;\n\n/// Halves"))
        self.assertEqual(self.outcome("unreached")[1][-1], "1 unreached, 3 lines")

    def test_method_of_an_outside_trait_whose_type_nothing_names(self):
        self.write("crates/skewcheck/src/main.rt", MAIN.replace("Number, ", "").replace("Number::new(1).value()", "1"))
        names = [line.split(": ")[-1] for line in self.outcome("unreached")[1][:-1]]
        self.assertEqual(names, ["low::Number::value", "low::Number::unread", "low::Number::fmt", "low::shown"])

    def with_tests(self, *contracts, head="pub fn is_right(x: u32) -> bool"):
        """The names of what is unreached with functions of these contracts, each of which calls one of its own."""
        texts = [f"{head}\n    {contract}\n{{\n    helps_{i}(x)\n}}\n\nfn helps_{i}(x: u32) -> bool {{\n    true\n}}\n"
                 for i, contract in enumerate(contracts)]
        self.write("crates/low/src/numbers.rt", "\n".join([NUMBERS, *texts]))
        return [line.split("::")[-1] for line in self.outcome("unreached")[1][:-1] if "unread" not in line]

    def test_test_of_what_a_call_requires(self):
        self.assertEqual(self.with_tests("ensures { IsTrue result ↔ (x < 10) }"), [])
        self.assertEqual(self.with_tests("ensures small { IfOk result (λ b. IsTrue b ↔ x.now < 10) }"), [])

    def test_test_of_more_or_less_than_a_call_requires(self):
        for statement in ("x < 11", "(x < 10) × (0 < x)"):
            self.assertEqual(self.with_tests(f"ensures {{ IsTrue result ↔ {statement} }}"), ["is_right", "helps_0"])
        self.assertEqual(self.with_tests("ensures { IsTrue result → x < 10 }"), ["is_right", "helps_0"])
        self.assertEqual(self.with_tests("ensures { IsTrue result ↔ x < 10 }", head="fn is_right(x: u32) -> bool"),
                         ["is_right", "helps_0"])

    def test_test_of_two_parts_that_a_call_requires(self):
        two = NUMBERS.replace("{ x < 10 }", "{ x < 10 }\n    requires some { 0 < x }")
        self.assertNotEqual(two, NUMBERS)
        self.write("crates/low/src/numbers.rt", two + "\npub fn is_right(x: u32) -> bool\n"
                   "    ensures { IsTrue result ↔ ((0 < x) × (x < 10)) }\n{\n    true\n}\n")
        self.assertNotIn("is_right", "".join(self.outcome("unreached")[1]))

    def test_test_of_a_statement_that_has_a_short_name(self):
        self.write("crates/low/specs/Small.antt", "-- x is small\nabbrev pub IsSmall : ℕ → Type 0\nIsSmall n = (n < 10)\n")
        self.assertEqual(self.with_tests("ensures { IsTrue result ↔ IsSmall x.now }"), [])
        self.assertEqual(self.with_tests("ensures { IsTrue result ↔ IsSmall y.now }"), ["is_right", "helps_0"])
        self.assertEqual(self.with_tests("ensures { IsTrue result ↔ IsLarge x.now }"), ["is_right", "helps_0"])

    def test_of_these_crates_nothing(self):
        done = subprocess.run([ROOT / "tests" / "clauses" / "unreached"], stdin=subprocess.DEVNULL, capture_output=True,
                              text=True, timeout=PATIENCE)
        self.assertEqual((done.returncode, done.stdout), (0, "0 unreached, 0 lines\n"))

    def test_crates_that_are_named(self):
        self.assertEqual(self.outcome("unreached", "skewcheck"), (0, ["0 unreached, 0 lines"], ""))
        self.assertEqual(self.outcome("unreached", "low")[1][-1], "1 unreached, 3 lines")
        self.assertEqual(self.outcome("unreached", "text_table")[0], 64)

    def test_surface_that_a_crate_hands_on(self):
        self.promise("upper::half")
        self.write("crates/upper/src/lib.rt", "//! Numbers.\npub use low::{half, twice};\n")
        self.assertEqual(self.outcome("unreached")[1][-1], "1 unreached, 3 lines")

    def test_surface_that_is_not_there(self):
        self.promise("low::half", "low::third")
        said = "tests/clauses/unreached: surface.txt: low::third isn't there\n"
        self.assertEqual(self.outcome("unreached"), (66, [], said))


class Promised(WithCrates):
    def test_calls_of_the_surface_and_laws(self):
        self.promise("upper::twice", "low::Number::value")
        self.write("crates.txt", "# base: numbers\nlow:\n\n# gate: tables\ntext_table: low\n")
        status, lines, said = self.outcome("print", "--promised")
        self.assertEqual((status, said), (0, ""))
        self.assertEqual([line for line in lines[1:] if line], [
            "== low",
            "halves_are_even: Halves are even.", "    ensures { Even half }",
            "twice: The double.", "    requires small { x < 10 }", "    ensures double { result ≡ x + x }",
            "Number::value: Its value.", "    ensures value { result ≡ self.now }",
        ])


class Against(WithCrates):
    def setUp(self):
        super().setUp()
        self.other = self.room / "other"
        shutil.copytree(self.top / "crates", self.other / "crates")

    def difference(self, *words):
        """How the comparison with the other state ended."""
        status, lines, said = self.outcome("print", "--against", str(self.other), *words)
        self.assertEqual(said, "")
        return status, lines

    def change(self, old, new):
        """Changes the numbers of this state."""
        self.assertEqual(NUMBERS.count(old), 1)
        self.write("crates/low/src/numbers.rt", NUMBERS.replace(old, new))

    def test_same_states(self):
        self.assertEqual(self.difference(), (0, []))

    def test_clause_that_is_gone(self):
        self.change("    requires small { x < 10 }\n", "")
        self.assertEqual(self.difference(), (1, ["twice", "  - requires small { x < 10 }"]))

    def test_clause_that_is_new(self):
        self.change("ensures value {", "ensures small { result < 7 }\n        ensures value {")
        self.assertEqual(self.difference(), (0, ["impl Number value", "  + ensures small { result < 7 }"]))

    def test_clause_and_head_that_changed(self):
        self.change("pub fn twice(x: u32) -> u32\n    requires small { x < 10 }",
                    "pub fn twice(x: u64) -> u32\n    requires small { x < 12 }")
        lines = ["twice", "  - pub fn twice(x: u32) -> u32", "  - requires small { x < 10 }",
                 "  + pub fn twice(x: u64) -> u32", "  + requires small { x < 12 }"]
        self.assertEqual(self.difference(), (1, lines))

    def test_call_that_moved_to_another_crate(self):
        (self.top / "crates" / "low").rename(self.top / "crates" / "lower")
        self.assertEqual(self.difference(), (0, []))

    def test_clause_of_one_of_two_calls_of_a_name(self):
        for top in (self.top, self.other):
            shutil.copytree(self.top / "crates" / "low", top / "crates" / "second", dirs_exist_ok=True)
        self.change("    requires small { x < 10 }\n", "")
        self.assertEqual(self.difference(), (1, ["twice", "  - requires small { x < 10 }"]))
        self.assertEqual(self.difference("second"), (0, []))

    def test_module_that_is_exported_whole(self):
        files = "fn hidden()\n    ensures hidden { Hidden }\n{\n}\n\npub fn shown()\n    ensures shown { Shown }\n{\n}\n"
        self.write("crates/low/src/files.rt", files)
        self.assertEqual(self.difference(), (0, []))
        self.write("crates/low/src/lib.rt", LOW.replace("mod laws;", "pub mod files;\nmod laws;"))
        self.assertEqual(self.difference(), (0, ["shown", "  + ensures shown { Shown }", "  + pub fn shown()"]))

    def test_folder_without_crates(self):
        status, lines, said = self.outcome("print", "--against", str(self.tmp))
        self.assertEqual((status, lines, said.splitlines()[-1]), (64, [], f"print: error: {self.tmp} has no crates"))


class Figures(WithCrates):
    def figures(self):
        """What the table says, by what it says it of."""
        status, lines, said = self.outcome("figures")
        self.assertEqual((status, lines[:2], said), (0, ["| What | How much |", "|---|---|"], ""))
        return dict(line.strip("| ").split(" | ") for line in lines[2:])

    def test_lines_and_files(self):
        self.write("crates/low/specs/Lib.antt", "pub mod Even\n")
        self.write("crates/low/proofs/half/Answers.antt", "-- a proof\n" * 40)
        self.write("crates/low/must-fail/turned.edit", "")
        self.write("crates/low/wrong/turned.edit", "")
        figures = self.figures()
        code = sum(text.count("\n") for text in (LOW, NUMBERS, LAWS, MAIN))
        self.assertEqual(figures["code of the 1 libraries and the program"], f"{code} lines in 4 files")
        self.assertEqual(figures["code of the gate's crates"], "4 lines in 1 files")
        self.assertEqual(figures["definitions, in `specs`"], "1 lines in 1 files")
        self.assertEqual(figures["proofs"].split(":")[0], "40 lines in 1 files")
        self.assertEqual(figures["wrong bodies"], "1 in `must-fail`, 1 a crate in the median, and 1 in `wrong`")
        self.assertEqual(figures["files above 400 lines"], "none")

    def test_long_files_and_lines(self):
        self.write("crates/low/proofs/Long.antt", "\n" * 401 + "a" * 201 + "\n")
        self.assertEqual(self.figures()["files above 400 lines"], "`low/proofs/Long.antt` 402")
        self.assertEqual(self.figures()["lines of proofs above 200 characters"],
                         "1, the longest with 201 in `low/proofs/Long.antt`")

    def test_files_without_a_first_line(self):
        name = "files of the libraries and the program without a first line `//!`"
        self.assertEqual(self.figures()[name], "0")
        self.write("crates/low/src/laws.rt", LAWS.removeprefix("//! Laws.\n"))
        self.assertEqual(self.figures()[name], "1, `low/src/laws.rt`")

    def test_functions_and_clauses(self):
        many = "fn many<F: Fn(u32, u32) -> u32>(&self, a: (u32, u32), b: Vec<(u32, u32)>, c: F, d: [u32; 2], e: u32)"
        fewer = many.replace(", e: u32", "")
        self.write("crates/low/src/numbers.rt", NUMBERS.replace("fn shown", f"{many} {{}}\n\n{fewer} {{}}\n\nfn shown"))
        figures = self.figures()
        what = "13, of them 1 with 6 parameters or more: 3 lines in the median, nine of ten within 5, and 0 above 40"
        self.assertEqual(figures["functions with their contracts"], what)
        self.assertEqual(figures["6 parameters or more, by crate"], "`low` 1 of 12")
        what = "4, of them 0 above 150 characters, the longest with 35, of `low::Number::value`"
        self.assertEqual(figures["clauses"], what)


if __name__ == "__main__":
    unittest.main()
