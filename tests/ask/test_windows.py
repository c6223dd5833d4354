"""Long logs by windows: what is read, the bounds of the whole, truth, verdicts, and folders that are kept."""

import json
import os
import random
import shutil
import tempfile
import unittest
from collections import Counter
from pathlib import Path
from unittest import mock

from common import asked, cases_asked, facts_of_text, planted, status_of
import formats
import generate
import logs as reference_logs
import long_logs
import reference
import schema
import windows_agreement

from ask import logs
from ask.ends import OutOfTime
from ask.formulas import read_formula
from ask.program import Program, Stopped, find_program
from ask.texts import Trouble
from ask.windows import cuts, guard, shape, window
from ask.windows.asking import Setting, Whole
from ask.windows.bounds import Bounds, Contradiction
from ask.windows.keeping import Folder
from ask.windows.longlog import read_long_log
from ask.windows.shape import shape_of
from ask.windows.truth import Evaluator
from ask.windows.verdict import verdict_of_slices

CASES = cases_asked(12)
READ = 400
HEAD = "skewlog2,host,time,name\n"


def steps(count=40, first="", last="", skew=0, every=10):
    """A log of two hosts with a note every few units, in which hosts make the first and the last row, if these are told."""
    rows = [f"note,{'ab'[place % 2]},{every * place},n" for place in range(1, count + 1)]
    rows = [first or rows[0], *rows[1:-1], last or rows[-1]]
    return f"{HEAD}host,a,{skew},0\nhost,b,{skew},0\n" + "".join(f"{row}\n" for row in rows)


def told(log, formula, size=4, most=30):
    """What windows tell of a log: whether the formula can be true and false."""
    case = windows_agreement.Case(log, formula, "", size, most)
    try:
        said, wrong, _ = windows_agreement.windows_answer(find_program(None), case)
    except Trouble as trouble:
        return trouble.message
    return f"{said}, {wrong}" if wrong else said


class Reading(unittest.TestCase):
    def test_as_short_logs(self):
        draw = random.Random(60)
        for place in range(READ):
            log = generate.crowded_log(draw) if place % 50 == 49 else generate.some_log(draw)
            data = generate.log_file(draw, log, 0.5)
            short, long = logs.read_log(data), read_long_log(data)
            with self.subTest(data=data[:400]):
                if isinstance(short, logs.Fault) and short.number == 13:
                    continue
                if isinstance(short, logs.Fault):
                    self.assertEqual(short, long)
                else:
                    self.assertEqual((short.hosts, short.rows), (long.hosts, list(long.rows)))
                    for event, _ in enumerate(short.rows):
                        related = (short.send_of(event), short.row_before(event))
                        self.assertEqual(related, (long.send_of(event), long.row_before(event)))

    def test_a_faulty_record_is_told_as_in_a_short_log(self):
        for row, said in (
            ("set,a,1", "a record has four fields, and this one has 3"), ("sett,a,1,p", "there is no kind 'sett'"),
            ("set,c,1,p", "no host 'c' is declared before this"), ("set,a,1.5,p", "the stamp '1.5' is no whole number"),
            ("set,a,1,P", "'P' is no name"), ("recv,a,1,m", "the message m is received, and no row of the file sends it"),
        ):
            with tempfile.TemporaryDirectory() as folder:
                Path(folder, "l").write_text(steps(3000) + f"{row}\nnote,a,1,n\n")
                ended, _, text = asked(["check", "G a.p", "l"], folder)
                self.assertEqual(ended, 66, text)
                self.assertIn(f"l, line 3004, column {1 if row == 'set,a,1' else text.split('column ')[1].split(':')[0]}: {said}", text)

    def test_a_faulty_formula_is_told_first(self):
        with tempfile.TemporaryDirectory() as folder:
            Path(folder, "l").write_text(steps(3000) + "set,a,1\n")
            self.assertEqual(asked(["check", "G (a.p", "l"], folder)[0], 65)
            Path(folder, "l").write_text(steps(3000))
            ended, _, text = asked(["check", "G c.p", "l"], folder)
            self.assertEqual((ended, text), (65, "ask: the formula, line 1, column 3: the log has no host c. Its hosts: a, b\n"))


class Times(unittest.TestCase):
    def test_least_and_greatest(self):
        draw = random.Random(60)
        count = 0
        while count < READ:
            data = generate.log_file(draw, generate.some_log(draw), 0)
            log, other = read_long_log(data), reference_logs.read_log(data)
            if isinstance(log, logs.Fault) or len(log.rows) > 12:
                continue
            count += 1
            right = self.extremes(reference.bounds(other), len(log.rows), len(other.clocks))
            with self.subTest(data=data):
                try:
                    times = Bounds(log).times()
                except Contradiction as contradiction:
                    self.assertIsNone(right)
                    self.check_walk(log, contradiction.walk)
                    continue
                self.assertEqual((list(times.least), list(times.greatest)), right)

    def extremes(self, bounds, rows, clocks):
        """The least and the greatest time of each row by all walks of bounds, None where no timing is admissible."""
        far, zero = 10**30, rows + clocks
        nodes = range(zero + 1)
        walks = [[0 if one == other else far for other in nodes] for one in nodes]
        for bound in bounds:
            start, end = (zero if node is None else node for node in (bound.start, bound.end))
            walks[start][end] = min(walks[start][end], bound.most)
        for middle in nodes:
            for one in nodes:
                for other in nodes:
                    walks[one][other] = min(walks[one][other], walks[one][middle] + walks[middle][other])
        if any(walks[node][node] < 0 for node in nodes):
            return None
        return [-walks[zero][event] for event in range(rows)], [walks[event][zero] for event in range(rows)]

    def check_walk(self, log, walk):
        """Asserts that steps are a closed walk of negative sum."""
        bounds = [logs.bound_of(log, step.kind, step.numbers[0]) for step in walk]
        for bound, following in zip(bounds, bounds[1:] + bounds[:1]):
            self.assertEqual(bound.end, following.start)
        self.assertLess(sum(bound.most for bound in bounds), 0)

    def test_latencies_that_go_round(self):
        # Messages take at most 1 each way, and cross each other on hosts whose rows are 3 apart: each round asks for 4 more.
        log = read_long_log((
            HEAD + "host,a,1000000000000,3\nhost,b,1000000000000,3\nlatency,a,1,1\nlatency,b,1,1\n"
            "send,a,0,m\nsend,b,0,k\nrecv,b,0,m\nrecv,a,0,k\n"
        ).encode())
        with self.assertRaises(Contradiction) as raised:
            Bounds(log).times()
        self.check_walk(log, raised.exception.walk)


class Values(unittest.TestCase):
    def test_truth_at_every_position(self):
        draw = random.Random(61)
        for place in range(READ):
            log = generate.some_log(draw)
            data = reference_logs.log_text(log)
            long = read_long_log(data)
            if isinstance(long, logs.Fault) or len(long.rows) > 12:
                continue
            times = [row.local + draw.randint(-3, 3) for row in log.rows]
            host_times = self.in_order(log, times)
            run = long_logs.Run([(h.name.decode(), h.skew, h.gap) for h in log.hosts], {}, self.events(log), 3)
            text = long_logs.some_bounded(draw, run, draw.randint(1, 3))
            truth = Evaluator(long, range(len(times)), host_times).truth(read_formula(text))
            for moment, value in zip(truth.positions, truth.values):
                first = truth.positions[0]
                there = f"F[{moment - first},{moment - first}] ({text})".encode()
                self.assertEqual(bool(value), reference.truth(log, host_times, formats.read_formula(there)), (text, moment))

    def in_order(self, log, times):
        """Times in which the rows of a host don't go back."""
        last, found = {}, []
        for row, time in zip(log.rows, times):
            last[row.host] = max(time, last.get(row.host, time))
            found.append(last[row.host])
        return found

    def events(self, log):
        """The rows as those of a run."""
        return [long_logs.Event(0, row.host, row.act.decode(), row.name.decode(), 0, 0) for row in log.rows]


class Shapes(unittest.TestCase):
    def test_what_windows_are_asked(self):
        for text, window_text, past, future in (
            ("G a.p", "G[3,7] a.p", 0, 0), ("G (a.p -> F[0,5] b.q)", "G[3,7] (a.p -> F[0,5] b.q)", 0, 5),
            ("G a.p & G O[1,4] b.q", "G[3,7] (a.p & O[1,4] b.q)", 4, 0), ("F (a.p & b.q)", "F[3,7] (a.p & b.q)", 0, 0),
            ("!F a.p", "G[3,7] !a.p", 0, 0), ("!G a.p", "F[3,7] !a.p", 0, 0), ("!(F a.p | F b.q)", "G[3,7] (!a.p & !b.q)", 0, 0),
            ("G (a.p & G b.q)", "G[3,7] (a.p & b.q)", 0, 0), ("G F[2,3] (a.p S[0,4] H[1,6] b.q)", "G[3,7] F[2,3] (a.p S[0,4] H[1,6] b.q)", 10, 3),
            ("F a.p | F b.q", "F[3,7] !(!a.p & !b.q)", 0, 0), ("true", "G[3,7] true", 0, 0),
        ):
            found = shape_of(read_formula(text))
            self.assertEqual((found.window_text(3, 7), *found.horizon), (window_text, past, future), text)

    def test_refusals_say_what_could_be_asked(self):
        for text, said in (
            ("G (a.p -> O b.q)", "O[0,1000]"), ("G (a.p -> F[3,inf] b.q)", "F[3,1003]"), ("a.p U b.q", "(f U[0,b] g)"),
            ("G a.p | G b.q", "one by one"), ("G[0,9] a.p", "leave it out"), ("a.p", "a window of the log"), ("G a.p & F a.p", "one by one"),
        ):
            with self.assertRaises(Trouble) as raised:
                shape_of(read_formula(text))
            self.assertIn(said, raised.exception.message, text)
            self.assertEqual(raised.exception.status, 67)


class Guards(unittest.TestCase):
    def test_formulas_of_pulses(self):
        for body, is_seen in (
            ("a.p -> F[0,5] b.q", True), ("a.p -> O[0,5] (b.q & F[0,3] a.p)", True), ("!(a.p & b.q)", True), ("a.p -> (!a.r U[0,9] b.q)", True),
            ("a.p -> G[0,5] !b.q", True), ("F[0,5] b.q", False), ("a.p", False), ("a.p -> F[1,5] true", False), ("a.p -> F[0,5] !b.q", False),
            ("a.p -> (a.r U[0,9] b.q)", False), ("a.p -> (!a.r S[0,9] !b.q)", False), ("a.p -> F[0,5] F[0,5] b.q", False), ("true", True),
        ):
            tree = read_formula(body)
            self.assertEqual(guard.is_guarded(tree) and guard.is_false_in_spells(tree), is_seen, body)

    def test_the_rows_that_are_left_out_change_nothing(self):
        draw = random.Random(62)
        seen = 0
        for _ in range(4000):
            run = long_logs.Run([("a", 0, 0), ("b", 0, 0)], {}, [], 2)
            rows = [(draw.randint(0, 12), host, draw.choice(("pulse", "pulse", "note")), draw.choice("pqr")) for host in (0, 1) for _ in range(5)]
            events = [long_logs.Event(time, host, kind, name, 0, time) for time, host, kind, name in sorted(rows)]
            body = long_logs.some_bounded(draw, run._replace(events=events), draw.randint(1, 3))
            log = read_long_log(long_logs.text_of(run._replace(events=events)).encode())
            found = guard.pulses_seen(log, shape_of(read_formula(f"G {body}")))
            if found is None:
                continue
            seen += 1
            tree, times = read_formula(body), list(log.rows.stamp)
            kept = sorted(event for one in found for event in one)
            all_rows, few = (Evaluator(log, events, times).truth(tree).false_at() for events in (range(len(times)), kept))
            self.assertEqual(all_rows, few, (body, run))
        self.assertGreater(seen, 200)


class Verdicts(unittest.TestCase):
    def test_generated_cases(self):
        program, counts = find_program(None), Counter()
        for place in range(CASES):
            case = windows_agreement.case_of(f"test {place}", list(long_logs.FAMILIES), (60, 100))
            said, wrong, _ = windows_agreement.windows_answer(program, case)
            outcome = windows_agreement.compared(said, windows_agreement.whole_answer(program, case, 120))
            self.assertEqual((wrong, outcome == "DIFFERENT"), ("", False), (case.formula, said, outcome))
            counts[said] += outcome == "same"
        for verdict in windows_agreement.STATUSES.values():
            self.assertGreaterEqual(counts[verdict], max(1, CASES // 12), counts)

    def test_ends_of_the_log(self):
        # The row in question is at the first or at the last moment of all.
        for log, formula, right in (
            (steps(first="pulse,a,10,p"), "G !a.p", (False, True)), (steps(last="pulse,b,400,p"), "G !b.p", (False, True)),
            (steps(first="pulse,a,10,p"), "F a.p", (True, False)), (steps(last="pulse,b,400,p"), "F b.p", (True, False)),
            (steps(), "G O[0,10] true", (True, False)), (steps(), "G O[1,10] true", (False, True)),
            (steps(), "G (F[1,10] true | O[1,390] true)", (True, False)), (steps(), "G (F[1,10] true | O[1,389] true)", (True, False)),
            (steps(last="pulse,b,400,p", skew=3), "G (F[1,16] true | b.p)", (True, False)),
            (steps(last="pulse,b,400,p", skew=3), "G (F[1,15] true | b.p)", (True, True)),
        ):
            self.assertEqual(told(log, formula), right, formula)

    def test_what_was_set_long_before(self):
        log = steps(first="set,a,10,p", last="pulse,b,400,q")
        self.assertEqual(told(log, "G !(a.p & b.q)"), (False, True))
        self.assertEqual(told(log, "G (b.q -> a.p)"), (True, False))
        self.assertEqual(told(log.replace("note,a,200,n", "clear,a,200,p"), "G !(a.p & b.q)"), (True, False))

    def test_slices_in_which_the_formula_cannot_fail_are_not_asked(self):
        pulsed = steps(first="pulse,a,10,p", last="pulse,b,400,q", skew=1)
        states = pulsed.replace("pulse,a,10,p", "set,a,10,p").replace("note,a,20,n", "clear,a,20,p")
        for text, formula, right in (
            (pulsed, "F (a.p & O[0,388] b.q)", 1), (pulsed, "F (b.q & O[0,389] a.p)", 2), (pulsed, "F a.p", 0), (pulsed, "G !a.p", 1),
            (pulsed, "F (a.p | b.q)", 0), (pulsed, "G (a.p -> O[0,9] b.q)", 1), (states, "G (a.p -> F[0,11] !a.p)", 2),
            (states, "F (b.q & O[0,388] a.p)", 2), (states, "F (b.q & O[0,392] a.p)", 0), (states, "F (b.q & O[0,387] a.p)", 1),
        ):
            log = read_long_log(text.encode())
            verdict = verdict_of_slices(Whole(log, shape_of(read_formula(formula))), Setting(Program(find_program(None)), most=30, size=4))
            self.assertEqual(verdict.status(), right, formula)
            self.assertLess(verdict.findings.asker.runs, 5, formula)

    def test_until_across_slices(self):
        log = steps(first="set,a,10,p", last="pulse,b,400,q")
        self.assertEqual(told(log, "G (a.p U[0,390] b.q)"), (True, False))
        self.assertEqual(told(log, "G (a.p U[0,389] b.q)"), (False, True))
        self.assertEqual(told(log, "G (true S[0,390] a.p)"), (True, False))
        self.assertEqual(told(log, "F (b.q & (a.p S[390,390] a.p))"), (True, False))

    def test_all_rows_at_one_instant(self):
        rows = "".join(f"pulse,{'ab'[place % 2]},7,p\n" for place in range(60))
        self.assertEqual(told(f"{HEAD}host,a,0,0\nhost,b,0,0\n{rows}", "G (a.p & b.p)"), (True, False))
        self.assertEqual(told(f"{HEAD}host,a,1,0\nhost,b,1,0\n{rows}", "G (a.p & b.p)", most=100), (True, True))

    def test_rows_that_span_several_slices(self):
        log = steps(60).replace("host,b,0,0", "host,b,100,0")
        log = log.replace("note,b,310,n", "pulse,b,310,p").replace("note,a,380,n", "pulse,a,380,q")
        self.assertEqual(told(log, "G !(a.q & b.p)", most=60), (True, True))
        self.assertEqual(told(log, "G (b.p -> (F[0,170] a.q | O[0,30] a.q))", most=60), (True, False))
        self.assertEqual(told(log, "G (b.p -> (F[0,169] a.q | O[0,30] a.q))", most=60), (True, True))

    def test_as_many_hosts_as_there_may_be(self):
        hosts = "".join(f"host,h{place},0,0\n" for place in range(64))
        rows = "".join(f"set,h{place % 64},{place},p\n" for place in range(200))
        self.assertEqual(told(f"{HEAD}{hosts}{rows}", "G (h3.p -> O[0,200] h63.p)", most=120), (False, True))

    def test_a_bound_over_many_rows(self):
        # Forty beats that are 10 apart can't all be at most 9 apart where each stamp is off by at most 5.
        rows = "".join(f"pulse,a,{10 * place},q\n" for place in range(1, 41))
        log = f"{HEAD}host,a,5,0\n{rows}"
        self.assertEqual(told(log, "G (a.q -> (F[1,9] true | !F[1,50] true))"), (False, True))
        self.assertEqual(told(log, "G (a.q -> (F[1,10] true | !F[1,50] true))"), (True, True))

    def test_numbers_beyond_what_a_window_may_have(self):
        log = f"{HEAD}host,a,1000000000000000000,0\nnote,a,-4000000000000000000,n\npulse,a,4000000000000000000,p\n"
        self.assertEqual(told(log, "G !a.p"), (None, True))  # no window says that it can't be true


def without_row(right):
    """Ranges that leave out the last row of a host."""
    def ranges(self, first, last):
        found = right(self, first, last)
        lasts = [len(times) - 1 for times in self.least]
        return [(min(start, last), min(end, last)) if last >= 0 else (0, 0) for (start, end), last in zip(found, lasts)]
    return ranges


PLANTS = {
    "a row left out": ((cuts.Extent, "ranges", without_row), steps(last="pulse,b,400,p"), "G !b.p"),
    "a carried state dropped": (
        (window.Glazier, "set_before", lambda right: lambda self, ranges: []),
        steps(first="set,a,10,p", last="pulse,b,400,q"), "G !(a.p & b.q)",
    ),
    "an anchor one too late": (
        (shape.Shape, "window_text", lambda right: lambda self, first, last: right(self, first + 1, last + 1)),
        steps(first="pulse,a,10,p"), "G !a.p",
    ),
    "an anchor one too early": (
        (shape.Shape, "window_text", lambda right: lambda self, first, last: right(self, first - 1, last - 1)),
        steps(last="pulse,b,400,p"), "G !b.p",
    ),
    "slices that don't cover": (
        (Whole, "slices", lambda right: lambda self, setting: right(self, setting)[:-1]), steps(last="pulse,b,400,p"), "G !b.p",
    ),
    "a horizon that isn't seen": (
        (window.Glazier, "seen", lambda right: lambda self, part: part), steps(first="pulse,a,10,p", last="set,b,400,q"),
        "G (b.q -> O[0,390] a.p)",
    ),
    "rows left out that a formula sees": (
        (guard, "is_guarded", lambda right: lambda tree: True), steps(first="pulse,a,10,p"), "G (a.p -> !F[1,10] true)",
    ),
}


class Planted(unittest.TestCase):
    def test_the_comparison_finds_them(self):
        for name, (plant, log, formula) in PLANTS.items():
            right = told(log, formula)
            with self.subTest(name), planted(*plant):
                self.assertNotEqual(told(log, formula), right)
                with mock.patch("ask.windows.verdict.refuse_contrary"):
                    self.assertNotEqual(told(log, formula), right)

    def test_an_audit_finds_them(self):
        for name, (plant, log, formula) in PLANTS.items():
            with self.subTest(name), tempfile.TemporaryDirectory() as folder:
                Path(folder, "l").write_text(log)
                with planted(*plant), mock.patch("ask.windows.verdict.refuse_contrary"):
                    asked(["check", formula, "l", "--windows", "--keep", "k", "--quiet"], folder)
                ended, text, _ = asked(["audit", "k"], folder)
                self.assertEqual(ended, 5, text)
                self.assertTrue(text.startswith("Refused: "), text)


class Folders(unittest.TestCase):
    def setUp(self):
        self.folder = tempfile.mkdtemp()
        self.addCleanup(shutil.rmtree, self.folder)
        run = long_logs.requests(random.Random(5), 1100)
        Path(self.folder, "l").write_text(long_logs.text_of(run))
        self.words = ["check", "G (c0.p -> F[0,400] s0.q)", "l", "--keep", "k"]

    def test_what_is_kept_is_accepted(self):
        ended, text, said = asked([*self.words, "--json"], self.folder)
        facts = facts_of_text(text)
        self.assertLess(ended, 3, said)
        self.assertEqual(schema.complaint("check", facts), "")
        self.assertGreater(facts["windows"]["count"], 5)
        audited, text, _ = asked(["audit", "k", "--json"], self.folder)
        self.assertEqual((audited, facts_of_text(text)["verdict"]), (0, facts["verdict"]))
        self.assertEqual(schema.complaint("audit", facts_of_text(text)), "")

    def test_files_that_were_changed(self):
        self.assertLess(asked(self.words, self.folder)[0], 3)
        for ending in ("csv", "formula"):
            files = {file: file.read_bytes() for file in Path(self.folder, "k", "windows").rglob(f"*.{ending}")}
            for file, data in files.items():
                file.write_bytes(data + b"\n")
            ended, text, _ = asked(["audit", "k"], self.folder)
            self.assertEqual((ended, "is another" in text), (5, True), text)
            for file, data in files.items():
                file.write_bytes(data)
        self.assertEqual(asked(["audit", "k"], self.folder)[0], 0)

    def test_a_run_that_was_broken_off_goes_on(self):
        with mock.patch("ask.windows.keeping.Folder.take", side_effect=[None] * 3 + [KeyboardInterrupt]):
            self.assertEqual(asked(self.words, self.folder)[0], 130)
        ended, first, _ = asked(self.words, self.folder)
        with mock.patch("ask.windows.pool.Pool.start", side_effect=AssertionError("asked once more")):
            again, second, said = asked(self.words, self.folder)
        self.assertEqual((ended, self.told(first)), (again, self.told(second)), said)

    def told(self, text):
        """What was said, but for how many runs it took."""
        return [line for line in text.splitlines() if "of the program told of" not in line]

    def test_a_file_is_written_whole_or_not_at_all(self):
        folder = Folder(os.path.join(self.folder, "k"))
        folder.write(folder.top / "index", b"before")
        with mock.patch("os.replace", side_effect=OSError(28, "No space left on device")), self.assertRaises(Trouble) as raised:
            folder.write(folder.top / "index", b"after")
        self.assertEqual(raised.exception.status, 75)
        self.assertEqual((os.listdir(folder.top), (folder.top / "index").read_bytes()), (["index"], b"before"))

    def test_what_a_killed_run_has_left_is_of_no_question(self):
        top = Path(self.folder, "k")
        top.mkdir()
        (top / ".ask-12-34.new").write_text("half of a mark")
        ended, first, said = asked(self.words, self.folder)
        self.assertLess(ended, 3, said)
        (top / "windows" / ".ask-12-35.new").write_text("half of a report")
        with mock.patch("ask.windows.pool.Pool.start", side_effect=AssertionError("asked once more")):
            again, second, said = asked(self.words, self.folder)
        self.assertEqual((ended, self.told(first)), (again, self.told(second)), said)
        self.assertEqual(asked(["audit", "k"], self.folder)[0], 0)

    def test_other_questions_and_folders_are_refused(self):
        asked([*self.words, "--quiet"], self.folder)
        ended, _, said = asked(["check", "G c0.p", *self.words[2:]], self.folder)
        self.assertEqual(ended, 64, said)
        Path(self.folder, "k", "windows.mark").unlink()
        self.assertEqual(asked(self.words, self.folder)[0], 73)
        self.assertEqual(asked(["audit", "k"], self.folder)[0], 74)

    def test_what_was_changed_is_refused(self):
        asked([*self.words, "--quiet"], self.folder)
        whole = Path(self.folder, "k")
        index = (whole / "index").read_text()
        report = next((whole / "windows").glob("*/*.report"))
        times = next(whole.glob("*.times"))
        for path, text in (
            (whole / "index", "".join(index.splitlines(True)[1:])), (whole / "index", index.replace("\t0\t", "\t2\t", 1)),
            (report, report.read_text().replace("line 1", "line 2", 1).replace("rule 11", "rule 10", 1)),
            (times, times.read_text().replace("\n", "9\n", 1)), (whole / "verdict.json", json.dumps({"status": 3})),
            (whole / "verdict.json", json.dumps({**json.loads((whole / "verdict.json").read_text()), "can_be": []})),
            (whole / "question.json", json.dumps({**json.loads((whole / "question.json").read_text()), "options": 5})),
            (Path(self.folder, "l"), Path(self.folder, "l").read_text().replace(",p\n", ",r\n", 1)),
        ):
            before = path.read_bytes()
            path.write_text(text)
            with self.subTest(path=path.name):
                self.assertNotEqual(before, path.read_bytes())
                self.assertIn(asked(["audit", "k"], self.folder)[0], (5, 74))
            path.write_bytes(before)
        self.assertEqual(asked(["audit", "k"], self.folder)[0], 0)


class Commands(unittest.TestCase):
    """Each command on a log of 1,025 rows, which the program itself refuses."""

    def setUp(self):
        self.folder = tempfile.mkdtemp()
        self.addCleanup(shutil.rmtree, self.folder)
        rows = "".join(f"pulse,a,{20 * place},p\npulse,b,{20 * place + 5},q\n" for place in range(1, 513))
        Path(self.folder, "l").write_text(f"{HEAD}host,a,2,0\nhost,b,2,0\n{rows}note,a,20000,n\n")

    def test_the_program_refuses_it(self):
        Path(self.folder, "f").write_text("G a.p")
        self.assertEqual(status_of(["check", f"{self.folder}/f", f"{self.folder}/l"]), 66)

    def test_check(self):
        for formula, status, sentence in (
            ("G (a.p -> F[0,9] b.q)", 0, "True: "), ("G (a.p -> F[0,8] b.q)", 2, "Either: "), ("G (a.p -> F[6,9] b.q)", 2, "Either: "),
            ("G (a.p -> F[10,14] b.q)", 1, "False: "), ("F (a.p & b.q)", 1, "False: "), ("F (a.p & F[0,1] b.q)", 2, "Either: "),
        ):
            ended, text, said = asked(["check", formula, "l", "--json"], self.folder)
            facts = facts_of_text(text)
            self.assertEqual((ended, schema.complaint("check", facts)), (status, ""), (formula, said))
            self.assertTrue(facts["sentence"].startswith(sentence), facts["sentence"])
            ended, text, _ = asked(["check", formula, "l"], self.folder)
            self.assertEqual((ended, text.startswith(sentence)), (status, True), text[:200])

    def test_lines_of_the_failure(self):
        text = asked(["check", "G (a.p -> F[10,14] b.q)", "l"], self.folder)[1]
        self.assertRegex(text, r"Why it is false there \[replay of the window\]:\n  a.p -> F\[10,14\] b.q fails at \d+ \(line \d+: a pulse p\)")
        self.assertIn("Why it can't be true: it can't be true at the window of lines ", text)

    def test_no_timing(self):
        data = Path(self.folder, "l").read_text() + "note,a,0,n\n"
        Path(self.folder, "l").write_text(data)
        ended, text, _ = asked(["check", "G a.p", "l"], self.folder)
        self.assertEqual(ended, 3)
        self.assertIn("Together they ask for 19996 more than there is.", text)

    def test_deadline(self):
        ended, text, said = asked(["deadline", "G (a.p -> F[0,?] b.q)", "l", "--json"], self.folder)
        facts = facts_of_text(text)
        self.assertEqual((ended, facts.get("number"), schema.complaint("deadline", facts)), (0, 9, ""), said)
        ended, text, said = asked(["deadline", "G (a.p -> F[?,9] b.q)", "l", "--json"], self.folder)
        self.assertEqual((ended, facts_of_text(text).get("number")), (0, 1), said)

    def test_warnings_of_a_deadline(self):
        for formula, kinds in (("G (a.p -> F[0,?] b.q)", []), ("G ((a.p & !a.p) -> F[0,?] b.q)", ["never"])):
            ended, text, said = asked(["deadline", formula, "l", "--json", "--strict"], self.folder)
            self.assertEqual([warning["kind"] for warning in facts_of_text(text)["warnings"]], kinds, said)
            self.assertEqual(ended, 65 if kinds else 0)
            self.assertEqual(asked(["deadline", formula, "l"], self.folder)[0], 0)

    def test_warnings_of_the_end(self):
        # The last row alone pulses p without a q behind it, and its interval goes on beyond the log.
        with open(Path(self.folder, "l"), "a") as log:
            log.write("pulse,a,20100,p\n")
        self.assertEqual(self.kinds_of_warnings(), ["end"])
        with mock.patch("ask.windows.cautions.run_of", return_value=None):
            self.assertEqual(self.kinds_of_warnings(), ["unasked"])
        with mock.patch("ask.windows.cautions.MOST_AT_THE_END", 0):
            self.assertEqual(self.kinds_of_warnings(), ["unasked"])

    def kinds_of_warnings(self):
        """The kinds of warnings on a formula that is false."""
        ended, text, said = asked(["check", "G (a.p -> F[0,9] b.q)", "l", "--json"], self.folder)
        self.assertEqual(ended, 1, said)
        return [warning["kind"] for warning in facts_of_text(text)["warnings"]]

    def test_each(self):
        ended, text, said = asked(["each", "G ({} -> F[0,9] b.q)", "l", "--over", r"\w+\.[pq]", "--json"], self.folder)
        facts = facts_of_text(text)
        self.assertEqual([(line["name"], line["status"]) for line in facts["lines"]], [("a.p", 0), ("b.q", 0)], said)
        self.assertEqual((ended, schema.complaint("each", facts)), (0, ""))

    def test_windows_that_decide_stand_first(self):
        ended, text, said = asked(["check", "G (a.p -> G[0,9] !b.q)", "l"], self.folder)
        heads = [line for line in text.splitlines() if line.startswith("It ")]
        self.assertEqual((ended, heads[0][:30]), (1, "It is false by every timing in"), said)

    def test_lines_for_which_no_time_is_left(self):
        words = ["each", "G ({} -> F[0,9] b.q)", "l", "--over", r"\w+\.[pq]", "--json"]
        for end in (Stopped, OutOfTime):
            with mock.patch("ask.lines.verdict_of_slices", side_effect=end):
                ended, text, said = asked(words, self.folder)
            self.assertEqual((ended, [line["status"] for line in facts_of_text(text)["lines"]]), (124, [124, 124]), said)

    def test_a_verdict_for_which_more_no_time_is_left(self):
        right = {"true": "no", "false": "yes"}
        for end in (Stopped, OutOfTime):
            for part in ("cautions_of_long_log", "truth_of", "ShownWindow", "ShownWindow.ground_facts"):
                with mock.patch(f"ask.windows.answer.{part}", side_effect=end):
                    ended, text, said = asked(["check", "G (a.p -> F[10,14] b.q)", "l", "--json", "--seconds", "60"], self.folder)
                facts = facts_of_text(text)
                self.assertEqual((ended, facts.get("can_be"), schema.complaint("check", facts)), (1, right, ""), (part, said))
                self.assertEqual("unasked" in [warning["kind"] for warning in facts["warnings"]], part == "cautions_of_long_log")
                self.assertEqual(len(facts["notes"]), part != "cautions_of_long_log", part)

    def test_time_that_is_over_before_a_verdict(self):
        for end in (Stopped, OutOfTime):
            with mock.patch("ask.windows.answer.verdict_of_slices", side_effect=end):
                ended, _, said = asked(["check", "G (a.p -> F[0,9] b.q)", "l", "--seconds", "60"], self.folder)
            self.assertEqual((ended, said.startswith("ask: stopped after 60 seconds, with 0 of 0 windows done; with --keep")), (124, True), said)

    def test_a_deadline_that_windows_leave_open(self):
        with mock.patch("ask.windows.asking.Findings.can_fail", return_value=None):
            ended, text, said = asked(["deadline", "G (a.p -> F[0,?] b.q)", "l", "--json"], self.folder)
        facts = facts_of_text(text)
        self.assertEqual((ended, schema.complaint("deadline", facts)), (4, ""), said)
        self.assertEqual(facts["statuses"], {str(facts["unknown_at"]): 4})

    def test_what_a_deadline_knows_when_its_time_is_over(self):
        words = ["deadline", "G (a.p -> F[0,?] b.q)", "l", "--seconds", "60"]
        for end in (Stopped, OutOfTime):
            with mock.patch("ask.windows.least_number.Numbers.halved", side_effect=end):
                ended, _, said = asked(words, self.folder)
            self.assertEqual((ended, said), (124, "ask: stopped after 60 seconds; with 7 it isn't true by every timing\n"))
            with mock.patch("ask.commands.deadline.cautions_of_long_log", side_effect=end):
                ended, text, said = asked([*words, "--json", "--strict-for", "end"], self.folder)
            facts = facts_of_text(text)
            self.assertEqual((ended, facts["number"], [warning["kind"] for warning in facts["warnings"]]), (0, 9, ["unasked"]), said)

    def test_strict(self):
        self.assertEqual(asked(["check", "G (a.x -> b.q)", "l", "--strict"], self.folder)[0], 65)
        self.assertEqual(asked(["check", "G (a.p -> F[0,9] b.q)", "l", "--strict"], self.folder)[0], 0)

    def test_a_report_is_of_one_run(self):
        ended, _, said = asked(["check", "G a.p", "l", "--report", "r"], self.folder)
        self.assertEqual((ended, Path(self.folder, "r").exists()), (64, False), said)

    def test_formulas_that_windows_cannot_answer(self):
        self.assertEqual(asked(["check", "G (a.p -> F b.q)", "l"], self.folder)[0], 67)


if __name__ == "__main__":
    unittest.main()
