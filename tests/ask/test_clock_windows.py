"""Windows of long logs with clocks and bounds between rows: their bounds, what a window keeps, and what all of them tell."""

import random
import time
import unittest
from collections import Counter
from unittest import mock

import common  # sets the path
import clock_logs
import long_logs
import windows_agreement

from ask.formulas import read_formula
from ask.logs import bound_of, read_log
from ask.program import Program, find_program
from ask.reports import Step
from ask.texts import Source
from ask.windows.asking import Setting, View, Whole
from ask.windows.bounds import Bounds, Contradiction, Lowering, Raising
from ask.windows.cuts import Slice
from ask.windows.longlog import read_long_log
from ask.windows.loose import Offsets
from ask.windows.shape import shape_of
from ask.windows.timings import keeps, room
from ask.windows.verdict import verdict_of_slices

CASES = 400
FAMILIES = ["clocks", "bounds"]  # of logs of hundreds of rows
HEAD = "skewlog3,host,time,name\n"


def generated(is_right=True, most_rows=12):
    """Logs by chance, each with its text and the times of the run that it is of."""
    for seed in range(CASES):
        draw = random.Random(f"{is_right} {seed}")
        text, times = clock_logs.some_log(draw, most_rows, is_right)
        yield draw, text, times


class Passes(unittest.TestCase):
    def test_the_least_and_the_greatest_times(self):
        for _, text, times in generated():
            with self.subTest(log=text):
                log, long = read_log(text.encode()), read_long_log(text.encode())
                self.assertTrue(clock_logs.is_timing(log, times))
                sums, found = clock_logs.least_sums(log), Bounds(long).times()
                events = range(len(log.rows))
                self.assertEqual(list(found.least), [-sums[None, event] for event in events])
                self.assertEqual(list(found.greatest), [sums[event, None] for event in events])

    def test_contradictions(self):
        counts = [0, 0]
        for _, text, _ in generated(is_right=False):
            with self.subTest(log=text):
                log, bounds = read_log(text.encode()), None
                try:
                    bounds = Bounds(read_long_log(text.encode()))
                    bounds.times()
                    self.assertIsNotNone(clock_logs.least_sums(log))
                    counts[0] += 1
                except Contradiction as contradiction:
                    self.assertIsNone(clock_logs.least_sums(log))
                    walk = [bound_of(log, step.kind, step.numbers[0]) for step in contradiction.walk]
                    self.assertEqual([bound.end for bound in walk], [bound.start for bound in walk[1:] + walk[:1]])
                    self.assertLess(sum(bound.most for bound in walk), 0)
                    counts[1] += 1
        self.assertGreater(min(counts), CASES // 10)

    def test_broken_bounds(self):
        for draw, text, times in generated():
            log, bounds = read_log(text.encode()), Bounds(read_long_log(text.encode()))
            for _ in range(4):
                moved = [time + draw.choice((0, 0, -1, 1, 2)) for time in times]
                with self.subTest(log=text, times=moved):
                    self.assertEqual(bounds.broken(moved) is None, clock_logs.is_timing(log, moved))

    def test_the_first_broken_reading(self):
        text = HEAD + "host,a,5,0\nclock,a,0,one\nnote,a,10,x\nclock,a,0,one\nnote,a,20,y\n"
        bounds = Bounds(read_long_log(text.encode()))
        for times, step in (((10, 25), Step("over", (1,))), ((13, 20), Step("under", (1,))), ((13, 23), None)):
            self.assertEqual(bounds.broken(times), step)

    def test_rows_that_move(self):
        for draw, text, times in generated():
            log, bounds = read_log(text.encode()), Bounds(read_long_log(text.encode()))
            offsets = Offsets(bounds.readings, times)
            for _ in range(4):
                moved = draw.sample(range(len(times)), draw.randint(1, len(times)))
                with self.subTest(log=text, times=times, moved=moved):
                    tried = self.check_moved(draw, log, (bounds, times, offsets), moved)
                for event, time in tried.items():
                    times[event] = time
                offsets.take(tried)

    def check_moved(self, draw, log, timing, moved):
        """Asserts how far rows of a timing can move; times that they can have."""
        bounds, times, offsets = timing
        least, greatest = room(bounds, times, offsets, moved)
        for ends in (least, greatest):
            self.assertTrue(clock_logs.is_timing(log, [ends.get(event, time) for event, time in enumerate(times)]))
        found = draw.choice((least, greatest, {}))
        for _ in range(4):
            tried = {event: times[event] + draw.choice((0, 0, -1, 1, 2)) for event in moved}
            whole = [tried.get(event, time) for event, time in enumerate(times)]
            self.assertEqual(keeps(bounds, times, offsets, tried), clock_logs.is_timing(log, whole))
            if clock_logs.is_timing(log, whole):
                self.assertTrue(all(least[event] <= tried[event] <= greatest[event] for event in moved))
                found = tried
        return found

    def test_a_move_takes_no_pass_over_all_rows_of_its_clock(self):
        draw, count = random.Random(63), 20_000
        rows = "".join(f"note,a,{10 * place},x\n" for place in range(count))
        bounds = Bounds(read_long_log(f"{HEAD}host,a,9,0\nclock,a,9,k\n{rows}".encode()))
        times = [time + draw.randint(-4, 4) for time in bounds.log.rows.stamp]
        offsets = Offsets(bounds.readings, times)
        greatest = max(time - stamp for time, stamp in zip(times, bounds.log.rows.stamp))
        self.assertEqual(room(bounds, times, offsets, [0])[0], {0: max(-9, greatest - 18)})
        with mock.patch.object(Offsets, "least_negated", autospec=True, side_effect=Offsets.least_negated) as asked:
            rankings = Offsets(bounds.readings, times)
            for _ in range(2000):
                first = draw.randrange(count - 9)
                moved = {event: 10 * event + draw.randint(-4, 4) for event in range(first, first + 9)}
                self.assertTrue(keeps(bounds, times, rankings, moved))
                times[first : first + 9] = moved.values()
                rankings.take(moved)
        self.assertLess(asked.call_count, 10 * count)

    def test_a_chain_of_clocks(self):
        hosts = 40
        text = HEAD + "".join(f"host,h{number},1000,0\n" for number in range(hosts))
        text += "".join(f"clock,h{number},0,k{number // 2}\nnote,h{number},0,x\n" for number in range(hosts))
        text += "".join(f"bound,{number + 1},{number},0\nbound,{number},{number + 1},0\n" for number in range(1, hosts - 1, 2))
        log = read_long_log(text.replace("host,h0,1000,0", "host,h0,0,0").encode())
        self.assertEqual([list(found) for found in Bounds(log).times()], [[0] * hosts] * 2)

    def test_a_long_chain_of_clocks_takes_no_pass_for_each(self):
        # Each clock is read by 12 rows, one of which is at the time of one by the clock before it.
        clocks, rows = 1000, 12
        text = HEAD + "host,a,1000,0\nhost,b,1000,0\n"
        for number in range(clocks):
            text += f"resync,a,{1000 if number else 0},0\nclock,a,0,k{number}\nclock,b,0,k{number}\nnote,a,0,x\n" + (rows - 1) * "note,b,0,x\n"
        for first in range(rows, clocks * rows, rows):
            text += f"bound,{first - rows + 1},{first},0\nbound,{first},{first - rows + 1},0\n"
        log = read_long_log(text.encode())
        began = time.process_time()
        self.assertEqual([set(found) for found in Bounds(log).times()], [{0}] * 2)
        self.assertLess(time.process_time() - began, 6)  # seconds of the processor; with such passes it takes over 8

    def test_a_chain_of_clocks_that_each_ask_for_more_is_settled_in_one_pass(self):
        # The rows of all clocks are tied to one time, and the skews of each clock narrow it a bit more.
        clocks, rows = 200, 20
        for skews in (range(1000, 1000 + clocks), range(1000 + clocks, 1000, -1)):
            text = HEAD + "host,a,9999,0\nhost,b,9999,0\n"
            for number, skew in enumerate(skews):
                text += f"resync,a,{skew},0\nclock,a,0,k{number}\nclock,b,0,k{number}\n"
                text += "note,a,0,x\n" + (rows - 1) * "note,b,0,x\n"
            for first in range(rows, clocks * rows, rows):
                text += f"bound,{first - rows + 1},{first},0\nbound,{first},{first - rows + 1},0\n"
            least = min(skews)
            for made in (Raising, Lowering):
                with mock.patch.object(made, "put", autospec=True, side_effect=made.put) as put:
                    times = Bounds(read_long_log(text.encode())).times()
                self.assertEqual([set(found) for found in times], [{-least}, {least}])
                self.assertLess(put.call_count, 3 * clocks * rows)


class Windows(unittest.TestCase):
    def whole(self, text, formula="G (h0.p -> F[0,3] h0.q)"):
        return Whole(read_long_log(text.encode()), shape_of(read_formula(formula)))

    def test_each_timing_of_the_whole_is_one_of_a_window(self):
        for draw, text, times in generated():
            whole = self.whole(text)
            first = draw.randint(min(whole.times.least), max(whole.times.greatest))
            window = whole.window(Slice(first, first + draw.randint(0, 8)))
            log = read_log(window.log)
            with self.subTest(log=text, window=window.log):
                for timing in (times, whole.times.least, whole.times.greatest, whole.near()):
                    before = [window.base, *(moment for _, moment in window.carried)]
                    self.assertTrue(clock_logs.is_timing(log, [*before, *(timing[event] for event in window.events)]))

    def test_a_window_of_all_rows_has_no_other_timings(self):
        for draw, text, times in generated(most_rows=6):
            whole, log = self.whole(text), read_log(text.encode())
            window = whole.window(Slice(min(whole.times.least), max(whole.times.greatest)))
            bounded = read_log(window.log)
            self.assertEqual(window.events, list(range(len(times))))
            for _ in range(6):
                moved = [time + draw.choice((0, 0, -1, 1, 2)) for time in times]
                with self.subTest(log=text, times=moved):
                    is_there = clock_logs.is_timing(bounded, [window.base, *moved])
                    is_exact = all(row.clock is not None for row in log.rows)
                    if is_exact or not is_there:
                        self.assertEqual(clock_logs.is_timing(log, moved), is_there)

    def test_what_a_window_keeps(self):
        rows = "host,a,9,0\nhost,b,9,0\nnote,a,0,x\nclock,a,1,m\nclock,b,2,m\nset,a,1000,p\nset,b,1003,q\nclock,b,0,n\nnote,b,2000,x\n"
        text = HEAD + rows + "bound,2,1,5\nbound,1,2,4\nbound,3,0,3000\n"
        whole = self.whole(text, "G (a.p -> F[0,3] b.q)")
        window = whole.window(Slice(995, 1010))
        self.assertEqual(window.log.decode(), HEAD + (
            "host,anchor,0,0\nhost,a,0,0\nhost,b,0,0\nnote,anchor,991,anchor\nresync,a,9,0\nclock,a,1,m\nset,a,1000,p\n"
            "resync,b,9,0\nclock,b,2,m\nset,b,1003,q\nbound,2,1,5\nbound,1,2,4\n"
        ))

    def test_logs_without_clocks_have_windows_of_version_2(self):
        text = "kind,host,time,name\nhost,h0,2,0\nset,h0,10,p\nset,h0,15,q\n"
        self.assertTrue(self.whole(text).window(Slice(0, 20)).log.startswith(b"skewlog2,"))
        text = HEAD + "host,h0,2,0\nset,h0,10,p\nset,h0,15,q\nset,h0,95,q\nbound,2,0,100\n"
        self.assertTrue(self.whole(text).window(Slice(0, 20)).log.startswith(b"skewlog2,"))

    def test_views_of_some_rows(self):
        for _, text, times in generated():
            whole = self.whole(text, "G (h0.p -> F[0,3] h0.p)")
            view = whole.pulses()
            if view is None:
                continue
            self.assertIsInstance(view, View)
            window = view.window(Slice(min(times), max(times)))
            timing = [window.base, *(times[event] for event in window.events)]
            self.assertTrue(clock_logs.is_timing(read_log(window.log), timing))


class Families(unittest.TestCase):
    def runs(self, family):
        """Logs of a family, each with the times of the run that it is of."""
        for seed in range(40):
            draw = random.Random(f"{family} {seed}")
            run = long_logs.FAMILIES[family](draw, draw.randint(60, 200))
            yield read_long_log(long_logs.text_of(run).encode()), [event.time for event in run.events]

    def test_a_run_is_a_timing(self):
        for family in FAMILIES:
            for log, times in self.runs(family):
                self.assertIsNone(Bounds(log).broken(times))

    def test_what_clocks_are_like(self):
        found = Counter()
        for log, _ in self.runs("clocks"):
            hosts = [{log.rows.host[event] for event in events} for events in log.clock_rows()]
            clocks = {(row.host, row.clock) for row in log.rows}
            found["of several hosts"] += any(len(some) > 1 for some in hosts)
            found["set again"] += len({host for host, _ in clocks}) < len(clocks)
            found["with an error"] += any(row.error for row in log.rows)
            found["without an error"] += any(row.clock is not None and not row.error for row in log.rows)
            found["rows without one"] += any(row.clock is None for row in log.rows)
            found["none"] += not log.clocks
        self.assertEqual((found.pop("none"), min(found.values()) > 9), (0, True), found)

    def test_what_bounds_are_like(self):
        found = Counter()
        for log, times in self.runs("bounds"):
            rooms = [extra.most - times[extra.later] + times[extra.earlier] for extra in log.extras]
            found["that the run just keeps"] += 0 in rooms
            found["with room"] += max(rooms) > 0
            found["to an earlier row"] += any(extra.later < extra.earlier for extra in log.extras)
            found["beside clocks"] += bool(log.clocks)
            found["far apart"] += any(abs(extra.later - extra.earlier) > 40 for extra in log.extras)
            found["none"] += not log.extras
        self.assertEqual((found.pop("none"), min(found.values()) > 4), (0, True), found)


class Verdicts(unittest.TestCase):
    """What windows of a log tell, against what the program tells of the whole; of as many cases as CASES says, else 40."""

    def test_windows_and_the_whole(self):
        cases, counts = common.cases_asked(40), Counter()
        for seed in range(cases):
            draw = random.Random(f"verdict {seed}")
            text, _ = clock_logs.some_log(draw, 6, draw.random() < 0.9)
            formula = clock_logs.some_formula(draw, read_log(text.encode()))
            with self.subTest(log=text, formula=formula):
                right = self.of_whole(text, formula)
                self.assertEqual(self.by_windows(draw, text, formula), right)
                counts[right] += 1
        for verdict in (*windows_agreement.STATUSES.values(), None):
            self.assertGreaterEqual(counts[verdict], max(1, cases // 40), counts)

    def test_long_logs(self):
        cases, counts = common.cases_asked(6), Counter()
        for place in range(cases):
            case = windows_agreement.case_of(f"clocks {place}", FAMILIES, (60, 100))
            with self.subTest(log=case.log, formula=case.formula):
                said, wrong, _ = windows_agreement.windows_answer(find_program(None), case)
                outcome = windows_agreement.compared(said, windows_agreement.whole_answer(find_program(None), case, 120))
                self.assertEqual((wrong, outcome == "DIFFERENT"), ("", False), said)
                counts[said] += outcome == "same"
        for verdict in windows_agreement.STATUSES.values():
            self.assertGreaterEqual(counts[verdict], max(1, cases // 12), counts)

    def of_whole(self, text, formula):
        """Whether the formula can be true and false, None where no timing is admissible."""
        sources = [Source("f", formula.encode()), Source("l", text.encode())]
        return {0: (True, False), 1: (False, True), 2: (True, True), 3: None}[Program(find_program(None)).run("check", sources).status]

    def by_windows(self, draw, text, formula):
        """The same by windows of few rows, whose timings are timings of the log."""
        try:
            whole = Whole(read_long_log(text.encode()), shape_of(read_formula(formula)))
        except Contradiction:
            return None
        setting = Setting(Program(find_program(None)), most=draw.choice((3, 6)), size=draw.choice((1, 2)))
        verdict = verdict_of_slices(whole, setting)
        for times in verdict.timings.values():
            self.assertTrue(clock_logs.is_timing(read_log(text.encode()), times))
        return verdict.can_be[True], verdict.can_be[False]


if __name__ == "__main__":
    unittest.main()
