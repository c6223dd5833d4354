"""Errors that are planted in the windows of logs with clocks and with bounds between rows, one at a time.

The comparison with the program's answer on the whole finds each, on a log that was made for it, and so does an audit of
the folder that is kept. Those of logs without clocks are in test_windows.py.
"""

import tempfile
import unittest
from pathlib import Path
from typing import NamedTuple
from unittest import mock

from common import asked, planted
import windows_agreement

from ask.program import find_program
from ask.texts import Trouble
from ask.windows import spells
from ask.windows.asking import Whole
from ask.windows.cuts import Slice
from ask.windows.shape import Shape
from ask.windows.spells import Spells
from ask.windows.window import Glazier

SECONDS = 60.0


def steps(rows, skew=0, clock="", more=(), every=10):
    """A log of two hosts with 40 rows, one every few units, which are notes but for those that are told by their places.

    Places count from 1; odd ones are of the host a and even ones of b. A clock is told by its error and its name, and
    both hosts read it.
    """
    lines = ["skewlog3,host,time,name", f"host,a,{skew},0", f"host,b,{skew},0"]
    lines += [f"clock,{host},{clock}" for host in "ab" if clock]
    for place in range(1, 41):
        kind, name = rows.get(place, "note n").split()
        lines.append(f"{kind},{'ba'[place % 2]},{every * place},{name}")
    return "".join(f"{line}\n" for line in [*lines, *more])


class Plant(NamedTuple):
    """What is wrong in place of what is right, and a log and a formula by which that is found.

    `right` is what the program says of the whole: whether the formula can be true and false.
    """

    owner: object
    name: str
    wrong: object  # which is made of what is right
    log: str
    formula: str
    right: tuple


# What is wrong


def without_row(event):
    """Windows that leave out a row, by its number, which counts from 0."""
    return lambda right: lambda self, ranges: [one for one in right(self, ranges) if one != event]


def without_carried(right):
    """Windows that nothing is carried into."""
    return lambda self, ranges: []


def with_anchor_moved(distance):
    """Windows whose first row is so much later than the moment from which their formula and their bounds count."""
    return lambda right: lambda self, rows, spans, carried, base: right(self, rows, spans, carried, base + distance)


def with_ends_moved(distance):
    """Windows whose bounds by least and greatest times count from a moment that is so much later than the first row."""
    return lambda right: lambda self, rows, spans, places, base: right(self, rows, spans, places, base + distance)


def with_text_moved(distance):
    """Windows whose formula asks of moments that are so much later than those of the slice."""
    return lambda right: lambda self, first, last: right(self, first + distance, last + distance)


def without_slice(moment):
    """Slices without the one that has a moment."""
    return lambda right: lambda self, setting: [one for one in right(self, setting) if not one.first <= moment <= one.last]


def with_slices_cut(right):
    """Slices each of which ends one moment before the next begins."""
    def slices(self, setting):
        return [part._replace(last=part.last - 1) if part.last > part.first else part for part in right(self, setting)]
    return slices


def with_lines(old, new):
    """Windows in the lines of whose rows a text stands in place of another one."""
    return lambda right: lambda self, rows, spans: (line.replace(old, new) for line in right(self, rows, spans))


def with_places_moved(right):
    """Windows whose bound records count rows as if none were carried in."""
    def bounded(self, places):
        more = min(places.values(), default=1) - 1
        return right(self, {event: place - more for event, place in places.items()})
    return bounded


def with_spells_narrowed(first, last):
    """Spells that meet a slice where they meet what is left of it without so many moments at its begin and its end."""
    return lambda right: lambda self, part: right(self, Slice(part.first + first, part.last - last))


def without_last_spells(right):
    """Propositions that are true nowhere behind the row that sets them last."""
    return lambda log, host, name, times: (one for one in right(log, host, name, times) if one.last < max(times.greatest))


def with_bounds_narrowed(right):
    """Windows whose bound records are less by one."""
    return lambda self, places: (bound._replace(most=bound.most - 1) for bound in right(self, places))


# Logs by which it is found

FIRST = steps({1: "pulse p"}, clock="0,m")
MIDDLE = steps({20: "pulse p"}, clock="0,m")
LAST = steps({40: "pulse p"}, clock="0,m")
CARRIED = steps({1: "set p", 40: "pulse q"}, clock="0,m", more=["bound,39,38,10"])
# All rows are 10 apart, however late the clock is.
EXACT = steps({40: "pulse p"}, skew=3, clock="0,m")
# Each moment has a row, so that one is at the last moment of each slice, and the pulse at that of a slice of four rows.
DENSE = steps({24: "pulse p"}, clock="0,m", every=1)
# The second pulse is 8 to 12 behind the first by the clock, and 4 to 16 by the skews.
PULSES = {19: "pulse p", 20: "pulse q"}
NEAR = steps(PULSES, skew=3, clock="1,m")
# The hosts read clocks that have nothing to do with each other: 4 to 16.
APART = steps(PULSES, skew=3, clock="0,m").replace("clock,b,0,m", "clock,b,0,n")
# A bound record says at most 12.
BOUND = steps(PULSES, skew=3, more=["bound,19,18,12"])
# A bound record is of the second pulse and the row behind it, and in windows that have both `r` was set before.
BEHIND = steps({1: "set r", **PULSES}, skew=3, more=["bound,20,19,10"])
# By bound records the rows of b are 3 to 5 behind their stamps, or before them; a stamp and a skew say 5 to either side.
LATE = steps(PULSES, clock="0,m", more=["bound,19,18,15", "bound,18,19,-13"]).replace("host,b,0,0\nclock,a,0,m\n", "host,b,30,0\n")
EARLY = steps(PULSES, clock="0,m", more=["bound,19,18,7", "bound,18,19,-5"]).replace("host,b,0,0\nclock,a,0,m\n", "host,b,30,0\n")

NEVER, ALWAYS, EITHER = (False, True), (True, False), (True, True)
PLANTS = {
    "a row that decides left out": Plant(Glazier, "events_in", without_row(39), LAST, "G !b.p", NEVER),
    "a row in the middle left out": Plant(Glazier, "events_in", without_row(20), EXACT, "G (F[1,10] true | b.p)", ALWAYS),
    "a carried state dropped": Plant(Glazier, "set_before", without_carried, CARRIED, "G !(a.p & b.q)", NEVER),
    "an anchor one too late": Plant(Glazier, "lines", with_anchor_moved(1), FIRST, "G !a.p", NEVER),
    "an anchor one too early": Plant(Glazier, "lines", with_anchor_moved(-1), LAST, "G !b.p", NEVER),
    "moments one too late": Plant(Shape, "window_text", with_text_moved(1), FIRST, "G !a.p", NEVER),
    "moments one too early": Plant(Shape, "window_text", with_text_moved(-1), LAST, "G !b.p", NEVER),
    "slices without the first": Plant(Whole, "slices", without_slice(10), FIRST, "G !a.p", NEVER),
    "slices without one in the middle": Plant(Whole, "slices", without_slice(200), MIDDLE, "F b.p", ALWAYS),
    "slices without the last": Plant(Whole, "slices", without_slice(400), LAST, "F b.p", ALWAYS),
    "slices with gaps between them": Plant(Whole, "slices", with_slices_cut, DENSE, "G !b.p", NEVER),
    "least times one too late": Plant(Glazier, "ends_bounded", with_ends_moved(-1), LATE, "G (a.p -> F[14,20] b.q)", EITHER),
    "greatest times one too early": Plant(Glazier, "ends_bounded", with_ends_moved(1), EARLY, "G (a.p -> F[0,6] b.q)", EITHER),
    "errors of readings one too small": Plant(
        Glazier, "lines_of_rows", with_lines(",1,m", ",0,m"), NEAR, "G (a.p -> F[0,11] b.q)", EITHER,
    ),
    "spells that begin one too late": Plant(Spells, "meet", with_spells_narrowed(0, 1), LAST, "G !b.p", NEVER),
    "spells that end one too early": Plant(Spells, "meet", with_spells_narrowed(1, 0), FIRST, "G !a.p", NEVER),
    "spells that have no end left out": Plant(spells, "stretches_of", without_last_spells, CARRIED, "G (a.p -> F[1,10] true)", NEVER),
    "two clocks taken as one": Plant(Glazier, "lines_of_rows", with_lines(",0,n", ",0,m"), APART, "G (a.p -> F[0,11] b.q)", EITHER),
    "bound records one too small": Plant(Glazier, "rows_bounded", with_bounds_narrowed, BOUND, "G (a.p -> F[0,11] b.q)", EITHER),
    "bound records that don't count what is carried in": Plant(
        Glazier, "rows_bounded", with_places_moved, BEHIND, "G (a.p -> (F[0,10] b.q | F[0,40] !a.r))", EITHER,
    ),
}


def said_by_windows(plant):
    """What windows of few rows say, and what of their timings isn't so; where they refuse, the reason."""
    case = windows_agreement.Case(plant.log, plant.formula, "", 4, 30)
    try:
        said, wrong, _ = windows_agreement.windows_answer(find_program(None), case)
    except Trouble as trouble:
        return trouble.message, ""
    return said, wrong


def said_of_whole(plant):
    """What the program says of the whole."""
    return windows_agreement.whole_answer(find_program(None), windows_agreement.Case(plant.log, plant.formula, "", 0, 0), SECONDS)


def unguarded():
    """Has what windows tell not be compared with the timing near the stamps, which would find some errors too."""
    return mock.patch("ask.windows.verdict.refuse_contrary")


class Planted(unittest.TestCase):
    def test_what_is_right(self):
        for name, plant in PLANTS.items():
            with self.subTest(name):
                self.assertEqual(said_of_whole(plant), plant.right)
                self.assertEqual(said_by_windows(plant), (plant.right, ""))

    def test_the_comparison_finds_them(self):
        for name, plant in PLANTS.items():
            with self.subTest(name), planted(plant.owner, plant.name, plant.wrong):
                self.assertNotEqual(said_by_windows(plant), (plant.right, ""))
                with unguarded():
                    said, _ = said_by_windows(plant)
                self.assertEqual(windows_agreement.compared(said, plant.right), "DIFFERENT", said)

    def test_an_audit_finds_them(self):
        for name, plant in PLANTS.items():
            with self.subTest(name), tempfile.TemporaryDirectory() as folder:
                Path(folder, "l").write_text(plant.log)
                words = ["check", plant.formula, "l", "--windows", "--quiet", "--keep"]
                asked([*words, "right"], folder)
                self.assertEqual(asked(["audit", "right"], folder)[0], 0)
                with planted(plant.owner, plant.name, plant.wrong), unguarded():
                    asked([*words, "wrong"], folder)
                ended, text, said = asked(["audit", "wrong"], folder)
                self.assertEqual((ended, text.startswith("Refused: ")), (5, True), text + said)


if __name__ == "__main__":
    unittest.main()
