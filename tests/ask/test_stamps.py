"""Stamps and durations in whole units, worked out by hand."""

import unittest

import common  # sets the path

from ask.events import name_map
from ask.stamps import duration_in_units, finest_unit, in_units, loses_digits, stamp_of


class Stamps(unittest.TestCase):
    def test_moments(self):
        for text, unit, moment in (
            ("1970-01-01T00:00:00Z", "s", 0), ("1970-01-02T00:00:01Z", "s", 86401), ("1970-01-01T01:00:00+01:00", "ms", 0),
            ("1969-12-31T23:59:59.5Z", "ms", -500), ("2023-11-14T22:13:30.003Z", "ms", 1700000010003),
            ("2023-11-14 22:13:30,003", "us", 1700000010003000), ("2024-02-29T00:00:00-00:30", "s", 1709166600),
            ("1700000010.252", "ms", 1700000010252), ("10.2479", "ms", 10247), ("-0.25", "ms", -250), ("-1.75", "ms", -1750),
            ("-2.0", "ms", -2000), ("3.5", "ns", 3500000000), ("2016-12-31T23:59:60Z", "s", 1483228800), ("2017-01-01T05:29:60.5+05:30", "ms", 1483228800500),
        ):
            self.assertEqual(in_units(stamp_of(text), unit), moment, text)

    def test_no_moments(self):
        for text in ("", "x", "1.2.3", "2023-02-30T00:00:00Z", "2023-01-01T24:00:00Z", "2016-12-31T23:58:60Z", "2016-12-31T23:59:61Z", "1e3", "2023-01-01", "+5", "٣"):
            self.assertIsNone(stamp_of(text), text)

    def test_units(self):
        self.assertEqual(finest_unit([stamp_of("1.5"), stamp_of("2")]), "ms")
        self.assertEqual(finest_unit([stamp_of("1.1234")]), "us")
        self.assertEqual(finest_unit([stamp_of("1.1234567891")]), "ns")
        self.assertTrue(loses_digits(stamp_of("1.2345"), "ms"))
        self.assertFalse(loses_digits(stamp_of("1.2340"), "ms"))

    def test_durations(self):
        for text, unit, units in (
            ("5", "ms", 5), ("5ms", "ms", 5), ("5ms", "us", 5000), ("1.5ms", "ms", 2), ("1us", "ms", 1), ("2s", "ms", 2000),
            ("5", None, 5), ("5ms", None, None), ("-5", "ms", None), ("x", "ms", None), ("0.0005s", "us", 500),
            ("5.2e-05s", "us", 52), ("5.2e-05s", "ms", 1), ("1.5E+3", "ms", 1500), ("2e1", None, 20), ("1e-99s", "ns", 1), ("e5", "ms", None), ("1e", "ms", None), ("1e100", "ms", None),
        ):
            self.assertEqual(duration_in_units(text, unit), units, text)


class Names(unittest.TestCase):
    def test_names_that_are_kept_and_mapped(self):
        mapped = name_map(["cache_miss", "Cache miss", "Cache-miss", "9lives", "done", "é"])
        self.assertEqual(mapped["Cache miss"], "cache_miss_2")
        self.assertEqual(mapped["Cache-miss"], "cache_miss_3")
        self.assertEqual(mapped["9lives"], "n9lives")
        self.assertEqual(mapped["é"], "n_")

    def test_long_names_stay_apart(self):
        names = ["r" + "0" * 32 + ending for ending in ("_go", "_back", "x_back")]
        mapped = list(name_map(names).values())
        self.assertEqual(len(set(mapped)), 3)
        self.assertTrue(all(len(name) <= 32 for name in mapped))

    def test_words_that_are_no_hosts(self):
        self.assertEqual(name_map(["true", "inf"], ("true", "false", "inf")), {"true": "true_2", "inf": "inf_2"})


if __name__ == "__main__":
    unittest.main()
