"""Units of logs: how spans and moments are said, what notes keep, and that answers differ by nothing else."""

import json
import tempfile
import unittest
from hashlib import sha256
from pathlib import Path

from common import ROOT, asked, facts_of_text

from ask.stamps import stamp_of
from ask.texts import Trouble
from ask.units import BARE, Scale, read_notes, scale_of_making, write_with_notes

EXAMPLES = ROOT / "examples"
CHECKOUT = "../tests/ask/logs/checkout_us.csv"
JSONL = "\n".join(f'{{"time": "{time}", "host": "{host}", "name": "{name}", "kind": "set"}}' for time, host, name in (
    ("2023-11-14T23:13:30.003+01:00", "a", "p"), ("2023-11-14T23:13:30.25+0100", "b", "q"), ("2023-11-14T23:13:31+01", "a", "r"),
))
UNIX = "1970-01-01T00:00:00Z"


class Words(unittest.TestCase):
    def test_spans(self):
        for unit, number, said in (
            ("us", 263_999, "263.999 ms"), ("ms", 5, "5 ms"), ("ms", 1500, "1.5 s"), ("ms", 1000, "1 s"), ("ms", 999, "999 ms"), ("ms", 0, "0"),
            ("ns", 1, "1 ns"), ("ns", 1_000_001, "1.000001 ms"), ("ns", 12_345_678_901, "12.345678901 s"), ("s", 90_000, "90000 s"),
            ("us", -2000, "-2 ms"), ("us", -1, "-1 us"), ("ms", 10**18, "1000000000000000 s"), (None, 263_999, "263999"), (None, 0, "0"),
        ):
            self.assertEqual(Scale(unit).span(number), said)

    def test_shifts(self):
        for unit, number, said in (("us", 1500, "+1.5 ms"), ("us", -1500, "-1.5 ms"), ("us", 0, "0"), (None, 5, "+5"), (None, -5, "-5"), (None, 0, "0")):
            self.assertEqual(Scale(unit).shift(number), said)

    def test_moments(self):
        for scale, number, said in (
            (Scale("ms", 0, "Z"), 1_700_000_010_003, "2023-11-14T22:13:30.003Z"), (Scale("ms", 0), 0, "1970-01-01T00:00:00.000Z"),
            (Scale("us", 0, "+01:00"), 1_700_000_010_003_000, "2023-11-14T23:13:30.003000+01:00"),
            (Scale("s", 0, "-03:30"), 1_700_000_010, "2023-11-14T18:43:30-03:30"), (Scale("ms", 0, "-00:30"), 0, "1969-12-31T23:30:00.000-00:30"),
            (Scale("ms", 0, "Z"), -1, "1969-12-31T23:59:59.999Z"), (Scale("ms", 1_700_000_000_000, "Z"), 10_003, "2023-11-14T22:13:30.003Z"),
            (Scale("ns", 0, "Z"), 951_782_400_000_000_001, "2000-02-29T00:00:00.000000001Z"),
            (Scale("s", 0, "Z"), 4 * 10**18, str(4 * 10**18)), (Scale("s", 0, "Z"), -(4 * 10**18), str(-4 * 10**18)),
            (Scale("ms"), 1_700_000_010_003, "1700000010003"), (BARE, 5, "5"), (Scale(None, 0, "Z"), 5, "5"),
        ):
            self.assertEqual(scale.moment(number), said)

    def test_moments_are_read_as_what_they_are_of(self):
        for zone in ("Z", "+01:00", "-09:30", "+23:59"):
            for number in (0, -1, 1, 951_782_399_999, 1_709_164_799_999, -62_135_500_000_000):
                stamp = stamp_of(Scale("ms", 0, zone).moment(number))
                self.assertEqual(1000 * stamp.seconds + int(stamp.digits), number)


class Room(unittest.TestCase):
    def setUp(self):
        room = tempfile.TemporaryDirectory()
        self.addCleanup(room.cleanup)
        self.room = Path(room.name)

    def put(self, name, text):
        """A file of the room."""
        path = self.room / name
        path.write_text(text)
        return str(path)


class Notes(Room):
    def made(self, text, *words, name="in"):
        """What the notes say that are beside a log made of a text."""
        log = str(self.room / "log.csv")
        status, said, told = asked(["log", self.put(name, text), "-o", log, "--notes", "/dev/null", "--skew", "5", *words])
        self.assertEqual(status, 0, told)
        self.said = said
        notes = json.loads(Path(f"{log}.notes").read_text())
        self.assertEqual(notes.pop("sha256"), sha256(Path(log).read_bytes()).hexdigest())
        return notes

    def test_what_is_kept(self):
        table = "time,host,name,kind\n"
        for text, words, kept in (
            (JSONL, [], ("ms", UNIX, "+01:00")), (JSONL, ["--unit", "ns"], ("ns", UNIX, "+01:00")),
            (table + "2023-11-14T22:13:30Z,a,p,set\n2023-11-14T22:13:31+01:00,a,q,set\n", [], ("s", UNIX, "Z")),
            (table + "2023-11-14T22:13:30Z,a,p,set\n2023-11-14T22:13:31z,a,q,set\n", [], ("s", UNIX, "Z")),
            (table + "2023-11-14 22:13:30,a,p,set\n", [], ("s", UNIX, "Z")), (table + "10.25,a,p,set\n", [], ("ms", None, None)),
            (table + "10,a,p,set\n", [], (None, None, None)), (table + "10,a,p,set\n", ["--unit", "us"], ("us", None, None)),
        ):
            notes = self.made(text, *words)
            self.assertEqual(notes, dict(zip(("unit", "epoch", "zone"), kept)), text)

    def test_access_lines(self):
        line = '127.0.0.1 - - [14/Nov/2023:23:13:30 +0100] "GET / HTTP/1.1" 200 5 "-" "-" 0.250\n'
        self.assertEqual(self.made(line, "--access", "combined $request_time"), {"unit": "ms", "epoch": UNIX, "zone": "+01:00"})
        self.assertEqual(self.made("1700000010.250 0.1\n", "--access", "$msec $request_time")["epoch"], UNIX)

    def test_the_log_is_what_is_written_without(self):
        self.made(JSONL)
        status, text, _ = asked(["log", str(self.room / "in"), "--notes", "/dev/null", "--skew", "5"])
        self.assertEqual((status, text), (0, (self.room / "log.csv").read_text()))
        self.assertEqual(self.said, f"The log is in {self.room}/log.csv, and {self.room}/log.csv.notes says its unit, milliseconds, and the zone +01:00.\n")
        self.made("time,host,name\n1,a,p\n")
        self.assertIn("says its unit, not known: --unit states it.", self.said)

    def test_notes_and_a_log_on_the_standard_output_agree(self):
        log = "kind,host,time,name\nhost,a,5,0\nset,a,10,p\nset,a,20,q\n"
        second = '{"time": "%s", "host": "a", "name": "x"}\n'
        for name, text, words, stamps, skew, notes in (
            ("a.csv", log, (), (10, 20), 5, ["unit: microseconds, as --unit says"]),
            ("a.jsonl", second % "2023-11-14T22:13:20.000010Z" + second % "2023-11-14T23:13:20.00002+01:00", ("--skew", "5us"),
             (1_700_000_000_000_010, 1_700_000_000_000_020), 5, ["unit: microseconds since 1970-01-01T00:00:00Z"]),
            ("a.jsonl", second % "0.00001" + second % "0.0000207", ("--skew", "5"), (10, 20), 6, [
                "unit: microseconds of the seconds in the file",
                "digits below a unit are cut off in 1 stamp of a: each skew of it is 1 unit greater for that",
            ]),
        ):
            with self.subTest(name=name, text=text):
                words = ["log", self.put(name, text), "--unit", "us", *words]
                status, written, said = asked(words)
                self.assertEqual((status, said.splitlines()), (0, [f"ask: {note}" for note in notes]))
                rows = [line.split(",") for line in written.splitlines()[1:]]
                self.assertEqual((rows[0][:3], [int(row[2]) for row in rows[1:]]), (["host", "a", str(skew)], [*stamps]))
                facts = facts_of_text(asked([*words, "--json"])[1])
                self.assertEqual((facts["log"], facts["notes"]), (written, notes))
                self.assertEqual(asked([*words, "-o", str(self.room / "log.csv"), "--quiet"])[0], 0)
                kept = json.loads((self.room / "log.csv.notes").read_text())
                self.assertEqual(((self.room / "log.csv").read_text(), kept["unit"]), (written, "us"))
                self.assertEqual(kept["epoch"], UNIX if "since" in notes[0] else None)

    def test_a_window_of_a_log_has_its_unit(self):
        self.made(JSONL)
        self.assertEqual(asked(["log", str(self.room / "log.csv"), "-o", str(self.room / "cut.csv"), "--from", "1700000010100", "--quiet"])[0], 0)
        self.assertEqual(read_notes(str(self.room / "cut.csv.notes")).scale, Scale("ms", 0, "+01:00"))
        bare = self.put("bare.csv", "kind,host,time,name\nhost,c,0,0\nset,c,5,p\n")
        for files, kept in (([bare], BARE), ([str(self.room / "log.csv"), bare], BARE), ([str(self.room / name) for name in ("log.csv", "cut.csv")], Scale("ms", 0, "+01:00"))):
            self.assertEqual(scale_of_making(None, True, [], files), kept)
        self.assertEqual(scale_of_making("us", True, [], [bare]), Scale("us"))

    def joined(self, *zones, units=("ms", "ms"), epochs=(0, 0), words=()):
        """How logs with notes on these units, beginnings of time and zones are joined: the status, the unit, and what is said."""
        names = []
        for host, unit, epoch, zone in zip("ab", units, epochs, zones):
            names.append(self.put(f"{host}.csv", f"kind,host,time,name\nhost,{host},0,0\nset,{host},5,p\n"))
            write_with_notes(names[-1], Path(names[-1]).read_text(), Scale(unit, epoch, zone))
        joint = str(self.room / "joint.csv")
        Path(f"{joint}.notes").unlink(missing_ok=True)
        status, _, said = asked(["log", *names, "-o", joint, *words])
        return status, read_notes(f"{joint}.notes") and read_notes(f"{joint}.notes").scale, said

    def test_logs_of_several_zones_that_are_joined(self):
        self.assertEqual(self.joined("+01:00", "+01:00")[:2], (0, Scale("ms", 0, "+01:00")))
        self.assertEqual(self.joined("Z", "+01:00")[:2], (0, Scale("ms", 0, "Z")))
        self.assertEqual(self.joined("-02:00", None)[:2], (0, Scale("ms", 0, "Z")))

    def test_logs_of_several_units_are_not_joined(self):
        for made, part in (
            (self.joined("Z", "Z", units=("ms", "us")), "b.csv is in microseconds and"),
            (self.joined("Z", "Z", epochs=(0, 1000)), "count from different moments, by the notes beside them"),
        ):
            self.assertEqual(made[:2], (66, None))
            self.assertIn(part, made[2])
        self.assertEqual(asked(["log", *(str(self.room / name) for name in ("a.csv", "b.csv"))])[:2], (66, ""))

    def test_decimal_seconds_beside_a_log_in_another_unit(self):
        self.joined("Z", "Z")
        more = self.put("more", "time,host,name\n1.5,c,x\n")
        for files in ([str(self.room / "a.csv"), more], [more, str(self.room / "a.csv")]):
            status, log, said = asked(["log", *files, "--skew", "1"])
            self.assertEqual((status, log), (66, ""))
            self.assertIn("more, line 2: the stamp 1.5 is in seconds, and ", said)
            self.assertIn("a.csv in milliseconds, by the notes beside it", said)
        self.joined("Z", "Z", units=("s", "s"))
        self.assertEqual(asked(["log", str(self.room / "a.csv"), more, "--skew", "1", "--quiet"])[0], 0)

    def test_a_unit_that_the_notes_of_a_log_do_not_say(self):
        status, kept, said = self.joined("Z", "Z", words=["--unit", "us"])
        self.assertEqual((status, kept), (64, None))
        self.assertIn("--unit us: ", said)
        self.assertIn("a.csv.notes says milliseconds", said)
        self.assertEqual(self.joined("Z", "Z", words=["--unit", "ms"])[:2], (0, Scale("ms", 0, "Z")))

    def test_a_log_that_was_changed(self):
        """Notes of another state of a log aren't taken for its own."""
        self.made(JSONL)
        log = self.room / "log.csv"
        self.assertIn('"unit": "ms"', asked(["check", "F a.p", str(log), "--json"])[1])
        log.write_text(log.read_text().replace("host,b,5,0", "host,b,6,0"))
        status, _, said = asked(["check", "F a.p", str(log)])
        self.assertEqual((status, "they were written for another log than" in said), (66, True))
        status, text, _ = asked(["check", "F[0,1ms] a.p", str(log), "--unit", "us"])
        self.assertEqual((status, "-01" in text), (0, False))
        self.assertEqual(scale_of_making(None, True, [], [str(log)]), BARE)
        self.made(JSONL)
        self.assertEqual(asked(["check", "F a.p", str(log), "--quiet"])[0], 0)

    def test_what_isnt_written(self):
        source, log = self.put("in", JSONL), str(self.room / "log.csv")
        self.assertEqual(asked(["log", source, "-o", "-", "--skew", "5"])[0], 64)
        for notes in (log, f"{log}.notes"):
            status, _, said = asked(["log", source, "-o", log, "--skew", "5", "--notes", notes])
            self.assertEqual((status, "writes this file itself" in said), (64, True))
        self.put("log.csv.notes", "unit: milliseconds\n")
        status, _, said = asked(["log", source, "-o", log, "--skew", "5", "--quiet"])
        self.assertEqual((status, "isn't the notes on the unit of a log" in said), (75, True))
        self.assertFalse(Path(log).exists())
        self.assertEqual(asked(["log", source, "-o", "/dev/null", "--skew", "5", "--quiet"])[0], 0)
        self.assertFalse(Path("/dev/null.notes").exists())
        self.assertEqual(asked(["log", source, "-o", str(self.room / "missing" / "x"), "--skew", "5", "--quiet"])[0], 75)

    def test_a_link_to_no_file_yet(self):
        (self.room / "link").symlink_to("target")
        self.assertEqual(asked(["log", self.put("in", JSONL), "-o", str(self.room / "link"), "--skew", "5", "--quiet"])[0], 0)
        self.assertTrue((self.room / "target").is_file())
        self.assertEqual(read_notes(str(self.room / "link.notes")).scale, Scale("ms", 0, "+01:00"))

    def test_notes_that_say_something_else(self):
        log = self.put("l", "kind,host,time,name\nhost,a,0,0\nset,a,5,p\n")
        for text in ("", "unit: milliseconds, as --unit says\n", "[1]", '{"unit": null}'):
            self.put("l.notes", text)
            self.assertEqual(asked(["check", "F a.p", log, "--json"])[1].count('"unit"'), 0, text)
        for text, said in (
            ('{"unit": "min"}', "there is no unit 'min'. The units: s, ms, us, ns"), ("{", "they aren't JSON"), ('{"epoch": null}', "they have no unit"),
            ('{"unit": "ms", "epoch": "1.5"}', "the epoch '1.5' is no ISO 8601 time"), ('{"unit": "ms", "epoch": 5}', "the epoch 5 is no ISO 8601 time"),
            ('{"unit": "ms", "zone": "CET"}', "'CET' is no zone, as +01:00"), ('{"unit": "ms", "zone": ""}', "'' is no zone"), ('{"unit": "ms", "zone": " Z"}', "' Z' is no zone"),
            ('{"unit": "ms", "zone": ".5"}', "'.5' is no zone"), ('{"unit": ["ms"]}', "there is no unit"),
        ):
            self.put("l.notes", text)
            status, _, told = asked(["check", "F a.p", log])
            self.assertEqual(status, 66, text)
            self.assertIn(f"l.notes, the notes on the unit of the log: {said}", told)
        self.put("l.notes", '{"unit": "ms", "epoch": "2023-11-14T22:13:30Z", "zone": "+01:00", "more": 1}')
        self.assertEqual(read_notes(f"{log}.notes").scale, Scale("ms", 1_700_000_010_000, "+01:00"))
        self.assertIn("holds at 2023-11-14T23:13:30.005+01:00", asked(["check", "F a.p", log])[1].replace("a.p is true", "a.p holds"))
        for unit, status in (("ms", 0), ("us", 64)):
            self.assertEqual(asked(["check", "F a.p", log, "--unit", unit])[0], status)
        with self.assertRaises(Trouble):
            read_notes(self.put("n", '{"unit": "h"}'))


class Answers(Room):
    def same_but_for_sentences(self, one, other):
        """Two answers have the same numbers and keys, but for the unit."""
        if isinstance(one, dict):
            self.assertEqual(set(one) - {"unit"}, set(other) - {"unit"})
            for key in set(other) - {"unit"}:
                self.same_but_for_sentences(one[key], other[key])
        elif isinstance(one, list):
            self.assertEqual(len(one), len(other))
            for each, its_other in zip(one, other):
                self.same_but_for_sentences(each, its_other)
        elif not isinstance(one, str):
            self.assertEqual(one, other)

    def test_numbers_for_programs_stay(self):
        for words in (
            ["check", "G (web.asked -> F[0,7999] pay.done)", "LOG"], ["check", "G (web.asked -> F[0,7999] pay.done)", "LOG", "--windows"],
            ["between", "LOG", "0", "3"], ["deadline", "G (web.asked -> F[0,?] pay.done)", "LOG"], ["draw", "LOG"],
            ["tolerance", "false", "G (web.asked -> F[0,8000] pay.done)", "LOG"], ["each", "F {1}.{2}", "LOG", "--over", r"(web)\.(asked)"],
        ):
            with self.subTest(words=words):
                with_unit, without = (
                    facts_of_text(asked([log if word == "LOG" else word for word in words] + ["--json"], EXAMPLES)[1]) for log in (CHECKOUT, "checkout.csv")
                )
                self.assertEqual((with_unit.get("unit"), without.get("unit")), ("us", None))
                self.same_but_for_sentences(with_unit, without)

    def test_sentences(self):
        for words, part in (
            (["tolerance", "false", "G (web.asked -> F[0,8ms] pay.done)", CHECKOUT], "are 1 us greater, and not as they are."),
            (["tolerance", "false", "G (web.asked -> F[0,8ms] pay.done)", CHECKOUT], "1 us beyond its skew"),
            (["tolerance", "true", "G pay.done", CHECKOUT, "--up-to", "1"], "Never: even with all skews of ../tests/ask/logs/checkout_us.csv 1 us greater"),
            (["deadline", "G[0,?] web.asked", CHECKOUT], "by no timing are two rows of the log 13.101 ms apart, or more."),
            (["deadline", "F[2ms,?] true", CHECKOUT], "10.899 ms is the least number with which F[2ms,?] true is true"),
            (["check", "G (web.asked -> F[0,8ms] pay.done)", CHECKOUT], "pay set done (line 7) can't be after 2023-11-14T23:13:20.006000+01:00: its stamp is 2023-11-14T23:13:20.004000+01:00 and the skew of pay 2 ms"),
            (["check", "true", "one_clock.csv", "--unit", "ms"], "Together they ask for 1 ms more than there is."),
            (["draw", CHECKOUT, "--svg"], "in us, counted from 2023-11-14T23:13:19.998000+01:00"),
            (["draw", CHECKOUT, "--svg"], "skew 2 ms: 2023-11-14T23:13:20.002000+01:00 to 2023-11-14T23:13:20.006000+01:00"),
            (["draw", CHECKOUT], 'data-span="13100" data-digits="6" data-epoch="0" data-ahead="3600" data-zone="+01:00">'),
            (["draw", "checkout.csv"], 'data-span="13100">'),
        ):
            _, text, said = asked(words, EXAMPLES)
            self.assertIn(part, text, said)

    def test_between_says_each_case(self):
        log = self.put("l", "kind,host,time,name\nhost,a,2,0\nhost,b,0,0\nset,a,10,p\nset,b,12,q\nset,b,12,r\nset,b,14,s\n")
        for rows, said in (
            (("1", "3"), "always 2 ms after"), (("3", "1"), "always 2 ms before"), (("0", "1"), "at the same instant as, or up to 4 ms after,"),
            (("1", "0"), "up to 4 ms before, or at the same instant as,"), (("0", "3"), "2 ms to 6 ms after"), (("3", "0"), "2 ms to 6 ms before"),
            (("1", "2"), "at the same instant as"),
        ):
            self.assertIn(f"is {said} ", asked(["between", log, *rows, "--unit", "ms"])[1])

    def test_an_interval_without_a_unit_of_the_log(self):
        for words, said in (
            (["check", "F[0,8ms] pay.done", "checkout.csv"], "the formula, line 1, column 5: 8ms in which unit of the log? checkout.csv.notes, which ask log -o writes, doesn't say it"),
            (["check", "F[0,8ns] pay.done", CHECKOUT], "8ns is no whole number of microseconds, which the log is in"),
            (["draw", CHECKOUT, "--formula", "F[0,8ns] pay.done"], "8ns is no whole number"), (["each", "F[0,8ns] pay.{}", CHECKOUT, "--over", "done"], "the formula for done, line 1, column 5: 8ns is no"),
        ):
            status, _, told = asked(words, EXAMPLES)
            self.assertEqual(status, 65, words)
            self.assertIn(said, told)
        self.assertEqual(asked(["check", "F[0,8ms] pay.done", "checkout.csv", "--unit", "us", "--quiet"], EXAMPLES)[0], 0)

    def test_the_standard_input_has_no_notes(self):
        data = (EXAMPLES / "checkout.csv").read_bytes()
        self.assertNotIn('"unit"', asked(["check", "F pay.done", "-", "--json"], EXAMPLES, data)[1])
        self.assertIn('"unit": "ms"', asked(["check", "F pay.done", "-", "--unit", "ms", "--json"], EXAMPLES, data)[1])


if __name__ == "__main__":
    unittest.main()
