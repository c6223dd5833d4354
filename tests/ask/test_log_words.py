"""`ask log`: what its options say and what they do, so that a log says no more than its files and whoever asked."""

import json
import tempfile
import unittest
from pathlib import Path

from common import ROOT, asked

from ask.logs import read_log

HEAD = "kind,host,time,name\n"
SECOND = "skewlog2,host,time,name\n"
CHRONYC = (ROOT / "examples" / "chronyc_tracking.txt").read_text()


def event(time, host="a", name="x", **more):
    """A line of JSON with an event."""
    return json.dumps({"time": time, "host": host, "name": name, **more}) + "\n"


class Made(unittest.TestCase):
    def setUp(self):
        room = tempfile.TemporaryDirectory()
        self.addCleanup(room.cleanup)
        self.room = room.name

    def made(self, text, *words, status=0):
        """The log that is made of a text, its notes, and what is said beside."""
        Path(self.room, "l").write_text(text)
        Path(self.room, "notes").unlink(missing_ok=True)
        ended, log, said = asked(["log", "l", *words, "--notes", "notes"], self.room)
        self.assertEqual(ended, status, said)
        return log, Path(self.room, "notes").read_text() if status == 0 else "", said

    def skews(self, log):
        """The skew of each row of a log."""
        return [row.skew for row in read_log(log.encode()).rows]

    def refused(self, text, words, status, part):
        """Asserts that words are refused, with this part in the message, and that no log is written."""
        log, _, said = self.made(text, *words, status=status)
        self.assertEqual(log, "")
        self.assertIn(part, said)


class Names(Made):
    HOSTS = event(1, "Web-01.prod") + event(2, "web-01.prod") + event(3, "WEB-01.prod")

    def test_hosts_are_kept_apart_with_a_warning(self):
        log, notes, said = self.made(self.HOSTS, "--skew", "5")
        self.assertEqual([line for line in log.splitlines() if line.startswith("host,")],
                         ["host,web_01_prod,5,0", "host,web_01_prod_2,5,0", "host,web_01_prod_3,5,0"])
        wanted = ("warning: the hosts 'Web-01.prod' and 'web-01.prod' and 'WEB-01.prod' differ in the case of letters alone, and are kept "
                  "apart as web_01_prod and web_01_prod_2 and web_01_prod_3: --same-name takes them as one\n")
        self.assertIn(wanted, notes)
        self.assertEqual(said, f"ask: {wanted}")

    def test_hosts_are_one_where_the_words_say_so(self):
        log, notes, said = self.made(self.HOSTS, "--skew", "web-01.prod=5", "--same-name")
        self.assertEqual((log, said), (HEAD + "host,web_01_prod,5,0\nnote,web_01_prod,1,x\nnote,web_01_prod,2,x\nnote,web_01_prod,3,x\n", ""))
        self.assertIn("host: 'WEB-01.prod' is taken as 'Web-01.prod'\n", notes)
        for spelling in ("Web-01.prod", "WEB-01.prod"):
            self.assertEqual(self.made(self.HOSTS, "--skew", f"{spelling}=5", "--same-name")[0], log)
        self.refused(self.HOSTS, ["--skew", "wEb-01.prod=5", "--same-name"], 64, "no host wEb-01.prod")

    def test_joined_keys_of_which_two_would_be_one(self):
        text = event(1, part="b_c") + event(2, "a_b", part="c")
        said = "l, line 2: joined with _, 'a', 'b_c' and 'a_b', 'c' are both 'a_b_c', and would be one under host, part"
        self.refused(text, ["--host", "host,part", "--skew", "5"], 66, said)
        self.refused(text, ["--machine", "host,part", "--skew", "5"], 66, said)
        self.assertEqual(self.made(text.replace('"c"', '"d"'), "--host", "host,part", "--skew", "5")[0].count("host,"), 3)

    def test_machines_are_one_where_the_words_say_so(self):
        log, _, said = self.made(self.HOSTS, "--skew", "5", "--clock-error", "1", "--same-name")
        self.assertEqual(([line for line in log.splitlines() if line.startswith("clock,")], said), (["clock,web_01_prod,1,web_01_prod"], ""))

    def test_names_of_rows(self):
        text = HEAD + "host,a,1,0\nhost,b,1,0\nset,a,1,Done\nset,b,2,done\nsend,a,3,M\nrecv,b,5,m\n"
        log, notes, said = self.made(text)
        self.assertIn("set,a,1,done_2\nset,b,2,done\n", log)
        self.assertIn("note,b,5,m\n", log)
        for names in ("'Done' and 'done' differ in the case of letters alone, and are kept apart as done_2 and done", "'M' and 'm'"):
            self.assertIn(f"the names {names}", notes)
            self.assertIn(f"the names {names}", said)
        log, notes, said = self.made(text, "--same-name")
        self.assertTrue(log.endswith("set,a,1,done\nset,b,2,done\nsend,a,3,m\nrecv,b,5,m\n"))
        self.assertEqual(said, "")
        self.assertIn("name: 'Done' is taken as 'done'\n", notes)

    def test_a_name_of_the_log_stands_for_the_others(self):
        log = self.made(event(1, "A", "GO") + event(2, "a", "go"), "--skew", "1", "--same-name")[0]
        self.assertEqual(log, HEAD + "host,a,1,0\nnote,a,1,go\nnote,a,2,go\n")

    def test_fields_of_which_letters_were_cut(self):
        text = event(1, id="order-1") + event(2, id="order-2") + event(3, id="other")
        for pattern, count in (("r_{id:.5}", 1), ("r_{id:.7}", 0), ("r_{id}", 0), ("r_{id:.1}", 1)):
            _, notes, said = self.made(text, "--skew", "1", "--row", f"x=pulse:{pattern}")
            self.assertEqual(said.count("so that rows of both have one name"), count, said)
            self.assertEqual(notes.count("is the same for 'order-1' and 'order-2'"), count, notes)

    def test_declarations_of_one_host_have_to_agree(self):
        text = HEAD + "host,A,1,0\nhost,a,2,0\nset,A,1,p\nset,a,2,p\n"
        self.refused(text, ["--same-name"], 66, "another skew or gap")
        self.assertEqual(self.made(text.replace(",2,0", ",1,0"), "--same-name")[0], HEAD + "host,a,1,0\nset,a,1,p\nset,a,2,p\n")

    def test_names_that_differ_otherwise_are_no_matter(self):
        self.assertEqual(self.made(event(1, "a-b") + event(2, "a_b"), "--skew", "1")[2], "")


class CutDigits(Made):
    LATE = event("10.0000", name="go", kind="pulse") + event("10.2508", name="done", kind="pulse")

    def test_a_deadline_that_was_missed_by_less_than_a_unit(self):
        log, notes, _ = self.made(self.LATE, "--unit", "ms", "--skew", "0")
        self.assertEqual(self.skews(log), [1, 1])
        self.assertIn("digits below a unit are cut off in 1 stamp of a: each skew of it is 1 unit greater for that\n", notes)
        Path(self.room, "made").write_text(log)
        for most, status in (("250", 2), ("252", 0)):
            self.assertEqual(asked(["check", f"G (a.go -> F[0,{most}] a.done)", "made"], self.room)[0], status)

    def test_only_hosts_whose_stamps_lost_digits(self):
        text = event("10.5") + event("10.5001", "b") + event("10.600", "b") + event("11", "c")
        log, notes, _ = self.made(text, "--unit", "ms", "--skew", "5ms")
        self.assertEqual(self.skews(log), [5, 6, 6, 5])
        self.assertEqual(notes.count("digits"), 1)
        self.assertEqual(self.skews(self.made(text, "--skew", "5us")[0]), [5] * 4)  # in microseconds, which keep all digits

    def test_stamps_in_whole_units_lose_none(self):
        log, notes, _ = self.made(event(10) + event(11), "--unit", "s", "--skew", "5")
        self.assertEqual((self.skews(log), "digits" in notes), ([5, 5], False))

    def test_moments_before_1970_are_rounded_down(self):
        log, _, _ = self.made(event("-0.0005"), "--unit", "ms", "--skew", "0")
        self.assertEqual(log, HEAD + "host,a,1,0\nnote,a,-1,x\n")

    def test_resyncs_and_latencies(self):
        text = SECOND + "host,a,0.005,0.0015\nhost,b,0.001,0\nlatency,b,0.0015,0.0025\nsend,a,1.0001,m\nresync,a,0.002,0\nset,a,2.5,q\nrecv,b,1.002,m\n"
        log = self.made(text, "--unit", "ms")[0]
        # Skews are 1 greater, resyncs too; a gap is rounded down, and a latency to both sides.
        self.assertEqual(log, SECOND + "host,a,6,1\nhost,b,1,0\nlatency,b,1,3\nsend,a,1000,m\nresync,a,3,0\nset,a,2500,q\nrecv,b,1002,m\n")

    def test_steps_and_tracking(self):
        text = "".join(event(f"2023-11-14T22:13:{second}Z") for second in ("20.00051", "27.5", "29.5", "40"))
        words = ["--unit", "ms", "--skew", "2"]
        self.assertEqual(self.skews(self.made(text, *words, "--step", "2023-11-14T22:13:28Z,40ms")[0]), [43, 43, 3, 3])
        form = "2023-11-14 22:13:{} 192.0.2.7 3 3.917 0.079 -3.121e-02 N  1 1.902e-04 -3.018e-02 1.611e-03 4.002e-04 {}\n"
        Path(self.room, "t").write_text("".join(form.format(*part) for part in (("10", "1e-3"), ("25", "3.168e-02"), ("45", "1.0e-03"))))
        self.assertEqual(self.skews(self.made(text, *words, "--tracking", "t")[0]), [35, 4, 4, 4])

    def test_windows_of_one_file_agree(self):
        text = event("10.0001", id="r1") + event("11", id="r2")
        for id_ in ("r1", "r2"):
            self.assertIn("host,a,6,0\n", self.made(text, "--unit", "ms", "--skew", "5", "--only", id_)[0])


class Limits(Made):
    TEXT = SECOND + "host,a,34,1\nhost,b,3,1\nset,a,10,p\nset,b,10,p\nresync,a,4,1\nset,a,20,q\n"

    def test_a_skew_in_the_words_wins(self):
        log, notes, said = self.made(self.TEXT, "--skew", "7")
        self.assertEqual(log, HEAD + "host,a,7,1\nhost,b,7,1\nset,a,10,p\nset,b,10,p\nset,a,20,q\n")
        wanted = "warning: --skew: the skew of a is 7, and l, line 2 says 34: fewer timings are admissible than by that file\n"
        self.assertEqual(said, f"ask: {wanted}")
        self.assertIn(wanted, notes)

    def test_of_one_host(self):
        log, _, said = self.made(self.TEXT, "--skew", "b=2")
        self.assertEqual((self.skews(log), said.count("warning")), ([34, 2, 4], 1))
        log, _, said = self.made(self.TEXT, "--skew", "40", "--skew", "b=3")
        self.assertEqual((self.skews(log), said), ([40, 3, 40], ""))

    def test_a_resync_that_says_more(self):
        text = SECOND + "host,a,3,0\nset,a,10,p\nresync,a,9,0\nset,a,20,q\n"
        log, _, said = self.made(text, "--skew", "5")
        self.assertEqual(self.skews(log), [5, 5])
        self.assertIn("the skew of a is 5, and l, line 4 says 9", said)

    def test_gaps_and_latencies(self):
        text = SECOND + "host,a,3,2\nhost,b,3,2\nlatency,b,5,9\nsend,a,10,m\nrecv,b,17,m\n"
        for words, told in (
            (["--gap", "1"], ""), (["--gap", "3"], "the gap of a is 3, and l, line 2 says 2"), (["--latency", "b=4,9"], ""),
            (["--latency", "5,inf"], ""), (["--latency", "b=6,9"], "messages to b take 6 to 9, and l, line 4 says 5 to 9"),
            (["--latency", "5,8"], "messages to b take 5 to 8"),
        ):
            said = self.made(text, *words)[2]
            self.assertEqual((bool(said), told in said), (bool(told), True), words)
        self.assertIn("latency,b,5,8\n", self.made(text, "--latency", "5,8")[0])

    def test_as_json(self):
        Path(self.room, "l").write_text(self.TEXT)
        _, text, said = asked(["log", "l", "--skew", "7", "--json"], self.room)
        self.assertEqual((len(json.loads(text)["warnings"]), said), (1, ""))


class Rows(Made):
    TEXT = event(1, name="received") + event(2, name="done")

    def test_an_event_that_no_file_has(self):
        log, notes, said = self.made(self.TEXT, "--skew", "1", "--row", "recieved=set:works", "--row", "done=clear:works")
        self.assertEqual(log, HEAD + "host,a,1,0\nnote,a,1,received\nclear,a,2,works\n")
        wanted = "warning: --row recieved: no event of the files has this name. They have: received, done\n"
        self.assertEqual((said, wanted in notes), (f"ask: {wanted}", True))

    def test_an_event_of_the_second_file_alone(self):
        Path(self.room, "more").write_text(event(5, name="lost"))
        self.assertEqual(self.made(self.TEXT, "more", "--skew", "1", "--row", "lost=set:off")[2], "")

    def test_events_of_access_lines(self):
        words = ["--access", "$msec", "--skew", "1", "--row", "begin=set:asked", "--row", "end=note:done"]
        self.assertIn("--row begin: no event of the files has this name. They have: end", self.made("10.5\n", *words)[2])
        self.assertEqual(self.made("10.5 2\n", *words[:1], "$msec $request_time", *words[2:])[2], "")

    def test_words_that_are_refused(self):
        for words, part in (
            (["--row", "=set:x"], "it names no event"), (["--row", "done=set:x", "--row", "done=clear:x"], "done has a --row already"),
            (["--row", "done=set:x", "--row", "done=set:x"], "all rows of an event stand in one"), (["--row", "done"], "EVENT=KIND:NAME"),
        ):
            self.refused(self.TEXT, ["--skew", "1", *words], 64, part)

    def test_words_that_contradict_each_other(self):
        for option, one, other, part in (
            ("--skew", "5", "3", "--skew 3: --skew says 5 of all hosts already"), ("--skew", "a=5ms", "a=6ms", "--skew a=6ms: --skew says 5ms of a already"),
            ("--gap", "1", "2", "--gap says 1"), ("--latency", "a=1,5", "a=1,6", "--latency says 1,5 of a"), ("--clock-error", "1", "2", "--clock-error says 1"),
        ):
            words = ["--unit", "ms", *["--skew", "9"] * (option != "--skew")]
            self.refused(self.TEXT, [*words, option, one, option, other], 64, part)
            self.assertEqual(self.made(self.TEXT, *words, option, one, option, one)[0], self.made(self.TEXT, *words, option, one)[0])
        self.assertEqual(self.skews(self.made(self.TEXT, "--unit", "ms", "--skew", "5ms", "--skew", "5", "--skew", "a=3")[0]), [3, 3])


class Parts(Made):
    TEXT = SECOND + "host,a,5,1\nhost,b,7,2\nlatency,b,3,8\nset,a,10,p\n"

    def test_hosts_without_rows_stay_in_a_part(self):
        self.assertEqual(self.made(self.TEXT, "--part")[0], SECOND + "host,a,5,1\nhost,b,7,2\nlatency,b,3,8\nset,a,10,p\n")
        self.assertEqual(self.made(self.TEXT, "--part", "--skew", "b=9")[0].splitlines()[2], "host,b,9,2")
        self.assertEqual(self.made(self.TEXT, "--part", "--from", "50", "--to", "60")[0].splitlines()[1:3], ["host,a,5,1", "host,b,7,2"])
        log, notes, _ = self.made(self.TEXT)
        self.assertEqual(log, HEAD + "host,a,5,1\nset,a,10,p\n")
        self.assertIn("left out, since no row is of them: the hosts b\n", notes)

    def test_a_part_without_any_row(self):
        text = HEAD + "host,b,7,2\n"
        for words in ([], ["--unit", "ms"]):
            self.assertEqual(self.made(text, "--part", *words)[0], text)

    def test_parts_are_joined(self):
        Path(self.room, "part").write_text(self.made(self.TEXT, "--part")[0])
        Path(self.room, "rows").write_text(HEAD + "host,b,7,2\nset,b,20,q\n")
        Path(self.room, "other").write_text(HEAD + "host,b,9,2\nset,b,20,q\n")
        ended, log, said = asked(["log", "part", "rows"], self.room)
        self.assertEqual((ended, log), (0, SECOND + "host,a,5,1\nhost,b,7,2\nlatency,b,3,8\nset,a,10,p\nset,b,20,q\n"), said)
        # A part that has no row of b says nothing of its rows in another file.
        self.assertIn("\nhost,b,9,2\n", asked(["log", "part", "other"], self.room)[1])
        self.assertIn("\nhost,b,9,2\n", asked(["log", "other", "part"], self.room)[1])
        self.assertEqual(asked(["log", "rows", "other"], self.room)[0], 66)


class Stamps(Made):
    def test_the_basic_form(self):
        for text, moment in (
            ("20240305T120000Z", 1709640000), ("20240305T120000+0100", 1709636400), ("20240305T120000-0130", 1709645400), ("20240305t1200z", 1709640000),
            ("20240305T120000", 1709640000), ("20240305T120000+01", 1709636400), ("2024-03-05 12:00:00+01", 1709636400),
        ):
            self.assertEqual(self.made(event(text), "--skew", "1")[0], f"{HEAD}host,a,1,0\nnote,a,{moment},x\n", text)
        for text, moment in (("20240305T120000.25Z", 1709640000250), ("20240305T120000,250+0100", 1709636400250)):
            self.assertEqual(self.made(event(text), "--skew", "1")[0], f"{HEAD}host,a,1,0\nnote,a,{moment},x\n", text)
        self.assertEqual(self.made(event("20240305"), "--skew", "1")[0], f"{HEAD}host,a,1,0\nnote,a,20240305,x\n")  # a whole number

    def test_zones_and_days_that_there_are_not(self):
        for text, part in (
            ("2024-03-05T12:00:00+99:00", "has the zone +99:00, which there isn't"), ("20240305T120000+9900", "the zone +9900"),
            ("2024-03-05T12:00:00-24:00", "the zone -24:00"), ("2024-03-05T12:00:00+01:60", "the zone +01:60"), ("2024-02-30T12:00:00Z", "a day that there isn't"),
            ("20241305T120000Z", "a day"), ("20240305T250000Z", "a time of day"), ("2024-03-05T12:61:00Z", "a time of day"), ("20240305T12Z", "no ISO 8601 time"),
        ):
            self.refused(event(text), ["--skew", "1"], 66, part)
        self.assertEqual(self.made(event("2024-03-05T12:00:00+14:00"), "--skew", "1")[0], f"{HEAD}host,a,1,0\nnote,a,1709589600,x\n")


class Twice(Made):
    """A key, or a column, that stands twice is refused where it is asked for and has different values."""

    ONE = '{"time": 1, "host": "a", "name": "x", "request": "q", "request": "r"}\n'

    def test_a_key_that_is_asked_for(self):
        for words in (["--id", "request"], ["--row", "x=pulse:r{request}"], ["--row", "x=pulse:r{request:.3}"], ["--kind", "request"], ["--duration", "request"],
                      ["--host", "request"], ["--host", "host,request"], ["--machine", "request"]):
            self.refused(self.ONE, ["--skew", "5", *words], 66, "l, line 1: 'request' stands there 2 times, as \"q\" and as \"r\": which is meant?")
        self.refused('[{"time": 1, "host": "a", "name": "x", "time": 2}]', ["--skew", "5"], 66, "l, item 1: 'time' stands there 2 times")
        self.refused('{"time": 1, "time": 1, "time": 2, "host": "a", "name": "x"}', ["--skew", "5"], 66, "stands there 3 times, as \"1\" and as \"2\"")

    def test_a_key_within_another_one(self):
        self.refused('{"time": 1, "host": {"a": "x"}, "host.a": "y", "name": "x"}', ["--skew", "5", "--host", "host.a"], 66, "'host.a' stands there 2 times")
        self.refused('{"time": 1, "host": {"a": "x", "a": 5}, "name": "x"}', ["--skew", "5", "--host", "host.a"], 66, "as \"x\" and as \"5\"")

    def test_columns_of_one_name(self):
        self.refused("time,host,name,host\n1,a,x,b\n", ["--skew", "5"], 66, "l, line 2: 'host' stands there 2 times, as \"a\" and as \"b\"")

    def test_what_is_not_asked_for_or_is_the_same(self):
        log = f"{HEAD}host,a,5,0\nnote,a,1,x\n"
        for text in (self.ONE, self.ONE.replace('"r"', '"q"'), "time,host,name,more,more\n1,a,x,5,6\n", "time,host,name,host\n1,a,x,a\n"):
            self.assertEqual(self.made(text, "--skew", "5")[0], log)
        self.assertEqual(self.made(self.ONE.replace('"r"', '"q"'), "--skew", "5", "--row", "x=note:{request}")[0], log.replace(",x", ",q"))


class Kinds(Made):
    def test_a_log_has_kinds_whatever_the_key_is_called(self):
        for head in (HEAD, SECOND):
            Path(self.room, "more").write_text(event(20, "b", "y", level="set"))
            rows = "host,a,5,1\nset,a,10,p\n"
            log, _, _ = self.made(head + rows, "more", "--kind", "level", "--skew", "b=2")
            self.assertEqual(log, f"{HEAD}host,a,5,1\nhost,b,2,0\nset,a,10,p\nset,b,20,y\n")


class Bytes(Made):
    def test_names_that_are_no_text_are_kept_apart(self):
        rows = [b'{"time": 1, "host": "h%b", "name": "x"}' % end for end in (b"\xff", b"\xfe")]
        for data in (b"\n".join(rows), b"[%b]" % b",".join(rows)):
            Path(self.room, "b").write_bytes(data)
            status, log, said = asked(["log", "b", "--skew", "5"], self.room)
            self.assertEqual((status, log), (0, f"{HEAD}host,h_,5,0\nhost,h__2,5,0\nnote,h_,1,x\nnote,h__2,1,x\n"), said)


class Reported(Made):
    EVENTS = event("2023-11-14T22:13:20Z") + event("2023-11-14T22:13:30.5Z", "b")

    def tracked(self, report, *words, status=0):
        Path(self.room, "t").write_text(report)
        return self.made(self.EVENTS, "--skew", "2", "--unit", "us", *words, status=status)

    def test_the_error_of_a_report(self):
        # 211.304 + 3222.004 / 2 + 400.212 microseconds are 2222.518, and 2223 whole ones.
        log, notes, _ = self.tracked(CHRONYC, "--tracking", "t")
        self.assertEqual(self.skews(log), [2225, 2225])
        self.assertIn("off by up to 2223 at the moment of this report, whose reference time is Tue Nov 14 22:13:28 2023: rows of other moments may be off by more", notes)
        self.assertEqual(self.skews(self.tracked(CHRONYC, "--tracking", "b=t")[0]), [2, 2225])
        self.assertEqual(self.skews(self.tracked(CHRONYC.replace("slow of", "fast of"), "--tracking", "t")[0]), [2225, 2225])
        self.assertEqual(self.skews(self.tracked(CHRONYC.replace(": 0.000211304", ": -0.000211304"), "--tracking", "t")[0]), [2225, 2225])

    def test_the_greatest_of_several_reports(self):
        Path(self.room, "u").write_text(CHRONYC.replace("0.000211304", "1.000211304"))
        self.assertEqual(self.skews(self.tracked(CHRONYC, "--tracking", "t", "--tracking", "u")[0]), [1002225] * 2)

    def test_reports_that_are_none(self):
        for report, part in (
            (CHRONYC.replace("Normal", "Not synchronised"), "isn't synchronised"), (CHRONYC.replace("0.003222004", "x"), "Root delay is 'x seconds'"),
            (CHRONYC.replace("Root delay", "Root"), "is no tracking log of chrony"), ("Skew            : 0.079 ppm\n", "nothing that `chronyc tracking` wrote"),
        ):
            self.assertIn(part, self.tracked(report, "--tracking", "t", status=66)[2])


if __name__ == "__main__":
    unittest.main()
