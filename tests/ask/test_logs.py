"""The companion's reader of logs, held against tests/reference on generated logs, and on logs of version 2."""

import random
import unittest

import common  # sets the path
import clock_logs
import generate
import logs as reference_logs
import reference

from ask import logs

CASES = 500


def reference_answer(data):
    """What the reference reads: a fault, or hosts and rows."""
    log = reference_logs.read_log(data)
    if isinstance(log, reference_logs.LogFault):
        return log.number, log.record
    rows = [(row.host, row.local, row.act.decode(), row.name.decode()) for row in log.rows]
    return [(host.name.decode(), host.skew, host.gap) for host in log.hosts], rows


def answer(data):
    """What the companion reads, in the same form."""
    log = logs.read_log(data)
    if isinstance(log, logs.Fault):
        return log.number, log.record
    rows = [(row.host, row.stamp, row.kind, row.name) for row in log.rows]
    return [(host.name, host.skew, host.gap) for host in log.hosts], rows


def generated():
    """Logs by chance, of which a share is broken."""
    draw = random.Random(38)
    for place in range(CASES):
        log = generate.crowded_log(draw) if place % 50 == 49 else generate.some_log(draw)
        data = generate.log_file(draw, log, 0.5)
        if getattr(reference_logs, "PULSES", True) or b"pulse" not in data:  # the reference may not read pulses yet
            yield draw, log, data


class AgainstReference(unittest.TestCase):
    def test_logs_and_faults(self):
        for _, _, data in generated():
            with self.subTest(data=data[:400]):
                self.assertEqual(answer(data), reference_answer(data))

    def test_bounds(self):
        for _, _, data in generated():
            read, other = logs.read_log(data), reference_logs.read_log(data)
            if isinstance(read, logs.Fault) or len(read.rows) > 20:
                continue
            found = {(kind, number): bound for kind, number, bound in clock_logs.all_bounds(read)}
            expected = {(bound.kind.decode(), bound.event): (bound.start, bound.end, bound.most) for bound in reference.bounds(other)}
            self.assertEqual({key: tuple(bound) for key, bound in found.items()}, expected)

    def test_states(self):
        for draw, _, data in generated():
            read, other = logs.read_log(data), reference_logs.read_log(data)
            if isinstance(read, logs.Fault) or len(read.rows) > 20:
                continue
            times = [row.stamp + draw.randint(-3, 3) for row in read.rows]
            for moment in set(times):
                for row in read.rows:
                    found = logs.state_at(read, times, moment, row.host, row.name)
                    self.assertEqual(found, reference.state(other, times, moment, other.hosts[row.host].name, row.name.encode()))


class Places(unittest.TestCase):
    def test_lines_as_an_editor_counts_them(self):
        data = b"\xef\xbb\xbf\r\nkind,host,time,name\r\n\r\nhost,a,1,0\n\rset,a,10,p\rset,a,11,\"q\"\n"
        self.assertEqual([record.line for record in logs.records_of(data)], [2, 4, 6, 7])
        self.assertEqual([row.line for row in logs.read_log(data).rows], [6, 7])


class SecondVersion(unittest.TestCase):
    HEAD = b"skewlog2,host,time,name\nhost,a,5,1\nhost,b,5,1\n"

    def read(self, text):
        return logs.read_log(self.HEAD + text)

    def test_resync_holds_from_its_place_on(self):
        log = self.read(b"set,a,10,p\nresync,a,2,3\nset,a,20,q\nnote,b,21,n\n")
        self.assertEqual([(row.skew, row.gap) for row in log.rows], [(5, 1), (2, 3), (5, 1)])
        self.assertEqual(logs.bound_of(log, "high", 1), (1, None, 22))
        self.assertEqual(logs.bound_of(log, "rise", 1), (0, 1, -3))

    def test_latency_bounds_messages(self):
        log = self.read(b"send,a,10,m\nlatency,b,3,8\nrecv,b,20,m\n")
        self.assertEqual(logs.bound_of(log, "message", 1), (0, 1, -3))
        self.assertEqual(logs.bound_of(log, "late", 1), (1, 0, 8))

    def test_latency_without_greatest(self):
        log = self.read(b"send,a,10,m\nlatency,b,3,inf\nrecv,b,20,m\n")
        self.assertIsNone(logs.bound_of(log, "late", 1))

    def test_pulse_is_true_at_its_instant_alone(self):
        log = self.read(b"pulse,a,10,p\nnote,a,12,n\n")
        self.assertEqual([logs.state_at(log, [10, 12], moment, 0, "p") for moment in (10, 12)], [True, False])

    def test_faults(self):
        for text, number in (
            (b"resync,c,1,1\n", 6), (b"resync,a,x,1\n", 7), (b"latency,c,1,1\n", 6), (b"latency,a,0,1\n", 7),
            (b"latency,a,1,1\nlatency,a,1,1\n", 15), (b"latency,a,3,2\n", 16), (b"pulse,a,1,P\n", 8), (b"put,a,1,p\n", 3),
        ):
            self.assertEqual(self.read(text).number, number, text)

    def test_first_version_refuses_its_kinds(self):
        self.assertEqual(logs.read_log(b"kind,host,time,name\nhost,a,5,1\npulse,a,10,p\n"), (3, 3))


if __name__ == "__main__":
    unittest.main()
