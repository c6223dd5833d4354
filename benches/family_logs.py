"""The logs of the families that `check.py` times, each of any number of rows, and formulas that go by that number.

A log has whole groups of rows, such as a request and what follows it, and then
notes up to the number of rows, so that nothing is left open at its end. Times
are in milliseconds.
"""

import sys
from pathlib import Path

sys.dont_write_bytecode = True  # leaves no compiled files beside the sources

sys.path.insert(0, str(Path(__file__).resolve().parent.parent / "tests" / "reference"))

import logs

SKEW = 5  # how far a clock may be off where a family says nothing else
QUIET = 10_000_000  # when the notes begin, long after all else
ROWS_OF_CHAIN = 2 * logs.HOST_LIMIT  # each host of a chain has two
VERSIONS = {1: "kind", 2: "skewlog2", 3: "skewlog3"}  # the first word of a log's header
NO_ROWS = ("resync", "latency", "clock", "bound")


# Logs of groups


def log_of(skews, group, rows, version=1):
    """The text of a log of hosts with these skews, in which as many groups follow one another as there is room for."""
    lines = [line for turn in range(rows // row_count(group(0))) for line in group(turn)]
    return text_of(skews, lines + notes(skews, rows - row_count(lines)), version=version)


def notes(skews, count):
    """So many notes, of the first host, long after all else."""
    host = next(iter(skews))
    return [f"note,{host},{QUIET + 10 * note},quiet" for note in range(count)]


def row_count(lines):
    """How many of the lines are rows."""
    return sum(line.split(",")[0] not in NO_ROWS for line in lines)


def text_of(skews, lines, gap=1, version=1):
    """The text of a log of hosts with these skews, in which two rows of a host are so far apart."""
    hosts = [f"host,{name},{skew},{gap}" for name, skew in skews.items()]
    return "".join(line + "\n" for line in [f"{VERSIONS[version]},host,time,name", *hosts, *lines])


def rows_at(start, text):
    """The rows of a text, each written `act host time name`, whose times count from the start."""
    words = (row.split() for row in text.split(";"))
    return [f"{act},{host},{start + int(time)},{name}" for act, host, time, name in words]


def even(names):
    """Hosts whose clocks are equally good."""
    return dict.fromkeys(names, SKEW)


def numbered(count):
    """The names of so many hosts."""
    return [f"h{host}" for host in range(count)]


# Requests, and what follows them


def chain(rows):
    """A request that is handed from host to host, and the answer of the last one."""
    hosts = rows // 2
    lines = ["set,h0,0,asked"]
    for host in range(1, hosts):
        lines += rows_at(20 * host, f"send h{host - 1} -10 m{host}; recv h{host} 0 m{host}")
    lines += [f"set,h{hosts - 1},{20 * hosts - 10},done"]
    return text_of(even(numbered(hosts)), lines)


def in_time(less):
    """The last host answers within the longest time that a chain allows, or by so much less."""

    def formula(rows):
        longest = 10 * rows - 10 + 2 * SKEW
        return f"G (h0.asked -> F[0,{longest - less}] h{rows // 2 - 1}.done)"

    return formula


def requests(rows):
    """Requests, each answered on another host."""

    def group(turn):
        return rows_at(80 * turn, "set a 0 req; clear a 20 req; set b 40 ack; clear b 60 ack")

    return log_of(even("ab"), group, rows)


def wide_requests(rows):
    """Requests, each answered on another host, by clocks that are off by five times the distance of the rows."""

    def group(turn):
        return rows_at(40 * turn, "set a 0 req; clear a 10 req; set b 20 ack; clear b 30 ack")

    return log_of(dict.fromkeys("ab", 50), group, rows)


def alarms(rows, skew=SKEW):
    """Alarms, each acknowledged on another host, but for each third one, which was cleared."""

    def group(turn):
        host, name = ("plant", "cleared") if turn % 3 == 2 else ("desk", "ack")
        raised = rows_at(100 * turn, "set plant 0 alarm; clear plant 10 alarm")
        return raised + rows_at(100 * turn, f"set {host} 30 {name}; clear {host} 60 {name}")

    return log_of(dict.fromkeys(("plant", "desk"), skew), group, rows)


def tight_alarms(rows):
    """The same by clocks that leave open whether an alarm is acknowledged before it is cleared."""
    return alarms(rows, 25)


def splits(rows):
    """Requests that a front splits over two workers, by a message to one of them."""

    def group(turn):
        asked = f"set front 0 asked; send front 10 m{turn}; recv left 20 m{turn}; clear front 30 asked"
        done = "set left 60 done; set right 70 done; clear left 100 done; clear right 110 done"
        return rows_at(200 * turn, asked) + rows_at(200 * turn, done)

    return log_of(even(("front", "left", "right")), group, rows)


def pipelines(rows):
    """Items that go through three stages by messages, of which some are under way at a time."""

    def group(turn):
        first = f"set s0 0 in; send s0 10 a{turn}; clear s0 20 in; recv s1 40 a{turn}; send s1 60 b{turn}"
        last = f"recv s2 80 b{turn}; set s2 90 out; clear s2 100 out"
        return rows_at(40 * turn, first) + rows_at(40 * turn, last)

    return log_of(even(("s0", "s1", "s2")), group, rows)


def wide_pipeline(rows):
    """Items that go through four stages by messages, whose clocks are off by ten times the distance of the rows."""

    def group(turn):
        steps = ["set s0 0 in"]
        for stage in range(3):
            name = f"m{turn}_{stage}"
            steps += [f"send s{stage} {20 * stage + 10} {name}", f"recv s{stage + 1} {20 * stage + 20} {name}"]
        steps += ["clear s0 70 in", "set s3 80 out", "clear s3 90 out"]
        return rows_at(100 * turn, ";".join(steps))

    return log_of(dict.fromkeys(("s0", "s1", "s2", "s3"), 100), group, rows)


def measured(rows):
    """Requests to a worker by messages that take from one to eight, of which each was measured to take 38 at most.

    The worker's clock is set again for every fourth one, and keeps its offset between.
    """

    def group(turn):
        asked = f"set front 0 asked; send front 5 m{turn}; recv worker 9 m{turn}; set worker 10 works"
        done = f"clear worker 30 works; send worker 31 n{turn}; recv front 36 n{turn}; clear front 37 asked"
        return [*set_again(turn), *rows_at(100 * turn, f"{asked}; {done}"), f"bound,{8 * turn + 7},{8 * turn},38"]

    def set_again(turn):
        skew = 20 if turn % 8 == 0 else 40
        return [] if turn % 4 else [f"resync,worker,{skew},1", f"clock,worker,1,c{turn}"]

    def first_group(turn):
        latencies = ["latency,front,1,8", "latency,worker,1,8"]
        return latencies + group(turn) if turn == 0 else group(turn)

    return log_of({"front": SKEW, "worker": 40}, first_group, rows, version=3)


def traces(rows):
    """Orders that a shop hands to one after another of nineteen workers, by a message to each."""

    def group(turn):
        worker = f"h{1 + turn % 19}"
        placed = f"pulse h0 0 placed; send h0 1 m{turn}; recv {worker} 6 m{turn}; pulse {worker} 8 shipped"
        return rows_at(20 * turn, f"{placed}; note h0 9 filed")

    return log_of(even(numbered(20)), group, rows, version=2)


def shipped_within(within):
    """Each order is shipped by one of the workers within so long."""
    shipped = " | ".join(f"{host}.shipped" for host in numbered(20)[1:])
    return f"G (h0.placed -> F[0,{within}] ({shipped}))"


# States, and who has them


def in_turns(*names):
    """Two hosts that set and clear something in turns, each twenty after the row before."""

    def group(turn):
        host, name = "ab"[turn % 2], names[turn % 2]
        return rows_at(40 * turn, f"set {host} 0 {name}; clear {host} 20 {name}")

    return lambda rows: log_of(even("ab"), group, rows)


def pulses(rows):
    """Two hosts that pulse at about the same time, again and again."""

    def group(turn):
        return rows_at(30 * turn, "set a 0 p; set b 1 p; clear a 10 p; clear b 11 p")

    return log_of(even("ab"), group, rows)


def sensors(rows):
    """A probe that is steady for a while, again and again, and an arm that moves meanwhile."""

    def group(turn):
        return rows_at(100 * turn, "set probe 0 steady; set arm 50 move; clear arm 60 move; clear probe 90 steady")

    return log_of(even(("probe", "arm")), group, rows)


def calibrations(rows):
    """A probe that is steady and is calibrated by then, again and again, and an arm that moves after that."""

    def group(turn):
        before = "set probe 0 steady; set desk 20 calibrates; clear desk 40 calibrates"
        after = "set arm 70 move; clear arm 80 move; clear probe 110 steady"
        return rows_at(200 * turn, before) + rows_at(200 * turn, after)

    return log_of(even(("probe", "desk", "arm")), group, rows)


def handovers(rows):
    """A token that goes round four hosts by messages, whose clocks are off by more than it takes on its way."""

    def group(turn):
        here, there = "abcd"[turn % 4], "abcd"[(turn + 1) % 4]
        return rows_at(
            50 * turn, f"clear {here} 0 token; send {here} 5 m{turn}; recv {there} 15 m{turn}; set {there} 20 token"
        )

    return log_of(dict.fromkeys("abcd", 30), group, rows)


def phases(rows):
    """Four hosts of which each begins its phase ten before the one before ends its own."""

    def group(turn):
        first = "set a 0 p; set b 30 p; clear a 40 p; set c 70 p; clear b 80 p"
        return rows_at(200 * turn, first + "; set d 110 p; clear c 120 p; clear d 150 p")

    return log_of(even("abcd"), group, rows)


def rounds(rows):
    """Three hosts that pulse in turn, each twenty after the one before."""

    def group(turn):
        return rows_at(100 * turn, "set a 0 p; clear a 10 p; set b 20 p; clear b 30 p; set c 40 p; clear c 50 p")

    return log_of(even("abc"), group, rows)


def crossings(rows):
    """A gate that warns, and is closed until a train has passed."""

    def group(turn):
        before = "set gate 0 warns; set gate 10 closed; clear gate 20 warns"
        after = "set train 50 passes; clear train 60 passes; clear gate 90 closed"
        return rows_at(200 * turn, before) + rows_at(200 * turn, after)

    return log_of(even(("gate", "train")), group, rows)


def elections(rows):
    """Five hosts that lead in turn: the next one asks the leader for its vote, which it gives when it leads no more."""

    def group(turn):
        leader, other = f"h{turn % 5}", f"h{(turn + 1) % 5}"
        beat = f"set {leader} 0 leads; send {leader} 30 beat{turn}; recv {other} 60 beat{turn}"
        vote = f"send {other} 690 asks{turn}; clear {leader} 700 leads; recv {leader} 720 asks{turn}"
        given = f"send {leader} 750 gives{turn}; recv {other} 770 gives{turn}"
        return rows_at(800 * turn, f"{beat}; {vote}; {given}")

    return log_of(dict.fromkeys(numbered(5), 60), group, rows)


def one_leader():
    """Of each two hosts one at most leads."""
    pairs = [f"!(h{one}.leads & h{other}.leads)" for one in range(5) for other in range(one)]
    return f"G ({' & '.join(pairs)})"


# Clocks, and what they leave open


def drifting(rows):
    """Eight hosts that pulse one after the other, each with a worse clock than the one before."""

    def group(turn):
        starts = [(host, 200 * turn + 20 * place) for place, host in enumerate(numbered(8))]
        return [line for host, start in starts for line in rows_at(start, f"set {host} 0 p; clear {host} 10 p")]

    skews = {host: 3 * (place + 1) for place, host in enumerate(numbered(8))}
    return log_of(skews, group, rows)


def bursts(rows):
    """Eight hosts that come up together and go down together, and then silence."""

    def group(turn):
        ups = [f"set,h{host},{1000 * turn + host},up" for host in range(8)]
        return ups + [f"clear,h{host},{1000 * turn + 10 + host},up" for host in range(8)]

    return log_of(even(numbered(8)), group, rows)


def all_down(within):
    """All hosts of a burst are down within so long."""
    up = " | ".join(f"{host}.up" for host in numbered(8))
    return f"G (h0.up -> F[0,{within}] !({up}))"


def tangled(rows):
    """Three hosts that pulse in turn, whose clocks are off by three times the distance of their rows."""

    def group(turn):
        return rows_at(60 * turn, "set a 0 p; set b 10 p; set c 20 p; clear a 30 p; clear b 40 p; clear c 50 p")

    return log_of(dict.fromkeys("abc", 30), group, rows)


def tangled_messages(rows):
    """Three hosts that pulse and tell the next one so, whose clocks are off by six times the distance of their rows."""

    def group(turn):
        first = f"set a 0 p; send a 5 m{turn}; clear a 10 p; recv b 10 m{turn}; set b 15 p"
        last = f"send b 20 n{turn}; clear b 25 p; recv c 25 n{turn}; set c 30 p; clear c 35 p"
        return rows_at(40 * turn, first) + rows_at(40 * turn, last)

    return log_of(dict.fromkeys("abc", 30), group, rows)


def jobs(rows):
    """Jobs that take ten, each on a host of its own, at times that the clocks leave open.

    From the earliest start to the last end there is a little less time than all of them need in a row.
    """
    hosts = numbered(rows // 2)
    lines = [line for host in hosts for line in rows_at(0, f"set {host} 0 runs; clear {host} 10 runs")]
    return text_of(dict.fromkeys(hosts, 5 * len(hosts) - 6), lines, gap=10)


def one_at_a_time(rows):
    """Of each two jobs either this one is first or that one."""
    hosts = numbered(rows // 2)
    pairs = [f"!({one}.runs & {other}.runs)" for place, one in enumerate(hosts) for other in hosts[:place]]
    return f"G ({' & '.join(pairs)})"


def wide_turns(rows):
    """Two hosts that pulse in turn, whose clocks are off by ten times the distance of their rows."""

    def group(turn):
        return rows_at(40 * turn, "set a 0 p; set b 10 q; clear a 20 p; clear b 30 q")

    return log_of(dict.fromkeys("ab", 100), group, rows)


def flickers(rows):
    """A host that clears and sets, and is set at last, and notes of another one between, by clocks off by five rows."""

    def line(row):
        if row % 2:
            return f"note,b,{10 * row},seen"
        act = "clear" if (rows - 1 - row) // 2 % 2 else "set"
        return f"{act},a,{10 * row},p"

    return text_of(dict.fromkeys("ab", 50), [line(row) for row in range(rows)])


# Pulses


def many_pulses(rows):
    """Two hosts that pulse at about the same time, again and again, at an instant each."""

    def group(turn):
        return rows_at(30 * turn, "pulse a 0 p; pulse b 1 p")

    return log_of(even("ab"), group, rows, version=2)


def heartbeats(count):
    """So many hosts that beat every ten, by clocks off by four, and are armed after their first beats."""

    def log(rows):
        hosts = numbered(count)
        lines = [line for host in hosts for line in rows_at(0, f"pulse {host} 0 beat; set {host} 5 armed")]
        turns = (rows - len(lines)) // count
        lines += [f"pulse,{host},{10 * turn},beat" for turn in range(1, turns + 1) for host in hosts]
        skews = dict.fromkeys(hosts, 4)
        return text_of(skews, lines + notes(skews, rows - len(lines)), version=2)

    return log


def never_late(count):
    """Each beat of an armed host comes at most nine after one before."""
    return " & ".join(f"G (({host}.beat & {host}.armed) -> O[1,9] {host}.beat)" for host in numbered(count))


def watched(rows):
    """Sixteen hosts that beat every hundred, and one that looks at them as often."""

    def group(turn):
        beats = [f"pulse,h{host},{100 * turn + 5 * host},beat" for host in range(16)]
        return [*beats, f"pulse,watch,{100 * turn + 90},looks"]

    return log_of(even(("watch", *numbered(16))), group, rows, version=2)


def all_beat(within):
    """Whenever the watch looks, each host has beaten within so long."""
    beats = " & ".join(f"O[0,{within}] {host}.beat" for host in numbered(16))
    return f"G (watch.looks -> {beats})"
