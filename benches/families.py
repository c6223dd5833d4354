"""Families of logs that `check.py` times, with what is asked of them, what is to be found, and the goals of `check`.

The logs are made by `family_logs.py`.
"""

import sys
from typing import Callable, NamedTuple

sys.dont_write_bytecode = True  # leaves no compiled files beside the sources

import family_logs as made

ALL_ROWS = made.logs.ROW_LIMIT


class Goal(NamedTuple):
    """What `check` is to take at most on a log of so many rows."""

    rows: int
    seconds: float  # of processor time
    memory: float | None = None  # in MiB


class Family(NamedTuple):
    title: str
    log: Callable  # the text of the log of so many rows
    formula: Callable  # and of the formula that is asked of it
    goals: tuple = ()
    least: int = 4  # rows
    most: int = ALL_ROWS

    def goal(self, rows):
        """The goal for a log of so many rows, or nothing."""
        return next((goal for goal in self.goals if goal.rows == rows), None)


def always(text):
    """One formula for any number of rows."""
    return lambda rows: text


# Goals

QUICK = (Goal(ALL_ROWS, 0.3, 150),)
MODERATE = (Goal(ALL_ROWS, 1.5),)
MANY = (Goal(300, 2), Goal(ALL_ROWS, 2))
SOME_BEATS = (Goal(220, 0.1),)
BEATS = (*SOME_BEATS, Goal(ALL_ROWS, 1))
PARTS = (Goal(256, 0.15),)

# Formulas

NEVER_TWO = "G !(a.token & b.token | c.token & (a.token | b.token) | d.token & (a.token | b.token | c.token))"
NEAR_BOTH_WAYS = "(G (a.p -> F[0,30] b.p) & G (b.p -> F[0,30] c.p)) & (G (b.p -> O[0,30] a.p) & G (c.p -> O[0,30] b.p))"

# The families, each with what is to be found of it.
FAMILIES = (
    # it always does: that it doesn't is to be refuted
    Family("request and response", made.chain, made.in_time(0), most=made.ROWS_OF_CHAIN),
    # either is possible
    Family("the same, by less", made.chain, made.in_time(1), most=made.ROWS_OF_CHAIN),
    # each is answered in time: that one isn't is to be refuted
    Family("requests", made.requests, always("G (a.req -> F[0,50] b.ack)"), QUICK),
    # either is possible
    Family("wide responses", made.wide_requests, always("G (a.req -> F[0,120] b.ack)")),
    # they are never held at once: that they are is to be refuted
    Family("leases", made.in_turns("holds", "holds"), always("G !(a.holds & b.holds)"), QUICK),
    # whatever is paid was seen before, in time: that it wasn't is to be refuted
    Family("audits", made.in_turns("seen", "paid"), always("G (b.paid -> O[0,70] a.seen)"), QUICK),
    # either is possible
    Family("pulses", made.pulses, always("F (a.p & b.p)"), MANY),
    # either is possible
    Family("many pulses", made.many_pulses, always("F (a.p & b.p)"), MANY),
    # each alarm is followed by an acknowledgement, unless it was cleared: that one isn't is to be refuted
    Family("alarms", made.alarms, always("G (plant.alarm -> F[0,40] desk.ack | F[0,40] plant.cleared)"), QUICK),
    # the same
    Family(
        "alarms at their limit",
        made.tight_alarms,
        always("G (plant.alarm -> F[0,80] desk.ack | F[0,80] plant.cleared)"),
    ),
    # both workers answer in time: that one doesn't is to be refuted
    Family("splits", made.splits, always("G (front.asked -> F[0,80] left.done & F[0,80] right.done)"), QUICK),
    # a worker works while the front asks, which ends in time: that it doesn't is to be refuted
    Family("measured", made.measured, always("G (worker.works -> front.asked & F[0,35] !front.asked)"), least=8),
    # each order is shipped in time: that one isn't is to be refuted
    Family("traces", made.traces, always(made.shipped_within(18)), least=5),
    # the probe has been steady for so long before each move: that it hasn't is to be refuted
    Family("sensors", made.sensors, always("G (arm.move -> H[0,49] probe.steady)"), MODERATE),
    # and it has been so since it was calibrated: that it hasn't is to be refuted
    Family(
        "calibrations",
        made.calibrations,
        always("G (arm.move -> probe.steady S[20,60] desk.calibrates)"),
        MODERATE,
        least=6,
    ),
    # a gate has been closed since it warned, long enough: that it hasn't is to be refuted
    Family("crossings", made.crossings, always("G (train.passes -> gate.closed S[40,60] gate.warns)"), PARTS, least=6),
    # the last host pulses in time after the middle one, and that one after the first: that it doesn't is to be refuted
    Family("drifting clocks", made.drifting, always("G (h0.p -> F[0,98] (h4.p & F[0,99] h7.p))"), QUICK, least=16),
    # each item comes out in time: that one doesn't is to be refuted
    Family("pipelines", made.pipelines, always("G (s0.in -> F[61,100] s2.out)"), QUICK, least=8),
    # what comes out went in, not too long ago: that it didn't is to be refuted
    Family("wide pipeline", made.wide_pipeline, always("G (s3.out -> O[0,280] s0.in)"), least=50, most=50),
    # there are never two holders: that there are is to be refuted
    Family("handovers", made.handovers, always(NEVER_TWO), QUICK),
    # there are never two leaders: that there are is to be refuted
    Family("elections", made.elections, always(made.one_leader()), least=8),
    # each is followed and preceded in time: that one isn't is to be refuted
    Family("rounds", made.rounds, always(NEAR_BOTH_WAYS), PARTS, least=6, most=724),
    # either is possible
    Family("bursts", made.bursts, always(made.all_down(26)), QUICK, least=16),
    # all are down within one more: that they aren't is to be refuted
    Family("bursts, by more", made.bursts, always(made.all_down(27)), (Goal(128, 2.2),), least=16, most=128),
    # either is possible
    Family("tangled orders", made.tangled, always("G (a.p -> F[0,110] (b.p & F[0,110] c.p))"), MODERATE),
    # each pulse is preceded by that of the host before, in time: that one isn't is to be refuted
    Family("tangled messages", made.tangled_messages, always("G (c.p -> O[0,80] (b.p & O[0,80] a.p))"), MODERATE),
    # either is possible
    Family("flickers", made.flickers, always("G F[0,1] a.p"), (Goal(100, 0.3),)),
    # either is possible
    Family("wide until", made.wide_turns, always("G (a.p -> a.p U[0,220] b.q)"), (Goal(200, 0.5),), most=200),
    # each phase lasts until the next one has begun, in time: that one doesn't is to be refuted
    Family(
        "nested untils",
        made.phases,
        always("G (a.p -> a.p U[0,40] (b.p U[0,50] (c.p U[0,50] d.p)))"),
        (Goal(512, 1),),
        most=512,
    ),
    # not all beats are in time: that they are is to be refuted, and that one is late is witnessed
    Family("heartbeats of two", made.heartbeats(2), always(made.never_late(2)), BEATS, least=22),
    # the same
    Family("heartbeats of three", made.heartbeats(3), always(made.never_late(3)), SOME_BEATS, least=33, most=836),
    # the same
    Family("heartbeats of four", made.heartbeats(4), always(made.never_late(4)), SOME_BEATS, least=44, most=724),
    # each host has beaten in time whenever the watch looks: that one hasn't is to be refuted
    Family("heartbeats of many", made.watched, always(made.all_beat(100)), least=17, most=496),
    # no two jobs run at once: that is to be refuted, and that two do is witnessed
    Family("jobs", made.jobs, made.one_at_a_time, (Goal(16, 12),), most=16),
)
