"""Makes logs of hundreds of rows and formulas about them, such that windows of a log have much to do with each other.

Each function takes a source of chance, random.Random, first. A log is made of a run: true times first, then stamps
that are off by at most the skew, so that it always admits a timing.
"""

from typing import NamedTuple

NAMES = "pqr"


class Run(NamedTuple):
    """The rows of a run, each with its true time, and what its hosts and messages are like."""

    hosts: list  # the name, the skew and the gap of each
    latencies: dict  # the least and the greatest latency of a host by its number, None for no greatest one
    events: list  # in the order of the log
    spacing: int
    bounds: tuple = ()  # the numbers of two rows each, and how long behind the other the one is at most


class Event(NamedTuple):
    time: int
    host: int
    kind: str
    name: str
    skew: int
    stamp: int
    clock: str = ""  # that is read, and by how much the reading may be off
    error: int = 0


def text_of(run):
    """The log of a run, in version 1 where that can say it, and in version 2 where that can."""
    now = [skew for _, skew, _ in run.hosts]
    read = [("", 0) for _ in run.hosts]
    body = []
    for event in run.events:
        name, _, gap = run.hosts[event.host]
        if now[event.host] != event.skew:
            now[event.host] = event.skew
            body.append(f"resync,{name},{event.skew},{gap}")
        if read[event.host] != (event.clock, event.error):
            read[event.host] = (event.clock, event.error)
            body.append(f"clock,{name},{event.error},{event.clock}")
        body.append(f"{event.kind},{name},{event.stamp},{event.name}")
    body += [f"bound,{later},{earlier},{most}" for later, earlier, most in run.bounds]
    heads = [f"host,{name},{skew},{gap}" for name, skew, gap in run.hosts]
    for number, (least, most) in sorted(run.latencies.items()):
        heads.append(f"latency,{run.hosts[number][0]},{least},{'inf' if most is None else most}")
    is_second = bool(run.latencies) or any(line.startswith(("resync", "pulse")) for line in body)
    is_third = any(line.startswith(("clock", "bound")) for line in body)
    first = "skewlog3" if is_third else "skewlog2" if is_second else "kind"
    return "\n".join([f"{first},host,time,name", *heads, *body]) + "\n"


class Builder:
    """A run in the making: rows in the order of their true times on each host."""

    def __init__(self, draw, hosts, spacing, latencies=None):
        self.draw, self.hosts, self.spacing, self.latencies = draw, hosts, spacing, latencies or {}
        self.rows, self.last, self.messages = [], {}, 0

    def least(self, host):
        """The least latency of messages to a host."""
        return self.latencies.get(host, (1, None))[0]

    def add(self, time, host, kind, name):
        """Adds a row at a time, or as early behind it as the host's last row allows; gives its time."""
        before = self.last.get(host)
        time = time if before is None else max(time, before + self.hosts[host][2])
        self.last[host] = time
        self.rows.append((time, host, kind, name))
        return time

    def send(self, time, host):
        """Adds the sending of a message, and gives its name and time."""
        self.messages += 1
        name = f"m{self.messages}"
        return name, self.add(time, host, "send", name)

    def run(self, count):
        """The run of the first rows, in an order of the log that goes by true times or by stamps."""
        draw = self.draw
        rows = sorted(self.rows[:count], key=lambda row: row[0])
        sent = {name for _, _, kind, name in rows if kind == "send"}
        rows = [(t, h, "note" if kind == "recv" and name not in sent else kind, name) for t, h, kind, name in rows]
        offsets = [draw.uniform(-0.7, 0.7) for _ in self.hosts]
        is_steady, resyncs = draw.random() < 0.5, draw.random() < 0.3
        skews = [skew for _, skew, _ in self.hosts]
        events = []
        for time, host, kind, name in rows:
            if resyncs and draw.random() < 0.03:
                skews[host] = int(self.hosts[host][1] * draw.uniform(0.2, 2))
            share = offsets[host] + draw.uniform(-0.3, 0.3) if is_steady else draw.uniform(-1, 1)
            events.append(Event(time, host, kind, name, skews[host], time + int(skews[host] * share)))
        if draw.random() < 0.5:
            events = by_stamps(events, len(self.hosts))
        return Run(self.hosts, self.latencies, events, self.spacing)


def by_stamps(events, hosts):
    """Rows merged by their stamps, those of each host in their order."""
    lanes = [[event for event in events if event.host == host] for host in range(hosts)]
    places, merged = [0] * hosts, []
    while len(merged) < len(events):
        heads = [host for host in range(hosts) if places[host] < len(lanes[host])]
        host = min(heads, key=lambda one: (lanes[one][places[one]].stamp, one))
        merged.append(lanes[host][places[host]])
        places[host] += 1
    return merged


# Runs


def chatter(draw, count):
    """Hosts that change propositions by chance, in bursts and pauses, and send each other messages."""
    spacing = draw.choice((5, 10, 20, 50))
    scale = draw.choice((0.0, 0.2, 0.5, 0.8, 1.2))
    hosts = []
    for number in range(draw.randint(1, 8)):
        gap = draw.choice((0, 0, 0, 1, 1, 2, spacing // 4))
        hosts.append((f"h{number}", int(spacing * scale * draw.uniform(0.3, 1.5)), gap))
    latencies = {}
    if draw.random() < 0.4:
        for number in range(len(hosts)):
            if draw.random() < 0.6:
                latencies[number] = (draw.randint(1, max(1, spacing // 2)), None)
    builder = Builder(draw, hosts, spacing, latencies)
    kinds = ["set", "clear", "note"] + ["pulse"] * draw.choice((0, 2))
    bursts, pauses = draw.random() < 0.3, draw.random() < 0.5
    time, waiting = 0, []
    while len(builder.rows) < count:
        step = 0 if bursts and draw.random() < 0.15 else int(draw.expovariate(1 / spacing))
        time += step + (spacing * draw.randint(5, 40) if pauses and draw.random() < 0.03 else 0)
        for due in sorted(one for one in waiting if one[0] <= time):
            waiting.remove(due)
            builder.add(due[0], due[1], "recv", due[2])
        host = draw.randrange(len(hosts))
        if draw.random() < 0.25 and len(hosts) > 1:
            name, sent = builder.send(time, host)
            for other in draw.sample([one for one in range(len(hosts)) if one != host], draw.choice((0, 1, 1, 1, 1, 1, 1, 1))):
                waiting.append((sent + builder.least(other) + int(draw.expovariate(1 / spacing)), other, name))
        else:
            builder.add(time, host, draw.choice(kinds), draw.choice(NAMES))
    return with_greatest(draw, builder.run(count))


def with_greatest(draw, run):
    """A run whose messages to some hosts have a greatest latency, which those that it has keep."""
    if not run.latencies or draw.random() < 0.5:
        return run
    sent = {event.name: event.time for event in run.events if event.kind == "send"}
    latencies = dict(run.latencies)
    for host, (least, _) in run.latencies.items():
        took = [event.time - sent[event.name] for event in run.events if event.kind == "recv" and event.host == host]
        if took and draw.random() < 0.7:
            latencies[host] = (least, max(max(took), least) + draw.randint(0, run.spacing))
    return run._replace(latencies=latencies)


def requests(draw, count):
    """Clients that ask servers, whose answers take about as long as each other, so that many are near a deadline."""
    clients, servers = draw.randint(1, 3), draw.randint(1, 2)
    delay = draw.choice((20, 60))
    pause, jitter = draw.choice((1, 3, 8)) * delay, draw.choice((1, delay // 6, delay // 2))
    names = [f"c{number}" for number in range(clients)] + [f"s{number}" for number in range(servers)]
    hosts = [(name, int(delay * draw.choice((0.05, 0.15, 0.4, 0.8))), 0) for name in names]
    builder = Builder(draw, hosts, delay)
    kind, has_messages = draw.choice(("pulse", "set")), draw.random() < 0.7
    free = [draw.randint(0, pause) for _ in range(clients)]
    while len(builder.rows) < count:
        client = min(range(clients), key=lambda one: free[one])
        server = clients + draw.randrange(servers)
        asked = builder.add(free[client], client, kind, "p")
        begun = asked + delay // 4
        if has_messages:
            name, sent = builder.send(asked, client)
            begun = builder.add(sent + 1 + draw.randint(0, delay // 4), server, "recv", name)
        done = builder.add(max(begun, asked + delay // 2 + draw.randint(0, jitter)), server, "pulse", "q")
        ended = done + delay // 4
        if has_messages:
            name, sent = builder.send(done, server)
            ended = builder.add(sent + 1 + draw.randint(0, delay // 4), client, "recv", name)
        ended = max(ended, asked + delay + draw.randint(0, jitter))
        ended = builder.add(ended, client, "clear" if kind == "set" else "pulse", "p" if kind == "set" else "r")
        free[client] = ended + int(draw.expovariate(1 / pause)) + 1
    return builder.run(count)


def beats(draw, count):
    """Beats with about one period, so that sums over many of them count."""
    period = draw.choice((10, 40))
    hosts = [
        (f"h{number}", int(period * draw.choice((0.05, 0.2, 0.45))), draw.choice((0, 1)))
        for number in range(draw.randint(1, 3))
    ]
    builder = Builder(draw, hosts, period)
    drift, jitter = draw.choice((0, 0, 1)), draw.choice((0, 1, period // 5))
    time = [draw.randint(0, period) for _ in hosts]
    armed = set()
    while len(builder.rows) < count:
        host = min(range(len(hosts)), key=lambda one: time[one])
        builder.add(time[host], host, "pulse", "q")
        if host not in armed:
            armed.add(host)
            builder.add(time[host] + 1, host, "set", "p")
        time[host] += max(2 * hosts[host][2] + 2, period + draw.randint(-jitter, jitter) + drift)
    return builder.run(count)


def chain(draw, count):
    """Hosts with bad clocks whose gaps nearly fill the time, tied by messages to one with a good clock."""
    gap = draw.choice((5, 10, 20))
    hosts = [("h0", draw.choice((0, 1, 3)), 0)]
    hosts += [(f"h{number}", gap * draw.randint(3, 12), gap) for number in range(1, draw.randint(2, 4))]
    latencies = {number: (draw.choice((1, 1, gap)), None) for number in range(1, len(hosts))}
    builder = Builder(draw, hosts, gap * 2, latencies)
    length, slack = draw.randint(6, 20), draw.choice((0, 1, 2))
    time = [0] * len(hosts)
    while len(builder.rows) < count:
        for host in range(1, len(hosts)):
            name, sent = builder.send(max(time[0], time[host]), 0)
            now = builder.add(sent + builder.least(host) + draw.randint(0, slack), host, "recv", name)
            for _ in range(length):
                now = builder.add(now + gap + draw.randint(0, slack), host, draw.choice(("set", "clear", "pulse")), draw.choice("pq"))
            name, sent = builder.send(now + gap + draw.randint(0, slack), host)
            time[host] = sent
            time[0] = builder.add(sent + 1 + draw.randint(0, slack), 0, "recv", name)
            if draw.random() < 0.5:
                time[0] = builder.add(time[0], 0, draw.choice(("pulse", "set", "clear")), "r")
    return builder.run(count)


PLAIN = {"chatter": chatter, "requests": requests, "beats": beats, "chain": chain}


# Runs of version 3


def clocks(draw, count):
    """A run of another family whose hosts read clocks."""
    return with_clocks(draw, PLAIN[draw.choice(list(PLAIN))](draw, count))


def bounds(draw, count):
    """A run of another family with bounds between its rows, some of which read clocks too."""
    run = PLAIN[draw.choice(list(PLAIN))](draw, count)
    return with_bounds(draw, with_clocks(draw, run) if draw.random() < 0.3 else run)


def with_clocks(draw, run):
    """A run whose hosts read clocks, several of them one, which are other clocks from when they were set again.

    Skews may be wide against the errors of readings. Some hosts read one from a moment on alone, some none.
    """
    wider, moments = draw.choice((1, 1, 2, 4)), sorted(event.time for event in run.events)
    machines = [draw.randrange(len(run.hosts)) for _ in run.hosts]
    settings = [draw.sample(moments, min(len(moments), draw.choice((0, 0, 1, 3)))) for _ in run.hosts]
    begins = [draw.choice((moments[0], moments[0], moments[0], draw.choice(moments), moments[-1] + 1)) for _ in run.hosts]
    begins[run.events[0].host] = moments[0]
    errors = [draw.choice((0, 0, 1, 2, run.spacing // 10, run.spacing // 3)) for _ in run.hosts]
    least, events = {}, []  # the least skew of the rows that read a clock
    for event in run.events:
        event = event._replace(skew=wider * event.skew)
        if event.time >= begins[event.host]:
            machine = machines[event.host]
            clock = f"k{machine}_{sum(moment <= event.time for moment in settings[machine])}"
            least[clock] = min(event.skew, least.get(clock, event.skew))
            event = event._replace(clock=clock, error=errors[event.host])
        events.append(event)
    offsets = {clock: int(skew * draw.uniform(-0.9, 0.9)) for clock, skew in least.items()}
    for place, event in enumerate(events):
        if event.clock:
            offset = offsets[event.clock]
            error = min(event.error, least[event.clock] - abs(offset))
            events[place] = event._replace(stamp=event.time - offset + draw.randint(-error, error))
    if draw.random() < 0.5:
        events = by_stamps(events, len(run.hosts))
    return run._replace(hosts=[(name, wider * skew, gap) for name, skew, gap in run.hosts], events=events)


def with_bounds(draw, run):
    """A run with bounds between rows that mostly stand near to each other, as of durations, which its times keep."""
    times = [event.time for event in run.events]
    near, share = draw.choice((4, 12, 40)), draw.choice((0.05, 0.2, 0.5))
    found = []
    for _ in range(max(1, int(share * len(times)))):
        one, reach = draw.randrange(len(times)), near if draw.random() < 0.95 else len(times)
        other = min(max(one + draw.choice((-1, 1)) * draw.randint(1, reach), 0), len(times) - 1)
        for later, earlier in ((one, other), (other, one))[: draw.choice((1, 2)) if one != other else 0]:
            room = draw.choice((0, 0, 1, run.spacing // 10, run.spacing))
            found.append((later, earlier, times[later] - times[earlier] + room))
    return run._replace(bounds=tuple(found))


FAMILIES = {**PLAIN, "clocks": clocks, "bounds": bounds}


# Formulas


def proposition(draw, run):
    """A proposition that some row makes true, seldom one that none does."""
    names = sorted({(run.hosts[e.host][0], e.name) for e in run.events if e.kind in ("set", "pulse")})
    if not names or draw.random() < 0.03:
        return f"{draw.choice(run.hosts)[0]}.{draw.choice(NAMES)}"
    return ".".join(draw.choice(names))


def some_bounded(draw, run, depth):
    """A formula with bounded operators, so deep."""
    if depth == 0 or draw.random() < 0.15:
        return ("" if draw.random() < 0.7 else "!") + proposition(draw, run)
    form = draw.choice(("F", "G", "O", "H", "U", "S", "&", "|", "->", "!"))
    if form == "!":
        return f"!({some_bounded(draw, run, depth - 1)})"
    left, right = (some_bounded(draw, run, depth - 1) for _ in range(2))
    if form in ("&", "|", "->"):
        return f"({left} {form} {right})"
    low = draw.choice((0, 0, 0, draw.randint(0, 2 * run.spacing)))
    high = low + draw.choice((0, 1, draw.randint(0, run.spacing), draw.randint(0, 4 * run.spacing)))
    return f"({left} {form}[{low},{high}] {right})" if form in ("U", "S") else f"{form}[{low},{high}] {right}"


def some_promise(draw, run):
    """A promise with a number in it, which is easier to meet the greater it is; the place of the number is `?`."""
    p, q, r = (proposition(draw, run) for _ in range(3))
    space = run.spacing
    return draw.choice((
        f"({p} -> F[0,?] {q})", f"({p} -> O[0,?] {q})", f"({p} -> F[0,?] ({q} & O[0,{3 * space}] {r}))",
        f"({p} -> O[0,?] ({q} | F[0,{space}] {r}))", f"(({p} & !{q}) -> ({q} | (!{r} U[0,?] {q})))",
        f"({p} -> ({q} | (!{r} S[0,?] {q})))", f"(({p} & {q}) -> F[0,?] !({p} & {q}))",
        f"({p} | F[0,?] {q} | O[0,?] {r})", f"(H[0,?] {p} -> F[0,{2 * space}] {q})", f"(({p} & O[1,?] true) -> O[1,?] {q})",
        f"!({at_end(draw, run)} & !O[1,?] true)", f"!({at_end(draw, run)} & !F[1,?] true)",
    ))


def at_end(draw, run):
    """The proposition of one of the first or the last rows that make one true, so that the ends of a log count."""
    rows = [event for event in run.events if event.kind in ("set", "pulse")] or run.events
    event = draw.choice((rows[0], rows[-1], draw.choice(rows)))
    return f"{run.hosts[event.host][0]}.{event.name}"


def blur(draw, run):
    """By how much about a row may be off from another one: a skew, or less where clocks or bounds may tell of both."""
    skew = max(skew for _, skew, _ in run.hosts)
    if run.bounds or any(event.clock for event in run.events):
        return draw.choice((skew, max(1, max(event.error for event in run.events)), max(1, run.spacing // 10)))
    return skew


def some_formula(draw, run, number_for):
    """A formula of the kinds that windows answer; `number_for` tells a number with which a promise is met."""
    choice = draw.random()
    if choice < 0.6:
        promise = some_promise(draw, run)
        number = number_for(promise)
        skew = blur(draw, run)
        number = max(1, number + draw.choice((0, 0, draw.randint(-skew, 2 * skew), draw.randint(0, 4 * skew), 5 * skew + 1)))
        body = promise.replace("?", str(number))
    elif choice < 0.7:
        body = draw.choice(("!({} & {})", "({} | {})")).format(proposition(draw, run), proposition(draw, run))
    else:
        body = some_bounded(draw, run, draw.choice((1, 2, 2, 3)))
        if draw.random() < 0.7:
            body = f"({some_bounded(draw, run, 1)} -> {body})"
    choice = draw.random()
    if choice < 0.15:
        more = some_promise(draw, run).replace("?", str(draw.randint(run.spacing, 12 * run.spacing)))
        return f"G {body} & G {more}"
    return f"F !({body})" if choice < 0.35 else f"!F !{body}" if choice < 0.4 else f"G {body}"
