"""Makes logs of version 3 by chance, with clocks that several hosts read and that are set again, and bounds between rows."""

from ask.logs import bound_of

KINDS = ("low", "high", "rise", "message", "late", "under", "over")
ROWS = ("set", "clear", "note", "pulse")


def some_log(draw, most_rows=12, is_right=True):
    """A log of a run, so that it admits the run's timing; one that isn't right has bounds by chance."""
    hosts = draw.randint(1, 3)
    skews = [draw.choice((3, 10, 40)) for _ in range(hosts)]
    clocks = [f"k{number}" for number in range(draw.randint(1, 3))]
    offsets = {clock: draw.randint(-3, 3) for clock in clocks}
    heads = [f"host,h{number},{skew},{draw.choice((0, 0, 1))}" for number, skew in enumerate(skews)]
    reading = {}  # of each host its clock and the error
    time, body, times, waiting, took = 100, [], [], [], {}
    for place in range(draw.randint(2, most_rows)):
        time += draw.randint(1, 6)
        host = draw.randrange(hosts)
        if draw.random() < 0.5 or host not in reading and draw.random() < 0.5:
            reading[host] = (draw.choice(clocks), draw.choice((0, 0, 1, 2)))
            body.append(f"clock,h{host},{reading[host][1]},{reading[host][0]}")
        stamp = time + draw.randint(-3, 3)
        if host in reading:
            clock, error = reading[host]
            stamp = time - offsets[clock] + draw.randint(-min(error, 2), min(error, 2))
        kind, name = draw.choice(ROWS), draw.choice("pq")
        if waiting and draw.random() < 0.5:
            kind, (name, sent) = "recv", waiting.pop()
            took[host] = max(took.get(host, 0), time - sent)
        elif draw.random() < 0.2:
            kind, name = "send", f"m{place}"
            waiting.append((name, time))
        body.append(f"{kind},h{host},{stamp},{name}")
        times.append(time)
    skewed = max((abs(int(line.split(",")[2]) - one) for line, one in zip(rows_of(body), times)), default=0)
    heads = [widened(line, skewed) if line.startswith("host") else line for line in heads]
    heads += [f"latency,h{host},1,{most + draw.randint(0, 9)}" for host, most in took.items() if draw.random() < 0.5]
    body += bounds(draw, times, is_right)
    return "\n".join(["skewlog3,host,time,name", *heads, *body]) + "\n", times


def some_formula(draw, log):
    """A formula that windows can answer."""
    hosts = [host.name for host in log.hosts]
    one, other = (f"{draw.choice(hosts)}.{draw.choice('pq')}" for _ in range(2))
    interval = f"[{draw.randint(0, 3)},{draw.randint(3, 12)}]"
    forms = (
        f"G ({one} -> F{interval} {other})", f"G !({one} & {other})", f"F ({one} & O{interval} {other})",
        f"G ({one} | G{interval} {other})", f"G ({one} -> ({other} U{interval} {one}))",
    )
    return draw.choice(forms)


def rows_of(body):
    """The lines that are rows."""
    return [line for line in body if not line.startswith(("clock", "bound"))]


def widened(line, least):
    """A host with a skew that is at least so much."""
    kind, name, skew, gap = line.split(",")
    return f"{kind},{name},{max(least, int(skew))},{gap}"


def bounds(draw, times, is_right):
    """Bound records that a timing keeps, or some by chance."""
    found = []
    for _ in range(draw.randint(0, 4) if len(times) > 1 else 0):
        later, earlier = draw.sample(range(len(times)), 2)
        room = draw.randint(0, 4) if is_right else draw.randint(-6, 3)
        found.append(f"bound,{later},{earlier},{times[later] - times[earlier] + room}")
    return found


def all_bounds(log):
    """The bounds of a log, each with its kind and number."""
    for event in range(len(log.rows)):
        for kind in KINDS:
            bound = bound_of(log, kind, event)
            if bound:
                yield kind, event, bound
    for number in range(len(log.extras)):
        yield "extra", number, bound_of(log, "extra", number)


def least_sums(log):
    """For each two of the zero moment, the rows and the clocks the least sum of bounds, None where there is no timing."""
    nodes = [None, *range(len(log.rows) + len(log.clocks))]
    far = float("inf")
    sums = {(one, other): 0 if one == other else far for one in nodes for other in nodes}
    for _, _, bound in all_bounds(log):
        sums[bound.start, bound.end] = min(sums[bound.start, bound.end], bound.most)
    for middle in nodes:
        for one in nodes:
            for other in nodes:
                sums[one, other] = min(sums[one, other], sums[one, middle] + sums[middle, other])
    return None if any(sums[node, node] < 0 for node in nodes) else sums


def is_timing(log, times):
    """Whether a log admits times, by its bounds alone: whether the clocks have offsets with which all of them hold."""
    ends = {clock: (-float("inf"), float("inf")) for clock in range(len(log.clocks))}
    for event, row in enumerate(log.rows):
        if row.clock is not None:
            low, high = ends[row.clock]
            shift = times[event] - row.stamp
            ends[row.clock] = max(low, shift - row.error), min(high, shift + row.error)
    if any(low > high for low, high in ends.values()):
        return False
    clockless = (bound for kind, _, bound in all_bounds(log) if kind not in ("under", "over"))
    return all(time_of(times, bound.start) - time_of(times, bound.end) <= bound.most for bound in clockless)


def time_of(times, end):
    """The time of an end of a bound that is no clock."""
    return 0 if end is None else times[end]
