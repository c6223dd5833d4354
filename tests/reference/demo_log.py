"""The log of a seed of `demo`, as its text.

    python3 demo_log.py SEED..

prints a table for `answer_table` with the answers that are due: for each seed a line `@ SEED`, and the
text of its log.

The state begins as the seed. Each draw takes the state x to a * x + c modulo 2^64, with the numbers of
Knuth's MMIX, and gives the upper 31 bits of the new state modulo 5. Row r is of host r modulo 6, and its
local time is 10 r and one draw.
"""

import argparse
import sys
from pathlib import Path

sys.dont_write_bytecode = True  # leaves no compiled files beside the sources

MULTIPLIER = 6364136223846793005
INCREMENT = 1442695040888963407
HOSTS = 6
ROWS = 24


def draws(seed):
    """The draws from a seed, without end."""
    state = seed
    while True:
        state = (MULTIPLIER * state + INCREMENT) & (2**64 - 1)
        yield (state >> 33) % 5


def act_of(host, turn):
    """The word of a row and its name, by its host and the round."""
    switch = "clear" if turn % 2 else "set"
    return (
        (switch, "p"),
        (switch, "q"),
        ("send", f"m{turn}"),
        ("recv", f"m{turn}"),
        ("note", "tick"),
        (switch, "r"),
    )[host]


def demo_log(seed):
    """The text of the log of a seed."""
    lines = ["kind,host,time,name"]
    lines += [f"host,h{host},3,1" for host in range(HOSTS)]
    for place, drawn in zip(range(ROWS), draws(seed)):
        turn, host = divmod(place, HOSTS)
        word, name = act_of(host, turn)
        lines.append(f"{word},h{host},{10 * place + drawn},{name}")
    return "".join(line + "\n" for line in lines)


def main():
    """Prints the logs of the seeds, and ends with 1 where a row isn't the one that was worked out by hand."""
    parser = argparse.ArgumentParser(description="print the logs of seeds of demo")
    parser.add_argument("seeds", metavar="SEED", type=int, nargs="+")
    arguments = parser.parse_args()
    # The first state from 0 is the increment, whose upper bits are 167951807.
    if demo_log(0).splitlines()[7] != "set,h0,2,p":
        print("the first row of the seed 0 isn't right", file=sys.stderr)
        sys.exit(1)
    for seed in arguments.seeds:
        print(f"@ {seed}\n{demo_log(seed)}", end="")


if __name__ == "__main__":
    sys.path.insert(0, str(Path(__file__).resolve().parents[1]))
    import ends

    ends.run(main)
