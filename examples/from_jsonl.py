"""Makes a log of skewcheck from lines of JSON, one for each event of a service, as `ask log` does with these words.

Run as: python3 from_jsonl.py EVENTS --skew S [--tracking FILE] [--only ID]..

A line has the fields `time`, as 2023-11-14T22:13:30.003Z, `service`, `thread`, `event` and `request`, and
others are left out. Times become milliseconds. Each thread is a host, in the order of its lines. What
an event becomes is said by --row below, which is to be changed for other services; another event becomes a note.
With --only, which may be given again, lines of other requests are left out. With a tracking log of chrony the skew
is what a stamp may be off beside the clock. The receives stay, since another log has their sends.
`./ask/ask log --help` has what else there is.
"""

import sys
from pathlib import Path

sys.dont_write_bytecode = True  # leaves no compiled files beside the sources
sys.path.insert(0, str(Path(__file__).resolve().parent.parent))

from ask.main import run

WORDS = [
    "log", "--part", "--unit", "ms", "--host", "service,thread", "--name", "event", "--id", "request",
    # A name has 32 letters at most, and the id of a request alone has 32.
    "--row", "received=recv:r{request:.12}_go,set:works",
    "--row", "done=clear:works,set:done",
    "--row", "answered=send:r{request:.12}_back",
]

if __name__ == "__main__":
    run(WORDS + sys.argv[1:])
