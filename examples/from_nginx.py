"""Makes a log of skewcheck from an access log of nginx, as `ask log` does with these words.

Run as: python3 from_nginx.py ACCESS_LOG --skew S [--tracking FILE] [--only ID]..

Each line of ACCESS_LOG is `$msec $request_time $request_id`, which this line in the configuration writes:

    log_format skew '$msec $request_time $request_id';

Times are in milliseconds. A request is two moments: it began, and it was answered. Requests that overlap are
put on hosts of their own, web_1, web_2 and so on, since nothing is known of the order of their rows. With
--only, which may be given again, the other requests are left out, whatever their times. With a tracking log of chrony
the skew is what a stamp may be off beside the clock. The receives stay, since another log has their sends.
`./ask/ask log --help` has what else there is.
"""

import sys
from pathlib import Path

sys.dont_write_bytecode = True  # leaves no compiled files beside the sources
sys.path.insert(0, str(Path(__file__).resolve().parent.parent))

from ask.main import run

WORDS = [
    "log", "--part", "--unit", "ms", "--access", "$msec $request_time $request_id", "--id", "request_id",
    # A name has 32 letters at most, and the id alone has 32.
    "--row", "begin=set:asked,send:r{request_id:.12}_go",
    "--row", "end=recv:r{request_id:.12}_back,clear:asked",
]

if __name__ == "__main__":
    run(WORDS + sys.argv[1:])
