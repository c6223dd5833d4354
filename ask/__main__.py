"""`python3 -m ask` at the top of the repository is `./ask/ask`."""

import sys

from ask.main import run

run(sys.argv[1:])
