"""Whether processes that cases have ended are gone, by when they have had the time for it that a busy machine takes."""

import time
from pathlib import Path

PATIENCE = 20  # seconds; what cases begin goes on for longer by itself


def goes_on(number):
    """Whether a process goes on: it is there, and doesn't just wait to be asked how it ended."""
    try:
        return Path("/proc", str(number), "stat").read_text().rpartition(")")[2].split()[0] not in ("Z", "X")
    except OSError:
        return False


def left_of(numbers):
    """Those of some processes that still go on after the patience."""
    until = time.monotonic() + PATIENCE
    left = list(filter(goes_on, numbers))
    while left and time.monotonic() < until:
        time.sleep(0.02)
        left = list(filter(goes_on, left))
    return left
