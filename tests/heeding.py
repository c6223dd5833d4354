"""Has the programs that tests begin heed signals, whoever runs the tests."""

import signal

ENDING = (signal.SIGHUP, signal.SIGINT, signal.SIGQUIT, signal.SIGTERM)


def heed_signals():
    """Has the programs that cases begin heed signals which `nohup`, or a shell of its commands in the background, has them
    ignore. One that is ignored stays so in a program that is begun, and one that has a handler doesn't."""
    for number in ENDING:
        if signal.getsignal(number) == signal.SIG_IGN:
            signal.signal(number, lambda *_: None)
