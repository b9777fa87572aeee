"""What is tried hears the signals that end it. A shell's command in the background ignores INT, `nohup` has a command ignore HUP,
and so does all that they start."""

import signal


def hear():
    """Has this process, and all that it starts, hear what it was started to ignore of that."""
    for number in (signal.SIGINT, signal.SIGHUP):
        if signal.getsignal(number) == signal.SIG_IGN:
            signal.signal(number, signal.SIG_DFL)
