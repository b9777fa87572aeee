"""Signals that ask for an end."""

import signal
import sys

SIGNALS = (signal.SIGINT, signal.SIGTERM, signal.SIGHUP)


class Ending:
    """Notes the signals that ask for an end, while it holds. Whoever works looks at it where nothing is half begun, and then all
    that was begun can be ended first."""

    def __init__(self):
        self.number, self.before = None, {}

    def __enter__(self):
        for it in SIGNALS:
            # One that whoever started this ignores stays so, as nohup wants it.
            if signal.getsignal(it) != signal.SIG_IGN:
                self.before[it] = signal.signal(it, self.note)
        return self

    def __exit__(self, error, *_):
        for it, before in self.before.items():
            signal.signal(it, before)
        if error is None:
            self.look()

    def note(self, number, _frame):
        self.number = self.number or number

    def look(self):
        """Ends, where a signal came, with the status that shells give to that."""
        if self.number:
            sys.exit(128 + self.number)
