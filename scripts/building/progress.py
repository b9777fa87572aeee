"""How far a build is, in a line."""

import os
import sys
import time

from building.saying import say, write

# Goes back to the beginning of the line, and clears it.
RENEWED = "\r\x1b[K"


def minutes(seconds):
    """A time in words."""
    if seconds < 45:
        return "less than a minute"
    count = round(seconds / 60) or 1
    return f"about {count} minute{'s' * (count > 1)}"


def how_far(building):
    """The crates that are there, and how long the others take."""
    there = building.total - len(building.left) - len(building.running)
    return f"{there} of {building.total} crates, {minutes(building.seconds_left())} left"


class OnTerminal:
    """One line that is renewed."""

    def __init__(self, stream):
        self.stream, self.shown_at = stream, None

    def ended(self, building, work):
        self.shown_at = None

    def show(self, building):
        now = time.monotonic()
        if self.shown_at is None or now - self.shown_at >= 1:
            self.shown_at = now
            line = ": ".join(it for it in (how_far(building), ", ".join(building.running)) if it)
            # A line that is longer than the terminal is wide would go on in the next one, and stay there.
            write(RENEWED + line[: self.width() - 1])

    def width(self):
        try:
            return os.get_terminal_size(self.stream.fileno()).columns or 80
        except OSError:
            return 80

    def close(self):
        write(RENEWED)


class InLines:
    """A line for each crate that is there."""

    def ended(self, building, work):
        jobs = f" with {work.jobs} jobs" if work.jobs > 1 else ""
        say(f"{work.crate.name} is proved and built, in {work.seconds():.0f} s{jobs}: {how_far(building)}")

    def show(self, building):
        pass

    def close(self):
        pass


def progress():
    """The progress for whoever reads standard error."""
    is_terminal = sys.stderr is not None and sys.stderr.isatty() and os.environ.get("TERM") != "dumb"
    return OnTerminal(sys.stderr) if is_terminal else InLines()
