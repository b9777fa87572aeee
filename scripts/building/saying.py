"""What is told to whoever waits, on standard error."""

import os
import sys


def write(text):
    """Writes a text to standard error at once. Where nobody can read it, nothing else fails for that."""
    # Where it was closed from the start, its number may be another file's by now.
    if sys.stderr is None:
        return
    try:
        os.write(sys.stderr.fileno(), text.encode(errors="backslashreplace"))
    except OSError:
        pass


def say(text):
    write(f"dmrgate: {text}\n")


def fail(text):
    """Tells why nothing is done, and ends."""
    say(text)
    sys.exit(1)


def reason_of(error):
    """Why the system refused something, in a line."""
    return ": ".join(str(it) for it in (error.filename, error.strerror or error) if it)
