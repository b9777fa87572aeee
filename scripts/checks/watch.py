"""What the gate takes most time for: it is watched from outside, since it doesn't tell."""

import collections
import os
import pathlib
import threading

# How often the gate's commands are looked at, in seconds.
EVERY = 0.5

TICKS = os.sysconf("SC_CLK_TCK")


def words_of(process):
    return (process / "cmdline").read_bytes().decode(errors="replace").split("\0")


def seconds_of(process):
    """The processor seconds that a process has taken itself, and its parent."""
    fields = (process / "stat").read_text().rpartition(")")[2].split()
    return (int(fields[11]) + int(fields[12])) / TICKS


def named(words):
    """What a command of the prover is for: its crate, or the tests of it."""
    return words[words.index("--crate-name") + 1] + (" tests" if "--test" in words else "")


class Watch:
    """Looks at the prover's processes while the gate runs, and adds up the processor seconds of each crate."""

    def __init__(self):
        self.commands, self.seconds = {}, {}
        self.is_over = threading.Event()
        self.thread = threading.Thread(target=self.look_on, daemon=True)

    def __enter__(self):
        self.thread.start()
        return self

    def __exit__(self, *_):
        self.is_over.set()
        self.thread.join()

    def look_on(self):
        while not self.is_over.wait(EVERY):
            for process in pathlib.Path("/proc").glob("[0-9]*"):
                try:
                    self.look_at(process)
                except (OSError, ValueError, IndexError):
                    # It has ended meanwhile.
                    pass

    def look_at(self, process):
        # A number may come again, and so may the words of a command: together with when it began they don't.
        began = (process / "stat").read_text().rpartition(")")[2].split()[19]
        key = process.name, began
        words = words_of(process)
        # Whatever else a process is, it may become one of the prover's yet.
        if words[0].endswith("/rattle") and "--crate-name" in words:
            self.commands[key] = named(words)
            self.seconds[key] = seconds_of(process)

    def lines(self):
        """The ten crates that took longest."""
        found = collections.Counter()
        for key, seconds in self.seconds.items():
            found[self.commands[key]] += seconds
        if found:
            yield f"crates: {sum(found.values()) / 60:.0f} processor minutes, of which these took longest:"
            yield from (f"{seconds:7.1f} s {name}" for name, seconds in found.most_common(10))
