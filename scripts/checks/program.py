"""The programs as users run them, and what is expected of them."""

import pathlib
import subprocess
import tempfile

from building.programs import PROGRAMS, build, program_of


# What is told where standard output can't be written, unless its reader has left.
UNWRITTEN = b"error: standard output: write failed\n"


class Ran:
    """How a run of a program ended: its status, and what it printed."""

    def __init__(self, status, out, err):
        self.status, self.out, self.err = status, out, err

    def __repr__(self):
        return f"status {self.status}, standard output {self.out[:300]!r}, standard error {self.err[:300]!r}"

    def is_error(self, text, status=1):
        """One line on standard error, and nothing else."""
        return (self.status, self.out, self.err) == (status, b"", f"error: {text}\n".encode())


class Report:
    """Counts what passed and what failed, and names what failed. What can't be tried here is skipped."""

    def __init__(self, top):
        self.top, self.passed, self.failed, self.skipped = top, 0, 0, 0
        # What the gate took most time for, line by line, and whether it has just proved everything.
        self.longest, self.is_proved = [], False
        self.script, self.programs = top / "dmrgate", {}
        self.by_script = False

    def build(self):
        """Has the programs proved and built, where they aren't."""
        self.programs = dict(zip(PROGRAMS, build(PROGRAMS)))

    def begin(self, part):
        """A part starts the programs themselves, past the script that looks after the sources, unless it says otherwise."""
        self.by_script = False
        print(f"== {part}", flush=True)

    def started_for(self, words):
        """What is started for these words: the script, or the program that it would choose."""
        return self.script if self.by_script else self.programs[program_of(words)]

    def expect(self, name, is_so, why=""):
        if is_so:
            self.passed += 1
        else:
            self.failed += 1
            # In one piece, where others are told beside it.
            print(f"FAILED {name}: {why}\n", end="", flush=True)

    def skip(self, count, why):
        """So many can't be tried here."""
        self.skipped += count
        print(f"skipped: {why}", flush=True)

    def add(self, passed, failed, skipped):
        """So many more, which were counted apart."""
        self.passed += passed
        self.failed += failed
        self.skipped += skipped

    def counted(self):
        """All counts in a line, with what was skipped where anything was."""
        return f"{self.passed} passed, {self.failed} failed" + (f", {self.skipped} skipped" if self.skipped else "")

    def call(self, *words, program=None, given=b"", cwd=None, env=None, **streams):
        """Runs what does these words, or the program of this name, with this on its standard input."""
        words = [str(it) for it in words]
        started = self.programs[program] if program else self.started_for(words)
        how = {"stdout": subprocess.PIPE, "stderr": subprocess.PIPE, **streams}
        how.update({} if "stdin" in how else {"input": given})
        ran = subprocess.run([started, *words], cwd=cwd, env=env, timeout=600, **how)
        return Ran(ran.returncode, ran.stdout or b"", ran.stderr or b"")


class Room:
    """A folder with the four files of a run, which is gone at the end."""

    def __init__(self, report, uplink=b"", outgoing=b""):
        self.report = report
        self.held = tempfile.TemporaryDirectory(prefix="dmrgate-check-")
        self.path = pathlib.Path(self.held.name)
        self.uplink, self.outgoing = self.path / "uplink.dmru", self.path / "outgoing.dmro"
        self.downlink, self.received = self.path / "downlink.dmrd", self.path / "received.dmri"
        self.uplink.write_bytes(uplink)
        self.outgoing.write_bytes(outgoing)

    def __enter__(self):
        return self

    def __exit__(self, *_):
        self.held.cleanup()

    def words(self, *more, **places):
        """The words of a run over these files, or over others in their places; a file is left out whose place is None."""
        words = ["run"]
        for name in ("uplink", "outgoing", "downlink", "received"):
            place = places.get(name, getattr(self, name))
            words += [] if place is None else [f"--{name}", place]
        return [*words, *([] if "--llid" in more else ["--llid", 1]), *more]

    def run(self, *more, given=b"", env=None, streams=None, **places):
        words = self.words(*more, **places)
        return self.report.call(*words, given=given, cwd=self.path, env=env, **(streams or {}))

    def outputs(self):
        """What both outputs hold, or None where there is none."""
        return [it.read_bytes() if it.exists() else None for it in (self.downlink, self.received)]


def summary(frames=6, repeated=0, unoffered=0, refused=0):
    """The line of a run with no datagrams that went out or came in."""
    counts = f"received 0 delivered 0 sent 0 given-up 0 refused {refused} unoffered {unoffered}"
    return f"frames {frames} repeated {repeated} {counts}\n".encode()
