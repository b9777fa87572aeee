"""Crates that are proved and built side by side, each as soon as what it stands on is there."""

import functools
import hashlib
import os
import pathlib
import shutil
import signal
import subprocess
import time

from building.crates import all_crates, has_changed, sum_of, with_all_below

# What a check takes at most, as far as was seen; so many run at once as the memory has room for.
MEMORY = 2_000_000_000

# About how much faster a crate is with so many jobs than with one: a guess from a few crates, for estimates of the time left.
GAIN = {1: 1.0, 2: 1.5, 3: 1.8, 4: 2.1}
MOST_JOBS = max(GAIN)

# The seconds that a crate takes of which an earlier build kept what it proved.
AGAIN = 20

# The seconds of a crate of which nothing is known.
UNKNOWN = 60

# How often it is looked at what has ended, in seconds.
EVERY = 0.05


class Failed(Exception):
    """A crate that isn't proved, or isn't built, and the status of the command that failed."""

    def __init__(self, crate, status):
        super().__init__(crate.name)
        self.crate, self.status = crate, status


class Changed(Exception):
    """A crate whose sources changed since they were looked at."""


def processors():
    """How many processors there are to use."""
    return len(os.sched_getaffinity(0))


def free_memory():
    """The memory that is free, in octets."""
    lines = pathlib.Path("/proc/meminfo").read_text().splitlines()
    return next(1024 * int(it.split()[1]) for it in lines if it.startswith("MemAvailable:"))


class Built:
    """What was built of a crate, a library or a program, and the sum of what it was built from. A library serves one kit alone, and
    only beside those builds of the libraries below that it was built over; a program and a static library stand by themselves."""

    def __init__(self, crate, kit=None, below=()):
        self.crate, self.below = crate, [] if crate.is_linked else below
        self.sum = sum_of(crate.name) + ("" if crate.is_linked else f" {kit.identity}")
        linked = "program" if crate.is_program else "archive"
        self.made = crate.out / (linked if crate.is_linked else f"rlib/{crate.name}.rlib")
        self.built_of = crate.out / (f"{linked}.sources" if crate.is_linked else "rlib/sources")
        # The file of a library that has the sum of all its others.
        self.whole = self.made if crate.is_linked else self.made / "format"
        # A program is made beside its place, so that one that runs goes on with its own.
        self.new = crate.out / f"{linked}.new" if crate.is_linked else self.made

    def said(self):
        """What was kept of the last build: its sum, and the libraries that it was built over."""
        return self.built_of.read_text().splitlines() if self.built_of.is_file() else []

    @functools.cached_property
    def identity(self):
        """What tells this build of a library from another. It is asked for when the library is built for good."""
        return hashlib.sha256(self.whole.read_bytes()).hexdigest()

    def is_there(self):
        """Whether it was built of the sources as they stand."""
        return self.whole.exists() and self.said()[:1] == [self.sum]

    def fits(self):
        """Whether it was built over the libraries below as they are now, all of which are there."""
        return self.said()[1:] == [it.identity for it in self.below]

    def was_there(self):
        """Whether it was built here before, of other sources."""
        return self.built_of.is_file() or (self.crate.out / "incremental").is_dir()

    def clear(self):
        """Makes room for what is built anew. A program stays until another takes its place."""
        if not self.crate.is_linked:
            self.built_of.unlink(missing_ok=True)
            shutil.rmtree(self.made.parent, ignore_errors=True)
        self.made.parent.mkdir(parents=True, exist_ok=True)

    def keep(self):
        """Puts in its place what was made."""
        if self.crate.is_linked:
            # A program never stands beside the sum of another's sources.
            self.built_of.unlink(missing_ok=True)
            self.new.replace(self.made)
        self.built_of.write_text("".join(f"{line}\n" for line in [self.sum, *(it.identity for it in self.below)]))

    def take_over(self):
        """Takes over what the kit built of these sources: it leaves a program under the crate's name, and a static library as C has
        it."""
        built = self.crate.out / (self.crate.name if self.crate.is_program else f"lib{self.crate.name}.a")
        if built.is_file():
            self.clear()
            shutil.copy(built, self.new)
            self.keep()


class Command:
    """A command that runs in a session of its own, with all that it starts, and inherits what keeps other builds out."""

    def __init__(self, words, folder, log, held):
        words = [str(it) for it in words]
        with log.open("ab") as said:
            how = {"stdin": subprocess.DEVNULL, "stdout": said, "stderr": subprocess.STDOUT, "pass_fds": held}
            self.process = subprocess.Popen(words, cwd=folder, start_new_session=True, **how)

    def has_ended(self):
        """Whether it has ended. Until `end`, no other process gets its number."""
        return os.waitid(os.P_PID, self.process.pid, os.WEXITED | os.WNOHANG | os.WNOWAIT) is not None

    def end(self):
        """Ends what still runs of it and of all that it started, and answers its status."""
        os.killpg(self.process.pid, signal.SIGKILL)
        return self.process.wait()


class Work:
    """A crate that is being proved and built, with what its commands say in a file."""

    def __init__(self, kit, built, below, jobs, held):
        self.kit, self.built, self.below, self.jobs, self.held = kit, built, below, jobs, held
        self.crate, self.begun = built.crate, time.monotonic()
        self.log = self.crate.out / "build.log"
        self.fault = self.command = None
        # Who builds a crate again works on it: then its proofs are kept, which takes room, and the next change proves less.
        self.keeps = built.was_there()
        built.clear()
        self.log.write_text("")
        self.steps = list(self.commands())
        self.begin()

    def commands(self):
        made = self.built.new.relative_to(self.crate.folder)
        if not self.crate.is_program:
            yield self.kit.build(self.crate, self.below, self.jobs, made, self.keeps)
            return
        yield self.kit.build(self.crate, self.below, self.jobs, "out/program.o", self.keeps)
        yield self.kit.link("out/program.o", made)

    def begin(self):
        self.command = Command(self.steps.pop(0), self.crate.folder, self.log, self.held)

    def is_over(self):
        """Whether it has ended, well or at a fault. Where a command has ended well, the next one begins."""
        if not self.command.has_ended():
            return False
        status = self.end()
        if status == 0 and self.steps:
            self.begin()
            return False
        if has_changed(self.crate.name):
            self.fault = Changed(self.crate.name)
        elif status:
            self.fault = Failed(self.crate, status)
        else:
            self.built.keep()
        return True

    def seconds(self):
        """How long it has taken so far."""
        return time.monotonic() - self.begun

    def end(self):
        """Ends the command that runs, if one does, and answers its status."""
        command, self.command = self.command, None
        return command.end() if command else None


class Building:
    """All that is to be built for some programs."""

    def __init__(self, kit, programs, costs, held):
        self.kit, self.held, self.lanes = kit, held, processors()
        names = dict.fromkeys(it for program in programs for it in with_all_below(program))
        self.built = {}
        for it in names:
            self.built[it] = Built(all_crates()[it], kit, self.built_below(it))
        self.total, self.running, self.spent, self.expected = len(names), {}, 0.0, 0.0
        self.left = [it for it in names if not self.built[it].is_there()]
        self.doubt()
        self.costs = {it: self.cost_of(it, costs.get(it, UNKNOWN)) for it in names}
        self.chains = {}
        for name in reversed([*names]):
            above = [self.chains[it] for it in names if name in all_crates()[it].below]
            self.chains[name] = self.costs[name] + max(above, default=0)

    @staticmethod
    def cost_of(name, from_nothing):
        """The seconds that a crate is expected to take with one job."""
        is_kept = (all_crates()[name].out / "incremental").is_dir()
        return min(from_nothing, AGAIN) if is_kept else from_nothing

    def waits(self, name):
        """Whether a crate has to wait for another below it. All of those are at hand when it is built, not only those it names."""
        unfinished = {*self.left, *self.running}
        return not unfinished.isdisjoint(with_all_below(name)[:-1])

    def built_below(self, name):
        return [self.built[it] for it in with_all_below(name)[:-1]]

    def doubt(self):
        """Has libraries built anew that no longer fit those below, one of which is another build. One that waits comes later."""
        for name, built in self.built.items():
            if name not in self.left and name not in self.running and not self.waits(name) and not built.fits():
                self.left.append(name)

    def idle(self):
        return self.lanes - sum(it.jobs for it in self.running.values())

    def begin(self, name, jobs):
        """Begins a crate, where neither its sources nor those of what it stands on have changed."""
        changed = [it for it in with_all_below(name) if has_changed(it)]
        if changed:
            raise Changed(*changed)
        self.left.remove(name)
        below = {it.crate.name: it.made for it in self.built_below(name)}
        self.running[name] = Work(self.kit, self.built[name], below, jobs, self.held)

    def holds_up(self, name):
        """Whether the longest chain that is left begins with a crate, and other processors would be done with all else before."""
        rest = sum(self.costs[it] for it in [*self.left, *self.running])
        is_longest = self.chains[name] == max(self.chains[it] for it in self.left)
        return is_longest and self.chains[name] * (self.lanes - 1) > rest

    def begin_more(self):
        """Begins as many crates as processors and memory allow, those with the longest chain above them first."""
        ready = sorted((it for it in self.left if not self.waits(it)), key=lambda it: -self.chains[it])
        memory = free_memory()
        while ready and self.idle() > 0 and (not self.running or memory >= MEMORY):
            # Processors that no other crate could use help the one with the longest chain, and one more where it holds up all else.
            jobs = max(self.idle() - len(ready) + 1, 2 if self.holds_up(ready[0]) else 1)
            jobs = max(1, min(MOST_JOBS, self.idle(), jobs, memory // MEMORY))
            self.begin(ready.pop(0), jobs)
            memory -= MEMORY * jobs

    def take_ended(self):
        """Takes the crates that have ended, one by one, and answers them. Where one is at fault, the others are kept."""
        ended = [work for work in self.running.values() if work.is_over()]
        for fault in [work.fault for work in ended if work.fault]:
            raise fault
        for work in ended:
            del self.running[work.crate.name]
            self.spent += work.seconds() * GAIN[work.jobs]
            self.expected += self.costs[work.crate.name]
            self.doubt()
            yield work

    def seconds_left(self):
        """How long it will take still: by what is expected, and by how fast this machine was so far."""
        pace = (self.spent + UNKNOWN) / (self.expected + UNKNOWN)
        rest = {it: self.costs[it] for it in self.left}
        for name, work in self.running.items():
            rest[name] = max(self.costs[name] - work.seconds() * GAIN[work.jobs] / pace, 0)
        chain = max((self.chains[it] - self.costs[it] + seconds for it, seconds in rest.items()), default=0)
        # A chain that holds up all else has two jobs most of the time.
        return pace * max(chain / GAIN[min(self.lanes, 2)], sum(rest.values()) / self.lanes)

    def end(self):
        for work in self.running.values():
            work.end()

    def run(self, progress, ending):
        """Proves and builds all; one that fails ends the others, and so does a signal that asks for an end."""
        try:
            while self.left or self.running:
                ending.look()
                for work in self.take_ended():
                    progress.ended(self, work)
                self.begin_more()
                progress.show(self)
                time.sleep(EVERY)
        finally:
            self.end()
            progress.close()
