"""Trying wrong bodies: many in one check of their crate, each in another function.

A proof stands on what the functions below it promise, and not on their bodies. So a wrong body in one function leaves the proofs of
all others as they are, and one check tells of each function by itself. It does so too where a function calls another that is
refused, since it is checked there against what the other promises. Most of a check's time goes to what every check of the crate
does, whatever the body says.

An edit that stands outside of bodies is checked by itself, and so is one that came to no verdict beside others.

A refusal counts where the same prover proves what wasn't edited: other functions in the same check, or the crate as it is behind
it.
"""

import concurrent.futures
import pathlib
import shutil
import signal
import subprocess
import tempfile
import time

from bodies.edits import edits_of, files_of
from bodies.judging import Said, Verdict
from building.building import MEMORY, UNKNOWN, free_memory, processors
from building.crates import PARTS, all_crates, with_all_below
from building.programs import costs

# About how many seconds an edit takes beside others.
EACH = 4

# How a check ends that somebody ends.
ENDED = (-signal.SIGINT, -signal.SIGTERM)


class Tried:
    """What the edits of a crate came to, each with the verdict and with what the prover said of it, and how long that took."""

    def __init__(self, crate, verdicts, checks, seconds):
        self.crate, self.verdicts, self.checks, self.seconds = crate, verdicts, checks, seconds

    def is_refused(self):
        """Whether all of them were refused."""
        return all(verdict is Verdict.REFUSED for verdict, _ in self.verdicts.values())


class Trial:
    """The trial of edits of a crate, over the libraries below: of these files, or of all that it has."""

    def __init__(self, kit, crate, below, files=None):
        self.kit, self.crate, self.below, self.files = kit, crate, below, files
        self.checks, self.verdicts = 0, {}

    def check(self, kept, edits, functions=()):
        """Checks a copy of the crate with these edits: all of it, or these functions and what they call."""
        self.checks += 1
        with tempfile.TemporaryDirectory(prefix="dmrgate-bodies-") as room:
            for part in PARTS:
                if (self.crate.folder / part).is_dir():
                    shutil.copytree(self.crate.folder / part, f"{room}/{part}")
            for edit in edits:
                edit.apply(pathlib.Path(room))
            words = [str(it) for it in self.kit.check(self.crate, self.below, kept, functions)]
            how = {"stdin": subprocess.DEVNULL, "stdout": subprocess.PIPE, "stderr": subprocess.STDOUT}
            ran = subprocess.run(words, cwd=room, text=True, errors="replace", **how)
        if ran.returncode in ENDED:
            raise KeyboardInterrupt
        return Said(self.crate.name, ran.returncode, ran.stdout)

    def try_together(self, kept, edits):
        """Tries edits of bodies in as few checks as no two of a function are in one."""
        while edits:
            batch = batch_of(edits)
            functions = sorted(path for edit in batch for path in edit.functions)
            said = self.check(kept, batch, functions)
            beside = said.beside(batch)
            is_clear = said.is_read() and Verdict.REFUSED not in beside
            is_clear = is_clear and (Verdict.PROVED in beside or self.is_proved(kept, batch))
            for edit in batch:
                verdict = said.verdict_in(edit.functions, False) if is_clear else Verdict.UNCLEAR
                self.verdicts[edit] = verdict, said.about(edit.functions)
            edits = [it for it in edits if it not in batch]

    def try_alone(self, kept, edits, is_each):
        """Tries edits one by one: each in the functions that refuse it, where they are known and not all of the crate is asked for.
        Behind them the crate is checked as it is."""
        for edit in edits:
            functions = [] if is_each else sorted(edit.functions)
            said = self.check(kept, [edit], functions)
            verdict = said.verdict_in(functions, True) if functions else said.verdict_in_all()
            self.verdicts[edit] = verdict if said.is_read() else Verdict.UNCLEAR, said.about(functions)
        if edits and not self.is_proved(kept, [] if is_each else edits):
            why = "the crate isn't proved as it is, so that a refusal tells nothing"
            self.verdicts.update({it: (Verdict.UNCLEAR, why) for it in edits})

    def is_proved(self, kept, edits):
        """Whether the crate as it is is proved in the functions of these edits, or all of it. Where it isn't, a refusal tells
        nothing of what was edited."""
        functions = sorted({path for edit in edits for path in edit.functions}) if all(it.functions for it in edits) else []
        said = self.check(kept, [], functions)
        return (said.verdict_in(functions, True) if functions else said.verdict_in_all()) is Verdict.PROVED

    def run(self, is_each):
        begun = time.monotonic()
        edits = edits_of(self.crate.folder, self.files)
        with tempfile.TemporaryDirectory(prefix="dmrgate-bodies-kept-") as kept:
            self.try_together(kept, [it for it in edits if not it.is_alone and not is_each])
            unclear = [it for it in edits if self.verdicts.get(it, (Verdict.UNCLEAR,))[0] is Verdict.UNCLEAR]
            self.try_alone(kept, unclear, is_each)
        return Tried(self.crate, self.verdicts, self.checks, time.monotonic() - begun)


def batch_of(edits):
    """The first of these edits, and each further one in whose functions none before it stands."""
    batch, taken = [], set()
    for edit in edits:
        if taken.isdisjoint(edit.functions):
            batch.append(edit)
            taken |= edit.functions
    return batch


def crates_with_edits():
    """The crates that have wrong bodies."""
    return [name for name, crate in all_crates().items() if files_of(crate.folder)]


def long_first(names):
    """These crates in the order in which they are tried: those first that take longest, as far as is known."""
    known = costs()
    return sorted(names, key=lambda it: -known.get(it, UNKNOWN) - EACH * len(files_of(all_crates()[it].folder)))


def tried(kit, names, libraries, is_each=False, files=None):
    """Tries the wrong bodies of these crates, many in one check or each in one of all its crate: all of them, or these files of
    each crate. As many crates are tried at once as processors and memory allow. Answers each crate when it is done."""
    lanes = max(1, min(processors(), free_memory() // MEMORY))
    with concurrent.futures.ThreadPoolExecutor(lanes) as pool:
        below = {name: {it: libraries[it] for it in with_all_below(name)[:-1]} for name in names}
        trials = [Trial(kit, all_crates()[name], below[name], files and files[name]) for name in long_first(names)]
        begun = [pool.submit(it.run, is_each) for it in trials]
        try:
            yield from (it.result() for it in concurrent.futures.as_completed(begun))
        finally:
            # Where somebody ended it, no more begins.
            pool.shutdown(wait=False, cancel_futures=True)
