"""The wrong bodies of each crate, which the prover has to refuse. Those on record were refused over the very texts that stand
there. They aren't tried again, but for a few in each run."""

import random

from bodies.edits import files_of
from bodies.judging import Verdict
from bodies.record import not_on_record
from bodies.trying import crates_with_edits, tried
from building.crates import all_below, all_crates
from building.kit import Kit
from building.libraries import left_by_the_gate
from building.programs import build_libraries

# So many crates are told of that took longest.
LONGEST = 10

# Of so many crates on record one wrong body is tried again, other ones in each run. So no line of the record goes unseen for good.
AGAIN = 8


def libraries_below(report, names):
    """The libraries that the gate has just left below these crates, or else those that are built here."""
    return (left_by_the_gate(*names) if report.is_proved else None) or build_libraries(all_below(names))


def expect_refused(report, crate):
    """All wrong bodies that were tried of a crate were refused."""
    for edit, (verdict, told) in crate.verdicts.items():
        report.expect(f"{crate.crate.name} {edit.name}", verdict is Verdict.REFUSED, f"{verdict.value}\n{told}")


def check_left(report, kit, left):
    """Tries all of the crates that aren't on record. Answers how many these were, and in how many checks."""
    done = []
    for it in tried(kit, left, libraries_below(report, left)) if left else []:
        expect_refused(report, it)
        print(f"{it.crate.name}: {len(it.verdicts)} wrong bodies in {it.checks} checks, {it.seconds:.0f} s", flush=True)
        done.append(it)
    if done:
        report.longest += ["wrong bodies that aren't on record, of which those of these crates took longest:"]
        rows = sorted(done, key=lambda it: -it.seconds)[:LONGEST]
        report.longest += [f"{it.seconds:7.1f} s {it.crate.name}: {len(it.verdicts)} in {it.checks} checks" for it in rows]
    return sum(len(it.verdicts) for it in done), sum(it.checks for it in done)


def check_again(report, kit, known):
    """Tries a few of those on record again, where the gate has left the libraries below them. Answers how many."""
    names = random.sample(known, min(AGAIN, len(known))) if report.is_proved else []
    files = {name: [random.choice(files_of(all_crates()[name].folder))] for name in names}
    for it in tried(kit, names, libraries_below(report, names), files=files) if names else []:
        expect_refused(report, it)
        told = ", ".join(edit.name for edit in it.verdicts)
        print(f"{it.crate.name}: {told} of its record tried again, {it.seconds:.0f} s", flush=True)
    return len(names)


def check(report):
    """Tries those that aren't on record, and a few that are."""
    kit, names = Kit(), crates_with_edits()
    left = not_on_record(names, kit.logic)
    known = [it for it in names if it not in left]
    count, checks = check_left(report, kit, left)
    again = check_again(report, kit, known)
    on_record = sum(len(files_of(all_crates()[it].folder)) for it in known)
    return f"{count} wrong bodies tried in {checks} checks, {on_record} on record, {again} of these tried again"
