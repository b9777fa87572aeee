"""The record of the wrong bodies that were refused: over which texts those of each crate were.

What a wrong body comes to hangs on its own text and on those of its crate, on what the crates below promise, and on the logic. As
long as these stay as they are, to try it once more tells nothing new. How a crate below keeps its promises doesn't matter: a proof
stands on what the functions below promise, and not on their bodies or proofs.
"""

import hashlib
import pathlib
import re

from bodies.edits import files_of
from bodies.functions import functions_of
from building.crates import TOP, all_below, all_crates, forget, seen, with_all_below

RECORD = TOP / "scripts/refused_bodies"

# A line that is a comment alone.
COMMENT = re.compile(r"^ *//.*\n", re.MULTILINE)


def promised_in(text):
    """The text of a source without the bodies of its functions, and without comments. Those for constants keep their bodies, since
    a constant is its value."""
    for it in reversed(functions_of(text)):
        text = text if it.is_constant else text[: it.begin] + text[it.end :]
    return COMMENT.sub("", text)


def promises_of(crate):
    """What a crate promises those above it: its definitions, and its sources without bodies, each by its file's name."""
    files = {pathlib.Path(it).relative_to(crate.folder).as_posix(): pathlib.Path(it) for it in crate.files()}
    specs = [(name, file.read_text()) for name, file in files.items() if name.startswith("specs/")]
    return specs + [(name, promised_in(file.read_text())) for name, file in files.items() if name.startswith("src/")]


def sum_over(name, below, logic):
    """A sum of all that the wrong bodies of a crate hang on, given what those below promise."""
    edits = [(file.name, file.read_text()) for file in files_of(all_crates()[name].folder)]
    return hashlib.sha256(repr([seen(name)[1], edits, below, logic]).encode()).hexdigest()


def sums_over(names, logic):
    """These sums for some crates, of what stands there now."""
    forget()
    promised = {it: promises_of(all_crates()[it]) for it in all_below(names)}
    return {name: sum_over(name, [promised[it] for it in with_all_below(name)[:-1]], logic) for name in names}


def lines():
    return RECORD.read_text().splitlines() if RECORD.is_file() else []


def recorded():
    """The sum of each crate that is on record."""
    return dict(line.split() for line in lines() if line and not line.startswith("#"))


def not_on_record(names, logic):
    """Those of these crates whose wrong bodies weren't refused yet over what stands there now."""
    known = recorded()
    return [name for name, made in sums_over(names, logic).items() if known.get(name) != made]


def put_on_record(name, made, logic):
    """Puts a crate on record by the sum of what its wrong bodies were refused over, where it still is that, or takes it out."""
    known = {it: sum_there for it, sum_there in recorded().items() if it in all_crates() and it != name}
    if made and made == sums_over([name], logic)[name]:
        known[name] = made
    head = [line for line in lines() if line.startswith("#")]
    RECORD.write_text("".join(f"{line}\n" for line in [*head, *(f"{it} {known[it]}" for it in all_crates() if it in known)]))
