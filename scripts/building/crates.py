"""The crates of the repository: what each stands on, and a sum of what it is made of."""

import functools
import hashlib
import os
import pathlib
import re

TOP = pathlib.Path(__file__).resolve().parent.parent.parent

# What a crate is proved and built from.
PARTS = ("src", "specs", "proofs")


def is_of_an_editor(name):
    """Whether an editor keeps a file of this name beside the one that it edits: a lock, what isn't saved yet, or an older text."""
    return name.startswith((".", "#")) or name.endswith("~")


class Crate:
    """A crate of crates.txt: the crates here that it stands on, and the libraries of the kit that it names."""

    def __init__(self, name, below, of_kit, is_archive=False):
        self.name, self.below, self.of_kit = name, below, of_kit
        self.folder = TOP / "crates" / name
        self.out = self.folder / "out"
        self.is_program = (self.folder / "src/main.rt").is_file()
        self.root = "src/main.rt" if self.is_program else "src/lib.rt"
        # A static library, for programs that are written in C.
        self.is_archive = is_archive
        # What holds all the code that it needs, and stands by itself.
        self.is_linked = self.is_program or is_archive

    def folders(self):
        """Each folder of its sources, with the names of the files in it."""
        for part in PARTS:
            for at, _, names in os.walk(self.folder / part):
                yield at, [it for it in names if not is_of_an_editor(it)]

    def files(self):
        return sorted(os.path.join(at, name) for at, names in self.folders() for name in names)


@functools.lru_cache(maxsize=None)
def all_crates():
    """Every crate by its name, as crates.txt has them."""
    lines = (TOP / "crates.txt").read_text().splitlines()
    said = [re.fullmatch(r"(\w+)([^:]*):(.*)", line).groups() for line in lines if re.match(r"\w", line)]
    kinds = {name: kind.split() for name, kind, _ in said}
    words = {name: libraries.split() for name, _, libraries in said}
    return {
        name: Crate(
            name,
            [it for it in libraries if it in words],
            [it for it in libraries if it not in words],
            "staticlib" in kinds[name],
        )
        for name, libraries in words.items()
    }


@functools.lru_cache(maxsize=None)
def with_all_below(name):
    """A crate and all that it stands on, each behind what it stands on itself."""
    found = {}
    for it in all_crates()[name].below:
        found.update(dict.fromkeys(with_all_below(it)))
    return [*found, name]


def all_below(names):
    """All that these crates stand on, each behind what it stands on itself."""
    return [*dict.fromkeys(it for name in names for it in with_all_below(name)[:-1])]


def own_sum(crate):
    """A sum of the sources of a crate as they stand now."""
    made = hashlib.sha256(repr([crate.name, crate.of_kit]).encode())
    for file in crate.files():
        try:
            with open(file, "rb") as it:
                octets = it.read()
        except FileNotFoundError:
            # It went since the folder was read.
            continue
        made.update(f"{os.path.relpath(file, crate.folder)} {len(octets)}\n".encode() + octets)
    return made.hexdigest()


def mark_of(place):
    """What the system gives anew to a file or a folder whenever it is changed, or nothing where there is none."""
    try:
        it = os.lstat(place)
    except FileNotFoundError:
        return None
    return place, it.st_ino, it.st_size, it.st_mtime_ns, it.st_ctime_ns


def marks_of(crate):
    """The marks of all sources of a crate and of their folders. They also tell of a change that was taken back."""
    return [mark_of(os.path.join(at, name)) for at, names in sorted(crate.folders()) for name in ["", *sorted(names)]]


@functools.lru_cache(maxsize=None)
def seen(name):
    """How the sources of a crate stood when they were first looked at: their marks, which are taken first, and their sum."""
    crate = all_crates()[name]
    return marks_of(crate), own_sum(crate)


def has_changed(name):
    """Whether the sources of a crate were changed since they were first looked at, also where that was taken back."""
    crate = all_crates()[name]
    return (marks_of(crate), own_sum(crate)) != seen(name)


@functools.lru_cache(maxsize=None)
def sum_of(name):
    """A sum of the sources of a crate and of all that it stands on, as they stood when they were first looked at."""
    sums = [seen(name)[1], [sum_of(it) for it in all_crates()[name].below]]
    return hashlib.sha256(repr(sums).encode()).hexdigest()


def forget():
    """Has the sources looked at anew, which may have changed."""
    for it in (all_crates, with_all_below, seen, sum_of):
        it.cache_clear()
