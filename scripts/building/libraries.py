"""The library for programs that are written in C: one static library of all that is for them, and a shared one of it."""

import pathlib
import subprocess
import tempfile

from building.building import MOST_JOBS, processors
from building.crates import all_below, all_crates
from building.kit import Kit
from building.saying import fail

# The crates whose exports it has.
ARCHIVES = ["dmr_c", "dmr_codecs"]

STATIC, SHARED = "libdmrgate.a", "libdmrgate.so"


def archives():
    """Those crates, as far as there are any."""
    return [it for it in ARCHIVES if it in all_crates()]


def is_of_the_gate(library):
    """Whether the gate has left a library: it has no mark of another build, neither of one here nor of the kit's own."""
    return (library / "format").is_file() and not any((library.parent / mark).exists() for mark in ("sources", "stamp"))


def left_by_the_gate(*names):
    """The libraries below these crates that the gate has just left, or nothing where it hasn't left all of them."""
    below = {it: all_crates()[it].out / f"rlib/{it}.rlib" for it in all_below(names)}
    return below if all(map(is_of_the_gate, below.values())) else None


def is_built_over_the_gate(name):
    """Builds a static library over the libraries that the gate has just left, where it has left all of them. Answers whether it
    did. No other command of the kit builds over these."""
    crate, below = all_crates()[name], left_by_the_gate(name)
    if below is None:
        return False
    crate.out.mkdir(exist_ok=True)
    words = Kit().build(crate, below, min(MOST_JOBS, processors()), f"out/lib{name}.a", False)
    return subprocess.run([str(it) for it in words], cwd=crate.folder, capture_output=True).returncode == 0


def made_by(words):
    """Runs a command of the kit that makes a file."""
    ran = subprocess.run([str(it) for it in words], capture_output=True, text=True, errors="replace")
    if ran.returncode:
        fail(f"{pathlib.Path(words[0]).name} ended with status {ran.returncode}: {ran.stderr.strip()}")


def join(built):
    """Both libraries by their names, of the static libraries that were built of these crates."""
    kit = Kit()
    with tempfile.TemporaryDirectory(prefix="dmrgate-library-") as folder:
        static, shared = pathlib.Path(folder) / STATIC, pathlib.Path(folder) / SHARED
        made_by([*kit.archive(built, static)])
        made_by([*kit.share(static, shared)])
        return {it.name: it.read_bytes() for it in (static, shared)}
