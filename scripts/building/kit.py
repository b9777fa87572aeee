"""The Rattle kit: where it is, and the words of its compiler and its linker for libraries and programs."""

import pathlib
import shutil
import subprocess

from building.saying import fail

TARGET = "x86_64-unknown-linux-gnu"


def found_rt():
    """The kit's command."""
    return shutil.which("rt") or fail("to build it, the command rt of the Rattle kit has to be on the path")


def answer_of(*words):
    """What a command prints, in one line."""
    # In a session of its own a signal from the terminal doesn't end it, which would be taken for its failure.
    ran = subprocess.run(words, capture_output=True, text=True, errors="replace", start_new_session=True)
    if ran.returncode:
        fail(f"{' '.join(words)} ended with status {ran.returncode}: {ran.stderr.strip()}")
    return ran.stdout.strip()


class Kit:
    """The kit whose command rt is on the path."""

    def __init__(self):
        rt = found_rt()
        # The page that the kit says to read first stands in its folder.
        self.folder = pathlib.Path(answer_of(rt, "doc")).parent
        self.compiler = self.folder / "bin/rattle"
        if not self.compiler.is_file():
            fail(f"{rt} is of no Rattle kit that could build it: there is no {self.compiler}")
        version = answer_of(rt, "version")
        self.identity = f"{self.folder} {version}"
        # What kits that prove the same have in common.
        self.logic = version.partition(" logic ")[2]

    def libraries(self, crate, below):
        """The words for what a crate stands on: libraries of the kit, and those of the repository, which are built."""
        for name in ["std", *crate.of_kit]:
            yield from ("--extern", f"{name}={self.folder}/rlibs/{name}.rlib")
        for it in crate.below:
            yield from ("--extern", f"{it}={below[it]}")
        yield from ("-L", f"dependency={self.folder}/rlibs")
        for library in below.values():
            yield from ("-L", f"dependency={library.parent}")

    def subject(self, crate, below, jobs):
        """The words for a crate that is to be proved: what it stands on, the logic, and how many jobs there are for it."""
        yield from ("--crate-name", crate.name, crate.root)
        yield from self.libraries(crate, below)
        yield from ("--antt-project", f"{self.folder}/rattle/logic/antt-project.json")
        yield from ("--logic-built", f"{self.folder}/logic_built")
        yield from ("--links", f"{crate.name}=", "--jobs", str(jobs))
        if crate.is_archive:
            yield from ("--crate-type", "staticlib")

    def check(self, crate, below, kept, functions):
        """The words that check a crate with one job, over what earlier checks kept. With functions they check these and what these
        call. Then each is checked to its end, also where it calls another that is refused."""
        yield from (self.compiler, "check")
        yield from self.subject(crate, below, 1)
        yield from ("--incremental", kept)
        for it in functions:
            yield from ("--only", it)
        if functions:
            yield from ("--allow-holes", "--short-goals")

    def build(self, crate, below, jobs, made, keeps):
        """The words that prove a crate and build it, over what an earlier build kept of its proofs, or at once. Of a library that
        was built at once the crates above load what it states, and none of its proofs."""
        yield from (self.compiler, "build")
        yield from self.subject(crate, below, jobs)
        if crate.is_linked:
            yield from ("--toolchain", f"{self.folder}/toolchain", "--backend", "llvm")
        if keeps:
            yield from ("--incremental", "out/incremental")
        elif not crate.is_linked:
            yield "--statements"
        yield from ("-o", made)

    def link(self, compiled, made):
        """The words that make a program of what was compiled."""
        yield from (self.folder / "bin/rattle-link", "--target", TARGET, "--toolchain", f"{self.folder}/toolchain")
        yield from ("-o", made, compiled, f"{self.folder}/c/libos_c.a", f"{self.folder}/c/liblibc_c.a")

    def archive(self, archives, made):
        """The words that make one static library of others, with what they take memory by."""
        yield from (self.folder / "toolchain/bin/llvm-ar", "qcL", made, *archives, self.folder / "c/liblibc_c.a")

    def share(self, archive, made):
        """The words that make a shared library of a static one."""
        yield from (self.folder / "toolchain/bin/ld.lld", "-shared", "-o", made, "-soname", made.name)
        yield from ("--whole-archive", archive, "--no-whole-archive", self.folder / "toolchain/lib/libc.so.6")
