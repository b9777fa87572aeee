"""The module of the page: a static library for WebAssembly with a 64-bit memory, linked."""

import hashlib
import time

from building.building import EVERY, Building, Command, Failed
from building.crates import all_crates, forget, sum_of, with_all_below
from building.kit import Kit
from building.libraries import left_by_the_gate
from building.programs import alone, costs, tell_failed
from building.progress import progress
from building.saying import say

CRATE = "dmr_web"
TARGET = "wasm64-unknown-unknown"


class Module:
    """The module, and the sum of what it was built from."""

    def __init__(self, kit):
        self.kit, self.crate = kit, all_crates()[CRATE]
        self.archive, self.made = self.crate.out / "page.a", self.crate.out / "page.wasm"
        self.log, self.built_of = self.crate.out / "build.log", self.crate.out / "page.sources"
        self.sum = hashlib.sha256(f"{sum_of(CRATE)} {kit.identity}".encode()).hexdigest()

    def is_there(self):
        return self.made.is_file() and self.built_of.is_file() and self.built_of.read_text() == self.sum

    def compiling(self, below):
        """The words that prove it over the libraries below, and compile it."""
        yield from (self.kit.compiler, "build", "--crate-name", CRATE, self.crate.root, "--crate-type", "staticlib")
        yield from self.kit.libraries(self.crate, below)
        yield from ("--antt-project", f"{self.kit.folder}/rattle/logic/antt-project.json")
        yield from ("--logic-built", f"{self.kit.folder}/logic_built", "--links", f"{CRATE}=", "--jobs", "2")
        yield from ("--target", TARGET, "--toolchain", f"{self.kit.folder}/toolchain", "--backend", "llvm", "-o", self.archive)

    def linking(self):
        yield from (self.kit.folder / "bin/rattle-link", "--target", TARGET, "--toolchain", f"{self.kit.folder}/toolchain")
        yield from ("-o", self.made, self.archive)

    def build(self, below, held, ending):
        """Proves it, compiles it and links it. A command that fails is told with the end of what it said."""
        self.crate.out.mkdir(exist_ok=True)
        self.log.write_text("")
        self.built_of.unlink(missing_ok=True)
        for words in (self.compiling(below), self.linking()):
            command = Command(words, self.crate.folder, self.log, held)
            try:
                while not command.has_ended():
                    ending.look()
                    time.sleep(EVERY)
            finally:
                status = command.end()
            if status:
                raise Failed(self.crate, status)
        self.built_of.write_text(self.sum)


def is_module_built_over_the_gate():
    """Builds the module over the libraries that the gate has just left, where it has left all of them. Answers whether it did."""
    below = left_by_the_gate(CRATE)
    if below is None:
        return False
    with alone() as (ending, held):
        forget()
        module = Module(Kit())
        try:
            if not module.is_there():
                module.build(below, held, ending)
        except Failed:
            return False
    return True


def build_module():
    """Proves and builds the module, where its sources have changed, and answers its octets."""
    with alone() as (ending, held):
        forget()
        module = Module(Kit())
        if not module.is_there():
            try:
                building = Building(module.kit, module.crate.below, costs(), held)
                say(f"proving and building the module of the page, and {len(building.left)} crates below it")
                building.run(progress(), ending)
                module.build({it: building.built[it].made for it in with_all_below(CRATE)[:-1]}, held, ending)
            except Failed as fault:
                tell_failed(fault)
        return module.made.read_bytes()
