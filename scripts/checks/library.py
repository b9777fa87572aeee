"""The library for programs that are written in C, as ./install puts it in place. The examples over it write for each sample what
the sample has, octet for octet. Misuse is answered, and so is each allocation that is refused."""

import os
import pathlib
import re
import shutil
import subprocess
import sys
import tempfile

from building.libraries import ARCHIVES, is_built_over_the_gate
from building.programs import ready, states, take_over
from checks.program import Room

FLAGS = ["-O2", "-Wall", "-Wextra", "-Werror"]
EXPORT = re.compile(r'^pub extern "C" fn (\w+)', re.MULTILINE)
DECLARED = re.compile(r"^[a-z]\w*(?: \*| )(dmr_\w+)\(", re.MULTILINE)

# What misuse.c prints: each status by its number in dmrgate.h.
MISUSE = """closed: exchange 1 offer 1 take 1 counts 1
nothing is written: 1
settings: 4 4 4 4 4 4 and then 0 and again 0
offers: slot 0 5 slot 3 5 of 70000 6 of 65536 6 of 65535 0 of 0 0
open: exchange 0 take 7 bad settings 4 counts 0 frames 1 offered 2 refused 2
closed twice: 1
"""


class Library:
    """What was installed below a prefix, and how programs over it are built and run."""

    def __init__(self, report, folder):
        self.report, self.folder, self.compiler = report, pathlib.Path(folder), shutil.which("cc")
        self.prefix, self.sources = self.folder / "a prefix", report.top / "share/c"
        self.shared = self.prefix / "lib/libdmrgate.so"

    def run(self, *words, env=None):
        return subprocess.run([str(it) for it in words], capture_output=True, text=True, errors="replace", timeout=600, env=env)

    def install(self):
        """Puts it in place, and answers whether it is there."""
        ran = self.run(self.report.top / "install", self.prefix)
        self.report.expect("the library is installed", ran.returncode == 0, ran)
        return ran.returncode == 0

    def build(self, source, *more):
        """A program over the static library."""
        made = self.folder / source.stem
        words = [*FLAGS, "-I", self.prefix / "include", source, self.prefix / "lib/libdmrgate.a", *more, "-o", made]
        ran = self.run(self.compiler, *words)
        self.report.expect(f"{source.name} is compiled", ran.returncode == 0, ran.stderr)
        return made


def is_built(report, crate):
    """Has a static library built over what was proved before, by the gate or by the kit's other commands, and takes that over for
    ./install. It is built for good where neither has left enough."""
    before = states([crate])
    if ready(crate) or (report.is_proved and is_built_over_the_gate(crate)):
        take_over(before)
        return True
    folder = report.top / "crates" / crate
    ran = subprocess.run(["rt", "lib"], cwd=folder, stdout=subprocess.PIPE, stderr=subprocess.STDOUT, text=True, errors="replace")
    report.expect(f"the static library of {crate} is built", ran.returncode == 0, ran.stdout[-3000:])
    take_over(before)
    return ran.returncode == 0


def check_header(report, library):
    """The header declares what the crates export, and nothing else, and reads as C++ too."""
    sources = [it for crate in ARCHIVES for it in (report.top / "crates" / crate / "src").rglob("*.rt")]
    exported = {name for it in sources for name in EXPORT.findall(it.read_text())}
    declared = set(DECLARED.findall((library.sources / "dmrgate.h").read_text()))
    report.expect("exports are found", len(exported) > 20, exported)
    report.expect("dmrgate.h declares what is exported", declared == exported, declared ^ exported)
    if shutil.which("c++"):
        ran = library.run("c++", "-Wall", "-Werror", "-fsyntax-only", "-x", "c++", library.sources / "dmrgate.h")
        report.expect("dmrgate.h reads as C++", ran.returncode == 0, ran.stderr)
    else:
        report.skip(1, "there is no C++ compiler, c++")


def check_samples(report, library, name, *command):
    """Each sample, octet for octet, with the line that is printed."""
    for sample in sorted(it for it in (report.top / "samples").iterdir() if it.is_dir()):
        wanted = [(sample / it).read_bytes() for it in ("downlink.dmrd", "received.dmri")]
        with Room(report) as room:
            ran = library.run(*command, sample / "uplink.dmru", sample / "outgoing.dmro", room.downlink, room.received)
            is_line = (ran.returncode, ran.stdout, ran.stderr) == (0, (sample / "summary.txt").read_text(), "")
            report.expect(f"{name}, sample {sample.name}: the line", is_line, ran)
            report.expect(f"{name}, sample {sample.name}: the files", room.outputs() == wanted, "other octets")


def check_tests(report, library):
    """Misuse, memory that is refused, and both halves of the library in one program."""
    ran = library.run(library.build(library.sources / "tests/misuse.c"))
    report.expect("misuse is answered", (ran.returncode, ran.stdout) == (0, MISUSE), ran)
    ran = library.run(library.build(library.sources / "tests/memory.c", "-Wl,--wrap=malloc"))
    told = re.fullmatch(r"allocations: (\d+)\n", ran.stdout)
    report.expect("each allocation is refused in turn", ran.returncode == 0 and told and int(told[1]) > 5, ran)
    ran = library.run(library.build(library.sources / "tests/both.c"))
    told = re.fullmatch(r"bursts: (\d+)\n", ran.stdout)
    report.expect("the codes read what the station sends", ran.returncode == 0 and told and int(told[1]) > 5, ran)


def check_valgrind(report, library):
    """Valgrind finds nothing read, written or kept that shouldn't be."""
    sample = report.top / "samples/radios_that_answer"
    inputs = [sample / "uplink.dmru", sample / "outgoing.dmro"]
    commands = {
        "misuse": [library.folder / "misuse"],
        "memory": [library.folder / "memory"],
        "both": [library.folder / "both"],
        "run": [library.folder / "run", *inputs, library.folder / "downlink", library.folder / "received"],
    }
    if not shutil.which("valgrind"):
        report.skip(len(commands), "there is no valgrind")
        return
    for name, command in commands.items():
        ran = library.run("valgrind", "--quiet", "--leak-check=full", "--error-exitcode=99", *command)
        report.expect(f"valgrind finds nothing in {name}", (ran.returncode, ran.stderr) == (0, ""), ran)


def check_page(report, library):
    """The program of docs/c-library.md is built as that page says, by pkg-config alone, and repeats a frame."""
    page = (report.top / "docs/c-library.md").read_text()
    program, printed = re.search(r"```c\n(.*?)```", page, re.DOTALL)[1], re.search(r"```text\n(.*?)```", page, re.DOTALL)[1]
    if not shutil.which("pkg-config"):
        report.skip(1, "there is no pkg-config")
        return
    source, made = library.folder / "page.c", library.folder / "page"
    source.write_text(program)
    env = {**os.environ, "PKG_CONFIG_PATH": str(library.prefix / "lib/pkgconfig"), "SOURCE": str(source), "MADE": str(made)}
    command = f'eval "{library.compiler} \\"$SOURCE\\" -o \\"$MADE\\" $(pkg-config --cflags --libs dmrgate)"'
    ran = library.run("sh", "-c", command, env=env)
    report.expect("the program of the page is compiled", ran.returncode == 0, ran.stderr)
    ran = library.run(made)
    report.expect("the program of the page repeats a frame", (ran.returncode, ran.stdout) == (0, printed), ran)


def check_programs(report, library):
    """The programs in C."""
    if not library.compiler:
        report.skip(1, "there is no C compiler, cc")
        return
    check_samples(report, library, "run.c", library.build(library.sources / "run.c"))
    check_tests(report, library)
    check_valgrind(report, library)
    check_page(report, library)


def check_removed(report, library):
    """What was installed is taken out."""
    ran = library.run(report.top / "install", "--remove", library.prefix)
    left = [str(it) for it in library.prefix.rglob("*")]
    report.expect("the library is taken out", ran.returncode == 0 and not left, (ran, left))


def check(report):
    if not all([is_built(report, it) for it in ARCHIVES]):
        return
    with tempfile.TemporaryDirectory(prefix="dmrgate-library-") as folder:
        library = Library(report, folder)
        if not library.install():
            return
        check_header(report, library)
        check_samples(report, library, "run.py", sys.executable, "-B", library.sources / "run.py", library.shared)
        check_programs(report, library)
        check_removed(report, library)
