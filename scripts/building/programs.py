"""The programs behind the one command: which does what, and how they are made ready."""

import contextlib
import shutil
import signal

from building.building import Building, Built, Changed, Failed
from building.crates import TOP, all_crates, forget, seen, sum_of, with_all_below
from building.ending import Ending
from building.kit import Kit
from building.locking import alone_in
from building.progress import minutes, progress
from building.saying import fail, say, write

FIRST = "dmrgate"

# How much a build that failed says at its end.
LAST_LINES = 40

# With less room on the disk, in octets, that is told where a build fails.
LITTLE_ROOM = 100_000_000


def tools():
    """The commands that another program does than the first, each with that program."""
    lines = (TOP / "scripts/commands").read_text().splitlines()
    return dict(line.split() for line in lines if line and not line.startswith("#"))


PROGRAMS = [FIRST, *dict.fromkeys(tools().values())]


def program_of(words):
    """The program that does what these words ask for: help of a command is that command's own program's."""
    word = next(iter(words[1:2] if words[:1] == ["help"] else words[:1]), "")
    return tools().get(word, FIRST)


def ready(program):
    """The program, where it was built of what stands in the sources, or nothing."""
    built = Built(all_crates()[program])
    return built.made if built.is_there() else None


def costs():
    """The seconds that one processor took for each crate when that was last measured."""
    lines = (TOP / "scripts/costs").read_text().splitlines()
    return {name: int(seconds) for name, seconds in (line.split() for line in lines if line and not line.startswith("#"))}


def tell_failed(fault):
    """Shows the end of what was said of a crate that isn't proved, or isn't built."""
    log = fault.crate.out / "build.log"
    write("".join(f"{line}\n" for line in log.read_text(errors="replace").splitlines()[-LAST_LINES:]))
    if fault.status == -signal.SIGKILL:
        say("it was killed, most likely for want of memory")
    if shutil.disk_usage(fault.crate.out).free < LITTLE_ROOM:
        say("the disk has hardly any room left")
    fail(f"{fault.crate.name} is not proved or not built; all that was said stands in {log.relative_to(TOP)}")


def tell_begun(building):
    """Says what begins, and what to do for who doesn't want to wait."""
    say(f"proving and building {len(building.left)} of {building.total} crates, {minutes(building.seconds_left())}")
    say("for a look at once that proves nothing, ./dmrgate --unproved run ..")


@contextlib.contextmanager
def alone():
    """Keeps other builds out, and notes the signals that ask for an end: answers those, and what keeps the others out."""
    folders = [it.folder for it in all_crates().values() if it.folder.is_dir()]
    with Ending() as ending, alone_in(folders, ending) as held:
        yield ending, held


def states(crates=PROGRAMS):
    """How the sources of each program, or of these crates, stand now."""
    forget()
    return {it: [sum_of(it), *(seen(crate) for crate in with_all_below(it))] for it in crates}


def take_over(before):
    """Takes over what the kit built of these crates, where the sources stand as they did when it began, and did so all the time."""
    with alone():
        for crate, now in states(before).items():
            if now == before[crate]:
                Built(all_crates()[crate]).take_over()


def finish(building, ending):
    """Proves and builds what is left of a building. Answers whether the sources stayed as they were meanwhile."""
    tell_begun(building)
    try:
        building.run(progress(), ending)
    except Failed as fault:
        tell_failed(fault)
    except Changed:
        say("the sources changed meanwhile")
        return False
    return True


def build(programs):
    """Proves and builds these programs, and answers where they are. Once more, where the sources change meanwhile."""
    with alone() as (ending, held):
        while True:
            forget()
            left = [it for it in programs if not ready(it)]
            if not left:
                return [ready(it) for it in programs]
            finish(Building(Kit(), left, costs(), held), ending)


def build_libraries(names):
    """Proves and builds these libraries, which have all that they stand on among them, and answers where each is. Once more, where
    the sources change meanwhile."""
    with alone() as (ending, held):
        while True:
            forget()
            building = Building(Kit(), names, costs(), held)
            if not building.left or finish(building, ending):
                return {name: it.made for name, it in building.built.items()}
