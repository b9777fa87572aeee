"""How the script dmrgate builds: side by side, with what it tells meanwhile, up to a failure or a signal. A stand-in is built."""

import fcntl
import os
import re
import signal
import struct
import termios

from checks.standin import ALL, FIRST, LIBRARIES, WAITS, WORDS, in_trees

# Waits until this was said of a crate, or the test is over.
UNTIL = 'until grep -q "{}" "$top/said" || [ ! -e "$top" ]; do sleep 0.001; done\n'

# A command that begins another one, neither of which ends by itself.
FOR_EVER = "sleep 60 & sleep 60"

# What a shell does before the script is started.
CLOSED, ALL_CLOSED, IGNORED = "exec 2>&-", "exec 0<&- 2>&-", "trap '' HUP"


def check_side_by_side(tree):
    """Two crates that have nothing common but the lowest are built at once, and each behind what it stands on."""
    tree.does("before", "left", UNTIL.format("begin right"))
    tree.does("before", "right", UNTIL.format("begin left"))
    ran = tree.run("--build")
    said = tree.said()
    wanted = sorted(f"{it} {crate}" for it in ("begin", "end") for crate in ALL)
    tree.expect("each crate is built once", ran.returncode == 0 and sorted(said) == wanted, said)
    at = {line: place for place, line in enumerate(said)}
    is_so = max(at["begin left"], at["begin right"]) < min(at["end left"], at["end right"])
    tree.expect("crates are built side by side", is_so, said)
    for program, libraries in LIBRARIES.items():
        is_behind = all(at["end low"] < at[f"begin {it}"] for it in libraries[1:])
        is_behind = is_behind and all(at[f"end {it}"] < at[f"begin {program}"] for it in libraries)
        tree.expect(f"{program} is built behind its libraries", is_behind, said)


def check_lines(tree):
    """Where standard error is no terminal, each crate has its line behind those that tell what begins."""
    lines = tree.run(*WORDS).stderr.splitlines()
    begins = lines[0].startswith("dmrgate: proving and building 4 of 4 crates, ")
    tree.expect("what begins is told", begins and "--unproved" in lines[1], lines)
    line = re.compile(r"dmrgate: (\w+) is proved and built, in \d+ s(?: with \d jobs)?: (\d) of 4 crates, .* left")
    told = [line.fullmatch(it) for it in lines[2:]]
    is_so = all(told) and sorted(it[1] for it in told) == sorted(FIRST) and [it[2] for it in told] == list("1234")
    tree.expect("a line for each crate", is_so, lines)


def on_terminal(tree, columns):
    """Runs the script on a terminal that is so wide, and answers the status, standard output and what the terminal got."""
    ours, its = os.openpty()
    fcntl.ioctl(its, termios.TIOCSWINSZ, struct.pack("HHHH", 25, columns, 0, 0))
    process = tree.start(*WORDS, before="export TERM=xterm", stderr=its)
    os.close(its)
    got = b""
    try:
        while True:
            got += os.read(ours, 4096)
    except OSError:
        # Nobody has the other end any more.
        os.close(ours)
    return process.wait(), process.communicate()[0].decode(), got.decode()


def check_terminal(tree):
    """Where standard error is a terminal, one line of it is renewed."""
    for columns in (120, 30):
        tree.edit("low", f"on {columns} columns\n")
        tree.does("before", "low", "sleep 0.1")
        status, out, got = on_terminal(tree, columns)
        tree.expect("the terminal: what ran", (status, out) == (0, tree.printed(*WORDS)), out)
        first, second, rest = got.split("\r\n", 2)
        tree.expect("the terminal: what begins is told", "building 4 of 4 crates" in first and "--unproved" in second, got)
        shown = rest.split("\r\x1b[K")
        is_so = "\n" not in rest and shown[0] == shown[-1] == "" and all(re.match(r"\d of 4 crates, ", it) for it in shown[1:-1])
        tree.expect("the terminal: one line is renewed, and gone at the end", is_so and len(shown) > 4, got)
        tree.expect("the terminal: the line fits", max(map(len, shown)) < columns, got)
        tree.expect("the terminal: it names what is built", columns < 100 or re.search(r"0 of 4 crates, .* left: low", rest), got)
    ended = on_terminal(tree, 80)
    tree.expect("the terminal: nothing where nothing is built", ended == (0, tree.printed(*WORDS), ""), ended)


def check_streams(tree):
    """Where nobody reads standard error, the program is built and runs all the same."""
    read, broken = os.pipe()
    os.close(read)
    with open("/dev/full", "wb") as full, os.fdopen(broken, "wb") as pipe:
        for name, streams in (
            ("broken", {"stderr": pipe}),
            ("full", {"stderr": full}),
            ("closed", {"before": CLOSED}),
            ("closed with the others", {"before": ALL_CLOSED}),
        ):
            tree.edit("dmrgate", f"{name}\n")
            status, out, _ = tree.ended(tree.start(*WORDS, **streams))
            tree.expect(f"standard error is {name}", (status, out) == (0, tree.printed(*WORDS)), (status, out))
            tree.edit("dmrgate", f"{name}, once more\n")
            tree.does("before", "dmrgate", "exit 1")
            status, out, _ = tree.ended(tree.start(*WORDS, **streams))
            tree.expect(f"standard error is {name}, and a build fails", (status, out) == (1, ""), (status, out))


def check_failure(tree):
    """A crate that fails ends what is built beside it, and is told; what was built before isn't built again."""
    log = "crates/left/out/build.log"
    tree.does("before", "right", FOR_EVER)
    tree.does("before", "left", UNTIL.format("begin right") + "seq 100; echo a function is not proved; exit 1")
    ran = tree.run(*WORDS)
    told = f"dmrgate: left is not proved or not built; all that was said stands in {log}\n"
    tree.expect_refused("a build that fails", ran, "\na function is not proved\n", told)
    tree.expect("a build that fails shows the end", "\n70\n" in ran.stderr and "\n50\n" not in ran.stderr, ran)
    said = (tree.top / log).read_text()
    tree.expect("a build that fails: all that was said is kept", said.startswith("1\n2\n"), said)
    tree.expect("a build that fails ends the others", tree.wait_for(lambda: not tree.processes()), tree.processes())
    tree.expect_run("after a build that failed", ["left", "right", "dmrgate"])


def check_failures(tree):
    """Other ways to fail."""
    tree.does("before", "link dmrgate", "echo no linking; exit 1")
    tree.expect_refused("a program that isn't linked", tree.run(*WORDS), "no linking", "dmrgate is not proved or not built")
    tree.expect_run("after a program that wasn't linked", ["dmrgate"])
    tree.edit("dmrgate", "a wrong main\n")
    tree.does("before", "dmrgate", "exit 1")
    tree.expect_refused("a program that isn't proved", tree.run(*WORDS), "dmrgate is not proved or not built")
    tree.edit("dmrgate", "dmrgate\n")
    tree.expect_run("a wrong edit of the program that is taken back", [])
    tree.edit("left", "killed\n")
    tree.does("before", "left", "kill -9 $$")
    tree.expect_refused("a build that is killed", tree.run(*WORDS), "it was killed", "left is not proved")
    tree.expect_run("after a build that was killed", ["left", "dmrgate"])
    tree.edit("low", "two that end at once\n")
    tree.does("before", "left", UNTIL.format("end right") + "exit 1")
    tree.begun()
    tree.expect_refused("a failure beside a good end", tree.run(*WORDS), "left is not proved")
    tree.expect_run("after a failure beside a good end", ["left", "dmrgate"])


def check_full_disk(tree):
    """Where a build fails and the disk is full, that is told."""
    tree.does("before", "low", "exit 1")
    tree.expect("there is room on the disk", "room left" not in tree.run(*WORDS).stderr)
    programs = tree.top / "scripts/building/programs.py"
    programs.write_text(programs.read_text().replace("LITTLE_ROOM = 100_000_000", "LITTLE_ROOM = 10**30"))
    tree.does("before", "low", "exit 1")
    tree.expect_refused("a full disk", tree.run(*WORDS), "the disk has hardly any room left", "low is not proved")


def check_left_behind(tree):
    """What a command leaves behind is ended with it, whether it fails or not."""
    tree.does("before", "low", "sleep 60 &")
    tree.does("before", "left", "sleep 60 & exit 1")
    tree.expect_refused("a command that leaves another behind", tree.run(*WORDS), "left is not proved")
    tree.expect("what was left behind is ended", tree.wait_for(lambda: not tree.processes()), tree.processes())


def check_no_linker(tree):
    """Where a crate can't go on with its next command, what is built beside it is ended all the same."""
    linker = tree.kit / "bin/rattle-link"
    tree.does("before", "side", FOR_EVER)
    tree.does("after", "dmrgate", UNTIL.format("begin side") + f"rm '{linker}'")
    tree.expect_refused("a linker that is gone", tree.run("--build"), f"dmrgate: {linker}: No such file")
    tree.expect("a linker that is gone: the others are ended", tree.wait_for(lambda: not tree.processes()), tree.processes())


def check_signals(tree):
    """What asks for an end ends all that was begun."""
    for number in (signal.SIGINT, signal.SIGTERM, signal.SIGHUP):
        tree.does("before", "low", FOR_EVER)
        process = tree.start(*WORDS)
        tree.wait_for(lambda: len(tree.processes()) > 2)
        process.send_signal(number)
        status, out, err = tree.ended(process)
        tree.expect(f"{number!r}", (status, out) == (128 + number, "") and "Traceback" not in err, (status, out, err))
        tree.expect(f"{number!r} ends all", tree.wait_for(lambda: not tree.processes()), tree.processes())
    tree.does("before", "low", WAITS)
    process = tree.start(*WORDS, before=IGNORED)
    tree.wait_for(tree.processes)
    process.send_signal(signal.SIGHUP)
    tree.goes_on()
    status, out, _ = tree.ended(process)
    tree.expect("a signal that is ignored", (status, out) == (0, tree.printed(*WORDS)), (status, out))


def check_two_at_once(tree):
    """Of two that are started at once one builds, and the other waits for it."""
    tree.does("before", "low", WAITS)
    told = [tree.folder / "told by one", tree.folder / "told by the other"]
    with told[0].open("wb") as one, told[1].open("wb") as other:
        both = [tree.start(*WORDS, stderr=one), tree.start("show", stderr=other)]
    waits = lambda: sum(it.read_text().count("waiting for another build") for it in told)
    tree.expect("two at once: one waits", tree.wait_for(waits))
    tree.goes_on()
    ended = [tree.ended(it)[:2] for it in both]
    wanted = [(0, tree.printed(*WORDS)), (0, tree.printed("show", program="dmrgate_tools"))]
    tree.expect("two at once: what ran", ended == wanted, ended)
    begun = tree.begun()
    tree.expect("two at once: each crate is built once", sorted(begun) == sorted(ALL), begun)
    tree.expect("two at once: it is told once", waits() == 1, [it.read_text() for it in told])


def check_waiting(tree):
    """One that waits for another can be ended, and the other goes on."""
    tree.does("before", "low", WAITS)
    first = tree.start(*WORDS)
    tree.wait_for(tree.processes)
    for number in (signal.SIGINT, signal.SIGTERM):
        second = tree.start(*WORDS, bufsize=0)
        said = second.stderr.readline()
        second.send_signal(number)
        ended = tree.ended(second)
        tree.expect(f"{number!r} ends one that waits", b"waiting" in said and ended == (128 + number, "", ""), (said, ended))
    tree.goes_on()
    ended = tree.ended(first)[:2]
    tree.expect("the other goes on", ended == (0, tree.printed(*WORDS)), ended)


def check_killed(tree):
    """Where a build is killed, the next one waits for what it left to end."""
    tree.does("before", "low", WAITS)
    first = tree.start(*WORDS)
    tree.wait_for(tree.processes)
    first.kill()
    first.communicate()
    second = tree.start(*WORDS, bufsize=0)
    waits = second.stderr.readline()
    tree.goes_on()
    ended = tree.ended(second)[:2]
    is_so = b"waiting" in waits and ended == (0, tree.printed(*WORDS))
    tree.expect("after a build that was killed itself", is_so, (waits, ended))
    said = tree.said()
    tree.expect("what it left had ended before", said[:4] == 2 * ["begin low", "end low"], said)


def check_beside_rt(tree):
    """Where rt works in the folder of a crate, a build waits for it."""
    folder = os.open(tree.top / "crates/right", os.O_RDONLY)
    fcntl.flock(folder, fcntl.LOCK_EX)
    process = tree.start(*WORDS, bufsize=0)
    said = process.stderr.readline()
    begun = tree.begun()
    os.close(folder)
    status, out, _ = tree.ended(process)
    is_so = b"waiting" in said and not begun and (status, out) == (0, tree.printed(*WORDS))
    tree.expect("a build beside rt", is_so, (said, begun, out))


# The source of the lowest crate, as its own commands and those of the crates beside it have it.
LOW = "../low/src/lib.rt"


def check_changes(tree):
    """Sources that change during a build: what runs in the end is what stands there."""
    tree.does("after", "low", f"echo second >{LOW}")
    ran = tree.expect_run("an edit of a crate while it is built", ["low", *FIRST])
    tree.expect("that the sources changed is told", "the sources changed meanwhile" in ran.stderr, ran.stderr)
    tree.edit("low", "third\n")
    tree.does("before", "left", UNTIL.format("begin right") + f"echo fourth >{LOW}")
    tree.expect_run("an edit of a crate below", ["low", "left", "right", *FIRST])
    tree.edit("low", "fifth\n")
    tree.does("after", "low", "echo sixth >../left/src/lib.rt")
    tree.expect_run("an edit of a crate that wasn't begun", FIRST)
    tree.edit("low", "seventh\n")
    tree.does("before", "low", f"echo eighth >{LOW}; exit 1")
    tree.expect_run("a failure of a text that is there no longer", ["low", *FIRST])


def check_changes_taken_back(tree):
    """A change during a build that is taken back leaves no library that has it."""
    tree.does("before", "low", f"cp {LOW} kept; echo other >{LOW}")
    tree.does("after", "low", f"cp kept {LOW}")
    tree.expect_run("an edit that is taken back", ["low", *FIRST])
    tree.edit("low", "second\n")
    tree.does("before", "low", "echo more >src/more.rt")
    tree.does("after", "low", "rm src/more.rt")
    tree.expect_run("a file that comes and goes", ["low", *FIRST])
    tree.edit("low", "third\n")
    tree.does("before", "low", f"cp -p {LOW} kept; echo other >{LOW}")
    tree.does("after", "low", f"cat kept >{LOW}; touch -r kept {LOW}")
    tree.expect_run("an edit that is taken back with its time", ["low", *FIRST])
    tree.edit("low", "fourth\n")
    tree.does("after", "low", "cp ../left/src/lib.rt ../kept; echo other >../left/src/lib.rt")
    tree.does("after", "left", "cp ../kept src/lib.rt")
    ran = tree.run(*WORDS)
    is_so = (ran.returncode, ran.stdout) == (0, tree.printed(*WORDS))
    tree.expect("an edit of a crate that wasn't begun is taken back", is_so, ran)


def check(report):
    in_trees(
        report,
        [check_side_by_side, check_terminal],
        [check_lines, check_streams],
        [check_failure],
        [check_failures],
        [check_full_disk],
        [check_left_behind],
        [check_no_linker],
        [check_signals],
        [check_two_at_once],
        [check_waiting],
        [check_killed],
        [check_beside_rt],
        [check_changes],
        [check_changes_taken_back],
    )
