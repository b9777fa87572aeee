"""The script dmrgate: whatever stands in the sources is what runs, and nothing is built twice. A stand-in builds it."""

import os
import re
import shutil
import signal
import subprocess

from checks.standin import FIRST, TOOLS, WORDS, in_trees


def check_sources(tree):
    """Each change of the sources is noticed, and what stands on it is built anew."""
    tree.expect_run("the first time", FIRST)
    tree.expect_run("with no change", [])
    tree.edit("low", "lower\n")
    tree.expect_run("an edit of the lowest crate", FIRST)
    tree.edit("left", "more left\n")
    tree.expect_run("an edit of a crate", ["left", "dmrgate"])
    tree.edit("dmrgate", "another main\n")
    tree.expect_run("an edit of the program", ["dmrgate"])
    older = tree.folder / "older"
    older.write_text("older\n")
    os.utime(older, (0, 0))
    older.replace(tree.source("left"))
    tree.expect_run("an older file in place of a source", ["left", "dmrgate"])
    tree.put("crates.txt", (tree.top / "crates.txt").read_text().replace("left: low", "left: low kit"))
    tree.expect_run("another line of crates.txt", ["left", "dmrgate"])
    tree.edit("side", "another side\n")
    tree.expect_run("an edit of what it doesn't stand on", [])


def check_files(tree):
    """Files that come and go are noticed, where they are sources."""
    tree.run(*WORDS)
    more = tree.source("right").with_name("more.rt")
    more.write_text("more\n")
    tree.expect_run("a new file", ["right", "dmrgate"])
    more.unlink()
    tree.expect_run("a file less", ["right", "dmrgate"])
    for file in ("specs/Left.antt", "proofs/left/Left.antt"):
        tree.put(f"crates/left/{file}", "left is left\n")
        tree.expect_run(f"a new file {file}", ["left", "dmrgate"])
    tree.put("crates/left/wrong-bodies/left_is_right.edit", "")
    tree.put("crates/left/stdin", "")
    tree.expect_run("files that nothing is built of", [])


def check_kept(tree):
    """A first build keeps what libraries state, and whoever builds again keeps the proofs."""
    tree.run(*WORDS)
    first = ["dmrgate", "left states", "low states", "right states"]
    kept = tree.top / "kept"
    tree.expect("a first build keeps no proofs", sorted(kept.read_text().splitlines()) == first, kept.read_text())
    kept.unlink()
    tree.edit("left", "left again\n")
    tree.run(*WORDS)
    again = ["dmrgate keeps", "left keeps"]
    tree.expect("a second build keeps them", sorted(kept.read_text().splitlines()) == again, kept.read_text())


def check_editors(tree):
    """What editors keep beside the files that they have open is no source."""
    folder = tree.source("left").parent
    tree.run(*WORDS)
    tree.begun()
    (folder / ".#lib.rt").symlink_to("nobody@nowhere.1")
    for name in (".lib.rt.swp", "lib.rt~", "#lib.rt#"):
        (folder / name).write_text("an older text\n")
    ran = tree.run(*WORDS)
    tree.expect("what editors keep is no source", (ran.returncode, ran.stderr, tree.begun()) == (0, "", []), ran)


def check_programs(tree):
    """Each program is built for its own commands alone, and what both stand on is built once."""
    tree.expect_run("the first program alone", FIRST, "run", "show")
    for words in (["slot"], ["help"], ["help", "run"], ["--help", "show"], ["--version"], ["walk"], ["help", "walk", "show"]):
        tree.expect_run(f"words {words}", [], *words)
    ran = tree.run()
    tree.expect("no words", (ran.returncode, ran.stdout, ran.stderr) == (0, tree.printed(), ""), ran)
    tree.expect_run("the tools", TOOLS, "show", "x y", program="dmrgate_tools")
    tree.expect_run("help of a tool", [], "help", "show", program="dmrgate_tools")
    tree.edit("dmrgate", "a third main\n")
    tree.expect_run("the tools don't stand on the first", [], "show", program="dmrgate_tools")
    tree.edit("side", "a third side\n")
    ran = tree.run("--build")
    begun = sorted(tree.begun())
    is_so = (ran.returncode, ran.stdout, begun) == (0, "", sorted(["dmrgate", *TOOLS]))
    tree.expect("--build builds all, and runs none", is_so, (ran, begun))
    ran = tree.run("--build")
    tree.expect("--build of what is built", (ran.returncode, ran.stdout, ran.stderr, tree.begun()) == (0, "", "", []), ran)


def check_signals(tree):
    """A program gets its signals as if nothing had started it before: what writes to a broken pipe is ended by the system."""
    tree.run(*WORDS)
    read, broken = os.pipe()
    os.close(read)
    with os.fdopen(broken, "wb") as pipe:
        ended = tree.ended(tree.start(*WORDS, stdout=pipe))
    tree.expect("a program that writes to a broken pipe", ended == (-signal.SIGPIPE, "", ""), ended)


def replace_library(tree, crate):
    """Puts another build in place of a library, as the kit's rt does."""
    rlib = tree.top / f"crates/{crate}/out/rlib"
    shutil.rmtree(rlib)
    for name in ("text", "format"):
        tree.put(rlib / f"{crate}.rlib" / name, "another build\n")


def check_other_builds(tree):
    """What else is built in the folders of crates isn't taken for what the script built."""
    tree.run(*WORDS)
    tree.put("crates/dmrgate/out/dmrgate", "#!/bin/sh\necho another build\n", is_program=True)
    tree.expect_run("another build beside it", [])
    replace_library(tree, "low")
    tree.expect_run("another library in place of one, with no change", [])
    tree.edit("dmrgate", "over another build\n")
    tree.does("before", "low", "sleep 0.2")
    tree.expect_run("another library in place of one", ["low", "dmrgate"])
    replace_library(tree, "low")
    replace_library(tree, "right")
    tree.edit("dmrgate", "over a build that differs\n")
    tree.expect_run("a library that differs when it is built again", FIRST, FORMAT="another")
    tree.edit("dmrgate", "over the same builds\n")
    tree.expect_run("libraries that are as they were", ["dmrgate"])


def check_another_kit(tree):
    """A library serves the kit alone that built it, and a program stands by itself."""
    tree.run(*WORDS)
    rt = tree.kit / "bin/rt"
    rt.write_text(rt.read_text().replace("a kit that stands in", "another kit"))
    tree.expect_run("another kit, with no change", [])
    tree.edit("dmrgate", "by another kit\n")
    tree.expect_run("another kit", FIRST)


def check_links(tree):
    """Through links the script is the same."""
    link, second = tree.folder / "link", tree.folder / "second"
    link.symlink_to(tree.script)
    second.symlink_to("link")
    tree.expect_run("through a symbolic link", FIRST, script=link)
    tree.expect_run("through a link to a link", [], script=second)


def check_no_kit(tree):
    """With no kit nothing is built, and what is built runs."""
    path = tree.folder / "path"
    path.mkdir()
    for it in ("sh", "cat"):
        (path / it).symlink_to(shutil.which(it))
    tree.run(*WORDS)
    tree.expect_run("with no kit and no change", [], PATH=str(path))
    tree.edit("low", "with no kit\n")
    tree.expect_refused("with no kit", tree.run(*WORDS, PATH=str(path)), "rt of the Rattle kit")
    tree.put(path / "rt", "#!/bin/sh\necho it is another rt >&2\nexit 3\n", is_program=True)
    tree.expect_refused("another command rt", tree.run(*WORDS, PATH=str(path)), "status 3", "it is another rt")
    for name, told in (("rattle", "there is no "), ("rattle-link", "rattle-link: No such file")):
        file = tree.kit / "bin" / name
        file.rename(tree.folder / name)
        tree.expect_refused(f"a kit without {name}", tree.run(*WORDS), told, f"{file}")
        (tree.folder / name).rename(file)
    tree.expect_run("with the kit again", ["dmrgate"])


def check_refused_files(tree):
    """Where the system refuses a file, a line tells which."""
    out = tree.top / "crates/low/out"
    out.write_text("")
    tree.expect_refused("no folder for what is made", tree.run(*WORDS), f"dmrgate: {out}")
    out.unlink()
    tree.run(*WORDS)
    program = tree.top / "crates/dmrgate/out/program"
    program.write_text("no program\n")
    told = f"dmrgate: {program} can't be started: Exec format error\n"
    tree.expect_refused("a program that can't be started", tree.run(*WORDS), told)
    program.unlink()
    tree.expect_run("a program that is gone", ["dmrgate"])


def expect_gate(tree, name, status, last):
    """The gate ends so, when it is run by the script check."""
    ran = subprocess.run([tree.top / "check", "proofs"], **tree.how(), capture_output=True, text=True)
    tree.expect(name, (ran.returncode, ran.stdout.splitlines()[-1:]) == (status, [last]), ran)
    return ran.stdout


def expect_both(tree, name, first, tools):
    """These crates are built for each of the programs, which are run one after the other."""
    tree.expect_run(f"{name}, the first", first)
    tree.expect_run(f"{name}, the tools", tools, "show", program="dmrgate_tools")


def check_gate(tree):
    """What the gate proved and built isn't built once more, where the sources are still the same."""
    told = expect_gate(tree, "the gate", 0, "3 passed, 0 failed")
    tree.expect("the gate tells its time", re.search(r"^ +\d+\.\d s proofs: ok; nothing was done$", told, re.MULTILINE), told)
    expect_both(tree, "behind the gate", [], [])
    tree.does("after", "ci", "echo more >>crates/side/src/lib.rt")
    expect_gate(tree, "the gate, with an edit meanwhile", 0, "3 passed, 0 failed")
    tree.expect_run("behind an edit during the gate, the first", [])
    tree.run("--build")
    begun = sorted(tree.begun())
    tree.expect("behind an edit during the gate, nothing is built for the first", begun == sorted(["low", *TOOLS]), begun)


def check_gate_refused(tree):
    """What the gate built isn't taken where it may be of another text, or where the gate failed."""
    tree.does("before", "ci", "cp crates/low/src/lib.rt kept; echo another >crates/low/src/lib.rt")
    tree.does("after", "ci", "cp kept crates/low/src/lib.rt")
    expect_gate(tree, "the gate, with an edit that is taken back", 0, "3 passed, 0 failed")
    expect_both(tree, "behind an edit that was taken back", FIRST, TOOLS)
    tree.does("after", "ci", "echo '1 passed, 1 failed'; exit 1")
    expect_gate(tree, "a gate that fails", 1, "1 passed, 2 failed")
    expect_both(tree, "behind a gate that failed", FIRST, TOOLS)


def check(report):
    in_trees(
        report,
        [check_sources],
        [check_files, check_editors],
        [check_kept],
        [check_programs, check_signals],
        [check_other_builds],
        [check_another_kit],
        [check_links, check_no_kit],
        [check_refused_files],
        [check_gate, check_gate_refused],
    )
