"""The quick look, `./dmrgate --unproved`: it starts a command once by the kit, and keeps nothing. A stand-in is the kit."""

import os
import subprocess
import tempfile

from checks.standin import in_trees

NOTHING_PROVED = "dmrgate: compiling it for one run, which takes a minute or two; nothing of it is proved\n"


def look(tree, folder, *words, stdout=subprocess.PIPE):
    """Runs it in a folder."""
    command = ["python3", tree.script, "--unproved", *words]
    streams = {"stdin": subprocess.DEVNULL, "stdout": stdout, "stderr": subprocess.PIPE}
    return subprocess.run(command, **{**tree.how(), "cwd": folder}, **streams)


def expect(tree, name, ran, status, out, err):
    """It ended so, and nothing was built and nothing is kept."""
    had = ran.returncode, ran.stdout.decode(), ran.stderr.decode()
    tree.expect(name, had == (status, out, err), ran)
    tree.expect(f"{name}: nothing is kept", not list(tree.top.glob("crates/*/out")), list(tree.top.glob("crates/*/out")))


def check_places(tree):
    """Files are where the words say, from the folder in which they are said, and a hyphen is standard output."""
    with tempfile.TemporaryDirectory(prefix="dmrgate-check-") as folder:
        ran = look(tree, folder, "run", "--uplink", "up", "--downlink=down", "--llid", "1")
        out = f"run --uplink {folder}/up --downlink {folder}/down --llid 1\n"
        expect(tree, "a look at a run", ran, 0, out, NOTHING_PROVED)
        tree.expect("a look at a run: its downlink", open(f"{folder}/down").read() == "downlink\n")
        tree.expect("a look at a run: the program", tree.said() == ["try dmrgate"])
        ran = look(tree, folder, "run", "--downlink", "-", "--uplink", "-")
        tree.expect("a downlink stands alone on standard output", (ran.returncode, ran.stdout) == (0, b"downlink\n"), ran)
        begin, _, end = ran.stderr.decode().removeprefix(NOTHING_PROVED).partition("/")
        is_so = begin == "run --downlink " and end.endswith(" --uplink -\n")
        tree.expect("what is printed goes beside it, and standard input stays what it is", is_so, ran)
        tree.said()
        look(tree, folder, "show", "down")
        tree.expect("a look at another program's command", tree.said() == ["try dmrgate_tools"])


def check_hyphens(tree):
    """An output isn't sent to a terminal, and nothing is compiled for that. Two hyphens are the program's to refuse."""
    ours, its = os.openpty()
    ran = look(tree, "/", "run", "--received=-", stdout=its)
    is_so = (ran.returncode, ran.stderr) == (1, b"error: received: standard output is a terminal\n")
    tree.expect("an output to a terminal", is_so and tree.said() == [], ran)
    os.close(its)
    os.close(ours)
    ran = look(tree, "/", "run", "--downlink", "-", "--received", "-")
    expect(tree, "both outputs to standard output", ran, 0, "run --downlink - --received -\n", NOTHING_PROVED)


def check_endings(tree):
    """It ends as the program ends; and where there is no answer it says that a build gives one."""
    tree.does("before", "try", "echo error: up: cannot open >&2; ended='ended status=1'")
    error = f"{NOTHING_PROVED}error: up: cannot open\n"
    expect(tree, "a look that ends at a fault", look(tree, "/", "run"), 1, "run\n", error)
    tree.does("before", "try", "ended='none'")
    ran = look(tree, "/", "run")
    is_told = ran.returncode == 1 and ran.stdout == b"" and b"without --unproved it is proved and built" in ran.stderr
    tree.expect("a look with no answer", is_told, ran)
    ran = look(tree, "/")
    tree.expect("a look at nothing", (ran.returncode, ran.stdout) == (2, b"") and b"--unproved run" in ran.stderr, ran)


def check(report):
    in_trees(report, [check_places, check_hyphens], [check_endings])
