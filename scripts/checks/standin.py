"""A small repository with the scripts of this one, and a kit of a few lines that stands in for the real one."""

import concurrent.futures
import os
import pathlib
import shutil
import subprocess
import sys
import tempfile
import time

from checks.hearing import hear
from checks.program import Report

# What a test wants done once, before a crate is built or after, stands in a file of its name in the folder `before` or `after`.
# A program prints the texts that it is made of, and then its name and the words that it gets.
COMMON = r"""#!/bin/sh
doing() {
    if [ -e "$top/$1/$2" ]; then
        mv "$top/$1/$2" "$top/doing $2"
        . "$top/doing $2"
    fi
}
program() {
    echo '#!/bin/sh'
    echo "cat <<'END'"
    cat "$@"
    echo END
    echo "echo '$name' \"\$@\""
}
"""

# It tells where it is and which. Its gate leaves two programs, and no library. Its try writes the words into the file that is named
# behind --downlink, prints them, and says how that ended.
RT = COMMON + r"""
leave() {
    name=$1
    mkdir "crates/$name/out"
    program $(for it in $2 $1; do echo "crates/$it/src/*"; done) >"crates/$name/out/$name"
    chmod +x "crates/$name/out/$name"
}
case $1 in
    doc) echo "KIT/START-HERE.md" ;;
    version) echo a kit that stands in ;;
    try)
        top=${PWD%/crates/*}
        echo "try ${PWD##*/}" >>"$top/said"
        shift 2
        previous=
        for word; do
            [ "$previous" != --downlink ] || [ "$word" = - ] || echo downlink >"$word"
            previous=$word
        done
        echo "$@"
        ended="ended status=0"
        doing before try
        echo "checked: $ended" >&2
        echo "run=$ended runners=1 proved=no" >&2
        ;;
    ci)
        top=$PWD
        rm -rf crates/*/out
        doing before ci
        leave dmrgate "low left right"
        leave dmrgate_tools "low side"
        doing after ci
        echo "rt: ok; nothing was done"
        echo "2 passed, 0 failed"
        ;;
esac
"""

# A library is a folder with its sources, and a format that a test may have differ; a program prints those of all its libraries, and
# then its own.
# A check of a crate is for a copy elsewhere. It refuses a function by a word of its body: one that is wrong, one that can't be
# read, one of whose proofs names what is gone, and one that is right, where something spreads. Of a long one it can't tell.
RATTLE = COMMON + r"""
name=$3
if [ "$1" = check ]; then
    awk -v crate="$name" -v asked=" $* " '
        function refuse(f, why) { print "fn " crate "::" f ": " why; is_refused = 1 }
        /^fn /{ f = substr($2, 1, index($2, "(") - 1); count++; names[count] = f }
        /^    /{ body[f] = $1 }
        { spreads = spreads || /spreads/ }
        END {
            for (i = 1; i <= count; i++) {
                f = names[i]
                proofs = "./proofs/" f "/Answers.antt"
                answer = "`Rattle." crate ".proofs." f ".Answers.value`"
                if (body[f] == "gone") {
                    print proofs ":1:1: error: `value`: what it cites was not admitted"
                    refuse(f, "not proved; it stands on " answer ", which antt refuses")
                } else if (body[f] == "unread") {
                    print "src/lib.rt:1:1: error: `" f "`: `what` is not in scope"
                    refuse(f, "not proved")
                } else if (body[f] == "long")
                    refuse(f, "could not tell")
                else if (body[f] == "wrong" || spreads && body[f] == "right")
                    refuse(f, "no proof: expected answers in " proofs "; `search` did not prove `value`")
                else print "fn " crate "::" f ": " (asked ~ / --only / ? "no holes" : "proved")
            }
            if (asked !~ / --only /) print "logic=" (is_refused ? "not-proved" : "proved")
            exit is_refused
        }' src/lib.rt
    exit
fi
top=${PWD%/crates/*}
echo "begin $name" >>"$top/said"
case " $* " in
    *" --statements "*) echo "$name states" >>"$top/kept" ;;
    *" --incremental "*) echo "$name keeps" >>"$top/kept" ;;
    *) echo "$name" >>"$top/kept" ;;
esac
doing before "$name"
[ "$1 $2 $4" = "build --crate-name src/$([ -e src/main.rt ] && echo main || echo lib).rt" ] || exit 2
rm -f out/text*
previous=
count=0
for word; do
    case $previous$word in
        -o*) made=$word ;;
        --extern*="$top"/*) [ -d "${word#*=}" ] || exit 3 ;;
        -Ldependency="$top"/*) count=$((count + 1)) && cp "${word#*=}"/*.rlib/text "out/text$(printf %03d $count)" || exit 4 ;;
    esac
    previous=$word
done
if [ -e src/main.rt ]; then
    program out/text* src/main.rt >"$made"
elif [ "${*#*--crate-type staticlib}" != "$*" ]; then
    cat out/text* src/* >"$made" || exit 5
else
    mkdir "$made" && cat src/* >"$made/text" && echo "$FORMAT" >"$made/format" || exit 5
fi
doing after "$name"
echo "end $name" >>"$top/said"
"""

LINK = COMMON + r"""
name=${PWD##*/}
top=${PWD%/crates/*}
doing before "link $name"
while [ "$1" != -o ]; do shift; done
cp "$3" "$2" && chmod +x "$2"
"""

# A static library of several has their texts, and a shared one that of a static one.
ARCHIVER = """#!/bin/sh
made=$2
shift 2
cat "$@" >"$made"
"""
SHARER = """#!/bin/sh
[ "$1 $2 $4 $6" = "-shared -o -soname --whole-archive" ] && { echo shared && cat "$7"; } >"$3"
"""

# Two crates stand on the lowest one, and have nothing else in common. A static library is for programs that call it.
CRATES = """# Lowest first.
unused:
low: kit
left: low
right: low kit
dmrgate: left right
side: low
dmrgate_tools: side
dmr_c staticlib: low
"""
LIBRARIES = {"dmrgate": ["low", "left", "right"], "dmrgate_tools": ["low", "side"]}

# What is built for the first program, for the tools behind it, and for both.
FIRST, TOOLS = ["low", "left", "right", "dmrgate"], ["side", "dmrgate_tools"]
ALL = FIRST + TOOLS

# As if there was room for as many crates at once as there are, whatever this machine has.
ROOM = """

def processors():
    return 4


def free_memory():
    return 100 * MEMORY
"""

# Waits until the test lets it go on, or is over itself.
WAITS = 'until [ -e "$top/go" ] || [ ! -e "$top" ]; do sleep 0.01; done; rm "$top/go"'

# How long a test waits for what should come at once, in seconds.
PATIENCE = 20

# What tests start the script with, where that doesn't matter.
WORDS = ("a", "b c")


def is_alive(process):
    """Whether a process, by its folder in /proc, hasn't ended."""
    try:
        return (process / "stat").read_text().rpartition(")")[2].split()[0] not in "ZX"
    except OSError:
        return False


class Tree:
    """A small repository with the scripts, and what is expected of them."""

    def __init__(self, report, folder):
        self.report, self.folder = report, pathlib.Path(folder)
        self.top, self.kit = self.folder / "with space", self.folder / "the kit"
        self.script = self.top / "dmrgate"
        for name in ("dmrgate", "install", "check"):
            self.put(name, (report.top / name).read_text(), is_program=True)
        for name in ("scripts", "share/bridge", "share/c"):
            shutil.copytree(report.top / name, self.top / name, ignore=shutil.ignore_patterns("__pycache__"))
        with (self.top / "scripts/building/building.py").open("a") as it:
            it.write(ROOM)
        self.put("crates.txt", CRATES)
        for crate in [*ALL, "dmr_c"]:
            self.edit(crate, f"{crate}\n")
        for name, text in (("rt", RT), ("rattle", RATTLE), ("rattle-link", LINK)):
            self.put(self.kit / "bin" / name, text.replace("KIT", str(self.kit)), is_program=True)
        for name, text in (("llvm-ar", ARCHIVER), ("ld.lld", SHARER)):
            self.put(self.kit / "toolchain/bin" / name, text, is_program=True)
        self.put(self.kit / "c/liblibc_c.a", "memory\n")

    def put(self, name, text, is_program=False):
        """Puts a file into the repository, or elsewhere."""
        file = self.top / name
        file.parent.mkdir(parents=True, exist_ok=True)
        file.write_text(text)
        if is_program:
            file.chmod(0o755)

    def source(self, crate):
        name = "main" if crate in LIBRARIES else "lib"
        return self.top / f"crates/{crate}/src/{name}.rt"

    def edit(self, crate, text):
        self.put(self.source(crate), text)

    def does(self, when, crate, commands):
        """Has the kit do this once, before or after it builds a crate."""
        self.put(f"{when}/{crate}", commands)

    def goes_on(self):
        """Has the kit go on, where it waits for that: see WAITS."""
        self.put("go", "")

    def printed(self, *words, program="dmrgate"):
        """What a program prints that is built of what stands in the sources."""
        folders = [self.source(it).parent for it in [*LIBRARIES[program], program]]
        text = "".join(file.read_text() for folder in folders for file in sorted(folder.iterdir()))
        return f"{text}{' '.join([program, *words])}\n"

    def how(self, **environment):
        """How something is started: from elsewhere, and with the kit on the path."""
        return {"env": {**os.environ, "PATH": f"{self.kit}/bin:{os.environ['PATH']}", **environment}, "cwd": "/"}

    def start(self, *words, before="", **streams):
        """Starts the script, behind what a shell does before."""
        streams = {"stdin": subprocess.DEVNULL, "stdout": subprocess.PIPE, "stderr": subprocess.PIPE, **streams}
        command = ["sh", "-c", f'{before}\nexec "$@"', "sh", sys.executable, self.script, *words]
        return subprocess.Popen(command, preexec_fn=hear, **self.how(), **streams)

    def run(self, *words, script=None, **environment):
        """Runs the script. That of the repository is run by Python at once, which is faster."""
        command = [script] if script else [sys.executable, self.script]
        how = {**self.how(**environment), "capture_output": True, "text": True, "timeout": 3 * PATIENCE}
        return subprocess.run([*command, *words], **how)

    def said(self):
        """What the kit said of crates since that was last asked."""
        said = self.top / "said"
        lines = said.read_text().splitlines() if said.exists() else []
        said.unlink(missing_ok=True)
        return lines

    def begun(self):
        """The crates that were begun since that was last asked."""
        return [it.split()[1] for it in self.said() if it.startswith("begin ")]

    def processes(self):
        """The processes of the kit: each of them works in the folder of a crate."""
        found = []
        for process in pathlib.Path("/proc").glob("[0-9]*"):
            try:
                if os.readlink(process / "cwd").startswith(f"{self.top}/crates/") and is_alive(process):
                    found.append(process.name)
            except OSError:
                # It has ended.
                pass
        return found

    def wait_for(self, is_so):
        """Waits until something is so, and answers whether it is."""
        end = time.monotonic() + PATIENCE
        while not is_so() and time.monotonic() < end:
            time.sleep(0.01)
        return is_so()

    def expect(self, name, is_so, why=""):
        self.report.expect(name, is_so, why)

    def expect_run(self, name, builds, *words, program="dmrgate", **how):
        """What ran is the program of what stands in the sources, and these crates were built for it."""
        words = words or WORDS
        self.begun()
        ran = self.run(*words, **how)
        is_so = (ran.returncode, ran.stdout) == (0, self.printed(*words, program=program))
        self.expect(f"{name}: what ran", is_so, ran)
        begun = self.begun()
        self.expect(f"{name}: what was built", sorted(begun) == sorted(builds), begun)
        self.expect(f"{name}: something is said of it", bool(ran.stderr) == bool(builds), ran.stderr)
        return ran

    def expect_refused(self, name, ran, *told):
        """It ended with status 1 and nothing on standard output, and its last line tells why."""
        is_told = ran.stderr.splitlines()[-1:] and all(it in ran.stderr for it in told)
        is_last = ran.stderr.splitlines()[-1].startswith("dmrgate: ") if is_told else False
        self.expect(name, (ran.returncode, ran.stdout) == (1, "") and is_last and "Traceback" not in ran.stderr, ran)

    def ended(self, process):
        """How a process ended that was started. One that goes on for long is killed."""
        try:
            out, err = process.communicate(timeout=PATIENCE)
        except subprocess.TimeoutExpired:
            process.kill()
            out, err = process.communicate()
        return process.returncode, (out or b"").decode(), (err or b"").decode()


def in_a_tree(top, checks):
    """Does these checks, one after the other, in a small repository of their own, and answers the report of them."""
    report = Report(top)
    with tempfile.TemporaryDirectory(prefix="dmrgate-check-") as folder:
        tree = Tree(report, folder)
        for it in checks:
            it(tree)
    return report


def in_trees(report, *groups):
    """Does groups of checks side by side, each in a small repository of its own."""
    with concurrent.futures.ThreadPoolExecutor(len(groups)) as pool:
        for it in pool.map(in_a_tree, [report.top] * len(groups), groups):
            report.passed += it.passed
            report.failed += it.failed
