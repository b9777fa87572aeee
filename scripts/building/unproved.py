"""A quick look: a command compiled and run once by the kit, with nothing proved and nothing kept."""

import os
import pathlib
import re
import signal
import subprocess
import sys
import tempfile

from building.crates import all_crates
from building.kit import found_rt
from building.programs import program_of
from building.saying import say, write

OUTPUTS = ("--downlink", "--received")
FILES = ("--uplink", "--outgoing", *OUTPUTS)

# What the kit says behind what the program said itself.
ENDED = re.compile(r"((?:checked|interpreted): .*\n)*run=(\w+)(?: status=(\d+))? .*\n\Z")


class Look:
    """The words of a command as the program gets them, which runs in a folder of the kit's: with places that hold from anywhere."""

    def __init__(self, words, room):
        words = [*self.parted(words)]
        hyphens = [before for before, word in zip(words, words[1:]) if before in OUTPUTS and word == "-"]
        # The output that goes to standard output. Two of them are refused by the program, which gets their hyphens.
        self.output = hyphens[0] if len(hyphens) == 1 else None
        self.file = pathlib.Path(room) / "output"
        self.words = [*self.placed(words)]

    @staticmethod
    def parted(words):
        """An option and its value are two words, however they were written."""
        for word in words:
            name, equals, value = word.partition("=")
            yield from (name, value) if equals and name in FILES else (word,)

    def placed(self, words):
        for before, word in zip([None, *words], words):
            if self.output and (before, word) == (self.output, "-"):
                yield str(self.file)
            elif word != "-" and (before in FILES or os.path.isfile(word)):
                yield os.path.abspath(word)
            else:
                yield word

    def write_out(self, printed):
        """Writes what the program printed to standard output, or the output that goes there, with what was printed beside it."""
        if self.output:
            write(printed.decode(errors="replace"))
            printed = self.file.read_bytes() if self.file.is_file() else b""
        sys.stdout.buffer.write(printed)
        sys.stdout.buffer.flush()


def look(words):
    """Compiles the program that does these words and runs it once; answers its status."""
    if not words:
        say("what is to be looked at? For example, ./dmrgate --unproved run --help")
        return 2
    crate = all_crates()[program_of(words)]
    with tempfile.TemporaryDirectory(prefix="dmrgate-look-") as room:
        it = Look(words, room)
        if it.output and sys.stdout.isatty():
            write(f"error: {it.output.strip('-')}: standard output is a terminal\n")
            return 1
        say("compiling it for one run, which takes a minute or two; nothing of it is proved")
        command = [found_rt(), "try", "--", *it.words]
        # The kit ends what it began, where it is told to end.
        signal.signal(signal.SIGTERM, lambda number, _: sys.exit(128 + number))
        process = subprocess.Popen(command, cwd=crate.folder, stdout=subprocess.PIPE, stderr=subprocess.PIPE)
        try:
            out, err = process.communicate()
        finally:
            if process.poll() is None:
                process.terminate()
                process.wait()
        text = err.decode(errors="replace")
        ended = ENDED.search(text)
        if not ended or ended[2] != "ended":
            write(text)
            say("there is no answer: this is too long for a quick look, or isn't compiled;"
                " without --unproved it is proved and built")
            return 1
        it.write_out(out)
        write(text[: ended.start()])
        return int(ended[3])
