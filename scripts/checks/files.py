"""The four files, and what stands behind them: no output over an input, nothing lost at a refusal, pipes and hyphens."""

import contextlib
import itertools
import os
import pathlib
import subprocess
import tempfile

from checks import recordings as it
from checks.program import Room, summary

LINE = summary(7, 1)
FILES = "uplink", "outgoing", "downlink", "received"
OLD = b"an older file, which is longer than what a run over one block writes" * 9


def names_of(room, file):
    """Other names of a file: another path, a symbolic link, a link to that, a hard link."""
    symbolic, second, hard = room.path / "symbolic", room.path / "second", room.path / "hard"
    symbolic.symlink_to(file.name)
    second.symlink_to(symbolic)
    os.link(file, hard)
    return [file, f"./{file.name}", f"../{room.path.name}/{file.name}", symbolic, second, hard]


def check_outputs_over_inputs(report):
    for given, octets in (("uplink", it.ONE_CSBK), ("outgoing", it.OUTGOING_HEAD)):
        for taken in ("downlink", "received"):
            with Room(report, it.ONE_CSBK, it.OUTGOING_HEAD) as room:
                room.downlink.write_bytes(OLD)
                room.received.write_bytes(OLD)
                file = getattr(room, given)
                for name in names_of(room, file):
                    ran = room.run(**{taken: name})
                    report.expect(f"{taken} over {given} by {name}", ran.is_error(f"{taken}: cannot open"), ran)
                    report.expect(f"{given} is as it was", file.read_bytes() == octets)
                report.expect("both outputs are as they were", room.outputs() == [OLD, OLD], room.outputs())


def check_one_output(report):
    with Room(report, it.ONE_CSBK, it.OUTGOING_HEAD) as room:
        ran = room.run(received=room.downlink)
        report.expect("one new name for both outputs", ran.is_error("received: cannot open"), ran)
        report.expect("that file is empty", room.outputs() == [b"", None], room.outputs())
        room.downlink.write_bytes(OLD)
        for name in names_of(room, room.downlink):
            ran = room.run(received=name)
            report.expect(f"one file for both outputs, {name}", ran.is_error("received: cannot open"), ran)
        report.expect("that file is as it was", room.outputs() == [OLD, None], room.outputs())
        ran = room.run(downlink="/dev/null", received="/dev/null")
        report.expect("/dev/null for both outputs", (ran.status, ran.out, ran.err) == (0, LINE, b""), ran)
        ran = room.run(downlink="/dev/stderr", received="/dev/stderr")
        report.expect("a pipe for both outputs", ran.is_error("received: cannot open"), ran)


def check_nothing_lost(report):
    with Room(report, it.ONE_CSBK, it.OUTGOING_HEAD) as room:
        nowhere = room.path / "nowhere"
        for file in ("uplink", "outgoing"):
            room.run(**{file: nowhere})
            report.expect(f"no output is made without {file}", room.outputs() == [None, None], room.outputs())
        for file, made in (("downlink", [None, None]), ("received", [b"", None])):
            room.run(**{file: nowhere / "file"})
            report.expect(f"what is made without {file}", room.outputs() == made, room.outputs())
        room.downlink.write_bytes(OLD)
        room.received.write_bytes(OLD)
        for file in ("uplink", "outgoing", "downlink", "received"):
            room.run(**{file: nowhere / "file"})
            report.expect(f"no output is emptied without {file}", room.outputs() == [OLD, OLD], room.outputs())
        ran = room.run()
        wanted = (report.top / "samples/one_csbk/downlink.dmrd").read_bytes()
        report.expect("older outputs are emptied", room.outputs() == [wanted, it.RECEIVED_HEAD], ran)
        room.downlink.write_bytes(OLD)
        room.uplink.write_bytes(it.UPLINK_HEAD + b"\0")
        ran = room.run()
        report.expect("a half frame at once", ran.is_error("uplink: half frame"), ran)
        wanted = [it.DOWNLINK_HEAD + b"\0\0", it.RECEIVED_HEAD]
        report.expect("what was decided before it is written", room.outputs() == wanted, room.outputs())
        room.uplink.write_bytes(it.UPLINK_HEAD + bytes(21))
        ran = room.run()
        report.expect("a half frame behind ten of silence", ran.is_error("uplink: half frame"), ran)
        wanted = [it.DOWNLINK_HEAD + bytes(22), it.RECEIVED_HEAD]
        report.expect("ten frames and one are written", room.outputs() == wanted, room.outputs())


def check_order(report):
    """The files are opened in their order, and the first that can't be is told: no output is made behind it."""
    with Room(report, it.ONE_CSBK, it.OUTGOING_HEAD) as room:
        nowhere = room.path / "nowhere" / "file"
        for first, second in itertools.combinations(FILES, 2):
            ran = room.run(**{first: nowhere, second: nowhere})
            report.expect(f"neither {first} nor {second}", ran.is_error(f"{first}: cannot open"), ran)
        for taken, missing, told in (
            ("downlink", "uplink", "uplink"),
            ("downlink", "outgoing", "outgoing"),
            ("downlink", "received", "downlink"),
            ("received", "outgoing", "outgoing"),
            ("received", "downlink", "downlink"),
        ):
            ran = room.run(**{missing: nowhere, taken: room.uplink if missing != "uplink" else room.outgoing})
            report.expect(f"{taken} over an input, and no {missing}", ran.is_error(f"{told}: cannot open"), ran)
        ran = room.run(downlink=room.outgoing, received=room.uplink)
        report.expect("both outputs over inputs", ran.is_error("downlink: cannot open"), ran)
        report.expect("no output is made", room.outputs() == [None, None], room.outputs())
        inputs = [room.uplink.read_bytes(), room.outgoing.read_bytes()]
        report.expect("the inputs are as they were", inputs == [it.ONE_CSBK, it.OUTGOING_HEAD], inputs)


def check_names(report):
    """A file may have any name, one with line feeds too, and a hyphen behind a folder."""
    downlink = (report.top / "samples/one_csbk/downlink.dmrd").read_bytes()
    for name in ("line\nfeed", "\n", "-", "--uplink", " "):
        with Room(report, it.ONE_CSBK, it.OUTGOING_HEAD) as room:
            places = {}
            for file in FILES:
                (room.path / file).mkdir()
                places[file] = room.path / file / name
            places["uplink"].write_bytes(it.ONE_CSBK)
            places["outgoing"].write_bytes(it.OUTGOING_HEAD)
            ran = room.run(**{file: f"./{file}/{name}" for file in FILES})
            report.expect(f"files named {name!r}", (ran.status, ran.out, ran.err) == (0, LINE, b""), ran)
            written = [places[file].read_bytes() for file in FILES[2:]]
            report.expect(f"their outputs, {name!r}", written == [downlink, it.RECEIVED_HEAD], written)


def folders_by_number(device):
    """Folders of other devices than this one, by their numbers: the system's own tree has many of small numbers."""
    found = {}
    for folder, _, _ in os.walk("/sys"):
        # One that was there may be gone.
        with contextlib.suppress(OSError):
            known = os.stat(folder)
            if known.st_dev != device:
                found[known.st_ino] = folder
    return found


def twin_in(folder):
    """A new file in a folder, and a folder of another device that has the same number; None where there is none such."""
    others = folders_by_number(folder.stat().st_dev)
    for number in range(500):
        file = folder / str(number)
        file.touch()
        if file.stat().st_ino in others:
            return file, others[file.stat().st_ino]


def check_lists_left_out(report):
    """Where a list is left out, an output is apart from the files that are there, and may be any other."""
    downlink = (report.top / "samples/one_csbk/downlink.dmrd").read_bytes()
    with Room(report, it.ONE_CSBK, it.OUTGOING_HEAD) as room:
        for left, taken, file in (
            ("outgoing", "downlink", room.uplink),
            ("outgoing", "received", room.uplink),
            ("received", "downlink", room.uplink),
            ("received", "downlink", room.outgoing),
        ):
            ran = room.run(**{left: None, taken: file})
            report.expect(f"{taken} over {file.name}, without {left}", ran.is_error(f"{taken}: cannot open"), ran)
        inputs = [room.uplink.read_bytes(), room.outgoing.read_bytes()]
        report.expect("the inputs are as they were", inputs == [it.ONE_CSBK, it.OUTGOING_HEAD], inputs)
        ran = room.run(outgoing=None, received=None, downlink=room.outgoing)
        is_so = (ran.status, ran.out, ran.err, room.outgoing.read_bytes()) == (0, LINE, b"", downlink)
        report.expect("a downlink over a list that is no input", is_so, ran)


def check_devices(report):
    """Files of two devices may have one number, and are two files."""
    memory = pathlib.Path("/dev/shm")
    if not memory.is_dir():
        report.skip(3, "no second device, /dev/shm")
        return
    downlink = (report.top / "samples/one_csbk/downlink.dmrd").read_bytes()
    with tempfile.TemporaryDirectory(dir=memory) as folder, Room(report, it.ONE_CSBK, it.OUTGOING_HEAD) as room:
        twins = twin_in(pathlib.Path(folder))
        # Where a device counts from large numbers on, there are none.
        if not twins:
            report.skip(3, "no files of two devices that have one number")
            return
        file, other = twins
        ran = room.run(downlink=file, uplink=other)
        report.expect("an input of the output's number", ran.is_error("uplink: read failed"), ran)
        behind = os.open(other, os.O_RDONLY)
        ran = room.run(downlink=file, streams={"stdin": behind})
        os.close(behind)
        report.expect("standard input of the output's number", (ran.status, ran.out, ran.err) == (0, LINE, b""), ran)
        report.expect("the output", file.read_bytes() == downlink)


def check_standard_streams(report):
    downlink = (report.top / "samples/one_csbk/downlink.dmrd").read_bytes()
    # The line stands behind an output to standard output, and beside one that is a hyphen.
    for name, behind, beside in (("/dev/stdout", LINE, b""), ("-", b"", LINE)):
        with Room(report, it.ONE_CSBK, it.OUTGOING_HEAD) as room:
            ran = room.run(downlink=name)
            is_so = (ran.status, ran.out, ran.err) == (0, downlink + behind, beside)
            report.expect(f"downlink {name} to a pipe", is_so, ran)
            ran = room.run(received=name)
            is_so = (ran.status, ran.out, ran.err) == (0, it.RECEIVED_HEAD + behind, beside)
            report.expect(f"received {name} to a pipe", is_so, ran)
            ran = room.run(downlink=name, streams={"stderr": subprocess.STDOUT})
            report.expect(f"downlink {name} to a pipe that has errors too", (ran.status, ran.out) == (0, downlink + LINE), ran)
            for taken in ("downlink", "received"):
                printed = room.path / "printed"
                printed.write_bytes(OLD)
                with open(printed, "r+b") as out:
                    ran = room.run(streams={"stdout": out}, **{taken: "/dev/stdout"})
                report.expect(f"{taken} /dev/stdout to a file", ran.is_error(f"{taken}: cannot open"), ran)
                report.expect("that file is as it was", printed.read_bytes() == OLD)
                second = room.path / f"second-{taken}"
                os.link(printed, second)
                with open(printed, "r+b") as out:
                    ran = room.run(streams={"stdout": out}, **{taken: second})
                report.expect(f"{taken} by another name of that file", ran.is_error(f"{taken}: cannot open"), ran)
                with open(printed, "r+b") as out:
                    ran = room.run(streams={"stderr": out}, **{taken: printed})
                told = f"error: {taken}: cannot open\n".encode()
                is_told = ran.status == 1 and printed.read_bytes() == told + OLD[len(told) :]
                report.expect(f"{taken} that is standard error", is_told, ran)
    for name in ("/dev/stdin", "-"):
        with Room(report, it.ONE_CSBK, it.OUTGOING_HEAD) as room:
            ran = room.run(uplink=name, given=it.ONE_CSBK)
            report.expect(f"uplink {name} of a pipe", (ran.status, ran.out) == (0, LINE), ran)
            report.expect("its downlink", room.outputs() == [downlink, it.RECEIVED_HEAD], room.outputs())
            ran = room.run(outgoing=name, given=it.OUTGOING_HEAD)
            report.expect(f"outgoing {name} of a pipe", (ran.status, ran.out) == (0, LINE), ran)
            for taken in ("downlink", "received"):
                for given in ({"uplink": name}, {}):
                    with open(room.uplink, "rb") as read:
                        ran = room.run(streams={"stdin": read}, **given, **{taken: room.uplink})
                    report.expect(f"{taken} is standard input", ran.is_error(f"{taken}: cannot open"), ran)
                    report.expect("standard input is as it was", room.uplink.read_bytes() == it.ONE_CSBK)
                other = room.path / "other"
                other.write_bytes(OLD)
                with open(other, "rb") as read:
                    ran = room.run(streams={"stdin": read}, **{taken: other})
                report.expect(f"{taken} is standard input that isn't read", ran.is_error(f"{taken}: cannot open"), ran)
                report.expect("that file is as it was", other.read_bytes() == OLD)


def check_hyphen_to_file(report):
    """A regular file that is standard output may be an output by a hyphen, where nothing else is printed to it."""
    downlink = (report.top / "samples/one_csbk/downlink.dmrd").read_bytes()
    for taken, octets in (("downlink", downlink), ("received", it.RECEIVED_HEAD)):
        with Room(report, it.ONE_CSBK, it.OUTGOING_HEAD) as room:
            printed = room.path / "printed"
            with open(printed, "wb") as out:
                ran = room.run(streams={"stdout": out}, **{taken: "-"})
            is_so = (ran.status, ran.err, printed.read_bytes()) == (0, LINE, octets)
            report.expect(f"{taken} - to a file", is_so, ran)
            printed.write_bytes(OLD)
            with open(printed, "ab") as out:
                ran = room.run(streams={"stdout": out}, **{taken: "-"})
            is_so = (ran.status, ran.err, printed.read_bytes()) == (0, LINE, OLD + octets)
            report.expect(f"{taken} - behind what a file has", is_so, ran)
            with open(printed, "wb") as out:
                ran = room.run(streams={"stdout": out, "stderr": out}, **{taken: "-"})
            told = f"error: {taken}: cannot open\n".encode()
            report.expect(f"{taken} - to a file that has errors too", (ran.status, printed.read_bytes()) == (1, told), ran)


def check_closed_streams(report):
    """No file of a run takes the place of a standard stream that is closed, where what is printed would get into it."""
    whole = (report.top / "samples/one_csbk/downlink.dmrd").read_bytes()
    for uplink, downlink in ((it.ONE_CSBK, whole), (it.UPLINK_HEAD + b"\0", it.DOWNLINK_HEAD + b"\0\0")):
        for closed in ([0], [1], [2], [0, 1], [0, 2], [1, 2], [0, 1, 2]):
            with Room(report, uplink, it.OUTGOING_HEAD) as room:
                streams = {name: None for at, name in enumerate(("stdin", "stdout", "stderr")) if at in closed}
                ran = room.run(streams={**streams, "preexec_fn": lambda: [os.closerange(at, at + 1) for at in closed]})
                name = f"streams {closed} are closed, {len(uplink)} octets"
                report.expect(f"{name}: the outputs", room.outputs() == [downlink, it.RECEIVED_HEAD], room.outputs())
                is_printed = uplink == it.ONE_CSBK and 1 not in closed
                report.expect(f"{name}: the status", ran.status == (0 if is_printed else 1), ran)


def check_hyphens_of_closed_streams(report):
    """Standard input that is closed is at its end, and standard output that is can't be written."""
    for closed, places, told in (
        (0, {"uplink": "-"}, "uplink: cut record"),
        (0, {"outgoing": "-"}, "outgoing: cut record"),
        (1, {"downlink": "-"}, "downlink: write failed"),
        (1, {"received": "-"}, "received: write failed"),
    ):
        with Room(report, it.ONE_CSBK, it.OUTGOING_HEAD) as room:
            streams = {"stdin" if closed == 0 else "stdout": None, "preexec_fn": lambda: os.closerange(closed, closed + 1)}
            ran = room.run(streams=streams, **places)
            report.expect(f"{places}, and stream {closed} is closed", ran.is_error(told), ran)


def check_pipes_that_are_inputs(report):
    """A pipe that is an input is no output, whichever name is given for either of them."""
    with Room(report, it.ONE_CSBK, it.OUTGOING_HEAD) as room:
        fifo = room.path / "pipe"
        os.mkfifo(fifo)
        # Open at both ends, so that nobody waits for another to open it.
        held = os.open(fifo, os.O_RDWR)
        for given, name, taken in itertools.product(FILES[:2], ("-", "/dev/stdin", fifo), FILES[2:]):
            # What would be read is at fault at once, so that nobody waits for more of it.
            os.write(held, b"no head!")
            ran = room.run(streams={"stdin": held}, **{given: name, taken: fifo})
            report.expect(f"{taken} over {given}, a pipe by {name}", ran.is_error(f"{taken}: cannot open"), ran)
        ran = room.run(downlink=fifo, received=fifo)
        report.expect("a named pipe for both outputs", ran.is_error("received: cannot open"), ran)
        os.close(held)
        for names in (("-", "/dev/stdout"), ("/dev/stdout", "-"), ("/dev/stdout", "/dev/stdout")):
            ran = room.run(**dict(zip(FILES[2:], names)))
            report.expect(f"standard output for both outputs, {names}", ran.is_error("received: cannot open"), ran)


def check_pipes(report):
    downlink = (report.top / "samples/one_csbk/downlink.dmrd").read_bytes()
    with Room(report, it.ONE_CSBK, it.OUTGOING_HEAD) as room:
        fifo = room.path / "pipe"
        os.mkfifo(fifo)
        reader = subprocess.Popen(["cat", fifo], stdout=subprocess.PIPE)
        ran = room.run(downlink=fifo)
        out = reader.communicate()[0]
        report.expect("a downlink into a named pipe", (ran.status, out) == (0, downlink), ran)
        writer = subprocess.Popen(["cp", room.uplink, fifo])
        ran = room.run(uplink=fifo)
        writer.wait()
        report.expect("an uplink out of a named pipe", (ran.status, ran.out) == (0, LINE), ran)
        room.downlink.write_bytes(b"")
        room.downlink.chmod(0o600)
        ran = room.run()
        kept = room.downlink.stat().st_mode & 0o777
        report.expect("an output keeps its permissions", (ran.status, kept) == (0, 0o600), ran)


def check_colours(report):
    """The block of the sample has another colour code than the call."""
    folder = report.top / "samples/other_colour"
    with Room(report, (folder / "uplink.dmru").read_bytes(), it.OUTGOING_HEAD) as room:
        first = room.run("--colour", 2), room.outputs()
        second = room.run("--color", 2), room.outputs()
        report.expect("--color is --colour", repr(first) == repr(second), second)
        report.expect("colour code 2 repeats its block alone", b" repeated 1 " in first[0].out, first)


def check(report):
    check_outputs_over_inputs(report)
    check_one_output(report)
    check_nothing_lost(report)
    check_order(report)
    check_names(report)
    check_lists_left_out(report)
    check_devices(report)
    check_standard_streams(report)
    check_hyphen_to_file(report)
    check_closed_streams(report)
    check_hyphens_of_closed_streams(report)
    check_pipes(report)
    check_pipes_that_are_inputs(report)
    check_colours(report)
