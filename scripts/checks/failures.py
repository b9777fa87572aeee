"""Each call of the system that may fail fails in turn, until a run answers well: memory, reads, writes, opening, emptying."""

import itertools
import os
import pathlib
import shutil
import subprocess
import tempfile

from checks import recordings as it
from checks.bursts import CONTROL_BLOCK, data_burst, information_of, sealed
from checks.captures import CAPTURED
from checks.hotspots import CAPTURED as HOTSPOT
from checks.make import SCENE
from checks.program import Room, summary
from checks.text_lines import text_of

# Calls that never fail, as far as a count goes.
MANY = 2000

OLD = b"an older file"
NO_MEMORY = b"error: out of memory\n"

# How many datagrams may wait where that is left out, and the least and the greatest of each setting.
QUEUE = 9
LEAST = ["--colour", 0, "--llid", 1, "--call-hang", 0, "--channel-hang", 0, "--queue", 1]
GREATEST = ["--colour", 15, "--llid", 16_777_215, "--call-hang", 65_535, "--channel-hang", 65_535, "--queue", 64]

# Words that are answered with no run: listings, logs and faults, texts, one burst, help and the version, and mistakes.
ANSWERED = [
    ["show", "one.dmru"], ["show", "one.dmru", "--json"], ["show", "one.dmru", "--strip"], ["show", "cut.dmru"],
    ["log", "one.dmru", "--html"],
    ["show", "nowhere"], ["show", "long.dmri"], ["show", "long.dmri", "--json"], ["show", "long.dmri", "--strip"],
    ["log", "one.dmru"], ["log", "one.dmru", "--csv"], ["log", "one.dmru", "--json", "--llid", 1], ["log", "cut.dmru"],
    ["log", "nowhere"], ["log", "long.dmri"], ["log", "one.dmru", "--start", "now"], ["log", "--help"],
    ["make", "scene.txt", "made", "--outgoing", "list"], ["make", "scene.txt", "-"], ["make", "cut.txt", "made"],
    ["make", "nowhere", "made"], ["make", "scene.txt", "scene.txt"], ["make", "--help"],
    ["damage", "one.dmru", "-"], ["damage", "one.dmru", "made", "--errors", 500], ["damage", "cut.dmru", "made"],
    ["damage", "long.dmri", "made"], ["damage", "nowhere", "made"], ["damage", "one.dmru", "one.dmru"], ["damage", "--help"],
    ["compare", "one.dmru", "one.dmru"], ["compare", "one.dmru", "cut.dmru"], ["compare", "long.dmri", "long.dmri"],
    ["compare", "one.dmru", "nowhere"], ["compare", "--help"],
    ["export", "text", "one.dmru", "-"], ["export", "text", "cut.dmru", "-"], ["export", "text", "long.dmri", "made"],
    ["export", "text", "nowhere", "made"], ["export", "text", "one.dmru", "one.dmru"],
    ["import", "text", "one.txt", "-"], ["import", "text", "cut.txt", "-"], ["import", "text", "one.txt", "made"],
    ["import", "text", "nowhere", "made"], ["import", "text", "one.txt", "one.txt"], ["import", "--help"], ["export", "text"],
    ["import", "datagrams", "one.pcap", "made", "--slot", 1], ["import", "datagrams", "one.dmru", "made", "--slot", 1],
    ["export", "datagrams", "long.dmri", "made"], ["export", "datagrams", "one.dmru", "-"],
    ["import", "dmrd", "hotspot.pcap", "made", "--as-uplink"], ["import", "dmrd", "one.dmru", "made"],
    ["show", "--help"], ["show", "-", "--slot", 3], ["slot", it.IDLE], ["--help"], ["help"], ["run", "--help"],
    [], ["run", "--colours", 1], ["run", "--colour", 16],
]


def long_recording(report):
    """An uplink and an outgoing list that are read and written in several pieces, with datagrams both ways: a sample's frames,
    twice over, and behind its datagrams those of frames that the run hasn't."""
    sample = report.top / "samples/radios_that_answer"
    frames = (sample / "uplink.dmru").read_bytes()[8:]
    return it.UPLINK_HEAD + 2 * frames, (sample / "outgoing.dmro").read_bytes() + 500 * it.outgoing_record(2**32 - 1)


def expect_traffic(report, name, ran):
    """Datagrams went out, and something came in for the gateway."""
    words = ran.out.decode().split()
    counts = dict(zip(words[::2], map(int, words[1::2])))
    report.expect(f"{name}: datagrams both ways", counts.get("sent", 0) > 0 and counts.get("received", 0) > 0, ran)


class Shim:
    """What is loaded in front of the C library and lets a call fail, and the folder that it makes then."""

    def __init__(self, compiler, source, folder):
        self.library, self.mark = folder / "failing.so", folder / "failed"
        subprocess.run([compiler, "-O1", "-shared", "-fPIC", "-o", self.library, source, "-ldl"], check=True)

    def run(self, started, call, at=None):
        """Starts something in an environment in which this call fails, and tells whether it got to it."""
        more = {"FAILING_AT": str(at), "FAILED": str(self.mark)} if at else {}
        ran = started({**os.environ, "LD_PRELOAD": str(self.library), "FAILING": call, **more})
        reached = self.mark.exists()
        if reached:
            self.mark.rmdir()
        return ran, reached


class Failing:
    """A call that fails in the runs over some files, with some settings, and over a pipe where one is given."""

    def __init__(self, report, room, shim, *settings, **pipe):
        self.report, self.room, self.shim, self.settings, self.pipe = report, room, shim, settings, pipe
        self.whole = room.run(*settings, **pipe)
        self.wanted = self.whole.out, room.outputs()
        report.expect("a whole run", (self.whole.status, self.whole.err) == (0, b""), self.whole)

    def run(self, call, at=None):
        """A run in which this call fails, and whether the run got to it."""
        return self.shim.run(lambda env: self.room.run(*self.settings, env=env, **self.pipe), call, at)

    def in_turn(self, call):
        """Lets the first such call fail, the second, and so on, until a run has none left; answers the runs that failed."""
        failed = []
        for at in range(1, MANY):
            for output in (self.room.downlink, self.room.received):
                output.unlink(missing_ok=True)
            ran, reached = self.run(call, at)
            outputs = self.room.outputs()
            if ran.status == 0:
                is_whole = (ran.out, ran.err, outputs) == (self.wanted[0], b"", self.wanted[1])
                # Room that was refused may be found elsewhere; a call on a file that failed is never made good.
                self.report.expect(f"{call} {at}: a whole run", is_whole and (not reached or call == "memory"), ran)
            else:
                failed.append((ran, outputs))
                fronts = all(has is None or whole.startswith(has) for has, whole in zip(outputs, self.wanted[1]))
                self.report.expect(f"{call} {at}: the outputs are fronts of the whole ones", fronts, ran)
            if not reached:
                self.report.expect(f"{call}: the last run, in which nothing failed", ran.status == 0, ran)
                return failed
        self.report.expect(f"{call}: an end", False, f"none in {MANY} runs")
        return failed


def expect_texts(report, call, failed, texts):
    """Each run that failed told one of these, and each of these was told."""
    told = {(ran.status, ran.out, ran.err.decode()) for ran, _ in failed}
    wanted = {(1, b"", f"error: {text}\n") for text in texts}
    report.expect(f"{call}: what is told", told == wanted, sorted(told ^ wanted))


def check_memory(report, failing):
    failed = failing.in_turn("memory")
    told = all(ran.out == b"" and ran.err == NO_MEMORY for ran, _ in failed)
    report.expect("memory: each want of it is told", told, [ran for ran, _ in failed if ran.err != NO_MEMORY])
    statuses = [ran.status for ran, _ in failed]
    report.expect("memory: status 2 on the command line, and then 1", statuses == sorted(statuses, reverse=True), statuses)
    run = [outputs for ran, outputs in failed if ran.status == 1]
    report.expect("memory: a run leaves both outputs empty", run and all(outputs == [b"", b""] for outputs in run), run)
    command_line = [outputs for ran, outputs in failed if ran.status == 2]
    report.expect("memory: no output is made before", all(outputs == [None, None] for outputs in command_line), command_line)
    return len(run)


def check_emptying(report, failing):
    """The outputs are emptied in their order, and what can't be emptied is as it was."""
    for at, file, left in ((1, "downlink", [OLD, OLD]), (2, "received", [b"", OLD])):
        failing.room.downlink.write_bytes(OLD)
        failing.room.received.write_bytes(OLD)
        ran, reached = failing.run("empty", at)
        report.expect(f"{file} can't be emptied", reached and ran.is_error(f"{file}: cannot open"), ran)
        report.expect(f"{file} can't be emptied: the outputs", failing.room.outputs() == left, failing.room.outputs())


def check_reads_and_writes(report, failing):
    expect_texts(report, "read", failing.in_turn("read"), ["uplink: read failed", "outgoing: read failed"])
    # The last write is the line of the run itself.
    texts = [f"{file}: write failed" for file in ("downlink", "received", "standard output")]
    expect_texts(report, "write", failing.in_turn("write"), texts)


def check_settings(report, room, shim, growths):
    """A want of memory is told at the ends of the ranges of settings too. It is wanted as often, but for the datagrams that may
    wait: each of them has a place in either slot."""
    for settings in LEAST, GREATEST:
        had = check_memory(report, Failing(report, room, shim, *settings))
        wanted = growths + 2 * (settings[-1] - QUEUE)
        report.expect(f"how often memory is wanted with {settings}", had == wanted, f"{had}, not {wanted}")


def check_extremes(report):
    """A run has the memory that it wants at all ends of the ranges of settings."""
    block = information_of(sealed(bytes(10), CONTROL_BLOCK))
    for settings in itertools.product(*zip(zip(LEAST[::2], LEAST[1::2]), zip(GREATEST[::2], GREATEST[1::2]))):
        known = dict(settings)
        if known["--call-hang"] > known["--channel-hang"]:
            continue
        uplink = it.UPLINK_HEAD + b"\1" + data_burst(3, block, known["--colour"]) + b"\0"
        with Room(report, uplink, it.OUTGOING_HEAD) as room:
            ran = room.run(*itertools.chain(*settings))
            report.expect(f"a run with {known}", (ran.status, ran.out, ran.err) == (0, summary(7, 1), b""), ran)


def expect_answer(report, shim, words, folder):
    """Each growth fails in turn: words are answered whole, or it is told that there is no memory. Answers how often it is."""
    whole, statuses = report.call(*words, cwd=folder), []
    for at in range(1, MANY):
        ran, reached = shim.run(lambda env: report.call(*words, cwd=folder, env=env), "memory", at)
        is_whole = (ran.status, ran.out, ran.err) == (whole.status, whole.out, whole.err)
        # Lines up to a fault may stand before its text, for which there is no memory. Each row of a log takes memory of its own.
        is_front = ran.out == b"" or whole.status == 1 and ran.out == whole.out
        is_front = is_front or words[:1] == ["log"] and whole.out.startswith(ran.out)
        is_told = ran.status in (1, 2) and ran.err == NO_MEMORY and is_front
        report.expect(f"{words}, growth {at} fails", is_whole or is_told, ran)
        statuses += [] if is_whole else [ran.status]
        if not reached:
            report.expect(f"{words}, and nothing fails", is_whole, ran)
            break
    report.expect(f"{words}: status 2 on the command line, and then 1", statuses == sorted(statuses, reverse=True), statuses)
    report.expect(f"{words} want memory", statuses, whole)


def check_answers(report, shim):
    """What is told of words where there is no memory for it: listings, help, and mistakes."""
    longest = it.received_record(2**32 - 1, 2, 1, 0xFFFFFF, bytes(number % 251 for number in range(65_535)))
    with Room(report) as room:
        for name, octets in (("one.dmru", it.ONE_CSBK), ("cut.dmru", it.ONE_CSBK[:42]), ("long.dmri", it.RECEIVED_HEAD + longest)):
            (room.path / name).write_bytes(octets)
        text, _ = text_of(it.ONE_CSBK)
        (room.path / "one.txt").write_bytes(text)
        (room.path / "one.pcap").write_bytes(CAPTURED)
        (room.path / "scene.txt").write_text(SCENE)
        (room.path / "hotspot.pcap").write_bytes(HOTSPOT)
        (room.path / "cut.txt").write_bytes(text[:-9])
        for words in ANSWERED:
            expect_answer(report, shim, words, room.path)


def check(report):
    compiler = shutil.which("cc")
    report.expect("there is a C compiler", compiler, "no cc")
    if not compiler:
        return
    check_extremes(report)
    with tempfile.TemporaryDirectory(prefix="dmrgate-failing-") as folder, Room(report, *long_recording(report)) as room:
        shim = Shim(compiler, report.top / "scripts/failing.c", pathlib.Path(folder))
        failing = Failing(report, room, shim)
        expect_traffic(report, "3,000 frames", failing.whole)

        growths = check_memory(report, failing)
        check_reads_and_writes(report, failing)
        files = ["uplink", "outgoing", "downlink", "received"]
        expect_texts(report, "open", failing.in_turn("open"), [f"{file}: cannot open" for file in files])
        expect_texts(report, "empty", failing.in_turn("empty"), [f"{file}: cannot open" for file in files[2:]])
        check_emptying(report, failing)
        ran, _ = failing.run("short")
        report.expect("an octet at a time", (ran.status, ran.out, room.outputs()) == (0, *failing.wanted), ran)

        room.uplink.write_bytes(it.UPLINK_HEAD + b"\1" + it.STATUS + bytes(19))
        room.outgoing.write_bytes(it.OUTGOING_HEAD + it.outgoing_record(0, slot=2))
        failing = Failing(report, room, shim)
        expect_traffic(report, "ten frames", failing.whole)
        short = check_memory(report, failing)
        report.expect("ten frames want memory as often as 3,000", short == growths, f"{short} and {growths}")
        # Live, each record is written by itself.
        check_reads_and_writes(report, Failing(report, room, shim, uplink="-", given=room.uplink.read_bytes()))
        check_settings(report, room, shim, growths)
        check_answers(report, shim)
