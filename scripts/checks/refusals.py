"""The text and the status of each refusal, and of what is no fault but might be taken for one."""

import os
import resource

from building.programs import FIRST, tools
from checks import recordings as it
from checks.bursts import data_burst, information_of, unreadable_burst, untyped_data_burst, voice_burst, voice_sync_burst
from checks.contents import TWELVE, TWELVE_DIGITS, beyond_reach
from checks.program import UNWRITTEN, Room, summary

BURST = b"\1" + it.CSBK
SHORT = b"\2" + bytes(4)

# What an uplink file holds, and its fault.
UPLINKS = [
    (b"", "cut record"),
    (b"DMRU\1\0\0", "cut record"),
    (b"DMRO\1\0\0\0", "bad magic"),
    (b"dmru\1\0\0\0", "bad magic"),
    (b"DMRO\2\0\0\0", "bad magic"),
    (b"DMRU\2\0\0\0", "bad version"),
    (b"DMRU\1\0\0\1", "bad version"),
    (it.UPLINK_HEAD + b"\7", "bad tag"),
    (it.UPLINK_HEAD + b"\2", "bad tag"),
    (it.UPLINK_HEAD + b"\0\7", "bad tag"),
    (it.UPLINK_HEAD + b"\1", "cut record"),
    (it.UPLINK_HEAD + BURST[:20], "cut record"),
    (it.UPLINK_HEAD + BURST[:33], "cut record"),
    (it.UPLINK_HEAD + b"\0", "half frame"),
    (it.UPLINK_HEAD + BURST, "half frame"),
    (it.UPLINK_HEAD + bytes(21), "half frame"),
]

# What an outgoing file holds, and its fault.
OUTGOINGS = [
    (b"", "cut record"),
    (b"DMRU\1\0\0\0", "bad magic"),
    (b"DMRO\0\0\0\0", "bad version"),
    (it.OUTGOING_HEAD + b"\0", "bad tag"),
    (it.OUTGOING_HEAD + b"\3", "bad tag"),
    (it.OUTGOING_HEAD + SHORT, "cut record"),
    (it.OUTGOING_HEAD + it.outgoing_record(0, slot=0), "bad tag"),
    (it.OUTGOING_HEAD + it.outgoing_record(0, slot=3), "bad tag"),
    (it.OUTGOING_HEAD + it.outgoing_record(0, mode=4), "bad tag"),
    (it.OUTGOING_HEAD + it.outgoing_record(0, octets=bytes(1401))[:-1], "cut record"),
    (it.OUTGOING_HEAD + it.outgoing_record(2) + it.outgoing_record(1), "frame order"),
    (it.OUTGOING_HEAD + it.outgoing_record(9000) + it.outgoing_record(8999), "frame order"),
]

# Options that are refused by the parser of the command line, and a part of its text.
REFUSED = [
    (["--llid", "0"], "0 is not in 1..=16777215"),
    (["--llid", "16777216"], "16777216 is not in 1..=16777215"),
    (["--llid", "4294967296"], "4294967296 is not in 1..=16777215"),
    (["--llid", "one"], "invalid digit found in string"),
    (["--colour", "16"], "16 is not in 0..=15"),
    (["--color", "16"], "16 is not in 0..=15"),
    (["--colour", "-1"], "unexpected argument '-1' found"),
    (["--colour", "0x1"], "invalid digit found in string"),
    (["--call-hang", "65536"], "65536 is not in 0..=65535"),
    (["--channel-hang", "65536"], "65536 is not in 0..=65535"),
    (["--queue", "0"], "0 is not in 1..=64"),
    (["--queue", "65"], "65 is not in 1..=64"),
    (["--queue", "nine"], "invalid digit found in string"),
    (["--queue", ""], "cannot parse integer from empty string"),
    (["--colours", "1"], "unexpected argument '--colours' found"),
    (["--colour", "1", "--colour", "2"], "cannot be used multiple times"),
    (["more"], "unexpected argument 'more' found"),
]

# What is told of words, to the octet.
SLOT_ALONE = """error: the following required arguments were not provided:
  <HEX>

Usage: dmrgate slot <HEX>

For more information, try '--help'.
"""
RUN_ALONE = """error: the following required arguments were not provided:
  --uplink <FILE>
  --downlink <FILE>
  --llid <N>

Usage: dmrgate run --uplink <FILE> --downlink <FILE> --llid <N>

For more information, try '--help'.
"""
COLOUR_16 = """error: invalid value '16' for '--colour <N>': 16 is not in 0..=15

For more information, try '--help'.
"""
COLOURS = """error: unexpected argument '--colours' found

  tip: a similar argument exists: '--colour'

Usage: dmrgate run --uplink <FILE> --downlink <FILE> --llid <N> --outgoing <FILE> --received <FILE> --colour <N>

For more information, try '--help'.
"""

HEXADECIMAL = "a burst is 66 hexadecimal digits"


def check_files(report):
    for octets, fault in UPLINKS:
        with Room(report, octets, it.OUTGOING_HEAD) as room:
            ran = room.run()
            report.expect(f"uplink {octets[:12]!r}..: {fault}", ran.is_error(f"uplink: {fault}"), ran)
    for octets, fault in OUTGOINGS:
        with Room(report, it.UPLINK_HEAD, octets) as room:
            ran = room.run()
            report.expect(f"outgoing list {octets[:20]!r}..: {fault}", ran.is_error(f"outgoing: {fault}"), ran)
    with Room(report, b"", b"") as room:
        ran = room.run()
        report.expect("both inputs faulty: the uplink's is told", ran.is_error("uplink: cut record"), ran)
    with Room(report, it.UPLINK_HEAD, it.OUTGOING_HEAD) as room:
        ran = room.run()
        report.expect("no frames: six of silence", ran.out == summary() and ran.status == 0, ran)
        wanted = [it.DOWNLINK_HEAD + bytes(12), it.RECEIVED_HEAD]
        report.expect("no frames: the outputs", room.outputs() == wanted, room.outputs())
    late = it.OUTGOING_HEAD + it.outgoing_record(6) + it.outgoing_record(6, slot=2, mode=3) + it.outgoing_record(2**32 - 1)
    with Room(report, it.UPLINK_HEAD, late) as room:
        ran = room.run()
        report.expect("records of frames past the end", ran.out == summary(unoffered=3) and ran.status == 0, ran)


def check_devices(report):
    with Room(report, it.ONE_CSBK, it.OUTGOING_HEAD) as room:
        for file in ("uplink", "outgoing"):
            ran = room.run(**{file: room.path})
            report.expect(f"a folder as {file}", ran.is_error(f"{file}: read failed"), ran)
            ran = room.run(**{file: room.path / "nowhere"})
            report.expect(f"no {file}", ran.is_error(f"{file}: cannot open"), ran)
        for file in ("downlink", "received"):
            ran = room.run(**{file: "/dev/full"})
            report.expect(f"a full device as {file}", ran.is_error(f"{file}: write failed"), ran)
            for place in (room.path, room.path / "nowhere" / "file", ""):
                ran = room.run(**{file: place})
                report.expect(f"{place} as {file}", ran.is_error(f"{file}: cannot open"), ran)
        ran = room.run(downlink="/dev/full", received="/dev/full")
        report.expect("both outputs full: the downlink's is told", ran.is_error("downlink: write failed"), ran)
        room.uplink.write_bytes(it.UPLINK_HEAD + b"\0")
        ran = room.run(downlink="/dev/full", received="/dev/full")
        report.expect("a fault of the run goes before both", ran.is_error("uplink: half frame"), ran)
        room.uplink.write_bytes(it.ONE_CSBK)
        with open("/dev/full", "wb") as full:
            ran = room.run(streams={"stdout": full})
            report.expect("standard output is full", (ran.status, ran.err) == (1, UNWRITTEN), ran)
        read, write = os.pipe()
        os.close(read)
        with os.fdopen(write, "wb") as broken:
            ran = room.run(streams={"stdout": broken})
            report.expect("nobody reads standard output", (ran.status, ran.err) == (1, b""), ran)
        ran = room.run(streams={"stdout": None, "preexec_fn": lambda: os.closerange(1, 2)})
        report.expect("standard output is closed", (ran.status, ran.err) == (1, UNWRITTEN), ran)
        with open("/dev/full", "wb") as full:
            ran = room.run(uplink=room.path / "nowhere", streams={"stderr": full})
            report.expect("standard error is full", (ran.status, ran.out) == (1, b""), ran)
            for file in ("downlink", "received"):
                ran = room.run(**{file: "-"}, streams={"stdout": full})
                report.expect(f"{file} to a full standard output", ran.is_error(f"{file}: write failed"), ran)


def told_more(room, *more, **places):
    """What a run tells more with --verbose. All else is as it is without that."""
    plain, outputs = room.run(*more, **places), room.outputs()
    ran = room.run("--verbose", *more, **places)
    is_same = (ran.status, ran.out, room.outputs()) == (plain.status, plain.out, outputs)
    room.report.expect(f"{more} {places} with --verbose", is_same and ran.err.startswith(plain.err), (plain, ran))
    return ran.err[len(plain.err) :].decode()


def check_places(report):
    """With --verbose a fault of an input is told with its place, as a listing tells it, and so is one of an output."""
    for file, rows in (("uplink", UPLINKS), ("outgoing", OUTGOINGS)):
        for octets, fault in rows:
            # A listing takes each of the four magics.
            if fault == "bad magic":
                continue
            with Room(report, it.ONE_CSBK, it.OUTGOING_HEAD) as room:
                getattr(room, file).write_bytes(octets)
                told, shown = told_more(room), report.call("show", getattr(room, file))
                report.expect(f"{file} {octets[:60]}: where {fault} is", told == shown.err.decode(), (told, shown))
    with Room(report, (report.top / "samples/call/uplink.dmru").read_bytes(), it.OUTGOING_HEAD) as room:
        limited = {"preexec_fn": lambda: resource.setrlimit(resource.RLIMIT_FSIZE, (100, 100)), "restore_signals": False}
        told = told_more(room, streams=limited)
        shown = report.call("show", room.downlink).err.decode()
        wanted = shown.replace("cut record", "write failed").replace("\n", ": File too large (os error 27)\n")
        report.expect("a downlink of 100 octets", "write failed" in told and told == wanted, (told, shown))


def check_reasons(report):
    """With --verbose the reason of the system is told, where there is one."""
    with Room(report, it.ONE_CSBK, it.OUTGOING_HEAD) as room:
        nowhere = room.path / "nowhere" / "file"
        missing = "No such file or directory (os error 2)"
        for file in ("uplink", "outgoing", "downlink", "received"):
            told = told_more(room, **{file: nowhere})
            report.expect(f"{file} is nowhere", told == f"error: {nowhere}: cannot open: {missing}\n", told)
        for file in ("uplink", "outgoing"):
            told = told_more(room, **{file: "."})
            wanted = "error: .: read failed at octet 0: Is a directory (os error 21)\n"
            report.expect(f"{file} is a folder", told == wanted, told)
        for file in ("downlink", "received"):
            told = told_more(room, **{file: "/dev/full"})
            wanted = "error: /dev/full: write failed at octet 0: No space left on device (os error 28)\n"
            report.expect(f"{file} is a full device", told == wanted, told)
            told = told_more(room, **{file: room.uplink})
            report.expect(f"{file} is the uplink", told == f"error: {room.uplink}: cannot open\n", told)
        told = told_more(room, uplink="up\x1b[31m\nlink")
        report.expect("a name with control characters", told == f"error: up?[31m?link: cannot open: {missing}\n", told)
        report.expect("a hang that is refused", told_more(room, "--call-hang", 6) == "")


def check_unrepeated(report):
    """With --verbose it is told what was heard where nothing is repeated, and nothing of a run that repeats."""
    block = information_of(bytes(12))
    for bursts, colour, counts in (
        ([], 1, (0, 0, 0)),
        ([it.CSBK, it.CSBK], 2, (2, 2, 0)),
        ([bytes.fromhex(it.IDLE)], 1, (1, 0, 1)),
        ([bytes.fromhex(it.IDLE), voice_sync_burst("BS")], 5, (2, 1, 2)),
        ([untyped_data_burst("BS"), unreadable_burst()], 1, (2, 0, 1)),
        ([data_burst(9, block, 3), voice_burst(3, colour=4)], 1, (2, 2, 0)),
    ):
        slots = [b"\1" + burst for burst in bursts] + [b"\0"] * (2 - len(bursts))
        with Room(report, it.UPLINK_HEAD + b"".join(slots), it.OUTGOING_HEAD) as room:
            told = told_more(room, "--colour", colour)
            words = "bursts {}, of other colour codes {}, of base stations {}".format(*counts)
            wanted = f"error: {room.uplink}: nothing was repeated: {words}\n"
            report.expect(f"{counts} heard, colour code {colour}", told == wanted, told)
    with Room(report, it.ONE_CSBK, it.OUTGOING_HEAD) as room:
        report.expect("a run that repeats", told_more(room) == "")
        ran = room.run("--verbose", "--colour", 2, downlink="-", uplink="-", given=it.ONE_CSBK)
        words = "error: -: nothing was repeated: bursts 1, of other colour codes 1, of base stations 0\n"
        is_so = (ran.status, ran.err) == (0, summary(7) + words.encode())
        report.expect("behind the line, where the downlink is a hyphen", is_so, ran)


def check_words(report):
    with Room(report, it.ONE_CSBK, it.OUTGOING_HEAD) as room:
        hang = "call hang is longer than channel hang"
        for hangs in (["--call-hang", 6], ["--channel-hang", 2], ["--call-hang", 65535, "--channel-hang", 65534]):
            ran = room.run(*hangs)
            report.expect(f"{hangs}", ran.is_error(hang, 2), ran)
        ran = room.run("--call-hang", 6, uplink=room.path / "nowhere")
        report.expect("settings are tested before files are opened", ran.is_error(hang, 2), ran)
        for words, text in REFUSED:
            ran = room.run(*words)
            is_told = ran.status == 2 and ran.out == b"" and ran.err.startswith(b"error: ") and text in ran.err.decode()
            report.expect(f"{words}", is_told, ran)
        for words, text in ((["--colour", 16], COLOUR_16), (["--colours", 1], COLOURS)):
            ran = room.run(*words)
            report.expect(f"the text of {words}", (ran.status, ran.out, ran.err.decode()) == (2, b"", text), ran)
        report.expect("nothing was written at a refused command line", room.outputs() == [None, None])
        for words in (["--llid", 16777215], ["--colour", 0], ["--colour", 15], ["--queue", 1], ["--queue", 64],
                      ["--call-hang", 0], ["--call-hang", 65535, "--channel-hang", 65535]):
            ran = room.run(*words)
            report.expect(f"{words}", (ran.status, ran.err) == (0, b""), ran)
        words = room.words()
        for name in ("uplink", "downlink", "llid"):
            at = words.index(f"--{name}")
            ran = report.call(*words[:at], *words[at + 2 :])
            is_told = ran.status == 2 and ran.out == b"" and f"  --{name} <" in ran.err.decode()
            report.expect(f"no --{name}", is_told, ran)
    for words in ([], ["walk"], ["slot"], ["slot", it.IDLE, it.IDLE], ["show"], ["show", "-", "-"], ["--quiet"]):
        ran = report.call(*words)
        is_told = ran.status == 2 and ran.out == b"" and b"Usage: dmrgate" in ran.err
        report.expect(f"words {words}", is_told, ran)
    for command, text in (("slot", SLOT_ALONE), ("run", RUN_ALONE)):
        ran = report.call(command)
        report.expect(f"the text of {command} alone", (ran.status, ran.out, ran.err.decode()) == (2, b"", text), ran)
    with open("/dev/full", "wb") as full:
        for words in (["--help"], ["--version"], ["slot", it.IDLE], ["show", "--help"], ["help", "show"]):
            ran = report.call(*words, stdout=full)
            report.expect(f"{words}, and standard output is full", (ran.status, ran.err) == (1, UNWRITTEN), ran)
        for words in ([], ["show"]):
            ran = report.call(*words, stderr=full)
            report.expect(f"words {words}, and standard error is full", (ran.status, ran.out) == (1, b""), ran)
    for command in ("slot", "show"):
        ran = report.call(command, b"\xff".decode(errors="surrogateescape"))
        report.expect(f"words of {command} that are no text", ran.is_error("the command line is not UTF-8 text", 2), ran)
    ran = report.call("show", "nowhere", "--from", 9, "--to", 8)
    report.expect("a listing that begins beyond its end", ran.is_error("--from is beyond --to", 2), ran)
    ran = report.call("show", "no\x1b[31mwhere\x7f\x9b")
    report.expect("a name with control characters", ran.is_error("no?[31mwhere??: cannot open"), ran)


def check_elsewhere(report):
    """A program refuses the commands of the other one, past the command that chooses between them."""
    text = "another program of dmrgate does this: start it by the command dmrgate"
    elsewhere = [(FIRST, it) for it in tools()] + [("dmrgate_tools", it) for it in ("run", "slot")]
    for program, command in elsewhere:
        ran = report.call(command, program=program)
        report.expect(f"{program} doesn't do {command}", ran.is_error(text, 2), ran)


def bursts_of_each_line():
    """Bursts for each line that `slot` may print, of either side, with each type and each EMB."""
    for side in ("BS", "MS"):
        for kind in range(16):
            # Each type has a colour code of its own, another of either side.
            colour = (5 * kind + (3 if side == "BS" else 11)) % 16
            told, lost = ("as received",) * 2 if kind in (8, 10) else (TWELVE_DIGITS, "unreadable")
            for information, holds in ((information_of(TWELVE), told), (beyond_reach(), lost)):
                line = f"data {side}, colour {colour}, type {kind}, information {holds}"
                yield data_burst(kind, information, colour, side), line
        yield untyped_data_burst(side), f"data {side}, slot type unreadable"
        yield voice_sync_burst(side), f"voice sync {side}"
    for emb in range(128):
        colour, pi, lcss = emb // 8, emb // 4 % 2, emb % 4
        yield voice_burst(lcss, pi, colour=colour), f"voice, colour {colour}, PI {pi}, LCSS {lcss}"
    yield unreadable_burst(), "unreadable"


def check_bursts(report):
    for burst, line in bursts_of_each_line():
        ran = report.call("slot", burst.hex())
        report.expect(f"slot of a burst: {line}", (ran.status, ran.out.decode(), ran.err) == (0, f"{line}\n", b""), ran)
    for burst, line in [
        (it.IDLE, "data BS, colour 1, type 9, information FF83DF1732094ED1E7CD8A91"),
        (it.IDLE.lower(), "data BS, colour 1, type 9, information FF83DF1732094ED1E7CD8A91"),
        (it.CSBK.hex(), "data MS, colour 1, type 3, information 000000000000000000005A5A"),
        ("0" * 27 + "5D00000000D" + "0" * 28, "voice, colour 5, PI 1, LCSS 2"),
        ("0" * 66, "voice, colour 0, PI 0, LCSS 0"),
        ("0" * 27 + "33000000008" + "0" * 28, "unreadable"),
    ]:
        ran = report.call("slot", burst)
        report.expect(f"slot {burst}", (ran.status, ran.out, ran.err) == (0, line.encode() + b"\n", b""), ran)
    for burst in ("", "0", it.IDLE[1:], it.IDLE + "0", it.IDLE[:-1] + "G", " " + it.IDLE[1:]):
        ran = report.call("slot", burst)
        report.expect(f"slot {burst!r}", ran.is_error(HEXADECIMAL, 2), ran)


def check(report):
    check_files(report)
    check_devices(report)
    check_places(report)
    check_reasons(report)
    check_unrepeated(report)
    check_words(report)
    check_elsewhere(report)
    check_bursts(report)
