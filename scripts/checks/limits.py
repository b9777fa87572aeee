"""The longest files that there may be, and longer ones. A record past the limit is refused before its tag is looked at."""

import array
import resource
import subprocess
import sys

from checks import recordings as it
from checks.program import Room, summary


def received_records(frames):
    """Four empty records of each of so many frames, which are as many as there may be."""
    records = bytearray(b"".join(it.received_record(0, slot, kind, 1, b"") for slot in (1, 2) for kind in (2, 1)) * frames)
    numbers = array.array("I", range(frames))
    if sys.byteorder == "little":
        numbers.byteswap()
    for at in range(0, 48, 12):
        for octet in range(4):
            records[at + 1 + octet :: 48] = numbers.tobytes()[octet::4]
    return bytes(records)


def check_listings(report):
    """Listings of the longest files, of which no frame is asked for, and of longer ones."""
    frames = it.LIMIT + 6
    counted = f"frames {frames} seconds {frames * 6 // 100}.{frames * 6 % 100:02} slot-1 0 slot-2 0 unreadable 0"
    for file, octets, more, last, place in (
        ("uplink", it.UPLINK_HEAD + bytes(2 * it.LIMIT), b"\1", None, f", frame {it.LIMIT}, slot 1"),
        ("downlink", it.DOWNLINK_HEAD + bytes(2 * frames), b"\1", counted, f", frame {frames}, slot 1"),
        ("outgoing list", it.OUTGOING_HEAD + it.LIMIT * it.outgoing_record(0, octets=b""), b"\7", f"records {it.LIMIT}", ""),
        ("received list", it.RECEIVED_HEAD + received_records(frames), b"\7", f"records {4 * frames}", ""),
    ):
        # The longest uplink is listed with its bursts elsewhere.
        if last:
            ran = report.call("show", "-", "--from", 2**32 - 1, given=octets)
            report.expect(f"the longest {file}, listed", (ran.status, ran.out.decode().splitlines()[1:]) == (0, [last]), ran)
        ran = report.call("show", "-", "--from", 2**32 - 1, given=octets + more)
        told = f"error: -: too long at octet {len(octets)}{place}\n"
        is_so = (ran.status, ran.out.count(b"\n"), ran.err.decode()) == (1, 1, told)
        report.expect(f"an octet past the longest {file}, listed", is_so, ran)


def have_little_memory():
    """From here on a process has 64 MiB, which is less than the longest texts have octets."""
    resource.setrlimit(resource.RLIMIT_AS, (64 << 20, 64 << 20))


def expect_carried(report, name, room, command, given, wanted, line):
    """What stands in a file is carried into another one, with little memory."""
    (room.path / "given").write_bytes(given)
    ran = report.call(command, "text", "given", "made", cwd=room.path, preexec_fn=have_little_memory)
    is_so = (ran.status, ran.out, ran.err) == (0, f"{line}\n".encode(), b"")
    report.expect(f"{command} of {name}", is_so and (room.path / "made").read_bytes() == wanted, ran)


def check_texts(report):
    """The longest files as text and back, and texts of longer ones, which are refused at the line past the limit."""
    frames = it.LIMIT + 6
    records = "".join(f"{{0}} {slot} {kind} 1 -\n" for slot in (1, 2) for kind in ("status", "short-data"))
    sending, burst = "7 1 unconfirmed half -", "00" * 33
    # A file's name and octets, the lines between the first and the last one, what it counts, and the line of one record more.
    for file, octets, lines, counts, more in (
        ("uplink", it.UPLINK_HEAD + bytes(2 * it.LIMIT), "", ("frames", it.LIMIT), f"{it.LIMIT} 1 {burst}"),
        ("downlink", it.DOWNLINK_HEAD + bytes(2 * frames), "", ("frames", frames), f"{frames} 1 000000 {burst}"),
        (
            "outgoing",
            it.OUTGOING_HEAD + it.LIMIT * it.outgoing_record(7, octets=b""),
            f"{sending}\n" * it.LIMIT,
            ("records", it.LIMIT),
            sending,
        ),
        (
            "received",
            it.RECEIVED_HEAD + received_records(frames),
            "".join(map(records.format, range(frames))),
            ("records", 4 * frames),
            f"{frames} 1 status 1 -",
        ),
    ):
        word, count = counts
        front, last = f"dmrgate {file} 1\n{lines}", f"{word} {count}"
        text, line = f"{front}{last}\n".encode(), f"{last} records {2 * count}" if word == "frames" else last
        with Room(report) as room:
            expect_carried(report, f"the longest {file}", room, "export", octets, text, line)
            expect_carried(report, f"the longest {file}", room, "import", text, octets, line)
            (room.path / "given").write_bytes(f"{front}{more}\n{last}\n".encode())
            ran = report.call("import", "text", "given", "made", cwd=room.path)
            told = f"given: line {front.count(chr(10)) + 1}: too long"
            report.expect(f"a record past the longest {file}, in a text", ran.is_error(told), ran)


def check(report):
    silence = it.UPLINK_HEAD + bytes(2 * it.LIMIT)
    records = it.OUTGOING_HEAD + it.LIMIT * it.outgoing_record(2**32 - 1, octets=b"")
    with Room(report, silence, it.OUTGOING_HEAD) as room:
        ran = room.run(downlink="/dev/null")
        report.expect("the longest uplink", ran.out == summary(it.LIMIT + 6) and ran.status == 0, ran)
    for more in (b"\0", b"\1", b"\7"):
        with Room(report, silence + more, it.OUTGOING_HEAD) as room:
            ran = room.run(downlink="/dev/null")
            report.expect(f"an octet {more!r} past the longest uplink", ran.is_error("uplink: too long"), ran)
    with Room(report, it.UPLINK_HEAD, records) as room:
        ran = room.run()
        report.expect("the longest outgoing list", ran.out == summary(unoffered=it.LIMIT) and ran.status == 0, ran)
    for more in (b"\2", b"\7"):
        with Room(report, it.UPLINK_HEAD, records + more) as room:
            ran = room.run()
            report.expect(f"an octet {more!r} past the longest outgoing list", ran.is_error("outgoing: too long"), ran)
    with Room(report, b"", it.OUTGOING_HEAD) as room:
        endless = subprocess.Popen(["sh", "-c", "printf 'DMRU\\1\\0\\0\\0'; exec cat /dev/zero"], stdout=subprocess.PIPE)
        ran = room.run(uplink="-", downlink="/dev/null", streams={"stdin": endless.stdout})
        endless.stdout.close()
        endless.wait()
        report.expect("silence without end", ran.is_error("uplink: too long"), ran)
    check_listings(report)
    check_texts(report)
