"""Captures: what is made of lists, and of captures that are written here and elsewhere, bent and cut ones, words, and live."""

import shutil
import subprocess

from checks import hotspots
from checks import recordings as it
from checks.capture_files import FAULTS, HEAD, as_pcapng, by_others, capture_head, cut_and_bent, packet
from checks.limits import have_little_memory
from checks.program import UNWRITTEN, Room
from checks.text import expect_live

# A datagram from 12.0.0.1 to 12.0.0.2 with no data.
DATAGRAM = it.DATAGRAM

def outgoing(*records):
    return it.OUTGOING_HEAD + b"".join(records)


# Two datagrams and a status, and the capture of the datagrams.
RECEIVED = it.RECEIVED_HEAD + b"".join([
    it.received_record(0x58, 1, 0, 1, DATAGRAM),
    it.received_record(0x5A, 1, 2, 3, bytes.fromhex("01020005")),
    it.received_record(0x68, 2, 0, 1, DATAGRAM),
])
CAPTURED = HEAD + packet(5, 280_000, DATAGRAM) + packet(6, 270_000, DATAGRAM)

# When their packets came, in microseconds.
TWO = [(5_280_000, DATAGRAM), (6_270_000, DATAGRAM)]


def as_pcap(head, parts, order="<"):
    """Both packets behind this head, of which a microsecond has so many parts."""
    return head + b"".join(packet(at // 1_000_000, at % 1_000_000 * parts, octets, order) for at, octets in TWO)


def expect(report, name, ran, wanted, line):
    """What goes to standard output, and the line of counts beside it."""
    report.expect(name, (ran.status, ran.out, ran.err.decode()) == (0, wanted, line), ran)


def check_exports(report):
    ran = report.call("export", "datagrams", "-", "-", given=RECEIVED)
    expect(report, "datagrams as a capture", ran, CAPTURED, "records 3 written 2 left-out 1\n")
    ran = report.call("export", "datagrams", "-", "-", "--slot", 2, given=RECEIVED)
    expect(report, "those of slot 2", ran, HEAD + packet(6, 270_000, DATAGRAM), "records 3 written 1 left-out 2\n")
    ran = report.call("export", "datagrams", "-", "-", "--start=2026-01-31T12:00:00Z", given=RECEIVED)
    wanted = HEAD + packet(1_769_860_805, 280_000, DATAGRAM) + packet(1_769_860_806, 270_000, DATAGRAM)
    expect(report, "at a time of day", ran, wanted, "records 3 written 2 left-out 1\n")
    for folder in sorted(report.top.glob("samples/*/received.dmri")):
        octets = folder.read_bytes()
        ran = report.call("export", "datagrams", folder, "-")
        counts = ran.err.decode().split()
        is_so = ran.status == 0 and it.received_fault(octets) is None and int(counts[1]) == int(counts[3]) + int(counts[5])
        report.expect(f"datagrams of {folder.parent.name}", is_so and ran.out.startswith(HEAD), ran)


def of_ethernet():
    """A capture of Ethernet, which fills a short packet up. The first packet is no datagram of a radio, and the last one none."""
    ethernet = bytes(12) + bytes.fromhex("0800")
    other = DATAGRAM[:16] + bytes([10]) + DATAGRAM[17:]
    frames = [ethernet + other, ethernet + DATAGRAM + bytes(18), bytes(12) + bytes.fromhex("0806") + bytes(46)]
    return capture_head(1) + b"".join(packet(number, 0, frame) for number, frame in enumerate(frames))


def check_imports(report):
    records = outgoing(it.outgoing_record(0), it.outgoing_record(16))
    for name, octets in (
        ("pcap", CAPTURED),
        ("pcap, highest octet first", as_pcap(capture_head(order=">"), 1, ">")),
        ("pcap in nanoseconds", as_pcap(capture_head(nanoseconds=True), 1000)),
        ("pcapng", as_pcapng(TWO)),
        ("pcapng, highest octet first", as_pcapng(TWO, ">")),
        ("raw", capture_head(101) + CAPTURED[24:]),
    ):
        ran = report.call("import", "datagrams", "-", "-", "--slot", 1, given=octets)
        expect(report, f"a list of a {name}", ran, records, "records 2 other 0\n")
    words = ["--slot", 2, "--confirmed", "--full-rate", "--first-frame", 7]
    ran = report.call("import", "datagrams", "-", "-", *words, given=of_ethernet())
    expect(report, "a list of Ethernet", ran, outgoing(it.outgoing_record(7, 2, 3)), "records 1 other 2\n")
    for words, mode in ((["--confirmed"], 1), (["--full-rate"], 2)):
        ran = report.call("import", "datagrams", "-", "-", "--slot", 1, *words, given=HEAD + packet(0, 0, DATAGRAM))
        expect(report, f"a list with {words}", ran, outgoing(it.outgoing_record(0, 1, mode)), "records 1 other 0\n")
    ran = report.call("import", "datagrams", "-", "-", "--slot", 1, "--first-frame", 2**32 - 17, given=CAPTURED)
    wanted = outgoing(it.outgoing_record(2**32 - 17), it.outgoing_record(2**32 - 1))
    expect(report, "to the last frame", ran, wanted, "records 2 other 0\n")
    ran = report.call("import", "datagrams", "-", "-", "--slot", 1, "--first-frame", 2**32 - 1, given=CAPTURED)
    is_so = (ran.status, ran.out, ran.err) == (1, outgoing(it.outgoing_record(2**32 - 1)), b"error: -: too long at octet 68\n")
    report.expect("past the last frame", is_so, ran)


def check_bent(report):
    """Each front of a capture, and each with an octet bent, is a list or a named fault."""
    for kind, octets in (("pcap", CAPTURED), ("pcapng", as_pcapng(TWO)), ("Ethernet", of_ethernet())):
        for name, given in enumerate(cut_and_bent(octets)):
            ran = report.call("import", "datagrams", "-", "-", "--slot", 1, given=given)
            told = ran.err.decode().removeprefix("error: -: ")
            is_fault = ran.status == 1 and told.startswith(FAULTS) and told.count("\n") == 1
            is_list = ran.status == 0 and it.outgoing_fault(ran.out) is None
            report.expect(f"{kind} {name}", is_fault or is_list, ran)
    for count, told in ((3, "cut head at octet 0"), (23, "cut head at octet 0"), (30, "cut packet at octet 24")):
        ran = report.call("import", "datagrams", "-", "-", "--slot", 1, given=CAPTURED[:count])
        report.expect(f"{count} octets of a pcap", (ran.status, ran.err.decode()) == (1, f"error: -: {told}\n"), ran)
    ran = report.call("import", "datagrams", "-", "-", "--slot", 1, given=capture_head(105) + CAPTURED[24:])
    report.expect("another link type", ran.is_error("-: link type 105"), ran)


def check_refused(report):
    sample = report.top / "samples/one_csbk"
    with Room(report) as room:
        out, capture = room.path / "out", room.path / "capture"
        capture.write_bytes(CAPTURED)
        for name, words, told in (
            ("a recording", ("export", sample / "uplink.dmru", out), f"{sample / 'uplink.dmru'}: bad magic at octet 0"),
            ("no capture", ("import", sample / "uplink.dmru", out, "--slot", 1), f"{sample / 'uplink.dmru'}: no capture"),
            ("no input", ("import", "nowhere", out, "--slot", 1), "nowhere: cannot open"),
            ("the input as the output", ("import", capture, capture, "--slot", 1), f"{capture}: cannot open"),
        ):
            command, *rest = words
            report.expect(name, (ran := report.call(command, "datagrams", *rest)).is_error(told), ran)
        report.expect("the input is as it was", capture.read_bytes() == CAPTURED)
        for words in (
            ["import", "datagrams", capture, out], ["import", "datagrams", capture, out, "--slot", 3],
            ["import", "datagrams", capture, out, "--slot", 1, "--first-frame", 2**32], ["export", "datagrams", capture],
            ["export", "datagrams", capture, out, "--slot", 0],
        ):
            ran = report.call(*words)
            report.expect(f"{words[:2]} {words[4:]}", (ran.status, ran.out, bool(ran.err)) == (2, b"", True), ran)
        told = "--start is no time, as 2026-01-31T12:00:00Z"
        for text in ("now", "1969-12-31T23:59:59Z"):
            ran = report.call("export", "datagrams", capture, out, "--start", text)
            report.expect(f"--start {text}", ran.is_error(told, 2), ran)
        with open("/dev/full", "wb") as full:
            ran = report.call("import", "datagrams", capture, out, "--slot", 1, stdout=full)
            report.expect("standard output is full", (ran.status, ran.err) == (1, UNWRITTEN), ran)


def check_live(report):
    """Over pipes each packet and each record is there as soon as what it is made of."""
    pieces = [CAPTURED[:24], CAPTURED[24:68], CAPTURED[68:]]
    wanted = [it.OUTGOING_HEAD, it.outgoing_record(0), it.outgoing_record(16)]
    words = ["import", "datagrams", "-", "-", "--slot", "1"]
    expect_live(report, "a list of a pipe", words, pieces, wanted, b"".join(wanted))
    first = 8 + len(it.received_record(0x58, 1, 0, 1, DATAGRAM))
    pieces = [RECEIVED[:8], RECEIVED[8:first], RECEIVED[first:]]
    wanted = [HEAD, packet(5, 280_000, DATAGRAM), packet(6, 270_000, DATAGRAM)]
    expect_live(report, "a capture of a pipe", ["export", "datagrams", "-", "-"], pieces, wanted, CAPTURED)


def check_by_others(report):
    """Captures that other programs write have the same lists."""
    with Room(report) as room:
        for name, octets in by_others(report, room.path, CAPTURED):
            ran = report.call("import", "datagrams", "-", "-", "--slot", 1, given=octets)
            records = outgoing(it.outgoing_record(0), it.outgoing_record(16))
            expect(report, f"a list of a {name}", ran, records, "records 2 other 0\n")


def check_large(report):
    """A capture of 256 MiB with few packets that are taken, in little memory."""
    other = packet(1, 0, bytes(1 << 16))
    captures = (
        ("datagrams", CAPTURED[24:], ["--slot", 1], outgoing(it.outgoing_record(0), it.outgoing_record(16))),
        ("dmrd", hotspots.CAPTURED[24:], [], it.ONE_CSBK),
    )
    for command, few, words, wanted in captures:
        given = HEAD + other * 2048 + few + other * 2048
        ran = report.call("import", command, "-", "-", *words, given=given, preexec_fn=have_little_memory)
        report.expect(f"{command} of a large capture", (ran.status, ran.out) == (0, wanted), ran)


def check_beside_tshark(report):
    """Another program reads the capture that is written, and finds the same in it."""
    if not shutil.which("tshark"):
        report.skip(1, "no tshark to read captures")
        return
    with Room(report) as room:
        capture = room.path / "capture.pcap"
        capture.write_bytes(report.call("export", "datagrams", "-", "-", given=RECEIVED).out)
        fields = "frame.time_epoch", "ip.src", "udp.srcport", "ip.dst", "udp.dstport"
        command = ["tshark", "-r", capture, "-T", "fields", *(word for field in fields for word in ("-e", field))]
        ran = subprocess.run(command, capture_output=True, text=True)
        had = [line.split("\t") for line in ran.stdout.splitlines()]
        same = ["12.0.0.1", "5016", "12.0.0.2", "5018"]
        times = [float(line[0]) for line in had]
        report.expect("what tshark reads", times == [5.28, 6.27] and all(line[1:] == same for line in had), ran)


def check(report):
    check_exports(report)
    check_imports(report)
    check_bent(report)
    check_refused(report)
    check_live(report)
    check_by_others(report)
    check_large(report)
    check_beside_tshark(report)
    hotspots.check(report)
