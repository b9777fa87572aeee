"""Cases of a live gateway, each by its name. A case is run in a network namespace of its own, which has loopback alone:

    unshare --user --map-root-user --net python3 -m checks.live_cases NAME TOP DMRGATE DMRGATE_TOOLS
"""

import contextlib
import fcntl
import os
import pathlib
import select
import signal
import socket
import subprocess
import sys
import tempfile
import termios
import time
import traceback

from building.programs import PROGRAMS
from checks import recordings as it
from checks.bridge import BRIDGE, DEVICE, GATEWAY, HOST_PORT, OF_RUN, PATIENCE, PMTUDISC_DO, PMTUDISC_DONT, RADIO, RADIO_PORT
from checks.bridge import SILENCE, WAITED_FOR, Gateway, Host, add_routes, are_children_gone, call_ip, comes_true, in_slot
from checks.bridge import is_device_there, mtu_of, numbers_of, outgoing_in, take_orphans
from checks.hearing import hear
from checks.pipes import OF_DOWNLINK, OF_UPLINK, Reader, Sample, in_frames
from checks.program import Report

# Datagrams from 12.0.0.1, port 5016, to port 5018, but for the identification and the header's checksum.
HOW_ARE_YOU = bytes.fromhex("45000027 0000 0000 4011 0000 0C000001 0C000002 1398 139A 0013 2C01") + b"how are you"

# Four bursts: "fine, thank you" from radio 2, port 5018, to 12.0.0.1, port 5016, an unconfirmed packet with SAP 3; and the received
# record of it in frame 13 of slot 2.
FINE = [
    bytes.fromhex(digits)
    for digits in (
        "4096023207B600C203903A29058D5D7F77FD75733A59217A030203650B0013208B",
        "0248015018EE0E2816043311C5ED5D7F77FD7570941D33F20D922EA5E0116D320B",
        "299CE82E600074A0712511A105ED5D7F77FD7570970FECB2BC962064718364A64E",
        "000E01BA024C02180620064005ED5D7F77FD757094F806200AE00B601D404B80C4",
    )
]
FINE_RECEIVED = bytes.fromhex(
    "03 0000000D 02 00 000002 002B"
    "4500002B123400004011508C0C0000020C000001139A13980017903566696E652C207468616E6B20796F75"
)

# Unconfirmed packets of radio 2 for the gateway, with SAP 4. They hold `trust me` from 12.0.0.3 (A to E); the octet 60 and 35 zeros
# (A, F, G, H); `trust me` to 10.9.0.1 (A, I to L) and to the host (A, M to P). Then a status (Q).
OF_RADIO_2 = {
    name: bytes.fromhex(digits)
    for name, digits in {
        "A": "4023023E060202A804402089058D5D7F77FD757338202510022406C50F001A30B7",
        "B": "008EA153020C12DC049046C005ED5D7F77FD757095A8006C03B00202120549805C",
        "C": "49970120039401E408E911C305ED5D7F77FD757096C4037042301A40181014A443",
        "D": "21CD74C6B21C6A6146E026C485ED5D7F77FD757094795581F03374A66D8C658F3F",
        "E": "00FA001803E805780BE00D2005ED5D7F77FD7570961002480A5009603A403F0024",
        "F": "40098010004C00880060004005ED5D7F77FD757094320024008001200050010002",
        "G": "00000000000000000000000005ED5D7F77FD757094000000000000000000000000",
        "H": "00B4019C009801E8080004E005ED5D7F77FD757096F8005800D01CC018C00E80C2",
        "I": "008DA155029013EC06B042C005ED5D7F77FD757095A8006400A0046216C548805E",
        "J": "4986092203A411FC28A8110285ED5D7F77FD75709684031002001B00181314204F",
        "K": "21C974C6B23C6A6946E226A485ED5D7F77FD7570947955B1F03374246D8C65073F",
        "L": "003E0122037C06100AE00C2005ED5D7F77FD7570965004200EE003200FC0070082",
        "M": "00AFA153020012DC04A046E005ED5D7F77FD757095A0007C02B00202160549804C",
        "N": "49970120038C01E408C8918305ED5D7F77FD757096A4237002B01B40181014A443",
        "O": "21CD74C6B2046A6146C1A68485ED5D7F77FD757094197581B0B375A66D8C658F3F",
        "P": "008E013E03AC07D00430138005ED5D7F77FD75709578057806F017801E806300DD",
        "Q": "0033030E045E024407482B01058D5D7F77FD7573399420DA0F8004AD269810803C",
    }.items()
}

# Half of a confirmed packet with SAP 3 (A, B; of radio 3 F, G), a silence, and its other half (C, D; H, I). They hold `trust me` of
# radio 2 and `me too` of radio 3. The last place of each has a status of radio 4 (E).
HALVES = {
    name: bytes.fromhex(digits)
    for name, digits in {
        "A": "40A203C304BB000807902681058D5D7F77FD75733AD5203A02A009E50C501B90B2",
        "B": "115F204E055D0F780792268805ED5D7F77FD7570961840339E3612AC18CC3901D0",
        "C": "40A402490723011807302681058D5D7F77FD75733A3D210200700A2504D01B1053",
        "D": "74F56E9F66C6263965C2936105ED5D7F77FD757097D0607128445EC002956B11C8",
        "E": "0075010E0542085C051803A1458D5D7F77FD7573392C20FA0C20040D2D180D0018",
        "F": "418203AB07B7030A03A02BA1058D5D7F77FD75733AD9219A0232082509981990C1",
        "G": "1101200804780E380622230805ED5D7F77FD7570971541A39C861D640C042A11E3",
        "H": "41840221042F021A03002BA1058D5D7F77FD75733A3120A200E20BE50118191020",
        "I": "68FD6015626F4288091581E605ED5D7F77FD75709611463945D3084F3516330CF9",
    }.items()
}


# What a received record holds.
DATAGRAM, STATUS = 0, 2

# A pipe takes more as long as one of its pages is free, so many octets. Linux has a call that tells how many a pipe holds, and one
# that sets it.
PAGE, F_GETPIPE_SZ, F_SETPIPE_SZ = os.sysconf("SC_PAGESIZE"), 1032, 1031

# How a program is started that may not make a device, and how one in Python for which each folder is empty, or of which another
# thread gets the signals, so that none breaks off what it waits for. What is told of a modem that breaks off.
WITHOUT_RIGHTS = "unshare", "--user"
SEES_NO_FILES = """
import os, runpy, sys
os.listdir = lambda _: []
del sys.argv[0]
runpy.run_path(sys.argv[0], run_name="__main__")
"""
SIGNALS_ELSEWHERE = """
import runpy, signal, sys, threading
threading.Thread(target=threading.Event().wait, daemon=True).start()
signal.pthread_sigmask(signal.SIG_BLOCK, {signal.SIGINT, signal.SIGTERM})
del sys.argv[0]
runpy.run_path(sys.argv[0], run_name="__main__")
"""
BROKEN_OFF = b"error: modem: broken off\n"


def bursts_of(letters, bursts):
    """The bursts that letters stand for; a hyphen is silence."""
    return [bursts.get(letter) for letter in letters]


def without_marks(packet):
    """A packet without its identification and the checksum of its header, which the system chooses."""
    return packet[:4] + bytes(2) + packet[6:10] + bytes(2) + packet[12:]


def of_records(records):
    """Frame, slot, mode and length of each."""
    return [(frame, slot, mode, len(packet)) for frame, slot, mode, packet in records]


def check_recordings(report):
    """By standard streams a live gateway with no hosts writes what a run over the file writes."""
    for folder in sorted(file.parent for file in (report.top / "samples").glob("*/outgoing.dmro")):
        sample = Sample(report, folder.name)
        if sample.outgoing == it.OUTGOING_HEAD:
            check_recording(report, folder.name, folder / "uplink.dmru", sample)


def check_recording(report, name, uplink, sample):
    with open(uplink, "rb") as given:
        live = Gateway(report, modem="-", streams={"stdin": given, "stdout": subprocess.PIPE})
    with live:
        live.got = Reader(live.process.stdout).rest()
        frames = len(in_frames(sample.uplink, OF_UPLINK)) - 1
        line = sample.line.decode().replace("refused 0", f"refused {frames + 1}")
        unheard = {"confirmed_packet_received", "repeated_retry", "packet_of_127_blocks"}
        counts = "not-of-the-radio 1" if name in unheard else "not-datagrams 1" if name == "status_received" else ""
        live.expect_order(name, line, counts=counts, behind=None, is_beside=True)
        report.expect(f"{name}: the downlink", live.got == sample.downlink, "other octets")


def check_as_typed(report):
    """As a user starts it: the program is on the path, and nothing is kept."""
    sample = Sample(report, "call")
    with tempfile.TemporaryDirectory(prefix="dmrgate-check-") as folder:
        pathlib.Path(folder, "dmrgate").symlink_to(report.programs["dmrgate"])
        with open(report.top / "samples/call/uplink.dmru", "rb") as given:
            words = [report.top / BRIDGE, "--llid", "1", "--modem", "-", "--clock", "modem"]
            env = {**os.environ, "PATH": f"{folder}:{os.environ['PATH']}"}
            ran = subprocess.run(words, stdin=given, capture_output=True, cwd=folder, env=env, timeout=PATIENCE)
        is_so = (ran.returncode, ran.stdout) == (0, sample.downlink)
        is_told = ran.stderr.startswith(sample.line.replace(b"refused 0", b"refused 21") + b"to-radios 0 refused 0 ")
        report.expect("as a user starts it", is_so and is_told, ran)
        report.expect("as a user starts it: no file is made", os.listdir(folder) == ["dmrgate"], os.listdir(folder))


def check_slow_reader(report):
    """Where standard output is a pipe that nobody reads for a while, the script waits, and writes all of it."""
    head, *frames = in_frames(Sample(report, "call").uplink, OF_UPLINK)
    uplink = head + b"".join(frames) * 100
    with Gateway(report, modem="-", streams={"stdin": subprocess.PIPE, "stdout": subprocess.PIPE}) as live:
        # All of it has room in a pipe, and the downlink hasn't.
        live.process.stdin.write(uplink)
        live.process.stdin.close()
        time.sleep(WAITED_FOR + 1)
        report.expect("it goes on while nobody reads", live.process.poll() is None, live.printed())
        live.got = Reader(live.process.stdout).rest()
        numbers = f"frames {100 * len(frames) + 6} repeated 700 refused {100 * len(frames) + 1}"
        live.expect_order("a slow reader", numbers, behind=None, is_beside=True)


def check_datagram(report):
    """A datagram of a host goes out, compressed where it may be fragmented."""
    for name, options, flags, marks in (
        ("no socket option", {}, "0000", "ccDbbiiiii"),
        ("not to be fragmented", {"discover": PMTUDISC_DO}, "4000", "ccDbbbbiiiii"),
    ):
        with Gateway(report) as live:
            live.begin().be_silent(10)
            host = Host(**options)
            host.send(b"how are you")
            live.be_silent(30)
            host.close()
            live.expect_order(name, "frames 46 sent 1 refused 40", counts="to-radios 1")
            wanted = HOW_ARE_YOU[:6] + bytes.fromhex(flags) + HOW_ARE_YOU[8:]
            records = [(frame, slot, mode, without_marks(packet)) for frame, slot, mode, packet in live.records()]
            report.expect(f"{name}: the record", records == [(12, 1, 0, wanted)], records)
            strip = [f"{12 * '.'}{shown}".ljust(46, ".") for shown in (marks, len(marks) * "i")]
            report.expect(f"{name}: the picture", live.strip() == strip, live.strip())


def check_other_names(report):
    """The gateway has another address and another device, and its radios are in slot 2."""
    address, device, llid = "12.1.17.112", "radios", 70000
    with Gateway(report, "--tun", device, "--slot", 2, llid=llid) as live:
        live.begin()
        report.expect("another device", is_device_there(device) and not is_device_there())
        host = Host(address)
        host.send(b"how are you")
        live.be_silent(20)
        host.close()
        live.expect_order("other names", "frames 26 sent 1 refused 20", counts="to-radios 1")
        report.expect("another device is gone", not is_device_there(device))
        ends = [(socket.inet_aton(end), port) for end, port in ((address, HOST_PORT), (RADIO, RADIO_PORT))]
        wanted = [(2, 2, 0, without_marks(it.datagram(*ends, b"how are you")))]
        records = [(*at, without_marks(packet)) for *at, packet in live.records()]
        report.expect("other names: the record", records == wanted, records)
        strip = [f"..{shown}".ljust(26, ".") for shown in (10 * "i", "ccDbbiiiii")]
        report.expect("other names: the picture", live.strip() == strip, live.strip())


def check_both_ways(report):
    """A radio's datagram comes to a host. From then on what is for this radio goes out in the slot in which it was heard."""
    with Gateway(report) as live:
        live.begin().be_silent(4)
        host = Host()
        live.send_bursts(2, *FINE)
        live.be_silent(8)
        report.expect("the host has it", host.takes() == (b"fine, thank you", ("12.0.0.2", 5018)))
        report.expect("it is received", live.file("dmri") == it.RECEIVED_HEAD + FINE_RECEIVED, live.file("dmri").hex())
        host.send(b"how are you")
        live.be_silent(1)
        host.send(b"and you", "12.0.0.3")
        live.be_silent(1)
        host.set(ttl=64, discover=PMTUDISC_DONT)
        host.send(b"all", "225.0.0.2")
        live.be_silent(30)
        counts = "to-radios 3 to-hosts 1"
        live.expect_order("both ways", "frames 54 repeated 4 received 1 sent 3 refused 46", counts=counts)
        records = [(*at, socket.inet_ntoa(packet[16:20]), packet[28:]) for *at, packet in live.records()]
        wanted = [
            (18, 2, 0, "12.0.0.2", b"how are you"),
            (19, 1, 0, "12.0.0.3", b"and you"),
            (20, 1, 0, "225.0.0.2", b"all"),
        ]
        report.expect("both ways: the records", records == wanted, records)
        strip = ["..........iiiiiiiiiccDbbccDbbiiiii....................", "..........DbbbiiiiccDbbiiiiiiiiiii...................."]
        report.expect("both ways: the picture", live.strip() == strip, live.strip())


def check_not_for_hosts(report):
    """What a radio sends under another's address, what is no datagram and what is for others comes to no host."""
    call_ip("address add 10.9.0.1/32 dev lo")
    for options, counts, others in (
        ([], "to-hosts 1 not-of-the-radio 2 not-datagrams 1 not-for-hosts 1", None),
        (["--forward"], "to-hosts 2 not-of-the-radio 2 not-datagrams 1", (b"trust me", ("12.0.0.2", 5018))),
    ):
        name = f"radio 2 sends, {options}"
        with Gateway(report, *options) as live:
            live.begin()
            host, other = Host(broadcast=True), Host("10.9.0.1")
            for address in ("12.0.0.0", "12.255.255.255"):
                host.send(b"to all", address)
            live.be_silent(4)
            live.send_bursts(1, *bursts_of("ABCDE-AFGGH-AIJKL-AMNOP-Q", OF_RADIO_2))
            live.be_silent(20)
            ran = live.expect_order(name, "frames 55 repeated 21 received 5 refused 50", counts=counts)
            dropped = numbers_of(ran.out.decode().splitlines()[-1])["not-for-radios"]
            report.expect(f"{name}: no broadcast goes out", dropped >= 2, dropped)
            had = [host.takes(), host.takes(0), other.takes(PATIENCE if others else 0)]
            report.expect(f"{name}: what both hosts have", had == [(b"trust me", ("12.0.0.2", 5018)), None, others], had)
            host.close()
            other.close()


def check_many(report):
    """Datagrams at once go out a frame each, so that ten of them fit into the queue, and thirty don't."""
    for count, silent, numbers, counts in (
        (10, 130, "frames 146 sent 10 refused 131", "to-radios 10"),
        (30, 310, "frames 326 sent 15 refused 306", "to-radios 30 refused 15"),
    ):
        with Gateway(report) as live:
            live.begin().be_silent(10)
            host = Host()
            for _ in range(count):
                host.send(b"how are you")
            live.be_silent(silent)
            live.expect_order(f"{count} at once", numbers, counts=counts)
            frames = [frame for frame, *_ in live.records()]
            report.expect(f"{count} at once: the records", frames == [*range(12, 12 + count)], frames)
            sent = live.strip()[0][12:]
            report.expect(f"{count} at once: the picture", count > 10 or sent.startswith(10 * "ccDbb"), sent)
            host.close()


def check_confirmed(report):
    """A confirmed packet that nobody answers has four tries. To a group it is unconfirmed."""
    with Gateway(report, "--confirmed") as live:
        live.begin().be_silent(10)
        host = Host(ttl=64)
        host.send(b"how are you")
        live.be_silent(120)
        host.set(discover=PMTUDISC_DONT)
        host.send(b"all", "225.0.0.9")
        live.be_silent(30)
        live.expect_order("confirmed", "frames 166 sent 1 given-up 1 refused 159", counts="to-radios 2")
        records = [record[:3] for record in live.records()]
        report.expect("confirmed: the records", records == [(12, 1, 1), (132, 1, 0)], records)
        strip = live.strip()[0]
        tries = [at for at in range(len(strip)) if strip.startswith("ccDbbb", at)]
        is_so = tries == [12, 37, 62, 87] and strip[132:].startswith("ccDbb") and strip[137] != "b"
        report.expect("confirmed: the picture", is_so, strip)


def check_restart(report):
    """At its longest a run ends and the next one begins, and the modem sees no gap. Files of earlier runs stay as they are."""
    runs = ["frames 25 refused 20", "frames 25 refused 20", "frames 6 refused 1"]
    before = {}
    with tempfile.TemporaryDirectory() as folder:
        for number in (1, 4):
            with Gateway(report, "--restart", 20, folder=pathlib.Path(folder)) as live:
                live.begin().be_silent(50)
                report.expect("a frame for each one", len(in_frames(live.got, OF_DOWNLINK)) == 1 + 51, len(live.got))
                live.expect_order(f"runs from {number} on", *runs)
                files = {file.name: file.read_bytes() for file in live.kept.iterdir()}
                report.expect("no file is written over", {name: files[name] for name in before} == before)
                before = files
    with Gateway(report, "--restart", 20) as live:
        live.begin().send_bursts(1, *[it.CSBK] * 50)
        runs = ["frames 25 repeated 19 refused 20", "frames 25 repeated 19 refused 20", "frames 6 refused 1"]
        live.expect_order("six frames at each restart aren't heard", *runs)


def check_own_clock(report):
    """With a clock of its own it sends a frame each five milliseconds, and what the modem doesn't send is silence."""
    for _ in range(5):
        # A busy machine may take more than a clock makes up for.
        with Gateway(report, "--frame", 5, clock="own") as live:
            live.begin()
            live.take_for(2)
            count = len(live.got) - 8
            live.process.terminate()
            live.take_rest()
            frames = len(in_frames(live.got, OF_DOWNLINK)) - 1
            counts = f"late {frames - 6}"
            live.expect_order("the own clock", f"frames {frames} refused {frames - 5}", counts=counts, behind=None)
        report.expect("silence is two octets a frame", count % 2 == 0 and len(live.got) == 8 + 2 * frames, count)
        report.expect("not too many frames", count / 2 <= 410, count / 2)
        if count / 2 >= 380:
            break
    report.expect("not too few frames", count / 2 >= 380, count / 2)


def check_fresh(report):
    """Of frames that wait for the own clock, silence in front of others is dropped."""
    with Gateway(report, "--frame", 50, clock="own") as live:
        live.accept()
        live.take_head()
        live.modem.sendall(it.UPLINK_HEAD + 9 * SILENCE + in_slot(1, it.CSBK) + in_slot(2, it.CSBK))
        comes_true(lambda: live.file("dmru").count(it.CSBK) == 2)
        live.process.terminate()
        live.take_rest()
        frames = len(in_frames(live.file("dmru"), OF_UPLINK)) - 1
        numbers = f"frames {frames + 6} repeated 2 refused {frames + 1}"
        live.expect_order("fresh frames", numbers, counts=f"late {frames - 2}", behind=None)
    with Gateway(report, "--frame", 50, clock="own") as live:
        live.begin(it.UPLINK_HEAD + 3 * in_slot(1, it.CSBK))
        behind = live.close()
        frames = len(in_frames(live.file("dmru"), OF_UPLINK)) - 1
        numbers = f"frames {frames + 6} repeated 3 refused {frames + 1}"
        live.expect_order("frames of a modem that has closed", numbers, counts=f"late {frames - 3}", behind=None)
        report.expect("it gets a frame for each, and the last five", behind == frames + 5, (behind, frames))


def check_pause(report):
    """Of a pause the own clock makes up for the last second alone."""
    with Gateway(report, "--frame", 20, clock="own") as live:
        live.begin()
        begun = time.monotonic()
        live.process.send_signal(signal.SIGSTOP)
        time.sleep(3)
        live.process.send_signal(signal.SIGCONT)
        live.take_for(2)
        live.process.terminate()
        live.take_rest()
        most = (time.monotonic() - begun - 2) / 0.02 + 10
        frames = len(in_frames(live.got, OF_DOWNLINK)) - 1
        report.expect("a pause of three seconds: not too many frames", frames <= most, (frames, most))
        live.expect_order("a pause", f"frames {frames} refused {frames - 5}", counts=f"late {frames - 6}", behind=None)


def check_verbose(report):
    """Each datagram is told in a line. What is for no radio takes no frame."""
    with Gateway(report, "--verbose") as live:
        live.begin()
        host = Host(broadcast=True)
        for address in (*["12.0.0.0"] * 5, RADIO):
            host.send(b"how are you", address)
        live.send_bursts(2, *FINE)
        live.be_silent(10)
        report.expect("the host has it", host.takes() is not None)
        live.close()
        lines = [line for line in live.ended().err.decode().splitlines() if "not-for-radios" not in line]
        wanted = [
            "frame 2 slot 1 to-radios: 12.0.0.1 -> 12.0.0.2, protocol 17, 39 octets",
            "frame 9 slot 2 to-hosts: 12.0.0.2 -> 12.0.0.1, protocol 17, 43 octets",
        ]
        report.expect("a line for each datagram", lines == wanted, lines)


def check_late(report):
    """A frame that comes when the own clock has waited for it, less than half a frame, isn't late."""
    for _ in range(5):
        # A busy machine may take longer.
        with Gateway(report, "--frame", 2000, clock="own") as live:
            live.begin()
            time.sleep(2.2)
            live.modem.sendall(in_slot(1, it.CSBK))
            live.take_frame()
            live.process.terminate()
            live.take_rest()
            is_in_time = live.file("dmru") == it.UPLINK_HEAD + in_slot(1, it.CSBK)
            if is_in_time:
                live.expect_order("a frame that is waited for", "frames 7 repeated 1 refused 2", behind=None)
                break
    report.expect("a frame is waited for", is_in_time)


def check_longest(report):
    """A datagram that a packet holds goes out as a whole, and a longer one in fragments. None is refused."""
    for options, mode, sizes in (
        ([], 0, {1372: [1400], 1373: [1396, 25]}),
        (["--confirmed"], 1, {1238: [1266], 1239: [1260, 27]}),
        (["--confirmed", "--full-rate"], 3, {1372: [1400], 1373: [1396, 25]}),
    ):
        name = f"the longest, {options}"
        with Gateway(report, *options) as live:
            live.begin()
            host = Host()
            report.expect(f"{name}: the MTU", mtu_of(DEVICE) == next(iter(sizes.values()))[0], mtu_of(DEVICE))
            for size in sizes:
                host.send(bytes(size))
                live.be_silent(3)
            host.close()
            wanted = [(2, 1, mode), (5, 1, mode), (6, 1, mode)]
            lengths = [length for size in sizes.values() for length in size]
            records = of_records(live.records())
            report.expect(f"{name}: the records", records == [(*at, length) for at, length in zip(wanted, lengths)], records)
            live.expect_order(name, "frames 12 refused 4", counts="to-radios 3")


def expect_refused(report, name, text, *options, head=None, status=1, **how):
    """A gateway that can't begin, or whose modem sends no uplink, tells so."""
    with Gateway(report, *options, **how) as live:
        live.name = name
        if head is not None:
            live.begin(head)
        ran = live.ended_at_once()
        report.expect(name, (ran.status, ran.err) == (status, f"error: {text}\n".encode()), ran)
        live.expect_nothing_left(name)
        report.expect(f"{name}: no file is left behind", head is not None or not [*live.kept.iterdir()])


def check_same_moment(report):
    """Another script begins a recording in the same folder, once this one has looked which number is free."""
    with tempfile.TemporaryDirectory() as folder:
        file = pathlib.Path(folder, "1.dmru")
        file.write_bytes(b"of another run")
        with Gateway(report, folder=pathlib.Path(folder), by=(sys.executable, "-c", SEES_NO_FILES)) as live:
            ran = live.ended_at_once()
            report.expect("another run has the name", (ran.status, ran.err) == (1, f"error: {file}: File exists\n".encode()), ran)
            live.expect_nothing_left("another run has the name")
            is_so = os.listdir(folder) == [file.name] and file.read_bytes() == b"of another run"
            report.expect("another run has the name: its file stays as it is", is_so, os.listdir(folder))


def check_beginnings(report):
    """What isn't there, what can't be used, and a modem that sends something else."""
    check_same_moment(report)
    expect_refused(report, "no program", "/no/program: No such file or directory", program="/no/program")
    expect_refused(report, "no modem", "modem /no/modem: No such file or directory", modem="/no/modem")
    expect_refused(report, "nobody listens", "modem 127.0.0.1:9: Connection refused", modem="127.0.0.1:9")
    expect_refused(report, "no folder", "/no/folder: No such file or directory", "--record", "/no/folder")
    expect_refused(report, "another head", "modem: bad magic or version", head=b"DMRD\1\0\0\0")
    expect_refused(report, "another version", "modem: bad magic or version", head=b"DMRU\2")
    expect_refused(report, "a wrong tag", "modem: bad tag", head=it.UPLINK_HEAD + b"\7")
    expect_refused(report, "a wrong tag in slot 2", "modem: bad tag", head=it.UPLINK_HEAD + b"\0\2")
    expect_refused(report, "no rights", "dmr0: Operation not permitted", by=WITHOUT_RIGHTS)
    call_ip("route add 12.0.0.0/8 dev lo")
    with Gateway(report) as live:
        ran = live.ended_at_once()
        is_so = ran.status == 1 and ran.err.endswith(b"\nerror: dmr0: cannot be set up\n") and not is_device_there()
        report.expect("a route that is there", is_so, ran)
    call_ip("route del 12.0.0.0/8 dev lo")
    with Gateway(report, "--", "--colour", 99) as live:
        ran = live.ended_at_once()
        told, error = ran.err.decode().partition("error: the run")[::2]
        told_alone = report.call("run", "--uplink", "a", "--downlink", "b", "--llid", 1, "--colour", 99).err.decode()
        is_so = (ran.status, told, error) == (1, told_alone, " has ended with status 2\n")
        report.expect("a setting that the run refuses", is_so, ran)
        live.expect_nothing_left("a setting that the run refuses")
        report.expect("a run that never began leaves no file", not [*live.kept.iterdir()], [*live.kept.iterdir()])
    for options in (["--slot", 3], ["--clock", "sun"], ["--llid", 16777216], ["--frame", 0], ["--walk"], ["--restart", 1]):
        with Gateway(report, *options) as live:
            ran = live.ended()
            is_told = ran.err.startswith(b"error: ") and ran.err.endswith(b"For more information, try '--help'.\n")
            report.expect(f"options {options}", (ran.status, ran.out) == (2, b"") and is_told, ran)


def check_modems_that_go(report):
    """A modem that closes behind a whole frame ends all in order. Every other end of it is told, behind the numbers."""
    with Gateway(report) as live:
        live.begin(it.UPLINK_HEAD + SILENCE + SILENCE[:1])
        numbers = "frames 7 refused 2"
        live.expect_order("half a frame", numbers, status=1, error=BROKEN_OFF, behind=6)
    with Gateway(report) as live:
        live.begin(it.UPLINK_HEAD[:4])
        live.expect_order("half a head", "frames 6 refused 1", status=1, error=BROKEN_OFF)
    with Gateway(report) as live:
        live.begin().be_silent(5)
        live.modem.close()
        expect_end(report, "a modem that closes", live, "frames 11 refused 6")
    with Gateway(report) as live:
        live.accept()
        live.modem.sendall(it.UPLINK_HEAD + 5 * SILENCE)
        whole = 8 + 2 * 6
        is_there = comes_true(lambda: len(live.modem.recv(whole, socket.MSG_PEEK)) == whole)
        live.modem.close()
        report.expect("the downlink is there, and isn't read", is_there)
        expect_end(report, "a modem that closes with downlink unread", live, "frames 11 refused 6", 1, BROKEN_OFF)
    streams = {"stdin": subprocess.PIPE, "stdout": subprocess.PIPE}
    with Gateway(report, modem="-", streams=streams) as live:
        live.process.stdin.write(it.UPLINK_HEAD + SILENCE)
        reader = Reader(live.process.stdout)
        report.expect("two frames come", reader.has(it.DOWNLINK_HEAD + 2 * SILENCE), reader)
        live.process.stdout.close()
        with contextlib.suppress(BrokenPipeError):
            live.process.stdin.write(SILENCE)
        ran = live.ended_at_once()
        lines = ran.err.splitlines(keepends=True)
        is_so = (ran.status, len(lines), lines[-1]) == (1, 3, BROKEN_OFF) and lines[0].startswith(b"frames 8 ")
        report.expect("the reader of standard output goes", is_so, ran)
        live.expect_nothing_left("the reader of standard output goes")


def expect_end(report, name, live, numbers, status=0, error=b""):
    """A gateway ends, and prints the numbers of a run and its own, and this error. Its downlink isn't looked at."""
    ran = expect_end_behind(report, name, live, error, status)
    live.expect_numbers(name, ran.out.decode().partition("\n")[0], OF_RUN, numbers)


def check_signals(report):
    """TERM, HUP and INT end all in order while the modem is silent, and a second signal at once. A HUP that is ignored stays so."""
    for clock, number in (("modem", signal.SIGTERM), ("modem", signal.SIGHUP), ("own", signal.SIGINT)):
        with Gateway(report, clock=clock) as live:
            live.begin()
            begun = time.monotonic()
            live.process.send_signal(number)
            live.take_rest()
            report.expect(f"{number!r}: at once", time.monotonic() - begun < WAITED_FOR)
            frames = len(in_frames(live.got, OF_DOWNLINK)) - 1
            counts = f"late {frames - 6}" if clock == "own" else ""
            report.expect(f"{number!r}: the frames", clock == "own" or frames == 6, frames)
            live.expect_order(repr(number), f"frames {frames} refused {frames - 5}", counts=counts, behind=None)
    with Gateway(report, prepare=os.setpgrp) as live:
        live.begin().be_silent(3)
        # As a terminal does, at which it was started.
        os.killpg(live.process.pid, signal.SIGINT)
        report.expect("an INT for all: the last frames", live.take_rest() == 5)
        live.expect_order("an INT for all", "frames 9 refused 4", behind=None)
    with Gateway(report, prepare=lambda: signal.signal(signal.SIGHUP, signal.SIG_IGN)) as live:
        live.begin().be_silent(2)
        live.process.send_signal(signal.SIGHUP)
        live.be_silent(2)
        live.expect_order("a HUP that is ignored", "frames 10 refused 5")
    elsewhere = sys.executable, "-c", SIGNALS_ELSEWHERE
    for name, is_at_once, by in (
        ("a second signal", False, ()), ("two signals at once", True, ()), ("signals that break nothing off", False, elsewhere),
    ):
        with Gateway(report, modem="-", streams={"stdin": subprocess.PIPE, "stdout": subprocess.PIPE}, by=by) as live:
            live.name = name
            report.expect(f"{name}: what nobody reads is full", fill(live))
            if is_at_once:
                live.process.send_signal(signal.SIGSTOP)
            live.process.send_signal(signal.SIGINT)
            live.process.send_signal(signal.SIGTERM)
            live.process.send_signal(signal.SIGCONT)
            ran = live.ended_at_once()
            report.expect(f"{name} ends it at once", ran.status == -signal.SIGTERM and b"to-radios" not in ran.err, ran)
            report.expect(f"{name}: nothing is left behind", comes_true(are_children_gone) and not is_device_there())


def fill(live):
    """Sends the script so many frames that what it writes finds no room. Answers whether it came to that."""
    source, sink = live.process.stdin.fileno(), live.process.stdout.fileno()
    # Otherwise it would take so many frames that a busy machine isn't through with them in time.
    fcntl.fcntl(sink, F_SETPIPE_SZ, 2 * PAGE)
    os.set_blocking(source, False)
    piece = SILENCE * 10000
    live.process.stdin.write(it.UPLINK_HEAD)

    def is_full():
        if select.select([], [source], [], 0)[1]:
            live.process.stdin.write(piece)
        return unread_in(sink) > fcntl.fcntl(sink, F_GETPIPE_SZ) - PAGE and not select.select([], [source], [], 0)[1]

    return comes_true(is_full)


def unread_in(descriptor):
    """How many octets wait in a pipe."""
    count = bytearray(4)
    fcntl.ioctl(descriptor, termios.FIONREAD, count)
    return int.from_bytes(count, sys.byteorder)


def check_waiting(report):
    """With the modem's clock a modem that doesn't read is waited for, five seconds long."""
    with Gateway(report) as live:
        live.accept()
        live.modem.sendall(it.UPLINK_HEAD + 2000 * SILENCE)
        time.sleep(2)
        live.take_head()
        for _ in range(2000):
            live.take_frame()
        live.expect_order("2,000 frames, read late", "frames 2006 refused 2001")
    with Gateway(report) as live:
        live.accept()
        begun = time.monotonic()
        live.modem.sendall(it.UPLINK_HEAD + 2000 * SILENCE)
        ran = live.ended()
        waited = time.monotonic() - begun
        is_so = (ran.status, ran.err) == (1, b"error: modem: takes nothing more\n") and waited >= WAITED_FOR
        report.expect("2,000 frames, never read", is_so and len(ran.out.splitlines()) == 2, (ran, waited))
        live.expect_nothing_left("2,000 frames, never read")


def check_waiting_for_pipes(report):
    """A pipe that nobody reads is waited for without limit, and from a signal on five seconds."""
    with Gateway(report, modem="-", streams={"stdin": subprocess.PIPE, "stdout": subprocess.PIPE}) as live:
        report.expect("what nobody reads is full", fill(live))
        time.sleep(WAITED_FOR + 1)
        report.expect("it is waited for without limit", live.process.poll() is None, live.printed())
        begun = time.monotonic()
        live.process.terminate()
        ran = live.ended()
        waited = time.monotonic() - begun
        is_so = ran.status == 0 and waited >= WAITED_FOR and len(ran.err.splitlines()) == 2
        report.expect("and from a signal on five seconds", is_so, (ran, waited))
        live.expect_nothing_left("and from a signal on five seconds")


def check_not_waiting(report):
    """With a clock of its own the script waits for no modem that doesn't read."""
    with Gateway(report, "--frame", 0.01, clock="own") as live:
        live.accept()
        expect_end_behind(report, "the modem never reads", live, b"error: modem: takes nothing more\n")


def expect_end_behind(report, name, live, error, status=1):
    """A gateway prints two lines, and ends at once with this error."""
    live.name = name
    ran = live.ended_at_once()
    report.expect(f"{name}: its end", (ran.status, len(ran.out.splitlines()), ran.err) == (status, 2, error), ran)
    live.expect_nothing_left(name)
    return ran


def check_killed(report):
    """Where the run is killed, the script tells so, and where the script is killed, the run ends."""
    for clock in ("own", "modem"):
        with Gateway(report, clock=clock) as live:
            live.begin()
            os.kill(live.run(), signal.SIGKILL)
            ran = live.ended_at_once()
            is_so = (ran.status, ran.out, ran.err) == (1, b"", b"error: the run has ended with status -9\n")
            report.expect(f"the run is killed, {clock}", is_so, ran)
            live.expect_nothing_left(f"the run is killed, {clock}")
    with Gateway(report, clock="own") as live:
        live.begin()
        run = live.run()
        live.process.kill()
        live.process.wait()
        report.expect("the script is killed: the run ends", comes_true(are_children_gone), run)
        report.expect("the script is killed: the device is gone", comes_true(lambda: not is_device_there()))


def check_devices(report):
    """A device that another script has is refused, and one that is deleted ends the script. One that is there stays as it is."""
    with Gateway(report, clock="own") as live:
        live.begin()
        with Gateway(report, clock="own") as second:
            ran = second.ended()
            is_so = (ran.status, ran.out, ran.err) == (1, b"", b"error: dmr0: Device or resource busy\n")
            report.expect("another script has the device", is_so, ran)
        call_ip(f"link del {DEVICE}")
        expect_end_behind(report, "the device is deleted", live, b"error: dmr0: File descriptor in bad state\n")
    call_ip(f"tuntap add mode tun name {DEVICE} user root", f"link set {DEVICE} mtu 1000 up")
    call_ip(f"address add {GATEWAY}/8 dev {DEVICE} noprefixroute")
    add_routes(1000)
    with Gateway(report, by=WITHOUT_RIGHTS) as live:
        live.begin()
        Host().send(bytes(973))
        live.be_silent(3)
        report.expect("a device that is there", of_records(live.records()) == [(2, 1, 0, 996), (3, 1, 0, 25)], live.records())
        live.close()
        report.expect("a device that is there: its end", live.ended().status == 0, live.printed())
        report.expect("a device that is there stays", is_device_there())
    call_ip(f"link del {DEVICE}")


def check_device_down(report):
    """A device that is down takes nothing, and the repeater goes on."""
    with Gateway(report) as live:
        live.begin().be_silent(4)
        host = Host()
        call_ip(f"link set {DEVICE} down")
        live.send_bursts(1, *FINE)
        live.be_silent(10)
        call_ip(f"link set {DEVICE} up")
        add_routes()
        live.send_bursts(1, *FINE)
        live.be_silent(10)
        had = [host.takes(), host.takes(0)]
        report.expect("it comes once", had == [(b"fine, thank you", ("12.0.0.2", 5018)), None], had)
        live.expect_order("the device is down", "frames 38 repeated 8 received 2 refused 33", counts="to-hosts 1 not-taken 1")


def check_mixed(report):
    """Busy slots, with datagrams of a host between them."""
    sample = Sample(report, "mixed_clean")
    with Gateway(report) as live:
        live.begin()
        host = Host()
        for at, frame in enumerate(in_frames(sample.uplink, OF_UPLINK)[1:]):
            if at % 50 == 0:
                host.send(b"number %d" % (at // 50))
            live.exchange(frame)
        _, lines, last = live.expect_ended("mixed traffic", 1)
        names = "frames", "repeated", "received"
        numbers = [[numbers_of(line)[name] for name in names] for line in (lines[0], sample.line.decode())]
        report.expect("mixed traffic: the run", numbers == 2 * [[1506, 1563, 7]], lines)
        counts = numbers_of(last)
        names = "to-radios", "refused", "to-hosts", "not-of-the-radio", "not-datagrams", "not-taken", "not-for-hosts", "late"
        report.expect("mixed traffic: the gateway", [counts[name] for name in names] == [31, 0, 1, 2, 4, 0, 0, 0], last)
        ticks = [packet for *_, packet in outgoing_in(live.file("dmro"))].count(b"")
        is_so = counts["refused"] == numbers_of(lines[0])["refused"] - ticks
        report.expect("mixed traffic: what the run refused but for ticks", is_so, (lines[0], ticks, last))
        packets = [packet for *_, packet in live.records()]
        texts = [packet[28:] for packet in packets if packet[9] == 17]
        report.expect("mixed traffic: what the host sent", texts == [b"number %d" % at for at in range(30)], texts)
        report.expect("mixed traffic: what the system sent", [packet[9] for packet in packets].count(1) == 1, packets)


def check_four_records(report):
    """In one frame each slot may give a status and a packet. All four records come to where they belong."""
    with Gateway(report) as live:
        live.begin().be_silent(4)
        host = Host()
        both = zip(bursts_of("AB-CDE", HALVES), bursts_of("FG-HIE", HALVES))
        live.exchange(*(in_slot(1, one)[:-1] + in_slot(2, other)[1:] for one, other in both))
        live.be_silent(20)
        had = sorted(filter(None, (host.takes(), host.takes())))
        report.expect("both come", had == [(b"me too", ("12.0.0.3", 5018)), (b"trust me", ("12.0.0.2", 5018))], had)
        records = [record[:4] for record in received_in(live.file("dmri"))]
        wanted = [(15, 1, STATUS, 4), (15, 1, DATAGRAM, 2), (15, 2, STATUS, 4), (15, 2, DATAGRAM, 3)]
        report.expect("in one frame", records == wanted, records)
        live.expect_order("four records", "frames 36 repeated 10 received 4 refused 31", counts="to-hosts 2 not-datagrams 2")


def received_in(octets):
    """The records of a received file: frame, slot, kind, source and octets of each."""
    records, at = [], 8
    while at < len(octets):
        size = int.from_bytes(octets[at + 10 : at + 12], "big")
        frame, source = (int.from_bytes(octets[at + first : at + last], "big") for first, last in ((1, 5), (7, 10)))
        records.append((frame, octets[at + 5], octets[at + 6], source, octets[at + 12 : at + 12 + size]))
        at += 12 + size
    return records


def check_other_modems(report):
    """A modem may be a TCP port or two FIFOs, which have no end of their own."""
    with socket.create_server(("127.0.0.1", 5000)) as listener:
        with Gateway(report, modem="127.0.0.1:5000") as live:
            live.listener.close()
            live.listener = listener
            listener.settimeout(PATIENCE)
            live.begin().be_silent(5)
            live.expect_order("a TCP port", "frames 11 refused 6")
    with tempfile.TemporaryDirectory() as folder:
        up, down = (pathlib.Path(folder, name) for name in ("up", "down"))
        os.mkfifo(up)
        os.mkfifo(down)
        with Gateway(report, modem=f"{up},{down}") as live, open(down, "rb", buffering=0) as end:
            reader = Reader(end)
            for piece, count in ((it.UPLINK_HEAD, 1), (SILENCE, 2), (SILENCE, 3)):
                # Whoever writes opens it, and closes it behind that.
                up.write_bytes(piece)
                report.expect("two FIFOs: a frame", reader.has(it.DOWNLINK_HEAD + count * SILENCE), reader)
            live.process.terminate()
            live.got = reader.rest()
            live.expect_order("two FIFOs", "frames 8 refused 3", behind=None)


CASES = {
    "recordings": check_recordings,
    "as_typed": check_as_typed,
    "slow_reader": check_slow_reader,
    "datagram": check_datagram,
    "other_names": check_other_names,
    "both_ways": check_both_ways,
    "not_for_hosts": check_not_for_hosts,
    "many": check_many,
    "confirmed": check_confirmed,
    "restart": check_restart,
    "own_clock": check_own_clock,
    "fresh": check_fresh,
    "pause": check_pause,
    "late": check_late,
    "verbose": check_verbose,
    "longest": check_longest,
    "beginnings": check_beginnings,
    "modems_that_go": check_modems_that_go,
    "signals": check_signals,
    "waiting": check_waiting,
    "waiting_for_pipes": check_waiting_for_pipes,
    "not_waiting": check_not_waiting,
    "killed": check_killed,
    "devices": check_devices,
    "device_down": check_device_down,
    "mixed": check_mixed,
    "four_records": check_four_records,
    "other_modems": check_other_modems,
}


def main(name, top, *programs):
    """Does a case. The last line that it prints is how many expectations passed and failed."""
    hear()
    take_orphans()
    call_ip("link set lo up")
    report = Report(pathlib.Path(top))
    report.programs = dict(zip(PROGRAMS, programs))
    try:
        CASES[name](report)
    except Exception:  # pylint: disable=broad-except
        report.expect(f"{name} comes to its end", False, traceback.format_exc())
    print(f"{report.passed} passed, {report.failed} failed")


if __name__ == "__main__":
    main(*sys.argv[1:])
