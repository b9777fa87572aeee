"""Captures of hotspots: what is made of packets that are written here, in order, late, lost and of others, bent and cut ones; and
the packets that a downlink is written as."""

import random
import shutil
import subprocess

from checks import bursts
from checks import recordings as it
from checks import talks
from checks.capture_files import FAULTS, HEAD, as_pcapng, by_others, capture_head, cut_and_bent, packet
from checks.log import DELAY, repeated_in, rows_of
from checks.program import UNWRITTEN, Room
from checks.text import expect_live

# A voice header from 2 to 1, an A, a C to an F, and a terminator, with silence between them: nine frames of slot 1.
GAPS = [
    bytes.fromhex(digits) if digits else None
    for digits in (
        "0010015E028812380E304440046D5D7F77FD757E322C0328019007A005410D0055", "",
        "8000028000028000028000028007F7D5DD57DFD002800002800002800002800002", "",
        "800004800004800004800004800170009000074004800004800004800004800004",
        "800005800005800005800005800170300060A74005800005800005800005800005",
        "80000680000680000680000680015030F060C07006800006800006800006800006",
        "8000078000078000078000078001100000000E2007800007800007800007800007",
        "007F018A023812400E4044E004AD5D7F77FD75796738001006F00BE00D41140066",
    )
]

VOICE_HEADER, TERMINATOR, CONTROL_BLOCK = 1, 2, 3
FRAME, HALF = 60_000_000, 30_000_000


def udp(payload, source=62000, destination=62031):
    """A datagram of UDP without a checksum, from 192.0.2.10 to 198.51.100.1."""
    udp = b"".join(number.to_bytes(2, "big") for number in (source, destination, 8 + len(payload))) + b"\0\0" + payload
    head = bytes.fromhex("4500") + (20 + len(udp)).to_bytes(2, "big") + bytes.fromhex("0000 4000 4011 0000 C000020A C6336401")
    return head[:10] + (0xFFFF - it.sum_of_words(head)).to_bytes(2, "big") + head[12:] + udp


def flags_of(kind, slot=1):
    """The octet of flags: a data type by its number, and a voice burst by its letter."""
    what = 0x20 | kind if isinstance(kind, int) else 0x10 if kind == "A" else "ABCDEF".index(kind)
    return what | (0x80 if slot == 2 else 0)


def payload(kind, burst, number=0, stream=0xFF7121F5, slot=1, repeater=0x0003FF71, tail=b"\0\0"):
    return (
        b"DMRD" + bytes([number % 256]) + bytes.fromhex("000002 000001") + repeater.to_bytes(4, "big")
        + bytes([flags_of(kind, slot)]) + stream.to_bytes(4, "big") + burst + tail
    )


def at(time, octets):
    """A packet of a capture at a time in microseconds."""
    return packet(time // 1_000_000, time % 1_000_000, octets)


def recording(*slots):
    """An uplink of these bursts in slot 1, or of pairs of bursts."""
    pairs = [slot if isinstance(slot, tuple) else (slot, None) for slot in slots]
    return it.UPLINK_HEAD + b"".join(b"\0" if burst is None else b"\1" + burst for pair in pairs for burst in pair)


def counts(frames=0, slot_1=0, slot_2=0, lost=0, late=0, other=0):
    return f"frames {frames} slot-1 {slot_1} slot-2 {slot_2} lost {lost} late {late} other {other}\n"


def station_burst(burst):
    """The burst with the sync word of a base station in place of a mobile's."""
    bits, words = int.from_bytes(burst, "big"), bursts.SYNC
    for kind in ("voice", "data"):
        if bits >> 108 & (1 << 48) - 1 == words[f"MS {kind}"]:
            return (bits ^ (words[f"MS {kind}"] ^ words[f"BS {kind}"]) << 108).to_bytes(33, "big")
    return burst


def kinds_of(slots):
    """What each burst of a call is: a data type, or the letter of a voice burst."""
    kinds, letter = [], 0
    for burst in slots:
        centre = int.from_bytes(burst, "big") >> 108 & (1 << 48) - 1 if burst else None
        if centre == bursts.SYNC["MS data"]:
            golay = (int.from_bytes(burst, "big") >> 156 & 0x3FF) << 10 | int.from_bytes(burst, "big") >> 98 & 0x3FF
            kinds.append(golay >> 12 & 15)
        else:
            letter = 0 if centre == bursts.SYNC["MS voice"] else letter + 1
            kinds.append("ABCDEF"[letter % 6] if burst else None)
    return kinds


def call_of(report, sample):
    """The bursts in slot 1 of a sample, frame by frame up to the last."""
    octets = (report.top / "samples" / sample / "uplink.dmru").read_bytes()
    slots, place = [], 8
    while place < len(octets):
        size = 34 if octets[place] else 1
        slots.append(octets[place + 1 : place + size] or None)
        place += size
    call = slots[::2]
    while call[-1] is None:
        call.pop()
    return call


def call_packets(slots, numbers=None, slot=1, delay=lambda frame: 0, change=lambda burst: burst):
    """A packet for each burst of a slot, numbered one after the other, or as these numbers say."""
    packets = []
    for frame, (burst, kind) in enumerate(zip(slots, kinds_of(slots))):
        if burst:
            number = numbers[frame] if numbers else len(packets)
            time = 60_000 * frame + (30_000 if slot == 2 else 0) + delay(frame)
            packets.append((time, udp(payload(kind, change(burst), number, slot=slot))))
    return packets


def captured(packets):
    return HEAD + b"".join(at(1_000_000 + time, octets) for time, octets in packets)


def expect(report, name, octets, wanted, line, *words):
    ran = report.call("import", "dmrd", "-", "-", *words, given=octets)
    report.expect(name, (ran.status, ran.out, ran.err.decode()) == (0, wanted, line), ran)


ONE = udp(payload(CONTROL_BLOCK, it.CSBK))
CAPTURED = HEAD + at(1_000_000, ONE)

# Packets that aren't taken.
OTHERS = (
    ("to another port", udp(payload(CONTROL_BLOCK, it.CSBK), destination=62032)),
    ("54 octets", udp(payload(CONTROL_BLOCK, it.CSBK, tail=b"\0"))),
    ("other octets", udp(b"DMRA" + payload(CONTROL_BLOCK, it.CSBK)[4:])),
    ("a fragment", ONE[:6] + b"\x20\0" + ONE[8:]),
    ("TCP", ONE[:9] + b"\6" + ONE[10:]),
    ("no IPv4", b"\x65" + ONE[1:]),
    ("one between masters", udp(payload(CONTROL_BLOCK, it.CSBK, tail=bytes(20)))),
)


def with_another(number, time, stream=0xFF7121F5, repeater=0x0003FF71):
    """The packet, and another one so many microseconds later."""
    return CAPTURED + at(1_000_000 + time, udp(payload(CONTROL_BLOCK, it.CSBK, number, stream, repeater=repeater)))


def of_repeaters():
    """Two packets of a repeater, and one of another between them."""
    third = at(1_120_000, udp(payload(CONTROL_BLOCK, it.CSBK, 2)))
    return with_another(0, 60_000, 0xFF7121F6, 0x0003FF72) + third


def lossy_call(report):
    """The bursts of a call of which two are lost, and their packets, up to 20 milliseconds late, with a base station's syncs."""
    call = call_of(report, "talker_alias")
    lost = [None if frame in (9, 10) else burst for frame, burst in enumerate(call)]
    kept = call_packets(call, [*range(len(call))], delay=lambda frame: frame * 7_919 % 20_000, change=station_burst)
    return lost, captured([sent for frame, sent in enumerate(kept) if frame not in (9, 10)])


def check_cases(report):
    """One packet, and what stands beside it."""
    one, none = recording(it.CSBK), recording()
    expect(report, "one packet", CAPTURED, one, counts(1, 1))
    expect(report, "without bit errors and RSSI", HEAD + at(5, udp(payload(CONTROL_BLOCK, it.CSBK, tail=b""))), one, counts(1, 1))
    expect(report, "as pcapng", as_pcapng([(1_000_000, ONE)]), one, counts(1, 1))
    expect(report, "the packet twice", CAPTURED + at(1_000_001, ONE), one, counts(1, 1, late=1))
    for name, octets in OTHERS:
        expect(report, name, HEAD + at(1_000_000, octets), none, counts(other=1))
    there = HEAD + at(0, udp(payload(CONTROL_BLOCK, it.CSBK), 1, 9))
    expect(report, "to a port that is named", there, one, counts(1, 1), "--port", 9)
    back = HEAD + at(0, udp(payload(CONTROL_BLOCK, it.CSBK), 62031, 40000)) + at(60_000, ONE)
    expect(report, "from a port", back, one, counts(1, 1, other=1), "--from-port", 62031)
    second = udp(payload(CONTROL_BLOCK, it.CSBK, slot=2))
    expect(report, "slot 2", HEAD + at(0, second), recording((None, it.CSBK)), counts(1, 0, 1))
    # Slot 2 of a frame begins half a frame later, and its packet may come in front of slot 1 of the next frame.
    expect(report, "both slots", HEAD + at(0, ONE) + at(30_000, second), recording((it.CSBK, it.CSBK)), counts(1, 1, 1))
    pair = recording((None, it.CSBK), (it.CSBK, None))
    expect(report, "slot 2 first", HEAD + at(30_000, second) + at(60_000, ONE), pair, counts(2, 1, 1))


def check_numbers(report):
    """Numbers and times behind one packet: late ones, lost ones, much later ones, other repeaters, and the end of a recording."""
    def apart(frames):
        return recording(it.CSBK, *[None] * (frames - 2), it.CSBK)

    expect(report, "much later", with_another(0x80, 3_840_000), apart(65), counts(65, 2))
    expect(report, "not much later", with_another(0x80, 3_839_999), recording(it.CSBK), counts(1, 1, late=1))
    expect(report, "127 numbers on", with_another(0x7F, 7_620_000), apart(128), counts(128, 2, lost=126))
    expect(report, "data a frame late", with_another(1, 120_000), apart(2), counts(2, 2))
    expect(report, "data two frames late", with_another(1, 180_000), apart(4), counts(4, 2))
    expect(report, "another stream in the same frame", with_another(0, 0, 1), apart(2), counts(2, 2))
    expect(report, "rounded up from the half", with_another(0, 90_000, 1), apart(3), counts(3, 2))
    expect(report, "rounded down below it", with_another(0, 89_999, 1), apart(2), counts(2, 2))
    others = of_repeaters()
    expect(report, "another repeater", others, apart(3), counts(3, 2, lost=1, other=1))
    expect(report, "that repeater", others, recording(it.CSBK), counts(1, 1, other=2), "--repeater", 262002)
    expect(report, "no repeater", others, recording(), counts(other=3), "--repeater", 1)
    expect(report, "the last frame", with_another(0, 62_914_529_999, 0xFF7121F6), apart(it.LIMIT), counts(it.LIMIT, 2))
    with Room(report) as room:
        out = room.path / "out"
        ran = report.call("import", "dmrd", "-", out, given=with_another(0, 62_914_530_000, 0xFF7121F6))
        report.expect("past the last frame", ran.is_error("-: too long at octet 123"), ran)
        report.expect("nothing is written", out.read_bytes() == b"", ran)


def check_calls(report):
    """Calls of samples, with gaps, jitter, lost packets, and the syncs of a base station."""
    expect(report, "a call with gaps", captured(call_packets(GAPS)), recording(*GAPS), counts(9, 7))
    one = call_of(report, "call_with_gap")
    ran_counts = counts(len(one), sum(burst is not None for burst in one))
    expect(report, "a call with a gap", captured(call_packets(one)), recording(*one), ran_counts)
    lost, kept = lossy_call(report)
    expect(report, "lost packets, as an uplink", kept, recording(*lost), counts(20, 18, lost=2), "--as-uplink")
    wanted = recording(*(station_burst(burst) if burst else None for burst in lost))
    expect(report, "lost packets, as they came", kept, wanted, counts(20, 18, lost=2))
    with Room(report) as room:
        for name, octets in by_others(report, room.path, kept):
            expect(report, f"lost packets of a {name}", octets, recording(*lost), counts(20, 18, lost=2), "--as-uplink")
    # Three wrong bits in a sync are undone with it, and four leave the burst as it is.
    for wrong in (0, 1, 3, 4):
        turned = sum(1 << 108 + 11 * place for place in range(wrong))
        burst = (int.from_bytes(station_burst(it.CSBK), "big") ^ turned).to_bytes(33, "big")
        wanted = it.CSBK if wrong < 4 else burst
        octets = HEAD + at(0, udp(payload(CONTROL_BLOCK, burst)))
        expect(report, f"{wrong} wrong bits in a sync", octets, recording(wanted), counts(1, 1), "--as-uplink")


def check_drawn(report):
    """Streams in both slots with gaps, delays below 30 milliseconds, and lost packets: all come back to their frames."""
    for seed in range(40):
        drawn = random.Random(seed)
        sent = {1: [], 2: []}
        for slot in (1, 2):
            frame = drawn.randrange(3)
            for stream in range(1, 9):
                number = drawn.randrange(256)
                for kind in [VOICE_HEADER] * drawn.randrange(1, 4) + [*"ABCDEF" * drawn.randrange(4)] + [TERMINATOR]:
                    burst = drawn.randbytes(33)
                    if drawn.random() > (0.0, 0.1, 0.5)[seed % 3]:
                        sent[slot].append((frame, kind, burst, number, 1000 * slot + stream))
                    number += 1
                    frame += 1 if isinstance(kind, str) or drawn.random() < 0.9 else 3
                frame += drawn.choice((0, 0, 1, 2, 70))
        in_order = sorted((frame, slot, *rest) for slot in (1, 2) for frame, *rest in sent[slot])
        keep, before = [], {}
        for frame, slot, kind, burst, number, stream in in_order:
            last = before.get(slot)
            # One frame alone left out in front of data is what no number tells.
            if last and last[2] == stream and isinstance(kind, int) and frame - last[0] == number - last[1] + 1:
                continue
            before[slot] = frame, number, stream
            keep.append((frame, slot, kind, burst, number, stream))
        begin = keep[0][0]
        packets = [
            (60_000 * frame + 30_000 * (slot - 1) + drawn.randrange(30_000), udp(payload(kind, burst, number, stream, slot)))
            for frame, slot, kind, burst, number, stream in keep
        ]
        frames = keep and 1 + max(frame for frame, *_ in keep) - begin
        pairs = [[None, None] for _ in range(frames)]
        for frame, slot, _, burst, *_ in keep:
            pairs[frame - begin][slot - 1] = burst
        ran = report.call("import", "dmrd", "-", "-", given=captured(packets))
        report.expect(f"drawn streams {seed}", (ran.status, ran.out) == (0, recording(*map(tuple, pairs))), ran)


def check_bent(report):
    """Each front of a capture, and each with an octet bent, is a recording or a named fault."""
    captures = (
        ("two packets", with_another(1, 60_000)),
        ("pcapng", as_pcapng([(1_000_000, ONE)])),
        ("the packet twice", with_another(0, 1)),
        *((name, HEAD + at(1_000_000, octets)) for name, octets in OTHERS),
        ("another link type", capture_head(105) + CAPTURED[24:]),
        ("much later", with_another(0x80, 3_840_000)),
        ("not much later", with_another(0x80, 3_839_999)),
        ("127 numbers on", with_another(0x7F, 7_620_000)),
        ("another repeater", of_repeaters()),
        ("the last frame", with_another(0, 62_914_529_999, 0xFF7121F6)),
        ("past the last frame", with_another(0, 62_914_530_000, 0xFF7121F6)),
        ("a call with gaps", captured(call_packets(GAPS))),
        ("a call with a gap", captured(call_packets(call_of(report, "call_with_gap")))),
        ("lost packets", lossy_call(report)[1]),
    )
    # From files, since a pipe has no buffer behind it, and a time that is bent may leave much silence.
    with Room(report) as room:
        capture = room.path / "capture"
        for kind, octets in captures:
            for name, given in enumerate(cut_and_bent(octets)):
                capture.write_bytes(given)
                with open(capture, "rb") as source:
                    ran = report.call("import", "dmrd", "-", "-", "--as-uplink", stdin=source)
                told = ran.err.decode().removeprefix("error: -: ")
                is_fault = (ran.status, ran.out) == (1, b"") and told.startswith(FAULTS) and told.count("\n") == 1
                is_recording = ran.status == 0 and it.uplink_fault(ran.out) is None
                report.expect(f"{kind} {name} of a hotspot", is_fault or is_recording, ran)
    for count, told in ((3, "cut head at octet 0"), (23, "cut head at octet 0"), (30, "cut packet at octet 24")):
        ran = report.call("import", "dmrd", "-", "-", given=CAPTURED[:count])
        report.expect(f"{count} octets of a hotspot", ran.is_error(f"-: {told}"), ran)
    ran = report.call("import", "dmrd", "-", "-", given=capture_head(105) + CAPTURED[24:])
    report.expect("another link type of a hotspot", ran.is_error("-: link type 105"), ran)
    block = as_pcapng([(1_000_000, ONE)])
    ran = report.call("import", "dmrd", "-", "-", given=block[:-1])
    report.expect("a cut block of a hotspot", ran.is_error("-: cut block at octet 48"), ran)


def check_words(report):
    with Room(report) as room:
        out, capture = room.path / "out", room.path / "capture"
        capture.write_bytes(CAPTURED)
        for words in (
            ["--port", 65_536], ["--port", "x"], ["--from-port", 1, "--port", 2], ["--repeater", 2**32], ["--as-uplink=1"],
        ):
            ran = report.call("import", "dmrd", capture, out, *words)
            report.expect(f"import dmrd {words}", (ran.status, ran.out, bool(ran.err)) == (2, b"", True), ran)
        report.expect("none is made of these", not out.exists())
        ran = report.call("import", "dmrd", capture, capture)
        report.expect("a capture as its recording", ran.is_error(f"{capture}: cannot open"), ran)
        ran = report.call("import", "dmrd", capture, out)
        report.expect("a named recording", (ran.status, ran.out.decode(), ran.err) == (0, counts(1, 1), b""), ran)
        report.expect("its octets", out.read_bytes() == it.ONE_CSBK)
        with open("/dev/full", "wb") as full:
            ran = report.call("import", "dmrd", capture, out, stdout=full)
            report.expect("counts have no room", (ran.status, ran.err) == (1, UNWRITTEN), ran)


# What stands in front of each payload that a downlink is written as, but for the checksum of UDP, and the packet of one block.
HEADS = bytes.fromhex("45000051 00004000 4011B698 C0000201 C0000202 F24FF24F 003D")
ONE_SENT = HEAD + bytes.fromhex(
    "00000000 407E0500 51000000 51000000 45000051 00004000 4011B698 C0000201 C0000202 F24FF24F 003D1F78"
    "444D5244 00 000000 000000 00000001 23 00000001"
)


class Sent:
    """A packet that a downlink is written as, with the frame and the slot of its time."""

    def __init__(self, record):
        seconds, fraction = (int.from_bytes(record[place : place + 4], "little") for place in (0, 4))
        self.frame, self.late = divmod(1_000_000 * seconds + fraction, 60_000)
        self.heads, self.udp, self.payload = record[16:42], record[36:], record[44:]
        self.number, self.flags, self.burst = self.payload[4], self.payload[15], self.payload[20:]
        self.way = self.payload[5:8], self.payload[8:11]
        self.repeater, self.stream = (int.from_bytes(self.payload[place : place + 4], "big") for place in (11, 16))
        self.slot = 2 if self.flags & 0x80 else 1

    def is_well(self, repeater=1):
        """Its heads, its checksum, its time in the frame, and its repeater."""
        addresses = bytes.fromhex("C0000201 C0000202")
        sum_of_words = it.sum_of_words(addresses + bytes.fromhex("0011003D") + self.udp)
        is_packet = self.heads == HEADS and sum_of_words == 0xFFFF and self.payload[:4] == b"DMRD"
        return is_packet and self.late == (30_000 if self.slot == 2 else 0) and self.repeater == repeater


def sent_in(capture):
    return [Sent(capture[place : place + 97]) for place in range(24, len(capture), 97)]


def marked_in(downlink):
    """The bursts that are repeated, with their frames and slots, in the order of the file."""
    records = enumerate(talks.slots_of(downlink, talks.OF_DOWNLINK))
    return [(number // 2, number % 2 + 1, record[3:]) for number, record in records if record and record[0] >> 7]


def check_streams(report, folder):
    """The packets of a downlink beside its bursts, and their streams beside its transmissions."""
    downlink = (folder / "downlink.dmrd").read_bytes()
    ran = report.call("export", "dmrd", folder / "downlink.dmrd", "-")
    packets, marked = sent_in(ran.out), marked_in(downlink)
    had = [(sent.frame, sent.slot, sent.burst) for sent in packets]
    is_so = ran.out[:24] == HEAD and had == marked and all(sent.is_well() for sent in packets)
    report.expect(f"packets of {folder.name}", ran.status == 0 and is_so, ran)
    every = sum(bool(record) for record in talks.slots_of(downlink, talks.OF_DOWNLINK))
    line = f"records {every} written {len(marked)} left-out {every - len(marked)}\n"
    report.expect(f"counts of {folder.name}", ran.err.decode() == line, ran)
    frames = dict(repeated_in(downlink))
    rows = [(int(row["frame"]) + DELAY, slot, int(row["bursts"])) for slot in (1, 2) for row in rows_of(frames[slot], slot)]
    firsts = {}
    for sent in packets:
        firsts.setdefault(sent.stream, []).append(sent)
    streams = [(its[0].frame, its[0].slot, len(its)) for its in firsts.values()]
    is_so = list(firsts) == list(range(1, len(rows) + 1)) and streams == sorted(rows)
    report.expect(f"streams of {folder.name}", is_so, (streams, sorted(rows)))
    for its in firsts.values():
        is_so = all(sent.number == (sent.frame - its[0].frame) % 256 and sent.way == its[0].way for sent in its)
        report.expect(f"stream {its[0].stream} of {folder.name}", is_so, [(sent.frame, sent.number, sent.way) for sent in its])


def check_return(report, folder):
    """What a downlink has repeated is repeated again, of the recording that its packets become."""
    capture = report.call("export", "dmrd", folder / "downlink.dmrd", "-").out
    uplink = report.call("import", "dmrd", "-", "-", "--as-uplink", given=capture).out
    ran = report.call("run", "--uplink", "-", "--downlink", "-", "--llid", 1, given=uplink)
    before, after = marked_in((folder / "downlink.dmrd").read_bytes()), marked_in(ran.out)
    shift = after[0][0] - before[0][0] if before and after else 0
    wanted = [(frame + shift, slot, burst) for frame, slot, burst in before]
    report.expect(f"{folder.name} comes back", ran.status == 0 and after == wanted, (len(before), len(after), ran))


def check_sent(report):
    """Downlinks as packets."""
    block = report.top / "samples/one_csbk/downlink.dmrd"
    octets = block.read_bytes()
    burst = marked_in(octets)[0][2]
    ran = report.call("export", "dmrd", block, "-")
    line = "records 2 written 1 left-out 1\n"
    report.expect("one block as a packet", (ran.status, ran.out, ran.err.decode()) == (0, ONE_SENT + burst, line), ran)
    ran = report.call("export", "dmrd", "-", "-", "--repeater=262001", "--start=2026-01-31T12:00:00Z", given=octets)
    is_so = ran.out[24:32] == (1_769_860_800).to_bytes(4, "little") + (360_000).to_bytes(4, "little")
    report.expect("a repeater and a begin", is_so and sent_in(ran.out)[0].repeater == 262_001, ran)
    for count, fault, sent in (
        (7, "cut record at octet 0", b""), (8 + 12, None, HEAD), (8 + 13, "cut record at octet 20, frame 6, slot 1", HEAD),
        (57, "half frame at octet 57, frame 6, slot 2", ONE_SENT + burst),
    ):
        ran = report.call("export", "dmrd", "-", "-", given=octets[:count])
        told = f"error: -: {fault}\n" if fault else "records 0 written 0 left-out 0\n"
        is_so = (ran.status, ran.out, ran.err.decode()) == (int(fault is not None), sent, told)
        report.expect(f"the first {count} octets", is_so, ran)
    for name, given in enumerate(cut_and_bent(octets)):
        ran = report.call("export", "dmrd", "-", "-", given=given)
        fault = it.downlink_fault(given)
        told = ran.err.decode().startswith(f"error: -: {fault} at octet" if fault else "records ")
        is_so = told and ran.status == (1 if fault else 0) and ran.out[:24] in (b"", HEAD)
        report.expect(f"downlink {name} as packets", is_so and all(sent.is_well() for sent in sent_in(ran.out)), ran)
    # The block is in frame 6 of slot 1, so that it is decided on behind slot 1 of frame 10.
    pieces, wanted = [octets + bytes(6), b"\0", b"\0"], [HEAD, ONE_SENT[24:] + burst, b""]
    expect_live(report, "a downlink of a pipe", ["export", "dmrd", "-", "-"], pieces, wanted, ONE_SENT + burst)
    with Room(report) as room:
        out = room.path / "out"
        for text in ("2026", "2107-01-01T00:00:00Z", "1969-12-31T23:59:59Z"):
            ran = report.call("export", "dmrd", block, out, "--start", text)
            report.expect(f"export dmrd --start {text}", ran.is_error("--start is no time, as 2026-01-31T12:00:00Z", 2), ran)
        for words in (["--repeater", 2**32], ["--repeater=x"], ["--slot=1"]):
            ran = report.call("export", "dmrd", block, out, *words)
            report.expect(f"export dmrd {words}", (ran.status, ran.out, bool(ran.err)) == (2, b"", True), ran)
        report.expect("no capture is made", not out.exists())
        uplink = block.with_name("uplink.dmru")
        ran = report.call("export", "dmrd", uplink, out)
        report.expect("an uplink as packets", ran.is_error(f"{uplink}: bad magic at octet 0"), ran)
        ran = report.call("export", "dmrd", block, out)
        report.expect("a named capture", (ran.status, ran.out.decode(), ran.err) == (0, line, b""), ran)
        if not shutil.which("tshark"):
            report.skip(1, "no tshark to read packets of a downlink")
        else:
            fields = ("-e", "ip.checksum.status", "-e", "udp.checksum.status")
            checks = ("-o", "ip.check_checksum:TRUE", "-o", "udp.check_checksum:TRUE")
            command = ["tshark", *checks, "-r", out, "-T", "fields", *fields]
            ran = subprocess.run(command, capture_output=True, text=True)
            report.expect("checksums by tshark", ran.stdout.split() == ["1", "1"], ran)
    for folder in sorted(report.top.glob("samples/*/")):
        check_streams(report, folder)
        check_return(report, folder)


def check(report):
    check_cases(report)
    check_numbers(report)
    check_calls(report)
    check_drawn(report)
    check_bent(report)
    check_words(report)
    check_sent(report)
