"""Recordings of scripts: beside bursts that are encoded here, the scenes of the samples, refusals, files, scripts cut and bent."""

import os
import re
import subprocess

from checks import recordings as it
from checks import talks
from checks.bursts import CONTROL_BLOCK, DATA_HEADER, SYNC, bits_of, bits_of_octets, data_burst, embedded_fields, information_of
from checks.bursts import number_of, sealed, voice_burst, voice_sync_burst
from checks.compare import BURST, recording_of, slots_of
from checks.log import CALL_OF_2, recording, scene, slots_of_call
from checks.pipes import on_terminal
from checks.program import UNWRITTEN, Room

# Behind `talks`, which tells where these are.
import dmr
import packets

# The types of data bursts.
PI_HEADER, CSBK, MBC_HEADER, MBC_BLOCK, RATE_HALF, RATE_THREE_QUARTERS, RATE_FULL, UNIFIED = 0, 3, 4, 5, 7, 8, 10, 11

# What the CRC-CCITT of a PI header stands under.
PI_MASK = 0x6969

SCENE = """\
# Radio 2 calls talk group 1 and is lost for a moment; radio 3 comes in late; radio 4 sends a status to the gateway.
colour 1
slot 1
group call 2 -> 1: H .. ABCDEF A..DEF T
silence 4
group call 3 -> 1, emergency: EF ABCDEF
slot 2
at 12
status 4 -> 1, port 1 -> 2, status 5
frames 40
"""
SCENE_LINE = "frames 40 slot-1 20 slot-2 1 transmissions 3 datagrams 0"
SCENE_STRIP = """\
      0 1  H..ABCDEFA..DEFT....vvABCDEF............
      0 2  ............D...........................
"""
SCENE_SUMMARY = "frames 46 repeated 23 received 1 delivered 0 sent 0 given-up 0 refused 0 unoffered 0"
SCENE_DOWNLINK = """\
      0 1  ......HHHABCDEFABCDEFTTTTii.ABCDEFTTTii.......
      0 2  ......iiiiiiiiiiiiDiiiiiiii.iiiiiiiiiii.......
"""

# A gateway sends a datagram to radio 2, which asks for a block of it once more, and sends one back, with two blocks lost.
DIALOGUE = """\
slot 1
send at 5, confirmed, UDP 12.0.0.1:5016 -> 12.0.0.2:5018, "how are you"
at 20
selective repeat 2 -> 1, N(S) 0, wanted 1 of 5
at 40
ACK 2 -> 1, N(S) 0
silence 20
confirmed 2 -> 1, N(S) 0, UDP 5018 -> 5016, "fine, thank you": ccD bb.b.
silence 30
partial 2 4: D bb
frames 140
"""
DIALOGUE_SUMMARY = "frames 146 repeated 12 received 1 delivered 1 sent 0 given-up 0 refused 0 unoffered 0"
DIALOGUE_RECEIVED = "6.42     107 1  datagram from 2, 43 octets: UDP 12.0.0.2:5018 -> 12.0.0.1:5016, 15 octets of data"

# A call of radio 2 to talk group 1, with a silence behind its header and its place B absent, as text.
CALL = """\
dmrgate uplink 1
0 1 0010015E028812380E304440046D5D7F77FD757E322C0328019007A005410D0055
2 1 8000028000028000028000028007F7D5DD57DFD002800002800002800002800002
4 1 800004800004800004800004800170009000074004800004800004800004800004
5 1 800005800005800005800005800170300060A74005800005800005800005800005
6 1 80000680000680000680000680015030F060C07006800006800006800006800006
7 1 8000078000078000078000078001100000000E2007800007800007800007800007
8 1 007F018A023812400E4044E004AD5D7F77FD75796738001006F00BE00D41140066
frames 9
"""

# Samples that no script says, each for the reason that samples/README.md gives.
WITHOUT_SCENE = {
    "call_lost_and_late_entry", "confirmed_packet_received", "repeated_retry", "damaged_call", "damaged_csbk",
    "damaged_embedded_word", "mixed_clean", "mixed_damaged", "mixed_hostile", "mixed_long", "radios_that_answer",
}

TWELVE, RAW = "000102030405060708090A0B", "1" * 49

# Lines behind `slot 1` and `frames 3`, or behind a number of frames of their own, and what is told of the first that is refused.
CALLS = "group call 2 -> 1"
REFUSED = [
    ("silence x", "line 2: expected a number from 0 to 4294967295, found 'x'"),
    (f"{CALLS}: H ABCDEF\nsilence 5\n{CALLS}: H T", "line 4: 5 silences where 6 are needed behind line 2"),
    (f"{CALLS}: H ABCDEF\nat 12\n{CALLS}: H T", "line 4: 5 silences where 6 are needed behind line 2"),
    (f"{CALLS}: H\nsilence 0\nstatus 2 -> 1, port 1 -> 2, status 5", "line 4: 0 silences where 1 are needed behind line 2"),
    (f"{CALLS}: H\nsilence 5\n{CALLS}: ABCDEF", "line 4: 5 silences where 6 are needed behind line 2"),
    ("full", "line 2: no confirmed packet in this slot to try again"),
    ("unconfirmed 2 -> 1, octets 00\nsilence 1\npartial 0", "line 4: no confirmed packet in this slot to try again"),
    ("confirmed 2 -> 1, octets 00\npartial 1", "line 3: a block past the packet"),
    ("confirmed 2 -> 1, octets 00\nfull: D bb", "line 3: 2 blocks in the shape, 1 in the packet"),
    (f"{CALLS}: H ABDDEF T", "line 2: letter 3 of the voice is C or '.', and not D"),
    (f"{CALLS}: H A..... .BCDEF", "line 2: six absent places in a row"),
    (f"{CALLS}: ..ABCDEF ABC T", "line 2: a terminator stands in the place of an A"),
    (f"{CALLS}: H......ABCDEF T", "line 2: more than five silences between header and voice"),
    (f"{CALLS}: ......ABCDEF", "line 2: more than five slots in front of the first A"),
    (f"{CALLS}: A.....", "line 2: none of the five places behind the first A is there"),
    (f"{CALLS}: H AB.", "line 2: the last place is absent"),
    (f"at 10\n{CALLS}: H T\nat 5", "line 4: frame 5 has passed: the slot stands at 12"),
    ('confirmed 2 -> 1, UDP 5018 -> 5016, "hi": D bb', "line 2: 2 blocks in the shape, 4 in the packet"),
    (f"confirmed 2 -> 1, octets {'00' * 1267}", "line 2: a packet of more than 127 blocks"),
    (f"short data 2 -> 1, format 0, octets {'00' * 753}", "line 2: short data of more than 63 blocks"),
    ("grup call 2 -> 1: H", "line 2: unknown word 'grup'"),
    ("group call 2 -> 16777216: H", "line 2: expected an address from 0 to 16777215, found '16777216'"),
    ("group call 2 ->", "line 2: expected an address from 0 to 16777215, found the end of the line"),
    ('send at 1, UDP 12.0.0.1:1 -> 12.0.0.2:1, "hi', "line 2: can't read '\"hi'"),
    ("colour 2", "line 2: the colour code stands in front of the first slot"),
    ("foreign 1 opcode 0, fid 0, 0000000000000000", "line 2: colour code 1 is the own one"),
    (CALLS, "line 2: a call has a shape, as in H ABCDEF T"),
    (f"{CALLS}: T", "line 2: a call is headers, places and terminators, as in H ABCDEF T"),
    ("status 2 -> 1, port 1 -> 2, status 5: c", "line 2: a packet is CSBKs, a header and blocks, as in ccDbb"),
    ("opcode 0, fid 0, 0000000000000000: c", "line 2: a control block has no shape"),
    (f"{CALLS}: H XYZ", "line 2: 'XYZ' is no shape"),
    ("foreign 2 group call 2 -> 1: HA", "line 2: behind a voice sync of another colour code an EMB stands within five slots"),
    ("foreign 2 group call 2 -> 1: .FAB", "line 2: of another colour code it begins and ends with a burst"),
    (f"{CALLS}: H T\nframes 1", "line 3: 1 frames are too few: 2 are sent"),
    (f"frames 1\n{CALLS}: H T\nsilence 4", "line 2: 1 frames are too few: 6 are sent"),
    (f"frames 1\n{CALLS}: H T\ngrup", "line 4: unknown word 'grup'"),
    ("frames 5\nframes 5", "line 3: the number of frames stands once"),
    ("silence 1048576\nsilence 1\ngrup", "line 3: too long: more than 1048576 frames"),
    ("at 1048577", "line 2: too long: more than 1048576 frames"),
    ("frames 1048577", "line 2: too long: more than 1048576 frames"),
    (f"silence 1048575\n{CALLS}: H T", "line 3: too long: more than 1048576 frames"),
    (f"{CALLS}: 174763*ABCDEF", "line 2: too long: more than 1048576 frames"),
    ("send at 5, octets 00", "line 2: a datagram to send: name a list for it with --outgoing"),
    ("# " + 65_535 * "x", "line 2: too long: more than 65536 octets"),
]

# What may be told of a line.
NAMED = re.compile(
    r"line \d+: (unknown word '.*'|expected .*, found ('.*'|the end of the line)|can't read '.*'|a slot has to be named first"
    r"|the colour code stands in front of the first slot|colour code \d+ is the own one|a call has a shape, .*"
    r"|a call is headers, .*|a packet is CSBKs, .*|a control block has no shape|'.*' is no shape"
    r"|letter \d+ of the voice is [A-F] or '\.', and not [A-F]"
    r"|\d+ blocks in the shape, \d+ in the packet|a packet of more than 127 blocks|short data of more than 63 blocks"
    r"|no confirmed packet in this slot to try again|a block past the packet|more than five silences between header and voice"
    r"|more than five slots in front of the first A|six absent places in a row|none of the five places behind the first A is there"
    r"|a terminator stands in the place of an A|the last place is absent|of another colour code it begins and ends with a burst"
    r"|behind a voice sync of another colour code an EMB stands within five slots"
    r"|\d+ silences where \d+ are needed behind line \d+|frame \d+ has passed: the slot stands at \d+"
    r"|too long: more than (1048576 frames|1048576 datagrams to send|65536 octets)|the number of frames stands once"
    r"|\d+ frames are too few: \d+ are sent"
    r"|a datagram to send: name a list for it with --outgoing)"
)


def header_of(octets):
    """The burst of a data header, or of any other twelve octets of this type."""
    return dmr.DataBurst(1, dmr.DataType.DATA_HEADER, octets).written()


def burst_of_block(kind, octets, colour=1):
    """A data burst with twelve octets in the product code."""
    return data_burst(kind, information_of(octets), colour)


def control(digits, colour=1):
    return burst_of_block(CSBK, sealed(bytes.fromhex(digits), CONTROL_BLOCK), colour)


def packet_of(body, rate=dmr.DataType.RATE_HALF, number=None, sap=4, is_group=False, wants_answer=True, serials=None):
    """The bursts of a try of a packet from radio 2 to 1, with no preambles: of all of it, or of these blocks."""
    is_confirmed = number is not None
    pieces, pad = packets.split(body, rate, is_confirmed)
    blocks = [packets.confirmed_block(piece, serial, rate) for serial, piece in enumerate(pieces)] if is_confirmed else pieces
    sent = blocks if serials is None else [blocks[serial] for serial in serials]
    header = packets.PacketHeader(1, 2, sap, len(sent), pad, is_group, number, serials is None)
    header.wants_answer = is_confirmed and wants_answer
    return [header_of(header.written()), *(dmr.DataBurst(1, rate, octets).written() for octets in sent)]


def short_data_of(body, kind):
    """The bursts of short data from radio 2 to talk group 9, of this data format."""
    blocks, pad = packets.split(body, dmr.DataType.RATE_HALF, False)
    many = len(blocks)
    first = bytes([0x80 | many >> 4 << 4 | 13, 10 << 4 | many & 0xF, 0, 0, 9, 0, 0, 2, kind << 2 | 1, 8 * pad])
    return [header_of(sealed(first, DATA_HEADER)), *(burst_of_block(RATE_HALF, octets) for octets in blocks)]


def datagram_of(number, data, source_port=5018, target_port=5016, target=bytes([12, 0, 0, 1])):
    return packets.udp_datagram(number, bytes([12, 0, 0, 2]), target, source_port, target_port, data)


def answer_of(answer, wanted=(), blocks=0, number=3, sap=4):
    """The bursts of an answer to a packet, of which these blocks are wanted once more."""
    flags = packets.write_flags(set(range(blocks)) - set(wanted), blocks) if wanted else []
    header = packets.Response(1, 2, sap, answer, number, len(flags))
    return [header_of(header.written()), *(burst_of_block(RATE_HALF, octets) for octets in flags)]


def raw(kind, digits):
    """A data burst whose 196 bits of information are these 49 digits."""
    return data_burst(kind, bits_of(int(digits, 16), 196))


def is_voice(burst):
    """Whether a burst of a mobile station is a voice burst: its centre is the voice sync, or no sync."""
    return number_of(bits_of_octets(burst)[108:156]) != SYNC["MS data"]


def spoken(octets):
    """A recording whose voice bursts have the vocoder bits that a script has them have: of its frame, in 24 bits, nine times."""
    made = []
    for number, slot in enumerate(slots_of(octets, BURST)):
        if slot and is_voice(slot):
            bits, vocoder = bits_of_octets(slot), 9 * bits_of(0x800000 | number // 2, 24)
            slot = number_of(vocoder[:108] + bits[108:156] + vocoder[108:]).to_bytes(BURST, "big")
        made.append(slot)
    return recording_of(octets[:8], made)


def superframe_of(carried, pi=0):
    """The six bursts of a superframe in which B to E carry this link control, or none."""
    fields = embedded_fields(bytes.fromhex(carried)) if carried else 4 * [0]
    orders = (1, 3, 3, 2) if carried else (0, 0, 0, 0)
    parts = [voice_burst(lcss, pi, field) for lcss, field in zip(orders, fields)]
    return [voice_sync_burst(), *parts, voice_burst(0, pi)]


ZEROS, SEVEN = "00" * 8, "01020304050607"

# A packet of three blocks.
BODY = bytes(range(25))

# What superframes carry in turn: the link control of the call, none, an alias of eight letters in two parts, and three others.
CARRIED = [CALL_OF_2, None, "0400904564" "20506F6F", "05006C650000000000", f"0800{SEVEN}", f"0700{SEVEN}", f"2110{SEVEN}"]
STATUS = header_of(sealed(bytes.fromhex("0EA00000010000032805"), DATA_HEADER))

# A line, and the slots that it sends.
SENT = [
    (f"opcode 0, fid 0, {ZEROS}", [it.CSBK]),
    ("opcode 5, fid 16, 0123456789ABCDEF, last", [control("85100123456789ABCDEF")]),
    ("preamble, data to follow 7, 2 -> group 9", [control("BD00C007000009000002")]),
    ("preamble, CSBKs to follow 2, 2 -> 1", [control("BD000002000001000002")]),
    ("BS activation by 2 of 9", [control("B8000000000009000002")]),
    (f"terminator {CALLS}", slots_of_call(CALL_OF_2, "T")),
    (f"PI header {TWELVE}", [burst_of_block(PI_HEADER, bytes.fromhex(TWELVE))]),
    (f"MBC header {TWELVE}", [burst_of_block(MBC_HEADER, bytes.fromhex(TWELVE))]),
    (f"MBC block {TWELVE}", [burst_of_block(MBC_BLOCK, bytes.fromhex(TWELVE))]),
    (f"unified block {TWELVE}", [burst_of_block(UNIFIED, bytes.fromhex(TWELVE))]),
    (f"rate 1/2 {TWELVE}", [burst_of_block(RATE_HALF, bytes.fromhex(TWELVE))]),
    (f"rate 3/4 {RAW}", [raw(RATE_THREE_QUARTERS, RAW)]),
    (f"rate 1 {RAW}", [raw(RATE_FULL, RAW)]),
    (f"foreign 7 opcode 0, fid 0, {ZEROS}", [control("00" * 10, 7)]),
    ("status 3 -> 1, port 1 -> 2, status 5", [STATUS]),
    ("unconfirmed 2 -> group 1, octets 0102030405", packet_of(bytes([1, 2, 3, 4, 5]), is_group=True)),
    ("confirmed 2 -> 1, SAP 9, N(S) 5, octets 0102030405", packet_of(bytes([1, 2, 3, 4, 5]), number=5, sap=9)),
    ('confirmed 2 -> 1, rate 1, UDP 5018 -> 5016, id 7, "hello"', packet_of(datagram_of(7, b"hello"), dmr.DataType.RATE_FULL, 0)),
    ("ACK 2 -> 1, N(S) 3", answer_of(packets.Answer.RECEIVED)),
    ("failed 2 -> 1, N(S) 3, SAP 3", answer_of(packets.Answer.FAILED, sap=3)),
    ("selective repeat 2 -> 1, N(S) 3, wanted 0 63 of 64", answer_of(packets.Answer.SELECTIVE, (0, 63), 64)),
    ("selective repeat 2 -> 1, N(S) 3, wanted 1 of 65", answer_of(packets.Answer.SELECTIVE, (1,), 65)),
    ("short data 2 -> group 9, format 5, octets 0102030405", short_data_of(bytes([1, 2, 3, 4, 5]), 5)),
    (f"short data 2 -> group 9, format 63, octets {'07' * 200}", short_data_of(200 * b"\7", 63)),
    (f"confirmed 2 -> 1, N(S) 1, unanswered, octets {BODY.hex()}", packet_of(BODY, number=1, wants_answer=False)),
    ("group call 5 -> 9, privacy, broadcast, priority 1: H T", slots_of_call("000049000009000005", "HT")),
    ("unit call 5 -> 9, emergency, OVCM, priority 2: H T", slots_of_call("030086000009000005", "HT")),
    (f"talker alias header {SEVEN}: H T", slots_of_call(f"0400{SEVEN}", "HT")),
    (f"terminator LC opcode 33, fid 16, {SEVEN}", slots_of_call(f"2110{SEVEN}", "T")),
    (f"{CALLS}, PI: ABCDEF", superframe_of(CALL_OF_2, 1)),
    (
        f'{CALLS}, carrying own / none / alias "Ed Poole" / GPS info {SEVEN} / talker alias block 3 {SEVEN}'
        f" / LC opcode 33, fid 16, {SEVEN}: 8*ABCDEF",
        [burst for carried in [*CARRIED, CALL_OF_2] for burst in superframe_of(carried)],
    ),
    (f"{CALLS}: HH T", slots_of_call(CALL_OF_2, "HHT")),
    (f"{CALLS}: H .. ABCDEF A..DEF TT", slots_of_call(CALL_OF_2, "H..ABCDEFA..DEFTT")),
    (f"{CALLS}: CD.F A.CDEF T", slots_of_call(CALL_OF_2, "CD.FA.CDEFT")),
    (
        f"{CALLS}, key 00010203040506070809: HP",
        [*slots_of_call(CALL_OF_2, "H"), burst_of_block(PI_HEADER, sealed(bytes(range(10)), PI_MASK))],
    ),
]


def made(report, script, *words):
    """What is made of a script, from standard input to standard output, and the line of counts."""
    ran = report.call("make", "-", "-", *words, given=script.encode())
    report.expect(f"make of {script[:60]!r}", ran.status == 0 and it.uplink_fault(ran.out) is None, ran)
    return ran.out, ran.err.decode()


def check_sent(report):
    """Each statement sends the bursts that are encoded here, in either slot."""
    for line, slots in SENT:
        for first, second, slot in ((slots, (), 1), ((), slots, 2)):
            octets, counts = made(report, f"slot {slot}\n{line}\n")
            wanted = spoken(recording(first, second))
            bursts = sum(1 for burst in slots if burst)
            told = f"frames {len(slots)} slot-1 {bursts if slot == 1 else 0} slot-2 {bursts if slot == 2 else 0}"
            report.expect(f"{line} in slot {slot}", octets == wanted, (octets.hex(), wanted.hex()))
            report.expect(f"{line} in slot {slot}: counts", counts == f"{told} transmissions 1 datagrams 0\n", counts)
    one, two = (control(digits * 10) for digits in ("00", "11"))
    octets, _ = made(report, f"slot 1\nopcode 0, fid 0, {ZEROS}\nopcode 17, fid 17, {'11' * 8}\n")
    report.expect("control blocks stand in a row", octets == recording([one, two]), octets.hex())
    lines = f"opcode 0, fid 0, {ZEROS}\nstatus 3 -> 1, port 1 -> 2, status 5\n{CALLS}: H\n{CALLS}: HT\n"
    octets, _ = made(report, f"slot 1\n{lines}{CALLS}: ABCDEF\n{CALLS}: ABCDEF\n")
    shape = slots_of_call(CALL_OF_2, "H.HT.ABCDEF......ABCDEF")
    wanted = spoken(recording([one, None, STATUS, None, *shape]))
    report.expect("the least silences", octets == wanted, octets.hex())
    octets, _ = made(report, f"slot 1\n{CALLS}: 2*H\nstatus 3 -> 1, port 1 -> 2, status 5\n")
    wanted = [*slots_of_call(CALL_OF_2, "HH"), None, STATUS]
    report.expect("one silence in front of data", octets == recording(wanted), octets.hex())
    octets, _ = made(report, "colour 9\nslot 1\nsilence 1\nopcode 0, fid 0, " + ZEROS)
    report.expect("the own colour code", octets == recording([None, control("00" * 10, 9)]), octets.hex())


TRIES = f"""\
slot 1
confirmed 2 -> 1, N(S) 3, SAP 9, octets {BODY.hex()}: D b.b
silence 1
full
full: cD .bb
partial 2 0: ccD b.
"""


def check_tries(report):
    """Further tries of a packet have its header and its blocks. Preambles count what follows them."""
    full, some = packet_of(BODY, number=3, sap=9), packet_of(BODY, number=3, sap=9, serials=[2, 0])
    one, two, three = (control(f"BD0080{left:02X}000001000002") for left in (4, 4, 3))
    slots = [*full[:2], None, full[3], None, *full, None, one, full[0], None, *full[2:], None, two, three, *some[:2], None]
    octets, _ = made(report, TRIES)
    report.expect("tries of a packet", octets == recording(slots), octets.hex())


def check_scene(report):
    """A scene, its pictures, and what a run makes of it."""
    octets, counts = made(report, SCENE)
    report.expect("the scene", octets == spoken(scene()) and counts == SCENE_LINE + "\n", counts)
    strip = report.call("show", "-", "--strip", given=octets)
    report.expect("its strip", strip.out.decode() == SCENE_STRIP, strip)
    with Room(report, octets, it.OUTGOING_HEAD) as room:
        ran = room.run()
        report.expect("a run over it", (ran.status, ran.out.decode()) == (0, SCENE_SUMMARY + "\n"), ran)
        strip = report.call("show", room.downlink, "--strip")
        report.expect("the strip of its downlink", strip.out.decode() == SCENE_DOWNLINK, strip)
    octets, _ = made(report, f"slot 1\n{CALLS}: H . A.CDEF T\n")
    text = report.call("export", "text", "-", "-", given=octets)
    report.expect("a call as text", text.out.decode() == CALL, text)


def check_dialogue(report):
    """A dialogue with a gateway, which sends what the script has it send, and receives what radio 2 answers."""
    with Room(report) as room:
        (room.path / "dialogue.txt").write_text(DIALOGUE)
        ran = report.call("make", "dialogue.txt", room.uplink, "--outgoing", room.outgoing, cwd=room.path)
        counts = "frames 140 slot-1 12 slot-2 0 transmissions 4 datagrams 1\n"
        report.expect("the dialogue", (ran.status, ran.out.decode(), ran.err) == (0, counts, b""), ran)
        ran = room.run()
        report.expect("a run over it", (ran.status, ran.out.decode()) == (0, DIALOGUE_SUMMARY + "\n"), ran)
        told = report.call("show", room.received).out.decode()
        report.expect("what it received", DIALOGUE_RECEIVED in told, told)


def check_outgoing(report):
    """The records stand by frame, then slot 1 first, then by line."""
    lines = "slot 2\nsend at 3, octets 02\nslot 1\nsend at 3, octets 01\nsend at 1, confirmed, octets -\n"
    lines += "slot 2\nsend at 1, rate 1, octets 03\n"
    with Room(report) as room:
        (room.path / "list.txt").write_text(lines + "slot 1\nsend at 3, confirmed, rate 1, octets 04\n")
        ran = report.call("make", "list.txt", room.uplink, "--outgoing", room.outgoing, cwd=room.path)
        report.expect("a list", ran.out == b"frames 0 slot-1 0 slot-2 0 transmissions 0 datagrams 5\n" and ran.status == 0, ran)
        records = (1, 1, 1, b""), (1, 2, 2, b"\3"), (3, 1, 0, b"\1"), (3, 1, 3, b"\4"), (3, 2, 0, b"\2")
        wanted = it.OUTGOING_HEAD + b"".join(it.outgoing_record(*record) for record in records)
        report.expect("its records", room.outgoing.read_bytes() == wanted, room.outgoing.read_bytes().hex())
        report.expect("its recording", room.uplink.read_bytes() == it.UPLINK_HEAD)


def without_vocoder(octets):
    """The slots of a recording, voice bursts with no vocoder bits."""
    voice = (1 << 108) - 1 << 156 | (1 << 108) - 1
    slots = slots_of(octets, BURST)
    return [int.from_bytes(slot, "big") & ~voice if slot and is_voice(slot) else slot for slot in slots]


def check_samples(report):
    """Each scene of a sample gives its outgoing list, and its recording but for vocoder bits."""
    folders = sorted(it for it in (report.top / "samples").iterdir() if it.is_dir())
    without = {folder.name for folder in folders if not (folder / "scene.txt").exists()}
    report.expect("the samples without a scene", without == WITHOUT_SCENE, without ^ WITHOUT_SCENE)
    for folder in folders:
        if folder.name in without:
            continue
        with Room(report) as room:
            ran = report.call("make", folder / "scene.txt", room.uplink, "--outgoing", room.outgoing)
            report.expect(f"the scene of {folder.name}", (ran.status, ran.err) == (0, b""), ran)
            uplink, wanted = room.uplink.read_bytes(), (folder / "uplink.dmru").read_bytes()
            has_voice = any(slot and is_voice(slot) for slot in slots_of(wanted, BURST))
            is_so = without_vocoder(uplink) == without_vocoder(wanted) and (has_voice or uplink == wanted)
            report.expect(f"the scene of {folder.name}: the uplink", is_so, "other octets")
            is_so = room.outgoing.read_bytes() == (folder / "outgoing.dmro").read_bytes()
            report.expect(f"the scene of {folder.name}: the list", is_so, "other octets")


def check_refused(report):
    """Each refusal is told with its line, and no output is made of the script, or changed."""
    with Room(report) as room:
        script = room.path / "scene.txt"
        for lines, told in [*REFUSED, ("", "")]:
            for old in (None, b"an older file"):
                script.write_text(f"slot 1\n{lines}\n")
                if old:
                    room.uplink.write_bytes(old)
                else:
                    room.uplink.unlink(missing_ok=True)
                ran = report.call("make", "scene.txt", room.uplink, cwd=room.path)
                if told:
                    report.expect(f"refused: {told[:80]}", ran.is_error(f"scene.txt: {told}"), (lines[:200], ran))
                    kept = room.uplink.read_bytes() if room.uplink.exists() else None
                    report.expect(f"the output behind {told[:80]}", kept == old, kept)
                else:
                    report.expect("a script of nothing", (ran.status, room.uplink.read_bytes()) == (0, it.UPLINK_HEAD), ran)
        for lines, told in (("silence 1\n", "line 1: a slot has to be named first"), ("\n\nopcode", "line 3: expected ")):
            ran = report.call("make", "-", "-", given=lines.encode())
            is_so = (ran.status, ran.out) == (1, b"") and ran.err.decode().startswith(f"error: -: {told}")
            report.expect(f"refused: {told}", is_so, ran)


def expect_ending(report, name, script):
    """A script ends in a recording, or in a refusal that has a name, and then nothing is written."""
    ran = report.call("make", "-", "-", "--outgoing", "/dev/null", given=script)
    told = ran.err.decode(errors="replace").removeprefix("error: -: ").rstrip("\n")
    is_refused = (ran.status, ran.out) == (1, b"") and NAMED.fullmatch(told)
    is_made = ran.status == 0 and it.uplink_fault(ran.out) is None
    report.expect(name, is_refused or is_made, (script[-200:], ran))


def check_bent(report):
    """Each script, cut at each line, with each word left out, and with each line twice."""
    everything = "".join(f"{line}\nsilence 6\n" for line, _ in SENT)
    sends = "send at 3, rate 1, UDP 12.0.0.1:1 -> 225.0.0.9:2, id 7, 0102\n"
    everything = f"colour 1\nslot 1\n{everything}slot 2\n{sends}frames 900\n"
    scenes = {f"scene of {it.parent.name}": it.read_text() for it in sorted((report.top / "samples").glob("*/scene.txt"))}
    for name, text in {"scene": SCENE, "dialogue": DIALOGUE, "tries": TRIES, "all": everything, **scenes}.items():
        expect_ending(report, f"{name}, whole", text.encode())
        lines = text.splitlines(keepends=True)
        for number, line in enumerate(lines):
            expect_ending(report, f"{name}, cut at line {number + 1}", "".join(lines[:number]).encode())
            expect_ending(report, f"{name}, cut in line {number + 1}", ("".join(lines[:number]) + line[: len(line) // 2]).encode())
            twice = [*lines[: number + 1], *lines[number:]]
            expect_ending(report, f"{name}, line {number + 1} twice", "".join(twice).encode())
            for word in range(len(line.split(" "))):
                words = line.split(" ")
                less = [*lines[:number], " ".join(words[:word] + words[word + 1 :]).rstrip("\n") + "\n", *lines[number + 1 :]]
                expect_ending(report, f"{name}, word {word + 1} of line {number + 1} left out", "".join(less).encode())
    for octets in (b"\0", b"\xff\xfe", b"slot 1\n\0\n", b"slot 1\r\nsilence 1\r\n", b"slot\x011\n"):
        expect_ending(report, f"{octets!r}", octets)


def check_files(report):
    """Which outputs are written, where the line goes, and what isn't an output."""
    with Room(report) as room:
        script, link = room.path / "scene.txt", room.path / "link"
        script.write_text(SCENE + "slot 1\nsend at 1, octets 00\n")
        line = SCENE_LINE.replace("datagrams 0", "datagrams 1") + "\n"
        uplink, outgoing = spoken(scene()), it.OUTGOING_HEAD + it.outgoing_record(1, octets=b"\0")
        link.symlink_to(script)
        for words, out, err in (
            ([room.uplink, "--outgoing", room.outgoing], line.encode(), b""),
            (["-", "--outgoing", room.outgoing], uplink, line.encode()),
            ([room.uplink, "--outgoing", "-"], outgoing, line.encode()),
            (["/dev/null", "--outgoing", "/dev/null"], line.encode(), b""),
        ):
            ran = report.call("make", script, *words)
            report.expect(f"make into {words}", (ran.status, ran.out, ran.err) == (0, out, err), ran)
        report.expect("both files", (room.uplink.read_bytes(), room.outgoing.read_bytes()) == (uplink, outgoing))
        for name, words, told in (
            ("the script as the recording", [script, script, "--outgoing", room.outgoing], f"{script}: cannot open"),
            ("the script as the list", [script, room.uplink, "--outgoing", link], f"{link}: cannot open"),
            ("one file as both", [script, room.uplink, "--outgoing", room.uplink], f"{room.uplink}: cannot open"),
            ("no script", ["nowhere", room.uplink], "nowhere: cannot open"),
            ("a folder as the recording", [script, room.path, "--outgoing", room.outgoing], f"{room.path}: cannot open"),
            ("a recording that can't be written", [script, "/dev/full", "--outgoing", room.outgoing], "/dev/full: write failed"),
            ("a list that can't be written", [script, room.uplink, "--outgoing", "/dev/full"], "/dev/full: write failed"),
        ):
            room.uplink.write_bytes(uplink)
            report.expect(name, (ran := report.call("make", *words)).is_error(told), ran)
            report.expect(f"{name}: the recording", room.uplink.read_bytes() == uplink)
            report.expect(f"{name}: the script", script.read_text().startswith(SCENE))
        ran = report.call("make", script, "-", "--outgoing", "-")
        report.expect("both as standard output", ran.is_error("UPLINK and --outgoing can't both be standard output", 2), ran)
        for words in ([script], [script, room.uplink, room.outgoing], [script, room.uplink, "--slot", 1]):
            ran = report.call("make", *words)
            report.expect(f"make with {words[1:]}", (ran.status, ran.out, bool(ran.err)) == (2, b"", True), ran)
        with open("/dev/full", "wb") as full:
            ran = report.call("make", script, room.uplink, "--outgoing", room.outgoing, stdout=full)
            report.expect("standard output is full", (ran.status, ran.err) == (1, UNWRITTEN), ran)
        for words in ([script, "-", "--outgoing", room.outgoing], [script, room.uplink, "--outgoing", "-"]):
            ran, got = on_terminal(lambda its: report.call("make", *words, stdout=its))
            report.expect("a file to a terminal", ran.is_error("-: standard output is a terminal") and got == b"", (ran, got))


def check_longest(report):
    """The longest call, and one that is longer, in little memory."""
    for count, status in ((174_762, 0), (174_763, 1)):
        script = f"slot 1\n{CALLS}: {count}*ABCDEF\n".encode()
        command = ["sh", "-c", 'ulimit -v 16384; exec "$@"', "sh", report.started_for(["make"]), "make", "-", "/dev/null"]
        ran = subprocess.run(command, input=script, capture_output=True)
        line = f"frames {6 * count} slot-1 {6 * count} slot-2 0 transmissions 1 datagrams 0\n"
        told = "error: -: line 2: too long: more than 1048576 frames\n"
        is_so = (ran.returncode, ran.stdout.decode(), ran.stderr.decode()) == ((0, line, "") if status == 0 else (1, "", told))
        report.expect(f"{count} superframes", is_so, ran)


def check_longest_list(report):
    """The longest list of datagrams to send, and one that is longer."""
    for count, status in ((1_048_576, 0), (1_048_577, 1)):
        script = b"slot 1\n" + count * b"send at 1, octets -\n"
        ran = report.call("make", "-", "/dev/null", "--outgoing", "/dev/null", given=script)
        line = f"frames 0 slot-1 0 slot-2 0 transmissions 0 datagrams {count}\n"
        told = "error: -: line 1048578: too long: more than 1048576 datagrams to send\n"
        is_so = (ran.status, ran.out.decode(), ran.err.decode()) == ((0, line, "") if status == 0 else (1, "", told))
        report.expect(f"{count} datagrams to send", is_so, ran)


def check_bench(report):
    """The bench in one pipe finds no difference."""
    env = {**os.environ, "DMRGATE": str(report.script)}
    ran = subprocess.run([report.top / "bench/scene"], capture_output=True, text=True, env=env)
    lines = 10 * "records 92 same 92 different 0 only-in-A 0 only-in-B 0\n"
    report.expect("the bench in one pipe", (ran.returncode, ran.stdout) == (0, lines), ran)


def check(report):
    check_sent(report)
    check_scene(report)
    check_dialogue(report)
    check_outgoing(report)
    check_samples(report)
    check_refused(report)
    check_bent(report)
    check_files(report)
    check_longest(report)
    check_longest_list(report)
    check_bench(report)
