"""The radio: its codes against bursts of others, its ears against the samples, when it talks, and what it says and hears with a
run."""

import collections
import itertools

from checks import recordings as it
from checks import talks
from checks.talks import GATEWAY, HOST_END, RADIO, RADIO_END, SLOTS, datagrams_received, records_of, slots_of

# Behind `talks`, which tells where these are.
import dmr
import packets
from station import Station

# An unconfirmed packet of radio 2 to the gateway, as another program encodes it, and the datagram in it.
FINE = it.datagram(RADIO_END, HOST_END, b"fine, thank you")
BURSTS_OF_FINE = """
4096023207B600C203903A29058D5D7F77FD75733A59217A030203650B0013208B
0248015018EE0E2816043311C5ED5D7F77FD7570941D33F20D922EA5E0116D320B
299CE82E600074A0712511A105ED5D7F77FD7570970FECB2BC962064718364A64E
000E01BA024C02180620064005ED5D7F77FD757094F806200AE00B601D404B80C4
"""

# What an idle burst holds.
IDLE = bytes.fromhex("FF83DF1732094ED1E7CD8A91")

# Samples in which the gateway receives packets.
HEARD_BY_GATEWAY = (
    "confirmed_packet_received", "repeated_retry", "same_serial_twice", "packet_of_127_blocks", "mixed_clean", "mixed_damaged",
)
# Samples in which it sends one to radio 2 or to a group, with the slot.
HEARD_BY_RADIO = {
    "datagram_sent": 1, "datagram_plain": 1, "answered_try": 1, "four_tries": 1, "one_flag_block_for_65": 1,
    "unconfirmed_header_octets": 2,
}

# The try of the sample `four_tries` begins in this frame. It is two preambles, a header and two blocks, and wants an answer.
TRY_BEGINS, TRY_BURSTS = 5, 5

# The four places of a burst that say nothing at rate 1.
SAYS_NOTHING = sum(1 << 263 - place for place in (96, 97, 166, 167))

# How many frames behind its burst the repeater repeats it, and in how many free ones a radio listens.
DELAY, LISTENING = 6, 2

# How many slots of each downlink are looked at, burst by burst.
LOOKED_AT = 300


def check_values(report):
    """Checks and blocks as others have them."""
    zeros = bytes(10)
    for seal, wanted in ((dmr.Seal.CONTROL_BLOCK, "5A5A"), (dmr.Seal.DATA_HEADER, "3333")):
        report.expect(f"the check of zeros, {seal.name}", dmr.sealed(zeros, seal)[10:] == bytes.fromhex(wanted))
    for octets, wanted in (("0100", "B71DC104"), ("0001", "DCC119D2")):
        check = dmr.crc32(bytes.fromhex(octets))
        report.expect(f"CRC-32 of {octets}", check == bytes.fromhex(wanted), check.hex())
    for rate, serial, wanted in (("RATE_HALF", 0, "010F"), ("RATE_FULL", 0, "00F0"), ("RATE_HALF", 1, "0356")):
        rate = dmr.DataType[rate]
        block = packets.confirmed_block(bytes(packets.room_of_block(rate, True)), serial, rate)
        report.expect(f"a block of zeros, {rate.name}, serial {serial}", block[:2] == bytes.fromhex(wanted), block.hex())
    flags = packets.write_flags(set(range(64)) - {0, 63}, 64)
    report.expect("flags of 64 blocks", [octets[:8] for octets in flags] == [bytes.fromhex("FEFFFFFFFFFFFF7F")], flags)


def check_said(report):
    """What the radio says for a datagram is what another program encodes."""
    station = Station(RADIO, GATEWAY)
    station.offer(FINE)
    said = []
    for _ in range(12):
        station.hear(None)
        said.append(station.say())
    wanted = [bytes.fromhex(burst) for burst in BURSTS_OF_FINE.split()]
    report.expect("the bursts of a datagram", list(filter(None, said)) == wanted, said)


def check_written_again(report):
    """Each data burst at the beginning of the samples' downlinks that the radio can read is what it writes for it."""
    counts = collections.Counter()
    for file in sorted(report.top.glob("samples/*/downlink.dmrd")):
        slots = itertools.islice(slots_of(file.read_bytes(), 37), LOOKED_AT)
        for burst in {slot[3:] for slot in slots if slot}:
            read = dmr.DataBurst.read(burst)
            if read and read.octets is not None:
                counts[read.data_type] += 1
                wanted = int.from_bytes(burst, "big")
                wanted &= ~SAYS_NOTHING if read.data_type == dmr.DataType.RATE_FULL else ~0
                written = int.from_bytes(read.written(dmr.BASE_STATION_DATA), "big")
                report.expect(f"a burst of {file.parent.name}, written again", written == wanted, burst.hex())
    report.expect("bursts of each type were written again", all(counts[kind] > 5 for kind in dmr.DataType if kind != 9), counts)


def check_headers(report):
    """Each header that the gateway sends, or that answers it, is what the radio writes for it."""
    for name in HEARD_BY_RADIO:
        downlink = (report.top / "samples" / name / "downlink.dmrd").read_bytes()
        read = [dmr.DataBurst.read(slot[3:]) for slot in slots_of(downlink, 37) if slot]
        octets = {burst.octets for burst in read if burst.data_type == dmr.DataType.DATA_HEADER}
        is_so = octets and all(packets.read_header(it).written() == it for it in octets)
        report.expect(f"the headers of {name}, written again", is_so, octets)


def check_damage(report):
    """Damage is undone up to its limits: in the sample every part of a control block of zeros has as many wrong bits as it may."""
    uplink = (report.top / "samples/damaged_csbk/uplink.dmru").read_bytes()
    burst = dmr.DataBurst.read(next(slots_of(uplink, 34)), dmr.MOBILE_STATION_DATA)
    is_so = burst and (burst.data_type, burst.octets) == (dmr.DataType.CONTROL_BLOCK, bytes(10) + b"\x5A\x5A")
    report.expect("a burst that is damaged up to the limits", is_so, burst and burst.octets)
    # A row of the table, a column, and four cells that are put right only where columns come first. Cells have numbers from 1.
    for name, cells in (("row", range(1, 16)), ("column", range(1, 196, 15)), ("four cells", (1, 2, 24, 27))):
        sent = dmr.ProductCode.encode(IDLE)
        for cell in cells:
            sent[181 * cell % 196] ^= 1
        report.expect(f"a product word with a wrong {name}", dmr.ProductCode.decode(sent) == IDLE, cells)
    block = bytearray(packets.confirmed_block(bytes(10), 3, dmr.DataType.RATE_HALF))
    block[5] ^= 4
    read = packets.read_confirmed_block(bytes(block), dmr.DataType.RATE_HALF)
    report.expect("a confirmed block with a wrong bit", read is None, read)


def check_forms(report):
    """Compressed forms as others have them, and what has none."""
    fine = "12340000 01139A" + b"fine, thank you".hex()
    for datagram, wanted, ends in ((it.DATAGRAM, "1234000100139A", (GATEWAY, RADIO)), (FINE, fine, (RADIO, GATEWAY))):
        form = packets.compressed(datagram, *ends, False)
        report.expect(f"the compressed form {wanted}", form == bytes.fromhex(wanted), form and form.hex())
        back = packets.expanded(bytes.fromhex(wanted), *ends, False)
        report.expect(f"what {wanted} stands for", back == datagram, back and back.hex())
    other_life = bytes.fromhex("4500001C12340000 3F11519B") + it.DATAGRAM[12:]
    for datagram, destination in ((other_life, RADIO), (it.DATAGRAM, RADIO + 1), (it.DATAGRAM[:-1], RADIO)):
        form = packets.compressed(datagram, GATEWAY, destination, False)
        report.expect(f"{datagram.hex()} has no compressed form", form is None, form)
    for form in ("12340001", "1234000100", "1234008100139A", "1234100100139A", "1234000300139A", "1234000101" + 1373 * "00"):
        datagram = packets.expanded(bytes.fromhex(form), GATEWAY, RADIO, False)
        report.expect(f"{form[:20]} stands for nothing", datagram is None, datagram)
    # What the check would be for zeros is data with which it is zero, and is sent as FFFF.
    even = it.datagram(HOST_END, RADIO_END, it.datagram(HOST_END, RADIO_END, b"\0\0")[26:28])
    form = packets.compressed(even, GATEWAY, RADIO, False)
    is_so = even[26:28] == b"\xFF\xFF" and packets.expanded(form, GATEWAY, RADIO, False) == even
    report.expect("a checksum that is zero", is_so, even.hex())


def heard_in(downlink, slot, identity, is_repeated):
    """The datagrams that a radio hears of bursts that are repeated, or of those that the gateway sends, each with its frame."""
    station, heard = Station(identity, GATEWAY), []
    for octets in itertools.islice(slots_of(downlink, 37), slot - 1, None, 2):
        # The first bit of the CACH tells whether the burst behind it is repeated.
        is_so = octets and octets[0] >> 7 == is_repeated
        station.hear(octets[3:] if is_so else None)
        heard += [(station.now, datagram) for datagram in station.receiver.datagrams]
        station.receiver.datagrams.clear()
    return heard


def check_ears(report):
    """What a gateway receives, a radio with its address hears, in the same frames; and a radio hears what the gateway sends."""
    for name in HEARD_BY_GATEWAY:
        folder = report.top / "samples" / name
        downlink = (folder / "downlink.dmrd").read_bytes()
        heard = sorted((frame, slot, octets) for slot in SLOTS for frame, octets in heard_in(downlink, slot, GATEWAY, True))
        wanted = datagrams_received((folder / "received.dmri").read_bytes())
        report.expect(f"sample {name}: what the gateway receives", heard == wanted, heard)
    for name, slot in HEARD_BY_RADIO.items():
        folder = report.top / "samples" / name
        heard = [octets for _, octets in heard_in((folder / "downlink.dmrd").read_bytes(), slot, RADIO, False)]
        sent = [octets for head, octets in records_of((folder / "outgoing.dmro").read_bytes(), 9) if head[5] == slot]
        report.expect(f"sample {name}: what the radio hears", heard == sent[:1] and sent, heard)


def said_in(station, bursts):
    """The frames in which a station says something, for these bursts of its slot, or None, in turn."""
    frames = []
    for burst in bursts:
        station.hear(burst)
        frames += [station.now] if station.say() else []
    return frames


def check_manners(report):
    """A radio listens before it talks, answers at once, and goes on behind an answer."""
    downlink = (report.top / "samples/four_tries/downlink.dmrd").read_bytes()
    first = [slot[3:] or None for slot in itertools.islice(slots_of(downlink, 37), 0, 2 * (TRY_BEGINS + TRY_BURSTS), 2)]
    preamble, silence = first[TRY_BEGINS], [None] * 40
    last = len(first) - 1

    def talker(identity, *datagrams):
        station = Station(identity, GATEWAY)
        for datagram in datagrams:
            station.offer(datagram)
        return station

    said = said_in(talker(RADIO + 1, FINE), first[TRY_BEGINS:] + silence)
    report.expect("nothing is said into a try of others", said[:1] == [TRY_BURSTS + LISTENING - 1], said)
    said = said_in(talker(RADIO + 1, FINE), [preamble, *silence])
    report.expect("nor where its bursts are lost", said[:1] == [TRY_BURSTS - 1], said)
    # This datagram is a header and three blocks.
    said = said_in(talker(RADIO, FINE, FINE), silence)
    wanted = [*range(1, 5), *range(4 + DELAY + LISTENING, 8 + DELAY + LISTENING)]
    report.expect("nothing more is said until what was said has come back", said == wanted, said)
    station = talker(RADIO)
    report.expect("an answer goes out at once", said_in(station, first) == [last])
    station.offer(FINE)
    said = said_in(station, silence)
    report.expect("a packet goes out behind an answer", said == list(range(last + 1, last + 5)), said)


def check_answers(report):
    """An answer counts that is to the packet in hand: another sequence number, or another source, is somebody else's."""
    station = Station(RADIO, GATEWAY, is_confirmed=True)
    station.offer(FINE)
    said_in(station, [None] * 10)
    for source, number, delivered in ((GATEWAY, 1, 0), (GATEWAY + 2, 0, 0), (GATEWAY, 0, 1)):
        response = packets.Response(RADIO, source, packets.AccessPoint.COMPRESSED, packets.Answer.RECEIVED, number)
        burst = dmr.DataBurst(1, dmr.DataType.DATA_HEADER, response.written())
        said_in(station, [burst.written(dmr.BASE_STATION_DATA)])
        count = station.sender.delivered
        report.expect(f"an answer from {source} with sequence number {number}", count == delivered, count)


def check(report):
    check_values(report)
    check_said(report)
    check_written_again(report)
    check_headers(report)
    check_damage(report)
    check_forms(report)
    check_ears(report)
    check_manners(report)
    check_answers(report)
    talks.check(report)
