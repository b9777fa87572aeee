"""Files for the checks, and what a reader of files finds in them, written from docs/protocol.md alone."""

UPLINK_HEAD, OUTGOING_HEAD = b"DMRU\1\0\0\0", b"DMRO\1\0\0\0"
DOWNLINK_HEAD, RECEIVED_HEAD = b"DMRD\1\0\0\0", b"DMRI\1\0\0\0"

# A control signalling block of ten zero octets, and the idle burst of colour code 1.
CSBK = bytes.fromhex("0062008201900100042004E004CD5D7F77FD757AC81800280250028000C0120022")
IDLE = "53C25EABA8671DC7383BD936065DFF57D75DF5D92BF6E465171B48CA6D4FC610B4"

# A status for the gateway from radio 4.
STATUS = bytes.fromhex("005200B005520EDC0AC80601458D5D7F77FD7573397C25EA0B8012ED06583A008F")

# The block in slot 1 of one frame, and silence in slot 2.
ONE_CSBK = UPLINK_HEAD + b"\1" + CSBK + b"\0"

# A datagram from 12.0.0.1 to 12.0.0.2 with no data, unconfirmed and at rate 1/2, in frame 5 and slot 1.
DATAGRAM = bytes.fromhex("4500001C123400004011509B0C0000010C0000021398139A0008C0A9")
ONE_DATAGRAM = OUTGOING_HEAD + bytes.fromhex("02 00000005 01 00 001C") + DATAGRAM

# The block as it is repeated in slot 1 of one frame, with its CACH, and silence in slot 2.
ONE_FRAME = DOWNLINK_HEAD + b"\1" + bytes.fromhex("800A20") + CSBK[:14] + bytes.fromhex("FF57D75DF5DA") + CSBK[20:] + b"\0"

# What a status from 3 is received as in frame 6 of slot 1: port 1 to port 2, status 5.
ONE_STATUS = RECEIVED_HEAD + bytes.fromhex("03 00000006 01 02 000003 0004 01020005")

LIMIT = 1_048_576

# In which ways an octet is bent.
TURNS = 0x01, 0x02, 0x03, 0x04, 0x80, 0xFF


def cut(whole):
    """A file cut to every length, with that."""
    for size in range(len(whole) + 1):
        yield size, whole[:size]


def bent(whole, begin=0):
    """A file with each octet from one on bent in each way, with the octet and the way."""
    for turned in TURNS:
        for at in range(begin, len(whole)):
            yield at, turned, whole[:at] + bytes([whole[at] ^ turned]) + whole[at + 1 :]


def head_fault(octets, magic):
    if len(octets) < 8:
        return "cut record"
    if octets[:4] != magic:
        return "bad magic"
    return None if octets[4:8] == b"\1\0\0\0" else "bad version"


def slots_fault(octets, magic, burst):
    """The fault of a recording of this magic, whose bursts have so many octets with their tags, or None."""
    fault, at, slots = head_fault(octets, magic), 8, 0
    while fault is None and at < len(octets):
        # There may be much silence.
        front = octets[at : at + 4096]
        silence = len(front) - len(front.lstrip(b"\0"))
        if silence:
            at, slots = at + silence, slots + silence
            continue
        if octets[at] > 1:
            return "bad tag"
        size = burst if octets[at] else 1
        if at + size > len(octets):
            return "cut record"
        at, slots = at + size, slots + 1
    return fault or ("half frame" if slots % 2 else None)


def uplink_fault(octets):
    """The fault of an uplink file, or None."""
    return slots_fault(octets, b"DMRU", 34)


def downlink_fault(octets):
    """The fault of a downlink file, or None."""
    return slots_fault(octets, b"DMRD", 37)


def received_fault(octets):
    """The fault of a received file of one record, or None."""
    fault, at = head_fault(octets, b"DMRI"), 8
    while fault is None and at < len(octets):
        record = octets[at : at + 12]
        if record[0] != 3:
            return "bad tag"
        if len(record) < 12:
            return "cut record"
        if record[5] not in (1, 2) or record[6] > 2:
            return "bad tag"
        at += 12 + int.from_bytes(record[10:12], "big")
        if at > len(octets):
            return "cut record"
    return fault


def outgoing_fault(octets):
    """The fault of an outgoing file, or None."""
    fault, at, last = head_fault(octets, b"DMRO"), 8, 0
    while fault is None and at < len(octets):
        record = octets[at : at + 9]
        if record[0] != 2:
            return "bad tag"
        if len(record) < 9:
            return "cut record"
        if record[5] not in (1, 2) or record[6] > 3:
            return "bad tag"
        frame, size = int.from_bytes(record[1:5], "big"), 9 + int.from_bytes(record[7:9], "big")
        if frame < last:
            return "frame order"
        if at + size > len(octets):
            return "cut record"
        at, last = at + size, frame
    return fault


def outgoing_record(frame, slot=1, mode=0, octets=DATAGRAM):
    """A record of the outgoing file."""
    return b"\2" + frame.to_bytes(4, "big") + bytes([slot, mode]) + len(octets).to_bytes(2, "big") + octets


def received_record(frame, slot, kind, source, octets):
    """A record of the received file."""
    places = frame.to_bytes(4, "big") + bytes([slot, kind]) + source.to_bytes(3, "big")
    return b"\3" + places + len(octets).to_bytes(2, "big") + octets


def sum_of_words(octets):
    """The sum of words of two octets in one's complement."""
    total = sum(octets[0::2]) * 256 + sum(octets[1::2])
    while total > 0xFFFF:
        total = total % 0x10000 + total // 0x10000
    return total


def covered_by_udp(source, destination, udp):
    """What the checksum of UDP covers."""
    return source + destination + bytes([0, 17]) + len(udp).to_bytes(2, "big") + udp


def datagram(source, destination, data=b""):
    """A datagram from an end to another, each of four octets of address and a port."""
    udp = b"".join(port.to_bytes(2, "big") for port in (source[1], destination[1], 8 + len(data))) + b"\0\0" + data
    check = (0xFFFF - sum_of_words(covered_by_udp(source[0], destination[0], udp))) or 0xFFFF
    udp = udp[:6] + check.to_bytes(2, "big") + data
    head = b"\x45\0" + (20 + len(udp)).to_bytes(2, "big") + bytes.fromhex("1234 0000 4011 0000") + source[0] + destination[0]
    check = 0xFFFF - sum_of_words(head)
    return head[:10] + check.to_bytes(2, "big") + head[12:] + udp


def is_datagram(octets):
    """Octets are a datagram that no rule refuses."""
    if not 28 <= len(octets) <= 1400 or octets[0] != 0x45:
        return False
    total, fragment, length, check = (int.from_bytes(octets[at : at + 2], "big") for at in (2, 6, 24, 26))
    return (
        (total, length, fragment & 0x3FFF, octets[9]) == (len(octets), len(octets) - 20, 0, 17)
        and sum_of_words(octets[:20]) == 0xFFFF
        and (check == 0 or sum_of_words(covered_by_udp(octets[12:16], octets[16:20], octets[20:])) == 0xFFFF)
    )
