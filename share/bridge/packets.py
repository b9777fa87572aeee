"""Packets of DMR and the datagrams in them: ETSI TS 102 361-1, clauses 8 and 9.2, and TS 102 361-3.

A packet is a header and blocks. "(own)" marks what the standard leaves to a maker: there it is as dmrgate has it, and as its
docs/protocol.md says.
"""

import enum
import struct

from dmr import DataType, Seal, crc9, crc32, sealed, unsealed

SEQUENCE_NUMBERS = 8
CRC32_OCTETS = 4
MOST_BLOCKS = 127

# The fragment number of a confirmed packet that is whole, which has the bit for the last one, and that of an unconfirmed one. The
# other three bits count fragments of a longer packet, which nobody sends here.
WHOLE_CONFIRMED, WHOLE_UNCONFIRMED, FRAGMENTS = 8, 0, 7

# How many octets a block has at either rate, and how many of them the serial and CRC-9 of a confirmed one take.
OCTETS_OF_BLOCK = {DataType.RATE_HALF: 12, DataType.RATE_FULL: 24}
OCTETS_OF_SERIAL = 2
CRC9_BITS = 9


class Format(enum.IntEnum):
    """The format of a data header, of those that carry datagrams."""

    RESPONSE = 1
    UNCONFIRMED = 2
    CONFIRMED = 3


class AccessPoint(enum.IntEnum):
    """The service access point, which says what a packet holds."""

    COMPRESSED = 3
    IP = 4


class Answer(enum.IntEnum):
    """What a response says: its class, as it is sent with these types."""

    RECEIVED = 0
    FAILED = 1
    SELECTIVE = 2


TYPE_OF_ANSWER = {Answer.RECEIVED: 1, Answer.FAILED: 1, Answer.SELECTIVE: 0}


def in_three_octets(number):
    return number.to_bytes(3, "big")


class PacketHeader:
    """The header of a packet. A full one has all blocks behind it, another one those that were asked for again.

    Its octets are: group (1), response wanted (1), a bit 0, the highest bit of the pad, format (4); access point (4), the other
    bits of the pad (4); destination; source; full (1), blocks to follow (7); and S (1), N(S) (3), fragment number (4).
    """

    def __init__(self, destination, source, access_point, blocks, pad, is_group=False, number=None, is_full=True):
        self.destination, self.source, self.access_point = destination, source, access_point
        self.blocks, self.pad, self.is_group, self.is_full = blocks, pad, is_group, is_full
        # The sequence number N(S) of a confirmed packet, and None of an unconfirmed one.
        self.number = number
        # As it is written here: a response is wanted to a confirmed packet, and a packet is no fragment.
        self.wants_answer, self.is_fragment = number is not None, False

    @property
    def is_confirmed(self):
        return self.number is not None

    def written(self):
        """The twelve octets of the header."""
        kind = Format.CONFIRMED if self.is_confirmed else Format.UNCONFIRMED
        first = self.is_group << 7 | self.wants_answer << 6 | self.pad >> 4 << 4 | kind
        second = self.access_point << 4 | self.pad & 0xF
        last = self.number << 4 | WHOLE_CONFIRMED if self.is_confirmed else WHOLE_UNCONFIRMED
        addresses = in_three_octets(self.destination) + in_three_octets(self.source)
        octets = bytes([first, second]) + addresses + bytes([self.is_full << 7 | self.blocks, last])
        return sealed(octets, Seal.DATA_HEADER)

    @classmethod
    def read(cls, octets):
        first, second, last = octets[0], octets[1], octets[9]
        destination, source = int.from_bytes(octets[2:5], "big"), int.from_bytes(octets[5:8], "big")
        number = last >> 4 & 7 if first & 0xF == Format.CONFIRMED else None
        pad = first & 0x10 | second & 0xF
        it = cls(destination, source, second >> 4, octets[8] & 0x7F, pad, bool(first & 0x80), number, bool(octets[8] & 0x80))
        it.wants_answer, it.is_fragment = bool(first & 0x40), bool(last & FRAGMENTS)
        return it


class Response:
    """The answer to a confirmed packet. Of a selective one the flags, 1 of a block that is there, stand in blocks behind it.

    Its octets are: format; access point (4), zeros (4); destination; source; blocks to follow; class (2), type (3), N(S) (3).
    """

    def __init__(self, destination, source, access_point, answer, number, blocks=0):
        self.destination, self.source, self.access_point = destination, source, access_point
        self.answer, self.number, self.blocks = answer, number, blocks

    def written(self):
        """The twelve octets of the header."""
        addresses = in_three_octets(self.destination) + in_three_octets(self.source)
        last = self.answer << 6 | TYPE_OF_ANSWER[self.answer] << 3 | self.number
        octets = bytes([Format.RESPONSE, self.access_point << 4]) + addresses + bytes([self.blocks, last])
        return sealed(octets, Seal.DATA_HEADER)

    @classmethod
    def read(cls, octets):
        """The response, or None where nobody knows what it says."""
        answer, kind, number = octets[9] >> 6, octets[9] >> 3 & 7, octets[9] & 7
        if answer > Answer.SELECTIVE or (answer != Answer.FAILED and kind != TYPE_OF_ANSWER[answer]):
            return None
        destination, source = int.from_bytes(octets[2:5], "big"), int.from_bytes(octets[5:8], "big")
        # What isn't selective has no blocks behind it, whatever it counts (own).
        blocks = octets[8] & 0x7F if answer == Answer.SELECTIVE else 0
        return cls(destination, source, octets[1] >> 4, Answer(answer), number, blocks)


def read_header(octets):
    """The header in twelve octets, or None where it isn't sealed or is none of those that are known here."""
    octets = unsealed(octets, Seal.DATA_HEADER)
    if octets is None:
        return None
    kind = octets[0] & 0xF
    if kind == Format.RESPONSE:
        return Response.read(octets)
    return PacketHeader.read(octets) if kind in (Format.UNCONFIRMED, Format.CONFIRMED) else None


# A preamble: its control block opcode, and the octet that tells how many bursts follow it.
PREAMBLE, OPCODE_BITS, BURSTS_TO_FOLLOW = 61, 0x3F, 3


def read_preamble(octets):
    """How many bursts follow, by a control block that is a preamble; None of any other."""
    octets = unsealed(octets, Seal.CONTROL_BLOCK)
    is_preamble = octets is not None and octets[0] & OPCODE_BITS == PREAMBLE
    return octets[BURSTS_TO_FOLLOW] if is_preamble else None


def room_of_block(rate, is_confirmed):
    """How many octets of a packet a block holds."""
    return OCTETS_OF_BLOCK[rate] - (OCTETS_OF_SERIAL if is_confirmed else 0)


def most_octets(rate, is_confirmed):
    """How many octets the body of a packet has at most."""
    return MOST_BLOCKS * room_of_block(rate, is_confirmed) - CRC32_OCTETS


def split(body, rate, is_confirmed):
    """What the blocks of a packet hold, in as few as there can be, and how many octets of pad stand in front of the check."""
    room = room_of_block(rate, is_confirmed)
    pad = -(len(body) + CRC32_OCTETS) % room
    padded = body + bytes(pad)
    octets = padded + crc32(padded)
    return [octets[at : at + room] for at in range(0, len(octets), room)], pad


def joined(blocks, pad):
    """The body that these blocks hold, or None where the check of the packet is wrong."""
    octets = b"".join(blocks)
    size = len(octets) - CRC32_OCTETS - pad
    if size < 0 or crc32(octets[:-CRC32_OCTETS]) != octets[-CRC32_OCTETS:]:
        return None
    return octets[:size]


def confirmed_block(data, serial, rate):
    """The octets of a confirmed block: its serial, its CRC-9, and its piece of the packet."""
    return (serial << CRC9_BITS | crc9(data, serial, rate)).to_bytes(OCTETS_OF_SERIAL, "big") + data


def read_confirmed_block(octets, rate):
    """The serial and the piece of the packet of a confirmed block, or None where its check is wrong."""
    serial, data = octets[0] >> 1, octets[OCTETS_OF_SERIAL:]
    return (serial, data) if confirmed_block(data, serial, rate) == octets else None


# The flags of a selective response: so many octets for a packet of that many blocks, and for a longer one, with zeros (own).
BLOCKS_OF_SHORT_FLAGS, SHORT_FLAGS, LONG_FLAGS, LONG_FLAGS_PAD = 64, 8, 16, 4


def blocks_of_flags(blocks):
    """How many blocks the flags of a packet of so many blocks take."""
    return 1 if blocks <= BLOCKS_OF_SHORT_FLAGS else 2


def write_flags(serials, blocks):
    """The blocks that tell which serials of a packet of so many blocks are there."""
    flags = sum(1 << serial for serial in serials)
    is_short = blocks <= BLOCKS_OF_SHORT_FLAGS
    octets = flags.to_bytes(SHORT_FLAGS, "little") if is_short else flags.to_bytes(LONG_FLAGS, "little") + bytes(LONG_FLAGS_PAD)
    return split(octets, DataType.RATE_HALF, False)[0]


def read_flags(flag_blocks, blocks):
    """The serials of a packet of so many blocks that these blocks tell of as there, or None where they can't be read."""
    if len(flag_blocks) != blocks_of_flags(blocks):
        return None
    octets = joined(flag_blocks, 0)
    flags = int.from_bytes(octets, "little") if octets is not None else None
    return None if flags is None else {serial for serial in range(blocks) if flags >> serial & 1}


# Networks of radios and of groups: the first octet of an address, behind which the identity stands (own).
RADIOS, GROUPS = 12, 225


def address_of(identity, network=RADIOS):
    """The IPv4 address of a radio or a group."""
    return bytes([network]) + in_three_octets(identity)


# The fields of IPv4 and UDP headers without options, and what they hold in a datagram that has a compressed form.
IP_HEADER, UDP_HEADER = struct.Struct(">BBHHHBBH4s4s"), struct.Struct(">HHHH")
VERSION_AND_WORDS, TIME_TO_LIVE, UDP = 0x45, 64, 17
LONGEST_DATAGRAM = 1400

# Identifiers of the compressed header: of addresses, and of ports that are not spelled out (own).
OWN_ADDRESS, GROUP_ADDRESS = 0, 2
SPELLED_OUT = 0
PORTS = {1: 5016, 2: 5017}
IDENTIFIERS = {port: identifier for identifier, port in PORTS.items()}


def checksum(octets):
    """The checksum of the Internet over an even number of octets: the sum of their words in one's complement, inverted."""
    total = sum(octets[0::2]) * 256 + sum(octets[1::2])
    while total > 0xFFFF:
        total = (total & 0xFFFF) + (total >> 16)
    return total ^ 0xFFFF


def udp_datagram(identification, source, destination, source_port, destination_port, data):
    """A UDP datagram over IPv4 as a compressed header stands for it: with all that the header leaves out."""
    size = UDP_HEADER.size + len(data)
    pseudo_header = source + destination + struct.pack(">BBH", 0, UDP, size)
    even = data + bytes(len(data) % 2)
    check = checksum(pseudo_header + UDP_HEADER.pack(source_port, destination_port, size, 0) + even) or 0xFFFF
    fields = [VERSION_AND_WORDS, 0, IP_HEADER.size + size, identification, 0, TIME_TO_LIVE, UDP, 0, source, destination]
    fields[7] = checksum(IP_HEADER.pack(*fields))
    return IP_HEADER.pack(*fields) + UDP_HEADER.pack(source_port, destination_port, size, check) + data


def compressed(datagram, source, destination, is_group):
    """The compressed form of a datagram in a packet with these addresses, or None where it has none."""
    headers = IP_HEADER.size + UDP_HEADER.size
    if not headers <= len(datagram) <= LONGEST_DATAGRAM:
        return None
    identification, ports = datagram[4:6], UDP_HEADER.unpack(datagram[IP_HEADER.size : headers])[:2]
    ends = address_of(source), address_of(destination, GROUPS if is_group else RADIOS)
    if datagram != udp_datagram(int.from_bytes(identification, "big"), *ends, *ports, datagram[headers:]):
        return None
    addresses = OWN_ADDRESS << 4 | (GROUP_ADDRESS if is_group else OWN_ADDRESS)
    identifiers = [IDENTIFIERS.get(port, SPELLED_OUT) for port in ports]
    spelled = b"".join(port.to_bytes(2, "big") for port in ports if port not in IDENTIFIERS)
    return identification + bytes([addresses, *identifiers]) + spelled + datagram[headers:]


def expanded(octets, source, destination, is_group):
    """The datagram that a compressed form stands for, or None where it is no such form."""
    wanted = OWN_ADDRESS << 4 | (GROUP_ADDRESS if is_group else OWN_ADDRESS)
    if len(octets) < 5 or octets[2] != wanted:
        return None
    ports, rest = [], octets[5:]
    for identifier in octets[3:5]:
        if identifier == SPELLED_OUT and len(rest) >= 2:
            ports.append(int.from_bytes(rest[:2], "big"))
            rest = rest[2:]
        else:
            ports.append(PORTS.get(identifier))
    if None in ports or IP_HEADER.size + UDP_HEADER.size + len(rest) > LONGEST_DATAGRAM:
        return None
    ends = address_of(source), address_of(destination, GROUPS if is_group else RADIOS)
    return udp_datagram(int.from_bytes(octets[:2], "big"), *ends, *ports, rest)
