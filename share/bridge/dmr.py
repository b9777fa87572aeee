"""Data bursts of DMR as a radio writes and reads them: ETSI TS 102 361-1, clauses 6 and 9.1, annex B.

A burst is 33 octets. A list of bits has the highest bit of a number first. The codes are written down as the tables of annex B
have them, by the parity of each bit of information. "(own)" marks what the standard leaves to a maker: there it is as dmrgate
has it, and as its docs/protocol.md says.
"""

import enum
import functools
import itertools

OCTETS_OF_BURST = 33

# Syncs of data, of a base station and of a mobile station, 48 bits each.
SYNC_BITS, SYNC_REACH = 48, 3
BASE_STATION_DATA, MOBILE_STATION_DATA = 0xDFF57D75DF5D, 0xD5D7F77FD757

# Where the fields of a data burst stand. The information and the slot type stand in two halves around the sync.
INFORMATION_BEFORE, INFORMATION_BEHIND = slice(0, 98), slice(166, 264)
SLOT_TYPE_BEFORE, SLOT_TYPE_BEHIND = slice(98, 108), slice(156, 166)
SYNC = slice(108, 156)


class DataType(enum.IntEnum):
    """What a data burst holds, by its slot type: those types that a radio of packets has to know."""

    CONTROL_BLOCK = 3
    DATA_HEADER = 6
    RATE_HALF = 7
    IDLE = 9
    RATE_FULL = 10


def bits_of(number, width):
    """The bits of a number, the highest first."""
    return [number >> place & 1 for place in reversed(range(width))]


def number_of(bits):
    """The number that has these bits."""
    number = 0
    for bit in bits:
        number = number << 1 | bit
    return number


def bits_of_octets(octets):
    return bits_of(int.from_bytes(octets, "big"), 8 * len(octets))


def octets_of_bits(bits):
    return number_of(bits).to_bytes(len(bits) // 8, "big")


def halves(bits):
    return bits[: len(bits) // 2], bits[len(bits) // 2 :]


def distance(word, other):
    """In how many places two words, which are numbers, differ."""
    return bin(word ^ other).count("1")


class LinearCode:
    """A block code. A word is its information and then the sum of the parities of those bits that are 1."""

    def __init__(self, parities, width):
        self.parities, self.width = parities, width
        self.length = len(parities) + width
        # Which place of a word is wrong where its parity is off by so much.
        self.wrong_place = {parity: place for place, parity in enumerate(parities)}
        self.wrong_place.update({1 << width - 1 - place: len(parities) + place for place in range(width)})

    def parity(self, information):
        total = 0
        for bit, parity in zip(information, self.parities):
            total ^= parity if bit else 0
        return total

    def word(self, information):
        return information + bits_of(self.parity(information), self.width)

    def syndrome(self, received):
        """By how much the parity of what was received is off: 0 of a word."""
        information, parity = received[: len(self.parities)], received[len(self.parities) :]
        return self.parity(information) ^ number_of(parity)

    def correct(self, received):
        """Turns the one wrong bit, where turning one makes a word."""
        place = self.wrong_place.get(self.syndrome(received))
        if place is not None:
            received[place] ^= 1


# Annex B.3.1: the Golay code (20,8) of the slot type, whose words differ in eight places.
GOLAY = LinearCode([0x3DA, 0xD99, 0x6CD, 0x367, 0xDC6, 0xA97, 0x93E, 0x8EB], width=12)
GOLAY_REACH = 3
SLOT_TYPES = [number_of(GOLAY.word(bits_of(information, 8))) for information in range(256)]


@functools.lru_cache
def slot_type_near(received):
    """The slot type within three bits, a number, or None where there is none."""
    nearest = min(SLOT_TYPES, key=lambda word: distance(word, received))
    return nearest if distance(nearest, received) <= GOLAY_REACH else None


# Annex B.3.4: the Hamming codes (15,11) of the rows and (13,9) of the columns of a product word.
HAMMING_ROW = LinearCode([0x9, 0xD, 0xF, 0xE, 0x7, 0xA, 0x5, 0xB, 0xC, 0x6, 0x3], width=4)
HAMMING_COLUMN = LinearCode([0xF, 0xE, 0x7, 0xA, 0x5, 0xB, 0xC, 0x6, 0x3], width=4)


# Annex B.1.1: the product code (196,96). Cells of its table are numbered row by row from 1, and a number is interleaved so.
PRODUCT_SIZE, PRODUCT_STEP = 196, 181
PLACES_OF_CELLS = [PRODUCT_STEP * number % PRODUCT_SIZE for number in range(1, PRODUCT_SIZE)]


class ProductCode:
    """Twelve octets behind three reserved bits, in a table of 13 rows and 15 columns: each row and each column is a word."""

    COLUMNS, RESERVED = 15, 3

    @classmethod
    def encode(cls, octets):
        """The 196 bits for twelve octets."""
        bits = [0] * cls.RESERVED + bits_of_octets(octets)
        width = len(HAMMING_ROW.parities)
        rows = [HAMMING_ROW.word(bits[at : at + width]) for at in range(0, len(bits), width)]
        columns = [HAMMING_COLUMN.word(list(column)) for column in zip(*rows)]
        sent = [0] * PRODUCT_SIZE
        for place, bit in zip(PLACES_OF_CELLS, itertools.chain(*zip(*columns))):
            sent[place] = bit
        return sent

    @classmethod
    def decode(cls, received):
        """The twelve octets of 196 bits, or None where a row or column is still wrong behind one correction of each."""
        cells = [received[place] for place in PLACES_OF_CELLS]
        columns = [cells[column :: cls.COLUMNS] for column in range(cls.COLUMNS)]
        for column in columns:
            HAMMING_COLUMN.correct(column)
        rows = [list(row) for row in zip(*columns)]
        for row in rows:
            HAMMING_ROW.correct(row)
        columns = [list(column) for column in zip(*rows)]
        if any(map(HAMMING_ROW.syndrome, rows)) or any(map(HAMMING_COLUMN.syndrome, columns)):
            return None
        information = itertools.chain(*(row[: len(HAMMING_ROW.parities)] for row in rows[: len(HAMMING_COLUMN.parities)]))
        return octets_of_bits(list(information)[cls.RESERVED :])


class FullRate:
    """Rate 1: 24 octets with no code, in two halves around four bits that say nothing (own)."""

    HALF, BETWEEN = 96, 4

    @classmethod
    def encode(cls, octets):
        bits = bits_of_octets(octets)
        return bits[: cls.HALF] + [0] * cls.BETWEEN + bits[cls.HALF :]

    @classmethod
    def decode(cls, received):
        return octets_of_bits(received[: cls.HALF] + received[cls.HALF + cls.BETWEEN :])


def code_of(data_type):
    """How the information of a burst of this type is encoded."""
    return FullRate if data_type == DataType.RATE_FULL else ProductCode


class DataBurst:
    """A data burst: a colour code, a data type, and octets, 24 at rate 1 and else twelve; None where they can't be read."""

    def __init__(self, colour_code, data_type, octets):
        self.colour_code, self.data_type, self.octets = colour_code, data_type, octets

    def written(self, sync=MOBILE_STATION_DATA):
        """The 33 octets of the burst."""
        bits = [0] * (8 * OCTETS_OF_BURST)
        information = code_of(self.data_type).encode(self.octets)
        slot_type = GOLAY.word(bits_of(self.colour_code, 4) + bits_of(self.data_type, 4))
        bits[INFORMATION_BEFORE], bits[INFORMATION_BEHIND] = halves(information)
        bits[SLOT_TYPE_BEFORE], bits[SLOT_TYPE_BEHIND] = halves(slot_type)
        bits[SYNC] = bits_of(sync, SYNC_BITS)
        return octets_of_bits(bits)

    @classmethod
    def read(cls, burst, sync=BASE_STATION_DATA):
        """The data burst that 33 octets are read as, or None where the sync or the slot type can't be read."""
        bits = bits_of_octets(burst)
        if distance(number_of(bits[SYNC]), sync) > SYNC_REACH:
            return None
        slot_type = slot_type_near(number_of(bits[SLOT_TYPE_BEFORE] + bits[SLOT_TYPE_BEHIND]))
        if slot_type is None:
            return None
        # Colour code (4), data type (4), parity (12).
        colour_code, data_type = slot_type >> 16, slot_type >> 12 & 0xF
        information = bits[INFORMATION_BEFORE] + bits[INFORMATION_BEHIND]
        octets = None if data_type == DataType.IDLE else code_of(data_type).decode(information)
        return cls(colour_code, data_type, octets)


class Register:
    """A shift register of so many bits with these taps, which makes a cyclic redundancy check: annexes B.3.8 to B.3.10."""

    def __init__(self, width, taps):
        self.width, self.taps = width, taps
        self.ones = (1 << width) - 1

    def shifted(self, bits):
        """What is in it behind these bits. It begins with zeros."""
        register = 0
        for bit in bits:
            feeds_back = register >> self.width - 1 != bit
            register = register << 1 & self.ones
            register ^= self.taps if feeds_back else 0
        return register

    def inverted(self, bits):
        return self.shifted(bits) ^ self.ones


CCITT, CRC9, CRC32 = Register(16, 0x1021), Register(9, 0x059), Register(32, 0x04C11DB7)


class Seal(enum.IntEnum):
    """What is added to the CRC-CCITT, by what it stands behind: annex B.3.12."""

    CONTROL_BLOCK = 0xA5A5
    DATA_HEADER = 0xCCCC


def sealed(octets, seal):
    """Ten octets and their CRC-CCITT, which is sent inverted."""
    check = CCITT.inverted(bits_of_octets(octets)) ^ seal
    return octets + check.to_bytes(2, "big")


def unsealed(octets, seal):
    """The ten octets in front of the check of twelve, or None where it is wrong."""
    return octets[:10] if octets is not None and sealed(octets[:10], seal) == octets else None


# What is added to the CRC-9 of a confirmed block, by the data type of its rate.
CRC9_MASKS = {DataType.RATE_HALF: 0x0F0, DataType.RATE_FULL: 0x10F}


def crc9(data, serial, rate):
    """The check of a confirmed block: over its data and then the seven bits of its serial, inverted (own)."""
    return CRC9.inverted(bits_of_octets(data) + bits_of(serial, 7)) ^ CRC9_MASKS[rate]


def crc32(octets):
    """The check of a packet: over octets in pairs, the second of each first, and sent from its lowest octet on (own)."""
    swapped = bytearray(octets)
    swapped[0::2], swapped[1::2] = octets[1::2], octets[0::2]
    return CRC32.shifted(bits_of_octets(bytes(swapped))).to_bytes(4, "little")
