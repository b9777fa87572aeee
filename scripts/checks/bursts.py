"""Bursts for the checks, encoded by docs/protocol.md with no word of the program."""

SYNC = {"BS voice": 0x755FD7DF75F7, "BS data": 0xDFF57D75DF5D, "MS voice": 0x7F7D5DD57DFD, "MS data": 0xD5D7F77FD757}

# Generators, their degrees, and whether a code has one bit more that makes the ones even.
GOLAY, RESIDUE = (0xC75, 11, True), (0x139, 8, True)
ROW = COLUMN = (0x13, 4, False)
EMBEDDED_ROW = (0x13, 4, True)

CCITT = 0x11021
CONTROL_BLOCK, DATA_HEADER = 0xA5A5, 0xCCCC
VOICE_HEADER, TERMINATOR = 0x96, 0x99


def bits_of(number, width):
    return [number >> width - 1 - place & 1 for place in range(width)]


def number_of(bits):
    return int("".join(map(str, bits)), 2)


def bits_of_octets(octets):
    return [bit for octet in octets for bit in bits_of(octet, 8)]


def remainder(number, generator, degree):
    while number.bit_length() > degree:
        number ^= generator << number.bit_length() - degree - 1
    return number


def word_of(information, code):
    """The word of a block code that begins with these bits."""
    generator, degree, is_even = code
    word = information + bits_of(remainder(number_of(information) << degree, generator, degree), degree)
    return word + [sum(word) % 2] if is_even else word


def sealed(octets, mask):
    """Ten octets with their masked CRC-CCITT."""
    check = remainder(int.from_bytes(octets, "big") << 16, CCITT, 16) ^ 0xFFFF ^ mask
    return octets + check.to_bytes(2, "big")


def times(a, b):
    """The product of two elements of the field of 256."""
    product = 0
    for place in range(8):
        product ^= (a << place) * (b >> place & 1)
    return remainder(product, 0x11D, 8)


def with_parity(octets, mask):
    """Nine octets of link control with their masked Reed-Solomon parity."""
    left = [*octets, 0, 0, 0]
    for at in range(9):
        for place, factor in enumerate((0x0E, 0x38, 0x40), 1):
            left[at + place] ^= times(left[at], factor)
    return octets + bytes(octet ^ mask for octet in left[9:])


def information_of(octets):
    """The 196 bits that twelve octets are encoded as."""
    bits = [0, 0, 0, *bits_of_octets(octets)]
    rows = [word_of(bits[11 * row : 11 * row + 11], ROW) for row in range(9)]
    columns = [word_of([row[column] for row in rows], COLUMN) for column in range(15)]
    sent = [0] * 196
    for row in range(13):
        for column in range(15):
            sent[181 * (1 + 15 * row + column) % 196] = columns[column][row]
    return sent


def burst_of(outer, middle, centre):
    """The octets of a burst: bits around a middle field, which stands around the centre."""
    inner = middle[: len(middle) // 2] + centre + middle[len(middle) // 2 :]
    return number_of(outer[: len(outer) // 2] + inner + outer[len(outer) // 2 :]).to_bytes(33, "big")


def data_burst(kind, information, colour=1, side="MS"):
    slot_type = word_of(bits_of(colour, 4) + bits_of(kind, 4), GOLAY)
    return burst_of(information, slot_type, bits_of(SYNC[f"{side} data"], 48))


def untyped_data_burst(side="MS"):
    """A data burst with a slot type that has four wrong bits."""
    return burst_of([0] * 196, bits_of(0xF, 20), bits_of(SYNC[f"{side} data"], 48))


def voice_sync_burst(side="MS"):
    return burst_of([0] * 216, [], bits_of(SYNC[f"{side} voice"], 48))


def embedded_fields(octets):
    """The four fields that carry nine octets of link control, from B to E."""
    bits, checksum = bits_of_octets(octets), bits_of(sum(octets) % 31, 5)
    rows = [bits[:11], bits[11:22], *(bits[22 + 10 * row : 32 + 10 * row] + [checksum[row]] for row in range(5))]
    words = [word_of(row, EMBEDDED_ROW) for row in rows]
    words.append([sum(column) % 2 for column in zip(*words)])
    sent = [word[column] for column in range(16) for word in words]
    return [number_of(sent[32 * part : 32 * part + 32]) for part in range(4)]


def voice_burst(lcss, pi=0, embedded=0, colour=1):
    emb = word_of(bits_of(colour, 4) + [pi] + bits_of(lcss, 2), RESIDUE)
    return burst_of([0] * 216, emb, bits_of(embedded, 32))


def unreadable_burst():
    """Neither a sync nor an EMB: three wrong bits of an EMB of zeros."""
    return burst_of([0] * 216, bits_of(0x7, 16), [0] * 32)
