"""Long recordings, made of those in samples/."""
import pathlib
import random

TOP = pathlib.Path(__file__).resolve().parent.parent

# What builds the program, and the program that it builds, which is measured by itself.
SCRIPT = TOP / "dmrgate"
PROGRAM = TOP / "crates/dmrgate/out/program"

UPLINK_HEAD = (TOP / "samples/one_csbk/uplink.dmru").read_bytes()[:8]
OUTGOING_HEAD = (TOP / "samples/one_csbk/outgoing.dmro").read_bytes()[:8]
SILENCE = b"\x00"

# A datagram from 12.0.0.1 to 12.0.0.2 with no data.
DATAGRAM = bytes.fromhex("4500001C123400004011509B0C0000010C0000021398139A0008C0A9")

# The centre of a burst of a mobile station.
VOICE_SYNC = 0x7F7D5DD57DFD
DATA_SYNC = 0xD5D7F77FD757
CENTRE = range(108, 156)
SLOT_TYPE = [*range(98, 108), *range(156, 166)]
EMB = [*range(108, 116), *range(148, 156)]
EMBEDDED = range(116, 148)


def slots_of(path):
    """The records of slot 1 in a recording."""
    uplink, records, at = path.read_bytes(), [], 8
    while at < len(uplink):
        length = 34 if uplink[at] else 1
        records.append(uplink[at:at + length])
        at += length
    return records[::2]


def sample_slots():
    """The records of slot 1 in each sample: calls, late entries, lost and filled places, control signalling blocks, and the
    packets, statuses and answers of radios."""
    return [slots_of(path) for path in sorted((TOP / "samples").glob("*/uplink.dmru"))]


def both_slots(slots):
    """Frames in which slot 2 has what slot 1 has, as far ahead as it can be, so that calls overlap."""
    ahead = len(slots) // 2
    return [first + second for first, second in zip(slots, slots[ahead:] + slots[:ahead])]


def write_uplink(path, frames, count):
    """So many frames of an uplink, these over and over."""
    whole, rest = divmod(count, len(frames))
    with open(path, "wb") as file:
        file.write(UPLINK_HEAD)
        block = b"".join(frames)
        for _ in range(whole):
            file.write(block)
        file.write(b"".join(frames[:rest]))


def write_outgoing(path, records):
    """An outgoing list of these records, each a frame, a slot, a mode and a datagram."""
    with open(path, "wb") as file:
        file.write(OUTGOING_HEAD)
        for frame, slot, mode, datagram in records:
            file.write(b"\x02" + frame.to_bytes(4, "big") + bytes([slot, mode]) + len(datagram).to_bytes(2, "big") + datagram)


def refused_each_frame(count):
    """In each frame a datagram that the gateway refuses."""
    return ((frame, 1, 0, bytes(20)) for frame in range(count))


def sent_in_turn(count):
    """Every 20 frames a datagram, for slot 1 and slot 2 in turn, and so unconfirmed and confirmed, compressed and not."""
    return ((20 * number, 1 + number % 2, number // 2 % 4, DATAGRAM) for number in range(count // 20))


def clean():
    """Mixed traffic in both slots."""
    return both_slots([record for slots in sample_slots() for record in slots])


def damaged(seed=1):
    """Mixed traffic in which as many bits are wrong as are undone. In data of types 8 and 10, which has no code here, they stay."""
    numbers = random.Random(seed)
    slots = []
    for _ in range(40):
        for sample in sample_slots():
            slots += damaged_slots(numbers, sample)
    return both_slots(slots)


def beyond(seed=2):
    """Mixed traffic in which one bit of twenty is wrong, and one burst of eight is lost."""
    numbers = random.Random(seed)
    slots = []
    for _ in range(40):
        for sample in sample_slots():
            slots += [spoilt(numbers, record) for record in sample]
    return both_slots(slots)


def few():
    """Mixed traffic with nine times as much silence behind each transmission."""
    slots = []
    for sample in sample_slots():
        slots += sample + [SILENCE] * (9 * len(sample))
    return both_slots(slots)


def silence():
    """Nothing is sent."""
    return both_slots([SILENCE, SILENCE])


def turned(record, places):
    octets = bytearray(record)
    for place in places:
        octets[1 + place // 8] ^= 0x80 >> place % 8
    return bytes(octets)


def spoilt(numbers, record):
    if record == SILENCE or numbers.randrange(8) == 0:
        return SILENCE
    return turned(record, [place for place in range(264) if numbers.randrange(20) == 0])


def damaged_slots(numbers, sample):
    """A sample with as many wrong bits as are undone: three in the sync and in the slot type, two in the EMB, one in each row of
    the embedded code, and in the product code one in each column but one, in which all may be wrong."""
    slots, place = [], None
    for record in sample:
        place = place + 1 if place is not None else None
        if record != SILENCE:
            centre = int.from_bytes(record[1:], "big") >> (264 - 156) & (1 << 48) - 1
            if centre == DATA_SYNC:
                wrong = numbers.sample(CENTRE, 3) + numbers.sample(SLOT_TYPE, 3) + product_damage(numbers)
            elif centre == VOICE_SYNC:
                wrong = numbers.sample(CENTRE, 3)
                place = 0
            else:
                wrong = numbers.sample(EMB, 2) + embedded_damage(numbers, place)
            record = turned(record, wrong)
        slots.append(record)
    return slots


def product_damage(numbers):
    """Places of a burst: in each column of the table one cell, and any cells of one column."""
    bad = numbers.randrange(15)
    cells = [(numbers.randrange(13), column) for column in range(15) if column != bad]
    cells += [(row, bad) for row in range(13) if numbers.randrange(2) == 0]
    sent = [181 * (1 + 15 * row + column) % 196 for row, column in cells]
    return [place if place < 98 else place + 68 for place in sent]


def embedded_damage(numbers, place):
    """Places of a burst: one in each of two rows of the table that bursts B to E of a superframe carry, other rows in each."""
    if place is None or place % 6 not in (1, 2, 3, 4):
        return []
    rows = 2 * (place % 6 - 1), 2 * (place % 6 - 1) + 1
    return [EMBEDDED[8 * numbers.randrange(4) + row] for row in rows]
