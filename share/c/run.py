"""A run from file to file, frame by frame, over dmrgate.py: it writes the same files as `dmrgate run`, and prints the same line.

    run.py LIBRARY UPLINK OUTGOING DOWNLINK RECEIVED [LLID [COLOUR CALL_HANG CHANNEL_HANG QUEUE]]
"""

import sys

from dmrgate import Station


def frames_of(octets):
    """The frames of a recording: None or a burst in each slot."""
    at, slots = 8, []
    while at < len(octets):
        size = 34 if octets[at] else 1
        slots.append(octets[at + 1:at + 34] if size > 1 else None)
        at += size
    return list(zip(slots[::2], slots[1::2]))


def datagrams_of(octets):
    """The records of an outgoing list: frame, slot, mode and octets."""
    at = 8
    while at < len(octets):
        length = int.from_bytes(octets[at + 7:at + 9], "big")
        yield int.from_bytes(octets[at + 1:at + 5], "big"), octets[at + 5], octets[at + 6], octets[at + 9:at + 9 + length]
        at += 9 + length


def run(station, frames, datagrams, downlink, received):
    """Exchanges all frames, with what is due and what is received in each. Answers how many datagrams weren't due."""
    due = list(datagrams)
    for number, frame in enumerate(frames):
        while due and due[0][0] <= number:
            _, slot, mode, octets = due.pop(0)
            station.offer(slot, octets, bool(mode & 1), bool(mode & 2))
        for sent in station.exchange(*frame):
            downlink.write(b"\1" + sent[0] + sent[1] if sent else b"\0")
        for slot, kind, source, octets in station.received():
            fields = number.to_bytes(4, "big") + bytes([slot, kind]) + source.to_bytes(3, "big") + len(octets).to_bytes(2, "big")
            received.write(b"\3" + fields + octets)
    return len(due)


def main(library, uplink, outgoing, downlink, received, *settings):
    with open(uplink, "rb") as it:
        frames = [(None, None), *frames_of(it.read()), *[(None, None)] * 5]
    with open(outgoing, "rb") as it:
        datagrams = datagrams_of(it.read())
    with Station(library, *map(int, settings)) as station, open(downlink, "wb") as down, open(received, "wb") as took:
        down.write(b"DMRD\1\0\0\0")
        took.write(b"DMRI\1\0\0\0")
        unoffered = run(station, frames, datagrams, down, took)
        it = station.counts()
    print(f"frames {it.frames} repeated {it.repeated} received {it.received} delivered {it.delivered} "
          f"sent {it.sent} given-up {it.given_up} refused {it.refused} unoffered {unoffered}")


if __name__ == "__main__":
    main(*sys.argv[1:])
