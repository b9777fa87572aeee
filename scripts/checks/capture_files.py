"""Captures, written from the formats of pcap and pcapng alone, and as other programs write them."""

import shutil
import struct
import subprocess

# What begins each fault of a capture.
FAULTS = (
    "no capture", "cut head at octet", "cut packet at octet", "cut block at octet", "bad block at octet",
    "too many interfaces at octet", "link type", "too long at octet",
)

# The head of a pcap of link type 228, whose numbers stand lowest octet first.
HEAD = bytes.fromhex("D4C3B2A1 0200 0400 00000000 00000000 FFFF0000 E4000000")


def capture_head(link=228, order="<", nanoseconds=False):
    return struct.pack(order + "IHHIIII", 0xA1B23C4D if nanoseconds else 0xA1B2C3D4, 2, 4, 0, 0, 65535, link)


def packet(seconds, fraction, octets, order="<"):
    return struct.pack(order + "IIII", seconds, fraction, len(octets), len(octets)) + octets


def block(kind, body, order="<"):
    body += bytes(-len(body) % 4)
    length = struct.pack(order + "I", 12 + len(body))
    return struct.pack(order + "I", kind) + length + body + length


def as_pcapng(packets, order="<", link=228):
    """Packets at microseconds, each with its octets."""
    section = block(0x0A0D0D0A, struct.pack(order + "IHHq", 0x1A2B3C4D, 1, 0, -1), order)
    interface = block(1, struct.pack(order + "HHI", link, 0, 65535), order)
    blocks = [
        block(6, struct.pack(order + "IIIII", 0, at >> 32, at & 0xFFFFFFFF, len(octets), len(octets)) + octets, order)
        for at, octets in packets
    ]
    return section + interface + b"".join(blocks)


def cut_and_bent(octets):
    """Each front of these octets, and these octets with each one bent, in two ways."""
    yield from (octets[:count] for count in range(len(octets)))
    for place, octet in enumerate(octets):
        yield from (octets[:place] + bytes([octet ^ turned]) + octets[place + 1 :] for turned in (1, 0x80))


def by_others(report, folder, octets):
    """The same capture as other programs write it, each with the name of its kind and its program, where there are any."""
    given = folder / "given"
    given.write_bytes(octets)
    for program, kind, words in (
        ("editcap", "pcap", ["-F", "pcap", given]),
        ("editcap", "nsecpcap", ["-F", "nsecpcap", given]),
        ("editcap", "pcapng", ["-F", "pcapng", given]),
        ("tshark", "pcapng", ["-r", given, "-F", "pcapng", "-w"]),
    ):
        if shutil.which(program):
            made = folder / f"{kind} by {program}"
            ran = subprocess.run([program, *words, made], capture_output=True)
            report.expect(f"{program} writes {kind}", ran.returncode == 0, ran)
            yield made.name, made.read_bytes()
        else:
            report.skip(1, f"no {program} to write a capture")
