"""Small files cut to every length, and with each octet bent."""

from checks import recordings as it
from checks.program import Room

def judged(report, name, uplink, outgoing, fault):
    """A run ends with this fault of this file, or with none."""
    with Room(report, uplink, outgoing) as room:
        ran = room.run()
        if fault:
            report.expect(name, ran.is_error(fault), ran)
        else:
            report.expect(name, ran.status == 0 and ran.err == b"" and ran.out.startswith(b"frames "), ran)


def faulty(file, fault):
    return f"{file}: {fault}" if fault else None


def check(report):
    for size, octets in it.cut(it.ONE_CSBK):
        fault = "cut record" if size < 8 or 8 < size < 42 else "half frame" if size == 42 else None
        judged(report, f"uplink of {size} octets", octets, it.OUTGOING_HEAD, faulty("uplink", fault))
    for size, octets in it.cut(it.ONE_DATAGRAM):
        fault = "cut record" if size < 8 or 8 < size < 45 else None
        judged(report, f"outgoing list of {size} octets", it.UPLINK_HEAD, octets, faulty("outgoing", fault))
    for at, turned, octets in it.bent(it.ONE_CSBK):
        fault = faulty("uplink", it.uplink_fault(octets))
        judged(report, f"uplink with octet {at} turned by {turned:02X}", octets, it.OUTGOING_HEAD, fault)
    for at, turned, octets in it.bent(it.ONE_DATAGRAM):
        fault = faulty("outgoing", it.outgoing_fault(octets))
        judged(report, f"outgoing list with octet {at} turned by {turned:02X}", it.UPLINK_HEAD, octets, fault)
