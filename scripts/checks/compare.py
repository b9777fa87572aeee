"""Comparisons: a file with itself, with a changed copy, with one that begins later, and with what can't be compared."""

import random
import re
import subprocess

from checks import recordings as it
from checks.program import UNWRITTEN, Room

# The octets of a CACH, and of a burst behind it.
CACH, BURST = 3, 33

# The bits of a burst outside its centre, where a voice burst has its vocoder bits.
OUTSIDE = [*range(108), *range(156, 264)]

VOICE_SYNC = 0x755FD7DF75F7
SYNCS = VOICE_SYNC, 0xDFF57D75DF5D, 0x7F7D5DD57DFD, 0xD5D7F77FD757

# The listing of a burst of which one bit of its information is wrong, and differs.
ONE_BIT = """\
     0.36       6 1  A  BS*  1  CSBK          opcode 0, fid 0, 0000000000000000
                     B  BS*  1  CSBK          opcode 0, fid 0, 0000000000000000  [wrong: information 1]  [differ: burst 1]
"""


def counts(same=0, different=0, first=0, second=0):
    records = same + different + first + second
    return f"records {records} same {same} different {different} only-in-A {first} only-in-B {second}\n"


def slots_of(octets, size):
    """The slots of a recording whose bursts have so many octets: each without its tag, and empty where it is silent."""
    slots, at = [], 8
    while at < len(octets):
        end = at + 1 + (size if octets[at] else 0)
        slots.append(octets[at + 1 : end])
        at = end
    return slots


def recording_of(head, slots):
    return head + b"".join(b"\1" + slot if slot else b"\0" for slot in slots)


def distance(first, second):
    return sum((one ^ other).bit_count() for one, other in zip(first, second))


def turned(octets, bits):
    """These octets, with some of their bits turned, of which the first one is bit 0."""
    number = int.from_bytes(octets, "big")
    for bit in bits:
        number ^= 1 << (8 * len(octets) - 1 - bit)
    return number.to_bytes(len(octets), "big")


def is_voice(burst):
    """Whether a burst of a downlink that a run wrote is a voice burst: its centre is the voice sync, or no sync at all."""
    centre = int.from_bytes(burst[13:20], "big") >> 4 & (1 << 48) - 1
    return centre == VOICE_SYNC or centre not in SYNCS


def expect(report, name, ran, status, out):
    report.expect(name, (ran.status, ran.out.decode(), ran.err) == (status, out, b""), ran)


def check_samples(report):
    """Each downlink and uplink of the samples is the same as itself."""
    for file in sorted(report.top.glob("samples/*/*link.dmr[ud]")):
        slots = len(slots_of(file.read_bytes(), BURST if file.suffix == ".dmru" else CACH + BURST))
        expect(report, f"{file.parent.name}, {file.name}, with itself", report.call("compare", file, file), 0, counts(same=slots))
        ran = report.call("compare", file, "-", given=file.read_bytes())
        expect(report, f"{file.parent.name}, {file.name}, with standard input", ran, 0, counts(same=slots))


def check_one_bit(report):
    downlink = report.top / "samples/one_csbk/downlink.dmrd"
    slots = slots_of(downlink.read_bytes(), CACH + BURST)
    slots[12] = slots[12][:CACH] + turned(slots[12][CACH:], [19])
    with Room(report) as room:
        other = room.path / "other.dmrd"
        other.write_bytes(recording_of(it.DOWNLINK_HEAD, slots))
        last = counts(same=13, different=1)
        expect(report, "a burst with one bit turned", report.call("compare", downlink, other), 1, ONE_BIT + last)
        expect(report, "its counts alone", report.call("compare", downlink, other, "--quiet"), 1, last)
        ran = report.call("compare", downlink, other, "--ignore", "cach", "--ignore=vocoder")
        expect(report, "a data burst is compared whole", ran, 1, ONE_BIT + last)


def changed(slots, chance):
    """A copy of the slots of a downlink, of which some are changed; what differs of each place: bits of its CACH and of its burst,
    and of those the bits that aren't vocoder bits; or nothing, where one of the two is silent."""
    changes, copy = {}, list(slots)
    for at, slot in enumerate(slots):
        if not slot or chance.random() < 0.7:
            continue
        cach, burst = slot[:CACH], slot[CACH:]
        how = chance.randrange(4)
        if how == 0:
            copy[at], changes[at] = b"", None
        elif how == 1:
            bits = chance.sample(range(24), chance.randint(1, 24))
            copy[at], changes[at] = turned(cach, bits) + burst, (len(bits), 0, 0)
        elif is_voice(burst):
            bits = chance.sample(OUTSIDE, chance.randint(1, 60))
            copy[at], changes[at] = cach + turned(burst, bits), (0, len(bits), 0)
        else:
            bits, more = chance.sample(range(98), chance.randint(1, 60)), chance.sample(range(24), how - 2)
            copy[at], changes[at] = turned(cach, more) + turned(burst, bits), (len(more), len(bits), len(bits))
    return copy, changes


def told_of(change, ignored):
    """What brackets tell of a place, or None where nothing differs of what isn't ignored."""
    if change is None:
        return ""
    cach = 0 if "cach" in ignored else change[0]
    burst = change[2 if "vocoder" in ignored else 1]
    told = ", ".join(f"{part} {count}" for part, count in (("CACH", cach), ("burst", burst)) if count)
    return f"[differ: {told}]" if told else None


def check_changed(report):
    """Copies of downlinks with changes by chance: two lines for each place that differs, in order, and the counts."""
    chance = random.Random("changed")
    for name in ("call", "mixed_clean", "talker_alias", "call_with_absent_places", "radios_that_answer"):
        file = report.top / "samples" / name / "downlink.dmrd"
        slots = slots_of(file.read_bytes(), CACH + BURST)
        copy, changes = changed(slots, chance)
        with Room(report) as room:
            other = room.path / "other.dmrd"
            other.write_bytes(recording_of(it.DOWNLINK_HEAD, copy))
            for ignored in ((), ("cach",), ("vocoder",), ("cach", "vocoder")):
                told = {at: told_of(change, ignored) for at, change in changes.items()}
                told = {at: text for at, text in told.items() if text is not None}
                ran = report.call("compare", file, other, *(f"--ignore={part}" for part in ignored))
                *lines, last = ran.out.decode().splitlines(keepends=True)
                places = [(int(line[9:17]), int(line[18])) for line in lines[::2]]
                endings = [(re.search(r"  (\[differ: [^]]*\])\n$", line) or [""] * 2)[1] for line in lines[1::2]]
                wanted = [(at // 2, at % 2 + 1) for at in told]
                is_so = ran.status == 1 and ran.err == b"" and places == wanted and endings == list(told.values())
                is_so = is_so and all(line[21:24] == "A  " for line in lines[::2])
                is_so = is_so and all(line[:24] == " " * 21 + "B  " for line in lines[1::2])
                is_counted = last == counts(same=len(slots) - len(told), different=len(told))
                report.expect(f"{name} beside a changed copy, without {ignored}", is_so and is_counted, (ran, told))


def check_shifts(report):
    """A recording beside one that has frames in front of it, or fewer of them."""
    downlink = report.top / "samples/call/downlink.dmrd"
    octets = downlink.read_bytes()
    slots = len(slots_of(octets, CACH + BURST))
    with Room(report) as room:
        later = room.path / "later.dmrd"
        later.write_bytes(octets[:8] + bytes(6) + octets[8:])
        expect(report, "three frames later", report.call("compare", downlink, later, "--shift", 3), 0, counts(same=slots))
        expect(report, "three frames earlier", report.call("compare", later, downlink, "--shift", -3), 0, counts(same=slots))
        ran = report.call("compare", downlink, later, "--quiet")
        told = re.fullmatch(r"records (\d+) same (\d+) different (\d+) only-in-A 0 only-in-B 6\n", ran.out.decode())
        is_so = ran.status == 1 and told and int(told[1]) == slots + 6 and int(told[3]) > 0
        report.expect("three frames later, with no shift", is_so, ran)
        longer = room.path / "longer.dmrd"
        longer.write_bytes(octets + bytes(4))
        expect(report, "a longer one", report.call("compare", downlink, longer), 1, counts(same=slots, second=4))
        expect(report, "a shorter one", report.call("compare", longer, downlink), 1, counts(same=slots, first=4))
        ran = report.call("compare", downlink, longer, "--shift", it.LIMIT)
        expect(report, "a shift past the end", ran, 1, counts(first=slots))


def records_of(octets, head):
    """The records of a list, whose octets stand behind so many of its head, and end it."""
    records, at = [], 8
    while at < len(octets):
        end = at + head + int.from_bytes(octets[at + head - 2 : at + head], "big")
        records.append(octets[at:end])
        at = end
    return records


def check_lists(report):
    """The lists of the samples, with themselves and with a changed copy: fields, octets, and a record less."""
    for file in sorted(report.top.glob("samples/*/*.dmr[oi]")):
        head = 9 if file.suffix == ".dmro" else 12
        octets = file.read_bytes()
        records = records_of(octets, head)
        ran = report.call("compare", file, file)
        expect(report, f"{file.parent.name}, {file.name}, with itself", ran, 0, counts(same=len(records)))
        ran = report.call("compare", file, "-", "--shift", 0, given=octets)
        report.expect(f"{file.parent.name}, {file.name}, has no shift", ran.is_error(f"{file}: a list has no shift", 2), ran)
        if not records:
            continue
        ran = report.call("compare", file, "-", given=octets[:8] + b"".join(records[:-1]))
        expect(report, f"{file.parent.name}, {file.name}, a record less", ran, 1, counts(same=len(records) - 1, first=1))
        first = records[0]
        if len(first) == head:
            continue
        listed = report.call("show", file).out.decode().splitlines()[1]
        for name, other, ending in (
            ("another octet", first[:-1] + bytes([first[-1] ^ 1]), "1 octets"),
            ("fewer octets", first[: head - 2] + (len(first) - head - 1).to_bytes(2, "big") + first[head:-1], "1 octets"),
            ("another slot", first[:5] + bytes([3 - first[5]]) + first[6:], None),
        ):
            ran = report.call("compare", file, "-", given=octets[:8] + other + b"".join(records[1:]))
            if name == "another slot" and ran.status == 2:
                # Records of one frame stand by their slots, so this may be a fault of the copy.
                continue
            *lines, last = ran.out.decode().splitlines(keepends=True)
            is_so = len(lines) == 2 and lines[0] == f"A  {listed}\n" and lines[1].startswith("B  ")
            told = f"  [differ: {ending}]\n" if ending else "\n"
            is_so = is_so and ("[differ" in lines[1]) == bool(ending) and lines[1].endswith(told)
            is_counted = (ran.status, last, ran.err) == (1, counts(same=len(records) - 1, different=1), b"")
            report.expect(f"{file.parent.name}, {file.name}, {name}", is_so and is_counted, ran)


def check_refused(report):
    uplink, downlink = (report.top / "samples/call" / name for name in ("uplink.dmru", "downlink.dmrd"))
    with Room(report) as room:
        cut = room.path / "cut.dmrd"
        cut.write_bytes(downlink.read_bytes()[:-1])
        frames = len(slots_of(downlink.read_bytes(), CACH + BURST)) // 2
        begun = len(downlink.read_bytes()) - 1
        fault = f"{cut}: half frame at octet {begun}, frame {frames - 1}, slot 2"
        for name, words, text in (
            ("two kinds", (uplink, downlink), f"{downlink}: another kind of file than {uplink}"),
            ("no first file", ("nowhere", downlink), "nowhere: cannot open"),
            ("no second file", (downlink, "nowhere"), "nowhere: cannot open"),
            ("standard input twice", ("-", "-"), "A and B can't both be standard input"),
            ("a first file at fault", (cut, downlink), fault),
            ("a second file at fault", (downlink, cut), fault),
        ):
            report.expect(name, (ran := report.call("compare", *words)).is_error(text, 2), ran)
        for words in (["--shift", it.LIMIT + 1], ["--shift", "x"], ["--ignore", "burst"], ["--quiet", 1]):
            ran = report.call("compare", downlink, downlink, *words)
            report.expect(f"{words}", ran.status == 2 and ran.out == b"" and ran.err, ran)
        with open("/dev/full", "wb") as full:
            ran = report.call("compare", downlink, downlink, stdout=full)
            report.expect("standard output is full", (ran.status, ran.err) == (2, UNWRITTEN), ran)


def check_longest(report):
    """Two of the longest recordings, in a process with little memory."""
    octets = it.UPLINK_HEAD + (b"\1" + it.CSBK + b"\0") * it.LIMIT
    with Room(report, octets) as room:
        words = ["compare", "-", str(room.uplink)]
        command = ["sh", "-c", 'ulimit -v 65536; exec "$@"', "sh", report.started_for(words), *words]
        ran = subprocess.run(command, input=octets, capture_output=True)
        is_so = (ran.returncode, ran.stdout.decode(), ran.stderr) == (0, counts(same=2 * it.LIMIT), b"")
        report.expect("two of the longest recordings", is_so, (ran.returncode, ran.stdout[-200:], ran.stderr))


def check(report):
    check_samples(report)
    check_one_bit(report)
    check_changed(report)
    check_shifts(report)
    check_lists(report)
    check_refused(report)
    check_longest(report)
