"""Listings: each file of samples/, as text and as JSON, faults with the place of their records, and what may be left out."""

import json
import os
import subprocess

from checks import recordings as it
from checks.lines import line_of_burst, line_of_record
from checks.program import UNWRITTEN, Room

CALL = """uplink recording, version 1
     0.00       0 1  MS   1  voice header  group call 2 -> 1
     0.06       1 1  MS   -  voice A
     0.12       2 1  -    1  voice B       LCSS 1
     0.18       3 1  -    1  voice C       LCSS 3
     0.24       4 1  -    1  voice D       LCSS 3
     0.30       5 1  -    1  voice E       LCSS 2, group call 2 -> 1
     0.36       6 1  -    1  voice F       LCSS 0
frames 20 seconds 1.20 slot-1 7 slot-2 0 unreadable 0
"""

# What the listing of the downlink of `privacy_header` begins with, and how it ends.
PRIVACY_BEGINS = """downlink recording, version 1
     0.36       6 1  BS*  1  voice header  group call 2 -> 1
     0.39       6 2  BS   1  idle
     0.42       7 1  BS*  1  PI header     00010203040506070809B5EE
     0.45       7 2  BS   1  idle
     0.48       8 1  BS   1  terminator    group call 2 -> 1
"""
PRIVACY_ENDS = """     0.75      12 2  BS   1  idle
frames 14 seconds 0.84 slot-1 7 slot-2 7 unreadable 0
"""

# The kinds of received records, by their numbers.
KINDS = "datagram", "short data", "status"

# Two bursts of the call as JSON.
CALL_BURSTS = {
    0: '{"frame":0,"slot":1,"ms":0,"side":"MS","colour":1,"name":"voice header","lc":{"flco":0,"fid":0,"options":0,"target":1,'
    '"source":2},"wrong":{"sync":0,"slot_type":0,"information":0},"burst":"BURST"}',
    5: '{"frame":5,"slot":1,"ms":300,"side":null,"colour":1,"name":"voice E","lcss":2,"pi":0,"lc":{"flco":0,"fid":0,"options":0,'
    '"target":1,"source":2},"wrong":{"emb":0},"burst":"BURST"}',
}

CSBK = "     0.00       0 1  MS   1  CSBK          opcode 0, fid 0, 0000000000000000"
HEAD = "uplink recording, version 1\n"

SENT = """outgoing list, version 1
     0.30       5 1  unconfirmed, rate 1/2, 28 octets: UDP 12.0.0.1:5016 -> 12.0.0.2:5018, 0 octets of data
records 1
"""
RECEIVED = """received list, version 1
     0.36       6 1  status from 3, 4 octets: port 1 -> 2, status 5
records 1
"""

# Bits that are turned: three of the slot type, three of the sync, and places 0 to 15 of the information.
DAMAGED_BITS = [98, 99, 100, 108, 109, 110, *((181 * place) % 196 for place in range(16))]


def damaged(burst):
    """The burst with wrong bits in slot type, sync and information; information behind bit 97 stands behind bit 165."""
    octets = bytearray(burst)
    for number, bit in enumerate(DAMAGED_BITS):
        at = bit + 68 if number >= 6 and bit > 97 else bit
        octets[at // 8] ^= 0x80 >> at % 8
    return bytes(octets)


def check_listing(report, name, octets, text):
    ran = report.call("show", "-", given=octets)
    report.expect(name, (ran.status, ran.out.decode(), ran.err) == (0, text, b""), ran)


def check_texts(report):
    check_listing(report, "a call", (report.top / "samples/call/uplink.dmru").read_bytes(), CALL)
    check_listing(report, "an outgoing list", it.ONE_DATAGRAM, SENT)
    check_listing(report, "a received list", it.ONE_STATUS, RECEIVED)
    ran = report.call("show", report.top / "samples/privacy_header/downlink.dmrd")
    text = ran.out.decode()
    is_so = ran.status == 0 and text.startswith(PRIVACY_BEGINS) and text.endswith(PRIVACY_ENDS)
    report.expect("a downlink", is_so, ran)
    wrong = it.UPLINK_HEAD + b"\1" + damaged(it.CSBK) + b"\0"
    text = f"{HEAD}{CSBK}  [wrong: sync 3, slot type 3, information 15]\nframes 1 seconds 0.06 slot-1 1 slot-2 0 unreadable 0\n"
    check_listing(report, "wrong bits", wrong, text)


def check_samples(report):
    files = sorted(it for it in (report.top / "samples").rglob("*.dmr?"))
    report.expect("there are samples of each file", len({file.suffix for file in files}) == 4, files)
    for file in files:
        ran = report.call("show", file)
        report.expect(f"show {file.parent.name}/{file.name}", (ran.status, ran.err) == (0, b"") and ran.out, ran)


def uplink_place(octets):
    """Where an uplink file is at fault: the octet of its record, and its slot."""
    at, slots = 8, 0
    while at < len(octets) and octets[at] < 2 and at + (34 if octets[at] else 1) <= len(octets):
        at, slots = at + (34 if octets[at] else 1), slots + 1
    return f"octet {at}, frame {slots // 2}, slot {slots % 2 + 1}"


def check_faults(report):
    with Room(report) as room:
        cut = room.path / "cut.dmru"
        for size in range(len(it.ONE_CSBK) + 1):
            cut.write_bytes(it.ONE_CSBK[:size])
            ran = report.call("show", "cut.dmru", cwd=room.path)
            fault = it.uplink_fault(it.ONE_CSBK[:size])
            lines = "" if size < 8 else HEAD + (CSBK + "\n" if size > 41 else "")
            if fault:
                place = "octet 0" if size < 8 else uplink_place(it.ONE_CSBK[:size])
                wanted = (1, lines, f"error: cut.dmru: {fault} at {place}\n")
                report.expect(f"{size} octets", (ran.status, ran.out.decode(), ran.err.decode()) == wanted, ran)
            else:
                report.expect(f"{size} octets", (ran.status, ran.err) == (0, b"") and ran.out.decode().startswith(lines), ran)
        for at in range(len(it.ONE_DATAGRAM)):
            bent = it.ONE_DATAGRAM[:at] + bytes([it.ONE_DATAGRAM[at] ^ 0xFF]) + it.ONE_DATAGRAM[at + 1 :]
            cut.write_bytes(bent)
            ran = report.call("show", "cut.dmru", cwd=room.path)
            fault = it.outgoing_fault(bent)
            wanted = (1, f"error: cut.dmru: {fault} at octet {0 if at < 8 else 8}\n") if fault else (0, "")
            report.expect(f"octet {at} bent", (ran.status, ran.err.decode()) == wanted, ran)
        cut.write_bytes(it.ONE_CSBK[:42])
        ran = report.call("show", "cut.dmru", cwd=room.path, stderr=subprocess.STDOUT)
        wanted = f"{HEAD}{CSBK}\nerror: cut.dmru: half frame at octet 42, frame 0, slot 2\n"
        report.expect("a fault behind the lines up to it", (ran.status, ran.out.decode()) == (1, wanted), ran)
        ran = report.call("show", "nowhere.dmru", cwd=room.path)
        report.expect("no file", ran.is_error("nowhere.dmru: cannot open"), ran)
        ran = report.call("show", ".", cwd=room.path)
        report.expect("a folder", ran.is_error(".: read failed at octet 0"), ran)
        with open("/dev/full", "wb") as full:
            ran = report.call("show", report.top / "samples/call/uplink.dmru", stdout=full)
            report.expect("standard output is full", (ran.status, ran.err) == (1, UNWRITTEN), ran)
        read, write = os.pipe()
        os.close(read)
        with os.fdopen(write, "wb") as broken:
            ran = report.call("show", report.top / "samples/call/uplink.dmru", stdout=broken)
            report.expect("nobody reads standard output", (ran.status, ran.err) == (1, b""), ran)


def check_names(report):
    """A fault is told in one line, whatever the name: a control character of it, a line feed too, as a question mark."""
    with Room(report) as room:
        for name, told in (("one\ntwo.dmru", "one?two.dmru"), ("\nthree", "?three"), ("four\n\nerror: \n", "four??error: ?")):
            ran = report.call("show", name, cwd=room.path)
            report.expect(f"no file {name!r}", ran.is_error(f"{told}: cannot open"), ran)
            file = room.path / name
            file.write_bytes(b"DMRU")
            ran = report.call("show", name, cwd=room.path)
            report.expect(f"a fault of {name!r}", ran.is_error(f"{told}: cut record at octet 0"), ran)
            file.write_bytes(it.ONE_STATUS)
            ran = report.call("show", name, "--strip", cwd=room.path)
            report.expect(f"no strip of {name!r}", ran.is_error(f"{told}: a list has no strip"), ran)
            ran = report.call("show", name, cwd=room.path)
            report.expect(f"the listing of {name!r}", (ran.status, ran.out.decode(), ran.err) == (0, RECEIVED, b""), ran)


def check_closed_streams(report):
    """A standard stream that is closed is at its end, and can't be printed to."""
    call = report.top / "samples/call/uplink.dmru"
    for closed, words, status, told in (
        (0, ["show", "-"], 1, b"error: -: cut record at octet 0\n"),
        (0, ["show", call], 0, b""),
        (1, ["show", call], 1, UNWRITTEN),
        (1, ["show", call, "--json"], 1, UNWRITTEN),
        (1, ["show", call, "--strip"], 1, UNWRITTEN),
        (2, ["show", "nowhere"], 1, b""),
        (2, ["show", call], 0, b""),
    ):
        ran = report.call(*words, preexec_fn=lambda: os.closerange(closed, closed + 1))
        report.expect(f"{words}, and stream {closed} is closed", (ran.status, ran.err) == (status, told), ran)


def judged(report, name, octets, fault):
    """A listing ends at this fault, or at none."""
    ran = report.call("show", "-", given=octets)
    begins = f"error: -: {fault} at octet " if fault else ""
    is_so = ran.status == (1 if fault else 0) and ran.err.decode().startswith(begins) and bool(ran.err) == bool(fault)
    report.expect(name, is_so, ran)


def check_outputs(report):
    """What a run writes, cut to every length, and with each octet bent."""
    files = ("downlink", it.ONE_FRAME, it.downlink_fault), ("received list", it.ONE_STATUS, it.received_fault)
    for file, whole, fault_of in files:
        for size, octets in it.cut(whole):
            judged(report, f"{file} of {size} octets", octets, fault_of(octets))
        # An octet of its magic bent may be another file's.
        for at, turned, octets in it.bent(whole, 4):
            judged(report, f"{file} with octet {at} turned by {turned:02X}", octets, fault_of(octets))


def check_filters(report):
    file = report.top / "samples/privacy_header/downlink.dmrd"
    whole = report.call("show", file).out.decode().splitlines()
    for words, is_shown in (
        (["--slot", 1], lambda frame, slot: slot == 1),
        (["--from", 8], lambda frame, slot: frame >= 8),
        (["--to", 7, "--slot", 2], lambda frame, slot: frame <= 7 and slot == 2),
        (["--from", 9, "--to", 9], lambda frame, slot: frame == 9),
        (["--from", 1000], lambda frame, slot: False),
    ):
        lines = [line for line in whole[1:-1] if is_shown(*map(int, line.split()[1:3]))]
        ran = report.call("show", file, *words)
        report.expect(f"show {words}", ran.out.decode().splitlines() == [whole[0], *lines, whole[-1]], ran)


def strips_in(ran):
    """The lines of a strip: the first frame, the slot, and the letters."""
    return [(int(line[:7]), int(line[8]), line[11:]) for line in ran.out.decode().splitlines()]


def check_strips(report):
    sample = report.top / "samples/call_with_gap"
    for file, wanted in (
        ("uplink.dmru", "      0 1  H...ABCDEF......\n      0 2  ................\n"),
        ("downlink.dmrd", "      0 1  ......HHHHABCDEFTTTii.\n      0 2  ......iiiiiiiiiiiiiii.\n"),
    ):
        ran = report.call("show", sample / file, "--strip")
        report.expect(f"the strip of {file}", (ran.status, ran.out.decode(), ran.err) == (0, wanted, b""), ran)
    slots = it.UPLINK_HEAD + (b"\0" + b"\1" + it.CSBK) * 101
    for words, wanted in (
        ([], [(at, slot, ".c"[slot - 1] * min(50, 101 - at)) for at in (0, 50, 100) for slot in (1, 2)]),
        (["--slot", 2], [(at, 2, "c" * min(50, 101 - at)) for at in (0, 50, 100)]),
        (["--from", 30, "--to", 80, "--slot", 1], [(30, 1, "." * 50), (80, 1, ".")]),
        (["--from", 99], [(99, 1, ".."), (99, 2, "cc")]),
        (["--from", 101], []),
        (["--from", 8, "--to", 8], [(8, 1, "."), (8, 2, "c")]),
    ):
        ran = report.call("show", "-", "--strip", *words, given=slots)
        is_so = (ran.status, ran.err) == (0, b"") and strips_in(ran) == wanted
        report.expect(f"a strip {words}", is_so, ran)
    ran = report.call("show", "-", "--strip", given=slots[:-34])
    wanted = f"error: -: half frame at octet {len(slots) - 34}, frame 100, slot 2\n"
    report.expect("a strip up to a fault", (ran.status, ran.err.decode()) == (1, wanted), ran)
    report.expect("its lines", [len(letters) for _, _, letters in strips_in(ran)] == [50, 50, 50, 50, 1], ran)
    for name, octets in (("an outgoing list", it.ONE_DATAGRAM), ("a received list", it.ONE_STATUS)):
        ran = report.call("show", "-", "--strip", given=octets)
        report.expect(f"{name} has no strip", ran.is_error("-: a list has no strip"), ran)
    for file in sorted(file for file in (report.top / "samples").rglob("*.dmr[ud]")):
        ran = report.call("show", file, "--strip")
        frames = int(report.call("show", file).out.decode().splitlines()[-1].split()[1])
        lengths = [sum(len(letters) for _, slot, letters in strips_in(ran) if slot == number) for number in (1, 2)]
        is_so = (ran.status, ran.err) == (0, b"") and lengths == [frames, frames]
        report.expect(f"the strip of {file.parent.name}/{file.name}", is_so, ran)
    with open("/dev/full", "wb") as full:
        ran = report.call("show", sample / "uplink.dmru", "--strip", stdout=full)
        report.expect("a strip, and standard output is full", (ran.status, ran.err) == (1, UNWRITTEN), ran)


def records_of(octets):
    """The records of a file with their fields, read by its format: bursts and CACHs by frame and slot, and those of lists."""
    at, slots, found = 8, 0, []
    while at < len(octets):
        tag, head = octets[at], octets[:4]
        if tag == 2:
            frame, slot, mode, size = (int.from_bytes(octets[at + a : at + b], "big") for a, b in ((1, 5), (5, 6), (6, 7), (7, 9)))
            kept = octets[at + 9 : at + 9 + min(size, 1400)]
            sent = {"confirmed": bool(mode & 1), "rate": "1" if mode & 2 else "1/2", "length": size, "octets": kept}
            found.append({"frame": frame, "slot": slot} | sent)
            at += 9 + size
        elif tag == 3:
            frame, slot, kind, source, size = (
                int.from_bytes(octets[at + a : at + b], "big") for a, b in ((1, 5), (5, 6), (6, 7), (7, 10), (10, 12))
            )
            came = {"kind": KINDS[kind], "source": source, "octets": octets[at + 12 : at + 12 + size]}
            found.append({"frame": frame, "slot": slot} | came)
            at += 12 + size
        else:
            cach = 3 if tag and head == b"DMRD" else 0
            if tag:
                cells = {"frame": slots // 2, "slot": slots % 2 + 1, "burst": octets[at + 1 + cach : at + 34 + cach]}
                found.append(cells | ({"cach": octets[at + 1 : at + 4]} if cach else {}))
            at, slots = at + (34 + cach if tag else 1), slots + 1
    return found, slots


def tact_of(cach):
    """AT, TC and LCSS of a CACH: the Hamming word within one bit of its seven, whose checks are those of the standard."""
    bits = [int.from_bytes(cach, "big") >> 23 - place & 1 for place in (0, 4, 8, 12, 14, 18, 22)]
    for number in range(16):
        a, b, c, d = (number >> shift & 1 for shift in (3, 2, 1, 0))
        word = [a, b, c, d, a ^ b ^ c, b ^ c ^ d, a ^ b ^ d]
        if sum(x != y for x, y in zip(word, bits)) < 2:
            return {"at": a, "tc": b, "lcss": 2 * c + d}


def check_json(report):
    for file in sorted(file for file in (report.top / "samples").rglob("*.dmr?")):
        name = f"JSON of {file.parent.name}/{file.name}"
        ran = report.call("show", file, "--json")
        text = ran.out.decode("ascii")
        report.expect(name, (ran.status, ran.err) == (0, b"") and text.endswith("\n"), ran)
        first, *made, last = map(json.loads, text.splitlines())
        lines = report.call("show", file).out.decode().splitlines()[1:-1]
        wanted, slots = records_of(file.read_bytes())
        kind = {".dmru": "uplink", ".dmrd": "downlink", ".dmro": "outgoing", ".dmri": "received"}[file.suffix]
        report.expect(f"{name}: the file", first == {"file": kind, "version": 1}, first)
        ends = {"frames": slots // 2, "records": slots} if kind in ("uplink", "downlink") else {"records": len(wanted)}
        report.expect(f"{name}: the end", last == ends, last)
        report.expect(f"{name}: a line for each", len(made) == len(lines) == len(wanted), (len(made), len(lines), len(wanted)))
        others = []
        for one, line, record in zip(made, lines, wanted):
            fields = dict(record, ms=60 * record["frame"] + 30 * (record["slot"] - 1))
            for key in {"burst", "octets"} & fields.keys():
                fields[key] = fields[key].hex().upper()
            if "cach" in fields:
                fields["cach"] = tact_of(fields["cach"])
            is_so = all(one[key] == value for key, value in fields.items()) and ("burst" in fields or one.keys() == fields.keys())
            if not is_so or line != (line_of_burst(one) if "burst" in fields else line_of_record(one)):
                others.append((one, fields, line))
        report.expect(f"{name}: each record, and what its line says", not others, others[:2])
    call = report.top / "samples/call/uplink.dmru"
    texts = report.call("show", call, "--json").out.decode().splitlines()
    for frame, wanted in CALL_BURSTS.items():
        digits = next(it["burst"].hex().upper() for it in records_of(call.read_bytes())[0] if it["frame"] == frame)
        text = next(text for text in texts if text.startswith(f'{{"frame":{frame},'))
        report.expect(f"the object of frame {frame}", text == wanted.replace("BURST", digits), text)
    report.expect("the first object", texts[0] == '{"file":"uplink","version":1}', texts[0])
    report.expect("the last object", texts[-1] == '{"frames":20,"records":40}', texts[-1])
    ran = report.call("show", "-", "--json", given=call.read_bytes()[:-1])
    report.expect("JSON of a cut file has no end", (ran.status, ran.out.decode().splitlines()) == (1, texts[:-1]), ran)
    report.expect("and its fault is told", ran.err.startswith(b"error: -: half frame at octet "), ran)
    ran = report.call("show", call, "--json", "--slot", 1, "--from", 2, "--to", 5)
    report.expect("JSON of some frames", ran.out.decode().splitlines() == [texts[0], *texts[3:7], texts[-1]], ran)
    long = it.OUTGOING_HEAD + bytes.fromhex("02 00000000 01 00 05DC") + bytes(range(250)) * 6
    ran = report.call("show", "-", "--json", given=long)
    made = json.loads(ran.out.splitlines()[1])
    is_so = (made["length"], made["octets"]) == (1500, long[17:1417].hex().upper())
    report.expect("JSON of a datagram of 1,500 octets", is_so, made)
    ran = report.call("show", call, "--json", "--strip")
    report.expect("a strip in JSON is refused", (ran.status, ran.out) == (2, b"") and b"cannot be used with" in ran.err, ran)


def with_little_memory(report, given, *more, command="show"):
    """Lists what comes through a pipe, in a process that has 64 MiB."""
    words = [command, "-", *map(str, more)]
    command = ["sh", "-c", 'ulimit -v 65536; exec "$@"', "sh", report.started_for(words), *words]
    return subprocess.run(command, input=given, capture_output=True)


def check_most_bursts(report):
    """The recording with most bursts, in a process that has less memory than it has octets."""
    given = it.UPLINK_HEAD + (b"\1" + it.CSBK) * (2 * it.LIMIT)
    ran = with_little_memory(report, given, "--from", it.LIMIT - 1)
    seconds = f"{it.LIMIT * 6 // 100}.{it.LIMIT * 6 % 100:02}"
    last = f"frames {it.LIMIT} seconds {seconds} slot-1 {it.LIMIT} slot-2 {it.LIMIT} unreadable 0"
    lines = ran.stdout.decode().splitlines()
    is_so = ran.returncode == 0 and len(lines) == 4 and lines[-1] == last
    report.expect("the recording with most bursts", is_so, (lines, ran.stderr))


def check_longest(report):
    """The longest recording, with a burst every hundred frames, in a process with little memory."""
    block = b"\1" + it.CSBK + bytes(199)
    given = it.UPLINK_HEAD + block * (it.LIMIT // 100) + bytes(2 * (it.LIMIT % 100))
    ran = with_little_memory(report, given)
    count = it.LIMIT // 100
    last = f"frames {it.LIMIT} seconds {it.LIMIT * 6 // 100}.{it.LIMIT * 6 % 100:02} slot-1 {count} slot-2 0 unreadable 0"
    lines = ran.stdout.decode().splitlines()
    is_so = ran.returncode == 0 and len(lines) == count + 2 and lines[-1] == last
    report.expect("the longest recording", is_so, (ran.returncode, lines[-1:], ran.stderr))
    ran = with_little_memory(report, given, "--strip")
    last = "".join("c" if frame % 100 == 0 else "." for frame in range(it.LIMIT // 50 * 50, it.LIMIT))
    lines = ran.stdout.decode().splitlines()
    is_so = ran.returncode == 0 and len(lines) == 2 * -(-it.LIMIT // 50) and lines[-2][11:] == last
    report.expect("its strip", is_so, (ran.returncode, lines[-2:], ran.stderr))


def check(report):
    check_texts(report)
    check_samples(report)
    check_faults(report)
    check_names(report)
    check_closed_streams(report)
    check_outputs(report)
    check_filters(report)
    check_strips(report)
    check_json(report)
    check_longest(report)
    check_most_bursts(report)
