"""The log: of each sample beside what a reader of its downlink finds there, which another program has written; recordings that are
encoded here, in each form; faults; pipes; little memory; its page."""

import csv
import io
import itertools
import json
import re

from checks import recordings as it
from checks import page, talks
from checks.bursts import TERMINATOR as TERMINATOR_MASK
from checks.bursts import VOICE_HEADER as VOICE_HEADER_MASK
from checks.bursts import data_burst, embedded_fields, voice_burst, voice_sync_burst
from checks.contents import data_header, link_control
from checks.pipes import OF_UPLINK, QUIET, Live, in_frames
from checks.program import Room
from checks.show import damaged, with_little_memory

# Behind `talks`, which tells where this is.
from dmr import SYNC, DataBurst, bits_of_octets, number_of

# The downlink is so many frames behind the uplink.
DELAY = 6
BASE_STATION_DATA, BASE_STATION_VOICE = 0xDFF57D75DF5D, 0x755FD7DF75F7

PI_HEADER, VOICE_HEADER, TERMINATOR, CONTROL_BLOCK, DATA_HEADER = 0, 1, 2, 3, 6
BLOCKS = (7, 8, 10)
ACTIVATION, PREAMBLE = 56, 61

# What a frame of a call repeats, in the order in which a call has it.
HEADER, PLACE, END = range(3)

# Of some samples the first line of the log and the last.
LINES = {
    "call": (
        "     0.00     0.42       0 1  group call 2 -> 1, 6 places, lost",
        "frames 20 seconds 1.20 calls 1 packets 0 controls 0 repeated 7",
    ),
    "late_entry": (
        "     0.18     0.78       3 1  group call 2 -> 1, late, 12 places, terminator",
        "frames 16 seconds 0.96 calls 1 packets 0 controls 0 repeated 13",
    ),
    "privacy_header": (
        "     0.00     0.12       0 1  group call 2 -> 1, no voice, lost",
        "frames 8 seconds 0.48 calls 1 packets 0 controls 0 repeated 2",
    ),
    "call_with_absent_places": (
        "     0.00     0.78       0 1  group call 2 -> 1, 12 places, 5 filled, lost",
        "frames 25 seconds 1.50 calls 1 packets 0 controls 0 repeated 13",
    ),
}

# A call of radio 2 to talk group 1, and one of radio 3 with the emergency bit.
CALL_OF_2, CALL_OF_3 = "000000000001000002", "000080000001000003"

# The log of the scene below, and of it beside a gateway with the address 1.
SCENE_LINES = """\
     0.75     0.06      12 2  status 4 -> 1, port 1 -> 2, status 5
     0.00     0.96       0 1  group call 2 -> 1, 12 places, 2 filled, terminator
     1.32     0.36      22 1  group call 3 -> 1, emergency, late, 6 places, lost
frames 40 seconds 2.40 calls 2 packets 1 controls 0 repeated 23
"""
HEAD = "start,seconds,frame,slot,kind,from,to,group,options,late,bursts,places,filled,blocks,missing,wrong,checked,end,details\n"
SCENE_ROWS = [
    '0.75,0.06,12,2,status,4,1,0,,,1,,,0,0,0,263,,"port 1 -> 2, status 5"\n',
    "0.00,0.96,0,1,group call,2,1,1,0,0,16,12,2,,,0,750,terminator,\n",
    "1.32,0.36,22,1,group call,3,1,1,128,1,6,6,0,,,0,128,lost,\n",
]
RECEIVED_ROW = '0.75,0.06,12,2,received status,4,1,0,,,,,,,,,,,"4 octets: port 1 -> 2, status 5"\n'
LATE_ROW_AT_A_TIME = "2026-02-01T00:00:00.320Z,0.36,22,1,group call,3,1,1,128,1,6,6,0,,,0,128,lost,"
SCENE_OBJECT = (
    '{"start":0.75,"seconds":0.06,"frame":12,"slot":2,"kind":"status","from":4,"to":1,"group":false,"options":null,"late":null,'
    '"bursts":1,"places":null,"filled":null,"blocks":0,"missing":0,"wrong":0,"checked":263,"end":null,'
    '"details":"port 1 -> 2, status 5"}'
)
SCENE_END = '{"frames":40,"calls":2,"packets":1,"controls":0,"repeated":23,"received":1}'

# What is told of two late calls, the first of which has no burst that tells whose it is.
LATE_LINES = """\
     0.12     0.36       2 1  call, late, 6 places, 1 filled, lost
     0.96     0.42      16 1  group call 2 -> 1, late, 6 places, 1 filled, terminator
frames 23 seconds 1.38 calls 2 packets 0 controls 0 repeated 13
"""

# The whole log of a sample.
TRIES = """\
     0.00     3.90       0 1  confirmed data 2 -> 1, SAP 4, N(S) 0, 62 of 64 blocks
     4.80     0.18      80 1  partial try 2 -> 1, SAP 4, N(S) 0, 2 of 2 blocks
     5.40     0.18      90 1  partial try 2 -> 1, SAP 4, N(S) 0, 2 of 2 blocks
frames 100 seconds 6.00 calls 0 packets 3 controls 0 repeated 69
"""


class Frame:
    """What a frame of the downlink repeats: its part of a call, its data type and its octets, as far as it has them."""

    def __init__(self, burst):
        self.part = self.data_type = self.octets = None
        read = DataBurst.read(burst) if number_of(bits_of_octets(burst)[SYNC]) == BASE_STATION_DATA else None
        if read is None:
            self.part = PLACE
            return
        self.data_type, self.octets = read.data_type, read.octets
        self.part = {VOICE_HEADER: HEADER, TERMINATOR: END}.get(self.data_type)

    @property
    def way(self):
        """Whether a data header goes to a group, and to whom from whom."""
        return self.octets[0] >> 7, self.octets[2:5], self.octets[5:8]

    @property
    def blocks(self):
        """How many blocks a data header counts, by its format."""
        kind, access_point = self.octets[0] & 0xF, self.octets[1] >> 4
        if kind == 13 and access_point == 10:
            return (self.octets[0] >> 4 & 3) << 4 | self.octets[1] & 0xF
        return self.octets[8] & 0x7F if kind in (1, 2, 3) else 0

    @property
    def control(self):
        """What control blocks in a row have in common."""
        if self.data_type != CONTROL_BLOCK:
            return self.data_type
        opcode, feature_set = self.octets[0] & 0x3F, self.octets[1]
        if feature_set == 0 and opcode in (ACTIVATION, PREAMBLE):
            return opcode, self.octets[2] >> 6 & 1 if opcode == PREAMBLE else 0, self.octets[4:7], self.octets[7:10]
        return opcode, feature_set

    def is_announced_by(self, preamble):
        return preamble.control == (PREAMBLE, *self.way)


def repeated_in(downlink):
    """What each slot repeats, frame by frame of the uplink: a frame, or None."""
    records = list(talks.slots_of(downlink, talks.OF_DOWNLINK))
    for slot in (0, 1):
        slots = records[slot::2][DELAY:]
        yield slot + 1, [Frame(it[3:]) if it and it[0] >> 7 else None for it in slots]


def end_of_call(frames, first):
    """Behind the last frame of the call that begins here."""
    at, part, ending = first, HEADER, None
    while at < len(frames) and frames[at]:
        it = frames[at]
        is_pi = it.data_type == PI_HEADER and part == HEADER and at > first
        now = HEADER if is_pi else it.part
        if now is None or now < part or (part == now == END and ending not in (None, it.octets[:9])):
            break
        ending = it.octets[:9] if now == END else ending
        at, part = at + 1, now
    return at


def end_of_packet(frames, header):
    """Behind the last frame of the packet with this header."""
    behind = frames[header + 1 : header + 1 + frames[header].blocks]
    return header + 1 + len(list(itertools.takewhile(lambda it: it is None or it.data_type in BLOCKS, behind)))


def end_of_controls(frames, first):
    at = first
    while at < len(frames) and is_control(frames[at]) and frames[at].control == frames[first].control:
        at += 1
    return at


def is_control(frame):
    return frame is not None and frame.part is None and frame.data_type != DATA_HEADER


def row_of_call(frames, first, end):
    its = frames[first:end]
    places = sum(it.part == PLACE for it in its)
    followed = "end" if end == len(frames) else "cut" if frames[end] else "lost"
    how = "terminator" if its[-1].part == END else followed
    return {"late": str(int(its[0].part == PLACE)), "places": str(places), "blocks": "", "end": how}


def row_of_packet(frames, header, end):
    there = sum(it is not None for it in frames[header + 1 : end])
    missing = frames[header].blocks - there
    return {"late": "", "places": "", "blocks": str(there), "missing": str(missing), "end": ""}


def rows_of(frames, slot):
    """What the log is to have of a slot, transmission by transmission."""
    at = 0
    while at < len(frames):
        first = at
        if frames[at] is None:
            at += 1
            continue
        if frames[at].part is not None:
            at = end_of_call(frames, first)
            row = row_of_call(frames, first, at)
        else:
            header = end_of_controls(frames, first) if is_control(frames[first]) else first
            is_header = header < len(frames) and frames[header] and frames[header].data_type == DATA_HEADER
            if is_header and (header == first or frames[header].is_announced_by(frames[first])):
                at = end_of_packet(frames, header)
                row = row_of_packet(frames, header, at)
            else:
                at, row = header, {"late": "", "places": "", "blocks": "", "end": ""}
        bursts = sum(it is not None for it in frames[first:at])
        seconds = f"{(at - first) * 6 // 100}.{(at - first) * 6 % 100:02}"
        yield {"frame": str(first), "slot": str(slot), "seconds": seconds, "bursts": str(bursts), **row}


def counts_of(line):
    return {name: int(count) for name, count in re.findall(r"(\S+) (\d+)", line.decode())}


def check_beside_downlink(report, folder):
    """The rows of a log beside what the downlink repeats, and its counts beside those of the run."""
    frames = dict(repeated_in((folder / "downlink.dmrd").read_bytes()))
    wanted = [row for slot in (1, 2) for row in rows_of(frames[slot], slot)]
    ran = report.call("log", folder / "uplink.dmru", "--csv")
    rows = list(csv.DictReader(io.StringIO(ran.out.decode())))
    told = {(it["slot"], it["frame"]): it for it in rows}
    report.expect(f"log of {folder.name}: as many rows", len(rows) == len(wanted), (len(rows), len(wanted), ran))
    for row in wanted:
        had = told.get((row["slot"], row["frame"]), {})
        differ = {name: (value, had.get(name)) for name, value in row.items() if had.get(name) != value}
        report.expect(f"log of {folder.name}: slot {row['slot']}, frame {row['frame']}", not differ, differ)
    run = counts_of((folder / "summary.txt").read_bytes())
    ran = report.call("log", folder / "uplink.dmru", "--llid", "1")
    counts = counts_of(ran.out.splitlines()[-1]) if ran.out else {}
    names = {"repeated": "repeated", "received": "received"}
    report.expect(f"log of {folder.name}: counts", all(counts.get(it) == run[it] for it in names), (counts, run))


def check_lines(report):
    for name, (first, last) in LINES.items():
        ran = report.call("log", report.top / "samples" / name / "uplink.dmru")
        lines = ran.out.decode().splitlines()
        is_so = ran.status == 0 and lines[:1] == [first] and lines[-1:] == [last] and ran.err == b""
        report.expect(f"log of {name}: first and last line", is_so, ran)
    tries = report.top / "samples/confirmed_packet_received/uplink.dmru"
    ran = report.call("log", tries)
    report.expect("log of tries", (ran.status, ran.out.decode(), ran.err) == (0, TRIES, b""), ran)
    received = report.call("log", tries, "--llid", "1").out.decode().splitlines()
    begin = "     4.92     0.06      82 1  received datagram from 2, 636 octets: 00070E15"
    report.expect("log of a record", len(received) == 5 and received[2].startswith(begin), received)
    report.expect("log counts records", received[-1].endswith(" repeated 69 received 1"), received)


def superframe(call):
    """The six bursts of a superframe, by their letters. Those from B to E carry the link control of the call in turn."""
    parts = [voice_burst(lcss, embedded=field) for lcss, field in zip((1, 3, 3, 2), embedded_fields(bytes.fromhex(call)))]
    return dict(zip("ABCDEF", [voice_sync_burst(), *parts, voice_burst(0)]))


def slots_of_call(call, shape):
    """The slots of a call, a letter each, as a strip shows them: a header, voice bursts, a terminator, or silence."""
    ends = {
        "H": data_burst(VOICE_HEADER, link_control(call, VOICE_HEADER_MASK)),
        "T": data_burst(TERMINATOR, link_control(call, TERMINATOR_MASK)),
        ".": None,
    }
    sent = {**superframe(call), **ends}
    return [sent[letter] for letter in shape]


def recording(first, second=(), frames=0):
    """An uplink with these slots, and so many frames if these are more."""
    octets = it.UPLINK_HEAD
    for slots in itertools.islice(itertools.zip_longest(first, second, [None] * frames), max(len(first), len(second), frames)):
        octets += b"".join(b"\0" if slot is None else b"\1" + slot for slot in slots[:2])
    return octets


def scene():
    """Radio 2 calls talk group 1 and is lost for a moment, and radio 3 comes in late; radio 4 sends a status to the gateway."""
    first = slots_of_call(CALL_OF_2, "H..ABCDEFA..DEFT....") + slots_of_call(CALL_OF_3, "EFABCDEF")
    status = data_burst(DATA_HEADER, data_header("0EA00000010000042805"))
    return recording(first, [None] * 12 + [status], 40)


def late_calls():
    """Two late calls, each with an absent place. The first has no burst that tells whose it is, the second a terminator."""
    return recording(slots_of_call(CALL_OF_2, "EFA.CDEF......EFA.CDEFT"))


def expect_log(report, name, given, words, wanted):
    ran = report.call("log", "-", *words, given=given)
    report.expect(f"log of {name} {words}", (ran.status, ran.out.decode(), ran.err) == (0, wanted, b""), (wanted, ran))


def check_scene(report):
    """Each form of a log, beside a gateway, at a time of day, and some of its lines."""
    given = scene()
    status, call, late, last = SCENE_LINES.splitlines(keepends=True)
    expect_log(report, "the scene", given, [], SCENE_LINES)
    expect_log(report, "the scene", given, ["--csv"], HEAD + "".join(SCENE_ROWS))
    rows = [SCENE_ROWS[0], RECEIVED_ROW, *SCENE_ROWS[1:]]
    expect_log(report, "the scene", given, ["--csv", "--llid", 1], HEAD + "".join(rows))
    ran = report.call("log", "-", "--csv", "--start", "2026-01-31T23:59:59Z", given=given)
    report.expect("log at a time of day: the last row", ran.out.decode().splitlines()[-1:] == [LATE_ROW_AT_A_TIME], ran)
    ran = report.call("log", "-", "--json", "--llid", 1, given=given)
    objects = ran.out.decode().splitlines()
    report.expect("log in JSON: first and last object", [objects[0], objects[-1]] == [SCENE_OBJECT, SCENE_END], ran)
    made = [json.loads(text) for text in objects[:-1]]
    report.expect("log in JSON: each object has a key for each column", all([*it] == HEAD.strip().split(",") for it in made), made)
    report.expect("log in JSON: details, or none", [it["details"] is None for it in made] == [False, False, True, True], made)
    expect_log(report, "the scene", given, ["--slot", 1, "--to", 10], call + last)
    expect_log(report, "the scene", given, ["--from", 1], status + late + last)
    expect_log(report, "the scene", given, ["--from", 12, "--to", 12, "--csv"], HEAD + SCENE_ROWS[0])
    ran = report.call("log", "-", "--from", 9, "--to", 3, given=given)
    report.expect("log from behind its end", ran.is_error("--from is beyond --to", 2), ran)


def check_wrong_bits(report):
    """Wrong bits are counted, of as many as are covered."""
    given = it.UPLINK_HEAD + b"\1" + damaged(it.CSBK) + b"\0"
    line = "     0.00     0.06       0 1  CSBK opcode 0, fid 0  [wrong: 21 of 263 bits]\n"
    expect_log(report, "wrong bits", given, [], line + "frames 1 seconds 0.06 calls 0 packets 0 controls 1 repeated 1\n")
    expect_log(report, "wrong bits", given, ["--csv"], HEAD + '0.00,0.06,0,1,CSBK,,,,,,1,,,,,21,263,,"opcode 0, fid 0"\n')


def check_few(report):
    """A terminator by itself, which is a call without voice, a packet with one block, and a call of one place."""
    block = data_burst(BLOCKS[0], link_control("00" * 9, 0))
    first = slots_of_call(CALL_OF_2, "T......") + [data_burst(DATA_HEADER, data_header("02400000010000028100")), block]
    ran = report.call("log", "-", given=recording(first + slots_of_call(CALL_OF_2, "......HA")))
    told = [line[30:] for line in ran.out.decode().splitlines()]
    wanted = [
        "group call 2 -> 1, no voice, terminator",
        "unconfirmed data 2 -> 1, SAP 4, 1 of 1 block",
        "group call 2 -> 1, 1 place, end",
    ]
    report.expect("log of few", (ran.status, told[:-1]) == (0, wanted), ran)


def check_live(report):
    """The log of a pipe has the line of a call as soon as the frame behind it is decided, while more of the pipe may come."""
    octets = (report.top / "samples/call/uplink.dmru").read_bytes()
    lines = report.call("log", "-", given=octets).out.splitlines(keepends=True)
    head, *frames = in_frames(octets, OF_UPLINK)
    # The call has frames 0 to 6. That nothing is repeated in frame 7 is decided with frame 12.
    told = 13
    with Live(report, ["log", "-"]) as run:
        run.put("uplink", b"".join([head, *frames[: told - 1]]))
        report.expect("a log of a pipe: nothing in front of the end of the call", run.out.has(b"", QUIET), run.out)
        run.put("uplink", frames[told - 1])
        report.expect("a log of a pipe: the line of the call", run.out.has(lines[0], QUIET), run.out)
        run.put("uplink", b"".join(frames[told:]))
        ran = run.at_end()
        report.expect("a log of a pipe: all lines", (ran.status, ran.out, ran.err) == (0, b"".join(lines), b""), ran)


def check_longest(report):
    """The recording with most bursts, in a process that has less memory than it has octets."""
    given = it.UPLINK_HEAD + (b"\1" + it.CSBK) * (2 * it.LIMIT)
    ran = with_little_memory(report, given, command="log")
    seconds = f"{it.LIMIT * 6 // 100}.{it.LIMIT * 6 % 100:02}"
    lines = ran.stdout.decode().splitlines()
    told = f"CSBK opcode 0, fid 0, {it.LIMIT} bursts"
    wanted = [f"     0.00 {seconds:>8}       0 1  {told}", f"     0.03 {seconds:>8}       0 2  {told}"]
    wanted.append(f"frames {it.LIMIT} seconds {seconds} calls 0 packets 0 controls 2 repeated {2 * it.LIMIT}")
    report.expect("the log of the recording with most bursts", (ran.returncode, lines) == (0, wanted), (lines, ran.stderr))


def check_cut(report):
    """A recording that ends in a call, and one with half a frame more."""
    octets = (report.top / "samples/call/uplink.dmru").read_bytes()
    line = b"     0.00     0.18       0 1  group call 2 -> 1, 2 places, end\n"
    with Room(report, octets[:113]) as room:
        ran = report.call("log", room.uplink)
        last = b"frames 3 seconds 0.18 calls 1 packets 0 controls 0 repeated 3\n"
        report.expect("log of a recording that ends in a call", (ran.status, ran.out, ran.err) == (0, line + last, b""), ran)
    with Room(report, octets[:113] + b"\0") as room:
        ran = report.call("log", room.uplink)
        told = f"error: {room.uplink}: half frame at octet 114, frame 3, slot 2\n".encode()
        report.expect("log of half a frame", (ran.status, ran.out, ran.err) == (1, line, told), ran)


def check(report):
    check_lines(report)
    check_cut(report)
    check_scene(report)
    expect_log(report, "late calls", late_calls(), [], LATE_LINES)
    check_wrong_bits(report)
    check_few(report)
    check_live(report)
    check_longest(report)
    for folder in sorted(it for it in (report.top / "samples").iterdir() if it.is_dir()):
        check_beside_downlink(report, folder)
    page.check(report)
