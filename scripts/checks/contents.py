"""What listings and their JSON say of each kind of burst and record, over bursts that are encoded here."""

import json
import random

from checks import recordings as it
from checks.bursts import CONTROL_BLOCK, DATA_HEADER, TERMINATOR, VOICE_HEADER
from checks.bursts import bits_of, data_burst, embedded_fields, information_of, number_of, sealed, untyped_data_burst
from checks.bursts import unreadable_burst, voice_burst, voice_sync_burst, with_parity
from checks.lines import counted, line_of_burst

NO_WRONG_BITS = '"wrong":{"sync":0,"slot_type":0,"information":0}'
AS_RECEIVED = '"wrong":{"sync":0,"slot_type":0,"information":null}'

TWELVE = bytes(range(0xA0, 0xAC))
TWELVE_DIGITS = "A0A1A2A3A4A5A6A7A8A9AAAB"


def control_block(digits):
    return information_of(sealed(bytes.fromhex(digits), CONTROL_BLOCK))


def data_header(digits):
    return information_of(sealed(bytes.fromhex(digits), DATA_HEADER))


def link_control(digits, mask):
    return information_of(with_parity(bytes.fromhex(digits), mask))


def beyond_reach():
    """Information of which every third bit is wrong."""
    return [bit ^ (place % 3 == 0) for place, bit in enumerate(information_of(TWELVE))]


# Service options, each alone, and with the reserved ones set, and what is told of them.
OPTIONS = {
    0x80: ["emergency"], 0x40: ["privacy"], 0x08: ["broadcast"], 0x04: ["OVCM"], 0x01: ["priority 1"], 0x02: ["priority 2"],
    0x03: ["priority 3"], 0x30: [], 0x20: [], 0x10: [], 0xB1: ["emergency", "priority 1"],
    0x7E: ["privacy", "broadcast", "OVCM", "priority 2"],
}


def call_with(options, told):
    """A voice header of a call with these options, whose addresses have three different octets each."""
    return (1, link_control(f"0000{options:02X}123456ABCDEF", VOICE_HEADER), "voice header",
            ", ".join(["group call 11259375 -> 1193046", *told]),
            f'"lc":{{"flco":0,"fid":0,"options":{options},"target":1193046,"source":11259375}}')


def other_format(digits):
    """A data header of a format that isn't read, or has what its format may not have."""
    octets = sealed(bytes.fromhex(digits), DATA_HEADER)
    number = octets[0] % 16
    return (6, information_of(octets), "data header", f"format {number}",
            f'"header":{{"format":{number},"octets":"{octets.hex().upper()}"}}')


# The data type of a burst, its information, its name, its details, and its keys in JSON.
DATA_BURSTS = [
    *(call_with(options, told) for options, told in OPTIONS.items()),
    (1, link_control("0300CF000001000002", VOICE_HEADER), "voice header",
     "unit call 2 -> 1, emergency, privacy, broadcast, OVCM, priority 3",
     '"lc":{"flco":3,"fid":0,"options":207,"target":1,"source":2}'),
    (1, link_control("000040000009FFFFFF", VOICE_HEADER), "voice header", "group call 16777215 -> 9, privacy",
     '"lc":{"flco":0,"fid":0,"options":64,"target":9,"source":16777215}'),
    (2, link_control("040041424344454647", TERMINATOR), "terminator", "talker alias header, 41424344454647",
     '"lc":{"flco":4,"fid":0,"octets":"41424344454647"}'),
    (2, link_control("050041424344454647", TERMINATOR), "terminator", "talker alias block 1, 41424344454647",
     '"lc":{"flco":5,"fid":0,"octets":"41424344454647"}'),
    (2, link_control("060041424344454647", TERMINATOR), "terminator", "talker alias block 2, 41424344454647",
     '"lc":{"flco":6,"fid":0,"octets":"41424344454647"}'),
    (2, link_control("070041424344454647", TERMINATOR), "terminator", "talker alias block 3, 41424344454647",
     '"lc":{"flco":7,"fid":0,"octets":"41424344454647"}'),
    (2, link_control("080001020304050607", TERMINATOR), "terminator", "GPS info, 01020304050607",
     '"lc":{"flco":8,"fid":0,"octets":"01020304050607"}'),
    (2, link_control("141001020304050607", TERMINATOR), "terminator", "LC opcode 20, 01020304050607",
     '"lc":{"flco":20,"fid":16,"octets":"01020304050607"}'),
    (2, information_of(TWELVE), "terminator", f"wrong check {TWELVE_DIGITS}", f'"unsealed":"{TWELVE_DIGITS}"'),
    (3, control_block("BD008004000001000002"), "CSBK", "preamble, data to follow 4, 2 -> 1",
     '"csbk":{"opcode":61,"fid":0,"octets":"8004000001000002",'
     '"preamble":{"data":1,"group":0,"left":4,"target":1,"source":2}}'),
    (3, control_block("BD004003000009000002"), "CSBK", "preamble, CSBKs to follow 3, 2 -> group 9",
     '"csbk":{"opcode":61,"fid":0,"octets":"4003000009000002",'
     '"preamble":{"data":0,"group":1,"left":3,"target":9,"source":2}}'),
    (3, control_block("B8000000000007000002"), "CSBK", "BS activation by 2 of 7",
     '"csbk":{"opcode":56,"fid":0,"octets":"0000000007000002","activation":{"bs":7,"source":2}}'),
    (3, control_block("BD108004000001000002"), "CSBK", "opcode 61, fid 16, 8004000001000002",
     '"csbk":{"opcode":61,"fid":16,"octets":"8004000001000002"}'),
    (3, information_of(TWELVE), "CSBK", f"wrong check {TWELVE_DIGITS}", f'"unsealed":"{TWELVE_DIGITS}"'),
    (6, data_header("01400000020000010185"), "data header", "response 1 -> 2, SAP 4, class 2, type 0, status 5, 1 block",
     '"header":{"format":1,"group":0,"target":2,"source":1,"sap":4,"class":2,"type":0,"status":5,"blocks":1}'),
    (6, data_header("92350000090000078C00"), "data header", "unconfirmed 7 -> group 9, SAP 3, 12 blocks, pad 21",
     '"header":{"format":2,"group":1,"target":9,"source":7,"sap":3,"blocks":12,"pad":21}'),
    (6, data_header("4343000001000002C068"), "data header", "confirmed 2 -> 1, SAP 4, N(S) 6, 64 blocks, pad 3",
     '"header":{"format":3,"group":0,"target":1,"source":2,"sap":4,"number":6,"blocks":64,"pad":3}'),
    (6, data_header("2DA30000010000022D0C"), "data header", "short data 2 -> 1, format 11, 35 blocks, bit padding 12",
     '"header":{"format":13,"group":0,"target":1,"source":2,"data_format":11,"blocks":35,"bit_padding":12}'),
    (6, data_header("8EA00000090000032A05"), "data header", "status 3 -> group 9, port 1 -> 2, status 517",
     '"header":{"format":14,"group":1,"target":9,"source":3,"source_port":1,"target_port":2,"status":517}'),
    (6, data_header("8DA50000090000022F03"), "data header", "short data 2 -> group 9, format 11, 5 blocks, bit padding 3",
     '"header":{"format":13,"group":1,"target":9,"source":2,"data_format":11,"blocks":5,"bit_padding":3}'),
    (6, data_header("8340123456ABCDEF8170"), "data header", "confirmed 11259375 -> group 1193046, SAP 4, N(S) 7, 1 block, pad 0",
     '"header":{"format":3,"group":1,"target":1193046,"source":11259375,"sap":4,"number":7,"blocks":1,"pad":0}'),
    (6, data_header("12F00000020000010000"), "data header", "unconfirmed 1 -> 2, SAP 15, 0 blocks, pad 16",
     '"header":{"format":2,"group":0,"target":2,"source":1,"sap":15,"blocks":0,"pad":16}'),
    (6, data_header("0EA0000002000001EFFF"), "data header", "status 1 -> 2, port 7 -> 3, status 1023",
     '"header":{"format":14,"group":0,"target":2,"source":1,"source_port":7,"target_port":3,"status":1023}'),
    # Formats that aren't read, short data and a status of another SAP than theirs, and a status with blocks.
    *map(other_format, ("05000000000000000000", "F5000000000000000000", "80000000000000000000", "9FA00000090000022D0C",
                        "CD900000010000022D0C", "8E900000090000032A05", "AEA00000090000032A05", "8EA10000090000032A05")),
    (6, information_of(TWELVE), "data header", f"wrong check {TWELVE_DIGITS}", f'"unsealed":"{TWELVE_DIGITS}"'),
    *((kind, information_of(TWELVE), name, TWELVE_DIGITS, f'"octets":"{TWELVE_DIGITS}"')
      for kind, name in ((0, "PI header"), (4, "MBC header"), (5, "MBC block"), (7, "rate 1/2"), (11, "unified block"),
                         (12, "type 12"), (15, "type 15"))),
    (9, information_of(bytes.fromhex("FF83DF1732094ED1E7CD8A91")), "idle", "", ""),
    (8, [0, 1] * 98, "rate 3/4", "as received", ""),
    (10, [1, 0] * 98, "rate 1", "as received", ""),
    (7, beyond_reach(), "rate 1/2", "information unreadable", '"octets":null'),
]

# Fields with their widths; a number in place of a name is what stands there. A field in two pieces has its high bits first.
WAY = [("target", 24), ("source", 24)]

# The data headers that are read, by their formats: the fields, and the keys in JSON.
HEADERS = {
    1: ([("unused", 4), (1, 4), ("sap", 4), ("unused", 4), *WAY, ("unused", 1), ("blocks", 7), ("class", 2), ("type", 3),
         ("status", 3)],
        ["group", "target", "source", "sap", "class", "type", "status", "blocks"]),
    2: ([("group", 1), ("wanted", 1), ("unused", 1), ("pad", 1), (2, 4), ("sap", 4), ("pad", 4), *WAY, ("full", 1), ("blocks", 7),
         ("unused", 4), ("fragment", 4)],
        ["group", "target", "source", "sap", "blocks", "pad"]),
    3: ([("group", 1), ("wanted", 1), ("unused", 1), ("pad", 1), (3, 4), ("sap", 4), ("pad", 4), *WAY, ("full", 1), ("blocks", 7),
         ("anew", 1), ("number", 3), ("fragment", 4)],
        ["group", "target", "source", "sap", "number", "blocks", "pad"]),
    13: ([("group", 1), ("wanted", 1), ("blocks", 2), (13, 4), (10, 4), ("blocks", 4), *WAY, ("data_format", 6), ("anew", 1),
          ("full", 1), ("bit_padding", 8)],
         ["group", "target", "source", "data_format", "blocks", "bit_padding"]),
    14: ([("group", 1), ("wanted", 1), (0, 2), (14, 4), (10, 4), (0, 4), *WAY, ("source_port", 3), ("target_port", 3),
          ("status", 10)],
         ["group", "target", "source", "source_port", "target_port", "status"]),
}

# The bodies of the control blocks that have a meaning, by their opcodes: the fields, the key in JSON and its keys.
BLOCKS = {
    61: ([("data", 1), ("group", 1), ("unused", 6), ("left", 8), *WAY], "preamble", ["data", "group", "left", "target", "source"]),
    56: ([("unused", 16), ("bs", 24), ("source", 24)], "activation", ["bs", "source"]),
}

# The first field of an embedded word with a row that isn't near a word, so that no link control can be read.
LOST_FIELD = 0x80800000

# Other bursts, each with its side, its colour code, its name, its details, and its keys in JSON. The last six are a superframe.
OTHER_BURSTS = [
    (untyped_data_burst(), "MS", None, "data", "slot type unreadable", '"wrong":{"sync":0}'),
    (voice_burst(0, pi=1), None, 1, "voice ?", "LCSS 0, PI", '"lcss":0,"pi":1,"wrong":{"emb":0}'),
    (unreadable_burst(), None, None, "unreadable", "", '"wrong":null'),
    (voice_sync_burst(), "MS", None, "voice A", "", '"wrong":{"sync":0}'),
    (voice_burst(1, embedded=LOST_FIELD), None, 1, "voice B", "LCSS 1", '"lcss":1,"pi":0,"wrong":{"emb":0}'),
    (voice_burst(3), None, 1, "voice C", "LCSS 3", '"lcss":3,"pi":0,"wrong":{"emb":0}'),
    (voice_burst(3), None, 1, "voice D", "LCSS 3", '"lcss":3,"pi":0,"wrong":{"emb":0}'),
    (voice_burst(2), None, 1, "voice E", "LCSS 2, embedded LC unreadable", '"lcss":2,"pi":0,"lc":null,"wrong":{"emb":0}'),
    (voice_burst(0, colour=15), None, 15, "voice F", "LCSS 0", '"lcss":0,"pi":0,"wrong":{"emb":0}'),
]


def wanted_bursts():
    """Each burst with its side, its colour code, its name, its details, and its keys in JSON."""
    for kind, information, name, details, keys in DATA_BURSTS:
        wrong = AS_RECEIVED if details in ("as received", "information unreadable") else NO_WRONG_BITS
        yield data_burst(kind, information), "MS", 1, name, details, f"{keys},{wrong}" if keys else wrong
    yield from OTHER_BURSTS


def line_of(frame, side, colour, name, details):
    known = "-" if colour is None else colour
    return f"{frame * 0.06:9.2f} {frame:7} 1  {side or '-':<3} {known:>2}  {name:<13} {details}".rstrip()


def object_of(frame, burst, side, colour, name, keys):
    known = [json.dumps(it) for it in (side, colour, name)]
    head = f'{{"frame":{frame},"slot":1,"ms":{60 * frame},"side":{known[0]},"colour":{known[1]},"name":{known[2]}'
    return f'{head},{keys},"burst":"{burst.hex().upper()}"}}'


def check_bursts(report):
    wanted = list(wanted_bursts())
    given = it.UPLINK_HEAD + b"".join(b"\1" + burst + b"\0" for burst, *_ in wanted)
    lines = report.call("show", "-", given=given).out.decode().splitlines()[1:-1]
    objects = report.call("show", "-", "--json", given=given).out.decode().splitlines()[1:-1]
    report.expect("each burst has a line and an object", len(lines) == len(objects) == len(wanted), (len(lines), len(objects)))
    for frame, ((burst, side, colour, name, details, keys), line, made) in enumerate(zip(wanted, lines, objects)):
        report.expect(f"the line of {name} {details}", line == line_of(frame, side, colour, name, details), line)
        report.expect(f"the object of {name} {details}", made == object_of(frame, burst, side, colour, name, keys), made)


def drawn(chance, fields):
    """Octets with these fields, each by chance, and the number of each."""
    bits, numbers = [], {}
    for name, width in fields:
        number = name if isinstance(name, int) else chance.getrandbits(width)
        bits += bits_of(number, width)
        numbers[name] = numbers.get(name, 0) << width | number
    return number_of(bits).to_bytes(len(bits) // 8, "big"), numbers


def drawn_header(chance, number):
    """The type of a burst with a data header, its information, its name, and what is told of it."""
    fields, keys = HEADERS[number]
    octets, numbers = drawn(chance, fields)
    told = {"group": 0, **numbers}
    header = {"format": number, **{key: told[key] for key in keys}}
    return 6, information_of(sealed(octets, DATA_HEADER)), "data header", {"header": header}


def drawn_block(chance, opcode, fid):
    """The same of a control block."""
    fields, key, keys = BLOCKS[opcode] if opcode in BLOCKS and fid == 0 else ([("body", 64)], None, [])
    body, numbers = drawn(chance, fields)
    head, _ = drawn(chance, [("last", 1), ("protect", 1), (opcode, 6), (fid, 8)])
    block = {"opcode": opcode, "fid": fid, "octets": body.hex().upper()}
    block.update({key: {name: numbers[name] for name in keys}} if key else {})
    return 3, information_of(sealed(head + body, CONTROL_BLOCK)), "CSBK", {"csbk": block}


def drawn_control(chance, flco):
    """The nine octets of a link control, and what is told of them."""
    fields = [("options", 8), *WAY] if flco in (0, 3) else [("body", 56)]
    head, known = drawn(chance, [("protect", 1), ("reserved", 1), (flco, 6), ("fid", 8)])
    body, numbers = drawn(chance, fields)
    return head + body, {"flco": flco, "fid": known["fid"], **({"octets": body.hex().upper()} if "body" in numbers else numbers)}


def drawn_call(chance, flco, kind):
    """The type of a burst with a link control, its information, its name, and what is told of it."""
    octets, told = drawn_control(chance, flco)
    mask, name = {1: (VOICE_HEADER, "voice header"), 2: (TERMINATOR, "terminator")}[kind]
    return kind, information_of(with_parity(octets, mask)), name, {"lc": told}


def drawn_bursts(chance):
    """Bursts with all kinds of fields, each field by chance."""
    for _ in range(8):
        yield from (drawn_header(chance, number) for number in HEADERS)
        yield from (drawn_block(chance, opcode, 0) for opcode in BLOCKS)
        yield from (drawn_call(chance, flco, kind) for flco in (0, 3) for kind in (1, 2))
        yield drawn_block(chance, chance.choice([56, 61]), chance.randrange(1, 256))
        yield drawn_block(chance, chance.randrange(56), chance.getrandbits(8))
        yield drawn_call(chance, chance.choice([1, 2, *range(4, 64)]), chance.choice([1, 2]))


def text_of(made):
    """The text of an object."""
    return json.dumps(made, separators=(",", ":"))


def check_shown(report, name, slots, wanted):
    """A recording is listed with these objects, and with the lines that say the same."""
    given = it.UPLINK_HEAD + b"".join(slots)
    lines = report.call("show", "-", given=given).out.decode().splitlines()[1:-1]
    objects = report.call("show", "-", "--json", given=given).out.decode().splitlines()[1:-1]
    report.expect(f"{name}: a line and an object of each", len(lines) == len(objects) == len(wanted), (len(lines), len(objects)))
    for made, line, text in zip(wanted, lines, objects):
        report.expect(f"{name}: an object", text == text_of(made), (text, made))
        report.expect(f"{name}: a line", line == line_of_burst(made), (line, made))


def check_drawn_bursts(report):
    """Each number of a header, a control block and a link control is shown as it was sent, in a line and as JSON."""
    chance = random.Random(361)
    slots, wanted = [], []
    for at, (kind, information, name, keys) in enumerate(drawn_bursts(chance)):
        side, colour = chance.choice(["BS", "MS"]), chance.randrange(16)
        burst = data_burst(kind, information, colour, side)
        slots.append(b"\1" + burst)
        place = {"frame": at // 2, "slot": at % 2 + 1, "ms": 30 * at, "side": side, "colour": colour, "name": name}
        wrong = {"sync": 0, "slot_type": 0, "information": 0}
        wanted.append({**place, **keys, "wrong": wrong, "burst": burst.hex().upper()})
    check_shown(report, "fields by chance", [*slots, *([b"\0"] if len(slots) % 2 else [])], wanted)


def check_superframes(report):
    """Link controls that B to E carry are shown as they were sent."""
    chance = random.Random(102)
    slots, wanted = [], []
    for flco in (0, 3, 4, 5, 6, 7, 8, 63, 0, 3):
        octets, told = drawn_control(chance, flco)
        side, colour, pi = chance.choice(["BS", "MS"]), chance.randrange(16), chance.getrandbits(1)
        bursts = [(voice_sync_burst(side), {"side": side, "colour": None, "name": "voice A"}, {"wrong": {"sync": 0}})]
        for letter, lcss, field in zip("BCDEF", (1, 3, 3, 2, 0), [*embedded_fields(octets), 0]):
            known = {"side": None, "colour": colour, "name": f"voice {letter}", "lcss": lcss, "pi": pi}
            known.update({"lc": told} if letter == "E" else {})
            bursts.append((voice_burst(lcss, pi, field, colour), known, {"wrong": {"emb": 0}}))
        for burst, known, wrong in bursts:
            frame = len(wanted)
            slots.append(b"\1" + burst + b"\0")
            wanted.append({"frame": frame, "slot": 1, "ms": 60 * frame, **known, **wrong, "burst": burst.hex().upper()})
    check_shown(report, "superframes", slots, wanted)


def check_records(report):
    """Records of lists: their lines and their objects."""
    given = it.OUTGOING_HEAD + it.outgoing_record(7, 2, 3, bytes.fromhex("010203")) + it.outgoing_record(8, 1, 1)
    ran = report.call("show", "-", given=given).out.decode().splitlines()
    datagram = "UDP 12.0.0.1:5016 -> 12.0.0.2:5018, 0 octets of data"
    wanted = ["     0.45       7 2  confirmed, rate 1, 3 octets: 010203",
              f"     0.48       8 1  confirmed, rate 1/2, 28 octets: {datagram}"]
    report.expect("lines of an outgoing list", ran[1:-1] == wanted, ran)
    ran = report.call("show", "-", "--json", given=given).out.decode().splitlines()
    wanted = ['{"frame":7,"slot":2,"ms":450,"confirmed":true,"rate":"1","length":3,"octets":"010203"}',
              f'{{"frame":8,"slot":1,"ms":480,"confirmed":true,"rate":"1/2","length":28,"octets":"{it.DATAGRAM.hex().upper()}"}}']
    report.expect("objects of an outgoing list", ran[1:-1] == wanted, ran)
    given = it.RECEIVED_HEAD + bytes.fromhex("03 00000009 01 01 FFFFFF 0002 ABCD 03 00000009 02 00 000002 001C") + it.DATAGRAM
    ran = report.call("show", "-", given=given).out.decode().splitlines()
    wanted = ["     0.54       9 1  short data from 16777215, 2 octets: ABCD",
              f"     0.57       9 2  datagram from 2, 28 octets: {datagram}"]
    report.expect("lines of a received list", ran[1:-1] == wanted, ran)
    ran = report.call("show", "-", "--json", given=given).out.decode().splitlines()
    wanted = ['{"frame":9,"slot":1,"ms":540,"kind":"short data","source":16777215,"octets":"ABCD"}',
              f'{{"frame":9,"slot":2,"ms":570,"kind":"datagram","source":2,"octets":"{it.DATAGRAM.hex().upper()}"}}']
    report.expect("objects of a received list", ran[1:-1] == wanted, ran)


# Datagrams between ends of many addresses and ports, with little data and much, and octets that are none.
ENDS = (bytes([12, 34, 56, 78]), 258), (bytes([225, 9, 200, 1]), 65533)
DATAGRAMS = [
    (it.datagram(*ENDS), "UDP 12.34.56.78:258 -> 225.9.200.1:65533, 0 octets of data"),
    (it.datagram(*ENDS[::-1], data=b"\x99"), "UDP 225.9.200.1:65533 -> 12.34.56.78:258, 1 octet of data"),
    (it.datagram(*ENDS, data=bytes(300)), "UDP 12.34.56.78:258 -> 225.9.200.1:65533, 300 octets of data"),
    (it.datagram(*ENDS, data=b"\xA5" * 1372), "UDP 12.34.56.78:258 -> 225.9.200.1:65533, 1372 octets of data"),
    (it.datagram(*ENDS)[:-1], it.datagram(*ENDS)[:-1].hex().upper()),
    (it.datagram(*ENDS, data=bytes(1373)), None),
    # What is kept of it is a datagram.
    (it.datagram(*ENDS, data=bytes(1372)) + bytes(100), None),
    (b"\x0A", "0A"),
]


def check_datagrams(report):
    """Octets that are datagrams and octets that aren't, as what is to be sent and as what was received."""
    given = [it.OUTGOING_HEAD, it.RECEIVED_HEAD]
    wanted = [[], []]
    for frame, (octets, told) in enumerate(DATAGRAMS):
        size, place = counted(len(octets), "octet"), f"{frame * 0.06:9.2f} {frame:7} 1"
        # Of more than 1,400 octets an outgoing record tells the first.
        shown = told or octets[:1400].hex().upper()
        given[0] += it.outgoing_record(frame, mode=2, octets=octets)
        wanted[0].append(f"{place}  unconfirmed, rate 1, {size}: {shown}")
        if len(octets) <= 1400:
            given[1] += it.received_record(frame, 1, 0, 0x123456, octets)
            wanted[1].append(f"{place}  datagram from 1193046, {size}: {told}")
    for octets, lines in zip(given, wanted):
        ran = report.call("show", "-", given=octets)
        report.expect(f"datagrams of {octets[:4]}", (ran.status, ran.out.decode().splitlines()[1:-1]) == (0, lines), ran)


def check_long_records(report):
    """Of a record of the outgoing list its whole length is told, and of its octets the first 1,400."""
    octets = bytes(number % 251 for number in range(65_535))
    for size in (1399, 1400, 1401, 65_535):
        given = it.OUTGOING_HEAD + it.outgoing_record(0, octets=octets[:size])
        digits = octets[: min(size, 1400)].hex().upper()
        ran = report.call("show", "-", given=given)
        line = f"     0.00       0 1  unconfirmed, rate 1/2, {size} octets: {digits}"
        report.expect(f"the line of {size} octets", ran.out.decode().splitlines()[1:-1] == [line], ran)
        made = f'{{"frame":0,"slot":1,"ms":0,"confirmed":false,"rate":"1/2","length":{size},"octets":"{digits}"}}'
        ran = report.call("show", "-", "--json", given=given)
        report.expect(f"the object of {size} octets", ran.out.decode().splitlines()[1:-1] == [made], ran)


def check_statuses(report):
    """Received statuses by their four octets, and other octets in their place."""
    rows = (bytes([1, 2, 2, 5]), "port 1 -> 2, status 517"), (bytes([7, 3, 3, 255]), "port 7 -> 3, status 1023")
    rows += (bytes([255, 254, 255, 253]), "port 255 -> 254, status 65533"), (bytes([1, 2, 3]), "010203"), (bytes(5), "0000000000")
    given = it.RECEIVED_HEAD + b"".join(it.received_record(frame, 2, 2, 0xABCDEF, octets) for frame, (octets, _) in enumerate(rows))
    lines = [f"{frame * 0.06 + 0.03:9.2f} {frame:7} 2  status from 11259375, {len(octets)} octets: {told}"
             for frame, (octets, told) in enumerate(rows)]
    ran = report.call("show", "-", given=given)
    report.expect("statuses", (ran.status, ran.out.decode().splitlines()[1:-1]) == (0, lines), ran)


def check_longest_line(report):
    """The longest record that there may be has its whole line."""
    octets = bytes(number % 251 for number in range(65_535))
    given = it.RECEIVED_HEAD + bytes.fromhex("03 FFFFFFFF 02 01 FFFFFF FFFF") + octets
    digits = octets.hex().upper()
    seconds = f"{(4_294_967_295 * 60 + 30) / 1000:9.2f}"
    line = f"{seconds} 4294967295 2  short data from 16777215, 65535 octets: {digits}"
    ran = report.call("show", "-", given=given)
    report.expect("the longest line", ran.out.decode().splitlines()[1:-1] == [line] and ran.status == 0, ran)
    made = (f'{{"frame":4294967295,"slot":2,"ms":{4_294_967_295 * 60 + 30},"kind":"short data","source":16777215,'
            f'"octets":"{digits}"}}')
    ran = report.call("show", "-", "--json", given=given)
    report.expect("the longest object", ran.out.decode().splitlines()[1:-1] == [made] and ran.status == 0, ran)


def check(report):
    check_bursts(report)
    check_drawn_bursts(report)
    check_superframes(report)
    check_records(report)
    check_datagrams(report)
    check_long_records(report)
    check_statuses(report)
    check_longest_line(report)
