"""The line of a burst or a record in a listing, of what its object in JSON tells: both say the same."""

from checks import recordings as it

# What is told of service options and of link controls that are no call, and the keys of wrong bits with their names.
OPTIONS = {0x80: "emergency", 0x40: "privacy", 0x08: "broadcast", 0x04: "OVCM"}
OTHER_CONTROLS = {
    4: "talker alias header", 5: "talker alias block 1", 6: "talker alias block 2", 7: "talker alias block 3", 8: "GPS info",
}
WRONG = {"sync": "sync", "slot_type": "slot type", "emb": "EMB", "information": "information"}

# The details of data headers, by their formats.
HEADERS = {
    1: "response {way}, SAP {sap}, class {class}, type {type}, status {status}, {count}",
    2: "unconfirmed {way}, SAP {sap}, {count}, pad {pad}",
    3: "confirmed {way}, SAP {sap}, N(S) {number}, {count}, pad {pad}",
    13: "short data {way}, format {data_format}, {count}, bit padding {bit_padding}",
    14: "status {way}, port {source_port} -> {target_port}, status {status}",
}

# The details of data bursts that have no key for what they hold.
UNREAD = {"data": "slot type unreadable", "rate 3/4": "as received", "rate 1": "as received"}


def counted(count, name):
    return f"{count} {name}" + ("" if count == 1 else "s")


def way_of(fields):
    return f"{fields['source']} -> {'group ' if fields['group'] else ''}{fields['target']}"


def told_of_call(lc):
    """What a line tells of a link control."""
    if "octets" in lc:
        opcode = lc["flco"]
        return f"{OTHER_CONTROLS.get(opcode, f'LC opcode {opcode}')}, {lc['octets']}"
    options = [name for bit, name in OPTIONS.items() if lc["options"] & bit]
    priority = lc["options"] % 4
    kind = {0: "group", 3: "unit"}[lc["flco"]]
    return ", ".join([f"{kind} call {lc['source']} -> {lc['target']}", *options, *([f"priority {priority}"] if priority else [])])


def told_of_block(block):
    """What a line tells of a control block."""
    preamble, activation = block.get("preamble"), block.get("activation")
    if preamble:
        return f"preamble, {'data' if preamble['data'] else 'CSBKs'} to follow {preamble['left']}, {way_of(preamble)}"
    if activation:
        return f"BS activation by {activation['source']} of {activation['bs']}"
    return "opcode {opcode}, fid {fid}, {octets}".format(**block)


def told_of_header(header):
    """What a line tells of a data header."""
    if "octets" in header:
        return f"format {header['format']}"
    return HEADERS[header["format"]].format(way=way_of(header), count=counted(header.get("blocks", 0), "block"), **header)


def told_of_voice(made):
    """What a line tells of a voice burst with an EMB."""
    told = f"LCSS {made['lcss']}" + (", PI" if made["pi"] else "")
    if "lc" not in made:
        return told
    return f"{told}, {told_of_call(made['lc']) if made['lc'] else 'embedded LC unreadable'}"


def details_of(made):
    """What the line of a burst tells behind its name, of what its object tells."""
    if "lcss" in made:
        return told_of_voice(made)
    tellers = {"lc": told_of_call, "csbk": told_of_block, "header": told_of_header, "unsealed": "wrong check {}".format}
    for key, told in tellers.items():
        if key in made:
            return told(made[key])
    if "octets" in made:
        return made["octets"] or "information unreadable"
    return UNREAD.get(made["name"], "")


def place_of(made):
    return f"{made['ms'] / 1000:9.2f} {made['frame']:7} {made['slot']}"


def line_of_burst(made):
    """The line of a burst, of what its object tells."""
    side = (made["side"] or "-").ljust(2) + (made["cach"]["at"] * "*" if "cach" in made else "").ljust(1)
    colour = "-" if made["colour"] is None else made["colour"]
    bits = made["wrong"] or {}
    wrong = ", ".join(f"{name} {bits[key]}" for key, name in WRONG.items() if bits.get(key))
    told = details_of(made) + (f"  [wrong: {wrong}]" if wrong else "")
    return f"{place_of(made)}  {side} {colour:>2}  {made['name']:<13} {told}".rstrip()


def told_of_octets(octets):
    """What a line tells of octets that may be a datagram."""
    if not it.is_datagram(octets):
        return octets.hex().upper()
    ends = (".".join(map(str, octets[at : at + 4])) for at in (12, 16))
    ports = (int.from_bytes(octets[at : at + 2], "big") for at in (20, 22))
    source, destination = (f"{address}:{port}" for address, port in zip(ends, ports))
    return f"UDP {source} -> {destination}, {counted(len(octets) - 28, 'octet')} of data"


def line_of_record(made):
    """The line of a record of a list, of what its object tells."""
    octets = bytes.fromhex(made["octets"])
    if "confirmed" in made:
        mode, size = ("confirmed" if made["confirmed"] else "unconfirmed"), made["length"]
        told = told_of_octets(octets) if size <= 1400 else made["octets"]
        return f"{place_of(made)}  {mode}, rate {made['rate']}, {counted(size, 'octet')}: {told}"
    told = told_of_octets(octets) if made["kind"] == "datagram" else made["octets"]
    if made["kind"] == "status" and len(octets) == 4:
        told = f"port {octets[0]} -> {octets[1]}, status {int.from_bytes(octets[2:], 'big')}"
    return f"{place_of(made)}  {made['kind']} from {made['source']}, {counted(len(octets), 'octet')}: {told}"
