"""The four files as lines of text, both ways: a writer and a reader by docs/protocol.md alone, which share nothing."""

import re

# How many frames a recording has at most, and how many records a list.
LIMITS = {"uplink": 1_048_576, "downlink": 1_048_582, "outgoing": 1_048_576, "received": 4_194_328}
MAGICS = {"uplink": b"DMRU", "downlink": b"DMRD", "outgoing": b"DMRO", "received": b"DMRI"}

MODES = {
    (b"unconfirmed", b"half"): 0,
    (b"confirmed", b"half"): 1,
    (b"unconfirmed", b"full"): 2,
    (b"confirmed", b"full"): 3,
}
KINDS = {b"datagram": 0, b"short-data": 1, b"status": 2}

# How many octets a line has at most in front of its line feed.
LONGEST = 131_200


def name_of(octets):
    """What a file of this head is called in a text."""
    return next(name for name, magic in MAGICS.items() if octets.startswith(magic))


def digits(octets):
    return octets.hex().upper() or "-"


def lines_of_recording(octets, name):
    """The lines behind the first of a recording, and its counts."""
    lines, at, place = [], 8, 0
    cach, size = (3, 37) if name == "downlink" else (0, 34)
    while at < len(octets):
        if octets[at]:
            fields = [octets[at + 1 : at + 1 + cach], octets[at + 1 + cach : at + size]]
            shown = " ".join(field.hex().upper() for field in fields if field)
            lines.append(f"{place // 2} {place % 2 + 1} {shown}")
        at += size if octets[at] else 1
        place += 1
    return [*lines, f"frames {place // 2}"], f"frames {place // 2} records {place}"


def lines_of_list(octets, name):
    """The lines behind the first of a list, and its counts."""
    lines, at, count = [], 8, 0
    while at < len(octets):
        frame, slot, kind = int.from_bytes(octets[at + 1 : at + 5], "big"), octets[at + 5], octets[at + 6]
        if name == "outgoing":
            told = " ".join(word.decode() for word, mode in MODES.items() for word in word if mode == kind)
            at += 7
        else:
            word = next(word.decode() for word, number in KINDS.items() if number == kind)
            told = f"{word} {int.from_bytes(octets[at + 7 : at + 10], 'big')}"
            at += 10
        length = int.from_bytes(octets[at : at + 2], "big")
        lines.append(f"{frame} {slot} {told} {digits(octets[at + 2 : at + 2 + length])}")
        at += 2 + length
        count += 1
    return [*lines, f"records {count}"], f"records {count}"


def text_of(octets):
    """The written text of a file that has no fault, and its counts."""
    name = name_of(octets)
    of = lines_of_recording if name in ("uplink", "downlink") else lines_of_list
    lines, counts = of(octets, name)
    return "".join(f"{line}\n" for line in [f"dmrgate {name} 1", *lines]).encode(), counts


class Wrong(Exception):
    """What is wrong with a line."""


def number(words, at, least=0, most=2**32 - 1):
    """The number that one of the words is."""
    if at >= len(words) or not re.fullmatch(rb"0|[1-9][0-9]*", words[at]) or not least <= int(words[at]) <= most:
        raise Wrong("wrong number")
    return int(words[at])


def octets_of(words, at, what, count=None):
    """The octets that the last word is: so many, or any number of them."""
    word = words[at] if at + 1 == len(words) else b""
    if word == b"-" and count is None:
        return b""
    is_whole = re.fullmatch(rb"([0-9A-Fa-f]{2})+", word) and (len(word) == 2 * count if count else len(word) <= 2 * 65_535)
    if not is_whole:
        raise Wrong(what)
    return bytes.fromhex(word.decode())


class Reading:
    """A text as far as it is read: the octets of its file, and how it ended."""

    def __init__(self, text):
        self.name, self.is_over, self.octets = None, False, b""
        # The slots of a recording that are known, the records of a list, and where the last of these stands.
        self.slots, self.records, self.last = 0, 0, ()
        self.line, self.fault, self.counts = 0, None, None
        try:
            self.take(text)
        except Wrong as wrong:
            self.fault = f"line {self.line}: {wrong}"

    def take(self, text):
        lines = text.split(b"\n")
        for self.line, line in enumerate(lines, 1):
            is_last = self.line == len(lines)
            if is_last and not line:
                break
            if len(line) > LONGEST:
                raise Wrong("too long")
            if not is_last and line.endswith(b"\r"):
                line = line[:-1]
            words = re.findall(rb"[^ \t]+", line)
            if words and not line.startswith(b"#"):
                self.take_line(words)
        else:
            self.line += 1
        if self.name is None:
            raise Wrong("no first line")
        if not self.is_over:
            raise Wrong("no last line")

    def take_line(self, words):
        if self.name is None:
            self.begin(words)
        elif self.is_over:
            raise Wrong("a line behind the last")
        elif words[0] in (b"frames", b"records"):
            self.end(words)
        elif self.is_recording():
            self.take_burst(words)
        elif self.name == "outgoing":
            self.take_sending(words)
        else:
            self.take_receipt(words)

    def is_recording(self):
        return self.name in ("uplink", "downlink")

    def begin(self, words):
        if len(words) != 3 or (words[0], words[2]) != (b"dmrgate", b"1") or words[1].decode("latin") not in MAGICS:
            raise Wrong("no first line")
        self.name = words[1].decode()
        self.octets = MAGICS[self.name] + b"\1\0\0\0"

    def end(self, words):
        if (words[0] == b"frames") != self.is_recording():
            raise Wrong("no last line")
        count = number(words, 1)
        if len(words) > 2:
            raise Wrong("wrong number")
        if self.is_recording():
            if 2 * count < self.slots:
                raise Wrong("wrong number")
            if count > LIMITS[self.name]:
                raise Wrong("too long")
            self.octets += bytes(2 * count - self.slots)
            self.counts = f"frames {count} records {2 * count}"
        else:
            if count != self.records:
                raise Wrong("wrong number")
            self.counts = f"records {count}"
        self.is_over = True

    def take_burst(self, words):
        frame, slot = number(words, 0), number(words, 1, 1, 2)
        if frame >= LIMITS[self.name]:
            raise Wrong("too long")
        place = 2 * frame + slot - 1
        if place < self.slots:
            raise Wrong("places don't grow")
        fields = b""
        if self.name == "downlink":
            fields = octets_of(words[:3], 2, "wrong burst", 3)
        fields += octets_of(words, 3 if fields else 2, "wrong burst", 33)
        self.octets += bytes(place - self.slots) + b"\1" + fields
        self.slots = place + 1

    def take_record(self, place, what, fields, octets):
        self.octets += what + place[0].to_bytes(4, "big") + bytes([place[1]]) + fields
        self.octets += len(octets).to_bytes(2, "big") + octets
        self.records += 1

    def check_room(self):
        if self.records >= LIMITS[self.name]:
            raise Wrong("too long")

    def take_sending(self, words):
        place = number(words, 0), number(words, 1, 1, 2)
        self.check_room()
        if place[:1] < self.last:
            raise Wrong("places don't grow")
        mode = MODES.get(tuple(words[2:4]))
        if mode is None:
            raise Wrong("wrong mode")
        octets = octets_of(words, 4, "wrong octets")
        self.take_record(place, b"\2", bytes([mode]), octets)
        self.last = place[:1]

    def take_receipt(self, words):
        place = number(words, 0), number(words, 1, 1, 2)
        source = number(words, 3, most=2**24 - 1)
        self.check_room()
        # A slot of a frame has a status and then a packet, at most one of each.
        kind = KINDS.get(words[2])
        order = *place, 0 if kind == 2 else 1
        if order <= self.last:
            raise Wrong("places don't grow")
        if kind is None:
            raise Wrong("wrong kind")
        octets = octets_of(words, 4, "wrong octets")
        self.take_record(place, b"\3", bytes([kind]) + source.to_bytes(3, "big"), octets)
        self.last = order
