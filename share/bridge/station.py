"""A radio that carries datagrams as packets: what it says in its slot of the uplink, frame by frame, for what it hears there.

Downlink frame n is heard before uplink frame n is said. What the standard leaves to a maker, as when to talk, how long to wait
and how often to try again, is this radio's own.
"""

import collections
import random

import packets
from dmr import DataBurst, DataType, bits_of_octets, octets_of_bits
from packets import AccessPoint, Answer, PacketHeader, Response

# How many frames behind its burst of the uplink a burst of the downlink repeats it.
REPEATER_DELAY = 6
# How many frames in a row a slot has to be free before the radio begins to talk, so that a lost burst isn't taken for the end.
LISTENING = 2
# How many frames an answer is waited for behind the repetition of a packet's last burst, and how often a packet is tried.
ANSWER_WAIT, TRIES = 20, 4
# A packet that got no answer is tried again behind a pause by chance, at most so many frames, so that two radios don't meet again.
LONGEST_PAUSE = 8
# How many datagrams may wait.
QUEUE = 16
# Of how many bursts, or bits, a path loses or turns some.
RATE_OF_CHANCES = 10_000

BROADCAST = 0xFFFFFF
MULTICAST = range(224, 240)
VERSION = 4


def identity_in(octets):
    return int.from_bytes(octets[1:4], "big")


class Route:
    """Whom a packet goes to."""

    def __init__(self, destination, is_group=False):
        self.destination, self.is_group = destination, is_group

    @classmethod
    def of_datagram(cls, datagram, gateway):
        """To the radio or group of its address, to the gateway for hosts behind it; None where no radio carries it."""
        if len(datagram) < packets.IP_HEADER.size or datagram[0] >> 4 != VERSION:
            return None
        address = datagram[16:20]
        if address[0] == packets.GROUPS:
            return cls(identity_in(address), is_group=True)
        if address[0] in MULTICAST or address == b"\xff\xff\xff\xff":
            return None
        if address[0] == packets.RADIOS:
            return None if identity_in(address) in (0, BROADCAST) else cls(identity_in(address))
        return cls(gateway)


class OutgoingPacket:
    """A packet that goes out: its blocks, and how far it is."""

    def __init__(self, route, access_point, body, rate, is_confirmed):
        self.route, self.access_point, self.rate, self.is_confirmed = route, access_point, rate, is_confirmed
        self.blocks, self.pad = packets.split(body, rate, is_confirmed)
        # The sequence number, which it is given when it is taken in hand.
        self.number = None
        # How often it was tried, and the serials that are asked for again, or None where all of it is to go out.
        self.tries, self.wanted = 0, None

    def bursts(self, source):
        """The try that is due: its header, and its blocks."""
        serials = range(len(self.blocks)) if self.wanted is None else sorted(self.wanted)
        is_full = self.wanted is None
        ends = self.route.destination, source
        header = PacketHeader(*ends, self.access_point, len(serials), self.pad, self.route.is_group, self.number, is_full)
        return [(DataType.DATA_HEADER, header.written()), *((self.rate, self.block(serial)) for serial in serials)]

    def block(self, serial):
        data = self.blocks[serial]
        return packets.confirmed_block(data, serial, self.rate) if self.is_confirmed else data


class Sender:
    """Sends packets one by one. A confirmed one is in hand until it is acknowledged, or has no try left."""

    def __init__(self, identity, chance):
        self.identity, self.chance = identity, chance
        self.queue, self.packet = collections.deque(), None
        # By destination, the sequence number of the packet that comes next.
        self.numbers = collections.Counter()
        # From which frame on a try is due, and up to which an answer is waited for: one of them is None.
        self.due, self.waits_until = None, None
        self.sent = self.delivered = self.given_up = 0

    def tick(self, now):
        """A frame has begun: takes the next packet in hand, or ends a wait."""
        if self.packet is None and self.queue:
            self.take_in_hand(self.queue.popleft(), now)
        elif self.waits_until is not None and now > self.waits_until:
            self.try_again(now + self.chance.randint(0, LONGEST_PAUSE))

    def take_in_hand(self, packet, now):
        self.packet, self.due = packet, now
        if packet.is_confirmed:
            packet.number = self.numbers[packet.route.destination] % packets.SEQUENCE_NUMBERS
            self.numbers[packet.route.destination] += 1

    def try_again(self, due, wanted=None):
        """A try is due, of all blocks or of those that are wanted; behind the last one the packet is given up."""
        self.packet.wanted, self.due, self.waits_until = wanted, due, None
        if self.packet.tries == TRIES:
            self.given_up += 1
            self.drop()

    def drop(self):
        self.packet, self.due, self.waits_until = None, None, None

    def is_due(self, now):
        return self.due is not None and now >= self.due

    def begin(self):
        """The bursts of the try that is due."""
        self.due = None
        self.sent += self.packet.tries == 0
        self.packet.tries += 1
        return self.packet.bursts(self.identity)

    def is_out(self, now):
        """The last burst of a try is out."""
        if self.packet.is_confirmed:
            self.waits_until = now + REPEATER_DELAY + ANSWER_WAIT
        else:
            self.drop()

    def hear(self, response, flag_blocks, now):
        """Heeds a response to this radio, where it is to the packet that waits for one."""
        packet = self.packet
        if self.waits_until is None or (response.source, response.number) != (packet.route.destination, packet.number):
            return
        if response.answer == Answer.RECEIVED:
            self.delivered += 1
            self.drop()
        elif response.answer == Answer.FAILED:
            self.try_again(now)
        else:
            received = packets.read_flags(flag_blocks, len(packet.blocks))
            if received is not None:
                self.try_again(now, set(range(len(packet.blocks))) - received or None)


class IncomingPacket:
    """A confirmed packet that comes in, over one try or several."""

    def __init__(self, header):
        self.header, self.rate, self.blocks = header, None, {}

    def is_of(self, header):
        return (self.header.source, self.header.number) == (header.source, header.number)

    def take(self, places):
        """Keeps the blocks that can be read, the first of each serial, all at one rate."""
        for rate, octets in filter(None, places):
            block = packets.read_confirmed_block(octets, rate)
            if block and block[0] < self.header.blocks and self.rate in (None, rate):
                self.rate = rate
                self.blocks.setdefault(*block)

    def is_whole(self):
        return len(self.blocks) == self.header.blocks

    def body(self):
        return packets.joined([self.blocks[serial] for serial in range(self.header.blocks)], self.header.pad)


class Receiver:
    """Puts packets together, and says how confirmed ones are answered."""

    def __init__(self, identity):
        self.identity, self.packet = identity, None
        # By source, the sequence number of the last confirmed packet that is there.
        self.last_numbers = {}
        self.datagrams = []
        self.received = self.repeats = 0

    def take(self, header, places):
        """Takes a try that has ended, and answers with the bursts of a response, or with none."""
        if not header.is_confirmed:
            self.take_unconfirmed(header, places)
            return []
        if header.is_group:
            return []
        answer = self.answer_to(header, places)
        return self.response(header, answer) if answer is not None and header.wants_answer else []

    def take_unconfirmed(self, header, places):
        # A full header of any packet ends the one before it.
        self.packet = None
        if not header.is_fragment and None not in places and len({rate for rate, _ in places}) == 1:
            self.deliver(header, packets.joined([octets for _, octets in places], header.pad))

    def answer_to(self, header, places):
        """What a confirmed try is answered with; None where it is a part of a packet that nobody knows."""
        if header.is_full:
            self.packet = IncomingPacket(header)
        if header.is_full and header.is_fragment:
            self.packet = None
            return None
        if self.last_numbers.get(header.source) == header.number:
            self.repeats += 1
            return Answer.RECEIVED
        if self.packet is None or not self.packet.is_of(header):
            return None
        self.packet.take(places)
        return self.answer_by_now()

    def answer_by_now(self):
        packet = self.packet
        if not packet.is_whole():
            return Answer.SELECTIVE
        self.packet, body = None, packet.body()
        if body is None:
            return Answer.FAILED
        self.last_numbers[packet.header.source] = packet.header.number
        self.deliver(packet.header, body)
        return Answer.RECEIVED

    def deliver(self, header, body):
        """Keeps the datagram that a packet holds, where it holds one."""
        if body is not None and header.access_point == AccessPoint.COMPRESSED:
            body = packets.expanded(body, header.source, header.destination, header.is_group)
        elif header.access_point != AccessPoint.IP:
            body = None
        if body:
            self.received += 1
            self.datagrams.append(body)

    def response(self, header, answer):
        """The bursts of a response to the source of a packet."""
        flags = packets.write_flags(self.packet.blocks, self.packet.header.blocks) if answer == Answer.SELECTIVE else []
        it = Response(header.source, self.identity, header.access_point, answer, header.number, len(flags))
        return [(DataType.DATA_HEADER, it.written()), *((DataType.RATE_HALF, octets) for octets in flags)]


class Channel:
    """Whether the slot is free to talk in. A radio listens first: what begins into a try of the gateway costs it that try."""

    def __init__(self):
        # For how many frames in a row the slot was free, and how many bursts of a try that was announced are still to come.
        self.free_frames, self.announced = 0, 0
        # How many frames it takes until what this radio said is repeated, and what the gateway begins behind it is heard.
        self.until_repeated = 0

    def hear(self, is_taken):
        """A frame has gone by. Idle bursts don't take a slot."""
        self.free_frames = 0 if is_taken else self.free_frames + 1
        self.announced = max(self.announced - 1, 0)
        self.until_repeated = max(self.until_repeated - 1, 0)

    def said(self):
        self.until_repeated = REPEATER_DELAY + LISTENING

    def is_free(self):
        return self.free_frames >= LISTENING and not self.announced and not self.until_repeated


class Reading:
    """A header that was heard, and what stands in the places behind it: a rate and octets, or None."""

    def __init__(self, header):
        self.header, self.places = header, []

    def is_over(self):
        return len(self.places) >= self.header.blocks


class Station:
    """The radio in its slot."""

    def __init__(self, identity, gateway, colour_code=1, is_confirmed=False, rate=DataType.RATE_HALF, chance=None):
        self.identity, self.gateway, self.colour_code = identity, gateway, colour_code
        self.is_confirmed, self.rate = is_confirmed, rate
        self.sender, self.receiver, self.channel = Sender(identity, chance or random.Random()), Receiver(identity), Channel()
        self.reading = None
        # The bursts that go out, the bursts of a response that does next, and the frame in which the last response ended.
        self.talking, self.response, self.answered_in = collections.deque(), [], None
        self.is_trying = False
        self.now = -1

    def has_room(self):
        """Whether one more datagram may wait."""
        return len(self.sender.queue) < QUEUE

    def offer(self, datagram):
        """Takes a datagram to send. Answers whether it can be carried."""
        route = Route.of_datagram(datagram, self.gateway)
        if route is None or route.destination == self.identity:
            return False
        is_confirmed = self.is_confirmed and not route.is_group
        body = packets.compressed(datagram, self.identity, route.destination, route.is_group)
        access_point = AccessPoint.IP if body is None else AccessPoint.COMPRESSED
        body = datagram if body is None else body
        if len(datagram) > packets.LONGEST_DATAGRAM or len(body) > packets.most_octets(self.rate, is_confirmed):
            return False
        self.sender.queue.append(OutgoingPacket(route, access_point, body, self.rate, is_confirmed))
        return True

    def hear(self, octets):
        """Hears the burst of the next downlink frame, 33 octets, or None for silence."""
        self.now += 1
        burst = DataBurst.read(octets) if octets is not None else None
        if burst is not None and burst.colour_code != self.colour_code:
            burst = None
        is_idle = burst is not None and burst.data_type == DataType.IDLE
        self.channel.hear(is_taken=octets is not None and not is_idle)
        self.read(burst)

    def read(self, burst):
        """Reads a burst as a header, or as what stands in a place behind one."""
        data_type, octets = (burst.data_type, burst.octets) if burst is not None else (None, None)
        header = packets.read_header(octets) if data_type == DataType.DATA_HEADER else None
        if header is not None:
            self.channel.announced = header.blocks
            self.reading = Reading(header)
        elif self.reading is not None:
            is_block = data_type in packets.OCTETS_OF_BLOCK and octets is not None
            self.reading.places.append((data_type, octets) if is_block else None)
        if data_type == DataType.CONTROL_BLOCK:
            self.channel.announced = packets.read_preamble(octets) or self.channel.announced
        if self.reading is not None and self.reading.is_over():
            over, self.reading = self.reading, None
            self.finish(over.header, over.places)

    def finish(self, header, places):
        """Heeds what was read, where it is for this radio or for a group that another one talks to."""
        is_for_group = isinstance(header, PacketHeader) and header.is_group and header.source != self.identity
        if not is_for_group and header.destination != self.identity:
            return
        if isinstance(header, Response):
            flag_blocks = [octets for rate, octets in filter(None, places) if rate == DataType.RATE_HALF]
            self.sender.hear(header, flag_blocks, self.now)
        elif header.blocks:
            self.response = self.receiver.take(header, places) or self.response

    def say(self):
        """The burst of this radio in the next uplink frame, 33 octets, or None for silence."""
        self.sender.tick(self.now)
        if not self.talking:
            self.begin()
        if not self.talking:
            return None
        burst = DataBurst(self.colour_code, *self.talking.popleft())
        self.channel.said()
        if not self.talking:
            self.end()
        return burst.written()

    def begin(self):
        """Begins a response at once, and a try behind it or where the slot is free."""
        if self.response:
            self.talking.extend(self.response)
            self.response, self.is_trying = [], False
        elif self.sender.is_due(self.now) and (self.channel.is_free() or self.answered_in == self.now - 1):
            self.talking.extend(self.sender.begin())
            self.is_trying = True

    def end(self):
        if self.is_trying:
            self.sender.is_out(self.now)
        else:
            self.answered_in = self.now


class Path:
    """One way between the radio and the repeater, on which bursts get lost and bits are turned, by chance."""

    def __init__(self, loss, errors, chance):
        self.loss, self.errors, self.chance = loss / RATE_OF_CHANCES, errors / RATE_OF_CHANCES, chance
        self.lost = self.wrong_bits = 0

    def passed(self, burst):
        """What comes out of this way for a burst, or for silence, None."""
        if burst is None:
            return None
        if self.chance.random() < self.loss:
            self.lost += 1
            return None
        if not self.errors:
            return burst
        turned = [self.chance.random() < self.errors for _ in bits_of_octets(burst)]
        self.wrong_bits += sum(turned)
        return octets_of_bits([bit ^ is_wrong for bit, is_wrong in zip(bits_of_octets(burst), turned)])
