"""What two sides say to one another over the air, each in a network namespace of its own. A program that `at-radio` stands beside.

    talking.py both ROUNDS KIND..           asks both ways
    talking.py answer OWN                   answers whatever comes, until it is ended
    talking.py ask OWN OTHER ROUNDS KIND..  asks

OWN and OTHER are addresses. What answers sends back what it gets; pings are answered by the system itself. It prints a number for
each kind of question, or `wrong` where something came that isn't the answer to it, or an answer came twice. A gateway is in no
group, so no radio asks one.
"""

import contextlib
import select
import socket
import struct
import subprocess
import sys
import time

HOST, RADIO, GROUP = "12.0.0.1", "12.0.0.2", "225.0.0.9"

# What answers listens at these ports. The first two have a short form in a compressed header, and the third is spelled out.
PORT, GROUP_PORT, SPELLED_PORT = 5016, 5017, 7007
ANY_PORT = 0

# How long an answer is waited for, in seconds. There are always fewer tries in it than a confirmed packet has.
PATIENCE = 20

# linux/in.h. What may be in fragments goes without "don't fragment", and only so it can be compressed.
IP_MTU_DISCOVER, MAY_FRAGMENT, DONT_FRAGMENT = 10, 0, 2
COMPRESSED_TTL = 64

ECHO_REQUEST, ECHO_REPLY, ECHO_HEADER = 8, 0, struct.Struct(">BBHHH")
IP_HEADER = 20


def udp_socket(address, port=ANY_PORT, discover=MAY_FRAGMENT):
    it = socket.socket(socket.AF_INET, socket.SOCK_DGRAM)
    it.setsockopt(socket.IPPROTO_IP, IP_MTU_DISCOVER, discover)
    it.setsockopt(socket.IPPROTO_IP, socket.IP_MULTICAST_TTL, COMPRESSED_TTL)
    it.setsockopt(socket.IPPROTO_IP, socket.IP_MULTICAST_LOOP, 0)
    it.bind((address, port))
    return it


def answer(own):
    """Sends back each datagram, of a group too, and all octets of each connection."""
    member = udp_socket(GROUP, GROUP_PORT)
    member.setsockopt(socket.IPPROTO_IP, socket.IP_ADD_MEMBERSHIP, socket.inet_aton(GROUP) + socket.inet_aton(own))
    # By what hears them, what datagrams are answered from: to a group from an address of one's own.
    sockets = {it: it for it in (udp_socket(own, PORT), udp_socket(own, SPELLED_PORT))}
    sockets[member] = udp_socket(own)
    listener = socket.create_server((own, PORT))
    print("ready", flush=True)
    while True:
        for it in select.select([*sockets, listener], [], [])[0]:
            if it is listener:
                answer_connection(listener.accept()[0])
            else:
                octets, source = it.recvfrom(65536)
                sockets[it].sendto(octets, source)


def answer_connection(connection):
    with contextlib.suppress(OSError), connection:
        connection.settimeout(PATIENCE)
        while octets := connection.recv(65536):
            connection.sendall(octets)


def asked(it, questions, destination):
    """Sends datagrams, all at once, and answers how many of them came back; None where anything else came."""
    for octets in questions:
        it.sendto(octets, destination)
    missing, end = set(questions), time.monotonic() + PATIENCE
    while missing and select.select([it], [], [], max(end - time.monotonic(), 0))[0]:
        octets = it.recv(65536)
        if octets not in missing:
            return None
        missing.remove(octets)
    return len(questions) - len(missing)


def in_turn(it, questions, destination):
    """Sends datagrams, each behind the answer to the one before."""
    counts = [asked(it, [octets], destination) for octets in questions]
    return None if None in counts else sum(counts)


def texts(name, rounds, size=0):
    """The data of so many datagrams, of so many octets at least."""
    return [f"{name} {at} ".encode().ljust(size, b".") for at in range(rounds)]


def checksum(octets):
    total = sum(octets[0::2]) * 256 + sum(octets[1::2])
    while total > 0xFFFF:
        total = total % 0x10000 + total // 0x10000
    return total ^ 0xFFFF


def echo(kind, number, data):
    header = ECHO_HEADER.pack(kind, 0, 0, 0, number)
    return ECHO_HEADER.pack(kind, 0, checksum(header + data), 0, number) + data


def is_pinged(it, other, number, data):
    """Sends a ping, and answers whether it is answered."""
    it.sendto(echo(ECHO_REQUEST, number, data), (other, 0))
    end = time.monotonic() + PATIENCE
    while select.select([it], [], [], max(end - time.monotonic(), 0))[0]:
        # All ICMP that the system gets comes here.
        if it.recv(65536)[IP_HEADER:] == echo(ECHO_REPLY, number, data):
            return True
    return False


def pings(other, rounds, size):
    data = bytes(at % 251 for at in range(size))
    with socket.socket(socket.AF_INET, socket.SOCK_RAW, socket.IPPROTO_ICMP) as it:
        return sum(is_pinged(it, other, number, data) for number in range(rounds))


def stream(other, octets):
    """How many octets come back over a connection."""
    with socket.create_connection((other, PORT), PATIENCE) as connection:
        connection.sendall(octets)
        connection.shutdown(socket.SHUT_WR)
        back = b""
        while piece := connection.recv(65536):
            back += piece
    return len(back) if back == octets else None


# What may be asked, by name: with the own address, the other one, and how often.
KINDS = {
    "pings": lambda own, other, rounds: pings(other, rounds, 56),
    "long-pings": lambda own, other, rounds: pings(other, rounds, 1000),
    "datagrams": lambda own, other, rounds: in_turn(udp_socket(own), texts("how are you", rounds), (other, PORT)),
    "spelled-ports": lambda own, other, rounds: in_turn(udp_socket(own), texts("and you", rounds), (other, SPELLED_PORT)),
    "plain": lambda own, other, rounds: in_turn(udp_socket(own, discover=DONT_FRAGMENT), texts("plain", rounds), (other, PORT)),
    "long": lambda own, other, rounds: in_turn(udp_socket(own), texts("at length", rounds, 1000), (other, PORT)),
    "at-once": lambda own, other, rounds: asked(udp_socket(own), texts("ten", 10), (other, PORT)),
    "group": lambda own, other, rounds: in_turn(udp_socket(own), texts("all", rounds), (GROUP, GROUP_PORT)),
    "connection": lambda own, other, rounds: stream(other, b"to and fro " * 60),
}


def ask(own, other, rounds, kinds):
    for kind in kinds:
        if (own, kind) == (RADIO, "group"):
            continue
        count = KINDS[kind](own, other, rounds)
        print(f"{own} {kind} {'wrong' if count is None else count}", flush=True)


def both(rounds, kinds):
    """Asks from either side, while both answer."""
    itself = [sys.executable, __file__]
    sides = [(itself, HOST, RADIO), (["at-radio", *itself], RADIO, HOST)]
    answering = [subprocess.Popen([*words, "answer", own], stdout=subprocess.PIPE) for words, own, _ in sides]
    for it in answering:
        it.stdout.readline()
    for words, own, other in sides:
        subprocess.run([*words, "ask", own, other, str(rounds), *kinds], check=False)
    for it in answering:
        it.terminate()
        it.wait()


if __name__ == "__main__":
    WORD, *WORDS = sys.argv[1:]
    if WORD == "answer":
        answer(*WORDS)
    elif WORD == "ask":
        ask(WORDS[0], WORDS[1], int(WORDS[2]), WORDS[3:])
    else:
        both(int(WORDS[0]), WORDS[1:])
