"""A live gateway whose radio modem is the test, and the hosts behind it. All of it is in a network namespace of its own."""

import contextlib
import ctypes
import fcntl
import itertools
import os
import pathlib
import select
import socket
import struct
import subprocess
import tempfile
import time

from checks import recordings as it
from checks.pipes import OF_DOWNLINK, OF_UPLINK, in_frames
from checks.program import Ran, Room

# How long a test waits for what has to come, in seconds. It goes on as soon as that is there.
PATIENCE = 30

# How long the script waits for a modem that doesn't read, in seconds. An end that waits for none takes less.
WAITED_FOR = 5

BRIDGE, DEVICE = "share/bridge/dmrgate-bridge", "dmr0"

# The gateway's address and a radio's, and the ports of the host and of the radio.
GATEWAY, RADIO = "12.0.0.1", "12.0.0.2"
HOST_PORT, RADIO_PORT = 5016, 5018

SILENCE = b"\0\0"

# Options of Linux that the socket library has no names for.
IP_MTU_DISCOVER, PMTUDISC_DONT, PMTUDISC_DO = 10, 0, 2
PR_SET_CHILD_SUBREAPER, SIOCGIFMTU = 36, 0x8921

# The numbers of a run, and those of a gateway, as they are printed.
OF_RUN = "frames", "repeated", "received", "delivered", "sent", "given-up", "refused", "unoffered"
OF_GATEWAY = (
    "to-radios", "refused", "not-for-radios", "to-hosts", "not-of-the-radio", "not-datagrams", "not-taken", "not-for-hosts", "late",
)

# The files of a run, by their endings.
KINDS = "dmru", "dmro", "dmrd", "dmri"


def in_slot(slot, burst):
    """A frame of the uplink with a burst in one slot, or with silence alone where there is none."""
    slots = [b"\1" + burst if burst and at == slot else b"\0" for at in (1, 2)]
    return b"".join(slots)


def take_orphans():
    """Has processes that are left behind become children of this one, so that they can be seen."""
    ctypes.CDLL(None, use_errno=True).prctl(PR_SET_CHILD_SUBREAPER, 1, 0, 0, 0)


def comes_true(is_so):
    """Waits until something is so. Answers whether it came to that."""
    end = time.monotonic() + PATIENCE
    while not is_so():
        if time.monotonic() > end:
            return False
        time.sleep(0.005)
    return True


def are_children_gone():
    """Whether this process has no children, but for such that have ended."""
    try:
        while os.waitpid(-1, os.WNOHANG)[0]:
            pass
        return False
    except ChildProcessError:
        return True


def children_of(pid):
    """The processes that a process has started, which go on."""
    found = []
    for folder in pathlib.Path("/proc").glob("[0-9]*"):
        with contextlib.suppress(OSError):
            fields = (folder / "stat").read_text().rpartition(")")[2].split()
            if int(fields[1]) == pid and fields[0] != "Z":
                found.append(int(folder.name))
    return found


def is_device_there(device=DEVICE):
    return device in [name for _, name in socket.if_nameindex()]


def mtu_of(device):
    """The longest packet that goes to a device."""
    with socket.socket(socket.AF_INET, socket.SOCK_DGRAM) as asked:
        return struct.unpack_from("i", fcntl.ioctl(asked, SIOCGIFMTU, struct.pack("40s", device.encode())), 16)[0]


def call_ip(*commands):
    for command in commands:
        subprocess.run(["ip", *command.split()], check=True)


def add_routes(mtu=1400):
    """The routes of the device, which it loses when it is set down."""
    call_ip(
        f"route add 12.0.0.0/8 dev {DEVICE} src {GATEWAY} mtu lock {mtu}",
        f"route add 225.0.0.0/8 dev {DEVICE} mtu lock {mtu}",
    )


def numbers_of(line):
    """The numbers of a line, by their names."""
    words = line.split()
    return dict(zip(words[::2], map(int, words[1::2])))


def outgoing_in(octets):
    """The records of an outgoing list: frame, slot, mode and octets of each."""
    records, at = [], 8
    while at < len(octets):
        frame, size = (int.from_bytes(octets[at + first : at + last], "big") for first, last in ((1, 5), (7, 9)))
        records.append((frame, octets[at + 5], octets[at + 6], octets[at + 9 : at + 9 + size]))
        at += 9 + size
    return records


class Host:
    """A UDP socket of a host, at the gateway's address where no other one is told."""

    def __init__(self, address=GATEWAY, **options):
        self.socket = socket.socket(socket.AF_INET, socket.SOCK_DGRAM)
        self.socket.bind((address, HOST_PORT))
        self.set(**options)

    def set(self, discover=None, ttl=None, broadcast=None):
        """Sets options of the socket."""
        if discover is not None:
            self.socket.setsockopt(socket.IPPROTO_IP, IP_MTU_DISCOVER, discover)
        if ttl is not None:
            self.socket.setsockopt(socket.IPPROTO_IP, socket.IP_MULTICAST_TTL, ttl)
        if broadcast is not None:
            self.socket.setsockopt(socket.SOL_SOCKET, socket.SO_BROADCAST, broadcast)

    def send(self, octets, address=RADIO):
        self.socket.sendto(octets, (address, RADIO_PORT))

    def takes(self, seconds=PATIENCE):
        """The next datagram with its source, or None where none comes in so many seconds."""
        if not select.select([self.socket], [], [], seconds)[0]:
            return None
        return self.socket.recvfrom(65536)

    def close(self):
        self.socket.close()


class Gateway:
    """The script that is tried, while it runs. The test is its modem, at a Unix socket where no other is told."""

    def __init__(
        self, report, *options, llid=1, modem=None, clock="modem", program=None, folder=None, streams=None, prepare=None, by=()
    ):
        self.report, self.llid, self.name = report, llid, f"a gateway with {options}"
        self.held = tempfile.TemporaryDirectory(prefix="dmrgate-check-")
        self.path = pathlib.Path(self.held.name)
        self.kept = folder or self.path / "kept"
        self.kept.mkdir(exist_ok=True)
        self.first = 1 + len([*self.kept.glob("*.dmru")])
        self.listener = socket.socket(socket.AF_UNIX)
        self.listener.settimeout(PATIENCE)
        self.listener.bind(str(self.path / "modem.sock"))
        self.listener.listen()
        words = [*by, report.top / BRIDGE, "--program", program or report.programs["dmrgate"], "--llid", llid, "--clock", clock]
        words += ["--modem", modem or self.path / "modem.sock", "--record", self.kept, *options]
        with open(self.path / "out", "wb") as out, open(self.path / "err", "wb") as err:
            streams = {"stdin": subprocess.DEVNULL, "stdout": out, "stderr": err, **(streams or {})}
            self.process = subprocess.Popen([str(word) for word in words], bufsize=0, preexec_fn=prepare, **streams)
        self.modem, self.got, self.at = None, b"", 0

    def __enter__(self):
        return self

    def __exit__(self, kind, *_):
        self.process.kill()
        self.process.wait()
        for end in (self.modem, self.listener, self.process.stdin, self.process.stdout):
            if end:
                end.close()
        if kind is None:
            self.expect_as_over_files()
        self.held.cleanup()

    def accept(self):
        """The script connects to the modem."""
        self.modem = self.listener.accept()[0]
        self.modem.settimeout(PATIENCE)

    def begin(self, head=it.UPLINK_HEAD):
        """The script connects, and sends the head of the downlink and its first frame. Then the modem sends its head."""
        self.accept()
        self.take_head()
        self.modem.sendall(head)
        return self

    def take_head(self):
        while len(self.got) < 8:
            self.take_more()
        self.at = 8
        self.take_frame()

    def take_more(self):
        piece = self.modem.recv(65536)
        if not piece:
            raise EOFError(f"the downlink ends behind {self.got[-80:]!r}: {self.printed()}")
        self.got += piece

    def take_for(self, seconds):
        """Takes what comes in so many seconds."""
        end = time.monotonic() + seconds
        while (left := end - time.monotonic()) > 0:
            if select.select([self.modem], [], [], left)[0]:
                self.take_more()

    def take_frame(self):
        """Waits for the next frame of the downlink."""
        size = 0
        for _ in range(2):
            while len(self.got) <= self.at + size:
                self.take_more()
            size += OF_DOWNLINK if self.got[self.at + size] else 1
        while len(self.got) < self.at + size:
            self.take_more()
        self.at += size

    def exchange(self, *frames):
        """Sends frames of the uplink, and waits behind each for the next one of the downlink."""
        for frame in frames:
            self.modem.sendall(frame)
            self.take_frame()

    def be_silent(self, frames):
        self.exchange(*[SILENCE] * frames)

    def send_bursts(self, slot, *bursts):
        """Sends bursts in a slot, a frame each."""
        self.exchange(*(in_slot(slot, burst) for burst in bursts))

    def close(self):
        """The side of the modem ends. Answers how many frames of the downlink come behind that."""
        self.modem.shutdown(socket.SHUT_WR)
        return self.take_rest()

    def take_rest(self):
        """Takes what there is to the end of the downlink. Answers how many frames these are."""
        before = len(in_frames(self.got[: self.at], OF_DOWNLINK))
        with contextlib.suppress(EOFError, ConnectionError):
            while True:
                self.take_more()
        return len(in_frames(self.got, OF_DOWNLINK)) - before

    def printed(self):
        return (self.path / "out").read_bytes(), (self.path / "err").read_bytes()

    def ended(self):
        """How it ended; its status is None where it goes on for long."""
        with contextlib.suppress(subprocess.TimeoutExpired):
            self.process.wait(PATIENCE)
        return Ran(self.process.returncode, *self.printed())

    def ended_at_once(self):
        """How it ended, without waiting for a modem that doesn't read."""
        begun = time.monotonic()
        ran = self.ended()
        waited = time.monotonic() - begun
        self.expect(f"{self.name}: it ends at once", waited < WAITED_FOR, waited)
        return ran

    def run(self):
        """The run that it has started."""
        found = []
        comes_true(lambda: found.extend(children_of(self.process.pid)) or found)
        return found[0]

    def file(self, kind, run=1):
        return (self.kept / f"{run}.{kind}").read_bytes()

    def records(self, run=1):
        """The datagrams that a run was given: frame, slot, mode and octets of each."""
        return [record for record in outgoing_in(self.file("dmro", run)) if record[3]]

    def strip(self, run=1):
        """The picture of a downlink, both slots."""
        ran = self.report.call("show", self.kept / f"{run}.dmrd", "--strip")
        rows = [line.split() for line in ran.out.decode().splitlines()]
        return ["".join(marks for _frame, slot, marks in rows if slot == wanted) for wanted in "12"]

    def expect(self, name, is_so, why=""):
        self.report.expect(name, is_so, why)

    def expect_order(self, name, *runs, counts="", **how):
        """It ended in order, and printed the numbers of these runs and of the gateway, of which those that aren't told are 0."""
        ran, lines, last = self.expect_ended(name, len(runs), **how)
        self.expect_numbers(f"{name}: the gateway", last, OF_GATEWAY, counts)
        for number, (line, numbers) in enumerate(zip(lines, runs), self.first):
            self.expect_numbers(f"{name}: run {number}", line, OF_RUN, numbers)
        return ran

    def expect_ended(self, name, runs, behind=5, status=0, error=b"", is_beside=False):
        """It ended at once, and printed a line for each of so many runs, and one of its own, which are answered. The modem got all
        downlinks, so many frames behind its end. Nothing is left behind."""
        self.name = name
        got_behind = self.close() if behind is not None else None
        ran = self.ended_at_once()
        self.expect_nothing_left(name)
        self.expect(f"{name}: the frames behind the end", got_behind == behind, got_behind)
        told, others = (ran.err, ran.out) if is_beside else (ran.out, ran.err)
        self.expect(f"{name}: its end", (ran.status, others) == (status, error), ran)
        *lines, last = told.decode().splitlines() or [""]
        self.expect(f"{name}: {runs} runs", len(lines) == runs, ran)
        numbers = range(self.first, self.first + runs)
        wanted = it.DOWNLINK_HEAD + b"".join(self.file("dmrd", number)[8:] for number in numbers)
        self.expect(f"{name}: what the modem got", self.got == wanted, (len(self.got), len(wanted)))
        wanted = {f"{number}.{kind}" for number in range(1, self.first + runs) for kind in KINDS}
        self.expect(f"{name}: the files", {file.name for file in self.kept.iterdir()} == wanted, [*self.kept.iterdir()])
        return ran, lines, last

    def expect_nothing_left(self, name):
        """No process is left behind, and no device. The script has waited for both."""
        self.expect(f"{name}: nothing is left behind", are_children_gone() and not is_device_there(), children_of(os.getpid()))

    def expect_numbers(self, name, line, names, told):
        """A line has these numbers. A system may send by itself what is for no radio."""
        wanted = {**dict.fromkeys(names, 0), **numbers_of(told)}
        has = numbers_of(line)
        if "not-for-radios" not in told and "not-for-radios" in has:
            wanted["not-for-radios"] = has["not-for-radios"]
        self.expect(f"{name}: its numbers", list(has.items()) == list(wanted.items()), line)

    def expect_as_over_files(self):
        """Each run is the run over its files. One that didn't end in order printed no line, and what it wrote is a front."""
        told = b"".join(self.printed()).decode().splitlines()
        lines = [line for line in told if line.startswith("frames ")]
        count = len([*self.kept.glob("*.dmru")])
        for number, line in itertools.zip_longest(range(self.first, count + 1), lines):
            expect_run_as_over_files(self.report, f"{self.name}: run {number}", self.kept / str(number), line, self.llid)


def expect_run_as_over_files(report, name, recorded, line, llid=1):
    """A run over the inputs of a recorded run writes its outputs, and prints its line, where it has one. Its four files are named
    alike, but for their endings."""
    uplink, outgoing, *outputs = [recorded.with_suffix(f".{kind}").read_bytes() for kind in KINDS]
    with Room(report, uplink, outgoing) as room:
        ran = room.run("--llid", llid)
        over_files = room.outputs()
    if line is None:
        is_so = all(whole.startswith(output) for whole, output in zip(over_files, outputs))
        report.expect(f"{name}: a front of the outputs over files", is_so, "other octets")
        return
    report.expect(f"{name}: the line over files", (ran.status, ran.out, ran.err) == (0, f"{line}\n".encode(), b""), ran)
    report.expect(f"{name}: the outputs over files", over_files == outputs, "other octets")
    frames = [frame for frame, *_ in outgoing_in(outgoing)]
    report.expect(f"{name}: the frames of the records", frames == [*range(1, len(frames) + 1)], frames)
    given = len(in_frames(uplink, OF_UPLINK)) - 1
    report.expect(f"{name}: a record for each frame", len(frames) == given + 1, (len(frames), given))
