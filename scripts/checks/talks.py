"""Talks of the radio with a run that it shares no code with: over pipes, and through the bridge between two network namespaces."""

import contextlib
import itertools
import os
import pathlib
import random
import signal
import subprocess
import sys
import tempfile

from checks import recordings as it
from checks.bridge import comes_true, expect_run_as_over_files
from checks.hearing import hear
from checks.live import missing
from checks.pipes import OF_DOWNLINK, PATIENCE, live, side_by_side
from checks.program import Room

BRIDGE = pathlib.Path(__file__).resolve().parents[2] / "share/bridge"
TALKING = pathlib.Path(__file__).with_name("talking.py").resolve()
sys.path.insert(0, str(BRIDGE))

import dmr  # noqa: E402
import packets  # noqa: E402
from station import Path, Station  # noqa: E402

RADIO, GATEWAY = 2, 1
HOST_END, RADIO_END = (bytes([12, 0, 0, 1]), 5016), (bytes([12, 0, 0, 2]), 5018)

SLOTS = 1, 2
KIND_OF_DATAGRAM = 0
OCTETS_OF_CACH = 3
CONFIRMED, FULL_RATE = 1, 2


def records_of(octets, size):
    """The records of a list, each as what stands in front of its octets, so many of them, and its octets."""
    at = 8
    while at < len(octets):
        begin = at + size
        at = begin + int.from_bytes(octets[begin - 2 : begin], "big")
        yield octets[begin - size : begin], octets[begin:at]


def datagrams_received(octets):
    """The datagrams of a received file: each with its frame and its slot."""
    return [(int.from_bytes(head[1:5], "big"), head[5], octets) for head, octets in records_of(octets, 12)
            if head[6] == KIND_OF_DATAGRAM]


def slots_of(octets, size):
    """The slots of a recording whose bursts have so many octets with their tags: each without its tag."""
    at = 8
    while at < len(octets):
        end = at + (size if octets[at] else 1)
        yield octets[at + 1 : end]
        at = end


def headers_in(downlink):
    """The data headers in a downlink that can be read."""
    bursts = [dmr.DataBurst.read(slot[OCTETS_OF_CACH:]) for slot in slots_of(downlink, OF_DOWNLINK) if slot]
    headers = [packets.read_header(burst.octets) for burst in bursts if burst and burst.data_type == dmr.DataType.DATA_HEADER]
    return [header for header in headers if header]


class Talk:
    """A radio that talks with a run over pipes, a frame at a time."""

    def __init__(self, run, slot, mode, loss=0, errors=0):
        self.run, self.slot, self.mode = run, slot, mode
        rate = dmr.DataType.RATE_FULL if mode & FULL_RATE else dmr.DataType.RATE_HALF
        self.station = Station(RADIO, GATEWAY, is_confirmed=bool(mode & CONFIRMED), rate=rate, chance=random.Random("station"))
        self.up, self.down = (Path(loss, errors, random.Random(way)) for way in ("uplink", "downlink"))
        self.downlink, self.received = run.output("downlink"), run.output("received")
        self.frames, self.read, self.heard = 0, 8, []
        self.files = {"uplink": b"", "outgoing": b""}
        self.put("uplink", it.UPLINK_HEAD)
        self.put("outgoing", it.OUTGOING_HEAD + it.outgoing_record(1, octets=b""))

    def put(self, name, octets):
        self.files[name] += octets
        self.run.put(name, octets)

    def next_slot(self):
        """The next slot of the downlink: a CACH and a burst, or nothing."""
        while True:
            octets = self.downlink.octets[self.read : self.read + 37]
            size = (37 if octets[0] else 1) if octets else 37
            if len(octets) >= size:
                self.read += size
                return octets[1:size]
            if not self.downlink.takes(PATIENCE):
                raise EOFError

    def frame(self, to_radio=None):
        """A frame of both recordings; this datagram is what the outgoing list has for the next frame but one."""
        slots = [self.next_slot() for _ in SLOTS]
        self.received.takes(0)
        self.station.hear(self.down.passed(slots[self.slot - 1][3:] or None))
        self.heard += self.station.receiver.datagrams
        self.station.receiver.datagrams.clear()
        said = self.up.passed(self.station.say())
        self.put("uplink", b"".join(b"\1" + said if said and slot == self.slot else b"\0" for slot in SLOTS))
        self.put("outgoing", it.outgoing_record(self.frames + 2, self.slot, self.mode, to_radio or b""))
        self.frames += 1

    def go_on(self, to_radio, to_host, spacing):
        """Sends datagrams one way, then the other one, with so many frames for each. Answers whether the run goes on till then."""
        try:
            for datagram in to_radio:
                for piece in (datagram, *[None] * spacing):
                    self.frame(piece)
            for datagram in to_host:
                self.station.offer(datagram)
                for _ in range(spacing):
                    self.frame()
        except EOFError:
            return False
        return True


def questions(count, source, destination):
    return [it.datagram(source, destination, b"number %d" % at + bytes(3 * at)) for at in range(count)]


def expect_talk(report, name, mode, slot=1, count=4, spacing=120, **chances):
    """Each datagram comes, once and in order, one way and then the other one; the run is the run over the files of its pipes."""
    to_radio, to_host = questions(count, HOST_END, RADIO_END), questions(count, RADIO_END, HOST_END)
    with Room(report) as room, live(room, "uplink", "outgoing", "downlink", "received") as run:
        talk = Talk(run, slot, mode, **chances)
        goes_on = talk.go_on(to_radio, to_host, spacing)
        ran = run.at_end()
        report.expect(f"{name}: the run goes on to the end", goes_on, ran)
        report.expect(f"{name}: what the radio hears", talk.heard == to_radio, (len(talk.heard), talk.heard))
        received = [octets for *_, octets in datagrams_received(talk.received.octets)]
        report.expect(f"{name}: what the gateway hears", received == to_host, (len(received), received))
        if mode & CONFIRMED:
            told = f" delivered {count} sent 0 given-up 0 "
            report.expect(f"{name}: all are delivered", talk.station.sender.delivered == count and told in ran.out.decode(), ran)
        room.uplink.write_bytes(talk.files["uplink"])
        room.outgoing.write_bytes(talk.files["outgoing"])
        over_files = room.run()
        report.expect(f"{name}: the line", (ran.status, ran.out) == (0, over_files.out), (ran, over_files))
        is_so = room.outputs() == [talk.downlink.octets, talk.received.octets]
        report.expect(f"{name}: the run over files", is_so, "other octets")
        return talk


def expect_asked_again(report, name, talk):
    """Each side asks for blocks that are missing, and the other one sends these alone. All of it stands in the downlink."""
    headers = headers_in(talk.downlink.octets)
    for source in (RADIO, GATEWAY):
        own = [header for header in headers if header.source == source]
        asks = [it for it in own if isinstance(it, packets.Response) and it.answer == packets.Answer.SELECTIVE]
        report.expect(f"{name}: {source} asks for what is missing", asks, own)
        partial = [it for it in own if isinstance(it, packets.PacketHeader) and not it.is_full]
        report.expect(f"{name}: {source} sends what is missing", partial, own)


def check_with_run(report):
    """In each mode and slot without losses; and confirmed with 3 % of the bursts lost and 0.2 % of the bits wrong."""
    for mode, slot in itertools.product(range(4), SLOTS):
        expect_talk(report, f"over pipes, mode {mode}, slot {slot}", mode, slot, spacing=60)
    talk = expect_talk(report, "over pipes, with losses", CONFIRMED, count=40, loss=300, errors=20)
    expect_asked_again(report, "over pipes, with losses", talk)
    repeats = talk.station.receiver.repeats
    report.expect("a packet whose answer was lost came again", repeats > 0, repeats)


# How often each side asks, and how many answers it gets of each kind of question where nothing is lost.
ROUNDS = 2
KINDS = dict.fromkeys(("pings", "long-pings", "datagrams", "spelled-ports", "plain", "long", "group"), ROUNDS)
ALL = {**KINDS, "at-once": 10, "connection": 660}

# With losses a datagram may have no try left. So it is asked often, and most of the answers have to come.
LOSSY_ROUNDS = 10
MOST = {"pings": 8, "datagrams": 8}

# How long a talk goes on at most, in seconds.
LIMIT = 300


def lines_of_runs(printed):
    """The lines of runs among those that were printed."""
    return [line for line in printed.splitlines() if " repeated " in line]


def runs_in(folder):
    """The runs that are recorded in a folder: what the four files of each are named, without their endings."""
    return sorted((file.with_suffix("") for file in folder.glob("*.dmru")), key=lambda run: int(run.name))


def expect_runs_over_files(report, name, folder, lines):
    """Each run that was recorded wrote and printed what the run over its files does."""
    runs = runs_in(folder)
    report.expect(f"{name}: runs are recorded", len(runs) == len(lines) > 0, (runs, lines))
    for run, line in zip(runs, lines):
        expect_run_as_over_files(report, f"{name}: run {run.name}", run, line)


def ended(words, **how):
    """How words ended, and what was printed. The status is None where they go on for long."""
    words = [str(word) for word in words]
    try:
        return subprocess.run(words, capture_output=True, text=True, timeout=LIMIT, check=False, **how)
    except subprocess.TimeoutExpired as fault:
        return subprocess.CompletedProcess(words, None, str(fault.stdout), str(fault.stderr))


def talked(report, folder, of_bridge, of_radio, rounds, kinds):
    """Lets both sides ask and answer."""
    options = ["--bridge", f"{of_bridge} --record {folder}", "--radio", f"{of_radio} --frame 0"]
    talking = [sys.executable, TALKING, "both", rounds, *kinds]
    return ended([BRIDGE / "two-namespaces", "--program", report.started_for(["run"]), *options, *talking])


def expect_talk_between_namespaces(report, name, of_bridge, of_radio, rounds, least):
    """Of each kind of question each side gets so many answers at least, and each run is the run over its files."""
    with tempfile.TemporaryDirectory(prefix="dmrgate-check-") as folder:
        ran = talked(report, folder, of_bridge, of_radio, rounds, least)
        report.expect(f"{name}: ended well", (ran.returncode, ran.stderr) == (0, ""), ran)
        lines = ran.stdout.splitlines()
        for address, kind in itertools.product(("12.0.0.1", "12.0.0.2"), least):
            counts = [line.split()[2] for line in lines if line.split()[:2] == [address, kind]]
            # A gateway is in no group.
            lines_of_kind = 0 if (address, kind) == ("12.0.0.2", "group") else 1
            is_enough = all(count.isdigit() and int(count) >= least[kind] for count in counts)
            report.expect(f"{name}: {kind} of {address}", len(counts) == lines_of_kind and is_enough, (counts, ran))
        expect_runs_over_files(report, name, pathlib.Path(folder), lines_of_runs(ran.stdout))


def check_unconfirmed(report):
    expect_talk_between_namespaces(report, "unconfirmed", "", "", ROUNDS, ALL)


def check_confirmed(report):
    expect_talk_between_namespaces(report, "confirmed", "--confirmed --slot 2", "--confirmed --slot 2", ROUNDS, ALL)


def check_full_rate(report):
    mode = "--confirmed --full-rate"
    expect_talk_between_namespaces(report, "confirmed at rate 1", mode, mode, ROUNDS, ALL)


def check_losses(report):
    losses = "--confirmed --loss 300 --errors 20 --seed 1"
    expect_talk_between_namespaces(report, "confirmed, with losses", "--confirmed", losses, LOSSY_ROUNDS, MOST)


# Commands between the namespaces: one fails behind a ping that was answered, and one waits until the bridge has ended.
PING_AND_FAIL = f"{sys.executable} {TALKING} ask 12.0.0.1 12.0.0.2 1 pings && exit 7"
UNTIL_THE_END = "while ip link show dmr0; do sleep 0.1; done >/dev/null 2>&1"

# The octets of a downlink's head and of ten silent frames.
SOME_FRAMES = 8 + 10 * 2


@contextlib.contextmanager
def two_folders():
    """A folder in which runs are recorded, and one for temporary files of others."""
    with tempfile.TemporaryDirectory(prefix="dmrgate-check-") as folder:
        kept, own = pathlib.Path(folder, "kept"), pathlib.Path(folder, "own")
        kept.mkdir()
        own.mkdir()
        yield kept, own


def check_ends(report):
    """The status is that of the command, or 1 where the bridge or the radio failed; a wrong option of the radio is told."""
    nowhere, option = "error: /nowhere/dmrgate: No such file or directory\n", "error: argument --slot: '3' is not in 1..=2\n"
    for program, of_radio, command, status, told in (
        (report.started_for(["run"]), "--frame 0", PING_AND_FAIL, 7, ""),
        ("/nowhere/dmrgate", "--frame 0", UNTIL_THE_END, 1, nowhere),
        (report.started_for(["run"]), "--slot 3", "exit 7", 1, option),
    ):
        name = f"namespaces that end with status {status}, {told!r}"
        with two_folders() as (kept, own):
            options = ["--program", program, "--bridge", f"--record {kept}", "--radio", of_radio]
            words = [BRIDGE / "two-namespaces", *options, "sh", "-c", command]
            ran = ended(words, env={**os.environ, "TMPDIR": str(own)})
            is_so = ran.returncode == status and ran.stderr.startswith(told) and bool(ran.stderr) == bool(told)
            report.expect(name, is_so, ran)
            report.expect(f"{name}: nothing is left behind", not os.listdir(own), os.listdir(own))
            if told:
                report.expect(f"{name}: no run is recorded", not os.listdir(kept), os.listdir(kept))
            else:
                expect_runs_over_files(report, name, kept, lines_of_runs(ran.stdout))


def processes_of(folder):
    """The processes that keep temporary files in a folder, by their numbers: the words of each."""
    found, mark = {}, f"TMPDIR={folder}".encode()
    for process in pathlib.Path("/proc").glob("[0-9]*"):
        # Others' can't be read, and one may end meanwhile.
        with contextlib.suppress(OSError):
            if mark in (process / "environ").read_bytes().split(b"\0"):
                found[int(process.name)] = (process / "cmdline").read_text().split("\0")
    return found


def killed(program):
    """An end: this one of the processes is killed."""

    def end(_script, own):
        for number, words in processes_of(own).items():
            if str(program) in words[:2]:
                os.kill(number, signal.SIGKILL)

    return end


def asked_to_end(number):
    """An end: all are sent a signal, as by a terminal."""
    return lambda script, _own: os.killpg(script.pid, number)


def expect_none_left(report, name, end, is_up=True, lines=(0, 1)):
    """A bridge and a radio end in some way, once all are there and a run goes on, or as soon as the radio is there. No process
    goes on, and no file is left but those of the run. How many lines of it are printed is one of these numbers. Where one is, the
    run over its files writes and prints the same, and else it writes what begins with the same."""
    with two_folders() as (kept, own):
        options = ["--program", report.started_for(["run"]), "--bridge", f"--record {kept}"]
        words = [BRIDGE / "two-namespaces", *options, "sh", "-c", f"echo up && {UNTIL_THE_END}"]
        how = {"env": {**os.environ, "TMPDIR": str(own)}, "start_new_session": True, "preexec_fn": hear}
        with subprocess.Popen(words, stdout=subprocess.PIPE, stderr=subprocess.DEVNULL, **how) as script:
            if is_up:
                script.stdout.readline()
            is_there = (lambda: has_gone_on(kept)) if is_up else (lambda: [*own.glob("*/modem")])
            report.expect(f"{name}: all are there that are waited for", comes_true(is_there))
            end(script, own)
            is_over = comes_true(lambda: not processes_of(own))
            left = processes_of(own)
            for number in left:
                os.kill(number, signal.SIGKILL)
            printed = lines_of_runs(script.stdout.read().decode())
        report.expect(f"{name}: no process is left", is_over, left)
        report.expect(f"{name}: the status tells so", script.returncode != 0, script.returncode)
        report.expect(f"{name}: no file is left", not os.listdir(own), os.listdir(own))
        runs = runs_in(kept)
        is_so = len(runs) in ((1,) if is_up else (0, 1)) and len(printed) in lines
        report.expect(f"{name}: one run is recorded", is_so, (os.listdir(kept), printed))
        for run, line in itertools.zip_longest(runs, printed[: len(runs)]):
            expect_run_as_over_files(report, f"{name}: run {run.name}", run, line)


def has_gone_on(kept):
    """Whether a run that is recorded in this folder has gone on for some frames, all of them silent."""
    return any(file.stat().st_size >= SOME_FRAMES for file in kept.glob("*.dmrd"))


def check_killed(report):
    """Whoever is killed between namespaces, and whenever all are asked to end, nobody goes on."""
    bridge, radio, script = (BRIDGE / name for name in ("dmrgate-bridge", "radio", "two-namespaces"))
    for program, lines in ((report.started_for(["run"]), 0), (bridge, 0), (radio, 1), (script, 1)):
        expect_none_left(report, f"{program.name} is killed", killed(program), lines=(lines,))
    for number, is_up in itertools.product((signal.SIGINT, signal.SIGTERM, signal.SIGHUP), (True, False)):
        name = f"{number!r} {'behind' if is_up else 'before'} the start"
        expect_none_left(report, name, asked_to_end(number), is_up)


BETWEEN_NAMESPACES = check_unconfirmed, check_confirmed, check_full_rate, check_losses, check_ends, check_killed


def check(report):
    check_with_run(report)
    if lacking := missing("nsenter", "setpriv"):
        report.skip(len(BETWEEN_NAMESPACES), lacking)
        return
    side_by_side(report, *BETWEEN_NAMESPACES)
