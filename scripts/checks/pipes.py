"""Runs beside other programs: with lists left out, with hyphens, on a terminal, and live, with inputs that come bit by bit."""

import concurrent.futures
import contextlib
import os
import select
import subprocess
import time
import tty

from checks import recordings as it
from checks.program import Ran, Report, Room, summary

# How long a test waits for what should come at once, and how long it looks whether more comes, in seconds.
PATIENCE, QUIET = 20, 0.1

# How many octets a burst has with its tag.
OF_UPLINK, OF_DOWNLINK = 34, 37

SILENT_FRAME = b"\0\0"

LINE = summary(7, 1)
INPUTS = "uplink", "outgoing"
FILES = *INPUTS, "downlink", "received"

# Two files that can't be one standard stream, and what is told of them.
SHARED = [
    (("uplink", "outgoing"), "--uplink and --outgoing can't both be standard input"),
    (("downlink", "received"), "--downlink and --received can't both be standard output"),
]


class Sample:
    """A sample: its inputs, and what a correct program writes and prints for them."""

    def __init__(self, report, name):
        files = "uplink.dmru", "outgoing.dmro", "downlink.dmrd", "received.dmri", "summary.txt"
        octets = [(report.top / "samples" / name / file).read_bytes() for file in files]
        self.uplink, self.outgoing, self.downlink, self.received, self.line = octets

    def room(self, report):
        return Room(report, self.uplink, self.outgoing)


def in_frames(recording, burst):
    """The head of a recording, and then each of its frames."""
    pieces, at = [recording[:8]], 8
    while at < len(recording):
        begin = at
        for _ in range(2):
            at += burst if recording[at] else 1
        pieces.append(recording[begin:at])
    return pieces


def received_up_to(octets, frame):
    """A received file up to the records of this frame."""
    at = 8
    while at < len(octets) and int.from_bytes(octets[at + 1 : at + 5], "big") <= frame:
        at += 12 + int.from_bytes(octets[at + 10 : at + 12], "big")
    return octets[:at]


def tick(frame):
    """A record of the outgoing list that sends nothing, and lets a run go on up to this frame."""
    return it.outgoing_record(frame, octets=b"")


class Reader:
    """What comes out of a pipe or a terminal."""

    def __init__(self, end):
        self.end, self.octets = end, b""

    def takes(self, seconds):
        """Takes what comes next; answers whether anything came in so many seconds."""
        if self.end.closed or not select.select([self.end], [], [], max(seconds, 0))[0]:
            return False
        try:
            piece = os.read(self.end.fileno(), 65536)
        except OSError:
            # A terminal that nobody has open any more.
            piece = b""
        self.octets += piece
        return bool(piece)

    def has(self, wanted, quiet=0):
        """Whether these octets come, and no more in so many seconds."""
        end = time.monotonic() + PATIENCE
        while len(self.octets) < len(wanted) and self.takes(end - time.monotonic()):
            pass
        self.takes(quiet)
        return self.octets == wanted

    def rest(self):
        """All octets, where no more come."""
        while self.takes(PATIENCE):
            pass
        return self.octets

    def __repr__(self):
        return f"{len(self.octets)} octets, ending in {self.octets[-80:]!r}"


class Live:
    """A program that runs. A file of it that is no named pipe is a standard stream."""

    def __init__(self, report, words, inputs=(), outputs=(), pass_fds=()):
        words = [str(word) for word in words]
        streams = dict.fromkeys(("stdin", "stdout", "stderr"), subprocess.PIPE)
        self.process = subprocess.Popen([report.started_for(words), *words], bufsize=0, pass_fds=pass_fds, **streams)
        self.inputs, self.outputs = dict(inputs), dict(outputs)
        self.out, self.err = Reader(self.process.stdout), Reader(self.process.stderr)

    def __enter__(self):
        return self

    def __exit__(self, *_):
        self.process.kill()
        self.process.wait()
        for end in (self.process.stdin, *self.inputs.values()):
            end.close()
        for reader in (self.out, self.err, *self.outputs.values()):
            reader.end.close()

    def put(self, name, octets):
        """Writes octets into an input. Where the program has ended, nobody reads them."""
        with contextlib.suppress(BrokenPipeError):
            self.inputs.get(name, self.process.stdin).write(octets)

    def output(self, name):
        return self.outputs.get(name, self.out)

    def ended(self):
        """How it ended; its status is None where it goes on for long."""
        for reader in self.outputs.values():
            reader.rest()
        out, err = self.out.rest(), self.err.rest()
        with contextlib.suppress(subprocess.TimeoutExpired):
            self.process.wait(PATIENCE)
        return Ran(self.process.returncode, out, err)

    def at_end(self):
        """Ends its inputs, and answers how it ended."""
        for end in (self.process.stdin, *self.inputs.values()):
            end.close()
        return self.ended()


def live(room, *named, **places):
    """Starts a run over the files of a room, these of them as named pipes."""
    inputs, outputs = {}, {}
    for name in named:
        places[name] = room.path / f"{name}-pipe"
        os.mkfifo(places[name])
        # Open before the program opens it, and without waiting for that. An input is open at both ends, and ends when it is closed.
        if name in INPUTS:
            inputs[name] = open(os.open(places[name], os.O_RDWR), "wb", buffering=0)
        else:
            outputs[name] = Reader(open(os.open(places[name], os.O_RDONLY | os.O_NONBLOCK), "rb", buffering=0))
    return Live(room.report, room.words(**places), inputs, outputs)


def live_by_descriptors(room):
    """Starts a run whose four files are pipes without names, which it opens by their descriptors."""
    inputs, outputs, its = {}, {}, {}
    for name in FILES:
        read_end, write_end = os.pipe()
        if name in INPUTS:
            its[name], inputs[name] = read_end, open(write_end, "wb", buffering=0)
        else:
            its[name], outputs[name] = write_end, Reader(open(read_end, "rb", buffering=0))
    words = room.words(**{name: f"/dev/fd/{end}" for name, end in its.items()})
    run = Live(room.report, words, inputs, outputs, its.values())
    for end in its.values():
        os.close(end)
    return run


def check_left_out(report):
    """Without an outgoing list nothing is sent, and without a received file what is received is counted."""
    for name, lists in (
        ("call", ([], ["outgoing"], ["received"])),
        ("status_received", ([], ["outgoing"], ["received"])),
        ("datagram_sent", (["outgoing"],)),
    ):
        sample = Sample(report, name)
        for given in lists:
            with sample.room(report) as room:
                ran = room.run(**{file: None for file in ("outgoing", "received") if file not in given})
                title = f"sample {name} with {given or 'neither list'}"
                report.expect(f"{title}: the line", (ran.status, ran.out, ran.err) == (0, sample.line, b""), ran)
                wanted = [sample.downlink, sample.received if "received" in given else None]
                report.expect(f"{title}: the outputs", room.outputs() == wanted, room.outputs())


def check_hyphens(report):
    """Where an output is a hyphen, it stands alone on standard output, and the line of the run on standard error."""
    sample = Sample(report, "status_received")
    for output, octets in (("downlink", sample.downlink), ("received", sample.received)):
        for place, wanted in (("-", (0, octets, sample.line)), ("/dev/stdout", (0, octets + sample.line, b""))):
            with sample.room(report) as room:
                ran = room.run(**{"outgoing": None, output: place})
                report.expect(f"{output} {place} into a pipe", (ran.status, ran.out, ran.err) == wanted, ran)
        with sample.room(report) as room:
            with open("/dev/full", "wb") as full:
                ran = room.run(**{output: "-"}, streams={"stderr": full})
            report.expect(f"{output} -, and standard error is full", (ran.status, ran.out) == (1, octets), ran)
    with Room(report, it.UPLINK_HEAD + b"\0", it.OUTGOING_HEAD) as room:
        ran = room.run(downlink="-")
        wanted = (1, it.DOWNLINK_HEAD + b"\0\0", b"error: uplink: half frame\n")
        report.expect("downlink -, and a fault behind its front", (ran.status, ran.out, ran.err) == wanted, ran)


def check_shared(report):
    """Two inputs can't both be a hyphen, nor can two outputs. Nothing is made then."""
    for files, text in SHARED:
        with Room(report, it.ONE_CSBK, it.OUTGOING_HEAD) as room:
            ran = room.run(**dict.fromkeys(files, "-"), given=it.ONE_CSBK)
            report.expect(f"{files} are hyphens", ran.is_error(text, 2), ran)
            report.expect(f"{files} are hyphens: the outputs", room.outputs() == [None, None], room.outputs())
            nowhere = dict.fromkeys(FILES, room.path / "nowhere/file")
            ran = room.run(**{**nowhere, **dict.fromkeys(files, "-")})
            report.expect(f"{files} are hyphens, and other files are nowhere", ran.is_error(text, 2), ran)


def on_terminal(started):
    """What is started with a terminal as its standard output: how it ended, and what the terminal got."""
    ours, its = os.openpty()
    with open(ours, "rb", buffering=0) as end:
        tty.setraw(its)
        ran = started(its)
        os.close(its)
        return ran, Reader(end).rest()


def run_on_terminal(room, *more, **places):
    """A run whose standard output is a terminal."""
    return on_terminal(lambda its: room.run(*more, streams={"stdout": its}, **places))


def check_terminal(report):
    """An output that is a hyphen is refused on a terminal, before anything is opened or made. By its path a terminal gets it."""
    downlink = (report.top / "samples/one_csbk/downlink.dmrd").read_bytes()
    for output, octets in (("downlink", downlink), ("received", it.RECEIVED_HEAD)):
        with Room(report, it.ONE_CSBK, it.OUTGOING_HEAD) as room:
            for places in ({}, {"uplink": room.path / "nowhere"}):
                ran, got = run_on_terminal(room, **places, **{output: "-"})
                is_so = ran.is_error(f"{output}: standard output is a terminal") and got == b""
                report.expect(f"{output} - on a terminal, {places}", is_so, (ran, got))
            ran, got = run_on_terminal(room, "--call-hang", 6, **{output: "-"})
            report.expect("settings are tested before that", ran.is_error("call hang is longer than channel hang", 2), ran)
            report.expect(f"{output} - on a terminal: the outputs", room.outputs() == [None, None], room.outputs())
            ran, got = run_on_terminal(room, **{output: "/dev/stdout"})
            is_so = (ran.status, ran.err, got) == (0, b"", octets + LINE)
            report.expect(f"{output} /dev/stdout on a terminal", is_so, (ran, got))


def expect_no_reader(report, name, run, *pieces):
    """A run ends where the head of its downlink is read, and nobody reads what is behind it."""
    with subprocess.Popen(["head", "-c", "8"], stdin=run.process.stdout, stdout=subprocess.PIPE) as process:
        head = Reader(process.stdout).rest()
        process.kill()
    run.process.stdout.close()
    for piece in pieces:
        run.put("uplink", piece)
    ran = run.ended()
    is_so = head == it.DOWNLINK_HEAD and (ran.status, ran.err) == (1, b"error: downlink: write failed\n")
    report.expect(f"nobody reads the downlink {name}", is_so, (head, ran))


def check_closed_reader(report):
    """Where nobody reads the downlink any more, the run ends, whatever its uplink has still to give."""
    # The downlink of this one is longer than a pipe has room for.
    sample = Sample(report, "mixed_long")
    with sample.room(report) as room, live(room, downlink="-") as run:
        expect_no_reader(report, "of a file", run)
    for named, uplink in (["uplink"], {}), ([], {"uplink": "-"}):
        with sample.room(report) as room, live(room, *named, **uplink, downlink="-", outgoing=None) as run:
            head, *frames = in_frames(sample.uplink, OF_UPLINK)
            run.put("uplink", head)
            expect_no_reader(report, f"of a live run, {named}", run, *frames[:9])


def check_closed_reader_of_received(report):
    """Where nobody reads what is received any more, the run ends."""
    sample = Sample(report, "status_received")
    with sample.room(report) as room, live_by_descriptors(room) as run:
        run.put("uplink", sample.uplink)
        run.put("outgoing", it.OUTGOING_HEAD)
        reader = run.output("received")
        report.expect("the head of what is received", reader.has(it.RECEIVED_HEAD), reader)
        reader.end.close()
        ran = run.at_end()
        is_so = (ran.status, ran.out, ran.err) == (1, b"", b"error: received: write failed\n")
        report.expect("nobody reads what is received", is_so, ran)


def expect_frames(report, name, reader, downlink, count, quiet=QUIET):
    """The head of a downlink is there with so many frames, and no more. Answers whether that is so."""
    is_so = reader.has(b"".join(downlink[: count + 1]), quiet)
    report.expect(f"{name}: the frames before {count}", is_so, reader)
    return is_so


def check_frames(report, *named, **places):
    """Behind a frame of the uplink the next frame of the downlink is there, and no other."""
    sample = Sample(report, "call")
    name = f"live, with {named or 'standard streams'}"
    downlink = in_frames(sample.downlink, OF_DOWNLINK)
    with sample.room(report) as room, live(room, *named, **places, outgoing=None, received=None) as run:
        for at, piece in enumerate(in_frames(sample.uplink, OF_UPLINK)):
            run.put("uplink", piece)
            if not expect_frames(report, name, run.output("downlink"), downlink, at + 1):
                return
        ran = run.at_end()
        report.expect(f"{name}: the downlink", run.output("downlink").octets == sample.downlink, run.output("downlink"))
        printed = (sample.line, b"") if named else (sample.downlink, sample.line)
        report.expect(f"{name}: the line", (ran.status, ran.out, ran.err) == (0, *printed), ran)


def check_frames_of_named_pipes(report):
    check_frames(report, "uplink", "downlink")


def check_frames_of_standard_streams(report):
    check_frames(report, uplink="-", downlink="-")


def expect_ticks_counted(report, name, run, sample, ticks):
    """A run with so many ticks wrote and printed what it does without them, but that they are refused."""
    ran = run.at_end()
    report.expect(f"{name}: the downlink", run.output("downlink").octets == sample.downlink, run.output("downlink"))
    line = sample.line.replace(b"refused 0", b"refused %d" % ticks)
    report.expect(f"{name}: the line", (ran.status, ran.out, ran.err) == (0, line, b""), ran)


def check_ticks(report):
    """Where the outgoing list is a pipe too, a frame waits for the frame of the uplink and for a record of a later frame."""
    sample, name = Sample(report, "call"), "live, with ticks"
    downlink = in_frames(sample.downlink, OF_DOWNLINK)
    with sample.room(report) as room, live(room, "uplink", "outgoing", "downlink", received=None) as run:
        reader = run.output("downlink")
        head, *frames = in_frames(sample.uplink, OF_UPLINK)
        run.put("uplink", head)
        run.put("outgoing", it.OUTGOING_HEAD)
        is_so = expect_frames(report, f"{name}, before the first", reader, downlink, 0)
        run.put("outgoing", tick(1))
        is_so = is_so and expect_frames(report, f"{name}, at the first", reader, downlink, 1, 0)
        for at, frame in enumerate(frames):
            run.put("uplink", frame)
            is_so = is_so and expect_frames(report, f"{name}, before that of frame {at + 2}", reader, downlink, at + 1)
            run.put("outgoing", tick(at + 2))
            is_so = is_so and expect_frames(report, f"{name}, at that of frame {at + 2}", reader, downlink, at + 2, 0)
        if is_so:
            expect_ticks_counted(report, name, run, sample, len(frames) + 1)


def check_descriptors(report):
    """All four files may be pipes without names. A frame and what is received in it are out before anything else is awaited."""
    sample, name = Sample(report, "confirmed_packet_received"), "live, by descriptors"
    downlink = in_frames(sample.downlink, OF_DOWNLINK)
    with sample.room(report) as room, live_by_descriptors(room) as run:
        head, *frames = in_frames(sample.uplink, OF_UPLINK)
        run.put("outgoing", it.OUTGOING_HEAD)
        front, is_so = downlink[0], True
        for at, piece in enumerate([head, *frames]):
            run.put("uplink", piece)
            run.put("outgoing", tick(at + 1))
            front += downlink[at + 1]
            is_so = is_so and run.output("downlink").has(front)
            is_so = is_so and run.output("received").has(received_up_to(sample.received, at))
        report.expect(f"{name}: each frame with what is received in it", is_so, (run.output("downlink"), run.output("received")))
        if is_so:
            expect_ticks_counted(report, name, run, sample, len(frames) + 1)
            report.expect(f"{name}: what is received", run.output("received").octets == sample.received, run.output("received"))


def check_order(report):
    """For a frame the uplink is awaited first, and then the outgoing list."""
    for faulty, piece, other in (("outgoing", b"\7", SILENT_FRAME), ("uplink", b"\7", b"")):
        with Room(report) as room, live_by_descriptors(room) as run:
            run.put("uplink", it.UPLINK_HEAD)
            run.put("outgoing", it.OUTGOING_HEAD + tick(1))
            reader = run.output("downlink")
            report.expect("the first frame comes", reader.has(it.DOWNLINK_HEAD + SILENT_FRAME), reader)
            run.put(faulty, piece)
            if other:
                report.expect("the uplink is awaited first", not run.err.takes(QUIET), run.err)
                run.put("uplink", other)
            ran = run.ended()
            is_so = (ran.status, ran.err) == (1, f"error: {faulty}: bad tag\n".encode())
            report.expect(f"a fault of the {faulty}, and no more of the other", is_so, ran)


def check_ticks_alone(report):
    """Where the outgoing list alone is a pipe, a record of it lets all frames before its own go out."""
    sample, name = Sample(report, "call"), "live, with ticks alone"
    downlink = in_frames(sample.downlink, OF_DOWNLINK)
    with sample.room(report) as room, live(room, "outgoing", "downlink", received=None) as run:
        run.put("outgoing", it.OUTGOING_HEAD)
        is_so = expect_frames(report, name, run.output("downlink"), downlink, 0)
        for frame in range(1, 13):
            run.put("outgoing", tick(frame))
            is_so = is_so and expect_frames(report, name, run.output("downlink"), downlink, frame)
        if is_so:
            expect_ticks_counted(report, name, run, sample, 12)


def check_received(report):
    """A live run writes what a run over files writes: each record of what is received behind the frame in which it is."""
    sample = Sample(report, "mixed_long")
    with sample.room(report) as room:
        ran = room.run()
        whole, received = room.outputs()
        report.expect("four records are received", b" received 4 " in ran.out, ran)
        downlink = in_frames(whole, OF_DOWNLINK)
        with live(room, "uplink", "downlink", received="-") as run:
            front = downlink[0]
            for at, piece in enumerate(in_frames(sample.uplink, OF_UPLINK)):
                run.put("uplink", piece)
                front += downlink[at + 1]
                is_so = run.output("downlink").has(front) and run.output("received").has(received_up_to(received, at))
                if not is_so:
                    break
            report.expect(f"live: what is received up to frame {at}", is_so, (run.output("downlink"), run.output("received")))
            if is_so:
                last = run.at_end()
                written = run.output("downlink").octets, run.output("received").octets
                report.expect("live: both outputs are those of a run over files", written == (whole, received), last)
                report.expect("live: so is its line", (last.status, last.err) == (0, ran.out), last)


def check_listing(report):
    """A listing of a pipe has the line of a burst as soon as the burst is there, while more of the pipe may come."""
    sample = Sample(report, "call")
    lines = report.call("show", "-", given=sample.uplink).out.splitlines(keepends=True)
    with Live(report, ["show", "-"]) as run:
        shown = 0
        for piece in in_frames(sample.uplink, OF_UPLINK):
            run.put("uplink", piece)
            # The head has a line, and so has a frame with a burst.
            shown += len(piece) > 2
            is_so = run.out.has(b"".join(lines[:shown]))
            report.expect(f"a listing of a pipe: {shown} lines", is_so, run.out)
            if not is_so:
                return
        ran = run.at_end()
        report.expect("a listing of a pipe: all lines", (ran.status, ran.out, ran.err) == (0, b"".join(lines), b""), ran)


def side_by_side(report, *checks):
    """Does checks at once, since each of them waits most of the time."""

    def done(check):
        own = Report(report.top)
        own.programs = report.programs
        check(own)
        return own

    with concurrent.futures.ThreadPoolExecutor(len(checks)) as pool:
        for own in pool.map(done, checks):
            report.passed += own.passed
            report.failed += own.failed


def check(report):
    check_left_out(report)
    check_hyphens(report)
    check_shared(report)
    check_terminal(report)
    # Nothing else may be started meanwhile: it would have these pipes open for a moment.
    check_closed_reader(report)
    check_closed_reader_of_received(report)
    side_by_side(
        report,
        check_frames_of_named_pipes,
        check_frames_of_standard_streams,
        check_descriptors,
        check_order,
        check_ticks,
        check_ticks_alone,
        check_received,
        check_listing,
    )
