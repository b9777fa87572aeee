"""Files as lines of text, and back: written texts, texts by hand, faults, live texts, and every text cut and bent."""

import concurrent.futures
import os
import re

from checks import recordings as it
from checks.pipes import OF_UPLINK, PATIENCE, QUIET, Live, Reader, in_frames, on_terminal
from checks.program import Room
from checks.text_lines import Reading, text_of

ONE_BURST = "0062008201900100042004E004CD5D7F77FD757AC81800280250028000C0120022"
IDLE_BURST = "53C25EABA8671DC7383BD936065DFF57D75DF5D92BF6E465171B48CA6D4FC610B4"
REPEATED = "0062008201900100042004E004CDFF57D75DF5DAC81800280250028000C0120022"
DATAGRAM = "4500001C123400004011509B0C0000010C0000021398139A0008C0A9"

UPLINK = f"dmrgate uplink 1\n0 1 {ONE_BURST}\nframes 1\n".encode()
DOWNLINK = f"dmrgate downlink 1\n6 1 800A20 {REPEATED}\n6 2 088820 {IDLE_BURST}\nframes 7\n".encode()
OUTGOING = f"dmrgate outgoing 1\n5 1 unconfirmed half {DATAGRAM}\nrecords 1\n".encode()
RECEIVED = b"dmrgate received 1\n6 1 status 3 01020005\nrecords 1\n"

# The texts of a recording of one burst, of its downlink, and of both lists, with their files and their counts.
WRITTEN = [
    (UPLINK, it.ONE_CSBK, "frames 1 records 2"),
    (DOWNLINK, None, "frames 7 records 14"),
    (OUTGOING, it.ONE_DATAGRAM, "records 1"),
    (RECEIVED, it.ONE_STATUS, "records 1"),
]

# Texts of records of every mode and kind, of both slots, and of no octets.
MORE = [
    b"dmrgate outgoing 1\n0 2 confirmed half 00\n0 1 unconfirmed full -\n4294967295 1 confirmed full FF00\nrecords 3\n",
    b"dmrgate received 1\n0 1 status 0 -\n0 1 datagram 16777215 45\n0 2 short-data 7 0001\n9 1 datagram 2 -\nrecords 4\n",
    f"dmrgate uplink 1\n0 2 {ONE_BURST}\n2 1 {IDLE_BURST}\nframes 4\n".encode(),
    b"dmrgate uplink 1\nframes 0\n",
    b"dmrgate received 1\nrecords 0\n",
]

# A text as people may write it, and its written form.
BY_HAND = [
    (
        f"# of a modem\r\n\n \t\ndmrgate\tuplink  1\r\n#\n\t0\t1   {ONE_BURST.lower()} \r\n\nframes 1".encode(),
        UPLINK,
    ),
    (
        f"dmrgate downlink 1 \n\n6 1 800a20 {REPEATED.lower()}\r\n# idle\n 6\t2\t088820\t{IDLE_BURST}\nframes\t7\n\n#\n".encode(),
        DOWNLINK,
    ),
    (f"\ndmrgate outgoing 1\n5 1  unconfirmed  half  {DATAGRAM.lower()}\r\nrecords 1\r\n".encode(), OUTGOING),
    (b"  dmrgate received 1\n6 1\tstatus 3 01020005\nrecords 1\n  \n", RECEIVED),
]

# What stands behind the head line of an uplink, and its fault.
OF_UPLINK_TEXT = [
    ("", "line 2: no last line"),
    ("records 1\n", "line 2: no last line"),
    ("records x\n", "line 2: no last line"),
    (f"0 1 {ONE_BURST}\n", "line 3: no last line"),
    (f"0 1 {ONE_BURST}", "line 3: no last line"),
    ("frames 0\nframes 0\n", "line 3: a line behind the last"),
    ("frames 0\n# \n\n0\n", "line 5: a line behind the last"),
    ("frames\n", "line 2: wrong number"),
    ("frames 1 2\n", "line 2: wrong number"),
    ("frames 01\n", "line 2: wrong number"),
    ("frames +1\n", "line 2: wrong number"),
    ("frames 0x1\n", "line 2: wrong number"),
    ("frames 4294967296\n", "line 2: wrong number"),
    (f"0 1 {ONE_BURST}\nframes 0\n", "line 3: wrong number"),
    ("word\n", "line 2: wrong number"),
    ("0\n", "line 2: wrong number"),
    (f"-1 1 {ONE_BURST}\n", "line 2: wrong number"),
    (f"00 1 {ONE_BURST}\n", "line 2: wrong number"),
    (f"4294967296 1 {ONE_BURST}\n", "line 2: wrong number"),
    (f"99999999999999999999999 1 {ONE_BURST}\n", "line 2: wrong number"),
    (f"0 0 {ONE_BURST}\n", "line 2: wrong number"),
    (f"0 3 {ONE_BURST}\n", "line 2: wrong number"),
    ("frames 1048577\n", "line 2: too long"),
    ("frames 4294967295\n", "line 2: too long"),
    (f"1048576 1 {ONE_BURST}\n", "line 2: too long"),
    (f"1048576 1 {ONE_BURST[1:]}\n", "line 2: too long"),
    (f"0 1 {ONE_BURST}\n0 1 {ONE_BURST}\n", "line 3: places don't grow"),
    (f"0 2 {ONE_BURST}\n0 1 {ONE_BURST}\n", "line 3: places don't grow"),
    (f"1 1 {ONE_BURST}\n0 2 {ONE_BURST[1:]}\n", "line 3: places don't grow"),
    ("0 1\n", "line 2: wrong burst"),
    (f"0 1 {ONE_BURST[1:]}\n", "line 2: wrong burst"),
    (f"0 1 {ONE_BURST}0\n", "line 2: wrong burst"),
    (f"0 1 G{ONE_BURST[1:]}\n", "line 2: wrong burst"),
    (f"0 1 {ONE_BURST} 0\n", "line 2: wrong burst"),
    (f"0 1 800A20 {ONE_BURST}\n", "line 2: wrong burst"),
    ("0 1 -\n", "line 2: wrong burst"),
]

# Other texts, and their faults.
OF_OTHER_TEXTS = [
    ("", "line 1: no first line"),
    ("\n# dmrgate uplink 1\n", "line 3: no first line"),
    ("dmrgate uplink 2\n", "line 1: no first line"),
    ("dmrgate uplink\n", "line 1: no first line"),
    ("dmrgate uplink 1 1\n", "line 1: no first line"),
    ("dmrgate Uplink 1\n", "line 1: no first line"),
    ("dmrgate uplinks 1\n", "line 1: no first line"),
    ("frames 0\n", "line 1: no first line"),
    ("dmrgate downlink 1\nrecords 0\n", "line 2: no last line"),
    ("dmrgate downlink 1\nframes 1048583\n", "line 2: too long"),
    (f"dmrgate downlink 1\n1048582 1 800A20 {REPEATED}\n", "line 2: too long"),
    (f"dmrgate downlink 1\n0 1 {REPEATED}\n", "line 2: wrong burst"),
    (f"dmrgate downlink 1\n0 1 {REPEATED} 800A20\n", "line 2: wrong burst"),
    ("dmrgate downlink 1\n0 1 800A20\n", "line 2: wrong burst"),
    (f"dmrgate downlink 1\n0 1 800A2 {REPEATED}\n", "line 2: wrong burst"),
    (f"dmrgate downlink 1\n0 1 800A20 {REPEATED} 0\n", "line 2: wrong burst"),
    ("dmrgate outgoing 1\nframes 0\n", "line 2: no last line"),
    ("dmrgate outgoing 1\nrecords 1\n", "line 2: wrong number"),
    ("dmrgate outgoing 1\n5 1 confirmed half -\nrecords 0\n", "line 3: wrong number"),
    ("dmrgate outgoing 1\n5 3 confirmed half -\n", "line 2: wrong number"),
    ("dmrgate outgoing 1\n5\n", "line 2: wrong number"),
    ("dmrgate outgoing 1\n5 1 confirmed half -\n4 1 confirmed half -\n", "line 3: places don't grow"),
    ("dmrgate outgoing 1\n5 1 confirmed half -\n4 1 confirmed\n", "line 3: places don't grow"),
    ("dmrgate outgoing 1\n5 1\n", "line 2: wrong mode"),
    ("dmrgate outgoing 1\n5 1 confirmed\n", "line 2: wrong mode"),
    ("dmrgate outgoing 1\n5 1 half confirmed -\n", "line 2: wrong mode"),
    ("dmrgate outgoing 1\n5 1 confirmed quarter 0\n", "line 2: wrong mode"),
    ("dmrgate outgoing 1\n5 1 confirmed half\n", "line 2: wrong octets"),
    ("dmrgate outgoing 1\n5 1 confirmed half 0\n", "line 2: wrong octets"),
    ("dmrgate outgoing 1\n5 1 confirmed half 0G\n", "line 2: wrong octets"),
    ("dmrgate outgoing 1\n5 1 confirmed half --\n", "line 2: wrong octets"),
    ("dmrgate outgoing 1\n5 1 confirmed half - -\n", "line 2: wrong octets"),
    (f"dmrgate outgoing 1\n5 1 confirmed half {'00' * 65_536}\n", "line 2: wrong octets"),
    (f"dmrgate outgoing 1\n5 1 confirmed half -{' ' * 131_200}\n", "line 2: too long"),
    # A line that is too long is told as that, whatever else is wrong with it.
    (f"{'x' * 131_201}\n", "line 1: too long"),
    (f"dmrgate uplink 1\nframes 0\n{'x' * 131_201}\n", "line 3: too long"),
    (f"dmrgate uplink 1\nframes x{' ' * 131_200}\n", "line 2: too long"),
    ("dmrgate received 1\n5 1 status\n", "line 2: wrong number"),
    ("dmrgate received 1\n5 1 news\n", "line 2: wrong number"),
    ("dmrgate received 1\n5 1 status 16777216 -\n", "line 2: wrong number"),
    ("dmrgate received 1\n5 1 status 1 -\n5 1 status 1 -\n", "line 3: places don't grow"),
    ("dmrgate received 1\n5 1 datagram 1 -\n5 1 status 1 -\n", "line 3: places don't grow"),
    ("dmrgate received 1\n5 1 datagram 1 -\n5 1 short-data 1 -\n", "line 3: places don't grow"),
    ("dmrgate received 1\n5 2 datagram 1 -\n5 1 datagram 1 -\n", "line 3: places don't grow"),
    ("dmrgate received 1\n5 1 datagram 1 -\n4 1 news 1 -\n", "line 3: places don't grow"),
    ("dmrgate received 1\n5 1 news 1 0\n", "line 2: wrong kind"),
    ("dmrgate received 1\n5 1 Status 1 -\n", "line 2: wrong kind"),
    ("dmrgate received 1\n5 1 status 1\n", "line 2: wrong octets"),
    ("dmrgate received 1\n5 1 status 1 0\n", "line 2: wrong octets"),
]

# What an octet of a text is turned to.
BENT = [lambda octet: octet ^ 1, lambda octet: octet ^ 0x20, lambda _: 0x0A, lambda _: 0x20, lambda _: 0x80]


# What a file held before, and what is told where it may not be written.
OLD, REFUSED = b"an older file", b"error: out: cannot open\n"


def imported(report, text, room):
    """Imports a text by its name; answers how it ended, and the file that was made."""
    (room.path / "text").write_bytes(text)
    made = room.path / "made"
    made.unlink(missing_ok=True)
    ran = report.call("import", "text", "text", "made", cwd=room.path)
    return ran, made.read_bytes() if made.exists() else None


def expect_reading(report, name, text, room):
    """A text ends as an independent reader of it does: in its file, or in a fault and the file of what stands before that."""
    reading = Reading(text)
    ran, made = imported(report, text, room)
    if reading.fault is None:
        wanted = (0, f"{reading.counts}\n".encode(), b"")
    else:
        wanted = (1, b"", f"error: text: {reading.fault}\n".encode())
    report.expect(name, (ran.status, ran.out, ran.err) == wanted and made == reading.octets, (wanted, ran, made))


def expect_both_ways(report, name, octets, text, counts):
    """A file has this text, and the text this file, by standard streams."""
    line = f"{counts}\n".encode()
    ran = report.call("export", "text", "-", "-", given=octets)
    report.expect(f"{name}: its text", (ran.status, ran.out, ran.err) == (0, text, line), ran)
    ran = report.call("import", "text", "-", "-", given=text)
    report.expect(f"{name}: the file of its text", (ran.status, ran.out, ran.err) == (0, octets, line), ran)


def check_samples(report):
    """Each file goes out as its text and comes back octet for octet."""
    for folder in sorted((report.top / "samples").iterdir()):
        for file in sorted(folder.glob("*.dmr?")):
            octets = file.read_bytes()
            expect_both_ways(report, f"{folder.name}/{file.name}", octets, *text_of(octets))


def check_written(report):
    """Texts that were worked out by hand, under names and by hyphens."""
    downlink = (report.top / "samples/one_csbk/downlink.dmrd").read_bytes()
    for text, octets, counts in WRITTEN:
        octets = octets or downlink
        expect_both_ways(report, f"{text[:20]!r}", octets, text, counts)
        with Room(report) as room:
            (room.path / "file").write_bytes(octets)
            ran = report.call("export", "text", "file", "text", cwd=room.path)
            is_so = (ran.status, ran.out, ran.err) == (0, f"{counts}\n".encode(), b"")
            report.expect(f"{text[:20]!r}: into a file", is_so and (room.path / "text").read_bytes() == text, ran)
            ran, made = imported(report, text, room)
            is_so = (ran.status, ran.out, ran.err) == (0, f"{counts}\n".encode(), b"")
            report.expect(f"{text[:20]!r}: from a file", is_so and made == octets, (ran, made))
            ran = report.call("export", "text", "file", "/dev/stdout", cwd=room.path)
            is_so = (ran.status, ran.out, ran.err) == (0, text + f"{counts}\n".encode(), b"")
            report.expect(f"{text[:20]!r}: to /dev/stdout", is_so, ran)
    for text in MORE:
        reading = Reading(text)
        report.expect(f"{text!r} has no fault", reading.fault is None, reading.fault)
        expect_both_ways(report, f"{text!r}", reading.octets, text, reading.counts)


def check_by_hand(report):
    """Small digits, tabs, comments, empty lines and carriage returns make no difference."""
    with Room(report) as room:
        for text, written in BY_HAND:
            report.expect(f"{text!r} isn't as it is written", text != written)
            ran, made = imported(report, text, room)
            is_so = ran.status == 0 and made == Reading(written).octets
            report.expect(f"{text!r}", is_so, (ran, made))


def check_faults(report):
    """Each fault, told in its line, and what stands before it is written."""
    rows = [(f"dmrgate uplink 1\n{rest}", fault) for rest, fault in OF_UPLINK_TEXT] + OF_OTHER_TEXTS
    with Room(report) as room:
        for text, fault in rows:
            had = Reading(text.encode()).fault
            report.expect(f"{text[:90]!r}: its fault", had == fault, had)
            expect_reading(report, f"{text[:90]!r}: {fault}", text.encode(), room)
        # The longest line, and one that is longer; a carriage return at its end counts.
        for spaces, end in ((131_180, "\n"), (131_181, "\n"), (131_179, "\r\n"), (131_180, "\r\n")):
            text = f"dmrgate outgoing 1\n5 1 confirmed half -{' ' * spaces}{end}records 1\n".encode()
            expect_reading(report, f"a line with {spaces} spaces and {end!r}", text, room)
        for slots in (1, 2):
            text = f"dmrgate uplink 1\n1048575 {slots} {ONE_BURST}\nframes 1048576\n".encode()
            expect_reading(report, f"a burst in the last place of slot {slots}", text, room)
    for name in ("text", "te\x1bxt"):
        ran = report.call("import", "text", name, "made", cwd="/")
        report.expect(f"no text {name!r}", ran.is_error(f"{name.replace(chr(27), '?')}: cannot open"), ran)


def check_files_at_fault(report):
    """Of a file at fault the text of its front is written, and `show` and `export` tell the same of it."""
    rows = [
        (it.ONE_CSBK + b"\2", it.ONE_CSBK),
        (it.ONE_CSBK[:8] + b"\2" + it.ONE_CSBK[9:], it.ONE_CSBK),
        (it.ONE_DATAGRAM + it.outgoing_record(4), it.ONE_DATAGRAM),
        (it.ONE_STATUS + it.received_record(6, 1, 2, 3, b""), it.ONE_STATUS),
        (b"DMRX\1\0\0\0", it.ONE_CSBK),
    ]
    for whole in (it.ONE_CSBK, it.ONE_FRAME, it.ONE_DATAGRAM, it.ONE_STATUS):
        rows += [(whole[:count], whole) for count in range(len(whole))]
    for octets, whole in rows:
        shown = report.call("show", "-", given=octets)
        ran = report.call("export", "text", "-", "-", given=octets)
        if shown.status == 0:
            report.expect(f"{octets!r} is whole", (ran.status, ran.out) == (0, text_of(octets)[0]), ran)
            continue
        report.expect(f"{octets!r}: the fault", (ran.status, ran.err) == (1, shown.err), (shown, ran))
        # A listing has a line for the file and one for each burst or record, and so has a text.
        report.expect(f"{octets!r}: as many lines", ran.out.count(b"\n") == shown.out.count(b"\n"), (shown, ran))
        report.expect(f"{octets!r}: a front of the text", text_of(whole)[0].startswith(ran.out), ran)


def check_places(report):
    """Outputs that are refused, and inputs that can't be opened; what they hold is left as it is."""
    with Room(report) as room:
        for command, octets, out in (("export", it.ONE_CSBK, UPLINK), ("import", UPLINK, it.ONE_CSBK)):
            (room.path / "in").write_bytes(octets)
            for name in ("link", "out"):
                (room.path / name).unlink(missing_ok=True)
            (room.path / "link").hardlink_to(room.path / "in")
            for output in ("in", "./in", "link", "/nowhere/out", ".", ""):
                ran = report.call(command, "text", "in", output, cwd=room.path)
                report.expect(f"{command} to {output!r}", ran.is_error(f"{output}: cannot open"), ran)
                report.expect(f"{command} to {output!r}: the input", (room.path / "in").read_bytes() == octets, output)
            ran = report.call(command, "text", "nowhere", "out", cwd=room.path)
            report.expect(f"{command} of no file", ran.is_error("nowhere: cannot open"), ran)
            report.expect(f"{command} of no file: no output", not (room.path / "out").exists(), command)
            # What is told goes to standard error, also where that is the file, which else is as it was.
            for stream, err, left in (("stdout", REFUSED, OLD), ("stderr", b"", REFUSED)):
                (room.path / "out").write_bytes(OLD)
                with open(room.path / "out", "r+b") as behind:
                    ran = report.call(command, "text", "in", "out", cwd=room.path, **{stream: behind})
                has = (room.path / "out").read_bytes()
                report.expect(f"{command} to a file behind {stream}", (ran.status, ran.err, has) == (1, err, left), (ran, has))
            ran = report.call(command, "text", "in", "/dev/full", cwd=room.path)
            report.expect(f"{command} to a full device", ran.is_error("/dev/full: write failed"), ran)
            ran = report.call(command, "text", ".", "out", cwd=room.path)
            told = ".: line 1: read failed" if command == "import" else ".: read failed at octet 0"
            report.expect(f"{command} of a folder", ran.is_error(told), ran)
            with open(room.path / "other", "wb") as other:
                ran = report.call(command, "text", "in", "-", cwd=room.path, stdout=other)
            is_so = (ran.status, (room.path / "other").read_bytes()) == (0, out)
            report.expect(f"{command} to a file that is standard output", is_so, ran)
            with open(room.path / "other", "wb") as other:
                ran = report.call(command, "text", "in", "-", cwd=room.path, stdout=other, stderr=other)
            is_told = (ran.status, (room.path / "other").read_bytes()) == (1, b"error: -: cannot open\n")
            report.expect(f"{command} to a file that has errors too", is_told, ran)
            with open("/dev/full", "wb") as full:
                ran = report.call(command, "text", "in", "-", cwd=room.path, stdout=full)
                report.expect(f"{command} to a full standard output", ran.is_error("-: write failed"), ran)
                ran = report.call(command, "text", "in", "out", cwd=room.path, stdout=full)
                told = b"error: standard output: write failed\n"
                is_so = (ran.status, ran.err) == (1, told) and (room.path / "out").read_bytes() == out
                report.expect(f"{command}, and its line can't be printed", is_so, ran)
                ran = report.call(command, "text", "in", "-", cwd=room.path, stderr=full)
                report.expect(f"{command}, and standard error is full", (ran.status, ran.out) == (1, out), ran)
            ran, got = on_terminal(lambda its: report.call(command, "text", "in", "-", cwd=room.path, stdout=its))
            if command == "import":
                is_so = ran.is_error("-: standard output is a terminal") and got == b""
            else:
                is_so = (ran.status, got) == (0, out)
            report.expect(f"{command} to a terminal", is_so, (ran, got))
            (room.path / "-x").write_bytes(octets)
            ran = report.call(command, "text", "--", "-x", "-y", cwd=room.path)
            report.expect(f"{command} of a name with a hyphen", ran.status == 0 and (room.path / "-y").read_bytes() == out, ran)


def check_words(report):
    """Words that the command line refuses, and help of the formats."""
    for command in ("import", "export"):
        for words in ([], ["walk"], ["text"], ["text", "a"], ["text", "a", "b", "c"], ["text", "a", "b", "--c"]):
            ran = report.call(command, *words)
            is_told = ran.status == 2 and ran.out == b"" and f"Usage: dmrgate {command}".encode() in ran.err
            report.expect(f"words {command} {words}", is_told, ran)


def expect_live(report, name, words, pieces, wanted, whole):
    """What is wanted for a piece comes before the next one is put in, and all of it at the end."""
    with Live(report, words) as run:
        front = b""
        for piece, more in zip(pieces, wanted):
            run.put("-", piece)
            front += more
            is_so = run.out.has(front)
            report.expect(f"{name}: behind {piece[:40]!r}", is_so, run.out)
            if not is_so:
                return
        ran = run.at_end()
        report.expect(f"{name}: all of it", (ran.status, ran.out) == (0, whole), ran)


def check_live(report):
    """Over pipes a record or a line is there as soon as it is decided."""
    octets = (report.top / "samples/call/uplink.dmru").read_bytes()
    frames = in_frames(octets, OF_UPLINK)
    text, _ = text_of(octets)
    lines = text.splitlines(keepends=True)
    texts = [lines[0]]
    for frame in range(len(frames) - 1):
        texts.append(b"".join(line for line in lines[1:-1] if line.startswith(b"%d " % frame)))
    expect_live(report, "a text of a pipe", ["export", "text", "-", "-"], frames, texts, text)
    # What each line decides: its burst, and the silence since the one before.
    wanted = [Reading(b"".join(lines[: count + 1])).octets for count in range(len(lines))]
    wanted = [wanted[0]] + [whole[len(front) :] for front, whole in zip(wanted, wanted[1:])]
    expect_live(report, "a file of a pipe", ["import", "text", "-", "-"], lines, wanted, octets)


def check_named_pipes(report):
    """The same by the names of pipes: what is written for a front comes while more may come, and the rest at the end."""
    for command, given, wanted, parted in (
        ("export", it.ONE_CSBK, UPLINK, (42, UPLINK.index(b"frames"))),
        ("import", UPLINK, it.ONE_CSBK, (UPLINK.index(b"frames"), 42)),
    ):
        with Room(report) as room:
            source, sink = room.path / "source", room.path / "sink"
            os.mkfifo(source)
            os.mkfifo(sink)
            end = open(os.open(source, os.O_RDWR), "wb", buffering=0)
            reader = Reader(open(os.open(sink, os.O_RDONLY | os.O_NONBLOCK), "rb", buffering=0))
            with Live(report, [command, "text", source, sink], {"in": end}, {"out": reader}) as run:
                run.put("in", given[: parted[0]])
                is_so = reader.has(wanted[: parted[1]], QUIET)
                report.expect(f"{command} by named pipes: a front", is_so, reader)
                run.put("in", given[parted[0] :])
                ran = run.at_end()
                report.expect(f"{command} by named pipes: all of it", (ran.status, reader.octets) == (0, wanted), (ran, reader))


def check_closed_reader(report):
    """Where nobody reads a text any more, its export ends."""
    file = report.top / "samples/mixed_long/downlink.dmrd"
    # A pipe has room for 65,536 octets, and a buffer stands in front of it.
    report.expect("a text is longer than there is room for", len(text_of(file.read_bytes())[0]) > 200_000)
    with Live(report, ["export", "text", file, "-"]) as run:
        run.process.stdout.close()
        run.process.wait(PATIENCE)
        told = run.err.rest()
        report.expect("nobody reads a text", (run.process.returncode, told) == (1, b"error: -: write failed\n"), told)


def damaged(text):
    """A text cut at each line and at some octets, and bent at each octet."""
    for at in range(len(text)):
        if text[at - 1 : at] == b"\n" or at % 7 == 0:
            yield f"cut at {at}", text[:at]
        yield f"without octet {at}", text[:at] + text[at + 1 :]
        for turn, bend in enumerate(BENT):
            if bend(text[at]) != text[at]:
                yield f"octet {at} bent by {turn}", text[:at] + bytes([bend(text[at])]) + text[at + 1 :]


def check_damaged(report):
    """Every text that is cut or bent ends in a named fault, or in a file that says what stands there."""
    whole = [UPLINK, DOWNLINK, OUTGOING, RECEIVED, *MORE[:2]]

    def of_text(text):
        own = type(report)(report.top)
        own.programs = report.programs
        with Room(own) as room:
            for name, bent in damaged(text):
                expect_reading(own, f"{text[:20]!r} {name}", bent, room)
        return own

    with concurrent.futures.ThreadPoolExecutor(os.cpu_count()) as pool:
        for own in pool.map(of_text, whole):
            report.passed += own.passed
            report.failed += own.failed


def check_help(report):
    """The example of the help of `import text` is a text."""
    ran = report.call("import", "text", "--help")
    example = re.search(r"^Example.*:\n((?:  .*\n)+)", ran.out.decode(), re.MULTILINE)[1]
    text = re.sub("^  ", "", example, flags=re.MULTILINE).encode()
    reading = Reading(text)
    report.expect("the example of help has no fault", reading.fault is None, reading.fault)
    expect_both_ways(report, "the example of help", reading.octets, text, reading.counts)


def check(report):
    check_written(report)
    check_by_hand(report)
    check_faults(report)
    check_files_at_fault(report)
    check_places(report)
    check_words(report)
    check_live(report)
    check_named_pipes(report)
    check_closed_reader(report)
    check_help(report)
    check_samples(report)
    check_damaged(report)
