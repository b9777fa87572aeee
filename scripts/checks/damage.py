"""Recordings with wrong bits: what a run makes of them, rates as protocol.md has them, files, refusals, and live."""

import re
import subprocess

from checks import recordings as it
from checks.compare import BURST, distance, is_voice, slots_of
from checks.make import SCENE
from checks.pipes import OF_UPLINK, in_frames
from checks.program import UNWRITTEN, Room
from checks.text import expect_live

SEEDS = range(10)

# Samples of which each damaged recording is another one.
CHANGED = "call", "talker_alias", "mixed_clean", "mixed_damaged", "radios_that_answer"

# How many frames are looked at before one is damaged within the limits.
AHEAD = 5

MASK = (1 << 64) - 1


class Draws:
    """The generator of a slot: PCG32 with this state and stream, and what is drawn of it by docs/protocol.md."""

    def __init__(self, seed, stream):
        self.increment = stream << 1 | 1
        self.state = seed + self.increment & MASK
        self.step()

    def step(self):
        self.state = self.state * 6364136223846793005 + self.increment & MASK

    def word(self):
        state = self.state
        self.step()
        number, turn = (state >> 18 ^ state) >> 27 & 0xFFFFFFFF, state >> 59
        return (number >> turn | number << (32 - turn) % 32) & 0xFFFFFFFF

    def below(self, bound):
        whole, rest = divmod(self.word() * bound, 1 << 32)
        if rest > (1 << 32) - bound:
            whole += (rest + (self.word() * bound >> 32)) >> 32
        return whole

    def is_chosen(self, rate):
        return self.below(10000) < rate


def at_rate(octets, seed, errors, loss):
    """A recording damaged at a rate, by docs/protocol.md alone."""
    generators = Draws(seed, 0), Draws(seed, 1)
    damaged = [octets[:8]]
    for number, slot in enumerate(slots_of(octets, BURST)):
        draws = generators[number % 2]
        if not slot or draws.is_chosen(loss):
            damaged.append(b"\0")
            continue
        turned = "".join("1" if draws.is_chosen(errors) else "0" for _ in range(8 * BURST))
        damaged.append(b"\1" + (int.from_bytes(slot, "big") ^ int(turned, 2)).to_bytes(BURST, "big"))
    return b"".join(damaged)


def counts_of(before, after):
    """The line that is printed of a recording and what was made of it."""
    pairs = list(zip(slots_of(before, BURST), slots_of(after, BURST)))
    bits = [distance(old, new) for old, new in pairs if old and new]
    silenced = sum(1 for old, new in pairs if old and not new)
    bursts, changed = sum(1 for old, _ in pairs if old), sum(1 for count in bits if count)
    return f"frames {len(pairs) // 2} bursts {bursts} changed {changed} silenced {silenced} bits {sum(bits)}\n"


def damaged(report, octets, *words):
    """What standard input becomes, and the line that tells how much was done."""
    ran = report.call("damage", "-", "-", *words, given=octets)
    name = f"damage by {words}"
    report.expect(name, ran.status == 0 and it.uplink_fault(ran.out) is None, ran)
    report.expect(f"{name}: the line", ran.err.decode() == counts_of(octets, ran.out), ran.err)
    return ran.out


def check_samples(report):
    """Within the limits a run makes of each damaged sample what it makes of the sample."""
    for folder in sorted(it for it in (report.top / "samples").iterdir() if it.is_dir()):
        names = "uplink.dmru", "outgoing.dmro", "downlink.dmrd", "received.dmri", "summary.txt"
        uplink, outgoing, *wanted = ((folder / name).read_bytes() for name in names)
        made = {damaged(report, uplink, "--seed", seed) for seed in SEEDS}
        if folder.name in CHANGED:
            report.expect(f"{folder.name}: seeds differ", len(made) == len(SEEDS) and uplink not in made, len(made))
        for octets in made:
            with Room(report, octets, outgoing) as room:
                ran = room.run()
                report.expect(f"{folder.name}, damaged", [*room.outputs(), ran.out] == wanted, ran)


def embedded_field(burst):
    """The 32 bits in the middle of a burst, which a voice burst has between the halves of its EMB."""
    return int.from_bytes(burst, "big") >> 116 & 0xFFFFFFFF


def check_parts(report):
    """Over ten seeds each kind of part has wrong bits, and the letters of a strip stay."""
    octets = (report.top / "samples/mixed_clean/uplink.dmru").read_bytes()
    strip = report.call("show", "-", "--strip", given=octets).out
    parts = set()
    for seed in SEEDS:
        made = damaged(report, octets, "--seed", seed)
        told = report.call("show", "-", given=made).out.decode()
        for bits in re.findall(r"\[wrong: ([^]]*)\]", told):
            parts |= set(re.findall(r"([A-Za-z][A-Za-z ]*) \d+", bits))
        report.expect(f"the strip of seed {seed}", report.call("show", "-", "--strip", given=made).out == strip)
        pairs = zip(slots_of(octets, BURST), slots_of(made, BURST))
        if any(old and is_voice(old) and embedded_field(old) != embedded_field(new) for old, new in pairs):
            parts.add("embedded field")
    wanted = {"sync", "slot type", "EMB", "information", "embedded field"}
    report.expect("each kind of part has wrong bits", parts == wanted, parts)


def check_scene(report):
    """Of what a script says compare finds wrong bits in each kind of part over ten seeds, and the strips are the same."""
    with Room(report) as room:
        octets = report.call("make", "-", "-", given=SCENE.encode()).out
        room.uplink.write_bytes(octets)
        strip = report.call("show", room.uplink, "--strip").out
        parts = set()
        for seed in SEEDS:
            made = damaged(report, octets, "--seed", seed)
            ran = report.call("compare", room.uplink, "-", given=made)
            report.expect(f"seed {seed} differs", ran.status == (octets != made) and ran.err == b"", ran)
            for bits in re.findall(r"\[wrong: ([^]]*)\]", ran.out.decode()):
                parts |= set(re.findall(r"([A-Za-z][A-Za-z ]*) \d+", bits))
            drawn = report.call("show", "-", "--strip", given=made).out
            report.expect(f"the strip of the scene by seed {seed}", drawn == strip)
        report.expect("each kind of part differs", parts == {"sync", "slot type", "EMB", "information"}, parts)


def check_rates(report):
    """At a rate the file is the one that protocol.md makes."""
    for name in ("one_csbk", "talker_alias", "mixed_hostile"):
        octets = (report.top / "samples" / name / "uplink.dmru").read_bytes()
        for seed, errors, loss in ((0, 500, 0), (7, 100, 2000), (MASK, 10000, 0), (1 << 63, 0, 5000), (3, 1, 1)):
            made = damaged(report, octets, "--seed", seed, "--errors", errors, "--loss", loss)
            report.expect(f"{name} at {errors} and {loss} by {seed}", made == at_rate(octets, seed, errors, loss))
        for words, errors, loss in ((["--errors", 300], 300, 0), (["--loss=300"], 0, 300)):
            made = damaged(report, octets, *words)
            report.expect(f"{name}: the other rate is 0, and the seed", made == at_rate(octets, 0, errors, loss))
        report.expect(f"{name} without errors", damaged(report, octets, "--errors", 0, "--loss", 0) == octets)
        made = damaged(report, octets, "--loss", 10000)
        report.expect(f"{name}, all lost", made == octets[:8] + bytes(len(slots_of(octets, BURST))))


def check_clean(report):
    """A run's downlink is clean whatever it was given."""
    octets = (report.top / "samples/mixed_clean/uplink.dmru").read_bytes()
    with Room(report, damaged(report, octets, "--errors", 500)) as room:
        ran = room.run(outgoing=None)
        told = report.call("show", room.downlink)
        report.expect("the downlink is clean", (ran.status, told.status, b"[wrong" in told.out) == (0, 0, False), told)


def check_files(report):
    """By name the line is on standard output, and a seed makes one file."""
    sample = report.top / "samples/call/uplink.dmru"
    with Room(report) as room:
        files = room.path / "first.dmru", room.path / "second.dmru"
        for file in files:
            ran = report.call("damage", sample, file, "--seed", 7)
            line = counts_of(sample.read_bytes(), file.read_bytes())
            report.expect("damage by name", (ran.status, ran.out.decode(), ran.err) == (0, line, b""), ran)
        first, second = (file.read_bytes() for file in files)
        report.expect("one seed, one file", first == second)
        other = damaged(report, sample.read_bytes(), "--seed", 8)
        report.expect("another seed, another file", first != other)
        own = damaged(report, sample.read_bytes(), "--seed", 7, "--colour", 1)
        report.expect("the colour code is 1 where it is left out", first == own)
        foreign = damaged(report, sample.read_bytes(), "--seed", 7, "--color", 2)
        report.expect("by another colour code", foreign not in (first, sample.read_bytes()))


def check_refused(report):
    sample = report.top / "samples/call"
    uplink = (sample / "uplink.dmru").read_bytes()
    with Room(report, uplink) as room:
        out = room.path / "out.dmru"
        cut = room.path / "cut.dmru"
        cut.write_bytes(uplink[:-1])
        frame = len(slots_of(uplink, BURST)) // 2 - 1
        fault = f"{cut}: half frame at octet {len(uplink) - 1}, frame {frame}, slot 2"
        text = room.path / "text"
        text.write_bytes(b"dmrgate uplink 1\n")
        for name, words, told in (
            ("a downlink", (sample / "downlink.dmrd", out), f"{sample / 'downlink.dmrd'}: not an uplink"),
            ("a list", (sample / "received.dmri", out), f"{sample / 'received.dmri'}: not an uplink"),
            ("no file of a run", (text, out), f"{text}: bad magic at octet 0"),
            ("no input", ("nowhere", out), "nowhere: cannot open"),
            ("the input as the output", (room.uplink, room.uplink), f"{room.uplink}: cannot open"),
            ("a recording at fault", (cut, out), fault),
        ):
            report.expect(name, (ran := report.call("damage", *words)).is_error(told), ran)
        whole = damaged(report, uplink)
        report.expect("what stands before a fault is written", whole.startswith(out.read_bytes()) and len(out.read_bytes()) > 8)
        report.expect("the input is as it was", room.uplink.read_bytes() == uplink)
        for words in (
            ["--colour", 16], ["--errors", 10001], ["--loss", 10001], ["--errors", -1], ["--seed", MASK + 1], ["--seed", "x"],
            ["--colour", 1, "--errors", 1], ["--colour", 1, "--loss", 1], ["--shift", 1], [out],
        ):
            ran = report.call("damage", room.uplink, out, *words)
            report.expect(f"damage with {words}", (ran.status, ran.out, bool(ran.err)) == (2, b"", True), ran)
        with open("/dev/full", "wb") as full:
            ran = report.call("damage", room.uplink, out, stdout=full)
            report.expect("standard output is full", (ran.status, ran.err) == (1, UNWRITTEN), ran)
            ran = report.call("damage", room.uplink, "-", stdout=full)
            report.expect("the recording can't be written", ran.is_error("-: write failed"), ran)


def check_live(report):
    """Over pipes each frame comes out as soon as it can be decided."""
    uplink = (report.top / "samples/talker_alias/uplink.dmru").read_bytes()
    for words, ahead in (([], AHEAD), (["--errors", 100], 0)):
        whole = damaged(report, uplink, *words)
        head, *frames = in_frames(whole, OF_UPLINK)
        wanted = [head, *[b""] * ahead, *frames][: len(frames) + 1]
        expect_live(report, f"damage by {words}", ["damage", "-", "-", *words], in_frames(uplink, OF_UPLINK), wanted, whole)


def check_longest(report):
    """The longest recording, in a process with little memory."""
    octets = it.UPLINK_HEAD + (b"\1" + it.CSBK + b"\0") * it.LIMIT
    for more in ([], ["--errors=100"]):
        words = ["damage", "-", "-", *more]
        command = ["sh", "-c", 'ulimit -v 65536; exec "$@"', "sh", report.started_for(words), *words]
        ran = subprocess.run(command, input=octets, capture_output=True)
        is_so = ran.returncode == 0 and ran.stderr.startswith(b"frames %d bursts %d changed " % (it.LIMIT, it.LIMIT))
        report.expect(f"the longest recording, by {more}", is_so and len(ran.stdout) == len(octets), ran.stderr[-200:])


def check(report):
    check_samples(report)
    check_parts(report)
    check_scene(report)
    check_rates(report)
    check_clean(report)
    check_files(report)
    check_refused(report)
    check_live(report)
    check_longest(report)
