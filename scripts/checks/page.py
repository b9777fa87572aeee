"""The page of a log: what it has of a scene and of silence, that it takes little memory, and that a browser shows it."""

import html.parser
import json
import pathlib
import re
import struct
import subprocess
import tempfile
import zlib

from checks import bursts
from checks import recordings as it
from checks.devtools import Browser, found_browser
from checks.program import Room

WIDTH = 1100

# What a page must not have: nothing runs in it, and nothing comes from elsewhere.
FOREIGN = "http", "script", "src"

COLOURS = {
    "header, terminator": "#173f6b", "voice": "#2f6fb2", "filled": "#b9d3ee", "packet": "#2e8b57", "lost block": "#bfe3cd",
    "control": "#c77700", "not repeated": "#c9c9c9", "unreadable": "#b3261e",
}

STATUS = ["0:00.75", "2", "status", "4", "1", "0.06", "", "0 of 263", ""]
CALL = ["0:00.00", "1", "group call", "2", "1", "0.96", "10 of 12", "0 of 750", "terminator"]
LATE_CALL = ["0:01.32", "1", "group call, late", "3", "1", "0.36", "6 of 6", "0 of 128", "lost"]


class Page(html.parser.HTMLParser):
    """What stands in a page: its title, headings, pictures, labels, bars and the cells of its rows."""

    def __init__(self, text):
        super().__init__()
        self.title, self.headings, self.paragraphs, self.pictures, self.labels, self.legend = "", [], [], [], [], []
        self.bars, self.rows, self.at = [], [], None
        self.feed(text)
        self.close()

    def handle_starttag(self, tag, attributes):
        has = dict(attributes)
        self.at = {"text": has.get("class")}.get(tag, tag)
        if tag == "svg":
            self.pictures.append(has["viewbox"])
        if tag == "rect":
            self.bars.append((float(has["x"]), float(has["y"]), float(has["width"]), has["fill"]))
        if tag == "tr":
            self.rows.append([])
        if tag in ("td", "th"):
            self.rows[-1].append("")
        for name, new in (("h2", self.headings), ("p", self.paragraphs)):
            if tag == name:
                new.append("")
        if self.at == "l":
            self.labels.append("")

    def handle_endtag(self, tag):
        self.at = None

    def handle_data(self, data):
        if self.at == "title":
            self.title += data
        for name, held in (("h2", self.headings), ("p", self.paragraphs), ("l", self.labels)):
            if self.at == name:
                held[-1] += data
        if self.at in ("td", "th"):
            self.rows[-1][-1] += data


def scene():
    """Radio 2 calls talk group 1 and is lost for a moment, radio 3 comes in late, and in slot 2 radio 4 sends a status to radio 1.
    There are 40 frames."""
    of_two, of_three = (bytes([0, 0, options, 0, 0, 1, 0, 0, source]) for options, source in ((0, 2), (128, 3)))
    places = {"A": bursts.voice_sync_burst(), "F": bursts.voice_burst(0)}
    slots = [[None] * 40, [None] * 40]
    for begin, letters, control in ((0, "H..ABCDEFA..DEFT", of_two), (20, "EFABCDEF", of_three)):
        fields = bursts.embedded_fields(control)
        ends = {
            "H": bursts.data_burst(1, bursts.information_of(bursts.with_parity(control, bursts.VOICE_HEADER))),
            "T": bursts.data_burst(2, bursts.information_of(bursts.with_parity(control, bursts.TERMINATOR))),
        }
        parts = {part: bursts.voice_burst(lcss, 0, field) for part, lcss, field in zip("BCDE", (1, 3, 3, 2), fields)}
        for at, letter in enumerate(letters, begin):
            slots[0][at] = {**places, **ends, **parts}.get(letter)
    slots[1][12] = status(4, 1)
    return it.UPLINK_HEAD + b"".join(b"\0" if slot is None else b"\1" + slot for frame in zip(*slots) for slot in frame)


def status(source, destination):
    """A status 5 from port 1 to port 2."""
    octets = b"\x0E\xA0" + destination.to_bytes(3, "big") + source.to_bytes(3, "big") + b"\x28\x05"
    return bursts.data_burst(6, bursts.information_of(bursts.sealed(octets, bursts.DATA_HEADER)))


def check_scene(report):
    with Room(report, scene()) as room:
        odd = room.path / "a&b <c>.dmru"
        odd.write_bytes(room.uplink.read_bytes())
        ran = report.call("log", odd, "--html")
        text = ran.out.decode()
        page = Page(text)
        report.expect("page of a scene", (ran.status, ran.err) == (0, b""), ran)
        report.expect("a page has nothing foreign", not [word for word in FOREIGN if word in text], text)
        name = "<title>a&amp;b &lt;c&gt;.dmru</title>"
        report.expect("the title of a page", name in text and page.title == odd.name, page.title)
        report.expect("pictures of a scene", page.pictures == ["0 0 1040 14", "0 0 1040 106"], page.pictures)
        report.expect("labels of a scene", page.labels == ["2 → …", "3 → TG 1", "status 4 → 1"], page.labels)
        report.expect("rows of a scene", page.rows[1:] == [STATUS, CALL, LATE_CALL], page.rows)
        legend = [(name, fill) for name, (_, _, _, fill) in zip(COLOURS, page.bars)]
        report.expect("the legend", legend == list(COLOURS.items()) and all(name in text for name in COLOURS), legend)
        shown = [(x, fill) for x, _, _, fill in page.bars[8:]]
        wanted = [(64.0, 0), (69.8, 1), (83.2, 2), (87.0, 1), (92.8, 0), (102.4, 6), (106.2, 1), (87.0, 3)]
        colours = list(COLOURS.values())
        report.expect("bars of a scene", shown == [(x, colours[which]) for x, which in wanted], shown)


def check_refused(report):
    for words in (["--slot", 1], ["--from", 1], ["--to", 1], ["--csv"], ["--json"]):
        ran = report.call("log", "-", "--html", *words)
        report.expect(f"a page with {words}", ran.status == 2 and ran.out == b"" and ran.err, ran)


def with_little_memory(report, given):
    """The page of what is given on standard input, in a process with little memory."""
    words = ["log", "-", "--html"]
    command = ["sh", "-c", 'ulimit -v 65536; exec "$@"', "sh", report.started_for(words), *words]
    return subprocess.run(command, input=given, capture_output=True)


def check_memory(report):
    ran = with_little_memory(report, it.UPLINK_HEAD + bytes(2 * it.LIMIT))
    page = Page(ran.stdout.decode())
    is_so = (ran.returncode, ran.stderr, page.pictures, page.headings, page.rows) == (0, b"", ["0 0 1040 14"], [], [])
    report.expect("page of the longest silence", is_so, (ran.returncode, ran.stdout[-300:], ran.stderr))
    frames = (report.top / "samples/mixed_hostile/uplink.dmru").read_bytes()[8:]
    ran = with_little_memory(report, it.UPLINK_HEAD + 100 * frames)
    headings = re.findall("<h2>minute ([0-9]+)</h2>", ran.stdout.decode())
    is_so = (ran.returncode, ran.stderr, headings) == (0, b"", [str(minute) for minute in range(150)])
    report.expect("page of a long busy recording", is_so, (ran.returncode, ran.stdout[-300:], ran.stderr))


def size_and_octets(png):
    """The width of a picture, and the octets that its rows hold."""
    at, width, packed = 8, 0, b""
    while at < len(png):
        length, kind = struct.unpack(">I4s", png[at : at + 8])
        if kind == b"IHDR":
            width = struct.unpack(">I", png[at + 8 : at + 12])[0]
        if kind == b"IDAT":
            packed += png[at + 8 : at + 8 + length]
        at += 12 + length
    return width, zlib.decompress(packed)


# Of how many labels of a page it is looked at whether a browser shows them: two pictures of each.
LOOKED_AT = 12

# Where each label of a page stands, and what it says.
LABELS = """JSON.stringify([...document.querySelectorAll('text.l')].map(it => {
    const at = it.getBoundingClientRect();
    return [it.textContent, [at.x + scrollX, at.y + scrollY, at.width, at.height]];
}))"""


def check_browser(report):
    """A browser without a network shows a page: a picture of its width that isn't blank, and in it labels where they stand."""
    if not found_browser():
        report.skip(1, "no browser")
        return
    text = report.call("log", report.top / "samples/mixed_clean/uplink.dmru", "--html").out
    with tempfile.TemporaryDirectory(prefix="dmrgate-page-") as folder:
        file = pathlib.Path(folder) / "page.html"
        file.write_bytes(text)
        with Browser(file, WIDTH) as browser:
            browser.wait_for("document.readyState === 'complete'")
            width, octets = size_and_octets(browser.picture())
            report.expect("a browser shows a page", width == WIDTH and len(set(octets)) > 100, (width, len(set(octets))))
            labels = json.loads(browser.value(LABELS))
            wanted = Page(text.decode()).labels
            report.expect("a browser has the labels of a page", wanted and [it for it, _ in labels] == wanted, (labels, wanted))
            looked_at = labels[:LOOKED_AT]
            shown = [browser.picture_of(*place) for _, place in looked_at]
            browser.value("document.querySelectorAll('text.l').forEach(it => it.style.visibility = 'hidden')")
            for (label, place), seen in zip(looked_at, shown):
                report.expect(f"a browser shows the label {label}", seen != browser.picture_of(*place), place)


def check(report):
    check_scene(report)
    check_refused(report)
    check_memory(report)
    check_browser(report)
