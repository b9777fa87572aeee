"""Each sample, octet for octet, with the line that it prints; and that the recordings of the tests are those of the samples."""

import re

from checks.program import Room

TESTED = "crates/dmr_repeater_tests/src/tests/samples.rt"
FILES = {"uplink": "uplink.dmru", "outgoing": "outgoing.dmro", "downlink": "downlink.dmrd", "received": "received.dmri"}


def tested_recordings(text):
    """The recordings that tests hold as digits: the name of each with its files."""
    for sample in re.split(r'name: (?=")', text)[1:]:
        fields = re.findall(r'(\w+): b?"([^"]*)"', sample)
        yield re.match(r'"(\w+)"', sample)[1], {name: bytes.fromhex(digits.replace("\\\n", "")) for name, digits in fields}


def check_tested_recordings(report):
    recordings = list(tested_recordings((report.top / TESTED).read_text()))
    report.expect("tests hold recordings of the samples", recordings)
    for name, files in recordings:
        for field, octets in files.items():
            file = report.top / "samples" / name / FILES[field]
            report.expect(f"sample {name}: {field} is that of the tests", file.is_file() and file.read_bytes() == octets, str(file))


def check(report):
    """As users start it: by the script."""
    report.by_script = True
    folders = sorted(it for it in (report.top / "samples").iterdir() if it.is_dir())
    report.expect("there are samples", folders)
    check_tested_recordings(report)
    for folder in folders:
        wanted = [(folder / name).read_bytes() for name in ("downlink.dmrd", "received.dmri", "summary.txt")]
        with Room(report, (folder / "uplink.dmru").read_bytes(), (folder / "outgoing.dmro").read_bytes()) as room:
            ran = room.run()
            line = ran.out == wanted[2] and ran.err == b"" and ran.status == 0
            report.expect(f"sample {folder.name}: the line", line, ran)
            for name, had, has in zip(("downlink", "received"), room.outputs(), wanted):
                report.expect(f"sample {folder.name}: {name}", had == has, "other octets")
