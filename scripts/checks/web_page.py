"""The page that lists a file in a browser: its module against `show`, in node, and the page as a browser shows it."""

import base64
import concurrent.futures
import hashlib
import json
import os
import pathlib
import re
import shutil
import subprocess
import tempfile

from building.module import is_module_built_over_the_gate
from checks import recordings as it
from checks.devtools import Browser, found_browser
from checks.page import size_and_octets
from checks.refusals import OUTGOINGS, UPLINKS

WIDTH = 1200


def turned(octets, at):
    """The same with other bits in one octet."""
    return octets[:at] + bytes([octets[at] ^ 0x5A]) + octets[at + 1 :]


# How the files of samples are bent: by which name, and what is done with their octets.
BENT = {
    "cut in its head": lambda octets: octets[:5],
    "of no format": lambda octets: b"DMRX" + octets[4:],
    "of another version": lambda octets: octets[:4] + b"\2" + octets[5:],
    "without records": lambda octets: octets[:8],
    "cut by an octet": lambda octets: octets[:-1],
    "cut in the middle": lambda octets: octets[: len(octets) // 2],
    "with one octet more": lambda octets: octets + b"\7",
    "with a slot more": lambda octets: octets + b"\0",
    "with an octet turned": lambda octets: turned(octets, len(octets) // 3),
}
BENT_SAMPLES = "call", "mixed_damaged", "datagram_sent", "status_received"

KINDS = "uplink.dmru", "downlink.dmrd", "outgoing.dmro", "received.dmri"

# Small files, which are cut to every length, and of which each octet is bent.
SMALL = {"uplink": it.ONE_CSBK, "outgoing list": it.ONE_DATAGRAM, "downlink": it.ONE_FRAME, "received list": it.ONE_STATUS}

# How many frames of the longest recording are looked at in each place.
FRAMES_SHOWN = 40

# The forms of `show`, which a page is compared with.
FORMS = (), ("--strip",), ("--json",)


def small_files():
    """Small files by their names: cut, bent, and those that a run refuses."""
    for kind, whole in SMALL.items():
        yield from ((f"{kind} of {size} octets", octets) for size, octets in it.cut(whole))
        yield from ((f"{kind} with octet {at} turned by {turned:02X}", octets) for at, turned, octets in it.bent(whole))
    for kind, refused in (("uplink", UPLINKS), ("outgoing list", OUTGOINGS)):
        yield from ((f"{kind} that is refused, {number}", octets) for number, (octets, _) in enumerate(refused))


def files_of(report, folder):
    """Every file of samples, by its path, bent ones, and small files that are cut and bent."""
    yield from sorted(file for kind in KINDS for file in (report.top / "samples").glob(f"*/{kind}"))
    for sample in BENT_SAMPLES:
        for kind in KINDS:
            octets = (report.top / "samples" / sample / kind).read_bytes()
            for at, bend in enumerate(BENT.values()):
                file = folder / f"{sample}-{at}-{kind}"
                file.write_bytes(bend(octets))
                yield file
    for name, octets in small_files():
        (folder / name).write_bytes(octets)
        yield folder / name


def made(report, folder):
    """The page and the module, as the script makes them. Behind the gate the module is built over what that has left."""
    if report.is_proved:
        log = report.top / "crates/dmr_web/out/build.log"
        is_built = is_module_built_over_the_gate()
        report.expect("the module is built over what the gate left", is_built, log.read_text()[-3000:] if log.is_file() else "")
    ran = subprocess.run([report.top / "share/page/build", folder / "page.html"], capture_output=True, text=True)
    again = subprocess.run([report.top / "share/page/build", "--module", folder / "page.wasm"], capture_output=True, text=True)
    is_so = (ran.returncode, again.returncode) == (0, 0)
    report.expect("the page is built", is_so, (ran, again))
    return is_so


def check_text(report, folder):
    """Nothing of the page comes from elsewhere, and its policy names what it runs."""
    text = (folder / "page.html").read_text()
    policy = re.search('http-equiv="Content-Security-Policy" content="([^"]*)"', text)[1]
    report.expect("nothing may come from elsewhere", policy.startswith("default-src 'none';"), policy)
    for tag in ("style", "script"):
        part = re.search(f"<{tag}>(.*?)</{tag}>", text, re.DOTALL)[1]
        source = "sha256-" + base64.b64encode(hashlib.sha256(part.encode()).digest()).decode()
        report.expect(f"the policy names the {tag} of the page", f"'{source}'" in policy, (source, policy))
    foreign = re.findall(r"https?:|src=|@import|url\(", re.sub(r'id="module">.*?</script>', "", text, flags=re.DOTALL))
    report.expect("the page has nothing foreign", not foreign, foreign)


def list_all(report, folder, files):
    """What the worker of the page gives for each of these files, or for some rows of a file, or nothing where there is no node that
    could run it."""
    node = shutil.which("node")
    if not node:
        return None
    (folder / "files.json").write_text(json.dumps(files))
    words = [report.top / "scripts/checks/page_worker.mjs", report.top / "share/page/worker.js", folder / "page.wasm"]
    for options in ([], ["--experimental-wasm-memory64"]):
        ran = subprocess.run([node, *options, *words, folder / "files.json", folder / "told.json"], capture_output=True, text=True)
        told = json.loads((folder / "told.json").read_text()) if ran.returncode == 0 else None
        if told is not None:
            return told
    if "bad option" in ran.stderr:
        return None
    report.expect("node runs the worker of the page", False, ran)
    return None


def shown(report, files):
    """What `show` prints of each of these files, in each form."""
    with concurrent.futures.ThreadPoolExecutor(os.cpu_count()) as pool:
        yield from pool.map(lambda file: [report.call("show", file, *words) for words in FORMS], files)


def expect_same(report, file, told, printed):
    """The page shows of a file what `show` prints of it."""
    name = f"{file.parent.name}/{file.name}"
    text, strip, as_json = printed
    lines = text.out.decode().splitlines()
    fault = text.err.decode().removeprefix(f"error: {file}: ").rstrip("\n")
    wanted = lines if text.status == 0 else [*lines, fault]
    report.expect(f"{name}: its listing", told["text"]["lines"] == wanted, (told["text"]["lines"][-3:], wanted[-3:]))
    report.expect(f"{name}: is at fault", told["isAtFault"] == (text.status == 1), told["last"])
    report.expect(f"{name}: its last line", told["last"] == wanted[-1], (told["last"], wanted[-1]))
    objects = as_json.out.decode().splitlines()
    wanted_objects = objects if as_json.status == 0 else [*objects, fault]
    had = told["json"]["lines"]
    report.expect(f"{name}: its objects", had == wanted_objects, (had[-3:], wanted_objects[-3:]))
    rows = lines[1:-1] if text.status == 0 else lines[1:]
    is_so = told["rows"] == len(rows) and told["lines"] == rows and told["single"] in (rows, None)
    report.expect(f"{name}: its windows", is_so, (told["rows"], len(rows), told["lines"][-3:]))
    if strip.status == 0 or told["strip"] is not None:
        report.expect(f"{name}: its strips", told["strip"][:-1] == strip.out.decode().splitlines(), (told["strip"], strip))
    inner = objects[1:-1] if as_json.status == 0 else objects[1:]
    if inner:
        report.expect(f"{name}: the details of its last row", told["details"] == inner[-1], (told["details"], inner[-1]))
    of_slot = [at for at, line in enumerate(inner) if json.loads(line)["slot"] == 2]
    report.expect(f"{name}: the rows of slot 2", told["ofSlot"] == of_slot, (told["ofSlot"], of_slot))
    of_address = [at for at, line in enumerate(inner) if 1 in addresses(json.loads(line))]
    report.expect(f"{name}: the rows of an address", told["ofAddress"] == of_address, (told["ofAddress"], of_address))


def addresses(value):
    """The addresses in an object, however deep they stand."""
    for key, inner in value.items():
        if isinstance(inner, dict):
            yield from addresses(inner)
        elif key in ("source", "target", "bs"):
            yield inner


def check_worker(report, folder):
    files = list(files_of(report, folder))
    told = list_all(report, folder, [str(file) for file in files])
    if told is None:
        report.skip(1, "no node with 64-bit memory for WebAssembly")
        return
    for file, had, printed in zip(files, told, shown(report, files), strict=True):
        report.expect(f"{file.name}: it can be opened", "error" not in had, had)
        if "error" not in had:
            expect_same(report, file, had, printed)


def longest(frames):
    """Octets of the longest uplink, which repeats these frames, and how many bursts stand before each frame of one round."""
    ends, before = [0], [0]
    while ends[-1] < len(frames):
        at, bursts = ends[-1], before[-1]
        for _ in range(2):
            bursts += frames[at]
            at += 34 if frames[at] else 1
        ends.append(at)
        before.append(bursts)
    rounds, rest = divmod(it.LIMIT, len(ends) - 1)
    return it.UPLINK_HEAD + frames * rounds + frames[: ends[rest]], before


def check_longest(report, folder):
    """The longest recording is shown within a GB of memory: its frames at the begin, in the middle and at the end."""
    octets, before = longest((report.top / "samples/mixed_damaged/uplink.dmru").read_bytes()[8:])
    file = folder / "the longest.dmru"
    file.write_bytes(octets)
    rows, wanted, count = [], [], len(before) - 1
    for first in (0, it.LIMIT // 2, it.LIMIT - FRAMES_SHOWN):
        begin, end = (at // count * before[count] + before[at % count] for at in (first, first + FRAMES_SHOWN))
        rows += range(begin, end)
        printed = report.call("show", file, "--from", first, "--to", first + FRAMES_SHOWN - 1).out.decode().splitlines()
        wanted += printed[1:-1]
    told = list_all(report, folder, [{"path": str(file), "rows": rows}])
    if told is None:
        report.skip(1, "no node with 64-bit memory for WebAssembly")
        return
    had = told[0]
    report.expect("the longest recording can be opened", "error" not in had, had)
    report.expect("the longest recording: its lines", had.get("lines") == wanted and len(wanted) > FRAMES_SHOWN, had)
    report.expect("the longest recording: its last line", had.get("last") == printed[-1], had)
    report.expect("the longest recording is shown within a GB of memory", had.get("memory", 10**9) < 10**9, had)


def check_browser(report, folder):
    """A browser shows the page with a file in it: its lines, the details of a burst and a picture that isn't blank."""
    if not found_browser():
        report.skip(1, "no browser")
        return
    file = report.top / "samples/mixed_clean/uplink.dmru"
    lines = report.call("show", file).out.decode().splitlines()
    with Browser(folder / "page.html", WIDTH) as browser:
        browser.wait_for("['ready', 'unable'].includes(document.body.dataset.state)")
        if browser.value("document.body.dataset.state") == "unable":
            report.skip(1, "a browser without 64-bit memory for WebAssembly")
            return
        empty = size_and_octets(browser.picture())
        browser.give_file("#file", file)
        browser.wait_for("document.body.dataset.state === 'shown' && !document.querySelector('#rows').textContent.includes('…')")
        seen = browser.value("[...document.querySelectorAll('#rows div')].map(it => it.textContent)")
        report.expect("a browser shows the lines", seen and seen == lines[1 : 1 + len(seen)], (seen, lines[:4]))
        report.expect("a browser shows the last line", browser.value("document.querySelector('#last').textContent") == lines[-1])
        browser.value("document.querySelector('#rows div').click()")
        browser.wait_for("document.body.dataset.details")
        details = json.loads(browser.value("document.body.dataset.details"))
        first = json.loads(report.call("show", file, "--json").out.decode().splitlines()[1])
        report.expect("a browser shows the details of a burst", details == first, details)
        width, octets = size_and_octets(browser.picture())
        is_so = width == WIDTH and octets != empty[1] and len(set(octets)) > 100
        report.expect("a browser shows a picture", is_so, (width, len(set(octets))))
        report.expect("the page runs with no error", not browser.errors, browser.errors)


def check(report):
    with tempfile.TemporaryDirectory(prefix="dmrgate-page-") as folder:
        folder = pathlib.Path(folder)
        if made(report, folder):
            check_text(report, folder)
            check_worker(report, folder)
            check_longest(report, folder)
            check_browser(report, folder)
