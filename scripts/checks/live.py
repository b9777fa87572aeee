"""Live gateways: hosts talk through dmrgate-bridge with a radio modem. Each case is in a network namespace of its own, in which no
packet leaves the machine."""

import concurrent.futures
import os
import re
import shutil
import subprocess
import sys

from checks.bridge import BRIDGE
from checks.live_cases import CASES

# The programs that are needed, of which one makes a namespace.
PROGRAMS = "unshare", "ip"
NAMESPACE = "unshare", "--user", "--map-root-user", "--net"

# Makes a TUN device, as the script does that is tried.
TUN = """
import fcntl, os, struct
fcntl.ioctl(os.open("/dev/net/tun", os.O_RDWR), 0x400454CA, struct.pack("16sH22x", b"dmr0", 0x1001))
"""

# How many cases are done at once, since most of them wait, and for how long one may go on, in seconds.
AT_ONCE, LIMIT = 6, 600


def missing(*programs):
    """What live gateways are tried with, and these programs, but isn't here; or nothing."""
    names = [it for it in (*PROGRAMS, *programs) if not shutil.which(it)]
    if names:
        return " and ".join(f"no {it}" for it in names)
    is_made = subprocess.run([*NAMESPACE, sys.executable, "-c", TUN], capture_output=True).returncode == 0
    return "" if is_made else "no namespace or no TUN device"


def done(report, name):
    """Does a case: how many expectations passed and failed, and what was told of those."""
    words = [*NAMESPACE, sys.executable, "-m", "checks.live_cases", name, report.top, *report.programs.values()]
    env = {**os.environ, "PYTHONPATH": str(report.top / "scripts"), "PYTHONDONTWRITEBYTECODE": "1"}
    try:
        ran = subprocess.run(words, env=env, stdout=subprocess.PIPE, stderr=subprocess.STDOUT, text=True, timeout=LIMIT)
        told = ran.stdout
    except subprocess.TimeoutExpired as fault:
        told = f"{fault.stdout}\n{name} goes on for long"
    text, _, last = told.rstrip("\n").rpartition("\n")
    counts = re.fullmatch(r"(\d+) passed, (\d+) failed", last)
    if not counts:
        return 0, 1, f"FAILED {name}: {told}"
    return int(counts[1]), int(counts[2]), text


def check_help(report):
    """Help fits on a page of a terminal."""
    ran = subprocess.run([report.top / BRIDGE, "--help"], capture_output=True, text=True)
    widest = max(map(len, ran.stdout.splitlines()), default=0)
    is_so = (ran.returncode, ran.stderr) == (0, "") and "Usage: dmrgate-bridge " in ran.stdout and widest <= 80
    report.expect("the help of dmrgate-bridge", is_so, ran)


def check(report):
    check_help(report)
    if lacking := missing():
        report.skip(len(CASES), lacking)
        return
    with concurrent.futures.ThreadPoolExecutor(AT_ONCE) as pool:
        for passed, failed, told in pool.map(lambda name: done(report, name), CASES):
            report.passed += passed
            report.failed += failed
            if told:
                print(told, flush=True)
