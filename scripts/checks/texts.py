"""Help, the version, the manual page, the completions and the README: they name the same commands, options and defaults."""

import pathlib
import re
import shutil
import subprocess
import tempfile

from checks import captures, recordings
from checks.make import SCENE, SCENE_DOWNLINK
from checks.program import Room

MANUAL = "share/man/man1/dmrgate.1"
BASH = "share/bash-completion/completions/dmrgate"
ZSH = "share/zsh/site-functions/_dmrgate"
FISH = "share/fish/vendor_completions.d/dmrgate.fish"
# The formats of import and export, and the commands that take no file behind their options.
FORMATS = {"text", "datagrams", "dmrd"}
WITHOUT_FILES = {"run", "slot"}

# Stands in for socat, between the ports of a modem: one sends an uplink, and the other takes a downlink.
SOCAT = """#!/bin/sh
[ "$1" = -u ] || exit 2
case "$2 $3" in
    "TCP:modem:5000 -") cat modem.dmru ;;
    "- TCP:modem:5001") cat >modem.dmrd ;;
    *) exit 2 ;;
esac
"""

# What bash offers for the words of an array, the last of them unfinished.
COMPLETE = 'source "$1"; shift; COMP_WORDS=("$@"); COMP_CWORD=$(($# - 1)); _dmrgate; printf "%s\\n" "${COMPREPLY[@]}"'


# What help says, of the programs and of each command. A page of a terminal has 80 columns.
HELP = {
    "": """A two-slot DMR repeater with an IP data gateway, run on recordings

Usage: dmrgate <COMMAND>

Commands:
  run      Repeats a recording of the uplink into the downlink
  slot     Says what one burst is
  show     Lists what a file holds
  log      Lists what a repeater repeats: who calls whom
  make     Makes a recording of transmissions that are written down
  damage   Turns bits of a recording, within the limits or at a rate
  compare  Tells where two files differ
  import   Makes a file of a run from another format
  export   Writes a file of a run in another format
  help     Print this message or the help of the given subcommand(s)

Options:
  -h, --help     Print help
  -V, --version  Print version
""",
    "run": """Repeats a recording of the uplink into the downlink

Usage: dmrgate run [OPTIONS] --uplink <FILE> --downlink <FILE> --llid <N>

Options:
      --uplink <FILE>     The uplink recording, to read; - is standard input
      --outgoing <FILE>   The datagrams to send, to read; none without it
      --downlink <FILE>   The downlink, to write; - is standard output
      --received <FILE>   The datagrams received, to write; not kept without it
      --llid <N>          The gateway's address on the air (LLID), 1 to 16777215
      --colour <N>        The colour code, 0 to 15 [default: 1]
      --call-hang <N>     Frames that a call is held behind its end [default: 3]
      --channel-hang <N>  Frames that the channel stays on the air [default: 5]
      --queue <N>         Datagrams waiting in a slot, 1 to 64 [default: 9]
      --verbose           Tells where a fault is, or why nothing is repeated
  -h, --help              Print help

A frame is slot 1 and slot 2, 60 ms. The downlink is six frames behind the
uplink. A call hang and a channel hang have 0 to 65535 frames, the call hang at
most as many as the channel hang. No output may be another file of the run.
Where an input is a pipe, each frame is written as soon as it is decided.

Status 0: done, and the numbers of the run are printed, to standard error where
a file goes to standard output; 1: a fault, which is told on standard error;
2: the command line. With --verbose one more line on standard error has the
file, the octet, the frame and the slot of a fault, and the system's reason;
or, where nothing is repeated, what was heard.

Example:
  dmrgate run --uplink in.dmru --downlink out.dmrd --llid 1

The files are described in docs/protocol.md.
""",
    "slot": """Says what one burst is

Usage: dmrgate slot <HEX>

Arguments:
  <HEX>  A burst of 66 hexadecimal digits

Options:
  -h, --help  Print help

Example:
 dmrgate slot 53C25EABA8671DC7383BD936065DFF57D75DF5D92BF6E465171B48CA6D4FC610B4
""",
    "show": """Lists what a file holds

Usage: dmrgate show [OPTIONS] <FILE>

Arguments:
  <FILE>  The file to list; - is standard input

Options:
      --strip         A picture: a letter a slot, 50 frames a line
      --json          An object a line, for programs
      --slot <N>      The slot alone, 1 or 2
      --from <FRAME>  The first frame that has lines
      --to <FRAME>    The last frame that has lines
  -h, --help          Print help

A file is one of the four of a run, told by its first octets. Each burst or
record has a line: seconds, frame and slot, and what it is; silence has none.
The last line counts all that the file holds.

The letters of a strip: . silence, H voice header, P PI header, A to F places
of a superframe, v a voice burst in no place, T terminator, c CSBK, D data
header, b data block, m multi block control or unified block, i idle,
? unreadable. A list has no strip.

Status 0: the file is whole; 1: it is at fault, which is told on standard error
with the octet at which its record begins; 2: the command line.

Example:
  dmrgate show uplink.dmru --slot 1 --from 100 --to 199

The files are described in docs/protocol.md.
""",
    "log": """Lists what a repeater repeats: who calls whom

Usage: dmrgate log [OPTIONS] <UPLINK>

Arguments:
  <UPLINK>  The uplink recording; - is standard input

Options:
      --colour <N>    The colour code, 0 to 15 [default: 1]
      --llid <N>      Also what a gateway of this address (LLID) receives
      --start <TIME>  When it began, as 2026-01-31T12:00:00Z
      --csv           A table: a row of CSV for each
      --json          An object a line, for programs
      --html          A page: a picture of each minute, and a table
      --slot <N>      The slot alone, 1 or 2
      --from <FRAME>  The first frame that has lines
      --to <FRAME>    The last frame that has lines
  -h, --help          Print help

What a repeater of this colour code repeats of a recording has a line for each
transmission: when it begins and how many seconds it takes, its first frame, its
slot, and what it is. Transmissions are calls, packets with the preambles in
front of them, and rows of other control blocks. Lines stand in the order in
which transmissions end. The last line counts all, whatever lines are asked for.

A call has who calls whom, its places, filled ones among them, and how it ended:
with a terminator; lost, where nothing is repeated behind it; cut, where another
burst is; or with the end of the recording. It is late where it begins with a
place. A packet has how many of its blocks came. [wrong: 21 of 263 bits] tells
how many bits were wrong, of those that codes cover.

--csv has a row for each line, behind one that names the columns. --html has a
page for a browser or for paper: a picture of both slots for each minute, and a
table of what ended in it. Where the recording is a pipe, each line is printed
as soon as it is known, and each minute as soon as it is over.

Status 0: the recording is whole; 1: it is at fault, which is told on standard
error with the octet at which its record begins; 2: the command line.

Example:
  dmrgate log uplink.dmru --llid 1 --start 2026-01-31T12:00:00Z --csv

The lines, the columns and the page are described in docs/protocol.md.
""",
    "make": """Makes a recording of transmissions that are written down

Usage: dmrgate make [OPTIONS] <SCRIPT> <UPLINK>

Arguments:
  <SCRIPT>  The script, to read; - is standard input
  <UPLINK>  The uplink recording, to write; - is standard output

Options:
      --outgoing <FILE>  The datagrams that the script sends, to write
  -h, --help             Print help

A script has a statement a line. It names a slot, and then what is sent in it:
what the listing says of a transmission, and behind a colon what the strip
shows of it. # begins a remark. Of radio 2, which calls talk group 1 and is lost
for a moment, and of radio 4, which sends a status in the other slot:

  colour 1
  slot 1
  group call 2 -> 1: H .. ABCDEF A..DEF T
  slot 2
  at 12
  status 4 -> 1, port 1 -> 2, status 5
  frames 40

Between two transmissions stands what `silence N` or `at FRAME` say, and else
the least silence that may. Each burst is the exact encoding of what is said.
`send at FRAME, UDP 12.0.0.1:5016 -> 12.0.0.2:5018` is a datagram for the
outgoing list of a run, which --outgoing names.

Status 0: done, and the counts are in a line on standard output, or on standard
error where a file goes to standard output; 1: a fault, which is told on
standard error, of the script with the number of its line; 2: the command line.
Of a script that is refused nothing is written.

Example:
  dmrgate make scene.txt - | dmrgate show - --strip

The statements are described in docs/protocol.md.
""",
    "damage": """Turns bits of a recording, within the limits or at a rate

Usage: dmrgate damage [OPTIONS] <IN> <OUT>

Arguments:
  <IN>   The uplink recording; - is standard input
  <OUT>  The damaged one, to write; - is standard output

Options:
      --seed <N>    Another number, other damage [default: 0]
      --colour <N>  The colour code, 0 to 15 [default: 1]
      --errors <N>  Turns each bit with N in 10000
      --loss <N>    Leaves each burst out with N in 10000
  -h, --help        Print help

Without rates, damage stays within the limits of a repeater of this colour code.
Each part of a burst that it repeats becomes the word that it reads as, with as
many wrong bits as are sure to be undone. Vocoder bits stay, and so does all
that no code covers. So a run writes the same downlink for both recordings.

With --errors or --loss each bit of each burst is turned, and each burst is left
out, with so many in 10000. Where one of both is given, the other is 0. Nothing
is promised then of what a run makes of it: 500 errors are a bit error rate of
5 %, at which sensitivity is measured.

One seed gives one file. The last line counts frames, bursts, those that were
changed, those that were left out, and bits that were turned. Where the input is
a pipe, each frame is written as soon as it is decided.

Status 0: done, and that line is on standard output, or on standard error where
the recording goes to standard output; 1: a fault, which is told on standard
error; 2: the command line.

Example:
  dmrgate damage uplink.dmru damaged.dmru --seed 7

What is drawn, and in which order, is described in docs/protocol.md.
""",
    "compare": """Tells where two files differ

Usage: dmrgate compare [OPTIONS] <A> <B>

Arguments:
  <A>  A file; - is standard input
  <B>  Another of its kind; - is standard input

Options:
      --shift <N>      Compares frame f of A with frame f+N of B
      --ignore <PART>  Leaves out a part of each burst: cach or vocoder
      --quiet          Prints the counts alone
  -h, --help           Print help

Two files of one kind are compared, slot by slot or record by record. Each place
where they differ has two lines, which say what `dmrgate show` shows there, or
`silence`. Brackets behind the second have how many bits of CACH and burst
differ, or how many octets of a record. The last line counts places: those that
are the same, those that differ, and those that one of the two has alone.

A shift may be negative. Frames in front of those that are compared aren't
counted. Lists have no shift. `--ignore` may be given twice: other repeaters
announce calls otherwise, and some correct vocoder bits.

Status 0: the files are the same, of what isn't ignored; 1: they differ; 2: the
command line, or a file is at fault, which is told on standard error.

Example:
  dmrgate compare expected.dmrd got.dmrd --ignore cach

The lines are described in docs/protocol.md.
""",
    "import": """Makes a file of a run from another format

Usage: dmrgate import <COMMAND>

Commands:
  text       Makes any of the four files from lines of text
  datagrams  Makes an outgoing list of the datagrams of a capture
  dmrd       Makes a recording of the packets of hotspots in a capture
  help       Print this message or the help of the given subcommand(s)

Options:
  -h, --help  Print help
""",
    "import text": """Makes any of the four files from lines of text

Usage: dmrgate import text <TEXT> <OUT>

Arguments:
  <TEXT>  The text, to read; - is standard input
  <OUT>   The file to make of it; - is standard output

Options:
  -h, --help  Print help

The first line is `dmrgate`, then `uplink`, `downlink`, `outgoing` or
`received`, then 1. The last line is `frames N` of a recording, silence among
them, or `records N` of a list. Each line between has a frame, a slot, and:

  uplink    a burst, of 66 hexadecimal digits
  downlink  a CACH, of 6 digits, and a burst
  outgoing  unconfirmed or confirmed, half or full, and octets
  received  datagram, short-data or status, the source, and octets

Octets are hexadecimal digits, or - where there are none. Slots without a line
are silent. Words are parted by spaces or tabs. Empty lines, lines that begin
with # and carriage returns at the ends of lines are passed over. Where the
text is a pipe, each record is written as soon as it is known.

Status 0: done, and frames and records are counted in a line on standard
output, or on standard error where the file goes to standard output; 1: a
fault, which is told on standard error with the number of its line; 2: the
command line.

Example, of silence in frame 0, and a burst in slot 1 of frame 1:
  dmrgate uplink 1
  1 1 0062008201900100042004E004CD5D7F77FD757AC81800280250028000C0120022
  frames 2

The text is described in docs/protocol.md.
""",
    "import datagrams": """Makes an outgoing list of the datagrams of a capture

Usage: dmrgate import datagrams [OPTIONS] --slot <N> <CAPTURE> <OUT>

Arguments:
  <CAPTURE>  The capture, pcap or pcapng; - is standard input
  <OUT>      The outgoing list to make of it; - is standard output

Options:
      --slot <N>             The slot in which they are to go out, 1 or 2
      --confirmed            As confirmed packets
      --full-rate            At rate 1, and not at rate 1/2
      --first-frame <FRAME>  The frame of the first of them [default: 0]
  -h, --help                 Print help

A capture is pcap or pcapng, told by its first octets, of link type 1, 101, 113,
228 or 276. Each IPv4 packet whose destination begins with 12 or 225 becomes a
record, with as many octets as it says. Others are counted, and left out. Its
frame is the one that is asked for, and one more for each 60 ms since the first
of them, but never less than that of the record before. A run judges datagrams,
and counts those that it refuses. Where the capture is a pipe, each record is
written as soon as its packet is there.

Status 0: done, and the counts are in a line on standard output, or on standard
error where the list goes to standard output; 1: a fault, which is told on
standard error, and the records before it are written; 2: the command line.

Example:
  dmrgate import datagrams hosts.pcap outgoing.dmro --slot 1 --confirmed

The list is described in docs/protocol.md.
""",
    "import dmrd": """Makes a recording of the packets of hotspots in a capture

Usage: dmrgate import dmrd [OPTIONS] <CAPTURE> <OUT>

Arguments:
  <CAPTURE>  The capture, pcap or pcapng; - is standard input
  <OUT>      The uplink recording to make of it; - is standard output

Options:
      --port <PORT>       The packets go to this port of UDP [default: 62031]
      --from-port <PORT>  They come from this port instead
      --repeater <N>      Those of this repeater; else those of the first one
      --as-uplink         Makes the syncs of a base station those of mobiles
  -h, --help              Print help

A capture is pcap or pcapng, told by its first octets, of link type 1, 101, 113,
228 or 276. Taken are packets of UDP that begin with DMRD: the protocol by which
hotspots and repeaters carry bursts to their network, port 62031, and back. Each
becomes a burst of an uplink recording. Those of other repeaters are counted,
and left out.

Each slot is placed alone, by streams, numbers and times. What was lost, and
silence on the air, is silence. A packet behind a later one of its stream is
late, and dropped. The counts are frames, bursts in each slot, numbers that were
left out, late packets, and other packets. Nothing is written before the whole
capture was read.

What a duplex repeater sends to its network has the sync words of a base
station, of which a run repeats nothing. With --as-uplink they become those of a
mobile.

Status 0: done, and the counts are in a line on standard output, or on standard
error where the recording goes to standard output; 1: a fault, which is told on
standard error, and nothing is written; 2: the command line.

Example:
  dmrgate import dmrd hotspot.pcap uplink.dmru --as-uplink

The rule is described in docs/protocol.md.
""",
    "export": """Writes a file of a run in another format

Usage: dmrgate export <COMMAND>

Commands:
  text       Writes any of the four files as lines of text
  datagrams  Writes the datagrams of a received list as a capture
  dmrd       Writes the repeated bursts of a downlink as a capture
  help       Print this message or the help of the given subcommand(s)

Options:
  -h, --help  Print help
""",
    "export text": """Writes any of the four files as lines of text

Usage: dmrgate export text <FILE> <OUT>

Arguments:
  <FILE>  The file to write as text; - is standard input
  <OUT>   The text, to write; - is standard output

Options:
  -h, --help  Print help

A file is one of the four of a run, told by its first octets. Its text has a
first line, then a line for each burst or record, and a last line that counts
frames or records. Silent slots have no line. `dmrgate import text --help`
explains the lines, and that command makes the file again, octet for octet.
Where the file is a pipe, each line is written as soon as it is known.

Status 0: done, and frames and records are counted in a line on standard
output, or on standard error where the text goes to standard output; 1: a
fault, which is told on standard error, and the text of what stands before it
is written; 2: the command line.

Example:
  dmrgate export text uplink.dmru - | grep " 2 "

The text is described in docs/protocol.md.
""",
    "export datagrams": """Writes the datagrams of a received list as a capture

Usage: dmrgate export datagrams [OPTIONS] <RECEIVED> <OUT>

Arguments:
  <RECEIVED>  The received list; - is standard input
  <OUT>       The capture, to write; - is standard output

Options:
      --slot <N>      The slot alone, 1 or 2
      --start <TIME>  When the run began, as 2026-01-31T12:00:00Z
  -h, --help          Print help

A received list is the one that a run writes. Each of its datagrams becomes a
packet of the capture, octet for octet, in its order. Its time is when its frame
began, and 30 ms later in slot 2, counted from --start, or else from 1970.
Short data and statuses are no datagrams: they are counted, and left out.
The capture is pcap, of link type 228, for Wireshark, tshark and tcpdump. Where
the list is a pipe, each packet is written as soon as its record is there.

Status 0: done, and the counts are in a line on standard output, or on standard
error where the capture goes to standard output; 1: a fault, which is told on
standard error, and the packets before it are written; 2: the command line.

Example:
  dmrgate export datagrams received.dmri - | tshark -r -

The capture is described in docs/protocol.md.
""",
    "export dmrd": """Writes the repeated bursts of a downlink as a capture

Usage: dmrgate export dmrd [OPTIONS] <DOWNLINK> <OUT>

Arguments:
  <DOWNLINK>  The downlink recording; - is standard input
  <OUT>       The capture, to write; - is standard output

Options:
      --repeater <N>  The number of the repeater in them [default: 1]
      --start <TIME>  When the run began, as 2026-01-31T12:00:00Z
  -h, --help          Print help

A downlink is the one that a run writes. Each of its bursts that is repeated,
which its CACH says, becomes a packet of UDP that begins with DMRD: the protocol
by which repeaters carry bursts to their network, port 62031. They go from
192.0.2.1 to 192.0.2.2. Other bursts are counted, and left out.

A stream is what `dmrgate log` calls a transmission. Streams are numbered from
1 on, and packets by their frames in it from 0, so that a lost block leaves a
number out. All packets of a stream have its addresses, those of a late call
from its first superframe, or zeros where there are none. A packet's time is
when its frame began, and 30 ms later in slot 2, counted from --start, or else
from 1970. The capture is pcap, of link type 228, for Wireshark, tshark and
tcpdump. Where the downlink is a pipe, each packet is written four frames later.

Status 0: done, and the counts are in a line on standard output, or on standard
error where the capture goes to standard output; 1: a fault, which is told on
standard error, and the packets before it are written; 2: the command line.

Example:
  dmrgate export dmrd downlink.dmrd - --repeater 262001 | tshark -r -

The capture is described in docs/protocol.md.
""",
}


def options_in(text):
    return set(re.findall(r"--[a-z][a-z-]*", text))


def defaults_in(text):
    """Each option that has a default, with it."""
    return dict(re.findall(r"^ +(--[a-z-]+) .*\[default: (\d+)\]$", text, re.MULTILINE))


def help_of(report, *words):
    ran = report.call(*words, "--help")
    report.expect(f"help of {words}", ran.status == 0 and ran.err == b"", ran)
    return ran.out.decode()


def check_alike(report):
    """What isn't asked of one command, all programs tell alike."""
    report.expect("there are several programs", len(report.programs) > 1, report.programs)
    asked = [], ["--help"], ["-h"], ["help"], ["help", "help"], ["--version"], ["-V"], ["walk"], ["help", "walk"], ["--walk"]
    for words in asked:
        ended = [report.call(*words, program=name) for name in report.programs]
        told = {(ran.status, ran.out, ran.err) for ran in ended}
        report.expect(f"all programs tell the same of {words}", len(told) == 1, ended)
    for name, program in report.programs.items():
        with tempfile.TemporaryDirectory() as folder:
            other = pathlib.Path(folder, "other")
            other.symlink_to(program)
            ran = subprocess.run([other, "--help"], capture_output=True, text=True)
            report.expect(f"{name}: usage under another name", "\nUsage: dmrgate <COMMAND>" in ran.stdout, ran)


def check_help(report):
    """Help says what it says, within the columns of a page; answers the options of each command by its name."""
    for command, text in HELP.items():
        had = help_of(report, *command.split())
        report.expect(f"help of {command or 'the programs'}", had == text, had)
        wide = [line for line in had.splitlines() if len(line) > 80]
        report.expect(f"help of {command or 'the programs'} has 80 columns", not wide, wide)
        ran = report.call("help", *command.split())
        report.expect(f"help {command} is {command} --help", (ran.status, ran.out.decode(), ran.err) == (0, text, b""), ran)
    options = re.compile(r"^Options:\n((?: .*\n)+)", re.MULTILINE)
    return {command: options_in(options.search(text)[1]) for command, text in HELP.items()}


def check_manual(report, wanted, version):
    text = (report.top / MANUAL).read_text()
    plain = text.replace("\\-", "-")
    report.expect("the manual's options", options_in(plain) == wanted, options_in(plain) ^ wanted)
    report.expect("the manual's version", f'"{version}"' in text, version)
    told = dict(re.findall(r"^\.BI (--[a-z-]+) .*\n.*; (\d+) where it is left out\.$", plain, re.MULTILINE))
    names = "run", "damage", "import datagrams", "import dmrd", "export dmrd"
    helps = (report.call(*name.split(), "--help").out.decode() for name in names)
    defaults = {option: value for text in helps for option, value in defaults_in(text).items()}
    report.expect("the manual's defaults", told == defaults, told)
    if shutil.which("groff"):
        ran = subprocess.run(["groff", "-man", "-ww", "-Tascii", "-z", report.top / MANUAL], capture_output=True, text=True)
        report.expect("the manual is laid out without a warning", (ran.returncode, ran.stderr) == (0, ""), ran.stderr)


def offered(report, *words):
    command = ["bash", "-c", COMPLETE, "bash", report.top / BASH, *words]
    ran = subprocess.run(command, capture_output=True, text=True, cwd=report.top)
    report.expect(f"bash completes {words}", ran.stderr == "", ran.stderr)
    return set(ran.stdout.split())


def check_completions(report, options):
    """The completions offer each command, each format, and the options of each command; and files where it takes some."""
    commands = {name.split()[0] for name in options if name}
    check_bash(report, options, commands)
    check_zsh(report, options, commands)
    check_fish(report, options, commands)
    for shell, file in (("zsh", ZSH), ("fish", FISH), ("bash", BASH)):
        if shutil.which(shell):
            ran = subprocess.run([shell, "-n", report.top / file], capture_output=True, text=True)
            report.expect(f"{shell} reads its completions", (ran.returncode, ran.stderr) == (0, ""), ran.stderr)


def check_bash(report, options, commands):
    rows = [
        (["dmrgate", ""], {*commands, "help"} | options[""]),
        (["dmrgate", "-"], options[""]),
        (["dmrgate", "s"], {"slot", "show"}),
        (["dmrgate", "run", ""], options["run"]),
        (["dmrgate", "run", "--c"], {"--colour", "--call-hang", "--channel-hang"}),
        (["dmrgate", "run", "--uplink", "READ"], {"README.md"}),
        # Bash parts words at =, unless it is told not to.
        (["dmrgate", "run", "--uplink", "=", "READ"], {"README.md"}),
        (["dmrgate", "run", "--uplink=READ"], {"--uplink=README.md"}),
        (["dmrgate", "run", "--llid", ""], set()),
        (["dmrgate", "run", "--llid", "="], set()),
        (["dmrgate", "run", "--color", ""], set()),
        (["dmrgate", "run", "--", "-"], set()),
        (["dmrgate", "show", "READ"], {"README.md"}),
        (["dmrgate", "show", "--slot", ""], {"1", "2"}),
        (["dmrgate", "show", "--slot", "="], {"1", "2"}),
        (["dmrgate", "show", "--slot=2"], {"--slot=2"}),
        (["dmrgate", "show", "--from", ""], set()),
        (["dmrgate", "show", "--", "-"], set()),
        (["dmrgate", "log", "READ"], {"README.md"}),
        (["dmrgate", "log", "--start", ""], set()),
        (["dmrgate", "make", "READ"], {"README.md"}),
        (["dmrgate", "make", "README.md", "CHANGE"], {"CHANGELOG.md"}),
        (["dmrgate", "make", "--outgoing", "READ"], {"README.md"}),
        (["dmrgate", "damage", "READ"], {"README.md"}),
        (["dmrgate", "damage", "README.md", "CHANGE"], {"CHANGELOG.md"}),
        (["dmrgate", "damage", "--c"], {"--colour"}),
        (["dmrgate", "damage", "--seed", ""], set()),
        (["dmrgate", "damage", "--errors", ""], set()),
        (["dmrgate", "damage", "--loss="], set()),
        (["dmrgate", "compare", "READ"], {"README.md"}),
        (["dmrgate", "compare", "README.md", "CHANGE"], {"CHANGELOG.md"}),
        (["dmrgate", "compare", "--ignore", ""], {"cach", "vocoder"}),
        (["dmrgate", "compare", "--ignore=v"], {"--ignore=vocoder"}),
        (["dmrgate", "compare", "--shift", ""], set()),
        (["dmrgate", "help", ""], commands),
        (["dmrgate", "help", "show", ""], set()),
        (["dmrgate", "help", "import", ""], FORMATS),
        (["dmrgate", "help", "export", ""], FORMATS),
        (["dmrgate", "import", ""], {*FORMATS, "help"} | options["import"]),
        (["dmrgate", "import", "dmrd", "--repeater", ""], set()),
        (["dmrgate", "import", "datagrams", "READ"], {"README.md"}),
        (["dmrgate", "import", "datagrams", "--slot", ""], {"1", "2"}),
        (["dmrgate", "import", "datagrams", "--first-frame", ""], set()),
        (["dmrgate", "export", "datagrams", "--start", ""], set()),
        (["dmrgate", "export", "dmrd", "--repeater", ""], set()),
        (["dmrgate", "export", "d"], {"datagrams", "dmrd"}),
        (["dmrgate", "export", "t"], {"text"}),
        (["dmrgate", "export", "text", "READ"], {"README.md"}),
        (["dmrgate", "import", "text", "README.md", "CHANGE"], {"CHANGELOG.md"}),
        (["dmrgate", "import", "text", "--", "READ"], {"README.md"}),
    ]
    rows += [(["dmrgate", *name.split(), "-"], wanted) for name, wanted in options.items() if name]
    rows += [(["dmrgate", name, "--", "READ"], {"README.md"}) for name in sorted(commands - WITHOUT_FILES)]
    for words, wanted in rows:
        had = offered(report, *words)
        report.expect(f"bash offers for {words}", had == wanted, had ^ wanted)


def check_zsh(report, options, commands):
    text = (report.top / ZSH).read_text()
    lists = [{*re.findall(r'([a-z]+)\\:"', it)} for it in re.findall(r"'1:(?:command|format):\(\((.*)\)\)'", text)]
    report.expect("zsh's commands and formats", lists == [{*it, "help"} for it in (commands, FORMATS, FORMATS)], lists)
    lists = [{*it.split()} for it in re.findall(r"'\d:(?:command|format):\(([a-z ]+)\)'", text)]
    report.expect("zsh's commands and formats behind help", lists == [commands, FORMATS], lists)
    front, *behind = re.split(r"^    ([a-z]+)\)$", text, flags=re.MULTILINE)
    parts = {"": front, **dict(zip(behind[::2], behind[1::2]))}
    report.expect("zsh has a case of each command", {*parts} == {"", *commands, "help"}, {*parts} ^ {"", *commands, "help"})
    for name in ("", *sorted(commands)):
        part = parts.get(name, "")
        wanted = set().union(*(had for command, had in options.items() if command.partition(" ")[0] == name))
        report.expect(f"zsh's options of {name or 'the program'}", options_in(part) == wanted, options_in(part) ^ wanted)
        kinds = sum(command.startswith(f"{name} ") for command in options) or 1
        is_so = not name or part.count("_arguments -S ") == kinds
        report.expect(f"zsh offers no option of {name or 'the program'} behind --", is_so, part)
        without = re.findall(r"(--[a-z-]+)\[[^]]*\]:", part)
        report.expect(f"zsh takes each value of {name or 'the program'} behind = too", not without, without)


def check_fish(report, options, commands):
    text = (report.top / FISH).read_text()
    had = {*re.findall(r" -n __fish_use_subcommand -a ([a-z]+) ", text)}
    report.expect("fish's commands", had == {*commands, "help"}, had ^ {*commands, "help"})
    had = {*re.search(r"from help' -a '([a-z ]+)'$", text, re.MULTILINE)[1].split()}
    report.expect("fish's commands behind help", had == commands, had ^ commands)
    for command in ("import", "export"):
        had = {*re.findall(rf"from [a-z ]*{command}[a-z ]*; and not .* -a ([a-z]+) ", text)}
        report.expect(f"fish's formats of {command}", had == FORMATS, had ^ FORMATS)
    had = {*" ".join(re.findall(r"'__fish_seen_subcommand_from ([a-z ]+)' -F$", text, re.MULTILINE)).split()}
    wanted = commands - WITHOUT_FILES - {"import", "export"} | FORMATS
    report.expect("fish offers files", had == wanted, had ^ wanted)
    for name, wanted in options.items():
        mark = f"from {name.replace(' ', '; and __fish_seen_subcommand_from ')}'" if name else "__fish_use_subcommand"
        lines = [line for line in text.splitlines() if mark in line]
        had = {"--help", *(f"--{word}" for line in lines for word in re.findall(r" -l ([a-z-]+)", line))}
        report.expect(f"fish's options of {name or 'the program'}", had == wanted, had ^ wanted)


def shell(command, folder):
    return subprocess.run(["sh", "-c", command], cwd=folder, capture_output=True, text=True)


def expect_live(report, name, room, sample, command):
    """A command repeats between the ports of a modem."""
    (room.path / "socat").write_text(SOCAT)
    (room.path / "socat").chmod(0o755)
    shutil.copy(sample / "uplink.dmru", room.path / "modem.dmru")
    ran = shell(f"PATH=$PWD:$PATH; {command}", room.path)
    taken = (room.path / "modem.dmrd").read_bytes()
    is_so = (ran.returncode, ran.stdout, ran.stderr) == (0, "", (sample / "summary.txt").read_text())
    report.expect(name, is_so and taken == (sample / "downlink.dmrd").read_bytes(), ran)
    (room.path / "modem.dmru").unlink()


def check_examples(report):
    """The manual's examples run: over a file, to a picture, of a script, and between the ports of a modem."""
    text = (report.top / MANUAL).read_text()
    text = text[text.index(".SH EXAMPLES") :].replace("\\-", "-")
    over_file, to_picture, of_script, live = re.findall(r"^\.nf\n(.*?)^\.fi$", text, re.MULTILINE | re.DOTALL)
    sample = report.top / "samples/call"
    line = (sample / "summary.txt").read_text()
    with Room(report) as room:
        (room.path / "dmrgate").symlink_to(report.top / "dmrgate")
        shutil.copy(sample / "uplink.dmru", room.path / "in.dmru")
        ran = shell(f"PATH=$PWD:$PATH; {over_file}", room.path)
        written = (room.path / "out.dmrd").read_bytes()
        is_so = (ran.returncode, ran.stdout, ran.stderr, written) == (0, line, "", (sample / "downlink.dmrd").read_bytes())
        report.expect("the manual's run over a file", is_so, ran)
        ran, strip = shell(f"PATH=$PWD:$PATH; {to_picture}", room.path), shell("./dmrgate show out.dmrd --strip", room.path)
        is_so = (ran.returncode, ran.stdout, ran.stderr) == (0, strip.stdout, line)
        report.expect("the manual's picture", is_so and strip.stdout, ran)
        (room.path / "scene.txt").write_text(SCENE)
        ran = shell(f"PATH=$PWD:$PATH; {of_script}", room.path)
        report.expect("the manual's picture of a script", (ran.returncode, ran.stdout) == (0, SCENE_DOWNLINK), ran)
        expect_live(report, "the manual's run between the ports of a modem", room, sample, live)


def check_readme(report):
    """Its commands run, and those that the guide shows with what they print; they do what is said of them."""
    text = (report.top / "README.md").read_text()
    command = re.search(r"^    (\./dmrgate run .*)$", text, re.MULTILINE)[1]
    line = re.search(r"It prints `(frames .*?)`", text)[1]
    named = re.search(r" --uplink (samples/\w+)/uplink\.dmru --downlink downlink\.dmrd ", command)[1]
    sample = report.top / named
    wanted = (sample / "downlink.dmrd").read_bytes()
    is_told = f"`downlink.dmrd` is `{named}/downlink.dmrd`, octet for octet" in " ".join(text.split())
    report.expect("the README tells which downlink it is", is_told, named)
    with Room(report, b"", b"") as room:
        (room.path / "dmrgate").symlink_to(report.top / "dmrgate")
        (room.path / "samples").symlink_to(report.top / "samples")
        ran = shell(command, room.path)
        report.expect("the command of the README", (ran.returncode, ran.stdout) == (0, line + "\n"), ran)
        report.expect("its downlink", room.downlink.name == "downlink.dmrd" and room.downlink.read_bytes() == wanted)

        piped = re.search(r"^    (\./dmrgate run .* \| \./dmrgate show - --strip)$", text, re.MULTILINE)[1]
        ran, strip = shell(piped, room.path), shell("./dmrgate show downlink.dmrd --strip", room.path)
        is_so = (ran.returncode, ran.stdout, ran.stderr) == (0, strip.stdout, line + "\n")
        report.expect("the README's pipe", is_so and strip.stdout, ran)
        live = re.search(r"^    (socat .*)$", text, re.MULTILINE)[1]
        expect_live(report, "the README's run between the ports of a modem", room, sample, live)
        guide = (report.top / "docs/guide.md").read_text()
        script = re.search(r"^    (awk '.*?import text - mine\.dmru)$", guide, re.MULTILINE | re.DOTALL)[1]
        later = recordings.UPLINK_HEAD + bytes(2) + recordings.ONE_CSBK[8:]
        for slots, octets in (("{}\n\n", recordings.ONE_CSBK), ("\n\n{}", later)):
            (room.path / "slots.txt").write_text(slots.format(recordings.CSBK.hex().upper()))
            ran = shell(script, room.path)
            report.expect("the guide's recording of one's own", (room.path / "mine.dmru").read_bytes() == octets, ran)
        carried = re.search(r"^    (\./dmrgate export text (\S+) .* (\S+))$", text, re.MULTILINE)
        ran, there = shell(carried[1], room.path), room.path / carried[3]
        is_so = ran.returncode == 0 and there.read_bytes() == (report.top / carried[2]).read_bytes()
        report.expect("the README's text and back", is_so, ran)
        shown_in = text + re.sub(r"^      ", "    ", guide, flags=re.MULTILINE)
        blocks = re.findall(r"^    \$ (\./dmrgate (?:show|log|damage|run|compare) .*)\n((?:    .*\n)+)", shown_in, re.MULTILINE)
        is_shown = any(command.startswith("./dmrgate show downlink.dmrd") for command, _ in blocks)
        report.expect("the README shows the downlink of its run", is_shown)
        for command, shown in blocks:
            if "| jq" in command and not shutil.which("jq"):
                continue
            ran = shell(command, room.path)
            lines = re.sub(r"^    ", "", shown, flags=re.MULTILINE)
            report.expect(f"what is shown: {command}", (ran.returncode, ran.stdout) == (0, lines), ran)
        ran = shell(re.search(r"^    (printf .* \./dmrgate make .*)$", text, re.MULTILINE)[1], room.path)
        strip = shell("./dmrgate show scene.dmru --strip", room.path)
        is_so = (ran.returncode, strip.stdout) == (0, "      0 1  H..ABCDEFA..DEFT\n      0 2  ................\n")
        report.expect("the README's recording of a script", is_so, (ran, strip))
        (room.path / "hosts.pcap").write_bytes(captures.CAPTURED)
        ran = shell(re.search(r"^    (\./dmrgate import datagrams .*)$", text, re.MULTILINE)[1], room.path)
        records = recordings.outgoing_record(0) + recordings.outgoing_record(16)
        is_so = ran.returncode == 0 and room.outgoing.read_bytes() == recordings.OUTGOING_HEAD + records
        report.expect("the README's list of a capture", is_so, ran)
        for name in ("one.dmru", "two.dmru"):
            shutil.copy(sample / "uplink.dmru", room.path / name)
        room.uplink.unlink()
        shell("rm -f mine.dmru calls.dmru damaged.dmru scene.dmru", room.path)
        ran = shell(re.search(r"^    (ls .* xargs .*)$", text, re.MULTILINE)[1], room.path)
        report.expect("many at once", (ran.returncode, ran.stdout) == (0, 2 * (line + "\n")), ran)
        made = [(room.path / f"{name}.dmru.dmrd").read_bytes() for name in ("one", "two")]
        report.expect("their downlinks", made == [wanted, wanted])


def check(report):
    check_alike(report)
    options = check_help(report)
    ran = report.call("--version")
    version = ran.out.decode().strip()
    is_version = re.fullmatch(r"dmrgate \d+\.\d+\.\d+", version) and ran.status == 0 and ran.err == b""
    report.expect("the version", is_version, ran)
    short = report.call("-V")
    report.expect("-V is --version", (short.status, short.out, short.err) == (ran.status, ran.out, ran.err), short)
    check_manual(report, set().union(*options.values()), version)
    check_examples(report)
    check_completions(report, options)
    check_readme(report)
