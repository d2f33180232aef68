"""What the scripts of this folder share: the built program, its jobs with a run of each, and the count of cases."""
import os
import subprocess
import sys
import traceback
from collections import namedtuple

TOP = os.path.dirname(os.path.dirname(os.path.abspath(__file__)))
NARC = os.environ.get("NARC", os.path.join(TOP, "crates/narc/out/narc"))
DATA = os.path.join(TOP, "crates/narc_cases/data")

# A run, or a wait for an octet, that takes longer hangs.
SECONDS = 20


def octets_of(name):
    """A file of the listed cases."""
    with open(os.path.join(DATA, name), "rb") as file:
        return file.read()


CAPTURE = octets_of("captures/worked.pcap")
LINES = octets_of("captures/worked.show.txt")
TEXT = octets_of("texts/worked.txt")
BUILT = octets_of("texts/worked.build.pcap")

# The capture with the frame of its one packet written anew, which is that of the text.
REWRITTEN = BUILT + CAPTURE[82:]

# The capture whose one packet, an ARP request, is made a reply in place.
PATCHED = CAPTURE[:61] + b"\2" + CAPTURE[62:]

# A run of a job: its words, the octets that it reads, or none where it reads nothing, its whole output, and its status.
Job = namedtuple("Job", "words octets output status")

JOBS = [
    Job(["frame"], octets_of("frames/udp.bin"), octets_of("frames/udp.frame.txt"), 0),
    Job(["show"], CAPTURE, LINES, 0),
    Job(["check"], CAPTURE, octets_of("captures/worked.check.txt"), 1),
    Job(["rewrite"], CAPTURE, REWRITTEN, 0),
    Job(["patch", "arp.op=2"], CAPTURE, PATCHED, 0),
    Job(["build"], TEXT, BUILT, 0),
    Job(["trial", "0", "5"], None, octets_of("trials/from_0.txt"), 0),
    Job(["version"], None, octets_of("trials/version.txt"), 0),
]


def expect(is_so, what):
    if not is_so:
        raise AssertionError(what)


def expect_same(found, wanted):
    expect(found == wanted, f"{found!r} in place of {wanted!r}")


def said(status, place):
    """The line on standard error of a run that ends so."""
    return f"narc: status {status} at {place}\n".encode()


def passes(name, case):
    """Whether the case ends without a failed expectation."""
    try:
        case()
    except (AssertionError, OSError, subprocess.TimeoutExpired):
        print(f"failed: {name}")
        traceback.print_exc(file=sys.stdout)
        return False
    return True


def run_all(cases):
    """Runs each case, a function by its name; the last line counts them, and the exit status is theirs."""
    if not os.access(NARC, os.X_OK):
        print(f"{NARC} is no program: rt ci builds it, and so does (cd crates/narc && rt run -- version)")
        print(f"0 passed, {len(cases)} failed")
        sys.exit(1)
    told = [passes(name, case) for name, case in cases.items()]
    print(f"{sum(told)} passed, {len(told) - sum(told)} failed")
    sys.exit(0 if all(told) else 1)
