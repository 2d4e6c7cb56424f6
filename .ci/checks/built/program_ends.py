#!/usr/bin/env python3
"""Shows how the program ends: what it prints and its status, where its script or one of its devices is bad.

No clause speaks of `main`, so its arm for a fault is run: on a bad script, without input, and with devices that fail. A signal
that interrupts a call changes nothing, in the program for video and pictures neither. Both
builds are run that `rt ci` leaves in crates/imgref_run/out: LLVM's, and that of Rattle's own compiler.
"""
import os
import pathlib
import subprocess
import sys
import tempfile

sys.path.insert(0, str(pathlib.Path(__file__).resolve().parents[2]))
from checking import ROOT, Cases, both_builds, preloaded

INTERRUPTS = pathlib.Path(__file__).resolve().with_name("interrupted.c")
SCRIPT = (ROOT / "examples/first.script").read_bytes()
WRITTEN = (ROOT / "crates/imgref_run/stdout").read_bytes()
BAD = b"image 1 1 1 5\nget 0 - 00 0\n"
# A device that is closed, one that can't be read (a folder), and one that takes nothing.
CLOSED, FOLDER, FULL = "closed", "/", "/dev/full"

# What is tried, the input (bytes or a device), the output device or none, and what must be printed (none: it can't be seen), and the status.
CASES = [
    ("the example is run", SCRIPT, None, WRITTEN, 0),
    ("an empty input prints nothing", b"", None, b"", 0),
    ("a bad line is named", BAD, None, b"fault line 2\n", 2),
    ("a bad line without its line feed is named", BAD[:-1], None, b"fault line 2\n", 2),
    ("a closed input is a fault", CLOSED, None, b"fault input\n", 4),
    ("an input that can't be read is a fault", FOLDER, None, b"fault input\n", 4),
    ("an output that takes nothing is a fault", SCRIPT, FULL, None, 4),
    ("a closed output is a fault", SCRIPT, CLOSED, None, 4),
    ("a bad line is reported by the status alone where nothing can be printed", BAD, FULL, None, 2),
]


def end_of(program, given, taken):
    """What the program prints, and its status."""
    with subprocess.Popen(["sh", "-c", redirected(given, taken), "", str(program)], stdin=subprocess.PIPE, stdout=subprocess.PIPE) as it:
        printed = it.communicate(given if isinstance(given, bytes) else b"", timeout=60)[0]
    return printed, it.returncode


def redirected(given, taken):
    """The command of the shell that runs the program of its first argument over these devices."""
    source = "" if isinstance(given, bytes) else "<&-" if given == CLOSED else f"< {given}"
    sink = "" if taken is None else ">&-" if taken == CLOSED else f"> {taken}"
    return f'exec "$1" {source} {sink}'


def interrupted(cases):
    """Each second call that reads or writes is interrupted, and the output is the same."""
    pictures = b"P5 3 1 255\nabc" * 2
    with tempfile.TemporaryDirectory() as room:
        env = {**os.environ, "LD_PRELOAD": preloaded(INTERRUPTS, room)}
        named = pathlib.Path(room, "named")
        for name, words, given, wanted in (
            ("imgref_run", [], SCRIPT, WRITTEN), ("imgref_frames", ["fill", "0,0,1,1", "65"], pictures, b"P5\n3 1\n255\nAbc" * 2),
            ("imgref_frames", ["-o", named, "fill", "0,0,1,1", "65"], pictures, b""), ("imgref_frames", ["-i", named, "fill", "1,0,1,1", "66"], b"", b"P5\n3 1\n255\nABc" * 2),
        ):  # fmt: skip
            for program in both_builds(cases, name):
                ran = subprocess.run([program, *words], input=given, env=env, capture_output=True, timeout=60)
                cases.count(f"{program.name} {' '.join(map(str, words[:1]))}: interrupted calls are made again", (ran.stdout, ran.returncode) == (wanted, 0), str(ran))


def main():
    cases = Cases()
    interrupted(cases)
    programs = both_builds(cases, "imgref_run")
    for program in programs:
        for label, given, taken, wanted, status in CASES:
            printed, ended = end_of(program, given, taken)
            is_well = ended == status and (wanted is None or printed == wanted)
            cases.count(f"{program.name}: {label}", is_well, f"it printed {printed!r} and ended with status {ended}, and not {wanted!r} and {status}")
    return cases.end()


if __name__ == "__main__":
    sys.exit(main())
