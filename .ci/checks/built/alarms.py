#!/usr/bin/env python3
"""Shows that real signals lose no byte: each program runs through slow pipes while SIGALRM interrupts it every millisecond.

Where a device fails by each kind of error, the tests of `imgref_run` say what a call does (`retried_tests.rt`). Here 10 MB go
through each program, in both builds, and the output must be the one without a signal.
"""
import pathlib
import subprocess
import sys
import tempfile
import threading
import time

sys.path.insert(0, str(pathlib.Path(__file__).resolve().parents[2]))
from checking import Cases, both_builds, preloaded

ALARMS = pathlib.Path(__file__).resolve().with_name("alarms.c")
# A pipe has 64 KiB: pieces of this size, with a pause after each, let the program wait for the reader and for the writer.
PIECE, PAUSE = 1 << 17, 0.002
# A script of one image, which is written again as text, and a picture of which a fill changes four pixels.
SIDE = 1900
SCRIPT = f"image {SIDE} {SIDE} {SIDE} ".encode() + b" ".join(b"%d" % (n * 7 % 256) for n in range(SIDE * SIDE)) + b"\nput 0 - 0 0 9\n"
PICTURE = b"P5\n4000 2600\n255\n" + bytes(n * 11 % 251 for n in range(4000 * 2600))
CASES = [("imgref_run", [], SCRIPT), ("imgref_frames", ["fill", "1,1,2,2", "7"], PICTURE)]


def slowly(program, words, given, env=None):
    """What a program writes, read and fed in pieces, and its status."""
    with subprocess.Popen([program, *words], stdin=subprocess.PIPE, stdout=subprocess.PIPE, stderr=subprocess.PIPE, env=env) as it:

        def feed():
            with it.stdin:
                for at in range(0, len(given), PIECE):
                    it.stdin.write(given[at : at + PIECE])
                    time.sleep(PAUSE)

        feeding = threading.Thread(target=feed)
        feeding.start()
        taken = []
        while piece := it.stdout.read(PIECE):
            taken.append(piece)
            time.sleep(PAUSE)
        feeding.join()
        return b"".join(taken), it.stderr.read(), it.wait()


def main():
    cases = Cases()
    with tempfile.TemporaryDirectory() as room:
        env = {"LD_PRELOAD": preloaded(ALARMS, room)}
        for name, words, given in CASES:
            for program in both_builds(cases, name):
                wanted = subprocess.run([program, *words], input=given, capture_output=True, check=False)
                found = slowly(program, words, given, env)
                is_same = found == (wanted.stdout, wanted.stderr, 0) and len(found[0]) > 10_000_000
                cases.count(f"{program.name}: {len(given) >> 20} MB through pipes with a signal every millisecond", is_same, f"{len(found[0])} bytes of {len(wanted.stdout)}, {found[1]!r}, status {found[2]}")
    return cases.end()


if __name__ == "__main__":
    sys.exit(main())
