#!/usr/bin/env python3
"""Counts the instructions of imgref_frames over long lists of boxes: four times as many boxes may take five times as many.

The time of n log n grows by 4.5 from 40,000 boxes to 160,000, and that of the square by 16. The counts are those of valgrind, so they
don't depend on the machine's load. Each list is given as it is, held, and by means before a cover of other frames.
"""
import concurrent.futures
import pathlib
import re
import subprocess
import sys
import tempfile

sys.path.insert(0, str(pathlib.Path(__file__).resolve().parents[2]))
from checking import Cases, built

COUNTS, MOST = (40_000, 160_000), 5
WORDS = {"boxes": [], "held boxes": ["--hold", "3"], "means before a cover of other frames": ["--with", "means", "2,2", "9000000..", "cover", "1,1,1,1"]}
# A video of one frame of 4 by 4 pixels.
VIDEO = b"YUV4MPEG2 W4 H4 F25:1 Cmono\nFRAME\n" + bytes(16)
SUMMARY = re.compile(r"I +refs: +([\d,]+)")


def instructions(program, boxes, words):
    """What a run over a list takes, or nothing where it doesn't end well."""
    ran = subprocess.run(["valgrind", "--tool=cachegrind", "--cachegrind-out-file=/dev/null", "--cache-sim=no", program, "--boxes", boxes, *words], input=VIDEO, capture_output=True)
    return int(SUMMARY.search(ran.stderr.decode(errors="replace"))[1].replace(",", "")) if ran.returncode == 0 else None


def main():
    cases = Cases()
    programs = built("imgref_frames", ("",))
    cases.count("the build of imgref_frames is there", programs, "crates/imgref_frames/out lacks it, or it is older than its sources")
    if not programs or cases.lacks("instructions over long lists of boxes", "valgrind", number=len(WORDS)):
        return cases.end()
    with tempfile.TemporaryDirectory(prefix="boxes-") as room, concurrent.futures.ThreadPoolExecutor() as pool:
        lists = [pathlib.Path(room, str(count)) for count in COUNTS]
        for count, file in zip(COUNTS, lists):
            file.write_text("".join(f"{1 + it * 7919 % count},{it % 50},{it % 2},{it % 3},1,1\n" for it in range(count)))
        runs = {label: [pool.submit(instructions, programs[0], it, words) for it in lists] for label, words in WORDS.items()}
        for label, (few, many) in ((label, [it.result() for it in found]) for label, found in runs.items()):
            cases.count(f"{label}: {COUNTS[1]} take {many / few if few and many else 0:.2f} times what {COUNTS[0]} take", few and many and many <= MOST * few, f"{few} and {many} instructions, at most {MOST} times as many")
    return cases.end()


if __name__ == "__main__":
    sys.exit(main())
