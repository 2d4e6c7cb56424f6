#!/usr/bin/env python3
"""Counts the misses in the nearest cache while squares are turned and transposed, at friendly strides and others.

At a stride near a multiple of 4096 bytes, or of a large part of it, rows share few sets of a cache. A turn may then have so many
misses as a table here says, beside those at a stride of 4160. Each is done by the program bench_strides in valgrind's model of a
cache of 32 KiB with eight lines in a set: so a count hardly depends on the machine. Without valgrind the cases are skipped.
"""
import concurrent.futures
import os
import pathlib
import re
import subprocess
import sys

sys.path.insert(0, str(pathlib.Path(__file__).resolve().parents[2]))
from caches import SIMULATED
from checking import Cases, built

# The side of the square for pixels of so many bytes, so that a row has less than 2048.
SIDES = {1: 500, 2: 500, 3: 250, 4: 300, 8: 200, 16: 125}
STRIDES, FRIENDLY = (1365, 2048, 4032, 4088, 4092, 4096, 4097, 4100, 4104, 8192), 4160
# What is done, and the most misses beside those at the friendly stride, for pixels of so many bytes. Where a program's memory
# lies changes a count by a few per cent, so a limit is that much above what was counted. docs/maintainers/PERF.md says why those of bytes and pixels of two in place are so high.
LIMITS = {
    "right": {1: 1.4, 2: 1.55, 3: 1.45, 4: 1.45, 8: 1.35, 16: 1.35},
    "left": {1: 1.35, 2: 1.55, 3: 1.45, 4: 1.5, 8: 1.35, 16: 1.4},
    "across": {1: 1.4, 2: 1.55, 3: 1.5, 4: 1.5, 8: 1.35, 16: 1.35},
    "right-in-place": {1: 3.6, 2: 3.05, 3: 2.2, 4: 2.2, 8: 1.3, 16: 1.2},
    "across-in-place": {1: 5.25, 2: 4.6, 3: 3.05, 4: 2.9, 8: 1.5, 16: 1.4},
}
MODEL = ["valgrind", "--tool=cachegrind", "--cachegrind-out-file=/dev/null", *SIMULATED]
# The line of the nearest cache for data. (That of the last one begins with LLd.)
MISSES = re.compile(r"\bD\d +misses: +([\d,]+)")


def misses(program, action, pixel, stride):
    """The misses of one run."""
    words = [*MODEL, program, action, str(pixel), str(SIDES[pixel]), str(stride)]
    said = subprocess.run(words, check=True, capture_output=True, text=True).stderr
    return int(MISSES.search(said)[1].replace(",", ""))


def of_pixels(cases, pool, program, pixel):
    """The actions on pixels of so many bytes. What it takes to make the images is subtracted."""
    strides = [it // pixel * pixel for it in (*STRIDES, FRIENDLY) if it // pixel >= SIDES[pixel]]
    runs = {(it, stride): pool.submit(misses, program, it, pixel, stride) for stride in strides for it in ("make", *LIMITS)}
    for action, limits in LIMITS.items():
        counts = {stride: runs[action, stride].result() - runs["make", stride].result() for stride in strides}
        friendly = counts.pop(FRIENDLY // pixel * pixel)
        worst = max(counts, key=counts.get)
        cases.count(f"{action}, pixels of {pixel} bytes: {counts[worst] / friendly:.2f} of the misses at a stride of {worst}", counts[worst] <= limits[pixel] * friendly, f"at most {limits[pixel]}, beside {friendly} misses at a stride of {FRIENDLY}: {counts}")


def main():
    cases = Cases()
    programs = built("bench_strides", ("",))
    cases.count("the build of bench_strides is there", programs, "crates/bench_strides/out lacks it, or it is older than its sources")
    if cases.lacks("the misses of turns", "valgrind", number=3 * len(SIDES)):
        return cases.end()
    with concurrent.futures.ThreadPoolExecutor(len(os.sched_getaffinity(0))) as pool:
        for program in programs:
            for pixel in SIDES:
                of_pixels(cases, pool, program, pixel)
    return cases.end()


if __name__ == "__main__":
    sys.exit(main())
