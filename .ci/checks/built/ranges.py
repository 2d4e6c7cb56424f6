#!/usr/bin/env python3
"""Shows which frames an edit of imgref_frames is for: by ranges of numbers and of times, and by many lines of a file.

A model that shares nothing with the program says what is written. Both builds are run that `rt ci` leaves.
"""
import functools
import itertools
import pathlib
import random
import sys
import tempfile

sys.path.insert(0, str(pathlib.Path(__file__).resolve().parents[2]))
from checking import Cases, both_builds
from tries import count_tries, ends, lines_said, video, wanted

# Small frames, and how many most of the videos have.
small, FRAMES = functools.partial(video, "420jpeg", 4, 2), 40
# The rates are even, odd, not whole, slow and fast.
RATES = ("25:1", "30000:1001", "24000:1001", "60:1", "1:1", "1:10", "7:3", "4294967295:4294967294", "1000:1")
TIMES = ("00:00:00..00:00:00.04", "00:00:00.04..", "00:00:00.000000001..00:00:00.1", "00:00:00.039999999..00:00:00.080000001", "00:00:00.1..00:00:00.2", "00:00:01..", "00:00:01.001..00:00:02.5", "00:00:00..00:01:00", "00:00:00..99:59:59.999999999", "00:00:00.033366666..00:00:00.033366668", "01:00:00..")
# Each is refused, as words or at the line.
NO_RATES = ("0:0", "25:0", "0:1", "25", "25:", ":1", "025:1", "25:1:1", "4294967296:1", "1:4294967296", "x:1", "")
NO_RANGES = ("0:00:01..", "00:00:60..", "00:60:00..", "00:00:00,5..", "00:00:00...", "00:00:00.5", "00:00:00", "..00:00:01", "00:00:00..1", "1..00:00:01", "00:00:00.0000000001..", "00:00:00.x..", "000:00:01..", "00:00..", "00:00:00:00..", "00:00:01..00:00:01", "00:00:02..00:00:01.999", "-0:00:01..", "00:00:+1..")


def by_times(cases, program):
    tries = [(f"{times} fill 0,0,2,2 9".split(), small(FRAMES, rate=rate)) for rate in RATES for times in TIMES]
    count_tries(cases, "each range of times at each rate is the model's", program, tries)
    count_tries(cases, "times beside numbers", program, [("00:00:00.2..00:00:00.6 fill 0,0,2,2 9 00:00:01.. cover 2,0,1,1 7 3..9 move 0,0,2,2 2,0 crop 0,0,2,2".split(), small(FRAMES, rate=rate)) for rate in RATES])
    count_tries(cases, "times without a rate are refused", program, [("00:00:00.. fill 0,0,2,2 9".split(), small(2, rate=rate)) for rate in (None, *NO_RATES)])
    count_tries(cases, "numbers need no rate", program, [("1..2 fill 0,0,2,2 9".split(), small(3, rate=rate)) for rate in (None, *NO_RATES)])
    two = [("00:00:00.08.. fill 0,0,2,2 9".split(), small(4).replace(b" F25:1", fields)) for fields in (b" F25:1 F50:1", b" F0:0 F25:1", b" A1:1 F25:1")]
    count_tries(cases, "the first field of a rate counts", program, two)
    count_tries(cases, "times are refused for pictures", program, [("00:00:00.. fill 0,0,1,1 9".split(), b"P5 2 1 255\nab")])
    for it in NO_RANGES:
        said = ends(program, [it, "fill", "0,0,2,2", "9"], small(2))
        cases.count(f"the range '{it}' is refused", said == (b"", "fault words", 1), str(said))
    for words, rate, reason in (
        ("fill 0,0,2,2 9 00:00:01.. fill 0,0,2,2 9", None, "edit 2: its range is of times, and the input names no rate"),
        ("00:00:01.. fill 0,0,2,2 9", "0:0", "edit 1: its range is of times, and the input names no rate"),
        ("00:00:00.01..00:00:00.02 fill 0,0,2,2 9", "25:1", "edit 1: no frame is in its range of times, with F25:1"),
        ("00:00:02..00:00:01 fill 0,0,2,2 9", "25:1", "edit 1: its range has no frame"),
        ("00:00:09..00:00:10 fill 0,0,2,2 9", "25:1", "note: edit 1: the input has 40 frames, and ends before its range 225..250"),
    ):
        lines = lines_said(program, words.split(), small(FRAMES, rate=rate))
        cases.count(f"'{reason}' is said", any(reason in it for it in lines), str(lines[:4]))
    strict = "--strict 00:00:09.. fill 0,0,2,2 9".split()
    cases.count("a range of times that isn't reached is a fault where asked", ends(program, strict, small(FRAMES))[1:] == ("fault range", 8))


def by_lines(cases, program):
    """Files of edits around the length of a block, whose steps overlap or name one frame each."""
    data = small(30)
    for count in (1, 511, 512, 513, 1024, 1025, 2000):
        chance = random.Random(count)
        shapes = {
            "one frame each, in order": [(it * 30 // count, it * 30 // count + 1) for it in range(count)],
            "by chance": [(first, first + chance.randrange(1, 4)) for first in (chance.randrange(30) for _ in range(count))],
            "all frames": [(0, 30)] * count,
        }
        for name, ranges in shapes.items():
            lines = [f"{first}..{end} {chance.choice(('fill 0,0,2,2 ' + str(at % 256), 'move 0,0,2,2 2,0', 'fill 2,0,2,2 ' + str(at % 251), 'move 2,0,2,2 0,0'))}" for at, (first, end) in enumerate(ranges)]
            with tempfile.NamedTemporaryFile("w", suffix=".edits") as listed:
                listed.write("\n".join(lines))
                listed.flush()
                out, said, status = ends(program, ["--edits", listed.name], data)
            whole = wanted(data, list(itertools.chain(*(it.split() for it in lines))))
            cases.count(f"{count} lines, {name}, are applied in their order", (out, status) == (whole[0], whole[2]), said)


def main():
    cases = Cases()
    for program in both_builds(cases, "imgref_frames"):
        by_times(cases, str(program))
        by_lines(cases, str(program))
    return cases.end()


if __name__ == "__main__":
    sys.exit(main())
