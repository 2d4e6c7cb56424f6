#!/usr/bin/env python3
"""Shows what imgref_frames does with real video, by a model that shares nothing with it.

The contract speaks of readers and writers; here are tried small streams of each sampling, each beginning of one, each byte of its
line changed, and hidden pixels exchanged. Both builds are run that `rt ci` leaves.
"""
import os
import pathlib
import subprocess
import sys
import tempfile

sys.path.insert(0, str(pathlib.Path(__file__).resolve().parents[2]))
from checking import Cases, both_builds
from edits import covered, edits_of
from tries import FILL, SAMPLINGS, count_tries, ends, exchanged, lines_said, video

EDITS = ("fill 4,2,6,4 126", "mosaic 2,2,10,6 4,2", "mosaic 0,0,12,8 64,64", "move 0,0,6,4 4,2", "move 4,2,6,4 0,0", "crop 4,2,6,4", "fill 0,0,0,0 1", "pad 2,4,6,8 16", "pad 4,0,1,3 200", "pad 1,0,0,0 9", "pad 0,2,0,0 9", "fill 4,2,8,4 126", "mosaic 4,0,8,6 4,2", "move 0,0,8,4 4,2", "crop 4,2,8,4", "pad 4,0,8,2 16")
# These end at the right or the lower edge of 13 by 9.
ODD = ("fill 10,6,3,3 7", "mosaic 2,2,11,7 4,2", "move 8,0,5,3 8,6", "move 8,6,5,3 0,0", "crop 4,2,9,7", "crop 4,2,7,7", "fill 12,8,1,1 3", "fill 13,0,0,1 3")
# Covers inside, at each edge, beyond it, and with no value.
COVERS = ("cover 5,3,1,1 9", "cover 5,3,1,1", "cover 0,0,2,2 9", "cover 11,7,1,1 9", "cover 11,7,9,9 9", "cover 13,9,1,1 9", "cover 15,11,1,1 9", "cover 14,0,1,1 9", "cover 40,40,2,2 9", "cover 7,0,0,0 9", "1.. cover 3,1,4,3 9 fill 0,0,2,2 7", "cover 18446744073709551615,18446744073709551615,18446744073709551615,18446744073709551615 9", "cover 0,0,18446744073709551615,18446744073709551615 9")
# Of the whole frame, alone and between other edits.
FLIPS = ("flip rows", "flip columns", "turn half", "1.. flip columns", "0..2 turn half 1..3 flip rows", "fill 0,0,1,1 9 flip columns cover 0,0,1,1+0 5", "flip rows flip rows flip columns", "turn half crop 0,0,1,1")
TURNS = ("turn right", "turn left", "flip rows turn right", "fill 0,0,1,1 9 1.. flip columns turn left", "cover 4,2,2,2 5 turn right")
# Tiles of one pixel, tiles that edges cut, and one tile for all.
MEANS = ("means 0,0,12,8 4,2", "means 4,2,8,6 4,4", "means 0,0,12,8 4,6", "means 0,0,12,8 64,64", "means 4,0,4,4 1,1", "means 8,0,5,9 4,2", "means 0,0,0,0 4,2", "means 4,2,4,4 3,2", "means 4,2,4,4 0,2", "means 0,0,12,8 18446744073709551612,2", "means 4,2,8,6 4,2 1.. means 0,0,8,4 8,4 turn half")
# Boxes of one pixel, boxes that edges of the window or of the frame cut, and boxes that have all of it.
BLURS = ("blur 0,0,12,8 1", "blur 4,2,8,6 2", "blur 4,2,4,4 0", "blur 0,0,12,8 32767", "blur 8,2,5,7 3", "blur 12,8,1,1 1", "blur 0,0,0,0 5", "blur 4,2,9,5 1", "blur 3,2,4,4 1", "blur 4,2,8,6 1 1.. blur 0,0,8,8 5 flip rows", "fill 4,2,4,4 9 blur 0,0,12,8 3 turn half", "blur 4,0,4,6 7 move 0,0,8,6 4,2")
# The same with a margin.
MARGINS = ("5,3,1,1", "1,1,0,0", "3,5,0,2", "4,2,2,2", "5,2,3,4", "0,0,2,2", "11,7,1,1", "13,9,1,1", "16,12,2,2", "7,0,0,0", "6,4,0,0", "18446744073709551615,0,1,1", "0,0,18446744073709551615,1")
PARAMETERS = (b"", b" Ip", b" ", b" XLABEL=a b  Ib")
LISTS = (
    "fill 0,0,4,4 9 mosaic 2,2,8,6 4,2",
    "1..2 fill 0,0,4,4 9",
    "0..2 mosaic 2,2,8,6 4,2 1..3 fill 4,2,2,2 7 crop 2,2,8,6",
    "fill 2,2,4,4 9 move 2,2,4,4 6,2",
    "1..2 fill 0,0,4,4 9 7..9 move 0,0,2,2 2,2",
    "fill 0,0,4,4 9 1..2 mosaic 4,2,4,4 2,2 pad 2,2,2,2 16",
)


def by_model(cases, program):
    whole = [(edit.split(), video(it, *size)) for it in SAMPLINGS for size in ((12, 8), (16, 9)) for edit in EDITS]
    count_tries(cases, "each edit of each sampling is the model's", program, whole)
    odd = [(edit.split(), video(it, 13, 9)) for it in SAMPLINGS for edit in EDITS + ODD]
    count_tries(cases, "edits at odd edges are the model's", program, odd)
    covers = [(it.split(), video(sampling, *size, fields=fields)) for sampling in SAMPLINGS for size in ((12, 8), (13, 9)) for fields in (b"Ip", b"It", b"Ib", b"Im", b"I?") for it in COVERS]
    count_tries(cases, "covers round outwards to whole samples, with a margin", program, covers)
    tries = [(f"cover {it}+{margin} {value}".split(), video(sampling, 13, 9, fields=fields)) for sampling in SAMPLINGS for fields in (b"Ip", b"It") for it in MARGINS for margin in (0, 1, 2, 3, 5, 18446744073709551615) for value in ("", "9")]
    count_tries(cases, "the margin of a cover is the one that is set", program, tries)
    cases.count("a margin of 0 covers the samples of a rectangle", ends(program, ["cover", "4,2,2,2+0", "9"], video("420")) == ends(program, ["fill", "4,2,2,2", "9"], video("420")))
    flips = [(it.split(), video(sampling, *size, fields=fields)) for sampling in SAMPLINGS for size in ((12, 8), (13, 9), (1, 1), (70, 3)) for fields in (b"Ip", b"It", b"Ib", b"Im") for it in FLIPS]
    count_tries(cases, "flips and half turns are the model's, and an interlaced video keeps its fields", program, flips)
    means = [(it.split(), video(sampling, *size)) for sampling in SAMPLINGS for size in ((12, 8), (13, 9)) for it in MEANS]
    count_tries(cases, "mosaics of means are the model's, of samples of one byte and of two", program, means)
    blurs = [(it.split(), video(sampling, *size)) for sampling in SAMPLINGS for size in ((12, 8), (13, 9)) for it in BLURS]
    count_tries(cases, "blurs are the model's, of samples of one byte and of two", program, blurs)
    turns = [(it.split(), video(sampling, *size, fields=fields)) for sampling in SAMPLINGS for size in ((12, 8), (13, 9), (1, 1), (70, 3), (2, 130)) for fields in (b"Ip", b"It") for it in TURNS]
    count_tries(cases, "quarter turns are the model's, and are refused where the sampling would change", program, turns)
    shapes = [("turn left".split(), video("420").replace(b" A1:1 ", it, 1)) for it in (b" ", b" A0:0 ", b" A10:11 ", b" A ", b" A1:1 A2:1 ", b" A2:1 A1:1 ")]
    count_tries(cases, "a quarter turn needs square pixels", program, shapes)
    lists = [(edits.split(), video(it)) for it in SAMPLINGS for edits in LISTS]
    count_tries(cases, "lists of edits, each to its frames, are the model's", program, lists)
    small = video("420", 4, 2, 2)
    beginnings = [(f"{word} 0,0,2,2 {last}".split(), small[:end]) for word, last in (("fill", "9"), ("mosaic", "2,2")) for end in range(len(small) + 1)]
    count_tries(cases, "each beginning of a stream", program, beginnings)
    end = small.index(b"\n")
    changed = [("fill 0,0,2,2 9".split(), small[:at] + bytes([byte]) + small[at + 1:]) for at in range(end + 1) for byte in (10, 32, 48, 49, 67, 87, 255)]
    count_tries(cases, "each byte of the line changed", program, changed)
    with_parameters = [(edit.split(), video(it, parameters=PARAMETERS)) for it in SAMPLINGS for edit in EDITS[:3] + EDITS[5:8] + LISTS]
    count_tries(cases, "parameters of frames are passed on", program, with_parameters)
    small = video("420", 4, 2, 2, parameters=(b" Ip X=1",))
    beginnings = [("fill 0,0,2,2 9".split(), small[:end]) for end in range(len(small) + 1)]
    count_tries(cases, "each beginning of a stream with parameters", program, beginnings)
    start = small.index(b"FRAME")
    changed = [("fill 0,0,2,2 9".split(), small[:at] + bytes([byte]) + small[at + 1:]) for at in range(start, start + 13) for byte in (0, 10, 32, 69, 70, 255)]
    count_tries(cases, "each byte of a frame's line changed", program, changed)
    longest = [("fill 0,0,2,2 9".split(), video("420", 4, 2, 2, parameters=(b"", b" " + b"x" * count))) for count in (0, 1, 248, 249, 250, 300)]
    count_tries(cases, "a frame's line has at most 256 bytes", program, longest)
    outside = [(it.split(), video("420")) for it in ("fill 1,0,2,2 9", "fill 0,0,2,10 9", "mosaic 0,0,4,4 1,2", "mosaic 0,0,4,4 0,2", "move 0,0,4,4 10,0", "crop 0,0,0,4", "crop 0,0,4,0", "crop 0,0,3,4", "pad 1,0,0,0 9", "pad 0,0,4294967284,0 9", "fill 0,0,2,2 256", "cover 0,0,2,2 256", "fill 0,0,2,2 1,2,256", "pad 0,0,2,2 18446744073709551615", "pad 0,0,0,18446744073709551615 9")]
    count_tries(cases, "an edit that doesn't suit the video is refused", program, outside)
    deep = [(f"{edit} {value}".split(), video(it)) for it in ("420p10", "422p9", "444p12", "mono14", "mono16") for value in (0, 255, 256, 511, 512, 1023, 1024, 4095, 4096, 16383, 16384, 65535, 65536) for edit in ("fill 4,2,4,4", "cover 4,2,4,4", "pad 2,2,2,2")]
    count_tries(cases, "values up to the greatest of a sample, and above it", program, deep)
    count_tries(cases, "samplings that aren't supported", program, [("fill 0,0,2,2 9".split(), video("420").replace(b" C420 ", b" C%s " % it)) for it in (b"420p8", b"420p11", b"420p", b"422p010", b"mono8", b"mono10 ", b"411p10", b"420p10x", b"42", b"")])
    sizes = [(f"{it} 0,0,0,0 9".split(), video("420").replace(b"W12", b"W" + size).replace(b"H8", b"H" + other)) for it in ("fill", "cover") for size in (b"12", b"0", b"4294967296", b"99999999999") for other in (b"8", b"0", b"00", b"4294967296")]
    count_tries(cases, "a video of no pixels or too many is refused", program, sizes)
    second = [("fill 0,0,2,2 9".split(), video("420").replace(b" H8 ", b" H8 " + it + b" ", 1)) for it in (b"H8", b"W30", b"H", b"F30:1", b"C444")]
    count_tries(cases, "a second width or height is refused", program, second)
    shown = hidden = video("mono")
    for frame in range(3):
        hidden = exchanged(hidden, shown.index(b"\n") + 1 + frame * (6 + 12 * 8) + 6, 12, (4, 2, 6, 4))
    for before, window in (("flip rows", (4, 2, 6, 4)), ("flip columns", (2, 2, 6, 4)), ("turn half", (2, 2, 6, 4))):
        other = shown
        for frame in range(3):
            other = exchanged(other, shown.index(b"\n") + 1 + frame * (6 + 12 * 8) + 6, 12, window)
        words = f"{before} {FILL}".split()
        cases.count(f"the output reveals nothing of what is filled after {before}", other != shown and ends(program, words, other) == ends(program, words, shown))
    swapped = bytearray(shown)
    for frame in range(3):
        start = shown.index(b"\n") + 1 + frame * (6 + 12 * 8) + 6
        for y in range(2, 8):
            row = start + y * 12 + 4
            swapped[row:row + 6] = shown[row:row + 6][::-1]
    for words in ("means 4,2,6,6 6,1", "means 4,2,6,6 6,4"):
        cases.count(f"the output of {words} reveals only the means", bytes(swapped) != shown and ends(program, words.split(), bytes(swapped)) == ends(program, words.split(), shown))
    deep, row = bytearray(video("mono14", frames=1)), 12 * 2
    start = deep.index(b"\nFRAME\n") + 7 + 2 * row + 4 * 2
    deep[start:start + 4] = deep[start + 2:start + 4] + deep[start:start + 2]
    cases.count("means of samples of two bytes reveal nothing of their order", bytes(deep) != video("mono14", frames=1) and ends(program, "means 4,2,6,6 6,4".split(), bytes(deep)) == ends(program, "means 4,2,6,6 6,4".split(), video("mono14", frames=1)))
    for after in ("", " flip rows", " flip columns move 4,2,6,4 0,0", " turn half", " turn left", " blur 0,0,12,8 2", " move 4,2,6,4 0,0", " mosaic 0,0,12,8 3,3", " move 4,2,6,4 5,1 crop 0,0,8,8"):
        words = (FILL + after).split()
        cases.count(f"the output reveals nothing of hidden pixels{after}", hidden != shown and ends(program, words, hidden) == ends(program, words, shown))


def wholly_outside(words, size, steps):
    """Whether a cover of these words has no pixel of a frame of this size, by the model."""
    return 0 in covered(edits_of(words.split())[0], size, steps, 255)[3][2:]


def by_covers(cases, program):
    """Covers that cover nothing: each is noted, and is a fault where asked."""
    for it in (*COVERS[:10], *(f"cover {it}+{margin}" for it in MARGINS for margin in (0, 3))):
        data = video("420", 13, 9)
        out, said, status = ends(program, it.split(), data)
        wanted_note = "note: edit 1: it covers nothing in frame 0, which has 13 by 9 pixels" if wholly_outside(it, (13, 9), (2, 2)) else ""
        cases.count(f"'{it}' is noted where it covers nothing", (said, status) == (wanted_note, 0), f"{said}, and not {wanted_note}")
        strict = ends(program, ["--strict", *it.split()], data)
        cases.count(f"'{it}' is a fault where it covers nothing and that is asked", strict == ((out, "fault cover", 9) if wanted_note else (out, "", 0)), str(strict[1:]))
    away = "fill 0,0,2,2 9 2..3 cover 40,0,2,2 0..1 cover 0,0,2,2 5..9 cover 0,40,2,2 1.. cover 0,60,2,2"
    lines = lines_said(program, away.split(), video("420"))
    cases.count("each cover that covers nothing is noted", lines[:-1] == ["note: edit 2: it covers nothing in frame 2, which has 12 by 8 pixels", "note: edit 5: it covers nothing in frame 1, which has 12 by 8 pixels", "note: edit 4: the input has 3 frames, and ends before its range 5..9"], str(lines))
    lines = lines_said(program, ["--strict", *away.split()], video("420"))
    cases.count("and is a fault where it happens in some frames alone", lines[:3] == ["fault cover", "edit 2: it covers nothing in frame 2, which has 12 by 8 pixels", "edit 5: it covers nothing in frame 1, which has 12 by 8 pixels"], str(lines))
    small, large = b"P5 4 3 255\n" + bytes(12), b"P6 20 9 255\n" + bytes(540)
    for words, data, note in (
        ("cover 9,1,1,1", large + small, "frame 1, which has 4 by 3"), ("cover 9,1,1,1", large * 2 + small + large, "frame 2, which has 4 by 3"), ("0..2 cover 9,1,1,1", large * 2 + small, ""), ("1..2 cover 9,1,1,1", small + large, ""),
        ("2.. cover 9,1,1,1", small + large + small * 2, "frame 2, which has 4 by 3"), ("cover 30,1,1,1", large + small, "frame 0, which has 20 by 9"), ("cover 9,1,1,1", large, ""),
    ):  # fmt: skip
        lines = lines_said(program, words.split(), data)
        cases.count(f"'{words}' of {len(data)} bytes of pictures is noted where it covers nothing", lines[:-1] == ([f"note: edit 1: it covers nothing in {note} pixels"] if note else []), str(lines))
        cases.count("and is a fault where asked", ends(program, ["--strict", *words.split()], data)[1:] == (("fault cover", 9) if note else ("", 0)))
    with tempfile.NamedTemporaryFile("w", suffix=".edits") as listed:
        listed.write("# a face\n0..1 cover 1,1,2,2\n1..2 cover 50,1,2,2 # lost\n2.. cover 1,1,2,2\n")
        listed.flush()
        lines = lines_said(program, ["--edits", listed.name], video("420"))
        cases.count("the note has the line of a file of edits", lines[:-1] == ["note: line 3: it covers nothing in frame 1, which has 12 by 8 pixels"], str(lines))


def most_memory(program, words, data):
    """How many KiB the program had at most, and its status. That is at least what this process has."""
    with subprocess.Popen([program, *words], stdin=subprocess.PIPE, stdout=subprocess.DEVNULL, stderr=subprocess.DEVNULL) as it:
        it.stdin.write(data)
        it.stdin.close()
        _, status, usage = os.wait4(it.pid, 0)
        it.returncode = os.waitstatus_to_exitcode(status)
    return usage.ru_maxrss, it.returncode


def by_memory(cases, program):
    """A head takes room of 3 GB, and memory is touched only as bytes arrive."""
    for name, head in (("video", b"YUV4MPEG2 W32768 H32768 C444\nFRAME\n"), ("picture", b"P6 32768 32768 255\n")):
        for words in ("fill 0,0,2,2 9", "crop 0,0,2,2", "blur 0,0,2,2 1"):
            most, status = most_memory(program, ["--limit", "9000000000", *words.split()], head + bytes(5000000))
            cases.count(f"the head of a {name} with {words} touches little memory", status in (2, 7) and most < 200000, f"{most} KiB, status {status}")
    with tempfile.NamedTemporaryFile(suffix=".pgm") as pictures:
        for head, size in ((b"P5 1 20000000 255\n", 20000000), (b"P5 11900 10000 255\n", 119000000)):
            pictures.write(head)
            pictures.truncate(pictures.tell() + size)
            pictures.seek(0, os.SEEK_END)
        pictures.flush()
        most, status = most_memory(program, ["-i", pictures.name, "--limit", "240000000", "pad", "0,0,10,0", "1"], b"")
        cases.count("buffers of a picture before are within the limit", status == 0 and most < 260000, f"{most} KiB, status {status}")


def main():
    cases = Cases()
    for program in both_builds(cases, "imgref_frames"):
        by_model(cases, str(program))
        by_covers(cases, str(program))
        by_memory(cases, str(program))
    return cases.end()


if __name__ == "__main__":
    sys.exit(main())
