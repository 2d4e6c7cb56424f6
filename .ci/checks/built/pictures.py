#!/usr/bin/env python3
"""Shows what imgref_frames does with pictures: by a model that shares nothing with it, and by netpbm.

Small pictures of each kind with samples of one byte and of two, several one after the other, each beginning of them, each byte of their heads changed, and hidden
pixels exchanged. Both builds are run that `rt ci` leaves. Where the machine has no netpbm, the cases with it are skipped.
"""
import pathlib
import random
import re
import subprocess
import sys
import tempfile

sys.path.insert(0, str(pathlib.Path(__file__).resolve().parents[2]))
from checking import ROOT, Cases, both_builds
from tries import count_tries, ends, exchanged, lines_said

# Flips, half turns and quarter turns by netpbm.
FLIPS = (("flip rows", "pamflip -topbottom"), ("flip columns", "pamflip -leftright"), ("turn half", "pamflip -rotate180"))
TURNS = (("turn right", "pamflip -rotate270"), ("turn left", "pamflip -rotate90"))
EDITS = ("fill 4,2,6,4 126", "fill 1,1,3,3 7", "mosaic 2,2,9,5 4,2", "mosaic 0,0,12,8 64,64", "mosaic 1,0,5,5 1,1", "move 0,0,6,4 4,2", "move 5,3,7,5 0,1", "crop 4,2,6,4", "crop 11,7,1,1", "fill 0,0,0,0 1", "pad 1,2,3,4 16", "pad 0,0,0,0 9", "flip rows", "flip columns", "turn half", "means 2,2,9,5 4,2", "means 0,0,12,8 64,64", "blur 2,2,9,5 1", "blur 0,0,12,8 3", "blur 11,1,1,7 32767", "turn right", "turn left", "flip rows turn left")
LISTS = (
    "fill 0,0,4,4 9 mosaic 3,2,8,6 4,2",
    "1..2 fill 0,0,4,4 9",
    "0..2 mosaic 2,2,8,6 4,3 1..3 fill 4,2,2,2 7 crop 2,1,8,6",
    "fill 2,2,4,4 9 move 2,2,4,4 6,3 pad 1,1,1,1 200",
)
# Heads that netpbm reads too: comments and white space of each kind, and zeros in front.
HEADS = ("P{}\n{} {}\n255\n", "P{} {} {} 255 ", "P{}\t{}\r\n{}\v0255\f", "P{}\n# made by hand\n{} {}\n#and\r# more\n255\n", "P{}#\n{}#stops a number\n{} 255# and ends the head\n", "P{} 00{} 0{} 255\n")


# The types of tuples of PAM pictures, with how many samples a pixel has.
TUPLES = {"GRAYSCALE": 1, "RGB": 3, "GRAYSCALE_ALPHA": 2, "RGB_ALPHA": 4}
PAM = "P7\nWIDTH {}\nHEIGHT {}\nDEPTH {}\nMAXVAL {}\nTUPLTYPE {}\nENDHDR\n"
# Other heads of the same: comments, empty lines, more blanks, another order and zeros in front.
PAM_HEADS = (
    "P7\n# made by hand\n\nWIDTH {0}\nHEIGHT {1}\nDEPTH {2}\n#\rMAXVAL 9\nMAXVAL {3}\nTUPLTYPE {4}\nENDHDR\n",
    "P7\nTUPLTYPE \t{4}\nMAXVAL 00{3}\nDEPTH  {2}\nHEIGHT\t{1}\nWIDTH \t 0{0}\n\n\nENDHDR\n",
)
# Lines of a head of 2 by 1 pixels that aren't one, or are one of another picture.
NO_PAM = (
    ("WIDTH 2\n", ""), ("WIDTH 2\n", "WIDTH 2\nWIDTH 2\n"), ("WIDTH 2", "WIDTH 0"), ("WIDTH 2", "WIDTH 4294967296"), ("WIDTH 2", "WIDTH"), ("WIDTH 2", "WIDTH "), ("WIDTH 2", "WIDTH2"), ("WIDTH 2", "WIDTH 2 "), ("WIDTH 2", " WIDTH 2"),
    ("WIDTH 2", "WIDTH +2"), ("WIDTH 2", "WIDTH 2\r"), ("WIDTH 2", "WIDT 2"), ("WIDTH 2", "WIDTHS 2"), ("WIDTH 2", "width 2"), ("HEIGHT 1\n", ""), ("HEIGHT 1", "HEIGHT 0"), ("HEIGHT 1", "HEIGHT 1\nHEIGHT 2"), ("HEIGHT 1", "HEIGHT 2"),
    ("DEPTH 3\n", ""), ("DEPTH 3", "DEPTH 1"), ("DEPTH 3", "DEPTH 4"), ("DEPTH 3", "DEPTH 0"), ("DEPTH 3", "DEPTH 3\nDEPTH 3"), ("MAXVAL 255\n", ""), ("MAXVAL 255", "MAXVAL 0"), ("MAXVAL 255", "MAXVAL 65536"), ("MAXVAL 255", "MAXVAL 255\nMAXVAL 255"),
    ("MAXVAL 255", "MAXVAL 254"), ("TUPLTYPE RGB\n", ""), ("TUPLTYPE RGB", "TUPLTYPE"), ("TUPLTYPE RGB", "TUPLTYPE "), ("TUPLTYPE RGB", "TUPLTYPE RGB\nTUPLTYPE RGB"), ("TUPLTYPE RGB", "TUPLTYPE BLACKANDWHITE"), ("TUPLTYPE RGB", "TUPLTYPE GRAYSCALE"),
    ("TUPLTYPE RGB", "TUPLTYPE RGB_"), ("TUPLTYPE RGB", "TUPLTYPE RGB_ALPHA"), ("TUPLTYPE RGB", "TUPLTYPE RGB_ALPHAS"), ("TUPLTYPE RGB", "TUPLTYPE RG"), ("TUPLTYPE RGB", "TUPLTYPE RGB "), ("ENDHDR\n", "ENDHDR \n"), ("ENDHDR\n", "\n"), ("ENDHDR", "ENDHD"), ("P7\n", "P7 "), ("P7\n", "P7\n\n"), ("P7\n", "P7\n#ENDHDR\n"), ("P7\n", "P7"),
)  # fmt: skip
# Greatest values of samples of one byte, and of two.
GREATEST = (1, 7, 100, 254, 256, 1000, 65535)


def picture(kind, width=12, height=8, head=HEADS[0], greatest=255):
    """A picture with pixels by chance, the same in each run."""
    chance, count = random.Random(f"{kind} {width} {height}"), width * height * (3 if kind == 6 else 1)
    samples = (chance.randint(0, greatest).to_bytes(1 if greatest < 256 else 2, "big") for _ in range(count))
    return head.format(kind, width, height).replace("255", str(greatest)).encode() + b"".join(samples)


def tuples(name, width=12, height=8, greatest=255, head=PAM):
    """The same of a PAM picture."""
    chance, count = random.Random(f"{name} {width} {height}"), width * height * TUPLES[name]
    samples = (chance.randint(0, greatest).to_bytes(1 if greatest < 256 else 2, "big") for _ in range(count))
    return head.format(width, height, TUPLES[name], greatest, name).encode() + b"".join(samples)


def by_tuples(cases, program):
    """PAM pictures by the model."""
    edits = (*EDITS[2:10], "fill 4,2,6,4 1", "cover 4,2,6,4", "cover 40,2,6,4", "pad 1,2,3,4 1", "pad 1,0,0,0 0", *EDITS[12:], "0..1 fill 1,1,3,3 1,0,1", "move 0,0,6,4 4,2 fill 1,1,4,4 1 crop 1,0,8,8")
    each = [(it.split(), tuples(name, greatest=greatest)) for name in TUPLES for greatest in (255, *GREATEST) for it in edits]
    count_tries(cases, "each edit of PAM pictures is the model's, and leaves opaque pixels", program, each)
    values = [(it.split(), tuples(name, greatest=greatest)) for name in TUPLES for greatest in (1, 255, 256, 65535) for value in (greatest, greatest + 1) for it in (f"fill 1,2,3,4 {value}", f"pad 1,1,0,2 {value}", f"fill 1,2,3,4 0,{value},1")]
    count_tries(cases, "values of PAM pictures up to the greatest, and above it", program, values)
    heads = [("fill 1,1,2,2 9".split(), tuples(name, 4, 3, greatest, head) * 2) for head in PAM_HEADS for name in TUPLES for greatest in (255, 65535)]
    count_tries(cases, "PAM heads with comments, empty lines and another order", program, heads)
    series = tuples("RGB") + picture(5) + tuples("GRAYSCALE_ALPHA", 5, 4, 1000) + tuples("RGB_ALPHA") + tuples("RGB_ALPHA") + picture(6, greatest=256) + tuples("GRAYSCALE")
    count_tries(cases, "pictures of each kind one after the other", program, [(it.split(), series) for it in (*LISTS, "cover 1,1,3,2", "crop 0,0,4,4", "1..3 fill 0,0,2,2 9")])
    small = tuples("RGB", 2, 1)
    changed = [("fill 0,0,1,1 9".split(), small.replace(old.encode(), new.encode(), 1)) for old, new in NO_PAM]
    count_tries(cases, "lines of a PAM head that are wrong", program, changed)
    series = small + tuples("GRAYSCALE_ALPHA", 1, 1)
    count_tries(cases, "each beginning of two PAM pictures", program, [("fill 0,0,1,1 9".split(), series[:end]) for end in range(len(series) + 1)])
    places = range(len(small) - 6)
    count_tries(cases, "each byte of a PAM head changed", program, [("fill 0,0,1,1 9".split(), small[:at] + bytes([byte]) + small[at + 1:]) for at in places for byte in (0, 9, 10, 13, 32, 35, 49, 65, 71, 82, 87, 95, 255)])
    long = [("fill 0,0,1,1 9".split(), small.replace(b"P7\n", b"P7\n#" + b"x" * count + b"\n", 1)) for count in (100, 65535 - len(small), 65536 - len(small) + 5, 65536 - len(small) + 6 - 3, 100000)]
    count_tries(cases, "a PAM head has at most 64 KiB", program, long)


def by_model(cases, program):
    both = [picture(5), picture(6)]
    count_tries(cases, "each edit of a picture is the model's", program, [(it.split(), data) for it in EDITS + LISTS for data in both])
    series = both[0] + both[1] + picture(5, 20, 9) + picture(6, 13, 11)
    count_tries(cases, "edits of pictures one after the other are the model's", program, [(it.split(), series) for it in EDITS + LISTS])
    count_tries(cases, "heads with comments and white space", program, [("fill 1,1,2,2 9".split(), picture(kind, 4, 3, head) * 2) for head in HEADS for kind in (5, 6)])
    small = picture(6, 2, 2, HEADS[3]) + picture(5, 3, 1)
    count_tries(cases, "each beginning of two pictures", program, [("fill 0,0,2,1 9".split(), small[:end]) for end in range(len(small) + 1)])
    cells, second = small.index(b"255\n") + 4, small.index(b"P5")
    places = [*range(cells), *range(second, len(small) - 3)]
    count_tries(cases, "each byte of a head changed", program, [("fill 0,0,1,1 9".split(), small[:at] + bytes([byte]) + small[at + 1:]) for at in places for byte in (0, 10, 13, 32, 35, 48, 49, 53, 54, 80, 255)])
    painted = ("fill 1,1,3,3 10,20,30", "fill 0,0,12,8 255,0,128", "0..1 fill 2,2,2,2 1,2,3 mosaic 2,2,4,4 3,3")
    count_tries(cases, "a colour is written in pictures in colour, and is refused for grey ones and for video", program, [(it.split(), data) for it in painted for data in (*both, both[1] * 2, both[1] + both[0], b"YUV4MPEG2 W12 H8 C444\n")])
    values = [(it.split(), picture(kind, greatest=greatest)) for greatest in GREATEST for kind in (5, 6) for value in (0, 1, 2, greatest, greatest + 1) for it in (f"fill 1,2,3,4 {value}", f"cover 5,3,1,1 {value}", f"pad 1,1,0,2 {value}", f"fill 1,2,3,4 0,{value},1", f"fill 1,2,3,4 {value},0,0", f"fill 1,2,3,4 0,1,{value}")]
    count_tries(cases, "values up to the greatest of a sample, and above it", program, values)
    deep = [(it.split(), picture(kind, greatest=greatest)) for greatest in GREATEST for kind in (5, 6) for it in (*EDITS[2:10], *EDITS[15:17], "fill 4,2,6,4 1", "cover 4,2,6,4", "cover 40,2,6,4", "pad 1,2,3,4 1", "pad 1,0,0,0 0")]
    count_tries(cases, "each edit of samples of one byte and of two is the model's", program, deep)
    mixed = b"".join(picture(kind, greatest=greatest) for greatest in (255, 256, 65535, 255) for kind in (5, 6))
    count_tries(cases, "pictures with several greatest values one after the other", program, [(it.split(), mixed) for it in (*LISTS, "cover 4,2,6,4", "fill 1,1,2,2 256")])
    numbers = [("fill 0,0,0,0 1".split(), head.encode() + b"abcdef") for head in ("P5 0 1 255\n", "P5 1 0 255\n", "P5 1 1 0\n", "P5 1 1 00\n", "P5 1 1 1\n", "P6 1 1 65535\n", "P6 1 1 065535\n", "P6 1 1 65536\n", "P5 1 1 65537\n", "P5 1 1 4294967295\n", "P5 1 1 4294967551\n", "P5 1 1 -1\n", "P5 1 1 254\n", "P5 1 1 2550\n", "P5 1 4294967296 255\n", "P5 18446744073709551617 1 255\n", "P4 1 1\n", "P7\n", "P7 1 1 255\n", "P5", "P", "P51 1 255\n")]
    count_tries(cases, "heads with numbers out of range", program, numbers)
    long = [(it, b"P5 #" + b"x" * count + b"\n2 1 255\nab") for it in (["fill", "0,0,1,1", "9"],) for count in (100, 65522, 65523, 65524, 100000)]
    count_tries(cases, "a head has at most 64 KiB", program, long)
    limited = ends(program, "--limit 100 fill 0,0,1,1 9".split(), both[0] + picture(5, 20, 9))
    cases.count("out of memory at the second picture, the first is written", limited == (ends(program, "fill 0,0,1,1 9".split(), both[0])[0], "fault memory 1", 3), str(limited))
    outside = [(it.split(), both[0] + picture(6, 4, 4)) for it in ("fill 3,0,2,2 9", "mosaic 0,0,4,5 2,2", "mosaic 0,0,4,4 0,2", "move 0,0,2,2 3,3", "crop 0,0,5,4", "crop 0,0,0,4", "crop 0,0,4,0", "1..2 fill 4,0,1,1 9", "0..1 fill 4,0,1,1 9")]
    count_tries(cases, "an edit that doesn't suit the second picture ends after the first", program, outside)
    hidden = exchanged(both[1], len("P6\n12 8\n255\n"), 3 * 12, (3 * 4, 2, 3 * 6, 4))
    cases.count("the output reveals nothing of hidden pixels", hidden != both[1] and ends(program, "fill 4,2,6,4 126".split(), hidden) == ends(program, "fill 4,2,6,4 126".split(), both[1]))


def by_netpbm(cases, program):
    """Edits of pictures beside the tools for pictures of that name."""

    def said(words, given):
        return subprocess.run(words.split(), input=given, capture_output=True, check=True, timeout=120).stdout

    def ours(words, given):
        return ends(program, words.split(), given)[0]

    for kind, name, greatest in ((kind, f"{name} with {greatest}", greatest) for greatest in (255, *GREATEST) for kind, name in ((5, "grey"), (6, "colour"))):
        whole = picture(kind, greatest=greatest)
        part = said("pamcut -left 4 -top 2 -width 6 -height 4", whole)
        cases.count(f"crop is pamcut in {name}", ours("crop 4,2,6,4", whole) == part)
        cases.count(f"crop of pictures one after the other is pamcut in {name}", ours("crop 4,2,6,4", whole * 3) == said("pamcut -left 4 -top 2 -width 6 -height 4", whole * 3))
        for words, command in (*FLIPS, *TURNS):
            cases.count(f"{words} is {command} in {name}", ours(words, whole) == said(command, whole))
        cases.count(f"pad is pnmpad in {name}", ours("pad 1,2,3,4 0", whole) == said("pnmpad -black -left=1 -top=2 -right=3 -bottom=4", whole))
        for words, file, place in (("move 4,2,6,4 1,3", part, "1 3"), (f"fill 4,2,6,4 {greatest}", said(f"pgmmake -maxval={greatest} 1 6 4", b""), "4 2")):
            with tempfile.NamedTemporaryFile(suffix=".pnm") as front:
                front.write(file)
                front.flush()
                cases.count(f"{words} is pnmpaste in {name}", ours(words, whole) == said(f"pnmpaste {front.name} {place}", whole))
    for kind, name in ((5, "grey"), (6, "colour")):
        for head in HEADS:
            given = picture(kind, 4, 3, head)
            cases.count(f"netpbm reads the head {head!r} alike in {name}", ours("fill 0,0,0,0 9", given) == said("pamcut -left 0", given))
    # The pipe of docs/FRAMES.md for a scanned page: a bit that is set is black.
    bits = random.Random("a scanned page").randbytes(8)
    scanned = said("pngtopnm", said("pnmtopng", b"P4\n16 4\n" + bits))
    page = b"P5\n16 4\n255\n" + bytes(0 if byte >> at & 1 else 255 for byte in bits for at in reversed(range(8)))
    cases.count("a scanned PNG of 1 bit goes through pnmdepth", ours("cover 6,2,1,1 0", said("pnmdepth 255", scanned)) == ours("cover 6,2,1,1 0", page) != page)
    cases.count("and is refused without it", ends(program, ["cover", "6,2,1,1"], scanned)[1:] == ("fault header", 2))
    # What a message recommends makes a picture that is read.
    for command, given in (
        ("pnmdepth 255", b"P1\n2 2\n0 1 1 0\n"), ("pnmdepth 255", b"P4\n16 4\n" + bits), ("pnmtopnm", b"P2\n2 2\n9\n0 1 9 0\n"), ("pnmtopnm", b"P3\n1 2\n300\n0 1 1 0 1 299\n"),
        ("pnmdepth 255", PAM.format(2, 1, 1, 1, "BLACKANDWHITE").encode() + b"\0\1"), ("pnmdepth 255", PAM.format(1, 1, 2, 1, "BLACKANDWHITE_ALPHA").encode() + b"\0\1"), ("pamtopnm -assume", PAM.format(2, 1, 1, 255, "GRAY").encode() + b"ab"), ("pamtopnm -assume", PAM.format(1, 1, 4, 255, "CMYK").encode() + b"abcd"),
    ):  # fmt: skip
        refused, taken = (ends(program, ["cover", "0,0,1,1"], it) for it in (given, said(command, given)))
        reasons = lines_said(program, ["cover", "0,0,1,1"], given)
        cases.count(f"{command} makes a picture of {given[:40]!r}", refused[1:] == ("fault header", 2) and taken[1:] == ("", 0) and command in reasons[1], str(reasons))
    for name, greatest in ((name, greatest) for name in TUPLES for greatest in (1, 255, 65535)):
        given = tuples(name, greatest=greatest)
        for words, command in (*FLIPS, *TURNS):
            cases.count(f"{words} is {command} of {name} with {greatest}", ours(words, given) == said(command, given))
        cases.count(f"crop is pamcut of {name} with {greatest}", ours("crop 4,2,6,4", given * 2) == said("pamcut -left 4 -top 2 -width 6 -height 4", given * 2))
        for head in PAM_HEADS:
            given = tuples(name, 4, 3, greatest, head)
            cases.count(f"netpbm reads the head {head!r} alike of {name} with {greatest}", ours("fill 0,0,0,0 1", given) == said("pamtopam", given))


# The beginning of an input, and a part of the line that is printed after the fault.
REASONS = (
    (b"", "the input is empty"), (b"RIFF1234WAVE", "none of YUV4MPEG2, P5, P6 and P7"), (b"P4\n8 1\na", "pnmdepth 255"), (b"P3\n1 1\n255\n1 2 3", "pnmtopnm"), (b"P2\n", "pnmtopnm"), (b"P1\n", "pnmdepth 255"), (b"P8\n", "P5, P6 and P7 are supported"),
    (b"P5 0 1 255\na", "the width has to be from 1 to 4294967295"), (b"P5 4294967296 1 255\na", "the width has to be from 1 to 4294967295"), (b"P6 1 0 255\na", "the height has to be from 1"),
    (b"P5 1 1 0\na", "the greatest value of a sample has to be from 1 to 65535"), (b"P6 1 1 65536\na", "the greatest value of a sample has to be from 1 to 65535"), (b"P5 x 1 255\na", "the width has the byte 120"),
    (b"P5 1 1 255", "has no end"), (b"P5x", "there is no white space"), (b"P7\nWIDTH 1\nWIDTH 1\n", "WIDTH occurs twice"), (b"P7\nHEIGHT x\n", "HEIGHT needs a number"), (b"P7\nCOLOR 1\n", "COLOR isn't one of WIDTH"), (b"P7\nWIDTH\n", "WIDTH needs a number"), (b"P7\nWIDTH2\n", "WIDTH2 isn't one of WIDTH"), (b"P7\nTUPLTYPE\n", "TUPLTYPE needs a type"), (b"P7\nTUPLTYPE \n", "TUPLTYPE needs a type"), (b"P7 \n", "after P7 there is no line feed"),
    (b"P7\r\n", "carriage return"), (b"P7\nWIDTH 2\r\n", "carriage return"), (PAM.format(1, 1, 1, 255, "GRAYSCALE").encode().replace(b"ENDHDR", b"ENDHDR\r"), "carriage return"), (PAM.format(1, 1, 1, 255, "GRAYSCALE\r").encode(), "carriage return"),
    (PAM.format(1, 1, 1, 255, "GRAYSCALE").encode().replace(b"ENDHDR", b"ENDHDR "), "ENDHDR has the byte 32 after it"), (PAM.format(1, 1, 1, 255, "GRAYSCALE").encode().replace(b"ENDHDR", b"ENDHD"), "ENDHD isn't one of WIDTH"),
    (PAM.format(1, 1, 1, 1, "BLACKANDWHITE").encode(), "TUPLTYPE BLACKANDWHITE isn't supported"), (PAM.format(1, 1, 1, 1, "GRAY").encode(), "TUPLTYPE GRAY isn't supported"), (PAM.format(1, 1, 3, 255, "RGB_ALPHA").encode(), "DEPTH 3 isn't that of its TUPLTYPE"),
    (PAM.format(0, 1, 1, 1, "GRAYSCALE").encode(), "the width and the height have to be from 1"), (PAM.format(1, 1, 1, 70000, "GRAYSCALE").encode(), "MAXVAL has to be from 1 to 65535"), (b"P7\nWIDTH 1\nENDHDR\n", "needs WIDTH, HEIGHT, DEPTH, MAXVAL and TUPLTYPE"),
    (b"YUV4MPEG2 W4 H4 C420", "the first line has no end"), (b"YUV4MPEG2 W4 H4 " + b"X" * 300 + b"\n", "more than 256 bytes"), (b"YUV4MPEG2 H4\n", "no field W"), (b"YUV4MPEG2 W4 H4 H4\n", "the field H occurs twice"), (b"YUV4MPEG2 Wx H4\n", "the field W of the first line has to be a number from 1 to 4294967295"),
    (b"YUV4MPEG2 W0 H4\n", "the field W of the first line has to be"), (b"YUV4MPEG2 W4 H0\n", "the field H of the first line has to be"), (b"YUV4MPEG2 W99999999999 H4\n", "the field W of the first line has to be"), (b"YUV4MPEG2 W4 H4294967296\n", "the field H of the first line has to be"),
    (b"YUV4MPEG2 W4 H4 C410\n", "the sampling C410 isn't supported"), (b"YUV4MPEG2 W4 H4 C420p11\n", "the sampling C420p11 isn't supported"), (b"YUV4MPEG2 W4 H4 C42\x1b0\n", "the sampling C.. isn't supported"),
)  # fmt: skip


def by_reasons(cases, program):
    """Why a beginning of an input is no head."""
    for given, reason in REASONS:
        lines = lines_said(program, "fill 0,0,1,1 1".split(), given)
        cases.count(f"{given[:40]!r} is refused: {reason}", lines[0] == "fault header" and len(lines) == 3 and reason in lines[1], str(lines))


def by_page(cases, program):
    """The picture of docs/FRAMES.md shows what the command below it does. (That is of a video, whose black is 16.)"""
    words = re.search(r"`imgref_frames (fill \S+) 16 (mosaic [^`]+)`", (ROOT / "docs/FRAMES.md").read_text())
    before, after = (subprocess.run(["bash", "-c", f"pngtopnm docs/frames.png | pamcut -left {left} -width 320"], cwd=ROOT, capture_output=True, check=True).stdout for left in (0, 336))
    cases.count("docs/frames.png: the right half is the left one, edited", words and before != after and ends(program, f"{words[1]} 0 {words[2]}".split(), before)[0] == after)


def main():
    cases = Cases()
    for program in both_builds(cases, "imgref_frames"):
        by_model(cases, str(program))
        by_tuples(cases, str(program))
        by_reasons(cases, str(program))
        if not cases.lacks("edits beside netpbm's", "netpbm"):
            by_netpbm(cases, str(program))
            by_page(cases, str(program))
    return cases.end()


if __name__ == "__main__":
    sys.exit(main())
