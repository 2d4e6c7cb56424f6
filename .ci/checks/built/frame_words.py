#!/usr/bin/env python3
"""Shows what imgref_frames says of its words, its options and its files, and with which status it ends. Both builds are run."""
import os
import pathlib
import random
import shutil
import subprocess
import sys
import tempfile

sys.path.insert(0, str(pathlib.Path(__file__).resolve().parents[2]))
from checking import Cases, both_builds
from edits import edits_of, late_pairs
from version import VERSION
from tries import FILL, ends, lines_said, video, wanted, without_note

# Three edits with ranges, and a crop.
LIST = "0..2 mosaic 2,2,8,6 4,2 1..3 fill 4,2,2,2 7 crop 2,2,8,6"
# A file of edits, and the status that it gives.
EDIT_FILES = (
    ("", 1), ("\n\n", 1), (" \n", 1), ("# fill 0,0,2,2 9\n", 1), ("fill 0,0,2,2 # 9\n", 1), ("fill 0,0,2,2\v9", 1), ("fill 0,0,2,2\n9", 1), ("fill 0,0,2,2 9 fill 0,0,2,2 9", 1),
    ("fill 0,0,2,2 9\n3..3 fill 0,0,2,2 9\n", 1), ("crop 0,0,2,2\nfill 0,0,2,2 9", 1), ("fill\r0,0,2,2 9\n", 1), ("\rfill 0,0,2,2 9\n", 1), ("fill 0,0,2,2 9\r\r\n", 1), ("fill 0,0,2,2 9\r#", 1),
    ("\n\nfill 0,0,2,2 9\n\n", 0), ("crop 0,0,2,2\n", 0), ("fill  0,0,2,2 9", 0), (" \tfill\t0,0,2,2 9 \t\r\n", 0), ("fill 0,0,2,2 9#a face", 0), ("#\r\ncover 0,0,2,2 #16\r\n\t \r\n# end", 0), ("# a\rb\r\nfill 0,0,2,2 9\r", 0),
)  # fmt: skip  # fmt: skip

# Lists in which an edit may show what a later one hides, and others. What comes between two of them changes nothing.
LATE = (
    "mosaic 0,0,8,8 8,8 cover 0,0,1,1", "mosaic 0,0,8,8 8,8 cover 0,0,8,8", "mosaic 0,0,8,8 8,8 cover 2,2,4,4", "mosaic 0,0,8,8 8,8 cover 3,2,4,4", "mosaic 0,0,8,8 8,8 cover 8,0,2,2", "mosaic 0,0,8,8 4,4 fill 0,0,4,4 9",
    "mosaic 0,0,8,8 4,4 fill 0,0,4,3 9", "mosaic 0,0,8,8 4,4 fill 0,0,3,4 9", "mosaic 0,0,8,8 4,4 fill 1,0,3,4 9", "mosaic 0,0,8,8 4,4 fill 1,0,4,4 9", "mosaic 0,0,8,8 4,4 fill 4,4,4,4 9", "mosaic 0,0,6,6 4,4 fill 4,4,2,2 9",
    "mosaic 0,0,7,6 4,4 fill 4,4,2,2 9", "mosaic 2,2,6,6 4,4 fill 0,0,6,6 9", "mosaic 2,2,6,6 4,4 fill 0,0,4,4 9", "mosaic 0,0,8,8 8,8 fill 8,0,2,2 9", "mosaic 0,0,4,4 1,1 fill 1,1,2,2 9", "mosaic 0,0,8,8 8,8 cover 0,0,8,8+0",
    "mosaic 0,0,8,8 8,8 cover 0,0,7,8+0", "mosaic 0,0,8,8 4,8 cover 0,0,4,8+0", "mosaic 0,0,8,8 4,8 cover 0,0,4,8+1", "mosaic 0,0,8,8 4,8 cover 1,0,2,8+1", "fill 0,0,2,2 9 mosaic 0,0,8,8 8,8",
    "mosaic 0,0,8,8 8,8 mosaic 0,0,4,4 2,2", "0..1 mosaic 0,0,8,8 8,8 1..2 cover 0,0,1,1", "0..2 mosaic 0,0,8,8 8,8 1..2 cover 0,0,1,1", "00:00:00..00:00:01 mosaic 0,0,8,8 8,8 00:00:01..00:00:02 cover 0,0,1,1",
    "00:00:00..00:00:01 mosaic 0,0,8,8 8,8 2..3 cover 0,0,1,1", "move 0,0,2,2 2,2 fill 0,0,2,2 9", "move 0,0,2,2 2,2 means 4,4,2,2 2,2", "0..1 move 0,0,2,2 2,2 1.. fill 0,0,2,2 9", "means 0,0,2,2 2,2 fill 0,0,2,2 9",
    "blur 0,0,2,2 1 mosaic 0,0,2,2 1,1", "move 0,0,2,2 2,2 blur 0,0,2,2 1 mosaic 0,0,8,8 8,8 cover 0,0,1,1",
    *(f"{early} {between}{late}" for early in ("mosaic 0,0,8,8 8,8", "means 0,0,8,8 2,2", "blur 0,0,8,8 1", "move 0,0,2,2 8,8") for between in ("", "flip rows ", "flip columns ", "turn half ", "fill 0,0,16,16 3 ", "1..2 flip rows flip columns ") for late in ("cover 15,0,1,1+0", "fill 12,12,2,2 9", "crop 0,0,8,8")),
    *(f"{first} mosaic 0,0,8,8 8,8 {second} cover 0,0,1,1" for first, second in (("0..2", "2..4"), ("2..4", "0..2"), ("0..3", "2..4"), ("2..4", "0..3"), ("3..", "0..3"), ("3..", "0..4"), ("0..1", ""), ("00:00:00..00:00:01", "00:00:00.999999999.."), ("00:00:01..", "00:00:00..00:00:01"), ("00:00:01..", "00:00:00..00:00:01.000000001"), ("00:00:00..00:00:01", "9.."))),
    "cover 0,0,2,2 mosaic 0,0,8,8 8,8 cover 4,4,2,2 fill 8,8,2,2 9 move 0,0,2,2 2,2 flip rows cover 0,0,1,1 mosaic 0,0,4,4 2,2", "fill 0,0,2,2 9 flip rows cover 4,4,2,2 turn half means 0,0,8,8 2,2 blur 0,0,8,8 1 move 0,0,2,2 2,2",
)  # fmt: skip
# A picture of which only the first pixel isn't black, and edits by which it was seen beside the cover.
SEEN = b"P5 16 8 255\nz" + bytes(127)
LEAKS = ("mosaic 0,0,8,8 8,8 flip columns cover 15,0,1,1+0", "mosaic 0,0,8,8 8,8 flip rows cover 0,7,1,1+0", "mosaic 0,0,8,8 8,8 turn half cover 15,7,1,1+0")
# Words, an input, and a part of a line that is printed after the fault.
REASONS = (
    ("fill 0,0,2,2 9 fill 1,0,2,2 9", "420", "edit 2: column 1 is no multiple of 2"),
    ("fill 0,1,2,2 9", "420", "edit 1: row 1 is no multiple of 2"),
    ("fill 0,0,3,2 9", "422", "edit 1: width 3 is no multiple of 2"),
    ("fill 0,0,2,10 9", "444", "edit 1: it reaches outside the frame"),
    ("fill 0,0,2,10 9", "444", "the frame has 12 by 8 pixels"),
    ("mosaic 0,0,4,4 3,2", "420", "edit 1: tile width 3 is no multiple of 2"),
    ("mosaic 0,0,4,4 0,2", "mono", "edit 1: its size is 0"),
    ("fill 0,0,4,4 256", "444", "edit 1: value 256 is above 255"),
    ("fill 0,0,4,4 1024", "420p10", "edit 1: value 1024 is above 1023"),
    ("pad 0,0,4,4 512", "mono9", "the crop or pad: value 512 is above 511"),
    ("fill 0,0,4,4 1,2,3", "444", "edit 1: a colour is only for pictures in colour"),
    ("means 0,0,4,4 3,2", "420", "edit 1: tile width 3 is no multiple of 2"),
    ("means 0,0,4,4 16", "420", "at word 1: means needs the size of its tiles TW,TH, and 16 isn't one"),
    ("blur 1,0,4,4 1", "420", "edit 1: column 1 is no multiple of 2"),
    ("blur 0,0,4,14 1", "420", "edit 1: it reaches outside the frame"),
    ("blur 0,0,4,4 32768", "420", "at word 1: blur needs a radius R from 0 to 32767, and 32768 isn't one"),
    ("blur 0,0,4,4 1,1", "420", "at word 1: blur needs a radius R from 0 to 32767, and 1,1 isn't one"),
    ("blur 0,0,4,4", "420", "at word 1: blur needs a radius R from 0 to 32767 after a rectangle L,T,W,H"),
    ("--limit 287 blur 0,0,4,4 1", "420", "more than 287 bytes"),
    ("move 0,0,4,4 10,0", "420", "edit 1: it reaches outside the frame"),
    ("flip 0,0,2,2 9", "420", "at word 1: flip needs rows or columns, and 0,0,2,2 isn't that"),
    ("flip", "420", "at word 1: flip needs rows or columns"),
    ("turn back", "420", "at word 1: turn needs right, half or left, and back isn't that"),
    ("1.. turn right", "420", "at word 1: turn right and turn left take no range"),
    ("turn left flip rows", "420", "at word 3: no edit may come after a crop or a pad, nor after a quarter turn"),
    ("turn right", "422", "the turn: 2 by 1 pixels share a chroma sample, and 1 by 2 would after the turn"),
    ("turn left", "411", "the turn: 4 by 1 pixels share a chroma sample"),
    ("crop 0,0,3,4", "420", "the crop or pad: width 3 is no multiple of 2"),
    ("pad 1,0,0,0 9", "420", "the crop or pad: left side 1 is no multiple of 2"),
    ("fill 0,0,2,2 9 fil 0,0,2,2 9", "mono", "at word 4: fil isn't one of cover, fill"),
    ("fill 8,8,16,16", "mono", "at word 1: fill needs a brightness V, or a colour R,G,B after a rectangle L,T,W,H"),
    ("fill 0,0,1 9", "mono", "at word 1: fill needs a rectangle L,T,W,H, and 0,0,1 isn't one"),
    ("1.. mosaic 0,0,4,4 3", "mono", "at word 1: mosaic needs the size of its tiles TW,TH, and 3 isn't one"),
    ("cover 0,0,2,2++1", "mono", "at word 1: cover needs a rectangle L,T,W,H, or one with a margin L,T,W,H+M, and 0,0,2,2++1 isn't one"),
    ("fill 0,0,2,2 9 move", "mono", "at word 4: move needs a rectangle L,T,W,H"),
    ("crop 0,0,2,2 fill 0,0,2,2 9", "mono", "at word 3: no edit may come after a crop or a pad"),
    ("1..2 crop 0,0,2,2", "mono", "at word 1: crop takes no range"),
    ("1...2 fill 0,0,2,2 9", "mono", "at word 1: 1...2 is no range"),
    ("fill 0,0,2,2 9 1..2", "mono", "at word 4: no edit comes after the range"),
    ("5..5 fill 0,0,2,2 9", "mono", "edit 1: its range has no frame"),
    ("--edits /nowhere", "mono", "the edits file /nowhere can't be read: No such file or directory"),
    ("--edits /", "mono", "the edits file / can't be read: Is a directory"),
    ("--boxes /nowhere", "mono", "the boxes file /nowhere can't be read: No such file or directory"),
    ("-i /nowhere fill 0,0,2,2 9", "mono", "the input /nowhere can't be read: No such file or directory"),
    ("-i / fill 0,0,2,2 9", "mono", "the input / can't be read: Is a directory"),
    ("-o /nowhere/out fill 0,0,2,2 9", "mono", "the output /nowhere/out can't be written: No such file or directory"),
    ("-o / fill 0,0,2,2 9", "mono", "the output / can't be written: it is a folder or a device, and only a file is replaced"),
    ("--boxes x --hold 01", "mono", "--hold needs a whole number, and 01 isn't one: it has no sign, no unit and no zero in front"),
    ("--limit 1k fill 0,0,2,2 9", "mono", "--limit needs a whole number, and 1k isn't one"),
    ("--frames -1 fill 0,0,2,2 9", "mono", "--frames needs a whole number, and -1 isn't one"),
    ("--frames", "mono", "nothing follows --frames"),
    ("--loud fill 0,0,2,2 9", "mono", "--loud is no option"),
    ("--edits /dev/null fill", "mono", "fill comes after --edits, which has all edits in its file"),
    ("--limit 100 fill 0,0,2,2 9", "444", "more than 100 bytes"),
)


# Edits of a picture of 16 by 8 pixels, from which lists are made by chance, and how many.
PARTS = ("cover 15,0,1,1+0", "cover 0,0,2,3+1 9", "fill 2,2,5,3 7", "fill 8,0,4,8 9", "flip rows", "flip columns", "turn half", "flip columns", "mosaic 0,0,8,8 8,8", "means 0,0,16,8 4,4", "blur 4,0,8,8 3", "move 0,0,4,4 8,4", "1.. mosaic 0,0,16,8 16,8", "1.. cover 3,3,2,2", "0..1 means 2,0,4,4 2,2")
TRIES = 150


def covered_places(edits, wide, high):
    """Whether a cover or fill of the first picture has each pixel, wherever flips have brought it by then."""
    hidden, now = [False] * (wide * high), [(x, y) for y in range(high) for x in range(wide)]
    for first, _, word, window, more in edits:
        if first > 0:
            continue
        if word == "flip":
            now = [(wide - 1 - x if "columns" in more else x, high - 1 - y if "rows" in more else y) for x, y in now]
        if word in ("cover", "fill"):
            left, top, width, height = window[:4]
            margin = window[4] if len(window) > 4 else 0 if word == "fill" else 2
            hidden = [it or (left - margin <= x < left + width + margin and top - margin <= y < top + height + margin) for it, (x, y) in zip(hidden, now)]
    return hidden


def by_words(cases, program):
    for words in ("", "fill", "fill 1,2,3,4", "blurs 0,0,1,1 2", "blur 0,0,1,1", "blur 0,0,1,1 1,1", "blur 0,0,1,1 32768", "fill 0,0,1,1 1,2", "fill 0,0,1,1 1,2,3,4", "pad 0,0,1,1 1,2,3", "fill 0,0,01,1 2", "fill 0,0,1 2", "mosaic 0,0,1,1 2", "crop 0,0,1,1 2", "crop 0,0,2,2 fill 0,0,2,2 9", "pad 0,0,2,2", "pad 0,0,2,2 9 crop 0,0,2,2", "1..2 pad 0,0,2,2 9", "1..2 crop 0,0,2,2", "1.2 fill 0,0,2,2 9", "cover 0,0,2,2+", "cover 0,0,2,2+ 9", "cover 0,0,2,2+1+1", "cover 0,0,2,2++1", "cover 0,0,2,2+01", "cover 0,0,2,2+-1", "cover 0,0,2,2+18446744073709551616", "cover 0,0,2+1,2", "cover +1", "cover 0,0,2,2 +1", "fill 0,0,2,2+1 9", "mosaic 0,0,2,2+1 2,2", "crop 0,0,2,2+1", "2..1 fill 0,0,4,4 9", "0..0 fill 0,0,4,4 9", "fill 0,0,2,2 9 5..5 move 0,0,2,2 2,2", "--edits /nowhere", "--edits", "--strict", "--limit", "--limit x fill 0,0,2,2 9", "--loud fill 0,0,2,2 9", "--edits /dev/null fill 0,0,2,2 9"):
        said = ends(program, words.split(), video("mono"))
        cases.count(f"words '{words}' are refused", said == (b"", "fault words", 1), str(said))
    for before in ("flip rows", "flip columns", "turn half"):
        said = lines_said(program, f"{before} {FILL}".split(), video("mono"))
        cases.count(f"{before} before a fill is no move", said == [""], str(said))
    with tempfile.NamedTemporaryFile("w", suffix=".edits") as listed:
        listed.write(LIST.replace(" 1..3", "\n1..3").replace(" crop", "\ncrop") + "\n")
        listed.flush()
        cases.count("a file of edits is the same as its words", without_note(*ends(program, ["--edits", listed.name], video("420"))) == wanted(video("420"), LIST.split()))
        listed.seek(0)
        listed.write("# faces\r\n\t" + LIST.replace(" 1..3", "  \r\n \t# fill 0,0,2,2 9\n1..3").replace(" fill ", " \tfill  ").replace(" crop", "# one\n\r\ncrop") + " \t#last")
        listed.flush()
        cases.count("comments and white space of a file of edits change nothing", without_note(*ends(program, ["--edits", listed.name], video("420"))) == wanted(video("420"), LIST.split()))
        for text, status in EDIT_FILES:
            listed.seek(0)
            listed.truncate()
            listed.write(text)
            listed.flush()
            said = ends(program, ["--edits", listed.name], video("mono"))
            cases.count(f"a file {text!r} of edits ends with status {status}", said[2] == status and (status == 0 or said[:2] == (b"", "fault words")), str(said))
    for words, noted in (("means 0,0,2,2 2,2 fill 0,0,2,2 9", True), ("means 0,0,2,2 2,2 mosaic 0,0,2,2 1,1", True), ("means 0,0,2,2 2,2 means 4,4,2,2 2,2", False), ("cover 0,0,2,2 means 0,0,2,2 2,2", False), ("move 0,0,2,2 2,2 means 0,0,2,2 2,2", True)):
        said = ends(program, words.split(), video("mono"))
        cases.count(f"'{words}' is{'' if noted else ' not'} noted", said[1].startswith("note: ") == noted and said[2] == 0, str(said[1:]))
    for words, notes in (("blur 0,0,2,2 1", 1), ("cover 0,0,2,2 blur 0,0,2,2 1", 1), ("blur 0,0,2,2 1 means 4,4,2,2 2,2", 1), ("blur 0,0,2,2 1 fill 0,0,2,2 9", 2), ("move 0,0,2,2 2,2 blur 0,0,2,2 1", 1), ("means 0,0,2,2 2,2", 0)):
        lines = lines_said(program, words.split(), video("mono"))
        cases.count(f"'{words}' has {notes} notes, one of them that a blur hides nothing", len(lines) == notes + 1 and ("note: a blur hides nothing: cover what has to stay secret first" in lines) == (notes > 0), str(lines))
    said = ends(program, "move 0,0,2,2 2,2 fill 0,0,2,2 9".split(), video("mono"))
    cases.count("a move before a fill is noted", said[1].startswith("note: ") and said[2] == 0, str(said))
    for words in LATE:
        edits = edits_of(words.split())
        pairs = [f"edit {late}: the {edits[late - 1][2]} comes after the {edits[early - 1][2]} of edit {early}, which may show what it hides" for early, late in late_pairs(edits)]
        said = [it for it in lines_said(program, words.split(), video("mono", 16, 16)) if " comes after " in it]
        cases.count(f"'{words}' has a note for each of {len(pairs)} pairs", said == [f"note: {it}" for it in pairs], str(said))
        said, lines = ends(program, ["--strict", *words.split()], video("mono", 16, 16)), lines_said(program, ["--strict", *words.split()], video("mono", 16, 16))
        cases.count(f"and with --strict it is {'a fault before any output' if pairs else 'none'}", said[::2] == (b"", 10) and lines == ["fault order", *pairs, ""] if pairs else said[2] not in (10, 1), str(lines))
    for words in LEAKS:
        said = ends(program, ["--strict", *words.split()], SEEN)
        cases.count(f"--strict refuses '{words}'", said == (b"", "fault order", 10), str(said))
    with tempfile.NamedTemporaryFile("w", suffix=".edits") as listed:
        listed.write("# faces\nmosaic 0,0,8,8 8,8\n\ncover 0,0,2,2\nflip rows\ncover 4,4,2,2\nmove 0,0,2,2 4,4\nfill 0,0,2,2 9\n")
        listed.flush()
        lines = lines_said(program, ["--strict", "--edits", listed.name], video("mono", 16, 16))
        wanted_lines = [f"line {late}: the {word} comes after the {before}, which may show what it hides" for late, word, before in ((4, "cover", "mosaic of line 2"), (6, "cover", "mosaic of line 2"), (8, "fill", "mosaic of line 2"), (8, "fill", "move of line 7"))]
        cases.count("a pair in a file of edits is named by its lines", lines == ["fault order", *wanted_lines, ""], str(lines))
    many = "mosaic 0,0,8,8 8,8 " + "cover 0,0,2,2 " * 23
    lines = lines_said(program, ["--strict", *many.split()], video("mono", 16, 16))
    cases.count("of many pairs the first 20 are named, and the others counted", len(lines) == 23 and lines[20].startswith("edit 21: ") and lines[21] == "and 3 more like these", str(lines[-4:]))
    chance = random.Random(4)
    for number in range(TRIES):
        words = " ".join(chance.choice(PARTS) for _ in range(chance.randrange(2, 6)))
        edits = edits_of(words.split())
        mine = bytes(chance.randrange(256) for _ in range(128))
        theirs = bytes(chance.randrange(256) if is_covered else cell for cell, is_covered in zip(mine, covered_places(edits, 16, 8)))
        ours, other = (ends(program, ["--strict", *words.split()], b"P5 16 8 255\n" + it) for it in (mine, theirs))
        # (there is one picture, so that a range from 1 on isn't reached)
        status = 10 if late_pairs(edits) else 8 if any(first > 0 for first, *_ in edits) else 0
        cases.count(f"what --strict passes of '{words}' reveals nothing of what is covered", ours == other and ours[2] == status, f"{ours[1:]} {other[1:]}")
    for words, shown in (("fil 0,0,2,2 9", "at word 1: fil isn't one of"), ("", "there is no edit")):
        lines = lines_said(program, words.split(), video("mono"))
        cases.count(f"the reason of '{words}' comes first, and the help only where asked", lines[0] == "fault words" and shown in lines[1] and lines[2:] == ["imgref_frames --help lists the edits and the options", ""], str(lines[:4]))
    for word in ("--help", "-h"):
        said = ends(program, [word], b"")
        cases.count(f"{word} prints the help", said[0].startswith(b"usage: ") and said[2] == 0, str(said))
    said = ends(program, ["--version"], b"")
    cases.count("the version is printed", said == (f"imgref_frames {VERSION}\n".encode(), "", 0), str(said))
    for shell, cause in ((f'"{program}" {FILL} > /dev/full', "standard output can't be written: No space left on device"), (f'"{program}" {FILL} < /', "standard input can't be read: Is a directory")):
        done = subprocess.run(["sh", "-c", shell], input=video("mono"), capture_output=True, timeout=120)
        cases.count(f"the cause of a fault is said: {cause}", done.stderr.decode().split("\n")[1].startswith(cause), str(done))
    for name, shell, status in (("a closed output", f'"{program}" {FILL} >&-', 5), ("a full output", f'"{program}" {FILL} > /dev/full', 5), ("an input that can't be read", f'"{program}" {FILL} < /', 4)):
        done = subprocess.run(["sh", "-c", shell], input=video("mono"), capture_output=True, timeout=120)
        cases.count(f"{name} ends with status {status}", done.returncode == status, str(done))


def by_counts(cases, program):
    """Another number of frames than was asked for, by an option or by a line of a list."""
    data, pictures = video("mono"), b"P5 2 1 255\nab" * 3
    for given, words in ((data, FILL), (pictures, "fill 0,0,1,1 9")):
        out = ends(program, words.split(), given)[0]
        for count in ("2", "4", "0", "18446744073709551615"):
            said = ends(program, ["--frames", count, *words.split()], given)
            cases.count(f"{count} frames asked for is a fault", said == (out, "fault count", 11), str(said[1:]))
        cases.count("the right number is no fault", ends(program, ["--frames", "3", *words.split()], given) == (out, "", 0))
        cases.count("the last of two numbers counts", ends(program, ["--frames", "2", "--frames", "3", *words.split()], given) == (out, "", 0))
    lines = lines_said(program, ["--frames", "2", *FILL.split()], data)
    cases.count("both numbers of frames are said", lines[:2] == ["fault count", "the input has 3 frames, and --frames asks for 2"], str(lines))
    cut = ends(program, ["--frames", "3", *FILL.split()], data[:-1])
    cases.count("a cut frame is its own fault", cut[1:] == ("fault frame 2", 7), str(cut[1:]))
    with tempfile.TemporaryDirectory() as folder:
        listed, taken = pathlib.Path(folder, "list"), pathlib.Path(folder, "out")
        for option, line, note in (("--boxes", "1,1,2,2,4,4", "note: 2 of 3 frames have no box, the longest stretch is 2 to 3"), ("--edits", FILL, "")):
            for text, status in (
                (f"# frames 3\n{line}\n", 0), (f"{line}\n# frames 3", 0), (f"{line}\r\n# frames 3\r\n", 0), (f"# frames 2\n{line}\n", 11), (f"{line}\n# frames 4", 11), (f"{line}\r\n# frames 2\r\n", 11), (f"# frames 3\n{line}\n# frames 3\n", 0), (f"# frames 3\n{line}\n# frames 2\n", 11), (f"# frames 0\n{line}\n", 11),
                (f"#frames 2\n{line}\n", 0), (f"# frames 02\n{line}\n", 0), (f"# frames 2 of 3\n{line}\n", 0), (f"# frames\n{line}\n", 0), (f"{line}# frames 2\n", 0),
            ):  # fmt: skip
                listed.write_text(text, newline="")
                said = ends(program, [option, listed, "-o", taken], data)
                cases.count(f"{option} with {text!r} ends with status {status}", said[0] == b"" and said[2] == status and said[1] == ("fault count" if status else note) and taken.exists() == (status == 0), str(said))
                taken.unlink(missing_ok=True)
        listed.write_text("1,1,2,2,4,4\n# frames 4\n")
        lines = lines_said(program, ["--boxes", listed], data)
        cases.count("the line that names another number is said", lines[:2] == ["fault count", "line 2 of the boxes: the input has 3 frames, and the list was made from 4"], str(lines))
        said = ends(program, ["--boxes", listed, "--frames", "3"], data)
        cases.count("an option doesn't replace a list's line", said[1:] == ("fault count", 11), str(said[1:]))


def by_descriptors(cases, program):
    """A standard stream that is closed gets no bytes of another: a file that is opened has another number."""
    made, words = video("mono"), "--strict 0..9 cover 99,99,1,1"
    out = ends(program, FILL.split(), made)[0]
    with tempfile.TemporaryDirectory() as folder:
        given, taken = pathlib.Path(folder, "in"), pathlib.Path(folder, "out")
        given.write_bytes(made)
        for closed in ("2>&-", ">&-", "<&-", "<&- >&-", "<&- 2>&-", ">&- 2>&-", "<&- >&- 2>&-"):
            for options in ("0..9 cover 99,99,1,1 9..10 " + FILL + " ", ""):
                taken.unlink(missing_ok=True)
                done = subprocess.run(["sh", "-c", f'"{program}" -i "{given}" -o "{taken}" {options}{FILL} {closed}'], capture_output=True, timeout=120)
                cases.count(f"{closed}: a file gets the video alone{' beside notes' if options else ''}", done.returncode == 0 and taken.read_bytes() == out, f"{done} {taken.read_bytes()[:60]}")
            taken.unlink(missing_ok=True)
            done = subprocess.run(["sh", "-c", f'"{program}" -i "{given}" -o "{taken}" {words} {closed}'], capture_output=True, timeout=120)
            cases.count(f"{closed}: a fault leaves no file", done.returncode == 9 and not taken.exists(), str(done))
        for closed, status in ((f"<&- > {taken}", 4), (f">&- < {given}", 5), (f"2>&- > {taken} < {given}", 0)):
            taken.unlink(missing_ok=True)
            done = subprocess.run(["sh", "-c", f'"{program}" 7..9 {FILL} {FILL} {closed}'], capture_output=True, timeout=120)
            cases.count(f"a closed stream ends with status {status}", done.returncode == status and (status or taken.read_bytes() == out), str(done))


def by_notes(cases, program):
    """What is said of several covers and ranges, and after a fault."""
    sizes = b"".join(b"P5 %d %d 255\n" % (side, side) + bytes(side * side) for side in (8, 4, 16, 4))
    covers = "cover 9,9,1,1+0 cover 5,5,1,1+0 cover 20,20,1,1+0"
    named = [f"edit {number}: it covers nothing in frame {frame}, which has {side} by {side} pixels" for number, frame, side in ((1, 0, 8), (2, 1, 4), (3, 0, 8))]
    lines = lines_said(program, covers.split(), sizes)
    cases.count("each cover is noted at the first size at which it covers nothing", lines == [f"note: {it}" for it in named] + [""], str(lines))
    lines = lines_said(program, ["--strict", *covers.split(), *"fill 0,0,8,8 9".split()], sizes)
    cases.count("in a series whose edits don't suit a picture covers before it are said", lines[0] == "fault outside" and "fault cover" in lines and named[0] in lines, str(lines))
    strict = lines_said(program, ["--strict", *covers.split(), "9..10", "cover", "0,0,1,1"], sizes)
    cases.count("covers and ranges that are faults are listed together", strict == ["fault cover", *named, "fault range", "edit 4: the input has 4 frames, and ends before its range 9..10", ""], str(strict))
    all_three = lines_said(program, ["--strict", "--frames", "7", *covers.split(), "9..10", "cover", "0,0,1,1"], sizes)
    cases.count("and another number of frames before them", all_three[:3] == ["fault count", "the input has 4 frames, and --frames asks for 7", "fault cover"] and all_three[2:] == strict, str(all_three))
    cut = sizes[:-1]
    lines = lines_said(program, [*covers.split(), "9..10", "cover", "0,0,1,1"], cut)
    cases.count("after a fault covers and ranges are still noted", lines[0] == "fault frame 3" and [it for it in lines if it.startswith("note: ")] == [f"note: {it}" for it in named] + ["note: edit 4: the input has 3 frames, and ends before its range 9..10"], str(lines))
    lines = lines_said(program, ["1..2", "cover", "99,99,1,1"], video("mono")[:-1])
    cases.count("and in a video too", lines[0] == "fault frame 2" and "note: edit 1: it covers nothing in frame 1, which has 12 by 8 pixels" in lines, str(lines))
    many = "cover 99,99,1,1 " * 57
    lines = lines_said(program, many.split(), video("mono"))
    cases.count("of a kind 20 notes are printed, and how many more there are", len(lines) == 22 and lines[20] == "note: and 37 more like these", str(lines[-3:]))
    lines = lines_said(program, ["--strict", *many.split()], video("mono"))
    cases.count("and of a fault likewise", len(lines) == 23 and lines[0] == "fault cover" and lines[21] == "and 37 more like these", str(lines[-3:]))
    for words in ("cover 1,1,0,0+0", "cover 3,5,0,4+0", "cover 0,0,0,0+0"):
        lines = lines_said(program, words.split(), video("420"))
        cases.count(f"'{words}' has neither a pixel nor a margin, and changes nothing", lines[0].startswith("note: edit 1: it covers nothing") and ends(program, words.split(), video("420"))[0] == video("420"), str(lines))


def by_owners(cases, program):
    """A file of another owner keeps its owner, or is refused, and its permissions don't become another owner's."""
    if os.geteuid() != 0:
        cases.skip("the owner of an output", "root", number=2)
        return
    made, words = video("mono"), FILL.split()
    out = ends(program, words, made)[0]
    with tempfile.TemporaryDirectory() as folder:
        pathlib.Path(folder).chmod(0o777)
        taken = pathlib.Path(folder, "out")
        taken.write_bytes(b"old")
        os.chown(taken, 12345, 12346)
        taken.chmod(0o6755)
        said = ends(program, ["-o", taken, *words], made)
        found = taken.stat()
        cases.count("root keeps the owner and the group of an output", said == (b"", "", 0) and taken.read_bytes() == out and (found.st_uid, found.st_gid, found.st_mode & 0o7777) == (12345, 12346, 0o6755), str(found))
        os.chown(taken, 0, 0)
        taken.chmod(0o4755)
        with tempfile.TemporaryDirectory() as other:
            # (the checkout may be where this owner reads nothing)
            pathlib.Path(other).chmod(0o755)
            copied = shutil.copy2(program, other)
            done = subprocess.run([copied, "-o", taken, *words], input=made, capture_output=True, timeout=120, user=12345, group=12346)
        found = taken.stat()
        cases.count("another owner's output is refused and stays", done.returncode == 5 and done.stderr.decode().split("\n")[:2] == ["fault output", f"the output {taken} can't be written: it has another owner or group, which can't be kept"] and found.st_uid == 0 and taken.read_bytes() == out and os.listdir(folder) == ["out"], f"{done} {found}")


def by_options(cases, program):
    """Ranges that the input doesn't reach, the limit of memory, and why a fault came."""
    edits = "fill 0,0,2,2 9 3..5 fill 0,0,4,4 9"
    out = ends(program, ["fill", "0,0,2,2", "9"], video("420"))[0]
    lines = lines_said(program, edits.split(), video("420"))
    cases.count("a range that isn't reached is noted", lines == ["note: edit 2: the input has 3 frames, and ends before its range 3..5", ""], str(lines))
    lines = lines_said(program, "5.. fill 0,0,2,2 9".split(), video("420"))
    cases.count("a range without an end is noted as one", lines == ["note: edit 1: the input has 3 frames, and ends before its range 5..", ""], str(lines))
    cases.count("a range from 0 on is reached by no frame", ends(program, "--strict 0.. fill 0,0,2,2 9".split(), video("420", frames=0))[1:] == ("", 0))
    cases.count("a range that isn't reached is a fault where asked", ends(program, ["--strict", *edits.split()], video("420")) == (out, "fault range", 8))
    cases.count("a range that is reached is no fault", ends(program, ["--strict", *edits.replace("3..", "2..").split()], video("420"))[1:] == ("", 0))
    size = 12 * 8 * 3 // 2
    cases.count("the limit is enough", ends(program, ["--limit", str(size), "fill", "0,0,2,2", "9"], video("420")) == (out, "", 0))
    cases.count("a byte less is out of memory", ends(program, ["--limit", str(size - 1), "fill", "0,0,2,2", "9"], video("420")) == (b"", "fault memory 0", 3))
    large = b"YUV4MPEG2 W32768 H32768 C444\nFRAME\n"
    cases.count("a large frame is out of memory without asking for it", ends(program, ["fill", "0,0,2,2", "9"], large) == (b"", "fault memory 0", 3))
    # (a rectangle of odd width that ends where the frame ends is whole samples)
    said = lines_said(program, "fill 4,0,1,2 9 fill 0,0,6,2 9".split(), video("420", 5, 4))
    cases.count("an odd width at the edge isn't blamed for the edit after it", said[:3] == ["fault outside", "the frame has 5 by 4 pixels", "edit 2: it reaches outside the frame"], str(said))
    for words, sampling, reason in REASONS:
        lines = lines_said(program, words.split(), video(sampling))
        cases.count(f"'{words}' says why", any(reason in it for it in lines[1:]), str(lines[:4]))
    with tempfile.NamedTemporaryFile("w", suffix=".edits") as listed:
        for text, reason in (("fill 0,0,2,2 9\n\n2..2 fill 0,0,2,2 9\n", "line 3: its range has no frame"), ("# a\r\n\r\nfill 0,0,2,2 9\r\n\t2..2  fill 0,0,2,2 9", "line 4: its range has no frame"), ("fill 0,0,2,2 9 # b\n# c\nfil 0,0,2,2 9\n", "at line 3: fil isn't one of"), ("\nfill 0,0,2,2 9 9\n", "at line 2: a line has one edit, and 9 comes after it"), ("#\nfill 0,0,2,2 9\n\nfill 0,0,20,2 9", "line 4: it reaches outside")):
            listed.seek(0)
            listed.truncate()
            listed.write(text)
            listed.flush()
            lines = lines_said(program, ["--edits", listed.name], video("mono"))
            cases.count(f"'{reason}' of a file of edits", any(reason in it for it in lines), str(lines[:4]))
        listed.seek(0)
        listed.truncate()
        listed.write("# late\n9..12 fill 0,0,2,2 9\nfill 0,0,2,2 9\n\n3.. fill 0,0,2,2 9")
        listed.flush()
        lines = lines_said(program, ["--edits", listed.name], video("mono"))
        cases.count("lines whose ranges aren't reached are noted", [it.split(":")[:2] for it in lines[:-1]] == [["note", " line 2"], ["note", " line 5"]], str(lines))


def by_files(cases, program):
    """The input and the output as files: an output has its name only where it is whole."""
    made, (out, _, _), words = video("420"), wanted(video("420"), FILL.split()), FILL.split()
    with tempfile.TemporaryDirectory() as folder:
        given, taken, other = (pathlib.Path(folder, it) for it in ("in.y4m", "out.y4m", "edits"))
        given.write_bytes(made)
        cases.count("an input by its name", ends(program, ["-i", given, *words], b"") == (out, "", 0))
        said = ends(program, ["-i", given, "-o", taken, *words], b"")
        cases.count("an input and an output by their names", said == (b"", "", 0) and taken.read_bytes() == out, str(said))
        taken.write_bytes(b"old")
        taken.chmod(0o640)
        said = ends(program, ["-o", taken, *words], made)
        cases.count("an output replaces a file, and keeps its permissions", said == (b"", "", 0) and taken.read_bytes() == out and taken.stat().st_mode & 0o777 == 0o640, str(said))
        taken.write_bytes(made)
        said = ends(program, ["-i", taken, "-o", taken, *words], b"")
        cases.count("an output may be the input", said == (b"", "", 0) and taken.read_bytes() == out, str(said))
        other.write_text("# from a pipe\n" + FILL)
        said = ends(program, ["--edits", "-", "-i", given], other.read_bytes())
        cases.count("edits from standard input", said == (out, "", 0), str(said))
        said = lines_said(program, ["--edits", "-"], other.read_bytes())
        cases.count("edits and video from standard input are refused", said[0] == "fault words" and "-i has to name the input" in said[1], str(said[:2]))
        pathlib.Path(f"{taken}.0.part").write_bytes(b"mine")
        said = ends(program, ["-o", taken, *words], made)
        cases.count("a file beside the output stays", said == (b"", "", 0) and taken.read_bytes() == out and pathlib.Path(f"{taken}.0.part").read_bytes() == b"mine", str(said))
        pathlib.Path(f"{taken}.0.part").unlink()
        there = sorted(pathlib.Path(folder).iterdir())
        for name, options, data, fault in (
            ("a cut frame", [], made[:-1], "frame 2"), ("no video", [], b"RIFF", "header"), ("an edit outside", [], video("420", 4, 4), "outside"), ("the limit", ["--limit", "9"], made, "memory 0"),
            ("an input that isn't there", ["-i", f"{folder}/none"], b"", "input"), ("a range that isn't reached", ["--strict", "9..10"], made, "range"), ("a cover that covers nothing", ["--strict", "cover", "99,0,2,2"], made, "cover"),
        ):  # fmt: skip
            taken.write_bytes(b"old")
            strict = options[:1] == ["--strict"]
            said = ends(program, [*(options[:1] if strict else options), "-o", taken, *(options[1:] if strict else []), *words], data)
            cases.count(f"{name} leaves the output as it was", said[:2] == (b"", f"fault {fault}") and taken.read_bytes() == b"old" and sorted(pathlib.Path(folder).iterdir()) == there, str(said))
            taken.unlink()
            said = ends(program, [*(options[:1] if strict else options), "-o", taken, *(options[1:] if strict else []), *words], data)
            cases.count(f"{name} leaves no output", said[:2] == (b"", f"fault {fault}") and not taken.exists(), str(said))
        for name in (f"{folder}/none/out", folder, "/dev/null", "/dev/full"):
            cases.count(f"{name if name[:5] == '/dev/' else 'a folder or none'} is no output", ends(program, ["-o", name, *words], made) == (b"", "fault output", 5))
        said = ends(program, ["-i", "-", "-o", "-", *words], made)
        cases.count("- is standard input and output", said == (out, "", 0) and not pathlib.Path(folder, "-").exists(), str(said))
        said = lines_said(program, ["--edits", "-", "-i", "-"], other.read_bytes())
        cases.count("and can't be the edits too", said[0] == "fault words" and "-i has to name the input" in said[1], str(said[:2]))
        before = len(os.listdir(folder))
        for name in ("x" * 250, "x" * 255, "y" + "\u00e4" * 127):
            long = pathlib.Path(folder, name)
            said = ends(program, ["-o", long, *words], made)
            cases.count(f"an output with a name of {len(name.encode())} bytes", said == (b"", "", 0) and long.read_bytes() == out and len(os.listdir(folder)) == before + 1, str(said))
            long.unlink(missing_ok=True)
        link, far = pathlib.Path(folder, "link"), pathlib.Path(folder, "far")
        far.mkdir()
        pathlib.Path(far, "target").write_bytes(b"old")
        link.symlink_to("far/target")
        said = ends(program, ["-o", link, *words], made)
        cases.count("a symbolic link stays, and its target is replaced", said == (b"", "", 0) and link.is_symlink() and pathlib.Path(far, "target").read_bytes() == out and os.listdir(far) == ["target"], str(said))
        link.unlink()
        link.symlink_to("none/target")
        cases.count("a link to nothing is no output", ends(program, ["-o", link, *words], made) == (b"", "fault output", 5) and link.is_symlink())
        said = subprocess.run([program, "-o", os.fsencode(folder) + b"/\xff", *words], input=made, capture_output=True, timeout=120)
        cases.count("a word that isn't UTF-8 is named as such", said.returncode == 1 and said.stderr.startswith(b"fault words\na word isn't UTF-8"), str(said.stderr[:80]))
        taken.write_bytes(b"old")
        with subprocess.Popen([program, "-o", taken, *words], stdin=subprocess.PIPE, stderr=subprocess.DEVNULL) as it:
            it.stdin.write(made[:-1])
            it.stdin.flush()
            it.kill()
            it.wait(timeout=60)
        cases.count("a run that is killed leaves the output as it was", taken.read_bytes() == b"old")


def main():
    cases = Cases()
    for program in both_builds(cases, "imgref_frames"):
        by_words(cases, str(program))
        by_counts(cases, str(program))
        by_descriptors(cases, str(program))
        by_notes(cases, str(program))
        by_owners(cases, str(program))
        by_options(cases, str(program))
        by_files(cases, str(program))
    return cases.end()


if __name__ == "__main__":
    sys.exit(main())
