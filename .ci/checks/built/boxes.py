#!/usr/bin/env python3
"""Shows what imgref_frames covers by a tracker's list: made tracks, with gaps, with fractions and signs, and with boxes that
reach outside.

A model that shares nothing with the program says what is written. Both builds are run that `rt ci` leaves.
"""
import pathlib
import random
import sys
import tempfile

sys.path.insert(0, str(pathlib.Path(__file__).resolve().parents[2]))
from checking import Cases, both_builds
from edits import edits_of
from frames import answer
from tracked import SIZE, TEXTS, by_model, count_lists, differing, options, run, tracks, video
from tries import ends, lines_said, without_note, y4m

# A line that is refused, and what is said of it.
REFUSED = (
    ("1,1,2,2,4", "the height is missing"),
    ("1", "the id is missing"),
    (",1,2,2,4,4", "the frame is , which is no whole number from 1 on"),
    ("0,1,2,2,4,4", "the frame is 0,"),
    ("-1,1,2,2,4,4", "the frame is -1,"),
    ("1.5,1,2,2,4,4", "the frame is 1.5,"),
    ("01,1,2,2,4,4", "the frame is 01,"),
    ("18446744073709551616,1,2,2,4,4", "the frame is 18446744073709551616, which is above 18446744073709551615, the greatest number of a frame"),
    ("1,4294967296,2,2,4,4", "the id is 4294967296, which is above 4294967295, the greatest number of a field"),
    ("1,1,-99999999999,2,4,4", "the left is -99999999999, which is above 4294967295, the greatest number of a field"),
    ("1,x,2,2,4,4", "the id is x,"),
    ("1,1,1e3,2,4,4", "the left is 1e3, which is no number such as 12 or -3.5"),
    ("1,1,2.,2,4,4", "the left is 2.,"),
    ("1,1,.5,2,4,4", "the left is .5,"),
    ("1,1,1.2.3,2,4,4", "the left is 1.2.3,"),
    ("1,1,--2,2,4,4", "the left is --2,"),
    ("1,1,+2,2,4,4", "the left is +2,"),
    ("1,1,02,2,4,4", "the left is 02,"),
    ("1,1,4294967296,2,4,4", "the left is 4294967296, which is above 4294967295, the greatest number of a field"),
    ("1,1,0.123456789012345678901,2,4,4", "the left is 0.123456789012345678901, which is longer than 20 digits after the point"),
    ("1,1,2,nan,4,4", "the top is nan,"),
    ("1,1,2,2,-4,4", "the width is -4, which is no number such as 12 or 3.5"),
    ("1,1,2,2,4,-0.5", "the height is -0.5,"),
    ("1,1,2,2,4,4 4", "the height is 4 4, which is no number such as 12 or 3.5"),
    ("1,1,2,2,4 ,4", "the width is 4 , which is no number such as 12 or 3.5"),
    ("1,1,2,2,4,4\u00a0", "the height is 4\u00a0, which is no number such as 12 or 3.5"),
    ("1,1,2,2,4,\x1b[2J4", "the height is \\x1b[2J4, which is no number such as 12 or 3.5"),
    ("1;1;2;2;4;4", "the frame is 1;1;2;2;4;4,"),
    ("1..2 cover 2,2,4,4", "the frame is 1..2 cover 2, which is no whole number from 1 on"),
    ("\ufeff1,1,2,2,4,4", "the frame is \ufeff1, which is no whole number from 1 on"),
)


# Each kind of a video: its sampling, and whether its frames are interlaced.
KINDS = (("mono", b"Ip"), ("420jpeg", b"Ip"), ("420jpeg", b"It"), ("422", b"Ip"), ("411", b"Ip"), ("444", b"Ip"))


def by_tracks(cases, program):
    for name, text in TEXTS.items():
        count_lists(cases, f"made tracks in {name} are covered as the model says", [differing(program, video(sampling, fields=fields), tracks(random.Random(seed), text)) for seed, (sampling, fields) in enumerate(KINDS * 4)])
    pictures = b"".join(b"P5\n13 9\n255\n" + random.Random(it).randbytes(117) for it in range(12))
    count_lists(cases, "made tracks over pictures", [differing(program, pictures, tracks(random.Random(seed), TEXTS["two digits"])) for seed in range(8)])


def by_margin(cases, program):
    """Each margin is the same on all sides, also of boxes that end before the frame or begin after it."""
    for margin in (0, 1, 2, 3, 5, 40, 2**64 - 1):
        wrong = [differing(program, video(sampling, fields=fields), tracks(random.Random(f"{seed} {margin}"), TEXTS["halves"]), margin=margin) for seed, (sampling, fields) in enumerate(KINDS)]
        count_lists(cases, f"made tracks with a margin of {margin} are covered as the model says", wrong)
    # (no pixel has the value of a cover)
    data = y4m("mono", 16, 16, [bytes([99]) * 256])
    for name, box, mirrored in (("columns", "17,4,3,3", "-4,4,3,3"), ("rows", "4,17,3,3", "4,-4,3,3")):
        for margin in (None, 0, 1, 2, 3):
            words = [] if margin is None else ["--margin", str(margin)]
            one, other = (differing_pixels(data, run(program, [f"1,1,{it}"], words, data)[0][0]) for it in (box, mirrored))
            turned = {(15 - x, y) if name == "columns" else (x, 15 - y) for x, y in one}
            far = 3 if margin is None else margin
            cases.count(f"{name}: a box after the end and one before the beginning are alike with a margin of {margin}", turned == other and bool(one) == (margin is None or margin > 1), f"{sorted(one)} {sorted(other)} {far}")


def differing_pixels(data, out):
    """Which pixels of the first frame of a grey video of 16 by 16 pixels differ."""
    start = data.index(b"FRAME\n") + 6
    return {(at % 16, at // 16) for at in range(256) if data[start + at] != out[start + at]}


# What boxes may become: the word of the edit, and what follows its window.
STYLES = (("fill", [99]), ("mosaic", [4, 4]), ("mosaic", [8, 2]), ("means", [4, 4]), ("blur", [3]), ("blur", [0]))


def by_styles(cases, program):
    """What each box becomes in the place of a cover."""
    for style in STYLES:
        wrong = []
        for seed, (sampling, fields) in enumerate(it for it in KINDS if it[1] == b"Ip"):
            data, lines = video(sampling, fields=fields), tracks(random.Random(f"{seed} {style}"), TEXTS["halves"])
            wrong += [differing(program, data, lines, style=style, margin=margin) for margin in (None, 0, 3)]
        count_lists(cases, f"boxes become '{' '.join(options(style=style)[1:])}' as the model says", wrong)
    colours = b"P6\n13 9\n255\n" + random.Random(1).randbytes(351)
    lines = ["1,1,-2,3,5,4", "1,2,9,-1,3.5,3.5"]
    for style in (("fill", [9, 99, 199]), *STYLES):
        count_lists(cases, f"boxes of a picture become '{' '.join(options(style=style)[1:])}'", [differing(program, colours, lines, style=style)])
    data = video("420jpeg")
    for words, reason in (("fill 256", "value 256 is above 255"), ("fill 1,2,3", "a colour is only for pictures in colour"), ("mosaic 3,4", "tile width 3 is no multiple of 2"), ("means 0,4", "its size is 0")):
        said, all_lines = run(program, ["# boxes", "1,1,2,2,4,4"], ["--with", *words.split()], data)
        cases.count(f"--with {words} is a fault of the first line", said == (b"", "fault outside", 6) and any(it == f"line 2 of the boxes: {reason}" or it.startswith(f"line 2 of the boxes: {reason}") for it in all_lines), str(all_lines[:4]))
    for words in ("move 4,4", "cover 9", "fill x", "blur 32768", "mosaic 4", "turn half", "fill -1"):
        said, all_lines = run(program, ["1,1,2,2,4,4"], ["--with", *words.split()], data)
        cases.count(f"--with {words} is refused", said == (b"", "fault words", 1) and all_lines[1].startswith("--with needs fill V"), str(all_lines[:2]))
    for words, note in (("blur 3", "a blur hides nothing"), ("mosaic 4,4", "--with mosaic shows"), ("means 4,4", "--with means shows")):
        said, all_lines = run(program, ["1,1,2,2,4,4"], ["--with", *words.split()], data)
        cases.count(f"--with {words} is noted", any(it.startswith(f"note: {note}") for it in all_lines), str(all_lines[:3]))
    for words in ("mosaic 4,4", "means 4,4", "blur 3"):
        said, all_lines = run(program, ["1,1,2,2,4,4"], ["--strict", "--with", *words.split(), "fill", "2,2,2,2", "9"], data)
        cases.count(f"a fill after boxes with {words} is a fault where asked", said == (b"", "fault order", 10), str(all_lines[:3]))
    for words in (["--margin", "3"], ["--with", "fill", "9"], ["--require-box"]):
        said = lines_said(program, [*words, "fill", "0,0,2,2", "9"], data)
        cases.count(f"{words[0]} without boxes is refused", said[:2] == ["fault words", f"{words[0]} is for the boxes of a list, so it needs --boxes"], str(said[:2]))


def bare_stretches(lines, frames, hold=0):
    """The frames without a box, from 1, and the first longest stretch of them."""
    with_box = {int(it.split(",")[0]) + more for it in lines for more in range(-hold, hold + 1)}
    bare, longest = [it for it in range(1, frames + 1) if it not in with_box], (0, 0)
    for first in bare:
        end = first
        while end + 1 in bare:
            end += 1
        if not longest[0] or end - first > longest[1] - longest[0]:
            longest = first, end
    return len(bare), longest


def by_bare_frames(cases, program):
    """One line says how many frames have no box, and which stretch of them is the longest."""
    data = video("mono")
    wrong = []
    for seed in range(60):
        chance = random.Random(seed)
        frames = chance.sample(range(1, 16), chance.randint(1, 12))
        lines = [f"{it},{it},2,2,4,4" for it in frames]
        hold = chance.choice((None, None, 1, 2))
        more = [] if hold is None else ["--hold", str(hold)]
        count, (first, end) = bare_stretches(lines, 12, hold or 0)
        line = f"{count} of 12 frames have no box, the longest stretch is {first} to {end}"
        said, all_lines = run(program, lines, more, data)
        if said[2] or (f"note: {line}" in all_lines) != bool(count) or sum("have no box" in it for it in all_lines) > 1:
            wrong.append(f"{sorted(frames)} {hold}: {all_lines[:3]}, not {line}")
        said, all_lines = run(program, lines, ["--require-box", *more], data)
        if said[1:] != (("fault box", 12) if count else said[1:2] + (0,)) or bool(count) != (line in all_lines):
            wrong.append(f"{sorted(frames)} {hold} --require-box: {said[1:]} {all_lines[:3]}")
    cases.count("the frames without a box are told", not wrong, "\n".join(wrong)[:3000])
    with tempfile.TemporaryDirectory() as room:
        name = f"{room}/out.y4m"
        said, all_lines = run(program, ["1,1,2,2,4,4"], ["--require-box", "-o", name], data)
        cases.count("with --require-box a video with such a frame gets no name", said[2] == 12 and not list(pathlib.Path(room).iterdir()), str(all_lines[:2]))


def by_report(cases, program):
    """The report has the rectangles as they were drawn: what differs between input and output is inside them, and a fill of them is the output."""
    for sampling, fields in (it for it in KINDS if it[0] in ("mono", "420jpeg", "411")):
        data, size = video(sampling, fields=fields), SIZE
        lines = tracks(random.Random(3), TEXTS["halves"])
        for words in ([], ["--margin", "0"], ["--margin", "3"], ["--hold", "2"]):
            with tempfile.TemporaryDirectory() as room:
                (pathlib.Path(room) / "boxes.txt").write_text("\n".join(lines) + "\n")
                said = ends(program, ["--boxes", f"{room}/boxes.txt", *words, "--report", f"{room}/report.csv", "3..5", "cover", "1,1,2,2", "fill", "0,0,4,4", "99"], data)
                rows = [[int(it) for it in row.split(",")] for row in (pathlib.Path(room) / "report.csv").read_text().splitlines()]
                names = sorted(it.name for it in pathlib.Path(room).iterdir())
            again = answer(data, [(row[0] - 1, row[0], "fill", row[1:], [16]) for row in rows] + edits_of("fill 0,0,4,4 99".split()))
            inside = all(len(row) == 5 and 0 < row[0] <= 12 and row[3] and row[4] and row[1] + row[3] <= size[0] and row[2] + row[4] <= size[1] for row in rows)
            cases.count(f"the report of {sampling} {fields.decode()} {' '.join(words)} filled is the output", without_note(*said) == (again, "", 0) and inside and rows and [row[0] for row in rows] == sorted(row[0] for row in rows) and names == ["boxes.txt", "report.csv"], f"{said[1:]} {rows[:5]} {names}")
    sizes = [(13, 9), (13, 9), (4, 4), (13, 9)]
    pictures = b"".join(b"P5\n%d %d\n255\n" % it + random.Random(str(it)).randbytes(it[0] * it[1]) for it in sizes)
    with tempfile.TemporaryDirectory() as room:
        (pathlib.Path(room) / "boxes.txt").write_text("".join(f"{it},1,3,3,4,4\n" for it in range(1, 5)))
        said = ends(program, ["--boxes", f"{room}/boxes.txt", "--margin", "1", "--report", f"{room}/report.csv"], pictures)
        text = (pathlib.Path(room) / "report.csv").read_text()
    cases.count("the report of pictures of several sizes", said[2] == 0 and text == "1,2,2,6,6\n2,2,2,6,6\n3,2,2,2,2\n4,2,2,6,6\n", f"{said[1:]} {text}")
    by_moved(cases, program)
    data = video("mono")
    for name, status in (("/nowhere/report.csv", 5), ("/", 5)):
        said, all_lines = run(program, ["1,1,2,2,4,4"], ["--report", name], data)
        cases.count(f"a report that can't be written is a fault: {name}", said[1:] == ("fault output", status) and any(name in it for it in all_lines), str(all_lines[:3]))
    said, all_lines = run(program, ["1,1,2,2,4,4"], ["-o", "/nowhere/one", "--report", "/nowhere/one"], data)
    cases.count("a report and an output of one name are refused", said == (b"", "fault words", 1) and all_lines[1] == "the report and the output need two names", str(all_lines[:2]))
    said, all_lines = run(program, ["1,1,2,2,4,4"], ["--report", "-"], data)
    cases.count("a report needs a name", said == (b"", "fault words", 1) and all_lines[1] == "--report needs the name of a file", str(all_lines[:2]))


def by_moved(cases, program):
    """The report has the places of the output: after flips, turns, a crop or a border all its rectangles are black there."""
    data = video("mono")
    for words, size, keeps in (
        ("flip rows", (13, 9), True), ("flip columns", (13, 9), True), ("turn half", (13, 9), True), ("2..5 flip columns 4.. flip rows", (13, 9), True),
        ("turn right", (9, 13), True), ("turn left", (9, 13), True), ("flip rows turn left", (9, 13), True), ("pad 3,2,1,4 99", (17, 15), True), ("crop 2,1,7,5", (7, 5), False),
        ("flip columns crop 4,2,9,7", (9, 7), False), ("cover 0,0,3,2+0 flip columns cover 0,0,3,2+0", (13, 9), True),
    ):  # fmt: skip
        with tempfile.TemporaryDirectory() as room:
            (pathlib.Path(room) / "boxes.txt").write_text("".join(f"{it},1,{it},1,3,2\n" for it in range(1, 9)))
            listed = ["--boxes", f"{room}/boxes.txt", "--margin", "0"]
            out, said, status = ends(program, [*listed, "--report", f"{room}/report.csv", *words.split()], data)
            ends(program, [*listed, "--report", f"{room}/plain.csv", *(words.split() if words.startswith("cover") else [])], data)
            rows, plain = ([[int(it) for it in row.split(",")] for row in (pathlib.Path(room) / it).read_text().splitlines()] for it in ("report.csv", "plain.csv"))
        start, cells = out.index(b"\n") + 1, size[0] * size[1]
        frames = [out[at + 6:at + 6 + cells] for at in range(start, len(out), 6 + cells)]
        wrong = [row for row in rows if row[1] + row[3] > size[0] or row[2] + row[4] > size[1] or any(frames[row[0] - 1][y * size[0] + x] != 16 for y in range(row[2], row[2] + row[4]) for x in range(row[1], row[1] + row[3]))]
        areas = [sum(row[3] * row[4] for row in it) for it in (rows, plain)]
        cases.count(f"the report has the places of the output after {words}", status == 0 and rows and not wrong and (areas[0] == areas[1] if keeps else areas[0] < areas[1]), f"{said} {wrong[:5]} {areas}")


def by_edges(cases, program):
    """Boxes whose edges are at, just before and just after a pixel's edge."""
    parts = ("0", "0.00000000000000000001", "0.5", "0.99999999999999999999", "1", "1.00000000000000000001")
    lines = [f"{at % 12 + 1},{at},{sign}{left},{top},{width},{height}" for at, (sign, left, top, width, height) in enumerate((sign, left, top, width, height) for sign in ("", "-", "1", "-1") for left in parts for top in ("2", "-0.5") for width in parts for height in ("1.5", "0"))]
    data = video("mono")
    count_lists(cases, "edges between pixels", [differing(program, data, lines[at:at + 3]) for at in range(0, len(lines), 3)])
    far = ["1,1,4294967295,4294967295,4294967295.99999999999999999999,4294967295", "2,1,-4294967295,-4294967295,4294967295.99999999999999999999,4294967295.5", "3,1,-4294967295,0,4294967295,4"]
    count_lists(cases, "the greatest numbers", [differing(program, data, far)])


def by_form(cases, program):
    data, lines = video("420jpeg"), tracks(random.Random(9), TEXTS["two digits"])
    six = [",".join(it.split(",")[:6]) for it in lines]
    for name, written, ending in (
        ("carriage returns", six, "\r\n"),
        ("empty lines, white space and comments", [f"\t {it.replace(',', ', ')}\n \t \n\n# a comment, 1,2,3" for it in six], "\n"),
        ("comments after boxes", [f"{it},# face" for it in six], "\n"),
        ("comments after fields", [f"{it}# face" if at % 2 else f"{it} \t # 1,2,3" for at, it in enumerate(six)], "\n"),
        ("white space at the ends of lines", [f"{it} \t" for it in six], "\n"),
        ("white space before carriage returns", [f"{it}\t " for it in six], "\r\n"),
        ("more fields", [f"{it},x,,nothing at all" for it in six], "\n"),
        ("identities with a sign and a fraction", [it.replace(",", ",-", 1) for it in six], "\n"),
    ):
        count_lists(cases, f"{name} change nothing", [differing(program, data, lines, ending=ending, written=written)])
    for words in ("mosaic 0,0,13,9 2,2", "move 0,0,8,8 4,0 fill 4,0,2,2 9", "3..5 fill 0,0,4,4 200 crop 2,2,6,6", "pad 2,2,2,2 9", "cover 0,0,2,2 99"):
        count_lists(cases, f"boxes come before '{words}'", [differing(program, data, lines, words.split())])
        with tempfile.NamedTemporaryFile("w", suffix=".edits") as listed:
            listed.write("\n".join(" ".join(it) for it in ([] if words.startswith("move") else [words.split()] if "crop" not in words else [words.split()[:4], words.split()[4:]])))
            listed.flush()
            if listed.tell():
                said, _ = run(program, lines, ["--edits", listed.name], data)
                cases.count(f"and before a file with '{words}'", without_note(*said) == by_model(data, lines, words.split()), str(said[1:]))


def by_faults(cases, program):
    data = video("mono")
    for line, reason in REFUSED:
        said, all_lines = run(program, ["1,1,2,2,4,4", "", line], ["fill", "0,0,1,1", "9"], data)
        cases.count(f"'{line}' is refused with its line", said == (b"", "fault words", 1) and f"at line 3 of the boxes: {reason}" in all_lines[1], str(all_lines[:2]))
    for lines in ([], ["", " ", "# 1,1,2,2,4,4"]):
        for words in ([], ["fill", "0,0,1,1", "9"]):
            said, all_lines = run(program, lines, words, data)
            cases.count(f"a list with no box is refused: {lines} {words}", said == (b"", "fault words", 1) and "no box" in all_lines[1], str(all_lines[:2]))
    said = lines_said(program, ["--boxes", "/nowhere"], data)
    cases.count("a list that can't be read is refused", said[:2] == ["fault words", "the boxes file /nowhere can't be read: No such file or directory (os error 2)"], str(said[:2]))
    for words in (["--boxes", "-"], ["--boxes", "-", "--edits", "-", "-i", "/dev/null"]):
        said = lines_said(program, words, data)
        cases.count(f"{' '.join(words)} would read standard input twice", said[0] == "fault words" and "standard input" in said[1], str(said[:2]))


def by_odd_lists(cases, program):
    """Lists that look as if they were meant otherwise are noted, and name the script."""
    data = video("mono", frames=30)
    for lines, note in (
        (["1,1,0.25,0.5,0.1,0.2", "2,1,0,0,1,1.0"], "note: all boxes are from 0 to 1, and are read as pixels: imgref-boxes --size"),
        (["11,1,2,2,4,4", "30,1,2,2,4,4"], "note: the first box is in frame 11 of the list: imgref-boxes --first-frame"),
    ):
        said, all_lines = run(program, lines, [], data)
        cases.count(f"{lines[0]} is noted", said[2] == 0 and any(it.startswith(note) for it in all_lines), str(all_lines[:3]))
        said, all_lines = run(program, [lines[0].replace("11,", "10,"), *lines[1:], "12,1,2,2,4,4"], [], data)
        cases.count(f"{lines[0]} beside another box is not", said[2] == 0 and not any("imgref-boxes" in it for it in all_lines), str(all_lines[:3]))


def by_notes(cases, program):
    """A box wholly outside, and one of a frame that there isn't, are noted by their lines."""
    data = video("mono")
    inside = "1,1,2,2,4,4"
    for line in ("3,1,-9,2,4,4", "3,1,2,-9,4,4", "3,1,-6,2,4,4", "3,1,15,2,4,4", "3,1,2,11,4,4", "3,1,2,4294967295,4,4"):
        said, all_lines = run(program, [inside, "# comment", line], [], data)
        cases.count(f"'{line}' is noted", said[2] == 0 and all_lines[0] == "note: line 3 of the boxes: it covers nothing in frame 3 of the list, which has 13 by 9 pixels", str(all_lines[:2]))
        said, all_lines = run(program, [inside, "# comment", line], ["--strict", "fill", "0,0,1,1", "9"], data)
        cases.count(f"'{line}' is a fault where asked", said[1:] == ("fault cover", 9) and all_lines[1].startswith("line 3 of the boxes: it covers nothing"), str(all_lines[:2]))
    said, all_lines = run(program, [inside, "", "13,1,2,2,4,4"], [], data)
    cases.count("a box after the last frame is noted", said[2] == 0 and all_lines[0] == "note: line 3 of the boxes: the input has 12 frames, and ends before frame 13 of the list", str(all_lines[:2]))
    said, all_lines = run(program, [inside, "", "13,1,2,2,4,4"], ["--strict"], data)
    cases.count("and is a fault where asked", said[1:] == ("fault range", 8), str(all_lines[:2]))
    said, all_lines = run(program, ["13,1,2,2,4,4", "5,1,-9,2,4,4", "", inside, "5,2,-9,3,4,4"], [], data)
    cases.count("lines that aren't in the order of their frames keep their numbers", [it.split(":")[1] for it in all_lines[:3]] == [" line 2 of the boxes", " line 5 of the boxes", " line 1 of the boxes"], str(all_lines[:4]))
    for words, reason in (("fill 0,0,14,1 9", "edit 1: it reaches outside the frame"), ("20..30 fill 0,0,1,1 9", "note: edit 1: the input has 12 frames"), ("5..5 fill 0,0,1,1 9", "edit 1: its range has no frame"), ("2..4 cover 20,20,1,1", "note: edit 1: it covers nothing in frame 2")):
        said, all_lines = run(program, [inside, inside], words.split(), data)
        cases.count(f"beside boxes '{words}' keeps its number", any(it.startswith(reason) for it in all_lines), str(all_lines[:3]))
        with tempfile.NamedTemporaryFile("w", suffix=".edits") as listed:
            listed.write(f"# edits\n{words}\n")
            listed.flush()
            said, all_lines = run(program, [inside, inside], ["--edits", listed.name], data)
        cases.count(f"and its line of a file: {words}", any(it.startswith(reason.replace("edit 1", "line 2")) for it in all_lines), str(all_lines[:3]))


def main():
    cases = Cases()
    for program in both_builds(cases, "imgref_frames"):
        by_tracks(cases, str(program))
        by_margin(cases, str(program))
        by_styles(cases, str(program))
        by_bare_frames(cases, str(program))
        by_report(cases, str(program))
        by_edges(cases, str(program))
        by_form(cases, str(program))
        by_faults(cases, str(program))
        by_odd_lists(cases, str(program))
        by_notes(cases, str(program))
    return cases.end()


if __name__ == "__main__":
    sys.exit(main())
