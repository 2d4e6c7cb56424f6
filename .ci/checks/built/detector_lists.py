#!/usr/bin/env python3
"""Shows that examples/boxes.py reads the lists of detectors, and refuses what could be meant in two ways.

A list that is written is read by imgref_frames too, and covers what the strict lines of the case say.
"""
import pathlib
import pstats
import subprocess
import sys
import tempfile

sys.path.insert(0, str(pathlib.Path(__file__).resolve().parents[2]))
from checking import ROOT, Cases, both_builds
from tries import y4m

# The same two boxes, which most of the lists have.
BOXES = "1,7,10,20,30,40\n3,7,12.5,20,30,40.25\n"
ALONE = BOXES.replace(",7,", ",-1,")
FULL = "1,7,480,270,960,540\n2,7,480,270,960,540\n"
# What is given, and what is written. Several files have their names.
READ = {
    "a header with corners": ("", "frame,id,x1,y1,x2,y2\n1,7,10,20,40,60\n3,7,12.5,20,42.5,60.25\n", BOXES),
    "a header with sizes": ("", "frame,id,left,top,width,height\n1,7,10,20,30,40\n3,7,12.5,20,30,40.25\n", BOXES),
    "a header with centres": ("", "frame,id,x_center,y_center,width,height\n1,7,25,40,30,40\n3,7,27.5,40.125,30,40.25\n", BOXES),
    "columns in another order, and more of them": ("", "class,y2,x2,y1,x1,Track ID,frame\nface,60,40,20,10,7,1\nface,60.25,42.5,20,12.5,7,3\n", BOXES),
    "semicolons": ("", "frame;id;x1;y1;x2;y2\n1;7;10;20;40;60\n3;7;12.5;20;42.5;60.25\n", BOXES),
    "tabs": ("", "frame\tid\tx1\ty1\tx2\ty2\n1\t7\t10\t20\t40\t60\n3\t7\t12.5\t20\t42.5\t60.25\n", BOXES),
    "spaces": ("", "frame  id x1 y1 x2  y2\n  1 7 10  20 40 60 \n3 7 12.5 20 42.5 60.25\n", BOXES),
    "commas and spaces": ("", "frame, id, x1, y1, x2, y2\n1, 7, 10, 20, 40, 60\n3, 7, 12.5, 20, 42.5, 60.25\n", BOXES),
    "a mark of UTF-8, lines of Windows, and quotes": ("", '\ufeff"frame","id","x1","y1","x2","y2"\r\n"1","7","10","20","40","60"\r\n3,7,"12.5",20,42.5,60.25\r\n', BOXES),
    "an index of rows, as pandas writes it": ("", ",frame,id,x1,y1,x2,y2\n0,1,7,10,20,40,60\n1,3,7,12.5,20,42.5,60.25\n", BOXES),
    "a header in a comment, as numpy writes it": ("", "# frame id x1 y1 x2 y2\n1.000000e+00 7.0e+00 1.0e+01 2.0e+01 4.0e+01 6.0e+01\n3 7 12.5 20 42.5 60.25\n", BOXES),
    "comments and empty lines": ("", "# by hand\nframe,id,x1,y1,x2,y2\n\n1,7,10,20,40,60\n# here\n3,7,12.5,20,42.5,60.25\n\n", BOXES),
    "numbers in other forms": ("", "frame,id,left,top,width,height\n000001,7.00,1.0e1,+20,30.,040\n3.00,7,12.50,20,3e+1,40.25\n", BOXES),
    "small numbers": ("", "frame,id,left,top,width,height\n1,1,.5,1e-05,5,1e-25\n2,1,-.5,-1e-25,5,5\n", "1,1,0.5,0.00001,5,0.00000000000000000001\n2,1,-0.5,-0.00000000000000000001,5,5.00000000000000000001\n"),
    "no ids": ("", "frame,x1,y1,x2,y2\n1,10,20,40,60\n3,12.5,20,42.5,60.25\n", ALONE),
    "columns by an option": ("--columns frame,id,x1,y1,x2,y2", "1 7 10 20 40 60 0.9\n3 7 12.5 20 42.5 60.25 0.8\n", BOXES),
    "frames from 0": ("--first-frame 0", "frame,id,x1,y1,x2,y2\n0,7,10,20,40,60\n2,7,12.5,20,42.5,60.25\n", BOXES),
    "an index from 0": ("--first-frame 0", "frame_idx,id,x1,y1,x2,y2\n0,7,10,20,40,60\n2,7,12.5,20,42.5,60.25\n", BOXES),
    "scores by a name": ("--min-score 0.5", "frame,id,x1,y1,x2,y2,conf\n1,7,10,20,40,60,0.5\n2,8,1,2,3,4,0.49\n3,7,12.5,20,42.5,60.25,.9\n", BOXES),
    "scores by a number": ("--min-score 5e-1 --score 7 --columns frame,id,x1,y1,x2,y2", "1,7,10,20,40,60,0.5\n2,8,1,2,3,4,0.49\n3,7,12.5,20,42.5,60.25,.9\n", BOXES),
    "scores by another name": ("--min-score 0.5 --score p", "frame,id,x1,y1,x2,y2,p\n1,7,10,20,40,60,0.5\n2,8,1,2,3,4,0.49\n3,7,12.5,20,42.5,60.25,.9\n", BOXES),
    "coordinates from 0 to 1": ("--size 1920x1080", "frame,id,x1,y1,x2,y2\n1,7,0.25,.25,0.75,0.75\n2,7,2.5e-1,0.25,0.75,7.5e-1\n", FULL),
    # The forms of the tools themselves.
    "MOTChallenge": ("", "1,7,10,20,30,40,-1,-1,-1,-1\n3,7,12.5,20,30,40.25,0.5,-1,-1,-1\n", BOXES),
    "MOTChallenge, in the form of detections": ("", "1,-1,10.000,20.000,30.000,40.000,64.56,-1,-1,-1\n3,-1,12.500,20.000,30.000,40.250,6.5,-1,-1,-1\n", ALONE),
    "MOTChallenge's ground truth": ("--columns frame,id,left,top,width,height", "1,7,10,20,30,40,1,1,0.86\n3,7,12.5,20,30,40.25,1,1,0.8\n", BOXES),
    "ByteTrack": ("", "1,7,10.00,20.00,30.00,40.00,0.91,-1,-1,-1\n3,7,12.50,20.00,30.00,40.25,0.88,-1,-1,-1\n", BOXES),
    "ByteTrack's demo, which counts from 0": ("--first-frame 0", "0,7.0,10.00,20.00,30.00,40.00,0.91,-1,-1,-1\n2,7.0,12.50,20.00,30.00,40.25,0.88,-1,-1,-1\n", BOXES),
    "StrongSORT": ("", "1,7,10.00,20.00,30.00,40.00,1,-1,-1,-1\n3,7,12.50,20.00,30.00,40.25,1,-1,-1,-1\n", BOXES),
    "StrongSORT's script for YOLO": ("--columns frame,id,left,top,width,height", "1 7 10 20 30 40 -1 -1 -1 0 \n3 7 12.5 20 30 40.25 -1 -1 -1 0 \n", BOXES),
    "KITTI, from 0": ("--first-frame 0", "0 7 Pedestrian 0 0 -1.57 10.000000 20.000000 40.000000 60.000000 1.7 0.6 0.8 -1 1.5 9.2 0.1\n2 7 Car -1 -1 -10 12.5 20 42.5 60.25 -1 -1 -1 -1000 -1000 -1000 -10\n", BOXES),
    "KITTI with scores": ("--first-frame 0 --min-score 0.5", "0 7 Car -1 -1 -10 10 20 40 60 -1 -1 -1 -1000 -1000 -1000 -10 0.9\n2 7 Car -1 -1 -10 12.5 20 42.5 60.25 -1 -1 -1 -1000 -1000 -1000 -10 0.6\n2 7 Car -1 -1 -10 1 2 4 6 -1 -1 -1 -1000 -1000 -1000 -10 0.4\n", BOXES),
    "KITTI, a file for each frame": ("--first-frame 0", {"000000.txt": "Car 0 0 1.5 10 20 40 60 1 1 1 1 1 1 1\n", "000001.txt": "", "000002.txt": "Car 0 0 1.5 12.5 20 42.5 60.25 1 1 1 1 1 1 1\n"}, ALONE),
    "Ultralytics save_txt": ("--size 1920x1080", {"clip_1.txt": "0 0.5 0.5 0.5 0.5\n", "clip_2.txt": "0 0.5 0.5 0.5 0.5\n"}, FULL.replace(",7,", ",-1,")),
    "Ultralytics save_txt of tracks": ("--size 1920x1080 --columns class,x_center,y_center,width,height,id", {"clip_1.txt": "0 0.5 0.5 0.5 0.5 7\n", "clip_2.txt": "0 0.5 0.5 0.5 0.5 7\n"}, FULL),
    "Ultralytics save_txt with scores": ("--size 1920x1080 --columns class,x_center,y_center,width,height,score --min-score 0.25", {"clip_1.txt": "0 0.5 0.5 0.5 0.5 0.9\n0 0.1 0.1 0.1 0.1 0.2\n", "clip_2.txt": "0 0.5 0.5 0.5 0.5 0.25\n"}, FULL.replace(",7,", ",-1,")),
    "Ultralytics frames in the order of their numbers": ("--size 8x8", {f"clip_{it}.txt": "0 0.5 0.5 0.5 0.5\n" for it in (10, 9)}, "9,-1,2,2,4,4\n10,-1,2,2,4,4\n"),
}
HEADER = "frame,id,x1,y1,x2,y2\n"
# What is given, and what is said. Nothing is written.
REFUSED = {
    "corners or sizes": ("", "1,7,10,20,30,40\n", "line 1: no line names the columns, and corners, sizes or centres could be meant: name them by --columns, as frame,id,left,top,width,height"),
    "corners or sizes, with a score": ("", "1,7,10,20,30,40,0.9\n", "could be meant"),
    "x and y": ("", "frame,id,x,y,w,h\n1,7,10,20,30,40\n", "x and y may be a corner or the centre: name them by --columns"),
    "an index of frames": ("", "frame_index,id,x1,y1,x2,y2\n1,7,10,20,40,60\n", "an index of frames may begin at 0 or at 1: say which by --first-frame"),
    "KITTI's frames": ("", "1 7 Car 0 0 1 10 20 40 60 1 1 1 1 1 1 1\n", "say which by --first-frame"),
    "frame 0": ("", f"{HEADER}0,7,10,20,40,60\n", "line 2, column 1: the frame is 0, and frames count from 1: --first-frame 0 says another"),
    "a frame below 0": ("--first-frame 0", f"{HEADER}-1,7,10,20,40,60\n", "line 2, column 1: the frame is -1"),
    "a frame with a fraction": ("", f"{HEADER}1.5,7,10,20,40,60\n", "line 2, column 1: the frame is '1.5', which is no whole number"),
    "an id with a fraction": ("", f"{HEADER}1,7.5,10,20,40,60\n", "line 2, column 2: the id is '7.5', which is no whole number"),
    "an id in words": ("", f"{HEADER}1,anna,10,20,40,60\n", "line 2, column 2: the id is 'anna', which is no number"),
    "no number": ("", f"{HEADER}1,7,10,nan,40,60\n", "line 2, column 4: the top is 'nan', which is no number"),
    "a decimal comma": ("", "frame;id;x1;y1;x2;y2\n1;7;10,5;20;40;60\n", "line 2, column 3: the left is '10,5', which is no number"),
    "spaces within a field": ("", f"{HEADER}1,7,1 0,20,40,60\n", "line 2, column 3: the left is '1 0', which is no number"),
    "an empty field": ("", f"{HEADER}1,7,,20,40,60\n", "line 2, column 3: the left is '', which is no number"),
    "digits of another script": ("", f"{HEADER}1,7,\u0661,20,40,60\n", "line 2, column 3: the left is '\u0661', which is no number"),
    "an empty last field": ("", f"{HEADER}1,7,10,20,40,\n", "line 2, column 6: the field is empty"),
    "a long field": ("", f"{HEADER}1,7,{'9' * 3000}x,20,40,60\n", f"line 2, column 3: the left is '{'9' * 80}' and 2921 characters more, which is no number"),
    "a long line with a size": ("--size 8x8", f"{HEADER}1,7,0.{'1' * 3000},0.2,10,0.6\n", f"line 2: '1,7,0.{'1' * 74}' and 2937 characters more isn't within 0 to 1"),
    "a line with too few fields": ("", f"{HEADER}1,7,10,20,40\n", "line 2: 5 fields, and the first line has 6"),
    "a line with too many fields": ("", f"{HEADER}0,1,7,10,20,40,60\n", "line 2: 7 fields, and the first line has 6"),
    "corners that are sizes": ("", f"{HEADER}1,7,100,20,30,40\n", "line 2, column 5: the right is '30', which is before the box begins: are they sizes?"),
    "a size below 0": ("", "frame,id,left,top,width,height\n1,7,10,20,-30,40\n", "line 2, column 5: the width is '-30', which is no size"),
    "from 0 to 1 without a size": ("", f"{HEADER}1,7,0.1,0.2,0.4,0.6\n", "all boxes are within 0 to 1: give the size of the frame, as --size 1920x1080"),
    "pixels with a size": ("--size 1920x1080", f"{HEADER}1,7,0.1,0.2,0.4,0.6\n2,7,10,20,40,60\n", "line 3: '2,7,10,20,40,60' isn't within 0 to 1, as --size needs it"),
    "YOLO without a size": ("", {"clip_1.txt": "0 0.5 0.5 0.5 0.5\n"}, "give the size of the frame"),
    "YOLO with a score or an id": ("--size 8x8", {"clip_1.txt": "0 0.5 0.5 0.5 0.5 1\n"}, "line 1: no line names the 6 columns: name them by --columns, as class,x_center,y_center,width,height,id or"),
    "YOLO's outlines": ("--size 8x8 --columns class,x_center,y_center,width,height,id", {"clip_1.txt": "0 0.5 0.5 0.5 0.5 0.1 0.1 0.2 0.2\n"}, "line 1: 9 fields, and --columns names 6"),
    "one file of YOLO's": ("--size 8x8 --columns class,x_center,y_center,width,height", "0 0.5 0.5 0.5 0.5\n", "no column names the frame. A folder of files, one for each frame, is given by the folder's name"),
    "a file without a number": ("--size 8x8", {"clip_1.txt": "0 0.5 0.5 0.5 0.5\n", "classes.txt": "face\n"}, "classes.txt: its name ends in no number of a frame"),
    "files of two videos": ("--size 8x8", {"clip_1.txt": "0 0.5 0.5 0.5 0.5\n", "other_2.txt": "0 0.5 0.5 0.5 0.5\n"}, "are of two videos"),
    "two files of one frame": ("--size 8x8", {"clip_1.txt": "0 0.5 0.5 0.5 0.5\n", "clip_01.txt": "0 0.5 0.5 0.5 0.5\n"}, "of "),
    "file 0": ("--size 8x8", {"clip_0.txt": "0 0.5 0.5 0.5 0.5\n"}, "line 1: the frame is 0, and frames count from 1: --first-frame 0 says another"),
    "no score": ("--min-score 0.5", f"{HEADER}1,7,10,20,40,60\n", "no column names the score: give its number, counted from 1, by --score"),
    "a score that is missing": ("--min-score 0.5 --score 7", f"{HEADER}1,7,10,20,40,60\n", "line 2, column 7: the score is missing: the line has 6 fields"),
    "scores that are all too low": ("--min-score 0.5 --score 1", f"{HEADER}1,7,10,20,40,60\n".replace("1,7", "0.25,7").replace("frame", "conf,frame").replace("0.25,7", "0.25,1,7"), "each of the 1 boxes has a score below 0.5"),
    "a wrong name of a column": ("--columns frame,idd,x1,y1,x2,y2", "1,7,10,20,40,60\n", "'idd' is no name of a column. A column that is ignored has the name other"),
    "a header with no box": ("", "frame,id,x1,y1,x2\n1,7,10,20,40\n", "its columns name no box"),
    "two columns of one meaning": ("", "frame,id,x1,left,y1,x2,y2\n1,7,10,10,20,40,60\n", "two columns name the left"),
    "two separators": ("", "1;7;10,5;20;40;60\n", "has several separators: say which one by --separator"),
    "a quote that isn't closed": ("", f'{HEADER}1,7,"10,20,40,60\n', "line 2: "),
    "no box": ("", HEADER, "there is no box"),
    "nothing": ("", "", "there is no box"),
    "a number that is too great": ("", f"{HEADER}1,7,10,20,1e30,60\n", "line 2: the box reaches further than 4294967295"),
    "an endless exponent": ("", f"{HEADER}1,7,10,20,1e99999999,60\n", "the right is '1e99999999', which is no number"),
    "a later line alone": ("", f"{HEADER}1,7,10,20,40,60\n2,7,10,x,40,60\n", "line 3, column 4: the top is 'x', which is no number"),
}


def made(words, given):
    """What the script writes and says of a list, or of a folder of files."""
    with tempfile.TemporaryDirectory() as folder:
        if isinstance(given, dict):
            name = pathlib.Path(folder, "labels")
            name.mkdir()
            for it, text in given.items():
                (name / it).write_text(text)
        else:
            name = pathlib.Path(folder, "list.txt")
            name.write_text(given, newline="")
        done = subprocess.run([sys.executable, ROOT / "examples/boxes.py", *words.split(), name], capture_output=True, text=True, timeout=60)
        return done.stdout, done.stderr, done.returncode


def by_hand(cases):
    for label, (words, given, due) in READ.items():
        out, said, status = made(words, given)
        cases.count(f"{label} is read", (out, status) == (due, 0), f"{out}{said}")
    for label, (words, given, due) in REFUSED.items():
        out, said, status = made(words, given)
        cases.count(f"{label} is refused", out == "" and due in said and status != 0 and "Traceback" not in said, f"{out}{said}")
    for label, text, due in (("UTF-16", HEADER.encode("utf-16"), "UTF-16: save it as UTF-8"), ("another encoding", HEADER.encode() + b"1,7,\xe4,1,1,1\n", "line 2: it is no UTF-8")):
        done = subprocess.run([sys.executable, ROOT / "examples/boxes.py"], input=text, capture_output=True, timeout=60)
        cases.count(f"{label} is refused", not done.stdout and due in done.stderr.decode() and done.returncode == 1, done.stderr.decode())
    for label, words, first, due in (("frame 1 has no box", "", 2, True), ("the first frame has a number", "--first-frame 1", 2, False), ("frame 1 has a box", "", 1, False)):
        said = made(words, f"{HEADER}{first},7,10,20,40,60\n")[1]
        cases.count(f"where {label}, a line {'says' if due else 'need not say'} that frames may count from 0", ("where the list counts frames from 0" in said) == due, said)
    done = subprocess.run([sys.executable, ROOT / "examples/boxes.py", "-"], input=f"# frames 3\n{HEADER}1,7,10,20,40,60\n".encode(), capture_output=True, timeout=60)
    cases.count("the number of frames goes along", done.stdout == b"# frames 3\n1,7,10,20,30,40\n", str(done))


def calls(words):
    """How many calls a script of Python's makes: the same number each time, whatever else the machine does."""
    with tempfile.TemporaryDirectory() as folder:
        told = pathlib.Path(folder, "profile")
        subprocess.run([sys.executable, "-m", "cProfile", "-o", told, *words], check=True, capture_output=True, timeout=300)
        return pstats.Stats(str(told)).total_calls


def by_calls(cases):
    """A list of 20,000 lines takes at most 100 calls a line: with fractions of Python's it took 500."""
    lines = [f"{at // 4 + 1},{at % 4},{at % 1000}.25,{at % 500}.5,{at % 1000 + 30}.75,{at % 500 + 40}.125" for at in range(20000)]
    with tempfile.TemporaryDirectory() as folder:
        name = pathlib.Path(folder, "list.txt")
        name.write_text(HEADER + "\n".join(lines) + "\n")
        made = calls([ROOT / "examples/boxes.py", name])
    cases.count("20,000 lines take at most 100 calls each", made <= 100 * len(lines), f"{made / len(lines):.0f} calls a line")


def by_program(cases, program):
    """The program reads each list that is written, as it reads the strict one."""
    for label, (words, given, due) in READ.items():
        frames = y4m("mono", 64, 64, [bytes([99]) * 4096] * max(int(it.split(",")[0]) for it in due.split()))
        with tempfile.NamedTemporaryFile("w", suffix=".txt") as listed:
            listed.write(made(words, given)[0])
            listed.flush()
            done = subprocess.run([program, "--boxes", listed.name], input=frames, capture_output=True, timeout=60)
        cases.count(f"{label} is read by the program", done.returncode == 0 and done.stdout.count(b"FRAME\n") == frames.count(b"FRAME\n") and (done.stdout != frames or "480" in due), done.stderr.decode())


def main():
    cases = Cases()
    by_hand(cases)
    by_calls(cases)
    for program in both_builds(cases, "imgref_frames")[:1]:
        by_program(cases, program)
    return cases.end()


if __name__ == "__main__":
    sys.exit(main())
