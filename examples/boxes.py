#!/usr/bin/env python3
"""Writes a detector's boxes as the list that imgref_frames --boxes reads: lines frame,id,left,top,width,height.

    imgref-boxes tracks.csv > boxes.txt
    imgref-boxes --columns frame,id,x1,y1,x2,y2,score --min-score 0.3 found.txt > boxes.txt
    imgref-boxes --size 1920x1080 runs/track/labels > boxes.txt

Fields are separated by commas, semicolons, tabs or spaces. The first line may name the columns; else --columns does, by the same
names. Without both, a list is read as MOTChallenge's where each line ends in -1,-1,-1 as its tenth field, and as KITTI's where a word
is its third (or its first, in a file for each frame). A folder, or several files, are those of YOLO or KITTI: one for each frame, whose
number is at the end of the file's name.

What can't be read for sure is refused, with the file, the line and the field as it is there, and then nothing is written.
"""
import argparse
import csv
import decimal
import gc
import pathlib
import re
import sys

# The names that a column may have in a header, in small letters and with _ between words, by what the column means.
NAMES = {
    "frame": "frame frame_id frame_number frame_no frameid",
    "index": "frame_index frame_idx frameindex frameidx",
    "id": "id track_id trackid track object_id identity tid target_id person_id",
    "left": "left x1 xmin x_min bb_left bbox_left box_left x_left x_top_left bbox_x1",
    "top": "top y1 ymin y_min bb_top bbox_top box_top y_top y_top_left bbox_y1",
    "right": "right x2 xmax x_max bb_right bbox_right box_right x_right bbox_x2",
    "bottom": "bottom y2 ymax y_max bb_bottom bbox_bottom box_bottom y_bottom bbox_y2",
    "width": "width w bb_width bbox_width box_width bbox_w bb_w",
    "height": "height h bb_height bbox_height box_height bbox_h bb_h",
    "centre_x": "x_center x_centre xcenter xcentre center_x centre_x cx xc x_c",
    "centre_y": "y_center y_centre ycenter ycentre center_y centre_y cy yc y_c",
    "score": "score conf confidence prob probability",
    "x": "x bbox_x bb_x",
    "y": "y bbox_y bb_y",
}
# The names by which --columns says that a column is ignored.
IGNORED = {"-", "class", "label", "type", "other"}
MEANING = {name: meaning for meaning, names in NAMES.items() for name in names.split()}
# What a box may be given by, across and down.
FORMS = {"sizes": ("left", "top", "width", "height"), "corners": ("left", "top", "right", "bottom"), "centres": ("centre_x", "centre_y", "width", "height")}
# Lists that have no header, by the names of their columns.
# (KITTI counts frames from 0, and lists that take its form may not: an index is asked for)
MOT = "frame,id,left,top,width,height,score,-,-,-".split(",")
KITTI = "frame_index,id,-,-,-,-,left,top,right,bottom,-,-,-,-,-,-,-,score".split(",")
YOLO = "-,centre_x,centre_y,width,height".split(",")
NUMBER = re.compile(r"[+-]?(?:\d+(?:\.\d*)?|\.\d+)(?:[eE][+-]?\d{1,3})?", re.ASCII)
# What imgref_frames reads: the greatest whole part of a number, the greatest frame, and how many digits a fraction may have.
MOST, LAST, DIGITS = 2**32 - 1, 2**64 - 1, 20
# Numbers of any length, with no digit lost; the last digit that is written; and a half.
decimal.setcontext(decimal.Context(prec=decimal.MAX_PREC, Emax=decimal.MAX_EMAX, Emin=decimal.MIN_EMIN))
UNIT, HALF = decimal.Decimal(1).scaleb(-DIGITS), decimal.Decimal("0.5")
# So many characters of a field are printed.
SHOWN = 80
# The comment that says how many frames the list was made from. It goes along.
COUNT = re.compile(r"# frames \d+")


class Refused(Exception):
    """What can't be read for sure, and why."""


def quoted(text):
    """A field as it is there, and of a long one its beginning."""
    return f"'{text}'" if len(text) <= SHOWN else f"'{text[:SHOWN]}' and {len(text) - SHOWN} characters more"


class Line:
    """A line of a list: where it is, and its fields as they are there. An empty one at its end may be left out."""

    __slots__ = ("file", "number", "fields", "is_open")

    def __init__(self, file, number, fields, is_open=False):
        self.file, self.number, self.fields, self.is_open = file, number, fields, is_open

    def refuse(self, why, column=None):
        place = f"{self.file}, line {self.number}" + (f", column {column + 1}" if column is not None else "")
        raise Refused(f"{place}: {why}")

    def number_at(self, column, name):
        """The number in a column."""
        if column >= len(self.fields):
            self.refuse(f"the {name} is missing: the line has {len(self.fields)} fields", column)
        field = self.fields[column].strip()
        if not NUMBER.fullmatch(field):
            self.refuse(f"the {name} is {quoted(self.fields[column])}, which is no number", column)
        return decimal.Decimal(field)

    def whole_at(self, column, name):
        """The whole number in a column, which may be written as 12.00."""
        if column < len(self.fields) and len(self.fields[column]) < 19 and self.fields[column].isascii() and self.fields[column].isdigit():
            return int(self.fields[column])
        found = self.number_at(column, name)
        if abs(found) > LAST:
            self.refuse(f"the {name} is {quoted(self.fields[column])}, which is above {LAST}", column)
        if found != int(found):
            self.refuse(f"the {name} is {quoted(self.fields[column])}, which is no whole number", column)
        return int(found)


def text_of(file):
    """The text of a file, or of standard input where the name is a hyphen."""
    try:
        data = sys.stdin.buffer.read() if file == "-" else pathlib.Path(file).read_bytes()
    except OSError as why:
        raise Refused(f"{file}: {why.strerror}") from None
    if data[:2] in (b"\xff\xfe", b"\xfe\xff"):
        raise Refused(f"{file} is in UTF-16: save it as UTF-8")
    try:
        return data.decode("utf-8-sig")
    except UnicodeDecodeError as why:
        raise Refused(f"{file}, line {data.count(bytes([10]), 0, why.start) + 1}: it is no UTF-8") from None


def separator(line, asked):
    """What separates the fields of a list, by its first line."""
    if asked:
        return {"comma": ",", "semicolon": ";", "tab": "\t", "space": " "}[asked]
    found = [it for it in ",;\t" if it in line.fields[0]]
    if len(found) > 1:
        line.refuse(f"{quoted(line.fields[0].strip())} has several separators: say which one by --separator")
    return found[0] if found else " "


def fields_of(line, mark):
    """The same line, with its fields."""
    text = line.fields[0].strip(" \r\n") if mark != " " else " ".join(line.fields[0].split())
    if '"' in text:
        try:
            fields = next(csv.reader([text], delimiter=mark, skipinitialspace=True, strict=True))
        except csv.Error as why:
            line.refuse(f"{quoted(line.fields[0].strip())}: {why}")
    else:
        # (as csv reads it, in less time)
        fields = [it.lstrip(" ") for it in text.split(mark)] if " " in text and mark != " " else text.split(mark)
    is_open = len(fields) > 1 and not fields[-1].strip()
    return Line(line.file, line.number, fields[:-1] if is_open else fields, is_open)


def lines_of(file, asked):
    """The lines of a file, and its comments by themselves. A comment that names columns is a header."""
    found, comments, mark = [], [], None
    for number, text in enumerate(re.split(r"\r\n|\n|\r", text_of(file)), 1):
        line = Line(file, number, [text])
        if text.lstrip().startswith("#"):
            named = Line(file, number, [text.lstrip("# \t")])
            header = fields_of(named, separator(named, asked)) if not found else None
            if header and is_header(header) and {"frame", "index"} & set(meanings(header)):
                mark, found = separator(named, asked), [header]
            else:
                comments.append(text.strip())
        elif text.strip():
            mark = mark or separator(line, asked)
            found.append(fields_of(line, mark))
    return found, comments


def is_header(line):
    """Whether a line has words alone: the data of a list has numbers."""
    return not any(NUMBER.fullmatch(it.strip()) for it in line.fields)


def as_name(text):
    """A name of a column, in small letters and with _ between words."""
    return re.sub(r"[\s-]+", "_", text.strip().lower())


def meanings(line):
    """What the columns mean that a line names."""
    return [MEANING.get(as_name(it)) for it in line.fields]


def columns_of(names, options, line):
    """Where each meaning is among the columns of these names. What could be meant in two ways is refused."""
    means = [MEANING.get(as_name(it)) for it in names]
    for it in set(means) - {None}:
        if means.count(it) > 1:
            line.refuse(f"two columns name the {it}")
    columns = {it: at for at, it in enumerate(means) if it}
    if options.score and options.score.isdigit():
        columns["score"] = int(options.score) - 1
    elif options.score:
        if options.score not in names:
            line.refuse(f"no column has the name {quoted(options.score)} of --score")
        columns["score"] = names.index(options.score)
    if options.min_score is not None and "score" not in columns:
        line.refuse("no column names the score: give its number, counted from 1, by --score")
    if "x" in columns or "y" in columns:
        line.refuse("x and y may be a corner or the centre: name them by --columns, as left,top or x_center,y_center")
    if "index" in columns:
        if options.first_frame is None:
            line.refuse("an index of frames may begin at 0 or at 1: say which by --first-frame")
        columns["frame"] = columns.pop("index")
    forms = [it for it in FORMS if set(FORMS[it]) <= set(columns)]
    if not forms:
        line.refuse(f"its columns name no box, such as {' or '.join(','.join(it) for it in FORMS.values())}: name them by --columns")
    columns["form"], columns["numbers"] = forms[0], [(columns[it], it.replace("centre_", "centre's ")) for it in FORMS[forms[0]]]
    return columns


def same_for_all(lines, test):
    return all(test(it.fields) for it in lines)


def is_word(field):
    return re.fullmatch(r"[A-Za-z_]+", field.strip()) is not None


def guessed(lines, is_framed):
    """The columns of a list with no header, where no other list has its form."""
    if is_framed:
        if same_for_all(lines, lambda it: len(it) == 5):
            return YOLO
        if same_for_all(lines, lambda it: len(it) in (15, 16) and is_word(it[0])):
            return KITTI[2:]
        lines[0].refuse(f"no line names the {len(lines[0].fields)} columns: name them by --columns, as class,x_center,y_center,width,height,id or class,x_center,y_center,width,height,score")
    if same_for_all(lines, lambda it: len(it) in (17, 18) and is_word(it[2])):
        return KITTI
    if same_for_all(lines, lambda it: len(it) == 10 and {float(x) if NUMBER.fullmatch(x.strip()) else None for x in it[7:]} == {-1.0}):
        return MOT
    lines[0].refuse("no line names the columns, and corners, sizes or centres could be meant: name them by --columns, as frame,id,left,top,width,height or frame,id,x1,y1,x2,y2")


def read(file, options, frame=None):
    """The boxes of a file, each with its line. With a frame the whole file is about that one."""
    lines, comments = lines_of(file, options.separator)
    if not lines:
        return [], comments
    header, count = lines[0], len(lines[0].fields)
    if is_header(header):
        lines = lines[1:]
        names = options.columns or [it.strip() for it in header.fields]
    else:
        names = options.columns or guessed(lines, frame is not None)
    wrong = next((it for it in lines if len(it.fields) != count), None)
    if wrong and wrong.is_open and len(wrong.fields) == count - 1:
        wrong.refuse("the field is empty", count - 1)
    if wrong:
        wrong.refuse(f"{len(wrong.fields)} fields, and the first line has {count}")
    if options.columns and (len(names) > count or frame is not None and len(names) < count):
        header.refuse(f"{count} fields, and --columns names {len(names)}")
    columns = columns_of(names, options, header)
    if frame is None and "frame" not in columns:
        raise Refused(f"{file}: no column names the frame. A folder of files, one for each frame, is given by the folder's name")
    return [box_of(it, columns, options, frame) for it in lines], comments


class Box:
    """A box: its line, its frame and its id, its edges, and its score where that is asked for."""

    __slots__ = ("line", "frame", "name", "edges", "score")

    def __init__(self, line, frame, name, edges, score):
        self.line, self.frame, self.name, self.edges, self.score = line, frame, name, edges, score


def box_of(line, columns, options, frame):
    """The box of a line."""
    first = 1 if options.first_frame is None else options.first_frame
    at = line.whole_at(columns["frame"], "frame") if frame is None else frame
    if at < first:
        line.refuse(f"the frame is {at}, and frames count from {first}: --first-frame {max(at, 0)} says another" if at >= 0 else f"the frame is {at}", columns.get("frame"))
    name = line.whole_at(columns["id"], "id") if "id" in columns else -1
    if abs(name) > MOST:
        line.refuse(f"the id is {name}, and at most {MOST}", columns["id"])
    numbers = [line.number_at(at, name) for at, name in columns["numbers"]]
    score = line.number_at(columns["score"], "score") if options.min_score is not None else None
    return Box(line, at - first + 1, name, edges_of(line, columns, numbers), score)


def edges_of(line, columns, numbers):
    """The left, the top, the right and the bottom."""
    one, two, three, four = numbers
    names = FORMS[columns["form"]]
    if columns["form"] == "corners":
        for first, last, name in ((one, three, "right"), (two, four, "bottom")):
            if last < first:
                line.refuse(f"the {name} is {quoted(line.fields[columns[name]])}, which is before the box begins: are they sizes?", columns[name])
        return one, two, three, four
    for size, name in ((three, "width"), (four, "height")):
        if size < 0:
            line.refuse(f"the {name} is {quoted(line.fields[columns[name]])}, which is no size", columns[name])
    if names[0] == "centre_x":
        one, two = one - three * HALF, two - four * HALF
    return one, two, one + three, two + four


def placed(value, way):
    """A number as it is written, and its digits. One that needs too many is rounded, so that a box never loses anything."""
    text = str(value)
    if len(text) > DIGITS or "E" in text:
        value = value.quantize(UNIT, way)
        text = f"{value:f}"
    if "." in text:
        text = text.rstrip("0").rstrip(".")
    return value, "0" if text == "-0" else text


def written(box, size):
    """The line of a box."""
    left, top, right, bottom = box.edges
    if size:
        left, top, right, bottom = left * size[0], top * size[1], right * size[0], bottom * size[1]
    # (a number that is far greater may have many digits, and isn't made)
    if max(abs(left), abs(top), abs(right), abs(bottom)) < 2 * MOST + 2:
        (left, column), (top, row) = placed(left, decimal.ROUND_FLOOR), placed(top, decimal.ROUND_FLOOR)
        (wide, width), (high, height) = placed(right - left, decimal.ROUND_CEILING), placed(bottom - top, decimal.ROUND_CEILING)
        if max(abs(left), abs(top), wide, high) < MOST + 1:
            return f"{box.frame},{box.name},{column},{row},{width},{height}"
    box.line.refuse(f"the box reaches further than {MOST}")


def checked(boxes, size):
    """Refuses coordinates from 0 to 1 without a size, and pixels with one."""
    if not size and all(-1 <= it <= 2 for box in boxes for it in box.edges):
        raise Refused(f"{boxes[0].line.file}: all boxes are within 0 to 1: give the size of the frame, as --size 1920x1080")
    wrong = next((box for box in boxes if size and not all(-1 <= it <= 2 for it in box.edges)), None)
    if wrong:
        wrong.line.refuse(f"{quoted(','.join(wrong.line.fields))} isn't within 0 to 1, as --size needs it")


def framed(files):
    """The frame of each file, by the digits at the end of its name."""
    found = {}
    for file in files:
        name = re.fullmatch(r"(.*?)(\d+)", file.stem, re.DOTALL | re.ASCII)
        if not name:
            raise Refused(f"{file}: its name ends in no number of a frame")
        other = next(iter(found.values()), (None, name[1]))
        if other[1] != name[1]:
            raise Refused(f"{file} and {other[0]} are of two videos: their names differ before the number")
        if int(name[2]) in found:
            raise Refused(f"{file} and {found[int(name[2])][0]} are of one frame")
        found[int(name[2])] = file, name[1]
    return {frame: found[frame][0] for frame in sorted(found)}


def all_boxes(options):
    """The boxes of the files, and the comments."""
    names = options.files or ["-"]
    if len(names) == 1 and not pathlib.Path(names[0]).is_dir():
        return read(names[0], options)
    files = sorted(it for name in names for it in (pathlib.Path(name).glob("*.txt") if pathlib.Path(name).is_dir() else [pathlib.Path(name)]))
    boxes, comments = [], []
    for frame, file in framed(files).items():
        found, said = read(file, options, frame)
        boxes, comments = boxes + found, comments + said
    return boxes, comments


def size_of(text):
    """A width and a height, as 1920x1080."""
    found = re.fullmatch(r"([1-9]\d{0,9})[xX]([1-9]\d{0,9})", text)
    if not found:
        raise argparse.ArgumentTypeError(f"'{text}' is no size such as 1920x1080")
    return int(found[1]), int(found[2])


def names_of(text):
    """The names of --columns. A wrong one is no column that is ignored."""
    names = [it.strip() for it in text.split(",")]
    wrong = next((it for it in names if as_name(it) not in MEANING and as_name(it) not in IGNORED), None)
    if wrong is not None:
        raise argparse.ArgumentTypeError(f"'{wrong}' is no name of a column. A column that is ignored has the name other")
    return names


def score_of(text):
    if not NUMBER.fullmatch(text):
        raise argparse.ArgumentTypeError(f"{quoted(text)} is no number")
    return decimal.Decimal(text)


def parsed(words):
    parser = argparse.ArgumentParser(prog=pathlib.Path(sys.argv[0]).name, description=__doc__, formatter_class=argparse.RawDescriptionHelpFormatter)
    parser.add_argument("files", nargs="*", metavar="FILE", help="a list; or a folder or several files, one for each frame; without it standard input")
    parser.add_argument("--columns", type=names_of, metavar="NAMES", help="what the columns are, as frame,id,x1,y1,x2,y2,score")
    parser.add_argument("--first-frame", type=int, metavar="N", help="the number that the list gives to the first frame: 0, or 1 without this option")
    parser.add_argument("--size", type=size_of, metavar="WxH", help="the size of a frame, for coordinates from 0 to 1")
    parser.add_argument("--min-score", type=score_of, metavar="S", help="leaves out the boxes with a lower score")
    parser.add_argument("--score", metavar="COLUMN", help="the column of the score, by its number from 1 on or by its name in the header")
    parser.add_argument("--separator", choices=["comma", "semicolon", "tab", "space"], help="what separates the fields, where a line has several")
    options = parser.parse_args(words)
    if not options.files and sys.stdin.isatty():
        parser.print_help(sys.stderr)
        sys.exit(2)
    return options


def main(words):
    options = parsed(words)
    boxes, comments = all_boxes(options)
    if not boxes:
        raise Refused("there is no box")
    checked(boxes, options.size)
    kept = [it for it in boxes if options.min_score is None or it.score >= options.min_score]
    if not kept:
        raise Refused(f"each of the {len(boxes)} boxes has a score below {float(options.min_score)}")
    made = [written(it, options.size) for it in kept]
    print("\n".join([*filter(COUNT.fullmatch, comments), *made]))
    if all(it.name < 0 for it in kept):
        print("no box has an id: each is a track of its own, and --hold fills no gap between two", file=sys.stderr)
    frames = {it.frame for it in kept}
    if options.first_frame is None and min(it.frame for it in boxes) > 1:
        print("no box is in frame 1: where the list counts frames from 0, give --first-frame 0", file=sys.stderr)
    print(f"{len(kept)} of {len(boxes)} boxes, in {len(frames)} frames from {min(frames)} to {max(frames)}, counted from 1", file=sys.stderr)


if __name__ == "__main__":
    # (no object refers to itself: looking for such takes a third of the time)
    gc.disable()
    try:
        main(sys.argv[1:])
    except Refused as why:
        sys.exit(f"imgref-boxes: {why}")
