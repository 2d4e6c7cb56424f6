"""The words of imgref-hide, and its status."""
import argparse
import os
import pathlib
import re
import sys

from . import lists, places, record, running
from .running import Failure, Interrupted, Progress, Signals

ABOUT = """Hides the faces in a video, and keeps its sound.

    imgref-hide in.mp4 out.mp4
    imgref-hide in.mp4 out.mp4 --again --also '80..120 cover 64,48,32,40'
    imgref-hide videos/ hidden/ --jobs 4

Beside out.mp4 come out.sheet.png, a picture of what was covered: look at it, since detectors miss faces; out.boxes.txt, the list of
what was found; and out.covers.csv, what was covered in each frame. What fails leaves none of them.
The guide is HIDE.md in share/doc/imgref, /usr/share/doc/imgref-tools, or docs of the sources.
"""
MORE = """The status is 0 where the output is written, 1 where something failed, and 2 for wrong words. A missed face doesn't change it. After
a signal it is 128 and its number.
What is covered is done by imgref_frames, whose output is proved to reveal nothing of it. No proof knows of a face that was missed.
"""


def whole(least, most=2**31):
    def read(text):
        if not re.fullmatch(r"\d{1,10}", text) or not least <= int(text) <= most:
            raise argparse.ArgumentTypeError(f"'{text}' is no whole number {'from ' + str(least) + (f' to {most}' if most < 2**31 else ' on')}")
        return int(text)

    return read


def margin(text):
    try:
        lists.margin_of(text)
    except ValueError:
        raise argparse.ArgumentTypeError(f"'{text}' is no margin such as 20% or 8") from None
    return text


def score(text):
    if not re.fullmatch(r"-?\d{1,9}(\.\d{1,9})?", text):
        raise argparse.ArgumentTypeError(f"'{text}' is no number")
    return text


def text(name):
    """A word that isn't empty."""

    def read(it):
        if not it.strip():
            raise argparse.ArgumentTypeError(f"it is empty, and no {name}")
        return it

    return read


def parser():
    made = argparse.ArgumentParser(prog="imgref-hide", description=ABOUT, epilog=MORE, formatter_class=argparse.RawDescriptionHelpFormatter, allow_abbrev=False)
    made.add_argument("input", type=pathlib.Path, metavar="IN", help="a video of any format that ffmpeg reads, or a folder of them")
    made.add_argument("output", type=pathlib.Path, metavar="OUT", help="the video that is written: .mp4, .m4v, .mov, .mkv or .webm; or a folder")
    found = made.add_argument_group("what is found")
    found.add_argument("--find", choices=["faces", "people", "both"], default="faces", help="what is hidden: faces, without this option; whole standing people; or both")
    found.add_argument("--least", type=whole(8, 10000), default=40, metavar="PX", help="the least width of a face that is to be found, in pixels: 40. A greater one is faster")
    found.add_argument("--every", type=whole(1, 1000), default=3, metavar="N", help="looks at each N-th frame: 3")
    found.add_argument("--model", type=pathlib.Path, metavar="FILE", help="a model for OpenCV's FaceDetectorYN, in the place of its cascades")
    found.add_argument("--detector", type=text("command"), metavar="COMMAND", help="a command that reads raw video (YUV4MPEG2) and prints a list in a form that imgref-boxes knows")
    found.add_argument("--list", type=pathlib.Path, metavar="PATH", help="a list that is there, a file or a folder of files, one a frame; with --detector what the command writes")
    found.add_argument("--min-score", type=score, metavar="S", help="leaves out what has a lower score")
    for name, about in (("columns", "what the columns of a list are, as frame,id,x1,y1,x2,y2,score"), ("score", "the column of the score"), ("separator", "comma, semicolon, tab or space")):
        found.add_argument(f"--{name}", metavar=name.upper(), help=f"{about}: as for imgref-boxes")
    found.add_argument("--first-frame", type=whole(0, 1), metavar="N", help="whether a list counts frames from 0 or from 1")
    covered = made.add_argument_group("what is covered")
    covered.add_argument("--margin", type=margin, default="20%", metavar="M", help="what is covered around each box: pixels, or a share of its size, such as 20%%, which is used without this option")
    covered.add_argument("--hold", type=whole(0, 10**6), metavar="N", help="for how many frames a box is kept where it is lost: 10, and at least as --every")
    covered.add_argument("--with", dest="with_edit", type=text("edit"), metavar="EDIT", help="an edit in the place of a cover, as 'fill 128' or 'mosaic 16,16'; a mosaic, means and a blur don't hide all")
    covered.add_argument("--also", action="append", default=[], type=text("edit"), metavar="EDIT", help="covers by hand too, as '80..120 cover L,T,W,H'; may be repeated")
    covered.add_argument("--edits", type=pathlib.Path, metavar="FILE", help="a file of such edits, one on each line")
    covered.add_argument("--again", action="store_true", help="uses the list that is there from an earlier run, and replaces its output")
    made_of = made.add_argument_group("the output")
    made_of.add_argument("--crf", type=whole(0, 63), metavar="N", help="the quality: 18 for H.264, 20 for HEVC, 24 for VP9; lower is better")
    made_of.add_argument("--no-sound", dest="sound", action="store_false", help="leaves out the sound")
    made_of.add_argument("--sheet", type=whole(0, 4000), default=120, metavar="N", help="at most so many frames on the sheet: 120; 0 makes none")
    made_of.add_argument("--log", type=pathlib.Path, metavar="FILE", help="adds a record to a file: versions, command, sums of all files, frames, boxes, faults")
    made_of.add_argument("--force", action="store_true", help="replaces files that are there")
    made_of.add_argument("--damaged", action="store_true", help="goes on where the input is damaged or cut off")
    made_of.add_argument("--ignore-room", action="store_true", help="goes on where the disk may have too little room")
    run = made.add_argument_group("how it runs")
    run.add_argument("--cores", type=whole(1, 1024), metavar="N", help="how many processors work: all. The same number gives the same bytes")
    run.add_argument("--jobs", type=whole(1, 1024), metavar="N", help="how many videos of a folder at a time: 1")
    run.add_argument("--quiet", action="store_true", help="prints only faults")
    made.add_argument("--version", action="store_true", help="prints the version")
    return made


def given(made, options):
    """The options of one video that the user gave, as words."""
    words = []
    for it in made._actions:
        value = getattr(options, it.dest, it.default)
        if not it.option_strings or value == it.default or it.dest in ("jobs", "quiet", "force", "cores", "log"):
            continue
        path = os.path.abspath(value) if isinstance(value, pathlib.Path) else value
        words.append(it.option_strings[0] if it.nargs == 0 else f"{it.option_strings[0]}={path}")
    return words


def parsed(words):
    """The options. What can't go together is refused here."""
    if words == ["--version"]:
        print(places.own_version())
        sys.exit(0)
    if not words:
        parser().print_help(sys.stderr)
        sys.exit(2)
    made = parser()
    options = made.parse_args(words)
    if options.version:
        made.error("--version is given alone")
    if options.again and (options.detector or options.list or options.model):
        made.error("--again uses the list that is there: it takes no --detector, --list or --model")
    if options.model and (options.detector or options.list):
        made.error("--model is for the detectors of OpenCV: it takes no --detector or --list")
    if (options.columns or options.score or options.separator or options.first_frame is not None) and not (options.detector or options.list):
        made.error("--columns, --score, --separator and --first-frame are for the list of --detector or --list")
    if options.hold is not None and options.hold < options.every and not (options.detector or options.list or options.again):
        made.error(f"--hold {options.hold} is less than --every {options.every}: between two frames that are looked at a face would show")
    if options.with_edit and len(options.with_edit.split()) != 2:
        made.error(f"--with takes one edit of two words, as 'fill 128', and not '{options.with_edit}'")
    if any("\n" in it or "#" in it for it in options.also):
        made.error("--also takes one edit, without # and without line feeds")
    options.given = given(made, options)
    options.hold = max(10, options.every) if options.hold is None else options.hold
    options.margin_text, options.margin = options.margin, lists.margin_of(options.margin)
    options.cores_asked, options.cores = options.cores, options.cores or len(os.sched_getaffinity(0))
    options.words = words
    options.is_many = options.input.is_dir()
    if options.jobs and not options.is_many:
        made.error("--jobs is for a folder of videos")
    if options.is_many and (options.list or options.also or options.edits or options.again):
        made.error("--list, --also, --edits and --again are for one video")
    return options


def main(words):
    """Runs the command, and returns its status."""
    os.umask(os.umask(0o077))
    options = parsed(words)
    Signals.catch()
    progress = Progress(options.quiet)
    try:
        if options.is_many:
            from . import many

            return many.hide(options, progress)
        from . import one

        last = one.hide(options, record.Record(["imgref-hide", *words]), progress)
        progress.note(last)
        return 0
    except Interrupted as why:
        progress.say(f"{running.BACK if progress.is_terminal else ''}imgref-hide: {why} came: {'what is done stays' if options.is_many else 'nothing was written'}")
        return 128 + why.number
    except Failure as why:
        progress.say(f"{running.BACK if progress.is_terminal else ''}imgref-hide: {why}")
        return 1
