#!/usr/bin/env python3
"""Covers the faces that OpenCV finds in a video, and keeps its sound.

    python3 examples/hide_faces.py in.mp4 out.mp4

That is the recipe of docs/FRAMES.md in one command. It writes three files: the video; out.boxes.txt, the list of what was found; and
out.covers.csv, what was covered in each frame. Look at them by examples/review.py: a detector misses faces. With --people it covers
the people that are found, and not the faces alone. Both times ffmpeg makes the same raw video of the input, so that the frames of the
list are those that are covered. Where their numbers differ, there is no output. Nor is there one where the input is cut off, as
far as examples/whole.py can tell.

Needs ffmpeg and ffprobe, python3-opencv, opencv-data, and imgref_frames in the PATH or built by make frames.
"""
import argparse
import pathlib
import shlex
import shutil
import subprocess
import sys

import whole

HERE = pathlib.Path(__file__).resolve().parent
BUILT = HERE.parent / "crates/imgref_frames/out/imgref_frames"


def parsed():
    parser = argparse.ArgumentParser(description=__doc__, formatter_class=argparse.RawDescriptionHelpFormatter)
    parser.add_argument("input", help="a video of any format that ffmpeg reads")
    parser.add_argument("output", help="the video that is written, such as out.mp4")
    parser.add_argument("--people", action="store_true", help="covers people, by examples/detect_people.py")
    parser.add_argument("--hold", type=int, default=10, metavar="N", help="for how many frames a box is kept where its face is lost: 10")
    parser.add_argument("--margin", type=int, metavar="PX", help="how many pixels around a box are covered too")
    if len(sys.argv) == 1:
        parser.print_help(sys.stderr)
        sys.exit(2)
    return parser.parse_args()


class Failure(Exception):
    """What failed."""


def pipe(*commands, output=subprocess.DEVNULL):
    """Runs commands, each of which reads what the one before writes. Where one fails, that is a Failure once all have ended."""
    started, before = [], subprocess.DEVNULL
    for command in commands[:-1]:
        started.append(subprocess.Popen(command, stdin=before, stdout=subprocess.PIPE))
        before = started[-1].stdout
    started.append(subprocess.Popen(commands[-1], stdin=before, stdout=output))
    for it in started[:-1]:
        # (else a command wouldn't notice that the one after it has ended)
        it.stdout.close()
    failed = [str(command[0]) for it, command in zip(started, commands) if it.wait()]
    if failed:
        raise Failure(f"{' and '.join(failed)} failed")


def hide(options, program, output):
    """Finds what is to be covered, and covers it."""
    boxes, covers = (output.parent / f"{pathlib.Path(options.output).stem}.{it}" for it in ("boxes.txt", "covers.csv"))
    detector = HERE / ("detect_people.py" if options.people else "detect_faces.py")
    raw = ["ffmpeg", "-v", "error", "-i", options.input, "-pix_fmt", "yuv420p", "-f", "yuv4mpegpipe", "-"]
    with open(boxes, "wb") as listed:
        pipe(raw, [sys.executable, detector, "-"], output=listed)
    if not any(it[:1].isdigit() for it in boxes.read_text().splitlines()):
        raise Failure("nothing was found, so nothing would be covered")
    unknown = whole.check(options.input, whole.frames_of(boxes))
    if unknown:
        print(f"hide_faces: {unknown}", file=sys.stderr)
    margin = [] if options.margin is None else ["--margin", str(options.margin)]
    edit = [program, "--strict", "--boxes", boxes, "--hold", str(options.hold), *margin, "--report", covers]
    sound = ["-map", "0:v", "-map", "1:a?", "-map_metadata", "-1", "-map_chapters", "-1", "-c:a", "copy"]
    pipe(raw, edit, ["ffmpeg", "-v", "error", "-y", "-i", "-", "-i", options.input, *sound, output])
    return covers


def main():
    options, program = parsed(), shutil.which("imgref_frames") or BUILT
    output = pathlib.Path(options.output)
    # (the name keeps its ending, by which ffmpeg knows the format)
    part = output.with_stem(f"{output.stem}.part")
    try:
        covers = hide(options, program, part)
        part.replace(output)
    except (OSError, Failure, whole.NotWhole) as why:
        sys.exit(f"hide_faces: {why}")
    finally:
        part.unlink(missing_ok=True)
    shown, review = (shlex.join(map(str, it)) for it in (["ffmpeg", "-i", output, "-f", "yuv4mpegpipe", "-"], ["python3", HERE / "review.py", "-", covers, "sheet.png"]))
    print(f"look at what was covered: {shown} | {review}", file=sys.stderr)


if __name__ == "__main__":
    main()
