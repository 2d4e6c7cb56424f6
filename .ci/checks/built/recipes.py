#!/usr/bin/env python3
"""Shows that the recipes of docs/FRAMES.md that cover what a detector finds leave no pixel of it, and keep the sound in step.

A face is a bright square that moves fast, and below it each frame has its number as dark blocks. ffmpeg makes six kinds of files in
which it doubles or drops frames to make the rate constant. Each recipe runs as the page has it, in bash and in zsh. Only the
detectors of OpenCV are replaced, by one that finds the square. In each file a list of the frames as they are decoded must be refused
by their number, and without this number it leaves the square visible: so the cases would see it.

The build of LLVM is run, since the other checks compare both builds. Where the machine lacks ffmpeg, zsh or a Python with numpy
and PIL, those cases are skipped.
"""
import bisect
import math
import os
import pathlib
import re
import shutil
import subprocess
import sys
import tempfile
from fractions import Fraction

sys.path.insert(0, str(pathlib.Path(__file__).resolve().parents[2]))
from checking import ROOT, Cases, both_builds
from hiding import ffmpeg
from needs import python_with
from tries import grey

WIDTH, HEIGHT, FRAMES, RATE = 192, 128, 180, 30
FACE, BRIGHT, DARK, BACK = 24, 235, 30, 90
# A pixel above it is one of the face, and one below it belongs to a number.
SEEN, DIM = 170, 60
BLOCKS = 112
# A frame may come so many seconds sooner or later: one and a bit.
APART = 1.3 / RATE
# A detector that finds the square, under the names of OpenCV, and its reader of files, which reads each frame as it is decoded.
DETECTOR = '''
import subprocess
import types

import numpy

BORDER_REPLICATE = 1
COLOR_YUV2BGR_I420 = 1
data = types.SimpleNamespace(haarcascades=r"FOLDER")


def square(picture):
    rows, columns = numpy.where(picture.reshape(*picture.shape[:2], -1)[:, :, 0] > 190)
    return numpy.array([[min(columns), min(rows), max(columns) - min(columns) + 1, max(rows) - min(rows) + 1]]) if len(rows) else numpy.zeros((0, 4), int)


class CascadeClassifier:
    def __init__(self, name):
        pass

    def detectMultiScale(self, picture, **options):
        return square(picture)


class HOGDescriptor:
    def setSVMDetector(self, detector):
        pass

    def detectMultiScale(self, picture, **options):
        found = square(picture)
        return found, numpy.ones(len(found))


def HOGDescriptor_getDefaultPeopleDetector():
    return None


def equalizeHist(picture):
    return picture


def flip(picture, axis):
    return picture[:, ::-1]


def copyMakeBorder(picture, above, below, left, right, kind):
    return numpy.pad(picture, ((above, below), (left, right)), mode="edge")


class VideoCapture:
    def __init__(self, name):
        command = ["ffmpeg", "-v", "error", "-i", name, "-vsync", "passthrough", "-pix_fmt", "gray", "-f", "rawvideo", "-"]
        self.rest = subprocess.run(command, capture_output=True).stdout

    def isOpened(self):
        return True

    def read(self):
        size = WIDTH * HEIGHT
        frame, self.rest = self.rest[:size], self.rest[size:]
        return bool(frame), numpy.frombuffer(frame, numpy.uint8).reshape(-1, WIDTH, 1).repeat(3, 2) if frame else None
'''


# What the page says of other ways, as commands.
SOUND = "-map 0:v -map '1:a?' -c:a copy"
BY_FILE = f"""ffmpeg -i in.mp4 in.y4m
python3 examples/detect_faces.py in.y4m > faces.txt
imgref_frames -i in.y4m -o out.y4m --boxes faces.txt --hold 10 --strict
ffmpeg -i out.y4m -i in.mp4 {SOUND} out.mp4"""
BY_COMMAND = "python3 examples/hide_faces.py in.mp4 out.mp4"
PASSED = "ffmpeg -i in.mp4 -vsync passthrough -f yuv4mpegpipe - |"
AS_DECODED = f"""{PASSED} python3 examples/detect_faces.py - > faces.txt
{PASSED} imgref_frames --boxes faces.txt --hold 10 --strict | ffmpeg -i - out.mp4"""


def corner(number):
    """Where the face is in a frame."""
    room, at = WIDTH - FACE, 11 * number
    across = at % (2 * room)
    return min(across, 2 * room - across), int(40 + 36 * math.sin(number / 3))


def picture(number):
    """The brightness of a frame of the source: the face, and its number below."""
    plane, (left, top) = bytearray([BACK]) * (WIDTH * HEIGHT), corner(number)
    for y in range(top, top + FACE):
        plane[y * WIDTH + left:y * WIDTH + left + FACE] = bytes([BRIGHT]) * FACE
    for bit in (it for it in range(8) if number >> it & 1):
        for y in range(BLOCKS, HEIGHT):
            plane[y * WIDTH + FACE * bit:y * WIDTH + FACE * (bit + 1)] = bytes([DARK]) * FACE
    return plane


def made_files(folder):
    """The six kinds of files, by what is special about them."""
    pathlib.Path(folder, "source.y4m").write_bytes(grey(WIDTH, HEIGHT, map(picture, range(FRAMES)), rate=f"{RATE}:1"))
    sound, coded = "-f lavfi -i sine=duration={}", "-c:v libx264 -crf 12 -pix_fmt yuv420p -c:a aac"
    ffmpeg(folder, f"-i source.y4m {sound.format(6)} {coded} -g 30 plain.mp4")
    ffmpeg(folder, f"-i source.y4m {sound.format(4)} -vf trim=end_frame=90,setpts='if(lt(N,60),N/30,2+(N-60)/15)/TB' -vsync passthrough {coded} half.mp4")
    ffmpeg(folder, f"-i source.y4m -vf trim=end_frame=75 {coded} silent.mp4")
    ffmpeg(folder, f"{sound.format(3)} -c:a aac sound.m4a")
    ffmpeg(folder, "-itsoffset 0.43 -i silent.mp4 -i sound.m4a -map 0:v -map 1:a -c copy after.mp4")
    dropped = "+".join(f"eq(n,{it})" for it in (31, 32, 77, 120, 149))
    ffmpeg(folder, f"-i source.y4m {sound.format(6)} -vf select='not({dropped})' -vsync passthrough {coded} phone.mp4")
    ffmpeg(folder, "-ss 0.9 -i plain.mp4 -t 2.3 -c copy clip.mp4")
    ffmpeg(folder, "-i clip.mp4 -c copy clip.mkv")
    pathlib.Path(folder, "clips.txt").write_text("file clip.mp4\nfile half.mp4\n")
    ffmpeg(folder, "-f concat -i clips.txt -c copy clips.mp4")
    ffmpeg(folder, f"-i source.y4m {sound.format(5)} -vf trim=end_frame=150,setpts='N/30/TB+0.012/TB*mod(N,2)' -vsync passthrough {coded} uneven.mkv")
    return {
        "half the rate in a part": "half.mp4",
        "a video that begins after its sound": "after.mp4",
        "a phone's dropped frames": "phone.mp4",
        "clips that were joined by -c copy": "clips.mp4",
        "a clip in mkv": "clip.mkv",
        "mkv with uneven times": "uneven.mkv",
    }


class Shown:
    """What a video shows: the brightness of each frame as it is decoded, and its time from the start of the file."""

    def __init__(self, folder, file):
        options = f"-i {file} -map 0:v -vsync passthrough -enc_time_base 1:10000 -pix_fmt gray -c:v rawvideo"
        rows = [it.split(b",") for it in ffmpeg(folder, f"{options} -f framecrc -").split(b"\n") if it and not it.startswith(b"#")]
        cells, size = ffmpeg(folder, f"{options} -f rawvideo -"), WIDTH * HEIGHT
        self.times = [int(it[2]) / 10000 for it in rows]
        self.frames = [cells[at:at + size] for at in range(0, len(cells), size)]

    def numbers(self):
        """The numbers that are drawn in the frames."""
        row = (BLOCKS + HEIGHT) // 2 * WIDTH
        return [sum((frame[row + FACE * bit + FACE // 2] < DIM) << bit for bit in range(8)) for frame in self.frames]

    def bared(self):
        """In how many frames pixels of a face are visible."""
        return sum(max(it) > SEEN for it in self.frames)


def out_of_step(given, made):
    """The times at which a video shows another frame than the given one does there, or one frame before or after."""
    times, numbers = given.times, given.numbers()
    for time, number in zip(made.times, made.numbers()):
        first = max(0, bisect.bisect_right(times, time - APART) - 1)
        # (before the first frame of the given one there is nothing, and the first frame is doubled)
        if number not in numbers[first:max(1, bisect.bisect_right(times, time + APART))]:
            yield f"{time:.2f} s: {number}"


def sound_of(folder, file):
    """The packets of sound, and when each begins after the start of the file."""
    made = ffmpeg(folder, f"-i {file} -map 0:a -c copy -f framecrc -")
    unit, rows = Fraction(re.search(rb"#tb 0: (\S+)", made)[1].decode()), [it.split(b",") for it in made.split(b"\n") if it and not it.startswith(b"#")]
    return {it[5]: float(int(it[2]) * unit) for it in rows}


def recipes():
    """The recipes of the page with a detector: each block of indented lines."""
    blocks = re.findall(r"(?:^    .*\n)+", (ROOT / "docs/FRAMES.md").read_text(), re.MULTILINE)
    return [block for block in blocks if "examples/detect_" in block]


def room(folder, program, python):
    """Makes what a recipe uses: the program and Python by their names, the examples, and the detector. Returns the environment."""
    tools, cascades = pathlib.Path(folder, "tools"), pathlib.Path(folder, "cascades")
    tools.mkdir()
    cascades.mkdir()
    for name, file in (("imgref_frames", program), ("imgref-boxes", ROOT / "examples/boxes.py")):
        (tools / name).symlink_to(file)
    (tools / "python3").write_text(f'#!/bin/sh\nexec {python} "$@"\n')
    (tools / "python3").chmod(0o755)
    for it in ("frontalface_default", "frontalface_alt2", "profileface"):
        (cascades / f"haarcascade_{it}.xml").touch()
    (tools / "cv2.py").write_text(DETECTOR.replace("FOLDER", str(cascades)).replace("WIDTH", str(WIDTH)).replace("HEIGHT", str(HEIGHT)))
    pathlib.Path(folder, "examples").symlink_to(ROOT / "examples")
    return os.environ | {"PATH": f"{tools}:{os.environ['PATH']}", "PYTHONPATH": str(tools)}


def run(shell, script, folder, environment):
    """Runs a recipe from its beginning: nothing of an earlier one is left."""
    for it in ("out*", "part*", "faces*", "in.y4m"):
        for file in pathlib.Path(folder).glob(it):
            file.unlink()
    return subprocess.run([shell, "-c", f"set -e -o pipefail\n{script}"], cwd=folder, env=environment, capture_output=True, text=True, stdin=subprocess.DEVNULL, timeout=600)


def by_recipe(cases, label, shell, script, folder, environment, is_in_step=True):
    """A recipe covers the face in each frame, and keeps the sound in step where it says so."""
    done, given = run(shell, script, folder, environment), Shown(folder, "in.mp4")
    cases.count(f"{label} goes through", done.returncode == 0, (done.stdout + done.stderr)[-2000:])
    if done.returncode:
        return
    made = Shown(folder, "out.mp4")
    cases.count(f"{label}: the face is in {len(given.frames)} frames, and visible in none of {len(made.frames)}", given.bared() == len(given.frames) and not made.bared(), f"visible in {made.bared()}")
    if not is_in_step:
        return
    wrong = [*out_of_step(given, made)]
    cases.count(f"{label}: each frame comes at its time", made.frames and not wrong, str(wrong))
    if "-i - out.mp4" not in script:
        before, after = sound_of(folder, "in.mp4"), sound_of(folder, "out.mp4")
        late = [abs(after[it] - before[it]) for it in before if it in after]
        cases.count(f"{label}: the sound too", len(late) >= len(before) - 2 and max(late) < APART, f"{len(late)} of {len(before)}, {max(late, default=0):.3f} s apart")


def by_decoded_frames(cases, label, folder, environment):
    """A list of the frames as they are decoded is one of other frames."""
    listed = "ffmpeg -v error -i in.mp4 -vsync passthrough -f yuv4mpegpipe - | python3 examples/detect_faces.py - > decoded.txt"
    edited = "ffmpeg -v error -i in.mp4 -f yuv4mpegpipe - | imgref_frames --boxes {} --hold 10 --strict > out.y4m"
    run("bash", listed, folder, environment)
    text = pathlib.Path(folder, "decoded.txt").read_text()
    pathlib.Path(folder, "bare.txt").write_text("".join(it + "\n" for it in text.splitlines() if re.match(r"\d+,", it)))
    counted = run("bash", edited.format("decoded.txt"), folder, environment)
    cases.count(f"{label}: a list of the decoded frames is refused", counted.returncode != 0 and "fault" in counted.stderr, counted.stderr)
    run("bash", edited.format("bare.txt"), folder, environment)
    bared = Shown(folder, "out.y4m").bared()
    cases.count(f"{label}: without its number of frames it leaves the face visible, in {bared} frames", bared > 0)


def by_container(cases, script, folder, environment):
    """What of a container goes along: no title, not of the sound either, no chapter, no thumbnail and no subtitle."""
    pathlib.Path(folder, "meta.txt").write_text(";FFMETADATA1\ntitle=Anna\ncomment=Anna's party\n[CHAPTER]\nTIMEBASE=1/1000\nSTART=0\nEND=2000\ntitle=Anna speaks\n")
    pathlib.Path(folder, "said.srt").write_text("1\n00:00:00,000 --> 00:00:02,000\nAnna speaks\n")
    ffmpeg(folder, "-i plain.mp4 -frames:v 1 thumb.png")
    ffmpeg(folder, "-i plain.mp4 -i thumb.png -i said.srt -i meta.txt -map 0 -map 1 -map 2 -map_metadata 3 -map_chapters 3 -metadata:s:a:0 handler_name=Anna -c copy -c:s mov_text -disposition:v:1 attached_pic full.mp4")
    shutil.copy(f"{folder}/full.mp4", f"{folder}/in.mp4")
    said = ["ffprobe", "-v", "error", "-show_entries", "stream=codec_type:format_tags:stream_tags:chapter_tags", "-of", "json"]
    before = subprocess.run([*said, "in.mp4"], cwd=folder, capture_output=True, text=True, check=True).stdout
    done = run("bash", script, folder, environment)
    after = subprocess.run([*said, "out.mp4"], cwd=folder, capture_output=True, text=True).stdout
    kinds = re.findall(r'"codec_type": "(\w+)"', after)
    cases.count(f"titles, a chapter, a thumbnail and a subtitle aren't in the output: {script.split()[1]}", before.count("Anna") >= 4 and done.returncode == 0 and "Anna" not in after and kinds == ["video", "audio"] and b"Anna" not in pathlib.Path(folder, "out.mp4").read_bytes(), done.stderr[-2000:] + after)


def by_cut(cases, scripts, folder, environment):
    """A video that is cut off is refused by name, and nothing is made of it."""
    ffmpeg(folder, "-i plain.mp4 -c copy -movflags +faststart front.mp4")
    ffmpeg(folder, "-i plain.mp4 -c copy whole.mkv")
    for file in ("front.mp4", "whole.mkv"):
        data = pathlib.Path(folder, file).read_bytes()
        pathlib.Path(folder, "in.mp4").write_bytes(data[: len(data) // 2])
        for script in scripts:
            done = run("bash", script, folder, environment)
            cases.count(f"half of {file} is refused by name: {script.split()[1]}", done.returncode != 0 and "in.mp4 is cut off" in done.stderr and not pathlib.Path(folder, "out.mp4").exists(), done.stderr[-2000:])


def by_kinds(cases, program, python):
    with tempfile.TemporaryDirectory() as folder:
        environment, found = room(folder, program, python), recipes()
        cases.count(f"the page has recipes with a detector, with sound: {len(found)}", any("1:a" in it for it in found))
        for label, file in made_files(folder).items():
            shutil.copy(f"{folder}/{file}", f"{folder}/in.mp4")
            for number, script in enumerate(found, 1):
                by_recipe(cases, f"recipe {number}, {label}", "bash", script, folder, environment)
            by_decoded_frames(cases, label, folder, environment)
        for number, script in enumerate(found, 1):
            if not cases.lacks(f"recipe {number} in zsh", "zsh", number=4):
                by_recipe(cases, f"recipe {number} in zsh", "zsh", script, folder, environment)
            by_recipe(cases, f"recipe {number} for people", "bash", script.replace("detect_faces", "detect_people"), folder, environment)
        by_recipe(cases, "one command", "bash", BY_COMMAND, folder, environment)
        by_recipe(cases, "the raw video in a file", "bash", BY_FILE, folder, environment)
        by_recipe(cases, "the frames as they are decoded", "bash", AS_DECODED, folder, environment, is_in_step=False)
        for script in found:
            by_recipe(cases, "a recipe twice in a row", "bash", script + script, folder, environment)
        ffmpeg(folder, "-i plain.mp4 -c copy -metadata:s:v rotate=90 in.mp4")
        for script in found:
            by_recipe(cases, "a phone that was held upright", "bash", script, folder, environment, is_in_step=False)
        for script in (*found, BY_COMMAND):
            by_container(cases, script, folder, environment)
        by_cut(cases, (*found, BY_COMMAND), folder, environment)


def main():
    cases, python = Cases(), python_with("numpy, PIL")
    programs = both_builds(cases, "imgref_frames")[:1]
    label, number = "the recipes of docs/FRAMES.md with a detector", 6 * (4 * len(recipes()) + 2)
    if cases.lacks(label, "ffmpeg", "python3-numpy", "python3-pil", number=number):
        return cases.end()
    if not python:
        cases.skip(f"{label}, by one Python", "python3-numpy", "python3-pil", number=number)
        return cases.end()
    for program in programs:
        by_kinds(cases, program, python)
    return cases.end()


if __name__ == "__main__":
    sys.exit(main())
