#!/usr/bin/env python3
"""Shows that what OpenCV finds is covered. A drawn figure walks through a video, and examples/detect_people.py finds it in some of the
frames: with --hold nothing of the figure is left in any frame. examples/detect_faces.py finds a drawn face.

examples/review.py shows the covers, and examples/hide_faces.py does all of it from one file to another. Both builds are run that
`rt ci` leaves. Where no Python of the machine has OpenCV, or where another tool is missing, cases are skipped.
"""
import os
import pathlib
import subprocess
import sys
import tempfile

sys.path.insert(0, str(pathlib.Path(__file__).resolve().parents[2]))
from checking import ROOT, Cases, both_builds
from needs import python_with
from tries import SAMPLINGS, grey, video

WIDTH, HEIGHT, FRAMES = 320, 240, 24
BACK, DARK, BLACK = 200, 40, 16
# The parts of a figure of 8 by 8 units: corners from the middle of its head's top on.
HEAD = ((-0.3, 0), (0.3, 0), (0.45, 0.4), (0.4, 0.9), (0.15, 1.2), (-0.15, 1.2), (-0.4, 0.9), (-0.45, 0.4))
BODY = ((-0.9, 1.4), (0.9, 1.4), (0.7, 4.2), (-0.7, 4.2))
LIMBS = (((0.9, 1.4), (1.2, 1.7), (1.15, 4.2), (0.85, 4.2)), ((0.05, 4.0), (0.7, 4.0), (0.65, 7.9), (0.2, 7.9)))
PARTS = (HEAD, BODY, *LIMBS, *(tuple((-x, y) for x, y in limb) for limb in LIMBS))

# The ellipses of a face: its hair and its skin, and then what makes it a face. Each has its middle and its half sizes, in hundredths
# of the face's size, and its brightness.
SKIN = ((0, -27, 105, 130, 40), (0, 0, 85, 115, 185))
BOTH = ((36, -36, 24, 6, 70), (36, -16, 22, 16, 125), (36, -16, 17, 8, 200), (36, -16, 8, 8, 30), (12, 40, 7, 4, 70))
FEATURES = (*(it for right in BOTH for it in (right, (-right[0], *right[1:]))), (0, 10, 10, 36, 205), (0, 68, 32, 9, 80), (0, 86, 25, 5, 150))


def is_inside(corners, x, y):
    """Whether a point is in a figure with these corners."""
    crossed = False
    for (left, top), (right, bottom) in zip(corners, corners[1:] + corners[:1]):
        if (top > y) != (bottom > y) and x < (right - left) * (y - top) / (bottom - top) + left:
            crossed = not crossed
    return crossed


def figure(middle, top, unit):
    """The pixels of a standing person, as places in a plane."""
    places = ((x, y) for y in range(top, top + 8 * unit) for x in range(middle - 2 * unit, middle + 2 * unit))
    return [y * WIDTH + x for x, y in places if any(is_inside(part, (x - middle) / unit, (y - top) / unit) for part in PARTS)]


def walk():
    """A video of a figure that walks to the right, and the places of the figure in each frame. In three frames it is faint."""
    made, shown = [], []
    for frame in range(FRAMES):
        plane, places = bytearray([BACK]) * (WIDTH * HEIGHT), figure(80 + 6 * frame, 40, 20)
        for at in places:
            plane[at] = BACK - 3 if 9 <= frame < 12 else DARK
        made, shown = [*made, plane], [*shown, places]
    return grey(WIDTH, HEIGHT, made), shown


def ellipse(middle, size, part):
    """The places of an ellipse of a face of this size."""
    across, down, wide, high, _ = (it * size / 100 for it in part)
    left, top = middle[0] + across, middle[1] + down
    rows, columns = range(int(top - high), int(top + high) + 2), range(int(left - wide), int(left + wide) + 2)
    return [y * WIDTH + x for y in rows for x in columns if ((x - left) / wide) ** 2 + ((y - top) / high) ** 2 < 1]


def portrait():
    """A video of a face that moves to the right, and the places of its eyes, brows, nose and mouth in each frame."""
    made, shown = [], []
    for frame in range(FRAMES):
        plane, middle = bytearray([BACK // 2]) * (WIDTH * HEIGHT), (110 + 4 * frame, 125)
        for part in (*SKIN, *FEATURES):
            for at in ellipse(middle, 45, part):
                plane[at] = part[4]
        made.append(plane)
        shown.append([at for part in FEATURES for at in ellipse(middle, 45, part)])
    return grey(WIDTH, HEIGHT, made), shown


def planes(made):
    """The plane of brightness of each frame."""
    size, at, found = WIDTH * HEIGHT, made.index(b"\n") + 1, []
    while at < len(made):
        found.append(made[at + 6 : at + 6 + size])
        at += 6 + size * 3 // 2
    return found


def uncovered(made, shown):
    """The frames in which a pixel of the figure isn't black."""
    return [number for number, (plane, places) in enumerate(zip(planes(made), shown)) if any(plane[at] != BLACK for at in places)]


def by_detector(cases, program, python):
    data, shown = walk()
    with tempfile.TemporaryDirectory() as folder:
        given, listed = pathlib.Path(folder, "in.y4m"), pathlib.Path(folder, "people.txt")
        given.write_bytes(data)
        found = subprocess.run([python, ROOT / "examples/detect_people.py", given], capture_output=True, text=True, timeout=300)
        listed.write_text(found.stdout)
        first, *lines = found.stdout.splitlines()
        frames = {int(line.split(",")[0]) for line in lines}
        cases.count("the list says how many frames the video has", first == f"# frames {FRAMES}", first)
        cases.count("the detector finds the figure in some frames, and misses it in others", 4 < len(frames) < FRAMES, found.stdout + found.stderr)
        plain = subprocess.run([program, "--boxes", listed, "-i", given], capture_output=True, timeout=120)
        cases.count("its boxes cover the figure in their frames alone", uncovered(plain.stdout, shown) == [it for it in range(FRAMES) if it + 1 not in frames], f"{uncovered(plain.stdout, shown)} {sorted(frames)}")
        piped = f"'{python}' '{ROOT}/examples/detect_people.py' '{given}' | '{program}' -i '{given}' --boxes - --hold 8 --strict"
        held = subprocess.run(["bash", "-c", f"set -o pipefail; {piped}"], capture_output=True, timeout=300)
        cases.count("with --hold 8 they cover it in each frame", held.returncode == 0 and len(planes(held.stdout)) == FRAMES and not uncovered(held.stdout, shown), held.stderr.decode())
        before = [plane.count(BLACK) for plane in planes(held.stdout)]
        cases.count("and leave most of each frame", all(it < WIDTH * HEIGHT // 2 for it in before), str(before))


def by_faces(cases, program, python):
    """The drawn face is covered in each frame, and a sheet shows the covers."""
    data, shown = portrait()
    with tempfile.TemporaryDirectory() as folder:
        given, made = pathlib.Path(folder, "in.y4m"), pathlib.Path(folder, "out.y4m")
        given.write_bytes(data)
        piped = f"'{python}' '{ROOT}/examples/detect_faces.py' - < in.y4m > faces.txt; '{program}' -i in.y4m -o out.y4m --boxes faces.txt --hold 8 --strict --report covers.csv"
        done = subprocess.run(["bash", "-e", "-o", "pipefail", "-c", piped], cwd=folder, capture_output=True, text=True, timeout=300)
        wrote = made.read_bytes() if made.exists() else b""
        left = [number for number, (plane, places) in enumerate(zip(planes(wrote), shown)) if any(plane[at] != BLACK for at in places)] if wrote else None
        cases.count("the face that is found is covered in each frame", done.returncode == 0 and len(planes(wrote)) == FRAMES and left == [], f"{left} {done.stderr}")
        if not cases.lacks("a sheet of the covers", "python3-pil"):
            by_review(cases, folder)


def by_review(cases, folder):
    """The sheet has each frame with its covers outlined."""
    sheet = [python_with("PIL"), ROOT / "examples/review.py", "out.y4m", "covers.csv", "sheet.png"]
    done = subprocess.run(sheet, cwd=folder, capture_output=True, text=True, timeout=300)
    counted = "from PIL import Image; it = Image.open('sheet.png').convert('RGB'); print(*it.size, sum(color == (255, 0, 0) for color in it.getdata()))"
    wide, high, red = (int(it) for it in subprocess.run([python_with("PIL"), "-c", counted], cwd=folder, capture_output=True, text=True).stdout.split() or [0] * 3)
    rows = [tuple(map(int, line.split(","))) for line in pathlib.Path(folder, "covers.csv").read_text().splitlines() if line[:1].isdigit()]
    # A frame has the size of a tile of the sheet: an outline has as many pixels as the border of its cover.
    borders = sum(2 * (row[3] + row[4]) - 4 for row in rows)
    cases.count("a sheet shows each frame with its covers outlined", done.returncode == 0 and (wide, high) == (5 * WIDTH, 5 * (HEIGHT + 16)) and 0 < red <= borders and len({row[0] for row in rows}) == FRAMES, f"{wide} {high} {red} of {borders}: {done.stderr}")


def by_sheets(cases, python):
    """Sheets of any size, over those of an earlier run. What can't be done is said in a line."""
    review = [python, ROOT / "examples/review.py", "out.y4m", "covers.csv"]

    def tried(data, sheet="sheet.png", report="1,0,0,1,1\n", names=(), words=()):
        with tempfile.TemporaryDirectory() as folder:
            for name, text in {"out.y4m": data, "covers.csv": report.encode(), **{it: b"an old one" for it in names}}.items():
                pathlib.Path(folder, name).write_bytes(text)
            done = subprocess.run([*review, sheet, *words], cwd=folder, capture_output=True, text=True, timeout=120)
            return done, sorted(it.name for it in pathlib.Path(folder).iterdir() if it.name not in ("out.y4m", "covers.csv"))

    plain = video("420")
    done, left = tried(plain, names=("sheet.png", "sheet-2.png", "sheet-3.png", "sheet-5.png", "sheet-old.png"))
    cases.count("sheets of an earlier run are removed, and other pictures stay", done.returncode == 0 and left == ["sheet-5.png", "sheet-old.png", "sheet.png"], f"{left} {done.stderr}")
    for label, data, words, due in (
        ("an unknown ending", plain, {"sheet": "sheet.xyz"}, "'.xyz' is the ending of no picture"),
        ("no ending", plain, {"sheet": "sheet"}, "'' is the ending of no picture"),
        ("a folder that isn't there", plain, {"sheet": "none/sheet.png"}, "none/sheet.png"),
        ("a report of four numbers", plain, {"report": "1,0,0,1\n"}, "line 1 is no line frame,left,top,width,height"),
        ("a report in words", plain, {"report": "1,0,0,1,b\n"}, "line 1 is no line frame,left,top,width,height"),
        ("each 0th frame", plain, {"words": ("--every", "0")}, "the number is from 1 on"),
        ("a frame of no pixel", b"YUV4MPEG2 W0 H4 F25:1 Cmono\nFRAME\n", {}, "its line names no size"),
    ):
        done, left = tried(data, **words)
        cases.count(f"a sheet with {label} is refused in a line", done.returncode == 1 and due in done.stderr and done.stderr.count("\n") == 1 and not left, done.stderr)
    for size in ((1, 1), (2, 1), (3000, 1), (1, 3000), (321, 3), (13, 9)):
        for sampling in ("mono", "420", "411", "444alpha", "420p10"):
            done, left = tried(video(sampling, *size))
            cases.count(f"a sheet of frames of {size[0]} by {size[1]}, C{sampling}", done.returncode == 0 and left == ["sheet.png"], done.stderr)


def by_one_command(cases, program, python):
    """examples/hide_faces.py, from a file to another. A failure leaves what was there."""
    data, shown = portrait()
    with tempfile.TemporaryDirectory() as folder:
        given, made = pathlib.Path(folder, "in.mp4"), pathlib.Path(folder, "out.mp4")
        environment = os.environ | {"PATH": f"{folder}:{os.environ['PATH']}"}
        pathlib.Path(folder, "imgref_frames").symlink_to(program)
        sound = ["-f", "lavfi", "-i", "sine=duration=1", "-c:a", "aac", "-c:v", "libx264", "-crf", "12"]
        subprocess.run(["ffmpeg", "-v", "error", "-i", "-", *sound, given], input=data, check=True, capture_output=True, timeout=120)
        hide = [python, ROOT / "examples/hide_faces.py", given, made]
        done = subprocess.run(hide, env=environment, capture_output=True, text=True, timeout=300)
        wrote = subprocess.run(["ffmpeg", "-v", "error", "-i", made, "-f", "yuv4mpegpipe", "-"], capture_output=True, timeout=120).stdout
        kinds = subprocess.run(["ffprobe", "-v", "error", "-show_entries", "stream=codec_type", "-of", "csv=p=0", made], capture_output=True, text=True).stdout.split()
        # (the edges of a black area aren't quite black after H.264)
        brightest = max((plane[at] for plane, places in zip(planes(wrote), shown) for at in places), default=255) if wrote else 255
        cases.count("one command covers the face in each frame, and keeps the sound", done.returncode == 0 and len(planes(wrote)) == FRAMES and brightest < 40 and kinds == ["video", "audio"], f"{brightest} {kinds} {done.stderr}")
        before = made.read_bytes()
        given.write_bytes(given.read_bytes()[:-5000])
        done = subprocess.run(hide, env=environment, capture_output=True, text=True, timeout=300)
        cases.count("of a video that is cut off it leaves no output, and what was there stays", done.returncode == 1 and made.read_bytes() == before and "Traceback" not in done.stderr and not [*pathlib.Path(folder).glob("*.part*")], done.stderr)
        subprocess.run(["ffmpeg", "-v", "error", "-y", "-f", "lavfi", "-i", "color=gray:size=320x240:duration=0.2", given], check=True, timeout=120)
        done = subprocess.run(hide, env=environment, capture_output=True, text=True, timeout=300)
        cases.count("where it finds nothing it says so, and leaves no output", done.returncode == 1 and "nothing was found" in done.stderr and made.read_bytes() == before, done.stderr)


def by_usage(cases):
    """Without arguments each script says how it is used, also where OpenCV is missing. Of a file that isn't raw video they say what to do."""
    for name in ("detect_people", "detect_faces", "hide_faces", "review"):
        done = subprocess.run([sys.executable, ROOT / f"examples/{name}.py"], capture_output=True, text=True, timeout=60)
        cases.count(f"{name}.py says how it is used", done.returncode == 2 and f"examples/{name}.py" in done.stderr and "Traceback" not in done.stderr, done.stderr)


def by_wrong_files(cases, python):
    data, _ = portrait()
    nameless = b"YUV4MPEG2 H8 F25:1\n"
    wrong = {"a video without a width": (nameless, "its line names no size"), "no raw video": (b"RIFF\n" * 99, "ffmpeg -i FILE -f yuv4mpegpipe -"), "nothing": (b"", "it is cut off"), "a video that is cut off": (data[:-9], f"it is cut off in frame {FRAMES}")}
    for name in ("detect_people", "detect_faces"):
        for label, (given, due) in wrong.items():
            done = subprocess.run([python, ROOT / f"examples/{name}.py", "-"], input=given, capture_output=True, timeout=300)
            cases.count(f"{name}.py writes no list of {label}", done.returncode == 1 and not done.stdout and due in done.stderr.decode(), done.stderr.decode())
    for name in SAMPLINGS:
        done = subprocess.run([python, ROOT / "examples/detect_faces.py", "-"], input=video(name, 99, 81), capture_output=True, timeout=300)
        cases.count(f"the frames of C{name} are counted", (done.stdout.split(b"\n")[0], done.returncode) == (b"# frames 3", 0), done.stderr.decode())


def main():
    cases, python = Cases(), python_with("cv2")
    by_usage(cases)
    pillow = python_with("PIL")
    if not cases.lacks("sheets of a run", "python3-pil", number=6):
        by_sheets(cases, pillow)
    programs = both_builds(cases, "imgref_frames")
    if cases.lacks("what OpenCV finds", "python3-opencv", "opencv-data", number=8 + len(SAMPLINGS) + 9 * len(programs)):
        return cases.end()
    by_wrong_files(cases, python)
    for program in programs:
        by_detector(cases, str(program), python)
        by_faces(cases, str(program), python)
        if not cases.lacks("one command from a video to another", "ffmpeg", number=3):
            by_one_command(cases, str(program), python)
    return cases.end()


if __name__ == "__main__":
    sys.exit(main())
