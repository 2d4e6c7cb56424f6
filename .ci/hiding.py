"""What the checks of imgref-hide share: small videos of a bright square, a detector that finds it, and what an output shows."""
import concurrent.futures
import contextlib
import os
import pathlib
import shutil
import signal
import subprocess
import sys

from checking import ROOT

ENTRY = ROOT / "programs/imgref-hide"
WIDTH, HEIGHT, FRAMES, RATE, SQUARE = 160, 96, 24, 24, 20
# A pixel above it is one of the square.
SEEN = 170
# Reads raw video and prints the bright square of each frame. It needs no other module. A word chooses the form of the list.
DETECTOR = r'''
import sys
form = sys.argv[1] if len(sys.argv) > 1 else "corners"
video = sys.stdin.buffer
fields = {it[:1]: it[1:] for it in video.readline().decode().split()[1:]}
wide, high, deep = int(fields["W"]), int(fields["H"]), 2 if "p1" in fields.get("C", "") else 1
rest = 2 * -(-wide // 2) * -(-high // 2) * deep if not fields.get("C", "").startswith("mono") else 0
table = bytes(it > 190 for it in range(256))
number, lines = 0, []
while video.readline():
    plane = video.read(wide * high * deep)
    video.read(rest)
    if deep == 2:
        plane = bytes(min(255, (low | up << 8) >> 2) for low, up in zip(plane[::2], plane[1::2]))
    lit = plane.translate(table)
    rows = [y for y in range(high) if 1 in lit[y * wide:(y + 1) * wide]]
    number += 1
    if rows:
        left = min(lit.index(1, y * wide) - y * wide for y in rows)
        right = max(lit.rindex(1, y * wide, (y + 1) * wide) - y * wide for y in rows) + 1
        top, bottom = rows[0], rows[-1] + 1
        lines.append((number, left, top, right, bottom))
if form == "corners":
    print("frame,id,x1,y1,x2,y2,score")
    for n, l, t, r, b in lines:
        print(f"{n},1,{l},{t},{r},{b},0.9")
elif form == "mot":
    for n, l, t, r, b in lines:
        print(f"{n},1,{l},{t},{r - l},{b - t},0.9,-1,-1,-1")
elif form == "kitti":
    for n, l, t, r, b in lines:
        print(f"{n - 1} 1 Person 0 0 0 {l} {t} {r} {b} 0 0 0 0 0 0 0")
elif form == "centres":
    print("frame;x_center;y_center;width;height")
    for n, l, t, r, b in lines:
        print(f"{n};{(l + r) / 2 / wide};{(t + b) / 2 / high};{(r - l) / wide};{(b - t) / high}")
elif form == "yolo":
    import pathlib
    pathlib.Path(sys.argv[2]).mkdir(exist_ok=True)
    for n, l, t, r, b in lines:
        pathlib.Path(sys.argv[2], f"in_{n}.txt").write_text(f"0 {(l + r) / 2 / wide} {(t + b) / 2 / high} {(r - l) / wide} {(b - t) / high}\n")
'''

# A shell that starts a check in the background has SIGINT ignored, and what the check starts would ignore it too.
signal.signal(signal.SIGINT, signal.default_int_handler)


def ffmpeg(folder, words):
    """Runs ffmpeg in a folder on words without spaces in them."""
    return subprocess.run(["ffmpeg", "-v", "error", "-nostdin", "-y", *words.split()], cwd=folder, check=True, capture_output=True, timeout=900).stdout


def source(width=WIDTH, height=HEIGHT, rate=RATE, frames=FRAMES, square=SQUARE):
    """The words for a grey video in which a bright square goes to the right, and for a sound."""
    moving = f"color=c=0x505050:s={width}x{height}:r={rate}[a];color=c=white:s={square}x{square}:r={rate}[b];[a][b]overlay=x=n*{max(1, width // 60)}:y={height // 3}:eof_action=repeat,trim=end_frame={frames}"
    return f"-filter_complex {moving}[v] -map [v]"


def encoded(folder, name, more="", sound=True, **size):
    """Makes a file of such a video by ffmpeg, with a sound of the same length."""
    tone = "-f lavfi -i sine=duration=1:sample_rate=44100" if sound else ""
    kept = "-map 0:a -c:a aac" if sound and "-c:a" not in more else "-map 0:a" if sound else ""
    ffmpeg(folder, f"{tone} {source(**size)} {kept} -c:v libx264 -preset ultrafast -crf 10 -pix_fmt yuv420p {more} {name}")


class Place:
    """A folder with the program in its PATH, a detector and a video."""

    def __init__(self, folder, program):
        self.folder = pathlib.Path(folder)
        self.tools = self.folder / "tools"
        self.tools.mkdir()
        (self.tools / "imgref_frames").symlink_to(program)
        (self.folder / "detect.py").write_text(DETECTOR)
        self.env = os.environ | {"PATH": f"{self.tools}:{os.environ['PATH']}", "PYTHONDONTWRITEBYTECODE": "1"}
        self.detector = f"{sys.executable} {self.folder}/detect.py"

    def sub(self, name):
        """A folder of its own for a case, with a video."""
        made = self.folder / name
        made.mkdir()
        if (self.folder / "in.mp4").exists():
            shutil.copy(self.folder / "in.mp4", made)
        return made

    def words(self, words, fake=True):
        return [sys.executable, str(ENTRY), *map(os.fsencode, map(str, words)), *(["--detector", self.detector, "--sheet", "0"] if fake else [])]

    def run(self, folder, *words, fake=True, env=None, **more):
        """Runs imgref-hide in a folder: with the detector that finds the square, and without a sheet."""
        how = {"stdin": subprocess.DEVNULL} | more
        return subprocess.run(self.words(words, fake), cwd=folder, env=env or self.env, capture_output=True, text=True, errors="replace", timeout=900, **how)


def frames_of(folder, name, pixels="gray"):
    """The brightness of each frame as it is decoded, and the size."""
    said = subprocess.run(["ffprobe", "-v", "error", "-select_streams", "V:0", "-show_entries", "stream=width,height", "-of", "csv=p=0", f"file:{name}"], cwd=folder, capture_output=True, text=True).stdout.strip()
    wide, high = map(int, said.split(",")[:2])
    cells = subprocess.run(["ffmpeg", "-v", "error", "-nostdin", "-noautorotate", "-i", f"file:{name}", "-map", "0:V:0", "-vsync", "passthrough", "-pix_fmt", pixels, "-f", "rawvideo", "-"], cwd=folder, capture_output=True).stdout
    return [cells[at:at + wide * high] for at in range(0, len(cells), wide * high)], wide, high


def bared(folder, name):
    """How many frames a video has, and in how many of them something bright is visible."""
    frames, _, _ = frames_of(folder, name)
    return len(frames), sum(max(it) > SEEN for it in frames)


def black(frames):
    """The fewest black pixels of a frame."""
    return min(sum(it.translate(bytes(one < 24 for one in range(256)))) for it in frames)


def is_hidden(folder, name, frames=FRAMES, square=SQUARE):
    """Whether so many frames are there, with nothing bright, and with as many black pixels as the square has. (A frame or two may be
    doubled, where the sound begins earlier.)"""
    found, _, _ = frames_of(folder, name)
    return frames <= len(found) <= frames + 2 and not any(max(it) > SEEN for it in found) and black(found) >= square * square


def left(folder, *known):
    """The files of a folder besides those that are known."""
    return sorted(it.name for it in pathlib.Path(folder).iterdir() if it.name not in known)


def children(process):
    """Whether something still runs that a process started, by the folder in which it works."""
    found = []
    for it in pathlib.Path("/proc").glob("[0-9]*"):
        with contextlib.suppress(OSError):
            if os.readlink(it / "cwd").startswith(str(process)):
                found.append((it / "cmdline").read_bytes().replace(b"\0", b" ").decode(errors="replace")[:200])
    return found


def all_of(cases, tried, jobs=4):
    """Runs functions of no argument side by side. One that raises is a case that failed."""
    with concurrent.futures.ThreadPoolExecutor(jobs) as pool:
        for it, done in [(it, pool.submit(it)) for it in tried]:
            try:
                done.result()
            except Exception as why:
                cases.count(f"{getattr(it, '__name__', it)} goes through", False, f"{type(why).__name__}: {why} {getattr(why, 'stderr', '')}")
