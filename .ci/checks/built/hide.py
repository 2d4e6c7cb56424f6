#!/usr/bin/env python3
"""Shows what imgref-hide does with one video: options, lists, records, failures and signals (docs/HIDE.md).

A bright square goes through a small video. In the place of OpenCV's detectors there is one that finds the square, except for one
case with a drawn face. What must be hidden is counted in the decoded output. hide_phones.py has what phones make, and hide_many.py
many videos and many machines.
"""
import json
import os
import pathlib
import pty
import re
import shutil
import signal
import subprocess
import sys
import tempfile
import time

sys.path.insert(0, str(pathlib.Path(__file__).resolve().parents[2]))
from checking import ROOT, Cases, both_builds
from hiding import FRAMES, HEIGHT, SQUARE, WIDTH, Place, all_of, bared, black, children, encoded, ffmpeg, frames_of, is_hidden, left

# A FaceDetectorYN that finds what is white, under the names of OpenCV. It fails where the picture isn't grey and white.
MODEL = """
import numpy
__version__, COLOR_YUV2BGR_I420, error = "4.6.0", 1, ValueError


def setNumThreads(count):
    pass


def cvtColor(cells, kind):
    high = cells.shape[0] * 2 // 3
    assert abs(int(cells[high:].mean()) - 128) < 4
    return cells[:high, :, None].repeat(3, 2)


class FaceDetectorYN:
    @staticmethod
    def create(file, config, size, score):
        assert open(file).read() == "a model" and score == 0.6
        return FaceDetectorYN()

    def setInputSize(self, size):
        self.size = size

    def detect(self, picture):
        assert picture.shape == (self.size[1], self.size[0], 3)
        rows, columns = numpy.where(picture[:, :, 0] > 190)
        box = [columns.min() - 1.5, rows.min() - 1.5, numpy.ptp(columns) + 4, numpy.ptp(rows) + 4] if len(rows) else None
        return 1, numpy.array([[*box, *[0] * 10, 0.9]], numpy.float32) if box else None
"""
FILES = ["in.mp4", "out.boxes.txt", "out.covers.csv", "out.mp4"]


def by_plain(cases, place):
    """A run hides the square, and says where the files are. A second one asks, and --force replaces."""
    folder = place.sub("plain")
    first = place.run(folder, "in.mp4", "out.mp4")
    cases.count("the square is hidden in each frame", first.returncode == 0 and is_hidden(folder, "out.mp4"), first.stderr)
    cases.count("the list, the report and nothing else are beside it", left(folder) == FILES, str(left(folder)))
    cases.count("the last line says how many frames have no box", f"{FRAMES} frames, 0 without a box" in first.stderr, first.stderr)
    made = (folder / "out.mp4").read_bytes()
    again = place.run(folder, "in.mp4", "out.mp4")
    cases.count("a second run replaces nothing", again.returncode == 1 and "--force" in again.stderr and (folder / "out.mp4").read_bytes() == made, again.stderr)
    forced = place.run(folder, "in.mp4", "out.mp4", "--force", "--quiet")
    cases.count("with --force and --quiet it does, by the same bytes and without a word", forced.returncode == 0 and not forced.stderr and (folder / "out.mp4").read_bytes() == made, forced.stderr)
    cases.count("and leaves no other file", left(folder) == FILES, str(left(folder)))


def by_terminal(cases, place):
    """On a terminal it asks before it replaces, and shows the progress of both passes in one line."""
    folder = place.sub("terminal")
    (folder / "out.mp4").write_text("before")
    # (each frame waits a moment, before the detector and before imgref_frames)
    relay = f"{sys.executable} -c 'import sys, time; [(sys.stdout.buffer.write(it), sys.stdout.flush(), time.sleep(0.1)) for it in iter(lambda: sys.stdin.buffer.read(23046), bytes())]'"
    slow = folder / "slow"
    slow.mkdir()
    (slow / "imgref_frames").write_text(f'#!/bin/sh\ncase "$*" in *--report*) {relay} | {place.tools}/imgref_frames "$@" ;; *) exec {place.tools}/imgref_frames "$@" ;; esac\n')
    (slow / "imgref_frames").chmod(0o755)
    words = place.words(["in.mp4", "out.mp4", "--sheet", "0", "--detector", f"{relay} | {place.detector}"], fake=False)

    def typed(reply):
        user, other = pty.openpty()
        done = subprocess.Popen(words, cwd=folder, env=place.env | {"PATH": f"{slow}:{place.env['PATH']}"}, stdin=other, stdout=other, stderr=other)
        os.close(other)
        os.write(user, reply)
        said = b""
        try:
            while block := os.read(user, 4096):
                said += block
        except OSError:
            pass
        os.close(user)
        return done.wait(60), said.decode(errors="replace")

    status, said = typed(b"n\n")
    cases.count("on a terminal it asks, and no leaves the file", status == 1 and "Replace?" in said and (folder / "out.mp4").read_text() == "before", said)
    status, said = typed(b"y\n")
    cases.count("and yes replaces it", status == 0 and is_hidden(folder, "out.mp4"), said)
    for label, more in (("detecting", r", [\d.]+ a second, \d+ s left"), ("covering", r", [\d.]+ a second")):
        cases.count(f"while {label} one line says how many frames are done of how many", re.search(rf"\r\S*{label}: \d+ of {FRAMES} frames{more}", said), said)


def by_names(cases, place):
    """Names with spaces, quotes, a hyphen in front, a colon, a percent sign, and bytes that are no UTF-8."""
    folder = place.sub("names")
    for name in ("a b.mp4", "it's \"so\".mp4", "-in.mp4", "12:30.mp4", "a%03d.mp4", "caf\udce9.mp4", "$(x);.mp4", "[1]*.mp4"):
        os.replace(folder / "in.mp4", os.fsencode(folder / name))
        done = place.run(folder, "--log", "log", "--quiet", "--detector", place.detector, "--sheet", "0", "--", name, f"{name[:-4]}-out.mp4", fake=False)
        made = folder / f"{name[:-4]}-out.mp4"
        shutil.move(os.fsencode(made), folder / "plain.mp4") if made.exists() else None
        cases.count(f"the name {ascii(name)}", done.returncode == 0 and is_hidden(folder, "plain.mp4"), done.stderr)
        os.replace(os.fsencode(folder / name), folder / "in.mp4")
        for it in (folder / "plain.mp4", made.with_name(f"{made.stem}.boxes.txt"), made.with_name(f"{made.stem}.covers.csv")):
            it.unlink(missing_ok=True)
    cases.count("no other file is left", left(folder) == ["in.mp4", "log"], str(left(folder)))


def by_words(cases, place):
    """Wrong words are refused at once, before anything is detected, and nothing is written."""
    folder = place.sub("words")
    mark = folder.parent / "was-detected"
    detector = ["--detector", f"touch {mark}; {place.detector}", "--sheet", "0"]
    for words, status, why in (
        (["in.mp4"], 2, "required"),
        (["in.mp4", "out.mp4", "--hold", "-1"], 2, "-1"),
        (["in.mp4", "out.mp4", "--hold", "x"], 2, "no whole number"),
        (["in.mp4", "out.mp4", "--margin", "20%%"], 2, "no margin"),
        (["in.mp4", "out.mp4", "--mar", "20%"], 2, "unrecognized"),
        (["in.mp4", "out.mp4", "--crf", "99"], 2, "from 0 to 63"),
        (["in.mp4", "out.mp4", "--crf", "60"], 1, "H.264 takes 0 to 51"),
        (["in.mp4", "out.mp4", "--with", "blot 3"], 1, "fault words"),
        (["in.mp4", "out.mp4", "--with", "fill"], 2, "two words"),
        (["in.mp4", "out.mp4", "--also", "80..20 cover 1,1,2,2"], 1, "fault words"),
        (["in.mp4", "out.mp4", "--also", "fill 150,1,20,2 16"], 1, "fault outside"),
        (["in.mp4", "out.mp4", "--also", "cover 1,1,2"], 1, "fault words"),
        (["in.mp4", "out.mp4", "--also", "cover 500,500,8,8"], 1, "fault cover"),
        (["in.mp4", "out.mp4", "--also", "move 0,0,20,20 40,40", "--also", "cover 40,40,10,10"], 1, "fault order"),
        (["in.mp4", "out.mp4", "--also", "cover 1,1,2,2 # so"], 2, "without #"),
        (["in.mp4", "out.mp4", "--edits", "none.txt"], 1, "isn't there"),
        (["in.mp4", "out.mp4", "--model", "m.onnx"], 2, "--model is for"),
        (["in.mp4", "out.mp4", "--again"], 2, "--again uses"),
        (["in.mp4", "out.txt"], 1, "its ending is none of"),
        (["in.mp4", "out"], 1, "its ending is none of"),
        (["in.mp4", "."], 1, "is a folder"),
        (["in.mp4", "none/out.mp4"], 1, "isn't there"),
        (["none.mp4", "out.mp4"], 1, "none.mp4 isn't there"),
        (["in.mp4", "in.mp4", "--force"], 1, "is read too"),
        (["in.mp4", "out.mp4", "--log", "in.mp4"], 1, "can't be the record"),
        (["in.mp4", "out.mp4", "--log", "none/log"], 1, "isn't there"),
        (["in.mp4", "out.mp4", "--jobs", "2"], 2, "--jobs is for a folder"),
    ):
        done = place.run(folder, *words, *detector, fake=False)
        said = done.stderr.strip().splitlines()
        cases.count(f"refused: {' '.join(words)}", done.returncode == status and why in done.stderr and left(folder) == ["in.mp4"] and not mark.exists() and (status == 2 or len(said) <= 2), f"{done.returncode} {done.stderr} {left(folder)}")
    less = place.run(folder, "in.mp4", "out.mp4", "--every", "20", "--hold", "5", fake=False)
    cases.count("refused: --hold 5 with --every 20", less.returncode == 2 and "less than --every" in less.stderr, less.stderr)
    again = place.run(folder, "in.mp4", "out.mp4", "--again", fake=False)
    cases.count("refused: --again without a list", again.returncode == 1 and "needs the list" in again.stderr, again.stderr)
    os.link(folder / "in.mp4", folder / "other.mp4")
    same = place.run(folder, "in.mp4", "other.mp4", "--force")
    cases.count("refused: an output that is the input by another name", same.returncode == 1 and "is read too" in same.stderr, same.stderr)


def by_missing(cases, place):
    """A missing program is told at once, and so are sizes and sound that an output can't hold."""
    folder = place.sub("missing")
    bare = folder / "bin"
    bare.mkdir()
    for name in ("python3", "ffmpeg", "ffprobe", "sh", "cat"):
        (bare / name).symlink_to(os.path.realpath(shutil.which(name)))
    if not (ROOT / "crates/imgref_frames/out/imgref_frames").is_file():
        without = place.run(folder, "in.mp4", "out.mp4", env=place.env | {"PATH": str(bare)})
        cases.count("without imgref_frames it says so", without.returncode == 1 and "imgref_frames isn't in the PATH" in without.stderr, without.stderr)
    (bare / "ffmpeg").unlink()
    without = place.run(folder, "in.mp4", "out.mp4", env=place.env | {"PATH": str(bare)})
    cases.count("without ffmpeg it says so", without.returncode == 1 and "ffmpeg is missing" in without.stderr, without.stderr)
    text = folder / "text.mp4"
    text.write_text("no video\n" * 100)
    for name, why in (("text.mp4", "can't be read"), ("sound.m4a", "has no video")):
        if name == "sound.m4a":
            ffmpeg(folder, "-i in.mp4 -map 0:a -c copy sound.m4a")
        done = place.run(folder, name, "out.mp4")
        cases.count(f"{name} is refused", done.returncode == 1 and why in done.stderr and not (folder / "out.mp4").exists(), done.stderr)
    locked = folder / "locked"
    locked.mkdir()
    done = place.run(folder, "in.mp4", "/proc/out.mp4", "--ignore-room")
    cases.count("a folder in which nothing can be written is refused", done.returncode == 1 and ("can be written" in done.stderr), done.stderr)


def by_sizes(cases, place):
    """Odd sizes, one pixel of width, webm, and sound that a container can't hold."""
    folder = place.sub("sizes")
    ffmpeg(folder, "-i in.mp4 -vf format=yuv444p,crop=159:95:0:0 -c:v ffv1 -c:a pcm_s16le odd.mkv")
    done = place.run(folder, "odd.mkv", "odd.mp4")
    frames, wide, high = frames_of(folder, "odd.mp4") if done.returncode == 0 else ([], 0, 0)
    cases.count("an odd size becomes even for H.264, with PCM as AAC, and both are said", (len(frames), wide, high) == (FRAMES, 158, 94) and not any(max(it) > 170 for it in frames) and "even sizes" in done.stderr and "encoded again as aac" in done.stderr, done.stderr)
    done = place.run(folder, "odd.mkv", "web.webm", "--cores", "2")
    frames, wide, high = frames_of(folder, "web.webm") if done.returncode == 0 else ([], 0, 0)
    cases.count("webm keeps an odd size", (len(frames), wide, high) == (FRAMES, 159, 95) and not any(max(it) > 170 for it in frames) and "opus" in done.stderr, done.stderr)
    done = place.run(folder, "odd.mkv", "silent.mp4", "--no-sound")
    said = subprocess.run(["ffprobe", "-v", "error", "-show_entries", "stream=codec_type", "-of", "csv=p=0", "silent.mp4"], cwd=folder, capture_output=True, text=True).stdout.split()
    cases.count("--no-sound leaves it out", done.returncode == 0 and said == ["video"], f"{said} {done.stderr}")
    done = place.run(folder, "odd.mkv", "kept.mkv")
    cases.count("mkv keeps PCM", done.returncode == 0 and "encoded again" not in done.stderr, done.stderr)
    low, high = (place.run(folder, "in.mp4", f"q{it}.mp4", "--crf", str(it)).returncode or (folder / f"q{it}.mp4").stat().st_size for it in (40, 5))
    cases.count("--crf 40 is smaller than --crf 5", 1 < low < high, f"{low} {high}")


def by_forms(cases, place):
    """A detector may print its list in each form that imgref-boxes knows."""
    folder = place.sub("forms")
    for form, more in (("corners", []), ("mot", []), ("kitti", ["--first-frame", "0"]), ("centres", []), ("yolo labels", ["--list", "labels"])):
        words = ["in.mp4", f"{form[:4]}.mp4", "--detector", f"{place.detector} {form}", "--sheet", "0", *more]
        done = place.run(folder, *words, fake=False)
        cases.count(f"a detector's list: {form}", done.returncode == 0 and is_hidden(folder, f"{form[:4]}.mp4"), done.stderr)
    (folder / "mine.csv").write_text("".join(f"{it},{(it - 1) * 2},{HEIGHT // 3},{SQUARE},{SQUARE}\n" for it in range(1, FRAMES + 1)))
    done = place.run(folder, "in.mp4", "list.mp4", "--list", "mine.csv", "--columns", "frame,left,top,width,height", "--sheet", "0", fake=False)
    cases.count("a list that is there", done.returncode == 0 and is_hidden(folder, "list.mp4"), done.stderr)
    done = place.run(folder, "in.mp4", "bad.mp4", "--detector", "cat > /dev/null; echo 1,2,3", "--sheet", "0", fake=False)
    cases.count("a list of no known form is refused, and nothing is left", done.returncode == 1 and "name them by --columns" in done.stderr and not [it for it in left(folder) if "bad" in it or it.startswith(".")], done.stderr)
    done = place.run(folder, "in.mp4", "bad.mp4", "--detector", "cat > /dev/null; echo it broke >&2; exit 3", "--sheet", "0", fake=False)
    cases.count("a detector that fails is told, with what it said", done.returncode == 1 and "the detector failed: it broke" in done.stderr, done.stderr)
    done = place.run(folder, "in.mp4", "bad.mp4", "--detector", "head -c 100 > /dev/null; echo 1,1,1,1,1,1,1,-1,-1,-1", "--sheet", "0", fake=False)
    cases.count("a detector that doesn't read all of it is told", done.returncode == 1 and "the detector ended before it had read the whole video" in done.stderr and not (folder / "bad.mp4").exists(), done.stderr)
    done = place.run(folder, "in.mp4", "bad.mp4", "--detector", "cat > /dev/null; echo 99,1,1,1,9,9,1,-1,-1,-1", "--sheet", "0", fake=False)
    cases.count("a list that names a frame after the end is refused", done.returncode == 1 and "names frame 99" in done.stderr, done.stderr)


def by_hand(cases, place):
    """--also and --edits cover what was missed, --again uses the list that is there, and the sheet says the line."""
    folder = place.sub("hand")
    # (a detector that misses the second half)
    half = f"{place.detector} mot | head -n {FRAMES // 2}"
    done = place.run(folder, "in.mp4", "out.mp4", "--hold", "0", "--detector", half, fake=False)
    frames, bare = bared(folder, "out.mp4")
    cases.count("a detector that misses the square leaves it visible", done.returncode == 0 and (frames, bare) == (FRAMES, FRAMES // 2), f"{bare} {done.stderr}")
    due = f"{FRAMES // 2} without a box, the longest stretch 00:00:00.500..00:00:01.000 ({FRAMES // 2} frames). Look at out.sheet.png"
    cases.count("the last line says so, with times", due in done.stderr.splitlines()[-1], done.stderr)
    marks = "from PIL import Image; print(sum(it == (255, 220, 0) for it in Image.open('out.sheet.png').convert('RGB').getdata()))"
    counts = [subprocess.run([it, "-c", marks], cwd=folder, capture_output=True, text=True).stdout.strip() for it in (sys.executable, "/usr/bin/python3")]
    # (two marks along the top and one along the left side of each, of ten pixels and of five)
    cases.count("the sheet has marks at the frames without a box", any(it.isdigit() and FRAMES // 2 * 20 <= int(it) <= FRAMES // 2 * 40 for it in counts), str(counts))
    listed = (folder / "out.boxes.txt").read_bytes()
    line = f"{FRAMES // 2}..{FRAMES} cover 0,{HEIGHT // 3},{WIDTH},{SQUARE}"
    done = place.run(folder, "in.mp4", "out.mp4", "--again", "--hold", "0", "--also", line, "--sheet", "0", fake=False)
    cases.count("--again with --also covers it, over the same list", done.returncode == 0 and is_hidden(folder, "out.mp4") and "detecting" not in done.stderr and (folder / "out.boxes.txt").read_bytes() == listed, done.stderr)
    cases.count("and the sheet of before is gone", not (folder / "out.sheet.png").exists())
    (folder / "edits.txt").write_text(f"# missed\n00:00:00.5..00:00:01 cover 0,{HEIGHT // 3},{WIDTH},{SQUARE}\n")
    done = place.run(folder, "in.mp4", "out.mp4", "--again", "--hold", "0", "--edits", "edits.txt", "--sheet", "0", fake=False)
    cases.count("--edits does the same by times", done.returncode == 0 and is_hidden(folder, "out.mp4"), done.stderr)
    done = place.run(folder, "in.mp4", "out.mp4", "--again", "--also", f"{FRAMES}.. cover 0,0,8,8", "--sheet", "0", fake=False)
    cases.count("an edit after the end is refused, and the output of before stays", done.returncode == 1 and "begins after the end" in done.stderr and is_hidden(folder, "out.mp4"), done.stderr)
    done = place.run(folder, "in.mp4", "only.mp4", "--detector", "cat > /dev/null; echo frame,left,top,width,height", "--also", f"cover 0,{HEIGHT // 3},{WIDTH},{SQUARE}", "--sheet", "0", fake=False)
    cases.count("where nothing is found --also alone covers", done.returncode == 0 and is_hidden(folder, "only.mp4"), done.stderr)
    done = place.run(folder, "in.mp4", "none.mp4", "--detector", "cat > /dev/null; echo frame,left,top,width,height", "--sheet", "0", fake=False)
    cases.count("where nothing is found there is no output", done.returncode == 1 and "nothing was found" in done.stderr and not [it for it in left(folder) if it.startswith(("none", "."))], done.stderr)


def by_covers(cases, place):
    """--margin in pixels and as a share, --hold, --with and --min-score."""
    folder = place.sub("covers")

    def size(*words):
        done = place.run(folder, "in.mp4", "m.mp4", "--force", "--hold", "0", *words)
        frames, _, _ = frames_of(folder, "m.mp4") if done.returncode == 0 else ([b"\0"], 0, 0)
        # (in a frame in the middle the cover has neighbours on all sides)
        return black(frames[FRAMES // 2:FRAMES // 2 + 1]) if done.returncode == 0 else done.stderr

    found = {it: size("--margin", it) for it in ("0", "8", "20%", "50%")}
    due = {it: (SQUARE + 2 * more) ** 2 for it, more in (("0", 0), ("8", 8), ("20%", 4), ("50%", 10))}
    # (whole chroma samples, and 2 pixels beside a share)
    close = all(isinstance(found[it], int) and due[it] * 0.97 <= found[it] <= (due[it] ** 0.5 + 8) ** 2 for it in due)
    cases.count("a margin in pixels and one that grows with the box", close and found["0"] < found["8"] and found["20%"] < found["50%"], f"{found} {due}")
    done = place.run(folder, "in.mp4", "w.mp4", "--with", "fill 200")
    frames, _, _ = frames_of(folder, "w.mp4")
    cases.count("--with 'fill 200' is handed on", done.returncode == 0 and black(frames) == 0 and min(max(it) for it in frames) > 190, done.stderr)
    done = place.run(folder, "in.mp4", "s.mp4", "--min-score", "0.95")
    cases.count("--min-score is handed on", done.returncode == 1 and "nothing was found" in done.stderr, done.stderr)
    gap = f"{place.detector} mot | sed '5,9d'"
    for hold, bare in (("6", 0), ("0", 5)):
        done = place.run(folder, "in.mp4", "h.mp4", "--force", "--hold", hold, "--detector", gap, "--sheet", "0", fake=False)
        cases.count(f"a gap of five frames with --hold {hold}", done.returncode == 0 and bared(folder, "h.mp4") == (FRAMES, bare), f"{bared(folder, 'h.mp4')} {done.stderr}")


def by_record(cases, place):
    """--log has versions, the command, the sums of all files, frames, boxes and faults."""
    folder = place.sub("record")
    place.run(folder, "in.mp4", "out.mp4", "--log", "log")
    place.run(folder, "in.mp4", "out.mp4", "--log", "log")
    good, bad = (json.loads(it) for it in (folder / "log").read_text().splitlines())
    for name, file in (("input", "in.mp4"), ("list", "out.boxes.txt"), ("report", "out.covers.csv"), ("output", "out.mp4")):
        due = subprocess.run(["sha256sum", file], cwd=folder, capture_output=True, text=True).stdout.split()[0]
        cases.count(f"the record has the sum of the {name}", good[name]["sha256"] == due and good[name]["bytes"] == (folder / file).stat().st_size)
    versions = good["versions"]
    cases.count("and versions, the command, frames and boxes", "imgref_frames" in versions["imgref_frames"] and "ffmpeg" in versions["ffmpeg"] and good["command"][:3] == ["imgref-hide", "in.mp4", "out.mp4"] and (good["frames"], good["boxes"], good["frames_without_a_box"], good["status"]) == (FRAMES, FRAMES, 0, "done") and good["began"] <= good["ended"], str(good))
    cases.count("a run that failed has its fault, and no output", bad["status"] == "failed" and "is there already" in bad["faults"][0] and "output" not in bad, str(bad))


def by_cut(cases, place):
    """A video that is cut off is a fault by name, in each container. --damaged goes on."""
    folder = place.sub("cut")
    ffmpeg(folder, "-i in.mp4 -c copy -movflags +faststart front.mp4")
    ffmpeg(folder, "-i in.mp4 -c copy whole.mkv")
    ffmpeg(folder, "-stream_loop 3 -i in.mp4 -c copy long.mkv")
    for name, share in (("front.mp4", 0.6), ("in.mp4", 0.6), ("long.mkv", 0.5)):
        data = (folder / name).read_bytes()
        (folder / f"cut-{name}").write_bytes(data[: int(len(data) * share)])
        done = place.run(folder, f"cut-{name}", "out.mp4")
        cases.count(f"cut off: {name}", done.returncode == 1 and "cut off" in done.stderr and not (folder / "out.mp4").exists() and not [it for it in left(folder) if it.startswith(".") or "boxes" in it], done.stderr)
    done = place.run(folder, "cut-front.mp4", "part.mp4", "--damaged")
    frames, bare = bared(folder, "part.mp4") if done.returncode == 0 else (0, 1)
    cases.count("--damaged covers what is there", done.returncode == 0 and 0 < frames < FRAMES and not bare, done.stderr)
    data = bytearray((folder / "front.mp4").read_bytes())
    at = data.index(b"mdat") + 2000
    data[at:at + 3000] = bytes(3000)
    (folder / "broken.mp4").write_bytes(data)
    done = place.run(folder, "broken.mp4", "out.mp4")
    cases.count("damaged data is a fault, and nothing is left", done.returncode == 1 and not (folder / "out.mp4").exists() and not [it for it in left(folder) if it.startswith(".")], done.stderr)


def by_signals(cases, place):
    """SIGINT, SIGTERM and SIGHUP end all children and leave nothing but a line, in both passes."""
    for number in (signal.SIGINT, signal.SIGTERM, signal.SIGHUP):
        for moment, detector in (("detecting", f"sleep 60 & echo > here; {place.detector}; sleep 60"), ("covering", place.detector)):
            folder = place.sub(f"signal-{number.name}-{moment}")
            if moment == "covering":
                slow = folder / "slow"
                slow.mkdir()
                (slow / "imgref_frames").write_text(f'#!/bin/sh\ncase "$*" in *--report*) echo > here-{number.name}; sleep 60;; esac\nexec {place.tools}/imgref_frames "$@"\n')
                (slow / "imgref_frames").chmod(0o755)
            env = place.env | ({"PATH": f"{folder}/slow:{place.env['PATH']}"} if moment == "covering" else {})
            process = subprocess.Popen(place.words(["in.mp4", "out.mp4", "--detector", detector, "--sheet", "0"], fake=False), cwd=folder, env=env, stdin=subprocess.DEVNULL, stderr=subprocess.PIPE, text=True)
            deadline = time.monotonic() + 60
            while time.monotonic() < deadline and process.poll() is None and not [*folder.glob("here"), *folder.glob(".imgref-hide-*/here-*")]:
                time.sleep(0.05)
            process.send_signal(number)
            process.send_signal(number)
            said = process.communicate(timeout=300)[1]
            lines = [it for it in said.splitlines() if not it.startswith(("detecting:", "covering:"))]
            kept = [it for it in left(folder) if it not in ("in.mp4", "here", "slow")]
            cases.count(f"{number.name} while {moment}: one line, no file, no child", process.returncode == 128 + number and len(lines) == 1 and number.name in said and not kept and not children(folder), f"{process.returncode} {said} {kept} {children(folder)}")


def by_room(cases, place):
    """A full disk leaves nothing, and too little room is told before anything is detected."""
    folder = place.sub("room")
    small = folder / "small"
    small.mkdir()
    if subprocess.run(["mount", "-t", "tmpfs", "-o", "size=200k", "tmpfs", small], capture_output=True).returncode:
        cases.skip("a full disk", "mount")
        return
    try:
        done = place.run(folder, "in.mp4", "small/out.mp4")
        cases.count("too little room is told at once", done.returncode == 1 and "MB free" in done.stderr and "detecting" not in done.stderr, done.stderr)
        ffmpeg(folder, "-i in.mp4 -vf noise=alls=60:allf=t -c:v libx264 -crf 10 -pix_fmt yuv420p noise.mp4")
        done = place.run(folder, "noise.mp4", "small/out.mp4", "--ignore-room", "--crf", "0", "--sheet", "0", "--detector", "cat > /dev/null; echo 1,1,1,1,9,9,1,-1,-1,-1", fake=False)
        cases.count("a disk that gets full leaves nothing", done.returncode == 1 and not left(small) and "space" in done.stderr and "detecting" in done.stderr, f"{done.stderr} {left(small)}")
    finally:
        subprocess.run(["umount", small])


def by_progress(cases, place):
    """Into a file a line comes each ten seconds, with frames done of how many, and what is left."""
    folder = place.sub("progress")
    slow = "python3 -c \"import sys, time; [(time.sleep(0.55), sys.stdin.buffer.read(23046)) for _ in range(24)]; sys.stdin.buffer.read()\"; echo 1,1,1,1,9,9,1,-1,-1,-1"
    done = place.run(folder, "in.mp4", "out.mp4", "--detector", slow, "--sheet", "0", fake=False)
    cases.count("a line each ten seconds says how many frames are done of how many, and what is left", len(re.findall(rf"(?m)^detecting: \d+ of {FRAMES} frames, [\d.]+ a second, \d+ s left$", done.stderr)) == 1, done.stderr)


def by_model(cases, place):
    """--model hands FaceDetectorYN pictures in colour, and takes its boxes: here it is one that finds the square."""
    folder = place.sub("model")
    (folder / "cv2.py").write_text(MODEL)
    (folder / "m.onnx").write_text("a model")
    done = place.run(folder, "in.mp4", "out.mp4", "--model", "m.onnx", "--sheet", "0", "--every", "1", "--hold", "1", fake=False, env=place.env | {"PYTHONPATH": str(folder)})
    cases.count("--model finds the square in colours, and hides it", done.returncode == 0 and is_hidden(folder, "out.mp4"), done.stderr)


def by_real(cases, place):
    """OpenCV's own detectors find a drawn face, all cores alike, and the sheet shows it."""
    folder = place.sub("real")
    if not any(subprocess.run([it, "-c", "import cv2"], capture_output=True).returncode == 0 for it in (sys.executable, "/usr/bin/python3")):
        cases.skip("OpenCV's detectors", "python3-opencv", number=3)
        return
    shutil.copy(ROOT / "docs/person.png", folder)
    ffmpeg(folder, "-loop 1 -framerate 12 -i person.png -filter_complex color=c=gray:s=320x180:r=12[a];[a][0]overlay=x=4*n:y=0,trim=end_frame=9 -pix_fmt yuv420p -c:v libx264 -crf 12 face.mp4")
    done = place.run(folder, "face.mp4", "out.mp4", "--cores", "2", fake=False)
    frames, wide, _ = frames_of(folder, "out.mp4") if done.returncode == 0 else ([], 0, 0)
    # The eyes of the picture, which moves by four pixels a frame.
    eyes = [max(frame[y * wide + 4 * at + x] for y in range(64, 82) for x in range(72, 120)) for at, frame in enumerate(frames)]
    cases.count("OpenCV finds the drawn face, and its eyes are black in each frame", len(frames) == 9 and max(eyes) < 40, f"{eyes} {done.stderr}")
    cases.count("the sheet is made", "Look at out.sheet.png" in done.stderr and (folder / "out.sheet.png").is_file(), done.stderr)
    first = (folder / "out.boxes.txt").read_text()
    done = place.run(folder, "face.mp4", "out.mp4", "--force", "--cores", "1", "--sheet", "0", fake=False)
    cases.count("one processor finds the same boxes as two", done.returncode == 0 and (folder / "out.boxes.txt").read_text() == first, done.stderr)
    done = place.run(folder, "face.mp4", "people.mp4", "--find", "both", "--every", "9", "--hold", "20", "--sheet", "0", fake=False)
    cases.count("--find both finds the face too", done.returncode == 0, done.stderr)
    (folder / "no.onnx").write_text("no model")
    done = place.run(folder, "face.mp4", "m.mp4", "--model", "no.onnx", fake=False)
    cases.count("a file that is no model is told at once", done.returncode == 1 and "no model that OpenCV reads" in done.stderr and "detecting" not in done.stderr, done.stderr)


def main():
    cases = Cases()
    for program in both_builds(cases, "imgref_frames")[:1]:
        missing = [it for it in ("ffmpeg", "ffprobe") if not shutil.which(it)]
        if missing:
            cases.skip("imgref-hide", *missing, number=90)
            continue
        with tempfile.TemporaryDirectory() as folder:
            place = Place(folder, program)
            encoded(folder, "in.mp4")
            tried = (by_progress, by_real, by_model, by_words, by_signals, by_names, by_forms, by_sizes, by_hand, by_covers, by_cut, by_missing, by_plain, by_terminal, by_record, by_room)
            all_of(cases, [lambda it=it: it(cases, place) for it in tried])
    return cases.end()


if __name__ == "__main__":
    sys.exit(main())
