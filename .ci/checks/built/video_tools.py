#!/usr/bin/env python3
"""Shows what imgref_frames does beside other tools: by ffmpeg's filters, through the pipes of H.264, and by GNU parallel.

Both builds are run that `rt ci` leaves. Where the machine has no ffmpeg or no GNU parallel, the cases with it are skipped.
"""
import pathlib
import subprocess
import sys
import tempfile

sys.path.insert(0, str(pathlib.Path(__file__).resolve().parents[2]))
from checking import ROOT, Cases, both_builds
from tries import FILL, SAMPLINGS, count_tries, ends, video, wanted


def through(program, words, made, command):
    """Whether the program's video is that of a command of ffmpeg's."""
    theirs = subprocess.run(["ffmpeg", "-v", "error", "-i", "-", "-vf", command, "-f", "yuv4mpegpipe", "-strict", "-1", "-"], input=made, capture_output=True, timeout=120)
    return ends(program, words.split(), made) == (theirs.stdout, "", 0)


def by_ffmpeg(cases, program):
    for pixels in ("yuv420p", "yuv422p", "yuv411p", "yuv444p", "yuva444p", "gray", "yuv420p10le", "yuv422p12le", "yuv444p16le", "gray10le", "gray16le"):
        source = ["-f", "lavfi", "-i", "testsrc2=size=128x96:rate=5:duration=1", "-pix_fmt", pixels]
        made = subprocess.run(["ffmpeg", "-v", "error", *source, "-f", "yuv4mpegpipe", "-strict", "-1", "-"], capture_output=True, timeout=120).stdout
        cases.count(f"crop is ffmpeg's on {pixels}", made and through(program, "crop 16,8,64,48", made, "crop=64:48:16:8:exact=1"))
        for words, command in (("flip rows", "vflip"), ("flip columns", "hflip"), ("turn half", "hflip,vflip")):
            cases.count(f"{words} is ffmpeg's {command} on {pixels}", through(program, words, made, command))
        for words, command in (("turn right", "transpose=clock"), ("turn left", "transpose=cclock")):
            if "422" not in pixels and "411" not in pixels:
                cases.count(f"{words} is ffmpeg's {command} on {pixels}", through(program, words, made, command))
        # Of more than 8 bits ffmpeg's grey and black have a colour: its chroma is 514 of 1023, and the middle is 512.
        if "gray" not in pixels and "le" not in pixels:
            cases.count(f"fill is ffmpeg's drawbox on {pixels}", through(program, "fill 16,8,64,48 126", made, "drawbox=x=16:y=8:w=64:h=48:color=gray@1:t=fill"))
            cases.count(f"pad is ffmpeg's on {pixels}", through(program, "pad 16,8,32,24 16", made, "pad=176:128:16:8:color=black"))
        for words in ("mosaic 16,8,64,48 8,8", "blur 16,8,64,48 3", "move 16,8,32,32 24,16"):
            count_tries(cases, f"{words} is the model's on {pixels}", program, [(words.split(), made)])


def by_boxblur(cases, program):
    """Far from the edges of the frame a blur is ffmpeg's boxblur, which rounds in two steps: by one direction after the other."""
    wide, high = 128, 96
    for pixels in ("gray", "yuv444p"):
        source = ["-f", "lavfi", "-i", f"testsrc2=size={wide}x{high}:rate=5:duration=1", "-pix_fmt", pixels, "-f", "yuv4mpegpipe", "-strict", "-1", "-"]
        made = subprocess.run(["ffmpeg", "-v", "error", *source], capture_output=True, timeout=120).stdout
        line, planes = made.index(b"\n") + 1, 1 if pixels == "gray" else 3
        frame = len(b"FRAME\n") + planes * wide * high
        for radius in (1, 2, 5):
            command = f"boxblur=lr={radius}:lp=1:cr={radius}:cp=1"
            theirs = subprocess.run(["ffmpeg", "-v", "error", "-i", "-", "-vf", command, "-f", "yuv4mpegpipe", "-strict", "-1", "-"], input=made, capture_output=True, timeout=120).stdout
            ours = ends(program, f"blur 0,0,{wide},{high} {radius}".split(), made)[0]
            cells = [b"".join(it[at - planes * wide * high:at] for at in range(line + frame, len(it) + 1, frame)) for it in (ours, theirs)]
            far = [at for at in range(len(cells[0])) if radius <= at % wide < wide - radius and radius <= at // wide % high < high - radius]
            near = len(cells[0]) == len(cells[1]) == 5 * planes * wide * high and max(abs(cells[0][at] - cells[1][at]) for at in far) < 2
            cases.count(f"blur by {radius} is ffmpeg's {command} on {pixels}, within 1", near)


def by_h264(cases, program):
    """The pipes of docs/FRAMES.md, from H.264 to H.264 with no loss in either: without sound, and with it."""
    lossless = "-c:v libx264 -qp 0 -pix_fmt yuv420p"

    def decoded(file):
        made = subprocess.run(["ffmpeg", "-v", "error", "-i", file, "-f", "yuv4mpegpipe", "-"], capture_output=True, check=True, timeout=120).stdout
        return made, made.index(b"\n")

    def sound(file):
        return subprocess.run(["ffmpeg", "-v", "error", "-i", file, "-map", "0:a", "-c", "copy", "-f", "md5", "-"], capture_output=True, check=True, timeout=120).stdout

    with tempfile.TemporaryDirectory() as folder:
        first, last, loud = f"{folder}/in.mp4", f"{folder}/out.mp4", f"{folder}/loud.mp4"
        lavfi = "-f lavfi -i testsrc2=size=128x96:rate=5:duration=1 -f lavfi -i sine=duration=1"
        subprocess.run(["sh", "-c", f"ffmpeg -v error {lavfi} {lossless} {first}"], check=True, timeout=120)
        edited = f"ffmpeg -v error -i {first} -f yuv4mpegpipe - | {program} {FILL} | ffmpeg -v error -i -"
        subprocess.run(["sh", "-c", f"{edited} {lossless} {last}"], check=True, timeout=120)
        subprocess.run(["sh", "-c", f"{edited} -i {first} -map 0:v -map '1:a?' -map_metadata -1 -map_chapters -1 -c:a copy {lossless} {loud}"], check=True, timeout=120)
        (given, line), (found, found_line), (heard, heard_line) = decoded(first), decoded(last), decoded(loud)
        cases.count("the sound goes beside the pipe", heard[heard_line:] == found[found_line:] and sound(loud) == sound(first))
    cases.count("H.264 goes through the pipe", found[found_line:] == wanted(given, FILL.split())[0][line:])


def by_parallel(cases, program):
    """The commands of docs/FRAMES.md for many videos, with the path of the program in the place of its name."""
    commands = [it.strip().replace("imgref_frames ", f"{program} ") for it in (ROOT / "docs/FRAMES.md").read_text().split("\n") if it.startswith("    ls in/")]
    words = "cover 64,48,320,160"
    with tempfile.TemporaryDirectory() as folder:
        given, made = pathlib.Path(folder, "in"), pathlib.Path(folder, "out")
        given.mkdir()
        made.mkdir()
        pathlib.Path(folder, "examples").symlink_to(ROOT / "examples")
        for name in SAMPLINGS:
            (given / f"{name}.y4m").write_bytes(video(name, 100, 80))
        (made / "mono.y4m").write_bytes(b"made before")
        subprocess.run(["bash", "-c", commands[1]], cwd=folder, check=True, capture_output=True, timeout=120)
        cases.count("a folder of videos goes through parallel", all((made / f"{name}.y4m").read_bytes() == wanted(video(name, 100, 80), words.split())[0] for name in SAMPLINGS[1:]))
        cases.count("and a video that is there is left out", (made / "mono.y4m").read_bytes() == b"made before")
        if cases.lacks("ten videos through parallel", "ffmpeg", number=10):
            return
        for number in range(10):
            source = f"-f lavfi -i testsrc2=size=448x256:rate=25:duration=1 -vf negate=enable={number % 2}"
            subprocess.run(["ffmpeg", "-v", "error", *source.split(), "-movflags", "+faststart", given / f"{number}.mp4"], check=True, timeout=120)
        whole = (given / "7.mp4").read_bytes()
        (given / "7.mp4").write_bytes(whole[: len(whole) // 2])
        done = subprocess.run(["bash", "-c", commands[0]], cwd=folder, capture_output=True, timeout=300)
        rows = [it.split("\t") for it in pathlib.Path(folder, "jobs").read_text().split("\n")[1:-1]]
        failed = [it[8] for it in rows if it[6] != "0"]
        cases.count("of ten videos through parallel the one that is cut off alone has another status", len(rows) == 10 and done.returncode == 1 and len(failed) == 1 and "in/7.mp4" in failed[0], str(rows))
        for number in (it for it in range(10) if it != 7):
            grey = subprocess.run(["ffmpeg", "-v", "error", "-i", made / f"{number}.mp4", "-vf", "crop=300:140:74:58", "-pix_fmt", "gray", "-f", "rawvideo", "-"], capture_output=True, check=True, timeout=120).stdout
            cases.count(f"video {number} has all its frames, each covered", len(grey) == 25 * 300 * 140 and max(grey) < 40, f"{len(grey)} bytes up to {max(grey, default=0)}")


# Kinds of files, by their names and what ffmpeg needs for them; and those whose header says neither how many frames there are nor how
# long they last. Of them only a cut within a packet can be known, and of ts none.
KINDS = {
    "end.mp4": "",
    "front.mp4": "-movflags +faststart",
    "parts.mp4": "-movflags +frag_keyframe+empty_moov",
    "whole.mov": "",
    "whole.mkv": "",
    "whole.webm": "-c:v libvpx -deadline realtime -c:a libopus",
    "whole.avi": "",
    "whole.flv": "-ar 44100",
    "whole.ts": "",
}
SILENT = ("parts.mp4", "whole.ts")


def by_whole(cases):
    """examples/whole.py tells a video that is cut off from a whole one, by the file itself. By ffmpeg's status most pass as whole."""
    whole = [sys.executable, ROOT / "examples/whole.py"]
    for name, options in KINDS.items():
        with tempfile.TemporaryDirectory() as folder:
            file, cut = pathlib.Path(folder, name), pathlib.Path(folder, f"cut.{name}")
            source = "-f lavfi -i testsrc2=size=160x120:rate=25:duration=4 -f lavfi -i sine=duration=4.3"
            subprocess.run(["ffmpeg", "-v", "error", *source.split(), *options.split(), file], check=True, timeout=300)
            data = file.read_bytes()
            done = subprocess.run([*whole, file], capture_output=True, text=True, timeout=120)
            cases.count(f"{name} is whole", done.returncode == 0 and ("isn't known" in done.stderr) == (name in SILENT), done.stderr)
            for part in (10, 50, 90):
                cut.write_bytes(data[: len(data) * part // 100])
                done = subprocess.run([*whole, cut], capture_output=True, text=True, timeout=120)
                passes = name == "whole.ts" and "isn't known" in done.stderr
                cases.count(f"{name} with {part} % of its bytes is {'not known to be cut off' if passes else 'refused by name'}", done.returncode == 0 if passes else done.returncode == 1 and str(cut) in done.stderr, done.stderr)
            for said, status in ((100, 0), (101, 0), (60, 1)):
                listed = pathlib.Path(folder, "faces.txt")
                listed.write_text(f"# frames {said}\n1,1,2,2,4,4\n")
                done = subprocess.run([*whole, file, listed], capture_output=True, text=True, timeout=120)
                cases.count(f"a list of {said} frames {'may' if status == 0 else 'may not'} be of {name}", done.returncode == status, done.stderr)
    done = subprocess.run([*whole, "/nowhere/in.mp4"], capture_output=True, text=True, timeout=120)
    cases.count("a file that can't be read is named", done.returncode == 1 and "/nowhere/in.mp4" in done.stderr and "Traceback" not in done.stderr, done.stderr)


def main():
    cases = Cases()
    if not cases.lacks("videos that are cut off", "ffmpeg", number=60):
        by_whole(cases)
    for program in both_builds(cases, "imgref_frames"):
        if not cases.lacks("edits beside ffmpeg's filters, and H.264 through the pipe", "ffmpeg", number=87):
            by_ffmpeg(cases, str(program))
            by_boxblur(cases, str(program))
            by_h264(cases, str(program))
        if not cases.lacks("a folder of videos through parallel", "parallel", number=12):
            by_parallel(cases, str(program))
    return cases.end()


if __name__ == "__main__":
    sys.exit(main())
