#!/usr/bin/env python3
"""Shows that imgref_frames writes over nothing that it reads, and that what it makes has no name before the run is well.

Files are compared by device and inode: by another name, by links of both kinds, and by /dev/fd. A report that can't be made is a fault
before the first frame. Both builds are run that `rt ci` leaves.
"""
import os
import pathlib
import subprocess
import sys
import tempfile

sys.path.insert(0, str(pathlib.Path(__file__).resolve().parents[2]))
from checking import Cases, both_builds
from tries import video

SOURCE, BOXES, EDITS = video("420"), b"1,1,2,2,4,4\n", b"cover 2,2,4,4\n"
FILES = {"src.y4m": SOURCE, "boxes.txt": BOXES, "edits.txt": EDITS}
# By which other names a file is reached.
ALIASES = ("its name", "./ before it", "a hard link", "a symbolic link", "/dev/fd")
COVER = ["cover", "2,2,4,4"]


def alias(folder, file, kind):
    """Another name of a file, and the descriptors that it needs."""
    if kind == "/dev/fd":
        number = os.open(f"{folder}/{file}", os.O_RDWR)
        return f"/dev/fd/{number}", (number,)
    if kind == "a hard link":
        os.link(f"{folder}/{file}", f"{folder}/hard")
    if kind == "a symbolic link":
        os.symlink(file, f"{folder}/soft")
    return {"its name": file, "./ before it": f"./{file}", "a hard link": "hard", "a symbolic link": "soft"}[kind], ()


def tried(program, words, file=None, kind="its name", given=None, taken=None, more=None):
    """What a run in a folder of its own says first, its status, and what is in the folder then. @ stands for the alias of a file."""
    with tempfile.TemporaryDirectory() as folder:
        for name, data in {**FILES, **(more or {})}.items():
            pathlib.Path(folder, name).write_bytes(data)
        other, numbers = alias(folder, file, kind) if file else (None, ())
        source = open(f"{folder}/{given}", "rb") if given else subprocess.DEVNULL
        sink = open(f"{folder}/{taken}", "r+b") if taken else subprocess.PIPE
        done = subprocess.run([program, *(other if it == "@" else it for it in words)], cwd=folder, stdin=source, stdout=sink, stderr=subprocess.PIPE, pass_fds=numbers, timeout=120)
        for it in numbers:
            os.close(it)
        left = {it.name: it.read_bytes() for it in pathlib.Path(folder).iterdir() if it.name not in ("hard", "soft")}
    return done.stderr.decode().split("\n"), done.returncode, left


def by_shared(cases, program):
    """Nothing that is read is written over."""
    listed = ["-i", "src.y4m", "--boxes", "boxes.txt"]
    wrong = []
    for kind in ALIASES:
        for label, words, file, given in (
            ("the report and the input", ["-i", "src.y4m", "-o", "dst.y4m", "--report", "@", *COVER], "src.y4m", None),
            ("the report and the input", ["-o", "dst.y4m", "--report", "@", *COVER], "src.y4m", "src.y4m"),
            ("the report and the boxes", [*listed, "-o", "dst.y4m", "--report", "@"], "boxes.txt", None),
            ("the report and the boxes", ["-i", "src.y4m", "--boxes", "-", "--report", "@"], "boxes.txt", "boxes.txt"),
            ("the report and the edits", ["-i", "src.y4m", "--edits", "edits.txt", "--report", "@"], "edits.txt", None),
            ("the output and the boxes", [*listed, "-o", "@"], "boxes.txt", None),
            ("the output and the edits", ["-i", "src.y4m", "--edits", "edits.txt", "-o", "@"], "edits.txt", None),
        ):  # fmt: skip
            said, status, left = tried(program, words, file, kind, given)
            if (said[0], status, left) != ("fault words", 1, FILES) or not said[1].startswith(f"{label} are one file"):
                wrong.append(f"{kind}: {' '.join(words)}: {said[:2]} {status} {sorted(left)}")
        more = {"dst.y4m": b"an old one"}
        said, status, left = tried(program, ["-i", "src.y4m", "-o", "dst.y4m", "--report", "@", *COVER], "dst.y4m", kind, more=more)
        if (said[:2], status, left) != (["fault words", "the report and the output need two names"], 1, FILES | more):
            wrong.append(f"{kind}: output: {said[:2]} {status} {sorted(left)}")
    cases.count("nothing that is read or written is written over, by any name of it", not wrong, "\n".join(wrong))
    wrong = []
    for report in ("dst.y4m", "./dst.y4m", "../{}/dst.y4m"):
        with tempfile.TemporaryDirectory() as folder:
            pathlib.Path(folder, "src.y4m").write_bytes(SOURCE)
            done = subprocess.run([program, "-i", "src.y4m", "-o", "dst.y4m", "--report", report.format(pathlib.Path(folder).name), *COVER], cwd=folder, capture_output=True, timeout=120)
            if done.returncode != 1 or os.listdir(folder) != ["src.y4m"]:
                wrong.append(f"{report}: {done}")
    cases.count("a report and an output that aren't there yet need two names", not wrong, "\n".join(wrong))
    said, status, left = tried(program, ["-i", "src.y4m", *COVER], taken="src.y4m")
    cases.count("standard output isn't written over the input", (said[0], status, left) == ("fault words", 1, FILES), str(said[:2]))
    said, status, left = tried(program, ["-i", "src.y4m", "-o", "dst.y4m", "--report", "dst.y4m.0.part", *COVER])
    cases.count("a report hasn't the name that the output has until it is whole", (said[0], status, left) == ("fault output", 5, FILES), str(said[:2]))
    for kind in ("its name", "./ before it", "a symbolic link"):
        said, status, left = tried(program, ["-i", "src.y4m", "-o", "@", *COVER], "src.y4m", kind)
        cases.count(f"the output may be the input, by {kind}", (status, sorted(left)) == (0, sorted(FILES)) and left["src.y4m"] != SOURCE, str(said[:2]))
    said, status, left = tried(program, ["-i", "src.y4m", "--boxes", "boxes.txt", "--edits", "edits.txt", "-o", "dst.y4m", "--report", "dst.csv"])
    cases.count("other files stay as they are", (status, sorted(left)) == (0, sorted([*FILES, "dst.csv", "dst.y4m"])) and all(left[it] == FILES[it] for it in FILES), str(said[:2]))


def by_report(cases, program):
    """A report has no name before the run is well, and is made before the first frame."""
    old = {"covers.csv": b"an old one"}
    for label, words, status in (
        ("a frame is cut off", [], 7),
        ("another number of frames", ["--frames", "9"], 11),
        ("a frame without a box", ["--boxes", "boxes.txt", "--require-box"], 12),
        ("a range that isn't reached", ["--strict", "9..", "cover", "2,2,4,4"], 8),
        ("a cover that covers nothing", ["--strict", "cover", "90,90,1,1"], 9),
    ):  # fmt: skip
        given = {"src.y4m": SOURCE[:-9]} if status == 7 else {}
        for before in ({}, old):
            said, ended, left = tried(program, ["-i", "src.y4m", "-o", "dst.y4m", "--report", "covers.csv", *words, *COVER], more={**given, **before})
            cases.count(f"with {label} the report {'keeps its old text' if before else 'has no name'}", (ended, left) == (status, FILES | given | before), f"{said[:2]} {ended} {sorted(left)}")
    for name in ("/nowhere/covers.csv", "/", "/proc/covers.csv"):
        with subprocess.Popen([program, "--report", name, *COVER], stdin=subprocess.PIPE, stdout=subprocess.PIPE, stderr=subprocess.PIPE) as it:
            try:
                # (the input has no end, and no frame)
                ended = it.wait(60)
            except subprocess.TimeoutExpired:
                ended = None
                it.kill()
            out, said = it.stdout.read(), it.stderr.read().decode()
        cases.count(f"a report that can't be made is a fault before the first frame: {name}", ended == 5 and out == b"" and name in said, f"{ended} {said}")
    with tempfile.TemporaryDirectory() as folder:
        pathlib.Path(folder, "src.y4m").write_bytes(SOURCE)
        done = subprocess.run([program, "-i", "src.y4m", "-o", "dst.y4m", "--report", "none/covers.csv", *COVER], cwd=folder, capture_output=True, timeout=120)
        cases.count("and then the output has no name either", done.returncode == 5 and os.listdir(folder) == ["src.y4m"], str(done))


def main():
    cases = Cases()
    for program in both_builds(cases, "imgref_frames"):
        by_shared(cases, str(program))
        by_report(cases, str(program))
    return cases.end()


if __name__ == "__main__":
    sys.exit(main())
