"""Covers the face of docs/person.png with nothing proved, by the command of README.md.

The picture is read and written by netpbm, ffmpeg or PIL, whichever is there. Where none is, netpbm is installed, where that may be.
"""
import subprocess

from needs import imports, is_shown
from processes import started
from setup import set_up
from workspace import ROOT

FOLDER = ROOT / "crates/imgref_frames"
GIVEN, MADE = ROOT / "docs/person.png", ROOT / "out/covered.png"
# The face, and the name on the tag.
COVERS = "cover 58,22,76,104 cover 118,138,96,32".split()
# What reads a PNG file and writes PPM, and what does the other, by what is needed for it.
READS = {"pngtopnm": ["pngtopnm"], "ffmpeg": "ffmpeg -v error -f png_pipe -i - -f image2pipe -c:v ppm -".split()}
WRITES = {"pnmtopng": ["pnmtopng"], "ffmpeg": "ffmpeg -v error -f ppm_pipe -i - -f image2pipe -c:v png -".split()}
BY_PIL = "import sys; from PIL import Image; Image.open(sys.stdin.buffer).convert('RGB').save(sys.stdout.buffer, '{}')"


class Failure(Exception):
    """Why the face isn't covered."""


def converter(ways, form):
    """The command that converts a picture here. Where there is none, netpbm is installed."""
    for again in (False, True):
        for tool, words in ways.items():
            if is_shown(tool):
                return words
        for python in ("python3", "/usr/bin/python3"):
            if imports(python, "PIL"):
                return [python, "-c", BY_PIL.format(form)]
        if again or set_up(["netpbm"]):
            raise Failure("netpbm, ffmpeg or PIL is needed to read and write the picture")
    return None


def run(words, data, **how):
    """What a command writes."""
    with started(words, stdin=subprocess.PIPE, stdout=subprocess.PIPE, stderr=subprocess.PIPE, **how) as ran:
        wrote, said = ran.communicate(data)
    if ran.returncode:
        raise Failure(f"{words[0]} ends with status {ran.returncode}: {said.decode(errors='replace').strip()}")
    return wrote


def cover():
    """Writes the picture with its face covered, and returns its path."""
    ways = converter(READS, "ppm"), converter(WRITES, "png")
    wrote = run(["rt", "try", "--", *COVERS], run(ways[0], GIVEN.read_bytes()), cwd=FOLDER)
    made = run(ways[1], wrote)
    MADE.parent.mkdir(exist_ok=True)
    MADE.write_bytes(made)
    return MADE
