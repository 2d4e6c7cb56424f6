"""imgref_frames beside its model (frames.py), and small videos to try it with."""
import random
import re
import subprocess

from edits import Fault, edits_of
from frames import answer

STATUS = {"words": 1, "header": 2, "memory": 3, "input": 4, "output": 5, "outside": 6, "frame": 7, "range": 8, "cover": 9, "order": 10, "count": 11}
SAMPLINGS = ("mono", "420jpeg", "420", "422", "411", "444", "444alpha", "420p10", "422p12", "444p16", "mono9", "mono14")
FILL = "fill 4,2,6,4 126"


def y4m(sampling, width, height, frames, parameters=(b"",), fields=b"Ip", rate="25:1"):
    """A video with the cells of each of these frames, which have these parameters in turn. Without a rate its line names none."""
    rated = "" if rate is None else f" F{rate}"
    line = f"YUV4MPEG2 W{width} H{height}{rated} ".encode() + fields + f" A1:1 C{sampling} XLABEL=a\n".encode()
    return line + b"".join(b"FRAME" + parameters[at % len(parameters)] + b"\n" + cells for at, cells in enumerate(frames))


def grey(width, height, planes, **more):
    """A video without colour of these planes of brightness."""
    return y4m("420jpeg", width, height, (it + bytes([128]) * (width * height // 2) for it in planes), **more)


def video(sampling, width=12, height=8, frames=3, **more):
    """A small video with pixels by chance, the same in each run."""
    chance = random.Random(f"{sampling} {width} {height}")
    deep = re.fullmatch("(mono|420|422|444)p?(9|1[0246])", sampling)
    name, sample = (deep[1], 2) if deep else (sampling, 1)
    chroma = {"mono": 0, "411": 2 * (-(-width // 4)) * height, "422": 2 * (-(-width // 2)) * height, "444": 2 * width * height, "444alpha": 3 * width * height}.get(name, 2 * (-(-width // 2)) * (-(-height // 2)))
    return y4m(sampling, width, height, (chance.randbytes(sample * (width * height + chroma)) for _ in range(frames)), **more)


def lines_said(program, words, data):
    """All lines that the program writes to standard error."""
    return subprocess.run([program, *words], input=data, capture_output=True, timeout=120).stderr.decode().split("\n")


def ends(program, words, data):
    """What the program writes, what it says first, and its status. Before a fault there may be notes."""
    done = subprocess.run([program, *words], input=data, capture_output=True, timeout=120)
    lines = done.stderr.decode().split("\n")
    said = [it for it in lines if not it.startswith("note: ")] if done.returncode else lines
    return done.stdout, said[0], done.returncode


def wanted(data, words, before=()):
    """The same by the model, with these edits before those of the words."""
    try:
        return answer(data, [*before, *edits_of(words)]), "", 0
    except Fault as fault:
        return fault.written, f"fault {fault.name}", STATUS[fault.name.split()[0]]


def without_note(out, said, status):
    """The same without a note, which is no fault."""
    return out, "" if status == 0 and said.startswith("note: ") else said, status


def differing(program, tries):
    """Those tries of words and bytes at which the program differs from the model."""
    return [f"{' '.join(words)} on {data[:60]!r}.." for words, data in tries if without_note(*ends(program, words, data)) != wanted(data, words)]


def exchanged(data, start, row, window):
    """Other bytes in a window of a plane whose rows have so many bytes, the first of which is at `start`."""
    out, (left, top, width, height) = bytearray(data), window
    for y in range(top, top + height):
        for at in range(start + y * row + left, start + y * row + left + width):
            out[at] ^= 0x55
    return bytes(out)


def count_tries(cases, label, program, tries):
    """One case: at each of these tries the program is as the model."""
    wrong = differing(program, tries)
    cases.count(label, not wrong, "\n".join(wrong))
