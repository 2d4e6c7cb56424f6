"""Reads raw video (YUV4MPEG2) frame by frame, as ffmpeg and imgref_frames write it.

Each FRAME is one picture, so a frame has the number here that it has in imgref_frames. A reader of other formats may count others:
ffmpeg doubles and drops frames where it makes a rate constant, and OpenCV doesn't.
"""
import contextlib
import sys

import numpy

# How many pixels share a sample of chroma, across and down.
SHARED = {"420": (2, 2), "422": (2, 1), "411": (4, 1), "444": (1, 1)}
LONGEST_LINE = 256


class Unreadable(Exception):
    """What is no such video, and why."""


class Video:
    """The frames of a stream. Iterating gives the planes of each, as arrays of bytes: brightness, and chroma where there is any."""

    def __init__(self, stream):
        self.stream, self.count = stream, 0
        word, *fields = self.line("the line that a video begins with").split(" ")
        tagged = {it[:1]: it[1:] for it in reversed(fields)}
        if word != "YUV4MPEG2":
            raise Unreadable("it is no raw video (YUV4MPEG2): pipe it through ffmpeg -i FILE -f yuv4mpegpipe -")
        if not all(tagged.get(it, "").isdigit() and int(tagged[it]) for it in "WH"):
            raise Unreadable("its line names no size")
        self.width, self.height = int(tagged["W"]), int(tagged["H"])
        self.sampling, self.bits = sampling(tagged.get("C", "420"))

    def line(self, what):
        line = self.stream.readline(LONGEST_LINE)
        if not line.endswith(b"\n"):
            raise Unreadable(f"{what} is missing or too long: it is no raw video (YUV4MPEG2), or it is cut off")
        return line[:-1].decode("latin-1")

    def plane(self, width, height):
        size = width * height * (1 if self.bits == 8 else 2)
        cells = self.stream.read(size)
        if len(cells) != size:
            raise Unreadable(f"it is cut off in frame {self.count + 1}")
        samples = numpy.frombuffer(cells, numpy.uint8 if self.bits == 8 else numpy.dtype("<u2")).reshape(height, width)
        return samples if self.bits == 8 else (samples >> (self.bits - 8)).astype(numpy.uint8)

    def __iter__(self):
        across, down = SHARED.get(self.sampling.removesuffix("alpha"), (1, 1))
        chroma = -(-self.width // across), -(-self.height // down)
        sizes = [(self.width, self.height)] + ([] if self.sampling == "mono" else [chroma, chroma])
        while self.stream.peek(1):
            if self.line(f"the line of frame {self.count + 1}").split(" ")[0] != "FRAME":
                raise Unreadable(f"frame {self.count + 1} has no line FRAME")
            planes = [self.plane(*size) for size in sizes]
            if self.sampling.endswith("alpha"):
                self.plane(self.width, self.height)
            self.count += 1
            yield planes


def sampling(word):
    """The sampling that the field C names, and the bits of a sample."""
    for name in ("mono", *SHARED, "444alpha"):
        rest = word.removeprefix(name)
        if rest in ("", "jpeg", "mpeg2", "paldv") and word.startswith(name):
            return name, 8
        deep = rest if name == "mono" else rest.removeprefix("p")
        if word.startswith(name) and deep in ("9", "10", "12", "14", "16"):
            return name, int(deep)
    raise Unreadable(f"the sampling C{word} isn't supported")


@contextlib.contextmanager
def opened(name):
    """The video of a file, or of standard input where the name is a hyphen. What can't be read ends the program with its reason."""
    try:
        with open(sys.stdin.fileno() if name == "-" else name, "rb", closefd=name != "-") as stream:
            yield Video(stream)
    except (OSError, Unreadable) as why:
        sys.exit(f"{name}: {why}")
