"""What imgref_frames covers by a tracker's list, by docs/FRAMES.md: a part of the model that frames.py is. And made lists to try it with."""
import functools
import math
import tempfile
from fractions import Fraction

import tries
from tries import ends, lines_said, wanted, without_note

# What a box becomes where no option says otherwise.
COVER = ("cover", [])
# The frames of most videos here, and how many a video has that goes to the model.
SIZE, MOST_FRAMES = (13, 9), 24
video = functools.partial(tries.video, width=SIZE[0], height=SIZE[1], frames=12)
# How a list writes a number.
TEXTS = {
    "two digits": lambda number: f"{number:.2f}",
    "all digits of a float": lambda number: repr(number if abs(number) > 0.001 else 0.5),
    "whole numbers": lambda number: str(round(number)),
    "halves": lambda number: str(round(number * 2) / 2),
    "twenty digits": lambda number: f"{number:.20f}",
}


class Box:
    """A line: its frame and its track, and where it is in each direction."""

    def __init__(self, line, number):
        frame, name, left, top, width, height = line.split(",")[:6]
        self.frame, self.number = int(frame), number
        self.sides = [(Fraction(start), Fraction(start) + Fraction(size)) for start, size in ((left, width), (top, height))]
        self.track = ("alone", number) if name.startswith("-") or Fraction(name).denominator > 1 else ("track", Fraction(name))


def rectangle(boxes, margin):
    """The pixels of the smallest box around these, with a margin. The first one of a side may be before the frame."""
    sides = [(math.floor(min(it.sides[at][0] for it in boxes)), math.ceil(max(it.sides[at][1] for it in boxes))) for at in (0, 1)]
    return [*(low for low, _ in sides), *(high - low for low, high in sides), margin]


def in_frame(tracks, hold, frame):
    """The boxes that are in a frame, each as those that it is around."""
    for track in tracks:
        for at, box in enumerate(track):
            comes = at > 0 and 0 < box.frame - track[at - 1].frame <= hold + 1
            goes = at + 1 < len(track) and 0 < track[at + 1].frame - box.frame <= hold + 1
            if box.frame == frame or (not goes and 0 < frame - box.frame <= hold) or (not comes and 0 < box.frame - frame <= hold):
                yield [box]
            if goes and box.frame < frame < track[at + 1].frame:
                yield [box, track[at + 1]]


def covers(lines, hold=None, style=COVER, margin=None):
    """The edits that lines become, one for each frame and box, in the order of the lines."""
    tracks = {}
    for box in sorted((Box(line, number) for number, line in enumerate(lines)), key=lambda it: it.frame):
        tracks.setdefault(box.track, []).append(box)
    found = [(frame, around) for frame in range(1, MOST_FRAMES + 1) for around in in_frame(tracks.values(), hold or 0, frame)]
    return [(frame - 1, frame, "box", rectangle(around, margin), style) for frame, around in sorted(found, key=lambda it: (it[0], it[1][0].number))]


def options(hold=None, style=COVER, margin=None):
    """The words that ask for that."""
    values = {"--hold": hold, "--margin": margin, "--with": None if style == COVER else style[0]}
    return [word for name, value in values.items() if value is not None for word in (name, str(value))] + [",".join(map(str, it)) for it in [style[1]] if style != COVER]


def by_model(data, lines, edits=(), **how):
    """What is to be written: the boxes are first."""
    return wanted(data, edits, covers(lines, **how))


def run(program, lines, words, data, ending="\n"):
    """How a run over a list ends, and all lines that it says."""
    with tempfile.NamedTemporaryFile("w", suffix=".txt", newline="") as listed:
        listed.write(ending.join(lines) + ending)
        listed.flush()
        return ends(program, ["--boxes", listed.name, *words], data), lines_said(program, ["--boxes", listed.name, *words], data)


def differing(program, data, lines, edits=(), more=(), ending="\n", written=None, **how):
    """What is wrong with these lines, or none."""
    words = [*more, *options(**how), *edits]
    said, _ = run(program, written or lines, words, data, ending)
    right = by_model(data, lines, edits, **how)
    return None if without_note(*said) == right else f"{said[1:]} in the place of {right[1:]} for {words} and\n" + "\n".join(lines)


def count_lists(cases, label, wrong):
    """One case: nothing is wrong with any of these lists."""
    wrong = [it for it in wrong if it]
    cases.count(label, not wrong, "\n".join(wrong)[:3000])


def tracks(chance, text, names=range(6), first=4, most=12, steps=(1, 1, 1, 1, 2, 3)):
    """The lines of tracks that move about, with gaps where a step is above 1. Some are outside for a while, and some end after the video. With a
    step of 0 some frames have two lines of a track."""
    lines = []
    for name in names:
        frame, left, top = chance.randint(1, first), chance.uniform(-6, SIZE[0]), chance.uniform(-6, SIZE[1])
        for _ in range(chance.randint(1, most)):
            left, top = left + chance.uniform(-4, 4), top + chance.uniform(-4, 4)
            lines.append(f"{frame},{name},{','.join(map(text, (left, top, chance.uniform(0, 7), chance.uniform(0, 7))))},0.9,-1,-1,-1")
            frame += chance.choice(steps)
    chance.shuffle(lines)
    return lines
