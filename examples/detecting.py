"""What the detectors share: frames of raw video come in, and a tracker's list goes out."""
import importlib
import sys

# For so many frames an object may be missed and keep its id.
KEPT = 10


def overlap(one, other):
    """How much of the pixels of two boxes both have, from 0 to 1."""
    wide = min(one[0] + one[2], other[0] + other[2]) - max(one[0], other[0])
    high = min(one[1] + one[3], other[1] + other[3]) - max(one[1], other[1])
    both = max(0, wide) * max(0, high)
    return both / (one[2] * one[3] + other[2] * other[3] - both)


class Tracks:
    """Gives a box the id of the last box of the 10 frames before that it overlaps most, and else a new one."""

    def __init__(self):
        self.last, self.count = {}, 0

    def names(self, frame, boxes):
        """The ids of the boxes of a frame, each given once."""
        self.last = {name: (seen, box) for name, (seen, box) in self.last.items() if frame - seen <= KEPT}
        free, given = dict(self.last), []
        for box in boxes:
            name = max(free, key=lambda it: overlap(free[it][1], box), default=None)
            if name is None or overlap(free[name][1], box) == 0:
                self.count += 1
                name = self.count
            free.pop(name, None)
            self.last[name] = frame, box
            given.append(name)
        return given


def lines(video, find):
    """The list of a video: how many frames it has, and then a line for each box. `find` takes the brightness of a frame, and
    returns boxes of left, top, width, height, each with a score."""
    tracks, found = Tracks(), []
    for frame, (brightness, *_) in enumerate(video, 1):
        boxes = [([int(it) for it in box], float(score)) for box, score in find(brightness)]
        for name, (box, score) in zip(tracks.names(frame, [box for box, _ in boxes]), boxes):
            found.append(f"{frame},{name},{','.join(map(str, box))},{score:.3f}")
        if frame % 100 == 0:
            print(f"{frame} frames", file=sys.stderr)
    return [f"# frames {video.count}", *found]


def main(usage, finder):
    """Prints the list of the video that the one argument names. Nothing is printed before all of it is read: so a list that is
    there is whole. Without an argument it says how it is used, also where OpenCV is missing."""
    if len(sys.argv) != 2 or sys.argv[1] in ("-h", "--help"):
        print(usage.strip(), file=sys.stdout if len(sys.argv) == 2 else sys.stderr)
        sys.exit(0 if len(sys.argv) == 2 else 2)
    try:
        find, opened = finder(), importlib.import_module("y4m").opened
    except ImportError as why:
        sys.exit(f"{why}: install python3-opencv")
    with opened(sys.argv[1]) as video:
        found = lines(video, find)
    print("\n".join(found))
