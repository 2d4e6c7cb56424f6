"""Finds faces or people in raw video on its standard input by all cores, and prints a tracker's list. imgref-hide starts it.

    finding.py --check ..        only tries whether the detectors are there
    finding.py --size WxH ..     the boxes count in pixels of this size: the raw video is smaller by the scale of the picture
"""
import argparse
import collections
import concurrent.futures.process
import os
import pathlib
import signal
import sys

sys.path.insert(0, str(pathlib.Path(__file__).resolve().parent.parent.parent / "examples"))
sys.path.insert(0, str(pathlib.Path(__file__).resolve().parent.parent))
sys.dont_write_bytecode = True
import detecting

from imgref_hide import faces

# What is found in this process: made once in each worker.
FINDERS = []


def parsed():
    parser = argparse.ArgumentParser(description=__doc__, formatter_class=argparse.RawDescriptionHelpFormatter)
    parser.add_argument("--find", choices=["faces", "people", "both"], default="faces")
    parser.add_argument("--model")
    parser.add_argument("--min-score", type=float)
    parser.add_argument("--every", type=int, default=1)
    parser.add_argument("--cores", type=int, default=1)
    parser.add_argument("--size", default="")
    parser.add_argument("--smallest", type=int, default=20)
    parser.add_argument("--check", action="store_true")
    return parser.parse_args()


def made(options):
    """What finds what was asked for, each a function of the planes of a frame."""
    import cv2
    import numpy

    cv2.setNumThreads(1)
    found = []
    if options.model:
        found.append(faces.by_model(cv2, numpy, options.model, options.min_score))
    elif options.find in ("faces", "both"):
        found.append(faces.by_cascades(cv2, options.smallest))
    if options.find in ("people", "both"):
        import detect_people

        people = detect_people.finder()
        found.append(lambda planes: people(planes[0]))
    return found


def begin(options):
    """Makes the detectors of a worker. Signals end it by the one that started it."""
    signal.signal(signal.SIGINT, signal.SIG_IGN)
    FINDERS[:] = made(options)


def look(planes):
    """The boxes of a frame, each with its score."""
    return [([float(x) for x in box], float(score)) for find in FINDERS for box, score in find(planes)]


def results(video, options):
    """The boxes of each frame that is looked at, in order. Frames wait for a worker, but never many."""
    with concurrent.futures.ProcessPoolExecutor(options.cores, initializer=begin, initargs=(options,)) as pool:
        waiting = collections.deque()
        for number, planes in enumerate(video, 1):
            if (number - 1) % options.every:
                continue
            waiting.append((number, pool.submit(look, planes)))
            while len(waiting) > 2 * options.cores:
                first, it = waiting.popleft()
                yield first, it.result()
        for number, it in waiting:
            yield number, it.result()


def scaled(box, across, down):
    """A box in pixels of the video, rounded outwards."""
    left, top, width, height = box
    corner = int(left * across // 1), int(top * down // 1)
    return [*corner, int(-(-(left + width) * across // 1)) - corner[0], int(-(-(top + height) * down // 1)) - corner[1]]


def main():
    options = parsed()
    try:
        if options.check:
            made(options)
            return
        import y4m
    except ImportError as why:
        sys.exit(f"{why}: apt-get install python3-opencv")
    detecting.KEPT = max(detecting.KEPT, 2 * options.every)
    tracks, found = detecting.Tracks(), []
    with y4m.opened("-") as video:
        wide, high = (int(it) for it in options.size.split("x")) if options.size else (video.width, video.height)
        across, down = wide / video.width, high / video.height
        for number, boxes in results(video, options):
            kept = [(scaled(box, across, down), score) for box, score in boxes if options.min_score is None or score >= options.min_score]
            for name, (box, score) in zip(tracks.names(number, [box for box, _ in kept]), kept):
                found.append(f"{number},{name},{','.join(map(str, box))},{score:.3f}")
        print("\n".join([f"# frames {video.count}", *found]))


if __name__ == "__main__":
    try:
        main()
    except concurrent.futures.process.BrokenProcessPool:
        print("a detector ended by itself: is the memory full? --cores 1 takes less", file=sys.stderr)
        # (a worker that hangs must not keep this process)
        os._exit(1)
