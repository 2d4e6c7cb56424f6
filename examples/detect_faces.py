#!/usr/bin/env python3
"""Prints the faces that OpenCV finds in a raw video, as a tracker's list: lines frame,id,left,top,width,height,score.

    ffmpeg -i in.mp4 -f yuv4mpegpipe in.y4m
    python3 examples/detect_faces.py in.y4m > faces.txt

The video is the very y4m that imgref_frames edits, since other readers count other frames. A hyphen is standard input.
The detector has three of the cascades that OpenCV ships (Viola and Jones): faces from the front by two of them, and from both sides.
It misses faces that are small, turned, dark or half hidden, and finds some where there is none. Needs python3-opencv and
opencv-data.
"""
import pathlib
import sys

import detecting

# Where Debian keeps the cascades. The package of Python's own index names a folder of its own.
FOLDER = "/usr/share/opencv4/haarcascades"
FRONT = ("haarcascade_frontalface_default.xml", "haarcascade_frontalface_alt2.xml")
SIDE = "haarcascade_profileface.xml"
# Two boxes that overlap by more than this are one face.
SAME = 0.3


def cascade(cv2, name):
    """A detector of OpenCV's by the name of its file."""
    file = pathlib.Path(getattr(getattr(cv2, "data", None), "haarcascades", FOLDER), name)
    if not file.exists():
        sys.exit(f"{file} is missing: install opencv-data")
    return cv2.CascadeClassifier(str(file))


def around(one, other):
    """The smallest box around two."""
    left, top = min(one[0], other[0]), min(one[1], other[1])
    return [left, top, max(one[0] + one[2], other[0] + other[2]) - left, max(one[1] + one[3], other[1] + other[3]) - top]


def joined(boxes):
    """The same boxes, where those of one face become the box around them."""
    faces = []
    for box in boxes:
        at = next((at for at, it in enumerate(faces) if detecting.overlap(it[0], box) > SAME), None)
        if at is None:
            faces.append((box, 1))
        else:
            faces[at] = around(faces[at][0], box), faces[at][1] + 1
    return faces


def finder():
    """What finds the faces in the brightness of a frame. The score of one is how many of the four searches found it."""
    import cv2

    front, side = [cascade(cv2, it) for it in FRONT], cascade(cv2, SIDE)

    def search(detector, brightness):
        return [[int(it) for it in box] for box in detector.detectMultiScale(brightness, scaleFactor=1.1, minNeighbors=3, minSize=(20, 20))]

    def find(brightness):
        even, wide = cv2.equalizeHist(brightness), brightness.shape[1]
        boxes = [box for it in (*front, side) for box in search(it, even)]
        # The profile's cascade knows one side: the other one is found in the mirrored frame.
        boxes += [[wide - left - width, top, width, height] for left, top, width, height in search(side, cv2.flip(even, 1))]
        return joined(boxes)

    return find


if __name__ == "__main__":
    detecting.main(__doc__, finder)
