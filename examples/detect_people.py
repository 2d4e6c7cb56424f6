#!/usr/bin/env python3
"""Prints the people that OpenCV finds in a raw video, as a tracker's list: lines frame,id,left,top,width,height,score.

    ffmpeg -i in.mp4 -f yuv4mpegpipe in.y4m
    python3 examples/detect_people.py in.y4m > people.txt

The video is the very y4m that imgref_frames edits, since other readers count other frames. A hyphen is standard input.
The detector is the one that OpenCV has built in (HOG, Dalal and Triggs). It finds whole standing people, and misses many: try it on
your video before you rely on it. Needs python3-opencv.
"""
import detecting

# The height and the width of what the detector searches for.
SMALLEST = 128, 64


def finder():
    """What finds the people in the brightness of a frame."""
    import cv2

    detector = cv2.HOGDescriptor()
    detector.setSVMDetector(cv2.HOGDescriptor_getDefaultPeopleDetector())

    def find(brightness):
        # (OpenCV ends with a crash where a frame is smaller than what it searches for)
        below, right = (max(0, least - it) for least, it in zip(SMALLEST, brightness.shape))
        brightness = cv2.copyMakeBorder(brightness, 0, below, 0, right, cv2.BORDER_REPLICATE)
        boxes, scores = detector.detectMultiScale(brightness, winStride=(8, 8), padding=(8, 8), scale=1.05)
        return zip(boxes, scores)

    return find


if __name__ == "__main__":
    detecting.main(__doc__, finder)
