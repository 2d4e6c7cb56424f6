#!/usr/bin/env python3
"""Prints the table of docs/HIDE.md: in how many frames of four small videos imgref-hide hides a face, and how long that takes.

    hidden_shares.py [WORDS..]     with these options of imgref-hide besides

The face is that of docs/person.png, in videos of 24 frames of 640 by 360 pixels: it moves, it is dark and noisy, it is rolled by 0 to
45 degrees, and it shrinks from 120 to 20 pixels. Hidden is a frame in which both cheeks, the nose and the forehead are black.
Needs a Python with cv2, ffmpeg, and imgref_frames as imgref-hide finds it.
"""
import os
import pathlib
import subprocess
import sys
import tempfile
import time

import cv2
import numpy

ROOT = pathlib.Path(__file__).resolve().parent.parent
WIDTH, HEIGHT, FRAMES = 640, 360, 24
# The cheeks, the nose and the forehead in docs/person.png, and the middle and the width of the face.
PARTS, MIDDLE, FACE = ((76, 92), (116, 92), (96, 88), (96, 64)), (96, 75), 76


def turned(scale, degrees, place):
    """How the picture is put into a frame: its face is so much larger, rolled, and at a place."""
    matrix = cv2.getRotationMatrix2D(MIDDLE, degrees, scale)
    matrix[:, 2] += numpy.array(place) - MIDDLE
    return matrix


def moving(at):
    return turned(1.2, 0, (90 + 19 * at, 180 + 40 * numpy.sin(at / 3))), 1.0, 0


def dark(at):
    return turned(1.2, 0, (200 + 8 * at, 180)), 0.16, 3


def rolled(at):
    return turned(1.2, 45 * at / (FRAMES - 1), (320, 180)), 1.0, 0


def shrinking(at):
    return turned((120 - 100 * at / (FRAMES - 1)) / FACE, 0, (320, 180)), 1.0, 0


def video(path, kind):
    """Writes a video without loss, and returns where the parts of the face are in each frame."""
    picture, random = cv2.imread(str(ROOT / "docs/person.png")), numpy.random.default_rng(1)
    back = numpy.tile(numpy.linspace(90, 170, WIDTH, dtype=numpy.uint8)[None, :, None], (HEIGHT, 1, 3))
    command = ["ffmpeg", "-v", "error", "-y", "-f", "rawvideo", "-pix_fmt", "bgr24", "-s", f"{WIDTH}x{HEIGHT}", "-r", "24", "-i", "-", "-c:v", "libx264", "-crf", "12", "-pix_fmt", "yuv420p", path]
    places = []
    with subprocess.Popen(command, stdin=subprocess.PIPE) as encoder:
        for at in range(FRAMES):
            matrix, light, noise = kind(at)
            frame = back.copy()
            cv2.warpAffine(picture, matrix, (WIDTH, HEIGHT), frame, cv2.INTER_AREA, cv2.BORDER_TRANSPARENT)
            frame = frame * light + random.normal(0, noise or 1e-9, frame.shape)
            encoder.stdin.write(numpy.clip(frame, 0, 255).astype(numpy.uint8).tobytes())
            places.append([tuple(int(it) for it in matrix @ (*part, 1)) for part in PARTS])
        encoder.stdin.close()
    return places


def hidden(path, places):
    """In how many frames all parts of the face are black."""
    cells = subprocess.run(["ffmpeg", "-v", "error", "-i", path, "-pix_fmt", "gray", "-f", "rawvideo", "-"], capture_output=True).stdout if path.exists() else b""
    frames = numpy.frombuffer(cells, numpy.uint8).reshape(-1, HEIGHT, WIDTH)
    return sum(all(frame[y - 2:y + 3, x - 2:x + 3].max() <= 4 for x, y in parts) for frame, parts in zip(frames, places))


def main():
    with tempfile.TemporaryDirectory() as folder:
        for kind in (moving, dark, rolled, shrinking):
            given, made = pathlib.Path(folder, f"{kind.__name__}.mp4"), pathlib.Path(folder, f"{kind.__name__}-out.mp4")
            places, began = video(given, kind), time.monotonic()
            before = os.times()
            done = subprocess.run([ROOT / "programs/imgref-hide", given, made, "--sheet", "0", "--quiet", *sys.argv[1:]], capture_output=True, text=True)
            after = os.times()
            used = after.children_user + after.children_system - before.children_user - before.children_system
            print(f"{kind.__name__}: {hidden(made, places)} of {FRAMES} frames hidden, {time.monotonic() - began:.1f} s, {used:.1f} s of processors {done.stderr.strip()}")


if __name__ == "__main__":
    main()
