"""Where the programs are that imgref-hide starts, and their versions."""
import pathlib
import re
import shutil
import subprocess
import sys

from .running import Failure

PACKAGE = pathlib.Path(__file__).resolve().parent
# The folder that has programs/ and examples/: the repository, or share/imgref.
TOP = PACKAGE.parent.parent
SHARED = TOP / "examples"
# Where the proved program may be, besides the PATH: as installed, and as make frames builds it.
BESIDE = (TOP.parent.parent / "bin/imgref_frames", TOP / "crates/imgref_frames/out/imgref_frames")


def frames_program():
    """The proved program."""
    found = shutil.which("imgref_frames") or next((str(it) for it in BESIDE if it.is_file()), None)
    if not found:
        raise Failure("imgref_frames isn't in the PATH: install the package imgref-tools, or type make frames in a clone and add its folder to the PATH")
    return found


def needed(*names):
    """Refuses where one of these programs is missing."""
    for it in names:
        if not shutil.which(it):
            raise Failure(f"{it} is missing: apt-get install ffmpeg")


def python_with(module, package):
    """A Python that has a module: this one, or Debian's."""
    for it in dict.fromkeys((sys.executable, "/usr/bin/python3")):
        if shutil.which(it) and subprocess.run([it, "-c", f"import {module}"], capture_output=True, stdin=subprocess.DEVNULL).returncode == 0:
            return it
    raise Failure(f"Python has no {module}: apt-get install {package}")


def said_by(*words):
    """The first line that a command prints, or why it printed nothing."""
    try:
        done = subprocess.run(words, capture_output=True, text=True, errors="replace", stdin=subprocess.DEVNULL, timeout=60)
    except (OSError, subprocess.SubprocessError) as why:
        return f"unknown: {why}"
    return next(iter((done.stdout or done.stderr).splitlines()), "unknown")


def versions(program, python):
    """The versions of all that has a part in an output. Without a Python for the detectors OpenCV has none."""
    own = said_by(program, "--version")
    if not own.startswith("imgref_frames "):
        raise Failure(f"{program} isn't imgref_frames: by --version it says '{own}'")
    found = {
        "imgref_frames": own,
        "ffmpeg": re.sub(r" Copyright.*", "", said_by("ffmpeg", "-version")),
        "python": sys.version.split()[0],
    }
    if python:
        found["opencv"] = said_by(python, "-c", "import cv2; print(cv2.__version__)")
    return found


def own_version():
    """The version of imgref-hide: that of the proved program."""
    try:
        return said_by(frames_program(), "--version").replace("imgref_frames", "imgref-hide")
    except Failure:
        return "imgref-hide: the version is that of imgref_frames, which is missing"
