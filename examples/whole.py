#!/usr/bin/env python3
"""Tells whether a video is whole: ffmpeg reads most kinds of files that are cut off to their end, and reports no fault.

    python3 examples/whole.py in.mp4 [faces.txt]

The packets of the file are compared with what its header says: how many frames it has (mp4, mov, avi), or how long it lasts (mkv, webm,
flv). Where they end more than a frame before, the status is 1. With a list that has a line # frames N, these are compared with the
packets too. Of other kinds, as ts, and of files that were written into a pipe, the header says neither, and then a line says so.

Needs ffprobe, which comes with ffmpeg.
"""
import json
import pathlib
import re
import subprocess
import sys
from fractions import Fraction

# The kinds of files whose header says how long they last, by ffprobe's names. Of others ffprobe's time is that of the last packet.
TIMED = {"matroska,webm", "flv", "asf"}
# How long a packet of sound may be that doesn't say it, in seconds; and what ffmpeg says of a file that ends within a packet.
SOUND, CUT = Fraction("0.03"), ("partial file", "ended prematurely")
LINE = re.compile(r"# frames (\d+)\s*")


class NotWhole(Exception):
    """Why a video isn't whole."""


def probed(file, entries, *options):
    """What ffprobe says of a file, and what it complains of."""
    name = f"file:{file}"
    try:
        done = subprocess.run(["ffprobe", "-v", "error", *options, "-show_entries", entries, "-of", "json", name], capture_output=True, text=True, errors="replace")
    except OSError as why:
        raise NotWhole(f"ffprobe can't be run: {why.strerror}") from None
    if done.returncode:
        raise NotWhole(f"{file} can't be read: {(done.stderr.strip().splitlines() or ['ffprobe failed'])[-1]}")
    return json.loads(done.stdout), done.stderr


def number(text):
    """A number, or none."""
    try:
        return Fraction(text)
    except (TypeError, ValueError, ZeroDivisionError):
        return None


def ends_of(file, index):
    """When the last packet of the file ends, and the last of a stream, in seconds."""
    packets = probed(file, "packet=stream_index,pts_time,dts_time,duration_time")[0]["packets"]
    ends = [(it["stream_index"] == index, (number(it.get("pts_time", it.get("dts_time"))) or 0) + (number(it.get("duration_time")) or 0)) for it in packets]
    return max((end for _, end in ends), default=0), max((end for is_it, end in ends if is_it), default=0)


def check(file, frames=None):
    """Raises NotWhole where a video is cut off, or where a list was made from another number of its frames. Returns what isn't known."""
    found, said = probed(file, "stream=index,codec_type,nb_frames,nb_read_packets,r_frame_rate:stream_disposition=attached_pic:format=format_name,duration,start_time", "-count_packets")
    videos = [it for it in found["streams"] if it["codec_type"] == "video" and not it.get("disposition", {}).get("attached_pic")]
    if not videos:
        raise NotWhole(f"{file} has no video")
    video, packets, due, lasts = videos[0], int(videos[0].get("nb_read_packets", 0)), number(videos[0].get("nb_frames")), number(found["format"].get("duration"))
    frame = 1 / (number(video.get("r_frame_rate")) or 25)
    if any(it in said for it in CUT):
        raise NotWhole(f"{file} is cut off: it ends within a frame, after {packets}")
    if due is not None and due - packets > 1:
        raise NotWhole(f"{file} is cut off: it has {packets} frames, and its header says {due}")
    is_timed = found["format"]["format_name"] in TIMED and lasts is not None
    last, shown = ends_of(file, video["index"])
    if due is None and is_timed and lasts - last > frame + SOUND:
        raise NotWhole(f"{file} is cut off: it ends after {float(last):.2f} seconds, and its header says {float(lasts):.2f}")
    start = min(number(found["format"].get("start_time")) or 0, shown)
    if frames is not None and abs(frames - (shown - start) / frame) > 1 and abs(frames - packets) > 1:
        raise NotWhole(f"{file} has {packets} frames up to second {float(shown):.2f}, and {frames} could be decoded")
    return None if due is not None or is_timed else f"{file}: its header says neither how many frames it has nor how long it lasts, so whether it is cut off isn't known"


def frames_of(file):
    """The number of frames that a list says it was made from, or none."""
    found = [LINE.fullmatch(it) for it in pathlib.Path(file).read_text(errors="replace").splitlines()]
    return next((int(it[1]) for it in found if it), None)


def main():
    if not 2 <= len(sys.argv) <= 3 or sys.argv[1].startswith("-"):
        print(__doc__, file=sys.stderr)
        sys.exit(2)
    try:
        unknown = check(sys.argv[1], frames_of(sys.argv[2]) if len(sys.argv) == 3 else None)
    except (OSError, NotWhole) as why:
        sys.exit(f"whole: {why}")
    if unknown:
        print(f"whole: {unknown}", file=sys.stderr)


if __name__ == "__main__":
    main()
