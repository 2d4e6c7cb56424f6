"""What ffprobe says of a video, and whether the video is cut off."""
import dataclasses
import json
import os
import re
import subprocess
from fractions import Fraction

from .running import Failure, Signals

# What a demuxer says of a file that is cut off.
CUT = re.compile(r"partial file|ended prematurely|truncat|Packet corrupt|unexpected end|End of file", re.IGNORECASE)
ENTRIES = "stream=index,codec_type,codec_name,width,height,pix_fmt,field_order,color_range,color_space,color_transfer,color_primaries,r_frame_rate,avg_frame_rate,nb_frames,duration,start_time"
ENTRIES += ":stream_disposition=attached_pic:stream_tags=rotate:stream_side_data=side_data_type,rotation:format=format_name,duration,size"
# How many seconds the last packet may be before the end that a container names.
SLACK = 1.5


@dataclasses.dataclass
class Video:
    """A video: its file, the stream that is covered, the names of the codecs of its sound, and what else is in its container."""

    file: str
    container: str
    width: int
    height: int
    pixels: str
    bits: int
    order: str
    colours: dict
    rate: Fraction
    mean_rate: Fraction
    duration: float
    size: int
    turned: int
    sounds: list
    others: list

    def frames(self, rate):
        """About how many frames the raw video has."""
        return round(self.duration * rate) if self.duration and rate else None


def named(path):
    """A path as a name for ffmpeg, which may begin with a hyphen or have a colon."""
    return "file:" + os.path.abspath(path)


def asked(words):
    """What ffprobe prints, and what it says."""
    with subprocess.Popen(words, stdin=subprocess.DEVNULL, stdout=subprocess.PIPE, stderr=subprocess.PIPE, start_new_session=True) as process:
        while True:
            try:
                out, said = process.communicate(timeout=0.2)
                return process.returncode, out, said.decode(errors="replace").strip()
            except subprocess.TimeoutExpired:
                if Signals.came:
                    process.kill()
                    process.communicate()
                    Signals.look()


def fraction(text):
    numbers = re.fullmatch(r"(\d+)/(\d+)", text or "")
    return Fraction(int(numbers[1]), int(numbers[2])) if numbers and int(numbers[1]) and int(numbers[2]) else None


def bits_of(pixels):
    """The bits of a sample, by the name of a format."""
    found = re.search(r"(?:p|gray|p0)(9|10|12|14|16)(?:le|be)?$", pixels or "")
    return int(found[1]) if found else 8


def number(text):
    try:
        return float(text)
    except (TypeError, ValueError):
        return None


def turned_by(stream):
    """By how many degrees a player turns the picture."""
    for it in stream.get("side_data_list", []):
        if "rotation" in it:
            return int(float(it["rotation"])) % 360
    return -int(float(stream.get("tags", {}).get("rotate", 0))) % 360


def probe(path, may_be_damaged=False):
    """What is in a file. A file without a video, or one that can't be read, is a Failure; so is one that is cut off, where it may not be."""
    status, out, said = asked(["ffprobe", "-v", "error", "-show_entries", ENTRIES, "-of", "json", named(path)])
    reason = re.sub(r"^.*?: (?=\S)", "", said.splitlines()[-1]) if said else ""
    if status:
        more = ": the file is cut off, or it is no video" if "moov atom not found" in said else ""
        raise Failure(f"{path} can't be read: {'moov atom not found' if more else reason}{more}")
    found = json.loads(out)
    streams, form = found.get("streams", []), found.get("format", {})
    pictures = [it for it in streams if it.get("codec_type") == "video" and not it.get("disposition", {}).get("attached_pic")]
    if not pictures or not pictures[0].get("width"):
        raise Failure(f"{path} has no video")
    stream = pictures[0]
    turned = turned_by(stream)
    size = (stream["width"], stream["height"]) if turned % 180 == 0 else (stream["height"], stream["width"])
    rate = fraction(stream.get("r_frame_rate")) or fraction(stream.get("avg_frame_rate")) or Fraction(25)
    colours = {it: stream[it] for it in ("color_range", "color_space", "color_transfer", "color_primaries") if stream.get(it) not in (None, "unknown", "reserved")}
    duration = number(stream.get("duration")) or number(form.get("duration")) or 0.0
    if not may_be_damaged:
        check_whole(path, stream, form, streams)
    return Video(
        path, form.get("format_name", ""), *size, stream.get("pix_fmt", "yuv420p"), bits_of(stream.get("pix_fmt")), stream.get("field_order", "progressive"), colours,
        rate, fraction(stream.get("avg_frame_rate")) or rate, duration, int(form.get("size", 0)), turned,
        [it.get("codec_name", "unknown") for it in streams if it.get("codec_type") == "audio"],
        [kind_of(it) for it in streams if it is not stream and it.get("codec_type") != "audio"],
    )  # fmt: skip


def kind_of(stream):
    """What else a stream is, in a word."""
    if stream.get("disposition", {}).get("attached_pic"):
        return "thumbnail"
    return {"video": "second video"}.get(stream.get("codec_type"), stream.get("codec_type", "unknown"))


class CutOff(Failure):
    """A video that is cut off."""


def check_whole(path, stream, form, streams):
    """Counts the packets of a video. One whose container says more is cut off."""
    entries, is_mov = "packet=stream_index,pts_time,duration_time", "mov" in form.get("format_name", "")
    # (an edit list may leave out frames, which are there)
    all_of_it = ["-ignore_editlist", "1"] if is_mov else []
    status, out, said = asked(["ffprobe", "-v", "error", *all_of_it, "-show_entries", entries, "-of", "csv=p=0", named(path)])
    count, last = 0, 0.0
    for line in out.splitlines():
        index, time, length, *_ = (*line.split(b","), b"", b"", b"")
        count += index == str(stream["index"]).encode()
        last = max(last, (number(time) or 0.0) + (number(length) or 0.0))
    due = int(stream["nb_frames"]) if str(stream.get("nb_frames", "")).isdigit() else 0
    # (other containers than MP4 count frames that have no data)
    spared = 0 if is_mov else SLACK * float(fraction(stream.get("avg_frame_rate")) or 25)
    if due > count + spared:
        raise CutOff(f"{path} is cut off: its container names {due} frames of video, and {count} are there")
    names_end = "matroska" in form.get("format_name", "")
    end = (number(form.get("duration")) or 0.0) if names_end else 0.0
    start = min((number(it.get("start_time")) or 0.0 for it in streams), default=0.0)
    if end and last - min(start, 0.0) < end - SLACK:
        raise CutOff(f"{path} is cut off: its container names {end:.1f} seconds, and {last:.1f} are there")
    if status or CUT.search(said):
        raise CutOff(f"{path} is cut off: {said.splitlines()[-1] if said else 'ffprobe failed'}")
    if not count:
        raise Failure(f"{path} has no frame of video")


def left_in(path):
    """The streams and the tags that a file has, for the last check of an output."""
    entries = "stream=codec_type,codec_name:format_tags:stream_tags:chapter=id"
    status, out, said = asked(["ffprobe", "-v", "error", "-show_chapters", "-show_entries", entries, "-of", "json", named(path)])
    if status:
        raise Failure(f"the output can't be read again: {said}")
    found = json.loads(out)
    tags = [it.get("tags", {}) for it in (found.get("format", {}), *found.get("streams", []))]
    return {
        "streams": [f"{it.get('codec_type')} {it.get('codec_name')}" for it in found.get("streams", [])],
        "tags": sorted({f"{name}={value}" for it in tags for name, value in it.items()}),
        "chapters": len(found.get("chapters", [])),
    }
