"""How ffmpeg decodes a video into raw frames, and how it encodes the output."""
import dataclasses
import functools
import pathlib
import re
import subprocess
from fractions import Fraction

from . import probing
from .running import Failure

# The containers, by the endings of names: ffmpeg's name of each, and the sound that it holds as it is.
MP4 = {"aac", "mp3", "ac3", "eac3", "alac"}
FORMATS = {
    ".mp4": ("mp4", MP4),
    ".m4v": ("mp4", MP4),
    ".mov": ("mov", MP4 | {"pcm_s16le", "pcm_s16be", "pcm_s24le", "pcm_s24be", "pcm_s32le", "pcm_u8", "pcm_f32le"}),
    ".mkv": ("matroska", None),
    ".webm": ("webm", {"opus", "vorbis"}),
}
# The encoders: what each is called by users, and its quality without --crf. A lower number is a better picture and a larger file.
ENCODERS = {"libx264": ("H.264", 18, 51), "libx265": ("HEVC", 20, 51), "libvpx-vp9": ("VP9", 24, 63)}
# What sound becomes where a container can't hold it.
SOUNDS = {"webm": ["-c:a", "libopus", "-b:a", "128k"]}
OTHER_SOUND = ["-c:a", "aac", "-b:a", "192k"]
# The rates that a video with an odd one may get.
RATES = [Fraction(24000, 1001), *map(Fraction, (24, 25)), Fraction(30000, 1001), *map(Fraction, (30, 48, 50)), Fraction(60000, 1001), *map(Fraction, (60, 100, 120, 240))]
HIGHEST = 300
HDR = {"smpte2084": "PQ", "arib-std-b67": "HLG"}
# The colours of a video, by the names that setparams has for them.
PARAMETERS = {"color_range": "range", "color_space": "colorspace", "color_transfer": "color_trc", "color_primaries": "color_primaries"}
# The tags that a muxer writes by itself: none is from the input.
OWN_TAGS = re.compile(r"(?:major_brand|minor_version|compatible_brands|handler_name|vendor_id|language|encoder|ENCODER|DURATION)=")
OWN_VALUES = re.compile(r"handler_name=(?:VideoHandler|SoundHandler|Core Media \w+|)$|(?:encoder|ENCODER)=(?:Lav[fc][\d. \w-]*|)$|language=und$|vendor_id=\[0\]\[0\]\[0\]\[0\]$|vendor_id=FFMP$")


@dataclasses.dataclass
class Plan:
    """How a video is decoded and encoded, and what is said of it before."""

    video: probing.Video
    rate: Fraction
    width: int
    height: int
    pixels: str
    encoder: str
    format: str
    decode: list
    encode: list
    sound: list
    notes: list

    def raw(self, *more, filters=(), pixels=None):
        """The command that writes the raw video: the same frames each time."""
        chain = [*self.decode_filters(), *filters]
        words = ["ffmpeg", "-v", "error", "-nostdin", *self.decode, "-i", probing.named(self.video.file), "-map", "0:V:0", "-an", "-sn", "-dn"]
        words += ["-vf", ",".join(chain)] if chain else []
        words += ["-r", str(self.rate)] if self.rate != self.video.rate else []
        return [*words, "-pix_fmt", pixels or self.pixels, "-strict", "-1", *more, "-f", "yuv4mpegpipe", "-"]

    def decode_filters(self):
        even = (self.width, self.height) != (self.video.width, self.video.height)
        return [f"crop={self.width}:{self.height}:0:0"] if even else []

    def written(self, name, *more):
        """The command that writes the output from raw video on its standard input, with the sound of the input."""
        words = ["ffmpeg", "-v", "error", "-nostdin", "-y", "-i", "-", *more, *(["-xerror"] if "-xerror" in self.decode else []), "-i", probing.named(self.video.file)]
        sound = ["-map", "1:a?", *self.sound] if self.sound else []
        clean = ["-map_metadata", "-1", "-map_chapters", "-1", "-sn", "-dn", "-fflags", "+bitexact", "-flags:v", "+bitexact", "-flags:a", "+bitexact"]
        return [*words, "-map", "0:v:0", *sound, *clean, *self.encode, "-f", self.format, name]


@functools.lru_cache
def encoders():
    """The encoders that this ffmpeg has."""
    done = subprocess.run(["ffmpeg", "-v", "error", "-encoders"], capture_output=True, text=True, stdin=subprocess.DEVNULL)
    return set(re.findall(r"(?m)^ [VAS]\S{5} (\S+)", done.stdout))


def form_of(output):
    """The container by the ending of a name."""
    ending = pathlib.Path(output).suffix.lower()
    if ending not in FORMATS:
        raise Failure(f"{output}: its ending is none of {' '.join(FORMATS)}")
    return FORMATS[ending]


def even_rate(video, notes):
    """The constant rate of the raw video. One that only a file with odd times names becomes a usual one."""
    if video.rate <= HIGHEST:
        return video.rate
    rate = min(RATES, key=lambda it: abs(it - video.mean_rate))
    notes.append(f"the rate varies, and the output has {float(rate):.2f} frames a second")
    return rate


def colours_of(video):
    """The filter that names the colours of the input again: raw video doesn't carry them."""
    # (what ffmpeg converts to the pixels of the raw video has the limited range)
    named = {PARAMETERS[it]: value for it, value in video.colours.items() if it != "color_range"}
    if named.get("colorspace") in ("rgb", "gbr"):
        named["colorspace"] = "bt709"
    return ["-vf", "setparams=" + ":".join(f"{name}={value}" for name, value in named.items())] if named else []


def encoder_of(form, bits, crf, cores):
    """The encoder of a container and its words."""
    name = "libvpx-vp9" if form == "webm" else "libx265" if bits > 8 else "libx264"
    if name not in encoders():
        raise Failure(f"this ffmpeg has no encoder {name}")
    label, quality, greatest = ENCODERS[name]
    if crf is not None and not 0 <= crf <= greatest:
        raise Failure(f"--crf {crf}: {label} takes 0 to {greatest}")
    words = ["-c:v", name, "-crf", str(quality if crf is None else crf)]
    if name == "libvpx-vp9":
        words += ["-b:v", "0", "-row-mt", "1", "-cpu-used", "4"]
    elif name == "libx265":
        words += ["-preset", "medium", "-x265-params", f"log-level=error:info=0:pools={cores}"]
        words += ["-tag:v", "hvc1"] if form in ("mp4", "mov") else []
    return name, [*words, "-threads", str(cores)]


def sound_of(video, form, kept, asked, notes):
    """The words for the sound: as it is, encoded, or left out."""
    if not asked or not video.sounds:
        return []
    wrong = sorted({it for it in video.sounds if kept is not None and it not in kept})
    if not wrong:
        return ["-c:a", "copy"]
    words = SOUNDS.get(form, OTHER_SOUND)
    if words[1] not in encoders():
        raise Failure(f"{form} doesn't hold sound of {', '.join(wrong)}, and this ffmpeg has no {words[1]}: name an output .mkv, or give --no-sound")
    notes.append(f"the sound is encoded again as {words[1].removeprefix('lib')}: {form} doesn't hold {', '.join(wrong)}")
    return words


def plan(video, options):
    """How a video becomes the output that the options name."""
    form, kept = form_of(options.output)
    notes, bits = [], 10 if video.bits > 8 else 8
    encoder, words = encoder_of(form, bits, options.crf, options.cores)
    width, height = video.width, video.height
    if encoder != "libvpx-vp9":
        width, height = width & ~1, height & ~1
        if not width or not height:
            raise Failure(f"{video.file} is {video.width} by {video.height} pixels: {ENCODERS[encoder][0]} takes no such size")
        if (width, height) != (video.width, video.height):
            notes.append(f"{ENCODERS[encoder][0]} takes even sizes: {video.width} by {video.height} pixels become {width} by {height}, without the last column or row")
    pixels = "yuv420p10le" if bits > 8 else "yuv420p"
    if bits > 8 and (width % 2 or height % 2):
        raise Failure(f"{video.file} has an odd size and {video.bits} bits, which ffmpeg writes wrongly as raw video: name an output .mp4 or .mkv")
    notes += not_kept(video, bits)
    if is_interlaced(video) and encoder == "libx264":
        words += ["-flags:v", "+ilme+ildct", "-x264-params", "tff=1" if video.order in ("tt", "tb") else "bff=1"]
    elif is_interlaced(video):
        notes.append(f"{ENCODERS[encoder][0]} is written as frames: the fields of interlaced video are kept as lines, and players don't know of them")
    # (a decoder that goes on after a fault shows other frames than were there)
    decode = [] if options.damaged else ["-xerror"]
    rate = even_rate(video, notes)
    sound = sound_of(video, form, kept, options.sound, notes)
    return Plan(video, rate, width, height, pixels, encoder, form, decode, [*colours_of(video), *words], sound, notes)


def is_interlaced(video):
    return video.order in ("tt", "bb", "tb", "bt")


def not_kept(video, bits):
    """What of the format isn't kept, in words."""
    if video.bits not in (8, 10):
        yield f"{video.bits} bits become {bits}"
    if not re.match(r"(?:yuvj?420p|nv12|p010|gray)", video.pixels):
        yield f"the pixels {video.pixels} become {'yuv420p10le' if bits > 8 else 'yuv420p'}: half the colours across and down, and nothing shines through"
    transfer = video.colours.get("color_transfer")
    if transfer in HDR and bits > 8:
        yield f"HDR ({HDR[transfer]}) is kept; figures of a screen's brightness and Dolby Vision aren't"
    if video.others:
        yield f"left out: {', '.join(sorted(set(video.others)))}"
    if video.turned:
        yield f"the picture is rotated by {video.turned} degrees, as players show it"


def foreign(left):
    """What an output has that may be from the input: no tag but those that a muxer writes, and only video and sound."""
    yield from (f"a stream: {it}" for it in left["streams"] if not it.startswith(("video ", "audio ")))
    if sum(it.startswith("video ") for it in left["streams"]) != 1:
        yield "not one video"
    if left["chapters"]:
        yield f"{left['chapters']} chapters"
    for it in left["tags"]:
        named = it.startswith(("handler_name=", "encoder=", "ENCODER=", "vendor_id=", "language="))
        if not OWN_TAGS.match(it) or named and not OWN_VALUES.match(it):
            yield f"a tag: {it}"
