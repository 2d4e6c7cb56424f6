"""What imgref_frames must print by docs/FRAMES.md: a model over the raw bytes, which shares nothing with the program."""
import re
from fractions import Fraction as Time

from edits import Fault, after, covered, numbered, picture_values, size_after, step_of, video_values

# How many bytes the head of a picture may have.
LONGEST_HEAD = 65536
# How many pixels share a chroma sample, across and down.
SAMPLINGS = {b"mono": None, b"420jpeg": (2, 2), b"420mpeg2": (2, 2), b"420paldv": (2, 2), b"420": (2, 2), b"422": (2, 1), b"411": (4, 1), b"444": (1, 1), b"444alpha": (1, 1, "alpha")}
# The same with samples of two bytes: a word that a number of bits follows.
DEEP = {b"mono": None, b"420p": (2, 2), b"422p": (2, 1), b"444p": (1, 1)}
# The head of a picture: its kind and three numbers with white space or comments between them, and one of these at its end.
GAP = rb"(?:[ \t-\r]|#[^\n\r]*[\n\r])"
HEAD = re.compile(rb"P([56])" + (GAP + rb"+(\d+)") * 3 + GAP)
# The head of a PAM picture: lines up to one with ENDHDR, each of them empty, a comment, or a word and a value.
LINES = re.compile(rb"P7\n(?:(?!ENDHDR\n)[^\n]*\n)*ENDHDR\n")
LINE = re.compile(rb"(WIDTH|HEIGHT|DEPTH|MAXVAL)[ \t]+(\d+)|(TUPLTYPE)[ \t]+(GRAYSCALE|RGB|GRAYSCALE_ALPHA|RGB_ALPHA)|#.*|", re.DOTALL)


def number(text):
    """A number without a sign and without a zero in front of another digit."""
    if not text.isdigit() or (len(text) > 1 and text[:1] == b"0") or int(text) >= 2**64:
        raise Fault("header")
    return int(text)


def format_of(line):
    """The size of the frames and their sampling, by the line that the video begins with."""
    word, *fields = line.split(b" ")
    tagged = {}
    for it in fields:
        if it[:1] in (b"W", b"H") and it[:1] in tagged:
            raise Fault("header")
        tagged.setdefault(it[:1], it[1:])
    if word != b"YUV4MPEG2" or b"W" not in tagged or b"H" not in tagged or not sampling_of(tagged.get(b"C", b"420")):
        raise Fault("header")
    size = number(tagged[b"W"]), number(tagged[b"H"])
    if not all(0 < it < 2**32 for it in size):
        raise Fault("header")
    return *size, *sampling_of(tagged.get(b"C", b"420"))


def sampling_of(word):
    """The sampling that a word names, and how many bits a sample has; or none."""
    deep = re.fullmatch(rb"(mono|420p|422p|444p)(9|10|12|14|16)", word)
    return (SAMPLINGS[word], 8) if word in SAMPLINGS else (DEEP[deep[1]], int(deep[2])) if deep else None


def is_interlaced(line):
    return next((it for it in line.split(b" ")[1:] if it[:1] == b"I"), b"") in (b"It", b"Ib", b"Im")


def planes_of(width, height, sampling):
    """Each plane: its size, and how many pixels share a sample."""
    planes = [(width, height, 1, 1)]
    if sampling:
        x, y, *alpha = sampling
        planes += [(-(-width // x), -(-height // y), x, y)] * 2 + [(width, height, 1, 1)] * len(alpha)
    return planes


def resized(line, width, height):
    """The line with another size."""
    sizes = {b"W": b"W%d" % width, b"H": b"H%d" % height}
    return b" ".join([b"YUV4MPEG2", *(sizes.get(it[:1], it) for it in line.split(b" ")[1:])])


def line_end(data, at):
    """Where the line of the frame that begins here ends, or 0: it has at most 256 bytes."""
    end = data.find(b"\n", at, at + 256) + 1
    return end if data[at:end] == b"FRAME\n" or data[at:end].startswith(b"FRAME ") else 0


def rate_of(line):
    """How many frames a second has, by the line of a video; or none."""
    found = next((it for it in line.split(b" ")[1:] if it[:1] == b"F"), b"")
    quotient = re.fullmatch(rb"F([1-9]\d*):([1-9]\d*)", found)
    numbers = [int(it) for it in quotient.groups()] if quotient else [2**32]
    return Time(*numbers) if max(numbers) < 2**32 else None


def answer(data, edits):
    """What is written for these bytes; a fault tells what was written before it. An edit has the numbers of its first frame and
    of the first after its last, its word, its window and what follows that."""
    return pictures(data, edits) if data[:1] == b"P" else video(data, edits)


def head_of(data, at):
    """Where the head of the picture ends that begins here, its size, the samples of a pixel, their greatest value, and a new
    head of it; or none."""
    head = HEAD.match(data, at)
    if head:
        kind, *size, greatest = (int(it) for it in head.groups())
        samples, new = 3 if kind == 6 else 1, b"P%d\n%%d %%d\n%d\n" % (kind, greatest)
    else:
        head = LINES.match(data, at)
        found = fields_of(head[0]) if head else None
        if not found:
            return None
        size, samples, greatest, name = found
        new = b"P7\nWIDTH %%d\nHEIGHT %%d\nDEPTH %d\nMAXVAL %d\nTUPLTYPE %s\nENDHDR\n" % (samples, greatest, name)
    fits = head.end() - at <= LONGEST_HEAD and all(0 < it < 2**32 for it in size) and 0 < greatest < 2**16
    return (head.end(), size, samples, greatest, new) if fits else None


def fields_of(head):
    """The size, the samples of a pixel, their greatest value and the type that the lines of a PAM head name, each once; or none."""
    found = {}
    for line in head.split(b"\n")[1:-2]:
        it = LINE.fullmatch(line)
        key, value = (it[1] or it[3], it[2] or it[4]) if it else (None, None)
        if not it or key in found or it[2] and int(value) >= 2**32:
            return None
        if key:
            found[key] = value
    if len(found) < 5:
        return None
    width, height, depth, greatest = (int(found[it]) for it in (b"WIDTH", b"HEIGHT", b"DEPTH", b"MAXVAL"))
    depths = {b"GRAYSCALE": 1, b"RGB": 3, b"GRAYSCALE_ALPHA": 2, b"RGB_ALPHA": 4}
    return ([width, height], depth, greatest, found[b"TUPLTYPE"]) if depth == depths[found[b"TUPLTYPE"]] else None


def pictures(data, edits):
    out, at, count = b"", 0, 0
    while at < len(data):
        head = head_of(data, at)
        if not head:
            raise Fault(f"frame {count}" if count else "header", out)
        at, size, samples, greatest, new = head
        planes = [(*size, 1, 1)] * samples
        try:
            length = 1 if greatest < 256 else 2
            if any(edit[2] == "crop" and edit[3][3] == 0 for edit in edits):
                raise Fault("outside")
            steps = [step_of(planes, size, covered(numbered(edit, None), size, (1, 1), greatest), picture_values(samples, greatest), greatest) for edit in edits]
        except Fault as fault:
            raise Fault(fault.name, out) from None
        end = at + size[0] * size[1] * samples * length
        if len(data) < end:
            raise Fault(f"frame {count}", out)
        numbers = [int.from_bytes(data[it:it + length], "big") for it in range(at, end, length)]
        cells = after(planes, [numbers[it::samples] for it in range(samples)], steps, count)
        out += new % tuple(size_after(size, edits) or size)
        out += b"".join(it.to_bytes(length, "big") for pixel in zip(*cells) for it in pixel)
        at, count = end, count + 1
    return out


def video(data, edits):
    end = data.find(b"\n", 0, 256)
    if end < 0:
        raise Fault("header")
    line, at = data[:end], end + 1
    width, height, sampling, bits = format_of(line)
    planes = planes_of(width, height, sampling)
    x, y = (sampling or (1, 1))[:2]
    unit = x, 2 * y if is_interlaced(line) else y
    if is_interlaced(line) and any(edit[2] == "turn" or edit[2] == "flip" and "rows" in edit[4] for edit in edits):
        raise Fault("outside")
    if any(edit[2] == "turn" for edit in edits) and next((it for it in line.split(b" ")[1:] if it[:1] == b"A"), b"A1:1") not in (b"A1:1", b"A0:0"):
        raise Fault("outside")
    steps = [step_of(planes, (width, height), covered(numbered(edit, rate_of(line)), (width, height), unit, 2**bits - 1), video_values(bits), 2**bits - 1) for edit in edits]
    resize = size_after((width, height), edits)
    if resize and resize[1] == 0:
        raise Fault("outside")
    out = (resized(line, *resize) if resize else line) + b"\n"
    sample = 1 if bits == 8 else 2
    size, frames = sample * sum(wide * high for wide, high, _, _ in planes), 0
    while at < len(data):
        end = line_end(data, at)
        if not end or len(data) < end + size:
            raise Fault(f"frame {frames}", out)
        out, at = out + data[at:end], end
        cells = []
        for wide, high, _, _ in planes:
            length = sample * wide * high
            cells.append([int.from_bytes(data[it:it + sample], "little") for it in range(at, at + length, sample)])
            at += length
        out += b"".join(it.to_bytes(sample, "little") for plane in after(planes, cells, steps, frames) for it in plane)
        frames += 1
    return out
