"""What an edit of imgref_frames makes of the samples of each plane, by docs/FRAMES.md: a part of the model that frames.py is."""
import math
import re
from fractions import Fraction as Time

# What is in the opposite order after these words.
FLIPS = {("flip", "rows"): ["rows"], ("flip", "columns"): ["columns"], ("turn", "half"): ["rows", "columns"]}


class Fault(Exception):
    """The fault that the program names, with what was written before it."""

    def __init__(self, name, written=b""):
        super().__init__(name)
        self.name, self.written = name, written


def drawn(window, size, steps):
    """The window of a cover or a box: outwards to whole samples, in a frame of this size. A fifth number is its margin."""
    sides = []
    for start, count, whole, step in zip(window[:2], window[2:4], size, steps):
        around = max(2, step) if len(window) < 5 or window[4] is None else window[4]
        begin, end = max(0, start - around), max(0, start + count + around)
        low, high = begin // step * step, min(whole, -(-end // step) * step)
        sides.append((low, high - low if count + around else 0) if begin < whole else (0, 0))
    return [it[0] for it in sides] + [it[1] for it in sides]


def covered(edit, size, steps, greatest):
    """A cover as the fill of whole samples that it is in a frame of this size, with black where it has no value. What a box
    becomes, which its last part says, of such samples. Every other edit as it is."""
    first, last, word, window, more = edit
    if word == "box":
        word, more = more
        return (first, last, "fill" if word == "cover" else word, drawn(window, size, steps), more or [(greatest + 1) // 16])
    if word != "cover":
        return edit
    return first, last, "fill", drawn(window, size, steps), more or [(greatest + 1) // 16]


def samples(pixels, step):
    return -(-pixels // step)


def under(window, size, steps):
    """A window of a frame of this size as one of samples. Its edges are theirs, or the right and the lower one of the frame."""
    left, top, width, height = window
    for start, count, whole, step in zip((left, top), (width, height), size, steps):
        if start % step or (count % step and start + count != whole):
            raise Fault("outside")
    return left // steps[0], top // steps[1], samples(width, steps[0]), samples(height, steps[1])


def padded(size, sides):
    """The size of a frame with a border of so many columns and rows: left, top, right, bottom."""
    return sides[0] + size[0] + sides[2], sides[1] + size[1] + sides[3]


def windows_of(plane, size, word, window, last):
    """The window in samples of a plane of a frame of this size, and what follows it. Of a pad it is the corner of the plane and
    the size around it."""
    wide, high, *steps = plane
    if word == "turn" and steps[0] != steps[1]:
        raise Fault("outside")
    if word in ("flip", "turn"):
        return None, last
    if word == "pad":
        whole = padded(size, window)
        left, top, _, _ = under((*window[:2], *size), whole, steps)
        if max(whole) >= 2**32:
            raise Fault("outside")
        return (left, top, samples(whole[0], steps[0]), samples(whole[1], steps[1])), last
    left, top, width, height = under(window, size, steps)
    if not (0 < wide < 2**32 and high < 2**32) or left + width > wide or top + height > high or word == "crop" and width == 0:
        raise Fault("outside")
    if word in ("mosaic", "means"):
        if 0 in last or any(it % step for it, step in zip(last, steps)):
            raise Fault("outside")
        last = [it // step for it, step in zip(last, steps)]
    if word == "blur":
        last = [samples(last[0], step) for step in steps]
    if word == "move":
        last = under((*last, *window[2:]), size, steps)[:2]
        if last[0] + width > wide or last[1] + height > high:
            raise Fault("outside")
    return (left, top, width, height), last


def edited(plane, cells, word, window, last):
    """The cells of a plane after the edit."""
    wide, high = plane[:2]
    old = [list(cells[row * wide:(row + 1) * wide]) for row in range(high)]
    if word == "flip":
        rows, columns = (-1 if it in last else 1 for it in ("rows", "columns"))
        return [it for row in old[::rows] for it in row[::columns]]
    if word == "turn":
        return [old[high - 1 - x][y] if last == ["right"] else old[x][wide - 1 - y] for y in range(wide) for x in range(high)]
    left, top, width, height = window
    if word == "crop":
        return [it for row in old[top:top + height] for it in row[left:left + width]]
    if word == "pad":
        around = [last * width for _ in range(height)]
        return [it for y, row in enumerate(around) for it in (row[:left] + old[y - top] + row[left + wide:] if top <= y < top + high else row)]
    new = [list(row) for row in old]
    for y in range(height):
        for x in range(width):
            if word == "fill":
                new[top + y][left + x] = last[0]
            elif word == "mosaic":
                new[top + y][left + x] = old[top + y - y % last[1]][left + x - x % last[0]]
            elif word == "means":
                tile = [it for row in old[top + y - y % last[1]:top + min(height, y - y % last[1] + last[1])] for it in row[left + x - x % last[0]:left + min(width, x - x % last[0] + last[0])]]
                new[top + y][left + x] = (2 * sum(tile) + len(tile)) // (2 * len(tile))
            elif word == "blur":
                box = [old[top + j][left + i] for j in range(max(0, y - last[1]), min(height, y + last[1] + 1)) for i in range(max(0, x - last[0]), min(width, x + last[0] + 1))]
                new[top + y][left + x] = (2 * sum(box) + len(box)) // (2 * len(box))
            else:
                new[last[1] + y][last[0] + x] = old[top + y][left + x]
    return [it for row in new for it in row]


def moment(text, none):
    """A number of a frame, or a time in seconds as a fraction; without a text it is this."""
    clock = re.fullmatch(r"(\d\d):([0-5]\d):([0-5]\d)(?:\.(\d{1,9}))?", text)
    if clock:
        hours, minutes, seconds, digits = clock.groups()
        return Time((int(hours) * 60 + int(minutes)) * 60 + int(seconds)) + Time(int(digits or 0), 10 ** len(digits or ""))
    return int(text) if text else none


def edits_of(words):
    """The edits that words are."""
    words, edits = list(words), []
    while words:
        first, last = words.pop(0).split("..") if ".." in words[0] else ("0", "")
        first = moment(first, 0)
        last = moment(last, None if isinstance(first, Time) else 2**64 - 1)
        if last is not None and (isinstance(first, Time) != isinstance(last, Time) or last <= first):
            raise Fault("words")
        word, numbers = words.pop(0), words.pop(0)
        if (word, numbers) in FLIPS:
            edits.append((first, last, "flip", None, FLIPS[word, numbers]))
            continue
        if word == "turn":
            edits.append((first, last, word, None, [numbers]))
            continue
        window = [int(it) for it in re.split("[,+]", numbers)]
        if word == "crop":
            more = []
        elif word == "cover":
            more = [int(words.pop(0))] if words and words[0].isdigit() else []
        else:
            more = [int(it) for it in words.pop(0).split(",")]
        if word == "blur" and more[0] > 32767:
            raise Fault("words")
        edits.append((first, last, word, window, more))
    return edits


def may_meet(one, other):
    """Whether two edits may be for one frame. Numbers of frames and times may."""
    if isinstance(one[0], Time) != isinstance(other[0], Time):
        return True
    return all(last is None or first < last for first, last in ((one[0], other[1]), (other[0], one[1])))


def late_pairs(edits):
    """The numbers, from 1, of each edit that may show pixels and of a later one that hides some in the same frame: those with a cover or a fill, then those with a mosaic, then those with means."""
    spoilt = ({it: ("cover", "fill") for it in ("move", "mosaic", "means", "blur")}, {it: ("mosaic",) for it in ("move", "means", "blur")}, {"move": ("means",)})
    numbers = range(len(edits))
    return [(one + 1, other + 1) for kind in spoilt for one in numbers for other in numbers[one + 1:] if edits[other][2] in kind.get(edits[one][2], ()) and may_meet(edits[one], edits[other])]


def numbered(edit, rate):
    """An edit with numbers of frames in the place of times. Frame n is at n / rate seconds."""
    if not isinstance(edit[0], Time):
        return edit
    if rate is None:
        raise Fault("outside")
    first, last = (2**64 - 1 if it is None else math.ceil(it * rate) for it in edit[:2])
    if last <= first:
        raise Fault("outside")
    return first, last, *edit[2:]


def step_of(planes, size, edit, values, greatest=255):
    """An edit as one of each plane, with what is written there: these values of a list of one or three, none of them above the
    greatest; or it isn't an edit here."""
    first, last, word, window, more = edit
    found = [windows_of(plane, size, word, window, more) for plane in planes]
    if word in ("fill", "pad"):
        if len(more) not in values or max(more) > greatest:
            raise Fault("outside")
        found = [(inside, [value]) for (inside, _), value in zip(found, values[len(more)](more))]
    return first, last, word, found


def video_values(bits):
    """What a fill writes in each plane of a video: no colour in chroma samples, and opaque."""
    return {1: lambda more: [more[0], 2 ** (bits - 1), 2 ** (bits - 1), 2**bits - 1]}


def picture_values(samples, greatest):
    """The same of a picture: a colour only where there are three samples, and opaque where there is one more."""
    colours = 3 if samples > 2 else 1
    return {1: lambda more: more * colours + [greatest]} | ({3: lambda more: more + [greatest]} if colours == 3 else {})


def after(planes, cells, steps, number):
    """The cells of each plane after the steps that name this frame."""
    for first, last, word, found in steps:
        if first <= number < last:
            cells = [edited(plane, old, word, *it) for plane, old, it in zip(planes, cells, found)]
    return cells


def size_after(size, edits):
    """The size that a crop, a pad or a quarter turn leaves, or none."""
    sizes = {"crop": lambda window: window[2:], "pad": lambda sides: padded(size, sides), "turn": lambda _: size[::-1]}
    return next((sizes[edit[2]](edit[3]) for edit in edits if edit[2] in sizes), None)
