"""What the program must print for a script, by docs/SCRIPT.md alone. It shares nothing with the program.

An image is a map from places to pixels, beside the cells that are no pixel; windows are sets of places. `answer` gives what
is written and the status.
"""
import re

GREATEST = 2**64 - 1
NUMBER = re.compile(rb"0|[1-9][0-9]*")


class Bad(Exception):
    """A line that has none of the forms."""


class Refused(Exception):
    """A command with a fault, and the fault's number."""


def number(field, most=GREATEST):
    if not NUMBER.fullmatch(field) or int(field) > most:
        raise Bad
    return int(field)


def path(field):
    """The windows of a path, each as left, top, width and height."""
    if field == b"-":
        return []
    windows = [[number(it) for it in window.split(b",")] for window in field.split(b"/")]
    if any(len(it) != 4 for it in windows):
        raise Bad
    return windows


class Image:
    def __init__(self, width, height, stride, cells):
        has_pixels = width > 0 and height > 0
        if stride == 0 or stride < width or has_pixels and len(cells) < stride * (height - 1) + width:
            raise Bad
        self.width, self.height, self.stride, self.cells = width, height, stride, cells
        # the cell of each place
        self.places = {(x, y): y * stride + x for y in range(height) for x in range(width)} if has_pixels else {}

    def window(self, windows):
        """The corner and the size of the window that a path comes to."""
        left, top, width, height = 0, 0, self.width, self.height
        for dx, dy, wide, high in windows:
            if dx + wide > width or dy + high > height:
                raise Refused(2)
            left, top, width, height = left + dx, top + dy, wide, high
        return left, top, width, height

    def pixels(self, window):
        """The map from the places of a window to its pixels."""
        left, top, width, height = window
        at = ((x - left, y - top, cell) for (x, y), cell in self.places.items())
        return {(x, y): self.cells[cell] for x, y, cell in at if 0 <= x < width and 0 <= y < height}

    def write(self, window, pixels):
        for (x, y), pixel in pixels.items():
            self.cells[self.places[window[0] + x, window[1] + y]] = pixel

    def compact(self):
        pixels = self.pixels((0, 0, self.width, self.height))
        cells = [pixels[at] for at in sorted(pixels, key=lambda at: (at[1], at[0]))]
        self.__init__(self.width, self.height, max(self.width, 1), cells)

    def line(self):
        return b" ".join([b"image", *(b"%d" % it for it in [self.width, self.height, self.stride, *self.cells])])


def image_of(images, index):
    if index >= len(images):
        raise Refused(1)
    return images[index]


def windows_of(images, *spots):
    """The image and the window of each pair of a number and a path: first all numbers are tested, and then the paths."""
    found = [image_of(images, index) for index, _ in spots]
    return [(image, image.window(windows)) for image, (_, windows) in zip(found, spots)]


def has(window, x, y):
    if x >= window[2] or y >= window[3]:
        raise Refused(3)


def get(images, index, windows, x, y):
    [(image, window)] = windows_of(images, (index, windows))
    has(window, x, y)
    return b"pixel %d" % image.pixels(window)[x, y]


def put(images, index, windows, x, y, value):
    [(image, window)] = windows_of(images, (index, windows))
    has(window, x, y)
    image.write(window, {(x, y): value})
    return b"done"


def fill(images, index, windows, value):
    [(image, window)] = windows_of(images, (index, windows))
    image.write(window, dict.fromkeys(image.pixels(window), value))
    return b"done"


def count(images, index, windows, value):
    [(image, window)] = windows_of(images, (index, windows))
    return b"count %d" % list(image.pixels(window).values()).count(value)


def same(images, *spots):
    (one, first), (two, second) = windows_of(images, spots[:2], spots[2:])
    is_same = first[2:] == second[2:] and one.pixels(first) == two.pixels(second)
    return b"true" if is_same else b"false"


def blit(images, *spots):
    (source, first), (target, second) = windows_of(images, spots[:2], spots[2:])
    if first[2:] != second[2:]:
        raise Refused(4)
    target.write(second, source.pixels(first))
    return b"done"


def mosaic(images, index, windows, wide, high):
    [(image, window)] = windows_of(images, (index, windows))
    if not wide or not high:
        raise Refused(5)
    old = image.pixels(window)
    image.write(window, {(x, y): old[x - x % wide, y - y % high] for x, y in old})
    return b"done"


def compact(images, index):
    image_of(images, index).compact()
    return b"done"


def pixel(field):
    return number(field, 255)


# each word, what carries it out, and its fields
WORDS = {
    b"get": (get, [number, path, number, number]),
    b"put": (put, [number, path, number, number, pixel]),
    b"fill": (fill, [number, path, pixel]),
    b"count": (count, [number, path, pixel]),
    b"same": (same, [number, path, number, path]),
    b"blit": (blit, [number, path, number, path]),
    b"mosaic": (mosaic, [number, path, number, number]),
    b"compact": (compact, [number]),
}


def read(script):
    """The images and the commands of a script, or the number of its first bad line."""
    lines = script.split(b"\n")
    images, commands = [], []
    for index, line in enumerate(lines[:-1] if not lines[-1] else lines, 1):
        word, *fields = line.split(b" ")
        try:
            if word == b"image" and not commands and len(fields) >= 3:
                size = [number(it, 2**32 - 1) for it in fields[:2]]
                images.append(Image(*size, number(fields[2]), [pixel(it) for it in fields[3:]]))
            elif word in WORDS and len(fields) == len(WORDS[word][1]):
                commands.append((WORDS[word][0], [kind(it) for kind, it in zip(WORDS[word][1], fields)]))
            else:
                raise Bad
        except Bad:
            return None, index
    return (images, commands), None


def answer(script):
    """What is written to a script, and the status."""
    found, bad = read(script)
    if bad:
        return b"fault line %d\n" % bad, 2
    images, commands = found
    lines = []
    for carry_out, fields in commands:
        try:
            lines.append(carry_out(images, *fields))
        except Refused as fault:
            lines.append(b"refused %d" % fault.args[0])
    return b"".join(it + b"\n" for it in [*lines, *(it.line() for it in images)]), 0
