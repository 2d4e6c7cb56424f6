"""Pixels of several numbers, and images by the array interface, beside a plain model. Prints 'N
passed, N failed, N skipped' last."""
import array
import ctypes
import random
import struct

from counting import check, end, exported, numpy_or_none, raises, skip
from imgref import Image, Refused, Window


class Model:
    """A colour image as a list of rows of pixels."""

    def __init__(self, image):
        self.rows = [[image.get(x, y) for x in range(image.width)] for y in range(image.height)]

    def fill(self, window, value):
        for x, y in places(window):
            self.rows[y][x] = value

    def move_window(self, source, target):
        taken = [self.rows[y][x] for x, y in places(source)]
        for (x, y), it in zip(places(target), taken):
            self.rows[y][x] = it

    def mosaic(self, window, tile_width, tile_height):
        left, top = window[:2]
        for x, y in places(window):
            self.rows[y][x] = self.rows[y - (y - top) % tile_height][x - (x - left) % tile_width]

    def mosaic_means(self, window, tile_width, tile_height):
        (left, top), tiles = window[:2], {}
        for x, y in places(window):
            tiles.setdefault(((x - left) // tile_width, (y - top) // tile_height), []).append((x, y))
        for its in tiles.values():
            pixels = [self.rows[y][x] for x, y in its]
            numbers = zip(*pixels) if isinstance(pixels[0], tuple) else [pixels]
            means = tuple((2 * sum(it) + len(it)) // (2 * len(it)) for it in numbers)
            for x, y in its:
                self.rows[y][x] = means if isinstance(pixels[0], tuple) else means[0]

    def blur(self, window, radius):
        (left, top, width, height), (across, down), made = window, radius if isinstance(radius, tuple) else (radius, radius), {}
        for x, y in places(window):
            pixels = [self.rows[v][u] for u, v in places(window) if abs(u - x) <= across and abs(v - y) <= down]
            numbers = zip(*pixels) if isinstance(pixels[0], tuple) else [pixels]
            means = tuple((2 * sum(it) + len(it)) // (2 * len(it)) for it in numbers)
            made[x, y] = means if isinstance(pixels[0], tuple) else means[0]
        for (x, y), it in made.items():
            self.rows[y][x] = it

    def put(self, x, y, value):
        self.rows[y][x] = value

    def flip_rows(self, window):
        left, top, width, height = window
        self.move({(x, y): (x, 2 * top + height - 1 - y) for x, y in places(window)})

    def flip_columns(self, window):
        left, top, width, height = window
        self.move({(x, y): (2 * left + width - 1 - x, y) for x, y in places(window)})

    def turn(self, turn):
        if turn == "half":
            self.rows = [it[::-1] for it in reversed(self.rows)]
        else:
            self.rows = [list(it) for it in zip(*reversed(self.rows))] if turn == "right" else [list(it) for it in zip(*self.rows)][::-1]

    def transpose(self):
        self.rows = [list(it) for it in zip(*self.rows)]

    def swap_rows(self, y, z):
        self.rows[y], self.rows[z] = self.rows[z], self.rows[y]

    def move(self, sources):
        """Each place gets the pixel of another."""
        taken = {to: self.rows[y][x] for to, (x, y) in sources.items()}
        for (x, y), it in taken.items():
            self.rows[y][x] = it

    def pack(self):
        pass


def places(window):
    left, top, width, height = window
    return [(x, y) for y in range(top, top + height) for x in range(left, left + width)]


def a_window(chance, image, width=None, height=None):
    """A window of an image, of a given size where there is one."""
    width = chance.randint(0, image.width) if width is None else width
    height = chance.randint(0, image.height) if height is None else height
    return Window(chance.randint(0, image.width - width), chance.randint(0, image.height - height), width, height)


def step(chance, image, pixel):
    """A call, and what it is given."""
    window, tiles = a_window(chance, image), (chance.randint(1, 4), chance.randint(1, 4))
    target = a_window(chance, image, window.width, window.height)
    place = (chance.randrange(image.width), chance.randrange(image.height))
    rows = (chance.randrange(image.height), chance.randrange(image.height))
    calls = [("fill", (window, pixel())), ("move_window", (window, target)), ("mosaic", (window, *tiles)), ("put", (*place, pixel())), ("pack", ())]
    calls += [("flip_rows", (window,)), ("flip_columns", (window,)), ("swap_rows", rows)]
    if image.format[-1] in "BH":
        calls.append(("mosaic_means", (window, *tiles)))
    if image.format == "B":
        calls.append(("blur", (window, chance.choice((chance.randint(0, 3), (chance.randint(0, 9), chance.randint(0, 2)))))))
    return chance.choices(calls, [4, 4, 3, 3, 1, 2, 2, 2, 3, 3][: len(calls)])[0]


def turns(image, rows):
    """Each turned copy of an image, and the rows that it has to show."""
    yield image.turned("right"), [list(it) for it in zip(*reversed(rows))]
    yield image.turned("half"), [it[::-1] for it in reversed(rows)]
    yield image.turned("left"), [list(it) for it in zip(*rows)][::-1]
    yield image.transposed(), [list(it) for it in zip(*rows)]
    yield image.flipped_rows(), rows[::-1]
    yield image.flipped_columns(), [it[::-1] for it in rows]


def are_in_place(image):
    """Whether the largest square at the corner of an image, and then all of it, are turned in place as
    the model's rows are, and nothing beside the square changes."""
    side = min(image.width, image.height)
    square = image.window((0, 0, side, side))
    beside = [it for window in ((side, 0, image.width - side, image.height), (0, side, side, image.height - side)) for it in [image.window(window)]]
    were = [it.tobytes() for it in beside]
    for name, words in (("turn", ("right",)), ("transpose", ()), ("turn", ("half",)), ("turn", ("left",))):
        model = Model(square)
        getattr(model, name)(*words)
        getattr(square, name)(*words)
        if Model(square).rows != model.rows or [it.tobytes() for it in beside] != were:
            return False
    model = Model(image)
    model.turn("half")
    image.turn("half")
    return Model(image).rows == model.rows


def tried(letter, channels, offset, stride_more):
    """Whether twenty calls on an image change what they change in the model, and no padding."""
    chance, size = random.Random(f"{letter}{channels}{offset}{stride_more}"), struct.calcsize(letter)
    width, height = chance.randint(1, 9), chance.randint(1, 7)
    stride = width * channels + stride_more
    length = stride * height
    memory = bytearray(chance.randbytes(8 + length * size + 8))
    form = struct.Struct(f"={letter}")
    view = memoryview(memory)[8 + offset * size : 8 + (offset + length) * size].cast("B").cast(letter)
    image, number = Image(view, width, height, stride, channels=channels), lambda: form.unpack(chance.randbytes(size))[0]
    pixel = lambda: tuple(number() for _ in range(channels)) if channels > 1 else number()
    model = Model(image)
    for _ in range(20):
        name, words = step(chance, image, pixel)
        padding = bytes(memory[: 8 + offset * size]), bytes(memory[8 + (offset + length) * size :])
        getattr(image, name)(*words)
        getattr(model, name)(*words)
        if Model(image).rows != model.rows or padding != (bytes(memory[: 8 + offset * size]), bytes(memory[8 + (offset + length) * size :])):
            return False
    if not all(Model(made).rows == rows for made, rows in turns(image, model.rows)):
        return False
    pixels = [it for row in model.rows for it in row]
    if any(image.count(image.whole, it) != pixels.count(it) for it in pixels[:4]) or image.count(image.window((0, 0, 1, 1)).whole, pixels[0]) != 1:
        return False
    before = image.copy()
    if not are_in_place(image):
        return False
    image.copy_from(before)
    packed = Image(bytearray(width * height * channels * size), width, height, channels=channels) if letter == "B" else image.copy()
    packed.copy_from(image)
    rows = b"".join(form.pack(it) for row in model.rows for pixel in row for it in (pixel if channels > 1 else [pixel]))
    return packed == image and image == packed and image.tobytes() == rows


def of_random_calls():
    for letter in "BhHIQ":
        for channels in (1, 2, 3, 4):
            is_well = all(tried(letter, channels, offset, more) for offset in (0, 1) for more in (0, 1, channels, 2 * channels))
            check(f"calls on pixels of {channels} numbers of format {letter!r}", is_well)


def of_three_dimensions():
    frame = bytearray(range(48))
    image = Image(memoryview(frame).cast("B", (4, 4, 3)))
    check("three dimensions", (image.width, image.height, image.channels, image.stride, image.get(1, 2)) == (4, 4, 3, 12, (27, 28, 29)))
    check("repr", repr(image) == "<imgref.Image of 4 by 4 pixels, 3 channels, stride 12, format 'B'>")
    image.fill(Window(1, 1, 2, 1), (200, 201, 202))
    check("fill", frame[15:21] == bytes([200, 201, 202] * 2) and frame[:15] == bytes(range(15)) and frame[21:] == bytes(range(21, 48)))
    before = bytes(frame)
    for bad in ((), (1, 2), (1, 2, 3, 4), (1, 2, 256), (1, 2, "3"), (1, 2, 3.0), None):
        check(f"no pixel: {bad!r}", raises((ValueError, TypeError), image.fill, image.whole, bad) and raises((ValueError, TypeError), image.put, 0, 0, bad))
    for call, words in ((image.fill, (Window(3, 0, 2, 1), (1, 2, 3))), (image.mosaic, (Window(0, 3, 1, 2), 2, 2)), (image.mosaic, (image.whole, 0, 2)), (image.put, (4, 0, (1, 2, 3)))):
        check(f"refused: {call.__name__} {words}", raises(Refused, call, *words))
    for words in ((Window(1 << 63, 0, 1, 1), (1, 2, 3)), (Window(-1, 0, 1, 1), (1, 2, 3))):
        check(f"no number: {words}", raises(ValueError, image.fill, *words))
    upright = Image(bytearray(48), 4, 4, channels=3)
    check("count", image.count(image.whole, (200, 201, 202)) == 2 and image.count((0, 0, 4, 1), (200, 201, 202)) == 0)
    for call, words in ((image.count, (Window(3, 0, 2, 1), (1, 2, 3))), (image.turn_into, (upright.window((0, 0, 3, 4)), "half")), (image.transpose_into, (upright.window((0, 0, 3, 4)),)), (image.flip_rows, (Window(0, 3, 1, 2),)), (image.flip_columns, (Window(3, 0, 2, 1),)), (image.swap_rows, (0, 4)), (image.window((0, 0, 3, 4)).turn, ("left",)), (image.window((0, 0, 3, 4)).transpose, ())):
        check(f"refused: {call.__name__}", raises(Refused, call, *words))
    for words in ((upright, "up"), (upright, 1), (frame, "half"), (image, "half"), (image.window((0, 0, 4, 4)), "right"), (Image(bytes(48), 4, 4, channels=3), "half"), (Image(bytearray(16), 4, 4), "half")):
        check(f"no turn: {words}", raises((ValueError, TypeError), image.turn_into, *words))
    reading = Image(bytes(48), 4, 4, channels=3)
    for call, words in ((image.turn, ("up",)), (image.turn, (1,)), (reading.turn, ("half",)), (reading.transpose, ())):
        check(f"no turn in place: {words}", raises((ValueError, TypeError), call, *words))
    check("nothing is written", frame == before and not any(upright.tobytes()))
    parted = exported("B", 1, frame, (4, 4, 3), (12, 3, -1), start=2)
    apart = exported("B", 1, frame, (4, 3, 3), (12, 4, 1))
    check("no image: colours backwards, and pixels with gaps", raises(ValueError, Image, parted) and raises(ValueError, Image, apart))
    check("copy_of colours backwards", Image.copy_of(parted).get(0, 0) == (2, 1, 0) and Image.copy_of(apart).get(1, 2) == (28, 29, 30))
    bgra = Image(memoryview(frame).cast("B", (3, 4, 4)))
    lying = Image(memoryview(frame)[1:33], 2, 4, channels=4)
    bgra.window((0, 0, 2, 1)).copy_from(Image(bytes([9] * 8), 2, 1, channels=4))
    check("four bytes are one cell where they are aligned", (bgra._pixels.step, lying._pixels.step) == (1, 4) and frame[:9] == bytes([9] * 8) + before[8:9])
    check("images of other formats differ", bgra != Image(array.array("I", [0] * 12), 4, 3) and raises(TypeError, bgra.copy_from, Image(array.array("I", [0] * 12), 4, 3)))


def of_planes():
    """The planes of a frame of video, 4:2:0: each is an image over its part of the frame."""
    frame = bytearray(range(24))
    planes = [Image(memoryview(frame)[start:end], width, height) for start, end, width, height in ((0, 16, 4, 4), (16, 20, 2, 2), (20, 24, 2, 2))]
    for it, window in zip(planes, ((0, 0, 2, 2), (0, 0, 1, 1), (0, 0, 1, 1))):
        it.fill(window, 128)
    check("planes of a video", [at for at, it in enumerate(frame) if it != at] == [0, 1, 4, 5, 16, 20])


class Told:
    """What has the array interface alone, as an image of PIL has."""

    def __init__(self, **told):
        self.__array_interface__ = {"version": 3, **told}


def of_interfaces():
    grey, colour = Told(shape=(2, 3), typestr="|u1", data=bytes(range(6))), Told(shape=(2, 2, 3), typestr="|u1", data=bytes(range(12)))
    wide, real, bits = Told(shape=(1, 2), typestr=">u2", data=b"\1\2\3\4"), Told(shape=(1, 1), typestr="<f4", data=struct.pack("<f", 0.5)), Told(shape=(1, 2), typestr="|b1", data=b"\0\1")
    check("PIL's 'L' and 'RGB'", Image(grey).get(2, 1) == 5 and Image(colour).get(1, 1) == (9, 10, 11))
    check("PIL's 'I;16B', 'F' and '1'", (Image(wide).get(1, 0), Image(real).get(0, 0), Image(bits).get(1, 0)) == (0x304, 0.5, True))
    check("such a copy is for reading", Image(grey).readonly and raises(TypeError, Image(grey).put, 0, 0, 1))
    check("a copy for writing", not Image(grey).copy().readonly and Image(grey).copy() == Image(grey))
    good = {"shape": (2, 3), "typestr": "|u1", "data": bytes(6)}
    bad = {"shape": [None, 3, (2, "3"), (2, 4), (-2, -3), (6,)], "typestr": [None, "", "u", "|V1", "|O8", "<c8", "<u3", "u1", "?u1", "<M8"], "data": [None, (0, False), 7, bytes(5), bytes(7)], "strides": [(1, 2)], "mask": [1]}
    for key, values in bad.items():
        for it in values:
            check(f"no image: {key} {it!r}", raises((ValueError, TypeError), Image, Told(**{**good, key: it})))
    check("no image: no interface", raises(TypeError, Image, Told) and raises(TypeError, Image, object()) and raises(TypeError, Image, None))


def of_given_interfaces():
    frame = bytearray(range(48))
    for image, typestr in ((Image(frame, 3, 2, 4), "|u1"), (Image(memoryview(frame).cast("H"), 3, 2, 4), "<u2"), (Image(frame, 3, 2, 12, channels=3), "|u1"), (Image(exported(">d", 8, frame), 2, 2), ">f8")):
        told = image.__array_interface__
        (start, is_readonly), strides = told["data"], told["strides"]
        size = int(typestr[2])
        at = ctypes.string_at(start + strides[0] + strides[1], size * image.channels)
        due = image.get(1, 1) if image.channels > 1 else (image.get(1, 1),)
        form = {"u1": "B", "u2": "H", "f8": "d"}[typestr[1:]]
        check(f"the array interface of {image!r}", told["typestr"] == typestr and not is_readonly and struct.unpack((">" if typestr[0] == ">" else "<") + form * image.channels, at) == due)


def of_numpy_colours(numpy):
    colours = numpy.arange(2 * 3 * 3, dtype=numpy.uint8).reshape(2, 3, 3)
    image = Image(colours)
    image.fill(Window(0, 0, 2, 1), colours[1, 2])
    check("NumPy: colours", (colours[0, :2] == [15, 16, 17]).all() and (numpy.asarray(image) == colours).all())
    check("NumPy: copy_of", (numpy.asarray(Image.copy_of(colours.transpose(1, 0, 2)[::-1])) == colours.transpose(1, 0, 2)[::-1]).all())
    numpy.asarray(image.window((1, 0, 2, 2)))[0, 0] = 7
    check("NumPy: a view of an image", (colours[0, 1] == 7).all())


def of_pil():
    try:
        from PIL import Image as Pictures
    except ImportError:
        skip("what is beside PIL", "python3-pil", 5)
        return
    for mode in ("L", "RGB", "RGBA", "I", "F"):
        picture = Pictures.new(mode, (3, 2), 7 if len(mode) == 1 else (7, 8, 9, 10)[: len(mode)])
        image = Image(picture).copy()
        image.fill(Window(1, 0, 2, 1), 200 if len(mode) == 1 else (200, 201, 202, 203)[: len(mode)])
        back = Pictures.fromarray(image)
        check(f"PIL: {mode}", back.mode == mode and back.getpixel((2, 0)) == image.get(2, 0) and back.getpixel((0, 0)) == picture.getpixel((0, 0)))


of_random_calls()
of_three_dimensions()
of_planes()
of_interfaces()
of_given_interfaces()
if (numpy := numpy_or_none()) is not None:
    of_numpy_colours(numpy)
of_pil()
end()
