"""The words of each refusal: what was given, and what was needed. Prints 'N passed, N failed, N skipped' last."""
import array
import pickle

import imgref
from counting import check, end, exported, numpy_or_none, raises
from imgref import Image, Refused, Window

frame = bytearray(range(12))
image = Image(frame, 4, 3)
colours = Image(bytearray(48), 4, 4, channels=3)
reals = Image(array.array("d", [0.0] * 12), 4, 3)
wide = Image(bytearray(64 * 48), 64, 48)
fixed = Image(bytes(12), 4, 3)


class Unmade(Image):
    """An image whose class forgets that of Image."""

    def __init__(self):
        pass


class Own(Exception):
    """What only a caller's own object raises."""


class Raising:
    def __index__(self):
        raise Own

    __float__ = __iter__ = __index__


def refused(words, status, call, *given):
    """Whether a call raises the refusal of a status with these words."""
    try:
        call(*given)
    except Refused as why:
        is_well = (str(why), why.status) == (words, status) and str(pickle.loads(pickle.dumps(why))) == words
        return check(f"{words}" if is_well else f"{words!r} is {why} ({why.status})", is_well)
    return check(f"{words}: not raised", False)


def says(kind, words, call, *given):
    """Whether a call raises an exception of a kind with these words in it."""
    try:
        call(*given)
    except (ValueError, TypeError) as why:
        is_well = type(why) is kind and words in str(why)
        return check(words if is_well else f"{words!r} isn't in {why!r}", is_well)
    return check(f"{words}: not raised", False)


def of_images():
    refused("5 by 4 pixels at stride 5 need 20 items, and the buffer has 19", 1, Image, bytearray(19), 5, 4)
    refused("4 by 4 pixels of 4 numbers at stride 16 need 64 items, and the buffer has 63", 1, lambda: Image(bytearray(63), 4, 4, channels=4))
    refused("4 by 3 pixels need a stride of at least 4, not 3", 1, Image, frame, 4, 3, 3)
    refused("0 by 3 pixels need a stride of at least 1, not 0", 1, Image, frame, 0, 3, 0)
    refused("4294967296 by 0 pixels are no image: a row has less than 2**32 numbers, and an image less than 2**32 rows", 1, Image, frame, 1 << 32, 0)
    says(TypeError, "a height is missing", Image, frame, 4)
    says(TypeError, "a width is missing", Image, frame, None, 4)
    says(TypeError, "a buffer of one dimension needs a width and a height", Image, frame)
    says(TypeError, "1 to 4 numbers, and 64 in a buffer of shape (3, 48, 64): of planes, rows and columns Image.planes_of makes", Image, memoryview(bytes(3 * 48 * 64)).cast("B", (3, 48, 64)))
    says(TypeError, "sizes go with a buffer of one dimension, not of 2", Image, memoryview(frame).cast("B", (3, 4)), 4, 3)
    says(TypeError, "an item of 1 bytes each 2 bytes", Image, memoryview(frame)[::2], 3, 2)
    says(ValueError, "shape (3, 4) with strides of (4, -1) bytes", Image, exported("B", 1, frame, (3, 4), (4, -1), start=3))
    says(ValueError, "numbers of 4 bytes lie at multiples of 4, and the first of these is 1 bytes after one", Image, memoryview(bytearray(9))[1:].cast("i"), 1, 2)
    says(TypeError, "a pixel has 1 to 4 numbers, not 5", lambda: Image(frame, 1, 1, channels=5))


def of_windows():
    refused("the window 10,10,64,48 reaches column 74 of 64 and row 58 of 48", 2, wide.fill, (10, 10, 64, 48), 7)
    refused("the window 10,0,64,48 reaches column 74 of 64", 2, wide.window, (10, 0, 64, 48))
    refused("the window 0,1,4,3 reaches row 4 of 3", 2, image.mosaic, (0, 1, 4, 3), 2, 2)
    largest = (1 << 64) - 1
    refused(f"the window {largest},0,{largest},1 reaches column {2 * largest} of 4", 2, image.flip_rows, (largest, 0, largest, 1))
    refused("the window 3,0,2,1 reaches column 5 of 4", 2, colours.count, (3, 0, 2, 1), 0)
    refused("the window 3,0,2,1 reaches column 5 of 4", 2, colours.mosaic_means, (3, 0, 2, 1), 2, 2)
    refused("the window 3,0,2,1 reaches column 5 of 4", 2, colours.blur, (3, 0, 2, 1), 2)
    refused("the window 1,0,4,1 reaches column 5 of 4", 2, image.move_window, (0, 0, 4, 1), (1, 0, 4, 1))
    refused("the window 1,0,4,1 reaches column 5 of 4", 2, image.move_window, (1, 0, 4, 1), (0, 9, 4, 1))
    refused("the slice 300:400 begins at row 300 and ends at row 400: the image has 48 rows", 2, lambda: wide[300:400, 0:10])
    refused("the slice -58:4 ends at column 4, before it begins at column 6: the image has 64 columns", 2, lambda: wide[22:40, -58:4])
    refused("the slice :65 ends at column 65: the image has 64 columns", 2, lambda: wide[:, :65])
    refused("the slice -49: begins at row -1: the image has 48 rows", 2, lambda: wide[-49:])
    for given in ((0, 0, 1), [0, 0, 1, 1, 1], range(9)):
        says(ValueError, f"a window is four numbers (left, top, width, height), not {given!r}", image.window, given)
    says(ValueError, "no number of pixels, columns or rows: -1", image.window, (0, -1, 1, 1))


def of_sizes():
    refused("the window has 2 by 3 pixels, and the source has 4 by 3", 3, image.copy_window, (0, 0, 2, 3), fixed)
    refused("the first window has 2 by 2 pixels, and the second has 2 by 1", 3, image.move_window, (0, 0, 2, 2), (0, 0, 2, 1))
    refused("3 by 4 pixels come out of the turn, and the target has 4 by 3", 3, fixed.turn_into, image, "right")
    refused("4 by 3 pixels come out of the turn, and the target has 2 by 2", 3, fixed.turn_into, Image(bytearray(4), 2, 2), "half")
    refused("only a square is turned by a quarter or transposed in place, and the image has 4 by 3 pixels: turned() and transposed() make copies of any size", 3, image.turn, "left")
    refused("only a square is turned by a quarter or transposed in place, and the image has 4 by 3 pixels: turned() and transposed() make copies of any size", 3, image.transpose)


def of_places():
    refused("there is no pixel in column 4 of row 1: the image has 4 columns and 3 rows", 4, image.get, 4, 1)
    refused("there is no pixel in column 4 of row 1: the image has 4 columns and 4 rows", 4, colours.put, 4, 1, 0)
    refused("there is no row 7: the image has 3", 4, image.swap_rows, 7, 0)
    refused("no such tile: it would have 0 by 2 pixels", 5, image.mosaic, image.whole, 0, 2)
    refused("no such tile: it would have 2 by 0 pixels", 5, lambda: [*image.tiles(2, 0)])


def of_pixels():
    says(TypeError, "the source has pixels of one number of format '<d', and the image has pixels of one number of format 'B'", image.copy_from, reals)
    says(TypeError, "the source has pixels of 3 numbers of format 'B', and the image has pixels of one number of format 'B'", image.copy_from, memoryview(bytes(36)).cast("B", (3, 4, 3)))
    says(TypeError, "the target has pixels of one number of format '<d', and the image has pixels of one number of format 'B'", image.turn_into, reals, "half")
    says(ValueError, "both images have the same memory", image.copy_from, image.window(image.whole))
    says(TypeError, "for reading alone: copy() makes", fixed.put, 0, 0, 1)
    says(TypeError, "a value is missing: fill((0, 0, 1, 1), value), or fill(value=(0, 0, 1, 1)) for all pixels", colours.fill, (0, 0, 1, 1))
    says(TypeError, "take one channel by Image.copy_of(numpy.asarray(image)[..., 0])", imgref.flood_fill, colours, (0, 0), 1)
    says(TypeError, "add a fourth number to each pixel", imgref.components, colours)
    says(TypeError, "take one channel by Image.copy_of(numpy.asarray(image)[..., 0])", imgref.histogram, colours)
    says(ValueError, "256 doesn't fit into a cell of format 'B'", image.put, 0, 0, 256)
    says(ValueError, "a colour is 3 numbers, and (1, 2) has 2", colours.put, 0, 0, (1, 2))
    for given in ({1, 2, 3}, frozenset((1, 2, 3)), {1: 2, 2: 3, 3: 4}, {1: 2, 2: 3, 3: 4}.keys()):
        for call, words in ((colours.put, (0, 0)), (colours.fill, (colours.whole,)), (colours.fill, ()), (colours.count, (colours.whole,))):
            says(TypeError, f"a colour is 3 numbers in their order, and {given!r} has none", call, *words, given)
    says(TypeError, "means are of unsigned numbers of one or two bytes, 'B' or 'H', not of format '<d'", reals.mosaic_means, reals.whole, 2, 2)
    says(TypeError, "a blur is of unsigned numbers of one byte, 'B', not of format '<d'", reals.blur, reals.whole, 2)
    says(TypeError, "for reading alone: copy() makes", fixed.blur, fixed.whole, 2)
    for call, words in ((imgref.flood_fill, ((0, 0), 1)), (imgref.components, ()), (imgref.bounding_box, (0,))):
        says(TypeError, "connected components are of pixels of 1, 2, 4 or 8 bytes at a multiple of that, and pixels are 3 numbers of format 'B'", call, colours, *words)
    for call, words in ((imgref.histogram, "a histogram has a count for each value"), (imgref.equalize, "bytes are spread over 0 to 255"), (imgref.integral, "bytes are summed")):
        says(TypeError, f"{words}, and pixels are 3 numbers of format 'B': take one channel by Image.copy_of", call, colours)
    check("nothing has changed", frame == bytes(range(12)) and not any(colours.tobytes()))


def of_radii():
    for radius, numbers in ((32768, "32768 across and 32768 down"), ((1, 32768), "1 across and 32768 down"), (((1 << 64) - 1, 0), f"{(1 << 64) - 1} across and 0 down")):
        refused(f"a blur takes less than 2**15 pixels on each side, and not {numbers}", 7, image.blur, image.whole, radius)
    refused("the window 1,0,4,1 reaches column 5 of 4", 2, image.blur, (1, 0, 4, 1), 32768)
    says(ValueError, "a radius is a number, or two (across, down), not (1, 2, 3)", image.blur, image.whole, (1, 2, 3))
    says(ValueError, "no number of pixels, columns or rows: -1", image.blur, image.whole, -1)
    says(TypeError, "'float' object cannot be interpreted as an integer", image.blur, image.whole, 0.5)
    says(TypeError, "'float' object cannot be interpreted as an integer", image.blur, image.whole, (1, 0.5))
    check("nothing has changed by a radius", frame == bytes(range(12)))


def of_what_is_raised():
    """A caller's own object raises what it likes, and what isn't made raises TypeError."""
    calls = {
        "get": (image.get, 0, 0),
        "put": (image.put, 0, 0, 1),
        "fill": (image.fill, (0, 0, 2, 2), 1),
        "window": (image.window, (0, 0, 2, 2)),
        "count": (image.count, (0, 0, 2, 2), 1),
        "move_window": (image.move_window, (0, 0, 2, 2), (0, 0, 2, 2)),
        "mosaic": (image.mosaic, (0, 0, 2, 2), 2, 2),
        "swap_rows": (image.swap_rows, 0, 1),
        "blur": (image.blur, (0, 0, 2, 2), 0),
        "blur by two numbers": (image.blur, (0, 0, 2, 2), (0, 0)),
        "Image": (Image, frame, 4, 3),
        "image[y, x]": (image.__getitem__, (0, 0)),
    }
    for name, (call, *good) in calls.items():
        for at, it in enumerate(good):
            bads = [Raising(), (*it[:-1], Raising()), [*it[:-1], Raising()]] if isinstance(it, tuple) else [Raising()]
            for bad in bads[1:2] if name == "image[y, x]" else bads if it is not frame else ():
                check(f"{name}: what argument {at} raises", raises(Own, call, *good[:at], bad, *good[at + 1 :]))
    bare = Unmade()
    calls = {"get": (0, 0), "put": (0, 0, 1), "fill": ((0, 0, 0, 0), 1), "tobytes": (), "window": ((0, 0, 0, 0),), "pack": (), "swap_rows": (0, 0)}
    for name, words in calls.items():
        check(f"an image that isn't made: {name}", raises((TypeError, AttributeError), getattr(bare, name), *words))
    says(TypeError, "the image isn't made: Image.__init__ wasn't called", bare.tobytes)


def of_numpy(numpy):
    says(TypeError, "Image.planes_of", Image, numpy.zeros((3, 48, 64), "u1"))
    says(ValueError, "strides of (1, 4) bytes", Image, numpy.zeros((3, 4), "u1").T)
    says(TypeError, "format '<f'", image.copy_from, numpy.zeros((3, 4), "f4"))


of_images()
of_windows()
of_sizes()
of_places()
of_pixels()
of_radii()
of_what_is_raised()
if (numpy := numpy_or_none()) is not None:
    of_numpy(numpy)
end()
