"""What a user of NumPy types: indexes, slices and a fill of all pixels. Prints 'N passed, N failed, N skipped'
last."""
import array
import itertools
import operator

from counting import check, end, numpy_or_none, raises
from imgref import Image, Refused, Window

HEIGHT, WIDTH = 4, 5
ENDS = (None, -9, -4, -1, 0, 1, 3, 4, 5, 9)


def says(kind, words, call, *given):
    """Whether a call raises an exception of a kind with these words."""
    try:
        call(*given)
    except kind as why:
        return words in str(why)
    return False


def made(channels=1):
    return Image(bytearray(range(WIDTH * HEIGHT * channels)), WIDTH, HEIGHT, channels=channels)


def of_pixels():
    for channels in (1, 3, 4):
        image = made(channels)
        rows = [[image.get(x, y) for x in range(WIDTH)] for y in range(HEIGHT)]
        inside = [image[y, x] == rows[y][x] for y in range(-HEIGHT, HEIGHT) for x in range(-WIDTH, WIDTH)]
        outside = [(HEIGHT, 0), (0, WIDTH), (-HEIGHT - 1, 0), (0, -WIDTH - 1), (1 << 70, 0), (0, -1 << 70)]
        check(f"image[y, x], {channels} channels", all(inside) and all(raises(ValueError, image.__getitem__, it) for it in outside))
        value = (7, 8, 9, 10)[:channels] if channels > 1 else 7
        image[-1, 2] = value
        rows[-1][2] = value
        check(f"image[y, x] = value, {channels} channels", [[image[y, x] for x in range(WIDTH)] for y in range(HEIGHT)] == rows)
    check("a place before the first is refused", raises(Refused, made().__getitem__, (-5, 0)) and raises(Refused, made().__setitem__, (0, -6), 1))


def is_whole(start, stop, count):
    """Whether a slice is inside so many rows or columns, and ends no earlier than it begins: none is cut off then."""
    begin, end = (0 if start is None else start + count * (start < 0)), (count if stop is None else stop + count * (stop < 0))
    return 0 <= begin <= end <= count


def of_windows():
    """Each slice of rows and of columns, beside the same slices of a list. What a list would cut off is refused."""
    image, rows = made(), [[y * WIDTH + x for x in range(WIDTH)] for y in range(HEIGHT)]
    before, is_well, are_refused, numbers = image.tobytes(), True, True, 0
    for top, bottom, left, right in itertools.product(ENDS, repeat=4):
        if is_whole(top, bottom, HEIGHT) and is_whole(left, right, WIDTH):
            part, due = image[top:bottom, left:right], [it[left:right] for it in rows[top:bottom]]
            size = (len(range(HEIGHT)[top:bottom]), len(range(WIDTH)[left:right]))
            is_well &= part.shape == size and list(part.tobytes()) == [it for row in due for it in row]
            numbers += 1
        else:
            key = (slice(top, bottom), slice(left, right))
            are_refused &= raises(Refused, image.__getitem__, key) and raises(Refused, image.__setitem__, key, 0)
    check("image[top:bottom, left:right]", is_well and 1000 < numbers < len(ENDS) ** 4)
    check("what a slice would cut off is refused, and nothing is written", are_refused and image.tobytes() == before)
    photo = Image(bytearray(64 * 48), 64, 48)
    for key in ((slice(22, 40), slice(-58, 4)), (slice(100, 200), slice(0, 10)), (slice(0, 10), slice(60, 65)), (slice(-49, None), slice(None)), (slice(20, 10), slice(None)), (slice(None), slice(40, 30)), (slice(0, 49), slice(None))):
        check(f"refused: {key}", raises(Refused, photo.__setitem__, key, 1) and raises(Refused, photo.__getitem__, key))
    photo[40:, -58:] = 1
    check("a slice that is open at an end stays", photo.count(photo.whole, 1) == 8 * 58 and photo[5:5].shape == (0, 64) and photo[48:, 64:].shape == (0, 0))
    check("rows alone, and all", image[1:3] == image.window((0, 1, WIDTH, 2)) and image[:].whole == image[...].whole == image.whole)
    image[1:3, 2:4].fill(99)
    check("it is the same memory", image[1, 2] == image[2, 3] == 99 and image[0, 2] == 2)
    image[0:2, 0:2] = 50
    image[:, 4:] = Image(bytes([60, 61, 62, 63]), 1, 4)
    image[3:, :2] = memoryview(bytes([70, 71])).cast("B", (1, 2))
    check("image[..] = value", list(image.tobytes()) == [50, 50, 2, 3, 60, 50, 50, 99, 99, 61, 10, 11, 99, 99, 62, 70, 71, 17, 18, 63])
    colours = made(3)
    colours[1:3, 1:] = (1, 2, 3)
    check("a colour", colours[2, 4] == (1, 2, 3) == colours[1, 1] and colours[0, 0] == (0, 1, 2))
    before = image.tobytes()
    for key in (slice(0, 4, 2), slice(None, None, -1), (slice(0, 4, 2), slice(None)), (slice(None), slice(0, 5, 3))):
        check(f"no step: {key}", raises(ValueError, image.__getitem__, key) and raises(ValueError, image.__setitem__, key, 1))
    for key in (1, None, "x", 1.5, (1,), (1, 2, 3), (slice(None), 1), (1, slice(None)), (1.5, 0), (None, None), (..., 1), (slice("a", None), slice(None)), [0, 1], ()):
        check(f"no index: {key}", raises(TypeError, image.__getitem__, key) and raises(TypeError, image.__setitem__, key, 1))
    check("no iteration over rows", raises(TypeError, iter, image) and raises(TypeError, lambda: 3 in image) and raises(TypeError, list, image))
    for key, words in (((..., 0), "numpy.asarray(image)"), ((0, 0, 0), "numpy.asarray(image)"), ((slice(None), 1), "image[top:bottom, x:x + 1]"), ((1, slice(None)), "image[y:y + 1, left:right]")):
        check(f"what to do instead of image[{key}]", says(TypeError, words, image.__getitem__, key))
    for name in ("add", "sub", "mul", "truediv", "floordiv", "mod", "pow", "matmul", "and_", "or_", "xor", "lt", "le", "gt", "ge"):
        for one, other in ((image, 1), (1, image), (image, image)):
            check(f"no arithmetic, and what to do instead: {name}", says(TypeError, "numpy.asarray(image)", getattr(operator, name), one, other))
    check("nothing is written", image.tobytes() == before and raises(TypeError, Image(bytes(4), 2, 2).__setitem__, (0, 0), 1))
    check("nothing is deleted", raises(TypeError, exec, "del image[0, 0]", {"image": image}))


def of_fill():
    for channels, value in ((1, 7), (3, (7, 8, 9)), (4, (7, 8, 9, 10))):
        image, other = made(channels), made(channels)
        image.fill(value=value)
        other.fill(other.whole, value)
        part = made(channels)
        part[1:, 1:].fill(value=value)
        if channels < 4:
            image.fill(0)
            image.fill(value)
        check(f"fill(value), {channels} channels", image == other and image[3, 4] == value and part[0, 0] != value == part[1, 1])
        image.fill(3)
        check(f"fill(number), {channels} channels", set(image.tobytes()) == {3})
    image = made()
    image.fill(window=(0, 0, 1, 1), value=99)
    check("by names", image[0, 0] == 99 and image[0, 1] == 1)
    fours = ((0, 0, 2, 2), [0, 0, 2, 2], Window(0, 0, 2, 2), array.array("B", [0, 0, 2, 2]), b"abcd", iter((0, 0, 2, 2)))
    for channels in (1, 3, 4):
        image = made(channels)
        before = image.tobytes()
        for it in fours:
            check(f"four numbers may be a window, {channels} channels: {it!r}", raises(TypeError, image.fill, it) and image.tobytes() == before)
    image = made(4)
    image.fill(value=(9, 8, 7, 6))
    check("all pixels of four numbers, by name", image == Image(bytes((9, 8, 7, 6)) * 20, 5, 4, channels=4) and raises(TypeError, image.fill))
    image[:] = (1, 2, 3, 4)
    check("all pixels of four numbers, by a slice", image[3, 4] == (1, 2, 3, 4))
    image = made()
    check("a value is missing", all(raises(TypeError, it.fill, it.whole) for it in (made(), made(4))) and raises(TypeError, image.fill) and raises(TypeError, image.fill, (0, 0, 1, 1)))


def of_buffers():
    """An image and a buffer of its pixels are equal."""
    image = made()
    same, wide = memoryview(bytes(range(20))).cast("B", (4, 5)), memoryview(bytes(range(20))).cast("B", (5, 4))
    check("image == buffer", (image == same, same == image, image != same, image == wide) == (True, True, False, False))
    signed = memoryview(array.array("b", range(20))).cast("B").cast("b", (4, 5))
    others = (signed, bytes(range(20)), bytearray(range(20)), "text", 7, None, [1], memoryview(bytes(range(19)) + b"1").cast("B", (4, 5)))
    check("image == anything else", all(type(image == it) is bool and image != it for it in others))


def of_numpy(numpy):
    frame = numpy.arange(60, dtype=numpy.uint8).reshape(4, 5, 3)
    grey = frame[:, :, 0].copy()
    for array_ in (frame, grey):
        image = Image(array_)
        check(f"NumPy: image[y, x], {image.channels} channels", all((numpy.array(image[y, x]) == array_[y, x]).all() for y in range(-4, 4) for x in range(-5, 5)))
        check(f"NumPy: slices, {image.channels} channels", all((numpy.asarray(image[a:b, c:d]) == array_[a:b, c:d]).all() for a, b, c, d in itertools.product(ENDS, repeat=4) if is_whole(a, b, HEIGHT) and is_whole(c, d, WIDTH)))
        check(f"NumPy: no arithmetic, {image.channels} channels", all(says(TypeError, "numpy.asarray(image)", it, array_, image) for it in (operator.add, operator.mul, operator.sub, operator.lt)))
        check(f"NumPy: ==, {image.channels} channels", type(image == array_) is bool and image == array_ and array_ == image and image == array_.copy() and image != array_ + 1 and image != array_[:-1] and image != array_.astype("i2"))
        image[numpy.int64(1), numpy.int64(2)] = array_[3, 4]
        image[:2, 3:] = array_[2:, :2]
        check(f"NumPy: image[..] = array, {image.channels} channels", (array_[1, 2] == array_[3, 4]).all() and (array_[:2, 3:] == array_[2:, :2]).all())
        image[0:1, 0:1] = numpy.uint8(200)
        check(f"NumPy: image[..] = number, {image.channels} channels", (array_[0, 0] == 200).all())
    turned = Image.copy_of(grey.T)
    check("NumPy: == of a transposed array", turned == grey.T and turned == grey.T[:, :] and turned != grey)
    image = Image(grey)
    image[:, 1:] = frame[:, 1:, 1]
    check("NumPy: columns with gaps are copied", (grey[:, 1:] == frame[:, 1:, 1]).all())


of_pixels()
of_windows()
of_fill()
of_buffers()
if (numpy := numpy_or_none()) is not None:
    of_numpy(numpy)
end()
