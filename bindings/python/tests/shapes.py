"""Buffers of two and three dimensions with every stride, and bad arguments. Prints 'N passed, N
failed, N skipped' last."""
import ctypes

from counting import check, end, exported, numpy_or_none, raises
from imgref import Image, Window

BAD_VALUES = (None, "a", b"ab", 1.5, float("nan"), -1, 1 << 64, 1 << 200, [], (0, 0, 1), (0, 0, 1, "1"), object(), ...)


def of_other_shapes():
    """Two dimensions with strides that are an image's, and with strides that aren't."""
    frame = bytearray(range(48))
    rows = exported("<H", 2, frame, (3, 4), (16, 2))
    image = Image(rows)
    check("rows with padding", (image.width, image.height, image.stride, image.get(1, 2)) == (4, 3, 8, 35 * 256 + 34))
    sides = {
        "transposed": ((4, 3), (2, 8)),
        "parted columns": ((3, 4), (16, 4)),
        "columns that go back": ((3, 4), (16, -2)),
        "rows that go upwards": ((3, 4), (-16, 2)),
        "two rows that go upwards": ((2, 4), (-16, 2)),
        "rows that are one": ((3, 4), (0, 2)),
        "rows that overlap": ((3, 4), (6, 2)),
        "rows at half a cell": ((3, 4), (9, 2)),
    }
    for name, (shape, strides) in sides.items():
        check(f"no image: {name}", raises(ValueError, Image, exported("<H", 2, frame, shape, strides)))
    for shape, strides in (((), ()), ((24,), (2,)), ((2, 3, 5), (24, 8, 2)), ((2, 3, 0), (24, 8, 2)), ((1, 2, 3, 4), (24, 24, 8, 2))):
        check(f"no image: {len(shape)} dimensions, {shape[-1:]}", raises(TypeError, Image, exported("<H", 2, frame, shape, strides)))
    check("no image: cells apart", raises(TypeError, Image, memoryview(frame)[::2], 2, 2) and raises(TypeError, Image, memoryview(frame)[::-1], 2, 2))
    columns = exported("<H", 2, frame, (4, 3), (2, 8))
    check("no image: sizes of two dimensions", all(raises(TypeError, Image, it, 4, 3) for it in (rows, columns, ctypes.c_uint16())))
    check("no image: a stride alone", raises(TypeError, Image, rows, None, None, 8))
    check("no image: pointers to rows", raises(TypeError, Image, exported("B", 1, frame, (3, 4), (16, 1), suboffsets=(0, -1))))
    gone = memoryview(frame)
    gone.release()
    check("no image: released memory", raises(ValueError, Image, gone, 3, 2))
    copied = Image.copy_of(columns)
    check("copy_of a transposed buffer", (copied.width, copied.height, copied.stride, copied.format) == (3, 4, 3, "<H") and copied.get(2, 1) == 19 * 256 + 18)
    upwards = Image.copy_of(exported("<H", 2, frame, (3, 4), (-16, 2), start=32))
    check("copy_of rows that go upwards", [upwards.get(0, y) for y in range(3)] == [33 * 256 + 32, 17 * 256 + 16, 256])
    copied.fill(copied.whole, 0)
    check("copy_of has memory of its own", not copied.readonly and copied.tobytes() == bytes(24))
    check("copy_of: no sizes", raises(TypeError, Image.copy_of, frame) and raises(TypeError, Image.copy_of, 3))
    check("nothing is written", frame == bytes(range(48)))


def of_bad_values():
    """Each argument of each call takes each bad value: only ValueError and TypeError come, and
    nothing is written."""
    frame, inner = bytearray(range(12)), Window(0, 0, 2, 2)
    image, other, third = Image(frame, 3, 2, 4), Image(bytearray(4), 2, 2), Image(bytearray(6), 3, 2)
    calls = {
        "Image": (Image, frame, 3, 2),
        "get": (image.get, 0, 0),
        "put": (image.put, 0, 0, 1),
        "fill": (image.fill, inner, 1),
        "copy_window": (image.copy_window, inner, other),
        "copy_from": (image.copy_from, third),
        "move_window": (image.move_window, inner, inner),
        "mosaic": (image.mosaic, inner, 2, 2),
        "window": (image.window, inner),
        "tiles": (lambda *sizes: [*image.tiles(*sizes)], 2, 2),
        "stride": (lambda stride: Image(frame, 3, 2, 4 if stride is None else stride) and int(stride), 4),
    }
    for name, (call, *good) in calls.items():
        changed = [[*good[:at], bad, *good[at + 1 :]] for at in range(len(good)) for bad in BAD_VALUES]
        is_well = all(raises((ValueError, TypeError), call, *words) for words in changed) and frame == bytes(range(12))
        check(f"{name}: bad values", is_well and not raises(Exception, call, *good))
        frame[:] = range(12)
    for name in ("width", "height", "stride", "format"):
        check(f"{name} is for reading", raises(AttributeError, setattr, image, name, 1))


def of_numpy_views(numpy):
    frame = numpy.zeros((6, 8), dtype=numpy.uint16)
    Image(frame[1:5, 2:7]).fill(Window(1, 1, 3, 2), 500)
    check("NumPy: a view", frame.sum() == 3000 and (frame[2:4, 3:6] == 500).all())
    check("NumPy: strides", Image(frame[1:5, 2:7]).stride == 8 and Image(frame[::2]).stride == 16)
    check("NumPy: parted columns", raises(ValueError, Image, frame[:, ::2]) and raises(ValueError, Image, frame[::-1]))
    colours = numpy.arange(24, dtype=numpy.uint8).reshape(2, 3, 4)
    image = Image(colours.view(numpy.uint32).reshape(2, 3))
    image.move_window(Window(0, 0, 2, 2), Window(1, 0, 2, 2))
    check("NumPy: pixels of four bytes", (colours[1, 2] == [16, 17, 18, 19]).all())
    check("NumPy: read only", raises(TypeError, Image(numpy.broadcast_to(numpy.uint8(1), (1, 1))).put, 0, 0, 2))


of_other_shapes()
of_bad_values()
if (numpy := numpy_or_none()) is not None:
    of_numpy_views(numpy)
end()
