"""An image as a buffer, its copies into and out of other buffers, and its planes. Prints 'N passed, N failed, N skipped' last."""
import array
import struct

from counting import check, end, exported, numpy_or_none, raises
from imgref import Image, Refused, Window


def of_exports():
    frame = bytearray(range(48))
    for label, image, shape, strides, form in (
        ("grey", Image(frame, 3, 2, 4), (2, 3), (4, 1), "B"),
        ("two bytes", Image(memoryview(frame).cast("H"), 3, 2, 4), (2, 3), (8, 2), "H"),
        ("colours", Image(frame, 3, 2, 12, channels=3), (2, 3, 3), (12, 3, 1), "B"),
        ("colours of four bytes", Image(frame, 3, 2, channels=4), (2, 3, 4), (12, 4, 1), "B"),
        ("floats", Image(memoryview(frame).cast("d"), 3, 2), (2, 3), (24, 8), "d"),
        ("the other byte order", Image(exported(">H", 2, frame, (2, 3), (8, 2))), (2, 3), (8, 2), ">H"),
        ("no column", Image(frame, 0, 2), (2, 0), (0, 1), "B"),
        ("a window", Image(frame, 8, 6).window((1, 2, 3, 2)), (2, 3), (8, 1), "B"),
    ):
        view = memoryview(image)
        check(f"a memoryview: {label}", (view.shape, view.strides, view.format, view.readonly) == (shape, strides, form, False) and image.shape == shape)
        check(f"bytes: {label}", bytes(image) == image.tobytes() == view.tobytes() and Image(view) == image)
    image = Image(frame, 3, 2, 4)
    view = memoryview(image)
    view[1, 2] = 200
    check("a memoryview writes into the image", image.get(2, 1) == 200 and frame[6] == 200 and view[0, 1] == 1)
    check("a memoryview keeps its shape", (image.pack(), view.shape, view.strides, image.stride, memoryview(image).strides)[1:] == ((2, 3), (4, 1), 3, (3, 1)))
    check("read only", memoryview(Image(bytes(6), 3, 2)).readonly and raises(TypeError, memoryview(Image(bytes(6), 3, 2)).__setitem__, (0, 0), 1))
    joined, parted, fixed = Image(bytearray(6), 3, 2), Image(bytearray(8), 3, 2, 4), Image(bytes(6), 3, 2)
    struct.pack_into("B", joined, 5, 7)
    check("a request for joined rows", joined.get(2, 1) == 7 and all(raises(TypeError, struct.pack_into, "B", it, 0, 7) for it in (parted, fixed)))


def of_names():
    image, colours = Image(array.array("H", [0] * 6), 3, 2), Image(bytearray(24), 4, 2, channels=3)
    check("shape and dtype", (image.shape, image.dtype[1:], colours.shape, colours.dtype) == ((2, 3), "u2", (2, 4, 3), "|u1"))
    check("they are for reading", all(raises(AttributeError, setattr, image, it, 1) for it in ("shape", "dtype")))
    colours.fill((1, 0, 2, 2), 7)
    colours.put(3, 1, 9)
    check("one number for all channels", [colours.get(x, 1) for x in range(4)] == [(0, 0, 0), (7, 7, 7), (7, 7, 7), (9, 9, 9)])
    check("what is no number of a channel", all(raises((ValueError, TypeError), colours.fill, colours.whole, it) for it in (256, -1, 1.5, None, "7")))


def of_copies():
    image = Image(bytearray(6), 3, 2)
    plane = memoryview(bytearray(range(6))).cast("B", (2, 3))
    image.copy_from(plane)
    check("copy_from a buffer", image.tobytes() == bytes(range(6)))
    image.copy_window((1, 0, 2, 2), exported("B", 1, bytearray(range(10, 16)), (2, 2), (-3, 1), start=3))
    check("copy_window from rows that go upwards", image.tobytes() == bytes([0, 13, 14, 3, 10, 11]))
    before = image.tobytes()
    check("copy_from what has another size", raises(Refused, image.copy_from, memoryview(bytes(6)).cast("B", (3, 2))))
    check("copy_from another format", raises(TypeError, image.copy_from, memoryview(bytes(6)).cast("b", (2, 3))))
    check("copy_from its own memory", raises(ValueError, image.copy_from, memoryview(image)))
    check("copy_from what is no buffer", all(raises((ValueError, TypeError), image.copy_from, it) for it in (None, 3, "text", b"123456", [1, 2])) and image.tobytes() == before)
    check("an image over an image", Image(image) == image and raises(ValueError, Image(image).copy_from, image))


def of_planes():
    frame = bytearray(range(24))
    planes = Image.planes_of(memoryview(frame).cast("B", (3, 2, 4)))
    planes[1].fill((1, 0, 2, 2), 77)
    check("planes apart", [it.shape for it in planes] == [(2, 4)] * 3 and [at for at, it in enumerate(frame) if it != at] == [9, 10, 13, 14])
    parted = exported("<H", 2, bytearray(range(96)), (2, 3, 4), (48, 16, 2))
    check("planes with padding", [it.get(3, 2) for it in Image.planes_of(parted)] == [39 * 256 + 38, 87 * 256 + 86])
    columns = exported("B", 1, bytearray(24), (2, 3, 4), (12, 1, 3))
    backwards = exported("B", 1, bytearray(24), (2, 3, 4), (-12, 4, 1), start=12)
    check("no planes", raises(ValueError, Image.planes_of, columns) and raises(ValueError, Image.planes_of, backwards) and raises(TypeError, Image.planes_of, memoryview(frame)))
    check("no plane", Image.planes_of(exported("B", 1, bytearray(24), (0, 3, 4), (12, 4, 1))) == [])


def of_parts():
    """Packing joins rows over the padding, so it is refused where the padding is another image's."""
    frame = bytearray(range(48))
    image = Image(frame, 8, 6)
    parts = {
        "a window": image.window((1, 1, 3, 2)),
        "a window of a window": image.window((0, 0, 4, 4)).window((1, 1, 2, 2)),
        "rows of a larger buffer": Image(exported("B", 1, frame, (3, 4), (16, 1))),
        "a plane of one": Image.planes_of(exported("B", 1, frame, (2, 3, 2), (24, 8, 1)))[0],
    }
    for label, part in parts.items():
        check(f"pack on {label}", raises(ValueError, part.pack) and frame == bytearray(range(48)))
    copied = parts["a window"].copy()
    copied.pack()
    check("pack on a copy", copied == parts["a window"] and (Image(memoryview(frame).cast("B", (6, 8))).pack(), frame)[1] == bytearray(range(48)))


def of_numpy(numpy):
    array = numpy.arange(60, dtype=numpy.uint16).reshape(4, 5, 3)
    image = Image(array[1:, 1:4])
    check("NumPy: shape and dtype", image.shape == array[1:, 1:4].shape and numpy.dtype(image.dtype) == array.dtype)
    check("NumPy: a buffer", (numpy.asarray(image) == array[1:, 1:4]).all() and numpy.shares_memory(numpy.asarray(image), array))
    image.copy_from(array[1:, 1:4][::-1].transpose(0, 1, 2) + 100)
    check("NumPy: copy_from", (array[1, 1] == [148, 149, 150]).all() and array[1, 0, 0] == 15)
    planes = Image.planes_of(numpy.ascontiguousarray(array.transpose(2, 0, 1)))
    check("NumPy: planes apart", all((numpy.asarray(it) == array[:, :, at]).all() for at, it in enumerate(planes)))
    image.fill(image.whole, numpy.uint16(7))
    check("NumPy: a number of NumPy's", (array[1:, 1:4] == 7).all() and raises(TypeError, image.fill, image.whole, numpy.float32(1)))
    check("NumPy: bytes", bytes(image) == array[1:, 1:4].tobytes())


of_exports()
of_names()
of_copies()
of_planes()
of_parts()
if (numpy := numpy_or_none()) is not None:
    of_numpy(numpy)
end()
