"""Each call of the package. Prints a line for each case, and 'N passed, N failed, N skipped'."""
import array
import copy
import doctest
import pickle
import sys
import threading
import typing

import imgref
from counting import check, end, raises
from imgref import Image, Refused, Window


def of_a_bytearray():
    frame = bytearray([1, 2, 3, 90, 4, 5, 6, 91, 92])
    image = Image(frame, 3, 2, 4)
    check("get", image.get(2, 1) == 6 and raises(Refused, image.get, 3, 1))
    image.fill(Window(1, 0, 2, 2), 0)
    check("fill", frame == bytearray([1, 0, 0, 90, 4, 0, 0, 91, 92]))
    check("no window", raises(Refused, image.fill, Window(2, 0, 2, 2), 7) and frame[2] == 0)
    check("no number", raises(ValueError, image.fill, Window(-1, 0, 2, 2), 7) and raises(ValueError, image.get, 1 << 64, 0))
    image.window(Window(1, 1, 2, 1)).put(1, 0, 77)
    check("a window is the same memory", frame[6] == 77)
    image.move_window(Window(0, 0, 2, 2), Window(1, 0, 2, 2))
    check("move", frame == bytearray([1, 1, 0, 90, 4, 4, 0, 91, 92]))
    image.mosaic(image.whole, 2, 2)
    check("mosaic", frame == bytearray([1, 1, 0, 90, 1, 1, 0, 91, 92]))
    check("tiles", [*image.tiles(2, 2)] == [Window(0, 0, 2, 2), Window(2, 0, 1, 2)] and raises(Refused, lambda: [*image.tiles(0, 2)]))
    image.pack()
    check("pack", frame == bytearray([1, 1, 0, 1, 1, 0, 0, 91, 92]) and image.stride == 3)
    check("no image", raises(Refused, Image, frame, 5, 2) and raises(Refused, Image, frame, 4, 2, 3))
    check("no cell", Image(bytearray(), 0, 7) == Image(b"", 0, 7, 9))


def of_blurs():
    frame = bytearray([0, 10, 20, 99, 90, 40, 30])
    image = Image(frame, 3, 2, 4)
    image.blur(image.whole, 1)
    check("blur", frame == bytearray([35, 32, 25, 99, 35, 32, 25]))
    image.blur(Window(0, 1, 3, 1), (0, 5))
    check("blur of a line, down alone", frame == bytearray([35, 32, 25, 99, 35, 32, 25]))
    image.blur(Window(3, 2, 0, 0), [32767, 32767])
    check("blur of no pixel", frame[4:] == bytearray([35, 32, 25]) and Image(bytearray(), 0, 7).blur((0, 0, 0, 7), 2) is None)
    large = Image(bytearray(k * k % 251 for k in range(300 * 40 * 4)), 300, 40, channels=4)
    apart, before = Image.copy_of(large), Image.copy_of(large)
    apart[:, :150].blur((0, 0, 150, 40), (3, 2))
    large.blur((0, 0, 150, 40), (3, 2))
    check("a window of a window is blurred as one of the image", large == apart and large[:, 150:] == before[:, 150:] and large != before)
    shorts = Image(array.array("H", bytes(24)), 4, 3)
    check("no blur of numbers of two bytes", raises(TypeError, shorts.blur, shorts.whole, 1))


def of_other_buffers():
    pixels, plane = array.array("i", [-1, -2, -3, -4, -5, -6]), memoryview(bytes(range(12))).cast("B", (3, 4))
    image = Image(pixels, 2, 3)
    image.put(1, 2, -2000000000)
    check("signed cells of four bytes", pixels[5] == -2000000000 and image.get(0, 1) == -3)
    check("no mean of signed cells", raises(TypeError, image.mosaic_means, image.whole, 2, 2) and pixels[0] == -1)
    reals = array.array("d", [0.5] * 4)
    Image(reals, 2, 2).fill(Window(0, 0, 1, 2), -1.25)
    check("floats of eight bytes", reals.tolist() == [-1.25, 0.5, -1.25, 0.5])
    shown, copied = Image(plane), bytearray(12)
    check("a memoryview of two dimensions", (shown.width, shown.height, shown.stride) == (4, 3, 4) and shown.get(3, 2) == 11)
    check("read only", raises(TypeError, shown.put, 0, 0, 1))
    Image(copied, 4, 3).copy_from(shown)
    check("copy", copied == bytes(range(12)) and Image(copied, 4, 3) == shown)
    check("sizes differ", raises(Refused, Image(copied, 4, 3).copy_window, Window(0, 0, 2, 2), shown))
    both = Image(copied, 4, 3)
    check("shared memory", raises(ValueError, both.window(Window(0, 0, 2, 2)).copy_from, both.window(Window(1, 1, 2, 2))))
    signed = Image(array.array("b", bytes(12)), 4, 3)
    check("two formats", raises(TypeError, both.copy_from, signed) and copied == bytes(range(12)))
    check("misaligned cells", raises(ValueError, Image, memoryview(bytearray(9))[1:].cast("i"), 1, 2))


def of_subinterpreters():
    """A subinterpreter says in one line that it can't load the package, and the main one goes on."""
    code = f"import sys; sys.path[:] = {sys.path!r}; import imgref"
    for isolated in (True, False):
        try:
            if sys.version_info >= (3, 13):
                import _interpreters as others

                made = others.create("isolated" if isolated else "legacy")
                said = str(getattr(others.exec(made, code), "formatted", ""))
            elif sys.version_info >= (3, 12):
                import _xxsubinterpreters as others

                made = others.create(isolated=isolated)
                others.run_string(made, code)
                said = ""
            else:
                return
        except Exception as why:
            said = str(why)
        check(f"no subinterpreter, {'isolated' if isolated else 'with a shared lock'}: {said}", "the main interpreter alone" in said or not isolated and not said)
    image = Image(bytearray(4), 2, 2)
    image.fill(7)
    check("the main interpreter goes on", image == Image(bytes([7] * 4), 2, 2))


def of_halves():
    """Windows of one image that share no pixel are copied onto each other, though their rows alternate in memory. Others are
    refused, and nothing is written. Each pair of windows of 5 by 4, and of halves of images with colours and odd strides."""
    windows = [Window(x, y, w, h) for x in range(5) for y in range(4) for w in (1, 2, 3) for h in (1, 2, 4) if x + w <= 5 and y + h <= 4]
    is_well, copied, kept = True, 0, 0
    for to in windows:
        for source in windows:
            if (to.width, to.height) != (source.width, source.height):
                continue
            frame = bytearray(range(28))
            image, before = Image(frame, 5, 4, 7), Image(bytes(range(28)), 5, 4, 7)
            is_apart = to.left + to.width <= source.left or source.left + source.width <= to.left or to.top + to.height <= source.top or source.top + source.height <= to.top
            try:
                image.copy_window(to, image.window(source))
                due = before.copy()
                due.copy_window(to, before.window(source))
                is_well &= is_apart and image == due and frame[5:7] == bytes([5, 6])
                copied += 1
            except ValueError:
                is_well &= not is_apart and frame == bytes(range(28))
                kept += 1
    check("windows of one image that share no pixel are copied", is_well and copied > 100 < kept)
    for channels in (1, 2, 3, 4):
        image = Image(bytearray(range(8 * 3 * channels)), 8, 3, channels=channels)
        left, right, before = image[:, :4], image[:, 4:], image.copy()
        left.copy_from(right)
        check(f"halves, {channels} channels", left == right == before[:, 4:])
        right[1:].copy_from(left[:2])
        check(f"halves of other rows, {channels} channels", image[1:, 4:] == image[:2, :4] and image[0, 4] == before[0, 4])
    # (a column that goes on in the next row: at stride 4, the window 2,0 of 4 columns over the same memory)
    memory = bytearray(range(16))
    one, other = Image(memory, 2, 3, 4), Image(memoryview(memory)[3:], 2, 3, 4)
    check("columns that go on in the next row", raises(ValueError, one.copy_from, other) and memory == bytes(range(16)))
    other = Image(memoryview(memory)[2:], 2, 3, 4)
    one.copy_from(other)
    check("columns in the padding", list(memory) == [2, 3, 2, 3, 6, 7, 6, 7, 10, 11, 10, 11, 12, 13, 14, 15])
    check("another stride", raises(ValueError, Image(memory, 2, 3, 4).copy_from, Image(memoryview(memory)[2:], 2, 3, 3)))


def of_equal_images():
    frame = bytearray([1, 2, 3, 90, 4, 5, 6])
    image, same, wide = Image(frame, 3, 2, 4), Image(bytes([1, 2, 3, 4, 5, 6]), 3, 2), Image(bytes(6), 3, 2)
    check("== and !=", (image == same, image != same, image == wide, image != wide) == (True, False, False, True))
    others = (Image(array.array("b", [1, 2, 3, 4, 5, 6]), 3, 2), Image(frame, 2, 3), frame, None, 3)
    check("== beside anything", all(type(image == it) is bool and image != it and it != image for it in others))
    check("repr", repr(image) == "<imgref.Image of 3 by 2 pixels, stride 4, format 'B'>")
    check("no hash", raises(TypeError, hash, image))
    copy.copy(image).put(0, 0, 77)
    check("a copy is the same memory", image.get(0, 0) == 77 and raises(TypeError, copy.deepcopy, image))


def of_copies():
    frame = bytearray([1, 2, 3, 90, 4, 5, 6, 91, 92])
    image = Image(frame, 3, 2, 4)
    made = image.copy()
    check("copy", (made.stride, made.tobytes(), image.tobytes(), made == image) == (3, b"\1\2\3\4\5\6", b"\1\2\3\4\5\6", True))
    made.fill(made.whole, 0)
    check("a copy has memory of its own", frame[0] == 1 and not made.readonly)
    part = image.window(Window(1, 0, 2, 2))
    check("the bytes of a window", part.tobytes() == bytes([2, 3, 5, 6]))
    check("a copy of an empty window", image.window((3, 1, 0, 1)).copy().whole == Window(0, 0, 0, 1))
    check("no pickle takes memory along", all(raises(TypeError, pickle.dumps, it) for it in (image, part)))
    check("a pickled refusal", pickle.loads(pickle.dumps(Refused(2))).status == 2)
    check("memory that an image holds isn't resized", raises(BufferError, frame.append, 1))


def of_threads():
    """Calls on separate memory from several threads: each image has its own colours after all."""
    images = [Image(bytearray(64 * 64), 64, 64) for _ in range(4)]

    def work(at):
        for turn in range(200):
            images[at].fill(images[at].whole, at + turn % 2)
            images[at].mosaic(images[at].whole, 8, 8)

    threads = [threading.Thread(target=work, args=(at,)) for at in range(4)]
    for it in threads:
        it.start()
    for it in threads:
        it.join()
    check("calls from threads", all(it.tobytes() == bytes([at + 1]) * 4096 for at, it in enumerate(images)))


def of_hints():
    """Each annotation names a type that is there."""
    publics = [it for it in vars(Image).values() if callable(it) and hasattr(it, "__annotations__")]
    hints = [typing.get_type_hints(it) for it in [*publics, Image.width.fget, Image.copy_of, Window, Refused.__init__]]
    check("type hints", len(publics) > 14 and all(isinstance(it, dict) for it in hints))
    check("all that is promised is there", all(hasattr(imgref, it) for it in imgref.__all__))


of_a_bytearray()
of_blurs()
of_other_buffers()
of_subinterpreters()
of_halves()
of_equal_images()
of_copies()
of_threads()
of_hints()
examples = doctest.testmod(imgref)
check("the examples of the module", examples.attempted and not examples.failed)
end()
