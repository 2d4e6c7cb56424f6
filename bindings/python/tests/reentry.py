"""Code of the user's that runs in the middle of a call: it makes the image again, frees what it can, and takes memory of that
size for itself. A call on an image must give what it gives without that code, and change nothing else. Then cycles.py, whose
cycles the collector takes apart. Prints 'N passed, N failed, N skipped' last.

Freed memory shows best under a debug allocator: PYTHONMALLOC=debug MALLOC_PERTURB_=165.
"""
import gc
import threading
import time

from counting import check, end, numpy_or_none, raises
from cycles import all_of
from imgref import Image, Window, bounding_box, components, equalize, flood_fill, histogram
from imgref._native import Cells

# Small memory is used again at once after it is freed, and large memory is given back to the system.
SIDES = (16, 512)
SECONDS = 0.4


class Upset:
    """Tries to free the memory of images, and takes as much for itself."""

    def __init__(self, images, size):
        self.images, self.size, self.taken = images, size, []

    def __call__(self):
        for it in self.images:
            for again in ((bytearray(1), 1, 1), (bytes(1), 1, 1), (bytearray(0), 0, 0)):
                raises((ValueError, TypeError), it.__init__, *again)
        # (only of the first: the windows of another would show moved pixels then)
        self.images[0].pack()
        gc.collect()
        self.taken += [bytearray(b"\xaa" * self.size) for _ in range(3)]

    def is_well(self):
        """Whether nobody wrote into what it took."""
        return self.taken and all(it.count(0xAA) == self.size for it in self.taken)


class Number:
    """A number that upsets first, whichever way it is asked for."""

    def __init__(self, value, upset):
        self.value, self.upset = value, upset

    def __index__(self):
        self.upset()
        return self.value

    def __float__(self):
        self.upset()
        return float(self.value)

    def __bool__(self):
        self.upset()
        return bool(self.value)

    def __eq__(self, other):
        self.upset()
        return self.value == other

    __hash__ = None


class Told:
    """Bytes by the array interface, which upsets when it is asked for."""

    def __init__(self, data, shape, upset):
        self.data, self.shape, self.upset = data, shape, upset

    @property
    def __array_interface__(self):
        self.upset()
        return {"version": 3, "shape": self.shape, "typestr": "|u1", "data": self.data}


def listed(values, upset):
    """The values, with an upset before each and at the end."""
    for it in values:
        upset()
        yield it
    upset()


def made(form, channels, side, first):
    """An image of `side` by `side` pixels with padding, over memory that only it has."""
    stride = (side + 3) * channels
    size = memoryview(bytes(8)).cast(form).itemsize
    memory = bytearray(stride * side * size)
    cells = memoryview(memory).cast(form)
    for at in range(0, len(cells), 5):
        cells[at] = form == "?" or (at + first) % 100
    return Image(cells, side, side, stride, channels=channels)


def calls(side, channels, value):
    """Each call with its numbers: a function of an image, another image and the numbers, which it takes one by one."""
    inner, pixel = (2, 3, side - 5, side - 6), [value] * channels
    colour = lambda n: tuple(n) if channels > 1 else n[0]
    return {
        "get": (lambda i, o, n: i.get(*n), [2, 3]),
        "put": (lambda i, o, n: i.put(n[0], n[1], colour(n[2:])), [2, 3, *pixel]),
        "fill": (lambda i, o, n: i.fill(tuple(n[:4]), colour(n[4:])), [*inner, *pixel]),
        "copy_window": (lambda i, o, n: i.copy_window(tuple(n), o.window((0, 0, side - 5, side - 6))), [*inner]),
        "copy_window of the other": (lambda i, o, n: i.copy_window(tuple(n), o), [0, 0, side, side]),
        "move_window": (lambda i, o, n: i.move_window(tuple(n[:4]), tuple(n[4:])), [*inner, 1, 2, side - 5, side - 6]),
        "mosaic": (lambda i, o, n: i.mosaic(tuple(n[:4]), *n[4:]), [*inner, 3, 2]),
        "count": (lambda i, o, n: i.count(tuple(n[:4]), colour(n[4:])), [*inner, *pixel]),
        "flip_rows": (lambda i, o, n: i.flip_rows(tuple(n)), [*inner]),
        "flip_columns": (lambda i, o, n: i.flip_columns(tuple(n)), [*inner]),
        "swap_rows": (lambda i, o, n: i.swap_rows(*n), [2, 3]),
        "mosaic_means": (lambda i, o, n: i.mosaic_means(tuple(n[:4]), *n[4:]), [*inner, 3, 2]),
        "blur": (lambda i, o, n: i.blur(tuple(n[:4]), tuple(n[4:])), [*inner, 3, 2]),
        "blur by a radius": (lambda i, o, n: i.blur(tuple(n[:4]), n[4]), [*inner, 2]),
        "flood_fill": (lambda i, o, n: flood_fill(i, tuple(n[:2]), n[2]), [2, 3, value]),
        "bounding_box": (lambda i, o, n: bounding_box(i, n[0]), [value]),
        "window": (lambda i, o, n: i.window(tuple(n)).tobytes(), [*inner]),
        "tiles": (lambda i, o, n: [*i.tiles(*n)], [5, 4]),
        "Image": (lambda i, o, n: Image(bytearray(24), *n[:3], channels=n[3]).whole, [3, 2, 8, 2]),
    }


def runs(name, form, channels, side, change):
    """Whether a call with changed numbers gives what it gives with the numbers themselves."""
    call, numbers = calls(side, channels, 1)[name]
    plain, beside = made(form, channels, side, 7), made(form, channels, side, 40)
    given = call(plain, beside, numbers)
    image, other = made(form, channels, side, 7), made(form, channels, side, 40)
    upset = Upset([image, other], len(image.tobytes()))
    try:
        is_alike = call(image, other, change(numbers, upset)) == given
    except (ValueError, TypeError):
        return False
    return is_alike and image == plain and other == beside and upset.is_well()


def of_numbers():
    """Each number of each call, for numbers of each kind and colours."""
    for side in SIDES:
        for form, channels in (("B", 1), ("d", 1), ("?", 1), ("B", 3), ("H", 4)):
            for name, (_, numbers) in calls(side, channels, 1).items():
                if name == "mosaic_means" and form not in "BH" or "blur" in name and form != "B" or name in ("flood_fill", "bounding_box") and channels > 1:
                    continue
                for at in range(len(numbers)):
                    change = lambda n, upset: [*n[:at], Number(n[at], upset), *n[at + 1 :]]
                    label = f"{name}, number {at} ({form!r}, {channels} channels, side {side})"
                    check(label, runs(name, form, channels, side, change))


def of_lists():
    """Windows and colours that are made while they are read."""
    inner, small = (2, 3, 4, 5), Window(0, 0, 4, 5)
    for label, call in {
        "fill": lambda i, o, upset: i.fill(listed(inner, upset), listed((1, 2, 3), upset)),
        "put": lambda i, o, upset: i.put(1, 2, listed((1, 2, 3), upset)),
        "copy_window": lambda i, o, upset: i.copy_window(listed(inner, upset), o.window(small)),
        "move_window": lambda i, o, upset: i.move_window(listed(small, upset), listed(inner, upset)),
        "mosaic": lambda i, o, upset: i.mosaic(listed(inner, upset), 2, 3),
        "mosaic_means": lambda i, o, upset: i.mosaic_means(listed(inner, upset), 2, 3),
        "blur": lambda i, o, upset: i.blur(listed(inner, upset), (2, 3)),
        "copy_window of a buffer": lambda i, o, upset: i.copy_window(listed(inner, upset), Told(bytes(range(60)), (5, 4, 3), upset)),
        "count": lambda i, o, upset: i.count(listed(inner, upset), listed((1, 2, 3), upset)),
        "flip_rows": lambda i, o, upset: i.flip_rows(listed(inner, upset)),
        "flip_columns": lambda i, o, upset: i.flip_columns(listed(inner, upset)),
        "window": lambda i, o, upset: i.window(listed(inner, upset)).fill(small, (1, 2, 3)),
    }.items():
        plain, image, other = made("B", 3, 64, 7), made("B", 3, 64, 7), made("B", 3, 64, 40)
        upset = Upset([image, other], len(image.tobytes()))
        call(plain, made("B", 3, 64, 40), lambda: None)
        is_refused = raises((ValueError, TypeError), call, image, other, upset)
        check(f"a list that upsets: {label}", not is_refused and image == plain and upset.is_well())


def of_once():
    """An image is made once, and every way to its memory holds it."""
    frame = bytearray(range(6))
    image = Image(frame, 3, 2)
    check("no second __init__", raises(TypeError, image.__init__, bytearray(6), 3, 2) and raises(TypeError, image.__init__, bytes(6), 3, 2) and image.get(2, 1) == 5)
    check("nothing is resized", raises(BufferError, frame.append, 1) and raises(BufferError, frame.clear))
    check("no memory is put in place", raises(AttributeError, setattr, image, "_cells", image.copy()._cells) and raises(AttributeError, delattr, image, "_cells"))
    outside = [(0, (7, 7, 1, 7, 1, 1, 1)), (1, (6, 6, 1, 6, 1, 1, 1)), (7, (0, 0, 1, 1, 1, 1, 1)), (1, (2, 2, 1, 2, 2, 1, 1)), (0, (1 << 63, 3, 2, 3, 2, 1, 1)), ((1 << 64) - 1, (1, 1, 1, 1, 1, 1, 1))]
    check("no cells outside of memory", all(raises(ValueError, Cells, memoryview(bytearray(6)), at, sizes, "B", False) for at, sizes in outside))
    check("cells inside of memory", raises(TypeError, Cells, memoryview(bytearray(6)), 0, (6, 6, 1, 6, 3, 1, 1), "B", False) and Cells(memoryview(bytearray(6))[::2], 1, (4, 4, 1, 4, 1, 1, 1), "B", False).stride == 4)
    part = Image(bytearray(b"\1" * 4096), 64, 64).window((8, 8, 48, 48))
    taken = [bytearray(4096) for _ in range(8)]
    check("a window holds the memory", part.tobytes() == b"\1" * 2304 and part.window((1, 1, 2, 2)).get(1, 1) == 1 and taken)
    view = memoryview(Image(bytearray(b"\2" * 4096), 64, 64))
    taken = [bytearray(4096) for _ in range(8)]
    check("a memoryview holds the memory", view.tobytes() == b"\2" * 4096 and taken)
    bare = Image.__new__(Image)
    check("an image that isn't made", raises((TypeError, AttributeError), bare.get, 0, 0) and raises(TypeError, bare.tobytes) and raises(BufferError, memoryview, bare))
    late = Image.__new__(Image)
    late.__init__(frame, 3, 2)
    check("an image that is made late", late == image)


def of_numpy_memory(numpy):
    array = numpy.asarray(Image(bytearray(b"\3" * 4096), 64, 64))
    taken = [bytearray(4096) for _ in range(8)]
    check("NumPy: an array holds the memory", (array == 3).all() and taken)


def together(label, work, disturb, image, size):
    """Two threads for a while: one calls, the other disturbs and takes memory for itself."""
    until, taken, fell = time.monotonic() + SECONDS, [], []

    def repeat(call):
        try:
            call()
            while time.monotonic() < until and not fell:
                call()
        except Exception as why:  # (shown below)
            fell.append(why)

    def take():
        raises((ValueError, TypeError, BufferError), disturb)
        taken[:] = [*taken[-8:], bytearray(b"\xaa" * size)]

    threads = [threading.Thread(target=repeat, args=(it,)) for it in (work, take)]
    for it in threads:
        it.start()
    for it in threads:
        it.join()
    check(f"two threads: {label} {fell or ''}", not fell and taken and all(it.count(0xAA) == size for it in taken) and image.height == 512)


def of_threads():
    """One thread calls, and another makes the image again, resizes its memory or packs it."""
    for name in ("fill", "copy_window", "move_window", "mosaic", "turn_into", "turn", "flip_columns", "tobytes", "==", "copy", "flood_fill", "components", "equalize", "histogram", "blur"):
        image, source = made("B", 1, 512, 7), made("B", 1, 512, 40)
        work = {
            "fill": lambda: image.fill(image.whole, 7),
            "copy_window": lambda: image.copy_from(source),
            "move_window": lambda: image.move_window((0, 0, 500, 500), (3, 4, 500, 500)),
            "mosaic": lambda: image.mosaic(image.whole, 3, 3),
            "turn_into": lambda: source.turn_into(image, "right"),
            "turn": lambda: image.turn("right"),
            "flip_columns": image.flip_columns,
            "tobytes": image.tobytes,
            "==": lambda: image == source,
            "copy": image.copy,
            "flood_fill": lambda: flood_fill(image, (0, 0), 8 - image[0, 0] % 2),
            "components": lambda: components(image),
            "equalize": lambda: equalize(image),
            "histogram": lambda: histogram(image),
            "blur": lambda: image.blur(image.whole, 2),
        }[name]
        # (as large as before, so that its memory is freed and taken again)
        again = lambda: [it.__init__(bytearray(515 * 512), 512, 512, 515) for it in (image, source)]
        together(f"{name}, and __init__", work, again, image, 515 * 512)
    frame = bytearray(512 * 515)
    image = Image(frame, 512, 512, 515)
    together("fill, and clear", lambda: image.fill(image.whole, 7), frame.clear, image, 512 * 515)
    together("fill, and pack", lambda: image.fill(image.whole, 7), image.pack, image, 512 * 515)


of_numbers()
of_lists()
of_once()
if (numpy := numpy_or_none()) is not None:
    of_numpy_memory(numpy)
of_threads()
all_of(1000)
end()
