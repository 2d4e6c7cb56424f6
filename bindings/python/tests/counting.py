"""What the tests share: counting cases, and memory as other modules may export it."""
import ctypes
import math
import struct
import sys

from imgref import Image, Window

# The kind of number of each letter of a format. Long doubles, complex numbers and characters have
# none.
KINDS = {"?": "bool", **dict.fromkeys("bhilqn", "signed"), **dict.fromkeys("BHILQN", "unsigned"), **dict.fromkeys("efd", "real")}
ORDERS = {"": sys.byteorder, "@": sys.byteorder, "=": sys.byteorder, "^": sys.byteorder, "<": "little", ">": "big", "!": "big"}
# What buffers of `exported` point to.
kept = []
passed = failed = skipped = 0


def check(name, is_well):
    global passed, failed
    passed, failed = passed + bool(is_well), failed + (not is_well)
    print(f"{name}: {'passed' if is_well else 'FAILED'}")


def skip(name, package, number=1):
    """Cases that can't be tried for want of a package of Debian's."""
    global skipped
    skipped += number
    print(f"{name}: {number} skipped, no {package}")


def end():
    """Prints the count, and ends the program."""
    print(f"{passed} passed, {failed} failed, {skipped} skipped")
    sys.exit(failed > 0 or not passed)


def raises(kind, call, *words):
    try:
        call(*words)
    except kind:
        return True
    return False


class Buffer(ctypes.Structure):
    """Py_buffer, as another module fills it."""

    _fields_ = [
        ("buf", ctypes.c_void_p),
        ("obj", ctypes.py_object),
        ("len", ctypes.c_ssize_t),
        ("itemsize", ctypes.c_ssize_t),
        ("readonly", ctypes.c_int),
        ("ndim", ctypes.c_int),
        ("format", ctypes.c_char_p),
        ("shape", ctypes.POINTER(ctypes.c_ssize_t)),
        ("strides", ctypes.POINTER(ctypes.c_ssize_t)),
        ("suboffsets", ctypes.POINTER(ctypes.c_ssize_t)),
        ("internal", ctypes.c_void_p),
    ]


def exported(form, size, memory, shape=None, strides=None, start=0, **more):
    """The memory as another module may export it: by any format, shape and strides, from a byte
    on."""
    cells = (ctypes.c_char * len(memory)).from_buffer(memory)
    shape = (len(memory) // size,) if shape is None else shape
    numbers = {name: (ctypes.c_ssize_t * len(it))(*it) for name, it in {"shape": shape, "strides": strides or (size,), **more}.items()}
    name = form.encode()
    kept.append((cells, name))
    pointers = {name: ctypes.cast(it, ctypes.POINTER(ctypes.c_ssize_t)) for name, it in numbers.items()}
    buffer = Buffer(buf=ctypes.addressof(cells) + start, len=size * math.prod(shape), itemsize=size, ndim=len(shape), format=name, **pointers)
    to_view = ctypes.pythonapi.PyMemoryView_FromBuffer
    to_view.restype, to_view.argtypes = ctypes.py_object, [ctypes.POINTER(Buffer)]
    return to_view(buffer)


def values_of(kind, size):
    """The least and the greatest value of a cell, and values that aren't for it."""
    bits, no_numbers = 8 * size, ("1", b"1", None, 1j, [1], object())
    return {
        "bool": ((False, True), (2, -1, 0.5, *no_numbers)),
        "signed": ((-1 << bits - 1, (1 << bits - 1) - 1), ((-1 << bits - 1) - 1, 1 << bits - 1, 1 << 100, 1.0, *no_numbers)),
        "unsigned": ((0, (1 << bits) - 1), (-1, 1 << bits, 1 << 100, 1.0, *no_numbers)),
        "real": ((-1.5, 0.25), (10**400, *([1e300] if size < 8 else []), *no_numbers)),
    }[kind]


def bytes_of(value, kind, size, order):
    if kind == "real":
        return struct.pack({"little": "<", "big": ">"}[order] + {2: "e", 4: "f", 8: "d"}[size], value)
    return int(value).to_bytes(size, order, signed=kind == "signed")


def holds(buffer, kind, order=sys.byteorder):
    """Whether an image over six cells writes and reads the numbers of a kind in a byte order, and
    refuses all else."""
    shown = memoryview(buffer)
    size, cells = shown.itemsize, [shown.tobytes()[at : at + shown.itemsize] for at in range(0, shown.nbytes, shown.itemsize)]
    image, ((least, most), refused) = Image(buffer, 2, 2, 3), values_of(kind, size)
    image.put(0, 0, least)
    image.fill(Window(1, 0, 1, 2), most)
    cells[0], cells[1], cells[4] = (bytes_of(it, kind, size, order) for it in (least, most, most))
    read = [image.get(0, 0), image.get(1, 0), image.get(1, 1)]
    is_well = shown.tobytes() == b"".join(cells) and read == [least, most, most] and type(read[0]) is type(least)
    for value in refused:
        is_well &= raises((ValueError, TypeError), image.put, 0, 0, value) and raises((ValueError, TypeError), image.fill, image.whole, value)
    return is_well and shown.tobytes() == b"".join(cells)


def refuses(buffer):
    """Whether there is no image over these cells, and they are as before."""
    shown = memoryview(buffer)
    before = shown.tobytes()
    return raises(TypeError, Image, buffer, 2, 2, 3) and shown.tobytes() == before


def numpy_or_none():
    """NumPy, where it is installed."""
    try:
        import numpy
    except ImportError:
        skip("what is beside NumPy", "python3-numpy")
        return None
    return numpy
