"""Each format of a number, and each format that is refused. Prints a line for each case, and 'N
passed, N failed, N skipped'."""
import array
import ctypes
import struct
import sys

from counting import KINDS, ORDERS, check, end, exported, holds, numpy_or_none, raises, refuses
from imgref import Image


def of_each_letter():
    """The letters of `struct` in every byte order, at the sizes that `struct` and other exporters
    give them."""
    for letter, kind in KINDS.items():
        for sign, order in ORDERS.items():
            mode = "@" if letter in "nN" else sign.replace("^", "@")
            # (ctypes before Python 3.14 says '<l' for 8 bytes too)
            sizes = {struct.calcsize(mode + letter)} | ({4, 8} if letter in "lL" else set())
            for size in sizes:
                is_well = holds(exported(sign + letter, size, bytearray(6 * size)), kind, order)
                check(f"cells of format {sign + letter!r}, {size} bytes", is_well)
    native = [it for it in KINDS if it != "e"]
    check("memoryview.cast", all(holds(memoryview(bytearray(48)).cast(it)[:6], KINDS[it]) for it in native))


def of_no_numbers():
    """Formats of anything but one number, and numbers at sizes that they don't have."""
    letters = [*"cspPx", "4s", "2p", "4x", *"gOuwtFD", "Zf", "Zd", "Zg", "O&", "&i", "&B", "X{}", "T{}", "T{B:a:}", "T{<i:a:<f:b:}"]
    for form in [*letters, "", "@", "<", "2B", "1i", "(2)B", "BB", "ii", "i ", " i", "<>i", "@@i", "i:a:", "\u00e9", "I\n"]:
        sides = [exported(sign + form, size, bytearray(range(6 * size))) for sign in ORDERS for size in (1, 2, 4, 8)]
        check(f"no cells of format {form!r}", all(map(refuses, sides)))
    for form in KINDS:
        known = {struct.calcsize(form)} | ({4, 8} if form in "lLnN" else set())
        sizes = {1, 2, 3, 4, 8, 16} - known
        check(f"no cells of format {form!r} but of {sorted(known)} bytes", all(refuses(exported(form, it, bytearray(range(6 * it)))) for it in sizes))


def of_arrays():
    for letter in array.typecodes:
        cells = array.array(letter, "abcdef" if letter in "uw" else [1] * 6)
        check(f"array.array {letter!r}", holds(cells, KINDS[letter]) if letter in KINDS else refuses(cells))
    cells = array.array("l", [0] * 4)
    image = Image(cells, 2, 2)
    image.fill(image.whole, -1)
    check("array.array 'l' of -1", cells.tolist() == [-1] * 4 and image.get(1, 1) == -1 and image.format[-1] == "iq"[cells.itemsize > 4])


def of_ctypes():
    signed = [ctypes.c_int8, ctypes.c_int16, ctypes.c_int32, ctypes.c_int64, ctypes.c_long, ctypes.c_longlong, ctypes.c_ssize_t]
    unsigned = [ctypes.c_uint8, ctypes.c_uint16, ctypes.c_uint32, ctypes.c_uint64, ctypes.c_ulong, ctypes.c_ulonglong, ctypes.c_size_t]
    kinds = {"signed": signed, "unsigned": unsigned, "real": [ctypes.c_float, ctypes.c_double], "bool": [ctypes.c_bool]}
    for kind, types in kinds.items():
        for it in types:
            check(f"ctypes: {it.__name__}", holds((it * 6)(), kind))
            for name, order in {"__ctype_le__": "little", "__ctype_be__": "big"}.items():
                if hasattr(it, name):
                    check(f"ctypes: {it.__name__}, {order}", holds((getattr(it, name) * 6)(), kind, order))
    pair = type("Pair", (ctypes.Structure,), {"_fields_": [("a", ctypes.c_int16), ("b", ctypes.c_int16)]})
    pointers = [ctypes.c_void_p, ctypes.c_char_p, ctypes.POINTER(ctypes.c_int64), ctypes.CFUNCTYPE(None)]
    for it in (ctypes.c_char, ctypes.c_wchar, ctypes.c_longdouble, pair, *pointers):
        check(f"ctypes: no {it.__name__}", refuses((it * 6)()))
    thing = object()
    cells, count = (ctypes.py_object * 6)(*[thing] * 6), sys.getrefcount(thing)
    check("ctypes: no py_object", refuses(cells) and sys.getrefcount(thing) == count)
    rows = ((ctypes.c_uint16 * 4) * 3)()
    Image(rows).put(3, 2, 500)
    check("ctypes: rows", rows[2][3] == 500 and Image(rows).width == 4)


def of_numpy_formats(numpy):
    frame = numpy.zeros((2, 2), int)
    image = Image(frame)
    image.fill(image.whole, -1)
    check("NumPy: int of -1", (frame == -1).all() and image.get(0, 0) == -1)
    check("NumPy: ==", type(image == frame) is bool and type(frame == image) is bool)
    Image(frame).fill(image.whole, frame[0, 0] - 1)
    check("NumPy: a number of NumPy", (frame == -2).all())
    kinds = {"b": "bool", "i": "signed", "u": "unsigned", "f": "real"}
    for letter in "?bBhHiIlLqQefd":
        for sign in "<>":
            form = numpy.dtype(letter).newbyteorder(sign)
            check(f"NumPy: {form}, {sign}", holds(numpy.zeros(6, form), kinds[form.kind], ORDERS[sign]))
    texts = [(bytes, 1), (bytes, 4), (str, 1), (numpy.void, 1), (numpy.void, 4)]
    for form in map(numpy.dtype, [*"gFDG", *texts, "i2,i2", [("a", "(2,)i2")]]):
        check(f"NumPy: no {form}", refuses(numpy.zeros(6, form)))
    for letter in ("M8[s]", "m8[s]"):
        check(f"NumPy: no {letter}", raises((ValueError, TypeError), Image, numpy.zeros(6, letter), 2, 2))
    thing = object()
    frame = numpy.array([thing] * 6, dtype=object)
    count = sys.getrefcount(thing)
    check("NumPy: no objects", refuses(frame) and sys.getrefcount(thing) == count)


of_each_letter()
of_no_numbers()
of_arrays()
of_ctypes()
if (numpy := numpy_or_none()) is not None:
    of_numpy_formats(numpy)
end()
