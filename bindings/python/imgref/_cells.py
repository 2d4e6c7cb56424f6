"""The formats of numbers, and how a number becomes the bits of a cell."""
from __future__ import annotations

import functools
import struct
import sys
from math import copysign
from operator import index
from typing import Callable

from . import _native
from ._types import Number


def size_of(letter: str) -> int:
    """The bytes of a number of this letter in standard mode."""
    return struct.calcsize(f"={letter}")


# For each letter that a buffer may give: the sizes in bytes that its items may have, and the letter
# that `struct` has for such an item in standard mode. The buffer's letter doesn't tell the size:
# 'l' has 4 bytes or 8.
LETTERS: dict[str, dict[int, str]] = {
    **{it: {size_of(it): it} for it in "?bBhHiIqQefd"},
    **{it: {4: "i", 8: "q"} for it in "ln"},
    **{it: {4: "I", 8: "Q"} for it in "LN"},
}
OWN_ORDER = "<" if sys.byteorder == "little" else ">"
ORDERS = {"@": OWN_ORDER, "=": OWN_ORDER, "^": OWN_ORDER, "<": "<", ">": ">", "!": ">"}
# The letters by the kinds of the array interface.
KINDS = {"b": "?", "i": "bhiq", "u": "BHIQ", "f": "efd"}


class Cell:
    """A number in memory: its format as `struct` has it, its size in bytes, and its two functions.

    `encode` gives the bits of a value. It cuts no value to fit, and takes no float for an integer.
    `decode` is its inverse.
    """

    __slots__ = ("format", "size", "encode", "decode")

    def __init__(self, format: str, size: int, encode: Callable[[Number], int], decode: Callable[[int], Number]):
        self.format, self.size, self.encode, self.decode = format, size, encode, decode

    @property
    def code(self) -> str:
        """The format as a buffer has it, which `memoryview` reads in the processor's own order."""
        return self.format[-1] if self.size == 1 or self.format[0] == OWN_ORDER else self.format

    @property
    def typestr(self) -> str:
        """The format as the array interface has it."""
        kind = next(it for it, letters in KINDS.items() if self.format[-1] in letters)
        return f"{self.format[0] if self.size > 1 else '|'}{kind}{self.size}"


@functools.lru_cache(maxsize=None)
def cell_of(form: str, size: int) -> Cell:
    """The number of a buffer's format and item size."""
    order, letter = (ORDERS[form[0]], form[1:]) if form[:1] in ORDERS else (OWN_ORDER, form)
    known = LETTERS.get(letter, {}).get(size)
    if known is None:
        raise TypeError(f"no cell: format {form!r} of {size} bytes is no integer, float or bool of 1, 2, 4 or 8 bytes")
    return _cell(order + known if size > 1 else known)


@functools.lru_cache(maxsize=None)
def _cell(form: str) -> Cell:
    """The number of a format of `struct` with its byte order: one object for each format."""
    packed, order, known = struct.Struct(form), form[0], form[-1]
    size = packed.size
    if known in "?efd" or size > 1 and order != OWN_ORDER:
        return Cell(packed.format, size, *_by_struct(packed, known))
    return Cell(packed.format, size, *_whole(known, 8 * size))


def _whole(letter: str, bits: int) -> tuple[Callable[[Number], int], Callable[[int], Number]]:
    """The functions of an integer in the processor's own byte order."""
    mask = (1 << bits) - 1

    def decode(cell: int) -> Number:
        return cell - mask - 1 if cell > mask >> 1 else cell

    # (`index` of an int is that int)
    return getattr(_native, f"encode_{letter}"), decode if letter.islower() else index


def _by_struct(packed: struct.Struct, letter: str) -> tuple[Callable[[Number], int], Callable[[int], Number]]:
    """The functions of a float, a bool, or an integer in the other byte order."""
    form, bits = packed.format, struct.Struct("=" + {1: "B", 2: "H", 4: "I", 8: "Q"}[packed.size])
    pack, to_bytes = packed.pack, bits.pack
    unpack: Callable[[bytes], tuple[Number]] = packed.unpack  # type: ignore[assignment]
    of_bytes: Callable[[bytes], tuple[int]] = bits.unpack  # type: ignore[assignment]

    def wrong(value: Number, why: Exception) -> ValueError:
        return ValueError(f"{value!r} doesn't fit into a cell of format {form!r}: {why}")

    def encode_real(value: Number) -> int:
        try:
            # (copysign takes what has a float's value, and no text)
            return of_bytes(pack(copysign(value, value)))[0]
        except (struct.error, OverflowError) as why:
            raise wrong(value, why) from why

    def encode_bool(value: Number) -> int:
        if value not in (False, True):
            raise ValueError(f"{value!r} is no bool")
        return of_bytes(pack(bool(value)))[0]

    def encode_integer(value: Number) -> int:
        try:
            return of_bytes(pack(index(value)))[0]  # type: ignore[arg-type]
        except struct.error as why:
            raise wrong(value, why) from why

    def decode(cell: int) -> Number:
        return unpack(to_bytes(cell))[0]

    return {"?": encode_bool, "e": encode_real, "f": encode_real, "d": encode_real}.get(letter, encode_integer), decode
