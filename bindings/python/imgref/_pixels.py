"""How the numbers of a pixel are in the cells of the library."""
from __future__ import annotations

import functools
import sys
from collections.abc import Mapping, Set
from typing import Any, Callable

from ._cells import Cell
from ._types import Number, Pixel

_GROUPS = (1, 2, 4, 8)
# What gives its values in no order that a colour has.
_NO_ORDER = (Set, Mapping)


class Pixels:
    """Pixels of `channels` numbers, each of which is `step` cells: one for all of its numbers, or
    one for each.

    `encode` gives the bits of a pixel as the calls take them: one number, or a list with one for
    each cell. `decode` is its inverse.
    """

    __slots__ = ("cell", "channels", "step", "encode", "decode")
    encode: Callable[[Any], int | list[int]]
    decode: Callable[[Any], Any]

    def __init__(self, cell: Cell, channels: int, step: int):
        self.cell, self.channels, self.step = cell, channels, step
        if channels == 1:
            self.encode, self.decode = cell.encode, cell.decode
        elif step > 1:
            self.encode, self.decode = self._numbers, self._of_numbers
        else:
            self.encode, self.decode = self._joined, self._of_joined

    def _numbers(self, value: Pixel) -> list[int]:
        """The bits of each number of a colour. One number stands for all of them."""
        encode = self.cell.encode
        if isinstance(value, _NO_ORDER):
            raise TypeError(f"a colour is {self.channels} numbers in their order, and {value!r} has none")
        try:
            values = iter(value)  # type: ignore[arg-type]
        except TypeError:
            return [encode(value)] * self.channels  # type: ignore[arg-type]
        numbers = [encode(it) for it in values]
        if len(numbers) != self.channels:
            raise ValueError(f"a colour is {self.channels} numbers, and {value!r} has {len(numbers)}")
        return numbers

    def __repr__(self) -> str:
        return (f"{self.channels} numbers" if self.channels > 1 else "one number") + f" of format {self.cell.format!r}"

    def _of_numbers(self, bits: list[int]) -> tuple[Number, ...]:
        return tuple(map(self.cell.decode, bits))

    def _joined(self, value: Pixel) -> int:
        """The bits of the one cell that a colour is."""
        size, own = self.cell.size, sys.byteorder
        return int.from_bytes(b"".join(it.to_bytes(size, own) for it in self._numbers(value)), own)

    def _of_joined(self, bits: int) -> tuple[Number, ...]:
        size, own, decode = self.cell.size, sys.byteorder, self.cell.decode
        data = bits.to_bytes(size * self.channels, own)
        return tuple(decode(int.from_bytes(data[at : at + size], own)) for at in range(0, len(data), size))


@functools.lru_cache(maxsize=None)
def pixels_of(cell: Cell, channels: int, step: int) -> Pixels:
    """The pixels of these numbers."""
    return Pixels(cell, channels, step)


def step_of(cell: Cell, channels: int, start: int, stride: int) -> int:
    """How many cells a pixel is: one where its bytes are 1, 2, 4 or 8 and lie at a multiple of
    that, else one for each number."""
    whole = cell.size * channels
    return 1 if whole in _GROUPS and not start % whole and not stride % channels else channels
