"""What an image is made of: memory, sizes, and the format of its pixels."""
from __future__ import annotations

from typing import Any

from ._memory import Memory
from ._native import Cells, Holder, hold
from ._pixels import Pixels, pixels_of, step_of
from ._refusals import no_image
from ._types import Refused, Window


class Layout(Holder):
    """The memory, the sizes and the format of an image, with no call that reads or writes
    pixels.

    The cells hold the memory, and an image keeps its cells for good: a second `__init__` is
    refused.
    """

    # A pixel is one cell of the library or several; `_width` and `_height` are in pixels.
    __slots__ = ("_width", "_height", "_pixels", "_is_part", "__weakref__")
    _width: int
    _height: int
    _pixels: Pixels
    # Whether its padding belongs to another image, or to an array of which it is a part.
    _is_part: bool

    @property
    def width(self) -> int:
        """The columns."""
        return self._width

    @property
    def height(self) -> int:
        """The rows."""
        return self._height

    @property
    def channels(self) -> int:
        """How many numbers a pixel has."""
        return self._pixels.channels

    @property
    def shape(self) -> tuple[int, ...]:
        """The height, the width, and for a colour image the channels, as of a NumPy array."""
        sizes, channels = (self._height, self._width), self._pixels.channels
        return (*sizes, channels) if channels > 1 else sizes

    @property
    def stride(self) -> int:
        """The numbers from the start of a row to that of the next: `channels` of them are a
        pixel."""
        return self._cells.stride * (self._pixels.channels // self._pixels.step)

    @property
    def format(self) -> str:
        """The byte order and the letter of a number, as `struct` has them. An exporter's 'l' of 8
        bytes is 'q' here."""
        return self._pixels.cell.format

    @property
    def dtype(self) -> str:
        """The format of a number as NumPy has it: 'numpy.dtype' takes it."""
        return self._pixels.cell.typestr

    @property
    def readonly(self) -> bool:
        """Whether the memory is for reading alone."""
        return self._cells.is_readonly

    @property
    def whole(self) -> Window:
        """The window of all."""
        return Window(0, 0, self._width, self._height)

    @property
    def __array_interface__(self) -> dict[str, Any]:
        """The pixels for PIL (`PIL.Image.fromarray`), which copies them. NumPy takes the buffer."""
        size, channels, cells = self._pixels.cell.size, self._pixels.channels, self._cells
        strides: tuple[int, ...] = (self.stride * size, size * channels)
        if channels > 1:
            strides = (*strides, size)
        data = (cells.start, cells.is_readonly)
        return {"version": 3, "shape": self.shape, "typestr": self.dtype, "data": data, "strides": strides}

    def _over(self, memory: Memory, width: int, height: int, stride: int, length: int, channels: int, at: int = 0) -> None:
        """Makes this the image of so many numbers from byte `at` of the memory on, with a stride
        that is counted in numbers."""
        cell, start = memory.cell, memory.start + at
        if start % cell.size:
            raise ValueError(f"numbers of {cell.size} bytes lie at multiples of {cell.size}, and the first of these is {start % cell.size} bytes after one")
        step = step_of(cell, channels, start, stride)
        numbers = channels // step
        sizes = (length // numbers, width * step, height, stride // numbers, cell.size * numbers, step, channels)
        try:
            cells = Cells(memory.view, at, sizes, cell.code, not memory.is_writable)
        except Refused as why:
            raise Refused(why.status, no_image(width, height, stride, length, channels)) from None
        hold(self, cells)
        self._pixels, self._width, self._height = pixels_of(cell, channels, step), width, height
        self._is_part = False

    def _is_alike(self, other: Layout) -> bool:
        """Whether pixels of both have the same numbers."""
        return self._pixels is other._pixels or self._pixels.cell is other._pixels.cell and self._pixels.channels == other._pixels.channels

    def _needs_alike(self, other: Layout, name: str) -> None:
        """Refuses pixels of other numbers than this has."""
        if not self._is_alike(other):
            raise TypeError(f"the {name} has pixels of {other._pixels!r}, and the image has pixels of {self._pixels!r}")
