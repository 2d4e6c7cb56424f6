"""Where a buffer's pixels are: its memory, the format of its numbers, its shape and its strides."""
from __future__ import annotations

from operator import index
from typing import Any, NamedTuple

from ._cells import KINDS, Cell, cell_of, size_of
from ._native import address
from ._types import Buffer

# A colour image has at most so many numbers in a pixel.
MOST_CHANNELS = 4


class Memory(NamedTuple):
    """The memory of an object, which stays where it is while `view` is there. Shape and strides are
    those of the buffer, and strides are counted in bytes."""

    view: memoryview
    start: int
    bytes: int
    cell: Cell
    shape: tuple[int, ...]
    strides: tuple[int, ...]
    is_writable: bool


def memory_of(owner: Buffer) -> Memory:
    """The memory of an object that has the buffer protocol, or else the array interface with its
    data as a buffer."""
    try:
        view = memoryview(owner)
    except BufferError as why:
        raise TypeError(f"the buffer isn't memory with strides: {why}") from why
    except TypeError:
        told = getattr(owner, "__array_interface__", None)
        if not isinstance(told, dict):
            raise
        return _by_interface(told)
    if view.suboffsets:
        raise TypeError("the buffer is pointers to rows")
    shape, cell = view.shape or (), cell_of(view.format, view.itemsize)
    # (contiguous items may come without strides, as from ctypes)
    strides = view.strides or packed_strides(shape, cell.size)
    return Memory(view, address(view), view.nbytes, cell, shape, strides, not view.readonly)


def _by_interface(told: dict[str, Any]) -> Memory:
    """The memory of an object that has only the array interface, such as an image of PIL: its data
    is a copy for reading."""
    form, shape, data = told.get("typestr"), told.get("shape"), told.get("data")
    if not isinstance(form, str) or not isinstance(shape, tuple) or told.get("strides") is not None or told.get("mask") is not None:
        raise TypeError("no array interface of packed numbers")
    order, kind, digits = form[:1], form[1:2], form[2:]
    letters = KINDS.get(kind, "") if digits in ("1", "2", "4", "8") else ""
    known = [it for it in letters if size_of(it) == int(digits)] if letters else []
    if not known or order not in "<>|":
        raise TypeError(f"no cell: {form!r} is no integer, float or bool of 1, 2, 4 or 8 bytes")
    try:
        view = memoryview(data)  # type: ignore[arg-type]
    except (TypeError, BufferError) as why:
        raise TypeError("the array interface gives no buffer: take numpy.asarray of it") from why
    cell = cell_of((order if order in "<>" else "=") + known[0], int(digits))
    numbers = tuple(map(index, shape))
    strides, count = packed_strides(numbers, cell.size), cell.size
    for it in numbers:
        count *= it
    if min(numbers, default=0) < 0 or not view.c_contiguous or view.nbytes != count:
        raise TypeError("the array interface gives another number of bytes than its shape has")
    return Memory(view, address(view), count, cell, numbers, strides, False)


def packed_strides(shape: tuple[int, ...], size: int) -> tuple[int, ...]:
    """The strides of numbers that follow each other, the last index fastest."""
    strides, step = [], size
    for it in reversed(shape):
        strides.append(step)
        step *= it
    return tuple(reversed(strides))


class Sizes(NamedTuple):
    """An image's width and height in pixels, its stride and its length in numbers, and how many of
    these are a pixel."""

    width: int
    height: int
    stride: int
    length: int
    channels: int


def shaped(memory: Memory) -> Sizes:
    """The sizes of a buffer of two dimensions, or of three for a colour image, with the numbers up
    to its last pixel."""
    if len(memory.shape) == 1:
        raise TypeError("a buffer of one dimension needs a width and a height")
    if len(memory.shape) not in (2, 3):
        raise TypeError(f"an image takes a buffer of one, two or three dimensions, not of {len(memory.shape)}")
    height, width, channels = (*memory.shape, 1)[:3]
    if not 1 <= channels <= MOST_CHANNELS:
        raise TypeError(f"a pixel has 1 to {MOST_CHANNELS} numbers, and {channels} in a buffer of shape {memory.shape}: of planes, rows and columns Image.planes_of makes an image for each plane")
    size, whole = memory.cell.size, memory.cell.size * channels
    line, step = memory.strides[:2]
    if height < 2 or not width:
        line = max(width, 1) * whole
    if width > 1 and step != whole or channels > 1 and memory.strides[2] != size or line % size or line < 0:
        raise ValueError(f"no image: a buffer of shape {memory.shape} with strides of {memory.strides} bytes has gaps in a row, or rows that go upwards (copy_of copies such pixels)")
    stride = line // size
    return Sizes(width, height, stride, stride * (height - 1) + width * channels if width and height else 0, channels)


def sized(memory: Memory, width: Any, height: Any, stride: Any, channels: Any) -> Sizes:
    """The sizes that are given with a buffer of one dimension, and how many numbers it has."""
    size = memory.cell.size
    if len(memory.shape) != 1:
        raise TypeError(f"sizes go with a buffer of one dimension, not of {len(memory.shape)}")
    if memory.bytes > size and memory.strides[0] != size:
        raise TypeError(f"sizes go with a buffer without gaps, and this one has an item of {size} bytes each {memory.strides[0]} bytes")
    for name, it in (("width", width), ("height", height)):
        if it is None:
            raise TypeError(f"a {name} is missing")
    width, height, channels = index(width), index(height), known(1 if channels is None else index(channels))
    return Sizes(width, height, max(width, 1) * channels if stride is None else index(stride), memory.bytes // size, channels)


def known(channels: int) -> int:
    """How many numbers a pixel has, where there may be so many."""
    if not 1 <= channels <= MOST_CHANNELS:
        raise TypeError(f"a pixel has 1 to {MOST_CHANNELS} numbers, not {channels}")
    return channels
