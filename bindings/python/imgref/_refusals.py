"""The words of refusals: each names what was given, and what was needed. native.c calls most of
them, with numbers alone."""
from __future__ import annotations

from ._types import Refused

__all__ = ["Refused"]


def no_image(width: int, height: int, stride: int, length: int, channels: int = 1) -> str:
    """A stride and a length are counted in numbers, of which a pixel has `channels`."""
    pixels, row = f"{width} by {height} pixels" + (f" of {channels} numbers" if channels > 1 else ""), width * channels
    if max(row, height) >> 32:
        return f"{pixels} are no image: a row has less than 2**32 numbers, and an image less than 2**32 rows"
    if stride < max(row, 1):
        return f"{pixels} need a stride of at least {max(row, 1)}, not {stride}"
    return f"{pixels} at stride {stride} need {stride * (height - 1) + row} items, and the buffer has {length}"


def window(left: int, top: int, width: int, height: int, columns: int, rows: int) -> str:
    ends = (("column", left + width, columns), ("row", top + height, rows))
    outside = " and ".join(f"{name} {end} of {count}" for name, end, count in ends if end > count)
    return f"the window {left},{top},{width},{height} reaches {outside}"


def piece(name: str, start: str, stop: str, begin: int, end: int, count: int) -> str:
    """A slice of rows or columns from one up to another, which begins and ends in these."""
    given = f"the slice {start}:{stop}"
    if 0 <= begin <= count and 0 <= end <= count:
        return f"{given} ends at {name} {end}, before it begins at {name} {begin}: the image has {count} {name}s"
    outside = " and ".join(f"{word} {name} {at}" for word, at in (("begins at", begin), ("ends at", end)) if not 0 <= at <= count)
    return f"{given} {outside}: the image has {count} {name}s"


def place(x: int, y: int, columns: int, rows: int) -> str:
    return f"there is no pixel in column {x} of row {y}: the image has {columns} columns and {rows} rows"


def row(y: int, z: int, rows: int) -> str:
    return f"there is no row {max(y, z)}: the image has {rows}"


def source(width: int, height: int, columns: int, rows: int) -> str:
    return f"the window has {width} by {height} pixels, and the source has {columns} by {rows}"


def windows(width: int, height: int, columns: int, rows: int) -> str:
    return f"the first window has {width} by {height} pixels, and the second has {columns} by {rows}"


def target(width: int, height: int, columns: int, rows: int) -> str:
    return f"{width} by {height} pixels come out of the turn, and the target has {columns} by {rows}"


def square(width: int, height: int) -> str:
    return f"only a square is turned by a quarter or transposed in place, and the image has {width} by {height} pixels: turned() and transposed() make copies of any size"


def tile(width: int, height: int) -> str:
    return f"no such tile: it would have {width} by {height} pixels"


def tile_number(width: int, height: int, tile_width: int, tile_height: int, number: int) -> str:
    count = -(-width // tile_width) * -(-height // tile_height)
    return f"no such tile: {number} of {count} tiles of {tile_width} by {tile_height} in {width} by {height} pixels"


def radius(across: int, down: int) -> str:
    return f"a blur takes less than 2**15 pixels on each side, and not {across} across and {down} down"


def status(number: int) -> str:
    return f"status {number}"
