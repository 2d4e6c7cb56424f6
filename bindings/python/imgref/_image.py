"""Images over memory that belongs to other objects."""
from __future__ import annotations

from collections.abc import Mapping, Set
from operator import index
from types import EllipsisType
from typing import TYPE_CHECKING, Any, Iterator, NoReturn, SupportsIndex, overload

from . import _native
from ._cells import Cell
from ._layout import Layout
from ._memory import known, memory_of, shaped, sized
from ._refusals import piece, place
from ._types import Buffer, Corners, Pixel, Refused, Turn, Window

_get, _put, _fill, _copy = _native.get, _native.put, _native.fill, _native.copy
_move, _mosaic, _equal, _window, _hold = _native.move, _native.mosaic, _native.equal, _native.window, _native.hold
# The turns by their names, and how many quarters each is, clockwise.
_QUARTERS: dict[Turn, int] = {"right": 1, "half": 2, "left": 3}
# In the place of a value: `fill` got one argument, which is for all pixels.
_ALL = object()
# The statuses of imgref.h for a window and for a pixel that aren't there.
_WINDOW_OUTSIDE, _PLACE_OUTSIDE = 2, 4


class Image(Layout):
    """An image over memory that belongs to another object.

    `Image(buffer, width, height, stride)` takes a buffer of one dimension (stride: that of joined
    rows). `Image(buffer)` takes one of two dimensions whose rows go downwards and whose columns
    have no gaps, such as `array[10:20, 5:50]`. One of three dimensions is a colour image: height,
    width, and one to four numbers in a pixel. With sizes, `channels` tells how many.

    >>> frame = bytearray(range(8))
    >>> image = Image(frame, 3, 2, 4)
    >>> image.fill(Window(1, 0, 2, 2), 90)
    >>> image, list(frame)
    (<imgref.Image of 3 by 2 pixels, stride 4, format 'B'>, [0, 90, 90, 3, 4, 90, 90, 7])

    `==` tells whether two images have one size, one format and pixels of equal bits. A buffer of two
    or three dimensions, such as a NumPy array, is compared as an image over it; anything else is
    unequal.
    """

    __slots__ = ()
    # NumPy leaves `array == image` to the image.
    __array_ufunc__ = None

    def __init__(
        self,
        buffer: Buffer,
        width: int | None = None,
        height: int | None = None,
        stride: int | None = None,
        *,
        channels: int | None = None,
    ):
        memory = memory_of(buffer)
        if width is None and height is None and stride is None and channels is None:
            sizes = shaped(memory)
        else:
            sizes = sized(memory, width, height, stride, channels)
        self._over(memory, *sizes)
        self._is_part = width is None and not memory.view.c_contiguous

    @classmethod
    def copy_of(cls, buffer: Buffer) -> Image:
        """A copy of a buffer of two or three dimensions, in joined rows and memory of its own.

        The strides may be any: those of a transposed array, or of rows that go upwards.
        """
        memory = memory_of(buffer)
        if len(memory.shape) not in (2, 3):
            raise TypeError(f"a copy takes a buffer of two or three dimensions, not of {len(memory.shape)}")
        height, width, channels = (*memory.shape, 1)[:3]
        owned = memory_of(bytearray(memory.view.tobytes()))
        made = cls.__new__(cls)
        owned = owned._replace(cell=memory.cell)
        made._over(owned, width, height, max(width, 1) * known(channels), owned.bytes // memory.cell.size, channels)
        return made

    @classmethod
    def planes_of(cls, buffer: Buffer) -> list[Image]:
        """An image over each plane of a buffer of three dimensions: planes, rows and columns."""
        memory, planes = memory_of(buffer), []
        if len(memory.shape) != 3:
            raise TypeError(f"planes go with a buffer of three dimensions, not of {len(memory.shape)}")
        if memory.strides[0] < 0:
            raise ValueError("no images: the planes go backwards (copy_of copies such pixels)")
        plane = memory._replace(shape=memory.shape[1:], strides=memory.strides[1:])
        for at in range(memory.shape[0]):
            made = cls.__new__(cls)
            made._over(memory, *shaped(plane), at * memory.strides[0])
            made._is_part = not memory.view.c_contiguous
            planes.append(made)
        return planes

    def get(self, x: int, y: int) -> Any:
        """The pixel in column `x` of row `y`: a number, or a tuple of a colour image's."""
        return self._pixels.decode(_get(self, x, y))

    def put(self, x: int, y: int, value: Pixel) -> None:
        """The pixel in column `x` of row `y` becomes `value`."""
        _put(self, x, y, self._pixels.encode(value))

    @overload
    def fill(self, value: Pixel, /) -> None: ...

    @overload
    def fill(self, *, value: Pixel) -> None: ...

    @overload
    def fill(self, window: Corners, value: Pixel) -> None: ...

    def fill(self, window: Any = _ALL, value: Any = _ALL) -> None:
        """Every pixel of the window becomes `value`. `fill(value)` is for all pixels. A value of four
        numbers may be a window whose value was forgotten, so it is `fill(value=..)`."""
        if value is _ALL:
            if window is _ALL:
                raise TypeError("a value is missing: fill(window, value), or fill(value=..) for all pixels")
            if _may_be_window(window):
                raise TypeError(f"a value is missing: fill({window!r}, value), or fill(value={window!r}) for all pixels")
            window, value = _ALL, window
        _fill(self, (0, 0, self._width, self._height) if window is _ALL else window, self._pixels.encode(value))

    def count(self, window: Corners, value: Pixel) -> int:
        """How many pixels of the window have the bits of `value`.

        >>> image = Image(bytes([1, 2, 1, 1]), 2, 2)
        >>> image.count(image.whole, 1)
        3
        """
        return _native.count(self, window, self._pixels.encode(value))

    def copy_window(self, window: Corners, source: Image | Buffer) -> None:
        """The window gets the pixels of `source`, an image or a buffer of two or three dimensions.
        It has the window's size and this image's format, and is over other memory."""
        if not isinstance(source, Image):
            source = image_of(source)
        self._needs_alike(source, "source")
        _copy(self, window, source)

    def copy_from(self, source: Image | Buffer) -> None:
        """Every pixel becomes that of `source`, an image or a buffer, as in `copy_window`."""
        self.copy_window((0, 0, self._width, self._height), source)

    def copy(self) -> Image:
        """A copy in joined rows and memory of its own."""
        made = self._room(self._width, self._height)
        made.copy_from(self)
        return made

    def _room(self, width: int, height: int) -> Image:
        """An image of another size with pixels as this one has."""
        return room_of(self._pixels.cell, self._pixels.channels, width, height)

    def turn_into(self, target: Image, turn: Turn) -> None:
        """Writes the pixels to `target`, turned clockwise: `"right"`, `"half"` or `"left"`. It has
        the size of the turned image and this one's format, and is over other memory."""
        self._turn_into(target, _quarters(turn))

    def transpose_into(self, target: Image) -> None:
        """Writes the pixels to `target`, with rows in the place of columns, as `turn_into` does."""
        self._turn_into(target, 0)

    def _turn_into(self, target: Image, quarters: int) -> None:
        if not isinstance(target, Image):
            raise TypeError(f"the target is an Image, not {target!r}")
        self._needs_alike(target, "target")
        _native.turn(target, self, quarters)

    def turned(self, turn: Turn) -> Image:
        """A copy that is turned clockwise: `"right"`, `"half"` or `"left"`.

        >>> list(Image(bytes([1, 2, 3, 4, 5, 6]), 3, 2).turned("right").tobytes())
        [4, 1, 5, 2, 6, 3]
        """
        quarters = _quarters(turn)
        made = self._room(self._width, self._height) if quarters == 2 else self._room(self._height, self._width)
        self._turn_into(made, quarters)
        return made

    def transposed(self) -> Image:
        """A copy whose rows are the columns.

        >>> list(Image(bytes([1, 2, 3, 4, 5, 6]), 3, 2).transposed().tobytes())
        [1, 4, 2, 5, 3, 6]
        """
        made = self._room(self._height, self._width)
        self._turn_into(made, 0)
        return made

    def turn(self, turn: Turn) -> None:
        """Turns the image clockwise in place: `"right"`, `"half"` or `"left"`. It has to be a square,
        unless it is turned by a half.

        >>> image = Image(bytearray([1, 2, 3, 4]), 2, 2)
        >>> image.turn("right")
        >>> list(image.tobytes())
        [3, 1, 4, 2]
        """
        _native.turn_in_place(self, _quarters(turn))

    def transpose(self) -> None:
        """Rows become columns in place. The image has to be a square."""
        _native.turn_in_place(self, 0)

    def flip_rows(self, window: Corners | None = None) -> None:
        """The first row of the window, or of all, changes places with the last, and so on."""
        _native.flip_rows(self, self.whole if window is None else window)

    def flip_columns(self, window: Corners | None = None) -> None:
        """The first column of the window, or of all, changes places with the last, and so on."""
        _native.flip_columns(self, self.whole if window is None else window)

    def flipped_rows(self) -> Image:
        """A copy upside down.

        >>> list(Image(bytes([1, 2, 3, 4, 5, 6]), 3, 2).flipped_rows().tobytes())
        [4, 5, 6, 1, 2, 3]
        """
        made = self.copy()
        made.flip_rows()
        return made

    def flipped_columns(self) -> Image:
        """A mirrored copy.

        >>> list(Image(bytes([1, 2, 3, 4, 5, 6]), 3, 2).flipped_columns().tobytes())
        [3, 2, 1, 6, 5, 4]
        """
        made = self.copy()
        made.flip_columns()
        return made

    def swap_rows(self, y: int, z: int) -> None:
        """Rows `y` and `z` change places."""
        _native.swap_rows(self, y, z)

    def tobytes(self) -> bytes:
        """The bytes of all pixels, in joined rows. `bytes(image)` is the same."""
        return _native.joined(self)

    __bytes__ = tobytes

    def move_window(self, source: Corners, target: Corners) -> None:
        """The window `target` gets the pixels that the window `source` had; they may overlap."""
        _move(self, source, target)

    def mosaic(self, window: Corners, tile_width: int, tile_height: int) -> None:
        """Each tile of the window, from its corner on, gets the pixel that was at the tile's
        corner."""
        _mosaic(self, window, tile_width, tile_height)

    def mosaic_means(self, window: Corners, tile_width: int, tile_height: int) -> None:
        """Each tile of the window, from its corner on, gets the mean of its pixels, rounded to the
        nearest number. Each number of a colour is a mean of its own. The numbers are unsigned and
        have one or two bytes."""
        if self._pixels.cell.code not in ("B", "H"):
            raise TypeError(f"means are of unsigned numbers of one or two bytes, 'B' or 'H', not of format {self.format!r}")
        _native.mosaic_means(self, window, tile_width, tile_height, self.channels)

    def blur(self, window: Corners, radius: int | tuple[int, int]) -> None:
        """Each pixel of the window becomes the mean of the box around it, rounded to the nearest
        number. The box has `radius` pixels on each side. Two numbers are those on the left and on the
        right, and those above and below. It is cut at the window's edges. Each number of a colour is
        a mean of its own. The numbers are bytes.

        >>> frame = bytearray([0, 10, 20, 90])
        >>> Image(frame, 4, 1).blur((0, 0, 4, 1), 1)
        >>> list(frame)
        [5, 10, 40, 55]
        """
        if self._pixels.cell.code != "B":
            raise TypeError(f"a blur is of unsigned numbers of one byte, 'B', not of format {self.format!r}")
        across, down = _reach(radius)
        _native.blur(self, window, across, down, self.channels)

    def pack(self) -> None:
        """Joins the rows at the front of the memory. The stride is that of joined rows from then
        on.

        A window and a part of an array are refused: the memory between their rows is another
        image's.
        """
        if self._is_part:
            raise ValueError("pack on a window or a part of an array would write over pixels beside it: copy() joins the rows")
        _native.pack(self)

    def window(self, window: Corners) -> Image:
        """The window as an image over the same memory."""
        made = Image.__new__(Image)
        cells, made._width, made._height = _window(self, window)
        _hold(made, cells)
        made._pixels, made._is_part = self._pixels, True
        return made

    @overload
    def __getitem__(self, key: tuple[SupportsIndex, SupportsIndex]) -> Any: ...

    @overload
    def __getitem__(self, key: slice | EllipsisType | tuple[slice, slice]) -> Image: ...

    def __getitem__(self, key: Any) -> Any:
        """`image[y, x]` is a pixel, and `image[10:20, 5:50]` is the window of these rows and
        columns. Numbers below 0 count from the end. A slice that reaches outside or ends before it
        begins is refused, and so is a step other than 1. One that ends where it begins is empty.

        >>> image = Image(bytearray(range(12)), 4, 3)
        >>> image[1, 2], image[-1, -1], list(image[1:, 2:].tobytes())
        (6, 11, [6, 7, 10, 11])
        """
        place = self._part(key)
        return self.window(place) if isinstance(place, Window) else self.get(*place)

    @overload
    def __setitem__(self, key: tuple[SupportsIndex, SupportsIndex], value: Pixel) -> None: ...

    @overload
    def __setitem__(self, key: slice | EllipsisType | tuple[slice, slice], value: Pixel | Image | Buffer) -> None: ...

    def __setitem__(self, key: Any, value: Any) -> None:
        """`image[y, x] = value` writes a pixel. `image[10:20, 5:50] = value` fills a window, or
        copies an image or a buffer of two or three dimensions into it."""
        place = self._part(key)
        if not isinstance(place, Window):
            self.put(*place, value)
        elif isinstance(value, Image) or getattr(value, "ndim", 0) > 1:
            source = value if isinstance(value, Image) else image_of(value)
            # (a part of this image is copied first, as NumPy does)
            self.copy_window(place, source.copy() if _native.overlap(self, source) else source)
        else:
            self.fill(place, value)

    # (else Python would try image[0], image[1] and so on, and would miss an attribute for `del`)
    __iter__ = __contains__ = __delitem__ = None

    def _part(self, key: Any) -> Window | tuple[int, int]:
        """The window, or the column and the row of the pixel, that an index means."""
        if type(key) is tuple and len(key) == 2 and type(key[0]) is type(key[1]) is int and key[0] >= 0 <= key[1]:
            return key[1], key[0]
        if key is ... or isinstance(key, slice):
            key = (slice(None) if key is ... else key, slice(None))
        if isinstance(key, tuple) and len(key) == 2 and isinstance(key[0], slice) == isinstance(key[1], slice) and not any(it is ... for it in key):
            sizes = (self._height, self._width)
            if isinstance(key[0], slice):
                (top, height), (left, width) = map(_piece, key, sizes, ("row", "column"))
                return Window(left, top, width, height)
            y, x = map(index, key)
            if -sizes[0] <= y and -sizes[1] <= x:
                return x + sizes[1] * (x < 0), y + sizes[0] * (y < 0)
            raise Refused(_PLACE_OUTSIDE, place(x, y, self._width, self._height))
        raise TypeError(f"an image takes image[y, x] or image[top:bottom, left:right], and not {key!r}{_instead(key)}")

    def tiles(self, tile_width: int, tile_height: int) -> Iterator[Window]:
        """The windows of the tiles, line by line."""
        sizes = (self._width, self._height, index(tile_width), index(tile_height))
        for number in range(_native.tile_count(*sizes)):
            yield Window(*_native.tile(*sizes, number))

    def __eq__(self, other: object) -> bool:
        if not isinstance(other, Image):
            try:
                other = image_of(other)
            except (ValueError, TypeError):
                return False
        return self._is_alike(other) and _equal(self, other)

    __hash__ = None  # type: ignore[assignment]

    def _no_sum(self, other: object) -> NoReturn:
        raise TypeError("an image has no arithmetic and no order: numpy.asarray(image) is an array over its pixels, which has")

    if not TYPE_CHECKING:
        __add__ = __radd__ = __sub__ = __rsub__ = __mul__ = __rmul__ = __truediv__ = __rtruediv__ = _no_sum
        __floordiv__ = __rfloordiv__ = __mod__ = __rmod__ = __pow__ = __rpow__ = __matmul__ = __rmatmul__ = _no_sum
        __and__ = __rand__ = __or__ = __ror__ = __xor__ = __rxor__ = __lt__ = __le__ = __gt__ = __ge__ = _no_sum

    def __copy__(self) -> Image:
        return self.window((0, 0, self._width, self._height))

    def __reduce__(self) -> Any:
        raise TypeError("no copy of an image takes its memory along: use copy()")

    def __repr__(self) -> str:
        colours = f", {self._pixels.channels} channels" if self._pixels.channels > 1 else ""
        return f"<imgref.Image of {self._width} by {self._height} pixels{colours}, stride {self.stride}, format {self.format!r}>"


def _piece(key: slice, count: int, name: str) -> tuple[int, int]:
    """The first of the rows or columns that a slice means, and how many they are. None is cut off,
    so that what is to be covered is covered."""
    step = 1 if key.step is None else index(key.step)
    if step != 1:
        raise ValueError(f"a window has every row and column, and no step of {step}: copy_of copies such pixels of an array")
    start, stop = 0 if key.start is None else index(key.start), count if key.stop is None else index(key.stop)
    begin, end = start + count * (start < 0), stop + count * (stop < 0)
    if not (0 <= begin <= count and 0 <= end <= count) or end < begin:
        raise Refused(_WINDOW_OUTSIDE, piece(name, "" if key.start is None else str(start), "" if key.stop is None else str(stop), begin, end, count))
    return begin, end - begin


def _may_be_window(value: Any) -> bool:
    """Whether a value has four parts, as a window has, or gives its parts once and so doesn't tell."""
    if isinstance(value, (str, Set, Mapping)):
        return False
    try:
        return len(value) == 4
    except TypeError:
        return hasattr(value, "__next__")


def _reach(radius: Any) -> tuple[int, int]:
    """How many pixels a box has on the left and on the right, and how many above and below."""
    if isinstance(radius, (tuple, list)):
        if len(radius) != 2:
            raise ValueError(f"a radius is a number, or two (across, down), not {radius!r}")
        return index(radius[0]), index(radius[1])
    number = index(radius)
    return number, number


def _instead(key: Any) -> str:
    """What to write for an index that an array has and an image hasn't."""
    if not isinstance(key, tuple):
        return ""
    if len(key) == 3 or any(it is ... for it in key):
        return ": numpy.asarray(image) is an array over its pixels, with the channels as its last index"
    if len(key) == 2 and isinstance(key[0], slice) != isinstance(key[1], slice):
        return ": a row is image[y:y + 1, left:right], and a column is image[top:bottom, x:x + 1]"
    return ""


def _quarters(turn: Turn) -> int:
    """How many quarters a turn is, clockwise."""
    if turn not in _QUARTERS:
        raise ValueError(f"no turn: {turn!r} is none of {', '.join(map(repr, _QUARTERS))}")
    return _QUARTERS[turn]


def room_of(cell: Cell, channels: int, width: int, height: int) -> Image:
    """An image of such pixels, in joined rows and memory of its own. It has no values yet."""
    made, numbers = Image.__new__(Image), width * height * channels
    # (a bytearray of no byte may begin at any address)
    owned = memory_of(_native.room(max(numbers, 1) * cell.size))._replace(cell=cell)
    made._over(owned, width, height, max(width, 1) * channels, numbers, channels)
    return made


def image_of(source: Buffer) -> Image:
    """An image over the pixels of a buffer, or over a copy where its strides are no image's."""
    try:
        return Image(source)
    except ValueError:
        return Image.copy_of(source)
