"""Values, sums and connected components of images, as functions of an image or of a buffer."""
from __future__ import annotations

from array import array

from . import _native
from ._cells import cell_of
from ._image import Image, image_of, room_of
from ._types import Buffer, Pixel, Window


def histogram(image: Image | Buffer) -> array[int]:
    """How many pixels have each value: 256 counts, or 65536 for numbers of two bytes. The numbers are
    unsigned, and a pixel is one of them.

    >>> counts = histogram(Image(bytes([3, 5, 3, 3]), 2, 2))
    >>> counts[3], counts[5], len(counts)
    (3, 1, 256)
    """
    it = _of_numbers(image, "BH", "a histogram has a count for each value")
    counts = array("Q", bytes(8 << 8 * it._pixels.cell.size))
    _native.histogram(it, Image(counts, len(counts), 1))
    return counts


def equalize(image: Image | Buffer) -> Image:
    """A copy whose values are spread over 0 to 255: each pixel becomes the part of 255 that the pixels
    up to its value are of all, rounded down. The pixels are bytes.

    >>> list(equalize(Image(bytes([10, 10, 20, 30]), 2, 2)).tobytes())
    [127, 127, 191, 255]
    """
    made = _of_numbers(image, "B", "bytes are spread over 0 to 255").copy()
    _native.equalize(made)
    return made


def integral(image: Image | Buffer) -> Image:
    """The integral image: each pixel is the sum of the pixels up to its column in the rows up to its own,
    as a number of 64 bits. The image has the same size, and the pixels are bytes.

    >>> integral(Image(bytes([1, 2, 3, 4]), 2, 2))[1, 1]
    10
    """
    it = _of_numbers(image, "B", "bytes are summed")
    areas = room_of(cell_of("Q", 8), 1, it.width, it.height)
    _native.integral(it, areas)
    return areas


def flood_fill(image: Image | Buffer, place: tuple[int, int], value: Pixel) -> None:
    """The pixel in column `x` of row `y`, which are `place`, becomes `value`, and so does each that is
    connected with it. A path leads there over sides, and over pixels of the same bits.

    >>> cells = bytearray([1, 1, 0, 1])
    >>> flood_fill(Image(cells, 4, 1), (0, 0), 7)
    >>> list(cells)
    [7, 7, 0, 1]
    """
    it, (x, y) = image if isinstance(image, Image) else Image(image), place
    _native.flood_fill(_of_cells(it), x, y, it._pixels.encode(value))


def components(image: Image | Buffer) -> tuple[int, Image]:
    """How many connected components there are, and the label of each pixel, as a number of 64
    bits. Two pixels have one label exactly if they are connected, as in `flood_fill`. The labels begin
    at 1, and no pixel is background.

    >>> count, labels = components(Image(bytes([5, 5, 0, 5]), 4, 1))
    >>> count, [labels[0, x] for x in range(4)]
    (3, [1, 1, 2, 3])
    """
    it = _of_cells(_shown(image))
    labels = room_of(cell_of("Q", 8), 1, it.width, it.height)
    return _native.components(it, labels), labels


def bounding_box(image: Image | Buffer, value: Pixel) -> Window | None:
    """The least window that has every pixel with the bits of `value`, or None where there is no such
    pixel. With a label of `components` it is the box around its component.

    >>> bounding_box(Image(bytes([0, 9, 0, 9]), 2, 2), 9)
    Window(left=1, top=0, width=1, height=2)
    """
    it = _of_cells(_shown(image))
    around = Window(*_native.bounding_box(it, it._pixels.encode(value)))
    return around if around.width else None


def _shown(image: Image | Buffer) -> Image:
    """The image, or one over a buffer that is only read."""
    return image if isinstance(image, Image) else image_of(image)


def _of_cells(image: Image) -> Image:
    """The image, if each of its pixels is one cell of the library."""
    if image._pixels.step != 1:
        instead = "add a fourth number to each pixel, or take one channel by Image.copy_of(numpy.asarray(image)[..., 0])"
        raise TypeError(f"connected components are of pixels of 1, 2, 4 or 8 bytes at a multiple of that, and pixels are {image._pixels!r}: {instead}")
    return image


def _of_numbers(image: Image | Buffer, codes: str, why: str) -> Image:
    """The image, or one over a buffer, whose pixels are one number of such a format."""
    it = _shown(image)
    if it._pixels.channels != 1 or it._pixels.cell.code not in codes:
        instead = ": take one channel by Image.copy_of(numpy.asarray(image)[..., 0])" if it._pixels.channels > 1 else ""
        raise TypeError(f"{why}, and pixels are {it._pixels!r}{instead}")
    return it
