"""Strided 2-D images over proved calls: windows are views, not copies.

    import imgref
    frame = imgref.Image(bytearray(640 * 480), 640, 480)          # a buffer with its sizes
    frame = imgref.Image(numpy_array)                             # or one of two dimensions, with its strides
    frame.fill(imgref.Window(10, 10, 64, 64), 0)
    frame.window(imgref.Window(0, 0, 320, 240)).copy_from(other)  # a window is an image over the same memory

An image takes what has the buffer protocol (bytearray, memoryview, array.array, a NumPy array or a
view of one) and copies nothing: it writes where the pixels are. A number is one integer, float or
bool of 1, 2, 4 or 8 bytes, in either byte order. A pixel is one number, or up to four of a colour
image. No other format is taken, so no pixel has a pointer.

A call that fails raises `ValueError` or `TypeError`, and nothing has changed. Where the library
refuses, for example a window that isn't inside, that is `Refused`, a `ValueError`. Memory that
overlaps is refused here too, since the library can't see that.
"""
try:
    from . import _native as _native
except ImportError as why:
    if "subinterpreter" not in str(why):
        raise
    raise ImportError("imgref loads in the main interpreter alone, and not in a subinterpreter: take threads or processes") from None
from ._image import Image
from ._regions import bounding_box, components, equalize, flood_fill, histogram, integral
from ._types import Buffer, Corners, Number, Pixel, Refused, Window

__version__ = "0.5.0"
__all__ = ["Buffer", "Corners", "Image", "Number", "Pixel", "Refused", "Window", "bounding_box", "components", "equalize", "flood_fill", "histogram", "integral", "__version__"]

# (a user knows these by the package's name)
for _it in (Image, Refused, Window, bounding_box, components, equalize, flood_fill, histogram, integral):
    _it.__module__ = __name__
