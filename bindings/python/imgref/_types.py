"""What the calls take and raise."""
from __future__ import annotations

from typing import Any, Literal, NamedTuple, Sequence, Tuple, Union

# A number in Python: a bool is an int.
Number = Union[int, float]
# A pixel: a number, or as many as a colour image has.
Pixel = Union[Number, Sequence[Number]]
# A turn, clockwise.
Turn = Literal["right", "half", "left"]
# What has the buffer protocol, or `__array_interface__`.
Buffer = Any


class Refused(ValueError):
    """The library refused, and nothing has changed. The text names what was given and what was
    needed. `status` is what the library returned (imgref.h)."""

    status: int

    def __init__(self, status: int, text: str = ""):
        super().__init__(text or f"status {status}")
        self.status = status

    def __reduce__(self) -> tuple[type[Refused], tuple[int, str]]:
        return Refused, (self.status, str(self))


class Window(NamedTuple):
    """The column and the row of a window's corner, and its size, in pixels."""

    left: int
    top: int
    width: int
    height: int


# A window, or four numbers in its order.
Corners = Union[Window, Tuple[int, int, int, int]]
