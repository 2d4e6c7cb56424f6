"""The calls while another process changes the pixels: results are unspecified, and no call writes outside its memory. Each call
is tried in a process of its own, which a write outside ends by a signal. Prints 'N passed, M failed' last."""
import mmap
import os
import signal
import time

from counting import check, end
from imgref import Image, bounding_box, components, equalize, flood_fill, histogram, integral

SIDE, SECONDS = 64, 0.7
memory = mmap.mmap(-1, SIDE * SIDE)
words_memory = mmap.mmap(-1, 2 * SIDE * SIDE)


def zeros():
    nothing, more = bytes(len(memory)), bytes(len(words_memory))
    while True:
        memory[:], words_memory[:] = nothing, more


def changes():
    lines = bytes(k % 2 for k in range(len(memory))), bytes(k // 3 % 2 for k in range(len(memory)))
    while True:
        for it in lines:
            memory[:], words_memory[:] = it, it + it


def child(work):
    """Starts a process that does some work, and returns its number."""
    made = os.fork()
    if made:
        return made
    try:
        work()
    finally:
        os._exit(0)


def calls(call):
    last = time.monotonic() + SECONDS
    while time.monotonic() < last:
        for _ in range(50):
            call()


def main():
    image = Image(memory, SIDE, SIDE)
    words = Image(memoryview(words_memory).cast("H"), SIDE, SIDE)
    apart = Image(bytearray(SIDE * SIDE), SIDE, SIDE)
    tried = {
        "flood_fill": lambda: flood_fill(image, (32, 32), 7),
        "flood_fill of words": lambda: flood_fill(words, (32, 32), 7),
        "components": lambda: components(image),
        "components of words": lambda: components(words),
        "bounding_box": lambda: bounding_box(image, 1),
        "histogram": lambda: histogram(image),
        "histogram of words": lambda: histogram(words),
        "equalize": lambda: equalize(image),
        "integral": lambda: integral(image),
        "count": lambda: image.count(image.whole, 1),
        "mosaic_means": lambda: image.mosaic_means(image.whole, 5, 7),
        "blur": lambda: image.blur(image.whole, (2, 5)),
        "copy_window": lambda: apart.copy_from(image),
        "turned": lambda: image.turned("right"),
        "==": lambda: apart == image,
    }
    for name, call in tried.items():
        for other in (zeros, changes):
            writer = child(other)
            caller = child(lambda: calls(call))
            _, status = os.waitpid(caller, 0)
            os.kill(writer, signal.SIGKILL)
            os.waitpid(writer, 0)
            check(f"{name} while another process writes {other.__name__}", status == 0)


main()
end()
