"""The fixed cost of a call: the least time on images of one pixel. And large images beside NumPy, in
one run. Prints 'N passed, N failed, N skipped' last.

    speed.py [MICROSECONDS]    the most that a call may take (2)
"""
import sys
import timeit

from counting import check, end, numpy_or_none
from imgref import Image, Window

# The least time of many rounds counts, since the machine may be busy. Where it is too long, more
# rounds are tried.
ROUNDS, CALLS, TRIES = 50, 400, 40


def least(call, most):
    """The least time of a call, in microseconds."""
    taken = float("inf")
    for _ in range(TRIES):
        taken = min(taken, 1e6 * min(timeit.repeat(call, number=CALLS, repeat=ROUNDS)) / CALLS)
        if taken <= most:
            break
    return taken


# The calls of both are timed alternately, until the package's least time is at most NumPy's. A busy
# machine may slow one of them down: only more than twice NumPy's least time is a failure.
TURNS, FACTOR = 60, 2


def beside_numpy(numpy):
    """Calls on an image of 12 million pixels beside what one writes with NumPy."""
    for label, shape in (("grey", (3000, 4000)), ("RGB", (3000, 4000, 3))):
        array = numpy.random.default_rng(7).integers(0, 256, shape, dtype=numpy.uint8)
        image, other, inner = Image(array.copy()), array.copy(), Image(array)
        colour = (1, 2, 3) if len(shape) == 3 else 7

        def mosaic():
            other[:] = other[::8, ::8].repeat(8, 0).repeat(8, 1)

        pairs = {
            "mosaic of 8 by 8": (lambda: image.mosaic(image.whole, 8, 8), mosaic),
            "fill": (lambda: image.fill(image.whole, colour), lambda: other.__setitem__(..., colour)),
            "tobytes": (inner.tobytes, array.tobytes),
            "copy": (inner.copy, array.copy),
            "copy_from": (lambda: image.copy_from(inner), lambda: numpy.copyto(other, array)),
            "==": (lambda: image == inner, lambda: numpy.array_equal(other, array)),
        }
        for name, calls in pairs.items():
            own, numpys = by_turns(*calls)
            check(f"{name}, {label}: {own:.2f} ms, NumPy {numpys:.2f}", own <= FACTOR * numpys)
        check(f"both give the same, {label}", (numpy.asarray(image) == other).all())


def small_beside_numpy(numpy):
    """Calls on a pixel and on 8 by 8 pixels beside NumPy's."""
    array = numpy.zeros((64, 64), numpy.uint8)
    image, part = Image(array), (slice(8, 16), slice(8, 16))
    pairs = {
        "get": (lambda: image.get(3, 4), lambda: array[4, 3]),
        "put": (lambda: image.put(3, 4, 7), lambda: array.__setitem__((4, 3), 7)),
        "fill of 8 by 8": (lambda: image.fill((8, 8, 8, 8), 7), lambda: array.__setitem__(part, 7)),
        "count of 8 by 8": (lambda: image.count((8, 8, 8, 8), 7), lambda: numpy.count_nonzero(array[part] == 7)),
    }
    for name, calls in pairs.items():
        own, numpys = (1e3 * it for it in by_turns(*calls, number=CALLS))
        check(f"{name}: {own:.2f} microseconds, NumPy {numpys:.2f}", own <= FACTOR * numpys)


def by_turns(*calls, number=1):
    """The least times of two calls, in milliseconds."""
    least_of = [float("inf"), float("inf")]
    for _ in range(TURNS):
        for at, call in enumerate(calls):
            least_of[at] = min(least_of[at], 1e3 * timeit.timeit(call, number=number) / number)
        if least_of[0] <= least_of[1]:
            break
    return least_of


def main(most):
    one, other, window = Image(bytearray(1), 1, 1), Image(bytearray(1), 1, 1), Window(0, 0, 1, 1)
    real = Image(memoryview(bytearray(8)).cast("d"), 1, 1)
    calls = {
        "get": lambda: one.get(0, 0),
        "put": lambda: one.put(0, 0, 7),
        "get of a float": lambda: real.get(0, 0),
        "put of a float": lambda: real.put(0, 0, 0.5),
        "fill": lambda: one.fill(window, 7),
        "copy_window": lambda: one.copy_window(window, other),
        "move_window": lambda: one.move_window(window, window),
        "mosaic": lambda: one.mosaic(window, 1, 1),
        "pack": lambda: one.pack(),
        "==": lambda: one == other,
        "window": lambda: one.window(window),
    }
    for name, call in calls.items():
        taken = least(call, most)
        check(f"{name}: {taken:.2f} microseconds, at most {most:g}", taken <= most)
    if (numpy := numpy_or_none()) is not None:
        beside_numpy(numpy)
        small_beside_numpy(numpy)
    end()


main(float(sys.argv[1]) if len(sys.argv) > 1 else 2)
