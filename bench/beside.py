"""Times calls of the package for Python beside OpenCV and NumPy, on one thread each and in one run.

    beside.py [SIDE ..]    sides of the square images (64, 512, 2048 and 4088)

Prints a line for each call, size of a pixel and side: the nanoseconds a pixel here, and this time divided by that of the faster
one of the other two. The three are timed alternately, and the least time of each counts. What they leave is compared first.
"""
import sys
import timeit

import cv2
import numpy

from imgref import Image, components, equalize, histogram, integral

# By the bytes of a pixel: how many numbers it has, and the type of each.
PIXELS = {1: (1, numpy.uint8), 2: (1, numpy.uint16), 3: (3, numpy.uint8), 4: (4, numpy.uint8), 6: (3, numpy.uint16)}
# The sides of the tiles that show their means, and how the names of these calls begin. OpenCV rounds some halves down.
TILES, MEANS = (2, 8, 31), "means of "
# How many pixels a blur takes on each side. It cuts boxes at the edge, and OpenCV doesn't.
RADII, BLURS = (2, 8), "blur of radius "
# How often the three are timed alternately (large pictures not so often), and how many pixels they go over each time at least.
TURNS, FEW_TURNS, AT_ONCE = 15, 5, 2_000_000


def picture(side, channels, kind, seed):
    """Random pixels, eight columns of which are no part of the picture."""
    shape = (side, side + 8) if channels == 1 else (side, side + 8, channels)
    return numpy.random.default_rng(seed).integers(0, numpy.iinfo(kind).max, shape, dtype=kind, endpoint=True)[:, :side]


def photo(side):
    """A picture as a camera makes it: large and small shapes of grey, and a little noise."""
    some = numpy.random.default_rng(9)
    made = some.normal(0, 2, (side, side))
    for parts, depth in ((4, 70), (16, 30), (64, 15)):
        made += cv2.resize(some.uniform(-depth, depth, (parts, parts)), (side, side), interpolation=cv2.INTER_CUBIC)
    return (128 + made).clip(0, 255).astype(numpy.uint8)


def jobs_of_values(side):
    """The same for calls whose results are returned. What is compared is made of them by the function after the name."""
    grey = photo(side)
    ones, image = (grey > 128).astype(numpy.uint8), Image(grey)
    binary = Image(ones)
    yield "histogram", lambda it: numpy.asarray(it).ravel().tolist(), lambda: histogram(image), lambda: cv2.calcHist([grey], [0], None, [256], [0, 256]), lambda: numpy.bincount(grey.ravel(), minlength=256)
    # (OpenCV spreads from the least value on, so only the order of the values is the same)
    yield "equalize", lambda it: (numpy.diff(numpy.asarray(it).ravel()[numpy.argsort(grey.ravel(), kind="stable")].astype(int)) >= 0).all(), lambda: equalize(image), lambda: cv2.equalizeHist(grey), None
    yield "integral image", lambda it: numpy.asarray(it)[-side:, -side:].astype(float), lambda: integral(image), lambda: cv2.integral(grey, sdepth=cv2.CV_64F), lambda: grey.cumsum(0, dtype=numpy.uint64).cumsum(1)
    # (OpenCV gives the background one label, so only the number of regions of ones can be compared)
    yield "components", lambda it: len({*numpy.unique(numpy.asarray(it[1])[ones > 0]).tolist()}), lambda: components(binary), lambda: cv2.connectedComponents(ones, connectivity=4), None


def jobs(side, channels, kind):
    """For each call its name, how many pixels it goes over, and what does it here, in OpenCV and in NumPy (or nothing there).
    Each works on a picture of its own: these are returned last."""
    source, ours, a, b = picture(side, channels, kind, 7), *(picture(side, channels, kind, 8) for _ in range(3))
    same = source.copy()
    image, given, equal = Image(ours), Image(source), Image(same)
    half, corner = side // 2, side // 8
    window, target = (corner, corner, half, half), (corner + 3, corner + 5, half, half)
    part = numpy.s_[corner : corner + half, corner : corner + half]
    moved = numpy.s_[corner + 5 : corner + 5 + half, corner + 3 : corner + 3 + half]
    value = 7 if channels == 1 else (7, 8, 9, 10)[:channels]
    colour, small, shown = (7, 8, 9, 10)[:channels], (side // 8, side // 8), given.window(window)

    def shrunk():
        cv2.resize(cv2.resize(a, small, interpolation=cv2.INTER_NEAREST), (side, side), a, interpolation=cv2.INTER_NEAREST)

    def averaged(tile):
        edge, line = side // tile * tile, side // tile
        pixels = a[:edge, :edge]
        return lambda: cv2.resize(cv2.resize(pixels, (line, line), interpolation=cv2.INTER_AREA), (edge, edge), pixels, interpolation=cv2.INTER_NEAREST)

    def means(tile):
        edge = side // tile * tile
        return lambda: image.mosaic_means((0, 0, edge, edge), tile, tile)

    whole, inside = side * side, half * half
    yield "a quarter turn", whole, lambda: given.turn_into(image, "right"), lambda: cv2.rotate(source, cv2.ROTATE_90_CLOCKWISE, a), lambda: numpy.copyto(b, numpy.rot90(source, -1))
    yield "a half turn", whole, lambda: given.turn_into(image, "half"), lambda: cv2.rotate(source, cv2.ROTATE_180, a), lambda: numpy.copyto(b, source[::-1, ::-1])
    yield "transpose", whole, lambda: given.transpose_into(image), lambda: cv2.transpose(source, a), lambda: numpy.copyto(b, source.swapaxes(0, 1))
    yield "mirror, in place", whole, image.flip_columns, lambda: cv2.flip(a, 1, a), lambda: numpy.copyto(b, b[:, ::-1])
    yield "upside down, in place", whole, image.flip_rows, lambda: cv2.flip(a, 0, a), lambda: numpy.copyto(b, b[::-1])
    yield "mosaic of 8 by 8", whole, lambda: image.mosaic(image.whole, 8, 8), shrunk, lambda: numpy.copyto(b, b[::8, ::8].repeat(8, 0).repeat(8, 1))
    for tile in TILES:
        yield f"{MEANS}{tile} by {tile}", (side // tile * tile) ** 2, means(tile), averaged(tile), None
    for radius in RADII if kind == numpy.uint8 else ():
        across = 2 * radius + 1
        yield f"{BLURS}{radius}", whole, lambda radius=radius: image.blur(image.whole, radius), lambda across=across: cv2.blur(a, (across, across), a), None
    yield "fill a window", inside, lambda: image.fill(window, value), lambda: cv2.rectangle(a, window, colour, -1), lambda: b.__setitem__(part, value)
    yield "copy a window", inside, lambda: image.copy_window(window, shown), lambda: cv2.copyTo(source[part], None, a[part]), lambda: b.__setitem__(part, source[part])
    yield "move a window", inside, lambda: image.move_window(window, target), None, lambda: b.__setitem__(moved, b[part])
    yield "equality", whole, lambda: given == equal, lambda: cv2.norm(source, same, cv2.NORM_INF) == 0, lambda: numpy.array_equal(source, same)
    yield "count", whole, lambda: given.count(given.whole, value), lambda: cv2.countNonZero(cv2.inRange(source, colour, colour)), lambda: numpy.count_nonzero((source == value).reshape(side, side, channels).all(2))
    yield None, 0, ours, a, b


def least(calls, pixels):
    """The least time of each call, in nanoseconds a pixel."""
    number = max(1, AT_ONCE // pixels)
    taken = [float("inf")] * len(calls)
    for _ in range(TURNS if pixels <= 2048 * 2048 else FEW_TURNS):
        for at, call in enumerate(calls):
            if call:
                taken[at] = min(taken[at], 1e9 * timeit.timeit(call, number=number) / number / pixels)
    return taken


def are_same(one, other, most):
    """Whether two pictures have the same numbers, or numbers that differ by so much at most."""
    return int(cv2.norm(numpy.ascontiguousarray(one), numpy.ascontiguousarray(other), cv2.NORM_INF)) <= most


def times_of_values(side):
    """The same as `times`, for these calls."""
    found = {}
    for name, comparable, *calls in jobs_of_values(side):
        first, *others = (comparable(call()) for call in calls if call)
        if not all(numpy.array_equal(first, it) for it in others):
            sys.exit(f"{name}, {side} by {side}: the results differ")
        mine, *others = least(calls, side * side)
        found[name] = mine, mine / min(others)
    return found


def times(side, channels, kind):
    """For each call its time here, and that time divided by the least one of the others."""
    found = times_of_values(side) if (channels, kind) == (1, numpy.uint8) else {}
    for name, pixels, own, cvs, numpys in (made := [*jobs(side, channels, kind)])[:-1]:
        _, _, *pictures = made[-1]
        said = [call() for call in (own, cvs, numpys) if call]
        if name in ("equality", "count"):
            same = all(it == said[0] for it in said)
        else:
            edge = int(name.removeprefix(BLURS)) if name.startswith(BLURS) else 0
            inner = numpy.s_[edge : side - edge, edge : side - edge]
            same = all(are_same(pictures[0][inner], it[inner], name.startswith((MEANS, BLURS))) for it, call in zip(pictures[1:], (cvs, numpys)) if call)
        if not same:
            sys.exit(f"{name}, {side} by {side}, {channels} numbers of {kind.__name__}: the results differ")
        mine, *others = least((own, cvs, numpys), pixels)
        found[name] = mine, mine / min(others)
        for it in pictures[1:]:
            it[...] = pictures[0]
    return found


def main(words):
    cv2.setNumThreads(1)
    print("OpenCV", cv2.__version__, "and NumPy", numpy.__version__, sep="\t")
    for side in map(int, words or (64, 512, 2048, 4088)):
        for size, (channels, kind) in PIXELS.items():
            for name, (time, quotient) in times(side, channels, kind).items():
                print(name, size, side, f"{time:.2f}", f"{quotient:.2f}", sep="\t", flush=True)


if __name__ == "__main__":
    main(sys.argv[1:])
