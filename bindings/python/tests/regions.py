"""Values, sums and regions beside plain loops, and beside NumPy and OpenCV where they are. Prints 'N passed, N failed, N skipped' last."""
import random

from counting import check, end, numpy_or_none, raises, skip
from imgref import Image, Refused, Window, bounding_box, components, equalize, flood_fill, histogram, integral

try:
    import cv2
except ImportError:
    cv2 = None
    skip("what is beside OpenCV", "python3-opencv")
numpy = numpy_or_none()
some = random.Random(7)


def any_image(most=256):
    """Bytes in padded rows, and the rows themselves."""
    width, height = some.randrange(1, 20), some.randrange(1, 20)
    stride = width + some.randrange(4)
    cells = bytearray(some.randrange(most) for _ in range(stride * height))
    return Image(cells, width, height, stride), [list(cells[stride * y : stride * y + width]) for y in range(height)]


def same(image, rows):
    return [[image[y, x] for x in range(image.width)] for y in range(image.height)] == rows


def connected(rows, x, y):
    """The columns and rows of what is connected with a place, which is found by going over all places again and again."""
    found, more = set(), {(x, y)}
    while more:
        found |= more
        more = {(u, v) for v, row in enumerate(rows) for u, it in enumerate(row) if it == rows[y][x] and (u, v) not in found and found & {(u - 1, v), (u + 1, v), (u, v - 1), (u, v + 1)}}
    return found


for _ in range(30):
    image, rows = any_image(some.choice((3, 256)))
    pixels = [it for row in rows for it in row]
    check("histogram", list(histogram(image)) == [pixels.count(v) for v in range(256)])
    check("equalize", same(equalize(image), [[255 * sum(q <= p for q in pixels) // len(pixels) for p in row] for row in rows]) and same(image, rows))
    check("integral", same(integral(image), [[sum(sum(r[: x + 1]) for r in rows[: y + 1]) for x in range(image.width)] for y in range(image.height)]))
    if numpy:
        array = numpy.array(rows, "uint8")
        check("histogram of an array", (numpy.asarray(histogram(array)) == numpy.bincount(array.ravel(), minlength=256)).all())
        check("integral of an array", (numpy.asarray(integral(array)) == array.astype("uint64").cumsum(0).cumsum(1)).all())
        words = array.astype("uint16") * 257
        check("histogram of words", (numpy.asarray(histogram(words)) == numpy.bincount(words.ravel(), minlength=65536)).all())
        if cv2:
            check("integral beside OpenCV", (numpy.asarray(integral(array)) == cv2.integral(array)[1:, 1:]).all())
            check("histogram beside OpenCV", (numpy.asarray(histogram(array)) == cv2.calcHist([array], [0], None, [256], [0, 256]).ravel()).all())
            # (OpenCV makes the least value 0, so the two differ by a shift and a stretch: what is below stays below)
            ours, theirs = numpy.asarray(equalize(array)).astype(int).ravel(), cv2.equalizeHist(array).astype(int).ravel()
            order = ours.argsort(kind="stable")
            check("equalize beside OpenCV", (numpy.diff(theirs[order]) >= 0).all())
for _ in range(30):
    image, rows = any_image(some.choice((2, 3)))
    places = [(x, y) for y in range(image.height) for x in range(image.width)]
    start = some.choice(places)
    regions = connected(rows, *start)
    count, labels = components(image)
    label = labels.get(*start)
    check("components", {at for at in places if labels.get(*at) == label} == regions and {labels.get(*at) for at in places} == set(range(1, count + 1)))
    columns, lines = ({at[k] for at in regions} for k in (0, 1))
    check("bounding_box", bounding_box(labels, label) == Window(min(columns), min(lines), max(columns) - min(columns) + 1, max(lines) - min(lines) + 1))
    check("the area of a region", labels.count(labels.whole, label) == len(regions))
    copied = image.copy()
    flood_fill(copied, start, 9)
    check("flood_fill", all(copied.get(*at) == (9 if at in regions else image.get(*at)) for at in places))
    if numpy:
        array = numpy.array(rows, "uint8")
        wide = array.astype(">i4")
        check("components of an array", components(wide)[1] == labels)
        flood_fill(wide, start, -9)
        check("flood_fill of an array", (wide == numpy.where(numpy.asarray(copied) == 9, -9, array)).all())
        if cv2:
            ones = (array > 0).astype("uint8")
            found, theirs = cv2.connectedComponents(ones, connectivity=4)
            ours = numpy.asarray(components(ones)[1])
            pairs = {*zip(ours[ones > 0].tolist(), theirs[ones > 0].tolist())}
            check("components beside OpenCV", len(pairs) == len({a for a, b in pairs}) == len({b for a, b in pairs}) == found - 1)
            cv2.floodFill(array, None, start, 9, flags=4)
            check("flood_fill beside OpenCV", copied == array)
check("no such place", raises(Refused, flood_fill, Image(bytearray(4), 2, 2), (2, 0), 1) and bounding_box(Image(bytearray(4), 2, 2), 1) is None)
three = Image(bytearray(12), 2, 2, channels=3)
check("no cells", raises(TypeError, flood_fill, three, (0, 0), 1) and raises(TypeError, components, three) and raises(TypeError, bounding_box, three, 1))
# (three numbers in a row of single numbers mix, and four bytes are one cell, whose bytes stay together)
mixed = Image(bytearray([200, 0, 7, 7, 0, 200]), 6, 1)
flood_fill(mixed, (2, 0), 9)
check("three bytes as single pixels: channels mix", mixed.tobytes() == bytes([200, 0, 9, 9, 0, 200]) and components(mixed)[0] == 5 and bounding_box(mixed, 200) == mixed.whole and histogram(mixed)[9] == 2)
fours = Image(bytearray([1, 2, 3, 4, 1, 2, 3, 4, 4, 3, 2, 1]), 3, 1, channels=4)
flood_fill(fours, (0, 0), (9, 8, 7, 6))
check("colours of four bytes", fours[0, 1] == (9, 8, 7, 6) and fours[0, 2] == (4, 3, 2, 1) and components(fours)[0] == 2 and bounding_box(fours, (4, 3, 2, 1)) == Window(2, 0, 1, 1))
check("memory for reading", raises((TypeError, ValueError), flood_fill, bytes(4), (0, 0), 1) and raises((TypeError, ValueError), flood_fill, Image(bytes(4), 2, 2), (0, 0), 1))
check("regions of no pixel", components(Image(b"", 0, 3))[0] == 0 and bounding_box(Image(b"", 0, 3), 1) is None)
colours = Image(bytearray(12), 2, 2, channels=3)
check("no colours", all(raises(TypeError, it, colours) for it in (histogram, equalize, integral)))
check("no words", all(raises(TypeError, it, Image(bytearray(8), 2, 2).window((0, 0, 2, 2)) and memoryview(bytearray(8)).cast("H", (2, 2))) for it in (equalize, integral)))
check("no pixel", list(histogram(Image(b"", 0, 3))) == [0] * 256 and integral(Image(b"", 0, 3)).shape == (3, 0) and equalize(Image(b"", 0, 3)).shape == (3, 0))
end()
