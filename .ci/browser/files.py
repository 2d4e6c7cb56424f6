"""The page in a browser: all kinds of files, what is dropped, and large pictures."""
import base64
import struct

from browser import models, png
from browser.driver import until

# What a file may hold besides pixels: it must not be in the saved one.
SECRET = b"51.5007N 0.1246W taken by Ada"
# The chunks of a saved PNG: its size and its pixels. The segments of a saved JPEG before its pixels, and how it begins.
CHUNKS = {b"IHDR", b"IDAT", b"IEND"}
SEGMENTS = {0xE0, 0xDB, 0xC0, 0xC2, 0xC4, 0xDD}
JFIF = b"\xff\xd8\xff\xe0\0\x10JFIF\0"
LARGE = 4000, 3000
# How many milliseconds an edit of a large picture may take, and how long the page may be busy at a
# time while it opens or saves one. The machine may be busy too: the fastest of some tries counts.
MOST_MILLISECONDS, MOST_BUSY, TRIES = 100, 300, 20
# What is done, and the lists of edits before and after it.
LARGE_EDITS = (
    ("a fill of a ninth", "", "fill 100,200,1333,1000 0"),
    ("a mosaic of a ninth", "", "means 100,200,1333,1000 16,16"),
    ("a fill of all", "", "fill 0,0,4000,3000 9"),
    ("a rectangle moved", "fill 100,200,1333,1000 0", "fill 300,200,1333,1000 0"),
)
# Small pictures, each with an edit.
SMALL = (
    (1, 1, "fill 0,0,1,1 1,2,3"),
    (1, 1, "mosaic 0,0,1,1 2,2"),
    (1, 1, "move 0,0,1,1 0,0"),
    (1, 1, "crop 0,0,1,1"),
    (1, 1, "pad 1,1,1,1 9"),
    (1, 9, "mosaic 0,1,1,8 3,3"),
    (9, 1, "fill 3,0,2,1 7"),
)
# How a camera may have been held, the size that is shown, and its first and last colour.
HELD = (
    (1, (32, 16), ("blue", "white")),
    (3, (32, 16), ("white", "blue")),
    (6, (16, 32), ("blue", "white")),
    (8, (16, 32), ("white", "blue")),
)
# What the page says of a copy, with and without the right to the clipboard.
COPIED = ("Copied.", "The text is selected: copy it with Ctrl+C.")
# The colour on the screen at a place.
PIXEL = """const context = document.getElementById('canvas').getContext('2d');
return [...context.getImageData(...arguments, 1, 1).data].slice(0, 3)"""


# What the page says of pictures that it doesn't take.
LIMIT = "This page takes up to 32,767 pixels on a side, and 100 million in all."
TOO_LARGE = {
    "wide.png": f"has 32768 by 1 pixels. {LIMIT}", "high.png": f"has 1 by 40000 pixels. {LIMIT}",
}


def exif(orientation):
    """A segment of EXIF with how the camera was held, and a description."""
    entries = [
        (0x010E, 2, len(SECRET) + 1, struct.pack(">I", 38)),
        (0x0112, 3, 1, struct.pack(">HH", orientation, 0))
    ]
    table = struct.pack(">H", len(entries)) + b"".join(
        struct.pack(">HHI", *it[:3]) + it[3] for it in entries
    ) + struct.pack(">I", 0)
    data = b"Exif\0\0" + b"MM\0*" + struct.pack(">I", 8) + table + SECRET + b"\0"
    return b"\xff\xe1" + struct.pack(">H", len(data) + 2) + data


def in_browser(page, kind):
    """A small file that the browser itself encodes: blue at the left, white at the right."""
    return base64.b64decode(page.browser.wait_for("encoded", f"image/{kind}"))


def check_wrong_files(page):
    """A file that is no picture changes nothing, and the page says so."""
    page.open()
    page.apply("fill 1,1,9,9 3")
    before = page.list(), page.shown()
    whole = png.png(models.WIDTH, models.HEIGHT, models.PIXELS)
    wrong = {
        "text.png": b"this is no picture",
        "empty.png": b"",
        "head.png": whole[:30],
        "bytes.jpg": bytes(range(256)) * 20,
        "page.html": b"<!doctype html><p>hello",
        "zip.png": b"PK\x03\x04" + bytes(100),
        "huge.png": png.png(0x7FFFFFFF, 0, b""),
        "wide.png": png.png(32768, 1, bytes(3 * 32768)),
        "high.png": png.png(1, 40000, bytes(3 * 40000)),
    }
    for name, data in wrong.items():
        page.browser.run("document.getElementById('status').textContent = 'Opening'")
        said = page.give(name, data)
        why = TOO_LARGE.get(name, "can't read")
        page.count(f"{name} is refused in words", name in said and why in said, said)
        page.count(f"{name} changes nothing", (page.list(), page.shown()) == before)
    page.count("the page goes on", page.apply("fill 2,2,9,9 3") == "Done.")
    page.count(
        "it still saves", png.ppm_of(page.save()) == models.by_model("fill 2,2,9,9 3".split())
    )


def check_given(page):
    """A file that is dropped or pasted is opened, and edited at its actual size."""
    data = png.png(models.WIDTH, models.HEIGHT, models.PIXELS)
    for kind in ("drop", "paste"):
        page.open(b"\1\2\3", 1, 1)
        page.browser.run("document.getElementById('status').textContent = 'Opening'")
        page.browser.script("given", kind, f"{kind}.png", base64.b64encode(data).decode())
        said = until(lambda: page.status() if not page.status().startswith("Opening") else "")
        well = said.startswith(f"{kind}.png: 60 by 40 pixels.")
        page.count(f"a {kind} opens a picture", well, said)
        same = png.ppm_of(page.save()) == png.ppm(models.WIDTH, models.HEIGHT, models.PIXELS)
        page.count(f"a {kind} gives its pixels", same)
    page.browser.click("#actual")
    page.choose("fill")
    page.drag((3.1, 4.1), (9, 9), (22.9, 13.9))
    size = page.browser.run("return document.getElementById('frame').style.width")
    # (the browser rounds the places of a pointer)
    drawn = zip(map(int, page.list().split()[1].split(",")), (3, 4, 20, 10))
    well = size == "60px" and all(abs(it - wanted) <= 2 for it, wanted in drawn)
    page.count("at its actual size it is drawn on", well, size)
    page.browser.click("#actual")
    page.browser.run("document.getElementById('copy').click()")
    said = until(lambda: page.status() if page.status() != "Done." else "")
    page.count("the text is copied, or selected", said in COPIED, said)


def check_dropped(page):
    """Of a file only pixels are saved: no EXIF, no text, no profile, no comment."""
    extra = [
        (b"tEXt", b"Comment\0" + SECRET), (b"eXIf", b"MM\0*\0\0\0\x08\0\0" + SECRET),
        (b"zTXt", b"Author\0\0" + b"x\x9c\x03\0\0\0\0\x01"), (b"pHYs", bytes(9))
    ]
    page.browser.run("document.getElementById('status').textContent = 'Opening'")
    page.give("page.png", png.png(models.WIDTH, models.HEIGHT, models.PIXELS, extra))
    saved = page.save()
    page.count(
        "PNG: only pixels are saved",
        {it for it, _ in png.chunks_of(saved)} <= CHUNKS and SECRET not in saved,
        [it for it, _ in png.chunks_of(saved)]
    )
    page.count(
        "PNG: the pixels are",
        png.ppm_of(saved) == png.ppm(models.WIDTH, models.HEIGHT, models.PIXELS)
    )
    plain = in_browser(page, "jpeg")
    for orientation, size, corners in HELD:
        data = plain[:2] + exif(orientation) + plain[2:]
        page.browser.run("document.getElementById('status').textContent = 'Opening'")
        page.give(f"held{orientation}.jpg", data)
        saved = page.save()
        width, height, pixels = png.read(saved)
        seen = tuple("blue" if it[2] > 128 > it[0] else "white" for it in (pixels[:4], pixels[-4:]))
        page.count(
            f"JPEG held as {orientation}: turned as it is shown",
            (width, height) == size and seen == corners, (width, height, seen)
        )
        page.count(
            f"JPEG held as {orientation}: EXIF is dropped",
            {it for it, _ in png.chunks_of(saved)} <= CHUNKS and SECRET not in saved
        )
    page.browser.run("document.getElementById('status').textContent = 'Opening'")
    page.give("small.webp", in_browser(page, "webp"))
    page.count("WebP is opened", png.size_of(page.save()) == (32, 16))


def check_plain(page):
    """A saved file has pixels, and nothing that the browser adds to them."""
    page.open()
    page.apply("fill 1,1,9,9 3")
    saved = page.save()
    kinds = [it for it, _ in png.chunks_of(saved)]
    page.count("a saved PNG has its pixels alone", set(kinds) == CHUNKS, kinds)
    page.browser.change("format", "jpeg")
    saved, at, markers = page.save("covered.jpg"), 2, []
    page.browser.change("format", "png")
    while saved[at + 1] != 0xDA:
        markers.append(saved[at + 1])
        at += 2 + int.from_bytes(saved[at + 2:at + 4], "big")
    page.count("a saved JPEG too: it has no profile", saved.startswith(JFIF) and set(markers) <= SEGMENTS, [hex(it) for it in markers])


def check_small(page):
    """A picture of one pixel, of one column, and of one row."""
    for width, height, text in SMALL:
        pixels = png.by_chance(width, height, "small")
        page.open(pixels, width, height)
        said = page.apply(text)
        wanted = models.by_model(text.split(), pixels, width, height)
        well = said == "Done." and png.ppm_of(page.save()) == wanted
        page.count(f"{width} by {height}: {text}", well, said)
    page.open(b"\1\2\3", 1, 1)
    page.choose("fill")
    page.browser.run("document.getElementById('add').click()")
    page.count("1 by 1: a rectangle is added", page.list() == "fill 0,0,1,1 0\n")
    page.browser.run("document.getElementById('undo').click()")
    page.drag((0.1, 0.1), (0.5, 0.5), (0.9, 0.9))
    page.count("1 by 1: a rectangle is drawn", page.list() == "fill 0,0,1,1 0\n")


def check_clear(page):
    """Transparent pixels stay so, and a fill is opaque."""
    page.browser.run("document.getElementById('status').textContent = 'Opening'")
    page.give("page.png", png.png(4, 2, bytes([9, 8, 7, 0] * 4 + [9, 8, 7, 255] * 4), kind=6))
    page.apply("fill 0,0,1,2 5")
    _, _, pixels = png.read(page.save())
    wanted = [5, 5, 5, 255, *[0, 0, 0, 0] * 3, 5, 5, 5, 255, *[9, 8, 7, 255] * 3]
    page.count(
        "a fill is opaque, and what is clear stays clear", list(pixels) == wanted, list(pixels)
    )


def is_quick(tries, most):
    """Whether one of some tries took less than so many milliseconds."""
    return min(tries, default=most) < most


def check_large(page):
    """12 megapixels of noise: opened, covered and saved, without a pause that a person notices."""
    width, height = LARGE
    pixels, busy = png.by_chance(width, height, "large"), {"opening": [], "saving": []}
    at = lambda x, y: list(pixels[3 * (y * width + x):3 * (y * width + x) + 3])
    page.browser.script("pauses")
    while len(busy["saving"]) < TRIES and any(not is_quick(it, MOST_BUSY) for it in busy.values()):
        said = page.open(pixels, width, height, "large.png")
        busy["opening"].append(max(page.browser.script("pauses"), default=0))
        page.apply("means 0,0,1000,1000 64,64\nfill 100,200,1000,1000 1,2,3")
        page.browser.script("pauses")
        saved = page.save()
        busy["saving"].append(max(page.browser.script("pauses"), default=0))
    page.count("12 megapixels are opened", f"{width} by {height}" in said, said)
    for label, found in busy.items():
        well = is_quick(found, MOST_BUSY)
        page.count(f"12 megapixels: {label} is busy for under {MOST_BUSY} ms", well, found)
        print(f"  {label}: {found} ms")
    places = ((63, 63), (64, 70), (100, 200), (1100, 200))
    seen = [page.browser.run(PIXEL, *it) for it in places]
    mean = lambda left, top: [(2 * sum(its) + 4096) // 8192 for its in zip(*(at(left + x, top + y) for y in range(64) for x in range(64)))]
    wanted = [mean(0, 0), mean(64, 64), [1, 2, 3], at(1100, 200)]
    page.count("12 megapixels: a mosaic and a fill are shown", seen == wanted, (seen, wanted))
    is_whole = png.size_of(saved) == LARGE and saved.endswith(png.chunk(b"IEND", b""))
    page.count("12 megapixels are saved", is_whole)
    check_large_edits(page)
    check_jpeg(page, len(saved) // 3)
    page.apply("crop 1,2,30,20")
    cropped = models.by_model("crop 1,2,30,20".split(), pixels[:3 * width * 40], width, 40)
    page.count("a crop of 12 megapixels", png.ppm_of(page.save()) == cropped)
    page.open()
    same = png.ppm_of(page.save()) == png.ppm(models.WIDTH, models.HEIGHT, models.PIXELS)
    page.count("a small picture after a large one", same)


def check_jpeg(page, most):
    """A JPEG is smaller, and by its quality."""
    page.browser.change("format", "jpeg")
    sizes = []
    for quality in (90, 30):
        page.browser.change("quality", str(quality))
        busy = []
        while len(busy) < TRIES and not is_quick(busy, MOST_BUSY):
            page.browser.script("pauses")
            data = page.save("covered.jpg")
            busy.append(max(page.browser.script("pauses"), default=0))
        page.count(f"JPEG of quality {quality}: the page is busy for under {MOST_BUSY} ms", is_quick(busy, MOST_BUSY), busy)
        page.count(f"JPEG of quality {quality}: it is one", data[:2] == b"\xff\xd8" and data[-2:] == b"\xff\xd9")
        sizes.append(len(data))
    page.count("they are less than a third of the PNG, and the lower quality is smaller", sizes[1] < sizes[0] < most, sizes)
    page.browser.change("format", "png")


def check_large_edits(page):
    """Edits of 12 megapixels, each after another list of edits."""
    for label, before, text in LARGE_EDITS:
        took = []
        while len(took) < TRIES and not is_quick(took, MOST_MILLISECONDS):
            page.browser.script("timed", before)
            took.append(round(page.browser.script("timed", text)))
        well = page.status() == "Done." and is_quick(took, MOST_MILLISECONDS)
        page.count(f"12 megapixels: {label} takes under {MOST_MILLISECONDS} ms", well, took)
        print(f"  {label}: {took} ms")
