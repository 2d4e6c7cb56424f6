"""A cover stays a cover: what is drawn next, tiles, edges, drags, and what the page says of it."""
import struct

from browser import files, png
from browser.driver import UP
from browser.models import by_model

# A picture in which a cover of the default tile is larger than 16 pixels.
PHOTO = 1200, 900
SECRET = "fill 20,10,20,12 0"
FIELD = "return document.getElementById(arguments[0]).value"
OUTLINED = "return document.querySelector('#overlay .selected .uncovers').getAttribute('d')"
CHANGES = "return [...document.querySelectorAll('#changes button')].map((it) => it.textContent)"
WEAK = "return [...document.querySelectorAll('#edits strong')].map((it) => it.textContent)"
WARNING = "const it = document.getElementById('weak'); return it.hidden ? '' : it.textContent"
# Two frames of one pixel.
FRAME = bytes.fromhex("2c000000000100010000 02024401 00".replace(" ", ""))
GIF = b"GIF89a" + bytes.fromhex("01000100800000 000000ffffff".replace(" ", "")) + 2 * FRAME + b";"
# What is typed into a field of a selected cover, and what the page says.
TYPED = (
    ("width", "0", "The width is 0"), ("height", "0", "The height is 0"),
    ("left", "-1", "The left is no whole number"), ("top", "", "The top is no whole number"),
    ("width", "1.5", "The width is no whole number"),
)


def check_next_tool(page):
    """The choice of a tool is for what is drawn next. An earlier cover stays."""
    page.open()
    page.count("a fill is the first choice", page.browser.run("return document.querySelector('[name=tool]:checked').value") == "fill")
    page.drag((20.5, 10.5), (30, 15), (39.5, 21.5))
    page.choose("mosaic")
    page.count("the choice of a mosaic changes no cover", page.list() == f"{SECRET}\n")
    page.drag((5.5, 25.5), (10, 30), (16.5, 37.5))
    page.count("the next one is the mosaic", page.list() == f"{SECRET}\nmeans 5,25,12,13 7,7\n")
    page.open()
    page.choose("fill")
    page.drag((20.5, 10.5), (30, 15), (39.5, 21.5))
    page.choose("crop")
    page.drag((5.5, 5.5), (10, 10), (49.5, 29.5))
    wanted = f"{SECRET}\ncrop 5,5,45,25\n"
    page.count("a crop after a fill leaves the fill", page.list() == wanted)
    page.count("the saved file doesn't show what is covered", png.ppm_of(page.save()) == by_model(wanted.split()))
    page.open()
    page.choose("fill")
    page.drag((20.5, 10.5), (30, 15), (39.5, 21.5))
    page.browser.run("document.querySelector('[name=tool]:checked').focus()")
    for _ in range(3):
        page.browser.press("Right")
    page.count("three presses of Right in the choice leave the fill", page.list() == f"{SECRET}\n")
    page.browser.change("colour", "#ffffff")
    page.count("another colour of the tool leaves it too", page.list() == f"{SECRET}\n")
    page.browser.change("colour", "#000000")
    page.browser.click("#edits button")
    wanted = [f"Change 'Black, 20 by 12 at 20, 10' to a {it}" for it in ("pixelated one", "crop")]
    page.count("buttons say what they change", page.browser.run(CHANGES) == wanted, page.browser.run(CHANGES))
    page.browser.run("document.querySelector('#changes [data-word=mosaic]').click()")
    page.count("one of them changes the cover", page.list() == "means 20,10,20,12 4,4\n")
    page.browser.run("document.querySelector('#changes [data-word=fill]').click()")
    page.browser.change("own-colour", "#ff0000")
    page.count("a field of the cover gives it a colour", page.list() == "fill 20,10,20,12 255,0,0\n")
    page.choose("fill")


def numbers_of(line):
    """The rectangle of a mosaic's line, and its tile."""
    return [[int(it) for it in field.split(",")] for field in line.split()[1:3]]


def least_tile(size, side):
    """How many pixels the smallest of the tiles has, which a rectangle of this size cuts."""
    wide, high = (min([side, *[it % side] * (it % side > 0), it]) for it in size)
    return wide * high


def enough(numbers, side):
    """The first side from this one on that leaves no tile of fewer than 16 pixels."""
    return next(it for it in range(side, max(numbers[2:]) + 1) if least_tile(numbers[2:], it) >= 16)


def check_tiles(page):
    """Tiles are large enough by themselves. Smaller ones get a warning, and those of one pixel are refused."""
    width, height = PHOTO
    page.open(png.by_chance(width, height, "photo"), width, height)
    page.choose("mosaic")
    page.drag((300, 300), (500, 500), (700, 600))
    numbers, tile = numbers_of(page.list())
    side = enough(numbers, max(-(-min(numbers[2:]) // 8), -(-height // 40)))
    page.count("a tile is an eighth of the rectangle", tile == [side, side] and side > 23, (numbers, tile))
    page.drag((100, 700), (110, 730), (140, 740))
    numbers, tile = numbers_of(page.list().splitlines()[-1])
    side = enough(numbers, 23)
    page.count("and at least a fortieth of the picture", tile == [side, side], (numbers, tile))
    page.browser.click("#edits li:nth-child(2) button")
    page.count("these get no warning", page.browser.run(WARNING) == "", page.browser.run(WARNING))
    page.browser.change("own-tile-width", "16")
    page.count("smaller ones get a warning", "may be read. Use at least 23 by 23" in page.browser.run(WARNING), page.browser.run(WARNING))
    page.count("also its line in the list", page.browser.run(WEAK) == ["", "Small tiles: may be read"], page.browser.run(WEAK))
    page.browser.change("own-tile-width", "1")
    page.browser.change("own-tile-height", "1")
    page.count("1 by 1 is refused", "tiles of 1 by 1 hides nothing" in page.status() and page.list().split()[-1] == "1,23")
    page.browser.change("tile-width", "1")
    page.browser.change("tile-height", "1")
    before = page.list()
    page.drag((800, 100), (900, 150), (1000, 200))
    page.count("1 by 1 isn't drawn", "tiles of 1 by 1 hides nothing" in page.status() and page.list() == before)
    page.browser.change("tile-width", "8")
    page.browser.change("tile-height", "8")
    said = page.browser.text("#small-tiles")
    page.count("the tool warns of small tiles", said.startswith("Small tiles: what is below may be read."), said)
    page.drag((800, 100), (900, 150), (1000, 200))
    is_told = "may be read" in page.status() or "Shows single pixels" in page.status()
    page.count("small typed tiles are drawn with a warning", "8,8\n" in page.list() and is_told)
    page.browser.change("tile-width", "")
    page.browser.change("tile-height", "")
    page.choose("fill")


def check_edges(page):
    """Each pixel that the pointer touched is covered: also along one line, and in a large picture."""
    wide, high = 3000, 90
    for actual in (False, True):
        page.open(png.by_chance(wide, high, "line"), wide, high)
        page.actual(actual)
        scale = page.scale()
        label = "at its actual size" if actual else "at fit"
        for name, far in (("row", (40, 0)), ("column", (0, 20))):
            page.browser.run("document.getElementById('undo').click()")
            left, top = page.on_screen((100, 10))[0]
            page.browser.drag((left, top), (left + far[0] / 2, top + far[1] / 2), (left + far[0], top + far[1]))
            numbers = [int(it) for it in page.list().split()[1].split(",")] if page.list() else [0] * 4
            least = [max(1, int(it / scale)) for it in far]
            page.count(f"{label}: a drag along a {name} covers it", all(it >= wanted for it, wanted in zip(numbers[2:], least)), numbers)
    page.actual(False)
    page.open()
    page.drag((20.5, 10.5), (30, 15), (39.5, 21.5))
    page.browser.click("#edits button")
    for field, value, said in TYPED:
        page.browser.change(field, value)
        page.count(f"{field} {value or 'empty'} is refused by name", said in page.status() and page.list() == f"{SECRET}\n")


def check_moves(page):
    """Only the tool Select moves a rectangle. While a cover moves, what it uncovers is outlined."""
    page.open()
    page.drag((20.5, 10.5), (30, 15), (39.5, 21.5))
    page.drag((30.5, 15.5), (33, 18), (35.5, 20.5))
    page.count("a drag inside another cover draws", page.list().startswith(f"{SECRET}\nfill 30,15,"))
    page.browser.run("document.getElementById('undo').click()")
    page.drag((30, 15), (30.01, 15.01))
    page.drag((30.5, 15.5), (33, 18), (35.5, 20.5))
    page.count("also inside the one that a click selected", page.list().startswith(f"{SECRET}\nfill 30,15,") and page.is_off("selected"))
    page.browser.run("document.getElementById('undo').click()")
    page.choose("select")
    page.drag((50, 35), (53, 37), (58, 38))
    page.count("where nothing is, Select does nothing", page.list() == f"{SECRET}\n" and page.is_off("selected"))
    places = page.on_screen((30, 15), (35, 15))
    page.browser.drag(*places, ends=False)
    path = page.browser.run(OUTLINED)
    page.count("what a moved cover uncovers is outlined", path.startswith("M20 10H25"), path)
    page.browser.act([UP])
    path = page.browser.run(OUTLINED)
    page.count("until the pointer is up", path == "" and page.list() == "fill 25,10,20,12 0\n", path)
    page.count("and said after it", page.status() == "Cover 1 was moved: 60 pixels are shown again.", page.status())
    page.choose("crop")
    page.drag((30.5, 15.5), (33, 18), (35.5, 20.5))
    page.count("another tool draws also there", page.list() == "fill 25,10,20,12 0\ncrop 30,15,6,6\n")
    page.browser.run("document.getElementById('undo').click()")
    page.choose("fill")
    page.browser.run("document.querySelector('#overlay g').focus()")
    page.browser.press("Right")
    said = "Cover 1 was moved: 72 pixels are shown again."
    page.count("a move by keys says so too", page.list() == "fill 26,10,20,12 0\n" and page.status() == said, page.status())
    page.browser.press("Shift", "Right")
    said = said.replace("moved", "moved and resized")
    page.count("a larger one says what is still shown", page.list() == "fill 26,10,21,12 0\n" and page.status() == said, page.status())


def segments():
    """Segments of a JPEG file, and the name of each."""
    tables = struct.pack(">HHHII", 1, 0x8825, 4, 1, 26) + struct.pack(">I", 30)
    place = b"Exif\0\0MM\0*" + struct.pack(">I", 8) + tables + bytes(20)
    return (
        (0xE1, place, "EXIF with the place"), (0xE1, place, "a thumbnail"),
        (0xFE, files.SECRET, "a comment"), (0xE2, b"ICC_PROFILE\0\1\1", "a colour profile"),
        (0xE1, b"http://ns.adobe.com/xap/1.0/\0", "XMP"), (0xED, b"Photoshop 3.0\0", "IPTC"),
    )


def check_said(page):
    """Before and after saving, the page says what is covered, and by name what is dropped."""
    page.open(name="passport of Ada 1990.png")
    page.apply(f"{SECRET}\nmosaic 0,0,9,9 4,4\nmosaic 20,25,9,9 4,4")
    covers = "3 covers. Not hidden for sure: mosaics 2, 3. Shows single pixels: mosaics 2, 3."
    page.count("before saving it counts covers and names mosaics", page.browser.text("#covers") == covers, page.browser.text("#covers"))
    page.save()
    page.count("the saved name has no part of the old one", " 60 by 40 pixels. 3 covers." in page.status())
    page.browser.click("#keep-name")
    page.save("passport of Ada 1990-covered.png")
    page.count("unless the person asks", page.status().startswith("passport of Ada 1990-covered.png was handed to your browser."))
    page.open(name="next.png")
    page.count("for the next picture that is off again", not page.browser.run("return document.getElementById('keep-name').checked"))
    page.save()
    page.count("nothing else is in a plain file", "The file held nothing else." in page.status())
    plain = files.in_browser(page, "jpeg")
    more = {name: (bytes([0xFF, kind]) + struct.pack(">H", len(it) + 2) + it) for kind, it, name in segments()}
    for name, it in more.items():
        page.fresh("one.jpg", plain[:2] + it + plain[2:])
        saved = page.save()
        page.count(f"JPEG: {name} is named as dropped", f"{name}" in page.status().split("Dropped")[-1] and files.SECRET not in saved)
    page.fresh("tail.jpg", plain + b"a video")
    page.save()
    page.count("JPEG: data after the picture is named", "data after the picture" in page.status())
    chunks = [(b"tEXt", b"Comment\0x"), (b"eXIf", b"MM\0*\0\0\0\x08\0\0" + bytes(4))]
    page.fresh("some.png", png.png(60, 40, png.by_chance(60, 40, "x"), chunks))
    page.save()
    page.count("PNG: a comment and EXIF are named", "Dropped from the file: a comment and EXIF." in page.status())
    page.fresh("moving.gif", GIF)
    page.count("an animation is said at opening", "an animation of 2 frames: only one is here" in page.status())
    deep = png.png(2, 1, bytes(12), depth=16)
    page.fresh("deep.png", deep)
    page.count("16 bits are said at opening", "16 bits of a colour have become 8." in page.status())
