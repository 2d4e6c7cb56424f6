"""What the preview shows is what is saved, copied and printed: after a field that is being typed in, below another picture, on paper."""
import base64
import re
import time

from browser import png
from browser.driver import DOWN, UP, move_to, until
from browser.losses import LOSSES, OPEN, SHOWN
from browser.models import HEIGHT, PIXELS, WIDTH, by_model
from browser.views import COPIED

# A file that is decoded only when a test says so.
HELD = """const old = window.createImageBitmap;
window.createImageBitmap = (it, ...more) => (it instanceof File
  ? new Promise((done) => { window.goOn = done; }).then(() => old(it, ...more)) : old(it, ...more));"""
GO_ON = "return Boolean(window.goOn) && (window.goOn(), window.goOn = null, true)"
COVERS = "return document.getElementById('preview-covers').textContent"
PREVIEW_LOSSES = LOSSES.replace("#losses", "#preview-losses")
IMAGE = re.compile(rb"<<(?:(?!>>).)*?/Subtype\s*/Image\b(?:(?!>>).)*?>>", re.DOTALL)
# How long a browser may take to do what it shouldn't, in seconds.
A_WHILE = 0.5
ACTIVE = "const it = document.elementsFromPoint(arguments[0], arguments[1]); return it.map((one) => one.id || one.tagName)"


def sizes_of(paper):
    """The width and height of each picture in a file of PDF."""
    number = lambda text, name: int(re.search(rb"/%s\s+(\d+)" % name, text)[1])
    return sorted({(number(it, b"Width"), number(it, b"Height")) for it in IMAGE.findall(paper)})


def type_in(page, field, text):
    """Types into a field by keys, and leaves the focus there."""
    page.browser.run("const it = document.getElementById(arguments[0]); it.focus(); it.select()", field)
    for it in text:
        page.browser.press(it)


def is_open(page):
    return page.browser.run(OPEN)


def check_field(page):
    """Ctrl+S in a field: the file, the numbers and the losses are those after the field's change."""
    page.open()
    page.apply("fill 10,8,20,12 0")
    page.browser.click("#edits button")
    type_in(page, "width", "10")
    page.browser.press("Control", "s")
    until(lambda: not page.is_off("hand"), "for the preview")
    losses = page.browser.run(PREVIEW_LOSSES)
    page.count("Ctrl+S in a field: the preview names what is shown again", losses == ["Cover 1 was made smaller: 120 pixels are shown again."], losses)
    _, _, *pixels = page.browser.run(SHOWN)
    saved = page.browser.saved("covered.png", "#hand")
    page.count("the preview shows the file", bytes(pixels) == png.read(saved)[2])
    page.count("the file has the field's number", png.ppm_of(saved) == by_model("fill 10,8,10,12 0".split()) and page.list() == "fill 10,8,10,12 0\n")
    page.count("after saving, nothing is brought back", page.browser.run(LOSSES) == [] and not page.browser.run("return document.querySelectorAll('#losses button').length"))
    page.browser.click("#edits button")
    type_in(page, "width", "99")
    page.browser.press("Control", "s")
    time.sleep(A_WHILE)
    page.count("a field that is refused shows no file", not is_open(page) and "outside" in page.status())


def check_below(page):
    """Another picture is dropped, or ends opening, while the file is shown: it isn't opened below, and nothing of it is copied."""
    other = png.png(WIDTH, HEIGHT, bytes(255 - it for it in PIXELS))
    page.open()
    page.apply("fill 10,8,20,12 200,30,7")
    page.preview()
    before = page.shown(), page.list()
    page.browser.script("given", "drop", "below.png", base64.b64encode(other).decode())
    time.sleep(A_WHILE)
    said = page.browser.text("#preview-name")
    page.count("a picture that is dropped on the preview isn't opened", (page.shown(), page.list()) == before and is_open(page) and said.startswith("below.png isn't opened"), said)
    page.browser.press("Escape")
    page.save()
    page.browser.run(HELD)
    path = page.browser.folder / "late.png"
    path.write_bytes(other)
    page.browser.type("#file", str(path))
    until(lambda: page.browser.run("return Boolean(window.goOn)"), "for the file")
    page.preview()
    before = page.shown(), page.list()
    page.browser.run(GO_ON)
    time.sleep(A_WHILE)
    page.count("a picture that was being opened waits for the preview", (page.shown(), page.list()) == before and is_open(page))
    if page.browser.can_copy:
        seen = copied(page)
        page.count("what is copied is what is shown", seen == [WIDTH, HEIGHT, 200, 30, 7, 255], seen)
    page.browser.click("#to-edits")
    said = until(lambda: page.status() if page.status().startswith("late.png") else "", "for the late picture")
    page.count("and is opened then", said.startswith("late.png: 60 by 40 pixels.") and page.list() == "", said)
    page.start()


def copied(page):
    """The size of the picture on the clipboard, and one of its pixels, after a press of the button."""
    page.browser.enter(None)
    page.browser.devtools("Browser.grantPermissions", permissions=["clipboardReadWrite", "clipboardSanitizedWrite"])
    page.browser.enter()
    page.browser.click("#copy-picture")
    until(lambda: page.browser.text("#preview-name").startswith("Copied"), "for the copy")
    page.browser.enter(None)
    page.browser.run("window.focus(); document.body.focus()")
    seen = page.browser.ask("POST", "/execute/async", {"script": COPIED, "args": []})
    page.browser.enter()
    return seen


def check_paper(page):
    """What is printed is the file of the preview, or no pixel at all. No menu of the browser has the picture with its edits."""
    page.open()
    page.apply("fill 2,2,10,8 0\ncrop 10,8,30,20")
    found = sizes_of(page.browser.printed())
    page.count("printed without the preview, there is no picture", found == [], found)
    ids = page.browser.run(ACTIVE, *page.on_screen((20, 15))[0])
    page.count("no menu is about the picture with its edits", "canvas" not in ids and "overlay" in ids, ids)
    page.preview()
    found = sizes_of(page.browser.printed())
    page.count("printed with the preview, it is the cropped file", found != [] and (60, 40) not in found and all(w <= 30 and h <= 20 for w, h in found), found)
    page.browser.press("Escape")


def clicks(page, selector, count=2):
    """Clicks quickly, one after the other, at the same place of the screen."""
    box = page.browser.run("const it = document.querySelector(arguments[0]).getBoundingClientRect(); return [it.left + it.width / 2, it.top + it.height / 2]", selector)
    page.browser.act([move_to(box), *[DOWN, UP] * count])


def files_of(page):
    return sorted(it.name for it in page.browser.folder.glob("covered*"))


def check_twice(page):
    """A double click on Save saves once and draws nothing, and so does Enter that is held."""
    page.open()
    page.choose("brush")
    page.apply("fill 1,1,9,9 3")
    for _ in range(6):
        # (so that the picture is below the button)
        page.browser.press("+")
    page.preview()
    clicks(page, "#hand")
    until(lambda: page.status().startswith("covered.png was handed"))
    time.sleep(A_WHILE)
    found = files_of(page)
    page.count("a double click on Save saves one file", found == ["covered.png"] and not is_open(page), found)
    page.count("and draws nothing", page.list() == "fill 1,1,9,9 3\n")
    time.sleep(A_WHILE)
    clicks(page, "#save")
    until(lambda: not page.is_off("hand"))
    time.sleep(A_WHILE)
    page.count("a double click on Save… shows the file, and saves nothing", is_open(page) and len(files_of(page)) == 1, files_of(page))
    page.browser.press("Escape")
    for it in page.browser.folder.glob("covered*"):
        it.unlink()
    page.choose("fill")
    page.browser.run("document.getElementById('save').focus()")
    page.browser.hold_enter(30)
    until(lambda: not page.is_off("hand"))
    page.browser.hold_enter(30)
    time.sleep(2 * A_WHILE)
    page.count("Enter that is held shows the file once, and saves it once", files_of(page) == ["covered.png"] and not is_open(page), files_of(page))
    for it in page.browser.folder.glob("covered*"):
        it.unlink()
    page.browser.run("document.getElementById('undo').focus()")
    page.browser.press("Control", "s")
    until(lambda: not page.is_off("hand"))
    page.browser.hold_enter(30)
    until(lambda: files_of(page) == ["covered.png"])
    time.sleep(A_WHILE)
    page.count("and presses no button that gets the focus then", page.list() == "fill 1,1,9,9 3\n" and not is_open(page))
    for it in page.browser.folder.glob("covered*"):
        it.unlink()


def check_jpeg_copied(page):
    """What is copied of a JPEG is what is shown of it."""
    if page.browser.can_copy:
        page.open()
        page.apply("fill 0,0,60,40 200,30,7")
        page.browser.change("format", "jpeg")
        page.preview()
        seen = copied(page)
        page.count("a JPEG is copied as it is shown", seen[:2] == [WIDTH, HEIGHT] and max(abs(a - b) for a, b in zip(seen[2:], (200, 30, 7, 255))) <= 6, seen)
        page.browser.click("#to-edits")
        page.browser.change("format", "png")


def check(page):
    for it in (check_field, check_below, check_jpeg_copied, check_paper, check_twice):
        it(page)
