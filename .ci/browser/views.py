"""The picture on the screen: its size, zoom, a brush, several pictures, and edits that aren't lost."""
import time

from browser import png
from browser.driver import until
from browser.models import HEIGHT, PIXELS, WIDTH, by_model

# Windows: a laptop's, a phone's, and the laptop's at 200 %, with a picture for each.
WINDOWS = {
    "1280 by 720": ((1280, 720, 1, False), (1600, 1200)),
    "a phone": ((360, 740, 2, True), (1200, 1600)),
    "200 %": ((640, 360, 2, False), (1600, 1200)),
}
# The part of the window that the picture has, with the header above the frame.
PART = """const seen = (it) => { const box = document.getElementById(it).getBoundingClientRect();
return (Math.min(box.right, innerWidth) - Math.max(box.left, 0)) * (Math.min(box.bottom, innerHeight) - Math.max(box.top, 0)); };
return seen('canvas') / (arguments[0] * arguments[1])"""
IN_VIEW = """return ['open', 'save', 'undo', 'tools'].filter((it) => {
const box = document.getElementById(it).getBoundingClientRect();
return box.top < 0 || box.left < 0 || box.bottom > innerHeight || box.right > innerWidth; })"""
# The same of the file in the preview, and of the buttons there.
PREVIEW_PART = PART.replace("'canvas'", "'result'")
PREVIEW_HIDDEN = IN_VIEW.replace("['open', 'save', 'undo', 'tools']", "['hand', 'to-edits', 'copy-picture', 'with-numbers', 'preview-name']")
WHEEL = """document.getElementById('stage').dispatchEvent(new WheelEvent('wheel', { deltaY: arguments[0], clientX: arguments[1],
clientY: arguments[2], bubbles: true, cancelable: true }))"""
COPIED = """const done = arguments[0];
navigator.clipboard.read().then(async ([it]) => {
const bitmap = await createImageBitmap(await it.getType('image/png'));
const context = new OffscreenCanvas(bitmap.width, bitmap.height).getContext('2d');
context.drawImage(bitmap, 0, 0);
done([bitmap.width, bitmap.height, ...context.getImageData(12, 9, 1, 1).data]);
}).catch((why) => done(why.message))"""
LINES = "return [...document.querySelectorAll('#edits span')].map((it) => it.textContent)"


def check_sizes(page):
    """At least half of the window is the picture, and the tools and Save are in view, also where it is zoomed."""
    for label, ((width, height, factor, mobile), size) in WINDOWS.items():
        page.browser.devtools(
            "Emulation.setDeviceMetricsOverride", width=width, height=height, deviceScaleFactor=factor, mobile=mobile
        )
        page.start()
        page.open(png.by_chance(*size, "size"), *size)
        part = page.browser.run(PART, width, height)
        page.count(f"{label}: half of the window is the picture", part >= 0.5, part)
        page.browser.press("+")
        page.browser.press("+")
        hidden = page.browser.run(IN_VIEW)
        page.count(f"{label}: the tools and Save are in view", page.scale() > 0 and hidden == [], hidden)
        page.choose("fill")
        page.browser.press("0")
        page.drag((200, 200), (300, 300), (500, 600), kind="touch" if mobile else "mouse")
        page.preview()
        part, hidden = page.browser.run(PREVIEW_PART, width, height), page.browser.run(PREVIEW_HIDDEN)
        page.count(f"{label}: the preview shows the file, and its buttons are in view", part >= 0.2 and hidden == [], (part, hidden))
        page.browser.click("#hand")
        saved = png.size_of(page.browser.handed("covered.png"))
        page.count(f"{label}: Save is pressed there", saved == size, saved)
    page.browser.devtools("Emulation.clearDeviceMetricsOverride")
    page.start()


def check_zoom(page):
    """The wheel and keys zoom. What is under the pointer stays there, and is drawn on exactly."""
    page.open(png.by_chance(400, 300, "zoom"), 400, 300)
    fitting = page.scale()
    for _ in range(3):
        page.browser.run(WHEEL, -240, *page.on_screen((200, 150))[0])
    place = page.on_screen((220, 160))[0]
    for _ in range(3):
        page.browser.run(WHEEL, -240, *place)
    now = page.on_screen((220, 160))[0]
    page.count("the wheel zooms", page.scale() > 5 * fitting)
    page.count("what is under the pointer stays there", max(abs(a - b) for a, b in zip(now, place)) < 3, (now, place))
    page.drag((220.5, 160.5), (223, 163), (225.5, 164.5))
    page.count("a zoomed picture is drawn on", page.list() == "fill 220,160,6,5 0\n")
    page.browser.press("0")
    page.count("the key 0 shows all", abs(page.scale() - fitting) < 0.01)
    page.browser.press("1")
    page.count("the key 1 shows the actual size", page.scale() == 1)
    page.browser.press("+")
    larger = page.scale()
    page.browser.press("-")
    page.count("the keys + and - zoom", larger > 1 and abs(page.scale() - 1) < 0.01)
    page.browser.click("#fit")


def check_brush(page):
    """A brush covers what its path touched, as one edit: in the saved file there is nothing else in its place."""
    page.open()
    page.choose("brush")
    page.browser.change("brush-width", "4")
    path = ((10.5, 10.5), (20.5, 12.5), (30.5, 25.5), (12.5, 30.5))
    page.drag(*path)
    page.count("a stroke is one edit", len(page.browser.run(LINES)) == 1 and page.list().count("fill ") > 5)
    saved = png.ppm_of(page.save())
    page.count("it is saved as the fills of its text", saved == by_model(page.list().split()))
    at = len(saved) - 3 * WIDTH * HEIGHT
    black = lambda x, y: saved[at + 3 * (y * WIDTH + x):][:3] == b"\0\0\0"
    touched = [(int(x + dx), int(y + dy)) for (x, y) in path for dx in (-1, 0, 1) for dy in (-1, 0, 1)]
    page.count("all that it touched is covered", all(black(*it) for it in touched))
    page.count("and nothing far from it", saved[at:at + 3 * 60 * 5] == png.rgb(b"".join(PIXELS[it:it + 3] + b"\xff" for it in range(0, 3 * 60 * 5, 3))))
    words = page.browser.run(LINES)
    page.count("its line is in words", words[0].startswith("Black brush, within "), words)
    page.apply(page.list() + "fill 0,0,2,2 9\n")
    page.count("text that is added leaves it one edit", len(page.browser.run(LINES)) == 2)
    page.browser.run("document.getElementById('undo').click(); document.getElementById('undo').click()")
    page.count("undo takes it back whole", page.list() == "" and png.ppm_of(page.save()) == png.ppm(WIDTH, HEIGHT, PIXELS))
    page.drag((40.5, 20.5), (40.6, 20.6))
    page.count("a click is a dab", page.list().startswith("fill ") and page.browser.text("#covers").startswith("1 cover."))
    page.choose("fill")


def check_kept(page):
    """No edits are lost without a question, and several pictures come one after the other with the same tool."""
    page.open()
    page.apply("fill 1,1,9,9 3")
    other = png.png(2, 2, bytes(12))
    path = page.browser.folder / "other.png"
    path.write_bytes(other)
    page.browser.type("#file", str(path))
    asks = lambda: page.browser.run("return document.getElementById('ask').open && document.getElementById('question').textContent")
    said = until(asks)
    page.count("another picture asks first", said == "1 edit of page.png isn't saved. Open other.png all the same?", said)
    page.browser.run("document.getElementById('keep').click()")
    page.count("the edits are kept", page.list() == "fill 1,1,9,9 3\n")
    stops = "return !window.dispatchEvent(new Event('beforeunload', { cancelable: true }))"
    page.count("leaving the page asks too", page.browser.run(stops))
    page.save()
    page.count("saved edits ask nothing", not page.browser.run(stops))
    page.choose("mosaic")
    paths = []
    for name in ("one", "two", "three"):
        paths.append(page.browser.folder / f"{name}.png")
        paths[-1].write_bytes(png.png(WIDTH, HEIGHT, PIXELS))
    page.browser.type("#file", "\n".join(map(str, paths)))
    for name, left in (("one", "Next picture (2 left)"), ("two", "Next picture (1 left)"), ("three", None)):
        until(lambda: page.status().startswith(f"{name}.png"))
        button = page.browser.run("const it = document.getElementById('next-picture'); return it.hidden ? null : it.textContent")
        page.count(f"several pictures: {name}", button == left, button)
        if left:
            page.browser.click("#next-picture")
    tool = page.browser.run("return document.querySelector('[name=tool]:checked').value")
    page.count("the tool is the same", tool == "mosaic", tool)
    page.choose("fill")


def check_copied(page):
    """The result goes to the clipboard, and an edit's line is in words."""
    page.open()
    page.apply("fill 10,8,20,12 200,30,7\nmeans 0,0,9,9 4,4\ncrop 1,1,50,30")
    words = ["Red 200 green 30 blue 7, 20 by 12 at 10, 8", "Pixelated, 4 by 4, 9 by 9 at 0, 0", "Crop to 50 by 30 at 1, 1"]
    page.count("the lines are in words", page.browser.run(LINES) == words, page.browser.run(LINES))
    page.browser.enter(None)
    page.browser.devtools("Browser.grantPermissions", permissions=["clipboardReadWrite", "clipboardSanitizedWrite"])
    page.browser.enter()
    page.preview()
    page.browser.click("#copy-picture")
    said = until(lambda: page.status() if page.status().startswith("Copied") else "")
    page.browser.press("Escape")
    page.browser.enter(None)
    page.browser.run("window.focus(); document.body.focus()")
    seen = page.browser.ask("POST", "/execute/async", {"script": COPIED, "args": []})
    page.browser.enter()
    page.count("the clipboard has the result", said.startswith("Copied the picture.") and seen == [50, 30, 200, 30, 7, 255], (said, seen))


def check_shortcuts(page):
    """Ctrl+S shows the file and Enter saves it, Ctrl+O opens, and Escape ends a drag without an edit."""
    page.open()
    page.apply("fill 1,1,9,9 3")
    page.browser.press("Escape")
    page.browser.press("Control", "s")
    until(lambda: page.browser.run("return document.activeElement.id") == "hand")
    page.browser.press("Enter")
    data = page.browser.handed("covered.png")
    until(lambda: page.status().startswith("covered.png was handed"))
    page.browser.next_save = time.monotonic() + 0.2
    page.count("Ctrl+S and Enter save", png.ppm_of(data) == by_model("fill 1,1,9,9 3".split()))
    page.browser.run("window.opened = 0; document.getElementById('file').addEventListener('click', (it) => { it.preventDefault(); window.opened += 1; }, { once: true })")
    page.browser.press("Control", "o")
    page.count("Ctrl+O opens", page.browser.run("return window.opened") == 1)
    before = page.list()
    page.browser.drag(*page.on_screen((20, 20), (30, 30), (40, 35)), ends=False)
    drafts = "return document.querySelectorAll('#overlay .draft').length"
    page.count("a drag is seen", page.browser.run(drafts) == 1)
    page.browser.press("Escape")
    page.count("Escape ends it", page.browser.run(drafts) == 0)
    page.browser.act([{"type": "pointerUp", "button": 0}])
    page.count("and nothing is drawn", page.list() == before)
