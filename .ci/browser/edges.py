"""The picture's edges and small windows: drags from the grey beside it, a stroke that is zoomed, a phone's first swipe, scroll bars,
windows at 400 %, plain http, a browser that gives noise, files that end too early, and the memory that edits take."""
import base64
import pathlib

from browser import files, looks, png
from browser.driver import DOWN, UP, move_to, until
from browser.views import WHEEL

STAGE = """const box = document.getElementById('stage').getBoundingClientRect();
return [box.left, box.top, document.getElementById('stage').clientWidth, document.getElementById('stage').clientHeight]"""
DRAFTS = "return document.querySelectorAll('#overlay .draft').length"
BARS = "const it = document.getElementById('stage'); return [it.offsetWidth - it.clientWidth, it.offsetHeight - it.clientHeight, it.scrollWidth - it.clientWidth, it.scrollHeight - it.clientHeight]"
STROKE = "return Number(document.querySelector('#overlay .stroke').getAttribute('stroke-width'))"
TOPS = "return ['open', 'save', 'undo', 'redo'].map((it) => { const box = document.getElementById(it).getBoundingClientRect(); return [box.top, box.height]; })"
CUT = """const side = document.getElementById('side'), most = side.getBoundingClientRect().left + side.clientLeft + side.clientWidth;
return ['open', 'save', 'undo', 'redo'].filter((it) => document.getElementById(it).getBoundingClientRect().right > most)"""
HEADER = """const it = document.querySelector('header'), before = it.getBoundingClientRect();
scrollTo(0, 1000);
const after = it.getBoundingClientRect(), frame = document.querySelector('iframe').getBoundingClientRect();
scrollTo(0, 0);
return { high: before.height, after: after.bottom, frame: [frame.top, frame.height], inner: innerHeight, wide: document.scrollingElement.scrollWidth }"""
SEEN = """const it = document.getElementById(arguments[0]).getBoundingClientRect();
return [Math.min(it.right, innerWidth) - Math.max(it.left, 0), Math.min(it.bottom, innerHeight) - Math.max(it.top, 0)]"""
# A window at 400 %, and half of a phone's screen.
SMALL = ((320, 256), (360, 400))
# Windows with the tools at the side: a laptop's, and that at 200 %.
WIDE = ((1280, 720), (640, 360))
# A large picture, so many edits, and the most memory of all parts of the browser, in bytes.
LARGE, EDITS, MOST_MEMORY = (8000, 6250), 15, 1.5e9


def beside(page, at):
    """A place of the window below the middle of the grey above the picture, and the picture's column of this number."""
    top = page.browser.run(STAGE)[1]
    x, y = page.on_screen((at, 0))[0]
    return x, (top + y) / 2


def check_grey(page):
    """A drag that begins in the grey beside the picture draws from its edge. One that stays there draws nothing."""
    page.open()
    for kind in ("mouse", "touch"):
        page.choose("fill")
        page.browser.drag(beside(page, 10.5), *page.on_screen((20, 5), (29.5, 11.5)), kind=kind)
        page.count(f"a drag from the grey by {kind} draws from the edge", page.list() == "fill 10,0,20,12 0\n")
        page.browser.run("document.getElementById('undo').click()")
        page.browser.drag(beside(page, 10.5), beside(page, 20), beside(page, 29.5), kind=kind)
        page.count(f"a drag in the grey by {kind} draws nothing", page.list() == "" and page.browser.run(DRAFTS) == 0)
    page.choose("brush")
    page.browser.change("brush-width", "6")
    page.browser.drag(beside(page, 30.5), *page.on_screen((30.5, 0.5), (30.5, 10.5)))
    tops = [int(it.split()[1].split(",")[1]) for it in page.list().splitlines()]
    page.count("so does a stroke", tops != [] and min(tops) == 0 and page.browser.run("return document.querySelectorAll('#edits li').length") == 1)
    page.choose("fill")


def check_width(page):
    """A stroke keeps the width that it began with, where the wheel zooms meanwhile."""
    page.open(png.by_chance(320, 240, "stroke"), 320, 240)
    page.choose("brush")
    page.browser.change("brush-width", "")
    start, middle, end = page.on_screen((160, 60), (160, 100), (160, 120))
    page.browser.act([move_to(start), DOWN, move_to(middle)])
    shown = page.browser.run(STROKE)
    for _ in range(4):
        page.browser.run(WHEEL, -300, *middle)
    page.browser.act([move_to((middle[0] + 8, middle[1])), UP])
    boxes = [[int(it) for it in line.split()[1].split(",")] for line in page.list().splitlines()]
    widest = max((it[2] for it in boxes if it[1] < 70), default=0)
    page.count("a stroke that is zoomed has the width that was shown", shown > 0 and shown - 2 <= widest <= shown + 3, (shown, widest))
    page.choose("fill")


def check_drop(page):
    """The box in which files are dropped is a button, also by keys."""
    page.start()
    found = page.browser.run("const it = document.getElementById('drop'); return [it.tagName, it.checkVisibility(), it.textContent]")
    page.count("the box for files is a button with a name", found[:2] == ["BUTTON", True] and "Open a picture" in found[2], found)
    page.browser.run("window.opened = 0; document.getElementById('file').addEventListener('click', (it) => { it.preventDefault(); window.opened += 1; })")
    page.browser.run("document.getElementById('drop').focus()")
    page.browser.press("Enter")
    page.browser.press(" ")
    page.browser.click("#drop")
    page.count("Enter, Space and a click open files there", page.browser.run("return window.opened") == 3, page.browser.run("return window.opened"))
    page.start()


def check_fit(page):
    """The first fit is the same as a later one, also after a picture that is larger than the window. No scroll bar is counted."""
    for label, size in (("wide", (3000, 2000)), ("high", (2400, 3000)), ("as the stage", None)):
        size = size or tuple(int(it) for it in page.browser.run(STAGE)[2:])
        page.start()
        page.open(png.by_chance(*size, "fit"), *size)
        first, bars = page.scale(), page.browser.run(BARS)
        page.browser.run("document.getElementById('fit').click()")
        page.count(f"{label}: the first fit is the later one", abs(first - page.scale()) < 1e-6 and max(bars) <= 0, (first, page.scale(), bars))
        page.browser.run("document.getElementById('actual').click()")
        shown = page.browser.run(BARS)
        page.browser.run("document.getElementById('fit').click()")
        page.count(f"{label}: also after its actual size", abs(first - page.scale()) < 1e-6, (first, page.scale()))
        if label == "wide":
            page.count("scroll bars are seen in the tests", shown[1] > 5, shown)


def check_small_windows(page):
    """At 400 %, and on half of a phone: the header is one line that scrolls away, and the picture and the tools are there."""
    for width, height in SMALL:
        label = f"{width} by {height}"
        page.browser.devtools("Emulation.setDeviceMetricsOverride", width=width, height=height, deviceScaleFactor=2, mobile=False)
        page.start()
        page.open(png.by_chance(300, 200, "small"), 300, 200)
        page.browser.enter(None)
        it = page.browser.run(HEADER)
        well = it["high"] <= 30 and it["after"] < 1 and it["frame"][0] < 1 and it["frame"][1] == it["inner"] and it["wide"] <= width
        page.cases.count(f"{label}: the header is one line that scrolls away", well, it)
        page.browser.run("scrollTo(0, 1000)")
        page.browser.enter()
        wide, high = page.browser.run(SEEN, "stage")
        page.count(f"{label}: the picture has room", wide * high >= 0.4 * width * height and min(wide, high) >= 100, (wide, high))
        check_line(page, label)
        page.choose("fill")
        places = page.on_screen((50, 50), (100, 100), (150, 150))
        page.browser.drag(*places)
        page.count(f"{label}: it is drawn on", page.list().startswith("fill ") and page.list().count("\n") == 1)
        page.preview()
        wide, high = page.browser.run(SEEN, "pane")
        bars = page.browser.run(BARS.replace("stage", "pane"))
        page.count(f"{label}: the preview shows the file whole", wide >= 200 and high >= 70 and max(bars[2:]) <= 0, (wide, high, bars))
        page.browser.click("#hand")
        saved = png.size_of(page.browser.handed("covered.png"))
        page.count(f"{label}: and Save is pressed there", saved == (300, 200), saved)
    for width, height in WIDE:
        page.browser.devtools("Emulation.setDeviceMetricsOverride", width=width, height=height, deviceScaleFactor=1, mobile=False)
        page.start()
        page.open()
        check_line(page, f"{width} by {height}")
    page.browser.devtools("Emulation.clearDeviceMetricsOverride")
    page.start()


def check_line(page, label):
    tops, cut = page.browser.run(TOPS), page.browser.run(CUT)
    page.count(f"{label}: Open, Save, Undo and Redo are in one line", len({round(it[0]) for it in tops}) == 1 and max(it[1] for it in tops) < 40 and cut == [], (tops, cut))


def check_swipe(page):
    """On a phone a swipe draws where nothing can be scrolled."""
    page.browser.devtools("Emulation.setDeviceMetricsOverride", **looks.PHONE)
    page.browser.devtools("Emulation.setTouchEmulationEnabled", enabled=True, maxTouchPoints=2)
    page.start()
    page.open(png.by_chance(300, 400, "swipe"), 300, 400)
    steps = [move_to(it) | {"duration": 20} for it in page.on_screen((100.5, 100.5), (120, 130), (140, 150), (160.5, 170.5))]
    page.browser.act([steps[0], DOWN, *steps[1:], UP], "touch")
    page.count("the first swipe draws where nothing can be scrolled", page.list().startswith("fill 10") and page.list().count("\n") == 1)
    page.browser.devtools("Emulation.clearDeviceMetricsOverride")
    page.browser.devtools("Emulation.setTouchEmulationEnabled", enabled=False)
    page.start()


def check_half(page):
    """A JPEG or a PNG that ends too early is said to, or isn't opened."""
    whole = files.in_browser(page, "jpeg")
    large = base64.b64decode(page.browser.wait_for("noise"))
    for name, data in (("half.jpg", large[:len(large) // 2]), ("end.jpg", whole[:-2])):
        said = page.fresh(name, data)
        page.count(f"{name}: the page says that a part is missing, or doesn't open it", "The file ends too early" in said or "can't read" in said, said)
    said = page.fresh("whole.jpg", large)
    page.count("a whole one isn't said to", "too early" not in said and said.startswith("whole.jpg:"), said)
    said = page.fresh("exif.jpg", whole[:2] + b"\xff\xe1\x00\x10Exif\0\0MM\0*\0\0\0\x99" + whole[2:])
    page.count("nor is one with EXIF that can't be read", "too early" not in said and said.startswith("exif.jpg:"), said)


def check_plain_http(page):
    """Over plain http a browser gives no clipboard: copying isn't offered."""
    page.start()
    page.open()
    page.apply("fill 1,1,9,9 3")
    secure = page.browser.run("return isSecureContext")
    hidden = page.browser.run("return document.getElementById('copy').hidden")
    page.preview()
    seen = page.browser.run("return document.getElementById('copy-picture').checkVisibility()")
    page.browser.press("Escape")
    page.count(f"copying is {'' if secure else 'not '}offered over {'a secure address' if secure else 'plain http'}", seen == secure and hidden != secure, (seen, hidden))


def check_noise(page):
    """A browser that gives noise for the pixels of a canvas: no picture is opened, and the page says why."""
    said = page.open()
    page.count("a browser that gives noise: the page says so", "it doesn't let the page read pixels" in said and page.is_off("save"), said)


def check_noise_saved(page):
    """The same on a page that opens it all the same: nothing is saved."""
    page.open()
    page.apply("fill 1,1,9,9 3")
    page.browser.run("document.getElementById('save').click()")
    said = until(lambda: page.browser.text("#preview-name") if "can't save" in page.browser.text("#preview-name") or not page.is_off("hand") else "", "for the preview")
    page.count("noise isn't saved", "it doesn't let the page read pixels" in said and page.is_off("hand"), said)


def memory_of(process):
    """The memory of a process and those below it, in bytes: what they share counts once."""
    children = {}
    for it in pathlib.Path("/proc").glob("[0-9]*/stat"):
        try:
            text = it.read_text()
        except OSError:
            continue
        children.setdefault(int(text.rpartition(")")[2].split()[1]), []).append(int(it.parent.name))
    total, left = 0, [process]
    while left:
        one = left.pop()
        left += children.get(one, [])
        try:
            lines = pathlib.Path(f"/proc/{one}/smaps_rollup").read_text().splitlines()
        except OSError:
            continue
        total += sum(1024 * int(it.split()[1]) for it in lines if it.startswith("Pss:"))
    return total


def check_memory(page):
    """Many edits of a large picture take no more memory than few."""
    width, height = LARGE
    page.start()
    page.open(bytes(range(250)) * (3 * width * height // 250), width, height, "large.png")
    most, texts = 0, []
    for at in range(EDITS):
        texts.append(f"fill 0,0,{width},{height} {at}" if at % 2 else f"means 0,0,{width},{height} {200 + at},200")
        page.browser.script("timed", "\n".join(texts))
        page.browser.run("return new Promise((done) => requestAnimationFrame(() => requestAnimationFrame(done)))")
        most = max(most, memory_of(page.browser.process.pid))
    page.count(f"{EDITS} edits of 50 megapixels take at most 1.5 GB", page.status() == "Done." and most <= MOST_MEMORY, round(most / 1e9, 2))
    print(f"  {EDITS} edits of 50 megapixels: {most / 1e9:.2f} GB at most")
    page.browser.run("document.getElementById('undo').click()")
    page.count("and are undone", page.list().count("\n") == EDITS - 1)
    page.start()
    page.open()


def check(page):
    for it in (check_grey, check_width, check_drop, check_fit, check_half, check_plain_http):
        it(page)
