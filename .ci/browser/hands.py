"""Fingers on a phone, and keys alone."""
from browser import looks, png
from browser.driver import DOWN, HOLD, UP, move_to, until
from browser.models import by_model

SIZE = 300, 400
FOCUSED = "const it = document.activeElement; return it.closest('li') ? [...document.querySelectorAll('#edits li')].indexOf(it.closest('li')) : it.id"
PAUSE = {"type": "pause", "duration": HOLD}
# A swipe over the tools: the heights of its places, and what else the finger does.
SWIPE = ((640, None), (0, DOWN), (600, None), (540, None), (480, None), (0, UP))
DRAFTS = "return document.querySelectorAll('#overlay .draft').length"
# How often a swipe is tried. Where the machine stops for as long as a hold takes, a swipe begins as one.
TRIES = 5


def check_fingers(page):
    """A swipe draws where nothing can be scrolled, and else scrolls. A hold draws, a second finger ends what the first began, two zoom."""
    page.browser.devtools("Emulation.setDeviceMetricsOverride", **looks.PHONE)
    page.browser.devtools("Emulation.setTouchEmulationEnabled", enabled=True, maxTouchPoints=2)
    page.start()
    page.open(png.by_chance(*SIZE, "hands"), *SIZE)
    steps = [move_to(it) | {"duration": 20} for it in page.on_screen((150, 300), (160, 260), (170, 200), (180, 100))]
    page.browser.act([steps[0], DOWN, *steps[1:], UP], "touch")
    page.count("a swipe draws where nothing can be scrolled", page.list().startswith("fill ") and page.list().count("\n") == 1)
    page.browser.run("document.getElementById('undo').click()")
    page.browser.act([move_to((340, place)) | {"duration": 20} if place else it for place, it in SWIPE], "touch")
    until(lambda: page.browser.run("return document.getElementById('side').scrollTop") > 0)
    page.count("a swipe on the tools scrolls them", page.list() == "")
    page.drag((100.5, 100.5), (120, 120), (160.5, 170.5), kind="touch")
    page.count("a finger that holds still draws", page.list().count("\n") == 1 and page.list().startswith("fill 100,100,"))
    page.browser.run("document.getElementById('undo').click()")
    for _ in range(6):
        page.browser.press("+")
    before = scrolled(page)
    well = swipes(page, steps)
    page.count("a swipe on a zoomed picture scrolls it, draws nothing, and the page says how to draw", well and scrolled(page) != before and "Hold a finger still" in page.status())
    page.browser.press("0")
    one = [move_to(it) for it in page.on_screen((100, 200), (100, 150), (100, 100))]
    two = [move_to(it) for it in page.on_screen((200, 250), (220, 300), (250, 380))]
    scale = page.scale()
    # (the second finger comes when the first has drawn for a while)
    page.browser.act_all({
        "touch": [one[0], DOWN, PAUSE, one[1], {"type": "pause", "duration": 50}, one[2], UP],
        "other": [two[0], {"type": "pause"}, PAUSE, {"type": "pause"}, DOWN, two[2], UP],
    }, "touch")
    page.count("a second finger ends the drag", page.list() == "" and page.browser.run(DRAFTS) == 0)
    page.count("and two fingers zoom", page.scale() > scale, page.scale())
    page.browser.press("0")
    page.browser.run("document.getElementById('at-once').click()")
    page.browser.act([steps[3], DOWN, *steps[:3], UP], "touch")
    page.count("with the tick a finger draws at once", page.list().startswith("fill "))
    page.browser.devtools("Emulation.clearDeviceMetricsOverride")
    page.browser.devtools("Emulation.setTouchEmulationEnabled", enabled=False)
    page.start()


def swipes(page, steps):
    """Whether one of some swipes draws nothing."""
    for _ in range(TRIES):
        page.browser.act([steps[0], DOWN, *steps[1:], UP], "touch")
        if page.list() == "":
            return True
        page.browser.run("document.getElementById('undo').click()")
    return False


def scrolled(page):
    return page.browser.run("const it = document.getElementById('stage'); return [it.scrollLeft, it.scrollTop]")


def check_keys_alone(page):
    """Enter on a line of the list keeps the keys there. A second Delete removes nothing else."""
    page.open()
    page.apply("fill 1,1,9,9 3\nfill 20,1,9,9 4\nfill 40,1,9,9 5")
    page.browser.run("document.querySelector('#edits li:nth-child(2) button').focus()")
    page.browser.press("Enter")
    page.count("Enter on a line keeps the focus", page.browser.run(FOCUSED) == 1, page.browser.run(FOCUSED))
    page.browser.press("Enter")
    page.count("also the second one", page.browser.run(FOCUSED) == 1, page.browser.run(FOCUSED))
    page.browser.run("document.querySelector('#overlay g').focus()")
    page.browser.press("Delete")
    page.count("Delete removes the selected one", page.list() == "fill 20,1,9,9 4\nfill 40,1,9,9 5\n")
    page.browser.press("Delete")
    page.browser.press("Backspace")
    page.count("a second one removes nothing else", page.list() == "fill 20,1,9,9 4\nfill 40,1,9,9 5\n")


def check_handed(page):
    """What is opened, drawn and saved by real clicks is in the browser's list of downloads, whole."""
    page.open()
    page.drag((10.5, 8.5), (20, 15), (29.5, 19.5))
    page.browser.click("#save")
    until(lambda: not page.is_off("hand"))
    page.browser.click("#hand")
    listed = until(page.browser.downloads, "for the list of downloads")
    until(lambda: all(whole for _, whole in page.browser.downloads()), "for the download")
    page.count("the list of downloads has the file", [it for it, _ in listed] == [str(page.browser.folder / "covered.png")], listed)
    page.count("its pixels are those of the page", png.ppm_of(page.browser.handed("covered.png")) == by_model("fill 10,8,20,12 0".split()))
    where = "covered.png was handed to your browser. Look for it in your browser's list of downloads."
    page.count("the page says where to look", page.status().startswith(where))


def check_disk(page, folder):
    """Opened from a disk, the page covers and saves as from a server."""
    url, page.url = page.url, f"{folder.as_uri()}/"
    page.start()
    page.open()
    page.apply("fill 1,1,9,9 3")
    page.count("from a disk it saves", png.size_of(page.save()) == (60, 40))
    page.url = url
    page.start()
