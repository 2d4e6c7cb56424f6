"""What is shown again: a cover that was moved, made smaller or deleted is named until the file is saved, and a button brings it
back. Undo gives exactly the state before. And what a mosaic shows."""
from browser import covers, png
from browser.driver import until
from browser.models import HEIGHT, PIXELS, WIDTH, by_model

LOSSES = "return [...document.querySelectorAll('#losses li')].map((it) => it.firstChild.textContent.trim())"
BACK = "document.querySelectorAll('#losses button')[arguments[0]].click()"
# What a person does to the second of these covers, the lines then, and what the page says of it.
COVERS = "fill 2,2,10,8 0\nfill 20,10,20,12 0\nmeans 40,25,16,12 4,4\n"
MOVED, SMALLER = "fill 30,10,20,12 0", "fill 20,10,10,6 0"
ACTS = (
    ("moved by keys", lambda page: page.browser.press("Control", "Right"), MOVED, "Cover 2 was moved: 120 pixels are shown again."),
    ("made smaller", lambda page: shrink(page), SMALLER, "Cover 2 was made smaller: 180 pixels are shown again."),
    ("deleted", lambda page: page.browser.press("Delete"), None,
     "The former cover 2 (Black, 20 by 12 at 20, 10) was deleted: 240 pixels are shown again."),
    ("deleted by Backspace", lambda page: page.browser.press("Backspace"), None,
     "The former cover 2 (Black, 20 by 12 at 20, 10) was deleted: 240 pixels are shown again."),
    ("removed by the button", lambda page: page.browser.click("#remove"), None,
     "The former cover 2 (Black, 20 by 12 at 20, 10) was deleted: 240 pixels are shown again."),
    ("changed to a crop", lambda page: page.browser.click("#changes [data-word=crop]"), "",
     "The former cover 2 (Black, 20 by 12 at 20, 10) was changed to a crop: 240 pixels are shown again."),
    ("changed in the text", lambda page: page.apply(COVERS.replace("20,10,20,12", "20,10,20,4")), "fill 20,10,20,4 0",
     "The former cover 2 (Black, 20 by 12 at 20, 10) was removed in the text: 160 pixels are shown again."),
)
# Mosaics of the text, and what the page says of the smallest tile. The first is one that published a pixel.
TILES = (
    ("means 5,2,41,33 8,8", "Shows single pixels: its smallest tile has 1 pixel. Use tiles of 7 by 7, or a fill."),
    ("means 10,10,1,1 8,8", "Shows single pixels: its smallest tile has 1 pixel. Use a fill."),
    ("means 3,3,9,9 2,1", "Shows single pixels: its smallest tile has 1 pixel. Use tiles of 5 by 5, or a fill."),
    ("means 0,0,60,40 8,7", "Shows single pixels: its smallest tile has 20 pixels."),
    ("mosaic 4,4,32,24 8,8", "Shows single pixels: the one at the corner of each tile. Use a fill."),
)
NUMBERS = "return [...document.querySelectorAll('#overlay .number')].map((it) => it.textContent)"


def shrink(page):
    page.browser.change("width", "10")
    page.browser.change("height", "6")


def losses(page):
    return page.browser.run(LOSSES)


def begin(page):
    """Three covers, of which the second is chosen in the list."""
    page.open()
    page.apply(COVERS)
    page.browser.run("const it = document.querySelector('#edits li:nth-child(2) button'); it.focus(); it.click()")


def check_losses(page):
    """Each loss is named before and after saving, and a button takes it back. Then nothing is lost."""
    for label, act, line, said in ACTS:
        begin(page)
        act(page)
        first, second, third = COVERS.splitlines()
        lines = [first, *([line] if line else []), third, *(["crop 20,10,20,12"] if line == "" else [])]
        page.count(f"a cover {label}", page.list().splitlines() == lines, lines)
        page.count(f"a cover {label} is named", losses(page) == [said], losses(page))
        page.browser.run("document.getElementById('colour').focus()")
        page.choose("fill")
        page.drag((50.5, 2.5), (52, 4), (55.5, 6.5))
        page.count(f"a cover {label} is named after the next drag", losses(page) == [said], losses(page))
        page.browser.run(BACK, 0)
        has = second in page.list().splitlines()
        page.count(f"a cover {label} is brought back", has and losses(page) == [], losses(page))
        page.browser.run("document.getElementById('undo').click()")
        page.count(f"a cover {label}: undo takes that back", losses(page) == [said], losses(page))
        page.preview()
        shown = page.browser.text("#preview-losses li")
        page.count(f"a cover {label} is named before it is saved", shown.startswith(said), shown)
        page.browser.press("Escape")
        page.save()
        page.count(f"a cover {label} is named after it was saved", said in page.status())
        page.browser.run("document.getElementById('add').click()")
        page.count(f"a cover {label} is named until then", losses(page) == [], losses(page))


def check_exact_undo(page):
    """Undo and redo give each state with what is lost in it."""
    page.open()
    page.choose("fill")
    page.drag((20.5, 10.5), (30, 15), (39.5, 21.5))
    page.drag((2.5, 2.5), (5, 5), (11.5, 9.5))
    states = [(page.list(), losses(page), page.shown())]
    steps = (
        lambda: page.browser.press("Control", "Right"), lambda: page.browser.press("Delete"),
        lambda: page.apply(page.list() + "fill 0,30,5,5 0"), lambda: page.browser.run(BACK, 0),
    )
    for act in steps:
        page.browser.run("document.querySelector('#edits button').click()")
        act()
        states.append((page.list(), losses(page), page.shown()))
    page.count("four states differ", len({repr(it[:2]) for it in states}) == 5, states)
    for way, those in (("undo", reversed(states[:-1])), ("redo", states[1:])):
        for at, state in enumerate(those):
            page.browser.run("document.getElementById(arguments[0]).click()", way)
            now = page.list(), losses(page), page.shown()
            page.count(f"{way} {at + 1} gives exactly the state", now == state, (now, state))


def check_hides(page):
    """What the count says is what the file shows: pixels of the picture in the place of the cover."""
    begin(page)
    page.browser.press("Control", "Right")
    words = page.list().split()
    saved, covered = png.ppm_of(page.save()), by_model(COVERS.split())
    at = len(saved) - 3 * WIDTH * HEIGHT
    was = lambda data, it: data[at + 3 * it:at + 3 * it + 3]
    shown = [it for it in range(WIDTH * HEIGHT) if was(covered, it) == b"\0\0\0" and was(saved, it) == PIXELS[3 * it:3 * it + 3]]
    page.count("as many pixels are shown again as the page says", saved == by_model(words) and len(shown) == 120, len(shown))


def check_late(page):
    """A move and then a fill keeps its note until it is saved."""
    note = "Note: a move comes before a fill or a mosaic."
    page.open()
    page.apply("move 0,0,20,20 30,15")
    page.count("a move alone has no note", losses(page) == [], losses(page))
    page.apply("move 0,0,20,20 30,15\nfill 1,1,9,9 0")
    page.choose("fill")
    page.drag((50.5, 2.5), (52, 4), (55.5, 6.5))
    page.count("a move before a fill has one, also after the next drag", losses(page)[0].startswith(note), losses(page))
    page.save()
    page.count("also after saving", note in page.status())


def check_tile_words(page):
    """A mosaic with a tile of few pixels is named, also on the picture."""
    for line, said in TILES:
        page.open()
        page.apply(f"fill 50,0,3,3 0\n{line}")
        page.browser.click("#edits li:nth-child(2) button")
        words = page.browser.run("const it = document.getElementById('weak'); return it.hidden ? '' : it.textContent")
        is_weak = "20 pixels" not in said
        page.count(f"{line}: the page says what it shows", words == said if is_weak else "Shows single" not in words, words)
        covers = page.browser.text("#covers")
        page.count(f"{line}: and the line before saving", is_weak == ("Shows single pixels: mosaic 2." in covers), covers)
        numbers = page.browser.run(NUMBERS)
        page.count(f"{line}: and its number on the picture", numbers[1] == ("2" if words else "") and numbers[0] == "", numbers)
    page.open()
    page.choose("mosaic")
    for path in ((5, 2), (46, 43)), ((3, 3), (12, 12)), ((20, 5), (50, 22)):
        page.drag(*(tuple(it - 0.5 for it in place) for place in path))
    sizes = [[[int(it) for it in field.split(",")] for field in line.split()[1:]] for line in page.list().splitlines()]
    least = [min(tw, w, w % tw or tw) * min(th, h, h % th or th) for (_, _, w, h), (tw, th) in sizes]
    page.count("no tile of a drawn mosaic has fewer than 16 pixels", len(least) == 3 and min(least) >= 16, (sizes, least))
    page.choose("fill")


def check_cropped(page):
    """A cover outside the crop is none of the file."""
    page.open()
    page.apply("fill 1,1,9,9 0\nfill 30,15,9,9 0\ncrop 25,10,20,20")
    said = page.browser.text("#covers")
    page.count("a cover outside the crop isn't counted", said == "1 cover. All are fills. Outside the crop: 1.", said)
    page.browser.run("document.querySelector('#edits button').click()")
    page.browser.press("Delete")
    page.count("and shows nothing again", losses(page)[0].endswith("was deleted: no pixel is shown again."), losses(page))


def check_seen(page):
    """The fields, the list and the buttons have the numbers of the picture as it is seen."""
    page.open()
    page.apply("means 10,8,20,12 5,6\nturn right")
    page.browser.click("#edits button")
    names = "return ['left', 'top', 'width', 'height', 'own-tile-width', 'own-tile-height'].map((it) => document.getElementById(it).value).join()"
    fields = page.browser.run(names)
    page.count("turned right: the fields are as it is seen", fields == "20,10,12,20,6,5", fields)
    words = page.browser.text("#edits button span")
    page.count("and the list", words == "Pixelated, 6 by 5, 12 by 20 at 20, 10", words)
    page.browser.change("left", "21")
    page.count("a field moves it as it is seen", page.list() == "means 10,7,20,12 5,6\nturn right\n")
    page.browser.change("own-tile-width", "7")
    page.count("and changes its tiles so", page.list() == "means 10,7,20,12 5,7\nturn right\n")


def check_lost_parts(page):
    """After a GIF, an animated WebP or 16 bits the line after saving says what was lost."""
    given = {"moving.gif": covers.GIF, "deep.png": png.png(2, 1, bytes(12), depth=16)}
    said = {"moving.gif": "This is an animation of 2 frames: only one is here.", "deep.png": "16 bits of a colour have become 8."}
    for name, data in given.items():
        page.fresh(name, data)
        page.save()
        page.count(f"{name}: after saving the page says what was lost", said[name] in page.status())


MARKS = "return [...document.querySelectorAll('#marks text')].map((it) => it.textContent)"
SHOWN = """const from = document.getElementById('result');
const context = Object.assign(document.createElement('canvas'), { width: from.width, height: from.height }).getContext('2d');
context.drawImage(from, 0, 0);
return [from.width, from.height, ...context.getImageData(0, 0, from.width, from.height).data];"""
OPEN = "return document.getElementById('preview').open"
# How the file is made, and its list.
PREVIEWS = (
    ("png", "fill 2,2,10,8 0\nmeans 20,10,20,12 4,4\ncrop 1,1,50,30", ["1", "2"]),
    ("png", "fill 2,2,10,8 0\nmove 0,0,5,5 40,20\nfill 20,10,20,12 9\nturn left", ["1", "3"]),
    ("png", "fill 2,2,10,8 0\nfill 50,30,9,9 0\npad 3,4,5,6 7\nflip columns", ["1", "2"]),
    ("png", "fill 2,2,10,8 0\nfill 50,30,9,9 0\ncrop 40,20,20,20", ["2"]),
    ("jpeg", "fill 2,2,10,8 0", ["1"]),
)


def check_preview(page):
    """The file is shown before it is saved: its pixels, and the number of each cover in it. Keys alone do it too."""
    for kind, text, numbers in PREVIEWS:
        page.open()
        page.apply(text)
        page.browser.change("format", kind)
        page.preview()
        label = text.replace("\n", "; ")
        page.count(f"{kind}, {label}: each cover in the file has its number", page.browser.run(MARKS) == numbers, page.browser.run(MARKS))
        width, height, *pixels = page.browser.run(SHOWN)
        data = page.browser.saved("covered.jpg" if kind == "jpeg" else "covered.png", "#hand")
        if kind == "png":
            page.count(f"{label}: exactly the pixels of the file are shown", png.read(data) == (width, height, bytes(pixels)))
            page.count(f"{label}: the file is that of the model", png.ppm_of(data) == by_model(text.split()))
    page.browser.change("format", "png")
    page.open()
    page.apply("fill 2,2,10,8 0")
    page.browser.run("document.getElementById('stage').focus()")
    page.browser.press("Control", "s")
    until(lambda: page.browser.run("return document.activeElement.id") == "hand")
    page.count("Ctrl+S shows the file, and Save has the keys", page.browser.run(OPEN))
    page.browser.press("Control", "z")
    page.browser.press("Delete")
    page.count("no other key does anything then", page.list() == "fill 2,2,10,8 0\n" and page.browser.run(OPEN))
    page.browser.press("Escape")
    is_there = (page.browser.folder / "covered.png").exists()
    page.count("Escape leads back, and nothing is saved", not page.browser.run(OPEN) and not is_there and "handed" not in page.status())
    page.browser.run("document.getElementById('save').focus()")
    page.browser.press("Enter")
    until(lambda: page.browser.run("return document.activeElement.id") == "hand")
    page.browser.press("Enter")
    saved = png.ppm_of(page.browser.handed("covered.png"))
    page.count("Enter saves it", saved == by_model("fill 2,2,10,8 0".split()) and "Look for it in your browser's list of downloads." in page.status())


def check_back_in_preview(page):
    """A cover is brought back where the file is shown: the file is made again, and has it."""
    begin(page)
    page.browser.press("Delete")
    page.preview()
    page.browser.click("#preview-losses button")
    until(lambda: page.browser.run(MARKS) == ["1", "2", "3"] and not page.is_off("hand"), "for the file that has it back")
    saved = png.ppm_of(page.browser.saved("covered.png", "#hand"))
    page.count("a cover is brought back in the preview", saved == by_model(COVERS.split()) and page.list() == COVERS)
    until(lambda: not page.browser.run(OPEN))


def check(page):
    for it in (check_losses, check_exact_undo, check_hides, check_late, check_tile_words, check_cropped, check_seen, check_lost_parts, check_preview,
               check_back_in_preview):
        it(page)
