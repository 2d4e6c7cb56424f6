"""The page in a browser: keys, undo, and files that reveal nothing of what is covered."""
import random

import tries
from browser import png
from browser.models import HEIGHT, PIXELS, WIDTH, by_model

# Edits, a rectangle of which nothing may be seen, and one of which something is.
HIDDEN = (
    ("fill 10,8,20,12 0", (10, 8, 20, 12), (30, 8, 1, 1)),
    ("fill 10,8,20,12 9,8,7", (10, 8, 20, 12), (9, 19, 1, 1)),
    ("mosaic 8,8,32,16 8,8", (9, 9, 7, 7), (16, 8, 1, 1)),
    ("crop 30,0,30,40", (0, 0, 30, 40), (30, 39, 1, 1)),
    ("fill 4,4,8,8 1\nmove 0,0,20,20 30,15", (4, 4, 8, 8), (3, 4, 1, 1)),
    ("move 40,0,20,20 0,0", (0, 0, 20, 20), (40, 0, 1, 1)),
    ("fill 4,4,8,8 1\npad 1,1,1,1 7", (4, 4, 8, 8), (12, 11, 1, 1)),
)


# How many lists are tried one after the other on one picture.
TAKEN_BACK = 40
# Keys that are pressed one after the other, and the rectangle then.
KEYS = (
    (("Right",), "23,15,15,10"),
    (("Down",), "23,16,15,10"),
    (("Left",), "22,16,15,10"),
    (("Up",), "22,15,15,10"),
    (("Control", "Right"), "32,15,15,10"),
    (("Shift", "Right"), "32,15,16,10"),
    (("Shift", "Up"), "32,15,16,9"),
    (("Control", "Shift", "Down"), "32,15,16,19"),
    (("Control", "Left"), "22,15,16,19"),
)


def check_keys(page):
    """The same by keys alone."""
    page.open()
    page.choose("fill")
    page.browser.run("document.getElementById('add').focus()")
    page.browser.press("Enter")
    page.count("a rectangle is added in the middle", page.list() == "fill 22,15,15,10 0\n")
    name = page.browser.run("return document.activeElement.getAttribute('aria-label')")
    page.count("it has the keys", name == "Black, 15 by 10 at 22, 15, rectangle 1", name)
    earlier = []
    for keys, text in KEYS:
        earlier.append(page.list())
        page.browser.press(*keys)
        page.count(f"{'+'.join(keys)} gives {text}", page.list() == f"fill {text} 0\n")
    page.count("it is saved", png.ppm_of(page.save()) == by_model("fill 22,15,16,19 0".split()))
    page.browser.press("Control", "z")
    page.count("Ctrl+Z takes keys back that were pressed together", page.list() in earlier)
    page.browser.press("Control", "y")
    page.count("Ctrl+Y brings it again", page.list() == "fill 22,15,16,19 0\n")
    page.browser.run("document.querySelector('#overlay g').focus()")
    page.browser.press("Delete")
    page.count("Delete removes it", page.list() == "")
    page.browser.press("Control", "z")
    page.count("and Ctrl+Z brings it again", page.list() == "fill 22,15,16,19 0\n")
    page.browser.press("Control", "Shift", "z")
    page.count("and Ctrl+Shift+Z removes it again", page.list() == "")
    order = []
    page.browser.run("document.getElementById('stage').focus()")
    for _ in range(8):
        page.browser.press("Tab")
        name = "const it = document.activeElement; return it.id || it.value"
        order.append(page.browser.run(name))
    # (a browser may stop at what scrolls)
    tools = [it for it in order if it not in ("side", "overlay")][:5]
    well = tools == ["open", "save", "undo", "fill", "colour"]
    page.count("Tab goes through the tools", well, order)


def check_undo(page):
    """Undo gives each earlier picture exactly, and redo each later one."""
    page.open()
    texts = [
        "fill 1,1,30,20 9", "fill 1,1,30,20 9\nmosaic 5,5,40,30 6,6", "mosaic 5,5,40,30 6,6",
        "mosaic 5,5,40,30 6,6\nmove 0,0,30,30 20,7", "move 0,0,30,30 20,7",
        "fill 1,1,3,3 4\nmove 0,0,30,30 20,7\ncrop 0,0,9,9"
    ]
    seen = [page.shown()]
    for it in texts:
        page.apply(it)
        seen.append(page.shown())
    page.count(
        "each list shows another picture, except the crop", len(set(seen[:-1])) == len(seen) - 1
    )
    for at in range(len(texts) - 1, -1, -1):
        page.browser.run("document.getElementById('undo').click()")
        page.count(
            f"undo to list {at}",
            page.shown() == seen[at] and page.list() == (f"{texts[at - 1]}\n" if at else "")
        )
    page.count(
        "nothing is left to undo",
        page.browser.run("return document.getElementById('undo').disabled")
    )
    page.count(
        "all undone is the picture itself",
        png.ppm_of(page.save()) == png.ppm(WIDTH, HEIGHT, PIXELS)
    )
    for at, it in enumerate(texts, 1):
        page.browser.run("document.getElementById('redo').click()")
        page.count(f"redo to list {at}", page.shown() == seen[at] and page.list() == f"{it}\n")
    page.browser.run("document.getElementById('undo').click()")
    page.apply("fill 0,0,1,1 1")
    page.count(
        "a new edit ends what could be redone",
        page.browser.run("return document.getElementById('redo').disabled")
    )


def edit_by_chance(chance):
    """A line that changes a rectangle, which overlaps most others."""
    width, height = chance.randint(8, 40), chance.randint(8, 30)
    left, top = chance.randint(0, WIDTH - width), chance.randint(0, HEIGHT - height)
    window = f"{left},{top},{width},{height}"
    return chance.choice((
        f"fill {window} {chance.randint(0, 255)}", f"means {window} {chance.randint(2, 9)},{chance.randint(2, 9)}",
        f"mosaic {window} {chance.randint(2, 9)},{chance.randint(2, 9)}",
        f"move {window} {chance.randint(0, WIDTH - width)},{chance.randint(0, HEIGHT - height)}",
    ))


def check_taken_back(page):
    """Lists of edits that overlap, one after the other on one picture: what the next list lacks is taken back exactly."""
    chance, lines, wrong = random.Random("taken back"), [], []
    page.open()
    for _ in range(TAKEN_BACK):
        lines = [*lines[:chance.randint(0, len(lines))], *(edit_by_chance(chance) for _ in range(chance.randint(1, 4)))]
        page.apply("\n".join(lines))
        if png.ppm_of(page.save()) != by_model(" ".join(lines).split()):
            wrong.append(lines)
    page.count(f"{TAKEN_BACK} lists that overlap: each is that of the model", wrong == [], wrong[:1])


def exchanged(pixels, window):
    """Other bytes in a rectangle."""
    left, top, width, height = window
    return tries.exchanged(pixels, 0, 3 * WIDTH, (3 * left, top, 3 * width, height))


def swapped(pixels, one, other):
    """The pixels at two places in each other's place."""
    made = bytearray(pixels)
    for (x, y), (u, v) in ((one, other), (other, one)):
        at, source = 3 * (y * WIDTH + x), 3 * (v * WIDTH + u)
        made[at:at + 3] = pixels[source:source + 3]
    return bytes(made)


def check_means(page):
    """Of a tile of means its sums are seen, and nothing else."""
    same, other, saved = swapped(PIXELS, (9, 9), (15, 14)), exchanged(PIXELS, (9, 9, 7, 7)), []
    for pixels in (PIXELS, same, other):
        page.open(pixels)
        page.apply("means 8,8,32,16 8,8")
        saved.append(page.save())
    page.count("means: pixels of a tile that change places give the same file", same != PIXELS and saved[0] == saved[1])
    page.count("means: other sums don't", saved[0] != saved[2])


def check_hidden(page):
    """Pictures that differ only in what is covered give the same file, and others don't."""
    for text, hidden, seen in HIDDEN:
        saved = []
        for pixels in (PIXELS, exchanged(PIXELS, hidden), exchanged(PIXELS, seen)):
            page.open(pixels)
            page.apply(text)
            saved.append(page.save())
        label = text.replace("\n", "; ")
        page.count(f"{label}: hidden pixels exchanged give the same file", saved[0] == saved[1])
        page.count(f"{label}: shown pixels exchanged don't", saved[0] != saved[2])
