"""The page in a browser: the whole picture turned and mirrored, with its covers."""
import subprocess

from browser import png
from browser.acts import exchanged
from browser.models import HEIGHT, PIXELS, WIDTH, by_model
from browser.picture import IS_PROBLEM

LEFT, RIGHT, MIRROR = "turn left", "turn right", "flip columns"
BUTTONS = {LEFT: "turn-left", RIGHT: "turn-right", MIRROR: "mirror"}
# Lists with turns and flips at their end.
LISTS = (
    "turn right", "turn half", "turn left", "flip rows", "flip columns", "flip rows\nturn right",
    "fill 10,8,20,12 0\nturn right", "means 1,2,57,37 7,5\nturn half", "move 0,0,30,20 5,4\nturn left",
    "crop 7,9,30,20\nturn left", "pad 1,2,3,4 16\nflip rows", "fill 1,1,9,9 1,2,3\ncrop 59,0,1,40\nturn right\nflip rows",
)
# What only the page takes: a turn or a flip after another size.
PAGE_ALONE = ("crop", "pad")
# What a person presses, and the list then.
PRESSES = (
    ((RIGHT,), "turn right\n"), ((RIGHT,) * 2, "turn half\n"), ((RIGHT,) * 3, "turn left\n"), ((RIGHT,) * 4, ""),
    ((LEFT,), "turn left\n"), ((LEFT, RIGHT), ""), ((MIRROR,), "flip columns\n"), ((MIRROR, MIRROR), ""),
    ((MIRROR, RIGHT), "flip columns\nturn right\n"), ((RIGHT, MIRROR), "flip rows\nturn right\n"),
    ((RIGHT, RIGHT, MIRROR), "flip rows\n"),
)
BAD = {
    "turn": "is not of the form turn right, turn half or turn left", "turn up": "is not of the form turn",
    "turn right left": "is not of the form turn", "flip": "is not of the form flip rows or flip columns",
    "flip right": "is not of the form flip", "turn right\nfill 0,0,1,1 1": "Line 2: on this page turns and flips must come last.",
    "flip rows\ncrop 0,0,9,9": "Line 2: on this page turns and flips must come last.",
    "crop 0,0,9,9\nflip rows\ncrop 0,0,9,9": "Line 3: on this page turns",
}
# Keys on a rectangle of 20 by 12 at 10, 8, on a picture that is turned right, and the rectangle then.
KEYS = (
    (("Right",), "10,7,20,12"), (("Down",), "11,7,20,12"), (("Left",), "11,8,20,12"), (("Up",), "10,8,20,12"),
    (("Shift", "Down"), "10,8,21,12"), (("Shift", "Right"), "10,7,21,13"), (("Shift", "Left"), "10,8,21,12"),
)


def places(page, line, *places):
    """Places of the picture as places of the window, where the picture is shown so."""
    box, scale = page.browser.run(
        "const box = document.getElementById('canvas').getBoundingClientRect();"
        "return [[box.left, box.top], parseFloat(document.getElementById('canvas').style.width) / arguments[0]]", WIDTH
    )
    shown = {
        "turn right": lambda x, y: (HEIGHT - y, x), "turn left": lambda x, y: (y, WIDTH - x),
        "turn half": lambda x, y: (WIDTH - x, HEIGHT - y), "flip columns": lambda x, y: (WIDTH - x, y),
        "flip rows": lambda x, y: (x, HEIGHT - y),
    }[line]
    return [tuple(begin + scale * it for begin, it in zip(box, shown(*place))) for place in places]


def press(page, line):
    page.browser.run("document.getElementById(arguments[0]).click()", BUTTONS[line])


def check_turns(page, program):
    """What is saved, by lists and by buttons, and what imgref_frames makes of the same list. Each press is undone."""
    for text in LISTS:
        page.open()
        said = page.apply(text)
        label = text.replace("\n", "; ")
        page.count(f"{label}: carried out", page.list() == f"{text}\n" and said == "Done.", said)
        saved = png.ppm_of(page.save())
        page.count(f"{label}: by the model", saved == by_model(text.split()))
        if program and not any(it in text for it in PAGE_ALONE):
            ran = subprocess.run([program, *text.split()], input=png.ppm(WIDTH, HEIGHT, PIXELS), capture_output=True)
            page.count(f"{label}: by imgref_frames", ran.returncode == 0 and saved == ran.stdout, ran.stderr)
    for lines, text in PRESSES:
        page.open()
        page.apply("fill 10,8,20,12 0")
        lists = []
        for it in lines:
            lists.append(page.list())
            press(page, it)
        label = ", ".join(lines)
        page.count(f"{label} pressed", page.list() == f"fill 10,8,20,12 0\n{text}")
        page.count(f"{label} saved", png.ppm_of(page.save()) == by_model(["fill", "10,8,20,12", "0", *" ".join(lines).split()]))
        for it in reversed(lists):
            page.browser.run("document.getElementById('undo').click()")
            page.count(f"{label} undone", page.list() == it)


def check_bad(page):
    page.open()
    page.apply("fill 10,8,20,12 0\nturn left")
    for text, why in BAD.items():
        said = page.apply(text)
        page.count(f"{text!r} is refused", why in said and page.browser.run(IS_PROBLEM), said)
    page.count("the last list stays", png.ppm_of(page.save()) == by_model("fill 10,8,20,12 0 turn left".split()))


def check_hands(page):
    """Pointers and keys go by what is on the screen."""
    page.choose("fill")
    for line in ("turn right", "turn left", "turn half", "flip columns", "flip rows"):
        page.open()
        page.apply(line)
        page.choose("fill")
        page.browser.drag(*places(page, line, (10.4, 8.4), (20, 15), (29.6, 19.6)))
        page.count(f"{line}: the mouse draws a fill", page.list() == f"fill 10,8,20,12 0\n{line}\n")
        page.choose("select")
        page.browser.drag(*places(page, line, (15, 12), (16, 12), (18, 17)))
        page.count(f"{line}: the mouse moves it", page.list() == f"fill 13,13,20,12 0\n{line}\n")
        page.browser.drag(*places(page, line, (33, 25), (36, 28), (40.1, 29.9)))
        page.count(f"{line}: the mouse resizes it", page.list() == f"fill 13,13,27,17 0\n{line}\n")
        page.count(f"{line}: it is saved", png.ppm_of(page.save()) == by_model(f"fill 13,13,27,17 0 {line}".split()))
    page.open()
    page.apply("fill 10,8,20,12 0\nturn right")
    page.browser.run("document.querySelector('#overlay g').focus()")
    for keys, text in KEYS:
        page.browser.press(*keys)
        page.count(f"turned right: {'+'.join(keys)} gives {text}", page.list() == f"fill {text} 0\nturn right\n")
    page.choose("crop")
    page.browser.drag(*places(page, "turn right", (5.4, 5.4), (20, 15), (49.6, 29.6)))
    page.count("a crop comes before a turn", page.list() == "fill 10,8,21,12 0\ncrop 5,5,45,25\nturn right\n")
    page.choose("fill")


def check_turned_hides(page):
    """Pictures that differ only in what is covered give the same turned file."""
    for line in ("turn right", "flip columns"):
        saved = []
        for pixels in (PIXELS, exchanged(PIXELS, (10, 8, 20, 12)), exchanged(PIXELS, (30, 8, 1, 1))):
            page.open(pixels)
            page.apply(f"fill 10,8,20,12 0\n{line}")
            saved.append(page.save())
        page.count(f"{line}: hidden pixels exchanged give the same file", saved[0] == saved[1])
        page.count(f"{line}: shown pixels exchanged don't", saved[0] != saved[2])


def check(page, program):
    check_turns(page, program)
    check_bad(page)
    check_hands(page)
    check_turned_hides(page)
