"""What a person made isn't lost: while a large picture is opened, in a queue of files, and as text that isn't applied."""
from browser import png
from browser.driver import until
from browser.models import HEIGHT, PIXELS, WIDTH, by_model
from browser.seen import GO_ON, HELD, is_open

ASKED = "return document.getElementById('ask').open ? document.getElementById('question').textContent : ''"
NEXT = "const it = document.getElementById('next-picture'); return it.hidden ? null : it.textContent"
LINES = "return document.querySelectorAll('#edits li').length"
TYPE = """const it = document.getElementById('text'); it.closest('details').open = true; it.value = arguments[0];
it.dispatchEvent(new Event('input', { bubbles: true }))"""


def press(page, name):
    page.browser.run("document.getElementById(arguments[0]).click()", name)


def files(page, **given):
    """Gives the page several files."""
    paths = []
    for name, data in given.items():
        paths.append(page.browser.folder / f"{name}.png")
        paths[-1].write_bytes(data)
    page.browser.type("#file", "\n".join(map(str, paths)))


def check_late(page):
    """Edits that are made while a picture is being opened are kept, or a question is asked."""
    whole = png.png(WIDTH, HEIGHT, PIXELS)
    page.open()
    page.browser.run(HELD)
    files(page, large=whole)
    until(lambda: page.browser.run("return Boolean(window.goOn)"), "for the file")
    page.choose("fill")
    page.drag((10.5, 8.5), (20, 15), (29.5, 19.5))
    page.browser.run(GO_ON)
    said = until(lambda: page.browser.run(ASKED) or page.list() == "", "for a question")
    page.count("edits that came while a picture was opened: a question is asked", said == "1 edit of page.png isn't saved. Open large.png all the same?", said)
    press(page, "keep")
    said = until(lambda: page.status() if "large.png" in page.status() else "")
    page.count("they are kept, and the picture comes next", page.list() == "fill 10,8,20,12 0\n" and page.browser.run(NEXT) == "Next picture (1 left)", said)
    page.start()
    page.open()
    page.apply("fill 1,1,9,9 3")
    page.browser.run(HELD)
    files(page, large=whole)
    until(lambda: page.browser.run(ASKED))
    press(page, "discard")
    until(lambda: page.browser.run("return Boolean(window.goOn)"), "for the file")
    files(page, third=whole)
    until(lambda: page.browser.run(ASKED))
    press(page, "keep")
    page.browser.run(GO_ON)
    said = until(lambda: page.browser.run(ASKED) or page.list() == "", "for a question")
    press(page, "keep")
    page.count("edits that are kept after an earlier word: a question is asked", "Open large.png all the same?" in str(said) and page.list() == "fill 1,1,9,9 3\n", said)
    page.start()


def check_queue(page):
    """A file of several that can't be read leaves the others where they are."""
    whole = png.png(WIDTH, HEIGHT, PIXELS)
    page.open()
    files(page, bad=b"no picture", one=whole, two=whole)
    said = until(lambda: page.status() if "bad.png" in page.status() and "Opening" not in page.status() else "")
    page.count("the first of three can't be read: two are left", "can't read" in said and page.browser.run(NEXT) == "Next picture (2 left)", page.browser.run(NEXT))
    files(page, three=whole, worse=b"no picture")
    until(lambda: page.status().startswith("three.png:"))
    for name, left in (("worse", "Next picture (2 left)"), ("one", "Next picture (1 left)"), ("two", None)):
        page.browser.click("#next-picture")
        until(lambda: f"{name}.png" in page.status() and "Opening" not in page.status(), f"for {name}")
        page.count(f"several pictures, after {name}", page.browser.run(NEXT) == left, page.browser.run(NEXT))


def check_text(page):
    """Text that isn't applied stays where something is drawn. Saving and opening ask."""
    page.open()
    page.choose("fill")
    page.apply("fill 1,1,9,9 3")
    typed = "fill 1,1,9,9 3\nfill 40,1,9,9 4"
    page.browser.run(TYPE, typed)
    page.drag((10.5, 18.5), (20, 25), (29.5, 29.5))
    page.count("typed text stays when something is drawn", page.list() == typed and page.browser.run(LINES) == 2)
    shown = page.browser.run("return document.getElementById('unapplied').checkVisibility()")
    page.count("and is said not to be applied", shown)
    press(page, "save")
    said = until(lambda: page.browser.run(ASKED) or is_open(page), "for a question")
    page.count("Save asks", said == "The text of the edits has changes that aren't applied. Apply them first?", said)
    page.browser.press("Escape")
    page.count("Escape does nothing else", page.list() == typed and not is_open(page))
    press(page, "save")
    until(lambda: page.browser.run(ASKED))
    press(page, "keep")
    until(lambda: not page.is_off("hand"), "for the preview")
    saved = png.ppm_of(page.browser.saved("covered.png", "#hand"))
    wanted = "fill 1,1,9,9 3\nfill 40,1,9,9 4\nfill 10,18,20,12 0\n"
    page.count("applied then, with what was drawn", page.list() == wanted and saved == by_model(wanted.split()))
    page.browser.run(TYPE, "fill 1,1,9")
    press(page, "save")
    until(lambda: page.browser.run(ASKED))
    press(page, "keep")
    until(lambda: page.status().startswith("Line 1:"))
    page.count("a line that is no edit shows no file", page.list() == "fill 1,1,9" and not is_open(page))
    files(page, other=png.png(WIDTH, HEIGHT, PIXELS))
    said = until(lambda: page.browser.run(ASKED), "for a question")
    page.count("opening asks too", said == "The text has changes that aren't applied. Open other.png all the same?", said)
    press(page, "keep")
    press(page, "save")
    until(lambda: page.browser.run(ASKED))
    press(page, "discard")
    until(lambda: not page.is_off("hand"), "for the preview")
    saved = png.ppm_of(page.browser.saved("covered.png", "#hand"))
    page.count("without the text the list is saved, and the text stays", saved == by_model(wanted.split()) and page.list() == "fill 1,1,9")
    page.open()


def check_stroke(page):
    """A stroke stays one edit in a text without its last line break, and after another first line."""
    page.open()
    page.choose("brush")
    page.drag((10.5, 10.5), (20.5, 12.5), (30.5, 25.5), (12.5, 30.5))
    lines = page.list()
    page.apply(lines.rstrip("\n"))
    page.count("a stroke without its last line break stays one cover", page.browser.run(LINES) == 1 and page.list() == lines and page.browser.text("#covers").startswith("1 cover."))
    page.apply(f"fill 50,1,5,5 9\n{lines}fill 50,30,5,5 9")
    page.count("also after another line", page.browser.run(LINES) == 3 and page.list() == f"fill 50,1,5,5 9\n{lines}fill 50,30,5,5 9\n")
    page.choose("fill")


def check(page):
    for it in (check_late, check_queue, check_text, check_stroke):
        it(page)
