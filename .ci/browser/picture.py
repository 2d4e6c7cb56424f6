"""The page in a browser: what it saves, by a model and by imgref_frames, and pointers."""
import subprocess

from browser import png
from browser.driver import until
from browser.models import HEIGHT, PIXELS, WIDTH, by_model

# Lists of edits, each for one picture: the model, imgref_frames and the page have to agree.
LISTS = (
    "fill 10,8,20,12 0", "fill 10,8,20,12 200,30,7", "fill 0,0,60,40 255", "fill 59,39,1,1 9",
    "mosaic 4,4,30,20 8,8", "mosaic 1,2,57,37 7,5",
    "mosaic 0,0,60,40 1000,1000", "mosaic 3,3,9,9 2,1", "mosaic 0,0,60,40 18446744073709551615,3",
    "means 4,4,30,20 8,8", "means 1,2,57,37 7,5", "means 0,0,60,40 1000,1000", "means 3,3,9,9 2,1",
    "means 0,0,60,40 18446744073709551615,3", "fill 10,8,20,12 0\nmeans 0,0,60,40 9,7\ncrop 2,2,50,30",
    "move 0,0,20,20 30,15", "move 0,0,30,20 5,4", "move 5,4,30,20 0,0", "move 0,0,60,40 0,0",
    "crop 7,9,30,20", "crop 0,0,60,40", "crop 59,0,1,40", "pad 1,2,3,4 16", "pad 0,0,0,0 9",
    "pad 0,5,0,0 255", "fill 10,8,20,12 0\nmosaic 20,10,30,20 8,8",
    "mosaic 20,10,30,20 8,8\nfill 10,8,20,12 0",
    "mosaic 0,0,40,40 4,4\nmosaic 3,3,40,30 9,9\ncrop 2,2,50,30",
    "fill 1,1,9,9 1,2,3\nmove 0,0,20,20 30,15\nfill 30,0,20,20 77\npad 2,2,2,2 128",
    "fill 0,0,9,9 5\nfill 3,3,9,9 6\nfill 6,6,9,9 7\nmove 0,0,15,15 3,3",
)
# Lines as in a list of the program, and the lines that they become.
LINES = {
    "cover 10,8,20,12": "fill 8,6,24,16 16", "cover 10,8,20,12 0": "fill 8,6,24,16 0",
    "cover 10,8,20,12+0 7": "fill 10,8,20,12 7", "cover 50,30,20,20+5": "fill 45,25,15,15 16",
    "cover 61,1,18446744073709551615,0 9": "fill 59,0,1,3 9",
    "# the number plate\n\n\tfill 1,1,9,9  3  # black\n \t\n": "fill 1,1,9,9 3",
}
# Lines that are no edits, and edits that can't be carried out, with what the page says.
BAD = {
    "fill 10,8,20,12": "Line 1: 'fill 10,8,20,12' is not of the form fill L,T,W,H V",
    "fill 10,8,20,12 256": "is not of the form fill",
    "fill 10,8,20,12 1,2": "is not of the form fill", "fill 10,8,20 1": "is not of the form fill",
    "fill 010,8,20,12 1": "is not of the form fill", "fill -1,8,20,12 1": "is not of the form fill",
    "cover 1,1,9,9+ 1": "is not of the form cover", "cover 1,1,9,9+1+1": "is not of the form cover",
    "cover 1,1,9,9 1,2,3": "is not of the form cover", "cover 1,1,9 1": "is not of the form cover",
    "cover 1,1,9,9 256": "is not of the form cover", "cover 1,1,9,9 1 1": "is not of the form cover",
    "cover 62,0,9,9": "Line 1: the cover has no pixel in the picture.",
    "means 0,0,9,9 3": "is not of the form means", "means 0,0,9,9 1,1": "tiles of 1 by 1 hides nothing",
    "means 0,0,9,9 0,3": "A tile needs", "means 50,8,20,12 3,3": "reaches outside",
    "fill 18446744073709551616,0,1,1 1": "is not of the form fill",
    "mosaic 0,0,9,9 3": "is not of the form mosaic",
    "FILL 0,0,1,1 1": "an edit begins with cover, fill, means, mosaic, move, crop, pad, turn, flip, and not with 'FILL'",
    "toString 0,0,1,1 1": "an edit begins with",
    "0..5 fill 0,0,1,1 1": "a picture has one frame, so leave out the range 0..5.",
    "fill 0,0,1,1 1 fill 0,0,1,1 1": "is not of the form fill",
    "crop 0,0,9,9\nfill 0,0,1,1 1": "Line 2: at most one crop or pad is allowed, and it must",
    "crop 0,0,9,9\npad 0,0,1,1 1": "Line 2: at most one",
    "fill 50,8,20,12 1": "Line 1: The rectangle reaches outside the picture.",
    "fill 0,30,20,12 1": "Line 1: The rectangle reaches outside the picture.",
    "fill 18446744073709551615,0,2,2 1": "Line 1: The rectangle reaches outside the picture.",
    "fill 9007199254740993,0,1,1 1": "reaches outside",
    "fill 5,5,0,9 1": "Line 1: The width is 0: nothing would be covered.",
    "fill 60,40,9,0 1": "Line 1: The height is 0: nothing would be covered.",
    "mosaic 5,5,0,0 4,4": "The width is 0",
    "fill 0,0,1,1 1\nmosaic 3,3,9,9 1,1": "Line 2: A mosaic with tiles of 1 by 1 hides nothing.",
    "fill 0,0,1,1 1\n\nmosaic 0,0,9,9 0,3": "Line 3: A tile needs at least one column and one row.",
    "mosaic 0,0,9,9 3,0": "A tile needs", "move 0,0,20,20 50,0": "reaches outside",
    "crop 0,0,0,5": "The width is 0: nothing would be left.", "crop 0,0,61,5": "reaches outside",
    "pad 0,0,4294967295,0 1": "reaches outside",
}
IS_PROBLEM = "return document.getElementById('status').classList.contains('problem')"
# Whether the page has started, or has said why not.
STARTED = "return document.documentElement?.dataset.ready"


class Page:
    """The page in a browser, with pictures to open."""

    def __init__(self, browser, url, cases):
        self.browser, self.url, self.cases, self.started = browser, url, cases, set()

    def start(self, path="index.html"):
        self.started.add(path)
        self.browser.open(f"{self.url}{path}")
        self.browser.enter()
        until(lambda: self.browser.run(STARTED))

    def give(self, name, data):
        """Gives the page a file, and waits for what it says of it."""
        path = self.browser.folder / name
        path.write_bytes(data)
        self.browser.type("#file", str(path))
        self.go_on()
        return until(lambda: self.status() if not self.status().startswith("Opening") else "")

    def go_on(self):
        """Where the page asks, what isn't saved or applied is left out."""
        if self.browser.run("return document.getElementById('ask').open"):
            self.browser.run("document.getElementById('discard').click()")

    def fresh(self, name, data):
        """The same, where an earlier word of the page doesn't count."""
        self.browser.run("document.getElementById('status').textContent = 'Opening'")
        return self.give(name, data)

    def open(self, pixels=PIXELS, width=WIDTH, height=HEIGHT, name="page.png"):
        return self.fresh(name, png.png(width, height, pixels))

    def actual(self, is_actual):
        """Shows the picture at its actual size, or as it fits."""
        self.browser.run("document.getElementById(arguments[0]).click()", "actual" if is_actual else "fit")
        self.browser.run("document.getElementById('stage').scrollTo(0, 0)")

    def scale(self):
        """How many pixels of the screen a pixel of the picture has."""
        return self.browser.run("const it = document.getElementById('canvas'); return it.getBoundingClientRect().width / it.width")

    def status(self):
        return self.browser.text("#status")

    def apply(self, text):
        """Gives the page a list of edits as text."""
        self.browser.run(
            "document.querySelector('details:has(#text)').open = true;"
            "document.getElementById('text').value = arguments[0];"
            "document.getElementById('apply').click()",
            text
        )
        return self.status()

    def list(self):
        return self.browser.run("return document.getElementById('text').value")

    def preview(self):
        """Shows the file that would be saved."""
        self.browser.run("document.getElementById('save').click()")
        self.go_on()
        until(lambda: self.browser.run("return !document.getElementById('hand').disabled"), "for the preview")

    def save(self, name="covered.png"):
        """Shows the file, and saves it from there."""
        self.preview()
        data = self.browser.saved(name, "#hand")
        until(lambda: self.status().startswith(f"{name} was handed to your browser."))
        return data

    def shown(self):
        """The pixels on the screen, as a number that tells them apart."""
        return self.browser.script("shown")

    def on_screen(self, *places):
        """Places of the picture as places of the window."""
        box = self.browser.run(
            "const it = document.getElementById('canvas');"
            "const box = it.getBoundingClientRect();"
            "return [box.left, box.top, box.width / it.width, box.height / it.height]"
        )
        return [(box[0] + x * box[2], box[1] + y * box[3]) for x, y in places]

    def drag(self, *places, **how):
        self.browser.drag(*self.on_screen(*places), **how)

    def is_off(self, name):
        """Whether a button can't be pressed."""
        return self.browser.run("return document.getElementById(arguments[0]).disabled", name)

    def choose(self, tool):
        self.browser.click(f"[name=tool][value={tool}]")

    def count(self, label, is_well, said=""):
        self.cases.count(label, is_well, f"{said}\n{self.status()}\n{self.list()}")


def check_lists(page, program):
    """Each list of edits gives the picture of the model, and that of the program."""
    for text in LISTS:
        page.open()
        said, words = page.apply(text), text.split()
        saved = png.ppm_of(page.save())
        label = text.replace("\n", "; ")
        page.count(f"{label}: carried out", said == "Done." and page.list() == f"{text}\n", said)
        page.count(f"{label}: by the model", saved == by_model(words))
        if program:
            ran = subprocess.run(
                [program, *words], input=png.ppm(WIDTH, HEIGHT, PIXELS), capture_output=True
            )
            page.count(
                f"{label}: by imgref_frames", ran.returncode == 0 and saved == ran.stdout,
                ran.stderr
            )


def check_lines(page, program):
    """A cover becomes the fill that it is, and comments and gaps are ignored: the program makes the same picture."""
    for text, line in LINES.items():
        page.open()
        page.apply(text)
        page.count(f"{text!r} becomes '{line}'", page.list() == f"{line}\n")
        if program:
            path = page.browser.folder / "edits.txt"
            path.write_text(text)
            ran = subprocess.run([program, "--edits", path], input=png.ppm(WIDTH, HEIGHT, PIXELS), capture_output=True)
            page.count(f"{text!r}: by imgref_frames", ran.returncode == 0 and png.ppm_of(page.save()) == ran.stdout, ran.stderr)


def check_bad_lists(page):
    """What isn't an edit changes nothing, and the page says why."""
    page.open()
    page.apply("mosaic 4,4,30,20 8,8\nmove 0,0,9,9 3,3")
    before = page.list(), page.shown()
    for text, why in BAD.items():
        said = page.apply(text)
        well = why in said and page.browser.run(IS_PROBLEM)
        same = page.shown() == before[1]
        page.browser.run("document.getElementById('undo').focus()")
        page.count(f"{text!r} is refused, and nothing has changed", well and same, f"{same} {said}")
    page.count(
        "the list is as before",
        page.browser.run(
            "const lines = [...document.querySelectorAll('#edits small')];"
            "return lines.map((it) => it.textContent + '\\n').join('')"
        ) == before[0]
    )


def check_pointer(page):
    """Rectangles drawn, moved, resized and chosen by mouse and by touch."""
    page.open()
    page.drag((10.5, 8.5), (20, 15), (29.5, 19.5))
    page.count("the mouse draws a fill", page.list() == "fill 10,8,20,12 0\n")
    page.count("it is saved", png.ppm_of(page.save()) == by_model("fill 10,8,20,12 0".split()))
    page.count("nothing is selected then", page.is_off("selected"))
    page.choose("select")
    page.drag((15, 12), (16, 12), (18, 17))
    page.count("with the tool Select the mouse moves it", page.list() == "fill 13,13,20,12 0\n")
    page.count(
        "what it covered before is there again",
        png.ppm_of(page.save()) == by_model("fill 13,13,20,12 0".split())
    )
    page.drag((33, 25), (36, 28), (40.1, 29.9))
    page.count("the mouse resizes it at a corner", page.list() == "fill 13,13,27,17 0\n")
    page.drag((13, 13), (40, 30), (45, 35))
    page.count("a corner goes past the opposite one", page.list() == "fill 40,30,5,5 0\n")
    page.drag((42, 32), (20, 20), (0.1, 0.1))
    page.count("a rectangle stays inside the picture", page.list() == "fill 0,0,5,5 0\n")
    page.choose("mosaic")
    page.browser.change("tile-width", "2")
    page.browser.change("tile-height", "16")
    page.browser.click("#edits button")
    page.browser.click("#changes [data-word=mosaic]")
    page.count("a rectangle becomes a mosaic", page.list() == "means 0,0,5,5 2,16\n")
    page.drag((30, 30), (30.01, 30.01))
    page.count("a click draws nothing", page.list() == "means 0,0,5,5 2,16\n" and page.is_off("selected"))
    page.drag((3, 3), (3.01, 3.01))
    page.count("a click on a cover selects it", page.list() == "means 0,0,5,5 2,16\n" and not page.is_off("selected"))
    page.drag((49.5, 29.5), (30, 20), (20.5, 10.5), kind="touch")
    page.count(
        "a finger draws a mosaic, from right to left",
        page.list() == "means 0,0,5,5 2,16\nmeans 20,10,30,20 2,16\n"
    )
    page.browser.click("#edits li:nth-child(2) button")
    page.browser.click("#changes [data-word=crop]")
    page.count(
        "a rectangle becomes a crop", page.list() == "means 0,0,5,5 2,16\ncrop 20,10,30,20\n"
    )
    page.choose("select")
    page.drag((35, 10), (35, 12), (35, 14.1))
    page.count(
        "a crop is moved by its edge", page.list() == "means 0,0,5,5 2,16\ncrop 20,14,30,20\n"
    )
    page.browser.press("Escape")
    page.count(
        "Escape deselects it",
        page.browser.run("return document.getElementById('selected').disabled")
    )
    words = "means 0,0,5,5 2,16\nfill 22,12,6,6 0\ncrop 20,10,30,20\n"
    page.open()
    page.apply("means 0,0,5,5 2,16\ncrop 20,10,30,20")
    page.choose("fill")
    page.drag((22.2, 12.2), (27.7, 17.7))
    page.count("a fill inside a crop comes before it", page.list() == words)
    page.count("they are saved", png.ppm_of(page.save()) == by_model(words.split()))
    page.browser.click("#edits li:nth-child(2) button")
    fields = page.browser.run(
        "const names = ['left', 'top', 'width', 'height'];"
        "return names.map((it) => document.getElementById(it).value).join()"
    )
    page.count("an edit of the list is selected", fields == "22,12,6,6")
    page.browser.change("width", "9")
    page.count("its field changes it", "fill 22,12,9,6 0\n" in page.list())
    page.browser.change("left", "59")
    page.count(
        "a field that leads outside is refused",
        "outside" in page.status() and "fill 22,12,9,6 0\n" in page.list()
    )
    page.count("its line is told as it is now", page.status().startswith("Line 2: "))
    page.browser.click("#remove")
    page.count("it is removed", page.list() == "means 0,0,5,5 2,16\ncrop 20,10,30,20\n")
    for it in ("tile-width", "tile-height"):
        page.browser.change(it, "")
