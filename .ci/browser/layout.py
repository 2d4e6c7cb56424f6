"""The page of layouts in a browser: the output of worked scripts, and what is drawn of images."""
import json
import random

import model
from checking import ROOT

RUN = """const script = document.getElementById('script'); script.value = arguments[0];
script.dispatchEvent(new Event('input')); return document.getElementById('output').textContent"""
STEPS = """image 3 2 4 1 2 3 4 5 6 7 8 9
get 0 1,0,2,2/1,0,1,2 0 1
fill 0 1,1,2,1 0
get 0 9,9,9,9 0 0
compact 0
"""
# The numbers of a window, a place or a tile.
NUMBERS = [0, 0, 0, 1, 1, 1, 2, 2, 2, 3, 3, 4, 8, 2**64 - 1]


def by_chance(chance):
    """A small script by chance."""
    lines = []
    for _ in range(chance.randrange(1, 4)):
        width, height = chance.randrange(4), chance.randrange(4)
        stride = max(width, 1) + chance.randrange(3)
        count = (stride * (height - 1) + width if width and height else 0) + chance.randrange(3)
        cells = [chance.randrange(4) for _ in range(count)]
        lines.append(["image", width, height, stride, *cells])
    lines += [command_by_chance(chance) for _ in range(6)]
    return "".join(" ".join(map(str, it)) + "\n" for it in lines)


def command_by_chance(chance):
    """The fields of a command by chance."""
    number = lambda: chance.choice(NUMBERS)
    window = lambda: ",".join(str(number()) for _ in range(4))
    path = lambda: "/".join(window() for _ in range(chance.randrange(1, 3)))
    spot = lambda: [chance.choice([0, 0, 1, 2]), path() if chance.random() < 0.6 else "-"]
    more = {
        "get": [number(), number()],
        "put": [number(), number(), chance.randrange(256)],
        "fill": [chance.randrange(4)],
        "count": [chance.randrange(4)],
        "same": spot(),
        "blit": spot(),
        "mosaic": [number(), number()],
    }
    word = chance.choice([*more, "compact"])
    return [word, *spot(), *more[word]] if word in more else [word, spot()[0]]


def is_text(data):
    """Whether a text field of a browser can hold these bytes as they are."""
    return data.isascii() and b"\r" not in data and b"\0" not in data


def check_output(page):
    """The worked scripts, those that every word is in, bad lines, and scripts by chance."""
    page.start("layout.html")
    scripts = [
        *sorted((ROOT / "cases").glob("*.script")), *sorted((ROOT / "examples").glob("*.script"))
    ]
    texts = {it.name: it.read_bytes() for it in scripts}
    for name, data in texts.items():
        if is_text(data) and len(data) < 100000:
            expected = model.answer(data)[0].decode()
            page.cases.count(
                f"layout: {name}", page.browser.run(RUN, data.decode()) == expected, expected
            )
    listed = json.loads((ROOT / "cases/bad_lines.json").read_text())
    lines = [f"{it}\n".encode() for it in listed["alone"]] + [
        f"image 1 1 1 5\n{it}\n".encode() for it in listed["after image 1 1 1 5"]
    ]
    is_wrong = lambda it: page.browser.run(RUN, it.decode()) != model.answer(it)[0].decode()
    wrong = [it for it in lines if is_text(it) and is_wrong(it)]
    page.cases.count(f"layout: {len(lines)} bad lines", lines and not wrong, wrong)
    chance = random.Random("layout")
    scripts = [by_chance(chance).encode() for _ in range(300)]
    wrong = [it for it in scripts if is_wrong(it)]
    page.cases.count(f"layout: {len(scripts)} scripts by chance", not wrong, wrong[:3])


def check_steps(page):
    """Each step shows its reply, its windows, and the cells then."""
    count = lambda label, seen, wanted: page.cases.count(
        f"layout: {label}", seen == wanted, f"{seen}\n{wanted}"
    )
    page.browser.run(RUN, STEPS)
    step = lambda: page.browser.run("return document.getElementById('step').textContent")
    title = "Image 0: 3 by 2 pixels, stride 4, 9 cells"
    count(
        "before the first step", (step(), page.browser.script("drawn")),
        ("Before the first of 4 steps", [[title, 6, 3, 0, 0, 0, 0]])
    )
    page.browser.click("#next")
    count(
        "a get shows both windows and its place", (step(), page.browser.script("drawn")),
        ("Step 1 of 4: pixel 7", [[title, 6, 3, 2, 1, 0, 1]])
    )
    lines = page.browser.script("lines")
    count(
        "its reply is beside its line", lines[1], ["get 0 1,0,2,2/1,0,1,2 0 1", "pixel 7", "step"]
    )
    count("later lines have no reply yet", [it[1] for it in lines], ["", "pixel 7", "", "", ""])
    page.browser.click("#next")
    label = page.browser.run(
        "return document.querySelector('#images svg').getAttribute('aria-label')"
    )
    count(
        "a fill shows its window, and what it wrote", (label, page.browser.script("drawn")),
        (f"{title}: 1 2 3 4 5 0 0 8 9", [[title, 6, 3, 1, 1, 0, 0]])
    )
    page.browser.click("#next")
    count(
        "a refused command says why", step(),
        "Step 3 of 4: refused 2: a window of the path isn't inside the size before it"
    )
    page.browser.click("#last")
    count(
        "a compaction removes the padding", page.browser.script("drawn"),
        [["Image 0: 3 by 2 pixels, stride 3, 6 cells", 6, 0, 0, 0, 0, 0]]
    )
    page.browser.click("#back")
    count("a step back brings it again", page.browser.script("drawn")[0][0], title)
    page.browser.click("#first")
    count("to the start", step(), "Before the first of 4 steps")
    page.browser.run(RUN, "image 2 1 2 1 2\nimage 1 1 1 7\nblit 0 0,0,1,1 1 0,0,1,1\n")
    page.browser.click("#last")
    count(
        "a copy outlines both windows", [it[3:6] for it in page.browser.script("drawn")],
        [[1, 1, 0], [1, 1, 1]]
    )
    page.browser.run(RUN, "image 1 1 1 5\nfill 0 - 256\n")
    count("a bad line is reported", step(), "fault line 2: '256' is no number from 0 to 255")
    page.browser.run(RUN, f"image 100 20 100{' 7' * 2000}\nfill 0 - 1\n")
    count(
        "a large image is not drawn", page.browser.text("#images p"), "It is too large to be drawn."
    )
    page.browser.run(RUN, "image 4294967295 0 18446744073709551615\ncount 0 - 1\n")
    count(
        "the greatest numbers", page.browser.text("#output"),
        "count 0\nimage 4294967295 0 18446744073709551615\n"
    )
    page.browser.change("example", "An overlapping copy")
    count(
        "an example",
        page.browser.run("return document.getElementById('script').value.split('\\n')[1]"),
        "blit 0 0,0,2,2 0 1,1,2,2"
    )
    page.start()
