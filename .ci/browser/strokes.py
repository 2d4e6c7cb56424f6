"""Strokes by mouse, by touch and by keys, beside a model of one rule: a pixel that a stroke covered is covered in the saved file,
unless an action that the page names for it came after it. Such actions are undo, delete, move, resize and another text."""
import math
import random

from browser import png
from browser.driver import DOWN, HOLD, UP, move_to

WIDTH, HEIGHT = 320, 240
TOOLS = ("fill", "mosaic", "brush")
KINDS = ("mouse", "touch")
# The lines of a form: left, right, and the top of each. A line is so high, and the next begins just below it.
LEFT, RIGHT, TOPS, HIGH = 60, 230, (60, 78, 96, 114), 14
# On how many pictures strokes are drawn by chance, and how many of them on each. The seed is a fixed one.
PICTURES, ON_ONE, SEED = range(20), 16, "strokes"
# How wide the brush is, in pixels of the picture.
BRUSH = 14
# By how many pixels of the screen a browser may round the place of a pointer.
ROUNDED = 1.5
# A picture is shown so much larger or smaller, by a key.
ZOOMS = ("0", "1", "-")
# Keys that do nothing where nothing is selected.
IDLE = ("Delete", "Backspace", "Left", "Down", "Escape")
ARROWS = {"Left": (-10, 0), "Right": (10, 0), "Up": (0, -10), "Down": (0, 10)}


def picture_of(seed):
    """Pixels by chance, none of which is nearly black or grey: no cover looks like them."""
    chance = random.Random(f"{SEED} {seed}")
    values = [*range(30, 70), *range(190, 230)]
    return bytes(chance.choices(values, k=3 * WIDTH * HEIGHT))


def rectangle(one, other, grow):
    """The pixels whose middle is between two places, in a rectangle that is larger on each side by so much."""
    sides = [(min(it) - grow, max(it) + grow) for it in zip(one, other)]
    columns, rows = [range(max(0, math.ceil(low - 0.5)), min(most, math.floor(high - 0.5) + 1)) for (low, high), most in zip(sides, (WIDTH, HEIGHT))]
    return {y * WIDTH + x for y in rows for x in columns}


def near(path, reach):
    """The pixels whose middle is at most so far from a path."""
    found = set()
    for (x, y), (u, v) in zip(path, [*path[1:], path[-1]]):
        long = (u - x) ** 2 + (v - y) ** 2
        for at in rectangle((x, y), (u, v), reach):
            px, py = at % WIDTH + 0.5, at // WIDTH + 0.5
            part = max(0, min(1, ((px - x) * (u - x) + (py - y) * (v - y)) / long)) if long else 0
            if (px - x - part * (u - x)) ** 2 + (py - y - part * (v - y)) ** 2 <= reach * reach:
                found.add(at)
    return found


class Cover:
    """What a stroke covers: pixels that it covers for sure, pixels that it may cover, and its corners."""

    def __init__(self, tool, path, slack):
        self.tool, self.begin, self.end = tool, path[0], path[-1]
        if tool == "brush":
            self.sure, self.may = near(path, BRUSH / 2 - slack), near(path, BRUSH / 2 + slack + 2)
        else:
            self.sure, self.may = (rectangle(path[0], path[-1], it) for it in (-slack, slack + 2))

    def moved(self, right, down):
        made = object.__new__(Cover)
        made.tool = self.tool
        made.begin, made.end = ((x + right, y + down) for x, y in (self.begin, self.end))
        made.sure, made.may = ({it + down * WIDTH + right for it in them} for them in (self.sure, self.may))
        return made

    def corners(self):
        (x, y), (u, v) = self.begin, self.end
        return (x, y), (u, y), (x, v), (u, v)

    def has_room(self):
        """Whether it can be moved by ten pixels in each direction."""
        return self.tool != "brush" and all(12 <= it <= most - 12 for place in (self.begin, self.end) for it, most in zip(place, (WIDTH, HEIGHT)))


class Model:
    """The covers of a picture by the rule, with their history."""

    def __init__(self):
        self.covers, self.past, self.future = [], [], []

    def become(self, covers):
        self.past.append(self.covers)
        self.covers, self.future = covers, []

    def undo(self):
        if self.past:
            self.future.append(self.covers)
            self.covers = self.past.pop()

    def redo(self):
        if self.future:
            self.past.append(self.covers)
            self.covers = self.future.pop()

    def faults(self, pixels, saved, crop=None):
        """How many pixels of a saved file are shown though they are covered, and how many changed where no cover is near."""
        left, top, width, height = crop or (0, 0, WIDTH, HEIGHT)
        wide, high, seen = png.read(saved)
        if (wide, high) != (width, height):
            return ["size", (wide, high)]
        sure = set().union(*(it.sure for it in self.covers))
        may = set().union(*(it.may for it in self.covers))
        shown = changed = 0
        for y in range(height):
            for x in range(width):
                at, place = (top + y) * WIDTH + left + x, 4 * (y * width + x)
                is_same = seen[place:place + 3] == pixels[3 * at:3 * at + 3]
                shown += is_same and at in sure
                changed += not is_same and at not in may
        return [shown, changed]


class Hand:
    """Draws on the page, and in the model what it should become."""

    def __init__(self, page, seed, at_once=False):
        self.page, self.browser, self.model = page, page.browser, Model()
        self.pixels, self.tool, self.at_once = picture_of(seed), None, at_once
        page.open(self.pixels, WIDTH, HEIGHT)
        self.browser.run("const it = document.getElementById('at-once'); it.checked = arguments[0]", at_once)
        self.browser.change("brush-width", str(BRUSH))
        for it in ("tile-width", "tile-height"):
            self.browser.change(it, "")

    def choose(self, tool):
        if tool != self.tool:
            self.page.choose(tool)
            self.tool = tool

    def drag(self, path, kind):
        """A drag along these places of the picture."""
        first, *others = [move_to(it) for it in self.page.on_screen(*path)]
        holds = [{"type": "pause", "duration": HOLD}] if kind == "touch" and not self.at_once else []
        self.browser.act([first, DOWN, *holds, *others, UP], kind)

    def slack(self):
        return 1 + ROUNDED / self.page.scale()

    def stroke(self, tool, path, kind="mouse"):
        """Draws, and the model covers what the stroke went over."""
        self.choose(tool)
        self.drag(path, kind)
        self.model.become([*self.model.covers, Cover(tool, path, self.slack())])

    def crop(self):
        """The crop of the page's list, or nothing."""
        lines = [it for it in self.page.list().splitlines() if it.startswith("crop ")]
        return tuple(map(int, lines[0].split()[1].split(","))) if lines else None

    def faults(self):
        return self.model.faults(self.pixels, self.page.save(), self.crop())


def line_from(corner, top):
    """The way over a line of the form from one of its corners."""
    begin = (LEFT if corner % 2 == 0 else RIGHT, top if corner < 2 else top + HIGH)
    end = (LEFT + RIGHT - begin[0], 2 * top + HIGH - begin[1])
    return begin, ((begin[0] + end[0]) / 2, (begin[1] + end[1]) / 2), end


def check_form(page, kinds=KINDS):
    """A form is covered line by line: with each tool, from each corner of a line and from inside the cover before."""
    for kind in kinds:
        for tool in TOOLS:
            for corner in range(4):
                hand = Hand(page, f"{kind} {tool} {corner}", at_once=corner > 1)
                for top in TOPS:
                    begin, middle, end = line_from(corner, top)
                    if tool == "brush":
                        begin, middle, end = ((x, top + HIGH / 2) for x, _ in (begin, middle, end))
                    hand.stroke(tool, (begin, middle, end), kind)
                # (to go on with the last one)
                inside = (LEFT + RIGHT) / 2, TOPS[-1] + HIGH / 2
                hand.stroke(tool, (inside, (RIGHT + 20, inside[1] + 5), (RIGHT + 40, inside[1] + 30)), kind)
                label = f"a form by {kind}, {tool} from corner {corner}"
                faults = hand.faults()
                page.count(f"{label}: each line is covered, and nothing else", faults == [0, 0], faults)
                page.count(f"{label}: nothing is selected", page.is_off("selected") and len(hand.model.covers) == 5)


def check_crop(page):
    """A crop that begins at a corner of another one, or inside it, is drawn anew. So is a fill at the corner of a crop."""
    for kind in KINDS:
        hand = Hand(page, f"crop {kind}")
        hand.choose("crop")
        for begin, end in (((40, 40), (200, 160)), ((43, 42), (120, 100)), ((80, 70), (260, 200))):
            hand.drag((begin, tuple((one + other) / 2 for one, other in zip(begin, end)), end), kind)
            left, top, width, height = hand.crop()
            off = max(abs(one - other) for one, other in zip((left, top, left + width, top + height), (*begin, *end)))
            page.count(f"a crop by {kind} from {begin} is drawn anew", off <= 3, hand.crop())
        hand.stroke("fill", ((82, 68), (100, 90), (140, 120)), kind)
        faults = hand.faults()
        page.count(f"a fill by {kind} at the corner of a crop leaves the crop", faults == [0, 0] and hand.crop() == (left, top, width, height), faults)


def inside(place):
    return tuple(min(max(it, 2), most - 2) for it, most in zip(place, (WIDTH, HEIGHT)))


def beginning(hand, chance, kind):
    """Where a stroke begins: anywhere, at a corner of a cover, or inside the last one."""
    covers = hand.model.covers
    if not covers or chance.random() < 0.3:
        return chance.uniform(4, WIDTH - 4), chance.uniform(4, HEIGHT - 4)
    cover = covers[-1] if chance.random() < 0.7 else chance.choice(covers)
    if chance.random() < 0.3:
        return tuple((one + other) / 2 + chance.uniform(-3, 3) for one, other in zip(cover.begin, cover.end))
    most = (10 if kind == "mouse" else 20) / hand.page.scale()
    return tuple(it + chance.uniform(-most, most) for it in chance.choice(cover.corners()))


def random_stroke(hand, chance):
    """One stroke by chance."""
    tool, kind = chance.choice(TOOLS), chance.choice(("mouse", "mouse", "touch"))
    begin = inside(beginning(hand, chance, kind))
    far = lambda: chance.choice((-1, 1)) * chance.uniform(12, 60)
    end = inside((begin[0] + far(), begin[1] + far()))
    if max(abs(one - other) for one, other in zip(begin, end)) * hand.page.scale() < 8:
        end = (WIDTH / 2, HEIGHT / 2)
    between = tuple((one + other) / 2 + chance.uniform(-5, 5) for one, other in zip(begin, end))
    hand.stroke(tool, (begin, inside(between), end), kind)


def stroke_by_keys(hand, chance):
    """A rectangle that keys add, and move by one step."""
    tool = chance.choice(("fill", "mosaic"))
    hand.choose(tool)
    hand.browser.run("document.getElementById('add').focus()")
    hand.browser.press("Enter")
    left, top = (WIDTH - WIDTH // 4) // 2, (HEIGHT - HEIGHT // 4) // 2
    cover = Cover(tool, ((left, top), (left + WIDTH // 4, top + HEIGHT // 4)), 0)
    hand.model.become([*hand.model.covers, cover])
    key = chance.choice(list(ARROWS))
    hand.browser.press("Control", key)
    hand.model.become([*hand.model.covers[:-1], cover.moved(*ARROWS[key])])


def choose_in_list(hand, index):
    hand.browser.run("const it = document.querySelectorAll('#edits button')[arguments[0]]; it.focus(); it.click()", index)


def delete(hand, chance):
    """A cover is chosen in the list, and a key deletes it."""
    index = chance.randrange(len(hand.model.covers))
    choose_in_list(hand, index)
    hand.browser.press(chance.choice(("Delete", "Backspace")))
    hand.model.become([it for at, it in enumerate(hand.model.covers) if at != index])


def move(hand, index, right, down):
    covers = hand.model.covers
    hand.model.become([it.moved(right, down) if at == index else it for at, it in enumerate(covers)])


def move_by_keys(hand, chance):
    """A cover is chosen in the list, and an arrow key moves it."""
    index = chance.randrange(len(hand.model.covers))
    if hand.model.covers[index].has_room():
        choose_in_list(hand, index)
        key = chance.choice(list(ARROWS))
        hand.browser.press("Control", key)
        move(hand, index, *ARROWS[key])
        hand.browser.press("Escape")


def undo(hand, _):
    hand.browser.run("document.getElementById('undo').click()")
    hand.model.undo()


def redo(hand, _):
    hand.browser.run("document.getElementById('redo').click()")
    hand.model.redo()


def idle_key(hand, chance):
    """A key where nothing is selected."""
    hand.browser.press("Escape")
    hand.browser.press(chance.choice(IDLE))


def click(hand, chance):
    """A click on a cover, or a tap: it draws nothing, and a drag after it draws."""
    if hand.tool != "brush":
        cover = chance.choice(hand.model.covers)
        hand.drag([tuple((one + other) / 2 for one, other in zip(cover.begin, cover.end))], chance.choice(KINDS))


def zoom(hand, chance):
    hand.browser.run("document.getElementById('stage').focus()")
    hand.browser.press("Escape")
    hand.browser.press(chance.choice(ZOOMS))


ACTS = (undo, redo, delete, move_by_keys, idle_key, idle_key, click, click, stroke_by_keys, zoom)


def run_random(page, pictures):
    """Strokes by chance on these pictures, with other acts between them: gives for each its faults, and what was done."""
    for at in pictures:
        chance = random.Random(f"{SEED} on {at}")
        hand, done = Hand(page, at, at_once=chance.random() < 0.7), []
        for _ in range(ON_ONE):
            if hand.model.covers and chance.random() < 0.4:
                act = chance.choice(ACTS)
                act(hand, chance)
                done.append(act.__name__)
            random_stroke(hand, chance)
            done.append(hand.tool)
        if chance.random() < 0.3:
            # (a crop keeps what is inside it, wherever it is drawn from)
            hand.choose("crop")
            hand.drag(((40, 30), (100, 100), (260, 200)), "mouse")
            done.append("crop")
        yield hand.faults(), done


def check_random(page, pictures):
    """Each pixel that a stroke covered is covered in the file."""
    for at, (faults, done) in zip(pictures, run_random(page, pictures)):
        page.count(f"strokes by chance, picture {at}: what they covered is covered", faults == [0, 0], f"{faults} {done}")
