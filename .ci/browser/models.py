"""The picture of most checks of the page, and what a list of edits makes of it: the pixels as PPM."""
import edits
import frames
from browser import png

WIDTH, HEIGHT = 60, 40
PIXELS = png.by_chance(WIDTH, HEIGHT, "page")
# What an edit begins with.
EDITS = {"cover", "fill", "mosaic", "means", "move", "crop", "pad", "turn", "flip"}


def by_model(words, pixels=PIXELS, width=WIDTH, height=HEIGHT):
    """The picture after these edits, one after the other."""
    picture, begins = png.ppm(width, height, pixels), [at for at, it in enumerate(words) if it in EDITS]
    for begin, end in zip(begins, [*begins[1:], len(words)]):
        picture = frames.answer(picture, edits.edits_of(words[begin:end]))
    return picture
