"""Writes the contact sheets of an output, from raw video on its standard input. imgref-hide starts it.

    sheets.py REPORT SHEET FRAMES MOST

The frames with a cover are there, evenly chosen, and the longest stretches without one: those are where a face may have been missed.
Below such a frame is the line that covers it, and at its edges are marks each hundred pixels. A sheet has up to 40 frames.
"""
import pathlib
import sys

sys.path.insert(0, str(pathlib.Path(__file__).resolve().parent.parent.parent / "examples"))
sys.path.insert(0, str(pathlib.Path(__file__).resolve().parent.parent))
sys.dont_write_bytecode = True

# How many pixels are between two marks, and how long a mark is.
APART, LONG = 100, 5
MARK = (255, 220, 0)


def evenly(its, most):
    """At most so many of a list, evenly chosen: the first and the last are there."""
    if len(its) <= most:
        return its
    return sorted({its[round(at * (len(its) - 1) / (most - 1))] for at in range(most)}) if most > 1 else its[: max(0, most)]


def chosen(covered, stretches, most):
    """Which frames are shown: of each stretch without a cover its middle, the longest first, and the rest have covers."""
    longest = sorted(stretches, key=lambda it: it[0] - it[1])[: most // 2]
    spare = max(0, most // 2 - len(longest)) // max(1, len(longest))
    bare = {(first + last) // 2: (first, last) for first, last in longest}
    # (a stretch that is long has further frames)
    for first, last in longest:
        for it in evenly(range(first, last + 1), spare):
            bare.setdefault(it, (first, last))
    shown = evenly(sorted(covered), most - len(bare))
    return bare, set(shown)


def scale_of(review, picture):
    """By how much a frame is smaller on a sheet."""
    return min(review.WIDE / picture.width, getattr(review, "HIGH", picture.height * review.WIDE) / picture.height)


def marked(picture, made, scale, draw):
    """A frame of a sheet with marks at its edges."""
    pen = draw.Draw(made)
    for edge, is_across in ((picture.width, True), (picture.height, False)):
        for at in range(0, edge, APART):
            place, length = round(at * scale), LONG * (2 if at % (5 * APART) == 0 else 1)
            pen.line((place, 0, place, length) if is_across else (0, place, length, place), fill=MARK)
    return made


def main(report, sheet, count, most):
    from imgref_hide import lists

    try:
        from PIL import Image, ImageDraw

        import review
        import y4m
    except ImportError as why:
        sys.exit(f"{why}: apt-get install python3-pil python3-numpy")
    covers, stretches = review.covers_of(report), lists.bare(lists.covered_frames(pathlib.Path(report)), int(count))
    bare, with_covers = chosen(set(covers), stretches, int(most))
    tiles, sheets = [], 0

    def write(tiles, number):
        path = pathlib.Path(sheet)
        review.sheet(tiles).save(path if number == 1 else path.with_stem(f"{path.stem}-{number}"))

    with y4m.opened("-") as video:
        for frame, planes in enumerate(video, 1):
            if frame not in bare and frame not in with_covers:
                continue
            picture = review.shown(Image, planes)
            if frame in bare:
                first, last = bare[frame]
                made = review.tile(picture, [], f"{frame}: no box. --also '{first - 1}..{last} cover L,T,W,H'")
                made = marked(picture, made, scale_of(review, picture), ImageDraw)
            else:
                made = review.tile(picture, covers[frame], f"frame {frame}")
            tiles.append(made)
            if len(tiles) == review.ACROSS * review.DOWN:
                sheets += 1
                write(tiles, sheets)
                tiles = []
    if tiles:
        write(tiles, sheets + 1)


if __name__ == "__main__":
    main(*sys.argv[1:])
