"""The list of boxes: what a detector printed as the list that imgref_frames reads, with its margin; and the frames without a box."""
import math
import re
import sys

from . import places, running
from .running import Failure

COUNT = re.compile(r"# frames (\d+)")
# A box has at least so many pixels of a margin in parts: small boxes are found less exactly.
LEAST_MARGIN = 2


def converted(given, work, options, size):
    """Writes boxes.txt by imgref-boxes from what is given: a file or a folder."""
    words = [sys.executable, places.SHARED / "boxes.py"]
    words += [f"--columns={options.columns}"] if options.columns else []
    words += [f"--first-frame={options.first_frame}"] if options.first_frame is not None else []
    words += [f"--min-score={options.min_score}"] if options.min_score is not None else []
    words += [f"--score={options.score}"] if options.score else []
    words += [f"--separator={options.separator}"] if options.separator else []
    try:
        running.pipe([running.Step("the list", [*words, "--", given])], work, output="boxes.txt")
    except Failure as why:
        if "there is no box" in str(why) or "has a score below" in str(why):
            (work / "boxes.txt").write_text("")
            return
        # (coordinates from 0 to 1 are those of a size that is known here)
        if "give the size of the frame" not in str(why):
            raise
        running.pipe([running.Step("the list", [*words, f"--size={size[0]}x{size[1]}", "--", given])], work, output="boxes.txt")


def margin_of(text):
    """A margin: pixels, or a share of each box where the text ends in %."""
    found = re.fullmatch(r"(\d{1,6})(%?)", text)
    if not found or found[2] and int(found[1]) > 1000:
        raise ValueError(text)
    return int(found[1]), bool(found[2])


def boxes_of(path):
    """How many frames a list says, and its lines with a box, each as its fields."""
    count, rows = None, []
    for line in path.read_text().splitlines():
        if found := COUNT.fullmatch(line.strip()):
            count = int(found[1])
        elif line.strip() and not line.lstrip().startswith("#"):
            rows.append([it.strip() for it in line.split("#")[0].split(",")])
    return count, rows


def grown(rows, share):
    """The boxes with a margin of so many hundredths of their size on each side, in whole pixels outwards."""
    for frame, name, left, top, width, height, *_ in rows:
        try:
            across, down = (max(LEAST_MARGIN, float(it) * share / 100) for it in (width, height))
            edges = float(left) - across, float(top) - down, float(left) + float(width) + across, float(top) + float(height) + down
        except ValueError:
            raise Failure(f"the list has a line '{frame},{name},{left},{top},{width},{height}' that is no box") from None
        corner = math.floor(edges[0]), math.floor(edges[1])
        yield f"{frame},{name},{corner[0]},{corner[1]},{math.ceil(edges[2]) - corner[0]},{math.ceil(edges[3]) - corner[1]}"


def ready(work, options, size, say):
    """Writes the list that imgref_frames reads, and returns how many boxes it has, and the words for it. A box outside a frame of
    this size is left out, since it covers nothing."""
    count, rows = boxes_of(work / "boxes.txt")
    margin, is_share = options.margin
    head = [f"# frames {count}"] if count is not None else []
    lines = [*grown(rows, margin)] if is_share else [",".join(it[:6]) for it in rows]
    inside = [it for it in lines if size is None or reaches(it, size, 0 if is_share else margin)]
    if len(inside) < len(lines):
        say(f"{len(lines) - len(inside)} boxes are outside the frame, and left out")
    if not inside:
        return 0, []
    (work / "covered.txt").write_text("\n".join([*head, *inside]) + "\n")
    words = ["--boxes", "covered.txt", "--hold", str(options.hold)]
    words += [] if is_share else ["--margin", str(margin)]
    return len(inside), [*words, *(["--with", *options.with_edit.split()] if options.with_edit else [])]


def reaches(line, size, margin):
    """Whether a box with its margin has a pixel of the frame."""
    try:
        left, top, width, height = (float(it) for it in line.split(",")[2:6])
    except ValueError:
        # (imgref_frames says what is wrong with it)
        return True
    return left - margin < size[0] and top - margin < size[1] and left + width + margin > 0 and top + height + margin > 0


def say_count(work, frames):
    """Writes into a list how many frames it is of, where it doesn't say so."""
    path = work / "boxes.txt"
    if boxes_of(path)[0] is None:
        path.write_text(f"# frames {frames}\n" + path.read_text())


def check_frames(work, frames):
    """Refuses a frame that the video doesn't have, in the list or in an edit by hand, before anything is covered."""
    last = max((int(it[0]) for it in boxes_of(work / "boxes.txt")[1] if it[0].isdigit()), default=0)
    if last > frames:
        raise Failure(f"the list names frame {last}, and the video has {frames}")
    for line in (work / "edits.txt").read_text().splitlines() if (work / "edits.txt").exists() else []:
        found = re.match(r"\s*(\d+)\.\.", line)
        if found and int(found[1]) >= frames:
            raise Failure(f"'{line.strip()}' begins after the end: the video has the frames 0 to {frames - 1}")


def edits_of(work, options):
    """Writes the edits by hand, and returns the words for them. The lines of --edits come first."""
    lines = []
    if options.edits:
        try:
            lines += [options.edits.read_text()]
        except (OSError, UnicodeDecodeError) as why:
            raise Failure(f"{options.edits} can't be read: {getattr(why, 'strerror', None) or 'it is no UTF-8'}") from None
    lines += options.also
    if not lines:
        return []
    (work / "edits.txt").write_text("\n".join(lines) + "\n")
    return ["--edits", "edits.txt"]


def covered_frames(report):
    """The numbers of the frames that have a cover, from 1 on."""
    return {int(line.split(",", 1)[0]) for line in report.read_text().splitlines() if line[:1].isdigit()}


def bare(covered, frames):
    """The stretches of frames without a cover: the first and the last of each."""
    found, first = [], 1
    for it in [*sorted(covered), frames + 1]:
        if it > first:
            found.append((first, min(it - 1, frames)))
        first = max(first, it + 1)
    return [it for it in found if it[0] <= it[1]]


def time_of(frame, rate):
    """When a frame that counts from 0 begins, as imgref_frames reads times."""
    thousandths = round(frame / rate * 1000)
    seconds, rest = divmod(thousandths, 1000)
    return f"{seconds // 3600:02}:{seconds // 60 % 60:02}:{seconds % 60:02}.{rest:03}"
