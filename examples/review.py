#!/usr/bin/env python3
"""Writes contact sheets of the frames in which something was covered, with what was covered outlined.

    imgref_frames -i in.y4m --boxes faces.txt --hold 10 --report covers.csv -o out.y4m
    python3 examples/review.py out.y4m covers.csv sheet.png

The report has the covers as they were drawn. A sheet has up to 40 frames, and further ones are sheet-2.png, sheet-3.png and so on.
Those of an earlier run are removed.
With --all the frames without a cover are there too: those are where a face may have been missed. With --every N each N-th of the
frames is there. A hyphen in the place of the video is standard input, as after ffmpeg -i out.mp4 -f yuv4mpegpipe -.
Needs python3-pil and python3-numpy.
"""
import argparse
import collections
import csv
import importlib
import pathlib
import sys

# How many frames a sheet has across and down, how wide each is at most, and what is left below it for its number.
ACROSS, DOWN, WIDE, BELOW = 5, 8, 320, 16
# How high a frame may be in a sheet.
HIGH = 960
OUTLINE = (255, 0, 0)


def covers_of(report):
    """The boxes of each frame, by its number from 1 on."""
    covers = collections.defaultdict(list)
    try:
        with open(report, newline="") as lines:
            for number, fields in enumerate(csv.reader(lines), 1):
                if fields and fields[0].isdigit():
                    if len(fields) != 5 or not all(it.isdigit() for it in fields):
                        raise ValueError(f"line {number} is no line frame,left,top,width,height")
                    frame, left, top, width, height = (int(it) for it in fields)
                    covers[frame].append((left, top, left + width, top + height))
                elif fields and number > 1:
                    raise ValueError(f"line {number} is no line frame,left,top,width,height")
    except (OSError, ValueError, csv.Error) as why:
        sys.exit(f"{report}: {why}")
    return covers


def checked(options):
    """Where sheets go. A name of no picture is refused before the video is read."""
    path, image = pathlib.Path(options.sheet), importlib.import_module("PIL.Image")
    if image.registered_extensions().get(path.suffix.lower()) not in image.SAVE:
        sys.exit(f"{path}: '{path.suffix}' is the ending of no picture, as .png and .jpg are")
    if options.every < 1:
        sys.exit(f"--every {options.every}: the number is from 1 on")
    return path


def sheet_at(path, number):
    """The name of a sheet: of the first its own, and of each further one with its number."""
    return path if number == 1 else path.with_stem(f"{path.stem}-{number}")


def remove_old(path):
    """Removes the sheets of an earlier run: they would be taken for those of this one."""
    number = 1
    while sheet_at(path, number).is_file():
        sheet_at(path, number).unlink()
        number += 1


def shown(image, planes):
    """The picture of a frame, in colour where it has some."""
    parts = [image.fromarray(it) for it in planes]
    if len(parts) == 1:
        return parts[0].convert("RGB")
    chroma = [it.resize(parts[0].size) for it in parts[1:]]
    return image.merge("YCbCr", [parts[0].point([min(255, max(0, round((it - 16) * 255 / 219))) for it in range(256)]), *chroma]).convert("RGB")


def tile(picture, boxes, label):
    """A frame in the size of a sheet's, with its boxes and its number."""
    image, draw = importlib.import_module("PIL.Image"), importlib.import_module("PIL.ImageDraw")
    # (a frame that is far higher than wide isn't higher than a tile may be)
    scale = min(WIDE / picture.width, HIGH / picture.height)
    size = max(1, round(picture.width * scale)), max(1, round(picture.height * scale))
    made = image.new("RGB", (WIDE, size[1] + BELOW))
    made.paste(picture.resize(size))
    pen = draw.Draw(made)
    for box in boxes:
        left, top, right, bottom = (round(it * scale) for it in box)
        pen.rectangle((left, top, max(left, right - 1), max(top, bottom - 1)), outline=OUTLINE)
    pen.text((2, made.height - BELOW + 2), label, fill=(255, 255, 255))
    return made


def sheet(tiles):
    """The tiles of a sheet, row by row."""
    image, (wide, high) = importlib.import_module("PIL.Image"), tiles[0].size
    made = image.new("RGB", (ACROSS * wide, -(-len(tiles) // ACROSS) * high))
    for at, it in enumerate(tiles):
        made.paste(it, (at % ACROSS * wide, at // ACROSS * high))
    return made


def write(path, number, tiles):
    """Writes a sheet."""
    try:
        sheet(tiles).save(sheet_at(path, number))
    except (OSError, ValueError, SystemError) as why:
        sys.exit(f"{path}: {why}")


def parsed():
    parser = argparse.ArgumentParser(description=__doc__, formatter_class=argparse.RawDescriptionHelpFormatter)
    parser.add_argument("video", help="the edited video, as raw video (YUV4MPEG2)")
    parser.add_argument("report", help="the file that --report wrote")
    parser.add_argument("sheet", help="the picture that is written, such as sheet.png")
    parser.add_argument("--all", action="store_true", help="also the frames in which nothing was covered")
    parser.add_argument("--every", type=int, default=1, metavar="N", help="only each N-th of the frames")
    if len(sys.argv) == 1:
        parser.print_help(sys.stderr)
        sys.exit(2)
    return parser.parse_args()


def main():
    options = parsed()
    try:
        image, opened = importlib.import_module("PIL.Image"), importlib.import_module("y4m").opened
    except ImportError as why:
        sys.exit(f"{why}: install python3-pil and python3-numpy")
    path = checked(options)
    covers, tiles, sheets, found = covers_of(options.report), [], 0, 0
    remove_old(path)
    with opened(options.video) as video:
        for frame, planes in enumerate(video, 1):
            if frame not in covers and not options.all:
                continue
            found += 1
            if (found - 1) % options.every:
                continue
            tiles.append(tile(shown(image, planes), covers[frame] if frame in covers else [], f"frame {frame}"))
            if len(tiles) == ACROSS * DOWN:
                sheets += 1
                write(path, sheets, tiles)
                tiles = []
        count = video.count
    if tiles:
        sheets += 1
        write(path, sheets, tiles)
    after = sorted(it for it in covers if it > count)
    if after:
        sys.exit(f"{options.report}: it names frame {after[-1]}, and {options.video} has {count}")
    print(f"{len(covers)} of {count} frames have a cover; {sheets} sheet{'s' * (sheets != 1)}", file=sys.stderr)
    if not sheets:
        sys.exit("nothing was covered: there is no sheet")


if __name__ == "__main__":
    main()
