#!/usr/bin/env python3
"""Shows that the tests refuse a call that is always out of memory.

Every contract of a call that takes memory allows the result out of memory, so no planted bug of `must-fail/` can show
such a call. The tests that use it are first run as they are, in a room (tools/workspace.py), and must pass. Then each case puts
that result at the head of one call, and runs these tests again: some must fail now, since a test returns out of memory as its
result. Files of tests that use none of the calls are left out. The program for video and pictures is run with
each change on a small input, and must end with `fault memory`. (`built/frames.py` and `built/pictures.py` show that it ends well
as it is.)
"""
import pathlib
import re
import subprocess
import sys

sys.path.insert(0, str(pathlib.Path(__file__).resolve().parent.parent))
from checking import ROOT, Cases
from functions import with_function, with_head
from workspace import room

# No machine has so many bytes.
NO_ROOM = "let _room: Vec<u8> = Vec::with_capacity(alloc, usize::MAX)?;"
# The same of a call that only adds to a vector.
NO_MORE_ROOM = "text.reserve(usize::MAX)?;"
HANDED_BACK = "if true { return Err(self); }"

# The crate, the file and the function, what is put at its head, and the crate whose tests are run.
CASES = [
    ("imgref", "contiguous", "to_contiguous_buf", NO_ROOM, "imgref_hostile_tests"),
    ("imgref", "copies", "to_owned", NO_ROOM, "imgref_hostile_tests"),
    ("imgref", "copies", "clone", NO_ROOM, "imgref_hostile_tests"),
    ("imgref", "cow", "into_owned", HANDED_BACK, "imgref_hostile_tests"),
    ("imgref", "cow", "into_vec", HANDED_BACK, "imgref_hostile_tests"),
    ("imgref", "by_place", "from_places", NO_ROOM, "imgref_examples"),
    ("image_regions", "areas", "integral", NO_ROOM, "image_regions"),
    ("image_regions", "counting", "histogram_u16", NO_ROOM, "image_regions"),
    ("image_regions", "entries", "map_by", NO_ROOM, "image_regions"),
    ("image_regions", "floods", "flood_fill", NO_ROOM, "image_regions"),
    ("image_regions", "labels", "components", NO_ROOM, "image_regions"),
    ("imgref_replay", "run", "replay", NO_ROOM, "window_tests"),
    ("script_text", "script", "next", "if true { return Err(ScriptFault::Memory); }", "imgref_run"),
    ("script_text", "output", "push_reply", NO_MORE_ROOM, "imgref_run"),
    ("script_text", "output", "push_images", NO_MORE_ROOM, "imgref_run"),
    ("imgref_run", "program", "run", "if true { return Err(RunFault::Memory); }", "imgref_run"),
]
# The same of calls that only the program for video and pictures makes: the crate, the file, the function, what is put at its
# head, the input of the program, and its words. EDITS is a file with a line.
PLANNED = "if true { return Err(PlanFault::Memory); }"
READ = "if true { return Err(WordsFault::Memory); }"
VIDEO, PICTURE = b"YUV4MPEG2 W4 H2 C420\nFRAME\n0123456789AB", b"P5 4 2 255\n01234567"
# The status of both programs that are out of memory.
OUT_OF_MEMORY = 3
EDITS, FILL = "edits", ("fill", "0,0,2,2", "16")
RUNS = [
    ("frame_formats", "plans", "for_video", PLANNED, VIDEO, FILL),
    ("frame_formats", "plans", "for_picture", PLANNED, PICTURE, FILL),
    ("frame_formats", "plans", "scratch", NO_ROOM, VIDEO, ("blur", "0,0,2,2", "1")),
    ("frame_edits", "lists", "take", READ, VIDEO, FILL),
    ("frame_edits", "lists", "take_all", READ, VIDEO, FILL),
    ("frame_edits", "lists", "take_lines", READ, VIDEO, ("--edits", EDITS)),
    ("frame_runs", "program", "run", "if true { return Err(RunFault::Memory(0)); }", VIDEO, FILL),
]
# The files that are kept of a crate with many tests.
FILES = {"imgref_hostile_tests": ("contiguous", "copies", "fixtures"), "window_tests": ("commands", "fixtures")}


def keep_tests(crate, files):
    """Leaves all but these files of tests out of a crate."""
    listed = crate / "src/tests.rt"
    for name in re.findall(r"^mod (\w+);$", listed.read_text(), re.M):
        if name not in files:
            listed.write_text(listed.read_text().replace(f"mod {name};\n", ""))
            (crate / f"src/tests/{name}.rt").unlink()


def with_heads(crate, file, heads):
    """The text of that file of a crate in which these functions begin with these statements. Raises ValueError where one can't."""
    path = f"{crate}/src/{file}.rt"
    text = (ROOT / "crates" / path).read_text()
    for name, head in heads.items():
        text = with_function(text, name, lambda it: with_head(it, head))
    return {path: text}


def tests_of(crate, texts):
    """How many tests of a crate pass and fail with these texts in the place of files, or nothing where they are not run."""
    with room(crate, texts) as made:
        if crate in FILES:
            keep_tests(made, FILES[crate])
        said = subprocess.run(["rt", "try", "--test", "--seconds", "600"], cwd=made, stdin=subprocess.DEVNULL, stdout=subprocess.PIPE, stderr=subprocess.STDOUT, text=True).stdout
    found = re.search(r"^test result: .* (\d+) passed; (\d+) failed", said, re.M)
    return tuple(map(int, found.groups())) if found else None


def end_of(texts, given, words):
    """How the program for video and pictures ends with these texts, and whether it wrote anything, or nothing where it is not run."""
    with room("imgref_frames", texts) as made:
        (made / EDITS).write_text(" ".join(FILL) + "\n")
        ran = subprocess.run(["rt", "try", "--", *words], cwd=made, input=given, capture_output=True)
    found = re.search(rb"^checked: ended status=(\d+)", ran.stderr, re.M)
    return (int(found[1]), bool(ran.stdout)) if found else None


def tried(look, crate, file, heads):
    """What is found where functions of a file begin with these statements, or why they can't."""
    try:
        return look(with_heads(crate, file, heads))
    except ValueError as why:
        return str(why)


def main():
    cases = Cases()
    unchanged = {it: tests_of(it, {}) for it in dict.fromkeys(case[-1] for case in CASES)}
    for tests, found in unchanged.items():
        cases.count(f"the tests of {tests} pass as they are", found and found[0] > 0 and found[1] == 0, f"passed and failed: {found}")
    for crate, file, name, head, tests in CASES:
        found, was = tried(lambda texts: tests_of(tests, texts), crate, file, {name: head}), unchanged[tests]
        is_well = was and isinstance(found, tuple) and found[1] > was[1] and sum(found) == sum(was)
        cases.count(f"{crate}::{name} that is always out of memory is refused by the tests of {tests}", is_well, f"passed and failed: {found}, and unchanged: {was}")
    for crate, file, name, head, given, words in RUNS:
        found = tried(lambda texts: end_of(texts, given, words), crate, file, {name: head})
        cases.count(f"{crate}::{name} that is always out of memory is told by imgref_frames", found == (OUT_OF_MEMORY, False), f"status, and whether it wrote: {found}")
    return cases.end()


if __name__ == "__main__":
    sys.exit(main())
