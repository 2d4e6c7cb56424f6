#!/usr/bin/env python3
"""Refuses each growth of the programs and of every test in turn, on what `rt ci` built.

No clause can say that memory is found, and every contract allows the result out of memory. So the script program is run on each
example, and the one for video on a small stream with each kind of edits, with the first growth refused, then with the second,
until a run has none to refuse. Each time but the last it must say `fault memory` alone, on the stream for faults, and end with
status 3: so all memory is taken before the first byte is written. One growth is spared: where the buffer for the lines of a large
image is refused, the text grows line by line, and all is printed. The one for video says how many pictures it has written, and
wrote exactly those. Each test is run so too, and must pass or return the refusal as its result: an assertion that fails shows an
result that changed in the place of the error.
"""
import concurrent.futures
import os
import pathlib
import resource
import subprocess
import sys
import tempfile

sys.path.insert(0, str(pathlib.Path(__file__).resolve().parents[2]))
import frames
from edits import edits_of
import model
from checking import ROOT, Cases, both_builds, built, crates, preloaded, says

REFUSES = pathlib.Path(__file__).resolve().with_name("refused_growth.c")
SCRIPTS = sorted((ROOT / "examples").glob("*.script"))
# A script of an image for whose line room is asked in advance.
LARGE = b"image 100 9 101" + b" 7" * 908 + b"\n"
# A video of two frames of 4 by 2 pixels, and words of edits: a list of two, and each that changes the size.
VIDEO = b"YUV4MPEG2 W4 H2 C420 F25:1\n" + b"FRAME\n0123456789AB" * 2
EDITS = ("fill 0,0,2,2 16 1..2 move 0,0,2,2 2,0", "mosaic 0,0,4,2 2,2 crop 0,0,2,2", "blur 0,0,4,2 1", "pad 2,2,2,2 16")
# A picture in colour and a larger grey one after it, and words of edits.
PICTURES = (b"P6 2 2 255 0123456789AB", b"P5 5 3 255 0123456789ABCDE")
# A tracker's list, which is long enough to take memory where it is sorted, and the edit that it is.
BOXES, BOX = "".join(f"{1 + it % 2},{it},0,0,1,1\n" for it in range(24)), "cover 0,0,1,1"
PICTURE_EDITS = ("fill 0,0,2,2 16", "blur 0,0,2,2 1", "mosaic 0,0,2,2 2,2 crop 0,0,2,1", "pad 2,2,2,2 16")
# What a test says whose result is the refusal: of a call, of a push to a vector, and of a run.
HANDED_ON = (b"error: AllocError\n", b"error: AllocFailed { .. }\n", b"error: Memory\n")
# A crate of tests, a test, the same without its one call that takes memory, and how many growths that call takes.
CALLS = [("window_tests", "tests::commands::refused_memory_changes_nothing", "tests::commands::what_replay_is_given", 1),
         ("imgref_hostile_tests", "tests::memory::a_copy_takes_its_room_at_once", "tests::memory::what_needs_no_memory_takes_none", 2)]
# No test and no program takes more growths than this.
MOST = 10_000


def runs(library, command, given=b""):
    """Runs a command with each growth refused in turn, and gives each run and whether one was refused in it. The last has none,
    unless the command takes MOST growths or more."""
    for number in range(1, MOST):
        env = {**os.environ, "LD_PRELOAD": library, "REFUSED": str(number)}
        ran = subprocess.run(command, input=given, env=env, capture_output=True, timeout=120)
        was_refused = b"growth refused\n" in ran.stderr
        yield ran, was_refused
        if not was_refused:
            return


def of_program(library, command, given, told, ends, spared):
    """How many refused growths were reported on this input, and what is wrong. `told` is what a refusal must leave, one of some outputs,
    each with what it says then, and a status, and `ends` what a run must that has none: its output, and its status. So many
    refusals are spared: these runs end as if there were none."""
    bad = []
    for number, (ran, was_refused) in enumerate(runs(library, command, given), 1):
        printed = ran.stdout + ran.stderr
        if was_refused and spared and (ran.stdout, ran.returncode) == ends:
            spared -= 1
            continue
        outputs, status = told if was_refused else ({ends[0]: None}, ends[1])
        says_so = (outputs.get(ran.stdout) or b"fault memory") in printed
        if says_so != was_refused or ran.stdout not in outputs or ran.returncode != status:
            bad.append(f"growth {number}: it printed {ran.stdout!r}, said {ran.stderr!r} and ended with status {ran.returncode}")
    if spared:
        bad.append(f"{spared} refusals that are spared were not seen")
    return number - 1, bad + too_many(was_refused)


def of_test(library, program, test):
    """The same of one test."""
    bad = []
    for number, (ran, was_refused) in enumerate(runs(library, [program, test]), 1):
        if ran.returncode and not (was_refused and any(it in ran.stderr for it in HANDED_ON)):
            bad.append(f"{test}, growth {number}: {ran.stderr.decode(errors='replace').strip()}")
    return number - 1, bad + [f"{test}: {it}" for it in too_many(was_refused)]


def too_many(was_refused):
    """What is wrong where even the last run had a growth to refuse."""
    return [f"it takes {MOST} growths or more, so not each was refused"] if was_refused else []


def tests_of(program):
    """The names of the tests of a built program."""
    listed = subprocess.run([program, "--list"], check=True, capture_output=True, text=True).stdout
    return [it.removesuffix(": test") for it in listed.splitlines() if it.endswith(": test")]


def main():
    cases = Cases()
    # A failed assertion aborts, and would leave a core file.
    resource.setrlimit(resource.RLIMIT_CORE, (0, 0))
    with tempfile.TemporaryDirectory(prefix="growths-") as room, concurrent.futures.ThreadPoolExecutor(4) as pool:
        library = preloaded(REFUSES, room)
        scripts = [*((it.name, it.read_bytes(), 0) for it in SCRIPTS), ("a large image", LARGE, 1)]
        tries = [("imgref_run", [], label, script, ({b"fault memory\n": b"fault memory\n"}, 3), model.answer(script), spared) for label, script, spared in scripts]
        listed = pathlib.Path(room, "edits")
        listed.write_text(f"# a border\n{EDITS[-1]}\n")
        video = pathlib.Path(room, "video")
        video.write_bytes(VIDEO)
        for label, words, edits in [*((it, it.split(), it) for it in EDITS), ("a file of edits", ["--edits", listed], EDITS[-1]), ("an input by its name", ["-i", video, *EDITS[0].split()], EDITS[0])]:
            tries.append(("imgref_frames", words, label, VIDEO, ({b"": b"fault memory 0\n"}, 3), (frames.answer(VIDEO, edits_of(edits.split())), 0), 0))
        boxes = pathlib.Path(room, "boxes")
        boxes.write_text(BOXES)
        for words in (["--boxes", boxes], ["--boxes", boxes, "--hold", "1"]):
            tries.append(("imgref_frames", words, f"boxes {' '.join(words[2:])}", VIDEO, ({b"": b"fault memory 0\n"}, 3), (frames.answer(VIDEO, edits_of(BOX.split())), 0), 0))
        for words in PICTURE_EDITS:
            first, both = (frames.answer(it, edits_of(words.split())) for it in (PICTURES[0], b"".join(PICTURES)))
            tries.append(("imgref_frames", words.split(), f"pictures, {words}", b"".join(PICTURES), ({b"": b"fault memory 0\n", first: b"fault memory 1\n"}, 3), (both, 0), 0))
        for name in ("imgref_run", "imgref_frames"):
            for program in both_builds(cases, name):
                for _, words, label, given, told, ends, spared in (it for it in tries if it[0] == name):
                    growths, bad = of_program(library, [program, *words], given, told, ends, spared)
                    cases.count(f"{program.name}, {label}: {growths} refused growths are reported, and nothing else is written", growths > 0 and not bad, "\n".join(bad[:3]))
        for crate in (it for it in crates() if says(it, "#[test]")):
            for program in built(crate, ("_tests",)) or [None]:
                found = [*pool.map(lambda test: of_test(library, program, test), tests_of(program) if program else [])]
                bad = [it for _, lines in found for it in lines]
                growths = sum(it for it, _ in found)
                label = f"{crate}: {len(found)} tests pass or return each of {growths} refused growths"
                cases.count(label, found and not bad and (growths > 0 or not says(crate, "alloc()")), "\n".join(bad[:3]) if program else "its tests are not built, or older than their sources: `rt ci` builds them")
        for crate, test, without, wanted in CALLS:
            counts = [of_test(library, program, it)[0] for program in built(crate, ("_tests",)) for it in (test, without)]
            cases.count(f"{crate}: {test} takes growths beside those of {without}: {wanted}", len(counts) == 2 and counts[0] - counts[1] == wanted, f"they take {counts}")
    return cases.end()


if __name__ == "__main__":
    sys.exit(main())
