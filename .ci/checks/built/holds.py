#!/usr/bin/env python3
"""Shows what imgref_frames covers with --hold: made tracks with gaps, whose boxes are kept beside their tracks and over gaps.

A model that shares nothing with the program says frame by frame what is covered. Both builds are run that `rt ci` leaves.
"""
import pathlib
import random
import sys

sys.path.insert(0, str(pathlib.Path(__file__).resolve().parents[2]))
from checking import Cases, both_builds
from tracked import MOST_FRAMES, TEXTS, count_lists, differing, run, tracks, video
from tries import lines_said

# Tracks of which some have one line, and names by which some boxes are alone.
MADE = {"names": ("1", "2", "2.0", "7", "-1", "-1", "3.5", "4294967295"), "first": 12, "most": 7, "steps": (0, 1, 1, 1, 2, 3, 4, 5, 7)}


def by_tracks(cases, program):
    for name in ("two digits", "halves", "whole numbers"):
        for hold in (0, 1, 2, 3, 5, 30):
            wrong = []
            for seed, sampling in enumerate(("mono", "420jpeg", "422", "444") * 3):
                lines = tracks(random.Random(f"{seed} {hold}"), TEXTS[name], **MADE)
                wrong.append(differing(program, video(sampling, frames=MOST_FRAMES), lines, hold=hold))
            count_lists(cases, f"made tracks in {name} are held for {hold} frames as the model says", wrong)


def by_gaps(cases, program):
    """Two boxes of one track with each gap, held for as many frames, one fewer and one more."""
    data = video("mono", frames=MOST_FRAMES)
    for first, second in (("2,2,3,3", "8,5,3,3"), ("-9,-9,4,4", "6,4,3,2"), ("-2.5,0.25,1,1", "9.75,-3,2.5,3.5"), ("0,0,0,0", "5,5,0,0"), ("30,2,4,4", "-40,3,4,4")):
        wrong = []
        for gap in range(6):
            for hold in {max(0, gap - 1), gap, gap + 1}:
                for lines in ((f"9,1,{first}", f"{10 + gap},1,{second}"), (f"{10 + gap},1,{second}", f"9,1,{first}"), (f"9,1,{first}", f"{10 + gap},2,{second}")):
                    wrong.append(differing(program, data, lines, hold=hold))
        count_lists(cases, f"{first} and {second} with each gap", wrong)


def by_ends(cases, program):
    """Holds that reach the ends of a video, and past the greatest number of a frame."""
    data, greatest = video("mono", frames=MOST_FRAMES), 18446744073709551615
    for hold in (0, 1, 5, greatest):
        for frame in (1, 2, MOST_FRAMES - 1, MOST_FRAMES):
            lines = [f"{frame},1,2,2,4,4"]
            count_lists(cases, f"frame {frame} held for {hold}", [differing(program, data, lines, more=["--strict"], hold=hold)])
        said, all_lines = run(program, ["1,1,2,2,4,4", "", f"{greatest},2,2,2,4,4"], ["--hold", str(hold)], data)
        note = f"note: line 3 of the boxes: the input has {MOST_FRAMES} frames, and ends before frame {max(1, greatest - hold)} of the list"
        cases.count(f"the last frame held for {hold}", said[2] == 0 and (all_lines[0].startswith(note) if hold < MOST_FRAMES else not all_lines[0]), str(all_lines[:2]))


def by_notes(cases, program):
    """A box that is held keeps its line in notes, and the gap after it has that line too."""
    data, inside = video("mono", frames=MOST_FRAMES), "3,1,2,2,4,4"
    said, all_lines = run(program, ["40,2,1,1,2,2", "# comment", inside, "9,3,-9,2,4,4"], ["--hold", "2"], data)
    cases.count("held boxes keep their lines in notes", [it.split(":")[1] for it in all_lines[:2]] == [" line 4 of the boxes", " line 1 of the boxes"], str(all_lines[:3]))
    cases.count("the note names the first frame that is held", "in frame 7 of the list," in all_lines[0], str(all_lines[:1]))
    said, all_lines = run(program, [inside, "", "33,4,1,1,2,2", "29,4,1,1,2,2"], ["--hold", "4"], data)
    cases.count("a gap has the line before it", all_lines[0].startswith("note: line 4 of the boxes") and all_lines[1].startswith("note: line 4 of the boxes") and all_lines[2].startswith("note: line 3 of the boxes"), str(all_lines[:4]))
    said, all_lines = run(program, [inside], ["--hold", "2", "fill", "0,0,14,1", "9"], data)
    cases.count("an edit after held boxes keeps its number", any(it.startswith("edit 1: it reaches outside") for it in all_lines), str(all_lines[:3]))


def by_faults(cases, program):
    data = video("mono")
    for words in (["--hold", "3", "fill", "0,0,1,1", "9"], ["--hold", "3"]):
        said = lines_said(program, words, data)
        cases.count(f"{' '.join(words)} without boxes is refused", said[0] == "fault words" and "--hold" in said[1] and "--boxes" in said[1], str(said[:2]))
    for number in ("-1", "x", "1.5", "", "01", "18446744073709551616"):
        said, all_lines = run(program, ["1,1,2,2,4,4"], ["--hold", number], data)
        cases.count(f"--hold '{number}' is refused", said == (b"", "fault words", 1) and all_lines[1].startswith(f"--hold needs a whole number, and {number} isn't one"), str(all_lines[:2]))
    said, all_lines = run(program, ["1,1,2,2,4,4", "1,1,2,2,4"], ["--hold", "2"], data)
    cases.count("a line that is no box is told", said == (b"", "fault words", 1) and "at line 2 of the boxes: the height is missing" in all_lines[1], str(all_lines[:2]))
    said, all_lines = run(program, ["# none"], ["--hold", "2"], data)
    cases.count("a list with no box is refused", said == (b"", "fault words", 1) and "no box" in all_lines[1], str(all_lines[:2]))


def main():
    cases = Cases()
    for program in both_builds(cases, "imgref_frames"):
        by_tracks(cases, str(program))
        by_gaps(cases, str(program))
        by_ends(cases, str(program))
        by_notes(cases, str(program))
        by_faults(cases, str(program))
    return cases.end()


if __name__ == "__main__":
    sys.exit(main())
