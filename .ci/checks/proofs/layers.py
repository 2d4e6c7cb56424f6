#!/usr/bin/env python3
"""Shows that each layer rests on the one below: without a clause of the lower call, the upper call is no longer accepted.

A body of `as_contiguous_buf` that moves pixel by pixel, or one of `move_inside` that uses no mover, could meet every
contract. So each case takes a clause out of the contract of a lower function, in a room (tools/workspace.py), and asks
`rt check` about the crate of the upper one: the lower crate must still be proved, and the upper function must not be. Nor
may the crate's entry be, which depends on it: `replay_into` is what users call. A body that bypasses the layer needs none of
its clauses, is still accepted, and fails the case.
"""
import concurrent.futures
import functools
import pathlib
import re
import sys

sys.path.insert(0, str(pathlib.Path(__file__).resolve().parents[2]))
from checking import ROOT, Cases
from functions import with_function, without_clause
from proving import Progress, processors, prove_changed, said_with, weights_of
from workspace import with_those_below

CRATES = ROOT / "crates"
ROUND = "layer_goes_round"

# What a crate's users call, which depends on the functions of its cases.
ENTRIES = {"imgref_replay": "run::replay_into"}

# The lower crate, file and function, and the clauses taken out; the upper crate and function; and what of the lower crate
# goes with the clauses, since it rests on them too.
CASES = [
    ("row_mover", "moves", "compact_rows", ["cells"], "row_mover", "packing::with_joined_rows", []),
    ("row_mover", "packing", "with_joined_rows", ["cells"], "row_mover", "packing::join_rows", []),
    ("row_mover", "packing", "join_rows", ["cells"], "row_mover", "packing::pack", []),
    ("row_mover", "packing", "pack", ["layout"], "imgref", "contiguous::ImgVec+T::as_contiguous_buf", []),
    ("imgref", "contiguous", "as_contiguous_buf", ["after", "grid"], "imgref_replay", "step::compact", ["into_contiguous_buf"]),
    ("row_mover", "moves", "move_rows", ["cells"], "row_mover", "windows::with_moved_window", []),
    ("row_mover", "windows", "with_moved_window", ["moved"], "row_mover", "windows::move_pixels", []),
    ("row_mover", "windows", "move_pixels", ["grid"], "imgref", "img::Img::move_inside", []),
    ("imgref", "blit", "move_inside", ["grid"], "imgref_replay", "copy::copy_between", ["move_window"]),
    ("imgref", "blit", "copy_window", ["grid"], "imgref_replay", "copy::copy_over", []),
]


def without(text, name, clauses, more):
    """The file without those clauses of that function, and without those functions."""
    text = with_function(text, name, lambda it: functools.reduce(without_clause, clauses, it))
    for it in more:
        text = with_function(text, it, lambda _: "")
    return text


def without_answers(text, clauses):
    """A file of answers without those that prove these clauses."""
    # (of a function with one clause, the answer to `returns` is a record of it)
    kept = [it for it in text.split("\n\n") if not any(f"-clause-{clause} " in it or f"record {{ {clause} =" in it for clause in clauses)]
    return "\n\n".join(kept).rstrip("\n") + "\n"


def texts_without(lower, file, name, clauses, more):
    """The texts of the lower crate without the clauses of that function, by their paths."""
    code, answers = CRATES / lower / f"src/{file}.rt", (CRATES / lower).glob(f"proofs/**/{name}/Answers.antt")
    texts = {code: without(code.read_text(), name, clauses, more)} | {it: without_answers(it.read_text(), clauses) for it in answers}
    return {str(it.relative_to(CRATES)): text for it, text in texts.items()}


def unproved(said, crate, with_callers=False):
    """The functions of a crate that have no proof, with or without those that only call one of these."""
    found = re.findall(rf"^fn {crate}::(\S+): (no proof|not proved)(.*)$", said, re.M)
    return [name for name, _, why in found if with_callers or "it calls" not in why]


def tried(case):
    """A case, and what the check said of it."""
    lower, file, name, clauses, upper, _, more = case
    try:
        return case, "\n".join(said_with(upper, texts_without(lower, file, name, clauses, more))[0])
    except ValueError as why:
        return case, str(why)


def main():
    cases = Cases()
    needed = {it: None for case in CASES for it in with_those_below(case[4])}
    prove_changed([*needed], Progress(*weights_of(needed)))
    with concurrent.futures.ThreadPoolExecutor(processors()) as pool:
        for (lower, _, name, clauses, upper, user, _), said in pool.map(tried, CASES):
            entry = ENTRIES.get(upper, user)
            is_well = unproved(said, upper) == [user] and entry in unproved(said, upper, True) and (lower == upper or not unproved(said, lower))
            label = f"{ROUND}: {upper}::{user} without {', '.join(clauses)} of {lower}::{name} is refused" + (f", and {entry}" if entry != user else "")
            cases.count(label, is_well, "\n".join(it[:300] for it in said.split("\n") if "error" in it or "no proof" in it or "not proved" in it))
    return cases.end()


if __name__ == "__main__":
    sys.exit(main())
