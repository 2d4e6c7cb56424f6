#!/usr/bin/env python3
"""Shows that module `moves` of row_mover changes cells by counted shifts alone.

A body that moves the rows by hand and adds to the count could meet every contract. What refuses it is that the list and
the count are private to module `mover`, and no planted bug of `must-fail/` can show that, since such a body does not reach
the prover. So each case here changes row_mover in a room (tools/workspace.py) and asks `rt check` about it.
"""
import pathlib
import re
import sys

sys.path.insert(0, str(pathlib.Path(__file__).resolve().parents[2]))
from checking import ROOT, Cases
from functions import with_function
from proving import Progress, prove_changed, said_with, weights_of
from workspace import own_sources, with_those_below

CRATE, MOVES = "row_mover", "src/moves.rt"
FOLDER = ROOT / "crates" / CRATE
BY_HAND = "shift_counted_but_written_by_hand"


def writes_count(text):
    """The function adds to the count beside each shift."""
    return re.sub(r"(self\.shift_by::<.*>\(.*\);)", r"\1 self.shifts += 1;", text)


def writes_list(text):
    """The function moves the cells of each row by hand."""
    return re.sub(r"self\.shift_by::<.*>\((.*), (.*), (.*)\);", r"self.cells.copy_within(\1..\1 + \2, \3);", text)


def refused(field):
    """Whether the check refuses that private field, and nothing else."""

    def is_right(said):
        errors = [it for it in said.split("\n") if "error" in it]
        return bool(errors) and all("error[private-field]" in it and f"`{field}`" in it for it in errors)

    return is_right


def proved(said):
    """Whether the functions of `moves` are proved, and the crate with them."""
    lines = said.split("\n")
    moves = [f"fn row_mover::mover::RowMover::{it}: proved" for it in ("compact_rows", "join_each", "join_long", "move_rows", "move_each", "move_long")]
    return all(it in lines for it in moves) and any(it.startswith("logic=proved ") for it in lines)


def with_changed(file, name, change):
    """That file with that function changed."""
    return {file: with_function((FOLDER / file).read_text(encoding="utf-8"), name, change)}


def with_renamed():
    """The files in which `into_cells` has another name: all that name it but `moves`, which so can't call it."""
    texts = {it.relative_to(FOLDER).as_posix(): it.read_text(encoding="utf-8") for it in own_sources(CRATE)}
    return {path: text.replace("into_cells", "handed_back") for path, text in texts.items() if path != MOVES and "into_cells" in text}


# what is tried, the texts that change (the loops of both calls), and what the check must say
CASES = [
    (f"{BY_HAND}: compact_rows that writes the count is refused", lambda: with_changed(MOVES, "join_each", writes_count), refused("shifts")),
    (f"{BY_HAND}: compact_rows that writes the list is refused", lambda: with_changed(MOVES, "join_each", writes_list), refused("cells")),
    (f"{BY_HAND}: move_rows that writes the count is refused", lambda: with_changed(MOVES, "move_each", writes_count), refused("shifts")),
    (f"{BY_HAND}: move_rows that writes the list is refused", lambda: with_changed(MOVES, "move_each", writes_list), refused("cells")),
    (f"{BY_HAND}: moves is proved without into_cells", with_renamed, proved),
]


def said_of(texts):
    """What rt check says of the crate with these texts."""
    return "\n".join(said_with(CRATE, {f"{CRATE}/{file}": text for file, text in texts.items()})[0])


def main():
    cases = Cases()
    needed = with_those_below(CRATE)
    prove_changed(needed, Progress(*weights_of(needed)))
    for label, texts, is_right in CASES:
        try:
            said = said_of(texts())
        except ValueError as why:
            said = str(why)
        cases.count(label, is_right(said), "\n".join(it[:300] for it in said.split("\n") if "error" in it or "no proof" in it))
    return cases.end()


if __name__ == "__main__":
    sys.exit(main())
