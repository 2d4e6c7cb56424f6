#!/usr/bin/env python3
"""Writes the exports for cells of other sizes: copies of src/u8_exports.rt, in which the type of a cell is another.

    exports.py

C has no generic functions, and Rattle's macros can't write functions. So the exports for cells of one byte are written by hand,
and the others are made from them. A file that is made says so in its first line.
"""
import re
import sys

from workspace import ROOT

# What is written by hand, and the types of a cell for which each crate has the same exports.
SOURCE = "u8_exports.rt"
TYPES = {"imgref_c": ("u16", "u32", "u64"), "bench_exports": ("u32",)}
# The type of a cell, alone or between the underscores of a name.
CELL = re.compile(r"(?<![A-Za-z0-9])u8(?![A-Za-z0-9])")
# Above it are the doc lines of the file itself.
FIRST = "\nghost use "
# `rt fmt` gives each parameter a line where a signature has more than 100 columns.
SIGNATURE, COLUMNS = re.compile(r"(?m)^(pub extern .*)\((.*)\)(.*)$"), 100


def fitted(signature):
    """A signature as `rt fmt` lays it out."""
    if len(signature[0]) <= COLUMNS:
        return signature[0]
    lines = "".join(f"    {it},\n" for it in signature[2].split(", "))
    return f"{signature[1]}(\n{lines}){signature[3]}"


def made(crate):
    """The files that are made of a crate, each with its text."""
    folder = ROOT / "crates" / crate / "src"
    body = (folder / SOURCE).read_text(encoding="utf-8").partition(FIRST)
    for cell in TYPES[crate]:
        told = f"//! Made from `{SOURCE}` by `make exports`: the same exports, for cells of type `{cell}`.\n"
        yield folder / SOURCE.replace("u8", cell), told + FIRST + SIGNATURE.sub(fitted, CELL.sub(cell, body[2]))


def main(words):
    if words:
        sys.exit(__doc__)
    for crate in TYPES:
        for path, text in made(crate):
            path.write_text(text, encoding="utf-8")
            print(path.relative_to(ROOT))


if __name__ == "__main__":
    main(sys.argv[1:])
