#!/usr/bin/env python3
"""The exports for cells of two, four and eight bytes are what `make exports` writes."""
import pathlib
import sys

sys.path.insert(0, str(pathlib.Path(__file__).resolve().parent.parent))
from checking import ROOT, Cases

import exports


def main():
    cases = Cases()
    for crate in exports.TYPES:
        for path, text in exports.made(crate):
            found = path.read_text(encoding="utf-8") if path.exists() else ""
            cases.count(f"{path.relative_to(ROOT)} is fresh", found == text and "extern" in text, "it isn't what `make exports` writes today")
    return cases.end()


if __name__ == "__main__":
    sys.exit(main())
