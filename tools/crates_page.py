#!/usr/bin/env python3
"""Writes docs/CRATES.md: what each crate is for and depends on, and what each of its files has.

    crates_page.py         (`make docs`)

What a crate is for says the first sentence of its root file, and what a file has the first one of that file (`//!`). A sentence after it
that begins with 'And', and one of what a crate hides, are there too. `.ci/checks/api_page.py` tells whether the page is fresh.
"""
import re
import sys

import api_page
from proving import all_below
from workspace import ROOT, crates, is_program, with_those_below

PAGE = "docs/CRATES.md"
HEAD = """# Crates and files

<!-- Written by `make docs` from crates.txt and the first lines of the files: change these, and not this page. -->

A change goes to the file of its subject: search this page for it. [ARCHITECTURE.md](ARCHITECTURE.md) has the map and the rules. In each table a crate depends only on crates of later rows. The last column leaves out what another crate of it depends on.
"""
# What users have: the programs and the library for C, and the libraries of docs/API.md.
PRODUCT = ("imgref_run", "imgref_frames", "imgref_c", *api_page.PAGES[api_page.API][1])
# A link of rustdoc, and where a sentence ends.
LINK, ENDS = re.compile(r"\[(`[^`]*`)\](?:\([^)]*\))?"), re.compile(r"(?<=\.)\s+(?=[A-Z`])")


def told(path):
    """What the first lines of a file say of it."""
    lines = []
    for line in path.read_text(encoding="utf-8").splitlines():
        if not line.startswith("//!"):
            break
        lines.append(line[4:])
    first, *more = ENDS.split(LINK.sub(r"\1", " ".join(lines)).strip())
    return " ".join([first, *(it for it in more[:1] if it.startswith("And ")), *(it for it in more if it.startswith("The crate hides "))])


def sources(name):
    """The files of a crate, its root file first."""
    folder = ROOT / "crates" / name / "src"
    root = folder / ("main.rt" if is_program(name) else "lib.rt")
    return [root, *sorted(it for it in folder.rglob("*.rt") if it != root)]


def named_below(name):
    """The crates that a crate names and that no other one of them depends on."""
    names = crates()[name]
    return [it for it in names if not any(it in with_those_below(other)[:-1] for other in names)]


def table(names):
    """The rows of these crates."""
    yield from ["| Crate | What it is for | Depends on |", "|---|---|---|"]
    for it in names:
        yield f"| [`{it}`](#{it}) | {told(sources(it)[0])} | {', '.join(f'`{below}`' for below in named_below(it))} |"


def files(name):
    """The files of a crate."""
    yield from [f"### {name}", "", "| File | What it has |", "|---|---|"]
    for path in sources(name):
        inside = path.relative_to(ROOT / "crates" / name / "src")
        yield f"| [`{inside}`](../{path.relative_to(ROOT)}) | {told(path)} |"
    yield ""


def text():
    """The page."""
    names, product = all_below([*crates()])[::-1], all_below(PRODUCT)
    of_users, others = [it for it in names if it in product], [it for it in names if it not in product]
    parts = [HEAD, "## Crates", "", *table(of_users), "", "## Examples, tests and timed programs", "", *table(others), "", "## Files", ""]
    return "\n".join([*parts, *(line for it in sorted(names) for line in files(it))])


def main(words):
    if words:
        sys.exit(__doc__)
    (ROOT / PAGE).write_text(text(), encoding="utf-8")
    print(PAGE)


if __name__ == "__main__":
    main(sys.argv[1:])
