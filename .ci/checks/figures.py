#!/usr/bin/env python3
"""The figures of the documents: the commit on which they were measured, and what the pages say of their tables.

Each page of PAGES says 'Measured on commit `HASH`' before its tables. A page without it fails, and so does a commit that isn't in
this history.
How old a figure may be is for a reader to decide, so the number of commits since is printed, and fails nothing.

A row of FIGURES is a page, how the page says some numbers (each is `{}`), and what they are by the tables of docs/PERFORMANCE.md and
bench/tables.md. `make docs` writes them, and page_numbers.py tells whether they are fresh.
"""
import functools
import pathlib
import re
import shutil
import sys

sys.path.insert(0, str(pathlib.Path(__file__).resolve().parents[1]))
from checking import ROOT, Cases

from changed import git
from workspace import with_those_below

# The pages with figures, and the crates that are timed there, with those below them.
PAGES = {
    "docs/PERFORMANCE.md": ("bench_exports", "imgref_c", "imgref_run", "imgref_frames"),
    "bench/tables.md": ("bench_exports", "imgref_c"),
    "docs/maintainers/PERF.md": ("bench_jobs", "bench_pixels"),
    "docs/C.md": ("imgref_c",),
}
NAMED = re.compile(r"[Mm]easured on commit `([0-9a-f]{7,40})`")


@functools.cache
def tables(page):
    """The tables of a page by the heading above them. Each is a list of rows, each a dictionary from the heads of its columns to
    its cells."""
    found, heading, head = {}, "", None
    for line in (ROOT / page).read_text().splitlines():
        cells = [it.strip() for it in line.strip().strip("|").split("|")]
        if line.startswith("#"):
            heading, head = line.lstrip("# "), None
        elif not line.startswith("|"):
            head = None
        elif head is None:
            head = cells
        elif not set(line) <= set("|- "):
            found.setdefault(heading, []).append(dict(zip(head, cells)))
    return found


def quotients(call, comparison):
    """The middle quotients of a call at all sides and cells."""
    rows = [row for heading, table in tables("bench/tables.md").items() if heading.startswith("Images of") for row in table]
    return [float(row[comparison].split()[0]) for row in rows if row["Call"] == call and row[comparison] != "–"]


def times(call):
    """Its times in nanoseconds."""
    rows = [row for heading, table in tables("bench/tables.md").items() if heading.startswith("Images of") for row in table]
    return [int(row["Time"].split()[0]) for row in rows if row["Call"] == call]


def greatest(call, comparison):
    return f"{max(quotients(call, comparison)):.2f}"


def beside_others(column=""):
    """The times and the quotients of the calls beside OpenCV and NumPy, of the columns with that beginning."""
    rows = tables("bench/tables.md")["Beside OpenCV and NumPy"]
    cells = [cell.split(" · ") for row in rows for head, cell in row.items() if head != "Call" and head.startswith(column) and cell != "–"]
    return sorted(float(it[0]) for it in cells), sorted(float(it[1]) for it in cells)


def from_python():
    """The least and the greatest quotient from Python."""
    _, found = beside_others()
    return f"{found[0]:.2f}", f"{found[-1]:.2f}"


def call_of_most():
    """The call with the greatest quotient from Python, with the size of its pixels."""
    rows = tables("bench/tables.md")["Beside OpenCV and NumPy"]
    most = max(((float(cell.split(" · ")[1]), row["Call"], head.split(": ")[1]) for row in rows for head, cell in row.items() if " · " in cell))
    return most[1:]


def a_pixel():
    """The least and the greatest time of a pixel of one byte, 512 by 512."""
    found, _ = beside_others("512: 1 byte")
    return f"{found[0]:.2f}", f"{found[-1]:.2f}"


def frames(edit):
    """The frames a second with an edit."""
    return next(row["Per second"] for row in tables("docs/PERFORMANCE.md")["The video program"] if row["Input"] == "frames" and row["Edit"].startswith(f"`{edit} "))


def scripts(column):
    """The least and the greatest number of a column of the script program."""
    found = sorted((row[column].split()[0] for row in tables("docs/PERFORMANCE.md")["The script program"]), key=float)
    return found[0], found[-1]


def microseconds():
    """The most that a call from Python may take, as its test says."""
    return re.search(r"len\(sys\.argv\) > 1 else (\d+)\)", (ROOT / "bindings/python/tests/speed.py").read_text())[1]


# A page, how it says its numbers, and these.
FIGURES = [
    ("README.md", "From Python a call takes {} to {} times as long as the faster one of OpenCV and NumPy", from_python),
    ("README.md", "`hash` takes up to {} times as long", lambda: (greatest("hash", "vs. original crate"),)),
    ("docs/PERFORMANCE.md", "| {} with a border, up to {} cropped", lambda: (frames("pad"), frames("crop"))),
    ("docs/PERFORMANCE.md", "| {} to {} times the time of the faster one.", from_python),
    ("docs/PERFORMANCE.md", "512 by 512 pixels of one byte {} to {} ns a pixel", a_pixel),
    ("docs/PERFORMANCE.md", "| at most {} microseconds", lambda: (microseconds(),)),
    ("docs/PERFORMANCE.md", "| {} to {} MB of text a second", lambda: scripts("Script per second")),
    ("docs/PERFORMANCE.md", "`hash` up to {} times the original crate", lambda: (greatest("hash", "vs. original crate"),)),
    ("docs/PERFORMANCE.md", "`get` in a loop {} times", lambda: (greatest("sum by get", "vs. original crate"),)),
    ("docs/PERFORMANCE.md", "up to {} times a loop over rows in Rust", lambda: (greatest("fill by pixels_mut", "vs. loop in Rust"),)),
    ("docs/PERFORMANCE.md", "the call takes {} to {} ns", lambda: (str(min(times("mosaic 1 by 1"))), str(max(times("mosaic 1 by 1"))))),
]
# The call that README.md names as the slowest one from Python.
SLOWEST = {
    ("components", "1 byte"): "The slowest labels connected components.",
    ("means of 2 by 2", "3 bytes"): "The slowest takes means of 2 by 2 pixels of three bytes.",
    ("transpose", "3 bytes"): "The slowest transposes pixels of three bytes.",
}


def ages(cases):
    """The commit of each page, and how many have changed the timed crates since."""
    has_git = bool(shutil.which("git"))
    if not has_git or git("rev-parse", "--is-shallow-repository") != "false\n":
        cases.skip("the commits of figures", "history" if has_git else "git", number=len(PAGES))
        cases.count("the pages with figures are there", all((ROOT / it).is_file() for it in PAGES))
        return
    for page, timed in PAGES.items():
        found = NAMED.findall((ROOT / page).read_text())
        cases.count(f"{page} says on which commit it was measured", found, "it names none")
        for commit in found:
            is_here = git("merge-base", "--is-ancestor", commit, "HEAD") is not None
            cases.count(f"{page}: {commit} is a commit of this history", is_here)
            sources = sorted({f"crates/{it}/src" for name in timed for it in with_those_below(name)})
            since = git("rev-list", "--count", f"{commit}..HEAD", "--", *sources).strip() if is_here else "an unknown number of"
            print(f"{page}: {since} commits have changed the timed crates since {commit}")


def main():
    cases = Cases()
    said = SLOWEST.get(call_of_most(), f"no sentence of SLOWEST for {call_of_most()}")
    cases.count(f"README.md: {said}", said in (ROOT / "README.md").read_text())
    ages(cases)
    return cases.end()


if __name__ == "__main__":
    sys.exit(main())
