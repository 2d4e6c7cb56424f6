#!/usr/bin/env python3
"""The numbers that pages take from the tree and from its tables are those that `make docs` writes.

    page_numbers.py            whether the pages are fresh
    page_numbers.py --write    writes the numbers, as `make docs` does

A row of NUMBERS, and of FIGURES in figures.py, has the pages, how a page says some numbers (each is `{}`), and where they come from: a count,
a constant of a source, or a table. One of the pages says so. How many functions are proved is known only to a run of
the gate. So README.md says 'More than N', and N is no more than the functions with a contract that the sources have: the gate
proves each of them. A page says of a command how many minutes it takes, and what `.ci/gate.py` prints for it lies within. In a
table of examples, a proof file has as many lines as the page says. (A script named `numbers` would hide a module of Python.)
"""
import pathlib
import re
import sys

sys.path.insert(0, str(pathlib.Path(__file__).resolve().parent.parent))
import always_memory
import figures
import functions
import gate
import sentences
from checking import ROOT, Cases, crates

CONSTANT = r"\b{}\b[^=\n]*= (?:[A-Z_, ]+ = )?([\d_.]+)(?:e(\d+)| << (\d+))?"
# A line that begins with a command, and its minutes.
MINUTES = re.compile(r"(?m)^[| ]*`?make (\w+)`?.*?(?:up to (\d+)|(\d+) to (\d+)) minutes")
PROOF = re.compile(r"an? (invariant|answer): (\d+) lines")
PROOF_FILES = {"invariant": "Invariants.antt", "answer": "Answers.antt"}


def constant(file, name):
    """The number that a source gives to a name."""
    digits, tens, shift = re.search(CONSTANT.format(name), (ROOT / file).read_text()).groups("0")
    return float(digits.replace("_", "")) * 10 ** int(tens) * 2 ** int(shift)


def number_in(file, pattern):
    """The number that a source has at a pattern."""
    return int(re.search(pattern, (ROOT / file).read_text())[1])


def sources():
    """The text of each file of code."""
    return [it.read_text() for it in (ROOT / "crates").glob("*/src/**/*.rt")]


def tests():
    return sum(len(re.findall(r"(?m)^ *#\[test\]$", it)) for it in sources())


def bugs():
    return len([*(ROOT / "crates").glob("*/must-fail/*.edit")])


def with_contracts():
    """How many functions have a clause."""
    return sum(bool(it.clauses) for text in sources() for it, _ in functions.functions(text))


ALL = sentences.documents()
FRAMES, SPANS = "crates/frame_runs/src", "crates/image_planes/src/spans.rt"
WINDOWS, NESTED = "crates/imgref_hostile_tests/src/tests/windows.rt", "crates/window_tests/src/tests/nested.rt"
# The pages (all, where none is named), how a page says a number, and the number.
NUMBERS = [
    ((), "{} tests ·", tests),
    ((), "{} planted bugs refused", bugs),
    (("docs/ARCHITECTURE.md",), "{} crates", lambda: len(crates())),
    (("docs/WEB.md",), "at most {} bytes", lambda: constant(".ci/checks/proofs/web.py", "MOST_BYTES")),
    (("docs/WEB.md",), "{} pixels on a side", lambda: constant("web/open.js", "MOST_SIDE")),
    (("docs/WEB.md",), "{} million in all", lambda: constant("web/open.js", "MOST_PIXELS") / 1e6),
    (("docs/FRAMES.md",), "at most {} bytes, including its line feed", lambda: constant(f"{FRAMES}/program.rt", "LONGEST")),
    (("docs/FRAMES.md",), "{} (1 GiB)", lambda: constant("crates/frame_requests/src/options.rt", "LIMIT")),
    (("docs/GLOSSARY.md",), "{} steps of a plane", lambda: constant(SPANS, "BLOCK")),
    (("docs/DECISIONS.md",), "block of {} steps", lambda: constant(SPANS, "BLOCK")),
    (("docs/PROMISES.md",), "{} random scripts", lambda: constant(".ci/checks/built/scripts.py", "COUNT")),
    (("docs/PROMISES.md",), "{} windows of an image of nine cells", lambda: number_in(WINDOWS, r"for number in 0\.\.(\d+)usize")),
    (("docs/PROMISES.md",), "{} of these windows are inside", lambda: number_in(WINDOWS, r"inside == (\d+)\)")),
    (("docs/PROMISES.md",), "{} pairs of a window in a window", lambda: number_in(NESTED, r"pairs == (\d+)\)")),
    (("docs/PROMISES.md",), "makes {} calls do so", lambda: len(always_memory.CASES) + len(always_memory.RUNS)),
    (("CONTRIBUTING.md",), "more than {} words", lambda: sentences.MOST_WORDS),
    (("CONTRIBUTING.md",), "{} % more", lambda: round(100 * constant(".ci/checks/built/instructions.py", "MARGIN") - 100)),
]


def rows():
    """For each row: its pages by name and as paths, how they say its numbers, and these as texts."""
    for names, said, made in NUMBERS:
        yield names, [ROOT / it for it in names] or ALL, said, [str(int(made()))]
    for name, said, made in figures.FIGURES:
        yield (name,), [ROOT / name], said, made()


def says(text, said):
    """Each place where a text says so, with numbers."""
    return re.finditer(re.escape(said).replace(r"\{\}", r"\b(\d[\d,]*(?:\.\d+)?)"), text)


def with_numbers(text, said, due):
    """A text that says so with these numbers, which have commas where its own have some."""
    for found in reversed([*says(text, said)]):
        for at, number in reversed([*enumerate(due, 1)]):
            text = text[: found.start(at)] + (f"{int(number):,}" if "," in found[at] else number) + text[found.end(at) :]
    return text


def write():
    """Writes each number into its pages."""
    for _, pages, said, due in rows():
        for page in pages:
            text = page.read_text()
            if (new := with_numbers(text, said, due)) != text:
                page.write_text(new)
                print(f"{page.relative_to(ROOT)}: {said.format(*due)}")


def are_fresh(cases):
    """Each row: a page says so, and all that do are what `make docs` writes."""
    for names, pages, said, due in rows():
        texts = [it.read_text() for it in pages]
        is_well = any(True for it in texts for _ in says(it, said)) and all(with_numbers(it, said, due) == it for it in texts)
        cases.count(f"{' '.join(names) or 'pages'}: {said.format(*due)}", is_well, "  it isn't what `make docs` writes today, or no page says it")


def proved(cases):
    """README.md doesn't say more functions than have a contract."""
    found, most = re.search(r"More than ([\d,]+) functions", (ROOT / "README.md").read_text()), with_contracts()
    said = int(found[1].replace(",", "")) if found else 0
    cases.count(f"README.md: more than {said} functions are proved, of {most} with a contract", 0 < said < most)


def minutes(cases):
    """What pages say of the time of a command is one range, and has what the gate says."""
    said = {}
    for page in ALL:
        for name, most, least, greatest in MINUTES.findall(page.read_text()):
            said.setdefault(name, set()).add((int(least or 0), int(most or greatest)))
    for name in gate.MINUTES.keys() & said.keys():
        ranges = said[name]
        is_well = len(ranges) == 1 and all(least <= gate.MINUTES[name] <= most for least, most in ranges)
        cases.count(f"make {name}: {gate.MINUTES[name]} minutes", is_well, f"  the pages say {sorted(ranges)}")
    missing = {"test", "gate"} - said.keys()
    cases.count("the pages say the minutes of make test and make gate", not missing, f"  not of {sorted(missing)}")


def proof_lines(cases):
    """The lines of proof files in tables of examples, of any example of the row."""
    files = [it for it in (ROOT / "crates").glob("*/proofs/**/*.antt") if it.name in PROOF_FILES.values()]
    for page in ALL:
        for names, said in re.findall(r"(?m)^\| (`\w+`[^|]*)\|(.*)", page.read_text()):
            mine = [it for it in files if it.parent.name in re.findall(r"`(\w+)`", names)]
            for kind, lines in PROOF.findall(said):
                found = [len(it.read_text().splitlines()) for it in mine if it.name == PROOF_FILES[kind]]
                cases.count(f"{page.name}: {names.strip()}: an {kind} of {lines} lines", int(lines) in found, f"  there are {found}")


def main():
    cases = Cases()
    are_fresh(cases)
    proved(cases)
    minutes(cases)
    proof_lines(cases)
    return cases.end()


if __name__ == "__main__":
    sys.exit(write() if sys.argv[1:] == ["--write"] else main())
