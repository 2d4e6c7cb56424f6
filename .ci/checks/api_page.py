#!/usr/bin/env python3
"""docs/API.md and docs/CRATES.md are what `make docs` writes, and the first is whole with the page that isn't kept, out/INNER.md.

docs/API.md is compared with what tools/api_page.py makes of the code today; the other page is made anew. Each public function of
the crates is on one of both, as a search of the files by words alone finds them. Each that docs/API.md leaves out is on the
other page. Each link leads to the line of that definition, or to a place of the page.
"""
import pathlib
import re
import sys

sys.path.insert(0, str(pathlib.Path(__file__).resolve().parent.parent))
from checking import ROOT, Cases

import api_page
import crates_page

FUNCTION = re.compile(r"^(?: {4})?pub (?:const )?fn (\w+)", re.MULTILINE)
LABEL = re.compile(r"^\[([\w.]+)\]: (?:#(\S+)|([^\s#]+)(?:#L(\d+))?)$", re.MULTILINE)
USED = re.compile(r"(?<!\\)\[([\w.]+)\](?:\[([\w.]+)\])?")
ANCHOR = re.compile(r'<a id="([^"]+)">')


def functions(crates):
    """The public functions of crates, with the file of each."""
    for crate in crates:
        for path in sorted((ROOT / "crates" / crate / "src").glob("*.rt")):
            yield from ((path.relative_to(ROOT), it) for it in FUNCTION.findall(path.read_text()))


def lost_links(path, text):
    """The words of clauses without a link, and those whose link leads elsewhere: the line has the word, or its name there."""
    anchors, labels = set(ANCHOR.findall(text)), {it[0] for it in LABEL.findall(text)}
    clauses = "\n".join(re.findall(r"<code>(.*)</code>", text))
    yield from sorted({whole or short for short, whole in USED.findall(clauses)} - labels)
    for label, anchor, file, line in LABEL.findall(text):
        if anchor and anchor not in anchors:
            yield label
        elif file:
            lines = (path.parent / file).resolve().read_text().splitlines()
            found = lines[int(line) - 1] if line else "\n".join(lines[: api_page.TOP])
            word = label.split(".")[-1]
            if not re.search(rf"\b({word}|{word.removesuffix('_of')})\b", found):
                yield f"{label}: {found.strip()}"


def missing(crates, text):
    """The public functions of crates that pages lack."""
    return [f"  {file}: {it}" for file, it in functions(crates) if not re.search(rf"^(?:pub )?(?:const )?fn {it}\b", text, re.MULTILINE)]


def main():
    cases = Cases()
    texts = {name: api_page.Page(name).text() for name in api_page.PAGES}
    kept = (ROOT / api_page.API).read_text() if (ROOT / api_page.API).exists() else ""
    cases.count(f"{api_page.API} is fresh", kept == texts[api_page.API], "it isn't what `make docs` writes today")
    cases.count(f"{crates_page.PAGE} is fresh", (ROOT / crates_page.PAGE).read_text() == crates_page.text(), "it isn't what `make docs` writes today")
    for name, text in texts.items():
        lost = [f"  {it}" for it in lost_links(ROOT / name, text)]
        cases.count(f"{name}: {len(LABEL.findall(text))} words lead to their definitions", not lost, "\n".join(lost))
        inside = set(re.findall(r"\]\(#([^)]+)\)", text)) - set(ANCHOR.findall(text))
        cases.count(f"{name}: its index leads to each name", not inside, str(sorted(inside)))
    crates = sorted({it for _, names, _ in api_page.PAGES.values() for it in names})
    lacking = missing(crates, "\n".join(texts.values()))
    cases.count("both pages have each public function", not lacking, "\n".join(lacking))
    names = {it.split(".", 1)[1].replace(".", "::") for it in ANCHOR.findall(texts[api_page.INNER])}
    unknown = api_page.NOT_FOR_USERS - names
    cases.count(f"{api_page.INNER} has each name that {api_page.API} leaves out", not unknown, str(sorted(unknown)))
    return cases.end()


if __name__ == "__main__":
    sys.exit(main())
