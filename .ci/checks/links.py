#!/usr/bin/env python3
"""Each link of a page leads somewhere: its file is in the repository, and its anchor is a heading there.

The pages are the documents at the top, those of docs/ and bench/, and those of the packages. A link to another site is left out.
An anchor is made from a heading by GitHub's rules. Marks of Markdown and all signs are dropped, except hyphens and underscores,
and blanks become hyphens. The second heading of the same name ends in `-1`. The names of `<a id=..>` are anchors too. In a file
that isn't a page an anchor is `#L` and the number of a line, and the file has that line. What is below out/ is built, so no page
may link to it. Every run also shows that dead files, anchors and lines are found.

In the pages as they are installed, each link leads to what is installed with them.
"""
import functools
import pathlib
import re
import sys

sys.path.insert(0, str(pathlib.Path(__file__).resolve().parent.parent))
from checking import ROOT, Cases

import installed_pages
import libraries

PAGES = ("*.md", "docs/**/*.md", "bench/*.md", "bindings/*/README.md")
FENCED = re.compile(r"(?ms)^```.*?^```$")
INDENTED = re.compile(r"(?m)^    .*$")
SPAN = re.compile(r"``.+?``|`[^`\n]+`")
# The target of a link or of a picture, also where a line of its own gives it.
LINK = re.compile(r"\]\(\s*<?([^)\s>]+)>?[^)]*\)|^\[[^\]]+\]:\s+(\S+)", re.MULTILINE)
HEADING = re.compile(r"(?m)^#{1,6} +(.*?)(?: +#+)?$")
NAMED = re.compile(r"""<a (?:name|id)=["']([^"']+)["']""")
ELSEWHERE = re.compile(r"[a-z][a-z0-9+.-]*:|//")
# A page with four dead links.
TRIED = """# One `call`, twice
## Why?
## Why?
[1](#one-call-twice), [2](#why), [3](#why-1), [4](#why-2), [5](gone.md), `[6](#gone)`, [7](README.md#gone), [8](Makefile#L{}),
[9](Makefile#L{}), [10](https://example.org/#gone)
""".format(1, 9999)


def anchor(heading):
    """The anchor of a heading, as GitHub makes it."""
    plain = re.sub(r"!?\[([^\]]*)\]\([^)]*\)", r"\1", heading).replace("*", "")
    return re.sub(r"[^\w\- ]", "", plain.lower()).strip().replace(" ", "-")


@functools.cache
def anchors(text):
    """The anchors of a page: one for each heading, and those that it names itself."""
    found, kept = {}, FENCED.sub("", text)
    for heading in HEADING.findall(kept):
        name = anchor(heading)
        found[name] = found.get(name, -1) + 1
    return {it if not number else f"{it}-{number}" for it, last in found.items() for number in range(last + 1)} | {*NAMED.findall(kept)}


def targets(text):
    """Where the links of a page lead. Pieces of code have no links."""
    kept = SPAN.sub("code", INDENTED.sub("", FENCED.sub("", text)))
    return [one or other for one, other in LINK.findall(kept)]


def is_kept(path):
    """Whether a path is in the repository, and not built."""
    if not path.is_relative_to(ROOT) or not path.exists():
        return False
    parts = path.relative_to(ROOT).parts
    return "out" not in (parts[0:1] + parts[2:3])


def fault(page, text, target):
    """Why a link of a page with that text is dead, or nothing."""
    if ELSEWHERE.match(target):
        return ""
    name, _, at = target.partition("#")
    path = (page.parent / name).resolve() if name else page
    if path != page and not is_kept(path):
        return f"{target}: no such file"
    if not at:
        return ""
    if path.suffix == ".md":
        return "" if at in anchors(text if path == page else path.read_text()) else f"{target}: no such heading"
    lines = len(path.read_text().splitlines()) if path.is_file() else 0
    return "" if at in {f"L{it + 1}" for it in range(lines)} else f"{target}: no such line"


def dead(page, text):
    """Each dead link of a page with that text."""
    return [it for it in (fault(page, text, target) for target in targets(text)) if it]


def check_installed(cases):
    """The pages as they are installed and packed, with the pictures that they show."""
    text = "[a](HIDE.md#many-videos), [b](API.md#x), ![c](frames.png), [README.md](../README.md), [d](#e), [f](https://example.org/)"
    due = "[a](HIDE.md#many-videos), b (docs/API.md of the sources), ![c](frames.png), README.md of the sources, [d](#e), [f](https://example.org/)"
    cases.count("a link to what isn't installed becomes words", installed_pages.as_installed(text) == due, installed_pages.as_installed(text))
    files, packed = installed_pages.files(), libraries.sources(with_programs=True)
    cases.count("the pages of the programs and their pictures are installed", len(files) > 3 and files.items() <= packed.items(), f"{[*files]}")
    for path, text in installed_pages.texts().items():
        page, leads = files[path], [it for it in targets(text) if not ELSEWHERE.match(it)]
        outside = [it for it in leads if not it.startswith("#") and f"{installed_pages.FOLDER}/{it.partition('#')[0]}" not in files]
        wrong = outside + dead(page, text)
        cases.count(f"{path}: {len(leads)} links to what is installed", not wrong, "\n".join(f"  {it}" for it in wrong))


def main():
    cases = Cases()
    found = [it.split(":")[0] for it in dead(ROOT / "TRIED.md", TRIED)]
    cases.count("dead links are found", found == ["#why-2", "gone.md", "README.md#gone", "Makefile#L9999"], f"  found: {found}")
    for page in (it for pattern in PAGES for it in sorted(ROOT.glob(pattern))):
        text = page.read_text()
        wrong = dead(page, text)
        cases.count(f"{page.relative_to(ROOT)}: {len(targets(text))} links", not wrong, "\n".join(f"  {it}" for it in wrong))
    check_installed(cases)
    return cases.end()


if __name__ == "__main__":
    sys.exit(main())
