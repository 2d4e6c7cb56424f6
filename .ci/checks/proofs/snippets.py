#!/usr/bin/env python3
"""The snippets of the documents are true.

A snippet is a run of lines that are indented by four spaces. Those of docs/CALLERS.md and docs/CALLERS_REFERENCE.md, and the
code in README.md, are in a file of the crates, which the gate proves: the lines are there in that order, however far they are
indented. A script in docs/SCRIPT.md gives what the page says, as the model tells (.ci/model.py). Each file that a document names by
its folders is there, and each definition that docs/GLOSSARY.md names is in its file. docs/CALLERS_REFERENCE.md lists the calls of an
image that don't require a fit, and docs/DIFFERENCES.md names those that only the port has.
docs/DECISIONS.md lists each function that is proved by hand. Each name in docs/PROMISES.md and docs/ARCHITECTURE.md is in a
source. The pages of the other languages name each public call of their sources.

What the pages show runs (.ci/shown.py): Python, C, C++, Rust, commands of a shell, and the filter of README.md. With the word
--static nothing of this runs, and each block is only looked for among those that run or are known not to.
"""
import pathlib
import re
import sys

sys.path[:0] = [str(pathlib.Path(__file__).resolve().parents[it]) for it in (2, 1)]
import model
import sentences
import shown
from checking import ROOT, Cases

import api_page
from items import subject

SNIPPET = re.compile(r"(?:^    .*\n)+", re.MULTILINE)
SPAN = re.compile(r"`([^`]+)`")
DEFINED = re.compile(r"`([\w/]+\.antt)`: (`\w+`(?:, `\w+`)*)")
# The types and traits whose calls are those of an image.
OF_IMAGES = ("Img", "ImgVec", "ImgRef", "ImgRefMut", "ImgExt", "ImgExtMut")
# The page that lists them.
REFERENCE = "docs/CALLERS_REFERENCE.md"
# Their calls that the Rust crate has by the same name.
ORIGINAL = set("""as_contiguous_buf as_mut as_ref buf buf_mut clone height height_padded into_buf into_contiguous_buf into_owned
    into_sub_image_mut iter map_buf new new_buf new_stride pixels pixels_mut pixels_ref rows rows_mut rows_padded rows_padded_mut
    stride sub_image sub_image_mut to_contiguous_buf to_owned width width_padded""".split())
# What the reference names beside the calls of an image where it lists exceptions.
BESIDE = {"HasCell", "hash", "next_tile", "remaining"}
# Where the names of the documents are.
SOURCES = ("crates/*/src/**/*.rt", "crates/*/specs/**/*.antt", "crates/*/proofs/**/*.antt", "tools/*.py", ".ci/**/*.py", "include/*", "Makefile")
FILE = re.compile(r"[\w.+-]+(?:/[\w.+-]+)+/?")


def as_lines(text):
    """The lines, each in line feeds, without what they are indented by."""
    return "\n" + "".join(f"{it.strip()}\n" for it in text.splitlines())


def snippets(page):
    """Each snippet of a page, and the text from it to the next one."""
    found = list(SNIPPET.finditer(page))
    ends = [it.start() for it in found[1:]] + [len(page)]
    return [(it.group(), page[it.end() : end].strip()) for it, end in zip(found, ends)]


def quoted(cases, name, texts):
    """Each snippet of code is in the crates."""
    for snippet, _ in snippets((ROOT / name).read_text()):
        if name != "README.md" or re.match(r" *(?:use|fn|pub fn) ", snippet):
            stands = any(as_lines(snippet) in text for text in texts)
            cases.count(f"{name}: {snippet.strip().splitlines()[0]}", stands, f"is in no file of the crates:\n{snippet}")


def tried(cases, name):
    """Each script gives what comes after it: a snippet, or the beginning of the output within the line."""
    parts = snippets((ROOT / name).read_text())
    for (script, text), (output, _) in zip(parts, [*parts[1:], ("", "")]):
        lines = as_lines(script).strip().splitlines()
        if len(lines) < 2 or not lines[0].startswith("image "):
            continue
        within = SPAN.findall(re.split(r"[.:]\s", text)[0]) if text.startswith("gives `") else []
        due = within or as_lines(output).strip().splitlines()
        written, _ = model.answer("".join(f"{it}\n" for it in lines).encode())
        given = written.decode().splitlines()
        cases.count(f"{name}: {lines[0]}", given[: len(due)] == due if within else given == due, f"the page says {due}, the model {given}")


def missing_files(path):
    """What a document names that isn't there. A name in capitals means any, and what is below `out` is built."""
    for name in filter(FILE.fullmatch, SPAN.findall(path.read_text())):
        top = name.split("/")[0]
        tops = [it for it in (ROOT, ROOT / "crates") if top != "out" and (it / top).exists()]
        if tops and not re.search(r"\b[A-Z]{2,}\b", name) and not any((it / name).exists() or any(it.glob(f"{name}.*")) for it in tops):
            yield name


def undefined(text):
    """The definitions of the glossary that aren't in their files, which are in image_model where no folder is named."""
    for name, words in DEFINED.findall(text):
        file = ROOT / "crates" / name if "/" in name else ROOT / "crates/image_model/specs" / name
        stands = set(re.findall(r"\w+", file.read_text())) if file.exists() else set()
        yield from (f"{word} of {name}" for word in SPAN.findall(words) if word not in stands)


def calls_of_images():
    """The public calls of images."""
    for it in api_page.crate_of("imgref").entries:
        of = it.block and (it.block.name if it.block.kind == "trait" else subject(it.block)[0])
        if of in OF_IMAGES and it.item.kind == "fn" and (it.item.is_public or it.block.kind == "trait"):
            yield it.item


def without_fit():
    """Those on an image that don't require that it fits, by their contracts."""
    for it in calls_of_images():
        if "self" in " ".join(it.head) and not any("Fits" in clause.text for clause in it.clauses if clause.kind == "requires"):
            yield it.name


def all_named(cases):
    """The reference names each call of an image, and docs/DIFFERENCES.md each that the Rust crate doesn't have by this name."""
    names = {it.name for it in calls_of_images()}
    for document, needed in ((REFERENCE, names), ("docs/DIFFERENCES.md", names - ORIGINAL)):
        missing = sorted(needed - {*re.findall(r"\w+", (ROOT / document).read_text())})
        cases.count(f"{document}: {len(needed)} calls of images are named", not missing, f"not named: {missing}")


def exceptions(cases):
    """The reference lists the calls that don't require a fit."""
    listed = (ROOT / REFERENCE).read_text().split("These are the exceptions:\n\n")[-1].split("\n\n")[0]
    named, found = {it for it in SPAN.findall(listed) if it.isidentifier()} - BESIDE, {*without_fit()}
    cases.count(f"{REFERENCE}: the calls that don't require a fit", named == found, f"not listed: {sorted(found - named)}, not such: {sorted(named - found)}")


def public_names():
    """Each page for another language, its sources, and the names of their public calls."""
    texts = {it: (ROOT / it).read_text() for it in ("include/imgref.h", "include/imgref.hpp", "bindings/python/imgref/__init__.py")}
    view = texts["include/imgref.hpp"].split("template <class T> class view {")[1].split("\npublic:\n")[1].split("\nprivate:\n")[0]
    python = "".join((ROOT / f"bindings/python/imgref/{it}.py").read_text() for it in ("_image", "_layout"))
    rust = "".join((ROOT / f"bindings/rust/src/{it}.rs").read_text() for it in ("images", "regions"))
    of_python = re.findall(r"(?m)^    def ([a-z]\w+)\(", python) + re.findall(r'"([a-z]\w+)"', re.search(r"__all__ = (\[.*\])", texts["bindings/python/imgref/__init__.py"])[1])
    yield "docs/C.md", "include/imgref.h", re.findall(r"\bimgref_(?:##NAME##_|u\d+_)?(\w+)\(", texts["include/imgref.h"])
    yield "docs/CPP.md", "include/imgref.hpp", re.findall(r"(?m)^    .*?\b(\w*[a-z])\([^()]*(?:\([^()]*\)[^()]*)*\) (?:const )?(?:noexcept )?\{", view)
    yield "docs/RUST.md", "bindings/rust", re.findall(r"(?m)^    pub (?:const )?fn (\w+)", rust)
    yield "docs/PYTHON.md", "bindings/python", of_python
    yield "bindings/python/README.md", "bindings/python", of_python


def members(cases):
    """The pages for other languages name each public call."""
    for page, source, names in public_names():
        said = {word for it in SPAN.findall((ROOT / page).read_text()) for word in re.findall(r"\w+", it.replace("imgref_", ""))}
        missing = sorted({*names} - said)
        cases.count(f"{page}: {len({*names})} calls of {source} are named", len({*names}) >= 30 and not missing, f"not named: {missing}")


def by_hand(cases):
    """docs/DECISIONS.md lists the functions with a whole proof by hand. (TheLaw is a part of one.)"""
    section = (ROOT / "docs/DECISIONS.md").read_text().split("\n## Proved by hand\n")[-1].split("\n## ")[0]
    names = {it.parent.name for it in (ROOT / "crates").glob("*/proofs/**/Proof.antt")} - {"TheLaw"}
    missing = sorted(names - {*re.findall(r"\w+", section)})
    cases.count("docs/DECISIONS.md: the functions that are proved by hand", not missing, f"not listed: {missing}")


def unknown_names(text, known):
    """The names in pieces of code of a document that no source has."""
    spans = SPAN.findall(re.sub("```.*?```", "", text, flags=re.DOTALL))
    return sorted({word for it in spans for word in re.findall(r"[A-Za-z_]\w*", it) if word not in known})


def main(words):
    cases = Cases()
    exceptions(cases)
    all_named(cases)
    by_hand(cases)
    members(cases)
    paths = [it for pattern in SOURCES for it in ROOT.glob(pattern)]
    known = {word for it in paths for word in re.findall(r"\w+", f"{it.relative_to(ROOT)} {it.read_text()}")}
    for name in ("docs/PROMISES.md", "docs/ARCHITECTURE.md"):
        missing = [it for it in unknown_names((ROOT / name).read_text(), known) if not (ROOT / it).exists()]
        cases.count(f"{name}: its names are in the sources", not missing, f"in no source: {missing}")
    missing = list(undefined((ROOT / "docs/GLOSSARY.md").read_text()))
    cases.count("docs/GLOSSARY.md: its definitions", not missing, f"not there: {', '.join(missing)}")
    for path in [ROOT / "README.md", ROOT / "CONTRIBUTING.md", ROOT / "CHANGELOG.md", *sorted((ROOT / "docs").rglob("*.md"))]:
        missing = list(missing_files(path))
        cases.count(f"{path.relative_to(ROOT)}: the files it names", not missing, f"not there: {', '.join(missing)}")
    files = [it for end in ("src/**/*.rt", "proofs/**/*.antt") for it in (ROOT / "crates").glob(f"*/{end}")]
    texts = [as_lines(it.read_text()) for it in files]
    for name in ("README.md", "docs/CALLERS.md", REFERENCE):
        quoted(cases, name, texts)
    tried(cases, "docs/SCRIPT.md")
    pages = [*sentences.documents(), *sorted((ROOT / "man").glob("*"))]
    shown.each_is_tried(cases, pages)
    if "--static" not in words:
        shown.run_all(cases, pages)
    return cases.end()


if __name__ == "__main__":
    sys.exit(main(sys.argv[1:]))
