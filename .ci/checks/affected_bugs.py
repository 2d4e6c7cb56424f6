#!/usr/bin/env python3
"""Shows which planted bugs a change affects, and which crates: .ci/changed.py, beside an old tree that differs in one place. And that of
the bugs that are planted together no goal of one is taken for another's, and none is tried alone without need.

A change of a body affects the bugs of that function alone, one of a contract those of its callers too, one of a definition those of each
function that cites it, in other crates too. What only moved and a comment affect none. A change of a crate is one of those above it
too. One of a page is none of a crate, and one of a tool may be one of all.
"""
import collections
import pathlib
import sys
import unittest.mock

sys.path.insert(0, str(pathlib.Path(__file__).resolve().parent.parent))
from checking import ROOT, Cases, crates

import planted_bugs
from bugs import batches, plant
from changed import Changes, since
from planted_bugs import all_bugs, folder_of_copy, is_unreadable, names_of, said_of, try_together

COUNTING = "crates/image_ops/src/counting.rt"
CONTRACT = "    requires { F.IsAlwaysCallable f.now }\n    ensures { IsCount (F.post f.now) row.now result }\n{\n    "
# What differs in the old tree: a file, its text and what was in its place. Then the functions whose bugs are affected, and the crates
# that may have no other (None: none has another).
CASES = [
    ("a body", COUNTING, "SMALL && row.len() >= WIDE", "SMALL && row.len() > WIDE", {"image_ops/count_in_row"}, None),
    ("a contract", COUNTING, f"{CONTRACT}let mut count = 0;\n    let mut rest", f"{CONTRACT.replace('row.now', 'row')}let mut count = 0;\n    let mut rest", {"image_ops/count_by_blocks", "image_ops/count_in_row"}, None),
    ("a constant", COUNTING, "const BLOCK: usize = 224;", "const BLOCK: usize = 208;", {"image_ops/count_by_blocks"}, None),
    ("a comment", COUNTING, "// The number in a row, block by block.", "// Another comment.", set(), None),
    ("a definition", "crates/image_ops/specs/Counting.antt", "count ≡ count_by test values", "count ≡ count_by test (values)", {"image_ops/count_by_blocks", "image_ops/count_in_row", "image_ops/count_pixels", "imgref/count_where"}, {"row_mover", "image_turns", "texts", "devices"}),
]

# A copied proof file. And what is said of one or of a source: whether that could not be read, so that its bugs are tried one by one.
ANSWERS = "proofs/means/planted_bug/Answers.antt"
MESSAGES = [
    ("a stale answer", f"./{ANSWERS}:13:53: error: `returns`: the two types differ", False),
    ("what depends on one", f"./{ANSWERS}:55:5: error: 1 declaration that depends on `returns`, which was rejected, was not checked: sums", False),
    ("all that depend on one", f"./{ANSWERS}:41:5: error: 4 declarations that depend on `sums`, which was rejected, were not checked: a, b and 2 more", False),
    ("a word that is missing", "src/means.rt:7:5: error: `sums`: the name is not in scope", True),
    ("a word too many", "src/means.rt:7:5: error: expected the end of the item", True),
    ("another file", "./proofs/Lib.antt:7:5: error: expected the end of the item", False),
]
# What is said of a name that two functions have.
TWO = "rattle: error: several functions are named `eq`: help: write one of `images::One::eq`, `images::Other::eq`"


def now():
    """The texts of the crates as they are, by their paths."""
    files = [it for end in ("rt", "antt", "edit") for it in (ROOT / "crates").rglob(f"*.{end}") if "out" not in it.parts]
    return {it.relative_to(ROOT).as_posix(): it.read_text(encoding="utf-8") for it in files}


def functions_affected(bugs, old):
    """The functions of the bugs that this old tree makes affected, each by its crate and name."""
    changes = Changes(old)
    return {f"{name}/{function.name}" for name, found in bugs.items() for bug in found if changes.affects(bug) for _, function in bug.functions}


def main():
    cases, texts = Cases(), now()
    bugs, bad = all_bugs([*crates()], [])
    cases.count("each planted bug can be planted", bugs and not bad, "\n".join(bad))
    check_lines(cases, bugs)
    check_together(cases, bugs)
    found = functions_affected(bugs, texts)
    cases.count("the same tree affects none", not found, f"{found}")
    found = functions_affected(bugs, {path.replace("/counting", "/moved").replace("crates/imgref/", "crates/another/"): text for path, text in texts.items()})
    cases.count("files that only moved affect none", not found, f"{found}")
    for what, path, text, before, wanted, spared in CASES:
        cases.count(f"{what}: its text is there once", texts[path].count(text) == 1, path)
        found = functions_affected(bugs, {**texts, path: texts[path].replace(text, before)})
        more = {it for it in found - wanted if spared is None or it.split("/")[0] in spared}
        cases.count(f"{what}: affects {', '.join(sorted(wanted)) or 'none'}{' and who else cites it' if spared else ''}", wanted <= found and not more, f"affected: {sorted(found)}")
    check_crates(cases, texts)
    return cases.end()


def check_lines(cases, bugs):
    """Bugs that are planted together have no line in common: the goal of one, told at its first attribute, refuses no other."""
    shared = set()
    for name, found in bugs.items():
        for batch in batches(found):
            spans = plant(batch, ROOT / "crates" / name).spans
            of_each = [{(file, line) for file, first, last in it for line in range(first, last + 1)} for it in spans.values()]
            shared |= {(name, *it) for it, times in collections.Counter(line for lines in of_each for line in lines).items() if times > 1}
    cases.count("bugs that are planted together have lines of their own", not shared, str(sorted(shared)[:5]))


def check_together(cases, bugs):
    """Only what can't be read has the bugs of a check tried one by one, and where it is a copy's proof file, that bug alone. Of a name that
    several functions have each is checked."""
    for what, line, wanted in MESSAGES:
        cases.count(f"{what}: {'the bugs are tried one by one' if wanted else 'the check goes on'}", is_unreadable(line, {ANSWERS: ""}) == wanted, line)
    asked = []

    def said(_, __, words):
        asked.append(words[1::2])
        return ([TWO], 2) if "eq" in words else ([], 1)

    with unittest.mock.patch.object(planted_bugs, "said_with", said):
        _, status = said_of("images", {}, ["eq", "turn"])
    crate = ROOT / "crates/image_means"
    lost, other = [it for it in bugs["image_means"] if it.folder][:2]
    file, first, _ = plant([lost, other], crate).spans[other.name][0]
    lines = [f"./{folder_of_copy(lost, crate)}Answers.antt:5:9: error: module `Goals` has no name `sums`", f"note: {file}:{first}:1: it is not proved"]
    with unittest.mock.patch.object(planted_bugs, "said_of", lambda *_: (lines, 1)):
        refused, left, _ = try_together("image_means", [lost, other], names_of)
    cases.count("a copy's proof file that can't be read: that bug alone is tried again", [*refused] == [other.name] and left == [lost], f"{[*refused]} {left}")
    cases.count("a name that two functions have: each is checked", status == 1 and asked == [["eq", "turn"], ["turn", "images::One::eq", "images::Other::eq"]], asked)


def check_crates(cases, texts):
    """Which crates differ, and whether more does."""
    lists = (ROOT / "crates.txt").read_text(encoding="utf-8")
    for what, old, paths, wanted, spared, has_more in [
        ("the same tree", texts, (), set(), {*crates()}, False),
        ("pages", texts, ("README.md", "docs/C.md", "web/save.js", ".ci/last_landed", "crates/image_ops/must-fail/x.edit"), set(), {*crates()}, False),
        ("a tool", texts, ("docs/C.md", "tools/proving.py"), set(), {*crates()}, True),
        ("the input of a crate's program", texts, ("crates/imgref_run/stdin",), set(), {*crates()}, True),
        ("a crate", {**texts, COUNTING: texts[COUNTING] + "//\n"}, (COUNTING,), {"image_ops", "imgref", "imgref_frames"}, {"image_turns", "row_mover"}, False),
    ]:
        found = since(old, lists, paths)
        is_well = wanted <= {*found.crates} and not spared & {*found.crates} and found.has_more == has_more
        cases.count(f"{what}: {'more than crates and pages' if has_more else 'no more than crates and pages'}, and {', '.join(sorted(wanted)) or 'no crate'}", is_well, found)
    found = since(texts, lists.replace("image_planes: image_means", "image_planes: "), ())
    cases.count("a line of the list of crates: that crate and those above it", {"image_planes", "imgref_frames"} <= {*found.crates} and "imgref" not in found.crates, found)


if __name__ == "__main__":
    sys.exit(main())
