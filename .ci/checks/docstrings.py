#!/usr/bin/env python3
"""Every public item of imgref, image_tiles, image_commands and imgref_replay is documented.

A function, struct, enum, trait or type alias, a field and a variant has `///` lines. Those of a function with a `requires`
clause have the heading `# Requires`, and those of one that returns a `Result` the heading `# Errors`. In an impl of a trait
the conditions may be told above the impl.
"""
import pathlib
import re
import sys

sys.path.insert(0, str(pathlib.Path(__file__).resolve().parent.parent))
from checking import ROOT, Cases

import api_page
from items import read, subject

CRATES = ["imgref", "image_tiles", "image_commands", "imgref_replay"]
DOCUMENTED = ("fn", "struct", "enum", "trait", "type")
MEMBER = re.compile(r" +(?:pub )?(\w+)(?:: .*,| \{|\(.*\),|,)$")


def lacks(item, told):
    """What the lines of a function leave out: its own, or those of its block too."""
    if "# Requires" not in told and any(it.kind == "requires" for it in item.clauses):
        yield f"{item.name} has a condition and no `# Requires`"
    if "# Errors" not in told and re.search(r"-> *Result<", "\n".join(item.head)):
        yield f"{item.name} returns a Result and has no `# Errors`"


def undocumented(item):
    """The public fields and the variants of a type that have no lines."""
    before = ""
    for line in api_page.fields(item) if item.kind in ("struct", "enum") else ():
        named = MEMBER.match(line)
        if named and not before.strip().startswith("///"):
            yield f"{item.name}::{named[1]} isn't documented"
        before = line if not line.strip().startswith("#[") else before


def faults(item, block=None):
    """What an item, and those inside it, leave out."""
    is_shown = item.is_public or item.kind == "fn" and block and block.kind == "trait"
    # (what a function of a trait does is told by the trait, and its conditions perhaps above the impl)
    of_trait = block and block.kind == "impl" and subject(block)[1]
    if item.kind in DOCUMENTED and is_shown and not of_trait:
        yield from [f"{item.name} isn't documented"] * (not item.told) + [*undocumented(item)]
    if item.kind == "fn" and (is_shown or of_trait and any(it.kind == "requires" for it in item.clauses)):
        yield from lacks(item, [*item.told, *(block.told if of_trait else [])])
    for it in item.members:
        yield from faults(it, item)


def main():
    cases = Cases()
    for crate in CRATES:
        for path in sorted((ROOT / "crates" / crate / "src").glob("*.rt")):
            found = [f"  line {it.line + 1}: {fault}" for it in read(path.read_text().splitlines()) for fault in faults(it)]
            cases.count(str(path.relative_to(ROOT)), not found, "\n".join(found))
    return cases.end()


if __name__ == "__main__":
    sys.exit(main())
