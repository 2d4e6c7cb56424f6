#!/usr/bin/env python3
"""The version of this port: the file VERSION has it, and CHANGELOG.md its date.

    version.py write     writes both into each file that can't read them
    version.py           says which of these files differ

A header, a manifest, a program and a man page hold the version as text, and FORMS says where. All else reads it here: the
file for pkg-config, those for CMake, the wheel and the packages of a release.
"""
import re
import sys

from workspace import ROOT

VERSION = (ROOT / "VERSION").read_text().strip()
MAJOR, MINOR, PATCH = VERSION.split(".")
# The section of a version in CHANGELOG.md, with its date and its text.
SECTION = re.compile(r"(?ms)^## \[(\d+\.\d+\.\d+)\] - (\d{4}-\d\d-\d\d)\n(.*?)(?=^## |\Z)")
# Each file that holds the version, with forms around what is to be there.
FORMS = {
    "include/imgref.h": [
        (r'(#define IMGREF_VERSION ")[^"]*(")', VERSION),
        *((rf"(#define IMGREF_VERSION_{name} )\d+()", number) for name, number in (("MAJOR", MAJOR), ("MINOR", MINOR), ("PATCH", PATCH))),
    ],
    "bindings/python/pyproject.toml": [(r'(?m)(^version = ")[^"]*(")', VERSION)],
    "bindings/python/imgref/__init__.py": [(r'(__version__ = ")[^"]*(")', VERSION)],
    "bindings/rust/Cargo.toml": [(r'(?m)(^version = ")[^"]*(")', VERSION)],
    "crates/imgref_frames/src/main.rt": [(r'(VERSION: &str = "imgref_frames )[^"]*(")', VERSION)],
    **{page: [(r"(find_package\(imgref )\S+( REQUIRED\))", f"{MAJOR}.{MINOR}")] for page in ("docs/C.md", "docs/CPP.md")},
}
MAN = r'(?m)(^\.TH \S+ \d )\S+ "imgref [^"]*(")'


def sections():
    """The versions of CHANGELOG.md, the newest first, each with its date and its text."""
    return {version: (date, text.strip()) for version, date, text in SECTION.findall((ROOT / "CHANGELOG.md").read_text())}


def date():
    """The day of this version, or None where CHANGELOG.md has no section for it."""
    return sections().get(VERSION, (None,))[0]


def forms():
    """Each file with its forms. A man page has the day too, once there is one."""
    pages = {f"man/{it.name}": [(MAN, f'{date()} "imgref {VERSION}')] for it in sorted((ROOT / "man").iterdir())} if date() else {}
    return FORMS | pages


def written(name, places):
    """The text of a file as it should be, and the places that it lacks."""
    text, lacking = (ROOT / name).read_text(), []
    for form, value in places:
        text, count = re.subn(form, lambda it: f"{it[1]}{value}{it[2]}", text)
        lacking += [form] * (count != 1)
    return text, lacking


def differing():
    """The files that have another version, or lack the place for it."""
    found = {name: written(name, places) for name, places in forms().items()}
    return [name for name, (text, lacking) in found.items() if lacking or text != (ROOT / name).read_text()]


def main(words):
    if words == ["write"]:
        for name, places in forms().items():
            text, lacking = written(name, places)
            if lacking:
                sys.exit(f"{name} has no place, or two, for {lacking[0]}")
            if text != (ROOT / name).read_text():
                (ROOT / name).write_text(text)
    elif words:
        sys.exit(__doc__)
    print("\n".join(differing()) or f"{VERSION} everywhere")
    return bool(differing())


if __name__ == "__main__":
    sys.exit(main(sys.argv[1:]))
