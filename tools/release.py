#!/usr/bin/env python3
"""Writes out/release/: all that a user has without the toolchain, made from the proved crates (docs/RELEASE.md).

    release.py build     the libraries for C, the wheels, the Rust package, the Debian packages and the page, with their sums
    release.py verify [FOLDER]     what is wrong with a release: out/release/, or that folder

A tree with changes, a crate that isn't proved and a version without its section in CHANGELOG.md are refused. The same commit gives
the same bytes: times are that of the commit, and no file names a folder of this machine.
"""
import concurrent.futures
import json
import os
import pathlib
import shutil
import sys

import c_library
import debian
import inspection
import libraries
import rust_package
import version
import web
import wheels
from c_library import Failure, command
from packing import sum_of, sum_of_tree, tar_gz
from processes import end_on_signals
from program import built, say
from proving import all_below, processors, said_with
from version import VERSION
from workspace import PARTS, ROOT, with_those_below

OUT = ROOT / "out/release"
PRODUCT = (*c_library.PROGRAMS, c_library.NAME)
PAGE = f"imgref-{VERSION}-page.html"


def git(*words):
    return command("git", "-C", ROOT, *words).strip()


def refuse():
    """Refuses what must not be released."""
    if changes := git("status", "--porcelain"):
        raise Failure(f"the tree has changes, so no commit says what is released:\n{changes}")
    if not version.sections().get(VERSION, ("", ""))[1]:
        raise Failure(f"CHANGELOG.md has no section '## [{VERSION}] - DATE' with a text")
    if wrong := version.differing():
        raise Failure(f"another version than {VERSION}: {', '.join(wrong)}. Run tools/version.py write")
    if built(*PRODUCT):
        raise Failure("a crate is not proved")


def sources(name):
    """The sum of each folder of a crate's sources."""
    return {it: sum_of_tree(ROOT / "crates" / name / it) for it in PARTS if (ROOT / "crates" / name / it).is_dir()}


def verdict(name):
    """What the prover says of a crate, over its cached proofs: the line is kept as long as no source changes."""
    key = sum_of(json.dumps([version_of_kit(), *(sources(it) for it in with_those_below(name))]).encode())
    kept = ROOT / "crates" / name / "out/verdict"
    if kept.is_file() and kept.read_text().startswith(f"{key} "):
        return kept.read_text().split(" ", 1)[1].strip()
    said, status = said_with(name, {})
    if status:
        raise Failure("\n".join([*said, f"{name} is not proved"]))
    line = libraries.verdict("\n".join(said))
    kept.write_text(f"{key} {line}\n")
    return line


def version_of_kit():
    return command("rt", "version").strip()


def provenance(folder):
    """What the files of a release come from: the commit, the verdict of each crate, the tools, and the sums."""
    names = all_below(PRODUCT)
    with concurrent.futures.ThreadPoolExecutor(processors()) as pool:
        verdicts = dict(zip(names, pool.map(verdict, names)))
    kit, _, logic = version_of_kit().partition(" logic ")
    first = lambda *words: command(*words).splitlines()[0]
    return {
        "version": VERSION,
        "commit": git("rev-parse", "HEAD"),
        "kit": kit,
        "logic": logic,
        "crates": [{"name": it, "functions": functions(line), "verdict": line, "sources": sources(it)} for it, line in verdicts.items()],
        "built for": {libraries.OTHER.triple: (libraries.OTHER.out() / "verdict").read_text().strip()},
        "tools": {
            "linker": first(*c_library.compiler(), "--version"),
            "linker for aarch64": first(f"{libraries.OTHER.tools}gcc", "--version"),
            "cargo": first("cargo", "--version"),
            "dpkg-deb": first("dpkg-deb", "--version"),
            "python": [first(it, "--version") for it in wheels.chosen()],
        },
        "artefacts": {it.name: sum_of(it.read_bytes()) for it in sorted(folder.iterdir())},
    }


def functions(line):
    """How many functions a verdict counts."""
    return int(next(it for it in line.split() if it.startswith("functions=")).partition("=")[2])


def build():
    """Makes the release in a folder beside, and puts it into its place once it is whole."""
    refuse()
    seconds, folder = int(git("log", "-1", "--format=%ct")), OUT.with_name("release.new")
    shutil.rmtree(folder, ignore_errors=True)
    folder.mkdir(parents=True)
    os.environ["SOURCE_DATE_EPOCH"] = str(seconds)
    libraries.build()
    for it in libraries.BOTH:
        tar_gz(folder / f"imgref-{VERSION}-{it.name}-linux.tar.gz", it.tree(with_programs=it == libraries.HERE), seconds)
    wheels.build(folder)
    rust_package.build(folder)
    debian.build(folder, seconds)
    web.build()
    (folder / PAGE).write_text(web.alone())
    (folder / "PROVENANCE.json").write_text(json.dumps(provenance(folder), indent=2) + "\n")
    sums = "".join(f"{sum_of(it.read_bytes())}  {it.name}\n" for it in sorted(folder.iterdir()))
    (folder / inspection.SUMS).write_text(sums)
    verify(folder)
    shutil.rmtree(OUT, ignore_errors=True)
    folder.rename(OUT)
    say("".join(f"out/release/{it.name}, {-(-it.stat().st_size // 1000)} KB\n" for it in sorted(OUT.iterdir())).rstrip())


def verify(folder):
    """Refuses a release with a fault."""
    if found := [*inspection.faults(folder)]:
        raise Failure("\n".join(["the release has a fault:", *found]))


def main(words):
    if words == ["build"]:
        build()
    elif words[:1] == ["verify"] and len(words) <= 2:
        verify(pathlib.Path(words[1]) if words[1:] else OUT)
        say("no fault")
    else:
        sys.exit(__doc__)


if __name__ == "__main__":
    end_on_signals()
    try:
        main(sys.argv[1:])
    except (Failure, web.Failure) as why:
        sys.exit(str(why))
    except KeyboardInterrupt:
        sys.exit("interrupted: what is proved so far stays")
