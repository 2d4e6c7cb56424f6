#!/usr/bin/env python3
"""The library for C: out/c/libimgref.a, libimgref.so and imgref.pc, over the proved crate imgref_c.

    c_library.py build             proves the crate where one of its sources has changed, and builds the library
    c_library.py install PREFIX [DESTDIR]
                                   the same for the two programs too, and copies below PREFIX: the library, its headers, the
                                   programs, the man pages, and what pkg-config and CMake read. With DESTDIR the files go
                                   below DESTDIR/PREFIX, and name only PREFIX: for a package

CC names the compiler that links (cc). Only names that begin with imgref_ are exported. What the crate needs of the
toolchain's own C code is linked in, so that a user needs no toolchain.
"""
import dataclasses
import os
import pathlib
import shutil
import sys

import installed_pages
from processes import end_on_signals, run_to_end
from program import built, say
from version import MAJOR, MINOR, VERSION
from workspace import ROOT, held, is_fresh, product

NAME = "imgref_c"
HEADER = ROOT / "include/imgref.h"
HEADERS = [HEADER, ROOT / "include/imgref.hpp"]
PROGRAMS = ("imgref_run", "imgref_frames")
MAN = ROOT / "man"
# imgref-hide: its modules, those of the examples that it shares, and what completes its words in a shell.
HIDE = ROOT / "programs"
SHARED = ("boxes.py", "detect_faces.py", "detect_people.py", "detecting.py", "review.py", "y4m.py")
COMPLETIONS = {"share/bash-completion/completions/imgref-hide": "imgref-hide.bash", "share/zsh/site-functions/_imgref-hide": "_imgref-hide"}
OUT = ROOT / "out/c"
# The number that changes where a built caller has to be built again.
ABI = "1"
EXPORTS = "imgref_*"
# Functions begin at multiples of so many bytes.
APART = 16


class Failure(Exception):
    """What can't be built, and why."""


def command(*words):
    """Runs a command and returns its output. Where its status isn't 0, that is a Failure."""
    ran = run_to_end(words)
    if ran.returncode:
        raise Failure(f"{' '.join(map(str, words))}\n{ran.stdout}{ran.stderr}")
    return ran.stdout


def package(prefix, include, lib):
    """The text of the file that pkg-config reads."""
    places = f"prefix={prefix}\nincludedir={include}\nlibdir={lib}\n"
    named = f"Name: imgref\nDescription: Strided 2D images, over proved calls\nVersion: {VERSION}\n"
    return f"{places}\n{named}Cflags: -I${{includedir}}\nLibs: -L${{libdir}} -limgref\n"


def cmake():
    """What CMake's find_package reads: two targets with paths that begin at the file itself, so the folder may be moved."""
    targets = {"imgref": ("SHARED", f"libimgref.so.{ABI}", f"IMPORTED_SONAME libimgref.so.{ABI}"), "static": ("STATIC", "libimgref.a", "IMPORTED_LINK_INTERFACE_LANGUAGES C")}
    lines = ["# imgref::imgref is the shared object, and imgref::static the archive.", 'get_filename_component(_imgref_prefix "${CMAKE_CURRENT_LIST_DIR}/../../.." ABSOLUTE)']
    for name, (kind, file, more) in targets.items():
        properties = f'IMPORTED_LOCATION "${{_imgref_prefix}}/lib/{file}" INTERFACE_INCLUDE_DIRECTORIES "${{_imgref_prefix}}/include" {more}'
        lines += [f"if(NOT TARGET imgref::{name})", f"  add_library(imgref::{name} {kind} IMPORTED)", f"  set_target_properties(imgref::{name} PROPERTIES {properties})", "endif()"]
    lines += [f'set(imgref_VERSION "{VERSION}")', "unset(_imgref_prefix)", ""]
    # (before 1.0.0 the second number may change what a caller sees)
    fits = f'PACKAGE_FIND_VERSION VERSION_GREATER "{VERSION}" OR NOT PACKAGE_FIND_VERSION MATCHES "^{MAJOR}(\\.{MINOR}(\\..*)?)?$"'
    version = [f'set(PACKAGE_VERSION "{VERSION}")', f"if({fits})", "  set(PACKAGE_VERSION_COMPATIBLE FALSE)", "else()", "  set(PACKAGE_VERSION_COMPATIBLE TRUE)"]
    version += ["  if(PACKAGE_FIND_VERSION VERSION_EQUAL PACKAGE_VERSION)", "    set(PACKAGE_VERSION_EXACT TRUE)", "  endif()", "endif()", ""]
    return {"imgref-config.cmake": "\n".join(lines), "imgref-config-version.cmake": "\n".join(version)}


@dataclasses.dataclass(frozen=True)
class Tools:
    """The tools that link for a processor, and the archives of the toolchain's own C code that are linked in."""

    compiler: list
    objcopy: str
    archiver: str
    archives: list


def compiler():
    return os.environ.get("CC", "cc").split()


def toolchain():
    """The archives of the toolchain's own C code, for this machine."""
    kit = pathlib.Path(shutil.which("rt")).resolve().parent.parent
    return sorted(it for it in (kit / "c").glob("lib*.a"))


def shift(file, places):
    """Writes an assembler file of nothing that, linked first, moves all code after it by so many times 16 bytes. Returns its name."""
    file.write_text(f'.section .note.GNU-stack,"",@progbits\n.text\n.balign 64\n.skip {APART * places + 1}\n')
    return file


def link(archive, out, its):
    """Links an archive into one object that exports only the header's names, and makes both libraries from it in a folder."""
    whole, shared, static = out / "imgref.o", out / f"libimgref.so.{ABI}", out / "libimgref.a"
    static.unlink(missing_ok=True)
    command(*its.compiler, "-r", "-nostdlib", "-o", whole, "-Wl,--whole-archive", archive, "-Wl,--no-whole-archive", *its.archives)
    command(its.objcopy, "--wildcard", f"--keep-global-symbol={EXPORTS}", "--strip-debug", whole)
    command(*its.compiler, "-shared", "-nostartfiles", "-o", shared, whole, f"-Wl,-soname,{shared.name}", "-Wl,-z,defs", "-Wl,-z,noexecstack", "-Wl,-z,relro", "-Wl,-z,now", "-Wl,--gc-sections", "-Wl,-s")
    # (made last, since its time tells whether all of them are fresh; D leaves out times and owners)
    command(its.archiver, "rcsD", static, whole)
    whole.unlink()


def linked(folder, is_installed):
    """The name by which a linker finds the shared object."""
    name, shared = folder / "libimgref.so", folder / f"libimgref.so.{ABI}"
    name.unlink(missing_ok=True)
    if is_installed:
        name.symlink_to(shared.name)
    else:
        # (`rt all` fails at a symbolic link in the repository)
        name.hardlink_to(shared)


def build():
    """Builds what has changed."""
    if built(NAME):
        raise Failure(f"{NAME} is not proved")
    OUT.mkdir(parents=True, exist_ok=True)
    with held(OUT):
        if not is_fresh(OUT / "libimgref.a", NAME):
            link(product(NAME), OUT, Tools(compiler(), "objcopy", "ar", toolchain()))
        linked(OUT, is_installed=False)
        (OUT / "imgref.pc").write_text(package(OUT, HEADER.parent, OUT))
    say(f"{OUT.relative_to(ROOT)}/libimgref.a, libimgref.so, imgref.pc")


def installed():
    """The files that are copied below a prefix, by their paths there."""
    folders = {
        "include": HEADERS,
        "lib": [OUT / "libimgref.a", OUT / f"libimgref.so.{ABI}"],
        "bin": [product(it) for it in PROGRAMS],
        **{f"share/man/man{it}": sorted(MAN.glob(f"*.{it}")) for it in (1, 3)},
    }
    files = {f"{below}/{it.name}": it for below, sources in folders.items() for it in sources}
    return files | {"bin/imgref-boxes": ROOT / "examples/boxes.py"} | scripts_and_pages()


def scripts_and_pages():
    """The files of imgref-hide, the examples that it shares and the pages of the programs, by their paths below a prefix."""
    files = {"bin/imgref-hide": HIDE / "imgref-hide"} | {path: HIDE / "completions" / name for path, name in COMPLETIONS.items()}
    files |= {f"share/imgref/programs/imgref_hide/{it.name}": it for it in sorted((HIDE / "imgref_hide").glob("*.py"))}
    files |= {f"share/imgref/examples/{it}": ROOT / "examples" / it for it in SHARED}
    return files | installed_pages.files()


def copied(files, prefix):
    """Copies files to their paths below a prefix, the library among them, and returns the prefix."""
    for path, source in files.items():
        (prefix / path).parent.mkdir(parents=True, exist_ok=True)
        shutil.copy2(source, prefix / path)
    linked(prefix / "lib", is_installed=True)
    return prefix


def install(prefix, stage=""):
    """Copies all that a user has below `prefix`. With a `stage` it goes below that folder."""
    build()
    if built(*PROGRAMS):
        raise Failure("the programs are not proved")
    named = os.path.abspath(prefix)
    prefix = pathlib.Path(os.path.abspath(stage) + named if stage else named)
    copied(installed(), prefix)
    texts = {"lib/pkgconfig/imgref.pc": package(named, "${prefix}/include", "${prefix}/lib")}
    texts |= {f"lib/cmake/imgref/{name}": text for name, text in cmake().items()} | installed_pages.texts()
    for below, text in texts.items():
        (prefix / below).parent.mkdir(parents=True, exist_ok=True)
        (prefix / below).write_text(text)
    say(f"installed below {prefix}")
    if not stage:
        say(f"Where the system doesn't look for libraries in {prefix / 'lib'}: run ldconfig, or link with -Wl,-rpath,{prefix / 'lib'}")


def main(words):
    if words == ["build"]:
        build()
    elif len(words) in (2, 3) and words[0] == "install":
        install(*words[1:])
    else:
        sys.exit(__doc__)


if __name__ == "__main__":
    end_on_signals()
    try:
        main(sys.argv[1:])
    except Failure as why:
        sys.exit(str(why))
    except KeyboardInterrupt:
        sys.exit("interrupted: what is proved so far stays")
