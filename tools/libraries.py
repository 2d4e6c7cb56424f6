"""The library for C of a release: for each processor the libraries, and the tree of files that a user unpacks.

That for this machine is what `make c` builds. That for aarch64 is built by `rt lib --target=..` over the same proofs, in a room
(workspace.py), and linked by Debian's gcc for that processor. It needs nothing of the toolchain's own C code.
"""
import dataclasses
import pathlib
import shutil
import tempfile

import c_library
import installed_pages
from c_library import ABI, Failure, Tools
from packing import Link
from processes import run_to_end
from program import say
from version import VERSION
from workspace import ROOT, held, is_fresh, product, room


@dataclasses.dataclass(frozen=True)
class Processor:
    """A processor: its names here, in Debian and among the toolchain's targets, and how the names of its tools begin."""

    name: str
    debian: str
    triple: str
    tools: str

    def out(self):
        """The folder of its libraries."""
        return c_library.OUT if self == HERE else ROOT / f"out/c-{self.name}"

    def tree(self, with_programs):
        """The files of its archive, by their paths in it."""
        own = ["bin"] if with_programs else []
        programs, files = {product(it) for it in c_library.PROGRAMS}, {}
        for name, source in sources(with_programs).items():
            if name.startswith("lib/"):
                source = self.out() / source.name
            files[name] = stripped(source) if source in programs else source.read_bytes()
        files |= {name: text.encode() for name, text in installed_pages.texts().items() if name in files}
        files["lib/libimgref.so"] = Link(f"libimgref.so.{ABI}")
        files["lib/pkgconfig/imgref.pc"] = c_library.package("${pcfiledir}/../..", "${prefix}/include", "${prefix}/lib").encode()
        files |= {f"lib/cmake/imgref/{name}": text.encode() for name, text in c_library.cmake().items()}
        files["LICENSE"] = (ROOT / "LICENSE").read_bytes()
        files["INSTALL"] = INSTALL.format(version=VERSION, processor=self.name, level=LEVELS[self.name], parts=" ".join([*own, "include lib share"]), programs=PROGRAMS[with_programs]).encode()
        return {f"imgref-{VERSION}-{self.name}-linux/{name}": data for name, data in files.items()}


def sources(with_programs):
    """What an archive has of the files that are installed, by their paths in it. The pages of section 1 are those of the programs."""
    of_programs = lambda name: name.startswith(("bin/", "share/man/man1/")) or name in c_library.scripts_and_pages()
    return {name: it for name, it in c_library.installed().items() if with_programs or not of_programs(name)}


def stripped(program):
    """A program without the names that only a debugger reads."""
    with tempfile.TemporaryDirectory(prefix="imgref-bin-") as room:
        c_library.command("strip", "-o", f"{room}/program", program)
        return pathlib.Path(room, "program").read_bytes()


HERE = Processor("x86_64", "amd64", "x86_64-unknown-linux-gnu", "")
OTHER = Processor("aarch64", "arm64", "aarch64-unknown-linux-gnu", "aarch64-linux-gnu-")
BOTH = (HERE, OTHER)
LEVELS = {"x86_64": "x86-64-v2 or later (SSE4.2)", "aarch64": "any aarch64 (ARMv8-A)"}
PROGRAMS = {True: "bin/imgref_run and bin/imgref_frames are the programs, for glibc 2.34 or later: imgref_frames --help.", False: "The programs imgref_run and imgref_frames are in the archive for x86_64."}
INSTALL = """imgref {version} for Linux on {processor}: {level}, glibc 2.17 or later.

Copy this folder where you like, or its parts below a prefix: cp -r {parts} /usr/local && ldconfig
C:       cc first.c -I DIR/include DIR/lib/libimgref.a
         or: PKG_CONFIG_PATH=DIR/lib/pkgconfig, and cc first.c $(pkg-config --cflags --libs imgref)
CMake:   find_package(imgref REQUIRED) with -DCMAKE_PREFIX_PATH=DIR; targets imgref::imgref and imgref::static
C++:     include/imgref.hpp, for C++17 and later
{programs}
Pages:   man -M DIR/share/man imgref
SHA256SUMS has the sum of the archive, and PROVENANCE.json says what is proved of it and by what.
"""


def has_c_library(its):
    """Whether the compiler for a processor finds the C library's header and what it links. (A name with no folder is one that it
    doesn't find.)"""
    found = run_to_end([f"{its.tools}gcc", "-print-file-name=libc.so"]).stdout.strip()
    ran = run_to_end([f"{its.tools}gcc", "-E", "-include", "string.h", "-x", "c", "/dev/null"])
    return "/" in found and not ran.returncode


def build():
    """Builds the libraries for both processors where a source has changed."""
    c_library.build()
    out, archive = OTHER.out(), f"lib{c_library.NAME}.a"
    lacking = [it for it in ("gcc", "objcopy", "ar") if not shutil.which(OTHER.tools + it)]
    if lacking:
        raise Failure(f"{OTHER.tools}{lacking[0]} isn't on this machine: apt-get install gcc-aarch64-linux-gnu")
    if not has_c_library(OTHER):
        raise Failure(f"the C library for {OTHER.name} isn't on this machine: apt-get install libc6-dev-{OTHER.debian}-cross")
    out.mkdir(parents=True, exist_ok=True)
    with held(out):
        if is_fresh(out / "libimgref.a", c_library.NAME):
            return
        say(f"{c_library.NAME} is built for {OTHER.name} now, in about half a minute.")
        with room(c_library.NAME) as folder:
            ran = run_to_end(["rt", "lib", f"--target={OTHER.triple}"], cwd=folder)
            if ran.returncode:
                raise Failure(f"{ran.stdout}{ran.stderr}\n{c_library.NAME} is not proved for {OTHER.name}")
            (out / "verdict").write_text(verdict(ran.stdout))
            c_library.link(folder / "out" / archive, out, Tools([f"{OTHER.tools}gcc"], f"{OTHER.tools}objcopy", f"{OTHER.tools}ar", []))


def verdict(said):
    """The line by which the prover says that a crate is proved."""
    lines = [it for it in said.splitlines() if it.startswith("logic=proved")]
    if not lines:
        raise Failure(f"{said}\nthe prover gave no verdict")
    return lines[-1]
