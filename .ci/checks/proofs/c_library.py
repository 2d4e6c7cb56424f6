#!/usr/bin/env python3
"""The library for C as its users have it: built, installed, and called from C and C++.

It builds over what the proofs left (tools/c_library.py), and installs into a folder of its own. The calls from C run with
the address and the undefined behaviour sanitizer. What isn't on the machine is skipped.
"""
import os
import pathlib
import re
import shutil
import sys
import tempfile

sys.path.insert(0, str(pathlib.Path(__file__).resolve().parents[2]))
from checking import ROOT, Cases, side_by_side
from library import WARNINGS, counted, run

import installed_pages
from inspection import NEEDED, symbols
from version import MAJOR, MINOR, PATCH, VERSION

# A picture of 2 by 3 in a frame of 4 by 2: its columns come into the middle, and its last row is cut off.
PICTURE, FRAME = b"P5\n# two by three\n2 3\n255\nABCDEF", b"P5\n4 2\n255\n\0AB\0\0CD\0"
HIDDEN = b"P5\n3 2\n255\nABCDEF"
COLOURS, WIDE_FRAME = b"P6 1 1 255 rgb", b"P6\n3 1\n255\n\0\0\0rgb\0\0\0"

# A project that links both libraries.
CMAKE = """cmake_minimum_required(VERSION 3.10)
project(user C)
find_package(imgref ${WANTED} REQUIRED)
add_executable(with_shared main.c)
target_link_libraries(with_shared imgref::imgref)
add_executable(with_static main.c)
target_link_libraries(with_static imgref::static)
"""


def installed(cases, room):
    """The folder below which all is installed, or None where that fails."""
    prefix = pathlib.Path(room) / "prefix"
    status, _, said = run(["make", "-s", "install", f"PREFIX={prefix}"], cwd=ROOT)
    cases.count("make install", status == 0, said)
    return prefix if status == 0 else None


def package(compiler):
    """The package of a compiler that isn't there. Another one than the first of a system is one of the second."""
    return {"cc": "gcc", "c++": "g++"}.get(compiler[0], "clang")


def names(tool_words):
    """The names that a library shows."""
    _, wrote, _ = run(["nm", "--defined-only", *tool_words])
    return {it.split()[2] for it in wrote.decode().splitlines() if len(it.split()) == 3 and it.split()[1].isupper()}


def check_names(cases, compiler, prefix):
    """Both libraries show the header's functions, and no other name."""
    _, wrote, said = run([*compiler, "-E", prefix / "include/imgref.h"])
    declared = set(re.findall(r"\b(imgref_\w+)\s*\(", wrote.decode()))
    cases.count("the header declares the calls", len(declared) == 6 + 4 * 21 + 2 + 5, said)
    shared = names(["-D", prefix / "lib/libimgref.so"])
    cases.count("the shared object shows the header's names alone", shared == declared, str(shared ^ declared))
    static = names(["-g", prefix / "lib/libimgref.a"])
    cases.count("the archive shows the header's names alone", static == declared, str(static ^ declared))
    _, needed = symbols((prefix / "lib/libimgref.a").read_bytes(), "--syms")
    cases.count("the archive needs these functions of the C library, and no other", needed == NEEDED, str(needed ^ NEEDED))
    for file in (prefix / "include/imgref.h", ROOT / "docs/C.md"):
        said = re.sub(r"[\s*`]+", " ", file.read_text())
        cases.count(f"{file.name} says how long a row of colours may be", "width channels is below 2^32" in said, said)
        part = said.partition("A pixel of three bytes is three cells of one byte")[2].partition(" Sizes ")[0].partition(" A row of colours ")[0]
        lacking = [it for it in single_calls() if not re.search(rf"\b{it}\b", part)]
        cases.count(f"{file.name} says of each call without channels what it does with colours", bool(part) and not lacking, f"{lacking} in {part}")


def single_calls():
    """The calls of the header that take no number of channels."""
    header = (ROOT / "include/imgref.h").read_text()
    declared = re.findall(r"imgref_(?:##NAME##|u8)_(\w+)\(([^;]*)\)", header)
    return sorted({name for name, words in declared if "channels" not in words})


def check_races(cases, compiler, prefix, room):
    """No call writes outside its buffers while another process changes the pixels: with the archive as users link it."""
    status, _, said = run([*compiler, "-std=c11", "-O2", *WARNINGS, f"-I{prefix / 'include'}", ROOT / ".ci/c/races.c", "-o", room / "races", prefix / "lib/libimgref.a"])
    cases.count("races.c", status == 0, said)
    if status == 0:
        status, _, said = run([room / "races"])
        counted(cases, "calls whose pixels another process changes", said, status)


def check_c(cases, compiler, prefix, room):
    """The calls from C, with the archive under sanitizers and with the shared object, and the header by itself."""
    source, include = ROOT / ".ci/c/calls.c", f"-I{prefix / 'include'}"
    alone = room / "alone.c"
    alone.write_text('#include "imgref.h"\nint main(void) { return 0; }\n')
    for compile_it in ([*compiler, "-std=c99"], ["c++", "-x", "c++"]):
        if not shutil.which(compile_it[0]):
            cases.skip(f"the header alone, {' '.join(compile_it)}", package(compile_it))
            continue
        status, _, said = run([*compile_it, *WARNINGS, include, "-fsyntax-only", alone])
        cases.count(f"the header alone, {' '.join(compile_it)}", status == 0, said)
    calls = [*compiler, "-std=c11", "-O1", "-g", "-Wall", "-Wextra", "-Werror", include, source]
    sanitized = ["-fsanitize=address,undefined", "-fno-sanitize-recover=all"]
    for label, more, after in (("static", sanitized, [prefix / "lib/libimgref.a"]), ("shared", [], [f"-L{prefix / 'lib'}", "-limgref", f"-Wl,-rpath,{prefix / 'lib'}"])):
        status, _, said = run([*calls, *more, "-o", room / label, *after])
        cases.count(f"calls.c, {label}", status == 0, said)
        if status == 0:
            status, _, said = run([room / label])
            counted(cases, f"calls from C, {label}", said, status)


def check_cpp(cases, prefix, room):
    """The calls from C++, by the oldest standard that has the tests' braces and by the compiler's own."""
    compiler = os.environ.get("CXX", "c++").split()
    if not shutil.which(compiler[0]):
        cases.skip("calls from C++", package(compiler), number=2)
        return
    for standard in (["-std=c++11"], []):
        label = " ".join(["calls.cpp", *standard])
        status, _, said = run([*compiler, *standard, *WARNINGS, f"-I{prefix / 'include'}", ROOT / ".ci/c/calls.cpp", "-o", room / "cpp", prefix / "lib/libimgref.a"])
        cases.count(label, status == 0, said)
        if status == 0:
            status, _, said = run([room / "cpp"])
            counted(cases, f"calls from C++, {label}", said, status)


# The standards by which the view of imgref.hpp is tried.
STANDARDS = (17, 20, 23)


def cpp_compilers():
    """The compilers of C++ by which the view is tried. The examples are built by the first one."""
    return [it.split() for it in dict.fromkeys([os.environ.get("CXX", "c++"), "clang++"])]


def check_view(cases, compiler, standard, prefix, room):
    """The view of imgref.hpp by a compiler and a standard, under sanitizers."""
    name = f"view.cpp, {' '.join(compiler)}"
    label = f"{name} -std=c++{standard}"
    if not shutil.which(compiler[0]):
        cases.skip(label, package(compiler))
        return
    if run([*compiler, f"-std=c++{standard}", "-fsyntax-only", "-x", "c++", "/dev/null"])[0]:
        cases.leave(label, "C++23") if standard == 23 else cases.skip(label, package(compiler))
        return
    words = [f"-std=c++{standard}", "-O1", "-g", *WARNINGS, "-fsanitize=address,undefined", "-fno-sanitize-recover=all", f"-I{prefix / 'include'}"]
    made = room / f"view-{pathlib.Path(compiler[0]).name}-{standard}"
    status, _, said = run([*compiler, *words, ROOT / ".ci/c/view.cpp", "-o", made, prefix / "lib/libimgref.a"])
    cases.count(label, status == 0, said)
    if status == 0:
        status, _, said = run([made])
        counted(cases, f"calls of {label}", said, status)


def check_hide(cases, compiler, prefix, room):
    """The example in C++ hides a window, and writes nothing where it is refused."""
    if not shutil.which(compiler[0]):
        cases.skip("the example in C++", package(compiler), number=7)
        return
    status, _, said = run([*compiler, "-std=c++17", "-O2", *WARNINGS, f"-I{prefix / 'include'}", ROOT / "examples/cpp/hide.cpp", "-o", room / "hide", prefix / "lib/libimgref.a"])
    cases.count("hide.cpp", status == 0, said)
    for label, words, given, wanted in (("a window", "1 0 2 2 66", HIDDEN, b"P5\n3 2\n255\nABBDBB"), ("black", "1 0 2 2", HIDDEN, b"P5\n3 2\n255\nA\0\0D\0\0"), ("no window", "2 0 2 2", HIDDEN, None), ("cut off", "1 0 2 2", HIDDEN[:-1], None), ("no number", "1 0 2 -2", HIDDEN, None), ("no value of a byte", "1 0 2 2 256", HIDDEN, None)):
        status, wrote, said = run([room / "hide", *words.split()], input=given)
        cases.count(f"hide: {label}", (status, wrote) == ((1, b"") if wanted is None else (0, wanted)), said)


# What compiles over a view for reading, one of bytes and one of colours: from which standard on, or in none (0). What needs C++20
# needs its `consteval`, which a compiler may lack.
COMPILES = {
    "return r.get(0, 0);": 17,
    "r.put(0, 0, one);": 0,
    "r.fill(one);": 0,
    "r.pack();": 0,
    "imgref::view<unsigned char> w = r;": 0,
    "imgref::view<three> *w = nullptr; return w->empty();": 0,
    "v.fill({0, 0, 1, 1}, {255}); v.put(0, 0, {255}); v.fill({255}); return v.count({255});": 17,
    "v.fill({0, 0, 1, 1}, 255); v.put(0, 0, 255); v.fill(255); return v.count(255);": 20,
    **{f"v.fill({{0, 0, 1, 1}}, {it});": 0 for it in ("300", "-1", "{300}", "{-1}", "0.5", "1.0", "number", "nullptr")},
    **{f"v.{it};": 0 for it in ("fill(300)", "put(0, 0, 300)", "put(0, 0, -1)", "count(300)", "count(-1)", "fill_pixels({0, 0, 1, 1}, {300, 1, 1})")},
    "v.fill({0, 0, 1}, {7});": 0,
    "v.window({0, 0, 1});": 0,
    "imgref::rect w{0, 0, 1};": 0,
    "imgref::rect w{0, 0, 1, 1}; imgref_rect same = w; v.fill(same, one);": 17,
    "p.fill({0, 0, 1, 1}, {1, 2, 3, 4}); p.fill(four{1, 2, 3, 4});": 17,
    "p.fill({0, 0, 1, 1});": 0,
    "v.fill({0, 0, 1, 1});": 0,
    "p.fill(p.whole(), {1, 2, 3, 4}); v.fill({});": 17,
    "int x = 0, w = 1; v.fill({x, x, w, w}, {7}); return v.window({x, x, w, 1u}).width() == 1;": 17,
    "v.fill({0.5, 0, 1, 1}, {7});": 0,
    "auto rgb = imgref::colours<3>(c, 1, 2); rgb.fill(rgb.whole(), {1, 2, 3}); rgb.flip_columns(); rgb.turn(imgref::turn::half); return rgb.count(rgb.whole(), {1, 2, 3});": 17,
    "auto rgb = imgref::colours<3>(reading, 6, 1, 2, 3); return rgb.get(0, 1)[2];": 17,
    "auto rgb = imgref::colours<3>(reading, 6, 1, 2, 3); rgb.put(0, 1, {1, 2, 3});": 0,
    **{f"auto rgb = imgref::colours<3>(c, 1, 2); rgb.{it};": 0 for it in ("fill({0, 0, 1, 1})", "fill(rgb.whole(), {1, 2})", "fill(rgb.whole(), {1, 2, 300})", "histogram()", "equalize()", "flood_fill(0, 0, {1, 2, 3})", "bounding_box({1, 2, 3})", "components_into(n)", "integral_into(n)")},
    "n.fill({7}); v.integral_into(n); return v.components_into(n) == 1;": 17,
    "v.blur({0, 0, 1, 1}, 1); v.blur({0, 0, 1, 1}, 1, 2, 1); v.blur(2); auto rgb = imgref::colours<3>(c, 1, 2); rgb.blur(rgb.whole(), 1, 2); rgb.blur(3);": 17,
    **{f"{it}.blur(1);": 0 for it in ("r", "n", "p")},
    "p.fill({0, 0, 1, 1}, one);": 0,
    "p.fill({0, 0, 1, 1}, {1, 2, 3, 300});": 0,
}


def check_reading(cases, compiler, standard, prefix, room):
    """What may not be meant doesn't compile: a write through a view for reading, a pixel of three bytes, a value that doesn't fit
    a pixel, and a rectangle of three numbers. What is meant does."""
    head = """#include <imgref.hpp>
struct three { char c[3]; };
struct four { unsigned char c[4]; };
int main() {
    unsigned char c[6] = {}; const unsigned char *reading = c; const unsigned char one = 1; int number = 7; alignas(4) four colours[6] = {};
    imgref::view<const unsigned char> r(reading, 6, 3, 2, 3); imgref::view<unsigned char> v(c, 3, 2); imgref::view<four> p(colours, 3, 2);
    std::uint64_t numbers[6] = {}; imgref::view<std::uint64_t> n(numbers, 3, 2);
"""
    file = room / f"reading{standard}.cpp"
    words = [*compiler, f"-std=c++{standard}", f"-I{prefix / 'include'}", "-fsyntax-only", file]
    file.write_text(f"#if {standard} > 17 && !defined(__cpp_consteval)\n#error\n#endif\n")
    if not shutil.which(compiler[0]) or run(words)[0]:
        cases.skip(f"what compiles by C++{standard}", package(compiler), number=len(COMPILES))
        return
    file.write_text(f"{head}return number; }}\n")
    status, _, said = run(words)
    cases.count(f"C++{standard}: the head compiles", status == 0, said)
    for line, since in COMPILES.items():
        file.write_text(f"{head}{line} }}\n")
        status, _, said = run(words)
        is_well = 0 < since <= standard
        cases.count(f"C++{standard} {'compiles' if is_well else 'refuses'}: {line}", (status == 0) == is_well, said)
    if standard == 17:
        for line in ("v.fill({0, 0, 1, 1}, 255);", "v.fill(0);", "v.put(0, 0, number);", "return v.count(7);"):
            file.write_text(f"{head}{line} }}\n")
            cases.count(f"C++17's error names braces: {line}", "write a constant in braces" in run(words)[2], run(words)[2])


def check_cmake(cases, prefix, room):
    """A project of CMake finds the package, and links the shared object and the archive; also once the folder has moved."""
    if cases.lacks("a project of CMake", "cmake", number=11):
        return
    project = room / "project"
    project.mkdir()
    (project / "CMakeLists.txt").write_text(CMAKE)
    (project / "main.c").write_text("#include <imgref.h>\nint main(void) { return !imgref_is_image(6, 3, 2, 3); }\n")
    moved = shutil.copytree(prefix, room / "moved", symlinks=True)
    for label, where in (("installed", prefix), ("moved", moved)):
        made = room / f"build-{label}"
        status, _, said = run(["cmake", "-S", project, "-B", made, f"-DCMAKE_PREFIX_PATH={where}", f"-DWANTED={MAJOR}.{MINOR}"])
        built = run(["cmake", "--build", made]) if status == 0 else (1, b"", said)
        cases.count(f"CMake, {label}", built[0] == 0, built[2])
        cases.count(f"CMake's programs, {label}", built[0] == 0 and all(run([made / it])[0] == 0 for it in ("with_shared", "with_static")))
    later = f"{MAJOR}.{MINOR}.{int(PATCH) + 1}"
    for version, is_well in (("", True), (VERSION, True), (later, False), (f"{MAJOR}.{int(MINOR) - 1}", False), (f"{MAJOR}.{int(MINOR) + 1}", False), (f"{int(MAJOR) + 1}", False), (MAJOR, True)):
        status, _, said = run(["cmake", "-S", project, "-B", room / f"build-{version}", f"-DCMAKE_PREFIX_PATH={prefix}", f"-DWANTED={version}"])
        cases.count(f"find_package(imgref {version}) {'finds' if is_well else 'refuses'} it", (status == 0) == is_well, said)


def check_man(cases, prefix):
    """The man pages have no fault of form. They name each call of the header, and each edit and command of the programs."""
    pages = {it.name: it.read_text() for it in sorted((prefix / "share/man").glob("*/*"))}
    cases.count("the man pages", list(pages) == ["imgref-boxes.1", "imgref-hide.1", "imgref_frames.1", "imgref_run.1", "imgref.3"], str(list(pages)))
    if not cases.lacks("the form of the man pages", "groff", number=len(pages)):
        for it in sorted((prefix / "share/man").glob("*/*")):
            status, _, said = run(["groff", "-man", "-Tutf8", "-ww", "-z", it])
            cases.count(f"{it.name}: its form", status == 0 and not said, said)
    header = (prefix / "include/imgref.h").read_text()
    calls = set(re.findall(r"\b(imgref_\w+)\((?:size_t|(?:const )?uint\d+_t \*)", header)) | {f"imgref_u8_{it}" for it in re.findall(r"imgref_##NAME##_(\w+)\(", header)}
    lacking = [it for it in [*calls, *re.findall(r"#define (IMGREF_[A-Z_]+) \(", header)] if it not in pages.get("imgref.3", "")]
    cases.count("imgref.3 names each call and status", len(calls) == 6 + 22 + 5 and not lacking, str(lacking))
    words = set(re.findall(r"(?m)^\| `(\w+) I PATH", (ROOT / "docs/SCRIPT.md").read_text())) | {"image", "compact"}
    lacking = [it for it in words if f'.BI "{it} "' not in pages.get("imgref_run.1", "")]
    cases.count("imgref_run.1 names each command", len(words) > 7 and not lacking, str(lacking))
    words = set(re.findall(r"(?m)^\| `(\w+) L,T,", (ROOT / "docs/FRAMES.md").read_text()))
    lacking = [it for it in words if f'.BI "{it} "' not in pages.get("imgref_frames.1", "")]
    options = set(re.findall(r"(?m)`(--\w+)[ `]", (ROOT / "docs/FRAMES.md").read_text()))
    lacking += [it for it in options if it.replace("-", "\\-") not in pages.get("imgref_frames.1", "")]
    cases.count("imgref_frames.1 names each edit and option", len(words) > 4 and len(options) > 3 and not lacking, str(lacking))
    for name, document, statuses in (("imgref_frames.1", "docs/FRAMES.md", "123456789"), ("imgref_run.1", "docs/SCRIPT.md", "2344")):
        faults = re.findall(r"(?m)^\| `(fault \w+)[^`]*` \| (\d) \|", (ROOT / document).read_text())
        shown = pages.get(name, "").partition(".SH EXIT STATUS")[2]
        lacking = [it for it, number in faults if it not in shown.partition(f"\n.B {number}\n")[2].partition("\n.TP\n")[0]]
        cases.count(f"{name} lists each status", "".join(it[1] for it in faults) == statuses and not lacking, f"{faults}, not there: {lacking}")


def check_programs(cases, prefix):
    """Both programs run from where they are installed."""
    status, wrote, said = run([prefix / "bin/imgref_run"], input=b"image 2 1 2 1 2\nput 0 - 1 0 9\n")
    cases.count("imgref_run is installed", (status, wrote) == (0, b"done\nimage 2 1 2 1 9\n"), said)
    status, wrote, said = run([prefix / "bin/imgref_frames", "fill", "0,0,1,1", "66"], input=b"P5\n2 1\n255\nAA")
    cases.count("imgref_frames is installed", (status, wrote) == (0, b"P5\n2 1\n255\nBA"), said)
    status, wrote, said = run([prefix / "bin/imgref-boxes"], input=b"frame,x1,y1,x2,y2\n1,2,3,5,7\n")
    cases.count("imgref-boxes is installed", (status, wrote) == (0, b"1,-1,2,3,3,4\n"), said)
    lacking = [it for it in installed_pages.files() if not (prefix / it).is_file()]
    lacking += [it for it, text in installed_pages.texts().items() if it not in lacking and (prefix / it).read_text() != text]
    cases.count("the pages of the programs are installed, with links to what is installed", not lacking, str(lacking))
    check_hiding(cases, prefix)


def check_hiding(cases, prefix):
    """imgref-hide runs from where it is installed, with what is installed alone, and its pages name each of its options."""
    status, wrote, said = run([prefix / "bin/imgref-hide", "--help"])
    options = set(re.findall(r"--[a-z-]+", wrote.decode()))
    cases.count("imgref-hide is installed", status == 0 and len(options) > 25, said)
    page = (prefix / "share/man/man1/imgref-hide.1").read_text().replace("\\-", "-")
    for label, text in (("the man page", page), ("bash", (prefix / "share/bash-completion/completions/imgref-hide").read_text()), ("zsh", (prefix / "share/zsh/site-functions/_imgref-hide").read_text())):
        lacking = sorted(it for it in options if not re.search(re.escape(it) + r"(?![a-z-])", text))
        cases.count(f"imgref-hide: each option is known to {label}", not lacking, str(lacking))
    lacks = cases.lacks("imgref-hide as installed", "ffmpeg")
    if not lacks:
        with tempfile.TemporaryDirectory() as room:
            run(["ffmpeg", "-v", "error", "-f", "lavfi", "-i", "testsrc2=size=64x48:rate=5:duration=1", "-pix_fmt", "yuv420p", f"{room}/in.mkv"])
            command = [prefix / "bin/imgref-hide", "in.mkv", "out.mkv", "--sheet", "0", "--detector", "cat > /dev/null; echo frame,left,top,width,height; echo 1,8,8,16,16"]
            status, _, said = run(command, cwd=room, env={"PATH": f"{prefix}/bin:{os.environ['PATH']}"})
            cases.count("imgref-hide covers as it is installed", status == 0 and pathlib.Path(room, "out.mkv").is_file() and pathlib.Path(room, "out.covers.csv").is_file(), said)


def check_staged(cases, prefix, room):
    """DESTDIR has the files that lie below PREFIX without it, and nothing in them names it."""

    def files(folder):
        return {str(it.relative_to(folder)): it.read_bytes() for it in folder.rglob("*") if it.is_file()}

    status, _, said = run(["make", "-s", "install", "PREFIX=/opt/imgref", f"DESTDIR={room / 'stage'}"], cwd=ROOT)
    wanted = {f"opt/imgref/{name}": it.replace(os.fsencode(prefix), b"/opt/imgref") for name, it in files(prefix).items()}
    cases.count("make install with DESTDIR", status == 0 and files(room / "stage") == wanted, said)
    if not cases.lacks("pkg-config, with DESTDIR", "pkg-config", number=3):
        found = os.environ | {"PKG_CONFIG_PATH": str(room / "stage/opt/imgref/lib/pkgconfig")}
        answers = {
            "--variable=prefix": "/opt/imgref",
            "--variable=includedir": "/opt/imgref/include",
            "--define-variable=prefix=/moved --cflags --libs": "-I/moved/include -L/moved/lib -limgref",
        }
        for words, text in answers.items():
            _, wrote, said = run(["pkg-config", *words.split(), "imgref"], env=found)
            cases.count(f"pkg-config {words}", wrote.decode().strip() == text, said)


def check_letterbox(cases, compiler, prefix, room):
    """The example in C, built by what pkg-config says of the installed package."""
    flags = ["-I" + str(prefix / "include"), "-L" + str(prefix / "lib"), "-limgref"]
    if not cases.lacks("the library's flags", "pkg-config"):
        _, wrote, said = run(["pkg-config", "--cflags", "--libs", "imgref"], env=os.environ | {"PKG_CONFIG_PATH": str(prefix / "lib/pkgconfig")})
        cases.count("pkg-config", wrote.decode().split() == flags, said)
    status, _, said = run([*compiler, "-O2", *WARNINGS, ROOT / "examples/c/letterbox.c", "-o", room / "letterbox", *flags, f"-Wl,-rpath,{prefix / 'lib'}"])
    cases.count("letterbox.c", status == 0, said)
    for label, words, given, wanted in (("a picture is cut and put into the middle", "4 2", PICTURE, FRAME), ("in colours", "3 1", COLOURS, WIDE_FRAME)):
        status, wrote, said = run([room / "letterbox", *words.split()], input=given)
        cases.count(f"letterbox: {label}", status == 0 and wrote == wanted, said)
    status, wrote, _ = run([room / "letterbox", "4", "2"], input=PICTURE[:-1])
    cases.count("letterbox: a picture that is cut off", status == 1 and not wrote)


def main():
    cases, compiler = Cases(), os.environ.get("CC", "cc").split()
    with tempfile.TemporaryDirectory(prefix="c-library-") as room:
        room = pathlib.Path(room)
        if prefix := installed(cases, room):
            of_cpp = cpp_compilers()
            checks = (
                *(lambda it, standard=standard: check_reading(it, of_cpp[0], standard, prefix, room) for standard in STANDARDS[:2]),
                lambda it: check_c(it, compiler, prefix, room),
                *(lambda it, words=words, standard=standard: check_view(it, words, standard, prefix, room) for words in of_cpp for standard in STANDARDS),
                lambda it: check_hide(it, of_cpp[0], prefix, room),
                lambda it: check_cpp(it, prefix, room),
                lambda it: check_races(it, compiler, prefix, room),
                lambda it: check_names(it, compiler, prefix),
                lambda it: check_cmake(it, prefix, room),
                lambda it: check_man(it, prefix),
                lambda it: check_programs(it, prefix),
                lambda it: check_staged(it, prefix, room),
                lambda it: check_letterbox(it, compiler, prefix, room),
            )
            side_by_side(cases, checks)
    return cases.end()


if __name__ == "__main__":
    sys.exit(main())
