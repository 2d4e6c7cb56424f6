"""Runs what the pages show: Python as doctest, C, C++, Rust, commands of a shell over small made inputs, and a filter that is proved.

A block of code is a run of lines that are indented by four spaces, with the empty lines between them, or what is between three
backticks. In a man page it is an example. What it is written in, it says itself: by `>>> `, by a header of the library, by a name
of our Rust package, or by a call of a program. Part of a C++ or Rust program gets a `main` around it. A line that a program prints
is on its page.

Every other block has a row in OTHERS, which names the check that tries it, or says why nothing does. A block without a row fails,
and so does a row without a block.

What the machine lacks is skipped. Where a program or the library isn't built, nothing of it can be shown, and that fails.
"""
import contextlib
import os
import pathlib
import re
import shutil
import subprocess
import tempfile
import zipfile

from checking import COUNT, ROOT, built
from library import run
from needs import PYTHONS, imports, needs
from workspace import is_proved, room

import c_library
from python_package import HOOK

CODE = re.compile(r"(?:^    .*\n(?:[ \t]*\n(?=    ))*)+", re.MULTILINE)
FENCED = re.compile(r"(?ms)^```\w*\n(.*?)^```$")
EXAMPLE = re.compile(r"(?ms)^\.EX\n(.*?)^\.EE$")
DOCTEST = "import doctest, sys; failed, tried = doctest.testfile(sys.argv[1], module_relative=False, optionflags=doctest.ELLIPSIS); print(f'{tried - failed} passed, {failed} failed')"
HEADERS = "".join(f"#include <{it}>\n" for it in ("array", "cstdint", "cstdio", "vector", "imgref.hpp"))
CARGO = '[package]\nname = "shown"\nversion = "0.0.0"\nedition = "2021"\n[dependencies]\nimgref-proved = {{ path = "{}" }}\n'
# The tools that recipes use.
TOOLS = ("ffmpeg", "pngtopnm", "pnmtopng", "pnmdepth", "parallel")
# The blocks that aren't run here as they are: a page, how they begin, and what tries them, or why nothing does.
OTHERS = [
    ("README.md", "apt-get ", "built/release.py, by dpkg -i, and built/hide.py"),
    ("README.md", "make try ", "fresh_machine.py: the picture of `make try`. The gate runs `make test`"),
    ("README.md", "make python ", "proofs/bindings.py"),
    ("README.md", "rt new ", "run_filter"),
    ("README.md", "#![tactic", "run_filter"),
    ("CONTRIBUTING.md", "sudo apt-get ", "fresh_machine.py: it takes what tools/needs.txt lists"),
    ("docs/ARCHITECTURE.md", "programs ", "nothing: it is a map"),
    ("docs/C.md", "make c ", "proofs/c_library.py"),
    ("docs/CALLERS.md", "//! Three functions", "run_filter"),
    ("docs/CALLERS.md", "note: ", "run_filter: the goal's name"),
    ("docs/CALLERS.md", "", "the gate: it is a copy of proved code"),
    ("docs/CALLERS_REFERENCE.md", "", "the gate: it is a copy of proved code"),
    ("docs/FRAMES.md", "set -o pipefail", "built/recipes.py"),
    ("docs/FRAMES.md", "imgref-boxes ", "built/detector_lists.py"),
    ("docs/HIDE.md", "apt-get ", "built/release.py, by dpkg -i"),
    ("docs/HIDE.md", "imgref-hide in.mp4", "built/hide.py"),
    ("docs/HIDE.md", "imgref-hide videos", "built/hide_many.py"),
    ("docs/HIDE.md", "find in", "built/hide_many.py"),
    ("docs/HIDE.md", "python3 examples/dask_tiles.py", "built/hide_many.py"),
    ("docs/maintainers/FORMS.md", "", "nothing: a part of a program that the checker refuses"),
    ("docs/maintainers/PERF.md", "cd ", "nothing: it proves an old commit, for 25 minutes"),
    ("docs/PYTHON.md", "python3 -m venv", "built/release.py: the wheel"),
    ("docs/PYTHON.md", "make python", "proofs/bindings.py"),
    ("docs/RELEASE.md", "make test ", "built/release.py"),
    ("docs/RELEASE.md", "sha256sum ", "built/release.py"),
    ("docs/RUST.md", "tar ", "built/release.py"),
    ("docs/SCRIPT.md", "", "snippets.py, by the model"),
    ("docs/WEB.md", "make web", "proofs/web.py"),
    ("man/imgref-hide.1", "imgref-hide ", "built/hide.py"),
    ("man/imgref-boxes.1", "imgref-boxes ", "built/detector_lists.py"),
    ("man/imgref.3", "uint8_t cells", "nothing: a part of the first program of docs/C.md"),
    ("man/imgref.3", "cc ", "built/release.py"),
    ("man/imgref_frames.1", "ffmpeg -i in.mp4 -f yuv4mpegpipe - |\n    imgref_frames --boxes", "built/recipes.py"),
]
# The small inputs of recipes, by what makes each.
MADE = {
    "in.mp4": "ffmpeg -v error -f lavfi -i testsrc2=size=480x270:rate=5:duration=1 -f lavfi -i sine=duration=1 {}",
    "in/1.mp4": "ffmpeg -v error -f lavfi -i testsrc2=size=480x270:rate=5:duration=1 {}",
    "in/1.y4m": "ffmpeg -v error -f lavfi -i testsrc2=size=480x270:rate=5:duration=1 -pix_fmt yuv420p {}",
    "page.png": "ffmpeg -v error -f lavfi -i testsrc2=size=480x270:rate=1:duration=1 -frames:v 1 {}",
    "scan.png": "ffmpeg -v error -f lavfi -i testsrc2=size=480x270:rate=1:duration=1 -frames:v 1 -pix_fmt monob {}",
}


def blocks(page):
    """The blocks of code of a page, without what they are indented by."""
    text = page.read_text()
    if page.parent.name == "man":
        return [it.replace("\\-", "-").replace("\\e", "\\") for it in EXAMPLE.findall(text)]
    indented = CODE.findall(FENCED.sub("", text))
    return FENCED.findall(text) + ["\n".join(line[4:] for line in it.splitlines()).rstrip() + "\n" for it in indented]


def other(page, block):
    """The row of OTHERS that a block has, or nothing."""
    return next((it for it in OTHERS if it[0] == str(page.relative_to(ROOT)) and block.startswith(it[1])), None)


def each_is_tried(cases, pages):
    """Each block is run here, or has a row of OTHERS, and each row has a block."""
    found = [(page, block, other(page, block)) for page in pages for block in blocks(page)]
    lost = [f"{page.relative_to(ROOT)}: {block.splitlines()[0]}" for page, block, row in found if not row and not language(block)]
    stale = [it for it in OTHERS if it not in [row for _, _, row in found]]
    cases.count(f"{len(found)} blocks of code: each is run, or OTHERS says what tries it", not lost, "not run: " + ", ".join(lost))
    cases.count("each row of OTHERS has a block", not stale, f"without one: {stale}")


def language(block):
    """What a block is written in, or nothing."""
    if block.startswith(">>> "):
        return "Python"
    if "imgref_proved::" in block:
        return "Rust"
    if "imgref.hpp" in block or "imgref::" in block:
        return "C++"
    if "#include <imgref.h>" in block:
        return "C"
    return "shell" if re.search(r"(?m)^[^#\n]*\bimgref_frames (?:-|--\w|[a-z]+ )|\| imgref_run$", block) else ""


def said_on(page, wrote):
    """Whether each line that was printed is on the page."""
    return all(line in page.read_text() for line in wrote.decode(errors="replace").splitlines() if line.strip())


def numpy_python(needs_numpy):
    """A Python with its headers, and with NumPy where that is needed, or None."""
    has_headers = "import sysconfig, os, sys; sys.exit(not os.path.exists(sysconfig.get_path('include') + '/Python.h'))"
    return next((it for it in PYTHONS if shutil.which(it) and run([it, "-c", has_headers])[0] == 0 and (not needs_numpy or imports(it, "numpy"))), None)


def run_python(cases, pages, folder):
    """The examples of each page, in order, over the package as pip builds it."""
    packages = {}
    for page in pages:
        needs_numpy = "numpy" in "".join(it for it in blocks(page) if it.startswith(">>> "))
        python = numpy_python(needs_numpy)
        if not python:
            lacking = ["python3-dev", *["python3-numpy"] * needs_numpy]
            cases.skip(f"{page.relative_to(ROOT)}: its examples in Python", *([it for it in lacking if not needs()[it].is_there()] or lacking))
            continue
        if python not in packages:
            made = folder / f"package{len(packages)}"
            made.mkdir()
            sources = shutil.copytree(ROOT / "bindings/python", folder / f"sources{len(packages)}", dirs_exist_ok=True)
            found = {"IMGREF_INCLUDE": str(ROOT / "include"), "IMGREF_LIB": str(c_library.OUT)}
            status, _, said = run([python, "-B", "-c", HOOK, sources, made], env=os.environ | found)
            cases.count(f"the package for {python}", status == 0, said)
            for wheel in made.glob("*.whl"):
                zipfile.ZipFile(wheel).extractall(made)
            packages[python] = made
        status, wrote, said = run([python, "-B", "-c", DOCTEST, page], cwd=folder, env=os.environ | {"PYTHONPATH": str(packages[python])})
        found = COUNT.search(wrote.decode())
        cases.count(f"{page.relative_to(ROOT)}: {found[1] if found else 'no'} examples in Python", status == 0 and found and found[2] == "0" and found[1] != "0", said)


def run_c(cases, page, block, folder):
    """A program in C or C++, or a part of one in C++."""
    is_cpp = language(block) == "C++"
    compiler = shutil.which("c++" if is_cpp else os.environ.get("CC", "cc"))
    label = f"{page.relative_to(ROOT)}: {block.splitlines()[0]} .."
    if not compiler:
        return cases.skip(label, "g++" if is_cpp else "gcc")
    text = block if "main(" in block else f"{HEADERS}int main() {{\n{block}}}\n"
    source = folder / ("shown.cpp" if is_cpp else "shown.c")
    source.write_text(text)
    words = [compiler, *["-std=c++17"] * is_cpp, "-Wall", f"-I{ROOT / 'include'}", "-o", folder / "shown", source, c_library.OUT / "libimgref.a"]
    status, _, said = run(words)
    if not status:
        status, wrote, said = run([folder / "shown"])
        said = said if said_on(page, wrote) else f"prints what the page doesn't say:\n{said}"
        status = status or not said_on(page, wrote)
    return cases.count(label, status == 0, said)


def run_rust(cases, page, block, folder):
    """A program in Rust, or a part of one."""
    label = f"{page.relative_to(ROOT)}: {block.splitlines()[0]} .."
    if cases.lacks(label, "cargo"):
        return None
    wrapped = f"#![allow(dead_code)]\nfn main() -> Result<(), Box<dyn std::error::Error>> {{\n{block}Ok(())\n}}\n"
    (folder / "rust/src").mkdir(parents=True, exist_ok=True)
    (folder / "rust/Cargo.toml").write_text(CARGO.format(folder / "package-rust"))
    (folder / "rust/src/main.rs").write_text(block if "fn main" in block else wrapped)
    shutil.copytree(ROOT / "bindings/rust", folder / "package-rust", dirs_exist_ok=True, ignore=shutil.ignore_patterns("target"))
    status, wrote, said = run(["cargo", "run", "-q", "--offline"], cwd=folder / "rust", env=os.environ | {"IMGREF_LIB": str(c_library.OUT)})
    return cases.count(label, status == 0 and said_on(page, wrote), said)


def outputs(block):
    """The files that commands write, by their names."""
    return [it for it in re.findall(r"(?:> ?|-o |-i - (?:[^|\n]* )?)([\w.-]+\.(?:png|ppm|mp4|y4m))", block)]


def run_shell(cases, page, block, folder, programs):
    """Commands of a page, in a folder with small inputs. They end with status 0, and what they write is there."""
    label = f"{page.relative_to(ROOT)}: {block.splitlines()[0][:70]} .."
    if cases.lacks(label, "ffmpeg", *(it for it in TOOLS if re.search(rf"\b{it}\b", block))):
        return None
    at = pathlib.Path(tempfile.mkdtemp(dir=folder))
    for name in ("in", "out", "bin"):
        (at / name).mkdir()
    for it in programs:
        (at / "bin" / it.name).symlink_to(it)
    for it in ("docs", "examples"):
        (at / it).symlink_to(ROOT / it)
    for name, how in MADE.items():
        if re.search(rf"\b{re.escape(name)}\b", block) or name.startswith("in/") and f"in/*{pathlib.Path(name).suffix}" in block:
            subprocess.run(how.format(at / name).split(), check=True, stdin=subprocess.DEVNULL)
    (at / "shown.sh").write_text(f"set -e -o pipefail\n{block}")
    status, _, said = run(["bash", "shown.sh"], cwd=at, env=os.environ | {"PATH": f"{at / 'bin'}:{os.environ['PATH']}"})
    lost = [it for it in outputs(block) if not (at / it).exists()]
    if "out/" in block:
        lost += [f"out/{it.name}" for it in (at / "in").iterdir() if not (at / "out" / it.name).exists()]
    cases.count(label, status == 0 and not lost, f"{said}\nnot written: {lost}")
    if (at / "covered.png").exists():
        right = "pngtopnm docs/covered.png | pamcut -left 240"
        same = run(["bash", "-c", f"{right} | cmp - <(pngtopnm covered.png)"], cwd=at)
        cases.count(f"{page.relative_to(ROOT)}: covered.png is the right half of docs/covered.png", same[0] == 0, same[2])
    return None


@contextlib.contextmanager
def crate_of_readme(block):
    """The crate that README.md makes by these commands, in a room where the crate imgref and those below it are proved."""
    with room("imgref") as made:
        status, _, said = run(["bash", "-e", "-c", block], cwd=made.parent.parent)
        yield made.parent / "app", "" if status == 0 else said


def run_filter(cases):
    """The filter of README.md is proved, and refused with another body. That of docs/CALLERS.md leaves the goal open that is there."""
    found = blocks(ROOT / "README.md")
    commands = next((it for it in found if it.startswith("rt new")), "")
    code = next((it for it in found if it.startswith("#![tactic")), "")
    tutorial = (ROOT / "docs/CALLERS.md").read_text()
    goal = re.search(r"holds at this call \(`([\w-]+)`\)", tutorial)[1]
    # (one check tries both that must be refused)
    refused = re.search(r"(?ms)^```rust\n(.*?)^```$", tutorial)[1].replace("{SameOutside,", "{Fits, SameOutside,")
    refused += "\n" + code[code.index("pub fn invert") :].replace("pub fn invert", "pub fn other").replace("|p| 255 - p", "|p| 254 - p")
    if not is_proved("imgref"):
        return cases.count("README.md: a filter", False, "the crate imgref isn't proved")
    with crate_of_readme(commands) as (crate, said):
        cases.count("README.md: the commands that make a crate", not said, said)
        (crate / "src/lib.rt").write_text(code)
        status, _, said = run(["rt", "check"], cwd=crate)
        cases.count("README.md: the filter is proved", status == 0, said[-3000:])
        (crate / "src/lib.rt").write_text(refused)
        status, _, said = run(["rt", "check"], cwd=crate)
        cases.count(f"docs/CALLERS.md: without its condition the filter leaves {goal} open", status != 0 and "fn app::invert: no proof" in said and f"`{goal}`" in said, said[-3000:])
        cases.count("README.md: the filter with another body is refused", "fn app::other: no proof" in said, said[-3000:])
    return None


def run_all(cases, pages):
    """What the pages show, language by language."""
    shown = [(page, block) for page in pages for block in blocks(page) if language(block) and not other(page, block)]
    programs = [*built("imgref_frames", ("",)), *built("imgref_run", ("",))]
    with tempfile.TemporaryDirectory(prefix="shown-", ignore_cleanup_errors=True) as folder:
        folder = pathlib.Path(folder)
        if cases.lacks("what the pages show in C, C++, Python and Rust", "binutils", number=20):
            pass
        elif is_proved(c_library.NAME):
            c_library.build()
            run_python(cases, list(dict.fromkeys(page for page, block in shown if language(block) == "Python")), folder)
            for page, block in shown:
                if language(block) in ("C", "C++"):
                    run_c(cases, page, block, folder)
                elif language(block) == "Rust":
                    run_rust(cases, page, block, folder)
        else:
            cases.count("what the pages show in C, C++, Python and Rust", False, "the library for C isn't built")
        for page, block in shown:
            if language(block) == "shell" and len(programs) == 2:
                run_shell(cases, page, block, folder, programs)
    if len(programs) != 2:
        cases.count("what the pages show in a shell", False, "the programs aren't built")
    run_filter(cases)
