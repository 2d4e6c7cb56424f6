#!/usr/bin/env python3
"""The bindings as their users have them: the package for Python, built and installed by pip, and
the crate for Rust.

It builds over what the proofs of the library left, needs no program, and works in a folder of its own.
What isn't on the machine is skipped. NumPy, OpenCV and PIL are those of the system's Python.
"""
import dataclasses
import json
import os
import pathlib
import shutil
import sys
import tempfile
import zipfile

sys.path.insert(0, str(pathlib.Path(__file__).resolve().parents[2]))
from checking import ROOT, Cases, side_by_side

import c_library
import libraries
import version
from needs import imports
from library import RUST_COUNT, counted, run
from python_package import HOOK, TRIED, described

PYTHON = ROOT / "bindings/python"
# The tests of the package, each a program that counts: those of every Python, and those of one.
QUICK = ("calls", "formats", "shapes", "colours", "buffers", "refusals", "indexes", "regions")
TESTS = (*QUICK, "reentry", "races")
QUIET = os.environ | {"PYTHONDONTWRITEBYTECODE": "1"}
# Freed memory is overwritten, so that a read or a write of it shows.
DEBUGGED = {"PYTHONMALLOC": "debug", "MALLOC_PERTURB_": "165"}
# A module that is compiled so is for this version of CPython and all later ones.
STABLE, STABLE_FROM = "-DPy_LIMITED_API=0x030B0000", (3, 11)
# The pages with examples.
PAGES = ("docs/PYTHON.md", "bindings/python/README.md")

# A project of cargo's that adds the crate.
RUST_USER = """use imgref_proved::ImgVec;

fn main() -> Result<(), imgref_proved::Refused> {
    let mut image = ImgVec::new(vec![1u8, 2, 3, 4, 5, 6], 3, 2)?;
    let mut window = image.sub_image_mut(1, 0, 2, 2)?;
    window.fill_window(window.whole(), 7)?;
    println!("{:?}", image.into_buf());
    Ok(())
}
"""


def installed(cases, room):
    """The folder below which the library is as `make install` puts it there, or None where it isn't built. It needs no program."""
    status, _, said = run(["make", "-s", "c"], cwd=ROOT)
    cases.count("make c", status == 0, said)
    if status:
        return None
    files = c_library.installed().items()
    return c_library.copied({path: it for path, it in files if path.startswith(("include/", "lib/"))}, room / "prefix")


def library(room):
    """By these variables the package's build finds the library."""
    return {"IMGREF_INCLUDE": str(room / "prefix/include"), "IMGREF_LIB": str(room / "prefix/lib")}


def check_python(cases, room):
    """The wheel that `make python` builds, as pip installs it with no index, its tests, and the
    examples of its pages."""
    status, _, said = run(["make", "-s", "python"], cwd=ROOT)
    wheels = [*(ROOT / "out/python").glob("imgref-*.whl")]
    cases.count("make python", status == 0 and len(wheels) == 1 and described(wheels[0]) in said, said)
    if status or not has_venv(cases, "Python's package installed by pip", sys.executable, room / "fresh", number=len(TESTS) + 5):
        return
    fresh = check_install(cases, room / "fresh", wheels[0])
    status, _, said = run([fresh, "calls.py"], cwd=PYTHON / "tests", env=QUIET)
    counted(cases, "Python, with nothing else installed: calls", said, status, has_skips=False)
    check_wheel(cases, fresh)
    # (here are NumPy, OpenCV and PIL, where the machine has them)
    run([with_arrays(), "-m", "venv", "--system-site-packages", room / "venv"])
    python = check_install(cases, room / "venv", wheels[0])
    for it, more in [*((it, {}) for it in TESTS), ("reentry", DEBUGGED)]:
        status, _, said = run([python, f"{it}.py"], cwd=PYTHON / "tests", env=QUIET | more)
        counted(cases, f"Python: {it}{', under a debug allocator' if more else ''}", said, status)
    check_pages(cases, "", python, QUIET)
    check_sources(cases, room, python)
    check_hints(cases, room, python)


def has_venv(cases, label, python, *words, number=1):
    """Whether a virtual environment is made. Where the machine lacks what makes it, these cases are skipped, and else they fail."""
    if cases.lacks(label, "python3-venv", number=number):
        return False
    status, _, said = run([python, "-m", "venv", *words])
    if status:
        cases.count(f"{label}: a virtual environment", False, said)
    return not status


def with_arrays():
    """The Python of this check, or that of the system where that one has more of NumPy, OpenCV and PIL
    and takes the same wheel."""
    is_older = run(["/usr/bin/python3", "-c", f"import sys; sys.exit(sys.version_info < {sys.version_info[:2]})"])[0] if os.path.exists("/usr/bin/python3") else 1
    has = lambda python: sum(imports(python, it) for it in ("numpy", "cv2", "PIL"))
    return max([sys.executable] if is_older else [sys.executable, "/usr/bin/python3"], key=has)


def check_refused(cases, room):
    """What can't be built is refused by one line, before anything is proved: the package for an older Python or for none, and a
    release without the C library for the other processor. That processor's archive has no page of a program that it lacks."""
    old = sorted(pathlib.Path(os.environ.get("PYENV_ROOT") or "~/.pyenv").expanduser().glob("versions/3.[6-9].*/bin/python3"))
    if not old:
        cases.leave("make python by a Python that is too old", "CPython 3.9")
    words = {"there is no program /nonexistent/python3": "/nonexistent/python3", "/bin/true is no Python": "/bin/true", **{"the package needs CPython 3.10 or later, and": str(it) for it in old[-1:]}}
    for said_by, python in words.items():
        status, _, said = run(["make", "-s", "python"], cwd=ROOT, env=os.environ | {"PYTHON": python})
        lines = [it for it in said.splitlines() if not it.startswith("make")]
        cases.count(f"make python: {said_by}", status != 0 and len(lines) == 1 and said_by in lines[0], said)
    (room / "lacking-gcc").write_text("#!/bin/sh\necho libc.so\n")
    (room / "lacking-gcc").chmod(0o755)
    lacking = dataclasses.replace(libraries.OTHER, tools=f"{room}/lacking-")
    cases.count("a compiler without a C library is told", not libraries.has_c_library(lacking) and (not shutil.which("gcc") or libraries.has_c_library(libraries.HERE)))
    pages = [it for it in libraries.sources(with_programs=False) if "/man" in it]
    cases.count("an archive without programs has no page of them", pages == ["share/man/man3/imgref.3"], str(pages))


def pythons():
    """The Pythons of the machine by their names: the last one of each version on which the package
    is said to be tried, of pyenv and of the system, and the debug builds."""
    named = [*(pathlib.Path(os.environ.get("PYENV_ROOT") or "~/.pyenv").expanduser() / "versions").glob("*/bin/python3")]
    named += [f"/usr/bin/python{more}" for it in ("3", *TRIED) for more in (it, f"{it}-dbg")]
    asks = "import json, sys, sysconfig; print(json.dumps([sys.version_info[:3], bool(sysconfig.get_config_var('Py_DEBUG')), sys.implementation.name]))"
    found = {}
    for it in (str(it) for it in named if os.access(it, os.X_OK)):
        status, wrote, _ = run([it, "-c", asks])
        version, is_debug, name = json.loads(wrote) if status == 0 else ([0], False, "")
        if ".".join(map(str, version[:2])) in TRIED and name == "cpython":
            origin = "of the system" if it.startswith("/usr/bin") else "of pyenv"
            key = (*version[:2], origin, is_debug)
            found[key] = max(found.get(key, ([], "")), (version, it))
    return {f"CPython {'.'.join(map(str, version))} {key[2]}{', a debug build' if key[3] else ''}": (tuple(version), it) for key, (version, it) in sorted(found.items())}


def check_pythons(cases, room):
    """The package on every Python of the machine: built for each, and built once for all from 3.11
    on. Where memory is wrong, a debug allocator, a debug build and valgrind say it."""
    found, stable, env = pythons(), None, QUIET | library(room)
    for it in TRIED:
        if not any(f"{version[0]}.{version[1]}" == it for version, _ in found.values()):
            cases.leave("Python's package", f"CPython {it}")
    if not any("debug" in it for it in found):
        cases.skip("Python's package on a debug build", "python3-dbg", number=len(QUICK) + 2)
    for name, (version, python) in found.items():
        built = unpacked(cases, name, python, room, env)
        if built:
            check_python_of(cases, name, python, QUIET | {"PYTHONPATH": str(built)}, (*QUICK, "cycles"))
        if not stable and version[:2] >= STABLE_FROM:
            stable = unpacked(cases, f"{name}, for all later ones", python, room, env | {"CC": f"{os.environ.get('CC', 'cc')} {STABLE}"})
            for module in stable.glob("imgref/_native*.so") if stable else ():
                module.rename(module.with_name("_native.abi3.so"))
        if stable and version[:2] >= STABLE_FROM:
            check_python_of(cases, f"{name}, the module of the stable interface", python, QUIET | {"PYTHONPATH": str(stable)}, ("calls", "buffers", "refusals", "cycles"))


def unpacked(cases, name, python, room, env):
    """The folder with the package that is built for a Python, or None where that has no headers."""
    folder = pathlib.Path(tempfile.mkdtemp(dir=room))
    status, _, said = run([python, "-B", "-c", HOOK, PYTHON, folder], env=env)
    if "python3-dev" in said:
        if "of the system" in name:
            cases.skip(name, "python3-dbg" if "debug" in name else "python3-dev", number=len(QUICK) + 2)
        else:
            cases.leave(name, "headers of another Python")
        return None
    cases.count(f"the package for {name}", status == 0, said)
    for it in folder.glob("*.whl"):
        zipfile.ZipFile(it).extractall(folder)
    return folder if status == 0 else None


def check_python_of(cases, name, python, env, tests):
    for it in tests:
        # (a debug build is slow, and finds more in each cycle)
        words = [f"{it}.py", *(["200"] if it == "cycles" and "debug" in name else [])]
        status, _, said = run([python, "-X", "faulthandler", *words], cwd=PYTHON / "tests", env=env | (DEBUGGED if it == "cycles" else {}))
        counted(cases, f"{name}: {it}", said, status, has_skips=False)
    check_pages(cases, f"{name}: ", python, env, has_skips=False)


def check_by_valgrind(cases, room):
    """Cycles under valgrind, by the system's Python, or else by the last one of pyenv."""
    found = pythons()
    if cases.lacks("Python's cycles under valgrind", "valgrind") or not found:
        return
    system = [name for name in found if name.endswith("of the system")]
    name = (system or [*found])[-1]
    python = found[name][1]
    if built := unpacked(cases, f"{name}, under valgrind", python, room, QUIET | library(room)):
        words = ["valgrind", "-q", "--error-exitcode=9", "--leak-check=no", python, "cycles.py", "3"]
        status, _, said = run(words, cwd=PYTHON / "tests", env=QUIET | {"PYTHONPATH": str(built), "PYTHONMALLOC": "malloc"})
        counted(cases, f"{name}: cycles under valgrind", said, status)


def check_pages(cases, name, python, env, has_skips=True):
    for page in PAGES:
        status, _, said = run([python, "pages.py", ROOT / page], cwd=PYTHON / "tests", env=env)
        counted(cases, f"{name}{page}", said, status, has_skips=has_skips)


def check_install(cases, venv, wheel):
    """The command of docs/PYTHON.md in a virtual environment, whose Python is returned."""
    python = venv / "bin/python"
    status, _, said = run([python, "-m", "pip", "install", "--no-index", wheel], env=QUIET)
    cases.count(f"pip install --no-index, {venv.name}", status == 0, said)
    return python


def check_wheel(cases, python):
    """The package has the licence, the text of its README and no dependency."""
    shows = "import importlib.metadata as m, json; it = m.metadata('imgref'); licence = [f.read_text() for f in m.files('imgref') if f.name == it['License-File']]; print(json.dumps([it.get_payload(), licence, m.requires('imgref')]))"
    status, wrote, said = run([python, "-c", shows], env=QUIET)
    wanted = [(PYTHON / "README.md").read_text(), [(ROOT / "LICENSE").read_text()], None]
    cases.count("the wheel has README and licence, and needs no package", status == 0 and json.loads(wrote) == wanted, said)


def check_sources(cases, room, python):
    """pip builds the same package from its sources, over the library that is installed."""
    again = room / "again"
    words = ["-m", "pip", "wheel", "--no-index", "--no-deps", "--wheel-dir", again, shutil.copytree(PYTHON, room / "sources")]
    status, _, said = run([python, *words], env=QUIET | library(room))
    cases.count("pip wheel from the sources", status == 0 and [it.name for it in again.glob("*")] == [it.name for it in (ROOT / "out/python").glob("*")], said)
    status, _, said = run([python, *words], env=QUIET | {"IMGREF_INCLUDE": str(room), "IMGREF_LIB": str(room)})
    cases.count("pip wheel without the library", status != 0 and "make c" in said, said)


def check_hints(cases, room, python):
    """The type hints, by mypy: those of the installed package, and what a user's code may say of
    it."""
    if cases.lacks("Python's type hints", "mypy", number=16):
        return
    head = "import imgref\n\nframe = imgref.Image(bytearray(6), 3, 2)\n"
    users = {
        "is_equal: bool = frame == frame.window((0, 0, 3, 2))": True,
        "frame.fill(imgref.Window(0, 0, 1, 1), 0.5)": True,
        "frame.fill((0, 0, 1, 1), (1, 2, 3))": True,
        "frame.copy_from(frame.copy()); height: int = frame.shape[0]; text: str = frame.dtype": True,
        "view: memoryview = memoryview(frame)": True,
        "part: imgref.Image = frame[0:1, 1:3]; frame[0, 1] = 7; frame[0:1, 1:3] = frame.copy(); frame[0:1] = (1, 2, 3)": True,
        "frame.fill(7); frame.fill((1, 2, 3)); frame.fill(value=(1, 2, 3, 4))": True,
        "frame.blur((0, 0, 2, 2), 1); frame.blur(imgref.Window(0, 0, 2, 2), (1, 2))": True,
        "frame.blur((0, 0, 2, 2), 0.5)": False,
        "frame.fill()": False,
        "frame['x']": False,
        "pixels: bytes = bytes(frame); planes: list[imgref.Image] = imgref.Image.planes_of(frame)": True,
        'frame.put("0", 0, 1)': False,
        "frame.window((0, 0, 1))": False,
        "frame.width = 3": False,
    }
    words = ["mypy", "--strict", "--python-executable", python]
    status, _, said = run([*words, "-p", "imgref"], cwd=room)
    cases.count("mypy --strict: the package", status == 0, said)
    for line, is_well in users.items():
        (room / "user.py").write_text(f"{head}{line}\n")
        status, _, said = run([*words, "user.py"], cwd=room)
        cases.count(f"mypy {'takes' if is_well else 'refuses'}: {line}", (status == 0) == is_well, said)


def check_versions(cases):
    """Every file that holds the version has that of the file VERSION, which CHANGELOG.md has last."""
    wrong, last = version.differing(), next(iter(version.sections()), "none")
    cases.count(f"every file that holds the version has {version.VERSION}", not wrong, f"another one: {wrong}; tools/version.py write")
    cases.count(f"CHANGELOG.md has {version.VERSION} last", last == version.VERSION, last)


def check_rust(cases, prefix, room):
    """The crate's own tests and examples, and a project that adds it by its path."""
    if cases.lacks("the crate for Rust", "cargo", number=5):
        return
    crate = shutil.copytree(ROOT / "bindings/rust", room / "rust")
    found = os.environ | {"IMGREF_LIB": str(prefix / "lib"), "CARGO_TARGET_DIR": str(room / "target"), "RUSTFLAGS": "-D warnings"}
    for label, words in (("calls from Rust", ["--lib"]), ("Rust's examples", ["--doc"])):
        status, _, said = run(["cargo", "test", "--offline", *words], cwd=crate, env=found)
        counted(cases, label, said, status, RUST_COUNT)
    check_memory_of_rust(cases, crate, found)
    user = room / "rust_user"
    (user / "src").mkdir(parents=True)
    (user / "src/main.rs").write_text(RUST_USER)
    # (without the variable the crate finds the library in the repository that it is in)
    for label, path, env in (("installed", crate, found), ("in the repository", ROOT / "bindings/rust", {it: text for it, text in found.items() if it != "IMGREF_LIB"})):
        (user / "Cargo.toml").write_text(f'[package]\nname = "user"\nversion = "0.0.0"\nedition = "2021"\n\n[dependencies]\nimgref-proved = {{ path = "{path}" }}\n')
        status, wrote, said = run(["cargo", "run", "--offline", "--quiet"], cwd=user, env=env)
        cases.count(f"a project of cargo by path, {label}", (status, wrote) == (0, b"[1, 7, 7, 4, 7, 7]\n"), said)


def check_memory_of_rust(cases, crate, found):
    """The crate's own tests read no memory that isn't theirs or isn't written, as valgrind sees it."""
    if cases.lacks("the memory of the calls from Rust", "valgrind"):
        return
    _, wrote, said = run(["cargo", "test", "--offline", "--lib", "--no-run", "--message-format=json"], cwd=crate, env=found)
    programs = [it["executable"] for it in map(json.loads, wrote.decode().splitlines()) if it.get("executable")]
    status, _, said = run(["valgrind", "--quiet", "--error-exitcode=9", *programs, "--test-threads=1"], env=found) if programs else (1, b"", said)
    counted(cases, "calls from Rust under valgrind", said, status, RUST_COUNT)


def main():
    cases = Cases()
    check_versions(cases)
    with tempfile.TemporaryDirectory(prefix="bindings-") as room:
        room = pathlib.Path(room)
        check_refused(cases, room)
        if prefix := installed(cases, room):
            side_by_side(cases, [lambda it: check_python(it, room), lambda it: check_pythons(it, room), lambda it: check_by_valgrind(it, room), lambda it: check_rust(it, prefix, room)])
    return cases.end()


if __name__ == "__main__":
    sys.exit(main())
