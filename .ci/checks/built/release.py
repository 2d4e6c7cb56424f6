#!/usr/bin/env python3
"""A release, as those have it who have no toolchain: made twice, looked at, and tried where there is none.

It is made from two copies of the repository in two folders, each with a commit of its own of the same files, and both give the
same bytes. What must be refused is refused, and a planted mistake is found. The packages are installed and tried in a root of
Debian's without the toolchain and without a network, and the libraries for aarch64 under qemu.

The root is made by debootstrap once, and kept in ROOTS for later runs. What isn't on the machine is skipped.
"""
import concurrent.futures
import json
import os
import pathlib
import re
import shutil
import subprocess
import sys
import tempfile

sys.path.insert(0, str(pathlib.Path(__file__).resolve().parents[2]))
from checking import ROOT, Cases, copied, crates, side_by_side
from library import counted, run

import web
import wheels
from c_library import Failure
from version import VERSION

# Where the roots are kept between runs, and how they are made.
ROOTS = pathlib.Path(os.environ.get("IMGREF_ROOTS", "/var/tmp/imgref"))
MIRROR, SUITE = "http://deb.debian.org/debian", "bookworm"
# (of another processor nothing is run while its root is made: its packages are only unpacked)
WORDS = {"amd64": ["--include=gcc,g++,libc6-dev,python3,python3-venv,python3-pip,python3-numpy,cargo,ffmpeg,pkg-config,man-db,python3-opencv,opencv-data,python3-pil"], "arm64": ["--foreign", "--arch=arm64", "--include=python3"]}
# The roots, each as soon as it is made.
MADE = {}
# The same commit in both copies: its files decide, and no clock.
WHO = {f"GIT_{it}_{what}": text for it in ("AUTHOR", "COMMITTER") for what, text in (("NAME", "a"), ("EMAIL", "a@b.example"), ("DATE", "1700000000 +0000"))}
# What counts for the tests of the wheel, those that take minutes, and one that reads the pages of the repository.
LONG = ("counting", "speed", "reentry", "cycles", "pages")
COVERED = "testsrc2=size=128x96:rate=5:duration=1"
RUST_USER = """use imgref_proved::{ImgVec, Pixel, Turn, Window};

#[repr(C)]
#[derive(Clone, Copy, Debug, PartialEq)]
struct Rgb8(u8, u8, u8);

// SAFETY: three bytes without padding and without a pointer.
unsafe impl Pixel for Rgb8 {
    type Cell = u8;
}

fn main() -> Result<(), imgref_proved::Refused> {
    let mut image = ImgVec::new(vec![Rgb8(0, 0, 0); 6], 3, 2)?;
    image.fill_window(Window::new(2, 0, 1, 1), Rgb8(7, 8, 9))?;
    image.turn(Turn::Half)?;
    println!("{:?} {}", image[(0, 1)], image.count(image.whole(), Rgb8(0, 0, 0))?);
    Ok(())
}
"""


# ---- made twice


def with_commit(folder):
    """A copy of the repository as it is, with one commit of its files, and with what was built and cached of its crates."""
    committed(copied(folder, without=()))
    return folder


def committed(folder):
    if not (folder / ".git").is_dir():
        run(["git", "init", "-q"], cwd=folder)
    run(["git", "add", "-A"], cwd=folder)
    run(["git", "commit", "-q", "--allow-empty", "-m", "all of it"], cwd=folder, env=os.environ | WHO)


def released(folder, **env):
    return run([sys.executable, "-B", "tools/release.py", "build"], cwd=folder, env=os.environ | env)


def made_twice(cases, room):
    """The release of one copy, once another in another folder gave the same bytes."""
    one, other = with_commit(room / "one"), with_commit(room / "another/of them")
    status, _, said = released(one)
    cases.count("make release", status == 0, said)
    if status:
        return None
    # (the module of the page and the verdicts take minutes: the other copy has them from the first)
    (other / "out").mkdir()
    shutil.copytree(one / "out/web", other / "out/web")
    for it in one.glob("crates/*/out/verdict"):
        shutil.copy2(it, other / it.relative_to(one))
    status, _, said = released(other, TZ="Pacific/Auckland")
    cases.count("make release, in another folder and zone", status == 0, said)
    first, second = ({it.name: it.read_bytes() for it in (top / "out/release").glob("*")} for top in (one, other))
    for name in sorted({*first, *second}):
        cases.count(f"the same bytes in both: {name}", first.get(name) == second.get(name))
    return one / "out/release"


# ---- refused, and found


def refusals(cases, _, room):
    """What is no release: changes, a version without its section, and a crate that isn't proved."""
    top = with_commit(room / "refused")

    def refused(label, why):
        status, _, said = released(top)
        cases.count(f"refused: {label}", status == 1 and why in said, said)

    text = (top / "CHANGELOG.md").read_text()
    (top / "LICENSE").write_text("changed\n")
    refused("a tree with changes", "the tree has changes")
    run(["git", "checkout", "-q", "LICENSE"], cwd=top)
    (top / "CHANGELOG.md").write_text(text.replace(f"## [{VERSION}]", "## [Unreleased]"))
    committed(top)
    refused("a version without its section", "has no section")
    (top / "CHANGELOG.md").write_text(text)
    header = top / "include/imgref.h"
    header.write_text(header.read_text().replace(f'"{VERSION}"', '"9.9.9"'))
    committed(top)
    refused("another version in a file", "another version")
    header.write_bytes((ROOT / "include/imgref.h").read_bytes())
    source = top / "crates/imgref_c/src/status.rt"
    source.write_text(source.read_text() + "\nfn unproved(x: u32) -> u32 {\n    x + 1\n}\n")
    committed(top)
    refused("a crate that isn't proved", "is not proved")


def planted(cases, release, room):
    """A mistake in a file of a release is found, with the sums as the mistake leaves them or made anew."""

    def tried(label, why, change, with_sums=True):
        folder = shutil.copytree(release, room / "planted")
        change(folder)
        if with_sums:
            lines = [f"{digest(it)}  {it.name}\n" for it in sorted(folder.iterdir()) if it.name != "SHA256SUMS"]
            (folder / "SHA256SUMS").write_text("".join(lines))
        status, _, said = run([sys.executable, "-B", "tools/release.py", "verify", folder], cwd=ROOT)
        cases.count(f"found: {label}", status == 1 and re.search(why, said), said)
        shutil.rmtree(folder)

    def digest(path):
        return run(["sha256sum", path])[1].decode().split()[0]

    def archive_with(change):
        def within(folder):
            path = next(folder.glob("*x86_64-linux.tar.gz"))
            top = room / "unpacked"
            shutil.unpack_archive(path, top, filter="fully_trusted") if sys.version_info >= (3, 12) else shutil.unpack_archive(path, top)
            change(next(top.iterdir()))
            run(["tar", "-czf", path, "-C", top, next(top.iterdir()).name])
            shutil.rmtree(top)

        return within

    def changed_byte(folder):
        path = next(folder.glob("*aarch64-linux.tar.gz"))
        data = bytearray(path.read_bytes())
        data[len(data) // 2] ^= 1
        path.write_bytes(data)

    status, _, said = run([sys.executable, "-B", "tools/release.py", "verify", release], cwd=ROOT)
    cases.count("nothing is found in the release itself", status == 0, said)
    tried("a changed byte", "has another sum", changed_byte, with_sums=False)
    tried("a file that has no sum", "isn't there", lambda it: (it / "more.txt").write_text("more"), with_sums=False)
    tried("a page that leads to another file", "leads to layout.html", lambda it: next(it.glob("*.html")).write_text((web.OUT / "index.html").read_text()))
    tried("a path", "names /tmp/", archive_with(lambda it: (it / "INSTALL").write_text("/tmp/here\n")))
    tried("a missing symbol", "imgref_u8_get", archive_with(lambda it: run(["objcopy", "--localize-symbol=imgref_u8_get", it / "lib/libimgref.a"])))
    shared = lambda it: run(["cc", "-shared", "-o", it / "lib/libimgref.so.1", "-Wl,--whole-archive", it / "lib/libimgref.a", "-Wl,--no-whole-archive", "-Wl,--undefined=getentropy"])
    tried("a symbol that glibc 2.17 lacks", "needs", archive_with(lambda it: shared(it)))
    for label, old, new in (("a wheel of another Python", "cp311-abi3", "cp310-cp310"), ("a wheel of another processor", "x86_64.manylinux2014_x86_64", "aarch64.manylinux2014_aarch64")):
        tried(label, "its tag is", lambda it, old=old, new=new: next(it.glob(f"imgref-*{old}*.whl")).replace(it / next(it.glob(f"imgref-*{old}*.whl")).name.replace(old, new)))


def provenance(cases, release):
    """PROVENANCE.json names each crate of the product with its verdict, and each file with its sum."""
    said = json.loads((release / "PROVENANCE.json").read_text())
    files = {it.name for it in release.iterdir()} - {"PROVENANCE.json", "SHA256SUMS"}
    proved = {it["name"]: it for it in said["crates"]}
    well = all(it["verdict"].startswith("logic=proved") and re.search(rf"functions={it['functions']}\b", it["verdict"]) for it in proved.values())
    cases.count("PROVENANCE.json has a verdict of each crate", {"imgref_c", "imgref_frames", "imgref_run", "image_ops"} <= {*proved} <= {*crates()} and well, str(proved))
    cases.count("PROVENANCE.json has the sum of each file", set(said["artefacts"]) == files and said["version"] == VERSION, str(said["artefacts"]))
    status, _, wrote = run(["sha256sum", "--check", "--strict", "SHA256SUMS"], cwd=release)
    cases.count("sha256sum --check", status == 0, wrote)


# ---- tried where there is no toolchain


def make_root(name):
    """A root of Debian's, made once, or the name of what is lacking for it."""
    made, words = ROOTS / name, WORDS[name]
    # (a root of an earlier check may lack a package)
    if (made / "made").is_file() and (made / "made").read_text() == " ".join(words):
        return made
    if not shutil.which("debootstrap"):
        return "debootstrap"
    if os.getuid():
        return "root"
    shutil.rmtree(made, ignore_errors=True)
    made.mkdir(parents=True)
    try:
        status, _, said = run(["debootstrap", "--variant=minbase", *words, SUITE, made, MIRROR], timeout=600)
    except subprocess.TimeoutExpired:
        status, said = 1, "it takes longer than ten minutes"
    if status:
        print(said[-2000:])
        return "mirror of Debian"
    for it in sorted(made.glob("var/cache/apt/archives/*.deb")):
        if "--foreign" in words:
            run(["dpkg-deb", "-x", it, made])
        it.unlink()
    (made / "made").write_text(" ".join(words))
    return made


SCRIPT = """set -e
mount -t overlay none -o lowerdir={root},upperdir={room}/up,workdir={room}/work {room}/top
mkdir -p {room}/top/given
mount --bind {room}/given {room}/top/given
mount -t proc none {room}/top/proc
exec chroot {room}/top /usr/bin/env -i PATH=/usr/sbin:/usr/bin:/sbin:/bin HOME=/root LC_ALL=C.UTF-8 PYTHONDONTWRITEBYTECODE=1 DEBIAN_FRONTEND=noninteractive sh -c "$1"
"""


class Inside:
    """A root without a network, with a folder `/given`. What commands write goes into a folder of its own, and is there for the
    next one; the root stays as it is."""

    def __init__(self, made, room):
        self.made, self.room = made, room
        for it in ("up", "work", "top", "given"):
            (room / it).mkdir()

    def run(self, command):
        script = SCRIPT.format(root=self.made, room=self.room)
        return run(["unshare", "--mount", "--net", "--pid", "--fork", "--kill-child", "sh", "-c", script, "sh", command], timeout=600)


def snippet(page, first):
    """The run of indented lines of a page that begins with this one."""
    lines = (ROOT / page).read_text().split("\n")
    at = next(k for k, it in enumerate(lines) if it.strip() == first)
    end = next(k for k in range(at, len(lines)) if lines[k] and not lines[k].startswith("    "))
    return "\n".join(it.removeprefix("    ") for it in lines[at:end])


def by_lintian(cases, release):
    """The Debian packages keep Debian's rules."""
    if cases.lacks("Debian's rules", "lintian"):
        return
    status, _, said = run(["lintian", "--fail-on", "error", *["--allow-root"] * (not os.getuid()), *sorted(release.glob("*.deb"))])
    cases.count("lintian has no error", status == 0, said)


def tried_inside(cases, release, room):
    """The packages where there is no toolchain and no network, each as its page says."""
    made = MADE["amd64"].result()
    if isinstance(made, str):
        cases.skip("a release where there is no toolchain", made, number=15)
        return
    inside = Inside(made, room)
    if not shutil.which("unshare") or inside.run("true")[0]:
        cases.skip("a release where there is no toolchain", "namespaces", number=15)
        return
    given(room / "given", release)
    status, wrote, said = inside.run("command -v rt; ls /opt; cat /proc/net/dev | tail -n +3 | cut -d: -f1")
    cases.count("there is no toolchain, and no network but the loop", wrote.decode().split() == ["lo"], said)
    # (these come before the packages are installed)
    moved = "tar -xzf /given/imgref-*-x86_64-linux.tar.gz && mv imgref-*-linux there && export PKG_CONFIG_PATH=/tmp/there/lib/pkgconfig && cc /given/first.c $(pkg-config --cflags --libs imgref) -Wl,-rpath,/tmp/there/lib -o moved && ./moved && there/bin/imgref_frames --version"
    user = """tar -xzf /given/*.crate && mv imgref-proved-* package && mkdir -p user/src && cp /given/main.rs user/src && printf '[package]\\nname = "user"\\nversion = "0.0.0"\\nedition = "2021"\\n[dependencies]\\nimgref-proved = { path = "../package" }\\n' > user/Cargo.toml && cd user && cargo run --offline --quiet"""
    answers = {
        "what is unpacked, moved": (moved, f"status 0, last pixel 7\nimgref_frames {VERSION}\n"),
        "the Rust sample": (user, "Rgb8(7, 8, 9) 5\n"),
        "the packages install": ("dpkg -i /given/*.deb >said 2>&1 || cat said", ""),
        "the first program of C.md": ("cc /given/first.c $(pkg-config --cflags --libs imgref) -o first && ./first && pkg-config --modversion imgref", f"status 0, last pixel 7\n{VERSION}\n"),
        "the first program of CPP.md": ("c++ -std=c++17 /given/first.cpp $(pkg-config --cflags --libs imgref) -o first && ./first", f"{64 * 64}\n"),
        "the program in C++ of README.md": ("c++ -std=c++17 /given/readme.cpp $(pkg-config --cflags --libs imgref) -o first && ./first", "0 200\n"),
        "the Python package of Debian's": ("python3 -c 'import imgref; print(imgref.__version__)'", f"{VERSION}\n"),
        "the programs": ("imgref_frames --version; printf 'image 2 1 2 1 2\\nput 0 - 1 0 9\\n' | imgref_run", f"imgref_frames {VERSION}\ndone\nimage 2 1 2 1 9\n"),
        "the man pages": ("for it in '1 imgref_run' '1 imgref_frames' '3 imgref'; do man $it | head -1 | grep -o -i -m1 '^imgref[_a-z]*([13])'; done", "IMGREF_RUN(1)\nIMGREF_FRAMES(1)\nIMGREF(3)\n"),
    }
    for label, (command, due) in answers.items():
        status, wrote, said = inside.run(f"cd /tmp; {command}")
        cases.count(label, (status, wrote.decode()) == (0, due), said)
    video_inside(cases, inside)
    hiding_inside(cases, inside)
    wheel_inside(cases, inside)


def given(folder, release):
    """Puts into a folder what is tried in a root."""
    for it in release.iterdir():
        shutil.copy2(it, folder / it.name)
    shutil.copy2(ROOT / "docs/person.png", folder)
    (folder / "first.c").write_text(snippet("docs/C.md", "#include <imgref.h>"))
    (folder / "readme.cpp").write_text(snippet("README.md", "#include <cstdint>"))
    (folder / "first.cpp").write_text(snippet("docs/CPP.md", "#include <cstdio>"))
    shutil.copytree(ROOT / "bindings/python/tests", folder / "tests", ignore=shutil.ignore_patterns("__pycache__"))
    (folder / "main.rs").write_text(RUST_USER)


def video_inside(cases, inside):
    """A rectangle of each frame is covered, between a process of ffmpeg's that writes the video and one that reads it."""
    wide, high = 128, 96
    pipe = f"ffmpeg -v error -f lavfi -i {COVERED} -pix_fmt gray -f yuv4mpegpipe - | imgref_frames fill 16,8,64,48 9 | ffmpeg -v error -i - -f rawvideo -"
    status, wrote, said = inside.run(pipe)
    frames = [wrote[at : at + wide * high] for at in range(0, len(wrote), wide * high)]
    is_covered = [it[y * wide + 16 : y * wide + 80] == b"\x09" * 64 for it in frames for y in range(8, 56)]
    cases.count("imgref_frames covers a video between two ffmpeg processes", status == 0 and len(frames) == 5 and all(is_covered), said[:2000])


def hiding_inside(cases, inside):
    """After the packages are installed, one command hides a drawn face, and makes the sheet."""
    made = "cd /tmp && ffmpeg -v error -loop 1 -framerate 12 -i /given/person.png -filter_complex 'color=c=gray:s=320x180:r=12[a];[a][0]overlay=x=4*n:y=0,trim=end_frame=6' -pix_fmt yuv420p face.mp4 && "
    status, wrote, said = inside.run(f"{made} imgref-hide face.mp4 out.mp4 && ffmpeg -v error -i out.mp4 -pix_fmt gray -f rawvideo -")
    frames = [wrote[at : at + 320 * 180] for at in range(0, len(wrote), 320 * 180)]
    eyes = [max(max(frame[y * 320 + 72 + 4 * at : y * 320 + 120 + 4 * at]) for y in range(64, 82)) for at, frame in enumerate(frames)]
    cases.count("imgref-hide covers a face after dpkg -i alone", status == 0 and len(frames) == 6 and max(eyes) < 40, f"{eyes} {said[-2000:] if status else ''}")
    status, wrote, said = inside.run("cd /tmp; head -c 4 out.sheet.png | tail -c 3; man 1 imgref-hide | head -1 | grep -o -m1 '^IMGREF-HIDE(1)'; bash -c 'complete -p imgref-hide 2>&1; . /usr/share/bash-completion/completions/imgref-hide; complete -p imgref-hide'")
    cases.count("and makes its sheet, with a man page and completion", status == 0 and wrote.startswith(b"PNGIMGREF-HIDE(1)\n") and b"-F _imgref_hide" in wrote, said)
    dead = r"""grep -ohE '\]\([^)#:]+' *.md | cut -c3- | sort -u | while read it; do test -e "$it" || echo "$it"; done"""
    status, wrote, said = inside.run(f"cd /usr/share/doc/imgref-tools && test -e frames.png && {dead}")
    cases.count("each link of its pages leads to an installed file", (status, wrote) == (0, b""), said)


def wheel_inside(cases, inside):
    """The wheel by pip without an index, in a virtual environment with NumPy, and its tests but those that take long."""
    tests = [it.stem for it in sorted((ROOT / "bindings/python/tests").glob("*.py")) if it.stem not in LONG]
    run_each = f"for it in {' '.join(tests)}; do echo; timeout 300 /tmp/v/bin/python $it.py | tail -1; done"
    status, _, said = inside.run(f"dpkg -r python3-imgref >/dev/null && cd /tmp && python3 -m venv --system-site-packages v && v/bin/pip install -q --no-index --find-links /given imgref && cd /given/tests && {run_each}")
    found = re.findall(r"(\d+) passed, (\d+) failed", said)
    cases.count(f"the wheel by pip install --no-index, and its tests: {found}", status == 0 and len(found) == len(tests) and all(it[1] == "0" for it in found), said)


def wheel_of_each(cases, release, room):
    """The wheels on every Python of this machine from 3.10 on, each in an empty virtual environment: pip takes the right one."""
    for (major, minor), python in sorted(wheels.pythons().items()):
        venv = room / f"venv-{major}.{minor}"
        if (major, minor) < (3, 10) or run([python, "-m", "venv", venv])[0]:
            continue
        status, _, said = run([venv / "bin/python", "-m", "pip", "install", "-q", "--no-index", "--find-links", release, "imgref"])
        cases.count(f"pip install --no-index, by Python {major}.{minor}", status == 0, said)
        status, _, said = run([venv / "bin/python", "-B", "calls.py"], cwd=ROOT / "bindings/python/tests")
        counted(cases, f"the wheel of a release on Python {major}.{minor}", said, status)


# ---- aarch64


def on_aarch64(cases, release, room):
    """The library for aarch64 under qemu: the random calls beside the model, and the wheel in a Python of that processor."""
    if cases.lacks("calls from C on aarch64", "aarch64-linux-gnu-gcc", "libc6-dev-arm64-cross", "qemu-aarch64-static", number=4):
        return
    top = room / "aarch64"
    top.mkdir()
    run(["tar", "-xzf", next(release.glob("*aarch64-linux.tar.gz")), "-C", top, "--strip-components=1"])
    for label, library in (("the archive", [top / "lib/libimgref.a"]), ("the shared object", ["-L", top / "lib", "-limgref"])):
        status, _, said = run(["aarch64-linux-gnu-gcc", "-std=c11", "-O2", f"-I{top / 'include'}", ROOT / ".ci/c/calls.c", "-o", top / "calls", *library])
        cases.count(f"calls.c for aarch64, {label}", status == 0, said)
        if label == "the archive":
            status, _, said = run(["qemu-aarch64-static", "-L", "/usr/aarch64-linux-gnu", top / "calls"])
            counted(cases, "calls from C on aarch64", said, status)
        else:
            (top / "short.c").write_text(snippet("docs/C.md", "#include <imgref.h>"))
            run(["aarch64-linux-gnu-gcc", f"-I{top / 'include'}", top / "short.c", "-o", top / "short", *library])
            status, wrote, said = run(["qemu-aarch64-static", "-L", "/usr/aarch64-linux-gnu", "-E", f"LD_LIBRARY_PATH={top / 'lib'}", top / "short"])
            cases.count("the first program of C.md on aarch64, with the shared object", wrote == b"status 0, last pixel 7\n", said)


def wheel_on_aarch64(cases, release, room):
    """The wheel for aarch64 in Debian's Python of that processor under qemu: its import, and its tests that need no NumPy."""
    made, label = MADE["arm64"].result(), "the wheel on aarch64"
    if isinstance(made, str):
        cases.skip(label, made, number=4)
    if isinstance(made, str) or cases.lacks(label, "qemu-aarch64-static", number=4):
        return
    wheel = next(release.glob("*abi3*aarch64.whl"))
    shutil.unpack_archive(wheel, room / "wheel", "zip")
    python = ["qemu-aarch64-static", "-L", made, made / "usr/bin/python3.11"]
    env = os.environ | {"PYTHONPATH": str(room / "wheel"), "PYTHONDONTWRITEBYTECODE": "1"}
    status, wrote, said = run([*python, "-c", "import imgref, platform; print(imgref.__version__, platform.machine())"], env=env)
    cases.count("the wheel's import on aarch64", wrote.decode().split() == [VERSION, "aarch64"], said)
    for it in ("calls", "shapes", "colours"):
        status, _, said = run([*python, f"{it}.py"], cwd=ROOT / "bindings/python/tests", env=env)
        counted(cases, f"the wheel on aarch64: {it}", said, status, has_skips=False)


def main():
    cases = Cases()
    cases.count("the version has its section", f"## [{VERSION}]" in (ROOT / "CHANGELOG.md").read_text())
    if (3, 10) not in wheels.pythons():
        cases.leave("the wheel of a release", "CPython 3.10")
        os.environ[wheels.STABLE_ALONE] = "1"
    if cases.lacks("a release", "git", "cargo", "aarch64-linux-gnu-gcc", "readelf", number=50):
        return cases.end()
    try:
        wheels.chosen()
    except Failure:
        cases.skip("a release", "python3-dev", number=50)
        return cases.end()
    with tempfile.TemporaryDirectory(prefix="release-", ignore_cleanup_errors=True) as room, concurrent.futures.ThreadPoolExecutor() as beside:
        # (the first run of a machine makes the roots beside the release)
        MADE.update((it, beside.submit(make_root, it)) for it in WORDS)
        room = pathlib.Path(room)
        if release := made_twice(cases, room):
            provenance(cases, release)
            by_lintian(cases, release)
            # (each in folders of its own)
            side_by_side(cases, [lambda own, it=it: it(own, release, room) for it in (tried_inside, on_aarch64, wheel_of_each, wheel_on_aarch64, planted, refusals)])
    return cases.end()


if __name__ == "__main__":
    sys.exit(main())
