#!/usr/bin/env python3
"""What a new machine may lack: each lack is one clear line, and what is skipped for it is counted.

The tools run in a copy of the repository, with a folder for PATH that has only what a case names, a `rt` that proves nothing and an
`apt-get` that installs nothing. So nothing of this machine changes, and nothing is proved.
"""
import ast
import contextlib
import fcntl
import os
import pathlib
import re
import shutil
import subprocess
import sys
import tempfile

sys.path.insert(0, str(pathlib.Path(__file__).resolve().parent.parent))
from checking import ROOT, Cases, changeable_copy, permitted

import face
from gate import Part, lacking
from needs import needs
from workspace import KITS, LOGIC

# What each Debian has, what comes with another package of the list, and what is of this repository or of Rattle, as an edit is.
BASE = {"sh", "bash", "cat", "date", "env", "nice", "true", "sudo", "tar", "sha256sum", "dpkg-deb", "apt-get", "unshare", "mount", "umount", "strip", "rustc", "ssh", "sshd", "ssh-keygen", "rt", "imgref_frames", "means"}
# A program that a script looks for or starts.
STARTED = re.compile(r"""(?:which|lacks|run|Popen|command|run_to_end|first)\(\[?"([a-z][\w.+-]*)"(?=[,)\]])""")
# The tools that a person starts, with words that do something.
ENTRIES = (
    "tools/program.py try", "tools/program.py run", "tools/setup.py", "tools/c_library.py build", "tools/python_package.py build", "tools/web.py build", "tools/release.py build",
    "tools/times.py", "tools/bench.py", "tools/api_page.py", "tools/crates_page.py", "tools/exports.py", ".ci/gate.py test", ".ci/gate.py gate", ".ci/tests.py", ".ci/planted_bugs.py", ".ci/checks/links.py",
)  # fmt: skip
NEEDS_RATTLE = ("tools/program.py try", "tools/program.py run", "tools/program.py build imgref_frames", "tools/c_library.py build", "tools/python_package.py build", "tools/times.py", ".ci/gate.py check", ".ci/gate.py test", ".ci/gate.py gate", ".ci/tests.py")
# Runs a tool as Python 3.9 would.
OLD = "import runpy, sys; sys.version_info = (3, 9, 2, 'final', 0); sys.argv = sys.argv[1:]; sys.path.insert(0, sys.argv[0].rpartition('/')[0]); runpy.run_path(sys.argv[0], run_name='__main__')"
# An `apt-get` that knows one package, and says that it would install it, or that there is no network.
APT = """#!/bin/sh
case "$*" in
*update*) {update} ;;
*--assume-no*) case "$*" in *unknown*) echo "E: Unable to locate package unknown" >&2; exit 100 ;; esac
    echo "Need to get 5,055 kB of archives."; echo "After this operation, 19.3 MB of additional disk space will be used."; exit 1 ;;
*install*) {install} ;;
esac
"""
OFFLINE = "E: Failed to fetch http://deb.example  Temporary failure resolving"


@contextlib.contextmanager
def path_with(*names, **scripts):
    """A folder for PATH with these programs of the machine, and with scripts of these names."""
    with tempfile.TemporaryDirectory(prefix="path-") as folder:
        for it in ("python3", "sh", "env", "nice", *names):
            if found := sys.executable if it == "python3" else shutil.which(it):
                pathlib.Path(folder, it).symlink_to(os.path.realpath(found))
        for it, text in scripts.items():
            file = pathlib.Path(folder, it.replace("_", "-"))
            file.write_text(text)
            file.chmod(0o755)
        yield pathlib.Path(folder)


def said(words, top, path, **more):
    """The status of a command, what it wrote, and its lines of errors, with this folder for PATH."""
    env = {"HOME": "/nonexistent", "LC_ALL": "C.UTF-8", "PATH": str(path), "SETUP": "no", "PYTHONDONTWRITEBYTECODE": "1", **more.pop("env", {})}
    ran = subprocess.run(words, cwd=top, env=env, stdin=subprocess.DEVNULL, capture_output=True, text=True, errors="replace", timeout=120, **more)
    return ran.returncode, ran.stdout, ran.stderr.strip().splitlines()


def count_line(cases, label, made, text):
    """One case: a command fails with this text in its last line, with at most two lines and no traceback."""
    status, _, lines = made
    cases.count(label, status == 1 and 0 < len(lines) < 3 and text in lines[-1] and "Traceback" not in "".join(lines), f"{status}: {lines}")


def check_list(cases):
    """The line of CONTRIBUTING.md takes its packages from the list, which has what the scripts look for and start."""
    line = "    sudo apt-get install --no-install-recommends $(python3 tools/setup.py list)\n"
    status, wrote, _ = said([sys.executable, "tools/setup.py", "list"], ROOT, os.environ["PATH"])
    cases.count("the line of CONTRIBUTING.md takes each package of tools/needs.txt", line in (ROOT / "CONTRIBUTING.md").read_text() and status == 0 and wrote.split() == [*needs()], wrote)
    wrong = [it for it in (ROOT / "tools/needs.txt").read_text().splitlines() if it and not it.startswith("#") and it != "gate" and it.split(" | ")[0] not in needs()]
    cases.count("each line of tools/needs.txt is read", not wrong and len(needs()) > 30, str(wrong))
    known = BASE | {name for it in needs().values() for name in (it.package, *it.shown_by)}
    started = {(name, str(path.relative_to(ROOT))) for folder in ("tools", ".ci", "bindings/python", "examples") for path in (ROOT / folder).rglob("*.py") for name in STARTED.findall(path.read_text())}
    lost = sorted(it for it in started if it[0] not in known)
    cases.count(f"tools/needs.txt has each of the {len({it[0] for it in started})} programs that scripts start", not lost and len(started) > 40, str(lost))


def check_lacks(cases):
    """What a check says is lacking is in tools/needs.txt, or is what a kernel or processor may lack."""
    known = permitted("machine") | {name for it in needs().values() for name in (it.package, *it.shown_by)}
    found = set()
    for path in sorted((ROOT / ".ci").rglob("*.py")):
        calls = (it for it in ast.walk(ast.parse(path.read_text())) if isinstance(it, ast.Call) and getattr(it.func, "attr", "") in ("skip", "lacks") and path.name != "fresh_machine.py")
        found |= {(part.value, path.name) for it in calls for word in it.args[1:] for part in ast.walk(word) if isinstance(part, ast.Constant) and re.fullmatch(r"[a-z][\w+. -]+", str(part.value))}
    lost = sorted(it for it in found if it[0] not in known and it[0] != "debug")
    cases.count(f"each of the {len(found)} things that a check may lack is listed", not lost and len(found) > 20, str(lost))


def check_counts(cases):
    """What is skipped counts as such, and as failed with CI=true, except for what a kernel or processor lacks."""
    tried = "import sys; sys.path.insert(0, '.ci'); from checking import Cases; it = Cases(); it.count('a', True); it.skip('b', *sys.argv[1:], number=7); it.end()"
    for label, env, words, last in (
        ("a case", {}, ["zsh"], "1 passed, 0 failed, 7 skipped"), ("with CI=true", {"CI": "true"}, ["zsh"], "1 passed, 7 failed, 0 skipped"),
        ("what a kernel lacks", {"CI": "true"}, ["namespaces"], "1 passed, 0 failed, 7 skipped"), ("both", {"CI": "true"}, ["namespaces", "ffprobe"], "1 passed, 7 failed, 0 skipped"),
    ):  # fmt: skip
        _, wrote, lines = said([sys.executable, "-c", tried, *words], ROOT, os.environ["PATH"], env=env)
        cases.count(f"skipped: {label}", wrote.splitlines()[-1:] == [last] and f"b: 7 skipped, no {words[0]}" in wrote, wrote + "".join(lines))
    _, _, lines = said([sys.executable, "-c", tried, "nothing-known"], ROOT, os.environ["PATH"])
    cases.count("skipped: what tools/needs.txt doesn't list is an error", "KeyError" in "".join(lines), "".join(lines))
    part = Part("recipes.py", [])
    part.count(["recipe 1 in zsh: 4 skipped, no zsh", "spans: not tried, no std::mdspan", "9 passed, 0 failed, 4 skipped"], True)
    table = lacking([part])
    cases.count("a part's last line has three numbers", (part.passed, part.failed, part.skipped) == (9, 0, 4))
    cases.count("the table names what was skipped, and for want of what", re.search(r"(?m)^ +4  recipes.py: recipe 1 in zsh +zsh$", table) and "not counted: std::mdspan" in table, table)
    part.count(["9 passed, 0 failed"], True)
    cases.count("a part with two numbers skips nothing", (part.passed, part.failed, part.skipped) == (9, 0, 0))


def check_setup(cases, top):
    """It installs what is missing, or says what to type."""
    row = "made | {folder}/made | a trial\n"
    for label, update, install, more, due, text in (
        ("installs what is missing", "exit 0", "touch {folder}/made", "", 0, "all is installed"),
        ("names a package that apt doesn't know", "exit 0", "touch {folder}/made", "unknown | nothing-known | a trial\n", 1, "still missing: unknown"),
        ("says that there is no network", f"echo '{OFFLINE}' >&2; exit 100", "exit 100", "", 1, "sudo apt-get install -y --no-install-recommends made"),
    ):
        with path_with("touch", "true", "sudo") as path:
            (top / "tools/needs.txt").write_text(row.format(folder=path) + more)
            (path / "apt-get").write_text(APT.format(update=update, install=install.format(folder=path)))
            (path / "apt-get").chmod(0o755)
            (path / "id").write_text("")
            how = [sys.executable, "-c", "import os, sys; os.geteuid = lambda: 0; sys.path.insert(0, 'tools'); import setup; sys.exit(setup.main([]))"]
            status, _, lines = said(how, top, path)
            cases.count(f"make setup {label}", status == due and text in lines[-1] and "5,055 kB to download, 19.3 MB on disk" in "".join(lines) and "Traceback" not in "".join(lines), f"{status}: {lines}")
            if due == 0:
                status, _, lines = said(how, top, path)
                cases.count("make setup does nothing where all is there", status == 0 and lines == ["setup: nothing to do: all 1 packages are there"], str(lines))
    with path_with() as path:
        (top / "tools/needs.txt").write_text(row.format(folder=path))
        status, _, lines = said([sys.executable, "tools/setup.py"], top, path)
        cases.count("make setup without apt-get names the packages", status == 1 and len(lines) == 1 and lines[0].endswith("made"), str(lines))
        (path / "apt-get").write_text("#!/bin/sh\nexit 1\n")
        (path / "apt-get").chmod(0o755)
        how = "import os, sys; os.geteuid = lambda: 1000; sys.path.insert(0, 'tools'); import setup; sys.exit(setup.main([]))"
        status, _, lines = said([sys.executable, "-c", how], top, path)
        cases.count("make setup says what to type where it may not install", status == 1 and len(lines) == 2 and lines[1] == "    sudo apt-get install -y --no-install-recommends made", str(lines))
    shutil.copy(ROOT / "tools/needs.txt", top / "tools/needs.txt")


def check_rattle(cases, top):
    """No `rt` is one line, and another kit is a warning."""
    page = (ROOT / "README.md").read_text()
    cases.count("README.md names the kits and their logic", f"Rattle kit {' or '.join(KITS)}" in page and f"`{LOGIC}`" in page)
    with path_with("git", "make", "cc", "ar", "objcopy") as path:
        for it in NEEDS_RATTLE:
            count_line(cases, f"without Rattle: {it}", said([sys.executable, *it.split()], top, path), "there is no `rt` on PATH")
        kit = path / "kit"
        (kit / "bin").mkdir(parents=True)
        (kit / "bin/rt").write_text("#!/bin/sh\ncat\n")
        (kit / "bin/rt").chmod(0o755)
        (path / "rt").symlink_to(kit / "bin/rt")
        (path / "cat").symlink_to(shutil.which("cat"))
        for label, text, is_warned in (("another kit", "rattle-kit-99z logic 0123456789abcdef", True), ("this kit", "rattle-kit-13f logic dac8208d650f15bf", False)):
            (kit / "KIT-ID").write_text(text + "\n")
            status, wrote, lines = said([sys.executable, "tools/program.py", "try"], top, path)
            cases.count(f"{label} is{'' if is_warned else ' not'} warned of", status == 0 and any(f"warning: this is {text}" in it for it in lines) == is_warned and wrote == (top / "examples/first.script").read_text(), f"{status} {wrote} {lines}")


def check_python(cases, top):
    """An older Python is one line, of each tool and of make."""
    with path_with("make") as path:
        for it in ENTRIES:
            count_line(cases, f"Python 3.9: {it}", said([sys.executable, "-c", OLD, *it.split()], top, path), "Python 3.10 or later is needed")
        (path / "python3").unlink()
        for label, text in (("Python 3.9", "#!/bin/sh\n[ \"$1\" = --version ] && echo Python 3.9.2 || echo False\n"), ("no Python", None)):
            if text:
                (path / "python3").write_text(text)
                (path / "python3").chmod(0o755)
            status, _, lines = said(["make", "try"], top, path)
            cases.count(f"make by {label} is one line", status == 2 and len(lines) == 1 and "Python 3.10 or later is needed" in lines[0], str(lines))
            (path / "python3").unlink(missing_ok=True)


def check_checkout(cases, top):
    """A checkout that can't be written into, no git, a second run, and a path with a space and an accent."""
    with path_with("make", rt="#!/bin/sh\nexit 3\n") as path:
        status, _, lines = said([sys.executable, ".ci/gate.py", "check"], top, path)
        cases.count("without git the checks go on", "Traceback" not in "".join(lines), "\n".join(lines))
        status, wrote, lines = said([sys.executable, ".ci/checks/figures.py"], top, path)
        cases.count("without git the ages of figures are skipped", "skipped, no git" in wrote and "Traceback" not in "".join(lines), wrote + "\n".join(lines))
        with open(top / "out/working", "r+", encoding="utf-8") as kept:
            fcntl.flock(kept, fcntl.LOCK_EX)
            for it in ("check", "test"):
                count_line(cases, f"a second make {it} at once", said([sys.executable, ".ci/gate.py", it], top, path), "works in this checkout: wait for its end")
        status, wrote, lines = said(["make", "-s", "docs", "exports"], top, path)
        cases.count(f"make docs and make exports in the folder {top.name}", status == 0 and not lines, f"{wrote} {lines}")
        locked = "import sys; sys.path.insert(0, 'tools'); import workspace; raise OSError(30, 'Read-only file system', workspace.ROOT / 'out')"
        count_line(cases, "a checkout that can't be written into", said([sys.executable, "-c", locked], top, path), "this needs a checkout that it can write into")
        for label, what in (("a file", "28, 'No space left on device', 'out'"), ("a folder", "[('src', 'to', '[Errno 28] No space left on device: to')]")):
            full = f"import sys; sys.path.insert(0, 'tools'); import workspace, shutil; raise {'OSError' if label == 'a file' else 'shutil.Error'}({what})"
            count_line(cases, f"a disk that is full by {label}", said([sys.executable, "-c", full], top, path), "the disk is full, so this ends")
        lost = "import sys; sys.path.insert(0, 'tools'); import workspace, subprocess; subprocess.run(['nothing-known'])"
        count_line(cases, "a program that is missing", said([sys.executable, "-c", lost], top, path), "nothing-known is needed")


def check_face(cases, top):
    """`make try` covers what README.md covers, and writes the picture that README.md shows."""
    cases.count("make try covers the places of README.md", f"imgref_frames {' '.join(face.COVERS)} |" in (ROOT / "README.md").read_text())
    # (the model does what `rt try` would: that takes half a minute)
    model = f"#!/bin/sh\nexec {sys.executable} -c \"import sys; sys.path.insert(0, '.ci'); import tries; sys.stdout.buffer.write(tries.wanted(sys.stdin.buffer.read(), sys.argv[3:])[0])\" \"$@\"\n"
    for tool, package in (("pngtopnm", "netpbm"), ("ffmpeg", "ffmpeg")):
        if cases.lacks(f"the picture of make try, by {package}", package):
            continue
        with path_with(tool, *["pnmtopng"] * (package == "netpbm"), "make", rt=model.replace("'.ci'", f"'{top / '.ci'}'")) as path:
            status, wrote, lines = said(["make", "-s", "try"], top, path)
        made = top / "out/covered.png"
        cases.count(f"make try says where the picture is, by {package}", status == 0 and "is covered in out/covered.png" in lines[-1] and made.is_file(), f"{status} {wrote} {lines}")
        if not cases.lacks("what the picture of make try shows", "netpbm"):
            same = subprocess.run(["bash", "-c", f"pngtopnm '{ROOT}/docs/covered.png' | pamcut -left 240 | cmp - <(pngtopnm '{made}')"], capture_output=True, text=True)
            cases.count(f"it is the right half of docs/covered.png, by {package}", same.returncode == 0, same.stdout + same.stderr)


def main():
    cases = Cases()
    check_list(cases)
    check_lacks(cases)
    check_counts(cases)
    with changeable_copy() as made:
        # (a path with a space and an accent)
        top = made.rename(made.parent / "a é b")
        (top / "out").mkdir(exist_ok=True)
        for check in (check_setup, check_rattle, check_python, check_checkout, check_face):
            check(cases, top)
    return cases.end()


if __name__ == "__main__":
    sys.exit(main())
