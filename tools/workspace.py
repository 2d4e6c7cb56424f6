"""The crates of the repository: what each depends on, whether what was built of it is fresh, and rooms to work on one in.

A room is a folder with one crate and those below it: copies of their sources, and hard links to what was cached of them. `rt`
lets one run at a time work in a crate and in all below it, so crates are proved side by side in rooms.
"""
import contextlib
import errno
import fcntl
import os
import pathlib
import shutil
import sys
import tempfile
import time

if sys.version_info < (3, 10):
    sys.exit("Python 3.10 or later is needed: %s is Python %d.%d" % ((sys.executable,) + tuple(sys.version_info[:2])))

ROOT = pathlib.Path(__file__).resolve().parent.parent
# The folders of a crate that its proofs are made of.
PARTS = ("src", "specs", "proofs")


def fill_streams():
    """Opens each standard stream that is closed on the null device. Otherwise a file that a tool opens later would get its number,
    and what a command prints would be written into it."""
    while (number := os.open(os.devnull, os.O_RDWR)) <= 2:
        os.set_inheritable(number, True)
    os.close(number)


def tell(kind, why, trace):
    """Says in one line what this machine lacks where that ends a tool: a checkout that can be written into, or a program. Where nobody reads
    what a tool prints, as after `| head`, it says nothing."""
    if isinstance(why, BrokenPipeError):
        # (what is left to print goes nowhere)
        os.dup2(os.open(os.devnull, os.O_WRONLY), sys.stdout.fileno())
        return
    name = str(getattr(why, "filename", None) or "")
    if isinstance(why, OSError) and why.errno in (errno.EROFS, errno.EACCES) and name.startswith(str(ROOT)):
        print(f"this needs a checkout that it can write into: {why}", file=sys.stderr)
    elif isinstance(why, FileNotFoundError) and name and "/" not in name:
        print(f"{name} is needed, and there is no such program on PATH. `make setup` installs the tools.", file=sys.stderr)
    elif isinstance(why, OSError) and os.strerror(errno.ENOSPC) in str(why):
        # (a copy of a folder tells of each file that it couldn't write)
        free = ", ".join(f"{it / 1e9:.1f} GB are free in {folder}" for folder, it in free_disks().items())
        print(f"the disk is full, so this ends: {free}", file=sys.stderr)
    else:
        sys.__excepthook__(kind, why, trace)


def free_disks():
    """The bytes that are free where the tools write: in the checkout, and in the folder of rooms."""
    return {it: shutil.disk_usage(it).free for it in (str(ROOT), tempfile.gettempdir())}


# Each tool of `make` imports this file before it opens another.
fill_streams()
sys.excepthook = tell


# The kits of Rattle by which everything here is proved, and their logic: another one may refuse a proof.
KITS, LOGIC = ("13b", "13f"), "dac8208d650f15bf"


def need_rattle():
    """Ends this tool with a line where there is no `rt`, and warns of another kit."""
    if not shutil.which("rt"):
        sys.exit("Rattle is needed, and there is no `rt` on PATH. README.md, 'Install', says what works without it.")
    kit = pathlib.Path(shutil.which("rt")).resolve().parent.parent / "KIT-ID"
    said = kit.read_text(encoding="utf-8").strip() if kit.is_file() else ""
    if said and said.split()[-1] != LOGIC:
        print(f"warning: this is {said}. These proofs are for kit {' or '.join(KITS)} with the logic {LOGIC}: another one may refuse them.", file=sys.stderr, flush=True)


def entries():
    """Each crate of crates.txt: its line, its name, its kind where it says one, and the crates that it names."""
    for line in (ROOT / "crates.txt").read_text().splitlines():
        head, _, below = line.split("#")[0].partition(":")
        if head.strip():
            name, *kind = head.split()
            yield line, name, kind, below.split()


def crates():
    """The crates, each with those that it names."""
    return {name: below for _, name, _, below in entries()}


def is_program(name):
    return (ROOT / "crates" / name / "src/main.rt").exists()


def is_library(name):
    """Whether other crates can depend on this one: it is neither a program nor a static library."""
    return not is_program(name) and not any(kind for _, it, kind, _ in entries() if it == name)


def product(name):
    """What is made of a crate, last of all: a program, an archive, or the stamp of a library."""
    made = ROOT / "crates" / name / "out"
    return made / name if is_program(name) else made / "rlib/stamp" if is_library(name) else made / f"lib{name}.a"


def with_those_below(name):
    """A crate and all that it depends on, lowest first."""
    found, all_of_them = [], crates()

    def visit(name):
        if name in all_of_them and name not in found:
            for it in all_of_them[name]:
                visit(it)
            found.append(name)

    visit(name)
    return found


def sources(name):
    """The files that a crate's programs are made of: its own, those of the crates below it, and crates.txt."""
    yield ROOT / "crates.txt"
    for crate in with_those_below(name):
        yield from own_sources(crate)


def own_sources(name):
    """The files of a crate alone."""
    for part in PARTS:
        for at, _, files in os.walk(ROOT / "crates" / name / part):
            yield from (pathlib.Path(at, it) for it in files if it.endswith((".rt", ".antt")))


def says(name, word):
    """Whether the code of a crate has a word, as `#[test]`."""
    return any(word in it.read_text() for it in own_sources(name) if it.name.endswith(".rt"))


def is_fresh(program, name):
    """Whether a program is there and newer than all that it is made of."""
    return program.is_file() and all(it.stat().st_mtime <= program.stat().st_mtime for it in sources(name))


def is_proved(name):
    """Whether what was made of a crate is newer than all that it is made of."""
    return is_fresh(product(name), name)


def linked(source, target):
    """A hard link where both folders are on one disk, else a copy. The prover replaces a cached file and doesn't write into it."""
    try:
        os.link(source, target)
    except OSError:
        shutil.copy2(source, target)


def copy_source(source, target):
    """Copies a source. Where that fails, it tries twice more, after a second each: an editor may replace the file at that moment."""
    for is_last in (False, False, True):
        try:
            return shutil.copy2(source, target)
        except OSError:
            if is_last:
                raise
            time.sleep(1)


@contextlib.contextmanager
def room(name, texts=None):
    """Gives the folder of that crate in a room, which is there until the end of the block, with what was built below it and
    the proofs that were cached of it. In the room some files have other texts, by their paths below crates/. Where one of
    them is of a crate below, the cached proofs of all are there."""
    texts = texts or {}
    changes_below = any(not it.startswith(f"{name}/") for it in texts)
    with tempfile.TemporaryDirectory(prefix="room-", ignore_cleanup_errors=True) as top:
        top, names = pathlib.Path(top), with_those_below(name)
        (top / "crates.txt").write_text("".join(f"{line}\n" for line, it, _, _ in entries() if it in names))
        for it in names:
            source, target = ROOT / "crates" / it, top / "crates" / it
            for path in own_sources(it):
                (to := target / path.relative_to(source)).parent.mkdir(parents=True, exist_ok=True)
                copy_source(path, to)
            with held(source):
                for kept in ["rlib", *["incremental"] * (it == name or changes_below)]:
                    if (source / "out" / kept).is_dir():
                        shutil.copytree(source / "out" / kept, target / "out" / kept, copy_function=linked)
        for path, text in texts.items():
            (top / "crates" / path).parent.mkdir(parents=True, exist_ok=True)
            (top / "crates" / path).write_text(text, encoding="utf-8")
        yield top / "crates" / name


@contextlib.contextmanager
def held(folder):
    """Keeps every run of `rt` out of a crate's folder until the end of the block, as `rt` itself does."""
    handle = os.open(folder, os.O_RDONLY)
    try:
        fcntl.flock(handle, fcntl.LOCK_EX)
        yield
    finally:
        os.close(handle)


@contextlib.contextmanager
def proved_once(name):
    """Waits until no other program proves a crate, and keeps others waiting until the end of the block. Gives whether the crate is
    proved by then."""
    out = ROOT / "crates" / name / "out"
    out.mkdir(exist_ok=True)
    with open(out / "proving", "w", encoding="utf-8") as kept:
        fcntl.flock(kept, fcntl.LOCK_EX)
        yield is_proved(name)


def keep(made, name):
    """Moves what was made and cached in a room to the crate itself."""
    keep_all(made, name)
    with held(ROOT / "crates" / name):
        # (rt leaves a stamp or a program whose text has not changed as it was)
        if product(name).is_file():
            product(name).touch()


def keep_all(made, name):
    """Moves all that is in a room's folder out/ to the crate itself."""
    target = ROOT / "crates" / name / "out"
    with held(target.parent):
        target.mkdir(exist_ok=True)
        for it in (made / "out").iterdir():
            there = target / it.name
            if there.is_dir():
                shutil.rmtree(there, ignore_errors=True)
            shutil.move(it, there)


def keep_program(program, name, ending):
    """Moves a program that was made in a room to the crate's folder out/, under the crate's name and an ending."""
    target = ROOT / "crates" / name / "out"
    with held(target.parent):
        shutil.move(program, target / f"{name}{ending}")
        (target / f"{name}{ending}").touch()
