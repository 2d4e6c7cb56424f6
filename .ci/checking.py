"""What the checks share: counting cases, a copy of the repository to change, and what was built from it."""
import concurrent.futures
import contextlib
import os
import pathlib
import re
import shutil
import subprocess
import sys
import tempfile

sys.path.insert(0, str(pathlib.Path(__file__).resolve().parent.parent / "tools"))
from needs import needs, package_of
from workspace import ROOT, crates, is_fresh, linked, says

# By this word a check runs over one build of a program.
ONE_BUILD = "--one-build"


# What a check counted, as its last line says it. Other programs end with the first two numbers alone.
COUNT = re.compile(r"(\d+) passed, (\d+) failed(?:, (\d+) skipped)?")
# What a check skipped: the cases, how many there are, and for want of what. And the same of a variant that isn't counted.
SKIPPED, VARIANT = re.compile(r"(?m)^(.*): (\d+) skipped, no (.+)$"), re.compile(r"(?m)^(.*): not tried, no (.+)$")
# What may be skipped, with the reason.
MAY_BE_SKIPPED = ROOT / ".ci/may_be_skipped.txt"


def is_strict():
    """Whether a case that is skipped counts as failed."""
    return os.environ.get("CI") == "true"


def permitted(kind):
    """What of this kind a file says may be skipped: `machine` or `variant`."""
    rows = [line.split(" | ") for line in MAY_BE_SKIPPED.read_text(encoding="utf-8").splitlines() if not line.startswith("#")]
    return {row[1] for row in rows if row[0] == kind}


class Cases:
    """Counts cases, and prints a line for each."""

    def __init__(self):
        self.passed = self.failed = self.skipped = 0

    def count(self, label, is_well, said=""):
        """One case, and, where it failed, what is known of it."""
        self.passed, self.failed = self.passed + bool(is_well), self.failed + (not is_well)
        print(f"{label}: {'passed' if is_well else 'FAILED'}", flush=True)
        if not is_well and said:
            print(said, flush=True)

    def skip(self, label, *lacking, number=1):
        """Cases that can't be tried for want of these packages or programs of tools/needs.txt, or of what a kernel or processor lacks.
        With CI=true only the last may be."""
        names = [it if it in permitted("machine") else package_of(it) for it in lacking]
        print(f"{label}: {number} skipped, no {' and no '.join(dict.fromkeys(names))}", flush=True)
        if is_strict() and not {*names} <= permitted("machine"):
            print(f"{label}: FAILED, since nothing that can be installed may be skipped with CI=true", flush=True)
            self.failed += number
        else:
            self.skipped += number

    def lacks(self, label, *names, number=1):
        """Whether this machine lacks one of these packages or programs. Then the cases are skipped."""
        lacking = [it for it in names if not needs()[package_of(it)].is_there()]
        if lacking:
            self.skip(label, *lacking, number=number)
        return bool(lacking)

    def leave(self, label, variant):
        """Names a variant of cases that are tried in another way. Debian has no package for it, so it isn't counted."""
        if variant not in permitted("variant"):
            raise KeyError(f"{MAY_BE_SKIPPED} has no variant {variant}")
        print(f"{label}: not tried, no {variant}", flush=True)

    def add(self, other):
        """Adds what was counted elsewhere."""
        self.passed, self.failed, self.skipped = self.passed + other.passed, self.failed + other.failed, self.skipped + other.skipped

    def end(self):
        """Prints the last line of a check, and returns its status."""
        print(f"{self.passed} passed, {self.failed} failed, {self.skipped} skipped")
        return 1 if self.failed or not self.passed + self.skipped else 0


def side_by_side(cases, checks):
    """Makes checks by all processors. Each is a call that counts cases of its own, which are added."""

    def counted(check):
        own = Cases()
        check(own)
        return own

    with concurrent.futures.ThreadPoolExecutor(len(os.sched_getaffinity(0))) as pool:
        for own in pool.map(counted, checks):
            cases.add(own)


# What proofs cached, in the folder out/ of a crate.
CACHED = ("incremental", "rlib")


def copied(folder, without=("out",)):
    """A copy of the repository in that folder, without its history, without its folder out/, and without these folders of each crate."""

    def left_out(at, names):
        inside = pathlib.Path(at).relative_to(ROOT).parts
        return [".git", "out"] if not inside else without if inside[0] == "crates" and len(inside) == 2 else []

    def copy(source, target):
        inside = pathlib.Path(source).relative_to(ROOT).parts
        (linked if inside[2:3] == ("out",) and inside[3] in CACHED else shutil.copy2)(source, target)

    return pathlib.Path(shutil.copytree(ROOT, folder, ignore=left_out, copy_function=copy))


@contextlib.contextmanager
def changeable_copy(without=("out",)):
    """Such a copy, which is there until the end of the block. Other users may work below it."""
    with tempfile.TemporaryDirectory(prefix="copy-", ignore_cleanup_errors=True) as room:
        os.chmod(room, 0o711)
        yield copied(f"{room}/copy", without)


def built(name, endings):
    """What `rt` left of a crate in its folder out/: the programs NAME with these endings, except one that is older than a source."""
    programs = [ROOT / "crates" / name / "out" / f"{name}{it}" for it in endings]
    return [it for it in programs if is_fresh(it, name)]


def both_builds(cases, name):
    """A program as both compilers made it: LLVM's, and that of Rattle's own. That both are there is a case. With the word
    --one-build it is LLVM's alone."""
    endings = ("",) if ONE_BUILD in sys.argv[1:] else ("", ".by-rattle")
    programs = built(name, endings)
    label = f"the build of {name} is there" if len(endings) == 1 else f"both builds of {name} are there"
    cases.count(label, len(programs) == len(endings), f"crates/{name}/out lacks one, or it is older than its sources")
    return programs


def preloaded(source, room):
    """Compiles a file of C by the toolchain's own clang, and returns the library that it makes: a program loads it by LD_PRELOAD."""
    kit = pathlib.Path(subprocess.run(["rt", "doc"], check=True, capture_output=True, text=True).stdout.strip()).parent / "toolchain/bin"
    library = f"{room}/{source.stem}.so"
    subprocess.run([kit / "clang", "-shared", "-fPIC", "-O1", "-nostdlib", f"--ld-path={kit}/ld.lld", "-o", library, source], check=True)
    return library
