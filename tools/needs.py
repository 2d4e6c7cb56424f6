"""What the tests and the recipes need beyond Rattle, by tools/needs.txt, and which of it this machine lacks."""
import dataclasses
import functools
import glob
import shutil
import subprocess
import sys

from workspace import ROOT

FILE = ROOT / "tools/needs.txt"
# The Python that runs this, and that of the system.
PYTHONS = (sys.executable, "/usr/bin/python3")


@dataclasses.dataclass(frozen=True)
class Need:
    """A package of Debian's, what shows that it is there, what it is for, and whether the gate alone needs it."""

    package: str
    shown_by: tuple
    why: str
    of_gate: bool

    def is_there(self):
        return all(map(is_shown, self.shown_by))


@functools.lru_cache(None)
def imports(python, modules):
    """Whether a Python of this machine has these modules, which have commas between them."""
    return bool(shutil.which(python)) and subprocess.run([python, "-c", f"import {modules}"], capture_output=True, stdin=subprocess.DEVNULL).returncode == 0


def python_with(modules):
    """A Python of this machine that has these modules, or nothing."""
    return next((it for it in PYTHONS if imports(it, modules)), None)


def is_shown(it):
    """Whether a program, a file or a module is there."""
    if it.startswith("import "):
        return bool(python_with(it.split()[1]))
    return bool(glob.glob(it)) if it.startswith("/") else bool(shutil.which(it))


@functools.lru_cache(None)
def needs():
    """Each package of the file by its name."""
    found, of_gate = {}, False
    for line in FILE.read_text(encoding="utf-8").splitlines():
        fields = [it.strip() for it in line.split("|")]
        of_gate |= line.strip() == "gate"
        if len(fields) == 3 and not line.startswith("#"):
            name, shown_by, why = fields
            found[name] = Need(name, (shown_by,) if shown_by.startswith("import ") else tuple(shown_by.split()), why, of_gate)
    return found


def package_of(name):
    """The package that has a program, or the package itself where that is its name. Raises KeyError where the file has none."""
    if name in needs():
        return name
    return next((it.package for it in needs().values() if name in it.shown_by), None) or needs()[name]


def of_tests():
    """The packages that `make test` needs: all but those that the gate alone needs."""
    return [it.package for it in needs().values() if not it.of_gate]


def missing(packages):
    """Those packages that this machine lacks."""
    return [it for it in packages if not needs()[it].is_there()]
