"""The Python wheels of a release: one with the stable ABI for each processor, and one for Python 3.10.

Each is built by the package's own hook (bindings/python/backend.py), by a Python of that version with its headers. The wheel
for aarch64 is compiled by Debian's gcc for that processor with the headers of this machine: the stable ABI is the same there.
"""
import contextlib
import glob
import os
import pathlib
import shutil
import tempfile

import libraries
from c_library import HEADER, Failure
from processes import run_to_end
from workspace import ROOT

SOURCES = ROOT / "bindings/python"
# By glibc 2.17 or later; pip takes both names.
PLATFORM = "manylinux_2_17_{0}.manylinux2014_{0}"
HOOK = """import sys; sys.path.insert(0, sys.argv[1]); import backend
try: print(backend.build_wheel(sys.argv[2], {"platform": sys.argv[3]}))
except backend.Failure as why: sys.exit(str(why))"""
# Says the version of a Python with headers.
ASKS = "import os, sys, sysconfig; print(*sys.version_info[:2]) if os.path.isfile(sysconfig.get_path('include') + '/Python.h') and sys.implementation.name == 'cpython' else 0"
# What Debian's headers of Python include by the name of the processor.
BY_PROCESSOR = "/usr/include/*-linux-gnu/python3.*/pyconfig.h"


# With this variable a release is tried without the wheel for Python 3.10, where the machine has no such Python.
STABLE_ALONE = "IMGREF_STABLE_ALONE"


def pythons():
    """The Pythons of this machine that have headers, by their version."""
    found = {}
    for it in [*filter(None, map(shutil.which, ("python3", "python3.10", "python3.11"))), "/usr/bin/python3", *sorted(glob.glob(os.path.expanduser("~/.pyenv/versions/3.*/bin/python3")))]:
        said = run_to_end([it, "-c", ASKS]).stdout.split() if os.path.exists(it) else []
        if len(said) == 2:
            found.setdefault(tuple(map(int, said)), it)
    return found


def chosen():
    """The Python that builds the wheels with the stable ABI, and that of 3.10. With STABLE_ALONE the last may be lacking."""
    found = pythons()
    stable = [path for version, path in sorted(found.items()) if version >= (3, 11)]
    for lacking, name in ((not stable, "3.11 or later"), ((3, 10) not in found and STABLE_ALONE not in os.environ, "3.10")):
        if lacking:
            raise Failure(f"no Python {name} with its headers is on this machine (python3-dev, or pyenv install)")
    return [stable[0], *([found[3, 10]] if (3, 10) in found else [])]


@contextlib.contextmanager
def headers_for(processor):
    """A folder in which another processor's compiler finds by its own name what Debian's headers of Python include here."""
    with tempfile.TemporaryDirectory(prefix="headers-") as room:
        for it in map(pathlib.Path, glob.glob(BY_PROCESSOR)):
            copy = pathlib.Path(room, processor.tools.rstrip("-"), it.parent.name, it.name)
            copy.parent.mkdir(parents=True, exist_ok=True)
            copy.write_bytes(it.read_bytes())
        yield room


def build(folder):
    """Writes the wheels into a folder."""
    stable, *old = chosen()
    with headers_for(libraries.OTHER) as headers:
        for python, its in ((stable, libraries.HERE), (stable, libraries.OTHER), *((it, libraries.HERE) for it in old)):
            env = os.environ | {"IMGREF_INCLUDE": str(HEADER.parent), "IMGREF_LIB": str(its.out()), "LC_ALL": "C"}
            if its != libraries.HERE:
                env["CC"] = f"{its.tools}gcc -I{headers}"
            ran = run_to_end([python, "-B", "-c", HOOK, SOURCES, folder, PLATFORM.format(its.name)], env=env)
            if ran.returncode:
                raise Failure(f"{ran.stdout}{ran.stderr}".strip())
