#!/usr/bin/env python3
"""The package for Python: a wheel in out/python, over the library for C.

    python_package.py build    proves and builds the library where one of its sources has changed, and builds the wheel

It needs the headers of Python (Debian: python3-dev) and a C compiler, which CC names (cc). The wheel
is for the Python that runs this, and from 3.11 on for each later one; PYTHON names another one. The
last line says for which one it is, and on which ones the tests run. It depends on no other package, so
`pip install --no-index out/python/imgref-..whl` installs it.
"""
import os
import shutil
import sys

import c_library
from processes import end_on_signals, run_to_end
from program import say
from workspace import ROOT

SOURCES = ROOT / "bindings/python"
OUT = ROOT / "out/python"
# The versions of CPython on which .ci/checks/proofs/bindings.py runs the package's tests, each where the machine has it.
TRIED = ("3.10", "3.11", "3.12", "3.13")
# Builds the wheel as pip would: by the package's own hook.
HOOK = "import sys; sys.path.insert(0, sys.argv[1]); import backend\ntry: print(backend.build_wheel(sys.argv[2]))\nexcept backend.Failure as why: sys.exit(str(why))"


# The oldest Python that the package takes.
OLDEST = (3, 10)
ASKS = "import sys; print(sys.implementation.name, '%d.%d.%d' % sys.version_info[:3])"


def fits(python):
    """Refuses a Python that isn't there, or that the package isn't for, before anything is proved."""
    if not shutil.which(python):
        raise c_library.Failure(f"PYTHON: there is no program {python}")
    name, _, version = run_to_end([python, "-c", ASKS]).stdout.strip().partition(" ")
    if name != "cpython" or tuple(map(int, version.split(".")[:2])) < OLDEST:
        raise c_library.Failure(f"the package needs CPython {OLDEST[0]}.{OLDEST[1]} or later, and {python} is {f'{name} {version}'.strip() or 'no Python'}: PYTHON names another one")


def build(python=os.environ.get("PYTHON") or sys.executable):
    """Builds the wheel for a Python, and returns its path."""
    fits(python)
    c_library.build()
    shutil.rmtree(OUT, ignore_errors=True)
    OUT.mkdir(parents=True)
    ran = run_to_end([python, "-B", "-c", HOOK, SOURCES, OUT], env=os.environ | {"IMGREF_INCLUDE": str(c_library.HEADER.parent), "IMGREF_LIB": str(c_library.OUT)})
    if ran.returncode:
        raise c_library.Failure(f"{ran.stdout}{ran.stderr}".strip())
    return OUT / ran.stdout.splitlines()[-1]


def described(wheel):
    """For which Python a wheel is, and whether the tests run on it."""
    _, _, python, abi, _ = wheel.name.split("-")
    version = f"{python[2]}.{python[3:]}"
    return f"for CPython {version}{' and each later one' if abi == 'abi3' else ''} (tried on {', '.join(TRIED)}{'' if version in TRIED else ', not on this one'})"


def main(words):
    if words != ["build"]:
        sys.exit(__doc__)
    wheel = build()
    say(f"{wheel.relative_to(ROOT)}, {described(wheel)}")


if __name__ == "__main__":
    end_on_signals()
    try:
        main(sys.argv[1:])
    except c_library.Failure as why:
        sys.exit(str(why))
    except KeyboardInterrupt:
        sys.exit("interrupted: what is proved so far stays")
