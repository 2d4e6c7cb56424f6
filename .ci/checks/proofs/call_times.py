#!/usr/bin/env python3
"""The times of calls from Python (bindings/python/tests/speed.py), by the package as pip installs it.

It comes last, with nothing beside it.
"""
import pathlib
import sys
import tempfile

from bindings import PYTHON, QUIET, check_install, has_venv, with_arrays
from checking import ROOT, Cases
from library import counted, run


def main():
    cases = Cases()
    status, _, said = run(["make", "-s", "python"], cwd=ROOT)
    cases.count("make python", status == 0, said)
    with tempfile.TemporaryDirectory(prefix="times-") as room:
        room = pathlib.Path(room)
        if not status and has_venv(cases, "the times of calls from Python", with_arrays(), "--system-site-packages", room / "venv"):
            python = check_install(cases, room / "venv", next((ROOT / "out/python").glob("imgref-*.whl")))
            status, _, said = run([python, "speed.py"], cwd=PYTHON / "tests", env=QUIET)
            counted(cases, "Python: speed", said, status)
    return cases.end()


if __name__ == "__main__":
    sys.exit(main())
