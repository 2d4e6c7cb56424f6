#!/usr/bin/env python3
"""`rt fmt` would leave each file of every crate as it is. `rt ci` proves no crate where it wouldn't."""
import pathlib
import sys

sys.path.insert(0, str(pathlib.Path(__file__).resolve().parent.parent))
from checking import Cases, changeable_copy, crates
from processes import end_on_signals, run_to_end, workers


def formatted(folder):
    """What `rt fmt` says where it fails or writes a file of a crate."""
    ran = run_to_end(["rt", "fmt"], cwd=folder)
    said = ran.stdout + ran.stderr
    return said if ran.returncode or "formatted" in said else ""


def main():
    cases = Cases()
    with changeable_copy() as copy, workers() as pool:
        names = list(crates())
        for name, said in zip(names, pool.map(lambda it: formatted(copy / "crates" / it), names)):
            cases.count(f"{name} is formatted", not said, said)
    return cases.end()


if __name__ == "__main__":
    end_on_signals()
    sys.exit(main())
