#!/usr/bin/env python3
"""Runs every test with nothing proved: `rt try --test`, which checks each access while a test runs, side by side.

    tests.py [CRATE..]

A line stands for each crate, and what failed before it. The last line counts the tests.
"""
import concurrent.futures
import re
import sys

from checking import ROOT, crates, says
from processes import end_on_signals, workers
from proving import processors, run
from workspace import need_rattle

RESULT = re.compile(r"test result: .* (\d+) passed; (\d+) failed")
# A crate's tests have so many seconds.
SECONDS = 600


def tests_of(name):
    """How many tests of a crate pass and fail, and what was said."""
    lines = []
    run(["rt", "try", "--test", "--seconds", SECONDS], ROOT / "crates" / name, lines.append)
    found = [it for it in map(RESULT.match, lines) if it]
    return (int(found[-1][1]), int(found[-1][2])) if found else (0, 1), "".join(lines)


def main(words):
    need_rattle()
    names = words or [it for it in crates() if says(it, "#[test]")]
    size = lambda name: sum(it.stat().st_size for it in (ROOT / "crates" / name / "src").rglob("*.rt"))
    passed = failed = 0
    with workers(processors()) as pool:
        # (the longest first)
        of = {pool.submit(tests_of, it): it for it in sorted(names, key=lambda it: -size(it))}
        for it in concurrent.futures.as_completed(of):
            (well, bad), said = it.result()
            passed, failed = passed + well, failed + bad
            print(f"{said if bad else ''}== {of[it]}\n{well} of its tests passed, {bad} failed", flush=True)
    print(f"{passed} passed, {failed} failed")
    return 1 if failed or not passed else 0


if __name__ == "__main__":
    end_on_signals()
    try:
        sys.exit(main(sys.argv[1:]))
    except KeyboardInterrupt:
        sys.exit("interrupted")
