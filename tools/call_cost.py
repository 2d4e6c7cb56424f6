#!/usr/bin/env python3
"""Counts the instructions of calls of the library for C, beside loops over rows: the table of
docs/C.md.

    call_cost.py [SIDE ..]    sides of the square images (8, 64 and 512)

valgrind counts them, so the figures don't depend on what else the machine does. They do depend on
the C library, whose memset, memcpy, memmove and memcmp the loops call. Prints the table in
Markdown.
"""
import re
import sys

import c_library
from c_library import Failure, command, compiler
from processes import end_on_signals, run_to_end
from program import say
from workspace import ROOT

PROGRAM = ROOT / "out/bench/cost"
CALLS = ("get", "fill_window", "copy_window", "equal", "move_window down", "move_window right", "pack")
FEW, MANY = 10, 50
COUNTED = re.compile(r"I\s+refs:\s+([\d,]+)")


def instructions(name, side, what, times):
    """The instructions of the whole program where it runs a call or its loop so many times."""
    words = ["valgrind", "--tool=cachegrind", "--cache-sim=no", "--cachegrind-out-file=/dev/null"]
    ran = run_to_end([*words, PROGRAM, name, side, what, times])
    found = COUNTED.search(ran.stderr)
    if ran.returncode or not found:
        raise Failure(f"valgrind or the program failed:\n{ran.stderr}")
    return int(found[1].replace(",", ""))


def cost(name, side, what):
    """The instructions of one call, or of its loop."""
    return (instructions(name, side, what, MANY) - instructions(name, side, what, FEW)) / (MANY - FEW)


def table(sides):
    """The calls in Markdown: for each side the instructions of the call and of the loop."""
    head = ["Call", *(f"{side} by {side}: call, loop" for side in sides)]
    lines = [head, ["---"] * len(head)]
    for name in CALLS:
        both = [(cost(name, side, "call"), cost(name, side, "loop")) for side in sides]
        lines.append([f"`{name}`", *(f"{call:.0f}, {loop:.0f}" for call, loop in both)])
    return "\n".join(f"| {' | '.join(it)} |" for it in lines)


def main(words):
    if not all(it.isdigit() and int(it) > 3 for it in words):
        sys.exit(__doc__)
    c_library.build()
    PROGRAM.parent.mkdir(parents=True, exist_ok=True)
    source, archive = ROOT / "bench/cost.c", c_library.OUT / "libimgref.a"
    command(*compiler(), "-O2", f"-I{ROOT / 'include'}", "-o", PROGRAM, source, archive)
    say(command(*compiler(), "--version").splitlines()[0])
    print(table([*map(int, words)] or [8, 64, 512]))


if __name__ == "__main__":
    end_on_signals()
    try:
        main(sys.argv[1:])
    except (Failure, FileNotFoundError) as why:
        sys.exit(str(why))
    except KeyboardInterrupt:
        sys.exit("interrupted")
