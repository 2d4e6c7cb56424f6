#!/usr/bin/env python3
"""Shows that the script program prints large images in as little memory as before it asked for room in advance.

The least limit of memory (RLIMIT_AS) is looked for in which the program prints an image, for pixels of one, two and three digits
and for texts just below, at and just above powers of two. What a tiny script needs is taken off, so that neither the size of the
program nor that of the C library counts. NEEDED has the same of the commit e5fbed0, whose text grew by doubling alone.

    memory_limits.py                    compares this build with NEEDED
    memory_limits.py --measure PROGRAM  prints what NEEDED would be for another build
"""
import pathlib
import resource
import subprocess
import sys
import tempfile

sys.path.insert(0, str(pathlib.Path(__file__).resolve().parents[2]))
from checking import Cases, both_builds

# The bytes of the line of an image, near powers of two; and a pixel of so many digits.
SIZES = [power + beside for power in (1 << 20, 1 << 21) for beside in (-64, 0, 64)]
PIXELS = {1: "7", 2: "42", 3: "200"}
TINY = b"image 1 1 1 5\n"
# Limits are looked for up to this one, in steps of a page.
MOST, PAGE = 1 << 28, 1 << 12
# What may be more than before: a change of the heap's first blocks, and the pages of a build.
SPARE = 64 << 10
# By digits of a pixel: what each size needed beside a tiny script.
NEEDED = {
    1: [2101248, 2101248, 4198400, 4198400, 4198400, 8392704],
    2: [2101248, 2101248, 3674112, 4198400, 4198400, 7344128],
    3: [1839104, 1839104, 3674112, 3674112, 3674112, 7344128],
}


def script(digits, size):
    """A script of one image of a row, whose line has at most so many bytes, and nearly as many."""
    cells = (size - 24) // (digits + 1)
    line = f"image {cells} 1 {cells}" + f" {PIXELS[digits]}" * cells
    return line.encode() + b"\n"


def prints(program, given, limit):
    """Whether the program prints what it was given, an image, within so much memory."""
    limited = lambda: resource.setrlimit(resource.RLIMIT_AS, (limit, limit))
    given.seek(0)
    ran = subprocess.run([program], stdin=given, capture_output=True, preexec_fn=limited, timeout=60)
    given.seek(0)
    return ran.returncode == 0 and ran.stdout == given.read()


def least(program, text):
    """The least limit within which the program prints this text, in bytes."""
    with tempfile.TemporaryFile() as given:
        given.write(text)
        if not prints(program, given, MOST):
            sys.exit(f"{program} doesn't print {text[:20]!r}.. within {MOST} bytes")
        low, high = 0, MOST // PAGE
        while low + 1 < high:
            middle = (low + high) // 2
            low, high = (low, middle) if prints(program, given, middle * PAGE) else (middle, high)
    return high * PAGE


def needed(program):
    """By digits of a pixel: what each size needs beside a tiny script."""
    tiny = least(program, TINY)
    return {digits: [least(program, script(digits, size)) - tiny for size in SIZES] for digits in PIXELS}


def main(words):
    if words[:1] == ["--measure"]:
        print(needed(words[1]))
        return 0
    cases = Cases()
    for program in both_builds(cases, "imgref_run"):
        for digits, found in needed(program).items():
            for size, bytes_now, bytes_before in zip(SIZES, found, NEEDED[digits], strict=True):
                label = f"{program.name}: pixels of {digits} digits, {size} bytes of text: no more memory than before"
                cases.count(label, bytes_now <= bytes_before + SPARE, f"{bytes_now} bytes beside a tiny script, and {bytes_before} before")
    return cases.end()


if __name__ == "__main__":
    sys.exit(main(sys.argv[1:]))
