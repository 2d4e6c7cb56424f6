"""Links a built program at several places in memory, 16 bytes apart.

Where a loop lies can change its time by a third, and any change moves what comes after it. So both builds are timed at each place.
"""
import pathlib
import sys

sys.path.insert(0, str(pathlib.Path(__file__).resolve().parent.parent / "tools"))
from c_library import command, compiler, shift, toolchain


def placed(checkout, crate, place, folder):
    """The built program of a crate, or a copy of it in the folder, linked at a later place."""
    out = pathlib.Path(checkout).resolve() / "crates" / crate / "out"
    if place == 0:
        return out / crate
    program = pathlib.Path(folder) / "_".join([*out.parts[1:], str(place)])
    if not program.exists():
        command(*compiler(), "-o", program, shift(program.with_suffix(".s"), place), out / f"{crate}.o", *toolchain(), "-lpthread", "-lm")
    return program
