#!/usr/bin/env python3
"""Looks whether the bodies of bench/slow, which are right and slow, still fit the code, and shows that the benchmark's counts refuse them.

    slow_bodies.py                    whether each body's old text is in the code, and its job has that count
    slow_bodies.py --count [NAME..]   also proves and builds the job's program with each body, or with these, and counts it

Each file bench/slow/NAME.edit is such a body, in the form of a planted bug. Its line `crate:` names the crate that it changes,
and its line `count:` a job of bench/workloads.txt and what must leave its limit there: instructions, or misses in the nearest
cache. The program is made in a room (tools/workspace.py), and counted as .ci/checks/built/instructions.py counts it. A body that
is no longer proved fails too: it would show nothing of a count.

Counting takes minutes for each body, so it is no part of the gate. Run it when a job, a limit or the body of a timed call changes.
"""
import pathlib
import re
import shutil
import sys

sys.path[:0] = [str(pathlib.Path(__file__).resolve().parents[1]), str(pathlib.Path(__file__).resolve().parent / "built")]
from checking import Cases

from bugs import applied, pairs_of
from instructions import MARGIN, counted, jobs, written
from processes import end_on_signals
from proving import Progress, command_of, prove_changed, run, weights_of
from workspace import ROOT, room, with_those_below

FOLDER = ROOT / "bench/slow"
# The places of the counts in a line of bench/instructions.txt.
COUNTS = {"instructions": 0, "misses": 1}


def read(path):
    """The crate that a body changes, the job and the count that it must fail, and its pairs of old and new text by file."""
    text = path.read_text(encoding="utf-8")
    crate, job, what = re.search(r"(?m)^crate: (\S+)$", text)[1], *re.search(r"(?m)^count: (\S+) (\S+)$", text).groups()
    return crate, job, what, pairs_of(text)


def planted(crate, pairs):
    """The texts of those files of a crate that the body changes. Raises ValueError where an old text isn't there exactly once."""
    folder = ROOT / "crates" / crate
    return applied({file: (folder / file).read_text(encoding="utf-8") for file, _, _ in pairs}, pairs)


def counts_with(crate, job, texts):
    """What a job takes with the body, or nothing where it is not proved; and what was said then."""
    program, words = jobs()[job]
    lines = []
    with room(program, {f"{crate}/{file}": text for file, text in texts.items()}) as made:
        if run(command_of(program), made, lines.append):
            return None, "".join(lines[-20:])
        return counted(made / "out" / program, job, words), ""


def count(cases, bodies):
    """Counts the job of each body."""
    needed = dict.fromkeys(it for _, job, _, _ in bodies.values() for it in with_those_below(jobs()[job][0]))
    if said := prove_changed([*needed], Progress(*weights_of(needed))):
        sys.exit(said)
    if not shutil.which("valgrind"):
        sys.exit("valgrind is needed to count")
    for name, (crate, job, what, pairs) in bodies.items():
        counts, said = counts_with(crate, job, planted(crate, pairs))
        before = written()[job][COUNTS[what]]
        now = counts[COUNTS[what]] if counts else 0
        cases.count(f"{name}: {job} has {now / before:.3f} of its {what}", now > before * MARGIN, said or f"up to {MARGIN} are let through")


def main(words):
    cases = Cases()
    bodies = {it.stem: read(it) for it in sorted(FOLDER.glob("*.edit"))}
    names = [it for it in words if it != "--count"]
    if unknown := [it for it in names if it not in bodies]:
        sys.exit(f"no body of bench/slow: {', '.join(unknown)}")
    for name, (crate, job, what, pairs) in bodies.items():
        try:
            planted(crate, pairs)
            why = ""
        except ValueError as found:
            why = str(found)
        cases.count(f"{name} fits the code", not why, why)
        cases.count(f"{name}: bench/instructions.txt has the {what} of {job}", len(written().get(job, [])) > COUNTS[what])
    if "--count" in words:
        count(cases, {name: it for name, it in bodies.items() if name in (names or bodies)})
    return cases.end()


if __name__ == "__main__":
    end_on_signals()
    sys.exit(main(sys.argv[1:]))
