#!/usr/bin/env python3
"""Counts the instructions of the benchmark's jobs, which don't drift as times do, and compares them with bench/instructions.txt.

Each job of bench/workloads.txt runs whole, with seed 1, under `valgrind --tool=callgrind`. Only the program's own code counts,
since the C library chooses other code on other processors. For some jobs the misses of the nearest cache (32 KiB, eight ways,
lines of 64 bytes) count too. A number that is more than 3 % above the file's fails, and so does a job of which nothing was counted.
About a minute a job.

    instructions.py              compares this build with the file
    instructions.py --write      writes the file again: for a change that means it, and says why in its commit
    instructions.py --only NAMES the same for jobs with commas between them
"""
import concurrent.futures
import os
import pathlib
import re
import subprocess
import sys
import tempfile

sys.path.insert(0, str(pathlib.Path(__file__).resolve().parents[2]))
from caches import SIMULATED
from checking import ROOT, Cases, built

FILE = ROOT / "bench/instructions.txt"
# The jobs whose time is waiting for memory, of which misses count too.
CACHED = ("turns", "windows", "narrow", "strips")
# What a build may take more.
MARGIN = 1.03
HEAD = """# Instructions of each job at full size with seed 1, in the program's own code, and for some the misses of the nearest cache.
# .ci/checks/built/instructions.py compares a build with these, and --write writes them again.
"""
# Lines of callgrind's output: the object of what follows or of what is called, a call, whose next line is what it took, and a cost.
OBJECT, CALL, COST = re.compile(r"(c?)ob=\((\d+)\)(?: (.*))?"), re.compile(r"calls="), re.compile(r"[+*\-\d]\S* (\d.*)")


def jobs():
    """The name of each job, its program's crate, and the words after the program."""
    lines = [line.split() for line in (ROOT / "bench/workloads.txt").read_text().splitlines() if line.strip()]
    return {name: (crate, ["1" if it == "SEED" else it for it in words]) for name, crate, *words in lines}


def own_costs(lines, program):
    """The names of the events, and the sum of each in the program's own code. `program` has no link in its path."""
    events, sums, names, is_own, is_call = [], [], {}, False, False
    for line in lines:
        if line.startswith("events:"):
            events = line.split()[1:]
            sums = [0] * len(events)
        elif found := OBJECT.match(line):
            names.setdefault(found[2], found[3])
            is_own = is_own if found[1] else names[found[2]] == str(program)
        elif CALL.match(line):
            is_call = True
        elif found := COST.match(line):
            if is_own and not is_call:
                costs = [int(it) for it in found[1].split()]
                sums = [a + b for a, b in zip(sums, costs + [0] * len(sums))]
            is_call = False
    return dict(zip(events, sums))


def counted(program, name, words):
    """What a job takes: its instructions, and the misses where they count."""
    program = program.resolve()
    with tempfile.TemporaryDirectory(prefix="counted-") as room:
        out = pathlib.Path(room, "costs")
        how = ["valgrind", "--tool=callgrind", f"--callgrind-out-file={out}", *(SIMULATED if name in CACHED else ())]
        subprocess.run([*how, program, *words], cwd=ROOT / "bench", check=True, stdin=subprocess.DEVNULL, stdout=subprocess.DEVNULL, stderr=subprocess.DEVNULL)
        with open(out, encoding="utf-8", errors="replace") as lines:
            costs = own_costs(lines, program)
    return [costs["Ir"], *([costs["D1mr"] + costs["D1mw"]] if name in CACHED else [])]


def all_counted(programs, names):
    """By the name of each of these jobs whose program is there: what it takes."""
    wanted = [(programs[crate], name, words) for name, (crate, words) in jobs().items() if name in names and crate in programs]
    with concurrent.futures.ThreadPoolExecutor(os.cpu_count()) as pool:
        found = pool.map(lambda it: counted(*it), wanted)
        return {name: costs for (_, name, _), costs in zip(wanted, found)}


def written():
    """What the file says."""
    lines = [line.split() for line in FILE.read_text().splitlines() if line and not line.startswith("#")]
    return {name: [int(it) for it in numbers] for name, *numbers in lines}


def main(words):
    cases = Cases()
    names = words[words.index("--only") + 1].split(",") if "--only" in words else [*jobs()]
    if unknown := [it for it in names if it not in jobs()]:
        sys.exit(f"no job of bench/workloads.txt: {', '.join(unknown)}")
    needed = dict.fromkeys(crate for name, (crate, _) in jobs().items() if name in names)
    programs = {crate: path for crate in needed for path in built(crate, ("",))}
    for crate in needed:
        cases.count(f"the build of {crate} is there", crate in programs, f"crates/{crate}/out lacks it, or it is older than its sources")
    if cases.lacks("the instructions of the jobs", "valgrind", number=3 * len(names)):
        return cases.end()
    found = all_counted(programs, names)
    if "--write" in words and found:
        kept = {**(written() if FILE.exists() else {}), **found}
        FILE.write_text(HEAD + "".join(f"{name} {' '.join(map(str, kept[name]))}\n" for name in jobs() if name in kept))
    for name, counts in found.items():
        cases.count(f"bench/instructions.txt has a line for {name}", name in written(), "`--write` adds it")
        for what, count, before in zip(("instructions", "misses"), counts, written().get(name, []), strict=False):
            cases.count(f"{name}: {count} {what}, {count / before:.3f} of those that are written", 0 < count <= before * MARGIN, f"bench/instructions.txt says {before}")
    return cases.end()


if __name__ == "__main__":
    sys.exit(main(sys.argv[1:]))
