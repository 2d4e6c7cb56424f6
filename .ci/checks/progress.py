#!/usr/bin/env python3
"""Shows that what `make run` says of its progress moves, and that it tells what is left.

The prover's lines of three crates go to the same class, second by second. So do those of `make run`, which were recorded from
nothing on an idle machine: at each tenth of the time what is left is told to a third. A table says which turn a crate gets.
`progress.py --write` records the last proofs of this checkout anew: for a change by which the recorded ones no longer stand for
today's crates.
"""
import pathlib
import re
import sys

sys.path.insert(0, str(pathlib.Path(__file__).resolve().parent.parent))
from checking import ROOT, Cases
from proving import SO_FAR, Progress, Work, all_below, turn_of, weights_of

SHARE = re.compile(r"\d+:\d\d +([\d.]+) %")
# What is shown moves at least so often, in seconds.
MOVES = 20
# What was recorded: the program, the second, the crate, and what was said.
RECORDED, PROGRAM = ROOT / ".ci/checks/progress.txt", "imgref_run"
# Crates that are proved one after the other: how many functions each has, and the seconds before the first and of each.
CRATES = {"shapes": (34, 20, 0.5), "images": (88, 24, 1.5), "program": (41, 40, 1)}

# A crate that begins on four processors: its chain, whether it is large, what is left of each running chain and how far that gives way, the
# chains that could begin, and then how far it gives way and its jobs.
TURNS = {
    "one that is alone takes all": (300, True, [], [300], (0, 4)),
    "a small one takes two": (300, False, [], [300], (0, 2)),
    "of three long chains each takes two": (300, True, [], [300, 280, 200], (0, 2)),
    "a short chain that waits takes nothing from a long one": (300, True, [], [300, 100, 90], (0, 4)),
    "nor does one that runs": (300, True, [(100, 19)], [300], (0, 4)),
    "a long chain that runs takes one": (300, True, [(290, 0)], [300], (0, 3)),
    "a short chain gives way": (100, True, [(300, 0)], [100], (19, 2)),
    "a longer one gives way less": (200, True, [(300, 0)], [200], (4, 2)),
    "a chain counts by what is left of it": (200, True, [(240, 0)], [200], (0, 3)),
    "two jobs at least go to a long chain": (300, True, [(290, 0), (280, 0), (250, 0)], [300], (0, 2)),
    "and one to a short chain": (100, True, [(300, 0), (290, 0), (280, 0)], [100, 90], (19, 1)),
}


def said():
    """What the prover says: the second, the crate, and the line, or that its proof begins or ends."""
    second = 0.0
    for name, (count, loading, each) in CRATES.items():
        yield second, name, "begins"
        second += loading
        for number in range(1, count + 1):
            second += each
            yield second, name, f"so far: {number} of {count} functions checked"
        yield second, name, "ends"


def told(lines, progress, now):
    """Has the progress told of these lines, second by second, from 0 to the last."""
    at = 0
    for second in range(int(lines[-1][0]) + 2):
        while at < len(lines) and lines[at][0] <= second:
            now[0], (_, name, line) = lines[at][0], lines[at]
            {"begins": progress.begin, "ends": progress.end}.get(line, lambda it: progress.hear(it, line))(name)
            at += 1
        now[0] = float(second)
        yield second


def shown(lines):
    """What is shown in each second, from 0 to the last."""
    names, now = [*CRATES], [0.0]
    works = {name: Work(10 + count, loading / 2) for name, (count, loading, _) in CRATES.items()}
    progress = Progress(works, dict(zip(names, [[], *[[it] for it in names]])), lambda: now[0], 4)
    return [progress.text() for _ in told(lines, progress, now)]


def recorded():
    """The lines that were recorded, except those of crates that are gone."""
    known = all_below([PROGRAM])
    rows = (line.split(maxsplit=2) for line in RECORDED.read_text(encoding="utf-8").splitlines() if not line.startswith("#"))
    return [(float(second), crate, what) for second, crate, what in rows if crate in known]


def record():
    """Records the last proofs of the program."""
    head, lines = RECORDED.read_text(encoding="utf-8").split("\n", 1)[0], []
    for line in (ROOT / "crates" / PROGRAM / "out/build.log").read_text(encoding="utf-8").splitlines():
        second, crate, what = [*line.split("\t", 2), "", ""][:3]
        if what in ("begins", "ends") or SO_FAR.match(what):
            lines.append(f"{second} {crate} {what.split(';')[0]}")
    RECORDED.write_text("\n".join([head, *lines, ""]), encoding="utf-8")


def check_left(cases):
    """What is told to be left of recorded proofs, at each tenth of their time."""
    lines, now = recorded(), [0.0]
    names = {name for _, name, _ in lines}
    works, below = weights_of([it for it in all_below([PROGRAM]) if it in names])
    progress, whole, left = Progress(works, below, lambda: now[0], 4), lines[-1][0], {}
    for second in told(lines, progress, now):
        progress.text()
        left[second] = progress.left()
    for tenth in range(1, 10):
        truth, said_then = whole * (10 - tenth) / 10, left[int(whole * tenth / 10)]
        cases.count(f"{PROGRAM}, after {tenth} tenths: {said_then:.0f} of {truth:.0f} seconds are told", 2 / 3 <= said_then / truth <= 4 / 3)


def main():
    cases = Cases()
    texts = shown([*said()])
    shares = [float(SHARE.match(it)[1]) for it in texts]
    cases.count("the share never falls", all(a <= b for a, b in zip(shares, shares[1:])), str(shares))
    cases.count("it ends with the whole", shares[-1] == 100, texts[-1])
    cases.count("a crate is named from the first second on", all(re.search(r" [a-z_]+ (?:begins|\d+ of \d+)", it) for it in texts[1:-2]), "\n".join(texts[:5]))
    longest = max(map(len, runs(shares[:-1])))
    cases.count(f"no share stays for longer than {MOVES} seconds", longest <= MOVES, f"{longest} seconds")
    cases.count("functions are counted", any(re.search(r"\d+ of \d+", it) for it in texts))
    cases.count("what is left is shown", any("min left" in it for it in texts))
    check_left(cases)
    for label, (chain, is_large, running, ready, wanted) in TURNS.items():
        found = turn_of(chain, is_large, running, ready, 4)
        cases.count(f"which turn a crate gets: {label}", found == wanted, f"it gives way by {found[0]}, with {found[1]} jobs")
    return cases.end()


def runs(shares):
    """The stretches of equal shares."""
    found = []
    for it in shares:
        if found and found[-1][0] == it:
            found[-1].append(it)
        else:
            found.append([it])
    return found


if __name__ == "__main__":
    sys.exit(record() if sys.argv[1:] == ["--write"] else main())
