#!/usr/bin/env python3
"""Seconds of proof a function, longest first: which function to split, and what a crate pays before its first one.

    times.py [--tests] [--least SECONDS] [CRATE..]
    times.py --waits [PROGRAM..]
    times.py --modules [--least SECONDS] [CRATE..]

Each crate is proved from nothing by one job over the cached proofs of the crates below it, which are proved first where they
have changed. A function's time runs from the one before it, so the first has the start and the loading of libraries in it.
With --tests the tests of the crates are proved too. Without a crate, all are measured: on an idle machine, since other work
counts as well.

With --waits nothing is proved: it reads the logs of the last proofs that `make run`, `make frames` or `make c` made of these
programs (without one of imgref_run and imgref_frames). It prints when each crate began and ended, what it waited for, and how many
processors were busy meanwhile.

With --modules nothing is proved: it reads when the last proof of each crate ended each module. It prints the longest modules, and
the sums by kind: `Proof` is what tactics take at goals without an answer, `Answers` what written answers take, and `Lts` grows
with the code alone. Each time runs from the module before, so it is exact only for proofs by one job, and from nothing.
"""
import argparse
import importlib.machinery
import importlib.util
import os
import pathlib
import re
import shutil
import sys
import time

from processes import end_on_signals
from proving import CORES, Failed, Progress, prove_changed, run, weights_of
from workspace import ROOT, crates, need_rattle, room, with_those_below

ENDED = re.compile(r"checked (\S+), \d+ of \d+")
AFTER = "(after the last function)"
# The proof files of one function.
OF_A_FUNCTION = ("Answers", "Invariants", "Proof")
# A crate that begins within so many seconds after another ended waited for that one.
AT_ONCE = 3
# Two modules that ended so many seconds apart are of two checks.
PAUSE = 60


def toolchain():
    """The command `rt` as a module, which knows the words by which the prover is called, and the prover."""
    path = os.path.realpath(shutil.which("rt"))
    loader = importlib.machinery.SourceFileLoader("rt_itself", path)
    rt = importlib.util.module_from_spec(importlib.util.spec_from_loader("rt_itself", loader))
    loader.exec_module(rt)
    return rt.rtlib


def seconds_of(name, tests, rtlib):
    """Each function of a crate with its seconds of proof, in the order of the check, and those of the whole check."""
    lines, rows = [], []
    with room(name) as made:
        # (the crate's own cached proofs are not read)
        found = next(it for it in rtlib.crates_below(str(made)) if it.name == name)
        words = [rtlib.RATTLE, "check", *found.words(["--jobs", "1", "--progress"], tests=tests, keeps=False)]
        began = last = time.monotonic()

        def hear(line):
            nonlocal last
            lines.append(line)
            if at := ENDED.match(line):
                now = time.monotonic()
                rows.append((at[1], now - last))
                last = now

        if run(words, made, hear):
            raise Failed(name, "".join(lines))
    now = time.monotonic()
    return [*rows, (AFTER, now - last)], now - began


def waits_of(name):
    """Each crate of the last proofs of a program, in the order of its beginning: when it began and ended, for which crate it
    waited, and how many processors were busy meanwhile, or 0 where that was not counted."""
    began, ended, busy = {}, {}, []
    for line in (ROOT / "crates" / name / "out/build.log").read_text().splitlines():
        second, crate, said = line.split("\t")
        if crate == CORES:
            busy.append((float(second), float(said.split()[0])))
        elif said in ("begins", "ends"):
            (began if said == "begins" else ended)[crate] = float(second)
    for crate, start in sorted(began.items(), key=lambda it: it[1]):
        before = {ended[it]: it for it in with_those_below(crate)[:-1] if it in ended}
        last = max(before, default=0)
        waited = before[last] if before and start <= last + AT_ONCE else "a free processor" if start > AT_ONCE else "nothing"
        end = ended.get(crate, start)
        counts = [cores for second, cores in busy if start < second <= end]
        yield crate, start, end, waited, sum(counts) / len(counts) if counts else 0.0


def tell_waits(names):
    """Prints the waits of these programs."""
    for name in names:
        try:
            rows = [*waits_of(name)]
        except OSError:
            print(f"{name}: there is no log of its proofs: they are made by make run, make frames or make c")
            return 1
        print(f"{name}: {max((it[2] for it in rows), default=0):.0f} s\n{'crate':20} {'begins':>7} {'ends':>7} {'takes':>7}  {'busy':>5}  waited for")
        for crate, start, end, waited, cores in rows:
            print(f"{crate:20} {start:7.0f} {end:7.0f} {end - start:7.0f}  {f'{cores:.1f}' if cores else '':>5}  {waited}")
    return 0


def modules_of(name):
    """Each module of a crate's cached proofs with its seconds."""
    saved = (ROOT / "crates" / name / "out/incremental").glob("*/*.oantt")
    ended = sorted((it.stat().st_mtime, it.name) for it in saved)
    took = {}
    for (before, _), (end, file) in zip(ended, ended[1:]):
        module = file.removesuffix(".oantt").removesuffix(".decls").removeprefix(f"Rattle-{name}-")
        took[module] = took.get(module, 0.0) + (end - before if end - before < PAUSE else 0.0)
    return took


def kind_of(name, module):
    """What a module is: a lemma file or a file of `specs`, and one of a function by its last word, as Proof, Answers or Lts."""
    *folders, last = module.split(".")
    written = (ROOT / "crates" / name / pathlib.Path(*folders) / f"{last}.antt").exists()
    return f"{folders[0]}/, files of the crate" if written and last not in OF_A_FUNCTION else last


def tell_modules(names, least):
    """Prints the longest modules of these crates, and the sums by kind."""
    total = 0.0
    for name in names:
        took = modules_of(name)
        if not took:
            print(f"{name}: it has no cached proofs")
            continue
        kinds = {}
        for module, seconds in took.items():
            kind = kind_of(name, module)
            kinds[kind] = kinds.get(kind, 0.0) + seconds
        total += sum(took.values())
        print(f"{name}: {sum(took.values()):.1f} s, {len(took)} modules")
        for word, rows in (("", took), ("all ", kinds)):
            for row, seconds in sorted(rows.items(), key=lambda it: -it[1]):
                if seconds >= least:
                    print(f"  {seconds:6.1f}  {word}{row}")
    print(f"{total:.1f} s in {len(names)} crates")
    return 0


def main():
    asked = argparse.ArgumentParser(description=__doc__, formatter_class=argparse.RawDescriptionHelpFormatter)
    asked.add_argument("crates", nargs="*")
    asked.add_argument("--tests", action="store_true")
    asked.add_argument("--waits", action="store_true")
    asked.add_argument("--modules", action="store_true")
    asked.add_argument("--least", type=float, default=2.0, metavar="SECONDS")
    asked = asked.parse_args()
    if asked.modules:
        return tell_modules(asked.crates or [*crates()], asked.least)
    need_rattle()
    if asked.waits:
        return tell_waits(asked.crates or ["imgref_run", "imgref_frames"])
    names, total = asked.crates or [*crates()], 0
    below = [*dict.fromkeys(it for name in names for it in with_those_below(name)[:-1])]
    said = prove_changed(below, Progress(*weights_of(below)))
    if said is not None:
        print(f"{said}NOT PROVED")
        return 1
    rtlib = toolchain()
    try:
        for name in names:
            rows, seconds = seconds_of(name, asked.tests, rtlib)
            total += seconds
            print(f"{name}: {seconds:.1f} s, {len(rows) - 1} functions", flush=True)
            first = rows[0][0]
            for function, took in sorted(rows, key=lambda it: -it[1]):
                if took >= asked.least:
                    print(f"  {took:6.1f}  {function}{' (with the start and the loading)' if function == first else ''}", flush=True)
    except Failed as why:
        print(f"{why.name} is not proved:\n{why.said}")
        return 1
    print(f"{total:.1f} s in {len(names)} crates")
    return 0


if __name__ == "__main__":
    end_on_signals()
    try:
        sys.exit(main())
    except KeyboardInterrupt:
        sys.exit("interrupted")
