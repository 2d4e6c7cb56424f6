#!/usr/bin/env python3
"""Runs the script program, and proves and builds it first where something that it is made of has changed.

    program.py run            on the script that the variable SCRIPT names (`-`: standard input)
    program.py try [face]     on the same, with nothing proved: the toolchain checks each access while it runs. With `face` it also
                              covers the face of docs/person.png in that way, and says where the picture is
    program.py build NAME..   proves and builds these crates and those below them, and prints what was made of each

Only those crates and the ones below them count: an edit of any other crate starts nothing. All that the prover says is
in crates/NAME/out/build.log, each line with its second and its crate.
"""
import contextlib
import os
import pathlib
import re
import shutil
import subprocess
import sys
import tempfile
import threading
import time

import face
from processes import end_on_signals, started, workers
from proving import CORES, Progress, all_below, changed, processors, prove_changed, weights_of
from workspace import ROOT, crates, need_rattle, product

NAME = "imgref_run"
FOLDER = ROOT / "crates" / NAME
# How often a line is written where there is no terminal, and the busy processors are counted, in seconds; and what takes a line of
# a terminal back.
EVERY, BACK = 10, "\r\033[K"
FAULT = re.compile(rb"fault line (\d+)\n")


def say(text, end="\n"):
    print(text, end=end, file=sys.stderr, flush=True)


@contextlib.contextmanager
def shown(progress):
    """Shows proof progress, each second on a terminal, and else now and then on a line of its own."""
    is_terminal, ended = sys.stderr.isatty(), threading.Event()

    def show():
        cores = BusyCores(progress)
        while not ended.wait(1 if is_terminal else EVERY):
            cores.count()
            say(f"{BACK}{progress.text()[: shutil.get_terminal_size().columns - 1]}" if is_terminal else progress.text(), end="" if is_terminal else "\n")

    teller = threading.Thread(target=show, daemon=True)
    teller.start()
    try:
        yield
    finally:
        ended.set()
        teller.join()
        say(BACK if is_terminal else "", end="")


class BusyCores:
    """Counts how many processors were busy since the last time, and adds that to the log of the proofs."""

    def __init__(self, progress):
        self.progress, self.last = progress, self.read()

    @staticmethod
    def read():
        """The moment, and the seconds that all processors have been busy."""
        fields = [int(it) for it in pathlib.Path("/proc/stat").read_text().split("\n", 1)[0].split()[1:9]]
        # (the fourth is idle time, the fifth the time of waiting for a disk)
        return time.monotonic(), (sum(fields) - fields[3] - fields[4]) / os.sysconf("SC_CLK_TCK")

    def count(self):
        now = self.read()
        if now[0] >= self.last[0] + EVERY:
            self.progress.keep(CORES, f"{(now[1] - self.last[1]) / (now[0] - self.last[0]):.1f} busy")
            self.last = now


def built(*names):
    """Proves and builds these crates and those below them where something has changed, and returns the status of that."""
    need_rattle()
    left = changed(names)
    if not left:
        return 0
    progress = Progress(*weights_of(all_below(names)))
    progress.done |= {it for it in all_below(names) if it not in left}
    minutes = max(round(progress.left() / 60), 1)
    say(f"{len(left)} of {len(all_below(names))} crates are proved and built now: {', '.join(left)}.")
    say(f"That takes about {minutes} minute{'s' * (minutes > 1)} on a machine with {processors()} processors, and nothing where no source has changed since.")
    with shown(progress):
        said = prove_changed(names, progress)
    # (what needed nothing keeps the log of its own proofs)
    for it in names if said is not None else {*names} & {*left}:
        (ROOT / "crates" / it / "out").mkdir(exist_ok=True)
        (ROOT / "crates" / it / "out/build.log").write_text("\n".join([*progress.log, ""]))
    if said is not None:
        say(f"{said}NOT PROVED")
        return 1
    say(progress.text())
    return 0


@contextlib.contextmanager
def script():
    """The script's file. What comes through a pipe is kept in one, so that a line of it can be shown."""
    name = os.environ.get("SCRIPT") or str(ROOT / "examples/first.script")
    with sys.stdin.buffer if name == "-" else open(name, "rb") as given:
        if given.seekable():
            yield given
            return
        with tempfile.TemporaryFile() as kept:
            shutil.copyfileobj(given, kept)
            kept.seek(0)
            yield kept


def tell_line(given, number):
    """Says which line of the script is the bad one."""
    given.seek(0)
    line = next((it for at, it in enumerate(given, 1) if at == number), b"")
    text = line.rstrip(b"\n").decode(errors="backslashreplace")
    say(f"line {number} of the script: {text}")


def run_on(given):
    """Runs the program, passes on what it writes, and returns its status. Of a bad line it says which it is."""
    last = b""
    with started([product(NAME)], stdin=given, stdout=subprocess.PIPE) as ran:
        while block := ran.stdout.read1(1 << 16):
            sys.stdout.buffer.write(block)
            sys.stdout.buffer.flush()
            last = block if len(block) >= 64 else (last + block)[-64:]
    fault = FAULT.fullmatch(last)
    if ran.returncode and fault:
        tell_line(given, int(fault[1]))
    return ran.returncode


def try_on(given):
    """Runs the program with no proof, and returns its status."""
    say("Nothing is proved here: `rt try` compiles the program and checks each access while it runs. `make run` proves it first.")
    with started(["rt", "try"], cwd=FOLDER, stdin=given, stderr=subprocess.PIPE, text=True, errors="replace") as ran:
        said = ran.stderr.read()
    if ran.returncode:
        say(said)
    return ran.returncode


def try_both(given):
    """Runs the program and covers a face, side by side, and returns the worse status."""
    with workers(1) as pool:
        covered = pool.submit(face.cover)
        status = try_on(given)
        try:
            made = covered.result().relative_to(ROOT)
        except (face.Failure, OSError) as why:
            say(f"the face of docs/person.png isn't covered: {why}")
            return status or 1
    say(f"The face of docs/person.png is covered in {made}, with nothing proved too. `make frames` proves that program.")
    return status


def main(words):
    need_rattle()
    if len(words) > 1 and words[0] == "build" and all(it in crates() for it in words[1:]):
        status = built(*words[1:])
        for it in words[1:] if not status else []:
            print(product(it).relative_to(ROOT))
        return status
    if words not in (["run"], ["try"], ["try", "face"]):
        sys.exit(__doc__)
    if words == ["run"] and (status := built(NAME)):
        return status
    try:
        with script() as given:
            return {"run": run_on, "try": try_on, "face": try_both}[words[-1]](given)
    except OSError as why:
        sys.exit(f"the script can't be read: {why}")


if __name__ == "__main__":
    end_on_signals()
    try:
        sys.exit(main(sys.argv[1:]))
    except KeyboardInterrupt:
        sys.exit("interrupted: what is proved so far stays")
    except BrokenPipeError:
        sys.exit(1)
