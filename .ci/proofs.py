#!/usr/bin/env python3
"""Proves what `make test` has not, over the cached proofs of this checkout, so that each crate is proved once in .ci/run.

    proofs.py

These are the other crates, and the tests of each crate, which are then run as LLVM builds them. Each program is also built by
Rattle's own compiler, and both builds are run on the crate's files `args` and `stdin`: they must write its file `stdout`. A
crate that differs from the last landed commit, and each above it, is asked what a verdict asks: no contract that no call can
meet, no function that may end or hold up the program, no tactic that chooses a word of a contract. `make gate` asks that of all,
from nothing, by `rt ci --anew`.

The last line counts the crates, the crates' tests, and the programs.
"""
import re
import subprocess
import sys
import tempfile

from checking import ROOT, Cases, built, crates, says

from changed import since_landing
from processes import end_on_signals
from program import shown
from proving import After, Progress, all_below, prove_changed, run, said_with, weight, weights_of
from workspace import is_program, keep_program, product, room

# What a crate's last line says, and words that it may not have: what a verdict refuses.
PROVED, REFUSED = re.compile(r"^logic=proved .*$"), ("foreign", "may-abort", "partial", "may-wait", "may-serve", "hides", "bugs")
# Lines that a verdict refuses: a contract that no call can meet, a search for such contracts that did not end, a tactic that chose what
# a contract says, a pattern that takes each value, and what `rt check` itself says a verdict refuses.
WARNED = re.compile(
    r"^warning: no call of `(?![^`]*::fn::)|^note: the search for empty contracts did not end|^warning: calls of a tactic that chose a term"
    r"|^(?:\./)?proofs/\S+ note: `\S+` has chosen a term|^(?:\./)?(?:src|specs)/\S+ warning: this pattern binds a variable|^rt: warning: rt verdict refuses|^by-macro:"
)
# A program may run so many seconds.
SECONDS = 120


def lines_of(command, at):
    """What a command says, and its status."""
    lines = []
    status = run(command, at, lines.append)
    return [it.rstrip("\n") for it in lines], status


def ask(cases, name):
    """Asks of a proved crate what a verdict asks."""
    lines, status = said_with(name, {}, ["--empty-contracts"])
    last = next((it for it in reversed(lines) if PROVED.match(it)), "")
    words = {it.partition("=")[0] for it in last.split()}
    bad = [it for it in lines if WARNED.match(it)] + [f"the last line has {it}: {last}" for it in REFUSED if it in words]
    cases.count(f"{name}: no contract that no call can meet, and nothing else that a verdict refuses", not status and last and not bad, "\n".join(bad or lines[-5:]))


def test(cases, name):
    """Proves the tests of a crate, and runs them. The program of the tests stays in its folder out/."""
    if built(name, ("_tests",)):
        cases.count(f"== {name}: its tests", True)
        return
    with room(name) as made:
        lines, status = lines_of(["rt", "test", "--jobs", "1"], made)
        program = made / "out" / f"{name}_tests"
        is_well = not status and program.is_file()
        if is_well:
            keep_program(program, name, "_tests")
    said = [it for it in lines if not it.startswith("test ") or it.endswith("FAILED")]
    cases.count(f"== {name}: its tests", is_well, "\n".join(said[-30:]))


def second(cases, name):
    """Builds a program by the second compiler, and runs both builds on the crate's files."""
    if not built(name, (".by-rattle",)):
        with room(name) as made:
            lines, status = lines_of(["rt", "run", "--jobs", "1", "--backend", "rattle", "--", "--help"], made)
            if (made / "out" / name).is_file():
                keep_program(made / "out" / name, name, ".by-rattle")
        said = "\n".join(lines[-5:])
    else:
        said = ""
    for ending in ("", ".by-rattle"):
        found = built(name, (ending,))
        cases.count(f"{name}{ending} writes what its file stdout has", found and writes(found[0], name), said)


def writes(program, name):
    """Whether a build of a program does on the crate's files `args` and `stdin` what its file `stdout` says."""
    folder = ROOT / "crates" / name
    bytes_of = lambda file: (folder / file).read_bytes() if (folder / file).is_file() else b""
    with tempfile.TemporaryDirectory(prefix="runs-") as at:
        words, env = bytes_of("args").decode().splitlines(), {"PATH": "/usr/bin:/bin", "HOME": at, "TMPDIR": at, "LANG": "C.UTF-8"}
        ran = subprocess.run([program, *words], input=bytes_of("stdin"), stdout=subprocess.PIPE, cwd=at, env=env, timeout=SECONDS)
    return ran.stdout == bytes_of("stdout") and ran.returncode == int(bytes_of("status") or 0)


def main():
    cases, names = Cases(), [*crates()]
    after = [After(it, weight(it), lambda it=it: test(cases, it)) for it in names if says(it, "#[test]")]
    after += [After(it, weight(it) / 2, lambda it=it: second(cases, it)) for it in names if is_program(it)]
    after += [After(it, weight(it) / 5, lambda it=it: ask(cases, it)) for it in since_landing().crates]
    progress = Progress(*weights_of(all_below(names)))
    with shown(progress):
        said = prove_changed(names, progress, after)
    for it in names:
        cases.count(f"== {it}", it in progress.done or product(it).is_file() and said is None, said or "")
    return cases.end()


if __name__ == "__main__":
    end_on_signals()
    try:
        sys.exit(main())
    except KeyboardInterrupt:
        sys.exit("interrupted: what is proved so far stays")
