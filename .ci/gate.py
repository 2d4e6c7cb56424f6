#!/usr/bin/env python3
"""The checks of the repository, as parts that run side by side.

    gate.py test                    what a person runs: every test run with each access checked, the product proved, and all that
                                    can be tried on one build of it. It first installs what the tests need, where it may
                                    (tools/setup.py); with SETUP=no it installs nothing
    gate.py gate [BUGS=..]          everything from nothing: also the proofs of all tests, both builds, and the planted bugs (with
                                    BUGS=changed only those that a difference from the last landed commit affects)
    gate.py gate BUGS=landing       what .ci/run adds to `test`, over the proofs that it cached: the other crates and all tests
                                    proved, the second build, the planted bugs that a difference from the last landed commit
                                    affects, and one in twenty of the other public functions' ones. Where only crates and pages
                                    differ from that commit, what goes over none of these crates is left out: it passed then
    gate.py check [CRATE=name]      proofs and tests of what has changed, over cached proofs: no planted bug is tried. With CRATE
                                    only of that crate and of what it depends on; it may also be the folder of a crate elsewhere

Each part ends with 'N passed, N failed, N skipped'. All that it said is in the folder out/, and is shown where it fails. At the end
come a table of the parts, what was skipped and for want of what, what failed, and then a line that adds them up. TERM, HUP and Ctrl-C end all
parts.

`make gate` and `make gate BUGS=changed` prove everything from nothing by `rt ci --anew`, on a copy of the repository without the
planted bugs. These are tried beside it, many in one check (planted_bugs.py). In .ci/run each crate is proved once: in a new clone
`test` begins with nothing, and BUGS=landing goes on with what it cached (proofs.py). A check that `test` has passed on these very
files isn't run again, and a line says so.
"""
import contextlib
import dataclasses
import fcntl
import os
import pathlib
import re
import shutil
import subprocess
import sys
import threading
import time

from checking import COUNT, ONE_BUILD, ROOT, SKIPPED, VARIANT, changeable_copy, crates, is_strict, says

from changed import since_landing
from needs import of_tests
from packing import sum_of
from processes import end_on_signals, run_to_end, started, workers
from setup import set_up
from workspace import free_disks, is_proved, need_rattle, proved_once

# The checks. Those in `built` run programs, and those in `proofs` go over cached proofs.
CHECKS = ROOT / ".ci/checks"
# These need the proofs of tests or a program that is only measured, or prove crates again with a change: they run in the gate
# alone.
GATE_ALONE = (
    "always_memory.py", "retried_calls.py", "refused_growths.py", "instructions.py", "strides.py", "layers.py", "row_mover_privacy.py", "release.py", "second_build.py",
)  # fmt: skip
# By this word the planted bugs are those of a landing.
LANDING = "--landing"
# This one makes a release over cached proofs, so the gate runs it in the repository.
RELEASE = "release.py"
# By a check of GATE_ALONE: the crates that it goes over, with those below them. RELEASE packs pages too, and the others go over all.
GOES_OVER = {
    "layers.py": ("imgref_replay",),
    "row_mover_privacy.py": ("row_mover",),
    "retried_calls.py": ("imgref_run",),
    "second_build.py": ("imgref_run", "imgref_frames"),
    "strides.py": ("bench_strides",),
}
# These run programs that only the proofs of the gate make. What needs none of these goes beside the proofs of a landing.
OF_ALL_PROOFS = ("instructions.py", "refused_growths.py", "second_build.py", "strides.py")
# Those of a group go one after the other: each takes all processors by itself.
IN_TURN = (("hide.py", "hide_phones.py", "hide_many.py"),)
# These time calls or the page, so they come last, with nothing beside them.
TIMED = ("call_times.py", "web.py")
# The crates that `test` proves, with those below them: the programs and the library for C.
PRODUCT = ("imgref_run", "imgref_frames", "imgref_c")
# What goes over a part of the product alone begins once that is proved: the last proofs leave processors idle.
OVER = {"bindings.py": "imgref_c", "scripts.py": "imgref_run", "worked_scripts.py": "imgref_run", "memory_limits.py": "imgref_run"}
# What each takes from nothing on four processors, in minutes.
MINUTES = {"test": 27, "gate": 150, "check": 45}
# What is shown of a long part while it goes on: each proof that has ended, and what failed.
ENDED = re.compile(r"== (\w+(?:: its tests)?)(?:: passed)?$")
# Proof progress, of which a line is shown now and then.
PROGRESS, EVERY = re.compile(r"\d+:\d\d +[\d.]+ %"), 20
TOLD = re.compile(r"rt: .*NOT PROVED|rt: .*FAILED|.*NOT REFUSED|.*FAILED")
# So many of these lines of a part are told again at the end.
MOST_TOLD = 20
LOGS = ROOT / "out"
# The sum of the files on which every part of `test` passed last, with nothing skipped that can be installed.
TESTED = LOGS / "tested"
SAID = threading.Lock()


def say(text):
    with SAID:
        print(text, flush=True)


def minutes(seconds):
    return f"{int(seconds) // 60} min {int(seconds) % 60:2} s"


@dataclasses.dataclass
class Part:
    """A part of the gate: its name, the command, where it runs, how many proofs it tells of, and what came of it."""

    name: str
    command: list
    at: pathlib.Path = ROOT
    proofs: int = 0
    counts: bool = True
    # (what takes longest goes first, and all else takes what it leaves)
    nice: int = 15
    seconds: float = 0
    # (of all processors)
    busy: float = 0
    memory: int = 0
    passed: int = 0
    failed: int = 0
    skipped: int = 0
    # (what it skipped, and what it left: each with its number and with what is lacking)
    lacked: list = dataclasses.field(default_factory=list)
    left: list = dataclasses.field(default_factory=list)
    # (the lines that name what failed)
    bad: list = dataclasses.field(default_factory=list)
    process: subprocess.Popen = None
    ended: threading.Event = dataclasses.field(default_factory=threading.Event)

    def run(self):
        """Runs the part. Whoever waits for its end goes on, also where it can't be run."""
        try:
            return self.work()
        finally:
            self.ended.set()

    def work(self):
        """Runs the command, writes what it says into a file, and shows how far it is."""
        began, shown, lines, ended = time.monotonic(), 0, [], 0
        log = LOGS / f"{self.name.replace(' ', '_')}.log"
        how = {"stdin": subprocess.DEVNULL, "stdout": subprocess.PIPE, "stderr": subprocess.STDOUT, "text": True, "errors": "replace"}
        # (a session of its own, by which its memory is counted)
        with started(["nice", "-n", self.nice, *self.command], in_session=True, cwd=self.at, **how) as self.process, open(log, "w", encoding="utf-8", buffering=1) as kept:
            # (Linux shares the processors among sessions first, and looks at `nice` only within one)
            with contextlib.suppress(OSError):
                pathlib.Path(f"/proc/{self.process.pid}/autogroup").write_text(str(self.nice))
            for line in self.process.stdout:
                lines.append(line.rstrip("\n"))
                kept.write(line)
                if found := ENDED.match(line):
                    ended += 1
                    say(f"{minutes(time.monotonic() - began)}  {self.name}: {ended} of {self.proofs}, {found[1]}")
                elif TOLD.match(line) or PROGRESS.match(line) and time.monotonic() > shown + EVERY:
                    shown = time.monotonic()
                    say(f"{minutes(shown - began)}  {self.name}: {line.strip()[:150]}")
            self.busy = busy_seconds(self.process)
        self.seconds = time.monotonic() - began
        self.count(lines, self.process.returncode == 0)
        if self.failed:
            say("\n".join(["", *lines[-400:], ""]))
        say(f"{minutes(self.seconds)}  {self.name}: {self.passed} passed, {self.failed} failed, {self.skipped} skipped{f' (all of it: {log.relative_to(ROOT)})' if self.failed else ''}")
        return self

    def count(self, lines, is_well):
        """Takes the cases from the last line. A part that counts nothing is one case."""
        said = COUNT.fullmatch(next((it.strip() for it in reversed(lines) if it.strip()), ""))
        passed, failed, self.skipped = (int(it or 0) for it in said.groups()) if said else (0, 1, 0)
        if not self.counts:
            passed, failed, self.skipped = int(is_well), int(not is_well), 0
        self.passed, self.failed = passed, failed or int(not is_well)
        self.lacked, self.left = SKIPPED.findall("\n".join(lines)), VARIANT.findall("\n".join(lines))
        # (where no line does, the last one says how it ended)
        self.bad = ([it.strip() for it in lines if TOLD.match(it)] or [it.strip() for it in lines if it.strip()][-1:]) if self.failed else []


@dataclasses.dataclass
class Proved:
    """Waits until a crate is proved, or until the part that proves it has ended."""

    name: str
    by: Part

    def run(self):
        while not is_proved(self.name) and not self.by.ended.wait(1):
            pass
        # (it is kept from others until all that was made is in its folder)
        with proved_once(self.name):
            pass


def busy_seconds(process):
    """The seconds of all processors that a process took, with those of the children that it waited for. It waits for the end."""
    with contextlib.suppress(OSError):
        # (until it is waited for, its numbers are there)
        os.waitid(os.P_PID, process.pid, os.WEXITED | os.WNOWAIT)
        fields = pathlib.Path(f"/proc/{process.pid}/stat").read_text().rpartition(")")[2].split()
        return sum(map(int, fields[11:15])) / os.sysconf("SC_CLK_TCK")
    return 0.0


def sessions():
    """The memory of each session of processes, in bytes."""
    found = {}
    for it in pathlib.Path("/proc").glob("[0-9]*/stat"):
        with contextlib.suppress(OSError):
            fields = it.read_text().rpartition(")")[2].split()
            found[int(fields[3])] = found.get(int(fields[3]), 0) + int(fields[21]) * os.sysconf("SC_PAGE_SIZE")
    return found


class Usage:
    """Looks once a second at how much memory the parts take, and how much of the disks is free."""

    def __init__(self, parts):
        self.parts, self.most, self.ended = parts, 0, threading.Event()
        self.free = min(free_disks().values())
        self.thread = threading.Thread(target=self.look, daemon=True)

    def look(self):
        while not self.ended.wait(1):
            taken, found = 0, sessions()
            for it in self.parts:
                mine = found.get(it.process.pid, 0) if it.process else 0
                it.memory, taken = max(it.memory, mine), taken + mine
            self.most, self.free = max(self.most, taken), min(self.free, *free_disks().values())

    def __enter__(self):
        self.thread.start()
        return self

    def __exit__(self, *_):
        self.ended.set()
        self.thread.join()


def scripts(folder, top=ROOT, words=(), without=()):
    """The checks of a folder except some, which run in the repository or in its copy, with these words."""
    return [Part(it.name, [sys.executable, str(top / it.relative_to(ROOT)), *words], top) for it in sorted(folder.glob("*.py")) if it.name not in without]


def cached_checks(without=()):
    """The checks that go over cached proofs: those that run beside other parts, and those that time calls or the page."""
    every = scripts(CHECKS / "proofs", without=without)
    return [it for it in every if it.name not in TIMED], [it for it in every if it.name in TIMED]


def apart(parts):
    """A line for each part, and one for each group that goes one after the other."""
    grouped = {name for group in IN_TURN for name in group}
    return [*([it for it in parts if it.name in group] for group in IN_TURN), *([it] for it in parts if it.name not in grouped)]


def sum_of_files():
    """The sum of all files that git has or would take, and of the kit's version. Nothing where git doesn't list them."""
    if not shutil.which("git"):
        return None
    listed = run_to_end(["git", "-C", ROOT, "ls-files", "-z", "--cached", "--others", "--exclude-standard"])
    if listed.returncode:
        return None
    paths = {name: ROOT / name for name in sorted({*listed.stdout.split("\0")} - {""})}
    sums = (f"{sum_of(at.read_bytes()) if at.is_file() else '-'}  {name}\n" for name, at in paths.items())
    return sum_of("".join([run_to_end(["rt", "version"]).stdout, *sums]).encode())


def not_tested(*folders):
    """The scripts of these folders that `test` doesn't run, where it passed on these very files. Without that it is all."""
    if not TESTED.is_file() or TESTED.read_text() != sum_of_files():
        return ()
    say("make test passed on these very files: what it runs over cached proofs isn't run again")
    return tuple(it.name for folder in folders for it in folder.glob("*.py") if it.name not in GATE_ALONE)


def passed_at_landing(since):
    """The checks of the gate alone that passed at the last landing on these very crates, where nothing else differs but pages."""
    if since.has_more:
        return ()
    names = [it for it in GATE_ALONE if it != RELEASE and not {*since.crates} & {*GOES_OVER.get(it, since.crates)}]
    say(f"these crates differ from the last landed commit: {', '.join(since.crates) or 'none'}. So these aren't run again: {', '.join(names) or 'none'}{'' if since.crates else ', and the proofs of tests'}")
    return tuple(names)


def side_by_side(lines):
    """Runs lines of parts side by side, the parts of each one after the other. What waits for a part that failed runs too. A
    list in a line is of lines again."""

    def run(line):
        for it in line:
            side_by_side(it) if isinstance(it, list) else it.run()

    with workers() as pool:
        for it in [pool.submit(run, line) for line in lines]:
            it.result()


def check(parts, _):
    """Proves and tests what has changed, of all crates or of one with what it depends on."""
    if crate := os.environ.get("CRATE"):
        at = ROOT / "crates" / crate if crate in crates() else pathlib.Path(crate).resolve()
        if not (at / "src").is_dir():
            sys.exit(f"CRATE={crate} is no crate of crates.txt, and no folder of a crate")
        # (`rt check` proves those below it first, and `rt test` says nothing of a crate without tests)
        for way in ("check", "test"):
            parts.append(Part(f"rt {way} {at.name}", ["rt", way], at, counts=False, nice=0))
            if parts[-1].run().failed:
                break
        return
    parts.append(Part("rt all test", ["rt", "all", "test"], proofs=len(crates()), counts=False, nice=0))
    parts[0].run()


def test(parts, _):
    """Runs every test with nothing proved, proves and builds the product beside that, and tries what was built."""
    # (most else waits for the product, and the tests fill what its last proofs leave idle)
    tests = Part("tests", [sys.executable, str(ROOT / ".ci/tests.py")])
    product = Part("product", building(*PRODUCT), counts=False, nice=0)
    cached, timed = cached_checks(without=GATE_ALONE)
    built = scripts(CHECKS / "built", words=[ONE_BUILD], without=GATE_ALONE) + cached
    beside = scripts(CHECKS, without=GATE_ALONE)
    early = [[Proved(OVER[it.name], product), it] for it in built if it.name in OVER]
    parts += [tests, product, *built, *beside, *timed]
    side_by_side([[tests], [product, apart([it for it in built if it.name not in OVER])], *early, beside])
    side_by_side([timed])


def gate(parts, only):
    """Runs everything from nothing, or what a landing adds to the tests."""
    (landing if LANDING in only else from_nothing)(parts, only)


def planted(only):
    """The part that tries planted bugs."""
    return Part("planted bugs", [sys.executable, str(ROOT / ".ci/planted_bugs.py"), *only], nice=0)


def landing(parts, only):
    """Runs what `test` doesn't, over the proofs that it cached. Where only crates and pages differ from the last landed commit, what goes
    over none of these crates passed then, and is left out."""
    since = since_landing()
    proofs = Part("proofs", [sys.executable, str(ROOT / ".ci/proofs.py")], proofs=sum(1 + says(it, "#[test]") for it in crates()), nice=0)
    without = (*not_tested(CHECKS, CHECKS / "built", CHECKS / "proofs"), *passed_at_landing(since))
    built = scripts(CHECKS / "built", words=[ONE_BUILD], without=(RELEASE, *without))
    release = Part(RELEASE, [sys.executable, str(CHECKS / "built" / RELEASE)])
    bugs, (cached, timed), beside = planted(only), cached_checks(without=without), scripts(CHECKS, without=without)
    first, late = [proofs] if since.crates or since.has_more else [], [it for it in built if it.name in OF_ALL_PROOFS]
    parts += [*first, *built, bugs, *cached, release, *beside, *timed]
    side_by_side([[*first, apart(late)], [bugs], *apart([it for it in [*cached, *built] if it.name not in OF_ALL_PROOFS]), [release], beside])
    side_by_side([timed])


def from_nothing(parts, only):
    """Runs everything, and proves all of it anew."""
    # (the planted bugs are tried beside it; the search of `rt` for the top ends at a folder .git)
    with changeable_copy(without=("out", "must-fail")) as top:
        (top / ".git").mkdir()
        of_ci = Part("rt ci", ["rt", "ci", "--anew"], top, proofs=sum(1 + says(it, "#[test]") for it in crates()), nice=0)
        # (these run in the copy, where `rt ci` left the programs)
        built = scripts(CHECKS / "built", top, without=(RELEASE,))
        release = Part(RELEASE, [sys.executable, str(CHECKS / "built" / RELEASE)])
        proofs = Part("cached proofs", building(*(it for it in crates() if (ROOT / "crates" / it / "must-fail").is_dir())), counts=False, nice=0)
        bugs, tested = planted(only), not_tested(CHECKS, CHECKS / "proofs")
        (cached, timed), beside = cached_checks(without=tested), scripts(CHECKS, without=tested)
        parts += [of_ci, *built, proofs, bugs, *cached, release, *beside, *timed]
        side_by_side([[of_ci, apart(built)], [proofs, [[bugs], *apart(cached), [release]]], beside])
        side_by_side([timed])
        say(f"\n{functions()} functions proved · {tests()} tests · {bugs.passed} planted bugs refused")


def functions():
    """How many functions `rt ci` proved, those of the tests left out."""
    return sum(map(int, re.findall(r"(?m)^logic=proved functions=(\d+)", (LOGS / "rt_ci.log").read_text())))


def tests():
    """How many tests it ran."""
    return sum(map(int, re.findall(r"(?m)^test result: ok\. (\d+) passed", (LOGS / "rt_ci.log").read_text())))


def building(*names):
    """The command that proves and builds these crates."""
    return [sys.executable, str(ROOT / "tools/program.py"), "build", *names]


def table(parts, usage, began):
    """What each part took: how long it ran, for how many seconds of all processors, and the most memory. Then all of it, and the least
    that was free of the disk."""
    width = max(len(it.name) for it in parts)
    row = lambda name, seconds, busy, memory: f"{name:{width}}  {minutes(seconds):>12}  {busy:6.0f} s  {memory / 1e9:4.1f} GB"
    lines = [f"{row(it.name, it.seconds, it.busy, it.memory)}  {it.passed:4} passed, {it.failed} failed, {it.skipped} skipped" for it in parts]
    return "\n".join(["", *lines, row("in all", time.monotonic() - began, sum(it.busy for it in parts), usage.most), f"At least {usage.free / 1e9:.1f} GB of the disk were free."])


def failing(parts):
    """What failed, part by part: the end of a long log is all that some people see."""
    rows = [f"{it.name}: {line[:200]}" for it in parts if it.failed for line in it.bad[:MOST_TOLD] or ["it said nothing"]]
    return "\n".join(["", "Failed:", *rows]) if rows else ""


def lacking(parts):
    """What was skipped, part by part, and for want of what. Then the variants that Debian has no package of, which count as nothing."""
    rows = [(number, f"{it.name}: {what}", why) for it in parts for what, number, why in it.lacked]
    width = min(max([len(row[1]) for row in rows], default=0), 90)
    lines = ["", "Skipped, and for want of what:", *(f"{number:>5}  {what[:90]:{width}}  {why}" for number, what, why in rows)] if rows else []
    variants = dict.fromkeys(why for it in parts for _, why in it.left)
    return "\n".join([*lines, *(["", f"Not tried here, and not counted: {', '.join(variants)}"] if variants else [])])


WAYS = {"test": test, "gate": gate, "check": check}


def main(words):
    only = {"": [], "changed": ["--changed"], "landing": [LANDING]}.get(os.environ.get("BUGS", ""))
    if len(words) != 1 or words[0] not in WAYS or only is None:
        sys.exit(__doc__)
    need_rattle()
    if words[0] == "test" and os.environ.get("SETUP") != "no":
        set_up(of_tests())
    with alone(words[0]):
        return work(words[0], only)


@contextlib.contextmanager
def alone(way):
    """Keeps a second run of this script out of the checkout until the end of the block: it would write the same files."""
    LOGS.mkdir(exist_ok=True)
    with open(LOGS / "working", "a+", encoding="utf-8") as kept:
        try:
            fcntl.flock(kept, fcntl.LOCK_EX | fcntl.LOCK_NB)
        except OSError:
            kept.seek(0)
            sys.exit(f"{kept.read()} works in this checkout: wait for its end, or take another clone")
        kept.truncate(0)
        kept.write(f"make {way} (process {os.getpid()})")
        kept.flush()
        yield


def work(way, only):
    """Runs the parts, and says what came of them."""
    began, parts = time.monotonic(), []
    if way == "test":
        TESTED.unlink(missing_ok=True)
        files = sum_of_files()
    say(f"About {MINUTES[way]} minutes from nothing on four processors (here: {len(os.sched_getaffinity(0))}), less with cached proofs.")
    with Usage(parts) as usage:
        WAYS[way](parts, only)
    passed, failed, skipped = (sum(getattr(it, what) for it in parts) for what in ("passed", "failed", "skipped"))
    say(table(parts, usage, began))
    for said in filter(None, (lacking(parts), failing(parts))):
        say(said)
    # (with CI=true only what this machine can't do is skipped, and it can't do it a second time either)
    if way == "test" and not failed and (not skipped or is_strict()) and files and files == sum_of_files():
        TESTED.write_text(files)
    say(f"{passed} passed, {failed} failed, {skipped} skipped")
    return failed > 0


if __name__ == "__main__":
    end_on_signals()
    try:
        sys.exit(main(sys.argv[1:]))
    except KeyboardInterrupt:
        sys.exit("interrupted: all parts have ended")
