"""Proves and builds crates side by side, each as soon as those below it are proved, and shows progress.

`rt` builds the crates below a program one after the other. Here each crate is proved in a room of its own (workspace.py), and
what it made and cached is moved to the crate's folder, where `rt` finds it.
"""
import concurrent.futures
import dataclasses
import os
import re
import subprocess
import time

from processes import started
from workspace import crates, is_fresh, is_program, keep, own_sources, product, proved_once, room, with_those_below

# What the prover says of how far it is in a crate.
SO_FAR = re.compile(r"so far: (\d+) of (\d+) functions checked")
# A crate of this weight gains by jobs, also while others are proved: a proof keeps the jobs that it began with.
LARGE, MOST_JOBS = 30, 4
# By how much a crate's own proofs are faster by so many jobs, and what a job reads of a crate below, of the seconds of its proofs.
FASTER, READS = {1: 1.0, 2: 1.5, 3: 1.65, 4: 1.75}, 0.01
# How long a program is linked, in seconds of one processor.
LINKED = 50
# A chain of crates counts as long from this share of the longest on. What is in no long chain gives way, the more the shorter it is.
LONG, NEAR, GIVES_WAY = 0.8, 0.6, (0, 4, 19)


@dataclasses.dataclass(frozen=True)
class Work:
    """What a crate's proof takes, roughly in seconds of one processor: its own, and what each job reads of the crates below."""

    own: float
    loads: float

    def alone(self, jobs):
        """The seconds that pass, with a processor for each job."""
        return self.loads + self.own / FASTER[jobs]

    def whole(self, jobs):
        """The seconds of all processors."""
        return self.own + jobs * self.loads

    def busy(self, jobs):
        """How many processors it keeps busy."""
        return self.whole(jobs) / self.alone(jobs)


def weight(name):
    """What a crate's own proofs take, roughly in seconds of one processor: they go by lines. A program is linked at its end."""
    files = [*own_sources(name)]
    count = lambda end: sum(it.read_bytes().count(b"\n") for it in files if it.name.endswith(end))
    code = count(".rt") - count("tests.rt")
    return 8 + code / 10 + count(".antt") / 50 + (LINKED if is_program(name) else 0)


# A share that the weights don't move grows so many times more slowly than one that they do.
CREEPS = 4
# So many seconds pass for one of a plan before anything is learnt, and that counts as much as so many seconds of a plan.
PACE, KNOWN = 0.9, 300
# The most of a crate's proof that is taken for done, where no line tells of it.
UNTOLD = 0.8
# In the log of proofs, the name of a line that says how many processors were busy.
CORES = "cores"


class Progress:
    """The progress of the proofs, by what the prover said, and how long they still take.

    What is left is told by a plan: each crate goes on once those below it are done, and all that go on share the processors. How many
    seconds pass for one of the plan is learnt from what is done of it."""

    def __init__(self, works, below, clock=time.monotonic, count=None):
        self.works, self.below, self.clock, self.count = works, below, clock, count or processors()
        self.began, self.functions, self.done, self.begun, self.log = clock(), {}, set(), {}, []
        self.jobs, self.told, self.asked, self.planned, self.last = {}, 0.0, 0.0, None, 0.0

    def begin(self, name, jobs=None):
        self.keep(name, "begins")
        if jobs:
            self.jobs[name] = jobs
        self.functions.setdefault(name, (0, 0))
        self.begun.setdefault(name, self.clock())

    def hear(self, name, line):
        """Takes a line that the prover said of a crate."""
        self.keep(name, line.rstrip("\n"))
        found = SO_FAR.match(line)
        if found:
            self.functions[name] = int(found[1]), int(found[2])

    def end(self, name):
        self.keep(name, "ends")
        self.done.add(name)

    def keep(self, name, line):
        """Keeps what was said, with the second and the crate."""
        self.log.append(f"{self.clock() - self.began:.1f}\t{name}\t{line}")

    def guessed_jobs(self, name, beside):
        """The jobs of a proof, or what they will be, roughly, where so many crates are proved side by side."""
        least = 2 if self.works[name].own > LARGE else 1
        return min(self.jobs.get(name, max(least, self.count // beside)), MOST_JOBS)

    def part(self, name):
        """The share of a crate's proof that is done."""
        if name in self.done or name not in self.begun:
            return float(name in self.done)
        work, (checked, of) = self.works[name], self.functions[name]
        alone = work.alone(self.guessed_jobs(name, self.running()))
        told = (work.loads + 0.9 * (alone - work.loads) * checked / of) / alone if checked else 0.0
        # (what it loads, and often most of its functions, is told by no line: that goes by the time)
        return max(told, min((self.clock() - self.begun[name]) / (alone * self.pace() * self.crowd()), UNTOLD))

    def running(self):
        """How many crates are being proved."""
        return max(len({*self.begun} - self.done), 1)

    def crowd(self):
        """By how much the crates that are being proved are slower than alone, since they share the processors."""
        jobs = {name: self.guessed_jobs(name, self.running()) for name in self.begun if name not in self.done}
        return max(sum(self.works[name].busy(it) for name, it in jobs.items()) / self.count, 1.0)

    def pace(self):
        """How many seconds pass for one of the plan, as far as that is learnt."""
        passed, done = self.clock() - self.began, (self.planned or 0.0) - self.last
        return (passed + KNOWN * PACE) / (max(done, 0.0) + KNOWN)

    def plan(self):
        """The seconds that are left by the plan."""
        left = {name: 1 - self.part(name) for name in self.works if name not in self.done}
        jobs, seconds = {}, 0.0
        while left:
            ready = [name for name in left if not any(it in left for it in self.below[name])]
            ready = sorted(ready, key=lambda it: (it not in self.begun, -self.works[it].own))[: self.count]
            for it in ready:
                jobs.setdefault(it, self.guessed_jobs(it, len(ready)))
            alone = {it: self.works[it].alone(jobs[it]) for it in ready}
            share = min(1.0, self.count / sum(self.works[it].busy(jobs[it]) for it in ready))
            step = min(left[it] * alone[it] for it in ready) / share
            seconds += step
            for it in ready:
                left[it] -= step * share / alone[it]
                if left[it] < 1e-6:
                    del left[it]
        return seconds

    def left(self):
        """The seconds that are left."""
        self.last = self.plan()
        if self.planned is None:
            self.planned = self.last
        return self.last * self.pace()

    def share(self):
        """How much is done, from 0 to 1. It never falls, and where less is told than before, it grows by a part of what is left."""
        seconds, left = self.clock() - self.began, self.left()
        passed, self.asked = seconds - self.asked, seconds
        creeps = self.told + (1 - self.told) * passed / (CREEPS * (left + passed)) if left else 0.0
        self.told = max(creeps, seconds / (seconds + left) if left else 1.0)
        return self.told

    def text(self):
        """One line: the time, how much is done, what is left, and how far each crate is that is being proved."""
        seconds, done = self.clock() - self.began, self.share()
        parts = [f"{name} {checked} of {of}" if of else f"{name} begins" for name, (checked, of) in self.functions.items() if name not in self.done]
        left = f", about {max(round(self.left() / 60), 1)} min left" if done < 1 else ""
        return f"{int(seconds) // 60}:{int(seconds) % 60:02}  {100 * done:5.1f} %{left}  {'; '.join(parts)}".rstrip()


def processors():
    return len(os.sched_getaffinity(0))


class Failed(Exception):
    """A crate that is not proved, and what the prover said of it."""

    def __init__(self, name, said):
        super().__init__(name)
        self.name, self.said = name, said


def run(command, at, hear):
    """Runs a command, has each line heard that it says, and returns its status."""
    how = {"stdin": subprocess.DEVNULL, "stdout": subprocess.PIPE, "stderr": subprocess.STDOUT, "text": True, "errors": "replace"}
    with started(command, cwd=at, **how) as part:
        for line in part.stdout:
            hear(line)
    return part.returncode


def said_with(name, texts, words=()):
    """What `rt check` with these words says of a crate, and its status: with these texts in the place of files, as `room` takes them, and
    over a copy of the cached proofs."""
    lines = []
    with room(name, texts) as made:
        status = run(["rt", "check", "--jobs", "1", *words], made, lines.append)
    return "".join(lines).rstrip("\n").split("\n"), status


def command_of(name):
    """The command that proves a crate, and builds what it makes. (A program is run too: with this word each ends well.)"""
    return ["rt", "run", "--", "--help"] if is_program(name) else ["rt", "lib"]


def with_jobs(command, jobs):
    """The command with that many jobs."""
    return [*command[:2], "--jobs", str(jobs), *command[2:]]


def chains(names):
    """The seconds of the longest chain of crates from each of these on, itself the first."""
    found, (works, _), below = {}, weights_of(names), crates()
    for name in sorted(names, key=lambda it: -len(with_those_below(it))):
        found[name] = works[name].alone(2) + max((found[it] for it in found if name in below[it]), default=0)
    return found


def work_on(name, jobs, way, progress):
    """Proves and builds a crate in a room, and keeps what was made. Raises Failed where it is not proved."""
    lines = []

    def hear(line):
        lines.append(line)
        progress.hear(name, line)

    progress.begin(name, jobs)
    with proved_once(name) as is_proved:
        if not is_proved:
            with room(name) as made:
                if run(["nice", "-n", str(way), *with_jobs(command_of(name), jobs)], made, hear):
                    raise Failed(name, "".join(lines))
                keep(made, name)
    progress.end(name)


@dataclasses.dataclass
class After:
    """What is done with a crate once it is proved, by a processor that no crate needs: a call, and roughly its seconds."""

    name: str
    seconds: float
    run: object


def prove(names, progress, after=()):
    """Proves and builds these crates, the longest chain first, each once those below it are proved. Then, or where processors are
    idle, comes what is done after, the longest first. Raises Failed of the first that is not proved, once what had begun has ended."""
    chain, count, left, running, began, ways, failed = chains(names), processors(), [*names], {}, {}, {}, None
    later = sorted(after, key=lambda it: -it.seconds)
    with concurrent.futures.ThreadPoolExecutor(max(len(left) + len(later), 1)) as pool:
        while running or (left or later) and not failed:
            busy = {it for it in running.values() if it}
            waiting = {*left, *busy}
            ready = [it for it in left if not failed and not waiting & {*with_those_below(it)[:-1]}]
            for name in sorted(ready, key=lambda it: -chain[it]):
                if len(running) >= count:
                    break
                left_of = [(chain[it] + began[it] - time.monotonic(), ways[it]) if it else (0.0, GIVES_WAY[0]) for it in running.values()]
                ways[name], jobs = turn_of(chain[name], weight(name) > LARGE, left_of, [chain[it] for it in ready], count)
                left.remove(name)
                ready.remove(name)
                began[name] = time.monotonic()
                running[pool.submit(work_on, name, jobs, ways[name], progress)] = name
            for it in [it for it in later if it.name not in waiting and not failed][: max(count - len(running), 0)]:
                later.remove(it)
                running[pool.submit(it.run)] = None
            ended = concurrent.futures.wait(running, return_when=concurrent.futures.FIRST_COMPLETED).done
            for it in ended:
                running.pop(it)
                failed = failed or it.exception()
    if failed:
        raise failed


def turn_of(chain, is_large, running, ready, count):
    """How far a crate that begins now gives way to others, and its jobs. `chain` has the seconds of the longest chain from it on, `running`
    what is left of each chain that runs and how far that gives way, and `ready` the chains that could begin now, its own among them.

    On a long chain a large crate takes all processors that no other crate waits for, but two at least; another crate takes one of them,
    or two where they are idle. Each job reads the libraries anew."""
    share = chain / max([chain, *(left for left, _ in running)])
    is_long = share >= LONG
    way = GIVES_WAY[0 if is_long else 1 if share >= NEAR else 2]
    # (what gives way most takes nothing from a long chain, and doesn't wait for one)
    idle = count - sum(not is_long or it < GIVES_WAY[-1] for _, it in running)
    waits = sum(not is_long or it >= NEAR * chain for it in ready)
    jobs = max(2, idle - waits + 1) if is_long and is_large else max(1, min(idle // max(waits, 1), 2))
    return way, min(jobs, count, MOST_JOBS)


def weights_of(names):
    """What the proof of each of these crates takes, and the crates that it names."""
    all_of_them = crates()
    own = {it: weight(it) for it in all_below(names)}
    works = {name: Work(own[name], READS * sum(own[it] for it in with_those_below(name)[:-1])) for name in names}
    return works, {it: all_of_them[it] for it in names}


def all_below(names):
    """These crates and all that they depend on, lowest first."""
    return [*dict.fromkeys(it for name in names for it in with_those_below(name))]


def changed(names):
    """Those of these crates, and of all below them, that have to be proved or built anew."""
    return [it for it in all_below(names) if not is_fresh(product(it), it)]


def prove_changed(names, progress, after=()):
    """Proves and builds these crates and those below them where something has changed, and does what comes after. Returns what was said
    where a proof failed, or nothing."""
    left = changed(names)
    progress.done |= {it for it in all_below(names) if it not in left}
    try:
        prove(left, progress, after)
    except Failed as failed:
        return f"{failed.name} is not proved\n{failed.said}"
    return None
