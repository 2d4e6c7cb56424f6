"""Runs pipes of commands: the end of one ends all, signals end all, and progress is shown."""
import contextlib
import os
import re
import signal
import subprocess
import sys
import tempfile
import threading
import time

# How long children have to end after SIGTERM, in seconds, and how often they are looked at.
PATIENCE, LOOK = 3, 0.05
# How often a line is written where there is no terminal, and how often on a terminal, in seconds.
EVERY, OFTEN = 10, 0.2
BACK = "\r\033[K"
# What a command says that lost its reader.
BROKEN = re.compile("Broken pipe|BrokenPipeError")


class Failure(Exception):
    """What failed, in one sentence."""


class Interrupted(Exception):
    """A signal came."""

    def __init__(self, number):
        super().__init__(signal.Signals(number).name)
        self.number = number


class Signals:
    """Remembers the signal that came: it is looked at where children are waited for, so that none is lost."""

    came = None

    @classmethod
    def catch(cls):
        for it in (signal.SIGINT, signal.SIGTERM, signal.SIGHUP):
            # (who starts a command by nohup has set SIGHUP to be ignored)
            if signal.getsignal(it) != signal.SIG_IGN:
                signal.signal(it, cls.note)

    @classmethod
    def note(cls, number, _):
        cls.came = cls.came or number

    @classmethod
    def look(cls):
        if cls.came:
            raise Interrupted(cls.came)


class Progress:
    """Says how many frames are done, on a terminal in one line, and else in a line every ten seconds."""

    def __init__(self, is_quiet):
        self.is_quiet, self.is_terminal = is_quiet, sys.stderr.isatty()
        self.label, self.total, self.began, self.told = "", None, 0.0, 0.0

    def begin(self, label, total):
        self.label, self.total = label, total
        self.began = self.told = time.monotonic()

    def text(self, frames):
        seconds = max(time.monotonic() - self.began, 1e-3)
        rate = frames / seconds
        left = f", {clock((self.total - frames) / rate)} left" if self.total and rate and frames <= self.total else ""
        return f"{self.label}: {frames}{f' of {self.total}' if self.total else ''} frames, {rate:.1f} a second{left}"

    def at(self, frames):
        now = time.monotonic()
        if self.is_quiet or now < self.told + (OFTEN if self.is_terminal else EVERY):
            return
        self.told = now
        self.say(f"{BACK}{self.text(frames)}" if self.is_terminal else self.text(frames), end="" if self.is_terminal else "\n")

    def end(self, frames):
        """The last line of a pass."""
        if not self.is_quiet:
            seconds = time.monotonic() - self.began
            self.say(f"{BACK if self.is_terminal else ''}{self.label}: {frames} frames in {clock(seconds)}")

    def note(self, text):
        """A line beside progress."""
        if not self.is_quiet:
            self.say(f"{BACK if self.is_terminal else ''}{text}")

    @staticmethod
    def say(text, end="\n"):
        with contextlib.suppress(OSError):
            print(text, end=end, file=sys.stderr, flush=True)


def clock(seconds):
    """Seconds as hours, minutes and seconds."""
    whole = int(seconds + 0.5)
    return f"{whole // 3600}:{whole // 60 % 60:02}:{whole % 60:02}" if whole >= 60 else f"{whole} s"


class Counter:
    """Reads what ffmpeg writes by -progress: the number of frames so far."""

    def __init__(self):
        self.frames, self.doubled, self.dropped = 0, 0, 0
        self.read, self.write = os.pipe()
        self.thread = threading.Thread(target=self.follow, daemon=True)

    def words(self):
        return ["-nostats", "-stats_period", "0.5", "-progress", f"pipe:{self.write}"]

    def begin(self):
        os.close(self.write)
        self.thread.start()

    def follow(self):
        with open(self.read, "r", errors="replace") as lines:
            for line in lines:
                name, _, value = line.strip().partition("=")
                if value.isdigit():
                    if name == "frame":
                        self.frames = int(value)
                    elif name == "dup_frames":
                        self.doubled = int(value)
                    elif name == "drop_frames":
                        self.dropped = int(value)

    def end(self):
        self.thread.join(5)
        return self.frames


class Step:
    """A command of a pipe: its words, the name by which a failure tells of it, and where it runs."""

    def __init__(self, name, words, shell=False, folder=None):
        self.name, self.words, self.shell, self.folder = name, words, shell, folder


def pipe(steps, work, output=None, counter=None, progress=None):
    """Runs steps in the folder `work`, each of which reads what the one before writes, and waits for all. A Failure has the last
    lines that the cause said. The output of the last one goes into the file `output`, else it is dropped."""
    # (what they say goes to another disk than the output, which may be full)
    started, said, before = [], [tempfile.TemporaryFile() for _ in steps], subprocess.DEVNULL
    out = open(work / output, "wb") if output else None
    try:
        for step, errors in zip(steps, said):
            process = subprocess.Popen(
                step.words, shell=step.shell, stdin=before, stdout=(out or subprocess.DEVNULL) if step is steps[-1] else subprocess.PIPE, stderr=errors,
                cwd=step.folder or work, start_new_session=True, pass_fds=[counter.write] if counter else [],
            )  # fmt: skip
            started.append(process)
            # (else a command wouldn't notice that the one after it has ended)
            if before is not subprocess.DEVNULL:
                before.close()
            before = process.stdout
        if counter:
            counter.begin()
        while any(it.poll() is None for it in started):
            Signals.look()
            if progress and counter:
                progress.at(counter.frames)
            if at_fault(started, patient=True):
                break
            time.sleep(LOOK)
        Signals.look()
    except OSError as why:
        raise Failure(f"{why.filename or steps[len(started)].name} can't be started: {why.strerror}") from None
    finally:
        end(started)
        if out:
            out.close()
    wrong = [at for at, it in enumerate(started) if it.returncode]
    if wrong:
        raise Failure(cause(steps, started, [text_of(it) for it in said], wrong))


def text_of(file):
    """What is in a file that is open."""
    with file:
        file.seek(0)
        return file.read().decode(errors="replace")


def cause(steps, started, said, wrong):
    """What failed first: a command that lost its reader, or its input, isn't the cause."""
    lost = [at for at in wrong if started[at].returncode == -signal.SIGPIPE or BROKEN.search(said[at])]
    at = next((it for it in wrong if it not in lost), None)
    if at is None:
        return f"{steps[lost[-1] + 1].name} ended before it had read the whole video"
    return f"{steps[at].name} failed{why_of(said[at], started[at].returncode)}"


def at_fault(started, patient):
    """Whether a command has failed and the others haven't ended by themselves a moment later."""
    if not any(it.returncode for it in started):
        return False
    began = time.monotonic()
    while patient and time.monotonic() < began + PATIENCE and any(it.poll() is None for it in started):
        time.sleep(LOOK)
    return True


def end(started):
    """Ends what still runs, with all that it started."""
    running = [it for it in started if it.poll() is None]
    for it in started:
        with contextlib.suppress(OSError):
            os.killpg(it.pid, signal.SIGTERM)
    deadline = time.monotonic() + PATIENCE
    while any(it.poll() is None for it in running) and time.monotonic() < deadline:
        time.sleep(LOOK)
    for it in started:
        with contextlib.suppress(OSError):
            os.killpg(it.pid, signal.SIGKILL)
    for it in running:
        it.wait()


def why_of(said, status):
    """The last lines that a command said, or the signal that ended it."""
    lines = [it.strip() for it in said.splitlines() if it.strip() and not it.startswith("imgref_frames --help lists")]
    if lines:
        return ": " + "; ".join(lines[-4:])[-800:]
    if status < 0:
        return f": signal {signal.Signals(-status).name} ended it"
    return f" with status {status}"
