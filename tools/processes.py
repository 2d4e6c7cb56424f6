"""Commands that end with the process that started them, also where that one is ended by TERM, HUP or Ctrl-C.

Each command gets a process group of its own, so that all that it starts can be ended with it. A command of the toolchain ends
what it started itself once it is ended, also in other groups. So each command first gets TERM, and time to do so.
"""
import concurrent.futures
import contextlib
import os
import pathlib
import signal
import subprocess
import sys
import threading
import time

# Where Python is older than 3.11, a child makes its group itself.
OWN_GROUP = {"process_group": 0} if sys.version_info >= (3, 11) else {"preexec_fn": os.setpgrp}
# How long a command has to end what it started, in seconds, before it is killed; and one with a session, which ends others so.
PATIENCE, PATIENCE_OF_SESSION = 10, 60
SIGNALS = (signal.SIGTERM, signal.SIGHUP, signal.SIGINT)
RUNNING, SESSIONS, LOCK = set(), set(), threading.Lock()
is_ending = False
# Whether the main thread starts a command now, and whether a signal came.
is_starting = has_signal = False


class Ending(Exception):
    """No command is started any more."""


@contextlib.contextmanager
def unbroken():
    """A block that no signal breaks off, where end_on_signals was called: a signal that comes in it waits for its end."""
    global is_starting
    if threading.current_thread() is not threading.main_thread():
        # (signals are handled in the main thread alone)
        yield
        return
    is_starting = True
    try:
        yield
    finally:
        is_starting = False
        if has_signal:
            end_now()


@contextlib.contextmanager
def started(words, in_session=False, **how):
    """Starts a command in a group of its own, or in a session of its own, which is there until the end of the block."""
    # (a command that runs is in RUNNING: a signal waits for the first thread that starts one, and end_all for the others)
    with unbroken(), LOCK:
        if is_ending:
            raise Ending()
        process = subprocess.Popen([str(it) for it in words], **({"start_new_session": True} if in_session else OWN_GROUP), **how)
        RUNNING.add(process)
        if in_session:
            SESSIONS.add(process)
    try:
        with process:
            try:
                yield process
            except BaseException:
                # (the end of the block waits for the command)
                kill(process, signal.SIGTERM)
                raise
    finally:
        RUNNING.discard(process)


@contextlib.contextmanager
def workers(most=None):
    """A pool of threads. Where its block is broken off, what has not begun doesn't begin any more."""
    with concurrent.futures.ThreadPoolExecutor(most) as pool:
        try:
            yield pool
        except BaseException:
            pool.shutdown(wait=False, cancel_futures=True)
            raise


def run_to_end(words, **how):
    """Runs a command to its end: its status, what it wrote, and what it said besides."""
    how = {"stdin": subprocess.DEVNULL, "stdout": subprocess.PIPE, "stderr": subprocess.PIPE, "text": True, "errors": "replace", **how}
    with started(words, **how) as process:
        wrote, said = process.communicate()
    return subprocess.CompletedProcess(words, process.returncode, wrote, said)


def kill(process, number):
    """Sends a signal to a command's group, where it hasn't ended."""
    if process.returncode is None:
        with contextlib.suppress(OSError):
            os.killpg(process.pid, number)


def end_all():
    """Ends all commands, and has none start any more."""
    global is_ending
    is_ending = True
    # (what another thread is starting is in RUNNING as soon as that thread gives the lock back)
    if LOCK.acquire(timeout=PATIENCE):
        LOCK.release()
    left, ends = [*RUNNING], time.monotonic() + (PATIENCE_OF_SESSION if SESSIONS else PATIENCE)
    for it in left:
        kill(it, signal.SIGTERM)
    while time.monotonic() < ends and any(is_alive(it) for it in left):
        time.sleep(0.05)
    for it in left:
        kill(it, signal.SIGKILL)
        for number in members(it):
            with contextlib.suppress(OSError):
                os.kill(number, signal.SIGKILL)


def members(process):
    """The processes of a command's session, also those in other groups; none where it has no session of its own."""
    for it in pathlib.Path("/proc").glob("[0-9]*/stat") if process in SESSIONS else ():
        with contextlib.suppress(OSError):
            state, _, _, session, *_ = it.read_text().rpartition(")")[2].split()
            if int(session) == process.pid and state not in "ZX":
                yield int(it.parent.name)


def is_alive(process):
    """Whether a process of the command's group or session is left."""
    if process in SESSIONS:
        return any(True for _ in members(process))
    try:
        os.killpg(process.pid, 0)
    except OSError:
        return False
    # (one that has ended, and that a thread hasn't waited for yet, doesn't count)
    return process.poll() is None


def end_now():
    """Ends all that this process started, and then this process as Ctrl-C does: by KeyboardInterrupt."""
    for it in SIGNALS:
        # (a signal that is ignored would be ignored in what starts now, too)
        signal.signal(it, lambda *_: None)
    end_all()
    raise KeyboardInterrupt


def nudge(signals):
    """Has the main thread see a signal. One that another thread got, or that came as the main thread began to wait, doesn't end
    that wait."""
    os.read(signals, 1)
    while not has_signal:
        signal.pthread_kill(threading.main_thread().ident, signal.SIGTERM)
        time.sleep(0.1)


def end_on_signals():
    """Has TERM and HUP end this process as Ctrl-C does, once all that it started has ended."""

    def take(*_):
        global has_signal
        has_signal = True
        if not is_starting:
            end_now()

    signals, noted = os.pipe()
    os.set_blocking(noted, False)
    signal.set_wakeup_fd(noted, warn_on_full_buffer=False)
    threading.Thread(target=nudge, args=(signals,), daemon=True).start()
    for it in SIGNALS:
        signal.signal(it, take)


def end_on_signals_too():
    """The same of a process that was just forked. It has none of the threads of the one before, and began in an unbroken block."""
    global is_starting
    is_starting = False
    end_on_signals()
    if has_signal:
        end_now()
