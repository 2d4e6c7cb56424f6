#!/usr/bin/env python3
"""Shows that a command which is ended leaves nothing: each tool gets TERM, HUP and Ctrl-C while the toolchain works for it.

The tools run in a copy of the repository, where a program that only waits replaces `rt`. Each process that it started has to
be gone when the tool has ended. That holds too where the signal comes while a command is being started: it runs already, and
nothing has noted it yet. And it holds where what a session started doesn't end when asked to.
"""
import os
import pathlib
import signal
import subprocess
import sys
import time

sys.path.insert(0, str(pathlib.Path(__file__).resolve().parent.parent))
from checking import Cases, changeable_copy

TOOLS = {
    "make run": ["tools/program.py", "run"],
    "make try": ["tools/program.py", "try"],
    "make c": ["tools/c_library.py", "build"],
    "make web": ["tools/web.py", "build"],
    "make python": ["tools/python_package.py", "build"],
    "make bench": ["tools/bench.py"],
    "make times": ["tools/times.py", "image_shape"],
    "make test": [".ci/gate.py", "test"],
    "make gate": [".ci/gate.py", "gate"],
    "planted_bugs.py": [".ci/planted_bugs.py", "image_shape"],
}
SIGNALS = (signal.SIGTERM, signal.SIGHUP, signal.SIGINT)
# Says which processes it is, and waits with a process of its own.
WAITS = """#!/bin/sh
sleep 600 &
echo "$$ $!" >> "$WAITING"
wait
"""
# A tool that gets TERM while it starts `rt`, in its first thread or in another one, or in a session. The thread that starts it
# gets the signal, while the first one waits.
STARTS = """
import os, signal, subprocess, sys, threading, time
sys.path.insert(0, "tools")
import processes

class Started(subprocess.Popen):
    def __init__(self, *words, **how):
        super().__init__(*words, **how)
        while not os.path.exists(os.environ["WAITING"]):
            time.sleep(0.05)
        signal.pthread_kill(threading.get_ident(), signal.SIGTERM)
        time.sleep(0.5)

def start():
    with processes.started(["rt"], in_session=sys.argv[2] == "session") as process:
        process.wait()

subprocess.Popen, processes.PATIENCE_OF_SESSION = Started, 2
processes.end_on_signals()
if sys.argv[1] == "first":
    start()
else:
    thread = threading.Thread(target=start)
    thread.start()
    thread.join()
"""
# Says which processes it is, and has one in another group that ends only by a signal that can't be ignored.
STAYS = """#!/bin/sh
trap "" TERM
set -m
sh -c 'trap "" TERM; echo "$$" >> "$WAITING"; while :; do sleep 1; done' &
wait
"""
# The machine may be busy: this is only how long a failure takes.
SECONDS = 300


def until(holds):
    """Whether something holds before the time is over."""
    ends = time.monotonic() + SECONDS
    while time.monotonic() < ends:
        if holds():
            return True
        time.sleep(0.05)
    return False


def is_there(number):
    """Whether a process is there, and not only its entry."""
    try:
        return pathlib.Path(f"/proc/{number}/stat").read_text().rpartition(")")[2].split()[0] != "Z"
    except OSError:
        return False


def tried(top, room, words, number):
    """What is left, or what went wrong, where a tool is ended by a signal, or ends itself by one where there is no number. Nothing
    where all is well."""
    waiting = room / "waiting"
    waiting.unlink(missing_ok=True)
    env = os.environ | {"PATH": f"{room}:{os.environ['PATH']}", "WAITING": str(waiting), "SCRIPT": "examples/first.script", "SETUP": "no"}
    tool = subprocess.Popen([sys.executable, *words], cwd=top, env=env, stdin=subprocess.DEVNULL, stdout=subprocess.DEVNULL, stderr=subprocess.DEVNULL, start_new_session=True)
    try:
        if not until(lambda: waiting.exists() and waiting.read_text().endswith("\n")):
            return "the toolchain was not called"
        if number:
            tool.send_signal(number)
        if not until(lambda: tool.poll() is not None):
            return "it has not ended"
        left = lambda: [it for it in waiting.read_text().split() if is_there(it)]
        if not until(lambda: not left()):
            return f"left: {left()}"
        return "" if tool.returncode else "its status says that all is well"
    finally:
        for it in [tool.pid, *map(int, waiting.read_text().split() if waiting.exists() else [])]:
            try:
                os.kill(it, signal.SIGKILL)
            except OSError:
                pass
        tool.wait()


def main():
    cases = Cases()
    with changeable_copy() as top:
        (top / ".ci/checks" / pathlib.Path(__file__).name).unlink()
        room = top.parent
        (room / "rt").write_text(WAITS)
        (room / "rt").chmod(0o755)
        for label, words in TOOLS.items():
            for number in SIGNALS:
                said = tried(top, room, words, number)
                cases.count(f"{label} is ended by {number.name}", not said, said)
        (room / "starts.py").write_text(STARTS)
        for label, words in (("the first thread", ("first", "group")), ("another thread", ("other", "group")), ("a session", ("other", "session"))):
            said = tried(top, room, [str(room / "starts.py"), *words], None)
            cases.count(f"what is being started is ended: {label}", not said, said)
        (room / "rt").write_text(STAYS)
        said = tried(top, room, [str(room / "starts.py"), "other", "session"], None)
        cases.count("a session is ended whole, also a group in it that ignores TERM", not said, said)
    return cases.end()


if __name__ == "__main__":
    sys.exit(main())
