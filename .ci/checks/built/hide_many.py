#!/usr/bin/env python3
"""Shows that imgref-hide covers a folder of videos, that GNU parallel does so on several hosts, and that Dask edits large pictures.

The hosts are three servers of ssh on the loopback, each with a folder of its own. One is killed while it works. examples/dask_tiles.py
runs on a cluster of processes of which one is killed too.
"""
import contextlib
import csv
import os
import pathlib
import re
import shutil
import signal
import socket
import subprocess
import sys
import tempfile
import threading
import time

sys.path.insert(0, str(pathlib.Path(__file__).resolve().parents[2]))
from checking import ROOT, Cases, both_builds
from hiding import FRAMES, Place, all_of, children, encoded, ffmpeg, is_hidden
from needs import python_with

RECIPE = re.compile(r"(?m)^    (find in .*parallel .*--sshloginfile.*)$")
# A picture by Dask may take so many seconds.
SECONDS = 600


def table(folder):
    with open(folder / "table.csv", newline="") as lines:
        rows = [*csv.reader(lines)]
    return {it[0]: it[1:] for it in rows[1:]}


def by_folder(cases, place):
    """A tree of videos: each is covered, others are named in the table, and a second run does what is missing."""
    folder = place.folder / "many"
    (folder / "in/a b").mkdir(parents=True)
    for name in ("1.mp4", "a b/2.mov", "3.avi", "it's.mkv"):
        ffmpeg(folder, "-i ../in.mp4 -c copy x.mkv")
        subprocess.run(["ffmpeg", "-v", "error", "-i", "x.mkv", *(["-c", "copy"] if name != "3.avi" else ["-c:v", "mpeg4", "-q:v", "2"]), f"in/{name}"], cwd=folder, check=True, stdin=subprocess.DEVNULL)
    (folder / "in/notes.txt").write_text("no video")
    (folder / "in/broken.mp4").write_bytes((folder / "in/1.mp4").read_bytes()[:2000])
    ffmpeg(folder, "-f lavfi -i color=c=black:s=64x64:r=5:d=1 in/empty.mp4")
    done = place.run(folder, "in", "out", "--jobs", "2", "--log", "log")
    rows = table(folder / "out")
    outputs = {"1.mp4": "1.mp4", "a b/2.mov": "a b/2.mov", "3.avi": "3.avi.mp4", "it's.mkv": "it's.mkv"}
    well = [rows.get(it, [""])[-1] == "done" and is_hidden(folder / "out", out) for it, out in outputs.items()]
    cases.count("each video of a tree is covered", all(well), f"{well} {rows} {done.stderr}")
    cases.count("the table has frames, boxes, frames without and the status", int(rows["1.mp4"][0]) in (FRAMES, FRAMES + 1) and rows["1.mp4"][1:] == [rows["1.mp4"][0], "0", "done"], str(rows.get("1.mp4")))
    others = (rows.get("broken.mp4", [""])[-1], rows.get("empty.mp4", [""])[-1], rows.get("notes.txt", [""])[-1])
    cases.count("what failed, what has nothing and what is no video are there too", others[0].startswith("failed: ") and "can" in others[0] and others[1] == "nothing found" and others[2].startswith("left out"), str(others))
    cases.count("the status is 1, and the last line counts them", done.returncode == 1 and "4 of 6 videos are covered, in 1 nothing was found, 1 failed" in done.stderr, done.stderr)
    cases.count("nothing is left of what failed", not [it for it in (folder / "out").rglob("*") if "broken" in it.name or it.name.startswith(".")])
    cases.count("the record has each", len((folder / "log").read_text().splitlines()) == 6)
    before = {it: (folder / "out" / it).stat().st_mtime_ns for it in outputs.values()}
    (folder / "out/1.mp4").unlink()
    shutil.copy(folder / "in/1.mp4", folder / "in/broken.mp4")
    (folder / "in/empty.mp4").unlink()
    done = place.run(folder, "in", "out", "--jobs", "3")
    after = {it: (folder / "out" / it).stat().st_mtime_ns for it in outputs.values()}
    cases.count("a second run goes on where it was", done.returncode == 0 and [it for it in before if before[it] != after[it]] == ["1.mp4"] and is_hidden(folder / "out", "broken.mp4") and "3 of 5 files are done already" in done.stderr, done.stderr)
    for words, why in ((["in", "in"], "within"), (["in", "in/out"], "within"), (["in", "in/1.mp4"], "no folder"), (["out/a b", "out/a b/.."], "within")):
        done = place.run(folder, *words)
        cases.count(f"refused: {' '.join(words)}", done.returncode == 1 and why in done.stderr, done.stderr)
    (folder / "twice").mkdir()
    for name in ("x.mp4", "x.mov"):
        shutil.copy(folder / "in/1.mp4", folder / "twice" / name)
    done = place.run(folder, "twice", "t")
    cases.count("two videos with one name are refused", done.returncode == 1 and "would write the same names" in done.stderr, done.stderr)


def by_signal(cases, place):
    """Ctrl-C ends all jobs, and leaves what is done."""
    folder = place.folder / "ended"
    (folder / "in").mkdir(parents=True)
    for it in range(4):
        shutil.copy(place.folder / "in.mp4", folder / f"in/{it}.mp4")
    slow = f"echo > {folder}/here; sleep 60"
    process = subprocess.Popen(place.words(["in", "out", "--jobs", "2", "--detector", slow], fake=False), cwd=folder, env=place.env, stdin=subprocess.DEVNULL, stderr=subprocess.PIPE, text=True)
    deadline = time.monotonic() + 60
    while time.monotonic() < deadline and not (folder / "here").exists():
        time.sleep(0.05)
    process.send_signal(signal.SIGINT)
    said = process.communicate(timeout=300)[1]
    kept = [str(it) for it in (folder / "out").rglob("*") if it.name != "table.csv"]
    cases.count("Ctrl-C ends all jobs and leaves no half output", process.returncode == 130 and "SIGINT" in said and not kept and not children(folder), f"{process.returncode} {said} {kept} {children(folder)}")


def free_port():
    with socket.socket() as it:
        it.bind(("127.0.0.1", 0))
        return it.getsockname()[1]


class Host:
    """A server of ssh on the loopback: a machine with a home of its own."""

    def __init__(self, folder, name, key, place):
        self.folder, self.port = folder / name, free_port()
        self.folder.mkdir()
        self.home = self.folder / "home"
        self.home.mkdir()
        # (what is run there is the same program: a folder for each host, and its name in what it did)
        (self.folder / "run").write_text(f'#!/bin/sh\nexport HOME={self.home} PATH={place.tools}:{ROOT}/programs:$PATH PYTHONDONTWRITEBYTECODE=1\ncd "$HOME"\necho >> {self.folder}/did\nexec /bin/bash -c "$SSH_ORIGINAL_COMMAND"\n')
        (self.folder / "run").chmod(0o755)
        subprocess.run(["ssh-keygen", "-q", "-t", "ed25519", "-N", "", "-f", self.folder / "host"], check=True, stdin=subprocess.DEVNULL)
        (self.folder / "keys").write_text(key)
        lines = [f"Port {self.port}", "ListenAddress 127.0.0.1", f"HostKey {self.folder}/host", f"AuthorizedKeysFile {self.folder}/keys", "StrictModes no", "UsePAM no", "MaxStartups 100", "MaxSessions 100", f"PidFile {self.folder}/pid", f"ForceCommand {self.folder}/run", "PermitRootLogin yes", "AcceptEnv *"]
        (self.folder / "config").write_text("\n".join(lines) + "\n")
        pathlib.Path("/run/sshd").mkdir(exist_ok=True)
        self.process = subprocess.Popen([shutil.which("sshd") or "/usr/sbin/sshd", "-D", "-f", self.folder / "config"], start_new_session=True, stdin=subprocess.DEVNULL, stderr=subprocess.DEVNULL)

    def login(self, folder):
        return f"1/ssh -p {self.port} -i {folder}/key -o StrictHostKeyChecking=no -o UserKnownHostsFile=/dev/null -o LogLevel=ERROR -o ControlMaster=auto -o ControlPath={self.folder}/%p -o ControlPersist=60 127.0.0.1"

    def kill(self):
        """The machine is gone: the server, and all that works in its folder."""
        self.process.kill()
        self.process.wait()
        subprocess.run(["ssh", "-O", "exit", "-o", f"ControlPath={self.folder}/{self.port}", "127.0.0.1"], capture_output=True, stdin=subprocess.DEVNULL)
        for it in pathlib.Path("/proc").glob("[0-9]*"):
            with contextlib.suppress(OSError, ValueError):
                if os.readlink(it / "cwd").startswith(str(self.home)) or f"{self.folder}/" in (it / "environ").read_bytes().decode(errors="replace"):
                    os.kill(int(it.name), signal.SIGKILL)

    def is_working(self):
        """Whether a video is being covered there: its folder is beside the output."""
        return any(self.home.rglob(".imgref-hide-*"))


def by_hosts(cases, place):
    """The recipe of the page on three hosts, of which one is killed: all outputs are there once, as one machine makes them."""
    if cases.lacks("three hosts of ssh", "parallel", "openssh-server", "rsync", number=5):
        return
    page = (ROOT / "docs/HIDE.md").read_text()
    recipe = RECIPE.search(page)
    cases.count("the page has a recipe for several machines", recipe)
    folder = place.folder / "hosts"
    (folder / "in").mkdir(parents=True)
    names = [f"{it} of.mp4" for it in range(7)]
    for at, name in enumerate(names):
        ffmpeg(folder, f"-i ../in.mp4 -c copy -metadata title={at} x.mp4")
        os.replace(folder / "x.mp4", folder / "in" / name)
    subprocess.run(["ssh-keygen", "-q", "-t", "ed25519", "-N", "", "-f", folder / "key"], check=True, stdin=subprocess.DEVNULL)
    hosts = [Host(folder, f"host{it}", (folder / "key.pub").read_text(), place) for it in range(3)]
    try:
        (folder / "hosts.txt").write_text("".join(f"{it.login(folder)}\n" for it in hosts))
        # (slow enough that the host is killed in the middle of a video)
        words = f'imgref-hide --cores 1 --sheet 0 --detector "sleep 1; {place.detector}"'
        quoted = recipe[1].replace("imgref-hide --cores 4", words) if recipe else "false"
        env = place.env | {"HOME": str(folder), "PARALLEL_HOME": str(folder / "parallel")}
        # (into a file: a connection that is kept open keeps a pipe)
        with open(folder / "said", "wb") as said:
            process = subprocess.Popen(["bash", "-c", quoted], cwd=folder, env=env, stdin=subprocess.DEVNULL, stdout=said, stderr=said, start_new_session=True)
        deadline = time.monotonic() + 90
        while time.monotonic() < deadline and process.poll() is None and not hosts[1].is_working():
            time.sleep(0.05)
        was_working = process.poll() is None and hosts[1].is_working()
        hosts[1].kill()
        cases.count("a host is killed while it covers a video", was_working, (folder / "said").read_text())
        process.wait(900)
        said = (folder / "said").read_text()
        place.run(folder, "in", "one", "--cores", "1", "--jobs", "3", "--sheet", "0", "--detector", place.detector, fake=False)
        same = [(folder / "out" / it).exists() and (folder / "out" / it).read_bytes() == (folder / "one" / it).read_bytes() for it in names]
        cases.count("all outputs are there, byte for byte those of one machine", process.returncode == 0 and all(same), f"{process.returncode} {same} {said[-3000:]}")
        due = {*names, *(f"{it[:-4]}.{more}" for it in names for more in ("boxes.txt", "covers.csv"))}
        cases.count("and none is half, or there twice", {it.name for it in (folder / "out").iterdir()} == due, str(sorted({it.name for it in (folder / "out").iterdir()} ^ due)))
        rest = [str(it) for host in (hosts[0], hosts[2]) for it in host.home.rglob("*.mp4")]
        cases.count("and the hosts that are left have no video", not rest, str(rest))
        again = subprocess.run(["bash", "-c", quoted], cwd=folder, env=env, stdin=subprocess.DEVNULL, stdout=subprocess.DEVNULL, stderr=subprocess.DEVNULL, timeout=600)
        jobs = [line.split("\t")[6] for line in (folder / "jobs.log").read_text().splitlines()[1:]]
        cases.count("started again it does nothing more", again.returncode == 0 and jobs.count("0") == len(names), str(jobs))
    finally:
        for it in hosts:
            it.kill()


# What makes in.npy, a picture of one run, and how many pixels of another one differ from those of out.pgm.
WHOLE = "import numpy, sys; a = numpy.load('in.npy'); b = a.astype('>u2' if a.itemsize == 2 else 'u1'); sys.stdout.buffer.write(b'P5\\n%d %d\\n%d\\n' % (a.shape[1], a.shape[0], 65535 if a.itemsize == 2 else 255) + b.tobytes())"
COMPARED = "import numpy, sys; made = sys.argv[1]; a = numpy.load(made) if made.endswith('.npy') else __import__('zarr').open_array(made, mode='r')[:]; b = numpy.frombuffer(open('out.pgm', 'rb').read()[-a.nbytes:], '>u2' if a.itemsize == 2 else 'u1').reshape(a.shape); print(a.shape, int((a != b).sum()))"


def beside_one_run(python, folder, env, edit, size, made):
    """The shape of the picture that Dask made of in.npy, and how many of its pixels aren't those of one run of imgref_frames."""
    one = f'{python} -c "$1" | imgref_frames {edit[0]} 0,0,{size} {edit[1]} > out.pgm'
    subprocess.run(["bash", "-c", one, "-", WHOLE], cwd=folder, env=env, check=True)
    return subprocess.run([python, "-c", COMPARED, made], cwd=folder, capture_output=True, text=True).stdout.strip()


def memory_of(process):
    """The memory that a process and all below it have for themselves, in bytes."""
    parents = {}
    for it in pathlib.Path("/proc").glob("[0-9]*/stat"):
        with contextlib.suppress(OSError):
            parents[int(it.parent.name)] = int(it.read_text().rpartition(")")[2].split()[1])
    total = 0
    for it in parents:
        at = it
        while at in parents and at != process:
            at = parents[at]
        if at == process:
            with contextlib.suppress(OSError, StopIteration):
                total += 1024 * int(next(line for line in pathlib.Path(f"/proc/{it}/status").read_text().splitlines() if line.startswith("RssAnon")).split()[1])
    return total


def by_dask(cases, place):
    """A picture by blocks is that of one run, also with a worker killed, and takes less memory than the picture has."""
    if cases.lacks("pictures by Dask", "python3-dask", "python3-distributed", "python3-numpy", number=6):
        return
    python, folder = python_with("dask.array, distributed, numpy"), place.folder / "dask"
    folder.mkdir()
    made = "import numpy; a = numpy.lib.format.open_memmap('in.npy', mode='w+', dtype=numpy.{kind}, shape=({high}, {wide})); [a.__setitem__(y, numpy.random.default_rng(y).integers(0, {most}, {wide})) for y in range({high})]; a.flush()"

    def run(*words, kill=False, memory=None):
        process = subprocess.Popen([python, ROOT / "examples/dask_tiles.py", "in.npy", "out.npy", *words], cwd=folder, env=place.env, stdin=subprocess.DEVNULL, stdout=subprocess.PIPE, stderr=subprocess.STDOUT, text=True)
        most, killed, said = 0, None, []
        reader = threading.Thread(target=lambda: said.append(process.stdout.read()))
        reader.start()
        ends = time.monotonic() + SECONDS
        while process.poll() is None:
            if time.monotonic() > ends:
                process.kill()
                said.append(f"it had not ended after {SECONDS} seconds")
            # (a block is written, so the workers have begun)
            if kill and not killed and read(folder / "out.npy.part")[128:].strip(b"\0"):
                workers = [int(it.parent.name) for it in pathlib.Path("/proc").glob("[0-9]*/cmdline") if b"spawn_main" in read(it) and is_below(int(it.parent.name), process.pid)]
                if len(workers) > 1:
                    killed = workers[-1]
                    with contextlib.suppress(OSError):
                        os.kill(killed, signal.SIGKILL)
            if memory is not None:
                most = max(most, memory_of(process.pid))
            time.sleep(0.05)
        reader.join()
        return process.returncode, "".join(said), most, killed

    for label, kind, most, edit, kill in (("means of tiles", "uint8", 256, ("means", "16,16"), False), ("a blur over the borders of blocks", "uint8", 256, ("blur", "7"), True), ("a mosaic of 16 bits", "uint16", 65536, ("mosaic", "8,4"), False)):
        subprocess.run([python, "-c", made.format(kind=kind, most=most, wide=1037, high=777)], cwd=folder, check=True)
        (folder / "out.npy").unlink(missing_ok=True)
        status, said, _, killed = run(*edit, "--block", "128", "--workers", "2", kill=kill)
        apart = beside_one_run(python, folder, place.env, edit, "1037,777", "out.npy")
        cases.count(f"Dask, {label}{', with a worker killed' if kill else ''}: as one run", status == 0 and apart == "(777, 1037) 0" and (killed or not kill), f"{status} {apart} {killed} {said[-2000:]}")
    # A picture of 900 MB, of zeros, so that its file takes no room before.
    (folder / "out.npy").unlink()
    head = "import numpy; numpy.lib.format.open_memmap('in.npy', mode='w+', dtype=numpy.uint8, shape=(30000, 30000))"
    subprocess.run([python, "-c", head], cwd=folder, check=True)
    status, said, most, _ = run("means", "10,10", "--block", "3000", "--workers", "2", memory=True)
    cases.count(f"Dask, a picture of 900 MB: at most {most // 1_000_000} MB of memory", status == 0 and 0 < most < 700_000_000 and (folder / "out.npy").stat().st_size == (folder / "in.npy").stat().st_size, said[-2000:])
    status, said, _, _ = run("means", "10,10", "--block", "3000")
    cases.count("an output that is there is refused", status == 1 and "is there already" in said, said)
    (folder / "out.npy").unlink()
    status, said, _, _ = run("means", "7,7", "--block", "3000")
    cases.count("tiles that a block cuts are refused", status == 1 and "whole ones" in said, said)


def by_zarr(cases, place):
    """A picture in a folder of zarr, also of chunks that no block has, becomes that of one run. So does one that begins or ends as a file
    of NumPy."""
    if cases.lacks("pictures of zarr by Dask", "python3-zarr", "python3-dask", "python3-distributed", "python3-numpy", number=7):
        return
    python, folder = python_with("dask.array, distributed, numpy, zarr"), place.folder / "zarr"
    folder.mkdir()
    made = "import numpy, sys, zarr; a = numpy.random.default_rng(5).integers(0, {most}, (377, 541)).astype('{kind}'); numpy.save('in.npy', a); z = zarr.open_array('in.zarr', mode='w', shape=a.shape, chunks=(100, 90), dtype=a.dtype); z[:] = a"

    def run(given, to, *words):
        return subprocess.run([python, ROOT / "examples/dask_tiles.py", given, to, *words, "--block", "128", "--workers", "2"], cwd=folder, env=place.env, stdin=subprocess.DEVNULL, capture_output=True, text=True, timeout=SECONDS)

    for kind, edit, ways in (("uint8", ("means", "16,16"), ("npy zarr", "zarr zarr")), ("uint8", ("blur", "7"), ("npy zarr", "zarr zarr")), ("uint16", ("mosaic", "8,4"), ("zarr zarr", "zarr npy"))):
        subprocess.run([python, "-c", made.format(kind=kind, most=256 if kind == "uint8" else 65536)], cwd=folder, check=True)
        for way in ways:
            given, to = (f"{name}.{ending}" for name, ending in zip(("in", "out"), way.split()))
            done = run(given, to, *edit)
            apart = beside_one_run(python, folder, place.env, edit, "541,377", to)
            cases.count(f"Dask, {edit[0]} of {kind}, {given} to {to}: as one run", done.returncode == 0 and apart == "(377, 541) 0", f"{done.returncode} {apart} {done.stdout[-2000:]}{done.stderr[-2000:]}")
            shutil.rmtree(folder / to) if to.endswith(".zarr") else (folder / to).unlink()
    (folder / "none.zarr").mkdir()
    words = ("none.zarr", "out.zarr/", "means", "16,16")
    done = run(*words)
    cases.count("a folder that is none of zarr is refused by name", done.returncode == 1 and done.stderr.startswith("none.zarr: ") and "Traceback" not in done.stderr and not [*folder.glob("out.zarr*")], done.stderr)


def read(path):
    with contextlib.suppress(OSError):
        return path.read_bytes()
    return b""


def is_below(process, top):
    while process > 1:
        if process == top:
            return True
        with contextlib.suppress(OSError):
            process = int(pathlib.Path(f"/proc/{process}/stat").read_text().rpartition(")")[2].split()[1])
            continue
        return False
    return False


def main():
    cases = Cases()
    for program in both_builds(cases, "imgref_frames")[:1]:
        missing = [it for it in ("ffmpeg", "ffprobe") if not shutil.which(it)]
        if missing:
            cases.skip("many videos", *missing, number=32)
            continue
        # (a host that is killed may still write while its folder is removed)
        with tempfile.TemporaryDirectory(ignore_cleanup_errors=True) as folder:
            place = Place(folder, program)
            encoded(folder, "in.mp4")
            all_of(cases, [lambda it=it: it(cases, place) for it in (by_hosts, by_dask, by_zarr, by_folder, by_signal)])
    return cases.end()


if __name__ == "__main__":
    sys.exit(main())
