#!/usr/bin/env python3
"""Times the calls and the script program and compares them with plain loops and calls, and the video program with `cat`.

    bench.py [--rounds N] [--sides N,..] [--pixels N] [--commands N] [--frames N] [--beside PROGRAM] [--crate FOLDER] [--video] [--write]
    bench.py --others [--write]    only the package for Python beside OpenCV and NumPy

First it proves and builds what has changed: the script program, the library for C, and the crate bench_exports. The runs of
what is compared are interleaved, and the least time of each counts. The calls are timed in several builds that differ only in
where their code lies in memory: a difference smaller than the spread over these builds tells nothing. The video program is timed where it is built
(`make frames`); --video builds it. So does --write, which also puts the tables into docs/PERFORMANCE.md and bench/tables.md,
and the plot into docs/speed.svg: use it on an idle machine. CC names the C compiler (cc). With a rustc the loops in Rust are
timed too, and, with a FOLDER that has the sources of the original crate, its calls. PROGRAM is another script program, for
example one that was built from an earlier state: its runs are interleaved with those of this one. The package for Python is timed
beside OpenCV and NumPy where they are there.
"""
import argparse
import os
import pathlib
import random
import re
import shutil
import signal
import subprocess
import sys
import tempfile
import time
import traceback
import zipfile

import c_library
import python_package
from c_library import Failure, command, compiler, shift, toolchain
from needs import python_with
from processes import end_on_signals, end_on_signals_too, run_to_end, started, unbroken
from program import built, say
from speed_tables import SHOWN, Call, call_tables, calls_shown, frames_table, others_table, plot, script_table
from workspace import ROOT, is_proved, product

OUT = ROOT / "out/bench"
PAGE, TABLES, PLOT = ROOT / "docs/PERFORMANCE.md", ROOT / "bench/tables.md", ROOT / "docs/speed.svg"
BEGIN, END = "<!-- table of make bench -->", "<!-- end of the table -->"
OTHERS, OTHERS_END = "<!-- table beside OpenCV and NumPy -->", "<!-- end of that table -->"
# The sides and the bytes of a pixel of that table which docs/PERFORMANCE.md shows.
OTHERS_SIDES, OTHERS_BYTES = (64, 512, 2048), (1, 3, 4)
# The processor that rt builds for, which rustc is told too.
RUST = ["rustc", "--edition", "2021", "-C", "opt-level=3", "-C", "target-cpu=x86-64-v2", "-C", "panic=abort", "-C", "codegen-units=1"]
# How often each program runs on each script and each video.
RUNS = 7
# The builds in which the calls are timed: the code of each lies 16 bytes after that of the one before it.
BUILDS = 5
# How many bytes the planes of a frame have: 1920 by 1080 of brightness, and half as many of chroma.
CELLS = 1920 * 1080 * 3 // 2
# The same of a picture in colour, and the header before it.
HEAD, COLOURS = b"P6\n1920 1080\n255\n", 1920 * 1080 * 3
EDITS = ("fill 64,48,320,160 16", "mosaic 64,48,320,160 16,16", "move 64,48,320,160 800,400", "crop 320,180,1280,720", "pad 0,60,0,60 16")
# ffmpeg's filters that do the same to each frame, and ffmpeg with one of them on one thread.
FILTERS = {EDITS[0]: "drawbox=x=64:y=48:w=320:h=160:color=black:t=fill", EDITS[3]: "crop=1280:720:320:180", EDITS[4]: "pad=1920:1200:0:60:color=black"}
FFMPEG = "ffmpeg -v error -nostdin -threads 1 -filter_threads 1 -f yuv4mpegpipe -i - -vf {} -threads 1 -c:v rawvideo -f rawvideo -"


def carry_out(task):
    """Runs a task in a process that was just forked, and ends that process."""
    status = 1
    try:
        os.setpgrp()
        end_on_signals_too()
        task()
        status = 0
    except Failure as why:
        say(str(why))
    except BaseException:
        traceback.print_exc()
    finally:
        os._exit(status)


def apart(failing, task):
    """Runs a task in a process of its own, so that this process stays small. The most memory of a program is at least that of
    the process that starts it."""
    child = None
    try:
        with unbroken():
            child = os.fork()
            if not child:
                carry_out(task)
        status = os.waitpid(child, 0)[1]
    except KeyboardInterrupt:
        if child:
            os.kill(child, signal.SIGTERM)
            os.waitpid(child, 0)
        raise
    if status:
        raise Failure(failing)


def rust(crate):
    """The archive of the loops in Rust, and of the crate's calls where its sources are there; nothing where there is no rustc."""
    if not shutil.which("rustc"):
        say("no rustc: the columns for Rust stay empty")
        return []
    beside = []
    if crate:
        command(*RUST, "--cap-lints", "allow", "--crate-type", "rlib", "--crate-name", "imgref", "--cfg", 'feature="deprecated"', "-o", OUT / "libimgref.rlib", crate / "src/lib.rs")
        beside = ["--cfg", "beside_crate", "--extern", f"imgref={OUT / 'libimgref.rlib'}"]
    else:
        say("no --crate FOLDER with the sources of the Rust crate: its column stays empty")
    command(*RUST, "--crate-type", "staticlib", *beside, "-o", OUT / "libspeed.a", ROOT / "bench/speed.rs")
    # (all references to these are weak, so the linker is told that one of them is needed)
    return ["-Wl,-u,rust_u8_fill", OUT / "libspeed.a"]


def make(crate, speed, numbers, with_video):
    """Builds all that is timed: the C side, the plain program, and what they are compared with."""
    OUT.mkdir(parents=True, exist_ok=True)
    if built("imgref_run", *["imgref_frames"] * with_video, c_library.NAME, "bench_exports"):
        raise Failure("what is timed is not proved")
    c_library.build()
    ours = [*rust(crate), product("bench_exports"), ROOT / "out/c/libimgref.a", *toolchain()]
    for k in range(BUILDS):
        command(*compiler(), "-O2", f"-I{ROOT / 'include'}", "-o", f"{speed}{k}", shift(OUT / "shift.s", k), ROOT / "bench/speed.c", *ours, "-lpthread", "-ldl", "-lm")
    command(*compiler(), "-O2", "-o", numbers, ROOT / "bench/numbers.c")


def calls_of(build, speed, rounds, sides):
    """The rows that the C side of a build writes: the call, the cell and the side, and then the call's time and the times of what it
    is compared with."""
    rows = []
    with started([speed, str(rounds), *map(str, sides)], stdout=subprocess.PIPE, text=True) as ran:
        for line in ran.stdout:
            name, cell, side, *times = line.rstrip("\n").split("\t")
            rows.append(((name, {"1": "u8", "4": "u32"}[cell], int(side)), [float(it) for it in times]))
            if sys.stderr.isatty():
                say(f"\rbuild {build + 1} of {BUILDS}, {len(rows)} calls: {name:40}", end="")
    if ran.returncode:
        raise Failure("the C side of the benchmark failed")
    say(f"\rbuild {build + 1} of {BUILDS}: {len(rows)} calls{'':40}")
    return rows


def calls(speed, rounds, sides):
    """Each call, timed in each build."""
    builds = [calls_of(k, f"{speed}{k}", rounds, sides) for k in range(BUILDS)]
    found = []
    for rows in zip(*builds):
        times = [it for _, it in rows]
        quotients = [[it[0] / it[k] for it in times if it[k]] for k in range(1, len(times[0]))]
        found.append(Call(*rows[0][0], min(it[0] for it in times), quotients))
    return found


def pixels(count):
    """The text of an image of random bytes, 1000 pixels wide at a stride of 1003."""
    height = max(1, (count - 1000) // 1003 + 1)
    made = random.Random(7)
    return f"image 1000 {height} 1003 " + " ".join(map(str, made.randbytes(1003 * (height - 1) + 1000))) + "\n"


def commands(count):
    """The text of four small images, and of as many commands: half of them get a pixel and half put one, through two windows."""
    chance = random.Random(7)
    lines = [f"image 8 8 9 {' '.join(map(str, chance.randbytes(71)))}" for _ in range(4)]
    for _ in range(count // 2):
        lines.append(f"get {chance.randrange(4)} {chance.randrange(3)},1,5,6/1,{chance.randrange(3)},3,4 {chance.randrange(3)} {chance.randrange(4)}")
        lines.append(f"put {chance.randrange(4)} {chance.randrange(3)},1,5,6/1,{chance.randrange(3)},3,4 {chance.randrange(3)} {chance.randrange(4)} {chance.randrange(256)}")
    return "\n".join([*lines, ""])


def video(count):
    """A video of so many frames of 1920 by 1080, all of the same random bytes."""
    frame = b"FRAME\n" + random.Random(7).randbytes(CELLS)
    return b"YUV4MPEG2 W1920 H1080 F25:1 C420\n" + frame * count


def pictures(count):
    """So many pictures in colour of 1920 by 1080, all of the same random bytes."""
    return (HEAD + random.Random(7).randbytes(COLOURS)) * count


def written(source, text, count):
    """Writes the text of a script or a video in a process of its own, and returns its number of bytes."""

    def write():
        made = text(count)
        source.write_bytes(made if isinstance(made, bytes) else made.encode())

    apart(f"{source} can't be written", write)
    return source.stat().st_size


def run(program, source):
    """The processor time of one run in seconds, from a file to a file, and its most memory in bytes."""
    with open(source) as given, tempfile.TemporaryFile(dir=OUT) as taken:
        with started([program], stdin=given, stdout=taken) as process:
            _, status, used = os.wait4(process.pid, 0)
            process.returncode = os.waitstatus_to_exitcode(status)
    if process.returncode:
        raise Failure(f"{program} ended with status {process.returncode}")
    return used.ru_utime + used.ru_stime, 1024 * used.ru_maxrss


def scripts(numbers, beside, asked):
    """A row for each script: its name and its bytes, the time and the memory of the program, and two other times: that of the
    plain one in C, which knows no commands, and that of another script program."""
    for name, text, count, plain in (("pixels", pixels, asked.pixels, [numbers]), ("commands", commands, asked.commands, [])):
        source = OUT / f"{name}.script"
        size = written(source, text, count)
        each = [product("imgref_run"), *plain, *([beside] if beside else [])]
        runs = [[run(it, source) for it in each] for _ in range(RUNS)]
        least = [min(times[k][0] for times in runs) for k in range(len(each))]
        memory = [min(times[k][1] for times in runs) for k in range(len(each))]
        yield name, size, least[0], memory[0], least[1] if plain else 0, least[-1] if beside else 0


def passed(source, words):
    """The wall time in seconds that a video takes through a pipe from `cat` to `cat`, with a command between them."""
    began = time.monotonic()
    with started(["cat", source], stdout=subprocess.PIPE) as first:
        with started(words, stdin=first.stdout, stdout=subprocess.PIPE) as between:
            with started(["cat"], stdin=between.stdout, stdout=subprocess.DEVNULL) as last:
                first.stdout.close()
                between.stdout.close()
                last.wait()
    if between.returncode:
        raise Failure(f"{words[0]} ended with status {between.returncode}")
    return time.monotonic() - began


def frames_rows(count):
    """A row for each edit: the input, the edit, the frames or pictures a second, and the speeds relative to what passes them on
    in its place: `cat`, `dd`, which reads a whole one before it writes it, and ffmpeg with its own filter (None without one)."""
    for name, text, size in (("frames", video, CELLS + len("FRAME\n")), ("pictures in colour", pictures, COLOURS + len(HEAD))):
        source = OUT / "frames"
        written(source, text, count)
        filters = FILTERS if text is video and shutil.which("ffmpeg") else {}
        each = {it: [product("imgref_frames"), *it.split()] for it in EDITS} | {it: FFMPEG.format(it).split() for it in filters.values()}
        each |= {"cat": ["cat"], "dd": ["dd", f"bs={size}", "iflag=fullblock", "status=none"]}
        runs = [{it: passed(source, words) for it, words in each.items()} for _ in range(RUNS)]
        source.unlink()
        least = {it: min(times[it] for times in runs) for it in each}
        for edit in EDITS:
            yield name, edit, count / least[edit], *(least[it] / least[edit] if it else None for it in ("cat", "dd", filters.get(edit)))


def others():
    """The package for Python beside OpenCV and NumPy: the tables of some sides and of all. Nothing where a Python lacks them."""
    python = python_with("cv2, numpy")
    if not python:
        say("no Python with OpenCV and NumPy: their table is left out")
        return None
    shutil.rmtree(OUT / "package", ignore_errors=True)
    with zipfile.ZipFile(python_package.build(python)) as wheel:
        wheel.extractall(OUT / "package")
    before = os.getloadavg()[0]
    ran = run_to_end([python, "-B", ROOT / "bench/beside.py"], env=os.environ | {"PYTHONPATH": str(OUT / "package")})
    if ran.returncode:
        raise Failure(f"bench/beside.py failed:\n{ran.stdout}{ran.stderr}")
    first, *lines = (it.split("\t") for it in ran.stdout.splitlines())
    measured = f"Measured on {commit()}, {time.strftime('%Y-%m-%d')}, beside {' '.join(first)}. Load average over a minute before the timing: {before:.2f}, after it: {os.getloadavg()[0]:.2f}."
    rows = [(name, int(channels), int(side), time, quotient) for name, channels, side, time, quotient in lines]
    shown = [it for it in rows if it[1] in OTHERS_BYTES]
    return [f"{measured}\n\n{table}" for table in (others_table(shown, OTHERS_SIDES, False), others_table(rows, sorted({it[2] for it in rows})))]


def first_line(*words):
    """The first line that a command prints, or that it isn't there."""
    return command(*words).splitlines()[0] if shutil.which(words[0]) else f"no {words[0]}"


def commit():
    """The commit that is timed, where git knows one, and whether the crates differ from it."""
    if not shutil.which("git") or not (ROOT / ".git").exists():
        return "no commit"
    differs = command("git", "-C", ROOT, "status", "--porcelain", "--", "crates", "crates.txt")
    return f"commit `{first_line('git', '-C', ROOT, 'rev-parse', '--short', 'HEAD')}`{' with changes' if differs else ''}"


def conditions(rounds):
    """What the figures depend on, as a list: the commit, the date, the processor, the compilers, and the load before the timing."""
    processor = re.search(r"model name\s*: (.*)", pathlib.Path("/proc/cpuinfo").read_text())
    return (
        f"- Measured on {commit()}, {time.strftime('%Y-%m-%d')}. Processor: {processor.group(1) if processor else 'unknown'}, {os.cpu_count()} logical cores.\n"
        f"- C: {first_line(*compiler(), '--version')}. Rust: {first_line('rustc', '--version')}. Rattle: {first_line('rt', 'version')}.\n"
        f"- Rounds: {rounds} in each of {BUILDS} builds. Load average over a minute before the timing: {os.getloadavg()[0]:.2f}"
    )


def report(asked, sides, numbers, with_video):
    """Times all that was built: the calls, what the figures depend on, and the tables of the programs."""
    before = conditions(asked.rounds)
    rows = calls(OUT / "speed", asked.rounds, sides)
    programs = [script_table([*scripts(numbers, asked.beside, asked)], bool(asked.beside))]
    if with_video:
        programs.append(frames_table([*frames_rows(asked.frames)]))
    else:
        say("the video program isn't built: `make frames` or --video times it too")
    return rows, f"{before}, after it: {os.getloadavg()[0]:.2f}.", programs


def with_tables(page, text, begin=BEGIN, end=END):
    """A page with this text in the place of the one between its marks."""
    return re.sub(f"{begin}.*{end}", lambda _: f"{begin}\n{text}\n{end}", page, flags=re.DOTALL)


def beside_others(writes):
    """Times the package beside the others, and puts the tables into the documents where that is wanted."""
    tables = others()
    if tables:
        print(tables[1])
        for page, table in zip((PAGE, TABLES), tables) if writes else ():
            page.write_text(with_tables(page.read_text(), table, OTHERS, OTHERS_END))


def write(rows, sides, measured, programs):
    """Puts what was timed into the documents."""
    PAGE.write_text(with_tables(PAGE.read_text(), "\n\n".join([measured, calls_shown(rows), *programs])))
    TABLES.write_text(with_tables(TABLES.read_text(), "\n\n".join([measured, call_tables(rows, sides)])))
    PLOT.write_text(plot(rows, sides))
    say(f"written: {', '.join(str(it.relative_to(ROOT)) for it in (PAGE, TABLES, PLOT))}")


def main():
    options = argparse.ArgumentParser(description=__doc__.split("\n")[0])
    options.add_argument("--rounds", type=int, default=160)
    options.add_argument("--sides", default="16,64,512,2048")
    options.add_argument("--pixels", type=int, default=4_000_000)
    options.add_argument("--commands", type=int, default=400_000)
    options.add_argument("--frames", type=int, default=100)
    options.add_argument("--beside", metavar="PROGRAM")
    options.add_argument("--crate", metavar="FOLDER", type=pathlib.Path)
    options.add_argument("--video", action="store_true")
    options.add_argument("--others", action="store_true")
    options.add_argument("--write", action="store_true")
    asked = options.parse_args()
    sides = [int(it) for it in asked.sides.split(",")]
    if asked.write and not {*SHOWN} <= {*sides}:
        options.error(f"--write needs the sides {SHOWN}")
    if asked.others:
        OUT.mkdir(parents=True, exist_ok=True)
        return beside_others(asked.write)
    began = time.time()
    with_video = asked.video or asked.write or is_proved("imgref_frames")
    speed, numbers = OUT / "speed", OUT / "numbers"
    apart("the programs to time can't be built", lambda: make(asked.crate, speed, numbers, with_video))
    began_timing = time.time()
    rows, measured, programs = report(asked, sides, numbers, with_video)
    print("\n\n".join([measured, call_tables(rows, sides), *programs]))
    (OUT / "speed.svg").write_text(plot(rows, sides))
    say(f"{time.time() - began:.0f} s in all, {time.time() - began_timing:.0f} s of it timing; the plot is {(OUT / 'speed.svg').relative_to(ROOT)}")
    if asked.write:
        write(rows, sides, measured, programs)
    beside_others(asked.write)


if __name__ == "__main__":
    end_on_signals()
    try:
        main()
    except Failure as why:
        sys.exit(str(why))
    except KeyboardInterrupt:
        sys.exit("interrupted")
