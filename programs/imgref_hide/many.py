"""A folder of videos: each is covered by a process of its own, and a table says what became of it."""
import csv
import os
import pathlib
import subprocess
import sys
import tempfile
import time

from . import encoding, places, record, running
from .running import Failure, Signals

# The endings of names that are taken for videos.
VIDEOS = {*encoding.FORMATS, ".3gp", ".avi", ".flv", ".m2ts", ".mpeg", ".mpg", ".mts", ".mxf", ".ogv", ".ts", ".vob", ".wmv", ".y4m"}
HEAD = ("file", "frames", "boxes", "frames without a box", "status")
TABLE = "table.csv"
DONE, NOTHING = "done", "nothing found"
ENTRY = places.PACKAGE.parent / "imgref-hide"


def is_within(one, folder):
    return pathlib.Path(os.path.realpath(folder)) in (pathlib.Path(os.path.realpath(one)), *pathlib.Path(os.path.realpath(one)).parents)


def videos_of(folder):
    """The files below a folder that have the name of a video, and those that have not, by their paths below it."""
    found, others = [], []
    for at, folders, names in os.walk(folder):
        folders.sort()
        for name in sorted(names):
            path = pathlib.Path(at, name).relative_to(folder)
            (found if path.suffix.lower() in VIDEOS else others).append(path)
    return found, others


def output_of(path):
    """The name of an output below the folder. An ending that isn't written is followed by one that is."""
    return path if path.suffix.lower() in encoding.FORMATS else path.with_name(f"{path.name}.mp4")


def outputs_of(found):
    """The output of each video. Two with one output, or an output beside another's files, are refused."""
    outputs, taken = {}, {}
    for it in found:
        made = output_of(it)
        key = made.with_suffix("")
        if key in taken:
            raise Failure(f"{taken[key]} and {it} would write the same names: rename one")
        outputs[it], taken[key] = made, it
    return outputs


class Table:
    """The table: a row for each file, written again after each."""

    def __init__(self, path):
        self.path, self.rows = path, {}
        if path.exists():
            with open(path, newline="", errors="surrogateescape") as lines:
                self.rows = {it[0]: it for it in csv.reader(lines) if len(it) == len(HEAD) and tuple(it) != HEAD}

    def put(self, path, status, fields=None):
        fields = fields or {}
        self.rows[str(path)] = [str(path), *(str(fields.get(it, "")) for it in ("frames", "boxes", "frames_without_a_box")), status]
        self.write()

    def write(self):
        part = self.path.with_name(f".{self.path.name}.part")
        try:
            with open(part, "w", newline="", errors="surrogateescape") as lines:
                csv.writer(lines, lineterminator="\n").writerows([HEAD, *(self.rows[it] for it in sorted(self.rows))])
            os.replace(part, self.path)
        except OSError as why:
            raise Failure(f"the table {self.path} can't be written: {why.strerror}") from None

    def is_done(self, path, output):
        return self.rows.get(str(path), [""])[-1] == DONE and output.is_file()


def words_of(options, given, output, log):
    """The command for one file: what the user gave, without what is for many."""
    cores = options.cores_asked or max(1, options.cores // (options.jobs or 1))
    # (an output that isn't in the table as done is of another run, and is replaced)
    return [sys.executable, str(ENTRY), *options.given, "--quiet", "--force", f"--cores={cores}", f"--log={log}", "--", os.path.abspath(given), os.path.abspath(output)]


class Job:
    """A video that is being covered."""

    def __init__(self, options, path, output, work, number):
        self.path, self.log, self.said = path, work / f"{number}.log", work / f"{number}.said"
        output.parent.mkdir(parents=True, exist_ok=True)
        with open(self.said, "wb") as said:
            words = words_of(options, options.input / path, output, self.log)
            self.process = subprocess.Popen(words, stdin=subprocess.DEVNULL, stdout=said, stderr=said, start_new_session=True)

    def result(self):
        """The status for the table, and the record."""
        fields = record.last(self.log) or {}
        if self.process.returncode == 0 and fields.get("status") == DONE:
            return DONE, fields
        why = next(iter(fields.get("faults", [])), None) or self.said.read_text(errors="replace").strip().splitlines()[-1:] or "it failed"
        why = why if isinstance(why, str) else why[0]
        return NOTHING if "nothing was found" in why else f"failed: {why}", fields


def hide(options, progress):
    """Covers each video of a folder, and returns the status."""
    if options.output.exists() and not options.output.is_dir():
        raise Failure(f"{options.output} is no folder")
    if is_within(options.output, options.input) or is_within(options.input, options.output):
        raise Failure(f"{options.input} and {options.output} are one within the other: name a folder beside")
    if options.detector is None and options.find:
        places.frames_program()
    found, others = videos_of(options.input)
    if not found:
        raise Failure(f"in {options.input} no name has the ending of a video")
    outputs = outputs_of(found)
    try:
        options.output.mkdir(parents=True, exist_ok=True)
    except OSError as why:
        raise Failure(f"{options.output}: {why.strerror}") from None
    table = Table(options.output / TABLE)
    done = [it for it in found if not options.force and table.is_done(it, options.output / outputs[it])]
    for it in others:
        table.put(it, "left out: no video by its name")
    left = [it for it in found if it not in set(done)]
    if done:
        progress.note(f"{len(done)} of {len(found)} files are done already")
    with tempfile.TemporaryDirectory(prefix="imgref-hide-") as work:
        run(options, left, outputs, table, pathlib.Path(work), progress)
    return told(table, found, options, progress)


def run(options, left, outputs, table, work, progress):
    """Keeps so many files going at a time. A signal ends all."""
    waiting, running_now, number, ended = list(left), [], 0, 0
    try:
        while waiting or running_now:
            Signals.look()
            while waiting and len(running_now) < (options.jobs or 1):
                path, number = waiting.pop(0), number + 1
                running_now.append(Job(options, path, options.output / outputs[path], work, number))
            for it in [it for it in running_now if it.process.poll() is not None]:
                running_now.remove(it)
                status, fields = it.result()
                ended += 1
                table.put(it.path, status, fields)
                if options.log and fields:
                    add(options.log, it.log)
                progress.note(f"{ended} of {len(left)}: {it.path}: {status}" + (f", {fields['frames']} frames, {fields['frames_without_a_box']} without a box" if status == DONE else ""))
            time.sleep(running.LOOK)
    finally:
        end([it.process for it in running_now])


def end(processes):
    """Ends what runs by SIGTERM, by which each ends its own children and removes what it wrote."""
    for it in processes:
        if it.poll() is None:
            it.terminate()
    deadline = time.monotonic() + 3 * running.PATIENCE
    for it in processes:
        try:
            it.wait(max(0.1, deadline - time.monotonic()))
        except subprocess.TimeoutExpired:
            it.kill()
            it.wait()


def add(log, one):
    """Adds the record of a file to that of all."""
    try:
        with open(log, "a", encoding="utf-8") as kept:
            kept.write(one.read_text(encoding="utf-8"))
    except OSError as why:
        raise Failure(f"the record {log} can't be written: {why.strerror}") from None


def told(table, found, options, progress):
    """The last line, and the status: 0 where each video is covered."""
    states = [table.rows.get(str(it), [""])[-1] for it in found]
    done, nothing = states.count(DONE), states.count(NOTHING)
    text = f"{done} of {len(found)} videos are covered, in {nothing} nothing was found, {len(found) - done - nothing} failed. {options.output / TABLE} has them all"
    progress.note(text)
    return 0 if done == len(found) else 1
