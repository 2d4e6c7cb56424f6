"""One video: all that can fail is checked, then boxes are found, covered and shown on a sheet. What fails leaves nothing."""
import os
import pathlib
import re
import shutil
import tempfile
from fractions import Fraction

from . import encoding, lists, paths, places, probing, record, running
from .running import Counter, Failure, Step, pipe

# The detectors' picture: in it the least face that is asked for has so many pixels.
SMALLEST = 32
# So many frames are tried before all others, and so many seconds of the sound.
TRIED, TRIED_SOUND = 2, "0.2"


class Run:
    """A run over one video, in a folder of its own beside the output."""

    def __init__(self, options, kept, progress):
        self.options, self.kept, self.progress = options, kept, progress
        self.names = paths.Names(options.output)
        self.program = self.python = self.painter = self.plan = self.work = self.frames = None
        self.boxes, self.edits = 0, []

    def needs_detector(self):
        """Whether the detectors of OpenCV are needed."""
        return not (self.options.again or self.options.list or self.options.detector)

    def prepare(self):
        """Checks all that can be known before the video is looked at."""
        places.needed("ffmpeg", "ffprobe")
        self.program = places.frames_program()
        paths.check_paths(self.options, self.names)
        if self.needs_detector():
            self.python = places.python_with("cv2, numpy", "python3-opencv")
        if self.options.sheet:
            self.painter = places.python_with("PIL.Image, PIL.ImageDraw, numpy", "python3-pil python3-numpy")
        self.kept.add(versions=places.versions(self.program, self.python))
        video = probing.probe(self.options.input, self.options.damaged)
        self.plan = encoding.plan(video, self.options)
        paths.check_room(self.options, self.names, video)
        for it in self.plan.notes:
            self.say(it)

    def say(self, text):
        self.kept.note(text)
        self.progress.note(text)

    def attempt(self):
        """Covers and encodes the first frames, so that what would fail at the end fails now."""
        if self.needs_detector():
            pipe([Step("the detector", [self.python, *self.finder(), "--check"])], self.work)
        self.edits = lists.edits_of(self.work, self.options)
        (self.work / "boxes.txt").write_text("1,1,0,0,8,8\n")
        words = lists.ready(self.work, self.options, None, None)[1]
        # (a range that comes later isn't reached here, and that is only a note)
        covering = [self.program, *words, *self.edits]
        raw, written = self.plan.raw("-frames:v", str(TRIED)), self.plan.written("try", "-t", TRIED_SOUND)
        pipe([Step("ffmpeg can't decode the input, and", raw), Step("imgref_frames", covering), Step("ffmpeg can't encode the output, and", written)], self.work)
        self.attempt_strict([self.program, "--strict", *words, *self.edits])
        for it in ("try", "boxes.txt", "covered.txt"):
            (self.work / it).unlink(missing_ok=True)

    def attempt_strict(self, covering):
        """Refuses edits that may show what a later one hides. A range that comes later is no fault here."""
        try:
            pipe([Step("ffmpeg", self.plan.raw("-frames:v", str(TRIED))), Step("imgref_frames", covering)], self.work)
        except Failure as why:
            if "fault range" not in str(why) or "fault cover" in str(why):
                raise

    def finder(self):
        """The words of the detector without its Python."""
        options = self.options
        words = [str(places.PACKAGE / "finding.py"), "--find", options.find, "--every", str(options.every), "--cores", str(options.cores)]
        words += ["--model", os.path.abspath(options.model)] if options.model else []
        return words + ([f"--min-score={options.min_score}"] if options.min_score is not None else [])

    def find(self):
        """Writes boxes.txt, the list of what is to be covered."""
        options, (width, height) = self.options, (self.plan.width, self.plan.height)
        if options.again:
            shutil.copyfile(self.names.boxes, self.work / "boxes.txt")
            return
        if options.list and not options.detector:
            lists.converted(os.path.abspath(options.list), self.work, options, (width, height))
            return
        counter = Counter()
        total = self.plan.video.frames(self.plan.rate)
        self.progress.begin("detecting", total)
        if options.detector:
            steps = [Step("ffmpeg", self.plan.raw(*counter.words())), Step("the detector", options.detector, shell=True, folder=os.getcwd())]
            pipe(steps, self.work, "found.txt", counter, self.progress)
        else:
            scale = min(1.0, SMALLEST / options.least)
            least = ["--smallest", str(round(options.least * scale * 0.85))]
            wide, high = (max(2, round(it * scale / 2) * 2) for it in (width, height))
            smaller = [f"scale={wide}:{high}:flags=area"] if (wide, high) != (width, height) else []
            raw = self.plan.raw(*counter.words(), filters=smaller, pixels="yuv420p" if options.model else "gray")
            steps = [Step("ffmpeg", raw), Step("the detector", [self.python, *self.finder(), *least, "--size", f"{width}x{height}"])]
            pipe(steps, self.work, "boxes.txt", counter, self.progress)
        self.frames = counter.end()
        self.progress.end(self.frames)
        if options.detector:
            lists.converted(os.path.abspath(options.list) if options.list else self.work / "found.txt", self.work, options, (width, height))
            lists.say_count(self.work, self.frames)

    def count(self):
        """Counts the frames of the raw video, where no detector has read it."""
        counter = Counter()
        self.progress.begin("counting", self.plan.video.frames(self.plan.rate))
        pipe([Step("ffmpeg", self.plan.raw(*counter.words()))], self.work, None, counter, self.progress)
        return counter.end()

    def cover(self):
        """Covers what the list has, and encodes it."""
        self.boxes, words = lists.ready(self.work, self.options, (self.plan.width, self.plan.height), self.say)
        if not words and not self.edits:
            raise Failure(f"nothing was found in {self.options.input}, so nothing would be covered")
        listed = lists.boxes_of(self.work / "boxes.txt")[0]
        if self.frames is None:
            self.frames = listed if listed is not None and self.options.again else self.count()
        if listed not in (None, self.frames):
            raise Failure(f"the list is of {listed} frames, and the video has {self.frames}")
        lists.check_frames(self.work, self.frames)
        lists.say_count(self.work, self.frames)
        counter = Counter()
        self.progress.begin("covering", self.frames)
        covering = [self.program, "--strict", "--frames", str(self.frames), *words, *self.edits, "--report", "covers.csv"]
        steps = [Step("ffmpeg", self.plan.raw()), Step("imgref_frames", covering), Step("ffmpeg, which encodes,", self.plan.written("video", *counter.words()))]
        pipe(steps, self.work, None, counter, self.progress)
        frames = counter.end()
        if self.frames != frames:
            raise Failure(f"{frames} frames were written, and the list is of {self.frames}")
        self.progress.end(frames)

    def check_output(self):
        """Refuses an output that has more than video and sound."""
        left = probing.left_in(self.work / "video")
        self.kept.add(left_in_the_output=left)
        if found := [*encoding.foreign(left)]:
            raise Failure(f"the output would have {'; '.join(found)}")

    def paint(self):
        """Makes the sheet."""
        decode = ["ffmpeg", "-v", "error", "-nostdin", "-i", "video", "-map", "0:v:0", "-vsync", "passthrough", "-strict", "-1", "-f", "yuv4mpegpipe", "-"]
        sheets = [self.painter, str(places.PACKAGE / "sheets.py"), "covers.csv", "sheet.png", str(self.frames), str(self.options.sheet)]
        self.progress.note("making the sheet")
        pipe([Step("ffmpeg", decode), Step("the sheet", sheets)], self.work)

    def put(self):
        """Gives all files their names. Sheets of an earlier run go."""
        with open(self.work / "video", "rb") as made:
            os.fsync(made.fileno())
        stem = self.names.sheet.stem
        for it in self.names.sheet.parent.iterdir():
            if it == self.names.sheet or re.fullmatch(re.escape(stem) + r"-\d+\.png", it.name):
                it.unlink()
        os.replace(self.work / "video", self.names.output)
        os.replace(self.work / "boxes.txt", self.names.boxes)
        os.replace(self.work / "covers.csv", self.names.report)
        for it in self.work.glob("sheet*.png"):
            os.replace(it, self.names.sheet.with_name(it.name.replace("sheet", stem, 1)))

    def summary(self):
        """What the last line says, and the record."""
        bare = lists.bare(lists.covered_frames(self.names.report), self.frames)
        without = sum(last - first + 1 for first, last in bare)
        longest = max(bare, key=lambda it: it[1] - it[0], default=None)
        rate = Fraction(self.plan.rate)
        self.kept.add(
            status="done", frames=self.frames, boxes=self.boxes, frames_without_a_box=without, hold=self.options.hold, margin=self.options.margin_text,
            input=record.sum_of(self.options.input), list=record.sum_of(self.names.boxes), report=record.sum_of(self.names.report), output=record.sum_of(self.names.output),
        )  # fmt: skip
        text = f"{self.names.output}: {self.frames} frames, {without} without a box"
        if longest:
            first, last = longest
            text += f", the longest stretch {lists.time_of(first - 1, rate)}..{lists.time_of(last, rate)} ({last - first + 1} frames)"
            self.kept.add(longest_stretch=[first, last])
        return text + (f". Look at {self.names.sheet}" if self.options.sheet else "")

    def go(self):
        """Does all of it, and returns the last line."""
        self.prepare()
        try:
            self.work = pathlib.Path(tempfile.mkdtemp(prefix=".imgref-hide-", dir=self.names.output.parent)).absolute()
        except OSError as why:
            raise Failure(f"in the folder {self.names.output.parent} nothing can be written: {why.strerror}") from None
        try:
            self.attempt()
            self.find()
            self.cover()
            self.check_output()
            if self.options.sheet:
                self.paint()
            running.Signals.look()
            self.put()
        except OSError as why:
            raise Failure(f"{why.filename or self.names.output}: {why.strerror}") from None
        finally:
            shutil.rmtree(self.work, ignore_errors=True)
        return self.summary()


def hide(options, kept, progress):
    """Hides what is found in one video, and returns the last line. Where that fails nothing is left, and the record says why."""
    paths.check_log(options)
    try:
        return Run(options, kept, progress).go()
    except (Failure, running.Interrupted) as why:
        kept.fault(str(why))
        raise
    finally:
        if options.log:
            kept.write(options.log)
