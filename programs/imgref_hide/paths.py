"""The files of a run: what may be read and written is checked before anything is done."""
import contextlib
import os
import shutil
import signal
import sys

from . import encoding, running
from .running import Failure

# Besides what the output takes, so many bytes must be free on the disk.
SPARE = 20_000_000


class Names:
    """The files that are written: the output, and beside it the list, the report and the sheet."""

    def __init__(self, output):
        if not output.name:
            raise Failure(f"{output} is a folder: name a file in it")
        self.output = output
        self.boxes, self.report, self.sheet = (output.with_name(f"{output.stem}.{it}") for it in ("boxes.txt", "covers.csv", "sheet.png"))

    def others(self):
        return [self.boxes, self.report, self.sheet]


def is_same(one, other):
    with contextlib.suppress(OSError):
        return os.path.samefile(one, other)
    return os.path.abspath(one) == os.path.abspath(other)


def check_paths(options, names):
    """Refuses paths that can't be read or written, before anything is read."""
    made = options.list if options.detector else None
    if made is not None and not options.force and (os.path.isfile(made) or os.path.isdir(made) and os.listdir(made)):
        raise Failure(f"{made} is there already, and the detector would write it: --force uses it")
    for it in (options.input, options.edits, options.model, options.list if made is None else None):
        if it is not None and not os.path.exists(it):
            raise Failure(f"{it} isn't there")
        if it is not None and not os.access(it, os.R_OK):
            raise Failure(f"{it} can't be read: permission denied")
    if os.path.isdir(options.input):
        raise Failure(f"{options.input} is a folder: name a folder for the output too")
    if os.path.isdir(names.output):
        raise Failure(f"{names.output} is a folder: name a file in it")
    folder = names.output.parent
    if not folder.is_dir():
        raise Failure(f"the folder {folder} isn't there")
    if not os.access(folder, os.W_OK | os.X_OK):
        raise Failure(f"in the folder {folder} nothing can be written: permission denied")
    for it in (names.output, *names.others()):
        for given in (options.input, options.edits, options.model, options.list):
            if given is not None and is_same(it, given):
                raise Failure(f"{it} would be written, and is read too: name another output")
    if options.again and not names.boxes.is_file():
        raise Failure(f"{names.boxes} isn't there: --again needs the list of an earlier run")
    encoding.form_of(names.output)
    there = [it for it in (names.output, *names.others()) if os.path.lexists(it)]
    if there and not options.force and not options.again:
        ask(there)


def ask(there):
    """Asks whether files are to be replaced. Where nobody can be asked they aren't."""
    if not sys.stdin.isatty() or not sys.stderr.isatty():
        raise Failure(f"{there[0]} is there already: --force replaces it")
    print(f"{', '.join(map(str, there))} {'is' if len(there) == 1 else 'are'} there already. Replace? [y/N] ", end="", file=sys.stderr, flush=True)
    # (here Ctrl-C must end the wait for a line)
    before = signal.signal(signal.SIGINT, signal.default_int_handler)
    try:
        if sys.stdin.readline().strip().lower() not in ("y", "yes"):
            raise Failure("nothing was written")
    except KeyboardInterrupt:
        raise running.Interrupted(signal.SIGINT) from None
    finally:
        signal.signal(signal.SIGINT, before)


def check_room(options, names, video):
    """Refuses where the disk has less room than the input takes."""
    free, due = shutil.disk_usage(names.output.parent).free, video.size + SPARE
    if free < due and not options.ignore_room:
        raise Failure(f"the disk of {names.output.parent} has {free // 1_000_000} MB free, and the output may take {due // 1_000_000} MB: --ignore-room tries it")


def check_log(options):
    """Refuses a record that can't be written, or that is another file of the run: a record is added to what is there."""
    if not options.log:
        return
    names = Names(options.output)
    for it in (options.input, options.edits, options.model, options.list, names.output, *names.others()):
        if it is not None and is_same(options.log, it):
            raise Failure(f"{options.log} can't be the record, since the run reads or writes it")
    if not options.log.parent.is_dir():
        raise Failure(f"the folder {options.log.parent} isn't there")
    if options.log.exists() and not (options.log.is_file() and is_record(options.log)):
        raise Failure(f"{options.log} is there, and no record: name another file")


def is_record(path):
    """Whether a file has records alone, or nothing."""
    with contextlib.suppress(OSError), open(path, "rb") as lines:
        return lines.read(1) in (b"", b"{")
    return False
