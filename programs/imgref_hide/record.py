"""The record of --log: what was done, with what, and the sums of what was read and written."""
import datetime
import hashlib
import json
import os
import pathlib

from .running import Failure, Signals

BLOCK = 1 << 20


def sum_of(path):
    """The sha256 of a file, and its size."""
    digest, size = hashlib.sha256(), 0
    with open(path, "rb") as data:
        while block := data.read(BLOCK):
            Signals.look()
            digest.update(block)
            size += len(block)
    return {"name": shown(path), "bytes": size, "sha256": digest.hexdigest()}


def shown(path):
    """A path as text, where it may have bytes that are no UTF-8."""
    return os.fsencode(path).decode("utf-8", "backslashreplace")


def now():
    return datetime.datetime.now(datetime.timezone.utc).isoformat(timespec="seconds")


class Record:
    """What is known of a run so far. A run that failed has a record too, without an output."""

    def __init__(self, words):
        self.fields = {"command": [shown(it) for it in words], "began": now(), "status": "failed", "faults": [], "notes": []}

    def add(self, **fields):
        self.fields |= fields

    def fault(self, text):
        self.fields["faults"].append(shown(text))

    def note(self, text):
        self.fields["notes"].append(shown(text))

    def write(self, path):
        """Adds the record to a file, as one line of JSON."""
        self.fields["ended"] = now()
        try:
            with open(path, "a", encoding="utf-8") as kept:
                kept.write(json.dumps(self.fields, ensure_ascii=False) + "\n")
        except OSError as why:
            raise Failure(f"the record {path} can't be written: {why.strerror}") from None


def last(path):
    """The last record of a file, or nothing."""
    try:
        return json.loads(pathlib.Path(path).read_text().splitlines()[-1])
    except (OSError, ValueError, IndexError):
        return None
