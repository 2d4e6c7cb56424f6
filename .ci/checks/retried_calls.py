#!/usr/bin/env python3
"""Shows that the tests refuse what the contracts of `Retried` accept: a call that ends at one interruption, an error of another
kind, and a flush that never reaches the device.

A contract says which errors a call may end with, and not that it may only end with the device's own. The tests are first run as
they are, in a room (tools/workspace.py), and must pass. Then a bug is planted at the head of each call, and the test of each must fail.
"""
import pathlib
import sys

sys.path.insert(0, str(pathlib.Path(__file__).resolve().parent.parent))
from always_memory import tests_of, tried
from checking import Cases

# The crate whose tests are run.
TESTS = "imgref_run"
ENDED = "let only = self.device.{call}; if let Err(error) = &only {{ if error.kind() == ErrorKind::Interrupted {{ return Err(Error::from(ErrorKind::TimedOut)); }} }} else {{ return only; }}"
OF_ANOTHER_KIND = "let only = self.device.{call}; match only {{ Ok(count) => return Ok(count), Err(error) => if error.kind() != ErrorKind::Interrupted {{ return Err(Error::from(ErrorKind::Other)); }} }}"
NOT_HANDED_ON = "if true {{ return Ok(()); }}"
CALLS = {"read": "read(buf)", "write": "write(buf)", "flush": "flush()"}
# What is tried at once: a bug in each call. Each call has a test of its own, so three tests must fail.
CASES = [
    ("a read that ends at an interruption, a write that loses the kind of an error, a flush that isn't handed on", (ENDED, OF_ANOTHER_KIND, NOT_HANDED_ON)),
    ("a read that loses the kind of an error, a write and a flush that end at an interruption", (OF_ANOTHER_KIND, ENDED, ENDED)),
]


def main():
    cases = Cases()
    was = tests_of(TESTS, {})
    cases.count(f"the tests of {TESTS} pass as they are", was and was[0] > 0 and was[1] == 0, f"passed and failed: {was}")
    for what, bodies in CASES:
        heads = {name: body.format(call=call) for (name, call), body in zip(CALLS.items(), bodies, strict=True)}
        found = tried(lambda texts: tests_of(TESTS, texts), "devices", "retried", heads)
        cases.count(f"{what}: each is refused by a test", was and found == (was[0] - len(CALLS), len(CALLS)), f"passed and failed: {found}, and unchanged: {was}")
    return cases.end()


if __name__ == "__main__":
    sys.exit(main())
