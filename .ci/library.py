"""What the checks of the library and of its bindings share: running a command, and taking the cases
that it counted."""
import pathlib
import re
import subprocess

from checking import COUNT, ROOT, SKIPPED, VARIANT

WARNINGS = ["-Wall", "-Wextra", "-Werror", "-pedantic"]
RUST_COUNT = re.compile(r"test result: \w+\. (\d+) passed; (\d+) failed")


def run(words, **more):
    """Runs a command: its status, what it wrote, and what it said besides."""
    ran = subprocess.run([str(it) for it in words], stdin=more.pop("stdin", subprocess.DEVNULL) if "input" not in more else None, capture_output=True, **more)
    return ran.returncode, ran.stdout, (ran.stdout + ran.stderr).decode(errors="replace")


def counted(cases, label, said, status, form=COUNT, has_skips=True):
    """Takes the cases that a program counted, and what it skipped. What another Python lacks isn't
    looked at: no package of Debian's is for that one."""
    found = form.search(said)
    passed, failed = map(int, found.groups()[:2]) if found else (0, 1)
    cases.passed, cases.failed = cases.passed + passed, cases.failed + failed
    for what, number, lacking in SKIPPED.findall(said) if has_skips else ():
        cases.skip(f"{label}: {what}", *lacking.split(" and no "), number=int(number))
    for what, variant in VARIANT.findall(said) if has_skips else ():
        cases.leave(f"{label}: {what}", variant)
    if failed or status:
        print(said)
    cases.count(f"{label}: {passed} passed, {failed} failed, and its end", status == 0 and found)
