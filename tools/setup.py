#!/usr/bin/env python3
"""Installs what the tests and the recipes need (tools/needs.txt) and this machine lacks, by Debian's packages.

    setup.py           all of it, also what `make gate` and `make release` alone need
    setup.py test      what `make test` needs
    setup.py list      prints the packages, for the line of CONTRIBUTING.md

It says which packages, and how large they are. Where it may not install them (no root and no `sudo` without a password), or where
there is no apt-get, it prints the line to type, and ends with status 1. A package that apt doesn't know is named and left out.
"""
import os
import re
import shutil
import subprocess
import sys

from needs import imports, missing, needs, of_tests
from processes import end_on_signals, run_to_end, started

# Packages are asked for twice, and a server that is silent isn't waited for longer than these seconds. Another apt-get has this long
# to end.
PATIENCE = ["-o", "Acquire::Retries=1", "-o", "Acquire::http::Timeout=20", "-o", "Acquire::https::Timeout=20", "-o", "DPkg::Lock::Timeout=300"]
INSTALL = ["apt-get", "install", "-y", "--no-install-recommends"]
# What apt-get says of sizes, and of packages that it doesn't know.
SIZES = re.compile(r"Need to get ([\d.,]+ \w?B)(?:/([\d.,]+ \w?B))? of archives|After this operation, ([\d.,]+ \w?B) of additional disk space")
UNKNOWN = re.compile(r"Unable to locate package (\S+)|Package '?([\w.+-]+?)'? has no installation candidate")


def say(text):
    print(f"setup: {text}", file=sys.stderr, flush=True)


def as_root():
    """What makes a command one of root's: nothing, or `sudo`. None where this user may not."""
    if os.geteuid() == 0:
        return []
    is_allowed = shutil.which("sudo") and run_to_end(["sudo", "-n", "true"]).returncode == 0
    return ["sudo", "-n"] if is_allowed else None


def quiet(words):
    """Runs apt-get so that it asks nothing, in English."""
    return run_to_end(words, env=os.environ | {"LC_ALL": "C", "DEBIAN_FRONTEND": "noninteractive"})


def simulated(packages):
    """Those of the packages that apt knows, and what it says of their sizes."""
    packages = list(packages)
    while packages:
        ran = quiet(["apt-get", "install", "--assume-no", "--no-install-recommends", *packages])
        unknown = {it for found in UNKNOWN.findall(ran.stdout + ran.stderr) for it in found} & {*packages}
        if not unknown:
            return packages, ran.stdout
        packages = [it for it in packages if it not in unknown]
    return [], ""


def size(said):
    """How large packages are, in apt's words."""
    found = [it for row in SIZES.findall(said) for it in row if it]
    return f"{found[0]} to download, {found[-1]} on disk" if len(found) > 1 else "of an unknown size"


def typed(packages):
    return f"sudo {' '.join(INSTALL)} {' '.join(packages)}"


def install(root, packages):
    """Installs packages. What they say where that fails."""
    # (the lists of packages may be old, or not be there)
    lists = quiet([*root, "apt-get", *PATIENCE, "-o", "APT::Update::Error-Mode=any", "update"])
    known, said = simulated(packages)
    for it in packages:
        if it not in known:
            say(f"apt knows no package {it}: it is left out")
    if not known:
        return last(lists) if lists.returncode else "nothing can be installed"
    say(f"installing {' '.join(known)} ({size(said)}), which may take some minutes")
    words = [*root, "env", "DEBIAN_FRONTEND=noninteractive", "LC_ALL=C", *INSTALL, *PATIENCE, *known]
    with started(words, stdin=subprocess.DEVNULL, stdout=subprocess.PIPE, stderr=subprocess.STDOUT, text=True, errors="replace") as ran:
        told = ran.stdout.read()
    return "" if ran.returncode == 0 else last(lists) if lists.returncode else last(ran, told)


def last(ran, said=None):
    """The last error that apt-get told of."""
    lines = [it for it in (said or f"{ran.stderr}\n{ran.stdout}").splitlines() if it.startswith(("E:", "W:"))]
    return lines[0] if lines else f"apt-get ends with status {ran.returncode}"


def set_up(packages):
    """Installs what is missing of these packages, and returns what is missing after that. It says what it does."""
    lacking = missing(packages)
    if not lacking:
        say(f"nothing to do: all {len(packages)} packages are there")
        return []
    if not shutil.which("apt-get"):
        say(f"there is no apt-get here. Please install, by the names that this system has: {' '.join(lacking)}")
        return lacking
    root = as_root()
    if root is None:
        say(f"of {len(packages)} packages {len(lacking)} are missing, and this user may not install them. Please type:\n    {typed(lacking)}")
        return lacking
    why = install(root, lacking)
    imports.cache_clear()
    left = missing(packages)
    if why:
        say(f"apt-get couldn't install them ({why}). Please type, with a network:\n    {typed(left)}")
    elif left:
        say(f"still missing: {' '.join(left)}")
    else:
        say("all is installed")
    return left


def main(words):
    if words == ["list"]:
        print(*needs())
        return 0
    if words not in ([], ["test"]):
        sys.exit(__doc__)
    return 1 if set_up(of_tests() if words else [*needs()]) else 0


if __name__ == "__main__":
    end_on_signals()
    try:
        sys.exit(main(sys.argv[1:]))
    except KeyboardInterrupt:
        sys.exit("interrupted: what is installed so far stays")
