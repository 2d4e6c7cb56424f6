#!/usr/bin/env python3
"""Runs both builds of the program on the worked cases of cases/.

    NAME.script, NAME.out   a script and what is printed to it
    bad_lines.json          lines that have no form, alone and after a good one
    beginnings.json         the good beginnings of examples/first.script by their number of bytes; each other one ends in a bad line

Each script is run a second time without its last line feed, which changes nothing. The image lines of an output are a
script whose output they are. The program must be there, as `rt ci` leaves it.
"""
import concurrent.futures
import json
import pathlib
import sys

sys.path.insert(0, str(pathlib.Path(__file__).resolve().parents[2]))
import model
import scripts
from checking import ROOT, Cases, both_builds

FOLDER = ROOT / "cases"
FIRST = (ROOT / "examples/first.script").read_bytes()


def text(lines):
    return "".join(f"{it}\n" for it in lines).encode()


def fault(line):
    return text([f"fault line {line}"])


def worked():
    """Each worked script with its output: as it is, without its last line feed, and the images that it leaves."""
    for path in sorted(FOLDER.glob("*.script")):
        script, output = path.read_bytes(), path.with_suffix(".out").read_bytes()
        images = b"".join(it for it in output.splitlines(keepends=True) if it.startswith(b"image "))
        yield path.stem, script, output
        yield f"{path.stem} without its last line feed", script.removesuffix(b"\n"), output
        yield f"the images that {path.stem} leaves", images, images


def bad_lines():
    """Each line that has no form, as the first line and after the good ones that the table names."""
    for before, lines in json.loads((FOLDER / "bad_lines.json").read_text()).items():
        good = [] if before == "alone" else [before.removeprefix("after ")]
        for line in lines:
            yield repr(line), text([*good, line]), fault(len(good) + 1)


def beginnings():
    """Each beginning of the first example. One that is not in the table ends in a bad line."""
    good = json.loads((FOLDER / "beginnings.json").read_text())
    for count in range(len(FIRST) + 1):
        beginning = FIRST[:count]
        output = text(good[str(count)]) if str(count) in good else fault(beginning.count(b"\n") + 1)
        yield f"{count} bytes", beginning, output


def differs(program, name, script, output):
    """What is wrong with the program's answer to a script, or nothing."""
    said = scripts.differs(program, script, (output, 2 if output.startswith(b"fault line ") else 0))
    return said and f"{name}: {said}"


def main():
    cases = Cases()
    names, outputs = ({it.stem for it in FOLDER.glob(f"*.{kind}")} for kind in ("script", "out"))
    cases.count(f"each of {len(names)} scripts has its output", names and names == outputs, f"without the other: {sorted(names ^ outputs)}")
    tables = [("worked scripts", [*worked()]), ("bad lines", [*bad_lines()]), ("beginnings", [*beginnings()])]
    for label, rows in tables:
        other = [name for name, script, output in rows if model.answer(script)[0] != output]
        cases.count(f"{len(rows)} {label} agree with the model", rows and not other, "\n".join(other))
    programs = both_builds(cases, "imgref_run")
    with concurrent.futures.ThreadPoolExecutor() as pool:
        for program in programs:
            for label, rows in tables:
                bad = [it for it in pool.map(lambda row: differs(program, *row), rows) if it]
                cases.count(f"{program.name}: {len(rows)} {label}", rows and not bad, "\n".join(bad[:3]))
    return cases.end()


if __name__ == "__main__":
    sys.exit(main())
