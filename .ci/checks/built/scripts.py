#!/usr/bin/env python3
"""Runs the program on scripts of many kinds, and compares each output with that of an independent model (.ci/model.py).

The scripts: each beginning of the script with every word, each of its bytes changed to each of ten others, and 2,000 random
ones, most of them good. The seed is printed; `scripts.py SEED` takes another one. The program must be there, as `rt ci`
leaves it.
"""
import concurrent.futures
import pathlib
import random
import subprocess
import sys

sys.path.insert(0, str(pathlib.Path(__file__).resolve().parents[2]))
import model
from checking import ONE_BUILD, ROOT, Cases, both_builds

EVERY_WORD = (ROOT / "examples/every_word.script").read_bytes()
OTHERS = b" \n\t\r,/0-\x00\xff"
SEED = 20260731
COUNT = 2000
GREATEST = model.GREATEST


def beginnings():
    return [EVERY_WORD[:it] for it in range(len(EVERY_WORD) + 1)]


def changes():
    """Each byte changed to each of the others."""
    return [EVERY_WORD[:at] + bytes([other]) + EVERY_WORD[at + 1 :] for at in range(len(EVERY_WORD)) for other in OTHERS]


class Random:
    """Random scripts. Sizes are small, so that windows nest and overlap; now and then a number is at the type's end."""

    def __init__(self, seed):
        self.by = random.Random(seed)

    def upto(self, most):
        return self.by.choice([GREATEST, GREATEST - 1, 2**63, 2**32]) if self.by.random() < 0.02 else self.by.randint(0, max(most, 0))

    def image(self):
        width, height = (self.by.choice([0, 1, 2, 2, 3, 3, 4]) for _ in range(2))
        stride = self.by.choice([max(width, 1), width + 1, width + 3])
        least = stride * (height - 1) + width if width and height else 0
        cells = [self.by.choice([0, 1, 2, 255]) for _ in range(least + self.by.randint(0, 4))]
        self.sizes.append((width, height))
        return " ".join(map(str, ["image", width, height, stride, *cells]))

    def path(self):
        """A path in the last image that was named: often to a window of the size of the one before."""
        width, height = self.sizes[self.index] if self.index < len(self.sizes) else (2, 2)
        windows = []
        if self.size and self.by.random() < 0.7:
            windows.append([self.upto(width - self.size[0]), self.upto(height - self.size[1]), *self.size])
        for _ in range(0 if windows else self.by.choice([0, 0, 1, 1, 2])):
            left, top = self.upto(width), self.upto(height)
            width, height = self.upto(width - left), self.upto(height - top)
            windows.append([left, top, width, height])
        self.size = tuple(windows[-1][2:]) if windows else (width, height)
        return "/".join(",".join(map(str, it)) for it in windows) or "-"

    def command(self):
        word = self.by.choice([*model.WORDS])
        fields, self.size, places = [], None, 0
        for kind, after in zip(model.WORDS[word][1], [*model.WORDS[word][1][1:], None]):
            if kind is model.path:
                fields.append(self.path())
            elif kind is model.pixel:
                fields.append(self.by.choice([0, 1, 2, 255]))
            elif not fields or after is model.path:
                self.index = self.upto(len(self.sizes) - 1 if self.by.random() < 0.95 else 4)
                fields.append(self.index)
            else:
                fields.append(self.upto(self.size[places] - 1 if self.by.random() < 0.9 else 4))
                places += 1
        return " ".join([word.decode(), *map(str, fields)])

    def script(self):
        self.sizes = []
        lines = [self.image() for _ in range(self.by.choice([0, 1, 1, 2, 2, 3]))]
        lines += [self.command() for _ in range(self.by.randint(0, 8))]
        text = "".join(f"{it}\n" for it in lines)
        if text and self.by.random() < 0.05:
            at = self.by.randrange(len(text))
            text = text[:at] + self.by.choice("\n\t ,-/01") + text[at + 1 :]
        return text.encode()


def differs(program, script, wanted=None):
    """What is wrong with the program's answer to a script, or nothing."""
    wanted = wanted or model.answer(script)
    ran = subprocess.run([program], input=script, capture_output=True, timeout=60)
    found = ran.stdout, ran.returncode
    return "" if found == wanted else f"{script!r}\ngives {found}\nand not {wanted}"


def main(words):
    cases = Cases()
    seed = next((int(it) for it in words if it != ONE_BUILD), SEED)
    made = Random(seed)
    kinds = [
        ("beginnings", beginnings()),
        ("bytes changed", changes()),
        (f"random scripts of seed {seed}", [made.script() for _ in range(COUNT)]),
    ]
    programs = both_builds(cases, "imgref_run")
    with concurrent.futures.ThreadPoolExecutor() as pool:
        for program in programs:
            for label, scripts in kinds:
                bad = [it for it in pool.map(lambda script: differs(program, script), scripts) if it]
                cases.count(f"{program.name}: {len(scripts)} {label}", scripts and not bad, "\n".join(bad[:2]))
    return cases.end()


if __name__ == "__main__":
    sys.exit(main(sys.argv[1:]))
