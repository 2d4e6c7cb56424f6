#!/usr/bin/env python3
"""Compares what the programs do as LLVM builds them and as Rattle's own compiler does.

Both must write the same, say the same and end with the same status: the script program on the examples, each beginning of the one
with every word, each of its bytes changed, and random scripts; the one for video on small streams and pictures with each kind of edit,
bad words and bad inputs. The other checks of this folder run the build that is shipped.
"""
import concurrent.futures
import pathlib
import runpy
import subprocess
import sys

sys.path.insert(0, str(pathlib.Path(__file__).resolve().parents[2]))
from checking import ROOT, Cases, built
from scripts import SEED, Random, beginnings, changes
from tries import video

# How many random scripts there are.
COUNT = 500
PICTURES = (b"P5 12 8 255\n" + bytes(range(96)), b"P6 5 3 65535\n" + bytes(range(90)), b"P7\nWIDTH 4\nHEIGHT 2\nDEPTH 4\nMAXVAL 255\nTUPLTYPE RGB_ALPHA\nENDHDR\n" + bytes(range(32)))
# Words that are refused, and options.
OTHER_WORDS = ("", "fill", "fill 0,0,1", "fill 0,0,1,1", "fill 0,0,1,1 256", "turn", "flip", "cover 1,1,1,1+x", "mosaic 0,0,2,2", "--help", "--version", "--limit 0 fill 0,0,1,1 1", "--strict move 0,0,2,2 4,0 cover 4,0,2,2", "--margin x cover 0,0,1,1", "3..1 fill 0,0,1,1 1", "--edits nowhere")


def ends(program, words, given):
    """What a run writes and says, and its status."""
    ran = subprocess.run([program, *words], input=given, capture_output=True, timeout=60)
    return ran.stdout, ran.stderr, ran.returncode


def scripts():
    """Scripts, by what they are."""
    made = Random(SEED)
    yield "examples", [it.read_bytes() for it in sorted((ROOT / "examples").glob("*.script"))]
    yield "beginnings", beginnings()
    yield "bytes changed", changes()
    yield f"random scripts of seed {SEED}", [made.script() for _ in range(COUNT)]


def streams():
    """Words and inputs of the program for video, by what they are."""
    # (the module `frames` is the model of that name)
    tables = runpy.run_path(str(pathlib.Path(__file__).with_name("frames.py")))
    edits = [words for name in ("EDITS", "ODD", "COVERS", "FLIPS", "TURNS", "MEANS", "BLURS") for words in tables[name]]
    edits += [f"--margin {it} cover 5,3,1,1 9" for it in tables["MARGINS"]]
    for name, width, height in (("420jpeg", 12, 8), ("444alpha", 13, 9), ("422p12", 12, 8)):
        yield f"edits of video {name}", [(it.split(), video(name, width, height)) for it in edits]
    yield "edits of pictures", [(it.split(), picture) for it in edits for picture in PICTURES]
    yield "other words", [(it.split(), given) for it in OTHER_WORDS for given in (video("420"), *PICTURES[:1])]
    whole = video("mono", 4, 2, 2)
    yield "beginnings of a video", [(["flip", "rows"], whole[:it]) for it in range(len(whole))]


def main():
    cases = Cases()
    found = {name: built(name, ("", ".by-rattle")) for name in ("imgref_run", "imgref_frames")}
    tries = [("imgref_run", label, [((), it) for it in given]) for label, given in scripts()]
    tries += [("imgref_frames", label, given) for label, given in streams()]
    with concurrent.futures.ThreadPoolExecutor() as pool:
        for name, programs in found.items():
            cases.count(f"both builds of {name} are there", len(programs) == 2, f"crates/{name}/out lacks one, or it is older than its sources")
        for name, label, given in (it for it in tries if len(found[it[0]]) == 2):
            differ = [it for it, *both in zip(given, *(pool.map(lambda it: ends(program, *it), given) for program in found[name])) if both[0] != both[1]]
            cases.count(f"{name}: both builds do the same with {len(given)} {label}", given and not differ, "\n".join(f"{' '.join(words)} on {data[:80]!r}" for words, data in differ[:3]))
    return cases.end()


if __name__ == "__main__":
    sys.exit(main())
