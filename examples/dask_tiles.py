#!/usr/bin/env python3
"""Edits a picture that is larger than memory, block by block, by Dask on the processors of this machine or of many.

    python3 examples/dask_tiles.py in.npy out.npy means 16,16
    python3 examples/dask_tiles.py in.npy out.npy blur 5 --scheduler tcp://10.0.0.1:8786
    python3 examples/dask_tiles.py in.npy out.zarr mosaic 8,8 --block 2048

A picture is a file of NumPy (.npy) or a folder of zarr, of two dimensions and with 8 or 16 bits without a sign. Each block goes through
imgref_frames, which is proved, and the result is that of one run over all. For a blur each block has a border of its neighbours
(map_overlap). A worker that ends is no loss: Dask does its blocks again, and a block is written by the same bytes. An output of zarr
has the blocks as its chunks.

Without --scheduler the workers are processes of this machine. Else each of them needs imgref_frames in its PATH, and the files under
the same names. The output gets its name once all of it is written.
Needs python3-dask, python3-distributed, and imgref_frames in the PATH or built by make frames; python3-zarr for zarr.
"""
import argparse
import os
import pathlib
import re
import shutil
import subprocess
import sys

try:
    import numpy
except ImportError as why:
    sys.exit(f"{why}: apt-get install python3-numpy python3-dask python3-distributed, and start it by /usr/bin/python3")

BUILT = pathlib.Path(__file__).resolve().parent.parent / "crates/imgref_frames/out/imgref_frames"
EDITS = ("mosaic", "means", "blur")
ENDINGS = (".npy", ".zarr")


class File:
    """A picture on the disk, by its name alone: so it goes to workers. Each part is read and written by itself."""

    def __init__(self, path):
        self.path = os.path.abspath(path)

    def is_zarr(self):
        return self.path.endswith((".zarr", ".zarr.part"))

    def opened(self, mode):
        if self.is_zarr():
            import zarr

            return zarr.open_array(self.path, mode=mode)
        return numpy.lib.format.open_memmap(self.path, mode=mode)

    def create(self, like):
        """Makes the file, of the same size and kind as another array, in blocks of a size."""
        shape, kind, block = like
        if self.is_zarr():
            import zarr

            zarr.open_array(self.path, mode="w", shape=shape, dtype=kind, chunks=(block, block))
        else:
            numpy.lib.format.open_memmap(self.path, mode="w+", dtype=kind, shape=shape).flush()

    def __setitem__(self, part, block):
        made = self.opened("r+")
        made[part] = block
        if hasattr(made, "flush"):
            made.flush()

    def read(self, block_info=None):
        """A block of the file, by where Dask wants it."""
        part = tuple(slice(*it) for it in block_info[None]["array-location"])
        return numpy.array(self.opened("r")[part])


def edited(block, words):
    """A block after an edit, by imgref_frames over a picture (PGM)."""
    if not block.size:
        return block
    high, wide = block.shape
    head, order = b"P5\n%d %d\n%d\n" % (wide, high, 255 if block.itemsize == 1 else 65535), block.dtype.newbyteorder(">")
    window = f"0,0,{wide},{high}"
    program = shutil.which("imgref_frames") or BUILT
    done = subprocess.run([program, words[0], window, words[1]], input=head + block.astype(order).tobytes(), capture_output=True)
    if done.returncode:
        raise RuntimeError(f"imgref_frames: {done.stderr.decode(errors='replace').strip()}")
    return numpy.frombuffer(done.stdout[len(head):], order).reshape(high, wide).astype(block.dtype)


def parsed():
    parser = argparse.ArgumentParser(description=__doc__, formatter_class=argparse.RawDescriptionHelpFormatter)
    parser.add_argument("input", help="a picture: .npy, or a folder .zarr")
    parser.add_argument("output", help="the picture that is written: .npy or .zarr, of any input")
    parser.add_argument("edit", choices=EDITS)
    parser.add_argument("value", help="the tiles of a mosaic or of means, as 16,16; the radius of a blur, as 5")
    parser.add_argument("--block", type=int, default=2048, metavar="N", help="a block has N by N pixels: 2048")
    parser.add_argument("--workers", type=int, default=len(os.sched_getaffinity(0)), metavar="N", help="how many processes of this machine work: all processors")
    parser.add_argument("--scheduler", metavar="ADDRESS", help="a scheduler of Dask that runs, in the place of workers on this machine")
    if len(sys.argv) == 1:
        parser.print_help(sys.stderr)
        sys.exit(2)
    return parser.parse_args()


def depth_of(options):
    """How many pixels of its neighbours a block needs. Tiles need none where no block cuts one."""
    if options.edit == "blur":
        if not re.fullmatch(r"\d{1,5}", options.value) or int(options.value) > options.block:
            sys.exit(f"dask_tiles: a blur has a radius from 0 to that of a block, and not '{options.value}'")
        return int(options.value)
    tile = re.fullmatch(r"([1-9]\d{0,5}),([1-9]\d{0,5})", options.value)
    if not tile or options.block % int(tile[1]) or options.block % int(tile[2]):
        sys.exit(f"dask_tiles: tiles are as 16,16, and a block of {options.block} must have whole ones: '{options.value}'")
    return 0


def stored(options, source, target, shape, kind):
    """The task that writes each edited block."""
    import dask.array

    chunks = dask.array.core.normalize_chunks((options.block, options.block), shape, dtype=kind)
    given = dask.array.map_blocks(source.read, chunks=chunks, dtype=kind)
    words, depth = (options.edit, options.value), depth_of(options)
    made = dask.array.map_overlap(edited, given, depth=depth, boundary="none", words=words, dtype=kind, meta=numpy.zeros((0, 0), kind)) if depth else given.map_blocks(edited, words=words, dtype=kind, meta=numpy.zeros((0, 0), kind))
    return dask.array.store(made, target, lock=False, compute=False)


def files_of(options):
    """The input, and the file that gets the name of the output once all of it is written."""
    if not all(pathlib.Path(it).suffix in ENDINGS for it in (options.input, options.output)):
        sys.exit("dask_tiles: the input and the output are .npy or .zarr")
    source, target = File(options.input), File(f"{os.path.abspath(options.output)}.part")
    if source.is_zarr() or target.is_zarr():
        try:
            import zarr as _
        except ImportError as why:
            sys.exit(f"{why}: apt-get install python3-zarr")
    return source, target


def main():
    options = parsed()
    try:
        import dask.distributed
    except ImportError as why:
        sys.exit(f"{why}: apt-get install python3-dask python3-distributed")
    source, target = files_of(options)
    if options.block < 1 or os.path.exists(options.output):
        sys.exit(f"dask_tiles: {options.output} is there already" if options.block > 0 else "dask_tiles: a block has a pixel at least")
    depth_of(options)
    if not options.scheduler and not shutil.which("imgref_frames") and not BUILT.exists():
        sys.exit("dask_tiles: imgref_frames isn't in the PATH: install the package imgref-tools, or type make frames")
    try:
        picture = source.opened("r")
    except (OSError, ValueError) as why:
        sys.exit(f"{options.input}: {why}")
    if picture.ndim != 2 or picture.dtype not in (numpy.uint8, numpy.uint16):
        sys.exit(f"{options.input}: it has {picture.ndim} dimensions of {picture.dtype}, and not two of uint8 or uint16")
    shape, kind = picture.shape, picture.dtype
    del picture
    target.create((shape, kind, options.block))
    where = {"address": options.scheduler} if options.scheduler else {"n_workers": options.workers, "threads_per_worker": 1, "dashboard_address": None, "death_timeout": 300}
    try:
        with dask.distributed.Client(**where, set_as_default=True) as client:
            client.compute(stored(options, source, target, shape, kind), sync=True, retries=3)
        os.replace(target.path, options.output)
    except (OSError, RuntimeError, dask.distributed.scheduler.KilledWorker) as why:
        sys.exit(f"dask_tiles: {why}")
    finally:
        shutil.rmtree(target.path, ignore_errors=True) if os.path.isdir(target.path) else pathlib.Path(target.path).unlink(missing_ok=True)


if __name__ == "__main__":
    main()
