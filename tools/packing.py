"""Archives whose bytes depend on what is in them alone: sorted names, one time, no owner.

A tree is a dictionary of paths, each with what is there: bytes, or a Link. A file may be run where its folder is a `bin`.
"""
import dataclasses
import gzip
import hashlib
import io
import pathlib
import tarfile


@dataclasses.dataclass(frozen=True)
class Link:
    """A symbolic link, and where it leads."""

    target: str


def is_run(name):
    """Whether a file may be run."""
    return pathlib.PurePosixPath(name).parent.name == "bin"


def tar_gz(path, tree, seconds):
    """Writes a tree as a compressed archive, with one time for all."""
    packed = io.BytesIO()
    folders = {str(it) for name in tree for it in pathlib.PurePosixPath(name).parents if str(it) != "."}
    with tarfile.open(fileobj=packed, mode="w", format=tarfile.USTAR_FORMAT) as archive:
        for name in sorted({*tree, *folders}):
            entry, data = tarfile.TarInfo(name), tree.get(name)
            entry.mtime, entry.mode = seconds, 0o755 if name in folders or is_run(name) else 0o644
            if name in folders:
                entry.type = tarfile.DIRTYPE
            elif isinstance(data, Link):
                entry.type, entry.linkname = tarfile.SYMTYPE, data.target
            else:
                entry.size = len(data)
            archive.addfile(entry, io.BytesIO(data) if isinstance(data, bytes) else None)
    path.write_bytes(squeezed(packed.getvalue()))


def squeezed(data):
    """The same compressed, with no time and no name."""
    return gzip.compress(data, 9, mtime=0)


def laid_out(folder, tree):
    """Writes a tree below a folder."""
    for name, data in sorted(tree.items()):
        path = folder / name
        path.parent.mkdir(parents=True, exist_ok=True)
        if isinstance(data, Link):
            path.symlink_to(data.target)
        else:
            path.write_bytes(data)
            path.chmod(0o755 if is_run(name) else 0o644)
    for it in [folder, *(it for it in folder.rglob("*") if it.is_dir())]:
        it.chmod(0o755)


def read(folder):
    """The files below a folder as a tree."""
    return {str(it.relative_to(folder)): Link(str(it.readlink())) if it.is_symlink() else it.read_bytes() for it in sorted(folder.rglob("*")) if it.is_symlink() or it.is_file()}


def sum_of(data):
    """The sha256 of bytes, as letters."""
    return hashlib.sha256(data).hexdigest()


def sum_of_tree(folder):
    """The sha256 of a folder: that of the lines that sha256sum would write of its files, in the order of their names."""
    return sum_of("".join(f"{sum_of(data)}  {name}\n" for name, data in sorted(read(folder).items()) if isinstance(data, bytes)).encode())
