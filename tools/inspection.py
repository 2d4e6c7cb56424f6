"""What must hold of a release before anyone has it: faults() lists what doesn't.

No file names a folder of the machine that built it, each library shows the header's names alone and needs nothing newer than
glibc 2.17, each wheel has the tag of what is in it, no page leads to a file that isn't there, and each file has its sum in
SHA256SUMS.
"""
import base64
import hashlib
import io
import os
import pathlib
import re
import tarfile
import tempfile
import zipfile

from packing import sum_of
from processes import run_to_end
from workspace import ROOT

SUMS = "SHA256SUMS"
# The names of processors in ELF files.
MACHINES = {62: "x86_64", 183: "aarch64"}
# The newest glibc that a library may need, and that a program may: the toolchain's start-up code needs it.
NEWEST, NEWEST_OF_PROGRAMS = (2, 17), (2, 34)
# What a library may take from the C library.
NEEDED = {"memcpy", "memmove", "memset"}
WHEEL = re.compile(r"imgref-[\d.]+-(cp\d+)-(\w+)-([\w.]+)\.whl")
SYMBOL = re.compile(r"^ *\d+: [0-9a-f]+ +\S+ (\w+) +(GLOBAL|WEAK) +(\w+) +(?:\[[^]]*\] +)?(\w+) (\S+)", re.MULTILINE)


def unpacked(path):
    """The files in an archive or a package, by their names; of another file that file alone."""
    if path.name.endswith((".tar.gz", ".crate")):
        return of_tar(path.read_bytes(), "r:gz")
    if path.suffix == ".whl":
        with zipfile.ZipFile(path) as packed:
            return {it: packed.read(it) for it in packed.namelist()}
    if path.suffix == ".deb":
        with tempfile.TemporaryDirectory() as room:
            run_to_end(["dpkg-deb", "-R", path, room])
            return {str(it.relative_to(room)): it.read_bytes() for it in pathlib.Path(room).rglob("*") if it.is_file() and not it.is_symlink()}
    return {path.name: path.read_bytes()}


def of_tar(data, mode):
    with tarfile.open(fileobj=io.BytesIO(data), mode=mode) as packed:
        return {it.name: packed.extractfile(it).read() for it in packed if it.isfile()}


def declared(header):
    """The calls of the header."""
    names = set(re.findall(r"(?m)^(?:bool|imgref_status) (imgref_\w+)\(", header))
    for macro, body in re.findall(r"(?ms)^#define (IMGREF_\w+)\(NAME, CELL\)(.*?)\n\n", header):
        names |= {f"imgref_{size}_{it}" for size in re.findall(rf"(?m)^{macro}\((u\d+),", header) for it in re.findall(r"imgref_##NAME##_(\w+)\(", body)}
    return names


def symbols(data, *words):
    """The names that a library shows, and those that it needs, each with its version where it has one."""
    with tempfile.NamedTemporaryFile() as file:
        file.write(data)
        file.flush()
        said = run_to_end(["readelf", "--wide", *words, file.name]).stdout
    shown, needed = set(), set()
    for kind, _, seen, place, name in SYMBOL.findall(said):
        if place == "UND":
            needed.add(name)
        elif seen == "DEFAULT" and kind != "SECTION":
            shown.add(name.split("@")[0])
    return shown, needed


def machine(data):
    """The processor of an ELF file."""
    return MACHINES.get(int.from_bytes(data[18:20], "little"), "another")


def too_new(needed, newest=NEWEST):
    """The names of glibc that this version of it doesn't have."""
    return sorted(it for it in needed if (found := re.search(r"@GLIBC_(\d+)\.(\d+)", it)) and (int(found[1]), int(found[2])) > newest)


def paths(name, files):
    """What names a folder of this machine."""
    marks = {str(ROOT), os.path.expanduser("~") + "/", tempfile.gettempdir() + "/", "/tmp/", "/opt/rattle"}
    for it, data in files.items():
        yield from (f"{name}: {it} names {mark}" for mark in sorted(marks) if mark.encode() in data)


def libraries(name, files, calls, processor):
    """What is wrong with the libraries of an archive or a package."""
    for it, data in files.items():
        if re.search(r"libimgref\.so\.\d+$", it):
            shown, needed = symbols(data, "--dyn-syms")
            if shown != calls:
                yield f"{name}: {it} differs from the header: {sorted(shown ^ calls)[:5]}"
            if too_new(needed) or {re.split("@", one)[0] for one in needed} - NEEDED:
                yield f"{name}: {it} needs {sorted(needed)}"
            if machine(data) != processor:
                yield f"{name}: {it} is for {machine(data)}"
        elif it.endswith("libimgref.a"):
            shown, needed = symbols(data, "--syms")
            if shown != calls or needed - NEEDED:
                yield f"{name}: {it} differs from the header: {sorted(shown ^ calls)[:5]}, needs {sorted(needed - NEEDED)}"
        elif "bin/" in it and data[:4] == b"\x7fELF":
            _, needed = symbols(data, "--dyn-syms")
            if too_new(needed, NEWEST_OF_PROGRAMS) or machine(data) != processor:
                yield f"{name}: {it} needs {too_new(needed, NEWEST_OF_PROGRAMS)}, for {machine(data)}"


def wheel(name, files):
    """What is wrong with a wheel: its tag, its module or its sums."""
    tag = WHEEL.fullmatch(name)
    if not tag:
        yield f"{name} is no name of a wheel"
        return
    python, abi, platforms = tag.groups()
    info = next(it for it in files if it.endswith("/WHEEL")).rpartition("/")[0]
    said = set(re.findall(r"(?m)^Tag: (\S+)$", files[f"{info}/WHEEL"].decode()))
    if said != {f"{python}-{abi}-{it}" for it in platforms.split(".")}:
        yield f"{name}: its tag is {sorted(said)}"
    modules = {it: data for it, data in files.items() if it.endswith(".so")}
    for it, data in modules.items():
        if not all(one.endswith(machine(data)) for one in platforms.split(".")):
            yield f"{name}: {it} is for {machine(data)}"
        if it != f"imgref/_native.{'abi3' if abi == 'abi3' else f'cpython-{python[2:]}-{machine(data)}-linux-gnu'}.so":
            yield f"{name}: {it} is another module than the tag says"
        if too_new(symbols(data, "--dyn-syms")[1]):
            yield f"{name}: {it} needs {too_new(symbols(data, '--dyn-syms')[1])}"
    if len(modules) != 1:
        yield f"{name} has {len(modules)} modules"
    for line in files[f"{info}/RECORD"].decode().splitlines():
        it, due, _ = line.rsplit(",", 2)
        digest = base64.urlsafe_b64encode(hashlib.sha256(files.get(it, b"")).digest()).rstrip(b"=").decode()
        if due and due != f"sha256={digest}":
            yield f"{name}: {it} has another sum"


def links(folder, name, files):
    """Where a page leads to, and there is no such file."""
    for it in re.findall(rb'\bhref="([\w./-]+)"', files.get(name, b"") if name.endswith(".html") else b""):
        if not (folder / it.decode()).is_file():
            yield f"{name} leads to {it.decode()}"


def wrong_sums(folder):
    """The files whose sum isn't in SHA256SUMS, and what that names besides."""
    due = {it: digest for digest, it in re.findall(r"(?m)^(\w{64})  (\S+)$", (folder / SUMS).read_text())}
    have = {it.name: sum_of(it.read_bytes()) for it in folder.iterdir() if it.name != SUMS}
    yield from (f"{SUMS}: {it} has another sum, or isn't there" for it in sorted({*due, *have}) if due.get(it) != have.get(it))


def faults(folder):
    """All that is wrong with a release."""
    yield from wrong_sums(folder)
    calls = declared((ROOT / "include/imgref.h").read_text())
    for path in sorted(folder.iterdir()):
        files = unpacked(path)
        yield from paths(path.name, files)
        yield from links(folder, path.name, files)
        if path.suffix == ".whl":
            yield from wheel(path.name, files)
        elif path.suffix == ".crate":
            for processor in MACHINES.values():
                own = {it: data for it, data in files.items() if f"/{processor}-" in it}
                yield from libraries(path.name, own, calls, processor)
                if len(own) != 1:
                    yield f"{path.name} has no library for {processor}"
        else:
            yield from libraries(path.name, files, calls, "aarch64" if re.search("aarch64|arm64", path.name) else "x86_64")
