"""Builds the package for pip and for `make python` (PEP 517), with a C compiler alone.

The header and the archive of the library are found so: in the folders that IMGREF_INCLUDE and
IMGREF_LIB name, else in the repository that this folder is in, after `make c`, else where
pkg-config says. CC names the compiler (cc).

From Python 3.11 on the wheel is for this Python and each later one: it keeps to the stable ABI. A
`platform` among pip's --config-settings is in the wheel's tag in the place of this machine's own.
"""
from __future__ import annotations

import base64
import hashlib
import os
import pathlib
import re
import shlex
import shutil
import subprocess
import sys
import sysconfig
import tarfile
import tempfile
import zipfile

HERE = pathlib.Path(__file__).resolve().parent
NAME = "imgref"
VERSION = re.search(r'(?m)^version = "([^"]+)"', (HERE / "pyproject.toml").read_text(encoding="utf-8"))[1]
# Buffers are in the stable ABI since 3.11. A Python without its lock has no stable ABI.
IS_STABLE = sys.version_info >= (3, 11) and not sysconfig.get_config_var("Py_GIL_DISABLED")
# What goes into the package as it is.
PARTS = ("*.py", "*.pyi", "py.typed")
SOURCES = ("pyproject.toml", "backend.py", "native.c", "native.h", "README.md", "LICENSE")
METADATA = f"""Metadata-Version: 2.1
Name: {NAME}
Version: {VERSION}
Summary: Strided 2-D images over proved calls: windows are views, not copies
License: Apache-2.0
License-File: LICENSE
Requires-Python: >=3.10
Description-Content-Type: text/markdown

{(HERE / "README.md").read_text(encoding="utf-8")}"""
# A wheel has the date of no build: the same sources make the same wheel.
DATE = (1980, 1, 1, 0, 0, 0)


class Failure(Exception):
    """What can't be built, and why."""


def library():
    """The folder of imgref.h, and the archive of the library."""
    top = HERE.parent.parent
    include, lib = os.environ.get("IMGREF_INCLUDE"), os.environ.get("IMGREF_LIB")
    if not (include and lib) and (top / "out/c/libimgref.a").is_file():
        include, lib = include or top / "include", lib or top / "out/c"
    elif not (include and lib) and shutil.which("pkg-config"):
        found = [subprocess.run(["pkg-config", f"--variable={it}", "imgref"], capture_output=True, text=True) for it in ("includedir", "libdir")]
        include, lib = include or found[0].stdout.strip(), lib or found[1].stdout.strip()
    include, archive = pathlib.Path(include or ".").resolve(), pathlib.Path(lib or ".").resolve() / "libimgref.a"
    if not ((include / "imgref.h").is_file() and archive.is_file()):
        raise Failure("the library isn't found: run `make c`, or set IMGREF_INCLUDE and IMGREF_LIB to the folders of imgref.h and libimgref.a")
    return include, archive


def compile_native(room):
    """The compiled module, in a folder."""
    if sys.version_info < (3, 10):
        raise Failure(f"the package needs CPython 3.10 or later, and this is {sys.version.split()[0]}")
    headers = [pathlib.Path(sysconfig.get_path(it)) for it in ("include", "platinclude")]
    if not (headers[0] / "Python.h").is_file():
        raise Failure(f"the headers of Python aren't installed in {headers[0]}: apt-get install python3-dev")
    include, archive = library()
    made = room / f"_native{'.abi3.so' if IS_STABLE else sysconfig.get_config_var('EXT_SUFFIX')}"
    words = [
        *shlex.split(os.environ.get("CC", "cc")), "-std=c11", "-O2", "-Wall", "-fPIC", "-shared", *["-DPy_LIMITED_API=0x030B0000"] * IS_STABLE,
        f"-I{include}", *(f"-I{it}" for it in headers), "-o", made, "native.c", archive,
        "-Wl,-z,noexecstack", "-Wl,-z,relro", "-Wl,-z,now", "-Wl,--exclude-libs,ALL", "-Wl,-s",
    ]
    # (the compiler is run here, so that no path of this machine is in what it makes)
    ran = subprocess.run([str(it) for it in words], capture_output=True, text=True, cwd=HERE)
    if ran.returncode:
        raise Failure(f"{' '.join(map(str, words))}\n{ran.stderr}")
    return made


def tag(platform=None):
    """For which Python and which machine a wheel is."""
    if IS_STABLE:
        python = "cp311-abi3"
    else:
        version = f"cp{sys.version_info[0]}{sys.version_info[1]}"
        python = f"{version}-{version}{'t' if sysconfig.get_config_var('Py_GIL_DISABLED') else ''}"
    return f"{python}-{platform or sysconfig.get_platform().replace('-', '_').replace('.', '_')}"


def info(its_tag):
    """The name of the folder with what describes a wheel, and its files."""
    python, abi, platforms = its_tag.split("-")
    tags = "".join(f"Tag: {python}-{abi}-{it}\n" for it in platforms.split("."))
    wheel = f"Wheel-Version: 1.0\nGenerator: imgref backend\nRoot-Is-Purelib: false\n{tags}"
    return f"{NAME}-{VERSION}.dist-info", {"METADATA": METADATA, "WHEEL": wheel, "top_level.txt": f"{NAME}\n", "LICENSE": (HERE / "LICENSE").read_text(encoding="utf-8")}


def build_wheel(wheel_directory, config_settings=None, metadata_directory=None):
    """Writes the wheel into a folder, and returns its name."""
    its_tag = tag((config_settings or {}).get("platform"))
    name = f"{NAME}-{VERSION}-{its_tag}.whl"
    described, texts = info(its_tag)
    with tempfile.TemporaryDirectory(prefix="imgref-wheel-") as room:
        made = compile_native(pathlib.Path(room))
        files = {f"{NAME}/{it.name}": it.read_bytes() for part in PARTS for it in sorted((HERE / NAME).glob(part))}
        files[f"{NAME}/{made.name}"] = made.read_bytes()
    files |= {f"{described}/{it}": text.encode() for it, text in texts.items()}
    record = "".join(f"{it},sha256={digest(data)},{len(data)}\n" for it, data in files.items())
    files[f"{described}/RECORD"] = f"{record}{described}/RECORD,,\n".encode()
    with zipfile.ZipFile(pathlib.Path(wheel_directory) / name, "w", zipfile.ZIP_DEFLATED) as wheel:
        for it, data in files.items():
            entry = zipfile.ZipInfo(it, DATE)
            entry.external_attr = (0o755 if it.endswith(".so") else 0o644) << 16
            entry.compress_type = zipfile.ZIP_DEFLATED
            wheel.writestr(entry, data)
    return name


def digest(data):
    return base64.urlsafe_b64encode(hashlib.sha256(data).digest()).rstrip(b"=").decode()


def build_sdist(sdist_directory, config_settings=None):
    """Writes the sources into a folder, and returns the archive's name. The library isn't among
    them."""
    name = f"{NAME}-{VERSION}.tar.gz"
    with tempfile.TemporaryDirectory(prefix="imgref-sdist-") as room:
        described = pathlib.Path(room, "PKG-INFO")
        described.write_text(METADATA)
        with tarfile.open(pathlib.Path(sdist_directory) / name, "w:gz", format=tarfile.PAX_FORMAT) as kept:
            files = [HERE / it for it in SOURCES] + [it for part in PARTS for it in sorted((HERE / NAME).glob(part))]
            for it in files:
                kept.add(it, f"{NAME}-{VERSION}/{it.relative_to(HERE)}")
            kept.add(described, f"{NAME}-{VERSION}/PKG-INFO")
    return name
