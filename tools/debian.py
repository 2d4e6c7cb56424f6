"""The Debian packages of a release, as dpkg-deb makes them: the library, what a compiler needs of it, the programs, and the Python
package with the stable ABI."""
import hashlib
import pathlib
import tempfile
import zipfile

import c_library
import libraries
from c_library import ABI, command
from packing import Link, laid_out, squeezed
from processes import run_to_end
from version import VERSION

MAINTAINER = "Boyhagut maintainers <maintainers@users.noreply.boyhagut.example>"
SOURCE = "imgref"
COPYRIGHT = """Format: https://www.debian.org/doc/packaging-manuals/copyright-format/1.0/
Upstream-Name: imgref

Files: *
Copyright: 2026 Boyhagut maintainers
License: Apache-2.0
 On Debian systems, the full text of the Apache License 2.0 is in the file
 /usr/share/common-licenses/Apache-2.0.
"""
LIBC = "libc6 (>= 2.17)"
# What imgref-hide needs.
HIDING = "python3 (>= 3.10), python3-numpy, python3-opencv, python3-pil, opencv-data, ffmpeg"
ABOUT = " An image is a list of cells with a width, a height and a stride. Windows of it\n are filled, copied, turned and counted without a copy of the image. The calls\n are proved: no access outside an image, and exactly the pixels that are asked.\n"


def parts(its):
    """Each package: the line that says what it is, its section, what it depends on, and its files."""
    tree = {name.split("/", 1)[1]: data for name, data in its.tree(with_programs=True).items()}
    lib = f"usr/lib/{its.name}-linux-gnu"
    shared = f"libimgref.so.{ABI}"
    own = {f"usr/{name}": data for name, data in tree.items() if name.startswith(("bin/", "include/"))}
    pages = {f"usr/{name}.gz": squeezed(data) for name, data in tree.items() if name.startswith("share/man/")}
    config = tree["lib/pkgconfig/imgref.pc"].replace(b"prefix=${pcfiledir}/../..", b"prefix=/usr").replace(b"${prefix}/lib", f"/{lib}".encode())
    cmake = {f"{lib}/cmake/imgref/{name}": text.encode() for name, text in cmake_files(its).items()}
    library = {f"{lib}/{shared}": tree[f"lib/{shared}"]}
    developer = {name: data for name, data in own.items() if "/include/" in name} | {f"{lib}/libimgref.so": Link(shared), f"{lib}/libimgref.a": tree["lib/libimgref.a"], f"{lib}/pkgconfig/imgref.pc": config} | cmake
    developer |= {name: data for name, data in pages.items() if "/man3/" in name}
    programs = {name: data for name, data in own.items() if "/bin/" in name} | {name: data for name, data in pages.items() if "/man1/" in name}
    programs |= {f"usr/{name}".replace("/site-functions/", "/vendor-completions/").replace("/doc/imgref/", "/doc/imgref-tools/"): data for name, data in tree.items() if name in c_library.scripts_and_pages() and not name.startswith("bin/")}
    return {
        "libimgref1": ("strided 2-D images over proved calls - library", "libs", LIBC, library),
        "libimgref-dev": ("strided 2-D images over proved calls - development files", "libdevel", f"libimgref1 (= {VERSION})", developer),
        "imgref-tools": ("covers parts of video and pictures, and runs scripts of pixels", "graphics", f"libc6 (>= 2.34), {HIDING}", programs),
        "python3-imgref": ("strided 2-D images over proved calls - Python package", "python", f"python3 (>= 3.11), {LIBC}", {}),
    }


def cmake_files(its):
    """The files for CMake with the paths of Debian's folders."""
    return {name: text.replace("/../../..", "/../../../..").replace("${_imgref_prefix}/lib/", f"${{_imgref_prefix}}/lib/{its.name}-linux-gnu/") for name, text in c_library.cmake().items()}


def python_files(wheel):
    """The files of the Python package, from its wheel."""
    with zipfile.ZipFile(wheel) as packed:
        kept = [it for it in packed.namelist() if not it.endswith(("/RECORD", "/LICENSE"))]
        return {f"usr/lib/python3/dist-packages/{it}": packed.read(it) for it in kept}


def control(name, its, line, section, depends, size):
    """The file that describes a package."""
    head = {"Package": name, "Source": SOURCE, "Version": VERSION, "Architecture": its.debian, "Maintainer": MAINTAINER, "Installed-Size": size, "Depends": depends, "Section": section, "Priority": "optional"}
    if name.startswith("lib"):
        head["Multi-Arch"] = "same"
    return "".join(f"{it}: {text}\n" for it, text in head.items()) + f"Description: {line}\n{ABOUT}"


def changelog(day):
    """The changes as Debian's form has them: CHANGELOG.md has the whole list."""
    return f"{SOURCE} ({VERSION}) unstable; urgency=medium\n\n  * The changes are in CHANGELOG.md of the sources.\n\n -- {MAINTAINER}  {day}\n".encode()


def write(name, its, described, seconds, day, folder):
    """Writes a package into a folder."""
    line, section, depends, files = described
    notes = {f"usr/share/doc/{name}/copyright": COPYRIGHT.encode(), f"usr/share/doc/{name}/changelog.gz": squeezed(changelog(day))}
    with tempfile.TemporaryDirectory(prefix="imgref-deb-") as top:
        top = pathlib.Path(top)
        laid_out(top, files | notes)
        size = sum(-(-len(it) // 1024) for it in {**files, **notes}.values() if isinstance(it, bytes))
        texts = {"control": control(name, its, line, section, depends, size), "md5sums": sums(files | notes)}
        if name == f"libimgref{ABI}":
            texts |= {"shlibs": f"libimgref {ABI} {name} (>= {VERSION})\n", "triggers": "activate-noawait ldconfig\n"}
        laid_out(top / "DEBIAN", {it: text.encode() for it, text in texts.items()})
        command("env", f"SOURCE_DATE_EPOCH={seconds}", "dpkg-deb", "--root-owner-group", "-Zxz", "--threads-max=1", "--build", top, folder / f"{name}_{VERSION}_{its.debian}.deb")


def sums(files):
    """What dpkg --verify reads."""
    return "".join(f"{hashlib.md5(data).hexdigest()}  {name}\n" for name, data in sorted(files.items()) if isinstance(data, bytes))


def build(folder, seconds):
    """Writes the packages for this machine's processor, the Python one from its wheel in the same folder."""
    its = libraries.HERE
    day = run_to_end(["date", "-u", "-R", "-d", f"@{seconds}"]).stdout.strip()
    described = parts(its)
    wheel = next(folder.glob(f"imgref-{VERSION}-cp311-abi3-*_{its.name}.whl"))
    described["python3-imgref"] = (*described["python3-imgref"][:3], python_files(wheel))
    for name, it in described.items():
        write(name, its, it, seconds, day, folder)
