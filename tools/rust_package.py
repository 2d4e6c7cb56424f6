"""The Rust package of a release: what `cargo package` makes of bindings/rust with the archives for both processors in it."""
import os
import pathlib
import shutil
import tempfile

import libraries
from c_library import Failure
from processes import run_to_end
from workspace import ROOT

SOURCES = ROOT / "bindings/rust"
PARTS = ("Cargo.toml", "README.md", "build.rs", "src")


def staged(folder):
    """Copies what the package is made of into a folder."""
    for it in PARTS:
        (shutil.copytree if (SOURCES / it).is_dir() else shutil.copyfile)(SOURCES / it, folder / it)
    shutil.copyfile(ROOT / "LICENSE", folder / "LICENSE")
    for it in libraries.BOTH:
        (folder / "lib" / it.triple).mkdir(parents=True)
        shutil.copyfile(it.out() / "libimgref.a", folder / "lib" / it.triple / "libimgref.a")


def build(folder):
    """Writes the package into a folder, once cargo has built it from what is packed alone."""
    if not shutil.which("cargo"):
        raise Failure("cargo isn't on this machine")
    with tempfile.TemporaryDirectory(prefix="imgref-crate-") as top:
        top = pathlib.Path(top)
        (top / "crate").mkdir()
        staged(top / "crate")
        env = {name: text for name, text in os.environ.items() if name not in ("IMGREF_LIB", "RUSTFLAGS")} | {"CARGO_TARGET_DIR": str(top / "target")}
        ran = run_to_end(["cargo", "package", "--offline", "--allow-dirty", "--quiet"], cwd=top / "crate", env=env)
        made = [*(top / "target/package").glob("*.crate")]
        if ran.returncode or len(made) != 1:
            raise Failure(f"{ran.stdout}{ran.stderr}\ncargo package made no package")
        shutil.copyfile(made[0], folder / made[0].name)
