//! Finds the library: in the folder that IMGREF_LIB names, else in this package for the target's
//! processor, else in the repository that this crate is in, after `make c`, else where the linker
//! looks by itself.

use std::env;
use std::path::Path;

fn main() {
    println!("cargo:rerun-if-env-changed=IMGREF_LIB");
    let here = Path::new(env!("CARGO_MANIFEST_DIR"));
    let says = |name: &str| env::var(name).unwrap_or_default();
    // (the archive needs `memcpy`, `memmove` and `memset` alone, so any C library of that processor will do)
    let packed = here.join(format!("lib/{}-unknown-linux-gnu", says("CARGO_CFG_TARGET_ARCH")));
    let built = here.join("../../out/c");
    if let Ok(folder) = env::var("IMGREF_LIB") {
        println!("cargo:rustc-link-search=native={}", folder);
    } else if says("CARGO_CFG_TARGET_OS") == "linux" && packed.join("libimgref.a").is_file() {
        println!("cargo:rustc-link-search=native={}", packed.display());
        println!("cargo:rerun-if-changed={}", packed.join("libimgref.a").display());
    } else if built.join("libimgref.a").is_file() {
        println!("cargo:rustc-link-search=native={}", built.display());
        println!("cargo:rerun-if-changed={}", built.join("libimgref.a").display());
    }
    println!("cargo:rustc-link-lib=static=imgref");
}
