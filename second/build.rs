//! Finds the built static library for the bins.
//!
//! Without an archive the bins still build and say that there is nothing to
//! compare with, so that the library and its tests never depend on it.
//!
//! With `CHANGEOVER_PLACE=n` the code of `bench` is linked 16 n bytes further on: how
//! fast a loop is depends on where it lies, and a function lies anywhere that 16 divides.

use std::env;
use std::path::PathBuf;

fn main() {
    println!("cargo:rustc-check-cfg=cfg(archive)");
    println!("cargo:rerun-if-env-changed=CHANGEOVER_LIB_DIR");
    println!("cargo:rerun-if-env-changed=CHANGEOVER_PLACE");
    println!("cargo:rerun-if-changed=build.rs");
    if let Some(place) = env::var("CHANGEOVER_PLACE").ok().and_then(|n| n.parse::<usize>().ok()) {
        // Far behind whatever stands before the code.
        let start = (1 << 24) + 16 * place;
        println!("cargo:rustc-link-arg-bin=bench=-Wl,--section-start=.text={start:#x}");
    }

    let folder = env::var_os("CHANGEOVER_LIB_DIR").map_or_else(default_folder, PathBuf::from);
    let archive = folder.join("libchangeover.a");
    // A path that is missing makes cargo run this script again next time.
    println!("cargo:rerun-if-changed={}", archive.display());
    if archive.is_file() {
        println!("cargo:rustc-cfg=archive");
        println!("cargo:rustc-link-search=native={}", folder.display());
    }
}

/// The parent of this folder is the repository root.
fn default_folder() -> PathBuf {
    let here = PathBuf::from(env::var_os("CARGO_MANIFEST_DIR").expect("set by cargo"));
    here.parent().unwrap_or(&here).join("target").join("staticlib")
}
