//! Links libsievecrest.a: from the folder that SIEVECREST_LIB_DIR names, else from where `rt lib` in crates/sievecrest puts it.

use std::env::var_os;
use std::path::{Path, PathBuf};
use std::process::exit;

const FOLDER: &str = "SIEVECREST_LIB_DIR";

/// A relative folder counts from the crate's own one, since that is where build scripts and the linker start.
fn folder() -> PathBuf {
    let here = var_os("CARGO_MANIFEST_DIR").unwrap_or_default();
    let named = var_os(FOLDER).unwrap_or_else(|| "../crates/sievecrest/out".into());
    Path::new(&here).join(named)
}

/// The library's machine code is for one kind of machine; on another the linker would say so in a less clear way.
fn check_target() {
    let is = |name: &str, wanted: &str| var_os(name).map_or(true, |x| x == wanted);
    if !is("CARGO_CFG_TARGET_ARCH", "x86_64") || !is("CARGO_CFG_TARGET_OS", "linux") {
        eprintln!("libsievecrest.a is for Linux on x86-64: build for the target x86_64-unknown-linux-gnu");
        exit(1);
    }
}

fn main() {
    check_target();
    let folder = folder();
    let library = folder.join("libsievecrest.a");
    println!("cargo:rerun-if-env-changed={FOLDER}");
    println!("cargo:rerun-if-changed={}", library.display());
    if !library.is_file() {
        let at = library.display();
        eprintln!("{at} is missing: run `rt lib` in crates/sievecrest, or `./test`, in the repository, or name the library's folder in {FOLDER}");
        exit(1);
    }
    println!("cargo:rustc-link-search=native={}", folder.display());
    println!("cargo:rustc-link-lib=static=sievecrest");
}
