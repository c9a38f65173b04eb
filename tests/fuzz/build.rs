//! Links libsievecrest.a: from the folder that SIEVECREST_LIB_DIR names, else from where `rt lib` in crates/sievecrest puts it.

use std::env::var_os;
use std::path::{Path, PathBuf};
use std::process::exit;

const FOLDER: &str = "SIEVECREST_LIB_DIR";

/// A relative folder counts from the package's own one, since that is where build scripts and the linker start.
fn folder() -> PathBuf {
    let here = var_os("CARGO_MANIFEST_DIR").unwrap_or_default();
    let named = var_os(FOLDER).unwrap_or_else(|| "../../crates/sievecrest/out".into());
    Path::new(&here).join(named)
}

fn main() {
    let folder = folder();
    let library = folder.join("libsievecrest.a");
    println!("cargo:rerun-if-env-changed={FOLDER}");
    println!("cargo:rerun-if-changed={}", library.display());
    if !library.is_file() {
        eprintln!("{} is missing: run `rt lib` in crates/sievecrest, or name the library's folder in {FOLDER}", library.display());
        exit(1);
    }
    println!("cargo:rustc-link-search=native={}", folder.display());
    println!("cargo:rustc-link-lib=static=sievecrest");
}
