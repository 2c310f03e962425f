//! Links target/staticlib/libexports.a, which `tools/library` builds.

use std::env::var_os;
use std::path::PathBuf;

fn main() {
    let root = PathBuf::from(var_os("CARGO_MANIFEST_DIR").expect("cargo sets it")).join("..");
    let folder = root.join("target").join("staticlib");
    let archive = folder.join("libexports.a");
    println!("cargo:rerun-if-changed={}", archive.display());
    if !archive.is_file() {
        panic!("target/staticlib/libexports.a is missing: tools/library, at the root of the repository, builds it");
    }
    println!("cargo:rustc-link-search=native={}", folder.display());
    println!("cargo:rustc-link-lib=static=exports");
}
