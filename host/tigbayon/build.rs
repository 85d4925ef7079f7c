//! Finds libtigbayon.a: in the folder that TIGBAYON_LIB_DIR names, or else in
//! crates/tigbayon/out of the repository, where `rt lib` writes it. A
//! dependent's build script finds its path in DEP_TIGBAYON_ARCHIVE.

use std::env;
use std::path::Path;

const LIB_DIR: &str = "TIGBAYON_LIB_DIR";
const DEFAULT_LIB_DIR: &str = "../../crates/tigbayon/out";

fn main() {
    let manifest_dir = env::var_os("CARGO_MANIFEST_DIR").expect("cargo sets it");
    let named = env::var_os(LIB_DIR).unwrap_or_else(|| DEFAULT_LIB_DIR.into());
    let lib_dir = Path::new(&manifest_dir).join(named);
    let archive = lib_dir.join("libtigbayon.a");

    println!("cargo::rerun-if-env-changed={LIB_DIR}");
    println!("cargo::rerun-if-changed={}", archive.display());
    println!("cargo::rustc-link-search=native={}", lib_dir.display());
    println!("cargo::rustc-link-lib=static=tigbayon");
    println!("cargo::metadata=archive={}", archive.display());
    if !archive.is_file() {
        println!(
            "cargo::error={} is missing: run `rt lib --cpu x86-64` in crates/tigbayon \
             of the repository, or name the archive's folder in {LIB_DIR}",
            archive.display()
        );
    }
}
