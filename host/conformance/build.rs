//! Hands the tests the path of the archive that the wrapper links.

use std::env;

fn main() {
    println!("cargo::rerun-if-env-changed=DEP_TIGBAYON_ARCHIVE");
    let archive = env::var("DEP_TIGBAYON_ARCHIVE").expect("tigbayon's build script sets it");
    println!("cargo::rustc-env=TIGBAYON_ARCHIVE={archive}");
}
