//! Links the program, and nothing else, with the library's archive: that in GRONWYTHAL_LIB_DIR, else the one that is built
//! in the repository.

use std::env;
use std::path::{Path, PathBuf};

fn main() {
    let beside = Path::new(env!("CARGO_MANIFEST_DIR")).join("../../target/staticlib");
    let folder = env::var_os("GRONWYTHAL_LIB_DIR").map_or(beside, PathBuf::from);
    let archive = folder.join("libcapi.a");
    println!("cargo:rerun-if-env-changed=GRONWYTHAL_LIB_DIR");
    println!("cargo:rerun-if-changed={}", archive.display());
    println!("cargo:rustc-link-arg-bins={}", archive.display());
}
