//! Links the static library: target/staticlib of the repository, or the folder named by GRONWYTHAL_LIB_DIR.

use std::env;
use std::path::{Path, PathBuf};
use std::process::exit;

fn main() {
    println!("cargo::rerun-if-env-changed=GRONWYTHAL_LIB_DIR");
    let folder = match env::var_os("GRONWYTHAL_LIB_DIR") {
        Some(folder) => PathBuf::from(folder),
        None => Path::new(env!("CARGO_MANIFEST_DIR")).join("../../target/staticlib"),
    };
    let archive = folder.join("libcapi.a");
    println!("cargo::rerun-if-changed={}", archive.display());
    if !archive.exists() {
        eprintln!(
            "bench: there is no {}: 'tools/make capi_c' builds it",
            archive.display()
        );
        exit(1);
    }
    println!("cargo::rustc-link-search=native={}", folder.display());
    println!("cargo::rustc-link-lib=static=capi");
}
