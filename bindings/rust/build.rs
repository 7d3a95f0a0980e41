//! Finds libgronwythal.a, in the folder GRONWYTHAL_LIB_DIR or else where `./build` puts it, and has it linked.

use std::env;
use std::path::{Path, PathBuf};

const FOLDER: &str = "GRONWYTHAL_LIB_DIR";
const ARCHIVE: &str = "libgronwythal.a";

fn folder() -> PathBuf {
    match env::var_os(FOLDER) {
        Some(folder) => PathBuf::from(folder),
        None => Path::new(env!("CARGO_MANIFEST_DIR")).join("../../target/gronwythal/lib"),
    }
}

/// Why the archive cannot be linked.
fn trouble(archive: &Path) -> Option<String> {
    let (arch, os) = (
        env::var("CARGO_CFG_TARGET_ARCH").ok()?,
        env::var("CARGO_CFG_TARGET_OS").ok()?,
    );
    if (arch.as_str(), os.as_str()) != ("x86_64", "linux") {
        return Some(format!(
            "{ARCHIVE} is made for x86_64 linux, and this build is for {arch} {os}"
        ));
    }
    if !archive.is_file() {
        return Some(format!(
            "there is no {}: run ./build at the top of the repository, which proves and builds it, or set {FOLDER} to the folder that has {ARCHIVE}",
            archive.display()
        ));
    }
    None
}

fn main() {
    let folder = folder();
    let archive = folder.join(ARCHIVE);
    println!("cargo::rerun-if-env-changed={FOLDER}");
    println!("cargo::rerun-if-changed={}", archive.display());
    match trouble(&archive) {
        Some(reason) => println!("cargo::error={reason}"),
        None => {
            println!("cargo::rustc-link-search=native={}", folder.display());
            println!("cargo::rustc-link-lib=static=gronwythal");
        }
    }
}
