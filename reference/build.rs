//! Links the programs that call the proved library with its static archive, where there is one.
//! The library, the tests and the other programs need none.

use std::env;
use std::path::{Path, PathBuf};

/// Overrides where the archive stands.
const ARCHIVE: &str = "GLYKORANT_ARCHIVE";
const LINKED: [&str; 2] = ["compare", "bench"];

fn main() {
    println!("cargo::rustc-check-cfg=cfg(archive)");
    println!("cargo::rerun-if-env-changed={ARCHIVE}");
    let archive = archive();
    println!("cargo::rerun-if-changed={}", archive.display());
    if !archive.is_file() {
        return;
    }
    println!("cargo::rustc-cfg=archive");
    for program in LINKED {
        println!("cargo::rustc-link-arg-bin={program}={}", archive.display());
    }
}

fn archive() -> PathBuf {
    match env::var_os(ARCHIVE) {
        Some(path) => path.into(),
        None => {
            let package = env::var_os("CARGO_MANIFEST_DIR").expect("cargo sets it");
            Path::new(&package).join("../target/staticlib/libcapi.a")
        }
    }
}
