//! Finds the archive that host/archive makes. This script proves and builds nothing itself.
use std::path::Path;

fn main() {
    if std::env::var_os("CARGO_FEATURE_PIPED").is_some() {
        return;
    }
    let dir = Path::new(env!("CARGO_MANIFEST_DIR")).join("../../target/host");
    let archive = dir.join("libhingefrost.a");
    println!("cargo:rerun-if-changed={}", archive.display());
    assert!(archive.exists(), "no {}: run host/archive first", archive.display());
    println!("cargo:rustc-link-search=native={}", dir.display());
    println!("cargo:rustc-link-lib=static=hingefrost");
}
