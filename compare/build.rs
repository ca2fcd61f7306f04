//! Links the proved library, the archive that `make library` leaves in the repository.

use std::env;
use std::path::PathBuf;

fn main() {
    println!("cargo::rerun-if-changed=build.rs");
    let package = env::var_os("CARGO_MANIFEST_DIR").expect("cargo names the package's folder");
    let folder = PathBuf::from(package).join("../target/staticlib");
    let archive = folder.join("libbusdekker.a");
    println!("cargo::rerun-if-changed={}", archive.display());
    if !archive.exists() {
        println!("cargo::error=the proved library target/staticlib/libbusdekker.a is missing");
        println!("cargo::error=build it with `make library` from the repository root");
        return;
    }
    println!("cargo::rustc-link-search=native={}", folder.display());
    println!("cargo::rustc-link-lib=static=busdekker");
}
