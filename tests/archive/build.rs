//! Links target/staticlib/libcinder.a of this repository, or the archive in the
//! folder that CINDER_ARCHIVE_DIR names.

use std::env;
use std::path::{Path, PathBuf};

fn main() {
    println!("cargo:rerun-if-env-changed=CINDER_ARCHIVE_DIR");
    println!("cargo:rerun-if-changed=build.rs");
    let folder = match env::var_os("CINDER_ARCHIVE_DIR") {
        Some(named) => PathBuf::from(named),
        None => {
            Path::new(&env::var_os("CARGO_MANIFEST_DIR").unwrap()).join("../../target/staticlib")
        }
    };
    let archive = folder.join("libcinder.a");
    if !archive.is_file() {
        eprintln!("no archive at {}: build it with `make built` at the top", archive.display());
        std::process::exit(1);
    }
    println!("cargo:rerun-if-changed={}", archive.display());
    println!("cargo:rustc-link-search=native={}", folder.display());
    println!("cargo:rustc-link-lib=static:-bundle=cinder");
}
