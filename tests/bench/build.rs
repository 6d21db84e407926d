//! Compiles the C calls of plain/ with gcc and links them.

use std::env;
use std::path::{Path, PathBuf};
use std::process::Command;

const SOURCES: [&str; 5] =
    ["line_machine", "list_reader", "packet_reader", "packet_writer", "tuned_list_reader"];
const FLAGS: [&str; 5] = ["-O2", "-std=c11", "-Wall", "-Wextra", "-Werror"];

fn run(command: &mut Command) {
    match command.status() {
        Ok(status) if status.success() => {}
        Ok(status) => panic!("{command:?}: {status}"),
        Err(error) => panic!("{command:?}: {error}"),
    }
}

fn main() {
    println!("cargo:rerun-if-changed=build.rs");
    println!("cargo:rerun-if-changed=plain");
    println!("cargo:rerun-if-changed=../../include/cinder.h");
    let here = PathBuf::from(env::var_os("CARGO_MANIFEST_DIR").unwrap());
    let out = PathBuf::from(env::var_os("OUT_DIR").unwrap());
    let object = |name: &str| out.join(name).with_extension("o");
    for name in SOURCES {
        run(Command::new("gcc")
            .args(FLAGS)
            .arg("-I")
            .arg(here.join("../../include"))
            .arg("-c")
            .arg(here.join("plain").join(name).with_extension("c"))
            .arg("-o")
            .arg(object(name)));
    }
    link(&out, SOURCES.map(object).as_slice());
}

fn link(out: &Path, objects: &[PathBuf]) {
    let archive = out.join("libplain.a");
    // ar would add to an archive of an earlier build.
    let _ = std::fs::remove_file(&archive);
    run(Command::new("ar").arg("crs").arg(&archive).args(objects));
    println!("cargo:rustc-link-search=native={}", out.display());
    println!("cargo:rustc-link-lib=static=plain");
}
