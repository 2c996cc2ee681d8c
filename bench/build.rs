//! Compiles the decision in C.

use std::env::var;
use std::path::PathBuf;
use std::process::Command;

fn main() {
    println!("cargo:rerun-if-changed=build.rs");
    println!("cargo:rerun-if-changed=indexed.c");
    let out = PathBuf::from(var("OUT_DIR").expect("cargo names a folder"));
    let object = out.join("indexed.o");
    run(Command::new("cc").args(["-O3", "-Wall", "-Wextra", "-c", "indexed.c", "-o"]).arg(&object));
    run(Command::new("ar").arg("crs").arg(out.join("libindexed.a")).arg(&object));
    println!("cargo:rustc-link-search=native={}", out.display());
    println!("cargo:rustc-link-lib=static=indexed");
}

fn run(command: &mut Command) {
    let status = command.status().unwrap_or_else(|error| panic!("{command:?}: {error}"));
    assert!(status.success(), "{command:?}: {status}");
}
