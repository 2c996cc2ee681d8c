//! Links the proved code, a static library that `tools/library` makes.

use std::path::PathBuf;

fn main() {
    let here = std::env::var_os("CARGO_MANIFEST_DIR").expect("cargo says where the package stands");
    let folder = PathBuf::from(here).join("../target/lib");
    let library = folder.join("libquandrilof.a");
    println!("cargo:rerun-if-changed=build.rs");
    println!("cargo:rerun-if-changed={}", library.display());
    if !library.is_file() {
        eprintln!("target/lib/libquandrilof.a is missing. Make it: run `bash tools/library` in the project's folder.");
        std::process::exit(1);
    }
    println!("cargo:rustc-link-search=native={}", folder.display());
    println!("cargo:rustc-link-lib=static=quandrilof");
}
