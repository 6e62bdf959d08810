//! Links target/staticlib/libsumacadze.a of this repository, or that of the folder SUMACADZE_LIB.
use std::env;
use std::path::PathBuf;

fn main() {
    println!("cargo:rerun-if-env-changed=SUMACADZE_LIB");
    let folder = match env::var_os("SUMACADZE_LIB") {
        Some(folder) => PathBuf::from(folder),
        None => PathBuf::from(env::var_os("CARGO_MANIFEST_DIR").expect("cargo sets it"))
            .join("../target/staticlib"),
    };
    let archive = folder.join("libsumacadze.a");
    println!("cargo:rerun-if-changed={}", archive.display());
    if !archive.exists() {
        println!(
            "cargo:warning={} is not there: `bin/library` makes it",
            archive.display()
        );
    }
    println!("cargo:rustc-link-search=native={}", folder.display());
    println!("cargo:rustc-link-lib=static=sumacadze");
}
