//! Links libpaqlluri.a: that of the repository, or that of the folder PAQLLURI_LIB.

use std::env;
use std::path::PathBuf;

fn main() {
    println!("cargo::rerun-if-env-changed=PAQLLURI_LIB");
    if variable("CARGO_CFG_TARGET_ARCH") != "x86_64" {
        println!("cargo::error=libpaqlluri.a is built for x86-64 alone");
        return;
    }
    let folder = env::var_os("PAQLLURI_LIB").map_or_else(repository, PathBuf::from);
    let library = folder.join("libpaqlluri.a");
    if !library.is_file() {
        println!(
            "cargo::error=there is no {}: run `tools/library` in the repository, \
             or name the folder that has it in PAQLLURI_LIB",
            library.display()
        );
        return;
    }
    println!("cargo::rerun-if-changed={}", library.display());
    println!("cargo::rustc-link-search=native={}", folder.display());
    println!("cargo::rustc-link-lib=static=paqlluri");
}

/// Where `tools/library` writes in the repository that this crate stands in.
fn repository() -> PathBuf {
    PathBuf::from(variable("CARGO_MANIFEST_DIR")).join("../../target/staticlib")
}

fn variable(name: &str) -> String {
    env::var(name).expect("cargo sets it")
}
