//! Finds the product's archive: in LADLEMOSS_LIB_DIR, else in the project's target/staticlib.

use std::env;
use std::path::{Path, PathBuf};

fn main() {
    println!("cargo:rerun-if-env-changed=LADLEMOSS_LIB_DIR");
    let directory = match env::var_os("LADLEMOSS_LIB_DIR") {
        Some(directory) => PathBuf::from(directory),
        None => Path::new(env!("CARGO_MANIFEST_DIR")).join("../../target/staticlib"),
    };
    let archive = directory.join("libladlemoss.a");
    println!("cargo:rerun-if-changed={}", archive.display());
    println!("cargo:rustc-link-search=native={}", directory.display());
    println!("cargo:rustc-link-lib=static=ladlemoss");
    println!("cargo:rustc-env=LADLEMOSS_ARCHIVE={}", archive.display());
}
