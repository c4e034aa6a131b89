//! The header and the C example: built with the system's C compiler, and held to the Rust example.

use std::env;
use std::path::Path;
use std::process::Command;

#[allow(dead_code)]
#[path = "../examples/best.rs"]
mod best;

const EXPECTED: &str = "bid 10.0100 total 150 orders 1\noffer 10.0300 total 400 orders 1\n";

#[test]
fn the_rust_example_prints_what_is_expected() {
    assert_eq!(best::lines().as_deref(), Ok(EXPECTED));
}

#[test]
fn the_c_example_prints_the_same() {
    let project = Path::new(env!("CARGO_MANIFEST_DIR")).join("../..");
    let program = Path::new(env!("CARGO_TARGET_TMPDIR")).join("best");
    let compiler = env::var_os("CC").unwrap_or_else(|| "cc".into());
    let built = Command::new(compiler)
        .args(["-std=c99", "-Wall", "-Wextra", "-pedantic", "-Werror", "-I"])
        .arg(project.join("include"))
        .arg(project.join("examples/best.c"))
        .arg(face::ARCHIVE)
        .arg("-o")
        .arg(&program)
        .status();
    assert!(built.expect("a C compiler").success());
    let run = Command::new(&program).output().expect("the program runs");
    assert_eq!(String::from_utf8_lossy(&run.stdout), EXPECTED);
    assert!(run.status.success());
}
