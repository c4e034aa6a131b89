//! Where the product's replay program is.

use std::env;
use std::path::{Path, PathBuf};

/// The program that `./test` and `./show` build, or the one that LADLEMOSS_REPLAY names; else what to do.
pub fn replay_program() -> Result<PathBuf, String> {
    let project = Path::new(env!("CARGO_MANIFEST_DIR")).ancestors().nth(2);
    let project = project.expect("the project's folder");
    let path = match env::var_os("LADLEMOSS_REPLAY") {
        Some(path) => path.into(),
        None => project.join("target/bin/replay"),
    };
    match path.is_file() {
        true => Ok(path),
        false => {
            let path = path.display();
            Err(format!("no replay program at {path}: run `./show` first"))
        }
    }
}
