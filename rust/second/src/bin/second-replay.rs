//! Replays standard input to standard output, as the product's replay program does.

use std::io::{stdin, stdout};
use std::process::ExitCode;

fn main() -> ExitCode {
    match second::replay::replay(stdin().lock(), stdout().lock()) {
        Ok(()) => ExitCode::SUCCESS,
        Err(error) => {
            eprintln!("second-replay: {error}");
            ExitCode::FAILURE
        }
    }
}
