//! Drives the product and the independent second program with the same inputs and compares the
//! number and all values of every answer, both whole tables after every message applied, the answers
//! to the desk's questions, and the bytes that replaying leaves.
//!
//! `compare [N]`: N messages of generated flow to apply, and N to replay, after the fixed ones; half
//! as many random inputs to read. Ends with 1 on any mismatch, or if some number (0 to 6 when
//! reading, 0 to 14 when applying, 0 to 12 when replaying, and those of each question), or some type,
//! was never met.

mod applying;
mod asking;
mod memory;
mod messages;
mod reading;
mod replaying;
mod reporting;

use applying::{applying, BothTables};
use asking::asking;
use reading::reading;
use replaying::replaying;
use reporting::print_times_met;
use std::path::Path;
use std::process::ExitCode;

/// The short form, a part of the project's tests.
const MESSAGES: u64 = 300_000;

fn main() -> ExitCode {
    let count = match std::env::args().nth(1).map(|word| word.parse()) {
        None => MESSAGES,
        Some(Ok(count)) => count,
        Some(Err(_)) => {
            eprintln!("usage: compare [messages of generated flow]");
            return ExitCode::from(2);
        }
    };
    let compared = match streams::replay_program() {
        Ok(program) => compare(&program, count),
        Err(advice) => {
            eprintln!("{advice}");
            false
        }
    };
    match compared {
        true => ExitCode::SUCCESS,
        false => ExitCode::FAILURE,
    }
}

/// All parts, one after the other; true if all was met and nothing differed.
fn compare(program: &Path, count: u64) -> bool {
    let mut both = BothTables::new();
    let read = reading(count / 2);
    let applied = applying(&mut both, count);
    asking(&mut both.asker, count / 2);
    let replayed = replaying(program, count).expect("the replay program can be run");
    let parts = [
        read.finish(),
        applied.finish(),
        both.asker.counts.finish(),
        replayed.finish(),
    ];
    print_times_met(&[
        ("reading", read.met(), read.messages()),
        ("applying", applied.met(), applied.messages()),
        ("replaying", replayed.met(), replayed.messages()),
    ]);
    parts.iter().all(|&good| good)
}
