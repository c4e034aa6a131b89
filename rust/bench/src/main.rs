//! Measures the product against Rust written for speed: `read`, `apply`, the desk's questions, how
//! they grow with the number of live orders, and the replay program.
//!
//! `bench [read|apply|ask|growth|replay] [R]`: one of the tables or all; R rounds of each call for
//! each workload.

mod apply;
mod ask;
mod books;
mod day;
mod desk;
mod growth;
mod machine;
mod measure;
mod questions;
mod read;
mod replay;
mod report;
mod rounds;
mod stretch;
mod workload;

use std::process::ExitCode;

/// The tables by their names; each prints itself, and is false if the calls ever differ.
type Table = fn(Option<usize>) -> bool;
const TABLES: [(&str, Table); 5] = [
    ("read", read::table),
    ("apply", apply::table),
    ("ask", ask::table),
    ("growth", growth::table),
    ("replay", replay::table),
];

fn main() -> ExitCode {
    let mut words = std::env::args().skip(1).peekable();
    if words.next_if(|word| word == replay::SECOND).is_some() {
        return replay::second();
    }
    let is_table = |word: &String| TABLES.iter().any(|(name, _)| name == word);
    let only = words.next_if(is_table);
    let rounds = match words.next().map(|word| word.parse()) {
        None => None,
        Some(Ok(rounds)) if rounds > 0 => Some(rounds),
        Some(_) => return usage(),
    };
    if words.next().is_some() {
        return usage();
    }
    println!("Measured on {}.", machine::machine());
    let mut same = true;
    for (name, table) in TABLES {
        if only.as_deref().is_none_or(|only| only == name) {
            println!("\n## {name}\n");
            same &= table(rounds);
        }
    }
    match same {
        true => ExitCode::SUCCESS,
        false => ExitCode::FAILURE,
    }
}

fn usage() -> ExitCode {
    eprintln!("usage: bench [read|apply|ask|growth|replay] [rounds]");
    ExitCode::from(2)
}
