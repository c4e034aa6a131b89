//! Shows the records of a replay to a person: the ladders, the refusals, and the counts.
//!
//! `show RECORDS STREAM` prints; `show --make FILE` writes the day that ships with the project. The
//! symbols and the types of refused messages are looked up in the stream that was replayed.

mod records;
mod stream;
mod text;

use records::Records;
use std::fs;
use std::io::{self, Write};
use std::process::ExitCode;
use stream::Stream;

fn main() -> ExitCode {
    let words: Vec<String> = std::env::args().skip(1).collect();
    let words: Vec<&str> = words.iter().map(String::as_str).collect();
    let done = match words[..] {
        ["--make", file] => fs::write(file, samples::day()).map_err(|error| told(file, &error)),
        [records, stream] => show(records, stream),
        _ => {
            eprintln!("usage: show RECORDS STREAM | show --make FILE");
            return ExitCode::from(2);
        }
    };
    match done {
        Ok(()) => ExitCode::SUCCESS,
        Err(error) => {
            eprintln!("show: {error}");
            ExitCode::FAILURE
        }
    }
}

fn show(records: &str, stream: &str) -> Result<(), String> {
    let read = |file| fs::read(file).map_err(|error| told(file, &error));
    let bytes = read(stream)?;
    let stream = Stream::of(&bytes);
    let found = Records::read(&read(records)?).map_err(|error| format!("{records}: {error}"))?;
    let text = text::text(&found, &stream)?;
    io::stdout()
        .write_all(text.as_bytes())
        .map_err(|error| told("standard output", &error))
}

fn told(what: &str, error: &io::Error) -> String {
    format!("{what}: {error}")
}
