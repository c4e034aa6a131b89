//! `streams --make` writes the stored streams and their records.

use std::process::ExitCode;
use std::{env, fs, io};

fn main() -> ExitCode {
    let words: Vec<String> = env::args().skip(1).collect();
    if words != ["--make"] {
        eprintln!("usage: streams --make");
        return ExitCode::from(2);
    }
    match make() {
        Ok(()) => ExitCode::SUCCESS,
        Err(error) => {
            eprintln!("streams: {error}");
            ExitCode::FAILURE
        }
    }
}

fn make() -> io::Result<()> {
    fs::create_dir_all(streams::folder())?;
    for stored in streams::all() {
        fs::write(stored.stream_file(), &stored.stream)?;
        fs::write(stored.records_file(), stored.records())?;
    }
    Ok(())
}
