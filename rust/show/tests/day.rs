//! The stored day, and the program that shows its records.

use second::replay::replay;
use std::fs;
use std::path::Path;
use std::process::{Command, Output};

const DAY: &str = concat!(env!("CARGO_MANIFEST_DIR"), "/../../sample/day.itch");

/// Runs the program on such records and the day.
fn show(name: &str, records: &[u8]) -> Output {
    let file = Path::new(env!("CARGO_TARGET_TMPDIR")).join(name);
    fs::write(&file, records).unwrap();
    let mut command = Command::new(env!("CARGO_BIN_EXE_show"));
    command.arg(file).arg(DAY).output().unwrap()
}

fn records() -> Vec<u8> {
    let mut records = vec![];
    replay(&samples::day()[..], &mut records).unwrap();
    records
}

#[test]
fn the_stored_day_is_the_one_that_is_made() {
    assert!(fs::read(DAY).unwrap() == samples::day());
}

#[test]
fn good_records_are_shown() {
    let shown = show("good", &records());
    assert!(shown.status.success() && shown.stderr.is_empty());
    let text = String::from_utf8(shown.stdout).unwrap();
    assert!(text.starts_with("ZBZZT\n"));
    assert!(text.ends_with("329 messages, 16 refused\n"));
}

#[test]
fn bad_records_are_an_error() {
    let good = records();
    let mut unknown = good.clone();
    unknown[0] = b'R';
    let cut = &good[..good.len() - 1];
    for (name, bytes) in [("unknown", &unknown[..]), ("cut", cut), ("none", b"")] {
        let shown = show(name, bytes);
        assert_eq!(shown.status.code(), Some(1));
        assert!(shown.stdout.is_empty() && shown.stderr.starts_with(b"show: "));
    }
}

#[test]
fn other_words_are_an_error() {
    let status = |words: &[&str]| {
        let mut command = Command::new(env!("CARGO_BIN_EXE_show"));
        command.args(words).output().unwrap().status.code()
    };
    assert_eq!(status(&[]), Some(2));
    assert_eq!(status(&[DAY]), Some(2));
    assert_eq!(status(&["no such file", DAY]), Some(1));
}
