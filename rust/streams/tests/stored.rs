//! The stored files are those that are made.

use std::collections::BTreeSet;
use std::fs;
use std::path::PathBuf;

#[test]
fn the_generator_gives_each_stream() {
    for stored in streams::all() {
        let found = fs::read(stored.stream_file()).unwrap();
        assert!(found == stored.stream, "{}", stored.name);
    }
}

#[test]
fn the_second_program_gives_the_records_of_each() {
    for stored in streams::all() {
        let found = fs::read(stored.records_file()).unwrap();
        assert!(found == stored.records(), "{}", stored.name);
    }
}

#[test]
fn nothing_else_is_stored() {
    let found = fs::read_dir(streams::folder()).unwrap();
    let found: BTreeSet<PathBuf> = found.map(|file| file.unwrap().path()).collect();
    let all = streams::all();
    let made = all
        .iter()
        .flat_map(|stored| [stored.stream_file(), stored.records_file()]);
    assert_eq!(found, made.collect());
}

/// The numbers of the refusals of a stream, which come first.
fn numbers(name: &str) -> BTreeSet<u8> {
    let all = streams::all();
    let stored = all.iter().find(|stored| stored.name == name).unwrap();
    let records = stored.records();
    let refusals = records.chunks(10).take_while(|record| record[0] == b'r');
    refusals.map(|record| record[9]).collect()
}

#[test]
fn what_is_refused_in_them() {
    assert_eq!(numbers("refusals"), (1..=12).collect());
    assert_eq!(numbers("full"), [12].into());
    assert_eq!(numbers("levels"), [].into());
    assert_eq!(numbers("stocks"), [].into());
    assert_eq!(numbers("long_blocks"), [1, 2].into());
    for name in [
        "empty_last",
        "no_body",
        "cut_length",
        "cut_block",
        "cut_message",
        "cut_type",
    ] {
        assert_eq!(numbers(name), [1].into(), "{name}");
    }
}
