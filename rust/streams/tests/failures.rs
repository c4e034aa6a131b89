//! The replay program where a read fails, and where a write fails after others did not: what it has
//! written by then, and what it tells. A day that was not read or told to its end must have no `z`.

mod common;

use common::{all_of, control, deaf_program, ended, file, first_refusal, program, records_of};
use common::{Ended, DEADLINE, MOMENT};
use samples::orders::{add, order, register, ZVZZT};
use samples::stream_of;
use std::ffi::c_ulong;
use std::fs::{File, OpenOptions};
use std::io::{self, PipeReader, PipeWriter, Read, Write};
use std::os::fd::OwnedFd;
use std::os::unix::net::UnixStream;
use std::process::{Child, Stdio};
use std::thread;
use std::time::Instant;
use streams::Stored;

/// Linux's FIONBIO.
const NONBLOCKING: c_ulong = 0x5421;

/// Bytes of a `z`.
const TALLY: usize = 17;

/// Lists of records below it are tried with every room that is too small for them.
const SMALL: usize = 50;

/// Runs the program on a socket that fails behind the stream: its other end is closed with a byte in
/// it that nobody has read.
fn reset_behind(stream: &[u8], name: &str) -> (Vec<u8>, Ended) {
    let (mut ours, mut theirs) = UnixStream::pair().unwrap();
    theirs.write_all(b"?").unwrap();
    let mut child = program(OwnedFd::from(theirs), Stdio::piped());
    let written = all_of(child.stdout.take().unwrap());
    ours.write_all(stream).unwrap();
    drop(ours);
    let end = ended(child, name);
    (written.join().unwrap(), end)
}

#[test]
fn a_refusal_stands_before_a_failed_read() {
    // Were this the end, the order's level and `z` would stand behind the refusal.
    let stream = stream_of(&[register(1, ZVZZT), add(b'A', order(5)), vec![]]);
    let (written, end) = reset_behind(&stream, "an empty block");
    assert_eq!(written, *b"r\0\0\0\0\0\0\0\x03\x01");
    end.told_of("input", "Connection reset by peer", "an empty block");
}

#[test]
fn a_failed_read_is_no_end_of_any_stream() {
    for stored in streams::all() {
        let (written, end) = reset_behind(&stored.stream, stored.name);
        assert!(written == refused_blocks(&stored), "{}", stored.name);
        end.told_of("input", "Connection reset by peer", stored.name);
    }
}

/// The refusals of whole blocks: a cut one is refused only where the stream ends.
fn refused_blocks(stored: &Stored) -> Vec<u8> {
    let whole = whole_blocks(&stored.stream);
    let number = |record: &[u8]| u64::from_be_bytes(record[1..9].try_into().unwrap());
    let records = records_of(stored);
    let refusals = records.chunks(10).take_while(|record| record[0] == b'r');
    let refusals = refusals.filter(|record| number(record) <= whole);
    refusals.collect::<Vec<_>>().concat()
}

fn whole_blocks(mut rest: &[u8]) -> u64 {
    let mut count = 0;
    while let [high, low, behind @ ..] = rest {
        let length = u16::from_be_bytes([*high, *low]);
        let Some(after) = behind.get(usize::from(length)..) else {
            break;
        };
        rest = after;
        count += 1;
    }
    count
}

#[test]
fn a_first_read_that_fails() {
    let nothing = OpenOptions::new().write(true).open("/dev/null").unwrap();
    for (input, told) in [
        (File::open("/").unwrap(), "Is a directory"),
        (nothing, "Bad file descriptor"),
    ] {
        let mut child = program(input, Stdio::piped());
        let written = all_of(child.stdout.take().unwrap());
        ended(child, told).told_of("input", told, told);
        assert_eq!(written.join().unwrap(), b"");
    }
}

/// Reads the first record and goes away. The input has no end, so that only a failed write can end
/// the program.
fn left_alone(mut child: Child) -> Ended {
    let mut input = child.stdin.take().unwrap();
    let output = child.stdout.take().unwrap();
    input.write_all(&[0, 0]).unwrap();
    assert_eq!(first_refusal(output), *b"r\0\0\0\0\0\0\0\x01\x01");
    // More than one: a program just started elsewhere may hold the output open for a moment.
    let start = Instant::now();
    while start.elapsed() < DEADLINE && input.write_all(&[0, 0]).is_ok() {
        thread::sleep(MOMENT);
    }
    ended(child, "a reader that goes away")
}

#[test]
fn a_reader_that_goes_away() {
    // The program ignores the signal of a closed pipe, whoever starts it.
    let end = left_alone(program(Stdio::piped(), Stdio::piped()));
    end.told_of("output", "Broken pipe", "a reader that goes away");
    let end = left_alone(deaf_program(Stdio::piped(), Stdio::piped()));
    end.told_of("output", "Broken pipe", "a reader that goes away");
}

/// A pipe that takes so many bytes more and then fails, and how many are in it already.
fn narrow_pipe(room: usize) -> (PipeReader, PipeWriter, usize) {
    let (mut reader, mut writer) = io::pipe().unwrap();
    control(&writer, NONBLOCKING, &mut 1);
    let mut size = 0;
    while let Ok(count) = writer.write(&[0; 4_096]) {
        size += count;
    }
    let mut filling = vec![0; size];
    reader.read_exact(&mut filling).unwrap();
    writer.write_all(&filling[room..]).unwrap();
    (reader, writer, size - room)
}

/// What the pipe has got of the records.
fn squeezed(stored: &Stored, room: usize) -> Vec<u8> {
    let (mut reader, writer, filled) = narrow_pipe(room);
    let end = ended(program(file(stored), writer), stored.name);
    end.told_of("output", "Resource temporarily unavailable", stored.name);
    let mut bytes = vec![];
    reader.read_to_end(&mut bytes).unwrap();
    bytes.split_off(filled)
}

#[test]
fn whole_records_stand_before_a_failed_write() {
    for stored in small_or_not(true) {
        let records = records_of(&stored);
        // Some rooms are too small for a level, yet hold the `z` behind it.
        for room in 0..records.len() {
            let written = squeezed(&stored, room);
            let mut ends = record_ends(&records);
            ends.retain(|end| *end <= room);
            let expected = &records[..*ends.last().unwrap()];
            assert_eq!(written, expected, "{}, room for {room}", stored.name);
        }
    }
}

#[test]
fn no_end_is_told_behind_a_failed_write() {
    for stored in small_or_not(false) {
        let records = records_of(&stored);
        let size = records.len();
        for room in [size / 2, size - TALLY - 1, size - 1] {
            let written = squeezed(&stored, room);
            let case = format!("{}, room for {room}", stored.name);
            assert!(!written.is_empty(), "{case}");
            // Of more than a page the pipe takes a part, so that the last record may be cut.
            assert!(records.starts_with(&written), "{case}");
            assert!(written.len() <= size - TALLY, "{case}");
        }
    }
}

/// The streams whose records are few, each written by itself; or the others.
fn small_or_not(small: bool) -> Vec<Stored> {
    let mut chosen = streams::all();
    chosen.retain(|stored| (records_of(stored).len() < SMALL) == small);
    assert!(chosen.len() >= 5);
    chosen
}

/// Where records end, the beginning among them.
fn record_ends(records: &[u8]) -> Vec<usize> {
    let mut ends = vec![0];
    let mut end = 0;
    while let Some(kind) = records.get(end) {
        end += match kind {
            b'r' => 10,
            b'z' => TALLY,
            _ => 19,
        };
        ends.push(end);
    }
    ends
}
