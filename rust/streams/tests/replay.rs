//! The product's replay program on the stored streams: whole, in pieces, and with nowhere to write.

mod common;

use common::{all_of, control, ended, file, first_refusal, program, records_of};
use common::{DEADLINE, MOMENT};
use std::ffi::{c_int, c_ulong};
use std::fs::{File, OpenOptions};
use std::io::{self, Write};
use std::process::{Child, ChildStdin, Stdio};
use std::thread;
use std::time::Instant;
use streams::Stored;

/// Streams below it are fed a byte at a time.
const SMALL: usize = 200;
/// Lengths of pieces, in turn.
const ODD: [usize; 8] = [1, 2, 3, 37, 4_095, 5, 65_537, 4_099];

/// Linux's FIONREAD.
const UNREAD: c_ulong = 0x541B;

/// Sees that the program writes the stored records, tells nothing else and ends well.
fn tells_the_records(mut child: Child, stored: &Stored) {
    let written = all_of(child.stdout.take().unwrap());
    let end = ended(child, stored.name);
    assert!(end.status.success(), "{}: replay fails", stored.name);
    assert_eq!(end.told, "", "{}", stored.name);
    let same = written.join().unwrap() == records_of(stored);
    assert!(same, "{}: other records", stored.name);
}

/// Bytes in the pipe that were not read yet.
fn unread(input: &ChildStdin) -> c_int {
    let mut bytes = 0;
    control(input, UNREAD, &mut bytes);
    bytes
}

/// Feeds the stream in pieces of some lengths in turn, each once the one before it is read, so
/// that no reading gets more than a piece.
fn feed(mut input: ChildStdin, mut rest: &[u8], lengths: &[usize]) {
    let start = Instant::now();
    for length in lengths.iter().cycle() {
        let (piece, after) = rest.split_at(rest.len().min(*length));
        if piece.is_empty() {
            break;
        }
        input.write_all(piece).expect("replay reads to the end");
        rest = after;
        while unread(&input) > 0 && start.elapsed() < DEADLINE {
            thread::sleep(MOMENT);
        }
    }
}

/// Feeds the program through a pipe.
fn fed_in_pieces(stored: &Stored, lengths: &[usize]) {
    let mut child = program(Stdio::piped(), Stdio::piped());
    let input = child.stdin.take().unwrap();
    thread::scope(|scope| {
        scope.spawn(|| feed(input, &stored.stream, lengths));
        tells_the_records(child, stored);
    });
}

#[test]
fn from_a_file() {
    for stored in streams::all() {
        tells_the_records(program(file(&stored), Stdio::piped()), &stored);
    }
}

#[test]
fn through_a_pipe_at_once() {
    for stored in streams::all() {
        fed_in_pieces(&stored, &[usize::MAX]);
    }
}

#[test]
fn in_odd_pieces() {
    for stored in streams::all() {
        fed_in_pieces(&stored, &ODD);
    }
}

#[test]
fn a_byte_at_a_time() {
    let mut small = streams::all();
    small.retain(|stored| stored.stream.len() < SMALL);
    assert!(small.len() >= 8);
    for stored in &small {
        fed_in_pieces(stored, &[1]);
    }
}

#[test]
fn a_refusal_is_told_as_it_happens() {
    let mut child = program(Stdio::piped(), Stdio::piped());
    let mut input = child.stdin.take().unwrap();
    let output = child.stdout.take().unwrap();
    input.write_all(&[0, 0]).unwrap();
    let told = first_refusal(output);
    assert_eq!(told, *b"r\0\0\0\0\0\0\0\x01\x01");
    drop(input);
    ended(child, "an empty block");
}

/// Sees that the program ends by itself with a full device, and with a pipe that nobody reads.
fn ends_unheard(input: impl Fn() -> File, name: &str) {
    let full = OpenOptions::new().write(true).open("/dev/full").unwrap();
    let end = ended(program(input(), full), name);
    end.told_of("output", "No space left on device", name);
    let (reader, closed) = io::pipe().unwrap();
    drop(reader);
    let end = ended(program(input(), closed), name);
    end.told_of("output", "Broken pipe", name);
}

#[test]
fn it_ends_though_all_it_writes_is_lost() {
    for stored in streams::all() {
        ends_unheard(|| file(&stored), stored.name);
    }
}

#[test]
fn it_ends_though_the_input_does_not() {
    // Empty blocks, each of them refused.
    ends_unheard(|| File::open("/dev/zero").unwrap(), "empty blocks");
}
