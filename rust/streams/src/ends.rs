//! The paper's whole case, the ways in which a stream may end, and blocks longer than any message.

use samples::orders::{add, delete, order, register, take, ZVZZT, ZXZZT};
use samples::{put_block, stream_of};

/// The paper's.
pub fn whole_case() -> Vec<u8> {
    stream_of(&[
        register(1, ZVZZT),
        add(b'A', order(5)),
        take(b'E', 1, 5, 100),
        take(b'E', 1, 5, 400),
    ])
}

/// An order that stays, and then an end.
fn ending(end: &[u8]) -> Vec<u8> {
    let mut stream = stream_of(&[register(1, ZVZZT), add(b'A', order(5))]);
    stream.extend(end);
    stream
}

/// A whole block of no bytes.
pub fn empty_last() -> Vec<u8> {
    ending(&[0, 0])
}

pub fn no_body() -> Vec<u8> {
    ending(&[0, 36])
}

/// A program that takes the missing half for 0 would see an empty block here.
pub fn cut_length() -> Vec<u8> {
    ending(&[0])
}

/// All but one byte of a block, and they would delete the order.
pub fn cut_block() -> Vec<u8> {
    ending(&[&[0, 20], &delete(1, 5)[..]].concat())
}

/// Half of an order.
pub fn cut_message() -> Vec<u8> {
    ending(&[&[0, 36], &add(b'A', order(6))[..18]].concat())
}

/// One byte of two, and it is no type.
pub fn cut_type() -> Vec<u8> {
    ending(&[0, 2, b'Z'])
}

/// Blocks of the most bytes and around a page, each full of small blocks that a program which
/// loses its place would apply; the last is cut by its last byte.
pub fn long_blocks() -> Vec<u8> {
    let mut stream = stream_of(&[register(1, ZVZZT), add(b'A', order(5))]);
    put_block(&mut stream, &long(b'A', 65_535));
    put_block(&mut stream, &take(b'X', 1, 5, 7));
    for length in [4_095, 4_096, 4_097] {
        put_block(&mut stream, &long(b'Z', length));
    }
    put_block(&mut stream, &register(2, ZXZZT));
    put_block(&mut stream, &long(b'z', 65_535));
    stream.pop();
    stream
}

/// Deletions of the order, behind a type.
fn long(message_type: u8, length: usize) -> Vec<u8> {
    let small = stream_of(&[delete(1, 5)]);
    let types = std::iter::once(&message_type);
    types
        .chain(small.iter().cycle())
        .take(length)
        .copied()
        .collect()
}
