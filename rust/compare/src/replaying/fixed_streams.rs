//! Streams that every run begins with: the paper's whole case, and the smallest ones.

use crate::replaying::feed::Feed;
use samples::{sample_with, MAXIMUM_PRICE};

/// A stream by what feeds it.
pub type Stream = fn(&mut Feed);

/// The records of the paper's whole case.
pub const WHOLE_CASE: [u8; 46] = *b"r\0\0\0\0\0\0\0\x04\x0B\
    b\0\x01\0\x01\x86\xA0\0\0\0\0\0\0\0\xC8\0\0\0\x01\
    z\0\0\0\0\0\0\0\x04\0\0\0\0\0\0\0\x01";

/// R ZVZZT at locate 1; A reference 5, B, 300 at 100000; E 100; E 400.
pub fn whole_case(feed: &mut Feed) {
    feed.block(&registration(1));
    feed.block(&addition(1, 5, b'B', 300, 100_000));
    for shares in [100, 400] {
        let sets = [
            ("Stock Locate", 1),
            ("Order Reference Number", 5),
            ("Executed Shares", shares),
        ];
        feed.block(&sample_with(b'E', &sets));
    }
}

pub const SMALL: [Stream; 10] = [
    |_| {},
    |feed| feed.half_length(0),
    |feed| feed.half_length(0xFF),
    empty_block,
    |feed| feed.cut_block(1, b""),
    |feed| feed.cut_block(0xFFFF, b"A"),
    longest_block,
    many_blocks,
    one_level,
    both_ends,
];

fn empty_block(feed: &mut Feed) {
    feed.block(b"");
}

fn longest_block(feed: &mut Feed) {
    feed.block(&[b'A'; 0xFFFF]);
}

/// More than 16 bits can number, all refused.
fn many_blocks(feed: &mut Feed) {
    for _ in 0..70_000 {
        feed.block(b"");
    }
}

/// As many orders as there is room for, of as many shares as there can be, at one price.
fn one_level(feed: &mut Feed) {
    feed.block(&registration(2_047));
    for reference in 0..1_025 {
        feed.block(&addition(2_047, reference, b'S', 0xFFFF_FFFF, 100_000));
    }
}

/// Several levels on both sides, both extreme prices among them, at the first locates and the last.
fn both_ends(feed: &mut Feed) {
    let mut reference = 0;
    for locate in [2_047, 256, 1, 255] {
        feed.block(&registration(locate));
        for price in [100_000, 0, 99_900, 1, MAXIMUM_PRICE, 100_000, 0x8000] {
            for side in [b'S', b'B'] {
                reference += 1;
                feed.block(&addition(locate, reference, side, reference, price));
            }
        }
    }
}

/// R of the samples' symbol, ZVZZT.
fn registration(locate: u64) -> Vec<u8> {
    sample_with(b'R', &[("Stock Locate", locate)])
}

fn addition(locate: u64, reference: u64, side: u8, shares: u64, price: u64) -> Vec<u8> {
    let sets = [
        ("Stock Locate", locate),
        ("Order Reference Number", reference),
        ("Buy/Sell Indicator", side.into()),
        ("Shares", shares),
        ("Price", price),
    ];
    sample_with(b'A', &sets)
}
