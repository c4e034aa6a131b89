//! The records that a replay gives.

use second::replay::replay;
use std::io::{self, Read};

/// Hands out a few bytes at a time, with interruptions between.
struct Drops<'a> {
    rest: &'a [u8],
    most: usize,
    interrupted: bool,
}

impl Read for Drops<'_> {
    fn read(&mut self, buffer: &mut [u8]) -> io::Result<usize> {
        self.interrupted = !self.interrupted;
        if self.interrupted {
            return Err(io::ErrorKind::Interrupted.into());
        }
        let most = self.most.min(buffer.len());
        self.rest.read(&mut buffer[..most])
    }
}

/// The records of a stream, which must not depend on the pieces it comes in.
pub fn records(stream: &[u8]) -> Vec<u8> {
    let mut whole = vec![];
    replay(stream, &mut whole).unwrap();
    for most in [1, 7, 65_536] {
        let (interrupted, rest) = (false, stream);
        let mut pieces = vec![];
        let input = Drops {
            rest,
            most,
            interrupted,
        };
        replay(input, &mut pieces).unwrap();
        assert_eq!(pieces, whole, "pieces of {most}");
    }
    whole
}

pub fn refusal(message: u64, number: u8) -> Vec<u8> {
    [b"r", &message.to_be_bytes()[..], &[number]].concat()
}

pub fn level(kind: u8, locate: u16, price: u32, total: u64, orders: u32) -> Vec<u8> {
    let mut record = vec![kind];
    record.extend(locate.to_be_bytes());
    record.extend(price.to_be_bytes());
    record.extend(total.to_be_bytes());
    record.extend(orders.to_be_bytes());
    record
}

pub fn counts(messages: u64, refused: u64) -> Vec<u8> {
    [b"z", &messages.to_be_bytes()[..], &refused.to_be_bytes()].concat()
}
