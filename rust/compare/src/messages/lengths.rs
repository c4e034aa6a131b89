//! Every length of every first byte, with several fillings.

use crate::messages::Checker;
use samples::{sample, Layout, LAYOUTS};

/// Up to more than the longest message.
const LENGTHS: std::ops::RangeInclusive<usize> = 0..=64;

pub fn every_length(checker: &mut impl Checker) {
    checker.source("lengths 0 to 64 of every first byte");
    for first in 0..=255 {
        // A byte that is no type gets an Add Order's body.
        let layout = Layout::of(first).or(Layout::of(b'A'));
        let mut body = sample(layout.expect("A is a type"));
        body[0] = first;
        for length in LENGTHS {
            for filling in [0x00, 0xFF, b' ', b'A'] {
                let mut message = vec![filling; length];
                if let Some(byte) = message.first_mut() {
                    *byte = first;
                }
                checker.check(&message);
            }
            let mut message = body.clone();
            message.resize(length, b'A');
            checker.check(&message);
        }
    }
}

/// Lengths that are right when cut to 8 or 16 bits.
pub fn far_lengths(checker: &mut impl Checker) {
    checker.source("right lengths plus 2^8 and 2^16");
    for layout in &LAYOUTS {
        for more in [0x100, 0x1_0000] {
            let mut message = sample(layout);
            message.resize(layout.length + more, b' ');
            checker.check(&message);
        }
    }
}
