//! Asks both readers about a message, the product's against unmapped bytes behind it and before it.

use crate::memory::{Edge, Guarded, PATTERN};
use crate::messages::{Checker, LONGEST_MESSAGE};
use crate::reading::counts::{Numbers, ReadCounts};

/// The memory that messages and answers are placed in, and the counts.
pub struct BothReaders {
    input: Guarded,
    out: Guarded,
    pub counts: ReadCounts,
}

impl BothReaders {
    pub fn new() -> Self {
        BothReaders {
            input: Guarded::new(LONGEST_MESSAGE),
            out: Guarded::new(size_of::<[u64; 18]>()),
            counts: ReadCounts::new(),
        }
    }

    /// The product's answer, and whether it left the input as it was.
    fn product(&mut self, message: &[u8], edge: Edge) -> (Numbers, bool) {
        let input = self.input.part(message.len(), edge);
        input.copy_from_slice(message);
        let out = self.out.numbers(edge);
        out.fill(PATTERN);
        let number = face::read(input, out);
        ((number, *out), input == message)
    }
}

impl Checker for BothReaders {
    fn source(&mut self, name: &'static str) {
        self.counts.source(name);
    }

    fn check(&mut self, message: &[u8]) {
        let expected = second::numbers(&second::read(message));
        for edge in [Edge::Back, Edge::Front] {
            let (got, kept) = self.product(message, edge);
            if got != expected || !kept {
                self.counts.mismatch(message, edge, expected, got, kept);
                break;
            }
        }
        self.counts.read(message, expected.0);
    }
}
