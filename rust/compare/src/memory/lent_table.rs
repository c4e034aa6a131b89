//! A table that is lent to the product, and the lengths that one may have.

use crate::memory::{Edge, Guarded};

/// No table is longer, in numbers.
pub const LONGEST_TABLE: usize = 264_000;

/// Around what the paper names, what larger books might be, and what is right in 16 bits.
pub const BOOK_LENGTHS: [usize; 24] = [
    0, 1, 64, 255, 256, 257, 258, 513, 514, 515, 16_191, 16_384, 16_447, 16_448, 16_449, 16_704,
    16_705, 16_706, 32_896, 65_536, 65_792, 65_793, 263_168, 263_169,
];

/// A table of the product's: guarded memory, how many numbers of it, and at which edge.
pub struct LentTable {
    memory: Guarded,
    pub length: usize,
    pub edge: Edge,
}

impl LentTable {
    pub fn new() -> Self {
        LentTable {
            memory: Guarded::new(8 * LONGEST_TABLE),
            length: 0,
            edge: Edge::Front,
        }
    }

    /// Takes these numbers on, at that edge.
    pub fn lay(&mut self, numbers: &[u64], edge: Edge) {
        (self.length, self.edge) = (numbers.len(), edge);
        self.numbers().copy_from_slice(numbers);
    }

    pub fn numbers(&mut self) -> &mut [u64] {
        self.memory.slice(self.length, self.edge)
    }
}
