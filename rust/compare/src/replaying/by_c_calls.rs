//! The records as the calls of the C header give them, over guarded tables of the replay's sizes.

use crate::memory::{Edge, Guarded, LentTable};
use crate::messages::LONGEST_MESSAGE;
use samples::Random;

const SEED: u64 = 0x6865_6164_6572_2121;

/// Numbers of the replay's directory and of its book of 1,024 slots.
pub const DIRECTORY: usize = 2_048;
const BOOK: usize = 257 * 16;

const LENGTH: u8 = 1;

/// A replay by `ladlemoss_fresh`, `_apply`, `_best` and `_next`.
pub struct ReplayByCalls {
    directory: LentTable,
    book: LentTable,
    input: Guarded,
    out: Guarded,
    figures: Guarded,
    /// Chooses the edges.
    random: Random,
    records: Vec<u8>,
    messages: u64,
    refused: u64,
}

impl ReplayByCalls {
    pub fn new() -> Self {
        ReplayByCalls {
            directory: LentTable::new(),
            book: LentTable::new(),
            input: Guarded::new(LONGEST_MESSAGE),
            out: Guarded::new(size_of::<[u64; 18]>()),
            figures: Guarded::new(size_of::<[u64; 10]>()),
            random: Random::new(SEED),
            records: vec![],
            messages: 0,
            refused: 0,
        }
    }

    /// Begins a stream, over what the last one left.
    pub fn begin(&mut self) {
        for (table, length) in [(&mut self.directory, DIRECTORY), (&mut self.book, BOOK)] {
            table.length = length;
            table.edge = Edge::any(&mut self.random);
        }
        let number = face::fresh(self.directory.numbers(), self.book.numbers());
        assert_eq!(number, 0, "the replay's sizes are the paper's");
        (self.messages, self.refused) = (0, 0);
        self.records.clear();
    }

    /// A whole block; answers its number.
    pub fn block(&mut self, bytes: &[u8]) -> u8 {
        let random = &mut self.random;
        let input = self.input.part(bytes.len(), Edge::any(random));
        input.copy_from_slice(bytes);
        let out = self.out.numbers(Edge::any(random));
        let figures = self.figures.numbers(Edge::any(random));
        let (directory, book) = (self.directory.numbers(), self.book.numbers());
        let number = face::apply(directory, book, input, out, figures);
        self.counted(number);
        number
    }

    /// A last block that is cut, or half a length.
    pub fn cut(&mut self) {
        self.counted(LENGTH);
    }

    fn counted(&mut self, number: u8) {
        self.messages += 1;
        if number != 0 {
            self.refused += 1;
            self.records.push(b'r');
            self.records.extend(self.messages.to_be_bytes());
            self.records.push(number);
        }
    }

    /// All records of the stream.
    pub fn finish(&mut self) -> Vec<u8> {
        for locate in 1..DIRECTORY as u16 {
            // Where no stock is, an order would be amiss, and the records of the others differ.
            if self.directory.numbers()[usize::from(locate)] != 0 {
                self.levels(b'b', locate, b'B');
                self.levels(b's', locate, b'S');
            }
        }
        self.records.push(b'z');
        self.records.extend(self.messages.to_be_bytes());
        self.records.extend(self.refused.to_be_bytes());
        std::mem::take(&mut self.records)
    }

    /// A side's levels from the best on.
    fn levels(&mut self, kind: u8, locate: u16, side: u8) {
        let edge = Edge::any(&mut self.random);
        let (book, level) = (self.book.numbers(), self.out.numbers(edge));
        let mut number = face::best(book, locate, side, level);
        while let [1, price, total, count] = *level {
            let price = price as u32;
            self.records.push(kind);
            self.records.extend(locate.to_be_bytes());
            self.records.extend(price.to_be_bytes());
            self.records.extend(total.to_be_bytes());
            self.records.extend((count as u32).to_be_bytes());
            number |= face::next(book, locate, side, price, level);
        }
        assert_eq!(number, 0, "a book reached from fresh is sound");
    }
}
