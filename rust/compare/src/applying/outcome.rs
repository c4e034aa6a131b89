//! What one call came to in both programs.

use crate::memory::TableDifference;

/// The number, the values of the message and the figures of the orders.
pub type Answer = (u8, [u64; 18], [u64; 10]);

/// What one call came to in both programs.
pub struct Outcome {
    pub expected: Answer,
    pub got: Answer,
    /// Of the directory and of the book.
    pub lengths: (usize, usize),
    pub directory: Option<TableDifference>,
    pub book: Option<TableDifference>,
    pub input_kept: bool,
}

impl Outcome {
    pub fn is_same(&self) -> bool {
        self.expected == self.got
            && self.directory.is_none()
            && self.book.is_none()
            && self.input_kept
    }
}
