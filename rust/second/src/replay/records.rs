//! The records of the output, in the order in which they are told.

use super::market::Level;
use std::io::{self, Write};

/// The records that were told and not yet handed on, and the counts for the last one.
pub struct Records {
    bytes: Vec<u8>,
    messages: u64,
    refused: u64,
}

impl Records {
    pub fn new() -> Self {
        Records {
            bytes: vec![],
            messages: 0,
            refused: 0,
        }
    }

    /// Counts a message; `r` if it was refused.
    pub fn message(&mut self, outcome: Result<(), u8>) {
        self.messages += 1;
        if let Err(number) = outcome {
            self.refused += 1;
            self.bytes.push(b'r');
            self.bytes.extend(self.messages.to_be_bytes());
            self.bytes.push(number);
        }
    }

    /// `b` and `s`.
    pub fn levels(&mut self, levels: &[Level]) {
        for level in levels {
            self.bytes.push(level.kind);
            self.bytes.extend(level.locate.to_be_bytes());
            self.bytes.extend(level.price.to_be_bytes());
            self.bytes.extend(level.total.to_be_bytes());
            self.bytes.extend(level.orders.to_be_bytes());
        }
    }

    /// `z`.
    pub fn counts(&mut self) {
        self.bytes.push(b'z');
        self.bytes.extend(self.messages.to_be_bytes());
        self.bytes.extend(self.refused.to_be_bytes());
    }

    /// Writes what was told.
    pub fn hand_on(&mut self, output: &mut impl Write) -> io::Result<()> {
        if !self.bytes.is_empty() {
            output.write_all(&self.bytes)?;
            output.flush()?;
            self.bytes.clear();
        }
        Ok(())
    }
}
