//! The input in large pieces, and the blocks in them.

use std::io::{self, ErrorKind, Read};

/// Bytes of the length before each block.
const LENGTH_BYTES: usize = 2;
/// At least the longest block with its length, so that any block is whole in the buffer at last.
const BUFFER: usize = 256 * 1024;
const _: () = assert!(BUFFER >= LENGTH_BYTES + u16::MAX as usize);

/// The bytes that were read and not yet handed out.
pub struct Blocks {
    buffer: Vec<u8>,
    start: usize,
    end: usize,
}

impl Blocks {
    pub fn new() -> Self {
        Blocks {
            buffer: vec![0; BUFFER],
            start: 0,
            end: 0,
        }
    }

    /// The next block that is whole; none until more is read.
    pub fn next(&mut self) -> Option<&[u8]> {
        let unread = &self.buffer[self.start..self.end];
        let (length, rest) = unread.split_first_chunk::<LENGTH_BYTES>()?;
        let block = rest.get(..usize::from(u16::from_be_bytes(*length)))?;
        self.start += LENGTH_BYTES + block.len();
        Some(block)
    }

    /// Reads a piece after what is left, which must not hold a whole block; whether there was one.
    pub fn fill(&mut self, input: &mut impl Read) -> io::Result<bool> {
        self.buffer.copy_within(self.start..self.end, 0);
        self.end -= self.start;
        self.start = 0;
        loop {
            match input.read(&mut self.buffer[self.end..]) {
                Ok(read) => {
                    self.end += read;
                    return Ok(read > 0);
                }
                Err(error) if error.kind() == ErrorKind::Interrupted => {}
                Err(error) => return Err(error),
            }
        }
    }

    /// Whether the input ended within a length or a block.
    pub fn is_cut(&self) -> bool {
        self.start < self.end
    }
}
