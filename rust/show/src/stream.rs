//! What the stream that was replayed says of its messages and stocks.

use second::{Answer, Message};
use std::collections::HashMap;

/// The bytes of a message, or of what is there of a cut one.
#[derive(Clone, Copy, Debug, PartialEq, Eq)]
pub enum Block<'a> {
    Whole(&'a [u8]),
    Cut(&'a [u8]),
}

pub struct Stream<'a> {
    blocks: Vec<Block<'a>>,
    /// Of the first well-formed R for each locate.
    symbols: HashMap<u16, [u8; 8]>,
}

impl<'a> Stream<'a> {
    pub fn of(mut bytes: &'a [u8]) -> Self {
        let mut stream = Stream {
            blocks: vec![],
            symbols: HashMap::new(),
        };
        while let Some((block, rest)) = first(bytes) {
            stream.put(block);
            bytes = rest;
        }
        stream
    }

    fn put(&mut self, block: Block<'a>) {
        self.blocks.push(block);
        let Block::Whole(message) = block else { return };
        if let Answer::Good(Message::StockDirectory(r)) = second::read(message) {
            self.symbols.entry(r.stock_locate).or_insert(r.stock.0);
        }
    }

    pub fn messages(&self) -> u64 {
        self.blocks.len() as u64
    }

    /// The block of a message, counted from 1.
    pub fn block(&self, message: u64) -> Option<Block<'a>> {
        let place = usize::try_from(message.checked_sub(1)?).ok()?;
        self.blocks.get(place).copied()
    }

    /// The symbol of a locate without its padding, if it was registered.
    pub fn symbol(&self, locate: u16) -> Option<String> {
        let symbol = self.symbols.get(&locate)?;
        Some(String::from_utf8_lossy(symbol).trim_end().into())
    }
}

/// The first block and what follows it; none of nothing.
fn first(bytes: &[u8]) -> Option<(Block<'_>, &[u8])> {
    let Some((length, rest)) = bytes.split_first_chunk() else {
        return (!bytes.is_empty()).then_some((Block::Cut(b""), b""));
    };
    Some(
        match rest.split_at_checked(u16::from_be_bytes(*length).into()) {
            Some((message, rest)) => (Block::Whole(message), rest),
            None => (Block::Cut(rest), b""),
        },
    )
}

#[cfg(test)]
mod tests {
    use super::*;
    use samples::{sample_with, stream_of};

    fn registration(locate: u64, symbol: &[u8; 8]) -> Vec<u8> {
        let symbol = u64::from_be_bytes(*symbol);
        sample_with(b'R', &[("Stock Locate", locate), ("Stock", symbol)])
    }

    #[test]
    fn the_first_well_formed_registration_counts() {
        let messages = [
            registration(7, b" NOTHING"),
            registration(7, b"ZVZZT   "),
            registration(7, b"ZXZZT   "),
            registration(8, b"ABCDEFGH"),
        ];
        let bytes = stream_of(&messages);
        let stream = Stream::of(&bytes);
        assert_eq!(stream.symbol(7).as_deref(), Some("ZVZZT"));
        assert_eq!(stream.symbol(8).as_deref(), Some("ABCDEFGH"));
        assert_eq!(stream.symbol(9), None);
        assert_eq!(stream.messages(), 4);
        assert_eq!(stream.block(2), Some(Block::Whole(&messages[1])));
        assert_eq!((stream.block(0), stream.block(5)), (None, None));
    }

    #[test]
    fn the_end_of_a_stream() {
        let last = |bytes| Stream::of(bytes).blocks.last().copied();
        assert_eq!(last(b""), None);
        assert_eq!(last(b"\0"), Some(Block::Cut(b"")));
        assert_eq!(last(b"\0\0"), Some(Block::Whole(b"")));
        assert_eq!(last(b"\0\x02"), Some(Block::Cut(b"")));
        assert_eq!(last(b"\0\x02A"), Some(Block::Cut(b"A")));
        assert_eq!(last(b"\0\x01A"), Some(Block::Whole(b"A")));
    }
}
