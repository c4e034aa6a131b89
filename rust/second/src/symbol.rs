//! A message's symbol, if the directory has it at the message's locate.

use crate::directory::{Directory, Entry};
use crate::fields::Field;
use crate::message_of;
use std::ops::Range;

/// The empty part of a message, which has no place of its own.
const EMPTY: Range<usize> = 0..0;

impl Directory {
    /// The part of the message that is its symbol without the padding; the empty part unless the
    /// message is well formed, has a Stock field, and its locate is registered with that symbol.
    pub fn symbol(&self, bytes: &[u8]) -> Range<usize> {
        let Ok(message) = message_of(bytes) else {
            return EMPTY;
        };
        let Some(start) = stock_field(message.message_type()) else {
            return EMPTY;
        };
        let stock = &bytes[start..start + 8];
        let locate = u16::decode(&bytes[1..3]).expect("any two bytes are a locate");
        match self.entry(locate) {
            Some(Entry::Registered(symbol)) if symbol == stock => {
                let letters = stock.iter().take_while(|&&byte| byte != b' ');
                start..start + letters.count()
            }
            _ => EMPTY,
        }
    }
}

/// Where the Stock field of a type starts; none for a type without one.
fn stock_field(message_type: u8) -> Option<usize> {
    match message_type {
        b'R' | b'H' | b'Y' | b'K' | b'J' | b'h' | b'N' | b'O' => Some(11),
        b'L' => Some(15),
        b'Q' => Some(19),
        b'A' | b'F' | b'P' => Some(24),
        b'I' => Some(28),
        _ => None,
    }
}

/// The same for a directory of any length, given as numbers.
pub fn symbol(directory: &[u64], bytes: &[u8]) -> Range<usize> {
    match Directory::lent(directory) {
        Ok(directory) => directory.symbol(bytes),
        Err(_) => EMPTY,
    }
}
