//! The independent second program: one TotalView-ITCH 5.0 message read, and applied to the tables;
//! the desk's questions about them; and the replay of a stream.
//!
//! Written from the papers alone, to be held against the product: plain and slow, one field after
//! the other and one slot after the other. It knows nothing of packets, and nothing of the product.

mod applied;
mod book;
mod cursor;
mod directory;
mod fields;
mod message;
mod order;
mod orders;
pub mod questions;
pub mod replay;
mod steps;
mod stock;
mod symbol;
mod tables;
mod trades;

pub use applied::{Applied, Figures, Orders};
pub use book::{Book, Slot};
pub use directory::{Directory, Entry};
pub use fields::{Alpha, Price, Printable, Shares, Side, Text, Timestamp, DAY, MAXIMUM_PRICE};
pub use message::Message;
pub use order::{Order, NSDQ};
pub use orders::*;
pub use questions::{Account, Level};
pub use stock::*;
pub use symbol::symbol;
pub use tables::{apply, fresh, Tables};
pub use trades::*;

use cursor::Cursor;

/// No bytes, or not the type's length.
pub const LENGTH: u8 = 1;
/// First byte is none of the 23.
pub const TYPE: u8 = 2;
/// Timestamp too large.
pub const TIME: u8 = 3;
/// Side, printable or text field not as it must be.
pub const FIELD: u8 = 4;
/// A Price (4) above the maximum.
pub const PRICE: u8 = 5;
/// Zero shares.
pub const SHARES: u8 = 6;
/// A locate that has no entry; for A and F also an unregistered one.
pub const STOCK: u8 = 7;
/// Another symbol is registered, or the order is of another locate.
pub const CONFLICT: u8 = 8;
/// The reference of the new order is live.
pub const DUPLICATE: u8 = 9;
/// The reference named is not live.
pub const NO_ORDER: u8 = 10;
/// More shares than remain.
pub const OVER: u8 = 11;
/// No free slot for A or F.
pub const FULL: u8 = 12;
/// The slot of the order named is unsound.
pub const BOOK: u8 = 13;
/// A table of a length that the paper does not name.
pub const SHAPE: u8 = 14;

/// What a message is read as.
#[derive(Clone, Copy, Debug, PartialEq, Eq)]
pub enum Answer {
    /// Accepted, with its typed fields.
    Good(Message),
    /// Refused with the paper's number, 1 to 6.
    Refused(u8),
}

/// Reads one message, lent with its exact length.
pub fn read(bytes: &[u8]) -> Answer {
    match message_of(bytes) {
        Ok(message) => Answer::Good(message),
        Err(number) => Answer::Refused(number),
    }
}

/// The paper's number and the 18 values that the C function leaves in `out`.
pub fn numbers(answer: &Answer) -> (u8, [u64; 18]) {
    let mut out = [0; 18];
    match answer {
        Answer::Refused(number) => (*number, out),
        Answer::Good(message) => {
            out[0] = u64::from(message.message_type());
            for (place, value) in message.values().into_iter().enumerate() {
                out[place + 1] = value;
            }
            (0, out)
        }
    }
}

/// The order of checks: no bytes; 2; 1; then 3 to 6 among the fields.
fn message_of(bytes: &[u8]) -> Result<Message, u8> {
    let Some(&message_type) = bytes.first() else {
        return Err(LENGTH);
    };
    let Some(length) = length_of(message_type) else {
        return Err(TYPE);
    };
    if bytes.len() != length {
        return Err(LENGTH);
    }
    let mut cursor = Cursor::new(&bytes[1..]);
    let message = Message::take(message_type, &mut cursor)?;
    assert!(cursor.is_empty(), "the fields must fill the length");
    Ok(message)
}

/// The paper's table of message lengths; none for a byte that is no type.
fn length_of(message_type: u8) -> Option<usize> {
    let length = match message_type {
        b'S' | b'W' => 12,
        b'D' | b'B' => 19,
        b'Y' | b'N' => 20,
        b'h' => 21,
        b'X' => 23,
        b'H' => 25,
        b'L' => 26,
        b'K' => 28,
        b'E' => 31,
        b'V' | b'J' | b'U' => 35,
        b'A' | b'C' => 36,
        b'R' => 39,
        b'F' | b'Q' => 40,
        b'P' => 44,
        b'O' => 48,
        b'I' => 50,
        _ => return None,
    };
    Some(length)
}
