//! An order book built from Nasdaq TotalView-ITCH 5.0, by name and type, over the proved archive.
//!
//! The caller lends two tables of numbers, a directory of stocks and a book of live orders, and one
//! message at a time. Every call ends and touches only what it is lent, for any bytes and any tables;
//! a refused one changes nothing; nothing here allocates or panics.
//!
//! ```
//! use ladlemoss::{Level, Outcome, Refusal, Side};
//!
//! let mut directory = [0; 16];
//! let mut book = [0; ladlemoss::book_length(1)];
//! ladlemoss::fresh(&mut directory, &mut book)?;
//!
//! // R: locate 1 is ZVZZT. A: order 5 buys 300 at 10.0000. E: 100 of them are executed.
//! let head = [0, 1, 0, 0, 0, 0, 0, 0, 0, 0];
//! let r = [b"R", &head[..], b"ZVZZT   ", b"QN", &100u32.to_be_bytes(), b"NCZ PNN1N", &[0; 4], b"N"].concat();
//! let reference = 5u64.to_be_bytes();
//! let [shares, price, executed] = [300u32, 100_000, 100].map(u32::to_be_bytes);
//! let a = [b"A", &head[..], &reference, b"B", &shares, b"ZVZZT   ", &price].concat();
//! let e = [b"E", &head[..], &reference, &executed, &[0; 8]].concat();
//!
//! ladlemoss::apply(&mut directory, &mut book, &r)?;
//! ladlemoss::apply(&mut directory, &mut book, &a)?;
//! let Outcome::Moved(_, figures) = ladlemoss::apply(&mut directory, &mut book, &e)? else {
//!     unreachable!("E concerns one order");
//! };
//! assert_eq!((figures.shares, figures.remains), (100, 200));
//!
//! let bid = ladlemoss::best(&book, 1, Side::Buy)?;
//! assert_eq!(bid, Some(Level { price: 100_000, total: 200, count: 1 }));
//! assert_eq!(ladlemoss::best(&book, 1, Side::Sell)?, None);
//! assert_eq!(ladlemoss::order(&book, 5)?.executed, 100);
//! assert_eq!(ladlemoss::order(&book, 6), Err(Refusal::NoOrder));
//! assert_eq!(ladlemoss::symbol(&directory, &a), b"ZVZZT");
//! # Ok::<(), Refusal>(())
//! ```
//!
//! In all of it a text (a stock, an MPID, an attribution) is its bytes as one big-endian number, so that
//! `stock.to_be_bytes()` are the letters; a one-letter code is its byte; a price is in ten-thousandths, those of
//! [`MwcbDeclineLevel`] in hundred-millionths.

#![no_std]
#![forbid(unsafe_code)]
#![warn(missing_docs)]

mod auctions;
mod field;
mod message;
mod orders;
mod outcome;
mod questions;
mod refusal;
mod stocks;
mod trades;

pub use auctions::*;
pub use field::Side;
pub use message::Message;
pub use orders::*;
pub use outcome::{apply, Figures, Outcome};
pub use questions::{best, level, live_count, next, order, symbol, Account, Level};
pub use refusal::Refusal;
pub use stocks::*;
pub use trades::*;

/// The least length of a directory, in numbers.
pub const DIRECTORY_MIN: usize = 2;
/// The greatest length of a directory, in numbers.
pub const DIRECTORY_MAX: usize = 8_192;
/// The most numbers that the map of a book may have; each stands for 64 slots.
pub const BOOK_MAX_WORDS: usize = 64;

/// The length of a book whose map has that many numbers: 1 to 64 of them, for 64 slots each.
///
/// ```
/// let book = [0u64; ladlemoss::book_length(2)];
/// assert_eq!(book.len(), 514);
/// ```
pub const fn book_length(words: usize) -> usize {
    // A count beyond all bounds must not come round to a length that is allowed.
    words.saturating_mul(257)
}

/// Reads one message, lent with its exact length. The refusal is one of the first six.
///
/// ```
/// use ladlemoss::{Message, Refusal};
///
/// let event = ladlemoss::read(b"S\0\0\0\x07\0\0\0\0\0\x09O")?;
/// let Message::SystemEvent(event) = event else {
///     unreachable!("S is a system event");
/// };
/// assert_eq!((event.tracking_number, event.timestamp, event.event_code), (7, 9, b'O'));
/// assert_eq!(ladlemoss::read(b"Z"), Err(Refusal::Type));
/// # Ok::<(), Refusal>(())
/// ```
pub fn read(bytes: &[u8]) -> Result<Message, Refusal> {
    let mut out = [0; 18];
    Refusal::check(face::read(bytes, &mut out))?;
    accepted(&out)
}

/// Makes both tables fresh, all zero, or refuses with [`Refusal::Shape`] and leaves them.
///
/// ```
/// let (mut directory, mut book) = ([7; 2], [7; 256]);
/// let refused = ladlemoss::fresh(&mut directory, &mut book);
/// assert_eq!(refused, Err(ladlemoss::Refusal::Shape));
/// assert_eq!((directory, book), ([7; 2], [7; 256]));
/// ```
pub fn fresh(directory: &mut [u64], book: &mut [u64]) -> Result<(), Refusal> {
    Refusal::check(face::fresh(directory, book))
}

/// The message of an accepted answer, whose first number is always one of the 23 types.
#[inline]
fn accepted(out: &message::Numbers) -> Result<Message, Refusal> {
    Message::of(out).ok_or(Refusal::Type)
}
