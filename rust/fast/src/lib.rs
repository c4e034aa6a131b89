//! The calls `read` and `apply` and the desk's questions written for speed, the measure that the
//! product is held against.
//!
//! The same answers as the second program's reader: fixed offsets after one length test, whole
//! words loaded at once, text checked eight bytes at a time. It knows nothing of the product.

mod apply;
mod book;
mod checks;
mod directory;
mod life;
mod message;
mod numbers;
mod orders;
mod questions;
mod scan;
mod steps;
mod stock;
mod trades;

pub use apply::{apply_numbers, apply_numbers_by_eights};
pub use message::Message;
pub use numbers::{read_numbers, read_numbers_by_enum};
pub use orders::*;
pub use questions::{
    best_numbers, level_numbers, live_numbers, next_numbers, order_numbers, order_numbers_by_eights,
};
pub use stock::*;
pub use trades::*;

/// What a message is read as.
#[derive(Clone, Copy, Debug)]
pub enum Answer {
    Good(Message),
    Refused(u8),
}

/// Reads one message, lent with its exact length.
#[inline(always)]
pub fn read(bytes: &[u8]) -> Answer {
    match message::message_of(bytes) {
        Ok(message) => Answer::Good(message),
        Err(number) => Answer::Refused(number),
    }
}
