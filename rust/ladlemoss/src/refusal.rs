//! The refusals by name.

use core::fmt;

/// Why a call is refused. A refused call changes neither table.
#[derive(Clone, Copy, Debug, PartialEq, Eq, Hash)]
#[repr(u8)]
pub enum Refusal {
    /// No bytes, or not the type's length.
    Length = 1,
    /// The first byte is none of the 23 types.
    Type = 2,
    /// The timestamp is not below 86,400,000,000,000.
    Time = 3,
    /// A side, a printable or a text is not as it must be.
    Field = 4,
    /// A price of four bytes is above 2,000,000,000.
    Price = 5,
    /// Zero shares.
    Shares = 6,
    /// R, A, F: locate 0 or beyond the directory; A and F: or unregistered.
    Stock = 7,
    /// R, A, F: another symbol is registered; E, C, X, D, U: the order is of another locate.
    Conflict = 8,
    /// A, F: the reference is live; U: the new one is, or it equals the original.
    Duplicate = 9,
    /// The reference, for U the original, is not live.
    NoOrder = 10,
    /// E, C, X: more shares than remain.
    Over = 11,
    /// A, F: no free slot.
    Full = 12,
    /// The slot concerned is live and unsound.
    Book = 13,
    /// A directory or a book of a length that is none of the allowed ones.
    Shape = 14,
}

impl Refusal {
    /// The paper's number for it, 1 to 14.
    pub const fn number(self) -> u8 {
        self as u8
    }

    /// The paper's name for it.
    pub const fn name(self) -> &'static str {
        match self {
            Refusal::Length => "LENGTH",
            Refusal::Type => "TYPE",
            Refusal::Time => "TIME",
            Refusal::Field => "FIELD",
            Refusal::Price => "PRICE",
            Refusal::Shares => "SHARES",
            Refusal::Stock => "STOCK",
            Refusal::Conflict => "CONFLICT",
            Refusal::Duplicate => "DUPLICATE",
            Refusal::NoOrder => "NO ORDER",
            Refusal::Over => "OVER",
            Refusal::Full => "FULL",
            Refusal::Book => "BOOK",
            Refusal::Shape => "SHAPE",
        }
    }

    /// What a call's number says: 0 is done.
    pub(crate) fn check(number: u8) -> Result<(), Refusal> {
        Err(match number {
            0 => return Ok(()),
            1 => Refusal::Length,
            2 => Refusal::Type,
            3 => Refusal::Time,
            4 => Refusal::Field,
            5 => Refusal::Price,
            6 => Refusal::Shares,
            7 => Refusal::Stock,
            8 => Refusal::Conflict,
            9 => Refusal::Duplicate,
            10 => Refusal::NoOrder,
            11 => Refusal::Over,
            12 => Refusal::Full,
            13 => Refusal::Book,
            // 14: no call gives a number above it.
            _ => Refusal::Shape,
        })
    }
}

impl fmt::Display for Refusal {
    fn fmt(&self, f: &mut fmt::Formatter<'_>) -> fmt::Result {
        write!(f, "{} ({})", self.name(), self.number())
    }
}

impl core::error::Error for Refusal {}
