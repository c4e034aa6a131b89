//! The kinds of field in document 000, each with the paper's rule for it.

use crate::{FIELD, PRICE, SHARES, TIME};

/// The first timestamp that is too large: the nanoseconds of a day.
pub const DAY: u64 = 86_400_000_000_000;

/// The largest Price (4): 200,000.0000.
pub const MAXIMUM_PRICE: u32 = 2_000_000_000;

/// A kind of field: how wide it is, what is refused in it, and the number it is given out as.
pub trait Field: Copy {
    const WIDTH: usize;
    /// The field, or the number of its refusal.
    fn decode(bytes: &[u8]) -> Result<Self, u8>;
    /// The field's bytes as one big-endian number.
    fn number(self) -> u64;
}

/// Unsigned and big-endian, for any width up to 8.
fn big_endian(bytes: &[u8]) -> u64 {
    let mut number = 0;
    for &byte in bytes {
        number = number * 256 + u64::from(byte);
    }
    number
}

/// The same for the fields of 4 bytes.
fn big_endian_32(bytes: &[u8]) -> u32 {
    u32::try_from(big_endian(bytes)).expect("4 bytes")
}

impl Field for u16 {
    const WIDTH: usize = 2;
    fn decode(bytes: &[u8]) -> Result<Self, u8> {
        Ok(u16::try_from(big_endian(bytes)).expect("2 bytes"))
    }
    fn number(self) -> u64 {
        u64::from(self)
    }
}

impl Field for u32 {
    const WIDTH: usize = 4;
    fn decode(bytes: &[u8]) -> Result<Self, u8> {
        Ok(big_endian_32(bytes))
    }
    fn number(self) -> u64 {
        u64::from(self)
    }
}

impl Field for u64 {
    const WIDTH: usize = 8;
    fn decode(bytes: &[u8]) -> Result<Self, u8> {
        Ok(big_endian(bytes))
    }
    fn number(self) -> u64 {
        self
    }
}

/// Nanoseconds since midnight, below a day.
#[derive(Clone, Copy, Debug, PartialEq, Eq)]
pub struct Timestamp(pub u64);

impl Field for Timestamp {
    const WIDTH: usize = 6;
    fn decode(bytes: &[u8]) -> Result<Self, u8> {
        let time = big_endian(bytes);
        if time < DAY {
            Ok(Timestamp(time))
        } else {
            Err(TIME)
        }
    }
    fn number(self) -> u64 {
        self.0
    }
}

/// The Buy/Sell Indicator of A, F and P.
#[derive(Clone, Copy, Debug, PartialEq, Eq)]
pub enum Side {
    Buy,
    Sell,
}

impl Field for Side {
    const WIDTH: usize = 1;
    fn decode(bytes: &[u8]) -> Result<Self, u8> {
        match bytes {
            b"B" => Ok(Side::Buy),
            b"S" => Ok(Side::Sell),
            _ => Err(FIELD),
        }
    }
    fn number(self) -> u64 {
        match self {
            Side::Buy => u64::from(b'B'),
            Side::Sell => u64::from(b'S'),
        }
    }
}

/// C's Printable.
#[derive(Clone, Copy, Debug, PartialEq, Eq)]
pub enum Printable {
    Yes,
    No,
}

impl Field for Printable {
    const WIDTH: usize = 1;
    fn decode(bytes: &[u8]) -> Result<Self, u8> {
        match bytes {
            b"Y" => Ok(Printable::Yes),
            b"N" => Ok(Printable::No),
            _ => Err(FIELD),
        }
    }
    fn number(self) -> u64 {
        match self {
            Printable::Yes => u64::from(b'Y'),
            Printable::No => u64::from(b'N'),
        }
    }
}

/// An alpha field that the base hands on unread: one-letter codes, Reason, Issue Sub Type.
#[derive(Clone, Copy, Debug, PartialEq, Eq)]
pub struct Alpha<const N: usize>(pub [u8; N]);

impl<const N: usize> Field for Alpha<N> {
    const WIDTH: usize = N;
    fn decode(bytes: &[u8]) -> Result<Self, u8> {
        Ok(Alpha(bytes.try_into().expect("the field's width")))
    }
    fn number(self) -> u64 {
        big_endian(&self.0)
    }
}

/// A Stock, MPID or Attribution field.
#[derive(Clone, Copy, Debug, PartialEq, Eq)]
pub struct Text<const N: usize>(pub [u8; N]);

impl<const N: usize> Field for Text<N> {
    const WIDTH: usize = N;
    fn decode(bytes: &[u8]) -> Result<Self, u8> {
        if is_text(bytes) {
            Ok(Text(bytes.try_into().expect("the field's width")))
        } else {
            Err(FIELD)
        }
    }
    fn number(self) -> u64 {
        big_endian(&self.0)
    }
}

/// First byte from hex 21 to 7E, then such bytes, then only spaces.
pub(crate) fn is_text(bytes: &[u8]) -> bool {
    let is_visible = |byte: &u8| (0x21..=0x7E).contains(byte);
    let visible = bytes.iter().take_while(|byte| is_visible(byte)).count();
    visible >= 1 && bytes[visible..].iter().all(|&byte| byte == b' ')
}

/// A Price (4): an integer with four implied decimal places.
#[derive(Clone, Copy, Debug, PartialEq, Eq)]
pub struct Price(pub u32);

impl Field for Price {
    const WIDTH: usize = 4;
    fn decode(bytes: &[u8]) -> Result<Self, u8> {
        let price = big_endian_32(bytes);
        if price <= MAXIMUM_PRICE {
            Ok(Price(price))
        } else {
            Err(PRICE)
        }
    }
    fn number(self) -> u64 {
        u64::from(self.0)
    }
}

/// The shares of A, F, E, C, X and U: at least 1.
#[derive(Clone, Copy, Debug, PartialEq, Eq)]
pub struct Shares(pub u32);

impl Field for Shares {
    const WIDTH: usize = 4;
    fn decode(bytes: &[u8]) -> Result<Self, u8> {
        let shares = big_endian_32(bytes);
        if shares >= 1 {
            Ok(Shares(shares))
        } else {
            Err(SHARES)
        }
    }
    fn number(self) -> u64 {
        u64::from(self.0)
    }
}
