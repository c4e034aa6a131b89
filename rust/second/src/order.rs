//! An order as a slot of the book keeps it.

use crate::fields::{is_text, MAXIMUM_PRICE};

/// The attribution of an order that was added or replaced without one.
pub const NSDQ: [u8; 4] = *b"NSDQ";

/// What the four numbers of a slot say, sound or not.
#[derive(Clone, Copy, Debug, Default, PartialEq, Eq)]
pub struct Order {
    pub reference: u64,
    pub price: u32,
    pub added: u32,
    pub executed: u32,
    pub cancelled: u32,
    pub locate: u16,
    pub side: u8,
    pub attribution: [u8; 4],
    /// The low byte of the fourth number, which is 0 in a sound slot.
    pub low: u8,
}

impl Order {
    /// Takes any four numbers apart; nothing is lost.
    pub fn from_numbers(numbers: [u64; 4]) -> Self {
        let [reference, level, taken, holder] = numbers;
        let (price, added) = halves(level);
        let (executed, cancelled) = halves(taken);
        let [l1, l2, side, a1, a2, a3, a4, low] = holder.to_be_bytes();
        Order {
            reference,
            price,
            added,
            executed,
            cancelled,
            locate: u16::from_be_bytes([l1, l2]),
            side,
            attribution: [a1, a2, a3, a4],
            low,
        }
    }

    /// The four numbers that hold this order.
    pub fn numbers(&self) -> [u64; 4] {
        let [l1, l2] = self.locate.to_be_bytes();
        let [a1, a2, a3, a4] = self.attribution;
        [
            self.reference,
            whole(self.price, self.added),
            whole(self.executed, self.cancelled),
            u64::from_be_bytes([l1, l2, self.side, a1, a2, a3, a4, self.low]),
        ]
    }

    /// Executed and cancelled together, which may pass 32 bits in a damaged slot.
    fn taken(&self) -> u64 {
        u64::from(self.executed) + u64::from(self.cancelled)
    }

    /// Whether a live slot with this order is sound.
    pub fn is_sound(&self) -> bool {
        self.price <= MAXIMUM_PRICE
            && self.locate >= 1
            && (self.side == b'B' || self.side == b'S')
            && is_text(&self.attribution)
            && self.low == 0
            && self.taken() < u64::from(self.added)
    }

    /// The shares still shown, of an order from which no more was taken than was added.
    pub fn remaining(&self) -> u32 {
        let remaining = u64::from(self.added) - self.taken();
        u32::try_from(remaining).expect("no more than was added")
    }
}

/// A number as its upper and lower 32 bits.
fn halves(number: u64) -> (u32, u32) {
    let [a, b, c, d, e, f, g, h] = number.to_be_bytes();
    (
        u32::from_be_bytes([a, b, c, d]),
        u32::from_be_bytes([e, f, g, h]),
    )
}

/// The number of an upper and a lower half.
fn whole(upper: u32, lower: u32) -> u64 {
    u64::from(upper) * 0x1_0000_0000 + u64::from(lower)
}
